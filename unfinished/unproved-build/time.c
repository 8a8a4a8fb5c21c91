#define _GNU_SOURCE
#include "sorbrudder.h"
#include <stdio.h>
#include <stdlib.h>
#include <string.h>
#include <time.h>
static uint32_t list[20480], words[20480], tree[21*4096], messages[16], work[64*4096+64];
static double now(void){ struct timespec t; clock_gettime(CLOCK_MONOTONIC,&t); return t.tv_sec*1e9+t.tv_nsec; }
static int cmp(const void*a,const void*b){ double x=*(double*)a,y=*(double*)b; return x<y?-1:x>y; }
int main(void){
  for(int len=0;len<2;len++) for(int kind=0;kind<2;kind++){ int n=(int[]){31,4095}[len];
    for(int t=0;t<n;t++){ unsigned op = kind==0 ? (t%2?9:61) : (t<n/2?4:t==n/2?61:5); uint32_t w[5]={0x20000000u|op,0x40000000u|t,0x60000000u|(t+1),0x80000000u,0xA0000000u}; memcpy(list+5*t,w,20);}
    struct sorbrudder_held h={0,0,0}; uint64_t lo,hi,sl; sorbrudder_used(list,5*n,&lo,&hi,&sl);
    static double took[5][2000]; 
    for(int r=0;r<2000;r++) for(int k=0;k<5;k++){ double a=now(); uint64_t x;
      switch(k){
      case 0: x=sorbrudder_parse(list,5*n,tree,21*n,messages,16,work,64*n+64,sl,6,lo,hi,4096); break;
      case 1: x=sorbrudder_held_open(&h,words,20480,list,5*n,tree,21*n,messages,16,work,64*n+64,6,4096); break;
      case 2: x=sorbrudder_held_ask(&h,words,20480,n/2,1,list+5*(n/2),5,tree,21*n,messages,16,work,64*n+64,4096); break;
      case 3: x=sorbrudder_held_commit(&h,h.edits,words,20480,n/2,1,list+5*(n/2),5,tree,21*n,messages,16,work,64*n+64,4096); break;
      default: sorbrudder_used(list,5*n,&lo,&hi,&sl); x=lo; break; }
      took[k][r]=now()-a; if(x==0x12345) puts("?"); }
    printf("n %d kind %d:",n,kind); for(int k=0;k<5;k++){ qsort(took[k],2000,sizeof(double),cmp); printf(" %s %.0f/%.0f",(char*[]){"parse","open","ask","commit","used"}[k],took[k][200],took[k][1000]); } puts(""); }
  return 0; }
