#define _GNU_SOURCE
#include "sorbrudder.h"
#include <pthread.h>
#include <stdio.h>
#include <stdlib.h>
#include <string.h>
uint64_t sorbrudder_open(const uint32_t*,size_t,uint32_t*,size_t,size_t*,int16_t*,uint32_t*,uint32_t*,size_t,uint32_t*,size_t,uint32_t*,size_t,int16_t,uint32_t);
uint64_t sorbrudder_ask(size_t,int16_t,const uint32_t*,size_t,size_t,size_t,const uint32_t*,size_t,uint32_t*,size_t,uint32_t*,size_t,uint32_t*,size_t,uint32_t);
uint64_t sorbrudder_commit(size_t*,int16_t,uint32_t*,uint32_t,uint32_t*,size_t,size_t,size_t,const uint32_t*,size_t,uint32_t*,size_t,uint32_t*,size_t,uint32_t*,size_t,uint32_t);
uint64_t sorbrudder_adopt(int16_t*,uint32_t*,int16_t);
#define SIZE (1<<20)
static unsigned char *stack;
static uint32_t list[20480], words[20480], tree[21*4096], messages[16], work[64*4096+64], put[5];
static size_t tokens; static int16_t version; static uint32_t edits; static uint64_t answer;
static int n; static char which;
static void *none(void *x){ return x; }
static void *run(void *x){
  switch(which){
  case 'o': answer=sorbrudder_open(list,5*n,words,20480,&tokens,&version,&edits,tree,21*4096,messages,16,work,64*4096+64,6,4096); break;
  case 'a': answer=sorbrudder_ask(tokens,version,words,20480,0,0,put,0,tree,21*4096,messages,16,work,64*4096+64,4096); break;
  case 'c': answer=sorbrudder_commit(&tokens,version,&edits,edits,words,20480,0,0,put,0,tree,21*4096,messages,16,work,64*4096+64,4096); break;
  case 'r': answer=sorbrudder_commit(&tokens,version,&edits,edits+1,words,20480,0,0,put,0,tree,21*4096,messages,16,work,64*4096+64,4096); break;
  case 'd': answer=sorbrudder_adopt(&version,&edits,5); break;
  case 'p': { uint64_t lo,hi,len; sorbrudder_used(list,5*n,&lo,&hi,&len); answer=sorbrudder_parse(list,5*n,tree,21*4096,messages,16,work,64*4096+64,len,6,lo,hi,4096);} break;
  }
  return x; }
static size_t used(void*(*f)(void*)){
  memset(stack,0xA5,SIZE); pthread_attr_t a; pthread_attr_init(&a); pthread_attr_setstack(&a,stack,SIZE); pthread_t t; pthread_create(&t,&a,f,0); pthread_join(t,0);
  size_t i=0; while(stack[i]==0xA5) i++; return SIZE-i; }
int main(void){
  stack=aligned_alloc(4096,SIZE);
  for(int kind=0;kind<3;kind++) for(int len=0;len<3;len++){ n=(int[]){1,31,4095}[len];
    for(int t=0;t<n;t++){ unsigned op = kind==0 ? (t%2?9:61) : kind==1 ? (t<n/2?4:t==n/2?61:5) : 61; uint32_t w[5]={0x20000000u|op,0x40000000u|t,0x60000000u|(t+1),0x80000000u,0xA0000000u}; memcpy(list+5*t,w,20);}
    size_t base=used(none);
    printf("kind %d n %d:",kind,n);
    for(const char*c="poacrd";*c;c++){ which=*c; size_t u=used(run); printf(" %c %zu (%llx)",*c,u-base,(unsigned long long)answer);} puts("");
  }
  return 0; }
