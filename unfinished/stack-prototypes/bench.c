#include <stdint.h>
#include <stddef.h>
#include <stdio.h>
#include <stdlib.h>
#include <string.h>
#include <time.h>
typedef uint32_t u32; typedef uint64_t u64; typedef size_t sz;
typedef u64 (*fn)(const u32*,sz,u32*,sz);
extern struct { const char*name; fn exp; fn imp; } protos[];
typedef struct { char name[32]; u32 size,count; u32**w; u32*len; u32 **s; sz nodes; } W;
static W ws[64]; static int nw;
static void ref_export(const u32*w, sz n, u32*o){ // plain recursive-free
  sz N=n/7; u32*st=malloc(4*N*2); sz sp=0,out=0;
  for(sz i=0;i<N;i++){ st[2*sp]=i; st[2*sp+1]=w[7*i+5]&0x1fffffff; sp++;
    while(sp&&st[2*sp-1]==0){ sp--; memcpy(o+7*out,w+7*st[2*sp],28); out++; if(sp) st[2*sp-1]--; } }
  free(st);
}
static double now(){ struct timespec t; clock_gettime(CLOCK_MONOTONIC,&t); return t.tv_sec*1e9+t.tv_nsec; }
int main(int argc,char**argv){
  int rounds = argc>1?atoi(argv[1]):20; const char*only = argc>2?argv[2]:0;
  FILE*f=fopen("proto/trees.bin","rb");
  while(1){ W*x=&ws[nw]; if(fread(x->name,1,32,f)!=32)break; fread(&x->size,4,1,f); fread(&x->count,4,1,f);
    x->w=malloc(8*x->count); x->s=malloc(8*x->count); x->len=malloc(4*x->count);
    for(u32 i=0;i<x->count;i++){ u32 l; fread(&l,4,1,f); x->len[i]=l; x->w[i]=malloc(4*l+64); fread(x->w[i],4,l,f); x->s[i]=malloc(4*l+64); ref_export(x->w[i],l,x->s[i]); x->nodes+=l/7; }
    nw++; }
  static u32 out[12288*7+64];
  int np=0; while(protos[np].name) np++;
  static double best[32][64][2];
  for(int p=0;p<np;p++) for(int k=0;k<nw;k++) for(int d=0;d<2;d++){ best[p][k][d]=1e18;
    for(u32 i=0;i<ws[k].count;i++){ u32 l=ws[k].len[i]; for(int j=0;j<64;j++) out[l+j]=0xabcdef00+j;
      fn g=d?protos[p].imp:protos[p].exp; if(!g) continue;
      const u32*in=d?ws[k].s[i]:ws[k].w[i]; const u32*want=d?ws[k].w[i]:ws[k].s[i];
      memset(out,0xee,4*l); u64 r=g(in,l,out,l); (void)r;
      if(memcmp(out,want,4*l)){ printf("%s %s %u dir %d WRONG\n",protos[p].name,ws[k].name,ws[k].size,d); break; }
      for(int j=0;j<64;j++) if(out[l+j]!=0xabcdef00+j){ printf("%s past\n",protos[p].name); break; } } }
  for(int r=0;r<rounds;r++) for(int k=0;k<nw;k++) for(int p=0;p<np;p++) for(int d=0;d<2;d++){
    if(only&&!strstr(protos[p].name,only)) continue;
    fn g=d?protos[p].imp:protos[p].exp; if(!g) continue; W*x=&ws[k];
    int reps=(240000+x->nodes-1)/x->nodes; double t0=0;
    for(int q=0;q<=reps;q++){ if(q==1) t0=now(); for(u32 i=0;i<x->count;i++) g(d?x->s[i]:x->w[i],x->len[i],out,x->len[i]); }
    double t=(now()-t0)/((double)reps*x->nodes); if(t<best[p][k][d]) best[p][k][d]=t; }
  for(int p=0;p<np;p++){ if(only&&!strstr(protos[p].name,only)) continue; printf("%-14s",protos[p].name);
    for(int k=nw/2;k<nw;k++) printf(" %5.2f/%5.2f",best[p][k][0],best[p][k][1]>1e17?0:best[p][k][1]);
    double g=0; for(int k=0;k<nw/2;k++) for(int d=0;d<2;d++) if(best[p][k+nw/2][d]<1e17){ double y=best[p][k+nw/2][d]/best[p][k][d]; if(y>g) g=y; }
    printf("  growth %.2f\n",g); }
  return 0;
}
