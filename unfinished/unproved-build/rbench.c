#define _GNU_SOURCE
#include <dlfcn.h>
#include <dirent.h>
#include <stdint.h>
#include <stdio.h>
#include <stdlib.h>
#include <string.h>
#include <time.h>
typedef uint64_t (*P)(const uint32_t*,size_t,uint32_t*,size_t,uint32_t*,size_t,uint32_t*,size_t,uint64_t,int16_t,uint64_t,uint64_t,uint32_t);
static double now(void){ struct timespec t; clock_gettime(CLOCK_MONOTONIC,&t); return t.tv_sec*1e9+t.tv_nsec; }
static int cmps(const void*a,const void*b){ return strcmp(*(char**)a,*(char**)b); }
struct call { uint32_t n, len; int32_t v; uint32_t z; uint64_t lo, hi; uint32_t w[]; };
static uint32_t tree[21*4096+64], ref[21*4096+64], messages[16], *work;
static uint64_t go(P f, struct call*c){ size_t t=c->n/5; return f(c->w,c->n,tree,21*t,messages,16,work,64*t+64,c->len,c->v,c->lo,c->hi,4096); }
int main(int argc,char**argv){
  work=aligned_alloc(4096,4*(64*4096+64)+4096);
  int rounds=atoi(argv[1]); int k=argc-2; P f[16]; const char*only=getenv("ONLY");
  for(int i=0;i<k;i++){ char p[300]; snprintf(p,300,"$PERF/lib/%s/lib.so",argv[2+i]); void*h=dlopen(p,RTLD_NOW|RTLD_LOCAL); if(!h){puts(dlerror());return 1;} f[i]=(P)dlsym(h,"sorbrudder_parse"); }
  char*names[64]; int n=0; DIR*d=opendir("$PERF/lists"); struct dirent*e; while((e=readdir(d))) if(e->d_name[0]!='.'&&(!only||strstr(e->d_name,only))) names[n++]=strdup(e->d_name); qsort(names,n,sizeof*names,cmps);
  static char*data[64]; static size_t size[64],toks[64]; static double best[64][16];
  for(int i=0;i<n;i++){ char p[300]; snprintf(p,300,"$PERF/lists/%s",names[i]); FILE*g=fopen(p,"rb"); fseek(g,0,SEEK_END); size[i]=ftell(g); rewind(g); data[i]=aligned_alloc(64,(size[i]+63)/64*64); if(!fread(data[i],1,size[i],g)) return 1; fclose(g);
    for(size_t o=0;o<size[i];){ struct call*c=(void*)(data[i]+o); toks[i]+=c->n/5; uint64_t r0=0; for(int j=0;j<k;j++){ memset(tree,0,sizeof tree); uint64_t r=go(f[j],c); if(j==0){r0=r;memcpy(ref,tree,sizeof tree);} else if(r!=r0||memcmp(ref,tree,sizeof tree)) printf("DIFFERENT %s %s\n",names[i],argv[2+j]); } o+=sizeof*c+4*c->n; }
    for(int j=0;j<k;j++) best[i][j]=1e18; }
  for(int r=0;r<rounds;r++) for(int i=0;i<n;i++) for(int jj=0;jj<k;jj++){ int j=(r%2)?k-1-jj:jj; int rep=60000/toks[i]+1; double a=0; for(int x=-1;x<rep;x++){ if(x==0) a=now(); for(size_t o=0;o<size[i];){ struct call*c=(void*)(data[i]+o); go(f[j],c); o+=sizeof*c+4*c->n; } } double t=(now()-a)/rep/toks[i]; if(t<best[i][j]) best[i][j]=t; }
  printf("%-34s %6s",  "", ""); for(int j=0;j<k;j++) printf(" %14s",argv[2+j]); puts("");
  double sum[16]={0},mx[16]={0};
  for(int i=0;i<n;i++){ printf("%-34s %6zu",names[i],toks[i]); for(int j=0;j<k;j++){ double q=best[i][j]/best[i][0]; sum[j]+=q; if(q>mx[j]) mx[j]=q; printf("  %6.2f %5.3f",best[i][j],q);} puts(""); }
  printf("%-34s %6s","mean, greatest",""); for(int j=0;j<k;j++) printf("   %5.3f %5.3f",sum[j]/n,mx[j]); puts("");
}
