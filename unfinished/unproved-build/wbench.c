#define _GNU_SOURCE
#include <dlfcn.h>
#include <dirent.h>
#include <stdint.h>
#include <stdio.h>
#include <stdlib.h>
#include <string.h>
#include <time.h>
typedef uint64_t (*W)(const uint32_t*, size_t, uint32_t*, size_t);
static double now(void){ struct timespec t; clock_gettime(CLOCK_MONOTONIC,&t); return t.tv_sec*1e9+t.tv_nsec; }
static int cmps(const void*a,const void*b){ return strcmp(*(char**)a,*(char**)b); }
int main(int argc,char**argv){
  int rounds=atoi(argv[1]); int k=argc-2; W f[16];
  for(int i=0;i<k;i++){ char p[300]; snprintf(p,300,"$PERF/lib/%s/lib.so",argv[2+i]); void*h=dlopen(p,RTLD_NOW|RTLD_LOCAL); if(!h){puts(dlerror());return 1;} f[i]=(W)dlsym(h,"sorbrudder_write"); if(!f[i]){puts("no sym");return 1;} }
  char*names[64]; int n=0; DIR*d=opendir("$PERF/trees"); struct dirent*e; while((e=readdir(d))) if(e->d_name[0]!='.') names[n++]=strdup(e->d_name); qsort(names,n,sizeof*names,cmps);
  static uint32_t*tree[64]; static size_t len[64]; static double best[64][16]; static uint32_t list[20480], ref[20480]; static size_t toks[64];
  for(int i=0;i<n;i++){ char p[300]; snprintf(p,300,"$PERF/trees/%s",names[i]); FILE*g=fopen(p,"rb"); fseek(g,0,SEEK_END); long s=ftell(g); rewind(g); tree[i]=aligned_alloc(64,(s+63)/64*64); fread(tree[i],1,s,g); fclose(g); len[i]=s/4;
    uint64_t r0=0; for(int j=0;j<k;j++){ best[i][j]=1e18; memset(list,0,sizeof list); uint64_t r=f[j](tree[i],len[i],list,20480); if(j==0){ r0=r; memcpy(ref,list,sizeof list);} else if(r!=r0||memcmp(ref,list,sizeof list)) printf("DIFFERENT %s %s\n",names[i],argv[2+j]); } toks[i]=0; for(size_t t=0;t<4096&&list[5*t];t++) toks[i]=t+1; }
  for(int r=0;r<rounds;r++) for(int i=0;i<n;i++) for(int jj=0;jj<k;jj++){ int j=(r%2)?k-1-jj:jj; int rep=60000/toks[i]+1; f[j](tree[i],len[i],list,5*toks[i]); double a=now(); for(int x=0;x<rep;x++) f[j](tree[i],len[i],list,5*toks[i]); double t=(now()-a)/rep/toks[i]; if(t<best[i][j]) best[i][j]=t; }
  printf("%-34s %6s",  "", ""); for(int j=0;j<k;j++) printf(" %14s",argv[2+j]); puts("");
  double sum[16]={0},mx[16]={0};
  for(int i=0;i<n;i++){ printf("%-34s %6zu",names[i],toks[i]); for(int j=0;j<k;j++){ double q=best[i][j]/best[i][0]; sum[j]+=q; if(q>mx[j]) mx[j]=q; printf("  %6.2f %5.3f",best[i][j],q);} puts(""); }
  printf("%-34s %6s","mean, greatest",""); for(int j=0;j<k;j++) printf("   %5.3f %5.3f",sum[j]/n,mx[j]); puts("");
}
