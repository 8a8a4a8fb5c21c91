#include <stdint.h>
#include <stddef.h>
#include <string.h>
typedef uint32_t u32; typedef uint64_t u64; typedef size_t sz; typedef int64_t i64;
#define LOW 0x1fffffffu
u64 sorbrudder_export(const u32*,sz,u32*,sz); u64 sorbrudder_import(const u32*,sz,u32*,sz);
u64 new_export(const u32*,sz,u32*,sz); u64 new_import(const u32*,sz,u32*,sz);
#include <emmintrin.h>
static inline void cp(u32*restrict o,const u32*restrict w){ __m128i x=_mm_loadu_si128((void*)w); u64 y; memcpy(&y,w+4,8); u32 z=w[6]; _mm_storeu_si128((void*)o,x); memcpy(o+4,&y,8); o[6]=z; }
// ---- checks: library's
static inline int is_node(const u32*w){
  u32 a=w[0]; if(a>>16!=0x2000) return 0; u32 v=a>>8&15; if(v>12) return 0; u32 op=(a&255)|((a>>12&15)<<8); if(!(op<=110||(256<=op&&op<=1023))) return 0;
  if(w[1]>>29!=2) return 0; if(w[2]>>29!=3) return 0;
  if(w[3]>>29!=4) return 0; if((w[3]&LOW)>=(v?65536:1)) return 0;
  if(w[4]>>29!=5) return 0; if((w[4]&LOW)>=(v?65536:1)) return 0;
  if(w[5]>>29!=6) return 0; if((w[5]&LOW)>=16384) return 0;
  return w[6]>>29==7; }
static inline int node_bad(const u32*w){ // one branch
  u32 a=w[0]; u32 v=a>>8&15; u32 op=(a&255)|((a>>12&15)<<8);
  u32 m = v==0 ? 0 : 0xffff;   // allowed half bits
  u32 bad = (a>>16)^0x2000;
  bad |= (u32)(v>12);
  bad |= (u32)(op-111 < 145u) | (op>>10);
  bad |= (w[1]>>29)^2; bad |= (w[2]>>29)^3;
  bad |= (w[3]&~m)^0x80000000u; bad |= (w[4]&~m)^0xa0000000u;
  bad |= (w[5]&~16383u)^0xc0000000u; bad |= (w[6]>>29)^7;
  return bad!=0; }
static int ck_t_lib(const u32*w,sz n){ u32 called=1,begun=0; sz at=0; while(n-at>=7){ if(called<=begun) return 0; if(!is_node(w+at)) return 0; called+=w[at+5]&LOW; if(called>12288) return 0; begun++; at+=7;} return called==begun&&at==n; }
static int ck_s_lib(const u32*w,sz n){ u32 done=0,begun=0; sz at=0; while(n-at>=7){ if(12288<begun+1) return 0; if(!is_node(w+at)) return 0; u32 c=w[at+5]&LOW; if(c>done) return 0; done=done-c+1; begun++; at+=7;} return done==1&&at==n; }
static int ck_t_one(const u32*w,sz n){ u32 called=1,begun=0; sz at=0; while(n-at>=7){ if(called<=begun) return 0; if(node_bad(w+at)) return 0; called+=w[at+5]&LOW; if(called>12288) return 0; begun++; at+=7;} return called==begun&&at==n; }
static int ck_s_one(const u32*w,sz n){ u32 done=0,begun=0; sz at=0; while(n-at>=7){ if(12288<begun+1) return 0; if(node_bad(w+at)) return 0; u32 c=w[at+5]&LOW; if(c>done) return 0; done=done-c+1; begun++; at+=7;} return done==1&&at==n; }
// ---- walks
// V0: port of the library's
static inline void walk0(const u32*w,sz n,u32*o,i64 d){
  i64 last=d>0?(i64)n-7:0, start=d>0?0:(i64)n-7; i64 read=start,wr=start,fr=last,node=start; u32 left=1; i64 past=last+7*d; d*=7;
  while(wr!=past){
    if(left==0){ i64 top=fr+d; u32 nn=o[top],ll=o[top+1]; cp(o+wr,w+node); wr+=d; fr=top; node=nn; left=ll; }
    else { u32 c=w[read+5]&LOW; if(c==0){ cp(o+wr,w+read); read+=d; wr+=d; left--; } else { o[fr]=node; o[fr+1]=left-1; fr-=d; node=read; left=c; read+=d; } } } }
// V1: a turn per read node, leaf or not by selects; the loop lets out
static inline void walk1(const u32*w,sz n,u32*o,i64 d){
  i64 last=d>0?(i64)n-7:0, start=d>0?0:(i64)n-7; i64 read=start,wr=start,fr=last,node=start; u32 left=1; i64 past=last+7*d; d*=7;
  while(read!=past){
    u32 c=w[read+5]&LOW; u32 l1=left-1;
    o[fr]=node; o[fr+1]=l1;
    cp(o+wr,w+read);
    i64 m=-(i64)(c!=0); // all ones where inner
    wr+=d&~m; fr-=d&m; node=(read&m)|(node&~m); left=(c&(u32)m)|(l1&~(u32)m);
    read+=d;
    while(left==0&&wr!=past){ fr+=d; u32 nn=o[fr],ll=o[fr+1]; cp(o+wr,w+node); wr+=d; node=nn; left=ll; }
  } }
// V1b: leaf branch, inner loop
static inline void walk1b(const u32*w,sz n,u32*o,i64 d){
  i64 last=d>0?(i64)n-7:0, start=d>0?0:(i64)n-7; i64 read=start,wr=start,fr=last,node=start; u32 left=1; i64 past=last+7*d; d*=7;
  while(read!=past){
    u32 c=w[read+5]&LOW;
    if(c!=0){ o[fr]=node; o[fr+1]=left-1; fr-=d; node=read; left=c; read+=d; continue; }
    cp(o+wr,w+read); wr+=d; read+=d; left--;
    while(left==0&&wr!=past){ fr+=d; u32 nn=o[fr],ll=o[fr+1]; cp(o+wr,w+node); wr+=d; node=nn; left=ll; }
  } }
// V3: three passes without a branch. d=+1: preorder in, from the right ends; 
// place k of a scan: node number; scratch words in the output: [7k+1] starts stack, [7k+2] ended count, [7k+3] end, [7k] inverse
static inline void walk3(const u32*w,sz n,u32*o,i64 d){
  i64 N=n/7;
  // number nodes 0..N-1 in reading order (from the left or from the right); A(k)= word index of the node number k
  #define A(k) (d>0?7*(k):7*(N-1-(k)))
  // pass 1: from the last to the first; stack of starts: S[0]=N sentinel at place 0 ... sp counts trees done
  i64 sp=0; // S[sp] at o[A(sp)+1]; S[0] = N
  o[A(0)+1]=(u32)N;
  for(i64 i=N-1;i>=0;i--){
    u32 c=w[A(i)+5]&LOW;
    o[A(i)+2]=0;            // count of nodes that end at i+1
    sp-=c;
    u32 e=o[A(sp)+1];
    o[A(i)+3]=e;
    o[A((i64)e-1)+2]+=1;
    sp++;
    if(sp<N) o[A(sp)+1]=(u32)i;
  }
  // pass 2
  i64 depth=0;
  for(i64 i=0;i<N;i++){
    i64 e=o[A(i)+3]; i64 p=e-1-depth;
    o[A(p)]=(u32)A(i);
    depth=depth+1-o[A(i)+2];
  }
  for(i64 p=0;p<N;p++) cp(o+A(p),w+o[A(p)]);
}
// V4: as 3 but kept: scratch compact? counts in two words

// V5: three passes, dense scratch: S at [0,N), X at [N,2N), inverse at [6N,7N)
static inline void walk5(const u32*w,sz n,u32*o,i64 d){
  i64 N=n/7; if(N==1){ cp(o,w); return; }
  u32*S=o,*X=o+N,*inv=o+6*N;
  const u32*q=d>0?w+7*(N-1)+5:w+5; i64 st=-7*d;
  i64 sp=0; S[0]=(u32)N-1;                 // S holds the last number before the next tree
  for(i64 i=N-1;i>0;i--){
    u32 c=*q&LOW; q+=st;
    sp-=c; u32 e=S[sp];                   // e = end-1
    X[i]=e<<16; X[e]+=1; sp++; S[sp]=(u32)i-1;
  }
  X[0]=(u32)(N-1)<<16; X[N-1]+=1;
  i64 depth=0; 
  if(d>0){ u32 a=0; for(i64 i=0;i<N;i++){ u32 x=X[i]; inv[(i64)(x>>16)-depth]=a; depth+=1-(i64)(x&0xffff); a+=7; } }
  else { u32 a=7*(N-1); for(i64 i=0;i<N;i++){ u32 x=X[i]; inv[(N-1)-(i64)(x>>16)+depth]=a; depth+=1-(i64)(x&0xffff); a-=7; } }
  for(i64 p=0;p<N;p++){ cp(o,w+inv[p]); o+=7; }
}
typedef struct { u64 a,b; } Q;
static inline u64 ld(const u32*p){ return (u64)p[0]|(u64)p[1]<<32; }
// accumulated check of the nodes; 0 where all are legal and the shape holds
static inline int ck_t_acc(const u32*w,sz n){
  if(n%7||n==0||n>12288*7) return 0; u64 b12=0,b34=0,b34z=0,b56=0; u32 b0=0,bv=0,bo=0,bc=0; u32 called=1; sz N=n/7;
  for(sz i=0;i<N;i++){ const u32*p=w+7*i; u32 a=p[0]; u64 q12=ld(p+1),q34=ld(p+3)^0xa000000080000000ull,q56=ld(p+5);
    b0|=a^0x20000000u; bv|=(a&0xf00)+0x300; bo|=((a&0x30ff)-111u)<145u; b12|=q12^0x6000000040000000ull;
    u64 z=(u64)((i64)((i64)(a&0xf00)-1)>>63); b34|=q34; b34z|=q34&z; b56|=q56^0xe0000000c0000000ull;
    bc|=called-(u32)i-1; called+=(u32)q56&0x3fff; }
  return !((b0&0xffffc000u)|(bv&0x1000)|bo|(bc>>31)) && !(b12&0xe0000000e0000000ull) && !(b34&0xffff0000ffff0000ull) && !b34z && !(b56&0xe0000000ffffc000ull) && called==N; }
static inline int ck_s_acc(const u32*w,sz n){
  if(n%7||n==0||n>12288*7) return 0; u64 b12=0,b34=0,b34z=0,b56=0; u32 b0=0,bv=0,bo=0,bc=0; u32 done=0; sz N=n/7;
  for(sz i=0;i<N;i++){ const u32*p=w+7*i; u32 a=p[0]; u64 q12=ld(p+1),q34=ld(p+3)^0xa000000080000000ull,q56=ld(p+5);
    b0|=a^0x20000000u; bv|=(a&0xf00)+0x300; bo|=((a&0x30ff)-111u)<145u; b12|=q12^0x6000000040000000ull;
    u64 z=(u64)((i64)((i64)(a&0xf00)-1)>>63); b34|=q34; b34z|=q34&z; b56|=q56^0xe0000000c0000000ull;
    done-=(u32)q56&0x3fff; bc|=done; done++; }
  return !((b0&0xffffc000u)|(bv&0x1000)|bo|(bc>>31)) && !(b12&0xe0000000e0000000ull) && !(b34&0xffff0000ffff0000ull) && !b34z && !(b56&0xe0000000ffffc000ull) && done==1; }

#include <emmintrin.h>
// SSE check: what a hand-written one takes
static inline int acc_end(__m128i x){ return _mm_movemask_epi8(_mm_cmpeq_epi32(x,_mm_setzero_si128()))==0xffff; }
#define SSEBODY(STEP) \
  __m128i A=_mm_setzero_si128(),B=A,Z=A,F=A; const __m128i KA=_mm_setr_epi32(0x20000000,0x40000000,0x60000000,0x80000000),KB=_mm_setr_epi32(0x80000000,0xa0000000,0xc0000000,0xe0000000); u32 bc=0; \
  const u32*p=w,*pe=w+n; u32 i=0; \
  do { __m128i a=_mm_loadu_si128((void*)p),b=_mm_xor_si128(_mm_loadu_si128((void*)(p+3)),KB); u32 x=p[0]; \
    A=_mm_or_si128(A,_mm_xor_si128(a,KA)); B=_mm_or_si128(B,b); \
    __m128i zv=_mm_shuffle_epi32(_mm_cmpeq_epi32(_mm_and_si128(a,_mm_set1_epi32(0xf00)),_mm_setzero_si128()),0); Z=_mm_or_si128(Z,_mm_and_si128(zv,b)); \
    u32 t=x&0x30ff; bc|=(0xc00-(x&0xf00))|((t-256)&(110-t)); u32 c=p[5]&0x3fff; STEP; p+=7; i++; } while(p!=pe); \
  A=_mm_and_si128(A,_mm_setr_epi32(0xffffc000,0xe0000000,0xe0000000,0xffff0000)); B=_mm_and_si128(B,_mm_setr_epi32(0xffff0000,0xffff0000,0xffffc000,0xe0000000)); Z=_mm_and_si128(Z,_mm_setr_epi32(-1,-1,0,0)); \
  int ok=acc_end(_mm_or_si128(A,_mm_or_si128(B,Z)))&&!(bc>>31);
static inline int ck_t_sse(const u32*w,sz n){ if(n%7||n==0||n>12288*7) return 0; u32 called=1; SSEBODY(bc|=called-i-1; called+=c) return ok&&called==n/7; }
static inline int ck_s_sse(const u32*w,sz n){ if(n%7||n==0||n>12288*7) return 0; u32 done=0; SSEBODY(done-=c; bc|=done; done++) return ok&&done==1; }
// scalar, fewer accumulators: one 64-bit for the kinds
#define SCBODY(STEP) \
  u64 b=0,z=0; u32 b0=0,bc=0; const u32*p=w,*pe=w+n; u32 i=0; \
  do { u32 a=p[0]; u64 h=ld(p+3)^0xa000000080000000ull; \
    b0|=a^0x20000000u; u32 v=a&0xf00,t=a&0x30ff; bc|=(0xc00-v)|((t-256)&(110-t)); \
    b|=h; z|=h&((u64)((i64)v-1)>>32&0xffffffffull|((i64)v-1)&0); \
    STEP; p+=7; i++; } while(p!=pe);

static inline void p1(const u32*w,sz n,u32*o,i64 d){
  i64 N=n/7; u32*S=o,*X=o+N,*inv=o+6*N;
  const u32*q=d>0?w+7*(N-1)+5:w+5; i64 st=-7*d;
  i64 sp=0; S[0]=(u32)N-1;
  for(i64 i=N-1;i>0;i--){ u32 c=*q&LOW; q+=st; sp-=c; u32 e=S[sp]; X[i]=e<<16; X[e]+=1; sp++; S[sp]=(u32)i-1; }
  X[0]=(u32)(N-1)<<16; X[N-1]+=1; }
static inline void p2(const u32*w,sz n,u32*o,i64 d){
  i64 N=n/7; u32*S=o,*X=o+N,*inv=o+6*N; p1(w,n,o,d);
  i64 depth=0; 
  if(d>0){ u32 a=0; for(i64 i=0;i<N;i++){ u32 x=X[i]; inv[(i64)(x>>16)-depth]=a; depth+=1-(i64)(x&0xffff); a+=7; } }
  else { u32 a=7*(N-1); for(i64 i=0;i<N;i++){ u32 x=X[i]; inv[(N-1)-(i64)(x>>16)+depth]=a; depth+=1-(i64)(x&0xffff); a-=7; } } }
static inline void p0(const u32*w,sz n,u32*o,i64 d){ memcpy(o,w,4*n); }
static inline void p00(const u32*w,sz n,u32*o,i64 d){ for(sz i=0;i<n;i+=7) cp(o+i,w+i); }

// V1c: the first ended node goes out without a branch too
static inline void walk1c(const u32*w,sz n,u32*o,i64 d){
  i64 last=d>0?(i64)n-7:0, start=d>0?0:(i64)n-7; i64 read=start,wr=start,fr=last,node=start; u32 left=1; i64 past=last+7*d; d*=7;
  while(read!=last){
    u32 c=w[read+5]&LOW; u32 l1=left-1;
    o[fr]=node; o[fr+1]=l1;
    cp(o+wr,w+read);
    i64 m=-(i64)(c!=0);
    wr+=d&~m; fr-=d&m; node=(read&m)|(node&~m); left=(c&(u32)m)|(l1&~(u32)m);
    read+=d;
    i64 k=-(i64)(left==0);
    fr+=d&k; u32 nn=o[fr],ll=o[fr+1]; cp(o+wr,w+node); wr+=d&k; node=(nn&k)|(node&~k); left=(ll&(u32)k)|(left&~(u32)k);
    while(left==0){ fr+=d; u32 nn=o[fr],ll=o[fr+1]; cp(o+wr,w+node); wr+=d; node=nn; left=ll; }
  }
  cp(o+wr,w+read); wr+=d;
  while(wr!=past){ fr+=d; u32 nn=o[fr]; cp(o+wr,w+node); wr+=d; node=nn; }
}
// V6: as V5, the count of ends kept in a register where the end stays the same
static inline void walk6(const u32*w,sz n,u32*o,i64 d){
  i64 N=n/7; if(N==1){ cp(o,w); return; }
  u32*S=o,*X=o+N,*inv=o+6*N;
  const u32*q=d>0?w+7*(N-1)+5:w+5; i64 st=-7*d;
  i64 sp=0; S[0]=(u32)N-1; u32 pe=(u32)N,k=0; X[N]=0;
  for(i64 i=N-1;i>=0;i--){
    u32 c=*q&LOW; q+=st; sp-=c; u32 e=S[sp];
    X[i]=e<<16; i64 same=-(i64)(e==pe); u32 at=(e&~(u32)same)|((u32)N&(u32)same);
    u32 old=X[at]; k=((k&(u32)same)+1)+(old&0xffff); X[e]=(e==(u32)i?(u32)e<<16:X[e]&0xffff0000u)|k;
    pe=e; sp++; S[sp]=(u32)i-1;
  }
  i64 depth=0; 
  if(d>0){ u32 a=0; for(i64 i=0;i<N;i++){ u32 x=X[i]; inv[(i64)(x>>16)-depth]=a; depth+=1-(i64)(x&0xffff); a+=7; } }
  else { u32 a=7*(N-1); for(i64 i=0;i<N;i++){ u32 x=X[i]; inv[(N-1)-(i64)(x>>16)+depth]=a; depth+=1-(i64)(x&0xffff); a-=7; } }
  for(i64 p=0;p<N;p++){ cp(o,w+inv[p]); o+=7; }
}
// V7: ends and counts apart, so that a count is only stored
static inline void walk7(const u32*w,sz n,u32*o,i64 d){
  i64 N=n/7; if(N==1){ cp(o,w); return; }
  u32*S=o,*E=o+N+1,*C=o+2*N+1,*inv=o+6*N;
  const u32*q=d>0?w+7*(N-1)+5:w+5; i64 st=-7*d;
  i64 sp=0; S[0]=(u32)N-1; u32 pe=(u32)N,k=0; C[N]=0;
  for(i64 i=N-1;i>=0;i--){
    u32 c=*q&LOW; q+=st; sp-=c; u32 e=S[sp]; E[i]=e; C[i]=0;
    i64 same=-(i64)(e==pe); i64 at=((i64)e&~same)|(N&same);
    k=((k&(u32)same)+1)+C[at]; C[e]=k; pe=e; sp++; S[sp]=(u32)i-1;
  }
  i64 depth=0; 
  if(d>0){ u32 a=0; for(i64 i=0;i<N;i++){ inv[(i64)E[i]-depth]=a; depth+=1-(i64)C[i]; a+=7; } }
  else { u32 a=7*(N-1); for(i64 i=0;i<N;i++){ inv[(N-1)-(i64)E[i]+depth]=a; depth+=1-(i64)C[i]; a-=7; } }
  for(i64 p=0;p<N;p++){ cp(o,w+inv[p]); o+=7; }
}

#define ACC2(STEP) \
  u32 b0=0,bv=0,bc=0; u64 b12=0,b34=0; const u32*p=w,*pe=w+n; \
  do { u32 a=p[0]; u32 v=a&0xf00,t=a&0x30ff; bv|=v+0x300; bc|=(t-256)&(110-t); b0|=a^0x20000000u; \
    u64 z=(u64)(((i64)v-1)>>63)|0xffff0000ffff0000ull; b34|=(ld(p+3)^0xa000000080000000ull)&z; \
    b12|=ld(p+1)^0x6000000040000000ull; b12|=p[6]^0xe0000000u; u32 c=p[5]; b0|=c^0xc0000000u; c&=0x3fff; STEP; p+=7; } while(p!=pe); \
  int ok=!((b0&0xffffc000u)|(bv&0x1000)|(bc>>31))&&!(b12&0xe0000000e0000000ull)&&!b34;
static inline int ck_t_ac2(const u32*w,sz n){ if(n%7||n==0||n>12288*7) return 0; u32 pend=1; ACC2(pend--; bc|=pend; pend+=c) return ok&&pend==0; }
static inline int ck_s_ac2(const u32*w,sz n){ if(n%7||n==0||n>12288*7) return 0; u32 done=0; ACC2(done-=c; bc|=done; done++) return ok&&done==1; }
#define BOTH(nm,ck1,ck2,walk) \
 static u64 exp_##nm(const u32*w,sz n,u32*o,sz m){ if(!ck1(w,n)||m<n) return 0; walk(w,n,o,1); return n/7; } \
 static u64 imp_##nm(const u32*w,sz n,u32*o,sz m){ if(!ck2(w,n)||m<n) return 0; walk(w,n,o,-1); return n/7; }
static inline int ck_none(const u32*w,sz n){ return 1; }
BOTH(v0l,ck_t_lib,ck_s_lib,walk0)
BOTH(v0n,ck_none,ck_none,walk0)
BOTH(v1n,ck_none,ck_none,walk1)
BOTH(v1bn,ck_none,ck_none,walk1b)
BOTH(v3n,ck_none,ck_none,walk3)
BOTH(v1,ck_t_one,ck_s_one,walk1)
BOTH(v3,ck_t_one,ck_s_one,walk3)
BOTH(v5n,ck_none,ck_none,walk5)
BOTH(v5a,ck_t_acc,ck_s_acc,walk5)
BOTH(v0a,ck_t_acc,ck_s_acc,walk0)
BOTH(v1a,ck_t_acc,ck_s_acc,walk1)
static u64 e_cka(const u32*w,sz n,u32*o,sz m){ return ck_t_acc(w,n); }
static u64 i_cka(const u32*w,sz n,u32*o,sz m){ return ck_s_acc(w,n); }
BOTH(v5s,ck_t_sse,ck_s_sse,walk5)
BOTH(v0s,ck_t_sse,ck_s_sse,walk0)
static u64 e_cks(const u32*w,sz n,u32*o,sz m){ return ck_t_sse(w,n); }
static u64 i_cks(const u32*w,sz n,u32*o,sz m){ return ck_s_sse(w,n); }
BOTH(p1,ck_none,ck_none,p1)
BOTH(p2,ck_none,ck_none,p2)
BOTH(p0,ck_none,ck_none,p0)
BOTH(p00,ck_none,ck_none,p00)
BOTH(v1cn,ck_none,ck_none,walk1c)
BOTH(v7n,ck_none,ck_none,walk7)
BOTH(v7a,ck_t_acc,ck_s_acc,walk7)
BOTH(v7s,ck_t_sse,ck_s_sse,walk7)
BOTH(v1ca,ck_t_acc,ck_s_acc,walk1c)
BOTH(v52,ck_t_ac2,ck_s_ac2,walk5)
BOTH(v02,ck_t_ac2,ck_s_ac2,walk0)
static u64 e_ck2(const u32*w,sz n,u32*o,sz m){ return ck_t_ac2(w,n); }
static u64 i_ck2(const u32*w,sz n,u32*o,sz m){ return ck_s_ac2(w,n); }
static volatile int sink;
static u64 e_ckl(const u32*w,sz n,u32*o,sz m){ return ck_t_lib(w,n); }
static u64 i_ckl(const u32*w,sz n,u32*o,sz m){ return ck_s_lib(w,n); }
static u64 e_cko(const u32*w,sz n,u32*o,sz m){ return ck_t_one(w,n); }
static u64 i_cko(const u32*w,sz n,u32*o,sz m){ return ck_s_one(w,n); }
typedef u64 (*fn)(const u32*,sz,u32*,sz);
struct { const char*name; fn exp; fn imp; } protos[]={
 {"lib",sorbrudder_export,sorbrudder_import},{"libnew",new_export,new_import},{"v0+lib",exp_v0l,imp_v0l},{"v0 none",exp_v0n,imp_v0n},{"v1 none",exp_v1n,imp_v1n},{"v1b none",exp_v1bn,imp_v1bn},{"v3 none",exp_v3n,imp_v3n},{"v1+one",exp_v1,imp_v1},{"v3+one",exp_v3,imp_v3},
 {"ck lib",e_ckl,i_ckl},{"v5 none",exp_v5n,imp_v5n},{"v5+acc",exp_v5a,imp_v5a},{"v0+acc",exp_v0a,imp_v0a},{"v1+acc",exp_v1a,imp_v1a},{"ck acc",e_cka,i_cka},{"v5+sse",exp_v5s,imp_v5s},{"v0+sse",exp_v0s,imp_v0s},{"ck sse",e_cks,i_cks},{"part p1",exp_p1,imp_p1},{"part p1p2",exp_p2,imp_p2},{"part memcpy",exp_p0,imp_p0},{"part nodecpy",exp_p00,imp_p00},{"v1c none",exp_v1cn,imp_v1cn},{"v1c+acc",exp_v1ca,imp_v1ca},{"v7 none",exp_v7n,imp_v7n},{"v7+acc",exp_v7a,imp_v7a},{"v7+sse",exp_v7s,imp_v7s},{"v5+ac2",exp_v52,imp_v52},{"v0+ac2",exp_v02,imp_v02},{"ck ac2",e_ck2,i_ck2},{"ck one",e_cko,i_cko},{0}};
