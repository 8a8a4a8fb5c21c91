#define _GNU_SOURCE
#include <pthread.h>
#include <stdint.h>
#include <stdio.h>
#include <stdlib.h>
#include <string.h>
uint64_t sorbrudder_write(const uint32_t*, size_t, uint32_t*, size_t);
#define SIZE (4<<20)
static unsigned char*stack; static uint32_t tree[7*12288], list[20480]; static size_t n; static uint64_t answer;
static void*none(void*x){return x;} static void*run(void*x){ answer=sorbrudder_write(tree,7*n,list,20480); return x; }
static size_t used(void*(*g)(void*)){ memset(stack,0xA5,SIZE); pthread_attr_t a; pthread_attr_init(&a); pthread_attr_setstack(&a,stack,SIZE); pthread_t t; pthread_create(&t,&a,g,0); pthread_join(t,0); size_t i=0; while(stack[i]==0xA5) i++; return SIZE-i; }
static void put(unsigned op,unsigned c){ uint32_t w[7]={0x20000000u|op,0x40000000u,0x60000001u,0x80000000u,0xa0000000u,0xc0000000u|c,0xe0000001u}; memcpy(tree+7*n,w,28); n++; }
static size_t base;
static void say(const char*name){ size_t a=used(run); printf("%-40s %8zu bytes, answer %llx, nodes %zu\n",name,a-base,(unsigned long long)answer,n); n=0; }
int main(){ stack=aligned_alloc(4096,SIZE); base=used(none);
 put(61,0); used(run); n=0;
 for(int k=0;k<1365;k++){put(36,1);put(4,1);} put(61,0); say("calls over brackets");
 for(int k=0;k<1365;k++){put(6,1);put(4,1);} put(61,0); say("minus over brackets");
 for(int k=0;k<2047;k++)put(4,1); put(61,0); say("brackets");
 for(int k=0;k<2047;k++)put(75,2); put(61,0); for(int k=0;k<2047;k++)put(61,0); say("commas to the left");
 for(int k=0;k<1023;k++){put(4,1);put(9,2);put(61,0);} put(61,0); say("(a+(a+..))");
 for(int k=0;k<682;k++){put(59,2);put(61,0);put(60,2);put(61,0);} put(61,0); say("ladder of conditionals");
 for(int k=0;k<682;k++){put(59,2);put(61,0);put(60,2);put(61,0);put(4,1);} put(61,0); say("ladder in brackets");
 for(int k=0;k<682;k++){put(59,2);put(61,0);put(60,2);put(61,0);} put(6,1); put(61,0); say("ladder with a minus at its end");
 for(int k=0;k<1023;k++){put(9,2);put(61,0);} put(61,0); say("sum to the right");
 for(int k=0;k<1023;k++)put(9,2); put(61,0); for(int k=0;k<1023;k++)put(61,0); say("sum to the left");
 put(61,0);put(61,0); say("refused");
}
