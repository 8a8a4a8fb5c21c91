#!/usr/bin/env bash
# prof.sh NAME: a build of t-NAME with all functions of a list kept apart
n=$1; cd $PERF/t-$n
python3 - <<'P'
import re
s=open('lib.ll').read()
keep=['accept::token_words','accept::nesting','accept::accept','buffers::load::load','buffers::emit::emit','buffers::emit::copy_tree','buffers::emit::clear','buffers::emit::emit_node','buffers::emit::node_after','nodes::children::count_chain','grouping::group::group','sections::','grouping::driver::','passes::','order::','levels::','derived::','held::','own::','shape::','write::','parse::report']
names=set()
for m in re.finditer(r'^define [^@]*@"([^"]+)"',s,re.M): names.add(m.group(1))
open('names','w').write('\n'.join(sorted(names)))
want=['accept::token_words','accept::nesting','buffers::load::load','buffers::emit::emit','buffers::emit::copy_tree','buffers::emit::clear','grouping::group::group','grouping::driver::run','grouping::group::level','derived::used_of','derived::highest_end','held::copying::copy','shape::first_fault','write::plain::judge','write::spell::write_node','sections::sections','sections::members']
def f(m):
    name=m.group(2)
    return m.group(0)
out=[]
for line in s.split('\n'):
    m=re.match(r'^define (.*)@"([^"]+)"(\(.*\)) (#\d+)',line)
    if m and any(m.group(2)==w or (w.endswith('::') and m.group(2).startswith(w)) for w in want):
        line=line.replace(m.group(3)+' '+m.group(4), m.group(3)+' noinline '+m.group(4))
    out.append(line)
open('prof.ll','w').write('\n'.join(out))
P
$KIT/toolchain/bin/clang -O3 -fPIC -c -x ir prof.ll -o prof.o && mkdir -p $PERF/lib/$n-prof && cc -shared -Wl,-Bsymbolic -o $PERF/lib/$n-prof/lib.so prof.o && nm -S --size-sort $PERF/lib/$n-prof/lib.so | tail -40; grep -c . names
