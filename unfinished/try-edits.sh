#!/bin/bash
# try-edits CRATE EDIT...: each edit alone, in a copy of int, by rt dev; prints refused/ACCEPTED and the first error
cd $WT/int
copy=$TRIALS/te.$1; rm -rf $copy; mkdir $copy; cp -a crates crates.txt $copy/; mkdir $copy/target; for d in target/rlib target/stamp target/log target/inc; do [ -e $d ] && cp -a $d $copy/target/; done
crate=$1; shift
cd $copy
for e in "$@"; do
  name=$(basename $e .edit)
  cp -a crates/$crate $TRIALS/te.save.$crate
  python3 - "$e" "$crate" <<'PY'
import sys,re
e,crate=sys.argv[1:3]
t=open(e).read()
f=re.search(r"^file: (.*)$",t,re.M)[1]
old=re.findall(r"^old: ?(.*)$",t,re.M); new=re.findall(r"^new: ?(.*)$",t,re.M)
p=f"crates/{crate}/{f}"; s=open(p).read()
o="\n".join(old); n="\n".join(new)
assert o in s,(e,"does not apply")
open(p,"w").write(s.replace(o,n,1))
PY
  rt dev $crate > $TRIALS/te.out 2>&1
  if grep -q "logic=proved" $TRIALS/te.out; then echo "ACCEPTED $crate/$name"; else echo "refused $crate/$name: $(grep -m1 -n 'error' $TRIALS/te.out | cut -c1-260)"; fi
  rm -rf crates/$crate; mv $TRIALS/te.save.$crate crates/$crate
done
rm -rf $copy
