# mutant.sh NAME CRATE EDIT: builds NAME.so
name=$1 crate=$2 edit=$3; W=$WT/m11lib/mut-$name; rm -rf $W; mkdir -p $W/tmp $W/keep; cp -r $WT/m11lib/crates $WT/m11lib/crates.txt $W/
python3 - "$W/crates/$crate" "$edit" <<'P' || exit 1
import sys
root, edit = sys.argv[1:]
file=old=None
for line in open(edit).read().split('\n'):
    if line.startswith('file: '): file=root+'/'+line[6:]
    elif line.startswith('old: '): old=line[5:]
    elif line.startswith('new: ') or line=='new:':
        new=line[5:]; s=open(file).read(); assert s.count(old)==1,(old,s.count(old)); open(file,'w').write(s.replace(old,new))
P
cd $W; (while [ ! -e done ]; do cp -rln tmp/. keep/ 2>/dev/null; sleep 0.05; done) & 
TMPDIR=$W/tmp $SLOTS/slot rt try reach > try.log 2>&1; touch done; wait
C=$KIT/toolchain/bin/clang
bc=$(ls keep/*-2/module.bc 2>/dev/null | head -1); [ -n "$bc" ] || { echo "$name: not built: $(tail -2 try.log)"; exit 1; }
$C -S -emit-llvm -x ir $bc -o mod.ll && python3 $WT/m11lib/wrap.py && $C -O2 -fPIC -c -x ir lib.ll -o lib.o && cc -shared -o $WT/m11lib/stub/$name.so lib.o; cd /; rm -rf $W
