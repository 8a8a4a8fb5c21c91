#!/usr/bin/env bash
# trial.sh NAME: builds $PERF/lib/NAME/libsorbrudder.a of the code in $WT/write/crates (or $2) without its proofs.
name=$1 from=${2:-$WT/write}; W=$PERF/t-$name; rm -rf $W; mkdir -p $W/tmp $W/keep $W/crates
for c in $from/crates/*; do mkdir -p $W/crates/$(basename $c); cp -r $c/src $W/crates/$(basename $c)/; [ -d $c/specs ] && cp -r $c/specs $W/crates/$(basename $c)/; done
cp -r ${REACH:-./unfinished/unproved-build/reach} $W/crates/reach
cp $from/crates.txt $W/; cat ${LINE:-./unfinished/unproved-build/crates-line.txt} >> $W/crates.txt
sed -i 's/^mod holding;/pub mod holding;/; s/^mod ruled;/pub mod ruled;/; /^#\[no_mangle\]/d; s/pub extern "C" fn/pub fn/' $W/crates/sorbrudder/src/*.rt
[ -x $W/../pre-$name.sh ] && (cd $W && ../pre-$name.sh)
cd $W; (while [ ! -e done ]; do cp -rln tmp/. keep/ 2>/dev/null; sleep 0.05; done) &
TMPDIR=$W/tmp $WT/bin/slot rt try reach > try.log 2>&1; touch done; wait
C=$KIT/toolchain/bin/clang
bc=$(ls keep/*-2/module.bc 2>/dev/null | head -1); [ -n "$bc" ] || { echo "$name: not built: $(tail -5 try.log)"; exit 1; }
mkdir -p $PERF/lib/$name
$C -S -emit-llvm -x ir $bc -o mod.ll && python3 ${WRAP:-$PERF/wrap.py} && $C ${OPT:--O3} -ffunction-sections -fPIC -c -x ir lib.ll -o lib.o && rm -f $PERF/lib/$name/libsorbrudder.a && ar rcs $PERF/lib/$name/libsorbrudder.a lib.o && cc -shared -Wl,-Bsymbolic -o $PERF/lib/$name/lib.so lib.o && echo "$name built"
