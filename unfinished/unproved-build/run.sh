cd $WT/m11lib
rm -f done; (while [ ! -e done ]; do cp -rln tmp/. keep/ 2>/dev/null; sleep 0.05; done) &
TMPDIR=$PWD/tmp $SLOTS/slot rt try reach > try.log 2>&1
touch done; wait
tail -5 try.log; find keep -type f | head -40
