#!/usr/bin/env bash
# slot CMD ARGS..: runs a heavy command in one of three places (`rt dev` in one of five), so that two cores are not overrun.
# `rt must-fail X` would also try the edits of every crate that X leans on: here only those of X are tried, in a copy.
places="1 2 3"; long=1
case "$1 $2" in "rt fmt") exec "$@";;  "rt dev"|"rt try"|"rt goals") places="1 2 3 4 5"; long=;; tools/places.sh*) places="1 2 3 4 5"; long=;; esac
run() { if [ -n "$long" ]; then setsid -w bash -c 'echo 12 > /proc/self/autogroup 2>/dev/null; exec "$@"' _ "$@"; else "$@"; fi; }
while :; do
  while [ -e $SLOTS/quiet ]; do sleep 1; done
  for i in $places; do
    exec 9>$SLOTS/lock$i
    if flock -n 9; then
      if [ "$1" = rt ] && [ "$2" = must-fail ]; then
        shift 2
        copy=$(mktemp -d)
        cp -a crates crates.txt "$copy/"
        mkdir -p "$copy/target"; for d in target/*; do case "$d" in target/must-fail|target/inc) ;; *) cp -a "$d" "$copy/target/" ;; esac; done
        cd "$copy"
        for c in crates/*; do keep=; for x in "$@"; do [ "crates/$x" = "$c" ] && keep=1; done; [ -n "$keep" ] || rm -rf "$c/must-fail"; done
        RT_JOBS=1 run rt must-fail "$@"; s=$?
        cd /; rm -rf "$copy"; exit $s
      fi
      run "$@"; exit $?
    fi
    exec 9>&-
  done
  sleep 0.5
done
