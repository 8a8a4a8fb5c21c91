#!/usr/bin/env bash
name=$1; V=$PERF/v/$name; rm -rf $V; mkdir -p $V; cp -r $WT/chain/crates $WT/chain/crates.txt $V/ ; (cd $V && python3 -c "$2") || exit 1
REACH=$PERF/reach $PERF/trial.sh $name $V
