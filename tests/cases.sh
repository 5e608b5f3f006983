#!/bin/sh
# Runs every script of tests/cases through a program and compares its answers with the stored ones: cases.sh PROGRAM
set -eu
program=$1
count=0
for script in tests/cases/*.txt; do
    "$program" <"$script" >build/case.out || { echo "$program failed on $script"; exit 1; }
    cmp -s build/case.out "${script%.txt}.out" || {
        echo "$program answers $script differently; stored answers on the left:"
        diff "${script%.txt}.out" build/case.out | head -n 10 | cut -c1-200
        exit 1
    }
    count=$((count + 1))
done
echo "$count cases, all as stored"
