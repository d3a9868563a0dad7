#!/bin/sh
# A stream from one end of a call to the other: rx_call_bench beside call.c, which copies the same bytes three times.
# Prints for each window the instructions of a piece, of ours, of the C code, and what ours takes beside it.
# Wants rt, clang and valgrind, and the repository's root as the working folder: bench/call.sh
set -e
work=$(mktemp -d)
trap 'rm -rf "$work"' EXIT
(cd crates/rx_call_bench && rt run -- 100000 32 >"$work/build" 2>&1) || { tail "$work/build"; exit 1; }
clang -O2 bench/call.c -o "$work/call_c"

pieces=10000

# PROGRAM PIECES WINDOW: instructions of a run; its checksum is kept.
instructions() {
    valgrind --tool=callgrind --callgrind-out-file=/dev/null "$1" $(($2 * 1412)) "$3" 2>&1 >>"$work/sums.$2" |
        sed -n 's/.*Collected : //p'
}

# PROGRAM WINDOW: instructions of a piece, the start of the program left out.
per_piece() {
    few=$(instructions "$1" $pieces "$2")
    many=$(instructions "$1" $((2 * pieces)) "$2")
    echo $(((many - few) / pieces))
}

for window in 32 64 128 255; do
    ours=$(per_piece crates/rx_call_bench/out/rx_call_bench $window)
    copies=$(per_piece "$work/call_c" $window)
    echo "window $window: ours $ours, copies $copies, beside the copies $((ours - copies)) instructions a piece"
done
for sums in "$work"/sums.*; do
    [ "$(sort -u "$sums" | wc -l)" = 1 ] || { echo "the checksums differ"; exit 1; }
done
