#!/bin/sh
# Reading and writing messages: rx_packet_bench beside packet.c. Prints messages per second and instructions per
# message. Wants rt, clang and valgrind. Run it from any folder.
set -e
cd "$(dirname "$0")/.."
work=$(mktemp -d)
trap 'rm -rf "$work"' EXIT
(cd crates/rx_packet_bench && rt run -- 1 >"$work/build" 2>&1) || { tail "$work/build"; exit 1; }
clang -O2 bench/packet.c -o "$work/packet_c"

pool=2048
rounds=5000

# Seconds of so many rounds, the best of five.
seconds() {
    for _ in 1 2 3 4 5; do
        begin=$(date +%s%N)
        "$1" $rounds >>"$work/sums"
        end=$(date +%s%N)
        echo $((end - begin))
    done | sort -n | head -1
}

# Instructions of so many rounds.
instructions() {
    valgrind --tool=callgrind --callgrind-out-file=/dev/null "$1" "$2" 2>&1 >/dev/null | sed -n 's/.*Collected : //p'
}

measure() {
    nanoseconds=$(seconds "$2")
    few=$(instructions "$2" 10)
    many=$(instructions "$2" 60)
    per_second=$((pool * rounds * 1000 / (nanoseconds / 1000000)))
    echo "$1: $per_second messages per second, $(((many - few) / (50 * pool))) instructions per message"
}

measure Rattle crates/rx_packet_bench/out/rx_packet_bench
measure C "$work/packet_c"
[ "$(sort -u "$work/sums" | wc -l)" = 1 ] || { echo "the checksums differ"; exit 1; }
