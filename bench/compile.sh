#!/bin/sh
# Interface files of 3,000 and 30,000 lines: rx compile, which puts the table, beside rxgen -h, which puts the header
# of the same text. Prints the seconds of each, the best of five, and the instructions of ours for each line.
# Wants rt; rxgen (in Debian's libopenafs-dev) and valgrind where they are there. The root of the repository is the
# working folder: bench/compile.sh
set -eu
work=$(mktemp -d)
trap 'rm -rf "$work"' EXIT

for blocks in 100 1000; do
    awk -v blocks=$blocks -f bench/interface.awk >"$work/$blocks.xg"
done
./rx --prove
./rx compile "$work/100.xg" >"$work/table"
[ "$(grep -c '^proc ' "$work/table")" = 100 ] || { echo "the table hasn't each procedure"; exit 1; }
ours=$(echo .rx/*.proved/rx)

# COMMAND: seconds of a run, the best of five.
seconds() {
    for _ in 1 2 3 4 5; do
        begin=$(date +%s%N)
        "$@" >"$work/out"
        end=$(date +%s%N)
        echo $((end - begin))
    done | sort -n | head -1 | awk '{ printf "%.3f", $1 / 1e9 }'
}

for blocks in 100 1000; do
    text=$work/$blocks.xg
    lines=$(wc -l <"$text")
    line="$lines lines: ours $(seconds "$ours" compile "$text") s"
    if command -v rxgen >"$work/which"; then
        line="$line, rxgen $(seconds rxgen -h -o "$work/header" "$text") s"
    fi
    if command -v valgrind >"$work/which"; then
        run=$(valgrind --tool=callgrind --callgrind-out-file=/dev/null "$ours" compile "$text" 2>&1 >"$work/out" \
            | sed -n 's/.*Collected : //p')
        line="$line, $((run / lines)) instructions for each line"
    fi
    echo "$line"
done
