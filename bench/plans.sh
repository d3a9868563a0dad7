#!/bin/sh
# Plans that grow tenfold, of 10,000 and 100,000 poll and deliver lines, and plans that double, of 1,600 and 3,200 calls in
# turn by invoke and rounds lines: rx sim of each. Prints the seconds of each, the best of three, and the microseconds and
# the instructions for each line of the trace: where they stay the same, the cost is linear.
# The program is the one that ./rx --prove builds, or else the one that is named; valgrind where it is there. The root of the
# repository is the working folder: bench/plans.sh [PROGRAM]
set -eu
work=$(mktemp -d)
trap 'rm -rf "$work"' EXIT
if [ $# -gt 0 ]; then
    program=$1
else
    ./rx --prove
    program=$(echo .rx/*.proved/rx)
fi

# PLAN: a run of it, with the interface and the script of the examples.
sim() {
    "$@" sim "$plan" --xg examples/fetch-status.xg --script examples/fetch-status.script >"$work/trace"
}

# The seconds of a run, the best of three.
seconds() {
    for _ in 1 2 3; do
        begin=$(date +%s%N)
        sim "$program"
        end=$(date +%s%N)
        echo $((end - begin))
    done | sort -n | head -1 | awk '{ printf "%.3f", $1 / 1e9 }'
}

# The instructions of a run.
instructions() {
    sim valgrind --tool=callgrind --callgrind-out-file=/dev/null "$program" 2>"$work/run"
    sed -n 's/.*Collected : //p' "$work/run"
}

# KIND CALLS: the figures of a plan of so many calls.
figures() {
    plan=$work/plan
    awk -v kind="$1" -v calls="$2" -f bench/plan.awk >"$plan"
    time=$(seconds)
    # the last call, which is asked for, ended well, and so did each invoke
    grep -q '^c[1-4] ask .* -> ok$' "$work/trace" || { echo "$1: the last call didn't end"; exit 1; }
    [ "$1" = lines ] || [ "$(grep -c '^answer .* ok' "$work/trace")" = "$2" ] || { echo "an invoke didn't end"; exit 1; }
    told=$(wc -l <"$work/trace")
    line="$1, $2 calls: $(grep -c '^poll\|^deliver' "$plan") poll and deliver lines of $(wc -l <"$plan"), trace of $told"
    line="$line: $time s, $(echo "$time $told" | awk '{ printf "%.1f", $1 * 1e6 / $2 }') microseconds a line"
    if command -v valgrind >"$work/which"; then
        line="$line, $(($(instructions) / told)) instructions a line"
    fi
    echo "$line"
}

figures lines 1111
figures lines 11111
figures invokes 1600
figures invokes 3200
