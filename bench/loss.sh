#!/usr/bin/env bash
# Streams over networks that lose datagrams, the program beside OpenAFS's own Rx library:
#     bench/loss.sh [BYTES [RUNS [CELL..]]]
# A stream of so many bytes (16,777,216) goes up and down through interop/proxy.c, so many times (3) in each cell. A
# cell is LOST:DELAY: of a hundred datagrams how many are lost, each way, and the milliseconds that each is under way;
# 0, 0.1, 1, 3 and 10 with 0, 2 and 20, unless some are named. Of each hundred one is repeated besides, and one goes
# behind later ones. The first run of each pair of ends has the losses that are drawn from 1, the second those of 2, and
# so on.
# The peers are those of interop/: a C client and a C server on libafsrpc.a, without jumbograms. Prints the medians in
# seconds, a line for each cell and direction; a run that isn't done in 60 seconds is `over 60`, and counts as longer
# than all others. All counts as it is used: a client's start and end too. All windows are those by default.
# Set in the environment: RX, the program, or else that of the gate or of ./rx; LIMIT, the seconds that a run may take;
# REPEATED and HELD, how many of a hundred; PAIRS, some of the pairs of ends `oo os co cs`, o being OpenAFS, c `rx call`
# and s `rx serve`; CALL_WORDS and SERVE_WORDS, more options of these; RUNS_TO, a file that a line of each run is added
# to: the ends, the direction, the cell, its number and the milliseconds; PORT, the first of two ports of 127.0.0.1
# (7930), so that runs can go side by side.
# Wants cc, Debian's libopenafs-dev, and processors that have nothing else to do.
set -u
top=$(cd "$(dirname "$0")/.." && pwd)
work=$(mktemp -d)
# shellcheck source=../interop/started.sh
. "$top/interop/started.sh"
trap 'end_all; rm -rf "$work"' EXIT
trap 'exit 1' INT TERM
RX=$(program ${RX:+"$RX"})
BYTES=${1:-16777216} RUNS=${2:-3} LIMIT=${LIMIT:-60} REPEATED=${REPEATED:-1} HELD=${HELD:-1}
PAIRS=${PAIRS:-oo os co cs} CALL_WORDS=${CALL_WORDS:-} SERVE_WORDS=${SERVE_WORDS:-} RUNS_TO=${RUNS_TO:-$work/all}
PORT=${PORT:-7930}
cells=("${@:3}")
[ "${#cells[@]}" -gt 0 ] || cells=({0,0.1,1,3,10}:{0,2,20})
client=$work/peers/client xg=$top/interop/peer.xg
declare -A ends=([oo]='OpenAFS, OpenAFS' [os]='OpenAFS, rx serve' [co]='rx call, OpenAFS' [cs]='rx call, rx serve')

# start_server PAIR: the server of these ends, at the port 7931.
start_server() {
    # shellcheck disable=SC2086
    case $1 in
        ?o) start_ready server "$work/peers/server" "$((PORT + 1))" ;;
        ?s) serve server "$xg" "$work/script" 127.0.0.1:$((PORT + 1)) 60 $SERVE_WORDS ;;
    esac
}

# client_words PAIR WAY: sets `words` to the command of the client of these ends.
client_words() {
    local work_words
    case $1$2 in
        o?*) words=("$client" "$PORT" 60 "$2" "$BYTES") && return ;;
        c?up) work_words=(Up '[7]' --up "$work/bytes") ;;
        c?down) work_words=(Down "[$BYTES]" --down yes) ;;
    esac
    # shellcheck disable=SC2206
    words=("$RX" call "$xg" "${work_words[@]:0:2}" --to "127.0.0.1:$PORT" --service 60 --epoch "$(epoch)"
        --turns 1000000000 "${work_words[@]:2}" $CALL_WORDS)
}

# run PAIR WAY LOST DELAY SEED: one stream. Sets `took` to its milliseconds, or to more than all where it has none.
run() {
    local words begin end status=0
    start_server "$1" || exit
    start_ready proxy "$work/peers/proxy" "$PORT" "$((PORT + 1))" "$5" "$3" "$REPEATED" "$HELD" "$4" || exit
    client_words "$1" "$2"
    begin=$(date +%s%N)
    timeout "$LIMIT" "${words[@]}" >"$work/said" 2>&1 </dev/null || status=$?
    end=$(date +%s%N)
    end_all
    case $status in
        0) took=$(((end - begin) / 1000000)) ;;
        124) took=$((LIMIT * 1000)) ;;
        *) took=999999999 && echo "$1 $2 $3:$4, run $5: $(head -c 200 "$work/said")" >&2 ;;
    esac
    echo "$1 $2 $3 $4 $5 $took" >>"$RUNS_TO"
}

# The median of the runs of a pair of ends, as it is printed.
median() {
    sort -n "$work/runs-$1" | awk -v limit="$LIMIT" '{ all[NR] = $1 } END {
        half = all[int((NR + 1) / 2)]
        if (half == 999999999) print "failed"
        else if (half >= limit * 1000) print "over", limit
        else printf "%.3f\n", half / 1000 }'
}

# measure LOST DELAY WAY: a line of the table. The pairs of ends run in turns, so that all have the machine as it is at
# the time.
measure() {
    local pair seed line="| $1 | $2 | $3 |"
    for ((seed = 1; seed <= RUNS; seed++)); do
        for pair in $PAIRS; do
            run "$pair" "$3" "$1" "$2" "$seed"
            echo "$took" >>"$work/runs-$pair"
        done
    done
    for pair in $PAIRS; do
        line+=" $(median "$pair") |"
    done
    rm "$work/runs-"*
    echo "$line"
}

"$top/interop/build.sh" "$work/peers" >"$work/build" 2>&1 || { cat "$work/build"; exit 1; }
"$client" 0 0 bytes "$BYTES" >"$work/bytes" 2>/dev/null
printf '%s\n' 'on Up' up 'count Size' 'on Down' down "send $BYTES*5a" >"$work/script"

head='| lost of a hundred | delay, ms | stream |' rule='|---|---|---|'
for pair in $PAIRS; do
    head+=" ${ends[$pair]} |" rule+='---|'
done
printf '%s\n' "$head" "$rule"
for cell in "${cells[@]}"; do
    for way in up down; do
        measure "${cell%:*}" "${cell#*:}" "$way"
    done
done
