#!/usr/bin/env bash
# Calls over loopback, the program beside OpenAFS's own Rx library: bench/udp.sh [PROGRAM]
# The peers are those of interop/: a C client and a C server on libafsrpc.a, with the stubs of OpenAFS's rxgen. Prints a
# line for each piece of work and pair of ends: the milliseconds of a call, the fastest of five runs, what that makes a
# second, the processor's microseconds that a call takes at the client and at the server, and the time beside that of
# OpenAFS's two ends at the same work.
# All counts as it is used: a client's start and end too; so `rx call`, which makes one call and ends, stands beside a C
# client that makes one call and ends, and rates of small calls are those of the C client against each server. `rx call`
# prints a download in hex, here to /dev/null, where the C client adds it up; `rx serve` prints two lines a call, here to
# a file. An upload is kept whole by `rx serve` and added up by the C server; a download is made before by `rx serve` and
# as it goes by the C server. All windows are those by default.
# Two rows more each have the same echoes at a server that knows 1,000 clients, beside one that knows one.
# Wants cc, Debian's libopenafs-dev, the ports 7920 to 7922 of 127.0.0.1, and processors that have nothing else to do.
set -u
top=$(cd "$(dirname "$0")/.." && pwd)
work=$(mktemp -d)
# shellcheck source=../interop/started.sh
. "$top/interop/started.sh"
trap 'end_all; rm -rf "$work"' EXIT
trap 'exit 1' INT TERM
RX=$(program "$@")
ECHOES=${ECHOES:-20000} BYTES=${BYTES:-16777216} RUNS=${RUNS:-5}
client=$work/peers/client xg=$top/interop/peer.xg

# The nanoseconds that the threads of a process had a processor.
used() {
    cat "/proc/${pid_of[$1]}"/task/*/schedstat | awk '{ all += $1 } END { printf "%.0f\n", all }'
}

# our_words PORT WORD..: sets `words` to those of `rx call` for the work of these words of the C client.
our_words() {
    local port=$1 work_words
    case $2 in
        echo) work_words=(Echo "[\"$(printf '%040d' 0)\"]") ;;
        up) work_words=(Up '[7]' --up "$work/bytes") ;;
        down) work_words=(Down "[$3]" --down yes) ;;
    esac
    words=("$RX" call "$xg" "${work_words[@]:0:2}" --to "127.0.0.1:$port" --service 60 --epoch "$(epoch)"
        --turns 1000000000 --jumbo "$jumbo" "${work_words[@]:2}")
}

# run ENDS WORD..: one run, the words being those of the C client. Prints its nanoseconds, the microseconds of the
# client and the nanoseconds of the server.
run() {
    local server=theirs port=7920 words before begin end
    case $1 in
        *', rx serve') server=ours port=7921 ;;
        *known) server=many port=7922 ;;
    esac
    case $1 in
        'rx call'*) our_words "$port" "${@:2}" ;;
        *) words=("$client" "$port" 60 "${@:2}") ;;
    esac
    before=$(used "$server")
    begin=$(date +%s%N)
    TIMEFORMAT='%U %S'
    { time "${words[@]}" >/dev/null 2>"$work/said.err"; } 2>"$work/time" || { head -c 200 "$work/said.err" >&2; exit 1; }
    end=$(date +%s%N)
    echo "$((end - begin)) $(awk '{ printf "%.0f", ($1 + $2) * 1e6 }' "$work/time") $(($(used "$server") - before))"
}

# measure WHAT CALLS SIZE WORD..: a line of the table for each pair of ends. They run in turns, so that all have the
# machine as it is at the time, with servers that begin with the work. Many calls of one client are those of the C client
# alone.
measure() {
    local what=$1 calls=$2 size=$3 pairs=('OpenAFS, OpenAFS' 'OpenAFS, rx serve') ends i first
    shift 3
    [ "$calls" != 1 ] || pairs+=('rx call, OpenAFS' 'rx call, rx serve')
    start_ready theirs "$work/peers/server" 7920 ${JUMBO:+"jumbo"} &&
        serve ours "$xg" "$work/script" 127.0.0.1:7921 60 --jumbo "$jumbo" || exit
    for ((i = 0; i < RUNS; i++)); do
        for ends in "${pairs[@]}"; do
            run "$ends" "$@" >>"$work/runs $ends"
        done
    done
    first=$(sort -n "$work/runs ${pairs[0]}" | awk 'NR == 1 { print $1 }')
    for ends in "${pairs[@]}"; do
        told "$what" "$ends" "$calls" "$size"
    done
    rm "$work/runs"*
    end_all
}

# known WHAT COUNT WORD..: a line for the work at a server that knows one client, and one for that at a server that knows so
# many, in turns; the time of both is beside that of the first.
known() {
    local what=$1 count=$2 few='OpenAFS, rx serve' ends i first
    local many="OpenAFS, rx serve, $count clients known"
    shift 2
    serve ours "$xg" "$work/script" 127.0.0.1:7921 60 && serve many "$xg" "$work/script" 127.0.0.1:7922 60 || exit
    for ((i = 1; i < count; i++)); do
        "$client" 7922 60 echo 1 1 20 >/dev/null || exit
    done
    for ((i = 0; i < RUNS; i++)); do
        for ends in "$few" "$many"; do
            run "$ends" "$@" >>"$work/runs $ends"
        done
    done
    first=$(sort -n "$work/runs $few" | awk 'NR == 1 { print $1 }')
    told "$what" "$few" "$ECHOES" 0
    told "$what" "$many" "$ECHOES" 0
    rm "$work/runs"*
    end_all
}

# told WHAT ENDS CALLS SIZE: the line of the table of the fastest of the runs of these ends.
told() {
    sort -n "$work/runs $2" | head -n 1 |
        awk -v what="$1" -v ends="$2" -v calls="$3" -v size="$4" -v first="$first" '{
            rate = size ? sprintf("%.1f MB", size * 1e3 / $1) : sprintf("%.0f", calls * 1e9 / $1)
            printf "| %s | %s | %.3f | %s | %.1f | %.1f | %.2f |\n", what, ends, $1 / calls / 1e6, rate,
                $2 / calls, $3 / calls / 1e3, $1 / first }'
}

# The pieces of work of one call.
one_calls() {
    measure "one echo$1" 1 0 echo 1 1 20
    measure "$BYTES bytes up$1" 1 "$BYTES" up "$BYTES"
    measure "$BYTES bytes down$1" 1 "$BYTES" down "$BYTES"
}

"$top/interop/build.sh" "$work/peers" >"$work/build" 2>&1 || { cat "$work/build"; exit 1; }
"$client" 0 0 bytes "$BYTES" >"$work/bytes" 2>/dev/null
printf '%s\n' 'on Echo' 'copy Same Body' 'on Up' up 'count Size' 'on Down' down "send $BYTES*5a" >"$work/script"

echo '| work | client, server | ms a call | a second | client, us a call | server, us a call | beside OpenAFS |'
echo '|---|---|---|---|---|---|---|'
jumbo=1 JUMBO=
measure "$ECHOES echoes, one at a time" "$ECHOES" 0 echo "$ECHOES" 1 20
measure "$ECHOES echoes, four at a time" "$ECHOES" 0 echo "$ECHOES" 4 20
known "$ECHOES echoes, one at a time" 1000 echo "$ECHOES" 1 20
known "$ECHOES echoes, four at a time" 1000 echo "$ECHOES" 4 20
one_calls ''
jumbo=4
export JUMBO=yes
one_calls ', jumbograms'
