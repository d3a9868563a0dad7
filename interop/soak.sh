#!/usr/bin/env bash
# Calls of all kinds over a bad network for some minutes: interop/soak.sh MINUTES
# The program calls OpenAFS's library and itself, and that library calls the program: plain calls, streams up, down and
# both ways, jumbograms, calls that take seconds, codes, with a key and without. Each goes through interop/proxy.c, that
# loses, repeats and holds datagrams, and comes from a process of its own with a fresh epoch; its answer is compared.
# The servers of the program know as many connections at a time as clients come in 10.75 minutes. So in 12 minutes or
# more there come more than that, and those that were silent for ten minutes are forgotten for new ones.
# Prints a line each minute and for each wrong answer, and at the end one that begins with `passed` and has the figures,
# or with `failed` and says how many answers were wrong, or which server ended or grew by more than 8 MB.
# Set in the environment: RX, the program, or else that of the gate or of ./rx; PACE, the clients of each server a
# minute; SEED, by which the calls and the losses are drawn.
# Wants root, cc, ip, and Debian's libopenafs-dev. It runs in a network namespace of its own.
set -u
here=$(cd "$(dirname "$0")" && pwd)
top=$(dirname "$here")
# shellcheck source=started.sh
. "$here/started.sh"

if [ "${1:-}" != --inside ]; then
    [[ $# = 1 && $1 =~ ^[1-9][0-9]{0,3}$ ]] || { echo 'usage: interop/soak.sh MINUTES'; exit 1; }
    own_network "$@"
fi

minutes=$2 PACE=${PACE:-60} SEED=${SEED:-1}
CONNS=$(((PACE * 43 + 3) / 4)) MOST_CALLS=32 CALL_SECONDS=150 MOST_KB=8192 STREAM=300000
SERVE_MS=$(((minutes * 60 + CALL_SECONDS + 60) * 1000))
xg=$here/peer.xg work=$(mktemp -d) drawn=0 asked=0 told=0 wrong=0 figures='' faults=()
declare -A before
trap finish EXIT
trap 'exit 1' INT TERM
RANDOM=$SEED

finish() {
    end_all
    # shellcheck disable=SC2046
    kill $(jobs -p) 2>/dev/null
    rm -rf "$work"
}

# draw N: sets `drawn` to a number below N.
draw() {
    drawn=$((RANDOM % $1))
}

# call XG PROC ARGS PORT SERVICE [OPTION..]: a call of the program, with a fresh epoch.
call() {
    local of=$1 proc=$2 args=$3 port=$4 service=$5
    shift 5
    timeout "$CALL_SECONDS" "$RX" call "$of" "$proc" "$args" --to "127.0.0.1:$port" --service "$service" \
        --epoch "$(epoch)" "$@"
}

# client PORT SERVICE WHAT [NUMBER..]: one on OpenAFS's library, whose epoch is fresh too.
client() {
    timeout "$CALL_SECONDS" "$work/peers/client" "$@"
}

# compare NAME WANTED COMMAND..: WANTED is a pattern of the shell for all that the command prints.
compare() {
    local name=$1 wanted=$2 got
    shift 2
    got=$("$@" 2>&1 </dev/null)
    got=${got//$'\n'/ }
    # shellcheck disable=SC2053
    if [[ $got == $wanted ]]; then
        echo "passed: $name"
    else
        echo "failed: $name: ${got:0:200}, and not ${wanted:0:200}"
    fi >>"$work/answers"
}

# ask NAME WANTED COMMAND..: the same in the background, once there is room for one more.
ask() {
    local until=$((SECONDS + CALL_SECONDS + 10))
    while ((asked - $(wc -l <"$work/answers") >= MOST_CALLS)); do
        ((SECONDS < until)) || give_up 'calls have no answers'
        sleep 0.1
    done
    asked=$((asked + 1))
    compare "$@" &
}

# program_asks WHO PORT SUM HEX [OPTION..]: a call of the program to a server that answers with this sum of an upload,
# and gives these bytes as a download.
program_asks() {
    local who=$1 port=$2 sum=$3 hex=$4 text
    shift 4
    printf -v text '%04x' "$RANDOM" "$RANDOM" "$RANDOM"
    draw 8
    case $drawn in
        0 | 1) ask "$who: echo" "ok \[\"$text\"\]" call "$xg" Echo "[\"$text\"]" "$port" 60 "$@" ;;
        2) ask "$who: long echo" "ok \[\"${ups:0:100000}\"\]" \
            call "$xg" Echo "[\"${ups:0:100000}\"]" "$port" 60 "$@" ;;
        3) ask "$who: up" "ok \[$STREAM,$sum\]" call "$xg" Up '[7]' "$port" 60 --up "$work/up" "$@" ;;
        4) ask "$who: down" "ok \[$sum\] down $hex" call "$xg" Down "[$STREAM]" "$port" 60 --down yes "$@" ;;
        5) ask "$who: both" "ok \[$STREAM\] down $ups" \
            call "$xg" Both '[7]' "$port" 60 --up "$work/up" --down yes "$@" ;;
        6) ask "$who: slow" 'ok \[30\]' call "$xg" Slow '[15]' "$port" 60 "$@" ;;
        7) ask "$who: code" 'rx: aborted 77' call "$xg" Fail '[77]' "$port" 60 "$@" ;;
    esac
}

# The program calls OpenAFS's server.
to_peer() {
    draw 8
    case $drawn in
        0) ask 'to OpenAFS: opcode' 'rx: aborted -455' call "$work/odd.xg" Missing '[]' 7901 60 ;;
        1) ask 'to OpenAFS: arguments' 'rx: aborted -453' call "$work/odd.xg" Cut '[]' 7901 60 ;;
        2) ask 'to OpenAFS: service' 'rx: aborted -2' call "$xg" Echo '[""]' 7901 61 ;;
        3) program_asks 'to OpenAFS, jumbo' 7901 1424210764 "$ups" --jumbo 4 ;;
        *) program_asks 'to OpenAFS' 7901 1424210764 "$ups" ;;
    esac
}

# The program calls itself with a key; a server with a key refuses one who has another, or none.
to_keyed() {
    draw 8
    case $drawn in
        0) ask 'with another key' 'rx: aborted -5' call "$xg" Echo '[""]' 7921 60 --key "$work/other" ;;
        1) ask 'without a key' 'rx: aborted -2' call "$xg" Echo '[""]' 7921 60 ;;
        2 | 3) program_asks 'with a key, jumbo' 7921 0 "$downs" --key "$work/key" --jumbo 4 ;;
        *) program_asks 'with a key' 7921 0 "$downs" --key "$work/key" ;;
    esac
}

# OpenAFS's client calls the program.
to_us() {
    local who='from OpenAFS'
    draw 2
    unset JUMBO
    [ "$drawn" = 0 ] || { who+=', jumbo' && export JUMBO=yes; }
    draw 12
    case $drawn in
        0 | 1 | 2) ask "$who: 40 echoes" 'ok 40 echoes, 0 wrong;*' client 7911 60 echo 40 4 20 ;;
        3) ask "$who: long echo" 'ok 1 echoes, 0 wrong;*' client 7911 60 echo 1 1 50000 ;;
        4) ask "$who: up" 'ok up 1000000, sum 3833402159 of 3833402159;*' client 7911 60 up 1000000 ;;
        5) ask "$who: down" 'ok down 1000000, sum 2488930629 of 2488930629;*' client 7911 60 down 1000000 ;;
        6) ask "$who: both" 'ok both 1000000 of 1000000, sum 3833402159 of 3833402159;*' client 7911 60 both 1000000 ;;
        7) ask "$who: slow" 'ok slow 30;*' client 7911 60 slow 15 ;;
        8) ask "$who: code" 'code 77;*' client 7911 60 fail 77 ;;
        9) ask "$who: opcode" 'code -455;*' client 7911 60 opcode 99 ;;
        10) ask "$who: arguments" 'code -453;*' client 7911 60 opcode 1 ;;
        11) ask "$who: service" 'code -2;*' client 7911 61 echo 1 1 1 ;;
    esac
}

# What the program answers to itself: as peer.script, with streams of the length of those that it sends.
make_files() {
    "$work/peers/client" 0 0 bytes "$STREAM" >"$work/up" 2>/dev/null
    ups=$(od -An -v -tx1 "$work/up" | tr -d ' \n') downs=$(printf '5a%.0s' $(seq "$STREAM"))
    sed -e '/^set Sum/d' -e "s/^send .*/send $STREAM*5a/" "$here/peer.script" >"$work/script"
    printf 'package ODD_ Missing() = 99; Cut() = 1;' >"$work/odd.xg"
    printf '%032d' 1 >"$work/key"
    printf '%032d' 2 >"$work/other"
    : >"$work/answers"
}

# The servers, each behind a bad network of its own.
start_servers() {
    local options=(--calls 256 --conns "$CONNS" --slots 4096 --jumbo 4)
    start_ready peer "$work/peers/server" 7900 jumbo &&
        start_ready to_peer "$work/peers/proxy" 7901 7900 "$SEED" &&
        serve ours "$xg" "$here/peer.script" 127.0.0.1:7910 60 "${options[@]}" &&
        start_ready to_us "$work/peers/proxy" 7911 7910 $((SEED + 1)) &&
        serve keyed "$xg" "$work/script" 127.0.0.1:7920 60 --key "$work/key" "${options[@]}" &&
        start_ready to_keyed "$work/peers/proxy" 7921 7920 $((SEED + 2))
}

# Prints the answers that were wrong since the last time, and how many there were.
tell() {
    local all
    all=$(wc -l <"$work/answers")
    sed -n "$((told + 1)),${all}p" "$work/answers" | grep '^failed'
    told=$all wrong=$(grep -c '^failed' "$work/answers")
    echo "$1: $all answers, $wrong wrong"
}

# Notes what memory the servers have behind the first calls.
note_memory() {
    before[ours]=$(memory ours) before[keyed]=$(memory keyed)
}

# A client for each server at a time, so many a minute.
ask_all() {
    local minute=0 pause until
    while ((SECONDS < minutes * 60)); do
        sleep_ms $((60000 / PACE)) &
        pause=$!
        to_peer
        to_us
        to_keyed
        wait "$pause"
        ((SECONDS / 60 > minute)) || continue
        tell "minute $((++minute))"
        ((minute > 1)) || note_memory
    done
    until=$((SECONDS + CALL_SECONDS + 10))
    while ((asked > $(wc -l <"$work/answers"))); do
        ((SECONDS < until)) || { faults+=("$((asked - $(wc -l <"$work/answers"))) calls have no answers"); break; }
        sleep 0.5
    done
}

# judge NAME PATTERN: what is said of a server of the program at the end, whose answers have the pattern. Calls that are
# refused for their service, or as they come without a key, make no connection there.
judge() {
    local behind came
    if ! stands "$1"; then
        faults+=("the server $1 ended: $(tail -n 1 "$work/$1.out")")
        return
    fi
    behind=$(memory "$1") came=$(grep -v ': service' "$work/answers" | grep -c "$2")
    ((behind <= before[$1] + MOST_KB)) || faults+=("the server $1 grew from ${before[$1]} to $behind KB")
    figures+=", $came connections at a server that knows $CONNS, ${before[$1]} KB at first and $behind KB at last"
}

prepare
make_files
start_servers || give_up 'a server does not start'
SECONDS=0
ask_all
tell 'in all'
[ "$wrong" = 0 ] || faults+=("$wrong answers of $told")
judge ours 'from OpenAFS'
judge keyed ' with a'
stands peer || faults+=("OpenAFS's server ended")
for name in to_peer to_us to_keyed; do
    end "$name"
    echo "the bad network $name: $(tail -n 1 "$work/$name.out")"
done
tell_faults
echo "passed: $told answers$figures"
