#!/usr/bin/env bash
# Datagrams that no good client sends, at `rx serve`, beside an OpenAFS client at work: interop/flood.sh SECONDS
# 1. Each kind of interop/flood.c alone: what a datagram costs the server of the processor, the work that follows from
#    it included.
# 2. Each kind beside echoes and streams of an OpenAFS client, and its rates without them, with them and behind them.
# 3. A request that never ends (interop/endless.c): how much memory the server has at most.
# Prints a line for each, and at the end one that begins with `passed` and has figures, or with `failed` and says what
# failed. It passes where the server stands to the end, no answer was wrong, the client has a tenth of its rate or more
# again within 30 s behind the flood, and the server's resident memory is within 4 MB again of what it was.
# Set in the environment: RX, the program, or else that of the gate or of ./rx; RATE, forged datagrams a second; KINDS,
# those of flood.c that are sent; BYTES, how long the request gets that never ends; SERVE, options of `rx serve`.
# Wants root, cc, ip, and Debian's libopenafs-dev. It runs in a network namespace of its own.
set -u
here=$(cd "$(dirname "$0")" && pwd)
top=$(dirname "$here")
# shellcheck source=started.sh
. "$here/started.sh"

if [ "${1:-}" != --inside ]; then
    [[ $# = 1 && $1 =~ ^[1-9][0-9]{0,4}$ ]] || { echo 'usage: interop/flood.sh SECONDS'; exit 1; }
    own_network "$@"
fi

RATE=${RATE:-2000} KINDS=${KINDS:-random cut unserved acks control jumbo long nowhere data} BYTES=${BYTES:-1000000000}
read -ra OPTIONS <<<"${SERVE:-}"
STREAM=1000000 MOST_KB=4096 BACK_SECONDS=30 CALLS_END_SECONDS=14 PORT=7910 xg=$here/peer.xg script=$here/peer.script
# A part of the time: 10 of them go to floods alone, 11 to the client's work, and 4 to the request that never ends.
span=$2
part=$((span * 1000 / 25))
SERVE_MS=$(((span + 4 * BACK_SECONDS) * 1000))
work=$(mktemp -d)
faults=() all_us=0 all_taken=0 told_memory='' unsent=''
echoes=0 ms=0 echoes_without=0 ms_without=0 echoes_with=0 ms_with=0
trap 'end_all; rm -rf "$work"' EXIT
trap 'exit 1' INT TERM

fault() {
    faults+=("$1")
    echo "failed: $1"
}

# The microseconds that the threads of the server had a processor, for itself or in the system.
used() {
    cat "/proc/${pid_of[ours]}"/task/*/schedstat | awk '{ all += $1 } END { printf "%.0f\n", all / 1000 }'
}

# How many datagrams the system dropped, as the server's socket had no room.
dropped() {
    awk -v port=":$(printf %04X "$PORT")$" '$2 ~ port { all += $NF } END { print all + 0 }' /proc/net/udp
}

new_server() {
    serve_quietly ours "$xg" "$script" "127.0.0.1:$PORT" 60 "${OPTIONS[@]}" || give_up 'no server starts'
}

# Whether the server stands behind datagrams of this kind.
survives() {
    stands ours && return
    fault "the server ended at datagrams of the kind $1: $(tail -n 1 "$work/ours.out")"
    return 1
}

# Sends datagrams of a kind for a part of the time.
forge() {
    timeout $((2 * part / 1000 + 5)) "$work/peers/flood" "$PORT" "$1" 1 "$RATE" $((RATE * part / 1000)) >"$work/forged"
}

# Each kind alone, at a server of its own; behind forged calls, when these are over and their connections are still
# known, bytes of chance again.
alone() {
    local kind
    for kind in $KINDS; do
        new_server
        cost_of "$kind" "$kind"
        if [ "$kind" = data ] && stands ours; then
            sleep "$CALLS_END_SECONDS"
            cost_of random 'random behind data'
        fi
        end ours
    done
}

# cost_of KIND WHAT: sends datagrams of a kind, and prints what they cost the server.
cost_of() {
    local us lost sent
    us=$(used) lost=$(dropped)
    forge "$1"
    sleep 0.3
    survives "$1" || return
    [[ $(<"$work/forged") != *'without a raw socket'* ]] || unsent=', without a raw socket and so none of nowhere'
    us=$(($(used) - us)) lost=$(($(dropped) - lost)) sent=$(awk '{ print $1 }' "$work/forged")
    all_us=$((all_us + us)) all_taken=$((all_taken + sent - lost))
    echo "alone, $2: $(<"$work/forged"); $lost lost at the full socket," \
        "$(per "$us" $((sent - lost))) us of the processor for each of the others; $(memory ours) KB"
}

# per A B: A for each of B, to a tenth.
per() {
    awk -v a="$1" -v b="$2" 'BEGIN { if (b > 0) printf "%.1f", a / b; else printf "no" }'
}

# What the client has done: milliseconds, echoes, streams, calls that failed, wrong answers.
done_until_now() {
    grep -E '^[0-9]+( [0-9]+){4}$' "$work/client.out" | tail -n 1 | grep . || echo 0 0 0 0 0
}

# worked WHAT COMMAND..: runs the command, and prints what the client did meanwhile; sets `echoes` and `ms` to that.
worked() {
    local what=$1 before after
    shift
    read -ra before < <(done_until_now)
    "$@"
    read -ra after < <(done_until_now)
    ms=$((after[0] - before[0])) echoes=$((after[1] - before[1]))
    echo "$what: $(per $((1000 * echoes)) "$ms") echoes and $(per $((1000 * (after[2] - before[2]))) "$ms") streams" \
        "of $STREAM bytes a second, $((after[3] - before[3])) calls failed, $((after[4] - before[4])) answers wrong"
}

# Waits until the client has a tenth of its rate again, and then looks whether a new client is served.
come_back() {
    local until=$((SECONDS + BACK_SECONDS))
    while worked 'behind the flood' sleep 2; do
        ((ms > 0 && 10 * echoes * ms_without >= echoes_without * ms)) && break
        ((SECONDS < until)) || { fault "the client has not come back within $BACK_SECONDS s"; break; }
    done
    echo "a new client behind the flood: $(timeout 30 "$work/peers/client" "$PORT" 60 echo 1 1 20)"
}

# The client's work without the flood, with each kind, and behind it. It goes on in one process on one connection.
beside() {
    local kind before
    new_server
    start client "$work/peers/client" "$PORT" 60 steady $((span + 4 * BACK_SECONDS)) "$STREAM"
    sleep 0.5
    worked 'no flood' sleep_ms $((2 * part))
    ((echoes > 0)) || { fault 'the client makes no echoes without the flood'; return; }
    echoes_without=$echoes ms_without=$ms before=$(memory ours)
    forget_most ours
    for kind in $KINDS; do
        worked "with $kind" forge "$kind"
        survives "$kind" || return
        [ "$kind" = data ] || echoes_with=$((echoes_with + echoes)) ms_with=$((ms_with + ms))
    done
    come_back
    survives "$kind" || return
    echo "the server's memory beside the flood: $(most_memory ours) KB at most"
    await_memory $((before + MOST_KB))
    within 'the flood' "$before" "$(memory ours)"
    [ "$(done_until_now | cut -d ' ' -f 5)" = 0 ] || fault 'the client had wrong answers'
}

# Waits until the server has so many kilobytes or less: calls that were forged end in 12 s of silence.
await_memory() {
    local until=$((SECONDS + BACK_SECONDS))
    while (($(memory ours) > $1 && SECONDS < until)); do
        sleep 0.5
    done
}

# within WHAT BEFORE BEHIND: the server's memory grew by no more than it may.
within() {
    told_memory+=", $2 KB in memory before $1 and then $3 KB"
    (($3 <= $2 + MOST_KB)) || fault "the server had $2 KB in memory before $1, and then $3 KB"
}

# One hundred echoes and a stream.
good_calls() {
    timeout 30 "$work/peers/client" "$PORT" 60 echo 100 4 20 >"$work/good" &&
        timeout 60 "$work/peers/client" "$PORT" 60 up "$STREAM" >>"$work/good" && return
    fault "calls fail: $(<"$work/good")"
}

# A request that never ends, beside nothing else. The server's memory is the most that it had meanwhile.
never_ends() {
    local before said
    new_server
    good_calls
    before=$(memory ours)
    forget_most ours
    said=$("$work/peers/endless" "$PORT" "$BYTES" $((4 * part / 1000 + 1)))
    survives endless || return
    echo "a request that never ends: $said"
    [[ $said != *silence* ]] || fault 'the server was silent on a request that never ends'
    [[ ${said%% *} =~ ^[0-9]+$ ]] && ((${said%% *} >= 4096 * MOST_KB)) ||
        fault "only this of a request that never ends was taken: $said"
    within "${said%% *} bytes of a request that never ends" "$before" "$(most_memory ours)"
    good_calls
}

prepare
alone
beside
end_all
never_ends
tell_faults
echo "passed: $(per $((1000 * echoes_without)) "$ms_without") echoes a second without the flood," \
    "$(per $((1000 * echoes_with)) "$ms_with") with it but for forged calls," \
    "$(per $((1000 * echoes)) "$ms") behind it," \
    "$(per "$all_us" "$all_taken") us of the processor a forged datagram$unsent$told_memory"
