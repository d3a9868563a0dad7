# What the scripts of interop/, bench/udp.sh and bench/loss.sh share: processes that are started under a name and ended
# by their id. To be sourced by a script of bash that has set top, the folder of the repository, and work, a folder of
# its own; for floods and long runs also here, the folder of this file, and faults, what failed.
# shellcheck shell=bash disable=SC2154
declare -A pid_of

# The program: the one that is named, the one that the gate built, or the one that ./rx --prove builds.
program() {
    if [ $# -gt 0 ]; then
        realpath "$1"
    elif [ -x "$top/crates/rx/out/rx" ]; then
        echo "$top/crates/rx/out/rx"
    else
        "$top/rx" --prove >/dev/null 2>&1
        ls "$top"/.rx/*.proved/rx
    fi
}

# start NAME COMMAND..: starts it in the background; what it prints goes to a file.
start() {
    local name=$1
    shift
    "$@" >"$work/$name.out" 2>&1 </dev/null &
    pid_of[$name]=$!
}

# start_ready NAME COMMAND..: the same, and waits for its line `ready`.
start_ready() {
    start "$@"
    ready "$1"
}

# Waits for the line `ready` of what was started under a name.
ready() {
    for _ in {1..100}; do
        grep -qs '^ready' "$work/$1.out" && return
        sleep 0.1
    done
    echo "$1 does not start: $(tail -n 1 "$work/$1.out")"
    return 1
}

# Whether what was started under a name runs still.
stands() {
    kill -0 "${pid_of[$1]}" 2>/dev/null
}

# Ends what was started under a name, and waits for its end.
end() {
    local pid=${pid_of[$1]}
    unset "pid_of[$1]"
    kill "$pid" 2>/dev/null
    for _ in {1..50}; do
        kill -0 "$pid" 2>/dev/null || break
        sleep 0.1
    done
    kill -9 "$pid" 2>/dev/null
    wait "$pid" 2>/dev/null
}

end_all() {
    local name
    for name in "${!pid_of[@]}"; do
        end "$name"
    done
}

# An epoch that no server here has seen.
epoch() {
    od -An -N4 -tu4 /dev/urandom | tr -d ' '
}

# serve NAME XG SCRIPT HOST SERVICE [OPTION..]: the program's server under a name, for SERVE_MS milliseconds at most, or
# where that isn't set for an hour.
serve() {
    local name=$1 xg=$2 script=$3 at=$4 service=$5
    shift 5
    start_ready "$name" "$RX" serve "$xg" "$script" --at "$at" --service "$service" \
        --for "${SERVE_MS:-3600000}" --turns 1000000000 "$@"
}

# serve_quietly NAME XG SCRIPT HOST SERVICE [OPTION..]: the same for very many calls, whose lines are not kept.
serve_quietly() {
    local name=$1 xg=$2 script=$3 at=$4 service=$5
    shift 5
    : >"$work/$name.out"
    "$RX" serve "$xg" "$script" --at "$at" --service "$service" --for "${SERVE_MS:-3600000}" --turns 1000000000 "$@" \
        > >(grep --line-buffered -vE '^(accept|finish) ' >"$work/$name.out") 2>&1 </dev/null &
    pid_of[$name]=$!
    ready "$name"
}

sleep_ms() {
    sleep "$(printf '%d.%03d' $(($1 / 1000)) $(($1 % 1000)))"
}

# The kilobytes that a process under a name has in memory.
memory() {
    awk '$1 == "VmRSS:" { print $2 }' "/proc/${pid_of[$1]}/status"
}

# The kilobytes that it had at most since that was last forgotten.
most_memory() {
    awk '$1 == "VmHWM:" { print $2 }' "/proc/${pid_of[$1]}/status"
}

forget_most() {
    echo 5 >"/proc/${pid_of[$1]}/clear_refs"
}

# Says what is missing for a run, and ends it.
give_up() {
    echo "failed: $1"
    exit 1
}

# Ends the run with what failed, where anything did.
tell_faults() {
    local all
    [ "${#faults[@]}" -gt 0 ] || return 0
    printf -v all '%s; ' "${faults[@]}"
    give_up "${all%; }"
}

# Builds the peers, and has the network namespace speak with itself.
prepare() {
    "$here/build.sh" "$work/peers" >"$work/build" 2>&1 || { cat "$work/build"; give_up 'the peers are not built'; }
    [ -z "$(ip -o link show up | grep -v ': lo:')" ] || give_up 'this is no network of its own'
    ip link set lo up || give_up 'there is no loopback'
}

# own_network WORD..: has the script run anew, with the words --inside WORD.., in a network namespace of its own, where
# nothing but this machine is spoken to, and as the first of its processes, so that none outlives it. Ends with 1 where
# something is missing that it needs.
own_network() {
    local tool
    for tool in cc ip unshare rxgen; do
        command -v "$tool" >/dev/null || give_up "$tool is not there"
    done
    unshare -n true 2>/dev/null || give_up 'no network namespace can be made'
    RX=$(program ${RX:+"$RX"})
    export RX
    exec unshare -n -p -f --mount-proc --kill-child "$BASH" "$0" --inside "$@"
}
