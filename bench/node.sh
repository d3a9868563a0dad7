#!/bin/sh
# Calls from a client to a server, both in memory: rx_node_bench. Prints calls per second and instructions per datagram
# of tiny calls on one channel and on four, and bytes per second and instructions per datagram of one stream each way,
# with 1, 1,000 and 10,000 idle connections, and with 1, 100 and 1,000 calls that live beside. What makes the checksum of
# the streams' bytes is left out.
# Wants rt and valgrind. Run it from any folder.
set -e
cd "$(dirname "$0")/.."
work=$(mktemp -d)
trap 'rm -rf "$work"' EXIT
(cd crates/rx_node_bench && rt run -- 8 4 10000 2 1 >"$work/build" 2>&1) || { tail "$work/build"; exit 1; }
program=crates/rx_node_bench/out/rx_node_bench

# CALLS CHANNELS BYTES IDLE LIVE: how many datagrams are given and taken.
datagrams() {
    "$program" "$@" | cut -d ' ' -f 3
}

# CALLS CHANNELS BYTES IDLE LIVE: instructions of a run, but for those of the checksum.
instructions() {
    valgrind --tool=callgrind --callgrind-out-file="$work/calls" "$program" "$@" >/dev/null 2>&1
    callgrind_annotate "$work/calls" |
        awk '{ gsub(",", "") } /PROGRAM TOTALS/ { all = $1 } /bytes::fold/ { sums = $1 } END { print all - sums }'
}

# CALLS CHANNELS BYTES IDLE LIVE: nanoseconds of a run, the best of five.
nanoseconds() {
    for _ in 1 2 3 4 5; do
        begin=$(date +%s%N)
        "$program" "$@" >/dev/null
        end=$(date +%s%N)
        echo $((end - begin))
    done | sort -n | head -1
}

# CALLS CHANNELS IDLE LIVE: figures of so many tiny calls, the start left out.
calls() {
    more=$((2 * $1))
    counted=$(($(instructions $more "$2" 0 "$3" "$4") - $(instructions "$1" "$2" 0 "$3" "$4")))
    given=$(($(datagrams $more "$2" 0 "$3" "$4") - $(datagrams "$1" "$2" 0 "$3" "$4")))
    time=$(($(nanoseconds $((20 * $1)) "$2" 0 "$3" "$4") - $(nanoseconds 0 "$2" 0 "$3" "$4")))
    echo "calls, $2 at a time, $3 idle, $4 live: $((20 * $1 * 1000000 / (time / 1000))) calls per second," \
        "$((counted / given)) instructions per datagram"
}

# BYTES IDLE: figures of a stream of so many bytes each way, the start left out.
streams() {
    more=$((2 * $1))
    counted=$(($(instructions 0 1 $more "$2" 0) - $(instructions 0 1 "$1" "$2" 0)))
    given=$(($(datagrams 0 1 $more "$2" 0) - $(datagrams 0 1 "$1" "$2" 0)))
    time=$(($(nanoseconds 0 1 $((20 * $1)) "$2" 0) - $(nanoseconds 0 1 0 "$2" 0)))
    echo "streams, $2 idle: $((40 * $1 * 1000 / (time / 1000))) kilobytes per second," \
        "$((counted / given)) instructions per datagram"
}

calls 1000 1 1 0
calls 1000 4 1 0
calls 100 1 1000 0
calls 100 4 1000 0
calls 100 1 10000 0
calls 200 1 1 1
calls 200 1 1 100
calls 200 1 1 1000
streams 1000000 1
streams 100000 1000
