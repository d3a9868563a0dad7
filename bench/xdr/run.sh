#!/bin/sh
# Builds the program and the C code beside it. Prints the time of each case in seconds and, where
# valgrind is there, the instructions of one round.
# Wants rpcsvc-proto, libtirpc-dev and a C compiler. Run it from any folder.
set -eu
here=$(cd "$(dirname "$0")" && pwd)
work=${TMPDIR:-/tmp}/xdr_bench.$$
mkdir -p "$work"
trap 'rm -rf "$work"' EXIT
cd "$work"
cp "$here/types.x" "$here/bench.c" .
rpcgen -h -o types.h types.x
rpcgen -c -o types_xdr.c types.x
cc -O2 -w -I/usr/include/tirpc -o c_bench bench.c types_xdr.c -ltirpc
(cd "$here/../../crates/xdr_code_bench" && rt run -- decode ints 1 1 > /dev/null)
ours=$(find "$here/../../crates/xdr_code_bench/out" -type f -perm -u+x -name 'xdr_code_bench*' | head -1)
seconds() {
  /usr/bin/env python3 -c 'import subprocess, sys, time
best = None
for _ in range(3):
    start = time.perf_counter()
    subprocess.run(sys.argv[1:], check=True, stdout=subprocess.DEVNULL)
    spent = time.perf_counter() - start
    best = spent if best is None else min(best, spent)
print("%.3f" % best)' "$@"
}
collected() {
  valgrind --tool=callgrind --callgrind-out-file=/dev/null "$@" 2>&1 | sed -n 's/.*Collected : //p'
}
# PROGRAM WAY CASE SIZE: what two rounds take more than one.
instructions() {
  echo $(($(collected "$@" 2) - $(collected "$@" 1)))
}
for case in "status 1000 1000" "opaque 1000000 1000" "ints 100000 200" "ints 1000000 20"; do
  for way in decode encode; do
    set -- $way $case
    [ "$("$ours" "$@")" = "$(./c_bench "$@")" ] || echo "checksums differ: $*"
    echo "$* ours $(seconds "$ours" "$@") rpcgen $(seconds ./c_bench "$@")"
    if command -v valgrind > /dev/null; then
      echo "$1 $2 $3 instructions ours $(instructions "$ours" "$1" "$2" "$3")" \
        "rpcgen $(instructions ./c_bench "$1" "$2" "$3")"
    fi
  done
done
