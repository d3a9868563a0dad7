#!/bin/sh
# Loads of 10, 100, 1,000 and 10,000 calls: rx load of each, again and again. Prints of each what it made, its time without
# the program's start, what a datagram takes of that, and the most memory that it held; and then how far each size is from
# what a datagram takes on the mean. Where nothing is gone through that grows with the calls, none is far from it.
# The program is the one that ./rx --prove builds, or else the one that is named. The root of the repository is the working
# folder: bench/load.sh [PROGRAM]
set -eu
if [ $# -gt 0 ]; then
    program=$1
else
    ./rx --prove
    program=$(echo .rx/*.proved/rx)
fi
python3 - "$program" <<'END_OF_PYTHON'
import os, re, subprocess, sys, time

program = sys.argv[1]
RUNS = {10: 1500, 100: 600, 1000: 100, 10000: 20}
null = os.open("/dev/null", os.O_WRONLY)


def run(calls):
    """Microseconds and kilobytes of a load."""
    begin = time.perf_counter()
    child = os.posix_spawn(program, ["rx", "load", "1", str(calls)], os.environ, file_actions=[(os.POSIX_SPAWN_DUP2, null, 1)])
    usage = os.wait4(child, 0)[2]
    return (time.perf_counter() - begin) * 1e6, usage.ru_maxrss


def text_of(calls):
    """What a load prints."""
    return subprocess.run([program, "load", "1", str(calls)], stdout=subprocess.PIPE, text=True).stdout


def low(times):
    """One of these than which a tenth was less: they vary by what else the machine does."""
    return sorted(times)[len(times) // 10]


def made(text):
    """How many datagrams and rounds."""
    return [int(re.search(rf"{name} (\d+)", text).group(1)) for name in ("given", "rounds")]


rows, first = [], text_of(1)
for calls, runs in RUNS.items():
    # each beside one of one call
    ran = [(run(1), run(calls)) for _ in range(runs)]
    taken = low([it[0] for _, it in ran]) - low([it[0] for it, _ in ran])
    text = text_of(calls)
    given, rounds = (of - of_first for of, of_first in zip(made(text), made(first)))
    rows.append((calls, given, rounds, taken))
    print(text, end="")
    print(f"{taken / 1000:.2f} ms, {taken / given:.2f} microseconds a datagram, {max(it[1] for _, it in ran)} KB")

mean = sum(taken / given for _, given, _, taken in rows) / len(rows)
print(f"a datagram takes {mean:.2f} microseconds on the mean, and")
for calls, given, rounds, taken in rows:
    print(f"  {100 * (taken / given / mean - 1):+.0f} % of {calls} calls, with {rounds / given:.2f} rounds for each")
END_OF_PYTHON
