#!/usr/bin/env python3
"""Runs the plans of examples/ by the program: .ci/examples.py [PROGRAM]

Compares the bytes of standard output and standard error and the exit status of each, in pipes and in files, with
NAME.trace and, where a line is refused, NAME.err. A plan that names an interface or a script says so in a comment "# Run
as: rx sim NAME.plan .."; its words are those of the run, in the folder examples/. Traces that are too large to stand
there have their sums here. PROGRAM is the one that the gate built, or else the one that ./rx --prove built; with
tools/player it's the rules alone that all of these are compared with."""
import hashlib
import pathlib
import re
import subprocess
import sys
import tempfile

top = pathlib.Path(__file__).resolve().parent.parent
failed = []
OK, REFUSED = 0, 2
HEAD = r"ends in round (\d+) of ([\d,]+): 2,000 for each of (\d+) \+ (\d+) pieces, (\d+) turns? and 8\."


def program():
    """The path of the program that the gate built, or else of the one that ./rx --prove built, or None."""
    if len(sys.argv) > 1:
        return pathlib.Path(sys.argv[1]).resolve()
    return next((it for it in (top / "crates/rx/out/rx", *top.glob(".rx/*.proved/rx")) if it.exists()), None)


def say(plan, what):
    failed.append(plan.name)
    print(f"examples/{plan.name}: {what}")


def words_of(plan):
    """The words behind the program's name."""
    as_said = re.search(r"^# Run as: rx (.*)$", plan.read_text(), flags=re.M)
    return as_said[1].split(" ") if as_said else ["sim", plan.name]


def run(plan, out, err):
    """The exit status, standard output and standard error of a plan's run."""
    ended = subprocess.run([PROGRAM, *words_of(plan)], cwd=plan.parent, stdin=subprocess.DEVNULL, stdout=out, stderr=err,
                           timeout=100)
    return ended.returncode, ended.stdout, ended.stderr


def runs(plan):
    """The same of two runs: in pipes, and in files."""
    yield run(plan, subprocess.PIPE, subprocess.PIPE)
    with tempfile.TemporaryFile() as out, tempfile.TemporaryFile() as err:
        status, _, _ = run(plan, out, err)
        yield status, *((it.seek(0), it.read())[1] for it in (out, err))


def compare(plan, is_trace):
    """Notes where a run of the plan hasn't its trace, of which is_trace says what differs, its line, or its status."""
    refusal = plan.with_suffix(".err")
    err = refusal.read_bytes() if refusal.exists() else b""
    for status, out, said in runs(plan):
        if status != (REFUSED if err else OK):
            say(plan, f"the status is {status}")
        if said != err:
            say(plan, f"standard error is {said[:200]}, and not {err}")
        if differs := is_trace(out):
            say(plan, differs)


def differing(got, wanted):
    """The first line of a trace that isn't as it is to be, or None."""
    pairs = zip([*got.split(b"\n"), None], [*wanted.split(b"\n"), None])
    at, line = next(((n, line) for n, (line, other) in enumerate(pairs, 1) if line != other), (0, None))
    return f"line {at} of the trace is {str(line)[:200]}" if at else None


def other_sum(got, sum):
    """What differs in a trace with this sum, or None."""
    seen = hashlib.sha256(got).hexdigest()
    return None if seen == sum else f"the sum of the trace is {seen}"


def has_sum(got, sum, last):
    """What differs in a trace with this sum and this last line, or None."""
    lines = got.decode().split("\n")
    return other_sum(got, sum) if lines[-2:] == [last, ""] else f"the trace ends with {lines[-2:]}"


def wide_write(got):
    """A window of 255 pieces of 1,412 bytes holds 360,060 bytes."""
    call = "10.0.0.2:7001/1/4/0/1"
    lines = ["c1 connect 10.0.0.1:7000 1 1 -> 4", f"c1 call 4 -> {call}"]
    lines += [f"c1 write {call} 400000 -> 360060 " + "5a" * 360_060, f"c1 write {call} 1 -> 0 -"]
    return differing(got, "\n".join([*lines, ""]).encode())


def wide_client(got):
    """The greatest seq that the client gives is 32: bytes 12 to 15 of its datagrams of type 1, which is byte 20."""
    given = [bytes.fromhex(hex) for hex in re.findall(r"^c1 poll -> \S+ ([0-9a-f]+)$", got.decode(), flags=re.M)]
    greatest = max((int.from_bytes(it[12:16], "big") for it in given if it[20] == 1), default=0)
    if greatest != 32:
        return f"the greatest seq that is given is {greatest}"
    return has_sum(got, "71a2a420f93f874169b0c24f5fc11df76f656baf5b70c43ce4fc27d1065edc19", "s accept -> none")


def slow(name, sum):
    """Compares the rounds in a plan's head: those that its last line makes, and the one in which the call ends."""
    plan = (top / f"examples/{name}.plan").read_text()
    said = re.search(HEAD, plan)
    end, promised, asked, served, turns = (int(it.replace(",", "")) for it in said.groups())

    def is_trace(got):
        behind = re.search(rb"^c1 ask \S+ -> live$(.*?)^c1 read \S+ 4096 -> end$", got, flags=re.M | re.S)
        seen = behind and behind[1].count(b"\ns poll -> none\n")
        if promised != 2_000 * (asked + served + turns + 8) or not plan.endswith(f"\nrounds {promised}\n"):
            return f"{promised} rounds aren't what is promised and made"
        return other_sum(got, sum) if seen == end else f"the call ends in round {seen}"

    return is_trace


# The sums are those of traces that tools/player made, which plays plans by the rules of docs/ alone.
SLOW = {
    "slow-ack-lost": "ee6e7802c1db0c6e40d0b6e060a654ae2aa4663fa6d1f24a7db3eefb6ee98466",
    "slow-both-ways": "7a1338c208c1eb56541ee1aed62707b32e970b59c456d74ce9b1815e0fc439a7",
    "slow-clock-ahead": "f64c11c261a75a3204aeb55f40c6bf0841310c235410dea6cc53d757e5d7d7ea",
    "slow-first-lost": "89a0212bf7e206b6008d870e89deedea3f69b88fd6da5c30b23d97d3f0ebda6b",
    "slow-first-repeated": "61d2895ef70be6baae0ce8d4a8f16df4b117d9c60625c96a88016364b1f9efb1",
    "slow-long-wait": "454eb12af31dffbb2560d7b9ce1d6d030535e77f931a7a7bb819473e1ccc9d23",
    "slow-no-slot-at-client": "216da58cbed42a46de4fa2a026a143664eb87c0c7bca42bd6c69c394e463337a",
    "slow-no-slot-at-server": "b1e0240ce9a9fa777abbd33043208a743c2863aee1e963fd3e328ed165283889",
    "slow-one-by-one": "e1101870b98a89ff6bdaf67ddd193d5062e44cf50b2866d665be5c0ae836cfc0",
    "slow-two-slots": "1dc1e2402949034f9ecc7f87afeb68931cd0f3acf39da33a5b600626250c03f0",
}
LARGE = {
    "wide-write": wide_write,
    "wide-client": wide_client,
    "split-under-loss": lambda got: has_sum(
        got, "bd0a1be162eb9e674f782074e1452ba08f2883e232c3841594ebe1fd2efced9f", "answer #1 ok [1000000]"),
    "after-losses": lambda got: has_sum(
        got, "bca2ffb79be6852ba6bbcfa831b12a924275ea27a1cb6615b8af6c9f8e8b2a12", "answer #1 ok [1000000]"),
    **{name: slow(name, sum) for name, sum in SLOW.items()},
}
PROGRAM = program()
if PROGRAM is None:
    print("skipped, as the program isn't built: the runs of examples/")
    sys.exit()
plans = sorted((top / "examples").glob("*.plan"))
for plan in plans:
    trace = plan.with_suffix(".trace")
    if plan.stem in LARGE:
        compare(plan, LARGE[plan.stem])
    elif trace.exists():
        compare(plan, lambda got: differing(got, trace.read_bytes()))
    else:
        say(plan, "there is no trace of it")
print(f"the examples: {len(plans)} plans, {len(set(failed))} failed")
sys.exit(bool(failed))
