#!/usr/bin/env python3
"""Draws plans of one client and one invoke, and says how many rounds they need beside a bound: bench/rounds.py [PLANS]

A plan has a server line and a client line with default limits, and no key or one key at both; a connect, an invoke and
the line `rounds B`. The arguments, the upload, whether a download is asked for and the script are drawn. B is
4(P + Q) + T + 16, and with a key 4(P + Q) + T + 24: P are the pieces of the request, Q those of the reply, none of a
code, and T the turns that the script's `wait` says. A stream has a piece for each 1,412 bytes, one where it's empty.

Each plan is run by rx sim. It passes where the answer line is the one that this script computes for the drawn values,
so where B rounds were enough. A round has one line "s poll -> none" in the trace, so the rounds that a plan needed are
these up to the caller's last read, which says `end` or `gone`. Of each hundredth plan and of the five worst that is
tried: with so many rounds the answer is the same, with one less it is `open`.

Prints each plan that fails, at once; the rounds that were needed beside the bounds, by kind: the worst share, the mean
share and the least rest; the five worst plans; and last `N passed, M failed`. The status is 1 where one failed. The
environment has the program as RX; else it is the gate's, or that of ./rx."""
import argparse
import collections
import concurrent.futures
import os
import pathlib
import random
import subprocess
import sys
import tempfile
import time

top = pathlib.Path(__file__).resolve().parent.parent
PIECE, BOUND, WORST, TRIED = 1412, 65_000, 5, 100
SS_UNMARSHAL, CC_UNMARSHAL = -453, -451
NONE_LEFT = b"s poll -> none"
VALUES = f"(IN opaque Body<{BOUND}>, INOUT afs_uint32 *Size, OUT opaque Same<{BOUND}>)"
XG = f"Plain{VALUES} = 8;\nSplit{VALUES} split = 9;\n"


def words():
    parser = argparse.ArgumentParser(prog="bench/rounds.py", description=__doc__,
                                     formatter_class=argparse.RawDescriptionHelpFormatter)
    parser.add_argument("plans", metavar="PLANS", nargs="?", type=int, default=10_000, help="how many, 10,000")
    parser.add_argument("--seed", type=int, default=1, help="what they are drawn from, 1")
    parser.add_argument("--jobs", type=int, default=2, help="how many run at a time, 2")
    parser.add_argument("--minutes", type=float, help="begin none behind so many minutes")
    parser.add_argument("--keep", metavar="FOLDER", help="write plans that failed and the worst ones there")
    return parser.parse_args()


def program():
    """The program: the one of the environment, the one that the gate built, or the one that ./rx runs."""
    if named := os.environ.get("RX"):
        return pathlib.Path(named).resolve()
    if (gate := top / "crates/rx/out/rx").exists():
        return gate
    ran = subprocess.run([top / "rx", "compile", "/dev/null"], stdin=subprocess.DEVNULL, capture_output=True, text=True)
    if ran.returncode:
        sys.exit(ran.stderr)
    return next(top.glob(f".rx/*.{'unproved' if 'unproved' in ran.stderr else 'proved'}/rx"))


# --- What is drawn ---------------------------------------------------------------------------------------------------


def pieces(stream):
    return max(1, -(-len(stream) // PIECE))


def word(number):
    return number.to_bytes(4, "big")


def counted(octets):
    """Opaque data as XDR."""
    return word(len(octets)) + octets + bytes(-len(octets) % 4)


def length(draw, before):
    """The length of a stream of bytes that stands behind so many others."""
    way = draw.random()
    if way < 0.35:
        return draw.randrange(50)
    if way < 0.60:
        return draw.randrange(6_000)
    if way < 0.90:
        near = draw.choice([1, 1, 1, 2, 2, 3, 4, 5, 8])
    elif way < 0.96:
        near = draw.choice([30, 31, 32, 32, 32, 33, 34, 64])
    else:
        return draw.randrange(45_000 if way < 0.985 else 200_000)
    return max(0, PIECE * near - before + draw.randint(-3, 3))


def stream(draw, before):
    """Bytes, and the word that a line has for them."""
    many = length(draw, before)
    if not many:
        return b"", "-"
    if many > 3_000 or draw.random() < 0.3:
        one = draw.randrange(256)
        return many * bytes([one]), f"{many}*{one:02x}"
    octets = draw.randbytes(many)
    return octets, octets.hex()


def body(draw):
    """The bytes of an argument."""
    return draw.randbytes(draw.randrange(12) if draw.random() < 0.7 else min(BOUND, length(draw, 16)))


def drawn_wait(draw):
    way = draw.random()
    return 0 if way < 0.5 else draw.randrange(6) if way < 0.9 else draw.randrange(60) if way < 0.99 else 1_000


def code(draw):
    return draw.choice([1, 13, -1, CC_UNMARSHAL, SS_UNMARSHAL, 2**31 - 1, -2**31, draw.randint(1, 2**31 - 1)])


def counted_at(octets):
    """The bytes that a count says and those behind them, or None where there are fewer."""
    many = int.from_bytes(octets[:4], "big")
    return (octets[4:4 + many], octets[4 + many:]) if len(octets) >= 4 + many else None


def answer_of(reply, asks_down):
    """What the answer line says of a reply: the download, where one is asked for, stands before Size and Same."""
    front = counted_at(reply) if asks_down else (b"", reply)
    behind = front and counted_at(front[1][4:])
    if not behind or len(behind[0]) > BOUND or counted(behind[0]) != front[1][4:][:len(counted(behind[0]))]:
        return f"bad {CC_UNMARSHAL}"
    size = int.from_bytes(front[1][:4], "big")
    return f'ok [{size},"{behind[0].hex()}"]' + (f" down {front[0].hex() or '-'}" if asks_down else "")


class Script:
    """The block of a procedure: its lines, and what they make of a request."""

    def __init__(self, draw, is_split, asked):
        self.lines, self.codes, self.size, self.same, self.down = [], [], None, None, b""
        self.is_there = draw.random() < 0.95
        self.has_up, self.has_down = (self.is_there and is_split and draw.random() < share for share in (0.7, 0.6))
        self.turns = drawn_wait(draw) if self.is_there else 0
        if self.is_there:
            self.begin(draw, asked)

    def begin(self, draw, asked):
        flags = {f"wait {self.turns}": self.turns, "up": self.has_up, "down": self.has_down}
        self.lines = [line for line, is_said in flags.items() if is_said]
        self.fixed = draw.randbytes(draw.randrange(9))
        if draw.random() < 0.15:
            held = draw.choice([asked, 5])
            self.codes.append((held, code(draw)))
            self.lines.append(f"when Size {held} {self.codes[0][1]}")
        if draw.random() < 0.07:
            self.codes.append((None, code(draw)))
            self.lines.append(f"fail {self.codes[-1][1]}")
        sizes = ["", "set Size 77", "size Size Body", *["count Size"] * (2 * self.has_up)]
        sames = ["", "copy Same Body", f'set Same "{self.fixed.hex()}"']
        downs = [""] + ["send"] * self.has_down + ["echo"] * (2 * (self.has_up and self.has_down))
        self.size, self.same, self.sends = (draw.choice(some) for some in (sizes, sames, downs))
        if self.sends == "send":
            self.down, said = stream(draw, 12)
            self.sends = f"send {said}"
        self.lines += [line for line in (self.size, self.same, self.sends) if line]
        draw.shuffle(self.lines)

    def text(self, name):
        return "".join(f"{line}\n" for line in (f"on {name}", *self.lines)) if self.is_there else ""

    def code_for(self, asked, up):
        """The code that ends a call with this number and upload, or None."""
        if self.has_up and up is None:
            return SS_UNMARSHAL
        return next((given for held, given in self.codes if held in (asked, None)), None)

    def values(self, asked, sent, up):
        """Size, Same and the download, or None where there is none."""
        if not self.is_there:
            return 0, b"", None
        sizes = {"": asked, "set Size 77": 77, "size Size Body": len(sent), "count Size": len(up or b"")}
        same = sent if self.same.startswith("copy") else self.fixed if self.same else b""
        down = up if self.sends == "echo" else self.down
        return sizes[self.size], same, down if self.has_down else None


class Drawn:
    """A drawn plan: its texts, what it has to be answered, and its bound. What a run of it showed is noted beside."""

    def __init__(self, seed, number):
        draw = random.Random(f"{seed} {number}")
        self.number, self.needed, self.fault = number, None, None
        is_split, self.has_key = draw.random() < 0.75, draw.random() < 0.4
        sent, asked = body(draw), draw.choice([0, 5, 2**32 - 1, draw.getrandbits(32)])
        script = Script(draw, is_split, asked)
        request = word(9 if is_split else 8) + counted(sent) + word(asked)
        up, asks_down, said = None, is_split and draw.random() < (0.95 if script.has_down else 0.05), ""
        if is_split and draw.random() < (0.95 if script.has_up else 0.1):
            up, said = stream(draw, len(request) + 4)
            request, said = request + word(len(up)) + up, f" up={said}"
        self.name = "Split" if is_split else "Plain"
        said += f' {"down " if asks_down else ""}["{sent.hex()}",{asked}]'
        self.script, self.turns, self.sent = script.text(self.name), script.turns, pieces(request)
        self.expect(script.code_for(asked, up), script.values(asked, sent, up), asks_down)
        self.kind += (", waits" if self.turns else "") + (", key" if self.has_key else "")
        self.bound = 4 * (self.sent + self.served) + self.turns + (24 if self.has_key else 16)
        self.lines = [*nodes(draw, self.has_key), f"invoke c1 4 {self.name}{said}"]

    def expect(self, code, values, asks_down):
        """Notes the answer, the pieces of the reply and the kind of the call."""
        if code is not None:
            self.answer, self.served, self.kind = f"abort {code}", 0, "code"
            return
        size, same, down = values
        reply = (b"" if down is None else word(len(down)) + down) + word(size) + counted(same)
        self.served, self.answer = pieces(reply), answer_of(reply, asks_down)
        wide = {(False, False): "one piece each way", (True, False): "long request", (False, True): "long reply"}
        self.kind = wide.get((self.sent > 1, self.served > 1), "both long")

    def plan(self, rounds):
        return "\n".join([*self.lines, f"rounds {rounds}", ""])

    def text(self):
        share = f"{self.needed / self.bound:.2f}" if self.needed else "-"
        return (f"plan {self.number}: {self.kind}: {self.needed} of {self.bound} rounds, {share}; "
                f"P={self.sent} Q={self.served} T={self.turns}")


def nodes(draw, has_key):
    """The lines of the server, the client and the connect."""
    server = f"server 10.0.0.1:{draw.randrange(1, 65536)}"
    if draw.random() < 0.3:
        server += f" service={draw.randrange(1, 65536)}"
    client = f"client 10.0.0.{draw.randrange(2, 255)}:{draw.randrange(1, 65536)} epoch={draw.getrandbits(32)}"
    if has_key:
        key = draw.randbytes(32).hex()
        server += f" key={key}" + (f" nonce={draw.getrandbits(64)}" if draw.random() < 0.5 else "")
        client += f" key={key}"
    return server, client, "connect c1" + (f" first={draw.getrandbits(31) + 1}" if draw.random() < 0.2 else "")


# --- What is run -----------------------------------------------------------------------------------------------------


class Runs:
    """Runs of plans by the program, in a folder."""

    def __init__(self, folder, by):
        self.folder, self.by = folder, by
        (folder / "rounds.xg").write_text(XG)

    def sim(self, one, rounds):
        """The answer of a run with so many rounds, and in which of them it came, or None."""
        plan, script = (self.folder / f"{one.number}.{end}" for end in ("plan", "script"))
        plan.write_text(one.plan(rounds))
        script.write_text(one.script)
        ran = subprocess.run([self.by, "sim", plan, "--xg", self.folder / "rounds.xg", "--script", script],
                             stdin=subprocess.DEVNULL, capture_output=True)
        plan.unlink(), script.unlink()
        if ran.returncode:
            return f"status {ran.returncode} {ran.stderr.decode()[:200]}", None
        lines, made, came = ran.stdout.split(b"\n"), 0, None
        for line in lines:
            made += line == NONE_LEFT
            if came is None and line.startswith(b"c1 read ") and (line.endswith(b" -> end") or b" -> gone " in line):
                came = made
        return lines[-2].decode().removeprefix("answer #1 "), came

    def run(self, one):
        """Runs a plan with as many rounds as its bound says, and notes what was seen."""
        answer, one.needed = self.sim(one, one.bound)
        if answer != one.answer or one.needed is None:
            later, needed = self.sim(one, 10 * one.bound + 1_000)
            self.fails(one, f"{answer[:200]!r}, and not {one.answer[:200]!r}; later {later[:200]!r} in {needed} rounds")
        elif one.number % TRIED == 0:
            self.look_again(one)
        if not one.fault:
            one.lines = one.script = one.answer = None  # drawn again where they are wanted
        return one

    def fails(self, one, why):
        one.fault = why
        print(f"{one.text()}: {why}", flush=True)

    def look_again(self, one):
        """Notes where the rounds that were needed aren't enough, or one less is."""
        seen = [self.sim(one, rounds)[0] for rounds in (one.needed, one.needed - 1)]
        if seen != [one.answer, "open"]:
            self.fails(one, f"with {one.needed} rounds {seen[0][:200]!r}, with one less {seen[1][:200]!r}")


def run_all(runs, given):
    """Runs the plans that were asked for, as many as begin in time."""
    ends = time.monotonic() + 60 * given.minutes if given.minutes else None
    with concurrent.futures.ThreadPoolExecutor(given.jobs) as pool:
        def run(number):
            return None if ends and time.monotonic() > ends else runs.run(Drawn(given.seed, number))
        return [one for one in pool.map(run, range(1, given.plans + 1)) if one]


def worst_of(good, seed):
    """The plans that needed the greatest shares of their bounds, each drawn again."""
    for one in sorted(good, key=lambda it: it.needed / it.bound, reverse=True)[:WORST]:
        again = Drawn(seed, one.number)
        again.needed = one.needed
        yield again


def keep(folder, one):
    """Writes a plan and its script to the folder."""
    (folder / "rounds.xg").write_text(XG)
    (folder / f"{one.number}.plan").write_text(f"# {one.text()}\n{one.plan(one.bound)}")
    (folder / f"{one.number}.script").write_text(one.script)


def table(ran):
    """The lines of the kinds."""
    kinds = collections.defaultdict(list)
    for one in ran:
        kinds[one.kind].append(one)
        kinds["all"].append(one)
    for kind, some in sorted(kinds.items()):
        shares = [it.needed / it.bound for it in some]
        least = min(it.bound - it.needed for it in some)
        mean = sum(shares) / len(some)
        yield f"{kind}: {len(some)} plans, worst {max(shares):.2f}, mean {mean:.2f}, least rest {least}"


def main():
    given = words()
    with tempfile.TemporaryDirectory() as name:
        runs = Runs(pathlib.Path(name), program())
        print(f"the program: {runs.by}", flush=True)
        ran = run_all(runs, given)
        good = [one for one in ran if not one.fault]
        worst = list(worst_of(good, given.seed))
        print("\n".join([*table(good), *(one.text() for one in worst)]), flush=True)
        with concurrent.futures.ThreadPoolExecutor(given.jobs) as pool:
            list(pool.map(runs.look_again, worst))
    failed = [one for one in [*ran, *worst] if one.fault]
    if given.keep:
        folder = pathlib.Path(given.keep)
        folder.mkdir(parents=True, exist_ok=True)
        for one in [*failed, *worst]:
            keep(folder, one)
    print(f"{len(ran) - len(failed)} passed, {len(failed)} failed")
    return bool(failed)


if __name__ == "__main__":
    sys.exit(main())
