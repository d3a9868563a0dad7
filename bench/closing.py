#!/usr/bin/env python3
"""Draws driven plans that lose, repeat and reorder, and says how many fair rounds end their calls: bench/closing.py [PLANS]

A plan has a server line and a client line without a key and a connect. Behind them come drawn parts: invokes (a third of
the plans has one or two that are cancelled, or a second one that lives), turns, polls by hand whose datagrams are
delivered late, twice, in another order, joined or never, cancels, clocks that move apart, fair and lossy rounds; half of
the nodes have drawn limits. What is asked and served is drawn as in bench/rounds.py: early codes, waits, uploads,
downloads. What a poll gives isn't known before it's made, so a plan is drawn part by part, and run up to there by rx sim.
At last stands `rounds B`: B is 2000(P + Q + T + 8) where one call lives then, and with n that live 1000(n + 1) times the
sum of these; P are the pieces of the request, Q those of the reply that is served, none of a code, and T the turns of
the script's `wait`.

With --several a plan has two to sixteen calls that live then, of one to eight clients with one connection or more, some
with one host, and of two procedures; and calls that are cancelled before, whose channels go on. There is room for all:
where a node has A calls, S slots and a window W, and the plan has n invokes, n is at most A and 2Wn at most S - A, in
many nodes exactly. With --contend S - A is 1 to 64: nothing is promised then, and a call that outlives the bound counts
as one that failed. In both, the calls that live at the server alone aren't counted, which makes the bound less.

A plan passes where each client's call that lived at its client ends in these rounds, with the values that this script
computes or with a code or silence; where none is found dead of which a message was heard in these rounds, unless the
server had no place for it; and where B rounds were enough. A round has one line "s poll -> none" in the trace, so the
rounds that a call needed are these up to its caller's read that says `end` or `gone`. Of each hundredth plan that is
tried: with so many rounds its calls have ended, with one less one lives.

Prints each plan that fails, at once; how many rounds were needed, by kind: the worst, the mean, and the worst share of
the bound; how the rounds beside (P + Q + T + 8) are spread; the ten worst plans; and last `N passed, M failed`. The status is 1
where one failed. The environment has the program as RX; else it is the gate's, or that of ./rx."""
import argparse
import collections
import concurrent.futures
import pathlib
import random
import subprocess
import sys
import tempfile
import time

sys.path.insert(0, str(pathlib.Path(__file__).resolve().parent))
from rounds import (NONE_LEFT, TRIED, XG, Script, answer_of, body, counted, pieces, program, stream, word)  # noqa: E402

WORST, PARTS, MOST = 10, 7, 1_000_000
HEARD = (b"kept", b"repeat", b"beyond", b"clash", b"noslot", b"heard")


def words():
    parser = argparse.ArgumentParser(prog="bench/closing.py", description=__doc__,
                                     formatter_class=argparse.RawDescriptionHelpFormatter)
    parser.add_argument("plans", metavar="PLANS", nargs="?", type=int, default=10_000, help="how many, 10,000")
    parser.add_argument("--seed", type=int, default=1, help="what they are drawn from, 1")
    shape = parser.add_mutually_exclusive_group()
    shape.add_argument("--several", action="store_true", help="plans of 2 to 16 calls with room for all")
    shape.add_argument("--contend", action="store_true", help="the same of calls that contend for slots")
    parser.add_argument("--jobs", type=int, default=2, help="how many run at a time, 2")
    parser.add_argument("--minutes", type=float, help="begin none behind so many minutes")
    parser.add_argument("--keep", metavar="FOLDER", help="write plans that failed and the worst ones there")
    return parser.parse_args()


# --- What is drawn ---------------------------------------------------------------------------------------------------


class Invoke:
    """An invoke: its line, what is to be answered, and how much there is to be done for it."""

    def __init__(self, draw, script, name, is_split, asked, client="c1", cid=4):
        sent = body(draw)
        request = word(9 if is_split else 8) + counted(sent) + word(asked)
        up, asks_down, said = None, is_split and draw.random() < (0.95 if script.has_down else 0.05), ""
        if is_split and draw.random() < (0.95 if script.has_up else 0.1):
            up, said = stream(draw, len(request) + 4)
            request, said = request + word(len(up)) + up, f" up={said}"
        said += f' {"down " if asks_down else ""}["{sent.hex()}",{asked}]'
        self.line, self.asked, self.served = f"invoke {client} {cid} {name}{said}", pieces(request), 0
        code = script.code_for(asked, up)
        if code is not None:
            self.answer = f"abort {code}"
        else:
            size, same, down = script.values(asked, sent, up)
            reply = (b"" if down is None else word(len(down)) + down) + word(size) + counted(same)
            self.served, self.answer = pieces(reply), answer_of(reply, asks_down)
        self.turns = script.turns
        self.work = self.asked + self.served + script.turns + 8


def limits(draw, has_one):
    """The options of a node, and the calls that it may have."""
    if draw.random() < 0.5:
        return ""
    calls = draw.choice([1, 2, 3, 64]) if has_one else 64
    window = draw.choice([32, 32, 33, 48, 64, 128, 255])
    slots = calls + draw.choice([1, 1, 2, 5, 31, 64, 300]) if has_one else 2048
    return f" calls={calls} slots={slots} window={window if has_one else 32}"


class Drawn:
    """A plan that is being drawn: its lines so far, and what a run of them came to."""
    fewest = 1

    def __init__(self, seed, number):
        self.draw = draw = random.Random(f"closing {seed} {number}")
        self.begins(number, ["s", "c1"])
        is_split, asked = draw.random() < 0.85, draw.choice([0, 5, 2**32 - 1, draw.getrandbits(32)])
        self.name, script = "Split" if is_split else "Plain", Script(draw, is_split, asked)
        self.script, self.turns, way = script.text(self.name), script.turns, draw.random()
        self.cancelled, self.many = (1 if way < 0.2 else 2 if way < 0.25 else 0), 0.25 <= way < 0.35
        self.invokes = [Invoke(draw, script, self.name, is_split, asked)
                        for _ in range(self.cancelled + 1 + self.many)]
        has_one = not self.many and not self.cancelled
        self.lines = [f"server 10.0.0.1:7000{limits(draw, has_one)}",
                      f"client 10.0.0.2:7001 epoch={draw.getrandbits(32)}{limits(draw, has_one)}", "connect c1"]
        self.kinds |= {"waits"} if script.turns else set()
        self.kinds |= {"code"} if self.invokes[-1].answer.startswith("abort") else set()
        self.kinds |= {"several"} if self.many else {"behind another"} if self.cancelled else set()

    def begins(self, number, nodes):
        """Notes that nothing was seen of it yet."""
        self.number, self.fault, self.needed, self.closed, self.kinds = number, None, None, [], set()
        self.nodes, self.moments, self.given, self.seen = nodes, dict.fromkeys(nodes, 0), 0, 0

    def drawn_by(self, runs):
        """Draws all parts; the calls that are cancelled come before the one that lives."""
        draw, last = self.draw, len(self.invokes) - 1
        for at, invoke in enumerate(self.invokes):
            runs.goes_on(self, [invoke.line])
            for _ in range(draw.randrange(PARTS if at == last else 3)):
                runs.goes_on(self, self.part())
            if at < self.cancelled:
                runs.goes_on(self, [f"cancel #{at + 1} {draw.choice([1, 13, -1])}"])

    def shape(self, count):
        return set()

    def part(self):
        """The next lines: of what polls gave before, of a network that loses, or of clocks."""
        way = self.draw.random()
        if way < 0.5:
            return self.by_hand()
        if way < 0.8:
            self.kinds.add("lossy")
            return [f"lossy {self.draw.getrandbits(31)} {self.draw.choice([1, 1, 2, 2, 3, 4, 6, 9, 15, 40])}"]
        if way < 0.87:
            return [f"rounds {self.draw.choice([1, 1, 2, 3])}"]
        return self.clocks()

    def clocks(self):
        self.kinds.add("clocks")
        to = self.draw.choice([1, 99, 100, 350, 1_000, 2_000, 4_000, 5_999, 11_999, 12_000, 60_000, 2**40])
        if self.draw.random() < 0.3:
            return [f"clock all {max(self.moments.values()) + to}"]
        node = self.draw.choice(self.nodes[::-1])
        return [f"clock {node} {self.moments[node] + to}"]

    def by_hand(self):
        """Deliveries of some of the datagrams that polls gave, then turns, then polls."""
        self.kinds.add("by hand")
        draw, lines = self.draw, []
        near = range(max(1, self.given - 40), self.given + 1)
        some = [draw.choice(near) for _ in range(draw.randrange(8))] if self.given else []
        if self.given and draw.random() < 0.4:
            some += [at for at in near if draw.random() < 0.8]
        lines += [f"deliver %{at}" for at in some]
        for _ in range(draw.randrange(len(self.nodes) + 2)):
            lines.append(f"turn {draw.choice(self.nodes)}")
        for _ in range(draw.choice([0, 1, 2, 4, 12, 40])):
            lines.append(f"poll {draw.choice(self.nodes[::-1])}")
        draw.random() < 0.1 and draw.shuffle(lines)
        return lines

    def plan(self, rounds=None):
        """The plan so far; with so many rounds behind it each call is asked for before and behind them."""
        if rounds is None:
            return "\n".join([*self.lines, ""])
        asks = [f"ask #{at + 1}" for at in range(len(self.invokes))]
        whole, rest = divmod(rounds, MOST)
        made = [f"rounds {MOST}"] * whole + [f"rounds {rest}"] * (rest > 0)
        return "\n".join([*self.lines, *asks, *made, *asks, ""])

    def text(self):
        shape = "+".join(sorted(self.kinds)) or "plain"
        work = "; ".join(f"P={one.asked} Q={one.served} T={one.turns}" for one in self.closed)
        return f"plan {self.number}: {shape}: {self.needed} of {self.bound} rounds; {work}"


class Several(Drawn):
    """A plan of several clients' calls, which have room for all or contend for slots."""
    fewest = 2

    def __init__(self, seed, number, contends):
        self.draw = draw = random.Random(f"{'contend' if contends else 'several'} {seed} {number}")
        self.wanted, clients = draw.randint(2, 16), draw.randint(1, 8)
        self.most, self.cancelled = self.wanted + draw.choice([0, 0, 2, 6]), 0
        self.begins(number, ["s", *(f"c{at + 1}" for at in range(clients))])
        self.asked = [0, 5, 2**32 - 1, draw.getrandbits(32)]
        self.scripts = {name: Script(draw, name == "Split", draw.choice(self.asked)) for name in ("Plain", "Split")}
        self.script = "".join(script.text(name) for name, script in self.scripts.items())
        per_client = -(-self.wanted // (4 * clients))
        conns = [range(max(per_client, draw.choice([1, 2]))) for _ in range(clients)]
        self.open_ = {(node, 4 * at + 4): [] for node, some in zip(self.nodes[1:], conns) for at in some}
        same = clients > 1 and draw.random() < 0.2
        self.lines = [f"server 10.0.0.1:7000{self.limits(contends)}"]
        self.lines += [f"client 10.0.0.{2 if same else 1 + at}:7001 epoch={at}{self.limits(contends)}"
                       for at in range(1, clients + 1)]
        self.lines += [f"connect {node}{draw.choice(['', '', ' first=7', ' first=2147483648'])}"
                       for node, _ in self.open_]
        self.invokes = []
        self.kinds |= {"one client"} if clients == 1 else {"clients of one host"} if same else {"several clients"}

    def limits(self, contends):
        """The options of a node."""
        draw = self.draw
        window, calls = draw.choice([32, 32, 32, 33, 48, 64, 128, 255]), self.most + draw.choice([0, 0, 3, 48])
        room = draw.choice([1, 1, 2, 3, 5, 8, 31, 64]) if contends \
            else 2 * window * self.most + draw.choice([0, 0, 1, 300])
        return f" calls={calls} slots={calls + room} window={window}"

    def part(self):
        """The next lines, of which most calls outlive any."""
        way = self.draw.random()
        if way < 0.7:
            return self.by_hand()
        if way < 0.9:
            self.kinds.add("lossy")
            return [f"lossy {self.draw.getrandbits(31)} {self.draw.choice([1, 1, 1, 2, 2, 3, 4, 15])}"]
        if way < 0.92:
            return ["rounds 1"]
        self.kinds.add("clocks")
        node, times = self.draw.choice(self.nodes), [1, 99, 350, 1_000, 2_000, 4_000, 5_999, 11_999, 12_000]
        return [f"clock {node} {self.moments[node] + self.draw.choice(times)}"]

    def invoke(self):
        """The line of one more call, where a connection has a channel that is free."""
        draw = self.draw
        free = [place for place, calls in self.open_.items() if len(calls) < 4]
        name, (client, cid) = draw.choice(list(self.scripts)), draw.choice(free)
        one = Invoke(draw, self.scripts[name], name, name == "Split", draw.choice(self.asked), client, cid)
        self.invokes.append(one)
        self.open_[client, cid].append(len(self.invokes))
        return one.line

    def cancel(self):
        """The line that gives up one of the calls."""
        calls = self.draw.choice([calls for calls in self.open_.values() if calls])
        self.kinds.add("behind others")
        return f"cancel #{calls.pop(self.draw.randrange(len(calls)))} {self.draw.choice([1, 13, -1])}"

    def drawn_by(self, runs):
        """Draws all parts, among them the calls and what gives some of them up."""
        draw, lines = self.draw, []
        for node in self.nodes:
            if draw.random() < 0.1:
                lines.append(f"clock {node} {draw.choice([60_000, 2**40, 2**60])}")
        while (open_ := sum(map(len, self.open_.values()))) < self.wanted:
            lines.append(self.invoke())
            if draw.random() < 0.6:
                lines += self.by_hand()
            if len(self.invokes) + self.wanted - open_ < self.most and draw.random() < 0.4:
                lines.append(self.cancel())
            runs.goes_on(self, lines)
            lines = []
        for _ in range(draw.randrange(PARTS)):
            runs.goes_on(self, self.part())
        self.kinds |= {"waits"} if any(one.turns for one in self.invokes) else set()

    def shape(self, count):
        """The kind of a plan in which so many calls live as its rounds begin."""
        return {next(f"{low} to {high} calls" for low, high in ((2, 4), (5, 8), (9, 16)) if count <= high)}


# --- What is run -----------------------------------------------------------------------------------------------------


class Runs:
    """Runs of plans by the program, in a folder."""

    def __init__(self, folder, by):
        self.folder, self.by = folder, by
        (folder / "rounds.xg").write_text(XG)

    def sim(self, one, rounds=None):
        """The lines of a run."""
        plan, script = (self.folder / f"{one.number}.{end}" for end in ("plan", "script"))
        plan.write_text(one.plan(rounds))
        script.write_text(one.script)
        ran = subprocess.run([self.by, "sim", plan, "--xg", self.folder / "rounds.xg", "--script", script],
                             stdin=subprocess.DEVNULL, capture_output=True)
        plan.unlink(), script.unlink()
        if ran.returncode:
            raise ValueError(f"status {ran.returncode} {ran.stderr.decode()[:200]}")
        lines = ran.stdout.split(b"\n")[:-1]
        trace = [line for line in lines if not line.startswith(b"answer ")]
        return trace, [line.decode() for line in lines[len(trace):]]

    def goes_on(self, one, lines):
        """Puts lines behind a plan, and notes what a run of them came to."""
        one.lines += lines
        trace, _ = self.sim(one)
        counts = any(line.startswith("poll ") for line in lines)
        for line in trace[one.seen:]:
            node, _, event = line.decode().partition(" ")
            if event.startswith("clock "):
                one.moments[node] = int(event.split()[1])
            one.given += counts and event.startswith("poll -> ") and event != "poll -> none"
        one.seen = len(trace)

    def run(self, one):
        """Draws a plan, runs it with as many rounds as its bound says, and notes what was seen."""
        try:
            one.drawn_by(self)
            asked = [line.endswith(b" -> live") for line in self.sim(one, 0)[0] if line.split(b" ", 2)[1] == b"ask"]
            live = [it for it, is_live in zip(one.invokes, asked) if is_live]
            if len(live) >= one.fewest:
                one.closed = live
                one.kinds |= one.shape(len(live))
                self.closes(one)
        except ValueError as fault:
            self.fails(one, str(fault))
        return one

    def closes(self, one):
        count, work = len(one.closed), sum(it.work for it in one.closed)
        one.bound = 2_000 * work if count == 1 else 1_000 * (count + 1) * work
        trace, _ = self.sim(one, one.bound)
        many = len(one.invokes)
        one.needed, behind, asked = 0, trace[one.seen + many:-many], trace[-many:]
        for invoke, line in zip(one.invokes, asked):
            if invoke in one.closed:
                needed = self.looks(one, behind, line, invoke)
                one.needed = None if needed is None or one.needed is None else max(one.needed, needed)
        if not one.fault and one.number % TRIED == 0 and one.needed:
            seen = [any(line.endswith(b" -> live") for line in self.sim(one, rounds)[0][-many:])
                    for rounds in (one.needed, one.needed - 1)]
            if seen != [False, True]:
                self.fails(one, f"lives with {one.needed} rounds and with one less: {seen}")

    def looks(self, one, behind, asked, invoke):
        """In which round a call ended, or None; and whether it ended as it may."""
        node, _, rest = asked.partition(b" ask ")
        name, end = rest.split(b" -> ")
        made, came, heard, read, takes = 0, None, False, node + b" read " + name + b" ", node + b" take "
        cid, channel, number = (int(it) for it in name.split(b"/")[2:5])
        for line in behind:
            made += line == NONE_LEFT
            if line.startswith(takes) and line.rsplit(b" ", 1)[1] in HEARD:
                octets = bytes.fromhex(line.split(b" ")[3].decode())
                heard |= octets[4:12] == word(cid + channel) + word(number)
            if line.startswith(read) and (line.endswith(b" -> end") or b" -> gone " in line):
                came = made
                break
        if came is None or end == b"live":
            self.fails(one, f"{asked.decode()} behind {made} rounds")
        elif end.startswith(b"dead") and heard and not any(line.endswith(b" -> full") for line in behind):
            self.fails(one, f"{asked.decode()} in round {came}, though it was heard")
        elif end.decode() != (invoke.answer if invoke.answer.startswith("abort") else "ok") \
                and not end.startswith((b"dead", b"abort")):
            self.fails(one, f"{asked.decode()}, and not {invoke.answer[:200]}")
        return came

    def fails(self, one, why):
        one.fault = why
        one.bound = getattr(one, "bound", None)
        print(f"{one.text()}: {why}", flush=True)


def run_all(runs, given):
    """Runs the plans that were asked for, as many as begin in time."""
    ends = time.monotonic() + 60 * given.minutes if given.minutes else None
    with concurrent.futures.ThreadPoolExecutor(given.jobs) as pool:
        def run(number):
            if ends and time.monotonic() > ends:
                return None
            several = given.several or given.contend
            return runs.run(Several(given.seed, number, given.contend) if several else Drawn(given.seed, number))
        return [one for one in pool.map(run, range(1, given.plans + 1)) if one]


def keep(folder, one):
    """Writes a plan and its script to the folder."""
    (folder / "rounds.xg").write_text(XG)
    (folder / f"{one.number}.plan").write_text(f"# {one.text()}\n{one.plan(one.bound)}")
    (folder / f"{one.number}.script").write_text(one.script)


def share(one):
    """The rounds of a plan beside the work of its calls."""
    return one.needed / sum(it.work for it in one.closed)


def table(good):
    """The lines of the kinds, and how the rounds beside the work are spread."""
    kinds = collections.defaultdict(list)
    for one in good:
        for kind in one.kinds | {"all"}:
            kinds[kind].append(one)
    for kind, some in sorted(kinds.items()):
        most, mean = max(it.needed for it in some), sum(it.needed for it in some) / len(some)
        worst = max(it.needed / it.bound for it in some)
        yield f"{kind}: {len(some)} plans, at most {most} rounds, mean {mean:.1f}; worst share of the bound {worst:.6f}"
    shares = sorted(share(it) for it in good)
    for part in (0.5, 0.9, 0.99, 0.999, 1):
        yield f"{100 * part:g} of 100 plans: at most {shares[max(0, int(part * len(shares)) - 1)]:.2f} rounds for each of P + Q + T + 8"


def main():
    given = words()
    with tempfile.TemporaryDirectory() as name:
        runs = Runs(pathlib.Path(name), program())
        print(f"the program: {runs.by}", flush=True)
        ran = run_all(runs, given)
    good = [one for one in ran if not one.fault and one.closed]
    failed = [one for one in ran if one.fault]
    worst = sorted(good, key=share, reverse=True)[:WORST]
    if good:
        print("\n".join([*table(good), *(one.text() for one in worst)]), flush=True)
    few = "fewer than two calls" if given.several or given.contend else "no call"
    print(f"{len(ran) - len(good) - len(failed)} plans had {few} that lived before the rounds")
    if given.keep:
        folder = pathlib.Path(given.keep)
        folder.mkdir(parents=True, exist_ok=True)
        for one in [*failed, *worst]:
            keep(folder, one)
    print(f"{len(ran) - len(failed)} passed, {len(failed)} failed")
    return bool(failed)


if __name__ == "__main__":
    sys.exit(main())
