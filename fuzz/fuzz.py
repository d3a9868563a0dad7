#!/usr/bin/env python3
"""Runs the program on drawn input and judges how it ends: fuzz/fuzz.py [--seed N] [--jobs N] [--only KIND] SECONDS

It draws interface files, scripts, plans and words, and spoils some of them (drawn.py); it sends drawn datagrams to a
`serve` that has to answer an honest call behind them, and answers a `call` with drawn ones. What must hold of each run:

- it ends within the limit of its kind, and not by a signal;
- its status is one of 0 to 9, and one that its command can have;
- its standard error is empty where the status is 0, and else one line in the form of that status (docs/COMMANDS.md);
- each line of a trace is one (tools/rxtrace.py), and a second run prints the same;
- a load that its words ask for is made, and its two lines agree with each other; a second run prints the same;
- so does tools/player, which knows the rules alone, of each plan that it plays and of each load; some are tried.

Each run that fails is kept in a folder of corpus/, with its files and its words; `--again` runs all of these instead.
Prints each failure as it's found, each minute how far it is, and last how many runs of each kind there were, and
`N passed, M failed`. Everything is sent over loopback alone. The environment has the program as RX; else it is the
gate's, or that of ./rx."""
import argparse
import collections
import concurrent.futures
import json
import os
import pathlib
import random
import re
import shutil
import socket
import subprocess
import sys
import tempfile
import threading
import time

sys.dont_write_bytecode = True
import drawn  # noqa: E402

top = pathlib.Path(__file__).resolve().parent.parent
corpus = pathlib.Path(__file__).resolve().parent / "corpus"
sys.path[:0] = [str(top / "tools"), str(top / "bench")]
import rxtrace  # noqa: E402
from rounds import program  # noqa: E402

PLAYER = top / "tools/player"
LEFT_OUT = 1
LIMITS = {"compile": 10, "sim": 20, "words": 30, "serve": 60, "call": 40}
# How many of a hundred runs are of each kind.
SHARES = {"compile": 35, "sim": 45, "words": 16, "serve": 2, "call": 2}
PLACE = r"(proc|kind|notjson|mismatch \$.*|-450|number)"
WHY = (r"(word|proc|number|arg|json|kind|twice|toomany|late|nonode|nocall|nopacket|jumbo|clockback|slots|bag|key|badline|badnumber|"
       r"badchar|outbyname \S+|unexpected \S+|(twice|unknown|size|endless|opcode) \w+|opcodetwice \d+)")
SAID = {
    0: r"", 1: r"rx: usage\n", 2: rf"rx: (?s:.*):\d+: {WHY}\n|rx: args: {PLACE}\n|rx: reply: -451\n", 3: r"rx: aborted -?\d+\n",
    4: r"rx: dead \d{5,}\n", 5: r"rx: out of memory\n", 6: r"rx: cannot read (?s:.*)\n", 7: r"rx: cannot write\n",
    8: r"rx: network fault\n", 9: r"rx: turns spent \d+\n",
}
LOAD = (rb"calls (\d+) ok (\d+) abort (\d+) dead (\d+) open (\d+)\n"
        rb"rounds (\d+) given (\d+) lost (\d+) repeated (\d+) held (\d+)\n")
LOAD_CALLS = 10_000
ENDS = {"compile": {0, 2, 6}, "sim": {0, 2, 6}, "words": {0, 1, 2, 4, 6, 8, 9}, "serve": {0, 9}, "call": {0, 2, 3, 4, 9}}


class Run:
    """One run: its kind, the words behind the program's name, and the files that it reads, by name."""

    def __init__(self, kind, words, files, replies=()):
        self.kind, self.words, self.files, self.replies = kind, words, files, list(replies)

    def keep(self, seed, why):
        room = corpus / f"{self.kind}-{seed}"
        shutil.rmtree(room, ignore_errors=True)
        room.mkdir(parents=True)
        for name, some in self.files.items():
            (room / name).write_bytes(some)
        said = {"kind": self.kind, "words": self.words, "replies": [it.hex() for it in self.replies], "why": why}
        (room / "run.json").write_text(json.dumps(said, indent=1) + "\n")

    @staticmethod
    def kept(room):
        said = json.loads((room / "run.json").read_text())
        files = {it.name: it.read_bytes() for it in room.iterdir() if it.name != "run.json"}
        return Run(said["kind"], said["words"], files, map(bytes.fromhex, said["replies"]))


def draws(kind, draw):
    """A run of a kind."""
    interface = drawn.Interface(draw)
    xg, script = interface.text, interface.script()
    if kind == "compile":
        return Run(kind, ["compile", "a.xg"], {"a.xg": drawn.spoilt(draw, xg).encode()})
    if kind == "sim":
        has_xg = draw.random() < 0.7
        plan = drawn.plan(draw, interface if has_xg else None)
        spoiled = draw.randrange(4)
        texts = {"a.plan": plan, "a.xg": xg, "a.script": script}
        if spoiled < 3:
            named = list(texts)[spoiled]
            texts[named] = drawn.spoilt(draw, texts[named])
        words = ["sim", "a.plan", *(["--xg", "a.xg", "--script", "a.script"][:draw.choice((2, 4, 4))] if has_xg else [])]
        return Run(kind, words, {it: text.encode() for it, text in texts.items()})
    if kind == "words":
        files = {"a.xg": xg.encode(), "a.script": script.encode(), "a.plan": drawn.plan(draw, interface).encode(), "a.key": bytes(32)}
        return Run(kind, drawn.words(draw, files), files)
    sent = [drawn.datagram(draw, is_client=kind == "serve") for _ in range(draw.choice((1, 20, 500)))]
    key = ["--key", "a.key"] if draw.random() < 0.3 else []
    files = {"a.xg": b"Echo(IN afs_uint32 A, OUT afs_uint32 B) = 1;\n", "a.script": b"on Echo\ncopy B A\n", "a.key": bytes(32)}
    if kind == "serve":
        return Run(kind, ["serve", "a.xg", "a.script", "--at", "127.0.0.1:0", "--for", "20000", *key], files, sent)
    return Run(kind, ["call", "a.xg", "Echo", "[7]", "--epoch", "1", *key], files, sent)


def ran(words, room, limit):
    """The status of the program on these words, what it printed, and what it said."""
    command = [rx, *words]
    done = subprocess.run(command, cwd=room, stdin=subprocess.DEVNULL, capture_output=True, timeout=limit)
    return done.returncode, done.stdout, done.stderr.decode(errors="replace")


def judged(kind, status, said):
    """What is wrong of how a run ended, if something is."""
    if status < 0:
        return f"it ended by signal {-status}: {said[-300:]}"
    if status not in ENDS[kind]:
        return f"its status is {status}: {said[-300:]}"
    if not re.fullmatch(SAID[status], said):
        return f"with status {status} it says {said[-300:]!r}"
    return None


def tried(run, seed):
    """What is wrong of a run, if something is."""
    with tempfile.TemporaryDirectory(prefix="fuzz-") as folder:
        room = pathlib.Path(folder)
        for name, some in run.files.items():
            (room / name).write_bytes(some)
        try:
            return {"serve": served, "call": called}.get(run.kind, printed)(run, room, random.Random(seed))
        except subprocess.TimeoutExpired:
            return f"it runs for more than {LIMITS[run.kind]} seconds"
        except rxtrace.Fault as fault:
            return f"its trace: {fault}"


def printed(run, room, draw):
    status, out, said = ran(run.words, room, LIMITS[run.kind])
    if fault := judged(run.kind, status, said):
        return fault
    if run.kind == "sim" and out and draw.random() < 0.2:
        (room / "trace").write_bytes(out)
        rxtrace.Trace(str(room / "trace"), str(room / "a.plan"))
    if run.kind == "sim" and draw.random() < 0.1 and ran(run.words, room, LIMITS[run.kind]) != (status, out, said):
        return "a second run prints something else"
    if run.words[:1] == ["load"]:
        return misloaded(run.words, room, (status, out, said), draw)
    return disagreed(run.words, room, (status, out, said)) if run.kind == "sim" and draw.random() < 0.1 else None


def load_of(words):
    """The NUMBER and CALLS of the words of a load; None where they are no load (docs/FORMATS.md)."""
    at = words.index("--") if "--" in words else len(words)
    plain = words[1:at] + words[at + 1:]
    if any(it.startswith("-") for it in words[1:at]) or len(plain) != 2:
        return None
    if not all(re.fullmatch("[0-9]+", it) for it in plain):
        return None
    number, calls = map(int, plain)
    return (number, calls) if number < 2**64 and 1 <= calls <= LOAD_CALLS else None


def misloaded(words, room, told, draw):
    """What is wrong of what became of the words of a load, if something is."""
    status, out, _ = told
    given = load_of(words)
    if (status == 0) != (given is not None):
        return f"its status is {status}"
    if given is None:
        return None
    lines = re.fullmatch(LOAD, out)
    if not lines:
        return f"it prints {out[-300:]!r}"
    calls, *ends = map(int, lines.groups()[:5])
    if calls != given[1] or sum(ends) != calls:
        return f"its calls and their ends are {calls} and {ends}"
    if draw.random() < 0.3 and ran(words, room, LIMITS["words"]) != told:
        return "a second run prints something else"
    return disagreed(["load", *map(str, given)], room, told) if draw.random() < 0.3 else None


def disagreed(words, room, told):
    """What is wrong where tools/player and the program differ, if they do; a long plan takes the player too long."""
    try:
        done = subprocess.run([PLAYER, *words], cwd=room, stdin=subprocess.DEVNULL, capture_output=True,
                              timeout=LIMITS["sim"])
    except subprocess.TimeoutExpired:
        return None
    said = done.stderr.decode(errors="replace")
    if done.returncode == LEFT_OUT:
        return None if said.startswith("tools/player: ") else f"tools/player fails: {said[-300:]}"
    return None if (done.returncode, done.stdout, said) == told else "tools/player prints something else"


def served(run, room, draw):
    """Sends the datagrams from a few hosts of loopback, and then makes an honest call, which may have to wait until the
    calls that they began have ended in silence."""
    with subprocess.Popen([rx, *run.words], cwd=room, stdout=subprocess.PIPE, stderr=subprocess.PIPE) as server:
        end = threading.Timer(LIMITS["serve"], server.kill)
        end.start()
        try:
            ready = server.stdout.readline().split()
            if len(ready) != 2:
                return f"it isn't ready: {server.stderr.read()!r}"
            host, _, port = ready[1].decode().partition(":")
            senders = [socket.socket(socket.AF_INET, socket.SOCK_DGRAM) for _ in range(3)]
            for at, it in enumerate(senders):
                it.bind((f"127.0.0.{at + 1}", 0))
            for some in run.replies:
                draw.choice(senders).sendto(some, (host, int(port)))
            time.sleep(0.2)
            words = ["call", "a.xg", "Echo", "[7]", "--to", f"{host}:{port}", "--epoch", "4000000000"]
            honest = ran([*words, *(["--key", "a.key"] if "--key" in run.words else [])], room, LIMITS["call"])
            for it in senders:
                it.close()
            said = server.stderr.read().decode(errors="replace")
            if honest[:2] != (0, b"ok [7]\n"):
                return f"an honest call behind the datagrams ends with {honest}"
            return judged("serve", server.wait(), said)
        finally:
            end.cancel()
            server.kill()


def called(run, room, draw):
    """Answers each datagram of a call with some of those drawn, with its epoch, cid and call number in most."""
    with socket.socket(socket.AF_INET, socket.SOCK_DGRAM) as peer:
        peer.bind(("127.0.0.1", 0))
        peer.settimeout(0.1)
        is_over = threading.Event()

        def answers():
            left = list(run.replies)
            while left and not is_over.is_set():
                try:
                    came, host = peer.recvfrom(65_536)
                except OSError:
                    continue
                for _ in range(draw.choice((1, 1, 3, 40))):
                    some = left.pop() if left else b""
                    peer.sendto(came[:12] + some[12:] if draw.random() < 0.8 else some, host)
        answering = threading.Thread(target=answers)
        answering.start()
        try:
            status, _, said = ran([*run.words, "--to", f"127.0.0.1:{peer.getsockname()[1]}"], room, LIMITS["call"])
        finally:
            is_over.set()
            answering.join()
        return judged("call", status, said)


def main():
    global rx
    parser = argparse.ArgumentParser(prog="fuzz/fuzz.py", description=__doc__, formatter_class=argparse.RawDescriptionHelpFormatter)
    parser.add_argument("seconds", metavar="SECONDS", type=float, nargs="?", default=60, help="how long it draws, 60")
    parser.add_argument("--seed", type=int, default=int(time.time()), help="the first run's seed; the next ones count on")
    parser.add_argument("--jobs", type=int, default=os.cpu_count(), help="how many run at a time")
    parser.add_argument("--only", choices=LIMITS, help="draw this kind alone")
    parser.add_argument("--again", action="store_true", help="run what corpus/ holds, and draw nothing")
    given = parser.parse_args()
    rx = str(program())
    begun, told = time.monotonic(), time.monotonic()
    counts, failed = collections.Counter(), 0

    def seeds():
        seed = given.seed
        while time.monotonic() - begun < given.seconds:
            yield seed
            seed += 1

    def one(seed):
        draw = random.Random(seed)
        run = draws(given.only or draw.choices(list(SHARES), SHARES.values())[0], draw)
        return seed, run, tried(run, seed)

    def again(room):
        run = Run.kept(room)
        return room.name, run, tried(run, 0)

    work = ((again, it) for it in sorted(corpus.glob("*/"))) if given.again else ((one, it) for it in seeds())
    with concurrent.futures.ThreadPoolExecutor(given.jobs) as pool:
        going = set()
        is_more = True
        while going or is_more:
            while is_more and len(going) < 2 * given.jobs:
                job = next(work, None)
                is_more = job is not None
                going |= {pool.submit(*job)} if job else set()
            done, going = concurrent.futures.wait(going, return_when=concurrent.futures.FIRST_COMPLETED) if going else (set(), set())
            for it in done:
                seed, run, fault = it.result()
                counts[run.kind] += 1
                if fault:
                    failed += 1
                    print(f"failed: {run.kind} {seed}: {' '.join(run.words)[:200]}: {fault}", flush=True)
                    if not given.again:
                        run.keep(seed, fault)
            if time.monotonic() - told > 60:
                told = time.monotonic()
                print(f"{told - begun:.0f} s: {sum(counts.values())} runs, {failed} failed", flush=True)
    print(", ".join(f"{kind} {counts[kind]}" for kind in LIMITS))
    print(f"{sum(counts.values()) - failed} passed, {failed} failed")
    sys.exit(1 if failed else 0)


if __name__ == "__main__":
    main()
