#!/usr/bin/env python3
"""Runs the tools of tools/ on examples, on bad lines and on the list of crates: .ci/tools.py

tools/player plays each plan of examples/ whose trace stands beside it, and prints this trace. What a pcap file has is
read back by tshark, where that is installed, and compared with what the lines of the trace say, which are read here
anew. docs/ladder.svg and docs/crates.svg are those that the tools make now."""
import concurrent.futures
import pathlib
import re
import shutil
import subprocess
import sys
import tempfile
import xml.etree.ElementTree

top = pathlib.Path(__file__).resolve().parent.parent
failed = []
OK, BAD, REFUSED = 0, 1, 2
HOSTS = {"s": "10.0.0.1:7000", "c1": "10.0.0.2:7001"}
# how many datagrams are given, how often one is taken, and how many are lost
EXAMPLES = {"first-lost": (5, 4, 1), "repeats": (5, 9, 0), "reply-lost-twice": (6, 3, 3)}
FIELDS = """frame.time_epoch ip.src udp.srcport ip.dst udp.dstport udp.length rx.cid rx.callnumber rx.seq rx.serial
rx.type rx.flags rx.serviceid""".split()
CHECKED = ["ip.checksum.status", "udp.checksum.status", "_ws.malformed"]
GOOD, NOT_MALFORMED = "1", ""
SVG = "{http://www.w3.org/2000/svg}"
CALL = "10.0.0.2:7001/1/4/0/1"
# what a line is refused with, of both tools
BAD_LINES = {
    "c1 polls -> none": "this is no line of a trace: c1 polls -> none",
    "c0 poll -> none": "this is no line of a trace: c0 poll -> none",
    "c1 poll -> 10.0.0.1:7000 0": "this is no line of a trace: c1 poll -> 10.0.0.1:7000 0",
    "s poll -> 10.0.0.300:7001 00": "10.0.0.300:7001 is no host",
    "s take 10.0.0.2:70000 00 -> bad short 1": "10.0.0.2:70000 is no host",
    "s clock -1": "this is no line of a trace: s clock -1",
    "s clock 4611686018427387904": "a clock goes back, or to 2^62",
    "c2 poll -> 10.0.0.1:7000 00": "the host of c2 is in no line; --plan PLAN reads it there",
    "": "this is no line of a trace: ",
}
# what tools/player refuses, with its place: a plan, an interface, a script
PLAYER_FAULTS = {
    ("accept now\n", "", ""): "plan:1: this is no line of a plan here",
    ("server 10.0.0.1:7000\nclient 10.0.0.2:7001 epoch=1\ninvoke c1 4 P [1]\n", "", ""):
        "plan:3: this is no line of a plan here",
    ("", "P(IN hyper A) = 1;\n", ""): "xg:1: the type hyper is left out here, or defined below",
    ("", "enum E { A };\n", ""): "xg:1: E is refused or left out here",
    ("", "P(int A, OUT int B) = 1;\n", "on P\n\ncopy A B\n"): "script:3: this is no line of a script here",
    ("", "P(int A, OUT int B) = 1;\n", "on P\nup\n"):
        "script: P isn't split, or lacks the `up` or `down` that a line needs",
}


def expect(what, seen, wanted):
    """Notes where what was seen isn't what is wanted."""
    if seen != wanted:
        failed.append(what)
        print(f"tools/{what}: {str(seen)[:300]!r}, and not {str(wanted)[:300]!r}")


def run(*words, folder=top):
    """The status, standard output and standard error of a command."""
    ended = subprocess.run(words, cwd=folder, stdin=subprocess.DEVNULL, capture_output=True, text=True, timeout=100)
    return ended.returncode, ended.stdout, ended.stderr


# --- What a trace says -----------------------------------------------------------------------------------------------


def datagrams(trace, is_taken):
    """The moment, the two hosts and the bytes of each datagram that is given, or taken, in a trace."""
    moments, found = {}, []
    for line in trace.read_text().splitlines():
        node, text = line.split(" ", 1)
        if clock := re.fullmatch(r"clock (\d+)", text):
            moments[node] = int(clock[1])
        elif not is_taken and (gave := re.fullmatch(r"poll -> (\S+) ([0-9a-f]+)", text)):
            found.append((moments.get(node, 0), HOSTS[node], gave[1], bytes.fromhex(gave[2])))
        elif is_taken and (took := re.fullmatch(r"take (\S+) ([0-9a-f]+) -> .*", text)):
            found.append((moments.get(node, 0), took[1], HOSTS[node], bytes.fromhex(took[2])))
    return found


def fields(moment, source, target, data):
    """What tshark tells of a datagram: the fields above."""
    numbers = [int.from_bytes(data[at:end], "big") for at, end in ((4, 8), (8, 12), (12, 16), (16, 20), (20, 21))]
    return [f"{moment // 1000}.{moment % 1000:03}000000", *source.split(":"), *target.split(":"), str(8 + len(data)),
            *map(str, numbers), f"0x{data[21]:02x}", str(int.from_bytes(data[26:28], "big"))]


# --- Traces by the rules alone ---------------------------------------------------------------------------------------


def try_player(plan):
    """A plan has its trace, and its refusal where it has one."""
    as_said = re.search(r"^# Run as: rx (.*)$", plan.read_text(), flags=re.M)
    words = as_said[1].split(" ") if as_said else ["sim", plan.name]
    refusal = plan.with_suffix(".err")
    said = refusal.read_text() if refusal.exists() else ""
    wanted = REFUSED if said else OK, plan.with_suffix(".trace").read_text(), said
    expect(f"player: {plan.stem}", run(top / "tools/player", *words, folder=plan.parent), wanted)


def try_player_faults(folder):
    """What it leaves out is refused, and nothing is played."""
    for texts, why in PLAYER_FAULTS.items():
        for name, text in zip(("plan", "xg", "script"), texts):
            (folder / name).write_text(text)
        words = ["sim", "plan", "--xg", "xg", "--script", "script"]
        wanted = BAD, "", f"tools/player: {why}\n"
        expect(f"player: {texts}", run(top / "tools/player", *words, folder=folder), wanted)
    expect("player: no plan", run("tools/player", "sim", folder / "none"),
           (BAD, "", f"tools/player: {folder}/none: No such file or directory\n"))
    expect("player: the help", (*run("tools/player", "--help")[::2],), (OK, ""))


# --- Both tools of traces --------------------------------------------------------------------------------------------


def read_back(pcap):
    """What tshark reads in a file: a list of fields for each datagram."""
    words = ["tshark", "--disable-protocol", "afs", "-o", "ip.check_checksum:TRUE", "-o", "udp.check_checksum:TRUE"]
    words += ["-r", pcap, "-T", "fields", "-E", "occurrence=f"]
    for name in [*FIELDS, *CHECKED]:
        words += ["-e", name]
    status, out, said = run(*words)
    expect("trace2pcap: the status of tshark", status, OK)
    return [line.split("\t") for line in out.splitlines()]


def try_pcap(name, folder, given, taken, _):
    trace, pcap = top / f"examples/{name}.trace", folder / f"{name}.pcap"
    for is_taken, count in ((False, given), (True, taken)):
        wanted = [[*fields(*it), GOOD, GOOD, NOT_MALFORMED] for it in datagrams(trace, is_taken)]
        expect(f"trace2pcap: datagrams of {name}", len(wanted), count)
        words = ["--taken"] if is_taken else []
        expect(f"trace2pcap: {name}", run("tools/trace2pcap", trace, pcap, *words), (OK, "", ""))
        # a header of 24 bytes, and for each datagram 16, and 28 for IPv4 and UDP
        size = 24 + sum(16 + 28 + len(data) for _, _, _, data in datagrams(trace, is_taken))
        expect(f"trace2pcap: the size of {name}", pcap.stat().st_size, size)
        if shutil.which("tshark"):
            for at, (seen, it) in enumerate(zip(read_back(pcap), wanted, strict=True), 1):
                expect(f"trace2pcap: datagram {at} of {name}", seen, it)


def try_ladder(name, folder, given, taken, lost):
    """An arrow for each taking and a cross for each datagram that none takes; a text for each end of an arrow."""
    trace, svg = top / f"examples/{name}.trace", folder / f"{name}.svg"
    expect(f"ladder: {name}", run("tools/ladder", trace, svg), (OK, "", ""))
    parts = [(it.tag, it.get("class"), it.text) for it in xml.etree.ElementTree.parse(svg).iter()]
    arrows = [kind for tag, kind, _ in parts if tag == f"{SVG}line" and kind.split(" ")[0] in ("data", "ack", "other")]
    expect(f"ladder: arrows of {name}", len(arrows), taken + lost)
    expect(f"ladder: lost ones of {name}", sum(kind == "cross" for _, kind, _ in parts), lost)
    expect(f"ladder: datagrams of {name}", sum(kind in ("said", "said end") for _, kind, _ in parts), given)
    answers = [line.rsplit(" -> ")[-1] for line in trace.read_text().splitlines() if " take " in line]
    expect(f"ladder: answers of {name}", [text for _, kind, text in parts if kind in ("took", "took end")], answers)


def try_faults(folder):
    """Each bad line is refused with its place, as are files that aren't there and words that are wrong."""
    trace, out = folder / "bad.trace", folder / "out"
    for tool in ("tools/trace2pcap", "tools/ladder"):
        for line, why in BAD_LINES.items():
            trace.write_text(f"c1 connect 10.0.0.1:7000 1 1 -> 4\nc1 call 4 -> {CALL}\n{line}\n")
            expect(f"a bad line: {line}", run(tool, trace, out), (BAD, "", f"{tool}: {trace}:3: {why}\n"))
        trace.write_text("s clock 5\ns clock 4\n")
        wanted = f"{tool}: {trace}:2: a clock goes back, or to 2^62\n"
        expect("a clock that goes back", run(tool, trace, out), (BAD, "", wanted))
        expect("no trace", run(tool, folder / "none", out),
               (BAD, "", f"{tool}: {folder}/none: No such file or directory\n"))
        expect("a folder", run(tool, "examples/one-call.trace", folder, "--plan", "examples/one-call.plan"),
               (BAD, "", f"{tool}: {folder}: Is a directory\n"))
        expect("the help", (*run(tool, "--help")[::2],), (OK, ""))


def try_pcap_limits(folder):
    """What a pcap file has no room for is refused with its place."""
    trace, pcap = folder / "limits.trace", folder / "out"
    start = f"c1 connect 10.0.0.1:7000 1 1 -> 4\nc1 call 4 -> {CALL}\n"
    longest = "s take 10.0.0.2:7001 " + 65_507 * "00" + " -> bad kind 0\n"
    trace.write_text(start + "c1 clock 4294967295999\nc1 poll -> 10.0.0.1:7000 00\n" + longest)
    expect("trace2pcap: the longest and the latest datagram", run("tools/trace2pcap", trace, pcap), (OK, "", ""))
    trace.write_text(start + longest.replace(" 00", " 0000"))
    wanted = f"tools/trace2pcap: {trace}:3: a datagram of 65508 bytes, too long for UDP\n"
    expect("trace2pcap: a datagram that is too long", run("tools/trace2pcap", trace, pcap), (BAD, "", wanted))
    trace.write_text(start + "c1 clock 4294967296000\nc1 poll -> 10.0.0.1:7000 00\n")
    wanted = f"tools/trace2pcap: {trace}:4: the moment 4294967296000 is too late for a pcap file\n"
    expect("trace2pcap: a late moment", run("tools/trace2pcap", trace, pcap), (BAD, "", wanted))


with tempfile.TemporaryDirectory() as name:
    folder = pathlib.Path(name)
    for example, counts in EXAMPLES.items():
        try_pcap(example, folder, *counts)
        try_ladder(example, folder, *counts)
    try_faults(folder)
    try_pcap_limits(folder)
    try_player_faults(folder)
    plans = [plan for plan in sorted((top / "examples").glob("*.plan")) if plan.with_suffix(".trace").exists()]
    with concurrent.futures.ThreadPoolExecutor(4) as pool:
        list(pool.map(try_player, plans))
    expect("ladder: docs/ladder.svg, which tools/ladder makes of examples/first-lost.trace",
           (top / "docs/ladder.svg").read_text(), (folder / "first-lost.svg").read_text())
expect("crates.py --check", run("tools/crates.py", "--check"), (OK, "", ""))
if not shutil.which("tshark"):
    print("skipped, as tshark isn't installed: what pcap files of traces are read as")
print(f"the tools: {len(EXAMPLES)} traces, {len(plans)} plans, {len(set(failed))} failed")
sys.exit(bool(failed))
