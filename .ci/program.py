#!/usr/bin/env python3
"""Runs the program as its callers do: .ci/program.py [PROGRAM]

Compares the exit status and the bytes that arrive from standard output and standard error with the table of statuses of
docs/COMMANDS.md, with docs/FORMATS.md and with examples/afs/*.table. PROGRAM is the one that the gate built, or else the one
that ./rx --prove builds."""
import contextlib
import os
import pathlib
import re
import resource
import signal
import socket
import struct
import subprocess
import sys
import tempfile
import threading
import time

top = pathlib.Path(__file__).resolve().parent.parent
failed = []


def statuses():
    """The exit status and the line on standard error of each way to end, by the table of statuses."""
    text = (top / "docs" / "COMMANDS.md").read_text()
    rows = re.findall(r"^\| (\d) (\w+) \| (?:`(.*)`)? *\|", text, flags=re.M)
    return {name: (int(number), line + "\n" if line else "") for number, name, line in rows}


def program():
    """The path of the program that the gate built, or else of the one that ./rx --prove builds."""
    built = top / "crates" / "rx" / "out" / "rx"
    if len(sys.argv) > 1:
        built = pathlib.Path(sys.argv[1]).resolve()
    elif not built.exists():
        subprocess.run([top / "rx", "--prove"])
        built = next(top.glob(".rx/*.proved/rx"))
    return str(built)


STATUS = statuses()
PROGRAM = program()


def expect(what, got, ending, out=b"", is_said=True, **words):
    """Notes where a run isn't as the ending has it, with these words for FILE and the like in its line."""
    status, line = STATUS[ending]
    err = re.sub("|".join(words) or "(?!)", lambda word: words[word[0]], line).encode() if is_said else b""
    for part, seen, wanted in zip(("status", "standard output", "standard error"), got, (status, out, err)):
        if seen != wanted:
            failed.append(what)
            print(f"{what}: {part} is {str(seen)[:300]}, and not {str(wanted)[:300]}")


def run(*words, through=(), **how):
    """The status, standard output and standard error of a run, as they arrive in pipes where no other place is given."""
    how = {"stdin": subprocess.DEVNULL, "stdout": subprocess.PIPE, "stderr": subprocess.PIPE, "timeout": 100, **how}
    ended = subprocess.run([*through, PROGRAM, *words], **how)
    return ended.returncode, ended.stdout or b"", ended.stderr or b""


def on_terminal(*words):
    """The same of a run whose standard error is a terminal."""
    screen, end = os.openpty()
    ended = run(*words, stderr=end)
    os.close(end)
    shown = b""
    with contextlib.suppress(OSError):
        while part := os.read(screen, 65536):
            shown += part
    os.close(screen)
    return *ended[:2], shown


def write(name, text):
    """A file of this text, in the working folder."""
    pathlib.Path(name).write_bytes(text if isinstance(text, bytes) else text.encode())
    return name


def usage():
    """Words that are no command, and words that are no text."""
    write("plan", "")
    lists = [], [""], ["sim"], ["sim", "plan", "plan"], ["sim", "-plan"], ["Sim", "plan"], ["plan", "sim"]
    lists = *lists, ["sim", "plan", "--script", "plan"], ["sim", "plan", "--xg"], ["sim", "plan", "--xg=x", "--xg=x"]
    for words in (*lists, ["compile"], ["compile", "plan", "plan"], ["compile", "-plan"]):
        expect(f"the words {words}", run(*words), "Usage")
    # options that are missing or out of range
    serve, call = ["serve", "x.xg", "script"], ["call", "x.xg", "P", "[]", "--to", "127.0.0.1:7000"]
    at, epoch = ["--at", "127.0.0.1:7000"], ["--epoch", "1"]
    lists = serve, [*serve, *at, "--jumbo", "17"], [*serve, *at, "--nonce", "1"], [*serve, *at, *epoch]
    for words in (*lists, call, [*call, *epoch, "--down", "no"], [*call, *epoch, "--turns", "0"], [*call, *epoch, *at]):
        expect(f"the words {words}", run(*words), "Usage")
    # loads of no calls, of too many, and by no number
    for words in (["load", "1"], ["load", "1", "0"], ["load", "1", "10001"], ["load", str(2**64), "1"], ["load", "a", "1"]):
        expect(f"the words {words}", run(*words), "Usage")
    # a command that the program doesn't have yet
    expect("the words of peers", run("peers", "x.xg", "script", "plan"), "Usage")
    for words in ([b"\xff"], [b"sim", b"\xff"], [b"sim", b"plan", b"\xed\xa0\x80"]):
        expect(f"the words {words}", run(*words), "Usage")


def plans():
    """Plans that are done, and plans that are refused at a line, as they are read and as they run."""
    server = "server 10.0.0.1:7000\n"
    rows = [
        ("nothing", "", "Ok", "", {}),
        ("a comment", "# nothing\n", "Ok", "", {}),
        ("a bad line", server + "accept\nbogus\n", "Refused", "", {"LINE": "3", "WHY": "word"}),
        ("a line that the run refuses", server + "accept\nread @1 5\naccept\n", "Refused", "s accept -> none\n",
         {"LINE": "3", "WHY": "nocall"}),
        ("no server", "accept\n", "Refused", "", {"LINE": "1", "WHY": "nonode"}),
        ("no text", b"\xff", "Refused", "", {"LINE": "0", "WHY": "word"}),
        # files of 1 MB and more, whose last line tells whether they were read to their end
        ("a long file", "# 45678\n" * 150_000 + "bogus", "Refused", "", {"LINE": "150001", "WHY": "word"}),
        ("a file of whole blocks", "# 45678\n" * (1 << 17), "Ok", "", {}),
    ]
    for what, text, ending, out, words in rows:
        expect(what, run("sim", write("plan", text)), ending, out.encode(), FILE="plan", **words)
    for name in ("a b", "p:1", "\u00e9\u4e16", "line\nfeed"):
        expect(f"the name {name!r}", run("sim", write(name, "bogus")), "Refused", FILE=name, LINE="1", WHY="word")
    # the files of a plan, each looked at before the next
    write("x.xg", "P(IN int a, OUT int b) = 1;")
    write("s", "on P\ncopy b a\n")
    write("plan", server + "accept\n")
    expect("an interface and a script", run("sim", "--script=s", "--xg", "x.xg", "--", "plan"), "Ok", b"s accept -> none\n")
    expect("an interface alone", run("sim", "plan", "--xg=x.xg"), "Ok", b"s accept -> none\n")
    rows = [
        ("const A = 08;", "bogus", "bogus", "x.xg", "1", "badnumber"),
        (b"\xff", b"\xff", b"\xff", "x.xg", "0", "word"),
        ("P(IN int a, OUT int b) = 1;", "on Q\n", "bogus", "s", "1", "proc"),
        ("P(IN int a, OUT int b) = 1;", "bogus", "bogus", "s", "1", "word"),
        ("P(IN int a, OUT int b) = 1;", b"\xff", b"\xff", "s", "0", "word"),
        ("P(IN int a, OUT int b) = 1;", "on P\ncopy b a\n", "\nbogus", "plan", "2", "word"),
        ("P(IN int a, OUT int b) = 1;", "on P\ncopy b a\n", b"\xff", "plan", "0", "word"),
    ]
    for xg, script, plan, name, line, why in rows:
        write("x.xg", xg), write("s", script), write("plan", plan)
        got = run("sim", "plan", "--xg", "x.xg", "--script", "s")
        expect(f"{name} among three files", got, "Refused", FILE=name, LINE=line, WHY=why)
    # the first that is missing is named
    write("plan", server)
    for words in (["none", "--xg", "x.xg", "--script", "s"], ["plan", "--xg", "none", "--script", "no"],
                  ["plan", "--xg", "x.xg", "--script", "none"], ["no", "--xg", "x.xg", "--script", "none"]):
        expect(f"the files {words}", run("sim", *words), "FileFault", NAME="none")
    # a line of the trace of 2 MB, and many lines, through a pipe that takes 64 KB at a time
    long = write("long", server + "forge s 10.0.0.2:7001 1000000*5a\n")
    expect("a long line", run("sim", long), "Ok", b"s take 10.0.0.2:7001 " + b"5a" * 1_000_000 + b" -> bad kind 90\n")
    many = write("many", server + "accept\n" * 20_000)
    expect("many lines", run("sim", many), "Ok", b"s accept -> none\n" * 20_000)


def interfaces():
    """Interface files: those of examples/afs/ have their tables; each kind of refusal has its line, and nothing is printed."""
    for table in sorted((top / "examples" / "afs").glob("*.table")):
        source = table.with_suffix(".xg")
        expect(f"examples/afs/{source.name}", run("compile", source), "Ok", table.read_bytes())
    counted = "startingopcode 5 P(int a, OUT int b); Q(c_t x); typedef int c_t;"
    table = b"interface - -\ntype c_t int\nproc 5 P plain in:a:int out:b:int\nproc 6 Q plain in:x:c_t\n"
    expect("counted opcodes", run("compile", write("x.xg", counted)), "Ok", table)
    expect("no items", run("compile", write("x.xg", "")), "Ok", b"interface - -\n")
    rows = [
        # the worked examples, by their names
        ("wrong-digit", "const A = 08;", "1", "badnumber"),
        ("missing-equals", "const A 3;", "1", "unexpected ="),
        ("float-by-name", "typedef float F;", "1", "outbyname float"),
        ("preprocessor-line", "#define A 1", "1", "badline"),
        ("endless-struct", "struct S { S s; };", "0", "endless S"),
        ("unknown-type", "P(IN T *t) = 1;", "0", "unknown T"),
        ("no-opcode", "P(int a);", "0", "opcode P"),
        ("opcode-twice", "P(int a) = 1; Q(int a) = 1;", "0", "opcodetwice 1"),
        # and the other kinds, each on its line
        ("a line that isn't skipped", "const A = 1;\n#define A 1", "2", "badline"),
        ("a character behind a comment of two lines", "/*\n*/\nconst A = 1 @", "3", "badchar"),
        ("the end", "struct S {", "1", "unexpected NAME"),
        ("a word that is out by name", "\ntypedef float F;", "2", "outbyname float"),
        ("two constants", "const A = 1; const A = 2;", "0", "twice A"),
        ("a size below 0", "typedef int T[-1];", "0", "size T"),
        ("no UTF-8", b"const A = 1;\n\xff", "0", "word"),
        # a fault of the tokens comes first, then one of the grammar, then one of the meaning, wherever each stands
        ("three kinds of faults", "P(T t);\nconst 3;\nconst A = 08;", "3", "badnumber"),
        ("two kinds of faults", "P(T t);\nconst 3;", "2", "unexpected NAME"),
    ]
    for what, text, line, why in rows:
        got = run("compile", write("x.xg", text))
        expect(f"the interface file with {what}", got, "Refused", FILE="x.xg", LINE=line, WHY=why)
    # a table of 0.1 MB through a pipe that takes 64 KB at a time
    many = "".join(f"const A{n} = {n};\ntypedef opaque T{n}<A{n}>;\n" for n in range(1, 5_001))
    table = "interface - -\n" + "".join(f"type T{n} opaque<{n}>\n" for n in range(1, 5_001))
    expect("many types", run("compile", write("x.xg", many)), "Ok", table.encode())
    expect("no such file", run("compile", "no.xg"), "FileFault", NAME="no.xg")
    for place in ("/dev/full", "&-"):
        through = ["sh", "-c", f'exec "$@" >{place}', "sh"]
        expect(f"a table to {place}", run("compile", write("x.xg", ""), through=through), "SinkFault")


def loads():
    """Loads of the fewest calls and of many, by the least number and the greatest: what tools/player makes by the rules."""
    rows = [
        (0, 1, "calls 1 ok 1 abort 0 dead 0 open 0\nrounds 3 given 4 lost 0 repeated 1 held 0\n"),
        (2**64 - 1, 9, "calls 9 ok 9 abort 0 dead 0 open 0\nrounds 9 given 44 lost 2 repeated 6 held 4\n"),
        (1, 1_000, "calls 1000 ok 1000 abort 0 dead 0 open 0\nrounds 2603 given 4616 lost 266 repeated 307 held 298\n"),
        (1, 10_000, "calls 10000 ok 10000 abort 0 dead 0 open 0\nrounds 34105 given 46585 lost 2901 repeated 2962 held 2931\n"),
    ]
    for number, calls, lines in rows:
        expect(f"load {number} {calls}", run("load", str(number), str(calls)), "Ok", lines.encode())
    # how far it is stands in one line of a terminal, which goes as the load ends
    status, out, err = on_terminal("load", "1", "1000")
    shown = rb"(\r\d+ of 1000 calls ended, \d+ rounds, \d+ datagrams a second\x1b\[K)+\r\x1b\[K"
    expect("load 1 1000 on a terminal", (status, out, b"" if re.fullmatch(shown, err) else err), "Ok", rows[2][2].encode())
    status, out, err = on_terminal("load", "1", "0")
    expect("load 1 0 on a terminal", (status, out, err.replace(b"\r\n", b"\n")), "Usage")


def refused_calls():
    """Calls that end before a socket is bound: what is asked for is judged behind the interface file."""
    write("x.xg", "P(IN int a, INOUT string b<4>) = 1; Q(IN int a) split = 2; R(IN opaque a<70000>) = 3;")
    write("long", b"0" * 16_777_217), write("short", b"0" * 31)

    def call(*words):
        return run("call", *words, "--to", "127.0.0.1:9", "--epoch", "1")

    rows = [
        (["x.xg", "S", "nothing"], "proc"), (["x.xg", "P", "nothing", "--down", "yes"], "kind"),
        (["x.xg", "P", "nothing", "--up", "none"], "kind"), (["x.xg", "P", "nothing"], "notjson"),
        (["x.xg", "P", "[1]"], "mismatch $ args"), (["x.xg", "P", '[1,"five5"]'], "mismatch $[1] string<4>"),
        (["x.xg", "P", '[1,"four",2]'], "mismatch $ args"), (["x.xg", "R", '["' + "00" * 65_530 + '"]'], "-450"),
        (["x.xg", "Q", "[1]", "--up", "long", "--key", "none"], "number"),
        ([top / "examples" / "fetch-status.xg", "FetchStatus", '[1,"a",420]'], "mismatch $[0] AFSFid"),
    ]
    STATUS["args"] = 2, "rx: args: WHY\n"
    for words, why in rows:
        expect(f"the call {[str(word)[-20:] for word in words]}", call(*words), "args", WHY=why)
    for words, name in ((["none", "P", "[]"], "none"), (["x.xg", "Q", "[1]", "--up", "no", "--key", "none"], "no")):
        expect(f"the call {words}", call(*words), "FileFault", NAME=name)
    expect("a call with a key of 31 bytes", call("x.xg", "Q", "[1]", "--key", "short"), "Refused", FILE="short", LINE="0", WHY="key")
    got = run("serve", "x.xg", write("s", "on T\n"), "--at", "127.0.0.1:0", "--key", "short")
    expect("a server whose script is refused", got, "Refused", FILE="s", LINE="1", WHY="proc")


@contextlib.contextmanager
def served(ending, *words):
    """The host of a server while it runs, and its lines behind it, which are looked at when it has ended."""
    with served_by(ending, *words) as (server, host, lines):
        yield host, lines


@contextlib.contextmanager
def served_by(ending, *words):
    """The same, with the process of the server."""
    server = subprocess.Popen([PROGRAM, "serve", *words], stdout=subprocess.PIPE, stderr=subprocess.PIPE)
    lines = []
    try:
        ready = server.stdout.readline().decode()
        yield server, ready.removeprefix("ready ").strip(), lines
        rest, err = server.communicate(timeout=100)
        expect(f"the server {words}", (server.returncode, rest, err), ending, "".join(lines).encode())
    finally:
        server.kill()


def wires():
    """Calls over loopback, and what ends them; the calls of one server, one after another, from one host."""
    xg = write("x.xg", "P(IN int a, INOUT string b<4>) = 1; Q(IN int a, OUT int n) split = 2; R() = 3;")
    other = write("o.xg", "P(IN int a, INOUT string b<4>, OUT hyper c) = 1; S() = 9;")
    script = write("s", "on P\nwhen a 7 77\non Q\nup\ndown\ncount n\necho\n")
    write("up", b"\x00\xff" * 3), write("key", b"k" * 32), write("other", b"o" * 32)
    STATUS["reply"] = 2, "rx: reply: -451\n"
    rows = [
        ([xg, "P", '[1,"a"]'], "Ok", 'ok ["a"]\n', {}, "finish NAME 0"),
        ([xg, "Q", "[1]", "--up", "up", "--down", "yes"], "Ok", "ok [6] down 00ff00ff00ff\n", {}, "finish NAME 0"),
        ([xg, "P", '[7,"a"]'], "Aborted", "", {"CODE": "77"}, "finish NAME 77"),
        ([other, "S", "[]"], "Aborted", "", {"CODE": "-455"}, "finish NAME -455"),
        ([other, "P", '[1,"a"]'], "reply", "", {}, "finish NAME 0"),
        ([xg, "R", "[]", "--service", "2"], "Aborted", "", {"CODE": "-2"}, None),
        ([xg, "R", "[]", "--key", "key"], "Aborted", "", {"CODE": "-2"}, None),
    ]
    with served("Ok", xg, script, "--at", "127.0.0.1:0", "--for", "3000") as (host, lines):
        for epoch, (words, ending, out, more, finish) in enumerate(rows):
            at = f"127.0.0.1:{20_000 + os.getpid() % 10_000 + epoch}"
            got = run("call", *words, "--to", host, "--from", at, "--epoch", str(epoch))
            expect(f"the call {words}", got, ending, out.encode(), **more)
            if finish:
                name = f"{at}/{epoch}/4/0/1"
                lines.append(f"accept {name}\n{finish.replace('NAME', name)}\n")
        lines.append("time up\n")
    with served("Ok", xg, script, "--at", "127.0.0.1:0", "--for", "1500", "--key", "key", "--nonce", "5") as (host, lines):
        at = f"127.0.0.1:{20_000 + os.getpid() % 10_000}"
        words = [xg, "P", '[1,"a"]', "--to", host, "--epoch", "1"]
        expect("a call with the key", run("call", *words, "--from", at, "--key", "key"), "Ok", b'ok ["a"]\n')
        expect("a call with another key", run("call", *words, "--key", "other"), "Aborted", CODE="-5")
        expect("a call without a key", run("call", *words), "Aborted", CODE="-2")
        lines.append(f"accept {at}/1/4/0/1\nfinish {at}/1/4/0/1 0\ntime up\n")
    # the server would end before, if the streams waited for a delayed acknowledgement again and again
    for jumbo in ("1", "4", "16"):
        with served("Ok", xg, script, "--at", "127.0.0.1:0", "--for", "4000", "--jumbo", jumbo) as (host, lines):
            long = bytes(range(250)) * 64_000
            at = f"127.0.0.1:{20_000 + os.getpid() % 10_000}"
            words = [xg, "Q", "[1]", "--up", write("stream", long), "--down", "yes", "--to", host, "--epoch", "1"]
            text = f"ok [{len(long)}] down {long.hex()}\n"
            got = run("call", *words, "--from", at, "--jumbo", jumbo)
            expect(f"long streams, up to {jumbo} pieces a datagram", got, "Ok", text.encode())
            lines.append(f"accept {at}/1/4/0/1\nfinish {at}/1/4/0/1 0\ntime up\n")
    # the example of README.md
    example = [str(top / "examples" / f"fetch-status.{it}") for it in ("xg", "script")]
    with served("Ok", *example, "--at", "127.0.0.1:0", "--for", "1000") as (host, lines):
        at = f"127.0.0.1:{20_000 + os.getpid() % 10_000}"
        words = [example[0], "FetchStatus", '[{"Volume":1,"Vnode":2,"Unique":3},"a",420]', "--to", host, "--epoch", "1"]
        text = b'ok [420,[{"Unique":3,"Vnode":2,"Volume":1}]]\n'
        expect("the call of the README", run("call", *words, "--from", at), "Ok", text)
        lines.append(f"accept {at}/1/4/0/1\nfinish {at}/1/4/0/1 0\ntime up\n")
    call = ["call", xg, "R", "[]", "--to", "127.0.0.1:9", "--epoch", "1"]
    expect("a call of one take", run(*call, "--turns", "1"), "TurnsSpent", N="1")
    expect("a call from a host of others", run(*call, "--from", "192.0.2.1:0"), "WireFault")
    got = run("serve", xg, script, "--at", "192.0.2.1:0")
    expect("a server on a host of others", got, "WireFault")
    began = time.monotonic()
    status, out, err = run(*call)
    took = time.monotonic() - began
    silence = re.fullmatch(r"rx: dead (\d+)\n", err.decode())
    if (status, out) != (4, b"") or not silence or not 12_000 <= int(silence[1]) < 15_000 or not 12 <= took < 16:
        failed.append("silence")
        print(f"a call that nobody answers: {status}, {out}, {err}, {took:.1f} s")


def from_port_0(host):
    """Gives a datagram whose source has port 0 to a host, where this user may: a packet 1 for a service that isn't served."""
    address, port = host.split(":")
    data = bytes.fromhex("0000000700000004000000010000000100000001010500000000ffff") + b"hi"
    try:
        with socket.socket(socket.AF_INET, socket.SOCK_RAW, socket.IPPROTO_UDP) as raw:
            raw.sendto(struct.pack(">4H", 0, int(port), 8 + len(data), 0) + data, (address, 0))
    except PermissionError:
        print("skipped, as this user may make no raw datagrams: whether a datagram from port 0 ends a server")


def robust():
    """Strange datagrams, a stop and a pipe for a file end no server; and its time is that of the clock on the wall."""
    xg, script = write("x.xg", "P(IN int a, INOUT string b<4>) = 1;"), write("s", "on P\n")
    words = [xg, script, "--at", "127.0.0.1:0"]
    began = time.monotonic()
    with served_by("Ok", *words, "--for", "4000") as (server, host, lines):
        from_port_0(host)
        address, port = host.split(":")
        with socket.socket(socket.AF_INET, socket.SOCK_DGRAM) as strange:
            strange.bind(("127.0.0.9", 0))
            for datagram in (b"", b"\xff", bytes(28), b"\x00" * 60_000, bytes(range(256)) * 4):
                strange.sendto(datagram, (address, int(port)))
        server.send_signal(signal.SIGSTOP)
        time.sleep(0.3)
        server.send_signal(signal.SIGCONT)
        at = f"127.0.0.1:{20_000 + os.getpid() % 10_000}"
        got = run("call", xg, "P", '[1,"a"]', "--to", host, "--from", at, "--epoch", "1")
        expect("a call behind strange datagrams and a stop", got, "Ok", b'ok ["a"]\n')
        lines.append(f"accept {at}/1/4/0/1\nfinish {at}/1/4/0/1 0\ntime up\n")
    took = time.monotonic() - began
    if not 4 <= took < 9:
        failed.append("the time of a server")
        print(f"a server for 4000 ms served for {took:.1f} s")
    # a pipe is read once, where a file could be read again and again
    write("key", b"k" * 32), os.mkfifo("pipe")
    with served("Ok", *words, "--for", "1500", "--key", "key") as (host, lines):
        writer = threading.Thread(target=lambda: pathlib.Path("pipe").write_bytes(b"k" * 32), daemon=True)
        writer.start()
        got = run("call", xg, "P", '[1,"a"]', "--to", host, "--from", at, "--epoch", "2", "--key", "pipe")
        expect("a call with a pipe for its key", got, "Ok", b'ok ["a"]\n')
        lines.append(f"accept {at}/2/4/0/1\nfinish {at}/2/4/0/1 0\ntime up\n")
    began = time.monotonic()
    # no datagram leaves: from a loopback address the system has no way to another
    got = run("call", xg, "P", '[1,"a"]', "--to", "240.0.0.1:9", "--epoch", "1")
    expect("a call to nowhere", got, "WireFault")
    if time.monotonic() - began > 2:
        failed.append("a call to nowhere")
        print("a call to nowhere isn't told at once")


def files():
    """Names that are no file, or none that can be read, and long ones."""
    os.mkdir("folder")
    long = "n" * 150 + "/" + "m" * 150
    os.mkdir("n" * 150)
    expect("a path of 301 bytes", run("sim", write(long, "bogus")), "Refused", FILE=long, LINE="1", WHY="word")
    for name in ("", "missing", "folder", "plan/below", "n" * 300, "n" * 5_000):
        expect(f"the file {name[:20]}", run("sim", name), "FileFault", NAME=name)


def streams():
    """Standard output that takes nothing is a fault of it; standard error that takes nothing changes no status."""
    plan = write("plan", "server 10.0.0.1:7000\naccept\n")
    trace = b"s accept -> none\n"
    read, unread = os.pipe()
    os.close(read)
    for place in ("/dev/full", "&-", f"&{unread}"):
        through = ["sh", "-c", f'exec "$@" >{place}', "sh"]
        expect(f"standard output >{place}", run("sim", plan, through=through, pass_fds=[unread]), "SinkFault")
        through = ["sh", "-c", f'exec "$@" 2>{place}', "sh"]
        rows = ([], "Usage", b""), (["sim", "missing"], "FileFault", b""), (["sim", plan], "Ok", trace)
        for words, ending, out in rows:
            status, got, _ = run(*words, through=through, pass_fds=[unread])
            expect(f"standard error 2>{place} of {words}", (status, got, b""), ending, out, is_said=False)
    os.close(unread)


def within(memory, *words):
    """The run with so many bytes of memory, or None where it didn't begin."""
    limit = lambda: resource.setrlimit(resource.RLIMIT_AS, (memory, memory))
    with contextlib.suppress(OSError, subprocess.SubprocessError):
        got = run(*words, preexec_fn=limit)
        return got if got[0] in range(10) else None


def memory():
    """With little memory the program says so, for its words and for a file; with more it goes on."""
    with open("zeros", "wb") as it:
        it.truncate(64 << 20)
    words = ["w" * 100_000] * 10
    for what, given, ending, more in (
        ("the words", words, "Usage", {}),
        ("a file", ["sim", "zeros"], "Refused", {"FILE": "zeros", "LINE": "1", "WHY": "word"}),
    ):
        seen = []
        for kilobytes in [*range(1_000, 20_000, 100), *range(20_000, 400_000, 20_000)]:
            got = within(kilobytes * 1_000, *given)
            if got is not None and got[0] not in seen:
                seen.append(got[0])
                expect(f"{what} with {kilobytes} KB", got, {5: "Memory"}.get(got[0], ending), **more)
        if seen != [STATUS["Memory"][0], STATUS[ending][0]]:
            failed.append(what)
            print(f"{what}: with more and more memory the statuses are {seen}")


with tempfile.TemporaryDirectory() as folder:
    os.chdir(folder)
    for part in (usage, plans, interfaces, loads, refused_calls, wires, robust, files, streams, memory):
        part()
    os.chdir(top)
print(f"the program: {len(failed)} runs failed" if failed else "the program: each run ended and printed as it is to")
sys.exit(bool(failed))
