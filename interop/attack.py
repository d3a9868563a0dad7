#!/usr/bin/env python3
"""What one who has no key can have of a server: interop/attack.py [--seconds N]

Sends `rx serve` single forged datagrams of each kind, from hosts of 127.0.0.0/8 that never answer, and counts what comes
back in the N seconds behind each, 30 where N isn't given: datagrams and bytes, beside those that were sent; to a server
without a key and to one with a key. Then it looks how long a server with room for one call keeps a client waiting
behind one forged datagram, by kind, and one with the default limits behind 64. Where it is sent bytes to the address of
somebody else, a server is an amplifier by what this table says.

Prints a line for each, as a row of a table, and last `passed` where no datagram but one that starts a call that is
accepted was answered by more bytes than it had, and each client was served in the end; else `failed` and which. The
status is 1 then. Everything is sent over loopback alone. The environment has the program as RX; else it is the gate's,
or that of ./rx."""
import argparse
import collections
import pathlib
import random
import select
import socket
import subprocess
import sys
import tempfile
import time

sys.dont_write_bytecode = True
here = pathlib.Path(__file__).resolve().parent
sys.path.insert(0, str(here.parent / "bench"))
from rounds import program, word  # noqa: E402

DATA, ACK, BUSY, ABORT, ACKALL, CHALLENGE, RESPONSE = range(1, 8)
FROM_CLIENT, ASKS, LAST = 1, 2, 4
SERVICE, PIECE, DEFAULT_CALLS = 60, 1412, 64
ECHO, UP, DOWN = word(1), word(2), word(3)


def message(link, kind, flags=0, *, call=1, seq=0, service=SERVICE, index=0, body=b""):
    epoch, cid = link
    return word(epoch) + word(cid) + word(call) + word(seq) + word(1) \
        + bytes([kind, FROM_CLIENT | flags, 0, index]) + (service).to_bytes(4, "big") + body


def acknowledges(first, reason):
    """The body of an ACK without marks, with the trailer."""
    return bytes(4) + word(first) + bytes(8) + bytes([reason, 0]) + bytes(3) + word(1444) + word(1444) + word(32) + word(1)


# What is forged: a name, whether a handler takes the call for it, and the datagram of a link at a server whose class has
# this index.
KINDS = [
    ("100 bytes of chance", False, lambda link, index: random.Random(1).randbytes(100)),
    ("DATA for another service", False, lambda link, index: message(link, DATA, LAST, seq=1, service=61, index=index)),
    ("DATA of another class", False, lambda link, index: message(link, DATA, LAST, seq=1, index=index ^ 2)),
    ("an ACK that asks, of no call", False, lambda link, index: message(link, ACK, ASKS, index=index, body=acknowledges(1, 6))),
    ("ABORT, of no call", False, lambda link, index: message(link, ABORT, index=index, body=word(1))),
    ("ACKALL, of no call", False, lambda link, index: message(link, ACKALL, index=index)),
    ("BUSY", False, lambda link, index: message(link, BUSY, index=index)),
    ("CHALLENGE", False, lambda link, index: message(link, CHALLENGE, index=index, body=bytes(16))),
    ("RESPONSE, of no call", False, lambda link, index: message(link, RESPONSE, index=index, body=bytes(64))),
    ("packet 2, without its first", False, lambda link, index: message(link, DATA, seq=2, index=index, body=bytes(4))),
    ("packet 2, full, that asks", False, lambda link, index: message(link, DATA, ASKS, seq=2, index=index, body=bytes(PIECE))),
    ("an empty request", True, lambda link, index: message(link, DATA, LAST, seq=1, index=index)),
    ("an unknown opcode", True, lambda link, index: message(link, DATA, LAST, seq=1, index=index, body=word(99))),
    ("packet 1 of a long request", True, lambda link, index: message(link, DATA, seq=1, index=index, body=UP + word(1) + word(PIECE) + bytes(PIECE - 12))),
    ("a whole echo of 20 bytes", True, lambda link, index: message(link, DATA, LAST, seq=1, index=index, body=ECHO + word(20) + bytes(20))),
    ("a whole request for 1,000,000 bytes", True, lambda link, index: message(link, DATA, LAST, seq=1, index=index, body=DOWN + word(1_000_000))),
]


class Server:
    """`rx serve` on a free port of 127.0.0.1."""

    def __init__(self, by, *options):
        self.ran = subprocess.Popen(
            [by, "serve", here / "peer.xg", here / "peer.script", "--at", "127.0.0.1:0", "--service", str(SERVICE),
             "--for", "3600000", "--turns", "1000000000", *options],
            stdin=subprocess.DEVNULL, stdout=subprocess.PIPE, stderr=subprocess.DEVNULL, text=True)
        self.at = "127.0.0.1", int(self.ran.stdout.readline().rpartition(":")[2])
        # what it prints isn't read: the pipe would fill only behind hundreds of calls

    def __enter__(self):
        return self

    def __exit__(self, *_):
        self.ran.kill()
        self.ran.wait()


epochs = iter(range(random.SystemRandom().getrandbits(30), 2**31))


def forged_from(number):
    """A socket of a host that doesn't answer, and a connection."""
    sock = socket.socket(socket.AF_INET, socket.SOCK_DGRAM)
    sock.bind((f"127.{1 + number // 62500}.{number // 250 % 250}.{1 + number % 250}", 0))
    return sock, (next(epochs), 4)


def answers(server, kinds, index, seconds):
    """For each kind, what came back: datagrams and bytes."""
    socks, sent, came = {}, {}, collections.defaultdict(lambda: [0, 0])
    for number, (name, _, made) in enumerate(kinds):
        sock, link = forged_from(number)
        socks[sock], sent[name] = name, made(link, index)
        sock.sendto(sent[name], server.at)
    ends = time.monotonic() + seconds
    while (left := ends - time.monotonic()) > 0:
        for sock in select.select(list(socks), [], [], left)[0]:
            try:
                octets = sock.recv(65536)
            except OSError:
                continue
            came[socks[sock]][0] += 1
            came[socks[sock]][1] += len(octets)
    for sock in socks:
        sock.close()
    return {name: (len(sent[name]), *came[name]) for name in sent}


def key_index(by, folder):
    """The index of the class that has a key, as `rx call` sends it."""
    with socket.socket(socket.AF_INET, socket.SOCK_DGRAM) as sock:
        sock.bind(("127.0.0.1", 0))
        sock.settimeout(20)
        ran = call(by, sock.getsockname(), "--key", str(folder / "key"))
        try:
            return sock.recv(65536)[23]
        finally:
            ran.kill()
            ran.wait()


def call(by, at, *options):
    """An honest call of `Echo`, begun."""
    return subprocess.Popen(
        [by, "call", here / "peer.xg", "Echo", '["00112233"]', "--to", f"{at[0]}:{at[1]}", "--service", str(SERVICE),
         "--epoch", str(next(epochs)), *options], stdin=subprocess.DEVNULL, stdout=subprocess.DEVNULL, stderr=subprocess.PIPE,
        text=True)


def waits(by, server, options, most):
    """How long an honest call waits, each attempt that is told no begun again; None where it isn't served in time."""
    began, tries = time.monotonic(), 0
    while time.monotonic() - began < most:
        tries += 1
        ran = call(by, server.at, *options)
        if ran.wait() == 0:
            return time.monotonic() - began, tries
    return None


def main():
    parser = argparse.ArgumentParser(description=__doc__, formatter_class=argparse.RawDescriptionHelpFormatter)
    parser.add_argument("--seconds", type=float, default=30, help="how long answers are awaited, 30")
    given = parser.parse_args()
    by, faults = program(), []
    with tempfile.TemporaryDirectory() as name:
        folder = pathlib.Path(name)
        (folder / "key").write_bytes(bytes(range(32)))
        keyed = ("--key", str(folder / "key"))
        index = key_index(by, folder)
        print("| one datagram | bytes | answers, bytes without a key | answers, bytes with a key |")
        print("|---|---|---|---|")
        with Server(by) as free, Server(by, *keyed, "--nonce", "1") as shut:
            plain = answers(free, KINDS, 0, given.seconds)
            proved = answers(shut, KINDS, index, given.seconds)
        for what, accepted, _ in KINDS:
            size, *without = plain[what]
            key_size, *with_key = proved[what]
            print(f"| {what} | {size} | {without[0]}, {without[1]:,} | {with_key[0]}, {with_key[1]:,} |")
            if without[1] > size and not accepted:
                faults.append(f"{what}: {without[1]} bytes for {size}")
            if with_key[1] > key_size:
                faults.append(f"{what}, with a key: {with_key[1]} bytes for {key_size}")
        print("| what holds a call | an honest call was served after, without a key | with a key |")
        print("|---|---|---|")
        for what, _, made in KINDS:
            row = []
            for options, its in ((), 0), (keyed, index):
                with Server(by, "--calls", "1", *options) as server:
                    sock, link = forged_from(0)
                    sock.sendto(made(link, its), server.at)
                    time.sleep(0.3)
                    waited = waits(by, server, options, 60)
                    sock.close()
                row.append("not in 60 s" if waited is None else f"{waited[0]:.1f} s")
                if waited is None:
                    faults.append(f"no call is served behind {what}")
            print(f"| {what} | {row[0]} | {row[1]} |", flush=True)
        for options, its, which in ((), 0, "without a key"), (keyed, index, "with a key"):
            with Server(by, *options) as server:
                socks = [forged_from(number) for number in range(DEFAULT_CALLS)]
                for sock, link in socks:
                    sock.sendto(message(link, DATA, seq=2, index=its, body=bytes(4)), server.at)
                time.sleep(0.3)
                waited = waits(by, server, options, 60)
                if waited is None:
                    faults.append(f"no call is served behind {DEFAULT_CALLS} forged ones {which}")
                else:
                    print(f"behind {DEFAULT_CALLS} datagrams that hold a call each, {which}, a call was served after {waited[0]:.1f} s")
                for sock, _ in socks:
                    sock.close()
    for fault in faults:
        print(f"failed: {fault}")
    if not faults:
        print("passed")
    return bool(faults)


if __name__ == "__main__":
    sys.exit(main())
