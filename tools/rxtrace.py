"""Traces of `rx sim`, as the tools here read them: docs/FORMATS.md, "Packets" and "The trace"."""
import re
from dataclasses import dataclass

KINDS = ("", "DATA", "ACK", "BUSY", "ABORT", "ACKALL", "CHALLENGE", "RESPONSE")
REASONS = ("", "requested", "duplicate", "out of sequence", "exceeds window", "no space", "ping", "ping response",
           "delay")
DATA, ACK, ABORT = 1, 2, 4
HEADER_BYTES, FIXED_ACK_BYTES, CODE_BYTES = 28, 18, 4
CLIENT_INITIATED, REQUEST_ACK, LAST_PACKET = 1, 2, 4
CHANNELS = 4
MOMENTS_END = 2**62

NODE = r"(s|c[1-9][0-9]*)"
HOST = r"(\d{1,3}(?:\.\d{1,3}){3}:\d{1,5})"
NAME = HOST + r"/\d+/\d+/[0-3]/\d+"
HEX = r"(-|(?:[0-9a-f]{2})+)"
TOOK = r"(bad (?:short \d+|kind \d+|jumbo|toolong \d+|ackshort|abortshort)|[a-z]+)"
TAKE = re.compile(rf"take {HOST} {HEX} -> {TOOK}")
GIVE = re.compile(rf"poll -> {HOST} {HEX}")
CLOCK = re.compile(r"clock (\d+)")
CONNECT = re.compile(rf"connect {HOST} \d+ \d+ -> (?:\d+|connfull)")
CALLED = re.compile(rf"(?:call \d+ -> |(?:read|write|shut|ask|cancel) ){NAME}(?: .*)?")
OTHER = re.compile(r"(?:poll -> none|(?:accept|call|read|write|finish|shut|ask|cancel) .*)")
SERVER_LINE = re.compile(rf"server {HOST}(?: .*)?")
CLIENT_LINE = re.compile(rf"client {HOST}(?: .*)?")
SERVER = "s"


class Fault(Exception):
    """A file that can't be read as what it should be, with the place."""


@dataclass
class Datagram:
    """A datagram that a node gave, or one that was taken and that no node gave."""
    line: int
    giver: str | None
    source: str
    target: str
    bytes: bytes
    moment: int
    takes: list


@dataclass
class Take:
    """That a node took a datagram, and what it answered."""
    line: int
    node: str
    answer: str
    moment: int
    datagram: Datagram


@dataclass
class Event:
    """Any other event of a node but a poll that gave nothing: the text of its line. A clock has its moment too."""
    line: int
    node: str
    text: str
    moment: int | None = None


class Trace:
    """The events of a trace in order, each a Datagram, a Take or an Event; the hosts of its nodes; its datagrams."""

    def __init__(self, path, plan=None):
        self.path = path
        lines = lines_of(path)
        self.hosts = hosts_of_plan(plan) if plan else hosts_of(lines)
        self.events, self.datagrams = [], []
        self.moments, self.same = {}, {}
        for number, line in enumerate(lines, 1):
            if line.startswith("answer #"):
                continue
            parted = re.fullmatch(NODE + " (.+)", line)
            if not parted or not self.add(number, parted[1], parted[2]):
                raise Fault(f"{path}:{number}: this is no line of a trace: {line[:80]}")

    def add(self, number, node, text):
        """Adds the event of a line, and answers whether it's one."""
        if took := TAKE.fullmatch(text):
            self.take(number, node, checked(took[1], self.path, number), bytes_of(took[2]), took[3])
        elif gave := GIVE.fullmatch(text):
            target = checked(gave[1], self.path, number)
            self.give(number, node, self.host(node, number), target, bytes_of(gave[2]))
        elif clock := CLOCK.fullmatch(text):
            self.clock(number, node, int(clock[1]))
        elif CONNECT.fullmatch(text) or OTHER.fullmatch(text):
            if text != "poll -> none":
                self.events.append(Event(number, node, text))
        else:
            return False
        return True

    def clock(self, number, node, moment):
        if not self.moments.get(node, 0) <= moment < MOMENTS_END:
            raise Fault(f"{self.path}:{number}: a clock goes back, or to 2^62")
        self.moments[node] = moment
        self.events.append(Event(number, node, f"clock {moment}", moment))

    def give(self, number, node, source, target, data):
        self.events.append(self.new(number, node, source, target, data, self.moments.get(node, 0)))

    def new(self, *parts):
        """A further datagram, which is found by its hosts and bytes too."""
        datagram = Datagram(*parts, [])
        self.datagrams.append(datagram)
        self.same.setdefault((datagram.source, datagram.target, datagram.bytes), []).append(datagram)
        return datagram

    def take(self, number, node, source, data, answer):
        """A datagram comes of the oldest giving that it can come of and that this node didn't take, else of the latest
        one that it can come of, as a repeat. Else no node gave it: it's forged."""
        host = self.host(node, number)
        same = self.same.get((source, host, data), [])
        fresh = [it for it in same if all(take.node != node for take in it.takes)]
        moment = self.moments.get(node, 0)
        if same:
            datagram = fresh[0] if fresh else same[-1]
        else:
            datagram = self.new(number, None, source, host, data, moment)
        taken = Take(number, node, answer, moment, datagram)
        datagram.takes.append(taken)
        self.events.append(taken)

    def host(self, node, number):
        if node not in self.hosts:
            raise Fault(f"{self.path}:{number}: the host of {node} is in no line; --plan PLAN reads it there")
        return self.hosts[node]

    def nodes(self):
        """The nodes with an event, the clients first."""
        seen = {it.giver if isinstance(it, Datagram) else it.node for it in self.events}
        return sorted(seen, key=lambda node: (node == SERVER, int(node[1:] or 0)))


def lines_of(path):
    """The lines of a text, without the line feeds that end them."""
    try:
        with open(path, encoding="utf-8", newline="\n") as file:
            return file.read().removesuffix("\n").split("\n")
    except OSError as error:
        raise Fault(f"{path}: {error.strerror}") from None
    except UnicodeDecodeError:
        raise Fault(f"{path}: this is no text in UTF-8") from None


def bytes_of(text):
    return b"" if text == "-" else bytes.fromhex(text)


def checked(host, path, number):
    """The host, where its numbers are in range."""
    address, port = host.split(":")
    if any(int(it) > 255 for it in address.split(".")) or int(port) > 65535:
        raise Fault(f"{path}:{number}: {host} is no host")
    return host


def hosts_of(lines):
    """The hosts that a trace tells: the server's where a client connects, a client's in the names of its calls."""
    hosts = {}
    for line in lines:
        node, _, text = line.partition(" ")
        if node != SERVER and (connects := CONNECT.fullmatch(text)):
            hosts.setdefault(SERVER, connects[1])
        elif node != SERVER and (called := CALLED.fullmatch(text)):
            hosts.setdefault(node, called[1])
    return hosts


def hosts_of_plan(path):
    """The hosts that the lines of a plan give its nodes."""
    hosts, clients = {}, 0
    for number, line in enumerate(lines_of(path), 1):
        if serves := SERVER_LINE.fullmatch(line):
            hosts[SERVER] = checked(serves[1], path, number)
        elif calls := CLIENT_LINE.fullmatch(line):
            clients += 1
            hosts[f"c{clients}"] = checked(calls[1], path, number)
    return hosts


def number_at(data, at, size):
    return int.from_bytes(data[at:at + size], "big")


def call_of(data):
    """The cid, channel and number of the call that a datagram speaks of, or None where it speaks of none."""
    if len(data) < HEADER_BYTES or not number_at(data, 8, 4):
        return None
    cid = number_at(data, 4, 4)
    return cid - cid % CHANNELS, cid % CHANNELS, number_at(data, 8, 4)


def label(data):
    """What a datagram is, in a few words: its kind, and of DATA its seq and marks, of an ACK what it acknowledges."""
    kind = data[20] if len(data) >= HEADER_BYTES else 0
    if not 0 < kind < len(KINDS):
        return f"{len(data)} bytes"
    return KINDS[kind] + details(kind, data)


def details(kind, data):
    """What stands behind the kind, where the body has it."""
    flags, body = data[21], data[HEADER_BYTES:]
    if kind == DATA:
        marks = " last" if flags & LAST_PACKET else ""
        return f" {number_at(data, 12, 4)}{marks}"
    if kind == ACK and len(body) >= FIXED_ACK_BYTES:
        reason = REASONS[body[16]] if 0 < body[16] < len(REASONS) else REASONS[-1]
        softly = softly_acknowledged(number_at(body, 4, 4), body[FIXED_ACK_BYTES:FIXED_ACK_BYTES + body[17]])
        return f" below {number_at(body, 4, 4)}{softly}, {reason}"
    if kind == ABORT and len(body) >= CODE_BYTES:
        return f" {int.from_bytes(body[:CODE_BYTES], 'big', signed=True)}"
    return ""


def softly_acknowledged(first, marks):
    """The seqs that the marks of an ACK acknowledge, as runs."""
    runs = []
    for seq in (first + at for at, mark in enumerate(marks) if mark == 1):
        if runs and runs[-1][1] == seq - 1:
            runs[-1][1] = seq
        else:
            runs.append([seq, seq])
    said = ", ".join(f"{low}" if low == high else f"{low} to {high}" for low, high in runs)
    return f" and {said}" if said else ""
