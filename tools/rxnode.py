"""Servers and clients of Rx, as the tools here play them: docs/PROTOCOL.md, whose sections have their names here.

What that page leaves open is as docs/DECISIONS.md says, and at last as the definitions of crates/rx_rules/specs do. No
code is shared with the program. The nodes aren't prompt, as those of plans aren't, so "Lost pieces" is left out."""
import hashlib
import struct
from dataclasses import dataclass
from typing import NamedTuple

from rxtrace import (ABORT, ACK, CHANNELS, CLIENT_INITIATED, CODE_BYTES, DATA, FIXED_ACK_BYTES, HEADER_BYTES, KINDS,
                     LAST_PACKET, REASONS, REQUEST_ACK, number_at)

BUSY, ACKALL, CHALLENGE, RESPONSE = (KINDS.index(it) for it in ("BUSY", "ACKALL", "CHALLENGE", "RESPONSE"))
REQUESTED, DUPLICATE, OUT_OF_SEQUENCE, EXCEEDS_WINDOW, NO_SPACE, PING, PING_RESPONSE, DELAY = range(1, len(REASONS))
JUMBO = 0x20
SEQ_AT, SERIAL_AT, KIND_AT, FLAGS_AT, STATUS_AT, CHECKSUM_AT, SERVICE_AT = 12, 16, 20, 21, 22, 24, 26
PIECE_BYTES, PART_BYTES, MOST_PARTS, MOST_PAYLOAD = 1412, 1416, 16, 1444
WORD_END = 2**32
LAST_SEQ, LAST_NUMBER = WORD_END - 2, WORD_END - 1
LEAST_WINDOW, MOST_WINDOW, FIRST_PEER_WINDOW, FIRST_CONGESTION_WINDOW = 32, 255, 32, 2
FIRST_RTO, LEAST_RTO, MOST_RTO, MOST_ROUND_TRIP = 1_000, 350, 4_000, 60_000
ACK_DELAY, PING_AFTER, SILENCE, IDLE = 100, 2_000, 12_000, 600_000
STRAYS, KEYED_INDEX, NONCE_BYTES = 64, 200, 8
CALL_DEAD, INVALID_OPERATION, PROTOCOL_ERROR = -1, -2, -5

CALLING, ENDED, WAITING, ACCEPTED, FINISHED, BROKEN, OVER = range(7)
LIVE = {CALLING, WAITING, ACCEPTED, FINISHED, BROKEN}
ACTIVE = LIVE - {BROKEN}
HANDLED = {ACCEPTED, BROKEN}
HEARD = {"kept", "repeat", "beyond", "clash", "noslot", "heard"}
HEADER = struct.Struct("!IIIIIBBBBHH")


def word(number):
    """A number modulo 2^32 in four bytes, its high byte first; so two's complement below 0."""
    return (number % WORD_END).to_bytes(4, "big")


def code_at(body):
    """The code that a body begins with."""
    return int.from_bytes(body[:CODE_BYTES], "big", signed=True)


# --- Packets, of docs/FORMATS.md -------------------------------------------------------------------------------------


@dataclass
class Message:
    """What a datagram says: the fields of its header, and its body."""
    epoch: int
    cid: int
    number: int
    seq: int
    serial: int
    kind: int
    flags: int
    index: int
    service: int
    body: bytes

    def datagram(self):
        """Its bytes."""
        return HEADER.pack(self.epoch, self.cid, self.number, self.seq, self.serial, self.kind, self.flags, 0,
                           self.index, 0, self.service) + self.body


def message_of(data):
    """The message that bytes spell, where they have no fault."""
    epoch, cid, number, seq, serial, kind, flags, _, index, _, service = HEADER.unpack(data[:HEADER_BYTES])
    return Message(epoch, cid, number, seq, serial, kind, flags, index, service, data[HEADER_BYTES:])


def fault_of(data):
    """The first fault of bytes that spell no message, or None."""
    if len(data) < HEADER_BYTES:
        return f"short {len(data)}"
    kind, flags, body = data[KIND_AT], data[FLAGS_AT], data[HEADER_BYTES:]
    if not 0 < kind < len(KINDS):
        return f"kind {kind}"
    if kind == DATA and flags & JUMBO:
        return "jumbo"
    if kind in (DATA, CHALLENGE, RESPONSE) and len(body) > MOST_PAYLOAD:
        return f"toolong {len(body)}"
    if kind == ACK and (len(body) < FIXED_ACK_BYTES or len(body) < FIXED_ACK_BYTES + body[17]):
        return "ackshort"
    if kind == ABORT and len(body) < CODE_BYTES:
        return "abortshort"
    return None


class Ack:
    """What the body of an ACK says: its first packet, the seqs of its marks, its reason, and its window or None."""

    def __init__(self, body):
        marks_end = FIXED_ACK_BYTES + body[17]
        self.first = number_at(body, 4, 4)
        self.marks = {self.first + at for at, mark in enumerate(body[FIXED_ACK_BYTES:marks_end]) if mark == 1}
        self.reason = body[16] if 0 < body[16] < len(REASONS) else DELAY
        window_at = marks_end + 3 + 2 * 4
        self.window = number_at(body, window_at, 4) if len(body) >= window_at + 4 else None


def ack_body(received, reason, serial, window):
    """The body of an ACK for what was received."""
    done = received.done_with()
    marks = bytes(seq in received.packets for seq in range(done + 1, received.greatest + 1))
    return (bytes(4) + word(done + 1) + word(received.previous) + word(serial) + bytes([reason, len(marks)]) + marks
            + bytes(3) + word(MOST_PAYLOAD) + word(MOST_PAYLOAD) + word(window) + word(1))


# --- Jumbo datagrams, of docs/DECISIONS.md ---------------------------------------------------------------------------


def part_place(k):
    """Where part k of a jumbo datagram begins, k from 0."""
    return HEADER_BYTES + PART_BYTES * k


def flags_place(k):
    """Where its flags stand: in the header, or in the four bytes before it, which have a spare one and its checksum."""
    return part_place(k) - 4 if k else FLAGS_AT


def is_followed(data, k):
    """Whether another part follows part k."""
    return flags_place(k) < len(data) and bool(data[flags_place(k)] & JUMBO)


def part_of(data, k):
    """Part k as a datagram: the header with its own seq, serial, flags and checksum, and its bytes."""
    place, flags_at = part_place(k), flags_place(k)
    checksum_at = flags_at + 2 if k else CHECKSUM_AT
    end = place + PIECE_BYTES if is_followed(data, k) else len(data)
    return (data[:SEQ_AT] + word(number_at(data, SEQ_AT, 4) + k) + word(number_at(data, SERIAL_AT, 4) + k)
            + bytes([DATA, data[flags_at] & ~JUMBO]) + data[STATUS_AT:CHECKSUM_AT]
            + data[checksum_at:checksum_at + 2] + data[SERVICE_AT:HEADER_BYTES] + data[place:end])


def is_jumbo(data):
    """Whether bytes say that they carry more packets than one."""
    return len(data) >= HEADER_BYTES and data[KIND_AT] == DATA and is_followed(data, 0)


def parts_of(data):
    """The single datagrams of a jumbo one; any other, or one that can't be split, is its own."""
    if not is_jumbo(data):
        return [data]
    last = next((k for k in range(MOST_PARTS) if not is_followed(data, k)), None)
    if last is None or part_place(last) > len(data) or number_at(data, SEQ_AT, 4) + last >= WORD_END:
        return [data]
    return [part_of(data, k) for k in range(last + 1)]


def can_follow(data, other):
    """Whether the second datagram can stand behind the first in a jumbo one: both are DATA of one call."""
    if min(len(data), len(other)) < HEADER_BYTES:
        return False
    one, two = message_of(data), message_of(other)
    calls = [(it.kind, it.epoch, it.cid, it.number, it.index, it.service) for it in (one, two)]
    return (one.kind == DATA and calls[0] == calls[1] and data[STATUS_AT] == other[STATUS_AT]
            and (one.seq + 1, one.serial + 1) == (two.seq, two.serial) and len(data) == HEADER_BYTES + PIECE_BYTES)


# --- Names and moments -----------------------------------------------------------------------------------------------


class Name(NamedTuple):
    """The name of a call: that of its connection, its channel and its number."""
    host: str
    epoch: int
    cid: int
    channel: int
    number: int

    def __str__(self):
        return "/".join(map(str, self))

    @property
    def connection(self):
        """The name of its connection: the client's host, the epoch and the cid."""
        return self[:3]


# --- Streams and pieces ----------------------------------------------------------------------------------------------


class Said:
    """A stream that is said: what writes accepted, cut into pieces."""

    def __init__(self):
        self.stream, self.is_shut = bytearray(), False

    def pieces(self):
        """How many pieces there are, a last one that doesn't count yet among them."""
        count = -(-len(self.stream) // PIECE_BYTES)
        return max(1, count) if self.is_shut else count

    def counting(self):
        """How many of them count: a full one once a further byte was accepted, the last one once the stream is shut."""
        return self.pieces() if self.is_shut else max(0, len(self.stream) - 1) // PIECE_BYTES

    def piece(self, seq):
        """The bytes of a piece."""
        return bytes(self.stream[PIECE_BYTES * (seq - 1):PIECE_BYTES * seq])

    def is_last(self, seq):
        """Whether a piece is the last one."""
        return self.is_shut and seq == self.pieces()


# --- Receiving -------------------------------------------------------------------------------------------------------


class Received:
    """A stream that comes: its packets by seq, and how far they stand without a gap, are read and done with."""

    def __init__(self):
        self.packets, self.stream, self.ends = {}, bytearray(), [0]  # packet k ends at ends[k] of the stream
        self.front = self.greatest = self.previous = self.done = 0
        self.last = None
        self.bytes_read, self.is_read_to_end = 0, False

    def done_with(self):
        """How many packets are done with."""
        while self.done < self.front and self.is_done_with(self.done + 1):
            self.done += 1
        return self.done

    def is_done_with(self, seq):
        """Whether a packet within the front is done with, where those before it are."""
        return self.is_read_to_end if seq == self.last else self.ends[seq] <= self.bytes_read

    def held(self):
        """How many packets are kept and not done with; those that are done with stay kept for later judgements."""
        return len(self.packets) - self.done_with()

    def row(self, seq, is_last, window):
        """The answer of a data packet that isn't strange, up to whether there's a slot for it."""
        if seq in self.packets:
            return "repeat"
        if seq > self.done_with() + window:
            return "beyond"
        if (self.last is not None and seq > self.last) or (is_last and seq < self.greatest):
            return "clash"
        return "kept"

    def keep(self, seq, payload, is_last):
        """A packet is kept."""
        self.packets[seq] = payload
        self.greatest = max(self.greatest, seq)
        if is_last:
            self.last = seq
        while self.front + 1 in self.packets:
            self.front += 1
            self.stream += self.packets[self.front]
            self.ends.append(len(self.stream))

    def read(self, most):
        """The next bytes up to the front; where there is none, whether that's the end of the stream."""
        data = bytes(self.stream[self.bytes_read:self.bytes_read + most])
        self.bytes_read += len(data)
        if data:
            return "got", data
        if self.last is None or self.last > self.front:
            return "notyet", b""
        self.is_read_to_end = True
        return "end", b""


# --- Sending ---------------------------------------------------------------------------------------------------------


class Sent(Said):
    """A stream that is sent: which pieces were given and acknowledged, and its rates."""

    def __init__(self, window):
        super().__init__()
        self.given, self.givings = 0, {}  # by seq, the moment of the last giving and whether it wasn't the first
        self.hard, self.soft = 0, set()
        self.peer_window = FIRST_PEER_WINDOW
        self.window, self.threshold, self.congestion_window = window, window, FIRST_CONGESTION_WINDOW
        self.rto, self.smoothed, self.variance = FIRST_RTO, None, None

    def is_all_given(self):
        """Whether the stream is shut and each of its pieces was given."""
        return self.is_shut and self.given == self.pieces()

    def is_delivered(self):
        """Whether the stream is shut and each of its pieces is hard acknowledged."""
        return self.is_shut and self.hard == self.pieces()

    def held(self):
        """How many pieces aren't hard acknowledged."""
        return self.pieces() - self.hard

    def acknowledge_all(self):
        """The other end has all that there is."""
        self.hard = self.pieces()

    def is_strange(self, ack):
        """Whether an ACK has no first packet, or speaks of a piece that was never given."""
        return ack.first == 0 or ack.first - 1 > self.given or any(seq > self.given for seq in ack.marks)

    def acknowledge(self, now, ack):
        """An ACK came; a stale one changes nothing."""
        if ack.first - 1 < self.hard:
            return
        newly = [seq for seq in self.unacknowledged() if seq < ack.first or seq in ack.marks]
        self.hard, self.soft = ack.first - 1, ack.marks
        if ack.window is not None:
            self.peer_window = max(1, min(ack.window, MOST_WINDOW))
        if newly:
            self.measure(now, newly[-1])
            grown = len(newly) if self.congestion_window < self.threshold else 1
            self.congestion_window = min(self.congestion_window + grown, self.window)

    def unacknowledged(self):
        """The seqs that were given and are neither hard nor soft acknowledged, from the lowest on."""
        return [seq for seq in range(self.hard + 1, self.given + 1) if seq not in self.soft]

    def measure(self, now, seq):
        """A round trip, where the piece was given once: RTO goes by it."""
        moment, is_again = self.givings[seq]
        if is_again:
            return
        trip = min(now - moment, MOST_ROUND_TRIP)
        if self.smoothed is None:
            self.smoothed, self.variance = 8 * trip, 2 * trip
        else:
            error = trip - self.smoothed // 8
            self.smoothed += error
            self.variance += abs(error) - self.variance // 4
        self.rto = max(LEAST_RTO, min(MOST_RTO, self.smoothed // 8 + self.variance))

    def next_seq(self):
        """The next piece, where it counts and both windows let it go, or None."""
        seq = self.given + 1
        is_let = len(self.unacknowledged()) < self.congestion_window and seq <= self.hard + self.peer_window
        return seq if seq <= self.counting() and is_let else None

    def flags(self, seq, is_again):
        """The flags of a piece as it's given: LAST_PACKET, and REQUEST_ACK where it asks for an acknowledgement."""
        is_new = seq > self.given
        in_flight = len(self.unacknowledged()) + is_new
        is_full = in_flight >= self.congestion_window or seq == self.hard + self.peer_window
        asks = self.is_last(seq) or is_again or is_full
        return (REQUEST_ACK if asks else 0) + (LAST_PACKET if self.is_last(seq) else 0)

    def give(self, now, seq):
        """A piece is given, for the first time or as its time is up."""
        if seq <= self.given:
            self.rto = min(2 * self.rto, MOST_RTO)
            self.threshold, self.congestion_window = max(2, self.congestion_window // 2), 1
        self.givings[seq] = now, seq in self.givings
        self.given = max(self.given, seq)


# --- One end of a call -----------------------------------------------------------------------------------------------


class Owed(NamedTuple):
    """A datagram that is owed, and the moment from which it's due, 0 for at once: a piece, an acknowledgement, or what
    a channel owes."""
    due: int
    kind: int
    seq: int = 0
    is_again: bool = False
    reason: int = 0
    serial: int = 0


class Call:
    """One end of a call: its life, what it received and what it said, and the acknowledgement that it owes.

    `code` is the one with which it ended or broke, and `end` a client's END as it's printed."""

    def __init__(self, name, life, window, now):
        self.name, self.life, self.code, self.end = name, life, None, None
        self.received, self.sent = Received(), Sent(window)
        self.owed, self.heard, self.spoke = None, now, now

    # --- Acknowledgements

    def owe_at_once(self, reason, serial):
        """An acknowledgement takes the place of what is owed."""
        self.owed = Owed(0, ACK, reason=reason, serial=serial)

    def owe_later(self, now, serial):
        """A delayed one counts only where nothing is owed."""
        self.owed = self.owed or Owed(now + ACK_DELAY, ACK, reason=DELAY, serial=serial)

    def owe_for_packet(self, now, got, message, is_next):
        """What a data packet with this answer makes it owe."""
        if got == "kept" and not is_next:
            self.owe_at_once(OUT_OF_SEQUENCE, message.serial)
        elif got == "kept" and message.flags & REQUEST_ACK:
            self.owe_at_once(REQUESTED, message.serial)
        elif got == "kept":
            self.owe_later(now, message.serial)
        elif got != "clash":
            reasons = {"repeat": DUPLICATE, "beyond": EXCEEDS_WINDOW, "noslot": NO_SPACE}
            self.owe_at_once(reasons[got], message.serial)

    # --- Slots

    def lead(self):
        """1 where it holds a packet within the front or a piece, else 0."""
        return int(self.received.done_with() < self.received.front or self.sent.held() > 0)

    def beside(self):
        """How many slots it holds beside its lead."""
        return self.received.held() + self.sent.held() - self.lead()

    # --- What it owes

    def items(self, is_client):
        """What it owes, in the order in which ties are broken."""
        sent = self.sent
        seq = sent.next_seq()
        if seq is not None:
            yield Owed(0, DATA, seq)
        lowest = next(iter(sent.unacknowledged()), None)
        if lowest is not None:
            yield Owed(sent.givings[lowest][0] + sent.rto, DATA, lowest, True)
        if self.owed:
            yield self.owed
        if is_client:
            yield Owed(self.spoke + PING_AFTER, ACK, reason=PING)

    def give_piece(self, now, item):
        """The flags and the body of a piece, which is given."""
        flags, body = self.sent.flags(item.seq, item.is_again), self.sent.piece(item.seq)
        self.sent.give(now, item.seq)
        self.spoke = now
        return flags, body

    def give_ack(self, now, item, window):
        """Those of an acknowledgement; whichever is given, nothing more is owed."""
        self.owed, self.spoke = None, now
        return (REQUEST_ACK if item.reason == PING else 0), ack_body(self.received, item.reason, item.serial, window)


# --- Connections -----------------------------------------------------------------------------------------------------


@dataclass
class Channel:
    """A channel: its number, its latest call, and what it owes: codes, numbers and bytes, or None."""
    at: int
    number: int = 0
    call: Call | None = None
    abort: int | None = None
    busy: int | None = None
    challenge: bool = False
    response: bytes | None = None
    ackall: bool = False

    def has_live_call(self):
        """Whether its call lives."""
        return self.call is not None and self.call.life in LIVE


class Connection:
    """A connection as a node keeps it. `order` is how many were entered before it, `serial` the last one given."""

    def __init__(self, name, peer, service, first, order, now):
        self.name, self.peer, self.service, self.first, self.order = name, peer, service, first, order
        self.serial, self.last_use, self.is_proved = 0, now, False
        self.channels = [Channel(at) for at in range(CHANNELS)]


@dataclass
class Limits:
    """What a node has room for."""
    conns: int = 1_024
    calls: int = 64
    slots: int = 2_048
    window: int = 32


class Node:
    """What servers and clients have in common."""
    is_client = False

    def __init__(self, name, host, limits, key):
        self.name, self.host, self.limits, self.key = name, host, limits, key
        self.index = KEYED_INDEX if key else 0
        self.now, self.connections, self.entered = 0, [], 0
        self.calls, self.alive = {}, {}
        self.strays = []  # the stray aborts that a server owes, with their targets

    def connection(self, name):
        """The connection with this name, or None."""
        return next((it for it in self.connections if it.name == name), None)

    def channel_of(self, name):
        """The channel of a call."""
        return self.connection(name.connection).channels[name.channel]

    def live_calls(self):
        """Its calls that live."""
        self.alive = {name: call for name, call in self.alive.items() if call.life in LIVE}
        return list(self.alive.values())

    def active_calls(self):
        """Those that aren't broken."""
        return [call for call in self.live_calls() if call.life in ACTIVE]

    def start(self, name, life):
        """A call starts: its channel has its number, and owes nothing."""
        call = Call(name, life, self.limits.window, self.now)
        self.calls[name] = self.alive[name] = call
        self.connection(name.connection).channels[name.channel] = Channel(name.channel, name.number, call)
        return call

    def stop(self, call, code):
        """A code reaches a call."""
        raise NotImplementedError

    def stop_all(self, name, code):
        """A code reaches each live call of a connection."""
        for call in self.live_calls():
            if call.name.connection == name:
                self.stop(call, code)

    # --- Receiving

    def take_data(self, connection, channel, call, message):
        """DATA on a live call."""
        received, seq, is_last = call.received, message.seq, bool(message.flags & LAST_PACKET)
        if not 1 <= seq <= LAST_SEQ:
            return "strange"
        got = received.row(seq, is_last, self.limits.window)
        is_next = seq == received.front + 1
        if got == "kept" and not self.has_slot(call, is_next):
            got = "noslot"
        if got == "kept":
            received.keep(seq, message.body, is_last)
        if got != "clash":
            received.previous = seq
        call.owe_for_packet(self.now, got, message, is_next)
        return got

    # --- Sending

    def take_ack(self, connection, channel, call, message):
        """An ACK on a live call."""
        ack = Ack(message.body)
        if call.sent.is_strange(ack):
            return "strange"
        call.sent.acknowledge(self.now, ack)
        if ack.reason == PING:
            call.owe_at_once(PING_RESPONSE, message.serial)
        return "heard"

    def take_ackall(self, connection, channel, call, message):
        """An ACKALL on a live call."""
        if not call.sent.is_all_given():
            return "strange"
        call.sent.acknowledge_all()
        return "heard"

    def take_busy(self, connection, channel, call, message):
        """A BUSY on a live call, which shows that the other end is there."""
        return "heard"

    # --- Slots

    def slots_left(self):
        """How many slots calls may hold still beside one for each."""
        shared = self.limits.slots - self.limits.calls
        return max(0, shared - sum(call.beside() for call in self.active_calls()))

    def has_slot(self, call, is_next):
        """Whether there's a slot for a packet, which is the next one after the front or isn't."""
        return (is_next and not call.lead()) or self.slots_left() > 0

    def room(self, call):
        """How many bytes a write may accept."""
        sent = call.sent
        more = min(self.limits.window - sent.held(), self.slots_left() + 1 - call.lead(), LAST_SEQ - sent.pieces())
        return PIECE_BYTES * (sent.pieces() + max(0, more)) - len(sent.stream)

    def accept_bytes(self, call, data):
        """A write: how many bytes are accepted, and these."""
        taken = data[:self.room(call)]
        call.sent.stream += taken
        return len(taken), taken

    def read_bytes(self, call, most):
        """A read: its answer and the bytes; where more packets are done with, an acknowledgement is owed."""
        before = call.received.done_with()
        got, data = call.received.read(most)
        if call.received.done_with() > before:
            call.owe_later(self.now, 0)
        return got, data

    # --- Silence and pings

    def is_silent(self, call):
        """Whether nothing was heard of an active call for so long that a poll ends it."""
        return self.now - call.heard >= SILENCE

    def end_silent_calls(self):
        """Silent calls end, before a poll gives anything."""
        for call in self.active_calls():
            if self.is_silent(call):
                self.end_silent(call)

    def end_silent(self, call):
        """A silent call ends."""
        self.stop(call, CALL_DEAD)

    # --- Taking a datagram

    def take(self, source, data):
        """The answer to bytes from a host."""
        fault = fault_of(data)
        return f"bad {fault}" if fault else self.judge(source, message_of(data))

    def judge(self, source, message):
        """The answer to a message from a host."""
        raise NotImplementedError

    def take_live(self, connection, channel, call, message):
        """The answer to a message of a live call."""
        if message.kind == ABORT:
            self.stop(call, code_at(message.body))
            return "stopped"
        take = {DATA: self.take_data, ACK: self.take_ack, BUSY: self.take_busy, ACKALL: self.take_ackall}
        got = take.get(message.kind, self.take_security)(connection, channel, call, message)
        if got in HEARD:
            call.heard = self.now
        return got

    # --- What a poll gives

    def items(self):
        """What is owed, with its connection and its channel, in the order in which ties are broken."""
        for connection in self.connections:
            for channel in connection.channels:
                for item in self.channel_items(connection, channel):
                    yield item, connection, channel

    def channel_items(self, connection, channel):
        """What a channel owes."""
        lives = channel.has_live_call()
        if channel.abort is not None:
            yield Owed(0, ABORT)
        if channel.busy is not None:
            yield Owed(0, BUSY)
        if lives and channel.challenge and not connection.is_proved:
            yield Owed(0, CHALLENGE)
        if lives and channel.response is not None:
            yield Owed(0, RESPONSE)
        if channel.ackall:
            yield Owed(0, ACKALL)
        if lives and channel.call.life in ACTIVE and not self.is_silent(channel.call):
            yield from channel.call.items(self.is_client)

    def poll(self):
        """The target and the bytes of the datagram that is given, or None."""
        self.end_silent_calls()
        if self.strays:
            return self.strays.pop(0)
        least = min((it for it in self.items() if it[0].due <= self.now), key=lambda it: it[0].due, default=None)
        return self.give(*least) if least else None

    def give(self, item, connection, channel):
        """The target and the bytes of what is owed."""
        number = channel.busy if item.kind == BUSY else channel.number
        flags, body = self.content(item, connection, channel)
        connection.serial = (connection.serial + 1) % WORD_END
        connection.last_use = self.now
        _, epoch, cid = connection.name
        message = Message(epoch, cid + channel.at, number, item.seq, connection.serial, item.kind,
                          flags + (CLIENT_INITIATED if self.is_client else 0), self.index, connection.service, body)
        return connection.peer, message.datagram()

    def content(self, item, connection, channel):
        """The flags and the body of what is owed, which is no more then."""
        body = b""
        if item.kind == DATA:
            return channel.call.give_piece(self.now, item)
        if item.kind == ACK:
            return channel.call.give_ack(self.now, item, self.limits.window)
        if item.kind == ABORT:
            body, channel.abort = word(channel.abort), None
        elif item.kind == BUSY:
            channel.busy = None
        elif item.kind == CHALLENGE:
            body, channel.challenge = self.nonce_of(connection), False
        elif item.kind == RESPONSE:
            body, channel.response = channel.response, None
        else:
            channel.ackall = False
        return 0, body

    def due(self):
        """The moment at which a poll gives something or ends a call, or None."""
        moments = [self.now] * len(self.strays) + [item.due for item, _, _ in self.items()]
        moments += [call.heard + SILENCE for call in self.active_calls()]
        return max(self.now, min(moments)) if moments else None

    # --- Security

    def take_security(self, connection, channel, call, message):
        """A CHALLENGE or a RESPONSE on a live call."""
        raise NotImplementedError

    def nonce_of(self, connection):
        """The nonce of a connection."""
        raise NotImplementedError

    def digest(self, connection, nonce):
        """The right answer to a nonce."""
        _, epoch, cid = connection.name
        return hashlib.sha256(self.key + word(epoch) + word(cid) + nonce).digest()


class Server(Node):
    """A server: what it owes is of the records of its clients' connections, but for stray aborts."""

    def __init__(self, name, host, limits, key, service, nonce):
        super().__init__(name, host, limits, key)
        self.service, self.first_nonce = service, nonce
        self.firsts = []  # the calls whose packet 1 was kept, in that order

    # --- Taking a datagram at the server

    def judge(self, source, message):
        """The rows up to those of a record."""
        if not message.flags & CLIENT_INITIATED:
            return "foreign"
        if message.kind in (BUSY, CHALLENGE) or (message.kind == RESPONSE and not self.key):
            return "strange"
        if message.service != self.service or message.index != self.index:
            self.owe_stray(source, message)
            return "unserved"
        name = Name(source, message.epoch, message.cid - message.cid % CHANNELS, message.cid % CHANNELS, message.number)
        connection = self.connection(name.connection)
        starts = message.kind == DATA and 1 <= message.seq <= self.limits.window
        if connection is None:
            if not (starts and message.number):
                return "strange"
            if len(self.connections) >= self.limits.conns and self.idle() is None:
                return "full"
            return self.judge_number(name, None, Channel(name.channel), message, starts)
        got = self.judge_number(name, connection, connection.channels[name.channel], message, starts)
        connection.last_use = self.now
        return got

    def judge_number(self, name, connection, channel, message, starts):
        """The rows of a call number; a channel that has no record counts as one with number 0."""
        if message.kind == ABORT and name.number == 0:
            self.stop_all(name.connection, code_at(message.body))
            return "stopped"
        if name.number == 0:
            return "strange"
        if name.number < channel.number:
            return "old"
        if name.number > channel.number:
            return self.judge_later(name, channel, message) if starts else "strange"
        if channel.call is None or channel.call.life not in ACTIVE:
            return self.tell_again(channel, message)
        return self.take_live(connection, channel, channel.call, message)

    def judge_later(self, name, channel, message):
        """The rows of DATA with a number above the channel's that a call may begin with."""
        call = channel.call
        if call and call.life in HANDLED:
            channel.busy = name.number
            self.stop(call, CALL_DEAD)
            return "busy"
        if not channel.has_live_call() and len(self.live_calls()) >= self.limits.calls:
            self.enter(name.connection).channels[name.channel].busy = name.number
            return "noroom"
        if call and call.life in (WAITING, FINISHED):
            call.life, call.code = OVER, CALL_DEAD if call.life == WAITING else None
        connection = self.enter(name.connection)
        call = self.start(name, WAITING)
        return self.take_live(connection, connection.channels[name.channel], call, message)

    def tell_again(self, channel, message):
        """A message of a call that ended or broke: DATA or an ACK owes the ABORT again, where there was a code."""
        call = channel.call
        if call and call.code is not None and message.kind in (DATA, ACK):
            channel.abort = call.code
        return "over"

    def idle(self):
        """The idle record with the earliest last use, or None."""
        idle = [it for it in self.connections
                if self.now - it.last_use >= IDLE and not any(channel.has_live_call() for channel in it.channels)]
        return min(idle, key=lambda it: it.last_use, default=None)

    def enter(self, name):
        """The record of a connection, which is entered where there is none."""
        connection = self.connection(name)
        if connection is None:
            connection = Connection(name, name[0], self.service, 1, self.entered, self.now)
            self.entered += 1
            if len(self.connections) < self.limits.conns:
                self.connections.append(connection)
            else:
                self.connections[self.connections.index(self.idle())] = connection
        return connection

    def start(self, name, life):
        """A call starts; its packet 1 isn't kept yet, though that of an earlier life of its name may have been."""
        self.firsts = [it for it in self.firsts if it != name]
        return super().start(name, life)

    def owe_stray(self, source, message):
        """DATA of another service or class owes a stray abort; the oldest of too many is dropped."""
        if message.kind == DATA:
            stray = Message(message.epoch, message.cid, 0, 0, 0, ABORT, 0, message.index, message.service,
                            word(INVALID_OPERATION))
            self.strays = [*self.strays, (source, stray.datagram())][-STRAYS:]

    def take_data(self, connection, channel, call, message):
        """DATA on a live call, which may have been kept as its packet 1."""
        got = super().take_data(connection, channel, call, message)
        if got == "kept" and message.seq == 1:
            self.firsts.append(call.name)
        if got != "strange":
            self.owe_challenge(connection, channel)
        return got

    def take_ack(self, connection, channel, call, message):
        """An ACK on a live call."""
        got = super().take_ack(connection, channel, call, message)
        if got == "heard":
            self.settle(call)
            self.owe_challenge(connection, channel)
        return got

    def take_ackall(self, connection, channel, call, message):
        """An ACKALL on a live call."""
        got = super().take_ackall(connection, channel, call, message)
        self.settle(call)
        return got

    # --- Calls at the server

    def accept(self):
        """The name of the call that a handler gets, or None."""
        for name in self.firsts:
            if self.calls[name].life == WAITING and (not self.key or self.connection(name.connection).is_proved):
                self.calls[name].life = ACCEPTED
                return name
        return None

    def refusal(self, call, is_read):
        """What a handler's call is refused with, or None; is_read says whether its request was read as far as needed.
        """
        if call is None or call.life not in HANDLED:
            return "notopen"
        if call.life == BROKEN:
            return f"gone {call.code}"
        return None if is_read else "unread"

    def read(self, name, most):
        """A handler's read: its answer and the bytes."""
        call = self.calls.get(name)
        refusal = self.refusal(call, True)
        return (refusal, b"") if refusal else self.read_bytes(call, most)

    def write(self, name, data):
        """A handler's write: how many bytes are accepted and these, or a refusal."""
        call = self.calls.get(name)
        refusal = self.refusal(call, call and call.received.is_read_to_end)
        return (refusal, b"") if refusal else self.accept_bytes(call, data)

    def finish(self, name, code):
        """A handler's finish."""
        call = self.calls.get(name)
        refusal = self.refusal(call, code or call and call.received.is_read_to_end)
        if refusal:
            if call and call.life == BROKEN:
                call.life = OVER
            return refusal
        if code == 0:
            call.sent.is_shut, call.life = True, FINISHED
        else:
            call.life, call.code = OVER, code
            self.channel_of(name).abort = code
        return "ok"

    def settle(self, call):
        """A finished call ends well once its reply is hard acknowledged."""
        if call.life == FINISHED and call.sent.is_delivered():
            call.life, call.code = OVER, None

    def stop(self, call, code):
        """A code breaks an accepted call, and ends one that waits or finished."""
        if call.life in (WAITING, FINISHED):
            call.life, call.code = OVER, code
        elif call.life == ACCEPTED:
            call.life, call.code = BROKEN, code

    # --- Security

    def nonce_of(self, connection):
        """The nonce of a record: they count up from record to record."""
        return ((self.first_nonce + connection.order) % 2 ** (8 * NONCE_BYTES)).to_bytes(NONCE_BYTES, "big")

    def owe_challenge(self, connection, channel):
        """DATA or an ACK of a record that isn't proved owes a CHALLENGE under a class that challenges."""
        if self.key and not connection.is_proved:
            channel.challenge = True

    def take_security(self, connection, channel, call, message):
        """A RESPONSE on a live call."""
        if message.body == self.digest(connection, self.nonce_of(connection)):
            connection.is_proved = True
            return "heard"
        if connection.is_proved:
            return "strange"
        self.stop(call, PROTOCOL_ERROR)
        channel.abort = PROTOCOL_ERROR
        return "stopped"


class Client(Node):
    """A client: its connections are those that it made."""
    is_client = True

    def __init__(self, name, host, limits, key, epoch):
        super().__init__(name, host, limits, key)
        self.epoch = epoch

    def connect(self, server, service, first):
        """The cid of a new connection, or None where there is no room."""
        if len(self.connections) >= self.limits.conns:
            return None
        cid = CHANNELS * (len(self.connections) + 1)
        name = self.host, self.epoch, cid
        self.connections.append(Connection(name, server, service, first, self.entered, self.now))
        self.entered += 1
        return cid

    def call(self, cid):
        """The name of a new call, or why there is none."""
        connection = self.connection((self.host, self.epoch, cid))
        if connection is None:
            return "noconn"
        free = [channel for channel in connection.channels if not channel.has_live_call()]
        if not free:
            return "nochannel"
        channel = next((channel for channel in free if channel.number != LAST_NUMBER), None)
        if channel is None:
            return "worn"
        if len(self.live_calls()) >= self.limits.calls:
            return "noroom"
        name = Name(*connection.name, channel.at, channel.number + 1 if channel.number else connection.first)
        self.start(name, CALLING)
        return name

    # --- Taking a datagram at the client

    def judge(self, source, message):
        """The rows of a connection and a call number."""
        if message.flags & CLIENT_INITIATED:
            return "foreign"
        connection = self.connection((self.host, message.epoch, message.cid - message.cid % CHANNELS))
        if connection is None or connection.peer != source or message.index != self.index:
            return "strange"
        if message.kind == RESPONSE or (message.kind == CHALLENGE and not self.key):
            return "strange"
        if message.kind == ABORT and message.number == 0:
            self.stop_all(connection.name, code_at(message.body))
            return "stopped"
        channel = connection.channels[message.cid % CHANNELS]
        if message.number == 0 or message.number > channel.number:
            return "strange"
        if message.number < channel.number:
            return "old"
        if channel.call.life != CALLING:
            return self.tell_again(channel, message)
        return self.take_live(connection, channel, channel.call, message)

    def tell_again(self, channel, message):
        """DATA of a call that ended well owes an ACKALL again, and that of one that was cancelled the ABORT."""
        if message.kind == DATA:
            if channel.call.end == "ok":
                channel.ackall = True
            elif channel.call.code is not None:
                channel.abort = channel.call.code
        return "over"

    def take_data(self, connection, channel, call, message):
        """DATA is strange before the request is all given, and else acknowledges it."""
        if not (1 <= message.seq <= LAST_SEQ and call.sent.is_all_given()):
            return "strange"
        call.sent.acknowledge_all()
        return super().take_data(connection, channel, call, message)

    def stop(self, call, code):
        """A code ends a call."""
        if call.life == CALLING:
            call.life, call.end = ENDED, f"abort {code}"

    def end_silent(self, call):
        """A silent call is dead."""
        call.life, call.end = ENDED, f"dead {self.now - call.heard}"

    def own(self, name):
        """The call of this name, where its channel has had none since, or None."""
        connection = self.connection(name.connection)
        channel = connection and connection.channels[name.channel]
        return channel.call if channel and channel.number == name.number else None

    def open_call(self, name):
        """The call of this name where it lives, or None."""
        call = self.own(name)
        return call if call and call.life == CALLING else None

    def write(self, name, data):
        """How many bytes are accepted and these, or a refusal."""
        call = self.open_call(name)
        return ("notopen", b"") if call is None or call.sent.is_shut else self.accept_bytes(call, data)

    def shut(self, name):
        """The request ends."""
        call = self.open_call(name)
        if call is None or call.sent.is_shut:
            return "notopen"
        call.sent.is_shut = True
        return "ok"

    def read(self, name, most):
        """The answer of a read and the bytes; a call ends well where that's End."""
        call = self.own(name)
        if call is None:
            return "unknown", b""
        if call.life == ENDED:
            return ("end" if call.end == "ok" else f"gone {call.end}"), b""
        got, data = self.read_bytes(call, most)
        if got == "end":
            call.life, call.end = ENDED, "ok"
            self.channel_of(name).ackall = True
        return got, data

    def ask(self, name):
        """What became of a call."""
        call = self.own(name)
        return "unknown" if call is None else call.end or "live"

    def cancel(self, name, code):
        """The call ends, and an ABORT is owed."""
        call = self.open_call(name)
        if call is None:
            return "notopen"
        call.life, call.end, call.code = ENDED, f"cancelled {code}", code
        self.channel_of(name).abort = code
        return "ok"

    # --- Security

    def take_security(self, connection, channel, call, message):
        """A CHALLENGE on a live call."""
        if len(message.body) != NONCE_BYTES:
            return "strange"
        channel.response = self.digest(connection, message.body)
        return "heard"
