"""Interfaces, their values as XDR and as JSON, and the scripts of servers, as tools/player has them: docs/FORMATS.md.

Of interfaces it has constants, int and unsigned, opaque and string of variable length, variable arrays, structs,
typedefs and procedures with an opcode, split or not; numbers are decimal, and a name stands below its definition. The
rest of the language is refused with its place, but faulty files may be read that the program refuses. No code is shared
with the program."""
import json
import re
from dataclasses import dataclass

from rxnode import WORD_END, word
from rxtrace import Fault, lines_of

MOST_STREAM, MOST_UPLOAD, MOST_LEVELS = 65_536, 16_777_216, 64
UNMARSHAL, SERVER_MARSHAL, SERVER_UNMARSHAL, NO_OPCODE, UNKNOWN_OPCODE = -451, -452, -453, -454, -455
SIGNED, UNSIGNED = ("int", "long", "afs_int32"), ("unsigned", "u_int", "u_long", "afs_uint32")
TOKENS = re.compile(r"\w+|[^\w \t]")
SKIPPED = re.compile(r"/\*.*?\*/", re.S)


class Short(Exception):
    """More bytes are wanted."""


class Bad(Exception):
    """No bytes that begin so spell a value."""


# --- XDR and JSON ----------------------------------------------------------------------------------------------------


class Reader:
    """Bytes that are read as XDR, from a place on."""

    def __init__(self, data, at=0):
        self.data, self.at = data, at

    def number(self, most=WORD_END - 1):
        """An unsigned number of four bytes up to a greatest one; cut short it's bad where none begins so."""
        cut = self.data[self.at:self.at + 4]
        number = int.from_bytes(cut + bytes(4 - len(cut)), "big")
        if number > most:
            raise Bad
        if len(cut) < 4:
            raise Short
        self.at += 4
        return number

    def content(self, size):
        """So many bytes, and then zero bytes to a multiple of 4."""
        end = self.at + size
        data, padding = self.data[self.at:end], self.data[end:end + -size % 4]
        if any(padding):
            raise Bad
        if len(data) + len(padding) < size + -size % 4:
            raise Short
        self.at = end + -size % 4
        return bytes(data)


class Type:
    """A type of an interface, and how many levels its values have."""
    levels = 0

    def zero(self):
        """Its zero value."""
        raise NotImplementedError

    def spelling(self, value):
        """The bytes of a value."""
        raise NotImplementedError

    def read(self, reader):
        """The value that a reader's next bytes spell."""
        raise NotImplementedError

    def from_json(self, given):
        """The value that a JSON value says, where it fits."""
        raise NotImplementedError

    def to_json(self, value):
        """A value as JSON."""
        raise NotImplementedError


@dataclass
class Number(Type):
    """int and unsigned: 2^32 numbers from a lowest one on."""
    low: int

    def zero(self):
        return 0

    def spelling(self, value):
        return word(value)

    def read(self, reader):
        number = reader.number()
        return number if number < self.low + WORD_END else number - WORD_END

    def from_json(self, given):
        if type(given) is not int or not self.low <= given < self.low + WORD_END:
            raise ValueError
        return given

    def to_json(self, value):
        return value


@dataclass
class Octets(Type):
    """opaque and string of variable length."""
    most: int
    is_text: bool

    def zero(self):
        return b""

    def spelling(self, value):
        return word(len(value)) + value + bytes(-len(value) % 4)

    def read(self, reader):
        return reader.content(reader.number(self.most))

    def from_json(self, given):
        if self.is_text and isinstance(given, dict) and set(given) == {"hex"}:
            given, is_hex = given["hex"], True
        else:
            is_hex = not self.is_text
        if not isinstance(given, str) or (is_hex and not re.fullmatch("(?:[0-9a-fA-F]{2})*", given)):
            raise ValueError
        value = bytes.fromhex(given) if is_hex else given.encode()
        if len(value) > self.most:
            raise ValueError
        return value

    def to_json(self, value):
        if not self.is_text:
            return value.hex()
        try:
            return value.decode()
        except UnicodeDecodeError:
            return {"hex": value.hex()}


@dataclass
class Array(Type):
    """A variable array."""
    element: Type
    most: int

    def __post_init__(self):
        self.levels = 1 + self.element.levels

    def zero(self):
        return []

    def spelling(self, value):
        return word(len(value)) + b"".join(self.element.spelling(it) for it in value)

    def read(self, reader):
        return [self.element.read(reader) for _ in range(reader.number(self.most))]

    def from_json(self, given):
        if not isinstance(given, list) or len(given) > self.most:
            raise ValueError
        return [self.element.from_json(it) for it in given]

    def to_json(self, value):
        return [self.element.to_json(it) for it in value]


@dataclass
class Struct(Type):
    """A struct: its fields by name."""
    fields: dict

    def __post_init__(self):
        self.levels = 1 + max(kind.levels for kind in self.fields.values())

    def zero(self):
        return {name: kind.zero() for name, kind in self.fields.items()}

    def spelling(self, value):
        return b"".join(kind.spelling(value[name]) for name, kind in self.fields.items())

    def read(self, reader):
        return {name: kind.read(reader) for name, kind in self.fields.items()}

    def from_json(self, given):
        if not isinstance(given, dict) or set(given) != set(self.fields):
            raise ValueError
        return {name: kind.from_json(given[name]) for name, kind in self.fields.items()}

    def to_json(self, value):
        return {name: kind.to_json(value[name]) for name, kind in self.fields.items()}


def json_in(text):
    """What a JSON text says."""
    return json.loads(text, parse_int=whole, parse_constant=no_constant)


def whole(text):
    """A whole number; `-0` is none."""
    if text == "-0":
        raise ValueError
    return int(text)


def no_constant(name):
    """NaN and Infinity, which Python reads, are no JSON."""
    raise ValueError(name)


def json_text(given):
    """Its text as it's printed: compact, the keys in byte order."""
    return json.dumps(given, ensure_ascii=False, separators=(",", ":"), sort_keys=True)


# --- Interface files -------------------------------------------------------------------------------------------------


@dataclass
class Procedure:
    """A procedure: its arguments by name, each a direction and a type."""
    name: str
    opcode: int
    is_split: bool
    arguments: dict

    def asked(self):
        """The types of the IN and INOUT arguments, by name."""
        return {name: kind for name, (mode, kind) in self.arguments.items() if mode != "OUT"}

    def returned(self):
        """Those of the INOUT and OUT arguments."""
        return {name: kind for name, (mode, kind) in self.arguments.items() if mode != "IN"}


class Interface:
    """What a file of an interface declares: its constants, types and procedures."""

    def __init__(self, path):
        self.path, self.constants, self.types, self.procedures = path, {}, {}, {}
        text = SKIPPED.sub(lambda it: "\n" * it[0].count("\n"), "\n".join(lines_of(path)))
        self.tokens = [(number, it) for number, line in enumerate(text.split("\n"), 1) for it in TOKENS.findall(line)]
        self.tokens.reverse()
        while self.tokens:
            self.item()

    def procedure(self, opcode):
        """The procedure with this opcode, or None."""
        return next((it for it in self.procedures.values() if it.opcode == opcode), None)

    # --- Tokens

    def peek(self):
        """The next token, or nothing at the end."""
        return self.tokens[-1][1] if self.tokens else ""

    def take(self):
        """The next token, which is taken."""
        if not self.tokens:
            raise Fault(f"{self.path}: it ends too early")
        self.last = self.tokens.pop()
        return self.last[1]

    def refuse(self):
        """The last token that was taken isn't in the language, or in the part of it that is read here."""
        number, token = self.last
        raise Fault(f"{self.path}:{number}: {token} is refused or left out here")

    def want(self, token):
        """This token, which has to be next."""
        if self.take() != token:
            self.refuse()

    def skip(self, token):
        """Whether this token is next, which is taken then."""
        return self.peek() == token and bool(self.take())

    def new_name(self, known):
        """A name that isn't among these."""
        name = self.take()
        if not re.fullmatch(r"[A-Za-z_]\w*", name) or name in known:
            self.refuse()
        return name

    def constant(self):
        """A number, or the constant of a name."""
        token = self.take()
        if token in self.constants:
            return self.constants[token]
        if not re.fullmatch("0|[1-9][0-9]*", token) or int(token) >= WORD_END:
            self.refuse()
        return int(token)

    # --- Grammar

    def item(self):
        """One item of the file."""
        if self.skip("package") or self.skip("prefix"):
            self.new_name(())
            self.skip(";")
        elif self.skip("statindex"):
            self.constant()
            self.skip(";")
        elif self.skip("const"):
            name = self.new_name(self.constants)
            self.want("=")
            self.constants[name] = self.constant()
            self.want(";")
        elif self.skip("typedef"):
            name, kind = self.declaration(self.types)
            self.types[name] = kind
            self.want(";")
        elif self.skip("struct"):
            self.struct()
        else:
            self.skip("proc")
            self.declare_procedure()

    def struct(self):
        """The rest of a struct."""
        name, fields = self.new_name(self.types), {}
        self.want("{")
        while not (fields and self.skip("}")):
            field, kind = self.declaration(fields)
            fields[field] = kind
            self.want(";")
        self.types[name] = self.level(Struct(fields))
        self.want(";")

    def declare_procedure(self):
        """A procedure: an argument without a direction has that of the one before it."""
        name, arguments, mode = self.new_name(self.procedures), {}, "IN"
        self.want("(")
        while not self.skip(")"):
            if arguments:
                self.want(",")
            if self.peek() in ("IN", "OUT", "INOUT"):
                mode = self.take()
            argument, kind = self.declaration(arguments, is_argument=True)
            arguments[argument] = mode, kind
        is_split = self.skip("split")
        self.want("=")
        opcode = self.constant()
        if self.procedure(opcode):
            self.refuse()
        self.want(";")
        self.procedures[name] = Procedure(name, opcode, is_split, arguments)

    def declaration(self, known, is_argument=False):
        """A name that isn't among these, and its type; in an argument a star has no bytes."""
        base = self.take()
        if is_argument:
            self.skip("*")
        name = self.new_name(known)
        if base in ("opaque", "string"):
            self.want("<")
            return name, Octets(self.bound(), base == "string")
        kind = self.base(base)
        return name, self.level(Array(kind, self.bound())) if self.skip("<") else kind

    def level(self, kind):
        """A type, of no more levels than are read."""
        if kind.levels > MOST_LEVELS:
            self.refuse()
        return kind

    def base(self, token):
        """The type of a word, which was taken before the name behind it."""
        if token in SIGNED:
            return Number(-(WORD_END // 2))
        if token in UNSIGNED:
            return Number(0)
        if token not in self.types:
            raise Fault(f"{self.path}:{self.last[0]}: the type {token} is left out here, or defined below")
        return self.types[token]

    def bound(self):
        """A bound, behind the sign that opens it."""
        most = WORD_END - 1 if self.peek() == ">" else self.constant()
        self.want(">")
        return most


# --- Words that plans and scripts have -------------------------------------------------------------------------------


def number(low, high):
    """Reads a number within bounds."""
    def read(text):
        if not re.fullmatch("[0-9]+", text) or not low <= int(text) <= high:
            raise ValueError
        return int(text)
    return read


def octets(text):
    """BYTES."""
    if text == "-":
        return b""
    if times := re.fullmatch(r"([0-9]+)\*([0-9a-f]{2})", text):
        return number(0, MOST_UPLOAD)(times[1]) * bytes.fromhex(times[2])
    if not re.fullmatch("(?:[0-9a-f]{2})+", text) or len(text) > 2 * MOST_UPLOAD:
        raise ValueError
    return bytes.fromhex(text)


def code(text):
    """CODE, of which 0 may be one."""
    if not re.fullmatch("[0-9]+|-0*[1-9][0-9]*", text) or not -(2**31) <= int(text) < 2**31:
        raise ValueError
    return int(text)


def fault_code(text):
    """CODE where it isn't 0."""
    if code(text) == 0:
        raise ValueError
    return code(text)


def said_lines(path):
    """The number and the words of each line that says something."""
    for at, line in enumerate(lines_of(path), 1):
        if line and not line.startswith("# "):
            yield at, line.split(" ")


# --- Scripts ---------------------------------------------------------------------------------------------------------


LINES = {
    "wait": ("turns",), "up": (), "down": (), "when": ("asked", "json", "code"), "fail": ("code",),
    "set": ("returned", "json"), "copy": ("returned", "source"), "size": ("count", "octets"), "count": ("count",),
    "echo": (), "send": ("bytes",),
}
READERS = {"turns": number(0, 1_000), "code": fault_code, "bytes": octets}


class Block:
    """What a script says of a procedure: the lines, each a verb with its values."""

    def __init__(self, procedure):
        self.procedure, self.lines = procedure, []

    def has(self, verb):
        """Whether one of the lines has this verb."""
        return any(it[0] == verb for it in self.lines)

    def all(self, verb):
        """The values of the lines with this verb."""
        return [values for it, *values in self.lines if it == verb]

    def add(self, verb, *words):
        """One more line."""
        if len(words) != len(LINES[verb]) or (verb in ("wait", "up", "down") and self.has(verb)):
            raise ValueError
        values = []
        for kind, text in zip(LINES[verb], words):
            values.append(READERS[kind](text) if kind in READERS else self.argument_or_value(kind, text, values))
        self.lines.append((verb, *values))

    def argument_or_value(self, kind, text, before):
        """An argument's name, or a value of the one that stands before."""
        first = self.procedure.arguments[before[0]][1] if before else None
        if kind == "json":
            return first.from_json(json_in(text))
        is_back = kind in ("returned", "count")
        found = (self.procedure.returned() if is_back else self.procedure.asked())[text]
        fits = {"count": isinstance(found, Number), "octets": isinstance(found, Octets), "source": found == first}
        if not fits.get(kind, True):
            raise ValueError
        return text

    def is_whole(self):
        """Whether each stream line has the `up` or `down` that it needs, and the procedure is split for these."""
        has_up, has_down = self.has("up"), self.has("down")
        needs_up, needs_down = self.has("count") or self.has("echo"), self.has("send") or self.has("echo")
        return (has_up or not needs_up) and (has_down or not needs_down) and (
            self.procedure.is_split or not (has_up or has_down))


class Script:
    """The blocks of a script, by procedure."""

    def __init__(self, path, interface):
        self.blocks, block = {}, None
        for at, words in said_lines(path):
            try:
                if words[0] == "on":
                    procedure = interface.procedures[words[1]]
                    if len(words) > 2 or procedure.name in self.blocks:
                        raise ValueError
                    block = self.blocks[procedure.name] = Block(procedure)
                elif block is None:
                    raise ValueError
                else:
                    block.add(*words)
            except (ValueError, KeyError, IndexError, TypeError):
                raise Fault(f"{path}:{at}: this is no line of a script here") from None
        for name, block in self.blocks.items():
            if not block.is_whole():
                raise Fault(f"{path}: {name} isn't split, or lacks the `up` or `down` that a line needs")


# --- What handlers serve ---------------------------------------------------------------------------------------------


class Handlers:
    """What a server's handlers go by: an interface and a script, or neither."""

    def __init__(self, interface, script):
        self.interface, self.blocks = interface, script.blocks if script else {}

    def judge(self, request, is_ended):
        """The code of a request that can't be read, and the procedure, arguments and upload of one that is whole. Where
        neither is there yet, more may come."""
        is_open = not is_ended and len(request) < MOST_STREAM
        if len(request) < 4:
            return (None if is_open else NO_OPCODE), None
        procedure = self.interface and self.interface.procedure(int.from_bytes(request[:4], "big"))
        if procedure is None:
            return UNKNOWN_OPCODE, None
        reader = Reader(request[:MOST_STREAM], 4)
        try:
            arguments = {name: kind.read(reader) for name, kind in procedure.asked().items()}
        except Bad:
            return SERVER_UNMARSHAL, None
        except Short:
            return (None if is_open else SERVER_UNMARSHAL), None
        block = self.blocks.get(procedure.name)
        if not (block and block.has("up")):
            return None, (procedure, arguments, b"")
        refusal, upload = self.upload(request[reader.at:], is_ended)
        return refusal, (procedure, arguments, upload)

    def upload(self, rest, is_ended):
        """The code of a counted stream that is too long or cut short, and what is there of it."""
        if len(rest) < 4:
            return (SERVER_UNMARSHAL if is_ended else None), b""
        size = int.from_bytes(rest[:4], "big")
        is_cut = is_ended and len(rest) - 4 < size
        return (SERVER_UNMARSHAL if size > MOST_UPLOAD or is_cut else None), bytes(rest[4:4 + size])

    def wait(self, procedure):
        """How many steps a whole request of it waits."""
        block = self.blocks.get(procedure.name)
        return block.all("wait")[0][0] if block and block.has("wait") else 0

    def serve(self, procedure, arguments, upload):
        """The code that is served for a whole request, and the reply where that is 0."""
        block = self.blocks.get(procedure.name)
        if block is None:
            return self.reply(procedure, {name: kind.zero() for name, kind in procedure.returned().items()}, None)
        told = [it for name, value, it in block.all("when") if arguments[name] == value]
        told += [it for it, in block.all("fail")]
        if told:
            return told[0], b""
        values = {name: arguments.get(name, kind.zero()) for name, kind in procedure.returned().items()}
        download = b""
        for verb, *given in block.lines:
            if verb == "set":
                values[given[0]] = given[1]
            elif verb == "copy":
                values[given[0]] = arguments[given[1]]
            elif verb == "size":
                values[given[0]] = len(arguments[given[1]])
            elif verb == "count":
                values[given[0]] = len(upload)
            elif verb == "echo":
                download = upload
            elif verb == "send":
                download = given[0]
        return self.reply(procedure, values, download if block.has("down") else None)

    def reply(self, procedure, values, download):
        """The code and the bytes of a reply: a download, and then the values."""
        spelled = b"".join(kind.spelling(values[name]) for name, kind in procedure.returned().items())
        if len(spelled) > MOST_STREAM:
            return SERVER_MARSHAL, b""
        return 0, (b"" if download is None else word(len(download)) + download) + spelled


# --- What callers ask and are answered -------------------------------------------------------------------------------


def request_of(procedure, given, upload):
    """The bytes of a request for a JSON array of its IN and INOUT values, with an upload or without one."""
    asked = procedure.asked()
    if not isinstance(given, list) or len(given) != len(asked):
        raise ValueError
    spelled = word(procedure.opcode) + b"".join(
        kind.spelling(kind.from_json(it)) for kind, it in zip(asked.values(), given))
    if len(spelled) > MOST_STREAM:
        raise ValueError
    return spelled + (b"" if upload is None else word(len(upload)) + upload)


def reply_text(procedure, reply, has_download):
    """What a reply says, or -451 where it isn't spelled; bytes behind the values are ignored."""
    reader = Reader(bytes(reply))
    try:
        download = b""
        if has_download:
            size = reader.number(MOST_UPLOAD)
            download = reader.data[4:4 + size]
            reader.at += size
            if reader.at > len(reader.data):
                raise Short
        values = [kind.to_json(kind.read(reader)) for kind in procedure.returned().values()]
    except (Short, Bad):
        return f"bad {UNMARSHAL}"
    return f"ok {json_text(values)}" + (f" down {download.hex() or '-'}" if has_download else "")
