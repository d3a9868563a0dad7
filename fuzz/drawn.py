"""What the fuzzer draws: interface files, scripts, plans, datagrams and words, mostly well formed (docs/FORMATS.md,
docs/COMMANDS.md), and then spoilt in a few places or in none."""
import json
import string
import struct

EDGES = (0, 1, 2, 3, 4, 31, 32, 33, 63, 64, 65, 127, 128, 255, 256, 1411, 1412, 1413, 1444, 1445, 4095, 4096, 65_535,
         65_536, 65_537, 2**31 - 1, 2**31, 2**32 - 2, 2**32 - 1, 2**32, 2**40, 2**62 - 1, 2**62, 2**63, 2**64 - 1, 2**64)
ODD = ("", " ", "-", "--", "-1", "+1", "1.5", "0x", "08", "é", "\0", "\r", "\t", "\ufeff", "[]", "{", "}", ";", "/*",
       "*/", "%", "#", "9" * 400, "a" * 5_000, "#0", "@0", "%0", "-0", "1e400", "\"", "\\ud800", "null")
INTEGERS = {"int": 32, "short": 16, "char": 8, "hyper": 64, "afs_int32": 32, "long": 32}
UNSIGNED = {"unsigned int": 32, "u_short": 16, "u_char": 8, "unsigned hyper": 64, "afs_uint32": 32, "u_long": 32}


def number(draw, most=2**32 - 1):
    """A small number, one at an edge, or any up to a greatest one."""
    way = draw.random()
    if way < 0.6:
        return draw.randrange(min(most, 20) + 1)
    if way < 0.85:
        return draw.choice([it for it in EDGES if it <= most])
    return draw.randint(0, most)


def name(draw):
    return draw.choice(string.ascii_letters) + "".join(draw.choices(string.ascii_letters + "_0123456789", k=draw.randrange(6)))


def octets(draw, most=40):
    return draw.randbytes(draw.randrange(most + 1))


def written(draw, some):
    """Bytes as a plan or a script writes them: repeated, none, or in hex."""
    if draw.random() < 0.2:
        return f"{number(draw, 70_000)}*{draw.randrange(256):02x}"
    return some.hex() or "-"


def spoilt(draw, text):
    """A text, as it is in half of the cases, else with up to four places changed."""
    for _ in range(draw.choice((0, 0, 0, 1, 1, 4))):
        at = draw.randrange(len(text) + 1)
        end = min(len(text), at + draw.choice((0, 1, 1, 2, 8, 40)))
        words = text.split(" ")
        way = draw.randrange(6)
        if way == 0:
            text = text[:at] + text[end:]
        elif way == 1:
            text = text[:at] + text[at:end] * draw.choice((2, 3, 50)) + text[end:]
        elif way == 2:
            text = text[:at] + draw.choice(ODD) + text[end:]
        elif way == 3:
            words[draw.randrange(len(words))] = str(draw.choice(EDGES))
            text = " ".join(words)
        elif way == 4:
            words[draw.randrange(len(words))] = words[draw.randrange(len(words))]
            text = " ".join(words)
        else:
            text = text[:at]
    return text


def spoilt_bytes(draw, some):
    """As spoilt, of bytes: with bits turned, cut, or longer."""
    for _ in range(draw.choice((0, 0, 0, 1, 3))):
        at, way = draw.randrange(len(some) + 1), draw.randrange(4)
        if way == 0 and at < len(some):
            some = some[:at] + bytes([some[at] ^ 1 << draw.randrange(8)]) + some[at + 1:]
        elif way == 1:
            some = some[:at]
        elif way == 2:
            some = some[:at] + octets(draw) + some[at:]
        elif at < len(some):
            some = some[:at] + bytes([draw.choice((0, 1, 127, 128, 255))]) + some[at + 1:]
    return some


# --- Interfaces ------------------------------------------------------------------------------------------------------


class Interface:
    """Types and procedures, with the text that defines them, and values that fit as JSON."""

    def __init__(self, draw):
        self.draw, self.values, self.lines, self.procs = draw, {}, [], []
        for at in range(draw.randrange(6)):
            self.add_type(f"{name(draw)}{at}")
        for at in range(draw.randrange(1, 4)):
            self.add_proc(f"P{at}{name(draw)}", at)
        draw.shuffle(self.lines)
        self.text = "\n".join(self.lines) + draw.choice(("\n", "", "\n\n"))

    def base(self):
        """The text of a type, and what draws a value of it."""
        draw, way = self.draw, self.draw.randrange(4)
        if way == 0 and self.values:
            named = draw.choice(list(self.values))
            return named, self.values[named]
        if way == 1:
            return "bool", lambda: draw.random() < 0.5
        if way == 2:
            kind = draw.choice(list(UNSIGNED))
            return kind, lambda: number(draw, 2**UNSIGNED[kind] - 1)
        kind = draw.choice(list(INTEGERS))
        half = 2 ** (INTEGERS[kind] - 1)
        return kind, lambda: number(draw, half - 1) - draw.choice((0, half))

    def declared(self, field):
        """A declaration of that name, and what draws a value of it."""
        draw, way, size = self.draw, self.draw.randrange(8), self.draw.randrange(1, 6)
        kind, value = self.base()
        if way == 0:
            return f"opaque {field}[{size}]", lambda: draw.randbytes(size).hex()
        if way == 1:
            return f"opaque {field}<{size}>", lambda: octets(draw, size).hex()
        if way == 2:
            return f"string {field}<{size}>", lambda: "".join(draw.choices("ab\u00e9", k=size))
        if way == 3:
            return f"{kind} {field}[{size}]", lambda: [value() for _ in range(size)]
        if way == 4:
            return f"{kind} {field}<{size}>", lambda: [value() for _ in range(draw.randrange(size + 1))]
        if way == 5:
            return f"{kind} *{field}", lambda: [value() for _ in range(draw.randrange(2))]
        return f"{kind} {field}", value

    def add_type(self, named):
        draw, way = self.draw, self.draw.randrange(4)
        if way == 0:
            text, value = self.declared(named)
            self.lines.append(f"typedef {text};")
        elif way == 1:
            members = [f"{named}_{it}" for it in range(draw.randrange(1, 4))]
            self.lines.append(f"enum {named} {{ {', '.join(f'{it} = {at * 3}' for at, it in enumerate(members))} }};")
            value = lambda: draw.choice(members)
        elif way == 2:
            fields = {f"f{it}": self.declared(f"f{it}") for it in range(draw.randrange(1, 4))}
            self.lines.append(f"struct {named} {{ {' '.join(f'{text};' for text, _ in fields.values())} }};")
            value = lambda: {it: one() for it, (_, one) in fields.items()}
        else:
            arms = {it * 2: self.declared("arm") for it in range(draw.randrange(1, 3))}
            cases = "".join(f" case {it}: {text};" for it, (text, _) in arms.items())
            self.lines.append(f"union {named} switch (int t) {{{cases} default: void; }};")

            def value():
                tag = draw.choice([*arms, 99])
                return {"case": tag, "value": arms[tag][1]() if tag in arms else None}
        self.values[named] = value

    def add_proc(self, named, opcode):
        draw, split = self.draw, self.draw.random() < 0.4
        arguments = []
        for at in range(draw.randrange(4)):
            way, (text, value) = draw.choice(("IN", "OUT", "INOUT")), self.declared(f"a{at}")
            # (a star in an argument has no bytes)
            arguments.append((way, f"a{at}", text.replace("*", ""), value if "*" not in text else None))
        listed = ", ".join(f"{way} {text}" for way, _, text, _ in arguments)
        self.lines.append(f"{named}({listed}){' split' if split else ''} = {opcode};")
        self.procs.append((named, split, arguments))

    def given(self, arguments):
        """The array of values for a call's IN and INOUT arguments; one of an argument with a star mostly doesn't fit."""
        some = [value() if value else 0 for way, _, _, value in arguments if way != "OUT"]
        return json.dumps(some, separators=(",", ":"), ensure_ascii=self.draw.random() < 0.5).replace(" ", "\\u0020")

    def script(self):
        draw, lines = self.draw, []
        for named, split, arguments in self.procs:
            if draw.random() < 0.2:
                continue
            lines.append(f"on {named}")
            lines += [f"wait {number(draw, 1000) if draw.random() < 0.2 else draw.randrange(3)}"] * (draw.random() < 0.3)
            is_up, is_down = split and draw.random() < 0.5, split and draw.random() < 0.5
            lines += ["up"] * is_up + ["down"] * is_down
            for way, field, _, value in arguments:
                said = json.dumps(value() if value else 0, separators=(",", ":")).replace(" ", "\\u0020")
                if way != "OUT" and draw.random() < 0.2:
                    lines.append(f"when {field} {said} {draw.choice((1, -1, 49733377, -(2**31)))}")
                if way != "IN" and draw.random() < 0.5:
                    lines.append(f"set {field} {said}")
                if draw.random() < 0.2:
                    other = draw.choice(arguments)[1]
                    lines.append(draw.choice((f"copy {field} {other}", f"size {field} {other}", f"count {field}")))
            lines += [f"fail {draw.choice((7, -453, 0))}"] * (draw.random() < 0.1)
            lines += [draw.choice(("echo", f"send {written(draw, octets(draw))}"))] * (is_down and draw.random() < 0.8)
        return "\n".join(lines) + "\n" * bool(lines)


# --- Datagrams -------------------------------------------------------------------------------------------------------


def datagram(draw, epochs=(1, 2), is_client=True):
    """A message's bytes (docs/FORMATS.md, "Packets"), of a few connections, channels and calls."""
    kind = draw.choice((1, 1, 1, 2, 2, 3, 4, 5, 6, 7, draw.randrange(256)))
    flags = is_client | draw.choice((0, 2, 4, 6, 0x20, draw.randrange(256)))
    header = struct.pack(">IIIIIBBBBHH", draw.choice(epochs), 4 * draw.randrange(3) + draw.randrange(4), number(draw, 4),
                         number(draw) if kind == 1 else 0, number(draw), kind, flags, 0, draw.choice((0, 0, 0, 2)), 0,
                         draw.choice((1, 1, 1, 0, 52)))
    body = octets(draw, draw.choice((8, 60, 1444)))
    if kind == 2:
        marks = draw.choice((0, 0, 1, 3, 32, 255))
        body = struct.pack(">HHIIIBB", 0, 0, number(draw), number(draw), number(draw), draw.randrange(12), marks)
        body += bytes(draw.choices((0, 1, 1, 2), k=marks)) + bytes(3)
        body += struct.pack(">IIII", 1444, 1444, number(draw, 300), number(draw, 20))[:draw.choice((16, 16, 12, 5, 0))]
    elif kind == 4:
        body = struct.pack(">I", number(draw)) + body[:draw.choice((0, 0, 4))]
    elif kind in (6, 7):
        body = octets(draw, draw.choice((32, 48, 80)))
    return spoilt_bytes(draw, header + body)


# --- Plans -----------------------------------------------------------------------------------------------------------


def plan(draw, interface):
    """Lines of a plan, most of which name what the lines before it could have made."""
    hosts = ["10.0.0.1:7000", "10.0.0.2:7001", "10.0.0.3:7001", "0.0.0.0:0", "255.255.255.255:65535"]
    key = draw.choice(("", "", "", f" key={'5a' * 32}"))
    nonce = f" nonce={number(draw, 2**64 - 1)}" if key and draw.random() < 0.3 else ""
    limits = "".join(f" {it}={most}" for it, most in (("conns", draw.choice((1, 2, 7, 1024))), ("calls", draw.choice((1, 3, 64))),
                                                      ("slots", draw.choice((4, 100, 2048))), ("window", draw.choice((32, 64, 255))))
                     if draw.random() < 0.2)
    clients = draw.choice((0, 1, 1, 1, 2, 3))
    lines = [f"server {hosts[0]}{key}{nonce}{limits}"]
    lines += [f"client {draw.choice(hosts[1:3]) if draw.random() < 0.3 else f'10.0.0.{it + 2}:7001'} epoch={draw.choice((1, 1, 2, 2**31))}{key}{limits}"
              for it in range(clients)]
    lines += [f"connect c{it + 1}{draw.choice(('', '', ' first=4294967290'))}" for it in range(clients) if draw.random() < 0.9]
    count = {"#": 0, "@": 0, "%": 0}
    nodes = ["s"] + [f"c{it + 1}" for it in range(clients)]

    def of(sign):
        return f"{sign}{draw.randrange(1, count[sign] + 1) if count[sign] and draw.random() < 0.95 else number(draw, 9)}"

    for _ in range(draw.choice((3, 10, 30, 80))):
        node, client = draw.choice(nodes), draw.choice(nodes[1:] or ["c1"])
        way = draw.randrange(20)
        if way == 0:
            lines.append(f"call {client} {draw.choice((4, 4, 8, 12, 5))}")
            count["#"] += 1
        elif way < 4:
            lines.append(draw.choice((f"write {of('#')} {written(draw, octets(draw))}", f"shut {of('#')}",
                                      f"read {of('#')} {draw.choice((1, 4096, 16777216))}", f"ask {of('#')}",
                                      f"cancel {of('#')} {draw.choice((1, -2, 2147483647))}")))
        elif way < 6:
            lines.append("accept")
            count["@"] += 1
        elif way < 9:
            lines.append(draw.choice((f"read {of('@')} {draw.choice((1, 4096, 16777216))}", f"write {of('@')} {written(draw, octets(draw))}",
                                      f"finish {of('@')} {draw.choice((0, 0, 5, -2147483648))}")))
        elif way < 12:
            lines.append(f"poll {node}")
            count["%"] += 1
        elif way < 14:
            lines.append(f"deliver {of('%')}")
        elif way == 14:
            lines.append(f"forge {node} {draw.choice(hosts)} {datagram(draw, is_client=node == 's').hex() or '-'}")
        elif way == 15:
            lines.append(draw.choice((f"clock {node} {number(draw, 2**62)}", f"clock all {number(draw, 100_000)}", f"jumbo {of('%')} {of('%')}")))
        elif way < 18 and interface:
            named, split, arguments = draw.choice(interface.procs)
            up = f" up={written(draw, octets(draw))}" if split and draw.random() < 0.5 else ""
            down = " down" if split and draw.random() < 0.5 else ""
            lines.append(f"invoke {client} {draw.choice((4, 4, 8))} {named}{up}{down} {interface.given(arguments)}")
            count["#"] += 1
        else:
            lines.append(draw.choice((f"turn {node}", "round", f"rounds {number(draw, 300)}", f"lossy {number(draw)} {number(draw, 100)}")))
    return "\n".join(lines) + "\n"


# --- Words -----------------------------------------------------------------------------------------------------------

OPTIONS = {
    "sim": ("--xg", "--script"),
    "compile": (),
    "serve": ("--at", "--service", "--for", "--turns", "--conns", "--calls", "--slots", "--window", "--key", "--nonce", "--jumbo"),
    "call": ("--to", "--epoch", "--from", "--service", "--turns", "--up", "--down", "--window", "--key", "--jumbo"),
    "load": (), "peers": (), "help": (), "": (),
}
HOSTS = ("--at", "--to", "--from")
# No host of this machine, so it can't be bound; and one that nobody answers at.
UNBOUND, SILENT = "192.0.2.1:9", "127.0.0.1:9"


def load_words(draw):
    """The words of a load of a few calls, with one of them spoilt in some cases."""
    some = [str(number(draw, 2**64 - 1)), str(draw.choice((1, 1, 2, 3, 5, 9, 17)))]
    way = draw.randrange(12)
    if way == 0:
        some[draw.randrange(2)] = draw.choice(ODD)
    elif way == 1:
        some[1] = str(draw.choice((0, 10_001, 65_536, 2**32, 2**32 + 1, 2**64, 2**64 + 1)))
    elif way == 2:
        some[0] = str(draw.choice((2**64, 2**64 + 1, 2**128)))
    elif way == 3:
        some = some[1:draw.choice((1, 2))]
    elif way == 4:
        some.append(draw.choice(("1", "", "-", "none")))
    elif way == 5:
        some = ["0" * draw.choice((1, 30)) + it for it in some]
    return ["load", *some]


def words(draw, files):
    """Words of a command. It binds no host but a loopback one, and sends to no other."""
    command = draw.choice(list(OPTIONS))
    some = [command] + [draw.choice([*files, "none", "-", "[]", "P0"]) for _ in range(draw.choice((0, 1, 1, 2, 3)))]
    if command == "load" and draw.random() < 0.9:
        some = load_words(draw)
    for option in draw.sample(OPTIONS[command], draw.randrange(len(OPTIONS[command]) + 1)):
        fit = [UNBOUND if option in ("--at", "--from") else SILENT] * 4 if option in HOSTS else []
        said = draw.choice([*fit, *files, "yes", "256.0.0.1:7", str(draw.choice(EDGES)), *ODD[:12]])
        some += [f"{option}={said}"] if draw.random() < 0.3 else [option, said]
    if draw.random() < 0.3:
        some.insert(draw.randrange(len(some) + 1), draw.choice(("--", "--x", "-h", *ODD[:12])))
    return [it.replace("\0", "") for it in some]
