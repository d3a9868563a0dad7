#!/usr/bin/env python3
"""Looks whether the sources keep the rules of CONTRIBUTING.md that can be read off them: how long a line is, how many
arguments a function has, how many files a folder has, and that a lemma stands once.

A lemma stands twice where two files have a declaration of one type, whatever its variables are called, and one of the
files could import it from the other: it is in a crate below, or in the same crate and doesn't build on it.
"""
import collections
import re
import sys

sys.dont_write_bytecode = True  # a check leaves nothing in the repository

from sources import listed_crates, top

COLUMNS = 120
ARGUMENTS = 6
FILES = 40
LINES = 5  # a shorter lemma may stand where it is used
GIVEN = {  # functions whose arguments the specification gives, and one whose plant needs the seventh
    "rx_top/src/top.rt rx_main", "rx_peer/src/peer.rt make", "xdr_code/src/reading.rt elements_in",
}
LEFT = {  # what doesn't keep a rule yet: whoever changes one of these crates next mends it
    "xdr_json/src/judging.rt judge_list", "xdr_json/src/judging.rt judge_union", "xdr_json/src/judging.rt judge_arm",
    "rx_stage/src/runs.rt run_lines", "rx_wire_loop/src/calling.rt call_from", "rx_wire_loop/src/ports.rt pass_on",
    "rx_wire_loop/src/serving.rt serve", "rx_wire_loop/src/serving.rt serve_on",
    "rx_between/proofs/WholeAcked.antt found", "rx_node/proofs/Steps/ReadSteps.antt read-takes",
    "rx_stage/proofs/Done.antt done_ended", "rx_wire_loop/proofs/Telling.antt gained_both",
}
NAME = r"[A-Za-z_][\w'-]*"
OPEN, CLOSE = "([{⟨", ")]}⟩"


def sources(ending):
    """The files of this ending that crates have, each with its lines."""
    for path in sorted((top / "crates").rglob(f"*{ending}")):
        if "out" not in path.parts:
            yield path.relative_to(top / "crates"), path.read_text().split("\n")


def long_lines():
    """Lines that are too long, but those that hold a literal or an attribute, which can't be broken."""
    for ending in (".rt", ".antt"):
        for path, lines in sources(ending):
            for at, line in enumerate(lines, 1):
                if len(line) > COLUMNS and '"' not in line and not line.strip().startswith("#[") and "Goals." not in line:
                    yield f"{path}:{at}: {len(line)} columns, and not {COLUMNS} at most"


def full_folders():
    """Folders with too many files."""
    count = collections.Counter(path.parent for ending in (".rt", ".antt") for path, _ in sources(ending))
    for folder, files in count.items():
        if files > FILES:
            yield f"{folder}: {files} files, and not {FILES} at most"


def parts_of(text, mark):
    """The parts of a text between these marks outside of brackets."""
    parts, depth, now = [], 0, ""
    for letter in text:
        depth += (letter in OPEN + "<") - (letter in CLOSE + ">" and now[-1:] != "-")
        if letter == mark and depth == 0:
            parts.append(now)
            now = ""
        else:
            now += letter
    return [part for part in [*parts, now] if part.strip()]


def wide_functions():
    """Functions with too many arguments, beside the value that they are called on."""
    for path, lines in sources(".rt"):
        if re.search(r"_(tests|bench)$", path.parts[0]) or "tests" in path.stem or "tests" in path.parts:
            continue
        text = "\n".join(lines)
        for found in re.finditer(rf"\bfn ({NAME})(?:<[^(]*>)?\(", text):
            at, depth = found.end(), 1
            while depth:
                depth += (text[at] in "([{") - (text[at] in ")]}")
                at += 1
            arguments = parts_of(text[found.end():at - 1], ",")
            count = sum("self" not in it.split(":")[0].split() + it.split() for it in arguments)
            if count > ARGUMENTS and f"{path} {found[1]}" not in GIVEN | LEFT:
                yield f"{path}: {found[1]} has {count} arguments, and not {ARGUMENTS} at most"


class Module:
    """A file of proofs: its crate, its name, the full names of what it imports, the modules that it imports from, and
    its own lemmas, each with its type and its number of lines."""

    def __init__(self, path, lines):
        self.path, self.crate = path, path.parts[0]
        self.name = "Rattle." + ".".join(path.with_suffix("").parts)
        self.imports, self.uses, self.lemmas = {}, set(), {}
        for line in lines:
            many = re.match(r"(?:pub )?use ([\w.']+)\.\{(.*)\}$", line)
            one = re.match(r"(?:pub )?use ([\w.']+) as (\w+)$", line)
            if many:
                self.uses.add(many[1])
                for it in many[2].split(", "):
                    self.imports[it.split(" as ")[-1]] = f"{many[1]}.{it.split(' as ')[0]}"
            elif one:
                self.uses.add(one[1])
                self.imports[one[2]] = one[1]
        self.own = {found[1] for line in lines
                    if (found := re.match(r"(?:(?:abbrev|unfoldable|pub|record|data) )*([^\s:(){}]+)(?: .*)? :", line))}
        at = 0
        while at < len(lines):
            found = re.match(r"(?:pub )?([^\s:(){}]+) : (.*)$", lines[at])
            if not found:
                at += 1
                continue
            begin, text, at = at, found[2], at + 1
            while at < len(lines) and re.match(r"\s+\S", lines[at]):
                text, at = f"{text} {lines[at].strip()}", at + 1
            while at < len(lines) and (lines[at].startswith((f"{found[1]} ", " ", "unfolding ", "]", "}", ")"))):
                at += 1
            self.lemmas[found[1]] = (self.plain(text), at - begin)

    def plain(self, text):
        """A type with its variables numbered and its names in full."""
        bound = " ".join(re.findall(r"[({]([^(){}:]+?) : ", text) + re.findall(r"λ ([^.()]+)\.", text)).split()
        number = {name: f"v{at}" for at, name in enumerate(dict.fromkeys(bound))}

        def full(found):
            head, dot, rest = found[0].partition(".")
            if found.start() and text[found.start() - 1] == ".":
                return found[0]
            own = f"{self.name}.{head}" if head in self.own else head
            return number.get(head, self.imports.get(head, own)) + dot + rest

        plain = re.sub(rf"{NAME}(?:\.{NAME})*", full, text)
        return plain.replace("Rattle.std.proofs.Common.", "").replace("Rattle.std.specs.Prelude.", "")


def twice():
    """Lemmas that stand in two files, of which one could import it from the other."""
    below = {crate: set(re.search(rf"^{crate}:(.*)$", (top / "crates.txt").read_text(), flags=re.M)[1].split())
             for crate in listed_crates()}
    modules = [Module(path, lines) for path, lines in sources(".antt")
               if "proofs" in path.parts and path.stem not in ("Answers", "Goals", "Given", "Invariants")]
    named, known, stands = {it.name: it for it in modules}, {}, collections.defaultdict(list)

    def reached(module):
        if module.name not in known:
            known[module.name] = {module.name}
            for use in module.uses & named.keys():
                known[module.name] = known[module.name] | reached(named[use])
        return known[module.name]

    for module in modules:
        for lemma, (plain, lines) in module.lemmas.items():
            stands[plain].append((module, lemma, lines))
    for places in stands.values():
        for module, lemma, lines in places:
            for other, name, _ in places:
                if f"{module.path} {lemma}" in LEFT:
                    break
                same = module.crate == other.crate and module is not other and module.name not in reached(other)
                if lines >= LINES and (other.crate in below[module.crate] or same):
                    yield f"{module.path}: {lemma} is {name} of {other.path}"
                    break


def main():
    found = [line for rule in (long_lines, full_folders, wide_functions, twice) for line in rule()]
    print("\n".join(found) or "the sources keep the house's rules")
    sys.exit(bool(found))


main()
