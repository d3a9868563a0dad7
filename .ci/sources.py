"""What the checks of the documents read in the sources: the functions with their clauses, and the definitions."""
import pathlib
import re

top = pathlib.Path(__file__).resolve().parent.parent


class Clause:
    """A clause of a contract: its kind (`ensures`, `requires`), its label or "", the comment above it and its text."""

    def __init__(self, kind, label, comment, text):
        self.kind, self.label, self.comment, self.text = kind, label, comment, text


class Function:
    """A function: its crate, its name behind its type's, its file, its doc comment, its clauses, the trait that it is
    of, whether it is a law (a contract with an empty body), whether it has the word `pub`, and whether the crate's
    users see it."""

    def __init__(self, **parts):
        self.__dict__.update(parts)

    def promises(self):
        return [clause for clause in self.clauses if clause.kind == "ensures"]

    def conditions(self):
        return [clause for clause in self.clauses if clause.kind == "requires"]


def listed_crates():
    """The crates of crates.txt."""
    return re.findall(r"^(\w+):", (top / "crates.txt").read_text(), flags=re.M)


def rows_of_crates():
    """The rows of docs/ARCHITECTURE.md's table of crates: its crates, what they own, and what it says they stand on."""
    text = (top / "docs" / "ARCHITECTURE.md").read_text()
    for line in re.search(r"^\| crate \|.*\n\|---.*\n((?:\|.*\n)*)", text, flags=re.M)[1].splitlines():
        cells = [cell.strip() for cell in line.split("|")[1:-1]]
        yield re.findall(r"`(\w+)`", cells[0]), cells[1], cells[2]


def table_of_crates():
    """The same, each crate by itself, with what it owns."""
    return [(crate, owns) for crates, owns, _ in rows_of_crates() for crate in crates]


def indent_of(line):
    return len(line) - len(line.lstrip(" "))


def doc_above(lines, at):
    """The doc comment above a line, as one text."""
    words = []
    while at > 0 and lines[at - 1].strip().startswith(("///", "#[")):
        at -= 1
        if lines[at].strip().startswith("///"):
            words.append(lines[at].strip()[3:].strip())
    return " ".join(reversed(words)).strip()


def clause_at(lines, at):
    """The kind, label and text of the clause that begins at a line, and the index behind it; None where none does."""
    found = re.match(r" *(ensures|requires)\*?(?: (\w+))? \{", lines[at])
    if not found:
        return None
    text, end = lines[at][found.end():], at + 1
    while text.count("{") >= text.count("}"):
        text, end = text + " " + lines[end].strip(), end + 1
    return found[1], found[2] or "", text, end


def contract_at(lines, at):
    """The clauses of the function that begins at a line, and whether its body is empty."""
    depth, clauses, comment, is_open = indent_of(lines[at]), [], "", False
    while at < len(lines):
        line = lines[at]
        if indent_of(line) == depth and line.endswith(("{", "}", ";")):
            return clauses, line.strip() == "{}" and bool(clauses)
        clause = clause_at(lines, at) if indent_of(line) == depth + 4 else None
        if clause:
            kind, label, text, at = clause
            clauses.append(Clause(kind, label, comment, text.rstrip(" ;")[:-1].strip()))
            is_open = False
            if text.endswith(";"):
                return clauses, False
            continue
        if line.strip().startswith("//"):
            comment = (f"{comment} " if is_open else "") + line.strip()[2:].strip()
            is_open = True
        elif not line.strip():
            comment, is_open = "", False
        at += 1
    return clauses, False


HEAD = re.compile(r"(?:pub )?(?:trait|(?:unsafe )?impl)\b")


def owner_at(line):
    """The type and the trait, or None, that the functions behind the head of a trait or an impl are of."""
    trait = re.match(r"(?:pub )?trait (\w+)", line)
    if trait:
        return trait[1], trait[1]
    words = line.split("impl", 1)[1].split("{")[0]
    for _ in range(words.count("<")):
        words = re.sub(r"<[^<>]*>", "", words)
    *of, owner = (re.findall(r"\w+", part)[-1] for part in words.split(" for "))
    return owner, of[0] if of else None


def functions_in(crate, path, exported):
    """The functions of a file."""
    lines = path.read_text().splitlines()
    owner, trait = None, None
    for at, line in enumerate(lines):
        if HEAD.match(line):
            owner, trait = owner_at(line)
        elif line == "}":
            owner, trait = None, None
        found = re.match(r"( *)(?:final )?(pub )?(?:pub\(\w+\) )?(?:const )?fn (\w+)", line)
        if not found or len(found[1]) != (4 if owner else 0):
            continue
        clauses, is_law = contract_at(lines, at)
        is_seen = (owner or found[3]) in exported and (bool(found[2]) or trait is not None)
        yield Function(crate=crate, name=f"{owner}::{found[3]}" if owner else found[3], path=path.relative_to(top),
                       doc=doc_above(lines, at), clauses=clauses, trait=trait, is_law=is_law,
                       has_pub=bool(found[2]), is_public=is_seen)


def exported_by(crate):
    """The names that a crate exports."""
    root = top / "crates" / crate / "src" / "lib.rt"
    text = root.read_text() if root.exists() else ""
    names = set()
    for use in re.findall(r"^pub use ([^;]*);", text, flags=re.M):
        names.update(re.findall(r"\w+", use.split("::", 1)[1]))
    return names


def sources_of(crate):
    """The files of a crate's code without its tests, by their names."""
    root = top / "crates" / crate / "src"
    files, tests = sorted(root.rglob("*.rt"), key=lambda path: path.with_suffix("").parts), set()
    for path in files:
        folder = path.parent if path.stem in ("lib", "main") else path.with_suffix("")
        tests.update(folder / name for name in re.findall(r"#\[cfg\(test\)\]\n *mod (\w+);", path.read_text()))
    return [path for path in files if path.with_suffix("") not in tests and not tests & set(path.parents)]


def functions_of(crate):
    """The functions of a crate, in the order of its files."""
    exported = exported_by(crate)
    for path in sources_of(crate):
        yield from functions_in(crate, path, exported)


class Definition:
    """A public definition of a crate's specs/: its crate, its file, its name, and the sentence above it or ""."""

    def __init__(self, crate, path, name, sentence):
        self.crate, self.path, self.name, self.sentence = crate, path, name, sentence


def comment_above(lines, at):
    """The comment right above a line, as one text."""
    words = []
    while at > 0 and re.match(r" *-- (?!----)", lines[at - 1]):
        at -= 1
        words.append(lines[at].strip()[3:])
    return " ".join(reversed(words))


DEFINES = re.compile(r"( *)(?:(?:abbrev|unfoldable) )*pub (?!use )(?:(?:record|data) )?([^\s:]+)")


def definitions_in(crate, path):
    """The public definitions of a file of specs/, in its order."""
    lines = path.read_text().splitlines()
    depth = 0
    for at, line in enumerate(lines):
        if line and not line.startswith((" ", "--")):
            depth = 2 if re.match(r"(?:\w+ )?mutual$|module _ ", line) else 0
        found = DEFINES.match(line)
        if found and len(found[1]) == depth and not line.startswith("pub mod"):
            yield Definition(crate, path.relative_to(top), found[2], comment_above(lines, at))


def specs_of(crate):
    """The files of a crate's specs/ by their names, each with what it is about and its definitions."""
    for path in sorted((top / "crates" / crate / "specs").rglob("*.antt")):
        lines = path.read_text().splitlines()
        head = next((at for at, line in enumerate(lines) if not line.startswith("-- ")), 0)
        definitions = list(definitions_in(crate, path))
        if definitions:
            yield path.relative_to(top), comment_above(lines, head), definitions
