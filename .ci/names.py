#!/usr/bin/env python3
"""Looks up each name in backticks, each path and each link of README.md, docs/*.md and their like in the repository.

A name is there where the sources declare it (a function, a type, a field, a clause, a definition, a lemma), where it is
a file, a crate, an option or a word of a text that the sources read or print, or where .ci/names.txt has it: that has
names of other programs, of systems and of standards. Also looks whether docs/ARCHITECTURE.md's table is crates.txt.
"""
import re
import subprocess
import sys

sys.dont_write_bytecode = True  # a check leaves nothing in the repository

from sources import rows_of_crates, top

PRINTED = {"docs/PROVED.md", "docs/DEFINITIONS.md"}  # by scripts, from the sources themselves
NAME = r"[^\W\d]\w*"
PATH = r"[\w.-]+\.(?:rt|antt|md|py|sh|txt|tsv|plan|trace|script|xg|table|edit|c|h|x|awk|svg)"
ANY = re.compile(r"\b(?:CRATE|NAME|DIR)\b")  # a word of a path that stands for any
READ = (".c", ".h", ".awk", ".sh", ".py", ".xg", ".x", ".script", ".plan", ".trace", ".table", ".txt", "/run", "/rx")
RATTLE = re.compile(
    rf"\b(?:fn|struct|enum|trait|type|const|static|mod|ensures\*?|requires|ghost) ({NAME})"
    rf"|^ +(?:pub )?({NAME})(?::|,$| \{{|\()", re.M)
LOGIC = re.compile(r"^ *(?:(?:abbrev|unfoldable|pub|record|data|lemma) )*([^\s:(){}]+)(?: [^:\n]*)? :", re.M)


def files():
    """The files of the repository, and the folders that they are in."""
    listed = subprocess.run(["git", "ls-files", "-co", "--exclude-standard"], cwd=top, capture_output=True, text=True,
                            check=True)
    there = {path for path in listed.stdout.splitlines() if (top / path).exists()}
    return there | {path.rsplit("/", at)[0] for path in there for at in range(1, path.count("/") + 1)}


def words_in(path):
    """The names that a file declares, and the words of its texts; of a file that isn't Rattle's all its words."""
    if path.endswith((".rt", ".antt")):
        text = (top / path).read_text()
        found = RATTLE.findall(text) if path.endswith(".rt") else [(name,) for name in LOGIC.findall(text)]
        words = {word for names in found for word in names}
        words.add(path.rsplit("/", 1)[-1].rsplit(".", 1)[0])
        for literal in re.findall(r'"((?:[^"\\]|\\.)*)"', text):
            words.update(re.findall(r"[\w-]+", literal))
        return words
    return set(re.findall(NAME, (top / path).read_text(errors="replace"))) if f"/{path}".endswith(READ) else set()


def others():
    """The names of .ci/names.txt."""
    lines = (top / ".ci" / "names.txt").read_text().splitlines()
    return {line for line in lines if line and not line.startswith("#")}


def anchors_of(path):
    """The anchors of a page: those of its headings, and those that it has by itself."""
    text = (top / path).read_text()
    heads = (re.sub(r"\[([^]]*)\]\([^)]*\)", r"\1", head) for head in re.findall(r"^#+ (.*)", text, flags=re.M))
    made = {re.sub(r"[^\w\- ]", "", head.lower()).replace(" ", "-") for head in heads}
    return made | set(re.findall(r'<a id="([^"]*)">', text))


def path_from(page, path):
    """A path of a page as one of the repository."""
    parts = page.split("/")[:-1]
    for part in path.split("/"):
        if part == "..":
            parts = parts[:-1]
        elif part not in (".", ""):
            parts.append(part)
    return "/".join(parts)


class Names:
    """What is there."""

    def __init__(self):
        self.files = files()
        self.others = others()
        self.names = set(re.findall(r"\w+", (top / "crates.txt").read_text()))
        for path in self.files:
            if (top / path).is_file() and path not in PRINTED:
                self.names |= words_in(path)

    def has_path(self, page, word):
        """Whether a path is there: from the top, from the page's folder, or as the end of one."""
        word = ANY.sub("*", word.rstrip("/").removeprefix("./"))
        if "*" in word:
            pattern = re.compile(re.escape(word).replace(r"\*", "[^/]*") + "$")
            return any(pattern.match(path) for path in self.files)
        if word in self.files or path_from(page, word) in self.files:
            return True
        return any(path.endswith(f"/{word}") for path in self.files)

    def has(self, page, span):
        """Whether what stands in backticks is there, so far as it is a name, a path, or a command with some."""
        if span in self.others:
            return True
        words = span.split()
        if len(words) > 1:
            return all(self.has(page, word) for word in words if re.fullmatch(r"--[a-z]+|\.?\w[\w.-]*/[\w./-]+", word))
        if re.fullmatch(r"--[a-z-]+(?:=.*)?", span):
            return span[2:].split("=")[0] in self.names
        if "/" in span or re.fullmatch(PATH, span):
            return self.has_path(page, span)
        if re.fullmatch(rf"{NAME}(?:(?:::|\.){NAME})*", span):
            return all(part in self.names or part in self.others for part in re.split(r"::|\.", span))
        if re.fullmatch(r"[a-z0-9]+(?:-[a-z0-9]+)+", span):
            return any(self.has_path(page, f"{span}.{end}") for end in ("plan", "script", "xg")) or span in self.names
        return True


def lost_in(names, anchors, page):
    """What a page names that isn't there."""
    fenced = False
    for number, line in enumerate((top / page).read_text().splitlines(), 1):
        if line.startswith("```"):
            fenced = not fenced
        elif fenced:
            for path in re.findall(r"(?<![\w/.])((?:examples|interop|bench|docs|crates|tools|\.ci)/[\w./-]+)", line):
                if not names.has_path(page, path):
                    yield f"{page}:{number}: {path} isn't there"
        else:
            for span in re.findall(r"(?<!`)`([^`]+)`(?!`)", line):
                if not names.has(page, span):
                    yield f"{page}:{number}: `{span}` isn't there"
            for target in re.findall(r"\]\((?![a-z]+:)([^)\s]+)\)", line):
                path, _, anchor = target.partition("#")
                there = path_from(page, path) if path else page
                if there not in names.files:
                    yield f"{page}:{number}: the link to {target} leads to no file"
                elif anchor and anchor not in anchors.get(there, ()):
                    yield f"{page}:{number}: the link to {target} leads to no place of the page"


def lost():
    """What the pages name that isn't there."""
    names = Names()
    pages = sorted(path for path in names.files if path.endswith((".md", "meanings.tsv")))
    anchors = {page: anchors_of(page) for page in pages}
    for page in pages:
        if page not in PRINTED:
            yield from lost_in(names, anchors, page)


def wrong_rows():
    """Where the table of crates isn't crates.txt."""
    rows = dict(re.findall(r"^(\w+):([^#\n]*)", (top / "crates.txt").read_text(), flags=re.M))
    seen = [crate for crates, _, _ in rows_of_crates() for crate in crates]
    for crate in sorted(set(rows) ^ set(seen)):
        yield f"docs/ARCHITECTURE.md: {crate} is in {'crates.txt' if crate in rows else 'the table'} alone"
    for crates, _, stands_on in rows_of_crates():
        listed = {use for crate in crates for use in rows.get(crate, "").split() if use in rows and use not in crates}
        for use in sorted(listed ^ set(re.findall(r"`(\w+)`", stands_on))):
            where = "crates.txt" if use in listed else "the table"
            yield f"docs/ARCHITECTURE.md: {', '.join(crates)}: {where} alone says that it stands on {use}"


if __name__ == "__main__":
    found = [*lost(), *wrong_rows()]
    print("\n".join(found), end="\n" if found else "")
    sys.exit(bool(found))
