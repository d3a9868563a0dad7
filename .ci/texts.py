"""What the printed documents share: docs/meanings.tsv, cells of tables, and the comparison of a page with its file."""
import difflib
import pathlib
import sys

from sources import top


def meanings():
    """What docs/meanings.tsv says: of clauses, by crate, function and label; and the notes of crates. A line has four
    fields: crate, function, label and words. Without function and label it is a note of its crate; the function `*`
    stands for each function with that label of which no line speaks."""
    said, notes = {}, {}
    for number, line in enumerate((top / "docs" / "meanings.tsv").read_text().splitlines(), 1):
        if not line or line.startswith("#"):
            continue
        fields = line.split("\t")
        if len(fields) != 4 or not fields[3].strip():
            sys.exit(f"docs/meanings.tsv:{number}: a line has crate, function, label and words, with tabs between them")
        crate, name, label, words = fields
        if not name and not label:
            notes.setdefault(crate, []).append(words)
        elif (crate, name, label) in said:
            sys.exit(f"docs/meanings.tsv:{number}: this clause has a line already")
        else:
            said[crate, name, label] = words
    return said, notes


def cell(words):
    """Words as a cell of a table."""
    return " ".join(words.split()).replace("|", "\\|")


def differs(path, text, script):
    """Writes a page where the script was asked to; else tells where its file differs. Whether it does."""
    if sys.argv[1:] == ["--write"]:
        path.write_text(text)
        return False
    if sys.argv[1:]:
        sys.exit(f"usage: {pathlib.Path(script).name} [--write]")
    there = path.read_text() if path.exists() else ""
    changes = difflib.unified_diff(there.splitlines(), text.splitlines(), path.name, "the sources", n=0, lineterm="")
    changes = list(changes)
    if changes:
        print("\n".join(changes[:40]))
        print(f"{path.relative_to(top)} isn't what the sources say: run .ci/{pathlib.Path(script).name} --write")
    return bool(changes)
