#!/usr/bin/env python3
"""Prints docs/DEFINITIONS.md: each definition of the crates' specs/ with the sentence above it, from the sources.

Without arguments: tells where docs/DEFINITIONS.md differs, and which definitions have no sentence. With --write: writes
docs/DEFINITIONS.md.
"""
import sys

sys.dont_write_bytecode = True  # a check leaves nothing in the repository

from sources import specs_of, table_of_crates, top
from texts import cell, differs

INTRODUCTION = """\
# The definitions

Printed by `.ci/model.py --write` from the sources; the gate compares. For each crate, in the order of
[ARCHITECTURE.md](ARCHITECTURE.md), the files of its `specs/` with their public definitions, each with its own sentence.
The clauses that cite them are in [PROVED.md](PROVED.md); the ones on which the promises rest are told in
[MODEL.md](MODEL.md), in the order in which they are read best.
"""


def page():
    """The whole page, and the definitions that have no sentence."""
    lines, bare = [INTRODUCTION], []
    for crate, _ in table_of_crates():
        files = list(specs_of(crate))
        if files:
            lines.append(f"## {crate}\n")
        for path, about, definitions in files:
            lines.append(f"### [{crate}, {path.stem}](../{path})\n")
            lines.append((f"{about}\n\n" if about else "") + "| name | what it is |\n|---|---|")
            lines.extend(f"| `{cell(it.name)}` | {cell(it.sentence)} |" for it in definitions)
            lines.append("")
            bare.extend(it for it in definitions if not it.sentence)
    return "\n".join(lines), bare


if __name__ == "__main__":
    text, bare = page()
    for it in bare:
        print(f"{it.path}: no sentence stands above {it.name}")
    sys.exit(differs(top / "docs" / "DEFINITIONS.md", text, __file__) or bool(bare))
