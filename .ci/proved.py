#!/usr/bin/env python3
"""Prints docs/PROVED.md: each public function of each crate with its clauses and what they say, from the sources.

What a clause says is what docs/meanings.tsv says of it, or the comment above it; where there is neither, the doc
comment of its function says it. Without arguments: tells where docs/PROVED.md differs, which lines of
docs/meanings.tsv name no clause, and which public functions have no doc comment. With --write: writes docs/PROVED.md.
"""
import sys

sys.dont_write_bytecode = True  # a check leaves nothing in the repository

from sources import functions_of, table_of_crates, listed_crates, top
from texts import cell, differs, meanings

INTRODUCTION = """\
# What is proved

Printed by `.ci/proved.py --write` from the sources; the gate compares. For each crate, in the order of
[ARCHITECTURE.md](ARCHITECTURE.md): each public function with its conditions and its clauses. Of every function: called
with its conditions met, it has no undefined behaviour, it returns on every input, and its clauses hold.

- A function stands in the file that its name leads to; traits come first and laws last. Its first row has its doc
  comment, and the clauses of which nothing more is said; a further row has clauses of which more is said. A clause
  without a label is called *the clause*.
- *asks* has a condition as the contract has it: what a caller has to show. A function without that row asks nothing.
- A *law* is a function with an empty body: what it says follows from the definitions, and calls do nothing.
- *A step* is a private function of which more is to be said.
- What a trait promises holds of each type that has it; a type's row has what it promises beside that.
- The definitions that clauses cite are in `specs/` of the crate, listed with a sentence each in
  [DEFINITIONS.md](DEFINITIONS.md); the ones on which all rests are told in [MODEL.md](MODEL.md).
"""


def traits_of(crates):
    """The labels that each trait's functions have, by the trait's function."""
    return {it.name: {clause.label for clause in it.promises()}
            for crate in crates for it in functions_of(crate) if it.trait and it.name.startswith(f"{it.trait}::")}


def own_clauses(function, of_traits):
    """The clauses that a function adds to those of its trait, and the name of the trait's function, or None."""
    trait = f"{function.trait}::{function.name.split('::')[-1]}"
    if not function.trait or trait == function.name or trait not in of_traits:
        return function.promises(), None
    return [clause for clause in function.promises() if clause.label not in of_traits[trait]], trait


def words_on(crate, function, clause, said):
    """What is said of a clause beyond the function's doc comment and what is said of its label, or None."""
    if (crate, function.name, clause.label) in said:
        return said[crate, function.name, clause.label]
    if (crate, "*", clause.label) in said or clause.comment.endswith("to the trait's clauses."):
        return None
    return clause.comment or None


def labels(clauses):
    return ", ".join(f"`{clause.label}`" if clause.label else "the clause" for clause in clauses)


def rows_of(crate, function, of_traits, said):
    """The rows of a function."""
    clauses, trait = own_clauses(function, of_traits)
    groups = {}
    for clause in clauses:
        groups.setdefault(words_on(crate, function, clause, said), []).append(clause)
    kind = "law" if function.is_law else "" if function.is_public else "a step"
    name = f"[`{function.name}`](../{function.path})" + (f", {kind}" if kind else "")
    doc = f"{function.doc} Beside what `{trait}` promises.".strip() if trait else function.doc
    yield f'<a id="{crate}.{function.name}"></a>{name}', labels(groups.pop(None, [])), cell(doc)
    for clause in function.conditions():
        label = f" `{clause.label}`" if clause.label else ""
        yield "", f"asks{label}", cell(f"`{clause.text}`")
    for words, group in groups.items():
        yield "", labels(group), cell(words)


def is_listed(crate, function, of_traits, said):
    """Whether a function has rows: a public one that has clauses of its own, or one of which something is said."""
    clauses, _ = own_clauses(function, of_traits)
    named = any(key[:2] == (crate, function.name) for key in said)
    return named or (function.is_public and bool(clauses or function.conditions()))


def section(crate, functions, of_traits, said):
    """What is printed of a crate's functions."""
    rules = [(key[2], words) for key, words in said.items() if key[:2] == (crate, "*")]
    if rules:
        yield "Where no more is said of such a clause below:\n"
        yield "\n".join(f"- `{label}`: {words}." for label, words in rules) + "\n"
    listed = [it for it in functions if is_listed(crate, it, of_traits, said)]
    listed.sort(key=lambda it: (it.is_law, not it.name.startswith(f"{it.trait}::")))
    if listed:
        yield "| function | clauses | what it says |\n|---|---|---|"
        yield from ("| " + " | ".join(row) + " |" for it in listed for row in rows_of(crate, it, of_traits, said))
        yield ""
    plain = [it.name for it in functions if it.is_public and it not in listed and own_clauses(it, of_traits)[1]]
    if plain:
        yield f"What their traits promise, and no more: {', '.join(f'`{name}`' for name in plain)}.\n"
    if not listed and not plain:
        yield "It has no public function.\n"


def page(said, notes):
    """The whole page."""
    of_traits = traits_of(listed_crates())
    lines = [INTRODUCTION]
    for crate, owns in table_of_crates():
        lines.append(f"## {crate}\n\n{owns[0].upper()}{owns[1:]}. [Sources](../crates/{crate}).\n")
        lines.extend(f"{note}\n" for note in notes.get(crate, []))
        lines.extend(section(crate, list(functions_of(crate)), of_traits, said))
    return "\n".join(lines)


def lost(said):
    """The lines of docs/meanings.tsv that name no clause, and the crates that aren't there."""
    there = {}
    for crate in listed_crates():
        there[crate] = {(it.name, clause.label) for it in functions_of(crate) for clause in it.promises()}
    for crate, name, label in said:
        pairs = there.get(crate, set())
        if (name, label) not in pairs and not (name == "*" and label in {pair[1] for pair in pairs}):
            yield f"docs/meanings.tsv: {crate} has no {name} with the clause {label or '(without a label)'}"


def bare():
    """The public functions without a doc comment, but for those of traits, whose trait says it."""
    for crate in listed_crates():
        for it in functions_of(crate):
            if it.has_pub and not it.doc:
                yield f"{it.path}: no doc comment stands above {it.name}"


if __name__ == "__main__":
    said, notes = meanings()
    complaints = [*lost(said), *bare()]
    print("\n".join(complaints), end="\n" if complaints else "")
    sys.exit(differs(top / "docs" / "PROVED.md", page(said, notes), __file__) or bool(complaints))
