#!/usr/bin/env python3
"""The codes by which a mapping text is refused: the tables of docs/formats.md, and for `why.py` how each is mended.

Run as a program it looks whether the code has the same codes by the same names, and whether each can be mended.
"""
from __future__ import annotations

import re
import sys
from collections.abc import Iterator
from dataclasses import dataclass
from pathlib import Path

TOP = Path(__file__).resolve().parent.parent
FORMATS = TOP / "docs/formats.md"
HEADS = {"map": "| code | name | broken where | place |", "input": "| code | name | wrong where |"}
NAMES = re.compile(r"fn (\w+)_name\(.*?\n}", re.DOTALL)
NAME = re.compile(r"(\d+) => \"(\w+)\"")
CODES = re.compile(r"fn code\(.*?\n    }\n|fn code\(.*?\n}\n", re.DOTALL)
CODE = re.compile(r"\w+::(\w+) => (\d+),")


@dataclass(frozen=True)
class Refusal:
    """A code with its name, what is broken, at which place that is told, and how it is mended."""

    code: int
    name: str
    broken: str
    place: str
    mend: str


MENDS = {
    "BadByte": "take it out; an `&` goes on at the end of a line or begins the line that continues it, and a "
        "carriage return stands before a line feed",
    "BadNumber": "write a smaller number, or a name that begins with a letter",
    "NameTooLong": "shorten the name wherever it is used",
    "DanglingContinuation": "take the `&` away, or let the next line go on with the same prefix",
    "TooLong": "shorten the text, its comments for instance",
    "NotBuilt": "do without that form; the guide says which forms run",
    "Syntax": "compare the statement with its form in the grammar; a word of the language is no name",
    "LongExpression": "give a part of it a name by INTEGER, PARAMETER, and write that name",
    "Twice": "rename one of the two, or take one declaration out",
    "Unknown": "declare the name, a constant ahead of its use; or mend how it is spelled",
    "Kind": "use a name that is declared as what is due there: an arrangement after ONTO, an array or template "
        "where something is distributed, aligned with or has a shadow, an array where it is aligned or a stage, a "
        "constant with a list in GEN_BLOCK and INDIRECT, and one without in an expression",
    "Rank": "give the list an entry for each dimension, and in front of ONTO a format other than `*` for each of "
        "the arrangement; a constant with a list has one dimension and as many values as that is long",
    "Empty": "raise the upper bound, or swap the two",
    "Limit": "make it smaller; docs/formats.md has the limits",
    "BlockTooSmall": "make the width at least the extent divided by the processors, rounded up; `BLOCK` alone "
        "takes that",
    "WidthZero": "write a width of 1 or more, or none",
    "LengthCount": "give it one length for each processor along that dimension",
    "NegativeLength": "write 0 for a processor that gets nothing",
    "LengthSum": "lengthen a block; where the sum is greater, what lies beyond the upper bound is cut",
    "PlaceCount": "give it one value for each position of the dimension",
    "PlaceValue": "use numbers of that dimension, which begin with its lower bound",
    "NoArrangement": "declare one by PROCESSORS, or divide as many dimensions as one has",
    "MappedTwice": "keep one of the directives",
    "DummyTwice": "name each dimension by a dummy of its own, and use it in one subscript; `*` and `:` need none",
    "NotLinear": "write a subscript as a number times one dummy, plus a number; a triplet goes with the source "
        "`:`",
    "Unlike": "give each `:` a triplet that runs through as many positions",
    "Outside": "widen the base, or change the subscripts so that the first and the last element fall into it",
    "Cycle": "take one ALIGN of the circle out, and distribute the array that it aligned",
    "Shadow": "give an array one SHADOW, a template none, and widths of 0 or more",
    "Pipeline": "begin with one INPUT, name arrays that are distributed or aligned with one that is, permute each "
        "dimension once so that extents agree, and let an operation's lines and neighbours lie within what a "
        "processor holds",
}


def rows(kind: str) -> Iterator[list[str]]:
    """The rows of the document's tables with this head."""
    within = False
    for line in FORMATS.read_text(encoding="utf-8").splitlines():
        if line == HEADS[kind]:
            within = True
        elif within and not line.startswith("|"):
            within = False
        elif within and not line.startswith("|-"):
            yield [cell.strip() for cell in line.strip("|").split("|")]


REFUSALS = {int(code): Refusal(int(code), name, broken, place, MENDS.get(name, ""))
            for code, name, broken, place in rows("map") if place}


def named(kind: str, texts: list[str]) -> list[tuple[int, str]]:
    """The codes and names of the function in the code that names those of this kind."""
    bodies = [body[0] for text in texts for body in NAMES.finditer(text) if body[1] == kind]
    return sorted((int(code), name) for body in bodies for code, name in NAME.findall(body))


def faults() -> Iterator[str]:
    texts = [path.read_text(encoding="utf-8") for path in sorted(TOP.glob("crates/*/src/**/*.rt"))]
    for kind in HEADS:
        told = sorted((int(row[0]), row[1]) for row in rows(kind))
        if told != named(kind, texts):
            yield f"docs/formats.md and the code have {sorted(set(told) ^ set(named(kind, texts)))} apart"
    known = {name: code for code, name in named("map", texts)}
    for text in texts:
        for body in CODES.findall(text):
            for name, code in CODE.findall(body):
                if known.get(name) != int(code):
                    yield f"{name} has the code {code}, and the name of another is printed for it"
    for refusal in REFUSALS.values():
        if not refusal.mend:
            yield f"why.py has nothing to say of {refusal.name}"
    for name in set(MENDS) - {refusal.name for refusal in REFUSALS.values()}:
        yield f"why.py speaks of {name}, which docs/formats.md doesn't have"


if __name__ == "__main__":
    found = list(faults())
    print("".join(f"refusals.py: {fault}\n" for fault in found), end="", file=sys.stderr)
    sys.exit(bool(found))
