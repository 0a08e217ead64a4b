#!/usr/bin/env python3
"""Draws who owns the elements of an array, and what processors hold of it.

    hpfturn owners MAP NAME > OWNERS
    hpfturn local MAP NAME --proc 2 > LOCAL
    picture.py OWNERS --held 2 LOCAL

A cell has the number of the processor that owns its element, or a letter where several do. The first dimension that is
drawn goes down and the second across; of an array with more, one plane is drawn.
"""
from __future__ import annotations

import argparse
import os
import re
import signal
import sys
from array import array
from collections.abc import Callable, Iterable, Iterator, Sequence
from contextlib import contextmanager
from dataclasses import dataclass
from functools import cached_property
from math import prod
from string import ascii_lowercase
from typing import TextIO

import drawings
from drawings import Cell, Kind, Panel, Picture

MOST_CELLS = 32
OWNERS_LINE = re.compile(r"\((-?\d+(?:,-?\d+)*)\)((?: \d+)+)\n?", re.ASCII)
LOCAL_LINE = re.compile(r"(\d+) \((-?\d+(?:,-?\d+)*)\) (owned|shadow)\n?", re.ASCII)
AT = re.compile(r"(\d+)=(-?\d+)", re.ASCII)
OWNED, SHADOW = 1, 2
HELD = {0: (Kind.NOTHING, "."), OWNED: (Kind.HELD, "#"), SHADOW: (Kind.SHADOW, "+")}


class Bad(Exception):
    """What is wrong with a text or a word, in a sentence."""


@dataclass(frozen=True)
class Bounds:
    """The bounds of each dimension. Elements are counted from 0 in element order, the first subscript fastest."""

    lows: tuple[int, ...]
    highs: tuple[int, ...]

    @property
    def rank(self) -> int:
        return len(self.lows)

    def extent(self, d: int) -> int:
        return self.highs[d] - self.lows[d] + 1

    @cached_property
    def strides(self) -> list[int]:
        """How many places the neighbours along each dimension are apart."""
        return [prod(map(self.extent, range(d))) for d in range(self.rank)]

    def place(self, index: Sequence[int]) -> int | None:
        if len(index) != self.rank or not all(l <= i <= h for l, i, h in zip(self.lows, index, self.highs)):
            return None
        return sum((i - low) * stride for i, low, stride in zip(index, self.lows, self.strides))


@dataclass(frozen=True)
class Owners:
    """For each element the number of the list of processors that own it."""

    bounds: Bounds
    lists: Sequence[tuple[int, ...]]
    which: array[int]

    def owned(self, processor: int) -> int:
        """How many elements the processor owns."""
        return sum(self.which.count(k) for k, owners in enumerate(self.lists) if processor in owners)


@dataclass(frozen=True)
class Part:
    """For each element whether a processor owns it, has it as shadow, or doesn't hold it."""

    processor: int
    state: bytearray


class ElementOrder:
    """The indices of an array in element order, whose bounds are found on the way."""

    def __init__(self, first: Sequence[int]) -> None:
        self.lows, self.last = tuple(first), list(first)
        self.highs: list[int | None] = [None] * len(first)

    def next(self, index: Sequence[int]) -> bool:
        """Takes an index, and says whether it comes next."""
        before, self.last = self.last, list(index)
        if len(index) != len(before):
            return False
        for d, i in enumerate(index):
            if i == before[d] + 1 and before[d] != self.highs[d]:
                return self.last[d + 1:] == before[d + 1:]
            if i != self.lows[d] or self.highs[d] not in (None, before[d]):
                return False
            self.highs[d] = before[d]
        return False

    def bounds(self) -> Bounds | None:
        """The bounds, where the last index ends the array."""
        highs = tuple(last if high is None else high for last, high in zip(self.last, self.highs))
        return Bounds(self.lows, highs) if highs == tuple(self.last) else None


def subscripts(words: str) -> list[int]:
    return [int(it) for it in words.split(",")]


def read_owners(lines: Iterable[str]) -> Owners:
    numbers: dict[str, int] = {}
    which = array("I")
    order = None
    for at, line in enumerate(lines, 1):
        told = OWNERS_LINE.fullmatch(line)
        if told is None:
            raise Bad(f"line {at} is no line of owners, such as (4,-2) 0 3")
        index = subscripts(told[1])
        if order is None:
            order = ElementOrder(index)
        elif not order.next(index):
            raise Bad(f"line {at}: ({told[1]}) isn't the next element")
        which.append(numbers.setdefault(told[2], len(numbers)))
    if order is None:
        raise Bad("the text is empty")
    bounds = order.bounds()
    if bounds is None:
        raise Bad("the text ends before the last element")
    return Owners(bounds, [tuple(map(int, it.split())) for it in numbers], which)


def read_part(lines: Iterable[str], processor: int, owners: Owners) -> Part:
    state = bytearray(len(owners.which))
    before = -1
    for at, line in enumerate(lines, 1):
        told = LOCAL_LINE.fullmatch(line)
        if told is None or int(told[1]) != at - 1:
            raise Bad(f"line {at} is no line of a part, such as {at - 1} (4,-2) owned")
        place = owners.bounds.place(subscripts(told[2]))
        if place is None or place <= before:
            raise Bad(f"line {at}: ({told[2]}) is no element of the array, or doesn't come behind the one before it")
        if (processor in owners.lists[owners.which[place]]) != (told[3] == "owned"):
            raise Bad(f"line {at}: processor {processor} {'does not own' if told[3] == 'owned' else 'owns'} ({told[2]})")
        state[place] = OWNED if told[3] == "owned" else SHADOW
        before = place
    if state.count(OWNED) != owners.owned(processor):
        raise Bad(f"processor {processor} owns {owners.owned(processor)} elements, and the part has {state.count(OWNED)}")
    return Part(processor, state)


@dataclass(frozen=True)
class Side:
    """A dimension that is drawn, in cells of `step` elements, whose neighbours are `stride` places apart."""

    low: int
    high: int
    stride: int
    step: int

    def cells(self) -> Iterator[range]:
        """The places of each cell's elements, from that of the lower bound."""
        extent = self.high - self.low + 1
        for first in range(0, extent, self.step):
            last = min(first + self.step, extent)
            yield range(first * self.stride, last * self.stride, self.stride)

    def words(self) -> list[str]:
        return [str(i) for i in range(self.low, self.high + 1, self.step)]


@dataclass(frozen=True)
class Plane:
    """What is drawn of an array: a line across, or a plane down and across, from the element at `base`."""

    section: str
    base: int
    down: Side | None
    across: Side

    def cells(self, kept: Sequence[int], shown: Callable[[set[int]], Cell]) -> list[list[Cell]]:
        """The cells of what is kept for each element of the array."""
        downs = list(self.down.cells()) if self.down else [range(1)]
        return [[shown({kept[self.base + i + k] for i in rows for k in columns}) for columns in self.across.cells()]
                for rows in downs]


def plane(bounds: Bounds, at: dict[int, int], most: int) -> Plane:
    """The plane with these subscripts of dimensions that aren't drawn. Where more than two are left, the last of them
    stand at their lower bounds."""
    free = [d for d in range(bounds.rank) if d not in at]
    fixed = {**at, **{d: bounds.lows[d] for d in free[2:]}}
    sides = [Side(bounds.lows[d], bounds.highs[d], bounds.strides[d], -(-bounds.extent(d) // most)) for d in free[:2]]
    if not sides:
        raise Bad("no dimension is left to draw")
    index = [fixed.get(d, low) for d, low in enumerate(bounds.lows)]
    base = bounds.place(index)
    if base is None:
        raise Bad(f"({','.join(map(str, index))}) is no element of the array")
    section = ", ".join(str(fixed[d]) if d in fixed else f"{bounds.lows[d]}:{bounds.highs[d]}" for d in range(bounds.rank))
    return Plane(section, base, sides[0] if len(sides) == 2 else None, sides[-1])


def letters(number: int) -> str:
    """a to z, then aa, ab and so on."""
    front, last = divmod(number, len(ascii_lowercase))
    return (letters(front - 1) if front else "") + ascii_lowercase[last]


def owner_cells(owners: Owners) -> list[Cell]:
    """How each list of owners is shown."""
    several = iter(range(len(owners.lists)))
    return [Cell(Kind.OWNED, it, str(it[0])) if len(it) == 1 else Cell(Kind.REPLICATED, it, letters(next(several)))
            for it in owners.lists]


def picture(owners: Owners, parts: Sequence[Part], drawn: Plane, name: str) -> Picture:
    looks = owner_cells(owners)

    def owned(kept: set[int]) -> Cell:
        return looks[kept.pop()] if len(kept) == 1 else Cell(Kind.MIXED, (), "*")

    def held(kept: set[int], processor: int) -> Cell:
        kind, label = HELD[kept.pop()] if len(kept) == 1 else (Kind.MIXED, "*")
        return Cell(kind, (processor,) if kind in (Kind.HELD, Kind.SHADOW) else (), label)

    grids = [("owners", drawn.cells(owners.which, owned))]
    for part in parts:
        grids.append((f"held by {part.processor}", drawn.cells(part.state, lambda kept: held(kept, part.processor))))
    section = f"{name}({drawn.section})"
    columns = drawn.across.words()
    if drawn.down:
        panels = [Panel(f"{told} of {section}", drawn.down.words(), columns, cells) for told, cells in grids]
    else:
        panels = [Panel(section, [told for told, _ in grids], columns, [row for _, cells in grids for row in cells])]
    return Picture(panels, list(notes(drawn)))


def notes(drawn: Plane) -> Iterator[str]:
    steps = [side.step for side in (drawn.down, drawn.across) if side]
    if max(steps) > 1:
        yield f"Each cell stands for {' by '.join(map(str, steps))} elements, or for those that are left at the end."


@contextmanager
def text_of(file: str) -> Iterator[TextIO]:
    """The text of a file, or of standard input."""
    with open(0 if file == "-" else file, encoding="ascii", errors="replace") as text:
        try:
            yield text
        except Bad as it:
            raise Bad(f"{file}: {it}") from it


def subscript(words: str) -> tuple[int, int]:
    told = AT.fullmatch(words)
    if told is None or int(told[1]) < 1:
        raise argparse.ArgumentTypeError(f"{words!r} is no dimension with a subscript, such as 3=0")
    return int(told[1]) - 1, int(told[2])


def natural(words: str) -> int:
    if not words.isascii() or not words.isdecimal() or int(words) < 1:
        raise argparse.ArgumentTypeError(f"{words!r} is no number above 0")
    return int(words)


def words() -> argparse.ArgumentParser:
    parser = argparse.ArgumentParser(description=__doc__, formatter_class=argparse.RawDescriptionHelpFormatter)
    parser.add_argument("owners", nargs="?", default="-", metavar="OWNERS",
                        help="what `hpfturn owners` printed, or - for standard input (default)")
    parser.add_argument("--held", nargs=2, action="append", default=[], metavar=("P", "LOCAL"),
                        help="draw also what processor P holds, which `hpfturn local` printed; may come again")
    parser.add_argument("--at", type=subscript, action="append", default=[], metavar="D=I",
                        help="draw the plane, or the line, where dimension D has the subscript I; may come again")
    parser.add_argument("--name", default="", help="the array's name, for headings")
    parser.add_argument("--cells", type=natural, default=MOST_CELLS, metavar="N",
                        help="draw at most N cells each way, of several elements where need be (default: %(default)s)")
    parser.add_argument("--svg", action="store_true", help="print an SVG file in place of text")
    parser.add_argument("--colour", choices=("auto", "always", "never"), default="auto",
                        help="colours in text; auto: where it goes to a terminal and NO_COLOR isn't set")
    return parser


def colours(asked: str) -> bool:
    if asked == "auto":
        return sys.stdout.isatty() and not os.environ.get("NO_COLOR") and os.environ.get("TERM") != "dumb"
    return asked == "always"


def main() -> None:
    signal.signal(signal.SIGPIPE, signal.SIG_DFL)
    asked = words().parse_args()
    with text_of(asked.owners) as text:
        owners = read_owners(text)
    parts = []
    for processor, file in asked.held:
        if not processor.isascii() or not processor.isdecimal():
            raise Bad(f"{processor!r} is no number of a processor")
        with text_of(file) as text:
            parts.append(read_part(text, int(processor), owners))
    for d, _ in asked.at:
        if d >= owners.bounds.rank:
            raise Bad(f"the array has no dimension {d + 1}")
    drawn = picture(owners, parts, plane(owners.bounds, dict(asked.at), asked.cells), asked.name)
    for line in drawings.svg(drawn) if asked.svg else drawings.text(drawn, colours(asked.colour)):
        print(line)


if __name__ == "__main__":
    try:
        main()
    except Bad as it:
        sys.exit(f"picture.py: {it}")
    except OSError as it:
        sys.exit(f"picture.py: {it.filename or 'standard input or output'}: {it.strerror or it}")
