#!/usr/bin/env python3
"""Explains why `hpfturn check` refuses a mapping text: the place in its line, what is broken there, and how to mend it.

Ends with the program's number, or with 125 where there is no program. What the program prints besides goes through as it
is.
"""
from __future__ import annotations

import argparse
import re
import signal
import subprocess
import sys
import unicodedata
from collections.abc import Iterator
from dataclasses import dataclass
from pathlib import Path
from typing import NoReturn

from refusals import REFUSALS

LAUNCHER = Path(__file__).resolve().parent.parent / "hpfturn"
NO_PROGRAM = 125
USAGE = 1
ROOM = 100
TAB = 8
STATUS_LINE = re.compile(rb"map refused (\d+)(?: (\w+))? at (\d+):(\d+)\n")


@dataclass(frozen=True)
class Refused:
    """What a status line tells: a code, its name where it has one, and a line and a column that counts bytes from 1."""

    code: int
    name: str
    line: int
    column: int


@dataclass(frozen=True)
class Glyph:
    """A character as it is shown, with the columns that it takes."""

    text: str
    width: int


class Words(argparse.ArgumentParser):
    """Words that don't fit end with the number that the program has for them."""

    def error(self, message: str) -> NoReturn:
        self.print_usage(sys.stderr)
        self.exit(USAGE, f"{self.prog}: {message}\n")


def refused_by(status_line: bytes) -> Refused | None:
    told = STATUS_LINE.fullmatch(status_line)
    if told is None:
        return None
    code, name, line, column = told.groups()
    return Refused(int(code), (name or b"").decode(), int(line), int(column))


def line_of(text: bytes, number: int) -> bytes:
    """The line with this number, counted from 1, without its end; beyond the text's last line it is empty."""
    lines = text.split(b"\n")
    if number > len(lines):
        return b""
    line = lines[number - 1]
    return line[:-1] if line.endswith(b"\r") and number < len(lines) else line


def glyph(character: str, column: int, encoding: str) -> Glyph:
    """A character that begins at this column, from 0; as an escape where the output can't show it."""
    if character == "\t":
        blanks = TAB - column % TAB
        return Glyph(" " * blanks, blanks)
    if "\udc80" <= character <= "\udcff":
        escape = f"\\x{ord(character) - 0xdc00:02x}"
        return Glyph(escape, len(escape))
    if not character.isprintable() or not character.encode(encoding, "ignore"):
        escape = ascii(character)[1:-1]
        return Glyph(escape, len(escape))
    if unicodedata.combining(character):
        return Glyph(character, 0)
    return Glyph(character, 2 if unicodedata.east_asian_width(character) in "WF" else 1)


def shown(line: bytes, column: int, encoding: str) -> tuple[list[Glyph], int]:
    """The line's characters, and the number of the one that has the byte in this column, or of the line's end."""
    glyphs: list[Glyph] = []
    size, at, marked = 0, 0, 0
    for character in line.decode("utf-8", "surrogateescape"):
        if size < column:
            marked = len(glyphs)
        size += len(character.encode("utf-8", "surrogateescape"))
        glyphs.append(glyph(character, at, encoding))
        at += glyphs[-1].width
    return glyphs, marked if column <= size else len(glyphs)


def width(glyphs: list[Glyph]) -> int:
    return sum(it.width for it in glyphs)


def around(glyphs: list[Glyph], marked: int) -> tuple[str, int]:
    """What is shown of a line, the whole where there is room and else a piece around the mark, with the mark's column."""
    if width(glyphs) <= ROOM:
        first, last = 0, len(glyphs)
    else:
        first, last = marked, marked
        while first > 0 and width(glyphs[first:marked]) < ROOM // 2:
            first -= 1
        while last < len(glyphs) and width(glyphs[first:last]) < ROOM:
            last += 1
    before = ".. " if first > 0 else ""
    after = " .." if last < len(glyphs) else ""
    text = "".join(it.text for it in glyphs[first:last])
    return before + text + after, len(before) + width(glyphs[first:marked])


def excerpt(refused: Refused, text: bytes, encoding: str) -> Iterator[str]:
    """The line of the place, and the mark under it."""
    line, at = around(*shown(line_of(text, refused.line), refused.column, encoding))
    number = str(refused.line)
    yield f"  {number} | {line}".rstrip()
    yield f"  {' ' * len(number)} | {' ' * at}^"


def explained(name: str, refused: Refused, text: bytes | None, encoding: str) -> Iterator[str]:
    """The lines that explain a refusal. A place in line 0 is that of the whole text."""
    place = f":{refused.line}:{refused.column}" if refused.line else ""
    known = REFUSALS.get(refused.code)
    told = f"{name}{place}: map refused {refused.code} {refused.name}".rstrip()
    yield f"{told}: {known.broken}" if known else told
    if refused.line and text is not None:
        yield from excerpt(refused, text, encoding)
    if known:
        yield f"help: {known.mend}"


def read_again(name: str) -> bytes | None:
    """The text, where it can be read a second time."""
    path = Path(name)
    try:
        return path.read_bytes() if path.is_file() else None
    except OSError:
        return None


def run(program: str, name: str) -> tuple[int, Refused | None]:
    """Runs the program's `check`, and passes on what it tells besides a refusal."""
    refused = None
    with subprocess.Popen([program, "check", "--", name], stderr=subprocess.PIPE) as running:
        assert running.stderr is not None
        for line in running.stderr:
            told = refused_by(line)
            if told is not None:
                refused = told
                continue
            sys.stderr.buffer.write(line)
            sys.stderr.buffer.flush()
    status = running.returncode
    return (status if status >= 0 else 128 - status), refused


def main() -> None:
    signal.signal(signal.SIGINT, signal.SIG_DFL)
    words = Words(description=__doc__, formatter_class=argparse.RawDescriptionHelpFormatter)
    words.add_argument("map", metavar="MAP", help="the file with the mapping text")
    words.add_argument("--program", default=str(LAUNCHER), help="the program to ask (default: %(default)s)")
    asked = words.parse_args()
    try:
        status, refused = run(asked.program, asked.map)
    except OSError as fault:
        print(f"{words.prog}: {asked.program}: {fault.strerror}", file=sys.stderr)
        sys.exit(NO_PROGRAM)
    if refused is not None:
        for line in explained(asked.map, refused, read_again(asked.map), sys.stderr.encoding):
            print(line, file=sys.stderr)
    sys.exit(status)


if __name__ == "__main__":
    main()
