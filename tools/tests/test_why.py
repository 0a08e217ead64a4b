"""What `why.py` says of each row of `refused.txt`, and of lines that are hard to mark."""
from __future__ import annotations

import re
import subprocess
import sys
import tempfile
import unittest
from collections.abc import Iterator
from dataclasses import dataclass, field
from pathlib import Path

HERE = Path(__file__).resolve().parent
WHY = HERE.parent / "why.py"
LAUNCHER = HERE.parent.parent / "hpfturn"
sys.path.insert(0, str(HERE.parent))

from refusals import REFUSALS  # noqa: E402

HEAD = re.compile(r"== (\d+) (\w+) at (\d+):(\d+)(?: \| (\w+))?\n")
BLANKS = re.compile(r"\.\. (\d+) blanks\n")
NOT_BUILT = "map refused 9 NotBuilt at 1:1\n"


@dataclass
class Row:
    """A text with its refusal, and the line and the mark that are to be shown; `lacks` names a form that isn't built."""

    code: int
    name: str
    place: tuple[int, int]
    lacks: str | None
    text: str = ""
    lines: int = 0
    excerpt: list[str] = field(default_factory=list)

    @property
    def status_line(self) -> str:
        return f"map refused {self.code} {self.name} at {self.place[0]}:{self.place[1]}\n"

    def take(self, line: str) -> None:
        if line.strip() == "^":
            marked = self.text.splitlines()[-1].expandtabs(8)
            self.excerpt = [f"  {self.lines} | {marked}", f"  {' ' * len(str(self.lines))} | {line.rstrip()}"]
            return
        blanks = BLANKS.fullmatch(line)
        self.text += " " * int(blanks[1]) if blanks else line
        self.lines += 1


def rows() -> Iterator[Row]:
    row = None
    for line in (HERE / "refused.txt").read_text(encoding="utf-8").splitlines(keepends=True):
        head = HEAD.fullmatch(line)
        if head:
            if row:
                yield row
            row = Row(int(head[1]), head[2], (int(head[3]), int(head[4])), head[5])
        elif row:
            row.take(line)
    if row:
        yield row


class Room(unittest.TestCase):
    """A folder for texts, and a program that answers what it is told instead of reading them."""

    def setUp(self) -> None:
        room = tempfile.TemporaryDirectory()
        self.addCleanup(room.cleanup)
        self.map = Path(room.name) / "text.hpf"
        self.told = Path(room.name) / "told"
        self.program = Path(room.name) / "program"
        self.program.write_text(f'#!/bin/sh\ncat "{self.told}" >&2\nexit 2\n', encoding="utf-8")
        self.program.chmod(0o755)

    def why(self, *words: str) -> subprocess.CompletedProcess[bytes]:
        return subprocess.run([sys.executable, "-W", "error", WHY, *words], capture_output=True, check=False,
                              env={"PYTHONIOENCODING": "utf-8", "PYTHONDONTWRITEBYTECODE": "1", "PATH": "/usr/bin:/bin"})

    def says(self, text: bytes, status_line: str) -> list[str]:
        """What is said of a text for which the program would answer so."""
        self.map.write_bytes(text)
        self.told.write_text(status_line, encoding="utf-8")
        done = self.why("--program", str(self.program), str(self.map))
        self.assertEqual((done.returncode, done.stdout), (2, b""))
        return done.stderr.decode().splitlines()


class EachCode(Room):
    def test_the_table_has_each_code_by_its_name(self) -> None:
        self.assertEqual({row.code: row.name for row in rows()}, {it.code: it.name for it in REFUSALS.values()})

    def test_the_mark_stands_under_the_place(self) -> None:
        for row in rows():
            with self.subTest(row.status_line):
                known = REFUSALS[row.code]
                place = f":{row.place[0]}:{row.place[1]}" if row.place[0] else ""
                self.assertEqual(self.says(row.text.encode(), row.status_line), [
                    f"{self.map}{place}: map refused {row.code} {row.name}: {known.broken}",
                    *row.excerpt,
                    f"help: {known.mend}"])

    def test_the_program_refuses_each_text_so(self) -> None:
        for row in rows():
            with self.subTest(row.status_line):
                self.map.write_bytes(row.text.encode())
                done = subprocess.run([LAUNCHER, "check", self.map], capture_output=True, check=False)
                self.assertEqual((done.returncode, done.stdout), (2, b""))
                self.assertEqual(done.stderr.decode(), NOT_BUILT if row.lacks else row.status_line)


class EachLine(Room):
    """Lines that are hard to mark, with what is shown of them."""

    def marked(self, text: bytes, line: int, column: int) -> list[str]:
        return self.says(text, f"map refused 10 Syntax at {line}:{column}\n")[1:-1]

    def test_bytes_above_127(self) -> None:
        self.assertEqual(self.marked("é = ü".encode(), 1, 6), ["  1 | é = ü", "    |     ^"])
        self.assertEqual(self.marked("é = ü".encode(), 1, 7), ["  1 | é = ü", "    |     ^"])
        self.assertEqual(self.marked(b"\xff\xfe = X", 1, 6), ["  1 | \\xff\\xfe = X", "    |            ^"])
        self.assertEqual(self.marked("漢字 = X".encode(), 1, 10), ["  1 | 漢字 = X", "    |        ^"])
        self.assertEqual(self.marked("e\u0301 = X".encode(), 1, 7), ["  1 | e\u0301 = X", "    |     ^"])

    def test_tabs(self) -> None:
        self.assertEqual(self.marked(b"\tA\tB", 1, 4), ["  1 |         A       B", "    |                 ^"])
        self.assertEqual(self.marked(b"A\tB", 1, 2), ["  1 | A       B", "    |  ^"])

    def test_signs_that_are_not_shown(self) -> None:
        self.assertEqual(self.marked(b"A\x1b[2JB", 1, 6), ["  1 | A\\x1b[2JB", "    |         ^"])
        self.assertEqual(self.marked(b"A\rB\r\n", 1, 2), ["  1 | A\\rB", "    |  ^"])
        self.assertEqual(self.marked(b"A\r", 1, 2), ["  1 | A\\r", "    |  ^"])

    def test_ends(self) -> None:
        self.assertEqual(self.marked(b"A\r\nBC\r\nD", 2, 3), ["  2 | BC", "    |   ^"])
        self.assertEqual(self.marked(b"A\nBC\n", 3, 1), ["  3 |", "    | ^"])
        self.assertEqual(self.marked(b"", 1, 1), ["  1 |", "    | ^"])
        self.assertEqual(self.marked(b"A\n", 12, 9), ["  12 |", "     | ^"])

    def test_a_long_line(self) -> None:
        line, mark = self.marked(b"a" * 5000 + b";" + b"b" * 5000, 1, 5001)
        self.assertEqual(line[mark.index("^")], ";")
        self.assertLess(len(line), 120)
        line, mark = self.marked(b"a" * 5000, 1, 5001)
        self.assertEqual(len(line), mark.index("^"))


class Ends(Room):
    def test_a_text_that_is_accepted(self) -> None:
        done = self.why("--program", "/bin/echo", "text.hpf")
        self.assertEqual((done.returncode, done.stdout, done.stderr), (0, b"check -- text.hpf\n", b""))

    def test_what_else_the_program_tells(self) -> None:
        self.assertEqual(self.says(b"", "building\nload fault\n"), ["building", "load fault"])

    def test_a_text_that_is_gone(self) -> None:
        self.told.write_text("map refused 10 Syntax at 3:4\n", encoding="utf-8")
        done = self.why("--program", str(self.program), str(self.map))
        self.assertEqual(len(done.stderr.splitlines()), 2)

    def test_a_code_without_a_sentence(self) -> None:
        self.assertEqual(self.says(b"A", "map refused 99 at 1:1\n"),
                         [f"{self.map}:1:1: map refused 99", "  1 | A", "    | ^"])

    def test_no_program(self) -> None:
        done = self.why("--program", str(self.told), "text.hpf")
        self.assertEqual(done.returncode, 125)
        self.assertEqual(done.stderr.decode(), f"why.py: {self.told}: No such file or directory\n")

    def test_words_that_do_not_fit(self) -> None:
        self.assertEqual(self.why().returncode, 1)
        self.assertEqual(self.why("--help").returncode, 0)


if __name__ == "__main__":
    unittest.main()
