"""What `picture.py` draws of texts that are worked out here, and which texts it refuses."""
from __future__ import annotations

import os
import pty
import subprocess
import sys
import tempfile
import unittest
import xml.etree.ElementTree as xml
from itertools import product
from pathlib import Path

HERE = Path(__file__).resolve().parent
PICTURE = HERE.parent / "picture.py"
sys.path.insert(0, str(HERE.parent))

import drawings  # noqa: E402
import picture  # noqa: E402

SVG = "{http://www.w3.org/2000/svg}"


def owners_text(bounds: list[tuple[int, int]], owners) -> str:
    """The text of an array with these bounds, whose element has the owners that the function gives."""
    lines = []
    for back in product(*(range(low, high + 1) for low, high in reversed(bounds))):
        index = back[::-1]
        lines.append(f"({','.join(map(str, index))}) {' '.join(map(str, owners(*index)))}\n")
    return "".join(lines)


class Room(unittest.TestCase):
    def setUp(self) -> None:
        room = tempfile.TemporaryDirectory()
        self.addCleanup(room.cleanup)
        self.room = Path(room.name)

    def file(self, name: str, text: str) -> str:
        (self.room / name).write_text(text, encoding="utf-8")
        return str(self.room / name)

    def run_it(self, *words: str, given: str = "") -> subprocess.CompletedProcess[str]:
        return subprocess.run([sys.executable, "-B", "-W", "error", PICTURE, *words], input=given, capture_output=True,
                              check=False, encoding="utf-8")

    def draws(self, *words: str, given: str = "") -> list[str]:
        done = self.run_it(*words, given=given)
        self.assertEqual((done.returncode, done.stderr), (0, ""))
        return done.stdout.splitlines()

    def refuses(self, sentence: str, *words: str, given: str = "", status: int = 1) -> None:
        done = self.run_it(*words, given=given)
        self.assertEqual((done.returncode, done.stdout), (status, ""))
        self.assertNotIn("Traceback", done.stderr)
        self.assertIn(sentence, done.stderr)


class Planes(Room):
    CUBE = owners_text([(0, 1), (-1, 1), (5, 7)], lambda i, j, k: [i + 2 * (j + 1) + 6 * (k - 5)])

    def test_the_first_plane(self) -> None:
        self.assertEqual(self.draws("--name", "X", given=self.CUBE), [
            "owners of X(0:1, -1:1, 5)", "", "     -1  0  1", "  0   0  2  4", "  1   1  3  5"])

    def test_another_plane(self) -> None:
        self.assertEqual(self.draws("--at", "3=7", given=self.CUBE), [
            "owners of (0:1, -1:1, 7)", "", "     -1  0  1", "  0  12 14 16", "  1  13 15 17"])
        self.assertEqual(self.draws("--at", "1=1", given=self.CUBE), [
            "owners of (1, -1:1, 5:7)", "", "       5  6  7", "  -1   1  7 13", "   0   3  9 15", "   1   5 11 17"])

    def test_a_line(self) -> None:
        self.assertEqual(self.draws("--at", "1=0", "--at=2=1", given=self.CUBE), [
            "(0, 1, 5:7)", "", "           5  6  7", "  owners   4 10 16"])

    def test_no_plane(self) -> None:
        self.refuses("(2,-1,5) is no element", "--at", "1=2", given=self.CUBE)
        self.refuses("the array has no dimension 4", "--at", "4=1", given=self.CUBE)
        self.refuses("no dimension is left", "--at", "1=0", "--at", "2=0", "--at", "3=5", given=self.CUBE)
        self.refuses("'0=1' is no dimension", "--at", "0=1", given=self.CUBE, status=2)
        self.refuses("'2' is no dimension", "--at", "2", given=self.CUBE, status=2)


class Cells(Room):
    def test_letters(self) -> None:
        self.assertEqual([picture.letters(it) for it in (0, 25, 26, 27, 51, 52, 701, 702)],
                         ["a", "z", "aa", "ab", "az", "ba", "zz", "aaa"])
        text = owners_text([(1, 4)], lambda i: [i] if i == 1 else [0, i] if i < 4 else [0, 2])
        self.assertEqual(self.draws(given=text), [
            "(1:4)", "", "          1 2 3 4", "  owners  1 a b a", "", "  a  owned by each of the processors 0 2",
            "  b  owned by each of the processors 0 3"])

    def test_cells_of_several_elements(self) -> None:
        text = owners_text([(1, 5), (0, 6)], lambda i, j: [0 if j < 4 else 1])
        self.assertEqual(self.draws("--cells", "3", given=text), [
            "owners of (1:5, 0:6)", "", "     0 3 6", "  1  0 * 1", "  3  0 * 1", "  5  0 * 1", "",
            "  *  elements that differ",
            "Each cell stands for 2 by 3 elements, or for those that are left at the end."])
        self.assertEqual(self.draws("--cells", "1", given=owners_text([(1, 9)], lambda i: [3]))[-3:], [
            "  owners  3", "", "Each cell stands for 9 elements, or for those that are left at the end."])
        self.refuses("'0' is no number above 0", "--cells", "0", given=text, status=2)

    def test_wide_subscripts(self) -> None:
        """A subscript that has no room is left out, and every other one begins where its column does."""
        text = owners_text([(9990, 10021)], lambda i: [i % 2])
        heads, cells = self.draws("--cells", "32", given=text)[2:4]
        self.assertEqual(len(cells), len("  owners ") + 64)
        self.assertEqual(heads.split()[:3], ["9990", "9993", "9996"])
        for k, told in enumerate(range(9990, 10022)):
            if str(told) in heads.split():
                self.assertEqual(heads.index(str(told)), len("  owners ") + 2 * k + 1)

    def test_parts(self) -> None:
        text = self.file("owners", owners_text([(0, 3), (0, 1)], lambda i, j: [i // 2]))
        part = self.file("part", "0 (1,0) shadow\n1 (2,0) owned\n2 (3,0) owned\n3 (2,1) owned\n4 (3,1) owned\n")
        none = self.file("none", "")
        self.assertEqual(self.draws(text, "--held", "1", part, "--held", "7", none), [
            "owners of (0:3, 0:1)", "", "     0 1", "  0  0 0", "  1  0 0", "  2  1 1", "  3  1 1", "",
            "held by 1 of (0:3, 0:1)", "", "     0 1", "  0  . .", "  1  + .", "  2  # #", "  3  # #", "",
            "held by 7 of (0:3, 0:1)", "", "     0 1", "  0  . .", "  1  . .", "  2  . .", "  3  . .", "",
            "  #  held, and owned", "  +  held as shadow", "  .  not held"])


class Texts(Room):
    def test_texts_that_are_no_owners(self) -> None:
        for text, sentence in (("", "the text is empty"), ("(1)\n", "line 1"), ("(1) 0", ""), ("(1)  0\n", "line 1"),
                               ("() 0\n", "line 1"), ("(1,) 0\n", "line 1"), ("(1) 0\n\n", "line 2"), ("(1) a\n", "line 1"),
                               ("(1) 0\n(3) 0\n", "line 2: (3) isn't the next"), ("(1) 0\n(1) 0\n", "(1) isn't the next"),
                               ("(1) 0\n(1,2) 0\n", "(1,2) isn't the next"), ("(1,1) 0\n(2,1) 0\n(1,2) 0\n", "ends before"),
                               ("(1,1) 0\n(1,2) 0\n(2,2) 0\n", "(2,2) isn't the next"),
                               ("(1,1) 0\n(2,1) 0\n(1,2) 0\n(2,2) 0\n(3,2) 0\n", "(3,2) isn't"), ("\u0661 0", "line 1"),
                               ("(1,1) 0\n(2,1) 0\n(1,3) 0\n", "(1,3) isn't the next")):
            if sentence:
                self.refuses(sentence, given=text)
            else:
                self.draws(given=text)
        self.refuses("No such file", str(self.room / "nowhere"))

    def test_texts_that_are_no_parts(self) -> None:
        owners = self.file("owners", owners_text([(1, 4)], lambda i: [(i - 1) // 2]))
        for text, sentence in (("0 (3) owned\n", "owns 2 elements, and the part has 1"), ("1 (3) owned\n", "line 1"),
                               ("0 (3) held\n", "line 1"), ("0 (5) shadow\n", "(5) is no element"),
                               ("0 (3,1) owned\n", "(3,1) is no element"), ("0 (3) shadow\n", "processor 1 owns (3)"),
                               ("0 (2) owned\n", "processor 1 does not own (2)"), ("0 (4) owned\n1 (3) owned\n", "line 2"),
                               ("0 (3) owned\n1 (3) owned\n", "line 2")):
            self.refuses(sentence, owners, "--held", "1", self.file("part", text))
        self.refuses("'-1' is no number of a processor", owners, "--held", "-1", owners)

    def test_words(self) -> None:
        self.assertIn("usage", self.run_it("--help").stdout)
        self.refuses("unrecognized arguments", "a", "b", status=2)


class Colours(Room):
    TEXT = owners_text([(1, 3)], lambda i: [0] if i == 1 else [1] if i == 2 else [0, 1])

    def plain(self, line: str) -> str:
        parts = line.split("\x1b[")
        return parts[0] + "".join(it.split("m", 1)[1] for it in parts[1:])

    def test_colours_change_no_sign(self) -> None:
        coloured = self.draws("--colour", "always", given=self.TEXT)
        self.assertEqual([self.plain(it) for it in coloured], self.draws("--colour", "never", given=self.TEXT))
        self.assertIn("\x1b[", coloured[3])
        self.assertNotIn("\x1b[", "".join(self.draws(given=self.TEXT)))

    def test_a_terminal(self) -> None:
        for name, coloured in (("", True), ("1", False)):
            ours, theirs = pty.openpty()
            environment = {**os.environ, "NO_COLOR": name, "TERM": "xterm-256color"}
            subprocess.run([sys.executable, "-B", PICTURE], input=self.TEXT.encode(), stdout=theirs, env=environment, check=True)
            os.close(theirs)
            self.assertEqual(b"\x1b[" in os.read(ours, 65536), coloured)
            os.close(ours)


class Drawn(Room):
    """SVG pictures: each cell has its colour and its word, and nothing stands outside."""

    def svg(self, *words: str, given: str = "") -> xml.Element:
        return xml.fromstring("\n".join(self.draws("--svg", *words, given=given)))

    def test_each_cell(self) -> None:
        text = owners_text([(1, 3), (1, 2)], lambda i, j: [i - 1] if j == 1 else [i - 1, i + 2])
        page = self.svg("--name", "<A&B>", given=text)
        fills = [it.get("fill") for it in page.findall(f"{SVG}rect") if it.get("stroke")]
        self.assertEqual(fills[:6], [drawings.fill(0), "url(#replicated-0-3)", drawings.fill(1), "url(#replicated-1-4)",
                                     drawings.fill(2), "url(#replicated-2-5)"])
        self.assertEqual(len(fills), 12)
        self.assertEqual({it.get("id") for it in page.iter(f"{SVG}pattern")},
                         {"replicated-0-3", "replicated-1-4", "replicated-2-5"})
        told = [it.text for it in page.iter(f"{SVG}text")]
        self.assertEqual(told[:12], ["owners of <A&B>(1:3, 1:2)", "1", "2", "1", "0", "a", "2", "1", "b", "3", "2", "c"])
        self.inside(page)

    def test_parts(self) -> None:
        owners = self.file("owners", owners_text([(1, 40)], lambda i: [i % 2]))
        part = self.file("part", "".join(f"{i - 1} ({i}) {'owned' if i % 2 else 'shadow'}\n" for i in range(1, 40)))
        page = self.svg(owners, "--held", "1", part, "--cells", "40")
        fills = [it.get("fill") for it in page.findall(f"{SVG}rect") if it.get("stroke")]
        self.assertEqual(fills[:80], [drawings.fill(i % 2) for i in range(1, 41)]
                         + [drawings.fill(1) if i % 2 else "url(#shadow-1)" for i in range(1, 40)] + [drawings.PAPER])
        self.inside(page)
        self.inside(self.svg(owners, "--held", "1", part, "--cells", "7"))

    def inside(self, page: xml.Element) -> None:
        across, down = int(page.get("width", "0")), int(page.get("height", "0"))
        for it in page.findall(f"{SVG}rect"):
            x, y = float(it.get("x", "0")), float(it.get("y", "0"))
            self.assertTrue(x >= 0 and x + float(it.get("width", "0")) <= across)
            self.assertTrue(y >= 0 and y + float(it.get("height", "0")) <= down)
        for it in page.findall(f"{SVG}text"):
            x, wide = float(it.get("x", "0")), drawings.LETTER * len(it.text or "")
            left = {"start": x, "middle": x - wide / 2, "end": x - wide}[it.get("text-anchor", "")]
            self.assertTrue(left >= 0 and left + wide <= across, it.text)
            self.assertTrue(float(it.get("y", "0")) <= down)


if __name__ == "__main__":
    unittest.main()
