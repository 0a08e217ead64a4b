"""Frame files to .npy files and back, against loops over subscripts; and files that are refused."""
from __future__ import annotations

import ast
import io
import struct
import subprocess
import sys
import tempfile
import tracemalloc
import unittest
import warnings
from collections.abc import Iterator
from itertools import product
from pathlib import Path
from unittest import mock

HERE = Path(__file__).resolve().parent
FRAMES = HERE.parent / "frames.py"
sys.path.insert(0, str(HERE.parent))

import frames  # noqa: E402
import npy  # noqa: E402
from npy import Axis, Kind, Order  # noqa: E402

try:
    with warnings.catch_warnings():
        warnings.simplefilter("ignore")
        import numpy
except ImportError:
    numpy = None

EXTENTS = (2, 3, 1, 4, 2, 1, 3)
Subscripts = tuple[int, ...]


def value(frame: int, at: Subscripts) -> int:
    """An element that tells its frame and its subscripts, of either sign."""
    told = frame
    for i in at:
        told = told * 7 + i
    return (told * 2654435761 + 12345) % 2**32 - 2**31


def column_major(shape: Subscripts) -> Iterator[Subscripts]:
    for at in product(*map(range, reversed(shape))):
        yield at[::-1]


def frame_file(extents: Subscripts, count: int, low: int = -2**31) -> bytes:
    """The file of `count` frames, with their elements raised to `low` where they lie below."""
    file = b"HPFF" + struct.pack(f">4B{len(extents)}I", 1, len(extents), 4, 0, *extents)
    for f in range(count):
        file += struct.pack(">BI", 1, f)
        file += b"".join(struct.pack(">i", max(low, value(f, at))) for at in column_major(extents))
    return file + struct.pack(">BI", 0, count)


def data(extents: Subscripts, count: int, axis: Axis, order: Order, kind: Kind) -> bytes:
    shape = (count, *extents) if axis is Axis.FIRST else (*extents, count)
    low = 0 if kind.value[1] == "u" else -2**31
    places = product(*map(range, shape)) if order is Order.C else column_major(shape)
    values = (value(at[0], at[1:]) if axis is Axis.FIRST else value(at[-1], at[:-1]) for at in places)
    return b"".join(struct.pack(kind.value[0] + "i", max(low, it)) for it in values)


def npy_file(shape: str, behind: bytes, descr: str = "'<i4'", fortran: str = "False", version: int = 1) -> bytes:
    header = f"{{'shape': {shape}, 'descr': {descr}, 'fortran_order': {fortran}}}\n".encode()
    return b"\x93NUMPY" + bytes((version, 0)) + struct.pack("<H" if version == 1 else "<I", len(header)) + header + behind


class Room(unittest.TestCase):
    def setUp(self) -> None:
        room = tempfile.TemporaryDirectory()
        self.addCleanup(room.cleanup)
        self.room = Path(room.name)
        self.array = self.room / "array.npy"
        self.file = self.room / "file.hpff"

    def comes(self, axis: Axis) -> bytes:
        out = io.BytesIO()
        frames.from_npy(self.array, axis, out)
        return out.getvalue()

    def goes(self, axis: Axis, order: Order, kind: Kind) -> bytes:
        with self.file.open("rb") as file:
            frames.to_npy(file, self.array, axis, order, kind)
        return self.array.read_bytes()


class ThereAndBack(Room):
    def each(self, rank: int, count: int) -> None:
        extents = EXTENTS[:rank]
        for axis, order, kind in product(Axis, Order, Kind):
            with self.subTest(extents=extents, count=count, axis=axis, order=order, kind=kind):
                whole = frame_file(extents, count, 0 if kind.unsigned else -2**31)
                self.file.write_bytes(whole)
                gone = self.goes(axis, order, kind)
                lies = data(extents, count, axis, order, kind)
                self.assertEqual(gone[-len(lies):] if lies else b"", lies)
                self.judge_header(gone[:len(gone) - len(lies)], extents, count, axis, order, kind)
                self.assertEqual(self.comes(axis), whole)
                if numpy:
                    self.ask_numpy(whole, extents, count, axis, order, kind)

    def judge_header(self, header: bytes, extents: Subscripts, count: int, axis: Axis, order: Order, kind: Kind) -> None:
        self.assertEqual(header[:8], b"\x93NUMPY\x01\x00")
        self.assertEqual(len(header) % 64, 0)
        self.assertEqual(struct.unpack("<H", header[8:10])[0], len(header) - 10)
        self.assertEqual(header[-1:], b"\n")
        self.assertEqual(ast.literal_eval(header[10:].decode()), {
            "descr": kind.value, "fortran_order": order is Order.FORTRAN,
            "shape": (count, *extents) if axis is Axis.FIRST else (*extents, count)})

    def ask_numpy(self, whole: bytes, extents: Subscripts, count: int, axis: Axis, order: Order, kind: Kind) -> None:
        """What NumPy loads are the elements, and what it saves comes back as the same frames."""
        loaded = numpy.load(self.array)
        self.assertEqual(loaded.dtype, numpy.dtype(kind.value))
        for f in range(count):
            frame = loaded[f] if axis is Axis.FIRST else loaded[..., f]
            for at in column_major(extents):
                self.assertEqual(int(frame[at]), max(0 if kind.unsigned else -2**31, value(f, at)))
        numpy.save(self.array, numpy.array(loaded, order=order.value))
        self.assertEqual(self.comes(axis), whole)

    def test_each_rank(self) -> None:
        for rank in range(1, 8):
            self.each(rank, 3)

    def test_few_frames(self) -> None:
        for count in (0, 1):
            self.each(2, count)

    def test_many_frames_a_few_at_once(self) -> None:
        with mock.patch.object(npy, "ROOM", 14):
            self.each(2, 11)

    def test_frames_above_the_room(self) -> None:
        with mock.patch.object(npy, "ROOM", 5):
            self.each(2, 3)

    def test_a_longest_dimension_in_the_middle(self) -> None:
        with mock.patch.object(sys.modules[__name__], "EXTENTS", (2, 9, 3)):
            self.each(3, 2)

    def test_versions_and_spaces_of_headers(self) -> None:
        lies = data((2, 3), 2, Axis.FIRST, Order.C, Kind.LITTLE)
        for version in (1, 2, 3):
            self.array.write_bytes(npy_file("(2, 2, 3)", lies, version=version))
            self.assertEqual(self.comes(Axis.FIRST), frame_file((2, 3), 2))

    def test_through_pipes(self) -> None:
        whole = frame_file((2, 3), 4)
        for words in ("--order=C --frames=first", "--order=C --frames=last", "--order=F --type=>i4"):
            done = subprocess.run([sys.executable, "-B", "-W", "error", FRAMES, "to-npy", *words.split(), self.array],
                                  input=whole, capture_output=True, check=True)
            self.assertEqual((done.stdout, done.stderr), (b"", b""))
            axis = [it for it in words.split() if it.startswith("--frames")]
            done = subprocess.run([sys.executable, "-B", "-W", "error", FRAMES, "from-npy", *axis, self.array],
                                  capture_output=True, check=True)
            self.assertEqual((done.stdout, done.stderr), (whole, b""))


class Memory(Room):
    """A file is moved in the memory of few frames, whichever way its elements lie."""

    def test_few_frames_are_kept(self) -> None:
        elements, count = 2**12, 20
        lies = bytes(4 * elements * count)
        for axis, fortran in product(Axis, ("False", "True")):
            shape = f"({count}, 64, 64)" if axis is Axis.FIRST else f"(64, 64, {count})"
            self.array.write_bytes(npy_file(shape, lies, fortran=fortran))
            with mock.patch.object(npy, "ROOM", 1), self.file.open("wb") as out:
                self.few(lambda: frames.from_npy(self.array, axis, out), 4 * elements)
            order = Order.FORTRAN if fortran == "True" else Order.C
            with mock.patch.object(npy, "ROOM", 1), self.file.open("rb") as file:
                self.few(lambda: frames.to_npy(file, self.array, axis, order, Kind.BIG), 4 * elements)

    def few(self, move, frame: int) -> None:
        tracemalloc.start()
        try:
            move()
            self.assertLess(tracemalloc.get_traced_memory()[1], 7 * frame)
        finally:
            tracemalloc.stop()


class Refused(Room):
    """Files that are refused, each with a sentence and no trace of the program."""

    def says(self, words: list[str], given: bytes = b"") -> str:
        done = subprocess.run([sys.executable, "-B", "-W", "error", FRAMES, *words], input=given, capture_output=True,
                              check=False)
        self.assertEqual(done.returncode, 1, done.stderr)
        self.assertNotIn(b"Traceback", done.stderr)
        self.assertRegex(done.stderr, rb"\Aframes\.py: [^\n]+\n\Z")
        return done.stderr.decode().removeprefix("frames.py: ").removesuffix("\n")

    def refuses(self, file: bytes, sentence: str) -> None:
        self.array.write_bytes(file)
        self.assertIn(sentence, self.says(["from-npy", str(self.array)]))

    def test_other_types(self) -> None:
        for descr in ("'<f4'", "'<f8'", "'<i8'", "'<u8'", "'<i2'", "'|b1'", "'<c8'", "'|O'", "'int32'", "[('x', '<i4')]", "7"):
            self.refuses(npy_file("(1, 1)", bytes(4), descr), "its elements are of type")

    def test_sizes(self) -> None:
        self.refuses(npy_file("(2, 3)", bytes(23)), "23 bytes follow the header, and the shape (2, 3) asks for 24")
        self.refuses(npy_file("(2, 3)", bytes(25)), "25 bytes follow the header")
        self.refuses(npy_file("(2, 3)", b""), "0 bytes follow the header")

    def test_headers(self) -> None:
        self.refuses(b"", "the file ends early")
        self.refuses(b"\x93NUMPY\x01", "the file ends early")
        self.refuses(b"\x93NUMPY\x01\x00\x76\x00{'descr'", "the file ends early")
        self.refuses(frame_file((2,), 1), "this is no .npy file")
        self.refuses(b"\x93NUMPY\x09\x00\x10\x00", "version 9.0")
        self.refuses(b"\x93NUMPY\x02\x00\xff\xff\xff\xff", "the header has 4294967295 bytes")
        for text in (b"", b"{", b"3", b"{'descr': '<i4'}", b"f()", b"\xff", b"'\\d'", b"(" * 3000, b"{}[0]", b"\x00",
                     b"{'descr': '<i4', 'fortran_order': False, 'shape': (1, 1), 'more': 0}", b"{[]: 1}"):
            for version in (1, 3):
                size = struct.pack("<H" if version == 1 else "<I", len(text))
                self.refuses(b"\x93NUMPY" + bytes((version, 0)) + size + text, "the header is no dictionary")
        self.refuses(npy_file("(1, 1)", bytes(4), fortran="0"), "fortran_order")
        for shape in ("[1, 1]", "(1, -1)", "(1, True)", "(1, 1.0)", "7", "'11'"):
            self.refuses(npy_file(shape, bytes(4)), "the shape is no tuple of extents")

    def test_shapes(self) -> None:
        self.refuses(npy_file("()", bytes(4)), "has no axis beside that of the frames")
        self.refuses(npy_file("(1,)", bytes(4)), "has no axis beside that of the frames")
        self.refuses(npy_file("(1, 0)", b""), "a frame has from 1 to 16777216 elements")
        self.refuses(npy_file("(0, 4096, 4097)", b""), "a frame has from 1 to 16777216 elements")
        self.refuses(npy_file("(1, 1, 1, 1, 1, 1, 1, 1, 1)", bytes(4)), "a frame has from 1 to 7 dimensions, and not 8")
        self.refuses(npy_file("(4294967296, 0)", b""), "a frame has from 1 to 16777216 elements")

    def test_numbers_that_do_not_fit(self) -> None:
        self.refuses(npy_file("(2, 1)", bytes(4) + b"\0\0\0\x80", "'<u4'"), "frame 1 has an element 2147483648")
        self.assertIn("an element -2147483648, and type <u4 has none below 0",
                      self.says(["to-npy", str(self.array), "--type=<u4"], frame_file((1,), 0)[:-5] + bytes.fromhex(
                          "01 00000000 80000000 00 00000001")))

    def test_files_that_are_not_there(self) -> None:
        self.assertIn("No such file", self.says(["from-npy", str(self.array)]))
        self.assertIn("Is a directory", self.says(["from-npy", str(self.room)]))
        self.assertIn("No such file", self.says(["to-npy", str(self.room / "nowhere" / "x")], frame_file((1,), 0)))

    def test_frame_files(self) -> None:
        whole = frame_file((2, 3), 2)
        self.array.write_bytes(b"kept")
        broken = [whole[:k] for k in range(len(whole))] + [
            whole + b"\0", b"x" + whole[1:], whole[:-1] + b"\3", whole[:16] + b"\2" + whole[17:],
            whole[:20] + b"\1" + whole[21:], frame_file((2, 0), 0), whole[:5] + b"\0" + whole[6:]]
        with mock.patch.object(npy, "ROOM", 6):
            for file, axis, order in product(broken, Axis, Order):
                self.file.write_bytes(file)
                with self.assertRaises(npy.Bad):
                    self.goes(axis, order, Kind.LITTLE)
        self.assertEqual(self.array.read_bytes(), b"kept")
        self.assertEqual(sorted(it.name for it in self.room.iterdir()), ["array.npy", "file.hpff"])
        self.assertEqual(self.says(["show"], whole[:-1]), "the file ends early")

    def test_texts(self) -> None:
        for text in ("", "frame 1", "extents", "extents 0", "extents 1 1 1 1 1 1 1 1", "extents 2\nframe 1", "extents 1\nframe x",
                     "extents 1\nframe 2147483648", "extents 1\nextents 1", "extents -1", "word", "extents 4096 4097"):
            self.says(["make"], text.encode())
        self.says(["make"], b"extents 1\nframe \xff")
        self.says(["fill", "1", "0"])
        self.says(["fill", "-1", "1"])


if __name__ == "__main__":
    unittest.main()
