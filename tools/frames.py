#!/usr/bin/env python3
"""Makes frame files from numbers in text or from NumPy's .npy files, and writes them back as such.

A text has a line `extents E1 E2 ..`, then for each frame a line `frame V1 V2 ..` with its elements in element order.
Empty lines, and lines that begin with `#`, say nothing.

A .npy file has integers of 4 bytes, in either order of bytes and in C or Fortran order. Its shape is that of a frame,
with one axis more for the frames, and a frame's element (i, j, ..) is the array's at [i, j, ..], counted from 0 there.
"""
from __future__ import annotations

import argparse
import os
import shutil
import signal
import stat
import struct
import sys
import tempfile
from array import array
from collections.abc import Iterator, Sequence
from contextlib import contextmanager
from math import prod
from pathlib import Path
from typing import BinaryIO, TextIO

import npy
from npy import Axis, Bad, Kind, Order, Stack, take

MAGIC = b"HPFF"
VERSION, WIDTH = 1, 4
MOST_DIMENSIONS, MOST_ELEMENTS, MOST_FRAMES = 7, 2**24, 2**32 - 1
MARK = 5


def checked(extents: Sequence[int]) -> Sequence[int]:
    """The extents, where a frame can have them."""
    if not 1 <= len(extents) <= MOST_DIMENSIONS:
        raise Bad(f"a frame has from 1 to {MOST_DIMENSIONS} dimensions, and not {len(extents)}")
    if min(extents) < 1 or prod(extents) > MOST_ELEMENTS:
        raise Bad(f"a frame has from 1 to {MOST_ELEMENTS} elements, and the extents are {' '.join(map(str, extents))}")
    return extents


def counted(frames: int) -> int:
    """The number of frames, where a file can have so many."""
    if not 0 <= frames <= MOST_FRAMES:
        raise Bad(f"there are from 0 to {MOST_FRAMES} frames, and not {frames}")
    return frames


def header(extents: Sequence[int]) -> bytes:
    return MAGIC + struct.pack(f">4B{len(extents)}I", VERSION, len(extents), WIDTH, 0, *checked(extents))


def record(number: int, values: array[int]) -> bytes:
    return struct.pack(">BI", 1, number) + big_endian(values).tobytes()


def end(count: int) -> bytes:
    return struct.pack(">BI", 0, count)


def big_endian(values: array[int]) -> array[int]:
    """The values with their bytes in the order of the file, or back in this machine's."""
    if sys.byteorder == "big":
        return values
    swapped = values[:]
    swapped.byteswap()
    return swapped


def read_extents(file: BinaryIO) -> Sequence[int]:
    magic, version, rank, width, zero = struct.unpack(">4s4B", take(file, 8))
    if (magic, version, width, zero) != (MAGIC, VERSION, WIDTH, 0):
        raise Bad("this is no frame file of version 1")
    return checked(struct.unpack(f">{rank}I", take(file, 4 * rank)))


def read_frames(file: BinaryIO, extents: Sequence[int]) -> Iterator[array[int]]:
    """The frames behind a header, up to the end of the file."""
    count = 0
    while True:
        mark, number = struct.unpack(">BI", take(file, MARK))
        if mark > 1 or number != count:
            raise Bad(f"neither frame {count} nor the end stands where one of them is due")
        if mark == 0:
            break
        yield big_endian(array("i", take(file, WIDTH * prod(extents))))
        count += 1
    if file.read(1):
        raise Bad("a byte follows the end")


def count_frames(file: BinaryIO, extents: Sequence[int]) -> int:
    """The number of frames of a file of this length that stands behind its header."""
    size = os.fstat(file.fileno()).st_size - file.tell() - MARK
    count, rest = divmod(size, MARK + WIDTH * prod(extents))
    if size < 0 or rest:
        raise Bad("the file doesn't end with a frame and the end")
    return count


def make(text: TextIO, out: BinaryIO) -> None:
    extents: Sequence[int] | None = None
    count = 0
    for at, line in enumerate(text, 1):
        words = line.split()
        if not words or words[0].startswith("#"):
            continue
        try:
            numbers = [int(it) for it in words[1:]]
            if words[0] == "extents" and extents is None and numbers:
                extents = numbers
                out.write(header(extents))
            elif words[0] == "frame" and extents is not None and len(numbers) == prod(extents):
                out.write(record(count, array("i", numbers)))
                count += 1
            else:
                raise Bad("this is no line of a frame file in text")
        except (ValueError, OverflowError, Bad) as it:
            raise Bad(f"line {at}: {it}") from it
    if extents is None:
        raise Bad("there is no line of extents")
    out.write(end(count))


def show(file: BinaryIO, out: TextIO) -> None:
    extents = read_extents(file)
    print("extents", *extents, file=out)
    for values in read_frames(file, extents):
        print("frame", *values, file=out)


def fill(frames: int, extents: list[int], out: BinaryIO) -> None:
    out.write(header(extents))
    elements = prod(extents)
    for number in range(counted(frames)):
        values = array("i", ((31 * number + 7 * k) % 65536 - 32768 for k in range(elements)))
        out.write(record(number, values))
    out.write(end(frames))


def from_npy(path: Path, axis: Axis, out: BinaryIO) -> None:
    with path.open("rb") as file:
        stack, frames = npy.read_stack(file, axis)
        front = header(stack.extents)
        lying = npy.read_frames(file, stack, counted(frames))
        out.write(front)
        for number, values in enumerate(lying):
            out.write(record(number, values))
        out.write(end(frames))


def to_npy(file: BinaryIO, path: Path, axis: Axis, order: Order, kind: Kind) -> None:
    with replacing(path) as out, again(file) as whole:
        extents = read_extents(whole)
        stack = Stack(kind, order, axis, tuple(extents))
        number = count_frames(whole, extents) if stack.alternate else None
        npy.write_frames(out, stack, read_frames(whole, extents), number)


@contextmanager
def replacing(path: Path) -> Iterator[BinaryIO]:
    """A file that takes the place of this one once it is written whole."""
    part = path.with_name(path.name + ".part")
    try:
        with part.open("wb") as file:
            yield file
        part.replace(path)
    finally:
        part.unlink(missing_ok=True)


@contextmanager
def again(file: BinaryIO) -> Iterator[BinaryIO]:
    """The input as a file whose length is known: itself, or what came through a pipe."""
    if stat.S_ISREG(os.fstat(file.fileno()).st_mode):
        yield file
        return
    with tempfile.TemporaryFile() as copy:
        shutil.copyfileobj(file, copy)
        copy.seek(0)
        yield copy


def words() -> argparse.ArgumentParser:
    parser = argparse.ArgumentParser(description=__doc__, formatter_class=argparse.RawDescriptionHelpFormatter)
    actions = parser.add_subparsers(dest="action", required=True, metavar="ACTION")
    actions.add_parser("make", help="make < TEXT > FILE makes the file of a text")
    actions.add_parser("show", help="show < FILE > TEXT prints it")
    filled = actions.add_parser(
        "fill", help="fill FRAMES EXTENT .. > FILE makes so many frames of numbers from -32768 to 32767")
    filled.add_argument("frames", type=int)
    filled.add_argument("extents", type=int, nargs="+", metavar="EXTENT")
    come = actions.add_parser("from-npy", help="from-npy ARRAY > FILE makes the file of a .npy file")
    go = actions.add_parser("to-npy", help="to-npy ARRAY < FILE writes one as a .npy file")
    for action in (come, go):
        action.add_argument("array", type=Path, metavar="ARRAY", help="the .npy file")
        action.add_argument("--frames", type=Axis, default=Axis.FIRST, metavar="first|last",
                            help="which axis of the array the frames are along (default: first)")
    go.add_argument("--order", type=Order, default=Order.C, metavar="C|F",
                    help="whether the last axis runs fastest or the first (default: C)")
    go.add_argument("--type", type=Kind, default=Kind.LITTLE, dest="kind",
                    metavar="|".join(it.value for it in Kind), help="the type of the elements (default: <i4)")
    return parser


def main() -> None:
    signal.signal(signal.SIGPIPE, signal.SIG_DFL)
    asked = words().parse_args()
    if asked.action == "make":
        sys.stdin.reconfigure(errors="replace")
        make(sys.stdin, sys.stdout.buffer)
    elif asked.action == "show":
        show(sys.stdin.buffer, sys.stdout)
    elif asked.action == "fill":
        fill(asked.frames, asked.extents, sys.stdout.buffer)
    elif asked.action == "from-npy":
        from_npy(asked.array, asked.frames, sys.stdout.buffer)
    else:
        to_npy(sys.stdin.buffer, asked.array, asked.frames, asked.order, asked.kind)


if __name__ == "__main__":
    assert array("i").itemsize == WIDTH
    try:
        main()
    except Bad as it:
        sys.exit(f"frames.py: {it}")
    except OSError as it:
        sys.exit(f"frames.py: {it.filename or 'standard input or output'}: {it.strerror or it}")
