"""Stacks of frames in NumPy's `.npy` files, by the layout that NumPy publishes for versions 1.0 to 3.0 of that format.

A file has the axes of a frame, with one more for the frames in front of them or behind them. Its elements lie in C order
(the last axis runs fastest) or in Fortran order (the first does). Within this program a frame is an `array("i")` of
its elements in element order, the first subscript fastest.
"""
from __future__ import annotations

import ast
import os
import struct
import sys
from array import array
from collections.abc import Iterable, Iterator
from dataclasses import dataclass
from enum import Enum
from itertools import islice, product
from math import prod
from typing import BinaryIO

MAGIC = b"\x93NUMPY"
LENGTHS = {(1, 0): "<H", (2, 0): "<I", (3, 0): "<I"}
LONGEST_HEADER = 65535
ALIGNED = 64
# NumPy keeps so many digits for the axis that may grow, so that a header can be written over when their number is known.
DIGITS = 21
WIDTH = 4
GREATEST = 2**31 - 1
# How many elements of frames that alternate are kept at once: as many as the greatest frame has.
ROOM = 2**24


class Bad(Exception):
    """What is wrong with a file, in a sentence."""


class Axis(Enum):
    """Where the axis of frames stands."""

    FIRST = "first"
    LAST = "last"


class Order(Enum):
    C = "C"
    FORTRAN = "F"


class Kind(Enum):
    """Integers of 4 bytes, as NumPy writes their types: the order of bytes, then whether there is a sign."""

    LITTLE = "<i4"
    BIG = ">i4"
    LITTLE_UNSIGNED = "<u4"
    BIG_UNSIGNED = ">u4"

    @property
    def unsigned(self) -> bool:
        return self.value[1] == "u"

    @property
    def swapped(self) -> bool:
        return (self.value[0] == "<") != (sys.byteorder == "little")


@dataclass(frozen=True)
class Stack:
    """How the elements of a number of frames lie in a file."""

    kind: Kind
    order: Order
    axis: Axis
    extents: tuple[int, ...]

    @property
    def elements(self) -> int:
        return prod(self.extents)

    @property
    def alternate(self) -> bool:
        """Whether the axis of frames is the one that runs fastest."""
        return (self.order is Order.C) == (self.axis is Axis.LAST)

    def header(self, frames: int) -> bytes:
        shape = (frames, *self.extents) if self.axis is Axis.FIRST else (*self.extents, frames)
        fortran = self.order is Order.FORTRAN
        grows = shape[-1] if fortran else shape[0]
        text = f"{{'descr': '{self.kind.value}', 'fortran_order': {fortran}, 'shape': {shape!r}, }}"
        text += " " * (DIGITS - len(str(grows)))
        front = len(MAGIC) + 2 + struct.calcsize(LENGTHS[1, 0])
        text += " " * (ALIGNED - (front + len(text) + 1) % ALIGNED) + "\n"
        return MAGIC + bytes((1, 0)) + struct.pack(LENGTHS[1, 0], len(text)) + text.encode("ascii")

    def strides(self, order: Order) -> list[int]:
        """How far apart the neighbours along each dimension of one frame are."""
        extents = self.extents
        if order is Order.FORTRAN:
            return [prod(extents[:d]) for d in range(len(extents))]
        return [prod(extents[d + 1:]) for d in range(len(extents))]

    def turned(self, values: array[int], come: Order, go: Order) -> array[int]:
        """A frame's elements in another order, moved line by line along its longest dimension."""
        if come is go or len(self.extents) == 1:
            return values
        longest = self.extents.index(max(self.extents))
        extent, there, here = self.extents[longest], self.strides(come), self.strides(go)
        others = [d for d in range(len(self.extents)) if d != longest]
        goes = array(values.typecode, bytes(WIDTH * self.elements))
        for k, i in zip(*(map(sum, product(*(range(0, self.extents[d] * steps[d], steps[d]) for d in others)))
                          for steps in (here, there))):
            goes[k:k + extent * here[longest]:here[longest]] = values[i:i + extent * there[longest]:there[longest]]
        return goes


def take(file: BinaryIO, size: int) -> bytes:
    data = file.read(size)
    if len(data) < size:
        raise Bad("the file ends early")
    return data


def read_header(file: BinaryIO) -> dict[str, object]:
    """The three entries of a header."""
    front = take(file, len(MAGIC) + 2)
    if not front.startswith(MAGIC):
        raise Bad("this is no .npy file")
    length = LENGTHS.get((front[-2], front[-1]))
    if length is None:
        raise Bad(f"version {front[-2]}.{front[-1]} of .npy files isn't known")
    (size,) = struct.unpack(length, take(file, struct.calcsize(length)))
    if size > LONGEST_HEADER:
        raise Bad(f"the header has {size} bytes, and at most {LONGEST_HEADER} are read")
    text = take(file, size)
    try:
        header = ast.literal_eval(text.decode("utf-8" if front[-2] == 3 else "latin-1").strip())
    except (ValueError, SyntaxError, TypeError, MemoryError, RecursionError) as it:
        raise Bad("the header is no dictionary of Python") from it
    if not isinstance(header, dict) or set(header) != {"descr", "fortran_order", "shape"}:
        raise Bad("the header is no dictionary of descr, fortran_order and shape")
    return header


def read_stack(file: BinaryIO, axis: Axis) -> tuple[Stack, int]:
    """How the elements of a file lie, and the number of its frames. The file then stands at its first element."""
    header = read_header(file)
    descr, fortran, shape = header["descr"], header["fortran_order"], header["shape"]
    if not isinstance(descr, str) or descr not in {it.value for it in Kind}:
        raise Bad(f"its elements are of type {descr!r:.60}, and a frame has integers of 4 bytes: "
                  + ", ".join(it.value for it in Kind))
    if not isinstance(fortran, bool):
        raise Bad("fortran_order is neither True nor False")
    if not isinstance(shape, tuple) or not all(type(it) is int and it >= 0 for it in shape):
        raise Bad("the shape is no tuple of extents")
    if len(shape) < 2:
        raise Bad(f"the shape {shape} has no axis beside that of the frames")
    frames, extents = (shape[0], shape[1:]) if axis is Axis.FIRST else (shape[-1], shape[:-1])
    size, due = os.fstat(file.fileno()).st_size - file.tell(), WIDTH * prod(shape)
    if size != due:
        raise Bad(f"{size} bytes follow the header, and the shape {shape} asks for {due}")
    return Stack(Kind(descr), Order.FORTRAN if fortran else Order.C, axis, extents), frames


def read_frames(file: BinaryIO, stack: Stack, frames: int) -> Iterator[array[int]]:
    """The frames of a file that stands at its first element, each in element order."""
    lying = alternating(file, stack.elements, frames) if stack.alternate else following(file, stack.elements, frames)
    for number, data in enumerate(lying):
        values = array("I" if stack.kind.unsigned else "i", data)
        if stack.kind.swapped:
            values.byteswap()
        if stack.kind.unsigned:
            if max(values) > GREATEST:
                raise Bad(f"frame {number} has an element {max(values)}, and the greatest of a frame is {GREATEST}")
            values = array("i", values.tobytes())
        yield stack.turned(values, stack.order, Order.FORTRAN)


def following(file: BinaryIO, elements: int, frames: int) -> Iterator[bytes]:
    for _ in range(frames):
        yield take(file, WIDTH * elements)


def at_once(elements: int) -> int:
    """How many frames that alternate are moved at once. Each byte of a file is moved once all the same."""
    return max(1, ROOM // elements)


def alternating(file: BinaryIO, elements: int, frames: int) -> Iterator[bytes]:
    start = file.tell()
    for first in range(0, frames, at_once(elements)):
        some = min(at_once(elements), frames - first)
        block = bytearray(WIDTH * some * elements)
        for k in range(elements):
            piece = os.pread(file.fileno(), WIDTH * some, start + WIDTH * (k * frames + first))
            if len(piece) < WIDTH * some:
                raise Bad("the file ends early")
            block[WIDTH * some * k:WIDTH * some * (k + 1)] = piece
        with memoryview(block).cast("i") as values:
            for f in range(some):
                yield values[f::some].tobytes()


def write_frames(file: BinaryIO, stack: Stack, frames: Iterable[array[int]], number: int | None) -> None:
    """Writes a whole file. Where frames alternate their number has to be known before."""
    header = stack.header(number or 0)
    file.write(header)
    lying = (laid(stack, values) for values in frames)
    if stack.alternate:
        assert number is not None
        alternate(file, lying, stack.elements, number)
        return
    count = 0
    for values in lying:
        file.write(values)
        count += 1
    file.seek(0)
    file.write(stack.header(count))


def laid(stack: Stack, values: array[int]) -> array[int]:
    """The elements of a frame as they lie in the file."""
    if stack.kind.unsigned and min(values) < 0:
        raise Bad(f"a frame has an element {min(values)}, and type {stack.kind.value} has none below 0")
    lies = stack.turned(values, Order.FORTRAN, stack.order)
    if stack.kind.swapped:
        lies = array(lies.typecode, lies)
        lies.byteswap()
    return lies


def alternate(file: BinaryIO, frames: Iterator[array[int]], elements: int, number: int) -> None:
    file.flush()
    start = file.tell()
    for first in range(0, number, at_once(elements)):
        some = min(at_once(elements), number - first)
        block = array("i", bytes(WIDTH * some * elements))
        for f, values in enumerate(islice(frames, some)):
            block[f::some] = values
        with memoryview(block).cast("B") as data:
            for k in range(elements):
                os.pwrite(file.fileno(), data[WIDTH * some * k:WIDTH * some * (k + 1)],
                          start + WIDTH * (k * number + first))
    # What is behind the last frame is judged by the one who gives them.
    next(frames, None)
