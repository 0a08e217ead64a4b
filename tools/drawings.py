"""Pictures of cells in rows and columns, as lines of text and as SVG."""
from __future__ import annotations

import colorsys
from collections.abc import Iterator, Sequence
from dataclasses import dataclass
from enum import Enum
from html import escape

# A picture in text has so many columns, where its cells leave it the choice.
PAGE = 100
CELL, LINE, GAP, LETTER = 24, 18, 12, 7
INK, EDGE, PAPER, GREY = "#222222", "#888888", "#ffffff", "#cccccc"


class Kind(Enum):
    """What the elements of a cell are, in the words of the legend."""

    OWNED = "owned by processor"
    REPLICATED = "owned by each of the processors"
    HELD = "held, and owned"
    SHADOW = "held as shadow"
    NOTHING = "not held"
    MIXED = "elements that differ"


@dataclass(frozen=True)
class Cell:
    kind: Kind
    processors: tuple[int, ...]
    label: str

    @property
    def told(self) -> str:
        """The words of the legend."""
        if self.kind in (Kind.OWNED, Kind.REPLICATED):
            return f"{self.kind.value} {' '.join(map(str, self.processors))}"
        return self.kind.value


@dataclass(frozen=True)
class Panel:
    """Cells with a word for each row and each column."""

    heading: str
    rows: Sequence[str]
    columns: Sequence[str]
    cells: Sequence[Sequence[Cell]]


@dataclass(frozen=True)
class Picture:
    panels: Sequence[Panel]
    notes: Sequence[str]

    def different(self) -> list[Cell]:
        """The different cells in the order of the legend."""
        cells = {cell for panel in self.panels for row in panel.cells for cell in row}
        order = list(Kind)
        return sorted(cells, key=lambda it: (order.index(it.kind), it.processors))

    def legend(self) -> list[Cell]:
        """A cell for each of the legend's words."""
        told: dict[str, Cell] = {}
        for cell in self.different():
            told.setdefault(cell.told, cell)
        return list(told.values())


def shade(processor: int) -> tuple[float, float, float]:
    """A light colour that is unlike those of the processors beside it."""
    return colorsys.hls_to_rgb(processor * 137 % 360 / 360, 0.74, 0.62)


def fill(processor: int) -> str:
    return "#" + "".join(f"{round(255 * it):02x}" for it in shade(processor))


# Text


def coloured(cell: Cell, shown: str) -> str:
    """What is shown of a cell, with the colours of a terminal that has 256 of them."""
    if cell.kind is Kind.NOTHING:
        return shown
    if cell.kind in (Kind.OWNED, Kind.HELD):
        red, green, blue = (round(5 * it) for it in shade(cell.processors[0]))
        return f"\x1b[38;5;16;48;5;{16 + 36 * red + 6 * green + blue}m{shown}\x1b[0m"
    look = {Kind.REPLICATED: "1;7", Kind.SHADOW: "4", Kind.MIXED: "2"}[cell.kind]
    return f"\x1b[{look}m{shown}\x1b[0m"


def heads(columns: Sequence[str], wide: int) -> str:
    """The words of the columns, each ending where its column does, or beginning there if it is wider; one that has no
    room is left out."""
    line = ""
    for k, word in enumerate(columns):
        front = (k + 1) * wide - min(len(word), wide - 1)
        if front >= len(line) + (1 if line else 0):
            line += " " * (front - len(line)) + word
    return line


def panel_text(panel: Panel, colours: bool) -> Iterator[str]:
    inside = max(len(cell.label) for row in panel.cells for cell in row)
    wide = max(inside, *map(len, panel.columns)) + 1
    if wide * len(panel.columns) > PAGE:
        wide = inside + 1
    side = max(map(len, panel.rows))
    yield panel.heading
    yield ""
    yield f"  {' ' * side} {heads(panel.columns, wide)}"
    for word, row in zip(panel.rows, panel.cells):
        shown = (coloured(it, it.label.rjust(wide)) if colours else it.label.rjust(wide) for it in row)
        yield f"  {word:>{side}} {''.join(shown)}"


def text(picture: Picture, colours: bool) -> Iterator[str]:
    for k, panel in enumerate(picture.panels):
        if k > 0:
            yield ""
        yield from panel_text(panel, colours)
    legend = [it for it in picture.legend() if it.kind is not Kind.OWNED]
    if legend or picture.notes:
        yield ""
    side = max((len(it.label) for it in legend), default=0)
    for cell in legend:
        yield f"  {cell.label:>{side}}  {cell.told}"
    yield from picture.notes


# SVG


def stripes(name: str, colours: Sequence[str], wide: int) -> str:
    bands = "".join(f'<rect x="{k * wide}" width="{wide}" height="{CELL}" fill="{it}"/>' for k, it in enumerate(colours))
    return (f'<pattern id="{name}" width="{wide * len(colours)}" height="{CELL}" patternUnits="userSpaceOnUse" '
            f'patternTransform="rotate(45)">{bands}</pattern>')


def named(cell: Cell) -> str:
    return "-".join([cell.kind.name.lower(), *map(str, cell.processors)])


def pattern(cell: Cell) -> str | None:
    """The pattern of a cell that isn't of one colour."""
    if cell.kind is Kind.REPLICATED:
        return stripes(named(cell), [fill(it) for it in cell.processors], 6)
    if cell.kind is Kind.SHADOW:
        return stripes(named(cell), [PAPER, fill(cell.processors[0])], 3)
    return None


def paint(cell: Cell) -> str:
    if cell.kind in (Kind.OWNED, Kind.HELD):
        return fill(cell.processors[0])
    if cell.kind in (Kind.REPLICATED, Kind.SHADOW):
        return f"url(#{named(cell)})"
    return GREY if cell.kind is Kind.MIXED else PAPER


def word(x: float, y: float, words: str, anchor: str) -> str:
    return f'<text x="{x:g}" y="{y:g}" text-anchor="{anchor}">{escape(words)}</text>'


def square(cell: Cell, x: int, y: int, wide: int) -> Iterator[str]:
    yield f'<rect x="{x}" y="{y}" width="{wide}" height="{CELL}" fill="{paint(cell)}" stroke="{EDGE}"/>'
    if cell.kind is not Kind.NOTHING:
        yield word(x + wide / 2, y + 16, cell.label, "middle")


@dataclass(frozen=True)
class Page:
    """Where things stand in an SVG picture: the panels begin at `side`, and their cells are `wide`."""

    picture: Picture
    side: int
    wide: int

    def panel(self, panel: Panel, y: int) -> Iterator[str]:
        yield word(GAP, y + 13, panel.heading, "start")
        y += 2 * LINE
        every = -(-max(len(it) + 1 for it in panel.columns) * LETTER // self.wide)
        for k, told in enumerate(panel.columns):
            if k % every == 0:
                yield word(self.side + (k + 0.5) * self.wide, y - 5, told, "middle")
        for told, row in zip(panel.rows, panel.cells):
            yield word(self.side - 6, y + 16, told, "end")
            for k, cell in enumerate(row):
                yield from square(cell, self.side + k * self.wide, y, self.wide)
            y += CELL

    def legend(self, y: int) -> Iterator[str]:
        for cell in self.picture.legend():
            yield from square(cell, GAP, y, self.wide)
            yield word(GAP + self.wide + 8, y + 16, cell.told, "start")
            y += CELL + 4
        for note in self.picture.notes:
            yield word(GAP, y + 13, note, "start")
            y += LINE

    def body(self) -> tuple[list[str], int]:
        """All that is drawn, and how high it is."""
        drawn: list[str] = []
        y = GAP
        for panel in self.picture.panels:
            drawn += self.panel(panel, y)
            y += 2 * LINE + CELL * len(panel.rows) + GAP
        drawn += self.legend(y)
        return drawn, y + (CELL + 4) * len(self.picture.legend()) + LINE * len(self.picture.notes) + GAP


def svg(picture: Picture) -> Iterator[str]:
    panels, legend = picture.panels, picture.legend()
    label = max(len(cell.label) for cell in picture.different())
    side = GAP + 6 + LETTER * max(len(it) for panel in panels for it in panel.rows)
    page = Page(picture, side, max(CELL, LETTER * (label + 1)))
    words = [LETTER * len(it) for it in (*(panel.heading for panel in panels), *picture.notes)]
    words += [page.wide + 8 + LETTER * len(cell.told) for cell in legend]
    across = max(side + page.wide * max(len(panel.columns) for panel in panels), GAP + max(words)) + GAP
    drawn, down = page.body()
    yield (f'<svg xmlns="http://www.w3.org/2000/svg" width="{across}" height="{down}" viewBox="0 0 {across} {down}" '
           f'role="img" font-family="monospace" font-size="11" fill="{INK}">')
    yield f"<title>{escape(', '.join(panel.heading for panel in panels))}</title>"
    patterns = [it for it in map(pattern, picture.different()) if it]
    if patterns:
        yield f"<defs>{''.join(patterns)}</defs>"
    yield f'<rect width="{across}" height="{down}" fill="{PAPER}"/>'
    yield from drawn
    yield "</svg>"
