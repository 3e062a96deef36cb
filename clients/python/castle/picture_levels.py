"""The levels of a store as a picture in SVG: what is in each, how full the store is, how dense its arrays are, and which
versions are read from which array. Lengths are pixels."""

from __future__ import annotations

from itertools import groupby
from typing import Dict, Iterator, List, NamedTuple, Sequence, Tuple

from .levels import Array, Level, Levels, heading, in_short, listed
from .picture import HEADING, MARGIN, Drawing, width_of
from .text import counted

LABEL, WIDE = 216, 900  # of the labels at the left, and of what is drawn beside them
LEFT = MARGIN + LABEL
GAP = 34  # between two parts of the picture
SIGNS = (("array", "leads of an array; the darker, the denser it is"), ("copies", "copies of other arrays' entries"),
         ("capacity", "room for leads; each row has its own scale"))
LIGHT, DARK = (184, 222, 200), (38, 122, 82)  # the shades of the densities 1/3 and 1


def svg(levels: Levels, title: str) -> Iterator[str]:
    """The levels as a picture, under a heading that begins with a title."""
    drawing = Drawing()
    said = f"{title}: {heading(levels)}"
    drawing.head(said, SIGNS, array=shade(2 / 3))
    bottom = _rows(drawing, levels, HEADING)
    bottom = max(_gauges(drawing, levels, bottom + GAP), _histogram(drawing, levels.arrays, bottom + GAP))
    if levels.arrays:
        _grid(drawing, levels, bottom + GAP)
    yield from drawing.svg(said)


def shade(density: float) -> str:
    """The colour of a density."""
    share = min(1.0, max(0.0, (density - 1 / 3) * 1.5))
    return "#" + "".join(f"{round(light + share * (dark - light)):02x}" for light, dark in zip(LIGHT, DARK))


def told(array: Array) -> str:
    """An array in words, for one who points at it."""
    return (f"array {array.id}: {counted(array.entries, 'entry')}, {counted(array.leads, 'lead')}, "
            f"density {array.least}/{array.entries}, versions {in_short(array.versions)}")


# Levels: a row for each, and arrays side by side in it

ROW, BOX = 62, 34


def _rows(drawing: Drawing, levels: Levels, top: float) -> float:
    """The journal, and each level under it with its arrays; gives the bottom.

    Each row has a scale of its own: it is as long as the level has room for leads, or for its entries where these are more.
    """
    _label(drawing, top, "journal", f"{levels.journal_changes:,} of {counted(levels.journal_most, 'change')}",
           counted(levels.journal_updates, "update"))
    drawing.box("capacity", LEFT, top, WIDE, BOX)
    if levels.journal_changes:
        drawing.box("journal", LEFT, top, WIDE * levels.journal_changes / levels.journal_most, BOX)
    for level in levels.levels:
        top += ROW
        room = levels.capacity(level.number)
        _label(drawing, top, f"level {level.number}", f"{level.leads:,} of {counted(room, 'lead')}",
               f"{counted(len(level.arrays), 'array')}, horizon {level.horizon:,}")
        scale = WIDE / max(room, sum(array.entries for array in level.arrays))
        left = float(LEFT)
        for array in level.arrays:
            _array(drawing, array, left, top, array.entries * scale)
            left += array.entries * scale
        drawing.box("capacity", LEFT, top, room * scale, BOX)
    return top + ROW


def _label(drawing: Drawing, top: float, *lines: str) -> None:
    """Up to three lines at the left, the first one in bold."""
    for place, (line, kind) in enumerate(zip(lines, ("name", "small", "small"))):
        drawing.text(kind, MARGIN, top + 11 + 14 * place, line)


def _array(drawing: Drawing, array: Array, left: float, top: float, width: float) -> None:
    """An array: its leads, over them its copies, and under it what fits of its number, its density and its versions."""
    drawing.box("array", left, top, width, BOX, told(array), fill=shade(array.density), **_edgeless(width))
    if array.copies:
        drawing.box("copies", left, top, width, BOX * array.copies / array.entries, told(array))
    name = f"{array.id}: {array.density:.0%}"
    for text in (f"{name}, v {listed(array.versions)}", name, f"{array.id}"):
        if width_of(text, 11) <= width - 4:
            drawing.text("small", left + width / 2, top + BOX + 13, text, "middle")
            return


def _edgeless(width: float) -> Dict[str, str]:
    """The style of a box that is too thin for an edge."""
    return {} if width >= 4 else {"style": "stroke: none"}


# Gauges: how much is used of what there is, or of what is proved

class Gauge(NamedTuple):
    """A number beside the most that it can be."""

    name: str
    used: int
    most: int
    meaning: str


def limited(levels: Levels) -> List[Gauge]:
    """The numbers of a store that its limits bound."""
    meaning = "changes until it is emptied (M)" if levels.journal_most == levels.mem else "changes while it is emptied (2M - 2)"
    return [Gauge("journal", levels.journal_changes, levels.journal_most, meaning),
            Gauge("changes", levels.changes, levels.changes_max, "changes of the store's life (C)"),
            Gauge("versions", levels.versions, levels.versions_max, "versions of the store's life (V)")]


def bounded(levels: Levels) -> List[Gauge]:
    """The numbers of a store that have a proved bound."""
    emptied = levels.changes - levels.journal_changes
    return [Gauge("stored", levels.stored, levels.stored_most, f"entries: 2 for each of {counted(levels.updates, 'update')}"),
            Gauge("written", levels.written, levels.written_most,
                  f"entries: 4 x {counted(levels.depth, 'level')} x {counted(emptied, 'change')}")]


BAR, STEP = 150, 27


def _gauges(drawing: Drawing, levels: Levels, top: float) -> float:
    """A bar for each gauge; gives the bottom."""
    drawing.text("name", MARGIN, top + 11, "used, of limits and proved bounds")
    top += 24
    for gauge in limited(levels) + bounded(levels):
        share = min(1.0, gauge.used / gauge.most) if gauge.most else 0.0
        drawing.text("", MARGIN, top + 13, gauge.name)
        drawing.box("most", MARGIN + 80, top + 2, BAR, 14)
        if share:
            drawing.box("full", MARGIN + 80, top + 2, BAR * share, 14)
        drawing.text("small", MARGIN + 80 + BAR + 10, top + 13, f"{gauge.used:,} of {gauge.most:,} {gauge.meaning}")
        top += STEP
    return top


# Histogram of densities

BINS, BIN, HIGH = 30, 10, 110  # bins of a thirtieth, so that a third is where one of them begins
HISTOGRAM = LEFT + WIDE - BINS * BIN


def binned(arrays: Sequence[Array]) -> List[int]:
    """How many arrays have a density of 0/30 to less than 1/30, of 1/30 to less than 2/30, and so on; 1 is in the last."""
    counts = [0] * BINS
    for array in arrays:
        counts[min(BINS - 1, BINS * array.least // array.entries)] += 1
    return counts


def _histogram(drawing: Drawing, arrays: Sequence[Array], top: float) -> float:
    """How many arrays have which density, with the least one that is proved; gives the bottom."""
    drawing.text("name", HISTOGRAM, top + 11, "densities of arrays")
    floor = top + 30 + HIGH
    counts = binned(arrays)
    most = max(counts)
    for place, count in enumerate(counts):
        if count:
            high = max(1.0, HIGH * count / most)
            said = f"{counted(count, 'array')} of a density from {place}/{BINS} on"
            drawing.box("bar", HISTOGRAM + place * BIN + 1, floor - high, BIN - 2, high, said)
    if most:
        peak = counts.index(most)
        drawing.text("small", HISTOGRAM + (peak + 0.5) * BIN, floor - HIGH - 4, f"{most:,}", "middle")
    end = HISTOGRAM + BINS * BIN
    drawing.path("axis", f"M{HISTOGRAM} {floor:.1f}H{end}", end, floor)
    third = HISTOGRAM + BINS * BIN / 3
    drawing.path("third", f"M{third:.1f} {floor - HIGH:.1f}V{floor + 4:.1f}", third, floor + 4)
    for density, text in ((0.0, "0"), (1 / 3, "1/3, the least that is proved"), (1.0, "1")):
        drawing.text("small", HISTOGRAM + density * BINS * BIN, floor + 16, text, "middle")
    return floor + 20


# Grid: a row for each array, a column for each version or for several

COLUMNS, CELL, THIN, THICK, TALL = 450, 16, 2, 14, 900  # columns at most; sizes of cells; the height that rows share
READABLE = 9  # the least height of a row that has room for a number


def _grid(drawing: Drawing, levels: Levels, top: float) -> None:
    """Which versions are read from which array."""
    each = -(-levels.versions // COLUMNS)
    columns = -(-levels.versions // each)
    wide = min(CELL, WIDE / columns)
    high = min(THICK, max(THIN, TALL / len(levels.arrays)))
    several = f", {each} versions a column" if each > 1 else ""
    drawing.text("name", MARGIN, top + 11, f"arrays by versions{several}")
    _axis(drawing, levels.versions, each, wide, top + 30)
    top += 36
    for level in levels.levels:
        room = max(18.0, high * len(level.arrays))
        drawing.text("small", MARGIN, top + 13, f"level {level.number}")
        drawing.box("sheet", LEFT, top, wide * columns, high * len(level.arrays))
        for place, array in enumerate(level.arrays):
            _cells(drawing, array, each, wide, top + place * high, high)
        top += room + 8


def _axis(drawing: Drawing, versions: int, each: int, wide: float, line: float) -> None:
    """The numbers of some versions over their columns, far enough from each other."""
    step = next(step for step in steps() if step / each * wide >= width_of(f"{versions:,}", 11) + 12)
    for version in range(0, versions, step):
        drawing.text("small", LEFT + (version // each + 0.5) * wide, line, f"{version:,}", "middle")


def steps() -> Iterator[int]:
    """1, 2, 5, 10, 20, 50 and so on."""
    power = 1
    while True:
        yield from (power, 2 * power, 5 * power)
        power *= 10


def _cells(drawing: Drawing, array: Array, each: int, wide: float, top: float, high: float) -> None:
    """The row of an array, with its number where there is room for it."""
    way = "".join(f"M{LEFT + first * wide:.1f} {top:.1f}h{count * wide:.1f}v{high:.1f}h{-count * wide:.1f}z"
                  for first, count in runs(array.versions, each))
    right = LEFT + (array.versions[-1] // each + 1) * wide
    drawing.path("cells", way, right, top + high, told(array), fill=shade(array.density))
    if high >= READABLE:
        drawing.text("tiny", LEFT - 8, top + high / 2 + 3.5, f"array {array.id}", "end")


def runs(versions: Sequence[int], each: int) -> Iterator[Tuple[int, int]]:
    """The columns of versions, as runs: the first column of each, and how many it has."""
    columns = sorted({version // each for version in versions})
    for _, run in groupby(enumerate(columns), lambda pair: pair[1] - pair[0]):
        members = [column for _, column in run]
        yield members[0], len(members)
