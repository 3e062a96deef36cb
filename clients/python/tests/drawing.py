"""Reads pictures in SVG: where their boxes, cells and texts lie. Lengths are pixels."""

from __future__ import annotations

import re
from typing import Iterator, List, NamedTuple, Sequence, Tuple
from xml.etree import ElementTree

SPACE = "{http://www.w3.org/2000/svg}"
SIZES = {"heading": 15, "small": 11, "end": 11, "tiny": 9}  # of letters, else 13
LETTER = 0.6  # the width of a letter by its size; those of other scripts are as wide as high
ROUNDING = 0.11
CELL = re.compile(r"M([\d.]+) ([\d.]+)h([\d.]+)v([\d.]+)h-[\d.]+z")
NUMBER = re.compile(r"-?\d+(?:\.\d+)?")


class Part(NamedTuple):
    """A box or a text, and the room that it takes."""

    kind: str
    left: float
    top: float
    right: float
    bottom: float
    fill: str
    text: str
    """What a text says, or what is told of a box where the pointer rests on it."""

    @property
    def width(self) -> float:
        return self.right - self.left

    @property
    def height(self) -> float:
        return self.bottom - self.top

    def overlaps(self, other: Part) -> bool:
        """Whether it lies on another part. What is less than a tenth of a pixel comes of rounding."""
        return (min(self.right, other.right) - max(self.left, other.left) > ROUNDING
                and min(self.bottom, other.bottom) - max(self.top, other.top) > ROUNDING)


class Picture:
    """A picture with its size and its parts: boxes, texts, and rows of cells, each of which has a list of boxes."""

    def __init__(self, svg: str) -> None:
        root = ElementTree.fromstring(svg)
        self.width, self.height = float(root.get("width", "")), float(root.get("height", ""))
        self.boxes = list(_boxes(root))
        self.texts = list(_texts(root))
        self.rows = list(_rows(root))
        self.paths = [(path.get("class", ""), path.get("d", "")) for path in root.iter(f"{SPACE}path")]

    def beyond(self) -> List[Part]:
        """The parts that do not lie within the picture."""
        cells = [cell for row in self.rows for cell in row]
        return [part for part in self.boxes + self.texts + cells
                if part.left < 0 or part.top < 0 or part.right > self.width or part.bottom > self.height]

    def of(self, kind: str) -> List[Part]:
        """The boxes of a kind, in the order in which they are drawn."""
        return [box for box in self.boxes if box.kind == kind]

    def written(self) -> List[str]:
        """What the texts say."""
        return [text.text for text in self.texts]

    def ends(self, kind: str) -> List[Tuple[float, float]]:
        """The place at which each path of a kind begins, across and down."""
        numbers = [NUMBER.findall(way) for found, way in self.paths if found == kind]
        return [(float(number[0]), float(number[1])) for number in numbers]


def overlaps(parts: Sequence[Part], others: Sequence[Part] = ()) -> List[Tuple[Part, Part]]:
    """The parts that lie on top of each other, or on one of the others where these are given."""
    return [(part, other) for place, part in enumerate(parts) for other in others or parts[:place] if part.overlaps(other)]


def _boxes(root: ElementTree.Element) -> Iterator[Part]:
    for box in root.iter(f"{SPACE}rect"):
        if box.get("class"):
            left, top, width, height = (float(box.get(name, "")) for name in ("x", "y", "width", "height"))
            yield Part(box.get("class", ""), left, top, left + width, top + height, box.get("fill", ""), _told(box))


def _told(part: ElementTree.Element) -> str:
    return part.findtext(f"{SPACE}title") or ""


def _rows(root: ElementTree.Element) -> Iterator[List[Part]]:
    for row in root.iter(f"{SPACE}path"):
        if row.get("class") == "cells":
            assert CELL.sub("", row.get("d", "")) == "", row.get("d")
            cells = [[float(number) for number in cell] for cell in CELL.findall(row.get("d", ""))]
            yield [Part("cells", left, top, left + width, top + height, row.get("fill", ""), _told(row))
                   for left, top, width, height in cells]


def _texts(root: ElementTree.Element) -> Iterator[Part]:
    for text in root.iter(f"{SPACE}text"):
        written, kind = text.text or "", text.get("class", "")
        size = SIZES.get(kind, 13)
        width = sum(size * (LETTER if char.isascii() else 1) for char in written)
        left, line = float(text.get("x", "")), float(text.get("y", ""))
        left -= {"middle": width / 2, "end": width}.get(text.get("text-anchor", ""), 0)
        yield Part(kind, left, line - 0.8 * size, left + width, line, "", written)
