"""What the pictures share: a drawing in SVG that grows with its parts, its style and its sizes. Lengths are pixels."""

from __future__ import annotations

from typing import Dict, Iterator, List, Sequence, Tuple
from xml.sax.saxutils import escape

MARGIN = 24
HEADING = 84  # where the parts under the heading and the legend begin
SIZES = {"heading": 15, "small": 11, "end": 11, "tiny": 9}  # of letters by their kind, else 13
STYLE = """
  text { font-family: 'DejaVu Sans', Verdana, sans-serif; font-size: 13px; fill: #1f2933; }
  text.heading { font-size: 15px; font-weight: bold; }
  text.name { font-weight: bold; }
  text.small, text.end { font-size: 11px; fill: #52606d; }
  text.tiny { font-size: 9px; fill: #52606d; }
  .edge { fill: none; stroke: #9aa5b1; stroke-width: 1.5; }
  .frozen { fill: #e4e7eb; stroke: #9aa5b1; }
  .open { fill: #e3f5ea; stroke: #2f8f5b; stroke-width: 1.5; }
  .named { stroke: #1f2933; stroke-width: 2.5; }
  .row { fill: #ffffff; stroke: #9aa5b1; stroke-dasharray: 4 3; }
  .array { stroke: #2f8f5b; stroke-width: 0.75; }
  .copies { fill: url(#hatched); }
  .capacity { fill: none; stroke: #1f2933; stroke-dasharray: 6 3; }
  .journal, .full { fill: #b8cfe6; stroke: #4a7fb0; stroke-width: 0.75; }
  .bar { fill: #5fb487; }
  .axis { stroke: #52606d; }
  .third { stroke: #c2410c; stroke-width: 1.5; }
  .most { fill: #ffffff; stroke: #9aa5b1; }
  .sheet { fill: #fbfcfd; stroke: #cbd2d9; }
"""
HATCHED = ('<defs><pattern id="hatched" width="5" height="5" patternUnits="userSpaceOnUse" patternTransform="rotate(45)">'
           '<rect width="5" height="5" fill="#ffffff"/><rect width="1.6" height="5" fill="#2f8f5b"/></pattern></defs>\n')

Sign = Tuple[str, str]
"""A kind of box, and what the legend says of it."""


def width_of(text: str, size: float = 13) -> float:
    """About how wide text is; a character of another script is as wide as high."""
    return sum(size * (0.66 if char.isascii() else 1.0) for char in text)


def cut(text: str, width: float, size: float = 13) -> str:
    """Text, or as much of its beginning as has room in a width, with two points behind it."""
    if width_of(text, size) <= width:
        return text
    while text and width_of(text + "..", size) > width:
        text = text[:-1]
    return text + ".."


class Drawing:
    """A picture in SVG. It is as large as its parts ask for, so that none lies beyond it."""

    def __init__(self) -> None:
        self._parts: List[str] = []
        self._right = self._bottom = 0.0
        self._is_hatched = False

    def _reach(self, right: float, bottom: float) -> None:
        self._right, self._bottom = max(self._right, right), max(self._bottom, bottom)

    def box(self, kind: str, left: float, top: float, width: float, height: float, told: str = "", **style: str) -> None:
        """Draws a box. `told` is shown where the pointer rests on it; `style` has more attributes, as `fill`."""
        self._reach(left + width, top + height)
        self._is_hatched = self._is_hatched or kind.startswith("copies")
        more = "".join(f' {name}="{escape(value)}"' for name, value in style.items())
        place = f'x="{left:.1f}" y="{top:.1f}" width="{width:.1f}" height="{height:.1f}"'
        inner = f"><title>{escape(told)}</title></rect>\n" if told else "/>\n"
        self._parts.append(f'<rect class="{kind}" {place}{more}{inner}')

    def text(self, kind: str, place: float, line: float, written: str, anchor: str = "") -> None:
        """Writes a line of text, which begins at a place, or has its middle or its end there."""
        width = width_of(written, SIZES.get(kind, 13))
        self._reach(place + {"": width, "middle": width / 2}.get(anchor, 0), line + 4)
        anchored = f' text-anchor="{anchor}"' if anchor else ""
        self._parts.append(f'<text class="{kind}" x="{place:.1f}" y="{line:.1f}"{anchored}>{escape(written)}</text>\n')

    def path(self, kind: str, way: str, right: float, bottom: float, told: str = "", **style: str) -> None:
        """Draws a path, which reaches so far."""
        self._reach(right, bottom)
        more = "".join(f' {name}="{escape(value)}"' for name, value in style.items())
        inner = f"><title>{escape(told)}</title></path>\n" if told else "/>\n"
        self._parts.append(f'<path class="{kind}" d="{way}"{more}{inner}')

    def head(self, heading: str, signs: Sequence[Sign], **fills: str) -> None:
        """Writes the heading, and under it a legend: a small box of each kind with what it means."""
        self.text("heading", MARGIN, MARGIN + 12, heading)
        left = float(MARGIN)
        for kind, meaning in signs:
            style: Dict[str, str] = {"fill": fills[kind]} if kind in fills else {}
            self.box(f"{kind} sign", left, MARGIN + 28, 16, 12, **style)
            self.text("small", left + 22, MARGIN + 38, meaning)
            left += 22 + width_of(meaning, 11) + 18

    def svg(self, title: str) -> Iterator[str]:
        """The picture, with a title for those who do not see it."""
        width, height = self._right + MARGIN, self._bottom + MARGIN
        yield f'<svg xmlns="http://www.w3.org/2000/svg" width="{width:.0f}" height="{height:.0f}">\n'
        yield f"<title>{escape(title)}</title>\n<style>{STYLE}</style>\n{HATCHED if self._is_hatched else ''}"
        yield '<rect width="100%" height="100%" fill="#ffffff"/>\n'
        yield from self._parts
        yield "</svg>\n"
