"""The tree of versions as a picture in SVG. Lengths are pixels."""

from __future__ import annotations

from typing import Dict, Iterator, List, Mapping, NamedTuple, Tuple

from .keycount import Count
from .picture import HEADING, MARGIN, Drawing, width_of
from .tree import Node, Tree

GAP, INDENT = 46, 16  # between columns, and between a version and those cloned from it where these are below it
TALL, FLAT = (58, 40), (26, 20)  # the heights of a row and of its boxes, which have two lines or one
LEAVES, WIDEST = 24, 1400  # with more leaves, or beyond this width, each version has a row of its own, with one line
SIGNS = (("open", "a leaf: takes puts and deletes"), ("frozen", "frozen: has a child"), ("open named", "has a name"),
         ("row", "several versions in a row"))


class Place(NamedTuple):
    """Where a node's box is."""

    left: float
    top: float
    width: float
    height: float

    @property
    def middle(self) -> float:
        """The height at which edges meet it."""
        return self.top + self.height / 2


def svg(tree: Tree, keys: Mapping[int, Count], heading: str) -> Iterator[str]:
    """The tree as a picture: each version with its names, its number of keys and what it is.

    It goes from left to right, and from top to bottom where it has many leaves or would be wide. `keys` has a count for each
    version that is drawn by itself, as `Tree.single` lists them.
    """
    drawing = Drawing()
    drawing.head(heading, SIGNS)
    texts = [_texts(tree, node, keys) for node in tree.nodes]
    places = _beside(tree, texts)
    if sum(not node.children for node in tree.nodes) > LEAVES or max(place.left + place.width for place in places) > WIDEST:
        places = _below(tree, texts)
    for node, place in zip(tree.nodes, places):
        for child in node.children:
            _edge(drawing, place, places[child])
    for node, place, lines in zip(tree.nodes, places, texts):
        _box(drawing, tree, node, place, lines)
    yield from drawing.svg(heading)


def _texts(tree: Tree, node: Node, keys: Mapping[int, Count]) -> Tuple[str, str]:
    """The two lines of a box."""
    first = node.versions[0]
    gone = f", {tree.gone(node)}" if tree.gone(node) else ""
    if len(node.versions) > 1:
        return f"{len(node.versions)} versions", f"{first} to {node.versions[-1]}{gone}"
    names = ", ".join(tree.names.get(first, ()))
    return f"{first} {names}".rstrip(), f"{keys[first]}, {'frozen' if node.children else 'leaf'}{gone}"


def _beside(tree: Tree, texts: List[Tuple[str, str]]) -> List[Place]:
    """Where each box is, right of the version that it was cloned from."""
    columns, rows = _grid(tree)
    row, height = TALL
    widths: Dict[int, float] = {}
    for column, (first, second) in zip(columns, texts):
        widths[column] = max(widths.get(column, 0), width_of(first) + 24, width_of(second, 11) + 24)
    lefts = [float(MARGIN)]
    for column in range(len(widths)):
        lefts.append(lefts[-1] + widths[column] + GAP)
    return [Place(lefts[column], HEADING + place * row, widths[column], height) for column, place in zip(columns, rows)]


def _below(tree: Tree, texts: List[Tuple[str, str]]) -> List[Place]:
    """Where each box is, below the version that it was cloned from, and right of it too unless that has one clone alone."""
    row, height = FLAT
    lefts = [float(MARGIN)] * len(tree.nodes)
    for number, node in enumerate(tree.nodes):
        for child in node.children:
            lefts[child] = lefts[number] + (INDENT if len(node.children) > 1 else 0)
    widths = [width_of(f"{first}  ") + width_of(second, 11) + 24 for first, second in texts]
    return [Place(left, HEADING + number * row, width, height) for number, (left, width) in enumerate(zip(lefts, widths))]


def _grid(tree: Tree) -> Tuple[List[int], List[float]]:
    """The column of each node, and its row: a leaf has one of its own, another node stands amid its children."""
    columns, rows, leaves = [0] * len(tree.nodes), [0.0] * len(tree.nodes), 0
    for number, node in enumerate(tree.nodes):
        for child in node.children:
            columns[child] = columns[number] + 1
        if not node.children:
            rows[number] = leaves
            leaves += 1
    for number in reversed(range(len(tree.nodes))):
        children = tree.nodes[number].children
        if children:
            rows[number] = (rows[children[0]] + rows[children[-1]]) / 2
    return columns, rows


def _edge(drawing: Drawing, above: Place, below: Place) -> None:
    """A line from a version to one that was cloned from it, which is beside it or below."""
    right = above.left + above.width
    if below.left > right:
        half = (right + below.left) / 2
        way = (f"M{right:.1f} {above.middle:.1f} C{half:.1f} {above.middle:.1f} "
               f"{half:.1f} {below.middle:.1f} {below.left:.1f} {below.middle:.1f}")
    else:
        way = f"M{above.left + INDENT / 2:.1f} {above.top + above.height:.1f}V{below.middle:.1f}"
        way += f"H{below.left:.1f}" if below.left > above.left else ""
    drawing.path("edge", way, below.left, below.middle)


def _box(drawing: Drawing, tree: Tree, node: Node, place: Place, lines: Tuple[str, str]) -> None:
    """A version, or several in a row."""
    kind = "row" if len(node.versions) > 1 else "frozen" if node.children else "open"
    if kind != "row" and tree.names.get(node.versions[0]):
        kind += " named"
    drawing.box(kind, place.left, place.top, place.width, place.height, rx="7" if place.height > 30 else "5")
    if place.height > 30:
        middle = place.left + place.width / 2
        drawing.text("name", middle, place.top + 17, lines[0], "middle")
        drawing.text("small", middle, place.top + 32, lines[1], "middle")
    else:
        drawing.text("name", place.left + 12, place.top + 15, lines[0])
        drawing.text("end", place.left + place.width - 12, place.top + 15, lines[1], "end")
