"""The tree of versions, drawn as text. `picture_tree` has the picture."""

from __future__ import annotations

from typing import Iterator, List, Mapping, NamedTuple, Optional, Sequence, Tuple

from .frames import Info

WIDTH = 100  # columns, where a chain goes on in a line of its own
ELIDED = 3  # so many versions in a row without name or branch are drawn as one


class Node(NamedTuple):
    """A version, or several in a row that are drawn as one."""

    versions: Sequence[int]
    children: List[int]
    """The numbers of the nodes below it."""


class Tree:
    """Versions with their parents and names, ready to be drawn. It takes time in proportion to their number.

    Dropped versions are not drawn. `hanging` says of a version how many of them hang there: below it, with none between that is drawn.
    """

    def __init__(self, infos: Sequence[Optional[Info]], names: Mapping[int, Sequence[str]], here: Optional[int] = None,
                 hanging: Mapping[int, int] = {}) -> None:
        """The places of all versions are given; None for one that was dropped."""
        self.names = names
        self.here = here
        self.hanging = hanging
        parents = [None if info is None else info.parent for info in infos]
        self.children: List[List[int]] = [[] for _ in parents]
        for version, parent in enumerate(parents):
            if parent is not None:
                self.children[parent].append(version)
        self.nodes: List[Node] = []
        self._make(parents)

    def _is_plain(self, version: int, parent: Optional[int]) -> bool:
        """Whether a version stands in a row, with nothing to say of it."""
        return (parent is not None and len(self.children[parent]) == 1 and len(self.children[version]) == 1
                and not self.names.get(version) and version != self.here)

    def _make(self, parents: Sequence[Optional[int]]) -> None:
        """Makes the nodes, the first one that of version 0, each before those below it."""
        open_: List[Tuple[int, Optional[int]]] = [(0, None)]  # a version, and the node above it
        while open_:
            version, above = open_.pop()
            row = [version]
            while self._is_plain(row[-1], parents[row[-1]]):
                row.append(self.children[row[-1]][0])
            below = row.pop() if len(row) > 1 else None
            if below is not None and len(row) < ELIDED:
                row, below = row[:1], self.children[row[0]][0]
            if above is not None:
                self.nodes[above].children.append(len(self.nodes))
            follow = [below] if below is not None else self.children[version]
            self.nodes.append(Node(row, []))
            open_.extend((child, len(self.nodes) - 1) for child in reversed(follow))

    def single(self) -> List[int]:
        """The versions that are drawn one by one."""
        return [node.versions[0] for node in self.nodes if len(node.versions) == 1]

    def label(self, node: Node) -> str:
        """What stands for a node in the text."""
        version, gone = node.versions[0], self.gone(node)
        if len(node.versions) > 1:
            return f"({len(node.versions)} versions, {version} to {node.versions[-1]}{f', {gone}' if gone else ''})"
        names = ", ".join(self.names.get(version, ()))
        return f"{version}{f' {names}' if names else ''}{' (here)' if version == self.here else ''}{f' ({gone})' if gone else ''}"

    def gone(self, node: Node) -> str:
        """How many dropped versions hang at a node, in words; empty where none does."""
        count = sum(self.hanging.get(version, 0) for version in node.versions)
        return f"{count:,} dropped" if count else ""

    def lines(self) -> Iterator[str]:
        """The tree as lines of text. An only child stands on the line of its parent."""
        open_ = [(0, "", "")]  # a node, what stands before it, and what stands before those below it
        while open_:
            number, before, below = open_.pop()
            line, column = before, len(below)
            while True:
                node = self.nodes[number]
                line += self.label(node)
                if len(node.children) != 1:
                    break
                number = node.children[0]
                line += " ─ "
                if len(line) + len(self.label(self.nodes[number])) > WIDTH > len(below) + 20:
                    yield line.rstrip()
                    line = below + "  ─ "
                column = len(line)
            yield line
            inner = below + " " * (column - len(below))
            children = node.children
            open_.extend((child, inner + ("├─ " if place else "└─ "), inner + ("│  " if place else "   "))
                         for place, child in enumerate(reversed(children)))
