"""Whether the arrays of a level agree, as far as their blocks can be read.

An array has copies of what its versions see of other arrays. So at the parent of a version where its tag begins it has what the
parent's own array has. That is the rule that a check calls c, and for versions in no tag b, where no block is missing.
"""

from __future__ import annotations

import bisect
from typing import Dict, Iterator, List, Optional, Sequence, Set, Tuple

from .fileform import Array, Entry, Level
from .losses import Tree
from .verdict import Unsound

Blocks = Sequence[Optional[Sequence[Entry]]]  # the entries of each block; None for a damaged one
Found = Tuple[int, Optional[bytes]]  # a version and a value


class Side:
    """The entries of an array, and the keys of which some may be missing."""

    def __init__(self, array: Array, blocks: Blocks) -> None:
        self.array = array
        self.tag = set(array.versions)
        self.entries: Dict[bytes, List[Found]] = {}
        self._firsts: List[bytes] = []  # the first key of each gap, ascending
        self._lasts: List[Optional[bytes]] = []  # and the last one; None is the last of all
        last, is_open = b"", False
        for block in blocks:
            if block is None:
                is_open = True
                continue
            if is_open:
                self._add_gap(last, block[0][0])
            for key, version, value in block:
                self.entries.setdefault(key, []).append((version, value))
            last, is_open = block[-1][0], False
        if is_open:
            self._add_gap(last, None)

    def _add_gap(self, first: bytes, last: Optional[bytes]) -> None:
        self._firsts.append(first)
        self._lasts.append(last)

    def is_sure(self, key: bytes) -> bool:
        """Whether no entry of a key can be missing."""
        at = bisect.bisect_right(self._firsts, key) - 1
        if at < 0:
            return True
        last = self._lasts[at]
        return last is not None and last < key

    def live(self, key: bytes, version: int, tree: Tree) -> Optional[Found]:
        """What a version sees of a key: the entry of its nearest ancestor."""
        return next((found for found in self.entries.get(key, ()) if tree.sees(version, found[0])), None)


NOTHING = Side(Array(0, 0, 0, 0, (), ()), ())  # the array of a version in no tag


def broken(level: Level, blocks: Sequence[Blocks], tree: Tree) -> Optional[Unsound]:
    """The rule that a level breaks by what its arrays have of each other. Without blocks nothing is compared."""
    sides = [Side(array, found) for array, found in zip(level.arrays, blocks)]
    home = {version: side for side in sides for version in side.tag}
    for side in sides:
        for parent, roots in _roots(side, tree).items():
            if not all(_agrees(side, home.get(parent, NOTHING), key, parent, roots, tree)
                       for key in _keys(side, home.get(parent, NOTHING))):
                return Unsound("c", level.number, side.array.id)
    for version in range(1, min(level.horizon, len(tree.parents))) if sides else ():
        parent = tree.parents[version]
        if version not in home and parent in home and _sees_any(home[parent], parent, tree):
            return Unsound("b", level.number, 0)
    return None


def _roots(side: Side, tree: Tree) -> Dict[int, Set[int]]:
    """The versions of a tag whose parents are not in it, by these parents."""
    found: Dict[int, Set[int]] = {}
    for version in side.tag - {0}:
        if tree.parents[version] not in side.tag:
            found.setdefault(tree.parents[version], set()).add(version)
    return found


def _keys(side: Side, other: Side) -> Iterator[bytes]:
    """The keys of which both have all entries."""
    return (key for key in side.entries.keys() | other.entries.keys() if side.is_sure(key) and other.is_sure(key))


def _agrees(side: Side, other: Side, key: bytes, parent: int, roots: Set[int], tree: Tree) -> bool:
    """Whether a parent sees the same of a key in both arrays, or all these children of it have the key changed."""
    changed = {version for version, _ in side.entries.get(key, ())}
    return roots <= changed or side.live(key, parent, tree) == other.live(key, parent, tree)


def _sees_any(side: Side, version: int, tree: Tree) -> bool:
    """Whether a version sees an entry of a key of which none is missing."""
    return any(side.is_sure(key) and side.live(key, version, tree) for key in side.entries)
