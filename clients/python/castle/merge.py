"""Merges of two versions over their common ancestor."""

from __future__ import annotations

import contextlib
from typing import TYPE_CHECKING, ContextManager, Iterator, List, NamedTuple, Optional, Tuple

from . import branches
from .errors import MergeConflict, MergeFault
from .scan import Difference
from .text import counted, shown

if TYPE_CHECKING:
    from .commands import Version
    from .store import Store

OURS, THEIRS = "ours", "theirs"
Change = Tuple[bytes, Optional[bytes]]  # a key, and its new value; None where it is deleted


class ThreeWay(NamedTuple):
    """A key that has changed since the common ancestor, with its values; None where it has none."""

    key: bytes
    base: Optional[bytes]
    ours: Optional[bytes]
    theirs: Optional[bytes]

    @property
    def is_conflict(self) -> bool:
        """Whether both have changed it, and not to the same value."""
        return self.base != self.ours != self.theirs != self.base

    def settled(self, wins: Optional[str]) -> Optional[bytes]:
        """Its value in the merge: the changed one, and of two changed ones that of the side that wins."""
        if self.is_conflict:
            return self.theirs if wins == THEIRS else self.ours
        return self.theirs if self.ours == self.base else self.ours


class Merge(NamedTuple):
    """What a merge made."""

    version: int
    """The new version."""
    parent: int
    """The version that it was cloned from."""
    base: int
    """The common ancestor."""
    changes: int
    """How many keys were put into the clone, or deleted from it."""
    conflicts: List[ThreeWay]
    """Those that were settled by the side that wins."""


def merge(store: "Store", ours: "Version", theirs: "Version", into: "Version", wins: Optional[str]) -> Merge:
    """See `Store.merge`."""
    if wins not in (None, OURS, THEIRS):
        raise ValueError(f"wins is {wins!r}, and not {OURS!r}, {THEIRS!r} or None")
    first, second = store.number(ours), store.number(theirs)
    base = common_ancestor(store, first, second)
    parent = _parent(store, first, second, into, base)
    changes, conflicts = _changes(store, (base, first, second), parent, wins)
    branches.check_room(store, 1, len(changes) + 1, "merge")
    clone = store.clone(parent)
    with branches.nameless(clone, store.names):
        with store.batch() as batch:
            for key, value in changes:
                if value is None:
                    batch.delete(clone, key)
                else:
                    batch.put(clone, key, value)
        if isinstance(into, str):
            store.names[into] = clone
    return Merge(clone, parent, base, len(changes), conflicts)


def common_ancestor(store: "Store", first: int, second: int) -> int:
    """The nearest version that both descend from, or one of them. It asks for each version between."""
    depths = store.info(first).depth, store.info(second).depth
    while first != second:
        info = store.info(first if depths[0] >= depths[1] else second)
        assert info.parent is not None
        if depths[0] >= depths[1]:
            first, depths = info.parent, (depths[0] - 1, depths[1])
        else:
            second, depths = info.parent, (depths[0], depths[1] - 1)
    return first


def _parent(store: "Store", ours: int, theirs: int, into: "Version", base: int) -> int:
    """The version whose clone the merge is made in."""
    if ours == theirs:
        raise MergeFault(f"both are version {ours}", "Name two versions.", file=store.path, command="merge")
    if isinstance(into, str) and into not in store.names:
        store.names.check_free(into)
        return base
    found = store.number(into)
    if found not in (ours, theirs):
        raise MergeFault(f"the merge of versions {ours} and {theirs} can't go into version {found}, which has pairs of its own",
                         "Merge into one of the two, or give a new name.", file=store.path, command="merge")
    return found


def _changes(store: "Store", versions: Tuple[int, int, int], parent: int,
             wins: Optional[str]) -> Tuple[List[Change], List[ThreeWay]]:
    """What has to change in the parent to get the merge, and which conflicts that settles.

    The versions are the common ancestor and both sides. A `MergeConflict` tells of conflicts if no side wins.
    """
    changes: List[Change] = []
    conflicts: List[ThreeWay] = []
    for row in _compared(store, *versions):
        if row.is_conflict:
            conflicts.append(row)
        value = row.settled(wins)
        if value != row[1 + versions.index(parent)]:
            changes.append((row.key, value))
    if conflicts and wins is None:
        error = MergeConflict(f"both sides changed {counted(len(conflicts), 'key')}, the first of them {shown(conflicts[0].key)}",
                              file=store.path, command="merge")
        error.conflicts = conflicts
        raise error
    return changes, conflicts


def _compared(store: "Store", base: int, ours: int, theirs: int) -> Iterator[ThreeWay]:
    """The keys that have changed since the common ancestor on either side, in order."""
    with _since(store, base, ours) as first, _since(store, base, theirs) as second:
        yield from joined(first, second)


def _since(store: "Store", base: int, version: int) -> ContextManager[Iterator[Difference]]:
    """What has changed in a version since its ancestor."""
    return contextlib.nullcontext(iter(())) if version == base else store.diff(base, version)


def joined(ours: Iterator[Difference], theirs: Iterator[Difference]) -> Iterator[ThreeWay]:
    """The keys of two lists of differences from the same version."""
    first, second = next(ours, None), next(theirs, None)
    while first is not None or second is not None:
        if second is None or first is not None and first.key < second.key:
            assert first is not None
            yield ThreeWay(first.key, first.before, first.after, first.before)
            first = next(ours, None)
        elif first is None or second.key < first.key:
            yield ThreeWay(second.key, second.before, second.before, second.after)
            second = next(theirs, None)
        else:
            yield ThreeWay(first.key, first.before, first.after, second.after)
            first, second = next(ours, None), next(theirs, None)
