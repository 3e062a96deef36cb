"""A copy of a store version by version, in the order of the tree, while others go on to change it, as over a hub.

A version does not change as long as it has a child. So it takes the tips, the versions without one, to have the store as it is at
one time: scans of all of them are opened at once, and the counts of changes before and behind them are the same. Scans of other
versions are opened with them as far as there is room. A version without one is read later, and is as it was if one of its children
is there still at the end. What differs from a parent is found by the copy's own version, since the parent may be gone by then.

The hub does not tell what dropped versions were cloned from. In the copy they are clones of version 0, and dropped.
"""

from __future__ import annotations

import itertools
from contextlib import ExitStack
from functools import partial
from typing import TYPE_CHECKING, Dict, Iterator, List, NamedTuple, Optional, cast

from . import errors
from .dropping import living_of
from .frames import Info, Stat
from .scan import Difference, Scan, merged
from .storecopy import Progress
from .text import counted

if TYPE_CHECKING:
    from .store import Store

SCANS_MOST = 48  # scans that are opened at once; the program has 64 for all its clients
TRIES = 100  # times that they are, until nothing was changed meanwhile
COPIES = 5  # times that a store is copied, until no version was changed that has no scan
WINDOW = 256  # changes that are sent at once


class Standing(NamedTuple):
    """The versions of a store, and scans of those that may change, as all are at one time."""

    infos: List[Optional[Info]]
    """None for a dropped one."""
    scans: Dict[int, Scan]
    """None where there are too many tips; then they may be of different times."""
    changes: int
    """How many changes the store had at that time."""


class TreeCopy:
    """Copies a store over a hub."""

    def __init__(self, source: "Store", progress: Progress) -> None:
        self._source = source
        self._progress = progress

    def fill(self, store: "Store") -> bool:
        """Fills a new store, and tells whether that is what the other one was at one time."""
        with ExitStack() as stack:
            standing = self._standing()
            for scan in standing.scans.values():
                stack.enter_context(scan)
            total = len(standing.infos)
            try:
                for version, info in enumerate(standing.infos):
                    self._progress("versions copied", version, total)
                    if info is None:
                        store.drop(store.clone(0))
                        continue
                    if info.parent is not None:
                        store.clone(info.parent)
                    self._change(store, version, info, standing)
            except errors.UnknownVersion:
                return False  # one was dropped before it was read
        behind = self._source.stat()  # with which the cursors are closed
        return behind.changes == standing.changes or bool(standing.scans) and self._is_as_it_was(standing)

    def _is_as_it_was(self, standing: Standing) -> bool:
        """Whether no version without a scan can have changed: one of its children is there still."""
        kept = {before.parent for before, info in zip(standing.infos, self._source.versions()) if before is not None and info is not None}
        return all(version in standing.scans or version in kept for version in living_of(standing.infos))

    def _standing(self) -> Standing:
        """The versions, and the scans of tips unless there are too many of these."""
        for _ in range(TRIES):
            changes, infos = self._source.stat().changes, self._source.versions()
            living, parents = living_of(infos), {info.parent for info in infos if info is not None}
            tips = [version for version in living if version not in parents]  # whether they say frozen may be of different times
            others = [version for version in living if version in parents]
            found: Optional[Dict[int, Scan]] = {}
            for chosen in (tips + others[max(0, len(living) - SCANS_MOST):], tips) if len(tips) <= SCANS_MOST else ():
                try:
                    found = self._scans(chosen, len(infos))
                    break
                except errors.CursorLimit:
                    pass  # others have many open
            if found is not None:
                return Standing(infos, found, changes)
        raise errors.NotAtRest(file=self._source.path, command="backup")

    def _scans(self, chosen: List[int], versions: int) -> Optional[Dict[int, Scan]]:
        """Scans of these versions at one time; None where the store was changed meanwhile, or has other versions."""
        program, commands = self._source._program, self._source._commands
        openings = [partial(commands.open_cursor, version, b"", b"", b"") for version in chosen]
        try:
            before, cursors, behind = program.open_all(commands.stat, openings)
        except errors.UnknownVersion:
            return None  # it was dropped meanwhile
        first, last = cast(Stat, before), cast(Stat, behind)
        if first.changes != last.changes or first.versions != versions:
            return None  # the cursors are closed where nobody has them
        found = {version: Scan(program, commands, version, cursor=cursor) for version, cursor in zip(chosen, cursors)}
        self._source._scans.update(found.values())
        return found

    def _change(self, store: "Store", version: int, info: Info, standing: Standing) -> None:
        """Makes what a version has otherwise than its parent."""
        scan = standing.scans.get(version) or self._source.scan(version)
        what, total = "pairs and deletions copied", len(standing.infos)
        with scan:
            done, left = 0, self._differences(store, scan, info.parent)
            for window in iter(lambda: list(itertools.islice(left, WINDOW)), []):
                with store.batch() as batch:
                    for key, _, value in window:
                        if value is None:
                            batch.delete(version, key)
                        else:
                            batch.put(version, key, value)
                done += len(window)
                self._progress(f"{what} into version {version} of {counted(total, 'version')}", done, None)

    def _differences(self, store: "Store", scan: Scan, parent: Optional[int]) -> Iterator[Difference]:
        """What differs between a parent, as the copy has it, and a scan of its clone. Version 0 has no parent, and all its pairs differ."""
        if parent is None:
            yield from (Difference(key, None, value) for key, value in scan)
            return
        with store.scan(parent) as before:
            yield from merged(before, scan)
