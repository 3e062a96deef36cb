"""Salvage: what a damaged store still gives, made into a new store with the same versions.

All pairs are read by the program, from private copies of the file. The manifests of these have no damaged block, so that the
program reads on around them. `losses` has the keys that each version may miss then. In such a range pairs are taken from a
copy without the level that misses entries and those below it. So no pair is made up: it is there, or its key is in a range
that is told to be lost.
"""

from __future__ import annotations

import itertools
import os
from contextlib import ExitStack
from functools import partial
from typing import TYPE_CHECKING, Callable, Container, Dict, Iterator, List, NamedTuple, Optional, Sequence, Set, Tuple

from . import agreement, errors, fileform, losses
from .dropping import drop_all
from .fileform import Array, Block, Entry, Level, Lineage
from .frames import Pair
from .levels import listed
from .losses import Gap, Range, Segment
from .scan import merged
from .storecopy import Place, Progress
from .text import counted, shown
from .verdict import Damaged, Unsound, Verdict

if TYPE_CHECKING:
    from .store import Store

Change = Tuple[bytes, Optional[bytes]]  # a key, and its value; None where it is deleted

CHANGES_MOST = 1 << 24  # the largest C
WINDOW = 256  # changes that are sent at once
COMPARED_MOST = 2_000_000  # entries of a level whose arrays are compared, at most

UNREADABLE = "nothing can be read: block {}, which is of the superblock, the journal or the manifest, is damaged"


class Kit(NamedTuple):
    """The program, for private copies. Errors are about `file`."""

    file: str
    check: Callable[[str, str], Verdict]
    """Checks the store at a path, and tells how far it is by these words."""
    open: Callable[[str], "Store"]
    format: Callable[[str, int, int, int], None]
    """Makes a store at a path, with its M, C and V."""


class Lost(NamedTuple):
    """A range of keys of which some versions may miss pairs."""

    lower: bytes
    upper: Optional[bytes]
    """The range ends before it; None is the end of all keys."""
    versions: Tuple[int, ...]
    found: int
    """How many pairs these versions have in the range none the less, from levels that are not damaged."""

    def __str__(self) -> str:
        first = shown(self.lower) if self.lower else "the first"
        last = "the last" if self.upper is None else f"before {shown(self.upper)}"
        some = f", but for {counted(self.found, 'pair')}" if self.found else ""
        return f"version{'' if len(self.versions) == 1 else 's'} {listed(self.versions)}: keys from {first} to {last}{some}"


class Salvage(NamedTuple):
    """What a salvage gave."""

    versions: int
    """How many were made, dropped ones among them."""
    changes: int
    """Puts and deletes that the new store took."""
    blocks: Tuple[int, ...]
    """The damaged blocks."""
    lost: Tuple[Lost, ...]
    """A pair that is not in the new store has its key in one of these ranges, at one of its versions."""
    doubt: Optional[Unsound]
    """A rule that the file breaks. Then any pair may be wrong, and any may be missing."""
    dropped: int = 0
    """How many of the versions are dropped, as they are in the file."""

    @property
    def is_whole(self) -> bool:
        """Whether nothing is lost or in doubt."""
        return not self.lost and self.doubt is None


# What is damaged

class Damage:
    """What is damaged in a private copy of a store's file, which the program opens. `around` is a copy without damaged blocks."""

    def __init__(self, path: str, progress: Progress) -> None:
        """Nothing is found so far."""
        self.path = self.around = path
        self._progress = progress
        self.blocks: Set[int] = set()
        self.gaps: List[Gap] = []
        self.doubt: Optional[Unsound] = None
        with open(path, "rb", 0) as file:
            self.head = fileform.read_head(file.fileno())
            self.manifest = fileform.read_manifest(file.fileno(), self.head)

    def lineage(self) -> Lineage:
        """The versions with their parents, and those that were dropped. The program has opened the file, so its journal can be read."""
        with open(self.path, "rb", 0) as file:
            return fileform.lineage_of(file.fileno(), self.head, self.manifest)

    def search(self, told: Set[int]) -> None:
        """Looks at each block of each array. These are damaged, since the program called them so."""
        self.blocks, self.gaps, self.doubt = set(told), [], None
        done, total = 0, sum(len(array.blocks) for level in self.manifest.levels for array in level.arrays)
        with open(self.path, "rb", 0) as file:
            for level in self.manifest.levels:
                for array in level.arrays:
                    found = [self._read(file.fileno(), block, number, total) for number, block in enumerate(array.blocks, done)]
                    done += len(found)
                    self.gaps += losses.gaps_in(level, array, found)
                    if self.doubt is None:  # a verdict that is not sound is false
                        self.doubt = broken(level, array, found)
            for level in self.manifest.levels:
                if level.number in self.levels and self.doubt is None:
                    self._progress(f"comparing the arrays of level {level.number}", 0, None)
                    self.doubt = agreement.broken(level, self._entries(file.fileno(), level), losses.Tree((None, *self.manifest.parents)))

    def _read(self, file: int, number: int, done: int, total: int) -> Optional[Block]:
        """What a block of an array has; None where it is damaged."""
        if done % fileform.OFTEN == 0:
            self._progress("blocks read", done, total)
        entries = None if number in self.blocks else fileform.read_entries(file, number)
        if entries is None:
            self.blocks.add(number)
            return None
        return fileform.block_of(entries)

    def _entries(self, file: int, level: Level) -> List[List[Optional[List[Entry]]]]:
        """The entries of each block of each array of a level; None for a damaged one. There are none where they are too many."""
        if sum(array.entries for array in level.arrays) > COMPARED_MOST:
            return []
        return [[None if block in self.blocks else fileform.read_entries(file, block) for block in array.blocks]
                for array in level.arrays]

    @property
    def levels(self) -> Set[int]:
        """The numbers of the levels that have damaged blocks."""
        return {gap.level for gap in self.gaps}

    def has(self, block: int) -> bool:
        """Whether a block is one of an array."""
        return any(block in array.blocks for level in self.manifest.levels for array in level.arrays)

    def reduced(self, path: str, keeps: Callable[[int], bool]) -> str:
        """Writes a store's file that has no damaged block, and of the levels those alone whose numbers are kept; gives its path."""
        left = fileform.reduced(self.manifest, self.blocks, keeps)
        with open(self.path, "rb", 0) as old, open(path, "xb", 0) as new:
            fileform.write_reduced(old.fileno(), new.fileno(), self.head, left, partial(self._progress, "blocks copied"))
        return path


def broken(level: Level, array: Array, blocks: Sequence[Optional[Block]]) -> Optional[Unsound]:
    """The rule that the readable blocks of an array break by their order or by their number of entries."""
    there = [block for block in blocks if block is not None]
    for block, behind in zip(there, there[1:]):
        if (block.last[0], -block.last[1]) >= (behind.first[0], -behind.first[1]):
            return Unsound("m", level.number, array.id)
    tag, gone = set(array.versions), len(blocks) - len(there)
    entries = sum(len(block.versions) for block in there)
    leads = sum(version in tag for block in there for version in block.versions)
    is_right = (entries, leads) == (array.entries, array.leads) if not gone else entries + gone <= array.entries and leads <= array.leads
    return None if is_right else Unsound("k", level.number, array.id)


def look(path: str, folder: str, kit: Kit, progress: Progress) -> Damage:
    """Finds what is damaged in a private copy, by the program's check and by a look at each block. Other copies go into the folder.

    It raises `Unreadable` where the program can't open the file.
    """
    seen = _first_verdict(path, kit)
    try:
        damage = Damage(path, progress)
    except ValueError as error:
        raise errors.WrongProtocol(f"the file can't be salvaged by this package: {error}", "It is of a later build than this package.",
                                   file=kit.file) from None
    if not isinstance(seen, Damaged):
        damage.doubt = seen if isinstance(seen, Unsound) else None
        return damage
    told: Set[int] = set()
    while isinstance(seen, Damaged):
        if seen.block in told or not damage.has(seen.block):
            raise errors.Unreadable(UNREADABLE.format(seen.block), file=kit.file)
        told.add(seen.block)
        damage.search(told)
        damage.around = damage.reduced(os.path.join(folder, f"around{len(told)}.store"), lambda _: True)
        seen = kit.check(damage.around, "checking what is left")
    if damage.doubt is None:
        left = damage.reduced(os.path.join(folder, "others.store"), lambda number: number not in damage.levels)
        others = kit.check(left, "checking the other levels")
        damage.doubt = others if isinstance(others, Unsound) else None
    return damage


def _first_verdict(path: str, kit: Kit) -> Verdict:
    """What a check says of the copy, which the program opens."""
    try:
        verdict = kit.check(path, "checking the store")
        if isinstance(verdict, Damaged):
            kit.open(path).close()
        return verdict
    except errors.NotAStore as error:
        raise errors.Unreadable(f"nothing can be read: {error.what}", file=kit.file) from None
    except errors.StoreDamaged:
        assert isinstance(verdict, Damaged)
        raise errors.Unreadable(UNREADABLE.format(verdict.block), file=kit.file) from None


# What is read

def _above(level: int) -> Callable[[int], bool]:
    """Whether the level of a number is shallower than this one."""
    return lambda number: number < level


class Views:
    """The private copies, each served by the program once it is needed, and what they give of each version."""

    def __init__(self, damage: Damage, folder: str, kit: Kit, stack: ExitStack) -> None:
        self._damage = damage
        self._folder = folder
        self._kit = kit
        self._stack = stack
        self._stores: Dict[Optional[int], "Store"] = {}
        self.head = damage.head
        self.parents, self.dropped = damage.lineage()
        living = [version not in self.dropped for version in range(len(self.parents))]
        if [info is not None for info in self.at(None).versions()] != living:
            raise errors.WrongProtocol("the file has other versions than the program tells", "It is of a later build than this package.",
                                       file=kit.file)
        self.plans = losses.plan(damage.gaps, self.parents)

    def at(self, level: Optional[int]) -> "Store":
        """The copy that has only the levels above this one, or all."""
        if level not in self._stores:
            path = self._damage.around
            if level is not None:
                path = self._damage.reduced(os.path.join(self._folder, f"above{level}.store"), _above(level))
            self._stores[level] = self._stack.enter_context(self._kit.open(path))
        return self._stores[level]

    def pairs(self, version: int, lost: Optional[List[int]] = None) -> Iterator[Pair]:
        """What is certain of a version. Of each of its ranges that is lost, the list gets how many pairs it has none the less."""
        before = None
        for part in self.plans[version]:
            if lost is not None and part.level is not None and (before is None or before.level is None):
                lost.append(0)
            before = part
            with self.at(part.level).scan(version, part.range.lower, part.range.upper or b"") as scan:
                for pair in scan:
                    if lost and part.level is not None:
                        lost[-1] += 1
                    yield pair

    def changes(self, version: int, lost: List[int]) -> Iterator[Change]:
        """What has to change in the parent of a version to get this one; for version 0 all its pairs."""
        parent = self.parents[version]
        if parent is None:
            yield from self.pairs(version, lost)
        elif self.plans[version] == self.plans[parent] == losses.WHOLE:
            yield from ((key, value) for key, _, value in self.at(None).diff(parent, version))
        else:
            yield from ((key, value) for key, _, value in merged(self.pairs(parent), self.pairs(version, lost)))


# What is written

class Filling:
    """Fills a new store with the versions of a damaged one."""

    def __init__(self, views: Views, store: "Store", progress: Progress) -> None:
        self.changes = 0
        self.found: List[List[int]] = []
        """For each version how many pairs it has in each of its ranges that are lost."""
        self._views = views
        self._store = store
        self._progress = progress

    def run(self) -> None:
        """Makes all versions, parents before children, and then drops those that were dropped, which get no pairs of their own."""
        total = len(self._views.parents)
        for version, parent in enumerate(self._views.parents):
            self._progress("versions made", version, total)
            if parent is not None:
                self._store.clone(parent)
            self.found.append([])
            if version in self._views.dropped:
                continue
            changes = self._views.changes(version, self.found[-1])
            while self._send(version, list(itertools.islice(changes, WINDOW))):
                self._progress(f"pairs and deletions made, {version + 1:,} of {counted(total, 'version')}", self.changes, None)
        for number, _ in enumerate(drop_all(self._store, self._views.dropped)):
            self._progress("versions dropped", min(total, (number + 1) * WINDOW), None)

    def _send(self, version: int, window: List[Change]) -> bool:
        """Makes these changes, and tells whether there are any."""
        with self._store.batch() as batch:
            for key, value in window:
                if value is None:
                    batch.delete(version, key)
                else:
                    batch.put(version, key, value)
        self.changes += len(window)
        return bool(window)


def lost_of(plans: Sequence[Sequence[Segment]], found: Sequence[Sequence[int]], dropped: Container[int] = ()) -> Iterator[Lost]:
    """The ranges that are lost, each with its versions, in the order of keys. Dropped versions lose nothing."""
    versions: Dict[Range, List[int]] = {}
    pairs: Dict[Range, int] = {}
    for version, parts in enumerate(plans):
        if version in dropped:
            continue
        for place, missed in enumerate(losses.ranges(parts)):
            versions.setdefault(missed, []).append(version)
            pairs[missed] = pairs.get(missed, 0) + (found[version][place] if place < len(found[version]) else 0)
    for missed in sorted(versions, key=lambda it: (it.lower, it.upper is None, it.upper or b"")):
        yield Lost(missed.lower, missed.upper, tuple(versions[missed]), pairs[missed])


# The whole of it

def salvage(path: str, place: Place, kit: Kit, doubtful: bool, progress: Progress) -> Salvage:
    """Makes the new store of a place out of a private copy of a damaged one.

    It has the limits of the old one. Only if C is too small for what is lost at children alone, it has the largest C.
    """
    damage = look(path, place.folder, kit, progress)
    if damage.doubt is not None and not doubtful:
        raise errors.Doubtful(f"the file breaks rule {damage.doubt.rule}: {damage.doubt}", file=kit.file)
    head = damage.head
    with ExitStack() as stack:
        views = Views(damage, place.folder, kit, stack)
        try:
            made = _filled(views, place, kit, head.changes_max, progress)
        except errors.ChangeLimit:
            if head.changes_max == CHANGES_MOST:
                raise
            os.remove(place.store)
            made = _filled(views, place, kit, CHANGES_MOST, progress)
    verdict = kit.check(place.store, "checking the new store")
    if not verdict:
        raise errors.NotSound(f"the new store is not sound: {verdict}", "This is a mistake of the program; nothing was made.",
                              file=kit.file)
    lost = tuple(lost_of(views.plans, made.found, views.dropped))
    return Salvage(len(views.parents), made.changes, tuple(sorted(damage.blocks)), lost, damage.doubt, len(views.dropped))


def _filled(views: Views, place: Place, kit: Kit, changes_max: int, progress: Progress) -> Filling:
    """Makes the new store with so many changes at most, and fills it."""
    head = views.head
    kit.format(place.store, head.mem, changes_max, head.versions_max)
    with kit.open(place.store) as store:
        made = Filling(views, store, progress)
        made.run()
    return made
