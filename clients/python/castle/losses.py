"""What damaged blocks take from each version: ranges of keys, and where the pairs of a version are read in spite of that.

An array's entries ascend over its blocks. So what a damaged block had lies between the last entry before it and the first
one behind it. A version misses these if it reads the array, unless a shallower level says what the key has.
"""

from __future__ import annotations

from typing import Dict, Iterable, Iterator, List, NamedTuple, Optional, Sequence, Tuple

from .fileform import Array, Block, Level
from .frames import KEY_MAX


class Gap(NamedTuple):
    """Damaged blocks in a row of an array, between the blocks of entries around them."""

    level: int
    horizon: int
    versions: Tuple[int, ...]
    """The array's tag."""
    before: Tuple[Block, ...]
    """The readable block before it, and those before that one as far as they end with the same key; the nearest one first."""
    behind: Optional[Block]


class Range(NamedTuple):
    """Keys from one on and before another; None is the end of all keys."""

    lower: bytes
    upper: Optional[bytes]

    @property
    def is_empty(self) -> bool:
        """Whether no key lies in it."""
        return self.upper is not None and self.lower >= self.upper


class Segment(NamedTuple):
    """A range of a version's keys. `level` is the shallowest one that misses entries there; None where none does."""

    range: Range
    level: Optional[int]


WHOLE = (Segment(Range(b"", None), None),)
"""The segments of a version that misses nothing."""


def key_behind(key: bytes) -> Optional[bytes]:
    """The least key behind this one; None where there is none."""
    if len(key) < KEY_MAX:
        return key + b"\0"
    head = key.rstrip(b"\xff")
    return head[:-1] + bytes([head[-1] + 1]) if head else None


class Tree:
    """The versions with their parents, of which version 0 has none and each other one a lower number than its own."""

    def __init__(self, parents: Sequence[Optional[int]]) -> None:
        self.parents = [0 if parent is None else parent for parent in parents]
        self._sizes = [1] * len(parents)  # of subtrees
        for version in range(len(parents) - 1, 0, -1):
            self._sizes[self.parents[version]] += self._sizes[version]
        self._starts = [0] * len(parents)  # the versions of a subtree are numbered in a row from here on
        free = [1] * len(parents)
        for version in range(1, len(parents)):
            parent = self.parents[version]
            self._starts[version] = free[parent]
            free[version] = free[parent] + 1
            free[parent] += self._sizes[version]

    def readers(self, horizon: int) -> List[int]:
        """For each version the nearest one on the way to version 0, itself included, that was there when a level was made."""
        found: List[int] = []
        for version, parent in enumerate(self.parents):
            found.append(version if version < horizon else found[parent])
        return found

    def sees(self, version: int, other: int) -> bool:
        """Whether a version has what was changed at another one: that is itself or above it."""
        if other >= len(self._starts):
            return False
        return 0 <= self._starts[version] - self._starts[other] < self._sizes[other]


# Gaps

def gaps_in(level: Level, array: Array, blocks: Sequence[Optional[Block]]) -> Iterator[Gap]:
    """The damaged blocks of an array, each row of them as one. `blocks` has what each block has; None for a damaged one."""
    tail: Tuple[Block, ...] = ()
    is_open = False  # whether the blocks right before are damaged
    for found in blocks:
        if found is None:
            is_open = True
            continue
        if is_open:
            yield Gap(level.number, level.horizon, array.versions, tail, found)
        goes_on = tail and found.first[0] == found.last[0] == tail[0].last[0]
        tail = (found, *tail) if goes_on else (found,)
        is_open = False
    if is_open:
        yield Gap(level.number, level.horizon, array.versions, tail, None)


def lost_by(gap: Gap, reader: int, tree: Tree) -> Optional[Range]:
    """The keys of which a version of the array's tag may miss an entry; None where it misses none.

    Of the last key before the gap it misses none if it sees an entry there: that one is of a later version than those
    that are lost. Of the first key behind it, none if this is of its own version or a later one.
    """
    lower: Optional[bytes] = b""
    upper = None
    if gap.before:
        key, last = gap.before[0].last
        has_it = any(tree.sees(reader, other) for block in gap.before for other in block.ends)
        lower = key_behind(key) if has_it else key
        if gap.behind is not None and key == gap.behind.first[0]:  # all that is lost is of this key
            between = range(gap.behind.first[1] + 1, last)
            return Range(key, key_behind(key)) if not has_it and any(tree.sees(reader, other) for other in between) else None
    if gap.behind is not None:
        key, first = gap.behind.first
        upper = key if reader <= first else key_behind(key)
    if lower is None or Range(lower, upper).is_empty:
        return None
    return Range(lower, upper)


# Segments

def segments(lost: Iterable[Tuple[Range, int]]) -> List[Segment]:
    """The whole of all keys in segments, for ranges that are lost in levels of these numbers."""
    steps: Dict[bytes, List[Tuple[int, int]]] = {b"": []}  # at a bound, how many more ranges of a level there are behind it
    for found, level in lost:
        steps.setdefault(found.lower, []).append((level, 1))
        if found.upper is not None:
            steps.setdefault(found.upper, []).append((level, -1))
    bounds = sorted(steps)
    counts: Dict[int, int] = {}
    parts: List[Segment] = []
    for lower, upper in zip(bounds, [*bounds[1:], None]):
        for level, step in steps[lower]:
            counts[level] = counts.get(level, 0) + step
        least = min((level for level, count in counts.items() if count), default=None)
        if parts and parts[-1].level == least:
            parts[-1] = Segment(Range(parts[-1].range.lower, upper), least)
        else:
            parts.append(Segment(Range(lower, upper), least))
    return parts


def plan(gaps: Sequence[Gap], parents: Sequence[Optional[int]]) -> List[Tuple[Segment, ...]]:
    """For each version its segments. Versions that miss the same share them."""
    tree = Tree(parents)
    lost: Dict[Tuple[int, int], Dict[int, List[Tuple[Range, int]]]] = {}  # by level and horizon, and the version of a tag
    for gap in gaps:
        readers = lost.setdefault((gap.level, gap.horizon), {})
        for reader in gap.versions:
            found = lost_by(gap, reader, tree)
            if found is not None:
                readers.setdefault(reader, []).append((found, gap.level))
    levels = [(tree.readers(horizon), readers) for (_, horizon), readers in lost.items()]
    shared: Dict[Tuple[Tuple[Range, int], ...], Tuple[Segment, ...]] = {}
    plans = []
    for version in range(len(parents)):
        missed = tuple(item for nearest, readers in levels for item in readers.get(nearest[version], ()))
        if missed not in shared:
            shared[missed] = tuple(segments(missed))
        plans.append(shared[missed])
    return plans


def ranges(parts: Sequence[Segment]) -> List[Range]:
    """The ranges of these segments in which entries are missed, those in a row as one."""
    found: List[Range] = []
    for part in parts:
        if part.level is None:
            continue
        if found and found[-1].upper == part.range.lower:
            found[-1] = Range(found[-1].lower, part.range.upper)
        else:
            found.append(part.range)
    return found
