"""How far a check is: which level it reads, and how many blocks it has read, as the system counts them for its process.

A check scans the arrays of all levels first. Then it merges those of each level, and counts them one by one.
"""

from __future__ import annotations

import contextlib
import os
import re
from typing import Callable, Iterator, List, NamedTuple, Optional, Tuple

from . import fileform
from .fileform import BLOCK, RECORD_MAX, Head
from .storecopy import Progress, silent

MANIFEST_MOST = 1 << 26  # bytes of a manifest that is looked at
MEM_MOST = 4096  # the largest M
GATE, UPDATES, CLONE = 0xa7, (1, 2), 3  # of a record: its open flag, and its kinds
PUT = 1
BEGINNING = "the manifest and the journal are read"


class Course(NamedTuple):
    """What a check reads of a file, in its order."""

    before: int
    """How many blocks it reads before those of arrays."""
    levels: Tuple[Tuple[int, int], ...]
    """The number of each level, and how many blocks its arrays have."""

    @property
    def total(self) -> int:
        """How often it reads a block of an array."""
        return sum(blocks for _, blocks in self._steps())

    def place(self, read: int) -> Tuple[str, int]:
        """Where a check is that has read so many blocks, and how many of these were of arrays."""
        done = left = min(max(0, read - self.before), self.total)
        what = BEGINNING
        for step, blocks in self._steps() if read > self.before else ():
            what = step
            if left < blocks:
                break
            left -= blocks
        return what, done

    def _steps(self) -> Iterator[Tuple[str, int]]:
        """What is done with the levels, and with how many blocks."""
        for number, blocks in self.levels:
            yield f"level {number} is scanned", blocks
        for number, blocks in self.levels:
            yield f"level {number} is merged", blocks
            yield f"level {number} is counted", blocks


def course_of(path: str) -> Optional[Course]:
    """What a check reads of a file; None where that can't be told. The file may have any bytes."""
    with contextlib.suppress(OSError, ValueError), open(path, "rb", 0) as file:
        head = fileform.read_head(file.fileno())
        if head.length <= MANIFEST_MOST and head.mem <= MEM_MOST and head.region <= 1:
            manifest = fileform.read_manifest(file.fileno(), head)
            levels = ((level.number, sum(count for array in level.arrays for _, count in array.extents)) for level in manifest.levels)
            chain = -(-head.length // fileform.CHAINED)
            return Course(chain + _journal_blocks(file.fileno(), head), tuple(levels))
    return None


def _journal_blocks(file: int, head: Head) -> int:
    """How many blocks of the journal a recovery reads: those of the active region, and of the other one if that is full."""
    size = -(-(RECORD_MAX * head.mem + 1) // BLOCK)
    blocks, most = 0, head.mem
    for region in (head.region, 1 - head.region):
        count, end = _records(os.pread(file, size * BLOCK, (2 + region * size) * BLOCK) + bytes(RECORD_MAX), most)
        blocks += min(size, end // BLOCK + 1)
        if count < head.mem:
            break
        most = head.mem - 1
    return blocks


def _records(data: bytes, most: int) -> Tuple[int, int]:
    """How many records a region has from its beginning on, so many at most, and where the last one ends."""
    count = at = 0
    while count < most and at + RECORD_MAX <= len(data) and data[at] == GATE:
        kind, end = data[at + 1], at + 6
        if kind in UPDATES:
            end += 1 + data[end]
            end += 2 + int.from_bytes(data[end:end + 2], "big") if kind == PUT else 0
        elif kind != CLONE:
            break
        count, at = count + 1, end
    return count, at


def blocks_read(pid: int) -> Optional[int]:
    """How many blocks a process has read, as Linux counts it; None where that can't be told."""
    with contextlib.suppress(OSError), open(f"/proc/{pid}/io", encoding="ascii") as file:
        found = re.match(r"rchar: (\d+)\n", file.read())
        return int(found[1]) // BLOCK if found else None
    return None


def watch(pid: int, path: str, what: str, progress: Progress) -> Optional[Callable[[], None]]:
    """What tells how far the check of a file by a process is, each time that it is called; None where nothing is to be told."""
    known: List[Optional[Course]] = []

    def look() -> None:
        if not known:
            known.append(course_of(path))
        read, course = blocks_read(pid), known[0]
        if read is None or course is None:
            progress(what, 0, None)
        else:
            place, done = course.place(read)
            progress(f"{what}, {place}, blocks read", done, course.total)

    return None if progress is silent else look
