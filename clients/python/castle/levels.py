"""What is in a store's levels: read from what the program prints, and drawn as text. `picture_levels` has the picture."""

from __future__ import annotations

import re
from typing import Iterator, List, NamedTuple, Optional, Sequence, Tuple

from . import errors
from .lock import Lock
from .process import printed
from .text import counted

TRIES = 5  # times that a file is read which somebody else may have open


class Array(NamedTuple):
    """A sorted run of entries, which some versions are read from. An entry is a key's value, or that it has none."""

    id: int
    entries: int
    leads: int
    """Entries that were made at its own versions. The others are copies of those that a version above them sees."""
    least: int
    """How many of its entries the one of its versions sees that sees the fewest: a third of them at least."""
    versions: Tuple[int, ...]
    """Those that are read from it, ascending."""

    @property
    def density(self) -> float:
        """`least` of `entries`."""
        return self.least / self.entries

    @property
    def copies(self) -> int:
        """Entries that were made at versions of other arrays."""
        return self.entries - self.leads


class Level(NamedTuple):
    """What was merged at one time. A deeper level, of a greater number, is older and has room for more."""

    number: int
    horizon: int
    """How many versions there were then."""
    leads: int
    entries: int
    arrays: Tuple[Array, ...]


class Levels(NamedTuple):
    """A store with its limits, what its journal holds, and its levels that are not empty."""

    generation: int
    """One more than how often the journal was emptied."""
    mem: int
    """M, how many changes a region of the journal takes."""
    changes: int
    changes_max: int
    """C."""
    versions: int
    versions_max: int
    """V."""
    journal_changes: int
    journal_updates: int
    levels: Tuple[Level, ...]
    stored: int
    """Entries in all arrays, and updates in the journal: at most two for each update that was made."""
    updates: int
    written: int
    """Entries that were written into arrays since the store was made."""

    def capacity(self, level: int) -> int:
        """How many leads the level with this number has room for."""
        return self.mem << level

    @property
    def journal_most(self) -> int:
        """How many changes the journal takes: M until it is full, and M - 2 more while it is emptied."""
        return self.mem if self.journal_changes <= self.mem else 2 * self.mem - 2

    @property
    def depth(self) -> int:
        """The least level, from 1 on, with room for all changes that left the journal."""
        level = 1
        while self.capacity(level) < self.changes - self.journal_changes:
            level += 1
        return level

    @property
    def stored_most(self) -> int:
        """The proved bound of `stored`: two entries for each update."""
        return 2 * self.updates

    @property
    def written_most(self) -> int:
        """The proved bound of `written`, in a store that this program made and alone changed."""
        return 4 * self.depth * (self.changes - self.journal_changes)

    @property
    def arrays(self) -> List[Array]:
        """The arrays of all levels, the shallowest level first."""
        return [array for level in self.levels for array in level.arrays]


# Reading

def of_file(program: str, real: str, file: str, lock: Optional[Lock] = None, command: str = "levels") -> Levels:
    """What the program says of a file, which errors call `file`. Without its locks somebody else may have it open.

    Then what is read may be of different times, where a journal was emptied in between, and look damaged. So it is read again.
    """
    for left in range(TRIES if lock is None else 1, 0, -1):
        text, status = printed(program, ["levels", real], file, lock)
        if status == 0:
            break
        end = errors.ended(status, file, command, text)
        if left == 1 or not isinstance(end, errors.StoreDamaged):
            raise errors.unknown_word(end, real)
    try:
        return read(text)
    except ValueError as error:
        raise errors.WrongProtocol(f"its levels can't be read: {error}", file=file, command=command) from error


STORE = re.compile(r"store generation (\d+) mem (\d+) changes (\d+) of (\d+) versions (\d+) of (\d+)")
JOURNAL = re.compile(r"journal changes (\d+) updates (\d+)")
LEVEL = re.compile(r"level (\d+) horizon (\d+) leads (\d+) entries (\d+)")
ARRAY = re.compile(r"array (\d+) density (\d+)/([1-9]\d*) lead (\d+)/\d+ versions")
RUNS = re.compile(r"(\d+(-\d+)?,)+")
STORED = re.compile(r"stored (\d+) updates (\d+) written (\d+)")


def _numbers(form: "re.Pattern[str]", line: str) -> List[int]:
    """The numbers of a line. A ValueError tells that it is another one."""
    found = form.fullmatch(line)
    if found is None:
        raise ValueError(f"the line {line!r}")
    return [int(number) for number in found.groups()]


def _array(line: str) -> Array:
    head, _, runs = line.rpartition(" ")
    number, least, entries, leads = _numbers(ARRAY, head)
    if not RUNS.fullmatch(runs + ","):
        raise ValueError(f"the versions {runs}")
    versions: List[int] = []
    for run in runs.split(","):
        first, _, last = run.partition("-")
        versions.extend(range(int(first), int(last or first) + 1))
    return Array(number, entries, leads, least, tuple(versions))


def read(text: str) -> Levels:
    """The levels of which the program printed this. A ValueError tells that it prints no such text."""
    store, journal, *middle, last, end = text.split("\n") if text.count("\n") > 2 else 4 * ["-"]
    if end:
        raise ValueError("it ends amid a line")
    found: List[Tuple[Level, List[Array]]] = []
    for line in middle:
        if line.startswith("level "):
            number, horizon, leads, entries = _numbers(LEVEL, line)
            found.append((Level(number, horizon, leads, entries, ()), []))
        elif found:
            found[-1][1].append(_array(line))
        else:
            raise ValueError("an array stands in front of the levels")
    generation, mem, changes, changes_max, versions, versions_max = _numbers(STORE, store)
    journal_changes, journal_updates = _numbers(JOURNAL, journal)
    stored, updates, written = _numbers(STORED, last)
    levels = tuple(level._replace(arrays=tuple(arrays)) for level, arrays in found)
    return Levels(generation, mem, changes, changes_max, versions, versions_max, journal_changes, journal_updates, levels,
                  stored, updates, written)


# Text

BAR = 24  # columns for the largest array
LISTED = 40  # columns for an array's versions


def listed(versions: Sequence[int]) -> str:
    """Versions as their runs of following numbers, as `0,2-4`."""
    runs: List[List[int]] = []
    for version in versions:
        if runs and runs[-1][-1] == version - 1:
            runs[-1][1:] = [version]
        else:
            runs.append([version])
    return ",".join("-".join(map(str, run)) for run in runs)


def in_short(versions: Sequence[int]) -> str:
    """The same in one word, which breaks off where there are many runs."""
    whole = listed(versions)
    if len(whole) <= LISTED:
        return whole
    return f"{whole[:whole.rindex(',', 0, LISTED)]},.. ({len(versions):,} in all)"


def _bar(array: Array, most: int) -> str:
    """A bar as long as the array, of which the share that is live is full."""
    length = max(1, round(BAR * array.entries / most))
    full = max(1, round(length * array.density)) if array.least else 0
    return ("█" * full + "░" * (length - full)).ljust(BAR)


def heading(levels: Levels) -> str:
    """A store in one line."""
    return (f"generation {levels.generation:,}, M {levels.mem:,}, {levels.changes:,} of "
            f"{counted(levels.changes_max, 'change')}, {levels.versions:,} of {counted(levels.versions_max, 'version')}")


def lines(levels: Levels) -> Iterator[str]:
    """The levels as lines of text. Each array has a bar: its length are its entries, and full is the share that is live."""
    yield heading(levels)
    yield f"journal: {counted(levels.journal_changes, 'change')}, {counted(levels.journal_updates, 'update')}"
    most = max((array.entries for level in levels.levels for array in level.arrays), default=1)
    for level in levels.levels:
        yield (f"level {level.number}: {counted(level.leads, 'lead')}, {counted(level.entries, 'entry')}, "
               f"{counted(len(level.arrays), 'array')}, horizon {level.horizon:,}")
        rows = [(f"array {array.id}", _bar(array, most), f"live {array.least}/{array.entries}",
                 f"leads {array.leads}/{array.entries}", f"versions {in_short(array.versions)}") for array in level.arrays]
        widths = [max(map(len, column)) for column in zip(*rows)]
        for row in rows:
            yield "  " + "  ".join(cell.ljust(width) for cell, width in zip(row, widths)).rstrip()
    yield (f"stored: {counted(levels.stored, 'entry')} for {counted(levels.updates, 'update')}; "
           f"{levels.written:,} written since the store was made")
