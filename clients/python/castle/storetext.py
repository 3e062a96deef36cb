"""A whole store as lines of text, and back: its versions in order, with their names and what differs from their parents.

The first line is `# castle store 1, TITLE`. Each version begins with `version`, its number, and its parent's but for
version 0. A line `name`, NAME, TIME, DESCRIPTION follows for each of its names, and then in the order of their keys
`+`, KEY, VALUE for each pair that the parent has not, and `-`, KEY for each key that it has beyond. The last line
is `# end, 2 versions, 1 name, 3 changes`. Tabs stand between the words of a line, which are written as in a dump.

For a version that was dropped there is the line `dropped`, its number and its parent's. Where there is one the first line begins
with `# castle store 2`, so that a client which knows no drops does not take it.
"""

from __future__ import annotations

import contextlib
import re
import tempfile
from typing import TYPE_CHECKING, Dict, Iterable, Iterator, List, NamedTuple, NoReturn, Optional, Set, TextIO, Tuple, Union

from . import branches, dump, errors, outfile
from .dropping import drop_all
from .errors import DumpFault, NameFault
from .names import NAME, Name, read_name, written_name
from .text import cell, encoded, shortened

if TYPE_CHECKING:
    from .batch import Batch
    from .store import Store

FIRST = "# castle store 1"
WITH_DROPS = "# castle store 2"
HEAD = re.compile(rf"({FIRST}|{WITH_DROPS})(,.*)?")
END = "# end, "
CHECKED = 10000  # changes that a check reads between two times that it tells how far it is
WINDOW = 256  # commands that a load sends at once; it can be stopped between two windows


class Counts(NamedTuple):
    """What a dump of a store has, up to some line."""

    versions: int
    names: int
    changes: int

    def __str__(self) -> str:
        return ", ".join(f"{count} {noun[:-1] if count == 1 else noun}" for noun, count in self._asdict().items())


# Writing

def lines_of(store: "Store", title: str) -> Iterator[str]:
    """The lines of a store, as of the versions that it has when the first one is asked for.

    Each version is shown as it is when its lines begin. It scans each version and its parent side by side, and takes memory
    for a piece of both.
    """
    store.names.check_readable()
    names = [(name, store.names.about(name)) for name in store.names]
    infos, named, changes = store.versions(), 0, 0  # they are asked for behind the names, so that each name has its version
    dropped = store.dropped() if None in infos else {}
    yield f"{WITH_DROPS if dropped else FIRST}, {cell(encoded(title))}\n"
    for version, info in enumerate(infos):
        if info is None:
            yield f"dropped\t{version}\t{dropped[version]}\n"
            continue
        yield f"version\t{version}\n" if info.parent is None else f"version\t{version}\t{info.parent}\n"
        while named < len(names) and names[named][1].version == version:
            yield "\t".join(["name", names[named][0], *written_name(names[named][1])]) + "\n"
            named += 1
        for key, value in _changes_of(store, version, info.parent):
            yield f"-\t{cell(key)}\n" if value is None else f"+\t{cell(key)}\t{cell(value)}\n"
            changes += 1
    yield f"{END}{Counts(len(infos), len(names), changes)}\n"


def _changes_of(store: "Store", version: int, parent: Optional[int]) -> Iterator[Tuple[bytes, Optional[bytes]]]:
    """The keys of a version that differ from its parent, with their values; None where it has none."""
    if parent is None:
        yield from store.scan(version)
    else:
        for key, _, value in store.diff(parent, version):
            yield key, value


# Reading

class Change(NamedTuple):
    """A key of the version whose lines these are, and its value; None where it has none."""

    key: bytes
    value: Optional[bytes]


class Version(NamedTuple):
    """A version that follows, with its parent."""

    parent: int
    is_dropped: bool = False


Item = Union[Version, Change]


class Reader:
    """Reads the lines of a store. A `DumpFault` tells of a line that can't be, and of an end that is missing."""

    def __init__(self, file: str) -> None:
        self.names: Dict[str, Name] = {}
        self._file = file
        self._line = 0
        self._versions = 0
        self._dropped: Set[int] = set()
        self._takes_drops = False
        self._changes = 0
        self._last: Optional[bytes] = None  # the key of the line before, in the same version
        self._has_ended = False

    @property
    def counts(self) -> Counts:
        """What was read so far. Dropped versions are counted as well."""
        return Counts(self._versions, len(self.names), self._changes)

    @property
    def dropped(self) -> List[int]:
        """The dropped versions that were read so far, each behind those below it."""
        return sorted(self._dropped, reverse=True)

    def items(self, lines: Iterable[str]) -> Iterator[Item]:
        """The versions but for version 0, each before its changes. `names` has the names that came so far."""
        for self._line, written in enumerate(lines, 1):
            line = written.rstrip("\n")
            if self._line == 1 and not HEAD.fullmatch(line):
                self._refuse("is not that of a dump of a store", f"It begins with {FIRST}; `load FILE` takes one of a version.")
            if self._line == 1:
                self._takes_drops = line.startswith(WITH_DROPS)
            if self._has_ended:
                self._refuse("stands behind the end", "Remove it, or dump again.")
            if line.startswith("#"):
                self._end(line)
                continue
            yield from self._item(line.split("\t"))
        if not self._has_ended:
            raise DumpFault(f"it is cut off behind line {self._line}", "Dump again: its last line has counts.", file=self._file)

    def _refuse(self, what: str, remedy: str = "Mend the line, or dump again.") -> NoReturn:
        raise DumpFault(f"line {self._line} {what}", remedy, file=self._file)

    def _end(self, line: str) -> None:
        """Compares the counts of the last line. Other lines that begin with # are passed over."""
        if not line.startswith(END):
            return
        if line != f"{END}{self.counts}" or not self._versions:
            raise DumpFault(f"it has {self.counts}, and its last line says {shortened(cell(encoded(line[len(END):])))}",
                            "Dump again, or mend that line.", file=self._file)
        self._has_ended = True

    def _item(self, words: List[str]) -> Iterator[Item]:
        """What a line says, as words between tabs."""
        kind, count = words[0], len(words)
        if kind == "version" and count in (2, 3):
            yield from self._version(words[1:], False)
        elif (kind, count) == ("dropped", 3) and self._versions and self._takes_drops:
            yield from self._version(words[1:], True)
        elif kind == "name" and count in (2, 3, 4) and self._is_filled and self._last is None:
            self._name(words[1], words[2:])
        elif (kind, count) in (("+", 3), ("-", 2)) and self._is_filled:
            yield self._change(words[1:])
        else:
            self._refuse("is neither a version, nor a name of it, nor a change in it")

    @property
    def _is_filled(self) -> bool:
        """Whether names and changes may follow: the last version is there, and was not dropped."""
        return self._versions > 0 and self._versions - 1 not in self._dropped

    def _version(self, words: List[str], is_dropped: bool) -> Iterator[Version]:
        """A version with its parent, for any but version 0."""
        numbers = [int(word) if re.fullmatch("[0-9]{1,9}", word) else -1 for word in words]
        if numbers[0] != self._versions or len(numbers) != (2 if self._versions else 1):
            self._refuse(f"is not that of version {self._versions} with its parent")
        if self._versions and not 0 <= numbers[1] < self._versions:
            self._refuse(f"has a parent that is no version before {self._versions}")
        if not is_dropped and self._dropped.intersection(numbers[1:]):
            self._refuse("has a parent that was dropped")
        if is_dropped:
            self._dropped.add(self._versions)
        self._versions += 1
        self._last = None
        yield from (Version(parent, is_dropped) for parent in numbers[1:])

    def _name(self, name: str, words: List[str]) -> None:
        if not NAME.fullmatch(name):
            self._refuse("has a name that can't be")
        if name in self.names:
            self._refuse(f"has the name {name} a second time", "Remove one of them.")
        try:
            self.names[name] = read_name(self._versions - 1, *words)
        except NameFault as fault:
            self._refuse(f"has the name {name}: {fault.what}", fault.remedy)

    def _change(self, words: List[str]) -> Change:
        key, value = dump.pair_of(words[0], words[1] if words[1:] else "", self._line, self._file)
        if self._last is not None and key <= self._last:
            self._refuse("has a key that is not behind that of the line before", "Put a version's keys in order, each once.")
        self._last = key
        self._changes += 1
        return Change(key, value if words[1:] else None)


# Loading

@contextlib.contextmanager
def twice(path: str) -> Iterator[TextIO]:
    """A file that can be read twice, as the reader wants it. What a pipe gives is kept in a temporary file."""
    with open(path, encoding="utf-8", errors="surrogateescape", newline="\n") as file:
        if file.seekable():
            yield file
            return
        with tempfile.TemporaryFile("w+", encoding="utf-8", errors="surrogateescape", newline="\n") as kept:
            kept.writelines(file)
            kept.seek(0)
            yield kept


class Loading:
    """Loads lines into a fresh store, with the same numbers of versions. They are read twice: by `check`, and by `load`.

    Both go on piece by piece, so that they can be stopped between two.
    """

    def __init__(self, store: "Store", file: str) -> None:
        self.counts = Counts(0, 0, 0)
        """What is loaded for good."""
        self._store = store
        self._file = file

    def check(self, lines: Iterable[str]) -> Iterator[None]:
        """Fails where the store can't take the lines; nothing is changed.

        It raises `ReadOnly`, `NotFresh`, `DumpFault`, `VersionLimit` and `ChangeLimit`.
        """
        store = self._store
        if store.read_only:
            raise errors.ReadOnly(file=store.path, command="load")
        store.names.check_changeable()
        if store.stat().changes or store.names:
            raise errors.NotFresh(file=store.path)
        reader = Reader(self._file)
        for number, _ in enumerate(reader.items(lines), 1):
            if number % CHECKED == 0:
                yield
        versions, _, changes = reader.counts
        branches.check_room(store, versions - 1, versions - 1 + changes + len(reader.dropped), self._file)

    def load(self, lines: Iterable[str]) -> Iterator[None]:
        """Makes the versions and their changes, window by window, drops those that were dropped, and gives all names by one write."""
        reader, batch, sent = Reader(self._file), self._store.batch(), 0
        for item in reader.items(lines):
            _send(batch, reader.counts.versions - 1, item)
            sent += 1
            if sent % WINDOW == 0:
                batch.finish()
                self.counts = reader.counts._replace(names=0)
                batch = self._store.batch()
                yield
        batch.finish()
        self.counts = reader.counts._replace(names=0)
        yield from drop_all(self._store, reader.dropped)
        if reader.names:
            with outfile.told(self._store.names.path, "written"):
                self._store.names.restore(reader.names)
        self.counts = reader.counts


def _send(batch: "Batch", version: int, item: Item) -> None:
    """Makes this version as a clone of its parent, or makes a change in it."""
    if isinstance(item, Version):
        batch.clone(item.parent)
    elif item.value is None:
        batch.delete(version, item.key)
    else:
        batch.put(version, item.key, item.value)
