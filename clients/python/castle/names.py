"""Names for versions, in a text file beside the store."""

from __future__ import annotations

import contextlib
import os
import re
import threading
import warnings
from datetime import datetime, timezone
from typing import AbstractSet, Callable, Dict, Iterator, List, Mapping, MutableMapping, NamedTuple, Optional, Sequence

from .errors import CastleError, Dropped, NameFault, NamesWarning, TextFault, UnknownName, UnknownVersion
from .files import sync_folder, write_whole
from .frames import NUMBER_MAX
from .text import cell, encoded, unescaped

NAME = re.compile(r"(?!\d+$)\w[\w.-]{0,63}")
NUMBER = re.compile(r"[0-9]{1,10}")
TIME = re.compile(r"([0-9]{4})-([0-9]{2})-([0-9]{2})T([0-9]{2}):([0-9]{2}):([0-9]{2})Z")
NO_TIME = "-"
DESCRIPTION_MAX = 1000  # characters
LISTED = 5  # names that a message has at most


class Name(NamedTuple):
    """What a name stands for."""

    version: int
    time: Optional[datetime] = None
    """When the name was given to this version, in UTC and whole seconds. None if an older client gave it."""
    description: str = ""


class Names(MutableMapping[str, int]):
    """The versions that have names: `names["staging"] = 1`, `names["staging"]`, `del names["staging"]`.

    Each name has a time and a description (`about`, `describe`). They are in `FILE.names`, a line
    `NAME VERSION TIME DESCRIPTION` for each, of which older clients wrote `NAME VERSION`. A change is in the file for good
    when it returns: a new file is written and synced, takes the place of the old one, and the folder is synced. A name is
    1 to 64 letters, digits, `_`, `.` and `-`, begins with a letter, a digit or `_`, and is no number. A version may have
    several names.

    A file that can't be read leaves the store without names, and is not touched: changes raise its `NameFault` until it
    is mended or removed. Names of versions that the store doesn't have, or has dropped, are left out, and leave the file with the
    next change of names or before the next clone, which could get such a number. `warning` tells of both, as does a `NamesWarning`.
    """

    warning = ""
    """What is wrong with the file, as it was opened; empty where nothing is."""

    def __init__(self, path: str, store: str, refusals: Callable[[Sequence[int]], Sequence[Optional[CastleError]]],
                 guard: Callable[[], object], lock: "threading._RLock") -> None:
        """The names in the file at this path, of the store at another one.

        `refusals` gives for each of some versions what a command at it is refused with; None where the store has it. `guard` fails
        where names may not be changed. The lock is that around the store's commands.
        """
        self.path = path
        self._store = store
        self._refusals = refusals
        self._guard = guard
        self._lock = lock
        self._names: Dict[str, Name] = {}
        self._strays: Dict[str, Name] = {}  # names of versions that the store doesn't have, which the file has still
        self._fault: Optional[NameFault] = None
        self._read()
        if self._fault is not None:
            self.warning = f"{self._fault} The store has no names until then."
        elif self._strays:
            lost = self._lost({it.version for it in self._strays.values()})
            told = []
            for what, are_dropped in (("that the store doesn't have", False), ("that were dropped", True)):
                names = [f"{name} {it.version}" for name, it in self._strays.items() if isinstance(lost[it.version], Dropped) == are_dropped]
                told += [f"names of versions {what} are left out: {_listed(names)}"] if names else []
            self.warning = f"{self.path}: {'; '.join(told)}"
        if self.warning:
            warnings.warn(self.warning, NamesWarning, stacklevel=3)

    def _read(self) -> None:
        """Reads the file, or keeps why it can't be read."""
        found: Dict[str, Name] = {}
        self._fault = None
        try:
            with open(self.path, encoding="utf-8") as file:
                for number, line in enumerate(file, 1):
                    self._take(found, number, line)
        except FileNotFoundError:
            pass
        except UnicodeDecodeError:
            self._fault = NameFault("it is no text of UTF-8", "Mend or remove the file.", file=self.path)
        except OSError as error:
            self._fault = NameFault(f"it can't be read: {error.strerror}", "Mend or remove it.", file=self.path)
        except NameFault as fault:
            self._fault = fault.with_traceback(None)
        if self._fault is not None:
            found = {}
        lost = self._lost({it.version for it in found.values()}) if found else {}
        self._names = {name: it for name, it in found.items() if it.version not in lost}
        self._strays = {name: it for name, it in found.items() if it.version in lost}

    def _take(self, found: Dict[str, Name], number: int, line: str) -> None:
        """Adds the name of a line."""
        words = line.split(None, 3)
        if not words:
            return
        name, version = [*words, ""][:2]
        if not NAME.fullmatch(name) or not NUMBER.fullmatch(version):
            raise NameFault(f"line {number} is not a name and a version", "Mend the line: NAME VERSION.", file=self.path)
        if name in found:
            raise NameFault(f"line {number} has the name {name} a second time", "Remove one of them.", file=self.path)
        try:
            found[name] = read_name(int(version), *words[2:])
        except NameFault as fault:
            raise NameFault(f"line {number}: {fault.what}", fault.remedy, file=self.path) from None

    def forget_strays(self) -> None:
        """Takes the names that were left out from the file, before a version gets such a number."""
        if self._strays:
            with self._lock:
                self._write(dict(self._names))

    def __getitem__(self, name: str) -> int:
        return self._names[name].version

    def __iter__(self) -> Iterator[str]:
        names = self._names
        return iter(sorted(names, key=lambda name: (names[name].version, name)))

    def __len__(self) -> int:
        return len(self._names)

    def __repr__(self) -> str:
        return f"<names {dict(self)}>"

    def __setitem__(self, name: str, version: int) -> None:
        self.assign({name: version})

    def assign(self, versions: Mapping[str, int], descriptions: Optional[Mapping[str, str]] = None) -> None:
        """Gives several names their versions in one write: all of them are in the file for good, or none.

        A name that stands already keeps its description, unless there is another one for it.
        """
        self.check_changeable()
        for name, version in versions.items():
            self.check(name)
            self._check_version(name, version)
        told = {name: described(text) for name, text in (descriptions or {}).items()}
        now = datetime.now(timezone.utc).replace(microsecond=0)
        with self._lock:
            names = dict(self._names)
            for name, version in versions.items():
                had = names.get(name, Name(version))
                names[name] = Name(int(version), now, told.get(name, had.description))
            self._write(names)

    def describe(self, name: str, description: str) -> None:
        """Gives a name a description, of at most 1,000 characters in one line; an empty one takes it away."""
        text = described(description)
        self.check_changeable()
        with self._lock:
            self._write({**self._names, name: self.about(name)._replace(description=text)})

    def restore(self, names: Mapping[str, Name]) -> None:
        """Has these names, with their times, and no others. All of them are in the file for good, or none."""
        self.check_changeable()
        for name, it in names.items():
            self.check(name)
            self._check_version(name, it.version)
        kept = {name: read_name(it.version, *written_name(it)) for name, it in names.items()}
        with self._lock:
            self._write(kept)

    def __delitem__(self, name: str) -> None:
        self.check_changeable()
        with self._lock:
            left = dict(self._names)
            del left[name]
            self._write(left)

    def let_go(self, versions: AbstractSet[int]) -> List[str]:
        """Takes the names away of those of some versions that the store does not have any more, and gives these names.

        They are no names from here on, also where the file can't be written; then they leave it with the next change of names.
        """
        with self._lock:
            named = versions & {it.version for it in self._names.values()}
            lost = self._lost(named) if named else {}
            if not lost:
                return []
            gone = {name: it for name, it in self._names.items() if it.version in lost}
            self._strays = {**self._strays, **gone}
            self._names = {name: it for name, it in self._names.items() if name not in gone}
            self._write(dict(self._names))
            return sorted(gone)

    def check_changeable(self) -> None:
        """Fails where names can't be changed: the file can't be read, the store was moved, or it is a private copy."""
        self._guard()
        with self._lock:
            self._mend()

    def _mend(self) -> None:
        """Reads a file anew that could not be read, and fails as long as it can't be."""
        if self._fault is not None:
            self._read()
            self.check_readable()

    def check_readable(self) -> None:
        """Fails where the file can't be read, so that there are no names."""
        if self._fault is not None:
            raise NameFault(self._fault.what, self._fault.remedy, file=self._fault.file)

    def check(self, name: str) -> None:
        """Fails for a name that no version can have."""
        if not isinstance(name, str) or not NAME.fullmatch(name):
            raise NameFault(f"{_shortened(repr(name))} can't be a name",
                            "A name is 1 to 64 letters, digits, _, . and -, begins with no . or -, and is no number.",
                            file=self._store)

    def check_free(self, name: str) -> None:
        """Fails for a name that no version can have, and for one that stands already."""
        self.check(name)
        self.check_readable()
        if name in self._names:
            raise NameFault(f"version {self[name]} has the name {name}",
                            f"Take another, or `names remove {name}` takes it away.", file=self._store)

    def _check_version(self, name: str, version: int) -> None:
        """Fails for what is not the number of a version."""
        if not isinstance(version, int) or isinstance(version, bool):
            raise NameFault(f"the version of the name {name} is {version!r}, and no number",
                            f"Give its number, as in names[{name!r}] = 1.", file=self._store)
        if not 0 <= version <= NUMBER_MAX:
            raise UnknownVersion(file=self._store, command=f"name version {version}")
        refusal = self._refusals([version])[0]
        if refusal is not None:
            refusal.command = f"name version {version}"
            raise refusal

    def _lost(self, versions: AbstractSet[int]) -> Dict[int, UnknownVersion]:
        """Those of some versions that the store doesn't have, each with what says so."""
        asked = sorted(version for version in versions if version <= NUMBER_MAX)
        lost = {version: UnknownVersion() for version in versions if version > NUMBER_MAX}
        for version, refusal in zip(asked, self._refusals(asked)):
            if isinstance(refusal, UnknownVersion):
                lost[version] = refusal
            elif refusal is not None:
                raise refusal
        return lost

    def of(self, version: int) -> List[str]:
        """The names of a version, in the order of the alphabet."""
        return sorted(name for name, it in self._names.items() if it.version == version)

    def about(self, name: str) -> Name:
        """What a name stands for, with its time and description."""
        self.version(name)
        return self._names[name]

    def version(self, name: str) -> int:
        """The version with this name. Where there is none the message lists some names that there are."""
        found = self._names.get(name)
        if found is not None:
            return found.version
        self.check_readable()
        listed = _listed(list(self)) or "no version has one"
        raise UnknownName(f"no version has the name {_shortened(name)}", f"Names: {listed}.", file=self._store)

    def _write(self, names: Dict[str, Name]) -> None:
        """Writes them for good, and only then has them."""
        self._guard()
        ordered = sorted(names.items(), key=lambda item: (item[1].version, item[0]))
        lines = [" ".join([name, str(it.version), *written_name(it)]) + "\n" for name, it in ordered]
        write_whole(self.path, lines, self.path.rpartition(".names")[0])
        self._names, self._strays = names, {}


# Times and descriptions

def described(description: str) -> str:
    """A description without blanks around it. A `NameFault` tells of one that a name can't have."""
    if not isinstance(description, str):
        raise NameFault(f"the description is {description!r}, and no text", "Give text.")
    text = description.strip()
    try:
        encoded(text)
    except UnicodeEncodeError:
        raise NameFault("a description has half a surrogate pair", "Give text that has UTF-8.") from None
    if len(text) > DESCRIPTION_MAX:
        raise NameFault(f"a description has {len(text):,} characters, above {DESCRIPTION_MAX:,}",
                        "Cut it short; a key of the store takes more.")
    return encoded(text).decode("utf-8", "surrogateescape")


def written_time(time: Optional[datetime]) -> str:
    """A time as files have it; `-` if there is none."""
    return NO_TIME if time is None else time.astimezone(timezone.utc).replace(tzinfo=None).isoformat(timespec="seconds") + "Z"


def written_name(name: Name) -> List[str]:
    """A name's time and description as words, as far as it has them."""
    text = described(name.description)
    if name.time is None and not text:
        return []
    return [written_time(name.time), *filter(None, [cell(encoded(text))])]


def read_name(version: int, time: str = NO_TIME, description: str = "") -> Name:
    """What `written_name` wrote. A `NameFault` tells of other words."""
    when, found = None, TIME.fullmatch(time)
    with contextlib.suppress(ValueError):  # there may be no such day or hour
        when = datetime(*map(int, found.groups()), tzinfo=timezone.utc) if found else None  # type: ignore[misc, arg-type]
    if when is None and time != NO_TIME:
        raise NameFault(f"{_shortened(cell(encoded(time)))} is no time", "Write it as 2026-11-29T12:00:00Z, or - where there is none.")
    try:
        text = unescaped(description).decode("utf-8", "surrogateescape")
    except TextFault as fault:
        raise NameFault(f"in the description {fault.what}", fault.remedy) from None
    return Name(version, when, described(text))


def _listed(words: List[str]) -> str:
    """The first words of a list, and how many there are in all."""
    more = f", .. ({len(words):,} in all)" if len(words) > LISTED else ""
    return ", ".join(words[:LISTED]) + more


def _shortened(word: str) -> str:
    return word if len(word) <= 80 else word[:70] + ".."


def remove_names(store: str) -> None:
    """Forgets all names of the store at this path."""
    try:
        os.remove(store + ".names")
    except FileNotFoundError:
        return
    except OSError as error:
        raise NameFault(f"it can't be removed: {error.strerror}", "Remove it: its names are those of the store before.",
                        file=store + ".names") from error
    sync_folder(store)
