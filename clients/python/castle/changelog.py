"""A log of changes in a folder: one file for each run of the leader, to which frames are only added.

A file has just what the leader wrote, so `castle follow COPY < FILE` takes it as it is. Each run begins with changes that the
one before had too, since a leader writes those of its journal again. A number has one change, whatever file it stands in.
"""

from __future__ import annotations

import contextlib
import fcntl
import os
import re
import time
import warnings
from io import FileIO
from types import TracebackType
from typing import BinaryIO, Dict, Iterator, List, Optional, Protocol, Tuple, Type, Union

from . import changes, forks
from .errors import Forked, LogFault, LogForked, LogGap, LogLocked, LogMissing, LogWarning, WrongProtocol
from .files import sync_folder
from .frames import BODY_MAX

PIECE = 1 << 16  # bytes that are read at once
MARKED = 1024  # changes between two places that are kept of a file
NAME = "{:010}.changes"
PATTERN = re.compile(r"(\d{10})\.changes")
PATIENCE = 0.05  # seconds between two looks for more

Frames = List[bytes]


class Changes(Protocol):
    """What has the changes of a store by their numbers, in files or elsewhere."""

    name: str

    @property
    def first(self) -> int: ...

    @property
    def next(self) -> int: ...

    def read(self, number: int) -> Iterator[Frames]: ...

    def wait(self, number: int, limit: float) -> bool: ...


class Run:
    """A file of the log, and how far it was looked at."""

    def __init__(self, path: str) -> None:
        self.path = path
        self.first = 0
        self.next = 0
        """The number behind its last change; the first one's if it has none."""
        self.end = 0
        """The bytes of its whole frames."""
        self.marks: List[Tuple[int, int]] = []
        """Numbers of changes, and where they stand."""
        self._size = 0  # of the file, when it was looked at

    def has(self, number: int) -> bool:
        """Whether it has the change of this number."""
        return self.end > 0 and self.first <= number < self.next

    def look(self) -> None:
        """Looks at what was added since the last time. A frame that is not whole yet is left for the next time."""
        size = os.path.getsize(self.path)
        if size == self._size:
            return
        if size < self.end:  # it was put back as it was earlier
            self.__init__(self.path)  # type: ignore[misc]
        with open(self.path, "rb") as file:
            file.seek(self.end)
            for found in frames_in(file, self.path):
                self._note(found)
        self._size = size

    def _note(self, found: Frames) -> None:
        for frame in found:
            number = changes.number_of(frame)
            if not self.end:
                self.first = self.next = number
            if number != self.next:
                raise LogFault(f"byte {self.end} has change {number}, where {self.next} follows",
                               "The file was altered: restore it from a copy.", file=self.path)
            if (number - self.first) % MARKED == 0:
                self.marks.append((number, self.end))
            self.next, self.end = number + 1, self.end + len(frame)

    def read(self, number: int) -> Iterator[Frames]:
        """Its frames from this number on, some at a time, as far as it was looked at."""
        number_there, place = self.marks[(number - self.first) // MARKED]
        skipped = number - number_there
        with open(self.path, "rb") as file:
            file.seek(place)
            for found in frames_in(file, self.path, self.end - place):
                left = found[skipped:]
                skipped = max(0, skipped - len(found))
                if left:
                    yield left


def frames_in(file: BinaryIO, name: str, most: Optional[int] = None) -> Iterator[Frames]:
    """The whole frames of an open file from where it is, some at a time; of so many bytes at most."""
    data, left = b"", most
    while left is None or left > 0:
        piece = file.read(PIECE if left is None else min(PIECE, left))
        if not piece:
            return
        left = None if left is None else left - len(piece)
        try:
            found, data = changes.split(data + piece)
        except WrongProtocol as error:
            raise LogFault(error.what, "The file was altered: restore it from a copy.", file=name) from None
        if any(len(frame) < changes.HEAD.size for frame in found):
            raise LogFault("a frame is too short to be a change", "The file was altered: restore it from a copy.", file=name)
        if found:
            yield found


class Log:
    """A log that is read. Any number of processes may, while one adds to it by `writer`."""

    def __init__(self, folder: Union[str, "os.PathLike[str]"]) -> None:
        """Looks at no file yet. `LogMissing` tells that there is no such folder, once one is asked for."""
        self.name = os.fspath(folder)
        self._runs: Dict[str, Run] = {}

    def __repr__(self) -> str:
        return f"<log {self.name}>"

    def runs(self) -> List[Run]:
        """The runs that have a change, in order, as they are now."""
        try:
            names = sorted(name for name in os.listdir(self.name) if PATTERN.fullmatch(name))
        except (FileNotFoundError, NotADirectoryError):
            raise LogMissing(file=self.name) from None
        for name in self._runs.keys() - set(names):
            del self._runs[name]
        for name in names:
            with contextlib.suppress(FileNotFoundError):  # it was removed meanwhile
                self._runs.setdefault(name, Run(os.path.join(self.name, name))).look()
        return [self._runs[name] for name in names if self._runs[name].end]

    @property
    def first(self) -> int:
        """The number of the first change; 0 if there is none."""
        return min((run.first for run in self.runs()), default=0)

    @property
    def next(self) -> int:
        """The number behind the last change: the one that the leader gives next."""
        return max((run.next for run in self.runs()), default=0)

    def read(self, number: int) -> Iterator[Frames]:
        """The frames of the changes from this number on, some at a time, up to the end as it is now.

        `LogGap` tells of changes that are missing there, or in between.
        """
        while True:
            runs = self.runs()
            run = next((run for run in reversed(runs) if run.has(number)), None)
            if run is None:
                self._check_gap(runs, number)
                return
            for found in run.read(number):
                number += len(found)
                yield found

    def _check_gap(self, runs: List[Run], number: int) -> None:
        behind = [run.first for run in runs if run.first > number]
        if behind:
            raise gap(self.name, number, min(behind))

    def wait(self, number: int, limit: float) -> bool:
        """Waits until the change of this number is there, for so many seconds at most, and tells whether it is."""
        deadline = time.monotonic() + limit
        while self.next <= number:
            if time.monotonic() >= deadline:
                return False
            time.sleep(PATIENCE)
        return True

    def writer(self) -> "Writer":
        """What adds the frames of one run of a leader. There is one at a time, else it is `LogLocked`."""
        return Writer(self)


def gap(name: str, wanted: int, found: int) -> LogGap:
    """The exception for changes that are missing."""
    error = LogGap(f"the changes from {wanted} on are wanted, and the first one that is there is {found}", file=name)
    error.wanted, error.found = wanted, found
    return error


def missed(name: str, wanted: int, found: int) -> LogGap:
    """The same for changes that a leader does not send any more, since they left its journal."""
    error = gap(name, wanted, found)
    error.what = f"the leader sends its changes from {found} on, and the log lacks those from {wanted} on"
    error.remedy = "Begin a new log, and make the copies anew from a copy of the leader's file."
    return error


def forked(name: str, number: int) -> LogForked:
    """The exception for a number with two changes."""
    error = LogForked(f"change {number} is another one than the log has under this number", file=name)
    error.number = number
    return error


class Repeats:
    """Compares the changes that a run repeats with those that the log has."""

    def __init__(self, log: Changes, number: int) -> None:
        self._pieces = log.read(number)
        self._known: Frames = []

    def check(self, name: str, frame: bytes) -> None:
        """Fails where the log has another change under this number."""
        if not self._known:
            self._known = list(reversed(next(self._pieces, [])))
        if self._known and self._known.pop() != frame:
            raise forked(name, changes.number_of(frame))


class Writer:
    """Adds the frames of a run of a leader to a log, for good. It belongs to the process that made it.

    The folder is made where it isn't there. A file that ends amid a frame, as after a kill or a cut of power, loses that frame,
    which a `LogWarning` tells. Nobody was told that it is kept, and the leader writes it again if its journal has it still.
    """

    def __init__(self, log: Log) -> None:
        self._log = log
        self._file: Optional[FileIO] = None
        self._owner = os.getpid()
        self._next: Optional[int] = None
        self._repeats: Optional[Repeats] = None
        self._is_broken = False  # where an add ended early, as the file may end amid a frame
        os.makedirs(log.name, exist_ok=True)
        with forks.starting:
            self._lock = FileIO(os.path.join(log.name, "lock"), "a")
            forks.own(self)
        try:
            try:
                fcntl.flock(self._lock, fcntl.LOCK_EX | fcntl.LOCK_NB)
            except BlockingIOError:
                raise LogLocked(file=log.name) from None
            self.before = log.next
            """The number behind the last change that was there before."""
            self._cut()
        except BaseException:
            self.close()
            raise

    def _cut(self) -> None:
        """Cuts off what is no whole frame at the end of a file."""
        for name, run in self._log._runs.items():
            size = os.path.getsize(run.path)
            if size == run.end:
                continue
            with open(run.path, "r+b", 0) as file:
                file.truncate(run.end)
                os.fsync(file.fileno())
            warnings.warn(f"{self._log.name}: {name}: the last {size - run.end} bytes were of a frame that is not whole, and were cut off",
                          LogWarning, stacklevel=4)

    def add(self, frames: Frames) -> None:
        """Adds frames of changes, whose numbers follow one another. When it returns they are in the file for good.

        `LogGap` tells of changes that are missing before the first frame of the run. They left the leader's journal before they were
        kept: a run of another word made them, or what read them was killed. `LogForked` tells of a number that has another change already.
        """
        if self._owner != os.getpid():
            raise Forked("another process adds to the log, of which this one is a child", "Add to it there alone.", file=self._log.name)
        if self._is_broken or self._lock.closed:
            raise LogFault("this run of the log takes no more changes", "Begin another one.", file=self._log.name)
        self._is_broken = True
        for frame in frames:
            self._check(frame)
        try:
            self._write(memoryview(b"".join(frames)))
        except OSError as error:
            raise LogFault(f"the log can't be written: {error.strerror}", "Make room, and run the leader again: it sends what is missing.",
                           file=self._log.name) from error
        self._is_broken = False

    def _write(self, data: memoryview) -> None:
        file = self._file or self._opened()
        while data:
            data = data[file.write(data) or 0:]
        os.fdatasync(file.fileno())

    def _check(self, frame: bytes) -> None:
        if not changes.HEAD.size <= len(frame) <= 4 + BODY_MAX:
            raise WrongProtocol("a frame is no change", "A leader wrote no such frame: look where it comes from.", file=self._log.name)
        number = changes.number_of(frame)
        if self._next is None:
            if number > self.before > 0:
                raise missed(self._log.name, self.before, number)
            if number >= self._log.first:
                self._repeats = Repeats(self._log, number)
        elif number != self._next:
            raise WrongProtocol(f"change {number} came, where {self._next} follows", "A leader wrote no such frame: look where it comes from.",
                                file=self._log.name)
        if self._repeats is not None and number < self.before:
            self._repeats.check(self._log.name, frame)
        self._next = number + 1

    def _opened(self) -> FileIO:
        """Makes the file of this run, with a number behind those that are there."""
        last = max((int(name[:10]) for name in os.listdir(self._log.name) if PATTERN.fullmatch(name)), default=0)
        with forks.starting:
            self._file = FileIO(os.path.join(self._log.name, NAME.format(last + 1)), "x")
        sync_folder(os.path.join(self._log.name, "lock"))
        sync_folder(os.path.abspath(self._log.name))
        return self._file

    def close(self) -> None:
        """Adds no more, and lets another one. To close it again does nothing."""
        forks.disown(self)
        if self._owner == os.getpid() and not self._lock.closed:
            with contextlib.suppress(OSError):
                fcntl.flock(self._lock, fcntl.LOCK_UN)
        self.forget()

    def forget(self) -> None:
        """Closes the files; in a child of the process that made it, its copies."""
        for file in filter(None, (self._file, self._lock)):
            file.close()

    def __enter__(self) -> "Writer":
        return self

    def __exit__(self, kind: Optional[Type[BaseException]], error: Optional[BaseException], trace: Optional[TracebackType]) -> None:
        self.close()
