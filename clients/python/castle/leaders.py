"""Leaders: what they write is kept in a log, whether they run here or elsewhere."""

from __future__ import annotations

import contextlib
import fcntl
import os
import time
import warnings
from collections import deque
from typing import BinaryIO, Deque, List, NamedTuple, Optional, Protocol, Tuple, Union

from . import changes, errors, frames, levels
from .changelog import Frames, Log
from .commands import Data, data_of
from .lock import Lock
from .process import CHUNK, LIMIT, Process, find_program
from .redislog import RedisLog
from .store import Path, check_file, located
from .storecopy import Progress, silent


OFTEN = 0.05  # seconds between two looks for what was accepted, while commands are sent
NARROW = 4096  # bytes that a pipe from a leader takes, where the system lets it be chosen
SET_PIPE_SIZE = 1031  # F_SETPIPE_SZ of Linux, which `fcntl` has from Python 3.10 on


class Keeper(Protocol):
    """What keeps the frames of one run of a leader, as the `writer` of a log does."""

    before: int

    def add(self, frames: Frames) -> None: ...

    def close(self) -> None: ...


def narrow(pipe: int) -> None:
    """Has a pipe take little, so that a leader is not far ahead of what keeps its changes: what is in it is lost with its reader."""
    with contextlib.suppress(OSError):  # it is no pipe, or of another system
        fcntl.fcntl(pipe, SET_PIPE_SIZE, NARROW)


def record(stream: int, keeper: Keeper, passes: Optional[BinaryIO] = None, progress: Progress = silent) -> int:
    """Keeps the frames that come on a descriptor, up to its end, and tells how many came.

    Each is passed on to `passes` once it is kept, so who reads there may be ahead of no log. Where the stream ends amid a frame, as
    of a leader that was killed, a `LogWarning` tells of it: the leader sends that change again at its next run, first of all.
    """
    count, rest = 0, b""
    narrow(stream)
    while True:
        data = os.read(stream, CHUNK)
        if not data:
            break
        found, rest = changes.split(rest + data)
        if found:
            keeper.add(found)
            if passes is not None:
                passes.write(b"".join(found))
                passes.flush()
            count += len(found)
            progress("changes", count, None)
    if rest:
        warnings.warn(f"the stream ended amid a frame, of which {len(rest)} bytes came and are not kept", errors.LogWarning, stacklevel=2)
    return count


class Led(NamedTuple):
    """What a leader was asked for, and what came of it."""

    changes: int
    """How many changes were accepted, and are in the leader's file and in the log."""
    next: int
    """The number behind the last change."""
    refused: List[str]
    """The commands that were refused, in words. A leader does not tell why."""


class Leader:
    """A run of `lead` over a store's file, whose changes go into a log. It holds the store's locks until its program has ended.

        with replicate.Leader("app.store", log) as leader:
            leader.put(0, "user/1/name", "Ann")
        print(leader.led)

    It belongs to the process and the thread that made it. Commands are sent at once, without a wait for what comes of them. `wait`
    has all of it in the log, and so has `close`: call one of them before a pause. A leader answers an accepted change alone, so
    what was refused is known at the end, or as soon as a later change is there.
    """

    led: Optional[Led] = None
    """What came of it; None until it was closed."""

    def __init__(self, path: Path, log: Union[Log, RedisLog], program: Optional[str] = None) -> None:
        """Starts it. It writes the changes of its journal first, which the log may have already."""
        self.name, real = located(path)
        check_file(real, self.name)
        found = find_program(program)
        self._keeper: Keeper = log.writer()
        self._lock: Optional[Lock] = None
        try:
            self._lock = Lock(real, self.name)
            self._start, self.versions = self._counted(found, real)
            self._process = Process(found, ["lead", real], self.name, self._lock)
            narrow(self._process.out)
            os.set_blocking(self._process.out, False)  # of this end of the pipe alone
        except BaseException:
            self._free()
            raise
        self._next = self._start
        self._rest = b""
        self._unsent: Deque[bytes] = deque()
        self._size = 0  # of what is unsent
        self._looked = time.monotonic()
        self._asked: Deque[bytes] = deque()
        self._refused: List[str] = []
        self._end: Optional[errors.Ended] = None

    def _counted(self, program: str, real: str) -> Tuple[int, int]:
        """How many changes and versions the store has."""
        told = levels.of_file(program, real, self.name, self._lock, "lead")
        return told.changes, told.versions

    # Commands

    def put(self, version: int, key: Data, value: Data) -> None:
        """Has a key get this value at a version."""
        name, data = data_of(key), data_of(value)
        if not 1 <= len(name) <= frames.KEY_MAX:
            raise errors.KeySize(file=self.name, command="put")
        if len(data) > frames.VALUE_MAX:
            raise errors.ValueSize(file=self.name, command="put")
        self.send(frames.put(0, version, name, data))

    def delete(self, version: int, key: Data) -> None:
        """Takes a key's value away at a version."""
        name = data_of(key)
        if not 1 <= len(name) <= frames.KEY_MAX:
            raise errors.KeySize(file=self.name, command="delete")
        self.send(frames.delete(0, version, name))

    def clone(self, version: int) -> None:
        """Makes a version with the same pairs. Once it is there, `versions` is one more, and its number is the last one of them."""
        self.send(frames.clone(0, version))

    def drop(self, version: int) -> None:
        """Takes a version away for good, which has no child. Names are those of the store's file: its next opening leaves them out."""
        self.send(frames.drop(0, version))

    def send(self, frame: bytes) -> None:
        """Sends the frame of a put, a delete, a clone or a drop."""
        self._check()
        self._unsent.append(frame)
        self._asked.append(frame)
        self._size += len(frame)
        self._write(self._process.inp)
        if self._size >= CHUNK or time.monotonic() - self._looked > OFTEN:
            self._look()
        while self._size >= CHUNK:
            self._turn()

    def wait(self) -> None:
        """Waits until all that was sent is in the log. If the last command may be refused, `close` in its place: no change tells of it."""
        while self._asked:
            self._turn()

    @property
    def next(self) -> int:
        """The number behind the last change that is in the log."""
        return self._next

    # Exchanges

    def _look(self) -> None:
        """Keeps what the leader wrote so far."""
        self._looked = time.monotonic()
        with contextlib.suppress(BlockingIOError):
            self._read(self._process.out)

    def _check(self) -> None:
        if self.led is not None:
            raise errors.StoreClosed(file=self.name)
        if not self._process.is_own:
            raise errors.Forked(file=self.name)
        if self._end is not None:
            raise errors.again(self._end)

    def _turn(self) -> None:
        """Waits until something can be read or written, and does it."""
        self._check()
        for pipe in self._process.ready(bool(self._unsent)):
            if pipe == self._process.out:
                self._read(pipe)
            elif pipe == self._process.err:
                self._process.read_errors()
            else:
                self._write(pipe)

    def _write(self, pipe: int) -> None:
        data = b"".join(self._unsent)[:CHUNK]
        try:
            written = os.write(pipe, data)
        except BlockingIOError:
            return
        except (BrokenPipeError, ConnectionResetError):
            self._unsent.clear()  # its end is read, and told
            self._size = 0
            return
        self._size -= written
        while written:
            first = self._unsent.popleft()
            if len(first) > written:
                self._unsent.appendleft(first[written:])
            written -= min(written, len(first))

    def _read(self, pipe: int) -> None:
        data = os.read(pipe, CHUNK)
        if not data:
            self._end = self._process.end(LIMIT, "lead")
            raise self._end
        found, self._rest = changes.split(self._rest + data)
        if found:
            self._keeper.add(found)
            for frame in found:
                self._note(frame)

    def _note(self, frame: bytes) -> None:
        """Notes which command a change is the answer to. Those before it were refused."""
        number = changes.number_of(frame)
        if number < self._start:
            return
        while self._asked:
            asked = self._asked.popleft()
            if changes.of_command(number, asked) == frame:
                break
            self._refused.append(frames.describe(asked))
        self._next = number + 1
        self.versions += frame[8] == changes.CLONE

    def close(self) -> None:
        """Ends its input, waits until all changes are in the log, and frees the store. `led` tells what came of it.

        An `Ended` tells that its program ended with a fault. What it wrote before is in the log, and what it did not is sent at the
        next run.
        """
        if self.led is not None or not self._process.is_own:
            self._free()
            return
        try:
            status = self._drained()
        finally:
            self._process.finish(LIMIT)
            self._free()
            self._refused += map(frames.describe, self._asked)
            self.led = Led(self._next - self._start, self._next, self._refused)
        if status != 0:
            raise errors.ended(status, self.name, "lead")

    def _drained(self) -> int:
        """Sends what is left, ends its input, keeps what it still writes, and tells its status."""
        try:
            while self._unsent:
                self._turn()
            self._check()
            self._process.end_input()
            while True:
                self._turn()
        except errors.Ended as error:
            return error.status

    def _free(self) -> None:
        self._keeper.close()
        if self._lock is not None:
            self._lock.release()

    def __enter__(self) -> "Leader":
        return self

    def __exit__(self, kind: object, *_: object) -> None:
        try:
            self.close()
        except errors.CastleError:
            if kind is None:
                raise
