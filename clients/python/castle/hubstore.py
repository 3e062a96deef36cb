"""A store over a hub: one connection speaks the program's frames, and the store is used as one over a file."""

from __future__ import annotations

import contextlib
import os
import select
import socket
import struct
import threading
import time
import weakref
from functools import partial
from typing import TYPE_CHECKING, Dict, List, NoReturn, Optional, cast

from . import errors, forks, frames, hubsocket
from .commands import Commands
from .edits import Edits
from .frames import Limits
from .levels import Levels
from .names import Names
from .process import CHUNK, LIMIT, poll_of
from .program import Program
from .store import Path, Store, abandon
from .storecopy import Progress, silent
from .verdict import Verdict

if TYPE_CHECKING:
    from .rescue import Source

CREDENTIALS = struct.Struct("3i")  # of whoever listens at a socket: process, user, group


class Connection:
    """A connection to a hub, in the place of a `Process`. It belongs to the process that made it."""

    err = -1
    was_killed = False

    def __init__(self, path: str, file: str) -> None:
        """Connects to the hub that listens at this path. Errors have the file."""
        self._file = file
        self._owner = os.getpid()
        with forks.starting:
            self._socket = hubsocket.connected(path)
            try:
                self._writes = self._socket.dup()  # under a number of its own, so that a poll tells which way is ready
            except BaseException:
                self._socket.close()
                raise
            forks.own(self)
        self._socket.setblocking(False)
        self.out, self.inp = self._socket.fileno(), self._writes.fileno()
        self._reads, self._both = poll_of(self.out), poll_of(self.out, writes=self.inp)

    @property
    def pid(self) -> int:
        """The process of the hub; 0 where the system doesn't tell."""
        option = getattr(socket, "SO_PEERCRED", None)
        if option is None:
            return 0
        return cast(int, CREDENTIALS.unpack(self._socket.getsockopt(socket.SOL_SOCKET, option, CREDENTIALS.size))[0])

    @property
    def is_own(self) -> bool:
        """Whether this process made it, and is no child of the one that did."""
        return self._owner == os.getpid()

    def ready(self, writes: bool) -> List[int]:
        """Waits until it can be read, or written where `writes`, and gives `out` or `inp` for these."""
        return [number for number, _ in (self._both if writes else self._reads).poll()]

    def read_errors(self) -> bool:
        """Nothing is said beside the replies."""
        return False

    def finish(self, limit: Optional[float] = None) -> int:
        """Ends the commands, drops what is still answered, and waits so many seconds at most until the hub has closed it. 0."""
        if self._socket.fileno() >= 0 and self.is_own:
            with contextlib.suppress(OSError):
                self._socket.shutdown(socket.SHUT_WR)
            self._drain(None if limit is None else time.monotonic() + limit)
            forks.disown(self)
        self.forget()
        return 0

    def _drain(self, deadline: Optional[float]) -> None:
        """Reads until the hub has closed it, or until the deadline."""
        while True:
            wait = None if deadline is None else max(0.0, deadline - time.monotonic()) * 1000
            if not self._reads.poll(wait):
                return
            try:
                if not os.read(self.out, CHUNK):
                    return
            except BlockingIOError:
                pass
            except OSError:
                return

    def end(self, limit: float, command: str) -> errors.Ended:
        """Why no replies come any more, for a command that has none."""
        self.finish(limit)
        return errors.HubGone(file=self._file, command=command)

    def kill(self, number: int) -> None:
        """The hub goes on, whatever becomes of one client."""

    def forget(self) -> None:
        """Closes it, or in a child of the process that made it the copies alone."""
        self._socket.close()
        self._writes.close()


class NoNames(Names):
    """No names. They are in a file beside the store, and whoever serves the store has that."""

    def __init__(self, address: str, lock: "threading._RLock") -> None:
        super().__init__("", address, lambda _: [], partial(_refuse_names, address), lock)  # no file has an empty path
        self.warning = f"{address}: names can't be had over a hub; versions go by their numbers"

    def version(self, name: str) -> int:
        """A `NotOverHub`."""
        _refuse_names(self._store)

    def check_readable(self) -> None:
        """A `NotOverHub`, so that no whole store is dumped without its names."""
        _refuse_names(self._store)

    def __getitem__(self, name: str) -> int:
        _refuse_names(self._store)


def _refuse_names(address: str) -> NoReturn:
    raise errors.NotOverHub("names can't be had over a hub", "Give versions by their numbers.", file=address)


class HubStore(Store):
    """A store over a hub, as `Store("unix:SOCKET")` gives it.

    What is said of a `Store` holds of it, but that others change the store meanwhile: what two commands give may be of
    different times. Names, levels, checks, salvage, `format`, `read_only` and the choice of a program raise `NotOverHub`. An address in place of
    a path, as text or bytes, means a hub; a file whose name begins so is `./unix:..`.
    """

    def __init__(self, path: Path, program: Optional[str] = None, *, read_only: bool = False) -> None:
        """Connects to a hub, and waits for its first answer."""
        socket_path = hubsocket.path_of(path) or ""
        self.path = hubsocket.PREFIX + socket_path
        if program is not None or read_only:
            what = "a private copy to read" if read_only else "a choice of the program"
            raise errors.NotOverHub(f"{what} can't be had over a hub", "Leave it out.", file=self.path)
        self._scans = weakref.WeakSet()
        run = Program(self.path, partial(Connection, socket_path, self.path))
        self._program = run
        try:
            self._open()
            self._closing = weakref.finalize(run, abandon, run.process, run.lock, None, None, self.path)
        except BaseException:
            run.finish(LIMIT)
            raise

    def _open(self) -> None:
        """Waits until the hub has answered once."""
        program = self._program

        try:
            program.call(lambda: frames.stat(program.tag))
        except errors.CastleError as error:
            error.command = "open"
            raise
        self.names = NoNames(self.path, program.lock)
        self._commands = Commands(program, self.names, False, Edits(frames.NUMBER_MAX + 1))  # others change it too

    def _free(self) -> int:
        """Waits until the hub has closed the connection, and its cursors before."""
        status = self._program.finish(LIMIT)
        self._closing.detach()
        return status

    def limits(self) -> Limits:
        """What the store was made for: M, C and V. The hub tells them."""
        return cast(Limits, self._program.call(lambda: frames.limits(self._program.tag)))

    def dropped(self) -> Dict[int, int]:
        """A `NotOverHub`: what dropped versions were cloned from is read from the store's file."""
        raise errors.NotOverHub("where dropped versions hung can't be had over a hub", file=self.path, command="dropped")

    def levels(self) -> Levels:
        """A `NotOverHub`: they are read from the store's file."""
        raise errors.NotOverHub("levels can't be had over a hub", file=self.path, command="levels")

    def verdict(self, *, progress: Progress = silent) -> Verdict:
        """A `NotOverHub`: it is the store's file that is checked."""
        raise errors.NotOverHub("a check can't be had over a hub", file=self.path, command="check")

    def backup(self, to: Path, *, overwrite: bool = False, progress: Progress = silent) -> None:
        """Makes a new store with the same versions, as they are at one time, while others go on to change this one.

        It is copied version by version, in the order of the tree: what differs from the parent. The new store has the same M, C and
        V, and no names. It is checked before it takes its name. `NotAtRest` tells that the store was changed each time it was copied. That
        comes only if it has more than 48 versions without a child, or if other clients have most of its 64 cursors open.
        """
        from .rescue import make_tree_backup  # which is made of this class
        make_tree_backup(self, to, overwrite, progress)

    def _source(self) -> "Source":
        """A `NotOverHub`: it is the store's file that is salvaged."""
        raise errors.NotOverHub("a salvage can't be had over a hub", file=self.path, command="salvage")
