"""Starts the program, and ends it."""

from __future__ import annotations

import contextlib
import os
import select
import signal
import subprocess
import sys
import time
from typing import Any, Callable, Dict, Iterable, List, Optional, Sequence, Tuple

from . import errors, forks
from .lock import Lock

CHUNK = 1 << 16  # bytes: as many as a pipe takes on Linux
LIMIT = 5.0  # seconds that the program may take to end, once it has nothing to answer
LOOK = 0.5  # seconds between two looks at how far it is


def find_program(given: Optional[str] = None) -> str:
    """The program to run: the one given, that of CASTLE_PROGRAM, the launcher of this checkout, or `castle` on PATH."""
    if given or os.environ.get("CASTLE_PROGRAM"):
        return given or os.environ["CASTLE_PROGRAM"]
    top = os.path.normpath(os.path.join(os.path.realpath(__file__), "..", "..", "..", ".."))
    launcher = os.path.join(top, "castle")
    return launcher if os.path.isfile(os.path.join(top, "crates.txt")) and os.access(launcher, os.X_OK) else "castle"


def pass_on(lines: Iterable[bytes]) -> None:
    """Shows lines that were on standard error."""
    for line in lines:
        print(line.decode("utf-8", "replace"), file=sys.stderr)


def _others(lines: Iterable[bytes], words: Sequence[str]) -> List[bytes]:
    """The lines that don't tell a status alone, as the launcher's do while it builds."""
    texts = [kind.text for kind in errors.ENDS.values()]
    told = {os.fsencode(f"castle: {place}{text}") for text in texts for place in ("", *(f"{word}: " for word in words))}
    return [line for line in lines if line not in told]


def _surroundings(lock: Optional[Lock]) -> Dict[str, Any]:
    """What each run of the program inherits.

    CASTLE_LOCKS tells the launcher which open files hold the locks already. In a session of its own the terminal's
    Ctrl-C reaches the client alone. SIGXFSZ stays ignored, as Python has it, so that a file that may grow no more is a
    fault that the program tells.
    """
    environment = {name: value for name, value in os.environ.items() if name != "CASTLE_LOCKS"}
    if lock is not None:
        environment["CASTLE_LOCKS"] = lock.told
    return {"env": environment, "pass_fds": lock.descriptors if lock else (), "restore_signals": False, "start_new_session": True}


def printed(program: str, words: Sequence[str], file: str, lock: Optional[Lock] = None) -> Tuple[str, int]:
    """What a run of the program prints that reads no input, and its status."""
    try:
        ran = subprocess.run([program, *words], stdin=subprocess.DEVNULL, stdout=subprocess.PIPE, stderr=subprocess.PIPE,
                             **_surroundings(lock))
    except OSError as error:
        raise errors.ProgramMissing(f"the program {program} can't be run: {error.strerror}", file=file) from error
    pass_on(_others(ran.stderr.splitlines(), words))
    return ran.stdout.decode("utf-8", "replace"), ran.returncode


class Process:
    """A run of the program with its three pipes, which belongs to the process that started it."""

    def __init__(self, program: str, words: Sequence[str], file: str, lock: Optional[Lock] = None) -> None:
        """Starts it. It inherits the locks, and has them until it ends."""
        self._words = words
        self._file = file
        self._said = b""  # the beginning of a line on standard error
        self._owner = os.getpid()
        self.was_killed = False  # since it did not end in time
        with forks.starting:
            try:
                self._child = subprocess.Popen([program, *words], stdin=subprocess.PIPE, stdout=subprocess.PIPE,
                                               stderr=subprocess.PIPE, bufsize=0, **_surroundings(lock))
            except OSError as error:
                raise errors.ProgramMissing(f"the program {program} can't be run: {error.strerror}", file=file) from error
            try:
                self._arrange()
            except BaseException:
                self.kill(signal.SIGKILL)
                self._child.wait()
                raise

    def _arrange(self) -> None:
        """Makes ready to wait for its pipes."""
        assert self._child.stdin and self._child.stdout and self._child.stderr
        self._files = self._child.stdin, self._child.stdout, self._child.stderr
        forks.own(self)
        self.inp, self.out, self.err = (pipe.fileno() for pipe in self._files)
        os.set_blocking(self.inp, False)  # of this end of the pipe alone; the program's own end waits
        self._reads, self._both = poll_of(self.out, self.err), poll_of(self.out, self.err, writes=self.inp)

    @property
    def pid(self) -> int:
        """The number of its process."""
        return self._child.pid

    @property
    def is_own(self) -> bool:
        """Whether this process started it, and is no child of the one that did."""
        return self._owner == os.getpid()

    def ready(self, writes: bool) -> List[int]:
        """Waits until one of its pipes can be read, or written where `writes`, and gives those."""
        return [pipe for pipe, _ in (self._both if writes else self._reads).poll()]

    def read_errors(self) -> bool:
        """Passes on the lines that are on standard error, and tells whether there may be others."""
        data = os.read(self.err, CHUNK)
        *lines, self._said = (self._said + data).split(b"\n")
        if not data:
            lines, self._said = [*lines, *filter(None, [self._said])], b""
            self._reads, self._both = poll_of(self.out), poll_of(self.out, writes=self.inp)
        pass_on(_others(lines, self._words))
        return bool(data)

    def end_input(self) -> None:
        """Ends its input, so that it ends once it has answered all. What it writes is still to be read."""
        self._files[0].close()

    def finish(self, limit: Optional[float] = None) -> int:
        """Ends its input, drops what it still writes, waits until it has ended, and tells its status.

        After so many seconds it is killed. To do it again tells the status again, and where an exception cut it off goes on.
        """
        if self._files[1].closed:
            return self._child.wait()
        inp, out, err = self._files
        inp.close()
        if not self._drained(None if limit is None else time.monotonic() + limit):
            self.was_killed = True
            self.kill(signal.SIGKILL)
        status = self._child.wait()
        forks.disown(self)
        err.close()
        out.close()
        return status

    def _drained(self, deadline: Optional[float]) -> bool:
        """Reads what it writes until it has ended, and tells whether that was before the deadline."""
        left = {file.fileno() for file in self._files[1:] if not file.closed}  # an earlier call may have been cut off
        polls = poll_of(*left)
        while left:
            wait = None if deadline is None else (deadline - time.monotonic()) * 1000
            if wait is not None and wait < 0:
                return False
            for pipe, _ in polls.poll(wait):
                if not (self.read_errors() if pipe == self.err else os.read(pipe, CHUNK)):
                    polls.unregister(pipe)
                    left.discard(pipe)
        return True

    def output(self, look: Optional[Callable[[], None]] = None) -> Tuple[str, int]:
        """What it prints up to its end, and its status, where it reads no input. Where an exception comes it is ended.

        `look` is called twice a second meanwhile, and may raise one.
        """
        try:
            pieces: List[bytes] = []
            while not pieces or pieces[-1]:
                found = self._reads.poll(None if look is None else LOOK * 1000)
                for pipe, _ in found:
                    if pipe == self.out:
                        pieces.append(os.read(pipe, CHUNK))
                    else:
                        self.read_errors()
                if look is not None and not found:
                    look()
            return b"".join(pieces).decode("utf-8", "replace"), self.finish()
        except BaseException:
            self.kill(signal.SIGTERM)
            self.finish(LIMIT)
            raise

    def end(self, limit: float, command: str) -> errors.Ended:
        """Why it ended, for a command that it did not answer. See `finish`."""
        return errors.ended(self.finish(limit), self._file, command)

    def kill(self, number: int) -> None:
        """Ends it by a signal, with what it started, as while the launcher builds it."""
        if self._child.poll() is None:
            with contextlib.suppress(ProcessLookupError):
                os.killpg(self._child.pid, number)

    def __del__(self) -> None:
        # A Popen that nobody has lives on as long as its program does, which may wait for the end of its input.
        with contextlib.suppress(AttributeError):
            for pipe in (self._child.stdin, self._child.stdout, self._child.stderr):
                pipe.close()

    def forget(self) -> None:
        """Closes the copies of the pipes in a child of the process that started it, so that the program's input can end."""
        self._child.returncode = 0  # it is no child of this process, which can't wait for it
        for pipe in self._files:
            pipe.close()


def poll_of(*reads: int, writes: Optional[int] = None) -> "select.poll":
    """What waits until one of these descriptors can be read, or that one written."""
    polls = select.poll()
    for number in reads:
        polls.register(number, select.POLLIN)
    if writes is not None:
        polls.register(writes, select.POLLOUT)
    return polls
