"""The shell in this process, and at a terminal that controls it, so that Ctrl-C there is a signal."""

from __future__ import annotations

import contextlib
import io
import os
import pty
import re
import select
import signal
import sys
import time
from typing import Callable, Dict, List, Optional, Tuple
from unittest import mock

from support import DEADLINE, SHELL

from castle import Batch, Store
from castle.program import Result
from castle.shell import Shell

CONTROL = re.compile(r"\x1b\[[0-9;?]*[A-Za-z]|\x1b[=>]|\x07|\r")
PROMPT = r"> $"
TAIL = 4096  # bytes at the end of what was printed, in which a pattern is looked for
CTRL_C, CTRL_D = b"\x03", b"\x04"


def carried_out(store: Store, *lines: str) -> Tuple[str, str, int]:
    """Output, complaints and status of a script over a store that is open in this process."""
    return _told(store, lambda shell: shell.script(f"{line}\n" for line in lines))


def carried_out_alone(store: Store, *words: str) -> Tuple[str, str, int]:
    """Output, complaints and status of one command over such a store."""
    return _told(store, lambda shell: shell.single(words))


def carried_out_amid(store: Store, number: int, act: Callable[[], object], *lines: str) -> Tuple[str, int]:
    """Complaints and status of a script over such a store, where something happens at the end of its batch of this number."""
    finish, batches = Batch.finish, iter(range(1, 1000))

    def finished(batch: Batch) -> List[Result]:
        if next(batches) == number:
            act()
        return finish(batch)

    with mock.patch.object(Batch, "finish", finished):
        return carried_out(store, *lines)[1:]


def _told(store: Store, act: Callable[[Shell], int]) -> Tuple[str, str, int]:
    out, complaints = io.StringIO(), io.StringIO()
    with contextlib.redirect_stderr(complaints):
        status = act(Shell(store, out))
    return out.getvalue(), complaints.getvalue(), status


def untimed(said: str) -> str:
    """What was printed without the times of names, and without the blanks around them."""
    return re.sub(r" {2,}\d{4}-\d\d-\d\d \d\d:\d\d UTC", "", said)


class Session:
    """A shell that is typed to. What it prints comes without the terminal's control sequences."""

    def __init__(self, folder: str, path: str, environment: Optional[Dict[str, str]] = None) -> None:
        given = {**os.environ, "TERM": "dumb", "HOME": folder, "COLUMNS": "500", "INPUTRC": "/dev/null",
                 **(environment or {})}
        self.pid, self.own = pty.fork()
        if self.pid == 0:
            try:
                os.chdir(folder)
                os.execve(sys.executable, [sys.executable, SHELL, path], given)
            finally:
                os._exit(127)
        self._ended = os.pidfd_open(self.pid)
        self._status: Optional[int] = None

    def until(self, end: Optional[str] = None, limit: float = DEADLINE) -> str:
        """What it prints up to a pattern at its end, or up to its own end, or within so many seconds."""
        got, deadline = bytearray(), time.monotonic() + limit
        while time.monotonic() < deadline:
            if end and re.search(end, CONTROL.sub("", got[-TAIL:].decode("utf-8", "replace"))):
                break
            if select.select([self.own], [], [], min(limit, 1))[0]:
                try:
                    more = os.read(self.own, 65536)
                except OSError:  # the other side is closed
                    more = b""
                if not more:
                    break
                got += more
        return CONTROL.sub("", got.decode("utf-8", "replace"))

    def send(self, data: bytes) -> None:
        """Types bytes. Where it has ended nobody reads them."""
        with contextlib.suppress(OSError):
            os.write(self.own, data)

    def interrupt(self, end: str) -> str:
        """Types Ctrl-C, and again as long as a pattern does not come; gives what is printed.

        A signal that comes just before Python waits for a key is seen at the next key alone.
        """
        said = ""
        for _ in range(10):
            self.send(CTRL_C)
            said += self.until(end, 2)
            if re.search(end, said):
                break
        return said

    def type(self, line: str, end: Optional[str] = PROMPT) -> List[str]:
        """Types a line, and gives the lines that follow it up to the next prompt."""
        self.send(line.encode("utf-8", "surrogateescape") + b"\n")
        return self.until(end).split("\n")[1:]

    def close(self) -> int:
        """Waits for its end, and gives its exit status, or minus the number of the signal that ended it."""
        self.until()
        self._hang_up()
        if not select.select([self._ended], [], [], DEADLINE)[0]:
            raise TimeoutError("the shell does not end")
        return self._wait()

    def kill(self) -> None:
        """Ends it, where it has not ended."""
        if self._status is None:
            os.kill(self.pid, signal.SIGKILL)
            self._hang_up()
            self._wait()

    def _hang_up(self) -> None:
        if self.own >= 0:
            os.close(self.own)
        self.own = -1

    def _wait(self) -> int:
        if self._status is None:
            self._status = os.waitstatus_to_exitcode(os.waitpid(self.pid, 0)[1])
            os.close(self._ended)
        return self._status
