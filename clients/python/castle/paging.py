"""Pages at a terminal: what a command prints goes through a pager where it is longer than the screen."""

from __future__ import annotations

import contextlib
import os
import shutil
import subprocess
from typing import IO, Iterator, List, Optional, TextIO, cast

from .errors import CastleError
from .terminal import Interrupts

NOT_RUN = 126, 127  # statuses of a shell whose command could not be run


class Left(Exception):
    """The user left the pager before the end."""


@contextlib.contextmanager
def unpaged(out: TextIO) -> Iterator[TextIO]:
    """What a command writes where no pager is wanted."""
    yield out


def pager() -> str:
    """The command line of the pager: that of PAGER, or less or more if they are there; empty where none is wanted."""
    if os.environ.get("TERM", "dumb") == "dumb":
        return ""
    if "PAGER" in os.environ:
        wanted = os.environ["PAGER"].strip()
        return "" if wanted == "cat" else wanted
    return next((name for name in ("less", "more") if shutil.which(name)), "")


class Pages:
    """Text for a terminal. It is held until it has more rows than the screen, and goes to a pager from then on."""

    def __init__(self, out: TextIO, command: str) -> None:
        self._out = out
        self._command = command
        self._size = shutil.get_terminal_size()
        self._held: List[str] = []
        self._rows = 0
        self._process: Optional["subprocess.Popen[str]"] = None

    def write(self, text: str) -> int:
        """Takes text. `Left` tells that the user wants no more of it."""
        if self._process is not None:
            self._send(text)
            return len(text)
        self._held.append(text)
        self._rows += sum(1 + max(len(line) - 1, 0) // self._size.columns for line in text.splitlines())
        if self._rows >= self._size.lines:
            self._start()
        return len(text)

    def writelines(self, lines: Iterator[str]) -> None:
        """Takes pieces of text."""
        for line in lines:
            self.write(line)

    def flush(self) -> None:
        """Does nothing: what is held is shown at the end."""

    def _start(self) -> None:
        environment = {"LESS": "FRX", **os.environ}
        self._out.flush()
        self._process = subprocess.Popen(self._command, shell=True, stdin=subprocess.PIPE, env=environment,
                                         encoding=self._out.encoding, errors=self._out.errors)
        self._send("".join(self._held))
        self._held = []

    def _send(self, text: str) -> None:
        assert self._process is not None
        try:
            cast(IO[str], self._process.stdin).write(text)
        except BrokenPipeError:
            raise Left from None

    def close(self, interrupts: Interrupts) -> None:
        """Shows what is held, or waits until the user leaves the pager, to which Ctrl-C goes meanwhile."""
        if self._process is None:
            self._out.write("".join(self._held))
            self._out.flush()
            return
        with interrupts.ignored():
            with contextlib.suppress(BrokenPipeError):
                cast(IO[str], self._process.stdin).close()
            status = self._process.wait()
        if status in NOT_RUN:
            raise CastleError(f"the pager {self._command} can't be run", "Set PAGER to another one, or to cat for none.")


@contextlib.contextmanager
def paged(out: TextIO, interrupts: Interrupts) -> Iterator[TextIO]:
    """What a command writes to a terminal within the block."""
    command = pager()
    if not command:
        yield out
        return
    pages = Pages(out, command)
    try:
        yield cast(TextIO, pages)
    finally:
        pages.close(interrupts)
