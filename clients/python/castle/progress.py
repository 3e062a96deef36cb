"""How far long work is: a line on standard error that is written anew, where that is a terminal."""

from __future__ import annotations

import contextlib
import os
import sys
import time
from typing import Callable, Optional, TextIO

from .storecopy import Progress
from .terminal import Interrupts


class Line:
    """A line that is shown once the work takes long, at most twice a second."""

    EVERY = 0.5  # seconds

    def __init__(self, out: Optional[TextIO] = None, clock: Callable[[], float] = time.monotonic) -> None:
        self._out = sys.stderr if out is None else out
        self._clock = clock
        self._last = clock()
        self._width = 0

    @property
    def is_shown(self) -> bool:
        """Whether it was shown."""
        return self._width > 0

    def show(self, text: Callable[[], str]) -> None:
        """Shows what this gives, unless that is too early or there is no terminal."""
        now = self._clock()
        if now - self._last < self.EVERY or not self._out.isatty():
            return
        line = text()[:columns(self._out) - 1]  # one that goes on in the next row could not be taken away
        self._out.write(f"\r{line:{self._width}}")
        self._out.flush()
        self._last, self._width = now, max(self._width, len(line))

    def clear(self) -> None:
        """Takes it away."""
        if self.is_shown:
            self._out.write("\r" + " " * self._width + "\r")
            self._out.flush()


def columns(out: TextIO) -> int:
    """How many columns a terminal has; 80 where it does not tell."""
    with contextlib.suppress(OSError, ValueError):
        return os.get_terminal_size(out.fileno()).columns or 80
    return 80


def teller(interrupts: Interrupts, line: Line) -> Progress:
    """What tells the progress of a command of the shell on a line, and raises `Stopped` where Ctrl-C came."""

    def tell(what: str, done: int, total: Optional[int]) -> None:
        interrupts.check()
        line.show(lambda: told(what, done, total))

    return tell


def told(what: str, done: int, total: Optional[int]) -> str:
    """How far it is, in words."""
    if total is None:
        return f"{what}: {done:,}" if done else what
    return f"{what}: {done:,} of {total:,}"
