"""Ctrl-C in the shell, and the encodings of its streams."""

from __future__ import annotations

import codecs
import contextlib
import os
import signal
import sys
from types import FrameType, TracebackType
from typing import Any, Callable, Iterable, Iterator, Optional, Tuple, Type, TypeVar

from .text import encoded, hexed

Item = TypeVar("Item")

INTERRUPTED = 130  # the exit status where Ctrl-C ended the shell
LEFT = b"castle-shell: left amid a command; the program ends as soon as it has answered\n"


# Ctrl-C

class Stopped(Exception):
    """Ctrl-C stopped a command."""


class Interrupts:
    """What Ctrl-C does, within its `with` block.

    While a line is read it raises KeyboardInterrupt. Amid a command the first one is only noted, so that no exchange
    with the program is cut off: what goes through `items` ends there. A second one raises KeyboardInterrupt, for a command
    that waits. A third one leaves at once; the program has the store until it has answered.

    Where the signal is ignored, as of a job in the background, it stays so.
    """

    def __init__(self) -> None:
        self.count = 0  # since a line was read
        self._is_reading = False
        self._before: Any = signal.SIG_DFL

    def __enter__(self) -> "Interrupts":
        self._before = signal.getsignal(signal.SIGINT)
        if self._before is not signal.SIG_IGN:
            signal.signal(signal.SIGINT, self._take)
        return self

    def __exit__(self, kind: Optional[Type[BaseException]], error: Optional[BaseException],
                 trace: Optional[TracebackType]) -> None:
        signal.signal(signal.SIGINT, signal.SIG_DFL if self._before is None else self._before)

    def _take(self, _: int, __: Optional[FrameType]) -> None:
        self.count += 1
        if self.count > 2:
            os.write(2, LEFT)
            os._exit(INTERRUPTED)
        if self._is_reading or self.count == 2:
            raise KeyboardInterrupt

    def read(self, source: Callable[[], Item]) -> Item:
        """What a source gives that waits for the user."""
        self.count, self._is_reading = 0, True
        try:
            return source()
        finally:
            self._is_reading = False

    def check(self) -> None:
        """Raises `Stopped` where Ctrl-C came amid the command."""
        if self.count:
            raise Stopped("stopped")

    def items(self, items: Iterable[Item]) -> Iterator[Item]:
        """The same items, up to a Ctrl-C: then it raises `Stopped`."""
        for item in items:
            self.check()
            yield item

    def lines(self, file: Iterable[Item]) -> Iterator[Item]:
        """The lines or pieces of a file, up to a Ctrl-C, also where it comes while one is waited for."""
        source = iter(file)
        while True:
            self.check()
            self._is_reading = True
            try:
                line = next(source, None)
            except KeyboardInterrupt:
                raise Stopped("stopped") from None
            finally:
                self._is_reading = False
            if line is None:
                return
            yield line

    @contextlib.contextmanager
    def ignored(self) -> Iterator[None]:
        """Within it Ctrl-C is another program's, as of one that has the terminal."""
        before = signal.signal(signal.SIGINT, signal.SIG_IGN)
        try:
            yield
        finally:
            signal.signal(signal.SIGINT, before)


# Streams

ERRORS = "castle.bytes"


def _escaped(error: UnicodeError) -> Tuple[str, int]:
    """The bytes of characters that an encoding has not, as `\\xNN`."""
    assert isinstance(error, UnicodeEncodeError)
    return hexed(encoded(error.object[error.start:error.end])), error.end


def prepare_streams() -> None:
    """Has the standard streams fail at no byte and at no character.

    A script and what it prints are UTF-8, and bytes that are none are themselves. A terminal has its own encoding: what
    that has not is shown as `\\xNN`, and a byte that is none is read as a surrogate, which `text.is_text` tells.
    """
    codecs.register_error(ERRORS, _escaped)
    for stream, errors in ((sys.stdin, "surrogateescape"), (sys.stdout, ERRORS), (sys.stderr, ERRORS)):
        if not hasattr(stream, "reconfigure"):
            continue
        if stream.isatty() or stream is sys.stderr:
            stream.reconfigure(errors=errors)
        else:
            stream.reconfigure(encoding="utf-8", errors="surrogateescape")
