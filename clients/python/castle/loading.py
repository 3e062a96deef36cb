"""Loads: pairs of a file that are put in windows, with what is to be told of them meanwhile and if they end early."""

from __future__ import annotations

import contextlib
import csv
import io
import sys
import time
from typing import TYPE_CHECKING, BinaryIO, Callable, Dict, Iterable, Iterator, List, Optional, TextIO

from . import dump, exports, jsonform, outfile
from .errors import CastleError, DumpFault, Wrong
from .frames import Pair
from .progress import Line
from .terminal import Stopped
from .text import Word, counted, encoded

if TYPE_CHECKING:
    from .shell import Shell

WINDOW = 256  # pairs that are sent at once; a load can be stopped between two windows
STANDARD_INPUT = "standard input"


# What a file has

def csv_pairs(lines: Iterable[str], file: str) -> Iterator[Pair]:
    """The pairs of rows with two columns. A first row `key,value` is a heading, and empty rows are none."""
    rows = csv.reader(lines, strict=True)
    while True:
        number = rows.line_num + 1
        try:
            row = next(rows, None)
        except csv.Error as error:
            raise DumpFault(f"line {rows.line_num} is no CSV: {error}", "Mend the line.", file=file) from None
        if row is None:
            return
        if not row or (number == 1 and row == ["key", "value"]):
            continue
        if len(row) != 2:
            raise DumpFault(f"line {number} has {counted(len(row), 'column')}, and not a key and a value",
                            'Mend the line: KEY,VALUE, with "..." around one that has a comma.', file=file)
        yield dump.checked(encoded(row[0]), encoded(row[1]), number, file)


def json_pairs(lines: Iterable[str], file: str) -> Iterator[Pair]:
    """The pairs of lines as `scan` and `get` print them with --json. Empty lines are none."""
    for number, line in enumerate(lines, 1):
        if not line.strip():
            continue
        try:
            key, value = jsonform.pair_of(line)
        except ValueError as error:
            raise DumpFault(f"line {number} {error}", 'Mend the line: {"key": "..", "value": ".."}.', file=file) from None
        yield dump.checked(key, value, number, file)


def dump_pairs(lines: Iterable[str], file: str) -> List[Pair]:
    """The pairs of a whole dump, which is read to its end."""
    try:
        return dump.pairs_of(lines, file)
    except DumpFault as fault:
        fault.remedy = f"{fault.remedy} Nothing was put.".strip()
        raise


FORMS: Dict[str, Callable[[Iterable[str], str], Iterator[Pair]]] = {"--csv": csv_pairs, "--json-lines": json_pairs}
FRAMES = "--frames"


@contextlib.contextmanager
def opened(shell: "Shell", word: Word) -> Iterator[BinaryIO]:
    """The bytes of a file that the user named."""
    is_input = is_standard_input(word)
    if is_input and sys.stdin is None:
        raise CastleError("standard input is closed", "Give the pairs there, or name a file.")
    place = sys.stdin.fileno() if is_input else word.path
    with outfile.told(name_of(word), "read"), open(place, "rb", closefd=not is_input) as file:
        yield file


def lines_of(shell: "Shell", word: Word) -> Iterator[str]:
    """The lines of a file that the user named, with their ends, up to a Ctrl-C. A mark of byte order is passed over."""
    with opened(shell, word) as file:
        lines = io.TextIOWrapper(file, encoding="utf-8", errors="surrogateescape", newline="\n")
        for number, line in enumerate(shell.interrupts.lines(lines)):
            yield line if number else line[line.startswith("\ufeff"):]


def is_standard_input(word: Word) -> bool:
    """Whether a word for a file stands for standard input."""
    return word.bare and word.text == "-"


def name_of(word: Word) -> str:
    """What a message calls the file of a load."""
    return STANDARD_INPUT if is_standard_input(word) else word.path


# The load

class Progress:
    """How far a load is: a line on standard error, where that is a terminal and the load takes long."""

    def __init__(self, total: Optional[int], out: Optional[TextIO] = None, clock: Callable[[], float] = time.monotonic) -> None:
        self._clock = clock
        self._total = "" if total is None else f" of {total:,}"
        self._start = clock()
        self._line = Line(out, clock)

    def tell(self, done: int) -> None:
        """Shows how many pairs were put, at most twice a second."""
        self._line.show(lambda: f"{done:,}{self._total} pairs, {self.rate(done)}")

    def rate(self, done: int) -> str:
        """How many pairs were put in a second so far."""
        return f"{done / max(self._clock() - self._start, 0.001):,.0f} a second"

    def end(self, done: int) -> str:
        """Takes the line away, and gives what the last line says of the rate."""
        self._line.clear()
        return f", {self.rate(done)}" if self._line.is_shown else ""


class Load:
    """A load into a version. `done` is how many pairs were put, out of `total` where that is known."""

    def __init__(self, shell: "Shell", version: int, total: Optional[int]) -> None:
        self._shell = shell
        self._version = version
        self._total = total
        self.done = 0
        self.progress = Progress(total)

    @property
    def told(self) -> str:
        """How far it is."""
        return counted(self.done, "pair") if self._total is None else f"{self.done:,} of {counted(self._total, 'pair')}"

    def run(self, pairs: Iterable[Pair]) -> None:
        """Puts pairs. Whatever ends it early says how many were put; a line that is wrong, that all before it were."""
        window: List[Pair] = []
        try:
            for pair in self._read(pairs):
                window.append(pair)
                if len(window) == WINDOW:
                    self._put(window)
                    window = []
        except DumpFault as fault:
            self._put(window)
            fault.what += f"; {counted(self.done, 'pair')} before it {'was' if self.done == 1 else 'were'} put"
            raise
        if window:
            self._put(window)

    def _read(self, pairs: Iterable[Pair]) -> Iterator[Pair]:
        """The pairs, where Ctrl-C while one is read says how many were put."""
        try:
            yield from pairs
        except Stopped:
            raise Stopped(f"stopped, with {self.told} loaded") from None

    def _put(self, window: List[Pair]) -> None:
        """Puts a window, unless Ctrl-C came before it."""
        try:
            self._shell.interrupts.check()
        except Stopped:
            raise Stopped(f"stopped, with {self.told} loaded") from None
        batch = self._shell.store.batch(return_exceptions=True)
        try:
            batch.update(self._version, window)
            batch.finish()
        except KeyboardInterrupt:
            raise Stopped(f"stopped, with {self.told} loaded and some of the next {WINDOW} or none") from None
        except CastleError as error:
            raise self._how_far(error, batch.results.count(None))
        for result in batch.results:
            if isinstance(result, CastleError):
                raise self._how_far(result, batch.results.count(None))
        self.done += len(window)
        self.progress.tell(self.done)

    def _how_far(self, error: CastleError, more: int) -> CastleError:
        """An error that ended a load, with how many pairs were put before it or beside it."""
        self.done += more
        error.command += f", with {self.told} loaded"
        return error


def load(shell: "Shell", word: Word, version: int) -> None:
    """Puts the pairs of a file into a version of the shell's store.

    A dump is read to its end before anything is changed, and so are frames of a file that can be read twice. Of the other
    forms each window is put as soon as it is read.
    """
    forms = [form for form in (*FORMS, FRAMES) if form in shell.options]
    if len(forms) > 1:
        raise Wrong(f"a file is of one form, and not {forms[0]} and {forms[1]}")
    name = name_of(word)
    if name == STANDARD_INPUT and not shell.has_input:
        raise Wrong("standard input is where the commands come from", "Name a file, or run castle-shell STORE load -.")
    if forms == [FRAMES]:
        with opened(shell, word) as file:
            total = exports.count(file, name, shell.interrupts) if file.seekable() else None
            put(shell, version, exports.pairs_of(shell.interrupts.lines(exports.pieces_of(file)), name), total)
    elif forms:
        put(shell, version, FORMS[forms[0]](lines_of(shell, word), name), None)
    else:
        whole = dump_pairs(lines_of(shell, word), name)
        put(shell, version, whole, len(whole))


def put(shell: "Shell", version: int, pairs: Iterable[Pair], total: Optional[int]) -> None:
    """Puts pairs into a version, and says how many."""
    loading = Load(shell, version, total)
    rate = ""
    try:
        loading.run(pairs)
    finally:
        rate = loading.progress.end(loading.done)
    shell.say(f"loaded {counted(loading.done, 'pair')} into {shell.titled(version)}{rate}", loaded=loading.done, version=version)
