"""Scans through cursors of the program, and the differences of two of them."""

from __future__ import annotations

import struct
import threading
from collections import deque
from types import TracebackType
from typing import Any, Deque, Generic, Iterator, List, NamedTuple, Optional, Sequence, Tuple, Type, TypeVar, cast

from . import errors, frames
from .commands import Commands, Data, Version
from .frames import Pair
from .program import Cursor, Program, Result

Item = TypeVar("Item", covariant=True)
Self = TypeVar("Self", bound="Reading[Any]")


class Reading(Iterator[Item], Generic[Item]):
    """An iterator that holds cursors of the program. `close` ends it, as does the end of a `with` block.

    Its cursors are closed behind the last item as well, after an error, with the store, and where nobody has it any more. The
    closing goes out together with the next command, so that nothing waits for it.
    """

    def close(self) -> None:
        """Ends it: no more items come. To close it again does nothing."""
        raise NotImplementedError

    def __enter__(self: Self) -> Self:
        return self

    def __exit__(self, kind: Optional[Type[BaseException]], error: Optional[BaseException],
                 trace: Optional[TracebackType]) -> None:
        self.close()


class Moment:
    """A time in the life of an open store."""

    def __init__(self, program: Program, commands: Commands) -> None:
        """It is now."""
        self._program = program
        self._commands = commands
        self._changes = commands.changes

    @property
    def is_current(self) -> bool:
        """Whether the store is still as it was. It fails where the store takes no more commands."""
        self._program.check()
        return self._program.is_alone and self._changes == self._commands.changes


class Scan(Reading[Pair]):
    """The pairs of a range as they were when the scan began, read piece by piece as they are asked for. See `Store.scan`."""

    def __init__(self, program: Program, commands: Commands, version: Version, lower: Data = b"", upper: Data = b"",
                 prefix: Data = b"", cursor: Optional[Cursor] = None) -> None:
        """Opens a cursor, unless one is given that was opened so."""
        self._program = program
        self._commands = commands
        self._piece: Iterator[Pair] = iter(())
        self._more = True
        self._reading = threading.RLock()  # around the reading of a piece
        self._asked: List[Result] = []  # has the next piece, once it was asked for and answered
        self.began = Moment(program, commands)
        self._cursor = program.open(commands.open_cursor, version, lower, upper, prefix) if cursor is None else cursor

    def __next__(self) -> Pair:
        while True:
            piece = self._piece
            for pair in piece:
                return pair
            if not self._program.is_own:
                self._program.check()  # before a lock that a thread may have had at the fork
            with self._reading:
                if piece is self._piece:  # and no other thread has read on
                    if not self._more:
                        raise StopIteration
                    self._read()

    @property
    def more(self) -> bool:
        """Whether pairs may follow those that were read."""
        return self._more

    def _number(self) -> object:
        """The number of the cursor."""
        if not self._cursor:
            raise errors.StoreClosed(file=self._program.file)
        return self._cursor[0]

    def _read(self) -> None:
        """Reads the next piece. Where an exception of a signal cuts it off, the next call takes the piece that was asked for."""
        try:
            page = cast(frames.Page, self._program.answer(self._asked, self._commands.next_pairs, self._number()))
        except errors.CastleError as error:
            if not isinstance(error, errors.Busy):
                self.close()
            raise
        self._asked, self._more, self._piece = [], page.more, iter(page.pairs)
        if not page.more:
            self.give_back()

    def count(self) -> int:
        """How many pairs follow. They are read, and not looked at."""
        pieces, count = Pieces([self], 1), 0
        while True:
            piece = pieces.next(0)
            if not piece:
                return count
            count += frames.page_counts(piece)[1]

    def give_back(self) -> None:
        """Has its cursor closed. What was read is given still; more is missed as `StoreClosed`."""
        self._cursor.close()

    def close(self) -> None:
        self._piece, self._more = iter(()), False
        self.give_back()


class Pieces:
    """Scans that are read side by side, piece by piece, as the bytes of replies. Threads may not share these scans.

    Pieces are asked for before they are needed, more of them the further it comes, so that the program goes on meanwhile.
    """

    AHEAD = 4  # pieces of each scan that are asked for, and not taken, at most

    def __init__(self, scans: Sequence[Scan], most: int = AHEAD) -> None:
        self._scans = scans
        self._most = most
        self._program = scans[0]._program
        self._ahead = 1
        self._asked: Deque[int] = deque()  # whose piece each reply to come is
        self._sink: List[Result] = []  # replies that came
        self._pieces: List[Deque[bytes]] = [deque() for _ in scans]

    def next(self, place: int) -> bytes:
        """The next piece of the scan at this place; empty behind its last pair."""
        pieces = self._pieces[place]
        self._ask()
        while not pieces and place in self._asked:
            self._take(len(self._asked) - 1 - self._asked.index(place))
        return pieces.popleft() if pieces else b""

    def _ask(self) -> None:
        """Asks for pieces of each scan that has others, up to as many as may be ahead."""
        for _ in range(self._ahead):
            for place, scan in enumerate(self._scans):
                if scan._more and self._asked.count(place) + len(self._pieces[place]) < self._ahead:
                    self._program.send(self._sink, scan._commands.next_whole, scan._number(), frames.PAGE_MAX)
                    self._asked.append(place)
        self._ahead = min(self._most, self._ahead + 1)

    def _take(self, left: int) -> None:
        """Waits until no more than so many replies are to come, and takes those that came."""
        end: Optional[errors.CastleError] = None
        try:
            self._program.settle(self._sink, left)
        except errors.CastleError as error:
            end = error
        refused = next((reply for reply in self._sink if isinstance(reply, errors.CastleError)), end)  # before the end that came of it
        if refused is not None:
            raise refused
        replies, self._sink[:] = cast(List[bytes], self._sink[:]), []
        for reply in replies:
            self._keep(self._asked.popleft(), reply)

    def _keep(self, place: int, reply: bytes) -> None:
        """Keeps a piece. Behind the last one the scan's cursor is closed, and replies have no pairs."""
        scan = self._scans[place]
        more, count = frames.page_counts(reply)
        if len(reply) < frames.PAGE_FIELDS.size + 2 * frames.SIZE.size * count:
            raise self.unreadable()
        if count:
            self._pieces[place].append(reply)
        if scan._more and not more:
            scan._more = False
            scan.give_back()

    def unreadable(self) -> errors.CastleError:
        """Ends the store for a piece that is none."""
        return self._program.refuse(f"a reply of status {frames.PAIRS} can't be read")


class Difference(NamedTuple):
    """A key whose values in two versions differ."""

    key: bytes
    before: Optional[bytes]
    """Its value in the first version; None where it has none."""
    after: Optional[bytes]
    """Its value in the second version; None where it has none."""


class Differences(Reading[Difference]):
    """What differs between two versions, in the order of keys. See `Store.diff`."""

    def __init__(self, scans: Sequence[Scan], found: Iterator[Difference]) -> None:
        """Gives what is found by these scans, which end with it. The iterator may have the scans."""
        self._scans = scans
        self._found = found  # which has not this, so that it goes where nobody has this

    def __next__(self) -> Difference:
        try:
            return next(self._found)
        except BaseException:
            self.close()
            raise

    def close(self) -> None:
        for scan in self._scans:
            scan.close()
        self._found = iter(())


class Side:
    """The pairs of a scan as bytes, of which the next one is at a place."""

    def __init__(self, pieces: Pieces, number: int) -> None:
        self._pieces = pieces
        self._number = number
        self.data = b""
        self.at = 0

    def has_pair(self) -> bool:
        """Whether there is a next pair. Behind the last one of a piece it reads the next piece."""
        if self.at == len(self.data):
            self.data = self._pieces.next(self._number)
            self.at = frames.PAGE_FIELDS.size if self.data else 0
        return self.at < len(self.data)

    def pair(self) -> Tuple[bytes, bytes, int]:
        """Key and value of the next pair, and where it ends."""
        data, at = self.data, self.at
        key_end = at + 2 + (data[at] << 8 | data[at + 1])
        end = key_end + 2 + (data[key_end] << 8 | data[key_end + 1])
        if end > len(data):
            raise IndexError
        return data[at + 2:key_end], data[key_end + 2:end], end

    def pass_over(self, size: int) -> int:
        """Passes over the pairs that lie within so many bytes, and tells how many bytes these have."""
        data, at, last = self.data, self.at, self.at + size
        while True:
            key_end = at + 2 + (data[at] << 8 | data[at + 1])
            end = key_end + 2 + (data[key_end] << 8 | data[key_end + 1])
            if end > last:
                break
            at = end
        passed, self.at = at - self.at, at
        return passed


WHOLE = frames.BODY_MAX * frames.PAGE_MAX  # bytes that are compared first in a new piece: above what one has
NEAR = 64  # bytes that are compared first behind a difference, since another one may be close


def differences(before: Scan, after: Scan) -> Iterator[Difference]:
    """What differs between two scans, which are compared as bytes: pairs are made of what differs alone."""
    pieces = Pieces([before, after])
    old, new = Side(pieces, 0), Side(pieces, 1)
    step = WHOLE
    while True:
        try:
            has_old, has_new = old.has_pair(), new.has_pair()
            if has_old and has_new and _pass_over_equal(old, new, step):
                step = WHOLE
                continue
            found = _next_difference(old if has_old else None, new if has_new else None)
            step = NEAR
        except (IndexError, struct.error):
            raise pieces.unreadable() from None
        if found is None:
            return
        yield found


def _pass_over_equal(old: Side, new: Side, step: int) -> bool:
    """Passes over pairs that are the same on both sides, and tells whether one has come to the end of its piece."""
    size = min(len(old.data) - old.at, len(new.data) - new.at)
    same = _equal_bytes(old, new, size, step)
    passed = same if same == size else old.pass_over(same)
    if same == size:
        old.at += size
    new.at += passed
    return same == size


def _equal_bytes(old: Side, new: Side, size: int, step: int) -> int:
    """How many bytes are the same, up to this size. It compares as many as the step first, and then twice as many each time."""
    done = 0
    while done < size:
        more = min(step, size - done)
        if old.data[old.at + done:old.at + done + more] != new.data[new.at + done:new.at + done + more]:
            break
        done, step = done + more, 2 * step
    else:
        return size
    low, high = done, done + more  # the same up to the first, and not up to the second
    while high - low > 1:
        middle = (low + high) // 2
        if old.data[old.at + low:old.at + middle] == new.data[new.at + low:new.at + middle]:
            low = middle
        else:
            high = middle
    return low


def _next_difference(old: Optional[Side], new: Optional[Side]) -> Optional[Difference]:
    """The difference of the next pairs, which are not the same, and passes over it. None for a side means that it has no other."""
    if old is None and new is None:
        return None
    key, value, end = old.pair() if old else (b"", b"", 0)
    other, also, stop = new.pair() if new else (b"", b"", 0)
    if new is None or (old is not None and key < other):
        assert old is not None
        old.at = end
        return Difference(key, value, None)
    new.at = stop
    if old is None or other < key:
        return Difference(other, None, also)
    old.at = end
    return Difference(key, value, also)


def merged(before: Iterator[Pair], after: Iterator[Pair]) -> Iterator[Difference]:
    """What differs between two lists of pairs in the order of their keys."""
    old, new = next(before, None), next(after, None)
    while old is not None or new is not None:
        if new is None or (old is not None and old[0] < new[0]):
            assert old is not None
            yield Difference(old[0], old[1], None)
            old = next(before, None)
        elif old is None or new[0] < old[0]:
            yield Difference(new[0], None, new[1])
            new = next(after, None)
        else:
            if old[1] != new[1]:
                yield Difference(old[0], old[1], new[1])
            old, new = next(before, None), next(after, None)
