"""Exchanges frames with a run of the program, or with a hub: many may be under way, and it writes while it reads.

Any thread may speak, one at a time. An exception may come between any two steps, as a KeyboardInterrupt does, and the next
command goes on where it came: what is known of the exchange is replaced as a whole, by one assignment, and what the
system read or wrote is noted within the call that did it.
"""

from __future__ import annotations

import errno
import os
import struct
import sys
import threading
from collections import deque
from typing import TYPE_CHECKING, Callable, Deque, Iterator, List, NamedTuple, NoReturn, Optional, Sequence, Tuple, Union, cast

from . import errors, forks, frames
from .frames import NUMBER_MAX
from .process import CHUNK, LIMIT, Process

if TYPE_CHECKING:
    from .hubstore import Connection

KEPT = 4096  # answered commands that are kept at most, before the list of commands is cut
FAILURES = errno.EBADF, errno.EINVAL, errno.EIO  # of a pipe


Result = Union[frames.Answer, errors.CastleError]


class Cursor(List[Result]):
    """The number of an open cursor, which is in it from the answer on until it is closed.

    Where nobody has this any more, the cursor is closed with the next command, also where an exception came before the answer.
    """

    _dropped: Deque[int] = deque()  # until it has that of its program

    def __init__(self, dropped: Deque[int]) -> None:
        super().__init__()
        self._dropped = dropped

    def close(self) -> None:
        """Has it closed with the next command. It may be called amid a command, and from any thread."""
        self._dropped.extend([number for number in self if isinstance(number, int)])
        self.clear()

    def __del__(self) -> None:
        self.close()


class Unheard(bytes):
    """A frame whose answer nobody wants."""


class Whole(bytes):
    """A frame for which pairs are wanted as the bytes of their reply, which are not looked at; see `frames.page`."""


class Heard(NamedTuple):
    """What was asked and answered so far."""

    first: int
    """The tag of the first of the commands."""
    commands: List[bytes]
    """Their frames. Only this list grows; all else is replaced."""
    done: int
    """How many of them are answered."""
    rest: bytes
    """The beginning of a reply."""
    got: List[bytes]
    """What was read behind it."""
    sink: List[Result]
    """Where the answers go."""
    answers: Iterator[Result]
    """Answers for it. Whoever adds them to it takes them away here by the same call."""


class Sending(NamedTuple):
    """What is being sent."""

    data: bytes
    counts: List[int]
    """How many bytes of it each write took."""
    next: int
    """The tag of the first command whose frame is not in it."""


class Program:
    """One run of the program, or one connection to a hub.

    Commands are added and answered in order, and each answer goes into the list that it was added for. Nothing waits
    for a pipe that the other side can't empty, however many commands are under way.
    """

    def __init__(self, file: str, start: Callable[[], Union[Process, "Connection"]]) -> None:
        """Starts it by this call. Errors have the file."""
        self.file = file
        self.tag = 0
        """That of the command which is being made."""
        self.lock = threading.RLock()
        """Around all that is done here: whoever has it may send several commands in a row."""
        self._is_busy = False  # whether this thread is amid a command
        self._dropped: Deque[int] = deque()  # cursors that are to be closed
        self._heard = Heard(0, [], 0, b"", [], [], iter(()))
        self._sending = Sending(b"", [], 0)
        self._size = 0  # bytes that were added and are not in it, as a guess
        self._end: Optional[errors.CastleError] = None
        with forks.starting:
            forks.own(self)
            self.process = start()

    @property
    def pid(self) -> int:
        """The number of its process."""
        return self.process.pid

    @property
    def is_own(self) -> bool:
        """Whether this process started it, and is no child of the one that did."""
        return self.process.is_own

    @property
    def is_alone(self) -> bool:
        """Whether nobody else changes the store: the program is this one's own."""
        return isinstance(self.process, Process)

    @property
    def end(self) -> Optional[errors.CastleError]:
        """Why it takes no more commands; None while it does."""
        return self._end

    # What others call

    def call(self, make: Callable[..., bytes], *words: object) -> frames.Answer:
        """The answer to the command that is made of these words. A refusal is raised."""
        return self.answer([], make, *words)

    def answer(self, sink: List[Result], make: Callable[..., bytes], *words: object) -> frames.Answer:
        """The same through an empty list of the caller's.

        Where an exception cuts off a call, the next one with this list sends nothing again, and gives the first one's answer.
        """
        self._ask(sink, make, words)
        answer = sink[0]
        if isinstance(answer, errors.CastleError):
            self.explain(sink)
            raise cast(errors.CastleError, sink[0])
        return answer

    def open(self, make: Callable[..., bytes], *words: object) -> Cursor:
        """The cursor that the command opens which is made of these words. A refusal is raised."""
        cursor = Cursor(self._dropped)
        self._ask(cursor, make, words)
        if isinstance(cursor[0], errors.CastleError):
            self.explain(cursor)
            raise cast(errors.CastleError, cursor[0])
        return cursor

    def open_all(self, before: Callable[[], bytes], openings: Sequence[Callable[[], bytes]]) -> Tuple[Result, List[Cursor], Result]:
        """The cursors of these commands, asked for at once, and the answers to another one in front of them and behind them.

        A refusal is raised, and then none is open.
        """
        sink = Cursor(self._dropped)  # so that none is left open where an exception comes
        with self.lock:
            for make in (before, *openings, before):
                self.send(sink, make)
            self.settle(sink)
            refused = next((answer for answer in sink if isinstance(answer, errors.CastleError)), None)
            if refused is not None:
                sink.close()
                raise refused
            first, *numbers, last = sink
            sink.clear()
            found = [Cursor(self._dropped) for _ in numbers]
            for cursor, number in zip(found, numbers):
                cursor.append(number)
            return first, found, last

    def _ask(self, sink: List[Result], make: Callable[..., bytes], words: Sequence[object]) -> None:
        """Has the answer to one command in a list of its own."""
        with self.lock:
            if self._is_busy:
                self._refuse_amid()
            self._is_busy = True
            try:
                self.check()
                if sink is self._heard.sink:
                    self._exchange(0, 0)  # it may be asked for already
                if not sink:
                    self._turn_to(sink)  # closings of cursors go out together with the command
                    heard = self._heard
                    self.tag = heard.first + len(heard.commands) & NUMBER_MAX
                    heard.commands.append(make(*words))
                    self._exchange(0, 0)
            finally:
                self._is_busy = False

    def send(self, sink: List[Result], make: Callable[..., bytes], *words: object) -> None:
        """Adds the command that is made of these words; its answer goes into this list. `settle` waits for it.

        A command that can't be made has its error there.
        """
        with self.lock:
            if self._is_busy:
                self._refuse_amid()
            self._is_busy = True
            try:
                if self._end is not None:
                    raise errors.again(self._end)
                heard = self._heard
                if sink is not heard.sink or self._dropped:
                    self._turn_to(sink)
                    heard = self._heard
                commands = heard.commands
                self.tag = heard.first + len(commands) & NUMBER_MAX
                try:
                    frame = make(*words)
                except errors.CastleError as error:
                    self._exchange(0, 0)
                    sink.append(error.with_traceback(None))
                    return
                commands.append(frame)  # this alone adds it
                self._size += len(frame)
                if self._size >= CHUNK:
                    self._exchange(CHUNK // 2, None)
            finally:
                self._is_busy = False

    def send_all(self, sink: List[Result], make: Callable[..., List[bytes]], *words: object) -> bool:
        """Adds the commands that are made of these words, all or none, and tells whether there are any. See `send`."""
        with self.lock:
            if self._is_busy:
                self._refuse_amid()
            self._is_busy = True
            try:
                if self._end is not None:
                    raise errors.again(self._end)
                self._turn_to(sink)
                heard = self._heard
                self.tag = heard.first + len(heard.commands) & NUMBER_MAX
                made = make(*words)
                heard.commands.extend(made)  # this alone adds them
                self._size += sum(map(len, made))
                if self._size >= CHUNK:
                    self._exchange(CHUNK // 2, None)
                return bool(made)
            finally:
                self._is_busy = False

    def settle(self, sink: Optional[List[Result]] = None, left: int = 0) -> None:
        """Sends all that was added, and waits until all but so many are answered. Commands that are sent next are for this list."""
        with self.lock:
            if self._is_busy:
                self._refuse_amid()
            self._is_busy = True
            try:
                self._turn_to(self._heard.sink if sink is None else sink)
                self._exchange(0, left)
            finally:
                self._is_busy = False

    def explain(self, results: List[Result]) -> None:
        """Has answers tell of versions that were dropped, in place of versions that the store doesn't have. For these it asks the store."""
        unknown = {place: result for place, result in enumerate(results) if type(result) is errors.UnknownVersion}
        asked = sorted({refusal.version for refusal in unknown.values() if refusal.version is not None})
        if not asked:
            return
        found: List[Result] = []
        try:
            with self.lock:
                self.send(found, lambda: frames.stat(self.tag))
                for version in asked:
                    self.send(found, lambda: frames.info(self.tag, version))
                self.settle(found)
        except errors.CastleError:
            return  # it takes no more commands
        stat, *places = found
        if not isinstance(stat, frames.Stat):
            return
        # one that was asked for before it was made is there now
        dropped = {version for version, place in zip(asked, places) if version < stat.versions and isinstance(place, errors.UnknownVersion)}
        for place, refusal in unknown.items():
            if refusal.version in dropped:
                results[place] = told = errors.Dropped(file=refusal.file, command=refusal.command)
                told.version = refusal.version

    def wait(self, act: Callable[[], None]) -> None:
        """Does something while all is answered and no command can come: one amid it raises `Busy`."""
        with self.lock:
            self.settle()
            self._is_busy = True
            try:
                act()
            finally:
                self._is_busy = False

    def ask(self, make: Callable[[], bytes]) -> Result:
        """The answer to one frame, a refusal too."""
        sink: List[Result] = []
        self._ask(sink, make, ())
        return sink[0]

    def check(self) -> None:
        """Fails where no command can be sent: the program ended, or this is a child of the process that started it."""
        if self._end is not None:
            raise errors.again(self._end)
        if not self.is_own:
            raise errors.Forked(file=self.file)

    def refuse(self, fault: str) -> errors.CastleError:
        """Takes no more commands, since a reply was wrong, and gives the error for that."""
        return self._ended(errors.WrongProtocol(fault, file=self.file))

    def finish(self, limit: Optional[float] = None) -> int:
        """Ends its input, waits until it has ended, and tells its status. Replies that nobody waited for are dropped.

        After so many seconds it is killed.
        """
        with self.lock:
            if self._is_busy:
                self._refuse_amid()
            self._is_busy = True
            try:
                if not self.is_own:  # where Python did not see the fork
                    self.process.forget()
                    self.forget()
                if self._end is None:
                    self._end = errors.StoreClosed(file=self.file)
                return self.process.finish(limit)
            finally:
                self._is_busy = False

    def forget(self) -> None:
        """Takes no more commands, in a child of the process that started it."""
        self._end = errors.Forked(file=self.file)
        self.lock, self._is_busy = threading.RLock(), False  # the thread that had it is not in this process

    # Turns

    def _refuse_amid(self) -> None:
        """Refuses a command amid another one of this thread. That there is one may be left over from an exception."""
        codes = {method.__code__ for method in (Program._ask, Program.send, Program.send_all, Program.settle, Program.finish, Program.wait)}
        frame = sys._getframe(1).f_back
        while frame is not None:
            if frame.f_code in codes and frame.f_locals.get("self") is self:
                raise errors.Busy(file=self.file)
            frame = frame.f_back

    def _turn_to(self, sink: List[Result]) -> None:
        """Has the answers to the commands that follow go into this list, once all before are answered."""
        heard = self._heard
        if sink is not heard.sink:
            if len(heard.commands) > heard.done or heard.got:
                self._exchange(0, 0)
            first, commands, done, rest, got, before, answers = self._heard
            before.extend(answers)
            self._heard = Heard(first, commands, done, rest, got, sink, iter(()))
            del heard, before  # whose cursor may be closed here
        while self._dropped:
            heard = self._heard
            tag = heard.first + len(heard.commands) & NUMBER_MAX
            heard.commands.append(Unheard(frames.close_cursor(tag, self._dropped[0])))
            self._dropped.popleft()

    def _exchange(self, most_unsent: int, most_open: Optional[int]) -> None:
        """Writes and reads until no more bytes are unsent, and no more commands unanswered, than these."""
        self.check()
        try:
            self._digest()
            unsent = self._load()
            if unsent > most_unsent:
                unsent = self._write()
            while unsent > most_unsent or most_open is not None and len(self._heard.commands) - self._heard.done > most_open:
                unsent = self._turn(unsent > 0)
        except OSError as error:
            if error.errno == errno.ECONNRESET:
                self._fail()
            if error.errno not in FAILURES:
                raise  # a TimeoutError of a signal handler, as like as not
            raise self._ended(errors.Interrupted(f"the pipes to the program failed: {error.strerror}", file=self.file)) from error

    def _load(self) -> int:
        """Takes the frames that were added into what is being sent, and tells how many bytes that are."""
        heard, (data, counts, after) = self._heard, self._sending
        tag = heard.first + len(heard.commands) & NUMBER_MAX
        if tag != after:
            fresh = heard.commands[-(tag - after & NUMBER_MAX):]
            self._sending = Sending(b"".join([data[sum(counts):], *fresh]), [], tag)
            self._size = 0
        return len(self._sending.data) - sum(self._sending.counts)

    def _turn(self, writes: bool) -> int:
        """Waits until something can be read or written, and does it. How many bytes are unsent then."""
        process = self.process
        for pipe in process.ready(writes):
            if pipe == process.out:
                # noted by the same call that reads
                self._heard.got.extend(map(os.read, (pipe,), (CHUNK,)))
                self._digest()
            elif pipe == process.err:
                process.read_errors()
            else:
                self._write()
        return len(self._sending.data) - sum(self._sending.counts)

    def _write(self) -> int:
        """Writes what the pipe takes now, and tells how many bytes are unsent."""
        data, counts, after = self._sending
        sent = sum(counts)
        try:
            # noted by the same call that writes
            counts.extend(map(os.write, (self.process.inp,), (data[sent:sent + CHUNK],)))
        except BlockingIOError:
            pass
        except (BrokenPipeError, ConnectionResetError):
            self._sending = Sending(b"", [], after)
            while True:  # it ended; what it answered before is still to be read, and its end raised
                self._turn(False)
        return len(data) - sum(counts)

    def _digest(self) -> None:
        """Takes the replies that were read, and has their answers go into the list for them."""
        heard = self._heard
        heard.sink.extend(heard.answers)  # where an exception came between these two
        if not heard.got:
            return
        answers, rest, done, fault = self._parsed(heard)
        first, commands, has_ended = heard.first, heard.commands, not heard.got[-1]
        if done == len(commands) or done > KEPT and 2 * done > len(commands):
            first, commands, done = first + done & NUMBER_MAX, commands[done:], 0
        self._heard = heard = Heard(first, commands, done, rest, [], heard.sink, iter(answers))
        heard.sink.extend(heard.answers)
        if fault:
            raise self._ended(errors.WrongProtocol(fault, file=self.file))
        if has_ended:
            self._fail()

    def _parsed(self, heard: Heard) -> Tuple[List[Result], bytes, int, str]:
        """What whole replies say, the beginning of one behind them, how many commands are answered, and a wrong reply."""
        data = b"".join([heard.rest, *heard.got])
        end, expected, found, head = len(data), heard.first + heard.done & NUMBER_MAX, frames.FOUND, frames.HEAD.unpack_from
        asked = heard.commands[heard.done:heard.done + end // frames.DONE_SIZE]  # no reply is shorter
        plain = self._count_done(data, expected, asked)
        answers: List[Result] = [None] * plain
        at, expected = plain * frames.DONE_SIZE, expected + plain & NUMBER_MAX
        fault = ""
        for frame in asked[plain:]:
            if end - at < frames.DONE_SIZE:
                break
            length, tag, status = head(data, at)
            stop = at + 4 + length
            if stop > end:
                break
            if tag != expected and status != errors.FrameTooLong.status:
                fault = f"a reply has tag {tag}, which is not that of the command"
                break
            if status == found:
                answers.append(data[at + 11:stop])
            elif type(frame) is Unheard:
                pass
            elif type(frame) is Whole and status == frames.PAIRS and length > 7:
                answers.append(data[at + 9:stop])
            elif status < frames.LEAST_REFUSAL:
                try:
                    answers.append(frames.answer(status, data[at + 9:stop]))
                except (ValueError, IndexError, struct.error):
                    fault = f"a reply of status {status} can't be read"
                    break
            else:
                answers.append(self._refusal(status, data[at + 9:stop], frame))
            at = stop
            expected = expected + 1 & NUMBER_MAX
        done = expected - heard.first & NUMBER_MAX
        if done == len(heard.commands) and at < end:
            fault = "a reply came that is to no command"
        return answers, data[at:], done, fault

    def _refusal(self, status: int, fields: bytes, frame: bytes) -> errors.Refused:
        """The refusal of a command."""
        error = errors.refusal(status, fields, self.file, frames.describe(frame))
        if isinstance(error, errors.UnknownVersion):
            error.version = frames.version_of(frame)
        return error

    @staticmethod
    def _count_done(data: bytes, tag: int, asked: List[bytes]) -> int:
        """How many replies at the beginning say that a command is done: as many as may be there, compared at once, or none."""
        count = min(len(asked), NUMBER_MAX - tag)
        if data[8:9] != b"\0" or Unheard in set(map(type, asked)):
            return 0
        return count if data.startswith(frames.dones(tag, count)) else 0

    def _fail(self) -> NoReturn:
        """The program ended before it was asked to."""
        heard = self._heard
        asked = next((frame for frame in heard.commands[heard.done:] if type(frame) is not Unheard), b"")
        raise self._ended(self.process.end(LIMIT, frames.describe(asked) if asked else "")) from None  # and not from the pipe

    def _ended(self, error: errors.CastleError) -> errors.CastleError:
        """Takes no more commands. What is kept is a copy: one that is raised has the frames that it passed, and so all this."""
        self._end = errors.again(error)
        return error
