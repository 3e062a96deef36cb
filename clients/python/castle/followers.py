"""Followers: runs of `follow`, which are fed changes from the number that each of them answers."""

from __future__ import annotations

import os
import signal
import time
from collections import deque
from typing import Callable, Deque, List, Optional, Sequence

from . import changes, errors
from .changelog import Changes, Frames
from .changes import Receipt
from .lock import Lock
from .process import CHUNK, LIMIT, Process, find_program
from .store import Path, check_file, located
from .storecopy import Progress, silent

RETRIES = 5  # how often a follower is tried again that took nothing
PAUSE = 0.2  # seconds before it is
NO_MEMORY, DEVICE_FAULT, DAMAGED = (kind.status for kind in (errors.NoMemory, errors.DeviceFault, errors.Damaged))


class Follower:
    """A run of `follow`. It belongs to the process that started it, and to one thread at a time.

    It holds the locks of a store's file, as an open `Store` does, until its program has ended. Ctrl-C reaches this process alone.
    """

    def __init__(self, path: Optional[Path] = None, program: Optional[str] = None, *, command: Sequence[str] = ()) -> None:
        """Starts it over a store's file, or starts this command, as `("ssh", "host", "castle", "follow", "copy.store")`.

        The locks of a store that a command follows are taken where it runs.
        """
        self._lock: Optional[Lock] = None
        if command:
            self.name, words = " ".join(command), list(command)
        else:
            assert path is not None
            self.name, real = located(path)
            check_file(real, self.name)
            self._lock = Lock(real, self.name)
            words = [find_program(program), "follow", real]
        try:
            self._process = Process(words[0], words[1:], self.name, self._lock)
        except BaseException:
            self._free()
            raise
        self._rest = b""
        self._got: Deque[Receipt] = deque()
        self._end: Optional[errors.CastleError] = None
        self._last: Optional[Receipt] = None

    def ask(self) -> int:
        """The number that it waits for: as many changes as its store has."""
        return self.give([changes.PROBE])[0].next

    def give(self, frames: Frames) -> List[Receipt]:
        """Gives it frames, and waits for the receipt of each. Neither side waits for a pipe that the other can't empty.

        An `Ended` tells that its program ended before it answered all: what it answered holds, and the rest was taken or not.
        """
        if not self._process.is_own:
            raise errors.Forked(file=self.name)
        if self._end is not None:
            raise errors.again(self._end)
        data, found = memoryview(b"".join(frames)), []
        try:
            while len(found) < len(frames):
                data = data[self._turn(data):]
                while self._got and len(found) < len(frames):
                    self._last = self._got.popleft()
                    found.append(self._last)
        except errors.CastleError as error:
            self._end = error
            raise
        except BaseException:
            self._end = errors.StoreClosed("the follower was cut off amid an exchange", "Start it again.", file=self.name)
            raise
        return found

    def _turn(self, data: memoryview) -> int:
        """Waits until something can be read or written, and does it. How many bytes were written."""
        process, written = self._process, 0
        for pipe in process.ready(len(data) > 0):
            if pipe == process.out:
                self._read(os.read(pipe, CHUNK))
            elif pipe == process.err:
                process.read_errors()
            else:
                try:
                    written = os.write(pipe, data[:CHUNK])
                except BlockingIOError:
                    pass
                except (BrokenPipeError, ConnectionResetError):
                    while True:  # it ended; what it answered before is still to be read
                        self._turn(data[:0])
        return written

    def _read(self, data: bytes) -> None:
        if not data:
            raise self._ended()
        found, self._rest = changes.split(self._rest + data)
        self._got.extend(map(changes.receipt_of, found))

    def _ended(self) -> errors.Ended:
        """Why its program ended, which it may have told by its last receipt."""
        end = self._process.end(LIMIT, "follow")
        last = self._got[-1] if self._got else self._last
        if last is not None and last.refusal in (DEVICE_FAULT, DAMAGED):
            end.command = f"follow, change {last.number}"
        return end

    def close(self) -> None:
        """Ends its input, waits until it has answered all, and frees the store. To close it again does nothing."""
        if self._process.is_own:
            self._process.finish(LIMIT)
        self._free()
        self._end = self._end or errors.StoreClosed(file=self.name)

    def _free(self) -> None:
        if self._lock is not None:
            self._lock.release()

    def kill(self) -> None:
        """Ends its program at once. What it answered is in its file."""
        self._process.kill(signal.SIGKILL)
        self.close()

    def __enter__(self) -> "Follower":
        return self

    def __exit__(self, *_: object) -> None:
        self.close()


class Replica:
    """A copy of a leader's store that is fed from a log, by runs of `follow` that begin and end with each feeding."""

    def __init__(self, path: Optional[Path] = None, program: Optional[str] = None, *, command: Sequence[str] = (),
                 retries: int = RETRIES, pause: float = PAUSE) -> None:
        """`retries` is how often it is tried again while it takes nothing, `pause` how many seconds it waits before."""
        self._start = lambda: Follower(path, program, command=command)
        self.retries = retries
        self.pause = pause
        self.next: Optional[int] = None
        """The number that it waited for when it was heard of last; None before."""

    def lag(self, log: Changes) -> int:
        """How many changes of the log it had not when it was heard of last."""
        return log.next - (self.next or 0)

    def catch_up(self, log: Changes, until: Optional[int] = None, progress: Progress = silent) -> int:
        """Feeds it what the log has at this call, or the changes before this number, and tells the number that it waits for then.

        It begins at the number that the follower answers. A frame that the follower has is passed over by it. After a Gap, want
        of memory or the end of its program by a signal it goes on from the number that it answers then, and gives up once
        that was of no use so often as `retries` says: a `FollowerStuck`. It raises what `Follower` does, `LogGap`, `FollowerAhead`,
        `FollowerRefused`, and `DeviceFailed` or `StoreDamaged` for the follower's own file.
        """
        failures = 0
        while True:
            before = self.next
            try:
                with self._start() as follower:
                    self._feed(follower, log, until, progress)
                assert self.next is not None
                return self.next
            except (errors.Killed, errors.Interrupted, errors.NoMemory, _Gapped) as error:
                failures = failures + 1 if self.next == before else 1
                if failures > self.retries:
                    raise self._stuck(error) from error
            time.sleep(self.pause)

    def _stuck(self, error: errors.CastleError) -> errors.FollowerStuck:
        return errors.FollowerStuck(f"the follower waits for change {self.next} still, after {self.retries} more tries: {error.what}",
                                    file=error.file)

    def _feed(self, follower: Follower, log: Changes, until: Optional[int], progress: Progress) -> None:
        self.next, last = follower.ask(), log.next
        end = last if until is None else min(until, last)
        if self.next > last:
            raise errors.FollowerAhead(f"the follower has {self.next:,} changes, and the log goes up to {last:,}", file=follower.name)
        pieces = log.read(self.next)
        while self.next < end:
            found = next(pieces, None)
            if found is None:
                raise _Gapped(f"change {self.next} is in the log no more", file=follower.name)
            for receipt in follower.give(found[:end - self.next]):
                self.next = receipt.next
                self._take(follower, receipt)
            progress("changes", self.next, end)

    def _take(self, follower: Follower, receipt: Receipt) -> None:
        """Goes on behind a receipt, or raises what it says."""
        if receipt.status in (changes.TAKEN, changes.OLD):
            return
        place = f"change {receipt.number}"
        if receipt.status == changes.GAP:
            raise _Gapped(f"it waits for change {receipt.next}, and was given {receipt.number}", file=follower.name)
        if receipt.status == changes.MALFORMED:
            raise errors.WrongProtocol("the follower knows no such change", errors.Malformed.remedy, file=follower.name, command=place)
        refusal = errors.refusal(receipt.refusal, b"", follower.name, place)
        if receipt.refusal == NO_MEMORY:
            raise refusal
        if receipt.refusal in (DEVICE_FAULT, DAMAGED):
            raise follower._ended()
        error = errors.FollowerRefused(f"the follower refused the change: {refusal.what}", file=follower.name, command=place)
        error.refusal = refusal
        raise error

    def stay(self, log: Changes, stop: Callable[[], bool], progress: Progress = silent, wait: float = 1.0,
             until: Optional[int] = None) -> None:
        """Feeds it whatever the log gets, up to this number, until `stop` is true, which is asked about once in so many seconds.

        While somebody has the store open it waits, so the store may be read in turns. It waits for a log, too, that is not there yet.
        """
        while not stop():
            try:
                self.catch_up(log, until, progress)
                if until is None or (self.next or 0) < until:
                    log.wait(self.next or 0, wait)
            except (errors.StoreLocked, errors.LogMissing) as error:
                is_open = isinstance(error, errors.StoreLocked)
                progress("waiting, since the store is open" if is_open else "waiting for the log", 0, None)
                time.sleep(wait)


class _Gapped(errors.CastleError):
    """A follower was given a change behind the one that it waits for."""

