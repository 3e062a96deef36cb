"""A log of changes in a stream of Redis. The ID of an entry is the number of its change, so the server refuses repeats.

It needs no package: what is asked of the server is written here. A client of the package `redis` is taken as well.
"""

from __future__ import annotations

import contextlib
import os
import socket
import time
from typing import Any, BinaryIO, Iterator, List, Optional, Sequence, Tuple, Union
from urllib.parse import parse_qs, unquote, urlsplit

from . import changes, forks
from .changelog import Frames, Repeats, forked, gap, missed
from .errors import CastleError, Forked, LogFault, NoRedis, WrongProtocol

FIELD = b"frame"
COUNT = 512  # entries that are read at once
PORT = 6379
LIMIT = 10.0  # seconds that the server may take to answer
SCHEMES = "redis", "redis+unix"
STREAM = "castle"

Word = Union[str, bytes, int]


class Connection:
    """A connection to a server of Redis, which speaks its protocol. It belongs to the process that made it.

    Behind a fault, or an exception amid an answer, the next command makes the connection anew: no answer is taken for another one's.
    """

    def __init__(self, url: str) -> None:
        """Connects to a server: `redis://:PASSWORD@HOST:PORT/DATABASE`, or `redis+unix:SOCKET?db=DATABASE` with the path of a socket."""
        self._url = url
        self._owner = os.getpid()
        self._socket: Optional[socket.socket] = None
        self._connect()

    def _connect(self) -> None:
        try:
            with self._told(), forks.starting:
                parts = urlsplit(self._url)
                if parts.scheme == "redis+unix":
                    self._socket = socket.socket(socket.AF_UNIX)
                    self._socket.settimeout(LIMIT)
                    self._socket.connect(unquote(parts.path))
                    database = parse_qs(parts.query).get("db", ["0"])[0]
                else:
                    self._socket = socket.create_connection((parts.hostname or "localhost", parts.port or PORT), LIMIT)
                    database = parts.path.strip("/") or "0"
                self._input: BinaryIO = self._socket.makefile("rb")
                forks.own(self)
            if parts.password is not None:
                self._exchange(["AUTH", *filter(None, [unquote(parts.username or "")]), unquote(parts.password)])
            if database != "0":
                self._exchange(["SELECT", database])
        except BaseException:
            self.forget()
            raise

    def forget(self) -> None:
        """Closes it; in a child of the process that made it, its copy."""
        for made in (self._socket, getattr(self, "_input", None)):
            if made is not None:
                with contextlib.suppress(OSError):
                    made.close()
        self._socket = None

    def __del__(self) -> None:
        self.forget()

    def execute_command(self, *words: Word) -> Any:
        """What the server answers to a command: bytes, a number, a list or None. A `NoRedis` tells of an error."""
        if self._owner != os.getpid():
            raise Forked(file=self._url)
        if self._socket is None:
            self._connect()
        return self._exchange(words)

    def _exchange(self, words: Sequence[Word]) -> Any:
        assert self._socket is not None
        data = [word if isinstance(word, bytes) else str(word).encode() for word in words]
        try:
            with self._told():
                self._socket.sendall(b"*%d\r\n" % len(data) + b"".join(b"$%d\r\n%b\r\n" % (len(word), word) for word in data))
                answer = self._answer()
        except BaseException:
            self.forget()  # what comes later would be the answer to this one
            raise
        if isinstance(answer, NoRedis):
            raise answer
        return answer

    def _answer(self) -> Any:
        line = self._input.readline()
        kind, rest = line[:1], line[1:-2]
        if not line.endswith(b"\r\n"):
            raise ConnectionResetError(0, "the server closed the connection")
        if kind == b"-":
            return NoRedis(rest.decode("utf-8", "replace"), file=self._url)
        if kind == b"+":
            return rest
        if kind not in (b":", b"$", b"*"):
            raise ConnectionResetError(0, "the server speaks another protocol")
        number = int(rest)
        if kind == b":" or number < 0:
            return number if kind == b":" else None
        if kind == b"*":
            return [self._answer() for _ in range(number)]
        data = self._input.read(number + 2)
        if len(data) < number + 2:
            raise ConnectionResetError(0, "the server closed the connection")
        return data[:-2]

    @contextlib.contextmanager
    def _told(self) -> Iterator[None]:
        """Has a fault of the connection say which server it is."""
        try:
            yield
        except (OSError, ValueError) as error:  # or the address has no such port
            raise NoRedis(f"the server can't be reached: {getattr(error, 'strerror', None) or error}", file=self._url) from error


class RedisLog:
    """A log of changes in a stream. What is kept, and for how long, is the server's: see docs/REPLICATION.md."""

    def __init__(self, url: str, stream: str = "", client: Any = None) -> None:
        """`stream` is the stream's name; else the address has it, `redis://localhost?stream=NAME`, or it is `castle`.

        `client` is what speaks to the server, as a `redis.Redis` of the package `redis` does, in place of a `Connection`.
        """
        self.name = url
        self._client = Connection(url) if client is None else client
        self._stream = stream or parse_qs(urlsplit(url).query).get("stream", [STREAM])[0]

    def __repr__(self) -> str:
        return f"<log {self.name}, stream {self._stream}>"

    def ask(self, *words: Word) -> Any:
        """What the server answers."""
        try:
            return self._client.execute_command(*words)
        except CastleError:
            raise
        except Exception as error:  # of the package, whose classes are not known here
            raise NoRedis(str(error), file=self.name) from error

    def _ends(self, word: str, lower: str, upper: str) -> Optional[int]:
        found = self.ask(word, self._stream, lower, upper, "COUNT", 1)
        return self._entry(found[0])[0] if found else None

    @property
    def first(self) -> int:
        """The number of the first change; 0 if there is none."""
        return self._ends("XRANGE", "-", "+") or 0

    @property
    def next(self) -> int:
        """The number behind the last change."""
        last = self._ends("XREVRANGE", "+", "-")
        return 0 if last is None else last + 1

    def _entry(self, found: Any) -> Tuple[int, bytes]:
        """The number and the frame of an entry."""
        place, fields = found[0], found[1]
        pairs = fields if isinstance(fields, dict) else dict(zip(fields[::2], fields[1::2]))
        number = int(bytes(place).split(b"-")[0] if isinstance(place, bytes) else place.split("-")[0])
        frame = pairs.get(FIELD)
        if not isinstance(frame, bytes) or len(frame) < changes.HEAD.size or changes.number_of(frame) != number:
            raise LogFault(f"entry {place!r} of the stream {self._stream} is no change", "Another program wrote into the stream.",
                           file=self.name)
        return number, frame

    def read(self, number: int) -> Iterator[Frames]:
        """The frames of the changes from this number on, some at a time, up to the end as it is now.

        `LogGap` tells of changes that are missing there, as where the stream was trimmed.
        """
        while True:
            found = self.ask("XRANGE", self._stream, f"{number}-1", "+", "COUNT", COUNT)
            if not found:
                return
            frames: List[bytes] = []
            for place, frame in map(self._entry, found):
                if place != number:
                    raise gap(self.name, number, place)
                number += 1
                frames.append(frame)
            yield frames

    def wait(self, number: int, limit: float) -> bool:
        """Waits until the change of this number is there, for so many seconds at most, and tells whether it is."""
        deadline = time.monotonic() + limit
        while True:
            left = min(deadline - time.monotonic(), LIMIT / 2)
            if left <= 0:
                return self.next > number
            if self.ask("XREAD", "COUNT", 1, "BLOCK", max(1, int(left * 1000)), "STREAMS", self._stream, f"{number}-0"):
                return True

    def writer(self) -> "RedisWriter":
        """What adds the frames of one run of a leader. The server keeps two of them apart by the numbers alone."""
        return RedisWriter(self)


class RedisWriter:
    """Adds the frames of a run of a leader to a stream."""

    def __init__(self, log: RedisLog) -> None:
        self._log = log
        self.before = log.next
        """The number behind the last change that was there before."""
        self._next: Optional[int] = None
        self._repeats = None if not self.before else log.first

    def add(self, frames: Frames) -> None:
        """Adds frames of changes, whose numbers follow one another. When it returns the server has answered each.

        `LogGap` and `LogForked` are as of a log in files.
        """
        number = changes.number_of(frames[0]) if frames else 0
        if self._next is None and number > self.before > 0:
            raise missed(self._log.name, self.before, number)
        repeated = self._repeated(number)
        for frame in frames:
            number = changes.number_of(frame)
            if self._next is not None and number != self._next:
                raise WrongProtocol(f"change {number} came, where {self._next} follows", file=self._log.name)
            if number < self.before:
                if repeated is not None:
                    repeated.check(self._log.name, frame)
            else:
                self._add(number, frame)  # one by one, since behind one that fails none may be added: its number would be lost for good
            self._next = number + 1

    def _repeated(self, number: int) -> Optional[Repeats]:
        if self._repeats is None or not self._repeats <= number < self.before:
            return None
        return Repeats(self._log, number)

    def _add(self, number: int, frame: bytes) -> None:
        try:
            self._log.ask("XADD", self._log._stream, f"{number}-1", FIELD, frame)
        except NoRedis as error:
            if "equal or smaller" not in error.what:
                raise
            there = next(self._log.read(number), [b""])[0]  # another one added it, or the answer to it was lost
            if there != frame:
                raise forked(self._log.name, number) from None

    def close(self) -> None:
        """Adds no more."""

    def __enter__(self) -> "RedisWriter":
        return self

    def __exit__(self, *_: object) -> None:
        self.close()
