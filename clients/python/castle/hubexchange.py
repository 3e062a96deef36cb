"""What a hub has under way: the commands of all clients as one stream to the program, and each reply back to whose it is."""

from __future__ import annotations

import asyncio
import contextlib
import os
import struct
from collections import deque
from typing import Deque, NamedTuple, Optional, Protocol, Set

from . import errors, frames
from .process import CHUNK, Process

SIZE = struct.Struct(">I")  # of a frame's body
TAG = struct.Struct(">I")
CAUSE = struct.Struct(">H")
NO_TAG = TAG.pack(0)
NO_CURSOR = frames.CURSOR.pack(0)  # the program counts them from 1
ASK_LIMITS, STAT = bytes([frames.ASK_LIMITS]), bytes([frames.STAT])


class Sender(Protocol):
    """Whoever sends commands and gets the replies to them."""

    cursors: Set[bytes]
    """The numbers of its open cursors."""
    under_way: int
    """The shares of its commands that are to be answered."""

    def take(self, body: bytes) -> None:
        """Takes a reply."""


class Waiting(NamedTuple):
    """A command that was passed on, and is to be answered."""

    sender: Optional[Sender]
    """None for a closing of the hub's own."""
    tag: bytes
    """That of the client's frame, which the reply gets."""
    expected: bytes
    """That of the program's reply."""
    opcode: int
    share: int
    cursor: bytes
    """The number that it closes."""

    def give(self, reply: bytes) -> None:
        """Gives whoever sent it the reply, a body without a tag."""
        if self.sender is not None:
            self.sender.under_way -= self.share
            self.sender.take(self.tag + reply)


class Exchange:
    """The program of a store between several clients.

    Commands are passed on in the order of `post`, and so each client's in its own order. Each gets a tag of the hub's on
    the way, and the reply the client's tag again. A client meets its own cursors alone: for the number of another's
    the program gets 0, which is none's.
    """

    def __init__(self, process: Process, limits: Optional[frames.Limits] = None) -> None:
        """Begins within a running loop. Nothing may be under way. The limits are those of the store, for clients that ask for them."""
        self._process = process
        self._limits = bytes([frames.LIMITS]) + frames.LIMIT_FIELDS.pack(*limits) if limits else b""
        self._loop = asyncio.get_running_loop()
        self._waiting: Deque[Waiting] = deque()
        self._tag = 0
        self._unsent = bytearray()
        self._got = bytearray()
        self._is_idle = asyncio.Event()
        self._is_idle.set()
        self.ended: "asyncio.Future[str]" = self._loop.create_future()
        """Done when no more replies come: empty, or what is wrong with one."""
        os.set_blocking(process.inp, False)
        self._loop.add_reader(process.out, self._read)
        self._loop.add_reader(process.err, self._read_errors)

    def leave(self, sender: Sender) -> None:
        """Has the cursors closed of a client that has nothing under way, and no command any more."""
        for number in sender.cursors:
            self.post(None, NO_TAG + bytes([frames.CLOSE_CURSOR]) + number, 0)

    async def idle(self) -> None:
        """Waits until all is answered, or the program has ended."""
        await self._is_idle.wait()

    def stop(self) -> None:
        """Reads and writes no more."""
        for number in (self._process.out, self._process.err):
            self._loop.remove_reader(number)
        self._loop.remove_writer(self._process.inp)

    def refuse_rest(self, status: int) -> None:
        """Tells each client that waits that the program ended so, with the exit status of a shell."""
        while self._waiting:
            it = self._waiting.popleft()
            it.give(bytes([errors.Unanswered.status]) + CAUSE.pack(status))

    # To the program

    def post(self, sender: Optional[Sender], body: bytes, share: int) -> None:
        """Passes a command on, for which the client is given this share until the reply comes.

        The program is asked for its counts where a client asks the hub itself, so that its reply comes in its turn.
        """
        if self.ended.done():
            return
        opcode, cursor = body[4] if len(body) > 4 else 0, b""
        if body[4:] == ASK_LIMITS and self._limits:
            body = body[:4] + STAT
        if opcode in (frames.NEXT_PAIRS, frames.CLOSE_CURSOR) and len(body) >= 5 + frames.CURSOR.size:
            cursor = body[5:5 + frames.CURSOR.size]
            if sender is not None and cursor not in sender.cursors:
                body = body[:5] + NO_CURSOR + body[5 + frames.CURSOR.size:]
        self._tag = self._tag + 1 & frames.NUMBER_MAX
        tag = expected = TAG.pack(self._tag)
        if len(body) < TAG.size:  # the program answers it with tag 0, as it has none
            tag, expected = body, NO_TAG
        if sender is not None:
            sender.under_way += share
        self._waiting.append(Waiting(sender, body[:4] if len(body) >= TAG.size else NO_TAG, expected, opcode, share, cursor))
        self._is_idle.clear()
        if not self._unsent:
            self._loop.add_writer(self._process.inp, self._write)
        self._unsent += SIZE.pack(len(body)) + tag + body[4:]

    def _write(self) -> None:
        try:
            del self._unsent[:os.write(self._process.inp, self._unsent[:CHUNK])]
        except BlockingIOError:
            return
        except OSError:  # it has ended, which its output tells
            self._unsent.clear()
        if not self._unsent:
            self._loop.remove_writer(self._process.inp)

    # From the program

    def _read(self) -> None:
        """Passes on the replies that are whole."""
        try:
            data = os.read(self._process.out, CHUNK)
        except OSError as error:
            self._end(f"its replies can't be read: {error.strerror}")
            return
        if not data:
            self._end("")
            return
        self._got += data
        at = 0
        while len(self._got) - at >= SIZE.size:
            start = at + SIZE.size
            stop = start + SIZE.unpack_from(self._got, at)[0]
            if stop > len(self._got):
                break
            if not self._pass_back(bytes(self._got[start:stop])):
                self._end("a reply is to no command; it is not castle, or of another build")
                return
            at = stop
        del self._got[:at]
        if not self._waiting:
            self._is_idle.set()

    def _pass_back(self, body: bytes) -> bool:
        """Gives a reply to the client whose command is the next to be answered. Whether it is the reply to that."""
        if not self._waiting or len(body) < 5 or body[:4] != self._waiting[0].expected:
            return False
        it = self._waiting.popleft()
        if it.sender is not None and body[4] == frames.OPENED:
            it.sender.cursors.add(body[5:])
        elif it.sender is not None and body[4] == frames.DONE and it.opcode == frames.CLOSE_CURSOR:
            it.sender.cursors.discard(it.cursor)
        asked_limits = it.opcode == frames.ASK_LIMITS and body[4] == frames.COUNTS
        it.give(self._limits if asked_limits else body[4:])
        return True

    def _read_errors(self) -> None:
        with contextlib.suppress(OSError):
            if self._process.read_errors():
                return
        self._loop.remove_reader(self._process.err)

    def _end(self, fault: str) -> None:
        self.stop()
        self._unsent.clear()
        self._is_idle.set()
        if not self.ended.done():
            self.ended.set_result(fault)
