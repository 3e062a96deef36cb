"""A client of a hub, as the hub sees it: one connection."""

from __future__ import annotations

import asyncio
import contextlib
from typing import Optional, Set

from . import errors, frames
from .hubexchange import NO_TAG, SIZE, Exchange

BUDGET = 1 << 19  # bytes that the replies to a client's commands under way may have in all
SHARE = BUDGET // 64  # bytes of it that a command takes at least, so that so many are under way at most
UNREAD = 1 << 18  # bytes of replies that a client has not read, from which on no more of its commands are taken
FIELDS = 12  # bytes of a reply to a scan that are no pairs'
PAIR_MAX = 4 + frames.KEY_MAX + frames.VALUE_MAX


def share_of(body: bytes) -> int:
    """What a command takes of the budget: as many bytes as its reply may have, or a share if that is more."""
    opcode = body[4] if len(body) > 4 else 0
    if opcode in (frames.SCAN, frames.NEXT_PAIRS) and len(body) >= 7:
        return max(SHARE, FIELDS + min(frames.SIZE.unpack(body[-2:])[0], frames.PAGE_MAX) * PAIR_MAX)
    return SHARE


class Client:
    """One connection. What it sends is read as far as its budget goes, and no other client waits for it.

    In memory are at most 128 KiB that asyncio has read ahead, as much that the program has not taken, its budget of replies,
    and those that it has not read.
    """

    def __init__(self, exchange: Exchange, reader: asyncio.StreamReader, writer: asyncio.StreamWriter) -> None:
        self.cursors: Set[bytes] = set()
        self.under_way = 0  # bytes of the budget
        self._exchange = exchange
        self._reader = reader
        self._writer = writer
        self._has_eased = asyncio.Event()
        self._taking: Optional["asyncio.Task[bool]"] = None
        writer.transport.set_write_buffer_limits(high=UNREAD)

    async def serve(self) -> None:
        """Takes its commands until it ends them, has the rest answered, and closes the connection when all is read."""
        self._taking = asyncio.ensure_future(self._take_frames())
        try:
            await asyncio.wait({self._taking})
            while self.under_way:  # also where it is gone: a client that comes again and again has no more under way than another
                await self._ease()
            if not self._taking.cancelled() and self._taking.result():
                self.take(NO_TAG + bytes([errors.FrameTooLong.status]))
        finally:
            self._exchange.leave(self)
            self._writer.close()
        with contextlib.suppress(OSError):
            await self._writer.wait_closed()

    def stop(self) -> None:
        """Takes no more commands. What it sent is answered still."""
        if self._taking is not None:
            self._taking.cancel()

    def drop(self) -> None:
        """Closes the connection, whatever is unread."""
        self._writer.transport.abort()

    def take(self, body: bytes) -> None:
        """A reply for it."""
        self._has_eased.set()
        if not self._writer.transport.is_closing():
            self._writer.write(SIZE.pack(len(body)) + body)

    async def _take_frames(self) -> bool:
        """Passes its frames on, up to the end of its input. Whether that is a frame which is too long.

        A frame that is cut off is dropped.
        """
        with contextlib.suppress(asyncio.IncompleteReadError, OSError):
            while True:
                size = SIZE.unpack(await self._reader.readexactly(SIZE.size))[0]
                if size > frames.BODY_MAX:
                    return True
                body = await self._reader.readexactly(size)
                share = share_of(body)
                await self._writer.drain()  # where it does not read its replies
                while self.under_way and self.under_way + share > BUDGET:
                    await self._ease()
                self._exchange.post(self, body, share)
        return False

    async def _ease(self) -> None:
        """Waits until a reply has come."""
        self._has_eased.clear()
        await self._has_eased.wait()
