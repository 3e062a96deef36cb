"""The bytes of changes that a leader writes, and of receipts that a follower writes, as docs/PROTOCOL.md has them."""

from __future__ import annotations

import struct
from typing import List, NamedTuple, Optional, Tuple

from . import frames, text
from .errors import REFUSALS, WrongProtocol

PUT, DELETE, CLONE, DROP = 1, 2, 3, 4
KINDS = {PUT: "put", DELETE: "delete", CLONE: "clone", DROP: "drop"}
TAKEN, OLD, GAP, MALFORMED, REFUSED = 0, 1, 2, 3, 4
STATUSES = "taken", "old", "gap", "malformed", "refused"

PROBE = frames.NUMBER.pack(0)
"""A frame that is no change. A follower answers it by the number that it waits for, and changes nothing."""
HEAD = struct.Struct(">IIBI")  # length of the body, number, kind, version
RECEIPT = struct.Struct(">IIBIB")  # length of the body, number, status, next number, refusal


class Change(NamedTuple):
    """A change, and how many changes its store accepted before it."""

    number: int
    kind: int
    """`PUT`, `DELETE`, `CLONE` or `DROP`."""
    version: int
    key: bytes = b""
    value: Optional[bytes] = None

    def __str__(self) -> str:
        shown = "".join(f" {text.shown(data)}" for data in (self.key, self.value) if data)
        return f"{self.number} {KINDS[self.kind]}{shown} @{self.version}"


class Receipt(NamedTuple):
    """What a follower answers to a change."""

    number: int
    """That of the change, or 0 if there is none."""
    status: int
    """`TAKEN`, `OLD`, `GAP`, `MALFORMED` or `REFUSED`."""
    next: int
    """The number that the follower waits for: as many changes as its store has."""
    refusal: int
    """The status of a refusal, as a reply has it; 0 where nothing was refused."""

    def __str__(self) -> str:
        why = f" as {REFUSALS[self.refusal].__name__}" if self.refusal in REFUSALS else ""
        return f"{self.number} {STATUSES[self.status]}{why}, next {self.next}"


def put(number: int, version: int, key: bytes, value: bytes) -> bytes:
    """The frame of a put."""
    body = struct.pack(">IBIB", number, PUT, version, len(key)) + key + frames.SIZE.pack(len(value)) + value
    return frames.NUMBER.pack(len(body)) + body


def delete(number: int, version: int, key: bytes) -> bytes:
    """The frame of a delete."""
    body = struct.pack(">IBIB", number, DELETE, version, len(key)) + key
    return frames.NUMBER.pack(len(body)) + body


def clone(number: int, version: int) -> bytes:
    """The frame of a clone."""
    return HEAD.pack(9, number, CLONE, version)


def drop(number: int, version: int) -> bytes:
    """The frame of a drop."""
    return HEAD.pack(9, number, DROP, version)


def of_command(number: int, frame: bytes) -> bytes:
    """The frame that a leader writes for the frame of a command, if it accepts that as the change of this number."""
    opcode, version = frame[8], frames.NUMBER.unpack_from(frame, frames.HEAD.size)[0]
    if opcode in (frames.CLONE, frames.DROP):
        return clone(number, version) if opcode == frames.CLONE else drop(number, version)
    head = frames.KEY_HEAD.size
    size = frames.SIZE.unpack_from(frame, frames.VERSION_HEAD.size)[0]
    key, rest = frame[head:head + size], frame[head + size + 2:]
    return put(number, version, key, rest) if opcode == frames.PUT else delete(number, version, key)


def number_of(frame: bytes) -> int:
    """The number of a change."""
    number: int = frames.NUMBER.unpack_from(frame, 4)[0]
    return number


def change_of(frame: bytes) -> Change:
    """The change of a frame. A `WrongProtocol` tells that there is none."""
    try:
        length, number, kind, version = HEAD.unpack_from(frame)
        change = Change(number, kind, version) if kind in (CLONE, DROP) else _update_of(frame, number, kind, version)
    except (struct.error, IndexError):
        raise _none_of(frame) from None
    if length + 4 != len(frame) or _frame_of(change) != frame:
        raise _none_of(frame)
    return change


def _update_of(frame: bytes, number: int, kind: int, version: int) -> Change:
    if kind not in KINDS:
        raise _none_of(frame)
    end = HEAD.size + 1 + frame[HEAD.size]
    return Change(number, kind, version, frame[HEAD.size + 1:end], frame[end + 2:] if kind == PUT else None)


def _frame_of(change: Change) -> bytes:
    if change.kind in (CLONE, DROP):
        return HEAD.pack(9, change.number, change.kind, change.version)
    if not 1 <= len(change.key) <= frames.KEY_MAX or len(change.value or b"") > frames.VALUE_MAX:
        return b""
    if change.kind == DELETE:
        return delete(change.number, change.version, change.key)
    return put(change.number, change.version, change.key, change.value or b"")


def _none_of(frame: bytes) -> WrongProtocol:
    return WrongProtocol(f"a frame of {len(frame)} bytes is no change", "A leader wrote no such frame: look where it comes from.")


def receipt_of(frame: bytes) -> Receipt:
    """The receipt of a frame. A `WrongProtocol` tells that there is none."""
    if len(frame) == RECEIPT.size:
        length, *fields = RECEIPT.unpack(frame)
        if length == RECEIPT.size - 4 and fields[1] < len(STATUSES):
            return Receipt(*fields)
    raise WrongProtocol(f"a frame of {len(frame)} bytes is no receipt", "The follower is another program, or of another build.")


def split(data: bytes) -> Tuple[List[bytes], bytes]:
    """The whole frames that bytes begin with, and the rest. A `WrongProtocol` tells of a frame that is too long to be one."""
    found: List[bytes] = []
    at = 0
    while len(data) - at >= 4:
        end = at + 4 + int.from_bytes(data[at:at + 4], "big")
        if end - at > 4 + frames.BODY_MAX:
            raise WrongProtocol(f"a frame has more than {frames.BODY_MAX:,} bytes", "These are no frames of a leader or a follower.")
        if end > len(data):
            break
        found.append(data[at:end])
        at = end
    return found, data[at:]
