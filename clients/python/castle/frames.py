"""The bytes of commands and replies, as docs/PROTOCOL.md has them."""

from __future__ import annotations

import struct
from typing import List, NamedTuple, Optional, Sequence, Tuple, Union

from . import text

PUT, DELETE, GET, CLONE, SCAN, INFO, OPEN_CURSOR, NEXT_PAIRS, CLOSE_CURSOR, STAT, DROP = 1, 2, 3, 4, 5, 6, 7, 8, 9, 10, 11
DONE, FOUND, ABSENT, PAIRS, MADE, PLACE, OPENED, COUNTS = 0, 1, 2, 3, 4, 5, 6, 7
ASK_LIMITS, LIMITS = 64, 8  # a hub's own command, and its reply
DAMAGED = 34
LEAST_REFUSAL = 16

BODY_MAX = 2048
KEY_MAX = 255
VALUE_MAX = 1024
PAGE_MAX = 256  # pairs in one reply
SHOWN_MAX = 60  # bytes of a key that a message has whole
NUMBER_MAX = 2 ** 32 - 1
NO_PARENT = NUMBER_MAX

Pair = Tuple[bytes, bytes]

# length of the body, tag, opcode or status
HEAD = struct.Struct(">IIB")
VERSION_HEAD = struct.Struct(">IIBI")
KEY_HEAD = struct.Struct(">IIBIH")
SIZE = struct.Struct(">H")
NUMBER = struct.Struct(">I")
CURSOR = struct.Struct(">Q")
CURSOR_HEAD = struct.Struct(">IIBQ")
PLACE_FIELDS = struct.Struct(">IIB")
COUNT_FIELDS = struct.Struct(">IIII")
LIMIT_FIELDS = struct.Struct(">III")
PAGE_FIELDS = struct.Struct(">BH")
SIZES = [SIZE.pack(size) for size in range(BODY_MAX)]
DONE_SIZE = 9  # bytes of a reply that has nothing but its status


class Info(NamedTuple):
    """A version's place in the tree."""

    parent: Optional[int]
    """The version that it was cloned from; None for version 0."""
    depth: int
    """How many ancestors it has."""
    frozen: bool
    """Whether it has a child that was not dropped, and so takes no puts and deletes, and no drop."""


class Stat(NamedTuple):
    """What a store has in all."""

    versions: int
    """How many were made, version 0 and those that were dropped among them."""
    updates: int
    """Puts and deletes that were made."""
    changes: int
    """Updates, clones and drops that were made; at most as many as the store was made for."""
    cursors: int


class Limits(NamedTuple):
    """What a store was made for."""

    mem: int
    """M."""
    changes: int
    """C."""
    versions: int
    """V."""


class Page(NamedTuple):
    """The first pairs of a range, or the next ones of a cursor, in the order of their keys."""

    pairs: List[Pair]
    more: bool
    """Whether other pairs of the range follow."""


Answer = Union[None, bytes, int, Info, Stat, Limits, Page]


# Commands. Each is a whole frame.

def put(tag: int, version: int, key: bytes, value: bytes) -> bytes:
    """The value of a key becomes this one."""
    sizes = len(key) + len(value)
    return KEY_HEAD.pack(13 + sizes, tag, PUT, version, len(key)) + key + SIZE.pack(len(value)) + value


def puts(tag: int, version: int, pairs: Sequence[Pair]) -> List[bytes]:
    """The same for many pairs, with tags that follow one another. Values have less than `BODY_MAX` bytes."""
    head, join = KEY_HEAD.pack, b"".join
    return [join((head(13 + len(key) + len(value), number & NUMBER_MAX, PUT, version, len(key)), key, SIZES[len(value)], value))
            for number, (key, value) in enumerate(pairs, tag)]


def delete(tag: int, version: int, key: bytes) -> bytes:
    """A key has no value any more."""
    return KEY_HEAD.pack(11 + len(key), tag, DELETE, version, len(key)) + key


def get(tag: int, version: int, key: bytes) -> bytes:
    """Asks for the value of a key."""
    return KEY_HEAD.pack(11 + len(key), tag, GET, version, len(key)) + key


def clone(tag: int, version: int) -> bytes:
    """Makes a version with the same pairs."""
    return VERSION_HEAD.pack(9, tag, CLONE, version)


def drop(tag: int, version: int) -> bytes:
    """Takes a version away for good."""
    return VERSION_HEAD.pack(9, tag, DROP, version)


def scan(tag: int, version: int, lower: bytes, upper: bytes, limit: int) -> bytes:
    """Asks for the first pairs from the lower bound on and before the upper one; an empty upper bound is none."""
    bounds = SIZE.pack(len(lower)) + lower + SIZE.pack(len(upper)) + upper
    return VERSION_HEAD.pack(11 + len(bounds), tag, SCAN, version) + bounds + SIZE.pack(limit)


def info(tag: int, version: int) -> bytes:
    """Asks for a version's place in the tree."""
    return VERSION_HEAD.pack(9, tag, INFO, version)


def open_cursor(tag: int, version: int, lower: bytes, upper: bytes) -> bytes:
    """Opens a cursor over the pairs from the lower bound on and before the upper one, as they are now."""
    bounds = SIZE.pack(len(lower)) + lower + SIZE.pack(len(upper)) + upper
    return VERSION_HEAD.pack(9 + len(bounds), tag, OPEN_CURSOR, version) + bounds


def next_pairs(tag: int, cursor: int, limit: int) -> bytes:
    """Asks for the next pairs of a cursor."""
    return CURSOR_HEAD.pack(15, tag, NEXT_PAIRS, cursor) + SIZE.pack(limit)


def close_cursor(tag: int, cursor: int) -> bytes:
    """Closes a cursor."""
    return CURSOR_HEAD.pack(13, tag, CLOSE_CURSOR, cursor)


def stat(tag: int) -> bytes:
    """Asks for what the store has."""
    return HEAD.pack(5, tag, STAT)


def limits(tag: int) -> bytes:
    """Asks a hub for what the store was made for."""
    return HEAD.pack(5, tag, ASK_LIMITS)


NAMES = {PUT: "put", DELETE: "delete", GET: "get", CLONE: "clone version", SCAN: "page of version", INFO: "info version",
         OPEN_CURSOR: "scan of version", NEXT_PAIRS: "next pairs of cursor", CLOSE_CURSOR: "close cursor", STAT: "stat", DROP: "drop version",
         ASK_LIMITS: "limits"}


def describe(frame: bytes) -> str:
    """A command in words, as `put user/1 at version 0`. A long key is cut short."""
    opcode = frame[8] if len(frame) > 8 else 0
    name, number = NAMES.get(opcode), CURSOR if opcode in (NEXT_PAIRS, CLOSE_CURSOR) else NUMBER
    if name is None or (opcode not in (STAT, ASK_LIMITS) and len(frame) < HEAD.size + number.size):
        return "a frame that is no command"
    if opcode in (STAT, ASK_LIMITS):
        return name
    version = number.unpack_from(frame, HEAD.size)[0]  # or the number of a cursor
    if opcode not in (PUT, DELETE, GET):
        return f"{name} {version}"
    size = SIZE.unpack_from(frame, VERSION_HEAD.size)[0]
    key = frame[KEY_HEAD.size:KEY_HEAD.size + size]
    shown = text.shown(key) if size <= SHOWN_MAX else f"{text.shown(key[:SHOWN_MAX // 2])}.. ({size:,} bytes)"
    return f"{name} {shown} at version {version}"


def version_of(frame: bytes) -> Optional[int]:
    """The version that a command is of; None where it is of none."""
    if len(frame) < VERSION_HEAD.size or frame[8] in (NEXT_PAIRS, CLOSE_CURSOR):
        return None
    version: int = NUMBER.unpack_from(frame, HEAD.size)[0]
    return version


# Replies

def answer(status: int, fields: bytes) -> Answer:
    """What a reply that is no refusal says."""
    if status == FOUND:
        return fields[2:]
    if status in (DONE, ABSENT):
        return None
    if status in (MADE, OPENED):
        made: int = (NUMBER if status == MADE else CURSOR).unpack(fields)[0]
        return made
    if status == PLACE:
        parent, depth, frozen = PLACE_FIELDS.unpack(fields)
        return Info(None if parent == NO_PARENT else parent, depth, bool(frozen))
    if status == COUNTS:
        return Stat(*COUNT_FIELDS.unpack(fields))
    if status == LIMITS:
        return Limits(*LIMIT_FIELDS.unpack(fields))
    if status == PAIRS:
        return page(fields)
    raise ValueError(f"a reply of status {status}")


def dones(tag: int, count: int) -> bytes:
    """The replies that so many commands are done, with tags that follow one another and none above `NUMBER_MAX`."""
    replies = bytearray(HEAD.pack(5, 0, DONE)) * count
    tags = struct.pack(f">{count}I", *range(tag, tag + count))
    for place in range(NUMBER.size):
        replies[NUMBER.size + place::DONE_SIZE] = tags[place::NUMBER.size]
    return bytes(replies)


def page_counts(fields: bytes) -> Tuple[bool, int]:
    """Whether other pairs follow those of a reply, and how many it has."""
    more, count = PAGE_FIELDS.unpack_from(fields)
    return bool(more), count


def page(fields: bytes) -> Page:
    """The pairs of a reply."""
    more, count = PAGE_FIELDS.unpack_from(fields)
    at, pairs = PAGE_FIELDS.size, []
    for _ in range(count):
        key_end = at + 2 + SIZE.unpack_from(fields, at)[0]
        value_end = key_end + 2 + SIZE.unpack_from(fields, key_end)[0]
        pairs.append((fields[at + 2:key_end], fields[key_end + 2:value_end]))
        at = value_end
    return Page(pairs, bool(more))


# Bounds of ranges

def prefix_end(prefix: bytes) -> Optional[bytes]:
    """The least key behind all that begin so; None where there is none."""
    head = prefix.rstrip(b"\xff")
    return head[:-1] + bytes([head[-1] + 1]) if head else None
