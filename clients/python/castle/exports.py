"""Pairs of a version as frames of puts, and back: those that `serve` takes, with tags from 1 on, at version 0."""

from __future__ import annotations

from itertools import islice
from typing import BinaryIO, Iterable, Iterator, List, NoReturn, Optional

from . import dump, frames
from .errors import DumpFault
from .frames import Pair
from .storecopy import Progress, silent
from .terminal import Interrupts

WINDOW = 256  # pairs that are encoded at once
PIECE = 1 << 16  # bytes that are read at once


def frames_of(pairs: Iterable[Pair], progress: Progress = silent) -> Iterator[bytes]:
    """The frames, some at a time."""
    done, left = 0, iter(pairs)
    for window in iter(lambda: list(islice(left, WINDOW)), []):
        yield b"".join(frames.puts(done + 1, 0, window))
        done += len(window)
        progress("pairs written", done, None)


def pieces_of(file: BinaryIO) -> Iterator[bytes]:
    """What a file has, from where it is read now."""
    return iter(lambda: file.read(PIECE), b"")


def count(file: BinaryIO, name: str, interrupts: Interrupts) -> int:
    """How many pairs a file has, all of which are looked at. Then it is read from there again."""
    start = file.tell()
    found = sum(1 for _ in pairs_of(interrupts.lines(pieces_of(file)), name))
    file.seek(start)
    return found


def pairs_of(pieces: Iterable[bytes], name: str, remaps: bool = False) -> Iterator[Pair]:
    """The pairs of frames, in order. A `DumpFault` tells of the first frame that is not one of an export, or is cut off.

    With `remaps` tags are any, and versions too, as long as all are the same.
    """
    data, number, last, version = b"", 0, b"", None if remaps else 0
    for piece in pieces:
        data += piece
        found: List[Pair] = []
        at = 0
        while len(data) - at >= 4:
            end = at + 4 + int.from_bytes(data[at:at + 4], "big")
            if end - at > 4 + frames.BODY_MAX:
                yield from found
                _refuse(number + 1, "is too long", name)
            if end > len(data):
                break
            number += 1
            try:
                version = _checked_head(data[at:end], number, version, remaps, name)
                found.append(_pair_of(data[at:end], number, last, name))
            except DumpFault:
                yield from found
                raise
            last, at = found[-1][0], end
        data = data[at:]
        yield from found
    if data:
        _refuse(number + 1, "is cut off", name, "Export again: the file has not all of it.")


def _checked_head(frame: bytes, number: int, wanted: Optional[int], remaps: bool, name: str) -> int:
    """The version of a frame of a put, which has that of the frames before it, and the tag of its number."""
    head = frames.KEY_HEAD.size
    if len(frame) < head + 2 or frame[8] != frames.PUT:
        _refuse(number, "is no put", name)
    _, tag, _, version, size = frames.KEY_HEAD.unpack_from(frame)
    rest = frame[head + size:]
    if len(rest) < 2 or len(rest) != 2 + frames.SIZE.unpack_from(rest)[0]:
        _refuse(number, "is no put", name)
    if not remaps and (version or tag != number & frames.NUMBER_MAX):
        _refuse(number, f"has tag {tag} and version {version}, and not tag {number} and version 0", name)
    if wanted is not None and version != wanted:
        _refuse(number, f"is of version {version}, and the frames before it are of version {wanted}", name, "Import one version at a time.")
    made: int = version
    return made


def _pair_of(frame: bytes, number: int, last: bytes, name: str) -> Pair:
    """The pair of a frame of a put, whose key lies behind the last one."""
    head = frames.KEY_HEAD.size
    size = frames.SIZE.unpack_from(frame, frames.VERSION_HEAD.size)[0]
    key, rest = frame[head:head + size], frame[head + size:]
    if key <= last:
        _refuse(number, "has a key that is not behind that of the frame before", name)
    return dump.checked(key, rest[2:], number, name, "frame")


def _refuse(number: int, what: str, name: str, remedy: str = "It is no whole export: `dump --frames` writes one.") -> NoReturn:
    raise DumpFault(f"frame {number} {what}", remedy, file=name)
