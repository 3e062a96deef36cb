"""The form of a store's file, as far as it is read here: superblocks, the manifest, the journal, and the blocks of arrays.

docs/FORMATS.md has every field. What is read here says where entries are, and which versions were cloned from which and dropped,
and never what a version has: that the program tells.
"""

from __future__ import annotations

import os
import struct
from typing import Callable, Dict, Iterator, List, NamedTuple, Optional, Sequence, Set, Tuple

from .frames import VALUE_MAX

BLOCK = 4096
CHAINED = BLOCK - 4  # bytes of the manifest in a block of its chain
SLOT = struct.Struct(">9sHQIIBIII")
OPEN = b"\xa7STRATBT1"
FORMS = (1, 2)  # the formats that are read here, and written as they were read
OFTEN = 1024  # blocks between two times that it is told how many are done
NUMBER = struct.Struct(">I")
SIZE = struct.Struct(">H")
MANIFEST_HEADS = {1: struct.Struct(">IIQQI"), 2: struct.Struct(">IIQQQI")}  # format 2 has the entries compacted as well
LEVEL_HEAD = struct.Struct(">BII")
ARRAY_HEAD = struct.Struct(">QIIII")
EXTENT = struct.Struct(">II")
RECORD_MAX = 1288  # bytes of a record of the journal
RECORD_HEAD = struct.Struct(">BBI")  # its flag, its kind and its version
FLAG = 0xa7  # of a record that counts
PUT, DELETE, CLONE, DROP = 1, 2, 3, 4  # kinds of records

Place = Tuple[bytes, int]  # a key and a version of an entry
Entry = Tuple[bytes, int, Optional[bytes]]  # these with the value; None where the key has none


class Head(NamedTuple):
    """A superblock slot. `slot` is its number."""

    slot: int
    form: int
    generation: int
    first: int
    length: int
    region: int
    mem: int
    changes_max: int
    versions_max: int


class Array(NamedTuple):
    """An array of the manifest. An extent is a first block and how many there are."""

    id: int
    entries: int
    leads: int
    least: int
    extents: Tuple[Tuple[int, int], ...]
    versions: Tuple[int, ...]

    @property
    def blocks(self) -> List[int]:
        """Its blocks, in the order of their entries."""
        return [block for first, count in self.extents for block in range(first, first + count)]


class Level(NamedTuple):
    """A level of the manifest."""

    number: int
    horizon: int
    arrays: Tuple[Array, ...]


class Manifest(NamedTuple):
    """The manifest in a format, of which `head` has the numbers of changes, updates, entries written, in format 2 of those
    compacted, and of the next array."""

    form: int
    head: Tuple[int, ...]
    parents: Tuple[int, ...]
    """The parent of each version from 1 on."""
    marks: bytes
    """A byte for each version from 0 on, which is 1 if it was dropped. In format 2 alone."""
    levels: Tuple[Level, ...]


class Lineage(NamedTuple):
    """The versions of a store, those of its journal among them."""

    parents: Tuple[Optional[int], ...]
    """What each version was cloned from; None for version 0."""
    dropped: Dict[int, int]
    """The dropped ones in the order of their numbers, with the same."""


class Block(NamedTuple):
    """What a block of an array has."""

    first: Place
    """Key and version of its first entry."""
    last: Place
    versions: Tuple[int, ...]
    """The versions of its entries, in their order."""
    ends: Tuple[int, ...]
    """Those of the entries of its last key."""


# Reading

def read_head(file: int) -> Head:
    """The superblock that counts. A ValueError tells that there is none, or one of another format; the program has looked at it."""
    found = []
    for slot in (0, 1):
        text, form, generation, first, length, region, mem, changes, versions = SLOT.unpack(_bytes_at(file, slot * BLOCK, SLOT.size))
        if text == OPEN:
            found.append((generation, -slot, Head(slot, form, generation, first, length, region, mem, changes, versions)))
    if not found:
        raise ValueError("no superblock counts")
    _, _, head = max(found)
    if head.form not in FORMS:
        raise ValueError(f"it has format {head.form}")
    return head


def read_manifest(file: int, head: Head) -> Manifest:
    """The manifest that a superblock leads to. A ValueError tells that these are bytes of none."""
    pieces, block = [], head.first
    for _ in range(0, head.length, CHAINED):
        piece = _bytes_at(file, block * BLOCK, BLOCK)
        pieces.append(piece[4:])
        block = NUMBER.unpack_from(piece)[0]
    try:
        return _manifest_of(head.form, b"".join(pieces)[:head.length])
    except (struct.error, IndexError):
        raise ValueError("the manifest ends amid a field") from None


def _manifest_of(form: int, data: bytes) -> Manifest:
    *head, count = MANIFEST_HEADS[form].unpack_from(data)
    at = MANIFEST_HEADS[form].size
    parents = struct.unpack_from(f">{count - 1}I", data, at)
    at += 4 * len(parents)
    marks: bytes = struct.unpack_from(f"{count if form == 2 else 0}s", data, at)[0]
    levels: List[Level] = []
    at += len(marks) + 1
    for _ in range(data[at - 1]):
        number, horizon, arrays = LEVEL_HEAD.unpack_from(data, at)
        at += LEVEL_HEAD.size
        found = []
        for _ in range(arrays):
            array, at = _array_of(data, at)
            found.append(array)
        levels.append(Level(number, horizon, tuple(found)))
    if at != len(data):
        raise ValueError("bytes follow the manifest")
    return Manifest(form, tuple(head), parents, marks, tuple(levels))


def _array_of(data: bytes, at: int) -> Tuple[Array, int]:
    """The array that begins there, and where it ends."""
    number, entries, leads, least, count = ARRAY_HEAD.unpack_from(data, at)
    at += ARRAY_HEAD.size
    extents = tuple((first, length) for first, length in EXTENT.iter_unpack(data[at:at + EXTENT.size * count]))
    at += EXTENT.size * count
    tags = NUMBER.unpack_from(data, at)[0]
    versions = struct.unpack_from(f">{tags}I", data, at + 4)
    return Array(number, entries, leads, least, extents, versions), at + 4 + 4 * tags


def read_journal(file: int, head: Head) -> Iterator[Tuple[int, int]]:
    """The kind and the version of each change in the journal. A ValueError tells that a record is none."""
    count = 0
    for change in _region(file, head, head.region):
        yield change
        count += 1
    if count == head.mem:
        yield from _region(file, head, 1 - head.region)


def _region(file: int, head: Head, region: int) -> Iterator[Tuple[int, int]]:
    """Those of one of its regions."""
    size = -(-(RECORD_MAX * head.mem + 1) // BLOCK) * BLOCK
    data, at = _bytes_at(file, 2 * BLOCK + region * size, size), 0
    for _ in range(head.mem):
        if at >= size or data[at] != FLAG:
            return
        try:
            _, kind, version = RECORD_HEAD.unpack_from(data, at)
            at = _record_end(data, at + RECORD_HEAD.size, kind)
        except (struct.error, IndexError):
            raise ValueError("a record of the journal ends behind its region") from None
        yield kind, version


def _record_end(data: bytes, at: int, kind: int) -> int:
    """Where a record ends whose version ends there."""
    if kind in (CLONE, DROP):
        return at
    if kind not in (PUT, DELETE):
        raise ValueError(f"the journal has a record of kind {kind}")
    at += 1 + data[at]
    return at if kind == DELETE else at + SIZE.size + int(SIZE.unpack_from(data, at)[0])


def lineage_of(file: int, head: Head, manifest: Manifest) -> Lineage:
    """The versions of a store with this superblock and manifest. A ValueError tells that its journal can't be read."""
    parents: List[Optional[int]] = [None, *manifest.parents]
    dropped = {version for version, mark in enumerate(manifest.marks) if mark}
    for kind, version in read_journal(file, head):
        if kind == CLONE:
            parents.append(version)
        elif kind == DROP:
            dropped.add(version)
    if not dropped <= set(range(1, len(parents))):
        raise ValueError("a version was dropped that is not there")
    return Lineage(tuple(parents), {version: parents[version] or 0 for version in sorted(dropped)})


def read_lineage(file: int) -> Lineage:
    """The versions of a store. A ValueError tells that its file can't be read here."""
    head = read_head(file)
    return lineage_of(file, head, read_manifest(file, head))


def _bytes_at(file: int, place: int, size: int) -> bytes:
    """Bytes of a file; those behind its end are 0."""
    return os.pread(file, size, place).ljust(size, b"\0")


def read_entries(file: int, number: int) -> Optional[List[Entry]]:
    """The entries of a block of an array; None where no entries have these bytes."""
    data = _bytes_at(file, number * BLOCK, BLOCK)
    count = SIZE.unpack_from(data)[0]
    entries: List[Entry] = []
    at = 2 + 2 * count
    if not count or at > BLOCK:
        return None
    for begin in struct.unpack_from(f">{count}H", data, 2):
        if begin != at or at >= BLOCK:
            return None
        key_end = at + 1 + data[at]
        end = _entry_end(data, key_end + 4) if data[at] else None
        if end is None:
            return None
        value = data[key_end + 7:end] if data[key_end + 4] else None
        entries.append((data[at + 1:key_end], NUMBER.unpack_from(data, key_end)[0], value))
        at = end
    orders = [(key, -version) for key, version, _ in entries]
    if data[at:].strip(b"\0") or any(one >= other for one, other in zip(orders, orders[1:])):
        return None
    return entries


def _entry_end(data: bytes, at: int) -> Optional[int]:
    """Where an entry ends whose mark of a value stands there; None where it can't be one."""
    if at >= BLOCK or data[at] > 1:
        return None
    if not data[at]:
        return at + 1
    if at + 3 > BLOCK:
        return None
    size: int = SIZE.unpack_from(data, at + 1)[0]
    return at + 3 + size if size <= VALUE_MAX and at + 3 + size <= BLOCK else None


def block_of(entries: Sequence[Entry]) -> Block:
    """What a block has of these entries."""
    first, last = entries[0], entries[-1]
    return Block(first[:2], last[:2], tuple(version for _, version, _ in entries),
                 tuple(version for key, version, _ in entries if key == last[0]))


# Writing

def without(extents: Sequence[Tuple[int, int]], gone: Set[int]) -> Tuple[Tuple[int, int], ...]:
    """The extents of the same blocks but for these."""
    left: List[List[int]] = []
    for first, count in extents:
        for block in range(first, first + count):
            if block in gone:
                continue
            if left and sum(left[-1]) == block:
                left[-1][1] += 1
            else:
                left.append([block, 1])
    return tuple((first, count) for first, count in left)


def reduced(manifest: Manifest, gone: Set[int], keeps: Callable[[int], bool]) -> Manifest:
    """The manifest without some blocks of its arrays, and with those levels alone whose numbers are kept."""
    levels = []
    for level in manifest.levels:
        arrays = [array._replace(extents=without(array.extents, gone)) for array in level.arrays]
        left = tuple(array for array in arrays if array.extents)
        if left and keeps(level.number):
            levels.append(level._replace(arrays=left))
    return manifest._replace(levels=tuple(levels))


def manifest_bytes(manifest: Manifest) -> bytes:
    """The bytes of a manifest."""
    return b"".join(_pieces(manifest))


def _pieces(manifest: Manifest) -> Iterator[bytes]:
    count = len(manifest.parents)
    yield MANIFEST_HEADS[manifest.form].pack(*manifest.head, count + 1)
    yield struct.pack(f">{count}I", *manifest.parents)
    yield manifest.marks
    yield bytes([len(manifest.levels)])
    for level in manifest.levels:
        yield LEVEL_HEAD.pack(level.number, level.horizon, len(level.arrays))
        for array in level.arrays:
            yield ARRAY_HEAD.pack(array.id, array.entries, array.leads, array.least, len(array.extents))
            yield from (EXTENT.pack(*extent) for extent in array.extents)
            yield NUMBER.pack(len(array.versions)) + struct.pack(f">{len(array.versions)}I", *array.versions)


def write_reduced(source: int, target: int, head: Head, manifest: Manifest, tell: Callable[[int, int], None]) -> None:
    """Writes a store's file with another manifest, of which all blocks are the old file's: the superblock, the journal and these.

    All else is a hole. The manifest lies behind them. It is told now and then how many blocks of how many are written.
    """
    journal = range(2, 2 + 2 * -(-(RECORD_MAX * head.mem + 1) // BLOCK))
    blocks = [*journal, *(block for level in manifest.levels for array in level.arrays for block in array.blocks)]
    for number, block in enumerate(blocks):
        if number % OFTEN == 0:
            tell(number, len(blocks))
        _write(target, os.pread(source, BLOCK, block * BLOCK), block * BLOCK)
    data = manifest_bytes(manifest)
    start, count = -(-max(os.fstat(target).st_size, os.fstat(source).st_size) // BLOCK), -(-len(data) // CHAINED)
    for number in range(count):
        link = start + number + 1 if number + 1 < count else 0
        piece = NUMBER.pack(link) + data[number * CHAINED:(number + 1) * CHAINED]
        _write(target, piece.ljust(BLOCK, b"\0"), (start + number) * BLOCK)
    slot = SLOT.pack(OPEN, head.form, head.generation, start, len(data), head.region, head.mem, head.changes_max, head.versions_max)
    _write(target, slot, head.slot * BLOCK)


def _write(file: int, data: bytes, place: int) -> None:
    while data:
        done = os.pwrite(file, data, place)
        data, place = data[done:], place + done
