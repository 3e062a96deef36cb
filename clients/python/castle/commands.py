"""Spells commands for one run of the program: versions by number or name, keys and values as bytes or text."""

from __future__ import annotations

import struct
from itertools import chain
from typing import List, Sequence, Set, Tuple, Union, cast

from . import errors, frames
from .edits import Edits
from .frames import Pair
from .names import Names
from .program import Program, Whole

Data = Union[bytes, str]
Version = Union[int, str]


def data_of(data: Data) -> bytes:
    """The bytes of a key or a value; text is UTF-8. A `TextFault` tells of text that is none, a TypeError of other kinds."""
    try:
        return data.encode() if isinstance(data, str) else bytes(memoryview(data))
    except UnicodeEncodeError:
        raise errors.TextFault("text with half a surrogate pair has no UTF-8", "Give bytes.") from None
    except TypeError:
        raise TypeError(f"a key or a value is bytes or text, and no {type(data).__name__}") from None


class Commands:
    """Each method gives the frame of a command, with the tag that comes next; it has to be the next one added.

    The program refuses what it doesn't take. What would not fit a frame is refused here, by the same exception, and so are
    changes where the store is open for reading alone, by `ReadOnly`.
    """

    def __init__(self, program: Program, names: Names, read_only: bool, edits: Edits) -> None:
        self._program = program
        self.edits = edits
        self._names = names
        self._read_only = read_only
        self.changes = 0
        """How many changes were asked for so far, whether they are made or not."""
        self._drops: Set[int] = set()  # versions that were asked to be dropped, and whose names may stand still

    def number(self, version: Version) -> int:
        """The number of a version, which may be given by its name."""
        if isinstance(version, str):
            return self._names.version(version)
        if not isinstance(version, int) or isinstance(version, bool):
            raise TypeError(f"a version is a number or a name, and not {version!r}")
        if not 0 <= version <= frames.NUMBER_MAX:
            raise errors.UnknownVersion(file=self._program.file, command=f"version {version}")
        return version

    def _change(self, command: str) -> None:
        if self._read_only:
            raise errors.ReadOnly(file=self._program.file, command=command)
        self.changes += 1

    def _key(self, command: str, key: Data) -> bytes:
        data = data_of(key)
        if len(data) > frames.BODY_MAX - 13:
            raise errors.KeySize(file=self._program.file, command=f"{command} of a key of {len(data)} bytes")
        return data

    def put(self, version: Version, key: Data, value: Data) -> bytes:
        """The frame of a put. This one is quick where the version is a number, and key and value are bytes."""
        if type(version) is int and type(key) is bytes and type(value) is bytes and not self._read_only \
                and 0 <= version <= frames.NUMBER_MAX and len(key) + len(value) <= frames.BODY_MAX - 13:
            self.changes += 1
            if version >= self.edits.first:
                self.edits.note(version, (key,))
            return frames.put(self._program.tag, version, key, value)
        self._change("put")
        number, name, data = self.number(version), self._key("put", key), data_of(value)
        if len(name) + len(data) > frames.BODY_MAX - 13:
            kind = errors.KeySize if len(name) > frames.KEY_MAX else errors.ValueSize
            raise kind(file=self._program.file, command=f"put of {len(name)} and {len(data)} bytes")
        self.edits.note(number, (name,))
        return frames.put(self._program.tag, number, name, data)

    def puts(self, version: Version, pairs: Sequence[Tuple[Data, Data]]) -> List[bytes]:
        """The frames of puts. There are none where the version is no number, or a pair is not of bytes or fits no frame."""
        if type(version) is not int or not 0 <= version <= frames.NUMBER_MAX or self._read_only:
            return []
        if set(map(type, pairs)) - {tuple, list} or set(map(type, chain.from_iterable(pairs))) - {bytes}:
            return []
        try:
            made = frames.puts(self._program.tag, version, cast(Sequence[Pair], pairs))
        except (ValueError, IndexError, struct.error):  # two that are three, or too long
            return []
        if max(map(len, made), default=0) > 4 + frames.BODY_MAX:
            return []
        self.changes += len(made)
        self.edits.note(version, (pair[0] for pair in cast(Sequence[Pair], pairs)))
        return made

    def delete(self, version: Version, key: Data) -> bytes:
        """The frame of a delete."""
        self._change("delete")
        number, name = self.number(version), self._key("delete", key)
        self.edits.note(number, (name,))
        return frames.delete(self._program.tag, number, name)

    def get(self, version: Version, key: Data) -> bytes:
        """The frame of a get. This one is quick where the version is a number and the key bytes."""
        number = version if type(version) is int and 0 <= version <= frames.NUMBER_MAX else self.number(version)
        name = key if type(key) is bytes and len(key) <= frames.KEY_MAX else self._key("get", key)
        return frames.get(self._program.tag, number, name)

    def clone(self, version: Version) -> bytes:
        """The frame of a clone. Names of versions that the store didn't have leave their file before."""
        self._change("clone")
        number = self.number(version)
        self._names.forget_strays()
        return frames.clone(self._program.tag, number)

    def drop(self, version: Version) -> bytes:
        """The frame of a drop. Behind its answer `let_go` takes the version's names away."""
        self._change("drop")
        number = self.number(version)
        self.edits.forget(number)
        self._drops.add(number)
        return frames.drop(self._program.tag, number)

    def let_go(self) -> List[str]:
        """Takes the names away of versions that were asked to be dropped, and were, and gives those names.

        Where an exception cuts it off, the next call takes them.
        """
        with self._program.lock:
            names = self._names.let_go(self._drops) if self._drops else []
            self._drops = set()
            return names

    def _bounds(self, lower: Data, upper: Data, prefix: Data) -> Tuple[bytes, bytes]:
        """The bounds of the range between two bounds whose keys begin with a prefix."""
        low, high, head = data_of(lower), data_of(upper), data_of(prefix)
        end = frames.prefix_end(head) or b""
        return max(low, head), min(high, end) if high and end else high or end

    def _check_bounds(self, command: str, lower: bytes, upper: bytes) -> None:
        if len(lower) + len(upper) > frames.BODY_MAX - 15:
            raise errors.KeySize(file=self._program.file, command=command)

    def page(self, version: Version, lower: Data, upper: Data, prefix: Data, limit: int) -> bytes:
        """The frame of a scan, which gives the first pairs of a range."""
        number, (low, high) = self.number(version), self._bounds(lower, upper, prefix)
        self._check_bounds(f"page of version {number}", low, high)
        if not 0 <= limit < 2 ** 16:
            raise errors.ScanSize(file=self._program.file, command=f"page of version {number}")
        return frames.scan(self._program.tag, number, low, high, limit)

    def open_cursor(self, version: Version, lower: Data, upper: Data, prefix: Data) -> bytes:
        """The frame of an opening of a cursor."""
        number, (low, high) = self.number(version), self._bounds(lower, upper, prefix)
        self._check_bounds(f"scan of version {number}", low, high)
        return frames.open_cursor(self._program.tag, number, low, high)

    def next_pairs(self, cursor: int, limit: int = frames.PAGE_MAX) -> bytes:
        """The frame that asks for the next pairs of a cursor, as many as a reply takes or fewer."""
        return frames.next_pairs(self._program.tag, cursor, limit)

    def next_whole(self, cursor: int, limit: int) -> bytes:
        """The same, with the reply as bytes for its answer."""
        return Whole(self.next_pairs(cursor, limit))

    def info(self, version: Version) -> bytes:
        """The frame of an info."""
        return frames.info(self._program.tag, self.number(version))

    def stat(self) -> bytes:
        """The frame of a stat."""
        return frames.stat(self._program.tag)
