"""Exports of a version into a file, and imports of one into a version of a store that is in use."""

from __future__ import annotations

import os
from itertools import islice
from typing import TYPE_CHECKING, BinaryIO, Iterator, List, NamedTuple, Optional, Tuple

from . import errors, exports, outfile
from .frames import NUMBER_MAX, Pair
from .lock import Lock
from .process import CHUNK, LIMIT, Process, find_program
from .storecopy import Progress, silent

if TYPE_CHECKING:
    from .store import Path, Store

WINDOW = 256  # pairs that are put at once; an import can be stopped between two windows
FATAL = errors.DeviceFault, errors.Damaged, errors.FrameTooLong


class Imported(NamedTuple):
    """What came of an import."""

    pairs: int
    """How many pairs were put."""
    refused: Tuple[Tuple[bytes, errors.Refused], ...]
    """The keys whose puts were refused, each with the reason. The store has what it had there before."""

    @property
    def is_whole(self) -> bool:
        """Whether all pairs were put."""
        return not self.refused


# Exports

def export(path: "Path", version: int, to: "Path", program: Optional[str] = None, *, progress: Progress = silent) -> None:
    """Writes a version of a store that nobody has open into a file, as puts with tags from 1 on, by the program's own word.

    The file takes its place whole, or not at all: what the program gave before a fault is no export. `NoSuchVersion` tells that
    the store has no such version. `Store.export` is of an open store.
    """
    from .store import check_file, located
    file, real = located(path)
    check_file(real, file)
    if not 0 <= version <= NUMBER_MAX:
        raise errors.NoSuchVersion(file=file, command=f"export of version {version}")
    lock = Lock(real, file)
    try:
        process = Process(find_program(program), ["export", real, str(version)], file, lock)
        outfile.write(os.fsdecode(to), _written(process, file, f"export of version {version}", progress), file)
    finally:
        lock.release(forgets=True)


def _written(process: Process, file: str, command: str, progress: Progress) -> Iterator[bytes]:
    """What the program writes, up to its end, which has to be a good one."""
    done = 0
    try:
        while True:
            for pipe in process.ready(False):
                if pipe == process.err:
                    process.read_errors()
                    continue
                data = os.read(pipe, CHUNK)
                if not data:
                    _check_end(process, file, command)
                    return
                done += len(data)
                yield data
                progress("bytes written", done, None)
    finally:
        process.kill(15)
        process.finish(LIMIT)


def _check_end(process: Process, file: str, command: str) -> None:
    status = process.finish(LIMIT)
    if status != 0:
        raise errors.unknown_word(errors.ended(status, file, command), file)


def export_open(store: "Store", version: int, to: "Path", progress: Progress) -> None:
    """Writes a version of an open store into a file, through a scan."""
    with store.scan(version) as scan:
        outfile.write(os.fsdecode(to), exports.frames_of(scan, progress), store.path)


# Imports

def import_file(store: "Store", path: "Path", version: int, progress: Progress) -> Imported:
    """Puts the pairs of an export into a version; see `Store.import_from`."""
    name = os.fsdecode(path)
    with outfile.told(name, "read"), open(name, "rb") as file:
        total = None
        if file.seekable():
            total = sum(1 for _ in exports.pairs_of(_pieces(file, progress), name, remaps=True))
            file.seek(0)
        if store.info(version).frozen:
            raise errors.Frozen(file=store.path, command=f"import into version {version}")
        return _put(store, exports.pairs_of(exports.pieces_of(file), name, remaps=True), version, total, progress)


def _pieces(file: BinaryIO, progress: Progress) -> Iterator[bytes]:
    """What a file has, while it is looked at for the first time."""
    done, total = 0, os.fstat(file.fileno()).st_size
    for piece in exports.pieces_of(file):
        done += len(piece)
        progress("bytes looked at", done, max(done, total))
        yield piece


def _put(store: "Store", pairs: Iterator[Pair], version: int, total: Optional[int], progress: Progress) -> Imported:
    done, refused = 0, []
    for window in iter(lambda: list(islice(pairs, WINDOW)), []):
        batch = store.batch(return_exceptions=True)
        batch.update(version, window)
        try:
            batch.finish()
        except errors.CastleError as error:
            raise _with_count(error, done + batch.results.count(None))
        results: List[object] = list(batch.results)
        for (key, _), result in zip(window, results):
            if isinstance(result, errors.Refused) and not isinstance(result, FATAL):
                refused.append((key, result))
            elif isinstance(result, errors.CastleError):
                raise _with_count(result, done)
            done += result is None
        progress("pairs put", done + len(refused), total)
    return Imported(done, tuple(refused))


def _with_count(error: errors.CastleError, done: int) -> errors.CastleError:
    """An error that ended an import, with how many pairs were put before it."""
    error.command = f"{error.command}, with {done:,} pairs imported" if error.command else f"import, with {done:,} pairs imported"
    return error
