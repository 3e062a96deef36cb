"""Copies of stores as files, and the place where a store is made that takes its name at its end alone."""

from __future__ import annotations

import contextlib
import errno
import os
import secrets
import shutil
import stat
from typing import Callable, Iterator, Optional, Tuple, Union

from . import errors
from .files import keep_permissions, seen, sync_folder
from .lock import Lock
from .outfile import place_in_a_store

CHUNK = 1 << 20  # bytes that are copied at once

Progress = Callable[[str, int, Optional[int]], None]
"""What is told of the progress: what is done, how much so far, and of how much where that is known. It may raise."""


def silent(what: str, done: int, total: Optional[int]) -> None:
    """Tells nothing."""


# Bytes

def copy_bytes(source: Union[str, int], target: str, progress: Progress = silent) -> None:
    """Copies a file, given by its path or open, for good into a new one, which only its owner may use. Holes stay holes."""
    with open(source, "rb", 0, closefd=isinstance(source, str)) as old, open(target, "xb", 0, opener=_private) as new:
        for done, total in _pieces(old.fileno(), new.fileno()):
            progress("bytes copied", done, total)
        os.fsync(new.fileno())


def _private(path: str, flags: int) -> int:
    return os.open(path, flags, 0o600)


def _pieces(source: int, target: int) -> Iterator[Tuple[int, int]]:
    """Copies piece by piece, and tells how far it is."""
    total = os.lseek(source, 0, os.SEEK_END)
    os.ftruncate(target, total)
    end = 0
    while end < total:
        start, end = _next_data(source, end, total)
        for place in range(start, end, CHUNK):
            _copy_piece(source, target, place, min(CHUNK, end - place))
            yield min(place + CHUNK, end), total


def _next_data(source: int, place: int, total: int) -> Tuple[int, int]:
    """Where bytes begin that are no hole, and where these end."""
    try:
        start = os.lseek(source, place, os.SEEK_DATA)
        return start, min(os.lseek(source, start, os.SEEK_HOLE), total)
    except OSError as error:
        return (total, total) if error.errno == errno.ENXIO else (place, total)  # there is no other, or no telling


def _copy_piece(source: int, target: int, place: int, size: int) -> None:
    end = place + size
    while place < end:
        data = os.pread(source, end - place, place)
        if not data:
            raise OSError(errno.EIO, "the file became shorter while it was copied")
        while data:
            done = os.pwrite(target, data, place)
            data, place = data[done:], place + done


# Places

class Place:
    """Where a store is made: a folder beside its path, whose files take their names by `take`, all or none.

    Within the `with` block the path is locked as a store's, so that no other program of this package makes one there. At its end
    the folder is removed, by the process that made it. A kill leaves it: `.castle-` and a random number.
    """

    def __init__(self, path: str, source: str, overwrite: bool) -> None:
        """Fails where no store may be made at this path. `source` is the file of the store that is read."""
        self.path = path
        self._real = os.path.realpath(path)
        self._source = os.path.realpath(source)
        self._overwrite = overwrite
        self._owner = os.getpid()
        self._check()

    def _check(self) -> None:
        folder = os.path.dirname(self._real)
        if not os.path.isdir(folder):
            raise errors.StoreMissing(f"there is no folder {folder}", "Make it first.", file=self.path)
        belongs = place_in_a_store(self._real, self._source)
        if belongs:
            raise errors.StoreExists(f"the file {belongs}", "Take another path.", file=self.path)
        for ending in "", ".names":
            self._check_free(self._real + ending, "the file of its names" if ending else "it")

    def _check_free(self, path: str, what: str) -> None:
        try:
            kind = os.lstat(path).st_mode
        except FileNotFoundError:
            return
        except OSError as error:
            raise errors.CastleError(f"{what} can't be looked at: {error.strerror}", file=self.path) from error
        if not stat.S_ISREG(kind):
            raise errors.StoreExists(f"{what} is {seen(path)}", "Take another path.", file=self.path)
        if not self._overwrite:
            raise errors.StoreExists(f"{seen(path)} is there already" if what == "it" else f"{what} is there already",
                                     "Take another path, or ask to overwrite it.", file=self.path)

    def __enter__(self) -> "Place":
        self._lock = Lock(self._real, self.path)
        try:
            self._check()  # another one may have made it before this had the lock
            self.folder = os.path.join(os.path.dirname(self._real), f".castle-{secrets.token_hex(8)}")
            os.mkdir(self.folder, 0o700)
        except BaseException:
            self._lock.release(forgets=True)
            raise
        return self

    def __exit__(self, kind: object, error: object, trace: object) -> None:
        if self._owner == os.getpid():
            shutil.rmtree(self.folder, ignore_errors=True)
        self._lock.release(forgets=True)
        if isinstance(error, errors.CastleError) and error.file.startswith(self.folder + os.sep):
            self._explain(error)

    def _explain(self, error: errors.CastleError) -> None:
        """Has an error that is about a file of the folder be about the path, where nothing is there to be mended."""
        error.file = self.path
        if isinstance(error, (errors.DeviceFault, errors.DeviceFailed)):
            error.what = f"the device failed while the new store was made: {error.what}"
            error.remedy = "Make room, or mend the device, and do it again; nothing was made."

    def file(self, name: str) -> str:
        """The path of a file in the folder."""
        return os.path.join(self.folder, name)

    @property
    def store(self) -> str:
        """The path of the store that is made."""
        return self.file("made.store")

    @property
    def names(self) -> str:
        """The path of its names. They are kept apart from it, so that no opening leaves out some."""
        return self.file("made.names")

    def take(self) -> None:
        """Has the store and its names, where it has any, take their names for good. Names never stand beside another store."""
        if self._owner != os.getpid():
            raise errors.Forked(file=self.path)
        self._sync()
        names, has_names = self._real + ".names", os.path.exists(self.names)
        if self._overwrite and os.path.exists(self._real):
            with contextlib.suppress(FileNotFoundError):
                os.remove(names)
            os.replace(self.store, self._real)
            if has_names:
                os.replace(self.names, names)
        else:
            self._take_new(names, has_names)
        sync_folder(self._real)

    def _sync(self) -> None:
        """Makes the files last, with the permissions of those that were read."""
        for path, like in (self.store, self._source), (self.names, self._source + ".names"):
            with contextlib.suppress(FileNotFoundError), open(path, "r+b", 0) as file:
                with contextlib.suppress(OSError):
                    keep_permissions(file.fileno(), like)
                os.fsync(file.fileno())

    def _take_new(self, names: str, has_names: bool) -> None:
        if has_names:
            os.replace(self.names, names)
        try:
            try:
                os.link(self.store, self._real)  # which takes the place of no other file
            except FileExistsError:
                raise errors.StoreExists(file=self.path) from None
            except OSError:
                os.rename(self.store, self._real)  # a file system without links
        except BaseException:
            if has_names:
                with contextlib.suppress(FileNotFoundError):
                    os.remove(names)
            raise


def copy_names(source: str, place: Place) -> None:
    """Copies the file of names of a store, where it has one."""
    with contextlib.suppress(FileNotFoundError):
        copy_bytes(source + ".names", place.names)


@contextlib.contextmanager
def told(file: str, what: str) -> Iterator[None]:
    """Has an OSError within it say what could not be done, and why."""
    try:
        yield
    except OSError as error:
        raise errors.CastleError(f"{what}: {error.strerror or error}", "Look at both paths, their permissions, and the room on the device.",
                                 file=file) from error
