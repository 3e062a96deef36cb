"""Files that a user has the shell write: never the store that is open or what lies beside it, and no device."""

from __future__ import annotations

import contextlib
import os
import stat
from typing import Iterable, Iterator, Union

from .errors import CastleError
from .files import seen, write_whole

STORE = "a castle store"  # what `files.seen` says of one
BESIDE = {"": "the store itself", ".names": "the file of the store's names", ".lock": "the store's lock"}
STREAMS = ("standard input", "standard output", "standard error")


class Unwritable(CastleError):
    """A file that the shell does not write."""

    remedy = "Take another file; nothing was written."


@contextlib.contextmanager
def told(path: str, what: str) -> Iterator[None]:
    """Has an OSError within it say which file could not be read or written, and why."""
    try:
        yield
    except OSError as error:
        raise CastleError(f"the file can't be {what}: {error.strerror}", "Look at its path, its permissions and its device.",
                          file=path) from error


def write(path: str, pieces: Iterable[Union[str, bytes]], store: str) -> None:
    """Writes text or bytes for good in place of the file at a path, unless that is one to be kept from this; see `check`.

    `store` is the path of the store that is open. Where the pieces end in an error the old file is as it was.
    """
    check(path, store)
    with told(path, "written"):
        write_whole(path, pieces)


def check(path: str, store: str) -> None:
    """Fails where a file is not to be written: one of this store or another, no plain file, or one of this process's own streams.

    It looks at the file itself, whatever its name is and whichever links lead to it.
    """
    real = os.path.realpath(path)
    of_a_store = place_in_a_store(real, os.path.realpath(store))
    if of_a_store:
        raise Unwritable(f"the file {of_a_store}", file=path)
    if not os.path.isdir(os.path.dirname(real)):
        raise Unwritable(f"there is no folder {os.path.dirname(path) or os.path.dirname(real)}",
                         "Make it first, or take another file.", file=path)
    try:
        found = os.stat(real)
    except FileNotFoundError:
        return
    except OSError as error:
        raise Unwritable(f"the file can't be looked at: {error.strerror}", file=path) from error
    if not stat.S_ISREG(found.st_mode):
        raise Unwritable(f"the file is {_kind(found.st_mode)}", file=path)
    for stream in _own_streams(found):
        raise Unwritable(f"the file is the shell's {stream} as well", file=path)
    if seen(real) == STORE:
        raise Unwritable(f"the file is {STORE}", "Take another file, or remove that one first.", file=path)


def place_in_a_store(path: str, own: str) -> str:
    """What a file is to the store that is open, or to another one beside it, where it is there or not; empty if nothing."""
    for ending, what in BESIDE.items():
        if path == own + ending or _is_same(path, own + ending):
            return f"is {what}"
    other, dot, ending = path.rpartition(".")
    return f"belongs to {STORE} beside it" if dot + ending in BESIDE and seen(other) == STORE else ""


def _is_same(path: str, other: str) -> bool:
    """Whether two paths are of one file, as by a hard link."""
    try:
        return os.path.samefile(path, other)
    except OSError:
        return False


def _kind(mode: int) -> str:
    """What a file is that is no plain one."""
    kinds = ((stat.S_ISDIR, "a folder"), (stat.S_ISFIFO, "a named pipe"), (stat.S_ISSOCK, "a socket"),
             (stat.S_ISCHR, "a device"), (stat.S_ISBLK, "a device"))
    return next((name for test, name in kinds if test(mode)), "no plain file")


def _own_streams(found: os.stat_result) -> Iterator[str]:
    """Which of this process's standard streams is this file."""
    for descriptor, name in enumerate(STREAMS):
        try:
            if os.path.samestat(os.fstat(descriptor), found):
                yield name
        except OSError:
            pass  # it is closed
