"""Files that are there whole or not at all, and what stands at a path."""

from __future__ import annotations

import contextlib
import os
import secrets
import stat
from typing import Iterable, Optional, Union

FORMATTED = b"\xa7STRATBT1"  # how a superblock slot begins; slot 1 stands a block behind slot 0
BLOCK = 4096
EMPTY = "an empty file"


def write_whole(path: str, pieces: Iterable[Union[str, bytes]], like: Optional[str] = None) -> None:
    """Writes a file of text or bytes for good: a new one that is synced takes its place, and the folder is synced.

    The new file has a name of its own in the folder until then, `.castle-` and a random number, so that it takes the
    place of no other file. Where a symbolic link stands at the path, the file that it leads to is written; a file that
    is there keeps its permissions, and a new one gets those of `like`. An OSError has the path; until the folder is synced,
    which comes last, the old file is as it was then, and no new one is left.
    """
    real = os.path.realpath(path)
    new = os.path.join(os.path.dirname(real), f".castle-{secrets.token_hex(8)}")
    try:
        with open(new, "xb") as file:
            file.writelines(piece.encode() if isinstance(piece, str) else piece for piece in pieces)
            file.flush()
            keep_permissions(file.fileno(), real, like)
            os.fsync(file.fileno())
        os.replace(new, real)
        sync_folder(real)
    except BaseException as error:
        if not isinstance(error, FileExistsError):  # then the new file is another's
            with contextlib.suppress(FileNotFoundError):
                os.remove(new)
        if isinstance(error, OSError):
            error.filename, error.filename2 = path, None
        raise


def keep_permissions(descriptor: int, *paths: Optional[str]) -> None:
    """Gives an open file the permissions of the first of these files that is there, where they differ."""
    for path in filter(None, paths):
        try:
            mode = stat.S_IMODE(os.stat(path).st_mode)
        except FileNotFoundError:
            continue
        if stat.S_IMODE(os.fstat(descriptor).st_mode) != mode:
            os.fchmod(descriptor, mode)
        return


def sync_folder(path: str) -> None:
    """Makes the name of a file last."""
    folder = os.open(os.path.dirname(path) or ".", os.O_RDONLY | os.O_DIRECTORY)
    try:
        os.fsync(folder)
    finally:
        os.close(folder)


def seen(path: str) -> str:
    """What stands at a path, as far as one may look: `a castle store`, `a folder`, `a file of another kind`."""
    try:
        mode = os.stat(path).st_mode
        if stat.S_ISDIR(mode):
            return "a folder"
        if not stat.S_ISREG(mode):
            return "no plain file"
        with open(path, "rb") as file:
            first = file.read(BLOCK + len(FORMATTED))
    except OSError as error:
        return f"a file that can't be read ({error.strerror})"
    if not first:
        return EMPTY
    return "a castle store" if FORMATTED in (first[:len(FORMATTED)], first[BLOCK:]) else "a file of another kind"


def fault(path: str) -> str:
    """Why a store at this path can't be opened, as far as one sees it; empty where nothing is seen."""
    folder = os.path.dirname(path) or "."
    for what, name, flags in (("folder", folder, os.O_RDONLY | os.O_DIRECTORY), ("file", path, os.O_RDWR)):
        try:
            os.close(os.open(name, flags | os.O_CLOEXEC | os.O_NONBLOCK))
        except FileNotFoundError:
            if what == "folder":
                return f"there is no folder {folder}"
        except OSError as error:
            place = f"the folder {folder}" if what == "folder" else "the file"
            return "it is a folder" if isinstance(error, IsADirectoryError) else f"{place} can't be opened: {error.strerror}"
    return ""
