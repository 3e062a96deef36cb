"""A private copy of a store that may only be read."""

from __future__ import annotations

import fcntl
import os
import shutil
import tempfile
import weakref

from .errors import CastleError, DeviceFailed, StoreLocked


class PrivateCopy:
    """A copy of a store's file in a folder of its own, which `remove` takes away."""

    def __init__(self, path: str, file: str) -> None:
        """Copies the file at this path; errors call it `file`.

        Nothing may serve it meanwhile, since the copy would mix different times: it is looked at under a shared flock, and
        a `StoreLocked` tells that there is another one.
        """
        try:
            source = open(path, "rb")
        except OSError as error:
            raise DeviceFailed(f"the file can't be read: {error.strerror}", file=file, command="open") from error
        try:
            with source:
                _lock(source.fileno(), file)
                folder = tempfile.mkdtemp(prefix="castle-")
                self._removal = weakref.finalize(self, _remove, folder, os.getpid())
                self.path = os.path.join(folder, "copy.store")  # the file's own name may be none that the program takes
                with open(self.path, "wb") as target:
                    shutil.copyfileobj(source, target, 1 << 20)
        except OSError as error:
            raise CastleError(f"a private copy can't be made: {error.strerror}",
                              f"Make room in {tempfile.gettempdir()}, or name another folder by TMPDIR.",
                              file=file) from error

    def remove(self) -> None:
        """Removes it with its folder. A child of the process that made it leaves it alone."""
        self._removal()


def _remove(folder: str, owner: int) -> None:
    if os.getpid() == owner:
        shutil.rmtree(folder, ignore_errors=True)


def _lock(number: int, file: str) -> None:
    try:
        fcntl.flock(number, fcntl.LOCK_SH | fcntl.LOCK_NB)
    except BlockingIOError:
        raise StoreLocked("the store is open, and a copy of it would mix what stood there at different times",
                          "Close it there first, or copy it then.", file=file) from None
