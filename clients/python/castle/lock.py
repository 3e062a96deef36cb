"""The locks of a store, so that no second program serves its file."""

from __future__ import annotations

import contextlib
import fcntl
import os
from io import FileIO
from typing import Callable, Iterator, List, Optional, Tuple

from . import forks
from .errors import CastleError, DeviceFailed, StoreLocked
from .files import keep_permissions


class Lock:
    """The locks of a store: flock on `FILE.lock`, which stays there, and then on the file itself, where it is there.

    The first keeps away whoever comes by the same name, and says which process has it. The second keeps away whoever comes by
    another name, after a rename or through a hard link. The program inherits both, so that they are held until it has
    ended, even where the client was killed before.
    """

    def __init__(self, path: str, file: str) -> None:
        """Takes them, or fails at once. `path` is the store's own, without symbolic links; errors call it `file`.

        It raises `StoreLocked`, and a `CastleError` where `FILE.lock` or the file can't be opened.
        """
        self.path = path
        self._file = file
        self._owner = os.getpid()
        self._is_new = False  # whether this made FILE.lock
        self._beside: Optional[FileIO] = None
        self._itself: Optional[FileIO] = None
        with forks.starting:
            forks.own(self)
            try:
                self._beside = self._taken(path + ".lock", self._opened_beside)
                if os.path.exists(path):
                    self._itself = self._taken(path, self._opened_itself)
                with contextlib.suppress(OSError):  # the number is a courtesy; a full device must not keep the store closed
                    self._beside.truncate(0)
                    self._beside.write(f"{os.getpid()}\n".encode())
            except BaseException:
                self.release(forgets=True)
                raise

    @property
    def descriptors(self) -> List[int]:
        """The open files that hold the locks."""
        return [file.fileno() for file in (self._beside, self._itself) if file is not None]

    @property
    def itself(self) -> int:
        """The open file that holds the lock on the file itself."""
        assert self._itself is not None
        return self._itself.fileno()

    @property
    def told(self) -> str:
        """What the variable CASTLE_LOCKS has for the program: the numbers of both, the second empty where there is no file."""
        return ",".join([*map(str, self.descriptors), ""][:2])

    def is_of(self, path: str) -> bool:
        """Whether the file at this path is the one that is locked."""
        try:
            return self._itself is not None and _identity(os.fstat(self._itself.fileno())) == _identity(os.stat(path))
        except OSError:
            return False

    def _taken(self, path: str, opened: Callable[[str], FileIO]) -> FileIO:
        """A locked file, which is still the one at its path."""
        while True:
            file = _moved_up(opened(path))
            try:
                fcntl.flock(file, fcntl.LOCK_EX | fcntl.LOCK_NB)
                if _identity(os.fstat(file.fileno())) == _identity(os.stat(path)):
                    return file
            except FileNotFoundError:
                pass
            except OSError as error:
                refusal = self._refusal(path, file, error)
                file.close()
                raise refusal from None
            file.close()  # another one has taken its place meanwhile

    def _refusal(self, path: str, file: FileIO, error: OSError) -> CastleError:
        """Why this open file can't be locked."""
        if not isinstance(error, BlockingIOError):
            return CastleError(f"{path} can't be locked: {error.strerror}", "Keep the store where flock works.", file=self._file)
        if path == self.path:
            return StoreLocked("the store is open already under another name, or is being copied", file=self._file)
        holder = (file.read(20) or b"").decode("ascii", "replace").strip()
        return StoreLocked(f"the store is open already{f', by process {holder}' if holder.isdigit() else ''}", file=self._file)

    def _opened_beside(self, path: str) -> FileIO:
        """FILE.lock, made where it isn't there. It gets the permissions of the store's file, so that its users share it."""
        try:
            while True:
                try:
                    return FileIO(path, "r+")
                except FileNotFoundError:
                    with contextlib.suppress(FileExistsError):
                        file = FileIO(path, "x+")
                        self._is_new = True
                        with contextlib.suppress(OSError):
                            keep_permissions(file.fileno(), self.path)
                        return file
        except OSError as error:
            raise CastleError(f"the lock {path} can't be opened: {error.strerror}",
                              "Mend the folder, or its permissions.", file=self._file) from error

    def _opened_itself(self, path: str) -> FileIO:
        try:
            return FileIO(path, "r+")
        except OSError as error:
            raise CastleError(f"the file can't be opened: {error.strerror}", "Mend its permissions.", file=self._file) from error

    def release(self, forgets: bool = False) -> None:
        """Gives them up, once the program has ended. To do it again does nothing; a child closes its copies alone.

        With `forgets` a FILE.lock that this made is removed, since no store was opened.
        """
        forks.disown(self)
        if self._owner != os.getpid():
            self.forget()
            return
        if forgets and self._is_new and self._beside is not None:
            with contextlib.suppress(OSError):
                os.remove(self.path + ".lock")
        for number in self.descriptors:  # a child that was just forked may not have closed its copies yet
            with contextlib.suppress(OSError):
                fcntl.flock(number, fcntl.LOCK_UN)
        self.forget()

    def forget(self) -> None:
        """Closes the files. In a child of the process the locks stay with those that have them open still."""
        files = self._beside, self._itself
        self._beside = self._itself = None
        for file in filter(None, files):
            file.close()


@contextlib.contextmanager
def unchanged(path: str, file: str) -> Iterator[int]:
    """Within it no program serves the file at this path, of which it gives an open descriptor; errors call it `file`.

    A shared flock on the file keeps others away, and a `StoreLocked` tells that one serves it already. Nothing is made beside
    the file.
    """
    try:
        opened = _moved_up(FileIO(path, "r"))
    except OSError as error:
        raise DeviceFailed(f"the file can't be read: {error.strerror}", file=file) from error
    with opened:
        try:
            fcntl.flock(opened, fcntl.LOCK_SH | fcntl.LOCK_NB)
        except BlockingIOError:
            raise StoreLocked("the store is open, and may change meanwhile", "Close it there first.", file=file) from None
        try:
            yield opened.fileno()
        finally:
            fcntl.flock(opened, fcntl.LOCK_UN)  # a child that was just forked may not have closed its copy yet


def _identity(found: os.stat_result) -> Tuple[int, int]:
    return found.st_dev, found.st_ino


def _moved_up(file: FileIO) -> FileIO:
    """The same open file under a number that is no standard stream's."""
    if file.fileno() > 2:
        return file
    with file:
        return FileIO(fcntl.fcntl(file, fcntl.F_DUPFD_CLOEXEC, 3), "r+")
