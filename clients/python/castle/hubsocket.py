"""The socket of a hub: its address, who listens there, and who may speak to it."""

from __future__ import annotations

import contextlib
import errno
import fcntl
import os
import socket
import stat
import time
from typing import Iterator, Optional

from .errors import NoHub, SocketFault

PREFIX = "unix:"
PATH_MAX = 107  # bytes that the system takes for the path of a socket
BACKLOG = 128  # connections that may wait until the hub takes them
PATIENCE = 5.0  # seconds that another one may have the folder locked


def path_of(address: object) -> Optional[str]:
    """The path in an address `unix:SOCKET`, which is text or bytes; None for whatever else, and a `Path` is of a file."""
    text = os.fsdecode(address) if isinstance(address, bytes) else address
    return text[len(PREFIX):] if isinstance(text, str) and text.startswith(PREFIX) else None


def connected(path: str) -> socket.socket:
    """A connection to the hub that listens at this path, or a `NoHub`."""
    address = PREFIX + path.replace("\0", "\\x00")
    if not path or "\0" in path:
        raise NoHub("the address has no path of a socket", "Write it as unix:SOCKET.", file=address)
    try:
        return _connected(path)
    except FileNotFoundError:
        raise NoHub("there is no such socket", file=address) from None
    except ConnectionRefusedError:
        raise NoHub(file=address) from None
    except PermissionError as error:
        raise NoHub(f"the socket may not be used: {error.strerror}", "Ask whoever runs the hub, whose --mode says who may.",
                    file=address) from error
    except OSError as error:
        raise NoHub(f"the socket can't be used: {error.strerror or error}", file=address) from error


def _connected(path: str, waits: bool = True) -> socket.socket:
    connection = socket.socket(socket.AF_UNIX, socket.SOCK_STREAM)
    try:
        connection.setblocking(waits)
        connection.connect(path)
    except BaseException:
        connection.close()
        raise
    return connection


class Listening:
    """A socket that listens at a path. Its file has the mode that is given from the beginning on."""

    def __init__(self, path: str, mode: int) -> None:
        """Makes it. A socket on which nobody listens any more is replaced, and a `SocketFault` tells of anything else there."""
        size = len(os.fsencode(path))
        if not 0 < size <= PATH_MAX or "\0" in path:
            raise SocketFault(f"the path of a socket has 1 to {PATH_MAX} bytes, and this one has {size}", "Name a shorter one.",
                              file=path)
        self.path = path
        self.socket = socket.socket(socket.AF_UNIX, socket.SOCK_STREAM)
        try:
            with _alone(path):
                self._bind(mode)
                found = os.lstat(path)
                self._identity = found.st_dev, found.st_ino
            self.socket.listen(BACKLOG)
        except OSError as error:
            self.socket.close()
            raise SocketFault(f"the socket can't be made: {error.strerror or error}", file=path) from error
        except BaseException:
            self.socket.close()
            raise

    def _bind(self, mode: int) -> None:
        before = os.umask(0o777 & ~mode)
        try:
            try:
                self.socket.bind(self.path)
            except OSError as error:
                if error.errno != errno.EADDRINUSE:
                    raise
                _remove_stale(self.path)
                self.socket.bind(self.path)
        finally:
            os.umask(before)

    def close(self) -> None:
        """Listens no more, and removes the file, unless another one has taken its place."""
        self.socket.close()
        with contextlib.suppress(OSError, SocketFault), _alone(self.path):
            found = os.lstat(self.path)
            if (found.st_dev, found.st_ino) == self._identity:
                os.remove(self.path)


def _remove_stale(path: str) -> None:
    """Removes a socket on which nobody listens, and fails for whatever else is at this path."""
    if not stat.S_ISSOCK(os.lstat(path).st_mode):
        raise SocketFault("a file that is no socket is there, and stays as it is", file=path)
    try:
        _connected(path, waits=False).close()
    except ConnectionRefusedError:
        os.remove(path)
        return
    except BlockingIOError:
        pass  # whoever listens has not taken those that came before
    except OSError as error:
        raise SocketFault(f"a socket is there, of which can't be told whether anybody listens: {error.strerror}",
                          "Name another path, or remove it if nobody does.", file=path) from error
    raise SocketFault("a hub or another program listens there already", file=path)


@contextlib.contextmanager
def _alone(path: str) -> Iterator[None]:
    """Keeps other hubs from making or removing sockets in this folder meanwhile, by a flock on it."""
    folder = os.open(os.path.dirname(path) or ".", os.O_RDONLY | os.O_DIRECTORY | os.O_CLOEXEC)
    deadline = time.monotonic() + PATIENCE
    try:
        while True:
            try:
                fcntl.flock(folder, fcntl.LOCK_EX | fcntl.LOCK_NB)
                break
            except BlockingIOError:
                if time.monotonic() > deadline:
                    raise SocketFault("another program has the folder of the socket locked", file=path) from None
                time.sleep(0.01)
        yield
    finally:
        os.close(folder)
