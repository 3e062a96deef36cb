"""What the tests of the hub share: a hub in a process of its own, and a client that speaks frames by hand."""

from __future__ import annotations

import array
import fcntl
import os
import socket
import stat
import struct
import subprocess
import sys
import termios
import time
from typing import Any, List, NamedTuple, Optional, Tuple

from support import DEADLINE, TOP, StoreCase

from castle import Store, frames

HUB = str(TOP / "castle-hub")
PATIENCE = 60  # seconds that something may take which takes some thousandths on a machine with nothing else to do


class Reply(NamedTuple):
    """What a frame was answered."""

    tag: int
    status: int
    fields: bytes = b""


class Raw:
    """A connection to a hub that speaks frames by hand."""

    def __init__(self, path: str) -> None:
        self.socket = socket.socket(socket.AF_UNIX, socket.SOCK_STREAM)
        self.socket.settimeout(DEADLINE)
        self.socket.connect(path)
        self._file = self.socket.makefile("rb")

    def send(self, *sent: bytes) -> None:
        """Sends bytes, mostly whole frames."""
        self.socket.sendall(b"".join(sent))

    def reply(self) -> Optional[Reply]:
        """The next reply; None at the end."""
        try:
            head = self._file.read(4)
        except ConnectionResetError:  # the hub did not read all that was sent to it
            return None
        if not head:
            return None
        body = self._file.read(struct.unpack(">I", head)[0])
        return Reply(*struct.unpack_from(">IB", body), body[5:])

    def replies(self, count: int) -> List[Optional[Reply]]:
        """So many replies."""
        return [self.reply() for _ in range(count)]

    def ask(self, frame: bytes) -> Optional[Reply]:
        """The reply to one frame."""
        self.send(frame)
        return self.reply()

    def end(self) -> None:
        """Sends no more, and reads on."""
        self.socket.shutdown(socket.SHUT_WR)

    def close(self) -> None:
        """Goes away."""
        self._file.close()
        self.socket.close()


def child_of(pid: int) -> int:
    """The process that another one has started."""
    for name in os.listdir("/proc"):
        if name.isdigit():
            try:
                with open(f"/proc/{name}/stat", encoding="ascii", errors="replace") as file:
                    if int(file.read().rpartition(")")[2].split()[1]) == pid:
                        return int(name)
            except FileNotFoundError:
                pass
    raise AssertionError(f"process {pid} has no child")


def has_come(pid: int, size: int) -> bool:
    """Whether so many bytes come to a process's standard input, where it reads none of them."""
    deadline, found = time.monotonic() + PATIENCE, array.array("i", [0])
    number = os.open(f"/proc/{pid}/fd/0", os.O_RDONLY | os.O_NONBLOCK)
    try:
        while time.monotonic() < deadline:
            fcntl.ioctl(number, termios.FIONREAD, found)
            if found[0] >= size:
                return True
            time.sleep(0.005)
    finally:
        os.close(number)
    return False


class HubCase(StoreCase):
    """A test with a hub over its store."""

    in_memory = True

    def setUp(self) -> None:
        super().setUp()
        self.socket = os.path.join(self.folder, "socket")
        self.address = f"unix:{self.socket}"

    def started(self, *words: str) -> "subprocess.Popen[str]":
        """The hub with these words, until the test ends."""
        hub = subprocess.Popen([sys.executable, "-W", "always", HUB, *words], stdout=subprocess.PIPE, stderr=subprocess.PIPE, text=True,
                               cwd=self.folder)
        self.addCleanup(hub.communicate)
        self.addCleanup(hub.kill)
        return hub

    def served(self, *options: str, limits: Tuple[int, int, int] = (64, 100000, 200)) -> "subprocess.Popen[str]":
        """A hub over the test's store, which is made where it isn't there."""
        if not os.path.exists(self.path):
            Store.format(self.path, *limits)
        self.hub = hub = self.started(self.path, self.socket, *options)
        assert hub.stdout
        self.assertEqual(hub.stdout.readline(), f"castle-hub: {self.path} is served at {self.address}\n")
        return hub

    def refused(self, *words: str, status: int = 1) -> str:
        """What a hub says that does not begin."""
        hub = self.started(*words)
        out, said = hub.communicate(timeout=DEADLINE)
        self.assertEqual((hub.returncode, out), (status, ""), said)
        return said

    def ended(self, number: Optional[int] = None) -> Tuple[int, str]:
        """The hub's exit status after this signal, and what it said."""
        if number is not None:
            self.hub.send_signal(number)
        _, said = self.hub.communicate(timeout=DEADLINE)
        return self.hub.returncode, said

    def client(self) -> Store:
        """A store over the hub, open until the test ends."""
        store = Store(self.address)
        self.addCleanup(lambda: store.__exit__(ValueError, ValueError(), None))
        return store

    def raw(self) -> Raw:
        """A client that speaks frames by hand, until the test ends."""
        raw = Raw(self.socket)
        self.addCleanup(raw.close)
        return raw

    def mode(self) -> int:
        """The permissions of the socket."""
        found = os.lstat(self.socket)
        self.assertTrue(stat.S_ISSOCK(found.st_mode))
        return stat.S_IMODE(found.st_mode)


class OverHub(HubCase):
    """Has tests of a store run over a hub."""

    def made(self, *limits: Any) -> Store:
        self.served(limits=(*limits, *(64, 1000, 10)[len(limits):]))
        return self.client()

    def opened(self) -> Store:
        return self.client()


def puts(count: int, version: int = 0) -> bytes:
    """Frames of puts of the keys `0`, `1` and so on, with tags from 1 on."""
    return b"".join(frames.put(number + 1, version, b"%d" % number, b"value %d" % number) for number in range(count))
