"""What the tests share: a folder with a new store of the real program, and a program that only pretends."""

from __future__ import annotations

import contextlib
import os
import pathlib
import signal
import subprocess
import sys
import tempfile
import threading
import time
import traceback
import unittest
import warnings
from typing import Any, Callable, Dict, Iterator, List, Optional, Tuple
from unittest import mock

TOP = pathlib.Path(__file__).resolve().parents[3]
SHELL = str(TOP / "castle-shell")
PRETENDER = str(pathlib.Path(__file__).resolve().parent / "pretender")
PACKAGE = str(TOP / "clients" / "python")
DEADLINE = 120  # seconds that a run of the shell may take
CHILD = 20  # seconds that a child may take
THREADS = 60  # seconds that the threads of a test may take
NOBODY = 65534  # the number of a user and a group without rights

sys.path.insert(0, PACKAGE)

from castle import Store, frames  # noqa: E402
from castle.process import find_program, printed  # noqa: E402


@contextlib.contextmanager
def unprivileged() -> Iterator[None]:
    """Within it permissions count, though the tests may be run by root."""
    if os.geteuid() != 0:
        yield
        return
    os.setegid(NOBODY)
    os.seteuid(NOBODY)
    try:
        yield
    finally:
        os.seteuid(0)
        os.setegid(0)


def comes_to(pid: int, *states: str) -> bool:
    """Whether a process comes to one of these states within some seconds: as `T`, stopped, or `Z`, ended."""
    deadline = time.monotonic() + 10
    while time.monotonic() < deadline:
        try:
            with open(f"/proc/{pid}/stat", encoding="ascii", errors="replace") as file:
                state = file.read().rpartition(")")[2].split()[0]
        except FileNotFoundError:
            state = "Z"
        if state in states:
            return True
        time.sleep(0.01)
    return False


def is_gone(pid: int) -> bool:
    """Whether a process ends within some seconds; one that nobody waited for counts as ended."""
    return comes_to(pid, "Z")


def stop(pid: int) -> None:
    """Has a process stand still, and waits until it does. SIGCONT has it go on."""
    os.kill(pid, signal.SIGSTOP)
    assert comes_to(pid, "T", "Z")


@contextlib.contextmanager
def alarm_amid(store: Store) -> Iterator[None]:
    """Within it the store's program, or its hub, stands still, and SIGALRM comes once, as soon as a command waits for its answer."""
    kind = type(store._program.process)
    ready, has_come = kind.ready, False

    def waiting(process: Any, writes: bool) -> List[int]:
        nonlocal has_come
        if not (writes or has_come) and process.pid == store.pid:
            has_come = True
            signal.setitimer(signal.ITIMER_REAL, 0.01)  # seconds
        return ready(process, writes)

    stop(store.pid)
    with mock.patch.object(kind, "ready", waiting):
        yield


@contextlib.contextmanager
def frames_sent(store: Store) -> Iterator[Dict[str, int]]:
    """How many frames of each kind reach the store's program within it, by the names of `frames.NAMES`; there at its end."""
    counts: Dict[str, int] = {}
    sent, write, inp = bytearray(), os.write, store._program.process.inp

    def written(descriptor: int, data: bytes) -> int:
        taken = write(descriptor, data)
        if descriptor == inp:
            sent.extend(data[:taken])
        return taken

    with mock.patch("os.write", written):
        yield counts
        store.stat()  # closings of cursors go out together with a command
    while sent:
        size = 4 + int.from_bytes(sent[:4], "big")
        name = frames.NAMES[sent[8]]
        counts[name] = counts.get(name, 0) + 1
        del sent[:size]
    counts["stat"] -= 1
    if not counts["stat"]:
        del counts["stat"]


def in_child(run: Callable[[], object], limit: int = CHILD, fork: Callable[[], int] = os.fork) -> int:
    """Runs this in a child, and gives its number. The child's status is 0 where no exception came; it ends after so many seconds."""
    pid = fork()
    if pid == 0:
        status = 1
        try:
            signal.signal(signal.SIGALRM, signal.SIG_DFL)
            signal.alarm(limit)
            run()
            status = 0
        except BaseException:
            traceback.print_exc()
        finally:
            os._exit(status)
    return pid


def has(word: str, *others: str) -> bool:
    """Whether the program has this word, which it is asked to do with a file that is not there."""
    with open(os.devnull, "w", encoding="ascii") as nowhere, contextlib.redirect_stderr(nowhere):
        return printed(find_program(), [word, os.path.join(os.sep, "absent", "store"), *others], "")[1] != 1


def needs(word: str, *others: str) -> None:
    """Skips a test where the program does not have this word."""
    if not has(word, *others):
        raise unittest.SkipTest(f"the program has no word {word} yet")


class Threads:
    """Functions that run side by side, each in a thread, and what goes wrong in them."""

    def __init__(self, *runs: Callable[[], object]) -> None:
        self.errors: List[BaseException] = []
        self._threads = [threading.Thread(target=self._run, args=(run,), daemon=True) for run in runs]
        for thread in self._threads:
            thread.start()

    def _run(self, run: Callable[[], object]) -> None:
        try:
            run()
        except BaseException as error:
            self.errors.append(error)

    @property
    def are_alive(self) -> bool:
        """Whether one of them runs still."""
        return any(thread.is_alive() for thread in self._threads)

    def join(self) -> List[BaseException]:
        """Waits for all, and gives what went wrong."""
        deadline = time.monotonic() + THREADS
        for thread in self._threads:
            thread.join(max(0.0, deadline - time.monotonic()))
        hung = sum(thread.is_alive() for thread in self._threads)
        return self.errors + [TimeoutError(f"{hung} threads hang")] * bool(hung)


def quiet(case: unittest.TestCase) -> None:
    """Has a test pass over the warnings of stores that nobody closed, until it ends."""
    kept = warnings.catch_warnings()
    kept.__enter__()
    case.addCleanup(kept.__exit__, None, None, None)
    warnings.simplefilter("ignore", ResourceWarning)


def on_signal(case: unittest.TestCase, handle: Callable[..., object]) -> None:
    """Has SIGALRM call this, until the test ends."""
    before = signal.signal(signal.SIGALRM, handle)
    case.addCleanup(signal.signal, signal.SIGALRM, before)
    case.addCleanup(signal.setitimer, signal.ITIMER_REAL, 0)


class StoreCase(unittest.TestCase):
    """A test with a folder of its own and the path of a store in it."""

    in_memory = False
    """Whether the folder is in memory, where it can be: for many changes, each of which is synced twice."""

    def setUp(self) -> None:
        has_memory = self.in_memory and os.access("/dev/shm", os.W_OK)
        folder = tempfile.TemporaryDirectory(dir="/dev/shm" if has_memory else None)
        self.addCleanup(folder.cleanup)
        self.folder = folder.name
        self.path = os.path.join(self.folder, "a.store")

    def made(self, mem: int = 64, changes: int = 1000, versions: int = 10) -> Store:
        """A new store, open until the test ends."""
        Store.format(self.path, mem, changes, versions)
        return self.opened()

    def opened(self) -> Store:
        """The store of the file, open until the test ends."""
        store = Store(self.path)
        self.addCleanup(lambda: store.__exit__(ValueError, ValueError(), None))
        return store

    def damaged(self) -> Store:
        """A store of the keys `k01` to `k13`, of which all but the last are in block 7, which is damaged."""
        with self.made(4, 100, 10) as store:  # so many puts with M 4 leave one array, in that block, and two changes behind it
            for number in (*range(1, 14), 13):
                store.put(0, f"k{number:02}", "")
        with open(self.path, "r+b") as file:
            file.seek(7 * 4096)
            file.write(b"\xff" * 4096)
        return self.opened()

    def written(self, name: str, text: str) -> str:
        """The path of a new file with this text."""
        path = os.path.join(self.folder, name)
        with open(path, "w", encoding="utf-8") as file:
            file.write(text)
        return path

    def bytes_of(self, name: str) -> bytes:
        """The bytes of a file of the folder."""
        with open(os.path.join(self.folder, name), "rb") as file:
            return file.read()

    def names_told(self) -> List[str]:
        """The lines of the file of names, without their times and descriptions."""
        return [" ".join(line.split()[:2]) for line in self.bytes_of("a.store.names").decode().splitlines()]

    def pretending(self, answers: str) -> Store:
        """A store whose program pretends: it opens, and does what the words say at the first command."""
        return Store(self.written("pretended", answers), program=PRETENDER)

    def python(self, code: str, *words: str) -> "subprocess.CompletedProcess[bytes]":
        """A run of Python that has imported castle, with the store's path and other words behind it."""
        start = "import sys; sys.path.insert(0, sys.argv.pop(1))\nimport castle, os\n"
        return subprocess.run([sys.executable, "-W", "always::ResourceWarning", "-c", start + code, PACKAGE, self.path, *words],
                              capture_output=True, cwd=self.folder, timeout=DEADLINE)

    def shell(self, script: str, path: Optional[str] = None) -> Tuple[str, str, int]:
        """Output, complaints and status of the shell over a script."""
        return self.ran(self.path if path is None else path, script=script)

    def ran(self, *arguments: str, script: str = "") -> Tuple[str, str, int]:
        """Output, complaints and status of the shell with these arguments, and this on standard input."""
        ran = subprocess.run([sys.executable, SHELL, *arguments], input=script.encode("utf-8", "surrogateescape"),
                             capture_output=True, cwd=self.folder, timeout=DEADLINE)
        return ran.stdout.decode("utf-8", "surrogateescape"), ran.stderr.decode(), ran.returncode
