"""Forks: a child of the process that opened a store speaks no word to its program, and keeps nothing open."""

import copy
import ctypes
import multiprocessing
import os
import pickle
import signal
import threading
from functools import partial
from typing import Callable, List
from unittest import mock

from support import CHILD, StoreCase, Threads, in_child, is_gone

from castle import Store, errors


class ForkTest(StoreCase):
    def waited(self, pid: int) -> None:
        """The child has ended well."""
        self.assertEqual(os.waitpid(pid, 0)[1], 0)

    def refused(self, store: Store) -> None:
        """Everything that would speak to the program is refused, and ends at once."""
        batch = store.batch()
        for number in range(5000):
            try:
                batch.get(0, b"k%d" % number)
            except errors.Forked:
                break
        view = store.at(0)
        calls: List[Callable[[], object]] = [
            lambda: store.get(0, "k0"), lambda: store.put(0, "k0", "x"), lambda: store.clone(0), store.stat, store.versions,
            lambda: store.scan(0), lambda: store.page(0), store.levels, lambda: store.diff(0, 0), batch.finish, lambda: len(view),
            lambda: view["k0"], lambda: "k0" in view, lambda: store.names.update(b=0), lambda: store.names.__delitem__("a"),
            lambda: next(self.scan)]
        for number, call in enumerate(calls):
            try:
                call()
            except errors.Forked as error:
                assert "a.store: the store was opened by another process, of which this one is a child. Use it there" in str(error)
            else:
                raise AssertionError(f"call {number} was taken")

    def filled(self) -> Store:
        store = self.made()
        with store.batch() as batch:
            for number in range(600):
                batch.put(0, b"k%d" % number, b"value %d" % number)
        store.names["a"] = 0
        self.scan = store.scan(0)
        next(self.scan)
        for _ in range(255):
            next(self.scan)
        return store

    def test_a_child_is_refused_and_both_get_no_wrong_value(self) -> None:
        store = self.filled()
        pids = [in_child(lambda: self.refused(store)) for _ in range(4)]
        for number in range(600):
            self.assertEqual(store.get(0, b"k%d" % number), b"value %d" % number)
        for pid in pids:
            self.waited(pid)
        self.assertEqual((len(list(self.scan)), dict(store.names), store.stat().changes), (344, {"a": 0}, 600))

    def test_a_child_that_stays_keeps_no_store_open(self) -> None:
        store = self.filled()
        holds, waits = os.pipe()
        pid = in_child(lambda: os.read(holds, 1) and None)
        program = store.pid
        with mock.patch("castle.store.LIMIT", 3 * CHILD):  # seconds, so that no loaded machine has it killed
            store.close()
        self.assertFalse(store._program.process.was_killed)
        self.assertTrue(is_gone(program))
        with self.opened() as store:
            self.assertEqual(store.get(0, "k1"), b"value 1")
        self.assertEqual(os.waitpid(pid, os.WNOHANG), (0, 0))
        os.write(waits, b"x")
        self.waited(pid)
        for end in (holds, waits):
            os.close(end)

    def test_a_child_closes_nothing_but_its_copies(self) -> None:
        store = self.filled()
        before = sorted(os.listdir(self.folder))

        def leave() -> None:
            nonlocal store
            links = [os.readlink(f"/proc/self/fd/{number}") for number in os.listdir("/proc/self/fd")
                     if os.path.lexists(f"/proc/self/fd/{number}")]
            assert not [link for link in links if "a.store" in link], links
            with store:
                pass
            store.close()
            store.close()
            del store

        self.waited(in_child(leave))
        pid = os.fork()
        if pid == 0:
            os.execv("/bin/sh", ["sh", "-c", "exit 0"])
        self.waited(pid)
        # a child that ends as Python does, with all that is done then
        code = ("store = castle.Store(sys.argv[1]); store.put(0, 'a', '1'); names = os.listdir('.')\n"
                "pid = os.fork()\nif pid == 0: sys.exit(0)\n"
                "print(os.waitpid(pid, 0)[1], store.get(0, 'a'), os.listdir('.') == names); store.close()")
        store.close()
        ran = self.python(code)
        self.assertEqual((ran.stdout, ran.stderr), (b"0 b'1' True\n", b""))
        self.assertEqual(sorted(os.listdir(self.folder)), before)

    def test_a_child_may_open_the_store_once_it_is_closed(self) -> None:
        store = self.filled()
        ready, go = os.pipe()
        told, tells = os.pipe()

        def reopen() -> None:
            try:
                Store(self.path)
            except errors.StoreLocked as error:
                assert f"by process {os.getppid()}." in str(error)
                os.write(tells, b"x")
            assert os.read(ready, 1)
            with Store(self.path) as own:
                own.put(0, "child", "1")

        pid = in_child(reopen)
        os.close(tells)
        self.assertEqual(os.read(told, 1), b"x")
        store.close()
        os.write(go, b"x")
        self.waited(pid)
        for end in (ready, go, told):
            os.close(end)
        self.assertEqual(self.opened().get(0, "child"), b"1")

    def test_multiprocessing_gets_a_clear_error_and_hinders_nobody(self) -> None:
        store = self.filled()
        context = multiprocessing.get_context("fork")
        workers = [context.Process(target=self.refused, args=(store,)) for _ in range(3)]
        for worker in workers:
            worker.start()
        self.assertEqual(store.get(0, "k5"), b"value 5")
        for worker in workers:
            worker.join(CHILD)
            self.assertEqual(worker.exitcode, 0)
        for call in (pickle.dumps, copy.copy, copy.deepcopy):
            with self.assertRaisesRegex(TypeError, "open it in the process that uses it"):
                call(store)

    def test_a_fork_amid_the_exchanges_of_threads_gives_no_wrong_value(self) -> None:
        store, wrong, stop = self.filled(), [], threading.Event()

        def look(first: int) -> None:
            number = first
            while not stop.is_set():
                number = (number + 7) % 600
                found = store.get(0, b"k%d" % number)
                if found != b"value %d" % number:
                    wrong.append((number, found))

        threads = Threads(*(partial(look, first) for first in range(3)))
        try:
            for _ in range(20):
                self.waited(in_child(lambda: self.refused(store)))
        finally:
            stop.set()
        self.assertEqual((threads.join(), wrong), ([], []))

    def test_locks_that_threads_have_at_a_fork_hold_up_no_child(self) -> None:
        store = self.filled()
        has, go = threading.Event(), threading.Event()

        def hold() -> None:
            with store._program.lock, self.scan._reading:
                has.set()
                go.wait(CHILD)

        thread = Threads(hold)
        has.wait(CHILD)
        pid = in_child(lambda: self.refused(store))
        self.waited(pid)
        go.set()
        self.assertEqual(thread.join(), [])
        self.assertEqual((store.get(0, "k1"), len(list(self.scan))), (b"value 1", 344))

    def test_a_fork_amid_an_opening_keeps_no_store_open(self) -> None:
        self.made().close()
        pids: List[int] = []

        def open_and_close() -> None:
            for _ in range(20):
                Store(self.path).close()

        holds, waits = os.pipe()
        thread = Threads(open_and_close)
        while thread.are_alive and len(pids) < 100:
            pids.append(in_child(lambda: os.read(holds, 1) and None))
        failed = thread.join()
        os.close(waits)
        os.write(os.open(f"/proc/self/fd/{holds}", os.O_WRONLY), b"x" * len(pids))
        for pid in pids:
            self.waited(pid)
        os.close(holds)
        self.assertEqual(failed, [])

    def test_a_fork_that_python_does_not_see_is_refused_too(self) -> None:
        store = self.filled()
        library = ctypes.CDLL(None)

        def run() -> None:
            self.refused(store)
            store.close()

        self.waited(in_child(run, fork=library.fork))
        with self.assertRaises(errors.StoreLocked):
            Store(self.path)
        self.assertEqual(store.get(0, "k7"), b"value 7")

    def test_a_child_that_python_does_not_see_keeps_no_store_open(self) -> None:
        store = self.filled()
        pid = in_child(lambda: (signal.alarm(0), signal.pause()), fork=ctypes.CDLL(None).fork)
        with mock.patch("castle.store.LIMIT", 0.3):  # seconds; the child has the program's input open
            store.close()
        self.opened().close()
        os.kill(pid, signal.SIGKILL)
        os.waitpid(pid, 0)
