"""Locks: who may open a store, when it is free again, and what is left beside it."""

import fcntl
import gc
import os
import signal
import subprocess
import sys
import time
import warnings
from pathlib import Path
from typing import Any, List, Union
from unittest import mock

from support import PACKAGE, PRETENDER, StoreCase, in_child, is_gone, on_signal, stop, unprivileged

from castle import Store, errors
from castle.process import find_program

UNDER_ANOTHER_NAME = "the store is open already under another name, or is being copied"


class LockTest(StoreCase):
    def test_a_second_opener_is_refused_at_once(self) -> None:
        store = self.made()
        store.put(0, "a", "1")
        link = os.path.join(self.folder, "link")
        os.symlink(self.path, link)
        paths: List[Union[str, bytes, Path]] = [self.path, link, Path(self.path), os.fsencode(self.path)]
        for path in paths:
            with self.assertRaisesRegex(errors.StoreLocked, f"open already, by process {os.getpid()}. Close it there"):
                Store(path)
        with self.assertRaises(errors.StoreLocked):
            Store.format(self.path, 64, 1000, 10, overwrite=True)
        self.assertIn(b"castle.errors.StoreLocked", self.python("castle.Store(sys.argv[1])").stderr)
        self.assertEqual(store.get(0, "a"), b"1")
        store.close()
        self.assertEqual(self.opened().get(0, "a"), b"1")

    def test_the_lock_holds_until_the_program_has_ended(self) -> None:
        self.made().close()
        code = ("import sys, time; sys.path.insert(0, sys.argv[1])\nimport castle\n"
                "store = castle.Store(sys.argv[2]); print(store.pid, flush=True); time.sleep(100)")
        client = subprocess.Popen([sys.executable, "-c", code, PACKAGE, self.path], stdout=subprocess.PIPE)
        assert client.stdout
        program = int(client.stdout.readline())
        stop(program)
        client.kill()
        client.wait()
        client.stdout.close()
        for name in ("a.store", "b.store"):
            with self.assertRaises(errors.StoreLocked):
                Store(os.path.join(self.folder, name))
            if name == "a.store":
                os.rename(self.path, os.path.join(self.folder, "b.store"))
        os.rename(os.path.join(self.folder, "b.store"), self.path)
        os.kill(program, signal.SIGCONT)
        for _ in range(100):
            try:
                Store(self.path).close()
                return
            except errors.StoreLocked:
                time.sleep(0.1)
        self.fail("the lock is held for ever")

    def test_a_store_is_locked_under_each_of_its_names(self) -> None:
        store = self.made()
        other, third = os.path.join(self.folder, "b.store"), os.path.join(self.folder, "c.store")
        os.link(self.path, other)
        os.rename(self.path, third)
        for path in (other, third):
            with self.assertRaisesRegex(errors.StoreLocked, UNDER_ANOTHER_NAME):
                Store(path)
            with self.assertRaisesRegex(errors.StoreLocked, UNDER_ANOTHER_NAME):
                Store.format(path, 64, 1000, 10, overwrite=True)
            with self.assertRaises(errors.StoreLocked):
                Store(path, read_only=True)
            ran = self.python("castle.Store(sys.argv[2])", path)
            self.assertIn(UNDER_ANOTHER_NAME.encode(), ran.stderr)
        self.assertEqual(sorted(os.listdir(self.folder)), ["a.store.lock", "b.store", "c.store"])
        store.put(0, "a", "1")
        store.close()
        with Store(other) as store:
            self.assertEqual(store.get(0, "a"), b"1")
            store.put(0, "b", "2")
        with Store(third) as store:
            self.assertEqual((store.get(0, "a"), store.get(0, "b")), (b"1", b"2"))

    def test_a_store_that_was_moved_goes_on_and_touches_nothing_at_its_old_name(self) -> None:
        store = self.made()
        store.names["base"] = 0
        os.rename(self.path, self.path + ".moved")
        for call in (store.levels, lambda: store.names.update(other=0), lambda: store.names.__delitem__("base")):
            with self.assertRaisesRegex(errors.StoreMoved, "a.store: .*: the file is no longer at this path"):
                call()
        store.put("base", "a", "1")
        self.assertEqual(sorted(os.listdir(self.folder)), ["a.store.lock", "a.store.moved", "a.store.names"])
        self.assertEqual(self.names_told(), ["base 0"])
        os.rename(self.path + ".moved", self.path)
        store.names["other"] = 0
        self.assertEqual(store.levels().changes, 1)

    def test_a_lock_file_that_is_replaced_meanwhile_is_locked_anew(self) -> None:
        self.made().close()
        real, calls = fcntl.flock, []

        def flock(number: int, how: int) -> None:
            if not calls:
                os.remove(self.path + ".lock")
                self.written("a.store.lock", "")
            calls.append(number)
            real(number, how)

        with mock.patch.object(fcntl, "flock", flock):
            self.opened()
        self.assertEqual(len(calls), 3)
        with self.assertRaises(errors.StoreLocked):
            Store(self.path)

    def test_the_lock_file_has_the_number_of_its_holder_alone(self) -> None:
        self.made().close()
        self.written("a.store.lock", "12345678901234567890\n" * 3)
        self.opened()
        self.assertEqual(self.bytes_of("a.store.lock"), f"{os.getpid()}\n".encode())
        with self.assertRaisesRegex(errors.StoreLocked, rf"by process {os.getpid()}\."):
            Store(self.path)

    def test_a_lock_that_can_not_be_opened_is_named(self) -> None:
        self.made().close()
        os.remove(self.path + ".lock")
        os.mkdir(self.path + ".lock")
        for call in (lambda: Store(self.path), lambda: Store.format(self.path, 64, 1000, 10, overwrite=True)):
            with self.assertRaisesRegex(errors.CastleError, "a.store: the lock .*a.store.lock can't be opened: Is a directory. Mend"):
                call()

    def test_the_program_has_both_locks_and_is_told_their_numbers(self) -> None:
        store = self.made()
        with open(f"/proc/{store.pid}/environ", "rb") as file:
            told = [line for line in file.read().split(b"\0") if line.startswith(b"CASTLE_LOCKS=")]
        numbers = [int(number) for number in told[0].partition(b"=")[2].split(b",")]
        self.assertEqual([os.readlink(f"/proc/{store.pid}/fd/{number}") for number in numbers],
                         [os.path.realpath(self.path + ".lock"), os.path.realpath(self.path)])
        # and where there is no file yet, the second number is empty
        stub = self.written("stub", '#!/bin/sh\necho "$1 $CASTLE_LOCKS" >"$2.told"\nreadlink "/proc/self/fd/${CASTLE_LOCKS%,}" >>"$2.told"\n')
        os.chmod(stub, 0o755)
        new = os.path.join(self.folder, "new.store")
        Store.format(new, 64, 1000, 10, program=stub)
        self.assertRegex(self.bytes_of("new.store.told").decode(), r"^format [0-9]+,\n.*/new\.store\.lock\n$")

    def test_locks_have_no_number_of_a_standard_stream(self) -> None:
        self.made().close()
        code = ("import sys; sys.path.insert(0, sys.argv[1])\nimport castle, os\nos.close(0)\n"
                "with castle.Store(sys.argv[2]) as store:\n    store.put(0, 'a', '1')\n    print(store.get(0, 'a'))\n"
                "    held = [os.readlink(f'/proc/{store.pid}/fd/{number}') for number in os.listdir(f'/proc/{store.pid}/fd')]\n"
                "    print(sorted(os.path.basename(path) for path in held if 'a.store' in path))")
        ran = subprocess.run([sys.executable, "-c", code, PACKAGE, self.path], capture_output=True)
        self.assertRegex(ran.stdout.decode(), r"^b'1'\n\['a.store', ('a.store', )?'a.store.lock'\]\n$")
        self.assertEqual(ran.stderr, b"")


class GarbageTest(StoreCase):
    def test_a_store_that_nobody_closed_is_free_once_nobody_has_it(self) -> None:
        self.made().close()
        for turn in range(3):
            store = Store(self.path)
            store.put(0, "a", str(turn))
            pid = store.pid
            with self.assertWarnsRegex(ResourceWarning, "unclosed store .*a.store"):
                del store  # at once: it is in no circle
            self.assertTrue(is_gone(pid))
        circle: List[Any] = [Store(self.path)]
        circle.append(circle)
        with self.assertWarns(ResourceWarning):
            del circle
            gc.collect()
        with warnings.catch_warnings():
            warnings.simplefilter("error")
            store = self.opened()
            self.assertEqual(store.get(0, "a"), b"2")
            store.close()
            del store
            gc.collect()

    def test_what_went_wrong_keeps_no_store_open(self) -> None:
        self.made().close()
        self.addCleanup(gc.enable)
        gc.disable()  # so that a circle would stay

        def kill(store: Store) -> None:
            scan = store.scan(0)
            os.kill(store.pid, signal.SIGKILL)
            for call in (lambda: store.get(0, "a"), lambda: next(scan), lambda: store.at(0)["a"], store.levels):
                try:  # assertRaises would clear the frames of the exception
                    call()
                except errors.Killed:
                    continue
                self.fail("it was not told")

        def refuse(store: Store) -> None:
            batch = store.batch(return_exceptions=True)
            batch.put(0, b"k" * 3000, b"")
            batch.put(7, b"k", b"")
            self.assertEqual(len(batch.finish()), 2)
            for call in (lambda: store.get("none", "a"), lambda: store.put(7, "a", ""), lambda: store.names.update(a=7)):
                with self.assertRaises(errors.CastleError):
                    call()

        def misname(store: Store) -> None:
            with self.assertRaises(errors.NameFault):
                store.get("a", "a")

        for run in (kill, refuse, misname):
            if run is misname:
                self.written("a.store.names", "no names\n")
            with warnings.catch_warnings():
                warnings.simplefilter("ignore", errors.NamesWarning)
                store = Store(self.path)
            run(store)
            with self.assertWarns(ResourceWarning):
                del store
        os.remove(self.path + ".names")
        self.opened()

    def test_what_is_made_of_a_store_keeps_it_open(self) -> None:
        self.made().close()
        for make in (lambda store: store.scan(0), lambda store: store.batch(), lambda store: store.at(0),
                     lambda store: store.diff(0, 0), lambda store: store.names):
            kept = make(Store(self.path))
            with self.assertRaises(errors.StoreLocked):
                Store(self.path)
            with self.assertWarns(ResourceWarning):
                del kept
                gc.collect()
            self.opened().close()

    def test_a_store_that_is_open_at_the_end_of_python_ends_with_it(self) -> None:
        self.made().close()
        for code in ("store = castle.Store(sys.argv[1]); store.put(0, 'a', '1'); print(store.pid)",
                     "store = castle.Store(sys.argv[1]); store.put(0, 'a', '1'); print(store.pid, flush=True); 1 / 0",
                     "store = castle.Store(sys.argv[1]); store.put(0, 'a', '1'); print(store.pid, flush=True); os._exit(0)"):
            ran = self.python(code)
            self.assertTrue(is_gone(int(ran.stdout)))
            self.assertEqual(b"ResourceWarning: unclosed store" in ran.stderr, "_exit" not in code)
        with self.opened() as store:
            self.assertEqual((store.get(0, "a"), store.stat().changes), (b"1", 3))

    def test_a_thread_that_waits_at_the_end_of_python_does_not_keep_it(self) -> None:
        self.made().close()
        ran = self.python("import signal, threading\nstore = castle.Store(sys.argv[1])\nos.kill(store.pid, signal.SIGSTOP)\n"
                          "print(store.pid, flush=True)\n"
                          "threading.Thread(target=store.get, args=(0, 'a'), daemon=True).start()\n"
                          "import time; time.sleep(0.2)")
        os.kill(int(ran.stdout), signal.SIGKILL)
        self.assertEqual(ran.returncode, 0)

    def test_a_program_that_does_not_end_is_ended(self) -> None:
        store = self.made()
        store.put(0, "a", "1")
        stop(store.pid)
        with mock.patch("castle.store.LIMIT", 0.3):
            store.close()
        self.assertEqual(self.opened().get(0, "a"), b"1")

    def test_a_child_that_runs_something_else_keeps_no_lock(self) -> None:
        store = self.made()
        child = subprocess.Popen(["sleep", "100"], close_fds=False)
        self.addCleanup(child.wait)
        self.addCleanup(child.kill)
        store.close()
        self.opened()

    def test_an_opening_that_fails_or_is_cut_off_frees_all(self) -> None:
        self.made().close()
        with mock.patch.object(Store, "_open", side_effect=KeyboardInterrupt):
            with self.assertRaises(KeyboardInterrupt):
                Store(self.path)
        stub = self.written("stub", "#!/bin/sh\nsleep 100 & echo $! >\"$2.child\"; exec sleep 100\n")  # as a launcher that builds
        os.chmod(stub, 0o755)

        def interrupt(*_: object) -> None:
            if os.path.exists(self.path + ".child") and os.path.getsize(self.path + ".child"):
                signal.setitimer(signal.ITIMER_REAL, 0)
                raise KeyboardInterrupt

        on_signal(self, interrupt)
        signal.setitimer(signal.ITIMER_REAL, 0.05, 0.05)
        with self.assertRaises(KeyboardInterrupt):
            Store(self.path, program=stub)
        self.assertTrue(is_gone(int(self.bytes_of("a.store.child"))))
        self.opened()


class PathTest(StoreCase):
    """What is no store, and what is left behind there."""

    def test_what_is_no_store_is_told_and_nothing_is_left(self) -> None:
        os.mkdir(os.path.join(self.folder, "folder"))
        os.mkfifo(os.path.join(self.folder, "pipe"))
        os.symlink("nowhere", os.path.join(self.folder, "broken"))
        os.symlink("circle", os.path.join(self.folder, "circle"))
        self.written("text", "no store\n" * 1000)
        self.written("empty", "")
        cases = [("text", errors.NotAStore, "text: open: the file is no store. Look at the path. `castle --overwrite format FILE"),
                 ("empty", errors.NotAStore, "empty: open: the file is empty, and no store. Look at the path. `castle format FILE"),
                 ("folder", errors.NotAStore, "folder: open: it is a folder, and no store. Give the path"),
                 ("pipe", errors.NotAStore, "pipe: open: it is no plain file, and no store. Give the path"),
                 ("none", errors.StoreMissing, "none: there is no such file. Look at the path. `castle format FILE"),
                 ("text/none", errors.StoreMissing, "text/none: there is no such file."),
                 ("broken", errors.StoreMissing, "broken: there is no such file, where the symbolic link leads."),
                 ("circle", errors.CastleError, "circle: ")]
        before = sorted(os.listdir(self.folder))
        for name, kind, what in cases:
            for words in ({}, {"read_only": True}):
                with self.assertRaises(kind) as caught:
                    Store(os.path.join(self.folder, name), **words)  # type: ignore[arg-type]
                self.assertIn(what, str(caught.exception))
        for path, what in (("", "the path is empty."), (b"", "the path is empty."), ("a\0b", "a\\x00b: the path has a zero byte.")):
            for call in (Store, lambda path: Store.format(path, 4, 10, 10)):
                with self.assertRaises(errors.StoreMissing) as missing:
                    call(path)
                self.assertIn(what, str(missing.exception))
        self.assertEqual(sorted(os.listdir(self.folder)), before)
        self.assertEqual(self.bytes_of("text"), b"no store\n" * 1000)

    def test_a_path_may_be_bytes_and_have_blanks(self) -> None:
        path = os.fsencode(os.path.join(self.folder, "a b * é.store"))
        Store.format(path, 64, 1000, 10)
        with Store(path) as store:
            store.put(0, "a", "1")
            self.assertEqual((store.path, store.get(0, "a")), (os.fsdecode(path), b"1"))
        with self.assertRaises(errors.WrongUsage):
            Store.format(os.path.join(os.fsencode(self.folder), b"\xff"), 64, 1000, 10)

    def test_a_format_that_is_refused_leaves_nothing(self) -> None:
        text = self.written("text", "precious")
        os.mkdir(os.path.join(self.folder, "folder"))
        before = sorted(os.listdir(self.folder))
        for name, overwrite, kind, what in (
                ("text", False, errors.StoreExists, "text: a file of another kind is there already. Take another path"),
                ("folder", False, errors.StoreExists, "folder: a folder is there already"),
                ("folder", True, errors.StoreExists, "folder: a folder is there already"),
                ("none/a.store", False, errors.StoreMissing, "none/a.store: there is no folder")):
            with self.assertRaises(kind) as caught:
                Store.format(os.path.join(self.folder, name), 64, 1000, 10, overwrite=overwrite)
            self.assertIn(what, str(caught.exception))
        with self.assertRaises(errors.WrongUsage):
            Store.format(self.path, 3, 1000, 10)
        with self.assertRaises(errors.WrongUsage):
            Store.format(text, 3, 1000, 10, overwrite=True)
        with self.assertRaises(errors.ProgramMissing):
            Store.format(self.path, 4, 1000, 10, program="/none")
        self.assertEqual((sorted(os.listdir(self.folder)), self.bytes_of("text")), (before, b"precious"))
        Store.format(text, 4, 1000, 10, overwrite=True)
        Store(text).close()

    def test_a_file_that_is_empty_may_be_formatted_and_a_store_only_over(self) -> None:
        self.written("a.store", "")
        Store.format(self.path, 64, 1000, 10)
        with self.opened() as store:
            store.put(0, "a", "1")
        with self.assertRaisesRegex(errors.StoreExists, "a.store: a castle store is there already. Take another path, or format"):
            Store.format(self.path, 64, 1000, 10)
        with self.opened() as store:
            self.assertEqual(store.get(0, "a"), b"1")

    def test_where_permission_is_missing_is_told(self) -> None:
        self.made().close()
        os.remove(self.path + ".lock")
        closed = os.path.join(self.folder, "closed")
        os.mkdir(closed)
        Store.format(os.path.join(closed, "a.store"), 64, 1000, 10)
        os.remove(os.path.join(closed, "a.store.lock"))
        os.chmod(os.path.join(closed, "a.store"), 0o666)
        self.addCleanup(os.chmod, closed, 0o755)
        os.chmod(self.path, 0)
        os.chmod(self.folder, 0o755)
        cases = [(self.path, 0o755, "the file can't be opened: Permission denied"),
                 (os.path.join(closed, "a.store"), 0o111, f"the folder {closed} can't be opened: Permission denied"),
                 (os.path.join(closed, "a.store"), 0, f"the folder {closed} can't be opened: Permission denied"),
                 (os.path.join(closed, "a.store"), 0o555, "a.store.lock can't be opened: Permission denied")]
        for path, mode, what in cases:
            os.chmod(closed, mode)
            with unprivileged(), self.assertRaises(errors.CastleError) as caught:
                Store(path)
            self.assertIn(what, str(caught.exception))
            self.assertEqual(type(caught.exception), errors.CastleError if "lock" in what else errors.DeviceFailed)
        os.chmod(closed, 0o755)
        with unprivileged(), self.assertRaisesRegex(errors.CastleError, "new.store: the lock .* can't be opened: Permission denied"):
            Store.format(os.path.join(closed, "new.store"), 64, 1000, 10)
        self.assertEqual(os.listdir(closed), ["a.store"])


class ReadOnlyTest(StoreCase):
    def filled(self) -> None:
        with self.made() as store:
            store.put(0, "a", "1")
            store.names["next"] = store.clone(0)
            store.put("next", "a", "2")

    def looked_at(self, store: Store) -> None:
        """It answers all that changes nothing, refuses what changes something, and leaves nothing behind."""
        before = {name: self.bytes_of(name) for name in os.listdir(self.folder)}
        self.assertTrue(store.read_only)
        self.assertEqual((store.get("next", "a"), list(store.scan(0)), len(list(store.diff(0, 1))), store.levels().changes),
                         (b"2", [(b"a", b"1")], 1, 3))
        view = store.at("next")
        for call in (lambda: store.put(1, "a", "3"), lambda: store.delete(1, "a"), lambda: store.clone(0), view.clear,
                     lambda: view.update(a=b"3"), lambda: store.names.update(b=0), lambda: store.names.__delitem__("next")):
            with self.assertRaisesRegex(errors.ReadOnly, "open for reading alone, as a private copy"):
                call()
        with store.batch(return_exceptions=True) as batch:
            batch.put(1, "a", "3")
            batch.get(1, "a")
        self.assertEqual([type(batch.results[0]), batch.results[1]], [errors.ReadOnly, b"2"])
        self.assertEqual((store.stat().changes, dict(store.names)), (3, {"next": 1}))
        served = store._served
        self.assertNotEqual(os.path.dirname(served), self.folder)
        store.close()
        self.assertFalse(os.path.exists(os.path.dirname(served)))
        self.assertEqual({name: self.bytes_of(name) for name in os.listdir(self.folder)}, before)

    def test_a_store_is_read_from_a_private_copy_where_this_is_asked_for(self) -> None:
        self.filled()
        store = Store(self.path, read_only=True)
        with Store(self.path) as other:  # needs no lock
            self.assertFalse(other.read_only)
            other.put(1, "b", "4")
            self.assertIsNone(store.get(1, "b"))
            with self.assertRaisesRegex(errors.StoreLocked, "a copy of it would mix what stood there at different times"):
                Store(self.path, read_only=True)
            other.put(1, "a", "5")
        self.assertEqual(store.get(1, "a"), b"2")
        self.looked_at(store)

    def test_a_file_that_may_be_read_alone_is_read_from_a_private_copy(self) -> None:
        self.filled()
        os.chmod(self.folder, 0o755)
        os.chmod(self.path, 0o444)
        with unprivileged():
            if not os.access(find_program(), os.X_OK, effective_ids=True):
                self.skipTest("the program can't be run by everybody")
            self.looked_at(Store(self.path))
        self.assertEqual(sorted(os.listdir(self.folder)), ["a.store", "a.store.lock", "a.store.names"])

    def test_the_copy_is_removed_whatever_ends_the_store(self) -> None:
        self.filled()
        store = Store(self.path, read_only=True)
        served = store._served
        self.assertEqual(os.waitpid(in_child(store.close), 0)[1], 0)
        self.assertTrue(os.path.exists(served))
        with self.assertWarns(ResourceWarning):
            del store
        self.assertFalse(os.path.exists(os.path.dirname(served)))
        store = Store(self.path, read_only=True)
        os.kill(store.pid, 9)
        with self.assertRaises(errors.Killed):
            store.get(0, "a")
        store.close()
        self.assertFalse(os.path.exists(os.path.dirname(store._served)))
        copies = os.path.join(self.folder, "copies")
        os.mkdir(copies)
        with mock.patch("tempfile.tempdir", copies):  # where nobody else makes any
            with self.assertRaises(errors.NotAStore):
                Store(self.written("text", "no store"), read_only=True)
            with self.assertRaises(errors.ProgramMissing):
                Store(self.path, read_only=True, program="/none")
        self.assertEqual(os.listdir(copies), [])
        ran = self.python("store = castle.Store(sys.argv[1], read_only=True); print(store._served)")
        self.assertFalse(os.path.exists(os.path.dirname(ran.stdout.decode().strip())))

    def test_a_copy_that_can_not_be_made_is_told(self) -> None:
        self.filled()
        with mock.patch("shutil.copyfileobj", side_effect=OSError(28, "No space left on device")):
            with self.assertRaisesRegex(errors.CastleError, "a private copy can't be made: No space left on device. Make room in"):
                Store(self.path, read_only=True)
        Store(self.path).close()


class ProgramTest(StoreCase):
    def test_castle_program_names_the_program(self) -> None:
        with mock.patch.dict(os.environ, CASTLE_PROGRAM=PRETENDER):
            with Store(self.written("a.store", "refuse 17")) as store, self.assertRaises(errors.Frozen):
                store.get(0, "a")
