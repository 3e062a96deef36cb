"""Backups: a copy is the store as it was at one time, whole and under its name, or there is none."""

from __future__ import annotations

import contextlib
import errno
import fcntl
import io
import os
import pty
import signal
import struct
import tempfile
import termios
import threading
import unittest
from typing import Dict, List, Optional
from unittest import mock

from session import Session, carried_out
from support import NOBODY, StoreCase, Threads, on_signal, unprivileged

import castle
from castle import Store, errors, keeping, progress, rescue, storecopy
from castle.progress import Line
from castle.shell import COMMANDS, Shell

BLOCK = 4096


class BackupCase(StoreCase):
    def setUp(self) -> None:
        super().setUp()
        self.to = os.path.join(self.folder, "to.store")

    def filled(self, count: int = 20) -> Store:
        """An open store with so many keys at version 0, and a name."""
        store = self.made(8, 100000, 100)
        with store.batch() as batch:
            for number in range(count):
                batch.put(0, f"k{number:04}", str(number))
        store.names.assign({"base": 0}, {"base": "What was"})
        return store

    def expect_left(self, *names: str) -> None:
        """These files are in the folder, beside the store's own and locks of stores that were opened."""
        left = [name for name in os.listdir(self.folder) if not name.startswith("a.store") and not name.endswith(".lock")]
        self.assertEqual(sorted(left), sorted(names))

    def pairs(self, path: str) -> Dict[bytes, bytes]:
        with Store(path) as store:
            return dict(store.at(0))


class BackupTest(BackupCase):
    def test_a_copy_of_a_file_has_its_bytes_and_names(self) -> None:
        self.filled().close()
        before, listed = os.stat(self.path), sorted(os.listdir(self.folder))
        os.remove(self.path + ".lock")
        castle.backup(self.path, self.to)
        self.assertEqual(self.bytes_of("to.store"), self.bytes_of("a.store"))
        self.assertEqual(self.bytes_of("to.store.names"), self.bytes_of("a.store.names"))
        self.assertEqual(sorted(os.listdir(self.folder)), sorted({*listed, "to.store", "to.store.names"} - {"a.store.lock"}))
        self.assertEqual(os.stat(self.path).st_mtime_ns, before.st_mtime_ns)
        with Store(self.to) as store:
            self.assertEqual((dict(store.names), store.names.about("base").description, len(store.at(0))), ({"base": 0}, "What was", 20))

    def test_an_open_store_goes_on_behind_its_copy(self) -> None:
        store = self.filled()
        scan = store.scan(0)
        next(scan)
        with store.batch() as batch:
            batch.put(0, "before", "1")
            store.backup(self.to)
            batch.put(0, "behind", "1")
        self.assertEqual(len(list(scan)), 19)
        self.assertEqual({key for key in self.pairs(self.to) if key.startswith(b"be")}, {b"before"})
        self.assertEqual(store.get(0, "behind"), b"1")
        self.assertTrue(Store.check(self.to))

    def test_a_store_that_is_open_elsewhere_is_not_copied(self) -> None:
        store = self.filled()
        with self.assertRaises(errors.StoreLocked):
            castle.backup(self.path, self.to)
        self.expect_left()
        store.close()
        with open(self.path, "rb") as other:
            fcntl.flock(other, fcntl.LOCK_EX)
            with self.assertRaises(errors.StoreLocked):
                castle.backup(self.path, self.to)
        castle.backup(self.path, self.to)

    def test_nobody_opens_the_store_while_it_is_copied(self) -> None:
        self.filled().close()
        refused: List[str] = []

        def tell(what: str, done: int, total: Optional[int]) -> None:
            if what == "bytes copied":
                with self.assertRaises(errors.StoreLocked):
                    Store(self.path)
                refused.append(what)

        castle.backup(self.path, self.to, progress=tell)
        self.assertTrue(refused)
        self.opened().put(0, "a", "1")

    def test_a_file_that_takes_the_place_of_the_store_amid_the_copy_is_not_copied(self) -> None:
        store = self.filled()
        data, number = self.bytes_of("a.store"), os.lseek

        def replaced(descriptor: int, place: int, how: int) -> int:
            if os.path.exists(self.path + "2"):
                os.replace(self.path + "2", self.path)
            return number(descriptor, place, how)

        for run in (store.backup, lambda to: castle.backup(self.path, to)):
            self.written("a.store2", "another")
            with mock.patch.object(os, "lseek", replaced):
                run(self.to)
            self.assertEqual(self.bytes_of("to.store"), data)
            self.assertEqual(self.bytes_of("a.store"), b"another")
            store.close()
            for name in ("to.store", "to.store.names"):
                os.remove(os.path.join(self.folder, name))
            with open(self.path, "wb") as file:
                file.write(data)

    def test_what_is_there_stays_unless_it_is_to_be_overwritten(self) -> None:
        store = self.filled()
        for name in ("to.store", "to.store.names"):
            path = self.written(name, "mine")
            with self.assertRaises(errors.StoreExists):
                store.backup(self.to)
            self.assertEqual(self.bytes_of(name), b"mine")
            os.remove(path)
        self.written("to.store", "mine")
        self.written("to.store.names", "other 7\n")
        store.backup(self.to, overwrite=True)
        self.assertEqual(self.bytes_of("to.store.names"), self.bytes_of("a.store.names"))
        del store.names["base"]
        os.remove(self.path + ".names")
        store.backup(self.to, overwrite=True)
        self.expect_left("to.store")
        for name in ("a.store", "a.store.names", "a.store.lock"):
            with self.assertRaises(errors.StoreExists):
                store.backup(os.path.join(self.folder, name), overwrite=True)
        self.assertEqual(store.get(0, "k0001"), b"1")

    def test_a_damaged_store_is_not_copied(self) -> None:
        store = self.damaged()
        with self.assertRaisesRegex(errors.NotSound, "no backup was made: damaged block 7"):
            store.backup(self.to)
        store.close()
        with self.assertRaisesRegex(errors.NotSound, "salvage"):
            castle.backup(self.path, self.to)
        self.expect_left()

    def test_a_store_that_was_moved_or_closed_is_not_copied(self) -> None:
        store = self.filled()
        os.rename(self.path, self.path + "2")
        with self.assertRaises(errors.StoreMoved):
            store.backup(self.to)
        store.close()
        with self.assertRaises(errors.StoreClosed):
            store.backup(self.to)
        with self.assertRaises(errors.StoreMissing):
            castle.backup(self.path, self.to)
        with self.assertRaises(errors.NoHub):
            castle.backup("unix:none", self.to)
        self.expect_left()

    def test_a_copy_beside_a_thread_that_writes_is_of_one_time(self) -> None:
        store, stops = self.filled(0), threading.Event()

        def write() -> None:
            number = 0
            while not stops.is_set():
                with store.batch() as batch:
                    for _ in range(7):
                        batch.put(0, f"k{number:06}", "")
                        number += 1

        thread = Threads(write)
        try:
            for turn in range(5):
                store.backup(self.to, overwrite=turn > 0)
                keys = list(self.pairs(self.to))
                self.assertEqual(keys, [b"k%06d" % number for number in range(len(keys))])
        finally:
            stops.set()
            self.assertEqual(thread.join(), [])

    def test_holes_stay_holes(self) -> None:
        self.filled().close()
        size = os.stat(self.path).st_size
        with open(self.path, "r+b") as file:
            file.truncate(size + (64 << 20))
            file.seek(size + (32 << 20))
            file.write(b"x")
        castle.backup(self.path, self.to)
        found = os.stat(self.to)
        self.assertEqual(found.st_size, size + (64 << 20))
        self.assertLess(found.st_blocks * 512, 16 << 20)
        self.assertEqual(self.bytes_of("to.store"), self.bytes_of("a.store"))

    def test_a_file_system_without_holes_or_links(self) -> None:
        self.filled().close()
        seek = os.lseek

        def refusing(descriptor: int, place: int, how: int) -> int:
            if how in (os.SEEK_DATA, os.SEEK_HOLE):
                raise OSError(errno.EINVAL, "Invalid argument")
            return seek(descriptor, place, how)

        with mock.patch.object(os, "lseek", refusing), mock.patch.object(os, "link", side_effect=OSError(errno.EPERM, "no links")):
            castle.backup(self.path, self.to)
        self.assertEqual(self.bytes_of("to.store"), self.bytes_of("a.store"))

    def test_a_write_that_is_short_or_fails(self) -> None:
        self.filled().close()
        write = os.pwrite
        with mock.patch.object(os, "pwrite", lambda descriptor, data, place: write(descriptor, data[:1000], place)):
            castle.backup(self.path, self.to)
        self.assertEqual(self.bytes_of("to.store"), self.bytes_of("a.store"))
        os.remove(self.to)
        os.remove(self.to + ".names")
        for name in ("pwrite", "fsync", "ftruncate", "mkdir", "replace"):
            failing = mock.patch.object(os, name, side_effect=OSError(errno.ENOSPC, "No space left on device"))
            with failing, self.assertRaisesRegex(errors.CastleError, "to.store: the backup can't be made: No space left"):
                castle.backup(self.path, self.to)
            self.expect_left()
        self.opened()

    def test_a_device_that_fails_the_new_store_is_told_of_its_path(self) -> None:
        self.filled().close()

        def failing(program: str, place: storecopy.Place, *_: object) -> None:
            raise errors.DeviceFault(file=place.store, command="put")

        with mock.patch.object(rescue, "_check_copy", failing), self.assertRaisesRegex(
                errors.DeviceFault, f"^{self.to}: put: the device failed while the new store was made: .*do it again; nothing was made.$"):
            castle.backup(self.path, self.to)
        self.expect_left()

    def test_a_new_name_is_synced(self) -> None:
        self.filled().close()
        calls: List[str] = []
        sync, link = os.fsync, os.link

        def synced(descriptor: int) -> None:
            calls.append(f"sync {os.path.basename(os.readlink(f'/proc/self/fd/{descriptor}'))}")
            sync(descriptor)

        def linked(old: str, new: str) -> None:
            calls.append(f"link {os.path.basename(new)}")
            link(old, new)

        with mock.patch.object(os, "fsync", synced), mock.patch.object(os, "link", linked):
            castle.backup(self.path, self.to)
        self.assertEqual(calls[-4:], ["sync made.store", "sync made.names", "link to.store", f"sync {os.path.basename(self.folder)}"])

    def test_an_interrupt_leaves_nothing(self) -> None:
        store = self.filled()
        for stop in ("bytes copied", "checking the copy"):

            def tell(what: str, done: int, total: Optional[int]) -> None:
                if what == stop:
                    raise KeyboardInterrupt

            with self.assertRaises(KeyboardInterrupt):
                store.backup(self.to, progress=tell)
            self.expect_left()
        store.put(0, "a", "1")
        store.backup(self.to)

    def test_a_command_amid_the_copy_is_refused(self) -> None:
        store = self.filled()

        def put() -> None:
            with self.assertRaises(errors.Busy):
                store.put(0, "amid", "1")
            with self.assertRaises(errors.Busy), store.batch() as batch:
                batch.put(0, "amid", "1")
            with self.assertRaises(errors.Busy):
                store.close()
            came.append("put")

        came: List[str] = []
        on_signal(self, lambda *_: put())
        store.backup(self.to, progress=lambda what, *_: signal.raise_signal(signal.SIGALRM) if what == "bytes copied" else None)
        self.assertTrue(came)
        store.put(0, "behind", "1")
        self.assertEqual(self.bytes_of("to.store")[:4096], self.bytes_of("a.store")[:4096])
        self.assertEqual(set(self.pairs(self.to)) & {b"amid", b"behind"}, set())

    def test_permissions_and_another_user(self) -> None:
        self.filled().close()
        os.chmod(self.path, 0o604)
        os.chmod(self.folder, 0o777)
        before = os.umask(0)
        try:
            modes: List[int] = []
            castle.backup(self.path, self.to, progress=lambda *_: modes.extend(self.hidden_modes()))
        finally:
            os.umask(before)
        self.assertEqual(os.stat(self.to).st_mode & 0o777, 0o604)
        self.assertEqual(set(modes), {0o700})
        if os.geteuid() == 0:
            with unprivileged():
                castle.backup(self.path, self.to + "2")
            self.assertEqual(os.stat(self.to + "2").st_uid, NOBODY)
            os.chmod(self.path, 0o600)
            with unprivileged(), self.assertRaises(errors.CastleError):
                castle.backup(self.path, self.to + "3")

    def hidden_modes(self) -> List[int]:
        """The permissions of folders in which something is made."""
        found = [name for name in os.listdir(self.folder) if name.startswith(".castle-")]
        return [os.stat(os.path.join(self.folder, name)).st_mode & 0o777 for name in found]


class ShellTest(BackupCase):
    def test_one_command_and_a_script(self) -> None:
        store = self.filled()
        self.assertEqual(carried_out(store, "backup to.store2 @0")[2], 1)
        self.assertEqual(carried_out(store, f"backup {self.to}", "put a 1"), (f"wrote {self.to}\ndone\n", "", 0))
        out, said, status = self.ran(self.path, "backup", "b.store")
        self.assertEqual((out, status), ("", 2))
        self.assertRegex(said, "the store is open")
        store.close()
        self.assertEqual(self.ran(self.path, "backup", "b.store"), ("wrote b.store\n", "", 0))
        self.assertEqual(self.ran("--json", self.path, "backup", "--overwrite", "b.store"), ('{"wrote": "b.store"}\n', "", 0))
        out, said, status = self.ran(self.path, "backup", "b.store")
        self.assertEqual((out, status), ("", 2))
        self.assertRegex(said, "b.store: a castle store is there already. Take another path, or ask to overwrite it")

    def test_at_a_prompt(self) -> None:
        self.filled().close()
        session = Session(self.folder, self.path)
        self.addCleanup(session.kill)
        session.until("> $")
        self.assertEqual(session.type("backup to.store")[0], "wrote to.store")
        self.assertEqual(session.type("backup to.store")[0], "error: to.store: a castle store is there already")
        session.type("quit", None)
        self.assertEqual(session.close(), 0)
        self.assertEqual(len(self.pairs(self.to)), 20)

    def test_a_kill_leaves_no_store_under_its_name(self) -> None:
        self.filled().close()
        code = "castle.backup(sys.argv[1], sys.argv[2], progress=lambda *_: os.kill(os.getpid(), 9))"
        self.assertEqual(self.python(code, self.to).returncode, -signal.SIGKILL)
        self.assertFalse(os.path.exists(self.to))
        castle.backup(self.path, self.to)


class ProgressTest(unittest.TestCase):
    class Terminal(io.StringIO):
        def isatty(self) -> bool:
            return True

    def test_a_line_is_shown_at_a_terminal_once_work_takes_long(self) -> None:
        out, now = self.Terminal(), [0.0]
        line = Line(out, lambda: now[0])
        for at, text in ((0.4, "early"), (0.5, "half"), (0.9, "soon"), (1.0, "one"), (1.2, "no")):
            now[0] = at
            line.show(lambda: text)
        self.assertEqual(out.getvalue(), "\rhalf\rone ")
        line.clear()
        self.assertEqual(out.getvalue(), "\rhalf\rone \r    \r")

    def test_a_line_stays_within_one_row_of_the_terminal(self) -> None:
        own, other = pty.openpty()
        self.addCleanup(os.close, own)
        with open(other, "w", encoding="utf-8") as out:
            fcntl.ioctl(other, termios.TIOCSWINSZ, struct.pack("HHHH", 24, 30, 0, 0))
            line = Line(out, iter((0.0, 1.0, 2.0)).__next__)
            line.show(lambda: "checking the copy, level 12 is counted, blocks read: 1,234 of 5,678")
            self.assertEqual(os.read(own, 4096), b"\rchecking the copy, level 12 i")
            self.assertEqual((progress.columns(out), progress.columns(self.Terminal())), (30, 80))

    def test_nothing_is_shown_where_there_is_no_terminal(self) -> None:
        out, now = io.StringIO(), [0.0]
        line = Line(out, lambda: now[0])
        now[0] = 9.0
        line.show(lambda: "half")
        line.clear()
        self.assertEqual(out.getvalue(), "")

    def test_commands_tell_how_far_they_are(self) -> None:
        with tempfile.TemporaryDirectory() as folder:
            path, to = os.path.join(folder, "a.store"), os.path.join(folder, "b.store")
            Store.format(path, 8, 1000, 10)
            with Store(path) as store, store.batch() as batch:
                batch.update(0, [(b"%d" % number, b"") for number in range(30)])
            for words, told in ((["backup", to], ["bytes copied: [0-9,]+ of [0-9,]+", "checking the copy"]),
                                (["salvage", to + "2"], ["checking the store", "versions made: 0 of 1|versions made", "checking the new store"])):
                out = self.Terminal()
                with mock.patch.object(Line, "EVERY", 0), contextlib.redirect_stderr(out), contextlib.redirect_stdout(io.StringIO()):
                    self.assertEqual(keeping.alone(COMMANDS[words[0]], path, words, False), 0)
                for what in told:
                    self.assertRegex(out.getvalue(), rf"\r({what}) *\r")
            out = self.Terminal()
            with Store(path) as store, mock.patch.object(Line, "EVERY", 0), contextlib.redirect_stderr(out):
                for line, what in (("dump 0", "lines written"), ("dump --all", "lines written"), ("dump --frames 0", "pairs written: 30")):
                    out.truncate(0)
                    Shell(store, io.StringIO()).run(f"{line} {to}3")
                    self.assertIn(what, out.getvalue())

    def test_words(self) -> None:
        for wanted, words in (("bytes copied: 1,000 of 2,000", ("bytes copied", 1000, 2000)), ("checking the copy", ("checking the copy", 0, None)),
                              ("pairs written: 512", ("pairs written", 512, None))):
            self.assertEqual(progress.told(*words), wanted)


if __name__ == "__main__":
    unittest.main()
