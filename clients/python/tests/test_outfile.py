"""Files that the shell writes: whole or not at all, never the store's own, and under names that a user gives."""

import io
import os
import secrets
import socket
import stat
import subprocess
import sys
from typing import Iterator
from unittest import mock

from session import carried_out, untimed
from support import DEADLINE, SHELL, StoreCase, unprivileged

from castle import CastleError, Store, outfile
from castle.files import write_whole
from castle.shell import Shell

WRITERS = ("dump 0 {}", "tree --svg {}", "levels --svg {}", "report {}")


class RefusedFileTest(StoreCase):
    """Each command that writes a file leaves what is not its own."""

    def setUp(self) -> None:
        super().setUp()
        store = self.made()
        store.put(0, "a", "1")
        store.names["base"] = 0
        store.close()
        self.addCleanup(os.chdir, os.getcwd())
        os.chdir(self.folder)

    def refused(self, file: str, what: str) -> None:
        """Every command refuses to write this file, says so, and the store and its folder are as before."""
        before = sorted(os.listdir(self.folder))
        with Store(self.path) as store:
            for writer in WRITERS:
                line = writer.format(file)
                out, complaint, status = carried_out(store, "put b 2", line, "put c 3")
                self.assertEqual((out, status), ("done\n", 1), line)
                self.assertTrue(complaint.startswith("castle-shell: line 2: ") and what in complaint, complaint)
        self.assertEqual(sorted(os.listdir(self.folder)), before)
        with Store(self.path) as store:
            self.assertEqual((dict(store.at(0)), dict(store.names)), ({b"a": b"1", b"b": b"2"}, {"base": 0}))

    def test_a_script_ends_where_it_would_overwrite_its_store(self) -> None:
        out, complaint, status = self.shell("put b 2\ndump 0 a.store\nput c 3\n")
        self.assertEqual((out, status), ("done\n", 1))
        self.assertEqual(complaint, "castle-shell: line 2: a.store: the file is the store itself. Take another file; nothing was written.\n")
        with Store(self.path) as store:
            self.assertEqual(dict(store.at(0)), {b"a": b"1", b"b": b"2"})

    def test_the_store_its_names_and_its_lock_are_not_overwritten(self) -> None:
        os.mkdir(os.path.join(self.folder, "sub"))
        os.symlink("a.store", os.path.join(self.folder, "link"))
        os.symlink("link", os.path.join(self.folder, "second"))
        os.link(self.path, os.path.join(self.folder, "hard"))
        os.link(self.path + ".names", os.path.join(self.folder, "hard.names"))
        for file, what in (("a.store", "a.store: the file is the store itself. Take another file; nothing was written."),
                           (self.path, "the file is the store itself"), ("./sub/../a.store", "the file is the store itself"),
                           ("link", "the file is the store itself"), ("second", "the file is the store itself"),
                           ("hard", "the file is the store itself"), ('"a\\x2estore"', "the file is the store itself"),
                           ("a.store.names", "the file is the file of the store's names"), ("hard.names", "the file of the store's names"),
                           ("a.store.lock", "the file is the store's lock")):
            self.refused(file, what)

    def test_names_that_are_not_there_yet_are_not_made(self) -> None:
        os.remove(self.path + ".names")
        os.symlink(".", os.path.join(self.folder, "here"))
        os.symlink("a.store.names", os.path.join(self.folder, "link"))
        with Store(self.path) as store:
            for writer in WRITERS:
                for file in ("a.store.names", "here/a.store.names", "link"):
                    self.assertIn("the file of the store's names", carried_out(store, writer.format(file))[1])
        self.assertFalse(os.path.exists(self.path + ".names"))

    def test_the_shell_finds_its_store_through_a_link(self) -> None:
        os.mkdir(os.path.join(self.folder, "other"))
        link = os.path.join(self.folder, "other", "b.store")
        os.symlink(self.path, link)
        with Store(link) as store:
            for file in ("a.store", "other/b.store", "a.store.names"):
                self.assertIn(f"{file}: the file is the", carried_out(store, f"dump 0 {file}")[1])
            self.assertIn("belongs to a castle store beside it", carried_out(store, "dump 0 other/b.store.names")[1])
            self.assertEqual(carried_out(store, "dump 0 other/b.names")[0], "wrote other/b.names\n")

    def test_another_store_is_not_overwritten(self) -> None:
        Store.format(os.path.join(self.folder, "b.store"), 4, 10, 10)
        self.refused("b.store", "b.store: the file is a castle store. Take another file, or remove that one first.")
        for file in ("b.store.names", "b.store.lock"):
            self.refused(file, f"{file}: the file belongs to a castle store beside it. Take another file; nothing was written.")
        with open(os.path.join(self.folder, "b.store"), "r+b") as file:  # the second slot stands, as after a publication
            slot = file.read(40)
            file.seek(0)
            file.write(b"\0")
            file.seek(4096)
            file.write(slot)
        self.refused("b.store", "b.store: the file is a castle store")

    def test_what_is_no_plain_file_is_not_written(self) -> None:
        os.mkfifo(os.path.join(self.folder, "pipe"))
        os.mkdir(os.path.join(self.folder, "folder"))
        os.symlink("/dev/null", os.path.join(self.folder, "null"))
        os.symlink("loop", os.path.join(self.folder, "loop"))
        with socket.socket(socket.AF_UNIX) as listening:
            listening.bind(os.path.join(self.folder, "socket"))
            for file, what in (("pipe", "pipe: the file is a named pipe"), ("folder", "folder: the file is a folder"),
                               ("null", "null: the file is a device"), ("/dev/null", "/dev/null: the file is a device"),
                               ("socket", "socket: the file is a socket"), ("none/a", "none/a: there is no folder none. Make it first"),
                               ("loop", "loop: the file can't be looked at: Too many levels of symbolic links")):
                self.refused(file, what)
        self.assertTrue(stat.S_ISFIFO(os.stat(os.path.join(self.folder, "pipe")).st_mode))

    def test_the_shells_own_streams_are_not_overwritten(self) -> None:
        for file in ("/dev/stdout", "out"):
            ran = subprocess.run(["/bin/sh", "-c", '"$1" "$2" a.store > out', "sh", sys.executable, SHELL], cwd=self.folder,
                                 input=f"put a 2\ndump 0 {file}\n".encode(), capture_output=True, timeout=DEADLINE)
            self.assertIn(f"{file}: the file is the shell's standard output as well".encode(), ran.stderr)
            with open(os.path.join(self.folder, "out"), "rb") as out:
                self.assertEqual(out.read(), b"done\n")


class WrittenFileTest(StoreCase):
    def test_a_file_of_the_users_own_beside_it_stays(self) -> None:
        self.made().close()
        for name in ("x.new", "x.tmp", ".x", "x~", "a.store.names.new"):
            self.written(name, "mine")
        before = {name for name in os.listdir(self.folder)}
        self.assertEqual(self.shell("put a 1\ndump 0 x\ntree --svg x\nlevels --svg x\nclone y\n")[2], 0)
        self.assertEqual(set(os.listdir(self.folder)) - before, {"x", "a.store.names"})
        for name in ("x.new", "x.tmp", ".x", "x~", "a.store.names.new"):
            with open(os.path.join(self.folder, name), encoding="utf-8") as file:
                self.assertEqual(file.read(), "mine", name)

    def test_a_new_file_takes_the_place_of_no_other(self) -> None:
        path = os.path.join(self.folder, "x")
        self.written(".castle-taken", "mine")
        with mock.patch.object(secrets, "token_hex", return_value="taken"), self.assertRaises(FileExistsError):
            write_whole(path, ["new"])
        self.assertEqual((self.bytes_of(".castle-taken"), os.listdir(self.folder)), (b"mine", [".castle-taken"]))

    def test_a_stopped_dump_leaves_the_old_file_and_no_other(self) -> None:
        store = self.made()
        with store.batch() as batch:
            for number in range(600):
                batch.put(0, f"{number}", "v" * 1000)
        self.written("x", "old")
        before = sorted(os.listdir(self.folder))
        shell = Shell(store, io.StringIO())
        scan = store.scan

        def scanned(version: int) -> Iterator[object]:
            for count, pair in enumerate(scan(version)):
                shell.interrupts.count = int(count > 300)
                yield pair

        for line in (f"dump 0 {self.folder}/x", f"tree --svg {self.folder}/x"):
            with mock.patch.object(store, "scan", scanned), self.assertRaisesRegex(Exception, "^stopped$"):
                shell.run(line)
            self.assertEqual(sorted(os.listdir(self.folder)), before)
            with open(os.path.join(self.folder, "x"), encoding="utf-8") as file:
                self.assertEqual(file.read(), "old")

    def test_a_device_that_is_full_leaves_the_old_file(self) -> None:
        path = self.written("x", "old")
        for name in ("fsync", "replace"):
            with mock.patch.object(os, name, side_effect=OSError(28, "No space left on device")):
                with self.assertRaises(OSError) as caught:
                    write_whole(path, ["new"])
            self.assertEqual((caught.exception.filename, os.listdir(self.folder)), (path, ["x"]))
            with open(path, encoding="utf-8") as file:
                self.assertEqual(file.read(), "old")

    def test_a_file_keeps_its_permissions_and_its_links(self) -> None:
        self.made().close()
        path = self.written("x", "old")
        os.chmod(path, 0o640)
        os.symlink("x", os.path.join(self.folder, "link"))
        old = os.umask(0o027)
        self.addCleanup(os.umask, old)
        self.assertEqual(self.shell("dump 0 link\ndump 0 y\n"), ("wrote link\nwrote y\n", "", 0))
        self.assertTrue(os.path.islink(os.path.join(self.folder, "link")))
        self.assertEqual([stat.S_IMODE(os.stat(os.path.join(self.folder, name)).st_mode) for name in ("x", "y")], [0o640, 0o640])
        with open(path, encoding="utf-8") as file:
            self.assertIn("# end, 0 pairs\n", file.read())

    def test_names_of_files_lose_their_quotes_and_escapes(self) -> None:
        self.made().close()
        out, complaint, status = self.shell(
            'put a 1\ndump 0 "my file.dump"\nload "my file.dump"\nload my\\x20file.dump\ntree --svg "a\\"b.svg"\n'
            'levels --svg "\\xff.svg"\nclone "staging"\nuse "staging"\nnames set "x" "0"\nnames remove "x"\nnames\nget a @staging\n')
        self.assertEqual((complaint, status), ("", 0))
        self.assertEqual(untimed(out), 'done\nwrote "my file.dump"\nloaded 1 pair into version 0\nloaded 1 pair into version 0\nwrote "a\\"b.svg"\n'
                              "wrote \\xff.svg\nmade version 1 (staging)\n1 staging\n1\n")
        self.assertEqual(set(os.listdir(os.fsencode(self.folder))),
                         {b"a.store", b"a.store.lock", b"a.store.names", b"my file.dump", b'a"b.svg', b"\xff.svg"})

    def test_a_folder_that_may_not_be_written_is_told(self) -> None:
        os.chmod(self.folder, 0o755)
        for mode, what in ((0o555, "the file can't be written: Permission denied"), (0o700, "the file can't be looked at: Permission denied")):
            folder = os.path.join(self.folder, f"kept{mode:o}")
            os.mkdir(folder)
            os.chmod(folder, mode)
            with unprivileged(), self.assertRaisesRegex(CastleError, f"{folder}/x: {what}"):
                outfile.write(f"{folder}/x", ["new"], self.path)
            self.assertEqual(os.listdir(folder), [])
