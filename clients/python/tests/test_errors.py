"""Every refusal, and every way in which the program ends."""

import os
import re
import signal
import struct
import subprocess
import sys
import traceback
import unittest
from typing import Type

from support import TOP, StoreCase, is_gone

from castle import Store, errors, frames
from castle.errors import Ended, Refused
from castle.process import printed

ERRORS = (TOP / "docs" / "ERRORS.md").read_text(encoding="utf-8")


class PageTest(unittest.TestCase):
    def test_refusals_are_those_of_the_page(self) -> None:
        rows = re.findall(r"^\| (\d+) \| (\w+) \|", ERRORS.split("## Refusals")[1], re.M)
        self.assertEqual({int(status): name for status, name in rows},
                         {status: kind.__name__ for status, kind in errors.REFUSALS.items()})

    def test_ends_are_those_of_the_page(self) -> None:
        rows = re.findall(r"^\| (\d+) \| `?([^`|]*)`? \|", ERRORS.split("## Refusals")[0], re.M)
        told = {int(status): text for status, text in rows if status != "0"}
        self.assertEqual({status: text for status, text in told.items() if status < 124},
                         {status: kind.text for status, kind in errors.ENDS.items() if status < 124})
        for status in (126, 127):  # those of the launcher
            self.assertRegex(ERRORS, rf"\b{status}\b")

    def test_every_message_says_what_and_what_to_do(self) -> None:
        for kind in (*errors.REFUSALS.values(), *errors.ENDS.values()):
            error = kind(file="f.store", command="get a at version 0")
            self.assertRegex(str(error), r"^f\.store: get a at version 0: .+\. [A-Z].+\.$")

    def test_what_to_do_after_a_fault_of_the_device_is_that_of_the_page(self) -> None:
        what = "copy the file or mount its file system again"
        self.assertIn(what, ERRORS)
        for kind in (errors.DeviceFault, errors.DeviceFailed):
            self.assertIn(what, kind.remedy)

    def test_the_memory_that_an_opening_takes_is_that_of_the_page(self) -> None:
        takes = re.search(r"`serve` takes ([\d.]+ MB, [\d.]+ KB for each of M), (\d+ bytes for each of V)", ERRORS)
        assert takes
        self.assertIn(f"{takes[1]} and {takes[2]}", errors.OutOfMemory.remedy)


class RefusalsTest(StoreCase):
    def refused(self, kind: Type[Refused], *words: object) -> Refused:
        """The refusal of this kind that a command of the open store raises; the store goes on after it."""
        name, *rest = words
        with self.assertRaises(kind) as caught:
            getattr(self.store, str(name))(*rest)
        self.assertEqual((caught.exception.file, type(caught.exception)), (self.path, kind))
        self.store.stat()
        return caught.exception

    def test_what_a_store_refuses_is_raised(self) -> None:
        self.store = self.made(4, 4, 2)
        self.store.put(0, b"a", b"1")
        self.refused(errors.UnknownVersion, "get", 1, b"a")
        self.refused(errors.UnknownVersion, "clone", 2 ** 32 - 1)
        self.refused(errors.UnknownVersion, "get", 2 ** 32, b"a")
        self.refused(errors.UnknownVersion, "get", -1, b"a")
        self.assertEqual(self.store.clone(0), 1)
        error = self.refused(errors.Frozen, "put", 0, b"b", b"2")
        self.assertEqual(str(error), f"{self.path}: put b at version 0: the version has a child, and takes no puts and deletes and no "
                                     "drop. Clone it, and write to the clone; or drop its children first.")
        self.refused(errors.Frozen, "delete", 0, b"a")
        self.refused(errors.VersionLimit, "clone", 1)
        self.refused(errors.Root, "drop", 0)
        self.refused(errors.UnknownVersion, "drop", 2)
        self.store.put(1, b"b", b"2")
        self.store.put(1, b"b", b"3")
        self.refused(errors.ChangeLimit, "put", 1, b"b", b"4")
        self.refused(errors.ChangeLimit, "drop", 1)
        self.assertEqual(self.store.get(1, b"b"), b"3")

    def test_sizes_are_refused(self) -> None:
        self.store = self.made()
        longest = b"k" * 255
        for size in (0, 256, 1000, 2048, 100000):
            for command in (("get",), ("delete",)):
                self.refused(errors.KeySize, *command, 0, b"k" * size)
            self.refused(errors.KeySize, "put", 0, b"k" * size, b"")
        for size in (1025, 1700, 1800, 2048, 100000):
            self.refused(errors.ValueSize, "put", 0, longest, b"v" * size)
        self.store.put(0, longest, b"v" * 1024)
        self.assertEqual(self.store.get(0, longest), b"v" * 1024)

    def test_sizes_around_that_of_the_largest_frame_are_refused_and_the_store_goes_on(self) -> None:
        self.store = self.made()
        self.store.put(0, b"a", b"1")
        for size in range(2025, 2060):
            for name in ("get", "delete"):
                self.refused(errors.KeySize, name, 0, b"k" * size)
            for name in ("scan", "page"):
                self.refused(errors.KeySize, name, 0, b"k" * (size - 100), b"k" * 100)
                self.refused(errors.KeySize, name, 0, b"", b"k" * size)
            self.refused(errors.ValueSize, "put", 0, b"k" * 100, b"v" * (size - 100))
            self.refused(errors.ValueSize, "put", 0, b"k" * 255, b"v" * (size - 255))
            self.refused(errors.KeySize, "put", 0, b"k" * (size - 100), b"v" * 100)
            self.refused(errors.KeySize, "put", 0, b"k" * 300, b"v" * (size - 300))
        self.assertEqual((self.store.get(0, b"a"), self.store.stat().changes), (b"1", 1))

    def test_a_refusal_shows_the_beginning_of_a_long_key(self) -> None:
        self.store = self.made()
        for size, command in ((256, f"get {'k' * 30}.. (256 bytes) at version 0"), (5000, "get of a key of 5000 bytes")):
            self.assertEqual(self.refused(errors.KeySize, "get", 0, b"k" * size).command, command)

    def test_what_is_no_command_is_malformed(self) -> None:
        store = self.made()
        program = store._program
        self.assertIsInstance(program.ask(lambda: frames.HEAD.pack(5, program.tag, 11)), errors.Malformed)
        self.assertEqual(store.stat().changes, 0)

    def test_a_frame_that_is_too_long_ends_the_run(self) -> None:
        store = self.made()
        store.put(0, b"a", b"1")
        self.assertIsInstance(store._program.ask(lambda: struct.pack(">I", 2049)), errors.FrameTooLong)
        with self.assertRaises(errors.InputTooLong) as caught:
            store.get(0, b"a")
        self.assertEqual((caught.exception.status, caught.exception.file), (3, self.path))
        store.close()
        self.assertEqual(self.opened().get(0, b"a"), b"1")

    def test_a_damaged_block_is_named_and_ends_the_run(self) -> None:
        store = self.damaged()
        self.assertEqual(store.get(0, "k13"), b"")
        with self.assertRaises(errors.Damaged) as caught:
            store.get(0, "k01")
        self.assertEqual((caught.exception.block, caught.exception.command), (7, "get k01 at version 0"))
        with self.assertRaises(errors.StoreDamaged):
            store.get(0, "k13")
        store.close()
        self.assertEqual(self.opened().get(0, "k13"), b"")

    def test_every_refusal_is_an_exception_of_its_own(self) -> None:
        for status, kind in errors.REFUSALS.items():
            with self.pretending(f"refuse {status}") as store, self.assertRaises(kind) as caught:
                store.put(0, b"a", b"1")
            self.assertEqual((caught.exception.status, caught.exception.command), (status, "put a at version 0"))
        with self.pretending("refuse 99") as store, self.assertRaisesRegex(Refused, "unknown status 99"):
            store.get(0, b"a")


class EndsTest(StoreCase):
    def test_every_end_is_an_exception_of_its_own(self) -> None:
        for status, kind in {**errors.ENDS, 99: Ended}.items():
            with self.pretending(f"exit {status}") as store:
                with self.assertRaises(kind) as caught:
                    store.put(0, b"a", b"1")
                with self.assertRaises(kind) as later:
                    store.stat()
            self.assertEqual((caught.exception.status, caught.exception.command), (status, "put a at version 0"))
            self.assertEqual((later.exception.status, later.exception.file), (status, caught.exception.file))

    def test_a_reply_to_another_command_is_an_error(self) -> None:
        for words, what in (("tag", "a reply has tag 77"), ("refuse 12", "a reply of status 12 can't be read"),
                            ("refuse 4", "a reply of status 4 can't be read"), ("refuse 3", "a reply of status 3 can't be read")):
            with self.pretending(words) as store:
                for _ in range(2):
                    with self.assertRaisesRegex(errors.WrongProtocol, what):
                        store.get(0, b"a")

    def test_what_the_launcher_says_is_passed_on(self) -> None:
        words = [sys.executable, "-c", "import sys; sys.path.insert(0, sys.argv[1])\nimport support, castle\n"
                 "try: castle.Store(sys.argv[2], program=support.PRETENDER)\nexcept castle.errors.NoKit as error: print(error)",
                 os.path.dirname(os.path.abspath(__file__)), self.written("x", "complain 127")]
        ran = subprocess.run(words, capture_output=True)
        self.assertEqual(ran.stderr, b"castle: out of order\n")
        self.assertIn(b"x: open: the Rattle kit's command rt is not found", ran.stdout)

    def test_all_that_was_said_before_an_end_is_passed_on(self) -> None:
        ran = self.python("sys.path.insert(0, sys.argv[2]); import support\n"
                          "with castle.Store(sys.argv[3], program=support.PRETENDER) as store:\n"
                          "    try: store.get(0, 'a')\n    except castle.errors.NotBuilt: print('told')",
                          os.path.dirname(os.path.abspath(__file__)), self.written("x", "mutter 126"))
        self.assertEqual((ran.stdout, ran.stderr), (b"told\n", b"".join(b"line %d\n" % number for number in range(20000)) + b"last\n"))

    def test_the_program_does_not_say_itself_what_its_exception_tells(self) -> None:
        ran = self.python("try: castle.Store(sys.argv[2])\nexcept castle.errors.NotAStore: print('told')\n"
                          "try: castle.Store.format(sys.argv[2], 1, 1, 1, overwrite=True)\nexcept castle.errors.WrongUsage: print('told')",
                          self.written("foreign", "x" * 10000))
        self.assertEqual((ran.stdout, ran.stderr), (b"told\ntold\n", b""))

    def test_the_program_has_a_session_of_its_own_and_a_full_file_is_no_signal(self) -> None:
        stub = self.written("stub", '#!/bin/sh\n{ grep SigIgn /proc/$$/status; echo $$; cut -d " " -f 6 /proc/$$/stat; } >"$2.told"\n')
        os.chmod(stub, 0o755)
        self.written("a.store", "")
        for run in (lambda: Store(self.path, program=stub), lambda: printed(stub, ["levels", self.path], self.path)):
            try:
                run()
            except Ended:
                pass
            _, ignored, pid, session = self.bytes_of("a.store.told").split()
            self.assertTrue(int(ignored, 16) >> (signal.SIGXFSZ - 1) & 1)
            self.assertEqual(pid, session)

    def test_a_program_that_fails_unseen_is_told_at_the_end_of_a_block(self) -> None:
        with self.assertRaises(errors.Killed):
            with self.made() as store:
                os.kill(store.pid, signal.SIGKILL)
                self.assertTrue(is_gone(store.pid))
        with self.assertRaises(ZeroDivisionError):
            with self.opened() as store:
                os.kill(store.pid, signal.SIGKILL)
                1 / 0

    def test_a_file_that_is_no_store_is_refused(self) -> None:
        path = self.written("foreign", "x" * 10000)
        with self.assertRaisesRegex(errors.NotAStore, "foreign: open: the file is no store. Look at the path."):
            Store(path)
        with self.assertRaises(errors.NotAStore):
            Store(self.written("empty", ""))
        self.assertEqual(os.path.getsize(path), 10000)

    def test_a_file_that_is_not_there_is_refused_and_not_made(self) -> None:
        with self.assertRaises(errors.StoreMissing):
            Store(self.path)
        self.assertEqual(os.listdir(self.folder), [])
        with self.assertRaises(errors.StoreMissing):
            Store.format(os.path.join(self.folder, "none", "a.store"), 4, 10, 10)

    def test_wrong_limits_are_refused_and_touch_nothing(self) -> None:
        for limits in ((3, 10, 10), (4097, 10, 10), (4, 0, 10), (4, 10, 16385), (-4, 10, 10)):
            with self.assertRaises(errors.WrongUsage):
                Store.format(self.path, *limits)
        self.assertFalse(os.path.exists(self.path))

    def test_a_program_that_is_not_there_is_told(self) -> None:
        self.written("a.store", "")
        with self.assertRaisesRegex(errors.ProgramMissing, "CASTLE_PROGRAM"):
            Store(self.path, program=os.path.join(self.folder, "none"))
        with self.assertRaises(errors.ProgramMissing):
            Store(self.path, program=self.written("text", "no program"))

    def test_a_killed_program_is_told_to_each_command_after_it(self) -> None:
        store = self.made()
        store.put(0, b"a", b"1")
        os.kill(store.pid, 9)
        self.assertTrue(is_gone(store.pid))
        with self.assertRaisesRegex(errors.Killed, "get a at version 0: the program was ended by SIGKILL. All that was ack") as caught:
            store.get(0, b"a")
        self.assertNotIn("BrokenPipeError", "".join(traceback.format_exception(errors.Killed, caught.exception, None)))
        with self.assertRaises(errors.Killed) as caught:
            store.get(0, b"a")
        self.assertEqual(caught.exception.status, -9)
        store.close()
        self.assertEqual(self.opened().get(0, b"a"), b"1")

    def test_a_program_that_was_killed_unseen_is_told_at_the_close(self) -> None:
        store = self.made()
        os.kill(store.pid, 9)
        self.assertTrue(is_gone(store.pid))
        with self.assertRaises(errors.Killed):
            store.close()
        self.opened()
