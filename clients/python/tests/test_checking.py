"""How far a check is: the level and the blocks, by what the system counts, and checks that are stopped."""

from __future__ import annotations

import contextlib
import io
import os
import subprocess
import sys
import unittest
from typing import Any, List, Optional, Tuple
from unittest import mock

import damaged
from damaged import BLOCK, Whole, formats
from session import Session
from support import DEADLINE, PACKAGE, StoreCase, is_gone, needs

from castle import Sound, Store, checking, cli, errors, process
from castle.checking import Course
from castle.process import find_program
from castle.storecopy import silent

# Says that a file is sound, once it has waited so many seconds
SLOW = f"#!{sys.executable}\nimport sys, time\ntime.sleep(%s)\nprint('sound')\n"

Told = Tuple[str, int, Optional[int]]


class CourseTest(StoreCase):
    def test_a_place_is_that_of_the_blocks_read(self) -> None:
        course = Course(3, ((1, 2), (4, 3)))
        self.assertEqual(course.total, 15)
        for read, wanted in ((0, ("the manifest and the journal are read", 0)), (3, ("the manifest and the journal are read", 0)),
                             (4, ("level 1 is scanned", 1)), (5, ("level 4 is scanned", 2)), (7, ("level 4 is scanned", 4)),
                             (8, ("level 1 is merged", 5)), (10, ("level 1 is counted", 7)), (12, ("level 4 is merged", 9)),
                             (15, ("level 4 is counted", 12)), (18, ("level 4 is counted", 15)), (99, ("level 4 is counted", 15))):
            self.assertEqual(course.place(read), wanted, read)
        self.assertEqual(Course(3, ()).place(9), ("the manifest and the journal are read", 0))

    def course(self, data: bytes) -> Optional[Course]:
        with open(self.path, "wb") as file:
            file.write(data)
        return checking.course_of(self.path)

    def test_the_levels_are_those_of_the_manifest(self) -> None:
        for store in damaged.stores(7):
            course = self.course(store.data)
            assert course
            levels = formats.read(store.data).manifest.levels
            wanted = tuple((level.number, sum(len(formats.blocks_of(array)) for array in level.arrays)) for level in levels)
            self.assertEqual(course.levels, wanted)
            self.assertEqual(course.total, 3 * len(store.blocks))

    def test_a_file_with_any_bytes_is_none_or_looked_at_soon(self) -> None:
        store = damaged.stores(7)[0]
        head = formats.read(store.data).head
        for fields in ({"mem": 2 ** 32 - 1}, {"length": 2 ** 32 - 1}, {"region": 7}, {"first": 2 ** 32 - 1}, {"form": 2}, {"length": 0},
                       {"length": 20}, {"length": 30}):
            for slot in (0, 1):
                data = damaged.damages.patched(store.data, slot * BLOCK, formats.head_bytes(head._replace(generation=99, **fields)))
                self.assertIsNone(self.course(data), fields)
        for data in (b"", b"text", bytes(3 * BLOCK)):
            self.assertIsNone(self.course(data))
        self.assertIsNone(checking.course_of(self.folder))
        self.assertIsNone(checking.course_of(os.path.join(self.folder, "absent")))
        for number in range(300):  # nothing but a course or None comes of a damaged file
            base = damaged.damages.Base(store.data)
            wrong = damaged.damages.DAMAGES[number % len(damaged.damages.DAMAGES)](damaged.random.Random(number), base)
            if wrong is not None:
                self.course(wrong)

    def test_blocks_of_a_process_that_is_not_there_are_not_told(self) -> None:
        self.assertIsNotNone(checking.blocks_read(os.getpid()))
        self.assertIsNone(checking.blocks_read(2 ** 22 + 1))


class WatchTest(StoreCase):
    def slow(self, seconds: float) -> str:
        """The path of a program that takes so long."""
        path = self.written("program", SLOW % seconds)
        os.chmod(path, 0o755)
        return path

    def write(self, store: Whole) -> None:
        with open(self.path, "wb") as file:
            file.write(store.data)

    def test_a_check_tells_its_place_and_ends_where_that_raises(self) -> None:
        self.write(damaged.stores(7)[0])
        told: List[Told] = []
        with mock.patch.object(process, "LOOK", 0.05):
            found = Store.check(self.path, self.slow(1), progress=lambda *place: told.append(place))
        self.assertEqual(found, Sound())
        self.assertEqual(told[0], ("checking", 0, None))
        self.assertGreater(len(told), 2)
        self.assertRegex(told[-1][0], "^checking, .* (is scanned|is merged|is counted|are read), blocks read$")
        self.assertEqual(told[-1][2], checking.course_of(self.path).total)  # type: ignore[union-attr]
        pids: List[int] = []

        def stop(*place: Any) -> None:
            if place[2] is not None:
                raise KeyboardInterrupt

        made = process.Process.__init__

        def noted(self: Any, *words: Any) -> None:
            made(self, *words)
            pids.append(self.pid)

        with mock.patch.object(process, "LOOK", 0.05), mock.patch.object(process.Process, "__init__", noted):
            self.assertRaises(KeyboardInterrupt, Store.check, self.path, self.slow(30), progress=stop)
        self.assertTrue(is_gone(pids[0]))

    def test_a_file_whose_levels_are_not_known_is_told_by_its_words_alone(self) -> None:
        told: List[Told] = []
        look = checking.watch(os.getpid(), os.path.join(self.folder, "absent"), "checking the copy", lambda *place: told.append(place))
        assert look
        look()
        self.assertEqual(told, [("checking the copy", 0, None)])
        self.assertIsNone(checking.watch(1, self.path, "checking", silent))

    def test_lines_beside_the_launcher_end_with_the_process(self) -> None:
        self.write(damaged.stores(7)[0])
        child = subprocess.Popen(["sleep", "2"])
        with subprocess.Popen([sys.executable, "-m", "castle.checkline", str(child.pid), self.path], stdout=subprocess.PIPE,
                              env={**os.environ, "PYTHONPATH": PACKAGE}) as lines:
            child.wait()
            out, _ = lines.communicate(timeout=DEADLINE)
        line = rb"\n\x1b\[Kcastle: the manifest and the journal are read, blocks read: 0 of \d+\r\x1b\[A"
        self.assertRegex(out, b"^(" + line + b")+$")
        self.assertEqual(lines.returncode, 0)

    def test_ctrl_c_amid_one_command_check_is_told(self) -> None:
        self.write(damaged.stores(7)[0])
        said = io.StringIO()

        def checked(path: str, *_: Any, progress: Any) -> Sound:
            os.kill(os.getpid(), 2)
            progress("checking", 0, None)
            return Sound()

        with mock.patch.object(Store, "check", staticmethod(checked)), contextlib.redirect_stderr(said):
            self.assertEqual(cli.main([self.path, "check"]), 130)
        self.assertEqual(said.getvalue(), "castle-shell: stopped\n")


class RealTest(StoreCase):
    """With the real program."""

    def test_a_check_reads_as_many_blocks_as_its_progress_counts(self) -> None:
        needs("check")
        with self.made(4096, 10 ** 6, 10) as store:  # blocks that a recovery reads beside, with many records in them
            for version in range(4):
                with store.batch() as batch:
                    for number in range(5000 if version < 3 else 3000):
                        batch.put(version, f"key/{number * 7919 % 10007}", "v" * 300)
                store.clone(version)
        course = checking.course_of(self.path)
        assert course
        child = subprocess.Popen([find_program(), "check", self.path], stdout=subprocess.PIPE, stderr=subprocess.PIPE)
        os.waitid(os.P_PID, child.pid, os.WEXITED | os.WNOWAIT)
        read = checking.blocks_read(child.pid)
        self.assertEqual(child.communicate()[0], b"sound\n")
        if read is None:
            self.skipTest("the system does not count what a process reads")
        self.assertGreater(course.before, 100)
        self.assertGreater(course.total, 1000)
        # the system counts what the launcher and the loader read as well
        self.assertLessEqual(abs(read - course.before - course.total), 40)

    def test_paths_that_are_no_text_are_told(self) -> None:
        needs("check")
        store = self.made()
        store.put(0, "a", "1")
        store.close()
        path = os.fsencode(self.folder) + b"/\xff.store"
        os.rename(self.path, path)
        for act in (lambda: Store.check(path), lambda: Store(path), lambda: Store.format(path + b"2", 4, 10, 1)):
            with self.assertRaisesRegex(errors.WrongUsage, "the path of the file is no UTF-8. The program takes no other one"):
                act()
        with Store(path, read_only=True) as copy:
            self.assertEqual(copy.get(0, "a"), b"1")

    def test_a_long_check_at_a_prompt_shows_its_place(self) -> None:
        self.made().close()
        real = find_program()
        slow = self.written("slow", f'#!/bin/sh\n[ "$1" != check ] || sleep 3\nexec "{real}" "$@"\n')
        os.chmod(slow, 0o755)
        session = Session(self.folder, self.path, {"CASTLE_PROGRAM": slow})
        self.addCleanup(session.kill)
        session.until("> $")
        shown = session.type("check")
        self.assertIn("sound", "\n".join(shown))
        self.assertRegex("\n".join(shown), "checking, the manifest and the journal are read, blocks read: 0")
        session.type("quit", None)
        self.assertEqual(session.close(), 0)


if __name__ == "__main__":
    unittest.main()
