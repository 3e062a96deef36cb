"""Logs of changes: what a leader wrote is there by its numbers, whatever ended its runs, and nothing is made up."""

from __future__ import annotations

import errno
import os
import random
import unittest
import warnings
from typing import List
from unittest import mock

from support import StoreCase, Threads, in_child

from castle import changes, errors, frames
from castle.changelog import Log


def change(number: int, salt: str = "") -> bytes:
    """The frame of a change of this number."""
    if number % 7 == 3:
        return changes.clone(number, number // 7)
    if number % 5 == 2:
        return changes.delete(number, number // 7, f"key/{number % 11}".encode())
    return changes.put(number, number // 7, f"key/{number % 11}{salt}".encode(), b"v" * (number * 37 % 90))


def told(log: Log, number: int) -> List[bytes]:
    """The frames of a log from this number on."""
    return [frame for found in log.read(number) for frame in found]


class FramesTest(unittest.TestCase):
    def test_the_bytes_of_changes_and_receipts(self) -> None:
        self.assertEqual(changes.put(0, 0, b"a", b"1").hex(), "0000000e" "00000000" "01" "00000000" "01" "61" "0001" "31")
        self.assertEqual(changes.delete(5, 2, b"a").hex(), "0000000b" "00000005" "02" "00000002" "01" "61")
        self.assertEqual(changes.clone(6, 2).hex(), "00000009" "00000006" "03" "00000002")
        self.assertEqual(str(changes.receipt_of(bytes.fromhex("0000000a 00000002 02 00000001 00"))), "2 gap, next 1")
        self.assertEqual(str(changes.receipt_of(bytes.fromhex("0000000a 00000005 04 00000005 20"))), "5 refused as NoMemory, next 5")

    def test_what_is_read_is_what_was_written_and_nothing_else_is_a_change(self) -> None:
        for number in range(100):
            frame = change(number)
            found = changes.change_of(frame)
            self.assertEqual(found.number, number)
            for place in range(4, len(frame)):
                cut = frames.NUMBER.pack(place - 4) + frame[4:place]
                with self.assertRaises(errors.WrongProtocol):
                    changes.change_of(cut)
            with self.assertRaises(errors.WrongProtocol):
                changes.change_of(frames.NUMBER.pack(len(frame) - 3) + frame[4:] + b"\0")
        for wrong in ("0000000a 00000000 05 00000000 00", "00000009 00000000 00 00000000", "0000000c 00000000 01 00000000 00 0000"):
            with self.assertRaises(errors.WrongProtocol):
                changes.change_of(bytes.fromhex(wrong))

    def test_a_change_is_that_of_its_command(self) -> None:
        self.assertEqual(changes.of_command(9, frames.put(1, 2, b"k", b"value")), changes.put(9, 2, b"k", b"value"))
        self.assertEqual(changes.of_command(9, frames.delete(1, 2, b"k")), changes.delete(9, 2, b"k"))
        self.assertEqual(changes.of_command(9, frames.clone(1, 2)), changes.clone(9, 2))

    def test_frames_are_cut_anywhere_and_one_that_is_too_long_is_none(self) -> None:
        data = b"".join(map(change, range(9)))
        for at in range(len(data) + 1):
            first, rest = changes.split(data[:at])
            self.assertEqual(changes.split(rest + data[at:]), ([change(number) for number in range(len(first), 9)], b""))
        with self.assertRaises(errors.WrongProtocol):
            changes.split(frames.NUMBER.pack(2049))


class LogTest(StoreCase):
    in_memory = True

    def setUp(self) -> None:
        super().setUp()
        self.log = Log(os.path.join(self.folder, "log"))

    def add(self, *runs: range) -> None:
        """Adds runs of changes."""
        for run in runs:
            with self.log.writer() as keeper:
                keeper.add([change(number) for number in run])

    def files(self) -> List[str]:
        """The files of the log that have changes."""
        return sorted(name for name in os.listdir(self.log.name) if name != "lock")

    def test_a_log_has_each_change_once_though_runs_repeat_some(self) -> None:
        self.assertRaises(errors.LogMissing, told, self.log, 0)
        self.add(range(0, 5), range(3, 9), range(3, 4), range(5, 6), range(9, 4000))
        self.assertEqual((self.log.first, self.log.next), (0, 4000))
        self.assertEqual(self.files(), [f"000000000{number}.changes" for number in range(1, 6)])
        for start in (0, 3, 4, 8, 9, 1033, 3999, 4000, 4001):
            self.assertEqual(told(self.log, start), [change(number) for number in range(start, 4000)], start)
        self.assertEqual(told(Log(self.log.name), 5), told(self.log, 5))

    def test_a_log_may_begin_at_any_number_and_have_gaps_nowhere(self) -> None:
        self.add(range(100, 110))
        self.assertEqual((self.log.first, self.log.next), (100, 110))
        with self.assertRaisesRegex(errors.LogGap, "from 7 on are wanted, and the first one that is there is 100") as caught:
            told(self.log, 7)
        self.assertEqual((caught.exception.wanted, caught.exception.found), (7, 100))
        with self.log.writer() as keeper, self.assertRaises(errors.LogGap):
            keeper.add([change(111)])
        with self.log.writer() as keeper, self.assertRaises(errors.WrongProtocol):
            keeper.add([change(110), change(112)])
        self.assertEqual(self.log.next, 110)
        self.add(range(95, 111))  # a run of a store that was put back
        self.assertEqual(told(self.log, 95), [change(number) for number in range(95, 111)])

    def test_another_change_under_a_number_is_refused(self) -> None:
        self.add(range(0, 3000))
        for start, other in ((0, 0), (2990, 2995), (1, 2999)):
            with self.log.writer() as keeper, self.assertRaises(errors.LogForked) as caught:
                keeper.add([change(number, "!" if number == other else "") for number in range(start, other)])
                keeper.add([changes.put(other, 9, b"other", b"")])
            self.assertEqual(caught.exception.number, other)
        self.assertEqual(told(self.log, 0), [change(number) for number in range(3000)])

    def test_runs_that_are_cut_off_anywhere_lose_what_is_not_whole_alone(self) -> None:
        chance, kept = random.Random(47), 0
        for turn in range(60):
            start = max(0, kept - chance.randrange(20)) if turn else 0
            run = [change(number) for number in range(start, start + chance.randrange(1, 60))]
            with warnings.catch_warnings(record=True) as warned:
                warnings.simplefilter("always")
                with self.log.writer() as keeper:
                    self.assertEqual(keeper.before, kept)
                    self.assertEqual(len(warned), bool(turn and is_torn))
                    while run:
                        size = chance.randrange(1, len(run) + 1)
                        keeper.add(run[:size])
                        run = run[size:]
            path = os.path.join(self.log.name, self.files()[-1])
            with open(path, "r+b", 0) as file:  # the machine lost its power behind some byte that nobody was told of
                whole = file.read()
                cut = chance.randrange(len(whole) + 1)
                file.truncate(cut)
            found, rest = changes.split(whole[:cut])
            is_torn = len(rest) > 0
            kept = max(kept if not found else start + len(found), max((other.next for other in Log(self.log.name).runs()), default=0))
            log = Log(self.log.name)
            kept = log.next
            start = chance.randrange(kept + 1)
            self.assertEqual(told(log, start), [change(number) for number in range(start, kept)])
            self.log = Log(self.log.name)

    def test_a_file_that_is_put_back_as_it_was_earlier_is_looked_at_anew(self) -> None:
        self.add(range(0, 5), range(5, 3000))
        log = Log(self.log.name)
        self.assertEqual(log.next, 3000)
        path = os.path.join(self.log.name, self.files()[1])
        data = self.bytes_of(os.path.join("log", self.files()[1]))
        with open(path, "r+b") as file:
            file.truncate(len(data) * 2 // 3)
        kept = log.next
        self.assertIn(kept, range(1500, 2500))
        self.assertEqual(told(log, 2), [change(number) for number in range(2, kept)])
        self.assertEqual(told(log, kept), [])
        with open(path, "wb") as file:
            file.write(data)
        self.assertEqual(told(log, 2), [change(number) for number in range(2, 3000)])
        with open(path, "wb"):
            pass
        self.assertEqual((log.next, told(log, 0)), (5, [change(number) for number in range(5)]))

    def test_an_altered_file_is_told(self) -> None:
        self.add(range(0, 50))
        path = os.path.join(self.log.name, self.files()[0])
        data = self.bytes_of(os.path.join("log", self.files()[0]))
        size = len(change(0))
        for wrong in (data[:size] + data[2 * size:], data[:size] + b"\xff" * 40 + data[size:], b"\0\0\0\1\0" + data, data[:size] + data):
            with open(path, "wb") as file:
                file.write(wrong)
            with self.assertRaises(errors.LogFault):
                told(Log(self.log.name), 0)

    def test_one_process_adds_at_a_time(self) -> None:
        with self.log.writer() as keeper:
            keeper.add([change(0)])
            with self.assertRaises(errors.LogLocked):
                self.log.writer()
            with self.assertRaises(errors.LogLocked):
                Log(self.log.name).writer()
            self.assertEqual(os.waitpid(in_child(lambda: self.assertRaises(errors.Forked, keeper.add, [change(1)])), 0)[1], 0)
            keeper.add([change(1)])
        with self.assertRaises(errors.LogFault):
            keeper.add([change(2)])
        self.add(range(1, 3))
        self.assertEqual(self.log.next, 3)

    def test_a_child_does_not_keep_the_log_from_others(self) -> None:
        keeper = self.log.writer()
        start, ends = os.pipe()
        pid = in_child(lambda: (os.close(ends), os.read(start, 1)))
        keeper.close()
        self.add(range(0, 2))
        os.close(ends)
        os.close(start)
        os.waitpid(pid, 0)

    def test_what_is_added_is_synced_before_it_is_told(self) -> None:
        synced: List[str] = []
        real, folder = os.fdatasync, os.fsync
        with mock.patch("os.fdatasync", lambda number: (real(number), synced.append("file"))), \
                mock.patch("os.fsync", lambda number: (folder(number), synced.append("folder"))):
            with self.log.writer() as keeper:
                keeper.add([change(0)])
                self.assertEqual(synced, ["folder", "folder", "file"])
                keeper.add([change(1), change(2)])
                self.assertEqual(synced[3:], ["file"])

    def test_a_write_that_fails_or_is_short_leaves_no_wrong_change(self) -> None:
        self.add(range(0, 4))
        with self.log.writer() as keeper:
            keeper.add([change(4)])
            with mock.patch("os.fdatasync", side_effect=OSError(errno.EIO, "no")), self.assertRaisesRegex(errors.LogFault, "can't be written: no"):
                keeper.add([change(5)])
            with self.assertRaises(errors.LogFault):
                keeper.add([change(5)])
        with open(os.path.join(self.log.name, self.files()[-1]), "ab") as file:
            file.write(change(6)[:9])
        with self.assertWarns(errors.LogWarning):
            self.add(range(4, 9))
        self.assertEqual(told(self.log, 0), [change(number) for number in range(9)])

    def test_a_log_is_read_beside_its_writer(self) -> None:
        total, seen = 2000, []

        def write() -> None:
            with self.log.writer() as keeper:
                for number in range(0, total, 10):
                    keeper.add([change(other) for other in range(number, number + 10)])

        def read() -> None:
            log = Log(self.log.name)
            while len(seen) < total:
                try:
                    seen.extend(told(log, len(seen)))
                except errors.LogMissing:
                    pass
                log.wait(len(seen), 0.01) if os.path.isdir(log.name) else None

        self.assertEqual(Threads(write, read).join(), [])
        self.assertEqual(seen, [change(number) for number in range(total)])

    def test_a_wait_ends_with_a_change_or_its_time(self) -> None:
        self.add(range(0, 3))
        self.assertTrue(self.log.wait(2, 5))
        self.assertFalse(self.log.wait(3, 0.01))
