"""Leaders, followers and what feeds them: copies that are their leader after a prefix, whatever is killed, refused or missing."""

from __future__ import annotations

import os
import random
import signal
import subprocess
import sys
import time
import unittest
from typing import Any, Dict, List, Optional, Set, Tuple
from unittest import mock

from redises import RedisCase
from support import DEADLINE, TOP, StoreCase, Threads, in_child, is_gone, needs, stop

import castle
from castle import Store, changes, errors, frames, replicate
from castle.process import find_program
from test_changelog import change

COPYCAT = str(TOP / "clients" / "python" / "tests" / "copycat")
COMMAND = str(TOP / "castle-replicate")
Tables = List[Optional[Dict[bytes, bytes]]]


def tables(path: str) -> Tables:
    """The pairs of each version of a store; None for a dropped one."""
    with Store(path) as store:
        return [info and dict(store.scan(version)) for version, info in enumerate(store.versions())]


def replayed(sent: List[bytes]) -> Tables:
    """The pairs of each version after these changes."""
    found: Tables = [{}]
    for change in map(changes.change_of, sent):
        pairs = found[change.version]
        assert pairs is not None
        if change.kind == changes.CLONE:
            found.append(dict(pairs))
        elif change.kind == changes.DROP:
            found[change.version] = None
        elif change.kind == changes.DELETE:
            pairs.pop(change.key, None)
        else:
            pairs[change.key] = change.value or b""
    return found


class ReplicaCase(StoreCase):
    in_memory = True

    def setUp(self) -> None:
        super().setUp()
        needs("lead")
        self.log = replicate.Log(os.path.join(self.folder, "log"))
        self.copy = os.path.join(self.folder, "copy.store")
        self.dropped: Set[int] = set()

    def stores(self, mem: int = 8, limit: int = 100000, versions: int = 1000) -> None:
        """Makes a leader's store and a copy of it that has nothing."""
        for path in (self.path, self.copy):
            Store.format(path, mem, limit, versions)

    def led(self, chance: random.Random, count: int, keeper: Any = None) -> replicate.Led:
        """Has the leader take drawn changes."""
        with replicate.Leader(self.path, self.log if keeper is None else keeper) as leader:
            for number in range(count):
                last = [it for it in range(max(0, leader.versions - 5), leader.versions) if it not in self.dropped]
                version, key = chance.choice(last or [0]), f"key/{chance.randrange(20)}"
                draw = chance.random()
                if draw < 0.1:
                    leader.clone(version)
                elif draw < 0.15:
                    leader.drop(version)
                    self.dropped.add(version)  # or it is refused
                elif draw < 0.3:
                    leader.delete(version, key)
                else:
                    leader.put(version, key, f"{number}")
        assert leader.led
        return leader.led


class LeaderTest(ReplicaCase):
    def test_what_a_leader_accepts_is_in_the_log_and_what_it_refuses_is_told(self) -> None:
        self.stores()
        with replicate.Leader(self.path, self.log) as leader:
            leader.put(0, "a", "1")
            leader.clone(0)
            leader.wait()
            self.assertEqual((leader.next, leader.versions, self.log.next), (2, 2, 2))
            leader.put(0, "a", "2")
            leader.put(1, b"a", b"2")
            leader.delete(7, "a")
            leader.clone(1)
            leader.drop(1)
            leader.drop(2)
            leader.drop(0)
            leader.put(1, b"b", b"3")
            for wrong in (lambda: leader.put(1, "", "1"), lambda: leader.put(1, "k", "v" * 1025), lambda: leader.delete(1, "k" * 256)):
                self.assertRaises((errors.KeySize, errors.ValueSize), wrong)
        self.assertEqual(leader.led, replicate.Led(6, 6, ["put a at version 0", "delete a at version 7", "drop version 1", "drop version 0"]))
        self.assertRaises(errors.StoreClosed, leader.put, 1, "a", "1")
        self.assertEqual([str(changes.change_of(frame)) for found in self.log.read(0) for frame in found],
                         ["0 put a 1 @0", "1 clone @0", "2 put a 2 @1", "3 clone @1", "4 drop @2", "5 put b 3 @1"])
        self.assertEqual(tables(self.path), [{b"a": b"1"}, {b"a": b"2", b"b": b"3"}, None])

    def test_what_is_sent_reaches_the_leader_at_once_and_the_log_soon(self) -> None:
        self.stores()
        with replicate.Leader(self.path, self.log) as leader:
            leader.put(0, "a", "1")
            deadline = time.monotonic() + 10
            while replicate.changes_in(self.path) == 0 and time.monotonic() < deadline:
                time.sleep(0.01)
            self.assertEqual(replicate.changes_in(self.path), 1)
            time.sleep(0.1)
            leader.put(0, "b", "1")
            # On a busy machine the second change may have come by now, too.
            self.assertIn((self.log.next, leader.next), ((1, 1), (2, 2)))
            for number in range(5000):
                leader.put(0, f"{number}", "v" * 50)
            leader.wait()
            self.assertEqual(self.log.next, 5002)

    def test_a_later_run_repeats_its_journal_and_the_log_has_each_change_once(self) -> None:
        chance = random.Random(1)
        self.stores(8)
        total = 0
        for turn in range(6):
            led = self.led(chance, chance.randrange(1, 30))
            total += led.changes
            self.assertEqual((led.next, self.log.next), (total, total))
        self.assertEqual(len([frame for found in self.log.read(0) for frame in found]), total)
        with Store(self.path) as store:
            self.assertEqual(store.stat().changes, total)
        with replicate.Leader(self.path, self.log) as leader:  # what it repeats is no answer to a command
            for number in range(20):
                leader.put(leader.versions - 1, f"{number}", "1")
        self.assertEqual(leader.led, replicate.Led(20, total + 20, []))

    def test_a_leader_has_the_store_alone_and_its_child_has_it_not(self) -> None:
        self.stores()
        with replicate.Leader(self.path, self.log) as leader:
            for other in (lambda: Store(self.path), lambda: replicate.Follower(self.path), lambda: replicate.Leader(self.path, self.log)):
                self.assertRaises((errors.StoreLocked, errors.LogLocked), other)
            self.assertEqual(os.waitpid(in_child(lambda: self.assertRaises(errors.Forked, leader.put, 0, "a", "1")), 0)[1], 0)
            leader.put(0, "a", "1")
        self.assertEqual(tables(self.path), [{b"a": b"1"}])

    def test_changes_of_a_leader_that_was_killed_come_at_its_next_run(self) -> None:
        self.stores()
        leader = replicate.Leader(self.path, self.log)
        for number in range(9):
            leader.put(0, f"k{number}", "1")
        leader.wait()
        leader._process.kill(signal.SIGKILL)
        self.assertRaises(errors.Killed, leader.close)
        replicate.Leader(self.path, self.log).close()
        with Store(self.path) as store:
            self.assertEqual(store.stat().changes, self.log.next)
        self.assertEqual(self.log.next, 9)

    def test_a_run_that_another_word_made_leaves_a_gap(self) -> None:
        self.stores(4)
        self.led(random.Random(2), 3)
        with Store(self.path) as store:
            for number in range(20):
                store.put(store.stat().versions - 1, f"x{number}", "1")
        with self.assertRaisesRegex(errors.LogGap, "the log lacks those from \\d+ on. Begin a new log"):
            replicate.Leader(self.path, self.log).close()

    def test_what_was_lost_on_the_way_to_the_log_is_told_and_never_hidden(self) -> None:
        chance, told = random.Random(10), 0
        for _ in range(12):
            Store.format(self.path, 4, 100000, 1000, overwrite=True)
            log = replicate.Log(os.path.join(self.folder, f"log{_}"))
            lines = [frames.put(number, 0, b"k%d" % number, b"v") for number in range(40)]
            given = subprocess.run([find_program(), "lead", self.path], input=b"".join(lines), capture_output=True, check=True).stdout
            with log.writer() as keeper:  # what kept them was killed, with the rest in the pipe
                keeper.add(changes.split(given)[0][:chance.randrange(1, 41)])
            kept = log.next
            again = subprocess.run([find_program(), "lead", self.path], input=b"", capture_output=True, check=True).stdout
            first = changes.number_of(again)
            try:
                with log.writer() as keeper:
                    keeper.add(changes.split(again)[0])
                self.assertLessEqual(first, kept)
                self.assertEqual(len([frame for found in log.read(0) for frame in found]), 40)
            except errors.LogGap as error:
                self.assertEqual((error.wanted, error.found, first > kept), (kept, first, True))
                told += 1
        self.assertGreater(told, 0)


class ReplicaTest(ReplicaCase):
    def test_a_copy_catches_up_and_is_the_leader_after_a_prefix(self) -> None:
        chance = random.Random(3)
        self.stores()
        replica, before = replicate.Replica(self.copy), 0
        for turn in range(6):
            end = self.led(chance, 40).next
            until = chance.randrange(before, end) if turn % 2 else None
            got = replica.catch_up(self.log, until)
            self.assertEqual((got, replica.lag(self.log)), (end if until is None else until, end - got))
            self.assertEqual(replica.catch_up(self.log, before), got)
            before = got
            self.assertEqual(replicate.changes_in(self.copy), got)
        self.assertEqual(replica.catch_up(self.log), self.log.next)
        self.assertEqual(tables(self.copy), tables(self.path))
        self.assertTrue(Store.check(self.copy))
        self.assertEqual(replica.catch_up(self.log), self.log.next)

    def test_a_copy_that_is_ahead_or_too_far_behind_is_told(self) -> None:
        self.stores()
        self.led(random.Random(4), 10)
        end = replicate.Replica(self.copy).catch_up(self.log)
        with self.assertRaisesRegex(errors.FollowerAhead, f"has {end} changes, and the log goes up to 0"):
            os.mkdir(os.path.join(self.folder, "empty"))
            replicate.Replica(self.copy).catch_up(replicate.Log(os.path.join(self.folder, "empty")))
        other = replicate.Log(os.path.join(self.folder, "other"))
        with other.writer() as keeper:
            keeper.add([change(number) for number in range(end + 3, end + 5)])
        with self.assertRaises(errors.LogGap) as caught:
            replicate.Replica(self.copy).catch_up(other)
        self.assertEqual(caught.exception.wanted, end)

    def test_a_copy_waits_for_a_log_that_is_not_there_and_is_fed_in_turns_while_others_open_it(self) -> None:
        self.stores()
        replica, seen, stops = replicate.Replica(self.copy), [], []

        def tell(what: str, done: int, total: Optional[int]) -> None:
            seen.append(what)

        self.assertRaises(errors.LogMissing, replica.catch_up, self.log)
        threads = Threads(lambda: replica.stay(self.log, lambda: bool(stops) or "changes" in seen, tell, 0.02))
        while "waiting for the log" not in seen:
            time.sleep(0.01)
        self.led(random.Random(5), 30)
        self.assertEqual(threads.join(), [])
        self.led(random.Random(5), 30)
        seen.clear()
        with Store(self.copy) as store:
            self.assertRaises(errors.StoreLocked, replica.catch_up, self.log)
            threads = Threads(lambda: replica.stay(self.log, lambda: bool(stops), tell, 0.02))
            while "waiting, since the store is open" not in seen:
                time.sleep(0.01)
            self.assertEqual(store.stat().changes, replica.next)
            self.assertLess(store.stat().changes, self.log.next)
        while replica.next != self.log.next:
            time.sleep(0.01)
        stops.append(1)
        self.assertEqual(threads.join(), [])
        self.assertEqual(tables(self.copy), tables(self.path))

    def test_a_follower_that_is_killed_anywhere_goes_on_from_what_it_has(self) -> None:
        chance = random.Random(6)
        self.stores()
        self.led(chance, 600)
        give, kills = replicate.Follower.give, []

        def killed(follower: replicate.Follower, given: List[bytes]) -> List[changes.Receipt]:
            if len(kills) < 12 and len(given) > 1:
                kills.append(1)
                cut = chance.randrange(len(given))
                give(follower, given[:cut])
                follower._process.kill(signal.SIGKILL)
            return give(follower, given)

        with mock.patch.object(replicate.Follower, "give", killed):
            replicate.Replica(self.copy, pause=0, retries=20).catch_up(self.log)
        self.assertGreater(len(kills), 4)
        self.assertEqual(tables(self.copy), tables(self.path))

    def test_a_follower_is_of_its_process_and_leaves_nothing_behind(self) -> None:
        self.stores()
        follower = replicate.Follower(self.copy)
        pid = follower._process.pid
        self.assertEqual(follower.ask(), 0)
        self.assertEqual(os.waitpid(in_child(lambda: self.assertRaises(errors.Forked, follower.ask)), 0)[1], 0)
        self.assertEqual(follower.give([changes.put(0, 0, b"a", b"1")]), [changes.Receipt(0, changes.TAKEN, 1, 0)])
        follower.close()
        self.assertRaises(errors.StoreClosed, follower.ask)
        self.assertTrue(is_gone(pid))
        self.assertEqual(tables(self.copy), [{b"a": b"1"}])

    def test_many_changes_at_once_block_nobody(self) -> None:
        self.stores(64)
        data = [changes.put(number, 0, b"k%d" % number, b"v" * 1000) for number in range(3000)]
        with replicate.Follower(self.copy) as follower:
            self.assertEqual([receipt.status for receipt in follower.give(data)], [changes.TAKEN] * 3000)


class BackupTest(ReplicaCase):
    """A copy is made through the leader's changes while the leader goes on, and is killed at random."""

    def test_a_copy_beside_a_writer_that_is_killed_is_its_table_after_a_prefix(self) -> None:
        chance, seen = random.Random(7), set()
        self.stores(8)
        for turn in range(12):
            killing = Threads(lambda: self.write(chance.randrange(1 << 30)))
            end = self.log.next + chance.randrange(150) if turn else 30
            while killing.are_alive and (not os.path.isdir(self.log.name) or self.log.next < end):
                time.sleep(0.002)
            amid = replicate.Replica(self.copy, pause=0).catch_up(self.log)  # while the leader goes on
            self.pids.pop().kill(signal.SIGKILL)
            self.assertEqual([error for error in killing.join() if not isinstance(error, errors.Killed)], [])
            kept = [frame for found in self.log.read(0) for frame in found]
            self.assertEqual(tables(self.copy), replayed(kept[:amid]))
            self.assertTrue(Store.check(self.copy))
            with Store(self.path) as store:
                self.assertGreaterEqual(store.stat().changes, len(kept))
            seen.add(amid < len(kept))
        self.assertEqual(replicate.Replica(self.copy).catch_up(self.log), self.log.next)
        replicate.Leader(self.path, self.log).close()
        replicate.Replica(self.copy).catch_up(self.log)
        self.assertEqual(tables(self.copy), tables(self.path))
        self.assertEqual(tables(self.copy), replayed([frame for found in self.log.read(0) for frame in found]))
        self.assertIn(True, seen)

    def setUp(self) -> None:
        super().setUp()
        self.pids: List[Any] = []

    def write(self, seed: int) -> None:
        """Has a leader take changes until it is killed."""
        chance = random.Random(seed)
        with replicate.Leader(self.path, self.log) as leader:
            self.pids.append(leader._process)
            while True:
                version = chance.choice((leader.versions - 1, max(0, leader.versions - 2), chance.randrange(leader.versions)))
                if chance.random() < 0.01:
                    leader.clone(chance.choice((version, 0)))
                    leader.drop(chance.choice((version, leader.versions - 1, leader.versions)))
                leader.put(version, f"key/{chance.randrange(40)}", str(chance.random()))
                if chance.random() < 0.2:
                    leader.delete(version, f"key/{chance.randrange(40)}")


class LogBackupTest(ReplicaCase):
    """One call that makes a checked copy by the leader's changes, beside the leader that goes on."""

    def test_a_backup_beside_a_leader_is_its_table_after_a_prefix(self) -> None:
        chance, sizes = random.Random(12), []
        Store.format(self.path, 8, 5000, 300)
        with Store(self.path) as store:
            store.names["base"] = 0
        told: List[str] = []
        with replicate.Leader(self.path, self.log) as leader:
            for turn in range(4):
                for number in range(chance.randrange(20, 60)):
                    leader.put(leader.versions - 1, f"k{chance.randrange(9)}", f"{turn} {number}")
                leader.clone(leader.versions - 1)
                leader.wait()
                with self.assertRaises(errors.StoreLocked):
                    castle.backup(self.path, self.copy, overwrite=True)
                number = replicate.backup(self.log, self.path, self.copy, overwrite=turn > 0, progress=lambda what, *_: told.append(what))
                kept = [frame for found in self.log.read(0) for frame in found]
                self.assertEqual((number, tables(self.copy)), (self.log.next, replayed(kept[:number])))
                sizes.append(number)
                with Store(self.copy) as copy:
                    self.assertEqual((copy.limits(), dict(copy.names)), (castle.Limits(8, 5000, 300), {"base": 0}))
        self.assertEqual(sizes, sorted(set(sizes)))
        self.assertLessEqual({"changes", "checking the copy"}, set(told))
        self.assertEqual(sorted(name for name in os.listdir(self.folder) if name.startswith(".castle-")), [])

    def test_a_backup_is_whole_or_none(self) -> None:
        self.stores()
        self.led(random.Random(13), 60)
        os.remove(self.copy)
        steps: List[str] = []
        replicate.backup(self.log, self.path, self.copy, progress=lambda what, *_: steps.append(what))
        os.remove(self.copy)
        for end in range(len(steps)):
            left = iter(range(end))

            def tell(*_: Any) -> None:
                if next(left, None) is None:
                    raise KeyboardInterrupt

            self.assertRaises(KeyboardInterrupt, replicate.backup, self.log, self.path, self.copy, progress=tell)
            self.assertFalse(os.path.exists(self.copy))
        self.written("copy.store", "mine")
        self.assertRaises(errors.StoreExists, replicate.backup, self.log, self.path, self.copy)
        self.assertEqual(self.bytes_of("copy.store"), b"mine")
        self.assertRaises(errors.StoreExists, replicate.backup, self.log, self.path, self.path, overwrite=True)
        self.assertRaises(errors.StoreMissing, replicate.backup, self.log, self.path + "2", self.copy + "2")
        self.assertRaises(errors.LogMissing, replicate.backup, replicate.Log(self.path + "2"), self.path, self.copy + "2")
        self.assertEqual([name for name in os.listdir(self.folder) if name.startswith((".castle-", "copy.store2"))], [])

    def test_a_log_that_lacks_its_beginning_is_told(self) -> None:
        self.stores()
        log = replicate.Log(os.path.join(self.folder, "late"))
        with log.writer() as keeper:
            keeper.add([change(number) for number in range(7, 20)])
        with self.assertRaises(errors.LogGap) as caught:
            replicate.backup(log, self.path, self.copy + "2")
        self.assertEqual((caught.exception.wanted, caught.exception.found), (0, 7))
        self.assertFalse(os.path.exists(self.copy + "2"))


class LevelsTest(StoreCase):
    """A program that only pretends, for a file that somebody changes while it is read."""

    # the first runs say so: what they read was of different times
    DAMAGED = '#!/bin/sh\necho x >>"$0.runs"\n[ $(wc -l <"$0.runs") -gt %d ] || { echo "damaged block 7"; exit %d; }\nexec "%s" "$@"\n'

    def program(self, runs: int, status: int) -> str:
        path = self.written(f"program{runs}.{status}", self.DAMAGED % (runs, status, find_program()))
        os.chmod(path, 0o755)
        return path

    def test_levels_of_a_file_that_somebody_changes_are_read_again(self) -> None:
        self.made().close()
        self.assertEqual(replicate.changes_in(self.path, self.program(4, 9)), 0)
        with self.assertRaisesRegex(errors.StoreDamaged, "levels: block 7 of the file is damaged"):
            replicate.changes_in(self.path, self.program(5, 9))
        with self.assertRaises(errors.DeviceFailed):
            replicate.changes_in(self.path, self.program(1, 5))
        with Store(self.path, self.program(0, 9)) as store:  # its own file nobody changes
            store._found = self.program(1, 9)
            self.assertRaises(errors.StoreDamaged, store.levels)


class RefusalTest(StoreCase):
    """Followers that only pretend, for what the real one can't be brought to."""

    def setUp(self) -> None:
        super().setUp()
        self.log = replicate.Log(os.path.join(self.folder, "log"))
        with self.log.writer() as keeper:
            keeper.add([change(number) for number in range(50)])

    def replica(self, words: str, retries: int = 3) -> replicate.Replica:
        self.path = self.written("pretended", words)
        return replicate.Replica(self.path, COPYCAT, retries=retries, pause=0)

    def test_want_of_memory_is_tried_again_and_then_told(self) -> None:
        self.assertEqual(self.replica("7 memory 3").catch_up(self.log), 50)
        with self.assertRaisesRegex(errors.FollowerStuck, "waits for change 7 still, after 3 more tries: memory ran out") as caught:
            self.replica("7 memory 4").catch_up(self.log)
        self.assertIsInstance(caught.exception.__cause__, errors.NoMemory)

    def test_a_gap_is_gone_back_to(self) -> None:
        self.assertEqual(self.replica("7 gap 3").catch_up(self.log), 50)
        with self.assertRaisesRegex(errors.FollowerStuck, "it waits for change 7, and was given 7"):
            self.replica("7 gap 4").catch_up(self.log)

    def test_a_kill_is_tried_again_and_an_end_is_told(self) -> None:
        self.assertEqual(self.replica("7 kill 5").catch_up(self.log), 50)
        for status, kind in ((5, errors.DeviceFailed), (9, errors.StoreDamaged), (7, errors.OutputFailed)):
            with self.assertRaises(kind):
                self.replica(f"7 exit 5 {status}").catch_up(self.log)

    def test_a_refusal_for_good_is_told_with_its_reason(self) -> None:
        for status, kind in ((16, errors.UnknownVersion), (17, errors.Frozen), (19, errors.VersionLimit), (20, errors.ChangeLimit)):
            with self.assertRaises(errors.FollowerRefused) as caught:
                self.replica(f"7 refuse {status}").catch_up(self.log)
            self.assertIsInstance(caught.exception.refusal, kind)
            self.assertIn("change 7", str(caught.exception))

    def test_another_program_is_told(self) -> None:
        with self.assertRaises(errors.WrongProtocol):
            self.replica("7 noise 1").catch_up(self.log)
        with self.assertRaises(errors.ProgramMissing):
            replicate.Replica(self.path, os.path.join(self.folder, "absent")).catch_up(self.log)
        self.assertRaises(errors.StoreMissing, replicate.Replica(self.path + ".absent").catch_up, self.log)


class RedisTest(RedisCase, ReplicaCase):
    def test_two_followers_of_a_stream_of_which_one_is_killed_and_one_is_away(self) -> None:
        chance = random.Random(8)
        self.stores()
        away = os.path.join(self.folder, "away.store")
        Store.format(away, 8, 100000, 1000)
        for log in self.logs():
            name = log._stream
            with self.subTest(name):
                Store.format(self.path, 8, 100000, 1000, overwrite=True)
                for path in (self.copy, away):
                    Store.format(path, 8, 100000, 1000, overwrite=True)
                self.led(chance, 40, log)
                replicate.Replica(away).catch_up(log)
                for _ in range(4):
                    self.led(chance, 40, log)
                    with replicate.Follower(self.copy) as follower:
                        start = follower.ask()
                        given = [frame for found in log.read(start) for frame in found]
                        follower.give(given[:chance.randrange(1, len(given))])
                        follower.kill()
                for path in (self.copy, away):
                    self.assertEqual(replicate.Replica(path).catch_up(log), log.next)
                    self.assertEqual(tables(path), tables(self.path))

    def test_a_stream_refuses_repeats_gaps_and_other_changes(self) -> None:
        for log in self.logs():
            with log.writer() as keeper:
                keeper.add([change(number) for number in range(1500)])
            with log.writer() as keeper:
                keeper.add([change(number) for number in range(1490, 1510)])
            self.assertEqual((log.first, log.next), (0, 1510))
            self.assertEqual([frame for found in log.read(3) for frame in found], [change(number) for number in range(3, 1510)])
            with log.writer() as keeper, self.assertRaises(errors.LogGap):
                keeper.add([change(1512)])
            with log.writer() as keeper, self.assertRaises(errors.LogForked):
                keeper.add([changes.put(1509, 0, b"other", b"")])
            with log.writer() as keeper, log.writer() as other:
                keeper.add([change(1510), change(1511)])
                other.add([change(1510), change(1511), change(1512)])
                with self.assertRaises(errors.LogForked):
                    keeper.add([changes.put(1512, 0, b"other", b"")])
            self.assertTrue(log.wait(1512, 1))
            self.assertFalse(log.wait(1513, 0.05))
            log.ask("XTRIM", log._stream, "MINID", "100-1")
            self.assertEqual(log.first, 100)
            self.assertRaises(errors.LogGap, list, log.read(99))
            log.ask("XADD", log._stream, "9999-1", "frame", "noise")
            self.assertRaises(errors.LogFault, list, log.read(1513))

    def test_no_answer_is_taken_for_that_to_another_command(self) -> None:
        log = next(iter(self.logs()))
        with log.writer() as keeper:
            keeper.add([change(number) for number in range(20)])
        with mock.patch("castle.redislog.LIMIT", 0.3):
            hasty = replicate.RedisLog(log.name)
            stop(self.server.pid)
            with self.assertRaisesRegex(errors.NoRedis, "timed out"):
                hasty.ask("XLEN", "own")
            with self.assertRaises(errors.NoRedis):  # and none is got from a new connection either
                hasty.ask("XLEN", "own")
            self.server.send_signal(signal.SIGCONT)
            self.assertEqual((hasty.first, hasty.next), (0, 20))

            def interrupted(*_: object) -> None:
                raise KeyboardInterrupt

            with mock.patch.object(hasty._client, "_answer", interrupted):
                self.assertRaises(KeyboardInterrupt, hasty.ask, "XLEN", "own")
            self.assertEqual((hasty.ask("XLEN", "own"), hasty.next), (20, 20))
        for wrong in ("redis://localhost:x?stream=a", "redis://localhost:99999?stream=a", "redis+unix:absent"):
            self.assertRaises(errors.NoRedis, replicate.RedisLog, wrong)

    def test_a_server_that_is_not_there_or_goes_away_is_told(self) -> None:
        log = next(iter(self.logs()))
        self.stop()
        self.assertRaises(errors.NoRedis, lambda: log.next)
        self.assertRaises(errors.NoRedis, replicate.RedisLog, log.name)
        self.assertEqual(os.waitpid(in_child(lambda: self.assertRaises(errors.Forked, lambda: log.next)), 0)[1], 0)
        self.assertRaises(errors.NoRedis, replicate.RedisLog, "redis://localhost:1?stream=x")


class CommandTest(ReplicaCase):
    def run_command(self, *words: str, given: bytes = b"") -> Tuple[str, str, int]:
        ran = subprocess.run([sys.executable, COMMAND, *words], input=given, capture_output=True, cwd=self.folder, timeout=DEADLINE)
        return ran.stdout.decode("utf-8", "replace"), ran.stderr.decode(), ran.returncode

    def sent(self, lines: str) -> bytes:
        """What a leader writes for these lines."""
        given = subprocess.run([sys.executable, COMMAND, "commands"], input=lines.encode(), capture_output=True, check=True, timeout=DEADLINE).stdout
        return subprocess.run([find_program(), "lead", self.path], input=given, capture_output=True, check=True, timeout=DEADLINE).stdout

    def test_subcommands(self) -> None:
        self.stores()
        sent = self.sent('# two\nput a 1\n\nput "b c" \\xff @0\nclone @0\ndelete a @1\ndrop @1\n')
        shown = '0 put a 1 @0\n1 put "b c" \\xff @0\n2 clone @0\n3 delete a @1\n4 drop @1\n'
        self.assertEqual(self.run_command("show", "changes", given=sent), (shown, "", 0))
        self.assertEqual(self.run_command("record", "--pass", "log", given=sent), (sent.decode("utf-8", "replace"), "", 0))
        self.assertEqual(self.run_command("status", "log", "copy.store"), ("log: first 0, next 5\ncopy.store: next 0, lag 5\n", "", 0))
        self.assertEqual(self.run_command("read", "log", "2", "--until", "3")[0].encode(), changes.clone(2, 0))
        self.assertEqual(self.run_command("feed", "log", "copy.store", "--until", "1"), ("copy.store: next 1, lag 4\n", "", 0))
        follow = [find_program(), "follow", "copy.store"]
        self.assertEqual(self.run_command("feed", "log", "--command", *follow), (f"{' '.join(follow)}: next 5, lag 0\n", "", 0))
        self.assertEqual(tables(self.copy), tables(self.path))
        self.assertEqual(self.run_command("backup", "log", "a.store", "b.store"), ("b.store: next 5\n", "", 0))
        self.assertEqual(tables(os.path.join(self.folder, "b.store")), tables(self.path))
        out, said, status = self.run_command("backup", "log", "a.store", "b.store")
        self.assertEqual((out, status), ("", 1))
        self.assertIn("b.store: a castle store is there already", said)
        self.assertEqual(self.run_command("backup", "--overwrite", "log", "a.store", "b.store")[2], 0)

    def test_feeding_stays_up_to_a_number(self) -> None:
        self.stores()
        self.led(random.Random(14), 30)
        self.assertEqual(self.run_command("feed", "log", "copy.store", "--stay", "--until", "9"), (f"copy.store: next 9, lag {self.log.next - 9}\n", "", 0))
        self.assertEqual(replicate.changes_in(self.copy), 9)

    def test_what_goes_wrong(self) -> None:
        self.stores()
        for words in ((), ("feed", "log"), ("feed", "log", "copy.store", "--command", "x"), ("feed", "log", "copy.store", "--until", "x"),
                      ("show", "x"), ("absent",)):
            self.assertEqual(self.run_command(*words)[2], 2, words)
        self.assertIn("no log of changes", self.run_command("status", "absent")[1])
        self.assertIn("line 2 is no change", self.run_command("commands", given=b"clone\nput a\n")[1])
        for line in (b"get a\n", b"drop\n", b"drop 1\n", b"drop a @1\n"):
            self.assertEqual(self.run_command("commands", given=line)[2], 1)
        sent = self.sent("put a 1\nput b 2\n")
        out, said, status = self.run_command("record", "log", given=sent[:-3])
        self.assertEqual((out, status), ("", 0))
        self.assertIn("the stream ended amid a frame", said)
        self.assertEqual(self.log.next, 1)
        self.assertEqual(self.run_command("record", "log", given=b"\xff" * 9)[2], 1)

    def test_ctrl_c_amid_a_recording_leaves_whole_changes(self) -> None:
        child = subprocess.Popen([sys.executable, COMMAND, "record", "log"], stdin=subprocess.PIPE, cwd=self.folder)
        assert child.stdin
        try:
            child.stdin.write(b"".join(change(number) for number in range(30)) + change(30)[:7])
            child.stdin.flush()
            while not os.path.isdir(self.log.name) or self.log.next < 30:
                time.sleep(0.01)
            child.send_signal(signal.SIGINT)
            self.assertEqual(child.wait(DEADLINE), 130)
        finally:
            child.kill()
            child.stdin.close()
            child.wait()
        self.assertEqual([frame for found in self.log.read(0) for frame in found], [change(number) for number in range(30)])
        sent = b"".join(change(number) for number in range(25, 40))
        self.assertEqual(self.run_command("record", "log", given=sent), ("", "", 0))
        self.assertEqual(self.log.next, 40)

    def test_a_signal_ends_what_stays_and_the_copy_is_free(self) -> None:
        self.stores()
        self.led(random.Random(9), 20)
        child = subprocess.Popen([sys.executable, COMMAND, "feed", "log", "copy.store", "--stay"], cwd=self.folder)
        try:
            while replicate.changes_in(self.copy) < self.log.next:
                time.sleep(0.05)
            child.send_signal(signal.SIGINT)
            self.assertEqual(child.wait(DEADLINE), 130)
        finally:
            child.kill()
            child.wait()
        self.assertEqual(tables(self.copy), tables(self.path))
