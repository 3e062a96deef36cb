"""Backups over a hub: a new store that has what the other one had at one time, whatever others change meanwhile, or none."""

from __future__ import annotations

import os
import random
import signal
import struct
import threading
import time
import unittest
from typing import Any, Callable, Dict, List, Optional, Tuple
from unittest import mock

from hubs import PATIENCE, HubCase, Reply
from session import carried_out
from support import Threads

import castle
from castle import Limits, Store, errors, frames, treecopy
from castle.program import Program

Contents = Tuple[List[Optional[int]], List[Optional[Dict[bytes, bytes]]]]


class CopyCase(HubCase):
    def setUp(self) -> None:
        super().setUp()
        self.to = os.path.join(self.folder, "to.store")

    def expect_left(self, *names: str) -> None:
        """These files are in the folder, beside the hub's own and locks of stores that were opened."""
        left = [name for name in os.listdir(self.folder)
                if not name.startswith("a.store") and not name.endswith(".lock") and name != "socket"]
        self.assertEqual(sorted(left), sorted(names))

    def contents(self, store: Store) -> Contents:
        """The parents and the pairs of each version; None for those of a dropped one."""
        infos = store.versions()
        return [info and info.parent for info in infos], [info and dict(store.scan(version)) for version, info in enumerate(infos)]

    def copied(self) -> Contents:
        """The same of the copy, which is sound."""
        self.assertTrue(Store.check(self.to))
        with Store(self.to) as copy:
            return self.contents(copy)

    def grown(self, store: Store, count: int, versions: int, seed: int = 1) -> None:
        """Has a store take drawn changes."""
        chance = random.Random(seed)
        for number in range(count):
            tips = [version for version, info in enumerate(store.versions()) if info is not None and not info.frozen]
            tip = chance.choice(tips)
            if tip and chance.random() < 0.1:
                store.drop(tip)
                continue
            if store.stat().versions < versions and chance.random() < 0.2:
                store.clone(chance.choice((tip, chance.choice([version for version, info in enumerate(store.versions()) if info]))))
                continue
            if chance.random() < 0.3:
                store.delete(tip, f"k{chance.randrange(30)}")
            else:
                store.put(tip, f"k{chance.randrange(30)}", f"{number}")


class TreeCopyTest(CopyCase):
    def test_a_copy_has_the_same_versions_pairs_and_limits(self) -> None:
        self.served(limits=(8, 5000, 40))
        store = self.client()
        steps: List[str] = []
        for seed in range(3):
            self.grown(store, 60, 10 * (seed + 1), seed)
            store.backup(self.to, overwrite=seed > 0, progress=lambda what, *_: steps.append(what))
            self.assertEqual(self.copied(), self.contents(store))
            with Store(self.to) as copy:
                self.assertEqual((copy.limits(), store.limits()), (Limits(8, 5000, 40), Limits(8, 5000, 40)))
                self.assertLessEqual(copy.stat().changes, store.stat().changes)
        self.assertLessEqual({"versions copied", "checking the copy"}, set(steps))
        self.assertEqual(store.stat().cursors, 0)
        self.expect_left("to.store")
        castle.backup(self.address, self.to, overwrite=True)
        self.assertEqual(self.copied(), self.contents(store))

    def test_who_may_use_the_hub_may_use_the_copy(self) -> None:
        self.served("--mode", "640")
        self.client().backup(self.to)
        self.assertEqual(os.stat(self.to).st_mode & 0o777, 0o640)

    def test_a_copy_is_of_one_time_beside_others_that_write(self) -> None:
        self.served(limits=(8, 10 ** 6, 100))
        store, stops = self.client(), threading.Event()
        tips = [store.clone(0) for _ in range(5)]
        ends: List[int] = []

        def write() -> None:
            with Store(self.address) as other:
                number = 0
                while not stops.is_set():
                    other.put(tips[number % len(tips)], f"{number // len(tips):06}", "")
                    number += 1
                ends.append(number)

        thread = Threads(write)
        try:
            for turn in range(6):
                before = store.stat().updates
                store.backup(self.to, overwrite=turn > 0)
                sizes = [len(table or ()) for table in self.copied()[1][1:]]
                self.assertIn(sum(sizes), range(before, store.stat().updates + 1))
                # a prefix: each tip is as far as the one before it, or one key behind
                self.assertEqual(sizes, [(sum(sizes) + len(tips) - 1 - place) // len(tips) for place in range(len(tips))])
        finally:
            stops.set()
            self.assertEqual(thread.join(), [])
        self.assertEqual(store.stat().cursors, 0)

    def test_a_version_that_gets_a_child_meanwhile_is_copied_as_it_was(self) -> None:
        self.served()
        store, other = self.client(), self.client()
        store.put(store.clone(0), "a", "1")
        before = self.contents(store)

        def tell(what: str, done: int, total: Optional[int]) -> None:
            if what == "versions copied" and done == 0:
                other.put(1, "a", "2")
                other.put(other.clone(1), "b", "1")

        store.backup(self.to, progress=tell)
        self.assertEqual(self.copied(), before)

    def test_scans_between_which_something_changed_are_opened_again(self) -> None:
        self.served()
        store, other = self.client(), self.client()
        for _ in range(3):
            store.put(store.clone(0), "a", "1")
        opened, calls = Program.open_all, iter(range(1000))

        def changed(program: Program, *words: Any) -> Any:
            first, cursors, last = opened(program, *words)
            return first, cursors, last._replace(changes=last.changes + (next(calls) < 3))

        with mock.patch.object(Program, "open_all", changed):
            store.backup(self.to)
        self.assertEqual(next(calls), 4)
        self.assertEqual((store.stat().cursors, self.copied()), (0, self.contents(store)))
        store.stat()
        told, grows = store.versions, iter((True, False))

        def grown() -> Any:
            infos = told()
            if next(grows, False):
                other.put(other.clone(0), "b", "1")
            return infos

        with mock.patch.object(store, "versions", grown):
            store.backup(self.to, overwrite=True)
        self.assertEqual(len(self.copied()[0]), 5)
        calls = iter([0] * 1000)
        with mock.patch.object(Program, "open_all", changed), self.assertRaises(errors.NotAtRest):
            store.backup(self.to + "2")
        self.assertEqual(store.stat().cursors, 0)
        self.expect_left("to.store")

    def test_many_tips_are_copied_while_nobody_writes(self) -> None:
        self.served(limits=(64, 10 ** 6, 200))
        store = self.client()
        for _ in range(treecopy.SCANS_MOST + 20):
            store.put(store.clone(0), "a", "1")
        store.backup(self.to)
        self.assertEqual(self.copied(), self.contents(store))
        self.assertEqual(store.stat().cursors, 0)
        calls: List[int] = []

        def tell(what: str, done: int, total: Optional[int]) -> None:
            if what == "versions copied" and done == 5:
                calls.append(1)
                store_of_others.put(3, "b", str(len(calls)))

        store_of_others = self.client()
        with self.assertRaisesRegex(errors.NotAtRest, "changed each time that it was copied"):
            store.backup(self.to + "2", progress=tell)
        self.assertEqual(len(calls), treecopy.COPIES)
        self.expect_left("to.store")

    def test_cursors_of_others_leave_fewer(self) -> None:
        self.served()
        store, other = self.client(), self.client()
        for _ in range(10):
            store.clone(0)
        held = [other.scan(0) for _ in range(60)]
        store.backup(self.to)
        self.assertEqual(self.copied(), self.contents(store))
        self.assertEqual(store.stat().cursors, 60)
        held += [other.scan(0) for _ in range(64 - 60)]
        with self.assertRaises(errors.CursorLimit):
            store.backup(self.to + "2")
        self.assertEqual(store.stat().cursors, 64)
        self.expect_left("to.store")

    def test_what_is_there_stays(self) -> None:
        self.served()
        store = self.client()
        self.written("to.store", "mine")
        for to, kind in ((self.to, errors.StoreExists), (self.path, errors.StoreExists), (os.path.join(self.folder, "no", "x"), errors.StoreMissing)):
            self.assertRaises(kind, store.backup, to)
        self.assertRaises(errors.StoreLocked, store.backup, self.path, overwrite=True)
        self.assertEqual(self.bytes_of("to.store"), b"mine")
        store.put(0, "a", "1")

    def test_whatever_ends_it_leaves_nothing(self) -> None:
        self.served()
        store = self.client()
        self.grown(store, 30, 6)
        steps: List[str] = []
        store.backup(self.to, progress=lambda what, *_: steps.append(what))
        os.remove(self.to)
        for number in range(len(steps)):
            left = iter(range(number))

            def tell(*_: Any) -> None:
                if next(left, None) is None:
                    raise KeyboardInterrupt

            self.assertRaises(KeyboardInterrupt, store.backup, self.to, progress=tell)
            self.expect_left()
        self.assertEqual(store.stat().cursors, 0)
        failing = mock.patch.object(os, "link", side_effect=OSError(28, "No space left on device"))
        with failing, mock.patch.object(os, "rename", side_effect=OSError(28, "No space left on device")):
            with self.assertRaisesRegex(errors.CastleError, "the backup can't be made: No space left"):
                store.backup(self.to)
        self.expect_left()

    def test_a_hub_that_is_killed_at_random_leaves_a_whole_copy_or_none(self) -> None:
        chance, seen = random.Random(48), set()
        Store.format(self.path, 8, 10 ** 6, 100)
        for turn in range(8):
            self.served()
            answered = self.expect_prefix_behind_a_kill(chance, turn)
            seen.add(answered is None)
            os.remove(self.socket)
        self.assertIn(False, seen)

    def expect_prefix_behind_a_kill(self, chance: random.Random, turn: int) -> Optional[int]:
        """Has one client write and another one copy the store, and kills the hub: how many pairs the copy has, or None without one."""
        store, sent = Store(self.address), [0]
        tip, made = store.clone(0), Store(self.address)

        def write() -> None:
            while True:
                made.put(tip, f"{sent[0]:06}", "")
                sent[0] += 1

        def copy() -> None:
            store.backup(self.to, overwrite=turn > 0)
            done.append(sent[0])

        done: List[int] = []
        threads = Threads(write), Threads(copy)
        deadline = time.monotonic() + (PATIENCE if turn % 3 == 0 else chance.choice((0.02, 0.1, 0.4)))
        while time.monotonic() < deadline and not done:
            time.sleep(0.005)
        self.hub.kill()
        self.hub.wait()
        gone = [error for thread in threads for error in thread.join()]
        self.assertEqual([error for error in gone if not isinstance(error, errors.HubGone)], [])
        for client in (store, made):
            client.__exit__(ValueError, ValueError(), None)
        if not done:
            return None
        self.expect_left("to.store")
        keys = sorted(self.copied()[1][tip] or ())
        self.assertEqual(keys, [b"%06d" % number for number in range(len(keys))])
        self.assertLessEqual(len(keys), done[0] + 1)
        return len(keys)


class CommandTest(CopyCase):
    def test_one_command_and_a_script(self) -> None:
        self.served()
        store = self.client()
        store.put(0, "a", "1")
        self.assertEqual(self.ran(self.address, "backup", "to.store"), ("wrote to.store\n", "", 0))
        out, said, status = self.ran(self.address, "backup", "to.store")
        self.assertEqual((out, status), ("", 2))
        self.assertRegex(said, "to.store: a castle store is there already")
        self.assertEqual(carried_out(store, f"backup --overwrite {self.to}", "get a")[::2], (f"wrote {self.to}\n1\n", 0))
        self.assertEqual(self.copied(), ([None], [{b"a": b"1"}]))
        self.assertEqual(self.ran("unix:absent", "backup", "b.store")[2], 2)

    def test_a_store_that_another_one_has_open_says_how_it_is_copied(self) -> None:
        with self.made():
            with self.assertRaisesRegex(errors.StoreLocked, r"the store is open.*Copy it where it is open .*unix:SOCKET.*castle-replicate"):
                castle.backup(self.path, self.to)
            Store.format(self.to, 4, 10, 1)
            with Store(self.to), self.assertRaisesRegex(errors.StoreLocked, "^.*to.store: .*Close it there first"):
                self.opened_elsewhere(lambda path: castle.backup(path, self.to, overwrite=True))

    def opened_elsewhere(self, act: Callable[[str], None]) -> None:
        other = os.path.join(self.folder, "other.store")
        Store.format(other, 4, 10, 1)
        act(other)


class LimitsTest(CopyCase):
    def test_limits_are_told_in_their_turn_and_by_that_frame_alone(self) -> None:
        self.served(limits=(5, 77, 9))
        client = self.raw()
        client.send(frames.put(1, 0, b"a", b"1"), frames.limits(2), frames.stat(3), frames.limits(2 ** 32 - 1), struct.pack(">IIBB", 6, 4, 64, 0))
        told = struct.pack(">III", 5, 77, 9)
        self.assertEqual(client.replies(5), [
            Reply(1, frames.DONE), Reply(2, frames.LIMITS, told), Reply(3, frames.COUNTS, struct.pack(">IIII", 1, 1, 1, 0)),
            Reply(2 ** 32 - 1, frames.LIMITS, told), Reply(4, errors.Malformed.status)])
        self.assertEqual(self.client().limits(), Limits(5, 77, 9))

    def test_limits_of_a_file_are_its_own(self) -> None:
        with self.made(5, 77, 9) as store:
            self.assertEqual(store.limits(), Limits(5, 77, 9))
            with self.assertRaisesRegex(errors.Malformed, "limits"):  # no hub: the program knows no such command
                store._program.call(lambda: frames.limits(store._program.tag))
        self.assertRaises(errors.StoreClosed, store.limits)
        with Store(self.path, read_only=True) as copy:
            self.assertEqual(copy.limits(), Limits(5, 77, 9))


if __name__ == "__main__":
    unittest.main()
