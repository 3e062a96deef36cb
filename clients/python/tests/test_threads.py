"""Threads that share a store, and commands amid a command."""

import gc
import itertools
import os
import random
import signal
import sys
import threading
import time
from typing import Any, Callable, Dict, List, Optional, Tuple, Type

from support import StoreCase, Threads, alarm_amid

from castle import Store, errors


class ThreadsTest(StoreCase):
    in_memory = True

    def test_each_thread_gets_its_own_answers(self) -> None:
        store = self.made(256, 1000000, 10)

        def work(mine: int) -> None:
            chance, plain = random.Random(mine), {}  # type: random.Random, Dict[bytes, bytes]
            for turn in range(150):
                key = b"%d/%d" % (mine, chance.randrange(30))
                draw = chance.randrange(6)
                if draw == 0:
                    plain[key] = b"%d of %d" % (turn, mine)
                    store.put(0, key, plain[key])
                elif draw == 1:
                    plain.pop(key, None)
                    store.delete(0, key)
                elif draw == 2:
                    prefix = b"%d/" % mine
                    assert list(store.scan(0, prefix=prefix)) == sorted(plain.items()), "a scan"
                elif draw == 3:
                    with store.batch() as batch:
                        for number in range(30):
                            batch.get(0, b"%d/%d" % (mine, number))
                    assert batch.results == [plain.get(b"%d/%d" % (mine, number)) for number in range(30)], "a batch"
                else:
                    assert store.get(0, key) == plain.get(key), "a get"

        threads = Threads(*(lambda mine=mine: work(mine) for mine in range(6)))
        self.assertEqual(threads.join(), [])
        self.assertEqual(store.stat().cursors, 0)

    def test_batches_of_threads_run_side_by_side(self) -> None:
        store = self.made()
        for number in range(20):
            store.put(0, b"%d" % number, b"value %d" % number)

        def look(mine: int) -> None:
            with store.batch(return_exceptions=True) as batch:
                for turn in range(2000):
                    batch.get(0, b"%d" % mine)
                    if turn % 500 == 0:
                        batch.get(7, "none")
            wrong = [result for result in batch.results if result != b"value %d" % mine]
            assert [type(result) for result in wrong] == [errors.UnknownVersion] * 4, wrong

        self.assertEqual(Threads(*(lambda mine=mine: look(mine) for mine in range(5))).join(), [])

    def test_threads_may_read_one_scan_and_fill_one_batch(self) -> None:
        store = self.made(64, 100000, 10)
        self.addCleanup(sys.setswitchinterval, sys.getswitchinterval())
        sys.setswitchinterval(1e-6)  # seconds, so that threads take turns often
        batch = store.batch()

        def fill(mine: int) -> None:
            for number in range(mine, 3000, 4):
                batch.put(0, b"%04d" % number, b"%d" % number)

        self.assertEqual(Threads(*(lambda mine=mine: fill(mine) for mine in range(4))).join(), [])
        self.assertEqual(batch.finish(), [None] * 3000)
        scan, parts = store.scan(0), [[], [], [], []]  # type: Any, List[List[bytes]]
        self.assertEqual(Threads(*(lambda part=part: part.extend(key for key, _ in scan) for part in parts)).join(), [])
        self.assertEqual(sorted(itertools.chain(*parts)), [b"%04d" % number for number in range(3000)])
        for part in parts:
            self.assertEqual(part, sorted(part))
        self.assertEqual(store.stat().cursors, 0)

    def test_names_of_threads_are_all_kept(self) -> None:
        store = self.made()

        def name(mine: int) -> None:
            for number in range(10):
                store.names[f"name{mine}.{number}"] = 0
            del store.names[f"name{mine}.0"]

        self.assertEqual(Threads(*(lambda mine=mine: name(mine) for mine in range(4))).join(), [])
        self.assertEqual(set(store.names), {f"name{mine}.{number}" for mine in range(4) for number in range(1, 10)})
        store.close()
        self.assertEqual(len(self.opened().names), 36)

    def looked_at(self, end: Type[errors.CastleError]) -> Tuple[Store, Threads]:
        """A store, and four threads that look at it until this error comes."""
        store, began = self.made(), threading.Barrier(5)
        store.put(0, "a", "1")

        def work() -> None:
            began.wait()
            try:
                while True:
                    assert store.get(0, "a") == b"1"
            except end:
                pass

        threads = Threads(*[work] * 4)
        began.wait()
        return store, threads

    def test_a_store_that_is_closed_amid_the_work_of_threads_is_told_to_each(self) -> None:
        store, threads = self.looked_at(errors.StoreClosed)
        time.sleep(0.05)
        store.close()
        self.assertEqual(threads.join(), [])
        self.opened()

    def test_a_program_that_is_killed_is_told_to_each_thread(self) -> None:
        store, threads = self.looked_at(errors.Killed)
        os.kill(store.pid, signal.SIGKILL)
        self.assertEqual(threads.join(), [])
        store.close()

    def test_many_stores_are_opened_and_dropped_by_threads(self) -> None:
        paths = [os.path.join(self.folder, f"{number}.store") for number in range(4)]
        for path in paths:
            Store.format(path, 4, 1000, 10)

        def work(path: str) -> None:
            for turn in range(8):
                store = Store(path)
                store.put(0, "turn", str(turn))
                assert store.get(0, "turn") == b"%d" % turn
                if turn % 2:
                    store.close()
                del store
                gc.collect()

        self.assertEqual(Threads(*(lambda path=path: work(path) for path in paths)).join(), [])


class AmidTest(StoreCase):
    """A command amid another one of the same thread, as of a signal handler."""

    def amid(self, store: Store, call: Callable[[], object]) -> Optional[BaseException]:
        """What this raises amid a get, whose answer comes none the less."""
        raised: List[Optional[BaseException]] = []

        def handle(*_: object) -> None:
            try:
                call()
                raised.append(None)
            except BaseException as error:
                raised.append(error)
            os.kill(store.pid, signal.SIGCONT)

        before = signal.signal(signal.SIGALRM, handle)
        try:
            with alarm_amid(store):
                self.assertEqual(store.get(0, "a"), b"1")
        finally:
            signal.signal(signal.SIGALRM, before)
        self.assertEqual(len(raised), 1)
        return raised[0]

    def test_a_signal_handler_amid_a_command_is_refused_and_harms_nothing(self) -> None:
        store = self.made()
        store.put(0, "a", "1")
        batch, view = store.batch(), store.at(0)
        for call in (lambda: store.get(0, "a"), lambda: store.put(0, "a", "2"), lambda: batch.put(0, "a", "2"), batch.finish,
                     lambda: store.scan(0), lambda: store.names.update(b=0), lambda: len(view), store.levels, store.close):
            self.assertIsInstance(self.amid(store, call), errors.Busy)
            self.assertEqual((store.get(0, "a"), dict(store.names), store.stat().changes), (b"1", {}, 1))
        other_path = os.path.join(self.folder, "b.store")
        Store.format(other_path, 4, 10, 10)
        with Store(other_path) as other:  # another store is no matter
            self.assertIsNone(self.amid(store, lambda: other.put(0, "a", "2")))
            self.assertEqual(other.get(0, "a"), b"2")
        del other
        store.close()
        self.opened()

    def test_garbage_of_a_scan_amid_a_command_harms_nothing(self) -> None:
        store = self.made()
        store.put(0, "a", "1")
        scans = [store.scan(0)]
        self.assertIsNone(self.amid(store, scans.clear))
        self.assertEqual(store.stat().cursors, 0)
