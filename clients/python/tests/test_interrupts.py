"""KeyboardInterrupts between any two steps: the store goes on, and nothing is lost or wrong."""

import gc
import linecache
import os
import pathlib
import random
import signal
import sys
from types import FrameType
from typing import Any, Callable, Dict, Iterator, List, Optional, Set, Tuple

from support import PACKAGE, StoreCase, Threads, alarm_amid, on_signal, quiet

from castle import Batch, Scan, Store, errors

FOLDER = str(pathlib.Path(PACKAGE) / "castle")


def is_of_an_end(frame: Optional[FrameType]) -> bool:
    """Whether this runs amid the end of an object, where Python raises nothing."""
    while frame is not None and frame.f_code.co_name not in ("__del__", "abandon", "_remove"):
        frame = frame.f_back
    return frame is not None


def interrupted(call: Callable[[], object], at: int, names: str, opcodes: bool = False) -> bool:
    """Runs this with a KeyboardInterrupt at so many lines, or opcodes, of some files of the package; whether it came.

    Left out is where Python runs no signal's handler, so that no interrupt comes there: between the end of a `with` block and
    the release of its lock, and at a `try:`, which does nothing and which no `with` around it covers.
    """
    files = {os.path.join(FOLDER, f"{name}.py") for name in names.split()}
    left, has_come = at, False
    begun: Set[Tuple[int, int]] = set()  # frames and lines of `with` blocks

    def step(frame: FrameType, event: str, _: Any) -> Any:
        nonlocal left, has_come
        if frame.f_code.co_filename not in files or event == "call" and is_of_an_end(frame):
            return None
        frame.f_trace_opcodes = opcodes
        if event == "call":
            begun.difference_update([place for place in begun if place[0] == id(frame)])
        text = linecache.getline(frame.f_code.co_filename, frame.f_lineno or 0).strip()
        if text in ("", "try:"):  # none is of the end of a `with` block
            return step
        if event == "line" and text.startswith("with "):
            place = id(frame), frame.f_lineno
            if place in begun:
                return step
            begun.add(place)
        if event == ("opcode" if opcodes else "line"):
            left -= 1
            if left == 0:
                has_come = True
                raise KeyboardInterrupt
        return step

    sys._getframe().f_trace_opcodes = opcodes  # Python 3.12 looks for such a frame only as the tracing begins
    sys.settrace(step)
    try:
        call()
    except KeyboardInterrupt:
        pass
    finally:
        sys.settrace(None)
    return has_come


class StepsTest(StoreCase):
    """Interrupts at each line, and at each opcode where the system reads and writes."""

    in_memory = True

    def setUp(self) -> None:
        super().setUp()
        quiet(self)

    def steps(self, call: Callable[[int], object], names: str, opcodes: bool = False, least: int = 10, stride: int = 1) -> Iterator[int]:
        """Runs this again and again, interrupted a stride later each time, until it comes to its end."""
        at = 1
        while interrupted(lambda: call(at), at, names, opcodes):
            yield at
            at += stride
        self.assertGreater(at, least)

    def test_a_get_that_is_interrupted_at_any_step_leaves_the_store_open(self) -> None:
        store = self.made()
        store.put(0, "a", "1")
        store.put(0, "b", "2")
        for opcodes in (False, True):
            for at in self.steps(lambda _: store.get(0, "a"), "program process commands frames", opcodes, 50):
                self.assertEqual((store.get(0, "b"), store.get(0, "a"), store.get(0, "c")), (b"2", b"1", None), f"at {at}")
        self.assertEqual(store.stat().changes, 2)

    def test_a_command_of_a_batch_that_is_interrupted_at_any_step_is_done_or_not(self) -> None:
        store, done = self.made(4096, 1000000, 10), 0
        for opcodes in (False, True):
            for many in (1, 81):  # puts: the second time the first ones are sent before the last, since so much waits
                batches: List[Batch] = []

                def call(at: int) -> None:
                    batches.append(store.batch())
                    for _ in range(0 if many == 1 else 80):
                        batches[-1].put(0, "other", b"v" * 1024)
                    batches[-1].put(0, f"{at}", f"{at}")
                    batches[-1].get(0, f"{at}")
                    batches[-1].finish()

                if many > 1 and opcodes:
                    continue
                for at in self.steps(call, "program" if many > 1 else "program batch commands", opcodes, 20):
                    if not batches:
                        continue
                    results = batches.pop().finish()
                    value = b"%d" % at
                    puts = results[:-1] if results[-1:] == [value] else results
                    self.assertEqual(puts, [None] * len(puts), f"at {at}")
                    found = store.get(0, b"%d" % at)
                    self.assertEqual(found, value if len(puts) == many else found, f"at {at}")
                    self.assertIn(found, (None, value))
                    store.delete(0, b"%d" % at)
                    done += 1
        self.assertGreater(done, 100)

    def test_a_scan_that_is_interrupted_at_any_step_goes_on_where_it_was(self) -> None:
        store = self.made(64, 10000, 10)
        with store.batch() as batch:
            for number in range(513):
                batch.put(0, b"%03d" % number, b"")
        want = [b"%03d" % number for number in range(513)]
        got: List[bytes] = []
        scan: Optional[Scan] = None

        def call(_: int) -> None:
            nonlocal scan
            scan = None
            scan = store.scan(0)
            got.extend(key for key, _ in scan)

        goings = 0
        for at in self.steps(call, "program process", least=100):
            if scan is not None:  # else the opening was interrupted
                got.extend(key for key, _ in scan)
                self.assertEqual(got, want, f"at {at}")
                goings += 1
            del got[:]
        self.assertGreater(goings, 50)
        self.assertEqual(store.stat().cursors, 0)

    def test_cursors_of_openings_that_are_interrupted_are_given_back(self) -> None:
        store = self.made()
        store.put(0, "a", "1")
        for at in self.steps(lambda _: store.scan(0) and None, "program process scan commands", least=50):
            self.assertEqual(store.stat().cursors, 0, f"at {at}")

    def test_a_close_that_is_interrupted_at_any_step_may_be_done_again(self) -> None:
        self.made().close()
        store: Optional[Store] = None

        def call(at: int) -> None:
            nonlocal store
            store = Store(self.path)
            store.put(0, "a", str(at))

        def closed(at: int) -> bool:
            call(at)
            assert store is not None
            return interrupted(store.close, at, "store program process lock")

        at = 1
        while closed(at):
            assert store is not None
            store.close()
            with self.assertRaises(errors.StoreClosed):
                store.get(0, "a")
            at += 2
        self.assertGreater(at, 20)

    def test_an_update_that_is_interrupted_at_any_step_puts_all_of_a_window_or_none(self) -> None:
        store, batches, had = self.made(64, 100000, 10), [], (None, None)  # type: Store, List[Batch], Any

        def call(at: int) -> None:
            batches.append(store.batch())
            batches[-1].update(0, [(b"a", b"%d" % at), (b"b", b"%d" % at)])
            batches[-1].finish()

        for at in self.steps(call, "program commands frames", opcodes=True, least=50):
            results = batches[-1].finish()
            self.assertIn(results, ([], [None, None]), f"at {at}")
            want = (b"%d" % at, b"%d" % at) if results else had
            had = store.get(0, "a"), store.get(0, "b")
            self.assertEqual(had, want, f"at {at}")

    def test_an_opening_that_is_interrupted_at_any_step_frees_all(self) -> None:
        self.made().close()
        before = os.listdir("/proc/self/fd")
        for at in self.steps(lambda _: Store(self.path).close(), "store lock process", least=60, stride=3):
            gc.collect()
            if at % 5 == 0:
                with self.opened() as store:
                    self.assertIsNone(store.get(0, "a"), f"at {at}")
        gc.collect()
        self.assertEqual(len(os.listdir("/proc/self/fd")), len(before))
        self.assertEqual(Threads(lambda: Store(self.path).close()).join(), [])  # no lock of all stores is left taken

    def test_a_drop_that_is_interrupted_at_any_step_is_done_with_its_names_or_not_at_all(self) -> None:
        store, seen = self.made(64, 100000, 2000), set()
        for opcodes in (False, True):
            clone = store.clone(0)
            store.names["a"] = clone
            files = "program names dropping" if opcodes else "program store commands names dropping files"
            for at in self.steps(lambda _: store.drop(clone), files, opcodes, 40, 7 if opcodes else 1):
                infos = store.versions()  # the end of a batch lets go of names where that was cut off
                seen.add(infos[clone] is None)
                self.assertEqual(dict(store.names), {} if infos[clone] is None else {"a": clone}, f"at {at}")
                if infos[clone] is None:
                    self.assertRaises(errors.Dropped, store.get, clone, "a")
                    clone = store.clone(0)
                    store.names["a"] = clone
                    self.assertEqual(self.names_told(), [f"a {clone}"], f"at {at}")
        self.assertEqual(seen, {False, True})
        store.close()
        self.assertEqual(dict(self.opened().names), {})

    def test_names_that_are_interrupted_at_any_step_are_the_old_or_the_new_ones(self) -> None:
        store = self.made()
        store.names["a"] = store.clone(0)
        had = {"a": 1}

        def call(at: int) -> None:
            store.names["a"] = at % 2

        for at in self.steps(call, "names files", least=20):
            names, on_disk = dict(store.names), self.names_told()
            self.assertIn(names, (had, {"a": at % 2}))
            self.assertIn(on_disk, [[f"a {version}"] for version in (names["a"], at % 2)])
            self.assertEqual([name for name in os.listdir(self.folder) if name.startswith(".castle")], [], f"at {at}")
            had = names
        self.assertEqual(dict(store.names), {"a": at % 2 ^ 1})


    def test_a_snapshot_that_is_interrupted_at_any_step_has_moved_both_names_or_none(self) -> None:
        store, kinds = self.made(64, 10000, 1000), set()
        store.names["work"] = store.clone(0)
        had = {"work": 1}
        for at in self.steps(lambda at: store.snapshot("work", f"s{at}"), "branches names files", least=40):
            names = dict(store.names)
            moved = {**had, f"s{at}": had["work"], "work": store.stat().versions - 1}
            self.assertIn(names, (had, moved), f"at {at}")
            on_disk = {name: int(version) for name, version in map(str.split, self.names_told())}
            self.assertIn(on_disk, (names, moved), f"at {at}")
            kinds.add(names == moved)
            store.names.pop(f"s{at}", None)  # so that the steps do not become more
            had = dict(store.names)
        self.assertEqual(kinds, {False, True})


class SignalsTest(StoreCase):
    """Interrupts by a signal, at moments that nobody knows."""

    in_memory = True

    def test_a_handler_may_raise_what_it_likes(self) -> None:
        store = self.made()
        store.put(0, "a", "1")

        def handle(*_: object) -> None:
            raise kind

        on_signal(self, handle)
        for kind in (TimeoutError, ZeroDivisionError, MemoryError, OSError, KeyboardInterrupt, SystemExit):
            scan = store.scan(0)
            for call in (lambda: store.get(0, "a"), lambda: next(scan)):
                with alarm_amid(store), self.assertRaises(kind):
                    call()
                os.kill(store.pid, signal.SIGCONT)
            self.assertEqual(store.get(0, "a"), b"1")
            self.assertEqual((list(scan), store.stat().cursors), ([(b"a", b"1")], 0))

    def test_signals_at_any_moment_leave_a_store_that_answers_rightly(self) -> None:
        chance, store = random.Random(17), self.made(256, 10_000_000, 10)
        plain: Dict[bytes, Optional[bytes]] = {}  # what a key has; of those in `unsure` the value may be another one
        unsure: Dict[bytes, List[Optional[bytes]]] = {}
        came, most = 0, 0.0008  # seconds within which the signal comes, as long as the calls take on this machine

        def interrupt(*_: object) -> None:
            raise KeyboardInterrupt

        def put(number: int) -> None:
            key, value = b"%d" % chance.randrange(20), b"%d" % number
            unsure[key] = unsure.get(key, [plain.get(key)]) + [value]  # made or not, until it returns
            store.put(0, key, value)
            plain[key] = value
            del unsure[key]

        def get(_: int) -> None:
            key = b"%d" % chance.randrange(20)
            found = store.get(0, key)
            if found not in unsure.get(key, [plain.get(key)]):
                raise AssertionError(f"{key!r} has {found!r}")

        def look(_: int) -> None:
            batch = store.batch()
            try:
                for key in range(20):
                    batch.get(0, b"%d" % key)
            finally:
                for key, result in enumerate(batch.finish()):
                    if result not in unsure.get(b"%d" % key, [plain.get(b"%d" % key)]):
                        raise AssertionError(f"{key} has {result!r} in a batch")

        def scan(_: int) -> None:
            for key, found in store.scan(0):
                if found not in unsure.get(key, [plain.get(key)]):
                    raise AssertionError(f"{key!r} has {found!r} in a scan")

        on_signal(self, interrupt)
        # one that comes amid the end of an object, whose cursor is then closed with the store, is not raised by Python
        self.addCleanup(setattr, sys, "unraisablehook", sys.unraisablehook)
        sys.unraisablehook = lambda _: None
        for number in range(1500):
            call = chance.choice((put, put, get, get, look, scan))
            try:
                try:
                    signal.setitimer(signal.ITIMER_REAL, chance.random() * most + 1e-6)
                    call(number)
                    most *= 0.97  # it came too late
                finally:
                    signal.setitimer(signal.ITIMER_REAL, 0)
            except KeyboardInterrupt:
                came, most = came + 1, most * 1.05
        self.assertGreater(came, 100)
        self.assertLess(store.stat().cursors, 10)
        store.close()
        store = self.opened()
        for key in plain:
            self.assertIn(store.get(0, key), unsure.get(key, [plain[key]]))
