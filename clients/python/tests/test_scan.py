"""What stands on scans: ranges in several pieces that show one moment, cursors, differences, and versions as mappings."""

import gc
import io
import itertools
import os
import random
import sys
from typing import Dict, Iterator, List, Tuple, cast

from support import StoreCase

from castle import Difference, Page, Store, VersionView, dump, errors, frames
from castle.shell import Shell
from castle.terminal import Stopped


class Filled(StoreCase):
    """A test that fills versions."""

    in_memory = True

    def filled(self, store: Store, keys: List[bytes], version: int = 0) -> List[Tuple[bytes, bytes]]:
        """Puts each key with a value of its own, and gives the pairs in order."""
        pairs = {key: b"value of " + key[:9] for key in keys}
        with store.batch() as batch:
            for key, value in pairs.items():
                batch.put(version, key, value)
        return sorted(pairs.items())

    def changed(self, store: Store, version: int, keys: int, chance: random.Random) -> Iterator[None]:
        """Puts and deletes keys of a version for ever, one at each turn."""
        for number in itertools.count():
            key = b"%04d" % chance.randrange(keys)
            if chance.random() < 0.5:
                store.put(version, key, b"new %d" % number)
            else:
                store.delete(version, key)
            yield

    def cursors(self, store: Store) -> int:
        """How many cursors are open."""
        return store.stat().cursors


class ScanTest(Filled):
    def test_a_scan_goes_on_over_pieces(self) -> None:
        store = self.made(64, 100000, 10)
        for count in (0, 1, 255, 256, 257, 512, 1300):
            pairs = self.filled(store, [b"%d" % (number * number) for number in range(count)])
            self.assertEqual(list(store.scan(0)), pairs)
        self.assertEqual(list(store.scan(0, "3", "5")), [pair for pair in pairs if b"3" <= pair[0] < b"5"])
        self.assertEqual(list(store.scan(0, prefix="10")), [pair for pair in pairs if pair[0].startswith(b"10")])
        self.assertEqual(list(store.scan(0, "105", "12", prefix="1")), [pair for pair in pairs if b"105" <= pair[0] < b"12"])
        self.assertEqual(list(store.scan(0, "5", "3")), [])

    def test_bounds_and_a_prefix_hold_together(self) -> None:
        store = self.made(64, 100000, 10)
        pairs = self.filled(store, [b"%s/%02d" % (head, number) for head in (b"a", b"b", b"c") for number in range(40)])
        for lower, upper, prefix in ((b"", b"z", b"b/"), (b"", b"c", b"b/"), (b"a/05", b"c/07", b"b/"), (b"a", b"", b"b/"),
                                     (b"b/10", b"z", b"b/"), (b"a", b"b/10", b"b/"), (b"b/10", b"b/20", b"b/"),
                                     (b"b/20", b"b/10", b"b/"), (b"c", b"", b"b/"), (b"", b"b", b"b/"), (b"b/1", b"b/3", b"b/2"),
                                     (b"a/1", b"c", b""), (b"", b"", b"d")):
            want = [pair for pair in pairs if pair[0].startswith(prefix) and lower <= pair[0] and (not upper or pair[0] < upper)]
            self.assertEqual(list(store.scan(0, lower, upper, prefix=prefix)), want, (lower, upper, prefix))
            self.assertEqual(store.page(0, lower, upper, prefix=prefix), Page(want, False), (lower, upper, prefix))

    def test_a_prefix_may_end_in_the_greatest_bytes(self) -> None:
        store = self.made(64, 100000, 10)
        pairs = self.filled(store, [b"a\xff", b"a\xff\xff", b"a\xff\xff\0", b"a\xff\xff\xff", b"b", b"b\0", b"\xff\xff"])
        for prefix in (b"a\xff", b"a\xff\xff", b"a\xff\xff\xff", b"\xff", b"\xff\xff", b"\xff\xff\xff"):
            want = [pair for pair in pairs if pair[0].startswith(prefix)]
            self.assertEqual((list(store.scan(0, prefix=prefix)), store.page(0, prefix=prefix).pairs), (want, want))

    def test_the_longest_keys_are_between_pieces(self) -> None:
        store = self.made(64, 100000, 10)
        keys = [b"a" * 254 + bytes([last]) for last in range(256)] + [b"a" * 253 + bytes([last, 255]) for last in range(256)]
        keys += [b"\xff" * count for count in range(1, 256)] + [b"\xff" * 254 + bytes([last]) for last in range(255)]
        pairs = self.filled(store, keys)
        self.assertEqual(list(store.scan(0)), pairs)
        self.assertEqual(list(store.scan(0, prefix=b"\xff")), [pair for pair in pairs if pair[0][:1] == b"\xff"])
        self.assertEqual(list(store.scan(0, prefix=b"a" * 254)), [pair for pair in pairs if pair[0].startswith(b"a" * 254)])

    def test_what_a_scan_or_a_page_may_not_ask_for_is_refused_at_the_call(self) -> None:
        store = self.made()
        for lower, upper in ((b"k" * 256, b""), (b"", b"k" * 256), (b"k" * 3000, b"")):
            for call in (store.scan, store.page):
                with self.assertRaises(errors.KeySize):
                    call(0, lower, upper)
        for ask in (store.scan, store.page, lambda version: iter(store.at(version))):
            with self.assertRaises(errors.UnknownVersion):
                ask(1)
        for limit in (-1, 0, 257, 65536):
            with self.assertRaises(errors.ScanSize):
                store.page(0, limit=limit)
        self.assertEqual((store.page(0, limit=1), self.cursors(store)), (Page([], False), 0))

    def test_a_scan_shows_the_moment_of_its_call_while_the_version_is_changed_and_published(self) -> None:
        store, chance = self.made(4, 100000, 100), random.Random(7)
        pairs = self.filled(store, [b"%04d" % number for number in range(0, 1200, 2)])
        before = store.levels().generation
        scans = [store.scan(0), store.scan(0, "0300", "0900"), store.scan(0, prefix="05"), store.scan(0, "9")]
        want = [pairs, [pair for pair in pairs if b"0300" <= pair[0] < b"0900"], [pair for pair in pairs if pair[0][:2] == b"05"], []]
        changes, got = self.changed(store, 0, 1200, chance), []
        for pair in scans[0]:
            next(changes)
            got.append(pair)
        store.put(store.clone(0), b"0000", b"of a clone")
        self.assertEqual([got, *map(list, scans[1:])], want)
        # each publication promotes the four changes of a region, and merges levels below
        self.assertGreater(store.levels().generation, before + 140)
        self.assertNotEqual(list(store.scan(0)), pairs)
        self.assertEqual(self.cursors(store), 0)

    def test_a_version_may_be_changed_by_what_a_scan_of_it_finds(self) -> None:
        store = self.made(64, 100000, 10)
        pairs = self.filled(store, [b"%04d" % number for number in range(600)])
        version = store.clone(0)
        for key, value in store.scan(version):
            store.put(version, key + b"'", value)
            store.delete(version, key)
        self.assertEqual(list(store.scan(version)), [(key + b"'", value) for key, value in pairs])
        self.assertEqual(list(store.scan(0)), pairs)

    def test_pages_are_the_first_pairs(self) -> None:
        store = self.made(64, 100000, 10)
        pairs = self.filled(store, [b"%04d" % number for number in range(300)])
        self.assertEqual(store.page(0), Page(pairs[:256], True))
        self.assertEqual(store.page(0, "0100", "0200", limit=7), Page(pairs[100:107], True))
        self.assertEqual(store.page(0, "0100", "0107", limit=7), Page(pairs[100:107], False))
        self.assertEqual(store.page(0, "0105", prefix="01", limit=256), Page(pairs[105:200], False))
        batch = store.batch()
        for number in range(300):
            batch.page(0, prefix=b"%03d" % number, limit=10)
            batch.page(0, b"%04d" % number, limit=1)
        want = []
        for number in range(300):
            found = [pair for pair in pairs if pair[0].startswith(b"%03d" % number)]
            want += [Page(found[:10], len(found) > 10), Page(pairs[number:number + 1], number < 299)]
        self.assertEqual(batch.finish(), want)

    def test_differences_are_those_of_dictionaries(self) -> None:
        chance, store = random.Random(3), self.made(64, 100000, 10)
        plain: List[Dict[bytes, bytes]] = [dict(self.filled(store, [b"%d" % number for number in range(700)]))]
        for version in (1, 2):
            self.assertEqual(store.clone(0), version)
            plain.append(dict(plain[0]))
            for _ in range(200):
                key, value = b"%d" % chance.randrange(900), b"%d" % chance.randrange(3)
                store.put(version, key, value)
                plain[version][key] = value
                key = b"%d" % chance.randrange(900)
                store.delete(version, key)
                plain[version].pop(key, None)
        for before, after in ((0, 1), (1, 0), (1, 2), (2, 2)):
            self.assertEqual(list(store.diff(before, after)), different(plain[before], plain[after]))

    def test_differences_at_both_ends_and_of_empty_values_are_told(self) -> None:
        store = self.made(64, 100000, 10)
        self.filled(store, [b"%03d" % number for number in range(520)])
        store.put(0, "100", "")
        store.put(0, "200", "x")
        other = store.clone(0)
        for key in (b"000", b"001", b"518", b"519"):
            store.delete(other, key)
        store.put(other, "100", "x")
        store.put(other, "200", "")
        store.put(other, "300", "")
        want = {b"000": None, b"001": None, b"100": b"x", b"200": b"", b"300": b"", b"518": None, b"519": None}
        first = dict(store.scan(0))
        self.assertEqual(list(store.diff(0, other)), [Difference(key, first[key], value) for key, value in want.items()])
        self.assertEqual(list(store.diff(other, 0)), [Difference(key, value, first[key]) for key, value in want.items()])

    def test_differences_are_those_of_the_call_while_both_versions_are_changed(self) -> None:
        store, chance = self.made(4, 100000, 100), random.Random(8)
        self.filled(store, [b"%04d" % number for number in range(600)])
        versions = store.clone(0), store.clone(0)
        changes = [self.changed(store, version, 800, chance) for version in versions]
        for _ in range(100):
            for change in changes:
                next(change)
        old, new = (dict(store.scan(version)) for version in versions)
        got = []
        for difference in store.diff(*versions):
            for change in changes:
                next(change)
            got.append(difference)
        self.assertGreater(len(got), 100)
        self.assertEqual(got, different(old, new))
        self.assertNotEqual(list(store.diff(*versions)), got)
        self.assertEqual(self.cursors(store), 0)

    def test_a_dump_is_of_one_moment_and_loaded_exactly(self) -> None:
        store, chance = self.made(4, 100000, 100), random.Random(9)
        pairs = self.filled(store, [b"%04d\xff\t#" % number for number in range(600)])
        changes, lines = self.changed(store, 0, 600, chance), []
        for line in dump.lines_of(store.scan(0), "a dump"):
            next(changes)
            lines.append(line)
        path = os.path.join(self.folder, "b.store")
        Store.format(path, 64, 1000, 10)
        with Store(path) as other:
            with other.batch() as batch:
                for key, value in dump.pairs_of(lines, "a dump"):
                    batch.put(0, key, value)
            self.assertEqual(list(other.scan(0)), pairs)
            self.assertEqual(list(dump.lines_of(other.scan(0), "a dump")), lines)

    def test_a_version_is_a_mapping(self) -> None:
        store = self.made()
        view = store.at(0)
        self.assertIsInstance(view, VersionView)
        self.assertEqual((len(view), list(view), dict(view.items())), (0, [], {}))
        view["user/2"] = b"Bob"
        view[b"user/1"] = "Ann"
        view.update({"x": b"1", "y": b"2"})
        self.assertEqual(view["user/1"], b"Ann")
        self.assertEqual(list(view), [b"user/1", b"user/2", b"x", b"y"])
        self.assertEqual(list(view.items("user/")), [(b"user/1", b"Ann"), (b"user/2", b"Bob")])
        self.assertEqual((list(view.keys("x")), list(view.values("user/2")), len(view.items("user/"))), ([b"x"], [b"Bob"], 2))
        self.assertIn((b"x", b"1"), view.items())
        self.assertTrue("x" in view and "z" not in view)
        self.assertFalse(5 in view)  # type: ignore[comparison-overlap]
        self.assertEqual((view.get("z"), view.get("z", b"0"), view.pop("y"), view.setdefault("x", b"9")), (None, b"0", b"2", b"1"))
        for lost in ("z", "y"):
            with self.assertRaises(KeyError):
                view[lost]
            with self.assertRaises(KeyError):
                del view[lost]
        del view["x"]
        self.assertEqual(view, {b"user/1": b"Ann", b"user/2": b"Bob"})
        store.names["staging"] = store.clone(0)
        with self.assertRaises(errors.Frozen):
            view["a"] = b"1"
        store.at("staging").clear()
        self.assertEqual((dict(store.at("staging")), len(view)), ({}, 2))
        with self.assertRaises(errors.UnknownVersion):
            len(store.at(7))
        self.assertEqual(self.cursors(store), 0)

    def test_a_mapping_may_be_changed_while_it_is_read(self) -> None:
        store = self.made(4, 100000, 10)
        pairs, view = self.filled(store, [b"%04d" % number for number in range(300)]), store.at(0)
        for key in view:
            view[key + b"'"] = b""
        self.assertEqual(len(view), 600)
        for key, value in view.items("0"):
            data = cast(bytes, key)
            self.assertEqual(view.pop(data), dict(pairs).get(data, b""))
            view[b"1" + data] = value
        self.assertEqual((len(view), len(view.keys("0")), len(view.values("1"))), (600, 0, 600))
        view.clear()
        self.assertEqual((list(view), list(view.keys()), list(view.values()), self.cursors(store)), ([], [], [], 0))


class CursorTest(Filled):
    """When cursors are open, and that each is given back."""

    def three_pieces(self) -> Store:
        """A store with 600 pairs at version 0."""
        store = self.made(64, 100000, 10)
        self.filled(store, [b"%04d" % number for number in range(600)])
        return store

    def test_a_scan_that_is_dropped_gives_its_cursor_back(self) -> None:
        store = self.three_pieces()
        for taken in (0, 1, 256, 300, 512):
            scan = store.scan(0)
            self.assertEqual(len(list(itertools.islice(scan, taken))), taken)
            self.assertEqual(self.cursors(store), 1)
            del scan
            self.assertEqual(self.cursors(store), 0)
            scan = store.scan(0)
            list(itertools.islice(scan, taken))
            scan.close()
            self.assertEqual((self.cursors(store), list(scan)), (0, []))
            with store.scan(0) as scan:
                self.assertEqual((len(list(itertools.islice(scan, taken))), self.cursors(store)), (taken, 1))
            self.assertEqual((self.cursors(store), list(scan)), (0, []))
        with self.assertRaises(ZeroDivisionError):
            for pair in store.scan(0):
                raise ZeroDivisionError
        self.assertEqual(self.cursors(store), 0)
        for other in (store.at(0), store.at(0).items(), store.at(0).keys("00"), store.at(0).values()):
            iterator = iter(other)
            self.assertEqual(self.cursors(store), 1)
            del iterator
            self.assertEqual(self.cursors(store), 0)
        circle: List[object] = [store.scan(0)]
        circle.append(circle)
        del circle
        gc.collect()
        self.assertEqual(self.cursors(store), 0)

    def test_a_cursor_is_open_up_to_its_last_piece(self) -> None:
        store = self.three_pieces()
        scan, counts = store.scan(0), []
        for _ in range(600):
            next(scan)
            counts.append(self.cursors(store))
        self.assertEqual(counts, [1] * 512 + [0] * 88)
        self.assertIsNone(next(scan, None))
        few = store.scan(0, "0590")
        self.assertEqual((self.cursors(store), next(few)[0], self.cursors(store), len(list(few))), (1, b"0590", 0, 9))
        self.assertEqual((list(store.scan(0, "9")), self.cursors(store)), ([], 0))

    def test_the_65th_scan_is_refused(self) -> None:
        store = self.three_pieces()
        pairs = list(store.scan(0))
        scans = [store.scan(0, b"%04d" % number) for number in range(64)]
        with self.assertRaises(errors.CursorLimit) as caught:
            store.scan(0)
        self.assertEqual(caught.exception.command, "scan of version 0")
        self.assertEqual((self.cursors(store), store.get(0, "0000"), store.page(0).more), (64, pairs[0][1], True))
        for name in (store.at(0).items, store.at(0).keys):
            with self.assertRaises(errors.CursorLimit):
                iter(name("00"))
        scans.pop().close()
        with self.assertRaises(errors.CursorLimit):  # it takes two, and gives the first one back
            store.diff(0, 0)
        self.assertEqual(self.cursors(store), 63)
        scans.append(store.scan(0, b"0063"))
        store.put(0, "0000", "other")
        for turn in range(600):
            for number, scan in enumerate(scans):
                self.assertEqual(next(scan, None), pairs[number + turn] if number + turn < 600 else None)
        self.assertEqual(self.cursors(store), 0)

    def test_differences_give_both_cursors_back(self) -> None:
        store = self.three_pieces()
        store.names["next"] = store.clone(0)
        store.put("next", "0000", "other")
        store.close()
        store = self.opened()  # which knows of no edits, and so has to scan
        found = store.diff(0, "next")
        self.assertEqual((self.cursors(store), next(found).key, self.cursors(store)), (2, b"0000", 2))
        found.close()
        self.assertEqual((self.cursors(store), list(found)), (0, []))
        with store.diff(0, "next") as found:
            self.assertEqual(self.cursors(store), 2)
        self.assertEqual((self.cursors(store), list(found)), (0, []))
        unread = store.diff("next", 0)
        self.assertEqual(self.cursors(store), 2)
        del unread
        self.assertEqual((len(list(store.diff(0, "next"))), self.cursors(store)), (1, 0))
        for words in ((0, 7), (7, 0)):
            with self.assertRaises(errors.UnknownVersion):
                store.diff(*words)
        with self.assertRaises(errors.UnknownName):
            store.diff(0, "none")
        self.assertEqual(self.cursors(store), 0)

    def test_what_a_batch_gives_is_not_mixed_with_cursors_that_are_closed_amid_it(self) -> None:
        store, want = self.three_pieces(), []
        with store.batch() as batch:
            for number in range(300):
                scan = store.scan(0, b"%04d" % number)
                batch.put(0, "key", b"%d" % number)
                batch.stat()
                if number % 3 == 0:
                    self.assertEqual(next(scan)[0], b"%04d" % number)
                    batch.get(0, "key")
                del scan
                batch.get(0, b"%04d" % number)
                batch.page(0, "key")
                batch.stat()
        for number in range(300):
            want += [None, 1, *([b"%d" % number] if number % 3 == 0 else []), b"value of %04d" % number,
                     Page([(b"key", b"%d" % number)], False), 0]
        self.assertEqual([result.cursors if isinstance(result, frames.Stat) else result for result in batch.results], want)

    def test_a_store_is_closed_whatever_scans_are_open(self) -> None:
        told: List[object] = []
        before = sys.unraisablehook
        self.addCleanup(setattr, sys, "unraisablehook", before)
        sys.unraisablehook = told.append
        store = self.three_pieces()
        begun, other, difference = store.scan(0), store.scan(0), store.diff(0, 0)
        first = list(itertools.islice(begun, 10))
        last = store.scan(0, "0500")
        self.assertEqual(next(last)[0], b"0500")
        batch = store.batch()
        batch.put(0, "key", "value")
        store.close()
        self.assertEqual((store._program.process._child.returncode, batch.results), (0, [None]))
        # what was read is there, and what was not is missed
        self.assertEqual((len(first), len(list(last))), (10, 99))
        for scan in (begun, other, difference):
            with self.assertRaises(errors.StoreClosed):
                list(scan)
            self.assertEqual(list(scan), [])
        with self.assertRaises(errors.StoreClosed):
            store.scan(0)
        del begun, other, difference, last
        with self.opened() as store:
            self.assertEqual((self.cursors(store), store.get(0, "key")), (0, b"value"))
            left = store.scan(0)
            next(left)
        left.close()
        gc.collect()
        self.assertEqual(told, [])

    def test_memory_that_runs_out_is_told_at_the_call(self) -> None:
        for call in (lambda store: store.scan(0), lambda store: store.diff(0, 0), lambda store: store.at(0).items().__iter__()):
            with self.pretending("refuse 32") as store, self.assertRaises(errors.NoMemory) as caught:
                call(store)
            self.assertEqual(caught.exception.command, "scan of version 0")

    def test_a_program_that_ends_amid_a_scan_is_told(self) -> None:
        store = self.three_pieces()
        scan, other = store.scan(0), store.scan(0)
        next(scan)
        os.kill(store.pid, 9)
        with self.assertRaisesRegex(errors.Killed, "next pairs of cursor"):
            list(scan)
        with self.assertRaises(errors.Killed):
            next(other)
        del scan, other
        with self.assertRaises(errors.Killed):
            store.scan(0)
        store.close()
        store = self.opened()
        scan = store.scan(0)
        self.assertEqual(next(scan)[0], b"0000")
        os.kill(store.pid, 9)
        with self.assertRaises(errors.Killed):  # though no command met it
            store.close()
        self.assertEqual(len(list(self.opened().scan(0))), 600)

    def test_an_end_names_the_command_and_no_closing_that_went_out_with_it(self) -> None:
        store = self.three_pieces()
        store.scan(0)  # dropped at once
        os.kill(store.pid, 9)
        with self.assertRaisesRegex(errors.Killed, "put a at version 0"):
            store.put(0, "a", "b")

    def test_a_damaged_block_is_told_where_a_piece_meets_it(self) -> None:
        store = self.damaged()
        scan = store.scan(0)
        self.assertEqual(self.cursors(store), 1)
        with self.assertRaises(errors.Damaged) as caught:
            next(scan)
        self.assertEqual((caught.exception.block, caught.exception.command), (7, "next pairs of cursor 1"))
        self.assertIsNone(next(scan, None))
        with self.assertRaises(errors.StoreDamaged):
            store.scan(0)

    def test_differences_that_meet_a_damaged_block_give_both_cursors_back(self) -> None:
        store = self.damaged()
        found = store.diff(0, 0)
        self.assertEqual(self.cursors(store), 2)
        with self.assertRaises(errors.Damaged):
            next(found)
        self.assertEqual((list(found), [list(scan._cursor) for scan in found._scans]), ([], [[], []]))

    def test_a_command_of_the_shell_that_is_stopped_gives_its_cursors_back(self) -> None:
        store, out = self.three_pieces(), io.StringIO()
        shell = Shell(store, out)
        for line in ("scan", "scan 00", "diff 0 0", "dump"):
            out.seek(0)
            shell.interrupts.count = 0
            shell.run(line)
            self.assertEqual((len(out.getvalue()) > 0, self.cursors(store)), (True, 0))
        store.clone(0)
        store.put(1, "0000", "other")
        for line in ("scan", "diff 0 1", "dump", f"tree --svg {self.folder}/tree.svg", f"report {self.folder}/report.html"):
            shell.interrupts.count = 1
            with self.assertRaisesRegex(Stopped, "^stopped$"):
                shell.run(line)
            self.assertEqual(self.cursors(store), 0)


def different(old: Dict[bytes, bytes], new: Dict[bytes, bytes]) -> List[Difference]:
    """The keys whose values differ, in order."""
    return [Difference(key, old.get(key), new.get(key)) for key in sorted({*old, *new}) if old.get(key) != new.get(key)]
