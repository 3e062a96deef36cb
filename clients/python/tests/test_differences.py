"""Differences of two versions: what they find, held to a model, and what they cost in frames."""

import random
from typing import Dict, List, Optional, Tuple
from unittest import mock

from support import StoreCase, frames_sent

from castle import Store, edits, errors, scan

Pairs = Dict[bytes, bytes]


def expected(before: Pairs, after: Pairs, prefix: bytes = b"") -> List[Tuple[bytes, Optional[bytes], Optional[bytes]]]:
    """The differences of two dictionaries."""
    keys = sorted({*before, *after})
    return [(key, before.get(key), after.get(key)) for key in keys if key.startswith(prefix) and before.get(key) != after.get(key)]


class DifferenceTest(StoreCase):
    in_memory = True

    def two(self, before: Pairs, after: Pairs) -> Store:
        """A store whose versions 1 and 2 have these pairs, and were made before it was opened."""
        Store.format(self.path, 512, 200000, 10, overwrite=True)
        with Store(self.path) as store:
            store.at(store.clone(0)).update(before)
            store.at(store.clone(0)).update(after)
        return self.opened()

    def test_drawn_versions_differ_as_dictionaries_do(self) -> None:
        draw = random.Random(7)
        keys = [f"{'ab'[number % 2]}/{number:04}".encode() for number in range(1500)]
        shapes = [(1500, 1500), (1500, 3), (0, 700), (700, 0), (300, 900), (256, 257), (512, 512), (0, 0), (1, 1), (1000, 999)]
        for number, (many, others) in enumerate(shapes):
            before = {key: b"v" for key in draw.sample(keys, many)}
            after = dict(before) if number % 2 else {key: b"v" for key in draw.sample(keys, others)}
            for key in draw.sample(keys, 5):
                after[key] = b"w"
                after.pop(draw.choice(keys), None)
            with self.two(before, after) as store:
                for first, second, old, new in ((1, 2, before, after), (2, 1, after, before), (1, 1, before, before)):
                    for prefix in (b"", b"a/", b"a/00", b"c"):
                        self.assertEqual([tuple(found) for found in store.diff(first, second, prefix=prefix)], expected(old, new, prefix))
                self.assertEqual(store.stat().cursors, 0)

    def test_pieces_that_are_equal_are_not_looked_into(self) -> None:
        before = {f"{number:05}".encode(): b"v" for number in range(10000)}
        after = {**before, b"00300": b"w", b"02000x": b"new"}
        del after[b"05000"]
        store = self.two(before, after)
        looked: List[str] = []

        def counted(name: str) -> object:
            method = getattr(scan.Side, name)
            return mock.patch.object(scan.Side, name, lambda *given: looked.append(name) or method(*given))  # type: ignore[func-returns-value]

        with counted("pair"), counted("pass_over"):  # type: ignore[attr-defined]
            self.assertEqual([tuple(found) for found in store.diff(1, 2)], expected(before, after))
            # of each place the pairs of a piece before it, and the next pair of both sides
            self.assertEqual((looked.count("pass_over"), looked.count("pair")), (3, 6))
            looked.clear()
            store.stat()  # takes the closings along
            with frames_sent(store) as counts:
                self.assertEqual(list(store.diff(1, 1)), [])
        asked = counts.pop("next pairs of cursor")
        self.assertEqual((looked, counts), ([], {"scan of version": 2, "close cursor": 2}))
        self.assertIn(asked, range(2 * 40, 2 * (40 + scan.Pieces.AHEAD)))

    def test_a_row_of_keys_that_one_side_alone_has_is_read_in_whole_pieces(self) -> None:
        before = {f"{number:05}".encode(): b"v" for number in range(3000)}
        after = {**before, **{f"01000/{number:05}".encode(): b"v" for number in range(5000)}}
        with self.two(before, after) as store:
            for first, second in ((1, 2), (2, 1)):
                with frames_sent(store) as counts:
                    self.assertEqual(sum(1 for _ in store.diff(first, second)), 5000)
                self.assertLess(counts["next pairs of cursor"], 2 * (3000 + 8000) // 256)

    def test_a_change_amid_them_changes_nothing(self) -> None:
        pairs = {f"{number:05}".encode(): b"v" for number in range(600)}
        store = self.two(pairs, {})
        found = store.diff(1, 2)
        first = next(found)
        store.put(2, "00599", "v")
        self.assertEqual([tuple(first), *map(tuple, found)], expected(pairs, {}))

    def test_they_end_with_their_iterator_and_with_the_store(self) -> None:
        store = self.two({b"a": b"1"}, {b"b": b"1"})
        found = store.diff(1, 2)
        next(found)
        del found
        self.assertEqual(store.stat().cursors, 0)
        found = store.diff(1, 2)
        store.close()
        with self.assertRaises(errors.StoreClosed):
            next(found)
        self.assertEqual(list(found), [])

    def test_a_reply_that_can_not_be_read_ends_the_store(self) -> None:
        for wrong in (b"\0\0\5", b"\0\0\1\0\1a\0\2b", b"\0\0\1\0\5a\0\0", b"\0\0\1\0\1a\0"):
            self.told_of(wrong)

    def told_of(self, wrong: bytes) -> None:
        """Has a first piece with these bytes end the store."""
        kept = scan.Pieces._keep
        with self.two({b"a": b"1"}, {b"b": b"1"}) as store:
            found = store.diff(1, 2)
            with mock.patch.object(scan.Pieces, "_keep", lambda pieces, place, reply: kept(pieces, place, reply if place else wrong)):
                with self.assertRaisesRegex(errors.WrongProtocol, "a reply of status 3 can't be read"):
                    next(found)
            with self.assertRaises(errors.WrongProtocol):
                store.stat()


class KnownTest(StoreCase):
    """Differences of versions whose changed keys the store knows."""

    in_memory = True

    def test_few_edits_are_found_without_a_scan(self) -> None:
        with self.made(64, 100000, 100) as store:
            store.at(0).update({f"{number:04}": "v" for number in range(600)})
            old = store.clone(0)
            store.put(old, "0001", "before this opening")
        store, limits = self.opened(), range(1, 30)
        ours, theirs = store.clone(old), store.clone(old)
        for version in limits:
            store.put(ours, f"{version:04}", "ours")
            store.delete(theirs, f"{2 * version:04}")
        later = store.clone(ours)
        with store.batch(return_exceptions=True) as batch:
            batch.update(later, [(b"0003", b"later"), (b"new", b""), (b"0599", b"v")])
            batch.put(ours, "0007", "refused")  # it is frozen
            batch.put(later, "k" * 256, "refused")
            batch.put(later, "", "refused")
        plain = {version: dict(store.scan(version)) for version in (0, old, ours, theirs, later)}
        for first, second, is_known in ((old, later, True), (later, theirs, True), (theirs, ours, True), (ours, ours, False), (0, later, False)):
            for before, after in ((first, second), (second, first)):
                for prefix in (b"", b"000", b"n", b"x"):
                    with frames_sent(store) as counts:
                        found = [tuple(difference) for difference in store.diff(before, after, prefix=prefix)]
                    self.assertEqual(found, expected(plain[before], plain[after], prefix))
                    self.assertEqual("scan of version" not in counts, is_known, (before, after, counts))

    def test_drawn_trees_differ_as_dictionaries_do(self) -> None:
        draw, kinds = random.Random(5), set()
        store = self.made(16, 100000, 1000)
        versions: List[Pairs] = [{}]
        open_ends = {0}
        with mock.patch.multiple(edits, KEPT=300, LOOKED_UP=40):
            for turn in range(400):
                version = draw.choice(sorted(open_ends))
                if draw.random() < 0.1:
                    version = draw.randrange(len(versions))
                    self.assertEqual(store.clone(version), len(versions))
                    versions.append(dict(versions[version]))
                    open_ends = open_ends - {version} | {len(versions) - 1}
                else:
                    changes = [(b"%d" % draw.randrange(200), b"%d" % draw.randrange(3)) for _ in range(draw.choice((1, 3, 20)))]
                    store.at(version).update(changes)
                    versions[version].update(changes)
                    gone = b"%d" % draw.randrange(200)
                    store.delete(version, gone)
                    versions[version].pop(gone, None)
                before, after = draw.randrange(len(versions)), draw.randrange(len(versions))
                with frames_sent(store) as counts:
                    found = [tuple(difference) for difference in store.diff(before, after)]
                self.assertEqual(found, expected(versions[before], versions[after]), f"turn {turn}, {before} and {after}")
                kinds.add("scan of version" in counts)
            self.assertEqual(kinds, {False, True})
            known = store._commands.edits
            self.assertEqual(known._count, sum(map(len, known._keys.values())))
            self.assertLessEqual(known._count, 300)
            self.assertTrue(known._lost)

    def test_a_change_behind_the_call_changes_nothing(self) -> None:
        store = self.made()
        made = store.clone(0)
        store.put(made, "a", "1")
        found = store.diff(0, made)
        store.put(made, "a", "2")
        self.assertEqual([tuple(difference) for difference in found], [(b"a", None, b"1")])
        with self.assertRaises(errors.UnknownVersion):
            store.diff(made, 7)
        with self.assertRaises(errors.UnknownVersion):
            store.diff(7, 7)

    def test_a_private_copy_and_a_new_opening_know_of_none(self) -> None:
        with self.made() as store:
            store.put(store.clone(0), "a", "1")
        for read_only in (True, False):
            with Store(self.path, read_only=read_only) as store, frames_sent(store) as counts:
                self.assertEqual(len(list(store.diff(0, 1))), 1)
            self.assertEqual(counts["scan of version"], 2)
