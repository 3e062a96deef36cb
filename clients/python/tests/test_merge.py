"""Merges of two versions over their common ancestor, against dictionaries."""

import os
import random
from typing import Dict, List, Optional
from unittest import mock

from session import carried_out
from support import StoreCase

from castle import Batch, Merge, Store, ThreeWay, errors
from castle.merge import joined
from castle.scan import Difference

Pairs = Dict[bytes, bytes]


def three_ways(base: Pairs, ours: Pairs, theirs: Pairs) -> List[ThreeWay]:
    """The keys that differ from the base on either side, in order."""
    keys = sorted({*base, *ours, *theirs})
    rows = [ThreeWay(key, base.get(key), ours.get(key), theirs.get(key)) for key in keys]
    return [row for row in rows if row.ours != row.base or row.theirs != row.base]


def merged(base: Pairs, ours: Pairs, theirs: Pairs, wins: str) -> Pairs:
    """What a merge is: each key has the value of the side that changed it, and of two sides that of the winner."""
    found: Pairs = {}
    for key in {*base, *ours, *theirs}:
        was, mine, other = base.get(key), ours.get(key), theirs.get(key)
        has = other if mine == was or (other != was and wins == "theirs") else mine
        if has is not None:
            found[key] = has
    return found


class RowsTest(StoreCase):
    def test_two_lists_of_differences_are_joined(self) -> None:
        ours = [Difference(b"a", b"1", b"2"), Difference(b"c", None, b"3"), Difference(b"d", b"4", None)]
        theirs = [Difference(b"b", None, b"5"), Difference(b"c", None, b"6"), Difference(b"e", b"7", b"8")]
        self.assertEqual(list(joined(iter(ours), iter(theirs))), [
            (b"a", b"1", b"2", b"1"), (b"b", None, None, b"5"), (b"c", None, b"3", b"6"), (b"d", b"4", None, b"4"), (b"e", b"7", b"7", b"8")])
        self.assertEqual(list(joined(iter([]), iter([]))), [])

    def test_a_conflict_is_a_key_that_both_sides_changed_to_different_values(self) -> None:
        for base, ours, theirs, is_conflict in ((b"1", b"2", b"3", True), (b"1", b"2", b"2", False), (b"1", b"1", b"2", False),
                                                (b"1", b"2", b"1", False), (b"1", None, b"2", True), (b"1", b"2", None, True),
                                                (b"1", None, None, False), (None, b"1", b"2", True), (None, b"1", b"1", False), (b"", None, b"1", True)):
            self.assertEqual(ThreeWay(b"k", base, ours, theirs).is_conflict, is_conflict, (base, ours, theirs))


class PartedCase(StoreCase):
    """Two sides that have changed since their common ancestor."""

    def parted(self) -> Store:
        """Version 1 is staging, 2 is production, of version 0; both have changes, of which none is in conflict."""
        store = self.made(64, 1000, 10)
        store.at(0).update(a=b"1", b=b"1", c=b"1")
        store.names["staging"] = store.clone(0)
        store.names["production"] = store.clone(0)
        store.put("staging", "a", "2")
        store.put("staging", "d", "2")
        store.delete("production", "b")
        store.put("production", "e", "3")
        store.put("staging", "f", "same")
        store.put("production", "f", "same")
        return store

    WANT = {b"a": b"2", b"c": b"1", b"d": b"2", b"e": b"3", b"f": b"same"}


class MergeTest(PartedCase):
    def test_a_merge_into_a_side_goes_on_in_its_clone(self) -> None:
        store = self.parted()
        before = dict(store.at("production")), dict(store.at(1))
        self.assertEqual(store.merge("staging", "production", "staging"), Merge(3, 1, 0, 2, []))
        self.assertEqual((dict(store.at("staging")), dict(store.names)), (self.WANT, {"production": 2, "staging": 3}))
        self.assertEqual((dict(store.at("production")), dict(store.at(1))), before)
        self.assertEqual((store.info(1).frozen, store.info(2).frozen, store.info(3).parent), (True, False, 1))
        store.put("production", "e", "4")

    def test_a_merge_into_a_new_name_leaves_both_sides_as_they_are(self) -> None:
        store = self.parted()
        self.assertEqual(store.merge("staging", "production", "both"), Merge(3, 0, 0, 5, []))
        self.assertEqual((dict(store.at("both")), dict(store.names)), (self.WANT, {"staging": 1, "production": 2, "both": 3}))
        self.assertEqual([store.info(version).frozen for version in (1, 2)], [False, False])

    def test_a_merge_into_a_number_moves_no_name(self) -> None:
        store = self.parted()
        self.assertEqual(store.merge("staging", "production", 2), Merge(3, 2, 0, 2, []))
        self.assertEqual((dict(store.at(3)), dict(store.names)), (self.WANT, {"staging": 1, "production": 2}))

    def test_of_two_names_of_a_side_the_one_that_is_given_moves(self) -> None:
        store = self.parted()
        store.names["work"] = 1
        store.merge("staging", "production", "work")
        self.assertEqual(dict(store.names), {"staging": 1, "production": 2, "work": 3})

    def test_an_ancestor_is_merged_with_what_descends_from_it(self) -> None:
        store = self.parted()
        self.assertEqual(store.merge(0, "staging", "new"), Merge(3, 0, 0, 3, []))
        self.assertEqual(dict(store.at("new")), dict(store.at("staging")))
        self.assertEqual(store.merge("staging", 0, "staging"), Merge(4, 1, 0, 0, []))
        self.assertEqual(dict(store.at("staging")), dict(store.at(1)))

    def test_conflicts_are_told_and_nothing_is_written_unless_a_side_wins(self) -> None:
        store = self.parted()
        store.put("production", "a", "9")
        store.delete("staging", "c")
        store.put("production", "c", "9")
        before = store.stat(), self.bytes_of("a.store.names")
        conflicts = [ThreeWay(b"a", b"1", b"2", b"9"), ThreeWay(b"c", b"1", None, b"9")]
        with self.assertRaisesRegex(errors.MergeConflict, "a.store: merge: both sides changed 2 keys, the first of them a. Say which side") as caught:
            store.merge("staging", "production", "staging")
        self.assertEqual(caught.exception.conflicts, conflicts)
        with self.assertRaisesRegex(ValueError, "wins is 'mine', and not 'ours', 'theirs' or None"):
            store.merge("staging", "production", "staging", wins="mine")
        self.assertEqual((store.stat(), self.bytes_of("a.store.names")), before)
        self.assertEqual(store.merge("staging", "production", "mine", wins="ours"), Merge(3, 0, 0, 6, conflicts))
        self.assertEqual(dict(store.at("mine")), {b"a": b"2", b"d": b"2", b"e": b"3", b"f": b"same"})
        self.assertEqual(store.merge("staging", "production", "production", wins="ours"), Merge(4, 2, 0, 3, conflicts))
        self.assertEqual(dict(store.at("production")), dict(store.at("mine")))
        self.assertEqual(store.merge(1, 2, "theirs", wins="theirs").conflicts, conflicts)
        self.assertEqual(dict(store.at("theirs")), {b"a": b"9", b"c": b"9", b"d": b"2", b"e": b"3", b"f": b"same"})

    def test_what_can_not_be_merged_is_refused_and_nothing_written(self) -> None:
        store = self.parted()
        store.names["base"] = 0
        store.names["work"] = store.clone("staging")  # version 3
        before = store.stat(), self.bytes_of("a.store.names")
        for words, kind, what in ((("staging", 1, "x"), errors.MergeFault, "merge: both are version 1. Name two versions."),
                                  (("staging", "production", "base"), errors.MergeFault, "of versions 1 and 2 can't go into version 0"),
                                  (("staging", "production", "work"), errors.MergeFault, "can't go into version 3, which has pairs of its own"),
                                  (("staging", "production", 0), errors.MergeFault, "Merge into one of the two, or give a new name"),
                                  (("none", "production", "x"), errors.UnknownName, "no version has the name none"),
                                  (("staging", "none", "x"), errors.UnknownName, "no version has the name none"),
                                  (("staging", 9, "x"), errors.UnknownVersion, "info version 9"), ((9, "staging", "x"), errors.UnknownVersion, "info"),
                                  (("staging", "production", 9), errors.MergeFault, "can't go into version 9"),
                                  (("staging", "production", "7"), errors.NameFault, "'7' can't be a name"),
                                  (("staging", "production", ""), errors.NameFault, "'' can't be a name")):
            with self.assertRaisesRegex(kind, what):
                store.merge(*words)
        self.assertEqual((store.stat(), self.bytes_of("a.store.names")), before)

    def test_a_store_that_is_too_full_is_as_it_was(self) -> None:
        for changes, versions, kind, what in ((1000, 3, errors.VersionLimit, "merge: it takes 1 version, and the store has room for 0"),
                                              (14, 10, errors.ChangeLimit, "merge: it takes 3 changes, and the store has room for 2")):
            with self.subTest(kind=kind):
                store = self.filled(changes, versions)
                before = store.stat(), self.bytes_of("a.store.names")
                with self.assertRaisesRegex(kind, what):
                    store.merge("staging", "production", "staging")
                self.assertEqual((store.stat(), self.bytes_of("a.store.names")), before)
                store.close()

    def filled(self, changes: int, versions: int) -> Store:
        """The same as `parted`, after 12 changes, in a store of these limits."""
        Store.format(self.path, 64, changes, versions, overwrite=True)
        with mock.patch.object(self, "made", lambda *words: self.opened()):
            store = self.parted()
        self.assertEqual(store.stat().changes, 11)
        store.put("staging", "d", "2")
        return store

    def test_a_copy_and_a_moved_store_are_refused_before_a_clone(self) -> None:
        self.parted().close()
        with Store(self.path, read_only=True) as copy:
            for into in ("staging", "new", 1):
                with self.assertRaises(errors.ReadOnly):
                    copy.merge("staging", "production", into)
        store = self.opened()
        os.rename(self.path, self.path + ".moved")
        for into in ("staging", "new", 1):
            with self.assertRaises(errors.StoreMoved):
                store.merge("staging", "production", into)
        self.assertEqual(store.stat().versions, 3)

    def test_a_merge_that_ends_amid_its_changes_leaves_the_names(self) -> None:
        self.parted().close()
        store, finish = self.opened(), Batch.finish  # it looks up no edits that it knows of, by a batch of their own

        def failing(batch: Batch) -> object:
            finish(batch)
            raise errors.NoMemory(file=self.path, command="put e at version 3")

        with mock.patch.object(Batch, "finish", failing):
            with self.assertRaisesRegex(errors.NoMemory, "made version 3, which got no name: put e at version 3: memory ran out"):
                store.merge("staging", "production", "staging")
        self.assertEqual((dict(store.names), store.stat().versions), ({"staging": 1, "production": 2}, 4))
        store.merge("staging", "production", "staging")
        self.assertEqual(dict(store.at("staging")), self.WANT)

    def test_no_cursor_is_left_open(self) -> None:
        store = self.parted()
        store.put("production", "a", "9")
        with self.assertRaises(errors.MergeConflict):
            store.merge("staging", "production", "staging")
        store.merge("staging", "production", "staging", wins="ours")
        self.assertEqual(store.stat().cursors, 0)


class RandomTest(StoreCase):
    in_memory = True

    def test_merges_of_random_trees_give_what_dictionaries_do(self) -> None:
        chance = random.Random(46)
        store = self.made(8, 100000, 400)
        versions: List[Pairs] = [{}]
        parents: List[Optional[int]] = [None]
        seen = set()
        for turn in range(80):
            made = store.clone(chance.randrange(len(versions)))
            parent = store.info(made).parent
            assert parent is not None
            versions.append(dict(versions[parent]))
            parents.append(parent)
            self.change(chance, store, made, versions[made])
            ours, theirs = chance.sample(range(len(versions)), 2)
            base = self.ancestor(parents, ours, theirs)
            wins = chance.choice((None, "ours", "theirs"))
            into = chance.choice((ours, theirs, f"m{turn}"))
            parent = base if isinstance(into, str) else into
            rows = three_ways(versions[base], versions[ours], versions[theirs])
            conflicts = [row for row in rows if row.ours != row.base and row.theirs != row.base and row.ours != row.theirs]
            seen.add((bool(conflicts), wins, base in (ours, theirs), isinstance(into, str)))
            if conflicts and wins is None:
                with self.assertRaises(errors.MergeConflict) as caught:
                    store.merge(ours, theirs, into)
                self.assertEqual(caught.exception.conflicts, conflicts)
                continue
            want = merged(versions[base], versions[ours], versions[theirs], wins or "ours")
            changes = sum(versions[parent].get(key) != want.get(key) for key in {*versions[parent], *want})
            self.assertEqual(store.merge(ours, theirs, into, wins=wins), Merge(len(versions), parent, base, changes, conflicts))
            self.assertEqual(dict(store.at(len(versions))), want)
            versions.append(want)
            parents.append(parent)
        self.assertGreater(len(seen), 12)
        for version, pairs in enumerate(versions):
            self.assertEqual(dict(store.at(version)), pairs)

    @staticmethod
    def change(chance: random.Random, store: Store, version: int, pairs: Pairs) -> None:
        """Some changes of few keys to few values, so that two sides often meet."""
        for _ in range(chance.randrange(6)):
            key = b"%d" % chance.randrange(8)
            if chance.random() < 0.3:
                store.delete(version, key)
                pairs.pop(key, None)
            else:
                pairs[key] = b"%d" % chance.randrange(3)
                store.put(version, key, pairs[key])

    @staticmethod
    def ancestor(parents: List[Optional[int]], first: int, second: int) -> int:
        """The greatest version that is above both, or one of them."""
        def above(version: Optional[int]) -> List[int]:
            return [] if version is None else [version, *above(parents[version])]
        return max({*above(first)} & {*above(second)})


class ShellTest(PartedCase):
    def test_a_merge_is_told_in_the_shell(self) -> None:
        store = self.parted()
        self.assertEqual(carried_out(store, "merge staging production staging")[:2], (
            "made version 3 (staging): version 1 with 2 changes, over the common ancestor 0\n", ""))
        self.assertEqual(carried_out(store, "merge 1 2 2")[0], "made version 4: version 2 (production) with 2 changes, over the common ancestor 0\n")

    def test_conflicts_are_listed_in_the_shell(self) -> None:
        store = self.parted()
        carried_out(store, 'put a "9 9" @production', "delete c @staging", "put c 9 @production")
        out, complaint, status = carried_out(store, "merge staging production staging")
        self.assertEqual((out, status), ('! a: 1 before, 2 in staging, "9 9" in production\n! c: 1 before, absent in staging, 9 in production\n', 1))
        self.assertIn("merge: both sides changed 2 keys, the first of them a. --ours takes the values of A, --theirs those of B; nothing was written.",
                      complaint)
        self.assertEqual(store.stat().versions, 3)
        self.assertEqual(carried_out(store, "switch staging", "merge --theirs staging production staging", "get a", "get c"), (
            "made version 3 (staging): version 1 with 4 changes, over the common ancestor 0\n2 conflicts: production won\n\"9 9\"\n9\n", "", 0))
