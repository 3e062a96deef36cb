"""Drops of versions: what is refused then, what becomes of names and scans, and copies that have the same versions."""

from __future__ import annotations

import os
import random
import shutil
import signal
from typing import Any, Callable, Dict, List, Optional, Tuple
from unittest import mock

from hubs import HubCase
from session import carried_out
from support import StoreCase, Threads, in_child, quiet

import castle
from castle import Drops, Info, Store, dropping, errors
from castle.names import Names

Pairs = Dict[bytes, bytes]


class Plain:
    """A store as dictionaries."""

    def __init__(self) -> None:
        self.pairs: List[Pairs] = [{}]
        self.parents: List[Optional[int]] = [None]
        self.dropped: Dict[int, int] = {}
        self.changes = 0

    def living(self) -> List[int]:
        """The versions that were not dropped."""
        return [version for version in range(len(self.pairs)) if version not in self.dropped]

    def is_frozen(self, version: int) -> bool:
        """Whether a version has a child that was not dropped."""
        return any(self.parents[child] == version for child in self.living())

    def tips(self) -> List[int]:
        """The versions that take puts."""
        return [version for version in self.living() if not self.is_frozen(version)]

    def below(self, version: int) -> List[int]:
        """A version and the living ones below it, the greatest number first."""
        found = [version]
        for other in self.living():
            if self.parents[other] in found:
                found.append(other)
        return sorted(found, reverse=True)

    def clone(self, version: int) -> int:
        self.pairs.append(dict(self.pairs[version]))
        self.parents.append(version)
        self.changes += 1
        return len(self.pairs) - 1

    def drop(self, version: int) -> None:
        self.pairs[version] = {}
        self.dropped[version] = self.parents[version] or 0
        self.changes += 1

    def infos(self) -> List[Optional[Info]]:
        """What the store tells of its versions."""
        found: List[Optional[Info]] = []
        for version, parent in enumerate(self.parents):
            depth, at = 0, parent
            while at is not None:
                depth, at = depth + 1, self.parents[at]
            found.append(None if version in self.dropped else Info(parent, depth, self.is_frozen(version)))
        return found

    def expect(self, case: StoreCase, store: Store, hangs: bool = True) -> None:
        """The store has this, and tells where dropped versions hung unless it is a copy of one over a hub."""
        case.assertEqual(store.versions(), self.infos())
        case.assertEqual(store.dropped(), {version: parent if hangs else 0 for version, parent in sorted(self.dropped.items())})
        for version, pairs in enumerate(self.pairs):
            if version in self.dropped:
                case.assertRaises(errors.Dropped, store.scan, version)
                case.assertRaises(errors.Dropped, store.get, version, "a")
            else:
                case.assertEqual(list(store.scan(version)), sorted(pairs.items()), version)


class DropTest(StoreCase):
    in_memory = True

    def grown(self) -> Store:
        """A store of versions 0 to 4: 1 and 2 are clones of 0, 3 and 4 of 1."""
        store = self.made()
        store.put(0, "a", "0")
        for parent in (0, 0, 1, 1):
            store.put(store.clone(parent), "b", "1")
        return store

    def test_a_dropped_version_is_unknown_to_every_command(self) -> None:
        store = self.grown()
        store.at(3).clear()
        self.assertEqual(store.drop(3), [])
        view = store.at(3)
        calls: List[Callable[[], object]] = [
            lambda: store.get(3, "a"), lambda: store.put(3, "a", "1"), lambda: store.delete(3, "a"), lambda: store.clone(3),
            lambda: store.drop(3), lambda: store.info(3), lambda: store.page(3), lambda: store.scan(3), lambda: store.diff(3, 4),
            lambda: store.diff(4, 3), lambda: store.diff(1, 3), lambda: store.merge(3, 4, "x"), lambda: store.drop_tree(3), lambda: view["a"],
            lambda: view.update(a="1"), lambda: len(view), lambda: dict(view), lambda: "a" in view, lambda: bool(view),
            lambda: store.names.update(x=3), lambda: store.export(3, os.path.join(self.folder, "x")),
            lambda: store.import_from(self.written("y", ""), 3)]
        for number, call in enumerate(calls):
            with self.assertRaisesRegex(errors.Dropped, "version 3: the version was dropped. `tree` shows the versions that there are", msg=number):
                call()
        self.assertEqual((store.stat()[:3], dict(store.names)), ((5, 7, 12), {}))
        with self.assertRaises(errors.NoSuchVersion):
            store.close()
            castle.export(self.path, 3, os.path.join(self.folder, "x"))
        self.assertEqual(os.path.exists(os.path.join(self.folder, "x")), False)

    def test_its_number_is_not_used_again_and_counts(self) -> None:
        store = self.made(64, 1000, 5)
        for number in range(1, 5):
            self.assertEqual(store.clone(0), number)
            store.drop(number)
        with self.assertRaisesRegex(errors.VersionLimit, "as many versions as it was made for.*Dropped versions count as well"):
            store.clone(0)
        self.assertEqual((store.stat()[:3], store.versions()[1:], store.dropped()), ((5, 0, 8), 4 * [None], dict.fromkeys(range(1, 5), 0)))

    def test_a_version_with_a_child_and_version_0_are_not_dropped(self) -> None:
        store = self.grown()
        for version, kind in ((0, errors.Root), (1, errors.Frozen), (5, errors.UnknownVersion), (2 ** 32, errors.UnknownVersion)):
            with self.assertRaises(kind) as caught:
                store.drop(version)
            self.assertIs(type(caught.exception), kind)
        with self.assertRaisesRegex(errors.UnknownName, "no version has the name x"):
            store.drop("x")
        self.assertRaises(TypeError, store.drop, None)
        self.assertEqual((store.stat().changes, store.dropped()), (9, {}))

    def test_a_version_whose_children_are_all_dropped_takes_puts_again(self) -> None:
        store = self.grown()
        store.drop(3)
        self.assertRaises(errors.Frozen, store.put, 1, "c", "1")
        store.drop(4)
        store.put(1, "c", "1")
        self.assertEqual((store.info(1), dict(store.at(1)), dict(store.at(0))), (Info(0, 1, False), {b"a": b"0", b"b": b"1", b"c": b"1"}, {b"a": b"0"}))
        store.drop(1)
        store.drop(2)
        store.put(0, "a", "2")
        self.assertEqual((store.get(store.clone(0), "a"), store.info(0)), (b"2", Info(None, 0, True)))

    def test_a_scan_that_began_before_goes_on(self) -> None:
        store = self.made(64, 2000)
        clone = store.clone(0)
        store.at(clone).update((f"{number:04}", "v") for number in range(1000))
        scan, view = store.scan(clone), store.at(clone)
        given = iter(view)
        self.assertEqual((next(scan)[0], next(given)), (b"0000", b"0000"))
        store.drop(clone)
        self.assertEqual(len(list(scan)), 999)
        self.assertEqual(len(list(given)), 999)
        self.assertRaises(errors.Dropped, view.get, "0001")
        self.assertEqual(store.stat().cursors, 0)

    def test_what_differs_is_right_where_versions_are_dropped_and_changed_again(self) -> None:
        chance, store, plain = random.Random(53), self.made(8, 100000, 300), Plain()
        for number in range(1500):
            tip, draw = chance.choice(plain.tips()), chance.random()
            if draw < 0.1 and len(plain.pairs) < 300:
                version = chance.choice(plain.living())
                self.assertEqual(store.clone(version), plain.clone(version))
            elif draw < 0.2 and tip:
                store.drop(tip)
                plain.drop(tip)
            elif draw < 0.8:
                key = b"%d" % chance.randrange(20)
                store.put(tip, key, b"%d" % number)
                plain.pairs[tip][key] = b"%d" % number
            else:
                before, after = chance.randrange(len(plain.pairs)), chance.randrange(len(plain.pairs))
                if plain.dropped.keys() & {before, after}:
                    if before != after:
                        self.assertRaises(errors.Dropped, lambda: list(store.diff(before, after)))
                    continue
                old, new = plain.pairs[before], plain.pairs[after]
                want = [(key, old.get(key), new.get(key)) for key in sorted({*old, *new}) if old.get(key) != new.get(key)]
                self.assertEqual(list(store.diff(before, after)), want)
        self.assertGreater(len(plain.dropped), 50)

    def test_a_random_history_is_that_of_dictionaries_also_in_copies(self) -> None:
        chance = random.Random(54)
        for turn in range(6):
            store, plain = self.made(chance.choice((4, 8, 64)), 2000, 100), Plain()
            for number in range(250):
                tip, draw = chance.choice(plain.tips()), chance.random()
                if draw < 0.2 and len(plain.pairs) < 100:
                    version = chance.choice(plain.living())
                    self.assertEqual(store.clone(version), plain.clone(version))
                elif draw < 0.32 and tip:
                    self.assertEqual(store.drop(tip), [])
                    plain.drop(tip)
                elif draw < 0.34 and plain.living()[1:]:
                    version = chance.choice(plain.living()[1:])
                    below = plain.below(version)
                    self.assertEqual(store.drop_tree(version), Drops(below, []))
                    for it in below:
                        plain.drop(it)
                elif draw < 0.38:
                    store.close()
                    store = self.opened()
                else:
                    key = b"%d" % chance.randrange(20)
                    plain.changes += 1
                    if draw < 0.5:
                        store.delete(tip, key)
                        plain.pairs[tip].pop(key, None)
                    else:
                        store.put(tip, key, b"%d" % number)
                        plain.pairs[tip][key] = b"%d" % number
            self.expect_in_copies(store, plain)
            store.close()
            os.remove(self.path)

    def expect_in_copies(self, store: Store, plain: Plain) -> None:
        """A store, and whatever is made of it, has what the dictionaries have."""
        plain.expect(self, store)
        self.assertEqual((store.stat()[::2], bool(store.verdict())), ((len(plain.pairs), plain.changes), True))
        self.assertEqual((store.levels().versions, store.levels().changes), (len(plain.pairs), plain.changes))
        for version in plain.living():
            store.export(version, os.path.join(self.folder, "export"))
            with Store(self.fresh("c.store")) as other:
                other.import_from(os.path.join(self.folder, "export"), 0)
                self.assertEqual(dict(other.at(0)), plain.pairs[version])
        store.dump_all(os.path.join(self.folder, "dump"))
        with Store(self.fresh("b.store")) as other:
            other.load_all(os.path.join(self.folder, "dump"))
            plain.expect(self, other)
            self.assertLessEqual(other.stat().changes, plain.changes)
        to = os.path.join(self.folder, "d.store")
        for make in (store.backup, store.salvage):
            made = make(to, overwrite=True)
            self.assertTrue(Store.check(to))
            with Store(to) as other:
                plain.expect(self, other)
            if made is not None:
                self.assertEqual((made.versions, made.dropped, made.is_whole), (len(plain.pairs), len(plain.dropped), True))
        store.close()
        with Store(self.path, read_only=True) as copy:
            plain.expect(self, copy)
            self.assertRaises(errors.ReadOnly, copy.drop, plain.tips()[0])

    def fresh(self, name: str) -> str:
        """The path of another new store."""
        path = os.path.join(self.folder, name)
        Store.format(path, 16, 2000, 100, overwrite=True)
        return path

    def test_a_child_is_refused_and_a_closed_store_too(self) -> None:
        store = self.grown()
        store.names["x"] = 3

        def refused() -> None:
            for call in (lambda: store.drop(3), lambda: store.drop("x"), lambda: store.drop_tree(1), store.dropped,
                         lambda: store.batch().drop(3)):
                self.assertRaises(errors.Forked, call)

        self.assertEqual(os.waitpid(in_child(refused), 0)[1], 0)
        self.assertEqual((store.dropped(), dict(store.names)), ({}, {"x": 3}))
        store.close()
        for call in (lambda: store.drop(3), lambda: store.drop_tree(1), store.dropped):
            self.assertRaises(errors.StoreClosed, call)

    def test_a_program_that_knows_no_drops_is_told(self) -> None:
        with self.assertRaisesRegex(errors.Malformed, "drop version 1: the program doesn't know this command. It is of another build"):
            self.pretending(f"refuse {errors.Malformed.status}").drop(1)

    def test_a_program_that_ends_amid_a_drop_is_told(self) -> None:
        store = self.grown()
        store.names["x"] = 3
        os.kill(store.pid, signal.SIGKILL)
        with self.assertRaises(errors.Killed):
            store.drop("x")
        store.__exit__(ValueError, ValueError(), None)
        store = self.opened()
        self.assertEqual(store.names.version("x"), 3)
        self.assertEqual(store.drop("x"), ["x"])

    def test_threads_drop_and_read(self) -> None:
        store = self.made(16, 100000, 1000)
        told: List[str] = []

        def work(number: int) -> None:
            for turn in range(30):
                clone = store.clone(0)
                store.put(clone, "k", f"{number}/{turn}")
                store.names[f"n{number}"] = clone
                self.assertEqual(store.get(f"n{number}", "k"), b"%d/%d" % (number, turn))
                told.extend(store.drop(clone))
                self.assertRaises(errors.Dropped, store.get, clone, "k")

        self.assertEqual(Threads(*(lambda number=number: work(number) for number in range(4))).join(), [])  # type: ignore[misc]
        self.assertEqual((len(told), dict(store.names), len(store.dropped())), (120, {}, 120))
        store.put(0, "k", "v")


class NamesTest(StoreCase):
    in_memory = True

    def named(self) -> Store:
        """A store of versions 0, 1 (named a and b), 2 (a clone of 1, c), and 3 (a clone of 0, d)."""
        store = self.made()
        for parent in (0, 1, 0):
            store.clone(parent)
        store.names.assign({"a": 1, "b": 1, "c": 2, "d": 3})
        return store

    def test_names_of_a_dropped_version_are_let_go_of(self) -> None:
        store = self.named()
        self.assertEqual(store.drop("c"), ["c"])
        self.assertEqual((dict(store.names), self.names_told()), ({"a": 1, "b": 1, "d": 3}, ["a 1", "b 1", "d 3"]))
        self.assertEqual(store.drop(1), ["a", "b"])
        self.assertEqual((dict(store.names), self.names_told()), ({"d": 3}, ["d 3"]))
        self.assertRaises(errors.UnknownName, store.get, "a", "k")
        store.names["a"] = store.clone(0)
        self.assertEqual(store.names["a"], 4)
        store.close()
        self.assertEqual((dict(self.opened().names), store.names.warning), ({"d": 3, "a": 4}, ""))

    def test_a_refused_drop_leaves_names_as_they_are(self) -> None:
        store = self.named()
        before = self.bytes_of("a.store.names")
        for version in ("a", 0, 1, 99):
            self.assertRaises(errors.Refused, store.drop, version)
        with store.batch(return_exceptions=True) as batch:
            batch.drop("a")
            batch.drop(0)
        self.assertEqual((dict(store.names), self.bytes_of("a.store.names")), ({"a": 1, "b": 1, "c": 2, "d": 3}, before))

    def test_a_batch_lets_go_of_names_at_its_end(self) -> None:
        store = self.named()
        with store.batch() as batch:
            batch.drop("c")
            batch.drop("a")
            batch.drop(3)
        self.assertEqual((batch.results, dict(store.names), self.names_told()), ([None, None, None], {}, []))
        batch = store.batch()
        batch.drop(store.clone(0))
        batch.drop(3)
        batch.put(0, "a", "1")
        self.assertRaises(errors.Dropped, batch.finish)
        self.assertEqual((batch.results[0], type(batch.results[1]), batch.results[2], store.get(0, "a")), (None, errors.Dropped, None, b"1"))

    def test_names_that_can_not_be_changed_keep_their_version_from_being_dropped(self) -> None:
        store = self.named()
        os.rename(self.path, self.path + "2")
        for call in (lambda: store.drop("c"), lambda: store.drop_tree(1)):
            self.assertRaises(errors.StoreMoved, call)
        os.rename(self.path + "2", self.path)
        self.assertEqual((store.dropped(), store.stat().changes), ({}, 3))
        self.assertEqual(store.drop(2), ["c"])

    def test_a_file_of_names_that_can_not_be_written_is_told_and_the_names_are_gone(self) -> None:
        for act in (lambda store: store.drop(2), lambda store: store.drop_tree(2)):
            store = self.named()
            before = self.bytes_of("a.store.names")
            with mock.patch("castle.names.write_whole", side_effect=OSError(28, "No space left on device")):
                with self.assertRaisesRegex(errors.NameFault, r"dropped 1 version, whose names are let go of, but the file of names has them still"
                                                              r": the file can't be written: No space left on device"):
                    act(store)
            self.assertEqual((dict(store.names), store.dropped(), self.bytes_of("a.store.names")), ({"a": 1, "b": 1, "d": 3}, {2: 1}, before))
            store.close()
            with self.assertWarnsRegex(errors.NamesWarning, r"a\.store\.names: names of versions that were dropped are left out: c 2$"):
                store = self.opened()
            self.assertEqual(dict(store.names), {"a": 1, "b": 1, "d": 3})
            store.names["e"] = 0
            self.assertEqual(self.names_told(), ["e 0", "a 1", "b 1", "d 3"])
            store.close()
            os.remove(self.path)
            os.remove(self.path + ".names")

    def test_names_of_versions_that_another_program_dropped_are_left_out(self) -> None:
        self.named().close()
        names = self.bytes_of("a.store.names")
        os.rename(self.path + ".names", self.path + ".kept")
        with self.opened() as store:  # which knows no names, as one over a hub
            store.drop(2)
        os.rename(self.path + ".kept", self.path + ".names")
        with self.assertWarnsRegex(errors.NamesWarning, "that were dropped are left out: c 2$"):
            store = self.opened()
        self.assertEqual((dict(store.names), self.bytes_of("a.store.names")), ({"a": 1, "b": 1, "d": 3}, names))
        with open(self.path + ".names", "a", encoding="utf-8") as file:
            file.write("z 99\n")
        store.close()
        with self.assertWarnsRegex(errors.NamesWarning, "that the store doesn't have are left out: z 99; names of versions that were dropped are "
                                                        "left out: c 2$"):
            store = self.opened()
        self.assertEqual(store.drop(1), ["a", "b"])
        self.assertEqual(self.names_told(), ["d 3"])

    def test_an_unreadable_file_of_names_does_not_keep_a_version_from_being_dropped(self) -> None:
        self.named().close()
        self.written("a.store.names", "c 2\nnonsense\n")
        quiet(self)
        with self.assertWarns(errors.NamesWarning):
            store = self.opened()
        self.assertEqual(store.drop(2), [])
        self.written("a.store.names", "a 1\nc 2\n")
        store.names["d"] = 3
        self.assertEqual(self.names_told(), ["a 1", "d 3"])

    def test_names_are_let_go_of_by_the_next_call_where_an_interrupt_cut_that_off(self) -> None:
        store = self.made(64, 10000, 300)
        quiet(self)
        for number in range(1, 4):
            for where in ("_ask", "_exchange"):
                clone = store.clone(0)
                store.names["x"] = clone
                self.interrupted(store, clone, number, where)
                is_dropped = store.versions()[clone] is None  # which ends a batch
                self.assertEqual("x" in store.names, not is_dropped, (number, where))
                self.assertEqual(self.names_told(), [] if is_dropped else [f"x {clone}"])

    def interrupted(self, store: Store, version: int, number: int, where: str) -> None:
        """Drops a version, with a KeyboardInterrupt behind the call of this number of a method of its program."""
        method, calls = getattr(type(store._program), where), iter(range(1, 100))

        def call(*words: Any) -> Any:
            found = method(*words)
            if next(calls) == number:
                raise KeyboardInterrupt
            return found

        with mock.patch.object(type(store._program), where, call):
            try:
                store.drop(version)
            except KeyboardInterrupt:
                pass

    def test_names_are_asked_about_only_where_there_are_some(self) -> None:
        store = self.named()
        asked: List[int] = []
        lost = Names._lost

        def counted(names: Names, versions: Any) -> Any:
            asked.append(len(versions))
            return lost(names, versions)

        with mock.patch.object(Names, "_lost", counted):
            store.drop(store.clone(0))
            store.put(3, "a", "1")
            self.assertEqual(asked, [])
            store.drop(2)
            self.assertEqual(asked, [1])


class TreeTest(StoreCase):
    in_memory = True

    def grown(self, *limits: int) -> Tuple[Store, Plain]:
        """A store of a drawn tree, and the same as dictionaries."""
        chance, store, plain = random.Random(55), self.made(*limits), Plain()
        for _ in range(60):
            version = chance.randrange(len(plain.pairs))
            self.assertEqual(store.clone(version), plain.clone(version))
        return store, plain

    def test_a_tree_is_dropped_from_its_leaves_on(self) -> None:
        store, plain = self.grown(64, 1000, 100)
        store.names.assign({"x": 5, "y": 0, "z": 60})
        told: List[Tuple[str, int, Optional[int]]] = []
        below = plain.below(1)
        found = store.drop_tree(1, progress=lambda *words: told.append(words))
        self.assertEqual((found.versions, found.names), (below, [name for name, it in (("x", 5), ("z", 60)) if it in below]))
        for version in below:
            plain.drop(version)
        plain.expect(self, store)
        self.assertEqual(told, [("versions dropped", 0, len(below))])
        self.assertEqual(set(store.names), {"x", "y", "z"} - set(found.names))

    def test_what_can_not_be_dropped_whole_is_not_begun(self) -> None:
        store, plain = self.grown(64, 70, 100)
        for version, kind, what in ((0, errors.Root, "drop version 0 and those below it: version 0 can't be dropped"),
                                    (61, errors.UnknownVersion, "no version of this number"),
                                    (1, errors.ChangeLimit, "it takes {} changes, and the store has room for 10")):
            count = len(plain.below(version)) if version == 1 else 0
            with self.assertRaisesRegex(kind, what.format(count)):
                store.drop_tree(version)
        self.assertGreater(len(plain.below(1)), 10)
        plain.expect(self, store)

    def test_a_large_tree_is_dropped_in_windows_between_which_it_can_be_stopped(self) -> None:
        store = self.made(256, 10000, 1000)
        store.clone(0)
        with store.batch() as batch:
            for _ in range(700):
                batch.clone(1)
        told: List[int] = []

        def tell(what: str, done: int, total: Optional[int]) -> None:
            told.append(done)
            self.assertEqual((what, total), ("versions dropped", 701))
            if len(told) == 3:
                raise KeyboardInterrupt

        self.assertRaises(KeyboardInterrupt, store.drop_tree, 1, progress=tell)
        self.assertEqual((told, len(store.dropped())), ([0, dropping.WINDOW, 2 * dropping.WINDOW], 2 * dropping.WINDOW))
        self.assertEqual(len(store.drop_tree(1).versions), 701 - 2 * dropping.WINDOW)
        self.assertEqual((store.info(0).frozen, len(store.dropped())), (False, 701))

    def test_a_program_that_ends_amid_it_is_told_with_what_is_dropped(self) -> None:
        store = self.made(256, 10000, 1000)
        store.clone(0)
        with store.batch() as batch:
            for _ in range(600):
                batch.clone(1)

        def tell(what: str, done: int, total: Optional[int]) -> None:
            if done:
                os.kill(store.pid, signal.SIGKILL)

        with self.assertRaisesRegex(errors.Killed, r"drop version 1 and those below it: \d+ of 601 are dropped"):
            store.drop_tree(1, progress=tell)
        store.__exit__(ValueError, ValueError(), None)
        self.assertGreaterEqual(len(self.opened().dropped()), dropping.WINDOW)


class HubTest(HubCase):
    def setUp(self) -> None:
        super().setUp()
        self.served()
        self.store, self.other = self.client(), self.client()

    def test_a_version_that_another_client_dropped_is_told(self) -> None:
        clone = self.store.clone(0)
        self.store.put(clone, "a", "1")
        view, scan = self.store.at(clone), self.store.scan(clone)
        self.assertEqual(self.other.drop(clone), [])
        for call in (lambda: view["a"], lambda: self.store.put(clone, "a", "2"), lambda: self.store.drop(clone), lambda: self.store.scan(clone)):
            with self.assertRaisesRegex(errors.Dropped, f"version {clone}: the version was dropped"):
                call()
        self.assertEqual((list(scan), self.store.versions(), self.store.get(0, "a")), ([(b"a", b"1")], [Info(None, 0, False), None], None))
        with self.assertRaisesRegex(errors.NotOverHub, "where dropped versions hung can't be had over a hub"):
            self.store.dropped()

    def test_a_version_that_is_asked_for_before_it_is_made_was_not_dropped(self) -> None:
        made: List[int] = []
        ask = type(self.store._program)._ask

        def asked(program: Any, *words: Any) -> None:
            ask(program, *words)
            if program is self.store._program and not made:
                made.append(0)
                made[0] = self.other.clone(0)

        with mock.patch.object(type(self.store._program), "_ask", asked), self.assertRaises(errors.UnknownVersion) as caught:
            self.store.get(1, "a")
        self.assertEqual((type(caught.exception), made), (errors.UnknownVersion, [1]))

    def test_a_tree_that_others_change_meanwhile_is_dropped_as_far_as_it_goes(self) -> None:
        for parent in (0, 1, 1, 2):
            self.store.clone(parent)

        def tell(what: str, done: int, total: Optional[int]) -> None:
            self.other.drop(4)
            self.other.clone(3)

        with self.assertRaisesRegex(errors.Frozen, "drop version 1 and those below it: 1 of 4 are dropped: drop version 3: the version has a child"):
            self.store.drop_tree(1, progress=tell)
        self.assertEqual([version for version, info in enumerate(self.store.versions()) if info is None], [2, 4])
        self.assertEqual(self.store.drop_tree(1).versions, [5, 3, 1])

    def test_names_of_what_a_client_dropped_are_left_out_at_the_next_opening(self) -> None:
        clone = self.store.clone(0)
        self.store.close()
        self.other.close()
        self.ended(signal.SIGTERM)
        os.remove(self.socket) if os.path.exists(self.socket) else None
        with Store(self.path) as store:
            store.names["x"] = clone
        self.served()
        with Store(self.address) as client:
            client.drop(clone)
        self.ended(signal.SIGTERM)
        with self.assertWarnsRegex(errors.NamesWarning, "that were dropped are left out: x 1$"), Store(self.path) as store:
            self.assertEqual(dict(store.names), {})

    def test_a_backup_over_a_hub_has_the_same_versions_though_it_is_not_told_where_dropped_ones_hung(self) -> None:
        chance, plain, to = random.Random(56), Plain(), os.path.join(self.folder, "to.store")
        for number in range(200):
            tip, draw = chance.choice(plain.tips()), chance.random()
            if draw < 0.2:
                version = chance.choice(plain.living())
                self.assertEqual(self.store.clone(version), plain.clone(version))
            elif draw < 0.3 and tip:
                self.store.drop(tip)
                plain.drop(tip)
            else:
                key = b"%d" % chance.randrange(9)
                self.store.put(tip, key, b"%d" % number)
                plain.pairs[tip][key] = b"%d" % number
        self.assertGreater(len(plain.dropped), 5)
        self.store.backup(to)
        self.assertTrue(Store.check(to))
        with Store(to) as copy:
            plain.expect(self, copy, hangs=False)

    def test_a_backup_beside_a_client_that_drops_and_changes_parents_is_of_one_time(self) -> None:
        """Each version has the number of changes so far as its value, so that values of different times would be seen."""
        to, turns = os.path.join(self.folder, "to.store"), []
        self.store.put(0, "n", "0")

        def tell(what: str, done: int, total: Optional[int]) -> None:
            if what == "versions copied":
                # a clone, a change in it, its drop, and a change of what it was cloned from
                turns.append(clone := self.other.clone(0))
                self.other.put(clone, "n", str(len(turns)))
                self.other.drop(clone)
                if self.held is not None:
                    self.other.drop(self.held)
                    self.held = None
                self.other.put(0, "n", str(len(turns)))

        for turn in range(5):
            self.held: Optional[int] = self.store.clone(0)
            self.store.put(self.held, "m", "1")
            before = self.store.get(0, "n")
            self.store.backup(to, overwrite=turn > 0, progress=tell)
            with Store(to) as copy:
                self.assertEqual(copy.get(0, "n"), before)
                self.assertEqual(copy.get(copy.stat().versions - 1, "m"), b"1")

    def test_a_version_without_a_scan_is_read_again_where_it_may_have_changed(self) -> None:
        to, copies = os.path.join(self.folder, "to.store"), []
        chain = [self.store.clone(0)]
        for _ in range(3):
            chain.append(self.store.clone(chain[-1]))
        self.store.put(chain[-1], "a", "1")

        def tell(what: str, done: int, total: Optional[int]) -> None:
            if what == "versions copied" and done == 0:
                copies.append(done)
                if len(copies) == 1:
                    self.other.drop(chain[-1])
                    self.other.put(chain[-2], "late", "1")

        with mock.patch("castle.treecopy.SCANS_MOST", 1):  # so that the tip alone has one
            self.store.backup(to, progress=tell)
        self.assertEqual(len(copies), 2)
        with Store(to) as copy:
            self.assertEqual((copy.get(chain[-2], "late"), copy.versions()[chain[-1]]), (b"1", None))

    def test_the_shell_over_a_hub_says_that_where_they_hung_is_not_told(self) -> None:
        self.store.clone(0)
        self.store.clone(1)
        self.store.drop(2)
        self.assertEqual(carried_out(self.store, "tree"), ("0 (here) ─ 1\n1 version dropped; a hub does not tell where they hung\n", "", 0))


class OldFormatTest(StoreCase):
    in_memory = True

    def test_a_store_of_format_1_takes_drops(self) -> None:
        import damaged  # which finds the form of files
        formats = damaged.formats
        head = formats.new_head(4, 1000, 20, form=1)
        with open(self.path, "wb") as file:
            file.write(formats.file_of(0, head, formats.EMPTY, [head.first]))
        plain = Plain()
        with self.opened() as store:
            for parent in (0, 1):
                store.clone(parent)
                plain.clone(parent)
            store.drop(2)
            plain.drop(2)
            plain.expect(self, store)
            self.assertEqual(formats.form_of(self.bytes_of("a.store")), 1)
        with self.opened() as store:
            plain.expect(self, store)
            for number in range(9):
                store.put(1, "a", f"{number}")
            plain.pairs[1][b"a"] = b"8"
            plain.expect(self, store)
        self.assertEqual(formats.form_of(self.bytes_of("a.store")), 2)
        shutil.copy(self.path, self.path + "2")
        with Store(self.path + "2") as store:
            plain.expect(self, store)
