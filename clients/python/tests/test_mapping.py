"""Versions as mappings, held to what Python promises of those."""

import shelve
import unittest
from typing import Any, Callable, Dict, List
from unittest import mock

from support import StoreCase, frames_sent

from castle import VersionView, errors
from castle.program import Program

try:
    from test import mapping_tests
except ImportError:
    mapping_tests = None


class ViewTest(StoreCase):
    def filled(self) -> VersionView:
        view = self.made().at(0)
        view.update({"a": b"0", "a/1": b"1", "a/2": b"", "b/1": b"1", "b": b"2"})
        return view

    def test_what_begins_with_a_prefix_has_no_other_keys(self) -> None:
        view = self.filled()
        keys, items, values = view.keys("a/"), view.items("a/"), view.values("a/")
        self.assertEqual((list(keys), len(keys), list(values)), ([b"a/1", b"a/2"], 2, [b"1", b""]))
        for key, has in (("a/1", True), (b"a/2", True), ("b/1", False), (b"a", False), ("a/3", False), (5, False)):
            self.assertEqual((key in keys, (key, b"1") in items), (has, key == "a/1"))
        self.assertTrue((b"a/2", b"") in items and b"" in values and b"2" not in values and (b"b/1", b"1") not in items)
        self.assertEqual(keys & {b"a/1", b"b/1", b"a"}, {b"a/1"})
        self.assertEqual({b"a/1", b"b/1"} & keys, {b"a/1"})
        self.assertEqual(keys & view.keys("b"), set())
        self.assertEqual(items & {(b"a/1", b"1"), (b"b/1", b"1")}, {(b"a/1", b"1")})
        self.assertEqual((keys | {b"c"}, keys - {b"a/1", b"b"}, keys ^ {b"a/1", b"c"}),
                         ({b"a/1", b"a/2", b"c"}, {b"a/2"}, {b"a/2", b"c"}))
        self.assertEqual((keys.isdisjoint({b"b/1", b"a"}), keys <= {b"a/1", b"a/2", b"b"}, keys == {b"a/1", b"a/2"}), (True,) * 3)

    def test_a_view_of_a_prefix_is_a_mapping_of_its_keys(self) -> None:
        view = self.filled()
        part = VersionView(view.store, 0, "a/")
        self.assertEqual((dict(part), part["a/1"], part.get("b"), "b/1" in part), ({b"a/1": b"1", b"a/2": b""}, b"1", None, False))
        for key in ("b", "b/1", "a", "a/9"):
            with self.assertRaises(KeyError):
                part[key]
            with self.assertRaises(KeyError):
                del part[key]
        with self.assertRaises(KeyError):
            part["b"] = b"9"
        part["a/3"] = b"3"
        self.assertEqual((list(part.keys()), list(part.items("a/3")), list(part.values("a"))),
                         ([b"a/1", b"a/2", b"a/3"], [(b"a/3", b"3")], [b"1", b"", b"3"]))
        with self.assertRaises(ValueError):
            part.keys("b")
        part.clear()
        self.assertEqual(dict(view), {b"a": b"0", b"b": b"2", b"b/1": b"1"})

    def test_a_key_with_an_empty_value_is_in_a_mapping(self) -> None:
        view = self.made().at(0)
        view["k"] = b""
        self.assertEqual((b"k" in view, "k" in view.keys(), view["k"], view.get("k"), len(view), view.pop("k"), "k" in view),
                         (True, True, b"", b"", 1, b"", False))

    def test_what_is_no_prefix_is_refused_at_the_call(self) -> None:
        view = self.filled()
        for call in (view.keys, view.items, view.values):
            for prefix in (None, 5, ["a"]):
                with self.assertRaises(TypeError):
                    call(prefix)
        with self.assertRaises(errors.TextFault):
            view["\ud800"] = b""


class CostTest(StoreCase):
    """What the doors of a mapping cost, in frames that reach the program."""

    in_memory = True
    pairs = {f"k{number:03}".encode(): f"v{number}".encode() for number in range(600)}
    scan = {"scan of version": 1, "next pairs of cursor": 3, "close cursor": 1}

    def filled(self, pairs: Dict[bytes, bytes]) -> VersionView:
        """A version with these pairs."""
        view = self.made(64, 100000, 10).at(0)
        view.update(pairs)
        return view

    def cost(self, view: VersionView, call: Callable[[], object]) -> Dict[str, int]:
        """The frames of a call."""
        with frames_sent(view.store) as counts:
            call()
        return counts

    def test_what_has_all_pairs_is_one_scan(self) -> None:
        view = self.filled(self.pairs)
        for call in (lambda: dict(view), lambda: {**view}, view.copy, lambda: dict(view.items()), lambda: {**{b"a": b""}, **view}):
            found: List[object] = []
            self.assertEqual(self.cost(view, lambda: found.append(call())), self.scan)
            self.assertEqual({key: value for key, value in found[0].items() if key != b"a"}, self.pairs)  # type: ignore[attr-defined]
        for call, want in ((lambda: list(reversed(view)), list(reversed(self.pairs))), (lambda: set(view), set(self.pairs)),
                           (lambda: list(reversed(view.values())), list(self.pairs.values())[::-1]),
                           (lambda: list(reversed(view.items())), list(self.pairs.items())[::-1]),
                           (lambda: list(reversed(view.keys())), list(self.pairs)[::-1]), (lambda: len(view), 600),
                           (lambda: len(view.keys()), 600), (lambda: [view[key] for key in view], list(self.pairs.values())),
                           (lambda: [view[key] for key in view.keys()], list(self.pairs.values())), (lambda: view == self.pairs, True),
                           (lambda: b"v599" in view.values(), True)):
            results: List[object] = []
            self.assertEqual(self.cost(view, lambda: results.append(call())), self.scan)
            self.assertEqual(results, [want])

    def test_whether_there_is_a_pair_is_one_page(self) -> None:
        view = self.filled(self.pairs)
        for part, has in ((view, True), (view.keys(), True), (view.items(), True), (view.values("k1"), True), (view.keys("z"), False),
                          (VersionView(view.store, 0, "k59"), True), (VersionView(view.store, 0, "z"), False)):
            results: List[bool] = []
            self.assertEqual(self.cost(view, lambda: results.append(bool(part))), {"page of version": 1})
            self.assertEqual(results, [has])

    def test_a_single_key_is_one_command(self) -> None:
        view = self.filled(self.pairs)
        for call, want in ((lambda: view.get("k007"), b"v7"), (lambda: view.get("none"), None), (lambda: view.get("none", 5), 5),
                           (lambda: view["k007"], b"v7"), (lambda: "k007" in view, True), (lambda: (b"k007", b"v7") in view.items(), True)):
            results: List[object] = []
            self.assertEqual(self.cost(view, lambda: results.append(call())), {"get": 1})
            self.assertEqual(results, [want])
        self.assertEqual(self.cost(view, lambda: self.assertEqual(view.pop("k007"), b"v7")), {"get": 1, "delete": 1})
        self.assertEqual(self.cost(view, lambda: self.assertEqual(view.pop("k007", None), None)), {"get": 1})
        self.assertEqual(self.cost(view, lambda: self.assertEqual(view.popitem(), (b"k000", b"v0"))), {"page of version": 1, "delete": 1})
        part = VersionView(view.store, 0, "z")
        for wrong in (part.popitem, lambda: part.pop("k001"), lambda: view.pop("k007"), lambda: part.pop("z")):
            with self.assertRaises(KeyError):
                wrong()
        with self.assertRaises(TypeError):
            view.pop("k001", 1, 2)

    def test_an_update_is_one_batch(self) -> None:
        view = self.filled({})
        written: List[int] = []
        write = Program._write

        def noted(program: Program) -> int:
            written.append(1)
            return write(program)

        with mock.patch.object(Program, "_write", noted):
            self.assertEqual(self.cost(view, lambda: view.update(self.pairs, more=b"1")), {"put": 601})
        self.assertLess(len(written), 5)  # and 601 where each is waited for
        self.assertEqual(view.copy(), {**self.pairs, b"more": b"1"})
        other = view.store.at(view.store.clone(0))
        self.assertEqual(self.cost(view, lambda: other.update(view)), {**self.scan, "put": 601})
        other.update([("a", b"1"), (b"b", "2")], c="3")
        other.update(shelve.Shelf({"d": b"4"}).dict)
        other.update()
        self.assertEqual([other[key] for key in "abcd"], [b"1", b"2", b"3", b"4"])

    def test_an_update_that_ends_early_has_put_what_came_before(self) -> None:
        view = self.filled({})
        part = VersionView(view.store, 0, "a/")
        for wrong, kind in (([("a/1", b"1"), ("b", b"2"), ("a/3", b"3")], KeyError), ([("a/2", b"1"), ("x",)], ValueError),
                            ([("a/4", b"1"), (5, b"")], TypeError)):
            with self.assertRaises(kind):
                part.update(wrong)  # type: ignore[arg-type]
        with self.assertRaises(errors.ValueSize):
            part.update({"a/5": b"v" * 1025, "a/6": b"1"})
        self.assertEqual(list(view), [b"a/1", b"a/2", b"a/4", b"a/6"])

    def test_values_are_those_of_the_moment_of_the_get(self) -> None:
        view = self.filled({b"a": b"1", b"b": b"1", b"c": b"1"})
        store, seen = view.store, []
        for key in view.keys():
            if key == b"a":
                store.put(0, "b", "2")
                store.put(0, "a", "3")
                store.delete(0, "c")
            seen.append((key, view.get(key)))
        self.assertEqual(seen, [(b"a", b"3"), (b"b", b"2"), (b"c", None)])
        keys = list(view.keys())
        with store.batch() as batch:
            batch.put(0, "a", "4")
            self.assertEqual([view[key] for key in keys], [b"4", b"2"])
        keys = list(view.keys())
        self.assertEqual((view["b"], view["a"], view["b"]), (b"2", b"4", b"2"))
        keys = list(view.keys())
        with mock.patch.object(Program, "is_alone", False):  # as over a hub, where others change the store
            self.assertEqual(self.cost(view, lambda: [view[key] for key in keys])["get"], 2)
        keys = list(view.keys())
        store.close()
        with self.assertRaises(errors.StoreClosed):
            view[keys[0]]

    def test_a_version_of_many_bytes_is_read_on_page_by_page(self) -> None:
        view = self.filled(self.pairs)
        with mock.patch("castle.view.KEPT", 20000):
            found: List[object] = []
            counts = self.cost(view, lambda: found.append(dict(view)))
        self.assertEqual(found, [self.pairs])
        self.assertEqual(counts, {**self.scan, "page of version": 2})  # 96 pairs are kept, and a page has 256

    def test_an_iteration_that_nobody_has_leaves_no_cursor(self) -> None:
        view = self.filled(self.pairs)
        next(iter(view))
        for key in view.keys():
            break
        self.assertEqual(view.store.stat().cursors, 0)


class ProtocolTest(StoreCase):
    """CPython's own tests of mappings, where this Python has them."""

    in_memory = True

    def passes(self, reference: Dict[Any, Any], make: Callable[[VersionView], Any]) -> None:
        """What is made of an empty version is a mapping."""
        if mapping_tests is None:
            self.skipTest("this Python has no tests of its own")
        store = self.made(64, 10000, 1000)

        class Tried(mapping_tests.BasicTestMappingProtocol):  # type: ignore[misc]
            def _reference(self) -> Dict[Any, Any]:
                return reference

            def _empty_mapping(self) -> Any:
                return make(store.at(store.clone(0)))

        result = unittest.TestResult()
        unittest.defaultTestLoader.loadTestsFromTestCase(Tried).run(result)
        self.assertEqual([trace for _, trace in result.failures + result.errors], [])
        self.assertGreaterEqual(result.testsRun, 14)

    def test_a_version_passes_the_tests_of_mappings(self) -> None:
        self.passes({b"1": b"2", b"key1": b"value1", b"key2": b""}, lambda view: view)

    def test_a_shelf_over_a_version_passes_the_tests_of_mappings(self) -> None:
        self.passes({"1": "2", "key1": "value1", "key2": (1, 2, 3)}, shelve.Shelf)
