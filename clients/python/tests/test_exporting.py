"""Exports into files and imports into stores that are in use: what comes is what was there, and what is refused is told."""

from __future__ import annotations

import os
import random
import unittest
from typing import Dict, Optional
from unittest import mock

from session import carried_out
from support import StoreCase, Threads

import castle
from castle import Store, errors, exporting, exports, frames, keeping
from castle.storecopy import Progress
from castle.terminal import Interrupts

Pairs = Dict[bytes, bytes]


def drawn(chance: random.Random, count: int) -> Pairs:
    """Pairs of any bytes."""
    return {chance.randbytes(chance.choice((1, 2, 3, 255))): chance.randbytes(chance.choice((0, 1, 9, 1024))) for _ in range(count)}


def exported(pairs: Pairs) -> bytes:
    """The frames of pairs."""
    return b"".join(exports.frames_of(sorted(pairs.items())))


class ExportingCase(StoreCase):
    in_memory = True

    def setUp(self) -> None:
        super().setUp()
        self.file = os.path.join(self.folder, "export")

    def filled(self, pairs: Pairs) -> Store:
        """A store with these pairs at version 0 and a clone of it."""
        store = self.made(8, 100000, 10)
        store.at(0).update(pairs)
        store.clone(0)
        return store

    def wrote(self, data: bytes) -> None:
        """Has the file have these bytes."""
        with open(self.file, "wb") as file:
            file.write(data)


class ExportTest(ExportingCase):
    def test_an_open_store_and_the_program_write_the_same(self) -> None:
        pairs = drawn(random.Random(60), 400)
        with self.filled(pairs) as store:
            store.put(1, "later", "1")
            store.export(0, self.file)
            self.assertEqual(self.bytes_of("export"), exported(pairs))
            store.names["tried"] = 1
            store.export("tried", self.file)
            self.assertEqual(self.bytes_of("export"), exported({**pairs, b"later": b"1"}))
            self.assertRaises(errors.UnknownVersion, store.export, 7, self.file)
            for other in (self.path, self.path + ".names"):
                self.assertRaises(errors.CastleError, store.export, 0, other)
        seen = []
        castle.export(self.path, 0, self.file, progress=lambda *words: seen.append(words))
        self.assertEqual(self.bytes_of("export"), exported(pairs))
        self.assertEqual((len(seen) > 0, seen[-1]), (True, ("bytes written", len(exported(pairs)), None)))

    def test_an_export_that_fails_or_is_stopped_leaves_what_was_there(self) -> None:
        self.filled(drawn(random.Random(61), 600)).close()
        self.wrote(b"before")

        def stop(what: str, done: int, total: Optional[int]) -> None:
            raise KeyboardInterrupt

        with self.opened() as store:
            self.assertRaises(KeyboardInterrupt, store.export, 0, self.file, progress=stop)
            self.assertRaises(errors.StoreLocked, castle.export, self.path, 0, self.file)
        for version in 7, -1, 2 ** 32:
            self.assertRaises(errors.Ended, castle.export, self.path, version, self.file)
        self.assertRaises(KeyboardInterrupt, castle.export, self.path, 0, self.file, progress=stop)
        self.assertEqual(self.bytes_of("export"), b"before")
        self.opened().close()

    def test_a_prefix_is_not_told_as_whole(self) -> None:
        self.damaged().close()
        self.wrote(b"before")
        self.assertRaises(errors.StoreDamaged, castle.export, self.path, 0, self.file)
        with self.assertRaises((errors.Damaged, errors.StoreDamaged)):  # the second where more was asked for when it came
            with self.opened() as store:
                store.export(0, self.file)
        self.assertEqual(self.bytes_of("export"), b"before")

    def test_an_export_is_of_one_time_beside_a_thread_that_writes(self) -> None:
        store = self.made(64, 100000, 10)
        store.at(0).update({b"k%03d" % number: b"0" for number in range(600)})
        stops = []

        def write() -> None:
            turn = 0
            while not stops:
                turn += 1
                for number in range(600):
                    store.put(0, b"k%03d" % number, b"%d" % turn)

        threads = Threads(write)
        for _ in range(3):
            store.export(0, self.file)
            values = [int(value) for _, value in exports.pairs_of([self.bytes_of("export")], "x")]
            self.assertEqual((len(values), values == sorted(values, reverse=True), values[0] - values[-1] in (0, 1)), (600, True, True))
        stops.append(1)
        self.assertEqual(threads.join(), [])


class ImportTest(ExportingCase):
    def test_an_import_takes_an_export_of_any_version_into_any_other(self) -> None:
        pairs = drawn(random.Random(62), 600)
        self.wrote(b"".join(frames.put(chance, 3, key, value) for chance, (key, value) in enumerate(sorted(pairs.items()), 77)))
        with self.filled({b"own": b"1"}) as store:
            seen = []
            found = store.import_from(self.file, 1, progress=lambda *words: seen.append(words))
            self.assertEqual((found, found.is_whole), (castle.Imported(len(pairs), ()), True))
            self.assertEqual(dict(store.scan(1)), {**pairs, b"own": b"1"})
            self.assertEqual(dict(store.scan(0)), {b"own": b"1"})
            self.assertEqual(seen[-1], ("pairs put", len(pairs), len(pairs)))
            self.assertEqual(store.import_from(self.file, 1).pairs, len(pairs))

    def test_what_is_refused_is_told_pair_by_pair(self) -> None:
        pairs = {b"k%03d" % number: b"v" for number in range(300)}
        self.wrote(exported(pairs))
        with self.made(8, 290, 10) as store:
            found = store.import_from(self.file, 0)
            self.assertEqual(found.pairs, 290)
            self.assertEqual([key for key, _ in found.refused], sorted(pairs)[290:])
            self.assertEqual({type(error) for _, error in found.refused}, {errors.ChangeLimit})
            self.assertEqual(dict(store.scan(0)), dict(sorted(pairs.items())[:290]))
            out, said, status = carried_out(store, f"import {self.file}")
            self.assertEqual((out.count("refused: k"), "imported 0 pairs into version 0" in out, status), (300, True, 1))
            self.assertIn("some pairs were refused", said)

    def test_a_version_that_takes_no_changes_is_told_before_anything_is_put(self) -> None:
        self.wrote(exported({b"a": b"1"}))
        with self.filled({}) as store:
            self.assertRaises(errors.Frozen, store.import_from, self.file, 0)
            self.assertRaises(errors.UnknownVersion, store.import_from, self.file, 7)
            self.assertEqual(store.stat().changes, 1)

    def test_a_file_that_is_no_whole_export_changes_nothing(self) -> None:
        one, two = frames.put(1, 0, b"a", b"1"), frames.put(2, 0, b"b", b"2")
        with self.filled({}) as store:
            for wrong, what in ((one + two[:-1], "cut off"), (one + frames.put(2, 4, b"b", b"2"), "of version 4"), (two + one, "not behind"),
                                (one + frames.delete(2, 0, b"b"), "no put"), (one + frames.get(2, 0, b"b"), "no put"), (b"text", "too long")):
                self.wrote(wrong)
                with self.assertRaisesRegex(errors.DumpFault, what):
                    store.import_from(self.file, 1)
                with self.assertRaises(errors.DumpFault):
                    list(exports.pairs_of([wrong], "x"))
            self.assertRaises(errors.CastleError, store.import_from, self.file + ".absent", 1)
            self.assertEqual(dict(store.scan(1)), {})

    def test_an_import_that_is_stopped_says_so_and_goes_on_where_it_is_done_again(self) -> None:
        pairs = {b"k%04d" % number: b"v" for number in range(1000)}
        self.wrote(exported(pairs))
        with self.filled({}) as store:
            def stop(what: str, done: int, total: Optional[int]) -> None:
                if what == "pairs put" and done >= 512:
                    raise KeyboardInterrupt

            self.assertRaises(KeyboardInterrupt, store.import_from, self.file, 1, progress=stop)
            self.assertEqual(len(dict(store.scan(1))), 512)
            self.assertEqual(store.import_from(self.file, 1).pairs, 1000)
            self.assertEqual(dict(store.scan(1)), pairs)

    def test_ctrl_c_in_the_shell_says_what_was_made(self) -> None:
        self.wrote(exported({b"k%04d" % number: b"v" for number in range(1000)}))

        def teller(interrupts: Interrupts, line: object) -> Progress:
            def tell(what: str, done: int, total: Optional[int]) -> None:
                interrupts.count = done >= 512
                interrupts.check()
            return tell

        with self.filled({b"k%04d" % number: b"v" for number in range(600)}) as store, mock.patch.object(keeping, "teller", teller):
            out, said, status = carried_out(store, f"export {self.file}.new @0")
            self.assertEqual((out, said, status), ("", "castle-shell: line 1: stopped; nothing was made\n", 130))
            self.assertFalse(os.path.exists(f"{self.file}.new"))
            with mock.patch.object(exporting, "_pieces", lambda file, progress: exports.pieces_of(file)):
                out, said, status = carried_out(store, f"import {self.file} @1")
            self.assertEqual((out, said.split("; ")[0], status), ("", "castle-shell: line 1: stopped", 130))
            self.assertIn("some of the pairs were put", said)
            self.assertEqual(dict(store.scan(1))[b"k0511"], b"v")

    def test_a_program_that_ends_amid_an_import_says_how_many_were_put(self) -> None:
        self.wrote(exported({b"k%04d" % number: b"v" for number in range(1000)}))
        store = self.filled({})

        def kill(what: str, done: int, total: Optional[int]) -> None:
            if what == "pairs put" and done == 512:
                os.kill(store.pid, 9)

        with self.assertRaisesRegex(errors.Killed, "with 512 pairs imported"):
            store.import_from(self.file, 1, progress=kill)
        self.assertEqual(len(dict(self.opened_again(store).scan(1))), 512)

    def opened_again(self, store: Store) -> Store:
        """The store once more, behind the end of its program."""
        store.__exit__(ValueError, ValueError(), None)
        return self.opened()

    def test_lines_of_the_shell(self) -> None:
        with self.filled({b"a b": b"1", b"c": b"\xff"}) as store:
            self.assertEqual(carried_out(store, "export x @0", "export x @7")[1].count("no version of this number"), 1)
            with mock.patch("os.getcwd"):
                out, said, status = carried_out(store, f"export {self.file} @0", "put c 2 @1", f"import {self.file} @1", "get c @1")
            self.assertEqual((out, said, status), (f"wrote {self.file}\ndone\nimported 2 pairs into version 1\n\\xff\n", "", 0))
            for wrong in ("export", "import", f"import {self.file} 1"):
                self.assertIn("usage:", carried_out(store, wrong)[1])
        os.remove("x") if os.path.exists("x") else None
        self.assertEqual(self.ran(self.path, "--json", "import", self.file, "@1")[0], '{"imported": 2, "version": 1}\n')
        self.assertEqual(self.ran(self.path, "export", self.file, "@1"), (f"wrote {self.file}\n", "", 0))


