"""Salvages: what a damaged store still gives is that of the store before, and what it does not give is told."""

from __future__ import annotations

import contextlib
import io
import itertools
import os
import random
import signal
import unittest
from typing import Any, Dict, List, Optional, Tuple
from unittest import mock

import damaged
from damaged import BLOCK, Whole, formats, with_block
from session import carried_out
from support import StoreCase, Threads, in_child

import castle
from castle import Lost, Salvage, Store, errors, keeping, salvaging, storecopy
from castle.shell import COMMANDS

SEED = 20
COUNT = int(os.environ.get("CASTLE_SALVAGES", "500"))  # stores that are damaged
DAMAGED = COUNT * 3 // 5  # by damaged blocks
ANY = COUNT - DAMAGED  # in any way


def is_in(found: Salvage, version: int, key: bytes) -> bool:
    """Whether a key of a version is told to be lost."""
    return any(version in lost.versions and lost.lower <= key and (lost.upper is None or key < lost.upper) for lost in found.lost)


class SalvageCase(StoreCase):
    in_memory = True

    def setUp(self) -> None:
        super().setUp()
        self.to = os.path.join(self.folder, "to.store")

    def write(self, data: bytes) -> None:
        """Has the store's file have these bytes."""
        with open(self.path, "wb") as file:
            file.write(data)

    def expect_none_left(self, *others: str) -> None:
        """Nothing of a salvage is left in the folder, but for these files. Whoever opened a store has left its lock."""
        left = [name for name in os.listdir(self.folder) if not name.startswith("a.store") and not name.endswith(".lock")]
        self.assertEqual(sorted(left), sorted(others))

    def contents(self, path: str) -> Tuple[List[Optional[int]], List[Optional[Dict[bytes, bytes]]]]:
        """The parents and the pairs of each version; None for those of a dropped one."""
        with Store(path) as store:
            infos, dropped = store.versions(), store.dropped()
            parents = [dropped[version] if info is None else info.parent for version, info in enumerate(infos)]
            return parents, [None if info is None else dict(store.scan(version)) for version, info in enumerate(infos)]

    def expect_true(self, found: Salvage, whole: Whole) -> int:
        """What was salvaged is of this store, and what is missing is told. How many pairs there are."""
        parents, made = self.contents(self.to)
        self.assertEqual(parents, whole.parents)
        self.assertEqual([version for version, table in enumerate(made) if table is None], sorted(whole.dropped))
        tables = [table or {} for table in made]
        for version, (table, before) in enumerate(itertools.zip_longest(tables, whole.tables)):
            for key, value in table.items():
                self.assertEqual(before.get(key), value, (version, key))
            for key in set(before) - set(table):
                self.assertTrue(is_in(found, version, key), (version, key))
        for lost in found.lost:
            there = sum(is_in(found._replace(lost=(lost,)), version, key) for version, table in enumerate(tables) for key in table)
            self.assertEqual(there, lost.found, lost)
            self.assertFalse(set(lost.versions) & whole.dropped, lost)
        self.assertEqual((found.versions, found.dropped), (len(parents), len(whole.dropped)))
        return sum(map(len, tables))


class DamageTest(SalvageCase):
    def salvaged(self, data: bytes, **words: Any) -> Salvage:
        """What is salvaged of these bytes, which stay as they are."""
        self.write(data)
        with contextlib.suppress(FileNotFoundError):
            os.remove(self.to)
        found = castle.salvage(self.path, self.to, **words)
        self.assertEqual(self.bytes_of("a.store"), data)
        self.expect_none_left("to.store")
        self.assertTrue(Store.check(self.to))
        return found

    def test_stores_with_damaged_blocks(self) -> None:
        chance, stores = random.Random(SEED), damaged.stores(SEED)
        given = wanted = 0
        for turn in range(DAMAGED):
            store = stores[turn % len(stores)]
            with self.subTest(turn=turn):
                found = self.salvaged(damaged.with_damaged_blocks(chance, store))
                self.assertTrue(found.blocks and set(found.blocks) <= set(store.blocks))
                self.assertFalse(found.is_whole and found.doubt is None and not found.blocks)
                given += self.expect_true(found, store)
                wanted += sum(map(len, store.tables))
        self.assertGreater(given, wanted // 2)

    def test_stores_that_are_damaged_in_any_way(self) -> None:
        chance, stores = random.Random(SEED + 1), damaged.stores(SEED + 1)
        seen: Dict[str, int] = {}
        for turn in range(ANY):
            store = stores[turn % len(stores)]
            with self.subTest(turn=turn):
                try:
                    self.expect_true(self.salvaged(damaged.damaged(chance, store)), store)
                    kind = "salvaged"
                except (errors.Unreadable, errors.Doubtful, errors.OutOfMemory) as error:
                    kind = type(error).__name__
                    self.expect_none_left()
                seen[kind] = seen.get(kind, 0) + 1
        self.assertLessEqual({"salvaged", "Unreadable", "Doubtful"}, set(seen))

    def test_a_store_without_damage_is_salvaged_whole(self) -> None:
        for store in damaged.stores(SEED + 2):
            found = self.salvaged(store.data)
            self.assertEqual(found[2:], ((), (), None, len(store.dropped)))
            self.assertTrue(found.is_whole)
            tables = [None if version in store.dropped else table for version, table in enumerate(store.tables)]
            self.assertEqual(self.contents(self.to), (store.parents, tables))

    def test_a_middle_block_does_not_keep_the_others_from_being_read(self) -> None:
        entries = [formats.Entry(b"%03d" % number, 0, b"%d" % number) for number in range(90)]
        part = damaged.damages.Part(1, (0,), [entries[at:at + 10] for at in range(0, 90, 10)])
        data = damaged.damages.laid_out([damaged.damages.Stratum(5, 1, [part])], ())
        first = formats.first_free(4)
        found = self.salvaged(with_block(data, first + 4, b""))
        self.assertEqual(found.lost, (Lost(b"039\0", b"050", (0,), 0),))
        self.assertEqual(str(found.lost[0]), r"version 0: keys from 039\x00 to before 050")
        self.assertEqual(self.contents(self.to)[1], [{entry.key: entry.value for entry in entries[:40] + entries[50:]}])
        found = self.salvaged(with_block(with_block(with_block(data, first, b""), first + 5, b""), first + 8, b"\xff"))
        self.assertEqual(found.lost, (Lost(b"", b"010", (0,), 0), Lost(b"049\0", b"060", (0,), 0), Lost(b"079\0", None, (0,), 0)))
        self.assertEqual((found.blocks, found.changes), ((first, first + 5, first + 8), 60))

    def test_superblock_manifest_and_journal_that_do_not_open(self) -> None:
        for store in damaged.stores(SEED + 3)[:2]:
            contents = formats.read(store.data)
            journal = formats.region_start(contents.head.mem, contents.head.region)
            for data in (with_block(with_block(store.data, 0, b""), 1, b""), with_block(store.data, contents.chain[0], b"\xff" * BLOCK),
                         with_block(store.data, journal, b"\xa7\x09")):
                self.write(data)
                with self.assertRaisesRegex(errors.Unreadable, "nothing can be read"):
                    castle.salvage(self.path, self.to)
                self.assertEqual(self.bytes_of("a.store"), data)
                self.expect_none_left()

    def test_a_file_that_breaks_a_rule_is_in_doubt(self) -> None:
        entries = [formats.Entry(b"b", 0, b"1")], [formats.Entry(b"a", 0, b"1")]
        part = damaged.damages.Part(1, (0,), entries)
        data = damaged.damages.laid_out([damaged.damages.Stratum(1, 1, [part])], ())
        self.write(data)
        with self.assertRaisesRegex(errors.Doubtful, r"breaks rule m: unsound m level 1 array 1"):
            castle.salvage(self.path, self.to)
        self.expect_none_left()
        found = self.salvaged(data, doubtful=True)
        self.assertEqual(found.doubt, castle.Unsound("m", 1, 1))
        self.assertFalse(found.is_whole)

    def test_another_level_that_breaks_a_rule_is_in_doubt_too(self) -> None:
        right = damaged.damages.Part(1, (0,), [[formats.Entry(b"a", 0, b"1")], [formats.Entry(b"b", 0, b"1")]])
        wrong = damaged.damages.Part(2, (1,), [[formats.Entry(b"a", 2, b"1"), formats.Entry(b"a", 0, b"1")]])
        strata = [damaged.damages.Stratum(1, 3, [wrong]), damaged.damages.Stratum(2, 1, [right])]
        data = damaged.damages.laid_out(strata, (0, 0), lies={2: {"leads": 1}})
        self.write(with_block(data, formats.read(data).manifest.levels[1].arrays[0].extents[0][0], b""))
        with self.assertRaisesRegex(errors.Doubtful, "level 1 array"):
            castle.salvage(self.path, self.to)

    def test_arrays_of_a_damaged_level_that_do_not_agree_are_in_doubt(self) -> None:
        entry, part = formats.Entry, damaged.damages.Part
        whole = part(1, (0,), [[entry(b"a", 0, b"1"), entry(b"b", 0, b"1")], [entry(b"y", 0, b"1")]])
        own = [entry(key, 1, b"2") for key in (b"c", b"d", b"y", b"z")]
        copy, changed = entry(b"a", 0, b"1"), entry(b"b", 1, b"2")
        for copies, versions, rule in (([copy], (1,), ""), ([entry(b"a", 0, b"other")], (1,), "c"), ([entry(b"a", 0, None)], (1,), "c"),
                                       ([], (1,), "c"), ([copy, entry(b"aa", 0, b"1")], (1,), "c"), ([copy], (2,), "b")):
            entries = [*copies, changed, *own] if versions == (1,) else [entry(key, 2, b"2") for key in (b"a", b"b", b"y")]
            parents = (0, 0) if versions == (2,) else (0,)
            strata = [damaged.damages.Stratum(3, len(parents) + 1, [whole, part(2, versions, [entries])])]
            data = damaged.damages.laid_out(strata, parents)
            data = with_block(data, formats.first_free(4) + 1, b"")
            with self.subTest(entries=entries):
                if rule or versions == (2,):
                    self.write(data)
                    with self.assertRaisesRegex(errors.Doubtful, f"breaks rule {rule}: unsound {rule} level 3"):
                        castle.salvage(self.path, self.to, overwrite=True)
                else:
                    self.assertEqual(self.salvaged(data).lost, (Lost(b"b\0", None, (0,), 0),))

    def test_a_block_that_is_another_array_s_is_in_doubt(self) -> None:
        entry, part = formats.Entry, damaged.damages.Part
        strata = [damaged.damages.Stratum(3, 2, [part(1, (0,), [[entry(b"a", 0, b"1")], [entry(b"b", 0, b"1")]]),
                                                 part(2, (1,), [[entry(b"c", 1, b"1"), entry(b"a", 0, b"1"), entry(b"b", 0, b"1")]])])]
        strata[0].parts[1].blocks[0].sort(key=formats.order)
        data = damaged.damages.laid_out(strata, (0,), lies={2: {"leads": 2}})
        first = formats.first_free(4)
        other = data[(first + 1) * BLOCK:(first + 2) * BLOCK]
        self.write(with_block(with_block(data, first, b""), first + 2, other))
        with self.assertRaisesRegex(errors.Doubtful, "breaks rule k: unsound k level 3 array 2"):
            castle.salvage(self.path, self.to)

    def test_a_child_that_alone_lost_what_it_has_of_its_parent_takes_more_changes(self) -> None:
        leads = [formats.Entry(b"%02d" % number, 0, b"") for number in range(40)]
        parts = [damaged.damages.Part(1, (0,), [leads]), damaged.damages.Part(
            2, (1,), [sorted(leads[:20] + [formats.Entry(b"x%02d" % number, 1, b"") for number in range(40)], key=formats.order)])]
        head = damaged.damages.formats.new_head(4, 82, 10)._replace(generation=2, region=1)
        part = parts[1]._replace(blocks=[leads, [formats.Entry(b"x%02d" % number, 1, b"") for number in range(40)]])
        data = damaged.damages.laid_out([damaged.damages.Stratum(5, 2, [parts[0], part])], (0,), head=head)
        block = formats.read(data).manifest.levels[0].arrays[1].extents[0][0]
        found = self.salvaged(with_block(data, block, b""))
        self.assertEqual((found.changes, len(found.lost)), (40 + 80, 1))
        self.assertEqual(found.lost[0][2:], ((1,), 0))
        with Store(self.to) as store:
            self.assertEqual((store.levels().changes_max, len(store.at(0)), len(store.at(1))), (salvaging.CHANGES_MOST, 40, 40))


    def test_dropped_versions_stay_dropped_and_lose_nothing(self) -> None:
        entry, part, stratum = formats.Entry, damaged.damages.Part, damaged.damages.Stratum
        whole = part(1, (0,), [[entry(b"a", 0, b"1")]])
        own = part(2, (1, 2), [[entry(b"a", 0, b"1"), entry(b"b", 1, b"2")], [entry(b"c", 2, b"3")]])
        first, put = formats.first_free(4), (formats.PUT, 0, b"z", b"9")
        drops: List[Any] = [(formats.DROP, 2), (formats.DROP, 1)]
        for marks, journal in (((0, 1, 1, 0), []), ((0, 0, 1, 0), drops[1:]), ((), drops), ((0, 1, 1, 1), [put])):
            data = damaged.damages.laid_out([stratum(1, 4, [whole, own, part(3, (3,), [[entry(b"a", 0, b"1"), entry(b"d", 3, b"4")]])])], (0, 1, 0),
                                            journal, marks=marks)
            gone = {1: 0, 2: 1, 3: 0} if sum(marks) == 3 else {1: 0, 2: 1}
            pairs = {b"a": b"1", b"z": b"9"} if journal == [put] else {b"a": b"1"}
            want = [pairs, None, None, None if 3 in gone else {b"a": b"1", b"d": b"4"}]
            for blocks in ((), (first + 1,), (first + 1, first + 2)):
                broken = data
                for block in blocks:
                    broken = with_block(broken, block, b"")
                with self.subTest(marks=marks, blocks=blocks):
                    found = self.salvaged(broken)
                    self.assertEqual((found.versions, found.dropped, found.lost, found.is_whole, found.blocks), (4, len(gone), (), True, blocks))
                    self.assertEqual(self.contents(self.to), ([None, 0, 1, 0], want))
                    with Store(self.to) as store:
                        self.assertEqual(store.dropped(), gone)
            found = self.salvaged(with_block(data, first, b""))
            self.assertEqual([lost.versions for lost in found.lost], [(0,)])

    def test_a_salvage_tells_how_many_versions_are_dropped(self) -> None:
        with self.made() as store:
            store.drop(store.clone(0))
            store.drop(store.clone(0))
            told = carried_out(store, f"salvage {self.to}")
        self.assertEqual(told, (f"wrote {self.to}: 3 versions, of which 2 are dropped, 0 updates\nnothing is lost\n", "", 0))


class OwnerTest(SalvageCase):
    """Who owns what, whatever comes amid a salvage."""

    def damaged(self) -> Store:
        with super().damaged() as store:
            self.data = self.bytes_of("a.store")
            store.names.assign({"first": 0}, {"first": "What was"})
            self.names = self.bytes_of("a.store.names")
        return store

    def expect_salvaged(self, found: Salvage) -> None:
        self.assertEqual(found, Salvage(1, 1, (7,), (Lost(b"", None, (0,), 1),), None))
        self.assertEqual(self.contents(self.to), ([None], [{b"k13": b""}]))
        self.assertEqual(self.bytes_of("to.store.names"), self.names)

    def test_a_file_and_an_open_store(self) -> None:
        self.damaged()
        self.expect_salvaged(castle.salvage(self.path, self.to))
        self.assertEqual(self.bytes_of("a.store"), self.data)
        with self.opened() as store:
            with self.assertRaises(errors.StoreLocked):
                castle.salvage(self.path, self.to, overwrite=True)
            with self.assertRaises(errors.StoreExists):
                store.salvage(self.to)
            self.expect_salvaged(store.salvage(self.to, overwrite=True))
            self.assertEqual(store.get(0, "k13"), b"")
            os.rename(self.path, self.path + "2")
            with self.assertRaises(errors.StoreMoved):
                store.salvage(self.to, overwrite=True)

    def test_a_file_that_is_there_stays(self) -> None:
        self.damaged()
        for name in ("to.store", "to.store.names"):
            path = self.written(name, "mine")
            with self.assertRaises(errors.StoreExists):
                castle.salvage(self.path, self.to)
            self.assertEqual(self.bytes_of(name), b"mine")
            self.expect_none_left(name)
            os.remove(path)
        for name in ("a.store", "a.store.names", "a.store.lock", "b.store.names"):
            if name.startswith("b"):
                os.link(self.path, os.path.join(self.folder, "b.store"))
            with self.assertRaisesRegex(errors.StoreExists, "the file (is the|belongs to)"):
                castle.salvage(self.path, os.path.join(self.folder, name), overwrite=True)
        with self.assertRaisesRegex(errors.StoreExists, "the file is the store itself"):
            castle.salvage(self.path, os.path.join(self.folder, "b.store"), overwrite=True)
        with self.assertRaisesRegex(errors.StoreExists, "is a folder"):
            castle.salvage(self.path, self.folder)
        with self.assertRaisesRegex(errors.StoreMissing, "no folder"):
            castle.salvage(self.path, os.path.join(self.folder, "none", "x"))
        self.assertEqual(self.bytes_of("a.store"), self.data)

    def test_an_open_store_is_not_overwritten(self) -> None:
        self.damaged()
        Store.format(self.to, 4, 10, 1)
        with Store(self.to) as other:
            with self.assertRaises(errors.StoreLocked):
                castle.salvage(self.path, self.to, overwrite=True)
            other.put(0, "a", "1")
        self.assertEqual(self.contents(self.to)[1], [{b"a": b"1"}])

    def test_whatever_ends_it_leaves_nothing(self) -> None:
        self.damaged()
        steps: List[str] = []
        castle.salvage(self.path, self.to, progress=lambda what, done, total: steps.append(what))
        os.remove(self.to)
        os.remove(self.to + ".names")
        self.assertGreater(len(steps), 4)
        for number in range(len(steps)):
            for kind in (KeyboardInterrupt, OSError, ValueError):
                left = iter(range(number))

                def tell(what: str, done: int, total: Optional[int]) -> None:
                    if next(left, None) is None:
                        raise kind(28, "No space left on device")

                with self.assertRaises(errors.CastleError if kind is OSError else kind):
                    castle.salvage(self.path, self.to, progress=tell)
                self.expect_none_left()
        with self.opened():  # and the file is free
            pass

    def test_a_name_that_is_taken_meanwhile_stays_the_others(self) -> None:
        self.damaged()

        def tell(what: str, done: int, total: Optional[int]) -> None:
            if what == "checking the new store":
                self.written("to.store", "mine")

        with self.assertRaises(errors.StoreExists):
            castle.salvage(self.path, self.to, progress=tell)
        self.assertEqual(self.bytes_of("to.store"), b"mine")
        self.expect_none_left("to.store")

    def test_a_child_of_the_process_takes_nothing_away(self) -> None:
        self.damaged()
        pids: List[int] = []

        def tell(what: str, done: int, total: Optional[int]) -> None:
            if what == "checking the new store" and not pids:
                pids.append(in_child(self.leave))
                self.assertEqual(os.waitstatus_to_exitcode(os.waitpid(pids[0], 0)[1]), 0)

        with mock.patch.object(storecopy.Place, "__exit__", autospec=True, side_effect=storecopy.Place.__exit__) as ended:
            self.expect_salvaged(castle.salvage(self.path, self.to, progress=tell))
        self.assertEqual((len(pids), ended.call_count), (1, 1))

    def leave(self) -> None:
        """Ends every place of this process, which is a child."""
        import gc
        for place in [it for it in gc.get_objects() if isinstance(it, storecopy.Place)]:
            place.__exit__(None, None, None)
            with self.assertRaises(errors.Forked):
                place.take()

    def test_two_threads_do_not_make_one_store(self) -> None:
        self.damaged()
        ends: List[str] = []

        def run() -> None:
            try:
                castle.salvage(self.path, self.to)
                ends.append("made")
            except (errors.StoreLocked, errors.StoreExists):
                ends.append("refused")

        self.assertEqual(Threads(run, run, run).join(), [])
        self.assertEqual(sorted(ends), ["made", "refused", "refused"])
        self.assertEqual(self.contents(self.to)[1], [{b"k13": b""}])
        self.expect_none_left("to.store", "to.store.names")

    def test_a_kill_leaves_no_store_under_its_name(self) -> None:
        self.damaged()
        code = "castle.salvage(sys.argv[1], sys.argv[2], progress=lambda what, *_: what.startswith('versions') and os.kill(os.getpid(), 9))"
        self.assertEqual(self.python(code, self.to).returncode, -signal.SIGKILL)
        self.assertFalse(os.path.exists(self.to))
        self.expect_salvaged(castle.salvage(self.path, self.to))

    def test_permissions_are_those_of_the_store(self) -> None:
        self.damaged()
        os.chmod(self.path, 0o640)
        castle.salvage(self.path, self.to)
        self.assertEqual(os.stat(self.to).st_mode & 0o777, 0o640)


class ShellTest(SalvageCase):
    TEXT = "damaged: block 7\nlost: version 0: keys from the first to the last, but for 1 pair\n"

    def test_one_command(self) -> None:
        self.damaged().close()
        self.assertEqual(self.ran(self.path, "salvage", "to.store"),
                         (f"wrote to.store: 1 version, 1 update\n{self.TEXT}", "", 1))
        out, said, status = self.ran(self.path, "salvage", "to.store")
        self.assertEqual((out, status), ("", 2))
        self.assertRegex(said, "to.store: a castle store is there already")
        out, said, status = self.ran("--json", self.path, "salvage", "--overwrite", "to.store")
        self.assertEqual((out.splitlines(), said, status), ([
            '{"wrote": "to.store", "versions": 1, "dropped": 0, "changes": 1, "damaged": [7], "whole": false}',
            '{"lost": [0], "from": "", "before": null, "found": 1}'], "", 1))
        self.assertEqual(self.ran(self.to, "salvage", "again.store"), ("wrote again.store: 1 version, 1 update\nnothing is lost\n", "", 0))

    def test_what_can_not_be_read_has_a_status_of_its_own(self) -> None:
        self.made().close()
        self.write(b"\0" * 40 * BLOCK)
        out, said, status = self.ran(self.path, "salvage", "to.store")
        self.assertEqual((out, status), ("", 3))
        self.assertRegex(said, "castle-shell: .*a.store: nothing can be read: the file is no store")

    def test_a_script_and_a_prompt(self) -> None:
        with self.damaged() as store:
            out, said, status = carried_out(store, f"salvage {self.to}", "get k13")
            self.assertEqual((out, status), (f"wrote {self.to}: 1 version, 1 update\n{self.TEXT}", 1))
            self.assertRegex(said, "line 1: .*something is lost or in doubt")
            self.assertEqual(carried_out(store, "salvage x @0")[2], 1)
        with Store(self.to) as store:
            to = os.path.join(self.folder, "b.store")
            self.assertEqual(carried_out(store, f"salvage {to}"), (f"wrote {to}: 1 version, 1 update\nnothing is lost\n", "", 0))

    def test_wrong_words(self) -> None:
        self.made().close()
        for words in ((), ("a", "b"), ("--over", "a"), ("--overwrite",)):
            out, said, status = self.ran(self.path, "salvage", *words)
            self.assertEqual((out, status), ("", 2))
            self.assertRegex(said, "usage: salvage|no option --over")
        self.assertEqual(self.ran("none.store", "salvage", "b.store")[2], 2)

    def test_ctrl_c_leaves_nothing(self) -> None:
        self.damaged().close()
        copied = storecopy._copy_piece

        def interrupted(*words: Any) -> None:
            copied(*words)
            os.kill(os.getpid(), signal.SIGINT)

        for name in ("salvage", "backup"):
            said = io.StringIO()
            with mock.patch.object(storecopy, "_copy_piece", interrupted), contextlib.redirect_stderr(said):
                status = keeping.alone(COMMANDS[name], self.path, [name, self.to], False)
            self.assertEqual((status, said.getvalue()), (130, "castle-shell: stopped; nothing was made\n"))
            self.expect_none_left()


if __name__ == "__main__":
    unittest.main()
