"""Whole stores as text: what is loaded is what was dumped, under the same numbers, and nothing that is cut off is loaded."""

import os
import random
import signal
import subprocess
import sys
import threading
from datetime import datetime, timezone
from typing import Callable, Dict, Iterator, List, Optional, Set, Tuple
from unittest import mock

from session import carried_out, carried_out_amid
from support import DEADLINE, SHELL, StoreCase, Threads

from castle import Counts, Name, Store, errors, storetext
from castle.text import unescaped

Pairs = Dict[bytes, bytes]
WHEN = datetime(2026, 11, 29, 12, 0, 1, tzinfo=timezone.utc)
SMALL = ("# castle store 1, a.store\nversion\t0\nname\tbase\n+\ta\t1\n+\tb\t2\nversion\t1\t0\n"
         "name\tnext\t2026-11-29T12:00:01Z\tTo come\nname\tother\t2026-11-29T12:00:01Z\n-\ta\n+\tb\t3\n+\tc\t\nversion\t2\t0\n"
         "# end, 3 versions, 3 names, 5 changes\n")


class Model:
    """A store as dictionaries."""

    def __init__(self) -> None:
        self.versions: List[Pairs] = [{}]
        self.parents: List[Optional[int]] = [None]
        self.dropped: Set[int] = set()
        self.names: Dict[str, Name] = {}

    def expect(self, case: StoreCase, store: Store) -> None:
        """The store has just this."""
        case.assertEqual([info and info.parent for info in store.versions()],
                         [None if version in self.dropped else parent for version, parent in enumerate(self.parents)])
        case.assertEqual(store.dropped(), {version: self.parents[version] for version in sorted(self.dropped)})
        for version, pairs in enumerate(self.versions):
            if version not in self.dropped:
                case.assertEqual(list(store.scan(version)), sorted(pairs.items()), version)
        case.assertEqual({name: store.names.about(name) for name in store.names}, self.names)


def read(text: str) -> Model:
    """What a dump says, as docs/CLIENT.md describes it."""
    model = Model()
    model.versions.clear()
    model.parents.clear()
    first, *lines, last, end = text.split("\n")
    changes, has_drops = 0, any(line.startswith("dropped\t") for line in lines)
    assert first.startswith(f"# castle store {2 if has_drops else 1}, ") and end == "", first
    for line in lines:
        kind, *words = line.split("\t")
        if kind in ("version", "dropped"):
            if kind == "dropped":
                model.dropped.add(int(words[0]))
            parent = int(words[1]) if words[1:] else None
            assert int(words[0]) == len(model.versions)
            model.versions.append({} if parent is None else dict(model.versions[parent]))
            model.parents.append(parent)
        elif kind == "name":
            name, time, description = [*words, *["-", ""][len(words) - 1:]]
            when = None if time == "-" else datetime.strptime(time, "%Y-%m-%dT%H:%M:%SZ").replace(tzinfo=timezone.utc)
            model.names[name] = Name(len(model.versions) - 1, when, unescaped(description).decode("utf-8", "surrogateescape"))
        elif kind == "+":
            model.versions[-1][unescaped(words[0])] = unescaped(words[1])
            changes += 1
        else:
            assert kind == "-", line
            del model.versions[-1][unescaped(words[0])]
            changes += 1
    counts = [f"{count} {noun}{'' if count == 1 else 's'}"
              for count, noun in ((len(model.versions), "version"), (len(model.names), "name"), (changes, "change"))]
    assert last == f"# end, {', '.join(counts)}", last
    return model


class BackupCase(StoreCase):
    in_memory = True

    def setUp(self) -> None:
        super().setUp()
        self.other = os.path.join(self.folder, "b.store")

    def fresh(self, changes: int = 1000, versions: int = 10) -> Store:
        """Another new store, open until the test ends."""
        Store.format(self.other, 64, changes, versions, overwrite=True)
        store = Store(self.other)
        self.addCleanup(lambda: store.__exit__(ValueError, ValueError(), None))
        return store

    def small(self) -> Store:
        """The store of which SMALL is the dump."""
        store = self.made()
        store.at(0).update(a=b"1", b=b"2")
        store.clone(0)
        store.clone(0)
        store.delete(1, "a")
        store.at(1).update(b=b"3", c=b"")
        store.names.restore({"base": Name(0), "next": Name(1, WHEN, "To come"), "other": Name(1, WHEN)})
        return store

    def expect_fresh(self, store: Store) -> None:
        """Nothing was changed in this store."""
        self.assertEqual((store.stat()[:3], dict(store.names)), ((1, 0, 0), {}))


class DumpTest(BackupCase):
    def test_a_store_is_dumped_as_documented(self) -> None:
        store = self.small()
        self.assertEqual(carried_out(store, "dump --all"), (SMALL, "", 0))
        self.assertEqual(carried_out(store, f"dump --all {self.folder}/a.dump")[0], f"wrote {self.folder}/a.dump\n")
        self.assertEqual(self.bytes_of("a.dump").decode(), SMALL)
        store.dump_all(os.path.join(self.folder, "b.dump"))
        self.assertEqual(self.bytes_of("b.dump").decode(), SMALL)

    def test_a_fresh_store_is_dumped_and_loaded(self) -> None:
        store = self.made()
        text = "# castle store 1, a.store\nversion\t0\n# end, 1 version, 0 names, 0 changes\n"
        self.assertEqual(carried_out(store, "dump --all")[0], text)
        other = self.fresh()
        self.assertEqual(other.load_all(self.written("a.dump", text)), Counts(1, 0, 0))
        self.expect_fresh(other)

    def test_a_dump_is_loaded_under_the_same_numbers(self) -> None:
        other = self.fresh()
        self.written("a.dump", SMALL)
        self.assertEqual(carried_out(other, f"load --all {self.folder}/a.dump"), ("loaded 3 versions, 3 names, 5 changes\n", "", 0))
        read(SMALL).expect(self, other)
        self.assertEqual(carried_out(other, "dump --all")[0], SMALL.replace("a.store", "b.store"))
        self.assertEqual(other.stat()[:3], (3, 5, 7))

    def test_dropped_versions_have_lines_of_their_own_and_are_dropped_where_they_are_loaded(self) -> None:
        store = self.small()
        store.clone(store.clone(1))
        store.drop(4)
        store.drop(2)
        text = SMALL.replace("store 1", "store 2").replace("version\t2\t0\n", "dropped\t2\t0\nversion\t3\t1\ndropped\t4\t3\n").replace("3 v", "5 v")
        self.assertEqual(carried_out(store, "dump --all"), (text, "", 0))
        store.drop(3)
        store.drop(1)
        gone = ("# castle store 2, a.store\nversion\t0\nname\tbase\n+\ta\t1\n+\tb\t2\ndropped\t1\t0\ndropped\t2\t0\ndropped\t3\t1\n"
                "dropped\t4\t3\n# end, 5 versions, 1 name, 2 changes\n")
        self.assertEqual(carried_out(store, "dump --all"), (gone, "", 0))
        for dump, told, counts in ((text, "5 versions, 3 names, 5 changes", (5, 5, 11)), (gone, "5 versions, 1 name, 2 changes", (5, 2, 10))):
            with self.fresh() as other:
                self.written("a.dump", dump)
                self.assertEqual(carried_out(other, f"load --all {self.folder}/a.dump"), (f"loaded {told}\n", "", 0))
                read(dump).expect(self, other)
                self.assertEqual((other.stat()[:3], carried_out(other, "dump --all")[0]), (counts, dump.replace("a.store", "b.store")))
        with self.fresh(9, 5) as other, self.assertRaisesRegex(errors.ChangeLimit, "it takes 10 changes, and the store has room for 9"):
            other.load_all(self.written("a.dump", gone))
        for old, new, what in (("store 2", "store 1", "line 6 is neither a version, nor a name of it, nor a change in it"),
                               ("dropped\t1\t0\n", "dropped\t1\t0\n+\ta\t1\n", "line 7 is neither"),
                               ("dropped\t1\t0\n", "dropped\t1\t0\nname\tx\n", "line 7 is neither"),
                               ("dropped\t3\t1", "version\t3\t1", "line 8 has a parent that was dropped"),
                               ("dropped\t2\t0", "dropped\t2", "line 7 is neither"), ("dropped\t2\t0", "dropped\t3\t0", "line 7 is not that of version 2"),
                               ("dropped\t2\t0", "dropped\t2\t2", "line 7 has a parent that is no version before 2"),
                               ("version\t0", "dropped\t0\t0", "line 2 is neither")):
            with self.fresh() as other, self.assertRaisesRegex(errors.DumpFault, what):
                other.load_all(self.written("a.dump", gone.replace(old, new)))
            self.expect_fresh_file()

    def expect_fresh_file(self) -> None:
        with Store(self.other) as other:
            self.expect_fresh(other)

    def test_a_dump_is_piped_from_one_store_into_another(self) -> None:
        self.small().close()
        self.fresh().close()
        os.mkfifo(os.path.join(self.folder, "pipe"))
        loads = subprocess.Popen([sys.executable, SHELL, self.other], stdin=subprocess.PIPE, stdout=subprocess.PIPE, cwd=self.folder)
        with loads, open(os.path.join(self.folder, "script"), "w+", encoding="utf-8") as script:
            script.write("dump --all\n")
            script.seek(0)
            assert loads.stdin
            loads.stdin.write(b"load --all pipe\n")
            loads.stdin.close()
            with open(os.path.join(self.folder, "pipe"), "wb") as pipe:
                ran = subprocess.run([sys.executable, SHELL, self.path], stdin=script, stdout=pipe, stderr=subprocess.PIPE, timeout=DEADLINE)
            self.assertEqual((ran.returncode, ran.stderr), (0, b""))
            assert loads.stdout
            self.assertEqual((loads.stdout.read(), loads.wait(DEADLINE)), (b"loaded 3 versions, 3 names, 5 changes\n", 0))
        with Store(self.other) as other:
            read(SMALL).expect(self, other)

    def test_names_that_can_not_be_read_keep_a_store_from_being_dumped(self) -> None:
        self.small().close()
        self.written("a.store.names", "nonsense\n")
        with self.assertWarns(errors.NamesWarning):
            store = self.opened()
        out, complaint, status = carried_out(store, f"dump --all {self.folder}/a.dump")
        self.assertEqual((out, status, os.path.exists(os.path.join(self.folder, "a.dump"))), ("", 1, False))
        self.assertIn("a.store.names: line 1 is not a name and a version", complaint)

    def test_a_dump_is_not_written_over_a_store(self) -> None:
        store = self.small()
        for name in ("a.store", "a.store.names", "a.store.lock"):
            before = self.bytes_of(name)
            with self.assertRaisesRegex(errors.CastleError, "Take another file; nothing was written"):
                store.dump_all(os.path.join(self.folder, name))
            self.assertEqual(self.bytes_of(name), before)

    def test_words_that_are_wrong_are_told(self) -> None:
        store = self.small()
        self.written("a.dump", SMALL)
        self.written("one.dump", "# castle dump 1\na\t1\n# end, 1 pair\n")
        for line, what in (("dump --all @0", "usage: dump [--frames] [V [FILE] | --all [FILE]]"), ("load --all", "usage: load [--all | --csv | --json-lines | --frames] FILE [@V]"),
                           ("load --all a @0", "usage: load [--all |"), ("load a b", "usage: load [--all |"),
                           ("dump --all a b", "usage: dump"), ("load --all none", "none: the file can't be read: No such file"),
                           (f"load {self.folder}/a.dump", "a.dump: line 1 is not that of a dump. `load --all FILE` loads a whole store.")):
            out, complaint, status = carried_out(store, line)
            self.assertEqual((out, status), ("", 1), line)
            self.assertIn(what, complaint)
        out, complaint, status = carried_out(self.fresh(), f"load --all {self.folder}/one.dump")
        self.assertIn("one.dump: line 1 is not that of a dump of a store. It begins with # castle store 1; `load FILE` takes one of a version.",
                      complaint)


class RefusedTest(BackupCase):
    """Whatever is wrong, the store that it was to be loaded into is fresh still."""

    def refused(self, store: Store, text: str, what: str) -> None:
        out, complaint, status = carried_out(store, f"load --all {self.written('x.dump', text)}")
        self.assertEqual((out, status), ("", 1), text)
        self.assertIn(f"castle-shell: line 1: {self.folder}/x.dump: {what}", complaint)
        self.expect_fresh(store)

    def test_a_dump_that_is_cut_off_anywhere_is_refused_whole(self) -> None:
        store = self.fresh()
        for end in range(len(SMALL)):
            if SMALL[:end] + "\n" != SMALL:  # the last line feed alone is not missed
                path = self.written("x.dump", SMALL[:end])
                with self.assertRaises(errors.DumpFault, msg=SMALL[:end]):
                    store.load_all(path)
        self.expect_fresh(store)
        self.refused(store, SMALL[:SMALL.index("version\t2")], "it is cut off behind line 11. Dump again: its last line has counts.")
        self.refused(store, "", "it is cut off behind line 0")

    def test_a_dump_without_one_of_its_lines_or_with_one_twice_is_refused(self) -> None:
        store, lines = self.fresh(), SMALL.splitlines(keepends=True)
        for number in range(len(lines)):
            for text in ("".join(lines[:number] + lines[number + 1:]), "".join(lines[:number + 1] + lines[number:])):
                if text.count("# castle") == 2:
                    continue  # a second first line is a comment
                with self.assertRaises(errors.DumpFault, msg=text):
                    store.load_all(self.written("x.dump", text))
        self.expect_fresh(store)

    def test_a_line_that_is_wrong_is_told(self) -> None:
        store = self.fresh()
        kind = "is neither a version, nor a name of it, nor a change in it"
        cases = [("# castle store 1,", "# castle store 12,", "line 1 is not that of a dump of a store"),
                 ("version\t1\t0", "version\t2\t0", "line 6 is not that of version 1 with its parent"),
                 ("version\t1\t0", "version\t1", "line 6 is not that of version 1 with its parent"),
                 ("version\t0", "version\t0\t0", "line 2 is not that of version 0 with its parent"),
                 ("version\t1\t0", "version\t1\t1", "line 6 has a parent that is no version before 1"),
                 ("version\t1\t0", "version\t1\t-1", "line 6 has a parent that is no version before 1"),
                 ("version\t1\t0", "version\t1\t0\t0", f"line 6 {kind}"), ("version\t1\t0", "Version\t1\t0", f"line 6 {kind}"),
                 ("name\tbase", "name\t7", "line 3 has a name that can't be"), ("name\tnext", "name\tbase", "line 7 has the name base a second time"),
                 ("T12:00:01Z\tTo", "T12:61:01Z\tTo", "line 7 has the name next: 2026-11-29T12:61:01Z is no time"),
                 ("To come", "To \\q", r"line 7 has the name next: in the description \q is no escape"),
                 ("name\tbase\n+\ta\t1\n", "+\ta\t1\nname\tbase\n", f"line 4 {kind}"), ("+\ta\t1", "+\ta", f"line 4 {kind}"),
                 ("-\ta\n", "-\ta\t1\n", f"line 9 {kind}"), ("+\ta\t1", " \ta\t1", f"line 4 {kind}"), ("+\ta\t1", "", f"line 4 {kind}"),
                 ("+\ta\t1\n+\tb\t2", "+\tb\t2\n+\ta\t1", "line 5 has a key that is not behind that of the line before"),
                 ("+\tb\t2", "+\ta\t2", "line 5 has a key that is not behind that of the line before"),
                 ("+\ta\t1", "+\t\\q\t1", r"line 4: \q is no escape"), ("+\ta\t1", "+\t\t1", "line 4 has a key of 0 bytes"),
                 ("+\ta\t1", f"+\t{'k' * 256}\t1", "line 4 has a key of 256 bytes"),
                 ("+\ta\t1", f"+\ta\t{'v' * 1025}", "line 4 has a value of 1,025 bytes, above 1,024"),
                 ("3 names", "2 names", "it has 3 versions, 3 names, 5 changes, and its last line says 3 versions, 2 names, 5 changes"),
                 ("5 changes", "6 changes", "it has 3 versions, 3 names, 5 changes, and its last line says"),
                 ("5 changes\n", "5 changes\n\n", "line 14 stands behind the end"), ("# end, 3", "# end: 3", "it is cut off behind line 13")]
        for old, new, what in cases:
            self.assertIn(old, SMALL)
            self.refused(store, SMALL.replace(old, new, 1), what)
        self.refused(store, "# castle store 1\n# end, 0 versions, 0 names, 0 changes\n", "it has 0 versions")
        self.refused(store, "# castle store 1\n+\ta\t1\n", f"line 2 {kind}")
        self.refused(store, "# castle store 1\nname\ta\n", f"line 2 {kind}")

    def test_a_store_that_is_not_fresh_is_refused_and_left(self) -> None:
        path = self.written("a.dump", SMALL)
        store = self.fresh()
        store.names["base"] = 0
        self.assert_not_fresh(store, path)
        del store.names["base"]
        store.put(0, "k", "v")
        self.assert_not_fresh(store, path)
        store.delete(0, "k")
        self.assert_not_fresh(store, path)  # its changes are spent
        store.close()
        with Store(self.other, read_only=True) as copy, self.assertRaises(errors.ReadOnly):
            copy.load_all(path)
        with self.fresh() as store:
            os.rename(self.other, self.other + ".moved")
            with self.assertRaises(errors.StoreMoved):
                store.load_all(path)

    def assert_not_fresh(self, store: Store, path: str) -> None:
        before = store.stat(), dict(store.names), list(store.scan(0))
        with self.assertRaisesRegex(errors.NotFresh, "b.store: the store is not fresh: it has changes or names. Make a new one with"):
            store.load_all(path)
        self.assertEqual((store.stat(), dict(store.names), list(store.scan(0))), before)

    def test_a_store_that_is_too_small_is_refused_and_fresh_still(self) -> None:
        for changes, versions, kind, what in ((1000, 2, errors.VersionLimit, "it takes 2 versions, and the store has room for 1. Go on with"),
                                              (6, 10, errors.ChangeLimit, "it takes 7 changes, and the store has room for 6. Read on, or")):
            with self.fresh(changes, versions) as store:
                with self.assertRaisesRegex(kind, f"b.store: .*x.dump: {what}"):
                    store.load_all(self.written("x.dump", SMALL))
                self.expect_fresh(store)
        with self.fresh(7, 3) as store:
            store.load_all(self.written("x.dump", SMALL))
            read(SMALL).expect(self, store)


class FullTest(BackupCase):
    def test_a_full_store_moves_to_a_larger_one(self) -> None:
        store = self.made(64, 1000, 3)
        store.names["staging"] = store.clone(0)
        store.names["production"] = store.clone(0)
        store.put("staging", "k", "1")
        with self.assertRaises(errors.VersionLimit) as caught:
            store.snapshot("staging", "v1")
        self.assertIn("`dump --all` and `load --all`", str(caught.exception))
        path = os.path.join(self.folder, "all.dump")
        store.dump_all(path)
        other = self.fresh(1000, 30)
        other.load_all(path)
        self.assertEqual(dict(other.names), dict(store.names))
        other.snapshot("staging", "v1")
        other.put("staging", "k", "2")
        self.assertEqual((other.get("v1", "k"), other.get("production", "k")), (b"1", None))


class CutOffTest(BackupCase):
    """A load that is cut off says how far it came. The store has no names then, and is not taken for a fresh one."""

    def many(self) -> str:
        lines = [f"+\t{key:04}\t1\n" for key in range(1000)]
        return self.written("many.dump", "".join(["# castle store 1\nversion\t0\n", *lines, "version\t1\t0\nname\tnext\n+\tx\t1\n",
                                                  "# end, 2 versions, 1 name, 1001 changes\n"]))

    def in_window(self, store: Store, number: int, act: Callable[[], object]) -> Tuple[str, int]:
        """Complaints and status of a shell that loads `many`, where something happens amid the window of this number."""
        return carried_out_amid(store, number, act, f"load --all {self.many()}", "put a 1")

    def test_ctrl_c_stops_a_load_behind_a_window(self) -> None:
        store = self.fresh(100000)
        told = self.in_window(store, 2, lambda: os.kill(os.getpid(), signal.SIGINT))
        self.assertEqual(told, ("castle-shell: line 1: stopped, with 1 version and 512 changes loaded at least; make the store anew, and load "
                                "again\n", 130))
        self.assertEqual((store.stat()[:3], dict(store.names)), ((1, 512, 512), {}))
        with self.assertRaises(errors.NotFresh):
            store.load_all(self.many())

    def test_a_program_that_ends_amid_a_load_is_told_with_how_far_it_came(self) -> None:
        store = self.fresh(100000)
        out, status = self.in_window(store, 3, lambda: os.kill(store.pid, signal.SIGKILL))
        self.assertEqual(status, 1)
        self.assertRegex(out, r"^castle-shell: line 1: .*b\.store: .*with 1 version and 512 changes loaded: the program was ended by SIGKILL")
        store.close()
        with Store(self.other) as store:
            self.assertEqual(dict(store.names), {})
            self.assertGreaterEqual(store.stat().changes, 512)

    def test_names_that_can_not_be_written_at_the_end_are_told(self) -> None:
        store = self.fresh(100000)
        with mock.patch.object(os, "replace", side_effect=OSError(28, "No space left on device")):
            out, complaint, status = carried_out(store, f"load --all {self.many()}")
        self.assertEqual((out, status), ("", 1))
        self.assertRegex(complaint, r"b\.store\.names: with 2 versions and 1,001 changes loaded: the file can't be written: No space left")
        self.assertEqual((store.stat().versions, dict(store.names)), (2, {}))

    def test_a_file_that_is_altered_between_check_and_load_is_told(self) -> None:
        store, path = self.fresh(100000), self.many()
        with open(path, encoding="utf-8") as lines:
            list(storetext.Loading(store, path).check(lines))
        self.expect_fresh(store)
        loading = storetext.Loading(store, path)
        with open(path, encoding="utf-8") as lines, self.assertRaisesRegex(errors.DumpFault, "cut off behind line 600"):
            list(loading.load(list(lines)[:600]))
        self.assertEqual((loading.counts, dict(store.names)), (Counts(1, 0, 512), {}))

    def test_a_dump_is_of_one_time_for_each_version_while_threads_change_it(self) -> None:
        store = self.made(64, 100000, 100)
        store.names["work"] = store.clone(0)
        stops = threading.Event()

        def work() -> None:
            turn = 0
            while not stops.is_set():
                turn += 1
                with store.batch() as batch:
                    for key in ("a", "b"):
                        batch.put("work", key, str(turn))
                if turn % 10 == 0 and turn < 500:
                    store.snapshot("work", f"s{turn}")

        thread = Threads(work)
        try:
            for _ in range(10):
                read(carried_out(store, "dump --all")[0])  # fails where counts or names do not agree
        finally:
            stops.set()
            failed = thread.join()
        self.assertEqual(failed, [])


class RandomTest(BackupCase):
    def tree(self, chance: random.Random) -> "Tuple[Store, Model]":
        """A random store, with what it has."""
        store, model = self.made(8, 100000, 60), Model()
        for _ in range(chance.randrange(4, 40)):
            version = chance.choice([number for number in range(len(model.versions)) if number not in model.parents])
            for _ in range(chance.randrange(8)):
                key = self.data(chance, 1, 6)
                if chance.random() < 0.3 and model.versions[version]:
                    key = chance.choice(sorted(model.versions[version]))
                    store.delete(version, key)
                    del model.versions[version][key]
                else:
                    model.versions[version][key] = self.data(chance, 0, 12)
                    store.put(version, key, model.versions[version][key])
            parent = chance.randrange(len(model.versions))
            self.assertEqual(store.clone(parent), len(model.versions))
            model.versions.append(dict(model.versions[parent]))
            model.parents.append(parent)
        for number in range(chance.randrange(12)):
            when = chance.choice((None, datetime.fromtimestamp(chance.randrange(4 * 10**9), timezone.utc)))
            text = "".join(chance.choice("ab \t\n\\#é日\udcff\u2028") for _ in range(chance.randrange(9))).strip()
            description = text.encode("utf-8", "surrogateescape").decode("utf-8", "surrogateescape")
            model.names[chance.choice("ab_é") + str(number)] = Name(chance.randrange(len(model.versions)), when, description)
        store.names.restore(model.names)
        return store, model

    @staticmethod
    def data(chance: random.Random, least: int, most: int) -> bytes:
        return bytes(chance.choice(b"\x00\t\n\r\\#+-\x7f\x80\xff ab\xc3\xa9") for _ in range(chance.randrange(least, most)))

    def loads(self, text: str) -> Iterator[Store]:
        """Stores of the dump by each way there is: the shell, and the client."""
        path = self.written("all.dump", text)
        for way in ("shell", "client"):
            with self.fresh(100000, 70) as other:
                if way == "client":
                    other.load_all(path)
                else:
                    self.assertEqual(carried_out(other, f"load --all {path}")[1:], ("", 0))
                yield other

    def test_what_is_loaded_is_what_was_dumped_whatever_the_tree(self) -> None:
        for seed in range(12):
            with self.subTest(seed=seed):
                store, model = self.tree(random.Random(seed))
                text, complaint, status = carried_out(store, "dump --all")
                self.assertEqual((complaint, status), ("", 0))
                said = read(text)
                self.assertEqual((said.versions, said.parents, said.names), (model.versions, model.parents, model.names))
                for other in self.loads(text):
                    model.expect(self, other)
                    self.assertEqual(carried_out(other, "dump --all")[0].partition("\n")[2], text.partition("\n")[2])
                store.close()
                os.remove(self.path)

    def test_a_line_of_a_random_dump_that_is_lost_is_noticed(self) -> None:
        chance = random.Random(7)
        store, _ = self.tree(chance)
        lines = carried_out(store, "dump --all")[0].splitlines(keepends=True)
        other = self.fresh(100000, 70)
        for _ in range(60):
            lost = chance.randrange(len(lines))
            with self.assertRaises(errors.DumpFault):
                other.load_all(self.written("x.dump", "".join(lines[:lost] + lines[lost + 1:])))
        self.expect_fresh(other)
