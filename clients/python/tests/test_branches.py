"""Branches: snapshots, releases and the prompt that follows a name, and what is left where a step is cut off."""

import os
import signal
import threading
from functools import partial
from typing import Callable, Dict, List, Optional, Tuple
from unittest import mock

from session import Session, carried_out, untimed
from support import StoreCase, Threads

from castle import Snapshot, Store, errors
from castle.names import Names

KILLED = -signal.SIGKILL


class SnapshotTest(StoreCase):
    def environments(self, versions: int = 10) -> Store:
        """Version 1 is staging, version 2 production."""
        store = self.made(64, 1000, versions)
        store.put(0, "k", "0")
        store.names["staging"] = store.clone(0)
        store.names["production"] = store.clone(0)
        store.put("staging", "k", "1")
        return store

    def test_a_snapshot_keeps_the_version_and_its_branch_goes_on_in_a_clone(self) -> None:
        store = self.environments()
        self.assertEqual(store.snapshot("staging", "2026-11-29", description="First try"), Snapshot(1, 3))
        store.put("staging", "k", "2")
        self.assertEqual([store.get(name, "k") for name in ("2026-11-29", "staging", "production")], [b"1", b"2", b"0"])
        self.assertEqual((store.info("2026-11-29").frozen, store.info("staging").parent), (True, 1))
        with self.assertRaises(errors.Frozen):
            store.put("2026-11-29", "k", "3")
        self.assertEqual((store.names.about("2026-11-29").description, store.names.about("staging").description), ("First try", ""))
        store.close()
        self.assertEqual(dict(self.opened().names), {"2026-11-29": 1, "production": 2, "staging": 3})

    def test_a_snapshot_is_one_write_of_the_names(self) -> None:
        store, writes = self.environments(), []
        with mock.patch.object(Names, "_write", lambda names, found: writes.append({name: it.version for name, it in found.items()})):
            store.snapshot("staging", "v1")
            store.release("staging", "production")
        self.assertEqual(writes, [{"production": 2, "staging": 3, "v1": 1}, {"production": 1, "staging": 4}])

    def test_a_release_moves_a_name_to_a_frozen_version(self) -> None:
        store = self.environments()
        store.names.describe("production", "What customers see")
        self.assertEqual(store.release("staging", "production"), Snapshot(1, 3))
        self.assertEqual((dict(store.names), store.names.about("production").description),
                         ({"production": 1, "staging": 3}, "What customers see"))
        with self.assertRaises(errors.Frozen):
            store.put("production", "k", "2")
        store.put("staging", "k", "2")
        self.assertEqual(store.release("staging", "production", "Winter"), Snapshot(3, 4))
        self.assertEqual((store.get("production", "k"), store.get(2, "k"), store.names.about("production").description),
                         (b"2", b"0", "Winter"))

    def test_of_two_names_of_a_version_the_branch_alone_moves(self) -> None:
        store = self.environments()
        store.names["work"] = 1
        store.snapshot("staging", "v1")
        self.assertEqual(dict(store.names), {"v1": 1, "work": 1, "production": 2, "staging": 3})
        store.names["production"] = 3
        store.release("staging", "production")  # both stand for version 3
        self.assertEqual(dict(store.names), {"v1": 1, "work": 1, "production": 3, "staging": 4})

    def test_a_frozen_version_is_kept_too(self) -> None:
        store = self.environments()
        store.names["base"] = 0
        self.assertEqual(store.snapshot("base", "root"), Snapshot(0, 3))
        store.put("base", "k", "9")
        self.assertEqual([store.get(version, "k") for version in (0, 1, 2)], [b"0", b"1", b"0"])

    def test_what_can_not_be_is_refused_and_nothing_changed(self) -> None:
        store = self.environments()
        before = store.stat(), self.bytes_of("a.store.names")
        name, fault = errors.UnknownName, errors.NameFault
        cases: List[Tuple[Callable[[], object], type, str]] = [
            (lambda: store.snapshot("none", "v1"), name, "no version has the name none. Names: staging, production."),
            (lambda: store.snapshot("staging", "production"), fault, "version 2 has the name production. Take another, or"),
            (lambda: store.snapshot("staging", "staging"), fault, "version 1 has the name staging"),
            (lambda: store.snapshot("staging", "7"), fault, "'7' can't be a name"),
            (lambda: store.snapshot("staging", "a b"), fault, "'a b' can't be a name"),
            (lambda: store.snapshot(1, "v1"), fault, "the branch is 1, and no name. Give the name of a version"),  # type: ignore[arg-type]
            (lambda: store.snapshot("staging", "v1", "x" * 1001), fault, "a description has 1,001 characters"),
            (lambda: store.release("none", "production"), name, "no version has the name none"),
            (lambda: store.release("staging", "none"), name, "no version has the name none"),
            (lambda: store.release("staging", "staging"), fault, "staging can't be released to itself"),
            (lambda: store.release("staging", "production", "x" * 1001), fault, "a description has 1,001 characters")]
        for call, kind, what in cases:
            with self.assertRaisesRegex(kind, what):
                call()
        self.assertEqual((store.stat(), self.bytes_of("a.store.names")), before)

    def test_a_full_store_is_as_it_was(self) -> None:
        store = self.environments(3)
        before = store.stat(), self.bytes_of("a.store.names")
        for call in (lambda: store.snapshot("staging", "v1"), lambda: store.release("staging", "production")):
            with self.assertRaisesRegex(errors.VersionLimit, "clone version 1: the store has as many versions as it was made for"):
                call()
        self.assertEqual((store.stat(), self.bytes_of("a.store.names")), before)
        store.put("staging", "k", "2")

    def test_a_store_that_takes_no_more_changes_is_as_it_was(self) -> None:
        store = self.made(64, 1, 10)
        store.names["staging"] = store.clone(0)
        with self.assertRaises(errors.ChangeLimit):
            store.snapshot("staging", "v1")
        self.assertEqual((store.stat().versions, dict(store.names)), (2, {"staging": 1}))

    def test_a_copy_and_a_moved_store_are_refused_before_a_clone(self) -> None:
        self.environments().close()
        with Store(self.path, read_only=True) as copy, self.assertRaises(errors.ReadOnly):
            copy.snapshot("staging", "v1")
        store = self.opened()
        os.rename(self.path, self.path + ".moved")
        for call in (lambda: store.snapshot("staging", "v1"), lambda: store.release("staging", "production")):
            with self.assertRaises(errors.StoreMoved):
                call()
        self.assertEqual(store.stat().versions, 3)

    def test_threads_that_take_snapshots_get_versions_of_their_own(self) -> None:
        store = self.made(64, 1000, 50)
        store.names["work"] = store.clone(0)
        made: Dict[str, Snapshot] = {}

        def work(thread: int) -> None:
            for turn in range(5):
                made[f"s{thread}.{turn}"] = store.snapshot("work", f"s{thread}.{turn}")

        self.assertEqual(Threads(*(partial(work, number) for number in range(4))).join(), [])
        self.assertEqual(sorted(made.values()), [Snapshot(version, version + 1) for version in range(1, 21)])
        self.assertEqual(dict(store.names), {"work": 21, **{name: it.version for name, it in made.items()}})

    def test_a_batch_is_carried_out_before_a_snapshot_that_comes_amid_it(self) -> None:
        store = self.environments()
        with store.batch() as batch:
            batch.put("staging", "k", "before")
            store.snapshot("staging", "v1")
            batch.put("staging", "k", "after")
        self.assertEqual((store.get("v1", "k"), store.get("staging", "k")), (b"before", b"after"))


class CutOffTest(StoreCase):
    """What is left where a step is the last one: a clone without a name, and never a name of a wrong version."""

    OLD = {"staging": 1, "production": 2}
    NEW = {"snapshot": {"v1": 1, "production": 2, "staging": 3}, "release": {"production": 1, "staging": 3}}
    CALLS = {"snapshot": "store.snapshot('staging', 'v1', 'text')", "release": "store.release('staging', 'production', 'text')"}

    def prepared(self) -> None:
        for name in ("a.store", "a.store.names", "a.store.lock"):
            if os.path.exists(os.path.join(self.folder, name)):
                os.remove(os.path.join(self.folder, name))
        with self.made() as store:
            store.put(0, "k", "0")
            store.names["staging"] = store.clone(0)
            store.names["production"] = store.clone(0)
            store.put("staging", "k", "1")

    def cut_off(self, call: str, at: str, number: int) -> "Optional[Tuple[int, Dict[str, int]]]":
        """Versions and names where a process was killed at a call of the system; None where it came to its end before."""
        self.prepared()
        kill = (f"import signal, itertools\nmodule, name = {at!r}.split('.')\nmodule = getattr(castle, module, None) or globals()[module]\n"
                f"real, calls = getattr(module, name), itertools.count()\n"
                "def cut(*words, **named):\n"
                f"    if next(calls) == {number}: os.kill(os.getpid(), signal.SIGKILL)\n"
                "    return real(*words, **named)\n"
                f"store = castle.Store(sys.argv[1])\nsetattr(module, name, cut)\n{call}\nsetattr(module, name, real)\nstore.close()\n")
        ran = self.python(kill)
        self.assertIn(ran.returncode, (0, KILLED), ran.stderr.decode())
        if ran.returncode == 0:
            return None
        for _ in range(200):  # the program may have the lock until it has seen the end of its input
            try:
                store = self.opened()
                break
            except errors.StoreLocked:
                threading.Event().wait(0.05)
        self.assertEqual(store.names.warning, "")
        left = store.stat().versions, dict(store.names)
        for name, value in (("staging", b"1"), ("production", b"1" if left[1]["production"] == 1 else b"0")):
            self.assertEqual(store.get(name, "k"), value)
        store.close()
        return left

    def test_a_kill_at_each_step_leaves_the_old_names_or_the_new_ones(self) -> None:
        for kind, call in self.CALLS.items():
            seen = []
            for at in ("Store.clone", "os.open", "os.fsync", "os.replace", "os.close"):
                for number in range(10):
                    left = self.cut_off(call, at, number)
                    if left is None:
                        break
                    self.assertIn(left, ((3, self.OLD), (4, self.OLD), (4, self.NEW[kind])), (kind, at, number))
                    seen.append(left)
            self.assertEqual([seen.count(state) > 0 for state in ((3, self.OLD), (4, self.OLD), (4, self.NEW[kind]))], [True] * 3, kind)

    def test_a_snapshot_that_was_cut_off_is_taken_again(self) -> None:
        self.assertEqual(self.cut_off(self.CALLS["snapshot"], "os.replace", 0), (4, self.OLD))
        store = self.opened()
        with self.assertRaises(errors.Frozen):  # its clone has no name
            store.put("staging", "k", "2")
        self.assertEqual(store.snapshot("staging", "v1"), Snapshot(1, 4))
        store.put("staging", "k", "2")
        self.assertEqual((store.get("v1", "k"), store.get("staging", "k"), store.names.of(3)), (b"1", b"2", []))

    def test_names_that_can_not_be_written_are_told_with_the_clone(self) -> None:
        self.prepared()
        store = self.opened()
        for number, call in enumerate((lambda: store.snapshot("staging", "v1"), lambda: store.release("staging", "production"))):
            with mock.patch.object(os, "replace", side_effect=OSError(28, "No space left on device")):
                with self.assertRaisesRegex(errors.NameFault, f"a.store.names: made version {3 + number}, which got no name: the file can't be "
                                                              "written: No space left on device. Mend the cause, and do it again."):
                    call()
            self.assertEqual((dict(store.names), self.bytes_of("a.store.names").count(b"\n")), (self.OLD, 2))
        self.assertEqual(store.snapshot("staging", "v1"), Snapshot(1, 5))

    def test_a_program_that_is_killed_behind_the_clone_is_told(self) -> None:
        self.prepared()
        store, clone = self.opened(), Store.clone

        def killed(store: Store, version: int) -> int:
            made = clone(store, version)
            os.kill(store.pid, signal.SIGKILL)
            return made

        with mock.patch.object(Store, "clone", killed), self.assertRaisesRegex(errors.Killed, "made version 3, which got no name"):
            store.snapshot("staging", "v1")
        store.close()
        store = self.opened()
        self.assertEqual((store.stat().versions, dict(store.names)), (4, self.OLD))


class ShellTest(StoreCase):
    def test_branches_are_moved_in_the_shell(self) -> None:
        self.made().close()
        out, complaint, status = self.shell(
            'put k 0\nclone staging\nclone production\nswitch staging\nput k 1\nsnapshot v1 "The first"\nput k 2\nget k\nget k @v1\n'
            "release staging production Winter\nput k 3\nget k @production\nnames\ntree\n")
        self.assertEqual((complaint, status), ("", 0))
        self.assertEqual(untimed(out), (
            "done\nmade version 1 (staging)\nmade version 2 (production)\ndone\n"
            "version 1 (v1) is frozen, staging goes on in version 3\ndone\n2\n1\n"
            "production was version 2\nversion 3 (production) is frozen, staging goes on in version 4\ndone\n2\n"
            "1 v1  The first\n3 production  Winter\n4 staging\n"
            '0\n├─ 1 v1 "The first" ─ 3 production "Winter" ─ 4 staging (here)\n└─ 2\n'))

    def test_the_branch_of_a_snapshot_is_the_one_behind_at_the_switched_one_or_the_only_one(self) -> None:
        store = self.made()
        carried_out(store, "clone staging", "clone production", "names set work staging")
        told = "version 1 has several names: staging, work. Say which one goes on, as @staging."
        for lines, what in ((["use staging", "snapshot x"], told), (["snapshot x @1"], told), (["snapshot x"], "version 0 has no name. Give it one: "),
                            (["snapshot x @none"], "no version has the name none"), (["snapshot x @9"], "info version 9: the store has no version of this number")):
            out, complaint, status = carried_out(store, *lines)
            self.assertEqual((out, status, store.stat().versions), ("", 1, 3), lines)
            self.assertIn(what, complaint)
        self.assertIn("production goes on in version 3", carried_out(store, "snapshot a @2")[0])
        self.assertIn("work goes on in version 4", carried_out(store, "use 1", "snapshot b @work", "info")[0])
        self.assertIn("staging goes on in version 5", carried_out(store, "switch staging", "snapshot c")[0])
        self.assertEqual(dict(store.names), {"b": 1, "c": 1, "a": 2, "production": 3, "work": 4, "staging": 5})

    def test_switch_goes_to_a_name_alone(self) -> None:
        store = self.made()
        carried_out(store, "clone staging")
        for line, what in (("switch 1", "1 is no name. `use 1` goes to a version by its number."), ("switch none", "no version has the name none"),
                           ("switch", "usage: switch NAME"), ("switch staging @1", "usage: switch NAME"), ("switch a b", "usage: switch NAME")):
            out, complaint, status = carried_out(store, line)
            self.assertEqual((out, status), ("", 1))
            self.assertIn(what, complaint)

    def test_the_usage_of_branches_is_told(self) -> None:
        store = self.made()
        for line, usage in (("snapshot", "snapshot NAME [DESCRIPTION] [@V]"), ("snapshot a b c", "snapshot NAME [DESCRIPTION] [@V]"),
                            ("release a", "release FROM TO [DESCRIPTION]"), ("release a b @0", "release FROM TO [DESCRIPTION]"),
                            ("merge a b", "merge A B INTO [--ours | --theirs]"), ("merge a b c d", "merge A B INTO [--ours | --theirs]"),
                            ("merge a b --ours", "merge A B INTO [--ours | --theirs]"), ("merge a b --ours --theirs", "merge A B INTO"),
                            ("tree --short", "tree [--long | --svg FILE]"), ("tree --long x", "tree [--long | --svg FILE]")):
            out, complaint, status = carried_out(store, line)
            self.assertEqual((out, status), ("", 1), line)
            self.assertIn(f"usage: {usage}", complaint)

    def test_the_prompt_follows_a_branch_it_was_switched_to(self) -> None:
        self.made().close()
        session = Session(self.folder, self.path)
        self.addCleanup(session.kill)
        session.until(r"> $")
        for line, prompt in (("clone staging", "a.store @0 (frozen)> "), ("switch staging", "a.store staging @1> "),
                             ("snapshot v1", "a.store staging @2> "), ("names set also", "a.store staging @2 also> "),
                             ("names set staging 1", "a.store staging @1 v1 (frozen)> "), ("names set staging 2", "a.store staging @2 also> "),
                             ("names remove staging", "a.store @2 also> "), ("use v1", "a.store @1 v1 (frozen)> "),
                             ("snapshot old", "a.store @3 v1> "), ("switch also", "a.store also @2> "), ("use 3", "a.store @3 v1> ")):
            self.assertEqual(session.type(line)[-1], prompt, line)
