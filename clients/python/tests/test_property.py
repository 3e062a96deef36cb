"""Random sequences of what may happen to stores, against a model of who may speak: no wrong value, and no hang.

`python3 clients/python/tests/test_property.py [STEPS [SEED]]` runs more of them.
"""

from __future__ import annotations

import contextlib
import gc
import itertools
import os
import random
import signal
import sys
import tempfile
import threading
import traceback
import warnings
from functools import partial
from typing import Any, Callable, Dict, Iterator, List, NoReturn, Optional, Set, Tuple
from unittest import mock

from support import StoreCase, Threads, in_child, is_gone

from castle import CastleError, Scan, Store, errors

LIMIT = 10  # seconds that a step may take
STEPS, SEED = 500, 38  # of the suite
PATHS = [f"{letter}.store" for letter in "abcdef"]
KEYS = [b"key/%d" % number for number in range(8)]
Pairs = Dict[bytes, bytes]


class File:
    """A store's file: what it has, and under which paths."""

    def __init__(self, path: str) -> None:
        self.paths = {path}
        self.versions: List[Pairs] = [{}]
        self.parents: List[Optional[int]] = [None]
        self.dropped: Set[int] = set()
        self.changes = 0

    def living(self) -> List[int]:
        """The versions that were not dropped."""
        return [number for number in range(len(self.versions)) if number not in self.dropped]

    def ends(self) -> List[int]:
        """The versions that take puts."""
        parents = {self.parents[number] for number in self.living()}
        return [number for number in self.living() if number not in parents]


class Holder:
    """Whoever has a file open: this process, or a child of it."""

    def __init__(self, file: File, path: str) -> None:
        self.file = file
        self.path = path


class Open(Holder):
    """An open store of this process. Where the store is dropped, its scans may hold it still."""

    def __init__(self, file: File, path: str, store: Store, names: Dict[str, int], strays: bool) -> None:
        super().__init__(file, path)
        self.store: Optional[Store] = store
        self.names = names
        self.strays = strays
        self.is_dead = False  # whether its program was killed
        self.scans: List[Tuple[Scan, List[Tuple[bytes, bytes]]]] = []


class Child(Holder):
    """A child that opened a store for itself, and closes it when its pipe says so."""

    def __init__(self, file: File, path: str, pid: int, pipe: int) -> None:
        super().__init__(file, path)
        self.pid = pid
        self.pipe = pipe


class Hang(BaseException):
    """A step takes too long."""


def expect(holds: bool, what: object) -> None:
    """Fails where the model says something else."""
    if not holds:
        raise AssertionError(what)


class World:
    """Some files in a folder, and all who have them open. Each step is one draw."""

    def __init__(self, folder: str, seed: int) -> None:
        self.folder = folder
        self.chance = random.Random(seed)
        self.counter = itertools.count()
        self.at: Dict[str, File] = {}
        self.names: Dict[str, Dict[str, int]] = {}  # in the file of names of each path
        self.holders: List[Holder] = []
        self.lingering: List[int] = []  # children that do nothing, and end when they are killed
        self.log: List[str] = []
        self.due: Optional[BaseException] = None  # what the next alarm raises, if it is no hang
        for path in PATHS[:3]:
            Store.format(self.full(path), 8, 100000, 200)
            self.at[path] = File(path)
        self.draws: List[Tuple[int, Callable[[], None]]] = [
            (14, self.open), (3, self.look), (12, self.change), (8, self.ask), (6, self.scan), (6, self.read_on), (4, self.batch),
            (3, self.clone), (5, self.name), (4, self.branch), (4, self.threads), (4, self.fork), (2, self.linger), (3, self.child_opens),
            (3, self.child_ends), (4, self.move), (2, self.link), (2, self.unlink), (3, self.kill), (2, self.kill_amid),
            (5, self.close), (4, self.lose), (4, self.interrupt), (4, self.drop)]

    def full(self, path: str) -> str:
        return os.path.join(self.folder, path)

    def alarm(self, *_: object) -> None:
        due, self.due = self.due, None
        signal.setitimer(signal.ITIMER_REAL, LIMIT)
        raise due or Hang(f"above {LIMIT} seconds")

    def step(self) -> None:
        """One draw, which has to come to its end in time."""
        weights, draws = zip(*self.draws)
        draw = self.chance.choices(draws, weights)[0]
        self.log.append(draw.__name__)
        signal.setitimer(signal.ITIMER_REAL, LIMIT)
        try:
            draw()
        finally:
            signal.setitimer(signal.ITIMER_REAL, 0)

    # Who may speak

    def is_locked(self, path: str) -> bool:
        """Whether nobody may open this path: its file is open under some name, or its lock is another file's."""
        return any(holder.file is self.at[path] or holder.path == path for holder in self.holders)

    def some(self, kind: Callable[[Open], bool] = lambda it: True) -> Optional[Open]:
        """An open store of this process that isn't dropped."""
        found = [it for it in self.holders if isinstance(it, Open) and it.store is not None and kind(it)]
        return self.chance.choice(found) if found else None

    def living(self) -> Optional[Open]:
        """One that answers."""
        return self.some(lambda it: not it.is_dead)

    def opened(self, path: str, **words: bool) -> Store:
        with warnings.catch_warnings():
            warnings.simplefilter("ignore", errors.NamesWarning)
            return Store(self.full(path), **words)  # type: ignore[arg-type]

    def shown(self, path: str) -> Dict[str, int]:
        """The names that a store has which is opened at this path."""
        living = self.at[path].living()
        return {name: version for name, version in self.names.get(path, {}).items() if version in living}

    def expect_all(self, store: Store, file: File) -> None:
        """The store has what the model says."""
        expect(store.stat()[:3:2] == (len(file.versions), file.changes), (store.stat(), len(file.versions), file.changes))
        for version in file.living():
            expect(dict(store.scan(version)) == file.versions[version], f"version {version}")
        expect([version for version, info in enumerate(store.versions()) if info is None] == sorted(file.dropped), "dropped versions")

    # Draws

    def open(self) -> None:
        """Opens a path, which is refused just where somebody has it."""
        path = self.chance.choice(list(self.at))
        file, locked = self.at[path], self.is_locked(path)
        try:
            store = self.opened(path)
        except errors.StoreLocked:
            expect(locked, f"{path} is locked")
            return
        expect(not locked, f"{path} is not locked")
        names = self.shown(path)
        expect(dict(store.names) == names, (dict(store.names), names))
        self.expect_all(store, file)
        self.holders.append(Open(file, path, store, names, names != self.names.get(path, {})))

    def look(self) -> None:
        """Opens a private copy, which is refused just where somebody has the file."""
        path = self.chance.choice(list(self.at))
        locked = any(holder.file is self.at[path] for holder in self.holders)
        try:
            with self.opened(path, read_only=True) as store:
                expect(not locked, f"{path} is read while it is open")
                self.expect_all(store, self.at[path])
                expect(dict(store.names) == self.shown(path), dict(store.names))
                with contextlib.suppress(errors.ReadOnly):
                    store.put(0, b"a", b"b")
                    expect(False, "a copy took a change")
        except errors.StoreLocked:
            expect(locked, f"{path} is locked")

    def refused(self, it: Open, kind: type, call: Callable[[], object]) -> None:
        try:
            call()
        except kind:
            return
        expect(False, f"{it.path}: no {kind.__name__}")

    def change(self) -> None:
        """Puts or deletes a key."""
        it = self.some()
        if it is None or it.store is None:
            return
        version, key, value = self.chance.choice(it.file.ends()), self.chance.choice(KEYS), b"%d" % next(self.counter)
        if it.is_dead:
            self.refused(it, CastleError, lambda: it.store and it.store.put(version, key, value))
        elif self.chance.random() < 0.7:
            it.store.put(version, key, value)
            it.file.versions[version][key] = value
            it.file.changes += 1
        else:
            it.store.delete(version, key)
            it.file.versions[version].pop(key, None)
            it.file.changes += 1

    def ask(self) -> None:
        """Gets keys, and looks at counts and levels."""
        it = self.some()
        if it is None or it.store is None:
            return
        store, version = it.store, self.chance.randrange(len(it.file.versions))
        if it.is_dead or version in it.file.dropped:
            self.refused(it, CastleError if it.is_dead else errors.Dropped, lambda: store.get(version, KEYS[0]))
            return
        for key in KEYS:
            expect(store.get(version, key) == it.file.versions[version].get(key), (it.path, version, key))
        if self.at.get(it.path) is it.file:
            expect(store.levels().changes == it.file.changes, "levels")
        else:
            self.refused(it, errors.StoreMoved, store.levels)

    def scan(self) -> None:
        """Opens a scan, which is read later."""
        it = self.living()
        if it is None or it.store is None or len(it.scans) > 5:
            return
        version = self.chance.choice(it.file.living())
        it.scans.append((it.store.scan(version), sorted(it.file.versions[version].items())))

    def read_on(self) -> None:
        """Reads a scan to its end; where it was what held a dropped store, that is free then."""
        found = [it for it in self.holders if isinstance(it, Open) and it.scans]
        if not found:
            return
        it = self.chance.choice(found)
        scan, want = it.scans.pop()
        if it.is_dead:
            self.refused(it, CastleError, lambda: list(scan))
        else:
            expect(list(scan) == want, "a scan")
        del scan
        if it.store is None and not it.scans:
            self.holders.remove(it)

    def batch(self) -> None:
        """Many commands under way."""
        it = self.living()
        if it is None or it.store is None:
            return
        version, want = self.chance.choice(it.file.ends()), []  # type: int, List[object]
        with it.store.batch() as batch:
            for _ in range(self.chance.choice((1, 10, 40))):
                key, value = self.chance.choice(KEYS), b"%d" % next(self.counter)
                batch.put(version, key, value)
                it.file.versions[version][key] = value
                it.file.changes += 1
                batch.get(version, key)
                want += [None, value]
        expect(batch.results == want, "a batch")

    def clone(self) -> None:
        """Makes a version. Names that the store doesn't have leave their file before."""
        it = self.living()
        if it is None or it.store is None or len(it.file.versions) > 150:
            return
        version, store = self.chance.choice(it.file.living()), it.store
        if it.strays and self.at.get(it.path) is not it.file:
            self.refused(it, errors.StoreMoved, lambda: store.clone(version))
            return
        expect(store.clone(version) == len(it.file.versions), "a clone")
        self.cloned(it, version)

    def cloned(self, it: Open, version: int) -> None:
        it.file.versions.append(dict(it.file.versions[version]))
        it.file.parents.append(version)
        it.file.changes += 1
        if it.strays:
            self.names[it.path], it.strays = dict(it.names), False

    def drop(self) -> None:
        """Drops a version, whose names are let go of, or is refused. It is where the file was moved and the version has a name."""
        it = self.living()
        if it is None or it.store is None:
            return
        store, version = it.store, self.chance.choice((*it.file.ends(), self.chance.randrange(len(it.file.versions))))
        named = sorted(name for name, number in it.names.items() if number == version)
        kinds = [(bool(named) and self.at.get(it.path) is not it.file, errors.StoreMoved), (version in it.file.dropped, errors.Dropped),
                 (version == 0, errors.Root), (version not in it.file.ends(), errors.Frozen)]
        for fails, kind in kinds:
            if fails:
                self.refused(it, kind, lambda: store.drop(version))
                return
        expect(store.drop(version) == named, "the names of a dropped version")
        self.dropped(it, version)

    def dropped(self, it: Open, version: int) -> None:
        it.file.dropped.add(version)
        it.file.changes += 1
        named = [name for name, number in it.names.items() if number == version]
        for name in named:
            del it.names[name]
        if named:
            self.names[it.path], it.strays = dict(it.names), False
        expect(it.store is not None and dict(it.store.names) == it.names, "names")

    def name(self) -> None:
        """Sets or removes a name, which is refused where the file was moved."""
        it = self.living()
        if it is None or it.store is None:
            return
        names, version, name = it.store.names, self.chance.choice(it.file.living()), self.chance.choice("xyz")
        if self.at.get(it.path) is not it.file:
            self.refused(it, errors.StoreMoved, lambda: names.update({name: version}))
            return
        if name in it.names and self.chance.random() < 0.4:
            del names[name]
            del it.names[name]
        else:
            names[name] = version
            it.names[name] = version
        self.names[it.path], it.strays = dict(it.names), False
        expect(dict(names) == it.names, "names")

    def branch(self) -> None:
        """Takes a snapshot of a branch, which goes on in a clone. It is refused where the file was moved."""
        it = self.living()
        if it is None or it.store is None or not it.names or len(it.file.versions) > 150:
            return
        store, branch, name = it.store, self.chance.choice(sorted(it.names)), f"s{next(self.counter)}"
        if self.at.get(it.path) is not it.file:
            self.refused(it, errors.StoreMoved, lambda: store.snapshot(branch, name))
            return
        version, clone = it.names[branch], len(it.file.versions)
        expect(store.snapshot(branch, name) == (version, clone), "a snapshot")
        self.cloned(it, version)
        it.names.update({name: version, branch: clone})
        self.names[it.path], it.strays = dict(it.names), False
        expect(dict(store.names) == it.names, "names")

    def threads(self) -> None:
        """Threads change and read keys of their own, and the process forks meanwhile."""
        it = self.living()
        if it is None or it.store is None:
            return
        store, version = it.store, self.chance.choice(it.file.ends())  # type: Any, int
        forks = self.chance.random() < 0.5

        def work(mine: List[bytes], seed: int, plain: Pairs) -> None:
            chance = random.Random(seed)
            for turn in range(12):
                key = chance.choice(mine)
                if chance.random() < 0.4:
                    plain[key] = b"%d/%d" % (seed, turn)
                    store.put(version, key, plain[key])
                expect(store.get(version, key) == plain.get(key), "a get of a thread")
                expect({key: value for key, value in store.scan(version) if key in mine}
                       == {key: value for key, value in plain.items() if key in mine}, "a scan of a thread")

        plains = [dict(it.file.versions[version]) for _ in range(3)]
        parts = [KEYS[number::3] for number in range(3)]
        running = Threads(*(partial(work, part, self.chance.randrange(10**6), plain) for part, plain in zip(parts, plains)))
        if forks:
            self.fork()
        failed = [line for error in running.join() for line in traceback.format_exception(type(error), error, error.__traceback__)]
        expect(not failed, "".join(failed))
        for part, plain in zip(parts, plains):
            for key in part:
                if key in plain:
                    it.file.versions[version][key] = plain[key]
        it.file.changes = store.stat().changes

    def not_spoken(self) -> None:
        """In a child: no open store speaks, and none that is open can be opened."""
        for it in self.holders:
            if isinstance(it, Open):
                for call in ([] if it.store is None else [lambda: it.store.get(0, b"a"), lambda: it.store.clone(0),  # type: ignore
                                                          lambda: it.store.scan(0), lambda: it.store.names.update(x=0)]):  # type: ignore
                    self.refused(it, errors.Forked if not it.is_dead else CastleError, call)
                for scan, want in it.scans:
                    if want:
                        self.refused(it, CastleError, lambda: list(scan))
        for path in self.at:
            if self.is_locked(path):
                with contextlib.suppress(errors.StoreLocked):
                    Store(self.full(path))
                    expect(False, f"a child opened {path}")
        for it in self.holders:
            if isinstance(it, Open) and it.store is not None and self.chance.random() < 0.5:
                it.store.close()

    def fork(self) -> None:
        """A child is refused, and ends."""
        pid = in_child(self.not_spoken, LIMIT)
        expect(os.waitpid(pid, 0)[1] == 0, "a child")

    def linger(self) -> None:
        """A child stays, with copies of whatever is open; or the ones that stay are ended."""
        if len(self.lingering) < 3:
            self.lingering.append(in_child(lambda: (signal.alarm(0), signal.pause()), LIMIT))
        else:
            self.end_lingering()

    def end_lingering(self) -> None:
        for pid in self.lingering:
            os.kill(pid, signal.SIGKILL)
            os.waitpid(pid, 0)
        self.lingering.clear()

    def child_opens(self) -> None:
        """A child opens a store for itself, changes it, and keeps it open."""
        path = self.chance.choice(list(self.at))
        if self.is_locked(path):
            return
        file, key, value = self.at[path], self.chance.choice(KEYS), b"%d" % next(self.counter)
        version = self.chance.choice(file.ends())
        told, tells = os.pipe()
        hears, tell = os.pipe()

        def run() -> None:
            os.close(tell)
            signal.alarm(0)
            with self.opened(path) as store:
                store.put(version, key, value)
                os.write(tells, b"x")
                os.read(hears, 1)

        pid = in_child(run, LIMIT)
        os.close(tells)
        os.close(hears)
        answered = os.read(told, 1)
        os.close(told)
        expect(answered == b"x", f"a child could not open {path}")
        file.versions[version][key] = value
        file.changes += 1
        self.holders.append(Child(file, path, pid, tell))

    def child_ends(self) -> None:
        """The child closes its store, or is killed; the store is free soon then."""
        found = [it for it in self.holders if isinstance(it, Child)]
        if found:
            self.end_child(self.chance.choice(found), self.chance.random() < 0.5)

    def end_child(self, child: Child, kills: bool) -> None:
        if kills:
            os.kill(child.pid, signal.SIGKILL)
        else:
            os.write(child.pipe, b"x")
        os.close(child.pipe)
        status = os.waitpid(child.pid, 0)[1]
        expect(status == (signal.SIGKILL if kills else 0), f"a child ended with {status}")
        self.holders.remove(child)
        path = next(iter(child.file.paths))
        while not self.is_locked(path):
            with contextlib.suppress(errors.StoreLocked):  # its program may not have ended yet
                with self.opened(path) as store:
                    self.expect_all(store, child.file)
                return

    def move(self) -> None:
        """Gives a file another name."""
        free = [path for path in PATHS if path not in self.at]
        if free:
            old, new = self.chance.choice(list(self.at)), self.chance.choice(free)
            os.rename(self.full(old), self.full(new))
            file = self.at[new] = self.at.pop(old)
            file.paths = file.paths - {old} | {new}

    def link(self) -> None:
        """Gives a file one more name."""
        free = [path for path in PATHS if path not in self.at]
        if free:
            old, new = self.chance.choice(list(self.at)), self.chance.choice(free)
            os.link(self.full(old), self.full(new))
            file = self.at[new] = self.at[old]
            file.paths |= {new}

    def unlink(self) -> None:
        """Takes one of a file's names away."""
        path = self.chance.choice(list(self.at))
        if len(self.at[path].paths) > 1:
            os.unlink(self.full(path))
            self.at.pop(path).paths.discard(path)

    def kill(self) -> None:
        """Kills a program."""
        it = self.living()
        if it is not None and it.store is not None:
            os.kill(it.store.pid, self.chance.choice((signal.SIGKILL, signal.SIGTERM)))
            expect(is_gone(it.store.pid), "a killed program")
            it.is_dead = True

    def kill_amid(self) -> None:
        """Kills a program amid a batch: what it acknowledged is there, and of the rest the first ones may be."""
        it = self.living()
        if it is None or it.store is None:
            return
        taken = {holder.path for holder in self.holders if holder is not it}
        path = next((path for path in it.file.paths if path not in taken), None)
        if path is None:
            return  # nobody could look behind it
        store, version, before = it.store, self.chance.choice(it.file.ends()), it.file.changes
        puts = [(self.chance.choice(KEYS), b"%d" % next(self.counter)) for _ in range(300)]
        timer = threading.Timer(self.chance.random() * 0.02, os.kill, (store.pid, signal.SIGKILL))
        batch = store.batch()
        timer.start()
        with contextlib.suppress(errors.Killed):
            for key, value in puts:
                batch.put(version, key, value)
            batch.finish()
        timer.join()
        answered = len(batch.results)
        expect(batch.results == [None] * answered, "a batch that was cut off")
        self.free(it)
        with self.opened(path) as store:
            kept = store.stat().changes - before
            expect(answered <= kept <= len(puts), (answered, kept))
            for key, value in puts[:kept]:
                it.file.versions[version][key] = value
            it.file.changes += kept
            self.expect_all(store, it.file)

    def free(self, it: Open) -> None:
        """Closes a store, whatever its program did."""
        assert it.store is not None
        it.scans.clear()
        with contextlib.suppress(errors.Killed):
            it.store.close()
        self.holders.remove(it)

    def close(self) -> None:
        """Closes a store. Its scans give what they have read, and no wrong pair."""
        it = self.some()
        if it is None or it.store is None:
            return
        scans = list(it.scans)
        self.free(it)
        self.refused(it, CastleError, lambda: it.store and it.store.get(0, b"a"))
        for scan, want in scans:
            got = []
            with contextlib.suppress(CastleError):
                for pair in scan:
                    got.append(pair)
            expect(got == want[:len(got)], "a scan of a closed store")

    def lose(self) -> None:
        """Nobody has a store any more, but for its scans; then it is free."""
        it = self.some()
        if it is None:
            return
        if self.chance.random() < 0.5:
            it.scans.clear()
        circle: List[object] = [it.store]
        if self.chance.random() < 0.5:
            circle.append(circle)
        it.store = None
        del circle
        gc.collect()
        if not it.scans:
            self.holders.remove(it)

    def interrupt(self) -> None:
        """A KeyboardInterrupt comes amid a command, at any moment; the store goes on."""
        it = self.living()
        if it is None or it.store is None:
            return
        store, version = it.store, self.chance.choice(it.file.ends())
        key, value = self.chance.choice(KEYS), b"%d" % next(self.counter)
        clones = self.chance.random() < 0.2 and len(it.file.versions) < 150 and not it.strays
        drops = not clones and version > 0 and self.chance.random() < 0.2 and self.at.get(it.path) is it.file
        self.due, seconds = KeyboardInterrupt(), self.chance.random() * 0.003 + 1e-5
        try:
            try:
                signal.setitimer(signal.ITIMER_REAL, seconds)
                if clones:
                    store.clone(version)
                elif drops:
                    store.drop(version)
                else:
                    store.put(version, key, value)
            finally:
                signal.setitimer(signal.ITIMER_REAL, LIMIT)
        except KeyboardInterrupt:
            pass
        self.due = None
        if clones:
            if store.stat().versions > len(it.file.versions):
                self.cloned(it, version)
        elif drops:
            if store.versions()[version] is None:  # which lets go of its names, where that was cut off
                self.dropped(it, version)
        else:
            found = store.get(version, key)
            expect(found in (value, it.file.versions[version].get(key)), "an interrupted put")
            if found == value:
                it.file.versions[version][key] = value
                it.file.changes += 1
        expect(store.stat()[:3:2] == (len(it.file.versions), it.file.changes), "the counts behind an interrupt")

    def end(self) -> None:
        """All is closed, and all files have what the model says."""
        for it in list(self.holders):
            if isinstance(it, Child):
                self.end_child(it, False)
            elif isinstance(it, Open) and it.store is not None:
                self.free(it)
            elif isinstance(it, Open):
                it.scans.clear()  # which alone hold its store
        self.holders.clear()
        gc.collect()
        self.end_lingering()
        for path in self.at:
            with self.opened(path) as store:
                self.expect_all(store, self.at[path])


@contextlib.contextmanager
def quiet() -> Iterator[None]:
    """Stores that nobody closes are no matter here, nor interrupts amid the end of an object. No program is killed that does not end."""
    before = sys.unraisablehook
    sys.unraisablehook = lambda _: None
    try:
        with warnings.catch_warnings(), mock.patch("castle.store.LIMIT", 6 * LIMIT):  # one that does not end is a hang
            warnings.simplefilter("ignore", ResourceWarning)
            yield
    finally:
        sys.unraisablehook = before


def run(folder: str, steps: int, seed: int) -> None:
    """So many steps in a folder. An AssertionError tells the last ones."""
    world = World(folder, seed)
    before = signal.signal(signal.SIGALRM, world.alarm)
    try:
        with quiet():
            for _ in range(steps):
                world.step()
            signal.setitimer(signal.ITIMER_REAL, 6 * LIMIT)
            world.log.append("end")
            world.end()
    except (Exception, Hang) as error:
        raise AssertionError(f"{error}: seed {seed}, step {len(world.log)} of {steps}: {' '.join(world.log[-30:])}") from error
    finally:
        signal.setitimer(signal.ITIMER_REAL, 0)
        signal.signal(signal.SIGALRM, before)
        with contextlib.suppress(OSError):
            world.end_lingering()


class PropertyTest(StoreCase):
    in_memory = True

    def test_whatever_happens_there_is_no_wrong_value_and_no_hang(self) -> None:
        run(self.folder, STEPS, SEED)


def main(words: List[str]) -> NoReturn:
    """Runs with other numbers, one seed after the other, until one fails or it is stopped."""
    steps, seed = int(words[0]) if words else STEPS, int(words[1]) if len(words) > 1 else SEED
    for number in itertools.count(seed) if len(words) < 2 else [seed]:
        with tempfile.TemporaryDirectory() as folder:
            run(folder, steps, number)
        print(f"seed {number}: {steps} steps", flush=True)
    sys.exit(0)


if __name__ == "__main__":
    main(sys.argv[1:])
