"""A hub under fifty clients at once, some of which are killed amid their commands."""

import ast
import os
import random
import signal
import time
from typing import Any, Dict, Iterator, List, NamedTuple, Optional

from hubs import PATIENCE, HubCase
from support import in_child

from castle import Store

CLIENTS = 50
KILLED = range(0, CLIENTS, 4)
TURNS = 30  # of a client that is not killed
SHARED_KEYS = [b"shared/%d" % number for number in range(5)]
FOREVER = float("inf")

Pairs = Dict[bytes, bytes]


class Log:
    """A file in which a client notes what it begins, and then what came of it. It outlives the client."""

    def __init__(self, path: str) -> None:
        self.path = path
        self._number = os.open(path, os.O_WRONLY | os.O_APPEND | os.O_CREAT, 0o600)

    def note(self, *words: object) -> None:
        """Adds a line. The file has it once this returns."""
        os.write(self._number, f"{words!r}\n".encode())

    def close(self) -> None:
        """Notes no more."""
        os.close(self._number)

    def count(self) -> int:
        """How many lines there are."""
        with open(self.path, "rb") as file:
            return file.read().count(b"\n")

    def lines(self) -> List[Any]:
        """What was noted so far."""
        with open(self.path, encoding="utf-8") as file:
            return [ast.literal_eval(line) for line in file]


class Worker:
    """A client that alone writes its version, and one of many that write a shared one."""

    def __init__(self, store: Store, log: Log, mine: int, version: int, shared: int, base: Pairs) -> None:
        self.store, self.log, self.mine, self.version, self.shared = store, log, mine, version, shared
        self.chance, self.pairs, self.scan = random.Random(mine), dict(base), None  # type: random.Random, Pairs, Any

    def turn(self, number: int) -> None:
        """One command or several, drawn, with what they have to give."""
        draw = self.chance.choice((self.put, self.put, self.delete, self.batch, self.get, self.read, self.clone, self.look,
                                   self.put_shared, self.put_shared, self.get_shared, self.get_shared))
        draw(b"%d of %d" % (number, self.mine))

    def key(self) -> bytes:
        return b"%d" % self.chance.randrange(20)

    def updated(self, updates: List[Any], run: Any) -> None:
        """Notes updates of the own version around the call that makes them."""
        self.log.note("begin", updates)
        run()
        self.log.note("end")
        applied(self.pairs, updates)

    def put(self, value: bytes) -> None:
        key = self.key()
        self.updated([(key, value)], lambda: self.store.put(self.version, key, value))

    def delete(self, _: bytes) -> None:
        key = self.key()
        self.updated([(key, None)], lambda: self.store.delete(self.version, key))

    def batch(self, value: bytes) -> None:
        updates = [(self.key(), b"%d: " % number + value) for number in range(10)]
        batch = self.store.batch()
        for key, new in updates:
            batch.put(self.version, key, new)
        self.updated(updates, batch.finish)

    def get(self, _: bytes) -> None:
        key = self.key()
        assert self.store.get(self.version, key) == self.pairs.get(key), "a get"

    def read(self, _: bytes) -> None:
        assert list(self.store.scan(self.version)) == sorted(self.pairs.items()), "a scan"
        self.scan = self.store.scan(self.version)  # which stays open for a while
        assert next(self.scan, None) == min(self.pairs.items(), default=None), "the first pair"

    def look(self, _: bytes) -> None:
        assert not self.store.info(self.version).frozen, "the own version is frozen"
        page = self.store.page(self.version, limit=3)
        assert page == (sorted(self.pairs.items())[:3], len(self.pairs) > 3), "a page"

    def clone(self, _: bytes) -> None:
        self.log.note("clone", self.version)
        made = self.store.clone(self.version)
        self.log.note("made", made)
        assert self.store.info(made).parent == self.version, "the clone is another's"
        self.version = made

    def put_shared(self, value: bytes) -> None:
        key = self.chance.choice(SHARED_KEYS)
        self.log.note("write", time.monotonic(), key, value)
        self.store.put(self.shared, key, value)
        self.log.note("written", time.monotonic())

    def get_shared(self, _: bytes) -> None:
        key, began = self.chance.choice(SHARED_KEYS), time.monotonic()
        value = self.store.get(self.shared, key)
        self.log.note("read", began, key, value, time.monotonic())


def applied(pairs: Pairs, updates: List[Any]) -> Pairs:
    """Pairs after these updates."""
    for key, value in updates:
        if value is None:
            pairs.pop(key, None)
        else:
            pairs[key] = value
    return pairs


class Write(NamedTuple):
    """A put at the shared version. One that was not acknowledged ends never."""

    value: bytes
    began: float
    ended: float


def may_be_read(value: Optional[bytes], began: float, ended: float, writes: List[Write]) -> bool:
    """Whether a get between these times may give this value: no other put came wholly between its put and the get."""
    written = -FOREVER
    if value is not None:
        own = [write for write in writes if write.value == value]
        if not own or own[0].began > ended:
            return False
        written = own[0].ended
    return not any(write.began > written and write.ended < began for write in writes)


class CrowdTest(HubCase):
    def worked(self, mine: int, version: int, shared: int) -> None:
        """What a client does, in a process of its own."""
        with Store(self.address) as store:
            worker = Worker(store, self.logs[mine], mine, version, shared, {b"base": b"0"})
            number = 0
            while number < TURNS or mine in KILLED:
                worker.turn(number)
                number += 1
        self.logs[mine].note("done")

    def killed(self, pids: List[int]) -> None:
        """Kills some clients, each once it has done a drawn part of its work."""
        chance, deadline = random.Random(1), time.monotonic() + PATIENCE
        left = {mine: chance.randrange(1, 2 * TURNS) for mine in KILLED}
        while left:
            self.assertLess(time.monotonic(), deadline, f"{len(left)} clients don't come so far")
            for mine, count in list(left.items()):
                if self.logs[mine].count() >= count:
                    os.kill(pids[mine], signal.SIGKILL)
                    del left[mine]
            time.sleep(0.002)

    def possible(self, mine: int, version: int) -> Iterator[Any]:
        """The versions of a client that it knew of, each with the contents that it may have."""
        pairs: Pairs = {b"base": b"0"}
        begun: List[Any] = []
        for word, *rest in self.logs[mine].lines():
            if word == "begin":
                begun = rest[0]
            elif word == "end":
                pairs, begun = applied(dict(pairs), begun), []
            elif word == "made":
                yield version, [dict(pairs)]
                version = rest[0]
        yield version, [applied(dict(pairs), begun[:count]) for count in range(len(begun) + 1)]

    def shared_writes(self) -> Dict[bytes, List[Write]]:
        """Each put at the shared version that any client began."""
        writes: Dict[bytes, List[Write]] = {key: [] for key in SHARED_KEYS}
        for log in self.logs:
            lines = log.lines()
            for (word, *rest), (_, *after) in zip(lines, [*lines[1:], ("never", FOREVER)]):
                if word == "write":
                    writes[rest[1]].append(Write(rest[2], rest[0], after[0]))
        return writes

    def test_fifty_clients_of_which_some_are_killed_leave_what_they_were_told(self) -> None:
        self.served(limits=(256, 1000000, 16384))
        with Store(self.address) as store:
            store.put(0, "base", "0")
            versions = [store.clone(0) for _ in range(CLIENTS)]
            shared = store.clone(0)
        self.logs = [Log(os.path.join(self.folder, f"log{mine}")) for mine in range(CLIENTS)]
        for log in self.logs:
            self.addCleanup(log.close)
        pids = [in_child(lambda mine=mine: self.worked(mine, versions[mine], shared), PATIENCE) for mine in range(CLIENTS)]
        self.killed(pids)
        for mine, pid in enumerate(pids):
            self.assertEqual(os.waitpid(pid, 0)[1], signal.SIGKILL if mine in KILLED else 0, f"client {mine}")
        now, store, made = time.monotonic(), self.client(), 0
        for mine, version in enumerate(versions):
            for number, contents in self.possible(mine, version):
                self.assertIn(dict(store.scan(number)), contents, f"version {number} of client {mine}")
                made += 1
        self.assertIn(store.stat().versions - 2, range(made, made + len(KILLED) + 1))
        for key, writes in self.shared_writes().items():
            self.assertTrue(may_be_read(store.get(shared, key), now, now, writes), f"what {key!r} has in the end")
            for log in self.logs:
                for _, began, read, value, ended in (line for line in log.lines() if line[0] == "read"):
                    self.assertTrue(read != key or may_be_read(value, began, ended, writes), f"{value!r} of {key!r}")
        self.assertGreater(len([line for log in self.logs for line in log.lines() if line[0] == "read"]), 100)
        while store.stat().cursors:
            time.sleep(0.01)
        self.assertEqual(self.ended(signal.SIGTERM), (0, ""))
