"""Many commands under way, and scans amid them."""

import itertools
import os
import random
import struct
import threading
from array import array
from typing import Dict, List, Optional, Sequence, Set, Tuple, Type

from support import StoreCase, is_gone

from castle import Info, Page, Scan, Stat, errors, frames
from castle.errors import Refused
from castle.frames import Pair
from castle.program import Heard

PIECE = 256  # pairs that a scan reads at a time


class Versions:
    """A plain dictionary of versions, which says what each command should give."""

    def __init__(self, versions_max: int) -> None:
        self.versions_max = versions_max
        self.pairs: List[Dict[bytes, bytes]] = [{}]
        self.parents: List[Optional[int]] = [None]
        self.dropped: Set[int] = set()
        self.updates = self.changes = 0
        self.cursors = 0

    def info(self, version: int) -> Info:
        depth, at = 0, self.parents[version]
        while at is not None:
            depth, at = depth + 1, self.parents[at]
        return Info(self.parents[version], depth, self.is_frozen(version))

    def living(self) -> List[int]:
        """The versions that were not dropped."""
        return [version for version in range(len(self.pairs)) if version not in self.dropped]

    def refusal(self, version: int) -> Optional[Type[Refused]]:
        """What a command of a version is refused with that is not there; None where it is."""
        return errors.UnknownVersion if version >= len(self.pairs) else errors.Dropped if version in self.dropped else None

    def is_frozen(self, version: int) -> bool:
        """Whether a version has a child that was not dropped."""
        return any(parent == version and child not in self.dropped for child, parent in enumerate(self.parents))

    def range(self, version: int, lower: bytes, upper: bytes) -> List[Pair]:
        """The pairs of a range."""
        return [pair for pair in sorted(self.pairs[version].items()) if lower <= pair[0] and (not upper or pair[0] < upper)]

    def answer(self, command: str, version: int, *words: bytes) -> object:
        """What a command gives; a refusal by its class."""
        if command == "stat":
            return Stat(len(self.pairs), self.updates, self.changes, self.cursors)
        if self.refusal(version):
            return self.refusal(version)
        if command == "page":
            found = self.range(version, *words)
            return Page(found[:PIECE], len(found) > PIECE)
        if command == "get":
            return self.pairs[version].get(*words)
        if command == "info":
            return self.info(version)
        if command == "clone":
            if len(self.pairs) == self.versions_max:
                return errors.VersionLimit
            self.pairs.append(dict(self.pairs[version]))
            self.parents.append(version)
            self.changes += 1
            return len(self.pairs) - 1
        if command == "drop" and not version:
            return errors.Root
        if self.is_frozen(version):
            return errors.Frozen
        self.changes += 1
        if command == "drop":
            self.dropped.add(version)
            self.pairs[version] = {}
            return None
        self.updates += 1
        if command == "put":
            self.pairs[version][words[0]] = words[1]
        else:
            self.pairs[version].pop(words[0], None)
        return None


def drawn(chance: random.Random, plain: Versions) -> Tuple[str, int, Tuple[bytes, ...]]:
    """A command, a version that may be there, and the command's words."""
    versions = len(plain.pairs)
    command = chance.choices(("put", "delete", "get", "clone", "drop", "info", "stat"), (30, 10, 50, 2, 1, 5, 4))[0]
    version = chance.choice((chance.randrange(max(0, versions - 6), versions + 1), chance.choice(plain.living()[-6:])))
    key = b"key/%d" % chance.randrange(60)
    words = {"put": (key, chance.randbytes(chance.choice((0, 3, 60, 1024)))), "delete": (key,), "get": (key,)}
    return command, version, words.get(command, ())


class Reading:
    """A scan that is being read, with the pairs that it should give, and when its cursor is open."""

    def __init__(self, scan: Scan, plain: Versions, pairs: List[Pair]) -> None:
        self.scan = scan
        self.plain = plain
        self.pairs = pairs
        self.given = self.read = 0  # of the pairs
        self.is_open = True
        plain.cursors += 1

    def take(self, count: int) -> Tuple[List[Pair], List[Pair]]:
        """The next pairs of the scan, and those that they should be."""
        got = list(itertools.islice(self.scan, count))
        want = self.pairs[self.given:self.given + count]
        self.given += len(want)
        while self.is_open and (self.read < self.given or len(want) < count):
            self.read += PIECE
            if self.read >= len(self.pairs):
                self.end()
        return got, want

    def end(self) -> None:
        """Its cursor is closed."""
        self.plain.cursors -= self.is_open
        self.is_open = False


def kinds_told(results: Sequence[object]) -> List[object]:
    """Results with the class and the text in the place of each error."""
    return [(type(result), str(result)) if isinstance(result, errors.CastleError) else result for result in results]


def kinds(results: List[object]) -> List[object]:
    """Results with the class in the place of each refusal."""
    return [type(result) if isinstance(result, Refused) else result for result in results]


def alike(got: Sequence[object], want: Sequence[object]) -> Tuple[List[object], List[object]]:
    """Both, but what was asked of a version before it was made is wanted as it is told at the end of a batch."""
    return list(got), [one if one is errors.Dropped and other is errors.UnknownVersion else other for one, other in zip(got, want)]


class BatchTest(StoreCase):
    def test_ten_thousand_commands_give_what_a_dictionary_of_versions_does(self) -> None:
        chance, plain, want = random.Random(22), Versions(150), []
        store = self.made(256, 100000, 150)
        with store.batch(return_exceptions=True) as batch:
            for _ in range(10000):
                command, version, words = drawn(chance, plain)
                getattr(batch, command)(*(() if command == "stat" else (version, *words)))
                want.append(plain.answer(command, version, *words))
        got = kinds(list(batch.results))
        self.assertEqual(len(got), 10000)
        self.assertEqual(*alike(got, want))
        seen = {kind for kind in want if isinstance(kind, type)}
        self.assertEqual(seen, {errors.UnknownVersion, errors.Dropped, errors.Root, errors.Frozen, errors.VersionLimit})
        store.close()
        store = self.opened()
        again = store.batch()
        living = plain.living()
        self.assertEqual([version for version, info in enumerate(store.versions()) if info is not None], living)
        for version in living:
            for number in range(60):
                again.get(version, b"key/%d" % number)
        self.assertEqual(again.finish(), [plain.pairs[version].get(b"key/%d" % number) for version in living for number in range(60)])

    def test_full_pipes_block_nobody(self) -> None:
        store = self.made()
        store.put(0, "a", b"v" * 1024)
        key = b"k" * 255
        with store.batch() as batch:
            for _ in range(20000):
                batch.get(0, b"a")
                batch.get(0, key)
        self.assertEqual(batch.results, [b"v" * 1024, None] * 20000)

    def test_the_first_refusal_is_raised_and_the_rest_is_done(self) -> None:
        store = self.made()
        with self.assertRaises(errors.UnknownVersion) as caught, store.batch() as batch:
            batch.put(0, "a", "1")
            batch.put(7, "b", "2")
            batch.put(8, "c", "3")
            batch.put(0, "d", "4")
        self.assertEqual(caught.exception.command, "put b at version 7")
        self.assertEqual(kinds(list(batch.results)), [None, errors.UnknownVersion, errors.UnknownVersion, None])
        self.assertEqual((store.get(0, "a"), store.get(0, "d")), (b"1", b"4"))

    def test_what_the_package_refuses_is_among_the_results(self) -> None:
        store = self.made()
        store.names["first"] = 0
        long = b"k" * 2100
        for returns in (True, False):
            batch = store.batch(return_exceptions=returns)
            batch.put(0, "a", "1")
            batch.put(0, long, "")
            batch.get("first", "a")
            batch.get(2 ** 32, "a")
            batch.get("none", "a")
            batch.page(0, long)
            batch.page(0, limit=2 ** 16)
            batch.delete(0, long)
            batch.put(0, "a", long)
            batch.clone(-1)
            batch.get(0, "k" * 300)  # the program refuses this one
            batch.get(0, "a")
            if returns:
                batch.finish()
            else:
                with self.assertRaises(errors.KeySize):
                    batch.finish()
            self.assertEqual([type(result) if isinstance(result, errors.CastleError) else result for result in batch.results],
                             [None, errors.KeySize, b"1", errors.UnknownVersion, errors.UnknownName, errors.KeySize,
                              errors.ScanSize, errors.KeySize, errors.ValueSize, errors.UnknownVersion, errors.KeySize, b"1"])
        with self.assertRaises(TypeError):
            store.batch(return_exceptions=True).put(0, 5, b"")  # type: ignore[arg-type]

    def test_an_update_puts_as_single_puts_do(self) -> None:
        store = self.made(256, 100000, 10)
        store.clone(0)
        long, pairs = b"k" * 2100, [(b"%05d" % number, b"%d" % number) for number in range(1300)]
        given = [*pairs[:700], ("text", "é"), (bytearray(b"b"), memoryview(b"m")), (memoryview(array("H", [97, 98])), b"h"), *pairs[700:900],
                 (long, b""), (b"a", long), (b"", b"1"), (b"k" * 256, b""), [b"list", b"1"], *pairs[900:]]
        for kind in (list, tuple, iter):
            for version in (1, 0, 5, -1, "none"):
                one, all_at_once = store.batch(return_exceptions=True), store.batch(return_exceptions=True)
                for key, value in given:
                    one.put(version, key, value)
                all_at_once.update(version, kind(given))
                self.assertEqual(kinds_told(all_at_once.finish()), kinds_told(one.finish()))
        self.assertEqual(sum(result is None for result in all_at_once.results), 0)
        self.assertEqual(dict(store.scan(1)), {**dict(pairs), b"text": "é".encode(), b"b": b"m", b"a\0b\0": b"h", b"list": b"1"})
        again = store.batch()
        again.update(1, {key: b"again" for key, _ in pairs}.items())
        self.assertEqual((again.finish(), store.get(1, "00000")), ([None] * 1300, b"again"))

    def test_an_update_ends_at_what_is_no_pair(self) -> None:
        store = self.made(256, 100000, 20)
        pairs = [(b"%05d" % number, b"") for number in range(600)]
        for wrong, error in ((5, TypeError), ((b"a",), ValueError), ((b"a", b"b", b"c"), ValueError), ((b"a", 5), TypeError), (b"ab", TypeError)):
            for kind in (list, iter):
                version, batch = store.clone(0), store.batch()
                with self.assertRaises(error):
                    batch.update(version, kind([*pairs, wrong, (b"behind", b"")]))
                self.assertEqual(batch.finish(), [None] * 600)
                self.assertEqual([key for key, _ in store.scan(version)], [key for key, _ in pairs])

    def test_what_gives_the_pairs_of_an_update_may_use_the_store(self) -> None:
        store = self.made()
        with store.batch() as batch:
            batch.update(0, ((key, (store.get(0, key) or b"") + b"x") for key in ("a", "b", "a", "a")))
        self.assertEqual(dict(store.scan(0)), {b"a": b"xxx", b"b": b"x"})

    def test_a_reply_amid_many_that_is_not_its_commands_is_told(self) -> None:
        program = self.made()._program
        commands, right = [frames.put(2 + number, 0, b"a", b"") for number in range(20)], frames.dones(2, 20)
        for place in range(20):
            tag = struct.pack(">I", 2 + place)
            for length, told, status, behind in ((5, tag, 0, b""), (5, b"\0\0\1\0", 0, b""), (5, tag, 7, b""), (4, tag, 0, b""), (5, tag, 0, b"x")):
                fault = struct.pack(">I4sB", length, told, status)
                wrong = right[:9 * place] + fault + right[9 * place + 9:] + behind
                answers, _, done, what = program._parsed(Heard(2, commands, 0, b"", [wrong], [], iter(())))
                if (length, told, status, behind) == (5, tag, 0, b""):
                    self.assertEqual((answers, done, what), ([None] * 20, 20, ""))
                elif behind:
                    self.assertEqual((answers, what), ([None] * 20, "a reply came that is to no command"))
                else:
                    self.assertTrue(what)
                    self.assertIn(len(answers), (place, place + (length == 4)))

    def test_results_may_be_taken_away_while_a_batch_is_filled(self) -> None:
        store, got = self.made(), []  # type: ignore[var-annotated]
        store.put(0, "a", "1")
        with store.batch() as batch:
            for _ in range(20000):
                batch.get(0, "a")
                got += batch.results
                batch.results.clear()
        self.assertEqual(got + batch.results, [b"1"] * 20000)

    def test_batches_and_single_commands_may_be_mixed(self) -> None:
        store = self.made()
        first, second = store.batch(), store.batch()
        first.put(0, "a", "1")
        second.get(0, "a")
        self.assertEqual(store.get(0, "a"), b"1")
        first.put(0, "a", "2")
        self.assertEqual(store.get(0, "a"), b"2")
        second.get(0, "a")
        first.get(0, "a")
        self.assertEqual((first.finish(), second.finish()), ([None, None, b"2"], [b"1", b"2"]))

    def test_an_exception_in_the_block_is_not_hidden(self) -> None:
        store = self.made()
        with self.assertRaises(ZeroDivisionError), store.batch() as batch:
            batch.put(0, "a", "1")
            batch.put(3, "a", "1")
            raise ZeroDivisionError
        self.assertEqual(store.get(0, "a"), b"1")

    def test_a_batch_that_is_not_finished_is_carried_out_at_the_close(self) -> None:
        with self.made() as store:
            batch = store.batch()
            batch.put(0, "a", "1")
        self.assertEqual(batch.results, [None])
        self.assertEqual(self.opened().get(0, "a"), b"1")

    def test_a_batch_that_is_filled_behind_the_end_of_the_program_is_told(self) -> None:
        store = self.made()
        batch = store.batch()
        os.kill(store.pid, 9)
        self.assertTrue(is_gone(store.pid))
        with self.assertRaises(errors.Killed):
            for _ in range(20000):  # which is more than what waits unsent
                batch.get(0, b"a")

    def test_a_program_killed_amid_a_batch_loses_nothing_acknowledged(self) -> None:
        chance, amid = random.Random(5), 0
        for turn in range(5):
            self.path = os.path.join(self.folder, f"{turn}.store")
            store = self.made(64, 16_000_000, 10)
            timer = threading.Timer(chance.random() / 4, os.kill, (store.pid, 9))
            waits = turn > 0  # for a first reply, which a slow disk may keep back
            with self.assertRaises(errors.Killed) as caught, store.batch() as batch:
                for number in itertools.count():
                    if timer.ident is None and not (waits and not batch.results):
                        timer.start()
                    batch.put(0, b"%d" % (number % 1000), b"%d" % number)
            timer.join()
            done = len(batch.results)
            self.assertEqual(caught.exception.command, f"put {done % 1000} at version 0")
            self.assertEqual(set(batch.results), {None} if done else set())
            store.close()
            with self.opened() as store:
                kept = store.stat().changes
                self.assertGreaterEqual(kept, done)
                gets = store.batch()
                for number in range(1000):
                    gets.get(0, b"%d" % number)
                last = {number % 1000: b"%d" % number for number in range(kept)}
                self.assertEqual(gets.finish(), [last.get(number) for number in range(1000)])
            amid += done > 0
        self.assertGreater(amid, 0)


class ReadingTest(StoreCase):
    in_memory = True

    def test_scans_amid_commands_give_what_a_dictionary_of_versions_does(self) -> None:
        chance, plain, store = random.Random(29), Versions(60), self.made(8, 100000, 60)
        keys = [b"key/%03d" % number for number in range(700)]
        readings: List[Reading] = []
        want: List[object] = []
        seen: Set[Optional[Type[Refused]]] = set()
        with store.batch() as filling:
            for key in keys[::2]:
                filling.put(0, key, b"")
                plain.answer("put", 0, key, b"")
        batch = store.batch(return_exceptions=True)
        for number in range(3000):
            last = range(max(0, len(plain.pairs) - 4), len(plain.pairs) + 1)
            version, key = chance.choice(last if chance.random() < 0.03 else plain.living()[-4:]), chance.choice(keys)
            draw = chance.choices(("change", "clone", "drop", "page", "stat", "open", "read", "end"), (44, 2, 1, 3, 5, 16, 22, 6))[0]
            if draw == "open":
                lower, upper = chance.choice((b"", b"", key, key + b"\0")), chance.choice((b"", b"", b"", chance.choice(keys)))
                fails = plain.refusal(version) or (errors.CursorLimit if plain.cursors == 64 else None)
                try:
                    readings.append(Reading(store.scan(version, lower, upper), plain, plain.range(version, lower, upper)))
                    self.assertIsNone(fails)
                except (errors.UnknownVersion, errors.CursorLimit) as refusal:
                    self.assertIs(type(refusal), fails)
                seen.add(fails)
            elif draw in ("read", "end") and readings:
                reading = readings[chance.randrange(len(readings))]
                if draw == "read":
                    got, wanted = reading.take(chance.choice((1, 10, 256, 1000)))
                    self.assertEqual(got, wanted, f"scan at command {number}")
                else:
                    readings.remove(reading)
                    reading.end()
                    if chance.random() < 0.5:
                        reading.scan.close()
                    del reading
            elif draw not in ("read", "end"):
                words = {"change": (key, b"%d" % number), "page": (key, b"")}.get(draw, ())
                command = chance.choice(("put", "put", "delete")) if draw == "change" else draw
                words = words[:1] if command == "delete" else words
                getattr(batch, command)(*(() if command == "stat" else (version, *words)))
                want.append(plain.answer(command, version, *words))
        self.assertEqual(*alike(kinds(batch.finish()), want))
        self.assertEqual((len(batch.results), seen), (len(want), {None, errors.UnknownVersion, errors.Dropped, errors.CursorLimit}))
        for reading in readings:
            self.assertEqual(*reading.take(1000))
        self.assertEqual((store.stat().cursors, plain.cursors), (0, 0))
