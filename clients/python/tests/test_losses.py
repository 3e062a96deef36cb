"""Which keys a version may miss, and the bytes of a store's file, without a program."""

from __future__ import annotations

import itertools
import os
import random
import tempfile
import unittest
from typing import Dict, List, Optional, Tuple

import damaged
from damaged import BLOCK, formats

from castle import Unsound, agreement, fileform, losses
from castle.fileform import Array, Block, Entry, Level
from castle.losses import WHOLE, Range, Segment, Tree, key_behind, lost_by, segments

Place = Tuple[bytes, int]


class RangeTest(unittest.TestCase):
    def test_the_next_key_is_the_least_behind(self) -> None:
        longest = b"k" * 254
        for key, behind in ((b"", b"\0"), (b"a", b"a\0"), (longest, longest + b"\0"), (longest + b"\0", longest + b"\1"),
                            (longest + b"\xff", b"k" * 253 + b"l"), (b"\xff" * 255, None)):
            self.assertEqual(key_behind(key), behind, key)

    def test_segments_have_the_shallowest_level_that_misses_entries(self) -> None:
        a, c, e = b"a", b"c", b"e"
        for lost, wanted in (
            ([], [(b"", None, None)]),
            ([(b"", None, 2)], [(b"", None, 2)]),
            ([(a, c, 1)], [(b"", a, None), (a, c, 1), (c, None, None)]),
            ([(a, e, 3), (b"b", c, 1)], [(b"", a, None), (a, b"b", 3), (b"b", c, 1), (c, e, 3), (e, None, None)]),
            ([(a, c, 2), (c, e, 2)], [(b"", a, None), (a, e, 2), (e, None, None)]),
            ([(a, None, 2), (c, e, 2), (b"", c, 5)], [(b"", a, 5), (a, None, 2)]),
        ):
            found = segments((Range(lower, upper), level) for lower, upper, level in lost)
            self.assertEqual(found, [Segment(Range(lower, upper), level) for lower, upper, level in wanted], lost)

    def test_ranges_that_are_lost_in_a_row_are_one(self) -> None:
        parts = segments([(Range(b"a", b"e"), 3), (Range(b"b", b"c"), 1), (Range(b"x", None), 1)])
        self.assertEqual(losses.ranges(parts), [Range(b"a", b"e"), Range(b"x", None)])
        self.assertEqual(losses.ranges(WHOLE), [])

    def test_a_tree_knows_who_sees_whom(self) -> None:
        chance = random.Random(3)
        for _ in range(30):
            parents: List[Optional[int]] = [None, *(chance.randrange(version) for version in range(1, chance.randrange(2, 20)))]
            tree = Tree(parents)
            for version, other in itertools.product(range(len(parents)), range(len(parents) + 2)):
                at: Optional[int] = version
                while at is not None and at > other:
                    at = parents[at]
                self.assertEqual(tree.sees(version, other), at == other, (parents, version, other))
            for horizon in range(1, len(parents) + 2):
                wanted = [formats.below(version, horizon, parents[1:]) for version in range(len(parents))]
                self.assertEqual(tree.readers(horizon), wanted)


class GapTest(unittest.TestCase):
    """Arrays of random entries that lose blocks: what changes at a version lies in a range that is told, and ranges are close."""

    def drawn(self, chance: random.Random) -> Tuple[List[Optional[int]], List[List[Place]]]:
        """The parents of versions, and the entries of blocks."""
        parents: List[Optional[int]] = [None, *(chance.randrange(version) for version in range(1, chance.randrange(2, 9)))]
        places = {(b"%d" % chance.randrange(6), chance.randrange(len(parents))) for _ in range(chance.randrange(1, 30))}
        entries = sorted(places, key=lambda entry: (entry[0], -entry[1]))
        size = chance.randrange(1, 5)
        return parents, [entries[at:at + size] for at in range(0, len(entries), size)]

    @staticmethod
    def block_of(entries: List[Place]) -> Block:
        last = entries[-1][0]
        return Block(entries[0], entries[-1], tuple(version for _, version in entries),
                     tuple(version for key, version in entries if key == last))

    @staticmethod
    def live(tree: Tree, reader: int, blocks: List[List[Place]]) -> Dict[bytes, int]:
        """For each key the version of the entry that the reader sees."""
        found: Dict[bytes, int] = {}
        for key, version in (entry for block in blocks for entry in block):
            if tree.sees(reader, version):
                found[key] = max(version, found.get(key, version))
        return found

    def test_what_a_version_misses_lies_in_a_range_that_is_told(self) -> None:
        chance = random.Random(5)
        for turn in range(1500):
            parents, blocks = self.drawn(chance)
            tree, gone = Tree(parents), set(chance.sample(range(len(blocks)), chance.randrange(1, len(blocks) + 1)))
            array = Array(1, 0, 0, 0, (), tuple(range(len(parents))))
            seen = [None if at in gone else self.block_of(block) for at, block in enumerate(blocks)]
            gaps = list(losses.gaps_in(Level(1, len(parents), (array,)), array, seen))
            left = [block for at, block in enumerate(blocks) if at not in gone]
            for reader in range(len(parents)):
                told = [found for found in (lost_by(gap, reader, tree) for gap in gaps) if found]
                before, after = self.live(tree, reader, blocks), self.live(tree, reader, left)
                for key in before:
                    is_told = any(it.lower <= key and (it.upper is None or key < it.upper) for it in told)
                    self.assertTrue(is_told or after.get(key) == before[key], (turn, reader, key))
                # a key that is told may have an entry in a gap that this version would see
                for key in before:
                    if any(it.lower <= key and (it.upper is None or key < it.upper) for it in told):
                        self.assertTrue(self.may_miss(tree, reader, key, seen), (turn, reader, key))

    @staticmethod
    def may_miss(tree: Tree, reader: int, key: bytes, seen: List[Optional[Block]]) -> bool:
        """Whether an entry of this key that the reader sees fits a gap, in front of any that it sees in a block."""
        for version in [other for other in range(reader, -1, -1) if tree.sees(reader, other)]:
            place = (key, -version)
            behind = [at for at, block in enumerate(seen) if block and (block.first[0], -block.first[1]) <= place]
            first = behind[-1] if behind else -1
            at = seen[first] if first >= 0 else None
            if at is not None and place <= (at.last[0], -at.last[1]):
                if place == (at.last[0], -at.last[1]) or place == (at.first[0], -at.first[1]):
                    return False  # it is known
                continue  # within a block: the test doesn't know whether it has it
            if first + 1 < len(seen) and seen[first + 1] is None:
                return True
        return False


class AgreementTest(unittest.TestCase):
    """Arrays of a level agree where the level is sound, whichever of their blocks are damaged; a copy that is another is seen."""

    def arrays(self, chance: random.Random) -> Tuple[Level, Tree, List[List[List[Entry]]]]:
        """A sound level, and the entries of the blocks of its arrays."""
        store = chance.choice(self.stores)
        contents = formats.read(store.data)
        level = chance.choice(contents.manifest.levels)
        blocks = [[[tuple(entry) for entry in formats.entries_in(formats.block_at(store.data, number))] for number in formats.blocks_of(array)]
                  for array in level.arrays]
        return Level(*level), Tree((None, *contents.manifest.parents)), blocks

    def setUp(self) -> None:
        self.stores = damaged.stores(14)

    def test_a_sound_level_agrees_whatever_is_damaged(self) -> None:
        chance = random.Random(15)
        for _ in range(150):
            level, tree, blocks = self.arrays(chance)
            seen = [[block if chance.random() < 0.8 else None for block in part] for part in blocks]
            self.assertIsNone(agreement.broken(level, seen, tree))
            self.assertIsNone(agreement.broken(level, blocks, tree))

    def test_a_copy_with_another_value_is_seen_where_no_block_is_damaged(self) -> None:
        chance, found = random.Random(16), 0
        for _ in range(300):
            level, tree, blocks = self.arrays(chance)
            at = chance.randrange(len(blocks))
            block = chance.choice(blocks[at])
            place = chance.randrange(len(block))
            key, version, value = block[place]
            if version in level.arrays[at].versions:
                continue
            block[place] = key, version, (value or b"") + b"x"
            entries = [entry for part in blocks[at] for entry in part]
            sees = any(self.live(entries, key, reader, tree) == version for reader in level.arrays[at].versions)
            self.assertEqual(agreement.broken(level, blocks, tree), Unsound("c", level.number, level.arrays[at].id) if sees else None)
            found += sees
        self.assertGreater(found, 10)

    @staticmethod
    def live(entries: List[Entry], key: bytes, reader: int, tree: Tree) -> Optional[int]:
        """The version of the entry that a version sees."""
        return max((version for name, version, _ in entries if name == key and tree.sees(reader, version)), default=None)


class FormTest(unittest.TestCase):
    """What is read of a file is what the tests' own reader reads."""

    def test_superblock_and_manifest(self) -> None:
        for store in damaged.stores(11):
            contents = formats.read(store.data)
            with tempfile.TemporaryFile() as file:
                file.write(store.data)
                file.flush()
                head = fileform.read_head(file.fileno())
                manifest = fileform.read_manifest(file.fileno(), head)
            self.assertEqual(head[1:], tuple(contents.head)[2:])
            self.assertEqual(manifest.parents, contents.manifest.parents)
            self.assertEqual([tuple(level) for level in manifest.levels], [tuple(level) for level in contents.manifest.levels])
            self.assertEqual(fileform.manifest_bytes(manifest), formats.spelled(contents.manifest, contents.head.form))

    def test_another_format_is_told(self) -> None:
        for data, what in ((formats.head_bytes(formats.new_head(4, 10, 10)._replace(form=3)), "it has format 3"), (bytes(8192), "no superblock")):
            with tempfile.TemporaryFile() as file:
                file.write(data)
                file.flush()
                self.assertRaisesRegex(ValueError, what, fileform.read_head, file.fileno())

    def test_blocks(self) -> None:
        chance, counts = random.Random(12), {True: 0, False: 0}
        with tempfile.TemporaryFile() as file:
            for store in damaged.stores(12):
                for number in store.blocks:
                    block = bytearray(store.data[number * BLOCK:(number + 1) * BLOCK].ljust(BLOCK, b"\0"))
                    for _ in range(40):
                        wrong = bytearray(block)
                        for _ in range(chance.randrange(2)):
                            wrong[chance.choice((0, 1, 3, 4, 5, 8, 12, 20, 40, 4095))] = chance.randrange(256)
                        counts[self.compared(file.fileno(), bytes(wrong))] += 1
        self.assertGreater(min(counts.values()), 100, counts)

    def compared(self, file: int, block: bytes) -> bool:
        """Whether a block has entries, by both readers."""
        os.pwrite(file, block, 0)
        found, entries = fileform.read_entries(file, 0), formats.entries_in(block)
        self.assertEqual(found is None, entries is None)
        if found is not None:
            self.assertEqual(found, [tuple(entry) for entry in entries])
            self.assertEqual(fileform.block_of(found), GapTest.block_of([entry[:2] for entry in entries]))
        return found is not None

    def test_extents_without_blocks(self) -> None:
        for gone, left in (({4}, [(2, 2), (5, 1), (9, 1)]), ({2, 9}, [(3, 3)]), ({2, 3, 4, 5, 9}, []), ({7}, [(2, 4), (9, 1)])):
            self.assertEqual(list(fileform.without([(2, 4), (9, 1)], gone)), left)
        self.assertEqual(fileform.without([(2, 1), (9, 1), (3, 1)], {9}), ((2, 2),))


if __name__ == "__main__":
    unittest.main()
