"""The levels of a store: read, told by the real program, drawn as text and as a picture."""

import os
import unittest
from typing import List

from support import StoreCase

from castle import Array, Level, Levels, Store, errors, levels, picture_levels

TEXT = """store generation 2 mem 8 changes 9 of 100 versions 4 of 10
journal changes 1 updates 1
level 1 horizon 4 leads 5 entries 7
array 1 density 2/3 lead 3/3 versions 0-1
array 2 density 3/4 lead 2/4 versions 2-3
stored 8 updates 6 written 7
"""
ARRAYS = (Array(1, 3, 3, 2, (0, 1)), Array(2, 4, 2, 3, (2, 3)))
LEVELS = Levels(2, 8, 9, 100, 4, 10, 1, 1, (Level(1, 4, 5, 7, ARRAYS),), 8, 6, 7)
# After the change with which the promotion into them ended, the fourth at a full journal
FILLED = LEVELS._replace(changes=12, journal_changes=4, journal_updates=4, stored=11, updates=9)
EMPTY = Levels(1, 64, 0, 1000, 1, 10, 0, 0, (), 0, 0, 0)


def array(number: int, entries: int, versions: str) -> str:
    return f"array {number} density {entries}/{entries} lead {entries}/{entries} versions {versions}"


class LevelsTest(unittest.TestCase):
    def test_the_text_of_levels_is_read(self) -> None:
        self.assertEqual(levels.read(TEXT), LEVELS)
        self.assertEqual([round(found.density, 2) for found in LEVELS.levels[0].arrays], [0.67, 0.75])
        lines = TEXT.splitlines()
        self.assertEqual(levels.read("\n".join([*lines[:2], lines[-1], ""])).levels, ())
        several = [*lines[:3], array(7, 1, "0,2-4,9"), "level 22 horizon 1 leads 1 entries 1", array(2 ** 64 - 1, 1, "0"), lines[-1], ""]
        found = levels.read("\n".join(several)).levels
        self.assertEqual([[(it.id, it.versions) for it in level.arrays] for level in found],
                         [[(7, (0, 2, 3, 4, 9))], [(2 ** 64 - 1, (0,))]])

    def test_another_text_is_refused(self) -> None:
        lines = TEXT.splitlines()
        wrong: List[str] = ["", "damaged block 7\n", TEXT[:-1], TEXT + "\n", TEXT + TEXT]
        wrong += ["\n".join([*lines[:place], *lines[place + 1:], ""]) for place in (0, 1, 2, 5)]
        wrong += [TEXT.replace(old, new) for old, new in (
            ("2/3", "2/0"), ("0-1", ""), ("0-1", "0-1,"), ("0-1", "0--1"), ("lead", "leads"), ("level 1", "level x"), ("mem 8", "mem  8"))]
        for text in wrong:
            with self.assertRaises(ValueError, msg=text):
                levels.read(text)

    def test_levels_are_drawn_as_lines(self) -> None:
        self.assertEqual(list(levels.lines(EMPTY)), [
            "generation 1, M 64, 0 of 1,000 changes, 1 of 10 versions", "journal: 0 changes, 0 updates",
            "stored: 0 entries for 0 updates; 0 written since the store was made"])
        self.assertEqual(list(levels.lines(LEVELS)), [
            "generation 2, M 8, 9 of 100 changes, 4 of 10 versions", "journal: 1 change, 1 update",
            "level 1: 5 leads, 7 entries, 2 arrays, horizon 4",
            f"  array 1  {'█' * 12}{'░' * 6}{' ' * 6}  live 2/3  leads 3/3  versions 0-1",
            f"  array 2  {'█' * 18}{'░' * 6}  live 3/4  leads 2/4  versions 2-3",
            "stored: 8 entries for 6 updates; 7 written since the store was made"])

    def test_many_versions_are_cut_short(self) -> None:
        many = LEVELS._replace(levels=(Level(1, 4, 5, 7, (Array(1, 1, 1, 1, tuple(range(0, 16384, 2))),)),))
        self.assertTrue(list(levels.lines(many))[3].endswith("versions 0,2,4,6,8,10,12,14,16,18,20,22,24,26,28,.. (8,192 in all)"))


def fill(store: Store) -> None:
    """Changes that lead to the levels of `FILLED`, in a store with M 8."""
    store.put(0, "a", "1")
    store.put(0, "b", "1")
    for _ in range(3):
        store.clone(0)
    for version in (1, 2, 3):
        store.put(version, "c", f"{version}")
    for _ in range(4):
        store.put(1, "d", "1")


class StoreLevelsTest(StoreCase):
    def test_levels_are_told_while_the_store_is_open(self) -> None:
        store = self.made(8, 100, 10)
        self.assertEqual(store.levels(), EMPTY._replace(mem=8, changes_max=100))
        fill(store)
        self.assertEqual(store.levels(), FILLED)
        self.assertEqual(store.stat().changes, 12)
        with store.batch() as batch:
            for number in range(3):
                batch.put(1, f"{number}", "1")
            found = store.levels()
        self.assertEqual((found.changes, found.journal_updates), (15, 7))
        self.assertEqual(store.get(1, "2"), b"1")
        store.close()
        with self.assertRaises(errors.StoreClosed):
            store.levels()
        self.assertEqual(self.opened().levels(), found)

    def test_the_shell_draws_levels(self) -> None:
        with self.made(8, 100, 10) as store:
            fill(store)
        out, complaint, status = self.shell("levels\nlevels --svg levels.svg\n")
        self.assertEqual((out.splitlines(), complaint, status), ([*levels.lines(FILLED), "wrote levels.svg"], "", 0))
        with open(os.path.join(self.folder, "levels.svg"), encoding="utf-8") as file:
            self.assertEqual(file.read(), "".join(picture_levels.svg(FILLED, "a.store")))
        self.assertIn("usage: levels [--svg FILE]", self.shell("levels --svg\n")[1])

    def test_levels_that_can_not_be_told_say_why(self) -> None:
        with self.pretending("levels 0 nonsense") as store, self.assertRaisesRegex(errors.WrongProtocol, "levels: its levels can't be read"):
            store.levels()
        with self.pretending("levels 9 damaged block 7\n") as store:
            with self.assertRaisesRegex(errors.StoreDamaged, "levels: block 7 of the file is damaged") as caught:
                store.levels()
        self.assertEqual((caught.exception.block, caught.exception.status), (7, 9))
        with self.pretending("levels 5 -") as store, self.assertRaises(errors.DeviceFailed):
            store.levels()
        damaged = self.pretending("levels 9 -")
        with self.assertRaises(errors.StoreDamaged) as caught:
            damaged.levels()
        self.assertIsNone(caught.exception.block)
