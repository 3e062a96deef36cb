"""The picture of levels: what it shows is computed here from the text that the program prints."""

import os
import random
import re
import unittest
from fractions import Fraction
from typing import Dict, List, Tuple

from support import TOP, StoreCase

from drawing import Picture, overlaps
from test_levels import EMPTY, LEVELS, TEXT

from castle import Array, Level, Levels, levels
from castle.picture_levels import svg
from castle.process import find_program, printed
from castle.text import counted

SIZES = (0, 1, 10, 100, 500)  # arrays of a picture
ARRAY = re.compile(r"array (\d+) density (\d+)/(\d+) lead (\d+)/\d+ versions (\S+)")


def text_of(count: int, versions: int, mem: int = 64) -> str:
    """What the program might print of a store with so many arrays: in each level they share the versions among them."""
    draw = random.Random(f"{count} {versions}")
    lines, number, left, stored = [], 0, count, 0
    for level in range(1, 23):
        here = min(left, max(1, count // 4), versions)
        if not here:
            break
        left -= here
        parts: List[List[int]] = [[] for _ in range(here)]
        for version in range(versions):
            parts[version if version < here else draw.randrange(here)].append(version)
        arrays: List[Tuple[str, int, int]] = []
        for part in parts:
            number += 1
            entries = draw.randrange(1, max(2, (mem << level) // here))
            leads, least = draw.randrange((entries + 1) // 2, entries + 1), draw.randrange(-(-entries // 3), entries + 1)
            line = f"array {number} density {least}/{entries} lead {leads}/{entries} versions {levels.listed(part)}"
            arrays.append((line, leads, entries))
        all_leads, all_entries = sum(leads for _, leads, _ in arrays), sum(entries for _, _, entries in arrays)
        lines += [f"level {level} horizon {versions} leads {all_leads} entries {all_entries}", *(line for line, _, _ in arrays)]
        stored += all_entries
    updates = stored // 2 + 7
    return "\n".join([f"store generation 9 mem {mem} changes {2 * updates} of 9999999 versions {versions} of 16384",
                      "journal changes 3 updates 2", *lines, f"stored {stored + 2} updates {updates} written {3 * stored}", ""])


def arrays_of(text: str) -> Dict[int, List[Tuple[int, int, int, List[int]]]]:
    """By level what a text says of its arrays: live entries, entries, leads and versions."""
    found: Dict[int, List[Tuple[int, int, int, List[int]]]] = {}
    for line in text.splitlines():
        if line.startswith("level "):
            arrays = found[int(line.split()[1])] = []
        array = ARRAY.fullmatch(line)
        if array:
            runs = [run.split("-") for run in array[5].split(",")]
            versions = [version for run in runs for version in range(int(run[0]), int(run[-1]) + 1)]
            arrays.append((int(array[2]), int(array[3]), int(array[4]), versions))
    return found


class LevelsPictureTest(unittest.TestCase):
    def test_each_array_is_as_wide_as_it_has_entries_and_its_level_has_its_room_outlined(self) -> None:
        for count in SIZES:
            text = text_of(count, 300)
            picture = Picture("".join(svg(levels.read(text), "a.store")))
            boxes, outlines = iter(picture.of("array")), picture.of("capacity")
            self.assertEqual(len(outlines), 1 + len(arrays_of(text)))  # the journal's is the first
            self.assertEqual([box.top for box in outlines], sorted({box.top for box in outlines}))
            for outline, (number, arrays) in zip(outlines[1:], arrays_of(text).items()):
                row, at = [next(boxes) for _ in arrays], outline.left
                each = outline.width / (64 << number)  # of an entry
                for box, (_, entries, _, _) in zip(row, arrays):
                    self.assertEqual((box.top, box.bottom), (outline.top, outline.bottom))
                    self.assertAlmostEqual(box.left, at, delta=0.2)
                    at += entries * each
                    self.assertAlmostEqual(box.right, at, delta=0.2)
            self.assertEqual(list(boxes), [])

    def test_copies_are_hatched_in_proportion(self) -> None:
        for count in SIZES:
            text = text_of(count, 300)
            picture = Picture("".join(svg(levels.read(text), "a.store")))
            copies = iter(picture.of("copies"))
            arrays = [array for several in arrays_of(text).values() for array in several]
            for box, (_, entries, leads, _) in zip(picture.of("array"), arrays):
                if leads < entries:
                    hatched = next(copies)
                    self.assertEqual((hatched.left, hatched.top, hatched.right), (box.left, box.top, box.right))
                    self.assertAlmostEqual(hatched.height / box.height, (entries - leads) / entries, delta=0.01)
            self.assertEqual(list(copies), [])
        self.assertIn(".copies { fill: url(#hatched)", "".join(svg(LEVELS, "a")))
        self.assertIn('<pattern id="hatched"', "".join(svg(LEVELS, "a")))

    def test_the_histogram_counts_arrays_by_density_and_marks_a_third(self) -> None:
        for count in SIZES:
            text = text_of(count, 300)
            picture = Picture("".join(svg(levels.read(text), "a.store")))
            counts: Dict[int, int] = {}
            for live, entries, _, _ in (array for several in arrays_of(text).values() for array in several):
                place = min(29, int(Fraction(live, entries) * 30))
                counts[place] = counts.get(place, 0) + 1
            (start, floor), = picture.ends("axis")
            (third, _), = picture.ends("third")
            bars = picture.of("bar")
            one, = (written for written in picture.texts if written.text == "1" and written.left > third and written.bottom > floor)
            end = (one.left + one.right) / 2
            self.assertAlmostEqual((third - start) / (end - start), 1 / 3, delta=0.01)
            wide, most = (end - start) / 30, max(counts.values(), default=0)
            self.assertEqual({int((bar.left - start) / wide): bar.text for bar in bars},
                             {place: f"{counted(many, 'array')} of a density from {place}/30 on" for place, many in counts.items()})
            for bar in bars:
                self.assertAlmostEqual(bar.height, max(1, 110 * counts[int((bar.left - start) / wide)] / most), delta=0.2)
                self.assertAlmostEqual(bar.bottom, floor, delta=0.2)
            self.assertTrue(all(bar.right > third for bar in bars), "no array is below a third")

    def test_the_grid_has_a_row_for_each_array_and_a_cell_for_each_of_its_versions(self) -> None:
        for count, versions, each in ((1, 1, 1), (10, 12, 1), (100, 300, 1), (500, 450, 1), (500, 451, 2), (9, 16384, 37)):
            text = text_of(count, versions)
            picture = Picture("".join(svg(levels.read(text), "a.store")))
            arrays = [array for several in arrays_of(text).values() for array in several]
            sheets = picture.of("sheet")
            self.assertEqual((len(picture.rows), len(sheets)), (len(arrays), len(arrays_of(text))))
            columns = -(-versions // each)
            wide = sheets[0].width / columns
            for row, (_, _, _, read) in zip(picture.rows, arrays):
                covered = set()
                for cell in row:
                    first, last = (cell.left - sheets[0].left) / wide, (cell.right - sheets[0].left) / wide
                    covered |= set(range(round(first), round(last)))
                self.assertEqual(covered, {version // each for version in read})
            tops = [row[0].top for row in picture.rows]
            self.assertEqual(tops, sorted(set(tops)))
            self.assertEqual(any("versions a column" in written for written in picture.written()), each > 1)

    def test_the_bars_show_what_is_used_of_limits_and_of_proved_bounds(self) -> None:
        picture = Picture("".join(svg(levels.read(TEXT), "a.store")))
        # docs/FORMATS.md: M is 8, and of 9 changes one is in the journal; level 1 has room for 16, so d is 1
        for said in ("1 of 8 changes until it is emptied (M)", "9 of 100 changes of the store's life (C)",
                     "4 of 10 versions of the store's life (V)", "8 of 12 entries: 2 for each of 6 updates", "7 of 32 entries: 4 x 1 level x 8 changes"):
            self.assertIn(said, picture.written())
        shares = [full.width / most.width for full, most in zip(picture.of("full"), picture.of("most"))]
        for share, wanted in zip(shares, (1 / 8, 9 / 100, 4 / 10, 8 / 12, 7 / 32)):
            self.assertAlmostEqual(share, wanted, delta=0.002)
        self.assertEqual((len(shares), len(Picture("".join(svg(EMPTY, "a"))).of("full"))), (5, 1))  # of an empty store the versions
        for changes, depth in ((1, 1), (16, 1), (17, 2), (32, 2), (33, 3), (8 << 22, 22)):
            found = LEVELS._replace(changes=changes + 1)
            self.assertEqual((found.depth, found.written_most), (depth, 4 * depth * changes))

    def test_a_journal_that_is_being_emptied_has_room_for_more(self) -> None:
        for changes, said in ((0, "0 of 8 changes until it is emptied (M)"), (8, "8 of 8 changes until it is emptied (M)"),
                              (9, "9 of 14 changes while it is emptied (2M - 2)"), (14, "14 of 14 changes while it is emptied (2M - 2)")):
            picture = Picture("".join(svg(levels.read(TEXT)._replace(journal_changes=changes, changes=changes + 8), "a.store")))
            self.assertIn(said, picture.written())
            self.assertIn(said[:said.index("changes") + len("changes")], picture.written())

    def test_every_part_lies_within_the_picture_and_no_text_on_another_or_on_a_box(self) -> None:
        most = 2 ** 24
        largest = Levels(2 ** 63, 4, most, most, 16384, 16384, 4, 4, (Level(22, 16384, most, 2 * most, (
            Array(2 ** 63, 2 * most, most, most, tuple(range(0, 16384, 2))),)),), 2 * most, most, 88 * most)
        deep = LEVELS._replace(levels=tuple(Level(number, 1, 7, 7, LEVELS.levels[0].arrays) for number in range(1, 23)))
        drawn = [(found, "a.store") for found in (EMPTY, largest, deep, *(levels.read(text_of(count, 300)) for count in SIZES))]
        for found, title in [*drawn, (LEVELS, "日本語 a long name " * 30)]:
            picture = Picture("".join(svg(found, title)))
            self.assertEqual(picture.beyond(), [])
            self.assertEqual(overlaps(picture.texts), [])
            self.assertEqual(overlaps(picture.texts, picture.boxes), [])

    def test_what_is_small_is_left_out_and_no_text_is_tiny(self) -> None:
        picture = Picture("".join(svg(levels.read(text_of(500, 500)), "a.store")))
        self.assertEqual(len(picture.of("array")), 500)
        self.assertTrue(all(row[0].height >= 2 for row in picture.rows))
        self.assertLess(picture.width, 1300)
        self.assertLess(picture.height, 2200)
        self.assertFalse(any(text.startswith("array ") for text in picture.written()), "rows of the grid are too low for numbers")
        few = Picture("".join(svg(LEVELS, "a.store"))).written()
        for text in ("1: 67%, v 0-1", "2: 75%, v 2-3", "level 1", "5 of 16 leads", "2 arrays, horizon 4", "array 1", "array 2",
                     "1 of 8 changes"):
            self.assertIn(text, few)
        many = Picture("".join(svg(EMPTY._replace(levels=(Level(1, 1, 1, 4096, 4096 * (LEVELS.arrays[0],)),)), "a")))
        self.assertLess(many.width, 1300)

    def test_the_denser_an_array_the_darker_it_is(self) -> None:
        arrays = tuple(Array(number, 9, 9, live, (0,)) for number, live in enumerate((3, 6, 9)))
        picture = Picture("".join(svg(LEVELS._replace(levels=(Level(1, 4, 5, 27, arrays),)), "a")))
        light, middle, dark = ([int(box.fill[at:at + 2], 16) for at in (1, 3, 5)] for box in picture.of("array"))
        self.assertTrue(all(a < b < c for a, b, c in zip(dark, middle, light)), (dark, middle, light))
        self.assertEqual([row[0].fill for row in picture.rows], [box.fill for box in picture.of("array")])

    def test_any_title_is_text(self) -> None:
        for title in ("a<b>&\"c'", "]]>", "<script>alert(1)</script>", "日本語"):
            self.assertTrue(Picture("".join(svg(LEVELS, title))).texts[0].text.startswith(f"{title}: generation 2"))

    def test_what_is_told_of_an_array_says_what_it_has(self) -> None:
        picture = Picture("".join(svg(LEVELS, "a")))
        self.assertEqual([box.text for box in picture.of("array")],
                         ["array 1: 3 entries, 3 leads, density 2/3, versions 0-1",
                          "array 2: 4 entries, 2 leads, density 3/4, versions 2-3"])


class StoreLevelsPictureTest(StoreCase):
    in_memory = True

    def test_the_picture_of_the_client_page_is_that_of_its_workload(self) -> None:
        path = os.path.join(self.folder, "drawn.store")
        self.assertEqual(printed(find_program(), ["workload", path, "1", "2000"], path)[1], 0)
        self.assertEqual(self.shell("levels --svg levels.svg\n", path), ("wrote levels.svg\n", "", 0))
        self.assertEqual(self.bytes_of("levels.svg").decode(), (TOP / "docs" / "levels.svg").read_text(encoding="utf-8"), "docs/levels.svg")
