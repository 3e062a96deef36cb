"""The picture of the tree of versions, and how many keys it counts."""

import os
import random
import unittest
from typing import Dict, List, Mapping, Optional, Sequence, Tuple
from unittest import mock

from support import StoreCase

from drawing import Picture, overlaps
from test_tree import placed

from castle import keycount
from castle.keycount import Count, count_keys
from castle.picture_tree import LEAVES, svg
from castle.tree import Tree

Names = Mapping[int, Sequence[str]]
NONE: Names = {}


def picture_of(parents: Sequence[Optional[int]], names: Names = NONE, heading: str = "s.store") -> Picture:
    """The picture of a tree in which each version has as many keys as its number says."""
    tree = Tree(placed(parents), names)
    return Picture("".join(svg(tree, {version: Count(version) for version in tree.single()}, heading)))


def drawn(count: int, seed: int) -> List[Optional[int]]:
    """The parents of versions of which each is a clone of a drawn one."""
    draw = random.Random(seed)
    return [None, *(draw.randrange(max(0, version - 9), version) for version in range(1, count))]


class TreePictureTest(unittest.TestCase):
    def test_each_version_has_its_names_its_keys_and_whether_it_takes_changes(self) -> None:
        picture = picture_of([None, 0, 0, 1, 3, 4, 5, 6], {1: ["a<b&c"], 2: ["production", "stable"]}, "s.store: 8 versions")
        for text in ("s.store: 8 versions", "1 a<b&c", "1 key, frozen", "2 production, stable", "2 keys, leaf", "4 versions", "3 to 6",
                     "7", "7 keys, leaf"):
            self.assertIn(text, picture.written())
        kinds = ("frozen", "frozen named", "open", "open named", "row")
        self.assertEqual([len(picture.of(kind)) for kind in kinds], [1, 1, 1, 1, 1])

    def test_dropped_versions_are_counted_where_they_hang(self) -> None:
        tree = Tree(placed([None, 0, 0, 1, 3, 4, 5, 6], {2}), {}, None, {0: 1, 4: 2000})
        picture = Picture("".join(svg(tree, {version: Count(version) for version in tree.single()}, "s")))
        for text in ("0 keys, frozen, 1 dropped", "5 versions", "1 to 6, 2,000 dropped", "7 keys, leaf"):
            self.assertIn(text, picture.written())

    def test_keys_that_were_not_all_counted_are_said_to_be_more(self) -> None:
        picture = Picture("".join(svg(Tree(placed([None]), {}), {0: Count(256, True)}, "s")))
        self.assertIn("over 256 keys, leaf", picture.written())
        self.assertEqual([str(Count(0)), str(Count(1)), str(Count(2000, True))], ["0 keys", "1 key", "over 2,000 keys"])

    def test_each_version_stands_right_of_its_parent_or_below_it_and_an_edge_leads_to_it(self) -> None:
        trees = [(drawn(2, 1), False), (drawn(9, 1), False), ([None, *LEAVES * [0]], False), ([None, *(LEAVES + 1) * [0]], True),
                 ([None, *range(40)], True), (drawn(300, 1), True)]
        for parents, is_crowded in trees:
            count = len(parents)
            names: Dict[int, List[str]] = {version: [f"n{version}"] for version in range(count)}  # so that each is drawn by itself
            picture = picture_of(parents, names)
            boxes = {int(text.text.split()[0]): box for text in picture.texts for box in picture.boxes
                     if text.kind == "name" and text.overlaps(box)}
            self.assertEqual(set(boxes), set(range(count)))
            starts = []
            for version, parent in enumerate(parents):
                box = boxes[version]
                self.assertEqual("frozen" in box.kind, version in parents)
                if parent is None:
                    continue
                above, siblings = boxes[parent], parents.count(parent)
                if is_crowded:
                    starts.append((above.left + 8, above.bottom))
                    self.assertGreater(box.top, above.bottom)
                    self.assertAlmostEqual(box.left - above.left, 0 if siblings == 1 else 16, delta=0.2)
                else:
                    starts.append((above.right, (above.top + above.bottom) / 2))
                    self.assertGreater(box.left, above.right)
            found = picture.ends("edge")
            self.assertEqual(len(found), len(starts))
            for start, place in zip(sorted(found), sorted(starts)):
                self.assertAlmostEqual(start[0], place[0], delta=0.2)
                self.assertAlmostEqual(start[1], place[1], delta=0.2)

    def test_every_part_lies_within_the_picture_and_apart_from_others(self) -> None:
        wide: List[Optional[int]] = [None, 0, 0, 0, *range(3, 12)]
        trees: List[Tuple[List[Optional[int]], Names, str]] = [
            (wide, {1: ["n" * 64], 2: ["m" * 60, "日" * 40]}, "s"),
            ([None], {}, "store " * 60),
            ([None, 0, 0, 1, 1], {}, "s"),
            ([None, *(LEAVES + 1) * [0]], {3: ["m" * 60, "日" * 40]}, "s"),
            (drawn(250, 1), {9: ["a"], 99: ["b", "c"]}, "s")]
        for parents, names, heading in trees:
            picture = picture_of(parents, names, heading)
            self.assertEqual((picture.beyond(), overlaps(picture.boxes), overlaps(picture.texts)), ([], [], []))
            for text in picture.texts:
                for box in picture.boxes:  # it lies in the box whose version it tells of, and on no other one
                    is_within = box.left < text.left and text.right < box.right and box.top < text.top and text.bottom < box.bottom
                    self.assertTrue(is_within or not text.overlaps(box), (text, box))

    def test_a_large_tree_has_flat_boxes_and_is_no_wider_than_a_screen(self) -> None:
        few, many = (picture_of([None, *count * [0]]) for count in (LEAVES, LEAVES + 1))
        self.assertEqual([{round(box.height) for box in picture.of("open")} for picture in (few, many)], [{40}, {20}])
        self.assertLess(picture_of([None, *500 * [0]]).height, 500 * 27 + 200)
        self.assertIn("7 keys, leaf", many.written())
        for parents in ([None, *range(500)], [None, *500 * [0]], drawn(500, 2)):
            self.assertLess(picture_of(parents, {version: [f"release-{version}"] for version in range(0, 500, 3)}).width, 1500)

    def test_any_name_is_text(self) -> None:
        for name in ("a<b>&\"c'", "]]>", "<script>alert(1)</script>"):
            picture = picture_of([None, 0], {1: [name]}, name)
            self.assertEqual((picture.texts[0].text, f"1 {name}" in picture.written()), (name, True))


class StoreTreePictureTest(StoreCase):
    def test_keys_are_counted_as_far_as_they_are_cheap(self) -> None:
        store = self.made(1024, 10000, 10)
        with store.batch() as batch:
            for number in range(600):
                batch.put(0, f"{number}", "")
            batch.clone(0)
            batch.delete(1, "7")
        self.assertEqual(count_keys(store, [0, 1]), {0: Count(600), 1: Count(599)})
        with mock.patch.object(keycount, "BUDGET", 1198):
            self.assertEqual(count_keys(store, [0, 1]), {0: Count(599, True), 1: Count(599)})
        with mock.patch.object(keycount, "BUDGET", 0):
            self.assertEqual(count_keys(store, [0]), {0: Count(256, True)})
        self.assertEqual((count_keys(store, []), store.stat().cursors), ({}, 0))

    def test_the_shell_draws_the_tree(self) -> None:
        self.made().close()
        out, _, status = self.shell("put a 1\nput b 2\nclone staging\ndelete a @1\nclone production\ntree --svg tree.svg\n")
        self.assertEqual((out.split("\n")[-2], status), ("wrote tree.svg", 0))
        with open(os.path.join(self.folder, "tree.svg"), encoding="utf-8") as file:
            picture = Picture(file.read())
        for text in ("a.store: 3 versions, 5 changes", "2 keys, frozen", "1 staging", "1 key, leaf", "2 production", "2 keys, leaf"):
            self.assertIn(text, picture.written())
