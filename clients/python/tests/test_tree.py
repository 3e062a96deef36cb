"""The version tree as text."""

import random
import unittest
from typing import Container, Dict, List, Mapping, Optional, Sequence

import support  # noqa: F401: finds the package

from castle import Info
from castle.dropping import hanging
from castle.tree import Tree

NONE: Mapping[int, Sequence[str]] = {}


def lines(parents: Sequence[Optional[int]], names: Mapping[int, Sequence[str]] = NONE,
          here: Optional[int] = None) -> List[str]:
    return list(Tree(placed(parents), names, here).lines())


def placed(parents: Sequence[Optional[int]], dropped: Container[int] = ()) -> List[Optional[Info]]:
    """The places of versions with these parents."""
    return [None if version in dropped else Info(parent, 0, False) for version, parent in enumerate(parents)]


class TreeTest(unittest.TestCase):
    def test_a_tree_is_drawn_as_lines(self) -> None:
        self.assertEqual(lines([None]), ["0"])
        self.assertEqual(lines([None, 0, 0], {1: ["staging"], 2: ["production", "stable"]}, 1),
                         ["0", "├─ 1 staging (here)", "└─ 2 production, stable"])
        self.assertEqual(lines([None, 0, 1, 2, 2, 3, 3]),
                         ["0 ─ 1 ─ 2", "        ├─ 3", "        │  ├─ 5", "        │  └─ 6", "        └─ 4"])

    def test_versions_in_a_row_are_drawn_as_one(self) -> None:
        self.assertEqual(lines([None, 0, 1]), ["0 ─ 1 ─ 2"])
        self.assertEqual(lines([None, *range(9)]), ["0 ─ (8 versions, 1 to 8) ─ 9"])
        self.assertEqual(lines([None, *range(9)], {4: ["x"]}, 8), ["0 ─ (3 versions, 1 to 3) ─ 4 x ─ (3 versions, 5 to 7) ─ 8 (here) ─ 9"])

    def test_a_long_chain_goes_on_in_a_new_line(self) -> None:
        drawn = lines([None, *range(40)], {version: [f"release-{version}"] for version in range(41)})
        self.assertGreater(len(drawn), 5)
        self.assertLess(max(map(len, drawn)), 104)
        self.assertEqual([line[:4] for line in drawn[1:]], ["  ─ "] * (len(drawn) - 1))

    def test_the_largest_trees_are_drawn(self) -> None:
        self.assertEqual(lines([None, *range(16383)]), ["0 ─ (16382 versions, 1 to 16382) ─ 16383"])
        self.assertEqual(len(lines([None] + [0] * 16383)), 16384)
        binary = [None] + [(version - 1) // 2 for version in range(1, 16384)]
        self.assertEqual(sum(line.count("─ ") for line in lines(binary)), 16383)

    def test_every_version_is_drawn_once(self) -> None:
        parents: List[Optional[int]] = [None, *[version * 7 // 9 for version in range(300)]]
        nodes = Tree(placed(parents), {5: ["a"]}).nodes
        self.assertEqual(sorted(version for node in nodes for version in node.versions), list(range(301)))

    def test_dropped_versions_are_counted_where_they_hang(self) -> None:
        parents = [None, 0, 1, 1, 3, 0, 5, 5, 6, 2]
        for dropped, drawn in (({4: 3}, ["0", "├─ 1", "│  ├─ 2 ─ 9", "│  └─ 3 (1 dropped)", "└─ 5", "   ├─ 6 ─ 8", "   └─ 7"]),
                               ({3: 1, 4: 3, 9: 2}, ["0", "├─ 1 (2 dropped) ─ 2 (1 dropped)", "└─ 5", "   ├─ 6 ─ 8", "   └─ 7"]),
                               ({5: 0, 6: 5, 7: 5, 8: 6}, ["0 (4 dropped) ─ 1", "                ├─ 2 ─ 9", "                └─ 3 ─ 4"])):
            self.assertEqual(list(Tree(placed(parents, dropped), {}, None, hanging(dropped)).lines()), drawn)
        row: List[Optional[int]] = [None, *range(6), 3, 4]
        self.assertEqual(list(Tree(placed(row, {7, 8}), {}, 0, hanging({7: 3, 8: 4})).lines()), ["0 (here) ─ (5 versions, 1 to 5, 2 dropped) ─ 6"])

    def test_a_dropped_version_hangs_at_the_nearest_one_that_is_there(self) -> None:
        chance = random.Random(52)
        for _ in range(200):
            parents: List[Optional[int]] = [None, *(chance.randrange(version) for version in range(1, 30))]
            dropped: Dict[int, int] = {}
            for version in chance.sample(range(1, 30), 20):
                below = [child for child, parent in enumerate(parents) if parent == version and child not in dropped]
                if not below:
                    dropped[version] = parents[version] or 0
            counts: Dict[int, int] = {}
            for version in dropped:
                while version in dropped:
                    version = dropped[version]
                counts[version] = counts.get(version, 0) + 1
            self.assertEqual(dict(hanging(dropped)), counts)
            nodes = Tree(placed(parents, dropped), {}, None, hanging(dropped)).nodes
            self.assertEqual(sorted(version for node in nodes for version in node.versions), sorted(set(range(30)) - set(dropped)))
