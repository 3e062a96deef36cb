"""The report of a store: a page of HTML that is read as XML, with all that it shows in it."""

from __future__ import annotations

import os
import unittest
from typing import Any, Iterable, List, Sequence
from xml.etree import ElementTree

from support import StoreCase
from test_levels import EMPTY, FILLED, LEVELS, fill

from drawing import SPACE, Picture
from session import carried_out

from castle import Info, report
from castle.keycount import Count
from castle.report import LISTED, Overview, gathered, listed, page
from castle.store import Store

XHTML = "{http://www.w3.org/1999/xhtml}"
ACTIVE = {"script", "iframe", "object", "embed", "link", "img", "base", "form", "a", "audio", "video", "image", "use", "foreignObject"}
VERSIONS = (Info(None, 0, True), Info(0, 1, False), Info(0, 1, False), Info(0, 1, False))
HOSTILE = ("<script>alert(1)</script>", "]]>", "&amp;\"'", "--><img src=x onerror=alert(1)>")


def overview(**changed: Any) -> Overview:
    """What a page shows of the store of `test_levels.LEVELS`, but for some fields."""
    keys = {version: Count(2 + version) for version in range(4)}
    return Overview("a.store", "2026-11-30 05:00:00 +0000", 10_571_776, 45_056, False, LEVELS, VERSIONS, {}, {1: ["staging"]}, keys,
                 {1: [b"a", b"b"]})._replace(**changed)


class Page:
    """A page, read as XML."""

    def __init__(self, pieces: Iterable[str]) -> None:
        self.text = "".join(pieces)
        self.root = ElementTree.fromstring(self.text)

    def tables(self) -> List[List[List[str]]]:
        """The texts of each table, row by row."""
        return [[["".join(cell.itertext()) for cell in row] for row in table] for table in self.root.iter(f"{XHTML}table")]

    def pictures(self) -> List[Picture]:
        return [Picture(ElementTree.tostring(svg, "unicode")) for svg in self.root.iter(f"{SPACE}svg")]

    def tags(self) -> Sequence[str]:
        return [part.tag.rpartition("}")[2] for part in self.root.iter()]


class ReportTest(unittest.TestCase):
    def test_a_page_says_how_much_is_used_and_left_and_how_far_the_bounds_are(self) -> None:
        limits, bounds, _, _ = Page(page(overview())).tables()
        self.assertEqual(limits[1:], [["journal", "1", "1", "8", "7", "changes until it is emptied (M)"],
                                      ["changes", "9", "9", "100", "91", "changes of the store's life (C)"],
                                      ["versions", "4", "4", "10", "6", "versions of the store's life (V)"]])
        self.assertEqual(bounds[1:], [["stored", "8", "8", "12", "entries: 2 for each of 6 updates"],
                                      ["written", "7", "7", "32", "entries: 4 x 1 level x 8 changes"]])
        found = Page(page(overview()))
        meters = [(part.get("value"), part.get("max"), part.get("min")) for part in found.root.iter(f"{XHTML}meter")]
        self.assertEqual(meters, [("1", "8", "0"), ("9", "100", "0"), ("4", "10", "0"), ("8", "12", "0"), ("7", "32", "0")])
        for text in ("The journal was emptied 1 time.", "10,571,776 bytes, of which 45,056 are on the disk", "2026-11-30 05:00:00 +0000"):
            self.assertIn(text, found.text)
        self.assertEqual("private copy" in found.text, False)
        self.assertIn("private copy", "".join(page(overview(is_copy=True))))

    def test_a_page_lists_the_versions_that_have_a_name_or_take_changes(self) -> None:
        versions = Page(page(overview())).tables()[2]
        self.assertEqual(versions, [["version", "names", "clone of", "ancestors", "", "keys", "first keys"],
                                    ["1", "staging", "0", "1", "takes changes", "3 keys", "a, b"],
                                    ["2", "", "0", "1", "takes changes", "4 keys", ""], ["3", "", "0", "1", "takes changes", "5 keys", ""]])
        named = Page(page(overview(names={0: ["base", "first"]}))).tables()[2]
        self.assertEqual(named[1], ["0", "base, first", "", "0", "frozen", "2 keys", ""])
        leaves = LISTED + 5
        versions_ = [Info(None, 0, True), *leaves * [Info(0, 1, False)]]
        found = Page(page(overview(versions=versions_, keys={version: Count(0) for version in range(leaves + 1)})))
        self.assertEqual((len(found.tables()[2]) - 1, f"These are the first {LISTED} of {leaves}." in found.text), (LISTED, True))

    def test_a_page_tells_how_many_versions_are_dropped_and_where_they_hang(self) -> None:
        versions = [Info(None, 0, False), Info(0, 1, False), None, None]
        found = Page(page(overview(versions=versions, hanging={0: 2})))
        self.assertEqual(found.root.findtext(f"{XHTML}head/{XHTML}title"), "a.store: 2 versions and 2 dropped, 9 changes")
        self.assertEqual([row[0] for row in found.tables()[2][1:]], ["0", "1"])
        self.assertIn("2 keys, frozen, 2 dropped", found.pictures()[0].written())

    def test_a_page_has_the_levels_and_both_pictures(self) -> None:
        found = Page(page(overview()))
        self.assertEqual(found.tables()[3][1:], [["1", "4", "2", "5", "16", "7", "2", "2/3"]])
        tree, levels = found.pictures()
        self.assertEqual((len(tree.of("open")), len(tree.of("open named")), len(tree.of("frozen"))), (2, 1, 1))
        self.assertEqual((len(levels.of("array")), len(levels.of("copies"))), (2, 1))
        empty = overview(levels=EMPTY, versions=[Info(None, 0, False)], names={}, keys={0: Count(0)}, samples={})
        self.assertEqual([len(table) - 1 for table in Page(page(empty)).tables()], [3, 2, 1, 0])

    def test_whatever_stands_in_keys_and_names_is_text_and_the_page_fetches_and_runs_nothing(self) -> None:
        every = [bytes([byte]) for byte in range(256)]
        for name in HOSTILE:
            data = name.encode()
            samples = {1: [data, *every], 2: ["\ufffe\U0010ffff".encode()]}
            found = Page(page(overview(name=name, names={1: [name, name + "2"]}, samples=samples)))
            self.assertEqual([tag for tag in found.tags() if tag in ACTIVE], [])
            self.assertFalse([attribute for part in found.root.iter() for attribute in part.keys()
                              if attribute.startswith("on") or attribute in ("href", "src", "action")])
            row = found.tables()[2][1]
            self.assertEqual((row[1], row[6].startswith(report.quoted(data))), (f"{name}, {name}2", True))
            self.assertEqual(found.root.findtext(f"{XHTML}head/{XHTML}title"), f"{name}: 4 versions, 9 changes")
        self.assertIn("http-equiv=\"Content-Security-Policy\" content=\"default-src 'none'; style-src 'unsafe-inline'\"", found.text)
        self.assertNotIn("url(http", found.text)
        self.assertEqual(found.tags().count("style"), 3)


class StoreReportTest(StoreCase):
    def test_a_report_shows_the_store_as_it_is(self) -> None:
        with self.made(8, 100, 10) as store:
            fill(store)
            store.names["staging"] = 1
            found = gathered(store)
            self.assertEqual((found.levels, list(found.versions), dict(found.names)), (FILLED, list(VERSIONS), {1: ["staging"]}))
            self.assertEqual(found.keys, {0: Count(2), 1: Count(4), 2: Count(3), 3: Count(3)})
            self.assertEqual(found.samples, {1: [b"a", b"b", b"c"], 2: [b"a", b"b", b"c"], 3: [b"a", b"b", b"c"]})
            self.assertEqual((found.name, found.is_copy, found.size), ("a.store", False, os.path.getsize(self.path)))
            self.assertEqual(store.stat().cursors, 0)
        with Store(self.path, read_only=True) as copy:
            self.assertTrue(gathered(copy).is_copy)

    def test_the_shell_writes_a_report_of_a_store_with_any_bytes(self) -> None:
        path = os.path.join(self.folder, "a<b>&\n\x1b.store")  # a path is UTF-8
        Store.format(path, 64, 1000, 10)
        with Store(path) as store:
            for place, key in enumerate([b"\x00\x1b[31m\xff", b"<script>alert(1)</script>", b"]]>"]):
                store.put(0, key, b"%d" % place)
            out, complaint, status = carried_out(store, f"report {self.folder}/a.html")
        self.assertEqual((out, complaint, status), (f"wrote {self.folder}/a.html\n", "", 0))
        with open(os.path.join(self.folder, "a.html"), encoding="utf-8") as file:
            found = Page(file)
        self.assertEqual(found.tables()[2][1][6], r'\x00\x1b[31m\xff, <script>alert(1)</script>, ]]>')
        self.assertEqual(found.root.findtext(f"{XHTML}body/{XHTML}h1"), r"a<b>&\x0a\x1b.store: 1 version, 3 changes")

    def test_a_report_that_can_not_be_written_says_why(self) -> None:
        store = self.made()
        for line, complaint in (("report", "usage: report FILE"), ("report a b", "usage: report FILE"),
                                ("report a.html @0", "usage: report FILE"), (f"report {self.path}", "the file is the store itself"), (f"report {self.folder}", "the file is a folder"),
                                (f"report {self.folder}/none/a.html", "there is no folder")):
            self.assertIn(complaint, carried_out(store, line)[1])
        self.assertEqual((store.stat().changes, sorted(os.listdir(self.folder))), (0, ["a.store", "a.store.lock"]))

    def test_a_report_of_a_damaged_store_says_so_and_writes_nothing(self) -> None:
        store = self.damaged()
        complaint = carried_out(store, f"report {self.folder}/a.html")[1]
        self.assertIn("block 7 of the file is damaged", complaint)
        self.assertFalse(os.path.exists(os.path.join(self.folder, "a.html")))
