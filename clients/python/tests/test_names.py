"""Names of versions with their times and descriptions, in files of today and of older clients."""

import os
import re
import time
from datetime import datetime, timedelta, timezone
from typing import List, Optional

from session import carried_out, untimed
from support import StoreCase

from castle import Name, Store, errors
from castle.names import DESCRIPTION_MAX

TIME = r"\d{4}-\d\d-\d\dT\d\d:\d\d:\d\dZ"


def now() -> datetime:
    return datetime.now(timezone.utc).replace(microsecond=0)


class AboutTest(StoreCase):
    def test_a_name_has_the_time_when_it_got_its_version_and_a_description(self) -> None:
        store = self.made()
        before = now()
        store.names["staging"] = 0
        about = store.names.about("staging")
        assert about.time is not None
        self.assertEqual((about.version, about.description, about.time.tzinfo), (0, "", timezone.utc))
        self.assertTrue(before <= about.time <= now())
        store.names.describe("staging", "  What comes next  ")
        self.assertEqual(store.names.about("staging"), Name(0, about.time, "What comes next"))
        self.assertRegex(self.bytes_of("a.store.names").decode(), f"^staging 0 {TIME} What comes next\n$")
        store.close()
        self.assertEqual(self.opened().names.about("staging"), Name(0, about.time, "What comes next"))

    def test_a_name_that_moves_gets_a_new_time_and_keeps_its_description(self) -> None:
        store = self.made()
        past = now() - timedelta(days=1)
        store.names.restore({"staging": Name(0, past, "next"), "base": Name(0, past, "first")})
        store.names["staging"] = store.clone(0)
        moved = store.names.about("staging")
        self.assertEqual((moved.version, moved.description), (1, "next"))
        self.assertGreater(moved.time or past, past)
        self.assertEqual(store.names.about("base"), Name(0, past, "first"))
        del store.names["staging"]
        store.names["staging"] = 1
        self.assertEqual(store.names.about("staging").description, "")

    def test_several_names_are_given_by_one_write_or_none_is(self) -> None:
        store = self.made()
        store.clone(0)
        store.names.assign({"a": 0, "b": 1}, {"b": "second"})
        self.assertEqual((dict(store.names), store.names.about("b").description), ({"a": 0, "b": 1}, "second"))
        before = self.bytes_of("a.store.names")
        for versions, kind in (({"c": 0, "d": 7}, errors.UnknownVersion), ({"c": 0, "7": 0}, errors.NameFault)):
            with self.assertRaises(kind):
                store.names.assign(versions)
        with self.assertRaises(errors.NameFault):
            store.names.assign({"c": 0}, {"c": "x" * (DESCRIPTION_MAX + 1)})
        self.assertEqual((dict(store.names), self.bytes_of("a.store.names")), ({"a": 0, "b": 1}, before))

    def test_names_are_restored_all_or_none(self) -> None:
        store, tokyo = self.made(), timezone(timedelta(hours=9))
        store.names.restore({"a": Name(0, datetime(2026, 11, 29, 21, 0, 5, 999, tzinfo=tokyo), " x ")})
        want = Name(0, datetime(2026, 11, 29, 12, 0, 5, tzinfo=timezone.utc), "x")
        self.assertEqual(store.names.about("a"), want)
        before = self.bytes_of("a.store.names")
        for name, it, kind in (("7", Name(0), errors.NameFault), ("b", Name(1), errors.UnknownVersion), ("b", Name(-1), errors.UnknownVersion),
                               ("b", Name(0, None, "x" * 1001), errors.NameFault)):
            with self.assertRaises(kind):
                store.names.restore({"a": Name(0), name: it})
        self.assertEqual((store.names.about("a"), self.bytes_of("a.store.names")), (want, before))
        store.names.restore({})
        self.assertEqual((dict(store.names), self.bytes_of("a.store.names")), ({}, b""))

    def test_descriptions_of_any_text_are_kept(self) -> None:
        texts = ["Zoé 日本 # \" ' \\ \\x41", "tab\tand\nline\r\x00\x1b", "no-break\u00a0\u2028\u200b", "a byte \udcff of a script",
                 "x" * DESCRIPTION_MAX, "- -", "2026-11-29T12:00:00Z"]
        with self.made() as store:
            for number, text in enumerate(texts):
                store.names[f"n{number}"] = 0
                store.names.describe(f"n{number}", text)
        self.assertEqual(self.bytes_of("a.store.names").count(b"\n"), len(texts))
        with self.opened() as store:
            self.assertEqual([store.names.about(f"n{number}").description for number in range(len(texts))], texts)
            store.names.describe("n0", "")
            self.assertEqual(store.names.about("n0").description, "")

    def test_descriptions_that_can_not_be_are_refused(self) -> None:
        store = self.made()
        store.names["a"] = 0
        before = self.bytes_of("a.store.names")
        for text, what in (("x" * (DESCRIPTION_MAX + 1), "a description has 1,001 characters, above 1,000"), ("\ud800", "half a surrogate"),
                           (b"x", "is b'x', and no text"), (None, "is None, and no text")):
            with self.assertRaisesRegex(errors.NameFault, what):
                store.names.describe("a", text)  # type: ignore[arg-type]
        with self.assertRaisesRegex(errors.UnknownName, "no version has the name b. Names: a."):
            store.names.describe("b", "x")
        with self.assertRaises(errors.UnknownName):
            store.names.about("b")
        self.assertEqual(self.bytes_of("a.store.names"), before)

    def test_a_date_is_a_name_and_a_number_is_none(self) -> None:
        store = self.made()
        for name in ("2026-11-29", "7up", "3.1", "0x7", "_", "1e3"):
            store.names[name] = 0
            self.assertEqual(store.number(name), 0)
        for name in ("3", "007", "٣", "-1", ".5", "1" * 20):
            with self.assertRaisesRegex(errors.NameFault, "can't be a name. A name is 1 to 64 letters, digits, _, . and -, begins with no"):
                store.names[name] = 0


class FileTest(StoreCase):
    def test_a_file_of_an_older_client_is_read_and_stays_as_it_is_but_for_what_changes(self) -> None:
        with self.made() as store:
            store.clone(0)
        self.written("a.store.names", "base 0\nstaging 1\n\nÜbung_1.b-c 1\n")
        with self.opened() as store:
            self.assertEqual({name: store.names.about(name) for name in store.names},
                             {"base": Name(0, None, ""), "staging": Name(1, None, ""), "Übung_1.b-c": Name(1, None, "")})
            self.assertEqual(carried_out(store, "names")[0], "0 base\n1 staging\n1 Übung_1.b-c\n")
            store.names["staging"] = 0
            store.names.describe("base", "The first")
        lines = self.bytes_of("a.store.names").decode().splitlines()
        self.assertEqual([lines[0], lines[2]], ["base 0 - The first", "Übung_1.b-c 1"])
        self.assertRegex(lines[1], f"^staging 0 {TIME}$")
        with self.opened() as store:
            self.assertEqual(store.names.about("base"), Name(0, None, "The first"))

    def test_blanks_and_tabs_between_words_are_the_same(self) -> None:
        self.made().close()
        self.written("a.store.names", "  a\t0   2026-11-29T12:00:00Z \t two  words \nb 0 -\n")
        names = self.opened().names
        self.assertEqual(names.about("a"), Name(0, datetime(2026, 11, 29, 12, tzinfo=timezone.utc), "two  words"))
        self.assertEqual(names.about("b"), Name(0, None, ""))

    def test_a_line_with_a_wrong_time_or_description_is_told(self) -> None:
        self.made().close()
        for line, what in (("a 0 now", "line 2: now is no time. Write it as 2026-11-29T12:00:00Z, or - where there is none."),
                           ("a 0 2026-13-29T12:00:00Z", "line 2: 2026-13-29T12:00:00Z is no time"), ("a 0 0000-01-01T00:00:00Z", "is no time"),
                           ("a 0 2026-11-29T12:00:00", "is no time"), ("a 0 \x1b[2J", r"line 2: \x1b[2J is no time"), ("a 0 ٢026-11-29T12:00:00Z", "is no time"),
                           ("a 0 - \\q", r"line 2: in the description \q is no escape"),
                           ("a 0 - " + "x" * 1001, "line 2: a description has 1,001 characters"),
                           ("a 12345678901", "line 2 is not a name and a version"), ("a", "line 2 is not a name and a version")):
            written = self.written("a.store.names", f"base 0\n{line}\n")
            with self.assertWarnsRegex(errors.NamesWarning, re.escape(what)):
                store = self.opened()
            self.assertEqual(dict(store.names), {})
            with self.assertRaisesRegex(errors.NameFault, re.escape(what)):
                store.snapshot("base", "x")
            self.assertEqual((store.stat().versions, self.bytes_of(os.path.basename(written))), (1, f"base 0\n{line}\n".encode()))
            store.close()

    def test_a_time_is_kept_whatever_the_zone_of_the_machine(self) -> None:
        store, zone = self.made(), os.environ.get("TZ")
        self.addCleanup(self.set_zone, zone)
        self.set_zone("Asia/Tokyo")
        before = now()
        store.names["a"] = 0
        store.close()
        self.set_zone("America/New_York")
        about = self.opened().names.about("a")
        assert about.time is not None
        self.assertTrue(before <= about.time <= now())

    def set_zone(self, zone: Optional[str]) -> None:
        os.environ.pop("TZ", None)
        if zone is not None:
            os.environ["TZ"] = zone
        time.tzset()


class ShownTest(StoreCase):
    def test_names_and_the_tree_show_times_and_descriptions(self) -> None:
        store = self.made()
        when = datetime(2026, 11, 29, 12, 5, 59, tzinfo=timezone.utc)
        store.clone(0)
        store.clone(0)
        store.names.restore({"base": Name(0), "staging": Name(1, when, "What \t comes"), "next": Name(1, when), "old": Name(2, None, "Was")})
        self.assertEqual(self.lines_of(store, "names"), [
            "0 base", "1 next     2026-11-29 12:05 UTC", "1 staging  2026-11-29 12:05 UTC  What \\x09 comes", "2 old                            Was"])
        self.assertEqual(self.lines_of(store, "tree"), ["0 base (here)", '├─ 1 next, staging "What \\x09 comes"', '└─ 2 old "Was"'])
        self.assertEqual(self.lines_of(store, "tree --long"), [
            "0 base (here)", '├─ 1 next 2026-11-29 12:05 UTC, staging 2026-11-29 12:05 UTC "What \\x09 comes"', '└─ 2 old "Was"'])

    def test_names_are_described_in_the_shell(self) -> None:
        store = self.made()
        self.assertEqual(carried_out(store, "names set base", 'names describe base "The first one"'), ("", "", 0))
        self.assertEqual(untimed(carried_out(store, "names")[0]), "0 base  The first one\n")
        self.assertEqual(carried_out(store, 'names describe base ""'), ("", "", 0))
        self.assertEqual(untimed(carried_out(store, "names")[0]), "0 base\n")
        usage = "usage: names [set NAME [V] | describe NAME TEXT | remove NAME]"
        for line, what in (("names describe base", usage), ("names describe base a b", usage), ("names describe base x @0", usage),
                           ("names describe none x", "no version has the name none. Names: base."),
                           (f"names describe base {'x' * 1001}", "a description has 1,001 characters")):
            out, complaint, status = carried_out(store, line)
            self.assertEqual((out, status), ("", 1))
            self.assertIn(what, complaint)

    def lines_of(self, store: Store, line: str) -> List[str]:
        out, complaint, status = carried_out(store, line)
        self.assertEqual((complaint, status), ("", 0))
        return out.splitlines()

