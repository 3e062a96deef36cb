"""Bytes as text and back, words of a line, and dumps."""

import os
import random
import unittest
from typing import List, Optional, Tuple

import support  # noqa: F401: finds the package

from castle import dump, text
from castle.errors import DumpFault, TextFault


class TextTest(unittest.TestCase):
    def test_bytes_become_text_and_the_same_bytes_again(self) -> None:
        chance = random.Random(1)
        drawn = [bytes([byte]) for byte in range(256)] + [chance.randbytes(chance.randrange(20)) for _ in range(2000)]
        drawn += ["é".encode(), "日本".encode(), b'"', b"\\x41", b"a b", b"#a", b"@3", b"\xe3\x81", "\u200b\u00a0".encode()]
        for data in drawn:
            self.assertEqual(text.unescaped(text.cell(data)), data)
            line = f"put {text.shown(data)} x"
            self.assertEqual([word.data for word in text.words(line)], [b"put", data, b"x"])
            self.assertTrue(line.isprintable(), line)

    def test_text_stands_as_it_is(self) -> None:
        self.assertEqual(text.shown("user/1/Zoé".encode()), "user/1/Zoé")
        self.assertEqual(text.shown(b"a b"), '"a b"')
        self.assertEqual(text.shown(b"\0\xffz"), r"\x00\xffz")
        self.assertEqual(text.shown(b""), '""')
        self.assertEqual(text.shown(b"\\"), r"\\")

    def test_a_key_that_begins_as_a_version_is_shown_in_quotes(self) -> None:
        self.assertEqual(text.shown(b"@3"), '"@3"')
        self.assertEqual(text.shown(b"#3"), '"#3"')
        for key in (b"@", b"@3", b"@staging", b"@a b", b"@\xff", b'@"'):
            word, = text.words(text.shown(key))
            self.assertEqual((word.data, word.bare, word.is_version), (key, False, False))
        self.assertEqual([word.is_version for word in text.words(r'@3 "@3" \x403 a@3 @')], [True, False, False, False, True])

    def test_a_word_is_a_name_or_a_path_without_its_quotes(self) -> None:
        for line, want in (('"a b"', "a b"), (r"a\x20b", "a b"), (r'"a\"b"', 'a"b'), ("日", "日"), (r"\xe6\x97\xa5", "日"), ('"@a"', "@a")):
            word, = text.words(line)
            self.assertEqual((word.name, word.path), (want, want))
        self.assertEqual(os.fsencode(text.words(r"\xff")[0].path), b"\xff")

    def test_a_long_word_breaks_off_in_a_message(self) -> None:
        self.assertEqual(text.shortened("x" * 60), "x" * 60)
        self.assertEqual(text.shortened("x" * 61), "x" * 60 + ".. (61 characters)")

    def test_words_have_quotes_and_escapes(self) -> None:
        words = text.words(r'put  "a \"b\"\t"   c\n\\ @3  "@3" ""')
        self.assertEqual([word.data for word in words], [b"put", b'a "b"\t', b"c\n\\", b"@3", b"@3", b""])
        self.assertEqual([word.bare for word in words], [True, False, True, True, False, False])
        for line in ('put "a', 'put "a"b', r'put "a\"', r"put \q", "put \\", r"put \x4"):
            with self.assertRaises(TextFault, msg=line):
                text.words(line)

    def test_a_byte_that_is_no_text_is_itself(self) -> None:
        self.assertEqual(text.words("put \udcff x")[1].data, b"\xff")


class DumpTest(unittest.TestCase):
    def lines(self, *pairs: Tuple[bytes, bytes]) -> List[str]:
        return list(dump.lines_of(pairs, "version 1"))

    def test_a_dump_is_lines(self) -> None:
        self.assertEqual("".join(self.lines((b"#a b", b"1\t2"), (b"\\k", b""))),
                         "# castle dump 1, version 1\n\\x23a b\t1\\x092\n\\\\k\t\n# end, 2 pairs\n")

    def test_a_dump_is_read_again(self) -> None:
        pairs = [(bytes([byte]) + bytes([byte]), bytes(range(byte, 256))) for byte in range(256)]
        self.assertEqual(dump.pairs_of(self.lines(*pairs), "f"), pairs)
        self.assertEqual(dump.pairs_of(self.lines(), "f"), [])
        lines = self.lines((b"a", b"1"))
        self.assertEqual(dump.pairs_of([lines[0], "# a comment\n", *lines[1:]], "f"), [(b"a", b"1")])
        self.assertEqual(dump.pairs_of(["# castle dump 1\n", *lines[1:]], "f"), [(b"a", b"1")])

    def test_a_title_is_one_line(self) -> None:
        lines = list(dump.lines_of([], "version 0 of a\nb\\.store"))
        self.assertEqual(lines, ["# castle dump 1, version 0 of a\\x0ab\\\\.store\n", "# end, 0 pairs\n"])

    def test_a_pair_that_no_store_takes_is_refused(self) -> None:
        sizes = ((0, 1, "a key of 0 bytes"), (256, 1, "a key of 256 bytes"), (1, 1025, "a value of 1,025 bytes"))
        for key, value, what in sizes:
            with self.assertRaisesRegex(DumpFault, f"^f: line 2 has {what}"):
                dump.pairs_of(self.lines((b"k" * key, b"v" * value)), "f")
        for key, value in ((1, 0), (255, 1024)):
            self.assertEqual(len(dump.pairs_of(self.lines((b"\xff" * key, b"\xff" * value)), "f")), 1)

    def test_a_dump_of_another_format_is_refused(self) -> None:
        lines = self.lines((b"a", b"1"))
        for first in ("# castle dump 12", "# castle dump 10, version 1", "# castle dump 2, version 1", "# castle dump 1 ", "castle dump 1"):
            with self.assertRaisesRegex(DumpFault, "line 1 is not that of a dump", msg=first):
                dump.pairs_of([f"{first}\n", *lines[1:]], "f")

    def test_a_dump_that_is_not_whole_is_refused(self) -> None:
        first, pair, last = self.lines((b"a", b"1"))
        cases: List[Tuple[List[str], Optional[int]]] = [
            ([], 0), ([pair, last], 1), ([first, pair], 2), ([first, last], None), ([first, pair, last, pair], 4),
            ([first, "a\n", last], 2), ([first, "a\tb\tc\n", last], 2), ([first, "a\t\\xg0\n", last], 2),
            ([first, pair, "# end, " + "9" * 5000 + " pairs\n"], 3)]
        for lines, line in cases:
            with self.assertRaises(DumpFault, msg=str(lines)) as caught:
                dump.pairs_of(lines, "f.dump")
            self.assertIn("f.dump: ", str(caught.exception))
            if line is not None:
                self.assertIn(f"line {line}", str(caught.exception))
