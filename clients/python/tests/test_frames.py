"""Frames against the examples of docs/PROTOCOL.md."""

import re
import struct
import unittest

from support import TOP

from castle import frames
from castle.frames import Info, Page, Stat

PROTOCOL = (TOP / "docs" / "PROTOCOL.md").read_text(encoding="utf-8")


def example(name: str) -> bytes:
    """The bytes of a row's example."""
    found = re.search(rf"^\| \d+ \| {name} \|[^|]*\| `([0-9a-f ]+)` \|", PROTOCOL, re.M)
    assert found, name
    return bytes.fromhex(found[1])


class FramesTest(unittest.TestCase):
    def test_commands_have_the_bytes_of_the_protocol(self) -> None:
        made = {"Put": frames.put(7, 0, b"a", b"1"), "Delete": frames.delete(1, 0, b"a"), "Get": frames.get(8, 0, b"a"),
                "Clone": frames.clone(2, 0), "Scan": frames.scan(3, 0, b"a", b"", 10), "Info": frames.info(4, 0),
                "OpenCursor": frames.open_cursor(5, 0, b"", b""), "NextPairs": frames.next_pairs(6, 1, 256),
                "CloseCursor": frames.close_cursor(7, 1), "Stat": frames.stat(8), "DropVersion": frames.drop(9, 1)}
        for name, frame in made.items():
            found = re.search(rf"^\| \d+ \| {name} \| [^|]*\| `([0-9a-f ]+)` \| tag", PROTOCOL, re.M)
            assert found, name
            self.assertEqual(frame, bytes.fromhex(found[1]), name)

    def test_replies_are_read_as_the_protocol_has_them(self) -> None:
        rows = re.findall(r"^\| \d+ \| (\w+) \| [^|]*\| `([0-9a-f ]+)` \| (?:tag \d+:|tag \d+ \|)",
                          PROTOCOL.split("## Replies")[1], re.M)
        told = {name: bytes.fromhex(data) for name, data in rows}
        want = {"Done": None, "Found": b"1", "Pairs": Page([(b"a", b"1")], False), "Made": 1,
                "Info": Info(None, 0, True), "Opened": 1, "Stat": Stat(2, 1, 2, 0)}
        for name, answer in want.items():
            self.assertEqual(frames.answer(told[name][8], told[name][9:]), answer, name)

    def test_many_puts_have_the_bytes_of_each(self) -> None:
        pairs = [(b"a", b"1"), (b"", b""), (b"k" * 255, b"v" * 1024), (b"k" * 65535, b"v" * (frames.BODY_MAX - 1))]
        for tag in (0, 7, frames.NUMBER_MAX - 2):
            tags = [tag + place & frames.NUMBER_MAX for place in range(len(pairs))]
            self.assertEqual(frames.puts(tag, 3, pairs), [frames.put(number, 3, *pair) for number, pair in zip(tags, pairs)])

    def test_replies_that_many_are_done_are_those_of_each(self) -> None:
        for tag, count in ((0, 300), (7, 1), (7, 0), (65000, 1000), (2 ** 24 - 3, 6), (frames.NUMBER_MAX - 1, 2)):
            self.assertEqual(frames.dones(tag, count), b"".join(struct.pack(">IIB", 5, tag + place, 0) for place in range(count)))

    def test_commands_are_described(self) -> None:
        self.assertEqual(frames.describe(frames.put(1, 3, b"a b", b"v")), 'put "a b" at version 3')
        self.assertEqual(frames.describe(frames.get(1, 3, b"\xff")), r"get \xff at version 3")
        self.assertEqual(frames.describe(frames.clone(1, 3)), "clone version 3")
        self.assertEqual(frames.describe(frames.drop(1, 3)), "drop version 3")
        self.assertEqual(frames.describe(frames.info(1, 3)), "info version 3")
        self.assertEqual(frames.describe(frames.scan(1, 3, b"", b"", 1)), "page of version 3")
        self.assertEqual(frames.describe(frames.open_cursor(1, 3, b"a", b"")), "scan of version 3")
        self.assertEqual(frames.describe(frames.next_pairs(1, 2 ** 63, 1)), f"next pairs of cursor {2 ** 63}")
        self.assertEqual(frames.describe(frames.close_cursor(1, 3)), "close cursor 3")
        self.assertEqual(frames.describe(frames.stat(1)), "stat")
        self.assertEqual(frames.describe(frames.put(1, 3, b"k" * 60, b"v")), f"put {'k' * 60} at version 3")
        self.assertEqual(frames.describe(frames.get(1, 3, b"k" * 256)), f"get {'k' * 30}.. (256 bytes) at version 3")
        for body in (b"", b"\0\0\0\0\x01", b"\0\0\0\0\x08\0\0\0\0", b"\0\0\0\0\x0b", b"\0\0\0\0\x0c\0\0\0\0"):
            self.assertEqual(frames.describe(len(body).to_bytes(4, "big") + body), "a frame that is no command")

    def test_the_version_of_a_command_is_found(self) -> None:
        for frame in (frames.put(1, 3, b"a", b"v"), frames.get(1, 3, b"a"), frames.drop(1, 3), frames.scan(1, 3, b"", b"", 1)):
            self.assertEqual(frames.version_of(frame), 3)
        for frame in (frames.stat(1), frames.next_pairs(1, 3, 1), frames.close_cursor(1, 3), frames.limits(1)):
            self.assertIsNone(frames.version_of(frame))

    def test_the_end_of_a_prefix_leaves_out_no_key(self) -> None:
        self.assertEqual(frames.prefix_end(b"a/"), b"a0")
        self.assertEqual((frames.prefix_end(b"a\xff"), frames.prefix_end(b"a\xff\xff")), (b"b", b"b"))
        self.assertIsNone(frames.prefix_end(b"\xff"))
        self.assertIsNone(frames.prefix_end(b"\xff\xff"))
        self.assertIsNone(frames.prefix_end(b""))
