"""Exports: a version as frames of puts, which a store takes again whole or not at all."""

from __future__ import annotations

import os
import random
import struct
import subprocess
import sys
import unittest
from typing import Dict, Iterator, List
from unittest import mock

from session import Session, carried_out
from support import SHELL, StoreCase

from castle import Store, errors, exports, frames
from castle.process import find_program

Pairs = Dict[bytes, bytes]


def exported(pairs: Pairs) -> bytes:
    """The frames of pairs."""
    return b"".join(exports.frames_of(sorted(pairs.items())))


def read(data: bytes, size: int = 7) -> List[exports.Pair]:
    """The pairs of frames that come in pieces of this size."""
    return list(exports.pairs_of((data[at:at + size] for at in range(0, len(data), size)), "x"))


def drawn(chance: random.Random, count: int) -> Pairs:
    """Pairs of any bytes."""
    return {chance.randbytes(chance.choice((1, 2, 3, 255))): chance.randbytes(chance.choice((0, 1, 9, 1024))) for _ in range(count)}


class FramesTest(unittest.TestCase):
    def test_the_bytes_of_an_export(self) -> None:
        data = exported({b"a": b"1", b"b": b""})
        self.assertEqual(data.hex(" ", 1).replace(" ", ""), "0000000f000000010100000000000161000131" "0000000e0000000201000000000001620000")
        self.assertEqual(exported({}), b"")

    def test_what_is_read_is_what_was_written(self) -> None:
        chance = random.Random(31)
        for count, size in ((0, 1), (1, 1), (3, 1), (40, 5), (600, 4096), (600, 1 << 20)):
            pairs = drawn(chance, count)
            self.assertEqual(read(exported(pairs), size), sorted(pairs.items()))

    def test_a_file_that_is_cut_off_or_none_is_told_by_its_first_wrong_frame(self) -> None:
        pairs = {b"a": b"1", b"b": b"2", b"c": b"3"}
        data, one = exported(pairs), len(exported({b"a": b"1"}))
        for end in range(len(data)):
            if end % one:
                with self.assertRaisesRegex(errors.DumpFault, f"frame {end // one + 1} is cut off"):
                    read(data[:end])
        second = data[one:2 * one]
        for wrong, what in (
            (data + second, "frame 4 has tag 2 and version 0, and not tag 4 and version 0"),
            (data[:one] + data[2 * one:], "frame 2 has tag 3"),
            (frames.put(1, 1, b"a", b""), "frame 1 has tag 1 and version 1"),
            (frames.put(1, 0, b"b", b"") + frames.put(2, 0, b"b", b""), "frame 2 has a key that is not behind"),
            (frames.delete(1, 0, b"a"), "frame 1 is no put"),
            (frames.stat(1), "frame 1 is no put"),
            (struct.pack(">I", 0), "frame 1 is no put"),
            (frames.put(1, 0, b"a", b"1")[:-1] + b"", "frame 1 is cut off"),
            (struct.pack(">IIBIH", 13, 1, 1, 0, 9) + b"ab", "frame 1 is no put"),
            (frames.put(1, 0, b"", b""), "frame 1 has a key that is not behind"),
            (frames.put(1, 0, b"k" * 256, b""), "frame 1 has a key of 256 bytes"),
            (frames.put(1, 0, b"k", b"v" * 1025), "frame 1 has a value of 1,025 bytes"),
            (b"# castle dump 1, x\n", "frame 1 is too long"),
            (b"\xff" * 9, "frame 1 is too long"),
        ):
            for size in (1, 7, 4096):
                with self.assertRaisesRegex(errors.DumpFault, f"x: {what}"):
                    read(wrong, size)

    def test_pairs_before_a_wrong_frame_are_given(self) -> None:
        data = exported({b"a": b"1", b"b": b"2"})
        for wrong in (data + frames.stat(3), data + b"\xff" * 4, data + b"\0"):
            found = exports.pairs_of([wrong], "x")
            self.assertEqual([next(found), next(found)], [(b"a", b"1"), (b"b", b"2")])
            self.assertRaises(errors.DumpFault, next, found)


class ExportTest(StoreCase):
    in_memory = True

    def setUp(self) -> None:
        super().setUp()
        self.pairs = drawn(random.Random(32), 700)
        self.other = os.path.join(self.folder, "b.store")
        self.file = os.path.join(self.folder, "out.frames")

    def filled(self) -> Store:
        """A store with these pairs at version 1, and others elsewhere."""
        store = self.made(64, 100000, 10)
        store.put(0, "gone", "1")
        store.clone(0)
        with store.batch() as batch:
            batch.update(1, list(self.pairs.items()))
            batch.delete(1, "gone")
        store.names["work"] = 1
        return store

    def wrong(self) -> Iterator[str]:
        """Paths of files that are no whole export."""
        data = exported(self.pairs)
        for name, wrong in (("cut", data[:-1]), ("twice", data + data), ("none", b"no frames at all")):
            path = os.path.join(self.folder, name)
            with open(path, "wb") as file:
                file.write(wrong)
            yield path

    def test_an_export_is_taken_by_another_store_and_by_serve(self) -> None:
        store = self.filled()
        self.assertEqual(carried_out(store, f"dump --frames work {self.file}"), (f"wrote {self.file}\n", "", 0))
        self.assertEqual(self.bytes_of("out.frames"), exported(self.pairs))
        store.close()
        Store.format(self.other, 64, 100000, 10)
        with open(self.file, "rb") as file:
            ran = subprocess.run([find_program(), "serve", self.other], stdin=file, capture_output=True)
        self.assertEqual((ran.stdout, ran.returncode), (frames.dones(1, len(self.pairs)), 0))
        with Store(self.other) as other:
            self.assertEqual(dict(other.scan(0)), self.pairs)
            other.clone(0)
            other.put(1, "more", "1")
            out = f"loaded {len(self.pairs)} pairs into version 1\n"
            self.assertEqual(carried_out(other, f"load --frames {self.file} @1"), (out, "", 0))
            self.assertEqual(dict(other.scan(1)), {**self.pairs, b"more": b"1"})

    def test_through_pipes(self) -> None:
        self.filled().close()
        Store.format(self.other, 64, 100000, 10)
        code = 'exec 3>&1; "$0" "$1" "$2" dump --frames work | "$0" "$1" "$3" --json load --frames - >&3'
        ran = subprocess.run(["sh", "-c", code, sys.executable, SHELL, self.path, self.other], capture_output=True)
        self.assertEqual((ran.stdout, ran.stderr, ran.returncode), (b'{"loaded": %d, "version": 0}\n' % len(self.pairs), b"", 0))
        with Store(self.other) as other:
            self.assertEqual(dict(other.scan(0)), self.pairs)

    def test_a_file_that_is_no_whole_export_changes_nothing(self) -> None:
        store = self.made(64, 100000, 10)
        for path in self.wrong():
            out, said, status = carried_out(store, f"load --frames {path}")
            self.assertEqual((out, status), ("", 1))
            self.assertRegex(said, r"line 1: .*frame [\d,]+ (is|has)")
            self.assertEqual(store.stat().changes, 0)

    def test_a_pipe_that_ends_amid_a_frame_says_how_many_were_put(self) -> None:
        self.made(64, 100000, 10).close()
        data = exported(self.pairs)[:-1]
        ran = subprocess.run([sys.executable, SHELL, self.path, "load", "--frames", "-"], input=data, capture_output=True)
        count = len(self.pairs)
        self.assertRegex(ran.stderr.decode(), f"standard input: frame {count} is cut off; {count - 1} pairs before it were put")
        self.assertEqual((ran.stdout, ran.returncode), (b"", 2))
        with Store(self.path) as store:
            self.assertEqual(dict(store.scan(0)), dict(sorted(self.pairs.items())[:-1]))

    def test_a_store_that_refuses_says_how_many_were_put(self) -> None:
        store = self.made(64, 300, 10)
        with open(self.file, "wb") as file:
            file.write(exported(self.pairs))
        out, said, status = carried_out(store, f"load --frames {self.file}")
        self.assertEqual((out, status), ("", 1))
        self.assertRegex(said, f"with 300 of {len(self.pairs)} pairs loaded: the store took as many changes")
        self.assertEqual(store.stat().changes, 300)

    def test_frames_do_not_go_to_a_terminal(self) -> None:
        self.filled().close()
        session = Session(self.folder, self.path)
        self.addCleanup(session.kill)
        session.until("> $")
        self.assertEqual(session.type("dump --frames 1"), [
            "error: frames are bytes, and no text for a terminal", "       A file stands behind the version: dump --frames V FILE.",
            "a.store @0 (frozen)> "])
        self.assertEqual(session.type("dump --frames 1 out.frames")[0], "wrote out.frames")
        self.assertEqual(self.bytes_of("out.frames"), exported(self.pairs))

    def test_wrong_words(self) -> None:
        store = self.filled()
        for line in ("dump --frames --all x", "dump --all a b", "load --frames --csv x", "load --frames", "dump --frames 1 x y", "load --frames -"):
            out, said, status = carried_out(store, line)
            self.assertEqual((out, status), ("", 1))
            self.assertRegex(said, "usage: |of one form|standard input is where")

    def test_an_export_that_is_stopped_leaves_no_file(self) -> None:
        store = self.filled()
        with mock.patch.object(os, "fsync", side_effect=OSError(28, "No space left on device")):
            out, said, status = carried_out(store, f"dump --frames 1 {self.file}")
        self.assertEqual((out, status), ("", 1))
        self.assertRegex(said, "can't be written: No space left")
        self.assertFalse(os.path.exists(self.file))
        self.assertEqual([name for name in os.listdir(self.folder) if name.startswith(".castle-")], [])


if __name__ == "__main__":
    unittest.main()
