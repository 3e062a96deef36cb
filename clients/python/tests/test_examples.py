"""The examples, each run as its first lines say, and the client in C of the page of the protocol."""

import os
import re
import shutil
import subprocess
import sys
import unittest
from typing import Dict, List, Tuple

from hubs import HubCase, Reply
from support import DEADLINE, PACKAGE, TOP, StoreCase, has

from castle import errors, frames
from castle.process import find_program

PAGE = (TOP / "docs" / "PROTOCOL.md").read_text(encoding="utf-8")

PRINTED: Dict[str, str] = {
    "settings.py": """\
before the release: banner = Welcome, timeout = 30
  will change: theme from None to b'dark'
  will change: timeout from b'30' to b'5'
after the release: banner = Welcome, theme = dark, timeout = 5
taken back: banner = Welcome, timeout = 30
""",
    "fixtures.py": """\
3 tests, 3 clones; the fixture has 1000 accounts of b'100'
""",
    "undo.py": """\
edited: version 3: It was a dark night. / Somebody came.
undone: version 2: It was a dark night. / Nobody came.
redone: version 3: It was a dark night. / Somebody came.
edited: version 4: It was a dark night. / The End.
an undone state: version 3: It was a dark night. / Somebody came.
""",
    "what_if.py": """\
now: 2480
stay at home: 2040
move out of town: 2330
sublet a room: 2030
best: sublet a room
  food: 600 -> 650
  rent: 1200 -> 700
""",
    "replica.py": """\
the copy: pears = 3, plums = 20
refused: put plums at version 0
the copy lacks 3 of 5 changes
the copy: figs = 7, pears = 0, plums = 20
before the last change: pears = 0, plums = 20
""",
    "shelf.py": """\
version 0: ann, ports; ann is in users; ports [80, 443]
version 1: ann; ann is in admins, users; ports None
""",
}


class ExamplesTest(unittest.TestCase):
    def test_each_example_prints_what_it_should(self) -> None:
        self.assertEqual({path.name for path in (TOP / "examples").glob("*.py")}, set(PRINTED))
        for name, printed in PRINTED.items():
            if name == "replica.py" and not has("lead"):
                print("client: skipped: examples/replica.py: the program has no word lead yet", flush=True)
                continue
            with self.subTest(name):
                environment = {**os.environ, "PYTHONPATH": PACKAGE}
                ran = subprocess.run([sys.executable, "-W", "error", str(TOP / "examples" / name)], capture_output=True,
                                     env=environment, timeout=DEADLINE)
                self.assertEqual((ran.stdout.decode(), ran.returncode), (printed, 0), ran.stderr.decode())
                self.assertIn(f"\n    PYTHONPATH=clients/python python3 examples/{name}\n",
                              (TOP / "examples" / name).read_text(encoding="utf-8"))


class ProtocolPageTest(StoreCase):
    def compiled(self) -> str:
        """The client in C of the page."""
        compiler = shutil.which("cc")
        if compiler is None:
            self.skipTest("cc is not here")
        (source,) = re.findall(r"^```c\n(.*?)^```$", PAGE, re.M | re.S)
        path, program = self.written("client.c", source), os.path.join(self.folder, "client")
        ran = subprocess.run([compiler, "-std=c99", "-Wall", "-Wextra", "-Wconversion", "-Wno-sign-conversion", "-Werror", "-o", program, path],
                             capture_output=True, text=True)
        self.assertEqual((ran.returncode, ran.stdout, ran.stderr), (0, "", ""))
        return program

    def test_the_client_in_c_speaks_to_the_program(self) -> None:
        client = self.compiled()
        self.made().close()

        def run(*words: str) -> Tuple[str, int]:
            ran = subprocess.run([client, find_program(), self.path, *words], capture_output=True, text=True, timeout=DEADLINE)
            return ran.stdout, ran.returncode

        self.assertEqual(run("user/1/name", "Ann"), ("tag 1: status 0\ntag 2: status 1, Ann\n", 0))
        self.assertEqual(run("", "Ann"), ("tag 1: status 23\ntag 2: status 23\n", 0))
        with self.opened() as store:
            self.assertEqual((store.get(0, "user/1/name"), store.clone(0)), (b"Ann", 1))
        self.assertEqual(run("user/1/name", "Eve"), ("tag 1: status 17\ntag 2: status 1, Ann\n", 0))
        self.assertEqual(run("a", "1" * 1024), ("tag 1: status 17\ntag 2: status 2\n", 0))
        self.written("a.store", "no store")
        self.assertEqual(run("a", "1"), ("", 2))
        self.assertEqual(run("a"), ("", 64))


class ProbeTest(HubCase):
    def probes(self) -> List[Tuple[bytes, str]]:
        """The frames of the page that tell what a build has, and the reply where it has that."""
        rows = re.findall(r"^\| \d+ \| \w+ \| `([0-9a-f ]+)` \| (\w+) \|$", PAGE.split("## What a build has")[1], re.M)
        self.assertEqual(len(rows), 11)
        return [(bytes.fromhex(frame), reply) for frame, reply in rows]

    def test_what_a_build_has_is_told_by_frames_that_change_nothing(self) -> None:
        statuses = {**{kind.__name__: status for status, kind in errors.REFUSALS.items()}, "Stat": frames.COUNTS}
        self.served()
        with self.client() as store:
            store.put(0, "a", "1")
            before = store.stat()
        client = self.raw()
        for frame, name in self.probes():
            reply = client.ask(frame)
            assert reply
            self.assertEqual((reply.tag, reply.status), (1, statuses[name]), frame.hex())
            unknown = frame[:8] + bytes([frame[8] + 100]) + frame[9:]
            self.assertEqual(client.ask(unknown), Reply(1, statuses["Malformed"]), unknown.hex())
        self.assertEqual(self.client().stat(), before)
