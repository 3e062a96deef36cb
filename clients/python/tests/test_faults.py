"""A program that fails a call, is killed, or ends within a reply, at each command of a script.

What the client and the shell say then, which changes are there, and that the store opens again.
"""

from __future__ import annotations

import errno
import os
import re
import shlex
import shutil
import sys
from itertools import count
from typing import Dict, List, NamedTuple, Optional, Set, Tuple, Type
from unittest import mock

from support import TOP, StoreCase

from castle import Store, errors
from castle.errors import CastleError

sys.path.insert(0, str(TOP / "tests"))

import shim  # noqa: E402
from shim import FOR_EVER, Fault  # noqa: E402

PROGRAM = TOP / "crates" / "castle" / "out" / "castle"
MEM = 4  # changes of a region, so that the fifth change does a slice and the sixth one a publication

Pairs = Dict[bytes, bytes]


class Step(NamedTuple):
    """A command: its method with its words, the same in the shell, and the pairs of each version after it."""

    name: str
    words: Tuple[object, ...]
    line: str
    after: List[Pairs]


FIRST = {b"a": b"1", b"b": b"2"}
STEPS = [
    Step("put", (0, b"a", b"1"), "put a 1 @0", [{b"a": b"1"}]),
    Step("put", (0, b"b", b"2"), "put b 2 @0", [FIRST]),
    Step("clone", (0,), "clone @0", [FIRST, FIRST]),
    Step("get", (1, b"a"), "get a @1", [FIRST, FIRST]),
    Step("put", (1, b"a", b"3"), "put a 3 @1", [FIRST, {b"a": b"3", b"b": b"2"}]),
    Step("delete", (1, b"b"), "delete b @1", [FIRST, {b"a": b"3"}]),
    Step("page", (1,), "scan @1", [FIRST, {b"a": b"3"}]),
    Step("put", (1, b"c", b"4"), "put c 4 @1", [FIRST, {b"a": b"3", b"c": b"4"}]),
    Step("info", (1,), "info @1", [FIRST, {b"a": b"3", b"c": b"4"}]),
]
STATES: List[List[Pairs]] = [[{}], *(step.after for step in STEPS)]


class Ending(NamedTuple):
    """How a program ends at a call, what an opening and a command raise that meet it, and what the commands after it do."""

    kind: str
    way: str
    error: int
    opening: Type[CastleError]
    command: Type[CastleError]
    later: Type[CastleError]
    may_change: bool
    """Whether the change under way may have been made."""


ENDINGS = [
    Ending("input.read", "stop", 0, errors.Killed, errors.Killed, errors.Killed, False),
    Ending("file.write", "stop", 0, errors.Killed, errors.Killed, errors.Killed, True),
    Ending("file.write", "torn", 0, errors.Killed, errors.Killed, errors.Killed, True),
    Ending("file.fdatasync", "cut", 0, errors.Killed, errors.Killed, errors.Killed, True),
    Ending("output.write", "stop", 0, errors.Killed, errors.Killed, errors.Killed, True),
    Ending("output.write", "torn", 0, errors.Killed, errors.Killed, errors.Killed, True),
    Ending("file.read", "error", errno.EIO, errors.DeviceFailed, errors.DeviceFault, errors.DeviceFailed, True),
    Ending("file.write", "full", errno.ENOSPC, errors.DeviceFailed, errors.DeviceFault, errors.DeviceFailed, True),
    Ending("file.fdatasync", "drop", errno.EIO, errors.DeviceFailed, errors.DeviceFault, errors.DeviceFailed, True),
    Ending("input.read", "error", errno.EIO, errors.InputFailed, errors.InputFailed, errors.InputFailed, False),
    Ending("output.write", "error", errno.EPIPE, errors.OutputFailed, errors.OutputFailed, errors.OutputFailed, True),
    Ending("output.write", "full", errno.EIO, errors.OutputFailed, errors.OutputFailed, errors.OutputFailed, True),
]

WAITING = 16  # replies that the program has not sent yet, at most


class FaultsTest(StoreCase):
    def setUp(self) -> None:
        super().setUp()
        if os.environ.get("CASTLE_PROGRAM") or not os.access(PROGRAM, os.X_OK):
            self.skipTest("the bare program of this checkout is not the one that is tested")
        if shim.library() is None:
            self.skipTest("no compiler of C is here, to build the shim")
        self.path = os.path.realpath(self.path)
        self.new = os.path.join(self.folder, "new.store")
        Store.format(self.new, MEM, 1000, 10)

    def failing(self, ending: Ending, number: int) -> str:
        """The path of a program that ends so at the call of this number, over a new store at the path."""
        shutil.copy(self.new, self.path)
        fault = Fault(ending.kind, number, ending.way, ending.error, FOR_EVER)
        settings = [f"export {name}={shlex.quote(value)}" for name, value in shim.settings(self.path, fault).items()]
        stub = self.written("stub", "\n".join(["#!/bin/sh", *settings, f'exec {shlex.quote(str(PROGRAM))} "$@"\n']))
        os.chmod(stub, 0o755)
        return stub

    def carried_out(self, ending: Ending, number: int) -> Tuple[int, Optional[CastleError]]:
        """How many steps a store carries out whose program ends so, and what it raises then: less than 0 where it does not open."""
        try:
            store = Store(self.path, self.failing(ending, number))
        except CastleError as error:
            return -1, error
        for done, step in enumerate(STEPS):
            try:
                getattr(store, step.name)(*step.words)
            except CastleError as error:
                with self.assertRaises(ending.later):
                    store.stat()
                store.close()
                return done, error
        try:
            store.close()
        except CastleError as error:
            return len(STEPS), error
        return len(STEPS), None

    def expect_found(self, ending: Ending, done: int, most: int = 1) -> bool:
        """The store opens and takes changes, and has what was acknowledged, or some of so many steps under way too. Whether it has."""
        with Store(self.path, str(PROGRAM)) as store:
            found = [dict(store.scan(version)) for version in range(store.stat().versions)]
            store.put(len(found) - 1, b"z", b"later")
            self.assertEqual(store.get(len(found) - 1, b"z"), b"later")
        wanted = STATES[done:done + 1 + (most if ending.may_change else 0)]
        self.assertIn(found, wanted)
        return found != wanted[0]

    def test_each_ending_at_each_call_is_raised_and_loses_nothing(self) -> None:
        seen: Set[Tuple[str, bool]] = set()
        for ending in ENDINGS:
            for number in count(1):
                with self.subTest(ending=ending, number=number):
                    done, error = self.carried_out(ending, number)
                    if error is None:
                        break
                    self.assertIs(type(error), ending.opening if done < 0 else ending.command)
                    self.assertEqual(error.file, self.path)
                    seen.add((ending.kind, self.expect_found(ending, max(0, done))))
            self.assertGreater(number, 2)
        self.assertLessEqual({("output.write", True), ("file.write", False)}, seen)

    def test_a_batch_has_what_was_acknowledged_before_each_ending(self) -> None:
        for ending in ENDINGS[::3]:
            for number in count(1):
                with self.subTest(ending=ending, number=number):
                    try:
                        store = Store(self.path, self.failing(ending, number))
                    except CastleError:
                        continue
                    batch = store.batch()
                    try:
                        for step in STEPS:
                            getattr(batch, step.name)(*step.words)
                        batch.finish()
                        store.close()
                        break
                    except CastleError as error:
                        self.assertIn(type(error), (ending.command, ending.later))
                    store.close()
                    acknowledged = sum(not isinstance(result, CastleError) for result in batch.results)
                    self.expect_found(ending, acknowledged, WAITING)

    def test_the_shell_tells_the_line_of_each_ending(self) -> None:
        script = "".join(f"{step.line}\n" for step in STEPS)
        shutil.copy(self.new, self.path)
        whole, _, _ = self.shell(script)
        for ending in ENDINGS[2::3]:
            for number in count(1, 2):
                with self.subTest(ending=ending, number=number):
                    with mock.patch.dict(os.environ, CASTLE_PROGRAM=self.failing(ending, number)):
                        out, said, status = self.shell(script)
                    if status == 0:
                        break
                    self.assertEqual((status, out), (1, whole[:len(out)]))
                    told = re.match(rf"castle-shell: (?:line (\d+): )?{re.escape(self.path)}: (\w+)", said)
                    assert told, said
                    self.assertTrue(told[1] or told[2] in ("open", "close"), said)
                    self.expect_found(ending, int(told[1]) - 1 if told[1] else len(STEPS) if told[2] == "close" else 0)
