"""Runs the client's tests with the real program, and says how many passed and failed.

`python3 clients/python/tests [WORD..]` at the top of the checkout; with words, the tests whose names have one of
them. The program is that of CASTLE_PROGRAM, or else the launcher of this checkout.
"""

from __future__ import annotations

import faulthandler
import pathlib
import signal
import sys
import traceback
import unittest
from typing import Any, Iterator, List

sys.path.insert(0, str(pathlib.Path(__file__).resolve().parents[1]))

from castle.process import Process, find_program  # noqa: E402


def said(test: unittest.TestCase) -> str:
    """The name of a test as words."""
    return test.id().rsplit(".", 1)[1].replace("test_", "", 1).replace("_", " ")


class Lines(unittest.TestResult):
    """Prints a line for each test, in the form of the repository's other checks."""

    def __init__(self) -> None:
        super().__init__()
        self.passed = self.failed = 0

    def addSuccess(self, test: unittest.TestCase) -> None:
        print(f"client: {said(test)}", flush=True)
        self.passed += 1

    def addSkip(self, test: unittest.TestCase, reason: str) -> None:
        print(f"client: skipped: {said(test)}: {reason}", flush=True)

    def addFailure(self, test: unittest.TestCase, err: Any) -> None:
        trace = "".join(traceback.format_exception(*err))
        print(f"client: FAILED: {said(test)}:\n{trace}", end="", flush=True)
        self.failed += 1

    def addError(self, test: unittest.TestCase, err: Any) -> None:
        self.addFailure(test, err)

    def addSubTest(self, test: unittest.TestCase, subtest: unittest.TestCase, err: Any) -> None:
        if err is not None:
            self.addFailure(subtest, err)


def cases(suite: unittest.TestSuite) -> Iterator[unittest.TestCase]:
    """The tests of a suite, one by one."""
    for test in suite:
        if isinstance(test, unittest.TestSuite):
            yield from cases(test)
        else:
            yield test


DEADLINE = 1800  # seconds for all of them; then it tells where it hangs, and ends


def is_built() -> bool:
    """Has the launcher build the program, and shows how far it is. Another program only complains of the word."""
    return Process(find_program(), ["--build"], "the program").finish() not in (126, 127)


def main(wanted: List[str]) -> int:
    """Runs them; the exit status."""
    if not is_built():
        print("client: FAILED: the program isn't built\n0 passed, 1 failed")
        return 1
    faulthandler.dump_traceback_later(DEADLINE, exit=True)
    signal.signal(signal.SIGINT, signal.default_int_handler)  # a job in the background has it ignored, and all that it starts
    found = unittest.defaultTestLoader.discover(str(pathlib.Path(__file__).resolve().parent))
    lines = Lines()
    for test in cases(found):
        if not wanted or any(word in said(test).replace(" ", "_") for word in wanted):
            test.run(lines)
    print(f"{lines.passed} passed, {lines.failed} failed")
    return 1 if lines.failed or not lines.passed else 0


if __name__ == "__main__":
    sys.exit(main(sys.argv[1:]))
