#!/usr/bin/env python3
"""Runs the launcher as a user would: `tests/launcher.py [WORD..]` at the top.

When it builds is tried in a small checkout with a command rt that only pretends; what it locks, refuses and passes on is tried with
the real program over real files. The checks stand in `tests/checks/`, one subject a file; what several subjects need stands
in `tests/launching.py`.
"""

import sys

from checks import builds, launches, locks
from program import run_checks

SUBJECTS = [builds, launches, locks]
CHECKS = [check for subject in SUBJECTS for check in subject.CHECKS]

if __name__ == "__main__":
    sys.exit(run_checks("launcher", CHECKS, sys.argv[1:]))
