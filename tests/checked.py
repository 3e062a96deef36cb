#!/usr/bin/env python3
"""Has the program check damaged files, as many as it is told, and compares each answer with the rules in `tests/rules.py`.

It is run by hand, `python3 tests/checked.py [COUNT [SEED]]` at the top, with the program built: 20,000 files and seed 46 unless it is
told otherwise. No answer may be another, no run may be ended by a signal or take more than seconds, and no file or folder
may change. It prints how many answers there were of each kind.
"""

import sys

from checks.checking import SEED, tried
from program import Skipped, Wrong, scratch, wants_check


def main(words):
    count, seed = (int(words[at]) if words[at:] else default for at, default in enumerate((20_000, SEED)))
    with scratch(True) as folder:
        try:
            wants_check()
            found = tried(folder, seed, count)
        except (Skipped, Wrong) as why:
            print(f"FAILED: {why}")
            return 1
    print(", ".join(f"{kind} {number}" for kind, number in sorted(found.items())))
    print(f"{count} files, seed {seed}: each answer is that of the rules")
    return 0


if __name__ == "__main__":
    sys.exit(main(sys.argv[1:]))
