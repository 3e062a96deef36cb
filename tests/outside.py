#!/usr/bin/env python3
"""Runs the built program as a user would: real files, real pipes, input cut at odd places, runs that are killed.

What the proofs can't see is tested here: that the program that was built is the program that was
proved, that the standard streams and the file are reached, and that each reply goes out before the next read.
Answers and files are compared with the model in `tests/model.py`. Run it at the top of the repository, or by
`./test`; with words it runs the checks alone whose names have one of them.

The checks stand in `tests/checks/`, one subject a file; what several subjects need stands in `tests/program.py`,
`tests/samples.py` and `tests/tracing.py`.
"""

import sys

from checks import (
    arguments, batches, calls, checking, commands, crashes, cursors, damage, drops, endings, exports, faults, files,
    filters, following, frames, kept, levels, manifests, memory, pages, power, stops, streams, syncs, workload)
from program import run_checks

SUBJECTS = [
    frames, commands, drops, cursors, arguments, streams, files, pages, kept, levels, filters, memory, workload, damage, manifests, checking, crashes,
    batches, stops, power, faults, calls, syncs, endings, following, exports]
CHECKS = [check for subject in SUBJECTS for check in subject.CHECKS]

if __name__ == "__main__":
    sys.exit(run_checks("outside", CHECKS, sys.argv[1:]))
