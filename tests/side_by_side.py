#!/usr/bin/env python3
"""Proves the crates below a program side by side, where `rt run` would prove them one after the other.

The launcher calls it in the program's folder, where it has to build the program. A crate begins when those that it
stands on are proved, and gets the processors that no other waits for. What it prints is a log, with the lines

    proving K crates
    proving NAME, N of K functions
    proved NAME, N of K crates

Where fewer than two crates are left to prove, it does nothing. Its status is 0 where all are proved. It decides nothing:
`rt run` takes what is proved here as it takes its own kept work, and does the rest.
"""

import functools
import os
import re
import signal
import sys
import threading

import kit


class Log:
    """Standard output, a line at a time, for many crates at once."""

    def __init__(self, crates):
        self.crates, self.done, self.lock = crates, 0, threading.Lock()

    def say(self, text):
        with self.lock:
            print(text, flush=True)

    def proved(self, name):
        with self.lock:
            self.done += 1
            print(f"proved {name}, {self.done} of {self.crates} crates", flush=True)


class Lines:
    """What one crate's check says, as lines of the log that name the crate."""

    def __init__(self, log, name):
        self.log, self.name, self.rest = log, name, ""

    def write(self, text):
        *whole, self.rest = (self.rest + text).split("\n")
        for line in whole:
            found = re.match(r"(?:checked \S+, |so far: )(\d+ of \d+)\b", line)
            self.log.say(f"proving {self.name}, {found[1]} functions" if found else f"{self.name}: {line}")

    def flush(self):
        pass


def prove(log, crate, given, jobs):
    """Whether the crate, with those that it stands on, is proved now."""
    if not all(given.get((below.name, "proof"), True) for below in crate.below()):
        return False
    crate.out = Lines(log, crate.name)
    if crate.build_rlib(["--jobs", str(jobs)], anew=False):
        return False
    log.proved(crate.name)
    return True


def main():
    rt = kit.rt_as_library()
    # no thread may run yet when the kit sets its handlers
    rt.rtlib.guarded()
    signal.signal(signal.SIGINT, signal.SIG_DFL)
    # some kits keep what one checkout proved for the next
    if hasattr(rt, "share_work"):
        rt.share_work(True)
    crates = [crate for crate in rt.rtlib.crates_below(os.getcwd()) if crate.makes_rlib()]
    held = rt.rtlib.lock(crates)
    left = [crate for crate in crates if not crate.is_built()]
    if len(left) < 2:
        return 0
    log = Log(len(left))
    log.say(f"proving {len(left)} crates")
    tasks = {}
    for crate in left:
        waits = [(below.name, "proof") for below in crate.below() if below in left]
        tasks[crate.name, "proof"] = waits, crate.count(rb"\n"), rt.need(crate), functools.partial(prove, log, crate)
    given = rt.in_lanes(tasks)
    for file in held:
        os.close(file)
    return 0 if all(given.values()) else 1


if __name__ == "__main__":
    sys.exit(main())
