#!/usr/bin/env python3
"""Refuses each allocation of a run in turn, once and from then on for ever: no refused one may change a table.

It is run by hand, `python3 tests/allocations.py [SEED]` at the top, with the program built: a run for each allocation takes long.
docs/NUMBERS.md has when it was run last, and what it found. A reply may be the refusal for want of memory if
docs/ERRORS.md allows it there; then the table is as before. Every other reply is that of the model in `tests/model.py`, and
so is the table in the file at the end.
"""

import collections
import copy
import errno
import os
import random
import sys
import tempfile

import formats
import model
import promotions
from faulty import Rig, counts_of, made_over
from model import bodies_of, reply, tag_of
from program import Skipped, Wrong, complaint, expect, expect_alike, has_check
from samples import drawn_beside_cursors, drawn_changes
from shim import COUNTED, FOR_EVER, Fault

NO_MEMORY = 32  # a reply's status
CHANGES = (model.PUT, model.DELETE, model.CLONE, model.DROP)


def may_be_refused(journal, body):
    """Whether the command may want memory that is not there: a change that meets a full journal, or the opening of a cursor."""
    return body[4] == model.OPEN_CURSOR or body[4] in CHANGES and len(journal.changes) >= journal.mem


def after_refusals(name, data, store, frames, ran):
    """The store after a run whose replies are the model's, but for those commands that were refused for want of memory; and how many were.

    The run was over a file with these bytes. A promotion is given up where a change is refused, and the next change begins it anew.
    """
    now, got, refused = copy.deepcopy(store), bodies_of(ran.out), 0
    now.start_run()
    journal = promotions.opened(data, formats.read(data))
    expect(f"{name}, replies", len(got), len(frames) if ran.status == model.ENDED else 0)
    for number, body in enumerate(got):
        asked = frames[number][4:]
        if model.frame(body) == reply(tag_of(asked), NO_MEMORY) and may_be_refused(journal, asked):
            refused += 1
            if asked[4] in CHANGES:
                journal.left = None
            continue
        changes = now.counts()[2]
        expect(f"{name}, reply {number}", model.frame(body), now.answer(asked))
        if now.counts()[2] > changes:
            journal.take(now.changes[-1])
    return now, refused


def each_refusal(rig, data, *words, sent=b""):
    """A run over these bytes for each allocation that is refused, and for each from which on all are: its name, and what it did."""
    rig.has(data)
    count = counts_of(rig.run(COUNTED, *words, sent=sent).calls)["memory.allocate"]
    for number in range(1, count + 1):
        for times in (1, FOR_EVER):
            rig.has(data)
            ran = rig.run(Fault("memory.allocate", number, "error", errno.ENOMEM, times), *words, sent=sent)
            name = f"{words[0]}, allocation {number}, {times} times"
            if (ran.status, ran.said) not in [(status, complaint(status)) for status in (model.ENDED, model.NO_MEMORY)]:
                raise Wrong(f"{name}: {ran.status}, {ran.said}")
            yield name, ran


def served_without(rig, data, store, frames):
    """How many runs served these frames with allocations refused, and how many commands and openings were refused then."""
    found = collections.Counter()
    for name, ran in each_refusal(rig, data, "serve", sent=b"".join(frames)):
        now, refused = after_refusals(name, data, store, frames, ran)
        status, got = formats.opened(rig.bytes())
        expect(f"{name}, the file", status, model.ENDED)
        expect_alike(name, got, now)
        found.update(runs=1, commands=refused, openings=ran.status == model.NO_MEMORY)
    return found


def other_jobs_without(rig, data, *words):
    """The same of another job: a run that is refused changes no byte, and any other does what it does with memory."""
    rig.has(data)
    whole, found = rig.run(None, *words), collections.Counter()
    want = {model.ENDED: (whole.out, rig.bytes()), model.NO_MEMORY: (b"", data)}
    for name, ran in each_refusal(rig, data, *words):
        expect(name, (ran.out, rig.bytes()) == want[ran.status], True)
        found.update(runs=1, openings=ran.status == model.NO_MEMORY)
    return found


def scripts(chance, folder):
    """Stores to begin from, and commands: the openings of cursors and promotions take memory."""
    for name, mem, earlier, count in (("a new one", 4, 0, 60), ("one with levels", 4, 60, 60), ("one with a full journal of 64", 64, 64, 30)):
        data, store = made_over(folder, mem, drawn_changes(chance, earlier, 1, 6, 0.1, 0.05))
        yield name, data, store, drawn_beside_cursors(chance, count, store, 6, 0.1)


def rows(rig, seed):
    """The rows of the table of docs/NUMBERS.md."""
    for name, data, store, frames in scripts(random.Random(seed), rig.folder):
        found = served_without(rig, data, store, frames)
        yield f"`serve` | {name} | {len(frames)}", found
        for words in (["levels"], *([["check"]] if has_check() else []), ["format", "4", "1000", "100"]):
            yield f"`{words[0]}` | {name} |", other_jobs_without(rig, data, *words)


def main(words):
    with tempfile.TemporaryDirectory(dir="/dev/shm" if os.access("/dev/shm", os.W_OK) else None) as folder:
        try:
            for what, found in rows(Rig(folder), int(words[0]) if words else 42):
                print(f"| {what} | {found['runs']} | {found['commands']} | {found['openings']} |", flush=True)
        except (Skipped, Wrong) as why:
            print(f"FAILED: {why}")
            return 1
    return 0


if __name__ == "__main__":
    sys.exit(main(sys.argv[1:]))
