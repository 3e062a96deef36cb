#!/usr/bin/env python3
"""Tries the benches: that they notice a wrong answer, and print what they measured: `tests/bench.py [WORD..]` at the top."""

import argparse
import array
import contextlib
import functools
import gc
import importlib.machinery
import importlib.util
import io
import os
import pathlib
import random
import re
import subprocess
import sys

import formats
import model
import promotions
from program import PROGRAM, TOP, Skipped, StoreFile, Wrong, expect, run_checks

CASTLE, SQLITE = "castle", "SQLite"


def bench_as_library(name):
    loader = importlib.machinery.SourceFileLoader(f"bench_{name}", str(TOP / "bench" / name))
    module = importlib.util.module_from_spec(importlib.util.spec_from_loader(loader.name, loader))
    loader.exec_module(module)
    return module


bench = bench_as_library("run")
waiting = importlib.import_module("waits")  # found where the bench found it
clones = bench_as_library("clones")
drops = bench_as_library("drops")


@contextlib.contextmanager
def changed(owner, name, value):
    """Has a name stand for something else for a while."""
    before = getattr(owner, name)
    setattr(owner, name, value)
    try:
        yield before
    finally:
        setattr(owner, name, before)


def measured(folder, *words, looks=("--gets", "5", "--scans", "3", "--wholes", "2")):
    """Status, output and complaints of the bench over one small workload."""
    out, errors = io.StringIO(), io.StringIO()
    given = ["run", "--counts", "40", *looks, "--mem", "16", "--workloads", "chain", "--disk", folder, "--memory", folder, *words]
    with changed(sys, "argv", given), contextlib.redirect_stdout(out), contextlib.redirect_stderr(errors):
        status = bench.main()
    return status, out.getvalue(), errors.getvalue()


def the_bench_finds_both_stores_alike(folder):
    ran = subprocess.run([sys.executable, str(TOP / "bench" / "run"), "--counts", "40,80", "--gets", "20", "--mem", "16",
                          "--disk", folder], capture_output=True, timeout=60)
    expect("its status", (ran.returncode, ran.stderr.count(b"\n")), (0, 10))
    titles = re.findall(rb"^### `(\w+)`", ran.stdout, re.MULTILINE)
    expect("its tables", titles, [b"puts", b"chain", b"sparse", b"star", b"deleted"])
    expect("its scans", ran.stdout.count("| µs a scan of 100 | µs a pair, whole version | µs a pair, by a cursor |".encode()), 5)
    rows = re.findall(rb"^\| (40|80) \| (castle|SQLite) \|", ran.stdout, re.MULTILINE)
    expect("its rows", rows, [(b"40", b"castle"), (b"40", b"SQLite"), (b"80", b"castle"), (b"80", b"SQLite")] * 5)


def one_wrong_answer_is_noticed_wherever_it_comes(folder):
    expect("no wrong answer", measured(folder)[0], 0)
    # of 40 changes, 5 gets, 3 scans and 2 whole versions the first and the last of each kind
    for kind, places, wrong in (("change", (0, 39), lambda answer: not answer), ("get", (0, 4), lambda answer: b"x"),
                                ("scan", (0, 2), lambda answer: answer[:-1]), ("scan", (3, 4), lambda answer: answer[1:])):
        for place in places:
            asked = []

            def answer(store, *words, right=getattr(bench.PlainStore, kind), place=place, wrong=wrong, asked=asked):
                asked.append(words)
                return wrong(right(store, *words)) if len(asked) == place + 1 else right(store, *words)

            with changed(bench.PlainStore, kind, answer):
                status, out, errors = measured(folder)
            expect(f"{kind} {place}", (status, out.count("|"), "the program answered" in errors), (1, 0, True))


def answers_that_are_missing_are_noticed(folder):
    for got, wanted in (([1, 2], [1, 2, 3]), ([1, 2, 3], [1, 2]), ([], [])):
        try:
            bench.compare(3, ["a", "b", "c"], got, wanted)
        except bench.Different:
            continue
        raise Wrong(f"{got} and {wanted} are taken for answers to three commands")
    bench.compare(3, ["a", "b", "c"], [1, 2, 3], [1, 2, 3])


def a_program_that_fails_behind_its_replies_is_noticed(folder):
    stub = os.path.join(folder, "stub")
    with open(stub, "w") as file:
        file.write(f'#!/bin/sh\n"{PROGRAM}" "$@" || exit\n[ "$1" != serve ] || exit 9\n')
    os.chmod(stub, 0o755)
    with changed(bench, "PROGRAM", stub):
        status, out, errors = measured(folder)
    expect("its status", (status, out.count("|"), "the program ended with status 9" in errors), (1, 0, True))


# A made-up program that answers as the model does, except that a statement is carried out before one reply to a change is sent
ANSWERER = """\
#!{python}
import sys, time
sys.path.insert(0, {tests!r})
import formats, model

path, store = sys.argv[2], model.Store(16, 1000, 1000)
if sys.argv[1] == "format":
    with open(path, "wb") as file:
        file.write(formats.unpublished(store))
place = -1  # of the change, behind a frame that asks for the counts
while sys.argv[1] == "serve" and (head := sys.stdin.buffer.read(4)):
    reply = store.answer(sys.stdin.buffer.read(int.from_bytes(head, "big")))
    if place == {place}:
        {statement}
    sys.stdout.buffer.write(reply)
    sys.stdout.buffer.flush()
    place += 1
"""


def answerer(folder, place, statement):
    """The program of the bench is such a one for a while."""
    path = os.path.join(folder, "answerer")
    with open(path, "w") as file:
        file.write(ANSWERER.format(python=sys.executable, tests=str(TOP / "tests"), place=place, statement=statement))
    os.chmod(path, 0o755)
    return changed(bench, "PROGRAM", path)


def a_wrong_answer_to_a_change_that_is_sent_alone_is_noticed(folder):
    for place in (0, 39):
        with answerer(folder, place, "reply = reply if sys.argv[2].endswith('bench.store') else reply[:8] + b'\\2' + reply[9:]"):
            status, out, errors = measured(folder)
        expect(f"change {place}", (status, out.count("|"), "sent one by one" in errors), (1, 0, True))


def waited(folder, *words):
    """The same of the waits for changes on a disk."""
    return measured(folder, "--waits", "--memory", "", *words, looks=())


# What may be wrong with a reply that is waited for
WRONGS = [
    ("another status", "reply = reply[:8] + b'\\2' + reply[9:]"),
    ("another tag", "reply = reply[:7] + b'\\xff' + reply[8:]"),
    ("a longer one", "reply = reply[:3] + bytes([reply[3] + 1]) + reply[4:] + b'x'"),
    ("half of it, and the end", "sys.stdout.buffer.write(reply[:6]); break"),
    ("none, and the end", "break"),
    ("none", "reply = b''"),
    ("two", "reply *= 2"),
    ("one and a half", "reply += reply[:6]"),
    ("two, and the second one late", "sys.stdout.buffer.write(reply); sys.stdout.buffer.flush(); time.sleep(0.1)"),
]


def a_reply_that_is_waited_for_has_to_be_there_and_right(folder):
    with answerer(folder, None, "pass"):
        expect("what is right", waited(folder)[0], 0)
    for name, statement in WRONGS:
        for place in (0, 39):
            with answerer(folder, place, statement), changed(bench, "SILENCE", 1 if name == "none" else 60):
                status, out, errors = waited(folder)
            expect(f"{name}, change {place}", (status, out.count("|"), errors.count("bench: chain: ")), (1, 0, 1))


def a_pipe_that_gives_something_else_back_is_noticed(folder):
    alters = "import os\nwhile piece := os.read(0, 4096): os.write(1, piece[:-1] + b'x')"
    for echo, said in ((["cat", "-u"], None), ([sys.executable, "-c", alters], "a pipe alone gave other frames back"),
                       (["true"], "no whole reply came to a frame")):
        with changed(bench, "ECHO", echo):
            status, out, errors = waited(folder)
        expect(f"{echo[0]}", (status, said is None or f"bench: chain: {said}" in errors), (1 if said else 0, True))


def the_plain_stores_answers_are_waited_for_too(folder):
    with changed(bench.PlainStore, "change", lambda store, change: True):
        status, out, errors = waited(folder)
    expect("its status", (status, out.count("|"), "the plain store" in errors), (1, 0, True))


def a_wait_is_from_a_question_to_its_answer(folder):
    """The clock of this test stands still except while questions are answered, and while something is looked at in between."""
    now, collects, looks = [1000], [], []

    def ask(question):
        now[0] += question
        collects.append(gc.isenabled())
        return -question

    def look(place):
        now[0] += 7
        looks.append((place, len(collects)))

    with changed(bench.time, "perf_counter_ns", lambda: now[0]):
        waits, answers = bench.timed(ask, [3, 5, 900], look)
    expect("waits and answers", (list(waits), answers), ([3, 5, 900], [-3, -5, -900]))
    expect("places that were looked at, and how many were answered", looks, [(0, 1), (1, 2), (2, 3)])
    expect("garbage is collected meanwhile, and afterwards", (collects, gc.isenabled()), ([False] * 3, True))


def the_clock_of_commands_starts_when_the_store_is_open(folder):
    """The clock of this test stands still, but while replies are waited for."""
    store, now = StoreFile(folder), [0.0]

    def replies_of(child, wanted, real=bench.replies_of):
        now[0] += 100 if now[0] == 0 else wanted
        return real(child, wanted)

    with changed(bench, "replies_of", replies_of), changed(bench.time, "perf_counter", lambda: now[0]):
        _, each, opening, _ = bench.serve(store.path, [model.get(tag, b"a") for tag in range(7)])
    expect("an opening, and each command", (opening, each), (100, 1))


def replies_are_no_bytes_of_the_file(folder):
    store = StoreFile(folder)
    if bench.bytes_handed_on("self") is None:
        return
    for name, frames, least, most in (("gets", [model.get(tag, b"a") for tag in range(50)], 0, 0),
                                      ("puts", [model.put(tag, b"a", b"v" * 1000) for tag in range(50)], 50_000, 100_000)):
        written = bench.serve(store.path, frames)[3]
        expect(f"{name}, {written} bytes", least <= written <= most, True)


TABLE = """\
### `chain`: {}

| Changes | Store | µs a change, synced | the same, together | µs a change, in memory | µs a get | µs a scan of 100 \
| µs a pair, whole version | µs a pair, by a cursor | Opening, ms | Bytes of the file | Bytes written a change |
|---|---|---|---|---|---|---|---|---|---|---|---|
| 10 | castle | 1,000.0 | 100.0 | 20.00 | 30.0 | 400.0 | 0.50 | 0.60 | 7.00 | 8,000 | 90 |
| 10 | SQLite | 1.0 | 0.5 |  | 2.0 | 3.0 | 4.00 |  | 5.00 | 6 |  |
| 1,000 | castle | 1,000.0 | 100.0 | 200.00 | 3,000.0 | 400.0 | 0.50 | 0.60 | 70.00 | 80,000,000 | 9 |
| 1,000 | SQLite | 1.0 | 0.5 |  | 2.0 | 3.0 | 4.00 |  | 5.00 | 6 |  |
| grows by | castle | 0.00 | 0.00 | 0.50 | 1.00 | 0.00 | 0.00 | 0.00 | 0.50 | 2.00 | -0.50 |
| grows by | SQLite | 0.00 | 0.00 |  | 0.00 | 0.00 | 0.00 |  | 0.00 | 0.00 |  |
"""


def a_table_shows_what_was_measured(folder):
    new = bench.Measured
    plain = new(change=1e-6, together=5e-7, get=2e-6, scan=3e-6, pair=4e-6, cursor=None, opening=5e-3, size=6, written=None)
    rows = [(count, {CASTLE: bench.values_of(new(1e-3, 1e-4, 1, 1, 1, 1, 1, size, written),
                                             new(None, fast, get, 4e-4, 5e-7, 6e-7, opening, 1, 1)),
                     SQLITE: bench.values_of(plain, None)})
            for count, opening, size, written, fast, get in ((10, 7e-3, 8000, 90, 2e-5, 3e-5), (1000, 7e-2, 80_000_000, 9, 2e-4, 3e-3))]
    expect("the table", "\n".join(bench.table("chain", bench.COLUMNS, rows)), TABLE.format(bench.chain.__doc__))


def percentiles_are_those_of_the_nearest_rank(folder):
    waits = array.array("q", range(1, 2001))
    random.Random(1).shuffle(waits)
    expect("of 2,000", bench.values_of_waits(waits), (1000, 1980, 1998, 2000, 2, *[None] * 8))
    expect("of 3", bench.values_of_waits(array.array("q", [9, 1, 4])), (4, 9, 9, 9, 9 / 4, *[None] * 8))
    ten = list(range(1, 11))
    ranks = [(1, 1), (100, 1), (101, 2), (500, 5), (501, 6), (900, 9), (901, 10), (1000, 10)]
    expect("of 10", [waiting.percentile(ten, thousandths) for thousandths, _ in ranks], [rank for _, rank in ranks])
    expect("of one, and of none", (waiting.percentile([7], 1), waiting.percentile([], 500)), (7, None))


def changes_with_a_checkpoint_and_with_a_slice_are_told_apart(folder):
    # with M 4 the changes from place 4 on do a slice; the checkpoint of place 6 leaves 3 of 7, and with place 7 there are 4 again
    waits = array.array("q", [20, 10, 10, 10, 60, 40, 900, 20, 50, 700, 20])
    found = (20, 900, 900, 900, 45)
    expect("two", bench.values_of_waits(waits, 4, [6, 9]), (*found, 2, 700, 900, 60, 3, 3, 50, 60))
    expect("what was given", list(waits), [20, 10, 10, 10, 60, 40, 900, 20, 50, 700, 20])
    expect("one with the first slice", bench.values_of_waits(waits, 9, [9]), (*found, 1, 700, 700, 900, 45, 0, None, None))
    expect("none, and slices", bench.values_of_waits(waits, 8), (*found, 0, None, None, 900, 45, 3, 50, 700))
    expect("none, and no slice", bench.values_of_waits(waits, 11), (*found, 0, None, None, 900, 45, 0, None, None))


def a_checkpoint_is_seen_where_it_is_made(folder):
    path, store = os.path.join(folder, "new.store"), model.Store(16, 1000, 1000)
    pathlib.Path(path).write_bytes(formats.unpublished(store))
    seen, lay = bench.Superblocks(path), functools.partial(formats.lay, path, store.limits)
    for place in range(10):
        if place in (0, 3, 4, 9):
            lay(len(seen.places) + 2)
        seen.look(place)
    expect("places", seen.checkpoints(), [0, 3, 4, 9])
    lay(6)
    lay(7)
    seen.look(10)
    try:
        seen.checkpoints()
    except bench.Different:
        return
    raise Wrong("two checkpoints are taken for one")


def checkpoints_of_a_made_up_program_are_counted(folder):
    for statement, status, row in (("formats.lay(path, store.limits, 2)", 0, ["1"]), ("formats.lay(path, store.limits, 3)", 1, [])):
        with answerer(folder, 16, statement):
            ended, out, errors = waited(folder)
        expect(statement, (ended, [line.split("|")[8].strip() for line in out.splitlines() if "| castle, " in line]), (status, row))
        expect(f"{statement}, complaints", errors.count("1 checkpoints were seen, and the store has generation 3"), status)


def as_the_model_has_it(change):
    kind = {bench.Put: model.PUT, bench.Delete: model.DELETE, bench.Clone: model.CLONE}[type(change)]
    return (kind, *change)


def checkpoints_of_the_model(changes, mem):
    """The places of changes that make a checkpoint, and how many do a slice and make none."""
    journal, places, slices = promotions.Journal(mem), [], 0
    for place, change in enumerate(changes):
        times, full = journal.times, len(journal.changes) >= mem
        journal.take(as_the_model_has_it(change))
        if journal.times != times:
            places.append(place)
        elif full:
            slices += 1
    return places, slices


def checkpoints_are_those_of_the_model(folder):
    for name in bench.WORKLOADS:
        for mem in (4, 5, 16):
            changes = bench.drawn(name, 200, 1)[0]
            places = bench.waited_for(folder, mem, list(bench.frames_of(changes)))[2]
            expect(f"{name}, M {mem}", places, checkpoints_of_the_model(changes, mem)[0])


def a_change_waits_as_long_as_in_the_run_where_it_waited_least(folder):
    runs = [array.array("q", waits) for waits in ([5, 1, 9], [4, 2, 9], [6, 7, 8])]
    expect("of three", bench.least(runs), array.array("q", [4, 1, 8]))
    expect("of one", bench.least(runs[:1]), runs[0])
    asked = []
    with answerer(folder, None, "pass"), changed(bench, "least", lambda runs: asked.append(len(runs)) or runs[0]):
        expect("runs of the bench", (waited(folder, "--runs", "3")[0], asked), (0, [3, 3, 3]))


def a_checkpoint_that_comes_elsewhere_in_another_run_is_noticed(folder):
    for runs, places, status in (("2", [[7], [7]], 0), ("2", [[7], [8]], 1), ("3", [[7], [7], []], 1)):
        with answerer(folder, None, "pass"), changed(bench.Superblocks, "checkpoints", lambda seen, told=iter(places): next(told)):
            ended, _, errors = waited(folder, "--runs", runs)
        expect(f"{places}", (ended, errors.count("checkpoints elsewhere in another run")), (status, status))


def a_table_shows_waits(folder):
    waits = array.array("q", [2_000] * 10 + [1_234_567])
    rows = [(11, {"castle, synced": bench.values_of_waits(waits, 8, [10]), "a pipe alone": bench.values_of_waits(waits[:10])})]
    *_, castle, alone, end = bench.table("puts", bench.WAITS, rows)
    expect("the rows", (castle, alone, end), (
        "| 11 | castle, synced | 2.0 | 1,234.6 | 1,234.6 | 1,234.6 | 617.3 | 1 | 1,234.6 | 1,234.6 | 2.0 | 1.0 | 2 | 2.0 | 2.0 |",
        "| 11 | a pipe alone | 2.0 | 2.0 | 2.0 | 2.0 | 1.0 |  |  |  |  |  |  |  |  |", ""))


def the_waits_of_both_stores_and_a_pipe_are_told(folder):
    ran = subprocess.run([sys.executable, str(TOP / "bench" / "run"), "--waits", "--counts", "40,80", "--mem", "16", "--workloads", "puts,star",
                          "--disk", folder, "--memory", folder], capture_output=True, timeout=60, text=True)
    expect("its status", (ran.returncode, ran.stderr.count("\n")), (0, 4))
    rows = [line.strip("| ").split(" | ") for line in ran.stdout.splitlines() if re.match(r"\| [48]0 \|", line)]
    stores = ["castle, synced", "SQLite, synced", "castle, in memory", "SQLite, in memory", "a pipe alone"]
    expect("its rows", [row[:2] for row in rows], [[count, store] for count in ("40", "80") for store in stores] * 2)
    wanted = [checkpoints_of_the_model(bench.drawn(name, count, 1)[0], 16) for name in ("puts", "star") for count in (40, 80) for _ in stores]
    for (count, store, *cells), (places, slices) in zip(rows, wanted):
        figures = [float(cell.replace(",", "")) for cell in cells if cell.strip(" |")]
        expect(f"{store}, in order", figures[:4], sorted(figures[:4]))
        told = [len(places), slices] if store.startswith("castle") else []
        expect(f"{store}, checkpoints and slices", (len(figures), figures[5::5]), (13 if told else 5, told))
    expect("what is left behind", os.listdir(folder), [])


def a_place_without_a_name_is_left_out(folder):
    for words, filled in ((["--disk", ""], [False, False, True]), (["--memory", ""], [True, True, False])):
        status, out, _ = measured(folder, *words)
        rows = [row.split("|")[3:6] for row in out.splitlines() if row.startswith("| 40 |")]
        expect(f"{words}", (status, [[bool(cell.strip()) for cell in row] for row in rows]), (0, [filled] * 2))
    status, out, _ = waited(folder, "--disk", "", "--memory", folder)
    expect("waits", (status, re.findall(r"^\| 40 \| ([\w, ]+) \|", out, re.M)), (0, ["castle, in memory", "SQLite, in memory", "a pipe alone"]))


def wrong_words_of_the_bench_are_refused(folder):
    for words in (["--gets", "5"], ["--wholes", "0"], ["--mem", "3"], ["--mem", "4097"], ["--counts", "9"], ["--counts", "x"],
                  ["--counts", "16777217"], ["--workloads", "others"], ["--disk", ""], ["--disk", os.path.join(folder, "none")], ["--waits=5"], ["--runs", "0"], ["--runs", "101"]):
        try:
            waited(folder, *words)
        except SystemExit as ended:
            expect(f"{words}", ended.code, 2)
        else:
            raise Wrong(f"{words} are taken")
    try:
        measured(folder, "--runs", "2")
    except SystemExit as ended:
        expect("runs without --waits", ended.code, 2)
    else:
        raise Wrong("--runs is taken without --waits")
    with changed(bench, "PROGRAM", os.path.join(folder, "none")):
        expect("no program", waited(folder), (2, "", "bench: the program isn't built: run ./castle once\n"))


def a_power_is_the_slope_of_logarithms(folder):
    for points, power in (([(10, 100), (100, 10000)], 2), ([(10, 5), (1000, 50)], 0.5), ([(10, 7), (100, 7), (1000, 7)], 0)):
        expect(f"{points}", round(bench.exponent(points), 9), power)
    expect("one point", bench.exponent([(10, 100), (100, None)]), None)


def the_plain_store_makes_each_change_durable_too(folder):
    store = bench.PlainStore(os.path.join(folder, "plain"))
    pragmas = {name: store.rows.execute(f"PRAGMA {name}").fetchone()[0] for name in ("journal_mode", "synchronous")}
    expect("its settings", pragmas, {"journal_mode": "wal", "synchronous": 2})
    store.change(bench.Put(0, b"a", b"1"))
    expect("a transaction is open", store.rows.in_transaction, False)
    store.close()


def the_wear_is_within_its_bounds(folder):
    ran = subprocess.run([sys.executable, str(TOP / "bench" / "wear"), "--counts", "100,2000", "--folder", folder],
                         capture_output=True, timeout=60)
    expect("its status", (ran.returncode, ran.stderr.count(b"\n")), (0, 2))
    rows = re.findall(rb"^\| (100|2,000) \| ([\d.]+) \| (\d+) \| ([\d.]+) \| 2 \|", ran.stdout, re.MULTILINE)
    # the promotion of the first 64 changes is open when 100 were made
    expect("its rows", rows, [(b"100", b"0.00", b"4", b"1.00"), (b"2,000", b"3.52", b"20", b"1.19")])


def an_export_is_measured_beside_a_copy(folder):
    ran = subprocess.run([sys.executable, str(TOP / "bench" / "export"), "--pairs", "100,3000", "--runs", "1", "--folder", folder],
                         capture_output=True, timeout=60)
    if b"has no word export yet" in ran.stderr:
        raise Skipped("the program has no word export yet")
    expect("its status", (ran.returncode, ran.stderr.count(b"\n")), (0, 2))
    rows = re.findall(rb"^\| ([\d,]+) \| ([\d,]+) \|(?: \d+\.\d{3} \|){3}$", ran.stdout, re.MULTILINE)
    expect("its rows", rows, [(b"100", b"6,900"), (b"3,000", b"207,000")])


# bench/clones

SMALL = ["--pairs", "300", "--clones", "3", "--edits", "40", "--looks", "2"]
TIMED = "load", "clones", "edits", "scans", "differences", "differences of two clones", "dumps"
STEPS = [*(f"{step}, seconds" for step in TIMED), "bytes on the disk"]


def cloned(folder, *words):
    """Status, output and complaints of the bench over a few clones."""
    out, errors = io.StringIO(), io.StringIO()
    given = changed(sys, "argv", ["clones", *SMALL, "--folder", folder, *words])
    with given, contextlib.redirect_stdout(out), contextlib.redirect_stderr(errors):
        status = clones.main()
    return status, out.getvalue(), errors.getvalue()


def many_clones_are_measured_beside_other_stores(folder):
    ran = subprocess.run([sys.executable, str(TOP / "bench" / "clones"), *SMALL, "--folder", folder],
                         capture_output=True, timeout=60, text=True)
    has_lmdb = importlib.util.find_spec("lmdb") is not None
    titles = ["castle", "SQLite, overlay", "SQLite, files", *(["LMDB, files"] if has_lmdb else [])]
    expect("its status and progress", (ran.returncode, ran.stderr.splitlines()), (0, [f"clones: {title}" for title in titles]))
    rows = [line.strip("| ").split(" | ") for line in ran.stdout.splitlines() if line.startswith("| ")]
    expect("its columns and rows", [rows[0], *([row[0]] for row in rows[1:])], [titles, *([step] for step in STEPS)])
    expect("its figures", {len(row) for row in rows[1:]}, {1 + len(titles)})
    figures = [float(text.replace(",", "")) for row in rows[1:] for text in row[1:]]
    expect("figures that are less than nothing", min(figures) >= 0, True)
    expect("what was skipped", "skipped: LMDB, since" in ran.stdout, not has_lmdb)
    first, second = ran.stdout.splitlines()[0:3:2]
    expect("machine, date and commit", bool(re.search(r"processors, load \S+;.* Python 3.*; \d{4}-\d\d-\d\d, commit \w+", first)), True)
    expect("what was done", second, "300 pairs, 3 clones with 40 edits each; 2 versions looked at")
    expect("what is left behind", os.listdir(folder), [])


def a_wrong_answer_over_clones_is_noticed(folder):
    ways = [("clone", lambda made: made + 1), ("pairs", lambda pairs: list(pairs)[1:]),
            ("differences", lambda found: list(found)[:-1]), ("differences", lambda found: [*found, (b"", b"", b"")])]
    for kind in clones.STORES:
        for name, wrong in ways:

            def answer(*given, right=getattr(kind, name), wrong=wrong):
                return wrong(right(*given))

            with changed(clones, "STORES", [kind]), changed(kind, name, answer):
                status, out, errors = cloned(folder)
            expect(f"{kind.title}, {name}", (status, out, errors.count(f"clones: {kind.title}: ")), (1, "", 1))


def the_answers_over_clones_are_those_of_dictionaries(folder):
    words = argparse.Namespace(seed=1, pairs=2, clones=1, edits=0, looks=0)
    work = clones.Work(words)
    one, two = work.pairs
    work.edits = [[(one[0], None), two, (b"x", b"3"), (b"x", b"4"), (b"none", None)], [(b"x", b"4"), (two[0], b"5")]]
    expect("pairs", work.wanted(1), [two, (b"x", b"4")])
    expect("differences", work.between(0, 1), [(one[0], one[1], None), (b"x", None, b"4")])
    expect("differences of two clones", work.between(1, 2), [(one[0], None, one[1]), (*two, b"5")])
    words.edits = 99
    kinds = {(value is None, key.endswith(b"/new")) for key, value in clones.Work(words).edits[0]}
    expect("kinds of edits", kinds, {(True, False), (False, True), (False, False)})


def clones_without_lmdb_say_so(folder):
    with changed(clones, "lmdb", None), changed(clones, "STORES", clones.STORES[1:2]):
        status, out, _ = cloned(folder)
    first, *_, blank, last = out.splitlines()
    expect("its end", (status, blank, last), (0, "", "skipped: LMDB, since Python has no module lmdb here"))
    expect("a release of LMDB is named", "LMDB" in first, False)


def holes_are_no_bytes_on_the_disk(folder):
    with open(os.path.join(folder, "holes"), "wb") as file:
        file.write(b"a" * 4096)
        file.truncate(1 << 30)
        os.fsync(file.fileno())
    expect("bytes", 4096 <= clones.bytes_on_disk(folder) < 1 << 20, True)


def wrong_words_of_the_bench_over_clones_are_refused(folder):
    for words in (["--pairs", "0"], ["--clones", "0"], ["--edits", "-1"], ["--clones", "16384"], ["--pairs", "16777216"], ["--pairs", "x"]):
        try:
            cloned(folder, *words)
        except SystemExit as ended:
            expect(f"{words}", ended.code, 2)
        else:
            raise Wrong(f"{words} are taken")
    with changed(clones, "PROGRAM", os.path.join(folder, "none")):
        expect("no program", cloned(folder), (2, "", "clones: the program isn't built: run ./castle once\n"))


# bench/drops

FEW = ["--clones", "12", "--pairs", "150", "--edits", "3", "--gets", "5", "--scans", "4", "--runs", "2", "--mem", "16"]
DROPPED = ["version 0 alone", "12 clones made", "all of them dropped", "12 made and dropped in turn"]


def dropped(folder, *words):
    """Status, output and complaints of the bench over a few clones that are dropped."""
    out, errors = io.StringIO(), io.StringIO()
    given = changed(sys, "argv", ["drops", *FEW, "--folder", folder, *words])
    with given, contextlib.redirect_stdout(out), contextlib.redirect_stderr(errors):
        status = drops.main()
    return status, out.getvalue(), errors.getvalue()


def clones_that_are_dropped_are_measured(folder):
    ran = subprocess.run([sys.executable, str(TOP / "bench" / "drops"), *FEW, "--folder", folder],
                         capture_output=True, timeout=60, text=True)
    expect("its status and progress", (ran.returncode, ran.stderr.splitlines()), (0, [f"drops: {title}" for title in DROPPED]))
    first, _, second, _, _, _, *rows = ran.stdout.splitlines()
    expect("machine, date and commit", bool(re.search(r"processors, load \S+;.* Python 3.*; \d{4}-\d\d-\d\d, commit \w+", first)), True)
    expect("what was done", second, "150 pairs, 12 clones with 3 edits each, M 16")
    cells = [[cell.strip() for cell in row.strip("|").split("|")] for row in rows]
    # some of the three drawn keys of an edit are the same
    made = 12 + sum(map(len, drops.Work(argparse.Namespace(seed=1, pairs=150, clones=12, edits=3, gets=5, scans=4, runs=2)).edits.values()))
    expect("its rows and changes", [row[:2] for row in cells], [list(row) for row in zip(DROPPED, ("150", str(made), "12", str(made + 12)))])
    figures = [[float(cell.replace(",", "")) for cell in row[2:]] for row in cells]
    expect("its figures", ({len(row) for row in figures}, min(map(min, figures)) > 0), ({5}, True))
    expect("what is left behind", os.listdir(folder), [])


def a_wrong_answer_over_drops_is_noticed(folder):
    """What is asked is changed on its way, once in a frame that comes so late."""
    expect("no wrong answer", dropped(folder)[0], 0)

    def another(frame):
        return {model.GET: model.get(int.from_bytes(frame[4:8], "big"), b"none"), model.SCAN: frame[:-4] + b"\0\0\0\1",
                model.DROP: model.drop(0, 999), model.CLONE: model.get(0, b"none")}.get(frame[8])

    for kind, said in ((model.GET, "gets"), (model.SCAN, "scans"), (model.DROP, "changes"), (model.CLONE, "changes")):
        for last in (False, True):

            def serve(path, frames, right=drops.run.serve, kind=kind, last=last):
                places = [place for place, frame in enumerate(frames) if frame[8] == kind]
                frames = list(frames)
                if places:
                    frames[places[-last]] = another(frames[places[-last]])
                return right(path, frames)

            with changed(drops.run, "serve", serve):
                status, out, errors = dropped(folder)
            expect(f"{said}, {last}", (status, out, said in errors.splitlines()[-1]), (1, "", True))


def clones_that_are_there_or_not_are_told_apart(folder):
    """Drops that leave clones there, and clones that are gone before they are dropped."""
    for title, are_there in (("12 clones made", False), ("all of them dropped", True), ("12 made and dropped in turn", True)):

        def measured(path, work, step, frames, was, right=drops.measured, title=title, are_there=are_there):
            return right(path, work, step, frames, are_there if step == title else was)

        with changed(drops, "measured", measured):
            status, out, errors = dropped(folder)
        expect(title, (status, out, f"drops: {title}: clones: " in errors), (1, "", True))


def wrong_words_of_the_bench_over_drops_are_refused(folder):
    for words in (["--clones", "0"], ["--pairs", "0"], ["--edits", "-1"], ["--gets", "0"], ["--scans", "0"], ["--runs", "0"], ["--mem", "3"],
                  ["--mem", "4097"], ["--clones", "16384"], ["--pairs", "16777216"], ["--pairs", "x"]):
        try:
            dropped(folder, *words)
        except SystemExit as ended:
            expect(f"{words}", ended.code, 2)
        else:
            raise Wrong(f"{words} are taken")
    with changed(drops.run, "PROGRAM", os.path.join(folder, "none")):
        expect("no program", dropped(folder), (2, "", "drops: the program isn't built: run ./castle once\n"))


CHECKS = [
    the_bench_finds_both_stores_alike,
    one_wrong_answer_is_noticed_wherever_it_comes,
    answers_that_are_missing_are_noticed,
    a_program_that_fails_behind_its_replies_is_noticed,
    a_wrong_answer_to_a_change_that_is_sent_alone_is_noticed,
    a_reply_that_is_waited_for_has_to_be_there_and_right,
    a_pipe_that_gives_something_else_back_is_noticed,
    the_plain_stores_answers_are_waited_for_too,
    a_wait_is_from_a_question_to_its_answer,
    the_clock_of_commands_starts_when_the_store_is_open,
    replies_are_no_bytes_of_the_file,
    a_table_shows_what_was_measured,
    percentiles_are_those_of_the_nearest_rank,
    changes_with_a_checkpoint_and_with_a_slice_are_told_apart,
    a_checkpoint_is_seen_where_it_is_made,
    checkpoints_of_a_made_up_program_are_counted,
    checkpoints_are_those_of_the_model,
    a_change_waits_as_long_as_in_the_run_where_it_waited_least,
    a_checkpoint_that_comes_elsewhere_in_another_run_is_noticed,
    a_table_shows_waits,
    the_waits_of_both_stores_and_a_pipe_are_told,
    a_place_without_a_name_is_left_out,
    wrong_words_of_the_bench_are_refused,
    a_power_is_the_slope_of_logarithms,
    the_plain_store_makes_each_change_durable_too,
    the_wear_is_within_its_bounds,
    an_export_is_measured_beside_a_copy,
    many_clones_are_measured_beside_other_stores,
    a_wrong_answer_over_clones_is_noticed,
    the_answers_over_clones_are_those_of_dictionaries,
    clones_without_lmdb_say_so,
    holes_are_no_bytes_on_the_disk,
    wrong_words_of_the_bench_over_clones_are_refused,
    clones_that_are_dropped_are_measured,
    a_wrong_answer_over_drops_is_noticed,
    clones_that_are_there_or_not_are_told_apart,
    wrong_words_of_the_bench_over_drops_are_refused,
]

if __name__ == "__main__":
    sys.exit(run_checks("bench", CHECKS, sys.argv[1:]))
