"""Exports: a version as the frames of puts that give it again, each block read once, and nothing made up of a damaged one."""

import os
import random
import re
import shutil
import subprocess

import formats
import model
import replicas
from model import BLOCK, bodies_of, put
from program import (
    DEADLINE, PROGRAM, Skipped, StoreFile, bytes_of, complaint, expect, hexed, in_memory, left_behind, run, serve)
from samples import PUBLISHED, SETTINGS, altered, drawn_over, store_after

ROW = hexed("0000001b 00000001 01 00000000 000b 757365722f312f6e616d65 0003 416e6e"
            "0000001b 00000002 01 00000000 000b 757365722f322f6e616d65 0003 526f62")


def exported(path, version):
    """What an export gives, which leaves the file alone."""
    before = left_behind(path)
    found = run(["export", path, str(version)])
    expect(f"the file behind an export of version {version}", left_behind(path) == before, True)
    return found


def expect_exports(name, store):
    """Each version of a file is exported as the model has it. A dropped one is unknown, and so is the one behind the last."""
    for version, pairs in enumerate(store.model.pairs):
        want = (replicas.exported(pairs), 0, b"") if store.model.has(version) else (b"", model.NO_VERSION, complaint(model.NO_VERSION))
        expect(f"{name}, version {version}", exported(store.path, version), want)
    expect(f"{name}, no version", exported(store.path, len(store.model.pairs)), (b"", model.NO_VERSION, complaint(model.NO_VERSION)))


def a_version_is_exported_as_puts_of_its_pairs(folder):
    store = StoreFile(folder, 64, 100, 10)
    store.expect_served("the settings", [SETTINGS])
    expect("version 1", exported(store.path, 1), (ROW, 0, b""))
    expect("version 3", exported(store.path, 3), (b"", 12, complaint(12)))
    expect("the largest number", exported(store.path, 2 ** 32 - 1), (b"", 12, complaint(12)))
    for wrong in ("01", "", "-1", "+1", "4294967296", " 1", "1.0", "99999999999999999999"):
        expect(f"version {wrong!r}", run(["export", store.path, wrong]), (b"", 1, complaint(1)))
    expect("no version", run(["export", store.path]), (b"", 1, complaint(1)))
    expect("too many words", run(["export", store.path, "1", "1"]), (b"", 1, complaint(1)))
    expect("no store", run(["export", os.path.join(folder, "absent"), "1"])[0::2], (b"", complaint(2)))


def an_export_of_a_workload_gives_itself_again(folder):
    made, fresh = os.path.join(folder, "f"), StoreFile(folder, 64, 100000, 1)
    expect("workload", run(["workload", made, "1", "2000"])[1:], (0, b""))
    version, pairs = max(enumerate(formats.opened(bytes_of(made))[1].pairs), key=lambda each: len(each[1]))
    frames, status, said = exported(made, version)
    expect("export", (status, said), (0, b""))
    expect("the pairs", frames, replicas.exported(pairs))
    expect("some", len(pairs) > 100, True)
    out, status, said = serve(fresh.path, [frames])
    expect("served", (out, status, said), (b"".join(model.reply(tag, model.DONE) for tag in range(1, len(pairs) + 1)), 0, b""))
    expect("again", exported(fresh.path, 0), (frames, 0, b""))


@in_memory
def exports_are_those_of_the_table(folder):
    for number, (mem, frames, _) in enumerate(PUBLISHED):
        expect_exports(f"example {number}", store_after(folder, mem, frames)[0])
    chance = random.Random(50)
    for turn in range(12):
        store = StoreFile(folder, chance.choice((4, 8, 30)), 100000, 200)
        for _ in range(3):
            data = b"".join(drawn_over(chance, 60, store.model, chance.choice((4, 30)), 0.15))
            expect(f"turn {turn}", serve(store.path, [data]), (*store.model.serve(data), b""))
            expect_exports(f"turn {turn}", store)


@in_memory
def an_export_of_largest_pairs_and_of_many(folder):
    store = StoreFile(folder, 64, 100000, 10)
    puts = [put(tag, b"%03d" % tag + b"k" * 252, b"v" * model.VALUE_MAX) for tag in range(300)] + [put(tag, b"%04d" % tag, b"") for tag in range(700)]
    expect("puts", serve(store.path, [b"".join(puts)], deadline=3 * DEADLINE)[1], 0)
    store.model.serve(b"".join(puts))
    expect_exports("all", store)


def a_damaged_block_leaves_a_prefix_and_its_status(folder):
    store, contents = store_after(folder, 64, [put(tag, b"%03d" % tag, b"v" * 100) for tag in range(700)], 1000, 10)
    whole = replicas.exported(store.model.pairs[0])
    told = []
    for block in [block for array in formats.arrays_of(contents.manifest) for block in formats.blocks_of(array)]:
        path = shutil.copy(store.path, os.path.join(folder, "damaged"))
        altered(path, block * BLOCK, b"\xff" * BLOCK)
        out, status, said = exported(path, 0)
        expect(f"block {block}", (whole.startswith(out), status, said), (True, 9, complaint(9)))
        told.append(len(bodies_of(out)))
        expect(f"block {block}, whole frames", len(out), sum(4 + len(body) for body in bodies_of(out)))
    # pairs are written by pages, so of the first blocks nothing may come
    expect("how much came", (max(told) > 0, max(told) < 700), (True, True))


def an_export_reads_each_block_of_its_arrays_once(folder):
    if not shutil.which("strace"):
        raise Skipped("strace is not here")
    store, contents = store_after(folder, 4, [put(tag, b"%02d" % tag + b"k" * 200, b"v" * 1000) for tag in range(40)], 1000, 10)
    log = os.path.join(folder, "log")
    ran = subprocess.run(["strace", "-o", log, "-e", "trace=pread64,read", PROGRAM, "export", store.path, "0"], capture_output=True,
                         timeout=DEADLINE)
    expect("export", (ran.stdout, ran.returncode), (replicas.exported(store.model.pairs[0]), 0))
    blocks = {block for array in formats.arrays_of(contents.manifest) for block in formats.blocks_of(array)}
    found = re.findall(r"^pread64\(.*, (\d+), (\d+)\) += \d+$", bytes_of(log).decode(), re.M)
    reads = [int(place) // BLOCK for _, place in found if int(place) // BLOCK in blocks]
    expect("each block is read", set(reads) <= blocks and len(reads) > 0, True)
    expect("none twice", len(reads), len(set(reads)))


def an_export_whose_output_fails_tells_it(folder):
    store, _ = store_after(folder, 4, [put(tag, b"%02d" % tag, b"v" * 1000) for tag in range(17)])
    with open("/dev/full", "wb") as full:
        ran = subprocess.run([PROGRAM, "export", store.path, "0"], stdout=full, stderr=subprocess.PIPE, timeout=DEADLINE)
    expect("a full device", (ran.returncode, ran.stderr), (7, complaint(7)))


def an_export_reads_no_input(folder):
    store, _ = store_after(folder, 4, [put(1, b"a", b"1")])
    inside, outside = os.pipe()
    os.write(outside, b"left")
    expect("export", run(["export", store.path, "0"], stdin=inside), (replicas.exported({b"a": b"1"}), 0, b""))
    expect("input left", os.read(inside, 100), b"left")
    os.close(inside)
    os.close(outside)


CHECKS = [
    a_version_is_exported_as_puts_of_its_pairs,
    an_export_of_a_workload_gives_itself_again,
    exports_are_those_of_the_table,
    an_export_of_largest_pairs_and_of_many,
    a_damaged_block_leaves_a_prefix_and_its_status,
    an_export_reads_each_block_of_its_arrays_once,
    an_export_whose_output_fails_tells_it,
    an_export_reads_no_input,
]
