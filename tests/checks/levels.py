"""Levels: which arrays a publication leaves, how dense they are, and what the job `levels` prints of them."""

import os
import random
import resource
import signal
import subprocess

import formats
import promotions
import workloads
from model import BLOCK, get, put
from program import DEADLINE, PROGRAM, PUT_A, StoreFile, bytes_of, complaint, expect, expect_said, expect_told, hexed, run
from samples import DISTINCT, PUBLISHED, PURGED, SETTINGS, altered, drawn_over, store_after

# The block and the bytes of the manifest of each
SPELLINGS = [
    (8, """00000004 00000001 0000000000000001 0000000000000000 0000000000000002 00000004 00000000 00000001 00000002 00000000
        01 01 00000004 00000001
        0000000000000001 00000001 00000001 00000001 00000001 00000007 00000001 00000003 00000001 00000002 00000003"""),
    (11, """00000008 00000005 0000000000000007 0000000000000000 0000000000000003 00000004 00000000 00000000 00000000 00000000
        01 01 00000004 00000002
        0000000000000001 00000003 00000003 00000002 00000001 00000009 00000001 00000002 00000000 00000001
        0000000000000002 00000004 00000002 00000003 00000001 0000000a 00000001 00000002 00000002 00000003"""),
    (9, """00000004 00000002 0000000000000003 0000000000000000 0000000000000003 00000003 00000000 00000001 000000
        01 01 00000003 00000002
        0000000000000001 00000001 00000001 00000001 00000001 00000007 00000001 00000001 00000000
        0000000000000002 00000002 00000001 00000001 00000001 00000008 00000001 00000002 00000001 00000002"""),
    (8, """00000004 00000004 0000000000000003 0000000000000000 0000000000000002 00000001 00
        01 01 00000001 00000001
        0000000000000001 00000003 00000003 00000003 00000001 00000007 00000001 00000001 00000000"""),
    (9, """00000008 00000008 000000000000000c 0000000000000000 0000000000000003 00000001 00
        01 01 00000001 00000001
        0000000000000002 00000008 00000008 00000008 00000001 00000006 00000001 00000001 00000000"""),
    (9, """00000008 00000008 0000000000000002 0000000000000000 0000000000000003 00000001 00
        01 01 00000001 00000001
        0000000000000002 00000001 00000001 00000001 00000001 00000006 00000001 00000001 00000000"""),
    (7, "00000004 00000000 0000000000000000 0000000000000000 0000000000000001 00000005 00000000 00000000 00000000 00000000 0000000000 00"),
]


def publications_stand_where_they_should(folder):
    for number, (mem, frames, text) in enumerate(PUBLISHED):
        for pieces in ([b"".join(frames)], frames):
            store, contents = store_after(folder, mem, pieces)
            expect(f"publication {number}", "\n".join(formats.levels_text(contents)), text.strip())
            store.expect_served("a look", [b"".join(get(v, key, v) for v in range(5) for key in (b"a", b"b", b"c", b"k07"))])
    for number, ((mem, frames, _), (block, spelling)) in enumerate(zip(PUBLISHED, SPELLINGS, strict=True)):
        store, contents = store_after(folder, mem, [b"".join(frames)])
        expect(f"manifest {number}, its blocks", contents.chain, (block,))
        bytes_there = formats.block_at(bytes_of(store.path), block)
        expect(f"manifest {number}, its bytes", bytes_there.hex(), (bytes(4) + hexed(spelling)).ljust(BLOCK, b"\0").hex())
    store, contents = store_after(folder, DISTINCT[0], [b"".join(DISTINCT[1])])
    # a promotion was open at the end: the first region is full, and the other has the record of the last change
    data, record = bytes_of(store.path), hexed("a7 01 00000000 03 6b3133 0002 3133 00")
    expect("the regions", (data[8192], data[16384:16384 + len(record)]), (formats.OPEN, record))
    arrays = [(array.id, array.extents) for array in formats.arrays_of(contents.manifest)]
    expect("distinct keys", (contents.head.generation, arrays, contents.chain), (3, [(2, ((6, 1),))], (9,)))
    # the largest pairs, of which three fit into a block
    largest = [put(i, bytes([i]) + bytes(254), bytes(1024)) for i in range(1, 7)]
    store, contents = store_after(folder, 4, [b"".join(largest)])
    arrays = [(array.id, array.extents) for array in formats.arrays_of(contents.manifest)]
    expect("the largest pairs", (arrays, contents.chain), ([(1, ((7, 2),))], (9,)))
    sizes = [len(formats.entries_in(formats.block_at(bytes_of(store.path), block))) for block in (7, 8)]
    expect("entries of the blocks", sizes, [3, 1])


def levels_are_told_as_the_file_has_them(folder):
    for number, (mem, frames, text) in enumerate(PUBLISHED):
        store, _ = store_after(folder, mem, [b"".join(frames)])
        expect(f"publication {number}", expect_told(f"publication {number}", store.path), text.lstrip())
        expected = promotions.contents_after(store.model.changes, store.model.limits)
        expect(f"publication {number}, the model", "\n".join(formats.levels_text(expected)), text.strip())
    settings = StoreFile(folder, 64, 100000, 100)
    settings.expect_served("two environments", [SETTINGS])
    expect("two environments", expect_told("two environments", settings.path), """
store generation 1 mem 64 changes 6 of 100000 versions 3 of 100
journal changes 6 updates 4
stored 4 updates 4 written 0
""".lstrip())
    for limits in ((4, 1, 1), (4096, 2 ** 24, 2 ** 14)):
        expect_told(f"limits {limits}", StoreFile(folder, *limits).path)
    # a run that was killed behind a publication left the other region open, and it stays so
    store, contents = store_after(folder, *PURGED[:2])
    other = formats.region_start(4, 1 - contents.head.region) * BLOCK
    altered(store.path, other, bytes([formats.OPEN]))
    expect("the other region open", expect_told("the other region open", store.path), PURGED[2].lstrip())
    # what is in blocks of arrays is not looked at, and neither is the input
    altered(store.path, 7 * BLOCK, bytes(BLOCK))
    expect("a damaged array", expect_told("a damaged array", store.path), PURGED[2].lstrip())
    inside, outside = os.pipe()
    os.write(outside, PUT_A)
    expect("levels, input left", (run(["levels", store.path], stdin=inside)[1], os.read(inside, 100)), (0, PUT_A))
    os.close(inside)
    os.close(outside)


def levels_of_a_damaged_file_name_the_block(folder):
    store, contents = store_after(folder, *DISTINCT[:2])
    data, path = bytes_of(store.path), os.path.join(folder, "a.store")
    manifest, journal = contents.chain[0] * BLOCK, formats.region_start(4, contents.head.region) * BLOCK
    for name, place, piece, block in (("a manifest", manifest + 4, b"\xff", contents.chain[0]),
                                      ("its link", manifest, b"\1", contents.chain[0]),
                                      ("a superblock", contents.slot * BLOCK + 9, b"\xff", contents.slot),
                                      ("a record", journal + 1, b"\xff", journal // BLOCK),
                                      ("a version that is not there", journal + 5, b"\1", journal // BLOCK)):
        with open(path, "wb") as file:
            file.write(data[:place] + piece + data[place + len(piece):])
        expect(name, expect_told(name, path), f"damaged block {block}\n")
        expect(f"{name}, its status", run(["levels", path]), (b"damaged block %d\n" % block, 9, complaint(9)))
    expect("no store", run(["levels", os.path.join(folder, "absent")]), (b"", 2, complaint(2)))


def outputs_that_fail_end_a_report(folder):
    def limited():
        """Lets a file grow to 20 bytes."""
        signal.signal(signal.SIGXFSZ, signal.SIG_IGN)
        resource.setrlimit(resource.RLIMIT_FSIZE, (20, 20))

    store, _ = store_after(folder, *DISTINCT[:2])
    words = ["levels", store.path]
    ran = subprocess.run(["/bin/sh", "-c", '"$@" >&-', "sh", PROGRAM, *words], capture_output=True, timeout=DEADLINE)
    expect("a closed output", (ran.stdout, ran.returncode, ran.stderr), (b"", 7, complaint(7)))
    taken = os.path.join(folder, "taken")
    with open(taken, "wb") as output:
        ran = subprocess.run([PROGRAM, *words], stdout=output, stderr=subprocess.PIPE, timeout=DEADLINE, preexec_fn=limited)
    expect("a full output", (ran.returncode, ran.stderr, bytes_of(taken)), (7, complaint(7), DISTINCT[2].lstrip()[:20].encode()))
    path = os.path.join(folder, "a.store")
    ran = subprocess.run(["/bin/sh", "-c", '"$@" >&-', "sh", PROGRAM, "workload", path, "1", "100"], capture_output=True,
                         timeout=DEADLINE)
    expect("a closed output of workload", (ran.returncode, ran.stderr), (7, complaint(7)))
    expect_said("a closed output of workload, the file", bytes_of(path), workloads.store_after(workloads.changes(1, 100)))


def every_array_is_a_third_live(folder):
    chance = random.Random(21)
    seen = set()
    for turn in range(24):
        mem = chance.choice((4, 8))
        store = StoreFile(folder, mem, 100000, 16384)
        keys, clones, count = chance.choice((1, 4, 30)), chance.choice((0.05, 0.3, 0.7)), chance.choice((100, 500))
        store.expect_served(f"turn {turn}", [b"".join(drawn_over(chance, count, store.model, keys, clones))])
        data = bytes_of(store.path)
        contents = formats.read(data)
        stored = 0
        for level in contents.manifest.levels:
            for array in level.arrays:
                entries = formats.entries_of(data, array)
                live = formats.live_in(entries, contents.manifest.parents)
                stored += len(entries)
                leads = sum(entry.version in array.versions for entry in entries)
                fine = all(3 * len(live[version]) >= len(entries) for version in array.versions)
                expect(f"turn {turn}, array {array.id}", (fine, len(entries) <= 2 * leads), (True, True))
                seen.add((len(level.arrays) > 1, len(array.versions) > 1, leads < len(entries), level.number))
        expect(f"turn {turn}, stored", stored <= 2 * contents.manifest.updates, True)
    several, tags, copies, levels = map(set, zip(*seen))
    expect("what was seen", (several, tags, copies, max(levels) > 3), ({False, True}, {False, True}, {False, True}, True))


CHECKS = [
    publications_stand_where_they_should,
    levels_are_told_as_the_file_has_them,
    levels_of_a_damaged_file_name_the_block,
    outputs_that_fail_end_a_report,
    every_array_is_a_third_live,
]
