"""Damaged files: arrays with wrong bytes, files cut short or overwritten, and the block that is named."""

import os
import random
import struct

import damages
import formats
import model
import promotions
import replicas
from faulty import made_over
from model import BLOCK, bodies_of, clone, close_cursor, delete, get, info, next_pairs, open_cursor, put, reply, scan, stat, tag_of
from program import (
    GET_A, PUT_A, StoreFile, Talk, Wrong, bytes_of, complaint, expect, expect_alike, expect_opened, expect_said, expect_sound, expect_told,
    in_memory, left_behind, read_exactly, run, serve)
from samples import DISTINCT, PUBLISHED, altered, drawn_beside_cursors, drawn_changes, store_after


def expect_damaged(name, store, frames, block):
    """All frames but the last are answered as by the model, the last with the damaged block; the same in the next run."""
    for turn in range(2):
        out, _ = store.model.serve(b"".join(frames[:-1]))
        want = out + reply(tag_of(frames[-1][4:]), model.DAMAGED_BLOCK, struct.pack(">I", block))
        expect(f"{name}, {turn}", serve(store.path, [b"".join(frames) + get(99, b"a")]), (want, 9, complaint(9)))


def damaged_arrays_are_named(folder):
    wrong = [(0, b"\0\0"), (2, b"\xff"), (2, b"\0\0"), (4095, b"\1"), (0, b"\xff\xff")]
    for place, piece in wrong:
        # level 2 has its 12 keys in block 7, and the journal the last two
        store, _ = store_after(folder, DISTINCT[0], [*DISTINCT[1], put(14, b"k14", b"14")])
        mended = formats.block_at(bytes_of(store.path), 7)
        altered(store.path, 7 * BLOCK + place, piece)
        fine = [get(1, b"k13"), stat(2), info(3), get(4, b"k01", 1)]
        store.expect_answers("before", fine)
        expect_damaged("a get", store, [*fine, get(1, b"k01")], 7)
        expect_damaged("a scan", store, [*fine, scan(1, b"k01", b"k02")], 7)
        # a cursor is opened without a look at a block, and its first page has one
        expect_damaged("a cursor", store, [*fine, open_cursor(1, b"k01", b"k02"), open_cursor(2), close_cursor(3, 2), next_pairs(1, 1)], 7)
        # with two more keys the last two are published without a look at level 2, and so are eight; twelve are not
        store.expect_answers("a publication of others", [put(i, b"n%02d" % i, b"1") for i in range(4)])
        store.expect_answers("what it has", [get(i, b"n%02d" % i) for i in range(4)])
        expect_damaged("a get after it", store, [get(1, b"k01")], 7)
        store.expect_answers("more", [put(i, b"n%02d" % i, b"1") for i in range(4, 10)])
        expect_damaged("a promotion", store, [get(1, b"n00"), put(2, b"n10", b"1")], 7)
        store.expect_answers("after it", [get(i, b"n%02d" % i) for i in range(10)])
        altered(store.path, 7 * BLOCK, mended)
        store.expect_served("mended", [put(1, b"n10", b"1") + get(2, b"k01") + scan(3)])
    # two arrays of a level: only the versions of one are damaged
    store, contents = store_after(folder, *PUBLISHED[1][:2])
    first, second = formats.arrays_of(contents.manifest)
    block = second.extents[0][0]
    altered(store.path, block * BLOCK, b"\0\0")
    fine = [get(v, key, v) for v in (0, 1) for key in (b"a", b"b", b"c")] + [scan(v, version=v) for v in (0, 1)]
    for version in (2, 3):
        expect_damaged(f"version {version}", store, [*fine, get(1, b"a", version)], block)
        expect_damaged(f"a scan of version {version}", store, [*fine, scan(1, version=version)], block)


def a_damaged_array_that_only_a_cursor_reads_is_named(folder):
    store, contents = store_after(folder, *DISTINCT[:2], 1000, 10)
    old, = formats.arrays_of(contents.manifest)
    with Talk("a cursor", store) as talk:
        cursor, change = talk.open(), 0
        while old.id in (array.id for array in formats.arrays_of(formats.read(bytes_of(store.path)).manifest)):
            talk.ask(put(change, b"k%02d" % (change % 12), b"new"))
            change += 1
        altered(store.path, old.extents[0][0] * BLOCK, b"\0\0")
        for sent in (get(1, b"k03"), scan(2), next_pairs(3, talk.open(), 5), stat(4)):
            talk.ask(sent)
        talk.child.stdin.write(next_pairs(5, cursor, 1))
        want = reply(5, model.DAMAGED_BLOCK, struct.pack(">I", old.extents[0][0]))
        expect("a page", read_exactly(talk.child.stdout, len(want)), want)
        talk.status = model.DAMAGED
    store.expect_answers("the next run", [scan(1), get(2, b"k03"), stat(3)])


def used_store(folder):
    """A file with four puts in a journal region for four, and its bytes."""
    store = StoreFile(folder, 4, 100, 10)
    store.expect_served("puts", [b"".join(put(i, b"%d" % i, b"%d" % i) for i in range(4))])
    return store.path, bytes_of(store.path)


def a_store_cut_short_is_refused_by_name(folder):
    path, data = used_store(folder)
    places = [0, 1, 8, 9, 10, 39, 40, 41, 4096, 8191, 8192, 8193, 8235, 8236, 8237, 16384, 24575, 24576, 24580, 24607,
              24616, 24617, 24618, 28671, 28672]
    chance = random.Random(7)
    for place in places + [chance.randrange(len(data)) for _ in range(20)]:
        expect_opened(f"cut at {place}", path, data[:place])


def noise_over(path, data, chance, turns, places):
    """Serves the file with noise at some of the places, and gives the statuses that were met."""
    seen = set()
    for turn in range(turns):
        noisy = bytearray(data)
        at = chance.choice(places) + chance.randrange(50)
        noise = chance.randbytes(chance.choice((1, 1, 2, 8, 40)))
        noisy[at:at + len(noise)] = noise
        seen.add(expect_opened(f"noise {turn}, {len(noise)} bytes at {at}", path, bytes(noisy)))
    return seen


def a_store_overwritten_with_noise_is_refused_by_name(folder):
    path, data = used_store(folder)
    chance = random.Random(8)
    # superblock slots, the first records of both regions, and the manifest's block
    seen = noise_over(path, data, chance, 200, [0, 0, 0, 4096, 8192, 8192, 8192, 16384, 24576])
    for turn in range(10):
        seen.add(expect_opened(f"all noise {turn}", path, chance.randbytes(chance.randrange(40000))))
    expect("statuses", seen, {0, 2, 9})
    # each gate alone, open and shut
    for at in (0, 4096, 8192, 8203, 8236, 16384):
        for gate in (0, 0xa6, 0xa7):
            expect_opened(f"gate {gate} at {at}", path, data[:at] + bytes([gate]) + data[at + 1:])


def blamed(data):
    """The block that an opening of a file with these bytes names, or None."""
    try:
        formats.store_of(data, formats.read(data))
    except formats.Damaged as damaged:
        return damaged.block
    return None


def with_byte(data, place, byte):
    return data[:place] + bytes([byte]) + data[place + 1:]


def altered_bytes_are_named(folder):
    stores = StoreFile(folder, 4, 100, 10), StoreFile(folder, 4, 100, 10), StoreFile(folder, 4, 100, 1)
    for store in stores[1:]:
        store.expect_served("a put", [PUT_A])
    new, one, single = (bytes_of(store.path) for store in stores)
    path, used = used_store(folder)
    for name, place, byte in (("the slot's gate shut", 0, 0), ("its text", 1, 0x73)):
        expect(name, expect_opened(name, path, with_byte(new, place, byte)), model.NOT_A_STORE)
    for name, data, place, byte, block in (
        ("the slot's generation", new, 18, 2, 6), ("its manifest's block", new, 22, 5, 0), ("its length", new, 26, 39, 6),
        ("its length, too short", new, 26, 37, 0), ("its format", new, 10, 3, 0), ("its format, that of an older one", new, 10, 1, 6),
        ("its region", new, 27, 2, 0), ("its versions", new, 38, 0xff, 0), ("a byte behind it", new, 40, 9, None),
        ("the other slot open with no text", new, 4096, 0xa7, None), ("a gate with no change behind it", new, 8192, 0xa7, 2),
        ("a chain that goes on", new, 24579, 1, 6), ("as many changes as may be", new, 24583, 100, None),
        ("one more", new, 24583, 101, 6), ("an update without a change", new, 24587, 1, 6), ("a byte behind the manifest", new, 28671, 1, 6),
        ("entries compacted without a change", new, 24603, 1, 6), ("a mark of version 0", new, 24616, 1, 6),
        ("a put made a deletion", one, 8193, 2, None), ("a put made a clone", one, 8193, 3, None),
        ("a put at a version that is not there", one, 8197, 1, 2), ("a clone past the limit", single, 8193, 3, 2),
        ("the other region open behind a full one", used, 16384, 0xa7, 4), ("the last gate shut", used, 8225, 0, None),
    ):
        wrong = with_byte(data, place, byte)
        status = expect_opened(name, path, wrong)
        expect(name, (status, blamed(wrong)), (0 if block is None else model.DAMAGED, block))
    # a journal that goes on in the other region, by one change or two, and by one too many
    for many, ends in ((1, (model.ENDED, None)), (2, (model.ENDED, None)), (3, (model.DAMAGED, 4))):
        records = many * formats.record_of((formats.PUT, 0, b"a", b"1"))
        wrong = used[:16384] + records + b"\0" + used[16385 + len(records):]
        name = f"a journal with {many} behind a full region"
        expect(name, (expect_opened(name, path, wrong), blamed(wrong)), ends)
        if ends[0] == model.ENDED:
            sent, (_, store) = put(9, b"z", b"9"), formats.opened(wrong)
            out, status = store.serve(sent)
            expect(f"{name}, and a put", serve(path, [sent]), (out, status, complaint(status)))
            expect_said(f"{name}, and a put", bytes_of(path), store)
    # the other region open behind one with room is shut
    altered(stores[1].path, 16384, b"\xa7")
    stores[1].expect_served("a look", [GET_A])


def a_published_store_overwritten_with_noise_is_refused_by_name(folder):
    chance = random.Random(9)
    for frames in (PUBLISHED[0][1], PUBLISHED[2][1], DISTINCT[1]):
        store, contents = store_after(folder, 4, frames)
        data, blocks = bytes_of(store.path), [block for array in formats.arrays_of(contents.manifest)
                                              for block in formats.blocks_of(array)]
        # both slots, both regions, the manifest from its start and from the middle of it, and the arrays' first entries
        places = [0, 4096, 8192, 16384, *(3 * [BLOCK * contents.chain[0], BLOCK * contents.chain[0] + 33]),
                  *(BLOCK * block for block in blocks)]
        seen = noise_over(store.path, data, chance, 80, places)
        expect("statuses", seen, {0, 9})


# Changes behind a full region

def full_store(chance, folder, mem):
    """The bytes of a store whose journal fills one region, with two versions and more in levels."""
    frames, journal, store = [], promotions.Journal(mem), model.Store(mem, 1000, 10)
    for frame in drawn_changes(chance, 400, 1, 8, 0.08, 0.03):
        frames.append(frame)
        store.answer(frame[4:])
        if len(store.changes) > journal.times * mem + len(journal.changes):
            journal.take(store.changes[-1])
        if len(journal.changes) == mem and journal.emptied.levels and journal.emptied.parents:
            return made_over(folder, mem, frames)[0]
    raise Wrong("no such store is drawn")


def behind(chance, data):
    """The same with each number of changes behind the full region that there may be, the first of them a clone; and that number."""
    contents = formats.read(data)
    head, store = contents.head, formats.store_of(data, contents)
    place, last, piece = formats.region_start(head.mem, 1 - head.region) * BLOCK, len(store.parents) - 1, b""
    changes = [(model.CLONE, last), (model.DELETE, last + 1, b"%d" % chance.randrange(8))]
    changes += [(model.PUT, last + 1, b"%d" % chance.randrange(8), chance.randbytes(5)) for _ in range(head.mem - 4)]
    for many, change in enumerate(changes, 1):
        piece += formats.record_of(change)
        yield many, damages.patched(data, place, piece + b"\0")


def expect_lead(name, path, data, frames=()):
    """A leader over a file with these bytes writes the changes of its journal, and what it accepts of the frames."""
    with open(path, "wb") as file:
        file.write(data)
    status, store = formats.opened(data)
    want = b""
    if store is not None:
        want, status = replicas.lead(store, formats.read(data), b"".join(frames))
    expect(f"{name}, lead", run(["lead", path], input=b"".join(frames)), (want, status, complaint(status)))
    return store


def expect_exported(name, path, store):
    """Each version that reads no damaged block is exported as the store has it, and of the others what is damaged is told."""
    for version, pairs in enumerate(store.pairs):
        before = left_behind(path)
        out, status, said = run(["export", path, str(version)])
        if not store.has(version):
            expect(f"{name}, export of version {version}, dropped", (out, status), (b"", model.NO_VERSION))
        elif version in store.unread:
            expect(f"{name}, export of version {version}, damaged", status, model.DAMAGED)
        else:
            expect(f"{name}, export of version {version}", (out, status), (replicas.exported(pairs), model.ENDED))
        expect(f"{name}, export of version {version}, said", (said, left_behind(path) == before), (complaint(status), True))


def expect_taken(name, path, store):
    """The file has what this store has, and is sound."""
    data = bytes_of(path)
    status, got = formats.opened(data)
    expect(f"{name}, the file", status, model.ENDED)
    expect_alike(name, got, store)
    expect_sound(name, data)
    expect_told(name, path)


def expect_used(name, folder, data, chance):
    """Each job does with a file of these bytes what the model does, with cursors over changes; or it ends as the opening does."""
    path = os.path.join(folder, "used.store")
    status = expect_opened(name, path, data)
    expect_lead(name, path, data)
    if status != model.ENDED:
        expect(f"{name}, export", run(["export", path, "0"]), (b"", status, complaint(status)))
        return status
    store = formats.opened(data)[1]
    expect_exported(name, path, store)
    last = len(store.parents) - 1
    frames = [clone(1, last), delete(2, b"1", last + 1), *(scan(3, version=version) for version in range(last + 2))]
    frames += drawn_beside_cursors(chance, 60, store, 8, 0.1)
    expect_taken(f"{name}, lead", path, expect_lead(f"{name}, changes", path, data, frames))
    with open(path, "wb") as file:
        file.write(data)
    out, status = store.serve(b"".join(frames))
    expect(f"{name}, serve", serve(path, [b"".join(frames)]), (out, status, complaint(status)))
    expect_taken(f"{name}, serve", path, store)
    return status


@in_memory
def every_job_takes_a_file_with_changes_behind_a_full_region(folder):
    chance = random.Random(10)
    for mem in (4, 5, 9):
        for many, data in behind(chance, full_store(chance, folder, mem)):
            name = f"M {mem}, {many} behind a full region"
            journal = formats.read(data).journal
            expect(f"{name}, the journal", len(journal), mem + many)
            expect(name, expect_used(name, folder, data, chance), model.ENDED)


@in_memory
def noise_in_either_region_of_such_a_file_is_refused_by_name_or_taken(folder):
    chance, seen = random.Random(11), set()
    for mem in (4, 9):
        for many, data in behind(chance, full_store(chance, folder, mem)):
            logged, head = formats.read(data).journal, formats.read(data).head
            ends = [sum(len(formats.record_of(change)) for change, _ in part) for part in (logged[:mem], logged[mem:])]
            for turn in range(30 // mem):
                active = chance.random() < 0.5
                place = formats.region_start(head.mem, head.region if active else 1 - head.region) * BLOCK
                place += chance.randrange(ends[not active] + 2)
                noisy = damages.patched(data, place, chance.randbytes(chance.choice((1, 1, 2, 8))))
                seen.add(expect_used(f"M {mem}, {many} behind, noise {turn} at {place}", folder, noisy, chance))
    expect("statuses", seen, {model.ENDED, model.DAMAGED})


@in_memory
def what_is_damaged_in_such_a_file_is_told_by_jobs_that_change_nothing(folder):
    chance, path, seen = random.Random(12), os.path.join(folder, "damaged.store"), set()
    bases = [damages.Base(data) for mem in (4, 9) for _, data in behind(chance, full_store(chance, folder, mem))]
    for turn in range(200):
        found = damages.damaged(chance, bases)
        if found is None:
            continue
        what, data = found
        expect_lead(f"damage {turn}, {what}", path, data)
        with open(path, "wb") as file:
            file.write(data)
        expect_told(f"damage {turn}, {what}", path)
        seen.add(formats.levels_printed(data)[1])
    expect("statuses", seen >= {model.ENDED, model.DAMAGED}, True)


def damaged_arrays_are_named_behind_a_full_region(folder):
    # the active region has k09 to k12, the other one k13, and level 1 the eight keys before; the next change does the whole promotion
    store, contents = store_after(folder, *DISTINCT[:2])
    array, = formats.arrays_of(contents.manifest)
    block, mended = array.extents[0][0], bytes_of(store.path)
    altered(store.path, block * BLOCK, b"\0\0")
    fine = [get(1, b"k09"), get(2, b"k13"), stat(3), info(4), get(5, b"k01", 1), open_cursor(6), close_cursor(7, 1), clone(8, 1)]
    for name, last in (("a get", get(9, b"k01")), ("a scan", scan(9)), ("a put", put(9, b"a", b"1")), ("a clone", clone(9)),
                       ("a deletion", delete(9, b"k13"))):
        expect_damaged(name, store, [*fine, last], block)
    expect_damaged("a cursor", store, [*fine, open_cursor(8), next_pairs(9, 2)], block)
    expect_told("its levels", store.path)
    data = bytes_of(store.path)
    expect_exported("its export", store.path, formats.opened(data)[1])
    expect_lead("no change", store.path, data)
    want = replicas.sent_at_first(formats.read(data))
    expect("a change", run(["lead", store.path], input=get(1, b"k01") + put(2, b"a", b"1")), (want, 9, complaint(9)))
    expect("the file's bytes are the same", bytes_of(store.path) == data, True)
    altered(store.path, 0, mended)
    store.expect_served("mended", [clone(1) + delete(2, b"k13", 1) + scan(3) + scan(4, version=1)])


def a_damaged_block_that_a_later_slice_reads_is_named_then(folder):
    # level 1 has 32 keys, level 2 has 48 in twelve blocks, and a slice takes some fourteen of both and of level 0
    store, contents = store_after(folder, 16, [put(i, b"%03d" % (i * 7 % 150), b"v" * 1000) for i in range(93)], 1000, 10)
    array = formats.arrays_of(contents.manifest)[-1]
    block, room = formats.blocks_of(array)[-1], 16 - len(contents.journal)
    altered(store.path, block * BLOCK, b"\0\0")
    frames, changes = [put(i, b"%03d" % i, b"w") for i in range(40)], store.model.counts()[2]
    for turn in range(2):
        out, status, said = serve(store.path, [b"".join(frames)])
        expect(f"{turn}, the end", (status, said), (9, complaint(9)))
        *made, last = bodies_of(out)
        done, frames = frames[:len(made)], frames[len(made):]
        expect(f"{turn}, the answers", made, [reply(tag_of(frame[4:]), model.DONE)[4:] for frame in done])
        expect(f"{turn}, the last", last, reply(tag_of(frames[0][4:]), model.DAMAGED_BLOCK, struct.pack(">I", block))[4:])
        # neither with the change that begins the promotion nor once it would have ended; the next run begins it anew
        expect(f"{turn}, slices before it", 0 < len(made) - room < 14, True)
        changes, room = changes + len(made), 0
        expect(f"{turn}, the file", formats.opened(bytes_of(store.path))[1].counts()[2], changes)


CHECKS = [
    damaged_arrays_are_named,
    a_damaged_array_that_only_a_cursor_reads_is_named,
    a_store_cut_short_is_refused_by_name,
    a_store_overwritten_with_noise_is_refused_by_name,
    altered_bytes_are_named,
    a_published_store_overwritten_with_noise_is_refused_by_name,
    every_job_takes_a_file_with_changes_behind_a_full_region,
    noise_in_either_region_of_such_a_file_is_refused_by_name_or_taken,
    what_is_damaged_in_such_a_file_is_told_by_jobs_that_change_nothing,
    damaged_arrays_are_named_behind_a_full_region,
    a_damaged_block_that_a_later_slice_reads_is_named_then,
]
