"""Cursors: what they give while all is changed, how many may be open, and how long the blocks that they read stay."""

import copy
import os
import random
import struct

import formats
import model
from model import BLOCK, bodies_of, clone, close_cursor, delete, next_pairs, open_cursor, page, put, reply, stat
from program import StoreFile, Talk, Wrong, bytes_of, expect, hexed, in_every_cutting, in_memory
from samples import ABC, drawn_beside_cursors, drawn_over


def a_cursor_shows_its_range_as_it_was(folder):
    # of M 4, so that the change of c empties the journal
    opened = hexed("0000000d 00000001 07 00000000 0000 0000")
    data = (put(1, b"a", b"1") + put(2, b"b", b"2") + opened + put(3, b"a", b"9") + delete(4, b"b") + put(5, b"c", b"3")
            + hexed("0000000f 00000002 08 0000000000000001 0100  0000000f 00000003 08 0000000000000001 0100")
            + hexed("0000000d 00000004 09 0000000000000001  0000000d 00000005 09 0000000000000001"))
    want = (reply(1, model.DONE) + reply(2, model.DONE) + hexed("0000000d 00000001 06 0000000000000001")
            + b"".join(reply(tag, model.DONE) for tag in (3, 4, 5))
            + hexed("00000014 00000002 03 00 0002 0001 61 0001 31 0001 62 0001 32  00000008 00000003 03 00 0000")
            + hexed("00000005 00000004 00  00000005 00000005 12"))
    in_every_cutting(folder, "a cursor", data, (want, 0), mem=4)


def sixty_four_cursors_are_open_at_most(folder):
    openings = b"".join(open_cursor(tag) for tag in range(1, 65))
    opened = b"".join(reply(tag, model.OPENED, struct.pack(">Q", tag)) for tag in range(1, 65))
    data = openings + hexed("0000000d 00000006 07 00000000 0000 0000") + stat(7)
    want = opened + hexed("00000005 00000006 15") + reply(7, model.COUNTS, struct.pack(">IIII", 1, 0, 0, 64))
    store = StoreFile(folder)
    store.expect_served("64 cursors", [data], (want, 0))
    # another version is unknown first; one that was told to its end is open still; a closed one makes room, and its number is gone
    data += (open_cursor(8, version=1) + next_pairs(9, 7) + open_cursor(10) + close_cursor(11, 7) + open_cursor(12) + open_cursor(13)
             + next_pairs(14, 7) + close_cursor(15, 65) + close_cursor(16, 65) + stat(17))
    want += (reply(8, model.UNKNOWN_VERSION) + page(9, []) + reply(10, model.CURSOR_LIMIT) + reply(11, model.DONE)
             + reply(12, model.OPENED, struct.pack(">Q", 65)) + reply(13, model.CURSOR_LIMIT) + reply(14, model.UNKNOWN_CURSOR)
             + reply(15, model.DONE) + reply(16, model.UNKNOWN_CURSOR) + reply(17, model.COUNTS, struct.pack(">IIII", 1, 0, 0, 63)))
    store.expect_served("64 cursors, again", [data], (want, 0))


def cursors_give_the_pairs_of_a_range_in_pages(folder):
    done = b"".join(reply(tag, model.DONE) for tag in (1, 2, 3))
    pairs = [(b"a", b"1"), (b"b", b"2"), (b"c", b"3")]
    ranges = [((b"", b""), pairs), ((b"b", b""), pairs[1:]), ((b"", b"b"), pairs[:1]), ((b"a\0", b"b\0"), pairs[1:2]), ((b"b", b"b"), []),
              ((b"c", b"a"), []), ((b"d", b""), []), ((b"", b"a"), []), ((b"\xff" * 255, b""), []), ((b"", b"\xff" * 255), pairs)]
    for limit in (1, 2, 3, 256):
        data, want = b"", b""
        for number, (bounds, found) in enumerate(ranges, 1):
            data += open_cursor(number, *bounds)
            want += reply(number, model.OPENED, struct.pack(">Q", number))
            for place in range(0, len(found) + limit + 1, limit):
                data += next_pairs(place, number, limit)
                want += page(place, found[place:place + limit], len(found) > place + limit)
        StoreFile(folder).expect_served(f"pages of {limit}", [ABC, data], (done + want, 0))
    longest = b"k" * model.KEY_MAX
    data = (open_cursor(1, longest + b"k", version=5) + open_cursor(2, b"", longest + b"k") + open_cursor(3, longest, version=1)
            + next_pairs(4, 1, 0) + next_pairs(5, 1, 257) + next_pairs(6, 1, 65535) + open_cursor(7) + next_pairs(8, 1, 0)
            + next_pairs(9, 2) + next_pairs(10, 0) + close_cursor(11, 2 ** 64 - 1) + next_pairs(12, 1))
    want = b"".join(reply(tag, status) for tag, status in enumerate(
        (model.KEY_SIZE, model.KEY_SIZE, model.UNKNOWN_VERSION, model.SCAN_SIZE, model.SCAN_SIZE, model.SCAN_SIZE), 1))
    want += reply(7, model.OPENED, struct.pack(">Q", 1)) + reply(8, model.SCAN_SIZE)
    want += b"".join(reply(tag, model.UNKNOWN_CURSOR) for tag in (9, 10, 11)) + page(12, pairs)
    store = StoreFile(folder)
    store.expect_served("what is refused", [ABC, data], (done + want, 0))
    # a cursor ends with its run, and the next run counts from 1 again
    data, want = next_pairs(1, 1) + open_cursor(2), reply(1, model.UNKNOWN_CURSOR) + reply(2, model.OPENED, struct.pack(">Q", 1))
    store.expect_served("another run", [data], (want, 0))


@in_memory
def random_streams_with_cursors_are_answered_over_several_runs(folder):
    chance = random.Random(26)
    seen = set()
    for turn in range(30):
        store = StoreFile(folder, chance.choice((4, 5, 8)), 100000, chance.choice((3, 60, 16384)))
        keys, clones = chance.choice((3, 30, 400)), chance.choice((0, 0.05, 0.3))
        for number in range(chance.choice((1, 2, 3))):
            frames = drawn_beside_cursors(chance, chance.choice((40, 400)), store.model, keys, clones)
            data = b"".join(frames)
            cuts = sorted(chance.sample(range(len(data)), chance.choice((0, 1, 10))))
            pieces = [data[i:j] for i, j in zip([0, *cuts], [*cuts, len(data)])]
            answers = bodies_of(copy.deepcopy(store.model).serve(data)[0])
            seen |= {(body[4], body[5:6] if body[4] == model.PAIRS else b"") for body in answers}
            store.expect_served(f"turn {turn}, run {number}", pieces)
    wanted = {(model.OPENED, b""), (model.PAIRS, b"\0"), (model.PAIRS, b"\1"), (model.UNKNOWN_CURSOR, b""), (model.CURSOR_LIMIT, b"")}
    expect("what was seen", sorted(wanted - seen), [])


@in_memory
def cursors_read_whole_versions_while_all_is_changed(folder):
    chance = random.Random(27)
    store = StoreFile(folder, 16, 100000, 100)
    for version in range(3):
        keys = [b"%03d" % key for key in chance.sample(range(1000), 400)]
        frames = [put(tag, key, chance.randbytes(chance.choice((0, 5, 300))), version) for tag, key in enumerate(keys)]
        store.expect_answers(f"version {version}", [*frames, clone(0, version)])
    with Talk("whole versions", store) as talk:
        cursors = [talk.open(version=version) for version in (0, 1, 2, 3, 3)]
        pages = [next_pairs(tag, cursor, chance.choice((1, 100, 256))) for tag, cursor in enumerate(cursors) for _ in range(20)]
        chance.shuffle(pages)
        for tag, sent in enumerate(pages):
            for key in chance.sample(range(1000), 4):
                talk.ask(chance.choice((put(tag, b"%03d" % key, b"%d" % tag, 3), delete(tag, b"%03d" % key, 3))))
            talk.ask(sent)
        talk.ask(stat(1))
    store.expect_bytes("whole versions")


def blocks_read_at(data, parents, version):
    """The blocks that a cursor reads which is opened now at a version, with their bytes."""
    levels = formats.read(data).manifest.levels
    arrays = [array for level in levels for array in level.arrays if formats.below(version, level.horizon, parents) in array.versions]
    return {block: formats.block_at(data, block) for array in arrays for block in formats.blocks_of(array)}


@in_memory
def blocks_stay_while_a_cursor_reads_them_and_no_longer(folder):
    chance = random.Random(28)
    reused = named = 0
    for turn in range(6):
        store, held, given_back = StoreFile(folder, 4, 100000, 100), {}, {}
        keys, clones = chance.choice((8, 60)), chance.choice((0, 0.05, 0.2))
        with Talk(f"turn {turn}", store) as talk:
            for number in range(400):
                if chance.random() < 0.04 and len(held) < 12:
                    version = chance.choice(store.model.living())
                    cursor = talk.open(version=version)
                    held[cursor] = blocks_read_at(bytes_of(store.path), store.model.parents[1:], version)
                    named += len(held[cursor])
                if chance.random() < 0.03 and held:
                    cursor = chance.choice(list(held))
                    talk.ask(close_cursor(number, cursor))
                    given_back.update(held.pop(cursor))
                if held:
                    talk.ask(next_pairs(number, chance.choice(list(held)), 1))
                talk.ask(drawn_over(chance, 1, store.model, keys, clones)[0])
                data = bytes_of(store.path)
                for cursor, blocks in held.items():
                    changed = [block for block, there in blocks.items() if formats.block_at(data, block) != there]
                    expect(f"turn {turn}, change {number}, blocks of cursor {cursor} that were overwritten", changed, [])
            reused += sum(formats.block_at(data, block) != there for block, there in given_back.items())
        store.expect_bytes(f"turn {turn}")
    expect("blocks that cursors read, and blocks that were used again", (named > 100, reused > 20), (True, True))


def blocks_named(data):
    """The blocks that the manifest names, those of its own chain among them."""
    contents = formats.read(data)
    return {block for array in formats.arrays_of(contents.manifest) for block in formats.blocks_of(array)} | set(contents.chain)


def opened_between_puts(talk, store, chance):
    """Sixty-four cursors over five versions, with a put behind each: the blocks of each."""
    held = {}
    for number in range(64):
        cursor = talk.open(version=number % 5)
        held[cursor] = blocks_read_at(bytes_of(store.path), store.model.parents[1:], number % 5)
        talk.ask(put(number, b"%03d" % chance.randrange(200), chance.randbytes(300), 4))
    return held


def sixty_four_cursors_are_read_to_their_end_over_publications(folder):
    chance, store = random.Random(31), StoreFile(folder, 4, 100000, 100)
    for version in range(4):
        frames = [put(tag, b"%03d" % key, chance.randbytes(300), version) for tag, key in enumerate(chance.sample(range(200), 40))]
        store.expect_answers(f"version {version}", [*frames, clone(0, version)])
    ended = closed = published = 0
    with Talk("64 cursors", store) as talk:
        held = opened_between_puts(talk, store, chance)
        before, began = bytes_of(store.path), None
        while held:
            cursor = chance.choice(list(held))
            told = talk.ask(next_pairs(1, cursor, chance.choice((1, 7, 256))))
            at_end = told[5:6] == b"\0"
            if at_end or cursor % 4 == 0:  # every fourth is closed behind its first page
                ended, closed = ended + at_end, closed + (not at_end)
                talk.ask(close_cursor(2, cursor))
                del held[cursor]
            kept = {block for blocks in held.values() for block in blocks}
            if began is None and len(formats.read(before).journal) >= 4:  # this put begins a promotion
                began = before, kept
            talk.ask(put(3, b"%03d" % chance.randrange(200), chance.randbytes(300), 4))
            data = bytes_of(store.path)
            old, new = blocks_named(before), blocks_named(data)
            written = set()
            if began and old != new:  # it is published
                before, kept = began
                written = {block for block in new if formats.block_at(data, block) != formats.block_at(before, block)}
                began = None
            published += bool(written)
            # what is written was free where the promotion began: neither the manifest nor a cursor named it, and so it lies as low
            # as these let it
            expect("blocks written over that were named", sorted(written & (old | kept)), [])
            for blocks in held.values():
                expect("blocks of a cursor that changed", [b for b, there in blocks.items() if formats.block_at(data, b) != there], [])
            free_below = formats.first_free(4) + len(old | kept) + len(written)
            expect("blocks beyond what is named", [block for block in written if block >= free_below], [])
            before = data
    store.expect_bytes("64 cursors")
    expect("ended, closed midway, published", (ended >= 48, closed > 5, published > 20), (True, True, True))


@in_memory
def a_file_grows_no_more_for_cursors_that_are_closed(folder):
    # values of which three fill a block: each publication writes several, so that a hundred which kept theirs would show
    for most in (0, 1, 8):
        chance, store, sizes, needed = random.Random(29), StoreFile(folder, 4, 100000, 100), [], set()
        with Talk(f"{most} cursors", store) as talk:
            for change in range(4 * 160):
                talk.ask(put(change, b"%d" % chance.randrange(40), chance.randbytes(1024)))
                if change % 4 == 0:  # the journal was emptied, but for the first
                    while len(store.model.cursors) >= max(1, most):
                        talk.ask(close_cursor(change, min(store.model.cursors)))
                    if most:
                        talk.ask(next_pairs(change, talk.open(), 7))
                    contents = formats.read(bytes_of(store.path))
                    blocks = {block for array in formats.arrays_of(contents.manifest) for block in formats.blocks_of(array)}
                    needed.add(len(blocks) + len(contents.chain))
                    sizes.append(os.path.getsize(store.path) // BLOCK - formats.first_free(4))
        expect(f"{most} cursors, publications", formats.read(bytes_of(store.path)).head.generation, 160)
        # an old state, a new one, and one for each cursor
        if max(sizes) > (2 + most) * max(needed):
            raise Wrong(f"{most} cursors: {max(sizes)} blocks, where one state needs {max(needed)}")
        expect(f"{most} cursors, the last hundred", max(sizes[60:]) <= max(sizes[:60]) + max(needed), True)
        store.expect_bytes(f"{most} cursors")


CHECKS = [
    a_cursor_shows_its_range_as_it_was,
    sixty_four_cursors_are_open_at_most,
    cursors_give_the_pairs_of_a_range_in_pages,
    random_streams_with_cursors_are_answered_over_several_runs,
    cursors_read_whole_versions_while_all_is_changed,
    blocks_stay_while_a_cursor_reads_them_and_no_longer,
    sixty_four_cursors_are_read_to_their_end_over_publications,
    a_file_grows_no_more_for_cursors_that_are_closed,
]
