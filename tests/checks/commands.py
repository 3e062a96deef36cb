"""Commands and what they answer: puts, deletes, gets, clones, scans, places and counts, and what is refused."""

import random
import struct

import model
from model import clone, delete, drop, frame, get, info, page, put, reply, scan, sized, stat
from program import GET_A, PUT_A, StoreFile, hexed, in_every_cutting, run
from samples import ABC, SETTINGS, drawn_frames, drawn_over


def another_version_is_unknown(folder):
    data = get(3, b"a", version=5) + put(4, b"a", b"1", version=1) + get(5, b"a")
    want = reply(3, model.UNKNOWN_VERSION) + reply(4, model.UNKNOWN_VERSION) + reply(5, model.ABSENT)
    StoreFile(folder).expect_served("versions 5 and 1", [data], (want, 0))


def the_largest_key_and_value_are_taken_and_no_larger(folder):
    key, value = b"k" * model.KEY_MAX, b"v" * model.VALUE_MAX
    data = put(1, key, value) + get(2, key) + put(3, key + b"k", b"") + put(4, key, value + b"v") + put(5, b"", b"")
    refused = reply(3, model.KEY_SIZE) + reply(4, model.VALUE_SIZE) + reply(5, model.KEY_SIZE)
    store = StoreFile(folder)
    store.expect_served("sizes", [data], (reply(1, model.DONE) + reply(2, model.FOUND, sized(value)) + refused, 0))
    store.expect_served("sizes, again", [get(2, key)], (reply(2, model.FOUND, sized(value)), 0))
    data = put(6, b"", value + b"v") + put(7, b"", b"", version=5) + delete(8, key + b"k") + get(9, b"", version=5)
    want = b"".join(reply(tag, model.KEY_SIZE) for tag in (6, 7, 8, 9))
    store.expect_served("the size of a key, then that of a value, then the version", [data], (want, 0))
    longest = frame(struct.pack(">IB", 6, model.PUT) + bytes(model.BODY_MAX - 5))
    want = reply(6, model.MALFORMED) + reply(8, model.ABSENT)
    StoreFile(folder).expect_served("a body of 2,048 bytes", [longest, GET_A], (want, 0))


def a_clone_has_its_own_pairs_and_its_parent_is_frozen(folder):
    data = PUT_A + clone(1) + put(2, b"b", b"1") + put(3, b"a", b"2", version=1) + get(4, b"a") + get(5, b"a", version=1)
    want = (reply(7, model.DONE) + hexed("00000009 00000001 04 00000001") + reply(2, model.FROZEN)
            + reply(3, model.DONE) + reply(4, model.FOUND, sized(b"1")) + reply(5, model.FOUND, sized(b"2")))
    in_every_cutting(folder, "a clone", data, (want, 0))


def a_deleted_key_is_absent_where_it_was_deleted(folder):
    data = PUT_A + clone(1) + delete(2, b"a", version=1) + delete(3, b"b", version=1) + get(4, b"a", version=1) + GET_A
    want = (reply(7, model.DONE) + reply(1, model.MADE, b"\0\0\0\1") + reply(2, model.DONE) + reply(3, model.DONE)
            + reply(4, model.ABSENT) + reply(8, model.FOUND, sized(b"1")))
    store = StoreFile(folder)
    store.expect_served("deletes", [data], (want, 0))
    store.expect_served("deletes, again", [get(4, b"a", version=1) + GET_A], (want[-21:], 0))


def a_scan_gives_the_pairs_of_a_range(folder):
    done = b"".join(reply(tag, model.DONE) for tag in (1, 2, 3))
    data = hexed("0000000f 0000000a 05 00000000 0000 0000 0002")
    want = hexed("00000014 0000000a 03 01 0002 0001 61 0001 31 0001 62 0001 32")
    in_every_cutting(folder, "two of three pairs", ABC + data, (done + want, 0))
    data = hexed("0000000f 0000000a 05 00000000 0000 0000 0000") + scan(4, limit=257) + scan(5, limit=65535)
    want = hexed("00000005 0000000a 19") + reply(4, model.SCAN_SIZE) + reply(5, model.SCAN_SIZE)
    StoreFile(folder).expect_served("limits", [ABC, data], (done + want, 0))
    # all that there are, and no more; a bound at, before and behind a key; empty ranges
    pairs = [(b"a", b"1"), (b"b", b"2"), (b"c", b"3")]
    data = (scan(4, limit=3) + scan(5, limit=4) + scan(6, b"b") + scan(7, b"", b"b") + scan(8, b"a\0", b"b\0") + scan(9, b"b", b"b")
            + scan(10, b"c", b"a") + scan(11, b"d") + scan(12, b"", b"a") + scan(13, b"b", limit=1) + scan(14, b"c", limit=1))
    want = (page(4, pairs) + page(5, pairs) + page(6, pairs[1:]) + page(7, pairs[:1]) + page(8, pairs[1:2]) + page(9, [])
            + page(10, []) + page(11, []) + page(12, []) + page(13, pairs[1:2], True) + page(14, pairs[2:]))
    StoreFile(folder).expect_served("bounds", [ABC, data], (done + want, 0))
    longest = b"k" * model.KEY_MAX
    data = scan(4, longest + b"k", limit=0, version=5) + scan(5, b"", longest + b"k") + scan(6, limit=0, version=5) + scan(7, longest, version=1)
    want = reply(4, model.KEY_SIZE) + reply(5, model.KEY_SIZE) + reply(6, model.SCAN_SIZE) + reply(7, model.UNKNOWN_VERSION)
    StoreFile(folder).expect_served("the size of a bound, then the limit, then the version", [data], (want, 0))


def versions_of_settings_are_scanned_apart(folder):
    store = StoreFile(folder, 64, 100000, 100)
    store.expect_served("two environments", [SETTINGS])
    data = b"".join(scan(v, b"user/", b"user0", 100, v) for v in (1, 2, 0))
    ann, bob, rob = (b"user/1/name", b"Ann"), (b"user/2/name", b"Bob"), (b"user/2/name", b"Rob")
    want = page(1, [ann, rob]) + page(2, [bob]) + page(0, [ann, bob])
    store.expect_served("names", [data], (want, 0))


def pages_follow_one_another_through_levels(folder):
    chance = random.Random(25)
    for turn in range(12):
        store = StoreFile(folder, chance.choice((4, 8)), 100000, 16384)
        frames = drawn_over(chance, chance.choice((60, 400)), store.model, chance.choice((5, 40)), chance.choice((0.05, 0.3)))
        store.expect_served(f"turn {turn}", [b"".join(frames)])
        for version in chance.sample(range(len(store.model.parents)), min(6, len(store.model.parents))):
            keys = sorted(store.model.pairs[version])
            bounds = [b"", *keys, *(key + b"\0" for key in keys), *(key[:-1] for key in keys), b"\xff"]
            looks = [scan(tag, chance.choice(bounds), chance.choice(bounds), chance.choice((1, 2, 3, 256)), version) for tag in range(60)]
            # every pair alone, and all together
            looks += [scan(1, key, limit=1, version=version) for key in keys] + [scan(2, version=version)]
            store.expect_served(f"turn {turn}, version {version}", [b"".join(looks)])


def the_tree_and_the_counts_are_told(folder):
    store = StoreFile(folder)
    want = hexed("0000000e 00000006 05 ffffffff 00000000 00  00000015 0000000b 07 00000001 00000000 00000000 00000000")
    store.expect_served("a new store", [info(6) + stat(11)], (want, 0))
    want = hexed("0000000e 00000006 05 ffffffff 00000000 01  0000000e 00000006 05 00000000 00000001 00")
    store.expect_served("a clone", [clone(1), info(6) + info(6, 1)], (reply(1, model.MADE, b"\0\0\0\1") + want, 0))
    store.expect_served("a clone, again", [info(6) + info(6, 1)], (want, 0))
    want = hexed("00000015 0000000c 07 00000002 00000000 00000001 00000000") + reply(7, model.UNKNOWN_VERSION)
    store.expect_served("counts", [stat(12) + info(7, 2)], (want, 0))


def the_first_of_several_refusals_is_told(folder):
    store = StoreFile(folder, 4, 2, 2)
    data = PUT_A + clone(1) + put(2, b"a", b"2", version=1) + clone(3, 1) + put(4, b"a", b"2") + delete(5, b"a")
    statuses = (model.CHANGE_LIMIT, model.VERSION_LIMIT, model.FROZEN, model.FROZEN)
    want = reply(7, model.DONE) + reply(1, model.MADE, b"\0\0\0\1")
    want += b"".join(reply(tag, status) for tag, status in enumerate(statuses, 2))
    store.expect_served("a full store", [data], (want, 0))


def versions_are_as_the_model_has_them(folder):
    chance = random.Random(11)
    for turn in range(10):
        store = StoreFile(folder, 300, 1000, 40)
        for run in range(3):
            frames = []
            for tag in range(150):
                version, key = chance.randrange(chance.choice((1, 4, 12, 41))), b"%d" % chance.randrange(6)
                frames.append(chance.choice((
                    put(tag, key, chance.randbytes(chance.randrange(9)), version), delete(tag, key, version),
                    get(tag, key, version), clone(tag, version), drop(tag, version), info(tag, version), stat(tag))))
            data = b"".join(frames)
            cuts = sorted(chance.sample(range(len(data)), chance.choice((0, 1, 30))))
            store.expect_served(f"turn {turn}, run {run}", [data[i:j] for i, j in zip([0, *cuts], [*cuts, len(data)])])


def the_last_value_of_a_key_counts(folder):
    data = b"".join(put(i, b"a", b"%d" % i) + get(i, b"a") for i in range(300))
    StoreFile(folder, mem=300).expect_served("a key put again and again", [data])


def random_streams_are_answered_over_several_runs(folder):
    chance = random.Random(22)
    for turn in range(25):
        store = StoreFile(folder, chance.choice((4, 5, 8, 30)), chance.choice((200, 100000)), chance.choice((3, 60, 16384)))
        keys, clones = chance.choice((1, 8, 100)), chance.choice((0.02, 0.2, 0.5))
        for number in range(chance.choice((1, 2, 5))):
            frames = drawn_frames(chance, chance.choice((20, 200)), store.model, keys, clones)
            data = b"".join(frames)
            cuts = sorted(chance.sample(range(len(data)), chance.choice((0, 1, 10))))
            pieces = [data[i:j] for i, j in zip([0, *cuts], [*cuts, len(data)])]
            store.expect_served(f"turn {turn}, run {number}", pieces)


CHECKS = [
    another_version_is_unknown,
    the_largest_key_and_value_are_taken_and_no_larger,
    a_clone_has_its_own_pairs_and_its_parent_is_frozen,
    a_deleted_key_is_absent_where_it_was_deleted,
    a_scan_gives_the_pairs_of_a_range,
    versions_of_settings_are_scanned_apart,
    pages_follow_one_another_through_levels,
    the_tree_and_the_counts_are_told,
    the_first_of_several_refusals_is_told,
    versions_are_as_the_model_has_them,
    the_last_value_of_a_key_counts,
    random_streams_are_answered_over_several_runs,
]
