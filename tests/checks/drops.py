"""Drops of versions: what they answer, what a file has of them through checkpoints and openings, and who may not drop what."""

import copy
import random

import formats
import model
import promotions
import replicas
from checks.damage import with_byte
from checks.following import followed, led
from checks.kept import up_to_a_publication, with_kept
from keptfiles import MADE
from model import (
    BLOCK, clone, close_cursor, delete, drop, get, info, next_pairs, open_cursor, page, put, reply, scan, sized, stat)
from program import StoreFile, Talk, bytes_of, complaint, expect, expect_opened, expect_said, expect_sound, expect_told, hexed, in_memory, run, serve
from samples import drawn_over
from tracing import calls_of


def a_dropped_version_is_unknown_and_its_parent_takes_puts_again(folder):
    store = StoreFile(folder, 8, 100, 10)
    store.expect_served("a clone", [put(1, b"a", b"1") + clone(2) + put(3, b"b", b"2", 1)])
    data = hexed("00000009 00000001 0b 00000001") + put(2, b"c", b"3") + get(3, b"b", 1) + hexed("00000009 00000004 0b 00000000")
    want = hexed("00000005 00000001 00  00000005 00000002 00  00000005 00000003 10  00000005 00000004 1b")
    store.expect_served("a drop", [data], (want, 0))
    store.expect_served("a drop, again", [get(3, b"b", 1) + get(4, b"c") + stat(5)], (
        hexed("00000005 00000003 10") + reply(4, model.FOUND, sized(b"3")) + hexed("00000015 00000005 07 00000002 00000003 00000005 00000000"), 0))


def every_command_of_a_dropped_version_is_refused(folder):
    store = StoreFile(folder, 64, 100, 10)
    commands = [put(1, b"a", b"1", 1), delete(2, b"a", 1), get(3, b"a", 1), clone(4, 1), scan(5, version=1), info(6, 1), open_cursor(7, version=1),
                drop(8, 1)]
    store.expect_served("a drop", [put(1, b"a", b"1") + clone(2) + drop(3, 1)])
    store.expect_served("what is asked of it", commands, (b"".join(reply(tag, model.UNKNOWN_VERSION) for tag in range(1, 9)), 0))
    expect("an export", run(["export", store.path, "1"]), (b"", model.NO_VERSION, complaint(model.NO_VERSION)))
    expect("an export of its parent", run(["export", store.path, "0"]), (put(1, b"a", b"1"), 0, b""))
    # sizes come before the version
    store.expect_served("a size", [put(1, b"", b"1", 1), scan(2, limit=0, version=1)], (reply(1, model.KEY_SIZE) + reply(2, model.SCAN_SIZE), 0))


def the_first_of_several_refusals_of_a_drop_is_told(folder):
    store = StoreFile(folder, 64, 6, 4)
    store.expect_served("versions", [clone(1) + clone(2, 1) + clone(3, 2) + drop(4, 3)])
    looks = [drop(1, 9), drop(2, 3), drop(3, 0), drop(4, 1), clone(5, 2), clone(6, 3), clone(7, 9)]
    statuses = [model.UNKNOWN_VERSION, model.UNKNOWN_VERSION, model.ROOT, model.FROZEN, model.VERSION_LIMIT, model.UNKNOWN_VERSION, model.UNKNOWN_VERSION]
    store.expect_served("with room for changes", looks, (b"".join(map(reply, range(1, 8), statuses)), 0))
    store.expect_served("the last changes", [put(1, b"a", b"1", 2) + put(2, b"a", b"2", 2)])
    store.expect_served("without room", [*looks, drop(8, 2)], (b"".join(map(reply, range(1, 9), [*statuses, model.CHANGE_LIMIT])), 0))


def a_drop_is_not_just_any_body(folder):
    store = StoreFile(folder, 64, 100, 10)
    whole = drop(7, 1)[4:]
    bodies = [whole[:length] for length in range(len(whole))] + [whole + b"\0", whole + whole]
    data = b"".join(map(model.frame, bodies))
    store.expect_served("bodies", [clone(1), data], (reply(1, model.MADE, b"\0\0\0\1") + b"".join(
        reply(model.tag_of(body), model.MALFORMED) for body in bodies), 0))
    store.expect_served("the version is there still", [info(1, 1)])


def numbers_of_dropped_versions_are_not_given_again(folder):
    store = StoreFile(folder, 4, 1000, 40)
    for number in range(1, 40):
        store.expect_answers(f"version {number}", [clone(1), put(2, b"k", b"%d" % number, number), drop(3, number), stat(4)])
    store.expect_served("one more", [clone(1) + put(2, b"k", b"v")], (reply(1, model.VERSION_LIMIT) + reply(2, model.DONE), 0))
    expect("versions", (len(store.model.parents), store.model.living()), (40, [0]))


def a_cursor_of_a_dropped_version_goes_on(folder):
    pairs = [(b"%02d" % key, b"v") for key in range(30)]
    for mem in (4, 64):
        store = StoreFile(folder, mem, 10000, 100)
        store.expect_served("pairs", [clone(0), b"".join(put(1, *pair, 1) for pair in pairs), b"".join(put(1, *pair, 1) for pair in pairs)])
        with Talk(f"M {mem}", store) as talk:
            cursor = talk.open(version=1)
            talk.ask(next_pairs(1, cursor, 3))
            talk.ask(drop(2, 1))
            expect("the next pairs", talk.ask(next_pairs(3, cursor, 4)), page(3, pairs[3:7], True)[4:])
            for number in range(4 * mem):
                talk.ask(put(4, b"%d" % number, b"w"))
            expect("the rest", talk.ask(next_pairs(5, cursor)), page(5, pairs[7:])[4:])
            talk.ask(open_cursor(6, version=1))
            talk.ask(close_cursor(7, cursor))
        store.expect_bytes(f"M {mem}")


def a_drop_is_durable_as_a_clone_is(folder):
    commit = ["write", "sync", "write", "sync"]
    store = StoreFile(folder)
    store.expect_served("clones", [clone(1) + clone(2) + clone(3)])
    for name, frames in (("alone", [drop(1, 1)]), ("with others", [drop(2, 2), put(3, b"a", b"1", 3), drop(4, 3), put(5, b"a", b"2")])):
        want, _ = store.model.serve(b"".join(frames))
        out, calls = calls_of(folder, ["serve", store.path], [b"".join(frames)])
        expect(f"{name}, the replies", out, want)
        expect(f"{name}, the order of calls", [call for call, *_ in calls], ["sync", *commit, "output"])
        store.expect_bytes(name)
    expect("all are made", store.model.counts(), (4, 2, 8))


# What a file has of drops

def seen_at_each_change(name, store, frames, seen):
    """Asks these of a run one by one, and looks at the file behind each. A run begins anew now and then."""
    left, runs = list(frames), 0
    while left:
        with Talk(f"{name}, run {runs}", store) as talk:
            for sent in left[:7]:
                talk.ask(sent)
                data = bytes_of(store.path)
                expect_said(name, data, store.model)
                contents = formats.read(data)
                drops = [change[1] for change, _ in contents.journal if change[0] == model.DROP]
                seen.add((any(contents.manifest.marks), bool(drops), len(contents.journal) > store.model.limits[0] and bool(drops)))
        left, runs = left[7:], runs + 1


@in_memory
def marks_are_those_of_the_changes_in_levels(folder):
    chance, seen = random.Random(75), set()
    for mem in (4, 5, 8):
        for turn in range(4):
            store = StoreFile(folder, mem, 10000, 200)
            frames = drawn_over(chance, 14 * mem, store.model, 6, 0.5)
            seen_at_each_change(f"M {mem}, turn {turn}", store, frames, seen)
            expect_told(f"M {mem}, turn {turn}", store.path)
            expect_sound(f"M {mem}, turn {turn}", bytes_of(store.path))
    # marks alone, drops of the journal alone, both, and drops behind a full region, whose marks the open promotion does not write
    expect("what was seen", {(True, False, False), (False, True, False), (True, True, False), (True, True, True)} - seen, set())


@in_memory
def a_drop_behind_the_seal_waits_in_the_journal(folder):
    for many in range(1, 7):
        store = StoreFile(folder, 8, 1000, 20)
        before = [clone(1), put(2, b"a", b"1", 1), clone(3), drop(4, 2), clone(5), *(put(6, b"%d" % key, b"v", 1) for key in range(3))]
        behind = [put(7, b"b", b"2", 1) for _ in range(many - 1)] + [drop(8, 3)]
        store.expect_served(f"{many} behind", [*before, *behind])
        contents = formats.read(bytes_of(store.path))
        while contents.head.generation == 1:
            store.expect_served(f"{many} behind, more", [put(9, b"c", b"3", 1)])
            contents = formats.read(bytes_of(store.path))
        expect(f"{many} behind, marks", contents.manifest.marks, (0, 0, 1, 0))
        expect(f"{many} behind, the journal", (model.DROP, 3) in [change for change, _ in contents.journal], True)
        store.expect_served(f"{many} behind, looks", [info(1, 2), info(2, 3), info(3, 1), get(4, b"a", 1), get(5, b"a", 3)])
        expect_sound(f"{many} behind", bytes_of(store.path))


@in_memory
def drops_of_a_store_of_format_1_are_marked_at_its_first_publication(folder):
    chance = random.Random(76)
    for name in MADE:
        store = with_kept(folder, name)
        if len(store.model.parents) == 1:
            store.expect_answers(f"{name}, a clone", [clone(1)])
        tip = max(version for version in store.model.living() if not store.model.is_frozen(version))
        old = bytes_of(store.path)
        store.expect_answers(f"{name}, a drop", [drop(2, tip), get(3, b"1", tip)])
        expect(f"{name}, one is dropped", store.model.dropped, {tip})
        expect_told(f"{name}, a drop", store.path)
        data = bytes_of(store.path)
        if formats.form_of(data) == 1:
            expect(f"{name}, the manifest", formats.read(data).manifest, formats.read(old).manifest)
        frames = up_to_a_publication(data, store.model)
        store.expect_answers(f"{name}, a publication", frames)
        for _ in range(3):
            store.expect_answers(f"{name}, more", drawn_over(chance, 3 * MADE[name][0], store.model, 9, 0.3))
        data = bytes_of(store.path)
        expect(f"{name}, its format", formats.form_of(data), 2)
        expect(f"{name}, the mark", formats.read(data).manifest.marks[tip], 1)
        expect_said(f"{name}, at last", data, store.model)
        expect_told(f"{name}, at last", store.path)
        expect_sound(f"{name}, at last", data)


def a_journal_with_a_drop_that_no_store_makes_is_damaged(folder):
    store = StoreFile(folder, 4, 100, 10)
    store.expect_served("a clone and a drop", [clone(1) + clone(2, 1) + drop(3, 2)])
    data, path = bytes_of(store.path), store.path
    place = 2 * BLOCK + 2 * len(formats.record_of((model.CLONE, 0)))  # of the drop
    for name, version in (("version 0", 0), ("a version with a child", 1), ("a version that is not there", 3)):
        wrong = with_byte(data, place + 5, version)
        expect(name, expect_opened(name, path, wrong), model.DAMAGED)
        expect(f"{name}, the block", formats.levels_printed(wrong), (b"damaged block 2\n", model.DAMAGED))
    record = formats.record_of((model.DROP, 2))
    twice = data[:place] + record + record + b"\0" + data[place + 2 * len(record) + 1:]
    expect("a drop twice", expect_opened("a drop twice", path, twice), model.DAMAGED)
    for name, change in (("a put", (model.PUT, 2, b"a", b"1")), ("a clone", (model.CLONE, 2))):
        piece = record + formats.record_of(change) + b"\0"
        wrong = data[:place] + piece + data[place + len(piece):]
        expect(f"{name} of a dropped version", expect_opened(name, path, wrong), model.DAMAGED)
    piece = record + formats.record_of((model.PUT, 1, b"a", b"1")) + formats.record_of((model.DROP, 1)) + b"\0"
    right = data[:place] + piece + data[place + len(piece):]
    expect("its parent is changed and dropped", expect_opened("its parent", path, right), 0)


def a_mark_may_be_set_by_hand_where_all_below_are_set(folder):
    store = StoreFile(folder, 4, 100, 10)
    store.expect_served("versions", [clone(1) + clone(2, 1) + put(3, b"a", b"1", 2), clone(4), *(put(5, b"b", b"1", 3) for _ in range(4))])
    data = bytes_of(store.path)
    contents = formats.read(data)
    place = contents.chain[0] * BLOCK + 4 + 36 + 4 * len(contents.manifest.parents)  # of the mark of version 0
    expect("no mark is set", data[place:place + 4], bytes(4))
    # the journal has puts at version 3
    for marks, status in ((b"\0\0\0\1", model.DAMAGED), (b"\0\0\1\0", 0), (b"\0\1\1\0", 0), (b"\0\1\0\0", model.DAMAGED), (b"\1\1\1\1", model.DAMAGED),
                          (b"\0\0\2\0", model.DAMAGED), (b"\0\0\0\0", 0)):
        wrong = data[:place] + marks + data[place + 4:]
        expect(f"marks {marks.hex()}", expect_opened(f"marks {marks.hex()}", store.path, wrong), status)


# Leaders and followers

def drops_are_led_and_followed(folder):
    leader, follower = StoreFile(folder, 4, 100, 10), StoreFile(folder, 4, 100, 10)
    sent = led(leader, [clone(1) + put(2, b"a", b"1", 1) + drop(3, 1) + drop(4, 1) + drop(5, 0) + put(6, b"a", b"2")])
    expect("the drop", hexed("00000009 00000002 04 00000001") in sent, True)
    expect("what is sent", sent, b"".join(replicas.change_frame(number, change) for number, change in enumerate(
        [(model.CLONE, 0), (model.PUT, 1, b"a", b"1"), (model.DROP, 1), (model.PUT, 0, b"a", b"2")])))
    followed(follower, [sent])
    expect("both are alike", bytes_of(follower.path) == bytes_of(leader.path), True)
    receipts = followed(follower, [replicas.change_frame(4, change) for change in ((model.DROP, 0), (model.DROP, 1), (model.DROP, 7))])
    expect("refusals", receipts, b"".join(replicas.receipt(4, replicas.REFUSED, 4, status) for status in (
        model.ROOT, model.UNKNOWN_VERSION, model.UNKNOWN_VERSION)))
    expect("the next run", led(leader, []), sent)


@in_memory
def copies_that_follow_drop_what_their_leader_drops(folder):
    chance = random.Random(77)
    for turn in range(8):
        limits = chance.choice((4, 8, 30)), 10000, 300
        leader, follower = StoreFile(folder, *limits), StoreFile(folder, *limits)
        for _ in range(4):
            followed(follower, [led(leader, drawn_over(chance, 30, leader.model, 8, 0.3))])
            expect(f"turn {turn}, dropped", follower.model.dropped, leader.model.dropped)
        expect(f"turn {turn}, some are", len(leader.model.dropped) > 1, True)
        expect_sound(f"turn {turn}", bytes_of(follower.path))


# All of it together

@in_memory
def random_drops_are_those_of_the_table_over_several_runs(folder):
    chance, seen = random.Random(78), set()
    for turn in range(12):
        store = StoreFile(folder, chance.choice((4, 8, 16)), 100000, chance.choice((12, 300)))
        for number in range(3):
            frames = []
            after = copy.deepcopy(store.model)
            for tag in range(chance.choice((30, 150))):
                frames += drawn_over(chance, 1, after, 5, 0.4)
                after.answer(frames[-1][4:])
                version = chance.randrange(len(after.parents))
                frames.append(chance.choice((get(tag, b"%d" % chance.randrange(5), version), scan(tag, version=version), info(tag, version))))
            seen |= {body[4] for body in model.bodies_of(copy.deepcopy(store.model).serve(b"".join(frames))[0])}
            store.expect_served(f"turn {turn}, run {number}", [b"".join(frames)])
    wanted = {model.UNKNOWN_VERSION, model.ROOT, model.FROZEN, model.FOUND, model.PAIRS, model.PLACE}
    expect("what was seen", wanted - seen, set())


@in_memory
def a_tree_is_dropped_whole_and_grown_again(folder):
    chance = random.Random(79)
    store = StoreFile(folder, 8, 100000, 2000)
    for turn in range(6):
        grown = drawn_over(chance, 200, store.model, 20, 0.3)
        store.expect_served(f"turn {turn}, grown", [b"".join(grown)])
        last_first = [drop(tag, version) for tag, version in enumerate(reversed(store.model.living()))]
        store.expect_served(f"turn {turn}, dropped", [b"".join(last_first)])
        expect(f"turn {turn}, living", store.model.living(), [0])
        store.expect_served(f"turn {turn}, version 0", [put(1, b"turn", b"%d" % turn), scan(2), info(3), stat(4)])
    journal = promotions.opened(bytes_of(store.path), formats.read(bytes_of(store.path)))
    expect("entries stay", sum(len(part.entries) for _, parts in journal.emptied.levels.values() for part in parts) > len(store.model.pairs[0]), True)
    looks = b"".join(get(tag, b"%d" % tag) for tag in range(20))
    expect("what is there still", serve(store.path, [looks]), (*store.model.serve(looks), b""))


CHECKS = [
    a_dropped_version_is_unknown_and_its_parent_takes_puts_again,
    every_command_of_a_dropped_version_is_refused,
    the_first_of_several_refusals_of_a_drop_is_told,
    a_drop_is_not_just_any_body,
    numbers_of_dropped_versions_are_not_given_again,
    a_cursor_of_a_dropped_version_goes_on,
    a_drop_is_durable_as_a_clone_is,
    marks_are_those_of_the_changes_in_levels,
    a_drop_behind_the_seal_waits_in_the_journal,
    drops_of_a_store_of_format_1_are_marked_at_its_first_publication,
    a_journal_with_a_drop_that_no_store_makes_is_damaged,
    a_mark_may_be_set_by_hand_where_all_below_are_set,
    drops_are_led_and_followed,
    copies_that_follow_drop_what_their_leader_drops,
    random_drops_are_those_of_the_table_over_several_runs,
    a_tree_is_dropped_whole_and_grown_again,
]
