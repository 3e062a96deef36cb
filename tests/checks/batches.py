"""Batches: changes whose frames came together become durable together, all or none, and replies to frames that came together leave together."""

import copy
import random
import shutil
import time

import formats
import model
from model import (
    bodies_of, clone, close_cursor, delete, drop, frame, get, info, next_pairs, open_cursor, put, reply, scan, stat)
from program import (
    DEADLINE, StoreFile, bytes_of, close, complaint, expect, expect_alike, expect_sound, expect_told, in_memory, serve, start)
from samples import BATCH_MAX, batch_ends, drawn_over
from tracing import calls_of, traced, transfers_of

# What is served in one piece, and where a fault is met: a batch that is full, one with a clone in it, one with a drop, and two with a
# get between.
FULL = [put(tag, b"%02d" % tag, b"v") for tag in range(BATCH_MAX)]
WITH_CLONE = [put(1, b"a", b"1"), put(2, b"b", b"2"), clone(3), put(4, b"a", b"3", 1), delete(5, b"b", 1)]
WITH_DROP = [put(1, b"a", b"1"), clone(2), put(3, b"a", b"3", 1), drop(4, 1), put(5, b"b", b"2")]
COMMIT = ["write", "sync", "write", "sync"]
CUT_BY_A_GET = [put(1, b"a", b"1"), put(2, b"b", b"2"), get(3, b"a"), put(4, b"a", b"3"), put(5, b"c", b"4")]


def counted(calls):
    """How many calls of each kind stand in this list of calls."""
    return {kind: sum(call == kind for call, *_ in calls) for kind in ("write", "sync", "output")}


def changes_that_come_together_share_a_commit(folder):
    puts = [put(tag, b"%02d" % tag, b"v") for tag in range(40)]
    for name, pieces, batches in (("in one piece", [b"".join(puts)], 3), ("one by one", puts, 40),
                                  ("in two pieces", [b"".join(puts[:7]), b"".join(puts[7:])], 4)):
        store = StoreFile(folder)
        want, _ = store.model.serve(b"".join(puts))
        out, calls = calls_of(folder, ["serve", store.path], pieces)
        expect(f"{name}, the replies", out, want)
        # two writes and two syncs a batch, and the opening's sync
        expect(name, counted(calls), {"write": 2 * batches, "sync": 2 * batches + 1, "output": batches})
        store.expect_bytes(name)


def no_reply_leaves_before_its_change_is_durable(folder):
    store = StoreFile(folder)
    out, calls = calls_of(folder, ["serve", store.path], [b"".join([*FULL, get(90, b"03"), *WITH_CLONE])])
    # the reply to the get would be the seventeenth that waits, so the others leave in front of it
    expect("the order of calls", [call for call, *_ in calls], ["sync", *COMMIT, "output", *COMMIT, "output"])
    outputs = [piece for call, _, piece in calls if call == "output"]
    expect("what is in each write", [len(bodies_of(piece)) for piece in outputs], [16, 6])
    expect("all of it", b"".join(outputs), out)


def replies_to_one_read_leave_in_one_write(folder):
    value, large = b"v" * model.VALUE_MAX, [scan(tag) for tag in range(3)]
    gets = [get(tag, b"%02d" % tag) for tag in range(40)]
    pairs = [put(tag, b"%02d" % tag, value) for tag in range(70)]  # a page of these is more bytes than may wait for another
    for name, before, frames, order, bodies in (
            ("sixteen gets", FULL, gets[:16], ["output"], [16]),
            ("forty gets", FULL, gets, 3 * ["output"], [16, 16, 8]),
            ("puts and gets in turn", [], [put(1, b"a", b"1"), get(2, b"a"), put(3, b"a", b"2"), get(4, b"a")],
             [*COMMIT, *COMMIT, "output"], [4]),
            ("a full batch behind a get", [], [get(90, b"00"), *FULL], ["output", *COMMIT, "output"], [1, 16]),
            ("look-ups and what is no command", FULL, [gets[0], scan(1), info(2), stat(3), open_cursor(4), next_pairs(5, 1), frame(b"?"),
                                                       put(6, b"", b"v"), close_cursor(7, 1)], ["output"], [9]),
            ("gets of the largest values", pairs, gets[:16], ["output"], [16]),
            ("large pages", pairs, [gets[0], large[0], gets[1], large[1], large[2]], 3 * ["output"], [2, 2, 1]),
            ("a frame that is too long", FULL, [gets[0], put(2, b"a", b"1"), b"\xff\xff\xff\xff"], [*COMMIT, "output"], [3])):
        store = StoreFile(folder, 256)
        store.model.serve(b"".join(before))
        expect(f"{name}, before", serve(store.path, [b"".join(before)])[1], model.ENDED)
        want, _ = store.model.serve(b"".join(frames))
        out, calls = calls_of(folder, ["serve", store.path], [b"".join(frames)])
        expect(f"{name}, the replies", out, want)
        expect(f"{name}, the order of calls", [call for call, *_ in calls], ["sync", *order])
        outputs = [piece for call, _, piece in calls if call == "output"]
        expect(f"{name}, what is in each write", [len(bodies_of(piece)) for piece in outputs], bodies)
        store.expect_bytes(name)


def a_client_that_waits_costs_one_read_and_one_write_a_reply(folder):
    store = StoreFile(folder)
    asked = [put(1, b"a", b"1"), get(2, b"a"), scan(3), clone(4), delete(5, b"a"), open_cursor(6), next_pairs(7, 1), stat(8)]
    transfers = transfers_of(folder, store, asked)
    # the end of the input is one read more
    expect("reads and writes", transfers, [*(len(asked) * ["read", "write"]), "read"])
    store.expect_bytes("after it")


@in_memory
def a_stream_is_answered_alike_wherever_it_is_cut(folder):
    chance = random.Random(39)
    fresh = StoreFile(folder, 16, 1000, 100)
    frames = drawn_over(chance, 32, fresh.model, 6, 0.2)
    for place, other in ((3, get(90, b"1")), (9, scan(91)), (17, put(92, b"", b"")), (25, stat(93)), (26, get(94, b"2", 1)),
                         (30, put(95, b"k", b"v", 99)), (33, clone(96, 98)), (37, get(97, b"3"))):
        frames.insert(place, other)
    expect("frames", len(frames), 40)
    stream = b"".join(frames)
    want = copy.deepcopy(fresh.model).serve(stream)[0]
    for cut in range(len(stream)):
        path = shutil.copy(fresh.path, fresh.path + ".cut")
        expect(f"cut at {cut}", serve(path, [stream[:cut], stream[cut:]] if cut else [stream]), (want, 0, b""))
    after = copy.deepcopy(fresh.model)
    after.serve(stream)
    expect_alike("the file at last", formats.opened(bytes_of(path))[1], after)


def unanswered(store, frames):
    """How many changes a store has where the first of these frames are carried out that wait for their replies, sixteen at most."""
    after = copy.deepcopy(store)
    after.serve(b"".join(frames[:BATCH_MAX]))
    return after.counts()[2]


def expect_whole_batches(name, path, allowed):
    """What a file has, whose changes number as many as the batches do that may have been made."""
    left = formats.opened(bytes_of(path))[1]
    changes = left.counts()[2]
    expect(f"{name}, {changes} changes", changes in allowed, True)
    expect_sound(name, bytes_of(path))
    return left


@in_memory
def kills_amid_batches_leave_all_or_none(folder):
    chance, seen = random.Random(40), set()
    for turn in range(200):
        if turn % 10 == 0:
            store = StoreFile(folder, chance.choice((4, 20, 64)), 100000, 16384)
        frames = drawn_over(chance, 60, store.model, 6, 0.2)
        ends = [store.model.counts()[2], *batch_ends(store, frames)]
        child = start(store.path)
        child.stdin.write(b"".join(frames))  # less than the pipe takes at once, so the program reads all of it at once
        time.sleep(chance.random() / 100)
        child.kill()
        child.wait(DEADLINE)
        got = child.stdout.read()
        close(child)
        answered = len(bodies_of(got))
        after = copy.deepcopy(store.model)
        want = b"".join(after.serve(piece)[0] for piece in frames[:answered])
        expect(f"turn {turn}, replies", got[:len(want)] == want, True)
        allowed = [end for end in ends if after.counts()[2] <= end <= unanswered(after, frames[answered:])]
        store.model = expect_whole_batches(f"turn {turn}", store.path, allowed)
        expect_told(f"turn {turn}", store.path)
        seen.add(store.model.counts()[2] > ends[0])
    expect("what was seen", seen, {False, True})


def a_batch_that_fails_is_told_of_once(folder):
    for name, frames in (("a full batch", FULL), ("with a clone", WITH_CLONE), ("with a drop", WITH_DROP), ("cut by a get", CUT_BY_A_GET)):
        statuses = set()
        for call in ("pwrite64", "write", "fdatasync"):
            for number in range(1, 12):
                statuses.add(expect_whole_after_a_fault(f"{name}, {call} {number}", folder, frames, call, number))
        expect(f"{name}, statuses", statuses, {model.ENDED, model.DEVICE, model.SINK})


def expect_whole_after_a_fault(name, folder, frames, call, number):
    """The replies of a run whose call of this number fails, and the file, which has all or none of each batch. The status."""
    store = StoreFile(folder)
    ends = [0, *batch_ends(store, frames)]
    how = f"trace=fsync,fdatasync,{call}", f"inject={call}:error=EIO:when={number}"
    (out, status, said), _ = traced(folder, ["serve", store.path], *how, pieces=[b"".join(frames)])
    answered = sum(body[4] != model.DEVICE_FAULT for body in bodies_of(out))
    want, _ = copy.deepcopy(store.model).serve(b"".join(frames[:answered]))
    if status == model.DEVICE and (call, number) != ("fdatasync", 1):  # that is the opening's, before any reply
        want += reply(model.tag_of(frames[answered][4:]), model.DEVICE_FAULT)
    expect(name, (out, said), (want, complaint(status)))
    if status == model.ENDED:
        expect(f"{name}, all are answered", answered, len(frames))
    for piece in frames[:answered]:
        store.model.serve(piece)
    known = [end for end in ends if end >= store.model.counts()[2]]
    allowed = [end for end in known if end <= unanswered(store.model, frames[answered:])] if status == model.SINK else known[:2]
    store.model = expect_whole_batches(name, store.path, allowed)
    store.expect_answers(f"{name}, again", [get(1, b"a"), get(2, b"03"), *frames])
    return status


CHECKS = [
    changes_that_come_together_share_a_commit,
    no_reply_leaves_before_its_change_is_durable,
    replies_to_one_read_leave_in_one_write,
    a_client_that_waits_costs_one_read_and_one_write_a_reply,
    a_stream_is_answered_alike_wherever_it_is_cut,
    kills_amid_batches_leave_all_or_none,
    a_batch_that_fails_is_told_of_once,
]
