"""Files that an earlier build left, of format 1: they are opened, told, checked and gone on with, and become files of format 2 at their
next publication, at whatever moment a run ends.
"""

import copy
import errno
import random

import formats
import model
import promotions
import replicas
from checks.calls import each_call
from checks.damage import expect_exported, expect_lead
from checks.following import followed
from checks.power import images_of, moments, served_history
from checks.stops import stops_of
from faulty import KILLED, Rig, Script, expect_goes_on, expect_outcome
from keptfiles import LIMITS, MADE, data_of, model_of
from model import BLOCK, clone, close_cursor, delete, get, info, next_pairs, open_cursor, put, scan, stat
from program import StoreFile, Talk, Wrong, bytes_of, expect, expect_kept, expect_said, expect_sound, expect_told, in_memory
from samples import PUBLISHED, store_after
from shim import FOR_EVER, Fault

EARLIER = (1,)  # the formats that the build knew which left these files


def with_kept(folder, name):
    """A store with the bytes of a kept file, and the model after the runs that made it."""
    store = StoreFile(folder, MADE[name][0], *LIMITS)
    store.model = model_of(name)
    with open(store.path, "wb") as file:
        file.write(data_of(name))
    return store


# What is done without a publication

def kept_files_say_what_they_said(folder):
    for name in MADE:
        store = with_kept(folder, name)
        data = bytes_of(store.path)
        expect(f"{name}, its format", formats.form_of(data), 1)
        expect_said(name, data, store.model)
        expect_told(name, store.path)
        expect_sound(name, data)
        expect_exported(name, store.path, formats.opened(data)[1])


def looks(store):
    """Commands that ask all of a store, and change nothing."""
    yield stat(0)
    yield open_cursor(1, version=len(store.parents) - 1)
    for version, pairs in enumerate(store.pairs):
        yield info(2, version)
        yield scan(3, version=version)
        yield from (get(4, key, version) for key in [*sorted(pairs)[:5], b"absent"])
    yield next_pairs(5, 1, 2)
    yield close_cursor(6, 1)


def kept_files_are_looked_at_and_stay_as_they_are(folder):
    for name in MADE:
        store = with_kept(folder, name)
        data = bytes_of(store.path)
        store.expect_answers(f"{name}, looks", list(looks(store.model)))
        expect_lead(name, store.path, data)
        expect(f"{name}, the file's bytes are the same", bytes_of(store.path) == data, True)


def kept_files_are_gone_on_with(folder):
    for name, (mem, _) in MADE.items():
        store = with_kept(folder, name)
        for run in range(3):
            store.expect_served(f"{name}, run {run}", [*ahead(store.model, 2 * mem + 1), clone(1), put(2, b"new", b"1", 0)])
        expect_sound(f"{name}, gone on with", bytes_of(store.path))
        expect(f"{name}, its format", formats.form_of(bytes_of(store.path)), 2)


# The first publication

def ahead(store, count):
    """So many changes that a store takes: deletions and puts at its newest version, and amid them a clone of that."""
    version = len(store.parents) - 1
    for tag in range(count):
        if tag == count // 2:
            yield clone(tag, version)
            version += 1
        elif tag % 4 == 1:
            yield delete(tag, b"%d" % (tag % 17), version)
        else:
            yield put(tag, b"%d" % (tag % 17), b"ahead %d" % tag, version)


def up_to_a_publication(data, store):
    """Changes of a store with these bytes up to the first that publishes in a run which makes them, and one behind that."""
    frames, after = list(ahead(store, 2 * store.limits[0])), copy.deepcopy(store)
    journal = promotions.opened(data, formats.read(data))
    times = journal.times
    for number, sent in enumerate(frames, 1):
        after.answer(sent[4:])
        journal.take(after.changes[-1])
        if journal.times > times:
            return frames[:number + 1]
    raise Wrong("no change publishes")


def expect_old_or_new(name, old, data):
    """The superblock that counts is that of a kept file, or the next one, of format 2. Its format.

    The build that left the file reads it in the first case. In the second it finds the block of that superblock damaged, and does
    not go back to the other one.
    """
    (was_slot, was), (slot, head) = formats.newest(old), formats.newest(data)
    contents, before = formats.read(data), formats.read(old)
    earlier = formats.levels_printed(data, EARLIER)
    if head.form == 1:
        expect(f"{name}, the superblock", (slot, head), (was_slot, was))
        expect(f"{name}, the manifest", (contents.manifest, contents.chain), (before.manifest, before.chain))
        expect(f"{name}, an earlier build", earlier, formats.levels_printed(data))
    else:
        wanted = was._replace(form=2, generation=was.generation + 1, first=head.first, length=head.length, region=1 - was.region)
        expect(f"{name}, the superblock", (slot, head), (1 - was_slot, wanted))
        expect(f"{name}, what was compacted, and the marks", (contents.manifest.compacted, contents.manifest.marks), (0, ()))
        expect(f"{name}, the changes in levels", contents.manifest.changes, before.manifest.changes + was.mem)
        expect(f"{name}, an earlier build", earlier, (b"damaged block %d\n" % slot, model.DAMAGED))
    expect(f"{name}, the old slot", formats.block_at(data, was_slot) == formats.block_at(old, was_slot), True)
    return head.form


def a_kept_file_becomes_one_of_format_2_at_its_first_publication(folder):
    for name in MADE:
        store = with_kept(folder, name)
        old = bytes_of(store.path)
        *frames, publishing, _ = up_to_a_publication(old, store.model)
        with Talk(name, store) as talk:
            for number, sent in enumerate(frames):
                talk.ask(sent)
                data = bytes_of(store.path)
                expect(f"{name}, change {number}, both slots", data[:2 * BLOCK] == old[:2 * BLOCK], True)
                expect(f"{name}, change {number}", expect_old_or_new(name, old, data), 1)
            talk.ask(publishing)
            expect(f"{name}, the publication", expect_old_or_new(name, old, bytes_of(store.path)), 2)
        data = bytes_of(store.path)
        expect_said(f"{name}, published", data, store.model)
        expect_told(f"{name}, published", store.path)
        expect_sound(f"{name}, published", data)
        store.expect_served(f"{name}, published, looks", list(looks(store.model)))


def kept_files_are_led_and_follow_over_a_publication(folder):
    for name in MADE:
        store = with_kept(folder, name)
        old = bytes_of(store.path)
        frames = up_to_a_publication(old, store.model)
        led = expect_lead(name, store.path, old, frames)
        expect(f"{name}, led", expect_old_or_new(f"{name}, led", old, bytes_of(store.path)), 2)
        expect_said(f"{name}, led", bytes_of(store.path), led_model(store, frames))
        following = with_kept(folder, name)
        first = following.model.counts()[2]
        changes = led.changes[-len(frames):]
        followed(following, [b"".join(replicas.change_frame(first + number, change) for number, change in enumerate(changes))])
        expect(f"{name}, followed", expect_old_or_new(f"{name}, followed", old, bytes_of(following.path)), 2)


def led_model(store, frames):
    """The model of a store after these frames."""
    after = copy.deepcopy(store.model)
    after.serve(b"".join(frames))
    return after


@in_memory
def a_stop_amid_the_first_publication_leaves_the_old_store_or_the_new_one(folder):
    rig = Rig(folder)
    for name in MADE:
        store = with_kept(folder, name)
        old = bytes_of(store.path)
        script = Script(store.model, up_to_a_publication(old, store.model))
        whole = rig.serve(None, old, script)
        expect_outcome(name, script, whole, rig.bytes(), model.ENDED)
        left = {rig.bytes()}
        ends = [(stop, KILLED) for stop in stops_of(whole.calls)]
        ends += [(Fault(kind, number, "error", errno.EIO, FOR_EVER), model.DEVICE)
                 for kind, number in each_call(whole.calls, ("file.read", "file.write", "file.fdatasync"))]
        for fault, status in ends:
            ran = rig.serve(fault, old, script)
            expect_outcome(f"{name}, {fault}", script, ran, rig.bytes(), status)
            left.add(rig.bytes())
        found = {expect_old_or_new(f"{name}, state {number}", old, data) for number, data in enumerate(sorted(left))}
        expect(f"{name}, states of both formats", found, {1, 2})
        for number, data in enumerate(sorted(left)):
            expect_goes_on(f"{name}, state {number}", rig, data, script)
            expect_old_or_new(f"{name}, state {number}, gone on with", old, rig.bytes())


@in_memory
def a_cut_of_power_amid_the_first_publication_leaves_the_old_store_or_the_new_one(folder):
    chance = random.Random(71)
    for name in MADE:
        store = with_kept(folder, name)
        old, found = bytes_of(store.path), set()
        history = served_history(folder, name, store, up_to_a_publication(old, store.model))
        for number, answered, synced, pending in moments(history):
            for choice, data in enumerate(images_of(synced, pending, chance)):
                what = f"{name}, call {number}, choice {choice}"
                expect_kept(what, history, answered, data)
                expect_sound(what, data)
                found.add(expect_old_or_new(what, old, data))
        expect(f"{name}, images of both formats", found, {1, 2})
        expect(f"{name}, at last", synced == bytes_of(store.path), True)


def a_store_of_format_1_is_emptied_as_one_of_format_2(folder):
    for number, (mem, frames, text) in enumerate(PUBLISHED):
        new = store_after(folder, mem, [b"".join(frames)])[1]
        store = StoreFile(folder, mem, 100, 10)
        head = formats.new_head(*store.model.limits, form=1)
        with open(store.path, "wb") as file:
            file.write(formats.file_of(0, head, formats.EMPTY, [head.first]))
        expect_told(f"example {number}, at first", store.path)
        store.expect_served(f"example {number}", [b"".join(frames)])
        expect(f"example {number}, levels", expect_told(f"example {number}", store.path), text.lstrip())
        expect(f"example {number}, what is in the file", formats.read(bytes_of(store.path)), new)
        expect(f"example {number}, its format", formats.form_of(bytes_of(store.path)), 2)


CHECKS = [
    kept_files_say_what_they_said,
    kept_files_are_looked_at_and_stay_as_they_are,
    kept_files_are_gone_on_with,
    a_kept_file_becomes_one_of_format_2_at_its_first_publication,
    kept_files_are_led_and_follow_over_a_publication,
    a_stop_amid_the_first_publication_leaves_the_old_store_or_the_new_one,
    a_cut_of_power_amid_the_first_publication_leaves_the_old_store_or_the_new_one,
    a_store_of_format_1_is_emptied_as_one_of_format_2,
]
