"""Cuts of power: when the file is synced, and what each moment of a run may leave on the device."""

import collections
import copy
import os
import random

import formats
import model
from model import BLOCK, Store, bodies_of, close_cursor, frame, get, info, next_pairs, open_cursor, put, scan, stat
from program import StoreFile, Wrong, bytes_of, expect, expect_kept, expect_opened, expect_sound, serve
from samples import BATCH_MAX, batch_ends, drawn_beside_cursors, drawn_over, folders_of
from tracing import calls_of, traced


def the_file_is_synced_at_each_sync_and_its_folder_once(folder):
    links, files = (os.path.realpath(path) for path in folders_of(folder))
    os.symlink("../files/b.store", os.path.join(links, "link"))
    for path, file, named in (("a.store", os.path.join(os.path.realpath(folder), "a.store"), os.path.realpath(folder)),
                              ("links/link", os.path.join(files, "b.store"), files)):
        made, file_synced, folder_synced = Store(4, 100, 10), ("fdatasync", file, "0"), ("fsync", named, "0")
        got, syncs = traced(folder, ["format", path, "4", "100", "10"])
        expect(f"format {path}", got, (made.line(), 0, b""))
        # the manifest, the superblock and its gate; the folder with the first of them
        expect(f"format {path}, syncs", syncs, [file_synced, folder_synced, file_synced, file_synced])
        puts = [put(tag, b"%d" % tag, b"v") for tag in range(4)]
        together = path == "a.store"
        out, status = made.serve(b"".join(puts))
        got, syncs = traced(folder, ["serve", path], pieces=[b"".join(puts)] if together else puts)
        expect(f"serve {path}", got, (out, status, b""))
        # the opening, and for each batch its records and the gate in front of them
        expect(f"serve {path}, syncs", syncs, [file_synced, folder_synced, *((2 if together else 8) * [file_synced])])
        # one more, for which the journal is emptied; what looks at the store syncs nothing behind the opening, and writes nothing
        fifth = put(9, b"9", b"v")
        expect(f"serve {path}, a fifth put", serve(file, [fifth]), (*made.serve(fifth), b""))
        before = bytes_of(file)
        looks = (get(1, b"1") + get(2, b"9") + scan(3) + info(4) + stat(5) + open_cursor(6) + next_pairs(7, 1) + close_cursor(8, 1))
        out, status = made.serve(looks)
        got, syncs = traced(folder, ["serve", path], pieces=[looks])
        expect(f"serve {path}, looks", got, (out, status, b""))
        expect(f"serve {path}, syncs of looks", syncs, [file_synced, folder_synced])
        expect(f"serve {path}, the file's bytes are the same", bytes_of(file) == before, True)


# What a run writes and syncs, call by call. `synced` has the bytes that were durable when it began, `pending` the writes before
# it that were not. So many changes as `least` were acknowledged before it; None says that no store was there. `made` says how many
# changes are made once so many commands are answered, `ends` how many after each batch, and `stores` what the store is after
# each number of changes. So many commands as `waits` may have been carried out that are not answered.
class History(collections.namedtuple("History", "synced pending calls least made ends stores waits")):
    __slots__ = ()

    def may_have(self, answered):
        """How many changes a crash may leave where so many commands are answered: all or none of each batch that no reply tells of."""
        least = self.made[answered] if answered else self.least or 0
        most = self.made[min(answered + self.waits, len(self.made) - 1)]
        return [end for end in self.ends if least <= end <= most]


def image_of(synced, pending, choose=lambda old, piece: piece):
    """The bytes on the device where of each pending piece, over what was there, this is chosen."""
    data = bytearray(synced)
    for place, piece in pending:
        old = formats.bytes_at(bytes(data), place, len(piece))
        data.extend(bytes(max(0, place + len(piece) - len(data))))
        data[place:place + len(piece)] = choose(old, piece)
    return bytes(data)


def images_of(synced, pending, chance, drawn=3):
    """What a cut of power may leave of pending pieces: all new, all old, gates, noise, or a mix; then each piece by itself."""
    def whole_or_torn(old, piece):
        # a superblock is written with its whole block, so most cuts lie where the fields of a piece are, in front
        cut = chance.randrange(min(len(piece), chance.choice((16, 64, len(piece)))) + 1)
        return chance.choice((old, piece, piece[:cut] + old[cut:], piece[:cut] + chance.randbytes(len(piece) - cut)))

    yield image_of(synced, pending)
    if pending:
        yield image_of(synced, pending, lambda old, piece: old)
        yield image_of(synced, pending, lambda old, piece: bytes([formats.OPEN]) * len(piece))
        yield image_of(synced, pending, lambda old, piece: chance.randbytes(len(piece)))
        yield image_of(synced, pending, lambda old, piece: bytes(chance.choice(pair) for pair in zip(old, piece)))
        for _ in range(drawn):
            yield image_of(synced, pending, whole_or_torn)


def moments(history, left_out=None):
    """The moments of a run: the number of the next call, how many commands are answered, and what is durable and pending then.

    A sync that is left out makes nothing durable.
    """
    synced, pending, output = history.synced, list(history.pending), b""
    for number, (call, place, piece) in enumerate(history.calls):
        yield number, len(bodies_of(output)), synced, list(pending)
        if call == "output":
            output += piece
        elif call == "write":
            pending.append((place, piece))
        elif number != left_out:
            synced, pending = image_of(synced, pending), []
    yield len(history.calls), len(bodies_of(output)), synced, pending


def served_history(folder, name, store, frames, together=False):
    """The history of a run that serves these frames, one by one or in one piece, on a file all of which is durable."""
    synced, ends = bytes_of(store.path), [store.model.counts()[2]]
    ends += batch_ends(store, frames) if together else []
    out, calls = calls_of(folder, ["serve", store.path], [b"".join(frames)] if together else frames)
    expect(name, out == copy.deepcopy(store.model).serve(b"".join(frames))[0], True)
    stores = [copy.deepcopy(store.model)]
    for piece in frames:
        store.model.serve(piece)
        stores.append(copy.deepcopy(store.model))
    made = [after.counts()[2] for after in stores]
    ends, waits = (ends, BATCH_MAX) if together else (sorted(set(made)), 1)
    return History(synced, [], calls, made[0], made, ends, dict(zip(made, stores)), waits)


def a_cut_of_power_loses_nothing_acknowledged(folder):
    chance = random.Random(24)
    seen = set()
    for turn, together in enumerate((False, False, True, True)):
        mem = 40 if turn == 3 else 4
        store, again = StoreFile(folder, mem, 1000, 100), StoreFile(folder, mem, 1000, 100)
        frames = drawn_beside_cursors(chance, 90, store.model, 6, 0.2) if turn == 1 else drawn_over(chance, 50, store.model, 6, 0.2)
        history = served_history(folder, f"turn {turn}", store, frames, together)
        for number, answered, synced, pending in moments(history):
            for choice, data in enumerate(images_of(synced, pending, chance)):
                name = f"turn {turn}, call {number}, choice {choice}"
                changes = expect_kept(name, history, answered, data)
                expect_sound(name, data)
                seen.add((choice, changes - history.made[answered]))
                if chance.random() < 0.01:
                    expect_opened(f"{name}, the program", again.path, data)
        expect(f"turn {turn}, the file at last", synced == bytes_of(store.path), True)
    wanted = {(0, 0), (0, 1), (1, 0), (2, 0), (2, 1), (3, 0), (4, 0), (4, 1), (0, 3), (4, 3)}
    expect("what was seen", sorted(wanted - seen), [])


# Each sync by what it makes durable. On these durability rests: where one of them is left out, some cut of power before the
# next sync loses a change that is acknowledged, or leaves a file that does not open.
NEEDED = {
    "an opening after a kill": "the run answers from what the one before it had not synced",
    "a record": "its flag may be open in front of half a record",
    "the flag of a record": "the change is acknowledged next, while the flag may still be closed",
    "the old flag of a slot": "it may still be open in front of half the new fields",
    "the fields of a superblock": "the new flag may be open in front of half the fields",
    "the flag of a superblock": "the old region is closed next, and with it go its changes where the old superblock still counts",
}
# Where one of these is left out, no cut of power before the next sync loses anything. They are made all the same, since the
# proofs rest on them.
SPARED = {
    "an opening": "all that it reads is durable",
    "arrays and a manifest": "they are in free blocks, and the next sync comes before a flag leads to them",
    "the first flag of the old region": "an opening closes it again, and the next record's sync comes before the new region is full",
}


def role_of(writes, history):
    """What a sync makes durable, by the writes that its run made since the one before."""
    if not writes:
        return "an opening after a kill" if history.pending else "an opening"
    (place, piece), in_front = writes[-1], formats.first_free(4) * BLOCK
    if all(at >= in_front for at, _ in writes):
        return "arrays and a manifest"
    if len(writes) > 1:
        raise Wrong(f"{len(writes)} writes before a sync, the last at {place}")
    opened = piece == bytes([formats.OPEN])
    if place < 2 * BLOCK:
        return "the flag of a superblock" if opened else "the fields of a superblock" if len(piece) > 1 else "the old flag of a slot"
    return "the flag of a record" if opened else "a record" if len(piece) > 1 else "the first flag of the old region"


def roles_of(history):
    """The number of each sync among the calls, with its role."""
    writes = []
    for number, (call, place, piece) in enumerate(history.calls):
        if call == "write":
            writes.append((place, piece))
        elif call == "sync":
            yield number, role_of(writes, history)
            writes = []


def formatted_history(folder):
    """The history of a run that makes a store in a new file; its line counts as its one answer."""
    store = Store(4, 1000, 100)
    out, calls = calls_of(folder, ["format", os.path.join(folder, "new.store"), *map(str, store.limits)])
    expect("format", out, store.line())
    calls = [(call, place, frame(piece) if call == "output" else piece) for call, place, piece in calls]
    return History(b"", [], calls, None, [0, 0], [0], {0: store}, 1)


def killed_history(folder, first, last, chance):
    """The history of a run after one that was killed behind its call `last`: what that one had not synced is pending."""
    _, answered, synced, pending = next(moment for moment in moments(first) if moment[0] == last + 1)
    store, data = StoreFile(folder, 4, 1000, 100), image_of(synced, pending)
    with open(store.path, "wb") as file:
        file.write(data)
    store.model = copy.deepcopy(first.stores[formats.opened(data)[1].counts()[2]])
    frames = [stat(0), *drawn_over(chance, 12, store.model, 6, 0.2)]
    history = served_history(folder, f"after call {last}", store, frames)
    return history._replace(synced=synced, pending=pending, least=first.made[answered], ends=sorted({*first.ends, *history.ends}),
                            stores={**first.stores, **history.stores})


def histories(folder, chance):
    """Runs by name: one that makes a store, one that serves it over publications, and one after each kill of that one."""
    yield "format", formatted_history(folder)
    store = StoreFile(folder, 4, 1000, 100)
    served = served_history(folder, "serve", store, drawn_over(chance, 25, store.model, 6, 0.2))
    yield "serve", served
    syncs = list(roles_of(served))
    for role in ("the flag of a record", "the flag of a superblock"):
        for last in [number - 1 for number, found in syncs if found == role][1:4]:  # not the first, which lies on bytes never written
            yield f"after a kill behind {role}, call {last}", killed_history(folder, served, last, chance)


def images_without(history, left_out, chance):
    """What cuts of power may leave from a sync that is left out up to the next one, each with how many commands are answered."""
    next_sync = min((number for number, _ in roles_of(history) if number > left_out), default=len(history.calls))
    for number, answered, synced, pending in moments(history, left_out):
        if left_out < number <= next_sync:
            yield from ((answered, data) for data in images_of(synced, pending, chance, 200))


def a_loss_without(history, left_out, chance):
    """What some cut of power loses where this sync is left out, or None."""
    try:
        for answered, data in images_without(history, left_out, chance):
            expect_kept("a cut of power", history, answered, data)
    except Wrong as lost:
        return lost
    return None


def a_cut_of_power_without_a_sync_loses_what_rests_on_it(folder):
    chance, met = random.Random(32), collections.Counter()
    for name, history in histories(folder, chance):
        for number, answered, synced, pending in moments(history):
            for data in images_of(synced, pending, chance):
                expect_kept(f"{name}, call {number}, with all syncs", history, answered, data)
                if formats.newest(data):  # a formatting that is cut off leaves no store
                    expect_sound(f"{name}, call {number}, with all syncs", data)
        for number, role in roles_of(history):
            lost = a_loss_without(history, number, chance)
            if lost and role in SPARED:
                raise Wrong(f"{name}, without the sync of {role}, call {number}: {lost}")
            if not lost and role in NEEDED:
                raise Wrong(f"{name}, without the sync of {role}, call {number}: nothing is lost")
            met[role] += 1
    expect("the syncs that were left out", sorted(met), sorted([*NEEDED, *SPARED]))


CHECKS = [
    the_file_is_synced_at_each_sync_and_its_folder_once,
    a_cut_of_power_loses_nothing_acknowledged,
    a_cut_of_power_without_a_sync_loses_what_rests_on_it,
]
