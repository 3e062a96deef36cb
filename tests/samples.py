"""Streams of commands, some of them drawn, and stores to begin from, which the checks of several subjects use."""

import copy
import os

import formats
import promotions
from model import clone, close_cursor, delete, drop, frame, get, info, next_pairs, open_cursor, put, scan, stat
from program import StoreFile, bytes_of

BATCH_MAX = 16  # most changes that become durable together

ABC = put(1, b"a", b"1") + put(2, b"b", b"2") + put(3, b"c", b"3")
SETTINGS = (put(1, b"user/1/name", b"Ann") + put(2, b"user/2/name", b"Bob") + clone(3) + clone(4)
            + put(5, b"user/2/name", b"Rob", 1) + delete(6, b"user/1/name", 2))

# Changes, and what the job `levels` prints of a store of M 4 (or the M that is said) that took them
PUBLISHED = [
    (4, [clone(1), put(2, b"a", b"1", 1), clone(3, 1), clone(4, 2), put(5, b"b", b"1", 3), put(6, b"b", b"1", 3)], """
store generation 2 mem 4 changes 6 of 100 versions 4 of 10
journal changes 2 updates 2
level 1 horizon 4 leads 1 entries 1
array 1 density 1/1 lead 1/1 versions 1-3
stored 3 updates 3 written 1
"""),
    (8, [put(1, b"a", b"1"), put(2, b"b", b"1"), clone(3), clone(4), clone(5), *(put(v, b"c", b"%d" % v, v) for v in (1, 2, 3)),
         *(put(tag, b"d", b"1", 1) for tag in range(9, 13))], """
store generation 2 mem 8 changes 12 of 100 versions 4 of 10
journal changes 4 updates 4
level 1 horizon 4 leads 5 entries 7
array 1 density 2/3 lead 3/3 versions 0-1
array 2 density 3/4 lead 2/4 versions 2-3
stored 11 updates 9 written 7
"""),
    (4, [put(1, b"a", b"1"), clone(2), delete(3, b"a", 1), clone(4, 1), put(5, b"z", b"1", 2), put(6, b"z", b"1", 2)], """
store generation 2 mem 4 changes 6 of 100 versions 3 of 10
journal changes 2 updates 2
level 1 horizon 3 leads 2 entries 3
array 1 density 1/1 lead 1/1 versions 0
array 2 density 1/2 lead 1/2 versions 1-2
stored 5 updates 4 written 3
"""),
    (4, [delete(1, b"x"), *(put(2, key, b"1") for key in (b"a", b"b", b"c", b"d", b"e"))], """
store generation 2 mem 4 changes 6 of 100 versions 1 of 10
journal changes 2 updates 2
level 1 horizon 1 leads 3 entries 3
array 1 density 3/3 lead 3/3 versions 0
stored 5 updates 6 written 3
"""),
    (4, [put(i, b"k%02d" % i, b"%d" % i) for i in range(1, 14)], """
store generation 3 mem 4 changes 13 of 100 versions 1 of 10
journal changes 5 updates 5
level 1 horizon 1 leads 8 entries 8
array 2 density 8/8 lead 8/8 versions 0
stored 13 updates 13 written 12
"""),
    (4, [put(i, b"a", b"%d" % i) for i in range(13)], """
store generation 3 mem 4 changes 13 of 100 versions 1 of 10
journal changes 5 updates 5
level 1 horizon 1 leads 1 entries 1
array 2 density 1/1 lead 1/1 versions 0
stored 6 updates 13 written 2
"""),
    (4, [clone(i) for i in range(1, 6)], """
store generation 2 mem 4 changes 5 of 100 versions 6 of 10
journal changes 1 updates 0
stored 0 updates 0 written 0
"""),
]
PURGED, DISTINCT = PUBLISHED[3], PUBLISHED[4]


def store_after(folder, mem, frames, *limits):
    """A store that took these changes, served one by one in a run, and what is in its file."""
    store = StoreFile(folder, mem, *(limits or (100, 10)))
    store.expect_served("changes", frames)
    return store, formats.read(bytes_of(store.path))


def folders_of(folder):
    """Two new folders, one for links and one for files."""
    links, files = os.path.join(folder, "links"), os.path.join(folder, "files")
    os.mkdir(links)
    os.mkdir(files)
    return links, files


def altered(path, place, piece):
    with open(path, "r+b") as file:
        file.seek(place)
        file.write(piece)


def drawn_changes(chance, count, versions, keys, clones, drops=0, dropped=()):
    """Puts, deletes, clones and drops over a store with so many versions, of which some were dropped; most are accepted."""
    frames, gone = [], set(dropped)
    for tag in range(count):
        version = chance.randrange(versions) if chance.random() < 0.4 else max(0, versions - 1 - chance.randrange(4))
        if version in gone and chance.random() < 0.9:
            version = chance.choice([other for other in range(versions) if other not in gone][-6:])
        if drops and chance.random() < drops:
            frames.append(drop(tag, version))
            gone |= {version} - {0}  # or it is refused, and is left alone from here on
        elif chance.random() < clones:
            frames.append(clone(tag, version))
            versions += 1
        elif chance.random() < 0.3:
            frames.append(delete(tag, b"%d" % chance.randrange(keys), version))
        else:
            frames.append(put(tag, b"%d" % chance.randrange(keys), chance.randbytes(chance.randrange(6)), version))
    return frames


def drawn_over(chance, count, store, keys, clones):
    """Such changes over this store, half as many of them drops as clones."""
    return drawn_changes(chance, count, len(store.parents), keys, clones, clones / 2, store.dropped)


def batch_ends(store, frames):
    """How many changes a store has after each batch that it makes durable, where it is given these frames in one piece.

    A batch is of accepted changes one behind the other, sixteen at most, and no more than the active region has room for. A
    change that meets a full region is made by itself.
    """
    after, data = copy.deepcopy(store.model), bytes_of(store.path)
    journal = promotions.opened(data, formats.read(data))
    batch, ends = 0, []
    for piece in frames:
        before = after.counts()[2]
        after.serve(piece)
        is_made, is_full = after.counts()[2] > before, len(journal.changes) >= journal.mem
        if batch and (not is_made or is_full or batch == BATCH_MAX):
            ends.append(before)
            batch = 0
        if is_made:
            journal.take(after.changes[-1])
            if is_full:
                ends.append(before + 1)
            else:
                batch += 1
    return ends + [after.counts()[2]] if batch else ends


def drawn_frames(chance, count, store, keys, clones):
    """All commands over a store, and bodies that are none."""
    frames, versions = drawn_over(chance, count, store, keys, clones), len(store.parents)
    first = frames[0]
    for tag in range(count):
        version, key = chance.randrange(versions + count // 8), b"%d" % chance.randrange(keys)
        bound, limit = b"%d" % chance.randrange(keys), chance.choice((1, 2, 256, chance.randrange(300)))
        bounds, cursor = (chance.choice((b"", key)), chance.choice((b"", bound))), chance.randrange(1 + count // 16)
        other = chance.choice((get(tag, key, version), get(tag, key, version), info(tag, version), stat(tag),
                               scan(tag, *bounds, limit, version), open_cursor(tag, *bounds, version), next_pairs(tag, cursor, limit),
                               close_cursor(tag, cursor)))
        if chance.random() < 0.1:
            body = bytearray(chance.choice((other, first))[4:])
            body[chance.randrange(4, len(body))] = chance.randrange(256)
            other = frame(bytes(body[:chance.choice((len(body), chance.randrange(len(body))))]))
        frames.insert(chance.randrange(len(frames) + 1), other)
    return frames


def drawn_beside_cursors(chance, count, store, keys, clones):
    """Changes of a store, and cursors at its versions between them: opened, read on and closed, up to the most that may be open."""
    store, frames = copy.deepcopy(store), []
    store.start_run()
    openings = chance.choice((0.05, 0.2, 0.4))
    for tag in range(count):
        draw, open_now = chance.random(), list(store.cursors)
        number = chance.choice([*open_now, 0, store.next_cursor, chance.randrange(store.next_cursor), 2 ** 64 - 1])
        if draw < openings:
            version = chance.randrange(len(store.parents) + (chance.random() < 0.1))
            known = sorted(store.pairs[version]) if version < len(store.parents) else []
            bounds = [b"", b"", *known, *(key + b"\0" for key in known), *(key[:-1] for key in known), b"\xff"]
            frames.append(open_cursor(tag, chance.choice(bounds), chance.choice(bounds), version))
        elif draw < 0.5:
            frames.append(next_pairs(tag, number, chance.choice((1, 1, 2, 256, 256, chance.randrange(300)))))
        elif draw < 0.5 + openings / 3:
            frames.append(close_cursor(tag, number))
        elif draw < 0.95:
            frames += drawn_over(chance, 1, store, keys, clones)
        else:
            frames.append(stat(tag))
        store.answer(frames[-1][4:])
    return frames
