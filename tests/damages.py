"""Damages the bytes of small stores in many ways: a byte, a field, an entry, a record, a block or a whole chain is another.

All of it is drawn from a seed, and written without the program.
"""

import itertools
import random

import formats
import model
import promotions
import rules
from formats import BLOCK, CLONE, DELETE, DROP, PUT
from samples import drawn_changes
from unsound import Part, Stratum, described, laid_out

# Stores to begin from: M, changes, how many keys there are, how many of the changes are clones, entries in a block at most, and the
# format
STORES = [(4, 90, 6, 0.2, 2, 1), (4, 160, 12, 0.3, 4, 2), (8, 150, 30, 0.1, 300, 1), (4, 60, 2, 0.5, 1, 2), (5, 231, 40, 0.05, 7, 2)]


class Base:
    """The bytes of a store, and what is in them."""

    def __init__(self, data):
        self.data, self.contents = data, formats.read(data)
        self.arrays = formats.arrays_of(self.contents.manifest)
        self.blocks = [block for array in self.arrays for block in formats.blocks_of(array)]


def store_bytes(chance, mem, count, keys, clones, most, form):
    """The bytes of a store that took drawn changes, laid out as a store's may be, with so many entries in a block at most.

    Versions are dropped in it; in format 1, which has no marks, one by the last change.
    """
    store = model.Store(mem, 1000, 200)
    store.serve(b"".join(drawn_changes(chance, count, 1, keys, clones, clones / 3 if form == 2 else 0)))
    if form == 1 and len(store.changes) % mem:
        store.make((DROP, max(version for version in store.living() if not store.is_frozen(version))))
    times = max(0, len(store.changes) - 1) // mem
    emptied, journal = promotions.emptied_so_often(store.changes, mem, times), store.changes[times * mem:]
    strata = []
    for number, (horizon, parts) in sorted(emptied.levels.items()):
        sliced = [Part(part.id, part.versions, [part.entries[at:at + most] for at in range(0, len(part.entries), most)])
                  for part in parts]
        strata.append(Stratum(number, horizon, sliced))
    head = formats.new_head(*store.limits, form)._replace(generation=times + 1, region=times % 2)
    return laid_out(strata, emptied.parents, journal, (), chance.random() < 0.5, times % 2, head, changes=emptied.changes,
                    updates=emptied.updates, written=emptied.written, next_array=emptied.next_array, marks=promotions.marks_of(emptied))


def bases(seed):
    chance = random.Random(seed)
    return [Base(store_bytes(chance, *store)) for store in STORES]


def patched(data, place, piece):
    return data[:place] + piece + data[place + len(piece):]


def near(chance, number, most):
    """Another number of a field, up to the most that it may have."""
    drawn = chance.choice((number + 1, number - 1, number + 2, 0, 1, 2 * number, chance.randrange(number + 9), chance.randrange(most + 1),
                           most))
    return min(max(drawn, 0), most)


# A byte

def a_byte(chance, base):
    """A byte of a slot, the journal, the manifest or an array is another."""
    head, chain = base.contents.head, base.contents.chain
    starts = [(base.contents.slot * BLOCK, 40), (BLOCK - base.contents.slot * BLOCK, 40)]
    starts += [(formats.region_start(head.mem, region) * BLOCK, 60) for region in (0, 1)]
    starts += 4 * [(chance.choice(chain) * BLOCK, BLOCK), (chain[-1] * BLOCK, head.length % formats.CHAINED + 4)]
    starts += 8 * [(chance.choice(base.blocks) * BLOCK, chance.choice((12, 80, BLOCK)))]
    start, size = chance.choice(starts)
    place = start + chance.randrange(size)
    old = formats.bytes_at(base.data, place, 1)[0]
    byte = chance.choice((old + 1 & 255, old - 1 & 255, old ^ 1 << chance.randrange(8), 0, 1, 0xa7, chance.randrange(256)))
    return patched(base.data, place, bytes([byte]))


# A field of the superblock or of the manifest

def with_manifest(base, manifest, **fields):
    """The bytes with this manifest in the chain's blocks, or behind the file where it takes more. Fields are of the superblock."""
    contents, spelling = base.contents, formats.spelled(manifest, base.contents.head.form)
    count, end = -(-len(spelling) // formats.CHAINED), -(-len(base.data) // BLOCK)
    chain = [*contents.chain, *range(end, end + count)][:count]
    data = base.data.ljust((max(chain) + 1) * BLOCK, b"\0")
    for block, piece in formats.chained(spelling, chain).items():
        data = patched(data, block * BLOCK, piece)
    head = contents.head._replace(length=len(spelling), **fields)
    return patched(data, contents.slot * BLOCK, formats.head_bytes(head))


def a_field_of_the_superblock(chance, base):
    head = base.contents.head
    name, most = chance.choice((("form", 2 ** 16 - 1), ("generation", 2 ** 64 - 1), ("first", 2 ** 32 - 1), ("length", 2 ** 32 - 1),
                                ("region", 255), ("mem", 2 ** 32 - 1), ("changes_max", 2 ** 32 - 1), ("versions_max", 2 ** 32 - 1)))
    head = head._replace(**{name: near(chance, getattr(head, name), most)})
    return patched(base.data, base.contents.slot * BLOCK, formats.head_bytes(head))


def a_field_of_the_manifest(chance, base):
    manifest = base.contents.manifest
    name, most = chance.choice((("changes", 2 ** 32 - 1), ("updates", 2 ** 32 - 1), ("written", 2 ** 64 - 1), ("compacted", 2 ** 64 - 1),
                                ("next_array", 2 ** 64 - 1)))
    return with_manifest(base, manifest._replace(**{name: near(chance, getattr(manifest, name), most)}))


def a_parent(chance, base):
    parents = list(base.contents.manifest.parents)
    if chance.random() < 0.3:
        parents = parents[:chance.randrange(len(parents) + 1)]
    else:
        at = chance.randrange(len(parents))
        parents[at] = chance.choice((chance.randrange(at + 1), near(chance, parents[at], 2 ** 32 - 1)))
    marks = base.contents.manifest.marks[:len(parents) + 1]
    return with_manifest(base, base.contents.manifest._replace(parents=tuple(parents), marks=marks))


def a_mark(chance, base):
    """A version is marked as dropped, or is not any more, or a mark is no mark; in format 1, which has none, all stays as it is."""
    count = len(base.contents.manifest.parents) + 1
    marks = list(base.contents.manifest.marks or [0] * count)
    for _ in range(chance.randrange(1, 4)):
        marks[chance.choice((0, count - 1, chance.randrange(count)))] = chance.choice((0, 1, 1, 2, 255))
    return with_manifest(base, base.contents.manifest._replace(marks=tuple(marks)))


def with_level(manifest, at, level):
    return manifest._replace(levels=(*manifest.levels[:at], *([level] if level else []), *manifest.levels[at + 1:]))


def a_level(chance, base):
    """A level's number or horizon is another, or the level is gone."""
    manifest = base.contents.manifest
    at = chance.randrange(len(manifest.levels))
    level = manifest.levels[at]
    return with_manifest(base, with_level(manifest, at, chance.choice((
        level._replace(number=near(chance, level.number, 255)), level._replace(horizon=near(chance, level.horizon, 2 ** 32 - 1)),
        level._replace(horizon=max(1, level.horizon - 1)), None))))


def fewer_levels(chance, base):
    """Some levels are gone, and the others have other numbers, the least ones as a rule."""
    levels = [level for level in base.contents.manifest.levels if chance.random() < 0.6]
    numbers = range(1, len(levels) + 1) if chance.random() < 0.7 else sorted(chance.sample(range(1, 23), len(levels)))
    renumbered = tuple(level._replace(number=number) for level, number in zip(levels, numbers))
    return with_manifest(base, base.contents.manifest._replace(levels=renumbered))


def a_later_horizon(chance, base):
    """A level has a greater horizon, and each version that is below it now is in the tag of its nearest ancestor that was."""
    manifest = base.contents.manifest
    at, parents = chance.randrange(len(manifest.levels)), manifest.parents
    level = manifest.levels[at]
    horizon = chance.randrange(level.horizon, len(parents) + 2)
    entering = {version: formats.below(version, level.horizon, parents) for version in range(level.horizon, min(horizon, len(parents) + 1))}
    arrays = [array._replace(versions=(*array.versions, *(version for version, old in entering.items() if old in array.versions)))
              for array in level.arrays]
    return with_manifest(base, with_level(manifest, at, level._replace(horizon=horizon, arrays=tuple(arrays))))


def drawn_array(chance, manifest):
    """The places of a level and of one of its arrays."""
    at = chance.randrange(len(manifest.levels))
    return at, chance.randrange(len(manifest.levels[at].arrays))


def with_array(manifest, at, place, array):
    level = manifest.levels[at]
    arrays = (*level.arrays[:place], *([array] if array else []), *level.arrays[place + 1:])
    return with_level(manifest, at, level._replace(arrays=arrays) if arrays else None)


def a_field_of_an_array(chance, base):
    manifest = base.contents.manifest
    at, place = drawn_array(chance, manifest)
    array = manifest.levels[at].arrays[place]
    name = chance.choice(("id", "entries", "leads", "leads", "least", "least"))
    return with_manifest(base, with_array(manifest, at, place, array._replace(**{name: near(chance, getattr(array, name), 2 ** 32 - 1)})))


def other_versions(chance, versions, others):
    """Another tag: with a version more, a version less, or one in place of another."""
    at, more = chance.randrange(len(versions)), chance.choice(others)
    return chance.choice((sorted({*versions, more}), [*versions[:at], *versions[at + 1:]] or [more],
                          sorted({*versions[:at], *versions[at + 1:], more}), [*versions, more], [*versions[:at], more, *versions[at + 1:]]))


def a_tag(chance, base):
    """A version enters a tag, leaves it, or goes from one to another of the level."""
    manifest = base.contents.manifest
    at, place = drawn_array(chance, manifest)
    level = manifest.levels[at]
    others = [version for array in level.arrays for version in array.versions] + list(range(len(manifest.parents) + 2))
    versions = other_versions(chance, level.arrays[place].versions, others)
    arrays = [array._replace(versions=tuple(versions)) if number == place else
              array._replace(versions=tuple(sorted(set(array.versions) - set(versions))) or array.versions)
              for number, array in enumerate(level.arrays)]
    arrays.sort(key=lambda array: array.versions[0])
    return with_manifest(base, with_level(manifest, at, level._replace(arrays=tuple(arrays))))


def an_extent(chance, base):
    """An array's blocks are others, or stand in another order."""
    manifest = base.contents.manifest
    at, place = drawn_array(chance, manifest)
    array = manifest.levels[at].arrays[place]
    extents = [list(extent) for extent in array.extents]
    way = chance.randrange(4)
    if way == 0:
        chance.shuffle(extents)
    elif way == 1:
        extents = extents[:chance.randrange(1, len(extents) + 1)]
        extents[-1][1] = max(1, extents[-1][1] - chance.randrange(2))
    elif way == 2:
        extents.append([chance.choice((*base.blocks, len(base.data) // BLOCK + 3)), 1])
    else:
        one = chance.choice(extents)
        one[chance.randrange(2)] = near(chance, one[0], 2 ** 32 - 1)
    return with_manifest(base, with_array(manifest, at, place, array._replace(extents=tuple(map(tuple, extents)))))


def two_arrays(chance, base):
    """Two arrays have each other's blocks or tags, or one is gone, or one stands in another level."""
    manifest = base.contents.manifest
    (at, place), (to, other) = drawn_array(chance, manifest), drawn_array(chance, manifest)
    first, second = manifest.levels[at].arrays[place], manifest.levels[to].arrays[other]
    names = chance.choice((("extents",), ("versions",), ("entries", "leads", "least"), ("extents", "entries", "leads", "least"), ("id",)))
    if chance.random() < 0.2:
        return with_manifest(base, with_array(manifest, at, place, None))
    manifest = with_array(manifest, at, place, first._replace(**{name: getattr(second, name) for name in names}))
    return with_manifest(base, with_array(manifest, to, other, second._replace(**{name: getattr(first, name) for name in names})))


# Entries of a block

def other_entry(chance, entry, entries, versions):
    """Another entry in place of one."""
    value = chance.choice((None, b"", b"other", *(found.value for found in entries[:3])))
    return entry._replace(**chance.choice((
        {"version": chance.randrange(versions + 1)}, {"version": near(chance, entry.version, 2 ** 32 - 1)}, {"value": value},
        {"key": chance.choice(entries).key}, {"key": entry.key + b"0"}, {"key": entry.key[:-1] or b"9"})))


def other_entries(chance, entries, versions):
    """Entries with one that is another, one that is gone, one more, or two that changed places."""
    at = chance.randrange(len(entries))
    entry, way = entries[at], chance.randrange(5)
    if way == 0:
        return [*entries[:at], *entries[at + 1:]] or [other_entry(chance, entry, entries, versions)]
    if way == 1:
        return [*entries, other_entry(chance, entry, entries, versions)]
    if way == 2:
        other = chance.randrange(len(entries))
        swapped = list(entries)
        swapped[at], swapped[other] = entries[other], entry
        return swapped
    return [*entries[:at], other_entry(chance, entry, entries, versions), *entries[at + 1:]]


def an_entry(chance, base):
    """A block has other entries, in order as a rule; often the descriptor of its array has the numbers of these, or leads to suit them."""
    manifest = base.contents.manifest
    at, place = drawn_array(chance, manifest)
    array, parents = manifest.levels[at].arrays[place], manifest.parents
    blocks = formats.blocks_of(array)
    number = chance.choice(blocks)
    entries = other_entries(chance, formats.entries_in(formats.block_at(base.data, number)), len(parents) + 1)
    if chance.random() < 0.9:
        entries.sort(key=formats.order)
    block = formats.block_of(entries)
    if len(block) > BLOCK:
        return None
    damaged = Base.__new__(Base)
    damaged.data, damaged.contents = patched(base.data, number * BLOCK, block), base.contents
    if chance.random() < 0.3:
        return damaged.data
    parts = [entries if other == number else formats.entries_in(formats.block_at(base.data, other)) for other in blocks]
    told = described(Part(array.id, array.versions, parts), parents, blocks, {})
    told = told._replace(leads=max(told.leads, -(-told.entries // 2)))
    manifest = with_array(manifest, at, place, told)
    return with_manifest(damaged, manifest._replace(updates=manifest.updates + max(0, told.leads - array.leads)))


# Records, blocks and the chain

def a_record(chance, base):
    """The journal has other changes, or goes on in the other region."""
    head, changes = base.contents.head, [change for change, _ in base.contents.journal]
    region = head.region
    if chance.random() < 0.3:
        region = 1 - region
    else:
        changes = changes[:chance.randrange(len(changes) + 1)]
    versions = len(base.contents.manifest.parents) + 2
    changes += [chance.choice(((PUT, chance.randrange(versions), b"k", b"v"), (DELETE, chance.randrange(versions), b"k"),
                               (CLONE, chance.randrange(versions)), (DROP, chance.randrange(versions)))) for _ in range(chance.randrange(2 * head.mem))]
    piece = b"".join(map(formats.record_of, changes)) + chance.choice((b"\0", b"\0", b"\xa7", b"\xa7\x04", b"\xa7\x01"))
    return patched(base.data, formats.region_start(head.mem, region) * BLOCK, piece)


def a_block(chance, base):
    """A block of an array or of the manifest, or now and then another one, is erased, noise, or what another block is."""
    blocks = 6 * base.blocks + 3 * list(base.contents.chain) + list(range(len(base.data) // BLOCK))
    number, other = chance.choice(blocks), chance.choice(blocks)
    piece = chance.choice((bytes(BLOCK), b"\xff" * BLOCK, chance.randbytes(BLOCK), formats.block_at(base.data, other),
                           formats.block_at(base.data, other)))
    data = patched(base.data, number * BLOCK, piece)
    return patched(data, other * BLOCK, formats.block_at(base.data, number)) if chance.random() < 0.5 else data


def a_chain(chance, base):
    """The manifest lies in other blocks, its links lead elsewhere, or the file ends before it does."""
    contents, end = base.contents, -(-len(base.data) // BLOCK)
    way = chance.randrange(5)
    if way == 0:
        return base.data[:chance.randrange(len(base.data))]
    if way == 1:
        link = chance.choice((0, *contents.chain, *base.blocks, end, 2 ** 32 - 1, chance.randrange(2 ** 32)))
        return patched(base.data, chance.choice(contents.chain) * BLOCK, link.to_bytes(4, "big"))
    spelling = formats.spelled(contents.manifest, contents.head.form)
    if way == 2:
        spelling += bytes(chance.choice((1, formats.CHAINED)))
    count = -(-len(spelling) // formats.CHAINED)
    places = [*range(end, end + 2 * count), *chance.sample(base.blocks, min(len(base.blocks), chance.randrange(2))), *contents.chain]
    chance.shuffle(places)
    data = base.data.ljust((end + 2 * count) * BLOCK, b"\0")
    for block, piece in formats.chained(spelling, places[:count]).items():
        data = patched(data, block * BLOCK, piece)
    return patched(data, contents.slot * BLOCK, formats.head_bytes(contents.head._replace(first=places[0], length=len(spelling))))


DAMAGES = [a_byte, a_byte, a_field_of_the_superblock, a_field_of_the_manifest, a_parent, a_mark, a_level,
           fewer_levels, a_later_horizon, a_field_of_an_array, a_tag, a_tag,
           an_extent, two_arrays, an_entry, an_entry, an_entry, an_entry, a_record, a_block, a_chain]


def is_whole(data):
    """Whether the bytes are of a store with versions and levels, all of whose blocks can be read."""
    if rules.checked(data)[1] not in (model.ENDED, rules.UNSOUND):
        return False
    manifest = formats.read(data).manifest
    return bool(manifest.parents and manifest.levels)


def damaged(chance, stores):
    """What was done to one of the stores, and its bytes; or None where nothing could be done. One in six is damaged twice."""
    base, damage = chance.choice(stores), chance.choice(DAMAGES)
    data, what = damage(chance, base), damage.__name__
    if data is not None and chance.random() < 1 / 6 and is_whole(data):
        again = chance.choice(DAMAGES)
        data, what = again(chance, Base(data)), f"{what}, {again.__name__}"
    return None if data is None else (what.replace("_", " "), data)


def files(seed, count):
    """So many damaged files: what was done to each, and its bytes."""
    chance, stores = random.Random(seed), bases(seed)
    drawn = iter(lambda: damaged(chance, stores), ())
    yield from itertools.islice(filter(None, drawn), count)
