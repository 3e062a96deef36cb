"""The bytes of a store's file in plain Python: how they are opened, what they say of each version, and how they are written.

It is written from docs/FORMATS.md and shares no line with the program. Where a file is damaged, the block that is
named is told as well. The rules of a sound file are in `tests/rules.py`.
"""

import collections
import itertools
import struct

import model
from model import BLOCK, CLONE, DELETE, DROP, PUT, UPDATES, VALUE_MAX, sized

OPEN = 0xa7
RECORD_MAX = 1288
CHAINED = BLOCK - 4  # bytes of a manifest in a block
LEVELS = 22
BLOCKS_END = 2 ** 32 - 1
FORM = ">B8sHQIIBIII"  # the fields of a superblock slot
MAGIC = b"STRATBT1"
SHORTEST = {1: 29, 2: 38}  # bytes of the shortest manifest in each format
NEWEST = 2  # the format that checkpoints write

Head = collections.namedtuple("Head", "gate magic form generation first length region mem changes_max versions_max")
# What is in levels: `parents` has one number for each version from 1 on, `marks` one for each from 0 on, or nothing where
# no version was dropped
Manifest = collections.namedtuple(
    "Manifest", "changes updates written next_array parents levels compacted marks", defaults=(0, ()))
Level = collections.namedtuple("Level", "number horizon arrays")
# `extents` has pairs of a first block and a length
Array = collections.namedtuple("Array", "id entries leads least extents versions")
# Of an array: a value of None stands for Gone
Entry = collections.namedtuple("Entry", "key version value")
# A change in the journal and the block of its gate
Logged = collections.namedtuple("Logged", "change block")
# A file that opens: the newest slot, its fields, the manifest, the blocks of its chain and the journal
Contents = collections.namedtuple("Contents", "slot head manifest chain journal")

EMPTY = Manifest(0, 0, 0, 1, (), ())


class Damaged(Exception):
    """A file or an answer that rests on a damaged block."""

    def __init__(self, block, why):
        super().__init__(f"block {block}: {why}")
        self.block = block


def region_blocks(mem):
    return -(-(RECORD_MAX * mem + 1) // BLOCK)


def first_free(mem):
    return 2 + 2 * region_blocks(mem)


def region_start(mem, region):
    return 2 + region * region_blocks(mem)


def bytes_at(data, place, size):
    """Bytes of a file; those behind its end are 0."""
    return data[place:place + size].ljust(size, b"\0")


def block_at(data, number):
    return bytes_at(data, number * BLOCK, BLOCK)


# Superblocks

def lawful(head, forms=SHORTEST):
    return (head.form in forms and head.generation >= 1 and 4 <= head.mem <= 4096
            and first_free(head.mem) <= head.first < BLOCKS_END and head.length >= SHORTEST[head.form] and head.region <= 1
            and 1 <= head.changes_max <= 2 ** 24 and 1 <= head.versions_max <= 2 ** 14)


def newest(data, forms=SHORTEST):
    """The slot that counts and its fields, or None where none does. A program that knows these formats alone takes no other."""
    heads = [Head(*struct.unpack(FORM, bytes_at(data, slot * BLOCK, 40))) for slot in (0, 1)]
    there = [slot for slot in (0, 1) if heads[slot][:2] == (OPEN, MAGIC)]
    if not there:
        return None
    slot = max(there, key=lambda number: heads[number].generation)
    if not lawful(heads[slot], forms):
        raise Damaged(slot, "a field of the superblock is out of its range")
    return slot, heads[slot]


def form_of(data):
    """The format of the store with these bytes, or None where there is none."""
    found = newest(data)
    return found and found[1].form


def head_bytes(head):
    return struct.pack(FORM, *head)


# Manifests

class Fields:
    """Numbers one behind the other. A ValueError tells that they are none of a manifest."""

    def __init__(self, data):
        self.data, self.place = data, 0

    def number(self, size, least=0, most=2 ** 64):
        piece = self.data[self.place:self.place + size]
        self.place += size
        number = int.from_bytes(piece, "big")
        if len(piece) < size or not least <= number <= most:
            raise ValueError
        return number

    def several(self, size, least=0, most=2 ** 64):
        """Numbers behind their number."""
        return [self.number(size, least, most) for _ in range(self.number(4, least=1))]


def ascend(numbers):
    if not all(a < b for a, b in itertools.pairwise(numbers)):
        raise ValueError


def array_in(fields, next_array):
    number, entries = fields.number(8, 1, next_array - 1), fields.number(4, 1)
    leads, least = fields.number(4, 0, entries), fields.number(4, 0, entries)
    extents = []
    for _ in range(fields.number(4, 1)):
        start = fields.number(4)
        extents.append((start, fields.number(4, 1, BLOCKS_END - start)))
    if any(sum(a) == b[0] for a, b in itertools.pairwise(extents)):
        raise ValueError
    versions = fields.several(4)
    ascend(versions)
    return Array(number, entries, leads, least, tuple(extents), tuple(versions))


def level_in(fields, count, next_array):
    number, horizon = fields.number(1, 1, LEVELS), fields.number(4, 1, count)
    arrays = [array_in(fields, next_array) for _ in range(fields.number(4, 1))]
    ascend([array.versions[0] for array in arrays])
    return Level(number, horizon, tuple(arrays))


def marks_in(fields, parents):
    """The marks of versions with these parents: below a dropped one all were."""
    marks = [fields.number(1, 0, 0)]
    for parent in parents:
        marks.append(fields.number(1, marks[parent], 1))
    return tuple(marks) if any(marks) else ()


def manifest_in(data, form=NEWEST):
    """The manifest with this spelling in a format. A ValueError tells that there is none."""
    fields = Fields(data)
    changes = fields.number(4)
    updates, written = fields.number(4, 0, changes), fields.number(8)
    compacted = fields.number(8) if form == 2 else 0
    next_array = fields.number(8, 1)
    count = fields.number(4, 1, 2 ** 14)
    parents = tuple(fields.number(4, 0, version - 1) for version in range(1, count))
    marks = marks_in(fields, parents) if form == 2 else ()
    levels = tuple(level_in(fields, count, next_array) for _ in range(fields.number(1, 0, LEVELS)))
    ascend([level.number for level in levels])
    if fields.place != len(data):
        raise ValueError
    return Manifest(changes, updates, written, next_array, parents, levels, compacted, marks)


def spelled_array(array):
    return b"".join((
        struct.pack(">QIIII", array.id, array.entries, array.leads, array.least, len(array.extents)),
        *(struct.pack(">II", *extent) for extent in array.extents),
        struct.pack(">I", len(array.versions)), *(struct.pack(">I", version) for version in array.versions)))


def spelled(manifest, form=NEWEST):
    """The bytes of a manifest in a format."""
    count = len(manifest.parents) + 1
    return b"".join((
        struct.pack(">IIQ", *manifest[:3]),
        struct.pack(">Q", manifest.compacted) if form == 2 else b"",
        struct.pack(">QI", manifest.next_array, count),
        *(struct.pack(">I", parent) for parent in manifest.parents),
        bytes(manifest.marks or count) if form == 2 else b"",
        bytes([len(manifest.levels)]),
        *(struct.pack(">BII", level.number, level.horizon, len(level.arrays)) + b"".join(map(spelled_array, level.arrays))
          for level in manifest.levels)))


def chained(data, blocks):
    """These bytes in a chain of these blocks: the bytes of each block."""
    links = [*blocks[1:], 0]
    return {block: (struct.pack(">I", link) + data[i * CHAINED:(i + 1) * CHAINED]).ljust(BLOCK, b"\0")
            for i, (block, link) in enumerate(zip(blocks, links))}


def chain_in(data, first, length):
    """The blocks of the chain that begins there."""
    count = -(-length // CHAINED)
    blocks = [first]
    while True:
        link = struct.unpack(">I", bytes_at(data, blocks[-1] * BLOCK, 4))[0]
        if len(blocks) == count:
            if link:
                raise Damaged(blocks[-1], "the chain goes on")
            return blocks
        if not 0 < link < BLOCKS_END or link in blocks:
            raise Damaged(blocks[-1], "the chain leads nowhere")
        blocks.append(link)


def arrays_of(manifest):
    return [array for level in manifest.levels for array in level.arrays]


def blocks_of(array):
    return [block for start, length in array.extents for block in range(start, start + length)]


def complaints(head, manifest, chain):
    """What an opening refuses in a manifest that has a spelling."""
    arrays = arrays_of(manifest)
    extents = sorted([(block, 1) for block in chain] + [extent for array in arrays for extent in array.extents])
    if any(sum(a) > b[0] for a, b in itertools.pairwise(extents)):
        yield "blocks meet"
    if extents[0][0] < first_free(head.mem):
        yield "a block lies in front of the first free one"
    if len({array.id for array in arrays}) < len(arrays):
        yield "two arrays have one number"
    for level in manifest.levels:
        versions = [version for array in level.arrays for version in array.versions]
        if len(set(versions)) < len(versions):
            yield "tags of a level meet"
        if max(versions) >= level.horizon:
            yield "a tag passes the horizon"
    if len(manifest.parents) + 1 > head.versions_max:
        yield "more versions than the store takes"
    if manifest.changes > head.changes_max:
        yield "more changes than the store takes"
    if sum(array.leads for array in arrays) > manifest.updates:
        yield "more leads than updates"
    if any(array.entries > 2 * array.leads for array in arrays):
        yield "more entries than twice the leads"
    if any(sum(length for _, length in array.extents) > array.entries for array in arrays):
        yield "more blocks than entries"
    if head.generation > manifest.changes + 1:
        yield "a generation that is too great"
    if manifest.next_array > 16384 * manifest.changes + 1:
        yield "an array number that is too great"
    if max(manifest.written, manifest.compacted) > 33554432 * manifest.changes:
        yield "more written than can be"


def manifest_of(data, head):
    """The manifest that the superblock leads to, and the blocks of its chain."""
    chain = chain_in(data, head.first, head.length)
    whole = b"".join(block_at(data, block)[4:] for block in chain)
    if any(whole[head.length:]):
        raise Damaged(head.first, "the last block of the manifest is not filled with zeros")
    try:
        manifest = manifest_in(whole[:head.length], head.form)
    except ValueError:
        raise Damaged(head.first, "these are the bytes of no manifest") from None
    for why in complaints(head, manifest, chain):
        raise Damaged(head.first, why)
    return manifest, tuple(chain)


# Journals

def record_of(change):
    """A change as the journal has it, with its open gate."""
    kind, version, *fields = change
    number = {PUT: 1, DELETE: 2, CLONE: 3, DROP: 4}[kind]
    data = struct.pack(">BBI", OPEN, number, version)
    if fields:
        data += bytes([len(fields[0])]) + fields[0]
    return data + b"".join(map(sized, fields[1:]))


def change_at(at):
    """The change behind a gate, of which `at` gives the bytes from an offset on, or None where none stands there."""
    kind, version, key_size = struct.unpack(">BIB", at(1, 6))
    if kind in (3, 4):
        return CLONE if kind == 3 else DROP, version
    if kind not in (1, 2) or key_size == 0:
        return None
    key = at(7, key_size)
    if kind == 2:
        return DELETE, version, key
    value_size = struct.unpack(">H", at(7 + key_size, 2))[0]
    return None if value_size > VALUE_MAX else (PUT, version, key, at(9 + key_size, value_size))


def region_in(data, mem, region, most):
    """The first changes in a region of the journal, with the blocks of their gates."""
    place = region_start(mem, region) * BLOCK
    end = place + region_blocks(mem) * BLOCK
    logged = []
    while len(logged) < most and place < end and bytes_at(data, place, 1)[0] == OPEN:
        change = change_at(lambda offset, size: bytes_at(data, place + offset, size))
        if change is None or place + len(record_of(change)) > end:
            raise Damaged(place // BLOCK, "behind an open gate stands no change")
        logged.append(Logged(change, place // BLOCK))
        place += len(record_of(change))
    return logged


def journal_in(data, head):
    """The changes in the journal, whether a table takes them or not."""
    logged = region_in(data, head.mem, head.region, head.mem)
    if len(logged) == head.mem:
        later = region_in(data, head.mem, 1 - head.region, head.mem - 1)
        if len(later) == head.mem - 1:
            raise Damaged(region_start(head.mem, 1 - head.region), "both regions have too many changes")
        logged += later
    return logged


# Blocks of arrays

def block_of(entries):
    """The block with these entries."""
    offset, offsets, pieces = 2 + 2 * len(entries), [], []
    for key, version, value in entries:
        offsets.append(struct.pack(">H", offset))
        tail = b"\0" if value is None else b"\1" + sized(value)
        pieces.append(bytes([len(key)]) + key + struct.pack(">I", version) + tail)
        offset += len(pieces[-1])
    return b"".join((struct.pack(">H", len(entries)), *offsets, *pieces)).ljust(BLOCK, b"\0")


def entries_in(block):
    """The entries of a block, or None where no entries have these bytes."""
    count = struct.unpack_from(">H", block)[0]
    place, entries = 2 + 2 * count, []
    if count == 0 or place > BLOCK:
        return None
    for i in range(count):
        if struct.unpack_from(">H", block, 2 + 2 * i)[0] != place or place >= BLOCK:
            return None
        size = block[place]
        head = block[place + 1:place + 6 + size]
        if size == 0 or len(head) < 5 + size:
            return None
        value, place = None, place + 6 + size
        if head[-1] == 1:
            length = int.from_bytes(block[place:place + 2], "big")
            value = block[place + 2:place + 2 + length]
            if place + 2 > BLOCK or len(value) < length or length > VALUE_MAX:
                return None
            place += 2 + length
        elif head[-1] != 0:
            return None
        entries.append(Entry(head[:size], struct.unpack_from(">I", head, size)[0], value))
    if any(block[place:]) or not all(order(a) < order(b) for a, b in itertools.pairwise(entries)):
        return None
    return entries


def order(entry):
    """What entries ascend by."""
    return entry.key, -entry.version


def entries_of(data, array):
    """The entries of an array."""
    entries = []
    for number in blocks_of(array):
        more = entries_in(block_at(data, number))
        if more is None:
            raise Damaged(number, "these are the bytes of no entries")
        entries += more
    return entries


# What a file says

def read(data, forms=SHORTEST):
    """What an opening finds in a file, but for whether the table takes the changes of the journal; None where nothing."""
    found = newest(data, forms)
    if found is None:
        return None
    slot, head = found
    manifest, chain = manifest_of(data, head)
    return Contents(slot, head, manifest, chain, journal_in(data, head))


def live_in(entries, parents):
    """For each version the entries, by key, that are live there: at each key that of the nearest ancestor."""
    own = collections.defaultdict(dict)
    for entry in entries:
        own[entry.version][entry.key] = entry
    live = []
    for version, parent in enumerate((None, *parents)):
        live.append({**(live[parent] if parent is not None else {}), **own[version]})
    return live


def dropped_in(manifest):
    """The versions that were dropped before the journal was last emptied."""
    return {version for version, mark in enumerate(manifest.marks) if mark}


def below(version, horizon, parents):
    """The nearest version on the way to the root, itself included, that stands below a horizon."""
    while version >= horizon:
        version = parents[version - 1]
    return version


def tables_of(data, contents, unread=None):
    """The pairs of each version by the levels: the shallowest level with a live entry of a key says what it has.

    One that was dropped has none, whatever its entries say. Where a set `unread` is given, it gets the versions that ask an array with
    a damaged block, which counts as empty.
    """
    parents, dropped = contents.manifest.parents, dropped_in(contents.manifest)
    tables = [{} for _ in range(len(parents) + 1)]
    for level in reversed(contents.manifest.levels):
        for array in level.arrays:
            asking = [version for version in range(len(tables))
                      if version not in dropped and below(version, level.horizon, parents) in array.versions]
            try:
                live = live_in(entries_of(data, array), parents)
            except Damaged:
                if unread is None:
                    raise
                unread.update(asking)
                continue
            for version in asking:
                tables[version].update({entry.key: entry.value for entry in live[version].values()})
    return [{key: value for key, value in table.items() if value is not None} for table in tables]


def store_at_checkpoint(contents):
    """The store that a file had when its journal was last emptied, but for the pairs of its versions."""
    head, manifest = contents.head, contents.manifest
    store = model.Store(head.mem, head.changes_max, head.versions_max)
    store.emptied = (manifest.changes, manifest.updates)
    store.parents = [None, *manifest.parents]
    store.dropped = dropped_in(manifest)
    store.pairs = [{} for _ in store.parents]
    return store


def take_journal(store, journal):
    """Makes the changes of a journal. A Damaged tells of one that the store does not take."""
    for change, block in journal:
        if store.refusal(*change[:2]) is not None:
            raise Damaged(block, "the store does not take this change")
        store.make(change)


def store_of(data, contents):
    """The store that a file has: its levels, and the changes of its journal made on them.

    Its set `unread` has the versions that ask an array with a damaged block.
    """
    store = store_at_checkpoint(contents)
    store.unread = set()
    store.pairs = tables_of(data, contents, store.unread)
    take_journal(store, contents.journal)
    store.unread -= store.dropped
    return store


def opened(data):
    """How a serving run of a file with these bytes begins: its status, and the store where it has one."""
    try:
        contents = read(data)
        if contents is None:
            return model.NOT_A_STORE, None
        return model.ENDED, store_of(data, contents)
    except Damaged:
        return model.DAMAGED, None


# What the job `levels` prints

def listed(versions):
    """Versions as their runs of following numbers."""
    runs = []
    for version in versions:
        if runs and runs[-1][1] == version - 1:
            runs[-1][1] = version
        else:
            runs.append([version, version])
    return ",".join(str(first) if first == last else f"{first}-{last}" for first, last in runs)


def recounted(data, contents):
    """The same contents, but that what they say of arrays is counted in the blocks and not taken from the manifest."""
    manifest, tree = contents.manifest, contents.manifest.parents
    levels = [level._replace(arrays=tuple(array_recounted(data, array, tree) for array in level.arrays)) for level in manifest.levels]
    return contents._replace(manifest=manifest._replace(levels=tuple(levels)))


def array_recounted(data, array, parents):
    entries = entries_of(data, array)
    live = live_in(entries, parents)
    return array._replace(entries=len(entries), leads=sum(entry.version in array.versions for entry in entries),
                          least=min(len(live[version]) for version in array.versions))


def levels_text(contents):
    """The lines that the job prints of a file with these contents."""
    head, manifest, journal = contents.head, contents.manifest, contents.journal
    updates = sum(change[0] in UPDATES for change, _ in journal)
    versions = len(manifest.parents) + 1 + sum(change[0] == CLONE for change, _ in journal)
    yield (f"store generation {head.generation} mem {head.mem} changes {manifest.changes + len(journal)} of {head.changes_max}"
           f" versions {versions} of {head.versions_max}")
    yield f"journal changes {len(journal)} updates {updates}"
    for level in manifest.levels:
        leads, entries = (sum(getattr(array, what) for array in level.arrays) for what in ("leads", "entries"))
        yield f"level {level.number} horizon {level.horizon} leads {leads} entries {entries}"
        for array in level.arrays:
            yield (f"array {array.id} density {array.least}/{array.entries} lead {array.leads}/{array.entries}"
                   f" versions {listed(array.versions)}")
    stored = sum(array.entries for array in arrays_of(manifest)) + updates
    yield f"stored {stored} updates {manifest.updates + updates} written {manifest.written}"


def levels_printed(data, forms=SHORTEST):
    """What the job `levels` of a program that knows these formats prints of a file with these bytes, and its status."""
    try:
        contents = read(data, forms)
        if contents is None:
            return b"", model.NOT_A_STORE
        store_of(data, contents)
        return "".join(f"{line}\n" for line in levels_text(contents)).encode(), model.ENDED
    except Damaged as damaged:
        return b"damaged block %d\n" % damaged.block, model.DAMAGED


# Writing a file

def file_with(slot, head, spelling, chain, blocks=(), journal=()):
    """A file whose slot leads to these bytes of a manifest in this chain, with these blocks of arrays and these changes."""
    head = head._replace(first=chain[0], length=len(spelling))
    pieces = {slot * BLOCK: head_bytes(head)}
    for number, block in {**chained(spelling, chain), **dict(blocks)}.items():
        pieces[number * BLOCK] = block
    pieces[region_start(head.mem, head.region) * BLOCK] = b"".join(map(record_of, journal))
    data = bytearray(max(place + len(piece) for place, piece in pieces.items()))
    for place, piece in pieces.items():
        data[place:place + len(piece)] = piece
    return bytes(data)


def file_of(slot, head, manifest, chain, blocks=(), journal=()):
    """The same of a manifest."""
    return file_with(slot, head, spelled(manifest, head.form), chain, blocks, journal)


def new_head(mem, changes_max, versions_max, form=NEWEST):
    return Head(OPEN, MAGIC, form, 1, first_free(mem), SHORTEST[form], 0, mem, changes_max, versions_max)


def unpublished(store):
    """The file of a store that never emptied its journal, where no run on it was cut off."""
    head = new_head(*store.limits)
    return file_of(0, head, EMPTY, [head.first], (), store.changes)


def lay(path, limits, generation):
    """Writes a superblock of a generation into its slot of a file, and nothing else."""
    with open(path, "r+b") as file:
        file.seek((generation - 1) % 2 * BLOCK)
        file.write(head_bytes(new_head(*limits)._replace(generation=generation)))
