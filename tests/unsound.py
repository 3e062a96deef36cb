"""Files of stores that break rules, and that break none, written without the program: what each level holds, and the bytes of that.

For each rule that can be told some levels break it and no rule that is tried before it. Three rules are never told: recovery
refuses what breaks a; g follows from m and a; and l follows from k, which is tried before it, since recovery refuses
descriptors with more leads than updates.
"""

import collections
import itertools

import formats
from formats import BLOCK, Array, Entry, Level, Manifest
from rules import Breach, leads_in

MEM = 4
HEAD = formats.new_head(MEM, 10000, 1000)._replace(generation=2, region=1)

# An array: its number, its tag, and the entries of each of its blocks
Part = collections.namedtuple("Part", "id versions blocks")
# A level, whose arrays are parts
Stratum = collections.namedtuple("Stratum", "number horizon parts")
# A small tree by its parents from version 1 on, and arrays for its versions; `lies` has numbers of descriptors, by places of arrays
Specimen = collections.namedtuple("Specimen", "parents parts lies")


def entries_of(part):
    return [entry for block in part.blocks for entry in block]


def extents_of(blocks):
    """The extents of blocks in this order."""
    extents = []
    for block in blocks:
        if extents and sum(extents[-1]) == block:
            extents[-1] = (extents[-1][0], extents[-1][1] + 1)
        else:
            extents.append((block, 1))
    return tuple(extents)


def described(part, parents, blocks, lies):
    """The descriptor of an array in these blocks. The lies are told in place of what is so."""
    entries = entries_of(part)
    live = formats.live_in(entries, parents)
    least = min(len(live[version]) for version in part.versions)
    told = Array(part.id, len(entries), 0, least, extents_of(blocks), tuple(part.versions))
    return told._replace(leads=len(leads_in(told, entries)))._replace(**lies)


def laid_out(strata, parents, journal=(), lies=(), backwards=False, slot=1, head=HEAD, **told):
    """The bytes of a file with these levels, and as many updates in them as leads. The lies are fields of descriptors, by arrays' numbers.

    The arrays lie one behind the other, or the last block of the last one in front, and the manifest lies behind them.
    Where fields of the manifest are given, it has these.
    """
    first = formats.first_free(head.mem)
    behind = first + sum(len(part.blocks) for stratum in strata for part in stratum.parts)
    places, lies = iter(range(first, behind)[::-1 if backwards else 1]), dict(lies)
    blocks, levels = {}, []
    for number, horizon, parts in strata:
        arrays = []
        for part in parts:
            own = [next(places) for _ in part.blocks]
            blocks.update(zip(own, map(formats.block_of, part.blocks)))
            arrays.append(described(part, parents, own, lies.get(part.id, {})))
        levels.append(Level(number, horizon, tuple(arrays)))
    arrays = [array for level in levels for array in level.arrays]
    updates = sum(array.leads for array in arrays)
    manifest = Manifest(updates + len(parents) + 1, updates, sum(array.entries for array in arrays),
                        max((array.id for array in arrays), default=0) + 1, tuple(parents), tuple(levels))._replace(**told)
    count = -(-len(formats.spelled(manifest, head.form)) // formats.CHAINED)
    return formats.file_of(slot, head, manifest, range(behind, behind + count), blocks, journal)


# Specimens of one level

def says(key, version, value=b"1"):
    return Entry(key, version, value)


def part(tag, *blocks):
    return Part(0, tag, blocks)


def only(tag, *entries):
    """An array of one block."""
    return part(tag, list(entries))


def many(tag, count):
    """An array with so many leads, 200 to a block."""
    entries = [says(b"%06d" % key, tag[0]) for key in range(count)]
    return part(tag, *(entries[at:at + 200] for at in range(0, count, 200)))


A, B = only((0,), says(b"a", 0)), only((1,), says(b"a", 0), says(b"b", 1))
LINE, CHILD, FAN = (0, 1), (0,), (0, 0, 0)


def specimens(number):
    """Levels of this number by what is wrong with them: the rule that is told, the place of the array that is printed, the levels."""
    yield "", "none", None, Specimen(CHILD, (A, B), {})
    yield "", "a third is live", None, Specimen(
        (0, 0), (only((0, 1, 2), says(b"a", 0), says(b"b", 1), says(b"c", 2)),), {})
    yield "", "as many copies as leads, one of them hidden", None, Specimen(
        CHILD, (only((0,), says(b"a", 0), says(b"b", 0)), only((1,), says(b"a", 1, b"2"), says(b"a", 0), says(b"b", 0), says(b"c", 1))), {})
    yield "", "a tag of two branches", None, Specimen((0, 0), (A, only((1, 2), says(b"a", 0), says(b"b", 2), says(b"b", 1))), {})
    yield "", "as many leads as there is room for", None, Specimen((), (many((0,), MEM << number),), {})
    yield "", "versions that see nothing are in no tag", None, Specimen(FAN, (only((1,), says(b"a", 1)),), {})
    yield "m", "two blocks in the wrong order", 0, Specimen((), (part((0,), [says(b"b", 0)], [says(b"a", 0)]),), {})
    yield "m", "an entry twice", 1, Specimen(CHILD, (A, part((1,), [says(b"a", 0), says(b"b", 1)], [says(b"b", 1)])), {})
    yield "m", "versions of a key that ascend", 0, Specimen(CHILD, (part((0, 1), [says(b"a", 0)], [says(b"a", 1)]),), {})
    yield "b", "a version that sees a key is in no tag", None, Specimen(CHILD, (A,), {})
    yield "b", "one that sees a deletion is in no tag", None, Specimen(CHILD, (only((0,), says(b"a", 0, None)),), {})
    yield "c", "a copy is missing", 1, Specimen(CHILD, (A, only((1,), says(b"b", 1))), {})
    yield "c", "a copy is too old", 1, Specimen(LINE, (only((0, 1), says(b"a", 1, b"2"), says(b"a", 0)),
                                                       only((2,), says(b"a", 0), says(b"b", 2))), {})
    yield "c", "a copy has another value", 1, Specimen(CHILD, (A, only((1,), says(b"a", 0, b"2"), says(b"b", 1))), {})
    yield "c", "a copy has no value", 1, Specimen(CHILD, (A, only((1,), says(b"a", 0, None), says(b"b", 1))), {})
    yield "c", "an entry that no version has is live", 0, Specimen(CHILD, (only((1,), says(b"a", 0), says(b"b", 1)),), {})
    yield "c", "a copy of one key stands for that of another", 1, Specimen(
        CHILD, (only((0,), says(b"a", 0), says(b"c", 0)), only((1,), says(b"a", 0), says(b"b", 0), says(b"d", 1), says(b"e", 1))), {})
    yield "d", "a quarter is live", 0, Specimen(FAN, (only((0, 1, 2, 3), *(says(b"%d" % v, v) for v in range(4))),), {})
    yield "d", "a quarter is live in each of two arrays", 0, Specimen(
        8 * (0,), [only(range(first, first + 4), *(says(b"%d" % v, v) for v in range(first, first + 4))) for first in (1, 5)], {})
    yield "e", "two copies beside one lead", 1, Specimen(
        CHILD, (only((0,), says(b"a", 0), says(b"b", 0)), only((1,), says(b"a", 0), says(b"b", 0), says(b"c", 1))), {1: {"leads": 2}})
    yield "f", "an entry of another value is hidden", 1, Specimen(CHILD, (A, only((1,), says(b"a", 1), says(b"a", 0, b"2"))), {})
    yield "f", "an entry is of a version that is not there", 0, Specimen((), (only((0,), says(b"a", 999), says(b"a", 0)),), {})
    yield "f", "an entry is of a version in no tag", 0, Specimen(FAN, (only((1,), says(b"a", 3), says(b"a", 1)),), {})
    yield "h", "one lead more than there is room for", None, Specimen((), (many((0,), (MEM << number) + 1),), {})
    for field, lie in (("entries", 3), ("leads", 1), ("least", 1), ("least", 0)):
        yield "k", f"the descriptor says {field} {lie}", 1, Specimen(
            CHILD, (A, only((1,), says(b"a", 1), says(b"b", 1))), {1: {field: lie}})
    yield "k", "the descriptor has a lead less than there are, and so there are more than updates", 0, Specimen(
        (), (only((0,), says(b"a", 0), says(b"b", 0)),), {0: {"leads": 1}})


def shifted(specimen, first, number):
    """Its arrays where its version 0 is this one, and its first array has this number; and what is said of them falsely."""
    parts = [Part(number + at, tuple(first + version for version in found.versions),
                  [[entry._replace(version=first + entry.version) for entry in block] for block in found.blocks])
             for at, found in enumerate(specimen.parts)]
    return parts, {number + at: lies for at, lies in specimen.lies.items()}


def stacked(*specimens_by_number, backwards=False):
    """The file of these levels, given with their numbers, the shallowest first. None sees what is in another.

    The deepest has the first versions, and each one above it the subtree of a child of version 0, so that no version that
    a deeper level has closed has a lead above it.
    """
    strata, parents, lies, number = [], [], {}, 1
    for level, specimen in reversed(specimens_by_number):
        first = len(parents) + bool(strata)
        parents += ([0] if strata else []) + [first + parent for parent in specimen.parents]
        parts, told = shifted(specimen, first, number)
        strata.insert(0, Stratum(level, len(parents) + 1, parts))
        lies.update(told)
        number += len(parts)
    return laid_out(strata, parents, (), lies, backwards)


# Levels that break rules together

def two_levels(first, second, parents, journal=(), lies=(), **told):
    """Level 1 has the first arrays with their horizon, and level 2 the second ones. Where fields of the manifest are given, it has these."""
    parts = itertools.count(1)
    strata = [Stratum(number, horizon, [found._replace(id=next(parts)) for found in arrays])
              for number, (horizon, arrays) in enumerate((first, second), 1)]
    return laid_out(strata, parents, journal, lies, **told)


def broken_together():
    """Files of two levels that break a rule together: what is told, what it is, and the bytes."""
    own = only((1,), says(b"b", 1))
    late, full = (3, [only((0, 1, 2), says(b"a", 0))]), (3, [many((0, 1, 2), (MEM << 2) + 1)])
    yield Breach("h", 2, 0), "a deeper level with a greater horizon has too many leads", two_levels((2, [own]), full, (0, 0))
    yield Breach("i", 2, 0), "one has leads above it of a version that it closed", two_levels(
        (2, [only((0, 1), says(b"b", 0))]), late, (0, 0))
    yield Breach("i", 2, 0), "a deeper level has a greater horizon", two_levels((2, [own]), late, (0, 0))
    yield None, "both have the same horizon", two_levels((3, [own]), late, (0, 0))
    above = only((0, 1), says(b"b", 0))
    yield Breach("j", 2, 0), "a version with a child below the deeper horizon has a lead above it", two_levels(
        (2, [above]), (2, [only((0, 1), says(b"a", 0))]), (0,))
    yield Breach("j", 2, 0), "so it is, and a descriptor is wrong", two_levels(
        (2, [above]), (2, [only((0, 1), says(b"a", 0))]), (0,), lies={1: {"least": 0}})
    deeper = (3, [only((0, 1, 2), says(b"a", 0))])
    wide = (3, [only((0, 1, 2), says(b"b", 0))])
    yield Breach("j", 2, 0), "it has two such children, one of which was dropped", two_levels(wide, deeper, (0, 0), marks=(0, 1, 0))
    yield None, "both such children were dropped", two_levels(wide, deeper, (0, 0), marks=(0, 1, 1))
    drops = [(formats.DROP, 2), (formats.DROP, 1)]
    yield None, "both were dropped by the journal, which has a change of it then", two_levels(
        wide, deeper, (0, 0), [*drops, (formats.PUT, 0, b"c", b"1")])
    yield Breach("j", 2, 0), "one was dropped by the journal", two_levels(wide, deeper, (0, 0), drops[:1])
    yield Breach("j", 2, 0), "its child is there, and was cloned and that clone dropped", two_levels(
        wide, (3, [only((0, 1, 2), says(b"a", 0))]), (0, 1), marks=(0, 0, 1))
    yield None, "it is dropped with all below it, and has a lead above them", two_levels(
        (3, [only((1, 2), says(b"b", 1))]), deeper, (0, 1), marks=(0, 1, 1))
    yield Breach("b", 1, 0), "a dropped version sees a key and is in no tag", two_levels(
        (3, [only((1,), says(b"b", 1))]), deeper, (0, 1), marks=(0, 1, 1))
    yield None, "its child is not below that horizon", two_levels((2, [above]), (1, [only((0,), says(b"a", 0))]), (0,))
    yield None, "its child was made by the journal", two_levels(
        (1, [only((0,), says(b"b", 0))]), (1, [only((0,), says(b"a", 0))]), (), [(formats.PUT, 0, b"c", b"1"), (formats.CLONE, 0)])
    closed = (2, [above]), (2, [only((0, 1), says(b"a", 0))])
    yield None, "its child was dropped", two_levels(*closed, (0,), marks=(0, 1))
    yield None, "its child was dropped, and the journal has an update", two_levels(
        *closed, (0,), [(formats.PUT, 0, b"c", b"1")], marks=(0, 1))
    yield None, "its child is dropped by the journal", two_levels(*closed, (0,), [(formats.DROP, 1), (formats.PUT, 0, b"c", b"1")])


def doubled(specimen):
    """The same tree with a second child of version 0, for which the same is wrong: what is told is the first."""
    first, second = specimen.parts
    blocks = [[entry._replace(version=2 * entry.version) for entry in block] for block in second.blocks]
    lies = {2: specimen.lies[1]} if specimen.lies else {}
    return Specimen((0, 0), (first, second, Part(0, (2,), blocks)), {**specimen.lies, **lies})


def broken_alone(number):
    """For each specimen what is told of a level of this number, what it is, and the bytes."""
    for rule, what, place, specimen in specimens(number):
        told = Breach(rule, number, 0 if place is None else 1 + place) if rule else None
        yield told, what, stacked((number, specimen))
        if specimen.parents == CHILD and place == 1:
            yield told, f"{what}; and so for another version", stacked((number, doubled(specimen)))


def broken_twice():
    """Files of two levels, each of which breaks a rule or none: what is told, what it is, and the bytes."""
    kinds = {what: (rule, place) for rule, what, place, _ in specimens(1)}
    above, below = ({what: specimen for _, what, _, specimen in specimens(number)} for number in (1, 3))
    for first, second in itertools.product(kinds, repeat=2):
        told = []
        for number, what, before in ((1, first, len(below[second].parts)), (3, second, 0)):
            rule, place = kinds[what]
            told += [Breach(rule, number, 0 if place is None else 1 + before + place)] if rule else []
        yield told, f"above: {first}; below: {second}", stacked((1, above[first]), (3, below[second]))


def blocks_in_order(data):
    """The blocks of a file's arrays: levels ascending, arrays and blocks in the manifest's order."""
    arrays = formats.arrays_of(formats.read(data).manifest)
    return [block for array in arrays for block in formats.blocks_of(array)]


def with_block(data, number, block):
    return data[:number * BLOCK] + block + data[(number + 1) * BLOCK:]


def damaged():
    """Files with one or two blocks of zeros in their arrays, some of which break rules: the block that is told, what it is, and the bytes.

    A block has a lower number than those in front of it.
    """
    found = {what: specimen for _, what, _, specimen in specimens(1)}
    for what in ("none", "two blocks in the wrong order", "a copy is missing", "the descriptor says least 1"):
        data = stacked((1, found[what]), (3, found["an entry twice"]), backwards=True)
        blocks = blocks_in_order(data)
        for first, second in itertools.combinations_with_replacement(blocks, 2):
            wrong = with_block(with_block(data, first, bytes(BLOCK)), second, bytes(BLOCK))
            yield first, f"{what}; blocks {first} and {second} of {blocks}", wrong
