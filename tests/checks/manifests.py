"""Manifests: each way in which one is refused, the rules of a sound file, and chains of blocks."""

import os
import struct

import formats
import rules
from model import BLOCK, get, put
from program import Wrong, bytes_of, complaint, expect, expect_alike, expect_opened, serve

# A file with two levels for the refusals of its manifest, written by the model

MEM = 4
ENTRIES = {block: [formats.Entry(b"%d" % key, version, b"v") for key in range(2)] for block, version in ((7, 0), (8, 1), (10, 0))}
HEAD = formats.new_head(MEM, 12, 4)._replace(generation=3, region=1)
TREE = formats.Manifest(12, 6, 6, 6, (0, 1, 1), (
    formats.Level(1, 4, (formats.Array(4, 2, 2, 2, ((7, 1),), (0,)), formats.Array(5, 2, 2, 2, ((8, 1),), (1, 2, 3)))),
    formats.Level(3, 1, (formats.Array(1, 2, 2, 2, ((10, 1),), (0,)),))))
FIRST, NEXT, DEEP = (0, 0), (0, 1), (1, 0)  # the arrays, by level and place


def with_level(tree, place, **changes):
    levels = list(tree.levels)
    levels[place] = levels[place]._replace(**changes)
    return tree._replace(levels=tuple(levels))


def with_array(place, tree=TREE, **changes):
    number, within = place
    arrays = list(tree.levels[number].arrays)
    arrays[within] = arrays[within]._replace(**changes)
    return with_level(tree, number, arrays=tuple(arrays))


def at_the_bounds():
    """Manifests that an opening takes, each at a bound or beside one."""
    yield "as it is", HEAD, TREE
    yield "the generation", HEAD._replace(generation=13), TREE
    yield "the next array", HEAD, TREE._replace(next_array=16384 * 12 + 1)
    yield "what was written", HEAD, TREE._replace(written=33554432 * 12)
    yield "what was written, nothing", HEAD, TREE._replace(written=0)
    yield "what was compacted", HEAD, TREE._replace(compacted=33554432 * 12)
    yield "format 1", HEAD._replace(form=1), TREE
    yield "one version in format 1", HEAD._replace(form=1), formats.EMPTY._replace(changes=2)
    yield "twice the leads", HEAD, with_array(FIRST, leads=1, least=1)
    yield "no entries live", HEAD, with_array(NEXT, least=0)
    yield "as many blocks as entries", HEAD, with_array(FIRST, extents=((7, 1), (11, 1)))
    yield "descending extents", HEAD, with_array(FIRST, extents=((11, 1), (7, 1)))
    yield "far blocks", HEAD, with_array(FIRST, extents=((2 ** 32 - 2, 1), (7, 1)))
    yield "an array in front of the first", HEAD, with_array(FIRST, id=1, tree=with_array(DEEP, id=4))
    yield "the deepest level", HEAD, with_level(TREE, 1, number=22)
    yield "no level", HEAD, TREE._replace(levels=())
    yield "one version", HEAD, formats.EMPTY._replace(changes=2)
    for marks in ((0, 0, 0, 1), (0, 0, 1, 1), (0, 1, 1, 1)):
        yield f"marks {marks}", HEAD, TREE._replace(marks=marks)


def refused_spellings():
    """Bytes that are of no manifest, each by one fault."""
    yield "more updates than changes", TREE._replace(updates=13)
    yield "no next array", TREE._replace(next_array=0, levels=())
    yield "a parent that is its child", TREE._replace(parents=(0, 2, 1))
    yield "a parent that comes later", TREE._replace(parents=(0, 3, 1))
    yield "version 0 dropped", TREE._replace(marks=(1, 1, 1, 1))
    yield "a living child of a dropped version", TREE._replace(marks=(0, 1, 1, 0))
    yield "a mark of 2", TREE._replace(marks=(0, 0, 0, 2))
    yield "a mark too few", TREE._replace(marks=(0, 0, 0))
    yield "a mark too many", TREE._replace(marks=(0, 0, 0, 0, 0))
    yield "level 0", with_level(TREE, 0, number=0)
    yield "level 23", with_level(TREE, 1, number=23)
    yield "a level twice", with_level(TREE, 1, number=1)
    yield "levels that descend", TREE._replace(levels=TREE.levels[::-1])
    yield "no horizon", with_level(TREE, 1, horizon=0)
    yield "a horizon past the versions", with_level(TREE, 0, horizon=5)
    yield "a level without arrays", with_level(TREE, 1, arrays=())
    yield "tags that descend", with_level(TREE, 0, arrays=TREE.levels[0].arrays[::-1])
    yield "an array 0", with_array(DEEP, id=0)
    yield "an array that comes next", with_array(NEXT, id=6)
    yield "no entries", with_array(DEEP, entries=0, leads=0, least=0)
    yield "more leads than entries", with_array(FIRST, entries=1, leads=2, least=1)
    yield "more live than entries", with_array(FIRST, least=3)
    yield "no extents", with_array(DEEP, extents=())
    yield "an empty extent", with_array(DEEP, extents=((10, 0),))
    yield "an extent past the last block", with_array(DEEP, extents=((2 ** 32 - 1, 1),))
    yield "a long extent past the last block", with_array(DEEP, extents=((10, 2 ** 32 - 10),))
    yield "extents that touch", with_array(FIRST, extents=((11, 1), (12, 1)))
    yield "no tag", with_array(DEEP, versions=())
    yield "a tag with a version twice", with_array(NEXT, versions=(1, 1, 2))
    yield "a tag that descends", with_array(NEXT, versions=(1, 3, 2))


def refused_openings():
    """Manifests that are spelled right and break one rule of an opening."""
    for name, tree in (
        ("arrays that meet", with_array(NEXT, extents=((7, 1),))), ("an array and the chain", with_array(NEXT, extents=((9, 1),))),
        ("an array that meets itself", with_array(FIRST, extents=((7, 1), (11, 1), (7, 1)), entries=3, tree=TREE)),
        ("a run that reaches an array", with_array(FIRST, extents=((7, 2),))),
        ("an array within a run", with_array(NEXT, extents=((12, 1),), tree=with_array(FIRST, extents=((11, 2),)))),
        ("a block of the journal", with_array(NEXT, extents=((5, 1),))), ("a superblock", with_array(DEEP, extents=((0, 1),))),
        ("two arrays with one number", with_array(DEEP, id=4)), ("tags that meet", with_array(FIRST, versions=(0, 2))),
        ("a tag past the horizon", with_array(DEEP, versions=(0, 1))), ("leads", TREE._replace(updates=5)),
        ("entries", with_array(FIRST, leads=0, least=0)), ("blocks", with_array(FIRST, extents=((7, 1), (11, 2)))),
        ("the next array", TREE._replace(next_array=16384 * 12 + 2)), ("what was written", TREE._replace(written=33554432 * 12 + 1)),
        ("what was written, all", TREE._replace(written=2 ** 64 - 1)), ("the next array, all", TREE._replace(next_array=2 ** 64 - 1)),
        ("what was compacted", TREE._replace(compacted=33554432 * 12 + 1)),
    ):
        yield name, HEAD, tree
    yield "versions", HEAD._replace(versions_max=3), TREE
    yield "changes", HEAD._replace(changes_max=11), TREE
    yield "the generation", HEAD._replace(generation=14), TREE


def expect_refused(name, path, data, block):
    """The model names the block, and the program refuses the file and leaves it as it is."""
    try:
        formats.read(data)
    except formats.Damaged as damaged:
        expect(f"{name}, the model", damaged.block, block)
    else:
        raise Wrong(f"{name}: the model takes it")
    expect_opened(name, path, data)


def each_refusal_of_a_manifest_has_a_file(folder):
    path, blocks = os.path.join(folder, "a.store"), {block: formats.block_of(entries) for block, entries in ENTRIES.items()}
    for name, head, tree in at_the_bounds():
        expect(name, expect_opened(name, path, formats.file_of(1, head, tree, [9], blocks)), 0)
    for name, tree in refused_spellings():
        expect_refused(name, path, formats.file_of(1, HEAD, tree, [9], blocks), 9)
    for name, head, tree in refused_openings():
        expect_refused(name, path, formats.file_of(1, head, tree, [9], blocks), 9)
    for form, other in ((1, 2), (2, 1)):
        wrong = formats.file_with(1, HEAD._replace(form=other), formats.spelled(TREE, form), [9], blocks)
        expect_refused(f"format {form} under {other}", path, wrong, 9)
    for head in (HEAD._replace(form=0), HEAD._replace(form=3)):
        expect_refused(f"format {head.form}", path, formats.file_with(1, head, formats.spelled(TREE), [9], blocks), 1)
    spelling = formats.spelled(TREE)
    # numbers of levels, versions and arrays, and the length
    for name, place, piece in (("no versions", 32, bytes(4)), ("versions", 32, struct.pack(">I", 16385)),
                               ("a mark", 49, b"\2"), ("a mark of version 0", 48, b"\1"),
                               ("levels", 52, b"\x17"), ("levels, too few", 52, b"\1"), ("levels, too many", 52, b"\3")):
        wrong = spelling[:place] + piece + spelling[place + len(piece):]
        data = formats.file_with(1, HEAD, wrong, [9], blocks)
        expect_refused(name, path, data, 9)
    for name, wrong in (("a byte behind it", spelling + b"\0"), ("a byte less", spelling[:-1]), ("cut short", spelling[:38])):
        expect_refused(name, path, formats.file_with(1, HEAD, wrong, [9], blocks), 9)


def unsound_files():
    """Files that open: the rules of a sound one that each breaks, its manifest, and the entries in blocks that it has otherwise."""
    def entry(key, version):
        return formats.Entry(b"%d" % key, version, b"v")

    above, own, deep = (ENTRIES[block] for block in (7, 8, 10))
    wide = with_array(DEEP, versions=(0, 1, 2, 3), tree=with_level(TREE, 1, horizon=4))
    later = with_level(with_array(NEXT, versions=(2,), tree=wide), 0, horizon=3)
    several = [own[0], above[1], *(entry(key, 2) for key in range(2, 7))]
    yield "", TREE, {}
    yield "b", with_array(NEXT, versions=(1, 2)), {}
    yield "c", with_array(NEXT, entries=1, leads=1, least=1), {8: own[:1]}
    yield "d", with_array(NEXT, entries=7, leads=6, least=2)._replace(updates=12), {8: several}
    yield "cefk", with_array(NEXT, entries=3, leads=2, least=3), {8: [*above, entry(2, 1), entry(3, 0)]}
    yield "cf", with_array(NEXT, entries=3, leads=2, least=3), {8: [*own, entry(2, 0)]}
    yield "cgm", with_array(NEXT, least=1, extents=((8, 1), (11, 1))), {8: own[:1], 11: own[:1]}
    yield "ch", with_array(FIRST, entries=9, leads=9, least=9)._replace(updates=13, changes=13), {7: [entry(key, 0) for key in range(9)]}
    yield "i", with_level(later, 0, arrays=later.levels[0].arrays[1:]), {8: [entry(0, 2), entry(1, 2)]}
    yield "j", wide, {}
    for change in ({"entries": 3}, {"leads": 1}, {"least": 1}):
        yield "k", with_array(FIRST, **change), {}
    yield "ckl", with_array(FIRST, entries=3), {7: [*above, entry(2, 0)]}
    yield "m", with_array(DEEP, extents=((11, 1), (10, 1))), {10: deep[:1], 11: deep[1:]}


def the_rules_of_a_sound_file_are_checked(folder):
    for letters, tree, changed in unsound_files():
        blocks = {block: formats.block_of(entries) for block, entries in {**ENTRIES, **changed}.items()}
        data = formats.file_of(1, HEAD._replace(changes_max=100), tree, [9], blocks)
        told = {breach.rule for breach in rules.breaches(data, formats.read(data))}
        expect(f"rules {letters}", "".join(sorted(told)), letters)


def chains_of_a_manifest_are_followed(folder):
    for form, versions in ((1, 3000), (2, 2400)):
        expect_chain_followed(os.path.join(folder, "a.store"), form, versions)


def expect_chain_followed(path, form, versions):
    """A manifest with so many versions, which takes three blocks in this format, is read where its links and its fill are right."""
    head = formats.new_head(MEM, 100000, 16384, form)
    tree = formats.EMPTY._replace(changes=4000, parents=tuple(version // 2 for version in range(versions - 1)))
    chain = [12, 7, 20]
    data = formats.file_of(0, head, tree, chain)
    expect(f"a chain, format {form}", expect_opened("a chain", path, data), 0)
    for name, block, link in (("an end before the last", 7, 0), ("a last that goes on", 20, 30), ("a circle", 7, 12), ("itself", 7, 7),
                              ("no block", 7, 2 ** 32 - 1), ("the first itself", 12, 12)):
        wrong = bytearray(data)
        wrong[block * BLOCK:block * BLOCK + 4] = struct.pack(">I", link)
        expect_refused(name, path, bytes(wrong), block)
    for block in (1, 5):
        expect_refused(f"over block {block}", path, formats.file_of(0, head, tree, [12, block, 20]), 12)
    left = 20 * BLOCK + 4 + len(formats.spelled(tree, form)) - 2 * formats.CHAINED
    for place in (left, 21 * BLOCK - 1):
        expect_refused(f"filled at {place}", path, (data[:place] + b"\1" + data[place + 1:]).ljust(21 * BLOCK, b"\0"), 12)


def long_chain(block, form):
    """A file of 2,100 versions, whose manifest lies in blocks 6, 20 and 9, and whose only array has `a` at version 0 in this block."""
    head = formats.new_head(MEM, 100000, 16384, form)._replace(generation=2, region=1)
    level = formats.Level(1, 1, (formats.Array(1, 1, 1, 1, ((block, 1),), (0,)),))
    tree, chain = formats.Manifest(2100, 1, 1, 2, (0,) * 2099, (level,)), [6, 20, 9]
    blocks = {} if block in chain else {block: formats.block_of([formats.Entry(b"a", 0, b"1")])}
    return formats.file_of(1, head, tree, chain, blocks)


def a_long_chain_is_followed_by_a_longer_one(folder):
    for form in (1, 2):
        expect_longer_chain(os.path.join(folder, "a.store"), form)


def expect_longer_chain(path, form):
    """The next manifest behind a long one of this format lies in the lowest free blocks, and is of format 2."""
    for block in (6, 20, 9, 5):
        expect_refused(f"an array in block {block}", path, long_chain(block, form), 6)
    for block in (7, 19):
        expect(f"an array in block {block}", expect_opened(f"an array in block {block}", path, long_chain(block, form)), 0)
    data = long_chain(7, form)
    with open(path, "wb") as file:
        file.write(data)
    store = formats.store_of(data, formats.read(data))
    # four fill a region, the fifth begins their promotion, and the sixth publishes it
    puts = [put(i, key, b"1", 2099) for i, key in enumerate((b"b", b"c", b"d", b"e", b"f", b"g"))]
    looks = [get(9, key, version) for version in (0, 1, 2098, 2099, 2100) for key in (b"a", b"b", b"f")]
    for sent in (puts + looks, looks):
        out, status = store.serve(b"".join(sent))
        expect("a long chain", serve(path, [b"".join(sent)]), (out, status, complaint(status)))
    # the lowest blocks that are free: 8 and 10 have the arrays, one of which is for 2,099 versions
    data = bytes_of(path)
    contents = formats.read(data)
    expect("the next chain", (contents.slot, contents.head.form, contents.head.generation, contents.head.length, contents.chain),
           (0, 2, 3, 19014, (11, 12, 13, 14, 15)))
    expect("its arrays", [array.extents for array in formats.arrays_of(contents.manifest)], [((8, 1),), ((10, 1),)])
    expect("broken rules", rules.breaches(data, contents), [])
    expect_alike("a long chain", formats.store_of(data, contents), store)


CHECKS = [
    each_refusal_of_a_manifest_has_a_file,
    the_rules_of_a_sound_file_are_checked,
    chains_of_a_manifest_are_followed,
    a_long_chain_is_followed_by_a_longer_one,
]
