"""The rules of a sound store in plain Python: which of them a file breaks, and what the job `check` should print of it.

It is written from docs/FORMATS.md and from the rules of docs/DEFINITIONS.md, and shares no line with the program. Versions
and keys are gone through one by one, whatever that costs.
"""

import collections
import itertools

import formats
import model

ORDER = "mabcdefghijkl"  # in which rules are tried
UNSOUND = 11  # the status of a check that tells a rule

# A rule that is broken, with the level and the array that are printed; 0 stands for none
Breach = collections.namedtuple("Breach", "rule level array")
# A level, with its arrays' entries by their numbers, its leads, what is among these, and by version the leads that are live
Filled = collections.namedtuple("Filled", "level entries leads lead_set live")


def ascends(items):
    return all(a < b for a, b in itertools.pairwise(items))


def leads_in(array, entries):
    """The entries of versions of the array's tag."""
    tag = set(array.versions)
    return [entry for entry in entries if entry.version in tag]


def filled(data, level, parents):
    entries = {array.id: formats.entries_of(data, array) for array in level.arrays}
    leads = [entry for array in level.arrays for entry in leads_in(array, entries[array.id])]
    return Filled(level, entries, leads, set(leads), formats.live_in(leads, parents))


def broken_by_array(array, it, parents):
    """The letters of the rules that an array breaks, of a level that is filled."""
    entries = it.entries[array.id]
    live, own = formats.live_in(entries, parents), len(leads_in(array, entries))
    counts = [len(live[version]) for version in array.versions]
    if not ascends(map(formats.order, entries)):
        yield "m"
    if any(live[version] != it.live[version] for version in array.versions):
        yield "c"
    if any(3 * count < len(entries) for count in counts):
        yield "d"
    if len(entries) > 2 * own:
        yield "e"
    if not it.lead_set.issuperset(entries):
        yield "f"
    if (array.entries, array.leads, array.least) != (len(entries), own, min(counts)):
        yield "k"


def broken_by_level(it, head):
    """The letters of the rules that a level breaks by itself."""
    level, tags = it.level, [version for array in it.level.arrays for version in array.versions]
    if len(set(tags)) < len(tags) or max(tags) >= level.horizon:
        yield "a"
    if any(it.live[version] for version in set(range(level.horizon)) - set(tags)):
        yield "b"
    if len({formats.order(entry) for entry in it.leads}) < len(it.leads):
        yield "g"
    if len(it.leads) > head.mem << level.number:
        yield "h"


def broken_above(it, above, manifest, journal):
    """The letters of the rules that a level breaks together with those above it."""
    horizon = it.level.horizon
    if horizon > len(manifest.parents) + 1 or any(horizon > other.level.horizon for other in above):
        yield "i"
    dropped = formats.dropped_in(manifest).union(change[1] for change, _ in journal if change[0] == model.DROP)
    closed = {parent for child, parent in enumerate(manifest.parents, 1) if child < horizon and child not in dropped}
    updated = {change[1] for change, _ in journal if change[0] in model.UPDATES}
    if closed & updated.union(*([entry.version for entry in other.leads] for other in above)):
        yield "j"


def breaches(data, contents):
    """What a file breaks that opens, in the order in which rules are tried; a Damaged tells of a block that holds no entries."""
    head, manifest = contents.head, contents.manifest
    levels, found = [filled(data, level, manifest.parents) for level in manifest.levels], []
    for at, it in enumerate(levels):
        own = [*broken_by_level(it, head), *broken_above(it, levels[:at], manifest, contents.journal)]
        found += [Breach(rule, it.level.number, 0) for rule in own]
        found += [Breach(rule, it.level.number, array.id) for array in it.level.arrays
                  for rule in broken_by_array(array, it, manifest.parents)]
    if sum(len(it.leads) for it in levels) > manifest.updates:
        found.append(Breach("l", 0, 0))
    return sorted(found, key=lambda breach: ORDER.index(breach.rule))


def line_of(found):
    """The line of a check that found this, of which the first is told."""
    return b"unsound %c level %d array %d\n" % (ord(found[0].rule), *found[0][1:]) if found else b"sound\n"


def checked(data):
    """What the job `check` prints of a file with these bytes, and its status."""
    try:
        contents = formats.read(data)
        if contents is None:
            return b"", model.NOT_A_STORE
        formats.take_journal(formats.store_at_checkpoint(contents), contents.journal)
        found = breaches(data, contents)
    except formats.Damaged as damaged:
        return b"damaged block %d\n" % damaged.block, model.DAMAGED
    return line_of(found), UNSOUND if found else model.ENDED
