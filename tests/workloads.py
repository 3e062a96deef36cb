"""The program's own workload in plain Python: its frames, drawn from a seed, what a store then has, and the summary of it.

It is written from docs/FORMATS.md and shares no line with the program. The text of levels is in `tests/formats.py`.
"""

import fractions

import formats
import model
from model import CLONE, DELETE, DROP, PUT, UPDATES

MEM = 64
LIMITS = MEM, 2 ** 24, 2 ** 14  # M, C and V of the store that the job `workload` makes
BRANCHED = 128  # as many versions as it makes
FACTOR, STEP = 6364136223846793005, 1442695040888963407


def states(seed):
    """The states behind the first draw, the second and so on."""
    state = seed
    while True:
        state = (state * FACTOR + STEP) % 2 ** 64
        yield state


def changes(seed, count):
    """The changes, as the model has them."""
    drawn = (state >> 33 for state in states(seed))
    has_child = [False]  # by version
    for number in range(1, count + 1):
        kind, place, name = next(drawn) % 64, next(drawn), next(drawn) % 1000
        versions, key = len(has_child), b"k%03d" % name
        version = place % versions
        if kind <= 1 and versions < BRANCHED:
            version = version if kind == 0 else versions - 1
            has_child[version] = True
            has_child.append(False)
            yield CLONE, version
            continue
        version = next(leaf for leaf in range(version, versions) if not has_child[leaf])
        yield (DELETE, version, key) if 2 <= kind <= 9 else (PUT, version, key, b"%d" % number)


def frame(tag, change):
    """The frame of a change."""
    kind, version, *fields = change
    return {PUT: model.put, DELETE: model.delete, CLONE: model.clone, DROP: model.drop}[kind](tag, *fields, version)


def frames(seed, count):
    """The workload's bytes, a frame at a time."""
    return [frame(tag, change) for tag, change in enumerate(changes(seed, count), 1)]


def store_after(made):
    """The model of a store of the workload's limits that took these changes, none of which it refuses."""
    store = model.Store(*LIMITS)
    for change in made:
        if store.refusal(*change[:2]) is not None:
            raise ValueError(f"the model refuses {change}")
        store.make(change)
    return store


# What the job `workload` prints

def summary_text(seed, contents):
    """The lines that the job prints of a store with these contents, to whose changes this seed led."""
    manifest, journal = contents.manifest, [change for change, _ in contents.journal]
    updates = sum(change[0] in UPDATES for change in journal)
    count, arrays = manifest.changes + len(journal), formats.arrays_of(manifest)
    stored = sum(array.entries for array in arrays) + updates
    yield f"workload seed {seed} changes {count}"
    yield (f"versions {len(manifest.parents) + 1 + len(journal) - updates} updates {manifest.updates + updates}"
           f" clones {count - manifest.updates - updates}")
    yield f"levels {len(manifest.levels)} arrays {len(arrays)} stored {stored} written {manifest.written}"
    least = min(arrays, key=lambda array: fractions.Fraction(array.least, array.entries), default=None)
    yield f"density {least.least}/{least.entries}" if least else "density none"


# What is promised

def deep(mem, count):
    """The level of least number that would hold so many leads; an entry moves to no deeper one."""
    return next(number for number in range(1, formats.LEVELS + 1) if mem << number >= count)


def beyond_bounds(contents):
    """Where a store's levels and what was written go beyond what is promised."""
    head, manifest, journal = contents.head, contents.manifest, contents.journal
    count, arrays = manifest.changes + len(journal), formats.arrays_of(manifest)
    updates = sum(change[0] in UPDATES for change, _ in journal)
    if sum(array.entries for array in arrays) + updates > 2 * (manifest.updates + updates):
        yield "more entries are stored than two for each update"
    if any(3 * array.least < array.entries for array in arrays):
        yield "less than a third of an array is live"
    if manifest.written > 4 * deep(head.mem, count) * count:
        yield "more entries were written than four for each change and level"
