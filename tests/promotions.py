"""What a store's levels should hold, in plain Python: how and when a full journal is emptied, and how a level is split into arrays.

It is written from docs/DEFINITIONS.md and shares no line with the program. Where blocks lie is not said here.
"""

import collections

from formats import Array, Contents, Entry, Level, Logged, Manifest, dropped_in, entries_of, live_in, new_head, order
from model import CLONE, DROP, PUT, UPDATES

# An array is its number, its versions, how many entries are live in that version of it which has the fewest, and its entries
Part = collections.namedtuple("Part", "id versions least entries")
# What was emptied into levels: by the number of a level its horizon and its arrays; and which versions were dropped before
Emptied = collections.namedtuple("Emptied", "changes updates written next_array parents levels dropped")

NOTHING = Emptied(0, 0, 0, 1, (), {}, frozenset())


def last_updates(changes):
    """The last update of each key and version."""
    updates = {}
    for kind, version, *fields in changes:
        if kind in UPDATES:
            updates[fields[0], version] = Entry(fields[0], version, fields[1] if kind == PUT else None)
    return updates


def leads_of(parts):
    return {(entry.key, entry.version): entry for part in parts for entry in part.entries if entry.version in part.versions}


def target_of(counts, mem):
    """The first level from 1 on that may hold the leads of all levels down to it."""
    level = 1
    while sum(counts[:level + 1]) > mem << level:
        level += 1
    return level


def purged(leads, parents):
    """The leads without each Gone that hides no put."""
    live = live_in(leads.values(), parents)
    return {place: entry for place, entry in leads.items()
            if entry.value is not None or (entry.version and is_put(live[parents[entry.version - 1]], entry.key))}


def is_put(live, key):
    return key in live and live[key].value is not None


def groups_of(leads, parents):
    """The versions of each array of a level, with the version from whose live entries it has copies."""
    live = [len(entries) for entries in live_in(leads.values(), parents)]
    own = collections.Counter(version for _, version in leads)
    waiting, sums, groups = collections.defaultdict(list), collections.Counter(), []
    for version in range(len(parents), 0, -1):
        parent = parents[version - 1]
        weight, versions = own[version] + sums[version], [version, *waiting[version]]
        if weight and weight >= live[parent]:
            groups.append((parent, versions))
            continue
        waiting[parent] += versions
        sums[parent] += weight
        if sums[parent] and sums[parent] >= live[parent]:
            groups.append((parent, waiting.pop(parent)))
            sums[parent] = 0
    return [*groups, (None, [0, *waiting[0]])]


def split(leads, parents, next_array):
    """The arrays of a level with these leads."""
    live, parts = live_in(leads.values(), parents), []
    for above, versions in sorted(groups_of(leads, parents), key=lambda group: min(group[1])):
        copies = live[above].values() if above is not None else ()
        entries = {*copies, *(entry for entry in leads.values() if entry.version in versions)}
        if entries:
            least = min(len(live[version]) for version in versions)
            parts.append(Part(next_array + len(parts), tuple(sorted(versions)), least, tuple(sorted(entries, key=order))))
    return parts


def emptied_into(emptied, changes, mem):
    """What is in levels once a journal with these changes was emptied."""
    parents = (*emptied.parents, *(version for kind, version, *_ in changes if kind == CLONE))
    zero = last_updates(changes)
    leads = [zero, *(leads_of(emptied.levels.get(number, (0, ()))[1]) for number in range(1, 23))]
    target = target_of([len(found) for found in leads], mem)
    merged = {}
    for found in reversed(leads[:target + 1]):
        merged.update(found)
    levels = {number: level for number, level in emptied.levels.items() if number > target}
    if not levels:
        merged = purged(merged, parents)
    parts = split(merged, parents, emptied.next_array)
    if parts:
        levels[target] = (len(parents) + 1, parts)
    return Emptied(
        emptied.changes + len(changes), emptied.updates + sum(change[0] in UPDATES for change in changes),
        emptied.written + sum(len(part.entries) for part in parts), emptied.next_array + len(parts), parents, levels,
        emptied.dropped.union(version for kind, version, *_ in changes if kind == DROP))


def entries_merged(emptied, changes, mem):
    """How many entries of each key, in the order of keys, a promotion of a journal with these changes goes over in each pass."""
    leads = [last_updates(changes), *(leads_of(emptied.levels.get(number, (0, ()))[1]) for number in range(1, 23))]
    keys = collections.Counter(key for found in leads[:target_of([len(found) for found in leads], mem) + 1] for key, _ in found)
    return [keys[key] for key in sorted(keys)]


class Journal:
    """The changes of a run that are not in levels yet, and what is in levels.

    A change at a full journal is preceded by a slice of the promotion that empties the first `mem` changes, which the first of
    them begins. Each slice takes at least so many entries that the last one comes while the journal has room.
    """

    def __init__(self, mem, times=0, emptied=NOTHING, changes=()):
        self.mem, self.times, self.emptied, self.changes = mem, times, emptied, list(changes)
        self.left, self.budget = None, 0  # of the promotion that is open: the entries of each key that are left in both passes

    def take(self, change):
        if len(self.changes) >= self.mem:
            self.slice()
        self.changes.append(change)

    def slice(self):
        if self.left is None:
            self.left = 2 * entries_merged(self.emptied, self.changes[:self.mem], self.mem)
            room = 2 * self.mem - 2 - len(self.changes)
            self.budget = max(1, -(-sum(self.left) // room)) if room else sum(self.left) + 1
        taken = 0
        while self.left and taken < self.budget:
            taken += self.left.pop(0)
        if not self.left:
            self.empty()

    def empty(self):
        """What the promotion made is published."""
        self.times, self.left = self.times + 1, None
        self.emptied = emptied_into(self.emptied, self.changes[:self.mem], self.mem)
        self.changes = self.changes[self.mem:]


def emptied_so_often(changes, mem, times):
    """What is in levels once the journal was emptied so many times, each time of as many changes as a region takes."""
    emptied = NOTHING
    for at in range(0, times * mem, mem):
        emptied = emptied_into(emptied, changes[at:at + mem], mem)
    return emptied


def opened(data, contents):
    """The journal of a run that opens a file with these bytes."""
    levels = {level.number: (level.horizon, [Part(array.id, array.versions, array.least, tuple(entries_of(data, array)))
                                             for array in level.arrays]) for level in contents.manifest.levels}
    emptied = Emptied(*contents.manifest[:5], levels, frozenset(dropped_in(contents.manifest)))
    return Journal(contents.head.mem, contents.head.generation - 1, emptied, [change for change, _ in contents.journal])


def after(changes, mem):
    """How often the journal was emptied by these changes, what is in levels, and what is in the journal, after one run."""
    journal = Journal(mem)
    for change in changes:
        journal.take(change)
    return journal.times, journal.emptied, journal.changes


def contents_after(changes, limits):
    """What a file says after these changes, which one run made, where no other change came before; no block is named."""
    times, emptied, journal = after(changes, limits[0])
    levels = tuple(Level(number, horizon, tuple(map(described, parts))) for number, (horizon, parts) in sorted(emptied.levels.items()))
    head = new_head(*limits)._replace(generation=times + 1, region=times % 2)
    manifest = Manifest(*emptied[:5], levels, marks=marks_of(emptied))
    return Contents(times % 2, head, manifest, (), [Logged(change, None) for change in journal])


def marks_of(emptied):
    """The marks of versions in the manifest that was written as the journal was emptied."""
    return tuple(int(version in emptied.dropped) for version in range(len(emptied.parents) + 1)) if emptied.dropped else ()


def described(part):
    """What a manifest says of an array, but for its blocks."""
    tag = set(part.versions)
    leads = sum(entry.version in tag for entry in part.entries)
    return Array(part.id, len(part.entries), leads, part.least, (), part.versions)
