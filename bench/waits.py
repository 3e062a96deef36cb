"""What a bench says of waits for changes, and which of these made a checkpoint."""

import array
import mmap
import struct

import formats
import model

SLOT = struct.calcsize(formats.FORM)  # bytes of a superblock that are read
# The columns of a table of waits: a title, by what a value is multiplied, and with how many digits it is shown. Waits are nanoseconds.
WAITS = [("Median, µs", 1e-3, 1), ("99th percentile, µs", 1e-3, 1), ("99.9th percentile, µs", 1e-3, 1), ("Longest, µs", 1e-3, 1),
         ("Longest / median", 1, 1), ("With a checkpoint", 1, 0), ("Their median, µs", 1e-3, 1), ("Their longest, µs", 1e-3, 1),
         ("Longest of the others, µs", 1e-3, 1), ("That / median", 1, 1), ("With a slice alone", 1, 0), ("Their median, µs", 1e-3, 1),
         ("Their longest, µs", 1e-3, 1)]


class Different(Exception):
    """A store did something else than it should have."""


class Superblocks:
    """The superblock slots of a new store in use. Nothing but a checkpoint writes one, so `places` has the changes behind which they differ."""

    def __init__(self, path):
        with open(path, "rb") as file:
            self.blocks = mmap.mmap(file.fileno(), 2 * model.BLOCK, access=mmap.ACCESS_READ)
        self.before, self.places = self.slots(), []

    def slots(self):
        return self.blocks[:SLOT], self.blocks[model.BLOCK:model.BLOCK + SLOT]

    def look(self, place):
        """Looks whether the change at a place made a checkpoint. Its reply is there, so all that it wrote is."""
        now = self.slots()
        if now != self.before:
            self.before = now
            self.places.append(place)

    def checkpoints(self):
        """The places of all changes that made one. Their number is that of the last superblock."""
        generation = formats.newest(self.blocks)[1].generation
        if generation != len(self.places) + 1:
            raise Different(f"{len(self.places)} checkpoints were seen, and the store has generation {generation}")
        return self.places


def percentile(ordered, thousandths):
    """The least of sorted waits that so many thousandths of them do not exceed; None if there are none."""
    return ordered[max(1, -(-len(ordered) * thousandths // 1000)) - 1] if ordered else None


def told_apart(waits, mem, checkpoints):
    """Sorted, the waits of changes of a new store that made a checkpoint, those of all others, and those among these that did a slice."""
    fill, made, parts = 0, set(checkpoints), ([], [], [])
    for place, wait in enumerate(waits):
        parts[0 if place in made else 1].append(wait)
        if place in made:
            fill -= mem
        elif fill >= mem:
            parts[2].append(wait)
        fill += 1
    return [sorted(part) for part in parts]


def values_of_waits(waits, mem=None, checkpoints=()):
    """What the columns have of waits for changes that were all made, by a store with journal regions of `mem` changes if that is given."""
    ordered = sorted(waits)
    median, *_, longest = found = [percentile(ordered, thousandths) for thousandths in (500, 990, 999, 1000)]
    if mem is None:
        return (*found, longest / median, *[None] * 8)
    made, others, slices = told_apart(waits, mem, checkpoints)
    return (*found, longest / median, len(made), percentile(made, 500), percentile(made, 1000), others[-1], others[-1] / median,
            len(slices), percentile(slices, 500), percentile(slices, 1000))


def least(several):
    """Of the waits of several runs the least of each change."""
    return array.array("q", map(min, zip(*several)))
