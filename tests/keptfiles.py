"""Files that an earlier build left, of format 1, with the model of each. tests/data/README.md says how they were made."""

import base64
import gzip
import pathlib
import random

from model import Store, clone, delete, next_pairs, open_cursor, put
from samples import drawn_changes

KEPT = pathlib.Path(__file__).resolve().parent / "data" / "format-1"
LIMITS = 1000, 50  # of changes and of versions


def puts(first, count, keys=17):
    return [put(tag, b"%d" % (tag % keys), b"value %d" % tag) for tag in range(first, first + count)]


# Each file with its M and the frames of the runs that made it
MADE = {
    "new": (4, []),
    "journal": (8, [[*puts(0, 3), clone(3), put(4, b"1", b"of the clone", 1), delete(5, b"2", 1)]]),
    "levels": (8, [drawn_changes(random.Random(44), 200, 1, 30, 0.08)]),
    # a promotion was open as the run ended: both regions have changes, and blocks that it wrote are named nowhere
    "promoting": (8, [puts(0, 60), puts(60, 5)]),
    # a cursor was open as its arrays left the levels, and as the run ended
    "cursors": (4, [[*puts(0, 12), open_cursor(12), *puts(13, 20), next_pairs(33, 1, 3), *puts(34, 3)]]),
}


def data_of(name):
    """The bytes of a kept file."""
    return gzip.decompress(base64.decodebytes((KEPT / f"{name}.gz.base64").read_bytes()))


def model_of(name):
    """The store that it has."""
    mem, runs = MADE[name]
    store = Store(mem, *LIMITS)
    for frames in runs:
        store.serve(b"".join(frames))
    return store
