"""What the program should do, in plain Python: frames, and the table that they speak of.

It is written from docs/PROTOCOL.md and shares no line with the program. `tests/outside.py` compares the built program
with it. The bytes of a store's file are in `tests/formats.py`.
"""

import struct

PUT, DELETE, GET, CLONE, SCAN, INFO, OPEN_CURSOR, NEXT_PAIRS, CLOSE_CURSOR, STAT, DROP = 1, 2, 3, 4, 5, 6, 7, 8, 9, 10, 11
DONE, FOUND, ABSENT, PAIRS, MADE, PLACE, OPENED, COUNTS = 0, 1, 2, 3, 4, 5, 6, 7
UNKNOWN_VERSION, FROZEN, UNKNOWN_CURSOR, VERSION_LIMIT, CHANGE_LIMIT, CURSOR_LIMIT = 16, 17, 18, 19, 20, 21
MALFORMED, KEY_SIZE, VALUE_SIZE, SCAN_SIZE = 22, 23, 24, 25
FRAME_TOO_LONG, ROOT, DEVICE_FAULT, DAMAGED_BLOCK = 26, 27, 33, 34
UPDATES = PUT, DELETE
NO_PARENT = 2 ** 32 - 1
BODY_MAX, KEY_MAX, VALUE_MAX, PAIRS_MAX, CURSORS_MAX = 2048, 255, 1024, 256, 64

# How a run ends
ENDED, NOT_A_STORE, TOO_LONG, TRUNCATED, DEVICE, SOURCE, SINK, NO_MEMORY, DAMAGED, NO_VERSION = 0, 2, 3, 4, 5, 6, 7, 8, 9, 12

BLOCK = 4096


# Frames

def frame(body):
    return struct.pack(">I", len(body)) + body


def sized(data):
    return struct.pack(">H", len(data)) + data


def put(tag, key, value, version=0):
    return frame(struct.pack(">IBI", tag, PUT, version) + sized(key) + sized(value))


def delete(tag, key, version=0):
    return frame(struct.pack(">IBI", tag, DELETE, version) + sized(key))


def get(tag, key, version=0):
    return frame(struct.pack(">IBI", tag, GET, version) + sized(key))


def clone(tag, version=0):
    return frame(struct.pack(">IBI", tag, CLONE, version))


def drop(tag, version=0):
    return frame(struct.pack(">IBI", tag, DROP, version))


def scan(tag, lo=b"", hi=b"", limit=PAIRS_MAX, version=0):
    return frame(struct.pack(">IBI", tag, SCAN, version) + sized(lo) + sized(hi) + struct.pack(">H", limit))


def info(tag, version=0):
    return frame(struct.pack(">IBI", tag, INFO, version))


def open_cursor(tag, lo=b"", hi=b"", version=0):
    return frame(struct.pack(">IBI", tag, OPEN_CURSOR, version) + sized(lo) + sized(hi))


def next_pairs(tag, cursor, limit=PAIRS_MAX):
    return frame(struct.pack(">IBQH", tag, NEXT_PAIRS, cursor, limit))


def close_cursor(tag, cursor):
    return frame(struct.pack(">IBQ", tag, CLOSE_CURSOR, cursor))


def stat(tag):
    return frame(struct.pack(">IB", tag, STAT))


def reply(tag, status, fields=b""):
    return frame(struct.pack(">IB", tag, status) + fields)


def page(tag, pairs, more=False):
    listed = b"".join(sized(key) + sized(value) for key, value in pairs)
    return reply(tag, PAIRS, struct.pack(">BH", more, len(pairs)) + listed)


def fields_of(body, count, last=0):
    """The version and the `count` byte strings of a body, and its `last` bytes; None where it holds anything else."""
    if len(body) < 9:
        return None
    version, at, parts = struct.unpack_from(">I", body, 5)[0], 9, []
    for _ in range(count):
        if at + 2 > len(body):
            return None
        size = struct.unpack_from(">H", body, at)[0]
        parts.append(body[at + 2:at + 2 + size])
        at += 2 + size
    return (version, parts, body[at:]) if at + last == len(body) else None


def bodies_of(data):
    """The bodies of the whole frames that stand one behind the other."""
    bodies, at = [], 0
    while len(data) - at >= 4:
        length = struct.unpack_from(">I", data, at)[0]
        if len(data) - at - 4 < length:
            break
        bodies.append(data[at + 4:at + 4 + length])
        at += 4 + length
    return bodies


def tag_of(body):
    return struct.unpack_from(">I", body)[0] if len(body) >= 4 else 0


# A store

class Store:
    """A store: its limits, its versions with their parents and pairs, those that were dropped, and its changes in their order.

    A dropped version keeps its number and its parent, and has no pairs.
    Of a store that was read from a file, `emptied` says how many changes, and updates among them, came before those.
    Of the run that serves it, `cursors` has the pairs that each open cursor has left, by its number.
    """

    def __init__(self, mem, changes_max, versions_max):
        self.limits = (mem, changes_max, versions_max)
        self.emptied = (0, 0)
        self.changes = []
        self.updates = 0  # among these changes
        self.parents = [None]
        self.pairs = [{}]
        self.dropped = set()
        self.start_run()

    def start_run(self):
        """Has no cursor open, as at the beginning of each run."""
        self.cursors = {}
        self.next_cursor = 1

    def has(self, version):
        """Whether a version is there, and was not dropped."""
        return version < len(self.parents) and version not in self.dropped

    def living(self):
        """The versions that are there and were not dropped."""
        return [version for version in range(len(self.parents)) if version not in self.dropped]

    def is_frozen(self, version):
        """Whether a version has a child that was not dropped."""
        return any(self.parents[child] == version and child not in self.dropped for child in range(version + 1, len(self.parents)))

    def refusal(self, kind, version):
        """The status by which a change of a version is refused, or None."""
        _, changes_max, versions_max = self.limits
        if not self.has(version):
            return UNKNOWN_VERSION
        if kind == DROP and version == 0:
            return ROOT
        if kind == CLONE and len(self.parents) == versions_max:
            return VERSION_LIMIT
        if kind != CLONE and self.is_frozen(version):
            return FROZEN
        return CHANGE_LIMIT if self.counts()[2] == changes_max else None

    def make(self, change):
        """Makes a change that isn't refused."""
        kind, version, *fields = change
        self.changes.append(change)
        self.updates += kind in UPDATES
        if kind == PUT:
            self.pairs[version][fields[0]] = fields[1]
        elif kind == DELETE:
            self.pairs[version].pop(fields[0], None)
        elif kind == CLONE:
            self.parents.append(version)
            self.pairs.append(dict(self.pairs[version]))
        else:
            self.dropped.add(version)
            self.pairs[version] = {}

    def depth(self, version):
        depth = 0
        while self.parents[version] is not None:
            version = self.parents[version]
            depth += 1
        return depth

    def place(self, version):
        """The fields of a reply that tells a version's place in the tree."""
        parent = self.parents[version]
        return struct.pack(">IIB", NO_PARENT if parent is None else parent, self.depth(version),
                           self.is_frozen(version))

    def counts(self):
        """How many versions, dropped ones among them, updates and changes the store has."""
        changes, updates = self.emptied
        return len(self.parents), updates + self.updates, changes + len(self.changes)

    def answer(self, body):
        """The reply to one body, which may change the store."""
        tag = tag_of(body)
        opcode = body[4] if len(body) > 4 else 0
        if opcode == STAT and len(body) == 5:
            return reply(tag, COUNTS, struct.pack(">IIII", *self.counts(), len(self.cursors)))
        if opcode == NEXT_PAIRS and len(body) == 15:
            return self.go_on(tag, *struct.unpack_from(">QH", body, 5))
        if opcode == CLOSE_CURSOR and len(body) == 13:
            return self.close(tag, *struct.unpack_from(">Q", body, 5))
        parts_of = {PUT: (2,), DELETE: (1,), GET: (1,), CLONE: (0,), SCAN: (2, 2), INFO: (0,), OPEN_CURSOR: (2,), DROP: (0,)}
        fields = fields_of(body, *parts_of[opcode]) if opcode in parts_of else None
        if fields is None:
            return reply(tag, MALFORMED)
        version, parts, last = fields
        if opcode == SCAN:
            return self.scan(tag, version, *parts, *struct.unpack(">H", last))
        if opcode == OPEN_CURSOR:
            return self.open(tag, version, *parts)
        if parts and not 1 <= len(parts[0]) <= KEY_MAX:
            return reply(tag, KEY_SIZE)
        if any(len(value) > VALUE_MAX for value in parts[1:]):
            return reply(tag, VALUE_SIZE)
        if opcode in (GET, INFO):
            return self.look(tag, opcode, version, *parts)
        refusal = self.refusal(opcode, version)
        if refusal is not None:
            return reply(tag, refusal)
        self.make((opcode, version, *parts))
        return reply(tag, MADE, struct.pack(">I", len(self.parents) - 1)) if opcode == CLONE else reply(tag, DONE)

    def look(self, tag, opcode, version, *parts):
        """The reply to a command that changes nothing."""
        if not self.has(version):
            return reply(tag, UNKNOWN_VERSION)
        if opcode == INFO:
            return reply(tag, PLACE, self.place(version))
        value = self.pairs[version].get(*parts)
        return reply(tag, ABSENT) if value is None else reply(tag, FOUND, sized(value))

    def scan(self, tag, version, lo, hi, limit):
        """The reply to a scan."""
        if max(len(lo), len(hi)) > KEY_MAX:
            return reply(tag, KEY_SIZE)
        if not 1 <= limit <= PAIRS_MAX:
            return reply(tag, SCAN_SIZE)
        if not self.has(version):
            return reply(tag, UNKNOWN_VERSION)
        pairs = self.range(version, lo, hi)
        return page(tag, pairs[:limit], len(pairs) > limit)

    def range(self, version, lo, hi):
        """The pairs of a range of a version."""
        return [pair for pair in sorted(self.pairs[version].items()) if lo <= pair[0] and (not hi or pair[0] < hi)]

    def open(self, tag, version, lo, hi):
        """The reply to an opening of a cursor, which has the range as it is now."""
        if max(len(lo), len(hi)) > KEY_MAX:
            return reply(tag, KEY_SIZE)
        if not self.has(version):
            return reply(tag, UNKNOWN_VERSION)
        if len(self.cursors) == CURSORS_MAX:
            return reply(tag, CURSOR_LIMIT)
        number, self.next_cursor = self.next_cursor, self.next_cursor + 1
        self.cursors[number] = self.range(version, lo, hi)
        return reply(tag, OPENED, struct.pack(">Q", number))

    def go_on(self, tag, number, limit):
        """The reply that takes the next pairs of a cursor."""
        if not 1 <= limit <= PAIRS_MAX:
            return reply(tag, SCAN_SIZE)
        if number not in self.cursors:
            return reply(tag, UNKNOWN_CURSOR)
        pairs = self.cursors[number]
        self.cursors[number] = pairs[limit:]
        return page(tag, pairs[:limit], len(pairs) > limit)

    def close(self, tag, number):
        """The reply to the closing of a cursor."""
        return reply(tag, UNKNOWN_CURSOR if self.cursors.pop(number, None) is None else DONE)

    def serve(self, data):
        """What a run writes for these bytes, and its status."""
        self.start_run()
        out, at = [], 0
        while len(data) - at >= 4:
            length = struct.unpack_from(">I", data, at)[0]
            if length > BODY_MAX:
                return b"".join(out) + reply(0, FRAME_TOO_LONG), TOO_LONG
            if len(data) - at - 4 < length:
                break
            out.append(self.answer(data[at + 4:at + 4 + length]))
            at += 4 + length
        return b"".join(out), TRUNCATED if at < len(data) else ENDED

    def line(self):
        """What formatting prints."""
        return b"format 2 mem %d changes %d versions %d\n" % self.limits
