"""What leaders, followers and exports should write, in plain Python: frames of changes, receipts, and the puts of a version.

It is written from docs/PROTOCOL.md and shares no line with the program. The table is that of `tests/model.py`, and a change
has the bytes that the journal has, without its gate.
"""

import struct

import formats
import model
from model import BODY_MAX, frame, put, tag_of

TAKEN, OLD, GAP, MALFORMED, REFUSED = 0, 1, 2, 3, 4  # statuses of a receipt


def change_body(number, change):
    return struct.pack(">I", number) + formats.record_of(change)[1:]


def change_frame(number, change):
    return frame(change_body(number, change))


def change_in(body):
    """The number and the change of a body; None where it isn't a number and one whole change of lawful sizes."""
    change = formats.change_at(lambda offset, size: body[3 + offset:3 + offset + size].ljust(size, b"\0"))
    if change is None or body != change_body(tag_of(body), change):
        return None
    return tag_of(body), change


def receipt(number, status, following, refusal=0):
    return frame(struct.pack(">IBIB", number, status, following, refusal))


def split(data):
    """The bodies of whole frames one behind the other, and the status with which a run ends that reads these bytes."""
    bodies, at = [], 0
    while len(data) - at >= 4:
        length = struct.unpack_from(">I", data, at)[0]
        if length > BODY_MAX:
            return bodies, model.TOO_LONG
        if len(data) - at - 4 < length:
            break
        bodies.append(data[at + 4:at + 4 + length])
        at += 4 + length
    return bodies, model.TRUNCATED if at < len(data) else model.ENDED


# A leader

def sent_at_first(contents):
    """What a leader writes of the changes in the journal of a file with these contents."""
    return b"".join(change_frame(contents.manifest.changes + place, logged.change) for place, logged in enumerate(contents.journal))


def led_by(store, body):
    """What a leader writes for a body: the frame of a change that is accepted, or nothing."""
    number = store.counts()[2]
    store.answer(body)
    return change_frame(number, store.changes[-1]) if store.counts()[2] > number else b""


def lead(store, contents, data):
    """What a leader over a file with these contents writes for these bytes, and its status. The store is that of the file."""
    store.start_run()
    bodies, status = split(data)
    return sent_at_first(contents) + b"".join(led_by(store, body) for body in bodies), status


# A follower

def followed_by(store, body):
    """The receipt of a follower for a body."""
    found, following = change_in(body), store.counts()[2]
    if found is None:
        return receipt(tag_of(body), MALFORMED, following)
    number, change = found
    if number != following:
        return receipt(number, OLD if number < following else GAP, following)
    refusal = store.refusal(*change[:2])
    if refusal is not None:
        return receipt(number, REFUSED, following, refusal)
    store.make(change)
    return receipt(number, TAKEN, following + 1)


def follow(store, data):
    """What a follower writes for these bytes, and its status."""
    bodies, status = split(data)
    return b"".join(followed_by(store, body) for body in bodies), status


# An export

def exported(pairs):
    """The puts of these pairs, as an export has them."""
    return b"".join(put(tag, key, value) for tag, (key, value) in enumerate(sorted(pairs.items()), 1))
