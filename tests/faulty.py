"""Runs of the built program in which a call fails, over scripts whose every reply and every change the model knows."""

import collections
import copy
import os
import subprocess

import formats
import model
from model import bodies_of, clone, close_cursor, delete, drop, get, info, next_pairs, open_cursor, put, reply, scan, stat, tag_of
from program import DEADLINE, PROGRAM, Skipped, StoreFile, Wrong, bytes_of, complaint, expect, expect_kept, expect_sound
from samples import BATCH_MAX
from shim import COUNTED, calls_in, library, settings

# With M 4, which a new store meets at its fifth change: a promotion that the sixth one publishes, commands that read before and after
# that, and cursors over it.
COMMANDS = [
    put(1, b"a", b"1"), open_cursor(2), put(3, b"b", b"2"), clone(4), put(5, b"a", b"3", 1), get(6, b"a", 1), clone(16, 1), drop(17, 2),
    get(18, b"a", 2), delete(7, b"b", 1),
    next_pairs(8, 1, 1), scan(9, version=1), put(10, b"c", b"4", 1), next_pairs(11, 1), close_cursor(12, 1), get(13, b"c", 1),
    info(14, 1), stat(15),
]
# The same over a store with an array, a full journal, and a slot of a superblock on either side
EARLIER = [put(tag, b"%d" % (tag % 3), b"e") for tag in range(12)]

KILLED = -9  # the status of a run that was

Ran = collections.namedtuple("Ran", "out status said calls")


class Script:
    """Frames that a run serves, what it replies, and what the store is after each."""

    def __init__(self, store, frames):
        self.frames = frames
        self.out, self.ends = b"", [0]  # where each reply ends in it
        now = copy.deepcopy(store)
        now.start_run()
        after = [copy.deepcopy(now)]
        for frame in frames:
            self.out += now.answer(frame[4:])
            self.ends.append(len(self.out))
            after.append(copy.deepcopy(now))
        self.made = [store.counts()[2] for store in after]
        self.least, self.stores = self.made[0], dict(zip(self.made, after))

    def may_have(self, answered):
        """How many changes a crash may leave where so many commands are answered: none to all of the batch under way."""
        return range(self.made[answered], self.made[min(answered + BATCH_MAX, len(self.made) - 1)] + 1)

    def from_change(self, changes):
        """The rest of it behind so many changes of the store."""
        first = max(at for at, made in enumerate(self.made) if made == changes)
        return Script(self.stores[changes], self.frames[first:])

    def tag(self, number):
        return tag_of(self.frames[number][4:])


class Rig:
    """Runs under the shim, in a folder, over one file that has some bytes before each."""

    def __init__(self, folder):
        if library() is None:
            raise Skipped("no compiler of C is here, to build the shim")
        self.folder = folder
        self.path = os.path.join(os.path.realpath(folder), "tried.store")
        self.log, self.asked = os.path.join(folder, "calls"), os.path.join(folder, "asked")

    def has(self, data):
        """Has the file have these bytes, or not be there if they are None."""
        if data is not None:
            with open(self.path, "wb") as file:
                file.write(data)
        elif os.path.exists(self.path):
            os.remove(self.path)

    def run(self, fault, *words, sent=b""):
        """A run of the program, with the file's path behind the first word. Its input is a file, which is read the same way each time."""
        for path, data in ((self.log, b""), (self.asked, sent)):
            with open(path, "wb") as file:
                file.write(data)
        job, *rest = words
        with open(self.asked, "rb") as asked:
            ran = subprocess.run([PROGRAM, job, self.path, *rest], stdin=asked, capture_output=True, timeout=DEADLINE,
                                 env={**os.environ, **settings(self.path, fault, self.log)})
        calls = list(calls_in(self.log))
        if not calls:
            raise Skipped("the shim does not get between the program and its C library")
        if fault not in (None, COUNTED) and all(call.way == "none" for call in calls):
            raise Wrong(f"{words}: no call met {fault}")
        return Ran(ran.stdout, ran.returncode, ran.stderr, calls)

    def serve(self, fault, data, script):
        """A run over a file with these bytes that is asked a script."""
        self.has(data)
        return self.run(fault, "serve", sent=b"".join(script.frames))

    def bytes(self):
        return bytes_of(self.path)


def counts_of(calls):
    """How many calls of each kind there are."""
    return collections.Counter(call.kind for call in calls)


def made_over(folder, mem, frames):
    """The bytes of a new store that took these changes, and its model."""
    store = StoreFile(folder, mem)
    if frames:
        store.expect_served("changes", frames)
    return bytes_of(store.path), store.model


def starts(folder):
    """Stores to begin from, with their bytes and the script over each."""
    for name, earlier in (("a new store", []), ("a store with a level", EARLIER)):
        data, store = made_over(folder, 4, earlier)
        yield name, data, Script(store, COMMANDS)


def expect_replies(name, script, ran):
    """The replies are the model's up to the fault, which is told if it was the device's. How many commands were answered."""
    answered = len(bodies_of(ran.out))
    if ran.status == model.ENDED:
        want = script.out
    elif ran.status == model.SOURCE:
        want = script.out[:script.ends[min(answered, len(script.frames))]]
    elif ran.status == model.DEVICE and answered:
        answered -= 1
        want = script.out[:script.ends[answered]] + reply(script.tag(answered), model.DEVICE_FAULT)
    else:  # at the opening, or within a reply
        want = script.out[:len(ran.out)]
    expect(f"{name}, replies", ran.out, want)
    return answered


def expect_outcome(name, script, ran, data, status):
    """The run ended with this status, its replies are the model's, and nothing that they acknowledge is lost."""
    expect(f"{name}, status", (ran.status, ran.said), (status, b"" if status == KILLED else complaint(status)))
    changes = expect_kept(name, script, expect_replies(name, script, ran), data)
    expect_sound(name, data)
    return changes


def changes_in(data):
    """How many changes the store has whose file has these bytes."""
    status, store = formats.opened(data)
    expect("the file", status, model.ENDED)
    return store.counts()[2]


def expect_goes_on(name, rig, data, script):
    """A run over a file with these bytes goes on to the end of the script, and has the pairs that it should."""
    rest = script.from_change(changes_in(data))
    versions = range(len(rest.stores[rest.made[-1]].parents))
    rest = Script(rest.stores[rest.least], [*rest.frames, *(scan(0, version=version) for version in versions)])
    expect_outcome(f"{name}, again", rest, rig.serve(None, data, rest), rig.bytes(), model.ENDED)
