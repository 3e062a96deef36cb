"""Memory: what a serving run, an open promotion and a check take, by the formulas that the documents say."""

import os
import re
import subprocess
import tempfile
import threading
import time

import formats
import promotions
from model import DONE, PUT, clone, fields_of, get, put, reply, stat
from program import DEADLINE, PROGRAM, TOP, Skipped, StoreFile, Wrong, bytes_of, close, expect, fed, memory_of, read_exactly, send, start

MEMORY = "/dev/shm"  # a folder where a sync costs nothing
OWN = 300_000  # bytes that a process has besides: its stack, and what the C library keeps
LIMITS = [(4, 1), (4, 16384), (1024, 1), (4096, 16384)]
FEW, MANY = 20_000, 340_000  # entries
GETS = 40_000


def said_of_serving():
    """What README says of a serving run: bytes in all, for each of M, for each of V, for cached blocks, and for each entry."""
    text = (TOP / "README.md").read_text()
    found = re.search(r"`([\d.]+) MB \+ ([\d.]+) KB \* M \+ (\d+) bytes \* V \+ ([\d.]+) MB \+ (\d+) byte \* entries", text)
    base, mem, versions, blocks, entry = map(float, found.groups())
    return base * 1e6, mem * 1e3, versions, blocks * 1e6, entry


def said_of_promotion():
    """What README says of an open promotion: bytes for each of M, of them those of a memtable, for each byte of the pairs, each version,
    array that is read, array that is written, and block."""
    text = " ".join((TOP / "README.md").read_text().split())
    memtable = re.search(r"a second memtable takes ([\d.]+) KB for each of M", text)
    found = re.search(r"`([\d.]+) KB \* M \+ (\d+) \* pairs \+ (\d+) bytes \* versions \+ ([\d.]+) KB \* read \+ ([\d.]+) KB \* written "
                      r"\+ (\d+) bytes \* blocks`", text)
    mem, pairs, version, read, written, block = map(float, found.groups())
    return float(memtable[1]) * 1e3, mem * 1e3, pairs, version, read * 1e3, written * 1e3, block


def said_of_check():
    """What docs/ERRORS.md says of a check: bytes in all, for each of M, each version, each array, and each one of the largest level."""
    text = (TOP / "docs" / "ERRORS.md").read_text()
    found = re.search(r"`check` takes ([\d.]+) MB, ([\d.]+) KB for each of M, (\d+) bytes for each version and (\d+) for each array\. "
                      r"Each array of the level that has most of them takes ([\d.]+) KB more\.", text)
    base, mem, version, array, open_array = map(float, found.groups())
    return base * 1e6, mem * 1e3, version, array, open_array * 1e3


def needs_proc():
    if not os.path.exists("/proc/self/status") or not os.access(MEMORY, os.W_OK):
        raise Skipped(f"no /proc here, or no {MEMORY}, without which it would take minutes")


def told_of(child, name):
    """A number of bytes that the kernel tells of a process."""
    with open(f"/proc/{child.pid}/status") as file:
        return int(re.search(rf"^{name}:\s+(\d+) kB$", file.read(), re.M)[1]) * 1024


def allocated(child):
    """How many bytes a process has asked for, whether it has touched them or not."""
    return told_of(child, "VmData")


def store_with(folder, mem, frames):
    """A store that took these changes."""
    store = StoreFile(folder, mem, 2 ** 24, 16384)
    out, status, _ = fed([PROGRAM, "serve", store.path], [b"".join(frames)], 20 * DEADLINE)
    expect("a store", (len(out) >= len(frames) * len(reply(0, DONE)), status), (True, 0))
    return store


def puts(count):
    return [put(at, b"%07d" % (at * 7919 % count), b"v") for at in range(count)]


def a_serving_run_takes_the_memory_of_its_formula(folder):
    needs_proc()
    base, each, version, _, _ = said_of_serving()
    for mem, versions in LIMITS:
        child = start(StoreFile(folder, mem, 2 ** 24, versions).path)
        try:
            child.stdin.write(stat(1))
            read_exactly(child.stdout, 25)
            taken = allocated(child)
        finally:
            child.kill()
            child.wait()
            close(child)
        said = base + each * mem + version * versions
        if not said <= taken <= 1.03 * said + OWN:
            raise Wrong(f"M {mem}, V {versions}: {taken:,} bytes are taken, said are {said:,.0f}")


# An open promotion

def asked(child, frame):
    """Has a run make a put, which is done."""
    child.stdin.write(frame)
    expect("a put", read_exactly(child.stdout, 9)[8], DONE)


def generation_in(path):
    with open(path, "rb") as file:
        return formats.newest(file.read(2 * formats.BLOCK))[1].generation


def grown_by_promotion(path, room, frames):
    """How many bytes a run takes more by the first put that meets a full journal, and at most until the promotion has ended.

    The journal has room for so many of the puts until it is full.
    """
    child = start(path)
    guard = threading.Timer(10 * DEADLINE, child.kill)
    guard.start()
    try:
        for frame in frames[:room]:
            asked(child, frame)
        before, size, generation = allocated(child), told_of(child, "VmSize"), generation_in(path)
        asked(child, frames[room])
        first = allocated(child) - before
        expect("it is open", generation_in(path), generation)
        for frame in frames[room + 1:]:
            if generation_in(path) > generation:
                break
            asked(child, frame)
        expect("it has ended", generation_in(path), generation + 1)
        return first, told_of(child, "VmPeak") - size
    finally:
        guard.cancel()
        child.kill()
        child.wait()
        close(child)


def put_in(frame):
    """The change that a frame asks for, which is of a put."""
    version, fields, _ = fields_of(frame[4:], 2)
    return PUT, version, *fields


def said_of_next(path, frames):
    """What a promotion of the journal with these puts behind it takes by the formula: once it has begun, and as its second pass begins.

    And for how many of the puts the journal has room before it is full, and how many arrays are merged.
    """
    memtable, each, pair, version, read, written, block = said_of_promotion()
    data = bytes_of(path)
    contents = formats.read(data)
    journal, mem = promotions.opened(data, contents), contents.head.mem
    room = mem - len(journal.changes)
    changes = journal.changes + [put_in(frame) for frame in frames[:room]]
    after = promotions.emptied_into(journal.emptied, changes, mem)
    target = min(after.levels)
    zero, made = promotions.last_updates(changes).values(), after.levels[target][1]
    merged = [array for level in contents.manifest.levels if level.number <= target for array in level.arrays]
    blocks = sum(len(formats.blocks_of(array)) for array in formats.arrays_of(contents.manifest)) + len(contents.chain)
    input_of_pass = each * mem + pair * sum(len(entry.key) + len(entry.value) for entry in zero) + read * len(merged)
    versions = len(after.parents) + 1
    first = memtable * mem + input_of_pass + version * versions + block * blocks
    return first, first + input_of_pass + written * len(made) + sum(len(part.entries) for part in made), room, len(merged)


def an_open_promotion_takes_the_memory_of_its_formula(_):
    needs_proc()
    with tempfile.TemporaryDirectory(dir=MEMORY) as folder:
        # small pairs and the largest, a few more than a power of two; and a level of many arrays, which the next promotion merges
        stores = [(StoreFile(folder, 2050, 2 ** 24, 1), [put(1, b"%05d" % at, b"v") for at in range(4098)], 0),
                  (StoreFile(folder, 1030, 2 ** 24, 1), [put(1, b"%0255d" % at, b"v" * 1024) for at in range(2058)], 0),
                  (store_with(folder, 64, star(1000)[:7089]), [put(1, b"n%d" % at, b"v", 999) for at in range(190)], 300)]
        for store, frames, least in stores:
            said, said_most, room, merged = said_of_next(store.path, frames)
            first, most = grown_by_promotion(store.path, room, frames)
            name = f"{os.path.basename(store.path)}, {merged} arrays merged"
            if merged < least:
                raise Wrong(f"{name}: these are too few for this to tell anything")
            for what, taken, wanted in (("begun", first, said), ("at most", most, said_most)):
                if not 0.9 * wanted - OWN <= taken <= 1.1 * wanted + OWN:
                    raise Wrong(f"{name}, {what}: a promotion takes {taken:,} bytes, said are {wanted:,.0f}")


def grown_by_gets(path, count):
    """How many bytes a run takes more for gets of keys that lie all over its arrays."""
    child = start(path)
    guard = threading.Timer(10 * DEADLINE, child.kill)
    guard.start()
    gets = b"".join(get(at, b"%07d" % (at * 104_729 % count)) for at in range(GETS))
    writer = threading.Thread(target=send, args=(child, [gets]))
    try:
        child.stdin.write(stat(1))
        read_exactly(child.stdout, 25)
        before = allocated(child)
        writer.start()
        for _ in range(GETS):
            read_exactly(child.stdout, int.from_bytes(read_exactly(child.stdout, 4), "big"))
        return allocated(child) - before
    finally:
        guard.cancel()
        child.kill()
        child.wait()
        writer.join()
        close(child)


def blocks_and_hints_take_what_is_said_however_many_blocks_there_are(_):
    needs_proc()
    blocks = said_of_serving()[3]
    with tempfile.TemporaryDirectory(dir=MEMORY) as folder:
        few, many = (grown_by_gets(store_with(folder, 64, puts(count)).path, count) for count in (FEW, MANY))
    if not few <= many <= 1.05 * blocks:
        raise Wrong(f"gets over {FEW:,} entries take {few:,} bytes, and over {MANY:,} entries {many:,}; said are {blocks:,.0f} at most")
    if many < 0.8 * blocks:
        raise Wrong(f"gets over {MANY:,} entries take {many:,} bytes alone, too few for this to tell anything")


def peak_of_check(path):
    """Most bytes of memory that a check has had. It waits with its line for a pipe that is full meanwhile."""
    inside, outside = os.pipe()
    os.set_blocking(outside, False)
    try:
        while True:
            os.write(outside, bytes(4096))
    except BlockingIOError:
        os.set_blocking(outside, True)
    child = subprocess.Popen([PROGRAM, "check", path], stdin=subprocess.DEVNULL, stdout=outside, stderr=subprocess.DEVNULL)
    os.close(outside)
    try:
        waits, deadline = 0, time.monotonic() + 6 * DEADLINE
        while waits < 5:  # looks in a row at which it slept
            if time.monotonic() > deadline:
                raise Wrong("a check doesn't come to its end")
            state = bytes_of(f"/proc/{child.pid}/stat").rpartition(b")")[2].split()[0]
            waits = waits + 1 if state == b"S" else 0
            time.sleep(0.02)
        peak = memory_of(child)
        said = b"".join(iter(lambda: os.read(inside, 1 << 16), b"")).strip(b"\0")
        expect("a check", (said, child.wait(DEADLINE)), (b"sound\n", 0))
        return peak
    finally:
        child.kill()
        child.wait()
        os.close(inside)


def star(versions):
    """Changes of a version and of clones of it, which come to many arrays."""
    frames = [put(1, b"r%d" % key, b"v") for key in range(100)] + [clone(2) for _ in range(1, versions)]
    return frames + [put(1, b"r%d" % ((key * 13 + version) % 300), b"%d" % version, version)
                     for version in range(1, versions) for key in range(8)]


def a_check_takes_memory_for_versions_and_arrays_and_none_for_entries(_):
    needs_proc()
    base, each, version, array, open_array = said_of_check()
    with tempfile.TemporaryDirectory(dir=MEMORY) as folder:
        few, many = (peak_of_check(store_with(folder, 64, puts(count)).path) for count in (FEW, MANY))
        if many > few + OWN:
            raise Wrong(f"a check of {FEW:,} entries takes {few:,} bytes, and one of {MANY:,} entries {many:,}")
        for mem, versions in ((64, 2000), (64, 6000), (2048, 2000)):
            store = store_with(folder, mem, star(versions))
            levels = [len(level.arrays) for level in formats.read(bytes_of(store.path)).manifest.levels]
            said = base + each * mem + version * versions + array * sum(levels) + open_array * max(levels)
            peak = peak_of_check(store.path)
            if not said / 2 < peak <= 1.1 * said:
                raise Wrong(f"M {mem}, {versions} versions, levels of {levels} arrays: a check takes {peak:,} bytes, said are {said:,.0f}")


CHECKS = [
    a_serving_run_takes_the_memory_of_its_formula,
    an_open_promotion_takes_the_memory_of_its_formula,
    blocks_and_hints_take_what_is_said_however_many_blocks_there_are,
    a_check_takes_memory_for_versions_and_arrays_and_none_for_entries,
]
