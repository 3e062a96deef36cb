"""Filters of arrays: how often the file is read for keys that are not in it."""

import os
import re
import shutil
import tempfile
import threading

from model import DONE, VALUE_MAX, get, put, reply
from program import DEADLINE, PROGRAM, Skipped, StoreFile, Wrong, bytes_of, close, expect, fed, memory_of, send, start

STORED, ASKED = 3000, 300  # keys
FEW, MANY = 40_000, 340_000  # entries
MEMORY = "/dev/shm"  # a folder where a sync costs nothing


def reads_in(folder, store, frames):
    """How often a run reads the store's file. What it answers to these frames is compared with the model."""
    if not shutil.which("strace"):
        raise Skipped("strace is not here")
    log = os.path.join(folder, "log")
    open(log, "wb").close()
    data = b"".join(frames)
    out, _, said = fed(["strace", "-o", log, "-e", "trace=pread64", PROGRAM, "serve", store.path], [data] if data else [])
    if b"exited with" not in bytes_of(log):
        raise Skipped(f"strace cannot run a program: {said.decode().strip()}")
    expect("answers", out, store.model.serve(data)[0])
    return len(re.findall(rb"^pread64\(", bytes_of(log), re.M))


def keys_of_new_arrays_that_are_absent_are_read_seldom(folder):
    puts = [put(at, b"%05d" % (at * 7919 % STORED), b"v" * VALUE_MAX) for at in range(STORED)]
    absent = [get(at, b"%05d-" % (at * 9)) for at in range(ASKED)]
    there = [get(at, b"%05d" % (at * 9)) for at in range(ASKED)]
    stores = [StoreFile(folder, 64, 10000) for _ in range(3)]
    alone, beside, found = (reads_in(folder, store, puts + gets) for store, gets in zip(stores, ([], absent, there)))
    if found - alone < ASKED // 2:
        raise Wrong(f"{ASKED} keys that are there cost {found - alone} reads, too few for this to tell anything")
    # an opening has no filters: the same keys are looked for in the blocks
    opened = reads_in(folder, stores[1], absent) - reads_in(folder, stores[0], [])
    if opened < ASKED:
        raise Wrong(f"{ASKED} keys that are not there cost {opened} reads in a store that was opened anew, too few for this to tell anything")
    # of a hundred questions some three are not refused, and a search then reads several blocks
    if beside - alone > opened // 4:
        raise Wrong(f"{ASKED} keys that are not there cost {beside - alone} reads, and {opened} without filters")


def peak_behind_puts(path, count):
    """Most bytes of memory that a run had until it had answered so many puts of different keys."""
    child = start(path)
    guard = threading.Timer(10 * DEADLINE, child.kill)
    guard.start()
    puts = b"".join(put(at, b"%07d" % (at * 7919 % count), b"v") for at in range(count))
    writer = threading.Thread(target=send, args=(child, [puts]))
    writer.start()
    try:
        left = count * len(reply(0, DONE))
        while left:
            piece = os.read(child.stdout.fileno(), min(left, 1 << 16))
            if not piece:
                raise Wrong(f"the program ended before it had answered {count:,} puts")
            left -= len(piece)
        return memory_of(child)
    finally:
        guard.cancel()
        child.kill()
        child.wait()
        writer.join()
        close(child)


def filters_take_the_memory_that_is_said(_):
    if not os.path.exists("/proc/self/status") or not os.access(MEMORY, os.W_OK):
        raise Skipped(f"no /proc here, or no {MEMORY}, without which it would take minutes")
    with tempfile.TemporaryDirectory(dir=MEMORY) as folder:
        peaks = [peak_behind_puts(StoreFile(folder, 64, 2 ** 24, 1).path, count) for count in (FEW, MANY)]
    # two bytes an entry while a journal is emptied, and 0.2 MB for levels that are more and larger
    least, most = MANY - FEW, 2 * (MANY - FEW) + 200_000
    grown = peaks[1] - peaks[0]
    if not least // 2 < grown <= most:
        raise Wrong(f"{MANY - FEW:,} entries more take {grown:,} bytes, said are {most:,}, and {least:,} of them for filters that stay")


CHECKS = [
    keys_of_new_arrays_that_are_absent_are_read_seldom,
    filters_take_the_memory_that_is_said,
]
