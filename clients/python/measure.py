#!/usr/bin/env python3
"""Measures pipelined gets through the client beside the program alone, fed from a file.

`python3 clients/python/measure.py [CHANGES [GETS]]`. The program is that of CASTLE_PROGRAM, or the launcher. Each
figure is the best of five; both runs are over the same store, opened before the clock starts (the client), or with
the time of a run without gets taken away (the program alone).
"""

import os
import pathlib
import random
import subprocess
import sys
import tempfile
import time
from typing import Callable, List

sys.path.insert(0, str(pathlib.Path(__file__).resolve().parent))

from castle import Store, frames  # noqa: E402
from castle.process import find_program  # noqa: E402

TURNS = 5


def best(run: Callable[[], float]) -> float:
    """The least of several measurements, in seconds."""
    return min(run() for _ in range(TURNS))


def alone(path: str, data: bytes, folder: str) -> float:
    """Seconds of a run of the program over a file of frames, with its replies in another file."""
    name, out = os.path.join(folder, "frames"), os.path.join(folder, "replies")
    with open(name, "wb") as file:
        file.write(data)
    with open(name, "rb") as source, open(out, "wb") as sink:
        started = time.perf_counter()
        subprocess.run([find_program(), "serve", path], stdin=source, stdout=sink, check=True)
        return time.perf_counter() - started


def through_client(path: str, keys: List[bytes]) -> float:
    """Seconds of the same gets in a batch of an open store."""
    with Store(path) as store:
        started = time.perf_counter()
        with store.batch() as batch:
            for key in keys:
                batch.get(0, key)
        return time.perf_counter() - started


def main(changes: int = 1000, gets: int = 200000) -> None:
    """Fills a store with puts at version 0, and measures."""
    chance = random.Random(1)
    with tempfile.TemporaryDirectory() as folder:
        path = os.path.join(folder, "a.store")
        Store.format(path, 4096, 10_000_000, 10)
        with Store(path) as store, store.batch() as batch:
            for _ in range(changes):
                batch.put(0, b"key/%d" % chance.randrange(changes), chance.randbytes(30))
        keys = [b"key/%d" % chance.randrange(changes) for _ in range(gets)]
        data = b"".join(frames.get(tag, 0, key) for tag, key in enumerate(keys))
        opening = best(lambda: alone(path, b"", folder))
        fed = best(lambda: alone(path, data, folder)) - opening
        client = best(lambda: through_client(path, keys))
    print(f"{changes:,} changes, {gets:,} gets: the program alone {fed / gets * 1e6:.2f} µs a get, "
          f"through the client {client / gets * 1e6:.2f} µs, {client / fed:.2f} times")


if __name__ == "__main__":
    main(*map(int, sys.argv[1:3]))
