"""Builds the library of `tests/shim.c`, under which one call of a program fails, and says how a program is started under it."""

import atexit
import collections
import functools
import os
import pathlib
import shutil
import subprocess
import tempfile

SOURCE = pathlib.Path(__file__).resolve().parent / "shim.c"
FOR_EVER = 0

# The calls of a kind from this number on, so many of them, that go this way: "error", "short", "full", "stop", "torn", "cut" or
# "drop". The error is that of the ways that have one.
Fault = collections.namedtuple("Fault", "kind number way error times", defaults=(0, 1))
COUNTED = Fault("memory.allocate", 0, "none")  # has allocations noted, and lets all be

# A call that was made: where in the file, of how many bytes, what it returned, and which way it went.
Call = collections.namedtuple("Call", "kind place size result way")


@functools.lru_cache(maxsize=None)
def library():
    """The path of the library, compiled at the first use and removed at the end; None if there is no compiler."""
    compiler = next(filter(None, map(shutil.which, ("cc", "gcc", "clang"))), None)
    if compiler is None:
        return None
    folder = tempfile.mkdtemp()
    atexit.register(shutil.rmtree, folder, ignore_errors=True)
    path = os.path.join(folder, "shim.so")
    subprocess.run([compiler, "-shared", "-fPIC", "-O1", "-o", path, str(SOURCE)], check=True)
    return path


def settings(path, fault=None, log=None):
    """The variables under which a program that has the store at this path meets the fault. It adds its calls to the log."""
    told = {"LD_PRELOAD": library(), "SHIM_FILE": path}
    if fault is not None:
        told["SHIM_FAULT"] = f"{fault.kind} {fault.number} {fault.times} {fault.way} {fault.error}"
    if log is not None:
        told["SHIM_LOG"] = log
    return told


def calls_in(log):
    """The calls that a log has."""
    with open(log, encoding="ascii") as lines:
        for kind, *numbers, way in map(str.split, lines):
            yield Call(kind, *map(int, numbers), way)
