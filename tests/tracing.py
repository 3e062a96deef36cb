"""What the built program asks of the system, as strace tells it."""

import os
import re
import shutil
import subprocess

from program import DEADLINE, PIPES, PROGRAM, Skipped, bytes_of, close, expect, fed, read_exactly


def traced(folder, words, *inject, pieces=()):
    """What a run under strace gives, and the files and folders that it synced: the call, the path and how it ended.

    The pieces are its input, each given when the one before was read.
    """
    if not shutil.which("strace"):
        raise Skipped("strace is not here")
    log = os.path.join(folder, "log")
    open(log, "wb").close()
    wanted = [word for what in ("trace=fsync,fdatasync", *inject) for word in ("-e", what)]
    ran = fed(["strace", "-y", "-o", log, *wanted, PROGRAM, *words], pieces, cwd=folder)
    text = bytes_of(log).decode()
    if not re.search(r"^\+\+\+ exited with", text, re.M):
        raise Skipped(f"strace cannot run a program: {ran[2].decode().strip()}")
    syncs = re.findall(r"^(fsync|fdatasync)\(\d+<(.*?)>\) += (-1 \w+|0)", text, re.M)
    return ran, syncs


def calls_of(folder, words, pieces=()):
    """What a run writes, and asks of the system, in order: a write into the file with its place, a sync, or output."""
    if not shutil.which("strace"):
        raise Skipped("strace is not here")
    log = os.path.join(folder, "log")
    strace = ["strace", "-xx", "-s", "524288", "-o", log, "-e", "trace=write,pwrite64,fdatasync"]
    out, _, said = fed([*strace, PROGRAM, *words], pieces)
    if not os.path.exists(log) or b"exited with" not in bytes_of(log):
        raise Skipped(f"strace cannot run a program: {said.decode().strip()}")
    calls = []
    for name, fields in re.findall(r"^(write|pwrite64|fdatasync)\((.*)\) += \d+$", bytes_of(log).decode(), re.M):
        stream, *fields = fields.split(", ")
        if name == "write" and stream == "2":
            continue  # what the program says of its end
        if name == "fdatasync":
            calls.append(("sync", None, None))
            continue
        piece = bytes.fromhex(fields[0].strip('"').replace("\\x", ""))
        calls.append(("write", int(fields[2]), piece) if name == "pwrite64" else ("output", None, piece))
    return out, calls


def transfers_of(folder, store, frames):
    """The reads of standard input and the writes of standard output, in order, where each frame waits for the reply before it."""
    if not shutil.which("strace"):
        raise Skipped("strace is not here")
    log = os.path.join(folder, "log")
    child = subprocess.Popen(["strace", "-o", log, "-e", "trace=read,write", PROGRAM, "serve", store.path], **PIPES)
    store.model.start_run()
    for frame in frames:
        child.stdin.write(frame)
        want = store.model.answer(frame[4:])
        expect(f"{frame[:40].hex()}", read_exactly(child.stdout, len(want)), want)
    child.stdin.close()
    child.wait(DEADLINE)
    close(child)
    return [{"0": "read", "1": "write"}[stream] for stream in re.findall(r"^(?:read|write)\(([01]),", bytes_of(log).decode(), re.M)]
