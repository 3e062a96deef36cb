"""Runs the built program as a user would, compares what it does with the model in `tests/model.py`, and tells how checks went."""

import collections
import fcntl
import functools
import hashlib
import itertools
import os
import pathlib
import re
import subprocess
import sys
import tempfile
import termios
import threading
import time

import formats
import model
import promotions
import rules
from model import Store, get, info, open_cursor, stat

TOP = pathlib.Path(__file__).resolve().parent.parent
LAUNCHER = str(TOP / "castle")
PROGRAM = str(TOP / "crates" / "castle" / "out" / "castle")
DEADLINE = 20  # seconds that a run may take, but one of thousands of puts

TEXTS = {
    1: "usage: castle format FILE M C V, serve FILE, levels FILE, check FILE, workload FILE SEED COUNT, "
       "lead FILE, follow FILE, export FILE VERSION",
    2: "not a store",
    3: "frame too long",
    4: "truncated input",
    5: "device fault",
    6: "source fault",
    7: "sink fault",
    8: "no memory",
    9: "damaged",
    11: "unsound",
    12: "unknown version",
}


# Running the program

class Wrong(Exception):
    """A check that found something else than it wanted."""


class Skipped(Exception):
    """A check that wants something that isn't here."""


def expect(name, got, want):
    if got != want:
        raise Wrong(f"{name}: got {repr(got)[:120]}, wanted {repr(want)[:120]}")


def complaint(status):
    return f"castle: {TEXTS[status]}\n".encode() if status else b""


def run(words, deadline=DEADLINE, **how):
    """Output, status and complaint of a run that reads what it is given at once."""
    ran = subprocess.run([PROGRAM, *words], capture_output=True, timeout=deadline, **how)
    return ran.stdout, ran.returncode, ran.stderr


def wait_until_read(child, deadline):
    """Waits until the program has read all that was written, or has ended."""
    started = time.monotonic()
    left = bytearray(4)
    while time.monotonic() < started + deadline:
        fcntl.ioctl(child.stdin, termios.FIONREAD, left)
        if int.from_bytes(left, sys.byteorder) == 0 or child.poll() is not None:
            return
        if time.monotonic() < started + 0.01:
            os.sched_yield()
        else:
            time.sleep(0.001)
    raise Wrong("the program doesn't read its input")


def read_exactly(pipe, count):
    got = b""
    while len(got) < count:
        more = pipe.read(count - len(got))
        if not more:
            raise Wrong("the program ended, or held a reply back")
        got += more
    return got


PIPES = {"stdin": subprocess.PIPE, "stdout": subprocess.PIPE, "stderr": subprocess.PIPE, "bufsize": 0}


def start(path, program=PROGRAM):
    return subprocess.Popen([program, "serve", path], **PIPES)


def memory_of(child):
    """Most bytes of memory that a run has had so far."""
    status = pathlib.Path(f"/proc/{child.pid}/status").read_text()
    return int(re.search(r"^VmHWM:\s+(\d+) kB$", status, re.M)[1]) * 1024


def close(child):
    for pipe in (child.stdin, child.stdout, child.stderr):
        pipe.close()


class Talk:
    """A run over a store's file that is asked one command after the other, each answer being compared with the model's."""

    def __init__(self, name, store):
        self.name, self.store = name, store
        self.status = 0  # with which it is to end

    def __enter__(self):
        self.store.model.start_run()
        self.child = start(self.store.path)
        self.guard = threading.Timer(6 * DEADLINE, self.child.kill)
        self.guard.start()
        return self

    def ask(self, sent):
        """The body of the answer to a frame."""
        body = sent[4:]
        want = self.store.model.answer(body)
        self.child.stdin.write(sent)
        expect(f"{self.name}, {body[:40].hex()}", read_exactly(self.child.stdout, len(want)), want)
        return want[4:]

    def open(self, lo=b"", hi=b"", version=0):
        """The number of a new cursor."""
        return int.from_bytes(self.ask(open_cursor(0, lo, hi, version))[5:], "big")

    def __exit__(self, wrong, *_):
        self.child.stdin.close()
        try:
            rest, said = self.child.stdout.read(), self.child.stderr.read()
            status = self.child.wait(DEADLINE)
        finally:
            self.guard.cancel()
            self.child.kill()
            self.child.wait()
            close(self.child)
        if wrong is None:
            expect(f"{self.name}, end", (rest, status, said), (b"", self.status, complaint(self.status)))


def serve(path, pieces, program=PROGRAM, deadline=DEADLINE):
    """Serves the pieces, given one by one: output, status and complaint."""
    return fed([program, "serve", path], pieces, deadline)


def fed(words, pieces, deadline=DEADLINE, **how):
    """Gives a program the pieces one by one, each only when the one before was read, and then the end."""
    child = subprocess.Popen(words, **PIPES, **how)
    got = []
    reader = threading.Thread(target=lambda: got.append(child.stdout.read()))
    reader.start()
    try:
        for piece in pieces:
            view = memoryview(piece)
            while view:
                view = view[child.stdin.write(view):]
            wait_until_read(child, deadline)
    except BrokenPipeError:
        pass  # the program ended before the end of its input, as it does at a frame that is too long
    child.stdin.close()
    try:
        status = child.wait(deadline)
    except subprocess.TimeoutExpired:
        child.kill()
        raise Wrong("the program doesn't end") from None
    reader.join()
    errors = child.stderr.read()
    close(child)
    return got[0], status, errors


def send(child, pieces):
    """Writes pieces to a run until it ends."""
    try:
        for piece in pieces:
            child.stdin.write(piece)
    except OSError:
        pass  # it was killed


def bytes_of(path):
    with open(path, "rb") as file:
        return file.read()


# What a run did, beside the model

def expect_said(name, data, store):
    """The file opens, breaks no rule of a sound one, and says what the store has."""
    contents = formats.read(data)
    expect(f"{name}, broken rules", rules.breaches(data, contents), [])
    counted = formats.recounted(data, contents)
    stored = sum(array.entries for array in formats.arrays_of(counted.manifest))
    expect(f"{name}, entries, of twice the updates at most", stored <= 2 * counted.manifest.updates, True)
    expect(f"{name}, counted in blocks", list(formats.levels_text(counted)), list(formats.levels_text(contents)))
    expect_alike(name, formats.store_of(data, contents), store)
    expect_levels(name, data, store)


def expect_levels(name, data, store):
    """The file has just the levels that its changes lead to, whatever blocks they lie in, and whenever its journal was emptied."""
    contents = formats.read(data)
    manifest, journal = contents.manifest, [change for change, _ in contents.journal]
    mem = store.limits[0]
    times = manifest.changes // mem
    emptied = promotions.emptied_so_often(store.changes, mem, times)
    expect(f"{name}, journal", journal, store.changes[times * mem:])
    expect(f"{name}, a journal that fits both regions", len(journal) <= 2 * mem - 2, True)
    expect(f"{name}, generation, region and slot", (contents.head.generation, contents.head.region, contents.slot),
           (times + 1, times % 2, times % 2))
    expect(f"{name}, manifest", manifest[:5], emptied[:5])
    expect(f"{name}, marks of dropped versions", manifest.marks, promotions.marks_of(emptied))
    expect(f"{name}, levels", [level.number for level in manifest.levels], sorted(emptied.levels))
    for level in manifest.levels:
        horizon, parts = emptied.levels[level.number]
        found = [promotions.Part(array.id, array.versions, array.least, tuple(formats.entries_of(data, array)))
                 for array in level.arrays]
        expect(f"{name}, level {level.number}", (level.horizon, found), (horizon, parts))


def expect_told(name, path):
    """The job `levels` prints what the file's bytes say, with the status that they lead to, and leaves the file alone."""
    data = bytes_of(path)
    text, status = formats.levels_printed(data)
    expect(f"{name}, levels", run(["levels", path]), (text, status, complaint(status)))
    expect(f"{name}, the file's bytes are the same", bytes_of(path) == data, True)
    expect_checked(name, path)
    return text.decode()


@functools.lru_cache(maxsize=None)
def has_check():
    """Whether the program has the word check. One that has not answers it as any wrong word."""
    with tempfile.TemporaryDirectory() as folder:
        return run(["check", os.path.join(folder, "absent.store")]) != (b"", 1, complaint(1))


def wants_check():
    if not has_check():
        raise Skipped("the program has no word check yet")


UNASKED = collections.Counter()  # files of which the program was not asked whether they are sound, since it has no such word


def left_behind(path):
    """A file's bytes, times and number, and its folder's names and time: what a run that writes would leave otherwise."""
    found, folder = os.stat(path), os.path.dirname(path)
    return bytes_of(path), (found.st_mtime_ns, found.st_ctime_ns, found.st_ino, os.stat(folder).st_mtime_ns), sorted(os.listdir(folder))


def expect_checked(name, path):
    """The job `check` prints what the rules say of the file's bytes, and leaves all as it is. The line and the status."""
    if not has_check():
        UNASKED["files"] += 1
        return None
    before = left_behind(path)
    text, status = rules.checked(before[0])
    expect(f"{name}, check", run(["check", path]), (text, status, complaint(status)))
    expect(f"{name}, check leaves all as it is", left_behind(path) == before, True)
    return text, status


SOUND = set()  # of files that are sound what their bytes come to, so that the same bytes are looked at once


def expect_sound(name, data):
    """A file with these bytes is sound, and the job `check` says so."""
    digest = hashlib.sha256(data).digest()
    if digest in SOUND:
        return
    expect(f"{name}, the rules", rules.checked(data), (b"sound\n", model.ENDED))
    with scratch(True) as folder:
        path = os.path.join(folder, "left.store")
        with open(path, "wb") as file:
            file.write(data)
        expect_checked(name, path)
    SOUND.add(digest)


def expect_alike(name, got, store):
    for what in ("limits", "parents", "dropped", "pairs"):
        expect(f"{name}, {what}", getattr(got, what), getattr(store, what))
    expect(f"{name}, counts", got.counts(), store.counts())


class StoreFile:
    """A new store in a file, made by the program, and the model of it."""

    numbers = itertools.count()

    def __init__(self, folder, mem=64, changes=1000, versions=10):
        self.path = os.path.join(folder, f"{next(self.numbers)}.store")
        self.model = Store(mem, changes, versions)
        words = ["format", self.path, str(mem), str(changes), str(versions)]
        expect("format", run(words), (self.model.line(), 0, b""))
        self.expect_bytes("format")

    def expect_bytes(self, name):
        """The file has the bytes of the model while its journal was never emptied, and what they say from then on."""
        data = bytes_of(self.path)
        if len(self.model.changes) > self.model.limits[0] or self.model.emptied[0]:
            expect_said(name, data, self.model)
            expect_told(name, self.path)
        elif data != formats.unpublished(self.model):
            raise Wrong(f"{name}: the file doesn't have the bytes of the model")

    def expect_served(self, name, pieces, want=None, **how):
        """Serves the pieces in one run, and compares all that it did with the model and with what is wanted."""
        out, status = self.model.serve(b"".join(pieces))
        if want is not None:
            expect(f"{name}, the model", (out, status), want)
        expect(name, serve(self.path, pieces, **how), (out, status, complaint(status)))
        self.expect_bytes(name)

    def expect_answers(self, name, frames):
        """Serves the frames in one run, and compares the answers alone."""
        out, status = self.model.serve(b"".join(frames))
        expect(name, serve(self.path, [b"".join(frames)]), (out, status, complaint(status)))


def hexed(text):
    return bytes.fromhex(text)


PUT_A = hexed("0000000f 00000007 01 00000000 0001 61 0001 31")
GET_A = hexed("0000000c 00000008 03 00000000 0001 61")


def in_every_cutting(folder, name, data, want, mem=64):
    """The whole, each cutting into two pieces, and one byte at a time; each over a new store."""
    StoreFile(folder, mem).expect_served(f"{name}, whole", [data], want)
    for place in range(1, len(data)):
        StoreFile(folder, mem).expect_served(f"{name}, cut at {place}", [data[:place], data[place:]], want)
    StoreFile(folder, mem).expect_served(f"{name}, byte by byte", [data[i:i + 1] for i in range(len(data))], want)


def expect_opened(name, path, data):
    """Has the levels of a file with these bytes told, and serves it: as the model does, or with a named status and its bytes as they were."""
    with open(path, "wb") as file:
        file.write(data)
    expect_told(name, path)
    status, store = formats.opened(data)
    if store is None:
        expect(name, serve(path, [GET_A]), (b"", status, complaint(status)))
        expect(f"{name}, the file's bytes are the same", bytes_of(path) == data, True)
    else:
        # an array with a damaged block is found when it is asked, and not at the opening
        versions = [version for version in range(min(6, len(store.parents))) if version not in store.unread]
        sent = stat(99) + b"".join(get(i, b"%d" % i, version) + info(i, version) for version in versions for i in range(10))
        out, status = store.serve(sent)
        expect(name, serve(path, [sent]), (out, status, complaint(status)))
    return status


def expect_prefix(name, path, store, frames, answered):
    """The file has what the store has after a prefix of the frames, which holds those that were answered: that store."""
    status, got = formats.opened(bytes_of(path))
    expect(f"{name}, the file", status, 0)
    for sent, piece in enumerate(frames):
        if sent >= answered and store.counts()[2] == got.counts()[2]:
            break
        store.serve(piece)
    expect_said(name, bytes_of(path), store)
    expect_told(name, path)
    return store


def expect_kept(name, history, answered, data):
    """The bytes open as the store that has what is acknowledged, and at most what is under way. The number of its changes.

    Of the commands that were sent so many were answered. `history` has `least`, how many changes were acknowledged before them, or
    None if no store was there; `may_have`, which numbers of changes a crash may leave; and `stores`, what the store is
    after each number of changes.
    """
    status, got = formats.opened(data)
    if status == model.NOT_A_STORE and history.least is None and not answered:
        return 0
    expect(f"{name}, the file", status, 0)
    changes, allowed = got.counts()[2], history.may_have(answered)
    if changes not in allowed:
        raise Wrong(f"{name}: {changes} changes are there, where {answered} commands are answered and there may be {allowed}")
    expect_alike(name, got, history.stores[changes])
    expect(f"{name}, unread", got.unread, set())
    return changes


# Checks

def in_memory(check):
    """Has a check of many changes run in memory, where that can be, since each change is synced twice."""
    check.in_memory = True
    return check


def folder_for(check):
    """A new folder, which is removed behind the check."""
    return scratch(getattr(check, "in_memory", False))


def scratch(is_in_memory):
    """A new folder, in memory where it is to be and can be."""
    has_memory = is_in_memory and os.access("/dev/shm", os.W_OK)
    return tempfile.TemporaryDirectory(dir="/dev/shm" if has_memory else None)


def run_checks(title, checks, wanted):
    """Has the launcher build the program, runs the checks whose names have one of the wanted words, and tells each. The status."""
    if subprocess.run([LAUNCHER, "--build"], stdin=subprocess.DEVNULL, stdout=subprocess.DEVNULL).returncode != 0:
        print(f"{title}: FAILED: the program isn't built")
        print("0 passed, 1 failed")
        return 1
    passed = failed = 0
    for check in checks:
        if wanted and not any(word in check.__name__ for word in wanted):
            continue
        name = check.__name__.replace("_", " ")
        try:
            with folder_for(check) as folder:
                check(folder)
        except Skipped as why:
            print(f"{title}: skipped: {name}: {why}")
        except (Wrong, subprocess.SubprocessError, OSError) as wrong:
            print(f"{title}: FAILED: {name}: {wrong}")
            failed += 1
        else:
            print(f"{title}: {name}")
            passed += 1
    if UNASKED["files"]:
        print(f"{title}: skipped: what `check` says of {UNASKED['files']} files of these checks: the program has no such word yet")
    print(f"{passed} passed, {failed} failed")
    return 1 if failed or not passed else 0
