"""Faults of the device: syncs and writes that fail, a device that is full, and rights that are missing."""

import os
import resource
import shutil
import signal
import subprocess

import formats
import model
from model import BLOCK, Store, bodies_of, get, put, reply
from program import DEADLINE, PROGRAM, PUT_A, Skipped, StoreFile, bytes_of, complaint, expect, expect_prefix, expect_sound, fed, run, serve
from tracing import traced


def a_sync_that_fails_is_a_device_fault(folder):
    words, line, fault = ["format", "a.store", "4", "100", "10"], Store(4, 100, 10).line(), (b"", 5, complaint(5))
    # the file was made at the first try, and its name is as little durable at the next
    for turn in range(2):
        for error in ("EIO", "ENOSPC", "EACCES"):
            got, syncs = traced(folder, words, f"inject=fsync:error={error}")
            expect(f"the folder, {error}, {turn}", (got, len(syncs)), (fault, 2))
    for error in ("EINVAL", "ENOSYS", "EOPNOTSUPP"):
        got, syncs = traced(folder, words, f"inject=fsync:error={error}")
        expect(f"a system without it, {error}", (got, len(syncs) > 2), ((line, 0, b""), True))
    for call in (1, 2, 3):
        got, syncs = traced(folder, words, f"inject=fdatasync:error=EIO:when={call}")
        expect(f"the file, {call}", (got, syncs[-1][2]), (fault, "-1 EIO"))
    # the syncs of a serving run: at its opening, and two for each put
    puts = [put(tag, b"%d" % tag, b"v") for tag in range(3)]
    for call in range(1, 8):
        got, syncs = traced(folder, ["serve", StoreFile(folder).path], f"inject=fdatasync:error=EIO:when={call}", pieces=puts)
        done = b"".join(reply(tag, model.DONE) for tag in range((call - 2) // 2))
        if call > 1:
            done += reply((call - 2) // 2, model.DEVICE_FAULT)
        expect(f"serve, sync {call}", (got, len(syncs)), ((done, 5, complaint(5)), call + (call > 1)))


def a_fault_amid_a_publication_leaves_the_store_before_or_after(folder):
    puts = [put(tag, b"%d" % tag, b"v") for tag in range(6)]
    seen = set()
    for call, most in (("fdatasync", 17), ("pwrite64", 17)):
        for number in range(1, most + 1):
            store = StoreFile(folder, 4, 100, 10)
            how = f"trace=fsync,fdatasync,{call}", f"inject={call}:error=ENOSPC:when={number}"
            got, _ = traced(folder, ["serve", store.path], *how, pieces=puts)
            statuses = [body[4] for body in bodies_of(got[0])]
            answered = statuses.count(model.DONE)
            expect(f"{call} {number}", (got[1], got[2]), (5, complaint(5)))
            store.model = expect_prefix(f"{call} {number}", store.path, store.model, puts, answered)
            expect(f"{call} {number}, acknowledged", store.model.counts()[2] in (answered, answered + 1), True)
            seen.add((call, answered, formats.read(bytes_of(store.path)).head.generation))
            store.expect_answers(f"{call} {number}, again", [*puts, *(get(tag, b"%d" % tag) for tag in range(6))])
    expect("what was seen", seen >= {(call, 5, generation) for call in ("fdatasync", "pwrite64") for generation in (1, 2)}, True)


def a_folder_or_file_without_leave_is_a_device_fault(folder):
    nobody = {}
    program, inner = os.path.join(folder, "program"), os.path.join(folder, "inner")
    shutil.copy(PROGRAM, program)
    os.chmod(program, 0o755)
    os.chmod(folder, 0o711)
    os.mkdir(inner)
    if os.geteuid() == 0:  # who may read each folder
        nobody = {"user": 65534, "group": 65534, "extra_groups": []}
        os.chown(inner, 65534, 65534)
    path = os.path.join(inner, "a.store")

    def run_there(*words):
        ran = subprocess.run([program, *words], input=PUT_A, capture_output=True, timeout=DEADLINE, **nobody)
        return ran.stdout, ran.returncode, ran.stderr

    try:
        expect("no job", run_there()[1], 1)
    except (subprocess.SubprocessError, PermissionError) as wrong:
        raise Skipped(f"no run without rights: {wrong}") from None
    made, fault = Store(4, 100, 10), (b"", 5, complaint(5))
    os.chmod(inner, 0o300)
    for turn in range(2):
        expect(f"format, {turn}", run_there("format", path, "4", "100", "10"), fault)
    os.chmod(inner, 0o700)
    expect("format, with leave", run_there("format", path, "4", "100", "10"), (made.line(), 0, b""))
    os.chmod(inner, 0o300)
    expect("serve", run_there("serve", path), fault)
    os.chmod(inner, 0o700)
    os.chmod(path, 0o400)
    expect("serve, the file not to be written", run_there("serve", path), fault)
    os.chmod(path, 0o600)
    expect("the file", bytes_of(path) == formats.unpublished(made), True)
    out, status = made.serve(PUT_A)
    expect("serve, with leave", run_there("serve", path), (out, status, b""))


def a_full_device_is_a_device_fault(folder):
    if os.path.exists("/dev/full"):
        for words in (["format", "/dev/full", "4", "100", "10"], ["serve", "/dev/full"]):
            expect(f"{words}", run(words, input=PUT_A), (b"", 5, complaint(5)))

    def limited(most):
        """Makes every write behind so many bytes of a file fail, as on a full device."""
        signal.signal(signal.SIGXFSZ, signal.SIG_IGN)
        resource.setrlimit(resource.RLIMIT_FSIZE, (most, most))

    path = os.path.join(folder, "small.store")
    words = ["format", path, "4", "100", "10"]
    expect("format", run(words, preexec_fn=lambda: limited(9000)), (b"", 5, complaint(5)))
    expect("serve after it", run(["serve", path], input=PUT_A), (b"", 2, complaint(2)))
    # the record of the third put lies across the end of what may be written
    store = StoreFile(folder)
    puts = [put(tag, b"%d" % tag, b"value") for tag in range(5)]
    want = reply(0, model.DONE) + reply(1, model.DONE) + reply(2, model.DEVICE_FAULT)
    most = 2 * BLOCK + 2 * len(formats.record_of((model.PUT, 0, b"0", b"value"))) + 5
    got = fed([PROGRAM, "serve", store.path], puts, preexec_fn=lambda: limited(most))
    expect("puts", got, (want, 5, complaint(5)))
    status, store.model = formats.opened(bytes_of(store.path))
    expect_sound("kept", bytes_of(store.path))
    expect("kept", (status, store.model.changes), (0, [(model.PUT, 0, key, b"value") for key in (b"0", b"1")]))
    out, status = store.model.serve(b"".join(puts))
    expect("again", serve(store.path, [b"".join(puts)]), (out, status, b""))


CHECKS = [
    a_sync_that_fails_is_a_device_fault,
    a_fault_amid_a_publication_leaves_the_store_before_or_after,
    a_folder_or_file_without_leave_is_a_device_fault,
    a_full_device_is_a_device_fault,
]
