"""The job `workload`: its changes, its summary, and the bounds that its store keeps."""

import os
import pty
import re
import resource
import signal
import subprocess
import threading

import formats
import model
import promotions
import rules
import workloads
from model import BLOCK, scan, stat
from program import (
    DEADLINE, LAUNCHER, PUT_A, StoreFile, bytes_of, complaint, expect, expect_alike, expect_told, in_memory, run, serve)


def worked(path, seed, count, deadline=6 * DEADLINE):
    """What the job `workload` prints, which ends well."""
    out, status, errors = run(["workload", path, str(seed), str(count)], deadline)
    expect(f"workload {seed} {count}", (status, errors), (0, b""))
    return out.decode()


def at_a_terminal(words, deadline):
    """Output and status of a run whose complaints go to a terminal, and what that gets to show."""
    own, other = pty.openpty()
    shown = []

    def read_on():
        try:
            for piece in iter(lambda: os.read(own, 4096), b""):
                shown.append(piece)
        except OSError:
            pass  # nobody has the terminal any more

    reader = threading.Thread(target=read_on)
    with subprocess.Popen(words, stdin=subprocess.DEVNULL, stdout=subprocess.PIPE, stderr=other) as child:
        os.close(other)
        reader.start()
        try:
            out, _ = child.communicate(timeout=deadline)
        except subprocess.TimeoutExpired:
            child.kill()
            raise
    reader.join()
    os.close(own)
    return out, child.returncode, b"".join(shown)


def text_of(lines):
    return "".join(f"{line}\n" for line in lines)


def every_pair(store):
    """Scans of all versions, page by page."""
    for version, pairs in enumerate(store.pairs):
        keys = sorted(pairs)
        for place in range(0, max(1, len(keys)), model.PAIRS_MAX):
            yield scan(version, keys[place] if place else b"", version=version)


def workloads_are_as_the_model_has_them(folder):
    path = os.path.join(folder, "a.store")
    want = "workload seed 1 changes 0\nversions 1 updates 0 clones 0\nlevels 0 arrays 0 stored 0 written 0\ndensity none\n"
    expect("no changes", worked(path, 1, 0), want)
    expect("no changes, the file", bytes_of(path) == formats.unpublished(workloads.store_after([])), True)
    for seed, count in ((0, 1), (1557, 6), (1, 64), (1, 65), (2, 128), (2 ** 64 - 1, 500), (2 ** 63, 777), (7, 3000), (1, 2000)):
        name, store, changes = f"seed {seed}, {count}", StoreFile(folder), list(workloads.changes(seed, count))
        store.expect_served(f"{name}, what was there", [PUT_A])
        store.model = workloads.store_after(changes)
        expected = promotions.contents_after(changes, store.model.limits)
        expect(name, worked(store.path, seed, count), text_of(workloads.summary_text(seed, expected)))
        store.expect_bytes(name)
        store.expect_answers(f"{name}, served", [*every_pair(store.model), stat(1)])
    # the program draws just the frames that the model draws: the same file comes of them
    run(["format", path, *map(str, workloads.LIMITS)])
    serve(path, [b"".join(workloads.frames(1, 2000))], deadline=6 * DEADLINE)
    other = os.path.join(folder, "b.store")
    inside, outside = os.pipe()
    os.write(outside, PUT_A)
    expect("frames", run(["workload", other, "1", "2000"], 6 * DEADLINE, stdin=inside)[1], 0)
    expect("frames, the file", bytes_of(other) == bytes_of(path), True)
    expect("frames, input left", os.read(inside, 100), PUT_A)
    os.close(inside)
    os.close(outside)


def expect_bounded(name, path, seed, text):
    """The file opens, keeps the rules and the bounds, and the text is that of its blocks."""
    data = bytes_of(path)
    contents = formats.recounted(data, formats.read(data))
    expect(f"{name}, broken rules", rules.breaches(data, contents), [])
    expect(f"{name}, beyond bounds", list(workloads.beyond_bounds(contents)), [])
    expect(f"{name}, the text", text, text_of(workloads.summary_text(seed, contents)))
    expect(f"{name}, levels", expect_told(name, path), text_of(formats.levels_text(contents)))
    return contents


def a_long_workload_keeps_its_bounds(folder):
    store, other = StoreFile(folder), os.path.join(folder, "other.store")
    text = worked(store.path, 1, 20000, 600)
    expect("the same text again", worked(other, 1, 20000, 600), text)
    contents = expect_bounded("20,000", other, 1, text)
    expect("written", contents.manifest.written <= 720_000, True)
    changes = list(workloads.changes(1, 20000))
    store.model = workloads.store_after(changes)
    store.expect_bytes("20,000")
    expect("the model's text", text, text_of(workloads.summary_text(1, promotions.contents_after(changes, store.model.limits))))
    store.expect_answers("20,000, served", [*every_pair(store.model), stat(1)])


@in_memory
def a_workload_of_200_000_changes_keeps_its_bounds(folder):
    store = StoreFile(folder)
    # the launcher shows meanwhile how far it is
    out, status, shown = at_a_terminal([LAUNCHER, "--overwrite", "workload", store.path, "3", "200000"], 1200)
    expect("200,000", (status, re.sub(rb"\r\x1b\[K(castle: \d+ MB\r)?", b"", shown)), (0, b""))
    expect_bounded("200,000", store.path, 3, out.decode())
    store.model = workloads.store_after(workloads.changes(3, 200_000))
    expect_alike("200,000", formats.opened(bytes_of(store.path))[1], store.model)
    store.expect_answers("200,000, served", [*every_pair(store.model), stat(1)])


def a_workload_that_fails_prints_nothing(folder):
    def limited(most):
        """Makes every write behind so many bytes of a file fail, as on a full device."""
        signal.signal(signal.SIGXFSZ, signal.SIG_IGN)
        resource.setrlimit(resource.RLIMIT_FSIZE, (most, most))

    path = os.path.join(folder, "a.store")
    first = formats.first_free(workloads.MEM) * BLOCK
    # within the journal, within the manifest of format, and behind that
    for most in (5000, 10000, first + 10, first + BLOCK):
        got = run(["workload", path, "1", "2000"], preexec_fn=lambda: limited(most))
        expect(f"{most} bytes", got, (b"", 5, complaint(5)))


CHECKS = [
    workloads_are_as_the_model_has_them,
    a_long_workload_keeps_its_bounds,
    a_workload_of_200_000_changes_keeps_its_bounds,
    a_workload_that_fails_prints_nothing,
]
