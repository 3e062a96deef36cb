"""Ends of a run at every place: a file that may not grow, a full device, an output that nobody reads, an input that ends."""

import bisect
import itertools
import os
import resource
import shutil
import signal
import subprocess

import model
from faulty import Rig, Ran, expect_goes_on, expect_outcome, starts
from model import BLOCK
from program import DEADLINE, PROGRAM, Skipped, close, complaint, expect, expect_kept, expect_sound, read_exactly, run, start


def a_file_that_may_grow_no_more_loses_nothing(folder):
    rig = Rig(folder)
    for begun, data, script in starts(folder):
        writes = [call for call in rig.serve(None, data, script).calls if call.kind == "file.write"]
        # no room for a write at all, for half of it, and for all but a byte
        for most in sorted({call.place + part for call in writes for part in (0, call.size // 2, call.size - 1)}):
            def limited():
                signal.signal(signal.SIGXFSZ, signal.SIG_IGN)
                resource.setrlimit(resource.RLIMIT_FSIZE, (most, most))

            rig.has(data)
            name, got = f"{begun}, {most} bytes", run(["serve", rig.path], input=b"".join(script.frames), preexec_fn=limited)
            expect_outcome(name, script, Ran(*got, []), rig.bytes(), model.DEVICE)
            expect_goes_on(name, rig, rig.bytes(), script)


# A device of so many bytes for the store at $2: a run over it with the input $3, and what is there then
ON_SMALL_DEVICE = """
mount -t tmpfs -o size="$1" none "$4" && cp "$2" "$4/a.store" || exit 99
"$5" serve "$4/a.store" <"$3"
status=$?
cp "$4/a.store" "$2"
exit $status
"""


def a_device_that_is_full_loses_nothing(folder):
    rig, device = Rig(folder), os.path.join(folder, "device")
    os.mkdir(device)
    seen = set()
    for begun, data, script in starts(folder):
        pages = len(data) // BLOCK
        for size in range(pages, pages + 20):
            rig.has(data)
            with open(rig.asked, "wb") as asked:
                asked.write(b"".join(script.frames))
            words = [str(size * BLOCK), rig.path, rig.asked, device, PROGRAM]
            ran = subprocess.run(["unshare", "--map-root-user", "--mount", "/bin/sh", "-c", ON_SMALL_DEVICE, "sh", *words],
                                 capture_output=True, timeout=DEADLINE) if shutil.which("unshare") else None
            if ran is None or ran.returncode in (1, 99):
                raise Skipped("no file system can be mounted here")
            name, got = f"{begun}, {size} pages", Ran(ran.stdout, ran.returncode, ran.stderr, [])
            expect_outcome(name, script, got, rig.bytes(), model.ENDED if ran.returncode == 0 else model.DEVICE)
            expect_goes_on(name, rig, rig.bytes(), script)
            seen.add(ran.returncode)
    expect("statuses", seen, {model.ENDED, model.DEVICE})


def an_output_that_nobody_reads_any_more_loses_nothing(folder):
    rig = Rig(folder)
    for begun, data, script in starts(folder):
        for last, frame in enumerate(script.frames):
            rig.has(data)
            child = start(rig.path)
            for number, earlier in enumerate(script.frames[:last]):
                child.stdin.write(earlier)
                want = script.out[script.ends[number]:script.ends[number + 1]]
                expect(f"{begun}, reply {number}", read_exactly(child.stdout, len(want)), want)
            child.stdout.close()
            child.stdin.write(frame)
            status, said = child.wait(DEADLINE), child.stderr.read()
            close(child)
            name, ran = f"{begun}, closed before reply {last}", Ran(script.out[:script.ends[last]], status, said, [])
            expect_outcome(name, script, ran, rig.bytes(), model.SINK)
            expect_goes_on(name, rig, rig.bytes(), script)


def an_input_that_ends_anywhere_loses_nothing(folder):
    rig = Rig(folder)
    for begun, data, script in starts(folder):
        frame_ends = [0, *itertools.accumulate(map(len, script.frames))]
        sent = b"".join(script.frames)
        for end in range(len(sent)):
            rig.has(data)
            ran = rig.run(None, "serve", sent=sent[:end])
            answered = bisect.bisect(frame_ends, end) - 1
            status = model.ENDED if end in frame_ends else model.TRUNCATED
            name = f"{begun}, {end} bytes"
            expect(name, (ran.out, ran.status, ran.said), (script.out[:script.ends[answered]], status, complaint(status)))
            expect(f"{name}, changes", expect_kept(name, script, answered, rig.bytes()), script.made[answered])
            expect_sound(name, rig.bytes())


CHECKS = [
    a_file_that_may_grow_no_more_loses_nothing,
    a_device_that_is_full_loses_nothing,
    an_output_that_nobody_reads_any_more_loses_nothing,
    an_input_that_ends_anywhere_loses_nothing,
]
