"""Calls that fail, one after the other, each in every way: those that reach the file, its folder, the input and the output."""

import errno
import os
import re
import shutil
import subprocess

import formats
import model
from faulty import EARLIER, Rig, counts_of, expect_goes_on, expect_outcome, made_over, starts
from model import Store
from program import DEADLINE, PROGRAM, Skipped, bytes_of, complaint, expect, expect_alike
from shim import FOR_EVER, Fault

INTERRUPTED = ("file.open", "file.read", "file.write", "file.fdatasync", "folder.open", "folder.fsync", "input.read", "output.write")
STREAMS = ("input.read", "output.write")
TRANSFERS = ("file.read", "file.write", *STREAMS)

# What a call that fails leads to, by what it reaches.
STATUSES = {"file": model.DEVICE, "folder": model.DEVICE, "input": model.SOURCE, "output": model.SINK}
# These may fail, and the run does what it does without.
SPARED = {
    "file.readlink": "a path that can't be looked at is taken as no link, and the first sync refuses one that is",
    "file.close": "all is synced by then",
    "folder.close": "it was opened to be synced alone",
    "input.lseek": "it begins where it stands",
}
AT_AN_OFFSET = {"pread64": "read", "pwrite64": "write"}  # what strace calls a transfer of the file
TRIES = 16  # docs/ERRORS.md: of a read of the input or a write of the output that signals interrupt


def each_call(calls, kinds=None):
    """Each call of these kinds, or of any that reaches the store or a stream, by its number."""
    for kind, count in sorted(counts_of(calls).items()):
        if kind in kinds if kinds else kind.split(".")[0] in STATUSES:
            for number in range(1, count + 1):
                yield kind, number


def status_of(kind):
    """The status of a run in which a call of this kind fails for good."""
    return model.ENDED if kind in SPARED else STATUSES[kind.split(".")[0]]


def faults_of(kind, number):
    """What may become of a call that is made once, and of those after it: faults that no second try mends."""
    yield Fault(kind, number, "error", errno.EIO)
    yield Fault(kind, number, "error", errno.EIO, FOR_EVER)
    if kind.endswith(("write", "sync", "open")):
        yield Fault(kind, number, "error", errno.ENOSPC, FOR_EVER)
    if kind.endswith("write"):
        yield Fault(kind, number, "full", errno.ENOSPC, FOR_EVER)


def a_call_that_fails_is_told_and_loses_nothing(folder):
    rig, seen = Rig(folder), set()
    for start, data, script in starts(folder):
        whole = rig.serve(None, data, script)
        expect_outcome(start, script, whole, rig.bytes(), model.ENDED)
        for kind, number in each_call(whole.calls):
            for fault in faults_of(kind, number):
                name = f"{start}, {fault}"
                ran = rig.serve(fault, data, script)
                expect_outcome(name, script, ran, rig.bytes(), status_of(kind))
                if rig.bytes() not in seen:
                    seen.add(rig.bytes())
                    expect_goes_on(name, rig, rig.bytes(), script)


def expect_unharmed(name, rig, data, script, want, faults):
    """With each of these faults a run over these bytes answers all, and leaves the bytes that are wanted."""
    for fault in faults:
        ran = rig.serve(fault, data, script)
        expect_outcome(f"{name}, {fault}", script, ran, rig.bytes(), model.ENDED)
        expect(f"{name}, {fault}, the file", rig.bytes() == want, True)


def a_call_that_a_signal_interrupts_is_made_again(folder):
    rig = Rig(folder)
    for start, data, script in starts(folder):
        calls, want = rig.serve(None, data, script).calls, rig.bytes()
        for kind, number in each_call(calls, INTERRUPTED):
            most = TRIES - 1 if kind in STREAMS else 100
            expect_unharmed(start, rig, data, script, want, [Fault(kind, number, "error", errno.EINTR, times) for times in (1, most)])
            if kind in STREAMS:
                fault = Fault(kind, number, "error", errno.EINTR, TRIES)
                ran = rig.serve(fault, data, script)
                expect_outcome(f"{start}, {fault}", script, ran, rig.bytes(), status_of(kind))


def a_transfer_that_is_short_is_gone_on_with(folder):
    rig = Rig(folder)
    for start, data, script in starts(folder):
        calls, want = rig.serve(None, data, script).calls, rig.bytes()
        for kind, number in each_call(calls, TRANSFERS):
            expect_unharmed(start, rig, data, script, want, [Fault(kind, number, "short", times=times) for times in (1, FOR_EVER)])


def a_formatting_whose_call_fails_is_told_and_can_be_made_again(folder):
    rig, words, new = Rig(folder), ("format", "4", "1000", "100"), Store(4, 1000, 100)
    for start, data in (("no file", None), ("a store", made_over(folder, 4, EARLIER)[0])):
        rig.has(data)
        whole = rig.run(None, *words)
        expect(start, (whole.out, whole.status), (new.line(), model.ENDED))
        for kind, number in each_call(whole.calls):
            for fault in faults_of(kind, number):
                name, status = f"{start}, {fault}", status_of(kind)
                rig.has(data)
                ran = rig.run(fault, *words)
                expect(name, (ran.status, ran.said), (status, complaint(status)))
                expect(f"{name}, the line", ran.out, new.line()[:len(ran.out)] if status == model.SINK else b"" if status else new.line())
                again = rig.run(None, *words)
                expect(f"{name}, again", (again.out, again.status), (new.line(), model.ENDED))
                expect_alike(f"{name}, again", formats.opened(rig.bytes())[1], new)


def levels_whose_call_fails_are_told(folder):
    rig = Rig(folder)
    for start, data, _ in starts(folder):
        rig.has(data)
        whole = rig.run(None, "levels")
        text, status = formats.levels_printed(data)
        expect(start, (whole.out, whole.status), (text, status))
        for kind, number in each_call(whole.calls):
            for fault in faults_of(kind, number):
                ran = rig.run(fault, "levels")
                status = status_of(kind)
                expect(f"{start}, {fault}", (ran.status, ran.said), (status, complaint(status)))
                expect(f"{start}, {fault}, the text", ran.out, text[:len(ran.out)] if status == model.SINK else b"" if status else text)
                expect(f"{start}, {fault}, the file", rig.bytes() == data, True)


def calls_that_strace_sees(rig, words, sent):
    """The calls of a run on the store's file, its folder and the streams, with what each returned."""
    if not shutil.which("strace"):
        raise Skipped("strace is not here")
    log = os.path.join(rig.folder, "traced")
    with open(rig.asked, "wb") as asked:
        asked.write(sent)
    with open(rig.asked, "rb") as asked:
        ran = subprocess.run(["strace", "-f", "-o", log, PROGRAM, *words], stdin=asked, capture_output=True, timeout=DEADLINE)
    if not os.path.exists(log) or b"exited with" not in bytes_of(log):
        raise Skipped(f"strace cannot run a program: {ran.stderr.decode().strip()}")
    named = {f'"{rig.path}"': "file", f'"{os.path.dirname(rig.path)}"': "folder"}
    reached = {"0": "input", "1": "output"}
    for name, fields, result in re.findall(r"^\d+ +(\w+)\((.*)\) += (-?\d+)", bytes_of(log).decode(errors="replace"), re.M):
        words = fields.split(", ")
        what = next((named[word] for word in words if word in named), None)
        if name == "openat":
            name, reached[result] = "open", what
        elif what is None and name != "prlimit64":  # whose first word is a process
            what = reached.get(words[0])
        if what:
            yield f"{what}.{AT_AN_OFFSET.get(name, name)}", int(result)
        if name == "close":
            reached.pop(words[0], None)


def the_shim_sees_what_strace_sees(folder):
    rig = Rig(folder)
    for start, data, script in starts(folder):
        ran = rig.serve(None, data, script)
        calls = [(call.kind, call.result if call.result >= 0 else -1) for call in ran.calls if call.kind.split(".")[0] in STATUSES]
        rig.has(data)
        traced = list(calls_that_strace_sees(rig, ["serve", rig.path], b"".join(script.frames)))
        expect(f"{start}, enough of them", len(calls) > 40, True)
        expect(start, calls, traced)


CHECKS = [
    the_shim_sees_what_strace_sees,
    a_call_that_fails_is_told_and_loses_nothing,
    a_call_that_a_signal_interrupts_is_made_again,
    a_transfer_that_is_short_is_gone_on_with,
    a_formatting_whose_call_fails_is_told_and_can_be_made_again,
    levels_whose_call_fails_are_told,
]
