"""Standard streams: closed, full, slow, never waiting, or not to be read."""

import fcntl
import os
import resource
import signal
import subprocess
import time

import formats
import model
from model import Store, get, put, reply
from program import DEADLINE, GET_A, PROGRAM, PUT_A, StoreFile, bytes_of, complaint, expect, run


def a_closed_output_is_a_sink_fault(folder):
    inside, outside = os.pipe()
    os.close(inside)
    store = StoreFile(folder)
    how = {"stdout": outside, "stderr": subprocess.PIPE, "timeout": DEADLINE}
    ran = subprocess.run([PROGRAM, "serve", store.path], input=PUT_A, **how)
    expect("closed output", (ran.returncode, ran.stderr), (7, complaint(7)))
    formatted = os.path.join(folder, "formatted")
    ran = subprocess.run([PROGRAM, "format", formatted, "4", "100", "10"], **how)
    expect("closed output of format", (ran.returncode, ran.stderr), (7, complaint(7)))
    expect("closed output of format, the file", bytes_of(formatted) == formats.unpublished(Store(4, 100, 10)), True)
    os.close(outside)
    if os.path.exists("/dev/full"):
        with open("/dev/full", "wb") as full:
            ran = subprocess.run([PROGRAM, "serve", store.path], input=PUT_A, **{**how, "stdout": full})
        expect("a full device as output", (ran.returncode, ran.stderr), (7, complaint(7)))
    expect("no reply, so no fault", run(["serve", store.path], input=b""), (b"", 0, b""))


def an_output_that_takes_half_a_reply_is_a_sink_fault(folder):
    def limited():
        """Lets a file grow to 20 bytes."""
        signal.signal(signal.SIGXFSZ, signal.SIG_IGN)
        resource.setrlimit(resource.RLIMIT_FSIZE, (20, 20))

    store = StoreFile(folder)
    store.expect_served("a put", [PUT_A])
    want, _ = store.model.serve(3 * GET_A)
    taken = os.path.join(folder, "taken")
    with open(taken, "wb") as output:
        ran = subprocess.run([PROGRAM, "serve", store.path], input=3 * GET_A, stdout=output, stderr=subprocess.PIPE,
                             timeout=DEADLINE, preexec_fn=limited)
    expect("a full output", (ran.returncode, ran.stderr, bytes_of(taken)), (7, complaint(7), want[:20]))
    store.expect_bytes("a full output")


def many_replies(folder):
    """A store with one large value, a file of frames that get it again and again, and what they are answered."""
    store = StoreFile(folder)
    store.expect_served("a put", [put(1, b"k", b"v" * model.VALUE_MAX)])
    frames = b"".join(get(tag, b"k") for tag in range(100))
    asked = os.path.join(folder, "asked")
    with open(asked, "wb") as file:
        file.write(frames)
    want, _ = store.model.serve(frames)
    return store, asked, want


def small_pipe():
    """The two ends of a pipe with room for one page."""
    inside, outside = os.pipe()
    fcntl.fcntl(outside, fcntl.F_SETPIPE_SZ, 4096)
    return inside, outside


def an_output_that_is_read_slowly_gets_every_reply(folder):
    store, asked, want = many_replies(folder)
    inside, outside = small_pipe()
    with open(asked, "rb") as frames:
        child = subprocess.Popen([PROGRAM, "serve", store.path], stdin=frames, stdout=outside, stderr=subprocess.PIPE)
    os.close(outside)
    time.sleep(0.1)  # the pipe is full by now, and the program waits
    got = b"".join(iter(lambda: os.read(inside, 3), b""))
    os.close(inside)
    errors = child.stderr.read()
    child.stderr.close()
    expect("a slow reader", (child.wait(DEADLINE), errors, got == want), (0, b"", True))


def streams_that_do_not_wait_are_faults_once_they_would(folder):
    # what stands in the input is answered; a read that would have to wait fails
    store = StoreFile(folder)
    inside, outside = os.pipe()
    os.set_blocking(inside, False)
    os.write(outside, PUT_A + GET_A[:6])
    out, _ = store.model.serve(PUT_A)
    expect("input", run(["serve", store.path], stdin=inside), (out, 6, complaint(6)))
    store.expect_bytes("input")
    os.write(outside, GET_A)
    os.close(outside)
    out, _ = store.model.serve(GET_A)
    expect("input with its end", run(["serve", store.path], stdin=inside), (out, 0, b""))
    os.close(inside)
    # so does a write into a pipe that is full; what it took are the first replies
    store, asked, want = many_replies(folder)
    inside, outside = small_pipe()
    os.set_blocking(outside, False)
    with open(asked, "rb") as frames:
        ran = subprocess.run([PROGRAM, "serve", store.path], stdin=frames, stdout=outside, stderr=subprocess.PIPE,
                             timeout=DEADLINE)
    os.close(outside)
    got = os.read(inside, len(want))
    os.close(inside)
    expect("output", (ran.returncode, ran.stderr), (7, complaint(7)))
    expect("output, what was taken", (got == want[:len(got)], 0 < len(got) < len(want)), (True, True))


def an_input_that_cannot_be_read_is_a_source_fault(folder):
    store = StoreFile(folder)
    inside = os.open("/", os.O_RDONLY)
    expect("a folder as input", run(["serve", store.path], stdin=inside), (b"", 6, complaint(6)))
    os.close(inside)
    store.expect_bytes("a folder as input")


def a_closed_stream_does_not_reach_the_store(folder):
    # the next file that a program opens takes the number of a stream that is closed
    sent, done = PUT_A + b"\0", reply(7, model.DONE)
    for closed, want in (("<&-", (b"", 6, complaint(6))), (">&-", (b"", 7, complaint(7))), ("2>&-", (done, 4, b""))):
        store = StoreFile(folder)
        if closed != "<&-":
            store.model.serve(PUT_A)
        ran = subprocess.run(["/bin/sh", "-c", f'"$0" serve "$1" {closed}', PROGRAM, store.path], input=sent,
                             capture_output=True, timeout=DEADLINE)
        expect(f"serve {closed}", (ran.stdout, ran.returncode, ran.stderr), want)
        store.expect_bytes(f"serve {closed}")
    formatted = os.path.join(folder, "formatted")
    ran = subprocess.run(["/bin/sh", "-c", '"$0" format "$1" 4 100 10 >&-', PROGRAM, formatted], capture_output=True,
                         timeout=DEADLINE)
    expect("format >&-", (ran.returncode, ran.stderr), (7, complaint(7)))
    expect("format >&-, the file", bytes_of(formatted) == formats.unpublished(Store(4, 100, 10)), True)


CHECKS = [
    a_closed_output_is_a_sink_fault,
    an_output_that_takes_half_a_reply_is_a_sink_fault,
    an_output_that_is_read_slowly_gets_every_reply,
    streams_that_do_not_wait_are_faults_once_they_would,
    an_input_that_cannot_be_read_is_a_source_fault,
    a_closed_stream_does_not_reach_the_store,
]
