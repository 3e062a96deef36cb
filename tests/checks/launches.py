"""Launches: what the launcher passes on, what it does not overwrite, and what it shows at a terminal."""

import os
import shutil
import signal
import subprocess
import sys

import formats
import model
from launching import MAKING, REFUSED, Checkout, Terminal, expect_files, launch, limited
from model import BLOCK, Store, put, reply
from program import DEADLINE, GET_A, LAUNCHER, PUT_A, TOP, StoreFile, bytes_of, complaint, expect, fed, hexed, wants_check
from unsound import Part, Stratum, laid_out


def the_launcher_passes_words_input_and_status_on(folder):
    for data in (PUT_A + GET_A, hexed("00000801"), PUT_A[:-1]):
        StoreFile(folder).expect_served("through the launcher", [data], program=LAUNCHER)
    store = StoreFile(folder)
    path = store.path
    store.expect_served("a put", [PUT_A], program=LAUNCHER)
    expect("export", launch(["export", path, "0"]), (put(1, b"a", b"1"), 0, b""))
    expect("export of no version", launch(["export", path, "1"]), (b"", 12, complaint(12)))
    expect("levels", launch(["levels", path]), (*formats.levels_printed(bytes_of(path)), b""))
    with open(path, "r+b") as file:
        file.seek(44 * BLOCK)  # docs/FORMATS.md: the manifest of a new store with M 64
        file.write(b"\xff" * BLOCK)
    expect("levels of a damaged file", launch(["levels", path]), (b"damaged block 44\n", 9, complaint(9)))


def files_may_have_any_name(folder):
    inner = os.path.join(folder, "a folder * of $HOME")
    os.mkdir(inner)
    for name in ("a b.store", "*", "-n", "--overwrite", "$(touch x)", "a\n.store", "a.store\n", "\t", "'\"", "ä.store"):
        path = os.path.join(inner, name)
        for given, cwd in ((path, folder), (f"./{name}", inner), (name, inner)):
            words = [given, "4", "100", "10"]
            expect(f"format {given!r}", launch(["format", *words], cwd=cwd), (Store(4, 100, 10).line(), 0, b""))
            expect_files(f"format {given!r}", inner, [name, f"{name}.lock"])
            expect(f"format {given!r} again", launch(["format", *words], cwd=cwd)[1], REFUSED)
            out, status = Store(4, 100, 10).serve(PUT_A)
            expect(f"serve {given!r}", launch(["serve", given], input=PUT_A, cwd=cwd), (out, status, b""))
            expect(f"levels {given!r}", launch(["levels", given], cwd=cwd), (*formats.levels_printed(bytes_of(path)), b""))
            for left in os.listdir(inner):
                os.remove(os.path.join(inner, left))


def a_file_that_is_a_standard_stream_is_refused(folder):
    store = StoreFile(folder)
    linked = os.path.join(folder, "linked")
    os.symlink(store.path, linked)
    for words, redirected, stream in (
        (["serve", store.path], f"<{store.path}", "input"), (["serve", store.path], f">>{store.path}", "output"),
        (["serve", linked], f"<>{store.path} >/dev/null", "input"),
        (["--overwrite", "format", store.path, "4", "100", "10"], f"1<>{linked}", "output"),
        (["--overwrite", "format", linked, "4", "100", "10"], f"<{store.path}", "input"),
        (["levels", store.path], f">>{linked}", "output"),
        (["--overwrite", "workload", store.path, "1", "10"], f">>{store.path}", "output"),
    ):
        ran = subprocess.run(["/bin/sh", "-c", f'"$@" {redirected}', "sh", LAUNCHER, *words], input=PUT_A,
                             capture_output=True, timeout=DEADLINE)
        said = f"castle: the store's file is standard {stream} as well\n".encode()
        expect(f"{words} {redirected}", (ran.stdout, ran.returncode, ran.stderr), (b"", 1, said))
        store.expect_bytes(f"{words} {redirected}")
    # another file may be the input, and a closed stream is none
    other = StoreFile(folder)
    how = {"capture_output": True, "timeout": DEADLINE}
    ran = subprocess.run(["/bin/sh", "-c", f'"$0" serve "$1" <{other.path}', LAUNCHER, store.path], **how)
    out, status = store.model.serve(bytes_of(other.path))
    expect("another file as input", (ran.stdout, ran.returncode, ran.stderr), (out, status, complaint(status)))
    ran = subprocess.run(["/bin/sh", "-c", '"$0" serve "$1" <&-', LAUNCHER, store.path], **how)
    expect("a closed input", (ran.stdout, ran.returncode, ran.stderr), (b"", 6, complaint(6)))


def a_file_at_its_largest_size_is_told(folder):
    path = os.path.join(folder, "small.store")
    got = launch(["format", path, "4", "100", "10"], preexec_fn=lambda: limited(9000))
    expect("format", got, (b"", 5, complaint(5)))
    # the record of the second put lies across the end of what may be written
    store = StoreFile(folder)
    puts = [put(0, b"0", b"value"), put(1, b"1", b"value")]
    most = 2 * BLOCK + len(formats.record_of((model.PUT, 0, b"0", b"value"))) + 5
    got = launch(["serve", store.path], input=b"".join(puts), preexec_fn=lambda: limited(most))
    expect("serve, both in one batch", got, (reply(0, model.DEVICE_FAULT), 5, complaint(5)))
    store = StoreFile(folder)
    got = fed([LAUNCHER, "serve", store.path], puts, preexec_fn=lambda: limited(most))
    expect("serve, one by one", got, (reply(0, model.DONE) + reply(1, model.DEVICE_FAULT), 5, complaint(5)))


def what_a_file_holds_is_not_overwritten_unasked(folder):
    store = StoreFile(folder)
    store.expect_served("a put", [PUT_A])
    text, linked = os.path.join(folder, "text"), os.path.join(folder, "linked")
    for path, data in ((text, b"x"), (f"{store.path}.names", b"x 0\n"), (f"{text}.names", b"x 0\n")):
        with open(path, "wb") as file:
            file.write(data)
    os.symlink(store.path, linked)
    before = {name: bytes_of(os.path.join(folder, name)) for name in os.listdir(folder)}
    for word, limits in MAKING.items():
        for path, held in ((text, "a file that is no castle store"), (store.path, "a castle store"), (linked, "a castle store")):
            said = f"castle: {path}: {held} is there, and stays as it is; to lose it, use castle --overwrite {word} ..\n"
            expect(f"{word} {path}", launch([word, path, *limits]), (b"", REFUSED, said.encode()))
            now = {name: bytes_of(os.path.join(folder, name)) for name in os.listdir(folder)}
            expect(f"{word} {path}, the files", now == before, True)
    for word, limits in MAKING.items():
        for path in (text, linked):
            real = os.path.realpath(path)
            with open(f"{real}.names", "w"):
                pass
            expect(f"--overwrite {word} {path}", launch(["--overwrite", word, path, *limits])[1:], (0, b""))
            expect(f"--overwrite {word} {path}, names", os.path.exists(f"{real}.names"), False)
            expect(f"--overwrite {word} {path}, a link stays", os.path.islink(path), path == linked)
    expect("the last workload", bytes_of(text), bytes_of(store.path))
    empty = os.path.join(folder, "empty")
    for word, limits in MAKING.items():
        with open(empty, "w"), open(f"{empty}.names", "w"):
            pass
        expect(f"{word} over an empty file", launch([word, empty, *limits])[1:], (0, b""))
        expect(f"{word} over an empty file, names", os.path.exists(f"{empty}.names"), False)


def names_stay_where_no_store_was_made(folder):
    path = os.path.join(folder, "a.store")
    for word, limits in MAKING.items():
        with open(f"{path}.names", "w"):
            pass
        got = launch(["--overwrite", word, path, *limits], preexec_fn=lambda: limited(5000))
        expect(f"{word}", got, (b"", 5, complaint(5)))
        expect(f"{word}, names", os.path.exists(f"{path}.names"), True)
    # where only the line about it could not be written the store is there
    inside, outside = os.pipe()
    os.close(inside)
    ran = subprocess.run([LAUNCHER, "--overwrite", "format", path, "4", "100", "10"], stdin=subprocess.DEVNULL, stdout=outside,
                         stderr=subprocess.PIPE, timeout=DEADLINE)
    os.close(outside)
    expect("a closed output", (ran.returncode, ran.stderr, os.path.exists(f"{path}.names")), (7, complaint(7), False))
    os.mkdir(f"{path}.names")
    out, status, said = launch(["--overwrite", "format", path, "4", "100", "10"])
    expect("names that can't be removed", (out, status), (Store(4, 100, 10).line(), 0))
    expect("names that can't be removed, what is said", said.splitlines()[-1],
           f"castle: {path}.names: these names are of the store before; remove them".encode())


def serve_says_at_a_terminal_what_it_waits_for(folder):
    expect_said_at_a_terminal(folder, "serve", "castle-shell")


def lead_and_follow_say_at_a_terminal_what_they_wait_for(folder):
    expect_said_at_a_terminal(folder, "lead", "castle-shell")
    expect_said_at_a_terminal(folder, "follow", "castle-replicate feed")


def expect_said_at_a_terminal(folder, word, people):
    """A run of this word tells at a terminal that frames are waited for, and what people use in its place."""
    path = StoreFile(folder).path
    said = f"castle: {word} reads frames from standard input, which is a terminal here; people use {people}\n"
    with Terminal([LAUNCHER, word, path]) as run:
        run.read_until(f"people use {people}\r\n".encode())
        run.type(b"\x04")
        expect("what it says, at its end", run.end(), (0, said.encode(), []))


def a_workload_that_fails_at_a_terminal_tells_its_status(folder):
    path = os.path.join(folder, "a.store")
    with Terminal([LAUNCHER, "workload", path, "1", "2000"], most=5000) as run:
        expect("a full device", run.end(), (5, complaint(5), []))
    # where a weaker signal does not end what shows the growth; so too where that has just begun, and loses it
    with Terminal(["sh", "-c", 'trap "" TERM; exec "$@"', "sh", LAUNCHER, "workload", path, "1", "2000"], most=5000) as run:
        expect("a full device, where SIGTERM is ignored", run.end(), (5, complaint(5), []))
    text = os.path.join(folder, "text")
    with open(text, "w") as file:
        file.write("a text")
    said = f"castle: {text}: a file that is no castle store is there, and stays as it is; to lose it, use castle --overwrite workload ..\n"
    with Terminal([LAUNCHER, "workload", text, "1", "10"]) as run:
        expect("a text", run.end(), (REFUSED, said.encode(), []))
    with Terminal([LAUNCHER, "--overwrite", "workload", path, "1", "10"]) as run:
        expect("one that ends well", run.end(), (0, launch(["workload", os.path.join(folder, "b.store"), "1", "10"])[0], []))


def a_workload_is_ended_with_its_launcher(folder):
    path = os.path.join(folder, "a.store")
    for name, number, status in (("Ctrl-C", None, 130), ("SIGTERM", signal.SIGTERM, 143), ("SIGHUP", signal.SIGHUP, 129)):
        with Terminal([LAUNCHER, "--overwrite", "workload", path, "1", "1000000"]) as run:
            run.read_until(rb"castle: \d+ MB\r")
            if number is None:
                run.type(b"\x03")
            else:
                os.kill(int(bytes_of(f"{path}.lock")), number)
            expect(f"{name}, its end", run.end(), (status, b"", []))
        expect(f"{name}, the lock that it made", os.path.exists(f"{path}.lock"), name != "Ctrl-C")
        expect(f"{name}, the lock is free", launch(["serve", path])[1:], (0, b""))


def a_check_is_passed_on_and_makes_nothing(folder):
    wants_check()
    store = StoreFile(folder)
    there = os.listdir(folder)
    expect("a new store", launch(["check", store.path]), (b"sound\n", 0, b""))
    with open(store.path, "r+b") as file:
        file.seek(44 * BLOCK)  # docs/FORMATS.md: the manifest of a new store with M 64
        file.write(b"\xff" * BLOCK)
    expect("a damaged file", launch(["check", store.path]), (b"damaged block 44\n", 9, complaint(9)))
    expect_files("check", folder, there)


# In place of a program: it reads its file twice, waits, and says that it is sound
READS_TWICE = f"""#!{sys.executable}
import sys, time
for _ in range(2):
    with open(sys.argv[2], "rb") as file:
        file.read()
    time.sleep(1.5)
print("sound")
"""

# Another one: it reads what a recovery reads, less what Python has read for itself, and then so many blocks in each step
READS_BLOCKS = f"""#!{sys.executable}
import os, sys, time
file = os.open(sys.argv[2], os.O_RDONLY)
with open("/proc/self/io") as counts:
    before = int(counts.readline().split()[1])
os.pread(file, BEFORE * 4096 + 2048 - before, 0)  # amid a block, since to look costs some bytes as well
for blocks in STEPS:
    os.pread(file, blocks * 4096, 0)
    time.sleep(2.5)
print("sound")
"""
JOURNAL = 3000  # changes


def two_levels():
    """The bytes of a store with a long journal and two blocks in each of the levels 1 and 3, and how many blocks a recovery reads."""
    entries = [[formats.Entry(key, 0, b"1")] for key in (b"a", b"b", b"c", b"d")]
    strata = [Stratum(1, 1, [Part(1, (0,), entries[:2])]), Stratum(3, 1, [Part(2, (0,), entries[2:])])]
    change = (model.PUT, 0, b"k", bytes(model.VALUE_MAX))
    head = formats.new_head(4096, 10000, 1000)._replace(generation=2, region=1)
    data = laid_out(strata, (), JOURNAL * [change], head=head)
    return data, 1 + JOURNAL * len(formats.record_of(change)) // BLOCK + 1


def a_check_at_a_terminal_shows_how_much_it_has_read(folder):
    made = Checkout(folder)
    made.write("program", READS_TWICE)
    made.build()
    made.write("a.store", "\xa7STRATBT1".ljust(5_000_000, "\0"))
    shown = rb"\ncastle: blocks read: \d+ of 3663 at most\r\x1b\[A".replace(rb"\n", rb"\n\x1b\[K")
    with Terminal([made.launcher, "check", made.store]) as run:
        run.read_until(shown)
        expect("its end", run.end(), (0, b"sound\n", []))
    expect("no terminal", made.launch(["check", made.store]), (b"sound\n", 0, b""))
    for name, number, status in (("Ctrl-C", None, 130), ("SIGTERM", signal.SIGTERM, 143), ("SIGHUP", signal.SIGHUP, 129)):
        with Terminal([made.launcher, "check", made.store]) as run:
            run.read_until(shown)
            if number is None:
                run.type(b"\x03")
            else:
                os.kill(next(process for process, name in run.left() if name == "castle"), number)
            expect(f"{name}, its end", run.end(), (status, b"", []))


def a_check_at_a_terminal_shows_the_level_that_it_reads(folder):
    made = Checkout(folder)
    shutil.copytree(TOP / "clients" / "python" / "castle", os.path.join(made.top, "clients", "python", "castle"))
    data, before = two_levels()
    with open(made.store, "wb") as file:
        file.write(data)
    steps = {"the manifest and the journal are read": 0, "level 1 is scanned": 1, "level 1 is merged": 5, "level 3 is counted": 11}
    blocks = [place - earlier for earlier, place in zip([0, *steps.values()], steps.values())]
    made.write("program", READS_BLOCKS.replace("BEFORE", str(before)).replace("STEPS", str(blocks)))
    made.build()
    with Terminal([made.launcher, "check", made.store]) as run:
        for what, place in steps.items():
            run.read_until(rb"\x1b\[Kcastle: %b, blocks read: %d of 12\r\x1b\[A" % (what.encode(), place))
        expect("its end", run.end(), (0, b"sound\n", []))
    with Terminal([made.launcher, "check", made.store]) as run:
        run.read_until(rb"level 1 is scanned")
        run.type(b"\x03")
        expect("Ctrl-C, its end", run.end(), (130, b"", []))
    expect("no terminal", made.launch(["check", made.store]), (b"sound\n", 0, b""))


CHECKS = [
    the_launcher_passes_words_input_and_status_on,
    a_check_is_passed_on_and_makes_nothing,
    a_check_at_a_terminal_shows_how_much_it_has_read,
    a_check_at_a_terminal_shows_the_level_that_it_reads,
    files_may_have_any_name,
    a_file_that_is_a_standard_stream_is_refused,
    a_file_at_its_largest_size_is_told,
    what_a_file_holds_is_not_overwritten_unasked,
    names_stay_where_no_store_was_made,
    serve_says_at_a_terminal_what_it_waits_for,
    lead_and_follow_say_at_a_terminal_what_they_wait_for,
    a_workload_that_fails_at_a_terminal_tells_its_status,
    a_workload_is_ended_with_its_launcher,
]
