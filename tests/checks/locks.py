"""Locks: an open store is refused under every name, and each lock lasts as long as the program."""

import contextlib
import fcntl
import os
import shutil
import signal
import subprocess

import formats
from launching import REFUSED, Checkout, castle, expect_refused, launch, limited, next_line, path_with, running, served, wait_for
from model import BLOCK
from program import DEADLINE, GET_A, LAUNCHER, PROGRAM, PUT_A, StoreFile, Wrong, bytes_of, expect, read_exactly


def an_open_store_is_refused_under_every_name(folder):
    store = StoreFile(folder)
    linked, symbolic = os.path.join(folder, "linked"), os.path.join(folder, "symbolic")
    os.link(store.path, linked)
    os.symlink(store.path, symbolic)
    with served(store.path) as child:
        for path in (store.path, symbolic, f"{folder}/../{os.path.basename(folder)}/{os.path.basename(store.path)}"):
            expect_refused("its own name", path, f", by process {child.pid}")
        expect_refused("a hard link", linked, " under another name, or is being copied")
        moved = os.path.join(folder, "moved")
        os.rename(store.path, moved)
        expect_refused("after a rename", moved, " under another name, or is being copied")
        os.rename(moved, store.path)
        expect("levels meanwhile", launch(["levels", store.path]), (*formats.levels_printed(bytes_of(store.path)), b""))
        child.stdin.write(PUT_A)
        expect("a put", read_exactly(child.stdout, 9), store.model.serve(PUT_A)[0])
    store.expect_bytes("behind it")
    store.expect_served("again", [GET_A], program=LAUNCHER)
    for path in (linked, symbolic):
        store.path = path
        store.expect_served(path, [GET_A], program=LAUNCHER)


def a_lock_lasts_as_long_as_the_program(folder):
    store = StoreFile(folder)
    os.chmod(store.path, 0o660)
    with served(store.path) as child:
        expect("the process in the lock", bytes_of(f"{store.path}.lock"), b"%d\n" % child.pid)
        expect("who may lock it", os.stat(f"{store.path}.lock").st_mode & 0o777, 0o660)
        os.remove(f"{store.path}.lock")  # somebody tidies up
        expect_refused("without the lock file", store.path, " under another name, or is being copied")
    with served(store.path) as child:
        os.kill(child.pid, signal.SIGKILL)
        child.wait()
        store.expect_served("behind a kill", [PUT_A], program=LAUNCHER)
        child.returncode = 0
    workload = os.path.join(folder, "b.store")
    with running(subprocess.Popen([LAUNCHER, "workload", workload, "1", "1000000"], stdin=subprocess.DEVNULL, stdout=subprocess.PIPE,
                                  stderr=subprocess.PIPE, start_new_session=True)):
        wait_for("the workload begins", lambda: launch(["levels", workload])[1] == 0)
        expect("serve over a workload", launch(["serve", workload])[:2], (b"", REFUSED))
    expect("serve behind it", launch(["serve", workload])[1:], (0, b""))


def what_is_taken_away_while_it_is_locked_is_looked_at_again(folder):
    store, other = StoreFile(folder), StoreFile(folder)
    tools = path_with(folder)
    flock = os.path.join(tools, "flock")
    with open(flock, "w") as file:  # behind its first lock of one of the two files it does something to them
        file.write(f'#!/bin/sh\n"{shutil.which("flock")}" "$@" || exit\n'
                   '[ "$2" != "$AT" ] || [ -e "$DONE" ] || { : >"$DONE"; eval "$DOES"; }\n')
    os.chmod(flock, 0o755)

    def doing(at, does):
        return {"env": {"PATH": f"{tools}:/bin", "AT": str(at), "DOES": does, "DONE": os.path.join(folder, does.replace("/", " "))}}

    with served(store.path, **doing(8, f"rm '{store.path}.lock'")) as child:
        expect_refused("its lock file is gone", store.path, f", by process {child.pid}")
    got = launch(["serve", store.path], **doing(9, f"mv '{other.path}' '{store.path}'"))
    said = f"castle: {store.path}: the file was replaced meanwhile; try again\n".encode()
    expect("the file is replaced", got, (b"", REFUSED, said))
    text = os.path.join(folder, "text")
    got = launch(["format", text, "4", "100", "10"], **doing(8, f"echo a text >'{text}'"))
    expect("a file appears", (got[:2], bytes_of(text)), ((b"", REFUSED), b"a text\n"))


def locks_are_taken_without_flock_too(folder):
    store = StoreFile(folder)
    unlocked = "castle: nothing is locked, since neither flock nor python3 is here"
    for tools, why in ((("python3",), None), (("flock",), None), ((), unlocked)):
        how = {"env": {"PATH": path_with(folder, *tools)}}
        with served(store.path, **how) as child:
            if why is None:
                expect_refused(f"{tools}", store.path, f", by process {child.pid}", **how)
                expect_refused(f"{tools}, with all tools", store.path, f", by process {child.pid}")
            else:
                expect("no tools", next_line(child)[:len(why)], why)
    unable = path_with(folder, "env", "flock")
    with open(os.path.join(unable, "flock"), "w") as file:
        file.write("#!/bin/sh\necho 'flock: no locks here' >&2\nexit 71\n")
    with served(store.path, env={"PATH": unable}) as child:
        expect("a file system without locks", next_line(child), "flock: no locks here\n")


def a_lock_that_can_not_be_opened_is_told(folder):
    path = os.path.join(folder, "a.store")
    os.mkdir(f"{path}.lock")
    said = f"castle: {path}.lock: the lock can't be opened; look at it and at its folder\n".encode()
    expect("format", launch(["format", path, "4", "100", "10"]), (b"", REFUSED, said))
    expect("whether a store was made", os.path.exists(path), False)


def a_lock_file_that_was_made_for_no_store_is_taken_away(folder):
    slot, small, linked = (os.path.join(folder, name) for name in ("slot", "small", "linked"))
    with open(slot, "wb") as file:  # as far as the launcher sees this is a store
        file.write(b"\0STRATBT1")
    damaged, store = StoreFile(folder), StoreFile(folder)
    with open(damaged.path, "r+b") as file:
        file.seek(44 * BLOCK)  # docs/FORMATS.md: the manifest of a new store with M 64
        file.write(b"\xff" * BLOCK)
    os.link(store.path, linked)
    tries = [(["serve", slot], 2, None), (["export", slot, "0"], 2, None), (["serve", damaged.path], 9, None),
             (["format", small, "4", "100", "10"], 5, 5000), (["--overwrite", "workload", small, "1", "10"], 5, 5000),
             (["serve", linked], REFUSED, None), (["export", linked, "0"], REFUSED, None)]
    with served(store.path):
        for had in (False, True):  # one that was there before stays
            for words, status, most in tries:
                lock = f"{next(path for path in words if path.startswith(folder))}.lock"
                if had:
                    with open(lock, "w"):
                        pass
                got = launch(words, preexec_fn=lambda most=most: most and limited(most))
                expect(f"{words}", (got[0], got[1], os.path.exists(lock)), (b"", status, had))
        expect("the lock of the open store", os.path.exists(f"{store.path}.lock"), True)
    os.remove(f"{store.path}.lock")
    with served(store.path) as child:
        expect("a new lock of a store that opens", bytes_of(f"{store.path}.lock"), b"%d\n" % child.pid)
    with served(store.path):  # somebody else had made it
        os.remove(f"{linked}.lock")
        expect("a lock that is another's", (launch(["serve", store.path])[1], os.path.exists(f"{store.path}.lock")), (REFUSED, True))


def the_client_and_the_launcher_lock_each_other_out(folder):
    store = StoreFile(folder)
    with castle.Store(store.path, program=PROGRAM):
        expect_refused("the client's", store.path, f", by process {os.getpid()}")
    with served(store.path):
        try:
            castle.Store(store.path, program=PROGRAM).close()
        except castle.errors.StoreLocked:
            return
    raise Wrong("the client opened a store that the launcher serves")


def a_check_and_a_run_lock_each_other_out(folder):
    made = Checkout(folder)
    made.write("program", '#!/bin/sh\n[ "$1" != levels ] || exit 0\necho begun\ncat "$TOP/gate"\n')
    made.build()
    os.mkfifo(os.path.join(made.top, "gate"))
    there = os.listdir(made.top)
    for tools in ("flock", "python3"):
        how = {"env": made.environment(path=path_with(folder, tools))}
        with running(made.start(["serve", made.store])) as child:
            read_exactly(child.stdout, 6)
            said = f"castle: {made.store}: the store is open already\n".encode()
            expect(f"check of an open store, {tools}", launch(["check", made.store], made.launcher, **how), (b"", REFUSED, said))
        os.remove(f"{made.store}.lock")
        wait_for("the run gives up its locks", lambda: not is_locked(made.store))
        # two checks may go on side by side, and make nothing beside the file
        with running(made.start(["check", made.store], path=how["env"]["PATH"])) as first, running(made.start(["check", made.store])) as second:
            for child in (first, second):
                read_exactly(child.stdout, 6)
            expect("beside checks", sorted(os.listdir(made.top)), sorted(there))
            said = f"castle: {made.store}: the store is open already under another name, or is being copied\n".encode()
            expect(f"serve of a store that is checked, {tools}", launch(["serve", made.store], made.launcher, **how), (b"", REFUSED, said))
            expect("beside it", sorted(os.listdir(made.top)), sorted(there))
        wait_for("checks that have ended give up their locks", lambda: not is_locked(made.store))


def leaders_followers_and_exports_lock_a_store_as_a_run_that_serves_does(folder):
    made = Checkout(folder)
    made.write("program", '#!/bin/sh\n[ "$1" != levels ] || exit 0\necho "$@"\ncat "$TOP/gate"\n')
    made.build()
    os.mkfifo(os.path.join(made.top, "gate"))
    how = {"env": made.environment()}
    jobs = [[word, made.store] for word in ("serve", "lead", "follow")] + [["export", made.store, "4294967295"]]
    for words in jobs:
        with running(made.start(words)) as child:
            said = f"{' '.join(words)}\n".encode()
            expect(f"{words}, the words", read_exactly(child.stdout, len(said)), said)
            for others in jobs:
                got = launch(others, made.launcher, **how)
                expect(f"{others} beside {words}", got[:2], (b"", REFUSED))
                expect(f"{others} beside {words}, why", got[2].startswith(f"castle: {made.store}: the store is open already".encode()), True)
        wait_for("the run gives up its locks", lambda: not is_locked(made.store))
    for words in (["lead"], ["follow", made.store, "1"], ["export", made.store], ["export", made.store, "01"], ["export", made.store, "4294967296"],
                  ["--overwrite", "lead", made.store]):
        expect(f"{words}", launch(words, made.launcher, **how)[:2], (b"", 1))
    for words in jobs:
        absent = [words[0], f"{made.store}.absent", *words[2:]]
        expect(f"{absent}", launch(absent, made.launcher, **how)[:2], (b"", 2))
    expect("no file is made", os.path.exists(f"{made.store}.absent"), False)


@contextlib.contextmanager
def descriptors(*paths):
    """Descriptors of files, which may be inherited."""
    opened = [os.open(path, os.O_RDWR | os.O_CREAT) for path in paths]
    try:
        yield opened
    finally:
        for number in opened:
            with contextlib.suppress(OSError):
                os.close(number)


def of_caller(numbers):
    """What gives a run the locks on these descriptors."""
    return {"env": {**os.environ, "CASTLE_LOCKS": ",".join(map(str, numbers))}, "pass_fds": [n for n in numbers if n != ""]}


def a_caller_that_has_the_locks_hands_them_on(folder):
    store = StoreFile(folder)
    files = f"{store.path}.lock", store.path
    with descriptors(*files) as numbers:
        for number in numbers:
            fcntl.flock(number, fcntl.LOCK_EX | fcntl.LOCK_NB)
        os.write(numbers[0], b"7\n")
        expect_refused("without being told", store.path, ", by process 7")
        with served(store.path, **of_caller(numbers)):
            for number in numbers:
                os.close(number)
            expect_refused("as long as the program runs", store.path, ", by process 7")
        store.expect_served("behind it", [PUT_A], program=LAUNCHER)
    # it has looked at the file itself, and sees to the names
    with descriptors(*files) as numbers, open(f"{store.path}.names", "w"):
        expect("format", launch(["format", store.path, "4", "100", "10"], **of_caller(numbers))[1:], (0, b""))
        expect("format, names", os.path.exists(f"{store.path}.names"), True)
    absent = os.path.join(folder, "absent")
    with descriptors(f"{absent}.lock") as numbers:
        expect("format of a new file", launch(["format", absent, "4", "100", "10"], **of_caller([*numbers, ""]))[1:], (0, b""))


def is_locked(path):
    with open(path, "rb") as file:
        try:
            fcntl.flock(file, fcntl.LOCK_EX | fcntl.LOCK_NB)
        except BlockingIOError:
            return True
    return False


def locks_that_the_caller_has_not_are_taken(folder):
    store, other = StoreFile(folder), StoreFile(folder)
    files = f"{store.path}.lock", store.path
    with descriptors(*files, other.path) as (beside, itself, foreign):
        for numbers in ([], [""], ["", ""], [beside], [beside, ""], [beside, foreign], [foreign, itself], [itself, beside],
                        [foreign, foreign], [900, 901], [beside, itself, itself], ["x", itself]):
            how = {**of_caller(numbers), "pass_fds": (beside, itself, foreign)}
            with served(store.path, **how) as child:
                expect_refused(f"{numbers}", store.path, f", by process {child.pid}")
        # descriptors of the right files that are not locked, and on which somebody else has the lock
        with served(store.path, **of_caller([beside, itself])):
            expect("the right files", [is_locked(path) for path in files], [True, True])
        for number in (beside, itself):
            fcntl.flock(number, fcntl.LOCK_UN)
        with served(store.path):
            expect("no locks", launch(["serve", store.path], **of_caller([beside, itself]))[:2], (b"", REFUSED))
    absent = os.path.join(folder, "absent")
    with descriptors(f"{absent}.lock", f"{absent}.lock") as (first, second):
        fcntl.flock(first, fcntl.LOCK_EX)
        got = launch(["format", absent, "4", "100", "10"], **of_caller([second, ""]))
        expect("a new file whose lock another one has", (got[:2], os.path.exists(absent)), ((b"", REFUSED), False))


def a_build_keeps_the_locks_of_the_caller(folder):
    made = Checkout(folder)
    made.write("program", '#!/bin/sh\n[ /dev/fd/7 -ef "$2.lock" ] && [ /dev/fd/8 -ef "$2" ] && [ ! -e /dev/fd/9 ] && echo kept\n')
    script = 'exec 7<>"$1.lock" 8<"$1"; CASTLE_LOCKS=7,8 exec "$0" serve "$1"'
    ran = subprocess.run(["/bin/sh", "-c", script, made.launcher, made.store], env=made.environment(), stdin=subprocess.DEVNULL,
                         capture_output=True, timeout=DEADLINE)
    expect("what the program sees", (ran.stdout, ran.returncode, made.calls()), (b"kept\n", 0, 1))


CHECKS = [
    an_open_store_is_refused_under_every_name,
    a_lock_lasts_as_long_as_the_program,
    what_is_taken_away_while_it_is_locked_is_looked_at_again,
    locks_are_taken_without_flock_too,
    a_lock_that_can_not_be_opened_is_told,
    a_lock_file_that_was_made_for_no_store_is_taken_away,
    the_client_and_the_launcher_lock_each_other_out,
    a_check_and_a_run_lock_each_other_out,
    leaders_followers_and_exports_lock_a_store_as_a_run_that_serves_does,
    a_caller_that_has_the_locks_hands_them_on,
    locks_that_the_caller_has_not_are_taken,
    a_build_keeps_the_locks_of_the_caller,
]
