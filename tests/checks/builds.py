"""Builds: when the launcher proves and builds the program, and what it says and refuses without a build."""

import os
import re
import shutil
import subprocess

from checks.arguments import WRONG_WORDS
from launching import MAKING, NOT_BUILT, NO_KIT, Checkout, castle, expect_files, launch, next_line, path_with, running, wait_for
from model import BLOCK
from program import DEADLINE, PUT_A, TOP, bytes_of, complaint, expect


def the_first_use_builds_and_shows_how_far_it_is(folder):
    made = Checkout(folder)
    out, status, shown = made.launch(["serve", made.store], input=b"frames")
    expect("the program's output and status", (out, status), (f"<serve><{made.store}>frames".encode(), 0))
    expect("what is shown", shown.decode().splitlines(), [
        "castle: proving 2 crates", "castle: proved low, 1 of 2 crates", "castle: proving low", "castle: proving low, 3 of 5 functions",
        "castle: built"])
    expect("calls", made.calls(), 1)
    expect("the next use", made.launch(["serve", made.store], input=b"frames"), (out, 0, b""))
    expect("calls at last", made.calls(), 1)


def a_build_takes_none_of_the_input_and_none_of_the_output(folder):
    made = Checkout(folder)
    out, status, _ = made.launch(["serve", made.store], "cat; echo progress; echo more >&3", input=PUT_A)
    expect("output", (out, status), (f"<serve><{made.store}>".encode() + PUT_A, 0))


def a_change_of_any_source_builds_once(folder):
    made = Checkout(folder)
    changes = [(f"saved {path}", lambda path=path: os.utime(path)) for path in made.sources]
    changes.append(("a new file", lambda: made.write("crates/low/specs/New.antt", "")))
    changes.append(("a file that is gone", lambda: os.remove(made.sources[0])))
    for name, change in changes:
        made.build()
        for wanted in (0, 1):
            for _ in range(2):
                expect(f"{name}, status", made.launch(["serve", made.store])[1], 0)
            expect(f"{name}, builds", made.calls(), wanted)
            if wanted == 0:
                change()


def a_change_of_tests_builds_nothing(folder):
    made = Checkout(folder)
    made.build()
    made.write("crates/low_tests/src/lib.rt", "")
    expect("status", made.launch(["serve", made.store])[1], 0)
    expect("builds", made.calls(), 0)


def a_source_that_is_saved_amid_a_build_is_built_by_the_next_use(folder):
    made = Checkout(folder)
    made.build()
    os.utime(made.sources[0])
    made.launch(["serve", made.store], 'sleep 0.05; touch "$TOP/crates/low/specs/Lib.antt"')
    for _ in range(2):
        made.launch(["serve", made.store])
        expect("builds", made.calls(), 2)


def a_build_that_fails_runs_no_program(folder):
    made = Checkout(folder)
    made.build()
    os.utime(made.sources[1])
    for turn in (1, 2):
        out, status, said = made.launch(["serve", made.store], "echo there is no proof; exit 1", input=b"frames")
        expect("output and status", (out, status), (b"", NOT_BUILT))
        expect("what is said", said.splitlines()[-1], b"there is no proof")
        expect("builds", made.calls(), turn)
    expect("mended", made.launch(["serve", made.store], input=b"frames")[1], 0)


def a_program_that_is_not_there_is_built(folder):
    made = Checkout(folder)
    for name, change in (("gone", os.remove), ("not to be run", lambda path: os.chmod(path, 0o644))):
        made.build()
        change(made.program)
        expect(name, made.launch(["serve", made.store])[:2], (f"<serve><{made.store}>".encode(), 0))
        expect(f"{name}, builds", made.calls(), 1)


def a_checkout_that_can_not_be_written_runs_what_is_built(folder):
    made = Checkout(folder)
    made.build()
    nobody, other = {}, os.path.join(folder, "a.store")
    shutil.copy(made.store, other)
    for root, folders, files in os.walk(made.top, topdown=False):
        for name in (*folders, *files):
            path = os.path.join(root, name)
            os.chmod(path, os.stat(path).st_mode & ~0o222)
    os.chmod(made.top, 0o555)
    if os.geteuid() == 0:  # who may write everywhere
        os.chmod(folder, 0o777)
        os.chmod(other, 0o666)
        nobody = {"user": 65534, "group": 65534, "extra_groups": []}
    try:
        expect("built", made.launch(["serve", other], **nobody), (f"<serve><{other}>".encode(), 0, b""))
        os.utime(made.sources[0])
        out, status, said = made.launch(["serve", other], **nobody)
    finally:
        for root, folders, files in os.walk(made.top):
            os.chmod(root, 0o755)
    expect("with a new source", (out, status), (b"", NOT_BUILT))
    expect("with a new source, what is said", said.splitlines()[-1][:20], b"castle: the program ")


def without_the_kit_it_says_what_that_is(folder):
    made = Checkout(folder)
    out, status, said = made.launch(["serve", made.store], env={"PATH": path_with(folder, "flock")})
    expect("output and status", (out, status), (b"", NO_KIT))
    for told in ("the command rt is not found", "Rattle kit", f"{made.top}/README.md", f"{made.top}/docs/QUICKSTART.md"):
        expect(f"whether it says {told}", told in said.decode(), True)
    expect("whether something was made", os.path.exists(os.path.dirname(made.program)), False)
    expect_files("the store", os.path.dirname(made.store), sorted(set(os.listdir(made.top)) - {"a.store.lock"}))


def a_link_to_the_launcher_is_followed(folder):
    made = Checkout(folder)
    os.mkdir(os.path.join(folder, "links"))
    os.symlink(os.path.join("..", os.path.basename(made.top), "castle"), os.path.join(folder, "links", "first"))
    os.symlink("links/first", os.path.join(folder, "second"))
    for words, cwd in ((["./second"], folder), (["links/first"], folder), (["./first"], os.path.join(folder, "links"))):
        ran = subprocess.run([*words, "serve", made.store], cwd=cwd, stdin=subprocess.DEVNULL, capture_output=True,
                             timeout=DEADLINE, env=made.environment())
        expect(f"{words}", (ran.stdout, ran.returncode), (f"<serve><{made.store}>".encode(), 0))


def help_version_and_usage_need_no_build(folder):
    made = Checkout(folder)
    inner = os.path.join(folder, "inner")
    os.mkdir(inner)
    for word in ("--help", "-h"):
        out, status, said = made.launch([word], cwd=inner)
        expect(f"{word}, status", (status, said), (0, b""))
        for told in ("format FILE M C V", "serve FILE", "levels FILE", "check FILE", "workload FILE SEED COUNT", "lead FILE", "follow FILE",
                     "export FILE VERSION", "--overwrite", f"{made.top}:"):
            expect(f"whether {word} says {told}", told in out.decode(), True)
    kit = re.search(r"^Proved with `(.*)`\.$", (TOP / "README.md").read_text(), re.M)[1]
    expect("--version", made.launch(["--version"], cwd=inner), (f"castle {castle.__version__}\nproved with {kit}\n".encode(), 0, b""))
    also = [[b"--overwrite"], [b"--overwrite", b"serve", b"a"], [b"--overwrite", b"levels", b"a"],
            [b"--overwrite", b"check", b"a"], [b"--build", b"a"], [b"--Help"],
            [b"serve", b"a", b"--overwrite"], [b"format", b"--overwrite", b"f", b"4", b"100", b"10"]]
    for words in [words for words in WRONG_WORDS if words != [b"--help"]] + also:
        expect(f"{words}", made.launch(words, cwd=inner), (b"", 1, complaint(1)))
        expect_files(f"{words}", inner, [])
    expect("builds", made.calls(), 0)


def a_file_that_is_not_there_is_told_and_not_made(folder):
    made = Checkout(folder)
    inner = os.path.join(folder, "inner")
    os.mkdir(inner)
    os.symlink("nowhere", os.path.join(inner, "linked"))
    for word in ("levels", "check", "serve"):
        for path in ("NOSUCH", "no/such", "linked", f"{inner}/NO SUCH"):
            want = (b"", 2, f"castle: {path}: no such file\n".encode())
            expect(f"{word} {path}", made.launch([word, path], cwd=inner), want)
            expect(f"{word} {path}, built", launch([word, path], cwd=inner), want)
            expect_files(f"{word} {path}", inner, ["linked"])
    expect("builds", made.calls(), 0)


def what_is_no_store_is_told_and_left_alone(folder):
    held = {"text": b"a text\n" * 4000, "empty": b"", "zeros": bytes(8192), "behind": bytes(8192) + b"\xa7STRATBT1",
            "about": b"a store begins with \xa7STRATBT1\n"}
    for name, data in held.items():
        with open(os.path.join(folder, name), "wb") as file:
            file.write(data)
    os.mkfifo(os.path.join(folder, "pipe"))
    os.mkdir(os.path.join(folder, "folder"))
    there = os.listdir(folder)
    for word in ("levels", "check", "serve"):
        for name in held:
            expect(f"{word} {name}", launch([word, name], cwd=folder), (b"", 2, f"castle: {name}: not a store\n".encode()))
    for words in (["levels"], ["check"], ["serve"], ["format"], ["--overwrite", "format"], ["workload"]):
        for name in ("pipe", "folder"):
            got = launch([*words, name, *MAKING.get(words[-1], [])], cwd=folder)
            expect(f"{words} {name}", got, (b"", 5, f"castle: {name}: it is no plain file\n".encode()))
    expect("in no folder", launch(["format", "no/such", "4", "100", "10"], cwd=folder)[1:],
           (5, b"castle: no/such: its folder is not there, or its links lead in a circle\n"))
    expect_files("all", folder, there)
    for name, data in held.items():
        expect(f"{name}, its bytes", bytes_of(os.path.join(folder, name)) == data, True)
    # the text of a store in either slot has the program look
    for place in (1, BLOCK + 1):
        with open(os.path.join(folder, "slot"), "wb") as file:
            file.write(bytes(place) + b"STRATBT1")
        expect(f"a slot at {place}", launch(["serve", "slot"], cwd=folder), (b"", 2, complaint(2)))


def two_launchers_build_once(folder):
    for tool in ("flock", "python3"):
        made = Checkout(os.path.join(folder, tool))
        path, gate = path_with(folder, tool), os.path.join(made.top, "gate")
        for fails in (True, False):
            os.mkfifo(gate)
            with running(made.start(["serve", made.store], f'cat "$TOP/gate"; {"exit 1" if fails else ""}', path)) as first:
                wait_for("the first builds", lambda: made.calls() == 1)
                with running(made.start(["levels", made.store], path=path)) as second:
                    expect("the second", next_line(second),
                           f"castle: another launcher, process {first.pid}, builds the program: waiting for it\n")
                    with open(gate, "w"):
                        pass
                    out, _ = first.communicate(timeout=DEADLINE)
                    want = (b"", NOT_BUILT) if fails else (f"<serve><{made.store}>".encode(), 0)
                    expect("the first, at its end", (out, first.returncode), want)
                    out, _ = second.communicate(timeout=DEADLINE)
                    expect("the second, at its end", (out, second.returncode), (f"<levels><{made.store}>".encode(), 0))
            expect("builds", made.calls(), 2 if fails else 1)
            shutil.rmtree(os.path.dirname(made.program))
            os.remove(os.path.join(made.top, "calls"))
            os.remove(gate)


CHECKS = [
    the_first_use_builds_and_shows_how_far_it_is,
    a_build_takes_none_of_the_input_and_none_of_the_output,
    a_change_of_any_source_builds_once,
    a_change_of_tests_builds_nothing,
    a_source_that_is_saved_amid_a_build_is_built_by_the_next_use,
    a_build_that_fails_runs_no_program,
    a_program_that_is_not_there_is_built,
    a_checkout_that_can_not_be_written_runs_what_is_built,
    without_the_kit_it_says_what_that_is,
    a_link_to_the_launcher_is_followed,
    help_version_and_usage_need_no_build,
    a_file_that_is_not_there_is_told_and_not_made,
    what_is_no_store_is_told_and_left_alone,
    two_launchers_build_once,
]
