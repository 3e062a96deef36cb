"""Arguments: the words that are refused, the examples of the README, and runs that may open no file."""

import os
import re
import resource
import subprocess

from program import DEADLINE, PROGRAM, PUT_A, TOP, StoreFile, Wrong, complaint, expect, run

WRONG_WORDS = [
    [], [b"serve"], [b"serve", b""], [b"serve", b"a", b"b"], [b"SERVE", b"a"], [b"", b"a"], [b"serve", b"\xff"],
    [b"help"], [b"--help"], [b"serve "], [b"format"], [b"format", b"f"], [b"format", b"f", b"4", b"100"],
    [b"format", b"", b"4", b"100", b"10"], [b"format", b"f", b"4", b"100", b"10", b"11"],
    [b"format", b"f", b"3", b"100", b"10"], [b"format", b"f", b"4097", b"100", b"10"],
    [b"format", b"f", b"04", b"100", b"10"], [b"format", b"f", b"+4", b"100", b"10"],
    [b"format", b"f", b" 4", b"100", b"10"], [b"format", b"f", b"4.0", b"100", b"10"],
    [b"format", b"f", b"4", b"0", b"10"], [b"format", b"f", b"4", b"16777217", b"10"],
    [b"format", b"f", b"4", b"100", b"0"], [b"format", b"f", b"4", b"100", b"16385"],
    [b"format", b"f", b"4", b"100", b""], [b"format", b"f", b"4", b"100", b"-1"], [b"format", b"f", b"18446744073709551620", b"100", b"10"],
    [b"levels"], [b"levels", b""], [b"levels", b"a", b"b"], [b"Levels", b"a"],
    [b"check"], [b"check", b""], [b"check", b"a", b"b"], [b"Check", b"a"],
    [b"workload"], [b"workload", b"f"], [b"workload", b"f", b"1"], [b"workload", b"", b"1", b"0"],
    [b"workload", b"f", b"1", b"0", b"0"], [b"workload", b"f", b"01", b"0"], [b"workload", b"f", b"1", b"00"],
    [b"workload", b"f", b"-1", b"0"], [b"workload", b"f", b"1", b"+5"], [b"workload", b"f", b"", b"0"],
    [b"workload", b"f", b"18446744073709551616", b"0"], [b"workload", b"f", b"1", b"1000001"],
    [b"export"], [b"export", b"f"], [b"export", b"", b"1"], [b"export", b"f", b"01"], [b"export", b"f", b"-1"],
    [b"export", b"f", b"4294967296"], [b"export", b"f", b""], [b"export", b"f", b"1", b"1"], [b"Export", b"f", b"1"],
]


def wrong_words_are_refused_and_nothing_is_touched(folder):
    for words in WRONG_WORDS:
        inside, outside = os.pipe()
        os.write(outside, PUT_A)
        expect(f"words {words}", run(words, stdin=inside, cwd=folder), (b"", 1, complaint(1)))
        expect(f"words {words}, input left", os.read(inside, 100), PUT_A)
        os.close(inside)
        os.close(outside)
        expect(f"words {words}, files", os.listdir(folder), [])


def a_program_with_a_name_that_is_no_text_refuses_its_words(folder):
    ran = subprocess.run([b"\xff", b"format", b"file", b"4", b"100", b"10"], executable=PROGRAM, cwd=folder,
                         capture_output=True, timeout=DEADLINE)
    expect("format", (ran.stdout, ran.returncode, ran.stderr), (b"", 1, complaint(1)))
    expect("files", os.listdir(folder), [])


def a_program_that_may_open_no_file_touches_none(folder):
    def limited():
        """Leaves room for one file beside the standard streams, which the loader of the program takes."""
        resource.setrlimit(resource.RLIMIT_NOFILE, (4, 4))

    store = StoreFile(folder)
    expect("serve", run(["serve", store.path], input=PUT_A, preexec_fn=limited), (b"", 8, complaint(8)))
    store.expect_bytes("serve")
    absent = os.path.join(folder, "absent")
    expect("format", run(["format", absent, "4", "100", "10"], preexec_fn=limited), (b"", 8, complaint(8)))
    expect("the absent file", os.path.exists(absent), False)
    expect("no job", run(["serve"], preexec_fn=limited), (b"", 1, complaint(1)))


def the_examples_of_the_readme_and_of_the_protocol_are_as_shown(folder):
    for name in ("castle", "castle-shell"):
        os.symlink(TOP / name, os.path.join(folder, name))
    for page in ("README.md", "docs/PROTOCOL.md"):
        blocks = re.findall(r"^```console\n(.*?)^```$", (TOP / page).read_text(encoding="utf-8"), re.M | re.S)
        if not blocks:
            raise Wrong(f"{page} shows no example")
        expect_as_shown(folder, blocks)


def expect_as_shown(folder, blocks):
    """The commands of these blocks print what stands under them."""
    for block in blocks:
        for command, shown in re.findall(r"^\$ (.*\n(?:> .*\n)*)((?:(?!\$ ).*\n)*)", block, re.M):
            command = command.replace("\n> ", "\n")
            ran = subprocess.run(["/bin/sh", "-c", command], cwd=folder, capture_output=True, timeout=DEADLINE)
            expect(command.strip(), (ran.stdout.decode(), ran.stderr), (shown, b""))


CHECKS = [
    wrong_words_are_refused_and_nothing_is_touched,
    a_program_with_a_name_that_is_no_text_refuses_its_words,
    a_program_that_may_open_no_file_touches_none,
    the_examples_of_the_readme_and_of_the_protocol_are_as_shown,
]
