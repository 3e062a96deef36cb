"""The job `check`: what it says of sound files, of files that break a rule, and of damaged ones; and that it changes nothing.

Each answer is compared with the rules in `tests/rules.py`, which share no line with the program. Where the program has no such word
yet, these alone are tried, on files of which it is known what they are.
"""

import collections
import os
import resource
import signal
import subprocess

import damages
import formats
import model
import rules
import unsound
from checks.calls import each_call, faults_of, status_of
from faulty import Rig, counts_of, starts
from model import BLOCK
from program import (
    DEADLINE, PROGRAM, PUT_A, StoreFile, bytes_of, complaint, expect, expect_checked, in_memory, run, wants_check)
from samples import DISTINCT, PUBLISHED, store_after

DAMAGED = 400  # damaged files that are tried here; `tests/checked.py` tries as many as it is told
SEED = 46
PASSES = 3  # how often a block of an array is read at most, beside what a recovery reads

TELLABLE = "mbcdefhijk"  # a is refused by recovery, g follows from m and a, and l from k


def put_there(path, data):
    with open(path, "wb") as file:
        file.write(data)


# Files of which it is known what a check says

def with_fields(data, place, **fields):
    """The same bytes, but that the manifest says this of one of the arrays of its only level."""
    base = damages.Base(data)
    array = base.arrays[place]._replace(**fields)
    return damages.with_manifest(base, damages.with_array(base.contents.manifest, 0, place, array))


def worked_files(folder):
    """Files that a user could make in some minutes: what each is, its bytes, and the line and the status of a check."""
    fan, new = store_after(folder, *PUBLISHED[1][:2])[0], StoreFile(folder, 4, 100, 10)
    distinct = store_after(folder, *DISTINCT[:2])[0]
    three = bytes_of(fan.path)
    yield "a new store", bytes_of(new.path), b"sound\n", 0
    yield "three environments", three, b"sound\n", 0
    yield "an array of three entries said to have four", with_fields(three, 0, entries=4), b"unsound k level 1 array 1\n", 11
    yield "a version that sees two keys in no tag", with_fields(three, 1, versions=(3,)), b"unsound b level 1 array 0\n", 11
    yield "an array said to be denser", with_fields(three, 1, least=4), b"unsound k level 1 array 2\n", 11
    yield "thirteen keys", bytes_of(distinct.path), b"sound\n", 0
    yield "an array without entries", damages.patched(bytes_of(distinct.path), 6 * BLOCK, bytes(2)), b"damaged block 6\n", 9
    yield "a manifest in a circle", damages.patched(bytes_of(new.path), 6 * BLOCK, b"\0\0\0\6"), b"damaged block 6\n", 9
    yield "an empty file", b"", b"", 2
    yield "a text", b"It is 1 or 2.\n" * 1000, b"", 2


def answer_for(breach):
    return (rules.line_of([breach]), rules.UNSOUND) if breach else (b"sound\n", model.ENDED)


def told_files():
    """Files whose levels were written for this: what each is, its bytes, and the line and the status of a check."""
    for number in (1, 3, 7):
        for breach, what, data in unsound.broken_alone(number):
            yield f"level {number}, {what}", data, *answer_for(breach)
    for breach, what, data in unsound.broken_together():
        yield what, data, *answer_for(breach)
    for told, what, data in unsound.broken_twice():
        yield what, data, *answer_for(min(told, key=lambda breach: rules.ORDER.index(breach.rule), default=None))
    for block, what, data in unsound.damaged():
        yield what, data, b"damaged block %d\n" % block, model.DAMAGED


def expect_tellable(lines):
    """Among these lines is one for each rule that can be told, and none for the others."""
    letters = {line.split()[1].decode() for line in lines if line.startswith(b"unsound")}
    expect("the rules that were told", "".join(sorted(letters)), "".join(sorted(TELLABLE)))


def the_rules_beside_the_program_tell_files_that_are_known(folder):
    for name, data, line, status in [*worked_files(folder), *told_files()]:
        expect(name, rules.checked(data), (line, status))
    expect_tellable(line for _, _, line, _ in told_files())


def wrong_orders():
    """Ways in which a checker may tell another breach than the first: what is wrong, and what it tells first."""
    for at, letter in enumerate(TELLABLE):
        yield f"without {letter}", lambda found, letter=letter: [breach for breach in found if breach.rule != letter]
        if at:
            before = TELLABLE[at - 1]
            order = TELLABLE.replace(before + letter, letter + before) + "gl"
            yield f"{letter} before {before}", lambda found, order=order: sorted(found, key=lambda breach: order.index(breach.rule))
    yield "the deepest level first", lambda found: sorted(found, key=lambda it: (rules.ORDER.index(it.rule), -it.level))
    yield "the last array first", lambda found: sorted(found, key=lambda it: (rules.ORDER.index(it.rule), it.level, -it.array))
    yield "all of a level first", lambda found: sorted(found, key=lambda it: (it.level, rules.ORDER.index(it.rule)))


def each_wrong_order_is_told_by_some_file(folder):
    found = [rules.breaches(data, formats.read(data)) for _, data, _, status in told_files() if status != model.DAMAGED]
    for what, told in wrong_orders():
        expect(f"{what}, noticed", any(rules.line_of(told(all_of)) != rules.line_of(all_of) for all_of in found), True)


# What the program says

@in_memory
def a_check_tells_files_that_are_known(folder):
    wants_check()
    path = os.path.join(folder, "a.store")
    for name, data, line, status in [*worked_files(folder), *told_files()]:
        put_there(path, data)
        expect(name, expect_checked(name, path), (line, status))
    expect("no file", run(["check", os.path.join(folder, "absent.store")]), (b"", 2, complaint(2)))


def tried(folder, seed, count):
    """Has the program check so many damaged files, and counts by the kind of answer and by what was done."""
    path, found = os.path.join(folder, "damaged.store"), collections.Counter()
    for number, (what, data) in enumerate(damages.files(seed, count)):
        put_there(path, data)
        line, status = expect_checked(f"seed {seed}, file {number}, {what}", path)
        found[line.split()[1].decode() if status == rules.UNSOUND else complaint(status).decode().strip()[8:] or "sound"] += 1
    return found


@in_memory
def a_check_tells_what_damaged_files_are(folder):
    wants_check()
    found = tried(folder, SEED, DAMAGED)
    expect("answers of each kind", {"sound", "damaged", *"bcdefhjkm"} - set(found), set())


def a_check_reads_each_block_of_an_array_three_times_at_most(folder):
    wants_check()
    rig = Rig(folder)
    for mem, frames, _ in PUBLISHED:
        data = bytes_of(store_after(folder, mem, [b"".join(frames)])[0].path)
        rig.has(data)
        reads = {word: counts_of(rig.run(None, word).calls)["file.read"] for word in ("levels", "check")}
        blocks = sum(len(formats.blocks_of(array)) for array in formats.arrays_of(formats.read(data).manifest))
        expect(f"reads of {blocks} blocks", reads["check"] - reads["levels"] <= PASSES * blocks, True)


def a_check_whose_call_fails_is_told(folder):
    wants_check()
    rig = Rig(folder)
    for start, data, _ in starts(folder):
        rig.has(data)
        whole = rig.run(None, "check")
        expect(start, (whole.out, whole.status), rules.checked(data))
        expect(f"{start}, writes", counts_of(whole.calls)["file.write"], 0)
        for kind, number in each_call(whole.calls):
            for fault in faults_of(kind, number):
                ran = rig.run(fault, "check")
                status = status_of(kind)
                expect(f"{start}, {fault}", (ran.status, ran.said), (status, complaint(status)))
                line = whole.out[:len(ran.out)] if status == model.SINK else b"" if status else whole.out
                expect(f"{start}, {fault}, the line", ran.out, line)
                expect(f"{start}, {fault}, the file", rig.bytes() == data, True)


def a_check_whose_output_fails_is_told(folder):
    wants_check()

    def limited():
        """Lets a file grow to 3 bytes."""
        signal.signal(signal.SIGXFSZ, signal.SIG_IGN)
        resource.setrlimit(resource.RLIMIT_FSIZE, (3, 3))

    words = ["check", store_after(folder, *DISTINCT[:2])[0].path]
    ran = subprocess.run(["/bin/sh", "-c", '"$@" >&-', "sh", PROGRAM, *words], capture_output=True, timeout=DEADLINE)
    expect("a closed output", (ran.stdout, ran.returncode, ran.stderr), (b"", 7, complaint(7)))
    taken = os.path.join(folder, "taken")
    with open(taken, "wb") as output:
        ran = subprocess.run([PROGRAM, *words], stdout=output, stderr=subprocess.PIPE, timeout=DEADLINE, preexec_fn=limited)
    expect("a full output", (ran.returncode, ran.stderr, bytes_of(taken)), (7, complaint(7), b"sou"))
    inside, outside = os.pipe()
    os.write(outside, PUT_A)
    expect("input left", (run(words, stdin=inside), os.read(inside, 100)), ((b"sound\n", 0, b""), PUT_A))
    os.close(inside)
    os.close(outside)


CHECKS = [
    the_rules_beside_the_program_tell_files_that_are_known,
    each_wrong_order_is_told_by_some_file,
    a_check_tells_files_that_are_known,
    a_check_tells_what_damaged_files_are,
    a_check_reads_each_block_of_an_array_three_times_at_most,
    a_check_whose_call_fails_is_told,
    a_check_whose_output_fails_is_told,
]
