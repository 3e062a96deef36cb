"""The examples of docs/FORMATS.md, each read out of the page: bytes that the program writes, and those that builds before it wrote.
Those of the manual page are run.
"""

import os
import re
import struct
import subprocess

import formats
from checks.kept import with_kept
from formats import Head
from model import BLOCK, clone, drop, put
from program import DEADLINE, PROGRAM, TOP, StoreFile, bytes_of, expect, expect_told, in_memory
from samples import PUBLISHED, store_after

PAGE = TOP / "docs" / "FORMATS.md"
AS_SHOWN = 4, 100, 10  # the limits of the store that the examples are of


def examples(heading):
    """The blocks of code under a heading of the page."""
    text = PAGE.read_text(encoding="utf-8")
    part = re.search(rf"^## {heading}\n(.*?)(?=^## |\Z)", text, re.M | re.S)[1]
    return re.findall(r"^```\n(.*?)^```$", part, re.M | re.S)


def bytes_in(example):
    """The bytes that an example shows as hexadecimal digits."""
    return bytes.fromhex(example)


def superblocks_are_as_shown(folder):
    second, first = map(bytes_in, examples("Superblock slots"))
    data = bytes_of(StoreFile(folder, *AS_SHOWN).path)
    expect("format 2", (data[:40], data[40:BLOCK], data[BLOCK]), (second, bytes(BLOCK - 40), 0))
    kept = with_kept(folder, "new")  # an earlier build made it, with other limits
    expect("format 1", bytes_of(kept.path)[:28] + struct.pack(">III", *AS_SHOWN), first)
    for form, shown in ((1, first), (2, second)):
        head = formats.new_head(*AS_SHOWN, form)
        expect(f"format {form}, written", formats.head_bytes(head), shown)
        expect(f"format {form}, read", Head(*struct.unpack(formats.FORM, shown)), head)
        expect(f"format {form}, told", formats.form_of(shown), form)


def manifests_are_as_shown(folder):
    second, first, filled = map(bytes_in, examples("The manifest"))
    place = formats.first_free(4) * BLOCK
    for form, shown, store in ((2, second, StoreFile(folder, *AS_SHOWN)), (1, first, with_kept(folder, "new"))):
        expect(f"format {form}", bytes_of(store.path)[place:place + BLOCK], (bytes(4) + shown).ljust(BLOCK, b"\0"))
        expect(f"format {form}, its length", len(shown), formats.SHORTEST[form])
    for form, other, shown, manifest in ((1, 2, first, formats.EMPTY), (2, 1, second, formats.EMPTY),
                                         (2, 1, filled, formats.manifest_in(filled))):
        expect(f"format {form}, read", formats.manifest_in(shown, form), manifest)
        expect(f"format {form}, written", formats.spelled(manifest, form), shown)
        try:
            found = formats.manifest_in(shown, other)
        except ValueError:
            found = None
        expect(f"format {form}, read as {other}", found, None)
    # what the page says of the third
    store, contents = store_after(folder, 4, [put(number, b"k%02d" % number, b"") for number in range(1, 15)])
    data = bytes_of(store.path)
    expect("fourteen puts", (data[8 * BLOCK:9 * BLOCK], contents.chain), ((bytes(4) + filled).ljust(BLOCK, b"\0"), (8,)))
    expect("fourteen puts, the length", contents.head.length, len(filled))
    expect("fourteen puts, the journal", len(contents.journal), 2)
    expect("87 bytes", len(filled), 87)


def records_and_entries_are_as_shown(folder):
    puts, drops = map(bytes_in, examples("Journal regions"))
    for records, frames in ((puts, [put(1, b"a", b"1"), put(2, b"b", b"22")]), (drops, [clone(1), drop(2, 1)])):
        store, _ = store_after(folder, 4, frames)
        expect("records", bytes_of(store.path)[2 * BLOCK:3 * BLOCK], records.ljust(BLOCK, b"\0"))
    entries, = map(bytes_in, examples("Blocks of arrays"))
    store, contents = store_after(folder, 4, [put(tag, b"a", b"1") for tag in range(6)])
    array, = formats.arrays_of(contents.manifest)
    block, = formats.blocks_of(array)
    expect("a block of entries", formats.block_at(bytes_of(store.path), block), entries.ljust(BLOCK, b"\0"))


def levels_are_as_shown(folder):
    shown = examples("Texts")[0]
    mem, frames, _ = PUBLISHED[1]
    store, _ = store_after(folder, mem, frames)
    expect("levels", expect_told("levels", store.path), shown)


@in_memory
def the_manual_is_as_shown(folder):
    text = (TOP / "man" / "castle.1").read_text(encoding="utf-8").replace("\\e", "\\")
    blocks = "".join(re.findall(r"^\.Bd -literal -offset indent\n(.*?)^\.Ed$", text, re.M | re.S))
    steps = re.findall(r"^\$ (.*\n(?:> .*\n)*)((?:(?!\$ ).*\n)*)", blocks, re.M)
    expect("enough of them", len(steps) >= 4, True)
    os.symlink(PROGRAM, os.path.join(folder, "castle"))
    environment = {**os.environ, "PATH": f"{folder}:{os.environ['PATH']}"}
    for command, shown in steps:
        ran = subprocess.run(["/bin/sh", "-c", command.replace("\n> ", "\n")], cwd=folder, stdin=subprocess.DEVNULL, capture_output=True,
                             timeout=DEADLINE, env=environment)
        expect(command, (ran.stdout.decode(), ran.stderr), (shown, b""))


CHECKS = [
    the_manual_is_as_shown,
    superblocks_are_as_shown,
    manifests_are_as_shown,
    records_and_entries_are_as_shown,
    levels_are_as_shown,
]
