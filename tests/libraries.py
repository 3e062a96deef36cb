#!/usr/bin/env python3
"""Takes from another checkout of the repository the libraries that it has built, so that a check here begins at once.

  tests/libraries.py CHECKOUT
  tests/libraries.py CHECKOUT GATE-LOG

A library is taken if its crate has the same sources there, and so has each crate below it, and if its stamp says that it
was built of them. What a check keeps of its own (`out/incremental`) is taken of every crate, since it goes by contents.
Nothing there may be building meanwhile.

The libraries that `rt ci` builds have no stamp. With its log, of a run that goes on there or has ended, those of the crates
are taken that it has proved by then. They go with no library that was built otherwise: begin in a clone without any.

What is checked here afterwards rests on the run that built them; the gate takes none of this.
"""

import pathlib
import re
import shutil
import sys

import kit
import words

PARTS = ("src", "specs", "proofs")


def sources(folder):
    """The files that a library is made of, each with what it has."""
    files = (it for part in PARTS for it in (folder / part).rglob("*") if it.is_file())
    return {str(it.relative_to(folder)): it.read_bytes() for it in files}


def replace(there, here):
    shutil.rmtree(here, ignore_errors=True)
    here.parent.mkdir(parents=True, exist_ok=True)
    shutil.copytree(there, here, symlinks=True)


def take(there, here, crate, proved):
    """Whether the library is taken, or was before: one with a stamp of these sources, or one that a gate proved."""
    stamp, wanted = "out/rlib/stamp", crate.stamp()
    if proved is None:
        if not (there / stamp).is_file() or (there / stamp).read_text() != wanted:
            return False
        replace(there / "out" / "rlib", here / "out" / "rlib")
        return True
    library = there / "out" / "rlib" / f"{here.name}.rlib"
    if here.name not in proved or not library.is_dir():
        return False
    if not (here / stamp).is_file() or (here / stamp).read_text() != wanted:
        shutil.rmtree(here / "out" / "rlib", ignore_errors=True)
        replace(library, here / "out" / "rlib" / library.name)
        (here / stamp).write_text(wanted)
    return True


def main():
    if len(sys.argv) not in (2, 3) or not (pathlib.Path(sys.argv[1]) / "crates.txt").is_file():
        sys.exit("usage: tests/libraries.py CHECKOUT [GATE-LOG]")
    other = pathlib.Path(sys.argv[1]).resolve()
    if other == words.TOP:
        sys.exit("tests/libraries.py: this is that checkout")
    log = pathlib.Path(sys.argv[2]).read_text() if len(sys.argv) == 3 else None
    proved = None if log is None else set(re.findall(r"^rt: (\w+) proved$", log, re.M))
    crate_of, known = kit.rt_as_library().Crate, {}
    fresh, taken = set(), 0
    for line in (words.TOP / "crates.txt").read_text().splitlines():
        name, colon, below = line.partition(":")
        if not colon or line.startswith("#"):
            continue
        here, there = words.TOP / "crates" / name, other / "crates" / name
        if proved is None and (there / "out" / "incremental").is_dir():
            replace(there / "out" / "incremental", here / "out" / "incremental")
        if fresh & set(below.split()) or sources(here) != sources(there):
            fresh.add(name)
            continue
        taken += take(there, here, crate_of(str(here), str(words.TOP), known), proved)
    print(f"{taken} libraries taken; other sources in {len(fresh)} crates and those above them")


main()
