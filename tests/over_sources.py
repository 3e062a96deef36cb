#!/usr/bin/env python3
"""Checks functions of a crate over libraries that are taken as source, so that a caller can be proved while its callee is not.

  tests/over_sources.py CRATE LIBRARY[,LIBRARY..] --only PATH [flags of rattle check]

Run it at the top of a checkout. The libraries that are named need no proof: the functions of theirs that are called are
checked as well, and each is reported. The others have to be built (`tests/libraries.py`). What passes is kept beside the
crate, in `out/over-sources`, for the next run. No verdict comes of it, and the gate takes none of this.
"""

import pathlib
import shutil
import subprocess
import sys

import words


def below_each():
    """By crate, what its line of crates.txt names, lowest first."""
    lines = (words.TOP / "crates.txt").read_text().splitlines()
    named = (line.partition(":") for line in lines if ":" in line and not line.startswith("#"))
    return {name: below.split() for name, _, below in named}


def all_below(below, crate):
    """What a crate rests on, directly or through others."""
    found, left = set(), list(below[crate])
    while left:
        name = left.pop()
        if name not in found:
            found.add(name)
            left += below.get(name, [])
    return found


def libraries(below, crate, sources, kit):
    """The flags that hand the libraries over: those of the kit, those that are built, and those that are sources."""
    needed = all_below(below, crate)
    direct = {name for it in (crate, *sources) for name in below[it]}
    yield from ("--extern", f"std={kit / 'rlibs' / 'std.rlib'}", "-L", f"dependency={kit / 'rlibs'}")
    for name in sorted(needed - set(below)):
        yield from ("--extern", f"{name}={kit / 'rlibs' / name}.rlib")
    for name in below:
        folder = words.TOP / "crates" / name
        if name not in needed:
            continue
        if name in sources:
            yield from ("--lib", f"{name}:{','.join(['std', *below[name]])}={folder / 'src' / 'lib.rt'}")
            continue
        yield from ("-L", f"dependency={folder / 'out' / 'rlib'}")
        if name in direct:
            yield from ("--extern", f"{name}={folder / 'out' / 'rlib' / name}.rlib")


def main():
    if len(sys.argv) < 4:
        sys.exit("usage: tests/over_sources.py CRATE LIBRARY[,LIBRARY..] --only PATH [flags]")
    crate, sources, flags = sys.argv[1], sys.argv[2].split(","), sys.argv[3:]
    below, folder = below_each(), words.TOP / "crates" / crate
    if unknown := {crate, *sources} - set(below):
        sys.exit(f"tests/over_sources.py: crates.txt has no {', '.join(sorted(unknown))}")
    kit = pathlib.Path(shutil.which("rt") or sys.exit("the command rt is not found")).resolve().parent.parent
    root = "src/lib.rt" if (folder / "src" / "lib.rt").is_file() else "src/main.rt"
    kept = folder / "out" / "over-sources"
    kept.mkdir(parents=True, exist_ok=True)
    logic = ["--antt-project", kit / "rattle" / "logic" / "antt-project.json", "--logic-built", kit / "logic_built"]
    check = [kit / "bin" / "rattle", "check", "--crate-name", crate, root, *libraries(below, crate, sources, kit), *logic]
    sys.exit(subprocess.run([*check, "--incremental", kept, "--jobs", "2", *flags], cwd=folder).returncode)


main()
