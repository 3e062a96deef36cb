#!/usr/bin/env python3
"""Compares the two pictures of docs/ARCHITECTURE.md, and the table after them, with the edges between crates.

An edge of code is a `use` line of src/, one of definitions a `use` line of specs/. One that follows from others is left
out, and so are crates of tests. In the picture of code no edge to strat_base is drawn, nor one to def_crash, of which
code uses laws alone. Prints what a picture lacks or has too much, and with `--all` both lists of edges.
"""

import functools
import re
import sys

import words

DOCUMENT = "docs/ARCHITECTURE.md"
NAMED = re.compile(r"\b(?:def|strat)_\w+")  # a crate; only the top one has another name
PICTURES = {
    "Code": (r"src/**/*.rt", r"^\s*(?:pub )?use (\w+)(?:::|;)", {"strat_base", "def_crash"}),
    "Definitions": (r"specs/**/*.antt", r"^(?:pub )?use Rattle\.(\w+)\.specs\b", set()),
}


def edges_of(tree, pattern, use, left_out):
    """For each crate those that its files use, but for what follows from others."""
    crates = [crate for crate in tree.crates if not crate.endswith("_tests")]
    used = {}
    for crate in crates:
        texts = (tree.text(name) for name in tree.files(f"crates/{crate}/{pattern}"))
        named = {it for text in texts for it in re.findall(use, text, re.M)}
        used[crate] = (named & set(crates)) - {crate} - left_out

    @functools.lru_cache(maxsize=None)
    def below(crate):
        return frozenset().union(*({it} | below(it) for it in used[crate]))

    return {crate: {it for it in on if not any(it in below(other) for other in on)} for crate, on in used.items()}


def drawn(tree, title):
    """For each crate that a picture has those that it draws it on."""
    block = re.search(rf"\*\*{title}\*\*.*?```\n(.*?)```", tree.text(DOCUMENT), re.S)
    found, path = {}, []
    for line in block[1].splitlines():
        frame, crate, rest = re.match(r"([│├└─ ]*)(\w+)(.*)", line).groups()
        path[len(frame) // 3:] = [crate]
        found.setdefault(crate, set())
        if len(path) > 1:
            found[path[-2]].add(crate)
        on, under = (re.search(rf"  {word} ((?:def|strat)_[^:]*)", rest) for word in ("on", "under"))
        found[crate].update(NAMED.findall(on[1]) if on else [])
        for upper in NAMED.findall(under[1]) if under else []:
            found.setdefault(upper, set()).add(crate)
    table = re.search(rf"\| {title} of \|.*?\n\n", tree.text(DOCUMENT), re.S)
    for row in table[0].strip().splitlines()[2:] if table else []:
        uppers, lowers = (NAMED.findall(cell) for cell in row.strip("|").split("|"))
        for upper in uppers:
            found.setdefault(upper, set()).update(lowers)
    return found


def main():
    if sys.argv[1:] not in ([], ["--all"]):
        sys.exit("usage: tests/edges.py [--all]")
    tree, wrong = words.Tree(words.TOP), 0
    for title, (pattern, use, left_out) in PICTURES.items():
        edges, picture = edges_of(tree, pattern, use, left_out), drawn(tree, title)
        for crate, on in picture.items():
            for word, names in (("lacks", edges.get(crate, set()) - on), ("has", on - edges.get(crate, set()))):
                for name in sorted(names):
                    wrong += 1
                    print(f"{DOCUMENT}: the picture of {title.lower()} {word} {crate} on {name}")
        if sys.argv[1:]:
            print(f"\n{title}:")
            for crate, on in edges.items():
                if on:
                    print(f"  {crate}: {', '.join(sorted(on))}")
    if not wrong:
        print("edges: the pictures are those of the sources")
    return 1 if wrong else 0


if __name__ == "__main__":
    sys.exit(main())
