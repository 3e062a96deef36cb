"""The rules of tests/words.py for where things are: documents name the files of calls and of definitions."""

import pathlib
import re

ARCHITECTURE = "docs/ARCHITECTURE.md"
CALLS = re.compile(r"^## Where the calls are\n.*?^```\n(.*?)^```", re.M | re.S)
DEFINITIONS = "docs/DEFINITIONS.md"


def calls(tree):
    """The calls that the architecture lists: line, file and name, and the file and the name of the call before it.

    A line has a crate, if it is not that of the line above, a file of its src/, and the calls. Where words stand before
    these a path begins, so no call is before its first one.
    """
    text = tree.text(ARCHITECTURE)
    listed = CALLS.search(text)
    if not listed:
        return
    first, crate, before = text.count("\n", 0, listed.start(1)) + 1, None, None
    for number, line in enumerate(listed[1].split("\n"), first):
        words = line.split()
        at = next((at for at, word in enumerate(words) if word.endswith(".rt")), None)
        if at is None:
            continue
        crate = words[at - 1] if at and words[at - 1] in tree.crates else crate
        before = None if line[0] != " " else before
        for call in " ".join(words[at + 1:]).split(", "):
            if not call.startswith("then "):
                here = (f"crates/{crate}/src/{words[at]}", call.rpartition("::")[2])
                yield number, here, before
                before = here


def calls_it(tree, file, caller, name):
    """Whether a function of the file, one that has the caller's name, calls one with this name."""
    bodies = (tree.code(file)[it.at + len("fn"):it.end] for it in tree.functions(file) if it.name == caller)
    return any(re.search(rf"(?<!fn )\b{name}(?:::<[^>]*>)?\(", body) for body in bodies)


def calls_are_where_the_architecture_says(tree):
    if not CALLS.search(tree.text(ARCHITECTURE)):
        yield ARCHITECTURE, 1, "it lists no calls"
    for line, (file, name), before in calls(tree):
        if not re.search(rf"\bfn {name}\b", tree.code(file)):
            yield ARCHITECTURE, line, f"{file} has no function {name}"
        elif before and not calls_it(tree, *before, name):
            yield ARCHITECTURE, line, f"{before[1]} of {before[0]} does not call {name}"


def named_definitions(tree):
    """The definitions that the first cells of rows name: the line, the file's name without an end, and the name."""
    for number, line in enumerate(tree.text(DEFINITIONS).split("\n"), 1):
        names = re.findall(r"(?<!\()`([^`]+)`", line.split("|")[1]) if line.startswith("| `") else []
        if names and re.match(r"[A-Z]\w+\.", names[0]):
            for name in names:
                file, dot, name = name.rpartition(".")
                names[0] = f"{file}." if dot else names[0]
                yield number, names[0].partition(".")[0], name


def definitions_are_where_the_page_says(tree):
    homes = {(pathlib.PurePath(it.file).stem, it.name) for it in tree.definitions()}
    for line, file, name in named_definitions(tree):
        if (file, name) not in homes:
            yield DEFINITIONS, line, f"no file {file} of specs/ defines {name}"


RULES = [calls_are_where_the_architecture_says, definitions_are_where_the_page_says]


# What tests/words.py --self adds to its tree that is right, and the faults that it then tries one at a time

LISTED = """
## Where the calls are

```
a path     castle  run.rt   run, walk
           low     step.rt  Low::step, then rest
another    low     step.rt  rest
```
"""
RIGHT = {
    "crates/castle/src/run.rt": "fn run() {\n    walk();\n}\n\nfn walk() {\n    step();\n}\n",
    "crates/low/src/step.rt": "fn step() {\n    rest();\n}\n\nfn rest() {}\n",
    DEFINITIONS: "| Name | Says |\n|---|---|\n| `IsHalf` | no file |\n| `Half.IsHalf`, `half` (`low`) | both |\n",
}
FAULTS = [
    (ARCHITECTURE, "## Where the", "## Which", 1, calls_are_where_the_architecture_says),
    (ARCHITECTURE, "run, walk", "run, walks", 6, calls_are_where_the_architecture_says),
    (ARCHITECTURE, "run, walk", "walk, run", 6, calls_are_where_the_architecture_says),
    (ARCHITECTURE, "low     step.rt  Low", "castle  step.rt  Low", 7, calls_are_where_the_architecture_says),
    ("crates/castle/src/run.rt", "    step();\n", "", 7, calls_are_where_the_architecture_says),
    (DEFINITIONS, "`half`", "`halves`", 4, definitions_are_where_the_page_says),
    (DEFINITIONS, "Half.IsHalf", "Whole.IsHalf", 4, definitions_are_where_the_page_says),
]
