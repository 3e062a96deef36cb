#!/usr/bin/env python3
"""Counts what has to be believed: the definitions of specs/ that a statement stands on.

A definition stands on those that its lines name, and on what these stand on. Names are read as the file's `use` lines
give them. Counted are definitions of this workspace alone: not the standard library's, nor the types and constants that
Rattle code declares. Lines are those that are neither blank nor comment.

  tests/believed.py              the table of docs/DEFINITIONS.md
  tests/believed.py NAME..       the same for other definitions
  tests/believed.py --list NAME  the definitions that one stands on, by file
  tests/believed.py --write      rewrites the table of docs/DEFINITIONS.md
"""

import collections
import re
import sys

import words

TABLE = words.TOP / "docs" / "DEFINITIONS.md"
BEGIN, END = "<!-- believed: begin -->", "<!-- believed: end -->"

# In the order in which they are best read, with what each says.
PARTS = {
    "step": "what a command answers, and the table after it",
    "IsSound": "which states keep the rules of a store",
    "ShowsTable": "which table the bytes of a crash state mean",
    "Trail": "which tables crash states show as time goes on",
    "FollowsRun": "a serving run follows its table",
    "Runs": "what `run` promises for each subcommand",
}

USE = re.compile(r"^(?:pub )?use\s+Rattle\.([\w.]+?)(?:\.\{([^{}]*)\}|\s+as\s+(\w+))\s*$", re.M)
NAME = re.compile(r"(?<![^\s(){}\[\];,:.λ¬])([^\s(){}\[\];,:.λ¬]+(?:\.[^\s(){}\[\];,:.λ¬]+)*)")

Found = collections.namedtuple("Found", "name file text lines")


def definitions_of(tree, file):
    """Each definition of a file, with its lines that are neither blank nor comment."""
    found, current = [], None
    for line in tree.text(file).split("\n"):
        head = words.DEFINITION.match(line)
        if head:
            current = (head[1], [])
            found.append(current)
        elif re.match(r"(?:pub )?(?:use|mod)\b", line):
            current = None
        if current and line.strip() and not words.is_comment(line):
            current[1].append(line.split(" -- ")[0])
    return [Found(name, file, "\n".join(lines), len(lines)) for name, lines in found]


def cases_of(it):
    """The names of the cases of a `data`, by which lines name it too."""
    return re.findall(r"^  (?:pub )?([A-Z]\w*) :", it.text, re.M) if re.match(r"(?:pub )?data\b", it.text) else []


class Workspace:
    """All definitions, what each file may name, and which definitions each names."""

    def __init__(self, tree):
        self.of, self.owner, self.modules = {}, {}, collections.defaultdict(dict)
        self.scopes, self.prefixes = {}, {}
        for file in tree.specs():
            for it in definitions_of(tree, file):
                self.of[it.name] = it
                self.modules[module_of(file)][it.name] = it.name
                for case in cases_of(it):
                    self.modules[module_of(file)][case] = it.name
        for file in tree.specs():
            scope, prefixes = dict(self.modules[module_of(file)]), {}
            for module, listed, alias in USE.findall(tree.text(file)):
                if alias:
                    prefixes[alias] = module
                for name in filter(None, map(str.strip, listed.split(","))):
                    name, _, other = name.partition(" as ")
                    if name in self.modules[module]:
                        scope[other.strip() or name] = self.modules[module][name]
            self.scopes[file], self.prefixes[file] = scope, prefixes

    def named_by(self, it):
        """The definitions that one names."""
        scope, prefixes = self.scopes[it.file], self.prefixes[it.file]
        for found in NAME.findall(it.text):
            first, _, rest = found.partition(".")
            if rest and first in prefixes:
                module = self.modules.get(prefixes[first], {})
                if rest.split(".")[0] in module:
                    yield module[rest.split(".")[0]]
            elif first in scope:
                yield scope[first]

    def below(self, name):
        """The definition and all that it stands on, by name."""
        met, left = {}, [name]
        while left:
            at = left.pop()
            if at not in met:
                met[at] = self.of[at]
                left.extend(self.named_by(self.of[at]))
        return met


def lines_of(definitions):
    return sum(it.lines for it in definitions)


def module_of(file):
    return file.removeprefix("crates/").removesuffix(".antt").replace("/", ".")


def table(workspace, names):
    """A row for each name. New are the lines of definitions on which no row above stands."""
    yield "| Statement | Says | Definitions | Lines | New lines | Files | Crates |"
    yield "|---|---|---|---|---|---|---|"
    read = set()
    for name in names:
        met = workspace.below(name)
        files = {it.file for it in met.values()}
        counts = (len(met), lines_of(met.values()), lines_of(it for it in met.values() if it.name not in read),
                  len(files), len({words.crate_of(file) for file in files}))
        read.update(met)
        yield f"| `{name}` | {PARTS.get(name, '')} | {' | '.join(f'{n:,}' for n in counts)} |"


def main(given):
    if any(word.startswith("-") for word in given) and given[:1] not in (["--list"], ["--write"]):
        raise SystemExit(__doc__)
    workspace = Workspace(words.Tree(words.TOP))
    unknown = [name for name in given if not name.startswith("-") and name not in workspace.of]
    if unknown:
        raise SystemExit(f"believed: no definition {', '.join(unknown)} in crates/*/specs")
    if given[:1] == ["--list"] and len(given) == 2:
        for it in sorted(workspace.below(given[1]).values(), key=lambda it: it.file):
            print(f"{it.file}: {it.name}, {it.lines} lines")
    elif given == ["--write"]:
        text = TABLE.read_text(encoding="utf-8")
        before, rest = text.split(BEGIN)
        lines = "\n".join(table(workspace, PARTS))
        TABLE.write_text(f"{before}{BEGIN}\n{lines}\n{END}{rest.split(END)[1]}", encoding="utf-8")
    elif not any(word.startswith("-") for word in given):
        print("\n".join(table(workspace, given or PARTS)))
    else:
        raise SystemExit(__doc__)
    return 0


if __name__ == "__main__":
    sys.exit(main(sys.argv[1:]))
