#!/usr/bin/env python3
"""The rules of tests/words.py that some code breaks still. Lists in tests/listed/ have what does, and only shrink.

A line of a list is a name and a count. The rule refuses what is not listed, a count above its line, and a line that is
higher than what stands or not needed.

  tests/ratchet.py          how often crates cite lemmas of others, and which files of lemmas are cited most
  tests/ratchet.py --lower  lowers the lists to what stands; it adds no line and raises none
"""

import ast
import collections
import functools
import pathlib
import re
import sys

import clauses

PARAMETERS_MOST = 7  # of one function, `self` among them, as clippy's too_many_arguments counts
FUNCTION_MOST = 40  # lines of a body, between its braces or behind its `def`; contracts have bounds of their own

# Beside the crates `def_..` these have definitions on which those of other crates stand. Their lemmas are about these.
DEFINING = ("strat_base", "strat_model")

# What breaks a rule under one name: how much, the places where, and what is wrong there.
Found = collections.namedtuple("Found", "count places what")


def of_rattle(tree):
    return [*tree.sources(), *tree.specs(), *tree.files("crates/*/proofs/**/*.antt")]


# Lemmas of lower crates

CITED = re.compile(r"\bRattle\.(\w+)\.(\w+)((?:\.\w+)*)|\b(\w+)::(proofs)((?:::\w+)+)")


@functools.lru_cache(maxsize=None)
def names_in(tree, file):
    """What a file names of other modules: the crate, the folder, the words behind it, and the line."""
    rattle = file.endswith(".rt")
    text = tree.code(file) if rattle else re.sub(r"(?m)(?<!\S)--(?!\S).*$", "", tree.text(file))
    found = []
    for it in CITED.finditer(text):
        crate, folder, behind = (it[at] or it[at + 3] or "" for at in (1, 2, 3))
        found.append((crate, folder, tuple(re.findall(r"\w+", behind)), text.count("\n", 0, it.start()) + 1))
    return found


def lemmas_at(tree, crate, words):
    """The file of proofs/ that the first of these words lead to, written as a module."""
    for end in range(1, len(words) + 1):
        if tree.text(f"crates/{crate}/proofs/{'/'.join(words[:end])}.antt"):
            return ".".join(words[:end])
    return words[0]


def is_run(tree, crate):
    """Whether a store runs code of the crate, and that is what the crate is for.

    A law is a function with nothing between its braces, so a crate of definitions and laws alone has no other function.
    What a crate of tests has only its tests run.
    """
    defines = crate.startswith("def_") or crate in DEFINING
    return crate in tree.crates and tree.has_code(crate) and not crate.endswith("_tests") and not defines


@functools.lru_cache(maxsize=None)
def is_of_a_crate(tree, crate, lemmas):
    """Whether a file of lemmas is about a crate: it, or one that it cites, names more of a crate than lemmas.

    No contract of a crate could say what is true of all lists.
    """
    file = f"crates/{crate}/proofs/{lemmas.replace('.', '/')}.antt"
    for other, folder, words, _ in names_in(tree, file):
        if other in tree.crates:
            cited = lemmas_at(tree, other, words) if folder == "proofs" and words else None
            if cited is None or ((other, cited) != (crate, lemmas) and is_of_a_crate(tree, other, cited)):
                return True
    return False


def citations(tree):
    """The files of a crate that cite a file of lemmas of another one that a store runs."""
    places = collections.defaultdict(dict)
    for file in of_rattle(tree):
        crate = file.split("/")[1]
        for lower, folder, words, line in names_in(tree, file):
            if folder == "proofs" and words and lower != crate and is_run(tree, lower):
                lemmas = lemmas_at(tree, lower, words)
                if is_of_a_crate(tree, lower, lemmas):
                    places[crate, lower, lemmas].setdefault(file, line)
    found = {}
    for key, lines in places.items():
        crate, lower, lemmas = key
        what = f"{crate} cites Rattle.{lower}.proofs.{lemmas} in {len(lines)} of its files"
        found[key] = Found(len(lines), list(lines.items()), what)
    return found


# Functions and files

def scripts(tree):
    """The Python of the checks, the benches, the launcher, the clients and their examples."""
    for folder in ("tests", "bench", "launcher", "clients", "examples"):
        for file in tree.files(f"{folder}/**/*"):
            name = pathlib.PurePath(file)
            if name.suffix == ".py" or (not name.suffix and re.match(r"#!.*\bpython", tree.text(file))):
                yield file


def bodies(tree):
    """The file, the line, the name and the lines of the body of each function."""
    for file in tree.sources():
        for it in tree.functions(file):
            yield file, tree.line(file, it.at), it.name, it.lines
    for file in scripts(tree):
        for it in ast.walk(ast.parse(tree.text(file))):
            if isinstance(it, (ast.FunctionDef, ast.AsyncFunctionDef)):
                yield file, it.lineno, it.name, it.end_lineno - it.body[0].lineno + 1


def above(counted, most, what):
    """Of files, lines, names and counts those above a bound. Of equal names in a file the later ones have a prime."""
    found = {}
    for file, line, name, count in counted:
        if count > most:
            key = (file, name)
            while key in found:
                key = (file, key[1] + "'")
            found[key] = Found(count, [(file, line)], f"{name} has {count} {what}, above {most}")
    return found


def parameters(tree):
    counted = ((file, tree.line(file, it.at), it.name, it.parameters)
               for file in tree.sources() for it in tree.functions(file))
    return above(counted, PARAMETERS_MOST, "parameters")


def functions(tree):
    return above(bodies(tree), FUNCTION_MOST, "lines in its body")


# Clauses

def misnamed(tree):
    """The clauses that do not speak of what their names mean."""
    places = collections.defaultdict(list)
    for file, line, name, meaning in clauses.astray(tree):
        places[file, name, meaning].append((file, line))
    return {(file, name): Found(len(lines), lines, f"{name} does not say {meaning}")
            for (file, name, meaning), lines in places.items()}


# The lists

LISTS = {"citations": citations, "parameters": parameters, "functions": functions, "clauses": misnamed}


def list_at(name):
    return f"tests/listed/{name}.txt"


def listed(tree, name):
    """Each line of a list: its number, the name and the count, which is None where the line has none."""
    for number, line in enumerate(tree.text(list_at(name)).splitlines(), 1):
        if line.strip() and not line.startswith("#"):
            *key, count = line.split()
            yield number, tuple(key), int(count) if count.isdigit() else None


def faults(tree, name):
    """Where the code breaks a rule more than its list has it, and where the list has more than the code."""
    found, most, before, path = LISTS[name](tree), {}, (), list_at(name)
    for number, key, count in listed(tree, name):
        now = found[key].count if key in found else 0
        if count is None:
            yield path, number, "the last word is no count"
        elif key <= before:
            yield path, number, "it is listed twice or out of order"
        elif count > now or not count:
            yield path, number, f"{now} now: lower it or leave it out (tests/ratchet.py --lower)"
        before, most[key] = key, count or 0
    for key, it in found.items():
        if it.count > most.get(key, 0):
            for file, line in it.places:
                yield file, line, f"{it.what}; " + (f"{path} has {most[key]}" if key in most else f"{path} has none")


def lowered(tree, name):
    """The list without what stands no more."""
    found, lines = LISTS[name](tree), tree.text(list_at(name)).splitlines()
    for number, key, count in listed(tree, name):
        now = min(count or 0, found[key].count) if key in found else 0
        lines[number - 1] = " ".join([*key, str(now)]) if now else None
    return "".join(f"{line}\n" for line in lines if line is not None)


# The rules. Each yields its faults as a file, a line and what is wrong there.

def crates_are_known_by_their_clauses(tree):
    yield from faults(tree, "citations")


def functions_have_few_parameters(tree):
    yield from faults(tree, "parameters")


def functions_are_short(tree):
    yield from faults(tree, "functions")


def clauses_say_what_their_names_mean(tree):
    yield from faults(tree, "clauses")


RULES = [crates_are_known_by_their_clauses, functions_have_few_parameters, functions_are_short,
         clauses_say_what_their_names_mean]


# What tests/words.py --self adds to its tree that is right, and the faults that it then tries one at a time

RIGHT = {
    "crates/laws/src/lib.rt": "pub fn a_law()\n    ensures ok { result ≡ 1 }\n{\n}\n",
    "crates/laws/proofs/LawLemmas.antt": "use Rattle.low.specs.Half.{half}\n",
    "crates/low_tests/proofs/TestLemmas.antt": "use Rattle.low.specs.Half.{half}\n",
    "crates/low/proofs/HalfLemmas.antt": "use Rattle.low.specs.Half.{half}\nlast : half 1 ≡ 1\n",
    "crates/low/proofs/MoreLemmas.antt": "use Rattle.low.proofs.HalfLemmas.{last}\n",
    "crates/low/proofs/ListFacts.antt": "use Rattle.std.specs.List.{map}\n-- use Rattle.low.specs.Half.{half}\n",
    "crates/castle/proofs/RunLemmas.antt": '''use Rattle.laws.proofs.LawLemmas.{law}
use Rattle.low.proofs.ListFacts.{facts}
use Rattle.low.proofs.HalfLemmas.{last}
-- use Rattle.low.proofs.MoreLemmas.{more}
use Rattle.low_tests.proofs.TestLemmas.{tried}
''',
    "crates/low/src/wide.rt": '''impl Wide {
    fn wide<F: Fn(u8, u8) -> u8, G>(&self, a: (u8, u8), b: Pair<u8, u8>, c: u8, d: u8, e: u8, f: F,
        g: G,
    ) {
        one();
    }

    fn full(&self, a: [u8; 2], b: (u8, u8), c: fn(u8, u8) -> u8, d: u8, e: u8, last: u8) {}
}
''',
    "crates/low/src/long.rt":
        "fn long() {\n" + "    one();\n" * 41 + "}\n\nfn full() {\n" + "    one();\n" * 39 + "    last();\n}\n",
    "bench/tool": "#!/usr/bin/env python3\ndef full():\n" + "    one()\n" * 39 + "    last()\n",
    "tests/listed/citations.txt": "# why\ncastle low HalfLemmas 1\n",
    "tests/listed/parameters.txt": "# why\ncrates/low/src/wide.rt wide 8\n",
    "tests/listed/functions.txt": "# why\ncrates/low/src/long.rt long 41\n",
    "tests/listed/clauses.txt": "# why\ncrates/low/src/clauses.rt vague.end 1\n",
}
MAIN, WIDE, LONG = "crates/castle/src/main.rt", "crates/low/src/wide.rt", "crates/low/src/long.rt"
VAGUE = "crates/low/src/clauses.rt"
CITING = "#[tactic(auto, using(low::proofs::HalfLemmas::last))]\npub fn status_text"
FAULTS = [
    ("crates/castle/proofs/RunLemmas.antt", "-- use", "use", 4, crates_are_known_by_their_clauses),
    (MAIN, "pub fn status_text", CITING, 12, crates_are_known_by_their_clauses),
    ("crates/laws/src/lib.rt", "{\n}", "{\n    one();\n}", 1, crates_are_known_by_their_clauses),
    ("crates/low/proofs/ListFacts.antt", "-- use", "use", 2, crates_are_known_by_their_clauses),
    (list_at("citations"), "castle low HalfLemmas 1\n", "", 3, crates_are_known_by_their_clauses),
    (list_at("citations"), "HalfLemmas 1", "HalfLemmas 2", 2, crates_are_known_by_their_clauses),
    (list_at("citations"), "s 1", "s 1\nlow castle RunLemmas 1", 3, crates_are_known_by_their_clauses),
    (list_at("citations"), "s 1", "s 1\ncastle low HalfLemmas 1", 3, crates_are_known_by_their_clauses),
    (list_at("citations"), "HalfLemmas 1", "HalfLemmas", 2, crates_are_known_by_their_clauses),
    (list_at("citations"), "s 1", "s 1\nlow castle RunLemmas 0", 3, crates_are_known_by_their_clauses),
    (WIDE, "g: G", "g: G, h: u8", 2, functions_have_few_parameters),
    (WIDE, "last: u8", "last: u8, more: u8", 8, functions_have_few_parameters),
    (WIDE, "full(&self", "wide(&self, more: u8", 8, functions_have_few_parameters),
    (list_at("parameters"), "8", "9", 2, functions_have_few_parameters),
    (LONG, "last();\n", "last();\n    more();\n", 45, functions_are_short),
    (LONG, "}\n\nfn", "    more();\n}\n\nfn", 1, functions_are_short),
    ("bench/tool", "last()\n", "last()\n    more()\n", 2, functions_are_short),
    (list_at("functions"), "41", "42", 2, functions_are_short),
    (VAGUE, "at + 1", "2 + 1", 10, clauses_say_what_their_names_mean),
    (VAGUE, "ok { result", "ok { 2", 9, clauses_say_what_their_names_mean),
    (VAGUE, "end { result ≡ 1 }", "end { result ≡ 1 }\n    ensures end { 1 ≡ 1 }", 3, clauses_say_what_their_names_mean),
    (VAGUE, "{}", "{\n    one();\n}", 17, clauses_say_what_their_names_mean),
    (list_at("clauses"), "1", "2", 2, clauses_say_what_their_names_mean),
]


SHOWN = 10  # files of lemmas


def measure(tree):
    pairs, cited = collections.Counter(), collections.Counter()
    for (crate, lower, lemmas), it in citations(tree).items():
        pairs[crate, lower] += it.count
        cited[f"{lower}.proofs.{lemmas}"] += it.count
    for (crate, lower), count in pairs.most_common():
        print(f"{count:4} {crate} of {lower}")
    print(f"{sum(pairs.values()):4} in all\n")
    for lemmas, count in cited.most_common(SHOWN):
        print(f"{count:4} {lemmas}")


def main(given):
    import words  # which imports this module

    tree = words.Tree(words.TOP)
    if given == ["--lower"]:
        for name in LISTS:
            (tree.top / list_at(name)).write_text(lowered(tree, name), encoding="utf-8")
    elif given:
        raise SystemExit(__doc__)
    else:
        measure(tree)


if __name__ == "__main__":
    main(sys.argv[1:])
