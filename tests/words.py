#!/usr/bin/env python3
"""Holds the repository to its words: names of clauses and definitions, widths, lengths, which checks run, what the documents
name, and prose.

It reads files alone, and takes the crates as crates.txt and crates/ have them. Each fault is a line
`FILE:LINE: what`; the last line counts the rules that passed and failed.

  tests/words.py          every rule
  tests/words.py --all    also prints the comment lines that are wide; these fail nothing
  tests/words.py --self   tries each rule on a made-up tree with one fault

The rules of clauses are in tests/clauses.py, with the names that they may have and what these mean. Those of prose are in
tests/prose.py, which measures the documents if it is run alone. Those that some code breaks still are in tests/ratchet.py,
with lists of what breaks them.
"""

import collections
import contextlib
import functools
import pathlib
import re
import sys
import tempfile

import clauses
import made_up
import placed
import prose
import ratchet

TOP = pathlib.Path(__file__).resolve().parent.parent

CONTRACT_WIDTH = 100
COMMENT_WIDTH = 120
FILE_LINES = 800  # of a file of code, of definitions, of proofs or of tests

# The crate that owns a name of the vocabulary, though it may come later. No other crate defines the name.
OWNERS = {
    "Run": "strat_merge",
    "Merger": "strat_merge",
    "Place": "strat_array",
    "Seen": "strat_array",
    "Scratch": "strat_array",
    "Cache": "strat_array",
    "Part": "strat_split",
    "Plan": "strat_split",
    "View": "strat_cursor",
    "Cursors": "strat_cursor",
    "Progress": "strat_promote",
    "Promotion": "strat_promote",
    "Verdict": "strat_check",
    "Item": "strat_arena",
    "Slot": "strat_arena",
    "Zero": "strat_level",
    "Level": "strat_level",
    "Levels": "strat_level",
    "Space": "strat_extent",
    "Counts": "strat_live",
}
# Definitions that keep such a name in a file of specs/ of another crate, each with the reason.
EXCEPTIONS = {
    ("Level", "Level.antt"): "read together nowhere",
    ("Part", "Plan.antt"): "the part that contracts see",
    ("Plan", "Plan.antt"): "the plan that contracts see",
}

README_LINES = (15, 60)
README_HEADINGS = ("Proved", "Premises", "Only tested", "Limits")

Clause = collections.namedtuple("Clause", "kind name at end")
Function = collections.namedtuple("Function", "name at end clauses is_law parameters lines")
Definition = collections.namedtuple("Definition", "name file line")


# Reading Rattle

TEXT_OR_COMMENT = re.compile(
    r"""//[^\n]*|/\*.*?\*/|\br(\#*)".*?"\1|"(?:\\.|[^"\\])*"|'(?:\\[^'\n]+|[^'\\\n])'""", re.S)


def blanked(text):
    """The text with spaces for each comment, string and character, so that their braces don't count."""
    return TEXT_OR_COMMENT.sub(lambda found: re.sub(r"[^\n]", " ", found[0]), text)


def after_braces(text, at):
    """The place after the brace that closes the one at this place."""
    depth = 0
    for place in range(at, len(text)):
        depth += {"{": 1, "}": -1}.get(text[place], 0)
        if depth == 0:
            return place + 1
    return len(text)


CLAUSE = re.compile(r"(requires|ensures)\s*\*?\s*(\w*)\s*\*?\s*(?=\{)")


def clauses_of(code, at):
    """The clauses of the signature at this place, and the place where the signature ends."""
    clauses, depth = [], 0
    while at < len(code):
        found = depth == 0 and CLAUSE.match(code, at)
        if found and not re.match(r"\w", code[at - 1]):
            end = after_braces(code, found.end())
            clauses.append(Clause(found[1], found[2], at, end))
            at = end
            continue
        depth += {"(": 1, "[": 1, ")": -1, "]": -1}.get(code[at], 0)
        if depth == 0 and code[at] in "{;":
            break
        at += 1
    return clauses, at


DEPTHS = {"(": 1, "[": 1, "{": 1, "<": 1, ")": -1, "]": -1, "}": -1, ">": -1}


def parameters_of(code, at):
    """How many parameters stand behind the name that ends at this place, and behind what it is generic over."""
    depth, parts, within = 0, [""], False
    for place in range(at, len(code)):
        step = 0 if code[place - 1:place + 1] in ("->", "=>") else DEPTHS.get(code[place], 0)
        within = within or (depth == 0 and code[place] == "(")
        depth += step
        if within and depth == 0:
            break
        if within and depth == 1 and code[place] == ",":
            parts.append("")
        elif within:
            parts[-1] += code[place]
    return sum(1 for part in parts if part.strip("( \n"))


def functions_of(code):
    """Each function of a file whose comments are blanked, with its clauses and the lines between its braces."""
    for found in re.finditer(r"\bfn\s+(\w+)", code):
        clauses, end = clauses_of(code, found.end())
        is_law = re.match(r"\{\s*\}", code[end:end + 200]) is not None
        after = after_braces(code, end)
        lines = max(code.count("\n", end, after) - 1, 0)
        yield Function(found[1], found.start(), after, clauses, is_law, parameters_of(code, found.end()), lines)


def ghosts_of(code):
    """The place of each ghost item, imports among them, and the place where it ends."""
    for found in re.finditer(r"^[ \t]*(?:pub )?ghost [^{;]*(?=[{;])", code, re.M):
        yield found.start(), after_braces(code, found.end())


def line_at(text, place):
    return text.count("\n", 0, place) + 1


def lines_between(text, at, end):
    return range(line_at(text, at), line_at(text, end - 1) + 1)


def is_comment(line):
    return line.lstrip().startswith(("//", "--"))


def is_import(line):
    return re.match(r"\s*(pub )?(ghost )?use ", line) is not None


# The repository

class Tree:
    """The files that the rules read, each once."""

    def __init__(self, top, owners=None, exceptions=None, documents=None, phrases=None):
        self.top = pathlib.Path(top)
        self.owners = OWNERS if owners is None else owners
        self.exceptions = EXCEPTIONS if exceptions is None else exceptions
        self.documents = prose.DOCUMENTS if documents is None else documents
        self.phrases = prose.EXCEPTIONS if phrases is None else phrases
        listed = re.findall(r"^([\w]+)[^\n:#]*:", self.text("crates.txt"), re.M)
        self.crates = [name for name in listed if (self.top / "crates" / name).is_dir()]

    @functools.lru_cache(maxsize=None)
    def text(self, name):
        try:
            return (self.top / name).read_text(encoding="utf-8")
        except FileNotFoundError:
            return ""

    @functools.lru_cache(maxsize=None)
    def files(self, pattern):
        return sorted(str(path.relative_to(self.top)) for path in self.top.glob(pattern) if path.is_file())

    def sources(self):
        return self.files("crates/*/src/**/*.rt")

    def specs(self):
        return self.files("crates/*/specs/**/*.antt")

    def sources_of(self, crate):
        """Each file that a crate is made of."""
        return [name for part in ("src/**/*.rt", "specs/**/*.antt", "proofs/**/*.antt") for name in self.files(f"crates/{crate}/{part}")]

    def all_code(self):
        """Each file of code, of definitions, of proofs and of tests, in whatever language."""
        patterns = ("crates/*/proofs/**/*.antt", "tests/**/*", "clients/python/**/*.py", "examples/*.py", "bench/*", "launcher/*", "castle*", "install")
        names = [name for pattern in patterns for name in self.files(pattern) if not name.endswith((".pyc", ".md"))]
        return [*self.sources(), *self.specs(), *names]

    @functools.lru_cache(maxsize=None)
    def code(self, name):
        return blanked(self.text(name))

    @functools.lru_cache(maxsize=None)
    def functions(self, name):
        return list(functions_of(self.code(name)))

    def line(self, name, place):
        return line_at(self.code(name), place)

    def has_code(self, crate):
        """Whether the crate has a function with a body, and isn't of definitions and laws alone."""
        return any(not it.is_law for name in self.files(f"crates/{crate}/src/**/*.rt") for it in self.functions(name))

    def definitions(self):
        """Each definition of specs/, but not what a definition has within it."""
        for name in self.specs():
            for number, line in enumerate(self.text(name).split("\n"), 1):
                found = DEFINITION.match(line)
                if found:
                    yield Definition(found[1], name, number)

    def types(self):
        """Each public type of Rattle's."""
        for name in self.sources():
            for found in re.finditer(r"^\s*pub (?:struct|enum|trait|union|type) (\w+)", self.code(name), re.M):
                yield Definition(found[1], name, line_at(self.code(name), found.end()))


KEYWORDS = "abbrev|record|data|unfoldable|let"
DEFINITION = re.compile(rf"(?:(?:pub|{KEYWORDS})\s+)+(?!use\b|mod\b)([^\s:({{]+)")


def crate_of(name):
    return name.split("/")[1]


# The rules. Each yields its faults as a file, a line and what is wrong there.

def lines_of_contracts(tree, name):
    """The numbers of the lines that contracts stand on."""
    if name.endswith(".antt"):
        return range(1, tree.text(name).count("\n") + 2)
    code, numbers = tree.code(name), set()
    for function in tree.functions(name):
        for clause in function.clauses:
            numbers.update(lines_between(code, clause.at, clause.end))
    return sorted(numbers)


def contracts_are_narrow(tree):
    for name in [*tree.sources(), *tree.specs()]:
        lines = tree.text(name).split("\n")
        for number in lines_of_contracts(tree, name):
            line = lines[number - 1]
            if len(line) > CONTRACT_WIDTH and not is_import(line) and not is_comment(line):
                yield name, number, f"{len(line)} columns, above {CONTRACT_WIDTH}"


def comments_are_narrow(tree):
    for name in [*tree.sources(), *tree.specs()]:
        for number, line in enumerate(tree.text(name).split("\n"), 1):
            if len(line) > COMMENT_WIDTH and is_comment(line):
                yield name, number, f"a comment of {len(line)} columns, above {COMMENT_WIDTH}"


def files_are_short(tree):
    for name in tree.all_code():
        lines = len(tree.text(name).splitlines())
        if lines > FILE_LINES:
            yield name, lines, f"{lines} lines, above {FILE_LINES}"


def a_definition_has_its_name_alone(tree):
    first = {}
    for it in tree.definitions():
        if it.name in first:
            other = first[it.name]
            yield it.file, it.line, f"{it.name} is defined at {other.file}:{other.line} too"
        else:
            first[it.name] = it


def later_names_are_left_to_their_crates(tree):
    met = set()
    for it in [*tree.definitions(), *tree.types()]:
        owner, key = tree.owners.get(it.name), (it.name, it.file.rsplit("/", 1)[1])
        if key in tree.exceptions:
            met.add(key)
        elif owner and crate_of(it.file) != owner:
            yield it.file, it.line, f"{it.name} is a name of {owner}"
    for key in tree.exceptions:
        if key not in met:
            yield "tests/words.py", 1, f"the exception {key[0]} in {key[1]} is of no use"


ERRORS, PROTOCOL = "docs/ERRORS.md", "docs/PROTOCOL.md"


def rows_of(tree, name, heading=None):
    """The rows of a document's tables that begin with a number: the line, the number and the other cells."""
    within = heading is None
    for line, text in enumerate(tree.text(name).split("\n"), 1):
        if heading and text.startswith("## "):
            within = text == heading
        found = re.match(r"\|\s*(\d+)\s*\|(.*)\|\s*$", text)
        if within and found:
            yield line, int(found[1]), [cell.strip() for cell in found[2].split("|")]


def body_of(tree, function):
    """The file of the function with this name, the line where it begins, and its body's text."""
    for name in tree.sources():
        for it in tree.functions(name):
            if it.name == function:
                code = tree.code(name)
                start = clauses_of(code, code.index(function, it.at) + len(function))[1]
                return name, line_at(code, it.at), tree.text(name)[start:after_braces(code, start)]
    return None


def variants_of(tree, enum):
    """The file, the line and the name of each variant of a public enum."""
    for name in tree.sources():
        code = tree.code(name)
        found = re.search(rf"\bpub enum {enum}\s*(?=\{{)", code)
        if found:
            inner = code[found.end() + 1:after_braces(code, found.end()) - 1]
            flat = re.sub(r"\{[^{}]*\}|\([^()]*\)", lambda it: re.sub(r"[^\n]", " ", it[0]), inner)
            for variant in re.finditer(r"(?:^|,)\s*(?:#\[[^\]]*\]\s*)*([A-Z]\w*)", flat):
                yield name, line_at(code, found.end() + 1 + variant.start(1)), variant[1]


def arms_to_numbers(tree, enum):
    """The number that an arm of the code gives each variant, where one does."""
    arms = {}
    for name in tree.sources():
        for variant, number in re.findall(rf"\b{enum}::(\w+)(?: \{{[^{{}}]*\}})? => (\d+),", tree.code(name)):
            arms[variant] = int(number)
    return arms


def statuses_are_documented(tree):
    found = body_of(tree, "status_text")
    if not found:
        yield ERRORS, 1, "no function status_text is in crates/*/src"
        return
    name, line, body = found
    says = {int(number): text for number, text in re.findall(r'\b(\d+) => (?:\{\s*)?"([^"]*)"', body)}
    if not says:
        yield name, line, "status_text has no arm NUMBER => TEXT"
    told = {number: (at, cells[0]) for at, number, cells in rows_of(tree, ERRORS, "## Exit statuses")}
    for number, text in says.items():
        if number not in told:
            yield name, line, f"{ERRORS} has no exit status {number}, {text}"
        elif f"`{text}`" not in told[number][1]:
            yield ERRORS, told[number][0], f"status {number} is {text}, and not {told[number][1]}"
    for number, (at, cell) in told.items():
        if number not in says:
            yield ERRORS, at, f"the program has no status {number}, {cell}"
    numbers = arms_to_numbers(tree, "Ended")
    for name, line, variant in variants_of(tree, "Ended"):
        if variant not in numbers or numbers[variant] not in told:
            yield name, line, f"{ERRORS} has no exit status for Ended::{variant}"


def refusals_are_documented(tree):
    numbers = arms_to_numbers(tree, "Refusal")
    variants = list(variants_of(tree, "Refusal"))
    if not variants:
        yield PROTOCOL, 1, "no enum Refusal is in crates/*/src"
    for document, heading in ((ERRORS, "## Refusals"), (PROTOCOL, "## Replies")):
        told = {cells[0].split(",")[0]: (line, number) for line, number, cells in rows_of(tree, document, heading)}
        for name, line, variant in variants:
            if variant not in told:
                yield name, line, f"{document} has no row for Refusal::{variant}"
            elif numbers.get(variant) != told[variant][1]:
                yield document, told[variant][0], f"{variant} is status {numbers.get(variant)} in the code"


def crates_have_readmes(tree):
    least, most = README_LINES
    for crate in tree.crates:
        name = f"crates/{crate}/README.md"
        text = tree.text(name)
        if not text:
            yield name, 1, "it isn't there"
            continue
        lines = len(text.splitlines())
        if lines > most:
            yield name, lines, f"{lines} lines, above {most}"
        if crate.endswith("_tests") or not tree.has_code(crate):
            continue
        if lines < least:
            yield name, lines, f"{lines} lines, below {least}"
        headings = re.findall(r"^#+ (.*?)\s*$", text, re.M)
        for heading in README_HEADINGS:
            if heading not in headings:
                yield name, 1, f"no heading {heading}"


def crates_are_in_the_architecture(tree):
    document = "docs/ARCHITECTURE.md"
    for crate in tree.crates:
        if crate.endswith("_tests"):
            continue
        if not re.search(rf"(?<!\w){crate}(?!\w)", tree.text(document)):
            yield document, 1, f"it doesn't name {crate}"


def crates_list_what_they_name(tree):
    """A line of crates.txt has the crates that the sources of its crate name, and no others: rt goes each way down from a
    crate, and some kits sum up the sources anew on each. A line of tests has all below it, since a test may use an impl of
    a crate that it does not name, and so has that of castle, whose launcher looks there for what the program is made of."""
    listed = {}
    for line, text in enumerate(tree.text("crates.txt").splitlines(), 1):
        crate, _, rest = text.partition(":")
        if crate in tree.crates:
            listed[crate] = line, {it for it in rest.split() if it in tree.crates}
    below = {}
    for crate, (line, has) in listed.items():
        texts = (re.sub(r"--.*", "", tree.code(name)) for name in tree.sources_of(crate))
        named = {it for text in texts for it in re.findall(r"\w+", text) if it in listed} - {crate}
        below[crate] = named.union(*(below.get(it, set()) for it in named))
        wanted = below[crate] if crate == "castle" or crate.endswith("_tests") else named
        for it in sorted(has ^ wanted):
            yield "crates.txt", line, f"{crate} {'lacks' if it in wanted else 'does not name'} {it}"


LISTED = re.compile(r"^CHECKS = \[\n(.*?)^\]", re.M | re.S)


def checks_of(tree):
    """The name of each check that a script runs, or the client's tests."""
    for name in tree.files("tests/**/*.py"):
        for listed in LISTED.findall(tree.text(name)):
            yield from re.findall(r"\w+", listed)
    for name in tree.files("clients/python/tests/test_*.py"):
        yield from re.findall(r"^    def (test_\w+)\(self", tree.text(name), re.M)


def checks_are_run(tree):
    scripts = [name for name in tree.files("tests/*.py") if re.search(r"^CHECKS = ", tree.text(name), re.M)]
    subjects = {word for name in scripts for listed in re.findall(r"^SUBJECTS = \[(.*?)\]", tree.text(name), re.M | re.S)
                for word in re.findall(r"\w+", listed)}
    for name in [*scripts, *tree.files("tests/checks/*.py")]:
        text, subject = tree.text(name), pathlib.PurePath(name).stem
        if name not in scripts and LISTED.search(text) and subject not in subjects:
            yield name, 1, "no script has it among its SUBJECTS"
        for found in re.finditer(r"^def (\w+)\(folder\):", text, re.M):
            if len(re.findall(rf"\b{found[1]}\b", text)) == 1:
                yield name, line_at(text, found.start()), f"{found[1]} is not among the CHECKS"


REGRESSIONS = "tests/REGRESSIONS.md"


def parts_of(tree):
    """Each field of a definition, and each clause of a function, as `A.b`."""
    for name in tree.specs():
        owner = None
        for line in tree.text(name).split("\n"):
            field = re.match(r"\s+(?:pub )?(\w+) :", line)
            if field and owner:
                yield f"{owner}.{field[1]}"
            elif line and not line[0].isspace():
                defined = DEFINITION.match(line)
                owner = defined[1] if defined else owner if is_comment(line) else None
    for name in tree.sources():
        for function in tree.functions(name):
            yield from (f"{function.name}.{clause.name}" for clause in function.clauses if clause.name)


def tests_and_laws(tree):
    """The name of each test and each law of Rattle's."""
    for name in tree.sources():
        code = tree.code(name)
        yield from (function.name for function in tree.functions(name) if function.is_law)
        yield from re.findall(r"#\[test\]\s+(?:pub )?fn (\w+)", code)


def what_regressions_may_name(tree):
    edits = (pathlib.PurePath(name).name for name in tree.files("crates/*/must-fail/*.edit"))
    return {*edits, *checks_of(tree), *parts_of(tree), *tests_and_laws(tree), *(it.name for it in tree.definitions())}


def regressions_name_what_notices_them(tree):
    known = what_regressions_may_name(tree)
    rows = [(line, text) for line, text in enumerate(tree.text(REGRESSIONS).split("\n"), 1) if text.startswith("| ")]
    heads = {line - 1 for line, text in enumerate(tree.text(REGRESSIONS).split("\n"), 1) if text.startswith("|-")}
    if not rows:
        yield REGRESSIONS, 1, "it has no row"
    for line, text in rows:
        named = re.findall(r"`([^`]+)`", text.rstrip().rstrip("|").rpartition("|")[2])
        if line not in heads and not named:
            yield REGRESSIONS, line, "the row names nothing that would notice it"
        for name in named:
            if name not in known:
                yield REGRESSIONS, line, f"{name} is no check, test, law, clause, definition or wrong body"


RULES = [
    contracts_are_narrow,
    files_are_short,
    a_definition_has_its_name_alone,
    later_names_are_left_to_their_crates,
    statuses_are_documented,
    refusals_are_documented,
    crates_have_readmes,
    crates_are_in_the_architecture,
    crates_list_what_they_name,
    checks_are_run,
    regressions_name_what_notices_them,
    *clauses.RULES,
    *placed.RULES,
    *prose.RULES,
    *ratchet.RULES,
]


def title(rule):
    return rule.__name__.replace("_", " ")


def run(tree, rules, out=print):
    """Prints the faults of each rule, and how many rules passed and failed. The exit status."""
    failed = 0
    for rule in rules:
        faults = list(rule(tree))
        for name, line, what in faults:
            out(f"{name}:{line}: {what}")
        out(f"words: {f'FAILED: {title(rule)}: {len(faults)}' if faults else title(rule)}")
        failed += bool(faults)
    out(f"{len(rules) - failed} passed, {failed} failed")
    return 1 if failed else 0


# The rules themselves, on a tree that is right and on one fault at a time

LOW, HALF = "crates/low/src/lib.rt", "crates/low/specs/Half.antt"
WIDE = "x" * CONTRACT_WIDTH
# each is one replacement in one file, the line where the fault is told, and the rule that tells it alone
FAULTS = [
    (LOW, "        half = n;", f"        half = {WIDE};", 8, contracts_are_narrow),
    (HALF, "half n = n", f"half n = {WIDE}", 7, contracts_are_narrow),
    (HALF, "pub thrice", "-- x\n" * FILE_LINES + "pub thrice", FILE_LINES + 17, files_are_short),
    ("clients/python/tests/test_low.py", "pass\n", "pass\n" * FILE_LINES, FILE_LINES + 2, files_are_short),
    (HALF, "pub thrice", "pub twice", 16, a_definition_has_its_name_alone),
    (HALF, "unfoldable pub twice", "abbrev pub half", 15, a_definition_has_its_name_alone),
    (HALF, "unfoldable pub twice", "pub data IsHalf", 15, a_definition_has_its_name_alone),
    (HALF, "unfoldable pub twice", "let Way", 15, a_definition_has_its_name_alone),
    (HALF, "pub data Way", "pub data Plan", 12, later_names_are_left_to_their_crates),
    (LOW, "pub trait Half", "pub trait Plan", 23, later_names_are_left_to_their_crates),
    (HALF, "pub record View", "pub record Viewed", 1, later_names_are_left_to_their_crates),
    ("docs/ERRORS.md", "`usage`", "`words`", 6, statuses_are_documented),
    ("docs/ERRORS.md", "| 1 | `usage` |\n", "| 1 | `usage` |\n| 2 | `more` |\n", 7, statuses_are_documented),
    ("crates/castle/src/main.rt", "fn status_text", "fn texts", 1, statuses_are_documented),
    ("crates/castle/src/main.rt", "Usage }", "Usage, Other }", 1, statuses_are_documented),
    ("docs/ERRORS.md", "| 17 | Broken", "| 18 | Broken", 13, refusals_are_documented),
    ("docs/PROTOCOL.md", "| 17 | Broken", "| 17 | Broke", 31, refusals_are_documented),
    (LOW, "    Unknown,", "    Unknown,\n    Frozen,", 31, refusals_are_documented),
    ("crates/low/README.md", "## Limits", "## Bounds", 1, crates_have_readmes),
    ("crates/castle/README.md", made_up.README, "# castle\n", 1, crates_have_readmes),
    ("crates/low_tests/README.md", "# low_tests\n", "x\n" * 61, 61, crates_have_readmes),
    ("crates/low_tests/README.md", "# low_tests\n", "", 1, crates_have_readmes),
    ("docs/ARCHITECTURE.md", "castle, low, laws", "castle, low, lower", 1, crates_are_in_the_architecture),
    ("crates.txt", "laws: low", "laws:", 3, crates_list_what_they_name),
    ("crates.txt", "low_tests: low", "low_tests: low laws", 4, crates_list_what_they_name),
    ("crates.txt", "castle: low laws", "castle: laws", 5, crates_list_what_they_name),
    ("README.md", "`The image", "`A`" + " word" * 25 + "\n`image", 5, prose.sentences_are_short),
    ("README.md", "that goes on.", "ends. It" + " goes" * 30 + " on.", 12, prose.sentences_are_short),
    ("README.md", "by the gate.", "by the gate. It" + " goes" * 30 + ".", 6, prose.sentences_are_short),
    ("README.md", "| updates |", "|" + " update" * 31 + " |", 20, prose.sentences_are_short),
    ("README.md", "`level 0`", "Level\n0", 5, prose.prose_says_the_fields_word),
    ("README.md", "| updates |", "| images |", 20, prose.prose_says_the_fields_word),
    ("README.md", "    a moment", "a moment", 8, prose.prose_says_the_fields_word),
    ("README.md", "by the gate", "by a gate", 5, prose.prose_says_the_fields_word),
    ("README.md", "by the gate", "then", 1, prose.prose_says_the_fields_word),
    ("docs/GLOSSARY.md", "| Prose |", "By the gate.\n\n| Prose |", 1, prose.prose_says_the_fields_word),
    ("docs/GLOSSARY.md", "| memtable |", "| `memtable` |", 3, prose.the_glossary_has_these_words),
    ("docs/GLOSSARY.md", "| out of memory | image |\n", "", 9, prose.the_glossary_has_these_words),
    ("tests/low.py", "[halves]", "[]", 1, checks_are_run),
    ("tests/checks/halves.py", "    a_half_is_made,\n", "    a_half_is_made,\n]\n\n\ndef another(folder):\n    pass\n\n\n[\n", 14, checks_are_run),
    (REGRESSIONS, "`test_low`", "`test_lower`", 5, regressions_name_what_notices_them),
    (REGRESSIONS, "half_is_whole", "half_is_half", 5, regressions_name_what_notices_them),
    (REGRESSIONS, "`a_half_is_made`", "`made`", 5, regressions_name_what_notices_them),
    (REGRESSIONS, "`a_test`", "`no_test`", 6, regressions_name_what_notices_them),
    (REGRESSIONS, "IsHalf.half", "IsHalf.whole", 6, regressions_name_what_notices_them),
    (REGRESSIONS, "whole.greatest", "whole.least", 6, regressions_name_what_notices_them),
    (REGRESSIONS, "| `a_half_is_made`, `test_low`, `half_is_whole.edit` |", "| the tests |", 5, regressions_name_what_notices_them),
    *clauses.FAULTS,
    *placed.FAULTS,
    *ratchet.FAULTS,
]


def made(folder, files):
    for name, text in files.items():
        path = pathlib.Path(folder) / name
        path.parent.mkdir(parents=True, exist_ok=True)
        path.write_text(text, encoding="utf-8")
    return Tree(folder, {"View": "strat_cursor", "Plan": "strat_split"}, {("View", "Half.antt"): "of the test"},
                ("README.md", "docs/GLOSSARY.md"), {("README.md", "the gate"): "of the test"})


def self_test():
    passed = failed = 0
    cases = [(None, "", "", None, None), *FAULTS]
    for file, old, new, line, wanted in cases:
        files = dict(made_up.RIGHT)
        if file:
            if files[file].count(old) != 1:
                raise SystemExit(f"words: {old!r} stands {files[file].count(old)} times in {file}")
            files[file] = files[file].replace(old, new)
        with tempfile.TemporaryDirectory() as folder:
            tree = made(folder, files)
            got = {(rule, at) for rule in RULES for _, at, _ in rule(tree)}
        told = {rule for rule, _ in got}
        if (told, (wanted, line) in got) == (({wanted}, True) if wanted else (set(), False)):
            passed += 1
        else:
            failed += 1
            print(f"words: FAILED: {new.strip()[:60]!r} in {file}: told by "
                  f"{sorted((title(rule), at) for rule, at in got)}, wanted at line {line} of {wanted and title(wanted)}")
    tried = {wanted for *_, wanted in FAULTS}
    for rule in RULES:
        if rule not in tried:
            failed += 1
            print(f"words: FAILED: no fault tries the rule {title(rule)}")
    print(f"{passed} passed, {failed} failed")
    return 1 if failed else 0


def main(words):
    if words == ["--self"]:
        return self_test()
    if words not in ([], ["--all"]):
        raise SystemExit(__doc__)
    tree = Tree(TOP)
    if words:
        for name, line, what in comments_are_narrow(tree):
            print(f"{name}:{line}: {what}")
    return run(tree, RULES)


if __name__ == "__main__":
    with contextlib.suppress(BrokenPipeError):
        sys.exit(main(sys.argv[1:]))
