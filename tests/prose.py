"""The rules of tests/words.py for prose: how long a sentence may be, and which word of a pair it says.

Run alone it measures: for each document its sentences, the words of one in the median, at nine tenths and at most, and
how often the word of prose and the word of code of each pair are said.
"""

import collections
import pathlib
import re

WORDS_MOST = 30  # of one sentence; a name in backticks is one word

TOP = pathlib.Path(__file__).resolve().parent.parent

# The documents that are held to these rules: all that there are.
DOCUMENTS = [str(path.relative_to(TOP))
             for pattern in ("*.md", "docs/*.md", "crates/*/README.md", "clients/*/README.md")
             for path in sorted(TOP.glob(pattern))]

# For each word that prose says (the first table of docs/GLOSSARY.md) the forms of the code's word.
PAIRS = {
    "memtable": r"levels? 0",
    "checkpoint": r"publications?|publish(?:es|ed|ing)?",
    "commit flag": r"gates?",
    "crash state": r"images?",
    "crash point": r"moments?",
    "recovery": r"openings?",
    "encoding": r"spell(?:s|ed|ing|ings)?|spelt",
    "out of memory": r"wants? (?:of|for) memory",
}

# Where a document means something else by the code's word: the phrase, with the reason.
EXCEPTIONS = {
    ("README.md", "the gate"): "what judges a change, `./test`",
    ("CHANGES.md", "the gate"): "what judges a change, `./test`",
    ("CONTRIBUTING.md", "the gate"): "what judges a change, `./test`",
    ("docs/PROVING.md", "the gate"): "what judges a change, `./test`",
}

GLOSSARY = "docs/GLOSSARY.md"

# A paragraph, an item of a list, a heading or a cell of a table. The last says of a cell whether it ties words.
Passage = collections.namedtuple("Passage", "line text ties")

FENCE = re.compile(r"\s*(?:```|~~~)")
ITEM = re.compile(r"\s*(?:[-*+]|\d+\.)\s+")
CODE = re.compile(r"(`+)(?!`).+?(?<!`)\1(?!`)", re.S)
END = re.compile(r"(?<=[\w)\]*\"'])[.!?][)*\"'\]]*(?=\s)")


# Reading documents

def without_code(text):
    """The text with one letter for each name in backticks, and without where its links lead. Lines stay."""
    text = CODE.sub(lambda found: "X" + "\n" * found[0].count("\n"), text)
    return re.sub(r"\]\([^()\s]*\)", "]", text)


def cells_of(row):
    return [cell.strip() for cell in without_code(row).strip().strip("|").split("|")]


def ties_words(head, at):
    """Whether a column of a table with this head ties words to others: all do but what they mean."""
    return re.match(r"(?:Word|Prose)\b", head[0]) is not None and head[min(at, len(head) - 1)] != "Meaning"


def passages(text):
    """The prose of a document: what stands in no block of code, no comment and no head of a table."""
    found, head, fenced, within, listed = [], None, False, False, False
    hidden = re.sub(r"<!--.*?-->", lambda it: "\n" * it[0].count("\n"), text, flags=re.S)
    for number, line in enumerate(hidden.split("\n"), 1):
        item = ITEM.match(line)
        if FENCE.match(line):
            fenced, within, head = not fenced, False, None
        elif fenced or not line.strip():
            within, head = False, None
        elif line.lstrip().startswith("|"):
            cells, within = cells_of(line), False
            if head is None:
                head = cells
            elif not re.fullmatch(r"[\s|:-]+", line):
                found += [Passage(number, cell, ties_words(head, at)) for at, cell in enumerate(cells)]
        elif line.startswith("#"):
            found.append(Passage(number, line.lstrip("# "), False))
            within = listed = False
        elif within and not item:
            found[-1] = found[-1]._replace(text=f"{found[-1].text}\n{line.strip()}")
        elif item or listed or not line.startswith("    "):
            listed = item is not None or (listed and line.startswith(" "))
            found.append(Passage(number, line[item.end() if item else 0:], False))
            within = True
    return [it._replace(text=without_code(it.text)) for it in found]


def sentences(text):
    """The line and the text of each sentence of a document."""
    for passage in passages(text):
        start = 0
        for end in [*(it.end() for it in END.finditer(passage.text)), len(passage.text)]:
            part = passage.text[start:end]
            before = passage.text.count("\n", 0, start + len(part) - len(part.lstrip()))
            if part.strip():
                yield passage.line + before, " ".join(part.split())
            start = end


def length(sentence):
    return sum(1 for word in sentence.split() if re.search(r"\w", word))


# The rules. Each yields its faults as a file, a line and what is wrong there.

def sentences_are_short(tree):
    for name in tree.documents:
        for line, sentence in sentences(tree.text(name)):
            if length(sentence) > WORDS_MOST:
                yield name, line, f"a sentence of {length(sentence)} words, above {WORDS_MOST}: {sentence[:60]}.."


def prose_says_the_fields_word(tree):
    met = set()
    for name in tree.documents:
        for passage in passages(tree.text(name)):
            text = " ".join(passage.text.split())
            for document, phrase in tree.phrases:
                if document == name and re.search(rf"\b{re.escape(phrase)}\b", text, re.I):
                    met.add((document, phrase))
                    text = re.sub(rf"\b{re.escape(phrase)}\b", "", text, flags=re.I)
            for word, code in PAIRS.items():
                found = None if passage.ties else re.search(rf"\b(?:{code})\b", text, re.I)
                if found:
                    yield name, passage.line, f"{found[0]}, where prose says {word}"
    for document, phrase in tree.phrases:
        if (document, phrase) not in met:
            yield "tests/prose.py", 1, f"the exception {phrase!r} in {document} is of no use"


def the_glossary_has_these_words(tree):
    line, head, rest = 1, False, set(PAIRS)
    for number, text in enumerate(tree.text(GLOSSARY).split("\n"), 1):
        cells = cells_of(text) if text.startswith("|") else []
        head = cells == ["Prose", "Code"] or (head and bool(cells))
        if head and len(cells) == 2 and cells != ["Prose", "Code"] and not set(cells[0]) <= set("-: "):
            line = number
            if cells[0] not in PAIRS:
                yield GLOSSARY, number, f"no rule counts {cells[0]}"
            rest.discard(cells[0])
    for word in sorted(rest):
        yield GLOSSARY, line, f"its first table has no {word}"


RULES = [sentences_are_short, prose_says_the_fields_word, the_glossary_has_these_words]


def measure(top):
    for name in DOCUMENTS:
        text = (top / name).read_text(encoding="utf-8")
        counts = sorted(n for n in (length(it) for _, it in sentences(text)) if n >= 4)
        said = " | ".join(" ".join(it.text.split()) for it in passages(text) if not it.ties)
        pairs = []
        for word, code in PAIRS.items():
            ours, theirs = (len(re.findall(rf"\b(?:{form})\b", said, re.I)) for form in (word + "s?", code))
            if ours or theirs:
                pairs.append(f"{word} {ours}:{theirs}")
        print(f"{name}: {len(counts)} sentences of {counts[len(counts) // 2]}, {counts[len(counts) * 9 // 10]} and "
              f"{counts[-1]} words, {sum(n > WORDS_MOST for n in counts)} above {WORDS_MOST}; {', '.join(pairs)}")


if __name__ == "__main__":
    measure(TOP)
