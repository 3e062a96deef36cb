#!/usr/bin/env python3
"""Alters definitions one at a time, and says which proofs notice. A definition that can be altered unnoticed wants a pin.

  tests/altered.py FILE..                                lists the alterations of these files of specs/, numbered
  tests/altered.py --in COPY --check CRATE[:PATH].. FILE..  makes each alone in COPY and checks there

`--in` names another checkout with its libraries (tests/libraries.py), whose files are put back afterwards. `--check` may be
repeated: `def_recovery` is a whole crate, `strat_serve:laws` what `rt check --only laws` checks there. They are tried in
turn until one is refused. `--take 3,7-9` takes these numbers alone, `--draw COUNT` so many of all (`--seed N`), and
`--together` makes all of them at once, for the records that only laws cite: each law then names the field that it misses.

An alteration leaves out a field of a record, a case of a relation, a side of `&&`, `×`, `⊎`, `++` or `+`, or a test `if .. then
.. else` on a line of its own; or it turns `<` into `≤`, `nat_lt` into `nat_le`, `before` into `now`, `old` into `new`, `take`
into `drop`, each also the other way, or raises a number by one. One that the altered file itself cannot do without ends as
`broken`, and says nothing.
"""

import argparse
import dataclasses
import pathlib
import random
import re
import subprocess
import sys

import words

FIELD = re.compile(r"^  (?:pub )?([\w'-]+) :", re.M)
TURNED = {" < ": " ≤ ", " ≤ ": " < ", "nat_lt ": "nat_le ", "nat_le ": "nat_lt "}
JOINED = ("&&", "×", "⊎", "++", "+")
STOPS = ("→", "=", "≡", "≤", "<", "then", "else", "in", ":", "∷")
PAIRED = {"before": "now", "now": "before", "old": "new", "new": "old", "take": "drop", "drop": "take"}


@dataclasses.dataclass(frozen=True)
class Alteration:
    file: pathlib.Path
    name: str  # of the definition
    what: str
    start: int
    end: int
    text: str  # in place of what stands there

    def made(self, whole):
        return whole[: self.start] + self.text + whole[self.end :]


def definitions(text):
    """Each definition with its name, whether it is a record or data, and where it stands."""
    starts = [it.start() for it in re.finditer(r"^(?:abbrev|unfoldable|pub|opaque) ", text, re.M)]
    for start, behind in zip(starts, [*starts[1:], len(text)]):
        end = start + len(re.split(r"\n\s*\n|\n--", text[start:behind])[0])
        line = text[start:end].split("\n", 1)[0]
        if not line.startswith("pub mod"):
            yield re.sub(r"^(?:abbrev |unfoldable |opaque |pub |record |data )*", "", line).split()[0], line, start, end


def fields(text, start, end):
    """The fields of a record, or the cases of data, with their text; comments before a field are no part of it."""
    found = list(FIELD.finditer(text, start, end))
    for at, behind in zip(found, [*found[1:], None]):
        stop = behind.start() if behind else end
        body = re.split(r"\n  --", text[at.start() : stop])[0]
        yield at.group(1), at.start(), at.start() + len(body.rstrip("\n"))


def drops(file, name, text, start, end):
    """Each field or case left out that no other one of the same definition names."""
    for field, at, stop in fields(text, start, end):
        others = re.sub("--.*", "", text[start:at] + text[stop:end])
        if not re.search(rf"(?<![\w.'-]){re.escape(field)}(?![\w'-])", others):
            yield Alteration(file, name, f"without {field}", at, min(stop + 1, end), "")


def depth_ends(text, at, step, start, end):
    """How far an operand reaches from here, to a bracket that it does not open or to a word that ends it."""
    depth, i = 0, at
    opens, closes = ("([{", ")]}") if step > 0 else (")]}", "([{")
    while start <= i < end:
        c = text[i]
        if c in opens:
            depth += 1
        elif c in closes:
            if depth == 0:
                return i if step > 0 else i + 1
            depth -= 1
        elif depth == 0 and (c in ",;" or any(is_word(text, i, w, step) for w in (*STOPS, *JOINED))):
            return i if step > 0 else i + 1
        i += step
    return end if step > 0 else start


def is_word(text, i, word, step):
    at = i if step > 0 else i - len(word) + 1
    if at < 0 or text[at : at + len(word)] != word:
        return False
    around = text[at - 1 : at] + text[at + len(word) : at + len(word) + 1]
    return all(c.isspace() for c in around)


def sides(file, name, text, start, end):
    """Each side of a conjunction, a product, a sum or a list left out."""
    for sign in JOINED:
        for it in re.finditer(rf"\s{re.escape(sign)}\s", text[start:end]):
            left, right = start + it.start(), start + it.end()
            first = depth_ends(text, left, -1, start, end)
            last = depth_ends(text, right, 1, start, end)
            spaces = len(text[first:left]) - len(text[first:left].lstrip())
            yield Alteration(file, name, f"{sign}: without its left side", first + spaces, right, "")
            yield Alteration(file, name, f"{sign}: without its right side", left, last, " " if last < end else "")


def turns(file, name, text, start, end):
    """Each bound made strict or not, each word of a pair turned, each number raised, each refusing test left out."""
    for sign, other in TURNED.items():
        for it in re.finditer(re.escape(sign), text[start:end]):
            at = start + it.start()
            yield Alteration(file, name, f"{other.strip()} for {sign.strip()}", at, at + len(sign), other)
    head = start + re.search(r"where\n|=|$", text[start:end]).start()
    for it in re.finditer(rf"(?<![\w'.-])(?:{'|'.join(PAIRED)})(?![\w'-])", text[head:end]):
        at = head + it.start()
        yield Alteration(file, name, f"{PAIRED[it.group()]} for {it.group()}", at, at + len(it.group()), PAIRED[it.group()])
    for it in re.finditer(r"(?<![\w'{.-])(?<!Type )\d{1,5}(?![\w'.])", text[start:end]):
        at = start + it.start()
        yield Alteration(file, name, f"{int(it.group()) + 1} for {it.group()}", at, at + len(it.group()), str(int(it.group()) + 1))
    for it in re.finditer(r"^ +if .* then .* else\n", text[start:end], re.M):
        yield Alteration(file, name, "without a test", start + it.start(), start + it.end(), "")


def alterations(file):
    text = file.read_text()
    for name, line, start, end in definitions(text):
        if re.search(r"^pub (record|data) ", line):
            yield from drops(file, name, text, start, end)
        yield from sides(file, name, text, start, end)
        yield from turns(file, name, text, start, end)


def chosen(all_of_them, args):
    numbered = list(enumerate(all_of_them))
    if args.take:
        spans = [part.partition("-") for part in args.take.split(",")]
        wanted = {n for a, _, b in spans for n in range(int(a), int(b or a) + 1)}
        numbered = [it for it in numbered if it[0] in wanted]
    if args.draw:
        numbered = sorted(random.Random(args.seed).sample(numbered, min(args.draw, len(numbered))), key=lambda it: it[0])
    return numbered


def refusals(copy, check):
    """What a check of the copy refuses: its lines of errors, none if it proves."""
    crate, _, only = check.partition(":")
    command = ["rt", "check", *(["--only", only] if only else [])]
    done = subprocess.run(command, cwd=copy / "crates" / crate, capture_output=True, text=True)
    lines = (done.stdout + done.stderr).splitlines()
    if done.returncode == 0:
        return []
    return [line.strip() for line in lines if "error:" in line or "did not prove" in line or "not proved" in line] or lines[-3:]


def verdict(found, alteration):
    own = f"specs/{alteration.file.name}"
    if not found:
        return "unnoticed"
    return "broken" if own in found[0] else "noticed"


def try_them(made, copy, checks):
    """Makes some alterations at once, and answers who noticed first."""
    files = {it.file: (copy / it.file.relative_to(words.TOP)) for it in made}
    before = {path: path.read_text() for path in files.values()}
    try:
        for file, path in files.items():
            text = before[path]
            first = len(text)
            for it in sorted((it for it in made if it.file == file), key=lambda it: -it.start):
                if it.end <= first:  # of two at one place one is made
                    text, first = it.made(text), it.start
            path.write_text(text)
        for check in checks:
            found = refusals(copy, check)
            if found:
                return check, found
        return "", []
    finally:
        for path, text in before.items():
            path.write_text(text)


def main():
    parser = argparse.ArgumentParser(description=__doc__, formatter_class=argparse.RawDescriptionHelpFormatter)
    parser.add_argument("--in", dest="copy", type=pathlib.Path)
    parser.add_argument("--check", action="append", default=[])
    parser.add_argument("--take")
    parser.add_argument("--draw", type=int)
    parser.add_argument("--seed", type=int, default=1)
    parser.add_argument("--together", action="store_true")
    parser.add_argument("files", nargs="+", type=pathlib.Path)
    args = parser.parse_args()
    found = chosen([it for file in args.files for it in alterations(file.resolve())], args)
    if not args.copy:
        for n, it in found:
            print(f"{n} {it.file.relative_to(words.TOP)} {it.name}: {it.what}")
        return
    if args.together:
        check, said = try_them([it for _, it in found], args.copy.resolve(), args.check)
        print("\n".join([check, *said]))
        return
    for n, it in found:
        check, said = try_them([it], args.copy.resolve(), args.check)
        print(f"{n} {it.name}: {it.what}: {verdict(said, it)} {check}", *said[:3], sep="\n    ", flush=True)


if __name__ == "__main__":
    sys.exit(main())
