"""The rules of tests/words.py for clauses: what one may be called, and how many a function has.

Beside each name stands what such a clause has to speak of. tests/ratchet.py holds clauses to that, but for those of a list.
"""

import re

# What a clause may be called, what that means, and a pattern that the text of such a clause matches. A reader asks the same
# questions of every function.
CLAUSES = {
    "ok": ("what a call that succeeded did or gives", r"\bresult\b|\.new\b"),
    "err": ("what a call that failed leaves or gives", r"\bOnErr\b|\bIsErr|\bIfErr\b|Refused|refusal|Silent|Trouble"),
    "cause": ("when each error may come", r"[Ff]ault|Cause|Reason|Rose|Err|Short|↔"),
    "same": ("what stays as it was", r"\.old\b|\.(\w+) ≡ [^→×]*\.\1\b|e\.1 ≡"),
    "kept": ("which invariant holds afterwards",
             r"\b(Is|Are|Has|Have|Keeps|Owns|Match|May)[A-Z]|Stands?(?=\b|[A-Z])|≤|\bis_|\.new\b.*\.old\b|\.old\b.*\.new\b"),
    "images": ("what a crash may leave", r"\bImages\b|\bKeepsImages\b|\bTears|\bSince\b|\bWritesBeside\b"),
    "trail": ("through which tables the images go", r"\bTrail\b|\bFollows|\bSince\b"),
    "faults": ("how counts of failures move", r"faults|failing|Uncalled|Fused"),
    "found": ("what was found", r"\bresult\b|\.new\b"),
    "none": ("when nothing is found",
             r"\bNone|IfNone|≡ (false|true)\b|\[\]|≡ 0|⊥|NotAStore|IsSome|0 < n|New\b|FewFree"),
    "damaged": ("when a block is damaged, and which", r"Damaged|misfit|Blamed|\bIsBad|ReadOf\b"),
    "room": ("that there is space for what is added",
             r"[Rr]oom|capacity|spare|counted|≤|<|nat_le|Marked|Uses|Takes|Apart"),
    "fits": ("that a size or a number is within its limits",
             r"≤|<|fits|awful|is_key|is_markable|IsPair|AreBytes|Unfit|accepted|known|has_version|Follow|spare"),
    "durable": ("that a crash leaves what was written", r"Durable|\bImages\b|HoldsBatch"),
    "time": ("what holds of the moments that passed", r"\bPasses\b|Continues|\bSince\b|[Mm]oment"),
    "reads": ("how often the disk is read", r"[Rr]eads|LeavesBlocks"),
    "len": ("how long a result is",
            r"length|len\b|[Cc]ount|used|entries|consumed|needed|Fills|PairsFor|Adds|≡ \[\]|\bmin\b|≤|0 <"),
    "used": ("how many blocks are in use afterwards", r"used_count"),
    "end": ("where a result or a position ends",
            r"\b(at|end|place|places_ahead|steps_\w+|item|from|given|start)\b|End|length|\.1\b"),
    "state": ("what an object is afterwards", r"\.new\b|\bstage\b"),
    "budget": ("how much a slice of a promotion takes", r"Budget"),
    "disk": ("what the device holds afterwards", r"\bdisk\.new\b"),
    "cursors": ("what became of the cursors", r"[Cc]ursors"),
    "filter": ("what became of the filter of an array", r"[Ff]ilter"),
    "filters": ("of which keys the filters of arrays are", r"[Ff]ilter"),
}
CLAUSES_MOST = 12  # of one function


def contracts(tree):
    """Each function whose contract others read, with its file: no law, and none of tests or of pins."""
    for name in tree.sources():
        if not re.search(r"(tests|pins)/src/|tests\.rt$", name):
            yield from ((name, it) for it in tree.functions(name) if not it.is_law)


def astray(tree):
    """The clauses of what a call ensures that do not say what their names mean: file, line, name and that meaning."""
    for name, function in contracts(tree):
        for clause in function.clauses:
            meaning, says = CLAUSES.get(clause.name, ("", ""))
            fact = " ".join(tree.code(name)[clause.at:clause.end].partition("{")[2].split())
            if clause.kind == "ensures" and not re.search(says, fact):
                yield name, tree.line(name, clause.at), f"{function.name}.{clause.name}", meaning


# The rules. Each yields its faults as a file, a line and what is wrong there.

def clauses_are_named_from_one_list(tree):
    for name, function in contracts(tree):
        for clause in function.clauses:
            if clause.name and clause.name not in CLAUSES:
                yield name, tree.line(name, clause.at), f"{clause.kind} {clause.name} of {function.name}"


def functions_have_few_clauses(tree):
    for name in tree.sources():
        for function in tree.functions(name):
            if len(function.clauses) > CLAUSES_MOST and not function.is_law:
                line = tree.line(name, function.at)
                yield name, line, f"{function.name} has {len(function.clauses)} clauses, above {CLAUSES_MOST}"


RULES = [clauses_are_named_from_one_list, functions_have_few_clauses]


# What tests/words.py --self adds to its tree that is right, and the faults that it then tries one at a time

LOW, TESTS = "crates/low/src/lib.rt", "crates/low_tests/src/lib.rt"
MANY = "".join("    requires fits { 1 ≤ 2 }\n" for _ in range(CLAUSES_MOST - 2))
RIGHT = {
    "crates/low/src/clauses.rt": """fn vague() -> u8
    ensures end { result ≡ 1 }
{
    1
}

fn clear(at: u8) -> u8
    requires end { 1 ≡ 1 }
    ensures ok { result ≡ 2 }
    ensures end { result ≡ at + 1 }
    ensures { 1 ≡ 1 }
{
    2
}

fn law()
    ensures ok { 1 ≡ 1 }
{}
""",
    TESTS: """#[test]
fn a_test() { half(); }

fn no_test()
    ensures calm { 1 ≡ 1 }
    ensures ok { 1 ≡ 1 }
{
    half();
}
""",
}
FAULTS = [
    (LOW, "ensures same", "ensures calm", 25, clauses_are_named_from_one_list),
    (LOW, "requires fits", "requires fits_well", 6, clauses_are_named_from_one_list),
    (LOW, "ensures ok*", "ensures* fine", 7, clauses_are_named_from_one_list),
    (LOW, "    ensures { n ≡ n }\n", "    ensures { n ≡ n }\n" + MANY, 5, functions_have_few_clauses),
]
