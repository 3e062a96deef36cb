"""What a check says of a store's file: the verdicts, read from the line that the program prints, and told in words."""

from __future__ import annotations

import re
from dataclasses import dataclass
from typing import ClassVar, Dict, Iterator, NamedTuple

from .jsonform import line_of


class Rule(NamedTuple):
    """What a rule of a sound store comes to where a file breaks it. The words are those of docs/ERRORS.md."""

    meaning: str
    """What fails."""
    readable: str
    """What may still be read, as far as this rule goes."""
    remedy: str
    """What to do."""


RESTORE = "Restore a copy that is sound."
MOVE = "Restore a copy that is sound, or dump all and load it into a new store."

RULES: Dict[str, Rule] = {
    "a": Rule("Two arrays of the level are for one version, or one is for a version that the level is too old for.",
              "Nothing: no run opens such a file.", RESTORE),
    "b": Rule("A version sees keys of the level, and no array of it is for this version.",
              "Other versions. This one, and its clones that are newer than the level, lack these keys or have older values of them.",
              RESTORE),
    "c": Rule("At a version of the array its entries are not those that the level has for this version.",
              "Versions of other arrays. At the array's versions keys may be missing, or have values of another version.", RESTORE),
    "d": Rule("At a version of the array less than a third of its entries is live.",
              "Every version. The store takes more room than is promised.", MOVE),
    "e": Rule("More than half of the array's entries are copies.",
              "Every version. The store takes more room than is promised.", MOVE),
    "f": Rule("The array has an entry that no version of the level has.",
              "Every version: none of the array's versions sees this entry.", MOVE),
    "g": Rule("The level has two values of a key at one version.",
              "Nothing certain of that key. A check tells rule m of such a file.", RESTORE),
    "h": Rule("The level has more leads than there is room for.",
              "Every version. The store may do more work than is promised.", MOVE),
    "i": Rule("The level has a greater horizon than one above it.",
              "Every version.", MOVE),
    "j": Rule("A version has a child that was there when the level was made, and has changes in a level above it.",
              "Versions that are no descendants of that one. A descendant may show a value of that one in place of a nearer one.",
              RESTORE),
    "k": Rule("The array's numbers in the manifest are not those of its entries.",
              "Every version. What `levels` prints of this array is not so.", MOVE),
    "l": Rule("The levels have more leads than the manifest counts updates.",
              "Every version. A check tells rule k of such a file.", MOVE),
    "m": Rule("The array's entries are out of order from one block to the next.",
              "Versions of other arrays. At the array's versions keys may be missing, or a run may end as damaged.", RESTORE),
}


@dataclass(frozen=True)
class Verdict:
    """What a check says: a `Sound`, an `Unsound` or a `Damaged`. It is true where the file is sound."""

    is_sound: ClassVar[bool] = False

    def __bool__(self) -> bool:
        return self.is_sound


@dataclass(frozen=True)
class Sound(Verdict):
    """The file keeps every rule of a sound store."""

    is_sound: ClassVar[bool] = True

    def __str__(self) -> str:
        return "sound"


@dataclass(frozen=True)
class Unsound(Verdict):
    """The file breaks a rule. Those that are tried behind it, in the order m, a to l, may fail too."""

    rule: str
    """Its letter."""
    level: int
    """The number of the level that breaks it; 0 where that is no single one."""
    array: int
    """The number of the array that breaks it; 0 where that is no single one."""

    def __str__(self) -> str:
        return f"unsound {self.rule} level {self.level} array {self.array}"

    @property
    def meaning(self) -> str:
        """What fails, in words."""
        return RULES[self.rule].meaning

    @property
    def readable(self) -> str:
        """What may still be read, as far as this rule goes."""
        return RULES[self.rule].readable

    @property
    def remedy(self) -> str:
        """What to do."""
        return RULES[self.rule].remedy


@dataclass(frozen=True)
class Damaged(Verdict):
    """A block of the file is not what the program writes there. No rule was tried."""

    block: int

    meaning: ClassVar[str] = "The block is not what the program writes there."
    readable: ClassVar[str] = "What is in other blocks, if the store opens."
    remedy: ClassVar[str] = RESTORE

    def __str__(self) -> str:
        return f"damaged block {self.block}"


UNSOUND = re.compile(r"unsound ([a-m]) level (\d+) array (\d+)\n")
DAMAGED = re.compile(r"damaged block (\d+)\n")
STATUSES = 0, 9, 11
"""The exit statuses of a check that has a verdict."""


def read(text: str, status: int) -> Verdict:
    """The verdict of a check that printed this and ended with one of these statuses. A ValueError tells that none does."""
    found = UNSOUND.fullmatch(text)
    if status == 11 and found:
        return Unsound(found[1], int(found[2]), int(found[3]))
    found = DAMAGED.fullmatch(text)
    if status == 9 and found:
        return Damaged(int(found[1]))
    if (status, text) != (0, "sound\n"):
        raise ValueError(f"the line {text!r} with status {status}")
    return Sound()


def lines(verdict: Verdict) -> Iterator[str]:
    """The verdict as lines of text: the program's own, and below it what it means and what to do."""
    yield str(verdict)
    if isinstance(verdict, (Unsound, Damaged)):
        yield f"  what fails: {verdict.meaning}"
        yield f"  what may still be read, by this alone: {verdict.readable}"
        yield f"  what to do: {verdict.remedy}"


def told(verdict: Verdict, is_json: bool) -> Iterator[str]:
    """The verdict as the shell tells it: as lines of text, or as one of JSON."""
    if is_json:
        yield line_of(fields(verdict))
    else:
        yield from lines(verdict)


def fields(verdict: Verdict) -> Dict[str, object]:
    """The verdict as fields of JSON."""
    if isinstance(verdict, Unsound):
        return {"verdict": "unsound", "rule": verdict.rule, "level": verdict.level, "array": verdict.array, "meaning": verdict.meaning,
                "readable": verdict.readable, "remedy": verdict.remedy}
    if isinstance(verdict, Damaged):
        return {"verdict": "damaged", "block": verdict.block, "meaning": verdict.meaning, "readable": verdict.readable,
                "remedy": verdict.remedy}
    return {"verdict": "sound"}
