"""Pairs as lines of text, and back: a line KEY, tab, VALUE for each, between a first and a last line that begin with #."""

from __future__ import annotations

import re
from typing import Iterable, Iterator, List

from .errors import DumpFault, KeySize, TextFault, ValueSize
from .frames import KEY_MAX, VALUE_MAX, Pair
from .text import cell, encoded, unescaped

FIRST = "# castle dump 1"
STORE = "# castle store "  # how the dump of a whole store begins
HEAD = re.compile(rf"{FIRST}(,.*)?")
COMMENT = r"\\x23"  # a key's first # in a line, as the replacement of a pattern
LAST = re.compile(r"# end, (\d{1,18}) pairs?")


def lines_of(pairs: Iterable[Pair], title: str) -> Iterator[str]:
    """The lines of a dump. The title is told in the first one, and means nothing."""
    count = 0
    yield f"{FIRST}, {cell(encoded(title))}\n"
    for key, value in pairs:
        yield f"{re.sub('^#', COMMENT, cell(key))}\t{cell(value)}\n"
        count += 1
    yield f"# end, {count} pair{'' if count == 1 else 's'}\n"


def pairs_of(lines: Iterable[str], file: str) -> List[Pair]:
    """The pairs of a whole dump, each of which a store takes. Other lines that begin with # are passed over."""
    pairs: List[Pair] = []
    number, end = 0, None
    for number, line in enumerate(lines, 1):
        line = line.rstrip("\n")
        if number == 1 and not HEAD.fullmatch(line):
            remedy = "`load --all FILE` loads a whole store." if line.startswith(STORE) else f"A dump begins with {FIRST}."
            raise DumpFault("line 1 is not that of a dump", remedy, file=file)
        if end is not None:
            raise DumpFault(f"line {number} stands behind the end", "Remove it, or dump again.", file=file)
        if line.startswith("#"):
            end = LAST.fullmatch(line)
            continue
        pairs.append(_pair(line, number, file))
    if end is None:
        raise DumpFault(f"it is cut off behind line {number}", "Dump again: its last line tells how many pairs there are.",
                        file=file)
    if int(end[1]) != len(pairs):
        raise DumpFault(f"it has {len(pairs)} pairs, and its last line says {end[1]}", "Dump again, or mend that line.",
                        file=file)
    return pairs


def _pair(line: str, number: int, file: str) -> Pair:
    key, tab, value = line.partition("\t")
    if not tab or "\t" in value:
        raise DumpFault(f"line {number} is not a key, one tab and a value", "Mend the line.", file=file)
    return pair_of(key, value, number, file)


def pair_of(written: str, rest: str, number: int, file: str) -> Pair:
    """The key and the value of a line, of which both cells are given."""
    try:
        key, value = unescaped(written), unescaped(rest)
    except TextFault as fault:
        raise DumpFault(f"line {number}: {fault.what}", fault.remedy, file=file) from None
    return checked(key, value, number, file)


def checked(key: bytes, value: bytes, number: int, file: str, place: str = "line") -> Pair:
    """The pair of the line of this number, or of another place, if a store takes it."""
    if not 1 <= len(key) <= KEY_MAX:
        raise DumpFault(f"{place} {number} has a key of {len(key)} bytes", KeySize.remedy, file=file)
    if len(value) > VALUE_MAX:
        raise DumpFault(f"{place} {number} has a value of {len(value):,} bytes, above {VALUE_MAX:,}", ValueSize.remedy,
                        file=file)
    return key, value
