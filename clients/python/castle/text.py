"""Bytes as text and back: what can be read stands as it is, every other byte as `\\xNN`.

Text is UTF-8. Two notations are told apart. A *cell* is a key or a value in a dump, between tabs. A *word* is one
in a command line: between blanks, or in double quotes where it has some.
"""

from __future__ import annotations

import os
import re
from typing import List, NamedTuple

from .errors import TextFault


class Word(NamedTuple):
    """One word of a command line."""

    data: bytes
    bare: bool
    """Whether it stands without quotes, so that `@3` means a version."""
    text: str
    """As it was written."""

    @property
    def is_version(self) -> bool:
        """Whether it is `@` and a version."""
        return self.bare and self.text.startswith("@")

    @property
    def name(self) -> str:
        """What it says without quotes and escapes, as the name of a version."""
        return self.data.decode("utf-8", "surrogateescape")

    @property
    def path(self) -> str:
        """What it says without quotes and escapes, as the path of a file."""
        return os.fsdecode(self.data)


def encoded(written: str) -> bytes:
    """The bytes of text. A byte that was no UTF-8 as it was read is the byte again."""
    return written.encode("utf-8", "surrogateescape")


def is_text(written: str) -> bool:
    """Whether all that was read is text. A byte that is none was read as half of a pair of surrogates."""
    return not re.search("[\ud800-\udfff]", written)


def hexed(data: bytes) -> str:
    """Each byte as `\\xNN`."""
    return "".join(f"\\x{byte:02x}" for byte in data)


def cell(data: bytes) -> str:
    """Bytes as a cell of a dump."""
    written = data.decode("utf-8", "surrogateescape")
    if written.isprintable() and "\\" not in written:
        return written
    shown = []
    for char in written:
        if char == "\\":
            shown.append("\\\\")
        elif char.isprintable():
            shown.append(char)
        else:
            shown.append(hexed(encoded(char)))
    return "".join(shown)


def shown(data: bytes) -> str:
    """Bytes as a word that a command line takes again."""
    plain = cell(data)
    if plain and not re.search(r'[ "]', plain) and plain[0] not in "@#":
        return plain
    return '"' + plain.replace('"', '\\"') + '"'


MOST = 60  # characters of a word in a message


def shortened(written: str) -> str:
    """A word for a message, which breaks off where it is long."""
    return written if len(written) <= MOST else f"{written[:MOST]}.. ({len(written):,} characters)"


ESCAPE = re.compile(r"\\(x[0-9a-fA-F]{2}|.?)", re.S)
LETTERS = {"\\": b"\\", '"': b'"', "n": b"\n", "t": b"\t"}


def unescaped(written: str) -> bytes:
    """The bytes of text with escapes: `\\xNN`, `\\\\`, `\\"`, `\\n`, `\\t`."""
    data, at = bytearray(), 0
    for found in ESCAPE.finditer(written):
        data += encoded(written[at:found.start()])
        at = found.end()
        if found[1].startswith("x") and len(found[1]) == 3:
            data.append(int(found[1][1:], 16))
        elif found[1] in LETTERS:
            data += LETTERS[found[1]]
        else:
            raise TextFault(f"{found[0]} is no escape", "Write \\xNN with two hex digits, \\\\, \\\", \\n or \\t.")
    return bytes(data) + encoded(written[at:])


WORD = re.compile(r'"((?:[^"\\]|\\.)*)"(?=\s|$)|([^\s"]\S*)')


def words(line: str) -> List[Word]:
    """The words of a command line."""
    found_words, at = [], 0
    line = line.strip()
    while at < len(line):
        found = WORD.match(line, at)
        if found is None:
            raise TextFault(f"the quotes from column {at + 1} on have no end",
                            'Write "..." with a blank behind it, and \\" for a quote within.')
        quoted, bare = found[1], found[2]
        found_words.append(Word(unescaped(bare if quoted is None else quoted), quoted is None, found[0]))
        at = found.end()
        while at < len(line) and line[at].isspace():
            at += 1
    return found_words


QUOTED = re.compile(r'"((?:[^"\\]|\\.)*)"', re.S)


def argument(written: str) -> Word:
    """The word that an argument of a process stands for: as in a line, but blanks within it need no quotes."""
    quoted = QUOTED.fullmatch(written)
    return Word(unescaped(quoted[1] if quoted else written), quoted is None, written)


def counted(count: int, noun: str) -> str:
    """As `1 pair`, `2 pairs`, `3 entries`."""
    return f"{count:,} {noun if count == 1 else f'{noun[:-1]}ies' if noun.endswith('ry') else f'{noun}s'}"
