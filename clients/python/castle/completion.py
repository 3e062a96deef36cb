"""What Tab completes at a prompt, and the history of the lines that were typed there."""

from __future__ import annotations

import glob
import os
import re
from typing import Callable, Dict, Iterable, List, Mapping, NamedTuple, Optional, Sequence, Set

from .errors import CastleError, TextFault
from .lines import ALIASES, Command
from .text import cell, hexed, unescaped

HISTORY = ".castle_history"
KEPT_LINES = 1000
KEYS = {"KEY", "PREFIX", "LOWER", "UPPER"}
VERSIONS = {"V", "A", "B", "FROM", "TO", "INTO"}
OLD_NAMES = "names", "switch"  # commands whose NAME is one that there is already

Keys = Callable[[bytes], List[bytes]]


class Usage(NamedTuple):
    """What the usage line of a command says of its words."""

    places: List[Set[str]]
    """For each place what may stand there: `KEY` and the like, or a word itself, as `set`."""
    options: Dict[str, str]
    """Its options, each with what stands behind it; empty where nothing does."""


def usage_of(command: Command) -> Usage:
    """Reads a usage line: `[..]` may be left out, and `|` begins another choice."""
    places: List[Set[str]] = []
    options: Dict[str, str] = {}
    at, opened, option = 0, [0], ""
    for word in re.findall(r"[][|]|[^][|\s]+", command.usage)[1:]:
        if word == "[":
            opened.append(at)
        elif word == "|":
            at = opened[-1]
        elif word == "]":
            opened.pop()
        elif word.startswith("-"):
            options[word] = ""
        elif option and option.startswith("-") and word.isupper() and command.options.get(option, word):
            options[option] = word
        elif not word.startswith("@"):
            places.extend(set() for _ in range(at + 1 - len(places)))
            places[at].add(word)
            at += 1
        option = word
    return Usage(places, options)


def kinds(before: Sequence[str], usage: Usage) -> Set[str]:
    """What may stand behind these words of a command."""
    if usage.options.get(before[-1]):
        return {usage.options[before[-1]]}
    place = 0
    for previous, word in zip(before, before[1:]):
        place += word not in usage.options and not usage.options.get(previous)
    return usage.places[place] if place < len(usage.places) else set()


def completions(before: Sequence[str], written: str, commands: Mapping[str, Command], names: Iterable[str], keys: Keys) -> List[str]:
    """What may stand in place of the beginning of a word, behind the words before it."""
    if not before:
        return _beginning(written, [*commands, *ALIASES])
    command = commands.get(ALIASES.get(before[0], before[0]))
    if command is None:
        return []
    usage = usage_of(command)
    if written.startswith("@"):
        return _beginning(written, [f"@{name}" for name in names])
    if written.startswith("-") and usage.options:
        return _beginning(written, usage.options)
    found = kinds(before, usage)
    if found & KEYS:
        return stored(written, keys)
    offered = [word for word in found if word.islower()]
    if found & VERSIONS or "NAME" in found and before[0] in OLD_NAMES:
        offered += names
    fitting = _beginning(written, [*offered, *(commands if "COMMAND" in found else ())])
    return fitting + files(written) if "FILE" in found else fitting


def _beginning(written: str, words: Iterable[str]) -> List[str]:
    """Those of the words that begin so, each with a blank behind it."""
    return sorted(f"{word} " for word in words if word.startswith(written))


def files(written: str) -> List[str]:
    """The files whose paths begin so, as words without quotes."""
    try:
        start = os.fsdecode(unescaped(written))
    except TextFault:
        return []
    found = sorted(glob.glob(glob.escape(start) + "*"))
    return [as_bare(os.fsencode(path + "/" if os.path.isdir(path) else path)) for path in found]


def stored(written: str, keys: Keys) -> List[str]:
    """The keys of the store that begin so, as words without quotes. An escape that is not whole yet is passed over."""
    try:
        found = keys(unescaped(re.sub(r"\\(x[0-9a-fA-F]?)?$", "", written)))
    except (CastleError, TextFault):
        return []
    return _beginning(written, map(as_bare, found))


def as_bare(data: bytes) -> str:
    """Bytes as a word without quotes."""
    word = cell(data).replace(" ", r"\x20")
    return hexed(word[0].encode()) + word[1:] if word[:1] in ("@", '"') and word else word


def prepare(commands: Mapping[str, Command], names: Iterable[str], keys: Keys) -> None:
    """Has Tab complete words, and keeps the lines that are typed in ~/.castle_history, but for those that begin with a blank."""
    try:
        import readline
    except ImportError:
        return
    import atexit

    def offer(written: str, state: int) -> Optional[str]:
        before = readline.get_line_buffer()[:readline.get_begidx()].split()
        if state == 0:
            found[:] = completions(before, written, commands, names, keys)
        return found[state] if state < len(found) else None

    found: List[str] = []
    readline.set_auto_history(False)  # `remember` does it
    readline.set_completer(offer)
    readline.set_completer_delims(" \t")
    has_libedit = "libedit" in (readline.__doc__ or "")
    readline.parse_and_bind("bind ^I rl_complete" if has_libedit else "tab: complete")
    history = os.path.join(os.path.expanduser("~"), HISTORY)
    try:
        readline.read_history_file(history)
    except OSError:
        pass
    readline.set_history_length(KEPT_LINES)

    def keep() -> None:
        try:
            readline.write_history_file(history)
        except OSError:
            pass

    atexit.register(keep)


def remember(line: str) -> None:
    """Keeps a line in the history, unless it begins with a blank or is the last one again."""
    try:
        import readline
    except ImportError:
        return
    if line and not line[0].isspace() and line != readline.get_history_item(readline.get_current_history_length()):
        readline.add_history(line)
