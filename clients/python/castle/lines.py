"""Lines of the shell: which command one is, with which options, and what is wrong with it."""

from __future__ import annotations

import difflib
from typing import TYPE_CHECKING, Callable, Dict, List, Mapping, NamedTuple, Optional, Sequence

from .errors import Wrong
from .text import Word, encoded, hexed, is_text, shortened

if TYPE_CHECKING:
    from .shell import Shell

ALIASES = {"?": "help", "del": "delete", "exit": "quit", "ls": "scan"}


class Command(NamedTuple):
    """A command of the shell."""

    group: str
    usage: str
    summary: str
    run: Callable[["Shell", List[Word]], None]
    least: int
    """How many words it takes, besides options and that for a version."""
    most: int
    takes_version: bool = True
    """Whether `@V` may stand at its end."""
    options: Mapping[str, str] = {}
    """Its options, each with what stands behind it; empty where nothing does. The shell has them in `options`."""


def near(written: str, words: Sequence[str]) -> str:
    """The word that was meant, as `did you mean scan? `; empty where none is like it."""
    found = difflib.get_close_matches(written.lower()[:64], words, 1)
    return f"did you mean {found[0]}? " if found else ""


def command_of(name: str, commands: Mapping[str, Command]) -> Command:
    """The command of this name, or of this other name for it."""
    command = commands.get(ALIASES.get(name, name))
    if command is None:
        meant = near(name, [*commands, *ALIASES])
        raise Wrong(f"unknown command {shortened(name)}; {meant}`help` lists the commands")
    return command


def take_options(command: Command, rest: List[Word]) -> Dict[str, Word]:
    """Takes a command's options out of its words. Each comes with the word behind it, or with its own if it takes none.

    Where a command has options, a word without quotes that begins with -- is one.
    """
    found: Dict[str, Word] = {}
    words = iter(list(rest) if command.options else ())
    if command.options:
        rest.clear()
    for word in words:
        if not word.bare or not (word.text in command.options or word.text.startswith("--")):
            rest.append(word)
            continue
        if word.text not in command.options:
            meant = near(word.text, list(command.options))
            raise Wrong(f"no option {shortened(word.text)}; {meant}usage: {command.usage}",
                        "Write a key that begins with -- in quotes.")
        if word.text in found:
            raise Wrong(f"{word.text} stands twice; usage: {command.usage}")
        value = next(words, None) if command.options[word.text] else word
        if value is None:
            raise Wrong(f"{word.text} needs {command.options[word.text]}; usage: {command.usage}")
        found[word.text] = value
    return found


def check_words(command: Command, rest: Sequence[Word], at: Optional[Word]) -> None:
    """Fails where a command has too few words or too many, or a version where none may stand.

    `rest` are its words, and `at` is the version at its end, if there is one.
    """
    for word in rest:
        if word.is_version:
            raise Wrong(f"{shortened(word.text)} does not stand at the end, where @ and a version stand",
                        "Elsewhere write a version without @, and a key or value that begins with @ in quotes.")
    if at is not None and not command.takes_version:
        raise Wrong(f"usage: {command.usage}")
    if not command.least <= len(rest) <= command.most:
        is_short = at is not None and len(rest) < command.least
        raise Wrong(f"usage: {command.usage}", "Write a key or value that begins with @ in quotes." if is_short else "")


def is_number(name: str) -> bool:
    """Whether a version is named by its number."""
    return name.isascii() and name.isdigit()


def check_text(line: str) -> None:
    """Fails for a line that was typed with a byte that is no text of the terminal."""
    for column, char in enumerate(line, 1):
        if not is_text(char):
            raise Wrong(f"the byte in column {column} is no text of this terminal", f"Write it as {hexed(encoded(char))}.")
