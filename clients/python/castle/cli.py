"""The process castle-shell: its arguments, its streams and its exit status."""

from __future__ import annotations

import getopt
import os
import sys
import warnings
from typing import List, NamedTuple, Optional

from . import __version__, completion, keeping, terminal, verdict
from .errors import CastleError, NamesWarning
from .paging import paged
from .shell import ABSENT, COMMANDS, FAILED, SINGLE_FAILED, Shell
from .store import Store
from .terminal import INTERRUPTED

WRONG_USAGE = 2
USAGE = """usage: castle-shell [--json] [--keep-going] FILE [COMMAND [WORD..] | -c LINE..]

Carries out one command for the store in FILE, or the lines behind -c, or those of standard input: from a terminal
with a prompt, and else as a script.

  --json        prints one JSON object a line; bytes that are no text are {"hex": "ff00"}
  --keep-going  goes on behind a line that failed; else a script ends there
  -c LINE       a line of a script; may be given again
  -h, --help    shows this; `castle-shell FILE help` lists the commands
  --version     shows the version

Exit status of one command: 0, or 1 where `get` or `exists` finds no value, `check` a store that is not sound, or
`salvage` lost something, 2 where it failed, 3 where nothing can be salvaged. Of a script: 0, or 1 where a line failed. Of
both: 2 for wrong arguments, 130 after Ctrl-C.
`castle format FILE 64 100000 100` makes a store.
"""


class Arguments(NamedTuple):
    """What the process was asked for."""

    file: str
    command: List[str]
    """One command with its words; empty for lines."""
    lines: Optional[List[str]]
    """Those behind -c; None where standard input has the lines."""
    json: bool
    keeps_going: bool

    @property
    def failed(self) -> int:
        """The exit status of a failure."""
        return SINGLE_FAILED if self.command else FAILED


class Shown(Exception):
    """Arguments that ask for a text alone."""


def parsed(given: List[str]) -> Arguments:
    """The arguments of a process. A `GetoptError` tells what is wrong with them, and `Shown` has a text to print."""
    long = ["json", "keep-going", "help", "version"]
    options, words = getopt.getopt(given, "hc:", long)
    behind, command = getopt.getopt(words[1:], "hc:", long)
    options += behind
    names = [name for name, _ in options]
    if "-h" in names or "--help" in names:
        raise Shown(USAGE)
    if "--version" in names:
        raise Shown(f"castle-shell {__version__}\n")
    if not words:
        raise getopt.GetoptError("no store is given")
    lines = [line for name, line in options if name == "-c"]
    if lines and command:
        raise getopt.GetoptError(f"-c and the command {command[0]} are given, of which one is enough")
    return Arguments(words[0], command, lines or None, "--json" in names, "--keep-going" in names)


def opened(path: str) -> Store:
    """Opens a store, and says on standard error what is not as one may expect of it."""
    with warnings.catch_warnings():
        warnings.simplefilter("ignore", NamesWarning)  # it is told below
        store = Store(path)
    if store.read_only:
        print(f"castle-shell: {store.path}: the file can't be written; this is a copy of it as it is now, and takes no changes",
              file=sys.stderr)
    if store.names.warning:
        print(f"castle-shell: {store.names.warning}", file=sys.stderr)
    return store


def checked(arguments: Arguments) -> int:
    """Carries out the one command `check`. It opens no store, so that a file which can't be opened is checked too."""
    with terminal.Interrupts() as interrupts, keeping.progress(interrupts, "stopped") as tell:
        found = Store.check(arguments.file, progress=tell)
    for line in verdict.told(found, arguments.json):
        print(line)
    return 0 if found else ABSENT


def carry_out(arguments: Arguments) -> int:
    """Opens the store and carries out what was asked for."""
    try:
        if arguments.command == ["check"]:
            return checked(arguments)
        if arguments.command and arguments.command[0] in keeping.DEEDS:
            name = arguments.command[0]
            return keeping.alone(COMMANDS[name], arguments.file, arguments.command, arguments.json)
        with opened(arguments.file) as store:
            shell = Shell(store, sys.stdout, arguments.json, arguments.keeps_going)
            shell.has_input = bool(arguments.command or arguments.lines)
            if arguments.command:
                return shell.single(arguments.command)
            if arguments.lines:
                return shell.script(line for text in arguments.lines for line in text.splitlines() or [""])
            if not sys.stdin.isatty():
                return shell.script(sys.stdin)
            completion.prepare(COMMANDS, store.names, shell.keys)
            return shell.converse(lambda out: paged(out, shell.interrupts), completion.remember)
    except CastleError as error:
        sys.stdout.flush()
        print(f"castle-shell: {error}", file=sys.stderr)
        return arguments.failed
    except terminal.Stopped as stopped:
        print(f"castle-shell: {stopped}", file=sys.stderr)
        return INTERRUPTED


def main(given: Optional[List[str]] = None) -> int:
    """Runs the shell with these arguments, and gives the exit status; `USAGE` says which."""
    try:
        arguments = parsed(sys.argv[1:] if given is None else given)
    except Shown as shown:
        print(shown, end="")
        return 0
    except getopt.GetoptError as error:
        print(f"castle-shell: {error}\n{USAGE}", end="", file=sys.stderr)
        return WRONG_USAGE
    if sys.stdout is None or (sys.stdin is None and not arguments.command and not arguments.lines):
        print("castle-shell: standard input or output is closed", file=sys.stderr)
        return arguments.failed
    terminal.prepare_streams()
    try:
        status = carry_out(arguments)
        sys.stdout.flush()
        return status
    except OSError as error:
        # nobody reads what is printed, or it can't be written; what is left of it goes nowhere
        os.dup2(os.open(os.devnull, os.O_WRONLY), sys.stdout.fileno())
        if not isinstance(error, BrokenPipeError):
            print(f"castle-shell: {error.filename or 'standard output'}: {error.strerror}", file=sys.stderr)
        return arguments.failed
    except KeyboardInterrupt:
        return INTERRUPTED


if __name__ == "__main__":
    sys.exit(main())
