"""The commands `backup`, `salvage`, `export` and `import`, of a shell over an open store and, the first two, of a process that opens none."""

from __future__ import annotations

import contextlib
import os
import sys
from typing import TYPE_CHECKING, Callable, Dict, Iterator, List, Mapping, NamedTuple, Sequence

from . import jsonform, rescue
from .errors import CastleError, SomethingLost, SomethingRefused, Unreadable
from .lines import Command, check_words, take_options
from .progress import Line, teller
from .salvaging import Lost, Salvage
from .storecopy import Progress
from .terminal import INTERRUPTED, Interrupts, Stopped
from .text import Word, argument, counted, shown

if TYPE_CHECKING:
    from .shell import Shell

FAILED, LOST, NOTHING = 2, 1, 3
"""Exit statuses of one command: it failed; something is lost or in doubt; nothing can be read."""
STOPPED = "stopped; nothing was made"
STOPPED_AMID = "stopped; some of the pairs were put, and to import the file again puts them all"


@contextlib.contextmanager
def progress(interrupts: Interrupts, stopped: str = STOPPED) -> Iterator[Progress]:
    """What tells how far a command is, which Ctrl-C stops."""
    line = Line()
    try:
        yield teller(interrupts, line)
    except (Stopped, KeyboardInterrupt):
        raise Stopped(stopped) from None
    finally:
        line.clear()


# Over an open store

def backup(shell: "Shell", rest: List[Word]) -> None:
    """Carries out `backup`."""
    with progress(shell.interrupts) as tell:
        shell.store.backup(rest[0].path, overwrite="--overwrite" in shell.options, progress=tell)
    shell.say(f"wrote {shown(os.fsencode(rest[0].path))}", wrote=os.fsencode(rest[0].path))


def salvage(shell: "Shell", rest: List[Word]) -> None:
    """Carries out `salvage`. In a script it is an error if something is lost."""
    options = shell.options
    with progress(shell.interrupts) as tell:
        found = shell.store.salvage(rest[0].path, overwrite="--overwrite" in options, doubtful="--doubtful" in options, progress=tell)
    for line in lines(found, rest[0].path, shell.json):
        shell.out.write(f"{line}\n")
    if not (found.is_whole or shell.is_typed):
        raise SomethingLost(file=shell.store.path, command="salvage")


def export(shell: "Shell", rest: List[Word]) -> None:
    """Carries out `export`."""
    with progress(shell.interrupts) as tell:
        shell.store.export(shell.version(), rest[0].path, progress=tell)
    shell.say(f"wrote {shown(os.fsencode(rest[0].path))}", wrote=os.fsencode(rest[0].path))


def take(shell: "Shell", rest: List[Word]) -> None:
    """Carries out `import`. In a script it is an error if a pair is refused."""
    version = shell.version()
    with progress(shell.interrupts, STOPPED_AMID) as tell:
        found = shell.store.import_from(rest[0].path, version, progress=tell)
    for key, error in found.refused:
        shell.say(f"refused: {shown(key)}: {error.what}", refused=key, error=error.what)
    shell.say(f"imported {counted(found.pairs, 'pair')} into {shell.titled(version)}", imported=found.pairs, version=version)
    if not (found.is_whole or shell.is_typed):
        raise SomethingRefused(file=shell.store.path, command="import")


# Of a process

def alone(command: Command, path: str, given: Sequence[str], is_json: bool) -> int:
    """Carries out one of them for a store that is not open, and gives the exit status."""
    with Interrupts() as interrupts:
        try:
            name, *rest = [argument(word) for word in given]
            options = take_options(command, rest)
            check_words(command, rest, None)
            with progress(interrupts) as tell:
                status, told = DEEDS[name.text](path, rest[0].path, options, tell, is_json)
        except Unreadable as error:
            return _give_up(error, NOTHING)
        except CastleError as error:
            return _give_up(error, FAILED)
        except Stopped as stopped:
            return _give_up(stopped, INTERRUPTED)
    for line in told:
        print(line)
    return status


def _give_up(error: Exception, status: int) -> int:
    print(f"castle-shell: {error}", file=sys.stderr)
    return status


def _backup_alone(path: str, to: str, options: Mapping[str, Word], tell: Progress, is_json: bool) -> "Deed":
    rescue.backup(path, to, overwrite="--overwrite" in options, progress=tell)
    name = os.fsencode(to)
    return Deed(0, [jsonform.line_of({"wrote": name}) if is_json else f"wrote {shown(name)}"])


def _salvage_alone(path: str, to: str, options: Mapping[str, Word], tell: Progress, is_json: bool) -> "Deed":
    found = rescue.salvage(path, to, overwrite="--overwrite" in options, doubtful="--doubtful" in options, progress=tell)
    return Deed(0 if found.is_whole else LOST, list(lines(found, to, is_json)))


class Deed(NamedTuple):
    """The exit status of a command, and what it prints."""

    status: int
    told: List[str]


DEEDS: Dict[str, Callable[[str, str, Mapping[str, Word], Progress, bool], Deed]] = {"backup": _backup_alone, "salvage": _salvage_alone}


# What a salvage tells

def lines(found: Salvage, to: str, is_json: bool) -> Iterator[str]:
    """What a salvage gave, as lines of text or of JSON."""
    if is_json:
        yield from map(jsonform.line_of, _fields(found, os.fsencode(to)))
        return
    gone = f", of which {found.dropped:,} {'is' if found.dropped == 1 else 'are'} dropped" if found.dropped else ""
    yield f"wrote {shown(os.fsencode(to))}: {counted(found.versions, 'version')}{gone}, {counted(found.changes, 'update')}"
    if found.doubt is not None:
        yield f"in doubt: the file breaks rule {found.doubt.rule} ({found.doubt}), so any pair may be wrong or missing"
    if found.blocks:
        yield f"damaged: {', '.join(f'block {block}' for block in found.blocks)}"
    for lost in found.lost:
        yield f"lost: {lost}"
    if found.is_whole:
        yield "nothing is lost"


def _fields(found: Salvage, to: bytes) -> Iterator[Dict[str, object]]:
    yield {"wrote": to, "versions": found.versions, "dropped": found.dropped, "changes": found.changes, "damaged": list(found.blocks),
           "whole": found.is_whole}
    if found.doubt is not None:
        yield {"doubt": found.doubt.rule, "level": found.doubt.level, "array": found.doubt.array}
    for lost in found.lost:
        yield _lost_fields(lost)


def _lost_fields(lost: Lost) -> Dict[str, object]:
    return {"lost": list(lost.versions), "from": lost.lower, "before": lost.upper, "found": lost.found}
