"""Copies of a store that follow it: `castle-replicate`, or python3 -m castle.replicate. docs/REPLICATION.md goes through it.

    from castle import replicate

    log = replicate.Log("app.log")
    with replicate.Leader("app.store", log) as leader:
        leader.put(0, "user/1/name", "Ann")
    replicate.Replica("copy.store").catch_up(log)

It is not proved. What is proved of the program holds whatever frames this loses, repeats or mixes up: a follower's table is that
of its leader after a prefix of the leader's changes.
"""

from __future__ import annotations

import argparse
import os
import sys
import warnings
from typing import BinaryIO, Callable, Iterator, List, Optional, Union

from . import __version__, changes, errors, frames, levels, terminal, text
from .changelog import Log, Writer
from .changes import Change, Receipt
from .errors import CastleError
from .followers import RETRIES, Follower, Replica
from .leaders import Leader, Led, record
from .process import find_program
from .progress import Line, told
from .redislog import SCHEMES, Connection, RedisLog
from .rescue import make_log_backup
from .store import Path, check_file, located
from .storecopy import Progress, silent

__all__ = ["Change", "Connection", "Follower", "Leader", "Led", "Log", "Receipt", "RedisLog", "Replica", "Writer", "backup", "changes_in", "log_at",
           "main", "record"]

FAILED, WRONG_USAGE = 1, 2
WAIT = 1.0  # seconds between two looks for a signal


def log_at(place: str) -> Union[Log, RedisLog]:
    """The log at a place: a folder, or an address such as `redis://localhost?stream=NAME`."""
    return RedisLog(place) if place.partition(":")[0] in SCHEMES else Log(place)


def backup(log: Union[Log, RedisLog], leader: Path, to: Path, program: Optional[str] = None, *, overwrite: bool = False,
           progress: Progress = silent) -> int:
    """Makes a copy of a leader's store by the changes in its log, and tells how many these are. The leader may run meanwhile.

    The copy is the leader after that many changes: those that the log has at this call. It has the leader's M, C and V, and its
    names. It is checked and synced before it takes its name, so at `to` is a whole store or what was there. `LogGap` tells of a log that
    does not begin with the first change. The rest is as of `castle.backup`.
    """
    made: List[int] = []

    def fill(path: str) -> None:
        made.append(Replica(path, program).catch_up(log, log.next, progress))

    make_log_backup(leader, to, program, overwrite, fill, progress)
    return made[0]


# Commands and what they give, as lines

def commands_of(lines: Iterator[str]) -> Iterator[bytes]:
    """The frames of lines `put KEY VALUE [@V]`, `delete KEY [@V]`, `clone [@V]` and `drop @V`. A `Wrong` tells of another one."""
    sizes = {"put": 2, "delete": 1, "clone": 0, "drop": 0}
    for number, line in enumerate(lines, 1):
        if not line.strip() or line.startswith("#"):
            continue
        name, *rest = text.words(line)
        version = rest.pop().text[1:] if rest and rest[-1].is_version else "" if name.text == "drop" else "0"
        if sizes.get(name.text) != len(rest) or not version.isascii() or not version.isdigit() or int(version) > frames.NUMBER_MAX:
            raise errors.Wrong(f"line {number} is no change", "Write put KEY VALUE @V, delete KEY @V, clone @V or drop @V.")
        words = [word.data for word in rest]
        if sum(map(len, words)) > frames.BODY_MAX - 13:
            raise errors.Wrong(f"line {number} has a key or a value that is too long", "Keys have 255 bytes, values 1,024.")
        make: Callable[..., bytes] = getattr(frames, name.text)
        yield make(number & frames.NUMBER_MAX, int(version), *words)


def lines_of(stream: BinaryIO, form: str) -> Iterator[str]:
    """The frames of a stream as lines, of changes or of receipts."""
    read: Callable[[bytes], Union[Change, Receipt]] = changes.change_of if form == "changes" else changes.receipt_of
    rest = b""
    for data in iter(lambda: os.read(stream.fileno(), 1 << 16), b""):
        found, rest = changes.split(rest + data)
        yield from (str(read(frame)) for frame in found)
    if rest:
        raise errors.WrongProtocol("the stream ended amid a frame", "Whoever wrote it was ended.")


def changes_in(path: str, program: Optional[str] = None) -> int:
    """How many changes the store of a file has, whether somebody has it open or not: the number that it waits for as a follower."""
    name, real = located(path)
    check_file(real, name)
    return levels.of_file(find_program(program), real, name).changes


# The subcommands

def _record(options: argparse.Namespace) -> None:
    with log_at(options.log).writer() as keeper:
        record(0, keeper, sys.stdout.buffer if options.passes else None, options.tell)


def _read(options: argparse.Namespace) -> None:
    log, number, out = log_at(options.log), options.number, sys.stdout.buffer
    while True:
        for found in log.read(number):
            given = found if options.until is None else found[:max(0, options.until - number)]
            out.write(b"".join(given))
            number += len(given)
            options.tell("changes", number, options.until)
        out.flush()
        if not options.stay or (options.until is not None and number >= options.until):
            return
        log.wait(number, WAIT)


def _feed(options: argparse.Namespace) -> None:
    if bool(options.copy) == bool(options.command):
        raise errors.Wrong("a copy is given by its file, or by --command and the words of a follower, and not by both")
    log = log_at(options.log)
    replica = Replica(options.copy, command=options.command, retries=options.retries)
    if options.stay:
        replica.stay(log, lambda: options.until is not None and (replica.next or 0) >= options.until, options.tell, WAIT, options.until)
    number = replica.catch_up(log, options.until, options.tell)
    print(f"{options.copy or ' '.join(options.command)}: next {number}, lag {log.next - number}")


def _backup(options: argparse.Namespace) -> None:
    number = backup(log_at(options.log), options.leader, options.copy, overwrite=options.overwrite, progress=options.tell)
    print(f"{options.copy}: next {number}")


def _status(options: argparse.Namespace) -> None:
    log = log_at(options.log)
    end = log.next
    print(f"{log.name}: first {log.first}, next {end}")
    for path in options.copies:
        number = changes_in(path)
        print(f"{path}: next {number}, lag {end - number}")


def _commands(options: argparse.Namespace) -> None:
    for frame in commands_of(iter(sys.stdin)):
        sys.stdout.buffer.write(frame)


def _show(options: argparse.Namespace) -> None:
    for line in lines_of(sys.stdin.buffer, options.form):
        print(line)


# The command line

def number_of(written: str) -> int:
    """A number of a change."""
    if not (written.isascii() and written.isdigit() and len(written) <= 10):
        raise argparse.ArgumentTypeError(f"{written!r} is no number")
    return int(written)


def parser() -> argparse.ArgumentParser:
    """What reads the words. Wrong ones end the process with status 2."""
    whole = argparse.ArgumentParser("castle-replicate", description="Keeps the changes of a leader in a log, and feeds followers.",
                                    epilog="LOG is a folder, or redis://HOST?stream=NAME. docs/REPLICATION.md has recipes. "
                                           "It is not proved.")
    whole.add_argument("--version", action="version", version=f"castle-replicate {__version__}")
    jobs = whole.add_subparsers(metavar="SUBCOMMAND", required=True)

    def job(name: str, run: Callable[[argparse.Namespace], None], what: str) -> argparse.ArgumentParser:
        made = jobs.add_parser(name, help=what, description=what)
        made.set_defaults(run=run)
        return made

    def with_log(made: argparse.ArgumentParser) -> argparse.ArgumentParser:
        made.add_argument("log", metavar="LOG")
        return made

    def with_end(made: argparse.ArgumentParser) -> None:
        made.add_argument("--until", type=number_of, metavar="N", help="stop before the change of this number")
        made.add_argument("--stay", action="store_true", help="go on with what the log gets, until a signal comes")

    keep = with_log(job("record", _record, "keep what `castle lead` writes to standard input"))
    keep.add_argument("--pass", action="store_true", dest="passes", help="write each change to standard output once it is kept")
    feed = with_log(job("feed", _feed, "give a copy the changes from the number that it answers"))
    feed.add_argument("copy", nargs="?", metavar="COPY", help="the file of the copy")
    with_end(feed)
    feed.add_argument("--retries", type=number_of, default=RETRIES, metavar="N", help="how often a copy is tried that takes nothing")
    feed.add_argument("--command", nargs=argparse.REMAINDER, default=[], metavar="WORD", help="what runs the follower, as ssh does")
    copy = with_log(job("backup", _backup, "make a checked copy of a leader's store by its changes, also while it runs"))
    copy.add_argument("leader", metavar="LEADER", help="the leader's file, of which the copy has the limits and the names")
    copy.add_argument("copy", metavar="COPY", help="the file that is made")
    copy.add_argument("--overwrite", action="store_true", help="take the place of a file that is there")
    read = with_log(job("read", _read, "write the changes from a number on to standard output"))
    read.add_argument("number", nargs="?", type=number_of, default=0, metavar="NUMBER")
    with_end(read)
    status = with_log(job("status", _status, "tell what the log has, and how far copies are behind it"))
    status.add_argument("copies", nargs="*", metavar="COPY")
    job("commands", _commands, "turn lines put KEY VALUE @V, delete KEY @V, clone @V and drop @V into frames")
    show = job("show", _show, "show frames of changes or of receipts as lines")
    show.add_argument("form", choices=("changes", "receipts"))
    return whole


def carry_out(options: argparse.Namespace) -> int:
    """Carries out a subcommand, tells what goes wrong, and gives the exit status."""
    line = Line()
    options.tell = lambda what, done, total: line.show(lambda: told(what, done, total))
    try:
        with warnings.catch_warnings():
            warnings.showwarning = lambda message, *_: print(f"castle-replicate: {message}", file=sys.stderr)
            warnings.simplefilter("always", errors.LogWarning)
            options.run(options)
        sys.stdout.flush()
        return 0
    except CastleError as error:
        line.clear()
        sys.stdout.flush()
        print(f"castle-replicate: {error}", file=sys.stderr)
        return WRONG_USAGE if isinstance(error, errors.Wrong) and options.run is _feed else FAILED
    finally:
        line.clear()


def main(arguments: Optional[List[str]] = None) -> int:
    """Runs it with these arguments, and gives the exit status: 0, 1 where it failed, 2 for wrong arguments, 130 after Ctrl-C."""
    options = parser().parse_args(arguments)
    terminal.prepare_streams()
    try:
        return carry_out(options)
    except OSError as error:
        # nobody reads what is written, or it can't be; what is left of it goes nowhere
        os.dup2(os.open(os.devnull, os.O_WRONLY), sys.stdout.fileno())
        if not isinstance(error, BrokenPipeError):
            print(f"castle-replicate: {error.filename or 'a standard stream'}: {error.strerror}", file=sys.stderr)
        return FAILED
    except KeyboardInterrupt:
        return terminal.INTERRUPTED


if __name__ == "__main__":
    sys.exit(main())
