"""What can go wrong: an exception for each refusal, and one for each way in which the program ends.

Each message says the file, the command, what is wrong and what to do. The numbers, names and texts are those of
docs/ERRORS.md.
"""

from __future__ import annotations

import re
import signal
from typing import TYPE_CHECKING, Dict, Optional, Sequence, Type

if TYPE_CHECKING:
    from .merge import ThreeWay


class CastleError(Exception):
    """Whatever this package raises. `file` and `command` say where it happened, as far as that is known."""

    what = "it failed"
    remedy = ""

    def __init__(self, what: str = "", remedy: str = "", *, file: str = "", command: str = "") -> None:
        self.what = what or self.what
        self.remedy = remedy or self.remedy
        self.file = file
        self.command = command
        super().__init__(self.what)

    def __str__(self) -> str:
        place = "".join(f"{part}: " for part in (self.file, self.command) if part)
        return f"{place}{self.what}{'. ' if self.remedy else ''}{self.remedy}"


# Refusals

class Refused(CastleError):
    """A command was refused. The store is as it was before, and goes on, unless the class says otherwise."""

    status = 0


class UnknownVersion(Refused):
    """`version` is its number, where that is known. One that was dropped is told as a `Dropped`."""

    status = 16
    what = "the store has no version of this number"
    remedy = "Use 0 or a number that a clone gave; `tree` shows the versions that there are."
    version: Optional[int] = None


class Dropped(UnknownVersion):
    """The version was there, and was dropped: by this program or by another one."""

    what = "the version was dropped"
    remedy = "`tree` shows the versions that there are; a dropped one does not come back."


class Frozen(Refused):
    status = 17
    what = "the version has a child, and takes no puts and deletes and no drop"
    remedy = "Clone it, and write to the clone; or drop its children first."


class UnknownCursor(Refused):
    """Scans of this package don't meet it."""

    status = 18
    what = "no open cursor has this number"
    remedy = "Scan again."


class VersionLimit(Refused):
    status = 19
    what = "the store has as many versions as it was made for"
    remedy = ("Go on with the versions that there are, or make a store for more (V): `dump --all` and `load --all` move everything. "
              "Dropped versions count as well.")


class ChangeLimit(Refused):
    status = 20
    what = "the store took as many changes as it was made for"
    remedy = "Read on, or make a store for more (C): `dump --all` and `load --all` move everything."


class CursorLimit(Refused):
    """Raised where a scan begins, and by `diff`, which takes two cursors."""

    status = 21
    what = "64 cursors are open"
    remedy = "Read a scan to its end first, or end it by its close()."


class Malformed(Refused):
    status = 22
    what = "the program doesn't know this command"
    remedy = "It is of another build than this package: build it anew, or name another one by CASTLE_PROGRAM."


class KeySize(Refused):
    status = 23
    what = "a key has no byte or more than 255, or a bound has more than 255"
    remedy = "Give keys 1 to 255 bytes."


class ValueSize(Refused):
    status = 24
    what = "a value has more than 1,024 bytes"
    remedy = "Cut it into several keys."


class ScanSize(Refused):
    status = 25
    what = "a scan asks for no pair, or for more than 256"
    remedy = "Ask for 1 to 256 pairs at a time."


class FrameTooLong(Refused):
    """The run ends with it."""

    status = 26
    what = "a frame was longer than 2,048 bytes"
    remedy = "This is a mistake of the client; what was answered before holds. Open the store again."


class Root(Refused):
    status = 27
    what = "version 0 can't be dropped"
    remedy = "Drop the versions below it, or make a new store."


class NoMemory(Refused):
    status = 32
    what = "memory ran out, or the file has no free block left; the store is as it was"
    remedy = "Make room and send it again. Look-ups go on meanwhile."


class DeviceFault(Refused):
    """The run ends with it. A change that met it was made or it was not."""

    status = 33
    what = "the device failed; a change that met this was made or it was not"
    remedy = ("Mend the cause (a full or broken device), copy the file or mount its file system again, open that, and look "
              "whether the change is there.")


class Damaged(Refused):
    """The run ends with it. `block` is the number of the damaged block."""

    status = 34
    what = "a block of the file is damaged"
    remedy = "What is in other blocks can still be read after opening the store again. Restore a copy of the file."
    block: Optional[int] = None


class Unanswered(Refused):
    """A hub's own answer, and the connection ends with it. `cause` is its program's exit status, as a shell tells it."""

    status = 64
    what = "the hub's program ended before it answered; a change was made or it was not"
    remedy = "Look at what the hub said, start it again, open the store again, and look whether the change is there."
    cause: Optional[int] = None


class HubFull(Refused):
    """A hub's own answer, and the connection ends with it."""

    status = 65
    what = "the hub has as many clients as it takes"
    remedy = "End another one first, or have the hub take more (--clients)."


REFUSALS: Dict[int, Type[Refused]] = {kind.status: kind for kind in Refused.__subclasses__()}


def refusal(status: int, fields: bytes, file: str, command: str) -> Refused:
    """The exception for a reply of this status."""
    kind = REFUSALS.get(status)
    if kind is None:
        return Refused(f"refused with the unknown status {status}", Malformed.remedy, file=file, command=command)
    error = kind(file=file, command=command)
    if isinstance(error, Damaged) and len(fields) == 4:
        error.block = int.from_bytes(fields, "big")
        error.what = f"block {error.block} of the file is damaged"
    if isinstance(error, Unanswered) and len(fields) == 2:
        error.cause = int.from_bytes(fields, "big")
        error.what = f"the hub's program {_told(error.cause)} before it answered; a change was made or it was not"
    return error


def _told(status: int) -> str:
    """How a program ended whose status a shell would tell so."""
    if status > 128:
        return f"was ended by {_signal_name(status - 128)}"
    return f"ended with status {status}{f' ({ENDS[status].text})' if status in ENDS and ENDS[status].text else ''}"


def _signal_name(number: int) -> str:
    try:
        return signal.Signals(number).name
    except ValueError:
        return f"signal {number}"


# How the program ends

class Ended(CastleError):
    """The program ended. What it answered before holds; the store has to be opened again."""

    status = 0
    text = ""


class WrongUsage(Ended):
    status = 1
    text = ("usage: castle format FILE M C V, serve FILE, levels FILE, check FILE, workload FILE SEED COUNT, "
            "lead FILE, follow FILE, export FILE VERSION")
    what = "the program refused its arguments, and touched no file"
    remedy = "M is 4 to 4096, C is 1 to 16777216, V is 1 to 16384; the path has to be UTF-8."


class NotAStore(Ended):
    status = 2
    text = "not a store"
    what = "the file is no store"
    remedy = ("Look at the path. `castle --overwrite format FILE 64 100000 100` makes a store there, and forgets what the "
              "file had.")


class InputTooLong(Ended):
    status = 3
    text = "frame too long"
    what = "a frame was longer than 2,048 bytes, and the program ended"
    remedy = "This is a mistake of the client; what was answered before holds. Open the store again."


class InputCutOff(Ended):
    status = 4
    text = "truncated input"
    what = "the program's input ended within a command, which changed nothing"
    remedy = "Open the store again, and send that command again."


class DeviceFailed(Ended):
    status = 5
    text = "device fault"
    what = "the file or its folder could not be opened, read, written or synced"
    remedy = ("Mend the cause (a missing folder or permission, a full or broken device). If it came amid a run, copy the file "
              "or mount its file system again before you open it. All that was acknowledged is there.")


class InputFailed(Ended):
    status = 6
    text = "source fault"
    what = "the program could not read its input"
    remedy = "What was answered holds. Open the store again."


class OutputFailed(Ended):
    status = 7
    text = "sink fault"
    what = "the program could not write its output; changes without a reply may have been made"
    remedy = "Open the store again, and look whether they are there."


class OutOfMemory(Ended):
    status = 8
    text = "no memory"
    what = "there was too little memory to open the store, which is as it was"
    remedy = "Make room and try again: it takes 1.7 MB, 3.9 KB for each of M and 83 bytes for each of V."


class StoreDamaged(Ended):
    """`block` is the number of the damaged block, where the program told it."""

    status = 9
    text = "damaged"
    what = "the file is a store's, but a block of it is damaged"
    remedy = "What was answered before holds. Restore a copy of the file; the program has no repair."
    block: Optional[int] = None


class InputBudget(Ended):
    status = 10
    text = "byte budget"
    what = "the program took 2^40 bytes, as many as one run may"
    remedy = "Open the store again."


class Unsound(Ended):
    """`Store.check` gives a `castle.Unsound` in place of this."""

    status = 11
    text = "unsound"
    what = "the file breaks a rule of a sound store"
    remedy = "Restore a copy of the file."


class NoSuchVersion(Ended):
    """Of an export. A command of an open store is refused as `UnknownVersion`."""

    status = 12
    text = "unknown version"
    what = "the store has no version of this number, or it was dropped, and nothing was written"
    remedy = "Use 0 or a number that a clone gave and that was not dropped; `castle-shell FILE tree` shows them."


class LauncherRefused(Ended):
    """The launcher says why on standard error."""

    status = 125
    what = "the launcher refused, and did not start the program"
    remedy = "Look at what it said: the store is open elsewhere, or a file stands where a store is to be made."


class NotBuilt(Ended):
    status = 126
    what = "the program could not be proved or built"
    remedy = "Look at what the launcher said, or name a built program by CASTLE_PROGRAM."


class NoKit(Ended):
    status = 127
    what = "the Rattle kit's command rt is not found, with which the program is built"
    remedy = "Put the kit's bin folder on PATH, or name a built program by CASTLE_PROGRAM."


class Killed(Ended):
    """A signal ended the program; `status` is minus its number."""

    remedy = ("All that was acknowledged is in the file; the changes without a reply are there or they are not. "
              "Open the store again and look.")


class Interrupted(Ended):
    what = "the pipes to the program failed"
    remedy = "Open the store again, and look whether changes without a reply are there."


class HubGone(Ended):
    """Of a store over a hub."""

    what = "the hub ended, or closed the connection; a change without a reply was made or it was not"
    remedy = "Start the hub again if it ended, open the store again, and look whether the change is there."


ENDS: Dict[int, Type[Ended]] = {kind.status: kind for kind in Ended.__subclasses__() if kind.status}


def ended(status: int, file: str, command: str, printed: str = "") -> Ended:
    """The exception for a run that ended with this status, or by the signal of minus this number, after it printed this."""
    if status < 0:
        error: Ended = Killed(f"the program was ended by {_signal_name(-status)}", file=file, command=command)
    elif status in ENDS:
        error = ENDS[status](file=file, command=command)
    else:
        error = Ended(f"the program ended with status {status}", "Open the store again.", file=file, command=command)
    error.status = status
    found = re.fullmatch(r"damaged block (\d+)\n", printed)
    if isinstance(error, StoreDamaged) and found:
        error.block = int(found[1])
        error.what = f"block {error.block} of the file is damaged"
    return error


def unknown_word(end: Ended, path: str) -> Ended:
    """The same end of a run, where the program refused the word of its command, with what that means."""
    if isinstance(end, WrongUsage):
        if any("\udc80" <= letter <= "\udcff" for letter in path):
            end.what = "the path of the file is no UTF-8"
            end.remedy = "The program takes no other one: rename the file, or its folders."
        elif end.command:
            end.what, end.remedy = f"the program has no {end.command.split()[0]}", Malformed.remedy
    return end


def again(end: CastleError) -> CastleError:
    """The same once more, for a command that came after the end."""
    error = type(end)(end.what, end.remedy, file=end.file)
    if isinstance(error, Ended) and isinstance(end, Ended):
        error.status = end.status
    return error


# What the package itself finds

class Wrong(CastleError):
    """A line of the shell that is no command."""


class ProgramMissing(CastleError):
    """There is no program to run."""

    what = "the program castle is not found"
    remedy = "Run this from a checkout, give a program, or name one by CASTLE_PROGRAM."


class WrongProtocol(CastleError):
    """A reply can't be read, or is not to the command; the store has to be opened again."""

    remedy = "The program is not castle, or of another build than this package."


class StoreMissing(CastleError):
    """There is no file at this path."""

    what = "there is no such file"
    remedy = "Look at the path. `castle format FILE 64 100000 100` makes a store there."


class StoreMoved(CastleError):
    """An open store's file is no longer at its path."""

    what = "the file is no longer at this path: it was renamed, removed or replaced while the store was open"
    remedy = "Close the store, and open it under its new name."


class StoreExists(CastleError):
    """A file stands where a store is to be made."""

    what = "a file is there already"
    remedy = "Take another path, or format with overwrite=True, which forgets what the file has."


class StoreLocked(CastleError):
    """The store is open already. Two programs on one file would destroy it."""

    what = "the store is open already"
    remedy = "Close it there first; two programs on one file would destroy it."


class StoreClosed(CastleError):
    """The store was closed."""

    what = "the store was closed"
    remedy = "Open it again."


class ReadOnly(CastleError):
    """A change of a store that is read from a private copy. Nothing was sent."""

    what = "the store is open for reading alone, as a private copy, and takes no changes"
    remedy = "Open it where its file may be written, and without read_only."


class Forked(CastleError):
    """This process is a child of the one that opened the store, which goes on there."""

    what = "the store was opened by another process, of which this one is a child"
    remedy = "Use it there alone. To use it here, close it there first and open it here."


class Busy(CastleError):
    """A signal handler, or code that garbage collection runs, asked something amid a command of the same thread."""

    what = "a command of this thread is under way, and this one came in its midst"
    remedy = "Have a signal handler set a flag or raise an exception, and send commands behind it."


class NoHub(CastleError):
    """No hub is at this address, or this user may not speak to it."""

    what = "no hub listens there"
    remedy = "Look at the address, unix:SOCKET. `castle-hub FILE SOCKET` starts a hub."


class NotOverHub(CastleError):
    """What a store over a hub does not have. Nothing was sent."""

    what = "this can't be had over a hub"
    remedy = "Open the store's own file, once the hub has ended."


class SocketFault(CastleError):
    """A hub can't listen at this path."""

    remedy = "Name another path for the socket."


class UnknownName(CastleError):
    """No version has this name."""

    remedy = "`names` lists the names that there are."


class NameFault(CastleError):
    """A name that a version can't have, a version that is no number, or a file of names that can't be read."""


class MergeFault(CastleError):
    """Versions that can't be merged so."""


class MergeConflict(CastleError):
    """Both sides of a merge changed a key. Nothing was written. `conflicts` has those keys, with their values."""

    remedy = "Say which side wins, or give both the same value first; nothing was written."
    conflicts: Sequence["ThreeWay"] = ()


class NotFresh(CastleError):
    """A whole store is to be loaded into one that is not fresh. Nothing was changed."""

    what = "the store is not fresh: it has changes or names"
    remedy = "Make a new one with `castle format`, and load into that."


class NotSound(CastleError):
    """A script's line `check` found that its store is not sound, or a backup that its copy is not."""

    what = "the store's file is not sound"
    remedy = "`castle-shell FILE check` says what fails, and what to do."


class NotAtRest(CastleError):
    """A store over a hub was changed each time that it was copied. Nothing was made."""

    what = "the store was changed each time that it was copied"
    remedy = "Try again when fewer clients change it, or copy the file once the hub has ended."


class Unreadable(CastleError):
    """Nothing can be salvaged: the program opens no store that has such a superblock, journal or manifest."""

    what = "nothing can be read"
    remedy = "Restore a copy of the file. Keep the file as it is, and look for the cause."


class Doubtful(CastleError):
    """A salvage of a file that breaks a rule of a sound store. Nothing was made."""

    what = "the file breaks a rule of a sound store"
    remedy = "Any pair may be wrong, so restore a copy that is sound. If there is none, --doubtful salvages what the file shows."


class SomethingLost(CastleError):
    """A script's line `salvage` made a new store, and something is lost or in doubt."""

    what = "something is lost or in doubt; the new store has the rest"
    remedy = "The lines before this one say what."


class SomethingRefused(CastleError):
    """A script's line `import` put its pairs but for some that were refused."""

    what = "some pairs were refused; the others were put"
    remedy = "The lines before this one say which, and why."


class LogFault(CastleError):
    """A log of changes that can't be read or added to. Nothing was changed."""


class LogMissing(LogFault):
    """There is no log of changes there."""

    what = "there is no log of changes"
    remedy = "Look at the place. `castle lead FILE | castle-replicate record LOG` makes one."


class LogLocked(LogFault):
    """Another process adds to the log of changes."""

    what = "another process adds to the log"
    remedy = "One leader has one log: end the other one first."


class LogGap(LogFault):
    """Changes are missing. `wanted` is the number of the first one, and `found` that of the first one that is there."""

    remedy = "Make the copy anew from a copy of the leader's file, and go on from its number."
    wanted = 0
    found = 0


class LogForked(LogFault):
    """A change is there already under its number, and is another one. Two stores were changed that were one."""

    remedy = "The leader's file is not the one that the log is of. Begin a new log, and make the copies anew from that file."
    number = 0


class FollowerRefused(CastleError):
    """A follower refused a change for good. `refusal` is the exception of its reason."""

    remedy = "It is no copy of the leader, or was made for less. Make it anew from a copy of the leader's file."
    refusal: Optional[Refused] = None


class FollowerAhead(CastleError):
    """A follower has changes that the log does not have."""

    remedy = "It follows another leader, or was changed by itself, or the log lost its end. Make the copy or the log anew."


class FollowerStuck(CastleError):
    """A follower took no change, however often it was tried. The exception before it says why."""

    remedy = "What it took is in its file. Mend the cause, and feed it again."


class NoRedis(CastleError):
    """A server of Redis can't be reached, or refuses a command."""

    remedy = "Look at the address, redis://HOST:PORT/DATABASE?stream=NAME, and at the server."


class LogWarning(UserWarning):
    """A log of changes ended amid a frame, which was cut off."""


class NamesWarning(UserWarning):
    """A store was opened without some of the names in its file."""


class TextFault(CastleError):
    """Text that stands for no bytes."""


class DumpFault(CastleError):
    """A file that is no whole dump."""
