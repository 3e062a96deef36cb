"""A store: the program that serves it, with locks and names beside its file."""

from __future__ import annotations

import errno
import os
import signal
import stat
import threading
import warnings
import weakref
from collections import deque
from functools import partial
from types import TracebackType
from typing import TYPE_CHECKING, Callable, Dict, List, NoReturn, Optional, Sequence, Tuple, Type, Union, cast
from weakref import WeakSet

from . import branches, checking, dropping, errors, fileform, files, frames, hubsocket, levels, outfile, storetext, verdict
from .batch import Batch
from .branches import Snapshot
from .commands import Commands, Data, Version, data_of
from .copies import PrivateCopy
from .dropping import Drops
from .edits import Edits
from .frames import Info, Limits, Page, Stat
from .levels import Levels
from .lock import Lock, unchanged
from .merge import Merge, merge
from .names import Names, remove_names
from .process import LIMIT, Process, find_program
from .program import Program, Result
from .scan import Difference, Differences, Scan, differences
from .storecopy import Progress, silent
from .storetext import Counts, Loading
from .text import is_text
from .verdict import Verdict
from .view import VersionView

if TYPE_CHECKING:
    from .exporting import Imported
    from .hubstore import Connection
    from .rescue import Source
    from .salvaging import Salvage

Path = Union[str, bytes, "os.PathLike[str]", "os.PathLike[bytes]"]


class Store:
    """An open store.

        with Store("settings.store") as store:
            store.put(0, "user/1/name", "Ann")
            staging = store.clone(0)

    A version is a number or a name of `names`. Keys and values are bytes, or text, which is taken as UTF-8; what comes
    back is bytes. Every method may raise a `Refused` or an `Ended` of `castle.errors`. When a change returns it is in
    the file for good.

    Threads may share a store: each command gets its own answer, one command at a time. A child of the process that
    opened it may not: it gets `Forked`, and does not keep the store from being closed. A KeyboardInterrupt leaves the store open:
    a change that it cut off is made or not, and the next command goes on. A store that nobody closed is closed
    where nobody has it any more, and at the end of Python, with a ResourceWarning.
    """

    read_only = False
    """Whether it is a private copy, which takes no changes."""

    def __new__(cls, path: Path, program: Optional[str] = None, *, read_only: bool = False) -> "Store":
        if cls is Store and hubsocket.path_of(path) is not None:
            from .hubstore import HubStore  # which is made of this class
            return super().__new__(HubStore)
        return super().__new__(cls)

    def __init__(self, path: Path, program: Optional[str] = None, *, read_only: bool = False) -> None:
        """Opens the store of a file: locks it, runs the program on it, and waits until that has opened it.

        `program` is the program or its launcher; else that of CASTLE_PROGRAM, the launcher of this checkout, or
        `castle` on PATH. The launcher proves and builds the program at its first use, which takes long.

        Where the file may be read and not written, or with `read_only`, a private copy of it is opened, in the folder for
        temporary files and as long as the store is open. It needs no lock, but `StoreLocked` tells of a program that
        serves the file: a copy taken meanwhile would mix different times. It shows the store as it was at this call.

        `unix:SOCKET`, as text or bytes, is the address of a hub that serves a store (`HubStore`).
        """
        self.path, self._real = located(path)
        check_file(self._real, self.path)
        self.read_only = read_only or not _is_writable(self._real, self.path)
        self._scans: WeakSet[Scan] = WeakSet()  # whose cursors may be open
        self._found = find_program(program)
        copy = lock = run = None
        try:
            self._copy = copy = PrivateCopy(self._real, self.path) if self.read_only else None
            self._served = copy.path if copy else self._real
            self._lock = lock = Lock(self._served, self.path)
            self._program = run = Program(self.path, partial(Process, self._found, ["serve", self._served], self.path, lock))
            self._open()
            self._closing = weakref.finalize(run, abandon, run.process, run.lock, lock, copy, self.path)
        except BaseException:
            if run is not None:
                run.process.kill(signal.SIGTERM)
                run.finish(LIMIT)
            if lock is not None:
                lock.release(forgets=True)
            _remove(copy)
            raise

    def _open(self) -> None:
        """Waits until the program has opened the file, which its first answer tells, and reads the names."""
        program, lock, path, is_copy = self._program, self._lock, self._real, self.read_only
        try:
            versions = cast(Stat, program.call(lambda: frames.stat(program.tag))).versions
        except errors.Ended as error:
            raise _explained(error, "open", self._served)

        def guard() -> None:
            program.check()
            if is_copy:
                raise errors.ReadOnly(file=program.file, command="names")
            if not lock.is_of(path):
                raise errors.StoreMoved(file=program.file, command="names")

        # these hold the program and not the store, which is closed where nobody has it any more
        self.names = Names(path + ".names", self.path, partial(refusals, program), guard, program.lock)
        self._commands = Commands(program, self.names, is_copy, Edits(versions))

    @staticmethod
    def format(path: Path, mem: int, changes: int, versions: int, *, program: Optional[str] = None,
               overwrite: bool = False) -> None:
        """Makes a new store in a file, with its limits for life.

        `mem` is M, how many changes a region of its journal takes (4 to 4096): more takes more memory and is faster. `changes` is
        C, how many it takes in its life (up to 16,777,216), and `versions` is V (up to 16,384). A file that is there
        already and is not empty is refused, unless `overwrite`: then all that it had is forgotten, its names too.
        """
        file, real = located(path)
        folder = os.path.dirname(real)
        if not os.path.isdir(folder):
            raise errors.StoreMissing(f"there is no folder {folder}", "Make it first.", file=file)
        if os.path.exists(real) and not os.path.isfile(real):
            raise errors.StoreExists(f"{files.seen(real)} is there already", "Take another path.", file=file)
        lock = Lock(real, file)
        try:
            there = files.seen(real) if os.path.exists(real) else files.EMPTY
            if there != files.EMPTY and not overwrite:
                raise errors.StoreExists(f"{there} is there already", file=file)
            words = ["format", real, str(mem), str(changes), str(versions)]
            status = _finished(Process(find_program(program), words, file, lock))
            if status != 0:
                raise _explained(errors.ended(status, file, ""), "format", real)
            remove_names(real)
        except BaseException:
            lock.release(forgets=True)
            raise
        lock.release()

    @staticmethod
    def check(path: Path, program: Optional[str] = None, *, progress: Progress = silent) -> Verdict:
        """What a check says of a store's file, which nobody has open: a `Sound`, an `Unsound` or a `Damaged`.

        The program reads all of the file, and changes nothing; nothing is made in its folder either. A file that may not be
        written is checked as a private copy. `StoreLocked` tells that the store is open: a store of one's own has `verdict`.
        What is no store is a `NotAStore`, and every other end of the program an exception too. `progress` is called as the work
        goes on, with the level and the blocks where the system tells them, and an exception of it ends the check.
        """
        file, real = located(path)
        check_file(real, file)
        found = find_program(program)
        if _is_writable(real, file):
            with unchanged(real, file):
                return checked(found, real, file, progress=progress)
        copy = PrivateCopy(real, file)
        try:
            return checked(found, copy.path, file, progress=progress)
        finally:
            copy.remove()

    def __repr__(self) -> str:
        program = getattr(self, "_program", None)  # there is none yet amid an opening
        is_closed = program is not None and isinstance(program.end, errors.StoreClosed)
        return f"<{'closed ' if is_closed else ''}store {self.path}>"

    def __reduce__(self) -> NoReturn:
        raise TypeError("a store can't be copied or pickled: open it in the process that uses it")

    def __enter__(self) -> "Store":
        return self

    def __exit__(self, kind: Optional[Type[BaseException]], error: Optional[BaseException],
                 trace: Optional[TracebackType]) -> None:
        try:
            self.close()
        except errors.CastleError:
            if error is None:
                raise

    def close(self) -> None:
        """Ends the program, once it has answered all, and frees the store. To close it again does nothing.

        Open cursors are closed: a scan that was not read to its end gives what it has read, and raises `StoreClosed` then.
        A child of the process that opened the store closes nothing.
        """
        program = self._program
        if not self._closing.alive:
            return
        with program.lock:
            told = None if isinstance(program.end, errors.StoreClosed) else program.end
            try:
                if program.end is None and program.is_own:
                    for scan in list(self._scans):
                        scan.give_back()
                    program.settle()
            except errors.Busy:
                raise
            except BaseException:
                self._free()
                raise
            status = self._free()
        if status != 0 and told is None and not program.process.was_killed:
            raise errors.ended(status, self.path, "close")

    def _free(self) -> int:
        """Waits for the program's end, whose status it gives, and frees the file and what was made beside it."""
        status = self._program.finish(LIMIT)
        self._lock.release()
        _remove(self._copy)
        self._closing.detach()
        return status

    @property
    def pid(self) -> int:
        """The process of the program."""
        return self._program.pid

    # What the program answers

    def put(self, version: Version, key: Data, value: Data) -> None:
        """Gives a key this value at a version."""
        self._program.call(self._commands.put, version, key, value)

    def delete(self, version: Version, key: Data) -> None:
        """Takes a key's value away at a version; one that has none stays so."""
        self._program.call(self._commands.delete, version, key)

    def get(self, version: Version, key: Data) -> Optional[bytes]:
        """The value of a key at a version; None where it has none."""
        return cast(Optional[bytes], self._program.call(self._commands.get, version, key))

    def clone(self, version: Version) -> int:
        """Makes a version with the same pairs, and tells its number. The version that it was made of is frozen as long as that is there."""
        return cast(int, self._program.call(self._commands.clone, version))

    def drop(self, version: Version) -> List[str]:
        """Takes a version away for good, and gives the names that it had, which are let go of.

        It has to have no child: `Frozen` tells of one. Version 0 is never dropped: `Root`. From then on every command of that version
        raises `Dropped`, and its number is not used again. A scan of it that began before goes on. A version whose children are all
        dropped takes puts again. What the version had stays in the file: no bytes come free.
        """
        number = self.number(version)
        with self._program.lock:
            if self.names.of(number):
                self.names.check_changeable()
            return dropping.drop(self, number)

    def drop_tree(self, version: Version, *, progress: Progress = silent) -> Drops:
        """Drops a version and all below it, those without children first, and tells which, and which names are let go of.

        `Root` and `ChangeLimit` come before any is dropped. Each is dropped by itself: where it ends early, some are. `progress` is
        called as the work goes on, and an exception of it ends the work between two windows.
        """
        with self._program.lock:
            return dropping.drop_tree(self, self.number(version), progress)

    def info(self, version: Version) -> Info:
        """A version's place in the tree."""
        return cast(Info, self._program.call(self._commands.info, version))

    def stat(self) -> Stat:
        """How many versions, updates and changes the store has, and how many cursors are open."""
        return cast(Stat, self._program.call(self._commands.stat))

    def limits(self) -> Limits:
        """What the store was made for: M, C and V. They are read from its file, where they never change."""
        self._program.check()
        try:
            head = fileform.read_head(self._lock.itself)
        except ValueError as error:
            raise errors.NotAStore(f"its limits can't be read: {error}", file=self.path, command="limits") from None
        return Limits(head.mem, head.changes_max, head.versions_max)

    def scan(self, version: Version, lower: Data = b"", upper: Data = b"", *, prefix: Data = b"") -> Scan:
        """The pairs of a version as they are at this call, in the order of their keys' bytes, whatever is changed meanwhile.

        Keys are at or behind `lower`, before `upper` unless that is empty, and begin with `prefix`. The call opens a
        cursor, and the iterator that it gives reads pieces of 256 pairs as they are asked for: an exchange for the
        opening and for each piece, and memory for one piece. The cursor is closed with the last piece, by the
        iterator's `close()` or its `with` block, after an error, with the store, and where nobody has the iterator any
        more.

        The call raises `UnknownVersion`, `KeySize`, `CursorLimit` (64 scans are open) and `NoMemory`; a piece raises
        `DeviceFault` and `Damaged`, which end the program.
        """
        scan = Scan(self._program, self._commands, version, lower, upper, prefix)
        self._scans.add(scan)
        return scan

    def page(self, version: Version, lower: Data = b"", upper: Data = b"", *, prefix: Data = b"",
             limit: int = frames.PAGE_MAX) -> Page:
        """The first pairs that `scan` would give, at most `limit` (1 to 256), and whether others follow.

        For a range of few pairs, or for the first ones of it, this is better than `scan`: it is one exchange, takes no
        cursor and no memory of the program, and a batch sends many of them at once. To read on, use `scan`: another page
        shows the version as it is by then. It raises what `scan` does but `CursorLimit` and `NoMemory`, and `ScanSize`.
        """
        return cast(Page, self._program.call(self._commands.page, version, lower, upper, prefix, limit))

    def levels(self) -> Levels:
        """What is in the store's levels and in its journal.

        Another run of the program reads it from the file while this one waits, so it takes an opening more. It looks
        at no key and no value.
        """
        with self._program.lock:
            self._program.settle()
            if not self._lock.is_of(self._served):
                raise errors.StoreMoved(file=self.path, command="levels")
            return levels.of_file(self._found, self._served, self.path, self._lock)

    def verdict(self, *, progress: Progress = silent) -> Verdict:
        """What a check says of the store's file as it is now; see `check`.

        Another run of the program reads all of the file while this one waits, which may take long.
        """
        with self._program.lock:
            self._program.settle()
            if not self._lock.is_of(self._served):
                raise errors.StoreMoved(file=self.path, command="check")
            return checked(self._found, self._served, self.path, self._lock, progress)

    # Copies

    def _at_rest(self, act: Callable[[int], None]) -> None:
        """Does something with the open file while the program waits, so that nobody writes it."""

        def acted() -> None:
            if not self._lock.is_of(self._served):
                raise errors.StoreMoved(file=self.path, command="copy")
            act(self._lock.itself)

        self._program.wait(acted)

    def _source(self) -> "Source":
        from .rescue import Source  # which is made of this class
        return Source(self.path, self._real, self._found, self._at_rest)

    def backup(self, to: Path, *, overwrite: bool = False, progress: Progress = silent) -> None:
        """Copies the store's file and its names to another path, as they are at this call.

        The program waits until the bytes are copied, and a command of `progress` or of a signal handler raises `Busy`. The
        copy is checked and synced before it takes its name, so at `to` is a whole store or what was there. `NotSound` tells
        that the file is damaged, and `StoreExists` that there is a file at `to` already, unless `overwrite`. `progress` is
        called as the work goes on. `castle.backup` copies a store that nobody has open.
        """
        from .rescue import make_backup
        make_backup(self._source(), to, overwrite, progress)

    def salvage(self, to: Path, *, overwrite: bool = False, doubtful: bool = False, progress: Progress = silent) -> "Salvage":
        """Makes a new store of what the file of this one still gives, as it is at this call; see `castle.salvage`."""
        from .rescue import make_salvage
        return make_salvage(self._source(), to, overwrite, doubtful, progress)

    # One version as a file

    def export(self, version: Version, to: Path, *, progress: Progress = silent) -> None:
        """Writes a version as it is at this call into a file of puts, as `castle export` does. Other commands may come meanwhile.

        The file takes its place whole, or not at all. `castle.export` is of a store that nobody has open.
        """
        from .exporting import export_open  # which is made of this class
        export_open(self, self.number(version), to, progress)

    def import_from(self, path: Path, version: Version, *, progress: Progress = silent) -> "Imported":
        """Puts the pairs of such a file into a version, and tells which of them were refused.

        Tags and versions of the frames are passed over: they may be of any version, all of one. A file that can be read twice is
        looked at first as a whole, and `DumpFault` tells of one that was cut off or is no export: then nothing was put. `Frozen` and
        `UnknownVersion` come before anything is put, too. To import a file again does no harm. `progress` is called as the work goes on,
        and an exception of it ends the import between two windows of 256 pairs.
        """
        from .exporting import import_file
        return import_file(self, path, self.number(version), progress)

    # What is made of that

    def versions(self) -> List[Optional[Info]]:
        """The place of each version, in the order of their numbers; None for one that was dropped."""
        batch = self.batch(return_exceptions=True)
        for number in range(self.stat().versions):
            batch.info(number)
        found: List[Optional[Info]] = []
        for result in batch.finish():
            if isinstance(result, errors.CastleError) and not isinstance(result, errors.UnknownVersion):
                raise result
            found.append(result if isinstance(result, Info) else None)
        return found

    def dropped(self) -> Dict[int, int]:
        """The versions that were dropped, in the order of their numbers, each with the one that it was cloned from.

        The program does not tell that any more, so it is read from the file while the program waits.
        """
        found: List[Dict[int, int]] = []
        try:
            self._at_rest(lambda file: found.append(fileform.read_lineage(file).dropped))
        except ValueError as error:
            raise errors.NotAStore(f"its versions can't be read: {error}", file=self.path, command="dropped") from None
        return found[0]

    def diff(self, before: Version, after: Version, *, prefix: Data = b"") -> Differences:
        """The keys that begin with `prefix` and whose values differ between two versions as they are at this call, in order.

        It scans both side by side, in memory of a few pieces each. They are compared as bytes, and pairs are made of what
        differs alone, so few differences cost little more than the reading. It raises what `scan` does, and ends as a scan does.

        If this store made each version from both up to their common ancestor, it knows the keys that it changed there. Up to
        1,000 of these are looked up in place of the scans, by this call.
        """
        known = self._known_differences(self.number(before), self.number(after), prefix)
        if known is not None:
            return Differences((), iter(known))
        first = self.scan(before, prefix=prefix)
        try:
            second = self.scan(after, prefix=prefix)
            return Differences((first, second), differences(first, second))
        except BaseException:
            first.close()
            raise

    def _known_differences(self, before: int, after: int, prefix: Data) -> Optional[List[Difference]]:
        """What differs between two versions, where the keys that may differ are known and few."""

        def parent_of(version: int) -> Optional[int]:
            try:
                return self.info(version).parent
            except errors.UnknownVersion:
                return None

        with self._program.lock:
            keys = self._commands.edits.between(before, after, parent_of, data_of(prefix)) if before != after else None
            if keys is None:
                return None
            batch = self.batch()
            for key in keys:
                batch.get(before, key)
                batch.get(after, key)
            values = cast(List[Optional[bytes]], batch.finish())
        found = map(Difference, keys, values[::2], values[1::2])
        return [difference for difference in found if difference.before != difference.after]

    def at(self, version: Version) -> VersionView:
        """A version as a mapping: `store.at(3)["k"] = b"v"`."""
        return VersionView(self, self.number(version))

    def batch(self, return_exceptions: bool = False) -> Batch:
        """Many commands under way at once; see `Batch`."""
        return Batch(self._program, self._commands, return_exceptions)

    def number(self, version: Version) -> int:
        """The number of a version, which may be given by its name."""
        return self._commands.number(version)

    # Branches

    def snapshot(self, branch: str, name: str, description: str = "") -> Snapshot:
        """Keeps the version of a branch under another name, frozen, and has the branch go on in a clone.

        A branch is any name of a version. The clone is made first, and then one write gives both names. Where that is not
        reached, as after a kill, every name is as it was, and the clone has none: do it again. It raises what `clone`
        does, `UnknownName`, and `NameFault` for a name that stands already or can't be.
        """
        with self._program.lock:
            return branches.snapshot(self, branch, name, description)

    def release(self, source: str, target: str, description: Optional[str] = None) -> Snapshot:
        """Moves the name `target` to the version of the branch `source`, frozen, and has that branch go on in a clone.

        Both names stand already. What `target` was before stays under its number and its other names. Names are
        written as by `snapshot`. A description is that of `target`; without one it keeps its own.
        """
        with self._program.lock:
            return branches.release(self, source, target, description)

    def merge(self, ours: Version, theirs: Version, into: Version, *, wins: Optional[str] = None) -> Merge:
        """Makes a version that has the changes of two versions since their common ancestor.

        `into` is one of the two, by number or name, or a new name. The merge is made in a clone: of that version, or of the
        common ancestor for a new name. Then the name `into` is given to the clone, by one write. Any error leaves every
        name as it was.

        A key that both have changed to different values, or deleted on one side, is a conflict. Conflicts raise
        `MergeConflict` before anything is written, unless `wins` is `"ours"` or `"theirs"`. The call takes memory for the keys
        that have changed, and a recovery (`levels`). It raises `MergeFault`, `VersionLimit` and `ChangeLimit` before
        anything is written, and what `diff` does.
        """
        with self._program.lock:
            return merge(self, ours, theirs, into, wins)

    # The whole store as text

    def dump_all(self, path: Path) -> None:
        """Writes every version and name into a file of text, which takes its place whole, or not at all."""
        file = os.fsdecode(path)
        outfile.write(file, storetext.lines_of(self, os.path.basename(self.path)), self.path)

    def load_all(self, path: Path) -> Counts:
        """Loads such a file into this store, which has to be fresh, with the same numbers of versions, and tells how much it was.

        The whole file is read before anything is changed. `DumpFault` tells of one that was cut off or altered, `NotFresh`
        of a store that has changes or names, `VersionLimit` and `ChangeLimit` of a store that is too small: then nothing
        was changed. If it ends early later on, make the store anew.
        """
        file = os.fsdecode(path)
        loading = Loading(self, file)
        with self._program.lock, outfile.told(file, "read"), storetext.twice(file) as lines:
            deque(loading.check(lines), 0)
            lines.seek(0)
            deque(loading.load(lines), 0)
        return loading.counts


def located(path: Path) -> Tuple[str, str]:
    """A path as text, and the same without symbolic links."""
    file = os.fsdecode(path)
    if hubsocket.path_of(path) is not None:
        raise errors.NotOverHub(file=file)
    if not file or "\0" in file:
        what = "the path has a zero byte" if file else "the path is empty"
        raise errors.StoreMissing(what, "Give the path of a store's file.", file=file.replace("\0", "\\x00"))
    return file, os.path.realpath(file)


def check_file(real: str, file: str) -> None:
    """Fails for what can't be a store's file."""
    try:
        kind = os.stat(real).st_mode
    except (FileNotFoundError, NotADirectoryError):
        leads = ", where the symbolic link leads" if os.path.islink(file) else ""
        raise errors.StoreMissing(f"there is no such file{leads}", file=file) from None
    except OSError as error:
        raise _failed(real, file, error) from error
    if not stat.S_ISREG(kind) and not stat.S_ISBLK(kind):
        what = "a folder" if stat.S_ISDIR(kind) else "no plain file"
        raise errors.NotAStore(f"it is {what}, and no store", "Give the path of a store's file.", file=file, command="open")


def refusals(program: Program, versions: Sequence[int]) -> List[Optional[errors.CastleError]]:
    """For each of some versions what a command at it is refused with; None where the store has it."""
    results: List[Result] = []
    with program.lock:
        for version in versions:
            program.send(results, lambda: frames.info(program.tag, version))
        program.settle(results)
        program.explain(results)
    return [result if isinstance(result, errors.CastleError) else None for result in results]


def _is_writable(real: str, file: str) -> bool:
    """Whether a file may be written, as a store's is. The program reads its folder too, in order to sync it."""
    try:
        os.close(os.open(real, os.O_RDWR | os.O_CLOEXEC))
    except OSError as error:
        may_read = os.access(real, os.R_OK, effective_ids=os.access in os.supports_effective_ids)
        if error.errno in (errno.EACCES, errno.EPERM, errno.EROFS) and may_read:
            return False
        raise _failed(real, file, error) from error
    try:
        os.close(os.open(os.path.dirname(real), os.O_RDONLY | os.O_DIRECTORY | os.O_CLOEXEC))
    except OSError as error:
        raise _failed(real, file, error) from error
    return True


def _failed(real: str, file: str, error: OSError) -> errors.DeviceFailed:
    """What the program would end with at this file."""
    return errors.DeviceFailed(files.fault(real) or f"the file can't be opened: {error.strerror}", file=file, command="open")


def _explained(error: errors.Ended, command: str, real: str) -> errors.Ended:
    """The end of a run with its command, and with what one sees at the file."""
    error.command = command
    if isinstance(error, errors.NotAStore) and files.seen(real) == files.EMPTY:
        error.what, error.remedy = "the file is empty, and no store", errors.StoreMissing.remedy
    elif isinstance(error, errors.DeviceFailed):
        error.what = files.fault(real) or error.what
    elif not is_text(real):
        return errors.unknown_word(error, real)
    return error


def checked(program: str, real: str, file: str, lock: Optional[Lock] = None, progress: Progress = silent,
            what: str = "checking") -> Verdict:
    """The verdict of a run of the program on a file, which errors call `file`, and progress by these words."""
    progress(what, 0, None)
    process = Process(program, ["check", real], file, lock)
    text, status = process.output(checking.watch(process.pid, real, what, progress))
    if status not in verdict.STATUSES:
        raise errors.unknown_word(_explained(errors.ended(status, file, "check"), "check", real), real)
    try:
        return verdict.read(text, status)
    except ValueError as error:
        raise errors.WrongProtocol(f"its check can't be read: {error}", file=file, command="check") from error


def _finished(process: Process) -> int:
    """The status of a run that takes no input, however long the launcher builds."""
    try:
        return process.finish()
    except BaseException:
        process.kill(signal.SIGTERM)
        process.finish(LIMIT)
        raise


def _remove(copy: Optional[PrivateCopy]) -> None:
    if copy is not None:
        copy.remove()


def abandon(process: Union[Process, "Connection"], guard: "threading._RLock", lock: Optional[Lock], copy: Optional[PrivateCopy],
            file: str) -> None:
    """Frees a store that nobody closed, where nobody has it any more or Python ends."""
    if not process.is_own or not guard.acquire(timeout=1):
        return  # a child, or at the end of Python a thread that is amid a command
    process.finish(LIMIT)
    if lock is not None:
        lock.release()
    _remove(copy)
    warnings.warn(f"unclosed store {file}", ResourceWarning)
