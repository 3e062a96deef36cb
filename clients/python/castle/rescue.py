"""Backups and salvages: new stores that are made out of a store's file, under a name that they take at their end alone."""

from __future__ import annotations

import os
from typing import Callable, NamedTuple, Optional

from . import errors, hubsocket, levels
from .lock import unchanged
from .process import find_program
from .salvaging import Kit, Salvage
from .salvaging import salvage as salvaged
from .store import Path, Store, check_file, checked, located
from .storecopy import Place, Progress, copy_bytes, copy_names, silent, told
from .treecopy import COPIES, TreeCopy


OPEN = ("Copy it where it is open (`backup` of that shell, `Store.backup`), over its hub (castle-shell unix:SOCKET backup FILE), or by its "
        "leader's log (castle-replicate backup).")


class Source(NamedTuple):
    """A store's file that is read."""

    file: str
    """What errors call it."""
    real: str
    """Its path, beside which its names are."""
    program: str
    at_rest: Callable[[Callable[[int], None]], None]
    """Does something with the open file while no program writes it."""


def backup(path: Path, to: Path, program: Optional[str] = None, *, overwrite: bool = False, progress: Progress = silent) -> None:
    """Copies a store's file, which nobody has open, with its names, or a store over a hub; see `Store.backup` and `HubStore.backup`."""
    if hubsocket.path_of(path) is not None:
        with Store(path) as store:
            make_tree_backup(store, to, overwrite, progress, program)
        return
    try:
        make_backup(_closed(path, program), to, overwrite, progress)
    except errors.StoreLocked as locked:
        if locked.file == located(path)[0]:
            locked.remedy = OPEN
        raise


def salvage(path: Path, to: Path, program: Optional[str] = None, *, overwrite: bool = False, doubtful: bool = False,
            progress: Progress = silent) -> Salvage:
    """Makes a new store of what a damaged store's file still gives, which nobody has open, and tells what is lost.

    The file is never written. The new store has the same versions, by their numbers, and the same names; those that were dropped are
    dropped there. A child is a clone of its parent, with what differs applied. A pair that the file has at a version is there, or it lies in one of the ranges
    of `Salvage.lost`; a pair that is there was read from blocks that are not damaged.

    `Unreadable` tells that nothing can be read, and `Doubtful` that the file breaks a rule of a sound store: any pair
    may be wrong then. With `doubtful` what it shows is salvaged none the less, and `Salvage.doubt` has the rule. `overwrite` is to
    take the place of a file at `to`, and `progress` is called as the work goes on. `StoreLocked` tells that the store is open.
    """
    return make_salvage(_closed(path, program), to, overwrite, doubtful, progress)


def _closed(path: Path, program: Optional[str]) -> Source:
    file, real = located(path)
    check_file(real, file)

    def at_rest(act: Callable[[int], None]) -> None:
        with unchanged(real, file) as opened:
            act(opened)

    return Source(file, real, find_program(program), at_rest)


def make_backup(source: Source, to: Path, overwrite: bool, progress: Progress) -> None:
    """Copies a file under its lock, checks the copy, and has it take its name."""
    target = located(to)[0]
    with told(target, "the backup can't be made"), Place(target, source.real, overwrite) as place:
        _copy(source, place, place.store, progress)
        _check_copy(source.program, place, source.file, progress)
        place.take()


def make_tree_backup(store: Store, to: Path, overwrite: bool, progress: Progress, given: Optional[str] = None) -> None:
    """Copies a store over a hub version by version, checks the copy, and has it take its name. Who may use the hub may use the copy."""
    program, limits = find_program(given), store.limits()
    target, socket = located(to)[0], hubsocket.path_of(store.path) or ""
    with told(target, "the backup can't be made"), Place(target, os.path.realpath(socket), overwrite) as place:
        copier = TreeCopy(store, progress)
        for _ in range(COPIES):
            Store.format(place.store, *limits, program=program, overwrite=True)
            with Store(place.store, program) as copy:
                if copier.fill(copy):
                    break
        else:
            raise errors.NotAtRest(file=store.path, command="backup")
        _check_copy(program, place, store.path, progress)
        place.take()


def make_log_backup(leader: Path, to: Path, given: Optional[str], overwrite: bool, fill: Callable[[str], None], progress: Progress) -> None:
    """Makes a new store with the limits and the names of a leader's, has it filled, checks it, and has it take its name."""
    program, (file, real) = find_program(given), located(leader)
    check_file(real, file)
    limits = levels.of_file(program, real, file)
    target = located(to)[0]
    with told(target, "the backup can't be made"), Place(target, real, overwrite) as place:
        Store.format(place.store, limits.mem, limits.changes_max, limits.versions_max, program=program)
        fill(place.store)
        copy_names(real, place)
        _check_copy(program, place, file, progress)
        place.take()


def _check_copy(program: str, place: Place, file: str, progress: Progress) -> None:
    """Fails where the copy of a file is not sound."""
    verdict = checked(program, place.store, file, progress=progress, what="checking the copy")
    if not verdict:
        raise errors.NotSound(f"the store's file is not sound, and no backup was made: {verdict}",
                              "`check` says what to do; `salvage` makes a new store of what can be read.", file=file)


def _copy(source: Source, place: Place, path: str, progress: Progress) -> None:
    """Copies a file under its lock to a path, and its names into the place."""

    def act(opened: int) -> None:
        copy_bytes(opened, path, progress)
        copy_names(source.real, place)

    source.at_rest(act)


def make_salvage(source: Source, to: Path, overwrite: bool, doubtful: bool, progress: Progress) -> Salvage:
    """Copies a file under its lock, makes a new store out of the copy, and has that take its name."""
    program = source.program
    kit = Kit(source.file, lambda path, what: checked(program, path, source.file, progress=progress, what=what),
              lambda path: Store(path, program), lambda path, *limits: Store.format(path, *limits, program=program))
    target = located(to)[0]
    with told(target, "the new store can't be made"), Place(target, source.real, overwrite) as place:
        copy = place.file("damaged.store")
        _copy(source, place, copy, progress)
        found = salvaged(copy, place, kit, doubtful, progress)
        place.take()
        return found
