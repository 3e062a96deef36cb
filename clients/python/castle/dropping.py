"""Drops of versions: of one, and of one with all below it; and where the versions that were dropped hung."""

from __future__ import annotations

import contextlib
from collections import Counter
from typing import TYPE_CHECKING, Dict, Iterable, Iterator, List, Mapping, NamedTuple, Optional, Sequence

from . import errors
from .errors import CastleError
from .frames import Info
from .storecopy import Progress, silent
from .text import counted

if TYPE_CHECKING:
    from .store import Store

WINDOW = 256  # versions that are dropped at once


class Drops(NamedTuple):
    """What was dropped."""

    versions: List[int]
    """In the order in which they were dropped: each behind those below it."""
    names: List[str]
    """Those that the versions had, which are let go of."""


def drop(store: "Store", version: int) -> List[str]:
    """See `Store.drop`. The version is given by its number."""
    commands = store._commands
    try:
        store._program.call(commands.drop, version)
    except BaseException:
        with contextlib.suppress(CastleError, OSError):
            commands.let_go()  # it may be dropped none the less, as where a KeyboardInterrupt came
        raise
    with _told([version]):
        return commands.let_go()


def drop_tree(store: "Store", version: int, progress: Progress = silent) -> Drops:
    """See `Store.drop_tree`. The version is given by its number."""
    command = f"drop version {version} and those below it"
    if version == 0:
        raise errors.Root(file=store.path, command=command)
    store.info(version)
    versions = below(store.versions(), version)
    left = store.limits().changes - store.stat().changes
    if left < len(versions):
        raise errors.ChangeLimit(f"it takes {counted(len(versions), 'change')}, and the store has room for {left:,}", file=store.path,
                                 command=command)
    before = [name for it in versions for name in store.names.of(it)]
    if before:
        store.names.check_changeable()
    done: List[int] = []
    try:
        for window in _windows(versions):
            progress("versions dropped", len(done), len(versions))
            _drop_window(store, window, done)
    except CastleError as error:
        error.command = ": ".join(filter(None, [command, f"{len(done):,} of {len(versions):,} are dropped", error.command]))
        raise
    return Drops(done, sorted(name for name in before if name not in store.names))


def _windows(versions: Sequence[int]) -> Iterator[Sequence[int]]:
    return (versions[at:at + WINDOW] for at in range(0, len(versions), WINDOW))


def _drop_window(store: "Store", window: Sequence[int], done: List[int]) -> None:
    """Drops some versions, and notes those that are. One that somebody else dropped meanwhile is passed over."""
    batch = store.batch(return_exceptions=True)
    for version in window:
        batch.drop(version)
    try:
        with _told(window):
            batch.finish()
    finally:
        done += [version for version, result in zip(window, batch.results) if result is None]
    for result in batch.results:
        if isinstance(result, CastleError) and not isinstance(result, errors.Dropped):
            raise result


def drop_all(store: "Store", versions: Iterable[int]) -> Iterator[None]:
    """Drops versions of which all below them are among them, in windows, between which it can be stopped."""
    for window in _windows(sorted(versions, reverse=True)):  # a version has a greater number than its parent
        with store.batch() as batch:
            for version in window:
                batch.drop(version)
        yield


@contextlib.contextmanager
def _told(versions: Sequence[int]) -> Iterator[None]:
    """Has an error of the file of names tell that versions were dropped before."""
    what = f"dropped {counted(len(versions), 'version')}, whose names are let go of, but the file of names has them still"
    try:
        yield
    except (errors.NameFault, errors.StoreMoved) as error:
        error.command = f"{what}: {error.command}" if error.command else what
        raise
    except OSError as error:
        raise errors.NameFault(f"the file can't be written: {error.strerror}", "Mend the cause. The names are left out from now on.",
                               command=what) from error


# Trees

def living_of(infos: Sequence[Optional[Info]]) -> List[int]:
    """The versions that were not dropped."""
    return [version for version, info in enumerate(infos) if info is not None]


def below(infos: Sequence[Optional[Info]], version: int) -> List[int]:
    """A version and the living ones below it, each behind those below it."""
    found = {version}
    for number, info in enumerate(infos):
        if info is not None and info.parent in found:  # a version has a greater number than its parent
            found.add(number)
    return sorted(found, reverse=True)


def told(infos: Sequence[Optional[Info]]) -> str:
    """How many versions there are, and how many were dropped, in words."""
    gone = infos.count(None)
    return counted(len(infos) - gone, "version") + (f" and {gone:,} dropped" if gone else "")


def hanging_in(store: "Store", infos: Sequence[Optional[Info]]) -> Mapping[int, int]:
    """The same as `hanging` of a store with these versions. There is nothing where the store does not tell where they hang."""
    with contextlib.suppress(errors.NotOverHub):
        return hanging(store.dropped()) if None in infos else {}
    return {}


def hanging(dropped: Mapping[int, int]) -> Mapping[int, int]:
    """For each version that is there how many dropped ones hang below it, with no other one between that is there.

    `dropped` has the parents of the dropped versions.
    """
    places: Dict[int, int] = {}
    for version in sorted(dropped):
        parent = dropped[version]
        places[version] = places.get(parent, parent)
    return Counter(places.values())
