"""Branches: names that move on to a clone, while the version that they had is kept under another name.

Each of these makes a clone first and writes the names once, behind it. Where the program, this process or the machine
ends between the two, every name is as it was, and the clone has none.
"""

from __future__ import annotations

import contextlib
from typing import TYPE_CHECKING, Dict, Iterator, Mapping, NamedTuple, Optional

from .errors import CastleError, ChangeLimit, NameFault, VersionLimit
from .names import described
from .text import counted

if TYPE_CHECKING:
    from .names import Names
    from .store import Store


class Snapshot(NamedTuple):
    """A version that was frozen, and the branch that goes on behind it."""

    version: int
    """The version that is frozen."""
    clone: int
    """Its clone, to which the branch's name was moved."""


def snapshot(store: "Store", branch: str, name: str, description: str) -> Snapshot:
    """See `Store.snapshot`."""
    version = version_of(store.names, branch)
    store.names.check_free(name)
    return _go_on(store, branch, version, {name: version}, {name: description})


def release(store: "Store", source: str, target: str, description: Optional[str]) -> Snapshot:
    """See `Store.release`."""
    version = version_of(store.names, source)
    version_of(store.names, target)
    if source == target:
        raise NameFault(f"{source} can't be released to itself", "Name another branch.", file=store.path)
    return _go_on(store, source, version, {target: version}, {} if description is None else {target: description})


def version_of(names: "Names", branch: str) -> int:
    """The version of a branch, which has to be a name, since it is to be moved."""
    if not isinstance(branch, str):
        raise NameFault(f"the branch is {branch!r}, and no name", "Give the name of a version; a number does not move.")
    return names.version(branch)


def _go_on(store: "Store", branch: str, version: int, moved: Dict[str, int], descriptions: Mapping[str, str]) -> Snapshot:
    """Has a branch go on in a clone of its version, and moves other names by the same write."""
    store.names.check_changeable()
    for text in descriptions.values():
        described(text)
    clone = store.clone(version)
    with nameless(clone, store.names):
        store.names.assign({**moved, branch: clone}, descriptions)
    return Snapshot(version, clone)


@contextlib.contextmanager
def nameless(clone: int, names: "Names") -> Iterator[None]:
    """Has an error within it tell of a clone that was made before, and that every name is as it was."""
    told = f"made version {clone}, which got no name"
    try:
        yield
    except CastleError as error:
        error.command = f"{told}: {error.command}" if error.command else told
        raise
    except OSError as error:
        raise NameFault(f"the file can't be written: {error.strerror}", "Mend the cause, and do it again.",
                        file=names.path, command=told) from error


def check_room(store: "Store", versions: int, changes: int, what: str) -> None:
    """Fails where a store has no room for so many versions and changes more. It costs a recovery (`Store.levels`)."""
    found = store.levels()
    for left, needed, kind, noun in ((found.versions_max - found.versions, versions, VersionLimit, "version"),
                                     (found.changes_max - found.changes, changes, ChangeLimit, "change")):
        if needed > left:
            raise kind(f"it takes {counted(needed, noun)}, and the store has room for {left:,}", file=store.path, command=what)
