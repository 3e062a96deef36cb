"""The keys that were changed since a store was opened, so that few edits are found without reading two versions."""

from __future__ import annotations

from typing import Callable, Dict, Iterable, List, Optional, Set

from . import frames

KEPT = 1 << 16  # keys that are noted at most
LOOKED_UP = 1000  # keys whose values are looked up in place of two scans, at most


class Edits:
    """The keys that were put or deleted at each version that was made since the store was opened, by whoever alone changes it.

    A version is not changed as long as it has a child. So where a version differs from its parent, it was changed itself. Keys are
    noted before they are sent, also those of changes that are refused then. Of a version that is dropped nothing is known.
    """

    def __init__(self, first: int) -> None:
        """None so far. Versions before the first one were there already."""
        self.first = first
        self._keys: Dict[int, Set[bytes]] = {}
        self._parents: Dict[int, int] = {}
        self._lost: Set[int] = set()  # versions of too many keys, and those that may be dropped
        self._count = 0

    def note(self, version: int, keys: Iterable[bytes]) -> None:
        """Notes keys that are changed at a version."""
        if version < self.first or version in self._lost:
            return
        known = self._keys.setdefault(version, set())
        self._count -= len(known)
        known.update(keys)
        self._count += len(known)
        if self._count > KEPT:
            self._count -= len(self._keys.pop(version))
            self._lost.add(version)

    def forget(self, version: int) -> None:
        """Knows nothing more of a version, which may be dropped from now on."""
        if version >= self.first:
            self._count -= len(self._keys.pop(version, ()))
            self._lost.add(version)

    def between(self, first: int, second: int, parent_of: Callable[[int], Optional[int]], prefix: bytes) -> Optional[List[bytes]]:
        """Keys in order, among which are all that differ between two versions and begin so; None where that is not known."""
        found: Set[bytes] = set()
        while first != second:
            first, second = min(first, second), max(first, second)  # a version has a greater number than its parent
            if second < self.first or second in self._lost:
                return None
            found |= self._keys.get(second, set())
            if second not in self._parents:
                parent = parent_of(second)
                if parent is None:
                    return None
                self._parents[second] = parent
            second = self._parents[second]
        fitting = [key for key in found if 0 < len(key) <= frames.KEY_MAX and key.startswith(prefix)]
        return sorted(fitting) if len(fitting) <= LOOKED_UP else None
