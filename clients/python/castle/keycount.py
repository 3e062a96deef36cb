"""How many keys versions have, counted as far as that is cheap."""

from __future__ import annotations

from contextlib import closing
from itertools import islice
from typing import TYPE_CHECKING, Callable, Dict, Iterable, Iterator, NamedTuple, Sequence

from .frames import PAGE_MAX, Pair
from .text import counted

if TYPE_CHECKING:
    from .store import Store

BUDGET = 200_000  # pairs that are read for all versions together, as long as each gets its first piece


class Count(NamedTuple):
    """How many keys a version has, as far as they were counted."""

    keys: int
    has_more: bool = False

    def __str__(self) -> str:
        return f"over {counted(self.keys, 'key')}" if self.has_more else counted(self.keys, "key")


def count_keys(store: Store, versions: Sequence[int],
               until_stopped: Callable[[Iterable[Pair]], Iterator[Pair]] = iter) -> Dict[int, Count]:
    """Counts the keys of versions. Each is counted up to its share of `BUDGET`, and to 256 keys at least.

    Pairs go through `until_stopped`, which may raise in order to end the counting. It raises what `Store.scan` does.
    """
    most = max(PAGE_MAX, BUDGET // max(1, len(versions)))
    found = {}
    for version in versions:
        with closing(store.scan(version)) as pairs:
            keys = sum(1 for _ in islice(until_stopped(pairs), most + 1))
        found[version] = Count(min(keys, most), keys > most)
    return found
