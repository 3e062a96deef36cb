"""A version as a mapping."""

from __future__ import annotations

from collections import deque
from typing import TYPE_CHECKING, Any, Deque, Dict, ItemsView, Iterable, Iterator, KeysView, Mapping, MutableMapping, Optional, Tuple, \
    Union, ValuesView

from .commands import Data, data_of
from .frames import Pair
from .scan import Moment, Scan

if TYPE_CHECKING:
    from .store import Store


KEPT = 1 << 24  # bytes of pairs that are kept at most for `dict(view)`; behind them it reads page by page
OVERHEAD = 200  # bytes that Python takes for a pair besides


class Ahead:
    """The values of keys that an iteration gives, for gets of these keys in the same order.

    `dict(view)` and `{**view}` ask for all keys, and then for the value of each. So they are one scan. The values hold as long
    as the store was not changed since that began.
    """

    def __init__(self, view: "VersionView", keeps_all: bool) -> None:
        """Keeps the value of the last key, or those of all as far as there is room."""
        self._view = view
        self._keeps_all = keeps_all
        self._pairs: Deque[Pair] = deque()
        self._room = KEPT
        self._began: Optional[Moment] = None

    def keys(self) -> Iterator[bytes]:
        """The keys of a scan that begins here. Whoever has this iterator has the scan."""
        scan = self._view.pairs()
        self._began = scan.began
        return self._given(scan)

    def _given(self, scan: Scan) -> Iterator[bytes]:
        for pair in scan:
            if not self._keeps_all:
                self._pairs.clear()
            else:
                self._room -= len(pair[0]) + len(pair[1]) + OVERHEAD
            if self._room > 0:
                self._pairs.append(pair)
            yield pair[0]

    def value(self, key: Data) -> Optional[bytes]:
        """The value of the key that comes next; None for another one, or where the store was changed."""
        if self._began is None or not self._began.is_current:
            return None
        if not self._pairs and self._room <= 0:
            view = self._view
            self._pairs.extend(view.store.page(view.version, key, prefix=view.prefix).pairs)
        try:
            found = self._pairs.popleft()  # by one step, since another thread may ask as well
        except IndexError:
            return None
        return found[1] if found[0] == key else None


class VersionView(MutableMapping[Data, bytes]):
    """The pairs of a version: `view["k"]`, `view["k"] = b"v"`, `del view["k"]`, `"k" in view`, `view.items(b"user/")`.

    Keys are bytes or text; what comes back is bytes, in the order of the keys' bytes. Iteration, `keys`, `items` and
    `values` are scans (`Store.scan`): each shows the version as it is when it begins, so the version may be changed
    meanwhile, and each raises what a scan does. A change of a frozen version raises `Frozen`.

    One scan each: `dict(view)`, `{**view}`, `copy`, `len` and `reversed`, which has all keys in memory. `list(view)` takes two,
    since Python asks for the length as well. `bool(view)` is one page, `get`, `in` and `[]` one get, `update` and `clear` one
    batch.

    With a prefix it is the mapping of the pairs whose keys begin so: other keys are not in it, and can't be put into it.
    """

    def __init__(self, store: "Store", version: int, prefix: Data = b"") -> None:
        self.store = store
        self.version = version
        self.prefix = data_of(prefix)
        self._ahead: Optional[Ahead] = None

    def _has(self, key: Data) -> bool:
        """Whether a key begins with the prefix."""
        return not self.prefix or data_of(key).startswith(self.prefix)

    def pairs(self) -> Scan:
        """The pairs whose keys begin with the prefix, as they are at this call."""
        return self.store.scan(self.version, prefix=self.prefix)

    def __getitem__(self, key: Data) -> bytes:
        value = self._value(key)
        if value is None:
            raise KeyError(key)
        return value

    def _value(self, key: Data) -> Optional[bytes]:
        """The value of a key; None where it has none."""
        ahead = self._ahead
        if ahead is not None:
            value = ahead.value(key)
            if value is not None:
                return value
            self._ahead = None
        return self.store.get(self.version, key) if self._has(key) else None

    def __setitem__(self, key: Data, value: Data) -> None:
        if not self._has(key):
            raise KeyError(key)
        self.store.put(self.version, key, value)

    def __delitem__(self, key: Data) -> None:
        self[key]  # raises KeyError where it has no value
        self.store.delete(self.version, key)

    def __contains__(self, key: object) -> bool:
        return isinstance(key, (bytes, str)) and self._has(key) and self.store.get(self.version, key) is not None

    def _keys_of(self, part: "VersionView", keeps_all: bool) -> Iterator[bytes]:
        """The keys of this view or of a part of it. Gets of them here in the same order are answered by the same scan."""
        ahead = Ahead(part, keeps_all)
        keys = ahead.keys()
        self._ahead = ahead
        return keys

    def __iter__(self) -> Iterator[bytes]:
        return self._keys_of(self, False)

    def __reversed__(self) -> Iterator[bytes]:
        return reversed([key for key, _ in self.pairs()])

    def __len__(self) -> int:
        return self.pairs().count()

    def __bool__(self) -> bool:
        return bool(self.store.page(self.version, prefix=self.prefix, limit=1).pairs)

    def __repr__(self) -> str:
        return f"<version {self.version} of {self.store.path}>"

    def _within(self, prefix: Data) -> "VersionView":
        """The same with a longer prefix."""
        given = data_of(prefix)
        if not given.startswith(self.prefix) and not self.prefix.startswith(given):
            raise ValueError(f"no key begins with {self.prefix!r} and with {given!r}")
        return VersionView(self.store, self.version, max(given, self.prefix))

    def keys(self, prefix: Data = b"") -> KeysView[Data]:
        """The keys that begin with the prefix."""
        return Keys(self._within(prefix), self)

    def items(self, prefix: Data = b"") -> ItemsView[Data, bytes]:
        """The pairs whose keys begin with the prefix."""
        return Items(self._within(prefix))

    def values(self, prefix: Data = b"") -> ValuesView[bytes]:
        """The values of the keys that begin with the prefix."""
        return Values(self._within(prefix))

    def copy(self) -> Dict[bytes, bytes]:
        """The pairs as a dictionary, which knows nothing of the store."""
        return dict(self.items())

    def get(self, key: Data, default: Any = None) -> Any:
        """The value of a key, or what is given in its place."""
        value = self._value(key)
        return default if value is None else value

    def pop(self, key: Data, *default: Any) -> Any:
        """Takes a key's value away, and gives it, or what is given in its place: a get and a delete."""
        if len(default) > 1:
            raise TypeError("pop takes a key and at most one default")
        value = self._value(key)
        if value is not None:
            self.store.delete(self.version, key)
            return value
        if not default:
            raise KeyError(key)
        return default[0]

    def popitem(self) -> Tuple[bytes, bytes]:
        """Takes the first pair away, and gives it: a page and a delete. A KeyError tells that there is none."""
        for key, value in self.store.page(self.version, prefix=self.prefix, limit=1).pairs:
            self.store.delete(self.version, key)
            return key, value
        raise KeyError("popitem of a version without pairs")

    def update(self, other: Union[Mapping[Any, Any], Iterable[Tuple[Any, Any]]] = (), /, **named: Data) -> None:  # type: ignore[override]
        """Puts the pairs of a mapping, or of a list of pairs, by one batch.

        It is no transaction: where a pair is refused those behind it are put, and the first refusal is raised. An exception of
        `other` itself, or a key without the prefix, ends it; what came before is put. The answers, one a key, are in memory
        until its end.
        """
        with self.store.batch() as batch:
            for pairs in (_pairs_of(other), named.items()):
                batch.update(self.version, self._checked(pairs) if self.prefix else pairs)

    def _checked(self, pairs: Iterable[Tuple[Any, Any]]) -> Iterator[Tuple[Any, Any]]:
        """The same pairs, whose keys have to begin with the prefix."""
        for key, value in pairs:
            if not self._has(key):
                raise KeyError(key)
            yield key, value

    def clear(self) -> None:
        """Deletes every key that there is at this call. The answers, one a key, are in memory until its end."""
        with self.store.batch() as batch:
            for key, _ in self.pairs():
                batch.delete(self.version, key)


def _pairs_of(other: Union[Mapping[Any, Any], Iterable[Tuple[Any, Any]]]) -> Iterable[Tuple[Any, Any]]:
    """The pairs that an update takes, of whatever has them."""
    if isinstance(other, Mapping):
        return other.items()
    if hasattr(other, "keys"):
        return ((key, other[key]) for key in other.keys())
    return other


class Keys(KeysView[Data]):
    """Keys whose scan begins where their iteration does."""

    def __init__(self, view: VersionView, whole: VersionView) -> None:
        """The keys of a view, which is a part of the whole one."""
        super().__init__(view)
        self._view = view
        self._whole = whole

    def __iter__(self) -> Iterator[Data]:
        return self._whole._keys_of(self._view, True)

    def __reversed__(self) -> Iterator[Data]:
        return reversed(self._view)

    def __bool__(self) -> bool:
        return bool(self._view)


class Items(ItemsView[Data, bytes]):
    """Pairs that are read by one scan, in place of a get for each."""

    def __init__(self, view: VersionView) -> None:
        super().__init__(view)
        self._view = view

    def __contains__(self, item: object) -> bool:
        return isinstance(item, tuple) and len(item) == 2 and isinstance(item[0], (bytes, str)) and super().__contains__(item)

    def __iter__(self) -> Iterator[Tuple[bytes, bytes]]:
        return self._view.pairs()

    def __reversed__(self) -> Iterator[Tuple[bytes, bytes]]:
        return reversed([*self._view.pairs()])

    def __bool__(self) -> bool:
        return bool(self._view)


class Values(ValuesView[bytes]):
    """Values that are read by one scan, in place of a get for each."""

    def __init__(self, view: VersionView) -> None:
        super().__init__(view)
        self._view = view

    def __iter__(self) -> Iterator[bytes]:
        return (value for _, value in self._view.pairs())

    def __reversed__(self) -> Iterator[bytes]:
        return reversed([value for _, value in self._view.pairs()])

    def __bool__(self) -> bool:
        return bool(self._view)
