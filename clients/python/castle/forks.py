"""Forks. What a process has opened is its own: a child closes its copies, and is refused what it asks of them."""

from __future__ import annotations

import os
import threading
from typing import Protocol
from weakref import WeakSet


class Owned(Protocol):
    """Something with descriptors that a child must not use."""

    def forget(self) -> None:
        """Closes the copies of this child. It is called once, where no other thread runs."""


starting = threading.RLock()
"""Held while descriptors are opened and before `own` knows of them, so that no thread forks in between."""

_owned: WeakSet[Owned] = WeakSet()


def own(it: Owned) -> None:
    """Has this forgotten in each child that is forked from now on."""
    _owned.add(it)


def disown(it: Owned) -> None:
    """Has this forgotten no more, since it has no descriptors left."""
    _owned.discard(it)


def _forget() -> None:
    for it in list(_owned):
        it.forget()
    _owned.clear()
    starting.release()


os.register_at_fork(before=starting.acquire, after_in_parent=starting.release, after_in_child=_forget)
