"""Damaged stores for tests of salvages: drawn by `tests/damages.py`, and written without the program."""

from __future__ import annotations

import random
import sys
from typing import Dict, List, NamedTuple, Optional, Set

from support import TOP

sys.path.append(str(TOP / "tests"))

import damages  # type: ignore[import-not-found]  # noqa: E402
import formats  # type: ignore[import-not-found]  # noqa: E402
import rules  # type: ignore[import-not-found]  # noqa: E402

BLOCK = 4096


class Whole(NamedTuple):
    """The bytes of a store that is not damaged, and what it has."""

    data: bytes
    blocks: List[int]
    """Those of its arrays."""
    parents: List[Optional[int]]
    tables: List[Dict[bytes, bytes]]
    dropped: Set[int]


def stores(seed: int) -> List[Whole]:
    """Small stores of several kinds."""
    found = []
    for base in damages.bases(seed):
        store = formats.store_of(base.data, base.contents)
        found.append(Whole(base.data, base.blocks, store.parents, store.pairs, store.dropped))
    return found


def with_block(data: bytes, number: int, block: bytes) -> bytes:
    """The bytes with another block."""
    return data[:number * BLOCK] + block.ljust(BLOCK, b"\0") + data[(number + 1) * BLOCK:]


def with_damaged_blocks(chance: random.Random, store: Whole) -> bytes:
    """The bytes with one block or several of its arrays erased or noise."""
    many = min(len(store.blocks), chance.choice((1, 1, 1, 2, 3, len(store.blocks))))
    data = store.data
    for number in chance.sample(store.blocks, many):
        data = with_block(data, number, chance.choice((b"", b"\xff" * BLOCK, chance.randbytes(BLOCK))))
    return data


def damaged(chance: random.Random, store: Whole) -> bytes:
    """The bytes damaged in any way of the checker's tests, so that a check does not call them sound."""
    base = damages.Base(store.data)
    while True:
        data: Optional[bytes] = chance.choice(damages.DAMAGES)(chance, base)
        if data is not None and rules.checked(data)[1]:
            return data
