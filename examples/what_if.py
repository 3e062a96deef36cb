"""What if: plans are tried side by side, each in a clone of the same state, and the best one is taken.

    PYTHONPATH=clients/python python3 examples/what_if.py
"""

import os
import tempfile
from typing import Mapping

from castle import Store

BUDGET = {"rent": b"1200", "travel": b"500", "food": b"600", "heating": b"180"}
PLANS = {
    "stay at home": {"travel": b"0", "heating": b"240"},
    "move out of town": {"rent": b"800", "travel": b"750"},
    "sublet a room": {"rent": b"700", "food": b"650"},
}


def total(budget: Mapping[bytes, bytes]) -> int:
    return sum(map(int, budget.values()))


with tempfile.TemporaryDirectory() as folder:
    path = os.path.join(folder, "budget.store")
    Store.format(path, mem=64, changes=10000, versions=100)
    with Store(path) as store:
        now = store.at(0)
        now.update(BUDGET)
        print(f"now: {total(now)}")
        plans = {}
        for name, changes in PLANS.items():
            plans[name] = store.at(store.clone(0))  # version 0 is frozen from the first clone on
            plans[name].update(changes)
            print(f"{name}: {total(plans[name])}")
        best = min(plans, key=lambda name: total(plans[name]))
        print(f"best: {best}")
        for key, before, after in store.diff(0, plans[best].version):
            print(f"  {key.decode()}: {before.decode()} -> {after.decode()}")
