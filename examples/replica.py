"""A copy that follows: a leader keeps its changes in a log, a copy takes them and is read in turns, and an old state comes back.

    PYTHONPATH=clients/python python3 examples/replica.py
"""

import os
import tempfile

from castle import Store, replicate


def show(path: str, version: int, when: str) -> None:
    """Reads a copy, which nobody feeds meanwhile."""
    with Store(path) as store:
        print(f"{when}: " + ", ".join(f"{key.decode()} = {value.decode()}" for key, value in store.scan(version)))


with tempfile.TemporaryDirectory() as folder:
    shop, copy, earlier = (os.path.join(folder, name) for name in ("shop.store", "copy.store", "earlier.store"))
    for path in shop, copy, earlier:
        Store.format(path, mem=64, changes=10000, versions=100)
    log = replicate.Log(os.path.join(folder, "shop.log"))  # on another disk, if it is to be of use
    replica = replicate.Replica(copy)

    with replicate.Leader(shop, log) as leader:
        leader.put(0, "pears", "3")
        leader.put(0, "plums", "20")
    replica.catch_up(log)
    show(copy, 0, "the copy")

    with replicate.Leader(shop, log) as leader:
        leader.clone(0)
        leader.wait()
        leader.put(leader.versions - 1, "pears", "0")
        leader.put(0, "plums", "19")  # version 0 has a child, and takes no more changes
        leader.put(leader.versions - 1, "figs", "7")
    print("refused:", ", ".join(leader.led.refused))
    print(f"the copy lacks {replica.lag(log)} of {log.next} changes")
    replica.catch_up(log)
    show(copy, 1, "the copy")

    # the store as it was before the last change
    replicate.Replica(earlier).catch_up(log, until=log.next - 1)
    show(earlier, 1, "before the last change")
