"""Settings with releases: what was tried in staging becomes production, and a bad release is taken back at once.

    PYTHONPATH=clients/python python3 examples/settings.py
"""

import os
import tempfile

from castle import Store


def release(store: Store) -> None:
    """Makes production what staging is.

    Both go on in clones, since the version that was tried is frozen once it has one. Nothing is copied.
    """
    tried = store.names["staging"]
    store.names["previous"] = store.names["production"]
    store.names["production"] = store.clone(tried)
    store.names["staging"] = store.clone(tried)


def show(store: Store, when: str) -> None:
    settings = store.at("production")
    print(f"{when}: " + ", ".join(f"{key.decode()} = {value.decode()}" for key, value in settings.items()))


with tempfile.TemporaryDirectory() as folder:
    path = os.path.join(folder, "settings.store")
    Store.format(path, mem=64, changes=10000, versions=100)
    with Store(path) as store:
        store.at(0).update({"banner": b"Welcome", "timeout": b"30"})
        store.names["production"] = store.clone(0)
        store.names["staging"] = store.clone(0)

        # staging changes, and production does not see it
        store.put("staging", "timeout", "5")
        store.put("staging", "theme", "dark")
        show(store, "before the release")
        for key, before, after in store.diff("production", "staging"):
            print(f"  will change: {key.decode()} from {before} to {after}")

        release(store)
        show(store, "after the release")

        store.names["production"] = store.names["previous"]
        show(store, "taken back")
