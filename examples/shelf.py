"""Python objects in versions: a shelf of the standard library over a version.

    PYTHONPATH=clients/python python3 examples/shelf.py

A shelf pickles its objects. A pickled object has at most 1,024 bytes here, and only what you wrote yourself should be
unpickled: see the module `pickle`.
"""

import os
import shelve
import tempfile

from castle import Store

with tempfile.TemporaryDirectory() as folder:
    path = os.path.join(folder, "objects.store")
    Store.format(path, mem=64, changes=10000, versions=100)
    with Store(path) as store:
        with shelve.Shelf(store.at(0)) as shelf:
            shelf["ann"] = {"name": "Ann", "groups": {"users"}}
            shelf["ports"] = [80, 443]

        tomorrow = store.clone(0)
        with shelve.Shelf(store.at(tomorrow)) as shelf:
            ann = shelf["ann"]
            ann["groups"].add("admins")
            shelf["ann"] = ann  # to change an object that was read changes nothing before it is put again
            del shelf["ports"]

        for version in (0, tomorrow):
            with shelve.Shelf(store.at(version)) as shelf:
                groups = ", ".join(sorted(shelf["ann"]["groups"]))
                print(f"version {version}: {', '.join(shelf)}; ann is in {groups}; ports {shelf.get('ports')}")
