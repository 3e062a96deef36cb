"""An undo history: each state of a document is a version, and an edit makes a new one.

    PYTHONPATH=clients/python python3 examples/undo.py
"""

import os
import tempfile
from typing import List

from castle import Store


class Document:
    """Lines of text with undo and redo. It can go back to any state that it ever had, also those that were undone."""

    def __init__(self, store: Store) -> None:
        self.store = store
        self.here = 0
        self._undone: List[int] = []

    def edit(self, line: int, text: str) -> None:
        """Gives a line this text, in a clone of the state that is shown."""
        version = self.store.clone(self.here)
        self.store.put(version, f"{line:08}", text)
        self.here, self._undone = version, []

    def undo(self) -> None:
        parent = self.store.info(self.here).parent
        if parent is not None:
            self._undone.append(self.here)
            self.here = parent

    def redo(self) -> None:
        if self._undone:
            self.here = self._undone.pop()

    def show(self, what: str) -> None:
        lines = [text.decode() for text in self.store.at(self.here).values()]
        print(f"{what}: version {self.here}: {' / '.join(lines)}")


with tempfile.TemporaryDirectory() as folder:
    path = os.path.join(folder, "document.store")
    Store.format(path, mem=64, changes=100000, versions=10000)
    with Store(path) as store:
        document = Document(store)
        document.edit(1, "It was a dark night.")
        document.edit(2, "Nobody came.")
        document.edit(2, "Somebody came.")
        document.show("edited")
        document.undo()
        document.show("undone")
        document.redo()
        document.show("redone")
        document.undo()
        document.undo()
        document.edit(2, "The End.")  # another branch; versions 2 and 3 stay
        document.show("edited")
        document.here = 3
        document.show("an undone state")
