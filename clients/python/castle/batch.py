"""Many commands under way at once."""

from __future__ import annotations

from itertools import islice
from types import TracebackType
from typing import Iterable, List, Optional, Tuple, Type

from . import errors, frames
from .commands import Commands, Data, Version
from .program import Program, Result


WINDOW = 512  # pairs that are encoded at once
WHOLE = list, tuple, type({}.items())  # kinds that run nobody's code as they give what they have


class Batch:
    """Commands that are sent while earlier ones are answered.

        with store.batch() as batch:
            for key in keys:
                batch.get(0, key)
        values = batch.results

    `results` has what the commands gave, in their order: None for put, delete and drop, the value or None for get, the
    number for clone, `Page`, `Info`, `Stat`. They are all there at the end of the `with` block, or after `finish()`; before,
    those that came so far. A command that was refused, by the program or here, has its exception there, and those behind it
    are carried out none the less. The first is raised at the end, unless the batch was made with `return_exceptions`. A
    batch is no transaction: where the program ends, `results` has what was acknowledged, and later changes were made or not.
    After a KeyboardInterrupt `finish` goes on: what was added before is carried out. Several threads may fill one batch.
    """

    def __init__(self, program: Program, commands: Commands, return_exceptions: bool) -> None:
        self._program = program
        self._commands = commands
        self._return_exceptions = return_exceptions
        self.results: List[Result] = []

    def put(self, version: Version, key: Data, value: Data) -> None:
        """Gives a key this value at a version."""
        self._program.send(self.results, self._commands.put, version, key, value)

    def update(self, version: Version, pairs: Iterable[Tuple[Data, Data]]) -> None:
        """Gives the keys of pairs their values at a version, as a `put` of each would.

        This is quicker for pairs of bytes in a list or a tuple, or those of a dictionary. Whatever else has the pairs may use
        the store as it gives one: the pair before is added by then.
        """
        if type(pairs) not in WHOLE:
            for key, value in pairs:
                self.put(version, key, value)
            return
        left = iter(pairs)
        while True:
            window = list(islice(left, WINDOW))
            if not window:
                return
            if not self._program.send_all(self.results, self._commands.puts, version, window):
                for key, value in window:
                    self.put(version, key, value)

    def delete(self, version: Version, key: Data) -> None:
        """Takes a key's value away at a version."""
        self._program.send(self.results, self._commands.delete, version, key)

    def get(self, version: Version, key: Data) -> None:
        """Asks for the value of a key at a version."""
        self._program.send(self.results, self._commands.get, version, key)

    def clone(self, version: Version) -> None:
        """Makes a version with the same pairs."""
        self._program.send(self.results, self._commands.clone, version)

    def drop(self, version: Version) -> None:
        """Takes a version away for good. Its names are let go of at the end of the batch."""
        self._program.send(self.results, self._commands.drop, version)

    def page(self, version: Version, lower: Data = b"", upper: Data = b"", *, prefix: Data = b"",
             limit: int = frames.PAGE_MAX) -> None:
        """Asks for the first pairs of a range, as `Store.page` does."""
        self._program.send(self.results, self._commands.page, version, lower, upper, prefix, limit)

    def info(self, version: Version) -> None:
        """Asks for a version's place in the tree."""
        self._program.send(self.results, self._commands.info, version)

    def stat(self) -> None:
        """Asks what the store has."""
        self._program.send(self.results, self._commands.stat)

    def finish(self) -> List[Result]:
        """Waits until all is answered, and gives the results."""
        self._program.settle(self.results)
        self._program.explain(self.results)
        self._commands.let_go()
        if not self._return_exceptions:
            for result in self.results:
                if isinstance(result, errors.CastleError):
                    raise result
        return self.results

    def __enter__(self) -> "Batch":
        return self

    def __exit__(self, kind: Optional[Type[BaseException]], error: Optional[BaseException],
                 trace: Optional[TracebackType]) -> None:
        try:
            self.finish()
        except errors.CastleError:
            if error is None:
                raise
