"""The shell: commands typed at a prompt, or read from a script."""

from __future__ import annotations

import os
import sys
from collections import deque
from typing import Callable, ContextManager, Dict, Iterable, Iterator, List, Optional, Sequence, TextIO, TypeVar

from . import (
    dropping, dump, exports, jsonform, keeping, levels, listing, loading, outfile, picture_levels, picture_tree, report, storetext, tree, verdict)
from .branches import Snapshot, nameless
from .errors import CastleError, Ended, MergeConflict, NotSound, UnknownName, UnknownVersion, Wrong
from .frames import NUMBER_MAX, Info, prefix_end
from .keycount import count_keys
from .lines import Command, check_text, check_words, command_of, is_number, near, take_options
from .merge import OURS, THEIRS
from .paging import Left, unpaged
from .progress import Line, teller
from .store import Store
from .terminal import INTERRUPTED, Interrupts, Stopped
from .text import Word, argument, cell, counted, shortened, shown, words

Item = TypeVar("Item")
Paged = Callable[[TextIO], ContextManager[TextIO]]

NOTATION = """Words stand between blanks; "a word with blanks" has quotes, as has one that begins with @. Bytes that are no
text are \\xNN, and \\\\ \\" \\n \\t are as usual. @3 or @staging at the end names a version, by its number or name;
else it is that of the prompt. exit, ?, del and ls are quit, help, delete and scan.
"""
ALL = "--all"
SIDES = {"--ours": OURS, "--theirs": THEIRS}
LOST = "stopped at once; a change that was under way was made or it was not"
SHOWN_MOST = 1000  # pairs that a scan at a prompt shows at most, unless it is told how many

FAILED, SINGLE_FAILED, ABSENT = 1, 2, 1
"""Exit statuses: of a script with a line that failed, of a single command that failed, and of one whose key has no value.

The last is that of a check as well whose store is not sound.
"""
TOLD = (CastleError, Stopped)
"""The errors of a line, which are told and not raised."""


class Shell:
    """A shell over an open store. It writes to `out`, and is at one version at a time.

    With `json` what it prints is one JSON object a line. With `keeps_going` a script goes on behind a line that failed.
    """

    def __init__(self, store: Store, out: TextIO, json: bool = False, keeps_going: bool = False) -> None:
        self.store = store
        self.name = cell(os.fsencode(os.path.basename(store.path)))
        self.out = out
        self.json = json
        self.keeps_going = keeps_going
        self.here = 0
        self.branch: Optional[str] = None  # the name that the prompt follows, if it was switched to one
        self.is_done = False
        self.is_typed = False
        """Whether lines are typed at a prompt."""
        self.has_input = False
        """Whether standard input is what a command may load, and not where lines come from."""
        self.options: Dict[str, Word] = {}
        """Those of the command that runs; see `Command`."""
        self.interrupts = Interrupts()
        self._at: Optional[Word] = None  # the word of @, in the command that runs
        self._version: Optional[int] = None  # and its version
        self._is_single = False  # whether the exit status tells that a key has no value
        self._is_absent = False  # or that its store is not sound

    # Lines

    def run(self, line: str) -> None:
        """Carries out one line. Blank ones and those that begin with # do nothing."""
        line = line.strip()
        if line and not line.startswith("#"):
            self._carry_out(words(line))

    def _carry_out(self, given: Sequence[Word]) -> None:
        """Carries out the command of these words."""
        name, *rest = given
        command = command_of(name.text, COMMANDS)
        self._at = at = rest.pop() if rest and rest[-1].is_version else None
        self.options = take_options(command, rest)
        check_words(command, rest, at)
        self._version = None if at is None else self.version_of(at)
        command.run(self, rest)
        self._follow()

    def single(self, arguments: Sequence[str]) -> int:
        """Carries out one command, whose words are the arguments of a process, and gives the exit status."""
        self._is_single = True
        with self.interrupts:
            try:
                self._carry_out([argument(word) for word in arguments])
            except TOLD as error:
                return self._give_up(str(error), INTERRUPTED if isinstance(error, Stopped) else SINGLE_FAILED)
            except KeyboardInterrupt:
                return self._give_up(LOST, INTERRUPTED)
        return ABSENT if self._is_absent else 0

    def script(self, lines: Iterable[str]) -> int:
        """Carries out lines up to the first error or Ctrl-C, and gives the exit status.

        Where it keeps going it ends at an error only if the program ended, and the status is that of the first failure.
        """
        number, status, source = 0, 0, iter(lines)
        with self.interrupts:
            try:
                for line in iter(lambda: self.interrupts.read(lambda: next(source, None)), None):
                    number += 1
                    error = self._failure(line)
                    if error is not None:
                        status = self._give_up(f"line {number}: {error}", FAILED)
                        if not self.keeps_going or isinstance(error, Ended):
                            break
                    if self.is_done:
                        break
                    if self.interrupts.count:
                        return self._give_up(f"stopped before line {number + 1}", INTERRUPTED)
            except Stopped as stopped:
                return self._give_up(f"line {number}: {stopped}", INTERRUPTED)
            except KeyboardInterrupt:
                is_between = self.interrupts.count == 1
                return self._give_up(f"stopped before line {number + 1}" if is_between else f"line {number}: {LOST}", INTERRUPTED)
        return status

    def _failure(self, line: str) -> Optional[CastleError]:
        """Carries out a line of a script, and gives its error."""
        try:
            self.run(line)
        except CastleError as error:
            return error
        return None

    def _give_up(self, what: str, status: int) -> int:
        """Tells what went wrong, behind what was printed, and gives the status."""
        self.out.flush()
        print(f"castle-shell: {what}", file=sys.stderr)
        return status

    def converse(self, paged: Paged = unpaged, remember: Optional[Callable[[str], None]] = None) -> int:
        """Reads lines at a prompt until the end, and gives the exit status.

        The output of each command goes through what `paged` gives, and `remember` gets each line.
        """
        self.is_typed = True
        self.say(f"{self._heading(self.store.versions())}. `help` lists the commands.")
        with self.interrupts:
            while not self.is_done:
                try:
                    line = self._read()
                except EOFError:
                    self.say("")
                    break
                except KeyboardInterrupt:
                    self.say("")
                    continue
                if remember is not None:
                    remember(line)
                if not self._carry_out_typed(line, paged):
                    return 1
        return 0

    def _read(self) -> str:
        """A line that was typed."""
        prompt = self.prompt()
        return self.interrupts.read(lambda: input(prompt))

    def _carry_out_typed(self, line: str, paged: Paged) -> bool:
        """Carries out a line that was typed, tells what is wrong with it, and whether the store goes on."""
        try:
            check_text(line)
            self._run_paged(line, paged)
        except Left:
            pass  # the user has seen enough
        except TOLD as error:
            self._tell(error)
            return not isinstance(error, Ended)
        except KeyboardInterrupt:
            self._tell(Stopped(LOST))
        return True

    def _run_paged(self, line: str, paged: Paged) -> None:
        """Carries out a line whose output goes through pages."""
        terminal = self.out
        try:
            with paged(terminal) as self.out:
                self.run(line)
        finally:
            self.out = terminal

    def _tell(self, error: Exception) -> None:
        """Shows an error, and under it what to do."""
        if isinstance(error, Stopped):
            self.say("")  # ends the line in which the terminal has shown ^C
        if not isinstance(error, CastleError):
            self.say(f"error: {error}", error=str(error))
            return
        is_plain = error.file == self.store.path and not isinstance(error, outfile.Unwritable)
        file = "" if is_plain else error.file
        place = "".join(f"{part}: " for part in (file, error.command) if part)
        remedy = f"\n       {error.remedy}" if error.remedy else ""
        self.say(f"error: {place}{error.what}{remedy}", error=f"{place}{error.what}", remedy=error.remedy)

    def prompt(self) -> str:
        """The store, the version, its names, and whether it takes changes. A branch that it follows stands in front.

        Where somebody else dropped the version it goes to version 0, and says so.
        """
        try:
            info = self.store.info(self.here)
        except UnknownVersion as error:
            self.say(f"version {self.here} was dropped; the prompt goes to version 0", error=str(error))
            self.here, self.branch = 0, None
            info = self.store.info(0)
        names = "".join(f" {name}" for name in self.store.names.of(self.here) if name != self.branch)
        frozen = " (frozen)" if info.frozen else ""
        return f"{self.name}{f' {self.branch}' if self.branch else ''} @{self.here}{names}{frozen}> "

    def _follow(self) -> None:
        """Goes where the branch of the prompt has moved. If its name was taken away, the prompt stays at the version."""
        if self.branch is not None:
            self.here = self.store.names.get(self.branch, self.here)
            self.branch = self.branch if self.branch in self.store.names else None

    # Words and lines

    def say(self, line: str, **fields: object) -> None:
        """Writes a line, or these fields in its place where what is printed is JSON."""
        self.out.write((jsonform.line_of(fields or {"message": line}) if self.json else line) + "\n")

    def conclude(self, line: str) -> None:
        """Writes a line that sums up those before it, which JSON does not have."""
        if not self.json:
            self.say(line)

    def version_of(self, word: Word) -> int:
        """The version that a word names: `3`, `@3`, `staging` or `@staging`."""
        name = word.name[1:] if word.is_version else word.name
        if not name:
            raise Wrong(f"{word.text} names no version", "Write its number or its name, as @3 or @staging.")
        if not is_number(name):
            try:
                return self.store.names.version(name)
            except UnknownName as error:
                meant = near(name, list(self.store.names))
                error.remedy = f"{meant[:1].upper()}{meant[1:]}{error.remedy}"
                raise
        if len(name) > len(str(NUMBER_MAX)):
            raise UnknownVersion(file=self.store.path, command=f"version {shortened(name)}")
        return int(name)

    def version(self, rest: Sequence[Word] = ()) -> int:
        """The version of a command: its next word, or that of @, or that of the prompt."""
        if rest and self._version is not None:
            raise Wrong(f"two versions are named: {shortened(rest[0].text)} and {self._version}")
        return self.version_of(rest[0]) if rest else self.here if self._version is None else self._version

    def keys(self, prefix: bytes) -> List[bytes]:
        """Keys of the prompt's version that begin so: the first 256, and others where all have less in common than these."""
        page = self.store.page(self.here, prefix=prefix)
        keys, follow = [key for key, _ in page.pairs], page.more
        while follow:
            end = prefix_end(os.path.commonprefix(keys))
            behind = self.store.page(self.here, end, prefix=prefix, limit=1).pairs if end else []
            keys += [key for key, _ in behind]
            follow = bool(behind)
        return keys

    def titled(self, version: int) -> str:
        """A version in words."""
        names = ", ".join(self.store.names.of(version))
        return f"version {version}{f' ({names})' if names else ''}"

    def _until_stopped(self, items: Iterable[Item]) -> Iterator[Item]:
        return self.interrupts.items(items)

    def _told(self, items: Iterable[Item], what: str) -> Iterator[Item]:
        """The same items, up to a Ctrl-C, where a terminal shows how many there were."""
        line = Line()
        tell = teller(self.interrupts, line)
        try:
            for number, item in enumerate(self._until_stopped(items)):
                if number % 256 == 0:
                    tell(what, number, None)
                yield item
        finally:
            line.clear()

    def _save(self, word: Word, pieces: Iterable[str]) -> None:
        """Writes a file that the user named, whole or not at all."""
        outfile.write(word.path, pieces, self.store.path)
        self.say(f"wrote {shown(os.fsencode(word.path))}", wrote=os.fsencode(word.path))

    # Commands

    def put(self, rest: List[Word]) -> None:
        self.store.put(self.version(), rest[0].data, rest[1].data)
        self.say("done", done=True)

    def get(self, rest: List[Word]) -> None:
        key = rest[0].data
        value = self.store.get(self.version(), key)
        self._is_absent = value is None
        if value is not None or not self._is_single:
            self.say("absent" if value is None else shown(value), key=key, value=value)

    def exists(self, rest: List[Word]) -> None:
        key = rest[0].data
        self._is_absent = self.store.get(self.version(), key) is None
        if self.json or not self._is_single:
            self.say("no" if self._is_absent else "yes", key=key, exists=not self._is_absent)

    def delete(self, rest: List[Word]) -> None:
        self.store.delete(self.version(), rest[0].data)
        self.say("done", done=True)

    def scan(self, rest: List[Word]) -> None:
        version, count = self.version(), 0
        if len(rest) == 2:
            lower, upper = rest[0].data, rest[1].data
        else:
            lower = rest[0].data if rest else b""
            upper = prefix_end(lower) or b""
        most = self.number("--limit", SHOWN_MOST if self.is_typed else None)
        for key, value in self._until_stopped(self.store.scan(version, lower, upper)):
            if count == most:
                at = "" if self._version is None else f" @{version}"
                self.say(f"{counted(count, 'pair')}, and others follow: `scan {shown(key)} {shown(upper)}{at}` goes on, "
                         "--limit N shows more", next=key)
                return
            self.say(f"{shown(key)} = {shown(value)}", key=key, value=value)
            count += 1
        self.conclude(counted(count, "pair"))

    def number(self, option: str, default: Optional[int]) -> Optional[int]:
        """The number that stands behind an option of the command."""
        word = self.options.get(option)
        if word is None:
            return default
        if not (word.text.isascii() and word.text.isdigit() and 0 < len(word.text) <= 10 and int(word.text)):
            raise Wrong(f"{option} needs a number from 1 on, and not {shortened(word.text)}")
        return int(word.text)

    def use(self, rest: List[Word]) -> None:
        version = self.version(rest)
        self.store.info(version)
        self.here, self.branch = version, None

    def switch(self, rest: List[Word]) -> None:
        if is_number(rest[0].name):
            raise Wrong(f"{rest[0].name} is no name", f"`use {rest[0].name}` goes to a version by its number.")
        self.store.names.version(rest[0].name)
        self.branch = rest[0].name

    def clone(self, rest: List[Word]) -> None:
        name = rest[0].name if rest else None
        if name is not None:
            self.store.names.check_free(name)
        made = self.store.clone(self.version())
        if name is not None:
            with nameless(made, self.store.names):
                self.store.names[name] = made
        self.say(f"made {self.titled(made)}", version=made, names=self.store.names.of(made))

    def drop(self, rest: List[Word]) -> None:
        if not rest and self._version is None:
            raise Wrong("no version is named", f"Say which one is dropped: {COMMANDS['drop'].usage}.")
        version, is_tree = self.version(rest), "--tree" in self.options
        if "--yes" in self.options and not is_tree:
            raise Wrong(f"usage: {COMMANDS['drop'].usage}")
        try:
            parent = self.store.info(version).parent
        except UnknownVersion as error:
            error.command = f"drop version {version}"
            raise
        titled = self.titled(version)
        made = self._drop_tree(version) if is_tree else dropping.Drops([version], self.store.drop(version))
        if made is None:
            self.say("nothing was dropped")
            return
        several = f"{counted(len(made.versions), 'version')}, {levels.listed(sorted(made.versions))}"
        self._say_dropped(titled if made.versions == [version] else several, made)
        self._leave(version, parent)

    def _drop_tree(self, version: int) -> Optional[dropping.Drops]:
        """Drops a version with all below it; where these are several only if the user says so."""
        count = len(dropping.below(self.store.versions(), version))
        if version and count > 1 and "--yes" not in self.options:
            what = f"drop {self.titled(version)} and the {counted(count - 1, 'version')} below it"
            if not self._agrees(what, f"`drop {version} --tree --yes` drops all {count:,}."):
                return None
        line = Line()
        try:
            return self.store.drop_tree(version, progress=teller(self.interrupts, line))
        except (Stopped, KeyboardInterrupt):
            left = len(dropping.below(self.store.versions(), version))
            raise Stopped(f"stopped, with {count - left:,} of {counted(count, 'version')} dropped") from None
        finally:
            line.clear()

    def _agrees(self, what: str, remedy: str) -> bool:
        """Asks whether to do something. It fails where nobody can be asked."""
        if self.json or not (self.is_typed or self._is_single and sys.stdin is not None and sys.stdin.isatty()):
            raise Wrong(f"to {what} wants a yes, and nobody is asked here", remedy)
        self.out.flush()
        try:
            answer = self.interrupts.read(lambda: input(f"{what}? [y/N] "))
        except (EOFError, KeyboardInterrupt):
            raise Stopped("stopped; nothing was done") from None
        return answer.strip().lower() in ("y", "yes")

    def _say_dropped(self, what: str, made: dropping.Drops) -> None:
        """Tells what was dropped, and which names are let go of."""
        names, whose = made.names, "its" if len(made.versions) == 1 else "the"
        is_one = len(names) == 1
        gone = f"; {whose} {'name' if is_one else 'names'} {', '.join(names)} {'is' if is_one else 'are'} let go of" if names else ""
        self.say(f"dropped {what}{gone}", dropped=sorted(made.versions), names=names)

    def _leave(self, version: int, parent: Optional[int]) -> None:
        """Has the prompt go to the parent of a version that was dropped, where it was at that one or below it."""
        try:
            self.store.info(self.here)
        except UnknownVersion:
            self.here, self.branch = parent or 0, None
            self.conclude(f"now at {self.titled(self.here)}, of which version {version} was cloned")

    def snapshot(self, rest: List[Word]) -> None:
        branch, description = self._branch(), rest[1].name if rest[1:] else ""
        self._go_on(branch, self.store.snapshot(branch, rest[0].name, description))

    def release(self, rest: List[Word]) -> None:
        source, target = rest[0].name, rest[1].name
        before = self.store.names.get(target)
        made = self.store.release(source, target, rest[2].name if rest[2:] else None)
        self.say(f"{target} was version {before}", name=target, before=before)
        self._go_on(source, made)

    def _go_on(self, branch: str, made: Snapshot) -> None:
        """Tells of a branch that goes on in a clone, and has the prompt go with it."""
        if self.branch is None and self.here == made.version:
            self.here = made.clone
        self.say(f"{self.titled(made.version)} is frozen, {branch} goes on in version {made.clone}", version=made.version,
                 names=self.store.names.of(made.version), branch=branch, clone=made.clone)

    def _branch(self) -> str:
        """The branch of a command: the name behind @, that of the prompt, or the only name of the version."""
        names, version = self.store.names, self.version()
        at = self.branch if self._at is None else self._at.name[1:]
        if at is not None and at in names:
            return at
        names.check_readable()
        self.store.info(version)
        found = names.of(version)
        if len(found) != 1:
            what = f"several names: {', '.join(found)}" if found else "no name"
            raise Wrong(f"version {version} has {what}",
                        f"Say which one goes on, as @{found[0]}." if found else "Give it one: names set NAME.")
        return found[0]

    def merge(self, rest: List[Word]) -> None:
        sides = [word.text for word in rest if word.text in SIDES]
        versions = [word for word in rest if word.text not in SIDES]
        if len(versions) != 3 or len(sides) > 1:
            raise Wrong(f"usage: {COMMANDS['merge'].usage}")
        first, second, into = versions
        ours, theirs = self.version_of(first), self.version_of(second)
        wins = SIDES[sides[0]] if sides else None
        try:
            made = self.store.merge(ours, theirs, self.version_of(into) if is_number(into.name) else into.name, wins=wins)
        except MergeConflict as error:
            for row in self._until_stopped(error.conflicts):
                self.say(listing.conflict(row, first.name, second.name), conflict=row.key, base=row.base, ours=row.ours, theirs=row.theirs)
            error.remedy = "--ours takes the values of A, --theirs those of B; nothing was written."
            raise
        self.say(f"made {self.titled(made.version)}: {self.titled(made.parent)} with {counted(made.changes, 'change')}, over the "
                 f"common ancestor {made.base}", version=made.version, parent=made.parent, base=made.base, changes=made.changes,
                 conflicts=len(made.conflicts))
        if made.conflicts:
            self.conclude(f"{counted(len(made.conflicts), 'conflict')}: {first.name if wins == 'ours' else second.name} won")

    def _set_name(self, name: str, version: int) -> None:
        with outfile.told(self.store.names.path, "written"):
            self.store.names[name] = version

    def info(self, rest: List[Word]) -> None:
        version = self.version(rest)
        info = self.store.info(version)
        origin = "the first version" if info.parent is None else f"a clone of {self.titled(info.parent)}"
        state = "frozen, since it has a child" if info.frozen else "takes puts and deletes"
        self.say(f"{self.titled(version)}: {origin}, {counted(info.depth, 'ancestor')}, {state}",
                 **self._placed(version, info))

    def _placed(self, version: int, info: Info) -> Dict[str, object]:
        """A version's place in the tree as fields."""
        return {"version": version, "names": self.store.names.of(version), "parent": info.parent, "ancestors": info.depth,
                "frozen": info.frozen}

    def stat(self, rest: List[Word]) -> None:
        counts = self.store.stat()._asdict()
        self.say("\n".join(f"{name:8} {count}" for name, count in counts.items()), **counts)

    def names(self, rest: List[Word]) -> None:
        names, (action, *more) = self.store.names, [word.name for word in rest] or ["list"]
        if action == "set" and more:
            self._set_name(more[0], self.version(rest[2:]))
        elif self._version is not None:
            raise Wrong(f"usage: {COMMANDS['names'].usage}")
        elif action == "list" and not more:
            for name, line in zip(names, listing.names(names)):
                self.say(line, **listing.fields(names, name))
            if not names:
                self.conclude("no version has a name")
        elif action == "describe" and len(more) == 2:
            with outfile.told(names.path, "written"):
                names.describe(*more)
        elif action == "remove" and len(more) == 1:
            names.version(more[0])
            with outfile.told(names.path, "written"):
                del names[more[0]]
        else:
            raise Wrong(f"usage: {COMMANDS['names'].usage}")

    def tree(self, rest: List[Word]) -> None:
        infos = self.store.versions()
        hanging = dropping.hanging_in(self.store, infos)
        is_long = [word.text for word in rest] == ["--long"]
        if (not rest or is_long) and self.json:
            for version, info in enumerate(infos):
                if info is not None:
                    self.say("", **self._placed(version, info), dropped=hanging.get(version, 0))
            return
        if not rest or is_long:
            labels = listing.labels(self.store.names, is_long)
            for line in self._until_stopped(tree.Tree(infos, labels, self.here, hanging).lines()):
                self.say(line)
            if None in infos and not hanging:
                self.say(f"{counted(infos.count(None), 'version')} dropped; a hub does not tell where they hung")
            return
        names = {version: self.store.names.of(version) for version in set(self.store.names.values())}
        if rest[0].text != "--svg" or len(rest) != 2:
            raise Wrong(f"usage: {COMMANDS['tree'].usage}")
        outfile.check(rest[1].path, self.store.path)
        drawn = tree.Tree(infos, names, None, hanging)
        keys = count_keys(self.store, drawn.single(), self._until_stopped)
        self._save(rest[1], picture_tree.svg(drawn, keys, self._heading(infos)))

    def levels(self, rest: List[Word]) -> None:
        found = self.store.levels()
        if not rest and self.json:
            for level in found.levels:
                for array in level.arrays:
                    self.say("", level=level.number, density=array.density, **array._asdict())
            return
        if not rest:
            for line in self._until_stopped(levels.lines(found)):
                self.say(line)
            return
        if rest[0].text != "--svg" or len(rest) != 2:
            raise Wrong(f"usage: {COMMANDS['levels'].usage}")
        self._save(rest[1], picture_levels.svg(found, self.name))

    def check(self, rest: List[Word]) -> None:
        line = Line()
        try:
            found = self.store.verdict(progress=teller(self.interrupts, line))
        finally:
            line.clear()
        for told in verdict.told(found, self.json):
            self.out.write(f"{told}\n")
        self._is_absent = not found
        if not (found or self._is_single or self.is_typed):
            raise NotSound(file=self.store.path, command="check")

    def _heading(self, infos: List[Optional[Info]]) -> str:
        changes = counted(self.store.stat().changes, "change")
        return f"{self.name}: {dropping.told(infos)}, {changes}"

    def report(self, rest: List[Word]) -> None:
        outfile.check(rest[0].path, self.store.path)
        self._save(rest[0], report.page(report.gathered(self.store, self._until_stopped)))

    def diff(self, rest: List[Word]) -> None:
        before, after = self.version_of(rest[0]), self.version(rest[1:])
        prefix = self.options["-p"].data if "-p" in self.options else b""
        removed = added = changed = 0
        for key, old, new in self._until_stopped(self.store.diff(before, after, prefix=prefix)):
            if new is None:
                line = f"- {shown(key)} = {shown(old or b'')}"
                removed += 1
            elif old is None:
                line = f"+ {shown(key)} = {shown(new)}"
                added += 1
            else:
                line = f"~ {shown(key)} = {shown(old)} -> {shown(new)}"
                changed += 1
            if "--stat" not in self.options:
                self.say(line, key=key, before=old, after=new)
        if "--stat" in self.options or not self.json:
            self.say(f"{removed} removed, {added} added, {changed} changed", removed=removed, added=added, changed=changed)

    def dump(self, rest: List[Word]) -> None:
        if ALL in self.options:
            self._dump_all(rest)
            return
        try:
            version = self.version(rest[:1])
        except (UnknownName, Wrong) as error:
            if len(rest) == 1:
                error.remedy = f"{error.remedy} A file stands behind the version: dump V FILE.".strip()
            raise
        if loading.FRAMES in self.options:
            self._export(version, rest[1:])
            return
        if len(rest) < 2 and self.json:
            for key, value in self._until_stopped(self.store.scan(version)):
                self.say("", key=key, value=value)
            return
        title = f"{self.titled(version)} of {os.path.basename(self.store.path)}"
        lines = dump.lines_of(self._until_stopped(self.store.scan(version)), title)
        if len(rest) < 2:
            self.out.writelines(lines)
        else:
            self._save(rest[1], self._told(lines, "lines written"))

    def _export(self, version: int, rest: List[Word]) -> None:
        """Writes a version's pairs as frames of puts."""
        line = Line()
        if not rest and (self.is_typed or self.out.isatty()):
            raise Wrong("frames are bytes, and no text for a terminal", "A file stands behind the version: dump --frames V FILE.")
        pieces = exports.frames_of(self._until_stopped(self.store.scan(version)), teller(self.interrupts, line))
        try:
            if rest:
                self._save(rest[0], pieces)
            else:
                self.out.writelines(piece.decode("utf-8", "surrogateescape") for piece in pieces)
        finally:
            line.clear()

    def _dump_all(self, rest: List[Word]) -> None:
        self._refuse_version("dump")
        if len(rest) > 1 or len(self.options) > 1:
            raise Wrong(f"usage: {COMMANDS['dump'].usage}")
        lines = storetext.lines_of(self.store, os.path.basename(self.store.path))
        if rest:
            self._save(rest[0], self._told(lines, "lines written"))
        else:
            self.out.writelines(self._until_stopped(lines))

    def _load_all(self, rest: List[Word]) -> None:
        self._refuse_version("load")
        loading = storetext.Loading(self.store, rest[0].path)
        with outfile.told(rest[0].path, "read"), storetext.twice(rest[0].path) as lines:
            deque(self._until_stopped(loading.check(lines)), 0)
            lines.seek(0)
            try:
                self._load_told(loading, lines)
            except (CastleError, Stopped, KeyboardInterrupt) as error:
                versions, _, changes = loading.counts
                what = f"with {counted(versions, 'version')} and {counted(changes, 'change')} loaded"
                if not isinstance(error, CastleError):
                    raise Stopped(f"stopped, {what} at least; make the store anew, and load again") from None
                error.command = f"{error.command}, {what}" if error.command else what
                raise
        self.say(f"loaded {loading.counts}", **dict(zip(("versions", "names", "changes"), loading.counts)))

    def _load_told(self, loading: storetext.Loading, lines: Iterable[str]) -> None:
        """Loads a whole store, where a terminal shows how many changes were made."""
        line = Line()
        tell = teller(self.interrupts, line)
        try:
            for _ in self._until_stopped(loading.load(lines)):
                tell("changes loaded", loading.counts.changes, None)
        finally:
            line.clear()

    def _refuse_version(self, command: str) -> None:
        """Fails for a version behind @ where a command is about the whole store."""
        if self._version is not None:
            raise Wrong(f"usage: {COMMANDS[command].usage}")

    def load(self, rest: List[Word]) -> None:
        if ALL in self.options:
            self._load_all(rest)
        else:
            loading.load(self, rest[0], self.version())

    def help(self, rest: List[Word]) -> None:
        if rest:
            command = command_of(rest[0].text, COMMANDS)
            self.say(f"{command.usage}\n    {command.summary}", usage=command.usage, summary=command.summary)
            return
        width = max(len(command.usage) for command in COMMANDS.values())
        for group in dict.fromkeys(command.group for command in COMMANDS.values()):
            self.conclude(f"{group}:")
            for command in COMMANDS.values():
                if command.group == group:
                    self.say(f"  {command.usage:{width}}  {command.summary}", usage=command.usage, summary=command.summary)
        self.conclude("\n" + NOTATION.rstrip())

    def quit(self, rest: List[Word]) -> None:
        self.is_done = True


PAIRS, VERSIONS, FILES, SHELL = "Pairs", "Versions", "Files", "Shell"
COMMANDS: Dict[str, Command] = {
    "put": Command(PAIRS, "put KEY VALUE [@V]", "gives a key a value", Shell.put, 2, 2),
    "get": Command(PAIRS, "get KEY [@V]", "shows the value of a key", Shell.get, 1, 1),
    "exists": Command(PAIRS, "exists KEY [@V]", "tells whether a key has a value", Shell.exists, 1, 1),
    "delete": Command(PAIRS, "delete KEY [@V]", "takes a key's value away", Shell.delete, 1, 1),
    "scan": Command(PAIRS, "scan [PREFIX | LOWER UPPER] [--limit N] [@V]",
                    "shows pairs: all, with a prefix, or from LOWER to before UPPER", Shell.scan, 0, 2, True, {"--limit": "N"}),
    "use": Command(VERSIONS, "use V", "goes to a version, by its number or name", Shell.use, 0, 1),
    "clone": Command(VERSIONS, "clone [NAME] [@V]", "makes a version with the same pairs, which freezes this one",
                     Shell.clone, 0, 1),
    "drop": Command(VERSIONS, "drop V [--tree [--yes]]", "takes a version away for good; --tree all below it too, and asks before", Shell.drop,
                    0, 1, True, {"--tree": "", "--yes": ""}),
    "switch": Command(VERSIONS, "switch NAME", "goes to a branch, and with it wherever it moves", Shell.switch, 1, 1, False),
    "snapshot": Command(VERSIONS, "snapshot NAME [DESCRIPTION] [@V]", "keeps a branch as it is under a name, and goes on in a clone",
                        Shell.snapshot, 1, 2),
    "release": Command(VERSIONS, "release FROM TO [DESCRIPTION]", "moves the name TO to what the branch FROM is now, which goes on in a clone",
                       Shell.release, 2, 3, False),
    "merge": Command(VERSIONS, "merge A B INTO [--ours | --theirs]", "makes a version with the changes of two, and names it INTO",
                     Shell.merge, 3, 4, False),
    "names": Command(VERSIONS, "names [set NAME [V] | describe NAME TEXT | remove NAME]",
                     "shows names, names a version, describes a name, or takes it away", Shell.names, 0, 3),
    "info": Command(VERSIONS, "info [V]", "shows a version's place in the tree", Shell.info, 0, 1),
    "tree": Command(VERSIONS, "tree [--long | --svg FILE]", "draws the tree of versions, or writes a picture of it",
                    Shell.tree, 0, 2, False),
    "diff": Command(VERSIONS, "diff A [B] [--stat] [-p PREFIX]", "shows what has to change in A to get B", Shell.diff, 1, 2, True,
                    {"--stat": "", "-p": "PREFIX"}),
    "stat": Command(VERSIONS, "stat", "shows how many versions and changes there are", Shell.stat, 0, 0, False),
    "levels": Command(FILES, "levels [--svg FILE]", "draws what is stored, level by level, or writes a picture of it",
                      Shell.levels, 0, 2, False),
    "check": Command(FILES, "check", "tells whether the store's file keeps every rule, and else what fails and what to do",
                     Shell.check, 0, 0, False),
    "report": Command(FILES, "report FILE", "writes a page of HTML: the tree, the levels, and what is used and left",
                      Shell.report, 1, 1, False),
    "dump": Command(FILES, "dump [--frames] [V [FILE] | --all [FILE]]",
                    "writes a version's pairs, or the whole store, as lines of text; --frames as frames of puts",
                    Shell.dump, 0, 2, True, {ALL: "", "--frames": ""}),
    "load": Command(FILES, "load [--all | --csv | --json-lines | --frames] FILE [@V]",
                    "puts the pairs of a file, or of - for standard input; --all fills a fresh store",
                    Shell.load, 1, 1, True, {ALL: "", "--csv": "", "--json-lines": "", "--frames": ""}),
    "export": Command(FILES, "export FILE [@V]", "writes a version into a file of frames, as `castle export` does", keeping.export, 1, 1),
    "import": Command(FILES, "import FILE [@V]", "puts the pairs of such a file into a version, and tells which were refused",
                      keeping.take, 1, 1),
    "backup": Command(FILES, "backup [--overwrite] FILE", "copies the store and its names to another file, and checks the copy",
                      keeping.backup, 1, 1, False, {"--overwrite": ""}),
    "salvage": Command(FILES, "salvage [--overwrite] [--doubtful] FILE", "makes a new store of what a damaged one still gives",
                       keeping.salvage, 1, 1, False, {"--overwrite": "", "--doubtful": ""}),
    "help": Command(SHELL, "help [COMMAND]", "shows this, or one command", Shell.help, 0, 1, False),
    "quit": Command(SHELL, "quit", "ends the shell", Shell.quit, 0, 0, False),
}
