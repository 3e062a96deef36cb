"""The shell at a terminal: its prompt, Ctrl-C, bytes that are no text, and completion."""

import importlib.util
import io
import os
import select
import shutil
import signal
import subprocess
import time
import unittest
from typing import Dict, Optional, Tuple
from unittest import mock

from hubs import HubCase
from session import CTRL_C, CTRL_D, PROMPT, Session
from support import DEADLINE, StoreCase, stop

from castle import Store
from castle.shell import Shell


class TerminalCase(StoreCase):
    """A test with a shell at a terminal."""

    def session(self, path: str = "a.store", environment: Optional[Dict[str, str]] = None) -> Session:
        """A shell that has shown its first prompt."""
        session = Session(self.folder, path, environment)
        self.addCleanup(session.kill)
        self.greeting = session.until(PROMPT)
        return session

    def filled(self, pairs: Dict[bytes, bytes], mem: int = 64) -> None:
        """A new store with these pairs, which nobody has open."""
        with self.made(mem, 300000, 20) as store, store.batch() as batch:
            for key, value in pairs.items():
                batch.put(0, key, value)


@unittest.skipUnless(importlib.util.find_spec("readline"), "this Python has no readline")
class HubPromptTest(TerminalCase, HubCase):
    def test_the_prompt_of_a_version_that_another_client_dropped_goes_to_version_0(self) -> None:
        self.served()
        with Store(self.address) as store:
            clone = store.clone(0)
            session = self.session(self.address)
            self.assertEqual(session.type(f"use {clone}"), [f"socket @{clone}> "])
            store.drop(clone)
            self.assertEqual(session.type("put a 1"), [
                f"error: put a at version {clone}: the version was dropped",
                "       `tree` shows the versions that there are; a dropped one does not come back.",
                f"version {clone} was dropped; the prompt goes to version 0", "socket @0> "])
            self.assertEqual(session.type("put a 1"), ["done", "socket @0> "])


LONG = {f"key/{number:04}".encode(): b"v" * 1000 for number in range(600)}  # more than a terminal takes unread


@unittest.skipUnless(importlib.util.find_spec("readline"), "this Python has no readline")
class PromptTest(TerminalCase):
    def test_a_session_has_a_prompt_errors_history_and_completion(self) -> None:
        self.made().close()
        session = self.session()
        self.assertEqual(self.greeting.split("\n"), ["a.store: 1 version, 0 changes. `help` lists the commands.", "a.store @0> "])
        self.assertEqual(session.type("clone staging"), ["made version 1 (staging)", "a.store @0 (frozen)> "])
        self.assertEqual(session.type("put a 1"), [
            "error: put a at version 0: the version has a child, and takes no puts and deletes and no drop",
            "       Clone it, and write to the clone; or drop its children first.", "a.store @0 (frozen)> "])
        self.assertEqual(session.type("use st\t"), ["a.store @1 staging> "])
        self.assertEqual(session.type("nonsense"), ["error: unknown command nonsense; `help` lists the commands", "a.store @1 staging> "])
        self.assertEqual(session.type("get a"), ["absent", "a.store @1 staging> "])
        self.assertEqual(session.type("quit", None), [""])
        self.assertEqual(session.close(), 0)
        with open(os.path.join(self.folder, ".castle_history"), encoding="utf-8") as file:
            self.assertEqual(file.read().split("\n")[-3:], ["get a", "quit", ""])

    def test_the_end_of_input_ends_the_session(self) -> None:
        self.made().close()
        session = self.session()
        session.send(CTRL_D)
        self.assertEqual(session.close(), 0)

    @unittest.skipUnless(shutil.which("ps"), "ps is not here")
    def test_a_program_that_was_killed_ends_the_session(self) -> None:
        self.made().close()
        session = self.session()
        os.kill(program_of(session), signal.SIGKILL)
        self.assertIn("error: stat: the program was ended by SIGKILL", "\n".join(session.type("stat", None)))
        self.assertEqual(session.close(), 1)

    def test_a_version_that_is_not_there_leaves_the_prompt_as_it_was(self) -> None:
        self.made().close()
        session = self.session()
        for version in ("99", "4294967296", "9" * 5000, "none"):
            *said, prompt = session.type(f"use {version}")
            self.assertTrue(said[0].startswith("error: "), said)
            self.assertLess(len(said[0]), 200)
            self.assertEqual(prompt, "a.store @0> ")
        self.assertEqual(session.type("put a 1"), ["done", "a.store @0> "])

    def test_a_tree_is_dropped_once_the_user_has_said_yes(self) -> None:
        with self.made() as store:
            for parent in (0, 1, 1, 3):
                store.clone(parent)
            store.names["x"] = 1
        session, question = self.session(), r"\[y/N\] $"
        session.type("use 4")
        for answer in ("", "n", "no", "nonsense"):
            self.assertEqual(session.type("drop x --tree", question), ["drop version 1 (x) and the 3 versions below it? [y/N] "])
            self.assertEqual(session.type(answer), ["nothing was dropped", "a.store @4> "])
        session.type("drop x --tree", question)
        self.assertIn("stopped; nothing was done", session.interrupt(r"> $"))
        session.type("drop x --tree", question)
        session.send(CTRL_D)
        self.assertIn("stopped; nothing was done", session.until(r"> $"))
        self.assertEqual(session.type("drop 2 --tree"), ["dropped version 2", "a.store @4> "])
        self.assertEqual(session.type("drop x --tree", question), ["drop version 1 (x) and the 2 versions below it? [y/N] "])
        self.assertEqual(session.type(" YES "), ["dropped 3 versions, 1,3-4; the name x is let go of",
                                                 "now at version 0, of which version 1 was cloned", "a.store @0> "])
        self.assertEqual(session.type("tree"), ["0 (here) (4 dropped)", "a.store @0> "])
        session.type("quit", None)
        self.assertEqual(session.close(), 0)
        with open(os.path.join(self.folder, ".castle_history"), encoding="utf-8") as file:
            self.assertNotIn("YES", file.read())

    def test_a_version_with_two_names_is_shown_with_both(self) -> None:
        self.made().close()
        session = self.session()
        session.type("names set stable 0")
        self.assertEqual(session.type("names set base 0"), ["a.store @0 base stable> "])
        self.assertEqual(session.type("tree"), ["0 base, stable (here)", "a.store @0 base stable> "])

    def test_a_file_that_is_not_there_is_an_error_and_the_shell_goes_on(self) -> None:
        self.made().close()
        session = self.session()
        self.assertEqual(session.type("load none.dump"), [
            "error: none.dump: the file can't be read: No such file or directory", "       Look at its path, its permissions and its device.", "a.store @0> "])
        self.assertEqual(session.type("dump 0 none/a.dump"), [
            "error: none/a.dump: there is no folder none", "       Make it first, or take another file.", "a.store @0> "])
        self.assertEqual(session.type("get a"), ["absent", "a.store @0> "])

    def test_words_are_completed(self) -> None:
        self.made().close()
        self.written("product.dump", "# castle dump 1\na\t1\n# end, 1 pair\n")
        self.written("two words.dump", "# castle dump 1\nb\t1\n# end, 1 pair\n")
        os.mkdir(os.path.join(self.folder, "pictures"))
        session = self.session()
        session.type("clone staging")
        for typed, want in (("load prod\t @st\t", ["loaded 1 pair into version 1 (staging)"]),
                            ("load tw\t @1", ["loaded 1 pair into version 1 (staging)"]),
                            ("tree --s\tpict\ta.svg", ["wrote pictures/a.svg"]), ("report pict\ta.html", ["wrote pictures/a.html"]),
                            ("dump st\tproduct\t", ["wrote product.dump"]),
                            ("help lev\t", ["levels [--svg FILE]", "    draws what is stored, level by level, or writes a picture of it"]),
                            ("load --a\tprod\t", ["error: the store is not fresh: it has changes or names",
                                                  "       Make a new one with `castle format`, and load into that."]),
                            ("merge --th\tst\tst\tx", ["error: merge: both are version 1", "       Name two versions."]),
                            ("clone idea @st\t", ["made version 2 (idea)"]),
                            ("drop --tr\t id\t", ["dropped version 2 (idea); its name idea is let go of"]),
                            ("help dr\t", ["drop V [--tree [--yes]]", "    takes a version away for good; --tree all below it too, and asks before"]),
                            ("dump --a\tproduct\t", ["wrote product.dump"]), ("names desc\tst\t x", []), ("switch st\t", []),
                            ("names rem\tst\t", [])):
            self.assertEqual(session.type(typed)[:-1], want, typed)


    def test_keys_are_completed(self) -> None:
        self.filled({key: b"1" for key in (b"user/1", b"user/10", b"user/2 x", b"users", b"\xff\xfe", "日/a".encode(), b"-x", b"@a", b"lone")})
        session = self.session()
        for typed, want in (("get lo\t", "1"), ("get user/2\t", "1"), ("get us\t/10\t", "1"), ("get \\xf\t", "1"), ("get 日\t", "1"), ("get -\t", "1"),
                            ("get \\x40\t", "1"), ("exists lon\t", "yes"), ("del lon\t", "done"), ("ls user/2\t", '"user/2 x" = 1'),
                            ("diff 0 0 -p us\t --st\t", "0 removed, 0 added, 0 changed"), ("scan --li\t1 user/2\t", '"user/2 x" = 1'),
                            ("scan user/2 us\ters", '"user/2 x" = 1'), ("put use\tr/2\t 1", "done")):
            self.assertEqual(session.type(typed)[0], want, typed)

    def test_keys_are_completed_as_far_as_all_are_alike(self) -> None:
        self.filled({**{f"user/{number:03}".encode(): b"" for number in range(300)}, b"user:x": b"1", b"z": b""})
        with self.opened() as store:
            shell = Shell(store, io.StringIO())
            self.assertEqual(len(shell.keys(b"us")), 257)
            self.assertEqual(os.path.commonprefix(shell.keys(b"us")), b"user")
            self.assertEqual(os.path.commonprefix(shell.keys(b"user/")), b"user/")
            self.assertEqual(os.path.commonprefix(shell.keys(b"")), b"")
            self.assertEqual((shell.keys(b"z"), shell.keys(b"y")), ([b"z"], []))

    def test_files_are_completed_where_a_file_is_meant(self) -> None:
        self.made().close()
        self.written("rows.csv", "a,1\n")
        session = self.session()
        self.assertEqual(session.type("load --cs\trow\t")[0], "loaded 1 pair into version 0")
        self.assertEqual(session.type("get row\ts.csv")[0], "absent")

    def test_lines_that_begin_with_a_blank_stay_out_of_the_history(self) -> None:
        self.made().close()
        session = self.session()
        for line in ("put a 1", " put b secret", "get a", "get a", "quit"):
            session.type(line, None if line == "quit" else PROMPT)
        self.assertEqual(session.close(), 0)
        with open(os.path.join(self.folder, ".castle_history"), encoding="utf-8") as file:
            self.assertEqual(file.read().splitlines()[-3:], ["put a 1", "get a", "quit"])

    def test_a_scan_at_a_prompt_shows_some_and_says_how_to_see_more(self) -> None:
        self.filled({f"k{number:04}".encode(): b"v" for number in range(1100)})
        *lines, last, _ = self.session().type("scan")
        self.assertEqual((len(lines), last), (1000, '1,000 pairs, and others follow: `scan k1000 ""` goes on, --limit N shows more'))

    def test_standard_input_is_not_loaded_at_a_prompt(self) -> None:
        self.made().close()
        self.assertEqual(self.session().type("load -")[:-1], [
            "error: standard input is where the commands come from", "       Name a file, or run castle-shell STORE load -."])


@unittest.skipUnless(importlib.util.find_spec("readline"), "this Python has no readline")
class PagerTest(TerminalCase):
    """Output that is longer than the screen, of 24 rows and 80 columns."""

    def paging(self, pager: str, pairs: int = 100) -> Session:
        """A shell with this pager, over so many pairs."""
        self.filled({f"k{number:04}".encode(): b"v" for number in range(pairs)})
        return self.session(environment={"TERM": "xterm", "COLUMNS": "80", "LINES": "24", "PAGER": pager})

    def test_what_is_longer_than_the_screen_goes_through_the_pager(self) -> None:
        session = self.paging("sed 's/^/| /'")
        self.assertEqual(session.type("scan")[-4:], ["| k0098 = v", "| k0099 = v", "| 100 pairs", "a.store @0> "])
        self.assertEqual(session.type("scan --limit 22")[:1], ["k0000 = v"])
        self.assertEqual(session.type("get k0001")[:1], ["v"])
        self.assertEqual(session.type("put long " + "v" * 1000)[-2:], ["done", "a.store @0> "])
        self.assertEqual(session.type("get long")[:-1], ["v" * 1000])
        self.assertEqual(session.type("dump")[-2], "| # end, 101 pairs")

    def test_a_pager_that_is_left_ends_the_command_alone(self) -> None:
        session = self.paging("head -2", 1000)
        self.assertEqual(session.type("scan"), ["k0000 = v", "k0001 = v", "a.store @0> "])
        self.assertEqual(session.type("stat")[3:], ["cursors  0", "a.store @0> "])
        session.type("quit", None)
        self.assertEqual(session.close(), 0)

    def test_a_pager_that_can_not_be_run_is_told(self) -> None:
        session = self.paging("no-such-pager-here")
        said = session.type("scan")
        self.assertEqual(said[-3:], ["error: the pager no-such-pager-here can't be run",
                                     "       Set PAGER to another one, or to cat for none.", "a.store @0> "])

    def test_no_pager_is_wanted_by_cat_or_by_a_dumb_terminal(self) -> None:
        session = self.paging("cat")
        self.assertEqual(len(session.type("scan")), 102)
        session.kill()
        session = self.session(environment={"TERM": "dumb", "PAGER": "head -1"})
        self.assertEqual(len(session.type("scan")), 102)

    def test_ctrl_c_is_the_pagers_while_it_is_read(self) -> None:
        session = self.paging("trap '' INT; cat > /dev/null; echo ready; read line < /dev/tty; echo left")
        session.send(b"scan\n")
        session.until("ready\n$")
        for _ in range(4):
            session.send(CTRL_C)
            time.sleep(0.1)
        session.send(b"\n")
        self.assertRegex(session.until(PROMPT), r"left\na\.store @0> $")
        self.assertEqual(session.type("get k0001"), ["v", "a.store @0> "])


def program_of(session: Session) -> int:
    """The process of the program that a shell runs."""
    ran = subprocess.run(["ps", "-o", "pid=", "--ppid", str(session.pid)], capture_output=True, check=True)
    return int(ran.stdout.split()[0])


@unittest.skipUnless(importlib.util.find_spec("readline"), "this Python has no readline")
class InterruptTest(TerminalCase):
    """Ctrl-C is a signal here, since the terminal controls the shell."""

    def waiting(self, line: str) -> Tuple[Session, int]:
        """A shell that waits for the answer to a line, and its program, which stands still."""
        self.made().close()
        session = self.session()
        program = program_of(session)
        stop(program)
        self.addCleanup(goes_on, program)
        session.send(line.encode() + b"\n")
        session.until(f"{line}\n$")
        return session, program

    def test_ctrl_c_drops_the_line_at_the_prompt(self) -> None:
        self.made().close()
        session = self.session()
        session.send(b"put a 1")
        session.until("put a 1$")
        self.assertEqual(session.interrupt(PROMPT).split("\n")[-1], "a.store @0> ")
        self.assertEqual(session.type("")[-1], "a.store @0> ")
        self.assertEqual(session.type("get a"), ["absent", "a.store @0> "])
        session.interrupt(PROMPT)
        self.assertEqual(session.type("quit", None)[-1], "")
        self.assertEqual(session.close(), 0)

    def test_ctrl_c_stops_what_is_printed_and_nothing_after_it(self) -> None:
        self.filled(LONG)
        session = self.session()
        session.send(b"scan\n")
        session.until("key/0003 = v+\n.*")
        session.send(CTRL_C)
        said = session.until(PROMPT).split("\n")
        self.assertEqual(said[-2:], ["error: stopped", "a.store @0> "])
        self.assertLess(len(said), len(LONG))
        *lines, last, prompt = session.type("scan")
        self.assertEqual((len(lines), last, prompt), (600, "600 pairs", "a.store @0> "))
        self.assertEqual(session.type("put a 1"), ["done", "a.store @0> "])
        self.assertEqual(session.type("stat")[-2], "cursors  0")

    def test_ctrl_c_stops_a_load_which_says_how_far_it_came(self) -> None:
        pairs = 100000
        self.written("many.dump", "# castle dump 1\n" + "".join(f"{key:06}\t1\n" for key in range(pairs)) + f"# end, {pairs} pairs\n")
        self.filled({}, 4096)
        session = self.session()
        before = os.stat(self.path).st_mtime_ns
        session.send(b"load many.dump\n")
        while os.stat(self.path).st_mtime_ns == before:
            self.assertEqual(select.select([], [], [], 0.001), ([], [], []))
        session.send(CTRL_C)
        said = session.until(PROMPT)
        self.assertRegex(said, r"(?m)^error: stopped, with [\d,]+ of 100,000 pairs loaded$")
        loaded = int(said.split("with ")[1].split()[0].replace(",", ""))
        self.assertIn(f"updates  {loaded}", session.type("stat"))
        self.assertTrue(0 < loaded < pairs, loaded)
        self.assertEqual(session.type("get 000000"), ["1", "a.store @0> "])
        self.assertEqual(session.type("put a 1"), ["done", "a.store @0> "])
        session.send(CTRL_D)
        self.assertEqual(session.close(), 0)
        self.assertEqual(len(self.opened().at(0)), loaded + 1)

    @unittest.skipUnless(shutil.which("ps"), "ps is not here")
    def test_a_command_whose_program_stands_still_can_be_left(self) -> None:
        session, program = self.waiting("put a 1")
        said, deadline = "", time.monotonic() + DEADLINE
        while "left" not in said and time.monotonic() < deadline:
            # one that comes before the last was noted counts as that
            session.send(CTRL_C)
            said += session.until(r"answered\n$", 0.5)
        self.assertIn("castle-shell: left amid a command; the program ends as soon as it has answered", said)
        self.assertEqual(session.close(), 130)
        goes_on(program)

    def test_the_second_interrupt_of_a_command_waits_no_more(self) -> None:
        store, out = self.made(), io.StringIO()
        shell, put = Shell(store, out), store.put

        def interrupted(version: int, key: bytes, value: bytes) -> None:
            for _ in range(int(value)):
                os.kill(os.getpid(), signal.SIGINT)
            put(version, key, value)

        lines = iter(["put a 2", "put b 1", "put c 1", "scan"])
        with mock.patch.object(store, "put", interrupted), mock.patch("builtins.input", lambda _: next(lines, None) or ended()):
            self.assertEqual(shell.converse(), 0)
        lost = "error: stopped at once; a change that was under way was made or it was not"
        self.assertEqual(out.getvalue().split("\n")[1:], ["", lost, "done", "done", "b = 1", "c = 1", "2 pairs", "", ""])

    def test_an_exchange_that_an_interrupt_cuts_off_costs_nothing(self) -> None:
        """A KeyboardInterrupt comes while the shell waits for an answer, and the next command gets its own."""
        session, program = self.waiting("get a")
        said, deadline = "", time.monotonic() + DEADLINE
        while "stopped" not in said and "left" not in said and time.monotonic() < deadline:
            session.send(CTRL_C)
            said += session.until(r"or it was not\n$", 1)
        self.assertRegex(said, "stopped|left")
        goes_on(program)
        if "left" not in said:  # as where a machine is so slow that three came before the second was told
            session.until(PROMPT)
            self.assertEqual(session.type("put a 1"), ["done", "a.store @0> "])
            self.assertEqual(session.type("get a"), ["1", "a.store @0> "])


def ended() -> str:
    """The end of what is typed."""
    raise EOFError


def goes_on(process: int) -> None:
    """Lets a process go on that was stopped, if it is there still."""
    try:
        os.kill(process, signal.SIGCONT)
    except ProcessLookupError:
        pass


@unittest.skipUnless(importlib.util.find_spec("readline"), "this Python has no readline")
class EncodingTest(TerminalCase):
    def test_a_byte_that_is_no_text_is_an_error(self) -> None:
        self.made().close()
        for encoding in ("utf-8:strict", "ascii:strict"):
            session = self.session(environment={"PYTHONIOENCODING": encoding})
            session.send(b"put \xff 1\n")
            self.assertEqual(session.until(PROMPT).split("\n")[-3:], [
                "error: the byte in column 5 is no text of this terminal", r"       Write it as \xff.", "a.store @0> "], encoding)
            self.assertEqual(session.type("scan"), ["0 pairs", "a.store @0> "])
            self.assertEqual(session.type("quit", None), [""])
            self.assertEqual(session.close(), 0)

    def test_text_that_the_terminal_has_not_is_shown_as_bytes(self) -> None:
        self.filled({"日".encode(): "é日".encode()})
        session = self.session(environment={"PYTHONIOENCODING": "latin-1:strict"})
        session.send(b"scan\n")
        self.assertIn("\\xe6\\x97\\xa5 = \ufffd\\xe6\\x97\\xa5\n1 pair\n", session.until(PROMPT))
        self.assertEqual(session.type(r"get \xe6\x97\xa5")[-1], "a.store @0> ")
        self.assertEqual(session.type("quit", None), [""])
        self.assertEqual(session.close(), 0)
