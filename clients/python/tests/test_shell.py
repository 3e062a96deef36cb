"""The shell: scripts, dumps and pictures. What it does at a terminal is in test_terminal.py."""

import contextlib
import io
import os
import resource
import signal
import subprocess
import sys
from typing import Callable, List, Tuple
from unittest import mock

from session import carried_out, carried_out_amid, untimed
from support import DEADLINE, SHELL, TOP, StoreCase, comes_to, unprivileged

import castle
from castle import Store
from castle.cli import main
from castle.loading import WINDOW
from castle.process import find_program
from castle.shell import Shell

DUMP = "# castle dump 1\n"
NAMES_USAGE = "names [set NAME [V] | describe NAME TEXT | remove NAME]"
UNBUFFERED = {**os.environ, "PYTHONUNBUFFERED": "1"}
ENVIRONMENTS = UNBUFFERED, {name: value for name, value in os.environ.items() if name != "PYTHONUNBUFFERED"}


def dumped(*lines: str) -> str:
    """A dump of these lines."""
    return "".join([DUMP, *(f"{line}\n" for line in lines), f"# end, {len(lines)} pairs\n"])


class ScriptTest(StoreCase):
    def test_a_script_is_carried_out(self) -> None:
        self.made().close()
        script = ('put user/1 "Ann B"\n# a comment\n\nput \\x00\\xff ""\nclone staging\nget user/1\nget none @staging\n'
                  "put user/2 Bob @staging\ndelete user/1 @1\ninfo staging\nnames\nget user/2 @staging\nget user/2 @0\n")
        want = ('done\ndone\nmade version 1 (staging)\n"Ann B"\nabsent\ndone\ndone\n'
                "version 1 (staging): a clone of version 0, 1 ancestor, takes puts and deletes\n1 staging\nBob\nabsent\n")
        out, complaint, status = self.shell(script)
        self.assertEqual((untimed(out), complaint, status), (want, "", 0))

    def test_a_script_stops_at_an_error_in_line_3(self) -> None:
        self.made().close()
        out, complaint, status = self.shell("put a 1\n\nfrobnicate\nput b 2\n")
        self.assertEqual((out, complaint, status), ("done\n", "castle-shell: line 3: unknown command frobnicate; `help` lists the commands\n", 1))
        store = self.opened()
        for line, what in (("frobnicate", "unknown command frobnicate; `help` lists the commands"),
                           ("put a", "usage: put KEY VALUE [@V]"),
                           ("get a @7", "a.store: get a at version 7: the store has no version of this number. Use 0"),
                           ("get a @none", "a.store: no version has the name none. Names: no version has one."),
                           ('put "a', "the quotes from column 5 on have no end."), (r"put \q 1", r"\q is no escape"),
                           ("clone 7", "'7' can't be a name"), ("names remove none", "no version has the name none"),
                           ("load none.dump", "none.dump: the file can't be read: No such file or directory. Look at its path"),
                           ("load .", ".: the file can't be read: Is a directory"), ("use 0 @0", "two versions are named: 0 and 0"),
                           ("x" * 10000, f"unknown command {'x' * 60}.. (10,000 characters); `help`"),
                           ("levels --png a.png", "usage: levels [--svg FILE]")):
            out, complaint, status = carried_out(store, "put a 1", "", line, "put b 2")
            self.assertEqual((out, status), ("done\n", 1), line)
            self.assertTrue(complaint.startswith("castle-shell: line 3: "), complaint)
            self.assertIn(what, complaint)
        self.assertEqual(store.get(0, "b"), None)

    def test_the_end_of_a_script_may_be_in_its_midst(self) -> None:
        self.made().close()
        self.assertEqual(self.shell("put a 1\nquit\nnonsense"), ("done\n", "", 0))
        self.assertEqual(self.shell("")[2], 0)

    def test_a_store_that_can_not_be_opened_is_told(self) -> None:
        out, complaint, status = self.shell("stat\n")
        self.assertEqual((out, status), ("", 1))
        self.assertRegex(complaint, r"^castle-shell: .*a\.store: there is no such file\. .*castle format FILE 64 100000 100.*\n$")
        self.made()
        self.assertRegex(self.shell("stat\n")[1], r"^castle-shell: .*a\.store: the store is open already, by process \d+\. ")

    def test_usage_is_told(self) -> None:
        cases: List[Tuple[List[str], int]] = [([], 2), (["--frob"], 2), (["a", "--frob"], 2), (["a", "-c"], 2), (["--json"], 2),
                                              (["a", "-c", "stat", "stat"], 2), (["--help"], 0), (["a", "-h"], 0)]
        for words, status in cases:
            ran = subprocess.run([sys.executable, SHELL, *words], capture_output=True, stdin=subprocess.DEVNULL)
            self.assertEqual(ran.returncode, status)
            self.assertIn(b"usage: castle-shell [--json]", ran.stderr if status else ran.stdout)

    def test_the_version_of_the_shell_is_that_of_the_package(self) -> None:
        ran = subprocess.run([sys.executable, SHELL, "--version"], capture_output=True, stdin=subprocess.DEVNULL)
        self.assertEqual((ran.stdout.decode(), ran.stderr, ran.returncode), (f"castle-shell {castle.__version__}\n", b"", 0))

    def test_help_names_every_command(self) -> None:
        self.made().close()
        out, _, _ = self.shell("help\nhelp diff\n")
        for name in ("put", "get", "delete", "clone", "scan", "info", "stat", "names", "tree", "diff", "levels", "report", "dump",
                     "load", "help", "quit", "use", "switch", "snapshot", "release", "merge"):
            self.assertRegex(out, rf"(?m)^  {name}\b")
        self.assertTrue(out.endswith("diff A [B] [--stat] [-p PREFIX]\n    shows what has to change in A to get B\n"))

    def test_names_are_set_and_removed(self) -> None:
        self.made().close()
        out, _, status = self.shell("names\nclone\nnames set base 0\nnames set work\nuse 1\nnames set work\nnames\n"
                                    "clone next\nuse next\nnames remove work\nnames\ntree\n")
        self.assertEqual((untimed(out), status), ("no version has a name\nmade version 1\n0 base\n1 work\nmade version 2 (next)\n0 base\n"
                                         "2 next\n0 base ─ 1 ─ 2 next (here)\n", 0))
        self.assertIn("version 2 has the name next", self.shell("clone next @2\n")[1])
        self.assertEqual(self.opened().stat().versions, 3)

    def test_an_output_that_nobody_reads_ends_the_shell(self) -> None:
        self.made().close()
        script = self.written("script", "stat\n" * 20000)
        for environment in ENVIRONMENTS:
            with open(script, "rb") as lines, subprocess.Popen([sys.executable, SHELL, self.path], stdin=lines, stdout=subprocess.PIPE,
                                                               stderr=subprocess.PIPE, env=environment) as shell:
                assert shell.stdout and shell.stderr
                self.assertEqual(shell.stdout.readline(), b"versions 1\n")
                shell.stdout.close()
                self.assertEqual((shell.stderr.read(), shell.wait(DEADLINE)), (b"", 1))

    def test_an_output_that_can_not_be_written_is_told(self) -> None:
        self.made().close()
        for environment in ENVIRONMENTS:
            for script in ("stat\n", "stat\n" * 20000, "stat\nfrobnicate\n"):
                ran = subprocess.run(["/bin/sh", "-c", '"$1" "$2" a.store > /dev/full', "sh", sys.executable, SHELL], cwd=self.folder,
                                     input=script.encode(), capture_output=True, env=environment, timeout=DEADLINE)
                self.assertEqual((ran.stderr, ran.returncode), (b"castle-shell: standard output: No space left on device\n", 1))

    def test_streams_that_are_closed_are_told(self) -> None:
        self.made().close()
        for closed in ("<&-", ">&-"):
            ran = subprocess.run(["/bin/sh", "-c", f'"$1" "$2" a.store {closed}', "sh", sys.executable, SHELL], cwd=self.folder,
                                 stdin=subprocess.DEVNULL, capture_output=True, timeout=DEADLINE)
            self.assertEqual((ran.stderr, ran.returncode), (b"castle-shell: standard input or output is closed\n", 1))

    def test_the_shell_runs_as_a_module(self) -> None:
        self.made().close()
        environment = {**os.environ, "PYTHONPATH": str(TOP / "clients" / "python")}
        for module in ("castle", "castle.cli"):
            ran = subprocess.run([sys.executable, "-m", module, "a.store"], input=f"put {module} 1\nget {module}\nnonsense\n".encode(),
                                 cwd=self.folder, env=environment, capture_output=True, timeout=DEADLINE)
            self.assertEqual((ran.stdout, ran.returncode), (b"done\n1\n", 1))
            self.assertEqual(ran.stderr, b"castle-shell: line 3: unknown command nonsense; `help` lists the commands\n")
            self.assertEqual(subprocess.run([sys.executable, "-m", module], env=environment, capture_output=True).returncode, 2)

    def test_a_version_behind_at_stands_at_the_end_alone(self) -> None:
        store = self.made()
        carried_out(store, "put a 1", "clone staging", "clone production")
        for line in ("put @staging v", "put @staging v @production", "put a @staging @production", "scan a @staging @production",
                     "scan @staging b", "get @staging a", "delete @1 a @2", "clone @staging x", "names set @staging 1",
                     "diff @staging production", "dump @staging a.dump", "load @staging a.dump", "use @1 @2"):
            out, complaint, status = carried_out(store, line)
            word = next(word for word in line.split() if word.startswith("@"))
            self.assertEqual((out, status), ("", 1), line)
            self.assertTrue(complaint.startswith(f"castle-shell: line 1: {word} does not stand at the end, where @ and a version stand"),
                            complaint)
        for line, usage in (("put a @staging", "put KEY VALUE [@V]. Write a key or value that begins with @ in quotes."),
                            ("put a b c @staging", "put KEY VALUE [@V]"), ("tree @1", "tree [--long | --svg FILE]"), ("stat @1", "stat"),
                            ("levels @1", "levels [--svg FILE]"), ("help @1", "help [COMMAND]"), ("quit @1", "quit"),
                            ("names @1", NAMES_USAGE), ("names remove staging @1", NAMES_USAGE)):
            self.assertEqual(carried_out(store, line), ("", f"castle-shell: line 1: usage: {usage}\n", 1))
        for word in ("@", '""'):
            self.assertIn(f"line 1: {word} names no version. Write its number or its name", carried_out(store, f"use {word}")[1])
        out, complaint, status = carried_out(store, 'put "@staging" "@v" @staging', 'get "@staging" @1', 'scan "@a" "@z" @staging',
                                             "scan \\x40 @staging", "names set second @2", "get a @second")
        self.assertEqual((out, complaint, status), ('done\n"@v"\n"@staging" = "@v"\n1 pair\n"@staging" = "@v"\n1 pair\n1\n', "", 0))
        self.assertEqual((dict(store.at(0)), store.stat().changes), ({b"a": b"1"}, 4))

    def test_bytes_that_are_no_text_are_themselves_in_a_script(self) -> None:
        self.made().close()
        ran = subprocess.run([sys.executable, SHELL, self.path], input=b'put \xff\xfe "\xe6"\nget \\xff\\xfe\n', capture_output=True,
                             env={**os.environ, "PYTHONIOENCODING": "utf-8:strict"}, timeout=DEADLINE)
        self.assertEqual((ran.stdout, ran.stderr, ran.returncode), (b"done\n\\xe6\n", b"", 0))
        self.assertEqual(self.opened().get(0, b"\xff\xfe"), b"\xe6")

    def test_a_store_with_an_odd_name_is_shown_as_one_line(self) -> None:
        self.path = os.path.join(self.folder, "a\nb \x1b.store")
        self.made().close()
        out, complaint, status = self.shell("put a 1\ndump 0 a.dump\nload a.dump\ntree --svg a.svg\nlevels --svg b.svg\nreport c.html\n")
        said = "done\nwrote a.dump\nloaded 1 pair into version 0\nwrote a.svg\nwrote b.svg\nwrote c.html\n"
        self.assertEqual((out, complaint, status), (said, "", 0))
        for name in ("a.dump", "a.svg", "b.svg", "c.html"):
            with open(os.path.join(self.folder, name), encoding="utf-8") as file:
                self.assertIn(r"a\x0ab \x1b.store", file.read())


class ScanningTest(StoreCase):
    """What the shell does by scans."""

    def test_pairs_and_differences_are_shown(self) -> None:
        self.made().close()
        out, complaint, status = self.shell(
            'put user/1 Ann\nput user/2 Bob\nput "a b" \\xff\nclone staging\nclone production\nput user/2 "R b" @staging\n'
            "delete user/1 @production\nscan @staging\nscan user/ @production\nscan b user/2\ndiff staging production\n"
            "use production\ndiff staging\ndiff 0 @staging\n")
        want = ('done\ndone\n"a b" = \\xff\nuser/1 = Ann\nuser/2 = "R b"\n3 pairs\nuser/2 = Bob\n1 pair\nuser/1 = Ann\n1 pair\n'
                '- user/1 = Ann\n~ user/2 = "R b" -> Bob\n1 removed, 0 added, 1 changed\n'
                '- user/1 = Ann\n~ user/2 = "R b" -> Bob\n1 removed, 0 added, 1 changed\n'
                '~ user/2 = Bob -> "R b"\n0 removed, 0 added, 1 changed\n')
        self.assertEqual((complaint, status), ("", 0))
        self.assertEqual(out[-len(want):], want)

    def test_a_dump_of_bytes_of_every_value_is_loaded_exactly(self) -> None:
        store = self.made(64, 10000, 10)
        pairs = {bytes([byte]): bytes([byte]) for byte in range(256)}
        pairs.update({bytes([byte, 255 - byte]) * 127: bytes(range(256)) * 4 for byte in range(256)})
        pairs.update({"Zoé # \t".encode(): "日本\u200b\n".encode(), b"# end, 2 pairs": b"", b"\\x41": b"A"})
        with store.batch() as batch:
            for key, value in pairs.items():
                batch.put(0, key, value)
        store.close()
        self.assertEqual(self.shell("dump 0 a.dump\n"), ("wrote a.dump\n", "", 0))
        printed = self.shell("dump\n")[0]
        with open(os.path.join(self.folder, "a.dump"), encoding="utf-8", newline="") as file:
            self.assertEqual(file.read(), printed)
        self.assertTrue(all(line.replace("\t", "").isprintable() for line in printed.split("\n")))
        other = os.path.join(self.folder, "b.store")
        Store.format(other, 64, 10000, 10)
        out, complaint, status = self.shell("load a.dump\nclone\nclone\nload a.dump @1\n", other)
        self.assertEqual((complaint, status), ("", 0))
        self.assertIn(f"loaded {len(pairs)} pairs into version 0\n", out)
        with Store(other) as store:
            self.assertEqual(list(store.scan(0)), sorted(pairs.items()))
            self.assertEqual(list(store.scan(1)), sorted(pairs.items()))

    def test_more_pairs_than_a_piece_are_shown(self) -> None:
        with self.made() as store, store.batch() as batch:
            for number in range(600):
                batch.put(0, f"{number:03}", "v")
        self.assertEqual(self.shell("scan\n"), ("".join(f"{number:03} = v\n" for number in range(600)) + "600 pairs\n", "", 0))

    def test_a_dump_that_can_not_be_loaded_says_why_and_how_far(self) -> None:
        self.made(64, 5, 10).close()
        self.written("cut.dump", "# castle dump 1, x\na\t1\n")
        self.assertIn("cut.dump: it is cut off behind line 2", self.shell("load cut.dump\n")[1])
        self.written("more.dump", dumped(*(f"{key}\t1" for key in range(7))))
        self.assertIn("put 5 at version 0, with 5 of 7 pairs loaded: the store took as many changes", self.shell("load more.dump\n")[1])
        self.assertEqual(len(self.opened().at(0)), 5)

    def test_a_dump_with_a_pair_that_no_store_takes_is_not_loaded_in_part(self) -> None:
        store = self.made()
        for line, what in (("k" * 256 + "\t1", "line 3 has a key of 256 bytes. Give keys 1 to 255 bytes."), ("\t1", "line 3 has a key of 0 bytes"),
                           ("k" * 2100 + "\t1", "line 3 has a key of 2100 bytes"), ("a\t" + "v" * 1025, "line 3 has a value of 1,025 bytes"),
                           ("a\t" + "\\xff" * 1025, "line 3 has a value of 1,025 bytes, above 1,024. Cut it into several keys.")):
            file = self.written("wrong.dump", dumped("a\t1", line, "b\t1", "c\t1"))
            out, complaint, status = carried_out(store, f"load {file}")
            self.assertEqual((out, status), ("", 1))
            self.assertIn(f"castle-shell: line 1: {file}: {what}", complaint)
        file = self.written("large.dump", dumped("k" * 255 + "\t" + "v" * 1024, "\\xff" * 255 + "\t" + "\\xff" * 1024))
        self.assertEqual(carried_out(store, f"load {file}"), ("loaded 2 pairs into version 0\n", "", 0))
        self.assertEqual(store.stat().updates, 2)

    def test_a_load_whose_program_ends_says_how_far_it_came(self) -> None:
        self.made(64, 100000, 10).close()
        self.written("many.dump", dumped(*(f"{key:04}\t1" for key in range(1000))))
        with self.opened() as store:
            out, status = self.in_piece(store, 3, lambda: os.kill(store.pid, signal.SIGKILL))
        self.assertEqual(status, 1)
        self.assertRegex(out, r"^castle-shell: line 1: .*put 0\d\d\d at version 0, with \d+ of 1,000 pairs loaded: the program was ended by SIGKILL")
        told = int(out.split(", with ")[1].split()[0])
        self.assertIn(told, range(2 * WINDOW, 3 * WINDOW + 1))
        self.assertIn(len(self.opened().at(0)) - told, range(WINDOW))

    def test_a_load_that_fills_the_device_says_how_far_it_came(self) -> None:
        if not hasattr(resource, "prlimit"):
            self.skipTest("no prlimit here")
        store = self.made(64, 100000, 10)
        self.written("many.dump", dumped(*(f"{key:04}\t1" for key in range(1000))))
        resource.prlimit(store.pid, resource.RLIMIT_FSIZE, (9000, 9000))  # bytes of the file, as on a full device
        complaint, status = carried_out(store, f"load {self.folder}/many.dump")[1:]
        self.assertEqual(status, 1)
        self.assertRegex(complaint, r"^castle-shell: line 1: .*, with \d+ of 1,000 pairs loaded: the file or its folder could not be")
        told = int(complaint.split(", with ")[1].split()[0])
        store.close()
        self.assertIn(len(self.opened().at(0)) - told, (0, 1))  # the put that met it was made or not
        self.assertTrue(told % WINDOW, told)

    def test_ctrl_c_stops_a_load_behind_a_piece(self) -> None:
        self.made(64, 100000, 10).close()
        self.written("many.dump", dumped(*(f"{key:04}\t1" for key in range(1000))))
        with self.opened() as store:
            told = self.in_piece(store, 3, lambda: os.kill(os.getpid(), signal.SIGINT))
            self.assertEqual(told, (f"castle-shell: line 1: stopped, with {3 * WINDOW} of 1,000 pairs loaded\n", 130))
            self.assertEqual([int(key) for key in store.at(0)], list(range(3 * WINDOW)))
            self.assertEqual(store.stat().updates, 3 * WINDOW)

    def in_piece(self, store: Store, number: int, act: Callable[[], None]) -> Tuple[str, int]:
        """Complaints and status of a shell that loads many.dump, where something happens amid the piece of this number."""
        return carried_out_amid(store, number, act, f"load {self.folder}/many.dump", "put a 1")

    def test_ctrl_c_stops_a_script_behind_a_line(self) -> None:
        with self.made() as store:
            complaints, out = io.StringIO(), io.StringIO()
            put = store.put

            def interrupted(version: int, key: bytes, value: bytes) -> None:
                os.kill(os.getpid(), signal.SIGINT)
                put(version, key, value)

            with mock.patch.object(store, "put", interrupted), contextlib.redirect_stderr(complaints):
                status = Shell(store, out).script(["get a\n", "put a 1\n", "put b 1\n"])
            self.assertEqual((out.getvalue(), complaints.getvalue(), status), ("absent\ndone\n", "castle-shell: stopped before line 3\n", 130))
            self.assertEqual(dict(store.at(0)), {b"a": b"1"})
            self.assertIs(signal.getsignal(signal.SIGINT), signal.default_int_handler)

    def test_a_script_that_waits_for_its_next_line_ends_at_ctrl_c(self) -> None:
        self.made().close()
        with subprocess.Popen([sys.executable, SHELL, self.path], stdin=subprocess.PIPE, stdout=subprocess.PIPE,
                              stderr=subprocess.PIPE, env=UNBUFFERED) as shell:
            assert shell.stdin and shell.stdout
            shell.stdin.write(b"put a 1\n")
            shell.stdin.flush()
            self.assertEqual(shell.stdout.readline(), b"done\n")
            for _ in range(10):  # a signal that comes just before the wait begins is seen at the next one alone
                self.assertTrue(comes_to(shell.pid, "S", "Z"))  # it waits, so that none comes between two lines
                shell.send_signal(signal.SIGINT)
                with contextlib.suppress(subprocess.TimeoutExpired):
                    shell.wait(5)
                    break
            said = shell.communicate(timeout=DEADLINE)[1]  # where none ended it, the end of its input does
            self.assertEqual((said, shell.returncode), (b"castle-shell: stopped before line 2\n", 130))

    def test_a_file_in_place_of_a_version_is_told_where_it_stands(self) -> None:
        store = self.made()
        store.names["base"] = 0
        for line, what in (("dump a.dump", "no version has the name a.dump. Names: base. A file stands behind the version: dump V FILE."),
                           ("dump a.dump @base", "two versions are named: a.dump and 0. A file stands behind the version: dump V FILE."),
                           ("dump none a.dump", "no version has the name none. Names: base.")):
            out, complaint, status = carried_out(store, line)
            self.assertEqual((out, status), ("", 1))
            self.assertTrue(complaint.endswith(f"{what}\n"), complaint)

    def test_a_byte_that_is_no_text_in_a_dump_is_loaded_as_it_is(self) -> None:
        self.made().close()
        with open(os.path.join(self.folder, "raw.dump"), "wb") as file:
            file.write(b"# castle dump 1\n\xff\t\xfe1\n# end, 1 pair\n")
        self.assertEqual(self.shell("load raw.dump\nscan\n"), ("loaded 1 pair into version 0\n\\xff = \\xfe1\n1 pair\n", "", 0))

    def test_a_dump_of_another_format_is_refused(self) -> None:
        store = self.made()
        for first in ("# castle dump 12", "# castle dump 10, version 0 of a.store", "# castle dump 2", "# castle dump 1.5", "# castle dump"):
            file = self.written("other.dump", f"{first}\na\t1\n# end, 1 pair\n")
            self.assertIn("other.dump: line 1 is not that of a dump. A dump begins with # castle dump 1.", carried_out(store, f"load {file}")[1])
        self.assertEqual(store.stat().updates, 0)


class DropTest(StoreCase):
    in_memory = True

    def grown(self) -> Store:
        """A store of versions 0 to 5: 1 (named staging) is a clone of 0, 2 and 3 (named x) of 1, 4 and 5 of 3."""
        store = self.made()
        for parent in (0, 1, 1, 3, 3):
            store.clone(parent)
        store.names.assign({"staging": 1, "x": 3})
        return store

    def test_a_version_is_dropped_and_its_names_are_let_go_of(self) -> None:
        store = self.grown()
        self.assertEqual(carried_out(store, "drop 4", "drop @5", "drop x", "tree", "put a 1 @0"), (
            "dropped version 4\ndropped version 5\ndropped version 3 (x); its name x is let go of\n"
            "0 (here) ─ 1 staging (3 dropped) ─ 2\n", f"castle-shell: line 5: {self.path}: put a at version 0: the version has a child, and takes "
            "no puts and deletes and no drop. Clone it, and write to the clone; or drop its children first.\n", 1))
        store.names.assign({"y": 2, "z": 2})
        self.assertEqual(carried_out(store, "drop 2", "info @1")[0], "dropped version 2 (y, z); its names y, z are let go of\n"
                         "version 1 (staging): a clone of version 0, 1 ancestor, takes puts and deletes\n")
        self.assertEqual((dict(store.names), self.names_told()), ({"staging": 1}, ["staging 1"]))

    def test_what_is_not_dropped_says_why(self) -> None:
        store = self.grown()
        for line, what in (("drop", "no version is named. Say which one is dropped: drop V [--tree [--yes]]."), ("drop 4 5", "usage: drop V [--tree"),
                           ("drop 4 @5", "two versions are named: 4 and 5"), ("drop 4 --yes", "usage: drop V [--tree [--yes]]"),
                           ("drop 4 --all", "no option --all; usage: drop V"), ("drop 0", "drop version 0: version 0 can't be dropped. Drop the"),
                           ("drop 0 --tree --yes", "drop version 0 and those below it: version 0 can't be dropped"),
                           ("drop staging", "drop version 1: the version has a child"), ("drop 9", "drop version 9: the store has no version of this number"),
                           ("drop none", "no version has the name none. Names: staging, x."),
                           ("drop x --tree", "to drop version 3 (x) and the 2 versions below it wants a yes, and nobody is asked here. "
                                             "`drop 3 --tree --yes` drops all 3.")):
            out, complaint, status = carried_out(store, line)
            self.assertEqual((out, status), ("", 1), line)
            self.assertIn(what, complaint)
        self.assertEqual((store.dropped(), store.stat().changes), ({}, 5))
        self.assertEqual(carried_out(store, "drop 4", "drop 4")[1:], (
            f"castle-shell: line 2: {self.path}: drop version 4: the version was dropped. `tree` shows the versions that there are; a dropped one "
            "does not come back.\n", 1))

    def test_a_tree_is_dropped_where_the_script_says_yes(self) -> None:
        store = self.grown()
        self.assertEqual(carried_out(store, "drop 4 --tree"), ("dropped version 4\n", "", 0))
        self.assertEqual(carried_out(store, "drop x --tree --yes", "tree"),
                         ("dropped 2 versions, 3,5; the name x is let go of\n0 (here) ─ 1 staging (3 dropped) ─ 2\n", "", 0))
        self.assertEqual(carried_out(store, "drop --yes --tree @staging", "tree"),
                         ("dropped 2 versions, 1-2; the name staging is let go of\n0 (here) (5 dropped)\n", "", 0))

    def test_the_prompt_goes_to_the_parent_of_what_is_dropped(self) -> None:
        store = self.grown()
        self.assertEqual(carried_out(store, "use 4", "drop 4", "clone", "switch x", "drop 3 --tree --yes", "info", "drop 2", "info"), (
            "dropped version 4\nnow at version 3 (x), of which version 4 was cloned\nmade version 6\n"
            "dropped 3 versions, 3,5-6; the name x is let go of\nnow at version 1 (staging), of which version 3 was cloned\n"
            "version 1 (staging): a clone of version 0, 1 ancestor, frozen, since it has a child\n"
            "dropped version 2\nversion 1 (staging): a clone of version 0, 1 ancestor, takes puts and deletes\n", "", 0))

    def test_one_command_and_json(self) -> None:
        self.grown().close()
        self.assertEqual(self.ran("--json", self.path, "drop", "4")[::2], ('{"dropped": [4], "names": []}\n', 0))
        self.assertEqual(self.ran("--json", self.path, "drop", "3", "--tree")[::2], ("", 2))
        self.assertEqual(self.ran(self.path, "drop", "3", "--tree", script="y\n")[::2], ("", 2))
        self.assertEqual(self.ran("--json", self.path, "drop", "3", "--tree", "--yes")[::2], ('{"dropped": [3, 5], "names": ["x"]}\n', 0))
        self.assertEqual(self.ran("--json", self.path, "tree")[0], (
            '{"version": 0, "names": [], "parent": null, "ancestors": 0, "frozen": true, "dropped": 0}\n'
            '{"version": 1, "names": ["staging"], "parent": 0, "ancestors": 1, "frozen": true, "dropped": 3}\n'
            '{"version": 2, "names": [], "parent": 1, "ancestors": 2, "frozen": false, "dropped": 0}\n'))
        self.assertEqual(self.ran(self.path, "drop", "2"), ("dropped version 2\n", "", 0))
        self.assertEqual(self.ran(self.path, "get", "a", "@2")[::2], ("", 2))


class OpeningTest(StoreCase):
    """What the shell says of a store as it opens it."""

    def opened_shell(self, script: str, folder: int = 0o755) -> Tuple[str, str, int]:
        """Output, complaints and status of the shell where permissions count, though root may run this."""
        out, complaints = io.StringIO(), io.StringIO()
        os.chmod(self.folder, folder)
        with unprivileged(), mock.patch("sys.stdin", io.StringIO(script)), contextlib.redirect_stdout(out), \
                contextlib.redirect_stderr(complaints):
            if not os.access(find_program(), os.X_OK, effective_ids=True):
                self.skipTest("the program can't be run by everybody")
            status = main([self.path])
        return out.getvalue(), complaints.getvalue(), status

    def test_a_store_that_may_only_be_read_is_shown_and_not_changed(self) -> None:
        with self.made() as store:
            carried_out(store, "put a 1", "clone staging", "put a 2 @staging", "names set base 0")
            levels = carried_out(store, "levels")[0]
        self.written("a.dump", dumped("b\t1"))
        os.chmod(self.path, 0o444)
        before = {name: self.bytes_of(name) for name in os.listdir(self.folder)}
        told = (f"castle-shell: {self.path}: the file can't be written; this is a copy of it as it is now, and takes no changes\n")
        out, complaint, status = self.opened_shell(
            "get a\nget a @staging\nscan\ntree\ndiff base staging\ninfo staging\nuse 1\ndump\nnames\nlevels\n")
        self.assertEqual((complaint, status), (told, 0))
        self.assertEqual(untimed(out), "1\n2\na = 1\n1 pair\n0 base (here) ─ 1 staging\n~ a = 1 -> 2\n0 removed, 0 added, 1 changed\n"
                              "version 1 (staging): a clone of version 0 (base), 1 ancestor, takes puts and deletes\n"
                              "# castle dump 1, version 1 (staging) of a.store\na\t2\n# end, 1 pair\n0 base\n1 staging\n" + levels)
        for line in ("put b 1 @staging", "delete a @staging", "clone", "clone new", "names set new 0", "names remove base", "names describe base x",
                     "drop staging", "drop staging --tree", "snapshot new @staging", "release staging base", "merge base staging new", f"load --all {self.folder}/a.dump",
                     f"load {self.folder}/a.dump @staging"):
            out, complaint, status = self.opened_shell(f"{line}\n")
            self.assertEqual((out, status), ("", 1), line)
            self.assertTrue(complaint.startswith(told + f"castle-shell: line 1: {self.path}: "), complaint)
            self.assertIn("the store is open for reading alone, as a private copy, and takes no changes. Open it where its file may be",
                          complaint)
        self.assertEqual({name: self.bytes_of(name) for name in os.listdir(self.folder)}, before)

    def test_a_store_that_can_not_be_opened_says_which_cause(self) -> None:
        self.made().close()
        kept, self.path = self.path, self.folder
        self.assertRegex(self.opened_shell("")[1], "it is a folder")
        self.path = os.path.join(self.folder, "none", "a.store")
        self.assertRegex(self.opened_shell("")[1], "there is no such file")
        self.path = kept
        os.chmod(self.path, 0)
        self.assertRegex(self.opened_shell("")[1], "the file can't be opened: Permission denied")

    def test_names_that_are_left_out_are_told_once(self) -> None:
        with self.made() as store:
            store.names["next"] = store.clone(0)
        names = self.written("a.store.names", "base 0\nnext 1\nlost 7\n")
        out, complaint, status = self.shell("names\nclone lost\nnames\n")
        self.assertEqual((untimed(out), complaint, status), (
            "0 base\n1 next\nmade version 2 (lost)\n0 base\n1 next\n2 lost\n",
            f"castle-shell: {names}: names of versions that the store doesn't have are left out: lost 7\n", 0))
        self.assertEqual(self.shell("names\n")[1], "")

    def test_names_that_can_not_be_read_are_told_and_the_store_opens(self) -> None:
        self.made().close()
        for text in ("one two three\n", "# castle dump 1\n"):
            names = self.written("a.store.names", text)
            out, complaint, status = self.shell("put a 1\nget a\nnames\nclone x\n")
            self.assertEqual((out, status), ("done\n1\nno version has a name\n", 1))
            told, refused = complaint.splitlines()
            self.assertRegex(told, f"^castle-shell: {names}: line 1 is not a name and a version")
            self.assertRegex(refused, f"^castle-shell: line 4: {names}: line 1 is not a name and a version")
            self.assertEqual(self.bytes_of("a.store.names"), text.encode())
        self.assertIn("versions 1\n", self.shell("stat\n")[0])

    def test_a_clone_that_gets_no_name_is_told(self) -> None:
        self.made().close()
        for name in ("a.store", "a.store.lock"):
            os.chmod(os.path.join(self.folder, name), 0o666)
        os.chmod(self.folder, 0o555)
        self.addCleanup(os.chmod, self.folder, 0o755)
        names = f"{self.path}.names: "
        for line, what in (("clone next", f"{names}made version 1, which got no name: the file can't be written: Permission denied"),
                           ("names set base 0", f"{names}the file can't be written: Permission denied")):
            out, complaint, status = self.opened_shell(f"{line}\n", 0o555)
            self.assertEqual((out, status), ("", 1))
            self.assertTrue(complaint.startswith(f"castle-shell: line 1: {what}"), complaint)
