"""The shell with one command or some lines as its arguments: exit statuses, quoting and JSON."""

import json
import os
import re
import signal
import subprocess
import sys
import time
from typing import Any, List

from session import carried_out, carried_out_alone
from support import DEADLINE, SHELL, TOP, StoreCase

from castle.shell import COMMANDS


class SingleTest(StoreCase):
    """`castle-shell FILE COMMAND`."""

    in_memory = True

    def one(self, *words: str) -> Any:
        """Output, complaints and status of one command."""
        return self.ran(self.path, *words)

    def test_one_command_is_carried_out(self) -> None:
        self.made().close()
        self.assertEqual(self.one("put", "user/1", "Ann"), ("done\n", "", 0))
        self.assertEqual(self.one("get", "user/1"), ("Ann\n", "", 0))
        self.assertEqual(self.one("clone", "staging"), ("made version 1 (staging)\n", "", 0))
        self.assertEqual(self.one("put", "user/1", "Eve", "@staging"), ("done\n", "", 0))
        self.assertEqual(self.one("get", "user/1", "@staging"), ("Eve\n", "", 0))
        self.assertEqual(self.one("scan", "user/", "@1"), ("user/1 = Eve\n1 pair\n", "", 0))
        self.assertEqual(self.one("diff", "--stat", "0", "staging"), ("0 removed, 0 added, 1 changed\n", "", 0))
        self.assertEqual(self.one("tree"), ("0 (here) ─ 1 staging\n", "", 0))
        self.assertEqual(self.one("del", "user/1", "@staging"), ("done\n", "", 0))
        self.assertEqual(self.one("ls", "@staging"), ("0 pairs\n", "", 0))

    def test_a_key_without_a_value_is_told_by_the_status_alone(self) -> None:
        with self.made() as store:
            store.put(0, "empty", "")
        self.assertEqual(self.one("get", "none"), ("", "", 1))
        self.assertEqual(self.one("exists", "none"), ("", "", 1))
        self.assertEqual(self.one("exists", "empty"), ("", "", 0))
        self.assertEqual(self.one("get", "empty"), ('""\n', "", 0))
        self.assertEqual(self.shell("exists none\nexists empty\nget none\n"), ("no\nyes\nabsent\n", "", 0))

    def test_a_command_that_failed_has_another_status_than_an_absent_key(self) -> None:
        store = self.made(64, 1, 10)
        self.assertEqual(carried_out_alone(store, "put", "a", "1")[2], 0)
        for words, what in ((["get", "a", "@7"], "get a at version 7: the store has no version of this number"),
                            (["exists", "a", "@none"], "no version has the name none"), (["put", "a", "2"], "as many changes as"),
                            (["frobnicate"], "unknown command frobnicate; `help` lists the commands\n"),
                            (["get"], "usage: get KEY [@V]"), (["get", "\\q"], "\\q is no escape"), (["get", ""], "a key has no byte"),
                            (["load", "none"], "none: the file can't be read")):
            out, complaint, status = carried_out_alone(store, *words)
            self.assertEqual((out, status), ("", 2), words)
            self.assertTrue(complaint.startswith("castle-shell: ") and "line" not in complaint.split(what)[0], complaint)
            self.assertIn(what, complaint)
        store.close()
        self.assertEqual(self.one("get", "a", "@7")[::2], ("", 2))
        os.remove(self.path)
        self.assertEqual(self.one("get", "a")[::2], ("", 2))
        self.assertEqual(self.ran(self.path, "-c", "get a")[::2], ("", 1))

    def test_words_need_no_quotes_for_blanks_and_keep_escapes(self) -> None:
        store = self.made()
        for word, data in (("a b", b"a b"), (" ", b" "), ('say "hi"', b'say "hi"'), ('"@3"', b"@3"), ('"a b"', b"a b"), ("\\x00\\xff", b"\x00\xff"),
                           ("a\nb", b"a\nb"), ("#x", b"#x"), ("\udcff", b"\xff"), ('"', b'"'), ('"a" "b"', b'"a" "b"'), ("--json", b"--json"),
                           ("-1", b"-1"), ("日", "日".encode()), ("", b"")):
            self.assertEqual(carried_out_alone(store, "put", "k", word), ("done\n", "", 0), word)
            self.assertEqual(store.get(0, "k"), data)
            shown = carried_out_alone(store, "get", "k")[0].rstrip("\n")
            self.assertEqual(carried_out_alone(store, "put", "again", shown), ("done\n", "", 0), shown)
            self.assertEqual(store.get(0, "again"), data)
        self.assertEqual(carried_out_alone(store, "put", "k", "@3")[2], 2)
        store.close()
        for word, shown in (("a b", '"a b"'), ("\\x00\udcff", "\\x00\\xff"), ("--keep-going", "--keep-going")):
            self.assertEqual(self.one("put", "k", word)[2], 0)
            self.assertEqual(self.one("get", "k")[0], f"{shown}\n")

    def test_an_output_that_nobody_reads_ends_it(self) -> None:
        with self.made(64, 30000, 10) as store, store.batch() as batch:
            for number in range(20000):
                batch.put(0, f"{number:05}", "v" * 20)
        for words, status in ((["scan"], 2), (["--json", "dump"], 2), (["-c", "scan"], 1)):
            ran = subprocess.run(["/bin/bash", "-c", '"$@" | head -1; exit "${PIPESTATUS[0]}"', "bash", sys.executable, SHELL, self.path, *words],
                                 stdin=subprocess.DEVNULL, capture_output=True, timeout=DEADLINE)
            self.assertEqual((ran.stdout.count(b"\n"), ran.stderr, ran.returncode), (1, b"", status))

    def test_standard_input_may_be_closed_and_output_not(self) -> None:
        self.made().close()
        for line, status, told in (("put a 1 <&-", 0, b""), ("put a 1 >&-", 2, b"castle-shell: standard input or output is closed\n"),
                                   ("load --csv - <&-", 2, b"castle-shell: standard input is closed. Give the pairs there, or name a file.\n")):
            ran = subprocess.run(["/bin/sh", "-c", f'"$1" "$2" a.store {line}', "sh", sys.executable, SHELL], cwd=self.folder,
                                 capture_output=True, timeout=DEADLINE)
            self.assertEqual((ran.returncode, ran.stderr), (status, told))

    def test_ctrl_c_ends_it_with_status_130(self) -> None:
        self.made().close()
        with subprocess.Popen([sys.executable, SHELL, self.path, "load", "--csv", "-"], stdin=subprocess.PIPE, stdout=subprocess.PIPE,
                              stderr=subprocess.PIPE) as shell:
            assert shell.stdin
            shell.stdin.write(b"a,1\n" * 300)
            shell.stdin.flush()
            self.rests()
            for _ in range(10):
                shell.send_signal(signal.SIGINT)
                try:
                    shell.wait(5)
                    break
                except subprocess.TimeoutExpired:
                    pass
            assert shell.stderr
            self.assertEqual((shell.stderr.read(), shell.wait()), (b"castle-shell: stopped, with 256 pairs loaded\n", 130))

    def rests(self) -> None:
        """Waits until the file of the store was changed, and is changed no more."""
        deadline, before = time.monotonic() + 20, os.stat(self.path).st_mtime_ns
        seen = [before]
        while time.monotonic() < deadline and not (seen[-1] != before and seen[-1] == seen[-2]):
            time.sleep(0.3)
            seen.append(os.stat(self.path).st_mtime_ns)


class LinesTest(StoreCase):
    """`-c` and `--keep-going`."""

    def test_lines_are_carried_out_as_a_script(self) -> None:
        self.made().close()
        self.assertEqual(self.ran(self.path, "-c", 'put a "x y"', "-c", "get a", "-c", "get b"), ('done\n"x y"\nabsent\n', "", 0))
        self.assertEqual(self.ran("-c", "get a\n# no\nget b", self.path), ('"x y"\nabsent\n', "", 0))
        self.assertEqual(self.ran(self.path, "-c", ""), ("", "", 0))
        out, complaint, status = self.ran(self.path, "-c", "get a", "-c", "nonsense", "-c", "get a")
        self.assertEqual((out, complaint, status), ('"x y"\n', "castle-shell: line 2: unknown command nonsense; `help` lists the commands\n", 1))

    def test_a_script_that_keeps_going_tells_each_failure_and_fails(self) -> None:
        self.made().close()
        script = "put a 1\nnonsense\nput b 2\nget a @9\nget b\n"
        want = "done\ndone\n2\n"
        for out, complaint, status in (self.ran("--keep-going", self.path, script=script),
                                       self.ran(self.path, "--keep-going", *(f"-c{line}" for line in script.splitlines()))):
            self.assertEqual((out, status), (want, 1))
            told = complaint.splitlines()
            self.assertEqual([line.split(":")[1] for line in told], [" line 2", " line 4"])
        self.assertEqual(self.ran("--keep-going", self.path, script="get a\n"), ("1\n", "", 0))
        self.assertEqual(self.ran("--keep-going", self.path, script="nonsense\nquit\nget a\n")[::2], ("", 1))

    def test_a_program_that_ended_ends_a_script_that_keeps_going(self) -> None:
        store = self.pretending("exit 9")
        store.close()
        environment = {**os.environ, "CASTLE_PROGRAM": store._found}
        ran = subprocess.run([sys.executable, SHELL, "--keep-going", store.path], input=b"get a\nget a\nget a\n", capture_output=True,
                             env=environment, timeout=DEADLINE)
        self.assertEqual((ran.stdout, ran.stderr.count(b"\n"), ran.returncode), (b"", 1, 1))
        self.assertIn(b"line 1: ", ran.stderr)


class JsonTest(StoreCase):
    """`--json`."""

    in_memory = True

    def told(self, *lines: str) -> List[Any]:
        """What lines print as JSON, each of which is ASCII."""
        out, complaint, status = self.ran("--json", self.path, *(f"-c{line}" for line in lines))
        self.assertEqual((complaint, status), ("", 0))
        self.assertTrue(out.isascii() and out.replace("\n", "").isprintable(), out)
        return [json.loads(line) for line in out.splitlines()]

    def test_each_command_prints_objects(self) -> None:
        self.made().close()
        self.assertEqual(self.told("put a 1", "put b/x 2", "delete a", "get b/x", "get a", "exists a", "scan", "ls z"), [
            {"done": True}, {"done": True}, {"done": True}, {"key": "b/x", "value": "2"}, {"key": "a", "value": None},
            {"key": "a", "exists": False}, {"key": "b/x", "value": "2"}])
        self.assertEqual(self.told("clone staging", "put b/x 3 @staging", "put c 4 @1", "diff 0 1", "diff 1 0 --stat", "diff 0 1 -p b/"), [
            {"version": 1, "names": ["staging"]}, {"done": True}, {"done": True}, {"key": "b/x", "before": "2", "after": "3"},
            {"key": "c", "before": None, "after": "4"}, {"removed": 1, "added": 0, "changed": 1}, {"key": "b/x", "before": "2", "after": "3"}])
        place = {"version": 1, "names": ["staging"], "parent": 0, "ancestors": 1, "frozen": False}
        first = {"version": 0, "names": [], "parent": None, "ancestors": 0, "frozen": True}
        *told, name = self.told("names describe staging next", "info 1", "tree", "stat", "names")
        self.assertEqual(told, [place, {**first, "dropped": 0}, {**place, "dropped": 0}, {"versions": 2, "updates": 5, "changes": 6, "cursors": 0}])
        self.assertRegex(name.pop("time"), r"^\d{4}-\d\d-\d\dT\d\d:\d\d:\d\dZ$")
        self.assertEqual(name, {"name": "staging", "version": 1, "description": "next"})
        self.assertEqual(self.told("dump staging", "scan --limit 1 @1"), [
            {"key": "b/x", "value": "3"}, {"key": "c", "value": "4"}, {"key": "b/x", "value": "3"}, {"next": "c"}])
        self.assertEqual(self.told("dump 1 a.dump", "load a.dump @1", "help get"), [
            {"wrote": "a.dump"}, {"loaded": 2, "version": 1}, {"usage": "get KEY [@V]", "summary": "shows the value of a key"}])

    def test_branches_print_objects(self) -> None:
        with self.made() as store:
            store.put(0, "a", "1")
            store.names["staging"] = 0
            store.names["production"] = store.clone(0)
            store.names["staging"] = store.clone(0)
            store.put("staging", "a", "2")
            store.put("production", "a", "3")
        self.assertEqual(self.told("snapshot kept @staging", "release staging production", "merge kept 1 mixed --ours"), [
            {"version": 2, "names": ["kept"], "branch": "staging", "clone": 3}, {"name": "production", "before": 1},
            {"version": 3, "names": ["production"], "branch": "staging", "clone": 4},
            {"version": 5, "parent": 0, "base": 0, "changes": 1, "conflicts": 1}])
        out, _, status = self.ran("--json", self.path, "merge", "kept", "1", "other")
        self.assertEqual((json.loads(out), status), ({"conflict": "a", "base": "1", "ours": "2", "theirs": "3"}, 2))

    def test_bytes_that_are_no_text_are_told_apart_from_text(self) -> None:
        self.made().close()
        self.assertEqual(self.told(r"put \xff\x00 {\"hex\":\"ff\"}", "put é \\x00\\xe2\\x80\\xa8", "scan"), [
            {"done": True}, {"done": True}, {"key": "é", "value": "\0\u2028"}, {"key": {"hex": "ff00"}, "value": '{"hex":"ff"}'}])

    def test_what_is_printed_is_loaded_again(self) -> None:
        pairs = {bytes([byte]): bytes([byte, 255 - byte]) for byte in range(256)}
        with self.made() as store:
            store.at(0).update(pairs)
        out = self.ran("--json", self.path, "scan")[0]
        other = os.path.join(self.folder, "b.store")
        type(store).format(other, 64, 1000, 10)
        self.assertEqual(self.ran(other, "load", "--json-lines", "-", script=out), ("loaded 256 pairs into version 0\n", "", 0))
        with type(store)(other) as loaded:
            self.assertEqual(loaded.at(0).copy(), pairs)

    def test_a_key_without_a_value_prints_nothing_but_its_absence_is_asked_for(self) -> None:
        self.made().close()
        self.assertEqual(self.ran(self.path, "--json", "get", "none"), ("", "", 1))
        self.assertEqual(self.ran(self.path, "--json", "exists", "none"), ('{"key": "none", "exists": false}\n', "", 1))

    def test_errors_are_text(self) -> None:
        self.made().close()
        out, complaint, status = self.ran("--json", self.path, "get", "a", "@9")
        self.assertEqual((out, status), ("", 2))
        self.assertTrue(complaint.startswith("castle-shell: "), complaint)


class HabitTest(StoreCase):
    """What fingers type that know other shells."""

    in_memory = True

    def test_other_names_of_commands_are_taken(self) -> None:
        self.made().close()
        self.assertEqual(self.shell("put a 1\nls\ndel a\nls\n? exists\nexit\nget a\n"), (
            "done\na = 1\n1 pair\ndone\n0 pairs\nexists KEY [@V]\n    tells whether a key has a value\n", "", 0))

    def test_the_word_that_was_meant_is_told(self) -> None:
        store = self.made()
        store.names["staging"] = 0
        for line, what in (("gett a", "unknown command gett; did you mean get? `help` lists the commands"),
                           ("SCAN", "unknown command SCAN; did you mean scan? "), ("help exsits", "did you mean exists? "),
                           ("quti", "did you mean quit? "), ("use stagign", "Did you mean staging? Names: staging."),
                           ("diff 0 --stats", "no option --stats; did you mean --stat? usage: diff"),
                           ("load --json a", "no option --json; did you mean --json-lines? usage: load"),
                           ("xyzzy", "unknown command xyzzy; `help` lists the commands")):
            self.assertIn(what, carried_out(store, line)[1])

    def test_a_scan_with_a_limit_says_how_it_goes_on(self) -> None:
        store = self.made()
        store.at(0).update({**{f"k/{number:03}": "v" for number in range(300)}, "z": "1"})
        for line, last in (("scan k/ --limit 2", "2 pairs, and others follow: `scan k/002 k0` goes on, --limit N shows more"),
                           ("scan k/299 k0", "1 pair"), ("scan --limit 300 k/", "300 pairs"),
                           ("scan --limit 300 @0", '300 pairs, and others follow: `scan z "" @0` goes on, --limit N shows more')):
            self.assertEqual(carried_out(store, line)[0].splitlines()[-1], last)
        for line, what in (("scan --limit", "--limit needs N"), ("scan --limit 0", "--limit needs a number from 1 on, and not 0"),
                           ("scan --limit -1", "and not -1"), ("scan --limit x", "and not x"), ("scan --limit 1 --limit 2", "--limit stands twice"),
                           ("scan --frob", "no option --frob; usage: scan")):
            self.assertIn(what, carried_out(store, line)[1])

    def test_a_key_that_looks_like_an_option_stands_in_quotes(self) -> None:
        self.made().close()
        self.assertEqual(self.shell('put --limit 1\nscan "--limit"\nget --limit\nscan -\n'), (
            "done\n--limit = 1\n1 pair\n1\n--limit = 1\n1 pair\n", "", 0))

    def test_differences_are_counted_or_those_of_a_prefix(self) -> None:
        with self.made() as store:
            store.at(0).update({"a": "1", "b/1": "1", "b/2": "1"})
            store.clone(0)
            store.at(1).update({"a": "2", "b/1": "2", "b/3": "1"})
            store.delete(1, "b/2")
        self.assertEqual(self.shell("diff 0 1 --stat\ndiff --stat 0 1 -p b/\ndiff -p b/ 0 1\ndiff 0 1 -p c\n"), (
            "1 removed, 1 added, 2 changed\n1 removed, 1 added, 1 changed\n"
            "~ b/1 = 1 -> 2\n- b/2 = 1\n+ b/3 = 1\n1 removed, 1 added, 1 changed\n0 removed, 0 added, 0 changed\n", "", 0))
        self.assertIn("-p needs PREFIX", self.shell("diff 0 1 -p\n")[1])

    def test_a_script_leaves_no_history(self) -> None:
        self.made().close()
        environment = {**os.environ, "HOME": self.folder}
        for words in ([self.path], [self.path, "put", "k", "secret"], [self.path, "-c", "put k secret"]):
            ran = subprocess.run([sys.executable, SHELL, *words], input=b"put k secret\n", env=environment, capture_output=True, timeout=DEADLINE)
            self.assertEqual((ran.stdout, ran.returncode), (b"done\n", 0))
        self.assertEqual([name for name in os.listdir(self.folder) if "history" in name], [])


class PageTest(StoreCase):
    def test_the_commands_of_the_client_page_are_as_shown(self) -> None:
        self.path = os.path.join(self.folder, "settings.store")
        self.made().close()
        page = (TOP / "docs" / "CLIENT.md").read_text(encoding="utf-8")
        steps = re.findall(r"^\$ castle-shell (.*)\n((?:(?!\$ ).*\n)*)", "".join(re.findall(r"^```console\n(.*?)^```$", page, re.M | re.S)), re.M)
        self.assertGreaterEqual(len(steps), 4)
        for words, shown in steps:
            ran = subprocess.run(["/bin/sh", "-c", f'"$0" "$1" {words}', sys.executable, SHELL], cwd=self.folder, capture_output=True,
                                 stdin=subprocess.DEVNULL, timeout=DEADLINE)
            self.assertEqual((ran.stdout.decode(), ran.stderr), (shown, b""), words)

    def test_what_is_completed_for_bash_and_zsh_is_there(self) -> None:
        for name, pattern in (("castle.bash", r'1:\*\) .* -W "([^"]*)"'), ("_castle", r"'2:command:\(([^)]*)\)")):
            found = re.search(pattern, (TOP / "completion" / name).read_text(encoding="utf-8"))
            assert found
            self.assertGreater(len(found[1].split()), 10)
            self.assertEqual(set(found[1].split()) - set(COMMANDS), set())
