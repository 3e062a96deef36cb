"""Loads of files in other forms, their windows, and what is shown of them meanwhile."""

import contextlib
import io
import os
import signal
from typing import List, Tuple
from unittest import mock

from session import carried_out
from support import StoreCase

from castle import Batch, Store
from castle.loading import WINDOW, Progress
from castle.shell import Shell


class FormTest(StoreCase):
    in_memory = True

    def test_rows_of_csv_are_put(self) -> None:
        self.made().close()
        rows = 'key,value\r\na,1\r\n"b, c","x ""y""\nz"\r\n\r\né,\\x41\r\nempty,\r\n'
        file = self.written("a.csv", rows)
        self.assertEqual(self.shell("load --csv a.csv\nscan\n"), (
            'loaded 4 pairs into version 0\na = 1\n"b, c" = "x \\"y\\"\\x0az"\nempty = ""\né = \\\\x41\n4 pairs\n', "", 0))
        self.assertEqual(self.ran(self.path, "load", "--csv", "-", script="\ufeffkey,value\nbom,2\n"), ("loaded 1 pair into version 0\n", "", 0))
        with open(file, "wb") as raw:
            raw.write(b"\xff,\xfe\nkey,value\n")
        self.assertEqual(self.shell(f"load {file} --csv\nget \\xff\nget key\nget bom\n")[0], "loaded 2 pairs into version 0\n\\xfe\nvalue\n2\n")

    def test_lines_of_json_are_put(self) -> None:
        self.made().close()
        self.written("a.json", '{"key": "a", "value": "\\u00e9"}\n\n{"value": {"hex": "00FF"}, "key": {"hex": "fe"}}\r\n')
        self.assertEqual(self.shell("clone x\nload a.json --json-lines @x\nscan @x\n")[0].splitlines()[1:], [
            "loaded 2 pairs into version 1 (x)", "a = é", "\\xfe = \\x00\\xff", "2 pairs"])

    def test_a_dump_comes_from_standard_input_too(self) -> None:
        with self.made() as store:
            store.at(0).update({"a": "1", "b": b"\xff\n"})
        dump = self.ran(self.path, "dump")[0]
        other = os.path.join(self.folder, "b.store")
        Store.format(other, 64, 1000, 10)
        self.assertEqual(self.ran(other, "load", "-", script=dump), ("loaded 2 pairs into version 0\n", "", 0))
        self.assertEqual(self.ran(other, "-c", "clone x", "-c", "load - @x", "-c", "get b @x", script=dump)[0].splitlines()[1:], [
            "loaded 2 pairs into version 1 (x)", "\\xff\\x0a"])
        out, complaint, status = self.ran(other, "load", "-", "@x", script=dump[:-3])
        self.assertEqual((out, status), ("", 2))
        self.assertIn("castle-shell: standard input: it is cut off behind line 4. Dump again", complaint)
        self.assertIn("Nothing was put.", complaint)
        self.written("-", dump)
        self.assertEqual(self.ran(other, "load", '"-"', "@x", script=""), ("loaded 2 pairs into version 1 (x)\n", "", 0))

    def test_standard_input_that_has_the_commands_is_not_loaded(self) -> None:
        self.made().close()
        self.assertIn("line 1: standard input is where the commands come from. Name a file, or run castle-shell STORE load -.",
                      self.shell("load --csv -\na,1\n")[1])

    def told_of(self, store: Store, line: str, *parts: str) -> None:
        """Has a load carried out that fails, with these parts of a complaint."""
        out, complaint, status = carried_out(store, line)
        self.assertEqual((out, status), ("", 1))
        for part in parts:
            self.assertIn(part, complaint)

    def test_a_bad_line_is_told_with_what_was_put_before_it(self) -> None:
        store = self.made(64, 100000, 1000)
        many = "".join(f"{number:03},v\n" for number in range(300))
        for line, what in (("a", "line 301 has 1 column, and not a key and a value; 300 pairs before it were put. Mend the line: KEY,VALUE"),
                           ("a,b,c", "line 301 has 3 columns"), (",b", "line 301 has a key of 0 bytes; 300 pairs before it were put"),
                           ("k" * 256 + ",1", "line 301 has a key of 256 bytes"), ("k," + "v" * 1025, "line 301 has a value of 1,025 bytes, above 1,024"),
                           ('"a" b,1', "line 301 is no CSV: "), ('"a', "line 301 is no CSV: ")):
            version = store.clone(0)
            file = self.written("bad.csv", f"{many}{line}\n")
            self.told_of(store, f"load --csv {file} @{version}", f"castle-shell: line 1: {file}: {what}", "; 300 pairs before it were put. ")
            self.assertEqual(len(store.at(version)), 300)

    def test_a_line_that_is_no_pair_of_json_is_told(self) -> None:
        store = self.made()
        good = '{"key": "a", "value": "1"}\n'
        for line, what in (("{", "is no JSON"), ("[" * 100000, "is no JSON"), ("[]", "is not an object with a key and a value alone"),
                           ('{"key": "a"}', "is not an object with"), ('{"key": "a", "value": "1", "x": 1}', "is not an object with"),
                           ('{"next": "a"}', "is not an object with"), ('{"key": "a", "value": null}', 'has a value that is neither text nor {"hex": ".."}'),
                           ('{"key": 5, "value": ""}', "has a key that is neither"), ('{"key": {"hex": "f"}, "value": ""}', "has a key that is neither"),
                           ('{"key": {"hex": "ff", "x": 1}, "value": ""}', "has a key that"), ('{"key": "\\ud800", "value": ""}', "has a key that"),
                           ('{"key": "", "value": ""}', "has a key of 0 bytes")):
            file = self.written("bad.json", f"{good}\n{line}\n{good}")
            self.told_of(store, f"load --json-lines {file}", f"bad.json: line 3 {what}", "; 1 pair before it was put. ")

    def test_one_form_is_given_at_most(self) -> None:
        self.made().close()
        self.assertIn("a file is of one form, and not --csv and --json-lines", self.shell("load --csv --json-lines a\n")[1])
        self.assertIn("none.csv: the file can't be read: No such file", self.shell("load --csv none.csv\n")[1])


class WindowTest(StoreCase):
    in_memory = True

    def test_each_window_is_put_as_soon_as_it_is_read(self) -> None:
        store = self.made(64, 100000, 10)
        file = self.written("many.csv", "".join(f"{number:04},v\n" for number in range(3 * WINDOW)))
        sizes: List[int] = []
        finish = Batch.finish

        def finished(batch: Batch) -> object:
            answers = finish(batch)
            sizes.append(len(answers))
            return answers

        with mock.patch.object(Batch, "finish", finished):
            self.assertEqual(carried_out(store, f"load --csv {file}")[2], 0)
        self.assertEqual(sizes, [WINDOW] * 3)

    def test_ctrl_c_between_windows_of_a_stream_says_how_many_were_put(self) -> None:
        self.assertEqual(self.interrupted(1), ("castle-shell: line 1: stopped, with 512 pairs loaded\n", 130))

    def test_a_second_ctrl_c_says_that_some_may_be_put(self) -> None:
        self.assertEqual(self.interrupted(2), (f"castle-shell: line 1: stopped, with 256 pairs loaded and some of the next {WINDOW} or none\n", 130))

    def interrupted(self, times: int) -> Tuple[str, int]:
        """Complaints and status of a load whose second window is met by so many signals."""
        store = self.made(64, 100000, 10)
        file = self.written("many.csv", "".join(f"{number:04},v\n" for number in range(1000)))
        finish, windows, complaints = Batch.finish, iter(range(1, 100)), io.StringIO()

        def finished(batch: Batch) -> object:
            if next(windows) == 2:
                for _ in range(times):
                    os.kill(os.getpid(), signal.SIGINT)
            return finish(batch)

        with mock.patch.object(Batch, "finish", finished), contextlib.redirect_stderr(complaints):
            status = Shell(store, io.StringIO()).script([f"load --csv {file}\n", "put a 1\n"])
        self.assertIsNone(store.get(0, "a"))
        return complaints.getvalue(), status

    def test_progress_is_shown_on_a_terminal_that_waits(self) -> None:
        now = [100.0]
        for is_terminal in (True, False):
            out = io.StringIO()
            with mock.patch.object(out, "isatty", lambda: is_terminal):
                progress = Progress(4000, out, lambda: now[0])
                progress.tell(1)
                now[0] += 0.25
                progress.tell(500)
                self.assertEqual(out.getvalue(), "")
                now[0] += 0.75
                progress.tell(1500)
                shown = "1,500 of 4,000 pairs, 1,500 a second"
                self.assertEqual(out.getvalue(), f"\r{shown}" if is_terminal else "")
                now[0] += 1
                self.assertEqual(progress.end(4000), ", 2,000 a second" if is_terminal else "")
                self.assertEqual(out.getvalue(), f"\r{shown}\r{' ' * len(shown)}\r" if is_terminal else "")
