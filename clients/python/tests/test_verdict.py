"""Checks: verdicts read and told, files that are checked by themselves and while they are open, and the shell's command."""

from __future__ import annotations

import json
import os
import re
import unittest
from unittest import mock

from support import PRETENDER, TOP, StoreCase, unprivileged

from castle import Damaged, Sound, Store, Unsound, errors, verdict

TOLD = [("sound\n", 0, Sound()), ("damaged block 7\n", 9, Damaged(7)), ("unsound k level 1 array 12\n", 11, Unsound("k", 1, 12))]


class VerdictTest(unittest.TestCase):
    def test_verdicts_are_read(self) -> None:
        for text, status, wanted in TOLD:
            self.assertEqual(verdict.read(text, status), wanted)
            self.assertEqual(f"{wanted}\n", text)
        for rule in verdict.RULES:
            self.assertEqual(verdict.read(f"unsound {rule} level 0 array 0\n", 11), Unsound(rule, 0, 0))
        for text, status in (("", 0), ("sound", 0), ("sound\n", 9), ("sound\n", 11), ("damaged block 7\n", 0), ("damaged block\n", 9),
                             ("unsound n level 1 array 1\n", 11), ("unsound k level 1\n", 11), ("unsound k level 1 array 1\n", 9),
                             ("unsound k level 1 array 1\nsound\n", 11)):
            with self.assertRaises(ValueError):
                verdict.read(text, status)

    def test_only_a_sound_verdict_is_true(self) -> None:
        self.assertEqual([bool(found) for _, _, found in TOLD], [True, False, False])
        self.assertEqual([found.is_sound for _, _, found in TOLD], [True, False, False])

    def test_rules_are_told_in_the_words_of_the_page(self) -> None:
        page = (TOP / "docs" / "ERRORS.md").read_text(encoding="utf-8")
        table = page[page.index("## What a check tells"):]
        rows = dict((letter, rest.split(" | ")) for letter, rest in re.findall(r"^\| ([a-m]) \| (.*) \|$", table, re.M))
        self.assertEqual(rows, {letter: list(rule) for letter, rule in verdict.RULES.items()})
        self.assertEqual(sorted(rows), list("abcdefghijklm"))

    def test_a_verdict_is_told_as_lines_and_as_json(self) -> None:
        rule = verdict.RULES["b"]
        found = Unsound("b", 2, 0)
        self.assertEqual(list(verdict.told(found, False)), [
            "unsound b level 2 array 0", f"  what fails: {rule.meaning}",
            f"  what may still be read, by this alone: {rule.readable}", f"  what to do: {rule.remedy}"])
        self.assertEqual(json.loads(next(verdict.told(found, True))), {
            "verdict": "unsound", "rule": "b", "level": 2, "array": 0, "meaning": rule.meaning, "readable": rule.readable,
            "remedy": rule.remedy})
        self.assertEqual(json.loads(next(verdict.told(Damaged(7), True)))["block"], 7)
        self.assertEqual((list(verdict.told(Sound(), False)), list(verdict.told(Sound(), True))), (["sound"], ['{"verdict": "sound"}']))


class PretendedCheckTest(StoreCase):
    """Checks by a program that only pretends: its file has the words for what to say."""

    def says(self, text: str, status: int) -> str:
        """The path of a file that is checked so."""
        return self.written("a.store", f"check {status} {text}")

    def test_what_the_program_says_is_the_verdict(self) -> None:
        for text, status, wanted in TOLD:
            self.assertEqual(Store.check(self.says(text, status), PRETENDER), wanted)
        self.assertEqual(os.listdir(self.folder), ["a.store"])

    def test_other_ends_are_errors(self) -> None:
        for status, kind in ((2, errors.NotAStore), (5, errors.DeviceFailed), (7, errors.OutputFailed), (8, errors.OutOfMemory)):
            with self.assertRaises(kind) as caught:
                Store.check(self.says("-", status), PRETENDER)
            self.assertEqual((caught.exception.command, caught.exception.status), ("check", status))
        with self.assertRaisesRegex(errors.WrongUsage, "check: the program has no check. It is of another build"):
            Store.check(self.says("-", 1), PRETENDER)
        for text, status, _ in TOLD:
            with self.assertRaisesRegex(errors.WrongProtocol, "check: its check can't be read"):
                Store.check(self.says(f"?{text}", status), PRETENDER)
        with self.assertRaises(errors.StoreMissing):
            Store.check(os.path.join(self.folder, "absent"), PRETENDER)
        with self.assertRaises(errors.NotOverHub):
            Store.check("unix:socket")
        with self.assertRaises(errors.NotAStore):
            Store.check(self.folder, PRETENDER)

    def test_a_file_that_is_open_is_checked_by_its_store_alone(self) -> None:
        for text, status, wanted in TOLD:
            with Store(self.says(text, status), PRETENDER) as store:
                self.assertEqual(store.verdict(), wanted)
                with self.assertRaisesRegex(errors.StoreLocked, "the store is open, and may change meanwhile"):
                    Store.check(self.path, PRETENDER)
            self.assertEqual(Store.check(self.path, PRETENDER), wanted)

    def test_a_file_that_is_checked_is_not_opened(self) -> None:
        path = self.says("sound\n", 0)
        with mock.patch("castle.store.Process") as process:
            def output(_: object) -> object:
                with self.assertRaisesRegex(errors.StoreLocked, "is being copied"):
                    Store(path, PRETENDER)
                return "sound\n", 0
            process.return_value.output = output
            self.assertEqual(Store.check(path, PRETENDER), Sound())
        Store(path, PRETENDER).close()

    def test_a_file_that_may_only_be_read_is_checked_as_a_copy(self) -> None:
        path = self.says("sound\n", 0)
        os.chmod(self.folder, 0o755)
        os.chmod(path, 0o444)
        with unprivileged(), mock.patch("castle.store.Process") as process:
            process.return_value.output = lambda _: ("sound\n", 0)
            self.assertEqual(Store.check(path, PRETENDER), Sound())
            word, copy = process.call_args[0][1]
        self.assertEqual((word, copy != path, os.path.exists(copy)), ("check", True, False))

    def test_the_shell_tells_a_verdict_and_its_status(self) -> None:
        with mock.patch.dict(os.environ, {"CASTLE_PROGRAM": PRETENDER}):
            for text, status, found in TOLD:
                path, lines = self.says(text, status), list(verdict.told(found, False))
                out, complaint, ended = self.ran(path, "check")
                self.assertEqual((out.splitlines(), complaint, ended), (lines, "", 0 if found else 1))
                self.assertEqual(self.ran("--json", path, "check")[0], f"{next(verdict.told(found, True))}\n")
                self.assertEqual(os.listdir(self.folder), ["a.store"])
                out, complaint, ended = self.shell("check\nnames\n")
                unsound = "" if found else (f"castle-shell: line 1: {path}: check: {errors.NotSound.what}. {errors.NotSound.remedy}\n")
                self.assertEqual((out.splitlines()[:len(lines)], complaint, ended), (lines, unsound, 0 if found else 1))
                os.remove(f"{path}.lock")
            out, complaint, ended = self.ran(self.says("-", 8), "check")
            self.assertEqual((out, complaint.startswith(f"castle-shell: {self.path}: check: "), ended), ("", True, 2))


class CheckTest(StoreCase):
    """Checks by the real program."""

    def setUp(self) -> None:
        super().setUp()
        Store.format(self.path, 4, 100, 10)
        try:
            Store.check(self.path)
        except errors.WrongUsage as wrong:
            self.skipTest(wrong.what)

    def test_stores_are_checked(self) -> None:
        before = self.bytes_of("a.store")
        self.assertEqual(Store.check(self.path), Sound())
        self.assertEqual((self.bytes_of("a.store"), self.ran(self.path, "check")), (before, ("sound\n", "", 0)))
        os.remove(self.path)
        store = self.damaged()
        self.assertEqual(store.verdict(), Damaged(7))
        store.close()
        self.assertEqual(Store.check(self.path), Damaged(7))
        self.assertEqual(self.ran(self.path, "check")[::2], ("".join(f"{line}\n" for line in verdict.lines(Damaged(7))), 1))
        with open(self.path, "r+b") as file:
            file.write(bytes(2 * 4096))
        with self.assertRaises(errors.NotAStore):
            Store.check(self.path)
        self.assertEqual(self.ran(self.path, "check")[::2], ("", 2))
