"""The pages for users, run as they stand."""

import doctest
import os
import re
import shutil
import subprocess
import unittest
from typing import List, Optional

from session import Session
from support import DEADLINE, TOP, StoreCase

PROMPT = re.compile(r"settings\.store @[^>]*> ")


class QuickstartTest(StoreCase):
    def setUp(self) -> None:
        super().setUp()
        program = os.environ.get("CASTLE_PROGRAM") or str(TOP / "castle")
        os.symlink(os.path.abspath(program), os.path.join(self.folder, "castle"))
        for name in ("castle-shell", "clients"):
            os.symlink(TOP / name, os.path.join(self.folder, name))

    def test_the_quickstart_is_as_shown(self) -> None:
        page = (TOP / "docs" / "QUICKSTART.md").read_text(encoding="utf-8")
        blocks = "".join(re.findall(r"^```console\n(.*?)^```$", page, re.M | re.S))
        session: Optional[Session] = None
        shown = None
        steps = re.findall(rf"^(\$ |{PROMPT.pattern})(.*\n(?:> .*\n)*)((?:(?!\$ |{PROMPT.pattern}).*\n)*)", blocks, re.M)
        self.assertGreaterEqual(len(steps), 30)
        for prompt, command, output in steps:
            command = command.replace("\n> ", "\n").rstrip("\n")
            if prompt != "$ ":
                assert session is not None
                self.assertEqual(shown, prompt, f"the prompt before {command}")
                *lines, shown = session.type(command, r"> $" if command != "quit" else None)
                self.assertEqual("".join(f"{line}\n" for line in lines), output, command)
            elif command == "./castle-shell settings.store":
                session = Session(self.folder, "settings.store")
                self.addCleanup(session.kill)
                *lines, shown = session.until(r"> $").split("\n")
                self.assertEqual("".join(f"{line}\n" for line in lines), output, command)
            else:
                if session is not None:
                    self.assertEqual(session.close(), 0)
                    session = None
                ran = subprocess.run(["/bin/sh", "-c", command], cwd=self.folder, capture_output=True, timeout=DEADLINE)
                self.assertEqual((ran.stdout.decode(), ran.stderr), (output, b""), command)
        with open(os.path.join(self.folder, "tree.svg"), encoding="utf-8") as drawn:
            self.assertEqual(drawn.read(), (TOP / "docs" / "tree.svg").read_text(encoding="utf-8"), "docs/tree.svg")


class ClientPageTest(StoreCase):
    def test_the_examples_of_the_client_page_are_as_shown(self) -> None:
        page = (TOP / "docs" / "CLIENT.md").read_text(encoding="utf-8")
        blocks = re.findall(r"^```python\n(.*?)^```$", page, re.M | re.S)
        told: List[str] = []
        os_path = os.getcwd()
        self.addCleanup(os.chdir, os_path)
        os.chdir(self.folder)
        example = doctest.DocTestParser().get_doctest("\n".join(blocks), {}, "CLIENT.md", None, 0)
        self.assertGreater(len(example.examples), 20)
        results = doctest.DocTestRunner(optionflags=doctest.ELLIPSIS).run(example, out=told.append)
        self.assertEqual(results.failed, 0, "".join(told))


class ManualTest(unittest.TestCase):
    def test_the_manual_pages_are_lawful(self) -> None:
        if not shutil.which("mandoc"):
            self.skipTest("mandoc is not here")
        for name in ("castle.1", "castle-shell.1", "castle-hub.1", "castle-replicate.1"):
            ran = subprocess.run(["mandoc", "-Tlint", "-Wwarning", str(TOP / "man" / name)], capture_output=True)
            self.assertEqual((ran.stdout, ran.returncode), (b"", 0))

    def test_the_manual_and_completion_have_every_command_and_status(self) -> None:
        from castle import hub, replicate
        from castle.errors import ENDS
        from castle.shell import COMMANDS
        shell = (TOP / "man" / "castle-shell.1").read_text(encoding="utf-8")
        for command in COMMANDS:
            self.assertRegex(shell, rf"(?m)^\.It Ic {command}\b")
        options = re.findall(r"(?m)^\.It Fl -(\w+)", (TOP / "man" / "castle-hub.1").read_text(encoding="utf-8"))
        self.assertEqual({*options, "help", "version"}, set(re.findall(r"--(\w+)", hub.parser().format_help())))
        offered = (TOP / "completion" / "castle.bash").read_text(encoding="utf-8")
        replicas = (TOP / "man" / "castle-replicate.1").read_text(encoding="utf-8")
        for job in re.findall(r"[{,](\w+)(?=[,}])", replicate.parser().format_help()) or re.findall(r"(?m)^    (\w+) ", replicate.parser().format_help()):
            self.assertRegex(replicas, rf"(?m)^\.It Cm {job}\b")
            self.assertIn(job, offered)
        self.assertLessEqual({*COMMANDS} - {"quit"}, set(re.findall(r"\w+", offered)))
        taken = {option for command in COMMANDS.values() for option in command.options}
        self.assertLessEqual(taken, set(re.findall(r"-[\w-]+", offered)))
        program = (TOP / "man" / "castle.1").read_text(encoding="utf-8")
        for status in (0, *ENDS):
            self.assertRegex(program, rf"(?m)^\.It {status}\b")
