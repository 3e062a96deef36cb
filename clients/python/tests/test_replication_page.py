"""The recipes of docs/REPLICATION.md, run as they stand: commands by a shell, and lines of Python by doctest."""

from __future__ import annotations

import doctest
import os
import re
import shutil
import subprocess
import sys

from support import DEADLINE, PACKAGE, TOP, StoreCase, needs

from castle.process import find_program

PAGE = (TOP / "docs" / "REPLICATION.md").read_text(encoding="utf-8")
BLOCKS = re.findall(r"^```console\n(.*?)^```$", PAGE, re.M | re.S)
COMMAND = re.compile(r"^\$ (.*\n(?:> .*\n)*)((?:(?!\$ ).*\n)*)", re.M)
# the machine that the page logs in to is this one
SSH = "#!/bin/sh\nshift\nexec /bin/sh -c \"$*\"\n"


class PageTest(StoreCase):
    def setUp(self) -> None:
        super().setUp()
        needs("lead")
        self.tools = os.path.join(self.folder, "tools")
        os.mkdir(self.tools)
        self.tool("castle", f'#!/bin/sh\nexec "{find_program()}" "$@"\n')
        for name in "castle-shell", "castle-replicate":
            self.tool(name, f'#!/bin/sh\nexec "{sys.executable}" "{TOP / name}" "$@"\n')
        self.tool("ssh", SSH)

    def tool(self, name: str, text: str) -> None:
        path = self.written(os.path.join("tools", name), text)
        os.chmod(path, 0o755)

    def test_each_recipe_prints_what_it_shows(self) -> None:
        has_redis = all(map(shutil.which, ("redis-server", "redis-cli")))
        if not has_redis:
            print("client: skipped: the recipe of Redis: redis-server or redis-cli is not here", flush=True)
        environment = {**os.environ, "PATH": f"{self.tools}:{os.environ['PATH']}", "CASTLE_PROGRAM": find_program()}
        commands = 0
        for block in BLOCKS:
            if "redis" in block and not has_redis:
                continue
            for command, shown in COMMAND.findall(block):
                with self.subTest(command.strip()):
                    ran = subprocess.run(["/bin/sh", "-c", command.replace("\n> ", "\n")], cwd=self.folder, env=environment,
                                         stdin=subprocess.DEVNULL, capture_output=True, text=True, timeout=DEADLINE)
                    self.assertEqual((ran.stdout, ran.stderr), (shown, ""))
                    commands += 1
        self.assertGreater(commands, 25 if has_redis else 20)

    def test_each_line_of_python_gives_what_it_shows(self) -> None:
        text = "".join(re.findall(r"^```python\n(.*?)^```$", PAGE, re.M | re.S))
        path = self.written("page", text)
        ran = subprocess.run([sys.executable, "-m", "doctest", path], cwd=self.folder, capture_output=True, text=True, timeout=DEADLINE,
                             env={**os.environ, "PYTHONPATH": PACKAGE})
        self.assertEqual((ran.stdout, ran.stderr, ran.returncode), ("", "", 0))
        self.assertGreater(len(doctest.DocTestParser().get_examples(text)), 8)
