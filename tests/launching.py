"""Runs the launcher as a user would: with words, at a terminal, and in a small checkout with a command rt that only pretends."""

import contextlib
import os
import pathlib
import pty
import re
import resource
import select
import shutil
import signal
import subprocess
import sys
import time

import model
from program import DEADLINE, LAUNCHER, TOP, Skipped, Wrong, bytes_of, expect, read_exactly

sys.path.insert(0, str(TOP / "clients" / "python"))

import castle  # noqa: E402, F401 (found by the path above, and used by checks)

REFUSED, NOT_BUILT, NO_KIT = 125, 126, 127
TOOLS = ("cat", "cp", "dd", "dirname", "env", "find", "grep", "head", "iconv", "mkdir", "mv", "readlink", "rm", "sed", "sh", "sleep",
         "sort", "tail", "tee", "touch", "tr", "wc")
MAKING = {"format": ["4", "100", "10"], "workload": ["1", "10"]}  # what comes behind FILE


def launch(words, launcher=LAUNCHER, **how):
    """Output, status and complaints of the launcher over an input that is empty, unless another is given."""
    if "stdin" not in how and "input" not in how:
        how["stdin"] = subprocess.DEVNULL
    ran = subprocess.run([launcher, *words], **{"capture_output": True, "timeout": DEADLINE, **how})
    return ran.stdout, ran.returncode, ran.stderr


def expect_files(name, folder, wanted):
    expect(f"{name}, files", sorted(os.listdir(folder)), sorted(wanted))


def wait_for(what, condition):
    """Waits until something is so, and fails where it never is."""
    deadline = time.monotonic() + DEADLINE
    while not condition():
        if time.monotonic() > deadline:
            raise Wrong(f"{what}: waited in vain")
        time.sleep(0.01)


def path_with(folder, *others):
    """A PATH with the launcher's tools alone, and with some others."""
    tools = os.path.join(folder, "tools " + " ".join(others))
    os.mkdir(tools)
    for name in (*TOOLS, *others):
        found = sys.executable if name == "python3" else shutil.which(name)
        if not found:
            raise Skipped(f"{name} is not here")
        with open(os.path.join(tools, name), "w") as file:
            file.write(f'#!/bin/sh\nexec "{found}" "$@"\n')
        os.chmod(file.name, 0o755)
    return tools


@contextlib.contextmanager
def running(child):
    """A run that is ended with all that it started, whatever comes."""
    try:
        yield child
    finally:
        with contextlib.suppress(ProcessLookupError):
            os.killpg(child.pid, signal.SIGKILL)
        child.wait()
        for pipe in (child.stdin, child.stdout, child.stderr):
            if pipe:
                pipe.close()


def next_line(child):
    """The next line of complaints."""
    if not select.select([child.stderr], [], [], DEADLINE)[0]:
        raise Wrong("it says nothing")
    return child.stderr.readline().decode()


def limited(most):
    """Has the system send a signal at a write behind so many bytes of a file, which ends most programs."""
    resource.setrlimit(resource.RLIMIT_FSIZE, (most, most))


@contextlib.contextmanager
def served(path, launcher=LAUNCHER, **how):
    """A run that has opened the store, and its end."""
    pipes = {name: subprocess.PIPE for name in ("stdin", "stdout", "stderr")}
    with running(subprocess.Popen([launcher, "serve", path], bufsize=0, start_new_session=True, **pipes, **how)) as child:
        child.stdin.write(model.stat(0))
        read_exactly(child.stdout, 25)
        yield child
        child.stdin.close()
        expect("the end of a run", child.wait(DEADLINE), 0)


def expect_refused(name, path, why, **how):
    """No subcommand that opens a file for itself gets at this one, not even to overwrite it."""
    for words in (["serve", path], ["lead", path], ["follow", path], ["export", path, "0"], *(["--overwrite", word, path, *limits] for word, limits in MAKING.items())):
        expect(f"{name}, {words}", launch(words, **how), (b"", REFUSED, f"castle: {path}: the store is open already{why}\n".encode()))


# A small checkout

RT = '''#!/bin/sh
echo "$*" >>"$TOP/calls"
exec 3>&1 >&2
eval "$RT_DOES"
mkdir -p out
rm -f out/castle
cp "$TOP/program" out/castle
echo "rt: chose --jobs 2 for low"
echo "checked Low, 3 of 5"
echo "linked castle"
echo "rt: running castle"
'''
SIDE_BY_SIDE = 'import os, sys\nprint("proving 2 crates")\nprint("proved low, 1 of 2 crates", flush=True)\nsys.stdin.read()\n'
ECHOED = '#!/bin/sh\nprintf "<%s>" "$@"\nif [ "$1" = serve ]; then exec cat; fi\n'


class Checkout:
    """A checkout of two crates, with an rt that logs its calls, does what the test wants, and builds a program that echoes."""

    def __init__(self, folder):
        self.top = os.path.join(folder, "a checkout")
        self.launcher = os.path.join(self.top, "castle")
        self.program = os.path.join(self.top, "crates", "castle", "out", "castle")
        self.stamp = os.path.join(self.top, "crates", "castle", "out", "built")
        shutil.copytree(TOP / "launcher", os.path.join(self.top, "launcher"))
        for name in ("castle", "README.md", "clients/python/pyproject.toml"):
            shutil.copyfile(TOP / name, self.write(name, ""))
        os.chmod(self.launcher, 0o755)
        self.sources = [self.write(f"crates/{crate}/{name}", "") for crate in ("castle", "low")
                        for name in ("src/lib.rt", "specs/Lib.antt", "proofs/deep/Lemmas.antt")]
        self.sources.append(self.write("crates.txt", "low:\ncastle: low\n"))
        self.write("tests/side_by_side.py", SIDE_BY_SIDE)
        for name, text in (("bin/rt", RT), ("program", ECHOED)):
            os.chmod(self.write(name, text), 0o755)
        self.store = self.write("a.store", "\xa7STRATBT1")

    def write(self, name, text):
        path = os.path.join(self.top, name)
        os.makedirs(os.path.dirname(path), exist_ok=True)
        with open(path, "w", encoding="latin-1") as file:
            file.write(text)
        return path

    def environment(self, rt_does="", path=None):
        rt = os.path.join(self.top, "bin")
        return {**os.environ, "PATH": f"{rt}:{path or os.environ['PATH']}", "TOP": self.top, "RT_DOES": rt_does}

    def launch(self, words, rt_does="", **how):
        return launch(words, self.launcher, **{"env": self.environment(rt_does), **how})

    def start(self, words, rt_does="", path=None):
        """Starts the launcher, whose complaints can be read."""
        return subprocess.Popen([self.launcher, *words], stdin=subprocess.DEVNULL, stdout=subprocess.PIPE, stderr=subprocess.PIPE,
                                bufsize=0, env=self.environment(rt_does, path), start_new_session=True)

    def calls(self):
        """How often rt was called."""
        try:
            return len(bytes_of(os.path.join(self.top, "calls")).splitlines())
        except FileNotFoundError:
            return 0

    def build(self):
        """Builds it, and has all of it be made long ago."""
        expect("a build", self.launch(["--build"])[1], 0)
        os.remove(os.path.join(self.top, "calls"))
        for path in (os.path.join(self.top, "crates.txt"), *pathlib.Path(self.top, "crates").rglob("*")):
            os.utime(path, (1e9, 1e9))
        os.utime(self.stamp, (1.1e9, 1.1e9))


# At a terminal

# What is shown of a workload, and of a check below the cursor, and how it is taken away
PROGRESS = rb"\r\x1b\[K(?:castle: \d+ MB\r)?|\r\n\x1b\[Kcastle: [^\r\n]*blocks read: [\d,]+ of [\d,]+[^\r\n]*\r\x1b\[A|\r\x1b\[J"

class Terminal:
    """A run in a shell with a terminal of its own, so that Ctrl-C there is a signal to all that it started."""

    SCRIPT = 'trap : INT; "$@"; echo "ended with $?"; read -r _'

    def __init__(self, words, cwd="/", most=None):
        self.shown = b""
        self.pid, self.own = pty.fork()
        if self.pid == 0:
            try:
                for number in (signal.SIGINT, signal.SIGHUP):  # as a terminal has them, and not a job in the background
                    signal.signal(number, signal.SIG_DFL)
                os.chdir(cwd)
                if most is not None:
                    limited(most)
                os.execv("/bin/sh", ["sh", "-c", self.SCRIPT, "sh", *words])
            finally:
                os._exit(99)

    def __enter__(self):
        return self

    def __exit__(self, *_):
        for process, _ in [*self.left(), (self.pid, "")]:
            with contextlib.suppress(ProcessLookupError):
                os.kill(process, signal.SIGKILL)
        os.waitpid(self.pid, 0)
        os.close(self.own)

    def type(self, typed):
        os.write(self.own, typed)

    def read_until(self, pattern):
        """Reads until the pattern is shown: the match."""
        deadline = time.monotonic() + 6 * DEADLINE
        while not re.search(pattern, self.shown):
            if not select.select([self.own], [], [], max(0, deadline - time.monotonic()))[0]:
                raise Wrong(f"the terminal shows {self.shown!r} and no {pattern}")
            self.shown += os.read(self.own, 4096)
        return re.search(pattern, self.shown)

    def end(self):
        """The status, what was shown but for progress, and the names of processes that are left and do not end."""
        status = int(self.read_until(rb"ended with (\d+)\r\n")[1])
        deadline = time.monotonic() + DEADLINE
        while (left := [name for _, name in self.left()]) and time.monotonic() < deadline:
            time.sleep(0.05)  # what was just left alone ends soon, as `sleep 1` does
        return status, re.sub(PROGRESS + rb"|\^C|ended with \d+\r\n|\r", b"", self.shown), left

    def left(self):
        """Its processes that are there still: their numbers and names."""
        for process in filter(str.isdigit, os.listdir("/proc")):
            with contextlib.suppress(OSError):
                name, rest = bytes_of(f"/proc/{process}/stat").decode().split("(", 1)[1].rsplit(")", 1)
                state, _, _, session = rest.split()[:4]
                if int(session) == self.pid != int(process) and state != "Z":
                    yield int(process), name
