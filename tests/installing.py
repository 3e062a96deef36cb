#!/usr/bin/env python3
"""Installs it as a user would, and tries what is there: commands, the client's package, completion, and the page on losing data.

`tests/installing.py [WORD..]` at the top. Nothing of it asks a registry.
"""

import os
import pathlib
import re
import shutil
import stat as modes
import subprocess
import sys

from launching import NOT_BUILT, REFUSED, Terminal, castle, expect_files, expect_refused, launch, served
from model import Store, put
from program import DEADLINE, TOP, Skipped, StoreFile, bytes_of, complaint, expect, run_checks

INSTALL = str(TOP / "install")


def install(*words, **how):
    """Output, status and complaints of the installer, without a DESTDIR of the user's."""
    environment = {name: value for name, value in os.environ.items() if name != "DESTDIR"}
    return launch(words, INSTALL, **{**how, "env": {**environment, **how.get("env", {})}})


def files_below(folder):
    """The files and folders below a folder, and the bytes of each file."""
    paths = sorted(pathlib.Path(folder).rglob("*"))
    return {str(path.relative_to(folder)): path.read_bytes() if path.is_file() else None for path in paths if path.suffix != ".pyc"}


def installed(folder):
    """A folder in which it is installed, and what runs something there as a user with that folder on PATH."""
    prefix = os.path.join(folder, "the prefix")
    expect("install, status", install(prefix)[1], 0)
    rt = os.path.join(folder, "bin")
    os.mkdir(rt)
    with open(os.path.join(rt, "rt"), "w") as file:
        file.write(f"#!/bin/sh\ntouch '{folder}/called'\n")
    os.chmod(file.name, 0o755)
    environment = {name: value for name, value in os.environ.items() if not name.startswith(("CASTLE_", "PYTHON"))}
    environment["PATH"] = f"{prefix}/bin:{rt}:{os.environ['PATH']}"

    def run(*words, **how):
        return launch(words[1:], shutil.which(words[0], path=environment["PATH"]), **{"env": environment, "cwd": folder, **how})

    return prefix, run


def an_installed_castle_refuses_and_locks_as_the_checkout_does(folder):
    prefix, run = installed(folder)
    expect("--version", run("castle", "--version"), launch(["--version"]))
    expect("no words", run("castle"), (b"", 1, complaint(1)))
    expect("no such file", run("castle", "serve", "a.store"), (b"", 2, b"castle: a.store: no such file\n"))
    expect("format", run("castle", "format", "a.store", "4", "100", "10"), (Store(4, 100, 10).line(), 0, b""))
    said = b"castle: a.store: a castle store is there, and stays as it is; to lose it, use castle --overwrite format ..\n"
    expect("format again", run("castle", "format", "a.store", "4", "100", "10"), (b"", REFUSED, said))
    path = os.path.join(folder, "a.store")
    with served(path, launcher=f"{prefix}/bin/castle") as child:
        expect_refused("open", path, f", by process {child.pid}")
        got = run("castle", "--overwrite", "format", path, "4", "100", "10")
        expect("open, installed", got, (b"", REFUSED, f"castle: {path}: the store is open already, by process {child.pid}\n".encode()))
    out, _, _ = run("castle", "--help")
    documents = re.search(r"^The documents are in (.*): README.md", out.decode(), re.M)[1]
    for name in ("README.md", "docs/QUICKSTART.md", "docs/ERRORS.md", "docs/tree.svg"):
        expect(f"{name} is there", bytes_of(os.path.join(documents, name)) == (TOP / name).read_bytes(), True)
    expect("a manual page", bytes_of(f"{prefix}/share/man/man1/castle.1") == (TOP / "man" / "castle.1").read_bytes(), True)
    os.symlink(f"{prefix}/bin/castle", os.path.join(folder, "linked"))
    expect("by a link", launch(["--version"], os.path.join(folder, "linked")), launch(["--version"]))
    # it builds nothing, though rt is on PATH, and names nothing of the checkout
    expect("whether rt was called", os.path.exists(os.path.join(folder, "called")), False)
    naming = [name for name, data in files_below(prefix).items() if data and str(TOP).encode() in data and name != "lib/castle/castle"]
    expect("files that name the checkout", naming, [])
    os.remove(f"{prefix}/lib/castle/castle")
    out, status, said = run("castle", "serve", "a.store")
    expect("without the program", (out, status, b"is not there; install it again" in said), (b"", NOT_BUILT, True))


def an_installed_shell_finds_client_and_program(folder):
    prefix, run = installed(folder)
    run("castle", "format", "a.store", "64", "100", "10")
    got = run("castle-replicate", "commands", input=b"put a 1\n")
    expect("commands as frames", got, (put(1, b"a", b"1"), 0, b""))
    got = run("castle-shell", "a.store", input=b"put a 1\nget a\n")
    expect("a script", got, (b"done\n1\n", 0, b""))
    elsewhere = {"cwd": folder, "env": {"PATH": os.environ["PATH"], "HOME": folder}}
    got = launch(["a.store"], f"{prefix}/bin/castle-shell", input=b"get a\n", **elsewhere)
    expect("a script, by its path alone", got, (b"1\n", 0, b""))
    os.remove(f"{prefix}/lib/castle/castle")
    expect("without the program", run("castle-shell", "a.store", input=b"get a\n")[1], 1)


def an_installation_says_what_it_did_and_may_be_repeated(folder):
    prefix = os.path.join(folder, "prefix")
    os.makedirs(os.path.join(prefix, "share", "man"))
    mine = os.path.join(prefix, "share", "mine")
    with open(mine, "w"):
        pass
    before = files_below(prefix)
    out, status, said = install(prefix)
    expect("status", (status, said), (0, b""))
    made = files_below(prefix)
    new = sorted(name for name, data in made.items() if data is not None and name not in (*before, "lib/castle/files"))
    lines = out.decode().splitlines()
    expect("what it says", sorted(lines[:-1]), sorted(f"install: {prefix}/{name}" for name in new))
    expect("its last line", lines[-1], f"install: castle {castle.__version__} is in {prefix}; have {prefix}/bin on PATH")
    for name, mode in (("bin/castle", 0o755), ("lib/castle/castle", 0o755), ("lib/castle/guard.sh", 0o644)):
        expect(f"{name}, its mode", modes.S_IMODE(os.stat(f"{prefix}/{name}").st_mode), mode)
    expect("again", install(prefix), (f"{lines[-1]}\n".encode(), 0, b""))
    expect("again, the files", files_below(prefix) == made, True)
    # a file that was altered, one that is gone, and one of a former installation
    with open(f"{prefix}/lib/castle/guard.sh", "a") as file:
        file.write("altered")
    os.remove(f"{prefix}/bin/castle-shell")
    with open(f"{prefix}/lib/castle/files", "a") as file:
        file.write("share/doc/castle/former.md\n")
    with open(f"{prefix}/share/doc/castle/former.md", "w"):
        pass
    out, status, said = install(prefix)
    expect("mended", (status, said, out.decode().splitlines()[:-1]), (0, b"", [
        f"install: {prefix}/bin/castle-shell", f"install: {prefix}/lib/castle/guard.sh",
        f"install: removed {prefix}/share/doc/castle/former.md"]))
    expect("mended, the files", files_below(prefix) == made, True)
    # and away with it: what somebody else has there stays
    os.makedirs(f"{prefix}/lib/castle/python/castle/__pycache__")
    with open(f"{prefix}/lib/castle/python/castle/__pycache__/x.pyc", "w"):
        pass
    out, status, said = install("--uninstall", prefix)
    expect("uninstall", (status, said), (0, b""))
    expect("uninstall, what it says", sorted(out.decode().splitlines()[:-1]), sorted(f"install: removed {prefix}/{name}" for name in new))
    expect("uninstall, the files", files_below(prefix), before)
    expect("uninstall again", install("--uninstall", prefix),
           (b"", 1, f"install: {prefix}/lib/castle/files is not there, so nothing of castle is below {prefix}\n".encode()))


def an_installation_overwrites_nothing_of_others(folder):
    store = StoreFile(folder)
    usage = b"install: usage: ./install [--uninstall] PREFIX\n"
    for words in ([], [""], ["--help"], ["--uninstall"], ["a", "b"], ["--uninstall", "a", "b"], ["--uninstall", "--uninstall"]):
        expect(f"{words}", install(*words, cwd=folder), (b"", 1, usage))
    for words in ([store.path], ["--uninstall", store.path], [f"{store.path}/"]):
        expect(f"{words}", install(*words), (b"", 1, f"install: {store.path} is a file and no folder; nothing was changed\n".encode()))
    store.expect_bytes("a store as the prefix")
    expect_files("so far", folder, [os.path.basename(store.path)])
    prefix = os.path.join(folder, "prefix")
    for name, make in (("bin/castle", lambda path: shutil.copy(store.path, path)), ("share/doc/castle/docs/ERRORS.md", os.mkdir),
                       ("lib/castle/castle", lambda path: os.symlink("nowhere", path))):
        path = os.path.join(prefix, name)
        os.makedirs(os.path.dirname(path))
        make(path)
        before = files_below(prefix)
        said = f"install: {path} is there, and no installation made it; nothing was changed\n"
        expect(f"{name} is there", install(prefix), (b"", 1, said.encode()))
        expect(f"{name} is there, the files", files_below(prefix), before)
        shutil.rmtree(prefix)


def an_installation_is_staged_below_destdir(folder):
    stage, prefix = os.path.join(folder, "stage"), os.path.join(folder, "usr")  # where a DESTDIR that is lost does no harm
    expect("a relative prefix", install("usr", env={"DESTDIR": stage}), (b"", 1, b"install: with DESTDIR the PREFIX begins with /\n"))
    expect("staged", install(prefix, env={"DESTDIR": stage})[1], 0)
    expect("staged, the command", launch(["--version"], f"{stage}{prefix}/bin/castle"), launch(["--version"]))
    expect("staged, the prefix itself", os.path.exists(prefix), False)
    expect("staged, away", install("--uninstall", prefix, env={"DESTDIR": stage})[1], 0)
    expect_files("staged, what stays", f"{stage}{prefix}", [])
    expect("a relative prefix without it", install("here", cwd=folder)[1], 0)
    expect("a relative prefix without it, the command", launch(["--version"], f"{folder}/here/bin/castle"), launch(["--version"]))


def a_checkout_that_can_not_be_written_is_installed(folder):
    if os.geteuid() != 0:
        raise Skipped("who is not root can't become nobody")
    os.chmod(folder, 0o777)
    nobody = {"user": 65534, "group": 65534, "extra_groups": []}
    if subprocess.run(["/bin/sh", "-c", f'test -r "{INSTALL}"'], **nobody).returncode != 0:
        raise Skipped("nobody may not read the checkout")
    out, status, said = install(os.path.join(folder, "prefix"), **nobody)
    expect("install", (status, said), (0, b""))
    expect("the command", launch(["--version"], f"{folder}/prefix/bin/castle", **nobody), launch(["--version"]))


def the_client_is_a_package_without_a_registry(folder):
    try:
        import pip  # noqa: F401
    except ImportError as why:
        raise Skipped("pip is not here") from why
    environment = {name: value for name, value in os.environ.items() if not name.startswith(("PIP_", "PYTHON", "CASTLE_"))}
    nowhere = "http://127.0.0.1:9"
    environment.update(PIP_CONFIG_FILE=os.devnull, PIP_DISABLE_PIP_VERSION_CHECK="1", http_proxy=nowhere, https_proxy=nowhere)
    told = "import castle, sys, importlib.metadata as m; print(castle.__file__, m.version('castle'), hasattr(castle, 'Store'))"

    def python(*words):
        ran = subprocess.run([sys.executable, *words], capture_output=True, text=True, cwd=folder, env=environment, timeout=6 * DEADLINE)
        expect(f"{words[:4]}", (ran.returncode, ran.stderr), (0, ""))
        return ran.stdout

    def pip_install(*words):
        python("-m", "pip", "install", "--no-index", "--quiet", "--root-user-action=ignore", *words)

    source, version = str(TOP / "clients" / "python"), castle.__version__
    built = python("-c", f"import sys; sys.path.insert(0, {source!r}); import backend; print(backend.build_sdist('.'))").strip()
    expect("the source archive", built, f"castle-{version}.tar.gz")
    for name, given in (("checkout", source), ("archive", os.path.join(folder, built))):
        target = os.path.join(folder, name)
        pip_install("--target", target, given)
        environment["PYTHONPATH"] = target
        expect(f"from the {name}", python("-c", told), f"{target}/castle/__init__.py {version} True\n")
        has = {path.name for path in pathlib.Path(source, "castle").iterdir() if path.suffix in (".py", ".typed")}
        expect(f"from the {name}, files", has - set(os.listdir(os.path.join(target, "castle"))), set())
        usage = python(os.path.join(target, "bin", "castle-shell"), "--help")
        expect(f"from the {name}, the shell", usage.split()[:2], ["usage:", "castle-shell"])
        usage = python(os.path.join(target, "bin", "castle-hub"), "--help")
        expect(f"from the {name}, the hub", usage.split()[:2], ["usage:", "castle-hub"])
        usage = python(os.path.join(target, "bin", "castle-replicate"), "--help")
        expect(f"from the {name}, what feeds followers", usage.split()[:2], ["usage:", "castle-replicate"])
        del environment["PYTHONPATH"]
    pip_install("--prefix", os.path.join(folder, "editable"), "--ignore-installed", "--editable", source)
    site = next(pathlib.Path(folder, "editable").rglob("castle.pth")).parent
    got = python("-c", f"import site; site.addsitedir({str(site)!r}); {told}")
    expect("editable", got, f"{source}/castle/__init__.py {version} True\n")


# The page

def expect_examples(folder, page, least):
    """The commands of a page, at least so many, print what it shows behind each."""
    text = (TOP / "docs" / page).read_text(encoding="utf-8")
    shutil.copy(TOP / "README.md", folder)
    for name in ("castle", "castle-shell"):
        os.symlink(TOP / name, os.path.join(folder, name))
    steps = re.findall(r"^\$ (.*)\n((?:(?!\$ ).*\n)*)", "".join(re.findall(r"^```console\n(.*?)^```$", text, re.M | re.S)), re.M)
    expect("enough of them", len(steps) >= least, True)
    for command, shown in steps:
        ran = subprocess.run(["/bin/sh", "-c", command], cwd=folder, stdin=subprocess.DEVNULL, stdout=subprocess.PIPE,
                             stderr=subprocess.STDOUT, timeout=DEADLINE)
        expect(command, ran.stdout.decode(), shown)


def the_examples_of_how_to_lose_data_are_as_shown(folder):
    expect_examples(folder, "HOW-TO-LOSE-DATA.md", 11)


def what_to_do_after_a_fault_of_the_device_is_as_shown(folder):
    expect_examples(folder, "ERRORS.md", 5)


# Completion

def bash_offers(folder, *words):
    """What bash offers for the last of these words."""
    script = '. "$0"; COMP_WORDS=("$@"); COMP_CWORD=$(($# - 1)); _castle; printf "%s\\n" "${COMPREPLY[@]}"'
    ran = subprocess.run(["bash", "-c", script, str(TOP / "completion" / "castle.bash"), *words], capture_output=True, text=True,
                         cwd=folder, timeout=DEADLINE)
    expect(f"{words}", (ran.returncode, ran.stderr), (0, ""))
    return set(filter(None, ran.stdout.split("\n")))


def bash_completes_words_and_files(folder):
    if not shutil.which("bash"):
        raise Skipped("bash is not here")
    for name in ("a b.store", "a.store", "other"):
        with open(os.path.join(folder, name), "w"):
            pass
    every = {"format", "serve", "levels", "check", "workload", "lead", "follow", "export", "--overwrite", "--build", "--help", "--version"}
    for words, wanted in (
        (["castle", ""], every), (["./castle", "--"], {word for word in every if word.startswith("--")}), (["castle", "f"], {"format", "follow"}),
        (["castle", "--overwrite", ""], {"format", "workload"}), (["castle", "--overwrite", "w"], {"workload"}),
        (["castle", "serve", "a"], {"a b.store", "a.store"}), (["castle", "--overwrite", "format", "o"], {"other"}),
        (["castle", "format", "a.store", ""], set()), (["castle-shell", "a"], {"a b.store", "a.store"}),
        (["castle-shell", "--"], {"--json", "--keep-going", "--help", "--version"}), (["castle-shell", "a.store", "exi"], {"exists"}),
        (["castle-shell", "--json", "a"], {"a b.store", "a.store"}), (["castle-shell", "--json", "a.store", "sc"], {"scan"}),
        (["castle-shell", "a.store", "-c", "ge"], set()), (["castle-shell", "a.store", "diff", "0", "1", "--st"], {"--stat"}),
        (["castle-shell", "a.store", "load", "--csv", "o"], {"other"}),
        (["castle-hub", "-"], {"--mode", "--clients", "--help", "--version"}), (["castle-hub", "a.store", "o"], {"other"}),
        (["castle-replicate", "re"], {"record", "read"}), (["castle-replicate", "show", "r"], {"receipts"}),
        (["castle-replicate", "feed", "o"], {"other"}), (["castle-replicate", "feed", "--u"], {"--until"}),
    ):
        expect(f"{words}", bash_offers(folder, *words), wanted)


def zsh_completes_words_and_files(folder):
    if not shutil.which("zsh"):
        raise Skipped("zsh is not here")
    for name in ("a.store", "b.store"):
        with open(os.path.join(folder, name), "w"):
            pass
    with Terminal(["zsh", "-f"], cwd=folder) as run:
        run.type(f"PS1='> '; fpath=('{TOP}/completion' $fpath); autoload -U compinit; compinit -u -D; castle() print -r '<'$*'>'; "
                 "castle-shell() print -r '<shell '$*'>'; print rea''dy\r".encode())
        run.read_until(b"ready")
        for typed, wanted in ((b"castle for\ta\t4\r", b"<format a.store 4>"), (b"castle --ver\t\r", b"<--version>"),
                              (b"castle --overwrite w\tb\t1\r", b"<--overwrite workload b.store 1>"),
                              (b"castle-shell b\t\r", b"<shell b.store>"), (b"castle-shell --ver\t\r", b"<shell --version>"),
                              (b"castle-shell b\t exi\tk\r", b"<shell b.store exists k>")):
            run.type(typed)
            run.read_until(re.escape(wanted))


CHECKS = [
    an_installed_castle_refuses_and_locks_as_the_checkout_does,
    an_installed_shell_finds_client_and_program,
    an_installation_says_what_it_did_and_may_be_repeated,
    an_installation_overwrites_nothing_of_others,
    an_installation_is_staged_below_destdir,
    a_checkout_that_can_not_be_written_is_installed,
    the_client_is_a_package_without_a_registry,
    the_examples_of_how_to_lose_data_are_as_shown,
    what_to_do_after_a_fault_of_the_device_is_as_shown,
    bash_completes_words_and_files,
    zsh_completes_words_and_files,
]

if __name__ == "__main__":
    sys.exit(run_checks("installing", CHECKS, sys.argv[1:]))
