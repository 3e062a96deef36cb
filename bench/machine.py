"""What a bench says of where and when it ran."""

import os
import pathlib
import platform
import subprocess

TOP = pathlib.Path(__file__).resolve().parent.parent


def machine():
    """A line on the machine, as far as the system tells."""
    name = platform.processor() or platform.machine()
    try:
        with open("/proc/cpuinfo", encoding="ascii", errors="replace") as lines:
            name = next((line.split(":")[1].strip() for line in lines if line.startswith("model name")), name)
    except OSError:
        pass
    load = f", load {os.getloadavg()[0]:.1f}" if hasattr(os, "getloadavg") else ""
    return f"{name}, {os.cpu_count()} processors{load}; {platform.system()} {platform.release()}; Python {platform.python_version()}"


def commit():
    """The commit of the checkout, with a + where files differ from it; empty where git does not tell."""
    said = []
    for words in (["rev-parse", "--short=8", "HEAD"], ["status", "--porcelain", "--untracked-files=no"]):
        try:
            said.append(subprocess.run(["git", *words], cwd=TOP, capture_output=True, text=True, check=True).stdout.strip())
        except (OSError, subprocess.CalledProcessError):
            return ""
    return said[0] + ("+" if said[1] else "")
