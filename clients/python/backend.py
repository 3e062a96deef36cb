"""Builds this package for pip with the standard library alone: wheel and editable wheel (PEP 517, 660), and source archive."""

import base64
import hashlib
import io
import os
import pathlib
import re
import tarfile
import zipfile

HERE = pathlib.Path(__file__).resolve().parent
PROJECT = dict(re.findall(r'^([\w-]+) = "(.*)"$', (HERE / "pyproject.toml").read_text(encoding="utf-8"), re.M))
SCRIPTS = "castle-shell", "castle-hub", "castle-replicate"
NAME = f"{PROJECT['name']}-{PROJECT['version']}"
METADATA = (f"Metadata-Version: 2.1\nName: {PROJECT['name']}\nVersion: {PROJECT['version']}\nSummary: {PROJECT['description']}\n"
            f"Requires-Python: {PROJECT['requires-python']}\nProvides-Extra: redis\nRequires-Dist: redis; extra == 'redis'\nDescription-Content-Type: text/markdown\n\n"
            + (HERE / PROJECT["readme"]).read_text(encoding="utf-8"))
PACKAGE = {f"castle/{path.name}": path.read_bytes() for path in sorted((HERE / "castle").iterdir()) if path.suffix in (".py", ".typed")}


def wheel_of(folder, files):
    """Writes a wheel with these files into the folder: its name."""
    info = f"{NAME}.dist-info"
    files = {**files, f"{info}/METADATA": METADATA.encode(),
             f"{info}/WHEEL": b"Wheel-Version: 1.0\nGenerator: castle\nRoot-Is-Purelib: true\nTag: py3-none-any\n",
             f"{info}/entry_points.txt": "".join(["[console_scripts]\n", *(f"{name} = {PROJECT[name]}\n" for name in SCRIPTS)]).encode()}
    sums = {path: base64.urlsafe_b64encode(hashlib.sha256(data).digest()).rstrip(b"=").decode() for path, data in files.items()}
    rows = [f"{path},sha256={sums[path]},{len(data)}\n" for path, data in files.items()]
    files[f"{info}/RECORD"] = "".join([*rows, f"{info}/RECORD,,\n"]).encode()
    with zipfile.ZipFile(os.path.join(folder, f"{NAME}-py3-none-any.whl"), "w", zipfile.ZIP_DEFLATED) as wheel:
        for path, data in files.items():
            wheel.writestr(zipfile.ZipInfo(path), data, zipfile.ZIP_DEFLATED)
    return f"{NAME}-py3-none-any.whl"


def build_wheel(wheel_directory, config_settings=None, metadata_directory=None):
    return wheel_of(wheel_directory, PACKAGE)


def build_editable(wheel_directory, config_settings=None, metadata_directory=None):
    return wheel_of(wheel_directory, {"castle.pth": f"{HERE}\n".encode()})


def build_sdist(sdist_directory, config_settings=None):
    files = {**PACKAGE, "PKG-INFO": METADATA.encode(),
             **{name: (HERE / name).read_bytes() for name in ("pyproject.toml", "backend.py", "README.md")}}
    with tarfile.open(os.path.join(sdist_directory, f"{NAME}.tar.gz"), "w:gz", format=tarfile.PAX_FORMAT) as archive:
        for path, data in files.items():
            member = tarfile.TarInfo(f"{NAME}/{path}")
            member.size = len(data)
            archive.addfile(member, io.BytesIO(data))
    return f"{NAME}.tar.gz"
