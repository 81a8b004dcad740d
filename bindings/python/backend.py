"""Builds the wheel and the source archive of the module, for pip (PEP 517), with nothing but Python itself: no package has to be
fetched. The proved library isn't in them.

The version is that of include/rimesatchel.h. A source archive stands outside the repository, and has it in PKG-INFO.
"""

from __future__ import annotations

import base64
import hashlib
import io
import pathlib
import re
import tarfile
import tomllib
import zipfile
from typing import Any

HERE = pathlib.Path(__file__).resolve().parent
HEADER = HERE.parents[1] / "include" / "rimesatchel.h"
MODULE = ["rimesatchel/__init__.py", "rimesatchel/py.typed"]
WHEEL = "Wheel-Version: 1.0\nGenerator: rimesatchel\nRoot-Is-Purelib: true\nTag: py3-none-any\n"
WHEN = (2026, 11, 16, 0, 0, 0)  # a wheel of the same files is the same file

Settings = dict[str, Any] | None


def version() -> str:
    """The version of the repository, or of the source archive."""
    if HEADER.exists():
        text, pattern = HEADER.read_text(encoding="utf-8"), r'^#define RIME_VERSION "(.*)"'
    else:
        text, pattern = (HERE / "PKG-INFO").read_text(encoding="utf-8"), r"^Version: (.*)"
    found = re.search(pattern, text, re.M)
    if not found:
        raise SystemExit("rimesatchel: no version in include/rimesatchel.h or PKG-INFO")
    return found[1]


def metadata() -> str:
    """What is said of the package: its pyproject.toml and the version."""
    project = tomllib.loads((HERE / "pyproject.toml").read_text(encoding="utf-8"))["project"]
    return (f"Metadata-Version: 2.1\nName: {project['name']}\nVersion: {version()}\nSummary: {project['description']}\n"
            f"Requires-Python: {project['requires-python']}\n")


def build_wheel(wheel_directory: str, config_settings: Settings = None, metadata_directory: str | None = None) -> str:
    """Writes the wheel; its name is returned."""
    name = f"rimesatchel-{version()}"
    files = {path: (HERE / path).read_bytes() for path in MODULE}
    files |= {f"{name}.dist-info/METADATA": metadata().encode(), f"{name}.dist-info/WHEEL": WHEEL.encode()}
    record = ""
    for path, octets in files.items():
        digest = base64.urlsafe_b64encode(hashlib.sha256(octets).digest()).rstrip(b"=").decode()
        record += f"{path},sha256={digest},{len(octets)}\n"
    files[f"{name}.dist-info/RECORD"] = f"{record}{name}.dist-info/RECORD,,\n".encode()
    wheel = f"{name}-py3-none-any.whl"
    with zipfile.ZipFile(pathlib.Path(wheel_directory) / wheel, "w", zipfile.ZIP_DEFLATED) as archive:
        for path, octets in files.items():
            entry = zipfile.ZipInfo(path, WHEN)
            entry.compress_type, entry.external_attr = zipfile.ZIP_DEFLATED, 0o100644 << 16
            archive.writestr(entry, octets)
    return wheel


def build_sdist(sdist_directory: str, config_settings: Settings = None) -> str:
    """Writes the source archive; its name is returned."""
    name = f"rimesatchel-{version()}"
    files = {path: (HERE / path).read_bytes() for path in [*MODULE, "pyproject.toml", "backend.py"]}
    files["PKG-INFO"] = metadata().encode()
    with tarfile.open(pathlib.Path(sdist_directory) / f"{name}.tar.gz", "w:gz", format=tarfile.PAX_FORMAT) as archive:
        for path, octets in files.items():
            entry = tarfile.TarInfo(f"{name}/{path}")
            entry.size = len(octets)
            archive.addfile(entry, io.BytesIO(octets))
    return f"{name}.tar.gz"
