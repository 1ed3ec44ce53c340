"""Builds the package for pip (PEP 517 and 660) with Python's own library alone.

A wheel is a zip file of the package and a folder of metadata, with a list of all files and their digests.
"""

from __future__ import annotations

import base64
import hashlib
import io
import re
import tarfile
import zipfile
from pathlib import Path
from typing import Any, Optional

FOLDER = Path(__file__).resolve().parent.parent
PACKAGE = FOLDER / "waitfield"

# What a source archive has beside the package.
SOURCES = ("pyproject.toml", "README.md", "packaging", "tests")

Settings = Optional[dict[str, Any]]


def _entry(name: str) -> str:
    """A string of the project's table in pyproject.toml. (Python has a reader for that language from 3.11 on only.)"""
    found = re.search(rf'^{name} = "(.*)"$', (FOLDER / "pyproject.toml").read_text("utf-8"), re.MULTILINE)
    assert found, f"pyproject.toml has no {name}"
    return found[1]


def _version() -> str:
    found = re.search(r'^__version__ = "(.*)"$', (PACKAGE / "__init__.py").read_text("utf-8"), re.MULTILINE)
    assert found, "the package has no version"
    return found[1]


def _metadata() -> str:
    heads = [
        "Metadata-Version: 2.1",
        f"Name: {_entry('name')}",
        f"Version: {_version()}",
        f"Summary: {_entry('description')}",
        f"Requires-Python: {_entry('requires-python')}",
        "Description-Content-Type: text/markdown",
    ]
    return "\n".join(heads) + "\n\n" + (FOLDER / "README.md").read_text("utf-8")


def _files(*tops: Path) -> list[Path]:
    """The files below these, without what Python leaves beside them."""
    below = [file for top in tops for file in ([top] if top.is_file() else sorted(top.rglob("*")))]
    return [file for file in below if file.is_file() and "__pycache__" not in file.parts]


def _wheel(folder: str, contents: dict[str, bytes]) -> str:
    """Writes a wheel of these files, by their names in it. Gives the name of the wheel."""
    info = f"{_entry('name')}-{_version()}.dist-info"
    contents = {
        **contents,
        f"{info}/METADATA": _metadata().encode(),
        f"{info}/WHEEL": b"Wheel-Version: 1.0\nGenerator: waitfield\nRoot-Is-Purelib: true\nTag: py3-none-any\n",
    }
    record = [f"{info}/RECORD,,"]
    for name, data in contents.items():
        digest = base64.urlsafe_b64encode(hashlib.sha256(data).digest()).rstrip(b"=").decode()
        record.append(f"{name},sha256={digest},{len(data)}")
    contents[f"{info}/RECORD"] = ("\n".join(record) + "\n").encode()
    name = f"{_entry('name')}-{_version()}-py3-none-any.whl"
    with zipfile.ZipFile(Path(folder) / name, "w", zipfile.ZIP_DEFLATED) as archive:
        for path, data in contents.items():
            archive.writestr(path, data)
    return name


def build_wheel(
    wheel_directory: str, config_settings: Settings = None, metadata_directory: Optional[str] = None
) -> str:
    """The package itself."""
    files = _files(PACKAGE)
    return _wheel(wheel_directory, {file.relative_to(FOLDER).as_posix(): file.read_bytes() for file in files})


def build_editable(
    wheel_directory: str, config_settings: Settings = None, metadata_directory: Optional[str] = None
) -> str:
    """A line that has Python look for the package in this folder."""
    return _wheel(wheel_directory, {"waitfield.pth": f"{FOLDER}\n".encode()})


def build_sdist(sdist_directory: str, config_settings: Settings = None) -> str:
    """The sources, from which a wheel can be built again."""
    top = f"{_entry('name')}-{_version()}"
    with tarfile.open(Path(sdist_directory) / f"{top}.tar.gz", "w:gz") as archive:
        for file in _files(PACKAGE, *(FOLDER / name for name in SOURCES)):
            archive.add(file, f"{top}/{file.relative_to(FOLDER).as_posix()}")
        data = _metadata().encode()
        about = tarfile.TarInfo(f"{top}/PKG-INFO")
        about.size = len(data)
        archive.addfile(about, io.BytesIO(data))
    return f"{top}.tar.gz"
