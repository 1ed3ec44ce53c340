"""What is installed: the wheel and its digests, an installation by pip, the source archive, and the source itself."""

from __future__ import annotations

import ast
import base64
import csv
import hashlib
import importlib
import importlib.util
import inspect
import os
import pkgutil
import shutil
import subprocess
import sys
import tarfile
import tempfile
import typing
import unittest
import zipfile
from email.parser import Parser
from pathlib import Path
from types import FunctionType, ModuleType
from typing import Iterator
from unittest import mock

import waitfield
from waitfield.program import find_program

# The folder of the package.
CLIENT = Path(__file__).resolve().parent.parent

NAME = f"waitfield-{waitfield.__version__}"
INFO = f"{NAME}.dist-info"

# All of Python's library that the package and its building may need.
ALLOWED = frozenset(
    """__future__ argparse base64 dataclasses decimal fractions hashlib io json math operator os pathlib re select
    signal subprocess sys tarfile tempfile time types typing weakref zipfile""".split()
)

# A folder of its own, in which nothing of the repository is written to.
COPIED = shutil.ignore_patterns("__pycache__", ".mypy_cache", "tests")


def sources(*folders: str) -> list[Path]:
    """The Python files of these folders."""
    return [file for folder in folders for file in sorted((CLIENT / folder).rglob("*.py"))]


def package_files() -> dict[str, bytes]:
    """The files of the package by the names that they have in a wheel."""
    files = [file for file in (CLIENT / "waitfield").rglob("*") if file.is_file() and file.suffix != ".pyc"]
    return {file.relative_to(CLIENT).as_posix(): file.read_bytes() for file in files}


def backend(folder: Path) -> ModuleType:
    """What builds the package of a folder."""
    spec = importlib.util.spec_from_file_location("wheels", folder / "packaging" / "wheels.py")
    assert spec is not None and spec.loader is not None
    module = importlib.util.module_from_spec(spec)
    with mock.patch.object(sys, "dont_write_bytecode", True):
        spec.loader.exec_module(module)
    return module


def contents(wheel: Path) -> dict[str, bytes]:
    """The files of a wheel."""
    with zipfile.ZipFile(wheel) as archive:
        return {name: archive.read(name) for name in archive.namelist()}


class FolderCase(unittest.TestCase):
    """A test with a folder that is removed afterwards."""

    def setUp(self) -> None:
        folder = tempfile.TemporaryDirectory()
        self.addCleanup(folder.cleanup)
        self.folder = Path(folder.name)


class WheelTest(FolderCase):
    """A wheel holds the package and what says so."""

    def setUp(self) -> None:
        super().setUp()
        self.name = backend(CLIENT).build_wheel(str(self.folder))
        self.contents = contents(self.folder / self.name)

    def test_its_name_says_that_any_python_3_can_take_it(self) -> None:
        self.assertEqual(self.name, f"{NAME}-py3-none-any.whl")
        self.assertEqual([file.name for file in self.folder.iterdir()], [self.name])

    def test_it_holds_the_files_of_the_package_and_three_about_it(self) -> None:
        about = {f"{INFO}/{name}" for name in ("METADATA", "WHEEL", "RECORD")}
        self.assertEqual(set(self.contents), set(package_files()) | about)

    def test_the_files_are_those_of_the_package(self) -> None:
        self.assertEqual({name: self.contents[name] for name in package_files()}, package_files())

    def test_the_record_has_every_file_with_its_digest_and_length(self) -> None:
        rows = list(csv.reader(self.contents[f"{INFO}/RECORD"].decode().splitlines()))
        expected = [[f"{INFO}/RECORD", "", ""]]
        for name, data in self.contents.items():
            if name != f"{INFO}/RECORD":
                digest = base64.urlsafe_b64encode(hashlib.sha256(data).digest()).decode().rstrip("=")
                expected.append([name, f"sha256={digest}", str(len(data))])
        self.assertEqual(sorted(rows), sorted(expected))

    def test_the_metadata_say_what_it_is(self) -> None:
        metadata = Parser().parsestr(self.contents[f"{INFO}/METADATA"].decode())
        self.assertEqual(metadata["Name"], "waitfield")
        self.assertEqual(metadata["Version"], waitfield.__version__)
        self.assertEqual(metadata["Requires-Python"], ">=3.9")
        self.assertIsNone(metadata["Requires-Dist"])
        self.assertEqual(metadata.get_payload(), (CLIENT / "README.md").read_text("utf-8"))

    def test_it_is_plain_python(self) -> None:
        wheel = Parser().parsestr(self.contents[f"{INFO}/WHEEL"].decode())
        found = (wheel["Wheel-Version"], wheel["Root-Is-Purelib"], wheel["Tag"])
        self.assertEqual(found, ("1.0", "true", "py3-none-any"))

    def test_an_editable_one_points_at_the_folder(self) -> None:
        name = backend(CLIENT).build_editable(str(self.folder))
        found = contents(self.folder / name)
        self.assertEqual(set(found), {"waitfield.pth"} | {f"{INFO}/{name}" for name in ("METADATA", "WHEEL", "RECORD")})
        self.assertEqual(found["waitfield.pth"].decode(), f"{CLIENT}\n")


class SourceArchiveTest(FolderCase):
    """The sources, from which the same wheel is built."""

    def setUp(self) -> None:
        super().setUp()
        self.name = backend(CLIENT).build_sdist(str(self.folder))
        with tarfile.open(self.folder / self.name) as archive:
            for member in archive:
                found = archive.extractfile(member)
                assert found is not None
                file = self.folder / member.name
                file.parent.mkdir(parents=True, exist_ok=True)
                file.write_bytes(found.read())

    def test_everything_is_in_one_folder(self) -> None:
        self.assertEqual(self.name, f"{NAME}.tar.gz")
        self.assertEqual({file.name for file in self.folder.iterdir()}, {self.name, NAME})
        top = {file.name for file in (self.folder / NAME).iterdir()}
        self.assertLessEqual({"PKG-INFO", "pyproject.toml", "README.md", "packaging", "tests", "waitfield"}, top)

    def test_it_holds_nothing_that_python_left(self) -> None:
        left = [file for file in self.folder.rglob("*") if file.suffix == ".pyc" or "_cache" in file.name]
        self.assertEqual(left, [])

    def test_it_has_the_metadata_of_the_wheel(self) -> None:
        wheel = contents(self.folder / backend(CLIENT).build_wheel(str(self.folder)))
        self.assertEqual((self.folder / NAME / "PKG-INFO").read_bytes(), wheel[f"{INFO}/METADATA"])

    def test_it_builds_the_same_wheel(self) -> None:
        (self.folder / "first").mkdir()
        (self.folder / "again").mkdir()
        first = backend(CLIENT).build_wheel(str(self.folder / "first"))
        again = backend(self.folder / NAME).build_wheel(str(self.folder / "again"))
        self.assertEqual(again, first)
        self.assertEqual(contents(self.folder / "again" / again), contents(self.folder / "first" / first))


class InstallationTest(FolderCase):
    """pip installs the package without a network, and it runs from another folder."""

    def run_python(self, *arguments: str, folder: Path, **variables: str) -> str:
        """What Python prints, run in a folder with these variables. It must end with status 0."""
        kept = {name: value for name, value in os.environ.items() if not name.startswith("PYTHON")}
        ran = subprocess.run(
            [sys.executable, *arguments],
            stdout=subprocess.PIPE,
            stderr=subprocess.PIPE,
            cwd=folder,
            env={**kept, **variables},
            timeout=120,
            check=False,
        )
        self.assertEqual((ran.returncode, ran.stderr.decode()), (0, ""))
        return ran.stdout.decode()

    def test_it_is_installed_and_runs(self) -> None:
        installed, elsewhere = self.folder / "installed", self.folder / "elsewhere"
        elsewhere.mkdir()
        copy = shutil.copytree(CLIENT, self.folder / "client", ignore=COPIED)
        options = ["--quiet", "--no-index", "--no-deps", "--no-cache-dir", "--no-compile", "--target", str(installed)]
        quiet = {"PIP_DISABLE_PIP_VERSION_CHECK": "1", "PIP_ROOT_USER_ACTION": "ignore", "PIP_CONFIG_FILE": os.devnull}
        self.run_python("-m", "pip", "install", *options, ".", folder=copy, **quiet)

        found = {name: (installed / name).read_bytes() for name in package_files()}
        self.assertEqual(found, package_files())

        path = {"PYTHONPATH": str(installed), "WAITFIELD_SESSION": find_program()}
        version = self.run_python("-m", "waitfield", "--version", folder=elsewhere, **path)
        self.assertEqual(version, f"waitfield {waitfield.__version__}\n")
        script = "from waitfield import *; s = Session(); s.circuit(1); s.z(('r', 1)); print(s.ask('100').fraction)"
        self.assertEqual(self.run_python("-c", script, folder=elsewhere, **path), "1\n")


class SourceTest(unittest.TestCase):
    """The source is Python 3.9, of Python's own library alone."""

    def test_every_file_is_python_3_9(self) -> None:
        for file in sources("waitfield", "packaging", "tests"):
            with self.subTest(file=file.name):
                ast.parse(file.read_text("utf-8"), str(file), feature_version=(3, 9))

    def test_nothing_outside_the_standard_library_is_imported(self) -> None:
        for file in sources("waitfield", "packaging"):
            with self.subTest(file=file.name):
                self.assertLessEqual(imported(ast.parse(file.read_text("utf-8"))), ALLOWED)

    def test_every_import_stands_at_the_top_of_its_file(self) -> None:
        """So that the test above, and whoever reads a file, sees them all."""
        for file in sources("waitfield", "packaging"):
            with self.subTest(file=file.name):
                tree = ast.parse(file.read_text("utf-8"))
                top = [node for node in tree.body if isinstance(node, (ast.Import, ast.ImportFrom))]
                every = [node for node in ast.walk(tree) if isinstance(node, (ast.Import, ast.ImportFrom))]
                self.assertEqual(len(every), len(top))


def imported(tree: ast.Module) -> set[str]:
    """The modules that a file imports, by their first names, other than those of its own package."""
    found: set[str] = set()
    for node in ast.walk(tree):
        if isinstance(node, ast.Import):
            found.update(alias.name.partition(".")[0] for alias in node.names)
        if isinstance(node, ast.ImportFrom) and node.level == 0 and node.module is not None:
            found.add(node.module.partition(".")[0])
    return found


class PublicTest(unittest.TestCase):
    """The names that a user has, and their types."""

    def test_every_name_that_is_said_to_be_public_is_there(self) -> None:
        self.assertEqual([name for name in waitfield.__all__ if not hasattr(waitfield, name)], [])

    def test_no_name_is_said_twice(self) -> None:
        self.assertEqual(waitfield.__all__, sorted(set(waitfield.__all__)))

    def test_every_error_is_public_and_one_of_the_package(self) -> None:
        errors = [value for value in vars(waitfield.errors).values() if inspect.isclass(value)]
        self.assertEqual([error for error in errors if not issubclass(error, waitfield.WaitfieldError)], [])
        self.assertLessEqual({error.__name__ for error in errors}, set(waitfield.__all__))

    def test_the_package_says_that_it_is_typed(self) -> None:
        self.assertTrue((CLIENT / "waitfield" / "py.typed").is_file())

    def test_every_public_function_has_types(self) -> None:
        found = dict(public_functions())
        self.assertGreater(len(found), 60)
        for name, function in found.items():
            with self.subTest(function=name):
                parameters = [p for p in inspect.signature(function).parameters if p not in ("self", "cls")]
                self.assertEqual(set(typing.get_type_hints(function)), {*parameters, "return"})


def public_functions() -> Iterator[tuple[str, FunctionType]]:
    """The functions and methods of all modules, by their full names, without those whose names begin with _."""
    for about in pkgutil.walk_packages(waitfield.__path__, "waitfield."):
        if about.name == "waitfield.__main__":
            continue
        module = importlib.import_module(about.name)
        for value in vars(module).values():
            if getattr(value, "__module__", None) != module.__name__ or value.__name__.startswith("_"):
                continue
            if isinstance(value, FunctionType):
                yield f"{module.__name__}.{value.__qualname__}", value
            elif inspect.isclass(value):
                for method in methods(value):
                    yield f"{module.__name__}.{method.__qualname__}", method


def methods(kind: type) -> Iterator[FunctionType]:
    """The public methods and properties that a class itself has, and how it is made, entered, left and called."""
    for name, value in vars(kind).items():
        function = getattr(value, "fget", None) or getattr(value, "__func__", None) or value
        written = name in ("__init__", "__enter__", "__exit__", "__call__", "__str__")
        if isinstance(function, FunctionType) and (written or not name.startswith("_")):
            yield function


if __name__ == "__main__":
    unittest.main()
