"""The examples of the documents: Python as it is typed, and commands with what they print."""

from __future__ import annotations

import doctest
import os
import subprocess
import sys
import tempfile
import unittest
from pathlib import Path
from typing import Iterator

FOLDER = Path(__file__).resolve().parent.parent
REPOSITORY = FOLDER.parent.parent

README = FOLDER / "README.md"
MANUAL = REPOSITORY / "docs" / "MANUAL.md"

INDENT = "    "


def blocks(text: str) -> Iterator[list[str]]:
    """The indented blocks of a document. An empty line inside belongs to the block if an indented one follows."""
    block: list[str] = []
    for line in [*text.splitlines(), "end"]:
        if line.startswith(INDENT):
            block.append(line[len(INDENT) :])
        elif line == "" and block:
            block.append("")
        elif block:
            while block[-1] == "":
                block.pop()
            yield block
            block = []


def commands(text: str) -> list[tuple[str, str]]:
    """The commands of a document, each with what it prints. A line that ends in a backslash goes on in the next."""
    found: list[tuple[str, str]] = []
    for block in blocks(text):
        if not block[0].startswith("$ "):
            continue
        goes_on = False
        for line in block:
            if line.startswith("$ ") or goes_on:
                command = found.pop()[0] + "\n" + line if goes_on else line[2:]
                found.append((command, ""))
                goes_on = line.endswith("\\")
            else:
                command, printed = found.pop()
                found.append((command, f"{printed}{line}\n"))
    return found


class Documents(unittest.TestCase):
    maxDiff = None

    def run_commands(self, document: Path, least: int) -> None:
        """Runs the commands in the top folder of the repository, by the Python that runs the tests."""
        found = commands(document.read_text("utf-8"))
        self.assertGreaterEqual(len(found), least)
        with tempfile.TemporaryDirectory() as folder:
            os.symlink(sys.executable, os.path.join(folder, "python3"))
            path = os.pathsep.join([folder, os.environ.get("PATH", "")])
            environment = {**os.environ, "PATH": path, "PYTHONPATH": str(FOLDER), "PYTHONDONTWRITEBYTECODE": "1"}
            for command, printed in found:
                with self.subTest(command=command):
                    ran = subprocess.run(
                        ["sh", "-c", command],
                        cwd=REPOSITORY,
                        env=environment,
                        stdin=subprocess.DEVNULL,
                        stdout=subprocess.PIPE,
                        stderr=subprocess.STDOUT,
                        check=False,
                    )
                    self.assertEqual(ran.stdout.decode(), printed)

    def run_python(self, document: Path, least: int) -> None:
        """Types the Python of a document, all in one namespace, in the top folder of the repository."""
        test = doctest.DocTestParser().get_doctest(document.read_text("utf-8"), {}, document.name, document.name, 0)
        self.assertGreaterEqual(len(test.examples), least)
        said: list[str] = []
        here = os.getcwd()
        os.chdir(REPOSITORY)
        try:
            doctest.DocTestRunner(verbose=False).run(test, out=said.append)
        finally:
            os.chdir(here)
        self.assertEqual("".join(said), "")

    def test_the_commands_of_the_readme_print_what_it_says(self) -> None:
        self.run_commands(README, least=6)

    def test_the_python_of_the_readme_gives_what_it_says(self) -> None:
        self.run_python(README, least=30)

    def test_the_commands_of_the_manual_print_what_it_says(self) -> None:
        self.run_commands(MANUAL, least=3)

    def test_the_python_of_the_manual_gives_what_it_says(self) -> None:
        self.run_python(MANUAL, least=3)


if __name__ == "__main__":
    unittest.main()
