"""Fake programs: small scripts that take lines and give answers as the program `session` does, until they do not."""

from __future__ import annotations

import os
import sys
import tempfile
import time
import unittest
from pathlib import Path
from typing import Callable, Optional, Type

from waitfield import Session, WaitfieldError

# What every fake begins with. It leaves its process id, and each line that it hears, in files beside it.
_PRELUDE = r"""
import os, select, signal, sys, time

def note(ending, data):
    with open(sys.argv[0] + ending, "ab") as file:
        file.write(data)

def hear():
    '''Takes a line. At the end of the input the program ends.'''
    line = sys.stdin.buffer.readline()
    if not line:
        sys.exit(0)
    note(".heard", line)

def say(data):
    '''Writes bytes, or a text with a line feed behind it, at once.'''
    os.write(1, data if isinstance(data, bytes) else data.encode() + b"\n")

note(".pid", str(os.getpid()).encode())
"""

# What a fake does behind its prepared answers. None of these answers another line.
SILENT = "while True: hear()"
ENDS = "hear()"


def exits(status: int) -> str:
    return f"hear(); sys.exit({status})"


def killed(signal_number: int) -> str:
    return f"hear(); os.kill(os.getpid(), {int(signal_number)})"


def complains(data: bytes, status: int = 1) -> str:
    return f"hear(); os.write(2, {data!r}); sys.exit({status})"


def answers(*prepared: str, then: str = SILENT) -> str:
    """Answers each line by the next prepared answer, whatever the line is."""
    return f"for answer in {list(prepared)!r}:\n    hear()\n    say(answer)\n{then}"


def answers_late(seconds: float, *prepared: str) -> str:
    """Waits before each answer."""
    return f"for answer in {list(prepared)!r}:\n    hear()\n    time.sleep({seconds})\n    say(answer)\n{SILENT}"


def answers_in_pieces(seconds: float, *pieces: bytes) -> str:
    """Answers one line piece by piece, with a pause before each further piece."""
    return f"hear()\nfor piece in {list(pieces)!r}:\n    say(piece)\n    time.sleep({seconds})\n{SILENT}"


def answers_bytes(data: bytes) -> str:
    """Answers one line by these bytes."""
    return f"hear()\nsay({data!r})\n{SILENT}"


def never_ends(answer: str) -> str:
    """Answers one line, and goes on when its input has ended."""
    return f"hear()\nsay({answer!r})\nwhile True: time.sleep(60)"


ENDLESS = "hear()\nwhile True: say(b'a' * 4096)"
CLOSES_ITS_OUTPUT = "hear()\nsay('(ok)')\nhear()\nos.close(1)\nwhile True: hear()"
CLOSES_ITS_INPUT = "hear()\nos.close(0)\nsay('(ok)')\ntime.sleep(60)"
SPEAKS_FIRST = f"say('(ok)')\nnote('.spoke', b'yes')\n{SILENT}"

# Whoever runs such a fake is interrupted, as from the keyboard: while it waits for the answer, or while it sends a line
# of more bytes than a pipe holds.
INTERRUPTS = f"hear()\ntime.sleep(0.05)\nos.kill(os.getppid(), signal.SIGINT)\n{SILENT}"
INTERRUPTS_A_LONG_LINE = "os.read(0, 1)\ntime.sleep(0.05)\nos.kill(os.getppid(), signal.SIGINT)\ntime.sleep(60)"

# Ends at the end of its input, and where more than one line has come or comes before the answer is given.
ANSWERS_ONE_LINE_AT_A_TIME = r"""
while True:
    came = os.read(0, 65536)
    if came.count(b"\n") != 1 or select.select([0], [], [], 0.0005)[0]:
        sys.exit(0)
    note(".heard", came)
    say("(ok)")
"""


def fake(folder: Path, body: str) -> str:
    """Writes a fake into a folder and gives its path."""
    handle, path = tempfile.mkstemp(prefix="fake-", dir=folder)
    with open(handle, "w", encoding="utf-8") as file:
        file.write(f"#!{sys.executable} -IS\n{_PRELUDE}\n{body}\n")
    os.chmod(path, 0o700)
    return path


def heard(program: str) -> list[str]:
    """The lines that a fake has heard."""
    file = Path(program + ".heard")
    return file.read_text("utf-8").splitlines() if file.exists() else []


def process_of(program: str) -> int:
    """The process id of a fake, once it has left it."""
    return int(awaited(Path(program + ".pid")))


def is_gone(program: str) -> bool:
    """Whether a fake's process has ended and has been waited for."""
    try:
        os.kill(process_of(program), 0)
    except ProcessLookupError:
        return True
    return False


def awaited(file: Path) -> str:
    """The text of a file, waited for until it is there."""
    until = time.monotonic() + 30
    while time.monotonic() < until:
        if file.exists() and file.stat().st_size:
            return file.read_text("utf-8")
        time.sleep(0.002)
    raise TimeoutError(f"{file} is not written")


class FakeCase(unittest.TestCase):
    """A test with fakes, in a folder that is removed afterwards. `program` is the path of the last fake."""

    program: str

    def setUp(self) -> None:
        folder = tempfile.TemporaryDirectory()
        self.addCleanup(folder.cleanup)
        self.folder = Path(folder.name)

    def session(self, body: str, timeout: Optional[float] = None) -> Session:
        """A session with a fake, closed after the test."""
        self.program = fake(self.folder, body)
        session = Session(self.program, timeout=timeout)
        self.addCleanup(session.close)
        return session

    def assert_fails(self, kind: Type[WaitfieldError], text: str, ask: Callable[[], object]) -> None:
        """Asking raises this error with this text."""
        with self.assertRaises(kind) as raised:
            ask()
        self.assertEqual((type(raised.exception), str(raised.exception)), (kind, text))
