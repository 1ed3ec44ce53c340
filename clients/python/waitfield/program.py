"""The program `session` behind two pipes: a line is sent, its answer is read line by line, and nothing else is read."""

from __future__ import annotations

import math
import os
import select
import signal
import subprocess
import tempfile
import time
import weakref
from pathlib import Path
from typing import IO, Callable, Iterator, NoReturn, Optional, Union

from .errors import NoAnswer, ProgramEnded, SessionError, UnexpectedAnswer, shown

VARIABLE = "WAITFIELD_SESSION"

# An answer line has at most 64 bytes (manual, section 6.3).
LONGEST_ANSWER = 64

# Seconds that a program whose input has ended has to end by itself.
CLOSING_TIME = 2.0


def _repositories() -> Iterator[Path]:
    """The repository that the package stands in, or else the one that the current folder stands in."""
    for folder in [Path(__file__).resolve().parent, Path.cwd()]:
        for above in [folder, *folder.parents]:
            if (above / "crates" / "session").is_dir():
                yield above


def find_program(path: Union[str, "os.PathLike[str]", None] = None) -> str:
    """The program's path: as given, by the variable WAITFIELD_SESSION, or in the repository's crates/session/out."""
    named = path or os.environ.get(VARIABLE)
    if named:
        return os.fspath(named)
    for repository in _repositories():
        program = repository / "crates" / "session" / "out" / "session"
        if program.is_file():
            return str(program)
    raise SessionError(
        f"the program session is not found: give its path, set {VARIABLE}, or build it by 'rt run' in crates/session"
    )


def _started(path: str) -> tuple[subprocess.Popen[bytes], IO[bytes]]:
    """The program at a path, which is not looked for elsewhere, and what it writes to standard error.

    In a session of its own an interrupt from the keyboard reaches Python alone.
    """
    errors = tempfile.TemporaryFile()
    try:
        process = subprocess.Popen(
            [path],
            executable=os.path.abspath(path),
            stdin=subprocess.PIPE,
            stdout=subprocess.PIPE,
            stderr=errors,
            bufsize=0,
            start_new_session=True,
        )
    except BaseException:
        errors.close()
        raise
    return process, errors


def _finish(process: subprocess.Popen[bytes], errors: IO[bytes]) -> None:
    """Ends the input, waits for the program to end, and ends it if it does not."""
    assert process.stdin is not None and process.stdout is not None
    try:
        process.stdin.close()
    except OSError:
        pass
    try:
        process.wait(CLOSING_TIME)
    except subprocess.TimeoutExpired:
        process.kill()
        process.wait()
    process.stdout.close()
    errors.close()


def _told(errors: IO[bytes]) -> str:
    """The last line on the program's standard error, as the end of a sentence."""
    errors.seek(0, os.SEEK_END)
    errors.seek(max(0, errors.tell() - 1000))
    said = [line.strip() for line in errors.read().decode("utf-8", "replace").splitlines() if line.strip()]
    return f", saying: {said[-1]}" if said else ""


def _how_ended(status: int) -> str:
    if status >= 0:
        return f"has ended with status {status}"
    try:
        name = signal.Signals(-status).name
    except ValueError:
        name = f"signal {-status}"
    return f"was ended by {name}"


class Program:
    """The running program. After a line that was not answered as it should be it is ended, so that no answer can be
    taken for that of another line."""

    def __init__(self, path: str, timeout: Optional[float] = None) -> None:
        self.path = path
        self._timeout = timeout
        self._unread = b""
        self._over: Optional[str] = None
        try:
            self._process, self._errors = _started(path)
        except OSError as error:
            raise SessionError(f"{path} cannot be run: {error.strerror}") from error
        assert self._process.stdout is not None
        self._output = select.poll()
        self._output.register(self._process.stdout, select.POLLIN)
        self._close = weakref.finalize(self, _finish, self._process, self._errors)

    def close(self) -> None:
        """Ends the program. May be called again."""
        self._over = self._over or "the session is closed"
        self._close()

    @property
    def runs(self) -> bool:
        return self._over is None

    def ask(self, line: str, later_lines: Callable[[str], int] = lambda first: 0) -> list[str]:
        """Gives the program one line and waits for its answer. `later_lines` tells how many lines follow the first."""
        if self._over:
            raise ProgramEnded(self._over)
        if not line or "\n" in line:
            raise ValueError("one line that is not empty can be given, and its answer awaited")
        sent = line.encode() + b"\n"
        try:
            if self._unread or self._speaks(0):
                self._more_than_asked(line)
            self._send(sent, line)
            answer = [self._next_line(line)]
            for _ in range(later_lines(answer[0])):
                answer.append(self._next_line(line))
            return answer
        except SessionError:
            raise
        except BaseException:
            self.abandon(f"the program was ended, since the answer to {shown(line)} was not waited for")
            raise

    def abandon(self, reason: str) -> None:
        """Ends the program at once. From now on the reason is what every call is told."""
        self._over = reason
        self._process.kill()
        self._close()

    def unexpected(self, line: str, answer: str) -> NoReturn:
        """For an answer that the line cannot have."""
        self.abandon(f"the program was ended, since it answered {shown(line)} by {answer!r}")
        raise UnexpectedAnswer(f"{self.path} answers {shown(line)} by {answer!r}, which is no answer to it")

    def _send(self, sent: bytes, line: str) -> None:
        assert self._process.stdin is not None
        rest = memoryview(sent)
        try:
            while rest:
                rest = rest[self._process.stdin.write(rest) or 0 :]
        except BrokenPipeError:
            self._ended(line, "takes no more lines")

    def _next_line(self, line: str) -> str:
        until = None if self._timeout is None else time.monotonic() + self._timeout
        while b"\n" not in self._unread:
            if len(self._unread) > LONGEST_ANSWER:
                self.unexpected(line, self._unread[:LONGEST_ANSWER].decode("ascii", "backslashreplace") + "..")
            if not self._speaks(None if until is None else max(0.0, until - time.monotonic())):
                self._late(line)
            came = self._receive()
            if not came:
                self._ended(line)
            self._unread += came
        answer, _, self._unread = self._unread.partition(b"\n")
        text = answer.decode("ascii", "backslashreplace")
        if len(answer) > LONGEST_ANSWER:
            self.unexpected(line, text[:LONGEST_ANSWER] + "..")
        return text

    def _speaks(self, seconds: Optional[float]) -> bool:
        """Whether the program writes, or ends its output, within that time."""
        return bool(self._output.poll(None if seconds is None else math.ceil(1000 * seconds)))

    def _receive(self) -> bytes:
        assert self._process.stdout is not None
        return os.read(self._process.stdout.fileno(), 65536)

    def _more_than_asked(self, line: str) -> NoReturn:
        """For output, or its end, that came with no line to be answered."""
        came = self._unread or self._receive()
        if not came:
            self._ended(line)
        text = came[:LONGEST_ANSWER].decode("ascii", "backslashreplace")
        self.abandon(f"the program was ended, since it said {text!r} unasked")
        raise UnexpectedAnswer(f"{self.path} says {text!r}, and nothing was asked")

    def _late(self, line: str) -> NoReturn:
        self.abandon(f"the program was ended, since it did not answer {shown(line)} in time")
        raise NoAnswer(f"{self.path} has not answered {shown(line)} in {self._timeout:g} seconds")

    def _ended(self, line: str, how: str = "has closed its output") -> NoReturn:
        """For a program that closed a pipe, most often by ending."""
        try:
            how = _how_ended(self._process.wait(CLOSING_TIME))
        except subprocess.TimeoutExpired:
            pass
        reason = f"{self.path} {how} before it answered {shown(line)}{_told(self._errors)}"
        self.abandon(reason)
        raise ProgramEnded(reason)
