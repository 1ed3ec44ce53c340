"""What the package raises. The text of each error is one line."""

from __future__ import annotations

# The refusals of the manual, section 7.
MEANINGS = {
    1: "the answer buffer is shorter than 64 bytes",
    2: "the line is longer than 1,024 bytes",
    3: "the line holds a byte other than digits, a to z, brackets and space",
    4: "the line is none of the forms",
    5: "a cz has one colour twice",
    6: "there is no circuit yet",
    7: "a sum is open",
    8: "no sum is open",
    9: "a number is out of its range",
    10: "a cnot has its control as its target",
    11: "a bit string does not have as many digits as a colour has positions",
    12: "more gates are to be taken back than are held",
    13: "the history has fewer free places than the line has gates",
    14: "a layer touches a position of a colour twice",
}


# Characters of a line that an error shows.
LONGEST_SHOWN = 120


def shown(line: str) -> str:
    """A line as errors show it."""
    return line if len(line) <= LONGEST_SHOWN else f"{line[:LONGEST_SHOWN]}.."


class WaitfieldError(Exception):
    """Any error of this package."""


class Refused(WaitfieldError):
    """The program has refused a line, and nothing has changed."""

    def __init__(self, number: int, line: str) -> None:
        self.number = number
        self.line = line
        self.meaning = MEANINGS[number]
        super().__init__(number, line)

    def __str__(self) -> str:
        return f"{shown(self.line)} is refused by {self.number}: {self.meaning}"


class SessionError(WaitfieldError):
    """The program cannot be run, has ended, or is not to be trusted any more. The session is over."""


class ProgramEnded(SessionError):
    """The program has ended, or was ended, and no line can be given to it."""


class NoAnswer(SessionError):
    """No answer came within the time that was set."""


class UnexpectedAnswer(SessionError):
    """The program has said what the line cannot be answered with."""


class QasmError(WaitfieldError):
    """A circuit file that cannot be read, or that says what a three-colour circuit cannot."""

    def __init__(self, file: str, line: int, reason: str) -> None:
        self.file = file
        self.line = line
        self.reason = reason
        super().__init__(file, line, reason)

    def __str__(self) -> str:
        return f"{self.file}:{self.line}: {self.reason}"


class ColoursError(WaitfieldError):
    """A mapping of qubits to colours and positions that does not fit the circuit."""


class StringError(WaitfieldError):
    """A measured or asked bit string that does not fit the circuit."""


class CountsError(WaitfieldError):
    """Counts that are no counts of bit strings."""
