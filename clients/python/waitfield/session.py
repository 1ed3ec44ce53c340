"""A session with the program: one method a form, and the answers as values (manual, sections 5 and 6)."""

from __future__ import annotations

import os
import re
from operator import index
from typing import Callable, Iterable, Optional, Sequence, Union

from .answers import Amplitude, Readout
from .circuit import Circuit
from .errors import MEANINGS, Refused
from .gates import Ccz, Cnot, Cz, Gate, Spot, Term, Z, listed_term, listing_place, read_colours
from .program import Program, find_program

# Told after each step of a sum: the slices worked, and all that there are.
Progress = Callable[[int, int], object]

# Into how many steps a sum is cut where somebody is told of its progress.
STEPS_TOLD = 8

_REFUSAL = re.compile(r"\(no ([1-9][0-9]*)\)")
_TOTAL = re.compile(r"\((amp|part|one) (0|-?[1-9][0-9]*) ([1-9][0-9]*)\)")
_LISTING = re.compile(r"\(terms (0|[1-9][0-9]*)\)")


class Session:
    """The program `session`, run for as long as this object is open. Use it in a `with` statement, or close it.

    `program` is its path; without one it is looked for by the variable WAITFIELD_SESSION and then in the repository's
    crates/session/out. `timeout` is in seconds, for each answer; without one an answer is waited for however long it
    takes.

    A line that is refused raises `Refused` and changes nothing; the session goes on. A `SessionError` ends it.
    """

    def __init__(
        self, program: Union[str, "os.PathLike[str]", None] = None, *, timeout: Optional[float] = None
    ) -> None:
        self._program = Program(find_program(program), timeout)
        self._m = 0
        self._sum = ""
        self._left = 0

    def __enter__(self) -> Session:
        return self

    def __exit__(self, *raised: object) -> None:
        self.close()

    def close(self) -> None:
        """Ends the program. Whatever is asked for afterwards raises `ProgramEnded`."""
        self._program.close()

    # The forms, in the order of the manual.

    def circuit(self, m: int) -> None:
        """Begins a new, empty circuit of m positions a colour, started in zeros."""
        self._ok(f"(circuit {index(m)})")
        self._m = index(m)

    def ccz(self, red: int, blue: int, green: int) -> None:
        """Adds a CCZ on a position of each colour."""
        self._ok(str(Ccz(index(red), index(blue), index(green))))

    def cz(self, first: tuple[str, int], second: tuple[str, int]) -> None:
        """Adds a CZ on two positions of different colours."""
        self._ok(str(Cz(_spot(first), _spot(second))))

    def cnot(self, colour: str, control: int, target: int) -> None:
        """Adds a CNOT on two positions of one colour."""
        self._ok(str(Cnot(colour, index(control), index(target))))

    def z(self, spot: tuple[str, int]) -> None:
        """Adds a Z on a position of a colour."""
        self._ok(str(Z(_spot(spot))))

    def layer(self, gates: Iterable[Gate]) -> None:
        """Adds gates that touch no position twice, all of them or, if they are refused, none."""
        self._ok(" ".join(["(layer", *map(str, gates)]) + ")")

    def undo(self, k: int = 1) -> None:
        """Takes back the last k gates."""
        self._ok(f"(undo {index(k)})")

    def start(self, red: str, blue: str, green: str) -> None:
        """Sets the string that the qubits are in before the first layer of Hadamards."""
        self._ok(f"(start {red} {blue} {green})")

    def amp(self, sliced: str, red: str, blue: str, green: str) -> int:
        """Opens the sum for the amplitude of an output string. Gives the number of its slices."""
        return self._open("amp", f"(amp {sliced} {red} {blue} {green})")

    def part(self, unread: str, first: str, second: str) -> int:
        """Opens the sum for a readout with one colour unread. Gives the number of its slices."""
        return self._open("part", f"(part {unread} {first} {second})")

    def one(self, read: str, string: str) -> int:
        """Opens the sum for a readout with one colour read. Gives the number of its slices."""
        return self._open("one", f"(one {read} {string})")

    def step(self, k: int) -> Union[int, Amplitude, Readout]:
        """Works k more slices of the open sum, or all that are left. Gives how many are left, or else the total."""
        line = f"(step {index(k)})"
        (answer,) = self._ask(line)
        left = self._left - index(k)
        if left > 0:
            if answer != f"(left {left})":
                self._program.unexpected(line, answer)
            self._left = left
            return left
        found = _TOTAL.fullmatch(answer)
        exponent = 2 * self._m if self._sum == "one" else 3 * self._m
        if not found or found[1] != self._sum or int(found[3]) != exponent:
            self._program.unexpected(line, answer)
        number = int(found[2])
        if abs(number) > 2**exponent or (number < 0 and self._sum != "amp"):
            self._program.unexpected(line, answer)
        self._sum, self._left = "", 0
        return Amplitude(number, exponent) if found[1] == "amp" else Readout(number, exponent)

    def drop(self) -> None:
        """Abandons the open sum."""
        self._ok("(drop)")
        self._sum, self._left = "", 0

    def terms(self) -> list[Term]:
        """The terms of the phase polynomial, in the order of the manual, section 6.2."""
        line = "(terms)"
        first, *listed = self._ask(line, self._lines_listed)
        if not listed and first != "(terms 0)":
            self._program.unexpected(line, first)
        terms: list[Term] = []
        for spelled in listed:
            term = listed_term(spelled)
            if term is None or any(spot.position > self._m for spot in term.touches):
                self._program.unexpected(line, spelled)
            if terms and listing_place(terms[-1]) >= listing_place(term):
                self._program.unexpected(line, spelled)
            terms.append(term)
        return terms

    # What most users want of them.

    def load(self, circuit: Circuit) -> None:
        """Gives the program a whole circuit, in place of the one it holds: its size, its start and its gates."""
        self.circuit(circuit.m)
        for line in circuit.lines[1:]:
            self._ok(line)

    def amplitude(
        self,
        red: str,
        blue: str,
        green: str,
        *,
        sliced: str = "r",
        steps: Optional[int] = None,
        progress: Optional[Progress] = None,
    ) -> Amplitude:
        """The amplitude of an output string. It is the same whichever colour is sliced.

        The sum is worked in at most `steps` steps, and `progress(worked, all)` is told of the slices after each.
        """
        total = self._worked(self.amp(sliced, red, blue, green), steps, progress)
        assert isinstance(total, Amplitude)
        return total

    def readout(
        self,
        unread: str,
        first: str,
        second: str,
        *,
        steps: Optional[int] = None,
        progress: Optional[Progress] = None,
    ) -> Readout:
        """The probability of reading two strings on the colours other than `unread`, in the order r, b, g."""
        total = self._worked(self.part(unread, first, second), steps, progress)
        assert isinstance(total, Readout)
        return total

    def one_colour(
        self, read: str, string: str, *, steps: Optional[int] = None, progress: Optional[Progress] = None
    ) -> Readout:
        """The probability of reading a string on one colour, where the other two are unread."""
        total = self._worked(self.one(read, string), steps, progress)
        assert isinstance(total, Readout)
        return total

    def ask(
        self,
        strings: Sequence[str],
        *,
        unread: str = "",
        steps: Optional[int] = None,
        progress: Optional[Progress] = None,
    ) -> Union[Amplitude, Readout]:
        """What is known of strings of the colours that are read: an amplitude where all are, else a readout."""
        read = read_colours(unread)
        if len(strings) != len(read):
            raise ValueError(f"{len(strings)} strings, where each of {', '.join(read)} has one")
        if len(read) == 3:
            slices = self.amp("r", *strings)
        elif len(read) == 2:
            slices = self.part(unread, *strings)
        else:
            slices = self.one(read, *strings)
        return self._worked(slices, steps, progress)

    def _worked(
        self, slices: int, steps: Optional[int], progress: Optional[Progress]
    ) -> Union[Amplitude, Readout]:
        """Works the open sum to its end, in steps of one size. If that is interrupted, the sum is dropped."""
        try:
            if steps is None:
                steps = 1 if progress is None else STEPS_TOLD
            if steps < 1:
                raise ValueError(f"a sum is worked in 1 step or more, not in {steps}")
            while True:
                total = self.step(-(-slices // steps))
                if progress is not None:
                    progress(slices - self._left, slices)
                if not isinstance(total, int):
                    return total
        except BaseException:
            if self._left and self._program.runs:
                self.drop()
            raise

    def _open(self, kind: str, line: str) -> int:
        self._expect(line, f"(left {2**self._m})")
        self._sum, self._left = kind, 2**self._m
        return self._left

    def _ok(self, line: str) -> None:
        self._expect(line, "(ok)")

    def _expect(self, line: str, expected: str) -> None:
        (answer,) = self._ask(line)
        if answer != expected:
            self._program.unexpected(line, answer)

    def _ask(self, line: str, later_lines: Callable[[str], int] = lambda first: 0) -> list[str]:
        """The lines of the answer. A refusal is raised."""
        answer = self._program.ask(line, later_lines)
        refusal = _REFUSAL.fullmatch(answer[0])
        if not refusal:
            return answer
        number = int(refusal[1])
        # Refusal 1 has no answer line.
        if number not in MEANINGS or number == 1:
            self._program.unexpected(line, answer[0])
        raise Refused(number, line)

    def _lines_listed(self, first: str) -> int:
        """How many lines follow the first of a listing; none if it cannot be one."""
        found = _LISTING.fullmatch(first)
        most = self._m**3 + 3 * self._m**2 + 3 * self._m
        return int(found[1]) if found and int(found[1]) <= most else 0


def _spot(spot: tuple[str, int]) -> Spot:
    colour, position = spot
    return Spot(colour, index(position))
