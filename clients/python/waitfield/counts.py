"""Measured counts beside exact probabilities, and their linear cross-entropy."""

from __future__ import annotations

from dataclasses import dataclass
from fractions import Fraction
from typing import Mapping, Optional

from .circuit import Circuit
from .errors import CountsError
from .json_object import json_object
from .session import Progress, Session


@dataclass(frozen=True)
class Row:
    """A measured string as it was given, how often it was measured, and how likely it is without errors."""

    bits: str
    shots: int
    share: Fraction
    probability: Fraction


@dataclass(frozen=True)
class Comparison:
    """All measured strings, those with most shots first. `qubits` is the number of qubits that were read."""

    rows: tuple[Row, ...]
    qubits: int

    @property
    def shots(self) -> int:
        return sum(row.shots for row in self.rows)

    @property
    def impossible(self) -> int:
        """The shots that showed a string of probability 0."""
        return sum(row.shots for row in self.rows if row.probability == 0)

    @property
    def cross_entropy(self) -> Fraction:
        """The linear cross-entropy: 2^n times the mean, over all shots, of the probability of what they showed, less 1.

        It is 0 on the average for strings drawn with equal chances, and n is the number of qubits read.
        """
        mean = sum((row.share * row.probability for row in self.rows), Fraction(0))
        return mean * (1 << self.qubits) - 1


def compare(
    session: Session,
    circuit: Circuit,
    counts: Mapping[str, int],
    *,
    unread: str = "",
    leftmost: str = "first",
    progress: Optional[Progress] = None,
) -> Comparison:
    """The exact probability of every measured string, by the program.

    The keys of `counts` are strings as `Circuit.strings` takes them. `unread` names the colours that were not read,
    one or two of r, b, g. The circuit is loaded into the session. `progress(done, all)` is called after each string.
    """
    shots = sum(_checked(counts).values())
    strings = _by_colours(circuit, list(counts), unread, leftmost)
    session.load(circuit)
    rows = []
    for number, (bits, string) in enumerate(strings.items(), 1):
        probability = session.ask(string, unread=unread).probability
        rows.append(Row(bits, counts[bits], Fraction(counts[bits], shots), probability))
        if progress is not None:
            progress(number, len(strings))
    rows.sort(key=lambda row: (-row.shots, row.bits))
    return Comparison(tuple(rows), len(circuit.qubits_read(unread)))


def read_counts(text: str) -> dict[str, int]:
    """The counts in a JSON text: an object that has a whole number for each measured string."""
    try:
        found = json_object(text)
    except ValueError as error:
        raise CountsError(f"the counts are not read as a JSON object: {error}") from error
    return _checked(found)


def _checked(counts: Mapping[str, object]) -> dict[str, int]:
    """Counts of which each is a whole number, and not all are 0."""
    found: dict[str, int] = {}
    for bits, shots in counts.items():
        if isinstance(shots, bool) or not isinstance(shots, int) or shots < 0:
            raise CountsError(f"{bits!r} has {shots!r} shots, which is no whole number from 0 on")
        found[bits] = shots
    if not any(found.values()):
        raise CountsError("there are no shots")
    return found


def _by_colours(circuit: Circuit, measured: list[str], unread: str, leftmost: str) -> dict[str, tuple[str, ...]]:
    """The measured strings by their colours. No two say the same."""
    found: dict[str, tuple[str, ...]] = {}
    owners: dict[tuple[str, ...], str] = {}
    for bits in measured:
        strings = circuit.strings(bits, unread=unread, leftmost=leftmost)
        if strings in owners:
            raise CountsError(f"{owners[strings]!r} and {bits!r} are one string")
        owners[strings] = bits
        found[bits] = strings
    return found
