"""The reference of the tests: a state vector of whole numbers. It shares nothing with the package."""

from __future__ import annotations

from fractions import Fraction
from typing import Iterable, Mapping, Sequence, Tuple

# A gate's name and its qubits, the target last.
Operation = Tuple[str, Tuple[str, ...]]


class StateVector:
    """The state of named qubits, which are all in 0 at first.

    A Hadamard leaves the state times root 2, so that all entries stay whole. How many there were is counted.
    """

    def __init__(self, qubits: Sequence[str]) -> None:
        self._bits = {qubit: 1 << number for number, qubit in enumerate(qubits)}
        self._entries = [1] + [0] * (2 ** len(qubits) - 1)
        self._hadamards = 0

    def apply(self, operations: Iterable[Operation]) -> None:
        """Applies the gates one after the other: h, x, cx, ccx, z, cz and ccz."""
        for name, qubits in operations:
            *controls, target = [self._bits[qubit] for qubit in qubits]
            if name == "h":
                self._hadamard(target)
            elif name in ("x", "cx", "ccx"):
                self._turn_bit(sum(controls), target)
            elif name in ("z", "cz", "ccz"):
                self._turn_sign(sum(controls) + target)
            else:
                raise ValueError(f"{name} is no gate")

    def amplitude(self, digits: Mapping[str, str]) -> Fraction:
        """The amplitude of the string that has these digits, one for every qubit."""
        if len(digits) != len(self._bits) or self._hadamards % 2:
            raise ValueError("an amplitude is a fraction behind an even number of Hadamards, of a whole string")
        return Fraction(self._entries[self._ones(digits)], 2 ** (self._hadamards // 2))

    def probability(self, digits: Mapping[str, str]) -> Fraction:
        """The probability of reading these digits. The qubits without a digit are not read."""
        read, ones = sum(self._bits[qubit] for qubit in digits), self._ones(digits)
        squares = [entry**2 for string, entry in enumerate(self._entries) if string & read == ones]
        return Fraction(sum(squares), 2**self._hadamards)

    def _ones(self, digits: Mapping[str, str]) -> int:
        return sum(self._bits[qubit] for qubit, digit in digits.items() if digit == "1")

    def _hadamard(self, target: int) -> None:
        entries = self._entries
        for string in range(len(entries)):
            if not string & target:
                zero, one = entries[string], entries[string | target]
                entries[string], entries[string | target] = zero + one, zero - one
        self._hadamards += 1

    def _turn_bit(self, controls: int, target: int) -> None:
        entries = self._entries
        for string in range(len(entries)):
            if string & (controls | target) == controls:
                entries[string], entries[string | target] = entries[string | target], entries[string]

    def _turn_sign(self, ones: int) -> None:
        for string in range(len(self._entries)):
            if string & ones == ones:
                self._entries[string] *= -1
