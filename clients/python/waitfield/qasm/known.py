"""The gates that are known by name. A definition under such a name is multiplied out: it must be that gate."""

from __future__ import annotations

from dataclasses import dataclass
from typing import Sequence

from .tokens import Place

# The gates that a circuit is made of and how many qubits they have, the target last. OpenQASM 2.0 has `cx` as CX too.
KNOWN = {"h": 1, "x": 1, "z": 1, "cx": 2, "cz": 2, "ccx": 3, "ccz": 3}
SPELLINGS = {"CX": "cx"}

# A known gate with one more control.
CONTROLLED = {"x": "cx", "cx": "ccx", "z": "cz", "cz": "ccz"}

# What the standard libraries define by known gates alone.
LIBRARY = "gate swap a, b { cx a, b; cx b, a; cx a, b; }"
LIBRARY_FILES = ("qelib1.inc", "stdgates.inc")


@dataclass(frozen=True)
class Operation:
    """A known gate, `barrier`, `measure` or `reset` on single qubits."""

    name: str
    qubits: tuple[str, ...]
    place: Place


def _turned(state: list[int], name: str, bits: Sequence[int]) -> list[int]:
    """What a gate makes of a state, a whole number for each basis string; a Hadamard leaves it times root 2."""
    found = [0] * len(state)
    target = 1 << bits[-1]
    for string, number in enumerate(state):
        controlled = all(string >> bit & 1 for bit in bits[:-1])
        if name == "h":
            found[string & ~target] += number
            found[string | target] += -number if string & target else number
        elif name.endswith("z"):
            found[string] += -number if controlled and string & target else number
        else:
            found[string ^ target if controlled else string] += number
    return found


def is_gate(name: str, qubits: Sequence[str], body: Sequence[Operation]) -> bool:
    """Whether these operations on these qubits are the known gate of that name, exactly, on every basis string."""
    bits = {qubit: number for number, qubit in enumerate(qubits)}
    gate = [operation for operation in body if operation.name != "barrier"]
    spare = sum(operation.name == "h" for operation in gate) - (name == "h")
    if spare < 0 or spare % 2:
        return False
    for basis in range(1 << len(qubits)):
        state = [int(string == basis) for string in range(1 << len(qubits))]
        expected = _turned(state, name, list(bits.values()))
        for operation in gate:
            state = _turned(state, operation.name, [bits[qubit] for qubit in operation.qubits])
        if state != [number << spare // 2 for number in expected]:
            return False
    return True
