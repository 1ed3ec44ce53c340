"""The circuit class: Hadamards on every qubit, gates, Hadamards on every qubit, measurements.

A wire is what happens to one qubit, in order. What the first and the last Hadamard of a wire are follows from the wire
alone, and so does which Hadamards between them come in pairs around a `cx` or `ccx` that they make a `cz` or `ccz`:
operations on other qubits may stand anywhere in between.
"""

from __future__ import annotations

from dataclasses import dataclass
from typing import Mapping, Optional

from ..circuit import Circuit
from ..errors import QasmError
from ..gates import COLOUR_NAMES, COLOURS, MOST_GATES, Ccz, Cnot, Cz, Gate, Spot, Z
from .known import Operation
from .operations import Program

# What a gate on a target is between two Hadamards on this target.
_BETWEEN_HADAMARDS = {"x": "z", "cx": "cz", "ccx": "ccz"}


class _Fault(Exception):
    """Something that the circuit class cannot say, at the operation of that number."""

    def __init__(self, number: int, error: QasmError) -> None:
        super().__init__(str(error))
        self.number = number
        self.error = error


@dataclass(frozen=True)
class _Step:
    """An operation on a wire, and its number in the program."""

    number: int
    operation: Operation

    @property
    def name(self) -> str:
        return self.operation.name

    def is_on_target(self, qubit: str) -> bool:
        return self.name in _BETWEEN_HADAMARDS and self.operation.qubits[-1] == qubit

    def fault(self, reason: str) -> _Fault:
        return _Fault(self.number, self.operation.place.error(reason))


def circuit_of(program: Program, spots: Mapping[str, Spot]) -> Circuit:
    """The circuit that a program says, its qubits being at these spots. Of all faults the first one is raised."""
    faults: list[_Fault] = []
    ones, between = _wires(program, faults)
    gates: list[Gate] = []
    barriers = set()
    for number, operation in enumerate(program.operations):
        if operation.name == "barrier":
            barriers.add(len(gates))
        try:
            gate = _gate(operation, number in between, spots)
        except QasmError as error:
            faults.append(_Fault(number, error))
            continue
        if gate is not None:
            gates.append(gate)
        if len(gates) == MOST_GATES + 1:
            faults.append(_Fault(number, operation.place.error(f"more than {MOST_GATES} gates")))
    if faults:
        raise min(faults, key=lambda fault: fault.number).error
    m = max(spot.position for spot in spots.values())
    started = {spots[qubit] for qubit in ones}
    red, blue, green = ("".join(str(int(Spot(c, p) in started)) for p in range(1, m + 1)) for c in COLOURS)
    digits = [None if qubit is None else spots[qubit] for qubit in program.bits.values()]
    if not any(digits):
        digits = list(spots.values())
    return Circuit(m, tuple(gates), (red, blue, green), spots, tuple(digits), frozenset(barriers))


def _wires(program: Program, faults: list[_Fault]) -> tuple[set[str], set[int]]:
    """The qubits that start in 1, and the numbers of the gates that stand between two Hadamards on their target."""
    steps: dict[str, list[_Step]] = {qubit: [] for qubit in program.qubits}
    for number, operation in enumerate(program.operations):
        if operation.name != "barrier":
            for qubit in operation.qubits:
                steps[qubit].append(_Step(number, operation))
    ones: set[str] = set()
    between: set[int] = set()
    for qubit, declared in program.qubits.items():
        try:
            if not steps[qubit]:
                error = declared.place.error(f"{qubit} has no Hadamard, and the first layer has one on every qubit")
                raise _Fault(len(program.operations), error)
            start, rest = _after_first(qubit, steps[qubit])
            if start:
                ones.add(qubit)
            _to_the_end(qubit, rest, steps[qubit][-1], between)
        except _Fault as fault:
            faults.append(fault)
    return ones, between


def _after_first(qubit: str, steps: list[_Step]) -> tuple[int, list[_Step]]:
    """The bit that a wire starts in, and what follows its first Hadamard."""
    rest = steps[1:] if steps[0].name == "reset" else steps
    ones = 0
    while ones < len(rest) and rest[ones].name == "x":
        ones += 1
    if ones == len(rest):
        raise steps[-1].fault(f"{qubit} has no Hadamard, and the first layer has one on every qubit")
    if rest[ones].name != "h":
        raise rest[ones].fault(f"{rest[ones].name} on {qubit}, which has no Hadamard of the first layer yet")
    return ones % 2, rest[ones + 1 :]


def _to_the_end(qubit: str, rest: list[_Step], last: _Step, between: set[int]) -> None:
    """Goes through a wire behind its first Hadamard: gates, a last Hadamard, and perhaps a measurement."""
    names = [step.name for step in rest]
    measured = names.index("measure") if "measure" in names else len(rest)
    gates = rest[:measured]
    closed = bool(gates) and gates[-1].name == "h"
    unpaired = _between(qubit, gates[:-1] if closed else gates, between)
    if not closed:
        noticed = rest[measured] if measured < len(rest) else last
        raise noticed.fault(f"{qubit} has no Hadamard of the last layer behind its gates")
    if unpaired is not None:
        raise unpaired.fault(f"a Hadamard on {qubit} between the layers, and no other closes a cz or ccz with it")
    if measured + 1 < len(rest):
        behind = rest[measured + 1]
        raise behind.fault(f"{behind.name} on {qubit} behind its measurement")


def _between(qubit: str, steps: list[_Step], between: set[int]) -> Optional[_Step]:
    """Adds the numbers of the gates that stand between pairs of Hadamards on their target, which is this wire.

    Gives the first Hadamard that is in no pair, if there is one.
    """
    opened: Optional[_Step] = None
    inside: list[int] = []
    for step in steps:
        if step.name == "h" and opened is None:
            opened, inside = step, []
        elif step.name == "h" and inside:
            between.update(inside)
            opened = None
        elif opened is not None and step.is_on_target(qubit):
            inside.append(step.number)
        elif opened is not None:
            return opened
        elif step.name in ("x", "reset"):
            raise step.fault(f"{step.name} on {qubit} behind its first Hadamard")
        elif step.name == "ccx" and step.is_on_target(qubit):
            raise step.fault(f"ccx on {qubit}, which has no Hadamard right before and behind it, so it is no ccz")
    return opened


def _gate(operation: Operation, between: bool, spots: Mapping[str, Spot]) -> Optional[Gate]:
    """The gate that an operation is, if it is one. The first x gates are the start, and not gates."""
    name = _BETWEEN_HADAMARDS[operation.name] if between else operation.name
    if name not in ("z", "cx", "cz", "ccz"):
        return None
    named = [(spots[qubit], qubit) for qubit in operation.qubits]
    found = [spot for spot, _ in named]
    colours = {spot.colour for spot in found}
    said = ", ".join(f"{qubit} is {COLOUR_NAMES[spot.colour]}" for spot, qubit in named)
    if name == "cx":
        if len(colours) != 1:
            raise operation.place.error(f"a cx across colours: {said}")
        return Cnot(found[0].colour, found[0].position, found[1].position)
    if len(colours) != len(found):
        raise operation.place.error(f"a {name} within a colour: {said}")
    in_order = sorted(found, key=lambda spot: COLOURS.index(spot.colour))
    if name == "z":
        return Z(in_order[0])
    if name == "cz":
        return Cz(in_order[0], in_order[1])
    return Ccz(*(spot.position for spot in in_order))
