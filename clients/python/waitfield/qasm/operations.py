"""A program's statements as operations on single qubits, with files included and definitions expanded."""

from __future__ import annotations

import os
from dataclasses import dataclass, field
from typing import Optional, Sequence

from ..gates import COLOURS, MOST_POSITIONS
from ..texts import Unreadable, read_text
from .known import CONTROLLED, KNOWN, LIBRARY, LIBRARY_FILES, SPELLINGS, Operation, is_gate
from .statements import (
    Barrier,
    Call,
    Declaration,
    Definition,
    Include,
    Measure,
    Operand,
    Statement,
    body_statements,
    statements,
)
from .tokens import Place, Reader

# 4,096 gates, each written as a ccx between two Hadamards, in definitions of definitions, need far fewer.
MOST_CALLS = 200_000
DEEPEST = 64

# Of a definition that has to be looked at, and of files that are included.
MOST_LOOKED_AT = 1000
MOST_FILES = 1000

MOST_QUBITS = len(COLOURS) * MOST_POSITIONS

# Classical bits are no part of a circuit; there may be some that nothing is measured into.
MOST_BITS = 4096


@dataclass(frozen=True)
class Declared:
    """Where a qubit was declared: its register, and its index, 0 for a single one."""

    register: str
    index: int
    place: Place


@dataclass
class Program:
    """A program by its single qubits and classical bits, each in the order of declaration."""

    qubits: dict[str, Declared] = field(default_factory=dict)
    # The qubit that is measured into each classical bit.
    bits: dict[str, Optional[str]] = field(default_factory=dict)
    operations: list[Operation] = field(default_factory=list)


def operations(reader: Reader) -> Program:
    """The operations of a whole file."""
    expansion = _Expansion(reader.next.place.file)
    expansion.take_all(reader)
    if not expansion.program.qubits:
        raise reader.next.place.error("the circuit has no qubits")
    return expansion.program


class _Expansion:
    def __init__(self, file: str) -> None:
        self.program = Program()
        self._registers: dict[str, Declaration] = {}
        self._definitions: dict[str, Definition] = {}
        self._bodies: dict[str, Sequence[Statement]] = {}
        # How many definitions came before each: a definition may use only these, so none can use itself.
        self._numbers: dict[str, int] = {}
        self._defined = 0
        # The known gate whose definition is being looked at.
        self._looked_at: Optional[str] = None
        self._calls = 0
        self._files = 0
        # The files that are being read, each included by the one before it.
        self._including = [os.path.normpath(file)]
        for statement in statements(Reader.of_text(LIBRARY, "the library")):
            assert isinstance(statement, Definition)
            self._definitions[statement.name] = statement
            self._numbers[statement.name] = -1

    def take_all(self, reader: Reader) -> None:
        for statement in statements(reader):
            self._take(statement)

    def _take(self, statement: Statement) -> None:
        if isinstance(statement, Include):
            self._include(statement)
        elif isinstance(statement, Declaration):
            self._declare(statement)
        elif isinstance(statement, Definition):
            self._define(statement)
        elif isinstance(statement, Call):
            self._call(statement)
        elif isinstance(statement, Barrier):
            self._barrier(statement)
        elif isinstance(statement, Measure):
            self._measure(statement)
        else:
            for qubit in self._named(statement.qubit, quantum=True):
                self._add("reset", (qubit,), statement.place)

    def _include(self, include: Include) -> None:
        if include.file in LIBRARY_FILES:
            return
        self._files += 1
        if self._files > MOST_FILES or len(self._including) > DEEPEST:
            raise include.place.error(f"more than {MOST_FILES} files, or more than {DEEPEST} inside each other")
        path = os.path.normpath(os.path.join(os.path.dirname(include.place.file), include.file))
        if path in self._including:
            raise include.place.error(f"'{include.file}' includes itself")
        try:
            text = read_text(path)
        except Unreadable as error:
            raise include.place.error(f"'{include.file}' {error}") from error
        self._including.append(path)
        self.take_all(Reader.of_text(text, path))
        self._including.pop()

    def _declare(self, declaration: Declaration) -> None:
        name, size, place = declaration.name, declaration.size, declaration.place
        if name in self._registers:
            raise place.error(f"'{name}' is declared twice")
        if declaration.quantum and len(self.program.qubits) + (size or 1) > MOST_QUBITS:
            raise place.error(f"too many qubits: a circuit has at most {MOST_QUBITS}")
        if not declaration.quantum and len(self.program.bits) + (size or 1) > MOST_BITS:
            raise place.error(f"more than {MOST_BITS} classical bits")
        self._registers[name] = declaration
        for index, single in enumerate(_singles(declaration)):
            if declaration.quantum:
                self.program.qubits[single] = Declared(name, index, place)
            else:
                self.program.bits[single] = None

    def _define(self, definition: Definition) -> None:
        name, place = definition.name, definition.place
        if self._numbers.get(name, -1) >= 0:
            raise place.error(f"'{name}' is defined twice")
        known = SPELLINGS.get(name, name)
        if known in KNOWN:
            self._look_at(definition, known)
        self._definitions[name] = definition
        self._bodies.pop(name, None)
        self._numbers[name] = self._defined
        self._defined += 1

    def _look_at(self, definition: Definition, known: str) -> None:
        """A definition of a known gate has to be that gate, made of others."""
        name, qubits = definition.name, definition.qubits
        something_else = definition.place.error(f"'{name}' is defined here as something else than {known}")
        if definition.body is None or definition.parameters or len(qubits) != KNOWN[known]:
            raise something_else
        found: list[Operation] = []
        self._looked_at = name
        for statement in body_statements(definition):
            self._expand(statement, dict(zip(qubits, qubits)), self._defined, definition.place, 0, found)
        self._looked_at = None
        if len(found) > MOST_LOOKED_AT:
            raise definition.place.error(f"'{name}' is defined here by more than {MOST_LOOKED_AT} operations")
        if not is_gate(known, qubits, found):
            raise something_else

    def _call(self, call: Call) -> None:
        """A gate on single qubits, or on registers, one after the other."""
        columns = [self._named(operand, quantum=True) for operand in call.operands]
        whole = {len(column) for column, operand in zip(columns, call.operands) if self._is_whole(operand)}
        if len(whole) > 1:
            raise call.place.error(f"'{call.name}' on registers of different sizes")
        length = max(whole, default=1)
        for row in range(length):
            qubits = [column[row % len(column)] for column in columns]
            actual = {str(operand): qubit for operand, qubit in zip(call.operands, qubits)}
            self._expand(call, actual, self._defined, call.place, 0, self.program.operations)

    def _barrier(self, barrier: Barrier) -> None:
        named = [qubit for operand in barrier.operands for qubit in self._named(operand, quantum=True)]
        self._add("barrier", tuple(named), barrier.place)

    def _measure(self, measure: Measure) -> None:
        qubits = self._named(measure.qubit, quantum=True)
        for qubit in qubits:
            self._add("measure", (qubit,), measure.place)
        if measure.bit is None:
            return
        bits = self._named(measure.bit, quantum=False)
        if len(bits) != len(qubits):
            raise measure.place.error(f"{len(qubits)} qubits are measured into {len(bits)} bits")
        for qubit, bit in zip(qubits, bits):
            if self.program.bits[bit] is not None:
                raise measure.place.error(f"{bit} is measured into twice")
            self.program.bits[bit] = qubit

    def _add(self, name: str, qubits: tuple[str, ...], place: Place) -> None:
        self.program.operations.append(Operation(name, qubits, place))

    def _is_whole(self, operand: Operand) -> bool:
        return operand.index is None and self._registers[operand.name].size is not None

    def _named(self, operand: Operand, quantum: bool) -> list[str]:
        """The single qubits or bits that an operand names."""
        register = self._registers.get(operand.name)
        what = "qubits" if quantum else "classical bits"
        if register is None or register.quantum != quantum:
            raise operand.place.error(f"'{operand.name}' is no register of {what}")
        if operand.index is None:
            return _singles(register)
        if register.size is None:
            raise operand.place.error(f"there is no {operand}: '{operand.name}' is a single one")
        if operand.index >= register.size:
            raise operand.place.error(f"there is no {operand}: '{operand.name}' has {register.size} {what}")
        return [str(operand)]

    def _expand(
        self,
        statement: Statement,
        actual: dict[str, str],
        number: int,
        place: Place,
        depth: int,
        found: list[Operation],
    ) -> None:
        """The operations of a call whose operands stand for actual qubits, under the definitions before `number`."""
        self._count(place, depth)
        assert isinstance(statement, (Call, Barrier))
        qubits = tuple(self._actual(operand, actual) for operand in statement.operands)
        if isinstance(statement, Barrier):
            found.append(Operation("barrier", qubits, place))
            return
        if len(set(qubits)) != len(qubits):
            raise place.error(f"'{statement.name}' has one qubit twice")
        if statement.name == self._looked_at:
            raise place.error(f"'{statement.name}' is defined by itself")
        name = _controlled(statement, SPELLINGS.get(statement.name, statement.name))
        if name in KNOWN:
            self._fits(statement, KNOWN[name], 0)
            found.append(Operation(name, qubits, place))
            return
        definition = self._definition(statement, name, number)
        self._fits(statement, len(definition.qubits), definition.parameters)
        inner = dict(zip(definition.qubits, qubits))
        if name not in self._bodies:
            self._bodies[name] = body_statements(definition)
        for each in self._bodies[name]:
            self._expand(each, inner, self._numbers[name], place, depth + 1, found)

    def _count(self, place: Place, depth: int) -> None:
        """Stops what would not end in any useful time: definitions that double at each level."""
        self._calls += 1
        if self._calls > MOST_CALLS or depth > DEEPEST:
            raise place.error(f"more than {MOST_CALLS} calls of gates, or more than {DEEPEST} inside each other")

    def _definition(self, call: Call, name: str, number: int) -> Definition:
        definition = self._definitions.get(name)
        if definition is None:
            raise call.place.error(f"'{name}' is none of h, x, z, cx, cz, ccx, ccz, and is not defined before")
        if self._numbers[name] >= number:
            raise call.place.error(f"'{name}' is not defined before")
        if definition.body is None:
            raise call.place.error(f"'{name}' is opaque: what it does is not said")
        return definition

    def _actual(self, operand: Operand, actual: dict[str, str]) -> str:
        if str(operand) not in actual:
            raise operand.place.error(f"'{operand}' is no qubit of the definition")
        return actual[str(operand)]

    def _fits(self, call: Call, qubits: int, parameters: int) -> None:
        if len(call.operands) != qubits:
            raise call.place.error(f"'{call.name}' on {len(call.operands)} qubits, where it has {qubits}")
        if call.parameters != parameters:
            raise call.place.error(f"'{call.name}' with {call.parameters} parameters, where it has {parameters}")


def _singles(register: Declaration) -> list[str]:
    """The names of a register's qubits or bits."""
    if register.size is None:
        return [register.name]
    return [f"{register.name}[{index}]" for index in range(register.size)]


def _controlled(call: Call, name: str) -> str:
    """The known gate that `ctrl @` makes of one."""
    for _ in range(call.controls):
        if name not in CONTROLLED:
            raise call.place.error(f"'{call.name}' with {call.controls} controls is none of cx, cz, ccx, ccz")
        name = CONTROLLED[name]
    return name
