"""The statements of an OpenQASM text that a three-colour circuit may need; any other statement is an error."""

from __future__ import annotations

from dataclasses import dataclass
from typing import Iterator, Optional, Union

from .tokens import Place, Reader, Token


@dataclass(frozen=True)
class Operand:
    """A register, or one of it where there is an index."""

    name: str
    index: Optional[int]
    place: Place

    def __str__(self) -> str:
        return self.name if self.index is None else f"{self.name}[{self.index}]"


@dataclass(frozen=True)
class Include:
    place: Place
    file: str


@dataclass(frozen=True)
class Declaration:
    """A register of qubits or classical bits; without a size it is a single one."""

    place: Place
    name: str
    size: Optional[int]
    quantum: bool


@dataclass(frozen=True)
class Definition:
    """A gate's definition. Its body is taken apart when the gate is used; an opaque gate has none."""

    place: Place
    name: str
    parameters: int
    qubits: tuple[str, ...]
    body: Optional[tuple[Token, ...]]


@dataclass(frozen=True)
class Call:
    """A gate on its operands. With `controls` it is the gate of that many more qubits, which come first."""

    place: Place
    name: str
    parameters: int
    operands: tuple[Operand, ...]
    controls: int


@dataclass(frozen=True)
class Barrier:
    """Without operands it is on all qubits. Only its place among the gates counts."""

    place: Place
    operands: tuple[Operand, ...]


@dataclass(frozen=True)
class Measure:
    place: Place
    qubit: Operand
    bit: Optional[Operand]


@dataclass(frozen=True)
class Reset:
    place: Place
    qubit: Operand


Statement = Union[Include, Declaration, Definition, Call, Barrier, Measure, Reset]

# What OpenQASM has beside these. A gate or register cannot have such a name, so the error can say what it is.
_NOT_READ = frozenset(
    """if else for while switch def defcal defcalgrammar cal extern box let const input output return break continue end
    int uint float angle complex bool duration stretch array delay gphase negctrl inv pow""".split()
)


def statements(reader: Reader) -> Iterator[Statement]:
    """The statements of a file, the version in front of them."""
    if reader.next.text == "OPENQASM":
        _version(reader)
    while not reader.ended:
        yield from _statement(reader)


def body_statements(definition: Definition) -> list[Union[Call, Barrier]]:
    """What a definition does, call by call."""
    body = definition.body or ()
    end = Token("end", "the end of the definition", body[-1].place if body else definition.place)
    reader = Reader([*body, end])
    found: list[Union[Call, Barrier]] = []
    while not reader.ended:
        place = reader.next.place
        for statement in _statement(reader):
            if not isinstance(statement, (Call, Barrier)):
                raise place.error(f"the definition of '{definition.name}' holds more than gates and barriers")
            found.append(statement)
    return found


def _version(reader: Reader) -> None:
    reader.need("OPENQASM")
    version = reader.need_kind("number", "a version")
    if version.text not in ("2.0", "2", "3.0", "3", "3.1"):
        raise version.place.error(f"OpenQASM {version.text} is not read, only 2.0 and 3.0")
    reader.need(";")


def _statement(reader: Reader) -> Iterator[Statement]:
    place = reader.next.place
    word = reader.need_kind("name", "a statement").text
    if word == "OPENQASM":
        raise place.error("the version stands before everything else")
    if word == "include":
        file = reader.need_kind("string", "a file in quotes").text[1:-1]
        reader.need(";")
        yield Include(place, file)
    elif word in ("qreg", "creg"):
        name = reader.need_kind("name", "a name").text
        yield Declaration(place, name, _size(reader), word == "qreg")
        reader.need(";")
    elif word in ("qubit", "bit"):
        yield from _declared(reader, place, word == "qubit")
    elif word in ("gate", "opaque"):
        yield _definition(reader, place, word == "gate")
    elif word == "barrier":
        operands = () if reader.next.text == ";" else _operands(reader)
        reader.need(";")
        yield Barrier(place, operands)
    elif word == "measure":
        qubit = _operand(reader)
        bit = _operand(reader) if reader.takes("->") else None
        reader.need(";")
        yield Measure(place, qubit, bit)
    elif word == "reset":
        yield Reset(place, _operand(reader))
        reader.need(";")
    elif reader.next.text in ("[", "=") and word not in _NOT_READ:
        yield _assignment(reader, place, word)
    else:
        yield _call(reader, place, word)


def _size(reader: Reader) -> int:
    reader.need("[")
    place = reader.next.place
    size = reader.whole_number("a size")
    reader.need("]")
    if size == 0:
        raise place.error("a register of size 0")
    return size


def _declared(reader: Reader, place: Place, quantum: bool) -> Iterator[Statement]:
    """`qubit[4] q;`, `bit c;` or `bit[4] c = measure q;`."""
    size = _size(reader) if reader.next.text == "[" else None
    name = reader.need_kind("name", "a name")
    yield Declaration(place, name.text, size, quantum)
    if not quantum and reader.takes("="):
        reader.need("measure")
        yield Measure(place, _operand(reader), Operand(name.text, None, name.place))
    reader.need(";")


def _definition(reader: Reader, place: Place, has_body: bool) -> Definition:
    name = reader.need_kind("name", "a name").text
    parameters = _parameters(reader)
    qubits = [reader.need_kind("name", "a qubit's name").text]
    while reader.takes(","):
        qubits.append(reader.need_kind("name", "a qubit's name").text)
    if len(set(qubits)) != len(qubits):
        raise place.error(f"the definition of '{name}' has two qubits of one name")
    if not has_body:
        reader.need(";")
        return Definition(place, name, parameters, tuple(qubits), None)
    reader.need("{")
    return Definition(place, name, parameters, tuple(qubits), tuple(reader.until("}", "{")))


def _parameters(reader: Reader) -> int:
    """How many parameters stand in brackets, if there are brackets."""
    if not reader.takes("("):
        return 0
    inside = reader.until(")", "(")
    depth = 0
    commas = 0
    for token in inside:
        depth += {"(": 1, ")": -1}.get(token.text, 0)
        commas += depth == 0 and token.text == ","
    return commas + 1 if inside else 0


def _call(reader: Reader, place: Place, name: str) -> Call:
    controls = 0
    while name == "ctrl":
        controls += _controls(reader)
        reader.need("@")
        name = reader.need_kind("name", "a gate").text
    if name in _NOT_READ:
        raise place.error(f"'{name}' is not read here: a circuit has h, ccz, cz, cx, z, and x before the first h")
    parameters = _parameters(reader)
    operands = _operands(reader)
    reader.need(";")
    return Call(place, name, parameters, operands, controls)


def _controls(reader: Reader) -> int:
    if not reader.takes("("):
        return 1
    place = reader.next.place
    controls = reader.whole_number("a number of controls")
    if controls == 0:
        raise place.error("a gate with 0 controls")
    reader.need(")")
    return controls


def _assignment(reader: Reader, place: Place, name: str) -> Measure:
    """`c = measure q;` or `c[0] = measure q[0];`."""
    bit = Operand(name, _index(reader), place)
    reader.need("=")
    reader.need("measure")
    qubit = _operand(reader)
    reader.need(";")
    return Measure(place, qubit, bit)


def _operands(reader: Reader) -> tuple[Operand, ...]:
    operands = [_operand(reader)]
    while reader.takes(","):
        operands.append(_operand(reader))
    return tuple(operands)


def _operand(reader: Reader) -> Operand:
    name = reader.need_kind("name", "a qubit or register")
    return Operand(name.text, _index(reader), name.place)


def _index(reader: Reader) -> Optional[int]:
    if not reader.takes("["):
        return None
    number = reader.whole_number("an index")
    reader.need("]")
    return number
