"""Random circuits in OpenQASM, written in many ways, against a state vector of what they say."""

from __future__ import annotations

import contextlib
import io
import json
import os
import subprocess
import tempfile
import unittest
from dataclasses import dataclass
from random import Random
from typing import Callable, Dict, Iterable, List, Optional, Sequence, Tuple

from waitfield import Circuit, Colours, Session, compare, from_qasm
from waitfield.command import main
from waitfield.program import find_program

from .state_vector import Operation, StateVector

COLOURS = "rbg"

# How many circuits are drawn for each seed, by the size m, and how much of each is asked for at most.
CIRCUITS = {1: 12, 2: 8, 3: 4}
STRINGS = 40
READOUTS = 4


def seeds() -> list[str]:
    """The seeds that are always used, and one more from the variable WAITFIELD_SEED."""
    return ["one", "two", *filter(None, [os.environ.get("WAITFIELD_SEED")])]


@dataclass(frozen=True)
class Statement:
    """A statement, what it does to single qubits, and the gates of a three-colour circuit that it stands for."""

    text: str
    operations: tuple[Operation, ...] = ()
    gates: tuple[Operation, ...] = ()
    # The qubits whose other statements have to stay before or behind it.
    touches: frozenset[str] = frozenset()


def statement(text: str, operations: Iterable[Operation], gates: Optional[Iterable[Operation]] = None) -> Statement:
    """A statement of gates. Unless they are given, the gates that it stands for are its operations."""
    done = tuple(operations)
    touches = frozenset(qubit for _, qubits in done for qubit in qubits)
    return Statement(text, done, done if gates is None else tuple(gates), touches)


def renamed(operations: Iterable[Operation], names: dict[str, str]) -> list[Operation]:
    return [(name, tuple(names[qubit] for qubit in qubits)) for name, qubits in operations]


@dataclass(frozen=True)
class Definition:
    """A gate's definition. Its qubits are of one colour, or of as many colours as there are of them."""

    name: str
    qubits: tuple[str, ...]
    one_colour: bool
    body: tuple[Statement, ...]
    parameters: str

    @property
    def text(self) -> str:
        body = " ".join(each.text for each in self.body)
        return f"gate {self.name}{self.parameters} {', '.join(self.qubits)} {{ {body} }}"

    def call(self, qubits: Sequence[str]) -> Statement:
        names = dict(zip(self.qubits, qubits))
        operations = renamed((done for each in self.body for done in each.operations), names)
        gates = renamed((gate for each in self.body for gate in each.gates), names)
        return statement(f"{self.name}{self.parameters and '(pi / 2)'} {', '.join(qubits)};", operations, gates)


# The qubits of each colour.
Coloured = Dict[str, List[str]]

DEFINITIONS_OF_CCZ = [
    "gate ccz a, b, c { h c; ccx a, b, c; h c; }",
    "gate ccz a, b, c { h a; ccx c, b, a; h a; }",
    "// ccz is not defined",
]

# Ways to write a gate in OpenQASM 2 and 3, beside its name.
OTHER_NAMES = {
    2: {"cx": ["CX"]},
    3: {
        "cx": ["ctrl @ x"],
        "cz": ["ctrl @ z"],
        "ccx": ["ctrl @ cx", "ctrl(2) @ x"],
        "ccz": ["ctrl @ cz", "ctrl(2) @ z"],
    },
}


class Gates:
    """Draws gates on qubits, and definitions of gates, in the spelling of OpenQASM 2 or 3."""

    def __init__(self, random: Random, version: int) -> None:
        self.random = random
        self.version = version
        self.definitions: list[Definition] = []

    def define(self, one_colour: bool, colours: int) -> None:
        """Defines one more gate, by gates and by those that are defined already."""
        qubits = ("a", "b") if one_colour else ("a", "b", "c")[:colours]
        coloured = {"r": list(qubits)} if one_colour else {colour: [q] for colour, q in zip(COLOURS, qubits)}
        body = [each for _ in range(self.random.randint(0, 3)) for each in self.draw(coloured)]
        if self.random.random() < 0.3:
            body.insert(self.random.randint(0, len(body)), Statement(f"barrier {', '.join(qubits)};"))
        name, parameters = f"part{len(self.definitions)}", self.random.choice(["", "", "(x)"])
        self.definitions.append(Definition(name, qubits, one_colour, tuple(body), parameters))

    def draw(self, coloured: Coloured) -> list[Statement]:
        """One gate or several, as statements that follow each other."""
        kinds = [self.across_colours, self.within_colour, self.between_hadamards, self.defined]
        while True:
            (kind,) = self.random.choices(kinds, [4, 2, 2, 2])
            drawn = kind(coloured)
            if drawn:
                return drawn

    def across_colours(self, coloured: Coloured) -> list[Statement]:
        """z, cz or ccz."""
        qubits = self.of_colours(coloured, self.random.randint(1, 3))
        gate = "c" * (len(qubits) - 1) + "z"
        return [self.call(gate, qubits, [(gate, qubits)])] if qubits else []

    def within_colour(self, coloured: Coloured) -> list[Statement]:
        """cx or swap."""
        qubits = self.of_one_colour(coloured)
        gates = [("cx", qubits)]
        if qubits and self.random.random() < 0.2:
            gates = [("cx", qubits), ("cx", qubits[::-1]), ("cx", qubits)]
            return [self.call("swap", qubits, gates)]
        return [self.call("cx", qubits, gates)] if qubits else []

    def between_hadamards(self, coloured: Coloured) -> list[Statement]:
        """x, cx and ccx on one target between two Hadamards, each of which is z, cz or ccz."""
        (target,) = self.of_colours(coloured, 1)
        others = {colour: qubits for colour, qubits in coloured.items() if target not in qubits}
        inside = []
        for _ in range(self.random.randint(1, 3)):
            controls = self.of_colours(others, self.random.randint(0, 2))
            name, qubits = "c" * len(controls), (*controls, target)
            inside.append(self.call(f"{name}x", qubits, [(f"{name}x", qubits)], [(f"{name}z", qubits)]))
        hadamard = statement(f"h {target};", [("h", (target,))], [])
        return [hadamard, *inside, hadamard]

    def defined(self, coloured: Coloured) -> list[Statement]:
        """A gate by its definition."""
        if not self.definitions:
            return []
        definition = self.random.choice(self.definitions)
        number = len(definition.qubits)
        qubits = self.of_one_colour(coloured) if definition.one_colour else self.of_colours(coloured, number)
        return [definition.call(qubits)] if qubits else []

    def call(
        self,
        name: str,
        qubits: Sequence[str],
        operations: Iterable[Operation],
        gates: Optional[Iterable[Operation]] = None,
    ) -> Statement:
        """A call of a known gate by one of its names."""
        names = [name, *OTHER_NAMES[self.version].get(name, [])]
        return statement(f"{self.random.choice(names)} {', '.join(qubits)};", operations, gates)

    def of_colours(self, coloured: Coloured, number: int) -> tuple[str, ...]:
        """Qubits of as many different colours, or none if there are not as many."""
        present = [colour for colour in coloured if coloured[colour]]
        chosen = self.random.sample(present, number) if len(present) >= number else []
        return tuple(self.random.choice(coloured[colour]) for colour in chosen)

    def of_one_colour(self, coloured: Coloured) -> tuple[str, ...]:
        """Two qubits of one colour, or none if no colour has two."""
        fitting = [qubits for qubits in coloured.values() if len(qubits) > 1]
        return tuple(self.random.sample(self.random.choice(fitting), 2)) if fitting else ()


def interleaved(random: Random, statements: Iterable[Statement]) -> list[Statement]:
    """The statements in a random order, in which those that share a qubit stay as they are."""
    rest = list(statements)
    found = []
    while rest:
        ready = []
        before: set[str] = set()
        for number, each in enumerate(rest):
            if before.isdisjoint(each.touches):
                ready.append(number)
            before |= each.touches
        found.append(rest.pop(random.choice(ready)))
    return found


@dataclass(frozen=True)
class Layout:
    """The registers' sizes and each qubit's colour and position. With a mapping the registers' names are no colours."""

    registers: dict[str, int]
    spots: dict[str, Tuple[str, int]]
    is_mapped: bool = False

    @property
    def coloured(self) -> Coloured:
        return {c: [qubit for qubit, (colour, _) in self.spots.items() if colour == c] for c in COLOURS}

    def qubits(self, register: str) -> list[str]:
        return [f"{register}[{index}]" for index in range(self.registers[register])]


def by_names(random: Random, sizes: dict[str, int]) -> Layout:
    """Registers that have the names of colours, declared in any order."""
    names = random.sample(sorted(sizes), len(sizes))
    registers = {name: sizes[name] for name in names}
    spots = {f"{name}[{index}]": (name, index + 1) for name, size in registers.items() for index in range(size)}
    return Layout(registers, spots)


def equal_sizes(random: Random, m: int) -> Layout:
    return by_names(random, dict.fromkeys(COLOURS, m))


def different_sizes(random: Random, m: int) -> Layout:
    """Three registers, of which one has m qubits and another fewer."""
    sizes = [m, random.randint(1, m - 1), random.randint(1, m)]
    return by_names(random, dict(zip(random.sample(COLOURS, 3), sizes)))


def two_registers(random: Random, m: int) -> Layout:
    """A colour has no qubits."""
    return by_names(random, dict(zip(random.sample(COLOURS, 2), [m, random.randint(1, m)])))


def mapped(random: Random, m: int) -> Layout:
    """One register, its qubits at any positions up to m. Some positions may have no qubit."""
    free = [(colour, position) for colour in COLOURS for position in range(1, m + 1)]
    largest = random.choice([spot for spot in free if spot[1] == m])
    free.remove(largest)
    spots = [largest, *random.sample(free, random.randint(1, len(free)))]
    random.shuffle(spots)
    return Layout({"q": len(spots)}, {f"q[{number}]": spot for number, spot in enumerate(spots)}, True)


@dataclass(frozen=True)
class Drawn:
    """A random circuit: its text, and what the text says."""

    text: str
    layout: Layout
    operations: list[Operation]
    gates: list[Operation]
    # The qubit that is measured into each classical bit.
    bits: list[Optional[str]]

    def colours(self, random: Random) -> Optional[Colours]:
        """The mapping, by names or by numbers, or none."""
        if not self.layout.is_mapped:
            return None
        if random.random() < 0.5:
            return self.layout.spots
        return dict(enumerate(self.layout.spots.values()))


class Program:
    """Draws the statements of a whole circuit."""

    def __init__(self, random: Random, layout: Layout) -> None:
        self.random = random
        self.layout = layout
        self.version = random.choice([2, 3])
        self.gates = Gates(random, self.version)
        self.bits: dict[str, list[Optional[str]]] = {}

    def draw(self) -> Drawn:
        colours = sum(bool(qubits) for qubits in self.layout.coloured.values())
        for _ in range(self.random.randint(0, 4)):
            self.gates.define(self.random.random() < 0.3, colours)
        drawn = [*self.start(), *self.layer(), *self.middle(), *self.layer(), *self.measurements()]
        statements = self.with_barriers(interleaved(self.random, drawn))
        return Drawn(
            "\n".join([*self.head(), *(each.text for each in statements)]) + "\n",
            self.layout,
            [done for each in statements for done in each.operations],
            [gate for each in statements for gate in each.gates],
            [qubit for register in self.bits.values() for qubit in register],
        )

    def head(self) -> list[str]:
        """The version, the library, the definitions and the declarations."""
        three = self.version == 3
        lines = ["OPENQASM 3.0;", 'include "stdgates.inc";'] if three else ["OPENQASM 2.0;", 'include "qelib1.inc";']
        lines.append(self.random.choice(DEFINITIONS_OF_CCZ))
        lines += [definition.text for definition in self.gates.definitions]
        for name, size in self.layout.registers.items():
            lines.append(f"qubit[{size}] {name};" if three else f"qreg {name}[{size}];")
        for name, measured in self.bits.items():
            lines.append(f"bit[{len(measured)}] {name};" if three else f"creg {name}[{len(measured)}];")
        return lines

    def start(self) -> list[Statement]:
        """Resets and x gates on some qubits."""
        statements = []
        for qubit in self.layout.spots:
            if self.random.random() < 0.2:
                statements.append(Statement(f"reset {qubit};", touches=frozenset([qubit])))
            ones = self.random.choice([0, 0, 1, 2, 3])
            statements += [statement(f"x {qubit};", [("x", (qubit,))], [])] * ones
        return statements

    def layer(self) -> list[Statement]:
        """A Hadamard on every qubit, by registers or one by one."""
        statements = []
        for register in self.layout.registers:
            qubits = self.layout.qubits(register)
            if self.random.random() < 0.3:
                statements.append(statement(f"h {register};", [("h", (qubit,)) for qubit in qubits], []))
            else:
                statements += [statement(f"h {qubit};", [("h", (qubit,))], []) for qubit in qubits]
        return statements

    def middle(self) -> list[Statement]:
        """Gates on single qubits and on registers."""
        statements: list[Statement] = []
        for _ in range(self.random.randint(2, 6 + 3 * len(self.layout.spots))):
            if self.random.random() < 0.2:
                statements += self.on_registers()
            else:
                statements += self.gates.draw(self.layout.coloured)
        return statements

    def on_registers(self) -> list[Statement]:
        """A gate on a whole register, on a qubit and a register, or on registers of one size."""
        names = self.random.sample(sorted(self.layout.registers), self.random.randint(1, len(self.layout.registers)))
        if self.layout.is_mapped or len(names) == 1:
            qubits = self.layout.qubits(names[0])
            return [statement(f"z {names[0]};", [("z", (qubit,)) for qubit in qubits])]
        operands = [self.random.choice([name, self.random.choice(self.layout.qubits(name))]) for name in names]
        sizes = {self.layout.registers[operand] for operand in operands if operand in names}
        if len(sizes) > 1:
            return []
        rows = range(max(sizes, default=1))
        gate = "c" * (len(names) - 1) + "z"
        operations = [(gate, tuple(f"{o}[{row}]" if o in names else o for o in operands)) for row in rows]
        return [statement(f"{gate} {', '.join(operands)};", operations)]

    def measurements(self) -> list[Statement]:
        """Every qubit into a classical bit: whole registers into registers, the others into any bits."""
        statements = []
        rest = []
        for register in self.layout.registers:
            qubits = self.layout.qubits(register)
            if self.random.random() < 0.3:
                self.bits[f"c_{register}"] = list(qubits)
                statements.append(self.measurement(register, f"c_{register}", qubits))
            else:
                rest += qubits
        bits: list[Optional[str]] = [*rest, *[None] * self.random.randint(0, 2)]
        self.random.shuffle(bits)
        while bits:
            name, size = f"d{len(self.bits)}", self.random.randint(1, len(bits))
            self.bits[name], bits = bits[:size], bits[size:]
            for index, qubit in enumerate(self.bits[name]):
                if qubit is not None:
                    statements.append(self.measurement(qubit, f"{name}[{index}]", [qubit]))
        order = self.random.sample(sorted(self.bits), len(self.bits))
        self.bits = {name: self.bits[name] for name in order}
        return statements

    def measurement(self, measured: str, into: str, qubits: Sequence[str]) -> Statement:
        arrow = self.version == 2 or self.random.random() < 0.3
        text = f"measure {measured} -> {into};" if arrow else f"{into} = measure {measured};"
        return Statement(text, touches=frozenset(qubits))

    def with_barriers(self, statements: list[Statement]) -> list[Statement]:
        """The statements with barriers and comments at random places."""
        found = list(statements)
        qubits = list(self.layout.spots)
        for _ in range(self.random.randint(0, 5)):
            some = ", ".join(self.random.sample(qubits, self.random.randint(1, len(qubits))))
            texts = [f"barrier {some};", f"barrier {', '.join(self.layout.registers)};", f"// h {qubits[0]};"]
            texts += ["/* x\n * z */"] + ["barrier;"] * (self.version == 3)
            found.insert(self.random.randint(0, len(found)), Statement(self.random.choice(texts)))
        return found


def polynomial(gates: Iterable[Operation]) -> set[frozenset[str]]:
    """The terms of the phase polynomial (manual, section 2.2), each by its qubits."""
    terms: set[frozenset[str]] = set()
    for name, qubits in gates:
        if name == "cx":
            control, target = qubits
            terms ^= {term - {target} | {control} for term in terms if target in term}
        else:
            terms ^= {frozenset(qubits)}
    return terms


def listing(terms: Iterable[frozenset[str]], spots: dict[str, Tuple[str, int]]) -> list[str]:
    """The lines of the listing of these terms (manual, section 6.2)."""
    ordered = []
    for term in terms:
        named = sorted((COLOURS.index(spots[qubit][0]), spots[qubit][1]) for qubit in term)
        colours, positions = zip(*named)
        spelled = [f"({COLOURS[colour]} {position})" for colour, position in named]
        operands = map(str, positions) if len(term) == 3 else spelled
        name = "c" * (len(term) - 1) + "z"
        ordered.append((-len(term), colours, positions, f"({name} {' '.join(operands)})"))
    return [line for *_, line in sorted(ordered)]


def some_digits(random: Random, drawn: Drawn, unread: str = "") -> dict[str, str]:
    """Random digits for the qubits of the colours that are read."""
    spots = drawn.layout.spots
    return {qubit: random.choice("01") for qubit, (colour, _) in spots.items() if colour not in unread}


def measured(bits: Iterable[Optional[str]], digits: dict[str, str]) -> str:
    """The measured string, with a 0 for a bit that nothing is measured into."""
    return "".join("0" if qubit is None else digits[qubit] for qubit in bits)


def converted(drawn: Drawn) -> list[str]:
    """The lines that the command `convert` writes."""
    with tempfile.TemporaryDirectory() as folder:
        path, mapping = os.path.join(folder, "circuit.qasm"), os.path.join(folder, "colours.json")
        with open(path, "w", encoding="utf-8") as file:
            file.write(drawn.text)
        with open(mapping, "w", encoding="utf-8") as file:
            json.dump(drawn.layout.spots, file)
        with contextlib.redirect_stdout(io.StringIO()) as output:
            status = main(["convert", path, *(["--colours", mapping] if drawn.layout.is_mapped else [])])
    assert status == 0
    return output.getvalue().splitlines()


@dataclass(frozen=True)
class Case:
    """A random circuit as it is drawn, as it is read, and as a state vector; and the session that has it."""

    random: Random
    drawn: Drawn
    circuit: Circuit
    state: StateVector
    session: Session


class TestRandomCircuits(unittest.TestCase):
    """Amplitudes, readouts, compared counts and terms are those of the state vector and of the gates as drawn."""

    def assert_exact(self, layout: Callable[[Random, int], Layout], m: int) -> None:
        with Session() as session:
            for seed in seeds():
                random = Random(f"{seed} {layout.__name__} {m}")
                for number in range(CIRCUITS[m]):
                    drawn = Program(random, layout(random, m)).draw()
                    with self.subTest(seed=seed, number=number, text=drawn.text):
                        self.assert_circuit_exact(session, random, drawn, m)

    def assert_circuit_exact(self, session: Session, random: Random, drawn: Drawn, m: int) -> None:
        circuit = from_qasm(drawn.text, colours=drawn.colours(random))
        self.assertEqual(circuit.m, m)
        self.assertEqual(dict(circuit.qubits), drawn.layout.spots)
        state = StateVector(list(drawn.layout.spots))
        state.apply(drawn.operations)
        session.load(circuit)
        case = Case(random, drawn, circuit, state, session)
        self.assert_amplitudes(case)
        for unread in ["r", "b", "g", "rb", "rg", "bg"]:
            self.assert_readouts(case, unread)
        self.assert_comparison(case)
        self.assert_listing(drawn)

    def assert_amplitudes(self, case: Case) -> None:
        """All strings, or a random choice of them where they are many."""
        qubits = list(case.drawn.layout.spots)
        strings: Sequence[int] = range(2 ** len(qubits))
        if len(strings) > STRINGS:
            strings = case.random.sample(strings, STRINGS)
        for string in strings:
            digits = dict(zip(qubits, f"{string:0{len(qubits)}b}"))
            asked = case.circuit.strings(measured(case.drawn.bits, digits))
            amplitude = case.session.amplitude(*asked, sliced=case.random.choice(COLOURS))
            self.assertEqual(amplitude.fraction, case.state.amplitude(digits), digits)
            self.assertEqual(amplitude.probability, case.state.probability(digits), digits)

    def assert_readouts(self, case: Case, unread: str) -> None:
        """Some strings of the colours that are read, if there are qubits of these."""
        for _ in range(READOUTS):
            digits = some_digits(case.random, case.drawn, unread)
            if not digits:
                continue
            bits = measured((bit for bit in case.drawn.bits if bit is None or bit in digits), digits)
            readout = case.session.ask(case.circuit.strings(bits, unread=unread), unread=unread)
            self.assertEqual(readout.probability, case.state.probability(digits), (unread, digits))

    def assert_comparison(self, case: Case) -> None:
        """Every measured string has the state vector's probability, whichever digit is leftmost."""
        leftmost = case.random.choice(["first", "last"])
        expected = {}
        for _ in range(8):
            digits = some_digits(case.random, case.drawn)
            bits = measured(case.drawn.bits, digits)
            expected[bits if leftmost == "first" else bits[::-1]] = case.state.probability(digits)
        counts = {bits: case.random.randint(1, 100) for bits in expected}
        compared = compare(case.session, case.circuit, counts, leftmost=leftmost)
        self.assertEqual({row.bits: row.probability for row in compared.rows}, expected)
        self.assertEqual({row.bits: row.shots for row in compared.rows}, counts)

    def assert_listing(self, drawn: Drawn) -> None:
        """What `convert` writes gives the program the polynomial of the gates."""
        lines = converted(drawn)
        terms = listing(polynomial(drawn.gates), drawn.layout.spots)
        given = "\n".join([*lines, "(terms)"])
        told = subprocess.run([find_program()], input=given, stdout=subprocess.PIPE, check=True, text=True)
        self.assertEqual(told.stdout.splitlines(), [*["(ok)"] * len(lines), f"(terms {len(terms)})", *terms])

    def test_registers_of_one_size_with_m_1(self) -> None:
        self.assert_exact(equal_sizes, 1)

    def test_registers_of_one_size_with_m_2(self) -> None:
        self.assert_exact(equal_sizes, 2)

    def test_registers_of_one_size_with_m_3(self) -> None:
        self.assert_exact(equal_sizes, 3)

    def test_registers_of_different_sizes_with_m_2(self) -> None:
        self.assert_exact(different_sizes, 2)

    def test_registers_of_different_sizes_with_m_3(self) -> None:
        self.assert_exact(different_sizes, 3)

    def test_a_colour_without_qubits_with_m_1(self) -> None:
        self.assert_exact(two_registers, 1)

    def test_a_colour_without_qubits_with_m_2(self) -> None:
        self.assert_exact(two_registers, 2)

    def test_a_colour_without_qubits_with_m_3(self) -> None:
        self.assert_exact(two_registers, 3)

    def test_a_mapped_register_with_m_1(self) -> None:
        self.assert_exact(mapped, 1)

    def test_a_mapped_register_with_m_2(self) -> None:
        self.assert_exact(mapped, 2)

    def test_a_mapped_register_with_m_3(self) -> None:
        self.assert_exact(mapped, 3)


class TestDraws(unittest.TestCase):
    """The random circuits are of all the kinds that they are meant to be."""

    def test_every_spelling_is_drawn(self) -> None:
        random = Random("spellings")
        texts = "".join(Program(random, equal_sizes(random, 3)).draw().text for _ in range(80))
        spellings = [
            "OPENQASM 2.0;",
            "OPENQASM 3.0;",
            "qreg r[3];",
            "qubit[3] g;",
            "creg d",
            "bit[",
            "gate part0(x) a",
            "gate part1 a, b, c {",
            "{ part0",
            "(pi / 2) ",
            "\nreset ",
            "\nx ",
            "\nh r;",
            "\nh r[0];",
            "\nz b;",
            "\ncz r, b;",
            "], b;\n",
            "\nccz r, g, b;",
            "\nccx ",
            "\nctrl(2) @ x ",
            "\nctrl @ cz ",
            "\nctrl(2) @ z ",
            "\nswap ",
            "\nCX ",
            "\nbarrier;",
            "\nbarrier r[",
            "// h ",
            "/* x",
            "\nmeasure r -> c_r;",
            "\nc_g = measure g;",
            "\nmeasure b[0] -> d",
            "] = measure ",
        ]
        self.assertEqual([spelling for spelling in spellings if spelling not in texts], [])

    def test_mapped_qubits_leave_positions_free(self) -> None:
        random = Random("gaps")
        spots = [set(mapped(random, 3).spots.values()) for _ in range(20)]
        self.assertTrue(any(("g", 3) in each and ("g", 1) not in each for each in spots))

    def test_statements_of_one_qubit_stay_in_their_order(self) -> None:
        random = Random("order")
        statements = [statement(f"z {qubit};", [("z", (qubit,))]) for qubit in "abcabcabc"]
        numbered = [Statement(str(number), touches=each.touches) for number, each in enumerate(statements)]
        orders = {tuple(int(each.text) for each in interleaved(random, numbered)) for _ in range(20)}
        self.assertGreater(len(orders), 10)
        for order in orders:
            for qubit in range(3):
                self.assertEqual([number for number in order if number % 3 == qubit], [qubit, qubit + 3, qubit + 6])


if __name__ == "__main__":
    unittest.main()
