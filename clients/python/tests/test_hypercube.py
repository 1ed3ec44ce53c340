"""The circuit of source document 001 at 48 qubits: two files in OpenQASM, the lines and the answers in examples/."""

from __future__ import annotations

import contextlib
import io
import re
import subprocess
import unittest
from collections import Counter
from pathlib import Path

from waitfield import Amplitude, Ccz, Circuit, Cnot, Cz, Readout, Session, Z, read_mapping, read_qasm
from waitfield.command import main
from waitfield.program import find_program

CLIENT = Path(__file__).resolve().parent.parent
EXAMPLES = CLIENT.parent.parent / "examples"

BY_NAMES = CLIENT / "examples" / "hypercube.qasm"
BY_BLOCKS = CLIENT / "examples" / "hypercube-blocks.qasm"
MAPPING = CLIENT / "examples" / "hypercube-blocks.json"

INPUT = (EXAMPLES / "hypercube.in").read_bytes().decode("ascii")
ANSWERS = (EXAMPLES / "hypercube.out").read_bytes().decode("ascii")

# The lines before the first sum.
CIRCUIT_LINES = INPUT[: INPUT.index("(amp")]


def amplitudes() -> dict[tuple[str, ...], Amplitude]:
    """The output strings R, B, G of the example and their answers."""
    strings = re.findall(r"^\(amp r ([01]+) ([01]+) ([01]+)\)$", INPUT, re.MULTILINE)
    numbers = re.findall(r"^\(amp (-?\d+) 48\)$", ANSWERS, re.MULTILINE)
    return {string: Amplitude(int(number), 48) for string, number in zip(strings, numbers)}


def readouts() -> dict[tuple[str, ...], Readout]:
    """The strings of red and blue that the example reads, green being unread, and their answers."""
    strings = re.findall(r"^\(part g ([01]+) ([01]+)\)$", INPUT, re.MULTILINE)
    numbers = re.findall(r"^\(part (\d+) 48\)$", ANSWERS, re.MULTILINE)
    return {string: Readout(int(number), 48) for string, number in zip(strings, numbers)}


def read_by_names() -> Circuit:
    return read_qasm(BY_NAMES)


def read_by_blocks() -> Circuit:
    return read_qasm(BY_BLOCKS, colours=read_mapping(MAPPING.read_text(encoding="utf-8")))


def converted(*arguments: str) -> str:
    """What the command `convert` writes."""
    with contextlib.redirect_stdout(io.StringIO()) as output:
        status = main(["convert", *arguments])
    assert status == 0
    return output.getvalue()


class TestExample(unittest.TestCase):
    def test_has_five_amplitudes_and_a_readout(self) -> None:
        self.assertEqual((len(amplitudes()), len(readouts())), (5, 1))
        self.assertEqual(len(CIRCUIT_LINES.splitlines()), 15)


class TestLines(unittest.TestCase):
    def test_by_register_names_they_are_those_of_the_example(self) -> None:
        self.assertEqual(converted(str(BY_NAMES)), CIRCUIT_LINES)

    def test_by_a_mapping_they_are_those_of_the_example(self) -> None:
        self.assertEqual(converted(str(BY_BLOCKS), "--colours", str(MAPPING)), CIRCUIT_LINES)

    def test_both_files_have_all_gates_and_qubits(self) -> None:
        for circuit in [read_by_names(), read_by_blocks()]:
            self.assertEqual(Counter(map(type, circuit.gates)), {Ccz: 80, Cz: 80, Z: 80, Cnot: 96})
            self.assertEqual((circuit.m, len(circuit.qubits), len(circuit.digits)), (16, 48, 48))


class TestListing(unittest.TestCase):
    def test_of_both_files_is_that_of_the_example(self) -> None:
        given = f"{CIRCUIT_LINES}(terms)\n"
        told = subprocess.run([find_program()], input=given, stdout=subprocess.PIPE, check=True, text=True)
        listed = told.stdout.splitlines()[len(CIRCUIT_LINES.splitlines()) + 1 :]
        self.assertGreater(len(listed), 0)
        with Session() as session:
            for circuit in [read_by_names(), read_by_blocks()]:
                session.load(circuit)
                self.assertEqual([str(term) for term in session.terms()], listed)


class TestAnswers(unittest.TestCase):
    def test_by_register_names_they_are_those_of_the_example(self) -> None:
        circuit = read_by_names()
        with Session() as session:
            session.load(circuit)
            for (red, blue, green), expected in amplitudes().items():
                strings = circuit.strings(f"{red} {blue} {green}")
                self.assertEqual(strings, circuit.strings_by_colour([red, blue, green]))
                self.assertEqual(session.amplitude(*strings), expected)
            for (red, blue), readout in readouts().items():
                strings = circuit.strings(f"{red} {blue}", unread="g")
                self.assertEqual(session.readout("g", *strings), readout)

    def test_by_blocks_they_are_those_of_the_example(self) -> None:
        circuit = read_by_blocks()
        with Session() as session:
            session.load(circuit)
            for (red, blue, green), expected in amplitudes().items():
                blocks = " ".join(map("".join, zip(red, green, blue)))
                self.assertEqual(session.amplitude(*circuit.strings(blocks)), expected)
            for (red, blue), readout in readouts().items():
                blocks = " ".join(map("".join, zip(red, blue)))
                self.assertEqual(session.readout("g", *circuit.strings(blocks, unread="g")), readout)


if __name__ == "__main__":
    unittest.main()
