"""What is no three-colour circuit in OpenQASM: every error, with the file, the line and the reason that are told.

The line that an error is told at is marked in the texts by a comment.
"""

from __future__ import annotations

import errno
import io
import os
import tempfile
import unittest
from typing import Any, Callable, Iterable, Mapping, Optional, Union
from unittest import mock

from waitfield import Circuit, Colours, ColoursError, QasmError, from_qasm, read_mapping, read_qasm

FILE = "circuit.qasm"
MARK = "// here"

DIGITS_5000 = "7" * 5000


def marked_line(text: str) -> int:
    """The number of the one line that is marked, from 1."""
    (number,) = [number for number, line in enumerate(text.split("\n"), 1) if MARK in line]
    return number


def below(text: str) -> str:
    """The text on the third line of a file."""
    return f"// a circuit\n\n{text}\n"


def around(middle: str) -> str:
    """A circuit of two qubits a colour with these lines between its layers of Hadamards."""
    return f"""
        OPENQASM 2.0;
        include "qelib1.inc";
        qreg r[2]; qreg b[2]; qreg g[2];
        creg c[2];
        h r; h b; h g;
        {middle}
        h r; h b; h g;
    """


class ErrorsCase(unittest.TestCase):
    def assert_told(self, text: str, reason: str, colours: Optional[Colours] = None) -> None:
        """The text is an error at its marked line, for exactly this reason."""
        with self.assertRaises(QasmError) as caught:
            from_qasm(text, colours=colours, file=FILE)
        self.assertEqual(str(caught.exception), f"{FILE}:{marked_line(text)}: {reason}")

    def assert_each_told(
        self, cases: Union[Mapping[str, str], Iterable[str]], reason: str = "", within: Callable[[str], str] = around
    ) -> None:
        """Each line, marked and within a text, is an error there: for its own reason, or for that of all."""
        reasons = cases if isinstance(cases, Mapping) else dict.fromkeys(cases, reason)
        for line, told in reasons.items():
            with self.subTest(line=line):
                self.assert_told(within(f"{line} {MARK}"), told)


class TestErrorValue(unittest.TestCase):
    def test_has_file_line_and_reason(self) -> None:
        with self.assertRaises(QasmError) as caught:
            from_qasm("qreg r[1];\n\nt r;", file="some/circuit.qasm")
        error = caught.exception
        self.assertEqual((error.file, error.line), ("some/circuit.qasm", 3))
        self.assertEqual(str(error), f"some/circuit.qasm:3: {error.reason}")

    def test_a_text_without_a_file_is_named_qasm(self) -> None:
        with self.assertRaises(QasmError) as caught:
            from_qasm("qreg r[0];")
        self.assertEqual(str(caught.exception), "qasm:1: a register of size 0")


class TestCharacters(ErrorsCase):
    def test_a_character_that_openqasm_does_not_have(self) -> None:
        characters = ["$", "#", "?", "`", "\\", "\0", "→", "€"]
        self.assert_each_told({c: f"{c!r} is no part of OpenQASM as it is read here" for c in characters})

    def test_a_string_that_does_not_end_on_its_line(self) -> None:
        reason = "%r is no part of OpenQASM as it is read here"
        self.assert_each_told({'include "qelib1.inc;': reason % '"', "include 'qelib1.inc;": reason % "'"})

    def test_a_comment_that_does_not_end(self) -> None:
        self.assert_told("qreg r[1];\n/* a circuit // here\nh r; h r;\n", "a comment that does not end")

    def test_a_comment_is_not_ended_by_the_star_that_begins_it(self) -> None:
        self.assert_told("qreg r[1];\n/*/ // here\nh r; h r;\n", "a comment that does not end")

    def test_lines_within_comments_are_counted(self) -> None:
        self.assert_told("/* one\ntwo\nthree */ qreg r[0]; // here\n", "a register of size 0")

    def test_a_line_may_end_in_carriage_return_and_line_feed(self) -> None:
        self.assert_told("// a circuit\r\n\r\nqreg r[0]; // here\r\n", "a register of size 0")

    def test_a_carriage_return_alone_ends_a_line_and_its_comment(self) -> None:
        with self.assertRaises(QasmError) as caught:
            from_qasm("qreg r[1]; // one qubit\rqreg r[1];\r", file=FILE)
        self.assertEqual(str(caught.exception), f"{FILE}:2: 'r' is declared twice")


class TestStatements(ErrorsCase):
    def test_what_stands_where_something_else_is_expected(self) -> None:
        cases = {
            "OPENQASM;": "a version expected, found ;",
            "OPENQASM two;": "a version expected, found two",
            "OPENQASM 2.0 qreg r[1];": "';' expected, found qreg",
            "include qelib1.inc;": "a file in quotes expected, found qelib1",
            'include "qelib1.inc" qreg r[1];': "';' expected, found qreg",
            "qreg [2];": "a name expected, found [",
            "qreg r;": "'[' expected, found ;",
            "qreg r[];": "a size expected, found ]",
            "qreg r[n];": "a size expected, found n",
            "qreg r[2.0];": "a size expected, found 2.0",
            "qreg r[2e1];": "a size expected, found 2e1",
            "qreg r[-1];": "a size expected, found -",
            "qreg r[2;": "']' expected, found ;",
            "qreg r[2] qreg b[2];": "';' expected, found qreg",
            "creg c;": "'[' expected, found ;",
            "qubit[2];": "a name expected, found ;",
            "qubit[2 r;": "']' expected, found r",
            "qubit[2] r = b;": "';' expected, found =",
            'bit[2] c = "00";': "'measure' expected, found \"00\"",
            "bit[2] c bit[2] d;": "';' expected, found bit",
            "gate;": "a name expected, found ;",
            "gate pair { }": "a qubit's name expected, found {",
            "gate pair a, { }": "a qubit's name expected, found {",
            "gate pair a b { }": "'{' expected, found b",
            "gate pair a;": "'{' expected, found ;",
            "opaque pair a, b { }": "';' expected, found {",
            "barrier r,;": "a qubit or register expected, found ;",
            "barrier r b;": "';' expected, found b",
            "measure;": "a qubit or register expected, found ;",
            "measure r -> ;": "a qubit or register expected, found ;",
            "measure r, b;": "';' expected, found ,",
            "reset;": "a qubit or register expected, found ;",
            "c = 1;": "'measure' expected, found 1",
            "c[0] measure r[0];": "'=' expected, found measure",
            "c[0] = measure;": "a qubit or register expected, found ;",
            "h;": "a qubit or register expected, found ;",
            "h 0;": "a qubit or register expected, found 0",
            "h r[i];": "an index expected, found i",
            "h r[0:1];": "']' expected, found :",
            "h r[0;": "']' expected, found ;",
            "h r[0] b[0];": "';' expected, found b",
            "ctrl z r[0], b[0];": "'@' expected, found z",
            "ctrl @ ;": "a gate expected, found ;",
            "ctrl(n) @ z r[0], b[0];": "a number of controls expected, found n",
            "ctrl(1 @ z r[0], b[0];": "')' expected, found @",
            ";": "a statement expected, found ;",
            "}": "a statement expected, found }",
            "@reversible": "a statement expected, found @",
            "2.0;": "a statement expected, found 2.0",
            '"h";': 'a statement expected, found "h"',
        }
        self.assert_each_told(cases, within=below)

    def test_what_the_file_ends_in(self) -> None:
        expected = {
            "OPENQASM": "a version",
            "OPENQASM 2.0": "';'",
            "include": "a file in quotes",
            'include "qelib1.inc"': "';'",
            "qreg": "a name",
            "qreg r[2": "']'",
            "qreg r[2]": "';'",
            "qubit[2] r": "';'",
            "opaque pair a, b": "';'",
            "gate pair a, b": "'{'",
            "gate pair a, b {": "'}'",
            "gate pair a, b { cz a, b;": "'}'",
            "gate pair a, b { { }": "'}'",
            "gate pair(x": "')'",
            "rz((pi)": "')'",
            "barrier": "a qubit or register",
            "measure r": "';'",
            "c[0]": "'='",
            "h": "a qubit or register",
            "h r[0]": "';'",
            "ctrl": "'@'",
        }
        cases = {line: f"{what} expected, found the end of the file" for line, what in expected.items()}
        self.assert_each_told(cases, within=lambda line: below(line).rstrip("\n"))

    def test_the_end_of_the_file_is_told_at_its_last_line(self) -> None:
        self.assert_told("qreg r[1];\nh r; h r\n\n// here", "';' expected, found the end of the file")

    def test_a_version_that_is_not_read(self) -> None:
        versions = ["1.0", "2.1", "3.2", "4", "20", "2.00"]
        cases = {f"OPENQASM {version};": f"OpenQASM {version} is not read, only 2.0 and 3.0" for version in versions}
        self.assert_each_told(cases, within=below)

    def test_a_version_behind_a_statement(self) -> None:
        self.assert_told("qreg r[1];\nOPENQASM 2.0; // here\n", "the version stands before everything else")

    def test_a_second_version(self) -> None:
        self.assert_told("OPENQASM 2.0;\nOPENQASM 2.0; // here\n", "the version stands before everything else")

    def test_statements_that_are_not_read(self) -> None:
        statements = {
            "if": "(c == 1) z r[0];",
            "else": "{ }",
            "for": "uint i in [0:1] { z r[i]; }",
            "while": "(true) { }",
            "switch": "(c) { }",
            "def": "twice(qubit a) { z a; }",
            "defcal": "z r { }",
            "defcalgrammar": '"openpulse";',
            "cal": "{ }",
            "extern": "parity(bit[2]) -> bit;",
            "box": "{ z r[0]; }",
            "let": "all = r ++ b;",
            "const": "int n = 2;",
            "input": "int n;",
            "output": "bit d;",
            "return": ";",
            "break": ";",
            "continue": ";",
            "end": ";",
            "int": "[32] n = 2;",
            "uint": "n = 2;",
            "float": "[64] x = 0.5;",
            "angle": "[8] x;",
            "complex": "[float] x;",
            "bool": "t = true;",
            "duration": "d = 10ns;",
            "stretch": "d;",
            "array": "[int, 2] n;",
            "delay": "[10ns] r[0];",
            "gphase": "(pi);",
            "negctrl": "@ z r[0], b[0];",
            "inv": "@ z r[0];",
            "pow": "(2) @ z r[0];",
        }
        reason = "'%s' is not read here: a circuit has h, ccz, cz, cx, z, and x before the first h"
        self.assert_each_told({f"{word} {rest}": reason % word for word, rest in statements.items()})

    def test_a_modifier_behind_a_control_is_not_read(self) -> None:
        reason = "'inv' is not read here: a circuit has h, ccz, cz, cx, z, and x before the first h"
        self.assert_told(around("ctrl @ inv @ z r[0], b[0]; // here"), reason)


class TestRegisters(ErrorsCase):
    def test_a_register_of_no_qubits(self) -> None:
        cases = ["qreg r[0];", "creg c[0];", "qubit[0] r;", "bit[000] c;"]
        self.assert_each_told(cases, "a register of size 0", below)

    def test_a_size_of_more_than_nine_digits(self) -> None:
        self.assert_told(below("qreg r[1234567890]; // here"), "a size expected, found 1234567890")
        self.assert_told(below(f"qreg r[{DIGITS_5000}]; {MARK}"), f"a size expected, found {DIGITS_5000[:40]}")

    def test_an_index_of_more_than_nine_digits(self) -> None:
        self.assert_told(around("z r[1234567890]; // here"), "an index expected, found 1234567890")
        self.assert_told(around(f"z r[{DIGITS_5000}]; {MARK}"), f"an index expected, found {DIGITS_5000[:40]}")

    def test_more_qubits_than_a_circuit_has(self) -> None:
        cases = ["qreg r[49];", "qreg r[999999999];", "qubit[49] r;"]
        self.assert_each_told(cases, "too many qubits: a circuit has at most 48", below)

    def test_more_qubits_than_a_circuit_has_in_several_registers(self) -> None:
        declared = "qreg r[16]; qreg b[16]; qreg g[16];\n"
        cases = ["qreg a[1];", "qubit a;"]
        self.assert_each_told(cases, "too many qubits: a circuit has at most 48", lambda line: declared + line)

    def test_more_bits_than_are_named_one_by_one(self) -> None:
        cases = ["creg c[999999999];", "bit[4097] c;", "creg c[4096]; bit d;"]
        self.assert_each_told(cases, "more than 4096 classical bits", below)

    def test_as_many_bits_as_there_may_be(self) -> None:
        self.assertEqual(from_qasm("creg c[4096]; qreg r[16]; h r; h r;").m, 16)

    def test_no_qubits(self) -> None:
        cases = ["", "OPENQASM 2.0;", "creg c[2];", "gate pair a, b { }"]
        self.assert_each_told(cases, "the circuit has no qubits", lambda line: f"\n\n{line}")

    def test_an_empty_text(self) -> None:
        with self.assertRaises(QasmError) as caught:
            from_qasm("", file=FILE)
        self.assertEqual(str(caught.exception), f"{FILE}:1: the circuit has no qubits")

    def test_a_name_that_is_declared_twice(self) -> None:
        qubits = ["qreg r[2];", "creg r[2];", "qubit r;", "bit[3] r;", "bit r = measure r;"]
        self.assert_each_told(qubits, "'r' is declared twice")
        bits = ["qreg c[2];", "creg c[2];", "qubit c;", "bit[3] c;", "bit c = measure r;"]
        self.assert_each_told(bits, "'c' is declared twice")

    def test_a_register_that_is_not_declared(self) -> None:
        cases = ["z q;", "z q[0];", "cz r[0], q[0];", "barrier q;", "measure q -> c;", "reset q;", "bit d = measure q;"]
        self.assert_each_told(cases, "'q' is no register of qubits")

    def test_a_register_that_is_declared_below(self) -> None:
        self.assert_told("qreg r[1];\nh b; // here\nqreg b[1];\n", "'b' is no register of qubits")

    def test_bits_are_no_qubits(self) -> None:
        cases = ["z c;", "cz r[0], c[0];", "barrier c;", "measure c -> c;", "reset c;"]
        self.assert_each_told(cases, "'c' is no register of qubits")

    def test_qubits_are_no_bits(self) -> None:
        cases = ["measure r -> b;", "b = measure r;", "b[0] = measure r[0];"]
        self.assert_each_told(cases, "'b' is no register of classical bits")

    def test_bits_that_are_not_declared(self) -> None:
        cases = ["measure r -> d;", "d = measure r;", "measure r[0] -> d[0];"]
        self.assert_each_told(cases, "'d' is no register of classical bits")

    def test_an_index_beyond_its_register(self) -> None:
        cases = ["z r[2];", "cz b[0], r[2];", "barrier r[2];", "measure r[2] -> c[0];", "reset r[2];"]
        self.assert_each_told(cases, "there is no r[2]: 'r' has 2 qubits")

    def test_an_index_beyond_its_bits(self) -> None:
        cases = ["measure r[0] -> c[2];", "c[2] = measure r[0];"]
        self.assert_each_told(cases, "there is no c[2]: 'c' has 2 classical bits")

    def test_an_index_of_a_single_qubit(self) -> None:
        self.assert_told("qubit r;\nh r[0]; // here\n", "there is no r[0]: 'r' is a single one")

    def test_registers_of_different_sizes(self) -> None:
        declared = "qreg r[2]; qreg b[3]; qreg g[1];\n"
        cases = {"cz r, b;": "cz", "ccz r[0], b, g;": "ccz", "cz g, r;": "cz"}
        reasons = {line: f"'{name}' on registers of different sizes" for line, name in cases.items()}
        self.assert_each_told(reasons, within=lambda line: declared + line)

    def test_more_or_fewer_bits_than_qubits(self) -> None:
        declared = "qreg r[2]; creg c[3]; creg d[1];\n"
        cases = {
            "measure r -> c;": 3,
            "measure r -> d;": 1,
            "measure r -> c[0];": 1,
            "c = measure r;": 3,
            "bit[5] e = measure r;": 5,
        }
        reasons = {line: f"2 qubits are measured into {bits} bits" for line, bits in cases.items()}
        self.assert_each_told(reasons, within=lambda line: declared + line)

    def test_a_bit_that_is_measured_into_twice(self) -> None:
        measured = "qreg r[2]; creg c[2];\nh r; h r;\nmeasure r[0] -> c[1];\n"
        cases = ["measure r[1] -> c[1];", "c[1] = measure r[1];", "measure r -> c;"]
        self.assert_each_told(cases, "c[1] is measured into twice", lambda line: measured + line)


class TestCalls(ErrorsCase):
    def test_a_gate_that_is_not_known(self) -> None:
        cases = {
            "s": "r[0];",
            "t": "r[0];",
            "y": "r[0];",
            "rz": "(pi / 4) r[0];",
            "u3": "(pi / 2, 0, pi) r[0];",
            "U": "(pi / 2, 0, pi) r[0];",
            "H": "r[0];",
            "CCZ": "r[0], b[0], g[0];",
            "cccz": "r[0], b[0], g[0], g[1];",
        }
        reason = "'%s' is none of h, x, z, cx, cz, ccx, ccz, and is not defined before"
        self.assert_each_told({f"{name} {rest}": reason % name for name, rest in cases.items()})

    def test_a_gate_that_is_defined_below_its_call(self) -> None:
        reason = "'pair' is none of h, x, z, cx, cz, ccx, ccz, and is not defined before"
        self.assert_told(around("pair r[0], b[0]; // here\ngate pair a, b { cz a, b; }"), reason)

    def test_an_opaque_gate(self) -> None:
        reason = "'pulse' is opaque: what it does is not said"
        self.assert_told(around("opaque pulse(x) a;\npulse(0.5) r[0]; // here"), reason)

    def test_more_or_fewer_qubits_than_a_gate_has(self) -> None:
        cases = {
            "h r[0], b[0];": "'h' on 2 qubits, where it has 1",
            "z r, b;": "'z' on 2 qubits, where it has 1",
            "cx r[0];": "'cx' on 1 qubits, where it has 2",
            "cz r[0], b[0], g[0];": "'cz' on 3 qubits, where it has 2",
            "ccx r[0], b[0];": "'ccx' on 2 qubits, where it has 3",
            "ccz r[0], b[0], g[0], g[1];": "'ccz' on 4 qubits, where it has 3",
            "swap r[0];": "'swap' on 1 qubits, where it has 2",
            "pair r[0];": "'pair' on 1 qubits, where it has 2",
            "pair r[0], b[0], g[0];": "'pair' on 3 qubits, where it has 2",
            "ctrl @ z r[0];": "'z' on 1 qubits, where it has 2",
        }
        self.assert_each_told(cases, within=lambda line: around("gate pair a, b { cz a, b; }\n" + line))

    def test_more_or_fewer_parameters_than_a_gate_has(self) -> None:
        cases = {
            "z(pi) r[0];": "'z' with 1 parameters, where it has 0",
            "ccz(pi, f(0, 1), 2) r[0], b[0], g[0];": "'ccz' with 3 parameters, where it has 0",
            "turn r[0];": "'turn' with 0 parameters, where it has 2",
            "turn() r[0];": "'turn' with 0 parameters, where it has 2",
            "turn((0, 1)) r[0];": "'turn' with 1 parameters, where it has 2",
        }
        self.assert_each_told(cases, within=lambda line: around("gate turn(x, y) a { z a; }\n" + line))

    def test_one_qubit_twice(self) -> None:
        cases = {
            "cx r[0], r[0];": "'cx' has one qubit twice",
            "cx r, r;": "'cx' has one qubit twice",
            "cx r[1], r;": "'cx' has one qubit twice",
            "cz r[0], r[0];": "'cz' has one qubit twice",
            "ccz r[0], b[0], r[0];": "'ccz' has one qubit twice",
            "both r[0], r[0];": "'both' has one qubit twice",
            "swap r[0], r[0];": "'swap' has one qubit twice",
        }
        self.assert_each_told(cases, within=lambda line: around("gate both a, b { z a; z b; }\n" + line))

    def test_controls_that_make_no_gate(self) -> None:
        cases = {
            "ctrl @ h r[0], b[0];": "'h' with 1",
            "ctrl @ ccz r[0], b[0], g[0], g[1];": "'ccz' with 1",
            "ctrl(2) @ cz r[0], b[0], g[0], g[1];": "'cz' with 2",
            "ctrl @ ctrl @ ctrl @ x r[0], b[0], g[0], g[1];": "'x' with 3",
            "ctrl(999999999) @ z r[0];": "'z' with 999999999",
            "ctrl @ swap r[0], r[1], b[0];": "'swap' with 1",
        }
        reasons = {line: f"{gate} controls is none of cx, cz, ccx, ccz" for line, gate in cases.items()}
        self.assert_each_told(reasons)

    def test_a_number_of_controls_of_5000_digits(self) -> None:
        reason = f"a number of controls expected, found {DIGITS_5000[:40]}"
        self.assert_told(around(f"ctrl({DIGITS_5000}) @ z r[0]; {MARK}"), reason)

    def test_no_controls(self) -> None:
        self.assert_told(around("ctrl(0) @ z r[0]; // here"), "a gate with 0 controls")


def in_definition(line: str) -> str:
    """A circuit that calls a gate with this line in its definition."""
    return around(f"gate pair a, b {{\n{line}\n}}\npair r[0], b[0];")


class TestDefinitions(ErrorsCase):
    def test_a_name_that_is_defined_twice(self) -> None:
        cases = {
            "pair": "gate pair a, b { cz a, b; }\ngate pair a, b { cz a, b; }",
            "pulse": "opaque pulse a, b;\ngate pulse a, b { cz a, b; }",
            "turn": "gate turn a { z a; }\nopaque turn(x) a;",
            "swap": "gate swap a, b { cx a, b; cx b, a; cx a, b; }\ngate swap a, b { }",
            "cz": "gate cz a, b { h b; cx a, b; h b; }\ngate cz a, b { h b; cx a, b; h b; }",
        }
        self.assert_each_told({text: f"'{name}' is defined twice" for name, text in cases.items()})

    def test_two_qubits_of_one_name(self) -> None:
        reason = "the definition of 'pair' has two qubits of one name"
        self.assert_told(around("gate pair a, a { cz a, a; } // here"), reason)

    def test_a_qubit_that_the_definition_does_not_have(self) -> None:
        cases = {"cz a, r;": "r", "z a[0];": "a[0]", "barrier c;": "c", "z r[0];": "r[0]"}
        reasons = {line: f"'{qubit}' is no qubit of the definition" for line, qubit in cases.items()}
        self.assert_each_told(reasons, within=in_definition)

    def test_more_than_gates_and_barriers(self) -> None:
        cases = [
            "measure a;",
            "measure a -> b;",
            "a = measure b;",
            "reset a;",
            "qubit c;",
            "gate inner c { z c; }",
            'include "qelib1.inc";',
        ]
        reason = "the definition of 'pair' holds more than gates and barriers"
        self.assert_each_told(cases, reason, in_definition)

    def test_a_statement_that_is_not_read_in_a_definition(self) -> None:
        reason = "'for' is not read here: a circuit has h, ccz, cz, cx, z, and x before the first h"
        self.assert_told(in_definition("for int i in [0:1] { z a; } // here"), reason)

    def test_a_version_in_a_definition(self) -> None:
        self.assert_told(in_definition("OPENQASM 2.0; // here"), "the version stands before everything else")

    def test_a_definition_that_ends_within_a_call(self) -> None:
        cases = {"cz a, b": "';'", "cz a,": "a qubit or register", "cz": "a qubit or register"}
        reasons = {line: f"{what} expected, found the end of the definition" for line, what in cases.items()}
        self.assert_each_told(reasons, within=in_definition)

    def test_a_gate_in_a_definition_that_is_not_known(self) -> None:
        reason = "'t' is none of h, x, z, cx, cz, ccx, ccz, and is not defined before"
        self.assert_told(in_definition("t a; // here"), reason)

    def test_more_qubits_than_a_gate_in_a_definition_has(self) -> None:
        self.assert_told(in_definition("z a, b; // here"), "'z' on 2 qubits, where it has 1")

    def test_one_qubit_twice_in_a_definition_is_told_at_the_call(self) -> None:
        self.assert_told(
            around("gate pair a, b { cz a, a; }\npair r[0], b[0]; // here"), "'cz' has one qubit twice"
        )

    def test_a_definition_by_itself(self) -> None:
        self.assert_told(in_definition("pair a, b; // here"), "'pair' is not defined before")

    def test_a_definition_by_one_that_follows(self) -> None:
        definitions = "gate first a {\nsecond a; // here\n}\ngate second a { first a; }\n"
        self.assert_told(around(f"{definitions}second r[0];"), "'second' is not defined before")


class TestDefinitionsOfKnownGates(ErrorsCase):
    def assert_something_else(self, name: str, *definitions: str) -> None:
        reason = f"'{name}' is defined here as something else than {name.lower()}"
        self.assert_each_told(definitions, reason)

    def test_ccz_is_nothing_else(self) -> None:
        bodies = [
            "",
            "z c;",
            "cz a, b;",
            "ccx a, b, c;",
            "h c; ccx a, b, c;",
            "ccx a, b, c; h c;",
            "h c; ccx b, c, a; h c;",
            "h b; ccx a, b, c; h b;",
            "h c; cx a, c; h c;",
            "h c; ccx a, b, c; h c; z a;",
            "h c; ccx a, b, c; h c; x a;",
            "h c; ccx a, b, c; ccx a, b, c; h c;",
            "h c; ccx a, b, c; h c; h a; h b;",
            "barrier a, b, c;",
        ]
        self.assert_something_else("ccz", *[f"gate ccz a, b, c {{ {body} }}" for body in bodies])

    def test_ccz_has_three_qubits(self) -> None:
        four = "gate ccz a, b, c, d { h c; ccx a, b, c; h c; }"
        self.assert_something_else("ccz", "gate ccz a, b { cz a, b; }", four)

    def test_ccz_has_no_parameters(self) -> None:
        self.assert_something_else("ccz", "gate ccz(x) a, b, c { h c; ccx a, b, c; h c; }")

    def test_ccz_is_not_opaque(self) -> None:
        self.assert_something_else("ccz", "opaque ccz a, b, c;")

    def test_h_x_and_z_are_nothing_else(self) -> None:
        self.assert_something_else("h", "gate h a { x a; }", "gate h a { }")
        self.assert_something_else("x", "gate x a { z a; }", "gate x a { h a; }")
        self.assert_something_else("z", "gate z a { x a; }", "gate z a { h a; x a; h a; x a; }")

    def test_cx_is_nothing_else(self) -> None:
        self.assert_something_else("cx", "gate cx a, b { CX b, a; }", "gate cx a, b { cz a, b; }")
        self.assert_something_else("CX", "gate CX a, b { cx b, a; }", "gate CX a, b { cz a, b; }")

    def test_cz_is_nothing_else(self) -> None:
        self.assert_something_else("cz", "gate cz a, b { cx a, b; }", "gate cz a, b { h b; cx a, b; h b; z b; }")

    def test_ccx_is_nothing_else(self) -> None:
        wrong_target = "gate ccx a, b, c { h a; ccz a, b, c; h a; }"
        self.assert_something_else("ccx", "gate ccx a, b, c { cx a, c; cx b, c; }", wrong_target)

    def test_a_sign_that_all_strings_have_is_something_else(self) -> None:
        self.assert_something_else("cx", "gate cx a, b { CX a, b; z a; x a; z a; x a; }")

    def test_a_gate_by_itself(self) -> None:
        cases = {
            "ccz": "gate ccz a, b, c { ccz a, b, c; }",
            "h": "gate h a { h a; }",
            "z": "gate z a { x a; z a; x a; }",
            "cx": "gate cx a, b { cx a, b; }",
            "cz": "gate cz a, b { cz b, a; }",
            "ccx": "gate ccx a, b, c { ccx b, a, c; }",
        }
        self.assert_each_told({text: f"'{name}' is defined by itself" for name, text in cases.items()})

    def test_ccz_by_itself_through_another_definition(self) -> None:
        other = "gate other a, b, c { ccz a, b, c; }\n"
        self.assert_told(f"{other}gate ccz a, b, c {{ other a, b, c; }} {MARK}\n", "'ccz' is defined by itself")

    def test_cz_by_more_operations_than_are_looked_at(self) -> None:
        nothing, cz = "z a; z a; ", "h b; cx a, b; h b;"
        from_qasm(f"gate cz a, b {{ {498 * nothing} {cz} }}\nqubit r; h r; h r;")
        text = f"gate cz a, b {{ {499 * nothing} {cz} }} {MARK}\n"
        self.assert_told(text, "'cz' is defined here by more than 1000 operations")

    def test_a_gate_in_the_definition_that_is_not_known(self) -> None:
        reason = "'tdg' is none of h, x, z, cx, cz, ccx, ccz, and is not defined before"
        self.assert_told("gate ccx a, b, c {\nh c; cx b, c;\ntdg c; // here\n}\n", reason)


class TestSizes(ErrorsCase):
    """Files that would be worked for ever, or beyond what Python's stack holds, end at once."""

    TOO_MANY = "more than 200000 calls of gates, or more than 64 inside each other"

    def test_4096_gates_are_read_and_4097_are_not(self) -> None:
        self.assertEqual(len(from_qasm(around("z r[0];\n" * 4096)).gates), 4096)
        self.assert_told(around("z r[0];\n" * 4096 + "z b[1]; // here"), "more than 4096 gates")

    def test_4097_gates_by_whole_registers(self) -> None:
        self.assert_told(around("z r;\n" * 2048 + "cz r, b; // here"), "more than 4096 gates")

    def doubling(self, innermost: str) -> str:
        """Definitions of which each calls the one before twice, so that the last makes 2^60 calls."""
        definitions = [f"gate twice0 a {{ {innermost} }}"]
        definitions += [f"gate twice{n} a {{ twice{n - 1} a; twice{n - 1} a; }}" for n in range(1, 61)]
        return "\n".join(definitions)

    def test_definitions_that_double_at_each_level(self) -> None:
        self.assert_told(around(f"{self.doubling('z a;')}\ntwice60 r[0]; {MARK}"), self.TOO_MANY)

    def test_definitions_that_double_and_come_to_nothing(self) -> None:
        self.assert_told(around(f"{self.doubling('')}\ntwice60 r[0]; {MARK}"), self.TOO_MANY)

    def test_a_known_gate_defined_by_what_doubles(self) -> None:
        definition = f"gate z a {{ h a; x a; h a; twice60 a; }} {MARK}"
        self.assert_told(f"{self.doubling('x a;')}\n{definition}\nqreg r[1]; h r; h r;\n", self.TOO_MANY)

    def test_a_hundred_definitions_inside_each_other(self) -> None:
        for innermost in ["z a;", ""]:
            with self.subTest(innermost=innermost):
                definitions = [f"gate deep0 a {{ {innermost} }}"]
                definitions += [f"gate deep{n} a {{ deep{n - 1} a; }}" for n in range(1, 100)]
                text = "\n".join([*definitions, f"deep99 r[0]; {MARK}"])
                self.assert_told(around(text), self.TOO_MANY)

    def test_ten_thousand_brackets(self) -> None:
        reason = "'rz' is none of h, x, z, cx, cz, ccx, ccz, and is not defined before"
        self.assert_told(around(f"rz({'(' * 10_000}0{')' * 10_000}) r[0]; {MARK}"), reason)

    def test_a_known_gate_defined_on_a_thousand_qubits(self) -> None:
        qubits = ", ".join(f"a{number}" for number in range(1000))
        reason = "'ccz' is defined here as something else than ccz"
        self.assert_told(f"gate ccz {qubits} {{ }} {MARK}\n", reason)


class TestFirstLayer(ErrorsCase):
    def test_a_gate_before_the_first_hadamard_of_its_qubit(self) -> None:
        cases = {
            "z b[0];": "z",
            "cz r[0], b[0];": "cz",
            "cz b[0], r[0];": "cz",
            "cx b[0], b[1];": "cx",
            "cx b[1], b[0];": "cx",
            "ccz r[0], b[0], g[0];": "ccz",
            "measure b[0];": "measure",
        }
        reason = "%s on b[0], which has no Hadamard of the first layer yet"
        self.assert_each_told(
            {line: reason % name for line, name in cases.items()},
            within=lambda line: f"qreg r[1]; qreg b[2]; qreg g[1];\nh r; h g; h b[1];\n{line}\nh b[0];\nh r; h b; h g;",
        )

    def test_a_qubit_that_nothing_is_done_to(self) -> None:
        text = "qreg r[1];\nqreg b[3]; // here\nh r; h b[0]; h b[2];\nh r; h b[0]; h b[2];\n"
        self.assert_told(text, "b[1] has no Hadamard, and the first layer has one on every qubit")

    def test_a_qubit_that_has_barriers_alone(self) -> None:
        text = "qreg r[1];\nqreg b[1]; // here\nh r;\nbarrier r, b;\nh r;\n"
        self.assert_told(text, "b[0] has no Hadamard, and the first layer has one on every qubit")

    def test_a_qubit_that_is_only_started(self) -> None:
        cases = ["x b[0];", "reset b[0];", "x b[0]; x b[0];", "reset b[0]; x b[0];"]
        reason = "b[0] has no Hadamard, and the first layer has one on every qubit"
        self.assert_each_told(cases, reason, lambda line: f"qreg r[1]; qreg b[1];\nh r;\n{line}\nh r;\n")

    def test_a_reset_behind_an_x(self) -> None:
        text = "qreg r[1];\nx r;\nreset r; // here\nh r;\nh r;\n"
        self.assert_told(text, "reset on r[0], which has no Hadamard of the first layer yet")


class TestLastLayer(ErrorsCase):
    def test_a_qubit_with_one_hadamard(self) -> None:
        text = "qreg r[2];\nh r; // here\nh r[0];\n"
        self.assert_told(text, "r[1] has no Hadamard of the last layer behind its gates")

    def test_a_gate_that_no_hadamard_follows(self) -> None:
        cases = ["z r[0];", "cx r[1], r[0];", "cz r[0], b[0];", "x r[0];", "reset r[0];"]
        self.assert_each_told(
            cases,
            "r[0] has no Hadamard of the last layer behind its gates",
            lambda line: f"qreg r[2]; qreg b[1];\nh r; h b;\nh r[0];\n{line}\nh r[1]; h b;\n",
        )

    def test_a_measurement_that_no_hadamard_precedes(self) -> None:
        text = "qreg r[1]; creg c[1];\nh r;\nz r;\nmeasure r -> c; // here\n"
        self.assert_told(text, "r[0] has no Hadamard of the last layer behind its gates")

    def test_a_measurement_right_behind_the_first_hadamard(self) -> None:
        text = "qreg r[1]; creg c[1];\nh r;\nmeasure r -> c; // here\n"
        self.assert_told(text, "r[0] has no Hadamard of the last layer behind its gates")

    def test_anything_behind_a_measurement(self) -> None:
        cases = {
            "h r[0];": "h",
            "x r[0];": "x",
            "z r[0];": "z",
            "cx r[1], r[0];": "cx",
            "cz b[0], r[0];": "cz",
            "reset r[0];": "reset",
            "measure r[0] -> c[1];": "measure",
            "c[1] = measure r[0];": "measure",
            "measure r[0];": "measure",
        }
        measured = "qreg r[2]; qreg b[1]; creg c[2];\nh r; h b;\nh r[0];\nmeasure r[0] -> c[0];\n"
        self.assert_each_told(
            {line: f"{name} on r[0] behind its measurement" for line, name in cases.items()},
            within=lambda line: f"{measured}{line}\nh r[1]; h b;\n",
        )


class TestBetweenTheLayers(ErrorsCase):
    UNPAIRED = "a Hadamard on g[0] between the layers, and no other closes a cz or ccz with it"
    UNCLOSED = "ccx on g[0], which has no Hadamard right before and behind it, so it is no ccz"

    def test_a_hadamard(self) -> None:
        self.assert_told(around("h g[0]; // here"), self.UNPAIRED)

    def test_a_hadamard_between_gates(self) -> None:
        self.assert_told(around("ccz r[0], b[0], g[0];\nh g[0]; // here\ncz b[0], g[0];"), self.UNPAIRED)

    def test_a_hadamard_behind_a_closed_pair(self) -> None:
        self.assert_told(around("h g[0]; cx b[0], g[0]; h g[0];\nh g[0]; // here\nz g[0];"), self.UNPAIRED)

    def test_a_pair_of_hadamards_with_nothing_between(self) -> None:
        self.assert_told(around("z g[0];\nh g[0]; // here\nh g[0];\nz g[0];"), self.UNPAIRED)

    def test_a_pair_of_hadamards_with_a_barrier_between(self) -> None:
        self.assert_told(around("h g[0]; // here\nbarrier g;\nh g[0];"), self.UNPAIRED)

    def test_a_pair_of_hadamards_with_another_gate_between(self) -> None:
        for gates in [
            "z g[0];",
            "cz b[0], g[0];",
            "ccz r[0], b[0], g[0];",
            "cx g[0], g[1];",
            "cx b[0], g[0]; z g[0];",
            "ccx r[0], b[0], g[0]; cx g[0], g[1];",
            "reset g[0];",
        ]:
            with self.subTest(gates=gates):
                self.assert_told(around(f"h g[0]; {MARK}\n{gates}\nh g[0];"), self.UNPAIRED)

    def test_a_pair_of_hadamards_on_a_control(self) -> None:
        self.assert_told(around("h g[0]; // here\nccx r[0], g[0], b[0];\nh g[0];"), self.UNPAIRED)

    def test_ccx_without_hadamards(self) -> None:
        self.assert_told(around("ccx r[0], b[0], g[0]; // here"), self.UNCLOSED)

    def test_ccx_behind_a_closed_pair(self) -> None:
        self.assert_told(
            around("h g[0]; cx b[0], g[0]; h g[0];\nccx r[0], b[0], g[0]; // here"), self.UNCLOSED
        )

    def test_ccx_between_the_hadamards_of_the_layers(self) -> None:
        declared = "qreg r[1]; qreg b[1]; qreg g[1];\nh r; h b;\n"
        self.assert_told(f"{declared}h g;\nccx r, b, g; {MARK}\nh g;\nh r; h b;\n", self.UNCLOSED)

    def test_an_x(self) -> None:
        self.assert_told(around("x b[1]; // here"), "x on b[1] behind its first Hadamard")

    def test_an_x_between_gates(self) -> None:
        self.assert_told(around("cz r[0], b[0];\nx b[0]; // here\nz b[0];"), "x on b[0] behind its first Hadamard")

    def test_a_reset(self) -> None:
        self.assert_told(around("reset g[0]; // here"), "reset on g[0] behind its first Hadamard")


class TestColours(ErrorsCase):
    def test_a_cx_across_colours(self) -> None:
        cases = {
            "cx r[0], b[1];": "r[0] is red, b[1] is blue",
            "cx g[1], r[1];": "g[1] is green, r[1] is red",
            "swap b[0], g[0];": "b[0] is blue, g[0] is green",
            "cx r, b;": "r[0] is red, b[0] is blue",
            "ctrl @ x r[0], g[0];": "r[0] is red, g[0] is green",
        }
        self.assert_each_told({line: f"a cx across colours: {said}" for line, said in cases.items()})

    def test_a_cz_within_a_colour(self) -> None:
        cases = {
            "cz r[0], r[1];": "r[0] is red, r[1] is red",
            "ctrl @ z b[1], b[0];": "b[1] is blue, b[0] is blue",
        }
        self.assert_each_told({line: f"a cz within a colour: {said}" for line, said in cases.items()})

    def test_a_cz_by_hadamards_within_a_colour_is_told_at_its_cx(self) -> None:
        reason = "a cz within a colour: r[0] is red, r[1] is red"
        self.assert_told(around("h r[1];\ncx r[0], r[1]; // here\nh r[1];"), reason)

    def test_a_ccz_with_two_qubits_of_one_colour(self) -> None:
        cases = {
            "ccz r[0], b[0], b[1];": "r[0] is red, b[0] is blue, b[1] is blue",
            "ccz g[0], r[0], g[1];": "g[0] is green, r[0] is red, g[1] is green",
        }
        self.assert_each_told({line: f"a ccz within a colour: {said}" for line, said in cases.items()})

    def test_a_ccz_by_hadamards_with_two_qubits_of_one_colour_is_told_at_its_ccx(self) -> None:
        reason = "a ccz within a colour: r[0] is red, r[1] is red, g[0] is green"
        self.assert_told(around("h g[0];\nccx r[0], r[1], g[0]; // here\nh g[0];"), reason)

    def test_a_gate_in_a_definition_is_told_at_the_call(self) -> None:
        text = "gate pair a, b { z a;\ncz a, b; }\npair r[0], b[0];\npair r[0], r[1]; // here"
        self.assert_told(around(text), "a cz within a colour: r[0] is red, r[1] is red")

    def test_colours_are_those_of_the_mapping(self) -> None:
        text = "qreg r[1]; qreg b[1];\nh r; h b;\ncz r, b; // here\nh r; h b;\n"
        colours = {"r[0]": ("g", 1), "b[0]": ("g", 2)}
        self.assert_told(text, "a cz within a colour: r[0] is green, b[0] is green", colours)

    def test_seventeen_qubits_in_a_colour(self) -> None:
        reason = "b[16] is at none of the positions 1 to 16 of blue"
        self.assert_told("qreg r[2];\nqreg b[17]; // here\nh r; h b; h r; h b;\n", reason)

    def test_a_register_that_is_no_colour(self) -> None:
        for name in ["q", "red", "R", "rb", "bg", "rbg", "_"]:
            with self.subTest(name=name):
                reason = f"register '{name}' is none of r, b, g, and there is no mapping"
                self.assert_told(f"qreg r[1];\nqreg {name}[1]; {MARK}\nh r; h {name}; h r; h {name};\n", reason)


class TestMapping(ErrorsCase):
    TEXT = "qreg q[2];\nqubit a; // here\nh q; h a; h q; h a;\n"
    FITTING = {"q[0]": ("r", 1), "q[1]": ("b", 1), "a": ("g", 1)}

    def assert_refused(self, colours: Mapping[Any, Any], reason: str) -> None:
        with self.assertRaises(ColoursError) as caught:
            from_qasm(self.TEXT, colours=colours)
        self.assertEqual(str(caught.exception), reason)

    def test_without_an_error_it_is_read(self) -> None:
        self.assertIsInstance(from_qasm(self.TEXT, colours=self.FITTING), Circuit)

    def test_a_qubit_that_is_missing(self) -> None:
        colours = {"q[0]": ("r", 1), "q[1]": ("b", 1)}
        self.assert_told(self.TEXT, "a has no colour in the mapping", colours)

    def test_an_empty_mapping(self) -> None:
        text = "\nqreg r[1]; // here\nh r; h r;\n"
        nothing: dict[str, tuple[str, int]] = {}
        self.assert_told(text, "r[0] has no colour in the mapping", nothing)

    def test_a_spot_that_two_qubits_have(self) -> None:
        self.assert_told(self.TEXT, "a and q[1] are both (b 1)", {**self.FITTING, "a": ("b", 1)})

    def test_a_position_out_of_range(self) -> None:
        reason = "a is at none of the positions 1 to 16 of green"
        for position in [0, -1, 17, 10**5000]:
            with self.subTest(digits=position.bit_length()):
                self.assert_told(self.TEXT, reason, {**self.FITTING, "a": ("g", position)})

    def test_a_name_that_is_no_qubit(self) -> None:
        for name in ["q[2]", "q", "a[0]", "r[0]", "", "0"]:
            with self.subTest(name=name):
                reason = f"the mapping has {name!r}, which is no qubit of the circuit"
                self.assert_refused({**self.FITTING, name: ("g", 2)}, reason)

    def test_a_number_that_is_no_qubit(self) -> None:
        for number in [3, -1, 10**30]:
            with self.subTest(number=number):
                reason = f"the mapping has {number}, which is no qubit of the circuit"
                self.assert_refused({**self.FITTING, number: ("g", 2)}, reason)

    def test_a_key_that_is_neither_name_nor_number(self) -> None:
        for key in [None, 1.5, ("q", 0)]:
            with self.subTest(key=key):
                reason = f"the mapping has {key!r}, which is no qubit of the circuit"
                self.assert_refused({**self.FITTING, key: ("g", 2)}, reason)

    def test_a_qubit_by_its_name_and_by_its_number(self) -> None:
        self.assert_refused({**self.FITTING, 0: ("r", 1)}, "the mapping has q[0] twice")

    def test_a_value_that_is_no_colour_with_a_position(self) -> None:
        for value in [
            ("q", 1),
            ("red", 1),
            ("rb", 1),
            ("", 1),
            ("r", "1"),
            ("r", 1.0),
            ("r", True),
            ("r", None),
            (1, "r"),
            ("r",),
            ("r", 1, 2),
            [],
            "r1",
            "r",
            1,
            None,
            {"r": 1},
        ]:
            with self.subTest(value=value):
                reason = f"the mapping has {value!r} for a, which is no colour of r, b, g with a position"
                self.assert_refused({**self.FITTING, "a": value}, reason)


class TestMappingInJson(unittest.TestCase):
    def assert_refused(self, text: str, reason: str) -> None:
        with self.assertRaises(ColoursError) as caught:
            read_mapping(text)
        self.assertEqual(str(caught.exception), reason)

    def test_what_is_no_json(self) -> None:
        for text in ["", "q[0]", '{"q[0]": ["r", 1]', "{'q[0]': ['r', 1]}", '{"q[0]": ["r", 1]} {}']:
            with self.subTest(text=text):
                with self.assertRaisesRegex(ColoursError, r"\Athe mapping is not read as a JSON object: .*\Z"):
                    read_mapping(text)

    def test_what_is_no_object(self) -> None:
        for text in ["[]", '[["q[0]", "r", 1]]', "null", "1", '"q[0]"']:
            with self.subTest(text=text):
                self.assert_refused(text, "the mapping is not read as a JSON object: no JSON object")

    def test_brackets_without_end(self) -> None:
        self.assert_refused("[" * 100_000, "the mapping is not read as a JSON object: nested too deeply")

    def test_a_qubit_that_stands_there_twice(self) -> None:
        text = '{"q[0]": ["r", 1], "q[1]": ["b", 1], "q[0]": ["g", 1]}'
        self.assert_refused(text, "the mapping is not read as a JSON object: 'q[0]' stands there twice")

    def test_a_value_that_is_no_colour_with_a_position(self) -> None:
        for written, read in [
            ("1", "1"),
            ('"r1"', "'r1'"),
            ('["r"]', "['r']"),
            ('["r", "1"]', "['r', '1']"),
            ('["r", 1.0]', "['r', 1.0]"),
            ('["r", true]', "['r', True]"),
            ('{"r": 1}', "{'r': 1}"),
            ("null", "None"),
        ]:
            with self.subTest(written=written):
                reason = f"the mapping has {read} for q[0], which is no colour of r, b, g with a position"
                self.assert_refused(f'{{"q[0]": {written}}}', reason)

    def test_two_ways_to_write_one_number(self) -> None:
        for number in ["00", "+0", " 0", "\u0660"]:
            with self.subTest(number=number):
                colours = read_mapping(f'{{"0": ["r", 1], "{number}": ["b", 1]}}')
                with self.assertRaises(ColoursError) as caught:
                    from_qasm("qreg q[1]; h q; h q;", colours=colours)
                reason = f"the mapping has {number!r}, which is no qubit of the circuit"
                self.assertEqual(str(caught.exception), reason)

    def test_a_number_of_5000_digits(self) -> None:
        colours = read_mapping(f'{{"{DIGITS_5000}": ["r", 1]}}')
        with self.assertRaisesRegex(ColoursError, "which is no qubit of the circuit"):
            from_qasm("qreg q[1]; h q; h q;", colours=colours)


class TestFirstOfSeveral(ErrorsCase):
    """Of several errors the first in the program is told, once every statement can be read."""

    def test_of_two_gates_that_are_not_known(self) -> None:
        reason = "'s' is none of h, x, z, cx, cz, ccx, ccz, and is not defined before"
        self.assert_told(around("s r[0]; // here\nt r[0];"), reason)

    def test_of_two_qubits(self) -> None:
        reason = "x on g[0] behind its first Hadamard"
        self.assert_told(around("x g[0]; // here\nx b[0];\nx r[0];"), reason)

    def test_of_two_on_one_qubit(self) -> None:
        reason = "x on r[0] behind its first Hadamard"
        self.assert_told(around("x r[0]; // here\nccx b[0], g[0], r[0];\nx r[0];"), reason)

    def test_of_two_colours(self) -> None:
        reason = "a cx across colours: r[0] is red, b[0] is blue"
        self.assert_told(around("cx r[0], b[0]; // here\ncz r[0], r[1];"), reason)

    def test_a_gate_between_before_a_missing_last_layer(self) -> None:
        text = "qreg r[1];\nh r;\nx r; // here\nz r;\n"
        self.assert_told(text, "x on r[0] behind its first Hadamard")

    def test_a_gate_between_before_one_behind_a_measurement(self) -> None:
        text = "qreg r[1];\nh r;\nx r; // here\nh r;\nmeasure r;\nz r;\n"
        self.assert_told(text, "x on r[0] behind its first Hadamard")

    def test_a_gate_across_colours_before_a_hadamard_between(self) -> None:
        reason = "a cx across colours: r[0] is red, b[0] is blue"
        self.assert_told(around("cx r[0], b[0]; // here\nh g[0];"), reason)

    def test_a_statement_that_cannot_be_read_before_a_hadamard_between(self) -> None:
        reason = "'t' is none of h, x, z, cx, cz, ccx, ccz, and is not defined before"
        self.assert_told(around("h g[0];\nt r[0]; // here"), reason)

    def test_a_hadamard_between_before_a_gate_across_colours(self) -> None:
        reason = "a Hadamard on g[0] between the layers, and no other closes a cz or ccz with it"
        self.assert_told(around("h g[0]; // here\ncx r[0], b[0];"), reason)


class TestFiles(unittest.TestCase):
    TOO_MANY = "more than 1000 files, or more than 64 inside each other"

    def setUp(self) -> None:
        folder = tempfile.TemporaryDirectory()
        self.addCleanup(folder.cleanup)
        self.folder = folder.name

    def path(self, *names: str) -> str:
        return os.path.join(self.folder, *names)

    def write(self, name: str, text: str) -> str:
        """Writes a file of the folder and gives its path."""
        os.makedirs(os.path.dirname(self.path(name)), exist_ok=True)
        with open(self.path(name), "w", encoding="utf-8") as file:
            file.write(text)
        return self.path(name)

    def assert_told(self, path: str, where: str, line: int, reason: str) -> None:
        """Reading the file at `path` is an error in the file `where`."""
        with self.assertRaises(QasmError) as caught:
            read_qasm(path)
        self.assertEqual(str(caught.exception), f"{where}:{line}: {reason}")

    def test_a_file_that_is_missing(self) -> None:
        missing = self.path("missing.qasm")
        self.assert_told(missing, missing, 1, f"cannot be read: {os.strerror(errno.ENOENT)}")

    def test_a_folder(self) -> None:
        self.assert_told(self.folder, self.folder, 1, f"cannot be read: {os.strerror(errno.EISDIR)}")

    def test_a_file_that_is_no_text(self) -> None:
        path = self.path("circuit.qasm")
        with open(path, "wb") as file:
            file.write("// grün\nqreg r[1];".encode("latin-1"))
        self.assert_told(path, path, 1, "is no text in UTF-8")

    def test_a_name_that_no_file_can_have(self) -> None:
        self.assert_told("a\0b", "a\0b", 1, "cannot be read: no file has this name")

    def test_an_error_in_the_file(self) -> None:
        path = self.write("circuit.qasm", "qreg r[1];\nh r;\n")
        self.assert_told(path, path, 2, "r[0] has no Hadamard of the last layer behind its gates")

    def test_an_included_file_that_is_missing(self) -> None:
        path = self.write("circuit.qasm", 'OPENQASM 2.0;\ninclude "gates.inc";\n')
        self.assert_told(path, path, 2, f"'gates.inc' cannot be read: {os.strerror(errno.ENOENT)}")

    def test_a_folder_included(self) -> None:
        path = self.write("circuit.qasm", 'include "";\n')
        self.assert_told(path, path, 1, f"'' cannot be read: {os.strerror(errno.EISDIR)}")

    def test_an_included_name_that_no_file_can_have(self) -> None:
        path = self.write("circuit.qasm", '\ninclude "a\0b";\n')
        self.assert_told(path, path, 2, "'a\0b' cannot be read: no file has this name")

    def test_a_dash_included_is_a_file_and_not_standard_input(self) -> None:
        standard_input = io.TextIOWrapper(io.BytesIO(b"qreg r[1]; h r; h r;"))
        with mock.patch("sys.stdin", standard_input), self.assertRaises(QasmError) as caught:
            from_qasm('include "-";', file="no-folder-before-its-name.qasm")
        self.assertEqual(caught.exception.reason, f"'-' cannot be read: {os.strerror(errno.ENOENT)}")

    def test_an_included_file_that_is_no_text(self) -> None:
        path = self.write("circuit.qasm", '\ninclude "gates.inc";\n')
        with open(self.path("gates.inc"), "wb") as file:
            file.write(b"// gr\xfcn\n")
        self.assert_told(path, path, 2, "'gates.inc' is no text in UTF-8")

    def test_an_error_in_an_included_file_is_told_there(self) -> None:
        path = self.write("circuit.qasm", 'qreg r[1];\ninclude "parts/layer.inc";\n')
        part = self.write("parts/layer.inc", "// a layer\n\nh r;\nt r;\n")
        reason = "'t' is none of h, x, z, cx, cz, ccx, ccz, and is not defined before"
        self.assert_told(path, part, 4, reason)

    def test_a_fault_of_the_layers_in_an_included_file_is_told_there(self) -> None:
        path = self.write("circuit.qasm", 'qreg r[1];\nh r;\ninclude "layer.inc";\nh r;\n')
        part = self.write("layer.inc", "z r;\nx r;\n")
        self.assert_told(path, part, 2, "x on r[0] behind its first Hadamard")

    def test_an_included_file_ends_before_its_statement(self) -> None:
        path = self.write("circuit.qasm", 'qreg r[1];\ninclude "layer.inc";\nr;\n')
        part = self.write("layer.inc", "h")
        self.assert_told(path, part, 1, "a qubit or register expected, found the end of the file")

    def test_a_file_that_includes_itself(self) -> None:
        path = self.write("circuit.qasm", 'qreg r[1];\ninclude "circuit.qasm";\n')
        self.assert_told(path, path, 2, "'circuit.qasm' includes itself")

    def test_a_file_that_includes_itself_by_another_path(self) -> None:
        path = self.write("circuit.qasm", 'qreg r[1];\ninclude "./parts/../circuit.qasm";\n')
        self.assert_told(path, path, 2, "'./parts/../circuit.qasm' includes itself")

    def test_an_included_file_that_includes_itself(self) -> None:
        path = self.write("circuit.qasm", 'qreg r[1];\ninclude "gates.inc";\n')
        part = self.write("gates.inc", '\n\ninclude "gates.inc";\n')
        self.assert_told(path, part, 3, "'gates.inc' includes itself")

    def test_two_included_files_that_include_each_other(self) -> None:
        path = self.write("circuit.qasm", 'qreg r[1];\ninclude "first.inc";\n')
        self.write("first.inc", 'include "second.inc";\n')
        second = self.write("second.inc", '\ninclude "first.inc";\n')
        self.assert_told(path, second, 2, "'first.inc' includes itself")

    def test_a_file_and_an_included_one_that_include_each_other(self) -> None:
        path = self.write("circuit.qasm", 'qreg r[1];\ninclude "part.inc";\n')
        part = self.write("part.inc", '\n\ninclude "circuit.qasm";\n')
        self.assert_told(path, part, 3, "'circuit.qasm' includes itself")

    def test_a_definition_that_is_included_twice(self) -> None:
        path = self.write("circuit.qasm", 'include "gates.inc";\ninclude "gates.inc";\nqreg r[1];\n')
        part = self.write("gates.inc", "\ngate pair a, b { cz a, b; }\n")
        self.assert_told(path, part, 2, "'pair' is defined twice")

    def test_a_hundred_files_inside_each_other(self) -> None:
        for number in range(100):
            self.write(f"deep{number}.inc", f'include "deep{number + 1}.inc";\n')
        self.write("deep100.inc", "qreg r[1]; h r; h r;\n")
        with self.assertRaises(QasmError) as caught:
            read_qasm(self.path("deep0.inc"))
        self.assertEqual(caught.exception.reason, self.TOO_MANY)

    def test_files_that_double_at_each_level(self) -> None:
        self.write("twice0.inc", "")
        for number in range(1, 41):
            self.write(f"twice{number}.inc", f'include "twice{number - 1}.inc";\n' * 2)
        with self.assertRaises(QasmError) as caught:
            read_qasm(self.path("twice40.inc"))
        self.assertEqual(caught.exception.reason, self.TOO_MANY)


class TestEveryCut(unittest.TestCase):
    """A file that is cut off, or that has lost a character, is read or is an error, and nothing else happens."""

    TEXT = """\
OPENQASM 3.0;
include "stdgates.inc";
// two blocks
gate ccz a, b, c { h c; ccx a, b, c; h c; }
gate block(x) a, b, c { ccz a, b, c; barrier a; cz b, c; /* red */ z a; }
qubit[2] r; qubit[2] b; qreg g[2];
bit[2] c; creg d[2];
reset r; x r[1];
h r; h b; h g;
block(pi / 2) r, b, g;
barrier;
cx r[0], r[1]; swap g[0], g[1];
h b[1]; cx g[0], b[1]; h b[1];
ctrl(2) @ z r[0], b[0], g[1];
h r; h b; h g;
c = measure r;
measure g -> d;
bit[2] e = measure b;
"""

    def assert_read_or_told(self, text: str) -> None:
        try:
            circuit = from_qasm(text, file=FILE)
        except QasmError as error:
            self.assertTrue(1 <= error.line <= text.count("\n") + 1, error)
        else:
            self.assertIsInstance(circuit, Circuit)
            self.assertEqual(circuit.lines[0], f"(circuit {circuit.m})")

    def test_the_whole_file_is_read(self) -> None:
        self.assertEqual(len(from_qasm(self.TEXT).gates), 12)

    def test_cut_off_at_every_byte(self) -> None:
        for end in range(len(self.TEXT)):
            with self.subTest(end=end):
                self.assert_read_or_told(self.TEXT[:end])

    def test_without_any_one_byte(self) -> None:
        for lost in range(len(self.TEXT)):
            with self.subTest(lost=lost):
                self.assert_read_or_told(self.TEXT[:lost] + self.TEXT[lost + 1 :])


if __name__ == "__main__":
    unittest.main()
