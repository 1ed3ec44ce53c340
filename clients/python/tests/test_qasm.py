"""What is read: OpenQASM 2.0 and 3.0 as tools export it and as it is written by hand."""

from __future__ import annotations

import json
import os
import pathlib
import tempfile
import unittest
from typing import Optional, Union

from waitfield import Ccz, Circuit, Cnot, Cz, Spot, StringError, Z, from_qasm, read_mapping, read_qasm

BLOCKS = """
OPENQASM 2.0;
include "qelib1.inc";
gate ccz q0,q1,q2 { h q2; ccx q0,q1,q2; h q2; }
qreg r[2];
qreg b[2];
qreg g[2];
creg c[6];
x r[1];
h r[0];
h r[1];
h b[0];
h b[1];
h g[0];
h g[1];
ccz r[0],b[0],g[0];
ccz r[1],b[1],g[1];
barrier r[0],r[1],b[0],b[1],g[0],g[1];
cx r[0],r[1];
cz b[0],g[0];
z b[1];
h r[0];
h r[1];
h b[0];
h b[1];
h g[0];
h g[1];
measure r[0] -> c[0];
measure r[1] -> c[1];
measure b[0] -> c[2];
measure b[1] -> c[3];
measure g[0] -> c[4];
measure g[1] -> c[5];
"""

BLOCKS_CCZ = "gate ccz q0,q1,q2 { h q2; ccx q0,q1,q2; h q2; }"

BLOCKS_LINES = [
    "(circuit 2)",
    "(start 01 00 00)",
    "(layer (ccz 1 1 1) (ccz 2 2 2))",
    "(layer (cnot r 1 2) (cz (b 1) (g 1)) (z (b 2)))",
]


def around(middle: str) -> str:
    """A circuit of two qubits a colour with these gates between its layers of Hadamards."""
    return f"qreg r[2]; qreg b[2]; qreg g[2];\nh r; h b; h g;\n{middle}\nh r; h b; h g;\n"


class GatesCase(unittest.TestCase):
    def assert_gates(self, middle: str, *lines: str) -> None:
        """Between the layers of Hadamards these gates are read as these lines."""
        self.assertEqual(from_qasm(around(middle)).lines, ["(circuit 2)", *lines])


class TestExports(unittest.TestCase):
    def test_openqasm_2_as_qiskit_writes_it(self) -> None:
        self.assertEqual(from_qasm(BLOCKS).lines, BLOCKS_LINES)

    def test_openqasm_3_as_qiskit_writes_it(self) -> None:
        text = """
OPENQASM 3.0;
include "stdgates.inc";
gate ccz _gate_q_0, _gate_q_1, _gate_q_2 {
  h _gate_q_2;
  ccx _gate_q_0, _gate_q_1, _gate_q_2;
  h _gate_q_2;
}
bit[6] c;
qubit[2] r;
qubit[2] b;
qubit[2] g;
x r[1];
h r[0];
h r[1];
h b[0];
h b[1];
h g[0];
h g[1];
ccz r[0], b[0], g[0];
ccz r[1], b[1], g[1];
barrier r[0], r[1], b[0], b[1], g[0], g[1];
cx r[0], r[1];
cz b[0], g[0];
z b[1];
h r[0];
h r[1];
h b[0];
h b[1];
h g[0];
h g[1];
c[0] = measure r[0];
c[1] = measure r[1];
c[2] = measure b[0];
c[3] = measure b[1];
c[4] = measure g[0];
c[5] = measure g[1];
"""
        self.assertEqual(from_qasm(text), from_qasm(BLOCKS))

    def test_openqasm_2_as_cirq_writes_it(self) -> None:
        text = """
// Generated from Cirq v1.3.0

OPENQASM 2.0;
include "qelib1.inc";


// Qubits: [q(0), q(1), q(2)]
qreg q[3];
creg m_result[3];


h q[0];
h q[1];
h q[2];

// Gate: CCZ
h q[2];
ccx q[0],q[1],q[2];
h q[2];

// Gate: CZ**1.0
cz q[0],q[1];

h q[0];
h q[1];
h q[2];

// Gate: cirq.MeasurementGate(3, cirq.MeasurementKey(name='result'), ())
measure q[0] -> m_result[0];
measure q[1] -> m_result[1];
measure q[2] -> m_result[2];
"""
        circuit = from_qasm(text, colours={"q[0]": ("r", 1), "q[1]": ("g", 1), "q[2]": ("b", 1)})
        self.assertEqual(circuit.lines, ["(circuit 1)", "(ccz 1 1 1)", "(cz (r 1) (g 1))"])
        self.assertEqual(circuit.strings("110"), ("1", "0", "1"))

    def test_openqasm_3_by_hand(self) -> None:
        text = """
OPENQASM 3;
qubit[2] r; qubit[2] b; qubit[2] g;
x r[1];                       // a starting one
h r; h b; h g;
ctrl(2) @ z r, b, g;
barrier;
ctrl @ x r[0], r[1];
ctrl @ z b[0], g[0];
z b[1];
h r; h b; h g;
bit[2] red = measure r; bit[2] blue = measure b; bit[2] green = measure g;
"""
        self.assertEqual(from_qasm(text), from_qasm(BLOCKS))


class TestText(unittest.TestCase):
    REST = "qreg r[1]; qreg b[1]; h r; h b; cz r, b; h r; h b;"
    LINES = ["(circuit 1)", "(cz (r 1) (b 1))"]

    def test_versions(self) -> None:
        for version in ["2.0", "2", "3", "3.0", "3.1"]:
            with self.subTest(version=version):
                self.assertEqual(from_qasm(f"OPENQASM {version}; {self.REST}").lines, self.LINES)

    def test_no_version(self) -> None:
        self.assertEqual(from_qasm(self.REST).lines, self.LINES)

    def test_a_version_behind_comments(self) -> None:
        self.assertEqual(from_qasm(f"// one\n\n/* two */ OPENQASM 2.0;\n{self.REST}").lines, self.LINES)

    def test_a_statement_on_many_lines(self) -> None:
        self.assertEqual(from_qasm("OPENQASM 2.0 ; " + self.REST.replace(" ", "\n\t")).lines, self.LINES)

    def test_as_few_spaces_as_can_be(self) -> None:
        text = "OPENQASM 2.0;qreg r[1];qreg b[1];h r;h b;cz r,b;h r;h b;"
        self.assertEqual(from_qasm(text).lines, self.LINES)

    def test_comments_to_the_end_of_the_line(self) -> None:
        commented = "// a circuit /* of\n" + self.REST.replace(";", "; // h r; */ \n//\n") + "// the end"
        self.assertEqual(from_qasm(commented).lines, self.LINES)

    def test_comments_between_strokes_and_stars(self) -> None:
        commented = "/* // h r;\n * h b; **/" + self.REST.replace(" ", "/**/ /*/ h r \n */").replace(";", "/* // */;")
        self.assertEqual(from_qasm(commented).lines, self.LINES)

    def test_names_of_any_letters_digits_and_underscores(self) -> None:
        text = "qubit[1] _q0; qubit β; h _q0; h β; cz _q0, β; h _q0; h β;"
        circuit = from_qasm(text, colours={"_q0[0]": ("r", 1), "β": ("b", 1)})
        self.assertEqual(circuit.lines, self.LINES)


class FilesCase(unittest.TestCase):
    def setUp(self) -> None:
        folder = tempfile.TemporaryDirectory()
        self.addCleanup(folder.cleanup)
        self.folder = folder.name

    def write(self, name: str, text: str, encoding: str = "utf-8") -> str:
        """Writes a file of the folder, its line ends as they are, and gives its path."""
        path = os.path.join(self.folder, name)
        os.makedirs(os.path.dirname(path), exist_ok=True)
        with open(path, "w", encoding=encoding, newline="") as file:
            file.write(text)
        return path


class TestFiles(FilesCase):
    def test_a_file_is_read_as_its_text_is(self) -> None:
        self.assertEqual(read_qasm(self.write("circuit.qasm", BLOCKS)), from_qasm(BLOCKS))

    def test_a_path_may_be_a_path_object(self) -> None:
        path = pathlib.Path(self.write("circuit.qasm", BLOCKS))
        self.assertEqual(read_qasm(path), from_qasm(BLOCKS))

    def test_a_file_with_a_byte_order_mark(self) -> None:
        path = self.write("circuit.qasm", BLOCKS, encoding="utf-8-sig")
        self.assertEqual(read_qasm(path), from_qasm(BLOCKS))

    def test_a_file_with_other_line_ends(self) -> None:
        for line_end in ["\r\n", "\r"]:
            with self.subTest(line_end=line_end):
                text = BLOCKS.replace("x r[1];", "x r[1]; // a starting one").replace("\n", line_end)
                self.assertEqual(read_qasm(self.write("circuit.qasm", text)), from_qasm(BLOCKS))
                self.assertEqual(from_qasm(text), from_qasm(BLOCKS))

    def test_a_comment_of_other_letters(self) -> None:
        path = self.write("circuit.qasm", f"// rot, blau, grün\n{BLOCKS}")
        self.assertEqual(read_qasm(path), from_qasm(BLOCKS))

    def test_a_mapping_is_for_files_too(self) -> None:
        path = self.write("circuit.qasm", "qubit q; h q; h q;")
        self.assertEqual(read_qasm(path, colours={"q": ("g", 2)}).qubits, {"q": Spot("g", 2)})


class TestIncludes(FilesCase):
    CALL = "qreg r[1]; qreg b[1]; h r; h b; pair r, b; h r; h b;"
    LINES = ["(circuit 1)", "(cz (r 1) (b 1))"]
    PAIR = "gate pair a, b { cz a, b; }"

    def test_the_standard_libraries(self) -> None:
        for include in ['"qelib1.inc"', '"stdgates.inc"', "'qelib1.inc'"]:
            with self.subTest(include=include):
                self.assertEqual(from_qasm(f"include {include}; {self.PAIR} {self.CALL}").lines, self.LINES)

    def test_a_library_may_be_included_twice(self) -> None:
        text = f'include "qelib1.inc"; include "qelib1.inc"; {self.PAIR} {self.CALL}'
        self.assertEqual(from_qasm(text).lines, self.LINES)

    def test_a_file_beside_the_circuit(self) -> None:
        self.write("gates.inc", self.PAIR)
        path = self.write("circuit.qasm", f'include "gates.inc"; {self.CALL}')
        self.assertEqual(read_qasm(path).lines, self.LINES)

    def test_a_file_beside_the_name_that_a_text_is_given(self) -> None:
        self.write("gates.inc", self.PAIR)
        named = os.path.join(self.folder, "no-file-itself.qasm")
        self.assertEqual(from_qasm(f'include "gates.inc"; {self.CALL}', file=named).lines, self.LINES)

    def test_a_file_with_a_version_and_a_library_of_its_own(self) -> None:
        self.write("gates.inc", f'OPENQASM 2.0;\ninclude "qelib1.inc";\n{self.PAIR}')
        path = self.write("circuit.qasm", f'OPENQASM 2.0; include "gates.inc"; {self.CALL}')
        self.assertEqual(read_qasm(path).lines, self.LINES)

    def test_an_empty_file(self) -> None:
        self.write("empty.inc", "// nothing\n")
        path = self.write("circuit.qasm", f'include "empty.inc"; {self.PAIR} {self.CALL} include "empty.inc";')
        self.assertEqual(read_qasm(path).lines, self.LINES)

    def test_files_in_folders_are_looked_for_beside_what_includes_them(self) -> None:
        self.write("gates/all.inc", 'include "pairs/pair.inc";\ninclude "../layer.inc";')
        self.write("gates/pairs/pair.inc", self.PAIR)
        self.write("layer.inc", "gate layer a { h a; }")
        path = self.write("circuit.qasm", f'include "gates/all.inc"; {self.CALL.replace("h r", "layer r")}')
        self.assertEqual(read_qasm(path).lines, self.LINES)

    def test_a_file_by_its_whole_path(self) -> None:
        gates = self.write("elsewhere/gates.inc", self.PAIR)
        path = self.write("circuit.qasm", f'include "{gates}"; {self.CALL}')
        self.assertEqual(read_qasm(path).lines, self.LINES)

    def test_a_layer_may_be_included_twice(self) -> None:
        self.write("layer.inc", "h r; h b;")
        text = 'qreg r[1]; qreg b[1]; include "layer.inc"; cz r, b; include "layer.inc";'
        self.assertEqual(read_qasm(self.write("circuit.qasm", text)).lines, self.LINES)


class TestWholeRegisters(GatesCase):
    def test_a_gate_on_every_qubit_of_a_register(self) -> None:
        self.assert_gates("z g;", "(layer (z (g 1)) (z (g 2)))")

    def test_a_gate_on_registers_side_by_side(self) -> None:
        self.assert_gates("cz g, b;", "(layer (cz (b 1) (g 1)) (cz (b 2) (g 2)))")
        self.assert_gates("ccz b, g, r;", "(layer (ccz 1 1 1) (ccz 2 2 2))")

    def test_a_qubit_with_a_register(self) -> None:
        self.assert_gates("cz r[1], b;", "(cz (r 2) (b 1))", "(cz (r 2) (b 2))")
        self.assert_gates("cz b, r[1];", "(cz (r 2) (b 1))", "(cz (r 2) (b 2))")
        self.assert_gates("ccz r, b[1], g;", "(ccz 1 2 1)", "(ccz 2 2 2)")

    def test_a_single_qubit_with_a_register(self) -> None:
        text = "qubit[2] r; qubit b; h r; h b; cz r, b; h r; h b;"
        self.assertEqual(from_qasm(text).lines, ["(circuit 2)", "(cz (r 1) (b 1))", "(cz (r 2) (b 1))"])

    def test_a_gate_of_a_definition_on_registers(self) -> None:
        middle = "gate block a, b, c { ccz a, b, c; z a; } block r, b, g;"
        self.assert_gates(middle, "(ccz 1 1 1)", "(layer (z (r 1)) (ccz 2 2 2))", "(z (r 2))")

    def test_registers_of_one_qubit(self) -> None:
        text = "qreg r[1]; qreg b[1]; qreg g[1]; h r; h b; h g; ccz r, b, g; h r; h b; h g;"
        self.assertEqual(from_qasm(text).lines, ["(circuit 1)", "(ccz 1 1 1)"])

    def test_single_qubits_are_position_1_of_their_colour(self) -> None:
        text = "qubit r; qubit b; qubit g; h r; h b; h g; ccz r, b, g; h r; h b; h g;"
        circuit = from_qasm(text)
        self.assertEqual(circuit.lines, ["(circuit 1)", "(ccz 1 1 1)"])
        self.assertEqual(circuit.qubits, {"r": Spot("r", 1), "b": Spot("b", 1), "g": Spot("g", 1)})


class TestStart(unittest.TestCase):
    def assert_start(self, before: str, start: tuple[str, str, str]) -> None:
        """Before the first Hadamards these statements bring the qubits to this start."""
        circuit = from_qasm(f"qreg r[2]; qreg b[2]; {before} h r; h b; z r[0]; h r; h b;")
        self.assertEqual(circuit.start, start)
        line = [f"(start {' '.join(start)})"] if "1" in "".join(start) else []
        self.assertEqual(circuit.lines, ["(circuit 2)", *line, "(z (r 1))"])

    def test_zeros(self) -> None:
        self.assert_start("", ("00", "00", "00"))

    def test_x_is_a_starting_one(self) -> None:
        self.assert_start("x r[1]; x b[0];", ("01", "10", "00"))

    def test_x_on_a_register(self) -> None:
        self.assert_start("x b;", ("00", "11", "00"))

    def test_x_twice_is_nothing(self) -> None:
        self.assert_start("x r[1]; x r[1];", ("00", "00", "00"))

    def test_x_three_times_is_a_one(self) -> None:
        self.assert_start("x r; x r; x r;", ("11", "00", "00"))

    def test_x_in_a_definition(self) -> None:
        self.assert_start("gate flip a, b { x a; barrier a; x b; } flip r[1], b[1];", ("01", "01", "00"))

    def test_reset_first_is_a_zero(self) -> None:
        self.assert_start("reset r; reset b[0];", ("00", "00", "00"))

    def test_x_behind_a_reset(self) -> None:
        self.assert_start("reset r; x r[0];", ("10", "00", "00"))

    def test_barriers_anywhere(self) -> None:
        self.assert_start("barrier r; x r[0]; barrier; x r[1]; barrier r, b[1];", ("11", "00", "00"))

    def test_x_on_a_qubit_when_others_have_their_hadamards(self) -> None:
        circuit = from_qasm("qreg r[2]; h r[0]; z r[0]; x r[1]; h r[1]; cx r[0], r[1]; h r;")
        self.assertEqual(circuit.lines, ["(circuit 2)", "(start 01 00 00)", "(z (r 1))", "(cnot r 1 2)"])


class TestDefinitions(GatesCase):
    def test_a_definition(self) -> None:
        self.assert_gates("gate pair a, b { cz a, b; } pair g[1], r[0];", "(cz (r 1) (g 2))")

    def test_definitions_in_definitions(self) -> None:
        middle = """
            gate single a { z a; }
            gate pair a, b { single b; cz a, b; }
            gate block a, b, c { pair b, c; ccz a, b, c; pair c, a; }
            block r[0], b[1], g[0];
        """
        lines = ["(z (g 1))", "(cz (b 2) (g 1))", "(ccz 1 2 1)", "(z (r 1))", "(cz (r 1) (g 1))"]
        self.assert_gates(middle, *lines)

    def test_qubits_of_a_definition_may_have_the_names_of_registers(self) -> None:
        self.assert_gates("gate pair b, r { cx b, r; } pair r[0], r[1];", "(cnot r 1 2)")

    def test_a_definition_with_nothing_in_it(self) -> None:
        self.assert_gates("gate nothing a, b { } nothing r[0], r[1]; z r[0];", "(z (r 1))")

    def test_parameters_that_are_not_used(self) -> None:
        middle = "gate turn(theta, phi) a { z a; } turn(-pi / 2, sin(3.5e-1)) r[0];"
        self.assert_gates(middle, "(z (r 1))")

    def test_parameters_in_a_definition(self) -> None:
        middle = """
            gate turn(x) a { z a; }
            gate turns(x, y) a, b { turn(x + y) a; turn(2 * y) b; }
            turns(1, .5) r[0], b[0];
        """
        self.assert_gates(middle, "(layer (z (r 1)) (z (b 1)))")

    def test_empty_brackets_are_no_parameters(self) -> None:
        middle = "gate turn() a { z a; } turn() r[0]; turn r[1]; z() b[0];"
        self.assert_gates(middle, "(layer (z (r 1)) (z (r 2)) (z (b 1)))")

    def test_a_definition_that_is_not_used_may_be_anything(self) -> None:
        middle = """
            gate u3(theta, phi, lambda) q { U(theta, phi, lambda) q; }
            gate rz(phi) a { gphase(-phi / 2); u1(phi) a; }
            gate unlike a { for int i in [0:3] { if (i == 2) { measure a; } } 1 2 3 }
            z r[0];
        """
        self.assert_gates(middle, "(z (r 1))")

    def test_an_opaque_gate_that_is_not_used(self) -> None:
        self.assert_gates("opaque pulse(x, y) a, b; opaque wait a; z r[0];", "(z (r 1))")

    def test_a_definition_may_be_named_as_a_gate_of_the_libraries(self) -> None:
        self.assert_gates("gate s a { z a; } s r[0];", "(z (r 1))")

    def test_a_whole_layer_in_a_definition(self) -> None:
        text = "gate all a, b { h a; h b; } qreg r[1]; qreg b[1]; all r, b; cz r, b; all r[0], b[0];"
        self.assertEqual(from_qasm(text).lines, ["(circuit 1)", "(cz (r 1) (b 1))"])

    def test_swap_is_three_cnots(self) -> None:
        self.assert_gates("swap g[0], g[1];", "(cnot g 1 2)", "(cnot g 2 1)", "(cnot g 1 2)")

    def test_swap_may_be_defined(self) -> None:
        middle = "gate swap a, b { cx b, a; cx a, b; cx b, a; } swap g[0], g[1];"
        self.assert_gates(middle, "(cnot g 2 1)", "(cnot g 1 2)", "(cnot g 2 1)")

    def test_swap_is_that_of_the_libraries_until_it_is_defined(self) -> None:
        middle = "swap g[0], g[1]; barrier; gate swap a, b { cx b, a; } swap g[0], g[1];"
        self.assert_gates(middle, "(cnot g 1 2)", "(cnot g 2 1)", "(cnot g 1 2)", "(cnot g 2 1)")

    def test_the_built_in_cx_of_openqasm_2(self) -> None:
        self.assert_gates("CX b[1], b[0];", "(cnot b 2 1)")

    def test_controls(self) -> None:
        self.assert_gates("ctrl @ x r[0], r[1];", "(cnot r 1 2)")
        self.assert_gates("ctrl @ z r[0], g[1];", "(cz (r 1) (g 2))")
        self.assert_gates("ctrl @ cz b[0], r[0], g[1];", "(ccz 1 1 2)")
        self.assert_gates("ctrl(2) @ z g[0], r[1], b[0];", "(ccz 2 1 1)")
        self.assert_gates("ctrl @ ctrl(1) @ z g[0], r[1], b[0];", "(ccz 2 1 1)")
        self.assert_gates("h g[0]; ctrl @ cx r[0], b[0], g[0]; h g[0];", "(ccz 1 1 1)")

    def test_64_definitions_inside_each_other(self) -> None:
        definitions = "".join(f"gate deep{n} a {{ deep{n - 1} a; }}\n" for n in range(1, 64))
        self.assert_gates(f"gate deep0 a {{ z a; }}\n{definitions}deep63 r[0];", "(z (r 1))")


class TestDefinitionsOfKnownGates(unittest.TestCase):
    """A definition of a gate that is known by its name is taken if it is that gate."""

    def assert_taken(self, *definitions: str) -> None:
        for definition in definitions:
            with self.subTest(definition=definition):
                circuit = from_qasm(BLOCKS.replace(BLOCKS_CCZ, definition))
                self.assertEqual(circuit.lines, BLOCKS_LINES)

    def test_ccz_with_any_of_its_qubits_as_target(self) -> None:
        self.assert_taken(
            "gate ccz a, b, c { h a; ccx b, c, a; h a; }",
            "gate ccz a, b, c { h b; ccx a, c, b; h b; }",
            "gate ccz a, b, c { h c; ccx b, a, c; h c; }",
        )

    def test_ccz_by_controls(self) -> None:
        self.assert_taken(
            "gate ccz a, b, c { ctrl(2) @ z a, b, c; }",
            "gate ccz a, b, c { ctrl @ cz c, a, b; }",
            "gate ccz a, b, c { h c; ctrl @ ctrl @ x a, b, c; h c; }",
        )

    def test_ccz_by_other_definitions(self) -> None:
        self.assert_taken("gate both(x) a, b, c { h c; ccx a, b, c; h c; } gate ccz a, b, c { both(0) c, b, a; }")

    def test_ccz_by_more_gates_than_it_needs(self) -> None:
        self.assert_taken(
            "gate ccz a, b, c { barrier a, b; h c; h a; h a; ccx a, b, c; barrier c; h c; }",
            "gate ccz a, b, c { x a; h c; ccx a, b, c; h c; x a; cz b, c; }",
            "gate ccz a, b, c { cx a, b; h c; ccx a, b, c; h c; cx a, b; cz a, c; }",
        )

    def test_cz(self) -> None:
        self.assert_taken(
            "gate cz a, b { h b; cx a, b; h b; }",
            "gate cz a, b { h a; CX b, a; h a; }",
            "gate cz a, b { ctrl @ z a, b; }",
            "gate cz a, b { cx a, b; h b; cx a, b; h b; cx a, b; z a; }",
        )

    def test_cx(self) -> None:
        self.assert_taken(
            "gate cx c, t { CX c, t; }",
            "gate cx a, b { h b; cz a, b; h b; }",
            "gate cx a, b { h a; h b; CX b, a; h a; h b; }",
            "gate CX a, b { h b; cz a, b; h b; }",
        )

    def test_ccx(self) -> None:
        self.assert_taken("gate ccx a, b, c { h c; ccz a, b, c; h c; }")

    def test_x_and_z(self) -> None:
        self.assert_taken("gate z a { h a; x a; h a; }", "gate x a { h a; z a; h a; }")


class TestPairsOfHadamards(GatesCase):
    def test_ccx_between_them_is_ccz(self) -> None:
        self.assert_gates("h g[0]; ccx r[1], b[0], g[0]; h g[0];", "(ccz 2 1 1)")
        self.assert_gates("h b[0]; ccx r[1], g[0], b[0]; h b[0];", "(ccz 2 1 1)")
        self.assert_gates("h r[1]; ccx g[0], b[0], r[1]; h r[1];", "(ccz 2 1 1)")

    def test_cx_between_them_is_cz(self) -> None:
        self.assert_gates("h b[0]; cx r[1], b[0]; h b[0];", "(cz (r 2) (b 1))")
        self.assert_gates("h r[1]; cx b[0], r[1]; h r[1];", "(cz (r 2) (b 1))")

    def test_x_between_them_is_z(self) -> None:
        self.assert_gates("h b[1]; x b[1]; h b[1];", "(z (b 2))")

    def test_cx_behind_them_is_a_cnot(self) -> None:
        self.assert_gates("h b[0]; cx r[0], b[0]; h b[0]; cx b[1], b[0];", "(cz (r 1) (b 1))", "(cnot b 2 1)")

    def test_several_gates_between_two(self) -> None:
        middle = "h g[0]; cx r[0], g[0]; ccx b[1], r[1], g[0]; x g[0]; cx b[0], g[0]; h g[0];"
        self.assert_gates(middle, "(cz (r 1) (g 1))", "(ccz 2 2 1)", "(z (g 1))", "(cz (b 1) (g 1))")

    def test_one_pair_behind_the_other(self) -> None:
        middle = "h g[0]; cx r[0], g[0]; h g[0]; h g[0]; cx b[0], g[0]; h g[0];"
        self.assert_gates(middle, "(cz (r 1) (g 1))", "(cz (b 1) (g 1))")

    def test_operations_on_other_qubits_in_between(self) -> None:
        middle = "h g[0]; z r[0]; cx r[1], r[0]; ccx r[0], b[0], g[0]; cz b[0], g[1]; barrier g; h g[0];"
        self.assert_gates(middle, "(z (r 1))", "(cnot r 2 1)", "(ccz 1 1 1)", "(cz (b 1) (g 2))")

    def test_pairs_that_overlap(self) -> None:
        middle = "h g[0]; h b[1]; cx r[0], g[0]; cx r[1], b[1]; h g[0]; h b[1];"
        self.assert_gates(middle, "(layer (cz (r 1) (g 1)) (cz (r 2) (b 2)))")

    def test_a_target_that_is_a_control_of_another_pair_afterwards(self) -> None:
        middle = "h g[0]; cx r[0], g[0]; h g[0]; h b[0]; ccx r[0], g[0], b[0]; h b[0];"
        self.assert_gates(middle, "(cz (r 1) (g 1))", "(ccz 1 1 1)")

    def test_a_pair_of_which_half_is_in_a_definition(self) -> None:
        middle = "gate half a, b { h b; cx a, b; } half r[0], g[1]; h g[1];"
        self.assert_gates(middle, "(cz (r 1) (g 2))")

    def test_first_and_last_hadamards_of_other_qubits_in_between(self) -> None:
        text = """
            qreg r[1]; qreg b[1]; qreg g[1];
            h g; h g; h r; cx r, g; h r; h b; h g; cz b, g; h b; h g;
        """
        self.assertEqual(from_qasm(text).lines, ["(circuit 1)", "(cz (r 1) (g 1))", "(cz (b 1) (g 1))"])


class TestLayers(GatesCase):
    def test_a_layer_ends_before_a_gate_on_a_qubit_of_it(self) -> None:
        middle = "z r[0]; cz r[1], b[0]; cx g[0], g[1]; z b[0]; z b[1]; ccz r[0], b[1], g[0];"
        lines = ["(layer (z (r 1)) (cz (r 2) (b 1)) (cnot g 1 2))", "(layer (z (b 1)) (z (b 2)))", "(ccz 1 2 1)"]
        self.assert_gates(middle, *lines)

    def test_a_gate_stays_behind_those_before_it(self) -> None:
        self.assert_gates("z r[0]; z r[0]; z b[0];", "(z (r 1))", "(layer (z (r 1)) (z (b 1)))")

    def test_a_barrier_ends_a_layer(self) -> None:
        self.assert_gates("z r[0]; barrier r, b, g; z r[1];", "(z (r 1))", "(z (r 2))")

    def test_a_barrier_on_other_qubits_ends_a_layer(self) -> None:
        self.assert_gates("z r[0]; barrier g[1]; z r[1];", "(z (r 1))", "(z (r 2))")

    def test_a_barrier_without_qubits_is_on_all(self) -> None:
        self.assert_gates("z r[0]; barrier; z r[1]; z b[0];", "(z (r 1))", "(layer (z (r 2)) (z (b 1)))")

    def test_a_barrier_in_a_definition_ends_a_layer(self) -> None:
        self.assert_gates("gate pair a, b { z a; barrier a, b; z b; } pair r[0], r[1];", "(z (r 1))", "(z (r 2))")

    def test_two_barriers_are_as_one(self) -> None:
        self.assert_gates("z r[0]; barrier r; barrier b; z r[1];", "(z (r 1))", "(z (r 2))")

    def test_barriers_at_the_ends_are_nothing(self) -> None:
        self.assert_gates("barrier r; z r[0]; z r[1]; barrier;", "(layer (z (r 1)) (z (r 2)))")

    def test_48_gates_in_a_layer(self) -> None:
        text = "qreg r[16]; qreg b[16]; qreg g[16]; h r; h b; h g; z r; z b; z g; h r; h b; h g;"
        circuit = from_qasm(text)
        gates = " ".join(f"(z ({colour} {position}))" for colour in "rbg" for position in range(1, 17))
        self.assertEqual(circuit.lines, ["(circuit 16)", f"(layer {gates})"])
        self.assertEqual([len(layer) for layer in circuit.layers], [48])

    def test_layers_are_the_gates_in_their_order(self) -> None:
        circuit = from_qasm(around("ccz g[1], r[0], b[0]; cx b[0], b[1]; cz g[0], r[0]; z g[1];"))
        ccz, cnot, cz, z = Ccz(1, 1, 2), Cnot("b", 1, 2), Cz(Spot("r", 1), Spot("g", 1)), Z(Spot("g", 2))
        self.assertEqual(circuit.gates, (ccz, cnot, cz, z))
        self.assertEqual(circuit.layers, [[ccz], [cnot, cz, z]])

    def test_no_gates(self) -> None:
        self.assert_gates("")
        self.assertEqual(from_qasm(around("")).layers, [])


class TestDigits(unittest.TestCase):
    """What the digits of a measured string are."""

    def circuit(self, measured: str) -> Circuit:
        text = "qreg r[2]; qreg b[1]; qreg g[1]; creg c[2]; creg d[3]; h r; h b; h g; h r; h b; h g;"
        return from_qasm(text + measured)

    def assert_digits(self, measured: str, *qubits: Optional[tuple[str, int]]) -> None:
        """With these measurements the digits from the left are these qubits."""
        self.assertEqual(self.circuit(measured).digits, qubits)

    def test_classical_bits_in_the_order_of_their_declaration(self) -> None:
        measured = "measure b -> d[2]; measure g -> c[1]; measure r[1] -> d[0]; measure r[0] -> d[1];"
        self.assert_digits(measured, None, ("g", 1), ("r", 2), ("r", 1), ("b", 1))

    def test_bits_that_nothing_is_measured_into(self) -> None:
        self.assert_digits("measure r[0] -> c[0];", ("r", 1), None, None, None, None)

    def test_a_register_into_a_register(self) -> None:
        self.assert_digits("measure r -> c;", ("r", 1), ("r", 2), None, None, None)

    def test_a_register_of_one_into_a_bit(self) -> None:
        self.assert_digits("measure b -> d[1];", None, None, None, ("b", 1), None)

    def test_assignments(self) -> None:
        self.assert_digits("c = measure r; d[2] = measure b[0];", ("r", 1), ("r", 2), None, None, ("b", 1))

    def test_bits_declared_with_their_measurement(self) -> None:
        measured = "bit[2] e = measure r; bit f = measure g[0];"
        self.assert_digits(measured, None, None, None, None, None, ("r", 1), ("r", 2), ("g", 1))

    def test_without_measurements_every_qubit_has_a_digit(self) -> None:
        self.assert_digits("", ("r", 1), ("r", 2), ("b", 1), ("g", 1))

    def test_measurements_into_no_bits_are_as_none(self) -> None:
        self.assert_digits("measure r; measure b[0]; measure g;", ("r", 1), ("r", 2), ("b", 1), ("g", 1))

    def test_qubits_may_be_measured_before_others_have_their_gates(self) -> None:
        text = "qreg r[1]; qreg b[1]; creg c[2]; h r; h r; measure r -> c[1]; h b; z b; h b; measure b -> c[0];"
        circuit = from_qasm(text)
        self.assertEqual(circuit.digits, (("b", 1), ("r", 1)))
        self.assertEqual(circuit.lines, ["(circuit 1)", "(z (b 1))"])


class TestStrings(unittest.TestCase):
    MEASURED = """
        qreg r[3]; qreg b[2]; qreg g[1]; creg c[3]; creg d[4];
        h r; h b; h g; h r; h b; h g;
        measure r[2] -> c[0]; measure b[0] -> c[1]; measure g[0] -> c[2];
        measure r[0] -> d[0]; measure b[1] -> d[1]; measure r[1] -> d[3];
    """

    def setUp(self) -> None:
        self.circuit = from_qasm(self.MEASURED)

    def test_a_measured_string_by_colours(self) -> None:
        self.assertEqual(self.circuit.strings("1000000"), ("001", "000", "000"))
        self.assertEqual(self.circuit.strings("0100000"), ("000", "100", "000"))
        self.assertEqual(self.circuit.strings("0010000"), ("000", "000", "100"))
        self.assertEqual(self.circuit.strings("0001000"), ("100", "000", "000"))
        self.assertEqual(self.circuit.strings("0000100"), ("000", "010", "000"))
        self.assertEqual(self.circuit.strings("0000001"), ("010", "000", "000"))
        self.assertEqual(self.circuit.strings("1111101"), ("111", "110", "100"))

    def test_spaces_and_underscores_between_digits(self) -> None:
        self.assertEqual(self.circuit.strings("110 1001"), self.circuit.strings("1101001"))
        self.assertEqual(self.circuit.strings("110_1001"), self.circuit.strings("1101001"))

    def test_the_last_bit_leftmost(self) -> None:
        self.assertEqual(self.circuit.strings("1001 011", leftmost="last"), self.circuit.strings("110 1001"))

    def test_unread_colours_have_no_digits(self) -> None:
        self.assertEqual(self.circuit.strings("101101", unread="g"), ("111", "010"))
        self.assertEqual(self.circuit.strings("1001", unread="bg"), ("011",))
        self.assertEqual(self.circuit.strings("110", unread="rg"), ("110",))
        self.assertEqual(self.circuit.strings("011", unread="rg", leftmost="last"), ("110",))

    def test_a_one_where_nothing_is_measured(self) -> None:
        self.assert_refused("0000010", "'0000010' has a 1 at a classical bit that nothing is measured into")

    def test_too_many_or_too_few_digits(self) -> None:
        self.assert_refused("000000", "'000000' has 6 digits, and 7 are read")
        self.assert_refused("000 00000", "'000 00000' has 8 digits, and 7 are read")

    def test_what_is_no_bit_string(self) -> None:
        for bits in ["", " ", "000000x", "0000002", "0b00000", "-000000"]:
            with self.subTest(bits=bits):
                self.assert_refused(bits, f"{bits!r} is no bit string")

    def assert_refused(self, bits: str, reason: str) -> None:
        with self.assertRaises(StringError) as caught:
            self.circuit.strings(bits)
        self.assertEqual(str(caught.exception), reason)

    def test_a_qubit_that_is_not_measured(self) -> None:
        text = "qreg r[1]; qreg b[2]; creg c[2]; h r; h b; h r; h b; measure r -> c[0]; measure b[0] -> c[1];"
        circuit = from_qasm(text)
        with self.assertRaises(StringError) as caught:
            circuit.strings("00")
        reason = "b[1] is not measured, so blue is not read whole; it may be named as unread"
        self.assertEqual(str(caught.exception), reason)
        self.assertEqual(circuit.strings("1", unread="b"), ("10", "00"))

    def test_neither_first_nor_last_is_leftmost(self) -> None:
        with self.assertRaises(ValueError):
            self.circuit.strings("0000000", leftmost="left")

    def test_colours_that_cannot_be_unread(self) -> None:
        for unread in ["rbg", "gg", "x", "red"]:
            with self.subTest(unread=unread), self.assertRaises(ValueError):
                self.circuit.strings("0", unread=unread)


class TestStringsByColour(unittest.TestCase):
    def setUp(self) -> None:
        self.circuit = from_qasm("qreg r[3]; qreg b[2]; qreg g[1]; h r; h b; h g; h r; h b; h g;")

    def test_a_digit_for_each_qubit(self) -> None:
        self.assertEqual(self.circuit.strings_by_colour(["110", "01", "1"]), ("110", "010", "100"))

    def test_unread_colours_have_no_string(self) -> None:
        self.assertEqual(self.circuit.strings_by_colour(["01", "1"], unread="r"), ("010", "100"))
        self.assertEqual(self.circuit.strings_by_colour(["011"], unread="bg"), ("011",))

    def test_a_colour_without_qubits_has_no_string(self) -> None:
        circuit = from_qasm("qreg r[2]; qreg g[1]; h r; h g; h r; h g;")
        self.assertEqual(circuit.colours_read(), "rg")
        self.assertEqual(circuit.strings_by_colour(["01", "1"]), ("01", "00", "10"))
        self.assertEqual(circuit.strings_by_colour(["1"], unread="r"), ("00", "10"))

    def test_positions_without_a_qubit_have_no_digit(self) -> None:
        circuit = from_qasm("qreg q[2]; h q; h q;", colours={0: ("b", 4), 1: ("b", 2)})
        self.assertEqual(circuit.strings_by_colour(["01"]), ("0000", "0001", "0000"))

    def test_too_many_or_too_few_digits(self) -> None:
        with self.assertRaises(StringError) as caught:
            self.circuit.strings_by_colour(["110", "011", "1"])
        self.assertEqual(str(caught.exception), "'011' has 3 digits, and blue has 2 qubits")

    def test_what_is_no_bit_string(self) -> None:
        for string in ["", "2", "0 1", "x"]:
            with self.subTest(string=string):
                with self.assertRaises(StringError) as caught:
                    self.circuit.strings_by_colour(["110", "01", string])
                self.assertEqual(str(caught.exception), f"{string!r} is no bit string")

    def test_too_many_or_too_few_strings(self) -> None:
        cases: list[list[str]] = [["110", "01"], ["110", "01", "1", "0"], []]
        for strings in cases:
            with self.subTest(strings=strings), self.assertRaises(StringError):
                self.circuit.strings_by_colour(strings)


class TestMapping(unittest.TestCase):
    TEXT = "qreg q[3]; qubit a; h q; h a; ccz q[0], q[1], q[2]; cx q[0], a; h q; h a;"
    LINES = ["(circuit 2)", "(ccz 1 2 1)", "(cnot b 2 1)"]
    COLOURS = {"q[0]": ("b", 2), "q[1]": ("r", 1), "q[2]": ("g", 1), "a": ("b", 1)}

    def test_by_names(self) -> None:
        circuit = from_qasm(self.TEXT, colours=self.COLOURS)
        self.assertEqual(circuit.lines, self.LINES)
        self.assertEqual(circuit.qubits, {name: Spot(*spot) for name, spot in self.COLOURS.items()})

    def test_by_numbers_in_the_order_of_declaration(self) -> None:
        by_number = dict(enumerate(self.COLOURS.values()))
        self.assertEqual(from_qasm(self.TEXT, colours=by_number), from_qasm(self.TEXT, colours=self.COLOURS))

    def test_by_names_and_numbers(self) -> None:
        mixed: dict[Union[str, int], tuple[str, int]] = {3: ("b", 1), "q[1]": ("r", 1), 0: ("b", 2), "q[2]": ("g", 1)}
        self.assertEqual(from_qasm(self.TEXT, colours=mixed), from_qasm(self.TEXT, colours=self.COLOURS))

    def test_with_lists_as_json_has_them(self) -> None:
        from_json = json.loads(json.dumps(self.COLOURS))
        self.assertEqual(from_json["a"], ["b", 1])
        self.assertEqual(from_qasm(self.TEXT, colours=from_json), from_qasm(self.TEXT, colours=self.COLOURS))

    def test_in_json(self) -> None:
        self.assertEqual(read_mapping(json.dumps(self.COLOURS)), self.COLOURS)

    def test_in_json_by_numbers(self) -> None:
        mapping = read_mapping('{"0": ["b", 2], "1": ["r", 1], "q[2]": ["g", 1], "3": ["b", 1]}')
        self.assertEqual(from_qasm(self.TEXT, colours=mapping), from_qasm(self.TEXT, colours=self.COLOURS))

    def test_names_of_registers_are_no_colours_then(self) -> None:
        circuit = from_qasm("qreg r[1]; qreg b[1]; h r; h b; cz r, b; h r; h b;", colours={0: ("g", 3), 1: ("r", 2)})
        self.assertEqual(circuit.lines, ["(circuit 3)", "(cz (r 2) (g 3))"])

    def test_a_mapping_as_the_names_have_it_changes_nothing(self) -> None:
        by_names = from_qasm(BLOCKS)
        self.assertEqual(from_qasm(BLOCKS, colours=by_names.qubits), by_names)

    def test_m_is_the_largest_position(self) -> None:
        circuit = from_qasm("qubit q; x q; h q; h q;", colours={"q": ("g", 16)})
        self.assertEqual(circuit.m, 16)
        self.assertEqual(circuit.lines, ["(circuit 16)", f"(start {'0' * 16} {'0' * 16} {'0' * 15}1)"])

    def test_strings_have_zeros_where_there_is_no_qubit(self) -> None:
        circuit = from_qasm("qreg q[2]; h q; h q;", colours={0: ("b", 4), 1: ("r", 2)})
        self.assertEqual(circuit.strings("11"), ("0100", "0001", "0000"))


if __name__ == "__main__":
    unittest.main()
