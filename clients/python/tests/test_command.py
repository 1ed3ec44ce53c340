"""The command line: what each command prints, its exit status, and errors that are one line."""

from __future__ import annotations

import contextlib
import io
import os
import pty
import signal
import subprocess
import sys
import unittest
from pathlib import Path
from typing import NamedTuple, Optional
from unittest import mock

import waitfield
from waitfield.command import main
from waitfield.progress import Bar

from . import fakes
from .fakes import FakeCase, answers, fake

# The folder of the package.
CLIENT = Path(__file__).resolve().parent.parent

ONE_CCZ = """OPENQASM 3.0;
qubit[1] r; qubit[1] b; qubit[1] g; bit[3] c;
h r; h b; h g;
ccz r, b, g;
h r; h b; h g;
c[0] = measure r[0]; c[1] = measure b[0]; c[2] = measure g[0];
"""

# On two positions: a start, CNOTs that clash with the gates before them, and a Z behind a barrier.
TWO_BLOCKS = """OPENQASM 2.0;
include "qelib1.inc";
qreg r[2]; qreg b[2]; qreg g[2];
x r[1];
h r; h b; h g;
ccz r, b, g;
cx r[0], r[1];
cx b[0], b[1];
cz b[0], g[0];
barrier r, b, g;
z r[1];
h r; h b; h g;
"""

# One register, whose colours a mapping has to say. The last of its qubits is red, and has a Z.
MAPPED = "qubit[3] q;\nh q;\nz q[2];\nh q;\n"

# A Z on the first of two red qubits, so that 10 of red has probability 1.
TURNED = "qubit[2] r; qubit[1] g;\nh r; h g;\nz r[0];\nh r; h g;\n"

RED_ONLY = "qubit[1] r;\nh r; h r;\n"

TELLS_MORE = "('python -m waitfield --help' tells more)"


class Ran(NamedTuple):
    status: int
    out: str
    err: str


def run(*arguments: str, given: bytes = b"") -> Ran:
    """Runs a command in this process."""
    out, err = io.StringIO(), io.StringIO()
    with mock.patch.object(sys, "stdin", io.TextIOWrapper(io.BytesIO(given), encoding="utf-8")):
        with contextlib.redirect_stdout(out), contextlib.redirect_stderr(err):
            status = main(arguments)
    return Ran(status, out.getvalue(), err.getvalue())


def environment(**variables: str) -> dict[str, str]:
    """This environment without what changes Python's streams, and with these variables."""
    kept = {name: value for name, value in os.environ.items() if not name.startswith("PYTHON")}
    return {**kept, "PYTHONDONTWRITEBYTECODE": "1", **variables}


def run_apart(*arguments: str, given: bytes = b"", redirected: str = "", **variables: str) -> Ran:
    """Runs a command as `python -m waitfield` in the folder of the package, its streams redirected as by a shell."""
    # With a limit of memory, a command that would take ever more ends too.
    script = f'ulimit -v 1000000; exec "$@" {redirected}'
    ran = subprocess.run(
        ["sh", "-c", script, "sh", sys.executable, "-m", "waitfield", *arguments],
        input=given,
        stdout=subprocess.PIPE,
        stderr=subprocess.PIPE,
        cwd=CLIENT,
        env=environment(**variables),
        timeout=10,
        check=False,
    )
    return Ran(ran.returncode, ran.stdout.decode(), ran.stderr.decode())


class CommandCase(FakeCase):
    """A test with circuit files in a folder that is removed afterwards."""

    def setUp(self) -> None:
        super().setUp()
        self.one_ccz = self.write("one-ccz.qasm", ONE_CCZ)

    def write(self, name: str, text: str) -> str:
        return self.write_bytes(name, text.encode())

    def write_bytes(self, name: str, data: bytes) -> str:
        file = self.folder / name
        file.write_bytes(data)
        return str(file)

    def assert_prints(self, ran: Ran, *lines: str, status: int = 0) -> None:
        """These lines on standard output, and nothing on standard error."""
        self.assertEqual(ran, Ran(status, "".join(f"{line}\n" for line in lines), ""))

    def assert_error(self, text: str, ran: Ran) -> None:
        """One line on standard error, nothing on standard output, and exit status 1."""
        self.assertEqual(ran, Ran(1, "", f"waitfield: {text}\n"))

    def assert_one_line(self, ran: Ran) -> None:
        """An error whose text is not all ours."""
        self.assertEqual((ran.status, ran.out, ran.err.count("\n")), (1, "", 1), ran.err)
        self.assertTrue(ran.err.startswith("waitfield: ") and ran.err.endswith("\n"), ran.err)


class ConvertTest(CommandCase):
    """A circuit as lines of the program."""

    def test_a_gate_that_is_alone_has_a_line_of_its_own(self) -> None:
        self.assert_prints(run("convert", self.one_ccz), "(circuit 1)", "(ccz 1 1 1)")

    def test_gates_share_a_layer_as_long_as_no_qubit_is_used_twice(self) -> None:
        self.assert_prints(
            run("convert", self.write("blocks.qasm", TWO_BLOCKS)),
            "(circuit 2)",
            "(start 01 00 00)",
            "(layer (ccz 1 1 1) (ccz 2 2 2))",
            "(layer (cnot r 1 2) (cnot b 1 2))",
            "(cz (b 1) (g 1))",
            "(z (r 2))",
        )

    def test_as_a_module_in_a_process_of_its_own(self) -> None:
        self.assert_prints(run_apart("convert", self.one_ccz), "(circuit 1)", "(ccz 1 1 1)")

    def test_a_file_from_standard_input(self) -> None:
        self.assert_prints(run_apart("convert", "-", given=ONE_CCZ.encode()), "(circuit 1)", "(ccz 1 1 1)")

    def test_a_byte_order_mark_is_passed_over(self) -> None:
        marked = self.write_bytes("marked.qasm", b"\xef\xbb\xbf" + ONE_CCZ.encode())
        self.assert_prints(run("convert", marked), "(circuit 1)", "(ccz 1 1 1)")

    def test_lines_may_end_as_on_any_system(self) -> None:
        for end in ["\n", "\r\n", "\r"]:
            with self.subTest(end=end):
                text = f"// Three qubits.\n{ONE_CCZ}".replace("\n", end)
                self.assert_prints(run("convert", self.write("ended.qasm", text)), "(circuit 1)", "(ccz 1 1 1)")

    def test_a_byte_order_mark_on_standard_input_is_passed_over(self) -> None:
        ran = run_apart("convert", "-", given=b"\xef\xbb\xbf" + ONE_CCZ.encode())
        self.assert_prints(ran, "(circuit 1)", "(ccz 1 1 1)")

    def test_colours_by_the_names_of_qubits(self) -> None:
        colours = self.write("map.json", '{"q[0]": ["g", 1], "q[1]": ["b", 2], "q[2]": ["r", 2]}')
        ran = run("convert", self.write("mapped.qasm", MAPPED), "--colours", colours)
        self.assert_prints(ran, "(circuit 2)", "(z (r 2))")

    def test_colours_by_the_numbers_of_qubits(self) -> None:
        colours = self.write("map.json", '{"0": ["g", 1], "1": ["b", 1], "2": ["r", 1]}')
        ran = run("convert", self.write("mapped.qasm", MAPPED), "--colours", colours)
        self.assert_prints(ran, "(circuit 1)", "(z (r 1))")

    def test_it_needs_no_program(self) -> None:
        with mock.patch.dict(os.environ, WAITFIELD_SESSION=str(self.folder / "none")):
            self.assert_prints(run("convert", self.one_ccz), "(circuit 1)", "(ccz 1 1 1)")


class AmplitudeTest(CommandCase):
    """Amplitudes of output strings, as they are measured or by colours."""

    def test_a_string_may_be_given_as_it_is_measured(self) -> None:
        self.assert_prints(
            run("amplitude", self.one_ccz, "110"),
            "string  amplitude  probability",
            "110     -2/2^3     1/2^4 = 0.0625",
        )

    def test_a_string_may_be_given_by_colours(self) -> None:
        self.assert_prints(
            run("amplitude", self.one_ccz, "0", "0", "0"),
            "string  amplitude  probability",
            "0 0 0   6/2^3      9/2^4 = 0.5625",
        )

    def test_several_strings_may_be_of_both_kinds(self) -> None:
        self.assert_prints(
            run("amplitude", self.one_ccz, "000", "1", "1", "0", "0_0 1"),
            "string  amplitude  probability",
            "000     6/2^3      9/2^4 = 0.5625",
            "1 1 0   -2/2^3     1/2^4 = 0.0625",
            "0_0 1   2/2^3      1/2^4 = 0.0625",
        )

    def test_probabilities_0_and_1_have_no_decimal(self) -> None:
        red_only = self.write("red.qasm", RED_ONLY)
        self.assert_prints(
            run("amplitude", red_only, "0", "1"),
            "string  amplitude  probability",
            "0       8/2^3      1",
            "1       0/2^3      0",
        )

    def test_the_leftmost_digit_may_be_the_last_bit(self) -> None:
        turned = self.write("turned.qasm", TURNED)
        for leftmost, bits in [("first", "100"), ("last", "001")]:
            with self.subTest(leftmost=leftmost):
                self.assert_prints(
                    run("amplitude", turned, bits, "--leftmost", leftmost),
                    "string  amplitude  probability",
                    f"{bits}     64/2^6     1",
                )

    def test_colours_may_come_from_a_mapping(self) -> None:
        colours = self.write("map.json", '{"0": ["g", 1], "1": ["b", 1], "2": ["r", 1]}')
        self.assert_prints(
            run("amplitude", self.write("mapped.qasm", MAPPED), "--colours", colours, "001", "1", "0", "0"),
            "string  amplitude  probability",
            "001     8/2^3      1",
            "1 0 0   8/2^3      1",
        )

    def test_a_circuit_that_is_not_measured_whole_is_asked_by_colours(self) -> None:
        partly = self.write("partly.qasm", ONE_CCZ.split("c[1] =")[0].replace("bit[3]", "bit[1]"))
        self.assert_prints(
            run("amplitude", partly, "0", "0", "0"),
            "string  amplitude  probability",
            "0 0 0   6/2^3      9/2^4 = 0.5625",
        )

    def test_a_colour_without_qubits_has_no_argument(self) -> None:
        two = self.write("two.qasm", "qubit[2] r; qubit[2] b;\nh r; h b;\nz b[1];\nh r; h b;\n")
        self.assert_prints(
            run("amplitude", two, "00", "01", "0001"),
            "string  amplitude  probability",
            "00 01   64/2^6     1",
            "0001    64/2^6     1",
        )

    def test_the_program_by_an_option_comes_before_the_variable(self) -> None:
        scripted = fake(self.folder, answers("(ok)", "(ok)", "(left 2)", "(left 1)", "(amp 4 3)"))
        with mock.patch.dict(os.environ, WAITFIELD_SESSION=str(self.folder / "none")):
            ran = run("amplitude", self.one_ccz, "000", "--session", scripted)
        self.assert_prints(ran, "string  amplitude  probability", "000     4/2^3      1/2^2 = 0.25")


class ReadoutTest(CommandCase):
    """Probabilities where one colour or two were not read."""

    def test_one_colour_may_be_unread(self) -> None:
        self.assert_prints(
            run("readout", self.one_ccz, "--unread", "r", "0", "0", "01"),
            "string  readout  probability",
            "0 0     5/2^3    5/2^3 = 0.625",
            "01      1/2^3    1/2^3 = 0.125",
        )

    def test_two_colours_may_be_unread(self) -> None:
        self.assert_prints(
            run("readout", self.one_ccz, "--unread", "r", "--unread", "b", "0", "1"),
            "string  readout  probability",
            "0       3/2^2    3/2^2 = 0.75",
            "1       1/2^2    1/2^2 = 0.25",
        )

    def test_a_colour_named_twice_is_unread_once(self) -> None:
        ran = run("readout", self.one_ccz, "--unread", "g", "--unread", "g", "00")
        self.assert_prints(ran, "string  readout  probability", "00      5/2^3    5/2^3 = 0.625")

    def test_a_circuit_without_a_qubit_that_is_read_is_an_error(self) -> None:
        ran = run_apart("readout", self.write("red.qasm", RED_ONLY), "--unread", "r", "0")
        self.assert_error("no qubit is read: the colours that have qubits are unread", ran)


class CompareTest(CommandCase):
    """Counts beside exact probabilities, and a verdict."""

    def setUp(self) -> None:
        super().setUp()
        self.counts = self.write("counts.json", '{"011": 4, "000": 12}')
        self.rows = [
            "string  shots  share       probability",
            "000     12     3/4 = 0.75  9/2^4 = 0.5625",
            "011     4      1/4 = 0.25  1/2^4 = 0.0625",
            "",
            "digits         r[0] leftmost, g[0] rightmost",
            "qubits read    3",
            "shots          16",
            "impossible     0 (shots on strings of probability 0)",
            "cross-entropy  5/2 = 2.5",
        ]

    def test_counts_stand_beside_probabilities(self) -> None:
        self.assert_prints(run("compare", self.one_ccz, self.counts), *self.rows)

    def test_a_threshold_that_is_reached_is_a_pass(self) -> None:
        ran = run("compare", self.one_ccz, self.counts, "--at-least", "5/2")
        self.assert_prints(ran, *self.rows, "verdict        pass: at least 5/2 = 2.5")

    def test_a_threshold_that_is_not_reached_is_a_fail_with_a_status_of_its_own(self) -> None:
        ran = run("compare", self.one_ccz, self.counts, "--at-least", "2.501")
        self.assert_prints(ran, *self.rows, "verdict        fail: less than 2501/1000 = 2.501", status=2)

    def test_a_script_can_tell_pass_error_and_fail_by_the_status(self) -> None:
        for threshold, status in [("2", 0), ("three", 1), ("3", 2)]:
            with self.subTest(threshold=threshold):
                ran = run_apart("compare", self.one_ccz, self.counts, "--at-least", threshold)
                self.assertEqual(ran.status, status)

    def test_a_threshold_may_be_negative(self) -> None:
        ran = run("compare", self.one_ccz, self.counts, "--at-least=-1/3")
        self.assert_prints(ran, *self.rows, "verdict        pass: at least -1/3 ~ -0.333333333333")

    def test_rounded_shares_and_impossible_shots_are_shown(self) -> None:
        counts = self.write("red.json", '{"0": 2, "1": 1}')
        self.assert_prints(
            run("compare", self.write("red.qasm", RED_ONLY), counts),
            "string  shots  share                 probability",
            "0       2      2/3 ~ 0.666666666667  1",
            "1       1      1/3 ~ 0.333333333333  0",
            "",
            "digits         r[0] leftmost, r[0] rightmost",
            "qubits read    1",
            "shots          3",
            "impossible     1 (shots on strings of probability 0)",
            "cross-entropy  1/3 ~ 0.333333333333",
        )

    def test_one_colour_may_be_unread(self) -> None:
        counts = self.write("unread.json", '{"0 0": 1}')
        self.assert_prints(
            run("compare", self.one_ccz, counts, "--unread", "b"),
            "string  shots  share  probability",
            "0 0     1      1      5/2^3 = 0.625",
            "",
            "digits         r[0] leftmost, g[0] rightmost",
            "qubits read    2",
            "shots          1",
            "impossible     0 (shots on strings of probability 0)",
            "cross-entropy  3/2 = 1.5",
        )

    def test_two_colours_may_be_unread(self) -> None:
        counts = self.write("unread.json", '{"0": 1, "1": 1}')
        lines = run("compare", self.one_ccz, counts, "--unread", "b", "--unread", "r").out.splitlines()
        self.assertEqual(lines[1], "0       1      1/2 = 0.5  3/2^2 = 0.75")
        self.assertEqual(lines[2], "1       1      1/2 = 0.5  1/2^2 = 0.25")
        self.assertEqual(lines[-1], "cross-entropy  0")

    def test_the_leftmost_digit_may_be_the_last_bit(self) -> None:
        counts = self.write("turned.json", '{"001": 1}')
        lines = run("compare", self.write("turned.qasm", TURNED), counts, "--leftmost", "last").out.splitlines()
        self.assertEqual(lines[1], "001     1      1      1")
        self.assertEqual(lines[3], "digits         g[0] leftmost, r[0] rightmost")

    def test_a_bit_that_nothing_is_measured_into_is_named_so(self) -> None:
        spare = self.write("spare.qasm", ONE_CCZ.replace("bit[3]", "bit[4]"))
        lines = run("compare", spare, self.write("spare.json", '{"0000": 1}')).out.splitlines()
        self.assertEqual(lines[3], "digits         r[0] leftmost, nothing rightmost")

    def test_byte_order_marks_are_passed_over(self) -> None:
        counts = self.write_bytes("marked.json", b'\xef\xbb\xbf{"011": 4, "000": 12}')
        self.assert_prints(run("compare", self.one_ccz, counts), *self.rows)


class UsageTest(CommandCase):
    """Arguments that cannot be taken."""

    def test_a_command_is_needed(self) -> None:
        self.assert_error(f"the following arguments are required: COMMAND {TELLS_MORE}", run())

    def test_an_unknown_command_is_an_error(self) -> None:
        ran = run("solve", self.one_ccz)
        self.assert_one_line(ran)
        self.assertIn("argument COMMAND: invalid choice: 'solve'", ran.err)

    def test_an_unknown_option_is_an_error(self) -> None:
        ran = run("convert", self.one_ccz, "--fast")
        self.assert_error(f"unrecognized arguments: --fast {TELLS_MORE}", ran)

    def test_a_file_is_needed(self) -> None:
        more = "('python -m waitfield convert --help' tells more)"
        self.assert_error(f"the following arguments are required: FILE.qasm {more}", run("convert"))

    def test_bits_are_needed(self) -> None:
        more = "('python -m waitfield amplitude --help' tells more)"
        self.assert_error(f"the following arguments are required: BITS {more}", run("amplitude", self.one_ccz))

    def test_a_readout_needs_a_colour_that_is_unread(self) -> None:
        more = "('python -m waitfield readout --help' tells more)"
        self.assert_error(f"the following arguments are required: --unread {more}", run("readout", self.one_ccz, "00"))

    def test_a_colour_that_is_none_is_an_error(self) -> None:
        ran = run("readout", self.one_ccz, "--unread", "k", "00")
        self.assert_one_line(ran)
        self.assertIn("argument --unread: invalid choice: 'k'", ran.err)

    def test_all_three_colours_unread_are_an_error(self) -> None:
        unread = ["--unread", "r", "--unread", "b", "--unread", "g"]
        self.assert_error("at most two colours may be unread", run("readout", self.one_ccz, *unread, "0"))
        counts = self.write("counts.json", '{"0": 1}')
        self.assert_error("at most two colours may be unread", run("compare", self.one_ccz, counts, *unread))

    def test_a_threshold_that_is_no_number_is_an_error(self) -> None:
        counts = self.write("counts.json", '{"000": 1}')
        more = "('python -m waitfield compare --help' tells more)"
        for threshold in ["much", "1/0", "1e999999999", "nan", ""]:
            with self.subTest(threshold=threshold):
                ran = run("compare", self.one_ccz, counts, "--at-least", threshold)
                self.assert_error(f"argument --at-least: {threshold!r} is no number {more}", ran)

    def test_the_version_is_that_of_the_package(self) -> None:
        self.assert_prints(run_apart("--version"), f"waitfield {waitfield.__version__}")

    def test_help_names_every_command(self) -> None:
        ran = run_apart("--help")
        self.assertEqual((ran.status, ran.err), (0, ""))
        for command in ["convert", "amplitude", "readout", "compare"]:
            self.assertIn(command, ran.out.split())


class FilesTest(CommandCase):
    """Files that cannot be read, or that say what cannot be taken."""

    def test_a_file_that_is_missing_is_an_error(self) -> None:
        path = str(self.folder / "none.qasm")
        self.assert_error(f"{path}:1: cannot be read: No such file or directory", run("convert", path))

    def test_a_folder_is_an_error(self) -> None:
        self.assert_error(f"{self.folder}:1: cannot be read: Is a directory", run("convert", str(self.folder)))

    def test_a_file_that_is_no_text_is_an_error(self) -> None:
        path = self.write_bytes("bytes.qasm", b"qubit r; \xff")
        self.assert_error(f"{path}:1: is no text in UTF-8", run("convert", path))

    def test_standard_input_that_is_no_text_is_an_error(self) -> None:
        ran = run_apart("convert", "-", given=b"qubit r; // \xff", PYTHONIOENCODING="utf-8:strict")
        self.assert_error("standard input:1: is no text in UTF-8", ran)

    def test_standard_input_that_is_closed_is_an_error(self) -> None:
        ran = run_apart("convert", "-", redirected="<&-")
        self.assert_error("standard input:1: is closed", ran)

    def test_a_name_of_two_lines_is_told_in_one(self) -> None:
        text = f"{self.folder}/two lines.qasm:1: cannot be read: No such file or directory"
        self.assert_error(text, run("convert", str(self.folder / "two\nlines.qasm")))

    def test_a_circuit_that_cannot_be_said_is_an_error_with_file_and_line(self) -> None:
        path = self.write("crossed.qasm", "qubit r; qubit b;\nh r; h b;\ncx r, b;\nh r; h b;\n")
        self.assert_error(f"{path}:3: a cx across colours: r is red, b is blue", run("convert", path))

    def test_a_circuit_on_standard_input_that_cannot_be_said_is_an_error(self) -> None:
        ran = run("convert", "-", given=b"qubit r;\nh r;\nt r;\n")
        self.assert_one_line(ran)
        self.assertTrue(ran.err.startswith("waitfield: standard input:3: 't' is none of "), ran.err)

    def test_nothing_on_standard_input_is_an_error(self) -> None:
        self.assert_error("standard input:1: the circuit has no qubits", run_apart("convert", "-"))

    def test_counts_that_cannot_be_read_are_an_error(self) -> None:
        path = str(self.folder / "none.json")
        ran = run("compare", self.one_ccz, path)
        self.assert_error(f"{path} cannot be read: No such file or directory", ran)

    def test_counts_that_are_no_text_are_an_error(self) -> None:
        path = self.write_bytes("bytes.json", b'{"000": 1, "\xff": 1}')
        self.assert_error(f"{path} is no text in UTF-8", run("compare", self.one_ccz, path))

    def test_counts_that_are_none_are_an_error(self) -> None:
        for text, error in [
            ("[]", "the counts are not read as a JSON object: no JSON object"),
            ("{}", "there are no shots"),
            ('{"000": 1, "000": 2}', "the counts are not read as a JSON object: '000' stands there twice"),
            ('{"000": 0.5}', "'000' has 0.5 shots, which is no whole number from 0 on"),
            ('{"0000": 1}', "'0000' has 4 digits, and 3 are read"),
            ('{"0x0": 1}', "'0x0' is no bit string"),
        ]:
            with self.subTest(text=text):
                self.assert_error(error, run("compare", self.one_ccz, self.write("counts.json", text)))

    def test_mappings_that_are_none_are_an_error(self) -> None:
        mapped = self.write("mapped.qasm", MAPPED)
        wrong = "which is no colour of r, b, g with a position"
        for text, error in [
            ("", "the mapping is not read as a JSON object: Expecting value: line 1 column 1 (char 0)"),
            ("[]", "the mapping is not read as a JSON object: no JSON object"),
            ('{"0": ["r", 1], "0": ["b", 1]}', "the mapping is not read as a JSON object: '0' stands there twice"),
            ('{"q[0]": "r1"}', f"the mapping has 'r1' for q[0], {wrong}"),
            ('{"q[0]": ["k", 1]}', f"the mapping has ['k', 1] for q[0], {wrong}"),
            ('{"q[0]": ["r", 1.0]}', f"the mapping has ['r', 1.0] for q[0], {wrong}"),
            ('{"q[3]": ["r", 1]}', "the mapping has 'q[3]', which is no qubit of the circuit"),
            ('{"0": ["r", 1], "q[0]": ["r", 1]}', "the mapping has q[0] twice"),
            ('{"0": ["r", 1], "1": ["r", 2]}', f"{mapped}:1: q[2] has no colour in the mapping"),
        ]:
            with self.subTest(text=text):
                self.assert_error(error, run("convert", mapped, "--colours", self.write("map.json", text)))

    def test_a_mapping_that_cannot_be_read_is_an_error(self) -> None:
        ran = run("convert", self.one_ccz, "--colours", str(self.folder))
        self.assert_error(f"{self.folder} cannot be read: Is a directory", ran)


class BitsTest(CommandCase):
    """Strings that do not fit the circuit."""

    def test_strings_that_do_not_fit_are_an_error(self) -> None:
        for bits, error in [
            (["00"], "'00' has 2 digits: a string has 3, or an argument for each of rbg"),
            (["0000"], "'0000' has 4 digits: a string has 3, or an argument for each of rbg"),
            (["0", "0"], "'0' has 1 digits: a string has 3, or an argument for each of rbg"),
            (["000", "1"], "'1' has 1 digits: a string has 3, or an argument for each of rbg"),
            (["00", "0", "0"], "'00' has 2 digits, and red has 1 qubits"),
            (["0", "0", "01"], "'01' has 2 digits, and green has 1 qubits"),
            (["00x"], "'00x' is no bit string"),
            (["0", "2", "0"], "'2' is no bit string"),
            (["0", "", "0"], "'' is no bit string"),
        ]:
            with self.subTest(bits=bits):
                self.assert_error(error, run("amplitude", self.one_ccz, *bits))

    def test_readouts_that_do_not_fit_are_an_error(self) -> None:
        for bits, error in [
            (["000"], "'000' has 3 digits: a string has 2, or an argument for each of rg"),
            (["0", "0", "0"], "'0' has 1 digits: a string has 2, or an argument for each of rg"),
            (["0", "11"], "'11' has 2 digits, and green has 1 qubits"),
            (["0x"], "'0x' is no bit string"),
        ]:
            with self.subTest(bits=bits):
                self.assert_error(error, run("readout", self.one_ccz, "--unread", "b", *bits))

    def test_a_1_at_a_bit_that_nothing_is_measured_into_is_an_error(self) -> None:
        spare = self.write("spare.qasm", ONE_CCZ.replace("bit[3]", "bit[4]"))
        text = "'0001' has a 1 at a classical bit that nothing is measured into"
        self.assert_error(text, run("amplitude", spare, "0001"))


class ProgramTest(CommandCase):
    """A program that cannot be run, or does not do as it should."""

    def test_a_program_that_is_missing_is_an_error(self) -> None:
        none = str(self.folder / "none")
        ran = run_apart("amplitude", self.one_ccz, "000", WAITFIELD_SESSION=none)
        self.assert_error(f"{none} cannot be run: No such file or directory", ran)

    def test_a_program_that_ends_is_an_error(self) -> None:
        path = fake(self.folder, answers("(ok)", "(ok)", "(left 2)", then=fakes.complains(b"out of memory\n", 3)))
        counts = self.write("counts.json", '{"000": 1}')
        ended = f"{path} has ended with status 3 before it answered"
        for command, line in [
            (["amplitude", self.one_ccz, "000"], "(step 1)"),
            (["readout", self.one_ccz, "--unread", "r", "00"], "(step 1)"),
            (["compare", self.one_ccz, counts], "(step 2)"),
        ]:
            with self.subTest(command=command[0]):
                self.assert_error(f"{ended} {line}, saying: out of memory", run(*command, "--session", path))

    def test_a_program_that_answers_nonsense_is_an_error(self) -> None:
        path = fake(self.folder, answers("hello"))
        text = f"{path} answers (circuit 1) by 'hello', which is no answer to it"
        self.assert_error(text, run("amplitude", self.one_ccz, "000", "--session", path))

    def test_a_refusal_is_an_error(self) -> None:
        path = fake(self.folder, answers("(ok)", "(no 9)"))
        text = "(ccz 1 1 1) is refused by 9: a number is out of its range"
        self.assert_error(text, run("amplitude", self.one_ccz, "000", "--session", path))

    def test_an_interrupt_is_told_and_ends_the_program(self) -> None:
        before = signal.signal(signal.SIGINT, signal.default_int_handler)
        self.addCleanup(signal.signal, signal.SIGINT, before)
        path = fake(self.folder, fakes.INTERRUPTS)
        ran = run("amplitude", self.one_ccz, "000", "--session", path)
        self.assertEqual(ran, Ran(130, "", "waitfield: interrupted\n"))
        self.assertTrue(fakes.is_gone(path))


class StreamsTest(CommandCase):
    """Output that nobody reads, and streams that are closed."""

    def run_unread(self, *arguments: str) -> tuple[int, bytes]:
        """Runs a command whose output goes into a pipe that nobody reads."""
        reading, writing = os.pipe()
        os.close(reading)
        command = [sys.executable, "-m", "waitfield", *arguments]
        try:
            ran = subprocess.run(
                command, stdout=writing, stderr=subprocess.PIPE, cwd=CLIENT, env=environment(), timeout=10, check=False
            )
        finally:
            os.close(writing)
        return ran.returncode, ran.stderr

    def test_output_that_nobody_reads_is_no_error_to_be_told(self) -> None:
        self.assertEqual(self.run_unread("convert", self.one_ccz), (1, b""))
        self.assertEqual(self.run_unread("amplitude", self.one_ccz, "000"), (1, b""))

    def test_help_that_nobody_reads_is_no_error_to_be_told(self) -> None:
        status, told = self.run_unread("--help")
        self.assertEqual(told, b"")
        self.assertIn(status, (0, 1))

    def test_an_output_that_takes_no_more_is_an_error(self) -> None:
        self.assert_error("No space left on device", run_apart("convert", self.one_ccz, redirected="> /dev/full"))

    def test_standard_output_that_is_closed_is_an_error(self) -> None:
        self.assert_error("standard output is closed", run_apart("convert", self.one_ccz, redirected=">&-"))

    def test_standard_error_may_be_closed(self) -> None:
        ran = run_apart("amplitude", self.one_ccz, "000", redirected="2>&-")
        self.assert_prints(ran, "string  amplitude  probability", "000     6/2^3      9/2^4 = 0.5625")

    def test_an_error_is_not_told_elsewhere_where_standard_error_is_closed(self) -> None:
        ran = run_apart("convert", str(self.folder / "none.qasm"), redirected="2>&-")
        self.assertEqual(ran, Ran(1, "", ""))

    def test_names_that_the_output_cannot_hold_are_escaped(self) -> None:
        named = self.write("named.qasm", "qubit[1] \u00e9;\nh \u00e9; h \u00e9;\n")
        colours = self.write("map.json", '{"0": ["r", 1]}')
        counts = self.write("counts.json", '{"0": 1}')
        ran = run_apart("compare", named, counts, "--colours", colours, PYTHONIOENCODING="ascii")
        self.assertEqual((ran.status, ran.err), (0, ""))
        self.assertIn("digits         \\xe9[0] leftmost, \\xe9[0] rightmost\n", ran.out)


def bar(percent: int) -> str:
    """The bar as it is drawn, over the one before."""
    filled = 40 * percent // 100
    return f"\r[{'#' * filled}{'.' * (40 - filled)}] {percent:3}%"


# The bar wiped off the line.
WIPED = "\r" + " " * len("[] 100%" + 40 * "#") + "\r"


class BarTest(CommandCase):
    """A bar on standard error where it is a terminal, and nothing elsewhere."""

    def run_on_terminal(self, *arguments: str) -> tuple[int, str, str]:
        """The exit status, what comes out, and what a terminal on standard error is told."""
        terminal, told = pty.openpty()
        self.addCleanup(os.close, terminal)
        command = [sys.executable, "-m", "waitfield", *arguments]
        try:
            ran = subprocess.run(
                command, stdout=subprocess.PIPE, stderr=told, cwd=CLIENT, env=environment(), timeout=10, check=False
            )
        finally:
            os.close(told)
        return ran.returncode, ran.stdout.decode(), read_all(terminal)

    def test_the_bar_of_a_sum_reaches_its_end_and_is_wiped(self) -> None:
        status, out, told = self.run_on_terminal("amplitude", self.one_ccz, "000")
        self.assertEqual(told, bar(50) + bar(100) + WIPED)
        self.assertEqual((status, out.splitlines()[1]), (0, "000     6/2^3      9/2^4 = 0.5625"))

    def test_several_sums_share_the_bar(self) -> None:
        told = self.run_on_terminal("amplitude", self.one_ccz, "000", "111")[2]
        self.assertEqual(told, bar(25) + bar(50) + bar(75) + bar(100) + WIPED)

    def test_the_bar_of_counts_goes_by_strings(self) -> None:
        counts = self.write("counts.json", '{"000": 1, "111": 1, "010": 1, "100": 1}')
        told = self.run_on_terminal("compare", self.one_ccz, counts)[2]
        self.assertEqual(told, bar(25) + bar(50) + bar(75) + bar(100) + WIPED)

    def test_an_error_stands_where_the_bar_stood(self) -> None:
        path = fake(self.folder, answers("(ok)", "(ok)", "(left 2)", "(left 1)", then=fakes.exits(3)))
        status, out, told = self.run_on_terminal("amplitude", self.one_ccz, "000", "--session", path)
        error = f"waitfield: {path} has ended with status 3 before it answered (step 1)\r\n"
        self.assertEqual((status, out, told), (1, "", bar(50) + WIPED + error))

    def test_a_bar_that_would_look_the_same_is_not_drawn_again(self) -> None:
        terminal = Terminal()
        with Bar(terminal) as drawn:
            for done in [500, 501, 509, 1000]:
                drawn(done, 1000)
        self.assertEqual(terminal.getvalue(), bar(50) + bar(100) + WIPED)

    def test_the_bar_is_shown_at_once(self) -> None:
        terminal = Terminal()
        with Bar(terminal) as drawn:
            drawn(1, 4)
            self.assertEqual(terminal.shown, bar(25))
        self.assertEqual(terminal.shown, bar(25) + WIPED)

    def test_no_bar_where_nothing_is_summed(self) -> None:
        self.assertEqual(self.run_on_terminal("convert", self.one_ccz)[2], "")

    def test_no_bar_where_standard_error_is_no_terminal(self) -> None:
        self.assertEqual(run_apart("amplitude", self.one_ccz, "000").err, "")


class Terminal(io.StringIO):
    """A terminal that shows what it is told once it is flushed."""

    shown = ""

    def isatty(self) -> bool:
        return True

    def flush(self) -> None:
        self.shown = self.getvalue()


def read_all(terminal: int) -> str:
    """All that a terminal was told, whose other end is closed."""
    told = b""
    while True:
        try:
            piece: Optional[bytes] = os.read(terminal, 65536)
        except OSError:
            piece = None
        if not piece:
            return told.decode()
        told += piece


if __name__ == "__main__":
    unittest.main()
