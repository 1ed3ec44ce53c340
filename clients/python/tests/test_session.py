"""The real program through `Session`: every form, every refusal that can be met, sums in steps, and exact values."""

from __future__ import annotations

import pickle
import re
import unittest
from fractions import Fraction
from pathlib import Path
from typing import Callable

from waitfield import Amplitude, Ccz, Circuit, Cnot, Cz, Gate, ProgramEnded, Readout, Refused, Session, Spot, Z
from waitfield.gates import listed_term

EXAMPLES = Path(__file__).resolve().parents[3] / "examples"

R1, R2, B1, B2, G1, G2 = (Spot(colour, position) for colour in "rbg" for position in (1, 2))


def gates_of(layer: str) -> list[Gate]:
    """The ccz and cz gates that stand in a layer, which are spelled as terms are."""
    found = [listed_term(spelled) for spelled in re.findall(r"\(ccz [0-9 ]+\)|\(cz \([^)]+\) \([^)]+\)\)", layer)]
    return [gate for gate in found if gate is not None]


class SessionCase(unittest.TestCase):
    """A test with the real program."""

    def setUp(self) -> None:
        self.session = Session()
        self.addCleanup(self.session.close)

    def one_ccz(self) -> Session:
        """The circuit of the manual's section 12.6: m = 1 and one CCZ."""
        self.session.circuit(1)
        self.session.ccz(1, 1, 1)
        return self.session


class FormsTest(SessionCase):
    """Each of the fourteen forms by its method. The sums are those of the manual, sections 12.6 and 14."""

    def number(self, red: str, blue: str, green: str, sliced: str = "r") -> int:
        return self.session.amplitude(red, blue, green, sliced=sliced).number

    def test_circuit_begins_an_empty_circuit(self) -> None:
        self.one_ccz()
        self.session.start("1", "0", "0")
        self.session.circuit(1)
        self.assertEqual(self.session.terms(), [])
        self.assertEqual((self.number("0", "0", "0"), self.number("1", "0", "0")), (8, 0))

    def test_ccz_turns_the_sign_where_three_bits_are_1(self) -> None:
        self.one_ccz()
        strings = ["000", "001", "010", "011", "100", "101", "110", "111"]
        self.assertEqual([self.number(*string) for string in strings], [6, 2, 2, -2, 2, -2, -2, 2])

    def test_ccz_twice_is_no_gate(self) -> None:
        self.one_ccz().ccz(1, 1, 1)
        self.assertEqual(self.number("0", "0", "0"), 8)

    def test_cz_turns_the_sign_where_two_bits_are_1(self) -> None:
        self.session.circuit(1)
        self.session.cz(("r", 1), ("b", 1))
        self.assertEqual([self.number(*string) for string in ("000", "110", "001")], [4, -4, 0])

    def test_cnot_brings_in_terms_with_the_control(self) -> None:
        self.session.circuit(2)
        self.session.ccz(1, 1, 1)
        self.session.cnot("r", 2, 1)
        self.assertEqual(self.session.terms(), [Ccz(1, 1, 1), Ccz(2, 1, 1)])
        self.assertEqual([self.number(red, "00", "00") for red in ("00", "11", "10")], [48, 16, 0])

    def test_z_turns_the_sign_where_a_bit_is_1(self) -> None:
        self.session.circuit(1)
        self.session.z(("r", 1))
        self.assertEqual((self.number("1", "0", "0"), self.number("0", "0", "0")), (8, 0))

    def test_z_is_carried_by_a_cnot(self) -> None:
        self.session.circuit(2)
        self.session.z(R1)
        self.session.cnot("r", 2, 1)
        self.assertEqual(self.session.terms(), [Z(R1), Z(R2)])
        self.assertEqual((self.number("11", "00", "00"), self.number("10", "00", "00")), (64, 0))

    def test_layer_adds_all_of_its_gates(self) -> None:
        self.session.circuit(2)
        self.session.ccz(2, 1, 1)
        self.session.layer([Cnot("r", 1, 2), Cz(B1, G2), Z(B2)])
        self.assertEqual(self.session.terms(), [Ccz(1, 1, 1), Ccz(2, 1, 1), Cz(B1, G2), Z(B2)])

    def test_layer_takes_any_iterable_of_gates(self) -> None:
        self.session.circuit(2)
        self.session.layer(Ccz(position, position, position) for position in (1, 2))
        self.assertEqual(self.session.terms(), [Ccz(1, 1, 1), Ccz(2, 2, 2)])

    def test_undo_takes_back_one_gate_or_as_many_as_said(self) -> None:
        self.session.circuit(2)
        self.session.layer([Z(R1), Z(B1), Z(G1), Z(G2)])
        self.session.undo()
        self.assertEqual(self.session.terms(), [Z(R1), Z(B1), Z(G1)])
        self.session.undo(2)
        self.assertEqual(self.session.terms(), [Z(R1)])

    def test_start_is_carried_by_a_cnot(self) -> None:
        self.session.circuit(2)
        self.session.start("01", "00", "00")
        self.session.cnot("r", 1, 2)
        self.assertEqual((self.number("11", "00", "00"), self.number("01", "00", "00")), (64, 0))
        self.assertEqual(self.session.readout("g", "11", "00"), Readout(64, 6))
        self.assertEqual(self.session.one_colour("r", "11"), Readout(16, 4))
        self.session.undo(1)
        self.assertEqual(self.number("01", "00", "00"), 64)

    def test_amp_opens_the_sum_of_an_amplitude(self) -> None:
        self.one_ccz()
        self.assertEqual(self.session.amp("r", "1", "1", "0"), 2)
        self.assertEqual(self.session.step(1), 1)
        self.assertEqual(self.session.step(1), Amplitude(-2, 3))

    def test_an_amplitude_is_the_same_whichever_colour_is_sliced(self) -> None:
        self.one_ccz()
        self.assertEqual([self.number("1", "1", "0", sliced) for sliced in "rbg"], [-2, -2, -2])

    def test_part_opens_the_sum_of_a_readout_with_one_colour_unread(self) -> None:
        self.one_ccz()
        self.assertEqual(self.session.part("r", "0", "0"), 2)
        self.assertEqual(self.session.step(2), Readout(5, 3))
        found = [self.session.readout("r", *string).number for string in ("00", "01", "10", "11")]
        self.assertEqual(found, [5, 1, 1, 1])

    def test_one_opens_the_sum_of_a_readout_with_one_colour_read(self) -> None:
        self.one_ccz()
        self.assertEqual(self.session.one("g", "0"), 2)
        self.assertEqual(self.session.step(2), Readout(3, 2))
        self.assertEqual([self.session.one_colour("g", string).number for string in "01"], [3, 1])

    def test_step_works_all_slices_where_fewer_are_left(self) -> None:
        self.one_ccz().amp("r", "0", "0", "0")
        self.assertEqual(self.session.step(65536), Amplitude(6, 3))

    def test_drop_abandons_the_open_sum(self) -> None:
        self.one_ccz().amp("r", "0", "0", "0")
        self.session.drop()
        self.assertEqual(self.session.terms(), [Ccz(1, 1, 1)])

    def test_terms_are_values_in_the_order_of_the_listing(self) -> None:
        self.session.circuit(10)
        self.session.layer([Z(Spot("g", 1)), Z(Spot("r", 10)), Z(Spot("r", 2))])
        for first, second in [(("g", 1), ("b", 2)), (("g", 2), ("r", 10)), (("r", 2), ("g", 3)), (("r", 3), ("b", 1))]:
            self.session.cz(first, second)
        for positions in [(10, 1, 1), (2, 10, 1), (2, 9, 3)]:
            self.session.ccz(*positions)
        expected: list[Gate] = [
            Ccz(2, 9, 3),
            Ccz(2, 10, 1),
            Ccz(10, 1, 1),
            Cz(Spot("r", 3), Spot("b", 1)),
            Cz(Spot("r", 2), Spot("g", 3)),
            Cz(Spot("r", 10), Spot("g", 2)),
            Cz(Spot("b", 2), Spot("g", 1)),
            Z(Spot("r", 2)),
            Z(Spot("r", 10)),
            Z(Spot("g", 1)),
        ]
        self.assertEqual(self.session.terms(), expected)

    def test_a_listing_of_4096_terms(self) -> None:
        """Every CCZ term of 16 positions: 4,096 lines in one answer."""
        self.session.circuit(16)
        for shift in range(256):
            blue, green = divmod(shift, 16)
            self.session.layer(Ccz(p + 1, (p + blue) % 16 + 1, (p + green) % 16 + 1) for p in range(16))
        every = [Ccz(i, j, k) for i in range(1, 17) for j in range(1, 17) for k in range(1, 17)]
        self.assertEqual(self.session.terms(), every)

    def test_a_listing_of_all_terms_of_one_position(self) -> None:
        red, blue, green = Spot("r", 1), Spot("b", 1), Spot("g", 1)
        every: list[Gate] = [Ccz(1, 1, 1), Cz(red, blue), Cz(red, green), Cz(blue, green), Z(red), Z(blue), Z(green)]
        self.session.circuit(1)
        for gate in every:
            self.session.layer([gate])
        self.assertEqual(self.session.terms(), every)

    def test_load_gives_the_start_and_the_gates_in_place_of_those_held(self) -> None:
        self.one_ccz()
        qubits = {"r[0]": R1, "r[1]": R2}
        self.session.load(Circuit(2, (Z(R1), Cnot("r", 2, 1), Z(B1)), ("10", "00", "00"), qubits, ()))
        self.assertEqual(self.session.terms(), [Z(R1), Z(R2), Z(B1)])
        self.assertEqual(self.number("00", "10", "00"), 64)


class SeveralTest(SessionCase):
    """Each session has a program of its own."""

    def test_sessions_do_not_know_of_each_other(self) -> None:
        with Session() as other:
            self.one_ccz()
            other.circuit(2)
            self.assertEqual((self.session.terms(), other.terms()), ([Ccz(1, 1, 1)], []))
        self.assertEqual(self.session.terms(), [Ccz(1, 1, 1)])


class LargestTest(SessionCase):
    """m = 16, 48 qubits."""

    def test_48_z_gates_in_one_layer(self) -> None:
        self.session.circuit(16)
        self.session.layer(Z(Spot(colour, position)) for colour in "rbg" for position in range(1, 17))
        found = self.session.amplitude("1" * 16, "1" * 16, "1" * 16)
        self.assertEqual(found, Amplitude(2**48, 48))
        self.assertEqual(found.probability, 1)
        self.assertEqual(self.session.amplitude("1" * 16, "1" * 16, "1" * 15 + "0"), Amplitude(0, 48))

    def test_the_handover_example(self) -> None:
        """The gates of examples/handover.in, and the first and the last of the sums in handover.out."""
        self.session.circuit(16)
        for line in (EXAMPLES / "handover.in").read_text("ascii").splitlines():
            if line.startswith("(layer "):
                self.session.layer(gates_of(line))
        self.assertEqual(self.session.amplitude("0" * 16, "0" * 16, "0" * 16), Amplitude(10747904, 48))
        found = self.session.amplitude("1000000000000001", "1111000011110000", "0011110000111100", sliced="g")
        self.assertEqual(found, Amplitude(-15466496, 48))


class RefusalsTest(SessionCase):
    """A refusal is an exception with its number, the line and what the number means. Nothing has changed."""

    def setUp(self) -> None:
        super().setUp()
        self.session.circuit(2)
        self.session.layer([Ccz(1, 2, 1), Z(R2)])

    def assert_refused(self, ask: Callable[[], object], number: int, line: str, meaning: str) -> None:
        with self.assertRaises(Refused) as raised:
            ask()
        refused = raised.exception
        self.assertEqual((refused.number, refused.line, refused.meaning), (number, line, meaning))
        shown = line if len(line) <= 120 else line[:120] + ".."
        self.assertEqual(str(refused), f"{shown} is refused by {number}: {meaning}")

    def assert_unchanged(self) -> None:
        self.assertEqual(self.session.terms(), [Ccz(1, 2, 1), Z(R2)])
        self.assertEqual(self.session.amplitude("01", "00", "00"), Amplitude(48, 6))

    def test_2_a_line_that_is_too_long(self) -> None:
        digits = "0" * 2000
        self.assert_refused(
            lambda: self.session.one("r", digits), 2, f"(one r {digits})", "the line is longer than 1,024 bytes"
        )
        self.assert_unchanged()

    def test_2_a_layer_that_is_too_long(self) -> None:
        gates = [Ccz(10, 10, 10)] * 68
        line = "(layer" + " (ccz 10 10 10)" * 68 + ")"
        self.assert_refused(lambda: self.session.layer(gates), 2, line, "the line is longer than 1,024 bytes")
        self.assert_unchanged()

    def test_3_a_byte_that_no_line_has(self) -> None:
        meaning = "the line holds a byte other than digits, a to z, brackets and space"
        self.assert_refused(lambda: self.session.start("0X", "00", "00"), 3, "(start 0X 00 00)", meaning)
        self.assert_refused(lambda: self.session.ccz(-1, 1, 1), 3, "(ccz -1 1 1)", meaning)
        self.assert_refused(lambda: self.session.one("r", "0\u0661"), 3, "(one r 0\u0661)", meaning)
        self.assert_unchanged()

    def test_4_no_form(self) -> None:
        meaning = "the line is none of the forms"
        self.assert_refused(lambda: self.session.start("02", "00", "00"), 4, "(start 02 00 00)", meaning)
        self.assert_refused(lambda: self.session.cnot("k", 1, 2), 4, "(cnot k 1 2)", meaning)
        self.assert_refused(lambda: self.session.one("r", ""), 4, "(one r )", meaning)
        self.assert_refused(lambda: self.session.one("r", "00)(drop"), 4, "(one r 00)(drop)", meaning)
        self.assert_unchanged()

    def test_5_a_cz_within_a_colour(self) -> None:
        self.assert_refused(lambda: self.session.cz(R1, R2), 5, "(cz (r 1) (r 2))", "a cz has one colour twice")
        self.assert_unchanged()

    def test_6_no_circuit(self) -> None:
        with Session() as fresh:
            self.assert_refused(fresh.terms, 6, "(terms)", "there is no circuit yet")
            fresh.circuit(1)
            self.assertEqual(fresh.terms(), [])

    def test_7_a_sum_is_open(self) -> None:
        self.session.amp("r", "01", "00", "00")
        self.assert_refused(lambda: self.session.ccz(1, 1, 1), 7, "(ccz 1 1 1)", "a sum is open")
        self.assert_refused(lambda: self.session.circuit(1), 7, "(circuit 1)", "a sum is open")
        self.assert_refused(lambda: self.session.one("r", "00"), 7, "(one r 00)", "a sum is open")
        self.assertEqual(self.session.step(3), 1)
        self.assertEqual(self.session.step(1), Amplitude(48, 6))
        self.assert_unchanged()

    def test_8_no_sum_is_open(self) -> None:
        self.assert_refused(lambda: self.session.step(1), 8, "(step 1)", "no sum is open")
        self.assert_refused(self.session.drop, 8, "(drop)", "no sum is open")
        self.assert_unchanged()

    def test_9_a_number_out_of_its_range(self) -> None:
        meaning = "a number is out of its range"
        self.assert_refused(lambda: self.session.circuit(17), 9, "(circuit 17)", meaning)
        self.assert_refused(lambda: self.session.circuit(0), 9, "(circuit 0)", meaning)
        self.assert_refused(lambda: self.session.z(("r", 3)), 9, "(z (r 3))", meaning)
        self.assert_refused(lambda: self.session.undo(4097), 9, "(undo 4097)", meaning)
        self.assert_refused(lambda: self.session.layer([]), 9, "(layer)", meaning)
        self.assert_unchanged()

    def test_9_a_step_of_no_slice_or_of_too_many(self) -> None:
        meaning = "a number is out of its range"
        self.session.amp("r", "01", "00", "00")
        self.assert_refused(lambda: self.session.step(0), 9, "(step 0)", meaning)
        self.assert_refused(lambda: self.session.step(65537), 9, "(step 65537)", meaning)
        self.assertEqual(self.session.step(4), Amplitude(48, 6))

    def test_10_a_cnot_on_itself(self) -> None:
        meaning = "a cnot has its control as its target"
        self.assert_refused(lambda: self.session.cnot("b", 2, 2), 10, "(cnot b 2 2)", meaning)
        self.assert_unchanged()

    def test_11_a_bit_string_of_another_length(self) -> None:
        meaning = "a bit string does not have as many digits as a colour has positions"
        self.assert_refused(lambda: self.session.amp("r", "0", "00", "00"), 11, "(amp r 0 00 00)", meaning)
        self.assert_refused(lambda: self.session.readout("g", "000", "00"), 11, "(part g 000 00)", meaning)
        self.assert_refused(lambda: self.session.start("00", "00", "0"), 11, "(start 00 00 0)", meaning)
        self.assert_unchanged()

    def test_12_more_gates_to_take_back_than_are_held(self) -> None:
        meaning = "more gates are to be taken back than are held"
        self.assert_refused(lambda: self.session.undo(3), 12, "(undo 3)", meaning)
        self.assert_unchanged()

    def test_13_no_free_places(self) -> None:
        self.session.circuit(16)
        for _ in range(85):
            self.session.layer(Z(Spot(colour, position)) for colour in "rbg" for position in range(1, 17))
        self.session.layer(Z(Spot("r", position)) for position in range(1, 17))
        held = self.session.terms()
        meaning = "the history has fewer free places than the line has gates"
        self.assert_refused(lambda: self.session.z(R1), 13, "(z (r 1))", meaning)
        self.assertEqual(self.session.terms(), held)
        self.session.undo(4096)
        self.assertEqual(self.session.terms(), [])

    def test_14_a_layer_that_touches_a_position_twice(self) -> None:
        gates: list[Gate] = [Z(R1), Cnot("r", 1, 2)]
        meaning = "a layer touches a position of a colour twice"
        self.assert_refused(lambda: self.session.layer(gates), 14, "(layer (z (r 1)) (cnot r 1 2))", meaning)
        self.assert_unchanged()

    def test_a_refusal_can_be_sent_to_another_process(self) -> None:
        copied = pickle.loads(pickle.dumps(Refused(9, "(circuit 17)")))
        self.assertIsInstance(copied, Refused)
        self.assertEqual(str(copied), "(circuit 17) is refused by 9: a number is out of its range")


class StepsTest(SessionCase):
    """A sum in steps has the same total, and whoever asks is told of every step."""

    def setUp(self) -> None:
        super().setUp()
        self.told: list[tuple[int, int]] = []

    def tell(self, worked: int, slices: int) -> None:
        self.told.append((worked, slices))

    def one_ccz_of(self, m: int) -> Session:
        self.session.circuit(m)
        self.session.ccz(1, 1, 1)
        return self.session

    def test_one_step(self) -> None:
        found = self.one_ccz_of(3).amplitude("000", "000", "000", steps=1, progress=self.tell)
        self.assertEqual((found, self.told), (Amplitude(384, 9), [(8, 8)]))

    def test_steps_that_do_not_divide_the_slices(self) -> None:
        found = self.one_ccz_of(3).amplitude("000", "000", "000", steps=3, progress=self.tell)
        self.assertEqual((found, self.told), (Amplitude(384, 9), [(3, 8), (6, 8), (8, 8)]))

    def test_a_step_for_each_slice(self) -> None:
        found = self.one_ccz_of(3).amplitude("000", "000", "000", steps=8, progress=self.tell)
        self.assertEqual((found, self.told), (Amplitude(384, 9), [(worked, 8) for worked in range(1, 9)]))

    def test_more_steps_than_slices_are_a_step_for_each_slice(self) -> None:
        found = self.one_ccz_of(3).amplitude("000", "000", "000", steps=1000, progress=self.tell)
        self.assertEqual((found, self.told), (Amplitude(384, 9), [(worked, 8) for worked in range(1, 9)]))

    def test_steps_without_anybody_to_tell(self) -> None:
        self.assertEqual(self.one_ccz_of(3).amplitude("000", "000", "000", steps=3), Amplitude(384, 9))

    def test_whoever_is_told_is_told_eight_times(self) -> None:
        found = self.one_ccz_of(5).amplitude("00000", "00000", "00000", progress=self.tell)
        self.assertEqual(found, Amplitude(3 * 2**13, 15))
        self.assertEqual(self.told, [(worked, 32) for worked in range(4, 33, 4)])

    def test_readouts_are_told_of_likewise(self) -> None:
        self.one_ccz_of(1)
        self.assertEqual(self.session.readout("r", "0", "0", steps=2, progress=self.tell), Readout(5, 3))
        self.assertEqual(self.session.one_colour("g", "0", steps=2, progress=self.tell), Readout(3, 2))
        self.assertEqual(self.session.ask(["0", "0", "0"], steps=2, progress=self.tell), Amplitude(6, 3))
        self.assertEqual(self.told, [(1, 2), (2, 2)] * 3)

    def test_a_callback_that_raises_leaves_no_sum_open(self) -> None:
        session = self.one_ccz_of(3)
        for last in [3, 8]:
            with self.subTest(last=last):

                def stop(worked: int, slices: int) -> None:
                    if worked == last:
                        raise LookupError("enough")

                with self.assertRaisesRegex(LookupError, "^enough$"):
                    session.amplitude("000", "000", "000", steps=8, progress=stop)
                self.assertEqual(session.terms(), [Ccz(1, 1, 1)])
                self.assertEqual(session.amplitude("000", "000", "000"), Amplitude(384, 9))

    def test_a_callback_that_closes_the_session_ends_the_sum(self) -> None:
        session = self.one_ccz_of(3)
        with self.assertRaisesRegex(ProgramEnded, "^the session is closed$"):
            session.amplitude("000", "000", "000", steps=8, progress=lambda worked, slices: session.close())

    def test_less_than_one_step_leaves_no_sum_open(self) -> None:
        session = self.one_ccz_of(1)
        for steps in [0, -1]:
            with self.subTest(steps=steps):
                with self.assertRaisesRegex(ValueError, f"^a sum is worked in 1 step or more, not in {steps}$"):
                    session.amplitude("0", "0", "0", steps=steps)
                self.assertEqual(session.terms(), [Ccz(1, 1, 1)])

    def test_a_number_of_steps_that_is_not_whole_leaves_no_sum_open(self) -> None:
        session = self.one_ccz_of(1)
        with self.assertRaises(TypeError):
            session.amplitude("0", "0", "0", steps=1.5)  # type: ignore[arg-type]
        self.assertEqual(session.terms(), [Ccz(1, 1, 1)])


class Whole:
    """A whole number of another type, as the numbers of some libraries are."""

    def __init__(self, number: int) -> None:
        self._number = number

    def __index__(self) -> int:
        return self._number

    def __str__(self) -> str:
        return f"<{self._number}>"


class NumbersTest(SessionCase):
    """Numbers are whole, of whatever type; what is no number is not sent."""

    def test_whole_numbers_of_another_type_are_taken(self) -> None:
        one, two = Whole(1), Whole(2)
        self.session.circuit(two)  # type: ignore[arg-type]
        self.session.ccz(one, one, one)  # type: ignore[arg-type]
        self.session.cz(("r", one), ("b", two))  # type: ignore[arg-type]
        self.session.cnot("r", two, one)  # type: ignore[arg-type]
        self.session.z(("g", two))  # type: ignore[arg-type]
        self.assertEqual(self.session.terms(), [Ccz(1, 1, 1), Ccz(2, 1, 1), Cz(R1, B2), Cz(R2, B2), Z(G2)])
        self.session.undo(Whole(3))  # type: ignore[arg-type]
        self.session.amp("r", "00", "00", "00")
        self.assertEqual(self.session.step(two), 2)  # type: ignore[arg-type]
        self.assertEqual(self.session.step(two), Amplitude(48, 6))  # type: ignore[arg-type]

    def test_what_is_not_whole_is_no_number(self) -> None:
        self.session.circuit(2)
        wrong: list[Callable[[], object]] = [
            lambda: self.session.circuit(1.0),  # type: ignore[arg-type]
            lambda: self.session.ccz(1, 1.0, 1),  # type: ignore[arg-type]
            lambda: self.session.cz(("r", 1.0), ("b", 1)),  # type: ignore[arg-type]
            lambda: self.session.cnot("r", 1, 2.0),  # type: ignore[arg-type]
            lambda: self.session.z(("r", Fraction(1))),  # type: ignore[arg-type]
            lambda: self.session.undo("1"),  # type: ignore[arg-type]
            lambda: self.session.step(None),  # type: ignore[arg-type]
        ]
        for number, ask in enumerate(wrong):
            with self.subTest(number=number), self.assertRaises(TypeError):
                ask()
        self.assertEqual(self.session.terms(), [])
        self.assertEqual(self.session.amplitude("00", "00", "00"), Amplitude(64, 6))

    def test_a_string_with_a_line_feed_is_not_sent(self) -> None:
        self.one_ccz()
        wrong: list[Callable[[], object]] = [
            lambda: self.session.start("0 0 0)\n(ccz 1 1", "1", "1"),
            lambda: self.session.amp("r", "0", "0", "0)\n(drop"),
            lambda: self.session.cnot("r\n", 1, 2),
        ]
        for number, ask in enumerate(wrong):
            with self.subTest(number=number), self.assertRaises(ValueError):
                ask()
        self.assertEqual(self.session.terms(), [Ccz(1, 1, 1)])
        self.assertEqual(self.session.amplitude("0", "0", "0"), Amplitude(6, 3))


class AskTest(SessionCase):
    """Strings of the colours that are read, whichever they are."""

    def test_all_colours_read_is_an_amplitude(self) -> None:
        self.assertEqual(self.one_ccz().ask(["1", "1", "0"]), Amplitude(-2, 3))

    def test_one_colour_unread_is_a_readout_of_the_others_in_order(self) -> None:
        self.session.circuit(1)
        self.session.z(("r", 1))
        self.assertEqual(self.session.ask(["0", "0"], unread="r"), Readout(8, 3))
        self.assertEqual(self.session.ask(["1", "0"], unread="b"), Readout(8, 3))
        self.assertEqual(self.session.ask(["1", "0"], unread="g"), Readout(8, 3))
        self.assertEqual(self.session.ask(["0", "1"], unread="g"), Readout(0, 3))

    def test_two_colours_unread_is_a_readout_of_the_third(self) -> None:
        self.session.circuit(1)
        self.session.z(("b", 1))
        self.assertEqual(self.session.ask(["1"], unread="rg"), Readout(4, 2))
        self.assertEqual(self.session.ask(["1"], unread="gr"), Readout(4, 2))
        self.assertEqual(self.session.ask(["0"], unread="bg"), Readout(4, 2))

    def test_a_string_for_each_colour_is_needed(self) -> None:
        session = self.one_ccz()
        for strings, unread, text in [
            ("00", "", "2 strings, where each of r, b, g has one"),
            ("000", "b", "3 strings, where each of r, g has one"),
            ("", "rb", "0 strings, where each of g has one"),
        ]:
            with self.subTest(unread=unread), self.assertRaises(ValueError) as raised:
                session.ask(strings, unread=unread)
            self.assertEqual(str(raised.exception), text)
        self.assertEqual(session.terms(), [Ccz(1, 1, 1)])

    def test_at_most_two_colours_are_unread_each_once(self) -> None:
        session = self.one_ccz()
        for unread in ["rbg", "rr", "k", "r,b"]:
            with self.subTest(unread=unread), self.assertRaises(ValueError) as raised:
                session.ask(["0"], unread=unread)
            self.assertEqual(str(raised.exception), f"at most two of r, b, g may be unread, not {unread!r}")


class GatesTest(unittest.TestCase):
    """Gates are values, and may be in sets."""

    def test_two_of_one_kind_on_the_same_positions_are_one(self) -> None:
        def gates() -> list[Gate]:
            return [Ccz(1, 2, 3), Cz(Spot("r", 1), Spot("g", 2)), Cnot("b", 1, 2), Z(Spot("g", 3))]

        self.assertEqual(len({*gates(), *gates()}), 4)


class ValuesTest(unittest.TestCase):
    """What an answer means, exactly (manual, section 12)."""

    def test_an_amplitude_has_its_square_as_its_probability(self) -> None:
        found = Amplitude(-2, 3)
        self.assertEqual((found.fraction, found.probability), (Fraction(-1, 4), Fraction(1, 16)))

    def test_a_readout_is_a_probability(self) -> None:
        found = Readout(5, 3)
        self.assertEqual((found.fraction, found.probability), (Fraction(5, 8), Fraction(5, 8)))

    def test_nothing_is_rounded_at_48_qubits(self) -> None:
        found = Amplitude(-15466496, 48)
        self.assertEqual(found.fraction, Fraction(-15466496, 2**48))
        self.assertEqual(found.probability, Fraction(15466496**2, 2**96))
        self.assertIsInstance(found.probability, Fraction)

    def test_values_are_equal_where_number_and_exponent_are(self) -> None:
        self.assertEqual(Amplitude(6, 3), Amplitude(6, 3))
        self.assertNotEqual(Amplitude(6, 3), Amplitude(12, 4))
        self.assertNotEqual(Amplitude(6, 3), Readout(6, 3))
        self.assertEqual(len({Readout(6, 3), Readout(6, 3)}), 1)


if __name__ == "__main__":
    unittest.main()
