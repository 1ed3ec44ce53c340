"""Counts beside exact probabilities: what is read as counts, what a comparison holds, and how numbers are written."""

from __future__ import annotations

import unittest
from fractions import Fraction
from typing import Mapping, Type

from waitfield import (
    Circuit,
    Comparison,
    CountsError,
    Refused,
    Row,
    Session,
    StringError,
    WaitfieldError,
    compare,
    from_qasm,
    read_counts,
)
from waitfield.written import decimal, dyadic, over_power, table, with_decimal

IN_ORDER = "c[0] = measure r[0]; c[1] = measure b[0]; c[2] = measure g[0];"


def three(gates: str, measured: str = IN_ORDER, bits: int = 3) -> Circuit:
    """A circuit of three qubits, one of each colour."""
    layer = "h r; h b; h g;"
    return from_qasm(f"qubit[1] r; qubit[1] b; qubit[1] g; bit[{bits}] c;\n{layer} {gates} {layer} {measured}")


# With one CCZ, 000 has probability 9/16 and every other string 1/16 (manual, section 12.6).
ONE_CCZ = three("ccz r, b, g;")
# With a Z on red, 100 has probability 1.
Z_ON_RED = three("z r;")

EVERY_STRING = [f"{number:03b}" for number in range(8)]


class ReadingTest(unittest.TestCase):
    """A JSON object of strings and whole numbers; whatever else is an error of one line."""

    def assert_error(self, text: str, error: str) -> None:
        with self.assertRaises(CountsError) as raised:
            read_counts(text)
        self.assertEqual(str(raised.exception), error)

    def test_counts_are_read_in_their_order(self) -> None:
        found = read_counts('{"01": 3, "00": 5,\n "11": 0}')
        self.assertEqual(list(found.items()), [("01", 3), ("00", 5), ("11", 0)])

    def test_a_string_given_twice_is_an_error(self) -> None:
        self.assert_error(
            '{"01": 3, "00": 1, "01": 4}',
            "the counts are not read as a JSON object: '01' stands there twice",
        )

    def test_what_is_no_object_is_an_error(self) -> None:
        for text in ["[]", '[["01", 3]]', "3", "null", '"01"']:
            with self.subTest(text=text):
                self.assert_error(text, "the counts are not read as a JSON object: no JSON object")

    def test_shots_that_are_no_whole_number_are_an_error(self) -> None:
        for value, shown in [
            ("1.0", "1.0"),
            ("1e2", "100.0"),
            ("NaN", "nan"),
            ("-1", "-1"),
            ("true", "True"),
            ("false", "False"),
            ("null", "None"),
            ('"3"', "'3'"),
            ("[3]", "[3]"),
            ("{}", "{}"),
        ]:
            with self.subTest(value=value):
                self.assert_error(
                    f'{{"00": 1, "01": {value}}}', f"'01' has {shown} shots, which is no whole number from 0 on"
                )

    def test_no_shots_are_an_error(self) -> None:
        for text in ["{}", '{"00": 0, "01": 0}']:
            with self.subTest(text=text):
                self.assert_error(text, "there are no shots")

    def test_what_is_no_json_is_an_error_that_says_where(self) -> None:
        for text, where in [
            ("", "Expecting value: line 1 column 1 (char 0)"),
            ("counts", "Expecting value: line 1 column 1 (char 0)"),
            ('{"00": 1,\n"01" 2}', "Expecting ':' delimiter: line 2 column 6 (char 15)"),
            ('{"00": 1} {}', "Extra data: line 1 column 11 (char 10)"),
        ]:
            with self.subTest(text=text):
                self.assert_error(text, f"the counts are not read as a JSON object: {where}")

    def test_deep_nesting_is_an_error(self) -> None:
        for text in ["[" * 100_000, '{"00": ' * 100_000]:
            with self.subTest(text=text[:10]):
                self.assert_error(text, "the counts are not read as a JSON object: nested too deeply")


class ComparisonTest(unittest.TestCase):
    """What is measured beside what is exact."""

    def setUp(self) -> None:
        self.session = Session()
        self.addCleanup(self.session.close)

    def compared(
        self, circuit: Circuit, counts: Mapping[str, int], unread: str = "", leftmost: str = "first"
    ) -> Comparison:
        return compare(self.session, circuit, counts, unread=unread, leftmost=leftmost)

    def probabilities(
        self, circuit: Circuit, *strings: str, unread: str = "", leftmost: str = "first"
    ) -> list[Fraction]:
        """The exact probabilities of strings, in their order."""
        found = self.compared(circuit, {string: 1 for string in strings}, unread, leftmost)
        by_string = {row.bits: row.probability for row in found.rows}
        return [by_string[string] for string in strings]

    def test_rows_have_shots_shares_and_probabilities(self) -> None:
        found = self.compared(ONE_CCZ, {"000": 9, "101": 3})
        expected = (
            Row("000", 9, Fraction(3, 4), Fraction(9, 16)),
            Row("101", 3, Fraction(1, 4), Fraction(1, 16)),
        )
        self.assertEqual(found, Comparison(expected, 3))
        self.assertEqual((found.shots, found.impossible), (12, 0))

    def test_strings_with_most_shots_come_first_and_equal_ones_by_their_digits(self) -> None:
        found = self.compared(ONE_CCZ, {"111": 2, "010": 2, "001": 7, "100": 0, "000": 2})
        self.assertEqual([row.bits for row in found.rows], ["001", "000", "010", "111", "100"])

    def test_a_string_without_shots_has_a_share_of_0(self) -> None:
        found = self.compared(ONE_CCZ, {"000": 1, "111": 0})
        self.assertEqual(found.rows[1], Row("111", 0, Fraction(0), Fraction(1, 16)))
        self.assertEqual(found.cross_entropy, Fraction(7, 2))

    def test_shots_on_strings_of_probability_0_are_impossible(self) -> None:
        found = self.compared(Z_ON_RED, {"100": 3, "000": 1, "111": 1})
        self.assertEqual((found.shots, found.impossible), (5, 2))
        self.assertEqual([row.probability for row in found.rows], [1, 0, 0])
        self.assertEqual(found.cross_entropy, 8 * Fraction(3, 5) - 1)

    def test_the_cross_entropy_of_shots_at_the_likeliest_string_alone(self) -> None:
        self.assertEqual(self.compared(ONE_CCZ, {"000": 1000}).cross_entropy, Fraction(7, 2))

    def test_the_cross_entropy_of_strings_with_equal_shots_is_0(self) -> None:
        self.assertEqual(self.compared(ONE_CCZ, {string: 1 for string in EVERY_STRING}).cross_entropy, 0)

    def test_the_cross_entropy_of_the_ideal_shares(self) -> None:
        counts = {string: 9 if string == "000" else 1 for string in EVERY_STRING}
        self.assertEqual(self.compared(ONE_CCZ, counts).cross_entropy, Fraction(7, 4))

    def test_the_cross_entropy_of_unlikely_strings_is_negative(self) -> None:
        self.assertEqual(self.compared(ONE_CCZ, {"111": 5}).cross_entropy, Fraction(-1, 2))

    def test_one_colour_may_be_unread(self) -> None:
        for unread in "rbg":
            with self.subTest(unread=unread):
                found = self.compared(ONE_CCZ, {"00": 6, "01": 2}, unread=unread)
                self.assertEqual([row.probability for row in found.rows], [Fraction(5, 8), Fraction(1, 8)])
                self.assertEqual(found.qubits, 2)
                self.assertEqual(found.cross_entropy, 4 * Fraction(6 * 5 + 2 * 1, 8 * 8) - 1)

    def test_two_colours_may_be_unread(self) -> None:
        found = self.compared(ONE_CCZ, {"0": 1, "1": 1}, unread="rb")
        self.assertEqual([row.probability for row in found.rows], [Fraction(3, 4), Fraction(1, 4)])
        self.assertEqual((found.qubits, found.cross_entropy), (1, 0))

    def test_where_a_colour_is_unread_its_digits_are_left_out(self) -> None:
        self.assertEqual(self.probabilities(Z_ON_RED, "10", "01", unread="b"), [1, 0])
        self.assertEqual(self.probabilities(Z_ON_RED, "00", "10", unread="r"), [1, 0])
        self.assertEqual(self.probabilities(Z_ON_RED, "1", "0", unread="bg"), [1, 0])

    def test_the_leftmost_digit_may_be_the_last_bit(self) -> None:
        self.assertEqual(self.probabilities(Z_ON_RED, "001", "100", leftmost="last"), [1, 0])
        self.assertEqual(self.probabilities(Z_ON_RED, "01", "10", unread="g", leftmost="last"), [1, 0])

    def test_the_leftmost_digit_is_the_first_bit_or_the_last(self) -> None:
        with self.assertRaisesRegex(ValueError, "^leftmost is 'first' or 'last', not 'left'$"):
            self.compared(ONE_CCZ, {"000": 1}, leftmost="left")

    def test_spaces_and_underscores_in_strings_are_passed_over(self) -> None:
        found = self.compared(Z_ON_RED, {"1 00": 2, "0_1_0": 1})
        self.assertEqual([(row.bits, row.probability) for row in found.rows], [("1 00", 1), ("0_1_0", 0)])

    def test_bits_may_be_measured_in_another_order(self) -> None:
        circuit = three("z r;", "c[2] = measure r[0]; c[0] = measure b[0]; c[1] = measure g[0];")
        self.assertEqual(self.probabilities(circuit, "001", "100"), [1, 0])
        self.assertEqual(self.probabilities(circuit, "100", "001", leftmost="last"), [1, 0])

    def test_a_circuit_without_measurements_has_a_digit_for_each_qubit(self) -> None:
        self.assertEqual(self.probabilities(three("z b;", measured=""), "010", "100"), [1, 0])

    def test_a_colour_may_have_fewer_qubits(self) -> None:
        circuit = from_qasm("qubit[2] r; qubit[1] g;\nh r; h g;\nz r[1]; cz r[0], g[0];\nh r; h g;")
        found = self.compared(circuit, {"010": 3, "000": 1})
        self.assertEqual([row.probability for row in found.rows], [Fraction(1, 4), 0])
        self.assertEqual((found.qubits, found.cross_entropy), (3, 8 * Fraction(3, 16) - 1))

    def test_a_colour_without_qubits_may_be_unread_too(self) -> None:
        circuit = from_qasm("qubit[2] r; qubit[1] g;\nh r; h g;\nz r[1];\nh r; h g;")
        self.assertEqual(self.probabilities(circuit, "010", "000", unread="b"), [1, 0])
        self.assertEqual(self.probabilities(circuit, "01", "00", unread="bg"), [1, 0])

    def test_a_bit_that_nothing_is_measured_into_is_read_as_0(self) -> None:
        self.assertEqual(self.probabilities(three("z r;", bits=4), "1000", "0000"), [1, 0])

    def test_progress_is_told_after_each_string(self) -> None:
        told: list[tuple[int, int]] = []
        counts = {string: 1 for string in EVERY_STRING}
        compare(self.session, ONE_CCZ, counts, progress=lambda done, whole: told.append((done, whole)))
        self.assertEqual(told, [(done, 8) for done in range(1, 9)])

    def test_the_circuit_that_the_session_held_is_replaced(self) -> None:
        self.session.circuit(5)
        self.session.z(("g", 5))
        self.assertEqual(self.probabilities(Z_ON_RED, "100"), [1])


class FaultsTest(unittest.TestCase):
    """Counts that do not fit the circuit are an error, before anything is asked of the program."""

    def assert_error(
        self,
        kind: Type[WaitfieldError],
        error: str,
        counts: Mapping[str, int],
        circuit: Circuit = ONE_CCZ,
        unread: str = "",
    ) -> None:
        with Session() as session:
            with self.assertRaises(kind) as raised:
                compare(session, circuit, counts, unread=unread)
            self.assertEqual(str(raised.exception), error)
            with self.assertRaisesRegex(Refused, "there is no circuit yet"):
                session.terms()

    def test_two_keys_that_are_one_string_are_an_error(self) -> None:
        self.assert_error(CountsError, "'000' and '0 00' are one string", {"000": 1, "111": 1, "0 00": 2})

    def test_a_key_of_another_length_is_an_error(self) -> None:
        self.assert_error(StringError, "'00' has 2 digits, and 3 are read", {"000": 1, "00": 1})
        self.assert_error(StringError, "'00 00' has 4 digits, and 3 are read", {"00 00": 1})
        self.assert_error(StringError, "'000' has 3 digits, and 2 are read", {"000": 1}, unread="r")

    def test_a_key_with_other_characters_is_an_error(self) -> None:
        for bits in ["0x0", "00 2", "", " ", "0b1", "\uff10\uff100", "-00"]:
            with self.subTest(bits=bits):
                self.assert_error(StringError, f"{bits!r} is no bit string", {"000": 1, bits: 1})

    def test_a_1_at_a_bit_that_nothing_is_measured_into_is_an_error(self) -> None:
        text = "'1001' has a 1 at a classical bit that nothing is measured into"
        self.assert_error(StringError, text, {"1001": 1}, three("z r;", bits=4))

    def test_a_qubit_that_is_not_measured_makes_its_colour_unread(self) -> None:
        circuit = three("z r;", "c[0] = measure r[0]; c[2] = measure g[0];")
        text = "b[0] is not measured, so blue is not read whole; it may be named as unread"
        self.assert_error(StringError, text, {"000": 1}, circuit)
        with Session() as session:
            found = compare(session, circuit, {"100": 1}, unread="b")
        self.assertEqual((found.rows[0].probability, found.qubits), (1, 2))

    def test_shots_that_are_no_whole_number_are_an_error(self) -> None:
        for shots, shown in [(1.0, "1.0"), (True, "True"), (-1, "-1"), ("1", "'1'")]:
            with self.subTest(shots=shots):
                text = f"'000' has {shown} shots, which is no whole number from 0 on"
                self.assert_error(CountsError, text, {"000": shots})  # type: ignore[dict-item]

    def test_no_shots_are_an_error(self) -> None:
        self.assert_error(CountsError, "there are no shots", {})
        self.assert_error(CountsError, "there are no shots", {"000": 0})

    def test_three_colours_unread_are_an_error(self) -> None:
        with Session() as session, self.assertRaises(ValueError) as raised:
            compare(session, ONE_CCZ, {"0": 1}, unread="rbg")
        self.assertEqual(str(raised.exception), "at most two of r, b, g may be unread, not 'rbg'")


class WrittenTest(unittest.TestCase):
    """Exact numbers as text, and decimals that say whether they are exact."""

    def test_a_decimal_that_is_exact(self) -> None:
        for fraction, text in [
            (Fraction(1, 8), "0.125"),
            (Fraction(-1, 4), "-0.25"),
            (Fraction(0), "0"),
            (Fraction(7), "7"),
            (Fraction(-100), "-100"),
            (Fraction(7, 2), "3.5"),
            (Fraction(1, 2**12), "0.000244140625"),
            (Fraction(10**11), "100000000000"),
            (Fraction(999999999999), "999999999999"),
            (Fraction(1, 10**5), "0.00001"),
        ]:
            with self.subTest(fraction=fraction):
                self.assertEqual(decimal(fraction), (text, True))

    def test_a_decimal_that_is_rounded_has_twelve_digits(self) -> None:
        for fraction, text in [
            (Fraction(1, 3), "0.333333333333"),
            (Fraction(-2, 3), "-0.666666666667"),
            (Fraction(100, 7), "14.2857142857"),
            (Fraction(2**40 + 1, 2**40), "1"),
            (Fraction(3, 2**17), "0.0000228881835938"),
        ]:
            with self.subTest(fraction=fraction):
                self.assertEqual(decimal(fraction), (text, False))

    def test_small_and_large_decimals_have_an_exponent(self) -> None:
        for fraction, text, exact in [
            (Fraction(1, 10**6), "1e-6", True),
            (Fraction(-3, 2 * 10**9), "-1.5e-9", True),
            (Fraction(1, 2**48), "3.5527136788e-15", False),
            (Fraction(10**12), "1e+12", True),
            (Fraction(2**48), "2.81474976711e+14", False),
        ]:
            with self.subTest(fraction=fraction):
                self.assertEqual(decimal(fraction), (text, exact))

    def test_a_number_and_its_decimal(self) -> None:
        for fraction, exact, text in [
            (Fraction(9, 16), "9/2^4", "9/2^4 = 0.5625"),
            (Fraction(1, 3), "1/3", "1/3 ~ 0.333333333333"),
            (Fraction(1), "1", "1"),
            (Fraction(0), "0", "0"),
            (Fraction(10**12), "1000000000000", "1000000000000 = 1e+12"),
        ]:
            with self.subTest(fraction=fraction):
                self.assertEqual(with_decimal(fraction, exact), text)

    def test_dyadic_fractions_are_in_lowest_terms(self) -> None:
        for fraction, text in [
            (Fraction(4, 64), "1/2^4"),
            (Fraction(-3, 8), "-3/2^3"),
            (Fraction(5, 2), "5/2^1"),
            (Fraction(0), "0"),
            (Fraction(8, 8), "1"),
            (Fraction(1, 2**96), "1/2^96"),
        ]:
            with self.subTest(fraction=fraction):
                self.assertEqual(dyadic(fraction), text)

    def test_a_number_over_a_power_is_written_as_it_is(self) -> None:
        self.assertEqual(over_power(-4, 6), "-4/2^6")

    def test_columns_of_a_table_stand_below_each_other(self) -> None:
        rows = [["string", "shots"], ["0", "12345678"], ["00 11 00", ""]]
        self.assertEqual(table(rows), ["string    shots", "0         12345678", "00 11 00"])


if __name__ == "__main__":
    unittest.main()
