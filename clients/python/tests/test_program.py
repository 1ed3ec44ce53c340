"""The program behind its pipes: how it may end, answer late, answer nonsense, and how it is found, closed and left."""

from __future__ import annotations

import errno
import gc
import os
import signal
import subprocess
import sys
import time
import unittest
from pathlib import Path
from typing import Callable, Optional
from unittest import mock

from waitfield import (
    Amplitude,
    Ccz,
    NoAnswer,
    ProgramEnded,
    Refused,
    Session,
    SessionError,
    Spot,
    UnexpectedAnswer,
    Z,
    program,
)
from waitfield.program import Program, find_program

from . import fakes
from .fakes import FakeCase, answers, fake, heard, is_gone

# The folder of the package.
CLIENT = Path(__file__).resolve().parent.parent


class EndingTest(FakeCase):
    """Whichever way the program ends, the error says how, and which line it left without an answer."""

    def begun(self, then: str) -> Session:
        """A circuit is accepted; then the fake does something else than answer."""
        session = self.session(answers("(ok)", then=then))
        session.circuit(1)
        return session

    def assert_ended(self, session: Session, how: str, said: str = "") -> None:
        """A gate is left without an answer, and every later line is told the same reason. The process is gone."""
        reason = f"{self.program} {how} before it answered (ccz 1 1 1){said}"
        self.assert_fails(ProgramEnded, reason, lambda: session.ccz(1, 1, 1))
        self.assert_fails(ProgramEnded, reason, session.terms)
        self.assertTrue(is_gone(self.program))

    def test_an_end_before_the_first_line_is_told(self) -> None:
        self.assert_ended(self.session(""), "has ended with status 0")

    def test_an_end_in_place_of_an_answer_is_told(self) -> None:
        self.assert_ended(self.begun(fakes.ENDS), "has ended with status 0")

    def test_an_end_between_two_lines_is_told(self) -> None:
        self.assert_ended(self.begun(""), "has ended with status 0")

    def test_an_end_within_a_line_is_told(self) -> None:
        self.assert_ended(self.session("hear()\nsay(b'(o')"), "has ended with status 0")

    def test_an_end_within_a_listing_is_told(self) -> None:
        session = self.session(answers("(ok)", "(terms 3)\n(ccz 1 1 1)", then=""))
        session.circuit(1)
        reason = f"{self.program} has ended with status 0 before it answered (terms)"
        self.assert_fails(ProgramEnded, reason, session.terms)
        self.assert_fails(ProgramEnded, reason, session.terms)

    def test_an_exit_status_is_told(self) -> None:
        self.assert_ended(self.begun(fakes.exits(3)), "has ended with status 3")

    def test_a_signal_is_told_by_its_name(self) -> None:
        self.assert_ended(self.begun(fakes.killed(signal.SIGKILL)), "was ended by SIGKILL")

    def test_a_signal_without_a_name_is_told_by_its_number(self) -> None:
        self.assert_ended(self.begun(fakes.killed(35)), "was ended by signal 35")

    def test_an_end_by_somebody_else_is_told(self) -> None:
        session = self.begun(fakes.SILENT)
        os.kill(fakes.process_of(self.program), signal.SIGTERM)
        self.assert_ended(session, "was ended by SIGTERM")

    def test_what_it_said_on_standard_error_is_told(self) -> None:
        session = self.begun(fakes.complains(b"session: standard input: broken\n"))
        self.assert_ended(session, "has ended with status 1", ", saying: session: standard input: broken")

    def test_of_much_on_standard_error_the_last_line_is_told(self) -> None:
        session = self.begun(fakes.complains(b"a line\n" * 1000 + b"no memory\n \n", status=7))
        self.assert_ended(session, "has ended with status 7", ", saying: no memory")

    def test_bytes_on_standard_error_that_are_no_text_are_replaced(self) -> None:
        session = self.begun(fakes.complains(b"\xff broken\n"))
        self.assert_ended(session, "has ended with status 1", ", saying: \ufffd broken")

    def test_the_text_is_one_line_whatever_is_on_standard_error(self) -> None:
        session = self.begun(fakes.complains(b"10%\r20%\x0b30%\n"))
        with self.assertRaises(ProgramEnded) as raised:
            session.terms()
        self.assertEqual(len(str(raised.exception).splitlines()), 1, str(raised.exception))

    def test_an_output_closed_by_a_program_that_goes_on_is_told(self) -> None:
        session = self.session(fakes.CLOSES_ITS_OUTPUT)
        session.circuit(1)
        with mock.patch.object(program, "CLOSING_TIME", 0.05):
            self.assert_ended(session, "has closed its output")

    def test_an_input_closed_by_a_program_that_goes_on_is_told(self) -> None:
        session = self.session(fakes.CLOSES_ITS_INPUT)
        session.circuit(1)
        with mock.patch.object(program, "CLOSING_TIME", 0.05):
            self.assert_ended(session, "takes no more lines")

    def test_the_reason_stays_when_the_session_is_closed(self) -> None:
        session = self.begun(fakes.exits(3))
        reason = f"{self.program} has ended with status 3 before it answered (terms)"
        self.assert_fails(ProgramEnded, reason, session.terms)
        session.close()
        self.assert_fails(ProgramEnded, reason, session.terms)


class LateTest(FakeCase):
    """An answer is waited for, and is that of its line; with a time set, a line without an answer is the last one."""

    def test_without_a_time_set_a_late_answer_is_waited_for(self) -> None:
        session = self.session(fakes.answers_late(0.1, "(ok)"))
        session.circuit(1)
        self.assertEqual(heard(self.program), ["(circuit 1)"])

    def test_late_answers_are_those_of_their_lines(self) -> None:
        session = self.session(fakes.answers_late(0.03, "(ok)", "(no 9)", "(left 2)"))
        session.circuit(1)
        with self.assertRaises(Refused) as raised:
            session.ccz(2, 1, 1)
        self.assertEqual((raised.exception.number, raised.exception.line), (9, "(ccz 2 1 1)"))
        self.assertEqual(session.amp("r", "0", "0", "0"), 2)

    def test_an_answer_in_time_is_taken(self) -> None:
        session = self.session(fakes.answers_late(0.01, "(ok)"), timeout=30)
        session.circuit(1)
        self.assertEqual(heard(self.program), ["(circuit 1)"])

    def test_an_answer_that_is_late_is_taken_for_no_other_line(self) -> None:
        session = self.session(fakes.answers_late(0.2, "(ok)", "(ok)"), timeout=0.1)
        fakes.process_of(self.program)
        late = f"{self.program} has not answered (circuit 1) in 0.1 seconds"
        self.assert_fails(NoAnswer, late, lambda: session.circuit(1))
        self.assertTrue(is_gone(self.program))
        reason = "the program was ended, since it did not answer (circuit 1) in time"
        self.assert_fails(ProgramEnded, reason, lambda: session.circuit(1))

    def test_a_program_that_never_answers_is_not_waited_for_longer(self) -> None:
        session = self.session(fakes.SILENT, timeout=0.05)
        fakes.process_of(self.program)
        late = f"{self.program} has not answered (circuit 1) in 0.05 seconds"
        self.assert_fails(NoAnswer, late, lambda: session.circuit(1))
        self.assertTrue(is_gone(self.program))

    def test_pieces_of_a_line_do_not_give_it_more_time(self) -> None:
        session = self.session(fakes.answers_in_pieces(0.08, b"(", b"o", b"k", b")", b"\n"), timeout=0.15)
        fakes.process_of(self.program)
        with self.assertRaises(NoAnswer):
            session.circuit(1)
        self.assertTrue(is_gone(self.program))


class PiecesTest(FakeCase):
    """An answer ends with its line feed, however it comes."""

    def test_pieces_of_a_line_are_put_together(self) -> None:
        session = self.session(fakes.answers_in_pieces(0.02, b"(", b"le", b"ft 1)", b"\n"))
        self.assertEqual(session.amp("r", "", "", ""), 1)

    def test_a_listing_that_comes_at_once_and_one_in_pieces_are_the_same(self) -> None:
        listing = b"(terms 2)\n(ccz 1 1 1)\n(z (r 1))\n"
        for pieces in [[listing], [listing[:12], listing[12:30], listing[30:]]]:
            with self.subTest(pieces=len(pieces)):
                session = self.session(f"hear()\nsay('(ok)')\n{fakes.answers_in_pieces(0.02, *pieces)}")
                session.circuit(1)
                self.assertEqual(session.terms(), [Ccz(1, 1, 1), Z(Spot("r", 1))])

    def test_no_line_is_sent_before_the_one_before_is_answered(self) -> None:
        session = self.session(fakes.ANSWERS_ONE_LINE_AT_A_TIME)
        for number in range(1, 301):
            session.undo(number)
        self.assertEqual(heard(self.program), [f"(undo {number})" for number in range(1, 301)])


class NonsenseTest(FakeCase):
    """What a line cannot be answered with is an error, and ends the program."""

    def begun(self, *prepared: str) -> Session:
        """A circuit with m = 1 is accepted; the prepared answers come next."""
        session = self.session(answers("(ok)", *prepared))
        session.circuit(1)
        return session

    def opened(self, *prepared: str) -> Session:
        """A circuit with m = 2, and the sum for an amplitude open; the prepared answers come next."""
        session = self.session(answers("(ok)", "(left 4)", *prepared))
        session.circuit(2)
        session.amp("r", "00", "00", "00")
        return session

    def assert_nonsense(self, ask: Callable[[], object], line: str, answer: str) -> None:
        text = f"{self.program} answers {line} by {answer!r}, which is no answer to it"
        self.assert_fails(UnexpectedAnswer, text, ask)
        reason = f"the program was ended, since it answered {line} by {answer!r}"
        self.assert_fails(ProgramEnded, reason, ask)
        self.assertTrue(is_gone(self.program))

    def test_ok_is_no_answer_to_amp(self) -> None:
        session = self.begun("(ok)")
        self.assert_nonsense(lambda: session.amp("r", "0", "0", "0"), "(amp r 0 0 0)", "(ok)")

    def test_slices_are_no_answer_to_a_gate(self) -> None:
        session = self.begun("(left 2)")
        self.assert_nonsense(lambda: session.ccz(1, 1, 1), "(ccz 1 1 1)", "(left 2)")

    def test_a_sum_has_as_many_slices_as_a_colour_has_strings(self) -> None:
        session = self.session(answers("(ok)", "(left 3)"))
        session.circuit(2)
        self.assert_nonsense(lambda: session.part("g", "00", "00"), "(part g 00 00)", "(left 3)")

    def test_a_step_leaves_as_many_slices_as_it_has_not_worked(self) -> None:
        session = self.opened("(left 3)", "(left 2)")
        self.assertEqual(session.step(1), 3)
        self.assert_nonsense(lambda: session.step(2), "(step 2)", "(left 2)")

    def test_a_total_does_not_come_while_slices_are_left(self) -> None:
        session = self.opened("(amp 4 6)")
        self.assert_nonsense(lambda: session.step(3), "(step 3)", "(amp 4 6)")

    def test_no_slices_are_left_behind_the_last_step(self) -> None:
        session = self.opened("(left 0)")
        self.assert_nonsense(lambda: session.step(4), "(step 4)", "(left 0)")

    def test_an_amplitude_has_three_times_m_as_its_exponent(self) -> None:
        session = self.opened("(amp 4 5)")
        self.assert_nonsense(lambda: session.step(4), "(step 4)", "(amp 4 5)")

    def test_one_colour_read_has_twice_m_as_its_exponent(self) -> None:
        session = self.begun("(left 2)", "(one 3 3)")
        session.one("g", "0")
        self.assert_nonsense(lambda: session.step(2), "(step 2)", "(one 3 3)")

    def test_no_amplitude_is_above_1(self) -> None:
        session = self.opened("(amp 65 6)")
        self.assert_nonsense(lambda: session.step(4), "(step 4)", "(amp 65 6)")

    def test_no_amplitude_is_below_minus_1(self) -> None:
        session = self.opened("(amp -65 6)")
        self.assert_nonsense(lambda: session.step(4), "(step 4)", "(amp -65 6)")

    def test_an_amplitude_may_be_1_or_minus_1(self) -> None:
        for number in [64, -64]:
            with self.subTest(number=number):
                self.assertEqual(self.opened(f"(amp {number} 6)").step(4), Amplitude(number, 6))

    def test_no_readout_is_negative(self) -> None:
        session = self.begun("(left 2)", "(part -1 3)")
        session.part("g", "0", "0")
        self.assert_nonsense(lambda: session.step(2), "(step 2)", "(part -1 3)")

    def test_no_readout_is_above_1(self) -> None:
        session = self.begun("(left 2)", "(one 5 2)")
        session.one("g", "0")
        self.assert_nonsense(lambda: session.step(2), "(step 2)", "(one 5 2)")

    def test_a_readout_is_no_total_of_an_amplitude(self) -> None:
        session = self.opened("(part 4 6)")
        self.assert_nonsense(lambda: session.step(4), "(step 4)", "(part 4 6)")

    def test_a_dropped_sum_has_no_slices(self) -> None:
        session = self.opened("(ok)", "(left 3)")
        session.drop()
        self.assert_nonsense(lambda: session.step(1), "(step 1)", "(left 3)")

    def test_no_total_is_given_where_no_sum_is_open(self) -> None:
        session = self.begun("(amp 6 3)")
        self.assert_nonsense(lambda: session.step(2), "(step 2)", "(amp 6 3)")

    def test_a_refusal_has_a_number_that_refusals_have(self) -> None:
        for answer in ["(no 0)", "(no 15)", "(no 111)", "(no -4)", "(no)"]:
            with self.subTest(answer=answer):
                session = self.session(answers(answer))
                self.assert_nonsense(lambda: session.circuit(1), "(circuit 1)", answer)

    def test_the_refusal_that_only_callers_of_the_engine_meet_is_no_answer(self) -> None:
        session = self.session(answers("(no 1)"))
        self.assert_nonsense(lambda: session.circuit(1), "(circuit 1)", "(no 1)")

    def test_a_listing_has_terms_alone(self) -> None:
        for listed in ["", "(ok)", "(cnot r 1 1)", "(ccz 1 1)", "(ccz 1 1 1) ", "(z (k 1))", "(ccz 1 0 1)"]:
            with self.subTest(listed=listed):
                session = self.begun(f"(terms 2)\n(ccz 1 1 1)\n{listed}")
                self.assert_nonsense(session.terms, "(terms)", listed)

    def test_a_cz_of_a_listing_has_two_colours_in_order(self) -> None:
        for listed in ["(cz (r 1) (r 1))", "(cz (b 1) (r 1))"]:
            with self.subTest(listed=listed):
                session = self.begun(f"(terms 1)\n{listed}")
                self.assert_nonsense(session.terms, "(terms)", listed)

    def test_a_listing_has_each_term_once_and_in_order(self) -> None:
        for first, second in [
            ("(ccz 1 1 1)", "(ccz 1 1 1)"),
            ("(cz (r 1) (b 1))", "(ccz 1 1 1)"),
            ("(cz (r 1) (g 1))", "(cz (r 1) (b 1))"),
            ("(z (r 1))", "(cz (b 1) (g 1))"),
            ("(z (g 1))", "(z (b 1))"),
        ]:
            with self.subTest(first=first, second=second):
                session = self.begun(f"(terms 2)\n{first}\n{second}")
                self.assert_nonsense(session.terms, "(terms)", second)

    def test_a_listing_has_positions_of_the_circuit_alone(self) -> None:
        for listed in ["(ccz 1 2 1)", "(cz (r 1) (g 2))", "(z (b 2))"]:
            with self.subTest(listed=listed):
                session = self.begun(f"(terms 1)\n{listed}")
                self.assert_nonsense(session.terms, "(terms)", listed)

    def test_a_listing_has_no_more_terms_than_there_are(self) -> None:
        for m, too_many in [(1, "(terms 8)"), (2, "(terms 27)"), (16, "(terms 4913)")]:
            with self.subTest(m=m):
                session = self.session(answers("(ok)", too_many))
                session.circuit(m)
                self.assert_nonsense(session.terms, "(terms)", too_many)

    def test_an_empty_line_is_no_answer(self) -> None:
        session = self.session(answers(""))
        self.assert_nonsense(lambda: session.circuit(1), "(circuit 1)", "")

    def test_an_answer_is_spelled_exactly(self) -> None:
        for answer in ["(ok", "ok", "(OK)", " (ok)", "(ok) ", "(ok)\r", "( ok)", "(ok)(ok)"]:
            with self.subTest(answer=answer):
                session = self.session(answers(answer))
                self.assert_nonsense(lambda: session.circuit(1), "(circuit 1)", answer)

    def test_a_number_has_no_zero_in_front_and_no_other_spelling(self) -> None:
        for answer in ["(amp 04 6)", "(amp 4 06)", "(amp -0 6)", "(amp -04 6)", "(amp +4 6)", "(amp 4.0 6)", "(amp 6)"]:
            with self.subTest(answer=answer):
                session = self.opened(answer)
                self.assert_nonsense(lambda: session.step(4), "(step 4)", answer)

    def test_numbers_of_slices_terms_and_refusals_have_no_zero_in_front(self) -> None:
        session = self.begun("(left 02)")
        self.assert_nonsense(lambda: session.amp("r", "0", "0", "0"), "(amp r 0 0 0)", "(left 02)")
        for answer in ["(no 04)", "(terms 00)", "(terms 01)\n(z (r 1))"]:
            with self.subTest(answer=answer):
                session = self.begun(answer)
                self.assert_nonsense(session.terms, "(terms)", answer.split("\n")[0])

    def test_bytes_that_are_no_ascii_are_no_answer(self) -> None:
        for data, shown in [(b"(ok)\xff", "(ok)\\xff"), ("(left \uff14)".encode(), "(left \\xef\\xbc\\x94)")]:
            with self.subTest(data=data):
                session = self.session(fakes.answers_bytes(data + b"\n"))
                self.assert_nonsense(lambda: session.circuit(1), "(circuit 1)", shown)

    def test_an_endless_line_is_not_waited_for(self) -> None:
        session = self.session(fakes.ENDLESS)
        self.assert_nonsense(lambda: session.circuit(1), "(circuit 1)", "a" * 64 + "..")

    def test_a_line_of_more_than_64_bytes_is_no_answer(self) -> None:
        session = self.session(answers("(terms 1)\n" + "a" * 65))
        self.assert_nonsense(session.terms, "(terms)", "(terms 1)")
        session = self.begun("(terms 1)\n" + "a" * 65)
        self.assert_nonsense(session.terms, "(terms)", "a" * 64 + "..")


class UnaskedTest(FakeCase):
    """What comes with nothing asked is noticed before the next line is sent."""

    def assert_noticed(self, session: Session, came: str) -> None:
        text = f"{self.program} says {came!r}, and nothing was asked"
        self.assert_fails(UnexpectedAnswer, text, lambda: session.ccz(1, 1, 1))
        self.assert_fails(ProgramEnded, f"the program was ended, since it said {came!r} unasked", session.terms)
        self.assertTrue(is_gone(self.program))

    def test_two_answers_to_one_line_are_noticed(self) -> None:
        session = self.session(answers("(ok)\n(ok)"))
        session.circuit(1)
        self.assert_noticed(session, "(ok)\n")
        self.assertEqual(heard(self.program), ["(circuit 1)"])

    def test_a_second_answer_that_comes_later_is_noticed(self) -> None:
        session = self.session(f"hear()\nsay('(ok)')\n{fakes.SPEAKS_FIRST}")
        session.circuit(1)
        fakes.awaited(Path(self.program + ".spoke"))
        self.assert_noticed(session, "(ok)\n")
        self.assertEqual(heard(self.program), ["(circuit 1)"])

    def test_a_listing_with_more_terms_than_it_says_is_noticed(self) -> None:
        session = self.session(answers("(ok)", "(terms 1)\n(z (r 1))\n(z (b 1))"))
        session.circuit(1)
        self.assertEqual(session.terms(), [Z(Spot("r", 1))])
        self.assert_noticed(session, "(z (b 1))\n")

    def test_output_before_the_first_line_is_noticed(self) -> None:
        session = self.session(fakes.SPEAKS_FIRST)
        fakes.awaited(Path(self.program + ".spoke"))
        self.assert_noticed(session, "(ok)\n")
        self.assertEqual(heard(self.program), [])

    def test_of_much_output_the_first_64_bytes_are_told(self) -> None:
        session = self.session(answers("(ok)\n" + "a" * 100))
        session.circuit(1)
        self.assert_noticed(session, "a" * 64)


class SayingTest(FakeCase):
    """What is no line is not sent, and the session goes on."""

    def test_what_is_no_line_is_not_sent(self) -> None:
        session = self.session(answers("(ok)"))
        for string in ["0\n(drop)", "\n", "\ud800"]:
            with self.subTest(string=string), self.assertRaises(ValueError):
                session.start(string, "0", "0")
        session.circuit(1)
        self.assertEqual(heard(self.program), ["(circuit 1)"])

    def test_an_empty_line_is_not_sent_since_it_has_no_answer(self) -> None:
        running = Program(fake(self.folder, answers("(ok)")))
        self.addCleanup(running.close)
        with self.assertRaises(ValueError):
            running.ask("")
        self.assertEqual(running.ask("(circuit 1)"), ["(ok)"])


class ClosingTest(FakeCase):
    """The program is gone when the session is left, whichever way it is left."""

    def begun(self, body: str = answers("(ok)")) -> Session:
        session = self.session(body)
        session.circuit(1)
        return session

    def test_a_closed_session_has_ended_its_program(self) -> None:
        session = self.begun()
        self.assertFalse(is_gone(self.program))
        session.close()
        self.assertTrue(is_gone(self.program))
        self.assert_fails(ProgramEnded, "the session is closed", session.terms)

    def test_a_session_may_be_closed_twice(self) -> None:
        session = self.begun()
        session.close()
        session.close()
        self.assert_fails(ProgramEnded, "the session is closed", session.terms)

    def test_a_program_that_never_ends_is_killed_when_its_time_is_over(self) -> None:
        session = self.begun(fakes.never_ends("(ok)"))
        begin = time.monotonic()
        with mock.patch.object(program, "CLOSING_TIME", 0.05):
            session.close()
        self.assertLess(time.monotonic() - begin, 5)
        self.assertTrue(is_gone(self.program))

    def test_a_program_that_answers_nonsense_is_killed_at_once(self) -> None:
        session = self.begun(fakes.never_ends("(ok)\n(ok)"))
        begin = time.monotonic()
        with mock.patch.object(program, "CLOSING_TIME", 20), self.assertRaises(UnexpectedAnswer):
            session.terms()
        self.assertLess(time.monotonic() - begin, 5)
        self.assertTrue(is_gone(self.program))

    def test_the_end_of_a_with_statement_closes_it(self) -> None:
        with self.begun() as session:
            self.assertFalse(is_gone(self.program))
        self.assertTrue(is_gone(self.program))
        self.assert_fails(ProgramEnded, "the session is closed", session.terms)

    def test_an_exception_out_of_a_with_statement_closes_it_and_passes(self) -> None:
        with self.assertRaisesRegex(LookupError, "^mine$"), self.begun():
            raise LookupError("mine")
        self.assertTrue(is_gone(self.program))

    def test_an_object_that_is_dropped_ends_its_program(self) -> None:
        program_path = fake(self.folder, answers("(ok)"))
        session = Session(program_path)
        session.circuit(1)
        del session
        gc.collect()
        self.assertTrue(is_gone(program_path))

    def test_the_end_of_the_interpreter_ends_it(self) -> None:
        for end in ["", "raise SystemExit(0)"]:
            with self.subTest(end=end):
                path = fake(self.folder, answers("(ok)"))
                script = f"from waitfield import Session\nopen_one = Session({path!r})\nopen_one.circuit(1)\n{end}"
                run = subprocess.run([sys.executable, "-c", script], cwd=CLIENT, stderr=subprocess.PIPE, check=True)
                self.assertEqual(run.stderr, b"")
                self.assertTrue(is_gone(path))


class InterruptTest(FakeCase):
    """An interrupt from the keyboard passes, and leaves no answer behind that could be taken for another line's."""

    def setUp(self) -> None:
        super().setUp()
        before = signal.signal(signal.SIGINT, signal.default_int_handler)
        self.addCleanup(signal.signal, signal.SIGINT, before)

    def test_an_interrupt_while_an_answer_is_awaited_ends_the_program(self) -> None:
        session = self.session(fakes.INTERRUPTS)
        with self.assertRaises(KeyboardInterrupt):
            session.circuit(1)
        self.assertTrue(is_gone(self.program))
        reason = "the program was ended, since the answer to (circuit 1) was not waited for"
        self.assert_fails(ProgramEnded, reason, session.terms)

    def test_an_interrupt_between_a_line_and_its_answer_ends_the_program(self) -> None:
        session = self.session(fakes.answers_late(0.1, "(ok)", "(ok)"))
        with mock.patch.object(Program, "_next_line", side_effect=KeyboardInterrupt):
            with self.assertRaises(KeyboardInterrupt):
                session.circuit(1)
        reason = "the program was ended, since the answer to (circuit 1) was not waited for"
        self.assert_fails(ProgramEnded, reason, lambda: session.ccz(1, 1, 1))

    def test_an_interrupt_while_a_line_is_sent_ends_the_program(self) -> None:
        session = self.session(fakes.INTERRUPTS_A_LONG_LINE)
        with self.assertRaises(KeyboardInterrupt):
            session.one("r", "0" * 1_000_000)
        self.assertTrue(is_gone(self.program))
        shown = "(one r " + "0" * 113 + ".."
        reason = f"the program was ended, since the answer to {shown} was not waited for"
        self.assert_fails(ProgramEnded, reason, session.terms)

    def test_an_interrupt_does_not_reach_the_program_itself(self) -> None:
        session = self.session(answers("(ok)"))
        session.circuit(1)
        self.assertEqual(os.getpgid(fakes.process_of(self.program)), fakes.process_of(self.program))
        self.assertNotEqual(os.getpgid(fakes.process_of(self.program)), os.getpgid(0))


class RunningTest(FakeCase):
    """What cannot be run is an error of one line."""

    def assert_cannot_be_run(self, path: Path, number: int) -> None:
        text = f"{path} cannot be run: {os.strerror(number)}"
        self.assert_fails(SessionError, text, lambda: Session(path))

    def test_a_path_that_does_not_exist_cannot_be_run(self) -> None:
        self.assert_cannot_be_run(self.folder / "none", errno.ENOENT)

    def test_a_folder_cannot_be_run(self) -> None:
        self.assert_cannot_be_run(self.folder, errno.EACCES)

    def test_a_file_that_is_not_executable_cannot_be_run(self) -> None:
        file = self.folder / "text"
        file.write_text("(ok)")
        self.assert_cannot_be_run(file, errno.EACCES)

    def test_a_file_that_is_no_program_cannot_be_run(self) -> None:
        file = self.folder / "text"
        file.write_text("(ok)")
        file.chmod(0o700)
        self.assert_cannot_be_run(file, errno.ENOEXEC)

    def test_a_name_alone_is_a_path_in_the_current_folder(self) -> None:
        """Not one to be looked for in the folders of PATH, as a shell does."""
        name = Path(fake(self.folder, answers("(ok)"))).name
        self.addCleanup(os.chdir, os.getcwd())
        os.chdir(self.folder)
        with Session(name) as session:
            session.circuit(1)

    def test_a_path_may_be_a_path_object(self) -> None:
        with Session(Path(fake(self.folder, answers("(ok)")))) as session:
            session.circuit(1)


class FindingTest(FakeCase):
    """The program is the one that is named, else the one of the variable, else the one of the repository."""

    def setUp(self) -> None:
        super().setUp()
        self.set_variable(None)

    def set_variable(self, value: Optional[str]) -> None:
        """Sets the variable, or takes it away, until the end of the test."""
        patched = mock.patch.dict(os.environ)
        patched.start()
        self.addCleanup(patched.stop)
        os.environ.pop("WAITFIELD_SESSION", None)
        if value is not None:
            os.environ["WAITFIELD_SESSION"] = value

    def repository(self, name: str, built: bool = True) -> Path:
        """A folder that looks like a repository."""
        folder = self.folder.resolve() / name
        (folder / "crates" / "session").mkdir(parents=True)
        if built:
            (folder / "crates" / "session" / "out").mkdir(parents=True)
            (folder / "crates" / "session" / "out" / "session").touch()
        return folder

    def test_an_argument_comes_before_the_variable(self) -> None:
        self.set_variable("by variable")
        self.assertEqual(find_program("by argument"), "by argument")

    def test_the_variable_comes_before_the_repository(self) -> None:
        self.set_variable("by variable")
        with mock.patch.object(program, "_repositories", lambda: iter([self.repository("one")])):
            self.assertEqual(find_program(), "by variable")

    def test_an_empty_variable_is_as_none(self) -> None:
        self.set_variable("")
        one = self.repository("one")
        with mock.patch.object(program, "_repositories", lambda: iter([one])):
            self.assertEqual(find_program(), str(one / "crates" / "session" / "out" / "session"))

    def test_a_repository_without_the_program_is_passed_over(self) -> None:
        found = [self.repository("one", built=False), self.repository("two")]
        with mock.patch.object(program, "_repositories", lambda: iter(found)):
            self.assertEqual(find_program(), str(found[1] / "crates" / "session" / "out" / "session"))

    def test_the_repository_that_the_package_stands_in_comes_first(self) -> None:
        package, current = self.repository("package"), self.repository("current")
        self.enter(current)
        with mock.patch.object(program, "__file__", str(package / "clients" / "waitfield" / "program.py")):
            self.assertEqual(find_program(), str(package / "crates" / "session" / "out" / "session"))

    def test_an_installed_package_finds_the_repository_of_the_current_folder(self) -> None:
        current = self.repository("current")
        self.enter(current / "crates")
        with mock.patch.object(program, "__file__", str(self.folder / "lib" / "waitfield" / "program.py")):
            self.assertEqual(find_program(), str(current / "crates" / "session" / "out" / "session"))

    def test_where_nothing_is_found_the_error_says_what_to_do(self) -> None:
        text = (
            "the program session is not found: give its path, set WAITFIELD_SESSION, "
            "or build it by 'rt run' in crates/session"
        )
        with mock.patch.object(program, "_repositories", lambda: iter([])):
            self.assert_fails(SessionError, text, Session)

    def enter(self, folder: Path) -> None:
        self.addCleanup(os.chdir, os.getcwd())
        os.chdir(folder)


if __name__ == "__main__":
    unittest.main()
