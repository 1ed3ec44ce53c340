"""The command line: a circuit file converted, asked for amplitudes and readouts, and held beside measured counts."""

from __future__ import annotations

import argparse
import io
import os
import re
import sys
from fractions import Fraction
from typing import NoReturn, Optional, Sequence

from . import __version__
from .circuit import LEFTMOST, Circuit, plain_digits
from .counts import Comparison, compare, read_counts
from .errors import QasmError, StringError, WaitfieldError
from .gates import COLOURS
from .progress import Bar
from .qasm import from_qasm, read_mapping, read_qasm
from .session import Session
from .texts import Unreadable, read_standard_input, read_text
from .written import dyadic, over_power, table, with_decimal

# Exit statuses. A verdict that is no pass has one of its own, so that a script can tell it from an error.
PASSED, FAILED_TO_RUN, NOT_PASSED, INTERRUPTED = 0, 1, 2, 130


class _Usage(WaitfieldError):
    """Arguments that cannot be taken."""


class _Parser(argparse.ArgumentParser):
    def error(self, message: str) -> NoReturn:
        raise _Usage(f"{message} ('{self.prog} --help' tells more)")


def main(arguments: Optional[Sequence[str]] = None) -> int:
    """Runs a command and gives its exit status. An error is one line on standard error."""
    try:
        status = _run(arguments)
        sys.stdout.flush()
        return status
    except BrokenPipeError:
        # Whoever read the output has gone, and need not be told.
        _give_up_output()
        return FAILED_TO_RUN
    except OSError as error:
        _give_up_output()
        return _told(error.strerror or str(error), FAILED_TO_RUN)
    except WaitfieldError as error:
        return _told(str(error), FAILED_TO_RUN)
    except KeyboardInterrupt:
        return _told("interrupted", INTERRUPTED)


def _run(arguments: Optional[Sequence[str]]) -> int:
    if sys.stdout is None:
        raise _Usage("standard output is closed")
    if isinstance(sys.stdout, io.TextIOWrapper):
        # Names of qubits may have letters that the output cannot hold.
        sys.stdout.reconfigure(errors="backslashreplace")
    try:
        given = _parser().parse_args(arguments)
        return int(given.run(given))
    except SystemExit as ended:
        # By --help and --version.
        return int(ended.code or PASSED)


def _told(message: str, status: int) -> int:
    """Says what went wrong, in one line, where there is a standard error."""
    if sys.stderr is not None:
        print("waitfield:", " ".join(message.split()), file=sys.stderr)
    return status


def _give_up_output() -> None:
    """After a write that failed: Python would write the rest when it ends, and fail again."""
    os.dup2(os.open(os.devnull, os.O_WRONLY), sys.stdout.fileno())


def _parser() -> argparse.ArgumentParser:
    parser = _Parser(prog="python -m waitfield", description=__doc__)
    parser.add_argument("--version", action="version", version=f"waitfield {__version__}")
    commands = parser.add_subparsers(required=True, metavar="COMMAND", parser_class=_Parser)

    def command(name: str, run: object, about: str) -> argparse.ArgumentParser:
        added = commands.add_parser(name, help=about, description=about)
        added.set_defaults(run=run)
        added.add_argument("file", metavar="FILE.qasm", help="a circuit in OpenQASM; - for standard input")
        added.add_argument("--colours", metavar="MAP.json", help='colours of the qubits: {"q[0]": ["r", 1], ..}')
        return added

    def asking(name: str, run: object, about: str) -> argparse.ArgumentParser:
        added = command(name, run, about)
        added.add_argument("--session", metavar="PROGRAM", help="the program session; else by WAITFIELD_SESSION")
        added.add_argument(
            "--leftmost",
            choices=LEFTMOST,
            default="first",
            help="which classical bit the leftmost digit of a measured string is (first)",
        )
        return added

    def unread(parser: argparse.ArgumentParser, required: bool) -> None:
        parser.add_argument(
            "--unread",
            metavar="C",
            action="append",
            choices=list(COLOURS),
            default=[],
            required=required,
            help="a colour that is not read: r, b or g; may be given twice",
        )

    command("convert", _convert, "write the circuit as lines of the program session")

    amplitude = asking("amplitude", _answers, "exact amplitudes of output strings")
    amplitude.set_defaults(unread=[])
    amplitude.add_argument("bits", metavar="BITS", nargs="+", help="output strings, as measured or as R B G")

    readout = asking("readout", _answers, "exact probabilities of readouts with colours unread")
    unread(readout, required=True)
    readout.add_argument("bits", metavar="BITS", nargs="+", help="a string for each colour read, in order r, b, g")

    comparing = asking("compare", _compare, "measured counts beside exact probabilities, and their cross-entropy")
    unread(comparing, required=False)
    comparing.add_argument("counts", metavar="COUNTS.json", help='shots by measured string: {"0110": 12, ..}')
    comparing.add_argument(
        "--at-least", metavar="F", type=_fraction, help="pass if the linear cross-entropy is at least F, else fail"
    )
    return parser


def _fraction(text: str) -> Fraction:
    """A threshold: a whole number, a decimal, or a quotient. Without exponents, whose powers of ten might not end."""
    try:
        return Fraction(text if re.fullmatch(r"[+-]?[0-9]{1,40}([./][0-9]{1,40})?", text) else "")
    except (ValueError, ZeroDivisionError):
        raise argparse.ArgumentTypeError(f"{text!r} is no number") from None


def _convert(given: argparse.Namespace) -> int:
    print("\n".join(_circuit(given).lines))
    return PASSED


def _answers(given: argparse.Namespace) -> int:
    """Amplitudes, or readouts where colours are unread."""
    circuit = _circuit(given)
    unread = _unread(given)
    asked = _asked(circuit, given.bits, unread, given.leftmost)
    rows = [["string", "readout" if unread else "amplitude", "probability"]]
    with Session(given.session) as session, Bar(sys.stderr) as bar:
        session.load(circuit)
        for number, (label, strings) in enumerate(asked):

            def told(worked: int, slices: int) -> None:
                bar(number * slices + worked, len(asked) * slices)

            found = session.ask(strings, unread=unread, progress=told)
            rows.append([label, over_power(found.number, found.exponent), _probability(found.probability)])
    print("\n".join(table(rows)))
    return PASSED


def _compare(given: argparse.Namespace) -> int:
    circuit = _circuit(given)
    unread = _unread(given)
    counts = read_counts(_text(given.counts))
    with Session(given.session) as session, Bar(sys.stderr) as bar:
        found = compare(session, circuit, counts, unread=unread, leftmost=given.leftmost, progress=bar)
    rows = [["string", "shots", "share", "probability"]]
    for row in found.rows:
        share = with_decimal(row.share, str(row.share))
        rows.append([row.bits, str(row.shots), share, _probability(row.probability)])
    passed = given.at_least is None or found.cross_entropy >= given.at_least
    print("\n".join([*table(rows), "", *_summary(circuit, found, unread, given)]))
    return PASSED if passed else NOT_PASSED


def _summary(circuit: Circuit, found: Comparison, unread: str, given: argparse.Namespace) -> list[str]:
    names = {spot: name for name, spot in circuit.qubits.items()}
    digits = [names[spot] if spot else "nothing" for spot in circuit.digits_read(unread, given.leftmost)]
    rows = [
        ["digits", f"{digits[0]} leftmost, {digits[-1]} rightmost"],
        ["qubits read", str(found.qubits)],
        ["shots", str(found.shots)],
        ["impossible", f"{found.impossible} (shots on strings of probability 0)"],
        ["cross-entropy", with_decimal(found.cross_entropy, str(found.cross_entropy))],
    ]
    if given.at_least is not None:
        passed = found.cross_entropy >= given.at_least
        verdict = "pass: at least" if passed else "fail: less than"
        rows.append(["verdict", f"{verdict} {with_decimal(given.at_least, str(given.at_least))}"])
    return table(rows)


def _probability(fraction: Fraction) -> str:
    return with_decimal(fraction, dyadic(fraction))


def _unread(given: argparse.Namespace) -> str:
    unread = "".join(sorted(set(given.unread), key=COLOURS.index))
    if unread == COLOURS:
        raise _Usage("at most two colours may be unread")
    return unread


def _circuit(given: argparse.Namespace) -> Circuit:
    colours = None if given.colours is None else read_mapping(_text(given.colours))
    if given.file != "-":
        return read_qasm(given.file, colours=colours)
    name = "standard input"
    try:
        return from_qasm(read_standard_input(), colours=colours, file=name)
    except Unreadable as error:
        raise QasmError(name, 1, str(error)) from error


def _text(path: str) -> str:
    try:
        return read_text(path)
    except Unreadable as error:
        raise WaitfieldError(f"{path} {error}") from error


def _asked(circuit: Circuit, bits: Sequence[str], unread: str, leftmost: str) -> list[tuple[str, tuple[str, ...]]]:
    """The strings that are asked for, each with what names it. One argument with all digits is a string as it is
    measured; else there is an argument for each colour."""
    digits = len(circuit.digits_read(unread))
    colours = circuit.colours_read(unread)
    if not colours:
        raise StringError("no qubit is read: the colours that have qubits are unread")
    asked = []
    rest = list(bits)
    while rest:
        measured = len(plain_digits(rest[0])) == digits and circuit.is_measured(unread)
        taken = 1 if measured else len(colours)
        given, rest = rest[:taken], rest[taken:]
        if len(given) < taken:
            raise StringError(
                f"{given[0]!r} has {len(given[0])} digits: a string has {digits}, or an argument for each of {colours}"
            )
        if measured:
            strings = circuit.strings(given[0], unread=unread, leftmost=leftmost)
        else:
            strings = circuit.strings_by_colour(given, unread=unread)
        asked.append((" ".join(given), strings))
    return asked
