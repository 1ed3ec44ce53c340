"""Exact numbers as text: as whole numbers over powers of two, and as decimals."""

from __future__ import annotations

from decimal import Context, Decimal, Inexact
from fractions import Fraction
from typing import Sequence

SIGNIFICANT_DIGITS = 12


def over_power(number: int, exponent: int) -> str:
    """A whole number over a power of two, as it is."""
    return f"{number}/2^{exponent}"


def dyadic(fraction: Fraction) -> str:
    """A fraction whose denominator is a power of two, in lowest terms."""
    exponent = fraction.denominator.bit_length() - 1
    assert fraction.denominator == 1 << exponent
    return over_power(fraction.numerator, exponent) if exponent else str(fraction.numerator)


def decimal(fraction: Fraction) -> tuple[str, bool]:
    """A fraction as a decimal of at most 12 digits, and whether it is the fraction, with nothing rounded."""
    context = Context(prec=SIGNIFICANT_DIGITS)
    quotient = context.divide(Decimal(fraction.numerator), Decimal(fraction.denominator)).normalize(context)
    plain = -6 < quotient.adjusted() < SIGNIFICANT_DIGITS
    return (f"{quotient:f}" if plain else f"{quotient:e}"), not context.flags[Inexact]


def with_decimal(fraction: Fraction, exact: str) -> str:
    """An exact number, and the decimal that it is, or is near to."""
    text, equal = decimal(fraction)
    return exact if text == exact else f"{exact} {'=' if equal else '~'} {text}"


def table(rows: Sequence[Sequence[str]]) -> list[str]:
    """Rows as lines, their columns below each other."""
    widths = [max(len(row[column]) for row in rows) for column in range(len(rows[0]))]
    return ["  ".join(cell.ljust(width) for cell, width in zip(row, widths)).rstrip() for row in rows]
