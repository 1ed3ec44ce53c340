"""What a sum comes to: a whole number over a power of two, exactly (manual, section 12)."""

from __future__ import annotations

from dataclasses import dataclass
from fractions import Fraction


@dataclass(frozen=True)
class Total:
    """The fraction number / 2^exponent."""

    number: int
    exponent: int

    @property
    def fraction(self) -> Fraction:
        return Fraction(self.number, 2**self.exponent)


class Amplitude(Total):
    """`(amp S n)`: the amplitude S / 2^n of an output string."""

    @property
    def probability(self) -> Fraction:
        return self.fraction**2


class Readout(Total):
    """`(part T n)` or `(one N k)`: the probability T / 2^n or N / 2^k of what was read."""

    @property
    def probability(self) -> Fraction:
        return self.fraction
