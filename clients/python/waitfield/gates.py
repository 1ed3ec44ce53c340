"""Colours, positions and gates, spelled as the program reads and lists them (manual, sections 1.1, 1.4 and 5)."""

from __future__ import annotations

import re
from dataclasses import dataclass
from typing import Callable, NamedTuple, Optional, Union

COLOURS = "rbg"
COLOUR_NAMES = {"r": "red", "b": "blue", "g": "green"}

MOST_POSITIONS = 16
MOST_GATES = 4096
MOST_IN_LAYER = 48


class Spot(NamedTuple):
    """A qubit: a position of a colour. Positions count from 1."""

    colour: str
    position: int

    def __str__(self) -> str:
        return f"({self.colour} {self.position})"


@dataclass(frozen=True)
class Ccz:
    """Turns the sign where red, blue and green have a 1 at these positions."""

    red: int
    blue: int
    green: int

    def __str__(self) -> str:
        return f"(ccz {self.red} {self.blue} {self.green})"

    @property
    def touches(self) -> tuple[Spot, ...]:
        return Spot("r", self.red), Spot("b", self.blue), Spot("g", self.green)


@dataclass(frozen=True)
class Cz:
    """Turns the sign where both positions, of two colours, have a 1."""

    first: Spot
    second: Spot

    def __str__(self) -> str:
        return f"(cz {self.first} {self.second})"

    @property
    def touches(self) -> tuple[Spot, ...]:
        return self.first, self.second


@dataclass(frozen=True)
class Cnot:
    """Adds the bit at the control to the bit at the target, modulo 2, both of one colour."""

    colour: str
    control: int
    target: int

    def __str__(self) -> str:
        return f"(cnot {self.colour} {self.control} {self.target})"

    @property
    def touches(self) -> tuple[Spot, ...]:
        return Spot(self.colour, self.control), Spot(self.colour, self.target)


@dataclass(frozen=True)
class Z:
    """Turns the sign where the position has a 1."""

    spot: Spot

    def __str__(self) -> str:
        return f"(z {self.spot})"

    @property
    def touches(self) -> tuple[Spot, ...]:
        return (self.spot,)


Gate = Union[Ccz, Cz, Cnot, Z]
Term = Union[Ccz, Cz, Z]

_NUMBER = r"([1-9][0-9]*)"
_SPOT = rf"\(([rbg]) {_NUMBER}\)"
_TERMS: list[tuple[re.Pattern[str], Callable[..., Term]]] = [
    (re.compile(rf"\(ccz {_NUMBER} {_NUMBER} {_NUMBER}\)"), lambda i, j, k: Ccz(int(i), int(j), int(k))),
    (re.compile(rf"\(cz {_SPOT} {_SPOT}\)"), lambda c, i, d, j: Cz(Spot(c, int(i)), Spot(d, int(j)))),
    (re.compile(rf"\(z {_SPOT}\)"), lambda c, i: Z(Spot(c, int(i)))),
]


def listed_term(line: str) -> Optional[Term]:
    """The term that a line of a listing spells (manual, section 6.2), or None if it spells none."""
    for pattern, term in _TERMS:
        found = pattern.fullmatch(line)
        if found:
            listed = term(*found.groups())
            return listed if _colours(listed) == sorted(set(_colours(listed))) else None
    return None


def listing_place(term: Term) -> list[int]:
    """What a listing is in order by: the kind of term, its colours, its positions."""
    return [-len(term.touches), *_colours(term), *(spot.position for spot in term.touches)]


def _colours(term: Term) -> list[int]:
    return [COLOURS.index(spot.colour) for spot in term.touches]


def read_colours(unread: str) -> str:
    """The colours that are read, in order, where none, one or two are not."""
    if not set(unread) <= set(COLOURS) or len(set(unread)) != len(unread) or len(unread) > 2:
        raise ValueError(f"at most two of r, b, g may be unread, not {unread!r}")
    return "".join(colour for colour in COLOURS if colour not in unread)
