"""A three-colour circuit: its gates and start as lines of the program, its measured strings as strings of colours."""

from __future__ import annotations

from dataclasses import dataclass, field
from typing import Mapping, Optional, Sequence

from .errors import StringError
from .gates import COLOUR_NAMES, COLOURS, MOST_IN_LAYER, Gate, Spot, read_colours

# Which classical bit the leftmost digit of a measured string is: the first of the file, or the last.
LEFTMOST = ("first", "last")


@dataclass(frozen=True)
class Circuit:
    """The gates between the two layers of Hadamards, and how the qubits are named and measured.

    A colour may have fewer than m qubits. A position without a qubit is touched by no gate and is read as 0, so the
    numbers are those of the circuit without it (manual, section 13.2).
    """

    m: int
    gates: tuple[Gate, ...]
    # The strings of red, blue and green before the first Hadamards.
    start: tuple[str, str, str]
    # Every qubit's name and spot, in the order in which they were declared.
    qubits: Mapping[str, Spot] = field(hash=False)
    # What the digits of a measured string are, by classical bits; None for a bit into which nothing is measured.
    digits: tuple[Optional[Spot], ...]
    # The numbers of the gates, from 0, before which a barrier stands.
    barriers: frozenset[int] = frozenset()

    @property
    def layers(self) -> list[list[Gate]]:
        """The gates in their order, cut before each barrier and before each gate that touches a qubit of its layer."""
        layers: list[list[Gate]] = []
        touched: set[Spot] = set()
        for number, gate in enumerate(self.gates):
            clash = not touched.isdisjoint(gate.touches)
            if not layers or clash or number in self.barriers or len(layers[-1]) == MOST_IN_LAYER:
                layers.append([])
                touched = set()
            layers[-1].append(gate)
            touched.update(gate.touches)
        return layers

    @property
    def lines(self) -> list[str]:
        """The lines that give the program this circuit. A gate that is alone in its layer has a line of its own."""
        lines = [f"(circuit {self.m})"]
        if any("1" in string for string in self.start):
            lines.append(f"(start {' '.join(self.start)})")
        for gates in self.layers:
            lines.append(str(gates[0]) if len(gates) == 1 else f"(layer {' '.join(map(str, gates))})")
        return lines

    def qubits_read(self, unread: str = "") -> dict[str, Spot]:
        """The qubits of the colours that are read."""
        read = read_colours(unread)
        return {name: spot for name, spot in self.qubits.items() if spot.colour in read}

    def digits_read(self, unread: str = "", leftmost: str = "first") -> list[Optional[Spot]]:
        """What the digits of a measured string are where these colours are not read, from the left."""
        read = read_colours(unread)
        return _from_left([spot for spot in self.digits if spot is None or spot.colour in read], leftmost)

    def is_measured(self, unread: str = "") -> bool:
        """Whether every qubit of the colours that are read has a digit in a measured string."""
        return set(self.digits).issuperset(self.qubits_read(unread).values())

    def strings(self, bits: str, *, unread: str = "", leftmost: str = "first") -> tuple[str, ...]:
        """A measured string as strings of m digits, one for each colour that is read, in the order r, b, g.

        `bits` has a digit for each classical bit of the file, spaces and underscores aside; without measurements in
        the file it has one for each qubit. The digits of unread colours are left out. `leftmost` says whether the
        leftmost digit is the first classical bit, or the last, as some tools print it.
        """
        digits = self.digits_read(unread, leftmost)
        given = plain_digits(bits)
        if not given or given.strip("01"):
            raise StringError(f"{bits!r} is no bit string")
        if len(given) != len(digits):
            raise StringError(f"{bits!r} has {len(given)} digits, and {len(digits)} are read")
        found: dict[Spot, str] = {}
        for spot, digit in zip(digits, given):
            if spot is not None:
                found[spot] = digit
            elif digit != "0":
                raise StringError(f"{bits!r} has a 1 at a classical bit that nothing is measured into")
        for name, spot in self.qubits_read(unread).items():
            if spot not in found:
                colour = COLOUR_NAMES[spot.colour]
                raise StringError(f"{name} is not measured, so {colour} is not read whole; it may be named as unread")
        return tuple(self._string(colour, found) for colour in read_colours(unread))

    def colours_read(self, unread: str = "") -> str:
        """The colours that have qubits and are read, in order."""
        present = {spot.colour for spot in self.qubits_read(unread).values()}
        return "".join(colour for colour in COLOURS if colour in present)

    def strings_by_colour(self, strings: Sequence[str], *, unread: str = "") -> tuple[str, ...]:
        """Strings of the colours that have qubits and are read, in the order r, b, g and each with a digit for each
        qubit, position 1 first, as strings of m digits for all colours that are read."""
        colours = self.colours_read(unread)
        if len(strings) != len(colours):
            raise StringError(f"{len(strings)} strings, and the colours read are {', '.join(colours)}")
        found: dict[Spot, str] = {}
        for colour, string in zip(colours, strings):
            positions = sorted(spot.position for spot in self.qubits.values() if spot.colour == colour)
            if not string or string.strip("01"):
                raise StringError(f"{string!r} is no bit string")
            if len(string) != len(positions):
                name = COLOUR_NAMES[colour]
                raise StringError(f"{string!r} has {len(string)} digits, and {name} has {len(positions)} qubits")
            found.update((Spot(colour, position), digit) for position, digit in zip(positions, string))
        return tuple(self._string(colour, found) for colour in read_colours(unread))

    def _string(self, colour: str, digits: Mapping[Spot, str]) -> str:
        return "".join(digits.get(Spot(colour, position), "0") for position in range(1, self.m + 1))


def plain_digits(bits: str) -> str:
    """A measured string without the spaces and underscores that tools put between registers."""
    return bits.replace(" ", "").replace("_", "")


def _from_left(digits: list[Optional[Spot]], leftmost: str) -> list[Optional[Spot]]:
    if leftmost not in LEFTMOST:
        raise ValueError(f"leftmost is 'first' or 'last', not {leftmost!r}")
    return digits if leftmost == "first" else digits[::-1]
