"""Which colour and position each qubit has: by the names of the registers, or by a mapping."""

from __future__ import annotations

import re
from typing import Mapping, Optional, Tuple, Union

from ..errors import ColoursError
from ..gates import COLOUR_NAMES, MOST_POSITIONS, Spot
from ..json_object import json_object
from .operations import Declared

# The number of a qubit in the order of declaration, where it is the name of an entry.
_NUMBER = re.compile("0|[1-9][0-9]?")

# A qubit by its name or by its number, from 0 on, and its colour and position.
Colours = Union[
    Mapping[str, Tuple[str, int]], Mapping[int, Tuple[str, int]], Mapping[Union[str, int], Tuple[str, int]]
]


def read_mapping(text: str) -> Colours:
    """The mapping in a JSON text, an object such as {"q[0]": ["r", 1], "q[1]": ["b", 1]}. A qubit that is named by its
    number is written as "0"."""
    try:
        found = json_object(text)
    except ValueError as error:
        raise ColoursError(f"the mapping is not read as a JSON object: {error}") from error
    mapping: dict[Union[str, int], Tuple[str, int]] = {}
    for key, value in found.items():
        mapping[int(key) if _NUMBER.fullmatch(key) else key] = _spot(key, value)
    return mapping


def spots(qubits: Mapping[str, Declared], colours: Optional[Colours]) -> dict[str, Spot]:
    """The spot of every qubit. No two have the same."""
    by_name = None if colours is None else _by_name(list(qubits), colours)
    found: dict[str, Spot] = {}
    owners: dict[Spot, str] = {}
    for name, declared in qubits.items():
        spot = _of_register(declared) if by_name is None else by_name.get(name)
        if spot is None:
            raise declared.place.error(f"{name} has no colour in the mapping")
        if not 1 <= spot.position <= MOST_POSITIONS:
            colour = COLOUR_NAMES[spot.colour]
            raise declared.place.error(f"{name} is at none of the positions 1 to {MOST_POSITIONS} of {colour}")
        if spot in owners:
            raise declared.place.error(f"{name} and {owners[spot]} are both {spot}")
        owners[spot] = name
        found[name] = spot
    return found


def _of_register(declared: Declared) -> Spot:
    if declared.register not in COLOUR_NAMES:
        raise declared.place.error(f"register '{declared.register}' is none of r, b, g, and there is no mapping")
    return Spot(declared.register, 1 + declared.index)


def _by_name(names: list[str], colours: Colours) -> dict[str, Spot]:
    """The mapping with every qubit by its name."""
    found: dict[str, Spot] = {}
    for key, value in colours.items():
        name = names[key] if isinstance(key, int) and 0 <= key < len(names) else key
        if not isinstance(name, str) or name not in names:
            raise ColoursError(f"the mapping has {key!r}, which is no qubit of the circuit")
        if name in found:
            raise ColoursError(f"the mapping has {name} twice")
        found[name] = _spot(name, value)
    return found


def _spot(name: str, value: object) -> Spot:
    if isinstance(value, (tuple, list)) and len(value) == 2:
        colour, position = value
        whole = isinstance(position, int) and not isinstance(position, bool)
        if isinstance(colour, str) and colour in COLOUR_NAMES and whole:
            return Spot(colour, position)
    raise ColoursError(f"the mapping has {value!r} for {name}, which is no colour of r, b, g with a position")
