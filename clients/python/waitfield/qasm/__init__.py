"""OpenQASM 2.0, and the same subset of 3.0, read as a three-colour circuit."""

from __future__ import annotations

import os
from typing import Optional, Union

from ..circuit import Circuit
from ..errors import QasmError
from ..texts import Unreadable, read_text
from .colours import Colours, read_mapping, spots
from .operations import operations
from .tokens import Reader
from .wires import circuit_of

__all__ = ["Colours", "from_qasm", "read_mapping", "read_qasm"]


def from_qasm(text: str, *, colours: Optional[Colours] = None, file: str = "qasm") -> Circuit:
    """The circuit that a text in OpenQASM says. What a three-colour circuit cannot say is a `QasmError`.

    The qubits' colours are the names of their registers, r, b and g, and their positions the indices from 0, plus 1.
    Or `colours` maps each qubit, as "q[3]" or by its number from 0 in the order of declaration, to its colour and
    position: {"q[3]": ("b", 1), ..}. `file` is the name that errors have in front; files that the text includes are
    looked for beside it.
    """
    program = operations(Reader.of_text(text, file))
    return circuit_of(program, spots(program.qubits, colours))


def read_qasm(path: Union[str, "os.PathLike[str]"], *, colours: Optional[Colours] = None) -> Circuit:
    """The circuit of a file in OpenQASM, as `from_qasm` reads it."""
    name = os.fspath(path)
    try:
        text = read_text(name)
    except Unreadable as error:
        raise QasmError(name, 1, str(error)) from error
    return from_qasm(text, colours=colours, file=name)
