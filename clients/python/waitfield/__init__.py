"""From a circuit file to a verdict: OpenQASM in, exact fractions out, by the program `session` of Waitfield."""

from .answers import Amplitude, Readout
from .circuit import Circuit
from .counts import Comparison, Row, compare, read_counts
from .errors import (
    ColoursError,
    CountsError,
    NoAnswer,
    ProgramEnded,
    QasmError,
    Refused,
    SessionError,
    StringError,
    UnexpectedAnswer,
    WaitfieldError,
)
from .gates import Ccz, Cnot, Cz, Gate, Spot, Term, Z
from .qasm import Colours, from_qasm, read_mapping, read_qasm
from .session import Session

__version__ = "1.0.0"

__all__ = [
    "Amplitude",
    "Ccz",
    "Circuit",
    "Cnot",
    "Colours",
    "ColoursError",
    "Comparison",
    "CountsError",
    "Cz",
    "Gate",
    "NoAnswer",
    "ProgramEnded",
    "QasmError",
    "Readout",
    "Refused",
    "Row",
    "Session",
    "SessionError",
    "Spot",
    "StringError",
    "Term",
    "UnexpectedAnswer",
    "WaitfieldError",
    "Z",
    "compare",
    "from_qasm",
    "read_counts",
    "read_mapping",
    "read_qasm",
]
