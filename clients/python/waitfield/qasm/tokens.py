"""The words and signs of an OpenQASM text, each with the file and the line that it stands in."""

from __future__ import annotations

import re
from typing import NamedTuple, NoReturn, Optional

from ..errors import QasmError

# Digits of a size or an index. Every number of more digits is too large for any of them.
LONGEST_NUMBER = 9


class Place(NamedTuple):
    """Where something stands, for errors."""

    file: str
    line: int

    def error(self, reason: str) -> QasmError:
        return QasmError(self.file, self.line, reason)


class Token(NamedTuple):
    kind: str
    text: str
    place: Place


_TOKEN = re.compile(
    r"""
    (?P<space>   \s+ | //[^\n]* | /\*.*?\*/ )
  | (?P<string>  "[^"\n]*" | '[^'\n]*' )
  | (?P<number>  [0-9]+ (?: \.[0-9]* )? (?: [eE][+-]?[0-9]+ )? | \.[0-9]+ (?: [eE][+-]?[0-9]+ )? )
  | (?P<name>    [^\W\d]\w* )
  | (?P<sign>    -> | == | [][(){},;=@:+*^<>!&|~.%/-] )
    """,
    re.DOTALL | re.VERBOSE,
)


def tokens(text: str, file: str) -> list[Token]:
    """All tokens of a text, without spaces and comments, and an end of kind 'end' behind them."""
    text = text.replace("\r\n", "\n").replace("\r", "\n")
    found = []
    line = 1
    at = 0
    while at < len(text):
        match = _TOKEN.match(text, at)
        if match is None:
            raise Place(file, line).error(f"{text[at]!r} is no part of OpenQASM as it is read here")
        if text.startswith("/*", at) and match.lastgroup != "space":
            raise Place(file, line).error("a comment that does not end")
        if match.lastgroup != "space":
            found.append(Token(str(match.lastgroup), match[0], Place(file, line)))
        line += match[0].count("\n")
        at = match.end()
    found.append(Token("end", "the end of the file", Place(file, line)))
    return found


class Reader:
    """Takes tokens one after the other."""

    def __init__(self, found: list[Token]) -> None:
        self._tokens = found
        self._at = 0

    @classmethod
    def of_text(cls, text: str, file: str) -> Reader:
        return cls(tokens(text, file))

    @property
    def next(self) -> Token:
        return self._tokens[self._at]

    @property
    def ended(self) -> bool:
        return self.next.kind == "end"

    def take(self) -> Token:
        token = self.next
        if not self.ended:
            self._at += 1
        return token

    def takes(self, text: str) -> bool:
        """Takes the next token if it is this sign or word."""
        found = self.next.text == text and self.next.kind in ("sign", "name")
        if found:
            self._at += 1
        return found

    def need(self, text: str) -> Token:
        token = self.next
        if not self.takes(text):
            self.expected(f"'{text}'")
        return token

    def need_kind(self, kind: str, what: str) -> Token:
        if self.next.kind != kind:
            self.expected(what)
        return self.take()

    def whole_number(self, what: str) -> int:
        token = self.need_kind("number", what)
        if not token.text.isdigit() or len(token.text) > LONGEST_NUMBER:
            raise token.place.error(f"{what} expected, found {token.text[:40]}")
        return int(token.text)

    def expected(self, what: str) -> NoReturn:
        token = self.next
        raise token.place.error(f"{what} expected, found {token.text}")

    def until(self, closing: str, opening: Optional[str] = None) -> list[Token]:
        """The tokens up to the sign that closes what is open, which is taken too."""
        begin = self._at
        depth = 1
        while True:
            token = self.next
            if token.kind == "end":
                self.expected(f"'{closing}'")
            self._at += 1
            if token.kind == "sign" and token.text == opening:
                depth += 1
            if token.kind == "sign" and token.text == closing:
                depth -= 1
            if depth == 0:
                return self._tokens[begin : self._at - 1]
