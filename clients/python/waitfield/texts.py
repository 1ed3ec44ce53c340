"""Texts in UTF-8, of files and of standard input, without a byte order mark."""

from __future__ import annotations

import os
import sys
from typing import Union


class Unreadable(Exception):
    """A text that cannot be read, and why, as the end of a sentence that begins with its name."""


def read_text(path: Union[str, "os.PathLike[str]"]) -> str:
    """The text of a file."""
    try:
        with open(path, "rb") as file:
            return _text(file.read())
    except OSError as error:
        raise Unreadable(f"cannot be read: {error.strerror}") from error
    except ValueError as error:
        raise Unreadable("cannot be read: no file has this name") from error


def read_standard_input() -> str:
    """The text of standard input, to its end."""
    if sys.stdin is None:
        raise Unreadable("is closed")
    try:
        return _text(sys.stdin.buffer.read())
    except OSError as error:
        raise Unreadable(f"cannot be read: {error.strerror}") from error


def _text(data: bytes) -> str:
    try:
        return data.decode("utf-8-sig")
    except UnicodeDecodeError as error:
        raise Unreadable("is no text in UTF-8") from error
