"""A bar on a terminal, on the line that the next output takes."""

from __future__ import annotations

from typing import Optional, TextIO

WIDTH = 40


class Bar:
    """Call it with what is done and with all that there is. On a stream that is no terminal it writes nothing."""

    def __init__(self, stream: Optional[TextIO]) -> None:
        self._stream = stream if stream is not None and stream.isatty() else None
        self._shown = ""

    def __call__(self, done: int, whole: int) -> None:
        if self._stream is None:
            return
        filled = WIDTH * done // whole
        shown = f"[{'#' * filled}{'.' * (WIDTH - filled)}] {100 * done // whole:3}%"
        if shown != self._shown:
            self._stream.write(f"\r{shown}")
            self._stream.flush()
            self._shown = shown

    def __enter__(self) -> Bar:
        return self

    def __exit__(self, *raised: object) -> None:
        if self._stream is not None and self._shown:
            self._stream.write("\r" + " " * len(self._shown) + "\r")
            self._stream.flush()
            self._shown = ""
