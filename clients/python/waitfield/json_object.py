"""JSON objects, read so that no entry is lost."""

from __future__ import annotations

import json


def json_object(text: str) -> dict[str, object]:
    """The entries of the object that a text is. Any other text, or a name given twice, is a ValueError."""
    try:
        found = json.loads(text, object_pairs_hook=_entries)
    except RecursionError:
        raise ValueError("nested too deeply") from None
    if not isinstance(found, dict):
        raise ValueError("no JSON object")
    return found


def _entries(pairs: list[tuple[str, object]]) -> dict[str, object]:
    """Of two entries of one name JSON would keep the second alone."""
    found: dict[str, object] = {}
    for name, value in pairs:
        if name in found:
            raise ValueError(f"{name!r} stands there twice")
        found[name] = value
    return found
