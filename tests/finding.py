"""A search of a text that must have what is searched for."""

from __future__ import annotations

import re


def group_in(pattern: str, text: str, flags: int = 0) -> str:
    """Returns the first group of the first match. A text without a match raises an error with its beginning."""
    match = re.search(pattern, text, flags)
    if match is None:
        raise ValueError(f"{pattern} isn't in {text[:200]!r}")
    return str(match[1])
