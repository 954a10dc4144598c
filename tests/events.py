#!/usr/bin/env python3
"""events.py: prints the events of a trace, as messages name them. They are read from the table of docs/FORMATS.md, so tests name no
event that they don't use."""

from __future__ import annotations

import pathlib
import re

Ranges = tuple[int, int, int, int]  # the least and the greatest device, and the least and the greatest value

PAGE = pathlib.Path(__file__).resolve().parent.parent / "docs/FORMATS.md"
RANGE = r"(\d+)(?:(?:\.\.=| or )(\d+))?"


def events_of(version: int) -> dict[str, Ranges]:
    """Returns the ranges of each event of this version."""
    rows = re.findall(
        rf"^\| `(\w+)` \| {RANGE} \| {RANGE} \| (version 2 only)?", PAGE.read_text(encoding="utf-8"), re.M
    )
    return {
        name: (int(low), int(high or low), int(least), int(most or least))
        for name, low, high, least, most, new in rows
        if version == 2 or not new
    }


if __name__ == "__main__":
    print(
        f"{' '.join(events_of(1))}, and {' '.join(name for name in events_of(2) if name not in events_of(1))} in version 2"
    )
