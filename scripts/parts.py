"""Files that a script makes of one description, whole or in part: scripts/options.py and scripts/abi.py write them, or check them."""

from __future__ import annotations

import textwrap
from collections.abc import Iterable, Mapping
from pathlib import Path

TOP = Path(__file__).resolve().parent.parent


class NoPart(Exception):
    """A file has no such part."""


def with_part(text: str, first: str, last: str, lines: Iterable[str]) -> str:
    """Returns a text with these lines in place of what is between two lines that stay."""
    head, found, rest = text.partition(f"{first}\n")
    _, ended, tail = rest.partition(f"{last}\n")
    if not found or not ended:
        raise NoPart(f"no lines {first.strip()!r} and {last.strip()!r}")
    return head + found + "".join(f"{line}\n" for line in lines) + ended + tail


def has_part(path: Path, first: str, last: str, lines: Iterable[str], is_put: bool) -> bool:
    """Returns whether a file has these lines between two lines that stay; if `is_put`, puts them there."""
    old = path.read_text(encoding="utf-8")
    new = with_part(old, first, last, lines)
    if is_put:
        path.write_text(new, encoding="utf-8")
    return is_put or new == old


def filled(parts: Iterable[str], indent: str, widest: int) -> list[str]:
    """Returns lines that have as many of these parts as fit."""
    whole = " ".join(part.replace(" ", "\0") for part in parts)  # no part is broken
    lines = textwrap.TextWrapper(widest, indent, indent, break_long_words=False, break_on_hyphens=False).wrap(whole)
    return [line.replace("\0", " ") for line in lines]


def marked(before: str, script: str, after: str, what: str = "") -> tuple[str, str]:
    """Returns the comments between which a script writes a part."""
    begin, end = (f"{before}scripts/{script}: {edge}{what and ' '}{what}{after}" for edge in ("begin", "end"))
    return begin, end


def put(texts: Mapping[Path, str], is_check: bool, script: str) -> list[Path]:
    """Writes the files that differ; with `is_check` it only prints them. Returns them."""
    differ = [path for path, text in texts.items() if not path.exists() or path.read_text() != text]
    for path in differ:
        if is_check:
            print(f"{path.relative_to(TOP)} isn't as scripts/{script} makes it: run that script")
        else:
            path.write_text(texts[path])
    return differ
