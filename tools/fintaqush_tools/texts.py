"""Texts of users, and texts for them. It imports nothing that is slow to import."""

from __future__ import annotations

TYPE_CHECKING = False  # `typing` is slow to import
if TYPE_CHECKING:
    from collections.abc import Iterable, Mapping, Sequence


def shown(name: object) -> str:
    """Returns a name that is safe for a terminal: without control characters and invalid bytes."""
    return "".join(letter if letter.isprintable() else escaped(letter) for letter in str(name))


def escaped(letter: str) -> str:
    raw = letter.encode("utf-8", "surrogateescape").decode("latin-1")
    return raw.encode("unicode_escape").decode()


def quoted(text: str, most: int = 40) -> str:
    """Returns the text quoted, shortened, and in ASCII without control characters."""
    text = "".join(letter if " " <= letter <= "~" else "?" for letter in text)
    return f"'{text[: most - 2]}..'" if len(text) > most else f"'{text}'"


def argument(name: str) -> str:
    """Returns a name as an argument in a command that is printed: quoted for a shell, and for bash if it isn't printable."""
    import os
    import re
    import shlex

    raw = re.sub(rb"[^ -~]|['\\]", lambda it: b"\\%03o" % ord(it[0]), os.fsencode(name))
    return shlex.quote(name) if name.isprintable() else f"$'{raw.decode()}'"


def nearest(name: str, names: Sequence[str], least: int, most: int, cutoff: float) -> list[str]:
    """Returns the names that begin with this one, if it has at least `least` letters; otherwise those that are near to it, at most `most`."""
    import difflib

    begun = [each for each in names if len(name) >= least and each.startswith(name)]
    return begun or difflib.get_close_matches(name.lower(), names, most, cutoff)


def is_number(text: str, most: int = 2**64 - 1) -> bool:
    """Returns whether a text is a whole number up to `most`. Python rejects those of over 4300 digits."""
    return text.isascii() and text.isdigit() and len(text) <= 20 and int(text) <= most


def last_line(said: bytes, otherwise: str) -> str:
    """Returns the last line that a program printed, or another text if it printed nothing."""
    return shown((said.decode("utf-8", "replace").strip().splitlines() or [otherwise])[-1])


def aligned(rows: Sequence[Sequence[str]], left: int = 0) -> list[str]:
    """Returns the lines of a table: the first `left` columns are aligned to the left, the others to the right."""
    wide, lines = [max(map(len, column)) for column in zip(*rows)], []
    for row in rows:
        cells = [cell.ljust(width) for cell, width in zip(row[:left], wide)]
        cells += [cell.rjust(width) for cell, width in zip(row[left:], wide[left:])]
        lines.append("  ".join(cells).rstrip())
    return lines


def as_rows(key: str, value: str, numbers: Mapping[str, object] | Mapping[int, object]) -> list[dict[str, object]]:
    """Returns a dictionary as a list of objects, for JSON: a name of a task and a number of a processor aren't identifiers."""
    return [{key: each, value: number} for each, number in numbers.items()]


def lines_of(texts: Iterable[str]) -> str:
    return "".join(f"{text}\n" for text in texts)
