"""Names, messages and numbers of include/fintaqush.h in the sources of the C library's crates, between lines that stay."""

from __future__ import annotations

from collections.abc import Iterable, Iterator, Mapping
from pathlib import Path
from typing import Any

from header import enum_of, faults, sentence, statuses
from parts import TOP, with_part

FILES = {"replay", "raise", "machine"}  # the calls of files_c, which has statuses of its own
STATUS_HEAD = """\
//! The statuses that calls on objects return (`enum fq_status`). `scripts/abi.py` writes this file.

/// Done.
pub const OK: u32 = 0;"""
Status = tuple[int, str, str]  # its number, its name and its message


def texts(read: Mapping[str, Any]) -> dict[Path, str]:
    """Returns the texts of the source files with such a part."""
    makers = {
        TOP / "crates/napi_c/src/names.rt": code,
        TOP / "crates/napi_c/specs/Names.antt": tables,
        TOP / "crates/c_handles/specs/Status.antt": numbers,
    }
    made = {path: make(read, path.read_text()) for path, make in makers.items()}
    return {**made, TOP / "crates/c_handles/src/status.rt": "\n".join([STATUS_HEAD, *constants(read)]) + "\n"}


def below(text: str, heading: str, first: str, last: str, lines: Iterable[str]) -> str:
    """Returns a text with these lines in a part below a heading."""
    head, found, rest = text.partition(heading)
    return head + found + with_part(rest, first, last, lines)


def halves(read: Mapping[str, Any]) -> tuple[list[Status], list[Status]]:
    """Returns the statuses below 100 and the others, which are in different functions and tables."""
    return [row for row in statuses(read) if row[0] < 100], [row for row in statuses(read) if row[0] >= 100]


def code(read: Mapping[str, Any], text: str) -> str:
    """Returns names.rt: the functions that return the text of a number."""
    results, errors = halves(read)
    unknown = '        _ => b"?",'
    for what, at in (("name", 1), ("message", 2)):
        for kind, rows, last in (
            ("status", results, f"        _ => refusal_{what}(status),"),
            ("refusal", errors, unknown),
        ):
            arms = [f'        {row[0]} => b"{row[at]}",' for row in rows]
            text = below(text, f"fn {kind}_{what}(status: u32)", "    match status {", last, arms)
    arms = [f'        {number} => b"{name}",' for number, name in faults(read)]
    return below(text, "fn fault_name(fault: u32)", "    match fault {", unknown, arms)


def tables(read: Mapping[str, Any], text: str) -> str:
    """Returns Names.antt: the tables of names and messages that names.rt is proved to follow."""
    results, errors = halves(read)
    rows = {
        "results": [f'({number}, (codes "{name}", codes "{message}"))' for number, name, message in results],
        "refusals": [f'({number}, (codes "{name}", codes "{message}"))' for number, name, message in errors],
        "faults": [f'({number}, codes "{name}")' for number, name in faults(read)],
    }
    for table, own in rows.items():
        lines = [f"    {own[0]}", *(f"    ∷ {row}" for row in own[1:])]
        text = below(text, f"abbrev pub {table} :", f"{table} =", "    ∷ []", lines)
    return text


def numbers(read: Mapping[str, Any], text: str) -> str:
    """Returns Status.antt: the numbers of the statuses of calls on objects."""
    last = "-- the number of a queue limit's error, or OK if there is none"
    return with_part(text, "OK = 0\n", last, definitions(read))


def of_objects(read: Mapping[str, Any]) -> Iterator[Status]:
    """Yields the number, the name and the note of each status that calls on objects return, but the errors of a queue limit and FQ_OK."""
    for name, number, note in enum_of(read, "fq_status")["values"]:
        calls, has_calls, _ = note.partition(": ")
        if number >= 16 and not (has_calls and {*calls.split(", ")} <= FILES):
            yield number, name[len("FQ_") :], note


def definitions(read: Mapping[str, Any]) -> Iterator[str]:
    for number, name, _ in of_objects(read):
        yield from (f"abbrev pub {name} : ℕ", f"{name} = {number}", "")


def constants(read: Mapping[str, Any]) -> Iterator[str]:
    for number, name, note in of_objects(read):
        yield from ("", f"/// {sentence(note)}", f"pub const {name}: u32 = {number};")
