"""The results of a tool as JSON: one object per line, each with the version of the form and the tool. Every tool with --json writes this form.
And the reader of results, also as CSV, for compare."""

from __future__ import annotations

import argparse
import csv
import io
import json
import re
from collections.abc import Callable, Iterable, Mapping
from typing import Any

from fintaqush_tools.errors import About, Refusal
from fintaqush_tools.files import check_target, write_out
from fintaqush_tools.reports import FORMAT
from fintaqush_tools.texts import shown

PRINTED = "-"  # the name for standard output


def add_json(parser: Any, what: str = "the results") -> None:
    """Adds the option --json, with or without a file."""
    told = f"write {what} as JSON to a file too; without FILE, print only JSON"
    parser.add_argument("--json", nargs="?", const=PRINTED, type=json_target, metavar="FILE", help=told)


def json_target(name: str) -> str:
    """Checks the name of a file for JSON. One that isn't JSON isn't replaced: it may be an input that the option took for its file."""
    if name == PRINTED:
        return name
    try:
        check_target(name)
        with open(name, "rb") as file:
            is_other = file.read(1) not in (b"", b"{")
    except FileNotFoundError:
        return name
    except (Refusal, OSError) as error:
        raise argparse.ArgumentTypeError(str(error)) from None
    if is_other:
        why = "exists and isn't JSON, so it isn't replaced"
        how = "--json comes last, or before another option, if no file is meant"
        raise argparse.ArgumentTypeError(f"{shown(name)} {why}; {how}")
    return name


def is_printed(target: str | None) -> bool:
    """Returns whether JSON is printed in place of the tool's text."""
    return target == PRINTED


def json_lines(tool: str, objects: Iterable[Mapping[str, Any]]) -> list[str]:
    """Returns the lines for these results of a tool, given by its name without `fintaqush`."""
    return [json.dumps({"version": FORMAT, "tool": tool, **each}) + "\n" for each in objects]


def write_json(target: str | None, tool: str, objects: Iterable[Mapping[str, Any]]) -> None:
    """Writes results to the target of --json, if it was given."""
    if target:
        write_out(None if is_printed(target) else target, json_lines(tool, objects))


def value_of(text: str) -> int | float | str | None:
    """Converts a value of a row to its JSON type."""
    return number(text) if re.fullmatch(r"[0-9]+(\.[0-9]+)?", text) else text or None


# ---- the reader

Line = dict[str, Any]  # a result
Check = Callable[[Line], object]  # fails unless a result has the parts that its tool writes

NUMBER = re.compile(r"-?[0-9]{1,20}(\.[0-9]{1,20})?(e[+-]?[0-9]{1,2})?", re.ASCII)


def number(text: str) -> float:
    """Converts a number of a result. Fails if it is larger or longer than results have."""
    if not NUMBER.fullmatch(text):
        raise Refusal(f"{shown(text)[:40]!r} isn't a number that a result has")
    return int(text) if text.lstrip("-").isdigit() else float(text)


def part(told: Any, name: str, *kinds: type) -> Any:
    """Returns a part of a result. Fails if it is missing or of another kind."""
    value = told.get(name) if isinstance(told, dict) else None
    if type(value) not in kinds:
        wanted = " or ".join(kind.__name__ for kind in kinds)
        raise Refusal(f"its {shown(name)[:40]!r} is {shown(value)[:40]!r}, and not of type {wanted}")
    return value


def objects_in(text: str, checks: Mapping[str, Check]) -> list[Line]:
    """Parses results of any tool, as JSON. Fails unless all lines are of one of these tools and this version, and pass its check."""
    objects: list[Line] = []
    for place, line in enumerate(io.StringIO(text, newline="\n"), 1):
        with About(f"line {place}"):
            objects.append(object_in(line))
            told = f"version {objects[-1].get('version')} of {shown(objects[-1].get('tool'))[:40]}"
            if [objects[-1].get(name) for name in ("version", "tool")] != [FORMAT, part(objects[0], "tool", str)]:
                raise Refusal(f"not the results of one tool in version {FORMAT} of --json, but {told}")
            if objects[0]["tool"] not in checks:
                raise Refusal(f"results of {shown(objects[0]['tool'])[:40]}, which aren't compared")
            checks[objects[0]["tool"]](objects[-1])
    return objects


def object_in(line: str) -> Line:
    """Parses a line of JSON."""
    try:
        told = json.loads(line, parse_int=number, parse_float=number, parse_constant=number)
    except ValueError as error:
        raise Refusal(f"not the results of --json: {error}") from None
    except RecursionError:
        raise Refusal("not the results of --json: it is nested too deep") from None
    if not isinstance(told, dict) or "\N{REPLACEMENT CHARACTER}" in line:
        raise Refusal("not the results of --json: " + ("no object" if not isinstance(told, dict) else "no UTF-8"))
    return told


def rows_in(text: str, check: Check) -> list[Line]:
    """Parses results as CSV. Fails unless there is a row, and each row is whole, has a cell for each column, and passes the check."""
    rows: list[Line] = []
    for place, line in enumerate(io.StringIO(text, newline="\n"), 1):
        with About(f"line {place}"):
            cells = cells_in(line)
            if place == 1:
                names = cells
            if len(cells) != len(set(names)):
                raise Refusal(f"it has {len(cells)} cells, and the first line names {len(set(names))} columns")
            if place > 1:
                rows.append({name: value_of(cell) for name, cell in zip(names, cells)})
                check(rows[-1])
    if not rows:
        raise Refusal("it names columns, and has no row")
    return rows


def cells_in(line: str) -> list[str]:
    """Parses a line of CSV."""
    if not line.endswith("\n") or "\N{REPLACEMENT CHARACTER}" in line:
        raise Refusal("it is no UTF-8" if line.endswith("\n") else "it is cut: no newline ends it")
    try:
        return next(csv.reader([line], strict=True))
    except csv.Error as error:
        raise Refusal(f"not a line of CSV: {error}") from None
