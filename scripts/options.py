#!/usr/bin/env python3
"""scripts/options.py [--check]: writes what other languages, tools and the manual page have of the options of
napi_machine, from the table in crates/machine_model/src/settings.rt: tools/fintaqush_tools/options.json, and in other
files the lines between two comments; in docs/OPERATORS.md those on drivers, from tools/fintaqush_tools/drivers.py. With
--check it writes nothing, and prints each file that isn't so. Exit status: 0; 1 a file isn't so; 64 bad usage.
"""

from __future__ import annotations

import ast
import json
import re
import sys
import textwrap
from collections.abc import Callable, Iterable, Sequence
from typing import Any

from header import WIDEST
from parts import NoPart, TOP, filled, marked, put, with_part

sys.path.insert(0, str(TOP / "tools"))
from fintaqush_tools.drivers import DRIVERS, GAP, HEEDLESS, HEEDLESS_EARLY, NONE, TIMER, UNKNOWN  # noqa: E402

Option = dict[str, Any]  # a row of the table

TABLE = TOP / "crates/machine_model/src/settings.rt"
FIELDS = ("name", "least", "most", "default", "unit", "what")
MEMBERS = {"use": "use_time"}  # options whose name is a keyword of a language
UNSET = 2**32 - 1  # the default in the table of an option whose default is the value of another one
OTHERS = {"timer": "interrupt", "timer-wake": "wake"}  # that other one
COALESCING = {
    GAP: "`rx-usecs` is the least time between two interrupts",
    TIMER: "`rx-usecs` delays the interrupt after a packet",
    UNKNOWN: "the driver's source doesn't show what `rx-usecs` does",
    NONE: "there is no `rx-usecs`",
}


def table() -> list[Option]:
    """Returns the options, each as an object; `member` is its name in structs and in JSON. A default that is another option's value is
    its name."""
    found = re.search(r"pub const OPTIONS: .* = options! \{(.*?)\n\};", TABLE.read_text(), re.S)
    if not found:
        sys.exit(f"{TABLE}: it has no table of options")
    options = [dict(zip(FIELDS, row)) for row in ast.literal_eval(f"[{found[1]}]")]
    for option in options:
        option["member"] = MEMBERS.get(option["name"], option["name"].replace("-", "_"))
        option["default"] = OTHERS[option["name"]] if option["default"] == UNSET else option["default"]
    return options


def is_flag(option: Option) -> bool:
    return (option["least"], option["most"], option["unit"]) == (0, 1, "")


def default_of(option: Option) -> str:
    return f"that of {option['default']}" if isinstance(option["default"], str) else str(option["default"])


def described(option: Option, unset: str = "") -> str:
    """Returns what an option is, with its range, its default, and the unit of times. `unset` says which value is a default that is another
    option's."""
    ns = " ns" if option["unit"] == "ns" else ""
    before = unset if isinstance(option["default"], str) else ""
    return f"{option['what']}, {option['least']} to {option['most']}{ns} ({before}{default_of(option)})"


def as_json(options: Sequence[Option]) -> str:
    return "[\n" + ",\n".join(f"  {json.dumps(option)}" for option in options) + "\n]\n"


# ---- lines of a part


def header(options: Sequence[Option]) -> Iterable[str]:
    """Returns the members, each with a comment."""
    wide = max(len(option["member"]) for option in options) + 1
    for option in options:
        front = f"    uint32_t {option['member'] + ';':{wide}} /*"
        room = WIDEST - len(front) - len("  */")
        lines = textwrap.wrap(described(option, "UINT32_MAX: "), room, break_on_hyphens=False)
        yield f"{front} {f'{chr(10)}{front.index(chr(47)) * chr(32)} * '.join(lines)} */"


def names(options: Sequence[Option]) -> list[str]:
    """Returns the names, quoted, with commas."""
    return filled((f'"{option["name"]}",' for option in options), "        ", 119)


def manual(options: Sequence[Option]) -> Iterable[str]:
    for option in options:
        value = "0|1" if is_flag(option) else "NS" if option["unit"] == "ns" else "N"
        yield from (".TP", f'.BI {escaped("--" + option["name"])} " {value}"', escaped(described(option)))


def escaped(text: str) -> str:
    return text.replace("\\", "\\e").replace("-", "\\-")


def of_drivers(_options: Sequence[Option]) -> Iterable[str]:
    """Returns the rows of a table of drivers, by what they do."""
    yield from ("| What is known | Drivers |", "|---|---|")
    for kind, what in COALESCING.items():
        yield f"| {what} | {', '.join(sorted(name for name, it in DRIVERS.items() if it.coalescing == kind))} |"
    early = sorted((*HEEDLESS_EARLY, *(name for name, it in DRIVERS.items() if it.early)))
    yield f"| the driver asks for interrupts before `napi_complete_done` | {', '.join(early)} |"
    heedless = sorted((*HEEDLESS, *(name for name, it in DRIVERS.items() if it.heedless)))
    yield f"| the driver unmasks whatever `napi_complete_done` returns | {', '.join(heedless)} |"


# The files with such a part: how its two comments begin and end, and what makes its lines.
PARTS: dict[str, tuple[str, str, Callable[[Sequence[Option]], Iterable[str]]]] = {
    "include/fintaqush.h": ("    /* ", " */", header),
    "tests/c/machine.c": ("        /* ", " */", names),
    "docs/man/napi_machine.1": ('.\\" ', "", manual),
    "docs/OPERATORS.md": ("<!-- ", " -->", of_drivers),
}


def main() -> int:
    if sys.argv[1:] == ["--help"]:
        print(__doc__, end="")
        return 0
    if sys.argv[1:] not in ([], ["--check"]):
        print("usage: scripts/options.py [--check]", file=sys.stderr)
        return 64
    options = table()
    texts = {TOP / "tools/fintaqush_tools/options.json": as_json(options)}
    for name, (before, after, lines) in PARTS.items():
        path = TOP / name
        try:
            texts[path] = with_part(path.read_text(), *marked(before, "options.py", after), lines(options))
        except NoPart as fault:
            sys.exit(f"{name}: {fault}")
    is_check = bool(sys.argv[1:])
    return 1 if put(texts, is_check, "options.py") and is_check else 0


if __name__ == "__main__":
    sys.exit(main())
