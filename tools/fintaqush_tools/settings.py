"""The settings of a replay, the options of its program, and messages about invalid ones: docs/FORMATS.md, "The options"."""

from __future__ import annotations

from itertools import islice

from fintaqush_tools.texts import nearest, quoted

TYPE_CHECKING = False  # `typing` is slow to import
if TYPE_CHECKING:
    from collections.abc import Sequence

MOST = {"budget": 65535, "weight": 64, "window": 65535}  # of each setting, which is at least 1
USUAL = {"budget": 300, "weight": 64, "window": 1024}
MODES = ("serial", "shared", "threads")
NUMBERS = {"--pollers": 8, **{f"--{name}": most for name, most in MOST.items()}}
RANGES = {
    "--mode": "serial, shared or threads",
    **{name: f"a whole number, 1..={most}" for name, most in NUMBERS.items()},
}
OPTIONS = (*RANGES, "--raise", "--fail-if", "--unproved", "--json", "--build", "--version", "--help")


def nearest_to(word: str, options: Sequence[str]) -> str:
    """Returns the nearest of these options, if one is near enough."""
    return next(iter(nearest(word, options, 3, 1, 0.75)), "")


def is_valid(option: str, value: str) -> bool:
    if option == "--mode":
        return value in MODES
    return value.isascii() and value.isdigit() and len(value) <= 5 and 1 <= int(value) <= NUMBERS[option]


def judge(words: Sequence[str]) -> str:
    """Returns a message about the first invalid option among these, with its range and the nearest option; nothing if the program accepts
    them all."""
    rest, seen = iter(words), set()
    for word in rest:
        option, is_given, value = word.partition("=") if word.startswith("--") else (word, "", "")
        if option not in RANGES:
            near = nearest_to(option, OPTIONS)
            meant = f"is {near} meant{', ' + RANGES[near] if near in RANGES else ''}?"
            meant = meant if near else f"they are {' '.join(OPTIONS)}"
            return f"{quoted(option)} is no option: {meant}"
        if option in seen:
            return f"{option} is given twice"
        seen.add(option)
        given = [value] if is_given else [*islice(rest, 1)]
        if not given:
            return f"{option} has no value: {RANGES[option]}"
        if not is_valid(option, given[0]):
            near = nearest_to(given[0], MODES) if option == "--mode" else ""
            return f"{option} {quoted(given[0])}: its value is {RANGES[option]}{f'; is {near} meant?' if near else ''}"
    return ""
