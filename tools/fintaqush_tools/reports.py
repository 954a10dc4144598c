"""A parser of napi_replay's report: docs/FORMATS.md, "The report"."""

from __future__ import annotations

TYPE_CHECKING = False  # `typing` is slow to import
if TYPE_CHECKING:
    from collections.abc import Sequence
    from typing import Any

    Line = dict[str, Any]

from fintaqush_tools.errors import Refusal
from fintaqush_tools.texts import is_number

FORMAT = 1  # version of the JSON of all tools
# docs/FORMATS.md, "The state word".
FLAGS = "SCHED MISSED DISABLE NPSVC IN_BUSY_POLL THREADED SCHED_THREADED QUEUED TO_THREAD".split()
BITS = dict(zip((0, 1, 2, 3, 6, 8, 9, 32, 33), FLAGS))

# The lines of a report; in threads mode `device` and `total` have fewer fields, and in version 2 `napi` also has `held`.
LINES = """\
softirq ROW polls N work N squeezed FLAG
kthread ROW device N polls N work N
busy ROW device N polls N work N
device DEVICE STATE arrived N dropped N polled N bytes N left N polls N
device DEVICE arrived N bytes N
napi DEVICE granted N missed N disabled N again N released N word N
napi DEVICE granted N missed N disabled N again N released N word N held N
tx DEVICE sent N held N done N denied N limit N avail Z stopped FLAG
total devices N runs N polls N work N squeezed N
total devices N
"""
SHAPES = [line.split() for line in LINES.splitlines()]
STATES = {"FLAG": ("0", "1"), "STATE": ("on", "off", "pending")}
NUMBERS = ("N", "Z", "ROW", "DEVICE")  # of which Z may be negative
ROWS = ("softirq", "kthread", "busy")
# What --fail-if may name: values of the last line, and sums over all devices.
TOTALS, DEVICES = ("runs", "polls", "work", "squeezed"), ("arrived", "dropped", "left")


def names_of(word: int) -> list[str]:
    if word != sum(1 << bit for bit in BITS if word >> bit & 1):
        raise Refusal(f"{word} is no state word")
    return [name for bit, name in BITS.items() if word >> bit & 1]


def value_of(kind: str, text: str) -> bool | str | int:
    """Converts a value to its JSON type."""
    if kind == "FLAG":
        return text == "1"
    return text if kind == "STATE" else int(text)


def fits(part: str, word: str) -> bool:
    """Returns whether a field can stand for this part of a shape."""
    if part in NUMBERS:
        return is_number(word.removeprefix("-") if part == "Z" else word)
    return word in STATES.get(part, (part,))


def object_of(line: str) -> Line:
    words = line.split(" ")
    if words[0] == "list" and all(map(is_number, words[1:])):
        return {"line": "list", "devices": [int(word) for word in words[1:]]}
    shape = next((shape for shape in SHAPES if len(shape) == len(words) and all(map(fits, shape, words))), None)
    if shape is None:
        raise Refusal("no line of a report")
    told: Line = {"line": words[0]}
    for name, part, word in zip(shape, shape[1:], words[1:]):
        if part in STATES or part in NUMBERS:
            told[part.lower() if part in ("ROW", "DEVICE", "STATE") else name] = value_of(part, word)
    if "word" in told:
        told["flags"] = names_of(told["word"])
    return told


def json_of(value: object) -> str:
    """Formats an object as JSON without the json module, which is slow to import; no text here needs escapes."""
    if isinstance(value, dict):
        return "{" + ", ".join(f'"{name}": {json_of(each)}' for name, each in value.items()) + "}"
    if isinstance(value, list):
        return "[" + ", ".join(map(json_of, value)) + "]"
    if isinstance(value, bool):
        return "true" if value else "false"
    return f'"{value}"' if isinstance(value, str) else str(value)


def lines_of(report: str) -> str:
    head: Line = {"version": FORMAT, "tool": "replay"}
    return "".join(f"{json_of({**head, **told})}\n" for told in objects_of(report))


def objects_of(text: str) -> list[Line]:
    """Parses a whole report. Fails if it is empty, cut or lacks lines."""
    if not text:
        raise Refusal("the report is empty")
    objects = []
    for number, line in enumerate(text.removesuffix("\n").split("\n"), 1):
        try:
            objects.append(object_of(line))
        except Refusal as error:
            raise Refusal(f"line {number}: {error}") from None
    if not text.endswith("\n") or objects[-1]["line"] != "total":
        raise Refusal(f"line {len(objects)}: the report is cut: it ends in no total line")
    if any(told["line"] == "total" for told in objects[:-1]):
        raise Refusal("there are two reports in it")
    check_whole(objects)
    return objects


def check_whole(objects: Sequence[Line]) -> None:
    """Fails unless the lines are as many as the total line says, in order."""
    total = objects[-1]
    with_threads = "runs" not in total
    devices, rows = of_kind(objects, "device"), of_kind(objects, *ROWS)
    numbers, places = [told["device"] for told in devices], [told["row"] for told in rows]
    wholes = [
        len(numbers) == total["devices"],
        numbers == sorted(set(numbers)),
        places == sorted(set(places)),
        [told["device"] for told in of_kind(objects, "napi")] == ([] if with_threads else numbers),
        len(of_kind(objects, "list")) == (0 if with_threads else 1),
        all(("state" in told) != with_threads for told in devices),
        not rows if with_threads else has_sums(total, of_kind(objects, "softirq")),
    ]
    if not all(wholes):
        raise Refusal("the report is cut: its lines don't match its total line")


def sums_of(objects: Sequence[Line]) -> dict[str, int]:
    """Returns the values of a report for --fail-if. Those that a report in threads mode doesn't have are 0."""
    devices = of_kind(objects, "device")
    return {
        **{name: objects[-1].get(name, 0) for name in TOTALS},
        **{name: sum(told.get(name, 0) for told in devices) for name in DEVICES},
    }


def of_kind(objects: Sequence[Line], *kinds: str) -> list[Line]:
    return [told for told in objects if told["line"] in kinds]


def has_sums(total: Line, runs: Sequence[Line]) -> bool:
    """Returns whether the total line has the number of these runs, and their sums."""
    names = ("polls", "work", "squeezed")
    return len(runs) == total["runs"] and all(sum(run[name] for run in runs) == total[name] for name in names)
