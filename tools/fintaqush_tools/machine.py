"""The options of napi_machine, and a parser of its report: docs/FORMATS.md, "The machine's report"."""

from __future__ import annotations

import json
from collections import Counter
from collections.abc import Collection, Mapping, Sequence
from pathlib import Path
from typing import Any, Union

from fintaqush_tools.errors import Refusal
from fintaqush_tools.options import as_options
from fintaqush_tools.texts import is_number, shown

Line = Mapping[str, int]  # the numbers of a line of a report, by their names

# The options, made of their table by scripts/options.py.
TABLE: list[dict[str, Any]] = json.loads(Path(__file__).with_name("options.json").read_text(encoding="utf-8"))
# The minimum, maximum and default of each option; what each is; and those that are times. A name as default: the value of that option.
Option = tuple[int, int, Union[int, str]]
OPTIONS: dict[str, Option] = {it["name"]: (it["least"], it["most"], it["default"]) for it in TABLE}
MEANS: dict[str, str] = {it["name"]: it["what"] for it in TABLE}
IN_NS = tuple(it["name"] for it in TABLE if it["unit"] == "ns")
NAMES = (
    "interrupt",
    "poll",
    "packet",
    "use",
    "wake",
    "app-wake",
    "take",
    "timer",
    "timer-wake",
    "early",
    "poll-wake",
    "arm",
)
COSTS = tuple(name for name in NAMES if name in OPTIONS)
# Two options of which one has to be 0, and the reason.
EXCLUDES = {
    **dict.fromkeys(
        [("rx-gap", "rx-nsecs"), ("rx-gap", "rx-frames")],
        "a card keeps a least time between interrupts, or waits for more packets",
    ),
    ("early", "heedless"): "a driver asks for interrupts before napi_complete_done, or after it in any case",
}
LINES = ("device", "processor", "time", "application", "total")
SHARES = ("interrupt", "poll", "use", "idle")
PERCENTILES = {"p50": "wait50", "p90": "wait90", "p99": "wait99", "p999": "wait999"}
WAITS = [f"{end}_{name}" for end in ("delivered", "used") for name in PERCENTILES]
TOTALS = ("arrived", "dropped", "refused", "used")
COUNTS = ("interrupts", "timers", "runs", "polls", "squeezed", "late")
SUMS = {"device": ("arrived", "dropped", "polled"), "processor": ("refused", "used")}  # of the total line
# What each result is, for --help and pages.
ARE = {
    "arrived": "packets that arrived",
    "dropped": "packets that found a ring full",
    "refused": "packets that found a socket full",
    "used": "packets that the application used",
    **{
        f"{end}_{name}": f"the {per_cent}th percentile of waits from arrival to {what}, in ns, of the {of} where it is the greatest"
        for end, what, of in (("delivered", "delivery by a poll", "device"), ("used", "the end of use", "processor"))
        for name, per_cent in (("p50", "50"), ("p90", "90"), ("p99", "99"), ("p999", "99.9"))
    },
    "interrupt_percent": "the share of all processors' time that interrupts and timers take, in %",
    "poll_percent": "the share of all processors' time that polls take, in %",
    "use_percent": "the share of all processors' time that the application takes; of its own processors with --apart 1, in %",
    "idle_percent": "the share of all processors' time that is idle, in %",
    "interrupts": "interrupts",
    "timers": "expired NAPI timers",
    "runs": "runs of the softirq",
    "polls": "polls",
    "squeezed": "runs that budget, window or time limit ended",
    "late": "those of them that the time limit ended",
    "wakes": "how often the application was woken on its own processor",
    "queues_of_a_processor": "the most queues with packets that one processor has",
    "used_per_second": "packets used in a second, up to the end of the last work",
}
VALUES = list(ARE)


def help_of(name: str) -> str:
    """Returns the help text of an option: what it is, its range, its unit and its default."""
    low, high, default = OPTIONS[name]
    told = f"that of --{default}" if isinstance(default, str) else default
    return f"{MEANS[name]}, {low} to {high}{' ns' if name in IN_NS else ''} ({told})"


def default_of(name: str, settings: Mapping[str, Any]) -> int:
    """Returns the default of an option with these settings."""
    default = OPTIONS[name][2]
    if isinstance(default, int):
        return default
    return int(settings[default]) if default in settings else default_of(default, settings)


def misfit(settings: Mapping[str, Any]) -> str:
    """Returns why napi_machine rejects settings of which each is in its range, or an empty text if it accepts them."""
    value = {name: int(settings[name] if name in settings else default_of(name, settings)) for name in OPTIONS}
    for (one, other), reason in EXCLUDES.items():
        if value[one] and value[other]:
            return f"--{one} {value[one]} excludes --{other} {value[other]}: {reason}"
    if value["take"] > value["packet"]:
        return f"--take {value['take']} is above --packet {value['packet']}, of which it is a part"
    return ""


def lines_of(report: str) -> dict[str, list[dict[str, int]]]:
    """Parses a report: its lines by their first words, each as its numbers by name."""
    lines: dict[str, list[dict[str, int]]] = {kind: [] for kind in LINES}
    for line in report.splitlines():
        kind, *fields = line.split() or [""]
        if kind != "total":
            fields = ["number", *fields]
        names, numbers = fields[::2], fields[1::2]
        if kind not in lines or len(names) != len(numbers) or not all(map(is_number, numbers)):
            raise Refusal(f"not a report of napi_machine: {shown(line[:60])}")
        lines[kind].append(dict(zip(names, map(int, numbers))))
    if len(lines["total"]) != 1 or not report.endswith("\n"):
        raise Refusal("the report is cut: it ends in no total line")
    return lines


def of_processors(reports: Sequence[str]) -> str:
    """Returns the report of processors that differ: the lines of each are from its own report, because processors don't affect each other."""
    lines, sums = [], Counter[str]()
    for alike in zip(*(report.splitlines() for report in reports)):
        kind, number, *fields = alike[0].split()
        if kind == "total":
            continue
        own = alike[(int(number) - (kind == "device")) % len(reports)]
        lines.append(own)
        fields = own.split()[2:]
        sums.update({name: int(value) for name, value in zip(fields[::2], fields[1::2]) if name in SUMS.get(kind, ())})
    devices = sum(line.startswith("device ") for line in lines)
    total = " ".join(f"{name} {value}" for name, value in sums.items())
    return "\n".join([*lines, f"total devices {devices} {total}\n"])


def greatest_waits(lines: Sequence[Line], what: str, numbers: Collection[int] | None = None) -> dict[str, int]:
    """Returns the percentiles of the line where they are the greatest, of all lines or of those with these numbers."""
    some = [line for line in lines if numbers is None or line["number"] in numbers]
    return {f"{what}_{name}": max((line[wait] for line in some), default=0) for name, wait in PERCENTILES.items()}


def values_on(report: str, devices: Collection[int]) -> list[dict[str, int]]:
    """Returns the results of each processor of a report. `devices` are those whose waits count."""
    lines = lines_of(report)
    values = []
    for line in lines["processor"]:
        own = [each for each in lines["device"] if (each["number"] - 1) % len(lines["processor"]) == line["number"]]
        counts = {name: line[name] for name in ("polls", "runs", "squeezed")}
        counts["dropped"] = sum(each["dropped"] for each in own)
        values.append({**counts, **greatest_waits(own, "delivered", devices)})
    return values


def values_of(report: str, devices: Collection[int] | None = None) -> dict[str, Any]:
    """Returns the results of a report, for a row of a table. Waits are those of the device or processor with the greatest one, of these devices
    if some are given; shares are of all processors' time; `use_percent` is of the applications' time if these have processors of their own.
    """
    lines = lines_of(report)
    values: dict[str, Any] = {name: lines["total"][0][name] for name in TOTALS}
    values |= greatest_waits(lines["device"], "delivered", devices) | greatest_waits(lines["processor"], "used")
    values.update({f"{name}_percent": share(lines["time"], name) for name in SHARES})
    if lines["application"]:
        values["use_percent"] = share(lines["application"], "use")
    values.update({name: sum(line[name] for line in lines["processor"]) for name in COUNTS})
    values["wakes"] = sum(line["wakes"] for line in lines["application"])
    processors = [(line["number"] - 1) % len(lines["processor"]) for line in lines["device"]]
    end = max(line["end"] for line in [*lines["time"], *lines["application"]])
    values["queues_of_a_processor"] = max(map(processors.count, set(processors)), default=0)
    return {**values, "used_per_second": values["used"] * 10**9 // end if end else 0}


def identifier(name: str) -> str:
    """Returns the name of an option or a result in JSON."""
    return name.replace("-", "_")


def share(lines: Sequence[Line], name: str) -> str:
    """Returns a time as a percentage of the total time."""
    whole = sum(line["end"] for line in lines)
    return f"{100 * sum(line[name] for line in lines) / whole if whole else 0:.2f}"


def option_words(settings: Mapping[str, Any]) -> list[str]:
    """Returns the command-line options of napi_machine for these settings, without those that have their default."""
    return as_options({name: value for name, value in settings.items() if int(value) != default_of(name, settings)})
