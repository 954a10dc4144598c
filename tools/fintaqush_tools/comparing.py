"""What files of results, or recordings, measured, each value with its noise; and what changed between two sets of them: for compare."""

from __future__ import annotations

import bisect
import functools
import math
from collections import Counter
from collections.abc import Callable, Iterable, Iterator, Mapping, Sequence
from statistics import mean, stdev
from typing import Any, NamedTuple, Optional

from fintaqush_tools.commands import costs, sweep
from fintaqush_tools.errors import About, Refusal
from fintaqush_tools.files import MOST_BYTES
from fintaqush_tools.machine import IN_NS, VALUES, WAITS, identifier
from fintaqush_tools.options import Words
from fintaqush_tools.parts import PARTS, Waits, parts_of, span_of, values_between
from fintaqush_tools.recorded import Recording
from fintaqush_tools.recording import HEAD, opened, rise_of
from fintaqush_tools.results import Line, objects_in, part, rows_in
from fintaqush_tools.stolen import shares_in
from fintaqush_tools.tables import cell, heading
from fintaqush_tools.texts import aligned, shown

T95 = (12.71, 4.30, 3.18, 2.78, 2.57, 2.45, 2.36, 2.31, 2.26)  # Student's t for 95 %, by the degrees of freedom from 1
RARE = 0.05  # probability up to which a difference isn't taken for chance
# Counters of the kernel, in a recording's head; {} is a processor that polled.
COUNTED = {
    "squeezed_per_second": "softnet.{}.squeezed",
    "backlog_drops_per_second": "softnet.{}.dropped",
    "socket_drops_per_second": "udp.RcvbufErrors",
}
SHORT = {
    "squeezed": ("squeezed_per_second",),
    "p50": ("used_p50", "delivered_p50"),
    "p90": ("used_p90", "delivered_p90"),
    "p99": ("used_p99", "delivered_p99"),
    "p999": ("used_p999", "delivered_p999"),
}
TIMES = {*WAITS, *map(identifier, IN_NS)}  # values in ns
NO_OPTION = {"version", "tool", "arrivals", "sum", "trace_sum", "status", "fault", "raised"}
ROW_VALUES = dict.fromkeys([*VALUES, *sweep.TOLD])  # in order


class Value(NamedTuple):
    """A value, and by how much it may be off by chance: half of its 95 % interval; 0 if it is exact, None if unknown. `parts` are the values in the
    parts of a recording, or, with `is_of_files`, in several files."""

    middle: float
    noise: Optional[float] = 0
    parts: tuple[float, ...] = ()
    is_of_files: bool = False


Values = dict[str, dict[str, Value]]  # for each row of a result its values by name


def half_width(values: Sequence[float]) -> float:
    """Returns half of the 95 % interval of the mean of several values."""
    count = len(values)
    factor = T95[count - 2] if count - 2 < len(T95) else 1.96 + 2.5 / (count - 1)
    return factor * stdev(values) / math.sqrt(count)


@functools.cache
def chance_of(before: tuple[float, ...], after: tuple[float, ...]) -> float:
    """Returns the probability that values in random order would differ in their ranks at least as much as these: the two-sided test of Mann and
    Whitney. It is exact, also for equal values, which share their ranks."""
    order, count = sorted([*before, *after]), len(before)
    ranks = {each: bisect.bisect_left(order, each) + bisect.bisect_right(order, each) + 1 for each in order}  # doubled
    # For each size the number of ways to choose so many values, by the sum of their ranks: bits of one large number.
    bits, ways = len(order), [1] + count * [0]
    for each in order:
        for size in range(count, 0, -1):
            ways[size] += ways[size - 1] << (bits * ranks[each])
    middle = count * (len(order) + 1)
    apart = abs(sum(ranks[each] for each in before) - middle)
    sums = [ways[count] >> (bits * place) & ((1 << bits) - 1) for place in range(2 * middle + 1)]
    return sum(number for place, number in enumerate(sums) if abs(place - middle) >= apart) / sum(sums)


def shift_noise(before: Sequence[float], after: Sequence[float]) -> float:
    """Returns half of the 95 % interval of the shift between two sets of values, which belongs to the same test."""
    shifts, size = sorted(new - old for old in before for new in after), len(before) * len(after)
    place = max(0, int(size / 2 - 1.96 * math.sqrt(size * (len(before) + len(after) + 1) / 12)) - 1)
    return (shifts[-1 - place] - shifts[place]) / 2


# ---- results


def values_of(report: Iterable[Mapping[str, Any]]) -> dict[str, dict[str, Any]]:
    """Returns the values of each device of a replay's report by its number, and the totals."""
    values: dict[str, dict[str, Any]] = {}
    for line in report:
        if line["line"] in ("device", "napi", "tx"):
            told = values.setdefault(f"device {line['device']}", {})
            names = [name for name in line if name not in ("version", "tool", "line", "device", "flags")]
            told.update({f"{line['line']} {name}" if name in told else name: line[name] for name in names})
        elif line["line"] == "total":
            names = [name for name in line if name not in ("version", "tool", "line", "devices")]
            values["total"] = {name: line[name] for name in names}
        elif line["line"] == "list":
            values["list"] = {"devices": len(line["devices"])}
    return values


def numbers_of(values: Mapping[str, Mapping[str, Any]]) -> Values:
    """Returns the numbers among the values of a replay, which are exact."""
    some = {row: [name for name in each if type(each[name]) is int and name != "word"] for row, each in values.items()}
    return {row: {name: Value(values[row][name]) for name in names} for row, names in some.items()}


def check_replayed(told: Line) -> None:
    """Fails unless an object has the form of a line that `values_of` reads."""
    kind = part(told, "line", str)
    if kind in ("device", "napi", "tx"):
        part(told, "device", int)
    elif kind == "list":
        part(told, "devices", list)


def check_row(row: Line) -> None:
    """Fails unless the values of a combination are numbers; a rejected one has none."""
    for name in ROW_VALUES:
        for each in (name, f"{name}_least", f"{name}_most"):
            if row.get(each) is not None:
                part(row, each, int, float)


def values_of_row(row: Line) -> dict[str, Value]:
    """Returns the values of a combination, with the spread over seeds if there were several."""
    values = {}
    for name in ROW_VALUES:
        if (middle := row.get(name)) is not None:
            least, most = (row.get(f"{name}_{end}") for end in ("least", "most"))
            values[name] = Value(middle, 0 if least is None or most is None else (most - least) / 2)
    return values


def values_of_rows(rows: Sequence[Line]) -> Values:
    """Returns the values of combinations, each named by the options that vary. Those that a tool rejected have none."""
    others = NO_OPTION | ROW_VALUES.keys()
    own = [name for name in rows[0] if name not in others and not name.endswith(("_least", "_most"))]
    varied = [name for name in own if len({str(row.get(name)) for row in rows}) > 1]
    whole = [row for row in rows if str(row.get("status", 0)) == "0"]
    return {", ".join(f"{name} {row.get(name)}" for name in varied): values_of_row(row) for row in whole}


def costs_in(told: Mapping[str, Mapping[str, float]]) -> dict[str, Value]:
    return {name: Value(cost["value"], (cost["high"] - cost["low"]) / 2) for name, cost in told.items()}


def check_costs(told: Line) -> None:
    """Fails unless an object has costs, each with its interval."""
    for cost in part(told, "costs", dict).values():
        for name in ("value", "low", "high"):
            part(cost, name, int, float)


def check_advice(told: Line) -> None:
    """Fails unless an object has the costs and the measured values."""
    check_costs(told)
    for each in part(told, "check", list):
        part(each, "name", str)
        part(each, "measured", int, float)


def of_costs(objects: Sequence[Line]) -> Values:
    return {"": costs_in(objects[0]["costs"])}


def of_advice(objects: Sequence[Line]) -> Values:
    """Returns what advise measured in the recording, whose noise it doesn't know, and the costs."""
    measured = {each["name"]: Value(each["measured"], None) for each in objects[0]["check"]}
    return {"": {**measured, **costs_in(objects[0]["costs"])}}


# For each tool what checks an object of its results, and what reads all of them.
READERS: dict[str, tuple[Callable[[Line], None], Callable[[Sequence[Line]], Values]]] = {
    **dict.fromkeys(("what-if", "machine", "sweep"), (check_row, values_of_rows)),
    "replay": (check_replayed, lambda objects: numbers_of(values_of(objects))),
    "costs": (check_costs, of_costs),
    "advise": (check_advice, of_advice),
}


# ---- recordings


def of_recording(path: str, device: str | None) -> Values:
    """Returns what a recording measured. The noise is estimated from its parts, if these have packets enough."""
    recording = Recording(path, Words(device=device, capture=None))
    times = costs.timeline_for(recording.head, [recording.device] if device else [])
    seen = recording.read(times).seen
    try:
        told = costs.object_after(times, recording.head)["costs"]
    except Refusal:  # too few polls
        told = {}
    waits: Waits = {"delivered": seen.delivered(told.get("packet", {}).get("value", 0)), "used": seen.used()}
    if not seen.sent:
        raise Refusal("no arrival is in it, so nothing can be compared")
    begin, end = span_of(seen)
    whole, parts = values_between(seen, waits, (begin, end))[0], parts_of(seen, waits)
    values = {}
    for name, value in whole.items():
        known = tuple(part[name] for part in parts if name in part)
        values[name] = Value(value, half_width(known), known) if len(known) == PARTS else Value(value, None)
    taken = shares_in(recording.head, Counter(seen.on))
    if taken:
        values["stolen_percent"] = Value(100 * max(taken.values()), None)
    for name, counter in COUNTED.items():
        keys = {counter.format(processor) for processor in seen.on}
        rises = [rise for key in keys if (rise := rise_of(recording.head, key)) is not None]
        values |= {name: Value(10**9 * sum(rises) / (end - begin), None)} if rises else {}
    return {"": {**values, **costs_in(told)}}


# ---- files


def values_in_file(path: str, device: str | None) -> Values:
    """Returns the values of a file: results as JSON or as CSV of what-if and sweep, or a recording."""
    with opened(path) as file:
        if file.peek(len(HEAD)).startswith(HEAD.encode()):
            return of_recording(path, device)
        first = file.readline(MOST_BYTES)
        is_json, columns = first.startswith(b"{"), first.decode("utf-8", "replace").strip().split(",")
        if is_json or ROW_VALUES.keys() & set(columns):
            whole = first + file.read(MOST_BYTES)
            if len(whole) > MOST_BYTES:
                raise Refusal(f"longer than any result, over {MOST_BYTES >> 20} MiB")
            text = whole.decode("utf-8", "replace").replace("\r\n", "\n")
            if not is_json:
                return values_of_rows(rows_in(text, check_row))
            objects = objects_in(text, {tool: check for tool, (check, _) in READERS.items()})
            return READERS[objects[0]["tool"]][1](objects)
    raise Refusal(
        "neither results (--json FILE of a tool, or CSV of what-if or sweep) nor a file of fintaqush record; a trace is replayed with two "
        "settings by: fintaqush compare TRACE OPTION .. -- OPTION .."
    )


def values_in_files(paths: Sequence[str], device: str | None) -> Values:
    """Returns the values of several files with the same rows. The noise is then that of the mean between them."""
    every = []
    for path in paths:
        with About(path):
            every.append(values_in_file(path, device))
    if len(every) == 1:
        return every[0]
    values: Values = {}
    for row, names in every[0].items():
        for name in names:
            known = [each[row][name].middle for each in every if name in each.get(row, {})]
            if len(known) == len(every):
                values.setdefault(row, {})[name] = Value(mean(known), half_width(known), tuple(known), True)
    return values


# ---- what changed


SAME, CHANCE, UNKNOWN = "the same", "within the noise", "noise unknown"


class Change(NamedTuple):
    """A value before and after."""

    row: str
    name: str
    before: Value
    after: Value

    @property
    def difference(self) -> float:
        return self.after.middle - self.before.middle

    @property
    def is_ranked(self) -> bool:
        """Returns whether the ranks of the parts decide: there have to be so many that chance doesn't put all of a side above the other."""
        before, after = (len(each.parts) for each in (self.before, self.after))
        is_alike = self.before.is_of_files == self.after.is_of_files
        return is_alike and bool(before and after) and 2 / math.comb(before + after, before) <= RARE

    @property
    def noise(self) -> float | None:
        """Returns half of the 95 % interval of the difference; None if it isn't known."""
        if self.is_ranked:
            return shift_noise(self.before.parts, self.after.parts)
        if self.before.noise is None or self.after.noise is None:
            return None
        return math.hypot(self.before.noise, self.after.noise)

    @property
    def percent(self) -> float | None:
        """Returns the change in % of the value before; None if that was 0."""
        return 100 * self.difference / self.before.middle if self.before.middle else None

    @property
    def is_noise(self) -> bool:
        """Returns whether the difference may be chance."""
        if self.is_ranked:
            pairs = [(old, new) for old in self.before.parts for new in self.after.parts]
            risen = sum((new > old) - (new < old) for old, new in pairs)
            return risen * self.difference <= 0 or chance_of(self.before.parts, self.after.parts) > RARE
        return self.noise is not None and abs(self.difference) <= self.noise

    def verdict(self) -> str:
        if not self.difference:
            return SAME
        if self.noise is None:
            return UNKNOWN
        if self.is_noise:
            return CHANCE
        return "higher" if self.difference > 0 else "lower"

    def as_object(self) -> dict[str, Any]:
        ends = {"before": self.before.middle, "after": self.after.middle, "change_percent": self.percent}
        noise = {"noise": self.noise, "is_noise": self.is_noise}
        return {"row": self.row, "name": identifier(self.name).replace(" ", "_"), **ends, **noise}


def changes_in(before: Values, after: Values) -> list[Change]:
    """Returns the changes of all values that both have. Fails if there are none."""
    if len(before) == len(after) == 1:  # whichever options they have
        after = dict(zip(before, after.values()))
    every = [(row, name, value) for row, values in before.items() for name, value in values.items()]
    changes = [Change(*each, after[each[0]][each[1]]) for each in every if each[1] in after.get(each[0], {})]
    if not changes:
        raise Refusal("the two sides have no value in common")
    return changes


def only_in(before: Values, after: Values) -> Iterator[str]:
    """Yields lines about rows that only one side has."""
    for side, rows in (("before", set(before) - set(after)), ("after", set(after) - set(before))):
        if rows and not len(before) == len(after) == 1:
            yield f"only {side}: {'; '.join(sorted(map(shown, rows)))}"


def told_number(name: str, value: float) -> str:
    """Formats a value in the unit of its heading."""
    return cell(name, value) if name in TIMES or name.endswith("_percent") else f"{value:,.2f}".rstrip("0").rstrip(".")


def lines_of(changes: Sequence[Change]) -> list[str]:
    """Returns the table of changes. Values that are the same on both sides are counted."""
    rows = [["", "", "before", "after", "change", "noise", ""]]
    for each in changes:
        if each.difference:
            change = f"{each.percent:+.1f} %" if each.percent is not None else "from 0"
            noise = "" if not each.noise else f"±{100 * each.noise / (abs(each.before.middle) or 1):.1f} %"
            told = [told_number(each.name, value.middle) for value in (each.before, each.after)]
            names = [shown(each.row), shown(heading(each.name)).replace("_", " ")]
            rows.append([*names, *told, change, noise, each.verdict()])
    counts = Counter(each.verdict() for each in changes)
    certain = counts["higher"] + counts["lower"]
    changed = f"{certain} changed by more than the noise, {counts[CHANCE]} within it, {counts[UNKNOWN]} by an unknown part of it"
    summary = f"of {len(changes)} values {changed}, and {counts[SAME]} are the same"
    return [*(aligned(rows, 2) if len(rows) > 1 else []), summary]


def found_name(name: str, changes: Sequence[Change]) -> str:
    """Returns the value that a condition names: p99 is that to the end of use, or to delivery. Fails if there is none."""
    names: list[str] = list(dict.fromkeys(each.as_object()["name"] for each in changes))
    wanted: list[str] = [name, *SHORT.get(name, ())]
    for each in wanted:
        if each in names:
            return each
    raise Refusal(f"--fail-if: there is no {shown(name)} on both sides; these are: {' '.join(names)}")
