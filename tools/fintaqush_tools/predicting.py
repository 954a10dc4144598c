"""Compares what a recording measured with what napi_machine predicts, for advise and tests/live.sh."""

from __future__ import annotations

import bisect
from array import array
from collections import Counter
from collections.abc import Collection, Iterable, Iterator, Mapping, Sequence
from itertools import chain, islice
from operator import le
from typing import Any

from fintaqush_tools import drivers
from fintaqush_tools.arrivals import arrivals_text
from fintaqush_tools.errors import Refusal
from fintaqush_tools.layout import Layout
from fintaqush_tools.machine import option_words, values_of
from fintaqush_tools.processes import ran
from fintaqush_tools.receiving import Receiving
from fintaqush_tools.recording import Head, rise_of
from fintaqush_tools.texts import last_line, shown

Compared = tuple[str, float, float, float]  # name, measured value, predicted value, error in %

# For each measured value: its name in the machine's report, its unit, and the divisor for that unit.
MEASURED = {
    "dropped": ("packets", 1),
    "interrupts": ("interrupts", 1),
    "polls": ("polls", 1),
    "runs": ("runs", 1),
    "squeezed": ("runs", 1),
    "delivered_p50": ("us", 1000),
    "delivered_p90": ("us", 1000),
    "delivered_p99": ("us", 1000),
    "used_p50": ("us", 1000),
    "used_p90": ("us", 1000),
    "used_p99": ("us", 1000),
    "poll_percent": ("%", 1),
}
TOLD = {
    "dropped": "dropped",
    "interrupts": "interrupts",
    "polls": "polls",
    "runs": "runs",
    "squeezed": "squeezed runs",
    "delivered_p50": "wait to delivery, p50, us",
    "delivered_p90": "wait to delivery, p90, us",
    "delivered_p99": "wait to delivery, p99, us",
    "used_p50": "wait to the end of use, p50, us",
    "used_p90": "wait to the end of use, p90, us",
    "used_p99": "wait to the end of use, p99, us",
    "poll_percent": "polls, % of the time",
}
PARTS = {"p50": 500, "p90": 900, "p99": 990}  # per mille of the waits
COUNTS = {"dropped", "interrupts", "polls", "runs", "squeezed"}
GRADES = ((15, "good"), (40, "fair"))  # the largest error in % for each grade
LATE = 30_000  # ns by which one in a hundred packets may always be late, because of interrupts and hypervisors
TOGETHER = 1000  # lines that are joined at once, because each one takes 60 bytes
SIZE = 60  # bytes of an arrival, which the machine doesn't use
FEW = 100  # drops, interrupts and timers below one in FEW packets aren't compared by ratio


def percentile(values: Sequence[float], per_mille: int) -> float:
    """Returns the percentile of sorted values: the least that `per_mille` of 1000 of them don't exceed; 0 if there is none."""
    return values[max(0, -(-len(values) * per_mille // 1000) - 1)] if values else 0


def arrivals_at(seen: Receiving, numbers: Mapping[str, int] | None = None, visible: bool = False) -> str:
    """Returns the arrivals of a recording, including those that were dropped, each at its sender's device number in `numbers`. If `visible`, a
    packet that was sent on the processor that polls arrives when the next softirq begins there, because that softirq waits for the sender.
    """
    numbers = numbers or {sender: 1 for sender in set(seen.sent_by)}
    return arrivals_of(visible_times(seen) if visible else seen.sent, [numbers[sender] for sender in seen.sent_by])


def arrivals_of(times: Iterable[int], devices: Iterable[int]) -> str:
    """Returns the arrivals at these times; those of one time stay in order."""
    at, of = array("Q", times), array("L", devices)
    is_sorted = all(map(le, at, islice(at, 1, None)))
    order = range(len(at)) if is_sorted else sorted(range(len(at)), key=at.__getitem__)
    lines = arrivals_text((at[place], of[place], SIZE) for place in order)
    return "".join(iter(lambda: "".join(islice(lines, TOGETHER)), ""))


def first_of(arrivals: str, packets: int) -> str:
    """Returns the arrivals of the first packets, so many at most."""
    end = 0
    for _ in range(packets + 1):
        end = arrivals.find("\n", end) + 1 or len(arrivals)
    return arrivals[:end]


def visible_times(seen: Receiving) -> Iterator[int]:
    """Yields the time at which the processor that polls can see each packet."""
    most = seen.processor
    entries = seen.entries[most]
    for time, processor in zip(seen.sent, seen.sent_on):
        place = bisect.bisect_left(entries, time)
        yield entries[place] if processor == most and place < len(entries) else time


def measured_of(
    seen: Receiving,
    head: Head,
    used: Sequence[tuple[int, int]] | None = None,
    packet: float = 0,
    layout: Layout | None = None,
) -> dict[str, float]:
    """Returns the measured values of a recording with that head. `used` has for each used packet its sending time and the end of its use, if
    these are known from a source other than the program's recorded reads. `packet` is the cost of a packet in ns. With a layout waits to delivery
    are those of the device where they are the greatest, as in the machine's results."""
    values: dict[str, float] = {
        "sent": len(seen.sent),
        "dropped": seen.dropped,
        "polls": len(seen.ended),
        "runs": seen.runs,
        "squeezed": squeezed_on(head, *seen.processors),
        "timers": sum(seen.timers[processor] for processor in seen.processors),
        "poll_percent": seen.poll_percent(),
    }
    if interrupts := interrupts_of(seen, head):
        values["interrupts"] = interrupts
    if layout:
        values |= waits_at(layout, layout.major(), packet)
    else:
        values |= percentiles_of("delivered", (end - time for time, end in seen.delivered(packet)))
    return values | percentiles_of("used", (end - time for time, end in used or seen.used()))


def interrupts_of(seen: Receiving, head: Head) -> int:
    """Returns how many interrupts the cards that polled raised for received packets. Their handlers have names that the head has, or the device's."""
    names = (drivers.of_queues(head, device) or drivers.interrupts_in(head, device).values() for device in seen.polled)
    known, own = set(chain.from_iterable(names)), tuple(seen.polled)
    return sum(count for name, count in seen.handled.items() if name in known or not known and name.startswith(own))


def squeezed_on(head: Head, *processors: int) -> int:
    """Returns how many runs on these processors were squeezed."""
    return sum(rise_of(head, f"softnet.{processor}.squeezed") or 0 for processor in processors)


def percentiles_of(name: str, waits: Iterable[float]) -> dict[str, float]:
    waits = sorted(waits)
    return {f"{name}_{each}": percentile(waits, part) for each, part in PARTS.items()} if waits else {}


def waits_at(layout: Layout, devices: Collection[int], packet: float) -> dict[str, float]:
    """Returns the greatest percentiles of the waits to delivery at these devices, if they are known."""
    known = [waits for device, waits in layout.waits(packet).items() if device in devices]
    return {
        f"delivered_{name}": max(percentile(waits, part) for waits in known) for name, part in PARTS.items() if known
    }


def measured_on(seen: Receiving, head: Head, packet: float, layout: Layout) -> dict[int, dict[str, float]]:
    """Returns the measured values of each processor that polled."""
    sent, dropped = Counter(map(layout.processor_of, layout.devices)), Counter[int]()
    for device, has_come in zip(layout.devices, seen.has_come):
        dropped[layout.processor_of(device)] += not has_come
    polls, runs = Counter(seen.on), Counter(processor for processor, _ in seen.runs_on())
    return {
        processor: {
            "sent": sent[processor],
            "dropped": dropped[processor],
            "polls": polls[processor],
            "runs": runs[processor],
            "squeezed": squeezed_on(head, processor),
            **waits_at(layout, {each for each in layout.major() if layout.processor_of(each) == processor}, packet),
        }
        for processor in layout.processors
    }


def reported(made: str, arrivals: str | bytes, settings: Mapping[str, Any]) -> str:
    """Returns the machine's report on these arrivals."""
    status, out, said = ran(
        [made, *option_words(settings)], arrivals if isinstance(arrivals, bytes) else arrivals.encode()
    )
    if status != 0:
        raise Refusal(f"{shown(made)} failed: {last_line(said, f'status {status}')[:200]}")
    return out.decode("ascii", "replace")


def predicted(made: str, arrivals: str | bytes, settings: Mapping[str, Any]) -> dict[str, Any]:
    """Returns the values that the machine predicts for these arrivals."""
    return values_of(reported(made, arrivals, settings))


def base_of(name: str, measured: float, packets: float) -> float:
    """Returns the number by which a difference is divided: the measured value; for few drops, interrupts, timers and squeezed runs a hundredth of the
    packets, at least 10, because a ratio of small numbers says nothing."""
    least = max(FEW / 10, packets / FEW) if name in ("dropped", "interrupts", "timers", "squeezed") else 1
    return max(measured, least)


def error_of(name: str, measured: float, value: float, packets: float) -> float:
    """Returns the error of a prediction in %."""
    return 100 * (value - measured) / base_of(name, measured, packets)


def compared(measured: Mapping[str, float], values: Mapping[str, Any]) -> list[Compared]:
    """Returns name, measured value, predicted value and error in % of each measured value."""
    return [
        (name, measured[name], values[name], error_of(name, measured[name], values[name], measured["sent"]))
        for name in MEASURED
        if name in measured and name in values and (measured[name] or values[name] or name == "dropped")
    ]


def judged_for(goal: str, end: str, has_limit: bool) -> set[str]:
    """Returns the names of the values by which a fit is judged: the counts, of which polls and runs only for goal cpu, and what the goal is about.
    `has_limit` is whether the 99th percentile has one."""
    waits = {f"{end}_p50"} if goal == "p99" else set()
    counts = COUNTS - (set() if goal == "cpu" else {"polls", "runs"})
    return counts | waits | {name_of(goal, end)} | ({f"{end}_p99"} if has_limit else set())


def name_of(goal: str, end: str) -> str:
    """Returns the name of the measured value that a goal is about."""
    return {"cpu": "poll_percent", "drops": "dropped"}.get(goal, f"{end}_{goal}")


def judged_error(row: Compared) -> float:
    """Returns the error by which a row is judged, in %: a 99th percentile that is missed by no more than `LATE` isn't poor."""
    name, measured, value, error = row
    is_late = name.endswith("_p99") and abs(measured - value) <= LATE
    return min(abs(error), GRADES[-1][0]) if is_late else abs(error)


def worst_of(rows: Sequence[Compared], names: Collection[str]) -> Compared | None:
    """Returns the row that is judged worst among these names."""
    found = [row for row in rows if row[0] in names]
    return max(found, key=judged_error) if found else None


def grade_of(rows: Sequence[Compared], names: Collection[str] | None = None) -> str:
    """Returns good, fair or poor, by the largest error of the values with these names, or of all."""
    worst = worst_of(rows, [row[0] for row in rows] if names is None else names)
    return next((grade for most, grade in GRADES if worst and judged_error(worst) <= most), "poor")


# ---- how the values are printed


def us(value: float) -> str:
    return f"{value / 1000:.1f}"


def told_value(name: str, value: float) -> str:
    """Returns a measured or predicted value in its unit."""
    unit, _ = MEASURED[name]
    return us(value) if unit == "us" else f"{value:.1f}" if unit == "%" else str(round(value))


def check_lines(rows: Sequence[Compared], packets: float) -> Iterator[str]:
    """Yields the lines that compare the recorded settings with their prediction. A difference of few is a number, with
    what it was divided by."""
    for name, measured, value, error in rows:
        told = [told_value(name, each) for each in (measured, value)]
        base = base_of(name, measured, packets)
        difference = (
            f"{error:+8.1f} %"
            if base == max(1, measured) or value == measured
            else f"{value - measured:+8d}   judged as {error:+.1f} % of {base:.0f}, because a ratio of few says nothing"
        )
        yield f"  {TOLD[name]:34} {told[0]:>12} {told[1]:>12} {difference}"


def objects_in(rows: Sequence[Compared], packets: float) -> list[dict[str, Any]]:
    """Returns these comparisons for the JSON output: `of` is the number by which the difference was divided."""
    return [
        {"name": name, "measured": measured, "predicted": value, "error": error, "of": base_of(name, measured, packets)}
        for name, measured, value, error in rows
    ]
