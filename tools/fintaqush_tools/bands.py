"""The band in which a measured value is nine times of ten: for advise and the tests; what-if takes from here how costs
are varied.

The doubt of the costs is twice the change of all costs by which the recorded setting's median waits would have been
predicted, at least 15 % and at most 50 %. A band holds the predictions with all costs lower and higher by the doubt, or at the ends of a cost's confidence interval if
that is wider; and the prediction plus twice what was missed at the recorded setting: times and few packets by the
difference, all else by the ratio. A setting that moves the program has costs up to `MOVED` % higher. Waits have half of NAPI's timeout, or of the card's least time between interrupts, if arrivals are inferred
from polls that waited for it. Both of its ends are further by what the value varies between the ten parts of the recording (fintaqush_tools.parts), at least 3 % and at most
50 %, because recordings of one setting differ; those of the share of the time that
polls take `SLEPT` more, because what a poll costs depends on how long its processor slept.

Twice, because what the model lacks may take longer with another setting; tests/tools/test_bands.py counts how many
recorded values are within.
"""

from __future__ import annotations

from collections.abc import Iterable, Mapping, Sequence
from typing import Any

from fintaqush_tools.machine import COSTS, OPTIONS, WAITS
from fintaqush_tools.predicting import FEW, LATE, MEASURED, Compared

Costs = Mapping[str, int]  # in ns, by the names of the machine's options, TIMERS and `app-wake-apart`
Interval = tuple[float, float]

TIMERS = ("timer", "timer-wake")  # costs that the recording may lack, and the machine too
VARIED = {*COSTS, *TIMERS, "app-wake-apart", "flight"}
DOUBT = 20  # % of the costs, if no recording says more
LEAST, MOST = 15, 50  # % of the costs; those of three like recordings differed by 15 %
MOVED = 100  # % by which costs were higher with the program on another processor
TIMES = 2  # how much further than at the recorded setting a prediction may be off
ALIKE = 0.03  # relative difference between recordings of one setting, at least
NOISIEST = 0.5  # the same, at most: what varies by more isn't known anyway
SLEPT = 0.2  # by which deferral changed what a poll costs: 67 of 72 measured shares were in this band, 49 without it
# If no NAPI timer was recorded: ns that its handler may take longer than an interrupt's, of which 3 to 6 us were
# measured. Its polls may be late by `LATE`, because waking a processor after a long idle time took 16 to 40 us.
TIMER = 5_000
POLLS = ("polls", "runs", "timers")  # which a late timer makes fewer
LIKE = {"lost": "dropped", "kernel_percent": "poll_percent"}  # predicted values whose error is that of another one


def with_costs(settings: Mapping[str, Any], percent: int) -> dict[str, Any]:
    """Returns the settings with each cost scaled to `percent`. Of a backlog `rx-nsecs` is one: the flight of interrupts."""
    varied = VARIED | ({"rx-nsecs"} if int(settings.get("backlog", 0)) else set())
    return {
        name: min(OPTIONS["poll"][1], (int(value) * percent + 50) // 100) if name in varied else value
        for name, value in settings.items()
    }


def doubt_of(rows: Iterable[Compared], higher: Mapping[str, float]) -> int:
    """Returns the doubt of the costs in %, by the values of the recorded setting. `higher` are those predicted with costs
    `DOUBT` % higher: a wait for a timer hardly depends on them."""
    changes = []
    for name, measured, value, _ in rows:
        if name.endswith("_p50") and value:
            slope = (higher[name] - value) * 100 / DOUBT
            changes.append(abs(measured - value) / (slope if slope > 0 else value))
    return max(LEAST, min(MOST, round(100 * TIMES * max(changes)))) if changes else DOUBT


def timer_of(costs: Costs) -> int:
    """Returns the cost of a NAPI timer, which counts as an interrupt if none was recorded."""
    return costs.get("timer", costs.get("interrupt", 0))


class Doubt:
    """What a recording leaves open: other costs that it may have, and how far its own setting was missed.

    `sides` are these costs, each with a description.
    """

    sides: list[tuple[str, dict[str, int]]]

    def __init__(
        self,
        costs: Costs,
        rows: Sequence[Compared],
        higher: Mapping[str, float],
        intervals: Mapping[str, Interval] | None = None,
        arrivals: int = 0,
        apart: int | None = None,
        noises: Mapping[str, float] | None = None,
    ) -> None:
        """`rows` compare the recorded setting with its prediction, and `higher` is predicted with costs `DOUBT` % higher.
        `intervals` has the ends of each cost; without those of polls and packets only their sum is known, of which each
        has the half in `costs`. `arrivals` is by how many ns an arrival may be off. `apart` is whether the program had a
        processor of its own. `noises` has by which share values vary between the parts of the recording."""
        self.noises = noises or {}
        self.arrivals, self.apart, self.elsewhere = arrivals, apart, with_costs(costs, 100 + MOVED)
        self.rows = {row[0]: row for row in rows}
        self.percent = doubt_of(rows, higher)
        self.sides = []
        for what, percent, end in (("lower", 100 - self.percent, min), ("higher", 100 + self.percent, max)):
            side = with_costs(costs, percent)
            for name, interval in (intervals or {}).items():
                side[name] = round(end(side[name], *interval))
            self.sides.append((f"costs {self.percent} % {what}", side))
        self.lacks_timer = "timer" not in costs
        if self.lacks_timer:
            self.sides[1][1]["timer"] = timer_of(costs) + TIMER
        if intervals is not None and "packet" not in intervals:
            for what, name, other in (("packets", "poll", "packet"), ("polls", "packet", "poll")):
                self.sides.append((f"{what} that cost nothing", {**costs, name: 2 * costs[name], other: 0}))

    def sides_of(self, options: Mapping[str, int]) -> list[dict[str, int]]:
        """Returns the other costs that a setting may have. They are up to `MOVED` % higher if it moves the program: then the processors that deliver
        and read a packet wait for each other's caches, which the recording doesn't show."""
        is_moved = self.apart is not None and options.get("apart", 0) != self.apart
        return [costs for _, costs in self.sides] + [self.elsewhere] * is_moved

    def missed(self, name: str) -> float:
        """Returns by how much the recorded setting's value was missed, as far as that may be chance."""
        _, measured, predicted, _ = self.rows.get(name, (name, 0, 0, 0))
        return min(LATE, abs(measured - predicted))

    def moved(self, name: str, value: float) -> float:
        """Returns a predicted value if it is missed further than at the recorded setting."""
        row = self.rows.get(LIKE.get(name, name))
        if not row:
            return value
        name, measured, predicted, _ = row
        if MEASURED[name][0] == "us" or predicted < FEW and name != "poll_percent":
            return value + TIMES * (measured - predicted)
        return value * (1 + TIMES * (measured / predicted - 1)) if predicted else value

    def band(self, name: str, value: float, others: Iterable[float], timeout: int = 0) -> Interval:
        """Returns the band of a predicted value; `others` are its predictions with the costs of `sides`. `timeout` is that
        of NAPI's timer in ns, if polls wait for it."""
        ends = [value, *others, self.moved(name, value)]
        if name in WAITS:
            ends = [min(ends) - self.arrivals, max(ends) + self.arrivals + LATE * name.endswith("p99")]
        if timeout and self.lacks_timer:
            late = (
                max(ends) + LATE
                if name in WAITS
                else min(ends) * timeout / (timeout + LATE)
                if name in POLLS
                else value
            )
            ends.append(late)
        own = LIKE.get(name, name)
        further = min(NOISIEST, max(ALIKE, self.noises.get(own, 0))) + SLEPT * (own == "poll_percent")
        return max(0.0, min(ends) * (1 - further)), max(ends) * (1 + further)
