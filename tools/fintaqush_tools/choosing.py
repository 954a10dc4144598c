"""Chooses the best of several settings for a goal by the predictions of napi_machine: for advise."""

from __future__ import annotations

from collections.abc import Collection, Iterator, Mapping, Sequence
from typing import Any, Optional

from fintaqush_tools import predicting
from fintaqush_tools.bands import ALIKE, Costs, Doubt, Interval
from fintaqush_tools.flights import as_timer
from fintaqush_tools.machine import COSTS, of_processors, values_of, values_on
from fintaqush_tools.options import Words
from fintaqush_tools.progress import Progress
from fintaqush_tools.threads import in_threads

Options = dict[str, int]
Values = dict[str, Any]
Tried = tuple[Options, Values]  # a setting and its results

MOST_COMPARED = 32  # settings that lose equally few packets

GOALS = {
    "p99": "the 99th percentile of waits",
    "p50": "the median wait",
    "cpu": "the kernel's processor time",
    "drops": "drops",
}


def numeric(value: Any) -> float:
    """Converts a value of the machine's report to a number; shares are texts there."""
    return float(value) if isinstance(value, str) else int(value)


def timeout_of(options: Mapping[str, int]) -> int:
    """Returns the timeout of NAPI's timer in ns, or 0 if polls don't wait for it."""
    return options.get("gro-flush-timeout", 0) if options.get("defer-hard-irqs") else 0


def settings_of(costs: Mapping[str, int], options: Options) -> Options:
    """Returns the machine's options. `costs` may have `app-wake-apart`, the wake-up of a program with a processor of its own. If
    the costs of NAPI's timer are unknown, they are those of interrupts; if the machine has none, those of interrupts are they
    if there is deferral, because nearly all are timers then. The flight of an interrupt between processors is only a backlog's.
    """
    costs = as_timer(costs) if options.get("backlog") else costs
    values = {name: costs[name] for name in (*COSTS, "rx-nsecs") if name in costs}
    if options.get("apart") and "app-wake-apart" in costs:
        values["app-wake"] = costs["app-wake-apart"]
    for name, of_timer in (("interrupt", "timer"), ("wake", "timer-wake")):
        if name in costs and (of_timer in COSTS or timeout_of(options)):
            values[of_timer if of_timer in COSTS else name] = costs.get(of_timer, costs[name])
    if "take" in values:
        values["take"] = min(values["take"], values["packet"])
    early = values.pop("early", 0)  # only of a driver that has early interrupts
    return {**values, **options, **({"early": early} if early and options.get("early") else {})}


def slowed(costs: Costs, ratio: float) -> dict[str, int]:
    """Returns the costs of polls, multiplied by this ratio."""
    return {name: round(ratio * costs[name]) for name in ("poll", "packet")}


class Predictions:
    """Runs napi_machine for several settings at once."""

    doubt: Doubt  # needed for bands
    ratios: tuple[float, ...] = ()  # for each processor, how many times as long its polls take, if they differ

    def __init__(self, made: str, costs: Costs, arrivals: str, devices: Collection[int]) -> None:
        """`costs` are those of `settings_of`. `devices` are those whose waits count."""
        self.made, self.costs = made, costs
        # By the value of `layout`: the arrivals, and the devices whose waits count.
        self.layouts: dict[int, tuple[bytes, Collection[int]]] = {0: (arrivals.encode(), devices)}

    def on_others(self, arrivals: str, devices: Collection[int]) -> Predictions:
        """Returns predictions by the same costs for other arrivals."""
        others = Predictions(self.made, self.costs, arrivals, devices)
        others.doubt, others.ratios = self.doubt, self.ratios
        return others

    def report(self, options: Options, costs: Costs | None = None) -> str:
        own = {name: options[name] for name in options if name != "layout"}
        arrivals, all_of = self.layouts[options.get("layout", 0)][0], costs or self.costs
        ratios = self.ratios if len(self.ratios) == options.get("processors", 1) else (1.0,)
        reports = {
            ratio: predicting.reported(self.made, arrivals, settings_of({**all_of, **slowed(all_of, ratio)}, own))
            for ratio in set(ratios)
        }
        return of_processors([reports[ratio] for ratio in ratios]) if len(reports) > 1 else reports[ratios[0]]

    def of(self, options: Options, costs: Costs | None = None) -> Values:
        """Returns the results of a setting, with other costs if some are given."""
        values = values_of(self.report(options, costs), self.layouts[options.get("layout", 0)][1])
        return {
            **{name: numeric(value) for name, value in values.items()},
            "kernel_percent": float(values["interrupt_percent"]) + float(values["poll_percent"]),
            "program_percent": float(values["use_percent"]),
            "lost": values["dropped"] + values["refused"],
        }

    def on(self, options: Options) -> list[dict[str, int]]:
        """Returns the results of a setting for each processor."""
        return values_on(self.report(options), self.layouts[0][1])

    def of_all(self, tried: Sequence[Options]) -> list[Values]:
        """Returns the results of each setting."""
        values: dict[int, Values] = {}
        with Progress(f"predicting {len(tried)} settings", lambda: len(values) / len(tried)):
            for place, each in in_threads(lambda place: (place, self.of(tried[place])), range(len(tried))):
                values[place] = each
        return [values[place] for place in range(len(tried))]

    def sides_of(self, options: Options) -> list[Values]:
        """Returns the results with the other costs that the recording may have."""
        return [self.of(options, costs) for costs in self.doubt.sides_of(options)]

    def band(self, name: str, options: Options, values: Values, sides: Sequence[Values]) -> Interval:
        """Returns the band of a value of a setting; `values` and `sides` are its results."""
        return self.doubt.band(name, values[name], [each[name] for each in sides], timeout_of(options))


class Choice:
    """The best setting for a goal. Of settings that are equally good the one with the fewest changes is the best; one that moves the program to
    another processor only if no other is as good, because what the program meets there isn't predicted."""

    best: Optional[Tried]

    def __init__(self, words: Words, end: str, predictions: Predictions, tried: Sequence[Options]) -> None:
        self.goal, self.end, self.predictions = words.goal, end, predictions
        self.tried = list(zip(tried, predictions.of_all(tried)))
        self.now, today = self.tried[0]
        self.most = today["lost"] if words.max_drops is None else words.max_drops
        self.below = None if words.p99_below is None else words.p99_below * 1000
        self.noise = predictions.doubt.missed(f"{end}_p99") if self.goal == "p99" else 0
        self.order = sorted(self.tried, key=lambda pair: (*self.key(pair[1]), *self.changes_of(pair[0])))
        allowed = [pair for pair in self.order if self.is_allowed(pair[1])]
        safe = next((pair for pair in allowed if self.is_safe(pair[0])), None)
        self.best, self.has_room = safe or next(iter(allowed), None), safe is not None
        if self.best and self.goal == "drops":
            least = [pair for pair in allowed if pair[1]["lost"] <= self.best[1]["lost"]]
            self.best = min(least[:MOST_COMPARED], key=self.most_lost)
        if self.best and self.is_allowed(today) and self.is_alike(today, self.best[1]):
            self.best = self.tried[0]  # no change without a gain
        elif self.best:
            self.best = self.fewest_changes(self.best, allowed)

    def fewest_changes(self, best: Tried, allowed: Sequence[Tried]) -> Tried:
        """Returns the setting with the fewest changes among those that are as good as the best one: within 3 % of it, or a 99th percentile within
        what the recorded one was missed by; with the costs as they are or as they may be."""
        sides = self.predictions.sides_of(best[0])
        most = max(self.value(values) for values in (best[1], *sides)) * (1 + ALIKE) + self.noise
        near = [pair for pair in allowed if self.value(pair[1]) <= most]
        for pair in sorted(near, key=lambda pair: (*self.changes_of(pair[0]), *self.key(pair[1]))):
            others = self.predictions.sides_of(pair[0])
            alike = map(self.is_alike, (pair[1], *others), (best[1], *sides))
            if (all(alike) if self.goal == "drops" else any(alike)) and (not self.has_room or self.is_safe(pair[0])):
                return pair
        return best

    def most_lost(self, pair: Tried) -> int:
        """Returns how many packets a setting may lose with the other costs."""
        return max((int(values["lost"]) for values in self.predictions.sides_of(pair[0])), default=0)

    def is_alike(self, values: Values, best: Values) -> bool:
        return self.value(values) <= self.value(best) * (1 + ALIKE) + self.noise

    def changes_of(self, options: Options) -> tuple[bool, int]:
        """Returns whether a setting moves the program, and how many options it changes; both of deferral are one."""
        differ = (name for name in options if options[name] != self.now.get(name) and name != "processors")
        changed = {"gro-flush-timeout" if name == "defer-hard-irqs" else name for name in differ}
        return "apart" in changed, len(changed)

    def value(self, values: Mapping[str, Any]) -> float:
        """Returns the value that the goal is about, of which less is better."""
        return float(self.key(values)[0])

    def key(self, values: Mapping[str, Any]) -> tuple[float, ...]:
        """The sort key of a setting: the best one comes first."""
        cpu, p99 = round(values["kernel_percent"], 1), values[f"{self.end}_p99"]
        return {
            "p99": (p99, cpu),
            "p50": (values[f"{self.end}_p50"], cpu),
            "cpu": (cpu, p99),
            "drops": (values["lost"], p99, cpu),
        }[self.goal]

    def is_allowed(self, values: Mapping[str, Any]) -> bool:
        """Returns whether a setting's results are within the limits."""
        return (self.goal == "drops" or values["lost"] <= self.most) and (
            self.below is None or values[f"{self.end}_p99"] <= self.below
        )

    def is_safe(self, options: Options) -> bool:
        """Returns whether a setting is within the limits with the other costs too."""
        return all(map(self.is_allowed, self.predictions.sides_of(options)))

    def warnings(self, best: Options, sides: Sequence[Values], today: Sequence[Values]) -> Iterator[str]:
        """Yields warnings about the best setting; `sides` and `today` are its results and those of today's with the
        other costs."""
        if not self.has_room:
            yield "with other costs that the recording may have it exceeds the limits"
        for (what, _), values, old in zip(self.predictions.doubt.sides, sides, today):
            if best != self.now and self.key(old) < self.key(values):
                yield f"with {what} today's setting is better"
