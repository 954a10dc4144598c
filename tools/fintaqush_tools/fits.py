"""Estimates with 95 % confidence intervals: a straight line, and a median."""

from __future__ import annotations

from collections.abc import Sequence
from dataclasses import dataclass
from math import sqrt
from statistics import median
from typing import Any, Optional

from fintaqush_tools.errors import Refusal

Point = tuple[float, float]

FAR = 3  # standard deviations, estimated from the median distance
WIDE = 1.96  # standard errors to each side
# Share of the variation that a line explains: useless below the first; below the second if its slope may be 0.
NOTHING, LITTLE = (0.005, 0.05)
FEWEST = 8  # least number of values for an estimate


@dataclass
class Cost:
    """A cost in ns, its confidence interval, the number of values that it is estimated from, and their source."""

    value: float
    low: float
    high: float
    count: int
    source: str
    explained: Optional[float] = None  # the share of the variation that a line explains
    middle: tuple[float, ...] = ()  # the quartiles: half of the times are between them

    def interval(self) -> str:
        return f"{self.value:.0f} ns ({self.low:.0f} to {self.high:.0f})"

    def as_object(self) -> dict[str, Any]:
        told = {name: round(getattr(self, name)) for name in ("value", "low", "high")}
        half = [round(each) for each in self.middle] or None
        return {**told, "count": self.count, "explained": self.explained, "half": half, "source": self.source}


def cost_of(times: Sequence[float], source: str, less: float = 0) -> Cost | None:
    """Returns the median of these times minus a constant, each at least 0; None if there are too few."""
    if len(times) < FEWEST:
        return None
    ordered = sorted(max(0, each - less) for each in times)
    count, half = len(ordered), WIDE / 2 * sqrt(len(ordered))
    low, high = ordered[max(0, int(count / 2 - half) - 1)], ordered[min(count - 1, int(count / 2 + half))]
    middle = ordered[count // 4], ordered[min(count - 1, 3 * count // 4)]
    return Cost(median(ordered), low, high, count, source, middle=middle)


def line_over(points: Sequence[Point]) -> tuple[float, float]:
    """Returns the least-squares line, with neither its intercept nor its slope below 0."""
    count = len(points)
    mean_x, mean_y = sum(x for x, _ in points) / count, sum(y for _, y in points) / count
    spread = sum((x - mean_x) ** 2 for x, _ in points)
    slope = sum((x - mean_x) * (y - mean_y) for x, y in points) / spread if spread else 0
    if slope < 0:
        return mean_y, 0
    start = mean_y - slope * mean_x
    squares = sum(x * x for x, _ in points)
    return (start, slope) if start >= 0 or not squares else (0, sum(x * y for x, y in points) / squares)


def fitted(points: Sequence[Point], known: float) -> tuple[float, float, Sequence[Point]]:
    """Fits the line, removes outliers once, and fits again. Returns the line and the points kept; `known` is the resolution of the times."""
    start, slope = line_over(points)
    far = FAR * 1.4826 * median(abs(y - start - slope * x) for x, y in points)
    kept = [(x, y) for x, y in points if abs(y - start - slope * x) <= max(far, known)]
    return (*line_over(kept), kept) if len({x for x, _ in kept}) > 1 else (start, slope, points)


def shift_of(points: Sequence[Point], start: float, slope: float) -> tuple[float, float]:
    """Returns the median distance of points from a line, positive above it, and how far the median may be from it by chance."""
    off = sorted(y - start - slope * x for x, y in points)
    middle = median(off)
    return middle, WIDE * 1.2533 * 1.4826 * median(abs(each - middle) for each in off) / sqrt(len(off))


def halves_of(times: Sequence[float], packets: int, source: str) -> tuple[Cost, Cost, Cost]:
    """Returns the costs of polls that all took the same number of packets: together, and of a poll and a packet. Which part is the poll's isn't
    known, so each has the half, and an interval from nothing to the whole."""
    whole = cost_of(times, source)
    if not whole:
        raise Refusal(f"{len(times)} polls, but {FEWEST} are needed")
    poll = Cost(whole.value / 2, 0, whole.high, whole.count, source)
    return whole, poll, Cost(poll.value / packets, 0, poll.high / packets, whole.count, source)


@dataclass
class Line:
    """The costs of a poll and a packet, and how well the fitted line explains the polls' times."""

    poll: Cost
    packet: Cost
    polls: int  # all of them
    kept: Sequence[Point]
    off: float  # the median distance from the line, relative


def cost_line(points: Sequence[Point], known: float, source: str) -> Line:
    """Fits the line over polls (packets, ns). Fails if the line explains none of the variation, or if it explains hardly any and its
    slope's interval includes 0."""
    start, slope, kept = fitted(points, known)
    count, mean_x = len(kept), sum(x for x, _ in kept) / len(kept)
    mean_y = sum(y for _, y in kept) / count
    spread, whole = sum((x - mean_x) ** 2 for x, _ in kept), sum((y - mean_y) ** 2 for _, y in kept)
    left = sum((y - start - slope * x) ** 2 for x, y in kept)
    explained = 1 - left / whole if whole else 1.0
    error = sqrt(left / max(1, count - 2))
    by_slope, by_start = WIDE * error / sqrt(spread), WIDE * error * sqrt(1 / count + mean_x * mean_x / spread)
    if explained < NOTHING or explained < LITTLE and slope <= by_slope:
        polls = f"over {count} polls of {min(kept)[0]} to {max(kept)[0]} packets the time doesn't grow with them"
        part = f"the line explains {100 * max(0, explained):.0f} % of how the times differ"
        how = "record more varied traffic, on a processor that does nothing else"
        raise Refusal(f"what a packet costs isn't known: {polls} ({part}): {how}")
    off = median(abs(y - start - slope * x) / max(1, start + slope * x) for x, y in kept)
    poll = Cost(start, max(0, start - by_start), start + by_start, count, source, round(explained, 4))
    packet = Cost(slope, max(0, slope - by_slope), slope + by_slope, count, source, round(explained, 4))
    return Line(poll, packet, len(points), kept, off)
