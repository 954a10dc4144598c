"""Costs of polls by kind: a poll that wakes the program, and one whose completion starts NAPI's timer, take longer than others."""

from __future__ import annotations

from collections import defaultdict
from collections.abc import Sequence
from math import sqrt
from statistics import median

from fintaqush_tools.fits import WIDE, Cost
from fintaqush_tools.timeline import Kind

Poll = tuple[int, int]  # packets and ns
Times = Sequence[int]

NAMES = {"poll-wake": "polls that woke the program", "arm": "polls that started NAPI's timer"}
MANY = 32  # polls of a kind, and as many others that are alike but for it, without which what it takes isn't known


def compared(polls: Sequence[Poll], kinds: Sequence[Kind], place: int) -> list[tuple[Times, Times]]:
    """Returns the times of polls without and with a kind, apart for each number of packets and each other kind, where there are both. A poll
    without a packet skips what one with packets does, so a line through all polls doesn't show it."""
    alike = defaultdict[tuple[int, tuple[bool, ...]], tuple[list[int], list[int]]](lambda: ([], []))
    for (work, took), kind in zip(polls, kinds):
        alike[work, (*kind[:place], False, *kind[place + 1 :])][kind[place]].append(took)
    return [pair for pair in alike.values() if all(pair)]


def cost_of_kind(pairs: Sequence[tuple[Times, Times]], source: str) -> Cost | None:
    """Returns by how much the median of polls of a kind is longer: the middle one of the differences, each for as many polls as it has at
    least of both. None if there are too few."""
    if any(sum(len(pair[of]) for pair in pairs) < MANY for of in (False, True)):
        return None
    middles = [(median(others), median(own)) for others, own in pairs]
    extra = median(own - other for (other, own), pair in zip(middles, pairs) for _ in range(min(map(len, pair))))
    off = [[took - middle[of] for pair, middle in zip(pairs, middles) for took in pair[of]] for of in (False, True)]
    pooled = sum(len(others) * len(own) / (len(others) + len(own)) for others, own in pairs)
    error = WIDE * 1.2533 * 1.4826 * median([abs(each) for of in off for each in of]) / sqrt(pooled)
    ordered = sorted(off[True])
    half = tuple(extra + ordered[len(ordered) * quarter // 4] for quarter in (1, 3))
    return Cost(extra, max(0, extra - error), extra + error, len(ordered), source, middle=half)


def separated(polls: list[Poll], kinds: Sequence[Kind]) -> tuple[dict[str, Cost], list[Poll]]:
    """Returns the costs of those kinds of polls that are known, and the polls without them."""
    found = [cost_of_kind(compared(polls, kinds, place), source) for place, source in enumerate(NAMES.values())]
    known = [(place, cost) for place, cost in enumerate(found) if cost and cost.low >= 1]
    if not known:
        return {}, polls
    rest = [
        (work, max(0, round(took - sum(cost.value for place, cost in known if kind[place]))))
        for (work, took), kind in zip(polls, kinds)
    ]
    return {list(NAMES)[place]: cost for place, cost in known}, rest
