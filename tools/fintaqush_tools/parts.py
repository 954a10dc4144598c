"""What a recording measured in each of its ten parts: how much its values vary, for compare and for the bands of advise."""

from __future__ import annotations

import math
from array import array
from bisect import bisect_right
from collections.abc import Mapping, Sequence
from statistics import mean, stdev

from fintaqush_tools.predicting import percentiles_of
from fintaqush_tools.receiving import Pairs, Receiving

PARTS = 10  # of a recording, between which values vary
FEWEST = 1000  # packets, below which the parts say nothing about a 99th percentile
T90 = 1.83  # Student's t for 90 %, with the degrees of freedom of ten parts
# The values whose variation predicted ones have, if that isn't a measured value of the same name.
VARIES_AS = {
    "polls": "packets_per_poll",
    "runs": "packets_per_poll",
    "interrupts": "packets_per_poll",
    "dropped": "dropped_percent",
}

Waits = Mapping[str, Pairs]  # to delivery and to the end of use


def values_between(seen: Receiving, waits: Waits, edges: Sequence[float]) -> list[dict[str, float]]:
    """Returns what was measured between each of these times and the next: of packets that were sent then, and of polls that ended then."""
    # What is before all edges or after them gets the last place.
    sent, came, polls, work, took = ([0] * len(edges) for _ in range(5))
    for time, has_come in zip(seen.sent, seen.has_come):
        at = bisect_right(edges, time) - 1
        sent[at] += 1
        came[at] += has_come
    for ended, begun, count in zip(seen.ended, seen.begun, seen.work):
        at = bisect_right(edges, ended) - 1
        polls[at] += 1
        work[at] += count
        took[at] += ended - begun if begun else 0
    values: list[dict[str, float]] = []
    for at, long in enumerate(end - begin for begin, end in zip(edges, edges[1:])):
        values.append(
            {
                "packets_per_second": sent[at] / (long / 10**9),
                "dropped_percent": 100 * (sent[at] - came[at]) / max(1, sent[at]),
                "packets_per_poll": work[at] / max(1, polls[at]),
                "poll_percent": 100 * took[at] / long / max(1, len(set(seen.on))),
            }
        )
    for name, pairs in waits.items():
        parts = [array("Q") for _ in edges]
        for time, ended in pairs:
            parts[bisect_right(edges, time) - 1].append(ended - time)
        for each, own in zip(values, parts):
            each |= percentiles_of(name, own)
    return values


def span_of(seen: Receiving) -> tuple[int, int]:
    """Returns when the first packet was sent, and when all was over."""
    return min(seen.sent), max(*seen.sent, *seen.ended) + 1


def parts_of(seen: Receiving, waits: Waits) -> list[dict[str, float]]:
    """Returns what was measured in each part; nothing if there are too few packets."""
    begin, end = span_of(seen)
    step = (end - begin) / PARTS
    edges = [begin + place * step for place in range(PARTS + 1)] if len(seen.sent) >= FEWEST else []
    return values_between(seen, waits, edges) if edges else []


def two_of(seen: Receiving, waits: Waits) -> list[dict[str, float]]:
    """Returns what was measured in each of two recordings (fintaqush record --twice); nothing if it has another number of windows."""
    (begin, end), cuts = span_of(seen), [*seen.cuts]
    return values_between(seen, waits, [begin, *cuts, end]) if len(cuts) == 1 and begin < cuts[0] < end else []


def noise_of(values: Sequence[float]) -> float:
    """Returns the greatest difference of one more part from the mean, nine times out of ten, as a share of the mean."""
    middle = mean(values)
    return T90 * math.sqrt(1 + 1 / len(values)) * stdev(values) / middle if middle else 0


def noises_of(parts: Sequence[Mapping[str, float]], two: Sequence[Mapping[str, float]] = ()) -> dict[str, float]:
    """Returns for each measured value its noise, if all parts have it. One more recording is taken for one more part: what differs between
    recordings changes slowly, so it differs between parts, and the mean of ten doesn't lessen it. If two recordings of one setting differ by more,
    that counts."""
    names = [name for name in parts[0] if all(name in part for part in (*parts, *two))] if parts else []
    noises = {name: noise_of([part[name] for part in parts]) for name in names}
    for name in names if two else ():
        first, second = (each[name] for each in two)
        noises[name] = max(noises[name], 2 * abs(first - second) / ((first + second) or 1))
    return noises | {name: noises[other] for name, other in VARIES_AS.items() if other in noises}
