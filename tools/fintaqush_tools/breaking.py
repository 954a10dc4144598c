"""Finds the load at which a setting breaks: packets are dropped, or the 99th percentile of waits exceeds a limit."""

from __future__ import annotations

import itertools
import math
import os
import re
from collections.abc import Callable, Iterator, Mapping, MutableMapping, Sequence
from fractions import Fraction
from typing import Any, Optional

from fintaqush_tools.errors import Refusal
from fintaqush_tools.options import wrong
from fintaqush_tools.threads import in_threads

Key = tuple[str, ...]  # of a combination of settings
Ends = tuple[Optional[Fraction], Optional[Fraction]]  # the load that holds and the load that breaks
Found = Mapping[Key, Mapping[int, Ends]]  # the ends of each combination, by the percentage of the costs

LOWEST, HIGHEST = Fraction(1, 1024), Fraction(1024)
APART = Fraction(101, 100)  # ratio of the two loads between which it breaks
STEPS = 10**6  # per load of 1
LONGEST_LINE = 128  # bytes


def limit(text: str) -> str:
    """Parses --until: drops, or p99=US."""
    found = re.fullmatch(r"drops|p99=([0-9]{1,9}(?:\.[0-9]{1,3})?)", text)
    if not found:
        raise wrong(text, "drops, or p99=US with a time in us")
    return text


def is_over(row: Mapping[str, Any], until: str) -> bool:
    """Returns whether the results of this row exceed the limit."""
    if until == "drops":
        return int(row["dropped"]) + int(row["refused"]) > 0
    return int(row["used_p99"]) > Fraction(until.partition("=")[2]) * 1000


def between(low: Fraction, high: Fraction) -> Fraction:
    """Returns the geometric mean of two loads."""
    return Fraction(round((float(low) * float(high)) ** 0.5 * STEPS), STEPS)


def search(breaks: Callable[[Fraction], bool]) -> Iterator[Ends]:
    """Yields after each load that was tried the highest load known to hold and the lowest known to break; None if there is none. At last they
    are at most 1 % apart. Assumes that a setting that holds a load also holds any lower one."""
    load: Fraction | None = Fraction(1)
    ends: Ends = (None, None)
    while load:
        ends = (ends[0], load) if breaks(load) else (load, ends[1])
        yield ends
        load = next_load(*ends)


def next_load(holds: Fraction | None, broken: Fraction | None) -> Fraction | None:
    """Returns the load to try next, if there is one."""
    if holds and broken:
        load = between(holds, broken)
        return load if broken > holds * APART and holds < load < broken else None
    load = broken / 2 if broken else (holds or 1) * Fraction(2)
    return load if LOWEST <= load <= HIGHEST else None


def share_of(ends: Ends) -> float:
    """Returns about how much of the search is done. Once one load keeps the limits and another breaks them, each further one halves the range between."""
    holds, broken = ends
    if not holds or not broken:
        return 0.1
    return max(0.2, 1 - 0.1 * math.ceil(math.log2(max(1, math.log(broken / holds) / math.log(APART)))))


def rate_of(path: str) -> float:
    """Returns the average rate of the arrivals in a file, in packets per second."""
    with open(path, "rb") as file:
        lines = sum(1 for _ in file) - 1
        file.seek(max(0, os.fstat(file.fileno()).st_size - LONGEST_LINE))
        last = file.read().rstrip().rpartition(b"\n")[2].partition(b",")[0]
        file.seek(0)
        file.readline()
        first = file.readline(LONGEST_LINE).partition(b",")[0]
    is_known = all(each.isdigit() and len(each) <= 20 for each in (first, last))
    if not is_known or int(last) <= int(first):
        raise Refusal("--until needs arrivals over some time, with times that are plain numbers")
    return (lines - 1) * 10**9 / (int(last) - int(first))


Breaks = Callable[[Key, int, Fraction], bool]
Job = tuple[Key, int]


def breakings(
    keys: Sequence[Key], percents: Sequence[int], breaks: Breaks, jobs: int, shares: MutableMapping[Job, float]
) -> Found:
    """Returns the ends of each key. `breaks` returns whether a key breaks at a percentage and a load; `shares` gets how much of each search is
    done."""

    def searched(job: Job) -> tuple[Job, Ends]:
        for ends in search(lambda load: breaks(*job, load)):
            shares[job] = share_of(ends)
        shares[job] = 1
        return job, ends

    found: dict[Key, dict[int, Ends]] = {key: {} for key in keys}
    for (key, percent), ends in in_threads(searched, list(itertools.product(keys, percents)), jobs):
        found[key][percent] = ends
    return found


def load_text(load: Fraction) -> str:
    """Formats a load as an option's value."""
    return f"{float(load):.6f}".rstrip("0").rstrip(".")


def text_of(load: Optional[Fraction]) -> Optional[str]:
    return None if load is None else load_text(load)


def about(load: Fraction) -> str:
    """Formats a load for people: it is known to 1 %."""
    return f"{float(load):.3g}"


def told(until: str, ends: Mapping[int, Ends], rate: float, percents: Sequence[int]) -> str:
    """Returns the sentence that describes a combination of settings."""
    holds, broken = ends[100]
    over = f"the 99th percentile of waits is over {until.partition('=')[2]} µs"
    what = "packets are lost" if until == "drops" else over
    if broken is None:
        return f"it holds up to {about(holds or HIGHEST)} times this load, the highest one tried"
    if holds is None:
        return f"it breaks at {about(broken)} times this load, the lowest one tried: {what}"
    line = f"it breaks at {about(broken)} times this load ({rate * float(broken) / 1000:.3g} k packets/s): {what}"
    sides = [ends[percent][1] for percent in percents if percent != 100]
    known = sorted(side for side in sides if side is not None)
    if not known or len(known) < len(sides):
        return line
    return f"{line}; with costs {abs(percents[-1] - 100)} % higher or lower at {about(known[0])} to {about(known[-1])}"
