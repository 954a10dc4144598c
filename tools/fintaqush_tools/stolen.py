"""The time that a hypervisor took from a virtual machine's processors during a recording. It makes costs and waits higher, and predictions don't include it."""

from __future__ import annotations

from collections.abc import Iterable, Mapping
from typing import Any

from fintaqush_tools.recording import rise_of

MOST = 0.01  # share of a processor's time above which bands held fewer than nine of ten measured values
RARE = 0.01  # share of polls or reads, up to which their processor doesn't count
AGAIN = f"record again when it takes at most {100 * MOST:.0f} %"
UNKNOWN = "what a hypervisor took isn't in recordings of this age: on a virtual machine bands may be too narrow"

Counts = Mapping[int, int]  # of polls or reads, by processor
Shares = Mapping[int, float]  # of the time, by processor


def shares_in(head: Mapping[str, Any], *counts: Counts) -> dict[int, float]:
    """Returns the share of a recording that a hypervisor took from each of the processors that poll or read, if the recording says it."""
    used = {each for some in counts for each, count in some.items() if count > RARE * sum(some.values())}
    found = {each: rise_of(head, f"stolen.{each}") for each in sorted(used)}
    whole = 1000 * float(head.get("seconds") or 0)
    return {each: rise / whole for each, rise in found.items() if rise is not None and whole > 0}


def most_in(recordings: Iterable[Shares]) -> dict[int, float]:
    """Returns the largest share of each processor."""
    most: dict[int, float] = {}
    for shares in recordings:
        most |= {each: max(share, most.get(each, 0)) for each, share in shares.items()}
    return most


def told(shares: Shares) -> str:
    """Says from which processors a hypervisor took so much that it matters; nothing if from none."""
    large = {each: share for each, share in sorted(shares.items()) if round(share, 3) > MOST}
    parts = [f"{100 * share:.1f} % of processor {processor}'s time" for processor, share in large.items()]
    return f"a hypervisor took {' and '.join(parts)}" if parts else ""


def warnings(shares: Shares) -> list[str]:
    """Returns a line if costs from such a recording are too high."""
    what = told(shares)
    return [f"{what}, so costs and waits may be much too high: {AGAIN}"] if what else []


def without_band(shares: Shares) -> str:
    """Returns why no band is known, or nothing if one is."""
    what = told(shares)
    return f"the band isn't known, because {what}: {AGAIN}" if what else ""
