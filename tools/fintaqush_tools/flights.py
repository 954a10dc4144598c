"""Estimates the flight of an interrupt between processors (IPI): the time from a packet that one processor puts into the backlog of another, busy
processor until the handler there begins, which requests the poll.

An idle processor takes longer, and what it takes is the cost of waking it, of which the flight is a part.
"""

from __future__ import annotations

from collections.abc import Mapping, Sequence
from typing import Optional

from fintaqush_tools.fits import Cost, cost_of
from fintaqush_tools.recording import BACKLOG
from fintaqush_tools.timeline import BETWEEN, Arrival, Processor, Waiting

MOST = 100_000  # packets sent in softirqs that are remembered


class Flights:
    """Collects the flights of the interrupts that request the polls of backlogs."""

    def __init__(self) -> None:
        self.took = list[int]()
        # Packets sent by a softirq or a NAPI thread, which sends its interrupts only at its end (net_rps_action_and_irq_enable).
        self.later = set[Arrival]()

    def cut(self) -> None:
        """Forgets what was sent, at the beginning of a window."""
        self.later.clear()

    def send_later(self, sent: Arrival) -> None:
        """Handles a packet that a softirq or a NAPI thread sends."""
        if len(self.later) >= MOST:
            self.later.clear()
        self.later.add(sent)

    def begin_run(self, processor: Processor, cpu: int, waiting: Waiting, work: int, own: int) -> None:
        """Handles the first poll of a run on a processor, which took `work` packets, of which `own` are those of the examined devices."""
        if not processor.by or processor.by[0] not in BETWEEN or not own == work > 0 or not waiting.packets:
            return
        _, took, ended = processor.by
        entry, (name, _, since), (came, sent_on) = ended - took, processor.task, waiting.packets[0]
        is_busy = name and not name.startswith("swapper") and since <= came
        if is_busy and sent_on != cpu and waiting.poll_end <= came <= entry and (came, sent_on) not in self.later:
            self.took.append(entry - came)


def flight_cost(flights: Flights, devices: Sequence[str]) -> Optional[Cost]:
    """Returns the cost if only backlogs poll, or None if it isn't known."""
    return cost_of(flights.took, "packets from other processors to busy ones") if devices == [BACKLOG] else None


def as_timer(costs: Mapping[str, int]) -> dict[str, int]:
    """Returns the machine's options for the costs of a backlog. The flight is the time of the card's timer, which the first packet after a poll
    starts; an idle processor begins to wake only after it."""
    own = dict(costs)
    if flight := own.pop("flight", 0):
        own["rx-nsecs"] = flight
        if "wake" in own:
            own["wake"] = max(0, own["wake"] - flight)
    return own
