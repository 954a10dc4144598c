"""Estimates the costs of cards and of NAPI's timer from a recording: taking a packet from the ring, a timer and the wake-up by one, waking the
program on the processor that polls, and an interrupt whose packet's arrival at the card is known.

CardTimes collects what the estimates need, event by event, next to a Timeline. Each function returns a cost, or None if too few times of its
kind were recorded; `known_costs` returns all of a recording, with a line about each.
"""

from __future__ import annotations

import bisect
from collections.abc import Iterable, Sequence
from dataclasses import replace
from typing import Optional

from fintaqush_tools import drivers
from fintaqush_tools.fits import FEWEST, Cost, cost_of
from fintaqush_tools.recording import POLLED, PROBE, SWITCH, Event, Head, Look, Reader, fields_by, number_in
from fintaqush_tools.timeline import RETURNED, TIMER, Timeline

GIVEN = fields_by(r"dev=(\S+) ")
TO_GRO = {"napi_gro_receive_entry", "napi_gro_frags_entry"}  # a driver passes a packet to GRO
QUIET = 200_000  # ns without a poll before an arrival, after which the card and the processor are idle
SLOW = 100_000  # ns: a wake-up that takes longer waits for the scheduler, if another task had the processor
NEAR = 0.1  # share by which the times that a card keeps may differ, and by more of which the waits for them do
SOON = 10_000  # ns from such an arrival to the softirq that its interrupt requests


class CardTimes(Reader):
    """Collects times of the polls of some devices, by default of all, and of the programs that read."""

    takes: list[int]
    woken_uses: list[int]
    taken: dict[int, int]
    sleeps: dict[int, int]
    woken: dict[int, int]

    def __init__(self, polled: Iterable[str] = ()) -> None:
        self.polled = set(polled)
        self.takes = []  # from one packet that a poll passes to GRO to the next one
        self.woken_uses = (
            []
        )  # from the end of a poll of one packet, for which a program slept, to the program's next read
        self.taken = {}  # by processor: when the poll that it makes last passed a packet to GRO
        self.sleeps = {}  # by task that sleeps: how many packets polls had delivered by then
        self.woken = {}  # by task that read the only packet since then: the end of that packet's poll
        self.delivered, self.poll_end, self.poll_on, self.was_lone, self.span = 0, 0, -1, False, (0, 0)

    def cut(self, time: int) -> None:
        """Forgets what was under way, at the beginning of a window."""
        for each in (self.taken, self.sleeps, self.woken):
            each.clear()

    def looks_at(self, name: str) -> list[Look]:
        """Returns what handles the events of this name."""
        if name.startswith("sys_"):
            return [self.end_read if name.startswith("sys_exit_") else self.begin_read]
        looks: dict[str, Look] = {
            **dict.fromkeys(TO_GRO, self.take),
            "netif_receive_skb": self.end_batch,
            "napi_poll": self.poll,
            "sched_switch": self.switch,
        }
        return [looks[name]] if name in looks else []

    def end_batch(self, event: Event) -> None:
        """GRO passes its batch to the stack."""
        self.taken.pop(event.cpu, None)

    def take(self, event: Event) -> None:
        found = GIVEN[event.said]
        if found and (not self.polled or found[0] in self.polled):
            if event.cpu in self.taken:
                self.takes.append(event.time - self.taken[event.cpu])
            self.taken[event.cpu] = event.time

    def poll(self, event: Event) -> None:
        self.taken.pop(event.cpu, None)
        *_, device, work, _ = event.parts(POLLED)
        if not self.polled or device in self.polled:
            self.delivered += int(work)
            self.poll_end, self.poll_on, self.was_lone = event.time, event.cpu, int(work) == 1

    def switch(self, event: Event) -> None:
        found = event.parts(SWITCH)
        if found.is_sleep:
            self.sleeps[found.last[1]] = self.delivered

    def end_read(self, event: Event) -> None:
        """A read returns, perhaps of the only packet since the program slept."""
        before = self.sleeps.pop(event.pid, None)
        if before is None or not RETURNED[event.said]:
            return
        if self.delivered - before == 1 and self.was_lone and event.cpu == self.poll_on:
            self.woken[event.pid] = self.poll_end

    def begin_read(self, event: Event) -> None:
        """The program reads again, after the use of the packet; a poll since then would have taken some of that time."""
        if self.woken.pop(event.pid, None) == self.poll_end:
            self.woken_uses.append(event.time - self.poll_end)


def told_half(cost: Cost) -> str:
    return f"half of them from {cost.middle[0]:.0f} to {cost.middle[1]:.0f}"


def take_cost(times: CardTimes) -> Optional[Cost]:
    """Returns the cost of taking a packet from the ring and passing it to GRO, without the stack's part."""
    return cost_of(times.takes, "pairs of packets")


def app_wake_cost(times: CardTimes, use: Optional[Cost]) -> Optional[Cost]:
    """Returns the cost of waking the program on the processor that polls; `use` is the cost of a packet's use there."""
    return cost_of(times.woken_uses, "single packets", use.value) if use else None


def wakes_by(times: Timeline, kind: str) -> tuple[list[int], int]:
    """Returns the times of the wake-ups by `packets` or by `timers`, and how many of them waited while another task had the
    processor. These count if a program reads, which is such a task, or if there are too few others."""
    idle, busy = times.wakes[kind], times.busy_wakes[kind]
    return (idle + busy, len(busy)) if times.reads.tasks or len(idle) < FEWEST else (idle, 0)


def is_by_scheduler(cost: Cost, busy: int) -> bool:
    """Returns whether most of these wake-ups waited for another task, and for so long that the scheduler decided it."""
    return 2 * busy > cost.count and cost.value > SLOW


def timer_costs(times: Timeline) -> dict[str, Cost]:
    """Returns `timer`, the cost of the handler of NAPI's timer, and `timer-wake`, that of waking an idle processor by it. Both grow with the
    time that the processor slept, so `timeouts_of` has to be printed with them."""
    took, busy = wakes_by(times, "timers")
    wake = cost_of(took, "timers on an idle processor")
    found = {
        "timer": cost_of(times.handlers.get(TIMER, []), "handlers of NAPI's timer"),
        "timer-wake": None if wake and is_by_scheduler(wake, busy) else wake,
    }
    return {name: cost for name, cost in found.items() if cost}


def timeouts_of(head: Head, devices: Iterable[str]) -> list[int]:
    """Returns the gro_flush_timeout of the recorded devices and of a probe, in ns, without 0."""
    found = {number_in(head, f"device.{device}.gro_flush_timeout") for device in devices}
    return sorted((found | {PROBE["gro_flush_timeout"] * ("probe" in head)}) - {0})


def early_cost(times: Timeline, head: Head) -> Optional[Cost]:
    """Returns the cost of an interrupt that comes before the completion of a poll, if the driver of a recorded device has such."""
    rows = (drivers.driver_in(head, device) for device in times.devices)
    return cost_of(times.early, "interrupts during polls") if any(row and row.early for row in rows) else None


def arrival_interrupt_cost(arrivals: Sequence[int], softirqs: Sequence[int]) -> Optional[Cost]:
    """Returns the time from a packet's arrival at the card to the softirq on an idle processor, which begins at one of `softirqs`: an interrupt,
    with what the handler's events don't show of it. Both are sorted, in ns."""
    took = []
    for before, entry in zip(softirqs, softirqs[1:]):
        came = arrivals[bisect.bisect_right(arrivals, before) : bisect.bisect_right(arrivals, entry)]
        if len(came) == 1 and came[0] - before > QUIET and entry - came[0] < SOON:
            took.append(entry - came[0])
    return cost_of(took, "single packets for an idle processor")


def least_gap(arrivals: Sequence[int], interrupts: Sequence[int], ended: Sequence[int]) -> int:
    """Returns the least time that a card keeps between interrupts, in ns; 0 if these don't show one. All are sorted: packets' arrivals at the
    card, the interrupts that asked for polls, and the ends of polls. Packets that come when no poll is under way wait for it, and wait the longer
    the sooner after the last interrupt they come."""
    gaps, waits = [], []
    for before, now in zip(interrupts, interrupts[1:]):
        poll = bisect.bisect_left(ended, now)
        first = bisect.bisect_right(arrivals, max(before, ended[poll - 1] if poll else 0))
        if first < len(arrivals) and arrivals[first] + SOON < now:
            gaps.append(now - before)
            waits.append(now - arrivals[first])
    gap, wait = cost_of(gaps, "interrupts"), cost_of(waits, "packets")
    if not gap or not wait or gap.middle[1] > (1 + NEAR) * gap.middle[0]:
        return 0
    return round(gap.value) if wait.middle[1] - wait.middle[0] > NEAR * gap.value else 0


def known_costs(
    times: CardTimes, timeline: Timeline, use: Optional[Cost], head: Head
) -> tuple[dict[str, Cost], list[str]]:
    """Returns the costs that the recording shows, by the names of the machine's options, and a line about each. `use` is the cost of a
    packet's use if the program reads on the processor that polls."""
    found = {"take": take_cost(times), "app-wake": app_wake_cost(times, use), "early": early_cost(timeline, head)}
    costs = {name: cost for name, cost in found.items() if cost}
    timeouts = timeouts_of(head, timeline.devices)
    at = f" at a gro_flush_timeout of {' and '.join(map(str, timeouts))} ns" if timeouts else ""
    for name, cost in timer_costs(timeline).items():
        costs[name] = replace(cost, source=f"{cost.source}{at}")
    told = [f"{name} {cost.interval()}: {cost.count} {cost.source}, {told_half(cost)}" for name, cost in costs.items()]
    return costs, told
