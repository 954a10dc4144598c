"""A file of fintaqush record, read for one of its devices: for advise."""

from __future__ import annotations

from fintaqush_tools import card_costs, drivers, predicting
from fintaqush_tools.advice import options_of, pinning
from fintaqush_tools.blame import MOVE, check_waits
from fintaqush_tools.captured import arrivals_within, check_matches
from fintaqush_tools.errors import Refusal
from fintaqush_tools.instances import ANY, NapiInstance, Routes, instances_in
from fintaqush_tools.layout import Layout
from fintaqush_tools.options import Words
from fintaqush_tools.receiving import SLACK, Receiving
from fintaqush_tools.recording import BACKLOG, check_lost, head_of, read
from fintaqush_tools.texts import shown
from fintaqush_tools.timeline import Timeline
from fintaqush_tools.tracing import STACK

BY_KERNEL = 0.9  # share of a capture's packets in polls, from which the kernel stamped them
DISTURBED = 0.02  # share of the processor's time that other tasks may take
OF_BOTH = "a veth pair's are what its other end sends (fintaqush record --sender), a card's what polls take"
CAPTURED = "or name a capture that was made meanwhile by --capture"
NO_ARRIVAL = f"no arrival is in it: {OF_BOTH} (napi_gro_receive_entry); {CAPTURED}"


class Recording:
    """A recording made by fintaqush record, for one device. Only its head is read until `read` is called."""

    layout: Layout
    by: str

    def __init__(self, path: str, words: Words) -> None:
        self.path, self.head = path, head_of(path)
        if not self.head:
            raise Refusal("not a file of fintaqush record, which includes the settings")
        self.device, self.sender = self.chosen(words.device)
        self.polled = BACKLOG if self.head["polled"] == BACKLOG else self.device
        self.capture, self.is_captured = words.capture, bool(words.capture) and not self.sender
        self.check_head()
        pairs = {self.sender: self.device} if self.sender else {}
        receivers, routes = set[str]() if pairs else {self.device}, Routes[int](self.head, pairs)
        self.seen = Receiving({self.polled}, set(pairs), receivers, routes, options_of(self.head, self.device, 0))

    def read(self, times: Timeline | None = None, goal: str = "", to_delivery: bool = False) -> Recording:
        """Reads the events, also for `times`, which costs are estimated from. Fails if the recording can't be predicted, and early if other tasks make the
        waits to delivery that the goal is about."""
        lost: list[str] = []
        are_several = len({cpu for each in self.own_instances() for cpu in each.polls}) > 1
        ends_with_delivery = to_delivery or are_several or not self.program_pids()
        # With deferral packets wait for the timer, whatever runs meanwhile.
        is_judged = goal in ("p50", "p99") and ends_with_delivery and not self.seen.held.deferrals

        def look() -> None:
            check_waits(self.seen, goal, self.program_pids(), self.remedy())

        read(self.path, lost, lambda _: [self.seen, *([times] if times else [])], look if is_judged else None)
        check_lost(lost)
        self.by = self.seen.settle()
        self.check()
        if self.is_captured:
            self.take_capture()
        self.layout = Layout(self.seen)
        return self

    def take_capture(self) -> None:
        """Takes the arrivals of the capture, unless the kernel stamped its packets when polls took them: the recording has these times too."""
        times = arrivals_within(self.capture, self.head, self.device)
        self.is_captured = not self.by or self.seen.share_in_polls(times) < BY_KERNEL
        if self.is_captured:
            self.seen.replace_arrivals(times, self.device)
            check_matches(self.seen, self.capture)
            self.take_gap()

    def take_gap(self) -> None:
        """Adds to the head the least time between interrupts that the card keeps, if it is longer than rx-usecs sets."""
        seen, gap = self.seen, options_of(self.head, self.device, 0).get("rx-gap", 0)
        least = card_costs.least_gap(seen.sent, seen.interrupts, seen.ended)
        if least > SLACK * gap:
            self.head[f"device.{self.device}.{drivers.LEAST}"] = str(least)

    def chosen(self, named: str | None) -> tuple[str, str]:
        """Returns the device to examine, and the other end of its veth pair."""
        devices, senders = self.head.get("device", "").split(), self.head.get("sender", "").split()
        polled = [name for name in self.head.get("polled", "").split() if name in devices] or devices
        if not devices:
            raise Refusal("its head has no device, which fintaqush record always writes")
        if not self.head.get("polled"):
            raise Refusal(f"it has no polls of {shown(', '.join(devices))}: record while packets arrive")
        if named and named not in devices:
            raise Refusal(f"--device {shown(named)}: it has {shown(', '.join(devices))}")
        if not named and len(polled) > 1:
            raise Refusal(f"it has several devices: name one with --device: {shown(', '.join(polled))}")
        device = named or polled[0]
        return device, dict(zip(devices, senders)).get(device, "")

    def own_instances(self) -> list[NapiInstance]:
        """Returns the instances that receive for the device, as the head lists them."""
        return [each for each in instances_in(self.head) if each.device == self.polled and each.receives]

    def check_head(self) -> None:
        """Fails if the head shows that the recording can't be predicted, before its events are read."""
        own = self.own_instances()
        if not own and instances_in(self.head):
            raise Refusal(f"no poll of {shown(self.polled)} took a packet: record while packets arrive")
        if self.is_captured and len(own) > 1:
            why = "a capture doesn't say which of them gets a packet"
            raise Refusal(f"{len(own)} instances of {shown(self.polled)} poll, and {why}")
        if own and not self.sender and not self.is_captured and f"received.{self.device}" not in self.head:
            raise Refusal(NO_ARRIVAL)
        if self.sender and len(own) > 1:
            self.check_instances(own)

    def check_instances(self, own: list[NapiInstance]) -> None:
        """Fails if it isn't recorded which of several instances gets a packet of a pair."""
        if self.polled == BACKLOG and STACK not in self.head.get("events", "").split():
            why = "which of them gets a packet isn't in this recording (netif_receive_skb): record again"
            raise Refusal(f"the backlogs of {len(own)} processors poll, and {why}")
        if self.polled != BACKLOG and any(each.queue is None for each in own):
            why = "which of them has which queue isn't known: record for longer, or more packets"
            raise Refusal(f"{len(own)} instances of {shown(self.polled)} poll, and {why}")

    def check(self) -> None:
        """Fails if the recording can't be predicted."""
        seen = self.seen
        if not seen.ended and "napi/napi_poll" in self.head.get("missing", "").split():
            raise Refusal("the kernel that recorded it has no event napi/napi_poll, so no poll is in it")
        if not seen.ended:
            raise Refusal(f"it has no polls of {shown(self.polled)}: record while packets arrive")
        receive = [place for place, packets in seen.packets_of.items() if packets]
        if ANY in seen.places and len(receive) > 1:
            raise Refusal(
                f"{len(receive)} instances of {shown(self.polled)} poll, and which of them gets a packet isn't in recordings of this age: record again"
            )

    def program_pids(self) -> set[int]:
        return {int(each) for each in self.head.get("program.pids", "").split()}

    def remedy(self) -> str:
        """Says what to do against other tasks that the packets wait for."""
        seen, history = self.seen, self.seen.tasks.history
        others = sorted(history.keys() - {seen.processor}, key=lambda each: len(history[each][0])) or [seen.processor]
        return pinning(self.head, self.device, seen.processor, others[0]) or MOVE

    def disturbing(self, processor: int | None = None) -> dict[str, float]:
        """Returns other tasks that ran on the processor, each with its share of the time, if together their share is notable."""
        others = self.seen.other_tasks(self.program_pids(), processor)
        return others if sum(others.values()) > DISTURBED else {}


def arrivals_in(recording: Recording, words: Words) -> tuple[str, str]:
    """Returns all arrivals of a recording, and a first part of them, with which settings are tried."""
    if not recording.seen.sent:
        raise Refusal(NO_ARRIVAL)
    text = predicting.arrivals_of(recording.seen.sent, recording.layout.devices)
    return text, predicting.first_of(text, words.packets)
