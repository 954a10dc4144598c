"""Decides which events of a recording are arrivals of packets: those that the other end of a veth pair sends; without a pair, those that polls
take from a card, or those that the network stack receives.
"""

from __future__ import annotations

from collections import Counter
from collections.abc import Iterable, Mapping

from fintaqush_tools.errors import Refusal
from fintaqush_tools.options import Words
from fintaqush_tools.recording import IS_NET_RX, SENT, SWITCH, Event, Head, Look, fields_by
from fintaqush_tools.texts import shown
from fintaqush_tools.timeline import HANDLERS, SOON

BY_PAIR, BY_POLL, BY_STACK = "net_dev_xmit", "napi_gro_receive_entry", "netif_receive_skb"
KINDS = {BY_PAIR: BY_PAIR, BY_POLL: BY_POLL, "napi_gro_frags_entry": BY_POLL, BY_STACK: BY_STACK}  # of each event
TAKEN = fields_by(
    r"dev=(\S+) .*\bhash=0x([0-9a-f]{1,8}) .*\blen=(\d{1,10}) .*\bmac_header_valid=([01]) mac_header=(-?\d{1,5})\b"
)
RECEIVED = fields_by(r"dev=(\S+) .*\blen=(\d{1,10})")
LINK_HEADER = 14  # bytes of the Ethernet header, which is removed before a packet is received
MOST_PACKET = 65535  # bytes
WHEN = "a packet's time is when the poll that took it began, or the interrupt that asked for this poll"
NOT_KNOWN = "its arrival and a longer wait in the ring aren't recorded, nor is a packet that the card dropped"
MERGED = "GRO may have merged several packets to one, and what the card dropped isn't recorded"
HOW = {BY_POLL: f"{WHEN} ({BY_POLL}): {NOT_KNOWN}", BY_STACK: f"{WHEN} ({BY_STACK}): {MERGED}"}


def size_in(event: Event, size: int) -> int:
    """Returns the size of a packet, checked against the range that arrivals may have."""
    if not 1 <= size <= MOST_PACKET:
        raise Refusal(f"line {event.line}: a packet of {size} bytes, and a trace's have 1 to {MOST_PACKET}")
    return size


def packet_of(event: Event) -> tuple[str, int, int]:
    """Returns a packet's device, size and flow. The flow is the hash from the card or the kernel, 0 if there is none."""
    if event.name == BY_PAIR:
        device, size, _ = event.parts(SENT)
        return device, size_in(event, int(size)), 0
    if event.name == BY_STACK:
        device, size = event.parts(RECEIVED)
        return device, size_in(event, min(MOST_PACKET, int(size) + LINK_HEADER)), 0
    device, flow, size, is_valid, header = event.parts(TAKEN)
    taken_off = -int(header) if is_valid == "1" and -256 <= int(header) < 0 else LINK_HEADER
    return device, size_in(event, min(MOST_PACKET, int(size) + taken_off)), int(flow, 16)


class PollBegins:
    """For each processor, when the current poll began, or the interrupt that requested it. A packet that the poll takes arrived before
    that, or during the poll."""

    def __init__(self) -> None:
        # By processor; `interrupt` is the card's that asked for the next poll.
        self.handlers, self.began, self.interrupt = (dict[int, int]() for _ in range(3))
        self.ended, self.by_card = dict[int, tuple[int, int, bool]](), dict[int, bool]()

    def looks_at(self, name: str) -> list[Look]:
        """Returns what handles the events of this name."""
        kind, _, end = name.rpartition("_")
        looks: dict[str, Look] = {
            "softirq_entry": self.softirq,
            "softirq_exit": self.softirq,
            "napi_poll": self.poll,
            "sched_switch": self.switch,
        }
        if kind in HANDLERS:
            return [self.begin_handler if end == "entry" else self.end_handler]
        return [looks[name]] if name in looks else []

    def cut(self) -> None:
        """Forgets what was under way."""
        for each in (self.handlers, self.began, self.interrupt):
            each.clear()
        self.ended.clear()
        self.by_card.clear()

    def softirq(self, event: Event) -> None:
        if event.parts(IS_NET_RX):
            self.begin(event) if event.name == "softirq_entry" else self.began.pop(event.cpu, None)

    def poll(self, event: Event) -> None:
        self.began[event.cpu] = event.time

    def switch(self, event: Event) -> None:
        if event.parts(SWITCH).is_napi:
            self.begin(event)
        else:
            self.began.pop(event.cpu, None)

    def begin_handler(self, event: Event) -> None:
        self.handlers[event.cpu] = event.time

    def end_handler(self, event: Event) -> None:
        if event.cpu in self.handlers:
            self.ended[event.cpu] = self.handlers.pop(event.cpu), event.time, event.name == "irq_handler_exit"

    def begin(self, event: Event) -> None:
        asked, ended, by_card = self.ended.pop(event.cpu, (0, 0, False))
        is_soon = ended > 0 and event.time - ended <= SOON
        self.began[event.cpu], self.by_card[event.cpu] = asked if is_soon else event.time, is_soon and by_card
        self.interrupt[event.cpu] = asked if is_soon and by_card else 0

    def of(self, event: Event) -> int:
        return self.began.get(event.cpu, event.time)


Counts = Mapping[str, Mapping[str, int]]  # packets of each device, by the kind of event


def chosen_kind(names: Counts, pairs: Iterable[tuple[str, str]], words: Words, head: Head) -> str:
    """Returns the kind of event that counts as an arrival. `names` has the devices of each kind, `pairs` the ends of possible pairs."""
    if words.pair:
        return BY_PAIR
    wanted = set(words.device or head.get("device", "").split())
    if not words.device and any(name in ends for ends in pairs for name in names.get(BY_PAIR, ())):
        return BY_PAIR
    for kind in (BY_POLL, BY_STACK):
        if names.get(kind) and (not wanted or wanted.intersection(names[kind])):
            return kind
    if words.device:
        known = sorted(set(names.get(BY_POLL, ())) | set(names.get(BY_STACK, ())))
        named, others = (shown(", ".join(names)) for names in (words.device, known))
        raise Refusal(f"no packet of {named} is received in it; those that receive are: {others or 'none'}")
    return BY_PAIR


def receivers(counts: Mapping[str, int], words: Words, head: Head) -> list[str]:
    """Returns the receiving devices in order: the named ones, or all, sorted by their number of packets."""
    named = words.device or [name for name in head.get("device", "").split() if counts[name]]
    return list(named) or sorted(counts, key=lambda name: (-counts[name], name))


def by_device(counted: Mapping[tuple[str, int], int]) -> Counter[str]:
    """Returns the number of packets per device, from counts per kind (device, flow)."""
    of: Counter[str] = Counter()
    for (device, _), count in counted.items():
        of[device] += count
    return of


def why_no_packet(head: Head, has_events: bool) -> str:
    """Returns the reason why a recording has no arrivals."""
    if "net/net_dev_xmit" in head.get("missing", "").split():
        return "the kernel that recorded it has no event net/net_dev_xmit, so there is no packet in it"
    if not has_events:
        return "there is no event in it, so there is no packet in it"
    return (
        "there is no packet in it: record the event net/net_dev_xmit while the other end of a veth pair sends, or of a card "
        "net/napi_gro_receive_entry or net/netif_receive_skb; a capture has the time of each packet (fintaqush from-pcap)"
    )
