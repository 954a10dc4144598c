"""The arrivals of a capture that was made during a recording: for advise."""

from __future__ import annotations

import time
from array import array

from fintaqush_tools.arrivals import SECOND
from fintaqush_tools.commands import from_pcap
from fintaqush_tools.errors import Refusal
from fintaqush_tools.options import Words
from fintaqush_tools.receiving import FULL, Receiving, agree
from fintaqush_tools.recording import Head
from fintaqush_tools.texts import is_number, shown

CLOCK = (
    "their clock isn't the system's: let phc2sys set the card's clock by it, and capture with `tcpdump -j adapter`, or record and capture at the "
    "same time"
)


def times_in(capture: str, address: str) -> list[int]:
    """Returns the times of the packets to a link address and of broadcasts, in ns of CLOCK_REALTIME. Multicasts are left out, because a card
    accepts only those that its driver has enabled."""
    packets, _ = from_pcap.packets_in(Words(capture=capture, count=None, flows=False, way=from_pcap.IN), [])
    own = {kind for kind in packets.numbers if not kind.is_multicast and address in kind.receivers([address])}
    return [moment for moment, kind, _ in packets.in_order() if kind in own]


def date(moment: int) -> str:
    return time.strftime("%Y-%m-%dT%H:%M:%SZ", time.gmtime(moment // SECOND))


def arrivals_within(capture: str, head: Head, device: str) -> list[int]:
    """Returns when the packets of a capture arrived at a device during its recording, in ns of CLOCK_MONOTONIC."""
    address = head.get(f"device.{device}.address", "")
    real, monotonic = head.get("began.realtime", ""), head.get("began.monotonic", "")
    if not address or not is_number(real) or not is_number(monotonic):
        lacks = "it has neither the device's address nor both clocks, which a capture is aligned by"
        raise Refusal(f"{lacks}: record again")
    times = times_in(capture, address)
    if not times:
        raise Refusal(f"{shown(capture)}: no packet to {address}, the address of {shown(device)}, is in it")
    begin = int(real)
    end = begin + round(float(head.get("seconds") or 0) * SECOND)
    within = [moment - int(real) + int(monotonic) for moment in times if begin <= moment <= end]
    if not within:
        own = f"its packets to {shown(device)} are from {date(times[0])} to {date(times[-1])}"
        other = f"the recording from {date(begin)} to {date(end)}; if they were captured meanwhile, {CLOCK}"
        raise Refusal(f"{shown(capture)}: {own}, and {other}")
    return within


def check_matches(seen: Receiving, capture: str) -> None:
    """Fails unless the packets of a capture are those that polls took: one to one and in order, each before its poll ended and after the poll before
    began, which would have taken it otherwise. The last packets may come after the last poll began."""
    bounds, before = array("Q"), 0  # for each poll when the last one before it began that left no packet
    for begun, work in zip(seen.begun, seen.work):
        bounds.append(before)
        before = begun if begun and work < FULL else before
    pairs = [(bounds[poll], seen.sent[packet]) for each in seen.deliveries().values() for packet, poll, _ in each]
    if not pairs or not agree([*pairs, *((before, time) for time in seen.sent[len(pairs) :])]):
        raise Refusal(
            f"{shown(capture)}: its {len(seen.sent)} packets that came during the recording aren't the {sum(seen.work)} that polls took, in their order and at "
            f"their times: it lacks some, the card dropped some, or {CLOCK}"
        )
