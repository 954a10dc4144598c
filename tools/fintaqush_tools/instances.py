"""The NAPI instances that a recording shows: which queue each serves, what it took, and on which processors it was polled."""

from __future__ import annotations

import re
from collections import Counter
from collections.abc import Iterable, Iterator, Mapping
from dataclasses import dataclass, field
from typing import Generic, Optional, TypeVar

from fintaqush_tools.errors import Refusal
from fintaqush_tools.recording import BACKLOG, Event, Head, fields_by
from fintaqush_tools.texts import is_number, shown

Sent = TypeVar("Sent")  # what is kept of a sent packet
Place = tuple[str, str]  # the device of an instance, and the address of its napi_struct
ANY: Place = ("", "")  # all instances, if a recording lists none
EARLY = 100_000  # ns by which what happens to a packet may precede its sender's event, which follows the sending

FIELDS = {"device", "napi", "napi_id", "queue", "kind", "polls", "packets", "on"}
ON = re.compile(r"(\d{1,6}):(\d{1,15}):(\d{1,15})")


@dataclass
class NapiInstance:
    """An instance. `napi` is the address of its napi_struct, as napi_poll prints it."""

    device: str
    napi: str
    polls: Counter[int] = field(default_factory=Counter)  # by processor
    packets: Counter[int] = field(default_factory=Counter)
    napi_id: Optional[int] = None
    queue: Optional[int] = None

    @property
    def place(self) -> Place:
        return self.device, self.napi

    @property
    def receives(self) -> bool:
        """Returns whether it received a packet. A driver with separate instances polls those of its transmit queues without packets."""
        return sum(self.packets.values()) > 0

    def text(self) -> str:
        """Returns its line in a recording's head, without the key: names and values."""
        on = ",".join(f"{each}:{count}:{self.packets[each]}" for each, count in self.polls.most_common())
        kind = "receive" if self.receives else "transmit"
        values: dict[str, object] = {
            "device": self.device,
            "napi": self.napi,
            "napi_id": self.napi_id,
            "queue": self.queue,
        }
        values |= {"kind": kind, "polls": sum(self.polls.values()), "packets": sum(self.packets.values()), "on": on}
        return " ".join(f"{name} {value}" for name, value in values.items() if value is not None)


def parsed(key: str, text: str) -> NapiInstance:
    """Parses the line of an instance."""
    words = text.split(" ")
    values = dict(zip(words[::2], words[1::2]))
    on = [ON.fullmatch(each) for each in values.get("on", "").split(",")]
    if len(words) % 2 or not {"device", "napi"} <= values.keys() <= FIELDS or not all(on):
        raise Refusal(f"its head says {shown(f'{key} {text}'[:80])!r}, an unknown format")
    each = NapiInstance(values["device"], values["napi"])
    for found in on:
        if found:
            each.polls[int(found[1])], each.packets[int(found[1])] = int(found[2]), int(found[3])
    for name in ("napi_id", "queue"):
        if is_number(values.get(name, "")):
            setattr(each, name, int(values[name]))
    return each


def instances_in(head: Head) -> list[NapiInstance]:
    """Returns the instances that a recording's head lists. A recording of another tool, or of an older fintaqush record, lists none."""
    return [parsed(key, value) for key, value in head.items() if key.startswith("instance.")]


class Instances:
    """Counts the polls of a recording by instance, and finds the queue of each."""

    def __init__(self, pairs: Iterable[tuple[str, str]] = ()) -> None:
        self.receivers = dict(pairs)  # for each sender the device at which its packets arrive
        self.of = dict[tuple[str, str], NapiInstance]()
        # For each packet that is being sent: the device at which it arrives, and its queue there.
        self.begun = dict[str, tuple[str, int]]()
        self.sent = dict[str, Counter[int]]()  # for each device how many packets each queue has got
        # For each instance: the packets that it took before its last poll that wasn't full, and what its device's queues had got then.
        self.last = dict[tuple[str, str], tuple[int, Mapping[int, int]]]()
        # For each instance and each queue of its device, the packets that they have in common.
        self.common = Counter[tuple[str, str, int]]()
        # By processor: the device, the napi_id and the queue of the last packet that a poll took.
        self.named = dict[int, tuple[str, int, int]]()

    def poll(self, cpu: int, napi: str, device: str, work: int, budget: int) -> None:
        """Counts a poll."""
        each = self.of.setdefault((napi, device), NapiInstance(device, napi))
        each.polls[cpu] += 1
        each.packets[cpu] += work
        named = self.named.pop(cpu, None)
        if named and named[0] == device:
            each.napi_id, each.queue = named[1], named[2] if named[2] >= 0 else each.queue
        if work < budget and device in self.sent:
            self.compare(each)

    def compare(self, each: NapiInstance) -> None:
        """Compares what an instance took between two polls that weren't full with what each queue got. Such a poll empties its queue, so of
        the instance's own queue nearly all packets are common; what a queue got beyond these counts against it."""
        key, sent = (each.napi, each.device), self.sent[each.device]
        taken = sum(each.packets.values())
        before, got = self.last.get(key, (0, {}))
        self.last[key] = taken, dict(sent)
        for queue, count in sent.items():
            more = count - got.get(queue, 0)
            self.common[each.napi, each.device, queue] += 2 * min(more, taken - before) - more

    def start(self, sender: str, queue: int, packet: str) -> None:
        """Counts a packet that a device begins to send from a queue, which the other end of the pair receives by its queue of the same number."""
        device = self.receivers.get(sender)
        if device:
            self.begun[packet] = device, queue
            self.sent.setdefault(device, Counter())[queue] += 1

    def finish(self, packet: str, has_come: bool) -> None:
        """Handles the end of sending a packet; one that found its ring full isn't received."""
        device, queue = self.begun.pop(packet, ("", 0))
        if device and not has_come:
            self.sent[device][queue] -= 1

    def receive(self, cpu: int, device: str, napi_id: int, mapping: int) -> None:
        """Handles a packet that the current poll on a processor took. `mapping` is one more than the number of its queue, or 0."""
        self.named[cpu] = device, napi_id, mapping - 1

    def found(self) -> Iterator[NapiInstance]:
        """Yields the instances, those of each device together, by their queues."""
        taken = {(each.device, each.queue) for each in self.of.values() if each.queue is not None}
        for (napi, device, queue), common in self.common.most_common():
            each = self.of[napi, device]
            is_most = 2 * common > sum(each.packets.values())
            if is_most and each.queue is None and (device, queue) not in taken:
                each.queue = queue
                taken.add((device, queue))
        order = sorted(self.of.values(), key=lambda it: (it.device, not it.receives, it.queue is None, it.queue or 0))
        yield from order


class Routes(Generic[Sent]):
    """Finds the instance that gets a packet which the sender of a pair sends: the only one of its device, or that of the packet's queue, or the
    backlog of the processor that receives the packet. `pairs` has the device at which each sender's packets arrive.
    """

    only: dict[str, Place]
    by_queue: dict[tuple[str, int], Place]
    queues: dict[str, int]
    backlogs: dict[int, Place]
    moved: set[str]
    unplaced: dict[str, Sent]  # by address: sent packets that aren't received yet
    early: dict[
        str, tuple[Place, int]
    ]  # by address: packets that were received, and when, whose sender's event isn't known yet

    STARTED = fields_by(r"dev=(\S+) queue_mapping=(\d{1,9}) skbaddr=(\S+)")
    NAMED = fields_by(r"dev=(\S+) skbaddr=(\S+)")

    def __init__(self, head: Head, pairs: Mapping[str, str]) -> None:
        self.receivers, self.are_known = dict(pairs), False
        self.only, self.by_queue, self.queues, self.moved = {}, {}, {}, set()
        self.unplaced, self.early = {}, {}
        own: dict[str, list[NapiInstance]] = {}
        for each in instances_in(head):
            self.are_known = True
            if each.receives:
                own.setdefault(each.device, []).append(each)
        self.backlogs = {cpu: each.place for each in own.get(BACKLOG, []) for cpu in each.polls}
        has_stack = "net/netif_receive_skb" in head.get("events", "").split()
        for device in self.receivers.values():
            some: list[NapiInstance] = own.get(device) or own.get(BACKLOG) or []
            if device not in own and has_stack:
                self.moved.add(device)
            elif len(some) == 1:
                self.only[device] = some[0].place
            self.by_queue |= {(device, each.queue): each.place for each in some if each.queue is not None}

    def cut(self) -> None:
        """Forgets the packets that were being sent."""
        self.queues.clear()
        self.unplaced.clear()
        self.early.clear()

    def start(self, event: Event) -> None:
        """Stores the queue of a packet that is being sent."""
        sender, queue, packet = event.parts(self.STARTED)
        if sender in self.receivers:
            self.queues[packet] = int(queue)

    def of_sent(self, sender: str, event: Event, sent: Sent | None) -> Place | None:
        """Returns the instance that gets a sent packet, or None if it isn't received yet, and only that will show the instance: `of_received` returns
        `sent` then. A packet that is dropped at once has none."""
        device = self.receivers[sender]
        if not self.are_known or device in self.only:
            return self.only.get(device, ANY)
        _, packet = event.parts(self.NAMED)
        place, (early, time) = self.by_queue.get((device, self.queues.pop(packet, -1))), self.early.pop(
            packet, (None, 0)
        )
        if place or early and event.time - time < EARLY:
            return place or early
        if sent is not None:
            self.unplaced[packet] = sent
        return None

    def of_received(self, event: Event) -> tuple[Place | None, Sent | None]:
        """Returns the backlog that a received packet was in, if a backlog gets its device's packets, and what `of_sent` was given for the packet, unless the
        sender's event comes only later."""
        device, packet = event.parts(self.NAMED)
        place = self.backlogs.get(event.cpu) if device in self.moved else None
        if place and packet not in self.unplaced:
            self.early[packet] = place, event.time
        return place, self.unplaced.pop(packet, None) if place else None

    def of_poll(self, device: str, napi: str) -> Place:
        return (device, napi) if self.are_known else ANY


def described(device: str, instances: Iterable[NapiInstance]) -> str:
    """Describes the receive instances of a device: their number, their processors, and each one's share of the packets."""
    own = [each for each in instances if each.device == device and each.receives]
    whole = sum(sum(each.packets.values()) for each in own)
    on = sorted({cpu for each in own for cpu in each.packets if each.packets[cpu]})
    parts = []
    for each in own:
        name = "one" if each.queue is None else f"queue {each.queue}"
        where = " and ".join(str(cpu) for cpu, count in each.packets.most_common() if count)
        parts.append(f"{name} on {where} ({100 * sum(each.packets.values()) / whole:.0f} %)")
    what = "instances" if len(own) != 1 else "instance"
    processors = f"processor {on[0]}" if len(on) == 1 else f"{len(on)} processors"
    more = f": {', '.join(parts)}" if len(own) > 1 or len(on) > 1 else ""
    named = "the processors' backlogs" if device == BACKLOG else shown(device)
    return f"{named}: {len(own)} receive {what} on {processors}{more}"
