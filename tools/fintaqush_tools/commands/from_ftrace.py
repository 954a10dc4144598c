"""Converts a recording of a running Linux's packets and polls to a trace; with --arrivals to arrivals for napi_machine, with times in
ns, any number of packets and no runs.

The recording is a file of fintaqush record, or the text of ftrace, of `trace-cmd report` or of `perf script`, with the events net_dev_xmit,
napi_poll and softirq_entry; for arrivals the first of them is enough. Arrivals include the packets that a full ring or backlog dropped
(rc=1); a recording with lost events is rejected. A packet that was sent by the processor which polls it arrives when the next softirq begins
there, because the sender has the processor until then. Without a veth pair, as for a network card, packets are those that polls take
(napi_gro_receive_entry), or else those that the stack receives (netif_receive_skb). --flows adds the hash of each packet's flow, which
only napi_gro_receive_entry has.
Three files are written:

  NAME.csv    the trace, or the arrivals
    NAME.work   for a trace: for each row that polls, in order, what the kernel did there: `polls P work W`
    NAME.notes  what the recording lacks or the trace can't represent

Existing ones are replaced only with --force. If nothing polls, no trace is written, and the tool prints why. docs/TOOLS.md explains how to
record on one's own machine, and tests/compare_recording.py compares the trace's replay with NAME.work.
"""

from __future__ import annotations

import bisect
import math
import re
from collections import Counter, defaultdict, deque
from collections.abc import Iterable, Iterator, Mapping, MutableSequence, Sequence
from dataclasses import dataclass
from typing import Optional, Union

from fintaqush_tools import arrivals
from fintaqush_tools.arrivals import SECOND, Packets, arrivals_text, number_of
from fintaqush_tools.arriving import BY_PAIR, BY_POLL, HOW, KINDS, PollBegins
from fintaqush_tools.arriving import by_device, chosen_kind, packet_of, receivers, size_in, why_no_packet
from fintaqush_tools.errors import About, Refusal
from fintaqush_tools.files import check_input, check_target
from fintaqush_tools.options import Parser, Words, words_of
from fintaqush_tools.recording import (
    BACKLOG,
    IS_NET_RX,
    POLLED,
    SENT,
    Event,
    Events,
    Head,
    Look,
    Reader,
    check_lost,
    is_by_thread,
    read,
)
from fintaqush_tools.texts import lines_of, shown
from fintaqush_tools.trace import HEADERS, MOST_DEVICES, MOST_ROWS, TICKS, add_files, check_flows, write_files

Counts = defaultdict[str, Counter[str]]  # packets of each device, by the kind of event


@dataclass
class Polling:
    """Polls that become one row: those of one softirq, or those of a thread up to the first one that wasn't full."""

    first: int  # the indices of its beginning and of its last poll among the events
    last: int
    thread: str  # the device that the thread polls, or empty
    polls: list[tuple[str, int]]  # the device and the work of each poll
    within: int = 0  # the packets that arrived during it


def names_of(events: Sequence[Event]) -> set[str]:
    """Returns the names of all devices that send or are polled."""
    senders = {event.parts(SENT)[0] for event in events if event.name == "net_dev_xmit"}
    return senders | {event.parts(POLLED)[1] for event in events if event.name == "napi_poll"}


def received_in(events: Sequence[Event]) -> Counts:
    """Returns the number of packets of each device, by the kind of event."""
    counts: Counts = defaultdict(Counter)
    for event in events:
        if event.name in KINDS:
            counts[KINDS[event.name]][packet_of(event)[0] if event.name != BY_PAIR else event.parts(SENT)[0]] += 1
    return counts


def ends_of(pair: str, names: Iterable[str]) -> list[tuple[str, str]]:
    """Returns the two ends of a pair A:B. If each has a `*` for a number, returns the ends of all recorded pairs that match."""
    ends = pair.split(":")
    if len(ends) != 2 or not all(ends) or [end.count("*") for end in ends] not in ([0, 0], [1, 1]):
        raise Refusal(f"--pair {pair}: not of the form A:B or va*:vb*")
    if "*" not in pair:
        return [(ends[0], ends[1])]
    shapes = [re.compile(re.escape(end).replace(r"\*", r"(\d+)") + "$") for end in ends]
    found = {match[1] for shape in shapes for match in map(shape.match, names) if match}
    return [(ends[0].replace("*", number), ends[1].replace("*", number)) for number in sorted(found, key=int)]


def number_devices(pairs: Sequence[str], names: set[str], most: int = MOST_DEVICES) -> tuple[list[str], dict[str, int]]:
    """Returns the names of the devices in order, and for each sender the number of the device that receives its packets.

    The second ends come first: with six pairs, device N is the second end of pair N and device N + 6 the first one.
    """
    ends = [both for pair in pairs for both in ends_of(pair, names)]
    devices = [second for _, second in ends] + [first for first, _ in ends]
    if not names.intersection(devices):
        raise Refusal(f"no device of --pair is recorded; these are: {', '.join(sorted(names)) or 'none'}")
    if len(set(devices)) < len(devices):
        raise Refusal("a device is in two pairs")
    check_number(devices, most)
    peers = {**dict(ends), **{second: first for first, second in ends}}
    return devices, {sender: devices.index(peer) + 1 for sender, peer in peers.items()}


def check_number(devices: Sequence[str], most: int) -> None:
    if len(devices) > most:
        have = "a trace has" if most == MOST_DEVICES else "arrivals have"
        raise Refusal(f"{len(devices)} devices, and {have} at most {most}: name fewer pairs, or some by --device")


Source = tuple[str, list[str], dict[str, int]]


def source_of(counts: Counts, names: set[str], words: Words, head: Head, most: int) -> Source:
    """Returns the kind of event that counts as an arrival, the names of the devices in order, and for each name in such an event the number
    of the receiving device. `counts` has the packets of each kind and device, `names` other devices that may belong to a pair.
    """
    seen, pairs = names | set(counts[BY_PAIR]), words.pair or words.pairs
    kind = chosen_kind(counts, [ends for each in pairs for ends in ends_of(each, seen)], words, head)
    if kind == BY_PAIR:
        return (kind, *number_devices(pairs, seen, most))
    devices = receivers(counts[kind], words, head)
    check_number(devices, most)
    return kind, devices, {name: place for place, name in enumerate(devices, 1)}


def group_polls(events: Sequence[Event]) -> tuple[list[Polling], Counter[str]]:
    """Groups polls into rows. Also returns, for each device, the polls that belong to no row because no softirq had begun on their
    processor."""
    rows: list[Polling] = []
    strays: Counter[str] = Counter()
    began: dict[int, Optional[int]] = {}
    latest: dict[int, int] = {}  # by processor: its last event
    since: dict[
        str, int
    ] = {}  # by thread that has a processor: the last event there before the thread's first one, or its last poll
    under_way: dict[Union[int, str], Polling] = {}  # by processor, or by thread
    for place, event in enumerate(events):
        if event.task.startswith("napi/"):
            since.setdefault(event.task, latest.get(event.cpu, place))
        latest[event.cpu] = place
        if event.name == "sched_switch":
            since.pop(event.task, None)
        elif event.name in ("softirq_entry", "softirq_exit") and event.parts(IS_NET_RX):
            under_way.pop(event.cpu, None)
            began[event.cpu] = place if event.name == "softirq_entry" else None
        elif event.name == "napi_poll":
            _, device, work, budget = event.parts(POLLED)
            by_thread = is_by_thread(event)
            who: Union[int, str] = event.task if by_thread else event.cpu
            first = since[event.task] if by_thread else began.get(event.cpu)
            if first is None:
                strays[device] += 1
                continue
            if who not in under_way:
                under_way[who] = Polling(first, place, device if by_thread else "", [])
                rows.append(under_way[who])
            under_way[who].last = place
            under_way[who].polls.append((device, int(work)))
            since[event.task] = place
            if by_thread and int(work) < int(budget):
                del under_way[who]
    return rows, strays


def look_at_threads(pollings: Sequence[Polling], devices: Sequence[str]) -> set[str]:
    """Returns the devices that threads poll. Fails if a device is polled both ways, because a trace has one mode for all its rows."""
    by_thread = {polling.thread for polling in pollings if polling.thread}
    by_softirq = {device for polling in pollings if not polling.thread for device, _ in polling.polls}
    both = ", ".join(sorted(by_thread & by_softirq & set(devices)))
    if both:
        why = "polled by a thread and in softirqs, and the recording doesn't say when that changed"
        raise Refusal(f"{both}: {why}: record without the change")
    return by_thread


SENT_CODES = ("0", "0x0")
# A packet found a full ring or backlog: veth returns NET_XMIT_DROP. A packet that finds it busy (0x10) is sent again later.
DROPPED_CODES = ("1", "0x1")


def has_come(event: Event) -> bool:
    """Returns whether a packet was sent."""
    return event.parts(SENT)[2] in SENT_CODES


class Trace:
    """The rows of a trace, the kernel's work for those that poll, and the notes."""

    def __init__(self, events: Sequence[Event], words: Words, head: Head) -> None:
        self.tick, span = SECOND // TICKS[words.unit], words.rows
        counts = received_in(events)
        if not counts:
            raise Refusal(why_no_packet(head, bool(events)))
        self.kind, self.devices, self.arrives_at = source_of(counts, names_of(events), words, head, MOST_DEVICES)
        self.pollings, strays = group_polls(events)
        self.rows, self.work, self.notes = list[str](), list[str](), list[str]()
        self.start = events[0].time
        self.first: float = span[0] if span else 0
        self.last: float = span[1] if span else math.inf
        # The number of the next row among all rows; the number of rows outside the span.
        self.number, self.left_out = 0, 0
        # for each device, the packets that wait before the first row of the span, each with its row number; and how many there are
        self.waiting, self.in_front = defaultdict[int, deque[tuple[int, str]]](deque), 0
        self.unsent, self.elsewhere, self.arrived = Counter[str](), Counter[str](), 0
        # The senders to these ends; their packets by end.
        self.unpolled, self.by_backlog = self.ends_without_polls(), Counter[str]()
        # For each device: packets that wait; packets that were polled before their event.
        self.known, self.owed = Counter[int](), Counter[int]()
        self.open_devices(words.capacity, look_at_threads(self.pollings, self.devices))
        if self.kind == BY_PAIR:
            self.count_within(events)
        else:
            self.notes.append("a packet stands before the row of the poll that took it, so no ring is ever full here")
        self.add_events(events)
        if not self.arrived:
            raise Refusal(f"there is no packet of {shown(', '.join(self.devices))} in it, so nothing can be replayed")
        self.sum_up(events, strays)
        if len(self.rows) > MOST_ROWS:
            less = f"record for a shorter time, or take some by --rows, as --rows 1:{MOST_ROWS}"
            raise Refusal(f"{len(self.rows)} rows, and a trace has at most {MOST_ROWS}: {less}")
        if not self.work:
            raise Refusal(self.why_none(events))

    def add(self, time: int, device: int, event: str, value: int) -> bool:
        """Adds a row if it is in the span; rows that open devices are always added."""
        self.number += 1
        row = f"{(time - self.start) // self.tick},{device},{event},{value}"
        is_wanted = event in ("open", "threaded") or self.first <= self.number <= self.last
        if self.number >= self.first:
            self.put_in_front()
        if is_wanted:
            self.rows.append(row)
        else:
            self.left_out += 1
            if event == "rx" and self.number < self.first:
                self.waiting[device].append((self.number, row))
        return is_wanted

    def put_in_front(self) -> None:
        """Puts the packets that wait in the rings before the span in front of it, in order."""
        packets = sorted(packet for packets in self.waiting.values() for packet in packets)
        self.rows += [row for _, row in packets]
        self.in_front += len(packets)
        self.waiting.clear()

    def why_none(self, events: Sequence[Event]) -> str:
        """Returns the reason why no row polls."""
        polled = Counter(event.parts(POLLED)[1] for event in events if event.name == "napi_poll")
        own = [name for name in polled if name in self.devices]
        if self.left_out and self.pollings and own:
            return "nothing polls in these rows: take others by --rows"
        if own:
            where = "nothing polls in it: the polls of its devices stand in no softirq"
            return f"{where}; record the event irq/softirq_entry too, and begin before the traffic does"
        if set(polled) == {BACKLOG}:
            how = "record again with GRO at the receiving end and without TSO at the sending end (ethtool -K END tso off gro on)"
            return (
                f"only a processor's backlog polls in it, which a trace doesn't have: {how}; --arrivals needs neither"
            )
        if polled:
            return f"nothing polls in it but devices that are in no pair: {', '.join(sorted(map(shown, polled)))}; see --pair"
        return (
            "nothing polls in it. A veth polls only where packets are handed to NAPI: `ethtool -K END tso off gro on` at both "
            "ends (or an XDP program at the one that receives), and the event napi/napi_poll has to be recorded"
        )

    def open_devices(self, capacity: int, by_thread: set[str]) -> None:
        for device, name in enumerate(self.devices, 1):
            self.add(self.start, device, "open", capacity)
            if name in by_thread:
                self.add(self.start, device, "threaded", 1)
            self.notes.append(f"device {device} is {name}" + (", polled by a thread" if name in by_thread else ""))

    def ends_without_polls(self) -> set[str]:
        """Returns the senders whose packets NAPI of the other end never polls in this recording, although it polls other ends: the backlog of a
        processor has them, as where an end has neither GRO nor an XDP program. Their packets would wait forever in the trace.
        """
        polled = {device for polling in self.pollings for device, _ in polling.polls}
        if self.kind != BY_PAIR or not polled.intersection(self.devices):
            return set()
        return {sender for sender, number in self.arrives_at.items() if self.devices[number - 1] not in polled}

    def is_arrival(self, event: Event) -> bool:
        """Returns whether the event is a packet that arrives at a device of the trace."""
        if event.name != BY_PAIR or not has_come(event):
            return False
        sender = event.parts(SENT)[0]
        return sender in self.arrives_at and sender not in self.unpolled

    def count_within(self, events: Sequence[Event]) -> None:
        arrivals = [place for place, event in enumerate(events) if self.is_arrival(event)]
        for polling in self.pollings:
            polling.within = bisect.bisect(arrivals, polling.last) - bisect.bisect(arrivals, polling.first)

    def add_events(self, events: Sequence[Event]) -> None:
        """Adds all events: a packet at the time when it was sent; polls that form one row at the time of the last of them."""
        pollings = {polling.last: polling for polling in self.pollings}
        for place, event in enumerate(events):
            if KINDS.get(event.name) == self.kind:
                self.add_packet(event)
            elif place in pollings:
                self.add_polling(event.time, pollings[place])

    def add_packet(self, event: Event) -> None:
        name, size, _ = packet_of(event)
        if name not in self.arrives_at:
            self.elsewhere[name] += 1
        elif self.kind == BY_PAIR and not has_come(event):
            self.unsent[f"{name}, rc={event.parts(SENT)[2]}"] += 1
        elif name in self.unpolled:
            self.by_backlog[self.devices[self.arrives_at[name] - 1]] += 1
        else:
            device = self.arrives_at[name]
            self.arrived += 1
            if self.owed[device]:
                self.owed[device] -= 1
            else:
                self.known[device] += 1
            self.add(event.time, device, "rx", size)

    def add_polling(self, time: int, polling: Polling) -> None:
        own = [work for device, work in polling.polls if device in self.devices]
        if not own:
            self.elsewhere.update(device for device, _ in polling.polls)
            return
        device, event = (self.devices.index(polling.thread) + 1, "kthread") if polling.thread else (0, "softirq")
        ahead = self.take_known(polling)
        if self.add(time, device, event, 0):
            self.work.append(f"polls {len(own)} work {sum(own)}")
            self.note_row(polling, len(own), ahead)
        else:
            self.take_waiting(polling)

    def take_known(self, polling: Polling) -> int:
        """Returns how many packets these polls took that aren't recorded yet: the event of a packet follows its sending, and the first ones may be
        from before the recording."""
        ahead = 0
        for name, work in polling.polls if self.kind == BY_PAIR else ():
            if name in self.devices:
                device = self.devices.index(name) + 1
                early = max(0, work - self.known[device])
                self.known[device] -= work - early
                self.owed[device] += early
                ahead += early
        return ahead

    def take_waiting(self, polling: Polling) -> None:
        """Removes the packets that polls before the span took."""
        for name, work in polling.polls:
            if name in self.devices:
                packets = self.waiting[self.devices.index(name) + 1]
                for _ in range(min(work, len(packets))):
                    packets.popleft()

    def note_row(self, polling: Polling, own: int, ahead: int) -> None:
        """Notes what is unknown about the row that was just added; tests/compare_recording.py reads the numbers."""
        row = f"row {len(self.rows)}"
        if polling.within:
            what = "which poll had them isn't recorded, and later rows carry the difference on"
            came = f"packets that arrived while it was under way and stand before it: {polling.within}"
            self.notes.append(f"{row}: {came}; {what}")
        if ahead:
            what = "packets that it polled and that were sent after it or before the recording, by their events"
            self.notes.append(f"{row}: {what}: {ahead}")
        if own < len(polling.polls):
            packets, other = (
                sum(work for name, work in polling.polls if name not in self.devices),
                len(polling.polls) - own,
            )
            self.notes.append(f"{row}: polls in it of devices that are in no pair: {other}, of {packets} packets")
        if polling.thread and own > 1:
            self.notes.append(f"{row}: the thread may have yielded between its {own} polls; it isn't recorded")

    def sum_up(self, events: Sequence[Event], strays: Counter[str]) -> None:
        """Adds the notes on the whole recording."""
        lists = {events[polling.last].cpu for polling in self.pollings if not polling.thread}
        if self.left_out:
            front = f"{self.in_front} waited when the first of these rows came, and stand in front"
            where = f"{self.first}:{self.last}"
            self.notes.append(f"rows that aren't in {where}: {self.left_out}; of their packets {front}")
        if len(lists) > 1:
            alone = "each with a poll list of its own: the trace has one list"
            self.notes.append(f"runs on {len(lists)} processors, {alone}")
        self.notes += told_of("packets that weren't sent", self.unsent)
        backlog = "packets to an end that no NAPI poll in it has, so its processor's backlog"
        self.notes += told_of(backlog, self.by_backlog)
        self.notes += told_of("packets and polls of a device that is in no pair", self.elsewhere)
        self.notes += told_of("polls whose softirq began before the recording, or in none", strays)


def told_of(what: str, counter: Mapping[str, int], have: str = "no") -> list[str]:
    """Returns notes on events that belong to no row, or have `a` row."""
    return [f"{have} row: {what}: {name}, {count}" for name, count in sorted(counter.items())]


class SameProcessor:
    """Packets that the processor sent which polls them. It has the sender until its next softirq begins, so they arrive then."""

    waiting: defaultdict[tuple[int, str], list[int]]
    entered: dict[int, int]

    def __init__(self, words: Words, times: MutableSequence[int]) -> None:
        """`times` are when the packets of pairs arrive."""
        self.words, self.peers, self.times = words, dict[str, str](), times
        self.waiting = defaultdict(list)  # by processor and receiver, the indices of packets that it hasn't polled yet
        self.entered = {}  # for each processor, when its softirq began

    def peer_of(self, sender: str) -> str:
        """Returns the other end of a sender's pair, or an empty text."""
        if sender not in self.peers:
            ends = [both for pair in self.words.pair or self.words.pairs for both in ends_of(pair, [sender])]
            others = {**dict(ends), **{second: first for first, second in ends}}
            self.peers[sender] = others.get(sender, "")
        return self.peers[sender]

    def send(self, event: Event, sender: str, place: int) -> None:
        """Stores the index of a packet that was just sent."""
        self.waiting[event.cpu, self.peer_of(sender)].append(place)

    def looks_at(self, name: str) -> list[Look]:
        """Returns what handles the events of this name."""
        looks: dict[str, Look] = {"softirq_entry": self.softirq, "softirq_exit": self.softirq, "napi_poll": self.poll}
        return [looks[name]] if name in looks else []

    def softirq(self, event: Event) -> None:
        if event.parts(IS_NET_RX):
            self.entered.pop(event.cpu, None)
            if event.name == "softirq_entry":
                self.entered[event.cpu] = event.time

    def poll(self, event: Event) -> None:
        """Moves the packets that waited for a poll when its softirq began."""
        _, device, work, _ = event.parts(POLLED)
        entered = 0 if is_by_thread(event) else self.entered.get(event.cpu, 0)
        for cpu, peer in [key for key in self.waiting if int(work) and key[1] == device]:
            for place in self.waiting.pop((cpu, peer)):
                if cpu == event.cpu:
                    self.times[place] = max(self.times[place], entered)


class Arriving(Reader):
    """The packets of a recording, by the kind of event."""

    unsent: Counter[str]
    dropped: Counter[str]

    def __init__(self, words: Words) -> None:
        self.words, self.span = words, (0, 0)
        self.packets = {kind: Packets() for kind in dict.fromkeys(KINDS.values())}
        self.unsent, self.dropped, self.begins = Counter(), Counter(), PollBegins()
        self.same = SameProcessor(words, self.packets[BY_PAIR].times)

    def looks_at(self, name: str) -> list[Look]:
        """Returns what handles the events of this name."""
        kind = KINDS.get(name)
        if kind:
            return [self.add_sent if kind == BY_PAIR else self.add_received]
        return [*self.begins.looks_at(name), *self.same.looks_at(name)]

    def add_received(self, event: Event) -> None:
        """Adds a packet that a poll took, or that the stack received."""
        name, size, flow = packet_of(event)
        self.packets[KINDS[event.name]].add(self.begins.of(event), (name, flow if self.words.flows else 0), size)

    def add_sent(self, event: Event) -> None:
        """Adds a packet of a pair, which arrives at the other end or is dropped there."""
        name, size, code = event.parts(SENT)
        if code in SENT_CODES or code in DROPPED_CODES:
            self.packets[BY_PAIR].add(event.time, (name, 0), size_in(event, int(size)))
            self.same.send(event, name, len(self.packets[BY_PAIR].times) - 1)
            self.dropped[name] += code in DROPPED_CODES
        else:
            self.unsent[f"{name}, rc={code}"] += 1

    def text(self, head: Head) -> tuple[Iterator[str], list[str], str]:
        """Returns the lines of the arrivals, the notes, and their counts."""
        words, held = self.words, {kind: packets for kind, packets in self.packets.items() if packets.times}
        counts = {kind: by_device(packets.counted()) for kind, packets in held.items()}
        if not counts:
            raise Refusal(why_no_packet(head, self.span[1] > 0))
        kind, devices, arrives_at = source_of(defaultdict(Counter, counts), set(), words, head, arrivals.MOST_DEVICES)
        packets, of = self.packets[kind], counts.get(kind, Counter())
        if words.flows:
            self.check_flows(kind, packets)
        notes = self.notes_on(kind, devices, arrives_at, of)
        own = (packet for packet in packets.in_order() if packet[1][0] in arrives_at)
        rows = ((time, arrives_at[name], size, flow)[: 3 + words.flows] for time, (name, flow), size in own)
        count = number_of(sum(of[name] for name in arrives_at), words.rows)
        if not count:
            raise Refusal(f"no packet arrives at {shown(', '.join(devices))} in it")
        return arrivals_text(rows, words.rows, words.flows), notes, f"{len(devices)} devices, {count} rows"

    @staticmethod
    def check_flows(kind: str, packets: Packets) -> None:
        if not any(flow for _, flow in packets.numbers):
            why = "only the event napi_gro_receive_entry has the hash of a packet's flow"
            if kind == BY_POLL:
                why = "no packet has a hash in it, as the card or its driver gives none"
            raise Refusal(f"--flows: {why}; of a capture fintaqush from-pcap computes it")

    def notes_on(self, kind: str, devices: Sequence[str], arrives_at: Mapping[str, int], of: Counter[str]) -> list[str]:
        at = {place: name for name, place in arrives_at.items()}
        notes = [f"device {place} is {name}, {of[at[place]]} packets" for place, name in enumerate(devices, 1)]
        if kind == BY_PAIR:
            drops = {name: count for name, count in self.dropped.items() if count and name in arrives_at}
            notes += told_of("packets that a full ring or backlog dropped", drops, "a")
            notes += told_of("packets that weren't sent", self.unsent)
        else:
            notes.append(HOW[kind])
            counts = self.packets[kind].counted().items()
            without = sum(count for (name, flow), count in counts if name in arrives_at and not flow)
            notes += [f"packets without a hash, which are of flow 0: {without}"] * bool(self.words.flows and without)
        where = "in no pair" if kind == BY_PAIR else "not asked for"
        others = {name: count for name, count in of.items() if name not in arrives_at}
        return notes + told_of(f"packets of a device that is {where}", others)


def read_by(words: Words, reader: Reader, lost: list[str]) -> Head:
    """Reads the recording, and returns its head. `words` gets the pairs in it."""

    def readers(head: Head) -> Sequence[Reader]:
        words.pairs = head.get("pair", "" if head else "va*:vb*").split()
        return [reader]

    return read(words.recording, lost, readers)


def read_trace(words: Words, lost: list[str]) -> Trace:
    """Returns the trace of the recording."""
    events = Events()
    head = read_by(words, events, lost)
    if not events:
        raise Refusal("there is no event in it")
    return Trace(events, words, head)


def text_of(trace: Trace) -> str:
    return lines_of([HEADERS[1], *trace.rows])


def trace_of(recording: str) -> bytes:
    """Returns the trace of a recording, as it is made without options."""
    with About(recording):
        return text_of(read_trace(words_of(__doc__, add_options, [recording, "-"]), [])).encode()


def convert(words: Words) -> None:
    """Reads the recording and writes the files."""
    for end in ("work", "notes", "csv"):
        check_target(f"{words.name}.{end}", words.force)
    lost: list[str] = []
    if words.arrivals:
        arriving = Arriving(words)
        rows, notes, told = arriving.text(read_by(words, arriving, lost))
        check_lost(lost)
        write_files(words, told, notes, csv=rows)
        return
    trace = read_trace(words, lost)
    told = f"{len(trace.devices)} devices, {len(trace.rows)} rows, of which {len(trace.work)} poll"
    write_files(words, told, lost + trace.notes, work=lines_of(trace.work), csv=text_of(trace))


def add_options(parser: Parser) -> None:
    parser.add_argument("recording", help="the text, also as .gz; - for standard input")
    what = "two ends of a veth pair; * stands for a number in each; may be given many times"
    parser.many("--pair", "A:B", f"{what} (where none is given: that of fintaqush record, or va*:vb*)")
    what = "a device that receives and isn't in a pair; may be given many times (those of fintaqush record, or all)"
    parser.many("--device", "NAME", what)
    add_files(parser, "NAME.csv, NAME.work and NAME.notes")
    parser.flag("--flows", "with --arrivals: add a column with the hash of each packet's flow, for several queues")


def main(given: Sequence[str]) -> None:
    words = words_of(__doc__, add_options, given)
    check_flows(words)
    if words.device and words.pair:
        words.error("--device names a device without a pair, so it doesn't go with --pair")
    check_input(words.recording)
    with About(words.recording):
        convert(words)
