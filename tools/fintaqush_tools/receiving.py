"""What a recording shows of the NAPI instances of some devices: the packets sent to them, their polls and runs, the reads of a program,
and the other tasks on their processors.
"""

from __future__ import annotations

import bisect
import heapq
from array import array
from collections import Counter, defaultdict
from collections.abc import Collection, Iterable, Iterator, Mapping, Sequence
from operator import itemgetter
from typing import Any, Optional, Union

from fintaqush_tools.arriving import BY_PAIR, BY_POLL, BY_STACK, KINDS, PollBegins, packet_of
from fintaqush_tools.instances import ANY, EARLY, Place, Routes
from fintaqush_tools.recording import IS_NET_RX, POLLED, SENT, Event, Look, Reader, fields_by, is_by_thread
from fintaqush_tools.tasks import Tasks
from fintaqush_tools.timeline import BETWEEN, HANDLER, WATCHDOG

Marked = Union[int, tuple[str, int]]  # a processor, or a thread

ADDRESS = fields_by(r".*?\bskbaddr=(\S+)")
TIMER = fields_by(r"hrtimer=\S+ function=(\w+)")
MERGED = 0.9  # share of the packets that the stack receives at least, unless GRO merges some
FULL = 64  # packets, the weight of a poll
MOST_UNREAD = 64  # packets that may wait for the program when a recording begins
SLACK = 1.1  # by which the time between two interrupts may exceed the least one that a card keeps


def times() -> array[int]:
    return array("Q")


def agree(pairs: Iterable[tuple[float, float]]) -> bool:
    """Returns whether the first time of each pair is the earlier one. An event is written after what happened, so a few times may be late."""
    count = late = 0
    for time, later in pairs:
        count += 1
        if time > later:
            late += 1
            if time > later + EARLY:
                return False
    return late * 50 <= count


class Matched:
    """The packets that an instance delivered, in that order: the index of each, that of its poll, and how many packets of the poll came after it."""

    def __init__(self) -> None:
        self.packets, self.polls, self.after = times(), times(), times()

    def __iter__(self) -> Iterator[tuple[int, int, int]]:
        return zip(self.packets, self.polls, self.after)

    def __len__(self) -> int:
        return len(self.packets)

    def add(self, packets: array[int], poll: int, last: int) -> None:
        """Adds packets of a poll, in which `last` packets came after the last one of these."""
        self.packets.extend(packets)
        self.polls.extend([poll] * len(packets))
        self.after.extend(range(last + len(packets) - 1, last - 1, -1))

    def extend(self, others: Matched) -> None:
        self.packets.extend(others.packets)
        self.polls.extend(others.polls)
        self.after.extend(others.after)


Deliveries = dict[Place, Matched]  # of each instance


class Pairs(Sequence[tuple[int, int]]):
    """For each of many packets when it was sent, and when its wait ended, in ns."""

    def __init__(self) -> None:
        self.sent, self.ended = times(), times()

    def __getitem__(self, place: Any) -> Any:
        is_one = isinstance(place, int)
        return (self.sent[place], self.ended[place]) if is_one else [*zip(self.sent[place], self.ended[place])]

    def __iter__(self) -> Iterator[tuple[int, int]]:
        return zip(self.sent, self.ended)

    def __len__(self) -> int:
        return len(self.sent)


class Received:
    """A packet that a poll took: when it arrived by that poll, its device, its processor, the hash of its flow, whether a card's interrupt
    asked for the poll, and when the poll took it."""

    __slots__ = ("time", "device", "cpu", "flow", "by_card", "taken")

    def __init__(self, time: int, device: str, cpu: int, flow: int, by_card: bool = False, taken: int = 0) -> None:
        self.time, self.device, self.cpu, self.flow, self.by_card = time, device, cpu, flow, by_card
        self.taken = taken or time


class Columns:
    """The received packets, in arrays, because there may be millions; and the instance of each once its poll has ended."""

    def __init__(self) -> None:
        self.time, self.taken, self.flow, self.cpu = times(), times(), array("L"), array("H")
        self.device, self.place = list[str](), list[Place]()

    def __len__(self) -> int:
        return len(self.time)

    def add(self, packet: Received) -> int:
        """Adds a packet, and returns its number."""
        self.time.append(packet.time)
        self.taken.append(packet.taken)
        self.flow.append(packet.flow)
        self.cpu.append(packet.cpu)
        self.device.append(packet.device)
        self.place.append(ANY)
        return len(self.time) - 1


class Held:
    """Finds when packets may have come that waited in a card's ring until a timer of NAPI or of the card ended. They count as spread evenly over
    the time since the poll before took its last packet, because neither their arrival nor the card's interrupt is recorded.
    """

    before: dict[Place, tuple[int, int, int]]

    def __init__(self, options: Mapping[str, int]) -> None:
        """`options` are the machine's for the recorded settings."""
        flush = options.get("gro-flush-timeout", 0) * (not options.get("heedless", 0))
        self.deferrals = options.get("defer-hard-irqs", 0) if flush else 0
        self.delay, self.gap = options.get("rx-nsecs", 0), options.get("rx-gap", 0)
        self.doubt = max(flush if self.deferrals else 0, self.gap) // 2  # ns by which an arrival may be off
        # For each instance: when its last poll took a packet, or ended without one; how often its interrupt is still deferred, and when a poll last began that wasn't deferred.
        self.before = {}

    def spread(self, place: Place, packets: Sequence[Received], work: int, ended: int) -> bool:
        """Changes the arrivals of the packets that a poll took. Returns whether NAPI's timer asked for the poll."""
        since, left, asked = self.before.get(place, (0, 0, 0))
        begun = packets[0].time if packets else ended
        by_timer = left > 0 and not (
            packets and packets[0].by_card
        )  # some drivers unmask the card before the timer ends
        is_held = by_timer or begun - asked <= SLACK * self.gap
        looked = packets[-1].taken if packets else ended
        begin = since if is_held else max(since, begun - self.delay)  # the first packet starts a card's timer
        for number, packet in enumerate(packets if since else ()):
            packet.time = begin + int((begun - begin) * (number + is_held / 2) / len(packets))
        self.before[place] = looked, self.deferrals if work else max(0, left - 1), asked if by_timer else begun
        return by_timer


class Gro:
    """When packets left GRO, if it merges some: with the packet of their flow into which they were merged."""

    def __init__(self) -> None:
        self.within = dict[str, int]()  # by address: the numbers of packets that may be in it
        self.left, self.passed = times(), 0  # for each packet when it left, or 0; how many packets the stack received

    def enter(self, event: Event) -> None:
        """Handles a packet that GRO gets, or that is sent to a device with GRO."""
        (address,) = ADDRESS[event.said] or ("",)
        self.within[address] = len(self.left)
        self.left.append(0)

    def leave(self, event: Event, devices: Collection[str]) -> None:
        """Handles a packet that the stack gets, perhaps with others that were merged into it; those of other devices don't count."""
        device, address = event.parts(Routes.NAMED)
        self.passed += device in devices
        if (number := self.within.pop(address, None)) is not None:
            self.left[number] = event.time

    def settle(self, packets: Iterable[tuple[int, int]], dropped: int) -> None:
        """Ends the reading. `packets` has the time and the flow of each. If few were merged, nothing is kept."""
        if not 0 < self.passed < MERGED * (len(self.left) - dropped):
            self.left = times()
        last: dict[int, int] = {}
        for number, (time, flow) in enumerate(packets if self.left else ()):
            left = self.left[number] or last.get(flow, 0)
            last[flow] = self.left[number] = left if left >= time else 0

    def sort(self, order: Sequence[int]) -> None:
        """Reorders the packets: `order` has their numbers."""
        self.left = array("Q", (self.left[number] for number in order if self.left))


class Receiving(Reader):
    """The instances that poll `polled`, with packets of the devices `senders`; if no sender is known, packets that `receivers` receive.
    `routes` finds the instance of a sent packet; without it all polls count as those of one instance. `options` are the machine's for the
    recorded settings. Times are in ns.
    """

    def __init__(
        self,
        polled: set[str],
        senders: set[str],
        receivers: Iterable[str] = (),
        routes: Optional[Routes[int]] = None,
        options: Optional[Mapping[str, int]] = None,
    ) -> None:
        self.polled, self.senders, self.span, self.held = polled, senders, (0, 0), Held(options or {})
        self.routes = routes or Routes({}, {sender: "" for sender in senders})
        self.receivers, self.begins, self.gro = set(receivers), PollBegins(), Gro()
        self.received = {BY_POLL: Columns(), BY_STACK: Columns()}
        # When each packet was sent, and 1 unless a full ring dropped it.
        self.sent, self.has_come = times(), bytearray()
        # The processor, the device and the tasks that sent it; the instance that gets it, if that is known.
        self.sent_on, self.sent_by, self.sending = array("H"), list[str](), set[str]()
        self.sent_to = list[Optional[Place]]()
        self.flows = array("L")  # of a card's packets: the hash of the flow, or 0
        # By processor: how many packets a backlog received since its last poll, and those that a card's poll took.
        self.moved, self.taken = Counter[int](), defaultdict[int, list[tuple[Received, Columns, int]]](list)
        # Polls in which a backlog took packets of other devices too; packets that softirqs sent while a NAPI thread had the processor.
        self.shared = self.by_threads = 0
        # For each poll.
        self.ended, self.begun, self.work, self.on = times(), times(), array("L"), array("H")
        # When it had delivered its packets: its end, or before it when its completion started NAPI's timer.
        self.had_delivered, self.started = times(), dict[int, int]()
        self.is_thread, self.by_timer = bytearray(), bytearray()
        # Its instance, and the number of its softirq among the entries on its processor, or 0.
        self.places, self.run, self.packets_of = list[Place](), array("L"), Counter[Place]()
        self.interrupts = times()  # a card's that asked for polls
        # By processor: when its softirqs began; when interrupts that may ask for polls ended; its NAPI timers.
        self.entries: defaultdict[int, array[int]] = defaultdict(times)
        self.asked: defaultdict[int, array[int]] = defaultdict(times)
        self.timers = Counter[int]()
        # The name of the interrupt that each processor handles, and how many of each name asked for something.
        self.handler, self.handled = dict[int, str](), Counter[str]()
        # For each read its end, and the beginning of the next read by that task.
        self.read_ended, self.next_begun, self.reading = times(), times(), dict[int, int]()
        self.mark, self.tasks = dict[Marked, int](), Tasks()
        self.known: Optional[Deliveries] = None
        self.cuts = times()  # the beginnings of windows but the first

    def looks_at(self, name: str) -> list[Look]:
        """Returns what handles the events of this name."""
        looks: dict[str, Look] = {
            **dict.fromkeys(KINDS, self.add_received),
            BY_PAIR: self.add_packet,
            "net_dev_start_xmit": self.routes.start,
            "napi_poll": self.add_poll,
            "softirq_entry": self.mark_softirq,
            "softirq_exit": self.mark_softirq,
            "hrtimer_start": self.start_timer,
            "hrtimer_expire_entry": self.count_timer,
            "sched_switch": self.switch,
            **{f"{kind}_exit": self.end_handler for kind in BETWEEN},
            "irq_handler_entry": self.begin_interrupt,
            "irq_handler_exit": self.end_interrupt,
        }
        if name.startswith("sys_"):
            return [self.end_read if name.startswith("sys_exit_") else self.begin_read]
        own = [looks[name]] if name in looks else []
        return [*self.begins.looks_at(name), *own] if self.receivers else own

    def cut(self, time: int) -> None:
        """Forgets what was under way, at the beginning of a window."""
        self.mark.clear()
        self.moved.clear()
        self.taken.clear()
        self.handler.clear()
        self.started.clear()
        self.reading.clear()
        self.held.before.clear()
        self.gro.within.clear()
        self.routes.cut()
        self.begins.cut()
        self.cuts.append(time)

    def mark_softirq(self, event: Event) -> None:
        if not event.parts(IS_NET_RX):
            return
        self.mark[event.cpu] = event.time if event.name == "softirq_entry" else 0
        if self.mark[event.cpu]:
            self.entries[event.cpu].append(event.time)

    def begin_interrupt(self, event: Event) -> None:
        self.handler[event.cpu] = event.parts(HANDLER)[1] or ""

    def end_interrupt(self, event: Event) -> None:
        """Counts a card's interrupt, unless its handler left it to that of another card on the same line."""
        self.handled[self.handler.get(event.cpu, "")] += "ret=handled" in event.said
        self.end_handler(event)

    def end_handler(self, event: Event) -> None:
        self.asked[event.cpu].append(event.time)

    def start_timer(self, event: Event) -> None:
        if WATCHDOG in event.said:
            self.started[event.cpu] = event.time

    def count_timer(self, event: Event) -> None:
        found = TIMER[event.said]
        self.timers[event.cpu] += found is not None and found[0] == "napi_watchdog"

    def switch(self, event: Event) -> None:
        found = self.tasks.switch(event)
        if found.was_napi:
            self.mark["thread", found.last[1]] = 0  # some kernels record no switch from the idle task to it
        if found.is_napi:
            self.mark["thread", found.next[1]] = event.time

    def end_read(self, event: Event) -> None:
        self.reading[event.pid] = event.time

    def begin_read(self, event: Event) -> None:
        if event.pid in self.reading:
            self.read_ended.append(self.reading.pop(event.pid))
            self.next_begun.append(event.time)

    def add_packet(self, event: Event) -> None:
        sender, _, code = event.parts(SENT)
        if sender in self.senders:
            has_come = code in ("0", "0x0")
            place = self.routes.of_sent(sender, event, len(self.sent) if has_come else None)
            self.append_packet(event.time, has_come, event.cpu, sender, place)
            self.gro.enter(event)
            self.sending.add(event.task)
            self.by_threads += event.task.startswith("napi/")

    def append_packet(self, time: int, has_come: bool, cpu: int, by: str, place: Optional[Place]) -> None:
        self.sent.append(time)
        self.has_come.append(has_come)
        self.sent_on.append(cpu)
        self.sent_by.append(by)
        self.sent_to.append(place)

    def add_received(self, event: Event) -> None:
        if self.routes.moved and event.name == BY_STACK:
            place, number = self.routes.of_received(event)
            self.moved[event.cpu] += place is not None
            if number is not None:
                self.sent_to[number] = place
        elif event.name == BY_STACK:
            self.gro.leave(event, self.polled)
        if not self.receivers:
            return
        (name, _, flow), kind = packet_of(event), KINDS[event.name]
        if name in self.receivers and (kind == BY_POLL or not self.received[BY_POLL]):  # a driver without GRO
            by_card = self.begins.by_card.get(event.cpu, False)
            packet = Received(self.begins.of(event), name, event.cpu, flow, by_card, event.time)
            own = self.received[kind]
            self.taken[event.cpu].append((packet, own, own.add(packet)))
            if kind == BY_POLL:
                self.gro.enter(event)

    def add_poll(self, event: Event) -> None:
        napi, device, count, _ = event.parts(POLLED)
        work, by_thread, is_own = int(count), is_by_thread(event), device in self.polled
        key: Marked = ("thread", event.pid) if by_thread else event.cpu
        started, begun = self.started.pop(event.cpu, 0), self.mark.get(key, 0)
        if is_own and self.routes.moved:  # a backlog has packets of other devices too
            work = self.moved.pop(event.cpu, 0)
            is_own = work > 0
            self.shared += 0 < work < int(count)
        if is_own:
            place = (device, napi) if self.receivers else self.routes.of_poll(device, napi)
            taken = self.taken.pop(event.cpu, [])
            self.by_timer.append(self.held.spread(place, [packet for packet, *_ in taken], work, event.time))
            if asked := self.begins.interrupt.pop(event.cpu, 0):
                self.interrupts.append(asked)
            for packet, own, number in taken:
                own.time[number], own.place[number] = packet.time, place
            self.packets_of[device, napi] += work
            self.ended.append(event.time)
            self.had_delivered.append(started if 0 < begun <= started else event.time)
            self.begun.append(begun)
            self.work.append(work)
            self.on.append(event.cpu)
            self.is_thread.append(by_thread)
            self.places.append(place)
            self.run.append(len(self.entries[event.cpu]) if not by_thread and self.mark.get(event.cpu) else 0)
        if by_thread or self.mark.get(event.cpu):
            self.mark[key] = event.time

    # ---- at the end

    def settle(self) -> str:
        """Ends the reading, and leaves out the polls of instances that took no packet. If no sender's packets are known, uses the received ones
        as arrivals. Returns the kind of event, or nothing."""
        self.tasks.end(*self.span)
        self.leave_out({place for place in set(self.places) if place != ANY and not self.packets_of[place]})
        kind = next((kind for kind, packets in self.received.items() if packets), "")
        if not kind or self.senders:
            self.gro.settle(((time, 0) for time in self.sent), self.dropped)
            self.place_dropped()
            return ""
        own = self.received[kind]
        self.gro.settle(zip(own.taken, own.flow), self.dropped)
        order = sorted(range(len(own)), key=own.time.__getitem__)
        self.gro.sort(order)
        for number in order:
            self.append_packet(own.time[number], True, own.cpu[number], own.device[number], own.place[number])
            self.flows.append(own.flow[number])
        self.received.clear()
        return kind

    def share_in_polls(self, times: Sequence[int]) -> float:
        """Returns the share of these times at which a poll was under way."""
        polls = [bisect.bisect_left(self.ended, time) for time in times]
        within = sum(0 < self.begun[poll] <= time for time, poll in zip(times, polls) if poll < len(self.ended))
        return within / len(times)

    def replace_arrivals(self, times: Sequence[int], device: str) -> None:
        """Takes other arrivals at the one instance that polls."""
        count, self.flows = len(times), array("L")
        self.sent, self.has_come = array("Q", times), bytearray(b"\1" * count)
        self.sent_on, self.sent_by = array("H", [self.processor] * count), [device] * count
        self.sent_to = [self.places[0]] * count
        self.gro.left = self.gro.left[self.waiting_before(range(count), range(len(self.ended))) :]

    def leave_out(self, places: Collection[Place]) -> None:
        """Removes the polls of some instances, if there are others."""
        kept = [number for number, place in enumerate(self.places) if place not in places]
        if not kept or len(kept) == len(self.places):
            return
        for name in ("ended", "had_delivered", "begun", "work", "on", "run"):
            column = getattr(self, name)
            setattr(self, name, array(column.typecode, (column[number] for number in kept)))
        self.is_thread, self.by_timer = (
            bytearray(map(each.__getitem__, kept)) for each in (self.is_thread, self.by_timer)
        )
        self.places = [self.places[number] for number in kept]

    def place_dropped(self) -> None:
        """Assigns packets whose instance isn't known, because a backlog dropped them, to the instance of the packet before."""
        last = next((place for place in self.sent_to if place), ANY)
        for number, place in enumerate(self.sent_to):
            last = self.sent_to[number] = place or last

    # ---- derived values

    @property
    def processors(self) -> list[int]:
        """Returns the processors that polled, the one with most polls first."""
        return [processor for processor, _ in Counter(self.on).most_common()]

    @property
    def processor(self) -> int:
        """Returns the processor that made most of the polls; -1 if there are none."""
        return self.processors[0] if self.on else -1

    @property
    def is_by_thread(self) -> bool:
        """Returns whether NAPI threads made most of the polls."""
        return sum(self.is_thread) * 2 > len(self.is_thread)

    @property
    def dropped(self) -> int:
        """Returns how many packets found a full ring."""
        return len(self.has_come) - sum(self.has_come)

    @property
    def runs(self) -> int:
        """Returns how many softirqs polled."""
        return len(self.runs_on())

    def runs_on(self) -> set[tuple[int, int]]:
        """Returns the softirqs that polled, each by its processor and its number there."""
        return {(processor, number) for processor, number in zip(self.on, self.run) if number}

    def poll_percent(self) -> float:
        """Returns the share of the time from the first packet to the last poll that took one, of all processors that polled. Polls of which the
        beginning isn't known count as long as the others. Empty polls may come long before and after: some drivers raise an interrupt now and then.
        """
        known = [ended - begun for ended, begun in zip(self.ended, self.begun) if begun]
        took = [ended for ended, work in zip(self.ended, self.work) if work]
        if not self.sent or not known or not took:
            return 0
        whole = max(1, took[-1] - min(self.sent[0], took[0]))
        return 100 * sum(known) / len(known) * len(self.ended) / whole / len(set(self.on))

    @staticmethod
    def place_of(place: Optional[Place]) -> Place:
        return place or ANY

    def came_by_place(self) -> dict[Place, array[int]]:
        """Returns for each instance the indices of the packets that it got and that weren't dropped."""
        came: defaultdict[Place, array[int]] = defaultdict(times)
        for number, (place, has) in enumerate(zip(self.sent_to, self.has_come)):
            if has:
                came[place or ANY].append(number)
        return came

    def polls_by_place(self) -> dict[Place, array[int]]:
        """Returns for each instance the indices of its polls."""
        polls: defaultdict[Place, array[int]] = defaultdict(times)
        for number, place in enumerate(self.places):
            polls[place].append(number)
        return polls

    def waiting_before(self, came: Sequence[int], polls: Sequence[int]) -> int:
        """Returns how many packets of the first polls were sent before the recording began. A poll that isn't full takes all earlier packets."""
        given, sent = 0, array("Q", (self.sent[number] for number in came))
        least: Optional[int] = None
        for number in polls:
            given += self.work[number]
            if self.begun[number] and self.work[number] < FULL:
                more = given - bisect.bisect_right(sent, self.begun[number])
                least = more if least is None else min(least, more)
        return max(0, least or 0)

    def matched(self, came: array[int], polls: Sequence[int]) -> Matched:
        """Returns the packets that an instance delivered; nothing if packets and polls don't match."""
        at, found = -self.waiting_before(came, polls), Matched()
        for number in polls:
            end = at + self.work[number]
            if end > 0 and at < len(came):
                found.add(came[max(0, at) : end], number, max(0, end - len(came)))
            at = end
        pairs = ((self.sent[packet], self.ended[poll]) for packet, poll, _ in found)
        return found if at <= len(came) and agree(pairs) else Matched()

    def deliveries(self) -> Deliveries:
        """Returns the matched packets of each instance; those that are known already, because arrivals may have been
        delayed since then. Returns nothing if polls of several instances count as those of one."""
        if self.known is not None:
            return self.known
        if not self.ended or ANY in self.places and len(set(self.sent_by)) != 1:
            return {}
        came, polls = self.came_by_place(), self.polls_by_place()
        return {place: self.matched_in_windows(came.get(place, times()), polls[place]) for place in polls}

    def matched_in_windows(self, came: array[int], polls: array[int]) -> Matched:
        """Returns what `matched` does in each window; nothing if they don't match in one of them."""
        if not self.cuts:
            return self.matched(came, polls)
        found = Matched()
        of_came = self.windows([self.sent[each] for each in came])
        for packets, each in zip(of_came, self.windows([self.ended[each] for each in polls])):
            own = polls[each]
            some = self.matched(came[packets], own)
            if not some and any(self.work[number] for number in own):
                return Matched()
            found.extend(some)
        return found

    def windows(self, at: Sequence[float]) -> list[slice]:
        """Returns which of these sorted times are in each window."""
        edges = [bisect.bisect_left(at, cut) for cut in self.cuts]
        return [slice(begin, end) for begin, end in zip([0, *edges], [*edges, len(at)])]

    def in_order(self) -> Iterable[tuple[int, int, int]]:
        """Returns what each `Matched` has in the order of the polls; nothing if packets and polls of an instance don't match."""
        deliveries = self.deliveries()
        return heapq.merge(*deliveries.values(), key=itemgetter(1)) if all(deliveries.values()) else ()

    def delivered(self, cost: float = 0) -> Pairs:
        """Returns when each delivered packet was sent and delivered, in the order of the polls. A packet's delivery precedes the last one of its
        poll by the cost of the packets after it."""
        found = Pairs()
        # Whether they match doesn't depend on the cost, which may be too high for some polls.
        for packet, poll, after in self.in_order():
            found.sent.append(self.sent[packet])
            found.ended.append(self.delivery(packet, poll, after, cost))
        return found

    def delivery(self, packet: int, poll: int, after: int, cost: float) -> int:
        """Returns when a poll delivered a packet, or when it left GRO if GRO merged packets."""
        left = self.gro.left[packet] if self.gro.left else 0
        return max(self.sent[packet], left or round(self.had_delivered[poll] - cost * after))

    def used(self) -> Pairs:
        """Returns when each used packet was sent, and when the next read began; nothing if reads and packets don't match."""
        sent, found = array("Q", (self.sent[packet] for packet, _, _ in self.in_order())), Pairs()
        for packets, reads in zip(self.windows(sent), self.windows(self.read_ended)):
            own = sent[packets]
            first = self.first_read(own, self.read_ended[reads])
            if first is None:
                return Pairs()
            found.sent.extend(own)
            found.ended.extend(map(max, own, self.next_begun[reads][first:]))
            del found.sent[len(found.ended) :]  # the last ones aren't read
        return found

    @staticmethod
    def first_read(sent: Sequence[int], reads: Sequence[int]) -> int | None:
        """Returns which read in a window is that of the first packet; None if reads and packets don't match."""
        place = next((place for place, read in enumerate(reads) if sent and read >= sent[0]), len(reads))
        # The first reads may be of packets that were delivered before the recording began.
        for first in range(place, place + MOST_UNREAD):
            known = reads[first:]
            if abs(len(known) - len(sent)) > max(4, len(sent) // 50):
                break
            if agree(zip(sent, known)):
                return first
        return None

    def other_tasks(self, known: Collection[int], processor: int | None = None) -> dict[str, float]:
        """Returns the shares of a processor's time that other tasks had, by default on the processor with most polls: tasks that neither poll nor
        send nor are in `known` (process numbers), so that they can disturb."""
        return self.tasks.others(self.processor if processor is None else processor, known, self.sending)
