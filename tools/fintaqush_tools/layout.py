"""How a recording's instances become devices of arrivals: napi_machine takes device d on processor (d - 1) mod M, so the k-th instance of the
processor of rank r is device r + 1 + M * k."""

from __future__ import annotations

import bisect
from array import array
from collections import Counter, defaultdict
from collections.abc import Mapping, Sequence

from fintaqush_tools.errors import Refusal
from fintaqush_tools.instances import Place
from fintaqush_tools.receiving import Receiving, times

MAJOR = 1000  # packets: the waits of a device with fewer don't count if another one has so many
MOST_PROCESSORS, MOST_INSTANCES = 64, 64  # of napi_machine, and of each processor
UNEVEN = 1.5  # times the mean from which a processor's share is uneven
EVENED = 1.2  # by how much another layout has to lower it
TABLE = 128  # entries of a card's table from hashes to queues
MOVED = 0.05  # share of an instance's packets on processors other than its main one


class Layout:
    """The devices of a recording: one for each instance on each processor that polled it."""

    def __init__(self, seen: Receiving) -> None:
        self.seen, self.own_packets = seen, 0
        self.known: dict[float, dict[int, array[int]]] = {}  # by the cost of a packet, what `waits` returns
        self.processors = sorted(set(seen.on))
        self.deliveries = seen.known = seen.deliveries()
        cpus = self.cpus_of_packets()
        self.on: defaultdict[Place, Counter[int]] = defaultdict(Counter)
        for place, cpu in zip(seen.sent_to, cpus):
            self.on[seen.place_of(place)][cpu] += 1
        self.numbers, counts = dict[tuple[Place, int], int](), Counter[int]()
        for place, on in self.on.items():
            for cpu in sorted(on):
                self.numbers[place, cpu] = self.processors.index(cpu) + 1 + len(self.processors) * counts[cpu]
                counts[cpu] += 1
        count, most = len(self.processors), max(counts.values(), default=0)
        if count > MOST_PROCESSORS or most > MOST_INSTANCES:
            has = f"napi_machine has at most {MOST_PROCESSORS} processors of {MOST_INSTANCES}"
            raise Refusal(f"{count} processors poll up to {most} instances each, and {has}")
        self.devices = [self.numbers[seen.place_of(place), cpu] for place, cpu in zip(seen.sent_to, cpus)]
        self.packets = Counter(self.devices)
        self.delay_arrivals(cpus)

    def delay_arrivals(self, cpus: Sequence[int]) -> None:
        """Lets a packet that its polling processor sent arrive when the next softirq begins there, or its poll if that
        is earlier: the sender has the processor until then. One that waits for NAPI's timer has arrived before."""
        seen = self.seen
        if not seen.senders or seen.is_by_thread:
            return
        began = array("q", [-1]) * len(seen.sent)  # when its poll began, or 0; -1 if it waited for the timer
        for matched in self.deliveries.values():
            for packet, poll, _ in matched:
                began[packet] = -1 if seen.by_timer[poll] else seen.begun[poll]
        for packet, (time, cpu) in enumerate(zip(seen.sent, cpus)):
            if seen.sent_on[packet] != cpu:
                continue
            self.own_packets += 1
            if began[packet] >= 0 or not seen.held.deferrals:
                entries = seen.entries[cpu]
                at = bisect.bisect_left(entries, time)
                entry = entries[at] if at < len(entries) else time
                seen.sent[packet] = max(time, min(entry, began[packet] if began[packet] > 0 else entry))

    def is_sent_here(self) -> bool:
        """Returns whether the processors that poll sent most of the packets."""
        return 2 * self.own_packets > len(self.devices)

    def cpus_of_packets(self) -> list[int]:
        """Returns the processor of each packet: of the poll that took it, or of the next poll of its instance."""
        seen = self.seen
        polls = seen.polls_by_place()
        ended = {place: array("Q", map(seen.ended.__getitem__, own)) for place, own in polls.items()}
        cpus = [-1] * len(seen.sent)
        for matched in self.deliveries.values():
            for packet, poll, _ in matched:
                cpus[packet] = seen.on[poll]
        for packet, cpu in enumerate(cpus):
            place = seen.place_of(seen.sent_to[packet])
            if cpu < 0 and place in polls:
                at = bisect.bisect_left(ended[place], seen.sent[packet])
                cpus[packet] = seen.on[polls[place][min(at, len(polls[place]) - 1)]]
        most = seen.processor
        return [most if cpu < 0 else cpu for cpu in cpus]

    def processor_of(self, device: int) -> int:
        return self.processors[(device - 1) % len(self.processors)]

    def major(self) -> set[int]:
        """Returns the devices whose waits count: those with many packets, or else the one with most on each processor."""
        many = {device for device, count in self.packets.items() if count >= MAJOR}
        most = {self.processor_of(device): device for device, _ in reversed(self.packets.most_common())}
        return many or set(most.values())

    def is_uneven(self, processors: int) -> bool:
        """Returns whether a processor has a much greater share than the mean of so many, and each instance stays on its
        processor."""
        return max(self.shares().values()) > UNEVEN / max(1, processors) and not self.moving()

    def moved(self, idle: Sequence[int]) -> dict[Place, int]:
        """Returns a processor for each instance, one that polls now or an idle one, so that the greatest share is as
        low as it gets. Returns nothing if shares are even, or if that isn't notably better."""
        counts = {place: sum(on.values()) for place, on in self.on.items()}
        known = [*self.processors, *(each for each in idle if each not in self.processors)][: len(counts)]
        load, chosen = dict.fromkeys(known, 0), {}
        for place, count in sorted(counts.items(), key=lambda pair: -pair[1]):
            chosen[place] = min(known, key=lambda cpu: (load[cpu], cpu not in self.on[place], cpu))
            load[chosen[place]] += count
        return chosen if self.is_uneven(len(known)) and self.is_better(load) else {}

    def is_better(self, load: Mapping[int, int]) -> bool:
        """Returns whether the greatest share of the packets is notably less if each processor has so many."""
        return max(self.shares().values()) * sum(load.values()) >= EVENED * max(load.values())

    def numbers_on(self, chosen: Mapping[Place, int]) -> dict[int, int]:
        """Returns for each device its number if each instance is polled by the chosen processor."""
        ranks = {cpu: rank for rank, cpu in enumerate(sorted(set(chosen.values())))}
        numbers, counts = {}, Counter[int]()
        for (place, _), device in self.numbers.items():
            cpu = chosen[place]
            numbers[device] = ranks[cpu] + 1 + len(ranks) * counts[cpu]
            counts[cpu] += 1
        return numbers

    def spread(self, queues: Sequence[Place]) -> list[int]:
        """Returns the device of each packet if the card's table gives each of these queues an equal part of the hashes.
        Returns nothing if shares are even, if a packet has no hash, or if that isn't notably better."""
        main = {place: device for device, _ in reversed(self.packets.most_common()) for place in self.places_of(device)}
        flows = self.seen.flows
        if not self.is_uneven(len(self.processors)) or len(flows) != len(self.devices) or not all(flows):
            return []
        devices = [main[queues[flow % TABLE % len(queues)]] for flow in flows]
        return devices if self.is_better(Counter(map(self.processor_of, devices))) else []

    def places_of(self, device: int) -> list[Place]:
        return [place for (place, _), number in self.numbers.items() if number == device]

    def waits(self, cost: float) -> dict[int, array[int]]:
        """Returns the sorted waits to delivery of each device; none if packets and polls don't match. `cost` is that of a packet in ns."""
        if cost not in self.known:
            seen = self.seen
            waits: defaultdict[int, array[int]] = defaultdict(times)
            for matched in self.deliveries.values() if all(self.deliveries.values()) else ():
                for packet, poll, after in matched:
                    waits[self.devices[packet]].append(seen.delivery(packet, poll, after, cost) - seen.sent[packet])
            self.known[cost] = {device: array("Q", sorted(each)) for device, each in waits.items()}
        return self.known[cost]

    def shares(self) -> dict[int, float]:
        """Returns the share of the packets that each processor has."""
        on = Counter(self.processor_of(device) for device in self.devices)
        return {cpu: on[cpu] / max(1, len(self.devices)) for cpu in self.processors}

    def moving(self) -> list[Place]:
        """Returns the instances that several processors polled."""
        return [place for place, on in self.on.items() if on.most_common(1)[0][1] < (1 - MOVED) * sum(on.values())]
