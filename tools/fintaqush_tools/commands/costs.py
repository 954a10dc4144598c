"""Estimates the cost of an interrupt, a poll, a packet, a wake-up and a packet's use from a recording, and how good the estimates are.

    fintaqush record 5 --device vb1 --netns receiver --program server --out mine.rec
    fintaqush costs mine.rec
    fintaqush what-if mine.csv --budget 16,64,300 $(fintaqush costs mine.rec --words)

The recording is a file of fintaqush record; or the text of ftrace, of `trace-cmd report` or of `perf script`, with the events softirq_entry,
softirq_exit and napi_poll, and optionally the other events of fintaqush record. Each cost is printed with its 95 % confidence interval.

A poll's time begins with the softirq or thread, or with the end of the poll before it, and excludes interrupts. The tool fits a straight line
to poll time against packets per poll: the intercept is the cost of a poll, the slope the cost of a packet. Polls far off the line are left
out and counted. One line is fitted for all processors; a line says if the polls of one differ from it. If nearly all polls took equally many
packets, only their sum is known: poll and packet get the half each, with an interval from 0 to the sum. If the line explains none of the
variation, the tool fails and prints what to record. Instances that took no packet, which are those of transmit queues, are left out, and so
are polls in which a processor's backlog took packets of other devices, as replies.

--device names the devices whose polls, pairs and interrupts count. Without it, and in recordings of other tools, a processor's backlog counts
only if no device polls. Interrupts of other cards, as a disk's, don't count if fintaqush record knows the device's own interrupts.

The other costs are medians. interrupt: of the handlers that polls follow, including interrupts between processors, or of --irq. timer: of
those of NAPI's timer, which take longer. wake, timer-wake: on an idle processor, from a packet or from an expired timer to the first poll,
without the handler. use: from one read of the program to the next, if the second packet was there at the first read. app-wake: from the end
of a poll that delivered one packet to its read by a program that slept on another processor, without the read itself; on the same processor
to its next read, without the use. take, of a card: from one packet that a poll passes to GRO to the next. early, of virtio_net: of the card's
handlers that interrupt a poll. poll-wake, arm: what polls that wake the program on their processor, and polls whose completion starts NAPI's
timer, take more than others of as many packets; poll and packet are without it. flight, of a backlog (RPS): from a packet that another
processor sends to the handler of its interrupt, on a processor that runs a task. It is printed as the option --rx-nsecs, and --wake without
it. The costs of NAPI's timer grow with the time that the processor slept, so the recorded gro_flush_timeout is printed with them.
"""

from __future__ import annotations

from collections import defaultdict
from collections.abc import Iterator, Mapping, Sequence
from statistics import median
from typing import Any, Optional

from fintaqush_tools import drivers, stolen
from fintaqush_tools.card_costs import CardTimes, is_by_scheduler, known_costs, timer_costs, told_half, wakes_by
from fintaqush_tools.errors import Refusal
from fintaqush_tools.files import check_input
from fintaqush_tools.fits import FEWEST, Cost, cost_line, cost_of, halves_of, shift_of
from fintaqush_tools.flights import Flights, as_timer, flight_cost
from fintaqush_tools.machine import COSTS
from fintaqush_tools.options import Parser, Words, words_of
from fintaqush_tools.poll_kinds import separated
from fintaqush_tools.progress import say, tell
from fintaqush_tools.instances import Place, Routes
from fintaqush_tools.recording import BACKLOG, PARTS, POLLED, Event, Head, Look, check_lost, read
from fintaqush_tools.results import add_json, is_printed, write_json
from fintaqush_tools.texts import as_rows, shown
from fintaqush_tools.thresholds import add_fail_if, status_of
from fintaqush_tools.timeline import TIMER, Arrival, Polls, Processor, Timeline, Waiting

Told = tuple[dict[str, Cost], list[str]]  # costs by their names, and lines about them

RARE = 0.01  # of the handlers
UNEVEN = 0.1  # share of the polls' time on a processor by which they may differ from the line
MATCHED = 0.95  # least share of the packets that must be found at both ends
WEAK = (
    "the packet's cost can't be distinguished from 0: record more varied traffic, on a processor that does nothing else"
)
ORDER = (
    "interrupt",
    "timer",
    "poll",
    "packet",
    "take",
    "wake",
    "timer-wake",
    "use",
    "app-wake",
    "early",
    "poll-wake",
    "arm",
    "flight",
)


class Times(Timeline):
    """The times of a recording, with those of cards and of NAPI's timer."""

    def __init__(
        self, routes: Routes[Arrival], polled: Sequence[str], irq: Optional[str], interrupts: Sequence[str]
    ) -> None:
        super().__init__(routes, polled, irq, interrupts)
        self.card, self.flights = CardTimes(polled), Flights()
        self.of_kinds: dict[str, Cost] = {}  # what polls of some kinds take more than others
        self.mixed = defaultdict[Place, set[int]](set)  # for each backlog its polls that took packets of other devices

    def poll(self, event: Event) -> None:
        """Handles a poll. Those of a backlog may take packets of other devices too, whose times differ."""
        if not self.routes.moved:
            return super().poll(event)
        napi, device, work, _ = event.parts(POLLED)
        own, count = self.waiting[self.routes.of_poll(device, napi)].received, len(self.of[device, napi].polls)
        super().poll(event)
        if own != int(work) and len(self.of[device, napi].polls) > count:
            self.mixed[device, napi].add(count)

    def packet(self, event: Event) -> None:
        """Handles a sent packet, which arrives at a device."""
        sender = self.on[event.cpu]
        if sender.entered or sender.thread:
            self.flights.send_later((event.time, event.cpu))
        super().packet(event)

    def run_begins(self, processor: Processor, began: int, work: int, polls: Polls, waiting: Waiting, cpu: int) -> None:
        """Handles the first poll of a softirq or a thread."""
        own = waiting.received if self.routes.moved else work
        self.flights.begin_run(processor, cpu, waiting, work, own)
        super().run_begins(processor, began, work, polls, waiting, cpu)

    def settle(self) -> Timeline:
        """Ends the reading. Polls with packets of other devices don't count if there are enough others."""
        self.of_others = sum(map(len, self.mixed.values()))
        if sum(len(polls.polls) for polls in self.of.values()) - self.of_others < FEWEST:
            self.of_others = 0
        for place, mixed in self.mixed.items() if self.of_others else ():
            polls = self.of[place]
            polls.polls = [poll for number, poll in enumerate(polls.polls) if number not in mixed]
            polls.on = [cpu for number, cpu in enumerate(polls.on) if number not in mixed]
            polls.kinds = [kind for number, kind in enumerate(polls.kinds) if number not in mixed]
        super().settle()
        # The machine has no cost for waking a program on another processor: there it stays a part of the polls.
        kinds = [(woke and not is_apart(self), arms) for woke, arms in self.kinds]
        self.of_kinds, self.polls = separated(self.polls, kinds)
        return self

    def cut(self, time: int) -> None:
        """Forgets what was under way, at the beginning of a window."""
        super().cut(time)
        self.card.cut(time)
        self.flights.cut()

    def looks_at(self, name: str) -> list[Look]:
        """Returns what handles the events of this name."""
        return [*super().looks_at(name), *self.card.looks_at(name)]


def polls_of(times: Timeline, head: Head) -> Told:
    """Returns the costs of polls and packets, with the fitted line."""
    if len(times.polls) < FEWEST:
        of = f" of {', '.join(sorted(times.polled))}" if times.polled else ""
        lacking = (
            "its kernel has no such events"
            if {"irq/softirq_entry", "napi/napi_poll"} & set(head.get("missing", "").split())
            else "record irq/softirq_entry and napi/napi_poll, and for NAPI's threads sched/sched_switch, while packets come"
        )
        raise Refusal(
            f"{len(times.polls)} polls{of} in complete softirqs or threads, but {FEWEST} are needed: {lacking}"
        )
    if (size := times.size()) is not None:
        return alike(times, size)
    by = "threads" if 2 * times.by_threads > len(times.polls) else "softirqs"
    line = cost_line(times.polls, 1000 if times.is_coarse else 1, by)
    told = (
        f"poll {line.poll.interval()}, packet {line.packet.interval()}: {line.polls} polls of {min(line.kept)[0]} to {max(line.kept)[0]} "
        f"packets by {by}, of which {line.polls - len(line.kept)} lie far off and are left out; the line explains "
        f"{100 * (line.poll.explained or 0):.0f} % of the others' variation, and half of them are within {100 * line.off:.0f} % of it"
    )
    weak = [WEAK] * (line.packet.low <= 0)
    return {"poll": line.poll, "packet": line.packet}, [told, *uneven(times, line.poll, line.packet), *weak]


def polls_on(times: Timeline) -> Iterator[tuple[int, list[tuple[int, int]]]]:
    """Yields each processor with the polls that it made, if there are enough."""
    for cpu, count in sorted(times.where.items()):
        if count >= FEWEST:
            yield cpu, [poll for poll, place in zip(times.polls, times.places) if place == cpu]


def uneven(times: Timeline, poll: Cost, packet: Cost) -> Iterator[str]:
    """Yields a line for each processor whose polls take longer or shorter than those of all processors by more than chance."""
    middle, _ = shift_of(times.polls, poll.value, packet.value)
    for cpu, own in polls_on(times):
        shift, chance = shift_of(own, poll.value + middle, packet.value)
        if abs(shift) > chance and abs(shift) > UNEVEN * median(took for _, took in own):
            yield f"on processor {cpu} {len(own)} polls take {abs(shift):.0f} ns {'more' if shift > 0 else 'less'} than polls of as many packets on all"


def ratios_of(times: Timeline, poll: float, packet: float) -> dict[int, float]:
    """Returns for each processor how many times as long as these costs its polls take, in the median."""
    ratios = (
        (cpu, [took / (poll + work * packet) for work, took in own if poll + work * packet])
        for cpu, own in polls_on(times)
    )
    return {cpu: round(median(own), 2) for cpu, own in ratios if own}


def alike(times: Timeline, count: int) -> Told:
    """Returns the costs if nearly all polls took the same number of packets."""
    if not count:
        raise Refusal(f"none of {len(times.polls)} polls took a packet: record while packets come")
    polls = [took for work, took in times.polls if work == count]
    whole, poll, packet = halves_of(polls, count, "polls of one size")
    each = "each" if len(polls) == len(times.polls) else "nearly each"
    return {"poll": poll, "packet": packet}, [
        f"poll {poll.interval()}, packet {packet.interval()}: {each} of {len(times.polls)} polls took {count} packet{'s' * (count > 1)}, so only what they "
        f"cost together is known, {whole.interval()}; half of that counts for the poll. Traffic of which some polls take several packets separates "
        "them: bursts, a higher load, or while recording napi_defer_hard_irqs 2 with a gro_flush_timeout of 100000, or ethtool -C rx-usecs 100",
        *uneven(times, poll, packet),
    ]


def is_sent_here(times: Timeline) -> bool:
    """Returns whether most packets are sent on the processor that polls."""
    processor = times.processor()
    return processor is not None and 2 * times.sent_on[processor] > times.came


def interrupts_of(times: Timeline) -> Told:
    """Returns the cost of an interrupt, without those of NAPI's timer. A sender on the processor that polls needs none."""
    count = sum(map(len, times.handlers.values()))
    by_timers = len(times.handlers.get(TIMER, ())) if is_sent_here(times) else 0
    if times.has_handlers and not times.irq and times.without > count - by_timers:
        cost = cost_of([0] * times.without, "no handler")
        return {"interrupt": cost} if cost else {}, [
            f"interrupt 0 ns: {times.without} runs follow no handler, and {count} one"
        ]
    # The others came by chance.
    kinds = {name: took for name, took in times.handlers.items() if name != TIMER and len(took) > RARE * count}
    names = ", ".join(
        f"{shown(each)} ({len(kinds[each])})" for each in sorted(kinds, key=lambda name: -len(kinds[name]))
    )
    cost = cost_of([each for took in kinds.values() for each in took], f"handlers of {names}")
    if cost:
        return {"interrupt": cost}, [
            f"interrupt {cost.interval()}: {cost.count} handlers of {names}, {told_half(cost)}"
        ]
    cost = timer_costs(times).get("timer")
    if cost:
        return {"interrupt": cost}, [
            "interrupt: not known, so that of a timer counts: nearly all polls are by NAPI's timer"
        ]
    return {}, [
        f"interrupt: not known, of {count} handlers: record irq/irq_handler_entry and irq/irq_handler_exit, and irq_vectors"
    ]


def wakes_of(times: Timeline) -> Told:
    """Returns the time from a packet until an idle processor polls."""
    if not times.came:
        return {}, [
            "wake: not known: no arrival is in it: record net/net_dev_xmit of the other end of a veth pair (--pair names both ends); of a card, fintaqush "
            "advise --capture takes it from a capture, as a part of the interrupt"
        ]
    if times.unmatched > (1 - MATCHED) * times.came:
        return {}, [f"wake: not known: of {times.came} packets {times.unmatched} don't match those that polls took"]
    took, busy = wakes_by(times, "packets")
    cost = cost_of(took, "idle processor")
    if not cost and (timer := timer_costs(times).get("timer-wake")):
        return {"wake": timer}, ["wake: not known, so that by a timer counts: nearly all wake-ups are by NAPI's timer"]
    if not cost:
        return {}, [f"wake: not known: {len(took)} times the processor slept when a packet came"]
    if is_by_scheduler(cost, busy):
        return {}, [
            f"wake: not known: of {cost.count} wake-ups {busy} waited for another task that had the processor, half of them for {cost.value / 1000:.0f} us "
            "or more, which the scheduler decides: record on a processor that does nothing else"
        ]
    more = [f"{busy} of them while another task had the processor"] if busy else []
    if is_sent_here(times):
        more.append("the packets are sent on this processor, which doesn't sleep then")
    return {"wake": cost}, [
        f"wake {cost.interval()}: " + "; ".join([f"{cost.count} by packets, {told_half(cost)}", *more])
    ]


def flights_of(times: Times) -> Told:
    """Returns the flight of an interrupt between processors, on a busy one."""
    cost = None if is_sent_here(times) else flight_cost(times.flights, times.devices)
    if not cost:
        return {}, []
    return {"flight": cost}, [
        f"flight {cost.interval()}: {cost.count} {cost.source}, {told_half(cost)}; it is --rx-nsecs, and --wake is without it"
    ]


def reads_of(times: Timeline) -> Told:
    """Returns the cost of a packet's use, and of waking the program on another processor."""
    reads, costs, told = times.reads, {}, []
    if not reads.count:
        return {}, ["use: not known: no read of a program is recorded (fintaqush record --program)"]
    if abs(reads.count - times.given) > (1 - MATCHED) * times.given or reads.unmatched > (1 - MATCHED) * reads.count:
        is_less = reads.count < times.given
        why = "the program reads too slowly, or several packets at once" if is_less else "a read isn't one packet"
        return {}, [f"use: not known: {reads.count} reads for {times.given} packets that polls took: {why}"]
    cost = cost_of(reads.uses, "pairs of reads")
    if cost:
        costs["use"] = cost
        told.append(f"use {cost.interval()}: {cost.count} pairs of reads, {told_half(cost)}")
    else:
        told.append(
            f"use: not known: of {reads.count} packets {len(reads.uses)} waited while another one was used; record a higher load"
        )
    if is_apart(times):
        call = cost_of(reads.calls, "reads")
        cost = cost_of(reads.wakes, "lone packets", call.value if call else 0)
        if cost:
            costs["app-wake"] = cost
            told.append(
                f"app-wake {cost.interval()}: {cost.count} single packets, {told_half(cost)}, "
                + (
                    f"without the {call.value:.0f} ns of a read"
                    if call
                    else "including the read, whose time is unknown"
                )
            )
        else:
            told.append(
                f"app-wake: not known: {len(reads.wakes)} single packets reached a sleeping program; record a lower load"
            )
    return costs, told


def is_apart(times: Timeline) -> bool:
    """Returns whether the program reads on a processor other than the one that polls."""
    return bool(times.reads.on) and times.reads.on.most_common(1)[0][0] != times.processor()


def estimated(times: Times, head: Head) -> Told:
    """Returns all costs by their names, and a line about each."""
    costs: dict[str, Cost] = {}
    told: list[str] = []
    for part in (interrupts_of(times), polls_of(times, head), wakes_of(times), flights_of(times), reads_of(times)):
        costs |= part[0]
        told += part[1]
    use = None if is_apart(times) else costs.get("use")
    more, lines = known_costs(times.card, times, use, head)
    costs |= more | times.of_kinds
    told += [f"{name} {cost.interval()}: {cost.count} {cost.source}" for name, cost in times.of_kinds.items()]
    return {name: costs[name] for name in ORDER if name in costs}, [
        *told,
        *lines,
        *stolen.warnings(stolen_of(times, head)),
    ]


def stolen_of(times: Times, head: Head) -> dict[int, float]:
    """Returns the share that a hypervisor took from each processor that polls or reads, if it is known."""
    return stolen.shares_in(head, times.where, times.reads.on)


def options_of(costs: Mapping[str, Cost]) -> str:
    """Returns the options of napi_machine for those costs that it has."""
    own = as_timer({name: round(cost.value) for name, cost in costs.items() if name in (*COSTS, "flight")})
    return " ".join(f"--{name} {value:.0f}" for name, value in own.items())


def notes_on(times: Times) -> Iterator[str]:
    """Yields further notes on the recording."""
    if len(times.devices) > 1:
        yield f"polls of several devices are combined: {shown(', '.join(times.devices))}; --device takes those of one"
    for name, count in times.transmit.items():
        yield f"{count} polls of transmit instances of {shown(name)}, which took no packet, are left out"
    if times.of_others:
        yield f"{times.of_others} polls in which a processor's backlog took packets of other devices too are left out"
    for name, count in times.left_out.items():
        yield f"{count} polls of a processor's backlog, {name}, are left out, because devices poll; --device '{name}' takes only these"
    if times.by_threads and 2 * times.by_threads <= len(times.polls):
        yield f"{times.by_threads} of the polls are by threads"
    if times.share < 1:
        yield f"of the recording {100 * times.share:.0f} % count, in {PARTS} parts, which is enough for costs"
    if times.strays:
        yield f"polls left out because their beginning is unknown: {times.strays}"
    if times.is_coarse:
        yield "time stamps are of microseconds, so a single time is known to one"


def object_of(times: Times, head: Head, costs: Mapping[str, Cost], told: list[str]) -> dict[str, Any]:
    """Returns all results as an object, for other tools."""
    processor = times.processor()
    return {
        "costs": {name.replace("-", "_"): cost.as_object() for name, cost in costs.items()},
        "options": options_of(costs),
        "text": told,
        "devices": times.devices,
        "notes": list(notes_on(times)),
        "polled": sorted(times.polled),
        "processor": processor,
        "threaded": int(2 * times.by_threads > len(times.polls)),
        "apart": int(is_apart(times)),
        "is_separated": int(times.size() is None),
        "reads": times.reads.count,
        "reads_on": as_rows("processor", "reads", times.reads.on),
        "sent_on": as_rows("processor", "packets", times.sent_on),
        "came": times.came,
        "dropped": times.dropped,
        "delivered": times.given,
        "polls": len(times.polls),
        "polls_on": as_rows("processor", "polls", times.where),
        "ratios": as_rows("processor", "ratio", ratios_of(times, costs["poll"].value, costs["packet"].value)),
        "tasks": as_rows("task", "share", {name: round(share, 5) for name, share in times.shares(processor).items()}),
        "stolen": as_rows(
            "processor", "share", {each: round(share, 5) for each, share in stolen_of(times, head).items()}
        ),
    }


def pairs_of(words: Words, head: Head) -> list[list[str]]:
    """Returns the pairs A:B over which packets go, from the options or the recording."""
    pairs = [pair.split(":") for pair in words.pair or head.get("pair", "").split()]
    for pair in pairs:
        if len(pair) != 2 or not all(pair):
            raise Refusal(f"--pair {shown(':'.join(pair))}: not of the form A:B")
    own = set(words.device or ()) - {BACKLOG}
    return [pair for pair in pairs if words.pair or not own or pair[1] in own]


def timeline_of(words: Words, head: Head) -> Times:
    polled = words.device or head.get("polled", "").split()
    routes = Routes[Arrival](head, dict(pairs_of(words, head)))
    interrupts = [name for device in polled for name in drivers.interrupts_in(head, device).values()]
    times = Times(routes, polled, words.irq, interrupts)
    times.of_queues = {name for device in polled for name in drivers.of_queues(head, device)}
    return times


def times_in(words: Words) -> tuple[Times, Head]:
    """Returns the times of a recording, and its head."""
    lost: list[str] = []
    made: list[Times] = []

    def readers(head: Head) -> list[Times]:
        made.append(timeline_of(words, head))
        return made

    head = read(words.recording, lost, readers)
    check_lost(lost)
    made[0].settle()
    return made[0], head


def timeline_for(head: Head, devices: Sequence[str]) -> Times:
    """Returns a timeline to which the events of a recording can be added, for the polls of these devices, or of all."""
    return timeline_of(Words(device=list(devices), pair=None, irq=None), head)


def object_after(times: Times, head: Head) -> dict[str, Any]:
    """Returns the costs of a timeline that has all events, and what is known about them."""
    times.settle()
    return object_of(times, head, *estimated(times, head))


def object_in(recording: str, devices: Sequence[str]) -> dict[str, Any]:
    """Returns the costs of a recording and what is known about them, of the polls of these devices, or of all."""
    times, head = times_in(Words(recording=recording, device=list(devices), pair=None, irq=None))
    return object_of(times, head, *estimated(times, head))


def add_options(parser: Parser) -> None:
    parser.add_argument("recording", help="the file or the text, also as .gz; - for standard input")
    parser.add_argument("--irq", metavar="NAME", help="the interrupt whose handlers count")
    what = "a device whose polls count, by its name in napi_poll (those that fintaqush record found, or all but a processor's backlog)"
    parser.many("--device", "NAME", what)
    what = "the two ends of a veth pair: A's packets arrive at B (the pair that fintaqush record found)"
    parser.many("--pair", "A:B", what)
    parser.flag("--words", "print only the options for what-if and napi_machine")
    add_json(parser)
    names = [name.replace("-", "_") for name in ORDER]
    add_fail_if(parser, names, names)


def main(given: Sequence[str]) -> int:
    words = words_of(__doc__, add_options, given)
    if words.words and is_printed(words.json):
        words.error("--words and --json without a file each print something else")
    check_input(words.recording)
    try:
        times, head = times_in(words)
        costs, told = estimated(times, head)
    except Refusal as error:
        raise Refusal(f"{shown(words.recording)}: {error}") from None
    if words.words or is_printed(words.json):
        for each in [*[WEAK] * (WEAK in told), *stolen.warnings(stolen_of(times, head))]:
            say(each)
    write_json(words.json, "costs", [object_of(times, head, costs, told)])
    if words.words:
        print(options_of(costs))
    elif not is_printed(words.json):
        tell(*told, *notes_on(times), options_of(costs))
    return status_of(words.fail_if, [("", {name.replace("-", "_"): cost.value for name, cost in costs.items()})])
