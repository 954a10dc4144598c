"""The activity on the processors of a recording: polls, interrupts, wake-ups and reads, each with its duration."""

from __future__ import annotations

import re
from collections import Counter, defaultdict, deque
from collections.abc import Iterable, Mapping
from dataclasses import dataclass, field
from functools import partial
from typing import Any, Optional

from fintaqush_tools.instances import EARLY, Place, Routes
from fintaqush_tools.recording import (
    BACKLOG,
    IS_NET_RX,
    POLLED,
    SENT,
    SWITCH,
    Event,
    Known,
    Look,
    Reader,
    fields_by,
    is_by_thread,
)

Arrival = tuple[int, int]  # a sent packet's time and its sender's processor
Kind = tuple[bool, bool]  # whether a poll woke the program, and whether its completion started NAPI's timer
Handler = list[Any]  # its name, its beginning, and whether it may request polls

HANDLER = fields_by(r"irq=(\d{1,9})(?: name=(.*))?")
EXPIRES = fields_by(r"hrtimer=(\S+) .*\bexpires=(\d{1,20})")
EXPIRED = fields_by(r"hrtimer=(\S+) .*\bnow=(\d{1,20})")
WATCHDOG = "napi_watchdog"
TIMER = f"the timer of {WATCHDOG}"
# Interrupts between processors, which may start a softirq or a thread; and all interrupts with an entry and an exit event.
BETWEEN = {"call_function_single", "call_function", "reschedule", "ipi"}
APIC = {"thermal_apic", "threshold_apic", "deferred_error_apic", "error_apic", "spurious_apic"}
HANDLERS = BETWEEN | APIC | {"irq_handler", "local_timer", "irq_work", "x86_platform_ipi"}
SOON = 50_000  # ns, from the end of an interrupt to the softirq that it requested
SAME_CLOCK = 1_000_000  # ns
RARE = 0.01  # share of the polls


def returned_in(text: str) -> int:
    """Returns the number that a call returns; 0 if it is none, an error or no size."""
    found = re.match(r"(?:.*\b)?0x([0-9a-f]{1,16})$", text)
    value = int(found[1], 16) if found else 0
    return value if value < 1 << 31 else 0


RETURNED = Known(returned_in)


@dataclass
class Processor:
    """What is currently running on a processor."""

    handlers: list[Handler] = field(default_factory=list)  # those that began
    ended: tuple[
        str, int, int
    ] | None = None  # the name, the duration and the end of the last handler that may request polls
    since: int = 0  # the beginning of the outermost handler
    by_handlers: int = 0  # ns that handlers took, until the last one began
    by_softirqs: int = 0  # ns that NET_RX took without the handlers in it, until it last began
    entered: tuple[int, int] | None = None  # the beginning of NET_RX, and what handlers had taken until then
    softirq: tuple[int, int] | None = None  # the beginning of the next poll's time there, and what was taken until then
    thread: tuple[int, int] | None = None  # the same, of a thread
    full: tuple[str, int, int] | None = None  # the last poll, if it was full: device, end, what was taken until then
    is_first: bool = False  # no poll was made since then
    by: tuple[str, int, int] | None = None  # the handler that requested it
    task: tuple[str, int, int] = ("", 0, 0)  # the one that runs: name, number, beginning
    before: tuple[str, int, int] = ("", 0, 0)  # the one before it
    due: int | None = None  # expiry of the last NAPI timer
    arms: bool = False  # NAPI's timer was started since the last poll

    def handled(self, time: int) -> int:
        """Returns how long handlers took until this time."""
        return self.by_handlers + (time - self.since if self.handlers else 0)

    def above_tasks(self, time: int) -> int:
        """Returns how long handlers and NET_RX took until this time."""
        handled = self.handled(time)
        within = time - self.entered[0] - handled + self.entered[1] if self.entered else 0
        return handled + self.by_softirqs + within

    def end_poll(self, napi: str, mark: tuple[int, int], by_thread: bool) -> tuple[int, int] | None:
        """Begins the next poll's time at the end of a poll. Returns the beginning of the poll that ends, if it is known."""
        began = self.thread if by_thread else self.softirq
        if began and by_thread:
            self.thread = mark
        elif began:
            self.softirq = mark
        full = self.full
        if began and self.is_first and full and full[0] == napi and began[0] - full[1] <= SOON:
            return full[1:]  # it continues with what the full poll left
        return began


class Reads:
    """The reads of a program: it reads packets in the order of their delivery."""

    def __init__(self, processors: Mapping[int, Processor]) -> None:
        self.processors, self.tasks, self.is_by_recv = processors, set[int](), False
        # For each packet that waits for its read: when its poll ended, and whether the poll delivered only that packet.
        self.delivered: deque[tuple[int, bool]] = deque()
        # The last read, if its task has run since: task, time, processor, packets, what was taken there until then.
        self.last: tuple[int, int, int, int, int] | None = None
        self.forget()

    def cut(self) -> None:
        """Forgets what was delivered and begun."""
        self.delivered.clear()
        self.called.clear()
        self.slept.clear()
        self.ahead.clear()
        self.last = None

    def forget(self) -> None:
        """Forgets all reads."""
        self.is_asleep = False  # the program slept, and no packet was delivered since
        # For each task in a call: when the call began, and what was taken then.
        self.called: dict[int, tuple[int, int]] = {}
        # For each task that slept since its last read: when it last did, and whether in a call.
        self.slept: dict[int, tuple[int, bool]] = {}
        # Reads before the end of the packet's poll: the time of each, and whether the program had slept.
        self.ahead: list[tuple[int, bool]] = []
        self.last = None
        self.calls, self.uses, self.wakes = [list[float]() for _ in range(3)]
        self.on, self.count, self.unmatched = Counter[int](), 0, 0

    def deliver(self, began: int, time: int, work: int) -> bool:
        """Delivers the packets of a poll; those that were read since the poll began belong to it. Returns whether that woke the program."""
        woke = work > 0 and self.is_asleep
        self.is_asleep = self.is_asleep and not woke
        known = [read for read in self.ahead if read[0] >= began][:work]
        if work == 1 and known and known[0][1]:
            self.wakes.append(known[0][0] - time)
        self.unmatched += len(self.ahead) - len(known)
        self.ahead.clear()
        self.delivered.extend([(time, work == 1)] * (work - len(known)))
        return woke

    def enter(self, event: Event) -> None:
        self.tasks.add(event.pid)
        self.called[event.pid] = event.time, self.processors[event.cpu].above_tasks(event.time)

    def leave_processor(self, task: int, time: int, is_sleep: bool) -> None:
        if is_sleep and task in self.tasks:
            self.slept[task] = time, task in self.called
            self.is_asleep = True
        if self.last and self.last[0] == task:
            self.last = None

    def leave(self, event: Event) -> None:
        """Handles the return of a read."""
        by_recv = event.name.startswith("sys_exit_recv")
        size, called = RETURNED[event.said], self.called.pop(event.pid, None)
        if by_recv and not self.is_by_recv and self.count:  # its reads by other calls weren't packets
            self.forget()
        self.is_by_recv = self.is_by_recv or by_recv
        if self.is_by_recv and not by_recv or not size:
            return
        packets = size if event.name.endswith("recvmmsg") else 1
        self.count += packets
        self.on[event.cpu] += 1
        slept, is_in_call = self.slept.pop(event.pid, (None, False))
        while is_in_call and slept is not None and self.delivered and self.delivered[0][0] < slept:
            self.delivered.popleft()  # a read that sleeps finds no packet, so these weren't for it
            self.unmatched += 1
        taken = self.processors[event.cpu].above_tasks(event.time)
        self.take(event, called, slept, taken, packets)
        self.last = event.pid, event.time, event.cpu, packets, taken

    def take(self, event: Event, called: tuple[int, int] | None, slept: int | None, taken: int, packets: int) -> None:
        """Matches the packets that are read with those that were delivered first."""
        time, last, delivered = event.time, self.last, self.delivered
        if len(delivered) < packets:
            self.ahead += [(time, slept is not None)] * (packets - len(delivered))
            delivered.clear()
            return
        for _ in range(packets):
            end, is_lone = delivered.popleft()
        if last and end <= last[1] and last[0] == event.pid and last[2] == event.cpu and last[3] == packets:
            self.uses.append((time - last[1] - (taken - last[4])) / packets)
        if slept is not None:
            if packets == 1 and is_lone and slept <= end:
                self.wakes.append(time - end)
        elif called and end <= called[0]:
            self.calls.append((time - called[0] - (taken - called[1])) / packets)


@dataclass
class Polls:
    """The polls of an instance."""

    polls: list[tuple[int, int]] = field(default_factory=list)  # packets and ns of each poll
    on: list[int] = field(default_factory=list)  # the processor of each poll
    kinds: list[Kind] = field(default_factory=list)  # the kind of each poll
    by_threads: int = 0
    handlers: defaultdict[str, list[int]] = field(default_factory=lambda: defaultdict(list))  # which runs followed
    without: int = 0  # how many runs followed none

    def add(self, work: int, took: int, by_thread: bool, cpu: int, kind: Kind) -> None:
        self.polls.append((work, took))
        self.on.append(cpu)
        self.kinds.append(kind)
        self.by_threads += by_thread

    @property
    def receives(self) -> bool:
        """Returns whether a poll took a packet."""
        return any(work for work, _ in self.polls)


class Waiting:
    """The packets that wait for the polls of an instance, each with its sending time and its sender's processor."""

    def __init__(self) -> None:
        self.packets, self.owed = deque[Arrival](), 0  # packets that were polled before their event
        self.received = 0  # packets that the stack received since the last poll of a backlog
        self.poll_end, self.was_full = 0, False  # of the last poll

    def came(self, time: int, cpu: int) -> None:
        if self.owed and time - self.poll_end < EARLY:
            self.owed -= 1
        else:
            self.packets.append((time, cpu))

    def deliver(self, work: int, is_empty: bool, began: int) -> int:
        """Removes the packets that wait longest; a poll that wasn't full delivers all earlier ones. Returns how many don't match."""
        unmatched, self.owed = self.owed, 0
        for _ in range(work):
            if self.packets:
                self.packets.popleft()
            else:
                self.owed += 1
        while is_empty and self.packets and self.packets[0][0] < began:
            self.packets.popleft()
            unmatched += 1
        return unmatched


class Timeline(Reader):
    """Sums up the times of a recording."""

    is_probed = is_sampled = True

    def __init__(
        self,
        routes: Optional[Routes[Arrival]] = None,
        polled: Iterable[str] = (),
        irq: str | None = None,
        interrupts: Iterable[str] = (),
    ) -> None:
        """`polled` are the devices whose polls count; `interrupts` are their interrupts, if known: other cards' interrupts don't request their polls."""
        self.irq, self.polled, self.interrupts = irq, set(polled), set(interrupts)
        self.on: defaultdict[int, Processor] = defaultdict(Processor)
        self.routes, self.reads, self.span = routes or Routes({}, {}), Reads(self.on), (0, 0)
        self.is_coarse, self.has_tasks, self.has_handlers = True, False, False
        self.of: defaultdict[Place, Polls] = defaultdict(Polls)
        # Wake-ups by packets and by timers, on a processor that slept; and on one that ran another task.
        self.wakes, self.busy_wakes = [defaultdict[str, list[int]](list) for _ in range(2)]
        self.due: dict[str, int] = {}  # for each timer
        # What handlers of receive queues took that interrupted a softirq or a thread; and the names of these interrupts.
        self.early, self.of_queues = list[int](), set[str]()
        self.waiting: defaultdict[Place, Waiting] = defaultdict(Waiting)
        self.came = self.dropped = self.given = self.unmatched = self.strays = 0
        self.sent_on, self.tasks = Counter[int](), defaultdict[int, Counter[str]](Counter)

    def looks_at(self, name: str) -> list[Look]:
        """Returns what handles the events of this name."""
        kind = name.rpartition("_")[0]
        if name.startswith("hrtimer_"):
            return [self.timer]
        if name.startswith("sys_"):
            return [self.reads.leave if name.startswith("sys_exit_") else self.reads.enter]
        self.has_handlers = self.has_handlers or kind in HANDLERS
        begin: Look = partial(self.begin_handler, kind, kind in BETWEEN)
        looks: dict[str, Look] = {
            **{f"{each}_entry": begin for each in HANDLERS},
            **{f"{each}_exit": self.end_handler for each in HANDLERS},
            "irq_handler_entry": self.begin_interrupt,
            "irq_handler_exit": self.end_interrupt,
            "softirq_entry": self.softirq,
            "softirq_exit": self.softirq,
            "napi_poll": self.poll,
            "sched_switch": self.switch,
            "net_dev_xmit": self.packet,
            "net_dev_start_xmit": self.routes.start,
            "netif_receive_skb": self.receive,
        }
        return [looks[name]] if name in looks else []

    def cut(self, time: int) -> None:
        """Forgets what was under way, at the beginning of a window."""
        self.on.clear()
        self.due.clear()
        self.waiting.clear()
        self.routes.cut()
        self.reads.cut()

    def begin_handler(self, name: str, may_request: bool, event: Event) -> None:
        """Handles the beginning of a handler: of a card's interrupt, of one between processors, or of the local timer."""
        processor = self.on[event.cpu]
        if not processor.handlers:
            processor.since = event.time
        processor.handlers.append([name, event.time, may_request])

    def end_handler(self, event: Event) -> None:
        processor = self.on[event.cpu]
        if processor.handlers:
            name, began, may_request = processor.handlers.pop()
            if not processor.handlers:
                processor.by_handlers += event.time - processor.since
            if may_request:
                processor.ended = name, event.time - began, event.time

    def begin_interrupt(self, event: Event) -> None:
        name = event.parts(HANDLER)[1] or ""
        self.begin_handler(name, not self.interrupts or name in self.interrupts, event)

    def end_interrupt(self, event: Event) -> None:
        processor = self.on[event.cpu]
        name, began, _ = processor.handlers[-1] if processor.handlers else ("", 0, False)
        if name and name == self.irq:
            self.of["", ""].handlers[name].append(event.time - began)
        if name in self.of_queues and (processor.entered or processor.thread):
            self.early.append(event.time - began)
        self.end_handler(event)

    def timer(self, event: Event) -> None:
        """Handles NAPI's timer: it is set, or expires in the current handler."""
        if WATCHDOG not in event.said:
            return
        if event.name == "hrtimer_start":
            timer, expires = event.parts(EXPIRES)
            self.due[timer] = int(expires)
            self.on[event.cpu].arms = True
        elif event.name == "hrtimer_expire_entry":
            processor = self.on[event.cpu]
            timer, stamp = event.parts(EXPIRED)
            now = int(stamp)
            due = self.due.pop(timer, now)
            processor.due = due if abs(now - event.time) < SAME_CLOCK else event.time - max(0, now - due)
            if processor.handlers:
                processor.handlers[-1][::2] = TIMER, True

    def softirq(self, event: Event) -> None:
        """Handles NET_RX: it begins, requested by the last handler, or ends."""
        if not event.parts(IS_NET_RX):
            return
        processor, time = self.on[event.cpu], event.time
        handled = processor.handled(time)
        if processor.entered:
            processor.by_softirqs += time - processor.entered[0] - handled + processor.entered[1]
        if event.name == "softirq_entry":
            processor.softirq = processor.entered = time, handled
            self.begin(processor, time)
        else:
            processor.softirq = processor.entered = processor.ended = None

    @staticmethod
    def begin(processor: Processor, time: int) -> None:
        """Begins polls in a softirq or a thread."""
        asked = processor.ended if processor.ended and time - processor.ended[2] <= SOON else None
        processor.is_first, processor.by, processor.ended = True, asked, None

    def switch(self, event: Event) -> None:
        processor, time, found = self.on[event.cpu], event.time, event.parts(SWITCH)
        last, reads, (name, pid, _) = processor.task, self.reads, found.next
        self.has_tasks = True
        if last[0]:
            self.tasks[event.cpu][last[0]] += time - last[2]
        if reads.last or found.last[1] in reads.tasks:
            reads.leave_processor(found.last[1], time, found.is_sleep)
        processor.before, processor.task, processor.thread = last, (name, pid, time), None
        if found.is_napi:
            processor.thread = time, processor.above_tasks(time)
            self.begin(processor, time)

    def packet(self, event: Event) -> None:
        """Handles a sent packet, which arrives at a device."""
        sender, _size, code = event.parts(SENT)
        if sender not in self.routes.receivers:
            return
        self.sent_on[event.cpu] += 1
        has_come = code in ("0", "0x0")
        place = self.routes.of_sent(sender, event, (event.time, event.cpu) if has_come else None)
        self.came += has_come
        self.dropped += code in ("1", "0x1")
        if place and has_come:
            self.waiting[place].came(event.time, event.cpu)

    def receive(self, event: Event) -> None:
        """Handles a packet that the current poll of a backlog took."""
        place, sent = self.routes.of_received(event) if self.routes.moved else (None, None)
        if place:
            self.waiting[place].received += 1
            self.waiting[place].packets.extend([sent] if sent else [])

    def poll(self, event: Event) -> None:
        napi, device, packets, budget = event.parts(POLLED)
        processor, work, by_thread = self.on[event.cpu], int(packets), is_by_thread(event)
        self.is_coarse = self.is_coarse and not event.time % 1000
        is_full = work >= int(budget)
        mark = event.time, processor.above_tasks(event.time) if by_thread else processor.handled(event.time)
        began = processor.end_poll(napi, mark, by_thread)
        processor.full = (napi, *mark) if is_full else None
        if not self.polled or device in self.polled:
            place, waiting = (device, napi), self.waiting[self.routes.of_poll(device, napi)]
            self.strays += not began
            if began and processor.is_first:
                self.run_begins(processor, began[0], work, self.of[place], waiting, event.cpu)
            woke = self.deliver(event.time, work, not is_full, began[0] if began else waiting.poll_end, waiting)
            if began:
                took = mark[0] - began[0] - (mark[1] - began[1])
                self.of[place].add(work, took, by_thread, event.cpu, (woke, processor.arms))
            waiting.poll_end, waiting.was_full = event.time, is_full
        processor.is_first, processor.by, processor.due, processor.ended = False, None, None, None
        processor.arms = False

    def run_begins(self, processor: Processor, began: int, work: int, polls: Polls, waiting: Waiting, cpu: int) -> None:
        """Handles the first poll of a softirq or a thread: which handler requested it, and the time from its cause to its beginning."""
        name, took, _ = processor.by or (None, 0, 0)
        if name is not None and not self.irq:
            polls.handlers[name].append(took)
        polls.without += name is None and not waiting.was_full
        if processor.due is not None:
            self.add_wake("timers", processor, processor.due, began - processor.due - took)
        elif work and waiting.packets and waiting.poll_end <= waiting.packets[0][0] <= began:
            came, sent_on = waiting.packets[0]
            if sent_on == cpu:
                self.wakes["packets"].append(began - came - took)
            else:
                self.add_wake("packets", processor, came, began - came - took)

    def add_wake(self, kind: str, processor: Processor, time: int, took: int) -> None:
        """Adds a wake-up's time if neither the program nor a poll was running on the processor; another task's is counted separately."""
        name, pid, since = processor.before if processor.task[0].startswith("napi/") else processor.task
        if not self.has_tasks or name.startswith("swapper") and since <= time:
            self.wakes[kind].append(took)
        elif name and since <= time and pid not in self.reads.tasks and not name.startswith(("napi/", "ksoftirqd/")):
            self.busy_wakes[kind].append(took)

    def deliver(self, time: int, work: int, is_empty: bool, began: int, waiting: Waiting) -> bool:
        """Delivers the packets of a poll. A backlog may have packets of other devices, which don't count. Returns whether that woke the
        program."""
        if self.routes.moved:
            work, waiting.received = waiting.received, 0
        self.given += work
        self.unmatched += waiting.deliver(work, is_empty, began)
        return self.reads.deliver(began, time, work)

    def chosen(self) -> list[Polls]:
        """Returns the polls of the instances that count: those of the named devices, else all of them; a processor's backlog only if nothing else
        polls. Instances that took no packet are those of transmit queues."""
        receives = {device for (device, _), polls in self.of.items() if polls.receives}
        self.transmit, self.left_out = Counter[str](), Counter[str]()
        chosen, names = [], {device for (device, _), polls in self.of.items() if polls.polls}
        for (device, _), polls in self.of.items():
            if device in receives and not polls.receives:
                self.transmit[device] += len(polls.polls)
            elif not self.polled and device == BACKLOG and len(names) > 1:
                self.left_out[device] += len(polls.polls)
            else:
                chosen.append(polls)
        self.devices = sorted(names - set(self.left_out))
        return chosen

    def settle(self) -> Timeline:
        chosen = self.chosen()
        self.polls = [poll for each in chosen for poll in each.polls]
        self.places = [cpu for each in chosen for cpu in each.on]
        self.kinds = [kind for each in chosen for kind in each.kinds]
        self.handlers: defaultdict[str, list[int]] = defaultdict(list)
        for each in chosen:
            for name, took in each.handlers.items():
                self.handlers[name] += took
        self.without, self.by_threads = sum(each.without for each in chosen), sum(each.by_threads for each in chosen)
        self.where = Counter(self.places)
        return self

    def size(self) -> int | None:
        """Returns how many packets each poll took, but for one in a hundred: a line over so few others is decided by chance."""
        size, count = Counter(work for work, _ in self.polls).most_common(1)[0]
        others = len(self.polls) - count
        return size if not others or size and others <= RARE * len(self.polls) else None

    def processor(self) -> int | None:
        """Returns the processor that polls most, if any does."""
        return self.where.most_common(1)[0][0] if self.where else None

    def shares(self, cpu: int | None) -> dict[str, float]:
        """Returns each task's share of the recording on a processor."""
        whole = self.span[1] - self.span[0]
        return {name: took / whole for name, took in self.tasks[cpu].most_common()} if whole and cpu is not None else {}
