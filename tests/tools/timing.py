"""Recordings generated from given costs, and costs of a recording found by plain searches in its lines."""

from __future__ import annotations

import gzip
import re
from collections.abc import Iterable, Iterator, Sequence
from pathlib import Path
from statistics import median

from finding import group_in

SENDER, POLLER = 2, 3  # processors
Event = tuple[int, int, str, int, str]  # time, processor, task, its number, and the text


class Made:
    """A recording in ftrace's format, of packets on a veth pair, generated from given costs in ns. `late` is how long after the interrupt a
    softirq or a thread begins."""

    def __init__(self, **costs: int) -> None:
        self.costs, self.time, self.reader = {"late": 0, **costs}, 10**12, POLLER
        self.lines: list[tuple[int, str]] = []
        self.timer: int | None = None

    def event(self, time: int, cpu: int, task: str, said: str) -> None:
        self.lines.append((time, f"{task.rjust(20)} [{cpu:03}] ..s1. {time // 10**9}.{time % 10**9:09}: {said}"))

    def text(self) -> str:
        return "".join(f"{line}\n" for _, line in sorted(self.lines, key=lambda line: line[0]))

    def switch(self, time: int, cpu: int, before: str, after: str, state: str = "S") -> None:
        comm, pid = before.rsplit("-", 1)
        name, number = after.rsplit("-", 1)
        self.event(time, cpu, before, f"sched_switch: prev_comm={comm} prev_pid={pid} prev_prio=120 prev_state={state} ==> "
                                      f"next_comm={name} next_pid={number} next_prio=120")

    def sent(self, time: int, count: int, code: int = 0) -> None:
        for _ in range(count):
            self.event(time, SENDER, "sender-7", f"net_dev_xmit: dev=va1 skbaddr=0 len=100 rc={code}")

    def handler(self, time: int, name: str, inner: str | None = None) -> int:
        """Adds an interrupt's handler on the polling processor; returns its end."""
        end = time + self.costs["interrupt"]
        self.event(time, POLLER, "<idle>-0", f"{name}_entry: vector=251")
        if inner:
            self.event(time + 1, POLLER, "<idle>-0", inner)
        self.event(end, POLLER, "<idle>-0", f"{name}_exit: vector=251")
        return end

    def polled(self, time: int, task: str, work: int, name: str = "vb1", more: int = 0) -> int:
        end = time + self.costs["poll"] + work * self.costs["packet"] + more
        self.lines.append((end, f"{task.rjust(20)} [{POLLER:03}] b.... {end // 10**9}.{end % 10**9:09}: napi_poll: "
                                f"napi poll on napi struct 0 for device {name} work {work} budget 64"))
        return end

    def softirq_round(self, works: Sequence[int], is_early: bool = False, more: int = 0) -> int:
        """Adds packets, an interrupt between processors that requests a softirq, and its polls; returns its end. An early one ends before the events
        of its packets, which come after the sending. The first poll takes `more` than others."""
        if not is_early:
            self.sent(self.time, works[0])
        time = self.handler(self.time + self.costs["wake"], "call_function_single") + self.costs["late"]
        self.event(time, POLLER, "<idle>-0", "softirq_entry: vec=3 [action=NET_RX]")
        for place, work in enumerate(works):
            if place:
                self.sent(time + 1, work)
            time = self.polled(time, "<idle>-0", work, more=0 if place else more)
        self.event(time, POLLER, "<idle>-0", "softirq_exit: vec=3 [action=NET_RX]")
        if is_early:
            self.sent(time + 700, works[0])
        return time

    def timer_round(self, end: int, flush: int, work: int = 0) -> int:
        """Adds NAPI's timer, which a poll started at its end, and a softirq whose poll finds so many packets; returns its end."""
        due = end + flush
        self.event(end - 1, POLLER, "<idle>-0", f"hrtimer_start: hrtimer=1 function=napi_watchdog expires={due} softexpires=0 mode=REL|PINNED")
        begin = due + self.costs["wake"]
        time = self.handler(begin, "local_timer", f"hrtimer_expire_entry: hrtimer=1 function=napi_watchdog now={begin}")
        self.event(time, POLLER, "<idle>-0", "softirq_entry: vec=3 [action=NET_RX]")
        time = self.polled(time, "<idle>-0", work)
        self.event(time, POLLER, "<idle>-0", "softirq_exit: vec=3 [action=NET_RX]")
        return time

    def thread_round(self, work: int, by_timer: bool) -> int:
        """Adds packets that wait for the thread's timer, or that wake the thread; the poll sets the timer again."""
        due = self.timer if by_timer else self.time
        assert due is not None
        self.sent(due - 500 if by_timer else due, work)
        begin = due + self.costs["wake"]
        inner = f"hrtimer_expire_entry: hrtimer=1 function=napi_watchdog now={begin}"
        time = (self.handler(begin, "local_timer", inner) if by_timer else self.handler(begin, "reschedule")) + self.costs["late"]
        self.switch(time, POLLER, "swapper/3-0", "napi/vb1-9-50", "R")
        end = self.polled(time, "napi/vb1-9-50", work)
        self.timer = end + 100_000
        self.event(end - 1, POLLER, "napi/vb1-9-50", f"hrtimer_start: hrtimer=1 function=napi_watchdog expires={self.timer} softexpires=0 mode=REL|PINNED")
        self.switch(end + 10, POLLER, "napi/vb1-9-50", "swapper/3-0")
        return end + 10

    def call(self, time: int) -> None:
        self.event(time, self.reader, "server-60", "sys_recvmsg(fd: 3, msg: 0x1, flags: 0)")

    def read(self, end: int, count: int) -> int:
        """The program, which sleeps in a call, wakes after the poll's end, reads all packets, and sleeps again."""
        read, use = self.costs["read"], self.costs["use"]
        time = end + self.costs["app-wake"]
        self.switch(time, self.reader, "swapper/9-0", "server-60", "R")
        time += read
        for place in range(count):
            self.event(time, self.reader, "server-60", "sys_recvmsg -> 0x64")
            time += use - read
            self.call(time)
            time += read
        self.switch(time, self.reader, "server-60", "swapper/9-0")
        return time


def searched(text: str) -> list[Event]:
    """Returns the events of a file of fintaqush record. The functions below search them backwards."""
    events = []
    for line in text[text.index("\ntrace\n") + 7:].splitlines():
        found = re.match(r"\s*(\S.*)-(\d+)\s+\[(\d+)\] \S+ +(\d+)\.(\d{9}): (\S.*)", line)
        if found:
            events.append((int(found[4]) * 10**9 + int(found[5]), int(found[3]), found[1], int(found[2]), found[6]))
    return events


def on(events: list[Event], cpu: int, until: int) -> list[Event]:
    """Returns the events on a processor before one of them, the last one first."""
    return [event for event in events[:until] if event[1] == cpu][::-1]


def first_like(events: Iterable[Event], pattern: str) -> Event:
    """Returns the first event whose text matches; one at 0, without a text, if there is none."""
    return next((each for each in events if re.match(pattern, each[4])), (0, 0, "", 0, ""))


def polls_of(events: Sequence[Event], device: str) -> Iterator[tuple[int, int]]:
    """Yields for each poll the index of its event, and its packets."""
    for place, (*_, said) in enumerate(events):
        found = re.match(rf"napi_poll: .* for device {re.escape(device)} work (\d+) ", said)
        if found:
            yield place, int(found[1])


def poll_times(events: list[Event], device: str) -> Iterator[tuple[int, int, int, int | None]]:
    """Yields for each poll its packets and its time, if its beginning is known, and the index of its first event unless that is another poll."""
    for place, work in polls_of(events, device):
        time, cpu, *_ = events[place]
        handlers, depth = 0, []
        for event in on(events, cpu, place):
            name = event[4].split(":")[0]
            is_own = name in ("softirq_entry", "napi_poll") or name == "sched_switch" and "next_comm=napi/" in event[4]
            if is_own:
                yield work, time - event[0] - handlers, time, (events.index(event) if name != "napi_poll" else None)
                break
            if name in ("softirq_exit", "sched_switch"):
                break
            if name.endswith("_exit"):
                depth.append(event[0])
            elif name.endswith("_entry") and "hrtimer" not in name and depth:
                handlers += depth.pop() - event[0]


def before_run(events: list[Event], place: int) -> tuple[int, bool] | None:
    """Returns the duration of the interrupt (between processors, or of NAPI's timer) that came within 50 us before a run or a thread, and whether
    it was the timer; or None."""
    end = has_timer = None
    for event in on(events, events[place][1], place):
        name = event[4].split(":")[0]
        if end is None and events[place][0] - event[0] > 50_000:
            return None
        if name.startswith("hrtimer_expire_entry"):
            has_timer = True
        elif name.endswith("_exit") and name.startswith(("call_function_single", "reschedule", "local_timer")) and end is None:
            end, has_timer, kind = event[0], False, name[:-5]
        elif end is not None and name == f"{kind}_entry":
            if kind != "local_timer" or has_timer:
                return end - event[0], bool(has_timer)
            end = None
        elif end is None and name in ("napi_poll", "softirq_exit"):
            return None
    return None


def middle(values: Iterable[float]) -> int:
    return round(median(values))


def stolen(events: list[Event], cpu: int, begin: int, end: int) -> int:
    """Returns how long handlers and softirqs ran on a processor between two times at which none was running."""
    total, depth, since = 0, 0, 0
    for time, where, _, _, said in events:
        if where == cpu and begin <= time <= end:
            kind = said.split(":")[0]
            if kind.endswith("_entry") and "hrtimer" not in kind:
                since = since if depth else time
                depth += 1
            elif kind.endswith("_exit") and depth:
                depth -= 1
                total += 0 if depth else time - since
    return total


def packet_ends(events: list[Event], device: str) -> list[tuple[int, bool]]:
    """Returns for each polled packet when its poll ended, and whether it was the only one. The k-th packet is read by the k-th read."""
    return [(events[place][0], work == 1) for place, work in polls_of(events, device) for _ in range(work)]


def reads_of(events: list[Event], device: str) -> tuple[list[int], list[int], list[int]]:
    """Returns the uses, the calls that found a packet, and how long single packets waited for a sleeping program."""
    own = [each for each in events if each[2] == "server"]
    reads = [(time, cpu) for time, cpu, _, _, said in own if said.startswith("sys_recvmsg -> 0x")]
    uses, found, lone = [], [], []
    before, before_on = 0, None
    for (time, cpu), (end, is_lone) in zip(reads, packet_ends(events, device)):
        earlier = [each for each in own[::-1] if each[0] < time]
        call = first_like(earlier, r"sys_recvmsg\(")[0]
        left, slept = (first_like(earlier, f"sched_switch: prev_comm=server.*{state}")[0] for state in ("", " prev_state=S "))
        if end <= before and before_on == cpu and left <= before:
            uses.append(time - before - stolen(events, cpu, before, time))
        if call >= end and slept <= before:
            found.append(time - call - stolen(events, cpu, call, time))
        if is_lone and before < slept <= end:
            lone.append(max(0, time - end))
        before, before_on = time, cpu
    return uses, found, lone


def wakes_of(events: list[Event], device: str) -> Iterator[tuple[int, bool]]:
    """Yields the time from each run's cause (a packet, or a timer's due time) to its beginning, minus the interrupt, and whether it was a timer."""
    came = [time for time, _, _, _, said in events if re.match(r"net_dev_xmit: dev=va7 .*rc=0$", said)]
    taken = last = 0
    for place, work in polls_of(events, device):
        time, cpu, *_ = events[place]
        begin = first_like(on(events, cpu, place), "softirq_entry|napi_poll|softirq_exit|sched_switch")
        if re.match("softirq_entry|.*next_comm=napi/", begin[4]):
            at = events.index(begin)
            took, _ = before_run(events, at) or (0, False)
            if first_like(on(events, cpu, at), "hrtimer_expire_entry|napi_poll")[4].startswith("hrtimer"):
                due = group_in(r"expires=(\d+)", first_like(events[at::-1], "hrtimer_start")[4])
                yield begin[0] - int(due) - took, True
            elif work and last <= came[taken] <= begin[0] and had_other(events, cpu, came[taken], at):
                yield begin[0] - came[taken] - took, False
        taken, last = taken + work, time


def flights_of(events: list[Event], sender: str) -> Iterator[int]:
    """Yields the time from a packet of that device, which another processor sends, to the handler of the interrupt that requests the poll of the backlog
    that takes it first, if a task had that processor all the time."""
    for place, work in polls_of(events, "(no_device)"):
        before = on(events, events[place][1], place)
        run = next((number for number, each in enumerate(before) if each[4].startswith(("softirq_entry", "napi_poll"))), 0)
        since = first_like(before[run + 1:], "napi_poll")[0]
        taken = [group_in(r"skbaddr=(\w+)", said) for *_, said in before[:run] if said.startswith("netif_receive_skb")]
        if not work or before[run][4].startswith("napi_poll") or len(taken) != work:
            continue
        at = next(number for number in range(place, -1, -1) if re.match(rf"net_dev_xmit: dev={sender} skbaddr={taken[-1]} .*rc=0", events[number][4]))
        came, sent_on = events[at][:2]
        entry = first_like(before[run:], "call_function_single_entry")[0]
        task, is_within = first_like(before, "sched_switch"), first_like(on(events, sent_on, at), "softirq_")[4].startswith("softirq_entry")
        is_busy = task[0] and task[0] <= came and "next_comm=swapper" not in task[4]
        if is_busy and not is_within and sent_on != events[place][1] and since <= came <= entry:
            yield entry - came


def unpacked(path: Path) -> str:
    return gzip.decompress(path.read_bytes()).decode()


def had_other(events: list[Event], cpu: int, time: int, until: int) -> bool:
    """Returns whether a task other than the program and the pollers ran on the processor at a time, up to the beginning of the run."""
    switches = [each for each in events[:until + 1] if each[1] == cpu and each[4].startswith("sched_switch")]
    if switches and switches[-1][0] == events[until][0] and "next_comm=napi/" in switches[-1][4]:
        switches.pop()
    return bool(switches) and switches[-1][0] <= time and not re.search(r"next_comm=(server|napi/|ksoftirqd/)", switches[-1][4])
