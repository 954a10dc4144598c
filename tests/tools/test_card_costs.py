"""Tests of the costs of cards and of NAPI's timer, on events with known times, and on recordings with plain searches in their lines."""

import gzip
import re
import statistics
import unittest
from collections.abc import Iterator, Sequence
from pathlib import Path
from typing import Any, Optional

import timing
from tooltest import HERE

from fintaqush_tools import card_costs
from fintaqush_tools.card_costs import CardTimes
from fintaqush_tools.commands import costs
from fintaqush_tools.fits import Cost
from fintaqush_tools.options import Words
from fintaqush_tools.recording import Texts
from fintaqush_tools.timeline import Timeline

Found = tuple[int, int, str, int, str]  # time, processor, task, its number, text

USE = Cost(2000, 2000, 2000, 9, "reads")
SLEEPS = "sched_switch: prev_comm=server prev_pid=60 prev_prio=120 prev_state=S ==> next_comm=swapper/1 next_pid=0 next_prio=120"
READS, READ = "sys_recvfrom(fd: 3, ubuf: 0, size: 200)", "sys_recvfrom -> 0x64"


def polled(work: int) -> str:
    return f"napi_poll: napi poll on napi struct 0 for device eth0 work {work} budget 64"


def given(device: str = "eth0") -> str:
    return f"napi_gro_receive_entry: dev={device} napi_id=0x2001 queue_mapping=0"


def event_lines(*events: tuple[int, str], cpu: int = 1) -> list[str]:
    """Returns lines of ftrace, each of a time and a text; the program's own events are those of task 60."""
    lines = []
    for time, said in events:
        task = "server-60" if said.startswith("sys_") else "swapper/1-0"
        lines.append(f"{task} [{cpu:03}] ..s1. {time // 10**9}.{time % 10**9:09}: {said}\n")
    return lines


def times_of(*lines: str) -> CardTimes:
    times = CardTimes(["eth0"])
    Texts([times], []).add("".join(lines))
    return times


def woken(packets: int = 1, *more: tuple[int, str], read_on: int = 1) -> list[int]:
    """Returns the times of a program that sleeps, is woken by a poll that ends at 5000, and reads again at 14000."""
    before = event_lines((1000, READS), (2000, SLEEPS), (5000, polled(packets)), *more)
    return times_of(*before, *event_lines((9000, READ), (14000, READS), cpu=read_on)).woken_uses


def early_in(text: str, irq: int) -> Iterator[int]:
    """Yields what the handlers of an interrupt took while a softirq polled, on one processor, whose times are of microseconds."""
    is_polling, began = False, 0
    for seconds, micros, said in re.findall(rf" (\d+)\.(\d{{6}}): (softirq_e.*: vec=3|irq_handler_e.*: irq={irq}) ", text):
        time = int(seconds) * 10**9 + int(micros) * 1000
        if said.startswith("softirq"):
            is_polling = said.startswith("softirq_entry")
        elif said.startswith("irq_handler_entry"):
            began = time
        elif is_polling:
            yield time - began


class Known(unittest.TestCase):
    def test_takes_are_within_a_poll_and_without_the_stack(self) -> None:
        lines = event_lines((1000, given()), (1300, given()), (1500, given("eth1")), (1650, given()))
        lines += event_lines((2000, "netif_receive_skb: dev=eth0 skbaddr=0"), (2500, given()), (3000, polled(4)), (3300, given()), (3700, given()))
        self.assertEqual(times_of(*lines).takes, [300, 350, 400])

    def test_the_median_take(self) -> None:
        lines = []
        for at in range(0, 9000, 1000):
            lines += event_lines((at, given()), (at + 210, given()), (at + 400, polled(2)))
        cost = card_costs.take_cost(times_of(*lines))
        self.assertEqual((cost and cost.value, cost and cost.count), (210, 9))
        self.assertIsNone(card_costs.take_cost(times_of(*lines[:9])))

    def test_a_woken_use_begins_at_the_end_of_the_poll(self) -> None:
        self.assertEqual(woken(), [9000])

    def test_what_is_no_woken_use(self) -> None:
        self.assertEqual(woken(2), [], "two packets")
        self.assertEqual(woken(1, (6000, polled(1))), [], "a second poll with a packet")
        self.assertEqual(woken(1, (6000, polled(0))), [], "an empty poll")
        self.assertEqual(woken(1, (12000, polled(1))), [], "a poll during the use")
        self.assertEqual(woken(read_on=2), [], "another processor")
        awake = event_lines((1000, READS), (5000, polled(1)), (9000, READ), (14000, READS))
        self.assertEqual(times_of(*awake).woken_uses, [], "a program that didn't sleep")

    def test_app_wake_is_without_the_use(self) -> None:
        times = CardTimes()
        times.woken_uses = [5000] * 5 + [5200] * 4
        cost = card_costs.app_wake_cost(times, USE)
        self.assertEqual((cost and cost.value, cost and cost.count), (3000, 9))
        self.assertIsNone(card_costs.app_wake_cost(times, None))

    def test_an_interrupt_from_the_arrival(self) -> None:
        """Nine packets that find all idle; one that comes with another, one during polls, and one whose softirq came late."""
        softirqs, arrivals = [0], []
        for number in range(1, 10):
            arrivals.append(number * 10**6)
            softirqs.append(number * 10**6 + 5000 + number)
        arrivals += [20_000_000, 20_000_100, 20_100_000, 30_000_000]
        softirqs += [20_005_000, 20_105_000, 30_020_000]
        cost = card_costs.arrival_interrupt_cost(arrivals, softirqs)
        self.assertEqual((cost and cost.value, cost and cost.count), (5005, 9))

    def gaps(self, gap: int, late: int, phases: Sequence[int]) -> int:
        """Returns the least time of a card that interrupts `late` ns after each arrival, but no sooner than `gap` after the last interrupt. After
        each interrupt packets come by these phases, and a poll takes 20 us."""
        now, arrivals, interrupts = 0, [], [0]
        for phase in phases:
            arrivals.append(now + phase)
            now = max(now + phase + late, now + gap)
            interrupts.append(now)
        return card_costs.least_gap(arrivals, interrupts, [each + 20_000 for each in interrupts])

    def test_the_least_time_between_interrupts(self) -> None:
        phases = [25_000 + 7000 * (each % 13) for each in range(40)]
        self.assertEqual(self.gaps(128_000, 1000, phases), 128_000)
        self.assertEqual(self.gaps(128_000, 1000, phases[:5]), 0, "too few")
        self.assertEqual(self.gaps(128_000, 1000, [10_000, 300_000] * 20), 0, "during polls, and after that time")
        self.assertEqual(self.gaps(0, 1000, phases), 0, "none")
        self.assertEqual(self.gaps(0, 50_000, phases), 0, "a card's timer, which the packet starts")
        self.assertEqual(self.gaps(0, 50_000, [100_000] * 40), 0, "a processor that wakes late, and packets at one distance")

    def test_the_timeouts_that_timers_were_measured_at(self) -> None:
        head = {"device.a.gro_flush_timeout": "100000", "device.b.gro_flush_timeout": "0", "device.c.gro_flush_timeout": "20000"}
        self.assertEqual(card_costs.timeouts_of(head, ["a", "b", "d"]), [100000])
        self.assertEqual(card_costs.timeouts_of(head, ["a", "c"]), [20000, 100000])


def takes_in(events: Sequence[Found], device: str) -> Iterator[int]:
    """Yields the time from one packet that GRO was given to the next, if the line before that one is the first packet's."""
    of_polls = [(time, said) for time, _, _, _, said in events if said.startswith(("napi_gro_receive", "netif_rec", "napi_poll"))]
    for (before, first), (time, said) in zip(of_polls, of_polls[1:]):
        if all(each.startswith(f"napi_gro_receive_entry: dev={device} ") for each in (first, said)):
            yield time - before


def timers_in(events: Sequence[Found]) -> Iterator[int]:
    """Yields the duration of each handler in which NAPI's timer expired."""
    for place, (time, cpu, _, _, said) in enumerate(events):
        if said.startswith("hrtimer_expire_entry") and "function=napi_watchdog" in said:
            began = next(event[0] for event in events[place::-1] if event[1] == cpu and event[4].startswith("local_timer_entry"))
            ended = next(event[0] for event in events[place:] if event[1] == cpu and event[4].startswith("local_timer_exit"))
            yield ended - began


def timer_wakes_in(events: Sequence[Found], device: str) -> Iterator[int]:
    """Yields the time from a timer's due time to the softirq of its poll, without the handler, if the processor was idle until then."""
    due: dict[str, int] = {}
    for place, (_, cpu, task, _, said) in enumerate(events):
        start = re.match(r"hrtimer_start: hrtimer=(\S+) function=napi_watchdog expires=(\d+)", said)
        expired = re.match(r"hrtimer_expire_entry: hrtimer=(\S+) function=napi_watchdog", said)
        if start:
            due[start[1]] = int(start[2])
        if expired and expired[1] in due and task == "<idle>":
            after = [event for event in events[place + 1 : place + 4] if event[1] == cpu]
            names = [event[4].split(":")[0] for event in after]
            if names[:2] == ["local_timer_exit", "softirq_entry"]:
                began = next(event[0] for event in events[place::-1] if event[4].startswith("local_timer_entry"))
                yield after[1][0] - due[expired[1]] - (after[0][0] - began)


def said_by(events: Sequence[Found], program: str, said: str) -> list[int]:
    return [event[0] for event in events if event[2] == program and re.match(said, event[4])]


def woken_uses_in(events: Sequence[Found], device: str, program: str, call: str) -> Iterator[int]:
    """Yields the time from the end of a poll of one packet, for which the program slept, to the program's next call."""
    polls = [(events[place][0], work) for place, work in timing.polls_of(events, device)]
    sleeps, reads, calls = (said_by(events, program, said) for said in
                            (rf".*prev_comm={program} .*prev_state=S ", rf"sys_{call} -> 0x", rf"sys_{call}\("))
    for slept in sleeps:
        read = next((time for time in reads if time > slept), 0)
        again = next((time for time in calls if read and time > read), 0)
        between = [(time, work) for time, work in polls if again and slept < time < again]
        if again and sum(work for _, work in between) == 1 and between[-1][1] == 1 and between[-1][0] < read:
            yield again - between[-1][0]


class Recorded(unittest.TestCase):
    """Real recordings: e1000 of an emulated machine, with deferral and a program on the processor that polls; and a NAPI thread."""

    def times(self, path: Path, device: str) -> tuple[CardTimes, Timeline, dict[str, Cost], list[str]]:
        times, head = costs.times_in(Words(recording=str(path), device=[device], pair=None, irq=None))
        return times.card, times, *costs.estimated(times, head)

    def same(self, cost: Optional[Cost], values: Sequence[float], what: str) -> None:
        self.assertIsNotNone(cost, what)
        found: Any = cost
        self.assertEqual((found.value, found.count), (statistics.median(values), len(values)), what)
        self.assertGreater(len(values), 8, what)

    def test_interrupts_during_polls(self) -> None:
        """Those of virtio_net's receive queue count, and a driver that asks for interrupts after a poll has none."""
        path = HERE / "recorded-early.rec.gz"
        text = gzip.decompress(path.read_bytes()).decode("ascii")
        self.same(self.times(path, "eth0")[2]["early"], list(early_in(text, 27)), "early")
        self.assertNotIn("early", self.times(HERE / "recorded-card.rec.gz", "eth0")[2])

    def test_a_card(self) -> None:
        path = HERE / "recorded-card.rec.gz"
        events = timing.searched(gzip.decompress(path.read_bytes()).decode("ascii"))
        times, timeline, found, told = self.times(path, "eth0")
        self.same(found["take"], list(takes_in(events, "eth0")), "take")
        uses = [max(0, each - found["use"].value) for each in woken_uses_in(events, "eth0", "receiver", "recvfrom")]
        self.same(found["app-wake"], uses, "app-wake")
        self.same(found["timer"], list(timers_in(events)), "timer")
        self.same(found["timer-wake"], list(timer_wakes_in(events, "eth0")), "timer-wake")
        self.assertNotIn("app-wake", card_costs.known_costs(times, timeline, None, {})[0])
        lines = {name: next(line for line in told if line.startswith(f"{name} ")) for name in ("take", "app-wake", "timer", "timer-wake")}
        self.assertEqual([" at a gro_flush_timeout of 100000 ns, " in line for line in lines.values()], [False, False, True, True])
        takes = statistics.median(takes_in(events, "eth0"))
        self.assertRegex(lines["take"], rf"^take {takes:.0f} ns \(\d+ to \d+\): \d+ pairs of packets, half of them from \d+ to \d+$")
        both = sum(map(len, timeline.handlers.values()))
        self.assertEqual(found["interrupt"].count + found["timer"].count, both)

    def test_a_thread(self) -> None:
        """Between veth devices no packet that GRO is given is recorded. The program reads on the processor of the thread."""
        path = HERE / "recorded-thread.rec"
        events = timing.searched(path.read_text())
        _, _, found, _ = self.times(path, "vb7")
        self.assertNotIn("take", found)
        self.same(found["timer"], list(timers_in(events)), "timer")
        uses = [max(0, each - found["use"].value) for each in woken_uses_in(events, "vb7", "server", "recvmsg")]
        self.same(found["app-wake"], uses, "app-wake")
