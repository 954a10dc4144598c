"""Tests of fintaqush costs, on recordings generated from given costs, and on real ones with plain searches in their lines."""

from __future__ import annotations

import json
import math
import random
import re
import statistics
from collections.abc import Callable, Iterable, Sequence
from typing import Any

from finding import group_in
import timing
from timing import Made
from tooltest import HERE, TOP, InFolder, keys_of, run


def recorded(
    interrupt: int, poll: int, packet: int, unit: int = 1, noise: Callable[[], int] = lambda: 0, threads: bool = False
) -> str:
    """Returns a recording of rounds with these costs in ns: a handler, then a softirq with three polls. Two timers' handlers, one within a poll and
    one without a softirq, must not count."""
    lines: list[str] = []
    time, chance = 10**9, random.Random(3)

    def event(name: str, said: str) -> None:
        stamp = time // unit * unit
        lines.append(f"   <idle>-0     [001] ..s1.  {stamp // 10**9}.{stamp % 10**9:09}: {name}: {said}")

    for round_ in range(200):
        time += 50_000
        event("irq_handler_entry", "irq=25 name=eth0-rx-0")
        time += interrupt + noise()
        event("irq_handler_exit", "irq=25 ret=handled")
        time += 70
        event("softirq_entry", "vec=3 [action=NET_RX]")
        for turn in range(3):
            work = chance.randrange(65)
            time += (poll + packet * work) // 2
            if turn == 1:
                event("irq_handler_entry", "irq=9 name=timer")
                time += 12_345
                event("irq_handler_exit", "irq=9 ret=handled")
            time += poll + packet * work - (poll + packet * work) // 2 + noise() + (900_000 if round_ % 20 == 7 else 0)
            event("napi_poll", f"napi poll on napi struct 0 for device eth0 work {work} budget 64")
        event("softirq_exit", "vec=3 [action=NET_RX]")
        time += 900
        event("irq_handler_entry", "irq=9 name=timer")
        time += 777
        event("irq_handler_exit", "irq=9 ret=handled")
        time += 50
        event("softirq_entry", "vec=1 [action=TIMER]")
        event("softirq_exit", "vec=1 [action=TIMER]")
    return "\n".join(lines) + "\n"


def merged(*texts: str) -> str:
    """Returns the lines of recordings in the order of their times."""
    lines = "".join(texts).splitlines(True)
    return "".join(sorted(lines, key=lambda line: line.split("..s1.")[1].split()[0].rjust(20)))


class Costs(InFolder):
    def told(self, text: str, *words: object) -> str:
        printed = self.succeeds("costs", "-", *words, text=text)
        return printed

    def words(self, text: str, *words: object) -> dict[str, int]:
        return {name: int(value) for name, value in re.findall(r"--(\w+) (\d+)", self.told(text, "--words", *words))}

    def test_costs_that_are_exact(self) -> None:
        """The timers' handlers are neither interrupts of the card nor part of polls; 30 polls of 600 are far too long."""
        text = recorded(2100, 1500, 330)
        self.assertEqual(self.words(text), {"interrupt": 2100, "poll": 1500, "packet": 330})
        told = self.told(text)
        self.assertIn(
            "interrupt 2100 ns (2100 to 2100): 200 handlers of eth0-rx-0 (200), half of them from 2100 to 2100\n", told
        )
        self.assertIn(
            "poll 1500 ns (1500 to 1500), packet 330 ns (330 to 330): 600 polls of 0 to 64 packets by softirqs, of which 30 lie far off and "
            "are left out; the line explains 100 %",
            told,
        )
        self.assertIn("wake: not known: no arrival is in it: record net/net_dev_xmit", told)
        self.assertTrue(
            told.endswith(
                "use: not known: no read of a program is recorded (fintaqush record --program)\n--interrupt 2100 --poll 1500 --packet 330\n"
            )
        )

    def test_costs_that_vary(self) -> None:
        """Within 3 %, also with timestamps in microseconds; and the tool prints how far the polls are from the line."""
        chance = random.Random(5)
        for unit in (1, 1000):
            text = recorded(2000, 3000, 400, unit, lambda: chance.randrange(-200, 201))
            for name, value in self.words(text).items():
                wanted = {"interrupt": 2000, "poll": 3000, "packet": 400}[name]
                self.assertTrue(
                    abs(value - wanted) <= wanted * (0.03 if name != "poll" or unit == 1 else 0.1), (name, value)
                )
            told = self.told(text)
            self.assertRegex(
                told,
                r"the line explains (99|100) % of the others' variation, and half of them are within [0-3] % of it\n",
            )
            self.assertEqual("time stamps are of microseconds" in told, unit == 1000)

    def test_whose_handlers_count(self) -> None:
        text = recorded(2100, 1500, 330)
        self.assertIn(self.words(text, "--irq", "timer")["interrupt"], range(777, 12346))
        self.assertIn("interrupt: not known, of 0 handlers", self.told(text, "--irq", "eth1"))

    def test_what_was_recorded_without_interrupts(self) -> None:
        told = self.told((HERE / "soft-gso-23.txt").read_text())
        self.assertIn("interrupt: not known, of 0 handlers", told)
        self.assertRegex(told, r"\n--poll \d+ --packet \d+\n$")
        done = run("costs", HERE / "soft-tcp.txt")  # its polls take as long with 10 packets as with one
        self.assertEqual((done.returncode, done.stdout), (1, ""))
        self.assertIn("the line explains 0 % of how the times differ", done.stderr)

    def test_what_it_refuses(self) -> None:
        text = recorded(1, 1, 1)
        for without, why in (
            ("softirq_entry", "0 polls in complete softirqs or threads"),
            ("napi_poll", "0 polls in complete softirqs or threads"),
        ):
            self.fails(why, "costs", "-", text="".join(line for line in text.splitlines(True) if without not in line))
        self.assertIn(
            "none of 600 polls took a packet: record while packets come",
            run("costs", "-", text=re.sub(r"work \d+", "work 0", text)).stderr,
        )
        self.assertIn("line 1: no line of ftrace", run("costs", "-", text="what\n").stderr)
        self.assertIn("there is no such file", run("costs", "none").stderr)

    def test_polls_of_one_size(self) -> None:
        """A poll of 2000 and a packet of 400 ns take 2400 together; a poll of three of them 3200. What a poll has of that is between nothing and all."""
        told = self.told(polls_of([(1, 2400)] * 40))
        self.assertIn(
            "poll 1200 ns (0 to 2400), packet 1200 ns (0 to 2400): each of 40 polls took 1 packet, so only what they cost together is known, 2400 ns "
            "(2400 to 2400); half of that counts for the poll. Traffic of which some polls take several packets separates them",
            told,
        )
        self.assertTrue(told.endswith("--poll 1200 --packet 1200\n"), told)
        few = self.told(polls_of([(1, 2400)] * 198 + [(2, 90_000)] * 2))  # of which a line would be through 90 us
        self.assertIn(
            "poll 1200 ns (0 to 2400), packet 1200 ns (0 to 2400): nearly each of 200 polls took 1 packet, so only", few
        )
        for polls, is_separated, packet in (
            ([(3, 3300)] * 40, 0, {"value": 550, "low": 0, "high": 1100}),
            ([(3, 3200), (1, 2400)] * 20, 1, {"value": 400, "low": 400, "high": 400}),
        ):
            found = json.loads(self.told(polls_of(polls), "--json"))
            self.assertEqual(
                (found["is_separated"], {key: found["costs"]["packet"][key] for key in packet}), (is_separated, packet)
            )

    def test_a_processor_that_is_slower(self) -> None:
        """Polls of 1 to 9 packets take 1000 ns and 100 per packet; on processor 2 they take 700 more. Over both the middle is at one of them."""
        fast = polls_of([(work, 1000 + 100 * work + off) for work in range(1, 10) for off in (-10, 0, 10)] * 4)
        slow = polls_of([(work, 1700 + 100 * work + off) for work in range(1, 10) for off in (-10, 0, 10)] * 2).replace(
            "[001]", "[002]"
        )
        told = self.told(fast + slow.replace(" 1.", " 3."))
        ratios = {
            each["processor"]: each["ratio"]
            for each in json.loads(self.told(fast + slow.replace(" 1.", " 3."), "--json"))["ratios"]
        }
        self.assertAlmostEqual(ratios[2] / ratios[1], 2200 / 1500, places=1)  # of the median polls, with five packets
        self.assertRegex(
            told, r"\non processor 2 54 polls take (69\d|70\d) ns more than polls of as many packets on all\n"
        )
        self.assertNotIn("on processor 1 ", told)
        self.assertNotIn("on processor", self.told(fast + fast.replace("[001]", "[002]").replace(" 1.", " 3.")))

    def test_the_polls_of_a_transmit_queue(self) -> None:
        """Its instance takes no packet. With its 200 polls of 90 us and its interrupts' handlers of 7000 ns the line would be another one."""
        text = recorded(2100, 1500, 330)
        other = (
            re.sub(r"work \d+", "work 0", recorded(7000, 90_000, 0))
            .replace("struct 0 ", "struct 1 ")
            .replace("[001]", "[002]")
            .replace("eth0-rx-0", "eth0-tx-0")
        )
        both = merged(text, other)
        self.assertEqual(self.words(both), {"interrupt": 2100, "poll": 1500, "packet": 330})
        self.assertIn("600 polls of transmit instances of eth0, which took no packet, are left out\n", self.told(both))

    def test_a_line_that_explains_nothing(self) -> None:
        """Times of 1 to 9 packets that don't grow with the packets: 1000 and 9000 ns equally often for each number. Then 410 ns more per packet, but with
        so much other variation that the line explains little: the tool prints a warning on standard error."""
        polls = [(work, took) for work in range(1, 10) for took in (1000, 9000) * 20]
        said = self.fails(
            "over 360 polls of 1 to 9 packets the time doesn't grow with them (the line explains 0 % of how the times differ)",
            "costs",
            "-",
            "--words",
            text=polls_of(polls),
        )
        self.assertEqual(said.count("\n"), 1)
        done = run(
            "costs",
            "-",
            "--words",
            text=polls_of([(1, 2000), (1, 9000), (2, 9600), (2, 2600)] * 3 + [(3, 2900), (3, 9900)] * 2),
        )
        self.assertTrue(
            (done.returncode, done.stdout) == (1, "")
            and "explains" in done.stderr
            or "can't be distinguished from 0" in done.stderr,
            done.stderr,
        )

    def test_the_backlog_is_left_out(self) -> None:
        """If a device polls. The backlog's polls take ten times as long."""
        text = recorded(2100, 1500, 330)
        backlog = (
            recorded(21000, 15000, 3300)
            .replace("[001]", "[002]")
            .replace("device eth0", "device (no_device)")
            .replace("eth0-rx-0", "other")
        )
        both = merged(text, backlog)
        told = self.told(both)
        self.assertTrue(told.endswith("--interrupt 2100 --poll 1500 --packet 330\n"), told)
        self.assertIn(
            "600 polls of a processor's backlog, (no_device), are left out, because devices poll; --device '(no_device)' takes only these\n",
            told,
        )
        self.assertEqual(
            self.words(both, "--device", "(no_device)"), {"interrupt": 21000, "poll": 15000, "packet": 3300}
        )
        self.assertEqual(self.words(backlog), {"interrupt": 21000, "poll": 15000, "packet": 3300})
        more = self.told(text + text.replace("eth0 work", "eth1 work").replace("[001]", "[002]"))
        self.assertIn("polls of several devices are combined: eth0, eth1; --device takes those of one\n", more)

    def test_the_interrupts_of_another_card(self) -> None:
        """A disk's interrupt ends 20 ns before each softirq; the card's, 50 ns earlier, requested it. fintaqush record knows the card's."""
        text = "".join(
            line if "softirq_entry: vec=3" not in line else self.disk(line) + line
            for line in recorded(2100, 1500, 330).splitlines(True)
        )
        lines = [line for line in text.splitlines(True)]
        head = "fintaqush-recording 1\nlost 0\nlines {}\ndevice eth0\npolled eth0\ndevice.eth0.irq.25.name eth0-rx-0\n{}trace\n"
        self.assertIn(" --poll 1500 --packet 330\n", self.told(text))
        self.assertIn("handlers of virtio3-requests (200)", self.told(text))
        known = self.told(head.format(len(lines), "") + text)
        self.assertIn("interrupt 2100 ns (2100 to 2100): 200 handlers of eth0-rx-0 (200)", known)

    @staticmethod
    def disk(line: str) -> str:
        """Returns the interrupt before a softirq."""
        at = re.search(r"(\d+)\.(\d{9}): ", line)
        assert at
        time = int(at[1]) * 10**9 + int(at[2])
        return "".join(
            f"   <idle>-0     [001] d.h1.  {each // 10**9}.{each % 10**9:09}: {said}\n"
            for each, said in (
                (time - 50, "irq_handler_entry: irq=30 name=virtio3-requests"),
                (time - 20, "irq_handler_exit: irq=30 ret=handled"),
            )
        )


def line_of(points: Sequence[tuple[int, int]]) -> tuple[float, float]:
    """Returns the slope and the start of the least-squares line, as statistics.linear_regression does, which Python has since 3.10."""
    middles = [math.fsum(values) / len(points) for values in zip(*points)]
    slope = math.fsum((x - middles[0]) * (y - middles[1]) for x, y in points) / math.fsum(
        (x - middles[0]) ** 2 for x, _ in points
    )
    return slope, middles[1] - slope * middles[0]


def polls_of(polls: Iterable[tuple[int, int]]) -> str:
    """Returns a recording of softirqs with one poll each, with these packets and ns."""
    lines, time = [], 10**9
    for work, took in polls:
        for said in (
            "softirq_entry: vec=3 [action=NET_RX]",
            f"napi_poll: napi poll on napi struct 0 for device eth0 work {work} budget 64",
            "softirq_exit: vec=3 [action=NET_RX]",
        ):
            time += took if "poll" in said else 1
            lines.append(f"   <idle>-0     [001] ..s1.  {time // 10**9}.{time % 10**9:09}: {said}\n")
        time += 100_000
    return "".join(lines)


class Modelled(InFolder):
    """The costs that a recording was generated from are the estimated ones, to a nanosecond."""

    COSTS = {"interrupt": 1700, "poll": 2600, "packet": 410, "wake": 3300, "use": 5200, "app-wake": 2450, "read": 900}
    PAIR = ("--pair", "va1:vb1")

    def costs(self, made: Made | str, *words: object) -> tuple[Any, dict[str, int]]:
        printed = self.succeeds(
            "costs", "-", "--json", *self.PAIR, *words, text=made if isinstance(made, str) else made.text()
        )
        told = json.loads(printed)
        self.assertEqual([name for name in keys_of(told) if not name.isidentifier()], [])
        return told, {name.replace("_", "-"): cost["value"] for name, cost in told["costs"].items()}

    def wanted(self, *names: str) -> dict[str, int]:
        return {name: self.COSTS[name] for name in names}

    def rounds(self, reader: int, count: int = 60, waking: int = 0, most: int = 39) -> Made:
        """Generates softirqs of one to three polls, of which the first wakes the program, and the reads of their packets."""
        made, chance = Made(**self.COSTS), random.Random(4)
        made.reader = reader
        made.switch(made.time - 9000, timing.POLLER, "other-5", "swapper/3-0")
        made.call(made.time - 8000)
        made.switch(made.time - 7000, reader, "server-60", "swapper/9-0")
        for place in range(count):
            works = [1] if place % 2 else [chance.randrange(2, most + 1) for _ in range(1 + place % 3)]
            made.time = made.read(made.softirq_round(works, more=waking), sum(works)) + 150_000
        return made

    def test_softirqs_by_interrupts_between_processors(self) -> None:
        """The program reads on another processor. app-wake is estimated from single packets, use from the others."""
        made = self.rounds(reader=5)
        told, costs = self.costs(made)
        self.assertEqual(costs, self.wanted("interrupt", "poll", "packet", "wake", "use", "app-wake"))
        self.assertEqual(
            (told["apart"], told["threaded"], told["processor"], told["dropped"]), (1, 0, timing.POLLER, 0)
        )
        self.assertEqual(
            told["options"], "--interrupt 1700 --poll 2600 --packet 410 --wake 3300 --use 5200 --app-wake 2450"
        )
        self.assertEqual([told["costs"][name]["count"] for name in ("interrupt", "wake", "app_wake")], [60, 60, 30])
        self.assertEqual(told["costs"]["poll"]["explained"], 1)
        self.assertEqual([told["costs"]["poll"][end] for end in ("low", "high")], [2600, 2600])

    def test_a_program_on_the_processor_that_polls(self) -> None:
        """A packet for which it slept costs app-wake more than its use, from the end of the poll to the next read."""
        told, costs = self.costs(self.rounds(reader=timing.POLLER))
        self.assertEqual(costs, self.wanted("interrupt", "poll", "packet", "wake", "use", "app-wake"))
        self.assertEqual((told["apart"], told["costs"]["app_wake"]["count"]), (0, 30))

    def test_polls_that_wake_the_program(self) -> None:
        """On the processor that polls they are a kind of their own; if the program reads on another one, that is a part of the polls. Half of
        the 120 polls that wake take one packet, as no other poll does, so only the other 60 count."""
        told, costs = self.costs(self.rounds(timing.POLLER, 120, waking=2700, most=5))
        self.assertEqual(
            costs, {**self.wanted("interrupt", "poll", "packet", "wake", "use", "app-wake"), "poll-wake": 2700}
        )
        self.assertEqual(
            (told["costs"]["poll_wake"]["count"], told["options"].split()[-2:]), (60, ["--poll-wake", "2700"])
        )
        self.assertNotIn("poll-wake", self.costs(self.rounds(5, 120, waking=2700))[1])

    def test_polls_that_start_the_timer(self) -> None:
        """Every second one does, and the timer's poll finds no packet, of 40 or, which are too few, of 30."""
        cases: list[tuple[int, dict[str, int]]] = [(40, {"arm": 2100}), (30, {})]
        for count, wanted in cases:
            made = Made(**self.COSTS)
            for place in range(2 * count):
                arms = place % 2 == 0
                end = made.softirq_round([2 + place // 2 % 5], more=2100 * arms * bool(wanted))
                made.time = (made.timer_round(end, 60_000) if arms else end) + 150_000
            costs = self.costs(made)[1]
            self.assertEqual(
                costs,
                {
                    **self.wanted("poll", "packet"),
                    **wanted,
                    **{name: costs[name] for name in costs if name not in ("poll", "packet", "arm")},
                },
            )

    def test_packets_that_are_dropped_are_no_packets_of_polls(self) -> None:
        made = self.rounds(reader=5)
        for place in range(200):
            made.sent(10**12 + place * 1_000_003, 1, code=1)
        told, costs = self.costs(made)
        self.assertEqual((costs["wake"], told["dropped"]), (3300, 200))

    def test_threads_by_timers_and_by_packets(self) -> None:
        """A wake-up by a timer begins when the timer was due, not when it ran."""
        for share in (0, 1, 3):  # of four rounds, those woken by a timer
            made, chance = Made(**self.COSTS), random.Random(6)
            made.switch(made.time - 9000, timing.POLLER, "other-5", "swapper/3-0")
            for place in range(120):
                by_timer = place > 0 and place % 4 < share
                end = made.thread_round(chance.randrange(1, 30), by_timer)
                made.time = end + 20_000
            told, costs = self.costs(made)
            timer = {"timer": self.COSTS["interrupt"], "timer-wake": self.COSTS["wake"]} if share else {}
            self.assertEqual(
                (costs, told["threaded"]), ({**self.wanted("interrupt", "poll", "packet", "wake"), **timer}, 1)
            )
            self.assertEqual("timers on an idle processor" in " ".join(told["text"]), share > 0)

    def test_timers_take_longer(self) -> None:
        """An interrupt takes 1700 ns and a timer 4400: the median of both is neither. With timers only, an interrupt counts as long as these."""
        made = Made(**self.COSTS)
        made.switch(made.time - 9000, timing.POLLER, "other-5", "swapper/3-0")
        for place in range(121):
            by_timer = place % 4 > 0
            made.costs["interrupt"] = 4400 if by_timer else 1700
            made.time = made.thread_round(1 + place % 7, by_timer) + 20_000
        told, costs = self.costs(made)
        self.assertEqual((costs["interrupt"], costs["timer"]), (1700, 4400))
        self.assertIn("--interrupt 1700 --timer 4400 ", told["options"])
        only = Made(**{**self.COSTS, "interrupt": 4400})
        for place in range(60):
            only.time = only.thread_round(1 + place % 7, place > 0) + 20_000
        told, costs = self.costs(only)
        self.assertEqual((costs["interrupt"], costs["timer"]), (4400, 4400))
        self.assertIn(
            "interrupt: not known, so that of a timer counts: nearly all polls are by NAPI's timer", told["text"]
        )

    def test_a_wake_up_that_the_scheduler_decides(self) -> None:
        """Another task has the processor when the packets come, for 2 ms: no cost of waking an idle processor."""
        made = Made(**{**self.COSTS, "wake": 2_000_000})
        for place in range(40):
            made.switch(made.time - 9000, timing.POLLER, "swapper/3-0", "cc1-77", "R")
            end = made.thread_round(1 + place % 7, False)
            made.time = end + 50_000
        text = made.text().replace(
            "prev_comm=swapper/3 prev_pid=0 prev_prio=120 prev_state=R ==> next_comm=napi",
            "prev_comm=cc1 prev_pid=77 prev_prio=120 prev_state=R ==> next_comm=napi",
        )
        told, costs = self.costs(text)
        self.assertNotIn("wake", costs)
        self.assertIn(
            "wake: not known: of 40 wake-ups 40 waited for another task that had the processor, half of them for 2000 us or more, which the scheduler decides: record on a "
            "processor that does nothing else",
            told["text"],
        )

    def test_another_pair(self) -> None:
        """--device takes only its own pair's packets; of two pairs without it, all."""
        made = self.rounds(reader=5)
        for place in range(60):
            made.event(10**12 + place * 700_001, 1, "other-5", "net_dev_xmit: dev=va2 skbaddr=0 len=100 rc=0")
        text = made.text()
        head = f"fintaqush-recording 1\nlost 0\nlines {len(text.splitlines())}\ndevice vb1 vb2\npair va1:vb1 va2:vb2\npolled vb1 vb2\ntrace\n"
        both = json.loads(run("costs", "-", "--json", text=head + text).stdout)
        own = json.loads(run("costs", "-", "--json", "--device", "vb1", text=head + text).stdout)
        self.assertEqual(
            (own["came"], both["came"] - own["came"], own["costs"]["wake"]["value"]), (own["delivered"], 60, 3300)
        )

    def two_queues(self, by: str) -> list[tuple[int, str]]:
        """Returns a recording of two instances, each on its processor, which get packets in turn: rounds of 20 to 40 us apart, so that a packet of
        one often comes during the other's poll. `by` is how a packet's instance is known."""
        parts: list[tuple[int, str]] = []
        for place, cpu in enumerate((timing.POLLER, 1)):
            made, chance = Made(**self.COSTS), random.Random(place)
            made.time += 13_000 * place
            for _ in range(60):
                made.time = made.softirq_round([chance.randrange(1, 20)]) + chance.randrange(20_000, 40_000)
            for number, (time, line) in enumerate(made.lines):
                line = (
                    line.replace(f"[{timing.POLLER:03}]", f"[{cpu:03}]")
                    .replace("struct 0 ", f"struct a{place} ")
                    .replace("skbaddr=0", f"skbaddr={place}{number:x}")
                )
                parts.append((time, line))
                if "net_dev_xmit" in line and by == "queue":
                    parts.append(
                        (
                            time - 1,
                            re.sub(r"net_dev_xmit: (.*) len=.*", r"net_dev_start_xmit: \1 vlan_tagged=0", line).replace(
                                "skbaddr", f"queue_mapping={place} skbaddr"
                            ),
                        )
                    )
        return sorted(parts, key=lambda line: line[0])

    def test_the_packets_of_two_queues(self) -> None:
        """Each instance's wake-ups are those by packets of its queue: 3300 ns. With the queues exchanged, packets and polls don't match."""
        lines = self.two_queues("queue")
        head = (
            "fintaqush-recording 1\nlost 0\nlines {}\ndevice vb1\npair va1:vb1\npolled vb1\ninstance.1 device vb1 napi a0 queue {} kind receive polls 60 packets 9 on 3:60:9\n"
            "instance.2 device vb1 napi a1 queue {} kind receive polls 60 packets 9 on 1:60:9\ntrace\n"
        )
        text = "".join(f"{line}\n" for _, line in lines)
        told = json.loads(run("costs", "-", "--json", text=head.format(len(lines), 0, 1) + text).stdout)
        self.assertEqual(
            (told["costs"]["wake"]["value"], told["costs"]["wake"]["count"], told["costs"]["poll"]["value"]),
            (3300, 120, 2600),
        )
        wrong = json.loads(run("costs", "-", "--json", text=head.format(len(lines), 1, 0) + text).stdout)
        self.assertNotIn("wake", wrong["costs"])
        self.assertTrue(any(line.startswith("wake: not known: of ") for line in wrong["text"]), wrong["text"])

    def test_packets_that_rps_moves(self) -> None:
        """A packet is in the backlog of the processor that receives it. Other traffic's packets there aren't the device's."""
        made = self.two_queues("stack")
        lines: list[tuple[int, str]] = []
        for time, line in made:
            lines.append((time, line.replace("for device vb1", "for device (no_device)")))
            if "net_dev_xmit" in line:
                packet = group_in(r"skbaddr=(\d\w+)", line)
                cpu = timing.POLLER if packet[0] == "0" else 1
                end = next(
                    each for each, other in made if each > time and "napi_poll" in other and f"[{cpu:03}]" in other
                )
                lines.append(
                    (
                        end - 5,
                        f"          <idle>-0    [{cpu:03}] ..s1. {(end - 5) // 10**9}.{(end - 5) % 10**9:09}: netif_receive_skb: dev=vb1 skbaddr={packet} len=86",
                    )
                )
        for place in range(300):  # of another device
            time = 10**12 + place * 9001
            lines.append(
                (
                    time,
                    f"          <idle>-0    [003] ..s1. {time // 10**9}.{time % 10**9:09}: netif_receive_skb: dev=eth0 skbaddr=f{place:x} len=86",
                )
            )
        lines.sort(key=lambda each: each[0])
        head = (
            f"fintaqush-recording 1\nlost 0\nlines {len(lines)}\nevents net/netif_receive_skb\ndevice vb1\npair va1:vb1\npolled (no_device)\n"
            "instance.1 device (no_device) napi a0 kind receive polls 60 packets 9 on 3:60:9\ninstance.2 device (no_device) napi a1 kind receive polls 60 packets 9 on 1:60:9\ntrace\n"
        )
        told = json.loads(run("costs", "-", "--json", text=head + "".join(f"{line}\n" for _, line in lines)).stdout)
        self.assertEqual(
            (told["costs"]["wake"]["value"], told["costs"]["wake"]["count"], told["came"], told["delivered"]),
            (3300, 120, told["came"], told["came"]),
        )

    def test_polls_that_no_interrupt_asks_for(self) -> None:
        """A sender on the same processor raises softirqs without interrupts. Then the cost of an interrupt is printed only if it is known to be 0."""
        made = self.rounds(reader=5)
        made.lines = [line for line in made.lines if "call_function_single" not in line[1]]
        self.assertNotIn("interrupt", self.costs(made)[1])
        made.handler(made.time + 10**6, "local_timer")
        self.assertEqual(self.costs(made)[1]["interrupt"], 0)

    def test_a_stream_has_no_use(self) -> None:
        """Its reads aren't packets: each read takes the bytes of several packets, as that of a program that is too slow seems to, or of a part of one."""
        for kept, why in (
            (0, "the program reads too slowly, or several packets at once"),
            (2, "a read isn't one packet"),
        ):
            made = self.rounds(reader=5)
            reads = [line for line in made.lines if "sys_recvmsg ->" in line[1]]
            made.lines = [line for line in made.lines if line not in reads[1::2]] + kept * reads[::2]
            told, costs = self.costs(made)
            self.assertNotIn("use", costs)
            self.assertTrue(
                any(
                    line.startswith("use: not known: ") and line.endswith(f" packets that polls took: {why}")
                    for line in told["text"]
                )
            )

    def test_a_quiet_recording_has_no_use(self) -> None:
        """The time between single packets isn't their use."""
        made = Made(**self.COSTS)
        made.reader = 5
        made.switch(made.time - 9000, timing.POLLER, "other-5", "swapper/3-0")
        made.switch(made.time - 9000, 5, "server-60", "swapper/5-0")
        for place in range(40):
            made.time = made.read(made.softirq_round([1] if place % 4 else [2, 1]), 1 if place % 4 else 3) + 100_000
        _, costs = self.costs(made)
        self.assertEqual(costs["use"], 5200)
        lone = Made(**self.COSTS)
        lone.reader = 5
        lone.switch(lone.time - 9000, timing.POLLER, "other-5", "swapper/3-0")
        for place in range(40):
            end = lone.softirq_round([1, 0] if place % 2 else [1])
            lone.time = lone.read(end, 1) + 100_000
        told, costs = self.costs(lone)
        self.assertNotIn("use", costs)
        self.assertIn(
            "use: not known: of 40 packets 0 waited while another one was used; record a higher load", told["text"]
        )

    def test_another_device_is_left_out(self) -> None:
        made = self.rounds(reader=5)
        for place in range(100):
            made.event(10**12 + place * 999_999, 1, "other-5", "softirq_entry: vec=3 [action=NET_RX]")
            made.event(
                10**12 + place * 999_999 + 77_777,
                1,
                "other-5",
                f"napi_poll: napi poll on napi struct 0 for device eth9 work {place % 9} budget 64",
            )
            made.event(10**12 + place * 999_999 + 77_778, 1, "other-5", "softirq_exit: vec=3 [action=NET_RX]")
        told, costs = self.costs(made, "--device", "vb1")
        self.assertEqual(
            (costs["poll"], costs["packet"], told["polls_on"]),
            (2600, 410, [{"processor": timing.POLLER, "polls": told["polls"]}]),
        )

    def test_a_fit_that_is_worse_than_useless(self) -> None:
        """Times that fall with the number of packets; and, with a note, times that don't depend on it."""

        def made(time_of: Callable[[int], int]) -> str:
            made = Made(**self.COSTS)
            for _ in range(200):
                work = chance.randrange(1, 4)
                made.costs["poll"], made.costs["packet"] = time_of(work), 0
                made.time = made.softirq_round([work]) + 50_000
            return made.text()

        chance = random.Random(1)
        done = run("costs", "-", text=made(lambda work: 20_000 // work))
        self.assertEqual((done.returncode, done.stdout), (1, ""))
        self.assertEqual(
            done.stderr,
            "fintaqush costs: -: what a packet costs isn't known: over 200 polls of 1 to 3 packets the time doesn't grow with them (the line explains "
            "0 % of how the times differ): record more varied traffic, on a processor that does nothing else\n",
        )
        done = run("costs", "-", text=made(lambda work: chance.randrange(1000, 90_000)))
        self.assertTrue("doesn't grow with them" in done.stderr or "can't be distinguished from 0" in done.stdout)

    def test_a_run_that_goes_on_with_what_a_full_poll_left(self) -> None:
        """Its first poll begins at the end of the full one, even if the kernel took 4000 ns to continue."""
        made = Made(**self.COSTS)
        made.costs["interrupt"] = 0
        for place in range(60):
            begin = made.time
            made.event(begin, timing.POLLER, "<idle>-0", "softirq_entry: vec=3 [action=NET_RX]")
            end = made.polled(begin, "<idle>-0", 64)
            made.event(end + 100, timing.POLLER, "<idle>-0", "softirq_exit: vec=3 [action=NET_RX]")
            made.event(end + 4000, timing.POLLER, "<idle>-0", "softirq_entry: vec=3 [action=NET_RX]")
            made.costs["poll"] -= 4000
            end = made.polled(end + 4000, "<idle>-0", 10 + place % 5)
            made.costs["poll"] += 4000
            made.event(end + 100, timing.POLLER, "<idle>-0", "softirq_exit: vec=3 [action=NET_RX]")
            made.time = end + 90_000
        _, costs = self.costs(made)
        self.assertEqual((costs["poll"], costs["packet"]), (2600, 410))

    def test_names_that_ftrace_did_not_keep(self) -> None:
        """`<...>` is the task that the processor switched to."""
        made, chance = Made(**self.COSTS), random.Random(6)
        made.switch(made.time - 9000, timing.POLLER, "other-5", "swapper/3-0")
        for place in range(60):
            made.time = made.thread_round(chance.randrange(1, 30), False) + 20_000
        told, costs = self.costs(made.text().replace("napi/vb1-9-50 [", "<...>-50 ["))
        self.assertEqual((costs, told["threaded"]), (self.wanted("interrupt", "poll", "packet", "wake"), 1))

    def test_a_packet_whose_event_comes_after_its_poll(self) -> None:
        """The sender's event comes after the sending: a poll on another processor may be earlier. Half of the packets here are such."""
        made = self.rounds(reader=5)
        for place in range(400):
            made.time = made.read(made.softirq_round([1], is_early=place % 2 == 0), 1) + 100_000
        told, costs = self.costs(made)
        self.assertEqual((costs["wake"], told["costs"]["wake"]["count"]), (3300, 260))

    def test_a_program_that_never_sleeps(self) -> None:
        """It polls for packets: the time between two reads is a use only if the second packet was there at the first read."""
        made = self.rounds(reader=5)
        made.lines = [line for line in made.lines if "server" not in line[1]]
        for time, line in list(made.lines):
            if "napi_poll" in line:
                for place in range(int(group_in(r"work (\d+)", line))):
                    made.event(time + 900 + 10 * place, 5, "server-60", "sys_recvmsg -> 0x64")
                    made.call(time + 905 + 10 * place)
        told, costs = self.costs(made)
        self.assertEqual(costs["use"], 10)
        alone = Made(**self.COSTS)
        alone.reader = 5
        for place in range(60):
            end = alone.softirq_round([1 + place % 2])
            for each in range(1 + place % 2):
                alone.event(end - 1 + each, 5, "server-60", "sys_recvmsg -> 0x64")
                alone.call(end + 3 + each)
            alone.time = end + 100_000
        self.assertNotIn("use", self.costs(alone)[1])

    def test_an_interrupt_is_no_part_of_a_use(self) -> None:
        """In each use an interrupt takes 300 ns and a softirq 700, including another interrupt in it."""
        made = self.rounds(reader=5)
        for time in [time for time, line in made.lines if "sys_recvmsg ->" in line]:
            for after, said in (
                (1, "local_timer_entry: vector=236"),
                (301, "local_timer_exit: vector=236"),
                (400, "softirq_entry: vec=3 [action=NET_RX]"),
                (500, "reschedule_entry: vector=253"),
                (600, "reschedule_exit: vector=253"),
                (1100, "softirq_exit: vec=3 [action=NET_RX]"),
            ):
                made.event(time + after, 5, "server-60", said)
        self.assertEqual(self.costs(made)[1]["use"], self.COSTS["use"] - 1000)

    def test_other_tasks_are_told(self) -> None:
        """Another task has a quarter of the time."""
        made = self.rounds(reader=5)
        begin, end = min(made.lines)[0], max(made.lines)[0]
        made.event(
            end + (end - begin) // 3,
            timing.POLLER,
            "hog-8",
            "sched_switch: prev_comm=hog prev_pid=8 prev_prio=120 prev_state=R ==> "
            "next_comm=swapper/3 next_pid=0 next_prio=120",
        )
        made.switch(end + 1, timing.POLLER, "swapper/3-0", "hog-8", "R")
        told, _ = self.costs(made)
        self.assertAlmostEqual({each["task"]: each["share"] for each in told["tasks"]}["hog"], 0.25, delta=0.01)


def parted(times: Iterable[tuple[int, bool]]) -> tuple[list[int], list[int]]:
    """Returns the times that aren't a timer's, and those that are."""
    every = list(times)
    return [took for took, by_timer in every if not by_timer], [took for took, by_timer in every if by_timer]


class Recorded(InFolder):
    """Real recordings: a backlog by RPS, a thread with deferral, and a program on another processor. Plain searches find the same values."""

    def check(
        self, name: str, device: str, counts: list[int]
    ) -> tuple[dict[str, tuple[int, int]], list[int], list[int]]:
        path = TOP / "examples/veth-backlog.rec" if name == "backlog" else HERE / f"recorded-{name}.rec"
        events = timing.searched(path.read_text())
        told = json.loads(self.succeeds("costs", path, "--json"))
        found = {cost.replace("_", "-"): (each["value"], each["count"]) for cost, each in told["costs"].items()}
        polls = list(timing.poll_times(events, device))
        interrupts, timers = parted(
            filter(None, (timing.before_run(events, place) for *_, place in polls if place is not None))
        )
        wakes, timer_wakes = parted(timing.wakes_of(events, device))
        uses, calls, lone = timing.reads_of(events, device)
        self.assertEqual((told["polls"], told["polled"], told["processor"]), (len(polls), [device], 3))
        found_of_each: list[Sequence[object]] = [polls, interrupts, wakes, timer_wakes, uses, lone]
        self.assertEqual([len(each) for each in found_of_each], counts)
        # If there are too few interrupts, or wake-ups by packets, a timer counts.
        every = {
            "interrupt": interrupts if len(interrupts) >= 8 else timers,
            "wake": wakes if len(wakes) >= 8 else timer_wakes,
            "use": uses,
        }
        every |= {"timer": timers, "timer-wake": timer_wakes} if timers else {}
        for cost, values in every.items():
            self.assertEqual(found[cost], (timing.middle(values), len(values)), cost)
        self.assertEqual(set(found) & {"timer", "timer-wake"}, set(every) & {"timer", "timer-wake"})
        self.check_line(polls, told["costs"])
        return found, calls, lone

    def check_line(self, polls: Sequence[tuple[int, int, int, int | None]], costs: dict[str, Any]) -> None:
        """Checks the least-squares line, without values over three deviations off the line over all."""
        points = [(work, took) for work, took, *_ in polls]
        for _ in range(2):
            slope, start = line_of(points)
            far = 3 * 1.4826 * statistics.median(abs(took - start - slope * work) for work, took in points)
            kept, points = points, [(work, took) for work, took in points if abs(took - start - slope * work) <= far]
        self.assertEqual(
            (costs["poll"]["count"], costs["poll"]["value"], costs["packet"]["value"]),
            (len(kept), round(start), round(slope)),
        )
        self.assertTrue(0 < costs["poll"]["explained"] < 1)
        self.assertTrue(costs["packet"]["low"] < slope < costs["packet"]["high"])

    def test_a_backlog(self) -> None:
        found, _, _ = self.check("backlog", "(no_device)", [22, 22, 13, 0, 104, 1])
        self.assertNotIn("app-wake", found)

    def test_a_thread_with_timers(self) -> None:
        found, _, lone = self.check("thread", "vb7", [33, 4, 3, 29, 9, 17])
        self.assertEqual(found["app-wake"][1], len(lone))

    def test_a_program_on_another_processor(self) -> None:
        found, calls, lone = self.check("apart", "vb7", [31, 25, 26, 0, 36, 9])
        self.assertEqual(
            found["app-wake"], (timing.middle(max(0, each - statistics.median(calls)) for each in lone), 9)
        )

    def test_what_it_refuses(self) -> None:
        """Cut at any place, with lost events, of a kernel without the events, or of another version."""
        text = (TOP / "examples/veth-backlog.rec").read_text()
        for changed, why in (
            (text[:-30], "isn't whole"),
            (text[: text.rindex("\n", 0, -2) + 1], "it is cut: 622 of 623 events are there"),
            (text[:1000], "it is cut: its head has no end"),
            ("", "it is empty"),
            ("fintaqush-recording 1\n", "its head has no end"),
            (text.replace("\nlost 0\n", "\nlost 5\n"), "the kernel lost 5 events, so results would be wrong"),
            (text.replace("recording 1", "recording 3"), "another version of fintaqush record wrote it"),
            (text.replace("\nlines 623", "\nlines 9"), "it is cut: 623 of 9 events"),
            (
                re.sub(r".*(napi_poll|softirq_e).*\n", "", text).replace("lines 623", "lines 513"),
                "0 polls of (no_device) in complete softirqs or threads",
            ),
        ):
            said = self.fails(why, "costs", "-", text=changed)
            self.assertEqual(said.count("\n"), 1)
