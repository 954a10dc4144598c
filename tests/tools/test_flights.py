"""Tests of the flight of interrupts between processors, on events with times that are computed by hand from its definition: the time from a packet
that one processor puts into the backlog of another one, which runs a task, until the handler there begins."""

from __future__ import annotations

import json
import unittest
from collections.abc import Sequence

from tooltest import HAS_MACHINE, HERE, MACHINE, InFolder, run
import timing

from fintaqush_tools import bands, choosing, predicting
from fintaqush_tools.commands import costs
from fintaqush_tools.flights import as_timer
from fintaqush_tools.instances import Routes
from fintaqush_tools.recording import Texts

SENDER, POLLER = 2, 3  # processors
HANDLER, LATE, POLL, PACKET = 300, 100, 1000, 500  # ns: the handler, from its end to the softirq, a poll and each of its packets
IPI = "call_function_single"
IDLE, OTHER, PROGRAM = "swapper/3-0", "cc1-77", "server-60"
Line = tuple[int, int, str, str]  # time, processor, task and text


def entry(softirq: int = 3) -> str:
    return f"softirq_entry: vec={softirq} [action=NET_RX]"


def sent(time: int, cpu: int = SENDER, task: str = "sender-7", packet: str = "0") -> Line:
    return time, cpu, task, f"net_dev_xmit: dev=va1 skbaddr={packet} len=100 rc=0"


def switch(time: int, before: str, after: str, cpu: int = POLLER) -> Line:
    (comm, pid), (name, number) = before.rsplit("-", 1), after.rsplit("-", 1)
    said = f"prev_comm={comm} prev_pid={pid} prev_prio=120 prev_state=R ==> next_comm={name} next_pid={number} next_prio=120"
    return time, cpu, before, f"sched_switch: {said}"


def polled(began: int, work: int = 1, task: str = OTHER, name: str = "(no_device)", handler: str = IPI) -> list[Line]:
    """Returns an interrupt on the polling processor, whose handler begins at that time, and the poll that it requests."""
    softirq = began + HANDLER + LATE
    end = softirq + POLL + work * PACKET
    return [(began, POLLER, task, f"{handler}_entry: vector=251"), (began + HANDLER, POLLER, task, f"{handler}_exit: vector=251"),
            (softirq, POLLER, task, entry()), (end, POLLER, task, f"napi_poll: napi poll on napi struct 0 for device {name} work {work} budget 64"),
            (end, POLLER, task, "softirq_exit: vec=3 [action=NET_RX]")]


def text_of(lines: Sequence[Line], since: int = 10**9) -> str:
    rows = sorted(((since + time, cpu, task, said) for time, cpu, task, said in lines), key=lambda row: row[0])
    return "".join(f"{task.rjust(20)} [{cpu:03}] ..... {time // 10**9}.{time % 10**9:09}: {said}\n" for time, cpu, task, said in rows)


def times_in(*lines: Line) -> costs.Times:
    times = costs.Times(Routes({}, {"va1": "vb1"}), [], None, [])
    Texts([times], []).add(text_of(lines))
    return times


def flights(*lines: Line, running: str = OTHER) -> list[int]:
    """Returns the flights of these events. The task runs on the polling processor from 100 on."""
    return times_in(switch(100, IDLE, running), *lines).flights.took


def busy(count: int, flight: int, period: int = 100_000, work: int = 1, running: str = OTHER) -> list[Line]:
    """Returns polls on a processor that runs a task, each of so many packets that are sent at the same time."""
    lines = [switch(100, IDLE, running)]
    for begin in range(period, (count + 1) * period, period):
        lines += [sent(begin) for _ in range(work)] + polled(begin + flight, work, running)
    return lines


class Definition(unittest.TestCase):
    def test_from_the_packet_to_the_handler(self) -> None:
        """Sent at 10,000; the handler begins at 12,700 and the softirq 400 later, which isn't a part of the flight."""
        self.assertEqual(flights(sent(10_000), *polled(12_700)), [2_700])

    def test_whatever_runs(self) -> None:
        """The program that reads, another task, or a softirq of ksoftirqd."""
        for task in (PROGRAM, OTHER, "ksoftirqd/3-33"):
            self.assertEqual(flights(sent(10_000), *polled(12_700, task=task), running=task), [2_700], task)

    def test_an_idle_processor_wakes_first(self) -> None:
        self.assertEqual(flights(sent(10_000), *polled(12_700, task=IDLE), running=IDLE), [])

    def test_the_task_runs_when_the_packet_comes(self) -> None:
        """It begins at 10,000, as the packet is sent, or one ns later. Without switches nothing is known of the tasks."""
        for begin, wanted in ((10_000, [2_700]), (10_001, [])):
            self.assertEqual(flights(switch(begin, IDLE, PROGRAM), sent(10_000), *polled(12_700, task=PROGRAM), running=IDLE), wanted)
        self.assertEqual(times_in(sent(10_000), *polled(12_700)).flights.took, [])

    def test_the_first_packet_since_the_last_poll_counts(self) -> None:
        """Those of 10,900 and 14,000 go into a backlog that is scheduled already. The poll of the first three ends at 15,600."""
        first = [sent(10_000), sent(10_900), sent(14_000), *polled(12_700, 3)]
        self.assertEqual(flights(*first, sent(15_600), *polled(18_100)), [2_700, 2_500])
        self.assertEqual(flights(*first, sent(15_599), *polled(18_100)), [2_700])

    def test_the_handler_follows_the_packet(self) -> None:
        """One that began before it was for something else."""
        for began, wanted in ((10_000, [0]), (9_999, [])):
            self.assertEqual(flights(sent(10_000), *polled(began)), wanted)

    def test_only_interrupts_between_processors(self) -> None:
        for handler, wanted in ((IPI, [2_700]), ("call_function", [2_700]), ("ipi", [2_700]), ("local_timer", [])):
            self.assertEqual(flights(sent(10_000), *polled(12_700, handler=handler)), wanted, handler)

    def test_a_processor_sends_itself_no_interrupt(self) -> None:
        self.assertEqual(flights(sent(10_000, POLLER, OTHER), *polled(12_700)), [])

    def test_a_softirq_sends_its_interrupts_at_its_end(self) -> None:
        """The packet of 10,000 is sent in a softirq, which ends at 11,000; that of 20,000 after it."""
        within = [(9_000, SENDER, "sender-7", entry()), sent(10_000), (11_000, SENDER, "sender-7", "softirq_exit: vec=3 [action=NET_RX]")]
        self.assertEqual(flights(*within, *polled(12_700), sent(20_000), *polled(22_900)), [2_900])

    def test_so_does_a_napi_thread(self) -> None:
        thread = [switch(9_000, "sender-7", "napi/eth0-9-50", SENDER), sent(10_000, task="napi/eth0-9-50"), switch(11_000, "napi/eth0-9-50", "sender-7", SENDER)]
        self.assertEqual(flights(*thread, *polled(12_700), sent(20_000), *polled(22_900)), [2_900])

    def test_a_poll_without_packets(self) -> None:
        self.assertEqual(flights(sent(10_000), *polled(12_700, 0)), [])


class Costs(InFolder):
    """Costs of a recording: the wake-up of an idle processor takes 3,900 ns, without the handler; on a busy one a flight takes 2,700."""

    @staticmethod
    def recording(count: int = 8, name: str = "(no_device)") -> str:
        lines = busy(count, 2_700) + [switch(2_000_000, OTHER, IDLE)]
        for number in range(8):
            begin = 2_100_000 + 100_000 * number
            lines += [sent(begin) for _ in range(1 + number % 2)] + polled(begin + 3_800, 1 + number % 2, IDLE)
        return text_of(lines).replace("(no_device)", name)

    def told(self, text: str, *words: object) -> dict[str, dict[str, int]]:
        found: dict[str, dict[str, int]] = json.loads(self.succeeds("costs", "-", "--pair", "va1:vb1", "--json", *words, text=text))["costs"]
        return found

    def test_its_line_its_interval_and_its_option(self) -> None:
        """From the packet to the softirq an idle processor takes 3800 + 100 ns, without the handler."""
        told = self.succeeds("costs", "-", "--pair", "va1:vb1", text=self.recording())
        self.assertIn("flight 2700 ns (2700 to 2700): 8 packets from other processors to busy ones, half of them from 2700 to 2700; it is --rx-nsecs, and --wake is without it\n", told)
        self.assertIn("wake 3900 ns (3900 to 3900): ", told)
        self.assertTrue(told.endswith("--interrupt 300 --poll 1000 --packet 500 --wake 1200 --rx-nsecs 2700\n"), told)
        self.assertEqual({name: self.told(self.recording())["flight"][name] for name in ("value", "low", "high", "count")},
                         {"value": 2_700, "low": 2_700, "high": 2_700, "count": 8})

    def test_seven_are_too_few(self) -> None:
        self.assertNotIn("flight", self.told(self.recording(7)))
        self.assertIn("--wake 3900", self.succeeds("costs", "-", "--pair", "va1:vb1", "--words", text=self.recording(7)))

    def test_only_of_a_backlog(self) -> None:
        self.assertNotIn("flight", self.told(self.recording(name="vb1")))
        both = self.recording() + text_of([line for place in range(40) for line in polled(4_000_000 + 9_000 * place, 1 + place % 2, name="eth0")])
        for words in ("", "--device eth0", "--device eth0 --device (no_device)"):
            self.assertNotIn("flight", self.told(both, *words.split()), words)
        self.assertEqual(self.told(both, "--device", "(no_device)")["flight"]["value"], 2_700)

    def test_polls_with_packets_of_other_devices(self) -> None:
        """Their interrupts may be those of the other packets: of 16 polls half take one of eth0, and a flight is known of the others."""
        lines = [switch(100, IDLE, OTHER)]
        for number in range(16):
            begin, is_mixed = 100_000 * (number + 1), number % 2
            handler = begin + (900 if is_mixed else 2_700)
            lines += [sent(begin, packet=f"a{number:x}"), *polled(handler, 1 + is_mixed)]
            lines += [(handler + 500 + place, POLLER, OTHER, f"netif_receive_skb: dev={name} skbaddr={packet}{number:x} len=86")
                      for place, (name, packet) in enumerate([("vb1", "a"), ("eth0", "b")][:1 + is_mixed])]
        head = (f"fintaqush-recording 1\nlost 0\nlines {len(lines)}\nevents net/netif_receive_skb\ndevice vb1\npair va1:vb1\npolled (no_device)\n"
                "instance.1 device (no_device) napi 0 kind receive polls 16 packets 24 on 3:16:24\ntrace\n")
        flight = self.told(head + text_of(lines))["flight"]
        self.assertEqual((flight["value"], flight["high"], flight["count"]), (2_700, 2_700, 8))

    def test_what_if_takes_it_for_a_backlog(self) -> None:
        """For anything else the wake-up stays whole, and a message says so. A time that is given counts instead."""
        recording, arrivals = self.write("mine.rec", busy_text(16)), self.write("mine.csv", "ns,device,bytes\n0,1,60\n")

        def options(*words: str) -> tuple[int, int, str]:
            done = run("what-if", arrivals, "--costs", recording, "--json", *words)
            row = json.loads(done.stdout)
            return row["rx_nsecs"], row["wake"], done.stderr

        self.assertEqual(options("--backlog", "1")[:2], (2_700, 100))
        rx, wake, said = options("--backlog", "0")
        self.assertEqual((rx, wake), (0, 2_800))
        self.assertIn("the flight of 2700 ns counts only with --backlog 1, and without --rx-nsecs\n", said)
        self.assertEqual(options("--backlog", "1", "--rx-nsecs", "7")[:2], (7, 2_800))


def busy_text(count: int) -> str:
    """Returns a recording whose polls take one and two packets in turn, with --pair's two ends in its head."""
    lines = [switch(100, IDLE, OTHER)]
    for number in range(count):
        begin, work = 100_000 * (number + 1), 1 + number % 2
        lines += [sent(begin) for _ in range(work)] + polled(begin + 2_700, work)
    return f"fintaqush-recording 1\nlost 0\nlines {len(lines)}\npair va1:vb1\ntrace\n" + text_of(lines)


class Passed(unittest.TestCase):
    """What napi_machine gets."""

    COSTS = {"interrupt": 300, "poll": 1000, "packet": 500, "use": 0, "wake": 3_900, "flight": 2_700}

    def test_as_the_time_of_the_cards_timer(self) -> None:
        """Of a wake-up of 3900 ns 1200 are left, and none of one that is shorter than the flight."""
        self.assertEqual(as_timer(self.COSTS), {"interrupt": 300, "poll": 1000, "packet": 500, "use": 0, "wake": 1_200, "rx-nsecs": 2_700})
        self.assertEqual(as_timer({"wake": 2_699, "flight": 2_700}), {"wake": 0, "rx-nsecs": 2_700})
        self.assertEqual(as_timer({"flight": 2_700}), {"rx-nsecs": 2_700})
        self.assertEqual(as_timer({"wake": 3_900}), {"wake": 3_900})

    def test_only_to_a_backlog(self) -> None:
        own = choosing.settings_of(self.COSTS, {"backlog": 1})
        self.assertEqual((own["rx-nsecs"], own["wake"], own["timer-wake"]), (2_700, 1_200, 1_200))
        for option in ("backlog", "threaded"):
            own = choosing.settings_of(self.COSTS, {option: int(option == "threaded")})
            self.assertEqual((own.get("rx-nsecs"), own["wake"]), (None, 3_900))
        self.assertEqual(choosing.settings_of({**self.COSTS, "flight": 0}, {"rx-nsecs": 50_000})["rx-nsecs"], 50_000)

    def test_a_band_has_it_as_any_cost(self) -> None:
        """20 % of 2700 are 540. Of a card the time is a setting."""
        self.assertEqual(bands.with_costs(self.COSTS, 80)["flight"], 2_160)
        self.assertEqual(bands.with_costs({"backlog": "1", "rx-nsecs": "2700"}, 120)["rx-nsecs"], 3_240)
        for settings in ({"backlog": "0", "rx-nsecs": "2700"}, {"rx-nsecs": "2700"}):
            self.assertEqual(bands.with_costs(settings, 120)["rx-nsecs"], "2700")
        ends = dict.fromkeys(("poll", "packet"), (1_000, 1_000))
        sides = bands.Doubt(self.COSTS, [], {}, {**ends, "flight": (2_000, 4_000)}).sides
        self.assertEqual([side["flight"] for _, side in sides], [2_000, 4_000])

    @HAS_MACHINE
    def test_packets_of_one_flight_share_a_poll(self) -> None:
        """Two packets, 1900 ns apart: the second one comes while the interrupt of the first flies, so one poll takes both: from 2700 + 400 to 5100 after
        the first. Without the flight the first one's poll would end after 300 + 1000 + 500 ns, before the second comes. A task has the processor all the time."""
        lines = [switch(100, IDLE, OTHER)]
        for number in range(20):
            begin, work = 100_000 * (number + 1), 2 - number % 2
            lines += [sent(begin + 1_900 * place) for place in range(work)] + polled(begin + 2_700, work)
        times = times_in(*lines)
        times.settle()
        found = {name: round(cost.value) for name, cost in costs.estimated(times, {})[0].items()}
        arrivals = predicting.arrivals_of([time for time, *_, said in sorted(lines) if said.startswith("net_dev_xmit")], [1] * 30)
        polls = [predicting.predicted(MACHINE, arrivals, choosing.settings_of({**found, "use": 0, **changed}, {"backlog": 1}))["polls"]
                 for changed in ({"wake": 0}, {"wake": 0, "flight": 0})]
        self.assertEqual((len(times.polls), polls), (20, [20, 30]))


class Recorded(unittest.TestCase):
    """A real recording, of RPS to three processors, whose flights a plain search in its lines finds too."""

    def test_a_plain_search(self) -> None:
        path = HERE / "recorded-rps.rec.gz"
        found = costs.object_in(str(path), [])["costs"]["flight"]
        wanted = list(timing.flights_of(timing.searched(timing.unpacked(path)), "mqa"))
        self.assertEqual((found["value"], found["count"]), (timing.middle(wanted), len(wanted)))
