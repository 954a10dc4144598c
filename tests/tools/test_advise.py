"""Tests of fintaqush advise, on recordings generated from given costs. Expected values are computed by hand."""

from __future__ import annotations

import contextlib
import gzip
import json
import os
import re
import shutil
import statistics
import struct
import subprocess
import sys
import unittest
import unittest.mock
from array import array
from collections import Counter
from collections.abc import Sequence
from itertools import accumulate
from pathlib import Path
from typing import Any

from finding import group_in
import timing
from timing import Made
from tooltest import HAS_MACHINE, HERE, TOP, Done, InFolder, ftrace, keys_of, process, run

from fintaqush_tools import advice, blame, keeping, observed, predicting, recording, verifying
from fintaqush_tools.errors import Refusal
from fintaqush_tools.instances import Routes
from fintaqush_tools.options import Words
from fintaqush_tools.receiving import Held, Received, Receiving
from fintaqush_tools.recorded import Recording
from fintaqush_tools.recording import Texts

COSTS = {"interrupt": 1700, "poll": 2600, "packet": 410, "wake": 3300, "use": 5200, "app-wake": 2450, "read": 900}
HEAD: dict[str, object] = {"clock": "tsc", "seconds": "1.000000", "events": "napi/napi_poll", "lost": 0, "device": "vb1", "netns": "receiver", "sender": "va1",
        "pair": "va1:vb1", "polled": "vb1", "program": "server", "program.pids": "60", "kernel": "6.18", "online": "0-3",
        "sysctl.net.core.netdev_budget": 300, "sysctl.net.core.netdev_budget_usecs": 8000, "sysctl.net.core.dev_weight": 64,
        "device.vb1.threaded": 0, "device.vb1.napi_defer_hard_irqs": 0, "device.vb1.gro_flush_timeout": 0, "softnet.3.squeezed": "5 5"}


def file_of(made: Made | str, **changes: object) -> str:
    """Returns what fintaqush record would write for this recording."""
    text = made if isinstance(made, str) else made.text()
    head: dict[str, object] = {**HEAD, "lines": len(text.splitlines()), **changes}
    return "fintaqush-recording 1\n" + "".join(f"{name} {value}\n" for name, value in head.items() if value != "") + "trace\n" + text


def quiet(reader: int = 5, count: int = 80, works: Sequence[int] = (5, 15), flush: int = 0, period: int = 400_000) -> Made:
    """Returns bursts of 5 and 15 packets, alternating, 400 us apart, each in one poll. The program reads on another processor, or on the same one.
    With a flush time NAPI's timer polls once after each burst."""
    made = Made(**COSTS)
    made.reader = reader
    made.switch(made.time - 9000, timing.POLLER, "other-5", "swapper/3-0")
    made.call(made.time - 8000)
    made.switch(made.time - 7000, reader, "server-60", "swapper/9-0")
    for place in range(count):
        begin, work = made.time, works[place % len(works)]
        end = made.softirq_round([work])
        made.read(end, work)
        if flush:
            made.timer_round(end, flush)
        made.time = begin + period
    return made


def deferred(works: Sequence[int] = (5, 15), period: int = 400_000, stolen: str = "") -> str:
    """Returns the recording of these bursts with a deferral of 1 x a quarter of the period."""
    flush = period // 4
    head: dict[str, object] = {"device.vb1.napi_defer_hard_irqs": 1, "device.vb1.gro_flush_timeout": flush, "stolen.3": stolen}
    return file_of(quiet(works=works, flush=flush, period=period), **head)


def overloaded(count: int = 40, ring: int = 50) -> Made:
    """Returns bursts of 100 and 60 packets, alternating, 2 ms apart, of which a backlog takes 50."""
    made = Made(**COSTS)
    made.switch(made.time - 9000, timing.POLLER, "other-5", "swapper/3-0")
    for place in range(count):
        begin, sent = made.time, 100 - 40 * (place % 2)
        time = made.handler(begin + COSTS["wake"], "call_function_single")
        made.sent(begin, ring)
        made.sent(begin, sent - ring, code=1)
        made.event(time, timing.POLLER, "<idle>-0", "softirq_entry: vec=3 [action=NET_RX]")
        end = made.polled(time, "<idle>-0", ring, "(no_device)")
        made.event(end, timing.POLLER, "<idle>-0", "softirq_exit: vec=3 [action=NET_RX]")
        if place % 4 == 0:  # a single packet, because a poll's cost is estimated from polls of different lengths
            made.sent(begin + 10**6, 1)
            time = made.handler(begin + 10**6 + COSTS["wake"], "call_function_single")
            made.event(time, timing.POLLER, "<idle>-0", "softirq_entry: vec=3 [action=NET_RX]")
            made.event(made.polled(time, "<idle>-0", 1, "(no_device)"), timing.POLLER, "<idle>-0", "softirq_exit: vec=3 [action=NET_RX]")
        made.time = begin + 2 * 10**6
    return made


def later(text: str, by: int, pattern: str, every: int = 1) -> str:
    """Returns a recording in which so many ns are added to the times of the lines with this pattern, or of every second or third of them."""
    lines, count = text.splitlines(True), 0
    for place, line in enumerate(lines):
        found = re.search(r" (\d+)\.(\d{9}): ", line)
        if found and re.search(pattern, line):
            time = int(found[1]) * 10**9 + int(found[2]) + by
            lines[place] = line.replace(found[0], f" {time // 10**9}.{time % 10**9:09}: ") if count % every == 0 else line
            count += 1
    return "".join(sorted(lines, key=lambda line: group_in(r" (\d+\.\d{9}): ", line)))


BACKLOG = {"polled": "(no_device)", "program": "", "program.pids": "", "sysctl.net.core.netdev_max_backlog": 49}


@HAS_MACHINE
class Advise(InFolder):
    def advised(self, text: str, *words: object, status: int = 0) -> Done:
        """Returns what advise prints with --explain."""
        done = run("advise", self.write("x.rec", text), "--explain", *words)
        self.assertEqual(done.returncode, status, done.stderr)
        return done

    def told(self, text: str, *words: object) -> Any:
        told = json.loads(self.advised(text, "--json", *words).stdout)
        self.assertEqual([name for name in keys_of(told) if not name.isidentifier()], [])
        return told

    def test_the_recorded_setting(self) -> None:
        """A burst's packet k waits 3300 + 1700 + 2600 + 410 k ns: the last of 15 13750. Half of all packets are at the first 5 places: 9650."""
        told = self.told(file_of(quiet()))
        values = {row["name"]: (row["measured"], row["predicted"]) for row in told["check"]}
        self.assertEqual((values["polls"], values["runs"], values["dropped"]), ((80, 80), (80, 80), (0, 0)))
        # The machine's report has ten binary digits. Of 800 packets, 400 are at the first 5 places, 80 at each.
        self.assertEqual((values["delivered_p99"], values["delivered_p50"]), ((13750, 13744), (9650, 9648)))
        self.assertEqual((told["fit"], told["processor"], told["options"]["apart"], told["options"]["packet"]), ("good", 3, 1, 410))

    def test_three_lines_first(self) -> None:
        """What to set, what it brings with its band, and how far to trust it; then the commands, and with --explain all else."""
        for text, goal, first, brings in (
                (deferred(), "cpu", "napi_defer_hard_irqs 2, gro_flush_timeout 500000", r"the kernel's processor time: [\d.]+ % now; predicted [\d.]+ %, nine times of ten [\d.]+ to [\d.]+ %"),
                (deferred(), "p99", "nothing, since no setting is notably better for the 99th percentile of waits", r".*: 94.2 us recorded; predicted .* us, nine times of ten .* us"),
                (file_of(quiet(), **{"stolen.3": "0 200"}), "p50", "nothing, since no setting is notably better for the median wait", r".* us recorded; predicted [\d.]+ us")):
            short = run("advise", self.write("x.rec", text), "--goal", goal).stdout.splitlines()
            self.assertEqual((short[0], short[2][:13]), (f"set:    {first}", "trust:  good:"))
            self.assertRegex(short[1], f"^brings: {brings}$")
            whole = self.advised(text, "--goal", goal).stdout.splitlines()
            self.assertEqual(whole[: len(short) - 1], short[:-1])
            self.assertGreater(len(whole), 20)
            self.assertEqual(short[-1], "--explain prints the costs, the fit, all settings and notes")
        self.assertIn("a hypervisor took 20.0 % of processor 3's time", short[2])

    def test_nothing_to_change(self) -> None:
        """Each other setting delays packets."""
        done = self.advised(deferred(), "--goal", "p99")
        self.assertIn("the fit for the 99th percentile of waits is good\n", done.stdout)
        self.assertIn("advice: change nothing, since no setting is notably better for the 99th percentile of waits\n", done.stdout)
        self.assertNotIn("to set it", done.stdout)
        rows = [tuple(line.split()[-7:]) for line in done.stdout.split("  setting ")[1].split("\nadvice:")[0].splitlines()[1:]]
        self.assertEqual((len(set(rows)), len(rows)), (8, 8))  # equal results are one row
        self.assertRegex(done.stdout, r"threaded 0, napi_defer_hard_irqs 1, gro_flush_timeout 100000, the program apart; \d+ more ")
        self.assertIn("not modelled: GRO's merging of packets; ", done.stdout)
        self.assertIn("net.core.netdev_budget isn't tried", done.stdout)

    def test_deferral_needs_a_timer_of_the_recording(self) -> None:
        """Without timers their cost is unknown: no setting with deferral is tried. With timers all are, also those without deferral."""
        for text, timeouts in ((file_of(quiet()), {0}), (deferred(), {0, 20_000, 50_000, 100_000, 200_000, 500_000})):
            told = self.told(text)
            self.assertEqual({each["options"]["gro_flush_timeout"] for each in told["tried"]}, timeouts)
            self.assertEqual(any(note.startswith("deferral isn't compared with none") for note in told["notes"]), timeouts == {0})
        values = {row["name"]: (row["measured"], row["predicted"]) for row in told["check"]}
        self.assertEqual((values["polls"], told["costs"]["timer"]["value"], told["costs"]["timer_wake"]["value"]), ((160, 160), 1700, 3300))

    def test_no_advice_without_a_gain(self) -> None:
        """The example's recording: a larger backlog would drop one packet less, with the same 99th percentile."""
        told = json.loads(self.run_on(TOP / "examples/veth-backlog.rec", "--goal", "p99", "--json"))
        self.assertEqual(({each["values"]["used_p99"] for each in told["tried"]}, told["set"]), ({told["now"]["used_p99"]}, []))

    def test_less_processor_time(self) -> None:
        """With a timer of 500 us, bursts 400 us apart share some polls, and only the first interrupt is left."""
        told = self.told(deferred(), "--goal", "cpu")
        self.assertEqual({name: told["advised"]["options"][name] for name in ("threaded", "defer_hard_irqs", "gro_flush_timeout")},
                         {"threaded": 0, "defer_hard_irqs": 2, "gro_flush_timeout": 500000})
        self.assertEqual(told["set"], ["ip netns exec receiver sh -c 'echo 2 > /sys/class/net/vb1/napi_defer_hard_irqs'",
                                       "ip netns exec receiver sh -c 'echo 500000 > /sys/class/net/vb1/gro_flush_timeout'"])
        advised = told["advised"]
        self.assertEqual(advised["values"]["interrupts"], 1)
        self.assertLess(advised["values"]["kernel_percent"], told["now"]["kernel_percent"])
        self.assertTrue(advised["low"]["kernel_percent"] < advised["values"]["kernel_percent"] < advised["high"]["kernel_percent"])
        self.assertEqual({name: type(value) for name, value in advised["low"].items()}, {name: type(value) for name, value in advised["values"].items()})
        limited = self.told(deferred(), "--goal", "cpu", "--p99-below", "200")
        self.assertLess(limited["advised"]["high"]["used_p99"], 200_000)
        self.assertIn(limited["advised"]["options"]["gro_flush_timeout"], (0, 100000, 50000, 20000))

    def test_a_program_on_the_processor_that_polls(self) -> None:
        """The program is advised to run on the processor that was idle for longest; the waits are those to the end of use. If none was, it stays."""
        made = quiet(reader=timing.POLLER)
        begin, whole = min(made.lines)[0], made.time - min(made.lines)[0]
        for cpu, busy in ((0, 0.5), (1, 0.1), (2, 0.15)):
            made.switch(begin + 5, cpu, f"swapper/{cpu}-0", "cc1-77")
            made.switch(begin + 5 + int(busy * whole), cpu, "cc1-77", f"swapper/{cpu}-0")
        done = self.advised(file_of(made), "--goal", "p50")
        self.assertIn("wait to the end of use, p50, us", done.stdout)
        self.assertIn("  for task in $(pgrep '^server$'); do taskset -apc 1 $task; done\n", done.stdout)
        self.assertIn("note: processor 1 was idle for 90 % of the recording; what waking the program there takes isn't in the recording unless it was apart\n", done.stdout)
        self.assertNotIn("taskset", self.advised(file_of(quiet(reader=timing.POLLER)), "--goal", "p50").stdout)

    def card(self, works: Sequence[int] = (5, 15), flush: int = 0) -> list[str]:
        """Returns quiet's recording as that of a card: the packets that polls take, and no sender's."""
        lines: list[str] = []
        for line in quiet(works=works, flush=flush).text().splitlines(True):
            found = re.search(r" (\d+)\.(\d{9}): napi_poll: .* work (\d+) ", line)
            for place in range(int(found[3]) if found else 0):
                assert found
                time = int(found[1]) * 10**9 + int(found[2]) - (int(found[3]) - place) * 410
                lines.append(f"{'<idle>-0'.rjust(20)} [003] ..s1. {time // 10**9}.{time % 10**9:09}: napi_gro_receive_entry: dev=vb1 napi_id=0x1 queue_mapping=1 skbaddr=0 "
                             "vlan_tagged=0 vlan_proto=0x0000 vlan_tci=0x0000 protocol=0x0800 ip_summed=0 hash=0x00000000 l4_hash=0 len=46 data_len=0 truesize=832 "
                             "mac_header_valid=1 mac_header=-14 nr_frags=0 gso_size=0 gso_type=0x0\n")
            lines += [] if "net_dev_xmit" in line else [line]
        return lines

    @staticmethod
    def merged(lines: Sequence[str]) -> str:
        """Returns a recording of GRO: the stack gets the first packet of each burst 200 us after its poll, with the others merged into it."""
        made, count, first = list[str](), 0, 0
        for line in lines:
            if "net_dev_xmit" in line or "napi_gro_receive_entry" in line:
                count, first = count + 1, first or count + 1
                line = line.replace("skbaddr=0 ", f"skbaddr={count:x} ")
            made.append(line)
            if re.search("napi_poll: .* work [1-9]", line):
                made.append(re.sub("napi_poll: .*", f"netif_receive_skb: dev=vb1 skbaddr={first:x} len=86", line))
                first = 0
        return later("".join(made), 200_000, "netif_receive_skb")

    def test_merged_packets(self) -> None:
        """The last of 15 packets waits for the stack 200 us longer than for the end of its poll: of a card, 10,450 ns after the interrupt; 700 more by a
        capture; of a pair, 13,750 ns after the sending. No other deferral than the recorded one is tried. With an event for each packet nothing is merged."""
        none: dict[str, object] = {"program": "", "program.pids": "", "device.vb1.napi_defer_hard_irqs": 1, "device.vb1.gro_flush_timeout": 100_000}
        one_end: dict[str, object] = {**none, "sender": "", "pair": ""}
        card, pair = self.card(flush=100_000), quiet(flush=100_000).text().splitlines(True)
        capture = ["--capture", self.captured(*self.arriving((5, 15)))]
        cases: list[tuple[list[str], list[object], int, dict[str, object]]]
        cases = [(card, [], 10_450, one_end), (card, capture, 11_150, {**none, **self.CAPTURED}), (pair, [], 13_750, none)]
        for lines, words, wait, head in cases:
            told = self.told(file_of(self.merged(lines), **head), "--goal", "cpu", *words)
            values = {row["name"]: row["measured"] for row in told["check"]}
            self.assertEqual((values["delivered_p50"], values["delivered_p99"]), (200_000 + wait,) * 2)
            self.assertEqual({each["options"]["gro_flush_timeout"] for each in told["tried"]}, {0, 100_000})
            self.assertEqual([note[:52] for note in told["notes"] if note.startswith("GRO")], ["GRO merged 800 packets that polls took into 80, so a"])
            done = run("advise", self.folder / "x.rec", "--goal", "p50", "--wait", "delivery", "--explain", *words)
            self.assertRegex(done.stdout, "the fit for the median wait to delivery is poor: wait to delivery, p50, us: -[89]")
        each = "".join(re.sub("(.*)napi_gro_receive_entry: (.*) napi_id.*\n", r"\g<0>\1netif_receive_skb: \2 skbaddr=0 len=86\n", line) for line in card)
        told = self.told(file_of(each, **one_end), "--goal", "cpu")
        timeouts = {each["options"]["gro_flush_timeout"] for each in told["tried"]}
        self.assertEqual((500_000 in timeouts, [note for note in told["notes"] if note.startswith("GRO")]), (True, []))

    REAL, MONOTONIC, ADDRESS = 1_700_000_000 * 10**9, 10**12 - 10**6, "02:00:00:00:00:07"

    def captured(self, *packets: Any) -> Path:
        """Writes a capture, of which each packet has a time after the beginning of the recording and a receiver."""
        text = struct.pack("<IHHIIII", 0xA1B23C4D, 2, 4, 0, 0, 65535, 1)
        for time, to in sorted(packets):
            moment = self.REAL + time
            data = bytes.fromhex(to.replace(":", "") + "020000000008" + "0800") + b"x" * 46
            text += struct.pack("<IIII", moment // 10**9, moment % 10**9, len(data), len(data)) + data
        path = self.folder / "capture.pcap"
        path.write_bytes(text)
        return path

    CAPTURED: dict[str, object] = {"sender": "", "pair": "", "began.realtime": REAL, "began.monotonic": MONOTONIC, "device.vb1.address": ADDRESS}
    BEGINS = range(10**12 + COSTS["wake"] - MONOTONIC, 10**12 + COSTS["wake"] - MONOTONIC + 80 * 400_000, 400_000)  # of the interrupts

    def arriving(self, works: Sequence[int]) -> list[tuple[int, str]]:
        """Returns packets that arrive 700 ns before the interrupts."""
        return [(begin - 700, self.ADDRESS) for place, begin in enumerate(self.BEGINS) for _ in range(works[place % 2])]

    def test_an_interrupt_from_its_arrival(self) -> None:
        """Every other poll takes one packet, 2400 ns after its arrival: an interrupt takes 1700 in its handler. Before the first one no softirq is known."""
        told = self.told(file_of("".join(self.card((1, 5))), **self.CAPTURED), "--capture", self.captured(*self.arriving((1, 5))), "--goal", "cpu")
        cost = told["costs"]["interrupt"]
        self.assertEqual((cost["value"], cost["count"], told["options"]["interrupt"], told["options"]["wake"]), (2400, 39, 2400, 0))
        self.assertFalse(any("wake-up" in note for note in told["notes"]), told["notes"])

    def test_a_capture(self) -> None:
        """Its packets arrive 700 ns before the interrupt that asks for their poll. Those to other addresses and after the recording don't count."""
        head = self.CAPTURED
        text, begins, packets = file_of("".join(self.card()), **head), self.BEGINS, self.arriving((5, 15))
        others = [(begin, "02:00:00:00:00:09") for begin in begins] + [(2 * 10**9, self.ADDRESS)] * 50 + [(5000, "33:33:00:00:00:01")] * 20
        told = self.told(text, "--capture", self.captured(*packets, *others), "--goal", "p50")
        values = {row["name"]: row["measured"] for row in told["check"]}
        self.assertEqual((told["packets"], values["delivered_p99"], values["delivered_p50"]), (800, 10450 + 700, 6350 + 700))
        self.assertFalse(any(note.startswith("arrivals are when polls took") for note in told["notes"]), told["notes"])
        refused: list[tuple[list[tuple[int, str]], dict[str, object], list[str], str]] = [
                ([(9000, "02:00:00:00:00:09")], {}, [], f"no packet to {self.ADDRESS}, the address of vb1, is in it"),
                ([(-10**10, self.ADDRESS)], {}, [], "its packets to vb1 are from 2023-11-14T22:13:10Z to 2023-11-14T22:13:10Z, and the recording from 2023-11-14T22:13:20Z to "
                 "2023-11-14T22:13:21Z; if they were captured meanwhile, their clock isn't the system's"),
                ([(9000, self.ADDRESS)], {"began.realtime": ""}, [], "record again")]
        for packets, changes, words, why in refused:
            done = self.advised(file_of("".join(self.card()), **{**head, **changes}), "--capture", self.captured(*packets), *words, status=1)
            self.assertIn(why, done.stderr)
        self.assertEqual(run("advise", self.folder / "x.rec", "--capture", self.folder / "capture.pcap", "--verify").returncode, 64)

    def test_a_capture_that_the_kernel_stamped(self) -> None:
        """Its packets have the times at which polls took them, 100 ns before the recorded ones, or it is one of a veth pair: what is advised is as without it."""
        lines = self.card()
        found = (re.search(r" (\d+)\.(\d{9}): napi_gro_receive", line) for line in lines)
        taken = [int(each[1]) * 10**9 + int(each[2]) - 100 - self.MONOTONIC for each in found if each]
        capture = self.captured(*((time, self.ADDRESS) for time in taken))
        for text in (file_of("".join(lines), **self.CAPTURED), file_of(quiet())):
            told, with_capture = self.told(text, "--goal", "p50"), self.told(text, "--goal", "p50", "--capture", capture)
            notes = [each for each in with_capture["notes"] if each not in told["notes"]]
            self.assertEqual([each.split(",")[0] for each in notes], ["the capture isn't used"])
            self.assertEqual(with_capture, {**told, "notes": with_capture["notes"]})

    def test_a_card(self) -> None:
        """Without a sender, packets that polls take arrived with the interrupt: the waits of test_the_recorded_setting without waking, 3300 ns."""
        lines = self.card()
        told = self.told(file_of("".join(lines), sender="", pair=""))
        values = {row["name"]: (row["measured"], row["predicted"]) for row in told["check"]}
        self.assertEqual((values["polls"], values["runs"], told["packets"]), ((80, 80), (80, 80), 800))
        self.assertEqual((values["delivered_p99"], values["delivered_p50"]), ((10450, 10448), (6350, 6344)))
        self.assertTrue(any(note.startswith("arrivals are when polls took the packets (napi_gro_receive_entry)") for note in told["notes"]), told["notes"])
        nothing = self.advised(file_of("".join(line for line in lines if "gro" not in line), sender="", pair=""), status=1)
        self.assertIn("no arrival is in it", nothing.stderr)

    def test_drops(self) -> None:
        """Of 100 and 60 packets at once a backlog of 50 drops 50 and 10, of 99 one and none, and one of 197 none. The kernel takes one more packet
        than net.core.netdev_max_backlog."""
        told = self.told(file_of(overloaded(), **BACKLOG), "--goal", "drops")
        values = {row["name"]: (row["measured"], row["predicted"]) for row in told["check"]}
        self.assertEqual((values["dropped"], told["fit"]), ((1200, 1200), "good"))
        self.assertEqual((told["now"]["lost"], told["advised"]["values"]["lost"]), (1200, 0))
        self.assertEqual(told["set"], ["sysctl -w net.core.netdev_max_backlog=196"])
        self.assertTrue(any("the cost of a packet" in note for note in told["notes"]))
        few = self.told(file_of(overloaded(), **BACKLOG), "--goal", "p99", "--max-drops", "20")
        self.assertEqual(few["advised"]["values"]["lost"], 20)
        self.assertEqual(few["set"], ["sysctl -w net.core.netdev_max_backlog=98"])
        done = self.advised(file_of(overloaded(), **BACKLOG), "--p99-below", "1", status=1)
        self.assertIn("no setting keeps to the limits\n", done.stdout)

    def two_instances(self, **changes: object) -> str:
        """Returns two instances: one has quiet's bursts on processor 3, the other, on processor 1 and 133 us later, bursts of 5 packets."""
        lines: list[tuple[int, str]] = []
        for place, (cpu, works) in enumerate(((timing.POLLER, (5, 15)), (1, (5,)))):
            made = Made(**COSTS)
            made.time += 133_000 * place
            for burst in range(80):
                begin = made.time
                made.softirq_round([works[burst % len(works)]])
                made.time = begin + 400_000
            for number, (time, line) in enumerate(made.lines):
                line = line.replace(f"[{timing.POLLER:03}]", f"[{cpu:03}]").replace("struct 0 ", f"struct a{place} ").replace("skbaddr=0", f"skbaddr={place}{number:x}")
                if "net_dev_xmit" in line:
                    started = re.sub(r"net_dev_xmit: (.*) len=.*", r"net_dev_start_xmit: \1 vlan_tagged=0", line)
                    lines.append((time - 1, started.replace("skbaddr", f"queue_mapping={place} skbaddr")))
                lines.append((time, line))
        head: dict[str, object] = {"instance.1": "device vb1 napi a0 queue 0 kind receive polls 80 packets 800 on 3:80:800", "program": "", "program.pids": "",
                "instance.2": "device vb1 napi a1 queue 1 kind receive polls 80 packets 400 on 1:80:400", **changes}
        return file_of("".join(f"{line}\n" for _, line in sorted(lines, key=lambda line: line[0])), **head)

    def test_two_instances(self) -> None:
        """Each processor has what its instance would have alone: a burst's last of 5 packets waits 3300 + 1700 + 2600 + 410 * 5 ns, of 15 13750."""
        told = self.told(self.two_instances(), "--goal", "p50")
        rows = {each["processor"]: (each["share"], {row["name"]: (row["measured"], row["predicted"]) for row in each["check"]}) for each in told["processors"]}
        self.assertEqual({processor: share for processor, (share, _) in rows.items()}, {1: round(1 / 3, 5), 3: round(2 / 3, 5)})
        self.assertEqual([rows[processor][1][name] for processor in (1, 3) for name in ("polls", "runs")], [(80, 80)] * 4)
        self.assertEqual((rows[1][1]["delivered_p99"], rows[3][1]["delivered_p99"]), ((9650, 9648), (13750, 13744)))
        self.assertEqual((told["fit"], told["options"]["processors"], told["costs"]["wake"]["value"]), ("good", 2, 3300))
        self.assertEqual({each["options"]["threaded"] for each in told["tried"]}, {0})
        done = self.advised(self.two_instances(), "--goal", "p50")
        self.assertRegex(done.stdout, r"\n +1 +33 % +80 +80 +8\.[48] +8\.[48] +9\.7 +9\.6\n +3 +67 % +80 +80 +9\.7 +9\.6 +13\.8 +13\.7\n")
        self.assertIn("processor 3 limits: it has 67 % of the packets and a 99th percentile of 13.8 us; the others have up to 9.7 us\n", done.stdout)

    def uneven(self) -> Made:
        """Returns three instances: those of the queues 0 and 2 get 5 or 15 packets each at a time, and processor 3 polls both in one softirq; that of
        queue 1 gets 5 packets 133 us later, on processor 1."""
        made = Made(**COSTS)
        for burst in range(120):
            begin = made.time
            for cpu, later, queues, count in ((timing.POLLER, 0, (0, 2), (5, 15)[burst % 2]), (1, 133_000, (1,), 5)):
                since = len(made.lines)
                for queue in queues:
                    for packet in range(count):
                        packed = f"dev=va1 skbaddr={burst:03x}{queue}{packet:x}"
                        made.event(begin + later, timing.SENDER, "sender-7", f"net_dev_start_xmit: {packed.replace(' ', f' queue_mapping={queue} ')} vlan_tagged=0")
                        made.event(begin + later, timing.SENDER, "sender-7", f"net_dev_xmit: {packed} len=100 rc=0")
                time = made.handler(begin + later + COSTS["wake"], "call_function_single")
                made.event(time, timing.POLLER, "<idle>-0", "softirq_entry: vec=3 [action=NET_RX]")
                for queue in queues:
                    time = made.polled(time, "<idle>-0", count)
                    made.lines[-1] = time, made.lines[-1][1].replace("struct 0 ", f"struct a{queue} ")
                made.event(time, timing.POLLER, "<idle>-0", "softirq_exit: vec=3 [action=NET_RX]")
                made.lines[since:] = [(each, line.replace(f"[{timing.POLLER:03}]", f"[{cpu:03}]")) for each, line in made.lines[since:]]
            made.time = begin + 400_000
        return made

    def test_interrupts_on_other_processors(self) -> None:
        """Processor 3 has 80 % of the packets. A burst's last of 15 packets at the second instance waits 3300 + 2 * (1700 + 2600 + 15 * 410) ns there,
        and half of the second part with its interrupt on processor 1. If an instance's interrupt isn't known, nothing of this is tried."""
        head: dict[str, object] = {"program": "", "program.pids": "", **{f"device.vb1.irq.{38 + queue}.name": f"vb1-TxRx-{queue}" for queue in range(3)},
                                   "device.vb1.irq.40.smp_affinity_list": "0-3"}
        for place, (cpu, packets) in enumerate(((3, 1200), (1, 600), (3, 1200))):
            head[f"instance.{place + 1}"] = f"device vb1 napi a{place} queue {place} kind receive polls 120 packets {packets} on {cpu}:120:{packets}"
        told = self.told(file_of(self.uneven(), **head), "--goal", "p99")
        self.assertEqual((told["now"]["delivered_p99"], told["advised"]["values"]["delivered_p99"]), (24192, 13744))
        self.assertEqual((told["set"], told["advised"]["options"]["layout"]), (["echo 1 > /proc/irq/40/smp_affinity_list"], 1))
        self.assertIn("irqbalance may move these interrupts back, if it runs", told["notes"])
        self.assertIn("interrupts moved", self.advised(file_of(self.uneven(), **head), "--goal", "p99").stdout)
        head["device.vb1.irq.39.name"] = "vb1-tx-1"
        unknown = self.told(file_of(self.uneven(), **head), "--goal", "p99")
        self.assertEqual({each["options"].get("layout", 0) for each in unknown["tried"]}, {0})

    @staticmethod
    def backlog_with_replies(replier: int, factor: int) -> str:
        """Returns a recording of the backlog of processor 3, with bursts of 5 or 15 of the device's packets. The backlog of the replier has replies,
        which are other traffic, of which a poll takes so many times as long."""
        made, slow = Made(**COSTS), {name: factor * COSTS[name] for name in ("poll", "packet")}
        for burst in range(80):
            begin, count = made.time, (5, 15)[burst % 2]
            for cpu, later, name, costs in ((timing.POLLER, 0, "vb1", COSTS), (replier, 90_000, "va1", {**COSTS, **slow})):
                made.costs, since, addresses = costs, len(made.lines), [f"{name}{burst:03x}{packet:x}" for packet in range(count)]
                for address in addresses if name == "vb1" else ():
                    made.event(begin, timing.SENDER, "sender-7", f"net_dev_xmit: dev=va1 skbaddr={address} len=100 rc=0")
                time = made.handler(begin + later + COSTS["wake"], "call_function_single")
                made.event(time, timing.POLLER, "<idle>-0", "softirq_entry: vec=3 [action=NET_RX]")
                for address in addresses:
                    made.event(time + 10, timing.POLLER, "<idle>-0", f"netif_receive_skb: dev={name} skbaddr={address} len=86")
                end = made.polled(time, "<idle>-0", count, "(no_device)")
                made.event(end, timing.POLLER, "<idle>-0", "softirq_exit: vec=3 [action=NET_RX]")
                on = f"[{cpu:03}]"
                made.lines[since:] = [(each, line.replace(f"[{timing.POLLER:03}]", on).replace("struct 0 ", f"struct b{cpu} ")) for each, line in made.lines[since:]]
            made.time = begin + 400_000
        head: dict[str, object] = {**BACKLOG, "sysctl.net.core.netdev_max_backlog": 1000, "events": "napi/napi_poll net/netif_receive_skb"}
        for cpu in {replier, timing.POLLER}:
            head[f"instance.{cpu}"] = f"device (no_device) napi b{cpu} kind receive polls 80 packets 800 on {cpu}:80:800"
        return file_of(made, **head)

    def test_a_backlog_with_replies(self) -> None:
        """Each burst of 5 or 15 is one poll, of which the k-th packet waits 7600 + 410 k ns; of 20 packets 10 are the first five of their bursts. Replies
        change neither that nor the costs, on whichever processor they are polled."""
        for replier, factor in ((2, 1), (2, 7), (timing.POLLER, 7)):
            told = self.told(self.backlog_with_replies(replier, factor), "--goal", "p50")
            values = {row["name"]: (row["measured"], row["predicted"]) for row in told["check"]}
            self.assertEqual([each["processor"] for each in told["processors"]], [3])
            self.assertEqual([values[name] for name in ("polls", "delivered_p50", "delivered_p99")], [(80, 80), (9650, 9648), (13750, 13744)])
            self.assertEqual([told["costs"][name]["value"] for name in ("poll", "packet")], [2600, 410])

    def test_packets_that_are_received_before_their_senders_event(self) -> None:
        """In every eighth burst the sender's event of the first packet comes 5710 ns late, 700 ns after the packet was received. Then the wait of
        this packet is 5710 ns shorter, and no other wait changes. In the second recording the event comes after the poll, so the wait is 0. In the
        third the first five packets were sent before the recording."""
        text = self.backlog_with_replies(2, 1)
        head, _, trace = text.partition("trace\n")
        before = re.sub(r".* net_dev_xmit: dev=va1 skbaddr=vb1000. .*\n", "", trace)
        fewer = re.sub(r"(?m)^lines .*", f"lines {before.count(chr(10))}", head)
        for text, sent, by in ((f"{head}trace\n{trace}", 800, 5710), (f"{head}trace\n{trace}", 800, 20_000), (f"{fewer}trace\n{before}", 795, 5710)):
            head, _, trace = text.partition("trace\n")
            told = self.told(f"{head}trace\n{later(trace, by, r'net_dev_xmit: dev=va1 skbaddr=vb1...0 ', every=8)}", "--goal", "drops")
            values = {row["name"]: row["measured"] for row in told["check"]}
            self.assertEqual((told["packets"], values["polls"], values["delivered_p50"], values["delivered_p99"]), (sent, 80, 9650, 13750))
            self.assertEqual([told["costs"][name]["value"] for name in ("poll", "packet")], [2600, 410])

    def test_polls_of_packets_and_replies(self) -> None:
        """The fifth packet of a burst is another device's: 80 polls have one of these, and 720 packets are left."""
        text = self.backlog_with_replies(2, 1)
        sent = re.findall(r".* net_dev_xmit: dev=va1 skbaddr=vb1...4 .*\n", text)
        text = re.sub(r"netif_receive_skb: dev=vb1 skbaddr=vb1(...)4 ", r"netif_receive_skb: dev=va1 skbaddr=vb1\g<1>4 ", re.sub(r".* net_dev_xmit: dev=va1 skbaddr=vb1...4 .*\n", "", text))
        told = self.told(re.sub(r"(?m)^lines (\d+)", lambda found: f"lines {int(found[1]) - len(sent)}", text), "--goal", "drops")
        self.assertEqual((len(sent), told["packets"]), (80, 720))
        self.assertTrue(told["blame"][0].startswith("80 of 80 polls took packets of other devices too"), told["blame"])

    def test_packets_that_the_processor_sent_itself(self) -> None:
        """It sends 20 or 10 packets, 1 us apart, and polls them then: they arrive when the softirq begins, so each burst is one poll, as recorded. The
        k-th waits 2600 + 410 k ns; the median of all is k = 8."""
        made = Made(**COSTS)
        for burst in range(80):
            begin, work = made.time, 20 - 10 * (burst % 2)
            for packet in range(work):
                made.event(begin + 1000 * packet, timing.POLLER, "sender-7", "net_dev_xmit: dev=va1 skbaddr=0 len=100 rc=0")
            made.event(begin + 1000 * work, timing.POLLER, "sender-7", "softirq_entry: vec=3 [action=NET_RX]")
            made.event(made.polled(begin + 1000 * work, "sender-7", work), timing.POLLER, "sender-7", "softirq_exit: vec=3 [action=NET_RX]")
            made.time = begin + 400_000
        told = self.told(file_of(made, program="", **{"program.pids": ""}), "--goal", "p50")
        values = {row["name"]: (row["measured"], row["predicted"]) for row in told["check"]}
        self.assertEqual([values[name] for name in ("polls", "runs", "delivered_p50", "delivered_p99")], [(80, 80), (80, 80), (5880, 5880), (10800, 10800)])
        self.assertEqual((told["fit"], {each["options"]["threaded"] for each in told["tried"]}), ("good", {0}))

    def test_packets_that_wait_for_a_timer_where_they_are_sent(self) -> None:
        """A processor sends a packet, which it polls at once, and then nine, 1 us apart, for which it polls when NAPI's timer ends: 50,000 + 3300 + 1700 ns
        after the first poll. Packet j of these waits 57,600 - 590 j ns, and the first one 2600 + 410 ns; of these ten the fifth is j = 6. Their poll starts
        the timer 1 ns before its end, when it has delivered them. The first run follows no interrupt."""
        made, flush = Made(**COSTS), 50_000
        for _ in range(80):
            made.event(made.time, timing.POLLER, "sender-7", "net_dev_xmit: dev=va1 skbaddr=0 len=100 rc=0")
            made.event(made.time + 1000, timing.POLLER, "sender-7", "softirq_entry: vec=3 [action=NET_RX]")
            end = made.polled(made.time + 1000, "sender-7", 1)
            made.event(end, timing.POLLER, "sender-7", "softirq_exit: vec=3 [action=NET_RX]")
            for packet in range(1, 10):
                made.event(end + 1000 * packet, timing.POLLER, "sender-7", "net_dev_xmit: dev=va1 skbaddr=0 len=100 rc=0")
            for work in (9, 0, 0):
                end = made.timer_round(end, flush, work)
            made.time = end + 300_000
        text = file_of(made, program="", **{"program.pids": "", "device.vb1.napi_defer_hard_irqs": 2, "device.vb1.gro_flush_timeout": flush})
        told = self.told(text, "--goal", "p50")
        values = {row["name"]: (row["measured"], row["predicted"], abs(row["error"]) < 5) for row in told["check"]}
        self.assertEqual((values["polls"], values["delivered_p50"][::2], values["delivered_p99"][::2]), ((320, 320, True), (54_059, True), (57_009, True)))
        self.assertEqual((told["fit"], [told["costs"][name]["value"] for name in ("interrupt", "timer")]), ("good", [0, 1700]))
        self.assertEqual([told["advised"]["options"][name] for name in ("defer_hard_irqs", "gro_flush_timeout")], [0, 0])

    def test_an_instance_that_moves(self) -> None:
        """From the 41st poll on another processor polls: each is a device of the arrivals, with half of the packets."""
        text = file_of("".join(line.replace("[003]", "[002]") if place > len(quiet().lines) // 2 else line for place, line in enumerate(quiet().text().splitlines(True))))
        told = self.told(text, "--goal", "p50")
        polls = [next(row for row in each["check"] if row["name"] == "polls") for each in told["processors"]]
        self.assertEqual([(row["measured"], row["predicted"]) for row in polls], [(40, 40), (40, 40)])
        self.assertTrue(any(note.startswith("1 instance was polled by several processors") for note in told["notes"]), told["notes"])

    def test_what_the_head_refuses(self) -> None:
        """Before anything is read: the rest of these files isn't even a recording."""
        two = self.two_instances()
        head = two[: two.index("trace\n") + 6]
        stack = "events napi/napi_poll net/netif_receive_skb"
        for text, why in ((head.replace(" queue 1", ""), "2 instances of vb1 poll, and which of them has which queue isn't known: record for longer"),
                          (head.replace("polled vb1", "polled (no_device)").replace("device vb1 napi", "device (no_device) napi"), "the backlogs of 2 processors poll, and"),
                          (re.sub(r"packets \d+ on (\d):80:\d+", r"packets 0 on \1:80:0", head), "no poll of vb1 took a packet"),
                          (head.replace("sender va1\n", "").replace("pair va1:vb1\n", ""), "no arrival is in it"),
                          (head.replace("napi a0 queue", "napi queue"), "its head says 'instance.1 device vb1 napi queue 0")):
            self.assertIn(why, self.advised(text + "nothing of this kind\n", status=1).stderr)
        for allowed in (head, head.replace("events napi/napi_poll", stack).replace("polled vb1", "polled (no_device)").replace("device vb1 napi", "device (no_device) napi")):
            self.assertIn("no line of ftrace", self.advised(allowed + "nothing of this kind\n", status=1).stderr)

    def test_recordings_of_several_processors(self) -> None:
        """Real ones: a virtio card with its transmit instance, four queues on two processors, and RPS to three. What each processor measured is what
        a plain search finds in the lines, and polls are predicted within a tenth."""
        for name, device in (("virtio", "eth0"), ("queues", "mqb"), ("rps", "(no_device)")):
            path = HERE / f"recorded-{name}.rec.gz"
            text = gzip.decompress(path.read_bytes()).decode()
            polls = Counter(int(cpu) for cpu in re.findall(rf"\[(\d+)\].* for device {re.escape(device)} work [1-9]", text))
            told = json.loads(self.run_on(path, "--goal", "drops", "--json"))
            self.assertEqual({each["processor"] for each in told["processors"]}, set(polls), name)
            for each in told["processors"]:
                rows = {row["name"]: row for row in each["check"] or told["check"]}
                self.assertEqual(rows["polls"]["measured"], polls[each["processor"]], name)
                self.assertLessEqual(abs(rows["polls"]["error"]), 10, name)
            sent = len(re.findall(r"net_dev_xmit: dev=mqa .*rc=0", text)) or len(re.findall(r"napi_gro_receive_entry: dev=eth0", text))
            self.assertEqual((told["packets"], told["fit"]), (sent, "good"), name)
            self.assertLessEqual(abs(next(row["error"] for row in told["check"] if row["name"] == "delivered_p50")), 25, name)

    def test_a_card_with_deferral(self) -> None:
        """Of another recording of this setting 276 packets between bursts have a median wait of 87 us by their arrivals at the card. The prediction isn't by
        two timeouts."""
        told = json.loads(self.run_on(HERE / "recorded-card.rec.gz", "--goal", "p50", "--json"))
        row = next(each for each in told["check"] if each["name"] == "delivered_p50")
        self.assertLess(abs(row["measured"] - 87_000), 5000)
        self.assertLess(abs(row["error"]), 10)
        self.assertTrue(any("count as spread evenly over the time since the poll before, so a wait may be off by 50.0 us" in each for each in told["notes"]))
        low, value, high = (told["advised"][each]["used_p50"] for each in ("low", "values", "high"))
        self.assertLessEqual(low, max(0, value - 50_000))
        self.assertLess(value + 50_000, high)

    def test_a_card_with_a_least_time_between_interrupts(self) -> None:
        """A recording of QEMU's e1000, which keeps 128 us between interrupts although rx-usecs is 0. recorded-gap.arrivals has the time from each packet's
        arrival at the card to the next one, after 2023-11-14T22:13:20Z."""
        times = list(accumulate(map(int, (HERE / "recorded-gap.arrivals").read_text().split())))
        capture = self.captured(*((time, "52:54:00:00:00:01") for time in times))
        with gzip.open(HERE / "recorded-gap.rec.gz", "rt") as file:
            text = re.sub(r"(?m)^began.realtime .*", f"began.realtime {self.REAL}", file.read())
        for goal, wait, name in (("p50", "use", "used_p50"), ("p99", "delivery", "delivered_p99"), ("cpu", "use", "poll_percent")):
            told = json.loads(self.advised(text, "--json", "--goal", goal, "--wait", wait, "--capture", capture).stdout)
            rows = {row["name"]: row for row in told["check"]}
            self.assertEqual((told["fit"], told["options"]["rx_gap"], told["packets"]), ("good", 128_000, 151))
            self.assertLess(max(abs(rows[each]["error"]) for each in ("polls", "runs", name)), 8)
            self.assertEqual((told["set"], {each["options"]["rx_gap"] for each in told["tried"]}), ([], {128_000}))
            self.assertIn("the card keeps at least 128.0 us between interrupts, so a lower rx-usecs changes nothing", told["notes"])
        # Of a longer capture only what came during the recording counts. By another clock these are other packets, or the same ones at other times; or one in ten is missing.
        lasts = times[-1] + 10**6
        longer = [time + turn * lasts for turn in (-1, 0, 1) for time in times]
        for shift, chosen in ((0, longer), (lasts // 3, longer), (-lasts // 3, longer), (10**6, times), (-(10**6), times), (0, [each for place, each in enumerate(times) if place % 10])):
            capture = self.captured(*((time + shift, "52:54:00:00:00:01") for time in chosen))
            for goal in ("p50", "p99", "cpu", "drops"):
                done = run("advise", self.write("x.rec", text), "--goal", goal, "--wait", "delivery", "--capture", capture)
                self.assertEqual(("that came during the recording aren't the 151 that polls took" in done.stderr, done.returncode), (chosen != longer or shift != 0,) * 2, (shift, goal, done.stderr))
        capture = self.captured(*((time, "52:54:00:00:00:01") for time in times))
        # If rx-usecs were 125, the card's own time couldn't be known.
        told = json.loads(self.advised(text.replace("rx-usecs 0", "rx-usecs 125"), "--json", "--goal", "p50", "--capture", capture).stdout)
        self.assertLess(told["advised"]["values"]["used_p50"], told["now"]["used_p50"])
        self.assertEqual(sum("longer than predicted: --verify" in each for each in told["notes"]), 1)

    def test_interrupts_that_are_not_predicted(self) -> None:
        """A recording of virtio_net with deferral, which asks for interrupts before its poll ends: a plain search finds those that were handled, and the
        prediction has most of them. If the driver were another one, everything else would be predicted within 40 %, and the fit would be poor
        for every goal. Those of a transmit queue don't count."""
        path = HERE / "recorded-early.rec.gz"
        text = gzip.decompress(path.read_bytes()).decode()
        handled = len(re.findall("irq=27 ret=handled", text))
        rows = {row["name"]: row for row in json.loads(self.run_on(path, "--goal", "cpu", "--json"))["check"]}
        self.assertEqual(rows["interrupts"]["measured"], handled)
        self.assertLess(abs(rows["interrupts"]["error"]), 40)
        other = self.write("x.rec", text.replace("device.eth0.driver virtio_net", "device.eth0.driver igb"))
        for goal in ("p99", "p50", "cpu", "drops"):
            done = run("advise", other, "--goal", goal, "--json")
            rows = {row["name"]: row for row in json.loads(done.stdout)["check"]}
            self.assertEqual((done.returncode, rows["interrupts"]["measured"]), (1, handled))
            self.assertLess(rows["interrupts"]["error"], -40)
            self.assertLess(max(abs(row["error"]) for name, row in rows.items() if name != "interrupts"), 40)
            self.assertIn("the prediction of the recorded setting is poor (interrupts: -50 %), so there is no advice for any goal", done.stderr)
        told = json.loads(self.run_on(HERE / "recorded-virtio.rec.gz", "--goal", "drops", "--json"))
        self.assertEqual({row["measured"] for row in told["check"] if row["name"] in ("interrupts", "polls")}, {45})

    def run_on(self, path: Path, *words: str) -> str:
        done = run("advise", path, *words)
        self.assertEqual(done.returncode, 0, done.stderr)
        return done.stdout

    def test_a_poor_fit(self) -> None:
        """The head has a backlog that isn't the recorded one: no advice, and the reason is printed."""
        other: dict[str, object] = {**BACKLOG, "sysctl.net.core.netdev_max_backlog": 9}
        done = self.advised(file_of(overloaded(), **other), status=1)
        self.assertIn("the fit for the 99th percentile of waits is poor: dropped: +133 %\n", done.stdout)
        self.assertNotIn("advice:", done.stdout)
        self.assertRegex(done.stderr, r"^fintaqush advise: .*x\.rec: the prediction of the recorded setting is poor \(dropped: \+133 %\), so there is no advice for any goal\n$")

    def test_a_fit_that_is_poor_for_one_goal(self) -> None:
        """Of 160 bursts the last three take 200 us longer, which are 3 % of the packets: the message names the goals for which there is advice."""
        made = quiet(count=157)
        made.costs["poll"] += 200_000
        for _ in range(3):
            begin, end = made.time, made.softirq_round([10])
            made.read(end, 10)
            made.time = begin + 400_000
        text = file_of(made)
        self.assertRegex(self.advised(text, status=1).stderr, r" is poor \(.*, p99, us: -\d+ %\), so there is no advice for this goal, but there is with --goal p50 or "
                         "--goal cpu or --goal drops\n$")
        for goal in ("p50", "cpu", "drops"):
            self.assertIn("\nadvice: ", self.advised(text, "--goal", goal).stdout)

    def test_a_fit_without_the_wait_of_its_goal(self) -> None:
        """Of three packets one is sent 1 ms late, by its event: which packet was in which poll isn't known, so there is no wait to compare."""
        text = file_of(later(quiet().text(), 1_000_000, "net_dev_xmit", every=3))
        for words in (["--goal", "p99"], ["--goal", "p50"], ["--goal", "cpu", "--p99-below", "1000"]):
            done = self.advised(text, *words, status=1)
            self.assertIn(" is unknown: no wait was measured, because which packet was in which poll isn't known\n", done.stdout)
            self.assertNotIn("advice:", done.stdout)
            self.assertRegex(done.stderr, "^fintaqush advise: .*x.rec: no wait was measured, .*, so there is no advice for (any goal|this goal, but there is with --goal drops)\n$")
        self.assertNotIn("is unknown: no wait", self.advised(text, "--goal", "cpu", status=1).stdout)  # of which polls are compared

    def test_other_tasks(self) -> None:
        """Tasks that ran on the processor are reported, except those that poll, send or use packets; next to real-time tasks only real-time ones count."""
        made = quiet()
        end = made.time
        made.switch(end, timing.POLLER, "swapper/3-0", "cc1-77")
        made.switch(end + 10**7, timing.POLLER, "cc1-77", "swapper/3-0")
        told = self.told(file_of(made))
        self.assertEqual([(each["task"], 0.2 < each["share"] < 0.3) for each in told["other_tasks"]], [("cc1", True)])
        self.assertIn("other tasks used processor 3 too (cc1 24 %): the prediction assumes a processor without other tasks", self.advised(file_of(made)).stdout)
        self.assertEqual(self.told(file_of(quiet()))["other_tasks"], [])

    def test_which_task_the_waits_belong_to(self) -> None:
        """1 or 3 packets come, the interrupt begins 2000 ns later and takes 1700, and another task has the processor for 5000 more until the thread begins.
        Their poll ends 2600 + 410 ns per packet later: of 11,710 and three times 12,530 ns these are four times 5000, 41 %, and of the slowest 40 %."""
        made = Made(**{**COSTS, "wake": 2000, "late": 5000})
        for place in range(80):
            made.switch(made.time - 9000, timing.POLLER, "swapper/3-0", "cc1-77", "R")
            made.time = made.thread_round(1 + 2 * (place % 2), False) + 50_000
        text = made.text().replace("prev_comm=swapper/3 prev_pid=0 prev_prio=120 prev_state=R ==> next_comm=napi", "prev_comm=cc1 prev_pid=77 prev_prio=120 prev_state=R ==> next_comm=napi")
        told = self.told(file_of(text, **{"device.vb1.threaded": 1, "program": "", "program.pids": ""}), "--goal", "drops")
        self.assertEqual(told["blame"], ["of the waits to delivery 41 % passed while another task had the processor (cc1 41 %), and of the slowest one in 100 40 % (cc1 40 %): no "
                                         "setting that is tried here changes that: give these tasks other processors or priorities, then record again"])
        self.assertEqual(self.told(file_of(quiet()))["blame"], [])
        deferred = file_of(text, **{"device.vb1.threaded": 1, "device.vb1.napi_defer_hard_irqs": 2, "device.vb1.gro_flush_timeout": 1000, "program": "", "program.pids": ""})
        self.assertNotIn("of the waits to delivery", run("advise", self.write("x.rec", deferred), "--goal", "drops").stdout)
        poor = self.advised(file_of(text, **{"device.vb1.threaded": 1, "program": "", "program.pids": "", "device.vb1.ethtool.ring.rx": 1}), status=1)
        self.assertIn(f"so there is no advice for any goal; {told['blame'][0]}\n", poor.stderr)

    def test_waits_that_other_tasks_make(self) -> None:
        """Each of 1200 packets waits 300 ns for its interrupt, 1700 in it, 20,000 in which another task has the processor, and 2600 + 410 ns in its poll: no
        prediction fits. If the task is the program that is recorded, or the processor is idle, it may; so if the interrupt needs as long to come."""
        why = "80 % passed while another task had the processor .cc1 80 %., so their p50 is 25.0 us instead of 5.0, and no"
        cases: list[tuple[str, set[int], tuple[int, int], str]] = [("cc1-77", set(), (300, 20_000), why), ("cc1-77", {77}, (300, 20_000), ""),
                                                                   ("swapper/3-0", set(), (300, 20_000), ""), ("cc1-77", set(), (20_300, 0), "")]
        for task, known, (wake, late), why in cases:
            made = Made(**{**COSTS, "wake": wake, "late": late})
            made.switch(made.time - 9000, timing.POLLER, "swapper/3-0", task)
            for _ in range(1200):
                made.time = made.softirq_round([1]) + 50_000
            made.switch(made.time, timing.POLLER, task, "swapper/3-0")
            seen = Receiving({"vb1"}, {"va1"})
            Texts([seen], []).add(made.text())
            for goal in ("p50", "p99"):
                told = ""
                try:
                    blame.check_waits(seen, goal, known)
                except Refusal as error:
                    told = str(error)
                self.assertRegex(told, why or "^$")

    def test_pinning(self) -> None:
        """Interrupts go to the processor that polls, the program to another one. Names are quoted for the shell."""
        head = {"program": "a'b", "device.eth0.irq.40.name": "eth0-TxRx-0", "device.eth0.irq.40.smp_affinity_list": "0-3"}
        self.assertEqual(advice.pinning(head, "eth0", 3, 2), "pin the program and the interrupts (for task in $(pgrep '^a'\"'\"'b$'); do taskset -apc 2 $task; done; "
                                                             "echo 3 > /proc/irq/40/smp_affinity_list)")
        self.assertEqual(advice.pinning({}, "eth0", 3, 2), "")

    def test_waits_that_are_refused_early(self) -> None:
        """If no program is recorded, so that waits end with the delivery, the first events are enough to refuse a goal that is a wait."""
        made = Made(**{**COSTS, "wake": 300, "late": 20_000})
        made.switch(made.time - 9000, timing.POLLER, "swapper/3-0", "cc1-77")
        for _ in range(2400):
            made.time = made.softirq_round([1]) + 50_000
        none: dict[str, object] = {"program": "", "program.pids": "", "instance.1": "device vb1 napi 0 queue 0 kind receive polls 2400 packets 2400 on 3:2400:2400"}
        with unittest.mock.patch.object(recording, "EARLY", 9000):
            for goal, pids, defer, is_early in (("p50", "", 0, True), ("p99", "", 0, True), ("cpu", "", 0, False), ("p50", "60", 0, False), ("p50", "", 2, False)):
                none |= {"program.pids": pids, "device.vb1.napi_defer_hard_irqs": defer, "device.vb1.gro_flush_timeout": 1000}
                done = run("advise", self.write("x.rec", file_of(made, **none)), "--goal", goal)
                self.assertEqual("passed while another task had the processor (cc1 80 %), so their " in done.stderr, is_early, (goal, done.stderr))

    def test_other_tasks_beside_the_program(self) -> None:
        """The program reads on a separate processor: another task has 10 of 42 ms there."""
        made = quiet()
        made.switch(made.time, made.reader, "swapper/9-0", "cc1-77")
        made.switch(made.time + 10**7, made.reader, "cc1-77", "swapper/9-0")
        told = self.told(file_of(made))
        self.assertEqual((told["other_tasks"], [(each["task"], 0.2 < each["share"] < 0.3) for each in told["other_tasks_of_program"]]), ([], [("cc1", True)]))
        self.assertIn("other tasks used processor 5, on which the program reads, too (cc1 24 %): the prediction assumes", self.advised(file_of(made)).stdout)

    def test_a_use_that_is_unknown(self) -> None:
        """Without reads a note says to record the program; with reads of half of the packets, so not of all, it doesn't, and the wait to the end of use isn't
        that to delivery."""
        lines = quiet().text().splitlines(True)
        reads = [place for place, line in enumerate(lines) if "sys_recvmsg" in line]
        cases: list[tuple[list[int], str]] = [([], ": record with --program, so that waits are those to the end of use"), (reads[: len(reads) // 2], "")]
        for kept, ending in cases:
            text = file_of("".join(line for place, line in enumerate(lines) if place in kept or "sys_recvmsg" not in line))
            self.assertIn(f"the cost of a packet's use is unknown and counts as 0{ending}", self.told(text, "--goal", "cpu")["notes"])
        said = self.advised(text, "--goal", "p50", status=1).stderr
        self.assertRegex(said, "no wait to the end of use was measured: 400 reads for 800 packets that polls took: the program reads too slowly, or several packets at once, so there "
                         "is no advice for this goal, but there is with --goal cpu or --goal drops or --goal p50 --wait delivery\n")
        self.assertIn("the fit for the median wait to delivery is good\n", self.advised(text, "--goal", "p50", "--wait", "delivery").stdout)

    def test_a_use_that_is_not_predicted(self) -> None:
        """Another task has the program's processor, so each read comes 300 us later: the wait to delivery is predicted, but only counts if it is asked for. If
        the ring dropped nothing but the head's is full, that isn't either."""
        text = later(quiet().text(), 300_000, r"\[005\]")
        done = self.advised(file_of(text), "--goal", "p50", status=1)
        self.assertRegex(done.stdout, r"\n  wait to the end of use, p50, us +3\d\d\.\d +\d\d\.\d .*\n")
        self.assertRegex(done.stdout, r"the fit for the median wait is poor: wait to the end of use, p50, us: -\d\d %\n")
        self.assertIn("but there is with --goal cpu or --goal drops or --goal p50 --wait delivery\n", done.stderr)
        told = self.told(file_of(text), "--goal", "p50", "--wait", "delivery")
        self.assertEqual((told["fit"], told["wait"], {each["options"]["apart"] for each in told["tried"]}), ("fair", "delivery", {1}))
        done = self.advised(file_of(text, **{"device.vb1.ethtool.ring.rx": 1}), "--goal", "p50", "--wait", "delivery", status=1)
        self.assertRegex(done.stdout, "is poor: dropped: [+]")

    def test_what_is_set_and_not_modelled(self) -> None:
        told = self.told(file_of(quiet(), **{"sysctl.net.core.busy_read": 50, "device.vb1.ethtool.coalesce.adaptive-rx": "on", "udp.RcvbufErrors": "3 10",
                                               "device.vb1.rx-0.rps_cpus": "00000008"}))
        for each in ("busy polling is on", "adaptive coalescing is on", "RPS moves packets on"):
            self.assertTrue(any(note.startswith(each) for note in told["notes"]), each)
        self.assertIn("7 datagrams were delivered and then dropped at a full socket: the program reads too slowly, ", told["blame"][0])

    def test_nothing_to_verify(self) -> None:
        done = self.advised(file_of(quiet()), "--goal", "drops", "--verify")
        self.assertIn("advice: change nothing", done.stdout)
        self.assertIn("--verify recorded nothing, because the advice changes nothing", done.stderr)

    def test_a_verdict(self) -> None:
        """80 polls of 2600 ns and 410 per packet take 0.34 of 7.9 ms with 1 or 7 packets, and 0.27 with 1 or 3. Each setting is recorded three times
        in turn, today's first. The advice holds if all of its recordings are below all of today's."""
        often = 100_000
        state: dict[str, Any] = {}

        def verified(*works: tuple[int, int], status: int = 0, words: Sequence[str] = (), stolen: str = "0 0") -> Done:
            given = [self.write(f"{place}.rec", file_of(quiet(works=each, period=often), **{"stolen.3": "0 0" if place else stolen})) for place, each in enumerate(works)]
            state["is_changed"] = False

            def record_again(_: Any, told: Any) -> Recording:
                self.assertEqual(state["is_changed"], len(given) % 2 == 1)
                return Recording(str(given.pop(0)), told).read()

            @contextlib.contextmanager
            def with_changes(_: Any, changes: Sequence[advice.Change]) -> Any:
                state.update(changes=changes, is_changed=True)
                yield
                state["is_changed"] = False

            with unittest.mock.patch.object(verifying, "record_again", record_again), unittest.mock.patch("os.geteuid", lambda: 0), \
                    unittest.mock.patch.object(advice.Machine, "with_changes", with_changes):
                done = self.advised(deferred((1, 7), often), "--goal", "cpu", "--verify", *words, status=status)
            self.assertEqual((given, bool(state["changes"])), ([], True))
            return done

        high, low = (1, 7), (1, 3)
        # 80 * 2600 + 320 or 160 * 410 ns, of the time from the first packet to the end of the last poll: 79 * 100 us + 5000 + 2600 + 7 or 3 * 410
        shares = [f"{100 * (80 * 2600 + count * 410) / (7_900_000 + 7600 + most * 410):.1f}" for count, most in ((320, 7), (160, 3))]
        self.assertEqual(shares, ["4.3", "3.5"])
        done = verified(high, low, high, low, high, low)
        self.assertIn("\npolls, % of the time: 4.3 (4.3 to 4.3) today, 3.5 (3.5 to 3.5) with the advised settings: -19 %, better in all recordings\n", done.stdout)
        self.assertRegex(done.stdout, r"\npredicted for these packets: [\d.]+, nine times of ten [\d.]+ to [\d.]+, which (holds|does not hold) the measured median\n$")
        self.assertEqual(done.stderr.splitlines(), [f"fintaqush advise: recording today's settings and the advised settings during traffic, {number} of 3" for number in (1, 2, 3)])
        told = json.loads(verified(high, low, high, low, high, low, words=["--json"]).stdout)["verdict"]
        self.assertEqual((told["name"], told["verdict"], [[f"{each:.1f}" for each in told[name]] for name in ("today", "advised")]),
                         ("poll_percent", "better", [["4.3"] * 3, ["3.5"] * 3]))
        done = verified(high, low, high, low, high, low, stolen="0 200")
        self.assertRegex(done.stdout, r"\npredicted for these packets: [\d.]+; the band isn't known, because a hypervisor took 20.0 % of processor 3's")
        for works, what in (((high, low, high, high, high, low), "which is within their noise"), ((low, high) * 3, "worse in all recordings")):
            done = verified(*works, status=1)
            self.assertIn(what, done.stdout)
            self.assertIn("fintaqush advise: the advised settings weren't better than today's, which are set again\n", done.stderr)
        # The user's own change, from what the machine has now, and not from what it had when it was recorded.
        words = ["--set", "net.core.netdev_budget=600", "--set", "gro_flush_timeout=7"]
        with unittest.mock.patch.multiple(observed, of_kernel=lambda: [("sysctl.net.core.netdev_budget", "77")], settings_of_device=lambda name, _: [(f"device.{name}.gro_flush_timeout", "5")]):
            done = verified(high, low, high, low, high, low, words=words)
            self.assertIn("\npolls, % of the time: 4.3 (4.3 to 4.3) today, 3.5 (3.5 to 3.5) with those of --set: -19 %, better in all recordings\n", done.stdout)
            self.assertEqual(done.stderr.splitlines()[0], "fintaqush advise: recording today's settings and those of --set during traffic, 1 of 3")
            self.assertEqual(state["changes"], [advice.Change("sysctl", "netdev_budget", 600, 77), advice.Change("sysfs", "gro_flush_timeout", 7, 5)])
            self.assertIn("those of --set weren't better than today's, which are set again\n", verified(*(low, high) * 3, words=words, status=1).stderr)
            self.assertIn("--set threaded: there is no such setting here", self.advised(deferred((1, 7), often), "--goal", "cpu", "--verify", "--set", "threaded=1", status=1).stderr)
        # --keep leaves what is better, and only that.
        with unittest.mock.patch.object(keeping, "keep", lambda _, changes: [{"set": "echo", "file": "/etc/x", "why": "", "undo": f"rm {len(changes)}"}]):
            self.assertIn("\nkept, also after a reboot, by /etc/x: echo\n  undone by: rm 2\n", verified(*(high, low) * 3, words=["--keep"]).stdout)
            self.assertNotIn("kept", verified(*(low, high) * 3, words=["--keep"], status=1).stdout)
        for wrong in (["--keep"], ["--set", "net.core.netdev_budget=600"], *(["--verify", "--set", each] for each in ("net.core.x$(id)=1", "netdev_budget=1", "ring=", "ring=x", "rx-usecs"))):
            self.advised(deferred(), *wrong, status=64)

    def test_a_verdict_before_a_failure(self) -> None:
        """As a process, whose output to a pipe is buffered: the verdict comes out although the settings weren't better."""
        code = ("import sys; from fintaqush_tools import errors, verifying; from fintaqush_tools.commands import advise; "
                "advise.verified = lambda _: ([], 0, verifying.Verdict('polls', [5, 5, 5], [6, 6, 7], 4, (3, 5)), []); errors.run('fintaqush advise', advise.main, sys.argv[1:])")
        recording = self.write("x.rec", deferred())
        done = process(sys.executable, "-B", "-c", code, recording, "--goal", "cpu", "--verify", PYTHONPATH=TOP / "tools")
        self.assertIn("\npolls: 5 (5 to 5) today, 6 (6 to 7) with the advised settings: +20 %, worse in all recordings\n", done.stdout)
        self.assertEqual((done.returncode, done.stderr), (1, "fintaqush advise: the advised settings weren't better than today's, which are set again\n"))

    def test_a_verdict_without_values(self) -> None:
        """A value that couldn't be measured in one of the recordings proves nothing."""
        verdict = verifying.Verdict("used_p99", [50_000, 51_000], [20_000, 21_000, 22_000], 24_000, (20_500, 30_000))
        self.assertEqual((verdict.judgement(), verdict.lines()), ("unknown", [
            "wait to the end of use, p99, us: 50.5 (50.0 to 51.0) today, 21.0 (20.0 to 22.0) with the advised settings: -58 %, measured in too few recordings, of 3 each",
            "predicted for these packets: 24.0, nine times of ten 20.5 to 30.0, which holds the measured median"]))
        self.assertEqual(verdict.failure(), "whether the advised settings are better isn't known, because only 2 of 3 recordings of a setting measured it; today's are set "
                         "again")
        self.assertEqual(verifying.Verdict("used_p99", [], [9], 1, (1, 1)).lines(), ["the advised settings aren't verified: wait to the end of use, p99, us wasn't measured"])

    def test_recordings_that_it_refuses(self) -> None:
        whole = file_of(quiet())
        trace = quiet().text()
        for text, why in (
                ("", "it is empty"), (trace, "not a file of fintaqush record"), (whole[:-3000], "it is cut"), (whole[:200], "it is cut"),
                (file_of(quiet(), lost=7), "the kernel lost 7 events"), (file_of(quiet(), polled=""), "it has no polls of vb1"),
                (file_of(re.sub(r".*net_dev_xmit.*\n", "", trace)), "no arrival is in it"),
                (file_of(re.sub(r".*napi_poll.*\n", "", trace)), "it has no polls of vb1"),
                (file_of(quiet(), device="vb1 vb2", sender="va1 va2", polled="vb1 vb2"), "it has several devices: name one with --device: vb1, vb2"),
                (file_of(trace.replace("struct 0 for", "struct 1 for", 40)), "2 instances of vb1 poll, and which of them gets a packet isn't in recordings of this age: record again"),
                ("PERFILE2 and so on\n", "this is the file of `perf record`")):
            done = self.advised(text, status=1)
            self.assertEqual((done.stdout, done.stderr.count("\n")), ("", 1), done.stderr)
            self.assertTrue(done.stderr.startswith("fintaqush advise: ") and why in done.stderr, done.stderr)

    def test_words_that_it_refuses(self) -> None:
        for words in (["--goal", "speed"], ["--max-drops", "-1"], ["--p99-below", "0"], ["--packets", "1"]):
            self.assertEqual(run("advise", self.write("x.rec", file_of(quiet())), *words).returncode, 64, words)
        self.assertEqual(run("advise").returncode, 64)
        self.assertIn("there is no such file", run("advise", self.folder / "none").stderr)
        self.assertIn("--device vb7: it has vb1", self.advised(file_of(quiet()), "--device", "vb7", status=1).stderr)

    def test_a_program_that_fails(self) -> None:
        for body in ("kill -9 $$", "exit 0", "echo hello", "exit 64"):
            program = self.program("program", f"{body}")
            done = self.advised(file_of(quiet()), "--binary", program, status=1)
            self.assertEqual((done.stdout, done.stderr.count("\n")), ("", 1), done.stderr)


class Seen(unittest.TestCase):
    """The values read from a recording."""

    def seen(self, text: str, polled: str = "vb1") -> Any:
        seen = Receiving({polled}, {"va1"})
        Texts([seen], []).add(text)
        return seen

    def test_packets_polls_and_reads(self) -> None:
        seen = self.seen(quiet(count=4).text())
        self.assertEqual((len(seen.sent), seen.dropped, list(seen.work), seen.runs, seen.processors, seen.is_by_thread), (40, 0, [5, 15, 5, 15], 4, [3], False))
        self.assertEqual(sorted({end - begin for begin, end in seen.delivered()}), [9650, 13750])
        self.assertEqual([end - begin for begin, end in seen.delivered(410)][:6], [8010, 8420, 8830, 9240, 9650, 8010])
        # The first packet is read 2450 + 900 ns after its poll, and its use ends when the next call begins, 5200 - 900 ns later.
        begin, end = seen.used()[0]
        self.assertEqual(end - begin, 9650 + 2450 + 900 + 4300)

    def test_arrivals_that_are_inferred(self) -> None:
        """Of a pair with deferral the arrivals are known: inferred from the polls, the median wait is off by at most what the band adds. Without that
        nearly the whole time to the timer is missing."""
        recording = Recording(str(HERE / "recorded-thread.rec"), Words(device=None, capture=None)).read()
        seen = recording.seen
        held = Held(advice.options_of(recording.head, "vb7", 0))
        waits: dict[str, list[int]] = {"recorded": [], "inferred": [], "by poll": []}
        (matched,), polls = recording.layout.deliveries.values(), range(len(seen.ended))
        for poll in polls:
            taken = [Received(seen.begun[poll], "vb7", 3, 0) for _ in range(seen.work[poll])]
            held.spread(seen.places[poll], taken, len(taken), seen.ended[poll])
            own = [seen.sent[packet] for packet, number, _ in matched if number == poll]
            for name, times in (("recorded", own), ("inferred", [each.time for each in taken]), ("by poll", [seen.begun[poll]] * len(taken))):
                waits[name] += [seen.ended[poll] - time for time in times if len(own) == len(taken)]
        middle = {name: statistics.median(some) for name, some in waits.items()}
        self.assertEqual((held.doubt, len(set(map(len, waits.values())))), (50_000, 1))
        self.assertLess(abs(middle["inferred"] - middle["recorded"]), held.doubt)
        self.assertGreater(middle["recorded"] - middle["by poll"], held.doubt)

    def spread(self, options: dict[str, int], *polls: tuple[int, int, int]) -> list[list[int]]:
        """Returns the arrivals of the packets of polls, each with when it began and ended, and its packets."""
        held, arrivals = Held(options), []
        for begun, ended, count in polls:
            taken = [Received(begun, "eth0", 0, 0, taken=ended) for _ in range(count)]
            held.spread(("eth0", "a0"), taken, count, ended)
            arrivals.append([each.time for each in taken])
        return arrivals

    def test_packets_that_wait_for_a_timer(self) -> None:
        """By hand: after a poll with packets two are by NAPI's timer. A card's timer begins at the first packet; a least time between interrupts
        holds back only those that come within it."""
        deferral = {"defer-hard-irqs": 2, "gro-flush-timeout": 100}
        polls = [(1000, 1010, 1), (1110, 1120, 2), (1220, 1230, 0), (1330, 1340, 0), (2000, 2010, 1)]
        self.assertEqual(self.spread(deferral, *polls), [[1000], [1035, 1085], [], [], [2000]])
        self.assertEqual(self.spread({**deferral, "heedless": 1}, *polls)[1], [1110, 1110])
        self.assertEqual(self.spread({"rx-nsecs": 100}, (1000, 1010, 1), (1110, 1120, 2), (1150, 1160, 1)), [[1000], [1010, 1060], [1120]])
        self.assertEqual(self.spread({"rx-gap": 100}, (1000, 1010, 1), (1100, 1120, 2), (1500, 1510, 1)), [[1000], [1032, 1077], [1500]])
        held, by_card = Held(deferral), Received(1110, "eth0", 0, 0, by_card=True)
        for packet, ended in ((Received(1000, "eth0", 0, 0), 1010), (by_card, 1120)):
            held.spread(("eth0", "a0"), [packet], 1, ended)
        self.assertEqual(by_card.time, 1110)
        held, packets = Held(deferral), [Received(1000, "eth0", 0, 0, taken=1004), Received(1110, "eth0", 0, 0)]  # a poll looks for packets until it takes the last one
        for packet, ended in zip(packets, (1010, 1120)):
            held.spread(("eth0", "a0"), [packet], 1, ended)
        self.assertEqual(packets[1].time, 1057)
        self.assertEqual([Held(each).doubt for each in (deferral, {**deferral, "heedless": 1}, {"rx-nsecs": 100}, {"rx-gap": 90})], [50, 0, 0, 45])

    def test_reads_that_are_no_packets(self) -> None:
        """One of three reads is missing: which packets the others took is unknown."""
        text = quiet(count=4).text()
        reads = [line for line in text.splitlines(True) if "-> 0x64" in line]
        for line in reads[::3]:
            text = text.replace(line, "")
        self.assertEqual((len(self.seen(text).used()), len(self.seen(text).delivered())), (0, 40))

    def test_packets_from_before_the_recording(self) -> None:
        """The first poll's packets were sent before the recording, and the program reads them first."""
        whole, lines = quiet(count=6), quiet(count=6).text().splitlines(True)
        sent = next(place for place, line in enumerate(lines) if "net_dev_xmit" in line)
        text = "".join(lines[:sent] + lines[sent + 5 :])
        self.assertEqual([*self.seen(text).delivered()], self.seen(whole.text()).delivered()[5:])
        self.assertEqual([*self.seen(text).used()], self.seen(whole.text()).used()[5:])

    def test_a_packet_that_is_polled_before_its_event(self) -> None:
        """The sender's event may come some us after the poll; then the wait counts as 0. If many packets are such, packets and polls don't match."""
        made = quiet(count=8, works=(50,))
        made.softirq_round([3], is_early=True)
        waits = [end - begin for begin, end in self.seen(made.text()).delivered()]
        self.assertEqual((len(waits), waits[-3:]), (403, [0, 0, 0]))
        made = Made(**COSTS)
        made.softirq_round([4], is_early=True)
        self.assertEqual(len(self.seen(made.text()).delivered()), 0)

    def test_backlogs_that_receive_before_the_senders_event(self) -> None:
        """Processors 1 and 3 receive packets in turn, some before the event of their sending, which names no processor. An address that comes again long
        after its reception is another packet's, which processor 1 receives."""
        head = {"events": "net/netif_receive_skb", **{f"instance.{cpu}": f"device (no_device) napi b{cpu} kind receive polls 1 packets 2 on {cpu}:1:2" for cpu in (1, 3)}}
        seen = Receiving({"(no_device)"}, {"va1"}, (), Routes(head, {"va1": "vb1"}))
        sending, coming = ("net_dev_xmit: dev=va1 skbaddr={} len=100 rc=0", 2), "netif_receive_skb: dev=vb1 skbaddr={} len=86"
        events = [(0, sending, "a"), (1, (coming, 1), "a"), (2, (coming, 3), "b"), (3, sending, "b"), (4, (coming, 1), "c"), (5, sending, "c"), (6, (coming, 3), "d"),
                  (500, sending, "d"), (501, (coming, 1), "d")]
        Texts([seen], []).add("".join(ftrace((time, said.format(address)), cpu=cpu) for time, (said, cpu), address in events))
        seen.settle()
        self.assertEqual([place and place[1] for place in seen.sent_to], ["b1", "b3", "b1", "b1"])

    def test_a_cost_that_is_too_high(self) -> None:
        """Packets and polls match whatever a packet is said to cost; a delivery isn't before the arrival."""
        seen = self.seen(quiet(count=8, works=(50,)).text())
        waits = [end - begin for begin, end in seen.delivered(10_000)]
        self.assertEqual((len(waits), min(waits)), (400, 0))

    def test_packets_that_the_sender_makes_visible_late(self) -> None:
        """A softirq on the sender's own processor begins only when the sender lets it."""
        made = Made(**COSTS)
        made.sent(made.time, 3)
        made.event(made.time + 900, timing.SENDER, "sender-7", "softirq_entry: vec=3 [action=NET_RX]")
        line = f"{'sender-7'.rjust(20)} [{timing.SENDER:03}] ..s1. 1000.000005000: napi_poll: napi poll on napi struct 0 for device vb1 work 3 budget 64"
        seen = self.seen(made.text() + line + "\n")
        self.assertEqual((list(predicting.visible_times(seen)), list(seen.sent)), ([made.time + 900] * 3, [made.time] * 3))

    def test_arrivals_of_one_time_keep_their_places(self) -> None:
        """Packets that are sent at the same time arrive in the order in which they were recorded, whichever device sent them."""
        seen = Receiving({"vb1"}, {"va1"})
        seen.sent, seen.sent_by = array("q", [9, 9, 5, 9, 5]), ["vb1", "va1", "vb1", "vb1", "va1"]
        rows = predicting.arrivals_at(seen, {"va1": 1, "vb1": 2}).splitlines()[1:]
        self.assertEqual([row.rsplit(",", 1)[0] for row in rows], ["0,2", "0,1", "4,2", "4,1", "4,2"])

    def test_percentiles(self) -> None:
        values = list(range(1, 11))
        self.assertEqual([predicting.percentile(values, each) for each in (500, 501, 990, 1000, 1)], [5, 6, 10, 10, 1])
        self.assertEqual(predicting.percentile([], 500), 0)

    def test_grades(self) -> None:
        def rows(error: int, name: str = "polls") -> list[predicting.Compared]:
            return [(name, 100, 100 + error, error)]

        self.assertEqual([predicting.grade_of(rows(error)) for error in (0, 15, -16, 40, 41)], ["good", "good", "fair", "fair", "poor"])
        self.assertEqual((predicting.grade_of(rows(500, "used_p50")), predicting.grade_of([])), ("poor", "poor"))
        late = [("used_p99", 1000, end, (end - 1000) / 10) for end in (1150, 1200, 31_000, 31_001)]  # 30 us are no reason for a poor fit
        self.assertEqual([predicting.grade_of([each]) for each in late], ["good", "fair", "fair", "poor"])
        self.assertEqual(predicting.worst_of([late[2], ("used_p50", 100, 145, 45.0)], {"used_p50", "used_p99"}), ("used_p50", 100, 145, 45.0))

    def test_a_grade_is_about_the_goal(self) -> None:
        """A 99th percentile that is far off makes a fit poor for that goal, a median also for it, and neither for processor time; polls count only for that."""
        rows = [("polls", 100, 103, 3.0), ("used_p50", 100, 130, 30.0), ("used_p99", 100_000, 1000, -99.0), ("poll_percent", 10, 11, 10.0), ("delivered_p99", 9, 99, 1000.0),
                ("dropped", 0, 0, 0.0)]
        for error, cpu in ((53, "poor"), (3, "good")):
            rows[0] = ("polls", 100, 100 + error, float(error))
            grades = {goal: predicting.grade_of(rows, predicting.judged_for(goal, "used", False)) for goal in ("p99", "p50", "cpu", "drops")}
            self.assertEqual(grades, {"p99": "poor", "p50": "fair", "cpu": cpu, "drops": "good"})
        self.assertEqual(predicting.grade_of(rows, predicting.judged_for("cpu", "used", True)), "poor")
        self.assertEqual(predicting.worst_of(rows, {"polls", "used_p50"}), rows[1])
        self.assertEqual(predicting.name_of("p50", "delivered"), "delivered_p50")

    def test_how_long_polls_took(self) -> None:
        """80 polls of 2600 + 410 ns per packet, of 5 and of 15 packets, from the first packet at 0 to the end of the last poll at 31,613,750 ns."""
        self.assertAlmostEqual(self.seen(quiet().text()).poll_percent(), 100 * (80 * 2600 + 800 * 410) / (79 * 400_000 + 13_750), places=6)

    def test_empty_polls_before_and_after(self) -> None:
        """A driver may raise an interrupt now and then, whose poll takes nothing: the time until it doesn't count, but its poll does."""
        made = quiet()
        made.time += 10**9
        made.softirq_round([0])
        share = self.seen(made.text()).poll_percent()
        self.assertAlmostEqual(share, 100 * (81 * 2600 + 800 * 410) / (79 * 400_000 + 13_750), places=6)

    def test_a_thread_whose_beginning_is_not_recorded(self) -> None:
        """Some kernels record no switch from the idle task: without half of them the 40 polls of 2600 + 410 ns take as large a share of the time."""
        made = Made(**COSTS)
        for _ in range(40):
            made.time = made.thread_round(1, False) + 50_000
        begins = [line for line in made.text().splitlines(True) if "next_comm=napi/" in line]
        without = "".join(line for line in made.text().splitlines(True) if line not in begins[1::2])
        shares = [self.seen(text).poll_percent() for text in (made.text(), without)]
        self.assertEqual(shares[0], shares[1])
        self.assertAlmostEqual(shares[0], 100 * 40 * 3010 / (39 * 58_020 + 8010), places=6)

    def test_few_drops(self) -> None:
        """Three drops predicted for none, of 1000 packets, are 30 % of a hundredth of them. The line has the difference and what it was divided by."""
        self.assertEqual((predicting.error_of("dropped", 0, 3, 1000), predicting.error_of("dropped", 200, 210, 1000)), (30, 5))
        line, = predicting.check_lines([("dropped", 3, 1, predicting.error_of("dropped", 3, 1, 500))], 500)
        self.assertRegex(line, r"^  dropped +3 +1 +-2   judged as -20\.0 % of 10, because a ratio of few says nothing$")
        line, = predicting.check_lines([("dropped", 200, 210, 5.0)], 1000)
        self.assertRegex(line, r"^  dropped +200 +210 +\+5\.0 %$")
        self.assertEqual([each["of"] for each in predicting.objects_in([("dropped", 3, 1, -20.0), ("polls", 50, 51, 2.0)], 500)], [10, 50])


@unittest.skipUnless(os.geteuid() == 0 and shutil.which("ip"), "root")
class Setting(InFolder):
    """The settings that --verify applies, in a separate network namespace."""

    def setUp(self) -> None:
        super().setUp()
        self.netns = f"fqa{os.getpid()}"
        subprocess.run(["ip", "netns", "add", self.netns], check=True)
        self.addCleanup(lambda: subprocess.run(["ip", "netns", "del", self.netns], check=True))
        subprocess.run(["ip", "link", "add", "va1", "netns", self.netns, "type", "veth", "peer", "name", "vb1", "netns", self.netns], check=True)

    def value(self, name: str) -> str:
        return subprocess.run(["ip", "netns", "exec", self.netns, "cat", f"/sys/class/net/vb1/{name}"], check=True, capture_output=True, text=True).stdout.strip()

    def test_it_is_set_and_restored(self) -> None:
        """Also if the code in between fails, and if a later change fails."""
        machine = advice.Machine({"netns": self.netns, "online": "0-3", "program": "none"}, "vb1", 1)
        now = {"defer-hard-irqs": 0, "gro-flush-timeout": 0, "threaded": 0, "ring": 256, "rx-nsecs": 0, "apart": 0}
        changes = machine.changes({**now, "defer-hard-irqs": 2, "gro-flush-timeout": 50000}, now)
        names = ("napi_defer_hard_irqs", "gro_flush_timeout")
        with contextlib.suppress(KeyError), machine.with_changes(changes):
            self.assertEqual([self.value(name) for name in names], ["2", "50000"])
            raise KeyError
        self.assertEqual([self.value(name) for name in names], ["0", "0"])
        impossible = [*changes, advice.Change("sysfs", "mtu", "much", "1500")]
        with self.assertRaises(Refusal), machine.with_changes(impossible):
            self.fail("it was set")
        self.assertEqual([self.value(name) for name in (*names, "mtu")], ["0", "0", "1500"])

    def test_a_change_of_the_user(self) -> None:
        """Afterwards the settings are those that the machine had before, also if the recording has others."""
        machine = advice.Machine({"netns": self.netns, "device.vb1.gro_flush_timeout": "1"}, "vb1", 1)
        with contextlib.suppress(KeyError), machine.with_changes(verifying.asked_changes(machine, [("napi_defer_hard_irqs", 2), ("gro_flush_timeout", 5000)])):
            self.assertEqual([self.value(name) for name in ("napi_defer_hard_irqs", "gro_flush_timeout")], ["2", "5000"])
            raise KeyError
        self.assertEqual([self.value(name) for name in ("napi_defer_hard_irqs", "gro_flush_timeout")], ["0", "0"])
        with self.assertRaisesRegex(Refusal, "--set ring: there is no such setting here"):
            verifying.asked_changes(machine, [("ring", 512)])

    def test_the_lines_that_are_printed_set_it(self) -> None:
        machine = advice.Machine({"netns": self.netns, "online": "0-3", "program": "none"}, "vb1", 1)
        now = {"defer-hard-irqs": 0, "gro-flush-timeout": 0, "threaded": 0, "ring": 256, "rx-nsecs": 0, "apart": 0}
        for change in machine.changes({**now, "defer-hard-irqs": 3, "gro-flush-timeout": 20000}, now):
            subprocess.run(["sh", "-c", machine.line_of(change)], check=True)
        self.assertEqual([self.value(name) for name in ("napi_defer_hard_irqs", "gro_flush_timeout")], ["3", "20000"])
