"""Tests of fintaqush top, with a folder in place of /proc and /sys. Expected rates are computed by hand."""

from __future__ import annotations

import contextlib
import json
import os
import pty
import random
import re
import select
import shutil
import subprocess
import termios
import time
import unittest.mock
from collections.abc import Iterator
from typing import Any

from tooltest import MOST_SECONDS, START, TOP, InFolder, run, with_programs

from fintaqush_tools import counting
from fintaqush_tools.commands import top
from fintaqush_tools.counting import Counts, Rates, Seen

ESCAPE = "\x1b[8m"


class Top(InFolder):
    def put(self, packets: int = 0, **more: int) -> None:
        """Writes the kernel's files of two processors, of which the second has all that is counted, and a device with two queues."""
        of = {"dropped": 0, "squeezed": 0, "runs": 0, "irqs": 0, "missed": 0, "socket": 0, "ticks": 0, "stolen": 0, "ns": 0, "waited": 0, **more}
        udp = "Udp: InDatagrams RcvbufErrors\nUdp: 7 {socket}\n".format(**of)
        files = {
            "proc/net/softnet_stat": f"00000000 00000000 00000000\n{packets:08x} {of['dropped']:08x} {of['squeezed']:08x}\n",
            "proc/softirqs": f"          CPU0       CPU1\n  NET_TX:  1 2\n  NET_RX:  0 {of['runs']}\n",
            "proc/interrupts": f"           CPU0       CPU1\n 24: 0 {of['irqs']} PCI-MSI 1-edge eth0-rx-0\n 25: 0 {of['irqs']} PCI-MSI 2-edge eth0-rx-1\n"
                               f" 26: 0 {of['irqs']} PCI-MSI 3-edge eth07-rx-1\nERR: 0\n",
            "proc/stat": f"cpu 1 2\ncpu0 0 0 0 0 0 0 0 0 0 0\ncpu1 0 0 0 {of['ticks'] - of['stolen']} 0 0 0 {of['stolen']} 0 0\nintr 5\n",
            "proc/net/snmp": udp, "proc/net/snmp6": f"Udp6RcvbufErrors {of['socket']}\n", "proc/net/dev": "eth0: 1\n",
            "proc/9/comm": "ksoftirqd/1\n", "proc/9/schedstat": f"{of['ns']} 5 1\n", "proc/8/comm": "napi/eth0-7\n", "proc/8/schedstat": f"{of['ns']} 5 1\n",
            "proc/77/comm": f"serv{ESCAPE}er\n", **{f"proc/77/task/{each}/schedstat": f"{of['ns']} {of['waited']} 1\n" for each in (77, 78)},
            "sys/class/net/eth0/address": "02:00:00:00:00:01\n", "sys/class/net/eth0/statistics/rx_packets": f"{packets}\n",
            "sys/class/net/eth0/statistics/rx_missed_errors": f"{of['missed']}\n", "sys/class/net/eth0/statistics/rx_fifo_errors": f"{of['missed']}\n"}
        for name, text in files.items():
            (self.folder / name).parent.mkdir(parents=True, exist_ok=True)
            self.write(name, text)
        self.said = f"NIC statistics:\n     rx_queue_0_packets: {packets}\n     rx_queue_0_drops: {of['missed']}\n     rx_out_of_buffer: {2 * of['missed']}\n     tx: x\n"

    @contextlib.contextmanager
    def here(self, program: str = "77") -> Iterator[None]:
        with unittest.mock.patch.multiple(counting, ROOT=str(self.folder), output_of=lambda _: self.said):
            yield

    def rates(self, seconds: int = 2, **counts: int) -> Rates:
        """Returns the rates if all counters rise from 0 to these in so many seconds."""
        with self.here():
            self.put()
            before = counting.look("eth0", "77")
            self.put(**counts)
            after = counting.look("eth0", "77")
        return counting.rates(before._replace(time=0), after._replace(time=seconds * 10**9))

    BUSY: dict[str, Any] = {"packets": 4000, "dropped": 2, "squeezed": 6, "runs": 1000, "irqs": 1900, "missed": 10, "socket": 3, "ticks": 200, "stolen": 8,
                            "ns": 10**9, "waited": 3 * 10**8}

    def test_rates(self) -> None:
        """In 2 s 4000 packets with 1900 interrupts of each of two queues, and 8 of 200 ticks stolen; ksoftirqd, threads and both tasks of the program
        ran for 1 s. Drops at the ring count once, as large as the largest of their counters says. Both kinds of UDP sockets drop 3."""
        rates = self.rates(**self.BUSY)
        self.assertEqual(rates["processor", 1], {"processed": 2000, "dropped": 1, "squeezed": 3, "softirq_percent": 0, "stolen_percent": 4, "ksoftirqd_percent": 50,
                                                 "interrupts": 1900, "interrupts_per_packet": 0.95, "runs": 500})
        self.assertEqual((rates["device", "eth0"]["ring"], rates["device", "eth0"]["threads_percent"], rates["queue", 0]), (10, 50, {"processed": 2000, "ring": 5}))
        self.assertEqual((rates["sockets", ""], rates["program", "77"]), ({"socket": 3}, {"ran_percent": 100, "waited_percent": 30}))
        self.assertEqual(rates["processor", 0]["processed"], 0)

    def test_what_is_abnormal(self) -> None:
        """Each rule at its bound and above it; and each names a section that the page has."""
        self.assertEqual([mark.word for mark in top.marks_of(self.rates(**self.BUSY))], ["squeezed", "backlog full", "ring full", "ring full", "socket full", "ksoftirqd",
                         "waits for a processor", "stolen", "an interrupt for each packet"])
        headings = re.findall("^#+ (.*)$", (TOP / "docs/OPERATORS.md").read_text(), re.M)
        for rule in top.RULES:
            self.assertIn(rule.section, headings)
            for value, count in ((rule.most, 0), (rule.most + 0.01, 1)):
                self.assertEqual(len(top.marks_of({("processor", 1): {rule.name: value, "processed": 1000}})), count, rule)
        self.assertEqual(top.marks_of({("processor", 1): {"interrupts_per_packet": 2, "processed": 999}}), [])

    def test_counters_that_wrap_or_are_set_back(self) -> None:
        def rates(old: int, new: int) -> dict[str, float]:
            before, after = ({("processor", 1): {"processed": count}} for count in (old, new))
            return counting.rates(Seen(0, before), Seen(10**9, after))["processor", 1]

        self.assertEqual(rates(2**32 - 5, 5), {"processed": 10})
        for old, new in ((1000, 5), (2**40, 5)):
            self.assertEqual(rates(old, new), {})

    def test_files_that_are_missing(self) -> None:
        """As in a container: what can't be read is a -, and all else is shown."""
        for name in ("net/softnet_stat", "softirqs", "interrupts", "stat", "net/snmp", "9", "77", ""):
            self.put(**self.BUSY)
            path = self.folder / "proc" / name
            shutil.rmtree(path) if path.is_dir() else path.unlink()
            with self.here():
                seen = counting.look("eth0", "77")
                lines = top.block_of(counting.rates(seen._replace(time=0), seen._replace(time=10**9)), "head", 80, False)
            self.assertIn("eth0: packets 0, ring full 0", "\n".join(lines), name)
            self.assertEqual([line for line in lines if line.startswith("!")], [], name)
        self.assertEqual(len(lines), 4)  # head, names of columns, the queue and the device

    def test_files_that_are_damaged(self) -> None:
        """Bytes are changed, cut and repeated: whatever is in a file, there are rates, or none."""
        chance = random.Random(7)
        self.put(**self.BUSY)
        paths = [path for path in self.folder.rglob("*") if path.is_file()]
        whole = {path: path.read_bytes() for path in paths}
        for _ in range(150):
            for path in chance.sample(paths, 3):
                text = bytearray(whole[path])
                for _ in range(chance.randrange(1, 4)):
                    at = chance.randrange(len(text) + 1)
                    text[at : at + chance.randrange(3)] = chance.choice([b"", b"\xff", b"\x1b[8m", b"9" * 30, b"\n", b"-1 ", b": ", bytes(text[:40])])
                path.write_bytes(text)
            with self.here():
                seen = counting.look("eth0", "77")
            rates = counting.rates(seen._replace(time=0), seen._replace(time=10**9))
            self.assertNotIn("\x1b", "".join(top.block_of(rates, "", 80, False)) + json.dumps(top.object_of(rates)))
            for path in paths:
                path.write_bytes(whole[path])

    def test_eighty_columns(self) -> None:
        """With the largest rates, and a program's name of escape sequences."""
        large: Counts = {("processor", 1000): dict.fromkeys(top.COLUMNS, 2**33)}
        rates: Any = {**large, ("program", f"serv{ESCAPE}er" * 9): {"ran_percent": 1.0}, **{("queue", each): {"ring": 1.0} for each in range(64)}}
        lines = top.block_of(rates, "x" * 200, 80, False)
        self.assertLessEqual(max(map(len, lines)), 80)
        most: Any = {("processor", 127): {name: 100 if name.endswith("_percent") else 9.99 if "_per_" in name else 9_999_999 for name in top.COLUMNS}}
        self.assertEqual(max(map(len, top.table_of(most))), 80)  # nothing of it is cut
        self.assertNotIn("\x1b", "".join(lines))
        self.assertRegex("\n".join(top.block_of(rates, "", 80, True)), "\x1b\\[1;31m! ring full: queue 0, queue 1")

    def test_once(self) -> None:
        with self.here(), unittest.mock.patch.object(top, "SECOND", 0):
            self.put()
            told = json.loads(self.succeeds("top", "eth0", "--program", "77", "--once", "--json"))
            text = self.succeeds("top", "eth0", "--once", "--json", self.folder / "x.json")
            self.assertEqual(json.loads((self.folder / "x.json").read_text())["tool"], "top")
            self.fails("DEV eth1: there is no such device", "top", "eth1", "--once")
            self.assertIn("not a device name", run("top", "../x", "--once").stderr)
        self.assertEqual([each["processor"] for each in told["processors"]], [0, 1])
        self.assertEqual(set(told), {"version", "tool", "processors", "queues", "devices", "sockets", "programs", "abnormal"})
        self.assertRegex(text, r"^\d\d:\d\d:\d\d eth0, per second\ncpu  packets  runs  irqs .*\n  0        0 ")

    def test_a_terminal(self) -> None:
        """A process on a terminal, on this machine's own files: q ends it, and the terminal echoes again."""
        own, its = pty.openpty()
        before = termios.tcgetattr(its)
        words = [*START, "top", "lo", "--program", str(os.getpid())]
        child = subprocess.Popen(words, stdin=its, stdout=its, stderr=its, cwd=self.folder, env={**with_programs({}), "NO_COLOR": "1", "TERM": "xterm"}, close_fds=True)
        self.addCleanup(os.close, own)
        self.addCleanup(child.wait)
        self.addCleanup(child.kill)
        said = self.shown(own, "q ends.*cpu +packets")
        self.assertNotIn("\x1b[1;31m", said)
        os.write(own, b"q")
        self.assertEqual(child.wait(timeout=MOST_SECONDS), 0)
        self.assertEqual(termios.tcgetattr(its)[3], before[3])
        os.close(its)

    def shown(self, terminal: int, pattern: str) -> str:
        """Waits until a terminal shows this, and returns all that it shows."""
        said, until = "", time.monotonic() + MOST_SECONDS
        while not re.search(pattern, said, re.S):
            self.assertLess(time.monotonic(), until, said)
            if select.select([terminal], [], [], 1)[0]:
                said += os.read(terminal, 1 << 16).decode()
        return said

    def test_a_key_that_records(self) -> None:
        """It makes a recording of the device and of the program, advises, and says why if either fails."""
        calls: list[list[str]] = []
        words = unittest.mock.Mock(device="eth0", program="server")
        with unittest.mock.patch("fintaqush_tools.commands.record.main", calls.append), unittest.mock.patch("fintaqush_tools.commands.advise.main", calls.append):
            top.record_and_advise(words)
        self.assertEqual((calls[0][:3], calls[0][-2:], calls[1]), (["5", "--device", "eth0"], ["--program", "server"], [calls[0][4]]))
