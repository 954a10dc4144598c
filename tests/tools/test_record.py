"""Tests of fintaqush record: its errors, and, as root on a kernel with tracing, recordings of a separate veth pair."""

from __future__ import annotations

import contextlib
import json
import os
import re
import shutil
import signal
import socket
import subprocess
import sys
import time
import unittest
import unittest.mock
from collections import Counter
from collections.abc import Callable, Iterator, Sequence
from pathlib import Path
from typing import Any

from tooltest import MOST_SECONDS, NO_WORDS, START, TOP, InFolder, limited, process, run, skip_without

from fintaqush_tools import instances, observed, recording, ring_buffer, tracing
from fintaqush_tools.commands import record
from fintaqush_tools.errors import Refusal
from fintaqush_tools.recording import Event, Events
from fintaqush_tools.options import Words

IN_MOUNTS = ["unshare", "-m", "sh", "-c", 'cd /sys/kernel/tracing && { [ -d instances ] || mount -t tracefs nodev .; } 2> /dev/null && cd /sys/kernel/tracing && eval "$1"', "sh"]
# A program with a given name that reads a number of packets; and one that, at each line of input, sends bursts repeatedly: the first has so
# many packets, and each following one has one more, up to the last.
SERVER = """import socket, sys
open("/proc/self/comm", "w").write(sys.argv[1])
end = socket.socket(socket.AF_INET, socket.SOCK_DGRAM)
end.setsockopt(socket.SOL_SOCKET, 33, 1 << 26)
end.bind(("10.98.0.2", 9))
print("ready", flush=True)
for _ in range(int(sys.argv[2])):
    end.recv(2000)
"""
CLIENT = """import socket, sys, time
times, first, last = map(int, sys.argv[1:4])
out = socket.socket(socket.AF_INET, socket.SOCK_DGRAM)
print("ready", flush=True)
for _ in sys.stdin:
    for _ in range(times):
        for packets in range(first, last + 1):
            for _ in range(packets):
                out.sendto(b"x" * 100, ("10.98.0.2", 9))
            time.sleep(float(sys.argv[4]))
    print("sent", flush=True)
"""
ENDLESS = "3600"  # seconds of a recording that the test ends by a signal when it has seen what it waits for


def in_tracing(command: str) -> str | None:
    """Returns what a shell command prints in the folder of tracefs; None if it fails, as on a machine without tracing."""
    done = subprocess.run([*IN_MOUNTS, command], capture_output=True, text=True, check=False)
    return done.stdout if done.returncode == 0 else None


def instances_there() -> list[str]:
    """Returns the names of ftrace's instances."""
    listed = in_tracing("ls instances")
    assert listed is not None
    return listed.split()


def own(said: str) -> str:
    """Returns messages without that on a hypervisor, which depends on the machine."""
    return re.sub("fintaqush record: a hypervisor took .*\n", "", said)


class Probed(Events):
    is_probed = True


WORD = re.compile(r"(\w+)=(\S+)|\b(struct|device|work|budget) (\S+)|0x([0-9a-f]+)$")


def what(event: Event) -> tuple[int, int, int, str, str, dict[str, str]]:
    """Returns an event, by its time in us, with the values of its text: addresses and other numbers as the kernel prints them."""
    words = {key or other or "": (value or more or last).lstrip("0x") for key, value, other, more, last in WORD.findall(event.said)}
    words.pop("prev_state", None)
    return (event.time + 500) // 1000, event.cpu, event.pid, event.name, event.flags[2:3].replace(".", ""), words


def check_same(test: unittest.TestCase, events: Events, kernel: Events) -> None:
    """Checks the events of pages against the kernel's text of them, which has more values of some events."""
    test.assertEqual(len(events), len(kernel))
    of_pages, of_text = (sorted(map(what, each), key=lambda one: str(one[:4])) for each in (events, kernel))
    for own, other in zip(of_pages, of_text):
        test.assertEqual(own[:-1], other[:-1])
        test.assertLessEqual(own[-1].items(), other[-1].items(), own)


IS_ROOT = os.geteuid() == 0
HAS_IP = shutil.which("ip") is not None
HAS_NAMESPACES = IS_ROOT and HAS_IP and subprocess.run(["unshare", "-m", "-n", "true"], capture_output=True, check=False).returncode == 0
HAS_TRACING = HAS_NAMESPACES and in_tracing("ls events/napi/napi_poll") is not None


class Refused(InFolder):
    """Errors that need no tracing."""

    def test_words(self) -> None:
        for words in (NO_WORDS, ["--device", "lo"], ["--out", "x"], ["0", "--device", "lo", "--out", "x"], ["5", "6", "--device", "lo", "--out", "x"],
                      ["--device", "lo", "--out", "x", "--buffer", "0"], ["--device", "lo", "--out", "x", "--processors", "3-1"]):
            self.fails("usage: fintaqush record", "record", *words, status=64, folder=self.folder)

    def test_without_root_it_says_so_at_once(self) -> None:
        front = [] if os.geteuid() else ["unshare", "-U"]  # run without root
        done = process(*front, *START, "record", "--device", "none", "--out", "none/x")
        self.assertEqual((done.stderr, done.stdout, done.returncode), ("fintaqush record: recording needs root: sudo fintaqush record ..\n", "", 1))

    @unittest.skipUnless(IS_ROOT, "root")
    @unittest.skipUnless(HAS_IP, "ip")
    def test_what_is_not_there(self) -> None:
        for words, why in ((["--device", "none9"], "--device none9: there is no such device; one in a network namespace needs --netns"),
                           (["--device", "../lo"], "--device ../lo: not a device name"), (["--device=-lo"], "--device -lo: not a device name"),
                           (["--device", ".."], "--device ..: not a device name"), (["--device", "v\x1b[8m"], "--device v\\x1b[8m: not a device name"),
                           (["--device", "lo", "--sender", "ü"], "--sender ü: not a device name"), (["--device", "(no_device)"], "not a device name"),
                           (["--device", "lo", "--program", "a\x1b"], "--program a\\x1b: a name of printable ASCII characters"),
                           (["--device", "lo", "--netns", ".."], "--netns ..: there is no such network namespace"),
                           (["--device", "lo;id"], "--device lo;id: there is no such device; one in a network namespace needs --netns"),
                           (["--device", "lo", "--netns", "none9"], "--netns none9: there is no such network namespace; `ip netns` lists them"),
                           (["--device", "lo", "--netns", "../x"], "--netns ../x: there is no such network namespace; `ip netns` lists them"),
                           (["--device", "lo", "--sender", "a", "--sender", "b"], "2 --sender for 1 --device"),
                           (["--device", "lo", "--program", "4194305"], "--program 4194305: there is no such process"),
                           (["--device", "lo", "--program", 'a"b'], '--program a"b: a name of printable ASCII characters without quotes, or a process\'s number'),
                           (["--device", "lo", "--buffer", "65536"], "more than half of the free memory")):
            said = self.fails(why, "record", "1", *words, "--out", "x", folder=self.folder)
            self.assertEqual((said.count("\n"), self.names()), (1, []), said)
        (self.folder / "folder").mkdir()
        for out, why in (("folder", "folder: this is a folder"), ("none/x", "none: there is no such folder")):
            self.fails(f"fintaqush record: {why}\n", "record", "1", "--device", "lo", "--out", out, folder=self.folder)


class NothingThere(InFolder):
    """What the commands and files say where there is nothing: as printed by iproute2 6.1, ethtool 6.1 and Linux 6.18."""

    def setUp(self) -> None:
        super().setUp()
        path = os.environ["PATH"]
        os.environ["PATH"] = f"{self.folder}:{path}"
        self.addCleanup(os.environ.__setitem__, "PATH", path)

    def test_ip(self) -> None:
        """`ip -j link show type` of a kind that the kernel doesn't know prints an empty object for each device."""
        for said in ("echo '[{},{},{},{}]'", "echo '[]'", ":", "exit 1", "echo 'Error: argument \"-j\" is wrong' >&2; exit 255"):
            self.program("ip", said)
            self.assertEqual((observed.pairs_in(""), observed.pairs_in("x"), observed.peer_of("eth0", "")), ([], [], ""), said)
        # a veth whose peer is in a namespace without a name
        self.program("ip", """case "$*" in *list-id*) : ;; *) echo '[{},{"ifindex":3,"ifname":"vb1","link_index":2,"link_netnsid":0}]' ;; esac""")
        self.assertEqual(observed.peer_of("vb1", ""), "")
        # one whose other end has a name that isn't printable
        self.program("ip", """echo '[{"ifindex":3,"ifname":"vb1","link_index":2,"link":"v\\u001b[8m"}]'""")
        with self.assertRaisesRegex(Refusal, r"^the other end of a veth pair, v\\x1b\[8m: not a device name, which has "):
            record.find_senders(Words(device=["vb1"], sender=[], netns=""))

    def test_ethtool(self) -> None:
        for said in ("echo 'netlink error: Operation not supported' >&2; exit 1", ":", "echo 'Cannot get driver information: Operation not supported' >&2; exit 71"):
            self.program("ethtool", said)
            self.assertEqual((list(observed.driver_of("eth0", "")), list(observed.by_ethtool("eth0", ""))), ([], []))
        self.program("ethtool", "printf 'Ring parameters for eth0:\\nPre-set maximums:\\nRX:\\t\\tn/a\\nCurrent hardware settings:\\nRX:\\t\\tn/a\\n'")
        self.assertEqual([pair for pair in observed.by_ethtool("eth0", "") if "ring" in pair[0]], [])

    @unittest.skipUnless(IS_ROOT, "root")
    def test_tracefs(self) -> None:
        """A kernel without tracing has no folder for it; in a container the folder is empty, and nothing can be mounted; in a chroot nothing is
        mounted at the root, so it can't be made private."""
        chroot = ("mount -t tmpfs nodev /mnt && mkdir /mnt/root && for each in /*; do [ ! -d $each ] || "
                  "{ mkdir /mnt/root$each && mount --bind $each /mnt/root$each; }; done; exec chroot /mnt/root")
        for front, why in (("mount -t tmpfs nodev /sys/kernel", "this kernel has no tracing: boot one with CONFIG_FTRACE"),
                           (chroot, "in a chroot `mount -t tracefs nodev /sys/kernel/tracing` does it"),
                           ("mount -t tmpfs nodev /sys/kernel && mkdir /sys/kernel/tracing && exec setpriv --bounding-set=-sys_admin", "tracefs can't be mounted")):
            run_it = " && exec " if "exec" not in front else " "
            done = process("unshare", "-m", "sh", "-c", f'{front}{run_it}"$0" "$@"', *START, "record", "1", "--device", "lo", "--out", "x", folder=self.folder)
            self.assertEqual((done.returncode, done.stdout, self.names()), (1, "", []), done.stderr)
            self.assertIn(why, done.stderr.splitlines()[-1])

    def test_a_whole_recording(self) -> None:
        """Without a sender, on a machine whose kernel has no veth devices."""
        if not HAS_TRACING:
            self.skipTest("tracing")
        self.program("ip", "echo '[{},{},{},{}]'")
        done = run("record", "1", "--device", "lo", "--out", self.folder / "x.rec", PATH=f"{self.folder}:{os.environ['PATH']}")
        self.assertEqual(done.returncode, 0, done.stderr)


PIECE = 1 << 16  # bytes of a made-up buffer that are read at once


class Advice(unittest.TestCase):
    def test_a_buffer_that_was_too_small(self) -> None:
        """32 MB for half a second of five take ten times as much, or a tenth of the time."""
        advice = record.advice_on_buffer
        words = Words(seconds=5, buffer=32)
        self.assertEqual(advice(words, 0.5, 1000), "record again with --buffer 320")
        self.assertEqual(advice(words, 0.5, 100), "5 s would need --buffer 320, and this machine has memory for 100: record for 1 s with --buffer 100, or "
                                                  "fewer processors (--processors), or less traffic")


class Buffer(tracing.Instance):
    """A made-up buffer with a clock of its own: `rate` and `speed` are the MB that come in a second and that can be read in one."""

    def __init__(self, rate: float, speed: float = 20) -> None:
        super().__init__("")
        self.rate, self.speed, self.now, self.level, self.most = rate * tracing.MEGABYTE, speed * tracing.MEGABYTE, 0.0, 0.0, 0.0
        self.checks = self.pieces = 0

    def monotonic(self) -> float:
        return self.now

    def monotonic_ns(self) -> int:
        return int(self.now * 1e9)

    def sleep(self, seconds: float) -> None:
        self.now += seconds
        self.level += self.rate * seconds
        self.most = max(self.most, self.level / tracing.MEGABYTE)

    def statistics(self) -> Iterator[tuple[int, int, int]]:
        self.checks += 1
        yield from ((7, 0, 0), (int(self.level), 0, 0))

    def drain(self) -> bool:
        self.pieces += 1
        self.sleep(PIECE / self.speed)
        self.level = max(0, self.level - PIECE)
        return not self.level


class Waits(unittest.TestCase):
    """How long it records, and what it does meanwhile."""

    def waited(self, buffer: Buffer, seconds: float, megabytes: int) -> bool:
        """Returns whether it ends early."""
        with unittest.mock.patch.object(record, "time", buffer):
            return record.wait(buffer, Words(buffer=megabytes), seconds, buffer.drain)

    def test_the_time_counts_from_the_first_window(self) -> None:
        """Also if it takes longer than that until the kernel records."""
        buffer, windows = Buffer(3), record.Windows()
        with unittest.mock.patch.object(record, "time", buffer), unittest.mock.patch.object(buffer, "write", lambda *_: buffer.sleep(5)):
            self.assertFalse(windows.record(buffer, Words(buffer=32, window=None), 1, buffer.drain))
        self.assertEqual((len(windows), round(windows.seconds(), 6)), (1, 1))

    def test_buffers_that_hold_all_need_no_work(self) -> None:
        """15 MB of 32 are never emptied, and checked when 16 could be full: at 100 MB/s after 160 ms, and after 10 ms at the end, but at least 20 ms
        later. Buffers of 1100 MB can't be half full within 5 s, so one check is made."""
        for megabytes, checks in ((32, range(31, 250)), (1100, range(1, 2))):
            buffer = Buffer(3)
            self.assertFalse(self.waited(buffer, 5, megabytes))
            self.assertEqual((round(buffer.now, 6), buffer.pieces), (5, 0))
            self.assertIn(buffer.checks, checks)

    def test_larger_recordings_are_emptied(self) -> None:
        """10 MB come in a second and 20 can be read; from half of 8 MB they are read at once."""
        buffer = Buffer(10)
        self.assertFalse(self.waited(buffer, 20, 8))
        self.assertTrue(buffer.now >= 20 and 100 <= buffer.pieces * PIECE / tracing.MEGABYTE <= 200, buffer.pieces)
        self.assertTrue(4 <= buffer.most <= 5, buffer.most)

    def test_it_ends_before_a_buffer_is_full(self) -> None:
        """Up to 100 MB come in a second, of which 20 can be read: it ends with over 0.8 of the buffer, and loses nothing."""
        for rate in (25, 50, 100):
            buffer = Buffer(rate)
            self.assertTrue(self.waited(buffer, 60, 32))
            self.assertTrue(0.8 * 32 < buffer.most <= 32, buffer.most)
            self.assertLess(buffer.now, 10)


class Counts(unittest.TestCase):
    """What is found in the events."""

    def body(self, *events: Event, pairs: Sequence[tuple[str, str]] = ()) -> record.Body:
        body = record.Body(pairs)
        for event in events:
            for look in body.looks_at(event.name):
                look(event)
        body.napi = list(body.instances.found())
        return body

    def event(self, time: int, cpu: int, said: str) -> Event:
        name, _, what = said.partition(": ")
        return Event(0, "a", cpu, "..s", time, name, what, 1)

    def poll(self, time: int, cpu: int, napi: str, work: int, device: str = "vb1", budget: int = 64) -> Event:
        return self.event(time, cpu, f"napi_poll: napi poll on napi struct {napi} for device {device} work {work} budget {budget}")

    def test_instances(self) -> None:
        """Three instances of a card: one receives on two processors, the second took nothing but a packet's poll is known by napi_id, the third
        polls for transmit queues. The processors of a receive queue have shares of its packets."""
        taken = "napi_gro_receive_entry: dev=eth0 napi_id=0x2001 queue_mapping=3 skbaddr=0 vlan_tagged=0"
        body = self.body(self.event(1, 2, taken), self.event(2, 2, taken), self.poll(3, 2, "aa", 2, "eth0"), self.poll(4, 3, "aa", 6, "eth0"),
                         self.poll(5, 1, "bb", 0, "eth0"), self.poll(6, 1, "bb", 0, "eth0"), self.poll(7, 1, "cc", 1, "(no_device)"))
        self.assertEqual([each.text() for each in body.napi], [
            "device (no_device) napi cc kind receive polls 1 packets 1 on 1:1:1",
            "device eth0 napi aa napi_id 8193 queue 2 kind receive polls 2 packets 8 on 2:1:2,3:1:6",
            "device eth0 napi bb kind transmit polls 2 packets 0 on 1:2:0"])
        again = instances.instances_in({f"instance.{place}": each.text() for place, each in enumerate(body.napi)})
        self.assertEqual(again, body.napi)
        self.assertEqual(instances.described("eth0", again), "eth0: 1 receive instance on 2 processors: queue 2 on 3 and 2 (100 %)")
        self.assertEqual(instances.described("(no_device)", again), "the processors' backlogs: 1 receive instance on processor 1")
        for text in ("", "device eth0", "device eth0 napi", "device eth0 napi a on 1:2", "device eth0 napi a on 1:2:3 more 4"):
            with self.assertRaisesRegex(Refusal, "an unknown format"):
                instances.instances_in({"instance.1": text})

    def test_the_queues_of_a_pair(self) -> None:
        """Two queues get 1 to 4 and 5 to 8 packets in turn, and a poll of its instance takes them. One packet in ten finds its ring full, and in one
        round of seven the poll sees only those of the next round."""
        lines: list[Event] = []
        time, packet, left = 0, 0, [0, 0]
        for round_ in range(70):
            for queue, napi in ((1, "aa"), (0, "bb")):
                for _ in range(1 + round_ % 4 + 4 * queue):
                    packet, time = packet + 1, time + 1
                    is_full = packet % 10 == 0
                    lines += [self.event(time, 0, f"net_dev_start_xmit: dev=va1 queue_mapping={queue} skbaddr={packet:x} vlan_tagged=0"),
                              self.event(time, 0, f"net_dev_xmit: dev=va1 skbaddr={packet:x} len=100 rc={int(is_full)}")]
                    left[queue] += not is_full
                if round_ % 7 != 3:
                    time += 1
                    lines.append(self.poll(time, 2 + queue, napi, left[queue]))
                    left[queue] = 0
        body = self.body(*lines, pairs=[("va1", "vb1")])
        self.assertEqual({each.napi: each.queue for each in body.napi}, {"aa": 1, "bb": 0})
        self.assertEqual(body.sent["va1"], packet)

    def test_notes(self) -> None:
        head, none = {"missing": "", "seconds": "1.0"}, self.body()
        words = Words(device=["vb1"], sender=["va1"], probe=None)
        self.assertEqual(list(record.notes_on(words, head, none)), ["nothing was sent by va1: record while packets arrive"])
        words.sender = []
        self.assertEqual(list(record.notes_on(words, head, none)), ["it has no arrivals: vb1 received nothing: record while packets arrive"])
        words.probe = [], []
        backlog = self.body(self.event(1, 0, "netif_receive_skb: dev=vb1 skbaddr=1 len=9"), self.poll(2, 0, "aa", 1, "(no_device)"))
        self.assertEqual(list(record.notes_on(words, head, backlog))[1:], ["the probe shows nothing, because a processor's backlog polls, which has no deferral"])

    def test_which_events(self) -> None:
        """Of a pair also packets that a backlog may get, and if it has several queues those that the sender begins to send."""
        settings = {"device.vb1.rx-0.rps_cpus": "0"}
        several = {**settings, "device.vb1.rx-1.rps_cpus": "0"}
        cases: list[tuple[dict[str, str], list[str]]] = [(settings, []), (several, ["va1"])]
        for given, senders in cases:
            self.assertEqual(record.sources_of(Words(sender=["va1"], device=["vb1"]), given, ""), tracing.Sources("", (), ["vb1"], senders))
        self.assertEqual(record.sources_of(Words(sender=[], device=["eth0"]), several, "x"), tracing.Sources("x", ["eth0"]))


@unittest.skipUnless(IS_ROOT, "root")
@unittest.skipUnless(HAS_IP, "ip")
@unittest.skipUnless(HAS_NAMESPACES, "namespaces")
@unittest.skipUnless(HAS_TRACING, "tracing")
@skip_without("ethtool")
class Recorded(InFolder):
    """On a veth pair whose ends are in separate namespaces."""

    def setUp(self) -> None:
        super().setUp()
        number = os.getpid() % 100000
        self.sending, self.receiving = f"fqs{number}", f"fqr{number}"
        self.ends = f"fqa{number}", f"fqb{number}"
        self.reader = f"fqserver{number}"
        for name in (self.sending, self.receiving):
            self.ip("netns", "add", name)
            self.addCleanup(self.ip, "netns", "del", name)
        addresses = "02:00:00:00:00:01", "02:00:00:00:00:02"
        self.ip("link", "add", self.ends[0], "address", addresses[0], "netns", self.sending, "type", "veth",
                "peer", "name", self.ends[1], "address", addresses[1], "netns", self.receiving)
        for place, name in enumerate((self.sending, self.receiving)):  # only packets of the test go over the pair
            subprocess.run(["ip", "netns", "exec", name, "sh", "-c", "echo 1 > /proc/sys/net/ipv6/conf/all/disable_ipv6"], stderr=subprocess.DEVNULL, check=False)
            self.ip("-n", name, "addr", "add", f"10.98.0.{place + 1}/24", "dev", self.ends[place])
            self.ip("-n", name, "link", "set", self.ends[place], "up")
            self.ip("-n", name, "neigh", "replace", f"10.98.0.{2 - place}", "lladdr", addresses[1 - place], "dev", self.ends[place])

    def ip(self, *words: str) -> None:
        subprocess.run(["ip", *words], check=True)

    def prior(self, *command: object, **others: Any) -> subprocess.Popen[str]:
        """Starts a process, with priority if that is allowed."""
        process = self.begun(*command, **others)
        with contextlib.suppress(PermissionError):
            os.setpriority(os.PRIO_PROCESS, process.pid, -10)
        return process

    def recording(self, seconds: str, *words: str, start: Sequence[str] = tuple(START)) -> subprocess.Popen[str]:
        """Starts the tool, and returns when it records."""
        process = self.prior(*start, "record", seconds, "--out", "made", *words)
        assert process.stderr
        self.assertEqual(process.stderr.readline(), f"fintaqush record: recording for {seconds} s\n")
        return process

    def start(self, *words: str, seconds: str = "1", **others: Any) -> subprocess.Popen[str]:
        return self.recording(seconds, "--device", self.ends[1], "--netns", self.receiving, *words, **others)

    def ready(self, netns: str, program: str, *words: object, **ends: int) -> subprocess.Popen[str]:
        """Starts a program in a namespace, and returns when it is ready."""
        process = self.prior("ip", "netns", "exec", netns, sys.executable, "-c", program, *words, ends=ends)
        assert process.stdout
        self.assertEqual(process.stdout.readline(), "ready\n")
        return process

    def sender(self, *numbers: object, processor: int | None = None) -> subprocess.Popen[str]:
        """Starts a sender, on that processor if one is named."""
        sender = self.ready(self.sending, CLIENT, *numbers, stdin=subprocess.PIPE)
        if processor is not None:
            os.sched_setaffinity(sender.pid, {processor})
        return sender

    def send(self, sender: subprocess.Popen[str]) -> None:
        sender.communicate("\n")
        self.assertEqual(sender.returncode, 0)

    def send_once(self, sender: subprocess.Popen[str]) -> None:
        """Lets a sender send, which can send again then."""
        assert sender.stdin and sender.stdout
        print(file=sender.stdin, flush=True)
        self.assertEqual(sender.stdout.readline(), "sent\n")

    def ended(self, process: subprocess.Popen[str], number: int = signal.SIGINT) -> str:
        """Ends a recording by a signal, and returns what it prints."""
        process.send_signal(number)
        out, said = process.communicate(timeout=MOST_SECONDS)
        self.assertEqual((own(said), process.returncode), ("", 0))
        return out

    def wait_until(self, has_come: Callable[[], bool]) -> None:
        until = time.monotonic() + MOST_SECONDS
        while not has_come():
            self.assertLess(time.monotonic(), until)
            time.sleep(0.01)

    @staticmethod
    def is_on(process: subprocess.Popen[str]) -> bool:
        return in_tracing(f"cat instances/fintaqush-{process.pid}/tracing_on") == "1\n"

    @staticmethod
    def level(process: subprocess.Popen[str], processor: int) -> float | None:
        """Returns how many MB are in a processor's buffer; None after the recording."""
        told = in_tracing(f"sed -n 's/^bytes: //p' instances/fintaqush-{process.pid}/per_cpu/cpu{processor}/stats")
        return int(told) / tracing.MEGABYTE if told else None

    def serve(self, count: int) -> subprocess.Popen[str]:
        """Starts a program that reads so many packets."""
        return self.ready(self.receiving, SERVER, self.reader, count)

    def head(self, reader: Events | None = None) -> tuple[dict[str, str], Events]:
        """Returns the head and the events of the recording."""
        events = Events() if reader is None else reader
        head = recording.read(str(self.folder / "made"), [], lambda _: [events])
        self.assertEqual((self.folder / "made").read_bytes().partition(b"\n")[0], b"fintaqush-recording 2")
        return head, events

    def check_gone(self, process: subprocess.Popen[str]) -> None:
        """Checks that no instance and no file but the recording is left, and that tracing is as before."""
        self.assertNotIn(f"fintaqush-{process.pid}", instances_there())
        self.assertIn(self.names(), ([], ["made"]))

    def test_a_recording(self) -> None:
        """Forty bursts of one to forty packets, which a program reads. Expected numbers come from the sent packets, and from the kernel's files."""
        begun, server, sender, stolen = time.monotonic_ns(), self.serve(820), self.sender(1, 1, 40, 0.005), self.stolen()
        set_before = in_tracing("cat current_tracer tracing_on trace_clock events/enable buffer_size_kb saved_cmdlines_size")
        settings = {path.name: path.read_text().strip() for path in Path("/proc/sys/net/core").glob("*[a-z]") if os.access(path, os.R_OK)}
        process = self.start("--program", self.reader, seconds=ENDLESS)
        self.send(sender)
        self.assertEqual(server.wait(MOST_SECONDS), 0)
        out = self.ended(process)
        self.check_gone(process)
        self.assertEqual(in_tracing("cat current_tracer tracing_on trace_clock events/enable buffer_size_kb saved_cmdlines_size"), set_before)
        head, events = self.head()
        self.assertEqual([head[key] for key in ("device", "netns", "sender", "pair", "lost", "program", "program.pids", f"sent.{self.ends[0]}")],
                         [self.ends[1], self.receiving, self.ends[0], f"{self.ends[0]}:{self.ends[1]}", "0", self.reader, str(server.pid), "820"])
        for key in ("netdev_budget", "netdev_max_backlog", "dev_weight", "netdev_budget_usecs", "busy_poll", "rps_sock_flow_entries"):
            self.assertIn(head[f"sysctl.net.core.{key}"], (settings[key], Path(f"/proc/sys/net/core/{key}").read_text().strip()))
        self.assertEqual([head[f"device.{self.ends[1]}.{key}"] for key in ("threaded", "napi_defer_hard_irqs", "gro_flush_timeout")], ["0"] * 3)
        self.assertEqual(set(head[f"device.{self.ends[1]}.rx-0.rps_cpus"]) - {","}, {"0"})
        self.assertEqual((head["kernel"], head[f"device.{self.ends[1]}.address"]), (os.uname().release, "02:00:00:00:00:02"))
        self.check_instances(head, events)
        self.check_stolen(head, stolen, (time.monotonic_ns() - begun) / 1e9)
        readings = [(time.monotonic_ns(), time.time_ns(), time.monotonic_ns()) for _ in range(100)]
        since, real, until = min(readings, key=lambda each: each[2] - each[0])
        self.assertAlmostEqual(int(head["began.realtime"]) - real, int(head["began.monotonic"]) - (since + until) // 2, delta=10**7)
        before, after = map(int, head[f"device.{self.ends[1]}.statistics.rx_packets"].split())
        self.assertEqual(after - before, 820)
        before, after = map(int, head["udp.InDatagrams"].split())
        self.assertEqual(after - before, 820)
        self.assertEqual(len(events), int(head["events.count"]))
        self.assertEqual(sum(event.name.startswith("sys_exit_recv") and event.said == "0x64" for event in events), 820)
        self.assertLessEqual({"napi_poll", "softirq_entry", "softirq_exit", "sched_switch"}, {event.name for event in events})
        self.assertNotIn("netdev_rss_key", "".join(head))
        self.assertRegex(out, rf"^made: \d+\.\d s; .*; 820 packets of {self.ends[0]}\n")
        self.succeeds("from-ftrace", "made", "arrivals", "--arrivals", folder=self.folder)
        self.assertEqual((self.folder / "arrivals.csv").read_text().count(",1,142\n"), 820)
        self.check_clock(events, begun)

    def check_instances(self, head: dict[str, str], events: Events) -> None:
        """Checks the lines of the instances against a plain count of the polls."""
        polls = [(event.cpu, *re.findall(r"struct (\S+) for device (\S+) work (\d+)", event.said)[0]) for event in events if event.name == "napi_poll"]
        told = instances.instances_in(head)
        for each in told:
            own = [(int(cpu), int(work)) for cpu, napi, device, work in polls if (napi, device) == (each.napi, each.device)]
            self.assertEqual(each.polls, Counter(cpu for cpu, _ in own))
            self.assertEqual(sum(each.packets.values()), sum(work for _, work in own))
        self.assertEqual(sum(sum(each.polls.values()) for each in told), len(polls))

    def stolen(self) -> dict[str, int]:
        """Returns what a hypervisor took from each processor, in ms, as a plain search of /proc/stat finds it in hundredths of a second."""
        return {cpu: 10 * int(taken) for cpu, taken in re.findall(r"(?m)^cpu(\d+)(?: \d+){7} (\d+) ", Path("/proc/stat").read_text())}

    def check_stolen(self, head: dict[str, str], before: dict[str, int], seconds: float) -> None:
        """Checks what the head says of each processor: not less than before the recording, not more than after it, and no more than the time."""
        after = self.stolen()
        self.assertEqual({key.split(".")[1] for key in head if key.startswith("stolen.")}, set(after))
        for cpu, most in after.items():
            begin, end = map(int, head[f"stolen.{cpu}"].split())
            self.assertTrue(before[cpu] <= begin <= end <= most and end - begin <= 1000 * seconds + 10, (cpu, before, begin, end, after))

    def check_clock(self, events: Events, begun: int) -> None:
        """Checks that times are of CLOCK_MONOTONIC, and rise: by the 39 pauses of 5 ms between the bursts at least."""
        times, now = [event.time for event in events], time.monotonic_ns()
        self.assertEqual(times, sorted(times))
        self.assertTrue(begun < times[0] < times[-1] < now)
        self.assertGreaterEqual(times[-1] - times[0], 39 * 5 * 10**6)

    def test_a_device_without_a_pair(self) -> None:
        """On the loopback device, as on a card, it records the received packets: at least those sent here. They are arrivals."""
        process, size = self.recording(ENDLESS, "--device", "lo"), 700 + os.getpid() % 600  # another test may send over it too
        with socket.socket(socket.AF_INET, socket.SOCK_DGRAM) as end, socket.socket(socket.AF_INET, socket.SOCK_DGRAM) as out:
            end.bind(("127.0.0.1", 0))
            for _ in range(60):
                out.sendto(b"x" * size, end.getsockname())
                end.recv(size)
        process.send_signal(signal.SIGINT)
        told, said = process.communicate(timeout=MOST_SECONDS)
        self.assertEqual((process.returncode, own(said)), (0, "fintaqush record: its arrivals are when polls took the packets, because no device that sends to it is known, as of a "
                                                         "veth pair: waits in a card's ring before the interrupt aren't in it\n"))
        head, events = self.head()
        self.assertEqual(int(head["received.lo"]), sum(event.name == "netif_receive_skb" and event.said.startswith("dev=lo ") for event in events))
        self.assertIn(f"; {head['received.lo']} packets that lo received\n", told)
        self.succeeds("from-ftrace", "made", "arrivals", "--arrivals", folder=self.folder)
        # Beside the data 8 bytes of UDP, 20 of IPv4 and 14 of Ethernet.
        self.assertEqual((self.folder / "arrivals.csv").read_text().count(f",1,{size + 8 + 20 + 14}\n"), 60)

    def test_an_end_by_a_signal(self) -> None:
        """A signal ends the recording, and what came until then is kept."""
        for number, option in ((signal.SIGINT, ""), (signal.SIGTERM, "--window=59s/60s"), (signal.SIGHUP, "")):
            sender = self.sender(1, 30, 30, 0)
            process = self.start(*option.split(), seconds=ENDLESS)
            self.assertIn(f"fintaqush-{process.pid}", instances_there())
            self.send(sender)
            out = self.ended(process, number)
            self.assertEqual(self.names(), ["made"])
            self.assertEqual(self.head()[0][f"sent.{self.ends[0]}"], "30")
            self.assertRegex(out, "^made: [0-9.]+ s; ")
            self.check_gone(process)

    def deferral(self) -> list[str]:
        files = " ".join(f"/sys/class/net/{self.ends[1]}/{name}" for name in recording.PROBE)
        return subprocess.run(["ip", "netns", "exec", self.receiving, "sh", "-c", f"cat {files}"], capture_output=True, text=True, check=True).stdout.split()

    def wait_for(self, *deferral: str) -> None:
        """Waits until this is set."""
        self.wait_until(lambda: self.deferral() == list(deferral))

    def has_timers(self, events: Events) -> bool:
        """Returns whether a timer of the receiver is started: one within its instance, as there may be others on this machine."""
        napi = {int(found[1], 16) for event in events if (found := re.search(rf"napi struct (\S+) for device {self.ends[1]} ", event.said))}
        self.assertTrue(napi)
        timers = {int(found[1], 16) for event in events if event.name == "hrtimer_start" and (found := re.search(r"hrtimer=(?:0x)?(\w+)", event.said))}
        return any(0 < timer - each < 4096 for timer in timers for each in napi)

    def probing(self) -> subprocess.Popen[str]:
        """Starts a recording whose second half, which is as long as the test wants, has begun."""
        tool = self.tool("""recorded = record.Recorded.record
record.Recorded.record = lambda self, windows, _, during: recorded(self, windows, 1 if windows is self.windows else 3600, during)""")
        process = self.start("--probe", seconds=ENDLESS, start=tool)
        self.wait_for("2", "100000")
        self.wait_until(lambda: self.is_on(process))  # nothing is recorded while it is set
        return process

    def test_a_probe(self) -> None:
        """In its half deferral is set: then, and only then, polls are by timers. What was set is restored, also if the tool is killed then, and
        if no more can be written."""
        for netns, words in ((self.receiving, (self.ends[1], "gro", "on")), (self.sending, (self.ends[0], "tso", "off", "tx-udp-segmentation", "off"))):
            subprocess.run(["ip", "netns", "exec", netns, "ethtool", "-K", *words], check=True)  # without these a backlog polls
        before = self.deferral()
        always, sender = self.sender(10**6, 1, 1, 0.001), self.sender(1500, 1, 1, 0.001)
        assert always.stdin
        print(file=always.stdin, flush=True)
        process = self.probing()
        self.send(sender)
        self.ended(process)
        self.assertEqual(self.deferral(), before)
        (head, events), (_, probed) = self.head(), self.head(Probed())
        self.assertEqual(head["probe"].isdigit() and [head[f"device.{self.ends[1]}.{name}"] for name in recording.PROBE], before)
        self.assertEqual(list(events), [event for event in probed if event.time < int(head["probe"])])
        self.assertEqual([self.has_timers(events), self.has_timers(probed)], [False, True])
        found = json.loads(run("costs", "made", "--json", folder=self.folder).stdout)
        self.assertIn("timer", found["costs"])
        for number in (signal.SIGKILL, signal.SIGTERM):
            process = self.probing()
            process.send_signal(number)
            process.communicate()
            self.wait_for(*before)
        process = self.start("--probe", seconds="2")
        self.assertEqual((process.wait(MOST_SECONDS), self.deferral()), (0, before))
        subprocess.run(["ip", "netns", "exec", self.receiving, "sh", "-c", f"cd /sys/class/net/{self.ends[1]} && echo 2 > napi_defer_hard_irqs && echo 1 > gro_flush_timeout"], check=True)
        self.fails(f"--probe: {self.ends[1]} has deferral already", "record", "--probe", "--device", self.ends[1], "--netns", self.receiving, "--out", "x", folder=self.folder)

    def test_windows(self) -> None:
        """Packets are sent in all of the time; those of a quarter of it are recorded, as if a window followed the one before at once. A window, and
        the time between two begins, may be longer if the machine is busy, never shorter."""
        sender = self.sender(10**6, 1, 1, 0.001)
        process = self.start("--window", "250ms/1s", seconds=ENDLESS)
        assert sender.stdin
        print(file=sender.stdin, flush=True)
        for is_on in 3 * (False, True):
            self.wait_until(lambda: self.is_on(process) == is_on)
        self.ended(process)
        head, events = self.head()
        windows = [tuple(map(int, each.split(":"))) for each in head["windows"].split()]
        self.assertGreaterEqual(len(windows), 4)
        self.assertTrue(all(end - begin >= 0.25e9 for begin, end in windows[:-1]), windows)
        self.assertTrue(all(later[0] - earlier[0] >= 1e9 for earlier, later in zip(windows, windows[1:])), windows)
        whole = sum(end - begin for begin, end in windows)
        self.assertEqual(head["seconds"], f"{whole / 1e9:.6f}")
        self.assertTrue(windows[0][0] <= events[0].time <= events[-1].time < windows[0][0] + whole)

    def test_twice(self) -> None:
        """Two windows of the time, with as long a pause."""
        with unittest.mock.patch.object(record, "recorded_by", return_value="") as made, unittest.mock.patch.object(record, "check_whole"):
            record.main(["7", "--twice", "--device", "lo", "--out", "x"])
        self.assertEqual((made.call_args[0][0].window, made.call_args[0][0].seconds), ((7, 14), 21))
        for other in ("--probe", "--window=1s/2s"):
            self.fails("--twice has the time of two whole recordings", "record", "--twice", other, "--device", "lo", "--out", "x", status=64)

    def test_events_are_those_that_the_kernel_prints(self) -> None:
        """All of an instance's buffers, first as text, then by pages."""
        with tracing.Instance(tracing.mount_tracefs()) as instance, open(self.folder / "pages", "w+b") as file:
            instance.set_buffers(8, None)
            instance.write("options/hash-ptr", "0")
            enabled, _ = instance.enable(tracing.Sources(f'comm == "{self.reader[:15]}"', ["lo"], [self.ends[1]], [self.ends[0]]))
            server, sender = self.serve(210), self.sender(1, 1, 20, 0.001)
            instance.write("tracing_on", "1")
            self.send(sender)
            self.assertEqual(server.wait(MOST_SECONDS), 0)
            instance.write("tracing_on", "0")
            text, head = instance.read("trace"), dict(instance.formats(enabled))
            with instance.pipes() as pipes:
                buffers = record.Buffers(pipes, ring_buffer.Layout.parsed(head["pages"]), file)
                while not buffers.is_drained():
                    pass
            events = Events()
            recording.Pages([events], head).add(buffers.pages())
        kernel = Events()
        recording.Texts([kernel], []).add(text)
        self.assertGreater(len(kernel), 1000)
        check_same(self, events, kernel)

    def test_what_a_killed_one_left_is_removed(self) -> None:
        """The instance of a running process is kept."""
        process = self.start(seconds=ENDLESS)
        self.assertIn(f"fintaqush-{process.pid}", instances_there())
        process.kill()
        process.communicate()
        for name in self.names():
            (self.folder / name).unlink()
        in_tracing(f"mkdir instances/fintaqush-{os.getpid()}")
        self.addCleanup(in_tracing, f"rmdir instances/fintaqush-{os.getpid()}")
        other = self.start()
        self.assertEqual(other.wait(MOST_SECONDS), 0)
        self.assertGreaterEqual(float(self.head()[0]["seconds"]), 1)
        left = instances_there()
        self.assertNotIn(f"fintaqush-{process.pid}", left)
        self.assertIn(f"fintaqush-{os.getpid()}", left)

    def test_events_that_are_lost(self) -> None:
        """While the tool can't check its buffers, more events come than they hold. It prints how many were lost, and the old file stays."""
        self.write("made", "old\n")
        sender = self.sender(1, 40000, 40000, 0, processor=min(os.sched_getaffinity(0)))
        process = self.start("--buffer", "1", seconds=ENDLESS)
        process.send_signal(signal.SIGSTOP)
        self.send(sender)
        process.send_signal(signal.SIGCONT)
        said = process.communicate(timeout=MOST_SECONDS)[1]
        self.assertRegex(said, r"^fintaqush record: the kernel lost \d+ events, so the recording isn't written: record for a shorter time, or with a larger --buffer\n$")
        self.assertEqual((process.returncode, self.names(), (self.folder / "made").read_text()), (1, ["made"], "old\n"))

    def test_a_recording_that_is_larger_than_its_buffers(self) -> None:
        """They are emptied meanwhile, each time that one is half full: 40000 packets are over 6 MB of events, of which a processor's buffer holds four.
        They are sent on the only processor that is recorded, and no more before it is emptied, as the tool may wait for a processor."""
        processor = min(os.sched_getaffinity(0))
        sender = self.sender(1, 1000, 1000, 0, processor=processor)
        process = self.start("--buffer", "4", "--processors", str(processor), seconds=ENDLESS)
        for _ in range(40):
            self.send_once(sender)
            self.wait_until(lambda: (self.level(process, processor) or 0) < 2.2)
        self.ended(process)
        head, events = self.head()
        sent = sum(event.name == "net_dev_xmit" and event.said.startswith(f"dev={self.ends[0]} ") for event in events)
        self.assertEqual((head["buffer"], head[f"sent.{self.ends[0]}"], sent), ("4", "40000", 40000))
        self.assertGreater((self.folder / "made").stat().st_size, 4 * tracing.MEGABYTE)
        self.assertTrue(0 < float(head["recorder.seconds"]) < float(head["seconds"]))

    def test_a_buffer_that_is_too_small(self) -> None:
        """If it isn't emptied until the end, the recording ends early: the file is written, the exit status is 1, and the last line says which buffer
        holds the whole time. Nothing is sent from the moment at which it is nearly full."""
        tool = self.tool("""drained, ended = record.Buffers.is_drained, []
record.Buffers.is_drained = lambda self: not ended or drained(self)
counted = record.counted
record.counted = lambda *counts: ended.append(True) or counted(*counts)""")
        processor = min(os.sched_getaffinity(0))
        sender = self.sender(1, 250, 250, 0, processor=processor)
        process = self.start("--buffer", "4", "--processors", str(processor), seconds=ENDLESS, start=tool)
        while (level := self.level(process, processor)) is not None and level < record.FULL * 4:
            self.send_once(sender)
        said = process.communicate(timeout=MOST_SECONDS)[1]
        why = rf"^fintaqush record: a buffer of 4 MB was nearly full after [\d.]+ of {ENDLESS} s, so the recording ended early: (record again with|{ENDLESS} s)"
        self.assertRegex(said.splitlines()[-1], why)
        self.assertEqual((process.returncode, self.names()), (1, ["made"]))
        self.assertEqual(self.head()[0]["buffer"], "4")

    @staticmethod
    def tool(change: str) -> list[str]:
        """Returns a command that runs the tool after this change of its modules."""
        return [sys.executable, "-BEs", "-c", f"""import sys
sys.path.insert(0, "{TOP}/tools")
from fintaqush_tools import cli, tracing
from fintaqush_tools.commands import record
{change}
cli.entry()
"""]

    def test_some_processors(self) -> None:
        processor = min(os.sched_getaffinity(0))
        sender = self.sender(1, 9, 9, 0, processor=processor)
        process = self.start("--processors", str(processor), seconds=ENDLESS)
        self.send(sender)
        self.ended(process)
        self.assertEqual({event.cpu for event in self.head()[1]}, {processor})

    def test_a_disk_that_is_full(self) -> None:
        done = limited("-f 1", "record", "1", "--device", "lo", "--out", "made", folder=self.folder)
        self.assertEqual((done.returncode, done.stdout, self.names()), (1, "", []))
        self.assertEqual(done.stderr.splitlines()[-1], "fintaqush record: made: File too large")
