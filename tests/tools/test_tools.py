"""Tests of tools/. Expected traces and work come from another converter; expected values are written by hand."""

from __future__ import annotations

import itertools
import json
import os
import re
import struct
import sys
import unittest
from collections.abc import Iterable
from typing import Any

from tooltest import (ENTRY, EXIT, HEADER, HERE, NO_WORDS, REPLAY, TOP, InFolder, captured, ftrace, polled, process, run, sent,
                      skip_without)

from events import events_of
from fintaqush_tools import reports
from fintaqush_tools.errors import Refusal

PAIRS = [word for number in range(1, 7) for word in ("--pair", f"va{number}:vb{number}")]


class FromFtrace(InFolder):
    THREAD: dict[str, Any] = {"task": "napi/vb1-8-9", "cpu": 1}

    def convert(self, text: str, *words: object) -> tuple[list[str], list[str], list[str]]:
        """Returns the rows, the work and the notes of a recording."""
        rows, work, notes = self.converted("from-ftrace", "-", *words, ends=("csv", "work", "notes"), text=text)
        self.assertTrue(rows.startswith(HEADER))
        return rows.splitlines()[1:], work.splitlines(), notes.splitlines()

    def refused(self, why: str, text: str, *words: object) -> None:
        """Checks the error message for a recording without a trace, and that no file is left."""
        self.fails(why, "from-ftrace", "-", self.folder / "made", *words, text=text)
        self.assertEqual(self.names(), [])

    def test_recorded_pieces_are_as_the_other_converter_has_them(self) -> None:
        for name in ("soft-tcp", "soft-gso-23"):
            self.convert((HERE / f"{name}.txt").read_text(), *PAIRS)
            for end in ("csv", "work"):
                self.assertEqual((self.folder / f"made.{end}").read_text(), (HERE / f"{name}.{end}").read_text())

    def test_arrivals_within_a_poll_of_a_thread_are_noted(self) -> None:
        """It begins with what its processor did before, because some kernels record no switch from the idle task: the second packet comes during the poll."""
        events = [("swapper-0", 1, "local_timer_exit: vector=236"), ("a-7", 0, "net_dev_xmit: dev=va1 skbaddr=0x1 len=90 rc=0"), ("napi/vb1-9-50", 1, "netif_receive_skb: dev=vb1 skbaddr=0x1 len=76"),
                  ("a-7", 0, "net_dev_xmit: dev=va1 skbaddr=0x2 len=90 rc=0"), ("napi/vb1-9-50", 1, "napi_poll: napi poll on napi struct 0 for device vb1 work 1 budget 64"),
                  ("napi/vb1-9-50", 1, "sched_switch: prev_comm=napi/vb1-9 prev_pid=50 prev_prio=120 prev_state=S ==> next_comm=swapper/1 next_pid=0 next_prio=120")]
        text = "".join(f"{task.rjust(20)} [{cpu:03}] b....  5.{place:06}: {said}\n" for place, (task, cpu, said) in enumerate(events, 1))
        for lines, within in ((text, 2), ("".join(text.splitlines(True)[1:]), 1)):
            *_, notes = self.convert(lines, "--pair", "va1:vb1")
            self.assertIn(f"row 6: packets that arrived while it was under way and stand before it: {within}; which poll had them isn't recorded, and later rows carry the difference on",
                          notes)

    def test_a_backlog(self) -> None:
        text = re.sub(r"device \S+ work", "device (no_device) work", (HERE / "soft-tcp.txt").read_text())
        self.refused("only a processor's backlog polls in it, which a trace doesn't have: record again with GRO", text, *PAIRS)

    def test_arrivals_within_a_run_are_noted(self) -> None:
        rows, _, notes = self.convert((HERE / "soft-gso-23.txt").read_text(), *PAIRS)
        self.assertEqual(rows[66], "128,0,softirq,0")
        self.assertTrue(any(note.startswith("row 67:") and "stand before it: 6;" in note for note in notes))
        self.assertIn("runs on 2 processors, each with a poll list of its own: the trace has one list", notes)

    def test_the_text_of_trace_cmd_is_read(self) -> None:
        rows, work, _ = self.convert("""cpus=2
          <idle>-0     [001]   100.000100: net_dev_xmit:         dev=veth0 skbaddr=0xffff888 len=90 rc=0
          <idle>-0     [001]   100.002100: softirq_entry:        vec=3 [action=NET_RX]
          <idle>-0     [001]   100.002200: napi_poll:            napi poll on napi struct 0xffff9 for device veth1 work 1 budget 64
""", "--pair", "veth0:veth1", "--capacity", 16)
        self.assertEqual(rows, ["0,1,open,16", "0,2,open,16", "0,1,rx,90", "2,0,softirq,0"])
        self.assertEqual(work, ["polls 1 work 1"])

    def test_the_text_of_perf_is_read(self) -> None:
        """As `perf script` of Linux 6.1 writes it (builtin-script.c: task, thread, processor, time, system:event), with a call chain."""
        rows, work, notes = self.convert("""         swapper     0 [001]   100.000100:                      net:net_dev_xmit: dev=veth0 skbaddr=0xffff888 len=90 rc=0
        ffffffff81a0b1c2 dev_hard_start_xmit+0x12 ([kernel.kallsyms])

 my task 12      77/78    [001]   100.001000:          1               net:net_dev_xmit: dev=veth0 skbaddr=0xffff888 len=91 rc=0
   ksoftirqd/1    22 [001]   100.002100:                     irq:softirq_entry: vec=3 [action=NET_RX]
   ksoftirqd/1    22 [001]   100.002200:                        napi:napi_poll: napi poll on napi struct 0xffff9 for device veth1 work 2 budget 64
         swapper     0 [001]   100.003100: PERF_RECORD_LOST lost 5
""", "--pair", "veth0:veth1")
        self.assertEqual(rows, ["0,1,open,256", "0,2,open,256", "0,1,rx,90", "0,1,rx,91", "2,0,softirq,0"])
        self.assertEqual(work, ["polls 1 work 2"])
        self.assertIn("line 7 of the recording: the kernel lost 5 events", notes)

    def test_what_trace_cmd_says_of_lost_events(self) -> None:
        """As `trace-cmd report` writes it (trace-read.c)."""
        _, _, notes = self.convert("cpus=2\nCPU:1 [7 EVENTS DROPPED]\n" + ftrace((3, sent("va1")), (5, ENTRY), (7, polled("vb1", 1))))
        self.assertIn("line 2 of the recording: the kernel lost 7 events", notes)

    def test_threads_are_rows_of_their_own(self) -> None:
        text = "# tracer: nop\n" + ftrace((0, sent("va1")), task="python3-7", flags="b....")
        polls = (1000, polled("vb1", 64)), (2000, polled("vb1", 3)), (3000, polled("vb1", 1))
        rows, work, notes = self.convert(text + ftrace(*polls, **self.THREAD, flags="b...."))
        self.assertEqual(rows, ["0,1,open,256", "0,1,threaded,1", "0,2,open,256", "0,1,rx,60", "2,1,kthread,0", "3,1,kthread,0"])
        self.assertEqual(work, ["polls 2 work 67", "polls 1 work 1"])
        self.assertIn("row 5: the thread may have yielded between its 2 polls; it isn't recorded", notes)

    def test_what_is_in_no_row_is_noted(self) -> None:
        events = (polled("vb1", 2), sent("va1", code=16), sent("eth0"), sent("va1", 61), "softirq_entry: vec=1 [action=TIMER]", ENTRY,
                  polled("eth0", 5), polled("vb1", 1), EXIT, polled("vb1", 2))
        rows, work, notes = self.convert("CPU:0 [LOST 12 EVENTS]\n" + ftrace(*enumerate(events)))
        self.assertEqual(rows[2:], ["0,1,rx,61", "0,0,softirq,0"])
        self.assertEqual(work, ["polls 1 work 1"])
        self.assertEqual(notes, [
            "line 1 of the recording: the kernel lost 12 events", "device 1 is vb1", "device 2 is va1",
            "row 4: polls in it of devices that are in no pair: 1, of 5 packets",
            "no row: packets that weren't sent: va1, rc=16, 1",
            "no row: packets and polls of a device that is in no pair: eth0, 1",
            "no row: polls whose softirq began before the recording, or in none: vb1, 2"])

    def test_refusals(self) -> None:
        packet = ftrace((0, sent("va1", "{}")))
        for why, text, *words in (
                ("there is no event in it", "# nothing\n"), ("line 2: no line of ftrace", packet.format(60) + "what\n"),
                ("line 1: net_dev_xmit says", packet.format("x")), ("a packet of 65536 bytes", packet.format(65536)),
                ("no device of --pair is recorded; these are: va1", packet.format(60), "--pair=x:y"), ("100001 rows", packet.format(60) * 99999),
                ("a device is in two pairs", packet.format(60), "--pair=va1:b", "--pair=b:c"), ("not of the form A:B", packet.format(60), "--pair=va*:vb"),
                ("18 devices", packet.format(60), *(f"--pair=va{n}:vb{n}" for n in range(1, 10)))):
            self.refused(why, text, *words)

    def test_a_change_between_thread_and_softirq_is_refused(self) -> None:
        text = ftrace((900, sent("va1")), task="python3-7", flags="b....") + ftrace((1000, polled("vb1", 1)), **self.THREAD, flags="b....")
        self.refused("vb1: polled by a thread and in softirqs", text + ftrace((1500, ENTRY), (2000, polled("vb1", 3)), **self.THREAD))

    def test_where_nothing_polls_it_says_why(self) -> None:
        text = (HERE / "soft-tcp.txt").read_text()
        self.refused("nothing polls in it. A veth polls only where packets are handed to NAPI: `ethtool -K END tso off gro on`",
                     re.sub(".*napi_poll.*\n", "", text), *PAIRS)
        self.refused("nothing polls in it but devices that are in no pair: xa1", text.replace("for device v", "for device x"), *PAIRS)

    def test_nothing_is_overwritten(self) -> None:
        for end in ("csv", "work", "notes"):
            path = self.write(f"made.{end}", "mine\n")
            self.fails(f"made.{end} exists and isn't overwritten", "from-ftrace", HERE / "soft-tcp.txt", self.folder / "made", *PAIRS)
            self.assertEqual((self.names(), path.read_text()), ([f"made.{end}"], "mine\n"))
            path.unlink()

    @unittest.skipUnless(os.environ.get("RECORD"), "RECORD=yes")
    def test_the_recipe_records(self) -> None:
        done = process("unshare", "-m", TOP / "examples/veth.sh", folder=self.folder)
        self.assertEqual((done.stderr, done.returncode), ("", 0))
        self.succeeds("from-ftrace", "recording.txt", "made", "--pair", "va1:vb1", folder=self.folder)
        self.assertTrue(max(int(line.split()[3]) for line in (self.folder / "made.work").read_text().splitlines()) > 30)
        self.compared()

    def test_some_rows(self) -> None:
        whole = (HERE / "soft-gso-23.csv").read_text().splitlines()
        rows, work, notes = self.convert((HERE / "soft-gso-23.txt").read_text(), *PAIRS, "--rows", "70:150")
        # The packet of row 69 waits at row 70, so it is at the beginning.
        self.assertEqual(rows, whole[1:13] + whole[69:151])
        polls = [number for number, row in enumerate(whole) if ",softirq," in row]
        theirs = (HERE / "soft-gso-23.work").read_text().splitlines()
        self.assertEqual(work, [line for number, line in zip(polls, theirs) if 70 <= number <= 150])
        self.assertTrue(any(note.startswith("rows that aren't in 70:150: ") for note in notes))
        self.fails("nothing polls in these rows", "from-ftrace", HERE / "soft-gso-23.txt", self.folder / "none", *PAIRS, "--rows", "70:80")

    def test_some_rows_begin_with_the_packets_that_wait(self) -> None:
        """Six packets came before row 68 and weren't polled in row 67; with them the replay has the kernel's work from there on too."""
        rows, _, notes = self.convert((HERE / "soft-gso-23.txt").read_text(), *PAIRS, "--rows", "68:150")
        self.assertEqual(rows[12:19], ["128,10,rx,590"] * 6 + ["128,0,softirq,0"])
        self.assertTrue(any(note.endswith("; of their packets 6 waited when the first of these rows came, and stand in front")
                            for note in notes))
        for first in (20, 68, 69, 100, 139):
            self.succeeds("from-ftrace", HERE / "soft-gso-23.txt", self.folder / f"from{first}", *PAIRS, "--rows", f"{first}:100000")
            self.compared(name=f"from{first}")

    def compared(self, *words: object, name: object = "made", status: int = 0) -> str:
        """Returns what compare_recording.py prints of the files that were made, or its error."""
        done = process(sys.executable, "-B", TOP / "tests/compare_recording.py", self.folder / str(name), *words)
        self.assertEqual(done.returncode, status, done.stderr)
        return done.stdout + done.stderr

    def test_a_replay_is_compared_with_the_recording(self) -> None:
        """Six packets arrive during three runs; the replay gives each to that run, the kernel to the next."""
        run("from-ftrace", HERE / "soft-gso-23.txt", self.folder / "made", *PAIRS)
        told = self.compared()
        self.assertIn("row 67: work 48, the kernel 42: noted\nrow 68: work 0, the kernel 6: carries on the difference of row 67", told)
        rows = len((self.folder / "made.work").read_text().splitlines())
        self.assertTrue(told.endswith(f"; {rows - 6} rows agree, 0 differ, 6 others are accounted for by notes: as the kernel\n"), told)
        notes = (self.folder / "made.notes").read_text()
        self.assertIn("later rows carry the difference on", notes)
        self.write("made.notes", "".join(line for line in notes.splitlines(True) if not line.startswith("row 138:")))
        self.assertIn("row 138: work 69, the kernel 63: OTHER THAN THE KERNEL", self.compared(status=1))
        self.write("made.work", "polls 1\n")
        self.assertIn(".work: line 1 isn't of the form", self.compared(status=1))
        self.assertEqual(self.compared("--budget", "64", name=TOP / "examples/linux-veth-small-budget"),
                                      "544 rows, 15647 packets; the kernel 15647; 544 rows agree, 0 differ, "
                                      "0 others are accounted for by notes: as the kernel\n")

    def test_a_file_that_is_falsified(self) -> None:
        """Each row of .work that isn't noted, by one packet more; and a noted row by more than its note explains, which is six packets."""
        run("from-ftrace", HERE / "soft-gso-23.txt", self.folder / "made", *PAIRS)
        work = (self.folder / "made.work").read_text().splitlines()
        for place, line in enumerate(work):
            kernel = int(line.split()[3])
            for other in {each for each in (kernel + 1, kernel - 7, 0, 1000) if each >= 0} - {kernel}:
                self.write("made.work", "".join(f"{each}\n" for each in [*work[:place], f"polls 1 work {other}", *work[place + 1 :]]))
                self.assertIn(": other than the kernel", self.compared(status=1).splitlines()[-1])
        self.write("made.work", "".join(f"polls 1 work {int(line.split()[3]) + 1}\n" for line in work))
        self.assertIn("9 rows, 190 packets; the kernel 199; 0 rows agree", self.compared(status=1))

    def test_an_end_that_the_backlog_polls(self) -> None:
        """The receiver answers each packet, and NAPI doesn't poll the sender's end: the answers are in no row. Without that they would wait in the
        trace, and the run that takes the last packet would take them too."""
        events: list[tuple[int, str]] = []
        for burst, begin in enumerate(range(0, 20000, 1000)):
            events += [*((begin + place, sent("va1")) for place in range(3)), (begin + 100, ENTRY)]
            events += [(begin + 101, sent("va1"))] * (burst == 0) + [(begin + 110, polled("vb1", 4 if burst == 1 else 3))]
            events += [*((begin + 200 + place, sent("vb1")) for place in range(3)), (begin + 300, ENTRY), (begin + 310, polled("(no_device)", 3))]
        rows, work, notes = self.convert(ftrace(*events), "--pair", "va1:vb1")
        self.assertEqual((sum(",1,rx," in row for row in rows), sum(",2,rx," in row for row in rows), len(work)), (61, 0, 20))
        self.assertIn("no row: packets to an end that no NAPI poll in it has, so its processor's backlog: va1, 60", notes)
        self.assertEqual(self.compared().splitlines()[-1], "20 rows, 61 packets; the kernel 61; 18 rows agree, 0 differ, 2 others are "
                                                           "accounted for by notes: as the kernel")

    def test_a_packet_that_is_polled_before_its_event(self) -> None:
        """The event of a packet follows its sending: the kernel polled it, and the trace has it after the row."""
        text = ftrace((0, sent("va1"))) + ftrace((5, ENTRY), (6, polled("vb1", 2)), task="b-1", cpu=1)
        text += ftrace((7, sent("va1")), (8, sent("va1"))) + ftrace((15, ENTRY), (16, polled("vb1", 1)), task="b-1", cpu=1)
        rows, work, notes = self.convert(text, "--pair", "va1:vb1")
        self.assertEqual((len(rows), work), (7, ["polls 1 work 2", "polls 1 work 1"]))
        self.assertIn("row 4: packets that it polled and that were sent after it or before the recording, by their events: 1", notes)
        self.assertIn("row 4: work 1, the kernel 2: noted\nrow 7: work 2, the kernel 1: carries on the difference of row 4, which is noted\n",
                      self.compared())

    def test_a_replay_that_is_other_than_the_kernel(self) -> None:
        """One packet comes before each of 30 runs, and the kernel polled two, 30 times; ten of those lines are printed."""
        self.write("made.csv", HEADER + "0,1,open,256\n" + "".join(f"{place},1,rx,60\n{place},0,softirq,0\n" for place in range(30)))
        self.write("made.work", "polls 1 work 2\n" * 30)
        lines = self.compared(status=1).splitlines()
        self.assertEqual((len(lines), lines[0]), (11, "row 3: work 1, the kernel 2: OTHER THAN THE KERNEL"))
        self.assertEqual(lines[10], "30 rows, 30 packets; the kernel 60; 0 rows agree, 30 differ, 0 others are accounted for by notes: other than the kernel")
        self.write("made.csv", HEADER + "0,1,open,256\n" + "0,0,softirq,0\n" * 30)
        self.assertRegex(self.compared(status=1), r"^compare_recording.py: .*: it has no arrivals, so there is nothing to compare\n$")


class FromPcap(InFolder):
    PACKETS = ((0, 2, 1, 60), (500, 2, 1, 100), (3000, 3, 1, 1514))

    @staticmethod
    def capture(packets: Iterable[tuple[int, int, int, int]] = PACKETS) -> bytes:
        """Returns a capture in the format's description: a header of 24 bytes, and 16 bytes before each packet. A packet is given by its time in µs, the
        last bytes of its receiver's and sender's addresses, and its size; 255 is the broadcast address."""
        text = struct.pack("<IHHiIII", 0xA1B2C3D4, 2, 4, 0, 0, 65535, 1)
        for fraction, to, sender, size in packets:
            ends = (b"\xff" * 6 if to == 255 else bytes([2, 0, 0, 0, 0, to])) + bytes([2, 0, 0, 0, 0, sender])
            text += struct.pack("<IIII", 100, fraction, size, size) + (ends + b"\x88\xb5").ljust(size, b"\0")
        return text

    def made(self, packets: Any, *words: object) -> list[list[str]]:
        """Returns the rows and the notes of a capture."""
        (self.folder / "captured.pcap").write_bytes(packets if isinstance(packets, bytes) else self.capture(packets))
        return [text.splitlines() for text in self.converted("from-pcap", "captured.pcap", *words)]

    HAS_TCPDUMP = skip_without("tcpdump")
    # What one interface sees, whose address ends in 1: five packets from others, a broadcast of theirs, and its own packets.
    SEEN = [(100 * place, *((1, 10 + place) if place % 2 else (10 + place, 1)), 60 + place) for place in range(10)] + [
        (1100, 255, 11, 90), (1200, 255, 1, 91)]

    @HAS_TCPDUMP
    def test_an_interface_is_a_device(self) -> None:
        rows, notes = self.made(self.SEEN, "--unit", "us", "--delay", "10000")
        self.assertEqual(rows[1:], ["0,1,open,256", *(f"{moment},1,rx,{size}" for moment, size in ((100, 61), (300, 63), (500, 65), (700, 67), (900, 69),
                                                                                                  (1100, 90))), "10100,0,softirq,0"])
        self.assertEqual(notes[0], "device 1 is 02:00:00:00:00:01, 6 packets")
        self.assertIn("no row: packets that don't come in, 6", notes)
        self.assertIn("each packet with one receiver comes from 02:00:00:00:00:01 or goes to it, so what it sends to others goes out", notes)

    @HAS_TCPDUMP
    def test_the_loopback_device(self) -> None:
        """What it sends to itself arrives."""
        rows, _ = self.made([(100 * place, 1, 1, 60 + place) for place in range(3)])
        self.assertEqual([row.split(",")[2:] for row in rows[2:5]], [["rx", "60"], ["rx", "61"], ["rx", "62"]])

    @HAS_TCPDUMP
    def test_who_receives_may_be_named(self) -> None:
        """Device 2 gets the broadcast of the other, and not its own."""
        rows, notes = self.made(self.SEEN, "--to", "02:00:00:00:00:0A", "--to", "02:00:00:00:00:01")
        self.assertEqual([row.split(",")[1:] for row in rows[1:] if ",rx," in row],
                         [["1", "rx", "60"], *(["2", "rx", str(size)] for size in (61, 63, 65, 67, 69)), ["1", "rx", "90"], ["2", "rx", "90"], ["1", "rx", "91"]])
        self.assertEqual(notes[:2], ["device 1 is 02:00:00:00:00:0a, 3 packets", "device 2 is 02:00:00:00:00:01, 6 packets"])

    @HAS_TCPDUMP
    def test_a_capture_that_is_cut(self) -> None:
        """The part before the cut is read, with a note."""
        whole, _ = self.made(self.PACKETS)
        rows, notes = self.made(self.capture()[:-3])
        self.assertEqual(rows, whole[:4] + ["1,0,softirq,0"])
        self.assertTrue(any(note.startswith("the capture is cut, and read up to there: ") for note in notes), notes)

    @HAS_TCPDUMP
    def test_some_packets_and_some_rows(self) -> None:
        self.assertEqual(self.made(self.PACKETS, "-c", "2")[0], [HEADER.strip(), "0,1,open,256", "0,1,rx,60", "0,1,rx,100", "1,0,softirq,0"])
        rows, notes = self.made(self.PACKETS, "--rows", "3:5")
        self.assertEqual(rows, [HEADER.strip(), "0,1,open,256", "0,1,rx,60", "0,1,rx,100", "1,0,softirq,0", "3,1,rx,1514"])
        self.assertIn("rows 3 to 5 alone, with the packets that wait before them in front", notes)

    def test_more_interfaces_than_devices(self) -> None:
        """No interface is dropped: the user has to name them."""
        text = "".join(captured(f"100.{number:06}", name=f"eth{number}") for number in range(17))
        self.fails("17 interfaces, and a trace has at most 16 devices: name some by --to: eth0, eth1,", "from-pcap", "-", self.folder / "made", text=text)
        self.assertEqual(self.names(), [])
        self.succeeds("from-pcap", "-", self.folder / "made", "--to", "eth16", "--to", "eth3", text=text)
        self.assertEqual((self.folder / "made.notes").read_text().splitlines()[:3],
                         ["device 1 is eth16, 1 packets", "device 2 is eth3, 1 packets", "no row: packets that don't come in, 15"])

    ROWS = HEADER + "0,1,open,256\n0,1,rx,60\n0,1,rx,100\n1,0,softirq,0\n3,1,rx,1514\n4,0,softirq,0\n"

    @HAS_TCPDUMP
    def test_a_capture(self) -> None:
        (self.folder / "'; touch x;.pcap").write_bytes(self.capture())
        self.succeeds("from-pcap", "'; touch x;.pcap", "made", folder=self.folder)
        self.assertEqual((self.folder / "made.csv").read_text(), self.ROWS)
        self.assertEqual(self.names(), ["'; touch x;.pcap", "made.csv", "made.notes"])
        self.assertIn("isn't overwritten", run("from-pcap", "'; touch x;.pcap", "made", folder=self.folder).stderr)
        self.assertIn("the capture doesn't tell what goes out, so all of it arrives", (self.folder / "made.notes").read_text())
        (self.folder / "cut.pcap").write_bytes(self.capture()[:20])
        self.assertIn("cut.pcap: tcpdump: ", run("from-pcap", "cut.pcap", "cut", folder=self.folder).stderr)

    TEXT = captured("100.000000") + "\tmore of it\n" + captured("100.000200", 61, way="Out") + captured("100.000300", 62, "eth1")
    NO_LENGTH = "no row: packets without a length of 1 to 65535 bytes, "

    def test_every_length_that_a_row_has(self) -> None:
        """1 and 65,535 bytes are the minimum and the maximum; packets beyond are counted in the notes. The same for a capture."""
        text = "".join(captured(f"100.{place:06}", size) for place, size in enumerate((1, 65535, 0, 65536, 65534, 100000, 2)))
        for words, rows in ((["--unit", "us"], [f"{place},1,rx,{size}" for place, size in ((0, 1), (1, 65535), (4, 65534), (6, 2))]),
                            (["--arrivals"], [f"{1000 * place},1,{size}" for place, size in ((0, 1), (1, 65535), (4, 65534), (6, 2))])):
            made, notes = self.converted("from-pcap", "-", *words, text=text)
            self.assertEqual([row for row in made.splitlines()[1:] if "open" not in row and "softirq" not in row], rows)
            self.assertIn(f"{self.NO_LENGTH}3\n", notes)

    @HAS_TCPDUMP
    def test_the_longest_packets_of_a_capture(self) -> None:
        rows, notes = self.made([(100, 1, 11, 65535), (200, 1, 11, 65534), (300, 1, 12, 60)], "--unit", "us")
        self.assertEqual([row.split(",")[3] for row in rows if ",rx," in row], ["65535", "65534", "60"])
        self.assertFalse(any(note.startswith(self.NO_LENGTH) for note in notes), notes)

    def test_packets_of_one_time_keep_their_places(self) -> None:
        """Packets with the same timestamp keep the capture's order, whether it is sorted by time or not."""
        in_order = [(1, 900), (2, 64), (2, 62), (2, 1500), (2, 60), (2, 63), (3, 500)]
        out_of_order = [*in_order[1:4], in_order[6], in_order[0], *in_order[4:6]]
        for seen in (in_order, out_of_order):
            text = "".join(captured(f"100.{place:06}", size) for place, size in seen)
            for words, column in ((NO_WORDS, 3), (["--arrivals"], 2)):
                rows = [row.split(",") for row in self.converted("from-pcap", "-", *words, text=text)[0].splitlines()[1:]]
                sizes = [int(row[column]) for row in rows if "open" not in row and "softirq" not in row]
                self.assertEqual(sizes, [size for _, size in in_order])

    def test_text_by_interfaces_in_microseconds(self) -> None:
        rows, notes = self.converted("from-pcap", "-", "--unit", "us", "--delay", "250", text=self.TEXT)
        wanted = ["0,1,open,256", "0,2,open,256", "0,1,rx,60", "250,0,softirq,0", "300,2,rx,62", "550,0,softirq,0"]
        self.assertEqual(rows.splitlines()[1:], wanted)
        self.assertIn("no row: packets that don't come in, 1\n", notes)

    def test_refusals(self) -> None:
        self.fails("fintaqush from-pcap: none.pcap: there is no such file\n", "from-pcap", "none.pcap", "made", folder=self.folder)
        for text, why in (("", "no packet arrives"), ("what\n", "line 1: not in the format of `tcpdump -tt -n -e`"),
                          ("fintaqush-recording 1\n", "this is a file of fintaqush record, which from-ftrace, costs and advise read"),
                          (self.TEXT * 60000, "and a trace has at most 100000")):
            self.fails(why, "from-pcap", "-", self.folder / "made", text=text)
            self.assertEqual(self.names(), [])


class Traffic(InFolder):
    def rows(self, *words: object) -> list[list[str]]:
        printed = self.succeeds("traffic", *words)
        return [line.split(",") for line in printed.splitlines()[1:]]

    def test_kinds(self) -> None:
        """A constant rate of 1000 gives a packet each ms; bursts of 5 ms in 50 give a tenth of it; a Poisson process has about
        as many, within five times its deviation of 71, and not evenly."""
        arrivals = [int(row[0]) for row in self.rows("--rate", "1000") if row[2] == "rx"]
        self.assertEqual(arrivals, list(range(1000)))
        arrivals = [int(row[0]) for row in self.rows("--kind", "bursts", "--rate", "1000", "--seconds", "5") if row[2] == "rx"]
        self.assertTrue(490 <= len(arrivals) <= 510)
        gaps = [after - before for before, after in zip(arrivals, arrivals[1:])]
        self.assertTrue(90 <= sum(gap > 40 for gap in gaps) <= 101)
        arrivals = [int(row[0]) for row in self.rows("--kind", "poisson", "--rate", "1000", "--seconds", "5") if row[2] == "rx"]
        self.assertTrue(4645 <= len(arrivals) <= 5355)
        self.assertTrue(len({arrivals.count(moment) for moment in range(50)}) > 2)

    def test_a_run_follows_the_first_packet_that_waits(self) -> None:
        rows = self.rows("--rate", "100", "--delay", "3", "--seconds", "0.05", "--unit", "ms")
        self.assertEqual([int(after[0]) - int(before[0]) for before, after in zip(rows, rows[1:]) if after[2] == "softirq"], [3] * 5)

    def test_the_seed_decides(self) -> None:
        """The same seed has the same rows, and another one other times, for each kind of traffic, in a trace and in arrivals; each device
        has times of its own. Arrivals begin at 0, so by some seeds a device has the same times."""
        words = ["--kind", "poisson", "--devices", "3", "--mix", "tx=20,done=20,disable=5"]
        self.assertEqual(self.rows(*words, "--seed", "1"), self.rows(*words, "--seed", "1"))
        forms = ((["--unit", "us", "--bytes", "60"], (2, 3)), (["--arrivals"], (2,)))
        for kind, (form, others) in itertools.product(("constant", "poisson", "bursts"), forms):
            words = ["--kind", kind, "--devices", "2", "--rate", "2000", "--seconds", "0.5", *form, "--seed"]
            of_seeds = [self.rows(*words, seed) for seed in (1, *others, 1)]
            self.assertEqual(of_seeds[0], of_seeds.pop())
            times = [{(row[1], int(row[0])) for row in rows if "--arrivals" in form or row[2] == "rx"} for rows in of_seeds]
            for first, second in itertools.combinations(times, 2):
                self.assertLess(len(first & second), len(first) / 10, words)
            one, other = ({moment for device, moment in times[0] if device == number} for number in ("1", "2"))
            self.assertLess(len(one & other), len(one) / 10, words)

    def test_packets_of_one_moment_stand_as_they_come(self) -> None:
        """A millisecond has many packets of five devices: their order is that of the same trace in microseconds."""
        for kind in ("constant", "poisson"):
            words = ["--kind", kind, "--devices", "5", "--rate", "3000", "--seconds", "0.2", "--seed", "7"]
            coarse, fine = ([row for row in self.rows(*words, "--unit", unit) if row[2] == "rx"] for unit in ("ms", "us"))
            self.assertEqual(coarse, [[str(int(row[0]) // 1000), *row[1:]] for row in fine])
            self.assertGreater(len({row[0] for row in fine}), 5 * len({row[0] for row in coarse}))

    def test_any_mix_is_a_trace_that_is_taken(self) -> None:
        for version, busy in (("1", ""), ("2", ",busy=20")):
            for seed in range(4):
                text = run("traffic", "--rate", "2000", "--devices", "5", "--seed", seed, "--version", version, "--seconds", "0.3",
                           "--mix", f"tx=50,done=40,disable=10,threaded=10,kthread=30{busy}").stdout
                self.assertEqual({line.split(",")[2] for line in text.splitlines()[1:]}, set(events_of(int(version))))
                for words in (NO_WORDS, ["--budget", "1", "--weight", "1"]):
                    done = process(REPLAY, *words, text=text)
                    self.assertEqual((done.stderr, done.returncode), ("", 0))

    def test_words_that_it_refuses(self) -> None:
        for words in (["--mix", "busy=1"], ["--mix", "rx=1"], ["--bytes", "9:1"], ["--devices", "17"], ["--rate", "0"]):
            self.ends_with(64, "traffic", *words)
        self.fails("more than 100000 packets", "traffic", "--rate", "9999999", "--seconds", "99999")


class CompareRuns(InFolder):
    BURST = HEADER + "0,1,open,8\n0,2,open,8\n" + "0,1,rx,60\n" * 3 + "1,0,softirq,0\n2,2,rx,60\n3,0,softirq,0\n"

    def test_what_two_settings_change(self) -> None:
        """With a budget of 1 each run takes one packet; with the default all three come at once; device 2 has one packet either way."""
        trace = self.write("burst.csv", self.BURST)
        printed = self.succeeds("compare", trace, "--budget", "1", "--weight", "1", "--", "--weight", "1")
        lines = [re.split(r" {2,}", line) for line in printed.splitlines()]
        self.assertEqual(lines[0], ["", "budget 1 weight 1", "weight 1", "change"])
        self.assertIn(["total", "squeezed", "2", "0", "-2"], lines)

    def test_with_runs_raised(self) -> None:
        trace = TOP / "examples/linux-veth-bursts.csv"
        words = ["--budget", "16", "--weight", "8", "--", "--budget", "300"]
        self.assertRegex(run("compare", trace, *words).stdout, r"total +work +8441 +15245 +\+6804\n")
        self.assertNotRegex(run("compare", trace, "--raise", *words).stdout, "dropped|total +work")

    def test_a_trace_of_version_2(self) -> None:
        """examples/busy-poll.csv has nine packets, and with the added runs neither budget loses any."""
        told = self.succeeds("compare", TOP / "examples/busy-poll.csv", "--raise", "--budget", "1", "--weight", "1", "--", "--weight", "64")
        self.assertIn("the same: list", told)
        self.assertNotIn("polled", told)

    def test_refusals(self) -> None:
        trace = self.write("burst.csv", self.BURST)
        self.ends_with(64, "compare", trace, "--budget", "1")
        self.ends_with(64, "compare", trace, "--", "--budget", "0")
        self.fails("trace fault 1 BadHeader row 0", "compare", "-", "--", text="x\n")


class Report2Json(InFolder):
    def objects_of(self, report: str) -> list[dict[str, Any]]:
        """Returns the objects of a report, without what all of them begin with: the version, and the tool."""
        objects: list[dict[str, Any]] = list(map(json.loads, reports.lines_of(report).splitlines()))
        for each in objects:
            self.assertEqual([(name, each.pop(name)) for name in list(each)[:2]], [("version", 1), ("tool", "replay")])
        return objects

    def test_every_line_of_a_report(self) -> None:
        objects = self.objects_of("""softirq 4 polls 2 work 3 squeezed 1
kthread 5 device 16 polls 6 work 7
device 1 pending arrived 1 dropped 2 polled 3 bytes 4 left 5 polls 6
napi 1 granted 1 missed 2 disabled 3 again 4 released 5 word 8589935361
tx 1 sent 1 held 2 done 3 denied 4 limit 5 avail -6 stopped 0
device 2 on arrived 1 dropped 2 polled 3 bytes 4 left 5 polls 6
napi 2 granted 0 missed 0 disabled 0 again 0 released 0 word 15
device 3 off arrived 1 dropped 2 polled 3 bytes 4 left 5 polls 6
napi 3 granted 0 missed 0 disabled 0 again 0 released 0 word 4294967297
list 3 1
total devices 3 runs 1 polls 2 work 3 squeezed 1
""")
        napi = {"line": "napi", "granted": 0, "missed": 0, "disabled": 0, "again": 0, "released": 0}
        self.assertEqual(objects, [
            {"line": "softirq", "row": 4, "polls": 2, "work": 3, "squeezed": True},
            {"line": "kthread", "row": 5, "device": 16, "polls": 6, "work": 7},
            {"line": "device", "device": 1, "state": "pending", "arrived": 1, "dropped": 2, "polled": 3, "bytes": 4, "left": 5,
             "polls": 6},
            {"line": "napi", "device": 1, "granted": 1, "missed": 2, "disabled": 3, "again": 4, "released": 5,
             "word": 8589935361, "flags": ["SCHED", "THREADED", "SCHED_THREADED", "TO_THREAD"]},
            {"line": "tx", "device": 1, "sent": 1, "held": 2, "done": 3, "denied": 4, "limit": 5, "avail": -6, "stopped": False},
            {"line": "device", "device": 2, "state": "on", "arrived": 1, "dropped": 2, "polled": 3, "bytes": 4, "left": 5, "polls": 6},
            {**napi, "device": 2, "word": 15, "flags": ["SCHED", "MISSED", "DISABLE", "NPSVC"]},
            {"line": "device", "device": 3, "state": "off", "arrived": 1, "dropped": 2, "polled": 3, "bytes": 4, "left": 5, "polls": 6},
            {**napi, "device": 3, "word": 4294967297, "flags": ["SCHED", "QUEUED"]},
            {"line": "list", "devices": [3, 1]},
            {"line": "total", "devices": 3, "runs": 1, "polls": 2, "work": 3, "squeezed": 1},
        ])

    def test_version_2(self) -> None:
        objects = self.objects_of("""busy 7 device 1 polls 4 work 2
device 1 on arrived 2 dropped 0 polled 2 bytes 120 left 0 polls 4
napi 1 granted 0 missed 0 disabled 0 again 0 released 1 word 65 held 3
list
total devices 1 runs 0 polls 0 work 0 squeezed 0
""")
        self.assertEqual(objects[0], {"line": "busy", "row": 7, "device": 1, "polls": 4, "work": 2})
        self.assertEqual((objects[2]["held"], objects[2]["flags"]), (3, ["SCHED", "IN_BUSY_POLL"]))

    def test_threads_mode(self) -> None:
        objects = self.objects_of("""device 1 arrived 3 bytes 1620
device 2 arrived 2 bytes 160
tx 2 sent 1 held 0 done 1 denied 0 limit 100 avail 100 stopped 1
total devices 2
""")
        self.assertEqual(objects, [
            {"line": "device", "device": 1, "arrived": 3, "bytes": 1620}, {"line": "device", "device": 2, "arrived": 2, "bytes": 160},
            {"line": "tx", "device": 2, "sent": 1, "held": 0, "done": 1, "denied": 0, "limit": 100, "avail": 100, "stopped": True},
            {"line": "total", "devices": 2}])

    def test_reports_that_are_cut_are_refused(self) -> None:
        trace = (TOP / "examples/bursts.csv").read_text()
        whole = process(REPLAY, text=trace).stdout
        lines = whole.splitlines(keepends=True)
        cuts = [whole[:length] for length in range(len(whole))] + ["".join(lines[:place] + lines[place + 1 :]) for place in range(len(lines))]
        for cut in cuts:
            with self.assertRaises(Refusal, msg=cut[-60:]):
                reports.objects_of(cut)
        for cut, why in (("", "the report is empty"), (whole[:-1], "the report is cut"), (whole + whole, "there are two reports in it")):
            with self.assertRaisesRegex(Refusal, why):
                reports.objects_of(cut)

    def test_every_example_passes(self) -> None:
        for trace in sorted((TOP / "examples").glob("*.csv")):
            report = process(REPLAY, text=trace.read_text()).stdout
            self.assertEqual(len(reports.lines_of(report).splitlines()), len(report.splitlines()))
            self.assertTrue(report)

    def test_what_is_no_report_is_refused(self) -> None:
        for line in ("", "napi", "softirq 4 polls 2 work 3", "softirq 4 polls 2 work 3 squeezed 2", "list x",
                     "total devices 3 polls 2 runs 1 work 3 squeezed 1",
                     "napi 2 granted 0 missed 0 disabled 0 again 0 released 0 word 16"):
            with self.assertRaisesRegex(Refusal, "line 2: "):
                reports.objects_of(f"list\n{line}\n")
