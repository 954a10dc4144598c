"""Tests of the arrivals that from-pcap, from-ftrace and traffic write. Expected rows are written by hand."""

from __future__ import annotations

import gzip
import re
import struct
from typing import Union

import test_tools
from tooltest import ENTRY, EXIT, HAS_MACHINE, HERE, MACHINE, START, TOP, InFolder, captured, ftrace, polled, process, run, sent

HEADER = "ns,device,bytes\n"


class Arrivals(InFolder):
    def taken(self, text: str, *words: str) -> str:
        """Returns the report of arrivals, which the machine must accept."""
        done = process(MACHINE, *words, text=text)
        self.assertEqual((done.stderr, done.returncode), ("", 0))
        return done.stdout

    def made(self, tool: str, recorded: str | bytes, *words: object) -> tuple[list[str], list[str], str]:
        """Returns the rows, the notes and what is printed for a recording, which is a text or the bytes of a capture."""
        path = self.folder / "recorded"
        path.write_bytes(recorded if isinstance(recorded, bytes) else recorded.encode())
        self.forget("made")
        printed = self.succeeds(tool, "recorded", "made", "--arrivals", *words, folder=self.folder)
        rows = (self.folder / "made.csv").read_text()
        self.taken(rows)
        self.assertEqual(self.names(), ["made.csv", "made.notes", "recorded"])
        self.assertTrue(rows.startswith(HEADER))
        return rows.splitlines()[1:], (self.folder / "made.notes").read_text().splitlines(), printed


@HAS_MACHINE
class FromPcap(Arrivals):
    # In nanoseconds, out of order; also an outgoing packet, a broadcast, a multicast, and one for another machine.
    TEXT = (captured("100.000000001") + captured("100.000002001", 62, "eth1") + captured("100.000001501", 61, way="Out")
            + captured("100.000001001", 63, way="B") + captured("100.000003001", 64, way="M") + captured("100.000004001", 65, way="P")
            + captured("101.000000001", 66, "eth1"))
    ROWS = ["0,1,60", "1000,1,63", "2000,2,62", "1000000000,2,66"]

    def test_interfaces(self) -> None:
        rows, notes, said = self.made("from-pcap", self.TEXT)
        self.assertEqual(rows, self.ROWS)
        self.assertEqual(notes, ["device 1 is eth0, 2 packets", "device 2 is eth1, 2 packets", "no row: multicasts, 1",
                                 "no row: packets that don't come in, 2"])
        self.assertEqual(said, "made.csv: 2 devices, 4 rows; 4 notes in made.notes, which begins:\n  device 1 is eth0, 2 packets\n"
                               "  device 2 is eth1, 2 packets\n  no row: multicasts, 1\n")

    def test_one_device(self) -> None:
        rows, notes, _ = self.made("from-pcap", self.TEXT, "--one-device")
        self.assertEqual(rows, [row.replace(",2,", ",1,") for row in self.ROWS])
        self.assertEqual(notes[:2], ["device 1 is one device, 4 packets", "one device is all of: eth0, eth1"])

    def test_some_rows_and_who_receives(self) -> None:
        rows, notes, said = self.made("from-pcap", self.TEXT, "--rows", "2:3")
        self.assertEqual((rows, said.splitlines()[0]), (["0,1,63", "1000,2,62"], "made.csv: 2 devices, 2 rows; 5 notes in made.notes, which begins:"))
        self.assertIn("rows 2 to 3 alone", notes)
        rows, notes, _ = self.made("from-pcap", self.TEXT, "--to", "eth1")
        self.assertEqual((rows, notes[:2]), (["0,1,62", "999998000,1,66"], ["device 1 is eth1, 2 packets", "no row: multicasts, 1"]))

    @test_tools.FromPcap.HAS_TCPDUMP
    def test_a_capture_in_nanoseconds(self) -> None:
        """The format's other magic number means times in ns. With --to a link address is a device, and multicasts are left out."""
        seen = [(100, 1, 10, 60), (101, 11, 1, 61), (150, 255, 11, 90), (999, 1, 11, 62)]
        text = bytearray(test_tools.FromPcap.capture(seen))
        text[:4] = struct.pack("<I", 0xA1B23C4D)
        group = struct.pack("<IIII", 100, 1000, 60, 60) + (b"\x01\x00\x5e\0\0\1" + bytes([2, 0, 0, 0, 0, 10]) + b"\x88\xb5").ljust(60, b"\0")
        rows, notes, _ = self.made("from-pcap", bytes(text + group), "--to", "02:00:00:00:00:01")
        self.assertEqual(rows, ["0,1,60", "50,1,90", "899,1,62"])
        self.assertEqual(notes, ["device 1 is 02:00:00:00:00:01, 3 packets", "no row: multicasts, 1", "no row: packets that don't come in, 1"])
        words = [*START, "from-pcap", "-", "piped", "--arrivals", "--to", "02:00:00:00:00:01"]
        piped = process("sh", "-c", 'cat recorded | "$0" "$@"', *words, folder=self.folder)
        self.assertEqual((piped.stderr, (self.folder / "piped.csv").read_text()), ("", (self.folder / "made.csv").read_text()))

    def test_flows(self) -> None:
        """Packets with the same addresses and ports have the same number, others another one; packets with neither, as ARP, have 0."""
        ends = ("10.0.0.1.5000 > 10.0.0.2.9: UDP, length 18", "10.0.0.1.5001 > 10.0.0.2.9: UDP, length 18", "10.0.0.1.5000 > 10.0.0.2.9: UDP, length 19",
                "Request who-has 10.0.0.2 tell 10.0.0.1, length 46", "vlan 5, p 0, ethertype IPv4 (0x0800), 10.0.0.1.5001 > 10.0.0.2.9: UDP, length 18",
                "fe80::1.7 > fe80::2.9: UDP, length 3")
        self.write("recorded", "".join(captured(f"100.00000{place}", said=each) for place, each in enumerate(ends)))
        self.succeeds("from-pcap", "recorded", "made", "--arrivals", "--flows", folder=self.folder)
        first, *rows = (self.folder / "made.csv").read_text().splitlines()
        flows = [row.split(",")[3] for row in rows]
        self.assertEqual((first, flows[0], flows[1], flows[3]), ("ns,device,bytes,flow", flows[2], flows[4], "0"))
        self.assertEqual(len({flows[0], flows[1], flows[3], flows[5]}), 4)
        # From the definition of CRC-32 (IEEE 802.3), by its polynomial.
        crc = 0xFFFFFFFF
        for byte in b"10.0.0.1.5000 > 10.0.0.2.9":
            crc ^= byte
            for _ in range(8):
                crc = crc >> 1 ^ (0xEDB88320 if crc & 1 else 0)
        self.assertEqual(flows[0], str(crc ^ 0xFFFFFFFF))
        self.taken((self.folder / "made.csv").read_text(), "--queues", "2")
        self.assertEqual(run("from-pcap", "recorded", "none", "--flows", folder=self.folder).returncode, 64)

    def test_more_packets_than_a_trace_has(self) -> None:
        rows, _, said = self.made("from-pcap", "".join(captured(f"100.{place:06}") for place in range(120000)))
        self.assertEqual((len(rows), rows[-1], said), (120000, "119999000,1,60", "made.csv: 1 devices, 120000 rows; 1 note in made.notes:\n  device 1 is eth0, 120000 packets\n"))

    def test_refusals(self) -> None:
        self.fails("no packet arrives in it", "from-pcap", "-", self.folder / "made", "--arrivals", text=captured("100.000000", way="Out"))
        many = "".join(captured(f"100.{place:06}", name=f"eth{place}") for place in range(4097))
        self.fails("4097 devices, and arrivals have at most 4096", "from-pcap", "-", self.folder / "made", "--arrivals", text=many)
        self.assertEqual(self.names(), [])


@HAS_MACHINE
class FromFtrace(Arrivals):
    def test_what_was_sent_arrives_at_the_other_end(self) -> None:
        """With timestamps of nine digits, as `trace-cmd report -t` writes them."""
        rows, notes, said = self.made("from-ftrace", """cpus=2
   a-1  [000] b....  5.000000007: net_dev_xmit: dev=va1 skbaddr=0 len=61 rc=0
   a-1  [001] b....  5.000001008: net_dev_xmit: dev=vb1 skbaddr=0 len=62 rc=0
   a-1  [000] b....  5.000001008: net_dev_xmit: dev=va1 skbaddr=0 len=63 rc=16
   a-1  [000] b....  5.000001009: net_dev_xmit: dev=vb1 skbaddr=0 len=66 rc=1
   a-1  [000] ..s1.  5.000001009: napi_poll: napi poll on napi struct 0 for device vb1 work 1 budget 64
   a-1  [000] b....  5.000002007: net_dev_xmit: dev=eth0 skbaddr=0 len=64 rc=0
   a-1  [000] b....  6.000000007: net_dev_xmit: dev=va1 skbaddr=0 len=65 rc=0
""")
        self.assertEqual(rows, ["0,1,61", "1001,2,62", "1002,2,66", "1000000000,1,65"])
        self.assertEqual(notes, ["device 1 is vb1, 2 packets", "device 2 is va1, 2 packets", "a row: packets that a full ring or backlog dropped: vb1, 1",
                                 "no row: packets that weren't sent: va1, rc=16, 1", "no row: packets of a device that is in no pair: eth0, 1"])
        self.assertEqual(said.splitlines()[0], "made.csv: 2 devices, 4 rows; 5 notes in made.notes, which begins:")

    def test_packets_that_the_polling_processor_sends(self) -> None:
        """Two packets are sent on processor 1 and polled there by the next softirq, one while that runs; one more by a thread; two on processor 0."""
        said = [(1, 1, sent("va1")), (2, 1, sent("va1")), (3, 0, sent("va1")), (9, 1, ENTRY), (10, 1, sent("va1")), (12, 1, polled("vb1", 4)),
                (13, 1, EXIT), (20, 0, sent("va1")), (21, 1, sent("va1"))]
        text = "".join(ftrace((time, what), cpu=cpu, flags="b....") for time, cpu, what in said)
        self.write("recorded", text + ftrace((25, polled("vb1", 2)), task="napi/vb1-9-7", cpu=1, flags="b...."))
        self.succeeds("from-ftrace", "recorded", "made", "--arrivals", folder=self.folder)
        times = [int(row.split(",")[0]) // 1000 + 3 for row in (self.folder / "made.csv").read_text().splitlines()[1:]]
        self.assertEqual(times, [3, 9, 9, 10, 20, 21])

    def test_a_recording_made_in_trouble(self) -> None:
        """Of 121 packets a backlog of 6 dropped three, which also arrived. The file names the pair; the rows follow its lines."""
        text = (TOP / "examples/veth-backlog.rec").read_text()
        found = re.findall(r" (\d+)\.(\d{9}): net_dev_xmit: dev=va7 skbaddr=\S+ len=(\d+) rc=[01]$", text, re.M)
        times = [int(whole) * 10**9 + int(part) for whole, part, _ in found]
        rows, notes, said = self.made("from-ftrace", text)
        self.assertEqual(rows, [f"{time - times[0]},1,{size}" for time, (_, _, size) in zip(times, found)])
        self.assertEqual(notes, ["device 1 is vb7, 121 packets", "device 2 is va7, 0 packets", "a row: packets that a full ring or backlog dropped: va7, 3"])
        self.assertEqual(said, "made.csv: 2 devices, 121 rows; 3 notes in made.notes:\n" + "".join(f"  {note}\n" for note in notes))
        softnet = dict(re.findall(r"^(softnet\.\d\.dropped) (\d+ \d+)$", text, re.M))
        self.assertEqual(sum(int(after) - int(before) for before, after in map(str.split, softnet.values())), 3)
        rows, _, _ = self.made("from-ftrace", gzip.compress(text.encode()))
        self.assertEqual(len(rows), 121)

    # A card's polls on Linux 6.18, in the kernel's formats of these events: an interrupt at 1 us, and a run with two polls, of two packets and of one; then,
    # without an interrupt, a run with one packet, 10 us later. A packet is received without the 14 bytes of its link header.
    POLLS: tuple[tuple[str, int, Union[str, tuple[int, int]]], ...] = (("d.h1.", 1000, "irq_handler_entry: irq=38 name=virtio2-input.0"), ("d.h1.", 3000, "irq_handler_exit: irq=38 ret=handled"),
             ("..s1.", 4000, "softirq_entry: vec=3 [action=NET_RX]"), ("..s1.", 5000, (46, 10)), ("..s1.", 6000, (46, 7)),
             ("..s1.", 9000, "napi_poll: napi poll on napi struct 0 for device eth0 work 2 budget 2"), ("..s1.", 10_000, (86, 10)),
             ("..s1.", 11_000, "napi_poll: napi poll on napi struct 0 for device eth0 work 1 budget 2"), ("..s1.", 12_000, "softirq_exit: vec=3 [action=NET_RX]"),
             ("..s1.", 100_000, "softirq_entry: vec=3 [action=NET_RX]"), ("..s1.", 101_000, (86, 0)),
             ("..s1.", 102_000, "napi_poll: napi poll on napi struct 0 for device eth0 work 1 budget 2"), ("..s1.", 103_000, "softirq_exit: vec=3 [action=NET_RX]"))

    @staticmethod
    def received(size: int, flow: int) -> tuple[str, str]:
        """Returns the two events of a packet that a poll takes."""
        return (f"napi_gro_receive_entry: dev=eth0 napi_id=0x103 queue_mapping=1 skbaddr=0 vlan_tagged=0 vlan_proto=0x0000 vlan_tci=0x0000 protocol=0x0800 "
                f"ip_summed=0 hash=0x{flow:08x} l4_hash=0 len={size} data_len=0 truesize=832 mac_header_valid=1 mac_header=-14 nr_frags=0 gso_size=0 gso_type=0x0",
                f"netif_receive_skb: dev=eth0 skbaddr=0 len={size}")

    def of_a_card(self, *without: str) -> str:
        """Returns the recording of a card, without some events."""
        lines = []
        for flags, time, said in self.POLLS:
            for place, each in enumerate(self.received(*said) if isinstance(said, tuple) else [said]):
                if each.split(":")[0] not in without:
                    lines.append(f"          <idle>-0       [001] {flags}     5.{time + place:09}: {each}\n")
        return "".join(lines)

    def test_packets_that_a_card_received(self) -> None:
        """Packets arrive when the poll that took them began, or at the interrupt before it."""
        wanted = ["0,1,60", "0,1,60", "8000,1,100", "99000,1,100"]
        rows, notes, said = self.made("from-ftrace", self.of_a_card())
        self.assertEqual((rows, said.splitlines()[0]), (wanted, "made.csv: 1 devices, 4 rows; 2 notes in made.notes:"))
        self.assertEqual(notes[0], "device 1 is eth0, 4 packets")
        self.assertIn("is when the poll that took it began, or the interrupt that asked for this poll (napi_gro_receive_entry)", notes[1])
        rows, notes, _ = self.made("from-ftrace", self.of_a_card("napi_gro_receive_entry"))
        self.assertEqual(rows, wanted)
        self.assertIn("(netif_receive_skb): GRO may have merged", notes[1])
        self.assertEqual(self.made("from-ftrace", self.of_a_card(), "--device", "eth0")[0], wanted)
        # Without the softirqs and the interrupts only a packet's own time is known.
        alone = self.of_a_card("softirq_entry", "softirq_exit", "irq_handler_entry", "irq_handler_exit", "napi_poll", "netif_receive_skb")
        self.assertEqual(self.made("from-ftrace", alone)[0], ["0,1,60", "1000,1,60", "5000,1,100", "96000,1,100"])

    def test_another_pair_on_the_machine(self) -> None:
        """A file of fintaqush record names its devices, so packets of a pair that is called as in the examples aren't its arrivals."""
        others = "".join(f"            prog-7       [002] .....     5.{time:09}: {sent('va1', 99)}\n" for time in (1, 7))
        body = self.of_a_card() + others
        lines = body.count("\n")
        self.assertEqual({row.split(",")[2] for row in self.made("from-ftrace", body)[0]}, {"99"})
        head = f"fintaqush-recording 1\ndevice eth0\nlost 0\nlines {lines}\ntrace\n"
        self.assertEqual({row.split(",")[2] for row in self.made("from-ftrace", head + body)[0]}, {"60", "100"})

    def test_flows_of_a_card(self) -> None:
        """A flow is the hash, by which the machine selects one of two queues: of 10, 7, 10 and 0 the second one has one packet."""
        self.write("recorded", self.of_a_card())
        self.succeeds("from-ftrace", "recorded", "made", "--arrivals", "--flows", folder=self.folder)
        text = (self.folder / "made.csv").read_text()
        self.assertEqual(text, "ns,device,bytes,flow\n0,1,60,10\n0,1,60,7\n8000,1,100,10\n99000,1,100,0\n")
        self.assertIn("packets without a hash, which are of flow 0: 1\n", (self.folder / "made.notes").read_text())
        report = self.taken(text, "--queues", "2")
        self.assertEqual(re.findall(r"^device (\d) arrived (\d)", report, re.M), [("1", "3"), ("2", "1")])
        without = run("from-ftrace", "-", self.folder / "none", "--arrivals", "--flows", text=self.of_a_card("napi_gro_receive_entry"))
        self.assertEqual((without.returncode, without.stderr), (1, "fintaqush from-ftrace: -: --flows: only the event napi_gro_receive_entry has the hash of a packet's "
                                                                "flow; of a capture fintaqush from-pcap computes it\n"))
        self.assertEqual(run("from-ftrace", "-", self.folder / "none", "--flows", text="").returncode, 64)

    def test_a_trace_of_a_card(self) -> None:
        """Each poll takes its packets: three in the first run, one in the second."""
        self.write("recorded", self.of_a_card())
        self.succeeds("from-ftrace", "recorded", "made", "--unit", "us", folder=self.folder)
        self.assertEqual((self.folder / "made.csv").read_text().splitlines()[1:], ["0,1,open,256", "4,1,rx,60", "5,1,rx,60", "9,1,rx,100", "10,0,softirq,0",
                                                                                   "100,1,rx,100", "101,0,softirq,0"])
        self.assertEqual((self.folder / "made.work").read_text(), "polls 2 work 3\npolls 1 work 1\n")
        for without, why in ((("napi_gro_receive_entry", "netif_receive_skb"), "there is no packet in it: record the event net/net_dev_xmit"),
                             (("softirq_entry", "napi_poll"), "nothing polls in it")):
            said = self.fails(why, "from-ftrace", "-", self.folder / "none", text=self.of_a_card(*without))
            self.assertEqual((said.count("\n"), self.names()), (1, ["made.csv", "made.notes", "made.work", "recorded"]))
        self.fails("fintaqush from-ftrace: -: no packet of eth7 is received in it; those that receive are: eth0\n", "from-ftrace", "-", self.folder / "none",
                   "--device", "eth7", text=self.of_a_card())

    def test_recordings_that_it_refuses(self) -> None:
        """Each fails with one line, and no file is written."""
        text = (TOP / "examples/veth-backlog.rec").read_text()
        event = ftrace((1, sent("va1", 61)), flags="b....")
        without = re.sub(r".*net_dev_xmit: .*\n", "", text)
        lines = sum(not line.startswith("#") for line in without.split("\ntrace\n")[1].splitlines())
        without = without.replace("\nlines 623\n", f"\nlines {lines}\n")
        refused: list[tuple[str | bytes, str]] = [
                (b"", "it is empty"), (event + "CPU:1 [LOST 7 EVENTS]\n" + event, "line 2 of the recording: the kernel lost 7 events, so results would be wrong"),
                (event + "CPU:1 [7 EVENTS DROPPED]\n", "the kernel lost 7 events"), (text.replace("\nlost 0\n", "\nlost 12\n"), "the kernel lost 12 events"),
                ("# nothing\n", "there is no packet in it"), (event.replace("va1", "x"), "no device of --pair is recorded; these are: x"),
                (event[:-20], "line 1: "), (event + event[:30], "it is cut: line 2 isn't whole"), (text[:-9], "isn't whole"), (text[:900], "its head has no end"),
                (text[: text.rindex("\n", 0, -2) + 1], "it is cut: 622 of 623 events are there"), (without, "there is no packet in it: record the event net/net_dev_xmit"),
                (without.replace("\nlost 0", "\nmissing net/net_dev_xmit\nlost 0"), "the kernel that recorded it has no event net/net_dev_xmit"),
                (b"PERFILE2 and more", "this is the file of `perf record`: take the text of `perf script --ns`"),
                (b"\x17\x08\x44tracing6", "this is the file of `trace-cmd record`"), (b"\xd4\xc3\xb2\xa1\x02\0\x04\0", "this is a capture, which fintaqush from-pcap reads"),
                (b"\x0a\x0d\x0d\x0a\x1c\0\0\0", "this is a capture"), (b"ns,device,bytes\n0,1,60\n", "line 1: no line of ftrace"),
                (gzip.compress(text.encode())[:-700], "it isn't whole"), (b"\x1f\x8bxx", "it isn't whole"), (text.replace("recording 1", "recording 7"), "another version")]
        for changed, why in refused:
            self.write("recorded", "")
            (self.folder / "recorded").write_bytes(changed if isinstance(changed, bytes) else changed.encode())
            said = self.fails(why, "from-ftrace", "recorded", "made", "--arrivals", folder=self.folder)
            self.assertEqual((said.count("\n"), said[:33], self.names()), (1, "fintaqush from-ftrace: recorded: ", ["recorded"]), said)

    def test_a_recording(self) -> None:
        """The packets of the trace that another converter made, in their order and with their sizes; the times round to its own."""
        rows, _, _ = self.made("from-ftrace", (HERE / "soft-tcp.txt").read_text(), *test_tools.PAIRS)
        theirs = [line.split(",") for line in (HERE / "soft-tcp.csv").read_text().splitlines() if ",rx," in line]
        self.assertEqual([row.split(",")[1:] for row in rows], [[device, size] for _, device, _, size in theirs])
        self.assertEqual([int(row.split(",")[0]) // 10**6 for row in rows], [int(moment) - int(theirs[0][0]) for moment, *_ in theirs])

    def test_a_trace_in_microseconds(self) -> None:
        for unit, tick in (("ms", 1), ("us", 1000)):
            self.succeeds("from-ftrace", HERE / "soft-gso-23.txt", self.folder / unit, *test_tools.PAIRS, "--unit", unit)
        fine, coarse = ([row.split(",") for row in (self.folder / f"{unit}.csv").read_text().splitlines()[1:]] for unit in ("us", "ms"))
        self.assertEqual([[str(int(row[0]) // 1000), *row[1:]] for row in fine], coarse)
        self.assertTrue(any(int(row[0]) % 1000 for row in fine))


@HAS_MACHINE
class Traffic(Arrivals):
    def rows(self, *words: object) -> list[tuple[int, ...]]:
        printed = self.succeeds("traffic", "--arrivals", *words)
        self.taken(printed, "--processors", "64")
        return [tuple(map(int, row.split(","))) for row in printed.splitlines()[1:]]

    def test_kinds(self) -> None:
        """A constant rate of 1000 has a packet each ms; a Poisson process of 100000 in 2 s about 200000, within five times its deviation of 447,
        and gaps whose deviation is their mean, within a tenth; bursts of 5 ms in 50 a tenth."""
        moments = [row[0] for row in self.rows("--rate", "1000")]
        self.assertEqual([round(moment / 10**6) for moment in moments], list(range(len(moments))))
        self.assertIn(len(moments), (999, 1000))
        moments = [row[0] for row in self.rows("--kind", "poisson", "--rate", "100000", "--seconds", "2")]
        self.assertTrue(200000 - 2236 <= len(moments) <= 200000 + 2236)
        gaps = [after - before for before, after in zip(moments, moments[1:])]
        mean = sum(gaps) / len(gaps)
        self.assertTrue(0.9 < (sum((gap - mean) ** 2 for gap in gaps) / len(gaps)) ** 0.5 / mean < 1.1)
        self.assertTrue(490 <= len(self.rows("--kind", "bursts", "--rate", "1000", "--seconds", "5")) <= 510)

    def test_many_devices(self) -> None:
        rows = self.rows("--devices", "4096", "--rate", "10", "--seconds", "0.2", "--bytes", "60:61")
        self.assertEqual({device for _, device, _ in rows}, set(range(1, 4097)))
        self.assertEqual({size for _, _, size in rows}, {60, 61})
        self.assertEqual(rows[0][0], 0)

    def test_flows(self) -> None:
        """The other columns are unchanged; of 8 flows each of 4 queues has about a fourth of 4000 packets, within six deviations of 27."""
        words = ["--kind", "poisson", "--rate", "4000"]
        plain = self.rows(*words)
        done = run("traffic", "--arrivals", *words, "--flows", "8")
        first, *lines = done.stdout.splitlines()
        rows = [tuple(map(int, line.split(","))) for line in lines]
        self.assertEqual((first, [row[:3] for row in rows], {row[3] for row in rows}), ("ns,device,bytes,flow", plain, set(range(8))))
        counts = [int(each) for each in re.findall(r"^device \d arrived (\d+)", self.taken(done.stdout, "--queues", "4"), re.M)]
        self.assertTrue(len(counts) == 4 and all(abs(each - len(rows) / 4) < 165 for each in counts), counts)
        self.assertEqual(run("traffic", "--flows", "8").returncode, 64)

    def test_words_that_it_refuses(self) -> None:
        for words in (["--mix", "tx=1"], ["--devices", "4097"], ["--devices", "0"]):
            self.ends_with(64, "traffic", "--arrivals", *words)
