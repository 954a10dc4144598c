"""Tests of how fintaqush from-pcap reads captures: reading records gives the same result as tcpdump's text."""

from __future__ import annotations

import gzip
import random
import struct
import time
import zlib
from collections.abc import Sequence

from tooltest import InFolder, process, run, skip_without

MACS = [bytes([2, 0, 0, 0, 0, place]) for place in range(1, 5)] + [b"\xff" * 6, b"\x01\x00\x5e\0\0\1", b"\x33\x33\0\0\0\1"]
ADDRESSES = [bytes([10, 0, 0, place]) for place in range(1, 4)]
ADDRESSES6 = [bytes([0xFE, 0x80, *[0] * 13, place]) for place in range(1, 4)] + [bytes([0x20, 1, 0xD, 0xB8, *[0] * 11, 9])]
UDP, TCP, ICMP, ICMP6 = 17, 6, 1, 58


def transport(chance: random.Random, protocol: int) -> bytes:
    """Returns a header with its ports, and some bytes."""
    ports = struct.pack(">HH", chance.randrange(1000, 60000), chance.choice((9, 443, 5000)))
    if protocol == UDP:
        return ports + struct.pack(">HH", 26, 0) + bytes(18)
    if protocol == TCP:
        return ports + struct.pack(">IIBBHHH", 1, 1, 0x50, 0x10, 100, 0, 0) + bytes(10)
    return bytes([8 if protocol == ICMP else 128, 0, 0, 0, 0, 1, 0, 1]) + bytes(20)


def inner(chance: random.Random, is_strange: bool) -> tuple[bytes, bytes]:
    """Returns the type and the bytes of a packet: ARP, IPv4 or IPv6; a strange one may also have a VLAN, options, or another type."""
    kind = chance.randrange(10 if is_strange else 6)
    if kind == 0:
        return b"\x08\x06", struct.pack(">HHBBH", 1, 0x0800, 6, 4, 1) + MACS[0] + ADDRESSES[0] + bytes(6) + ADDRESSES[1]
    if kind in (1, 2):
        protocol = chance.choice((UDP, TCP, ICMP6))
        body = transport(chance, protocol)
        return b"\x86\xdd", struct.pack(">IHBB", 0x60000000, len(body), protocol, 64) + b"".join(chance.sample(ADDRESSES6, 2)) + body
    protocol = chance.choice((UDP, TCP, ICMP))
    body = transport(chance, protocol)
    options = b"\x01" * 4 if kind == 6 else b""
    packet = struct.pack(">BBHHHBBH", 0x45 + len(options) // 4, 0, 20 + len(options) + len(body), 7, 0, 64, protocol, 0)
    packet += b"".join(chance.sample(ADDRESSES, 2)) + options + body
    if kind == 8:
        return b"\x81\x00", b"\0\5\x08\0" + packet
    return (b"\x88\xb5", bytes(46)) if kind == 9 else (b"\x08\0", packet)


def capture_of(seed: int, is_strange: bool = False, order: str = "<", ticks: int = 10**6, count: int = 300) -> bytes:
    """Returns a random capture, whose times don't always rise."""
    chance = random.Random(seed)
    magic = 0xA1B2C3D4 if ticks == 10**6 else 0xA1B23C4D
    text, time = struct.pack(order + "IHHiIII", magic, 2, 4, 0, 0, 262144, 1), 1_700_000_000 * ticks
    for _ in range(count):
        time += chance.randrange(-5, 50)
        to, sender = chance.choice(MACS), chance.choice(MACS[:4])
        kind, body = inner(chance, is_strange)
        packet = (to + sender + kind + body).ljust(60, b"\0")
        text += struct.pack(order + "IIII", time // ticks, time % ticks, len(packet), len(packet) + chance.choice((0, 0, 1400, 70000 if is_strange else 0))) + packet
    return text


def file_of(link: int, packets: Sequence[bytes]) -> bytes:
    """Returns a capture of this link type, with a packet each microsecond."""
    head = struct.pack("<IHHiIII", 0xA1B2C3D4, 2, 4, 0, 0, 262144, link)
    return head + b"".join(struct.pack("<IIII", 100, place, len(packet), len(packet)) + packet for place, packet in enumerate(packets))


def pcapng_of(link: int, packets: Sequence[bytes]) -> bytes:
    """Returns the same as pcapng with times in ns: a section, an interface with its option if_tsresol, packets, and a block that isn't known."""
    interface = struct.pack("<HHI", link, 0, 0) + struct.pack("<HHB3xHH", 9, 1, 9, 0, 0)
    blocks = [(0x0A0D0D0A, struct.pack("<IHHq", 0x1A2B3C4D, 1, 0, -1)), (1, interface)]
    for place, packet in enumerate(packets):
        time = 100 * 10**9 + 1000 * place
        body = struct.pack("<IIIII", 0, time >> 32, time & 0xFFFFFFFF, len(packet), len(packet)) + packet + bytes(-len(packet) % 4)
        blocks.append((6, body))
    blocks.append((0xBAD, bytes(8)))
    return b"".join(struct.pack("<II", kind, len(body) + 12) + body + struct.pack("<I", len(body) + 12) for kind, body in blocks)


def datagram(sender: int, to: int, fragment: int = 0, protocol: int = UDP, size: int = 60) -> bytes:
    """Returns an IPv4 packet from port 1000 to 2000, or a fragment with these flags and this offset."""
    head = struct.pack(">BBHHHBBH", 0x45, 0, size, 7, fragment, 64, protocol, 0) + ADDRESSES[sender] + ADDRESSES[to]
    return (head + struct.pack(">HHHH", 1000, 2000, 40, 0)).ljust(size, b"\0")


def cooked(kind: int, index: int, packet: bytes) -> tuple[bytes, bytes]:
    """Returns a packet of `tcpdump -i any`: in the first and in the second form, which has the interface's number."""
    return (struct.pack(">HHH", kind, 1, 6) + MACS[1] + b"\0\0\x08\0" + packet,
            b"\x08\0\0\0" + struct.pack(">IHBB", index, 1, kind, 6) + MACS[1] + b"\0\0" + packet)


class Captures(InFolder):
    @skip_without("tcpdump")
    def test_records_are_what_tcpdump_says(self) -> None:
        """In both byte orders, with times in \u00b5s and ns, with and without packets that only tcpdump can read."""
        for seed, (order, ticks, is_strange) in enumerate((order, ticks, is_strange) for order in "<>" for ticks in (10**6, 10**9) for is_strange in (False, True)):
            (self.folder / "captured").write_bytes(capture_of(seed, is_strange, order, ticks))
            told = process("tcpdump", "-r", "captured", "-tt", "--nano", "-n", "-e", folder=self.folder).stdout
            for words in (["--arrivals"], ["--arrivals", "--flows"], ["--arrivals", "--to", "02:00:00:00:00:01"], ["--unit", "us"], ["-c", "100", "--arrivals"]):
                self.assertEqual(self.converted("from-pcap", "captured", *words), self.converted("from-pcap", "-", *words, text=told), (seed, words))

    def test_a_plain_capture_needs_no_tcpdump(self) -> None:
        (self.folder / "captured").write_bytes(capture_of(1))
        rows = self.converted("from-pcap", "captured", "--arrivals", "--flows", PATH="/none")[0].splitlines()
        self.assertGreater(len(rows), 200)
        (self.folder / "captured").write_bytes(capture_of(1)[:-3])
        done = run("from-pcap", "captured", "other", "--arrivals", folder=self.folder, PATH="/none")
        self.assertEqual((done.stderr, done.returncode), ("fintaqush from-pcap: captured: it needs tcpdump, which isn't on PATH (Debian: apt install tcpdump)\n", 1))

    def test_the_longest_packets_are_rows(self) -> None:
        """Without tcpdump: a packet of 65,535 bytes is a row, and longer ones are counted in the notes."""
        text, packet = struct.pack("<IHHiIII", 0xA1B2C3D4, 2, 4, 0, 0, 262144, 1), (MACS[1] + MACS[0] + b"\x08\x06").ljust(60, b"\0")
        for place, length in enumerate((60, 65534, 65535, 65536, 262144)):
            text += struct.pack("<IIII", 1_700_000_000, place, len(packet), length) + packet
        (self.folder / "captured").write_bytes(text)
        rows, notes = self.converted("from-pcap", "captured", "--arrivals", PATH="/none")
        self.assertEqual([row.split(",")[2] for row in rows.splitlines()[1:]], ["60", "65534", "65535"])
        self.assertIn("no row: packets without a length of 1 to 65535 bytes, 2\n", notes)

    def test_what_a_million_packets_take(self) -> None:
        """Reads 100,000 packets, which takes less than half a second of processor time; the limit leaves room for a slow machine."""
        (self.folder / "captured").write_bytes(capture_of(1, count=1000)[:24] + 100 * capture_of(1, count=1000)[24:])
        before = time.process_time()
        self.converted("from-pcap", "captured", "--arrivals")
        self.assertLess(time.process_time() - before, 60)

    def rows(self, capture: bytes, *words: object) -> list[list[str]]:
        """Returns the rows of a capture's arrivals, read without tcpdump."""
        (self.folder / "captured").write_bytes(capture)
        return [row.split(",") for row in self.converted("from-pcap", "captured", "--arrivals", *words, PATH="/none")[0].splitlines()[1:]]

    def test_raw_ip(self) -> None:
        """Without link headers: each packet arrives, with its own length and its flow."""
        six = struct.pack(">IHBB", 0x60000000, 8, UDP, 64) + b"".join(ADDRESSES6[:2]) + struct.pack(">HHHH", 1000, 2000, 8, 0)
        flows = [str(zlib.crc32(text)) for text in (b"10.0.0.1.1000 > 10.0.0.2.2000", b"fe80::1.1000 > fe80::2.2000")]
        wanted = [["0", "1", "60", flows[0]], ["1000", "1", "48", flows[1]]]
        self.assertEqual(self.rows(file_of(101, [datagram(0, 1), six]), "--flows"), wanted)
        self.assertEqual(self.rows(pcapng_of(101, [datagram(0, 1), six]), "--flows"), wanted)
        for link, packet, row in ((228, datagram(0, 1), wanted[0]), (229, six, ["0", *wanted[1][1:]])):
            self.assertEqual(self.rows(file_of(link, [packet]), "--flows"), [row])

    def test_fragments_have_the_flow_of_their_datagram(self) -> None:
        """By the addresses alone, as a card hashes them, which finds no ports in the later ones; other packets of the two have their ports too."""
        six = [struct.pack(">IHBB", 0x60000000, 48, 44, 64) + b"".join(ADDRESSES6[:2]) + struct.pack(">BBHI", UDP, 0, offset, 7) + bytes(40) for offset in (1, 320)]
        packets = [datagram(0, 1, 0x2000), datagram(0, 1, 5), datagram(0, 1)]
        alone, both, of_six = (zlib.crc32(text) for text in (b"10.0.0.1 > 10.0.0.2", b"10.0.0.1.1000 > 10.0.0.2.2000", b"fe80::1 > fe80::2"))
        flows = [int(row[3]) for row in self.rows(file_of(101, [*packets, *six]), "--flows")]
        self.assertEqual(flows, [alone, alone, both, of_six, of_six])

    def test_cooked_captures_have_directions(self) -> None:
        """What goes out, or to another machine, has no row; interfaces have their numbers, because the capture may be of another machine."""
        kinds = [(0, 2), (4, 2), (0, 7), (3, 7), (1, 2)]  # to this machine, outgoing, to this machine, to another one, broadcast
        first, second = ([cooked(kind, index, datagram(0, 1))[form] for kind, index in kinds] for form in (0, 1))
        self.assertEqual([row[:2] for row in self.rows(file_of(113, first))], [["0", "1"], ["2000", "1"], ["4000", "1"]])
        self.assertEqual([row[:2] for row in self.rows(file_of(276, second))], [["0", "1"], ["2000", "2"], ["4000", "1"]])
        notes = (self.folder / "made.notes").read_text().splitlines()
        self.assertEqual(notes, ["device 1 is ifindex2, 2 packets", "device 2 is ifindex7, 1 packets", "no row: packets that don't come in, 2"])
        self.assertEqual([row[:2] for row in self.rows(file_of(276, second), "--to", "ifindex7")], [["0", "1"]])
        self.assertEqual(len(self.rows(file_of(113, first), "-Q", "inout")), 5)

    def test_both_ways_between_two_addresses(self) -> None:
        """Which one is this machine isn't known, so it has to be named, or both count."""
        packets = [MACS[place % 2] + MACS[1 - place % 2] + b"\x08\0" + datagram(0, 1) for place in range(6)]
        (self.folder / "captured").write_bytes(file_of(1, packets))
        why = "packets go both ways between 02:00:00:00:00:01 and 02:00:00:00:00:02, and the capture doesn't say which of them this machine is"
        self.fails(why, "from-pcap", "captured", "other", folder=self.folder)
        self.assertEqual(len(self.rows(file_of(1, packets), "--to", "02:00:00:00:00:02")), 3)
        self.assertEqual(len(self.rows(file_of(1, packets), "-Q", "inout")), 6)
        self.assertEqual(len(self.rows(file_of(1, packets[::2]))), 3)  # one way alone

    def test_pcapng(self) -> None:
        """Records of pcapng give what those of pcap do."""
        packets = [MACS[0] + MACS[1] + b"\x08\0" + datagram(0, 1, size=60 + place) for place in range(9)]
        self.assertEqual(self.rows(pcapng_of(1, packets), "--flows"), self.rows(file_of(1, packets), "--flows"))

    def test_packed_captures(self) -> None:
        """A capture, or its text, may be packed by gzip; a packed one that is cut is refused."""
        whole = capture_of(3)
        rows = self.rows(whole)
        self.assertEqual(self.rows(gzip.compress(whole)), rows)
        line = b"100.000000 eth0  In  ifindex 2 02:00:00:00:00:01 ethertype IPv4 (0x0800), length 60: UDP\n"
        self.assertEqual(self.rows(gzip.compress(line)), [["0", "1", "60"]])
        (self.folder / "captured").write_bytes(gzip.compress(whole)[:-9])
        self.fails("captured: it isn't whole: ", "from-pcap", "captured", "other", folder=self.folder)

    @skip_without("tcpdump")
    def test_other_link_types_are_named(self) -> None:
        (self.folder / "captured").write_bytes(file_of(105, [bytes(60)]))
        self.fails("its link type is IEEE802_11; captures of Ethernet, of raw IP", "from-pcap", "captured", "other", folder=self.folder)
