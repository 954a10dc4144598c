"""Reads a capture record by record, without tcpdump: pcap version 2.4 and pcapng, of Ethernet, of raw IP, or of `tcpdump -i any` (cooked), if
each record is complete. Everything else is left to tcpdump's text, which has the same content for Ethernet."""

from __future__ import annotations

import functools
import mmap
import socket
import struct
import zlib
from collections.abc import Callable, Iterator
from typing import IO, NamedTuple, Optional

from fintaqush_tools.errors import Refusal
from fintaqush_tools.progress import Progress

# Ns of a tick.
ORDERS = {
    b"\xd4\xc3\xb2\xa1": ("<", 1000),
    b"\xa1\xb2\xc3\xd4": (">", 1000),
    b"\x4d\x3c\xb2\xa1": ("<", 1),
    b"\xa1\xb2\x3c\x4d": (">", 1),
}
SECTION, INTERFACE, SIMPLE, ENHANCED = 0x0A0D0D0A, 1, 3, 6  # blocks of pcapng
BYTE_ORDER, RESOLUTION = 0x1A2B3C4D, 9
VERSION = (2, 4)
IPV4, IPV6 = 20, 40  # bytes of a header
IP, IP6 = b"\x08\x00", b"\x86\xdd"
VLAN = (b"\x81\x00", b"\x88\xa8", b"\x91\x00")
PORTS = (6, 17)  # TCP and UDP
FRAGMENT, EXTENSIONS = 44, (0, 43, 60)  # headers of IPv6
SECOND = 10**9
MOST_SECONDS, MOST_HELD = 2**31, 262144
OUT, MANY = (3, 4), 2  # cooked packet types: to another machine, or outgoing; multicast


class Strange(Exception):
    """Raised for a packet or a capture that is left to tcpdump."""


class Link(NamedTuple):
    """A link type: the bytes of its header, of these the ones that name the ends, and where the type of the packet is."""

    header: int
    begin: int
    end: int
    type_at: Optional[int]


ETHERNET, COOKED, COOKED2 = Link(14, 0, 12, 12), Link(16, 0, 14, 14), Link(20, 4, 20, 0)
RAW = Link(0, 0, 0, None)
LINKS = {1: ETHERNET, 12: RAW, 14: RAW, 101: RAW, 228: RAW, 229: RAW, 113: COOKED, 276: COOKED2}


class Record(NamedTuple):
    """A record: its time in ns, the length of the packet, where its bytes are, how many there are, and its link type."""

    time: int
    length: int
    at: int
    held: int
    link: Link


class Ends(NamedTuple):
    """What a link's header says: the interface's number, the two link addresses, and whether the packet is a multicast, or comes in."""

    interface: str
    sender: str
    to: str
    is_multicast: bool
    comes_in: bool


def is_group(to: str) -> bool:
    """Returns whether a link address is a multicast address, other than broadcast."""
    return int(to[:2] or "0", 16) & 1 == 1 and to != "ff:ff:ff:ff:ff:ff"


def ends_of(link: Link, ends: bytes) -> Ends:
    """Returns what the bytes of the ends say. An interface of another machine has a number, and no name."""
    if link is ETHERNET:
        to = ends[:6].hex(":")
        return Ends("", ends[6:].hex(":"), to, is_group(to), True)
    if link is RAW:
        return Ends("", "", "", False, True)
    if link is COOKED:
        (kind,), size, address, interface = struct.unpack(">H", ends[:2]), ends[5], ends[6:], ""
    else:
        kind, size, address = ends[6], ends[7], ends[8:]
        interface = f"ifindex{struct.unpack('>I', ends[:4])[0]}"
    return Ends(interface, address[: min(size, 8)].hex(":"), "", kind == MANY, kind not in OUT)


# ---- flows


@functools.lru_cache(1 << 16)
def flow_number(ends: bytes, ports: bytes) -> int:
    """Returns the number of a flow, from the text that tcpdump prints of its addresses and ports."""
    half = len(ends) // 2
    family = socket.AF_INET if half == 4 else socket.AF_INET6
    sender, to = (socket.inet_ntop(family, end) for end in (ends[:half], ends[half:]))
    if not ports:
        return zlib.crc32(f"{sender} > {to}".encode())
    first, second = struct.unpack(">HH", ports)
    return zlib.crc32(f"{sender}.{first} > {to}.{second}".encode())


def flow_of(data: mmap.mmap, record: Record) -> int:
    """Returns the number of a packet's flow; 0 for a packet without addresses. A fragment has no ports, and the first one none that count,
    because a card hashes all fragments of a datagram alike."""
    at, end = record.at + record.link.header, record.at + record.held
    if record.link.type_at is None:
        kind = IP if data[at] >> 4 == 4 else IP6
    else:
        kind = data[record.at + record.link.type_at : record.at + record.link.type_at + 2]
    while kind in VLAN and at + 4 <= end:
        kind, at = data[at + 2 : at + 4], at + 4
    if kind == IP and at + IPV4 <= end:
        is_fragment = data[at + 6] & 0x3F or data[at + 7]
        ends, protocol, inner = data[at + 12 : at + 20], data[at + 9], at + (data[at] & 15) * 4
    elif kind == IP6 and at + IPV6 <= end:
        ends, protocol, inner = data[at + 8 : at + 40], data[at + 6], at + IPV6
        while protocol in EXTENSIONS and inner + 2 <= end:
            protocol, inner = data[inner], inner + 8 * (data[inner + 1] + 1)
        is_fragment = protocol == FRAGMENT
    else:
        return 0
    has_ports = protocol in PORTS and not is_fragment and inner + 4 <= end
    return flow_number(ends, data[inner : inner + 4] if has_ports else b"")


# ---- records


def in_pcap(data: mmap.mmap) -> Iterator[Record]:
    order, tick = ORDERS[data[:4]]
    link = LINKS.get(struct.unpack_from(order + "I", data, 20)[0] & 0xFFFF)
    if struct.unpack_from(order + "HH", data, 4) != VERSION or not link:
        raise Strange
    unpack, place, size, header = struct.Struct(order + "IIII").unpack_from, 24, len(data), link.header
    most, ticks = min(MOST_HELD, struct.unpack_from(order + "I", data, 16)[0]), SECOND // tick
    make = Record._make
    while place < size:
        if place + 16 > size:
            raise Strange
        whole, fraction, held, length = unpack(data, place)
        place += 16
        is_late = fraction >= ticks or whole >= MOST_SECONDS
        if is_late or not header <= held <= length or not held or held > most or place + held > size:
            raise Strange
        yield make((whole * SECOND + fraction * tick, length, place, held, link))
        place += held


def interface_of(data: mmap.mmap, order: str, at: int, end: int) -> tuple[Link, int]:
    """Returns the link type and the ticks per second of an interface of pcapng."""
    link, ticks = LINKS.get(struct.unpack_from(order + "H", data, at)[0]), 10**6
    at += 8
    while at + 4 <= end:
        code, size = struct.unpack_from(order + "HH", data, at)
        if code == RESOLUTION and size == 1:
            ticks = 2 ** (data[at + 4] & 0x7F) if data[at + 4] & 0x80 else 10 ** data[at + 4]
        at += 4 + (size + 3) // 4 * 4
    if not link or ticks > 1 << 64:
        raise Strange
    return link, ticks


def in_pcapng(data: mmap.mmap) -> Iterator[Record]:
    place, size, order = 0, len(data), "<"
    interfaces: list[tuple[Link, int]] = []
    while place < size:
        if place + 12 > size:
            raise Strange
        (kind,) = struct.unpack_from(order + "I", data, place)
        if kind == SECTION:
            order, interfaces = "<" if struct.unpack_from("<I", data, place + 8)[0] == BYTE_ORDER else ">", []
        (whole,) = struct.unpack_from(order + "I", data, place + 4)
        if whole < 12 or whole % 4 or place + whole > size or kind == SIMPLE:  # which has no time
            raise Strange
        if kind == INTERFACE:
            interfaces.append(interface_of(data, order, place + 8, place + whole - 4))
        elif kind == ENHANCED:
            number, high, low, held, length = struct.unpack_from(order + "IIIII", data, place + 8)
            if number >= len(interfaces) or whole < 32 + held or not interfaces[number][0].header <= held <= length:
                raise Strange
            link, ticks = interfaces[number]
            time = (high << 32 | low) * SECOND // ticks
            if time >= 1 << 64:  # of which tcpdump prints a part
                raise Refusal(f"a packet's time is {time // SECOND} s, by {ticks} ticks per second (if_tsresol)")
            yield Record(time, length, place + 28, held, link)
        place += whole


Add = Callable[[int, Link, bytes, int, int], None]  # takes time, link, ends, flow and length of a packet


def read(file: IO[bytes], count: int | None, with_flows: bool, add: Add, told: list[int]) -> bool:
    """Reads the packets of an open file from its beginning. Calls `add(time, link, ends, flow, length)` for each; `ends` are the bytes of the
    link's header for `ends_of`; `told` is the file's position. Returns whether the whole file could be read."""
    if not file.seekable():
        return False
    with mmap.mmap(file.fileno(), 0, access=mmap.ACCESS_READ) as data, Progress("reading", lambda: told[0] / len(data)):
        if len(data) < 28:
            return False
        try:
            for place, record in enumerate(in_pcap(data) if data[:4] in ORDERS else in_pcapng(data)):
                if place == count:
                    break
                time, length, at, _, link = record
                told[0] = at
                flow = flow_of(data, record) if with_flows else 0
                add(time, link, data[at + link.begin : at + link.end], flow, length)
        except (Strange, struct.error):
            return False
    return True
