"""Converts a capture to a trace: packets that arrive, and a softirq row a given time after the first waiting packet; with --arrivals to
arrivals for napi_machine, with times in ns, any number of packets and no runs.

    fintaqush from-pcap capture.pcap mine
    fintaqush from-pcap capture.pcap mine --arrivals --one-device
    tcpdump -r capture.pcap -tt -n -e | fintaqush from-pcap - mine --unit us --delay 50

The capture is pcap or pcapng of Ethernet, of raw IP or of `tcpdump -i any`, which is read here, any other format that tcpdump reads, or the text
of `tcpdump -tt -n -e`, also as .gz. A device is an interface, by its number if the capture has no name; outgoing packets have no row, except with
-Q inout. A capture of one interface lacks the direction. Then packets from the interface's own address are outgoing, if exactly one address
takes part in all unicast packets, as sender and as receiver; if two do, the tool fails, and --to has to name one; otherwise all packets count as
arrivals. --to names devices, in order: interfaces of the capture, or the link addresses that receive, each with the broadcasts that others
send. NAME.notes lists them, and the packets without a row. A capture doesn't record when the softirq ran: --delay is the time from the first
waiting packet to it. Option --raise of replay adds the runs that a small budget or weight would cause. Arrivals have no multicasts, because a card accepts
only those that it was configured for. With --flows they have a column for the queues of napi_machine: a CRC of the packet's addresses and ports,
in place of a card's hash, and of the addresses alone for fragments; 0 for packets without addresses.
"""

from __future__ import annotations

import contextlib
import gzip
import os
import re
import tempfile
import zlib
from collections import Counter
from collections.abc import Callable, Iterable, Iterator, Mapping, Sequence
from itertools import chain
from typing import IO, Any, NamedTuple, Optional

from fintaqush_tools import capture
from fintaqush_tools.arrivals import SECOND, Packets, arrivals_text, check_devices, number_of, seconds
from fintaqush_tools.capture import Link, is_group
from fintaqush_tools.errors import Refusal
from fintaqush_tools.files import check_input, check_target, lines_in, opened
from fintaqush_tools.options import Parser, Words, number, words_of
from fintaqush_tools.processes import lines_by
from fintaqush_tools.recording import HEAD
from fintaqush_tools.texts import shown
from fintaqush_tools.trace import MOST_DEVICES, TICKS, Row, trace_text, with_runs
from fintaqush_tools.trace import add_delay, add_files, check_flows, write_files

# The first bytes of a capture: pcap with times in µs and ns, in both byte orders, and pcapng.
MAGIC = (b"\xd4\xc3\xb2\xa1", b"\xa1\xb2\xc3\xd4", b"\x4d\x3c\xb2\xa1", b"\xa1\xb2\x3c\x4d", b"\x0a\x0d\x0d\x0a")
PACKET = re.compile(
    r"(?P<seconds>\d{1,10})\.(?P<fraction>\d{6,9}) +(?:(?:(?P<interface>\S+) +)?(?P<way>In|Out|B|M|P) +)?(?P<said>.*)"
)
BETWEEN = re.compile(r"(?P<sender>\S+) > (?P<to>[0-9a-f:]{17}),? ")
LENGTH = re.compile(r"\blength (\d{1,9})")
FLOW = re.compile(r"\blength \d{1,9}: (?:.*? )??(\S+ > \S+): ")
OTHERS = "packets that don't come in"
LENGTHLESS = "packets without a length of 1 to 65535 bytes"

MANY = "multicasts"
GZIP = b"\x1f\x8b"
IN, BOTH = "in", "inout"  # the ways of -Q
MOST_LINE = 65536  # characters in a line of tcpdump


class Kind(NamedTuple):
    """The properties that packets have in common; an empty text for what the capture doesn't record."""

    interface: str
    sender: str
    to: str
    is_multicast: bool
    flow: int = 0

    def is_for_many(self) -> bool:
        """Returns whether it is a broadcast or a multicast."""
        return int(self.to[:2] or "0", 16) & 1 == 1

    def receivers(self, names: Sequence[str]) -> list[str]:
        """Returns those of these link addresses at which it arrives."""
        return [name for name in names if self.to == name or self.is_for_many() and self.sender != name]


def whole(file: IO[bytes], head: bytes = b"") -> IO[bytes]:
    """Returns a temporary file with `head` and all that another file still has."""
    copy = tempfile.TemporaryFile()
    copy.writelines(chain([head], iter(lambda: file.read(1 << 20), b"")))
    copy.seek(0)
    return copy


@contextlib.contextmanager
def unpacked(path: str) -> Iterator[tuple[IO[bytes], bytes]]:
    """Opens a capture or tcpdump's text, also one that gzip packed. Yields the file and its first bytes; a capture's can be read from its beginning
    again."""
    with contextlib.ExitStack() as stack:
        file: Any = stack.enter_context(opened(path))
        head = file.read(4)
        if head[:2] == GZIP:
            packed = stack.enter_context(whole(file, head))
            try:
                text: Any = stack.enter_context(gzip.GzipFile(fileobj=packed))
                file = stack.enter_context(whole(text))
            except (EOFError, zlib.error, gzip.BadGzipFile) as error:
                raise Refusal(f"it isn't whole: {error}") from None
            head = file.read(4)
        elif head in MAGIC and not file.seekable():
            file = stack.enter_context(whole(file, head))
        yield file, head


def by_tcpdump(count: int | None, file: IO[bytes], cut: list[str], links: list[str]) -> Iterator[str]:
    """Yields the lines that tcpdump prints for a capture. A link type other than Ethernet goes to `links`, a message on a cut capture to `cut`."""
    command = ["tcpdump", "-r", "-", "-tt", "--nano", "-n", "-e", *(["-c", str(count)] if count else [])]
    with tempfile.TemporaryFile() as said:
        try:
            status = yield from lines_by(command, file, said)
        except FileNotFoundError:
            raise Refusal("it needs tcpdump, which isn't on PATH (Debian: apt install tcpdump)") from None
        said.seek(0)
        lines = said.read().decode("utf-8", "replace").strip().splitlines()
    told = [shown(line.removeprefix("tcpdump: ")) for line in lines]
    link = re.search(r"link-type (\S+)", " ".join(told))
    if link and link[1] not in ("EN10MB", "LINUX_SLL", "LINUX_SLL2"):
        links.append(link[1])
    if status != 0 and not (told and "truncated" in told[-1] and "file header" not in told[-1]):
        raise Refusal(f"tcpdump: {told[-1] if told else status}")
    if status != 0:
        cut.append(f"the capture is cut, and read up to there: {told[-1]}")


def flow_of(said: str) -> int:
    """Returns the flow of a packet, by its addresses and ports."""
    found = FLOW.search(said)
    return zlib.crc32(found[1].encode()) if found else 0


class Records:
    """The packets of a capture by its records, and the number without a row."""

    def __init__(self, is_both_ways: bool) -> None:
        self.packets, self.without, self.is_both_ways = Packets(), Counter[str](), is_both_ways
        self.kinds = dict[tuple[Link, bytes, int], Optional[Kind]]()

    def add(self, time: int, link: Link, ends: bytes, flow: int, length: int) -> None:
        key = link, ends, flow
        if key not in self.kinds:
            interface, sender, to, is_multicast, comes_in = capture.ends_of(link, ends)
            is_wanted = comes_in or self.is_both_ways
            self.kinds[key] = Kind(interface, sender, to, is_multicast, flow) if is_wanted else None
        kind = self.kinds[key]
        if length > 65535:
            self.without[LENGTHLESS] += 1
        elif kind is None:
            self.without[OTHERS] += 1
        else:
            self.packets.add(time, kind, length)


def packets_in(words: Words, cut: list[str]) -> tuple[Packets, Counter[str]]:
    """Returns the packets of a capture, read by its records, else from tcpdump's text."""
    is_both_ways = words.way == BOTH
    with unpacked(words.capture) as (file, head):
        if head not in MAGIC:
            begin = (head + file.readline(MOST_LINE)).splitlines(True)
            text = (line.decode("utf-8", "replace") for line in chain(begin, lines_in(file, MOST_LINE, "tcpdump's")))
            return packets_of(text, words.count, words.flows, is_both_ways)
        records = Records(is_both_ways)
        if capture.read(file, words.count, words.flows, records.add, [0]):
            return records.packets, records.without
        os.lseek(file.fileno(), 0, os.SEEK_SET)  # as standard input, so that tcpdump never gets a file name
        links: list[str] = []
        found = packets_of(by_tcpdump(words.count, file, cut, links), words.count, words.flows, is_both_ways)
        if links and not found[0].times:
            known = "captures of Ethernet, of raw IP and of `tcpdump -i any` are read"
            raise Refusal(f"its link type is {links[0]}; {known}")
        return found


Counted = tuple[Packets, Counter[str]]  # packets, and how many others of each kind there are


def packets_of(
    lines: Iterable[str], count: int | None, with_flows: bool = False, is_both_ways: bool = False
) -> Counted:
    """Returns the packets, at most `count`, and the number of lines without a row, by kind."""
    packets, seen = Packets(), 0
    without: Counter[str] = Counter()
    for place, line in enumerate(lines, 1):
        found = PACKET.match(line)
        if not found and line[:1] not in ("\t", " ", "", "\n", "\r"):  # tcpdump continues on the same packet
            if line.startswith(HEAD):
                raise Refusal("this is a file of fintaqush record, which from-ftrace, costs and advise read")
            raise Refusal(f"line {place}: not in the format of `tcpdump -tt -n -e`: {shown(line[:60].rstrip())}")
        if not found:
            continue
        seen += 1
        if count and seen > count:
            break
        between, length = BETWEEN.match(found["said"]), LENGTH.search(found["said"])
        if found["way"] in ("Out", "P") and not is_both_ways:
            without[OTHERS] += 1
        elif not length or not 1 <= int(length[1]) <= 65535:
            without[LENGTHLESS] += 1
        else:
            ends = (between["sender"], between["to"]) if between else ("", "")
            is_multicast = found["way"] == "M" or is_group(ends[1])
            flow = flow_of(found["said"]) if with_flows else 0
            kind = Kind(found["interface"] or "", *ends, is_multicast, flow)
            packets.add(seconds(found["seconds"], found["fraction"]), kind, int(length[1]))
    return packets, without


def own_address(kinds: Iterable[Kind]) -> str:
    """Returns the one address that takes part in all unicast packets, both as sender and as receiver, if there is one."""
    ends = [(kind.sender, kind.to) for kind in kinds if kind.to and not kind.is_for_many()]
    senders, receivers = {sender for sender, _ in ends}, {to for _, to in ends}
    common = sorted(name for name in senders & receivers if all(name in both for both in ends))
    if len(common) > 1:
        raise Refusal(
            f"packets go both ways between {common[0]} and {common[1]}, and the capture doesn't say which of them this machine is: name it by --to, or "
            f"count both ways by -Q {BOTH}; tcpdump -Q in captures only what arrives"
        )
    return common[0] if common else ""


def by_packets(counted: Mapping[Kind, int]) -> list[str]:
    """Returns the interfaces, that with the most packets first."""
    of: Counter[str] = Counter()
    for kind, count in counted.items():
        of[kind.interface] += count
    return sorted(of, key=lambda name: (-of[name], name))


Arrives = Callable[[Kind], list[str]]


def devices_of(counted: Mapping[Kind, int], wanted: list[str], way: str) -> tuple[list[str], list[str], Arrives]:
    """Returns the devices' names in order, notes on them, and a function that returns the names at which packets of a kind arrive."""
    has_interfaces = any(kind.interface for kind in counted)
    if wanted and has_interfaces:
        return wanted, [], lambda kind: [kind.interface] if kind.interface in wanted else []
    if wanted:
        return wanted, [], lambda kind: kind.receivers(wanted)
    if has_interfaces:
        return by_packets(counted), [], lambda kind: [kind.interface]
    own = own_address(counted) if way == IN else ""
    name = own or "the interface of the capture"
    note = (
        f"each packet with one receiver comes from {own} or goes to it, so what it sends to others goes out"
        if own
        else "the capture doesn't tell what goes out, so all of it arrives; --to names the addresses that receive"
    )
    return [name], [note], lambda kind: [] if own and kind.sender == own and not kind.receivers([own]) else [name]


Places = Mapping[Kind, list[int]]


def places_of(words: Words, counted: Mapping[Kind, int], without: Counter[str]) -> tuple[list[str], list[str], Places]:
    """Returns the devices' names, the notes on them, and for each kind the numbers of the devices at which its packets arrive."""
    wanted = [name.lower() if ":" in name else name for name in words.to]
    names, notes, arrives = devices_of(counted, wanted, words.way)
    of: Counter[str] = Counter()
    places = {}
    for kind, count in counted.items():
        there = [] if words.arrivals and kind.is_multicast else arrives(kind)
        without[MANY if words.arrivals and kind.is_multicast else OTHERS] += 0 if there else count
        if words.one_device:
            there = there and ["one device"]
        places[kind] = [1 if words.one_device else names.index(name) + 1 for name in there]
        of.update(dict.fromkeys(there, count))
    if not of:
        raise Refusal(f"no packet arrives at {shown(', '.join(names))}")
    if words.one_device:
        notes = [f"one device is all of: {shown(', '.join(names))}", *notes]
        names = ["one device"]
    named = [f"device {place} is {shown(name)}, {of[name]} packets" for place, name in enumerate(names, 1)]
    return names, [*named, *notes], places


def some_rows(rows: Iterable[Row], span: tuple[int, int]) -> Iterator[Row]:
    """Yields the rows of the span, after rows that open the devices and add the packets that wait at its beginning."""
    first, last = span
    waiting: list[Row] = []
    for place, row in enumerate(rows, 1):
        if row[2] == "open":
            yield row
        elif first <= place <= last:
            yield from waiting
            yield row
            waiting.clear()
        elif row[2] == "rx":
            waiting.append(row)
        else:
            waiting.clear()


def rows_of(words: Words, packets: Packets, names: Sequence[str], places: Mapping[Kind, list[int]]) -> Iterator[Row]:
    """Returns the rows of a trace."""
    start = min(packets.times)
    arrivals = (
        (((time - start) * TICKS[words.unit] // SECOND), place, "rx", size)
        for time, kind, size in packets.in_order()
        for place in places[kind]
    )
    opened_at = ((0, place, "open", words.capacity) for place in range(1, len(names) + 1))
    rows = chain(opened_at, with_runs(arrivals, words.delay))
    return some_rows(rows, words.rows) if words.rows else rows


def text_of(
    words: Words, packets: Packets, names: Sequence[str], places: Mapping[Kind, list[int]]
) -> tuple[str | Iterator[str], int, list[str]]:
    """Returns the trace, or the lines of the arrivals; the number of its rows; and the notes on them."""
    front = "" if words.arrivals else ", with the packets that wait before them in front"
    some = [f"rows {words.rows[0]} to {words.rows[1]} alone{front}"] if words.rows else []
    if words.arrivals:
        check_devices(len(names))
        every = ((time, place, size, kind.flow) for time, kind, size in packets.in_order() for place in places[kind])
        rows = (row[: 3 + words.flows] for row in every)
        count = sum(count * len(places[kind]) for kind, count in packets.counted().items())
        return arrivals_text(rows, words.rows, words.flows), number_of(count, words.rows), some
    if len(names) > MOST_DEVICES:
        many = f"{len(names)} interfaces, and a trace has at most {MOST_DEVICES} devices"
        raise Refusal(f"{many}: name some by --to: {shown(', '.join(names))}")
    after = f"{words.delay} {words.unit} after the first packet that waits"
    some.append(f"softirq rows stand {after}; the capture has none")
    text = trace_text(rows_of(words, packets, names, places))
    return text, text.count("\n") - 1, some


def convert(words: Words) -> None:
    for end in ("notes", "csv"):
        check_target(f"{words.name}.{end}", words.force)
    check_input(words.capture)
    cut: list[str] = []
    try:
        packets, without = packets_in(words, cut)
        if not packets.times:
            raise Refusal("no packet arrives in it")
        names, notes, places = places_of(words, packets.counted(), without)
        text, rows, told = text_of(words, packets, names, places)
    except Refusal as error:
        raise Refusal(f"{shown(words.capture)}: {error}") from None
    notes += [*(f"no row: {what}, {count}" for what, count in sorted(without.items()) if count), *told, *cut]
    write_files(words, f"{len(names)} devices, {rows} rows", notes, csv=text)


def add_options(parser: Parser) -> None:
    parser.add_argument("capture", help="the capture, or tcpdump's text; - for standard input")
    parser.many("--to", "WHO", "a device: an interface, or a link address; may be given many times")
    what = f"count what arrives ({IN}), or also what goes out, as an arrival ({BOTH})"
    parser.add_argument("-Q", dest="way", choices=(IN, BOTH), default=IN, help=what)
    parser.flag("--one-device", "one device for all arriving packets")
    what = "with --arrivals: add a column with each packet's flow, for several queues (what-if --queues)"
    parser.flag("--flows", what)
    what = "the first N packets of the capture"
    parser.add_argument("-c", dest="count", type=number(1, 10**9), metavar="N", help=what)
    add_files(parser, "NAME.csv and NAME.notes")
    add_delay(parser)


def main(given: Sequence[str]) -> None:
    words = words_of(__doc__, add_options, given)
    check_flows(words)
    convert(words)
