"""Arrivals, as napi_machine reads them: any number of packets, each with its time in ns, its device and its size."""

from __future__ import annotations

from array import array
from collections.abc import Iterable, Iterator
from itertools import islice
from operator import le
from typing import Any, Optional

from fintaqush_tools.errors import Refusal
from fintaqush_tools.files import kind_of
from fintaqush_tools.texts import shown

HEADER = "ns,device,bytes\n"
HEADER_WITH_FLOWS = "ns,device,bytes,flow\n"
SECOND = 10**9  # nanoseconds, which the time stamps here are
MOST_DEVICES = 64 * 64  # 64 devices on each of 64 processors


class Packets:
    """Packets in compact arrays: the time of each, the number of its kind, and its size."""

    def __init__(self) -> None:
        self.times, self.kinds, self.sizes = array("Q"), array("L"), array("H")
        self.numbers: dict[Any, int] = {}

    def add(self, time: int, kind: Any, size: int) -> None:
        self.times.append(time)
        self.kinds.append(self.numbers.setdefault(kind, len(self.numbers)))
        self.sizes.append(size)

    def counted(self) -> dict[Any, int]:
        """Returns how many packets of each kind there are."""
        counts = [0] * len(self.numbers)
        for kind in self.kinds:
            counts[kind] += 1
        return dict(zip(self.numbers, counts))

    def in_order(self) -> Iterator[tuple[int, Any, int]]:
        """Returns time, kind and size of each packet, sorted by time."""
        is_sorted = all(map(le, self.times, islice(self.times, 1, None)))
        places = range(len(self.times)) if is_sorted else sorted(range(len(self.times)), key=self.times.__getitem__)
        names = list(self.numbers)
        return ((self.times[place], names[self.kinds[place]], self.sizes[place]) for place in places)


def check_header(path: str, status: int = 1) -> None:
    """Fails with this exit status if a file doesn't begin as arrivals do."""
    with open(path, "rb") as file:
        begin = file.readline(1000)
    if not begin.startswith(HEADER.strip().encode()) and (kind_of(begin) or b"device" not in begin):
        what = kind_of(begin) or "not arrivals"
        made = "arrivals are made by --arrivals of from-pcap, from-ftrace or traffic"
        raise Refusal(f"{shown(path)}: {what}; {made}", status)


def check_devices(count: int) -> None:
    if count > MOST_DEVICES:
        raise Refusal(f"{count} devices, and arrivals have at most {MOST_DEVICES}")


def seconds(whole: str, fraction: str) -> int:
    """Converts a timestamp with up to nine digits after the decimal point to ns."""
    return int(whole) * SECOND + int(fraction.ljust(9, "0"))


Span = Optional[tuple[int, int]]  # the first and the last of some rows


def arrivals_text(rows: Iterable[tuple[int, ...]], span: Span = None, with_flows: bool = False) -> Iterator[str]:
    """Formats rows (time, device, size) or (time, device, size, flow) as lines, only those of the span if one is given; times begin at 0."""
    yield HEADER_WITH_FLOWS if with_flows else HEADER
    start = None
    for time, *others in islice(rows, span[0] - 1, span[1]) if span else rows:
        start = time if start is None else start
        yield f"{time - start},{','.join(map(str, others))}\n"


def number_of(rows: int, span: tuple[int, int] | None) -> int:
    """Returns how many of `rows` rows are in a span."""
    return len(range(rows)[span[0] - 1 : span[1]]) if span else rows
