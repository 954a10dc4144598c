"""What a recording of an emulated card shows: costs, arrivals at the card, and measured values."""

import struct
from collections.abc import Iterable, Iterator, Sequence
from math import sqrt
from pathlib import Path

import emulation
from fintaqush_tools import card_costs, predicting
from fintaqush_tools.commands import costs
from fintaqush_tools.fits import WIDE
from fintaqush_tools.instances import ANY
from fintaqush_tools.receiving import Receiving
from fintaqush_tools.recording import Head, check_lost, read

Frame = tuple[int, int]  # when it came to the card, by QEMU's virtual clock in ns, and its number
Measured = dict[str, float]

DEVICE = "eth0"
PORT = 9000
BEGAN = 1767225600 * 10**9  # 2026-01-01, at which the guest's clock begins
MOST_DRIFT = 1000  # ns, within a recording
# What is kept of a recording's head.
OF_DEVICE = ("driver", "ethtool.ring.rx", "ethtool.coalesce.rx-usecs", "ethtool.feature.large-receive-offload")
HEAD = ("kernel", "clock", *(f"device.{DEVICE}.{key}" for key in OF_DEVICE), "sysctl.net.core.gro_normal_batch")


def frames_in(path: Path) -> Iterator[Frame]:
    """Yields the test packets of a capture."""
    macs, udp, to = (bytes.fromhex(emulation.MAC.replace(":", "")), b"\xff" * 6), 17, PORT.to_bytes(2, "big")
    with open(path, "rb") as file:
        file.read(24)
        while len(front := file.read(16)) == 16:
            seconds, micros, have, _ = struct.unpack("<4I", front)
            data = file.read(have)
            is_own = len(data) >= 50 and data[:6] in macs and data[12:14] == b"\x08\x00"
            if is_own and data[23] == udp and data[36:38] == to:
                yield seconds * 10**9 + micros * 1000 - BEGAN, struct.unpack("<Q", data[42:50])[0]


def rows_in(path: Path) -> list[tuple[int, ...]]:
    return [tuple(map(int, line.split(","))) for line in path.read_text(encoding="ascii").splitlines()]


def ahead_of(stamps: list[tuple[int, ...]]) -> int:
    """Returns how far the virtual clock is ahead of CLOCK_MONOTONIC. Each stamp is a reading of the one between two of the other."""
    first, last = (min(part, key=lambda each: each[2] - each[0]) for part in (stamps[:3], stamps[3:]))
    ahead, later = ((each[0] + each[2]) // 2 - each[1] for each in (first, last))
    if abs(later - ahead) > MOST_DRIFT:
        raise emulation.Failed("the guest's clocks drift")
    return ahead


def known_median(waits: Sequence[float]) -> tuple[float, float]:
    """Returns between which of these sorted waits their median is, but for a chance of 5 %: 1.96 standard deviations of its rank to each side. Where
    there is a gap between waits, a few packets of thousands decide on which side the median is."""
    half, far = len(waits) / 2, WIDE / 2 * sqrt(len(waits))
    return waits[max(0, int(half - far))], waits[min(len(waits) - 1, int(half + far))]


class Seen:
    """What a recording shows, with the arrivals at the card."""

    def __init__(self, folder: Path, setting: emulation.Setting, frames: Iterable[Frame], cards: int = 1) -> None:
        self.path = folder / f"{setting.file}.rec"
        self.devices = [f"eth{number}" for number in range(cards)]
        self.receiving = Receiving(set(self.devices), {"card"})
        stamps = rows_in(folder / f"{setting.file}.stamps")
        self.add_arrivals(frames, stamps, {row[0] for row in rows_in(folder / f"{setting.file}.read")})
        lost: list[str] = []
        self.head: Head = read(str(self.path), lost, lambda _: [self.receiving])
        check_lost(lost)

    @property
    def interrupts(self) -> int:
        """Returns how many interrupts the cards raised."""
        return predicting.interrupts_of(self.receiving, self.head)

    def add_arrivals(self, frames: Iterable[Frame], stamps: list[tuple[int, ...]], read: set[int]) -> None:
        ahead = ahead_of(stamps)
        for time, number in sorted(frame for frame in frames if stamps[0][0] <= frame[0] <= stamps[-1][2]):
            self.receiving.append_packet(time - ahead, number in read, 0, "card", ANY)

    def arrivals(self) -> str:
        """Returns the arrivals. Each of several cards gets all packets."""
        times, devices = self.receiving.sent, range(1, len(self.devices) + 1)
        return predicting.arrivals_of((time for time in times for _ in devices), (device for _ in times for device in devices))

    def measured(self, packet: float) -> Measured:
        if len(self.devices) > 1:
            return self.counts()
        values = predicting.measured_of(self.receiving, self.head, packet=packet)
        pairs: list[tuple[str, Sequence[tuple[int, float]]]]
        pairs = [("delivered_p50", self.receiving.delivered(packet)), ("used_p50", self.receiving.used())]
        for name, some in pairs:
            if some:
                known = known_median(sorted(end - time for time, end in some))
                values |= {f"{name}_low": round(known[0]), f"{name}_high": round(known[1])}
        return {**values, "interrupts": self.interrupts}

    def counts(self) -> Measured:
        """Returns what is known of several cards."""
        values = predicting.measured_of(self.receiving, self.head)
        counts = {name: values[name] for name in ("polls", "runs", "squeezed", "timers")}
        return {"sent": len(self.devices) * values["sent"], **counts, "interrupts": self.interrupts}

    def costs(self) -> dict[str, int]:
        """Returns the costs by `fintaqush costs`, with the interrupt from the arrival at the card."""
        found = costs.object_in(str(self.path), self.devices)["costs"]
        values = {name.replace("_", "-"): cost["value"] for name, cost in found.items()}
        entries = self.receiving.entries[self.receiving.processor]
        if interrupt := card_costs.arrival_interrupt_cost(self.receiving.sent, entries):
            values["interrupt"] = round(interrupt.value)
        return values
