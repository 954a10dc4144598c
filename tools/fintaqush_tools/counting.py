"""The kernel's counters of received packets, without a trace: for top. Files may be missing, as in a container, or damaged: what can't be read isn't
in the result."""

from __future__ import annotations

import contextlib
import glob
import os
import re
import time
from collections import defaultdict
from collections.abc import Iterator
from typing import Any, NamedTuple

from fintaqush_tools.observed import COUNTED, PROCESSOR, output_of

ROOT = ""  # in front of /proc and /sys; tests have a folder there
MOST = 1 << 22  # bytes of a file
WHOLE = re.compile(r"[0-9]{1,19}", re.A)
HEX = re.compile(r"[0-9a-f]{1,16}", re.A)
STAT = ("user", "nice", "system", "idle", "iowait", "irq", "softirq", "stolen")  # columns of /proc/stat, in ticks
DROPS = ("rx_missed_errors", "rx_fifo_errors")  # of /sys/class/net/DEV/statistics: packets that found the ring full
RING = {
    *DROPS,
    "rx_no_buffer_count",
    "rx_out_of_buffer",
    "rx_no_dma_resources",
}  # the same, as drivers name them for ethtool -S
QUEUE = re.compile(r"(?:rx[_-]?(?:queue_)?(\d{1,4})[_.-]|queue_(\d{1,4})_rx_)(packets|cnt|drops|dropped|missed)", re.A)
WRAP = 1 << 32  # of counters with 32 bits

Place = tuple[str, Any]  # a processor with its number, a queue with its number, a device or a program with its name
Counts = dict[Place, dict[str, int]]
Rates = dict[Place, dict[str, float]]


class Seen(NamedTuple):
    """All counters at a time in ns."""

    time: int
    counts: Counts


def text_of(path: str) -> str:
    """Returns the contents of one of the kernel's files; an empty text if it can't be read."""
    with contextlib.suppress(OSError, ValueError), open(f"{ROOT}{path}", encoding="utf-8", errors="replace") as file:
        return file.read(MOST)
    return ""


def numbers_of(cells: list[str]) -> list[int]:
    """Returns cells as numbers, up to the first that isn't one."""
    count = next((place for place, cell in enumerate(cells) if not WHOLE.fullmatch(cell)), len(cells))
    return list(map(int, cells[:count]))


def of_softnet() -> Iterator[tuple[Place, str, int]]:
    """Yields what /proc/net/softnet_stat counts on each processor."""
    for place, line in enumerate(text_of("/proc/net/softnet_stat").splitlines()):
        columns = line.split()
        if len(columns) > 2 and all(map(HEX.fullmatch, columns)):
            processor = int(columns[PROCESSOR], 16) if len(columns) > PROCESSOR else place
            for name in ("processed", "dropped", "squeezed"):
                yield ("processor", processor), name, int(columns[COUNTED[name]], 16)


def by_processor(path: str) -> Iterator[tuple[str, dict[int, int], str]]:
    """Yields the rows of /proc/interrupts and /proc/softirqs: a name, the count of each processor, and the text after that."""
    head, *lines = text_of(path).splitlines() or [""]
    processors = [int(cell[3:]) for cell in head.split() if re.fullmatch("CPU[0-9]{1,5}", cell, re.A)]
    for line in lines:
        name, _, rest = line.partition(":")
        cells = rest.split()
        counts = numbers_of(cells[: len(processors)])
        if processors and len(counts) == len(processors):
            yield name.strip(), dict(zip(processors, counts)), " ".join(cells[len(processors) :])


def of_stat() -> Iterator[tuple[Place, str, int]]:
    """Yields the ticks of each processor: all, in softirqs, and those that a hypervisor took."""
    for line in text_of("/proc/stat").splitlines():
        name, *cells = line.split() or [""]
        ticks = numbers_of(cells[: len(STAT)])
        if re.fullmatch("cpu[0-9]{1,5}", name, re.A) and len(ticks) == len(STAT):
            yield from ((("processor", int(name[3:])), each, ticks[STAT.index(each)]) for each in ("softirq", "stolen"))
            yield ("processor", int(name[3:])), "ticks", sum(ticks)


def own_interrupts(device: str) -> set[str]:
    """Returns the numbers and names that a device's interrupts have, as far as sysfs shows them."""
    folder = os.path.realpath(f"{ROOT}/sys/class/net/{device}/device")
    found = {device, os.path.basename(folder)} if os.path.isdir(folder) else {device}
    for each in (folder, os.path.dirname(folder)):
        found |= {os.path.basename(path) for path in glob.glob(f"{glob.escape(each)}/msi_irqs/[0-9]*")}
    return found


def of_interrupts(device: str) -> Iterator[tuple[Place, str, int]]:
    """Yields a device's interrupts on each processor."""
    own = own_interrupts(device)
    for number, counts, text in by_processor("/proc/interrupts"):
        named = text.rpartition(" ")[2]
        if number in own or named in own or named.startswith(tuple(f"{each}-" for each in own)):
            yield from ((("processor", processor), "interrupts", count) for processor, count in counts.items())


def of_device(device: str) -> Iterator[tuple[Place, str, int]]:
    """Yields a device's packets and drops in sysfs and by ethtool -S, and the packets and drops of its queues."""
    for name in ("rx_packets", "rx_dropped", *DROPS):
        if found := numbers_of(text_of(f"/sys/class/net/{device}/statistics/{name}").split()):
            yield ("device", device), name, found[0]
    for line in output_of(["ethtool", "-S", device]).splitlines():
        name, _, value = line.strip().rpartition(": ")
        found = numbers_of([value])
        queue = QUEUE.fullmatch(name)
        if found and queue:
            what = "processed" if queue[3] in ("packets", "cnt") else "ring"
            yield ("queue", int(queue[1] or queue[2])), what, found[0]
        elif found and name in RING:
            yield ("device", device), f"ethtool.{name}", found[0]


def of_sockets() -> Iterator[tuple[Place, str, int]]:
    """Yields the datagrams that found a socket full."""
    lines = [line.split() for line in text_of("/proc/net/snmp").splitlines() if line.startswith("Udp:")]
    found: dict[str, str] = dict(zip(lines[0], lines[1])) if len(lines) > 1 else {}
    six = dict(line.split()[:2] for line in text_of("/proc/net/snmp6").splitlines() if len(line.split()) == 2)
    for value in numbers_of([found.get("RcvbufErrors", "-")]) + numbers_of([six.get("Udp6RcvbufErrors", "-")]):
        yield ("sockets", ""), "socket", value


def of_tasks(device: str, program: str) -> Iterator[tuple[Place, str, int]]:
    """Yields the times of ksoftirqd, of a device's NAPI threads and of a program, in ns, and how long the program waited for a processor."""
    for path in glob.glob(f"{glob.escape(ROOT)}/proc/[0-9]*/comm"):
        folder = os.path.dirname(path)[len(ROOT) :]
        name, pid = text_of(f"{folder}/comm").rstrip("\n"), os.path.basename(folder)
        ran = numbers_of(text_of(f"{folder}/schedstat").split())
        if ran and (found := re.fullmatch("ksoftirqd/([0-9]{1,5})", name, re.A)):
            yield ("processor", int(found[1])), "ksoftirqd_ns", ran[0]
        elif ran and device and name.startswith(f"napi/{device}-"[:15]):
            yield ("device", device), "threads_ns", ran[0]
        if program and program in (name, pid):
            for task in glob.glob(f"{glob.escape(ROOT)}{folder}/task/[0-9]*/schedstat"):
                times = numbers_of(text_of(task[len(ROOT) :]).split())
                if len(times) > 1:
                    yield ("program", program), "ran_ns", times[0]
                    yield ("program", program), "waited_ns", times[1]


def look(device: str = "", program: str = "") -> Seen:
    """Reads all counters."""
    counts: Counts = defaultdict(lambda: defaultdict(int))
    readers = [of_softnet(), of_stat(), of_sockets(), of_tasks(device, program)]
    readers += [of_device(device), of_interrupts(device)] if device else []
    now = time.monotonic_ns()
    for reader in readers:
        for place, name, value in reader:
            counts[place][name] += value
    for name, each, _ in by_processor("/proc/softirqs"):
        for processor, count in each.items() if name == "NET_RX" else ():
            counts["processor", processor]["runs"] = count
    return Seen(now, counts)


def rise(old: int, new: int) -> int | None:
    """Returns by how much a counter rose; None if it was set back. One of 32 bits may have wrapped."""
    if new >= old:
        return new - old
    return new - old + WRAP if old < WRAP and old - new > WRAP // 2 else None


def rates(before: Seen, after: Seen) -> Rates:
    """Returns the counts per second, and of times the share in %."""
    seconds = max(1, after.time - before.time) / 10**9
    found: Rates = {}
    for place, counts in sorted(after.counts.items(), key=str):
        old = before.counts.get(place, {})
        rises = {name: rise(old[name], new) for name, new in counts.items() if name in old}
        known = {name: each for name, each in rises.items() if each is not None}
        ticks = known.pop("ticks", 0)
        own = found.setdefault(place, {})
        for name, each in known.items():
            if name.endswith("_ns"):
                own[f"{name[:-3]}_percent"] = each / seconds / 10**7
            elif name in STAT:
                own.update({f"{name}_percent": 100 * each / ticks} if ticks else {})
            else:
                own[name] = each / seconds
        if "interrupts" in own and own.get("processed"):
            own["interrupts_per_packet"] = own["interrupts"] / own["processed"]
        if drops := [rate for name, rate in own.items() if name.rpartition(".")[2] in RING]:
            own["ring"] = max(drops)  # which drivers count under several names
    return found
