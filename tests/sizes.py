#!/usr/bin/env python3
"""sizes.py FOLDER: runs each program in FOLDER/NAME/out on inputs of all sizes, with all the memory that it needs: none fails, and its
report has the counts of the input. The sizes are the powers of two and the numbers next to them, up to the limits: 100,000 rows,
rings of capacity 65,536, 16 devices, 8 pollers. Address space is limited to twice what the greatest of these inputs needed. The last
line is `N passed, M failed`."""

from __future__ import annotations

import os
import resource
import subprocess
import sys
import time
from collections import Counter, defaultdict
from collections.abc import Callable, Iterator, Sequence

from judging import Judged, judge

MOST_ROWS, MOST_PLACES, MOST_DEVICES, MOST_POLLERS = 100000, 65536, 16, 8
# MiB of address space: twice what the greatest input needed (14, 37 and 95; 14 and 26 in serial and shared mode; 328 with 40 threads, each
# of which has a stack of 8). malloc has one arena, because each further one takes 64 MiB of addresses that nothing uses.
MEMORY = {"napi_serial": 28, "napi_series": 74, "napi_machine": 190, "napi_replay serial": 28, "napi_replay shared": 52, "napi_replay threads": 656}
ENVIRONMENT = {**os.environ, "MALLOC_ARENA_MAX": "1"}
HEADER = b"moment,device,event,value\n"
QUOTED = b'"moment",device,event,value\n'  # the same record; the rows after it are read record by record
Replay = tuple[str, list[str]]  # a program and its options
REPLAYS: list[Replay] = [("napi_serial", []), ("napi_replay", ["--mode", "shared"]), ("napi_replay", ["--mode", "threads"]), ("napi_series", []),
                         ("napi_replay", ["--mode", "serial"])]

took: defaultdict[str, float] = defaultdict(float)  # seconds, of each program in each mode


def sizes(most: int) -> list[int]:
    """The powers of two, the numbers next to them, and the two greatest."""
    near = {(1 << power) + beside for power in range(18) for beside in (-1, 0, 1)} | {most - 1, most}
    return sorted(size for size in near if 1 <= size <= most)


def run(program: str, words: Sequence[str], text: bytes) -> list[str]:
    """The lines that a program prints; a message on standard error raises an exception."""
    begun = time.monotonic()
    most = MEMORY[" ".join([program, *words[1:2]]) if program == "napi_replay" else program] << 20
    done = subprocess.run([f"{sys.argv[1]}/{program}/out/{program}", *words], input=text, capture_output=True, check=False, timeout=3600,
                          env=ENVIRONMENT, preexec_fn=lambda: resource.setrlimit(resource.RLIMIT_AS, (most, most)))
    took[" ".join([program, *words[:2]])] += time.monotonic() - begun
    if (done.returncode, done.stderr) != (0, b""):
        raise ValueError(f"status {done.returncode}, {done.stderr[:200]!r}")
    return done.stdout.decode().splitlines()


class Trace:
    """Rows as they are given, and what they count."""

    def __init__(self) -> None:
        self.rows: list[str] = []
        self.arrived: Counter[int] = Counter()
        self.bytes: Counter[int] = Counter()
        self.sent: Counter[int] = Counter()
        self.last: dict[int, int] = {}  # the row of each device's last packet
        self.runs = 0

    def add(self, device: int, event: str, value: int, times: int = 1) -> None:
        """Adds a row, this many times."""
        self.rows += [f"{len(self.rows)},{device},{event},{value}\n"] * times
        if event == "rx":
            self.arrived[device] += times
            self.bytes[device] += times * value
            self.last[device] = len(self.rows)
        self.sent[device] += times * (event == "tx")
        self.runs += times * (event == "softirq")

    def text(self, header: bytes = HEADER) -> bytes:
        return header + "".join(self.rows).encode()

    def devices(self) -> int:
        return sum(",open," in row for row in self.rows)


def expect(seen: object, wanted: object, what: str) -> None:
    if seen != wanted:
        raise ValueError(f"{what}: {seen}, and the input has {wanted}")


def check_report(trace: Trace, lines: list[str], is_threads: bool, dropped: dict[int, int]) -> None:
    """Compares the counts of a report with those of the rows."""
    of = {int(line.split()[1]): line for line in lines if line.startswith("device ")}
    expect(len(of), trace.devices(), "lines of devices")
    for device, line in of.items():
        words = line.split()
        if is_threads:
            expect(line, f"device {device} arrived {trace.arrived[device]} bytes {trace.bytes[device]}", "device")
        else:
            told = dict(zip(words[3::2], map(int, words[4::2])))
            expect((told["arrived"], told["dropped"]), (trace.arrived[device], dropped.get(device, 0)), f"arrived and dropped of device {device}")
            expect(told["polled"] + told["left"], told["arrived"] - told["dropped"], f"polled and left of device {device}")
    of_tx = {int(line.split()[1]): line.split() for line in lines if line.startswith("tx ")}
    expect({device: int(words[3]) + int(words[5]) for device, words in of_tx.items() if trace.sent[device]},
           {device: count for device, count in trace.sent.items() if count}, "tx rows by sent and denied")
    words = lines[-1].split()
    expect(words[:3], ["total", "devices", str(trace.devices())], "total")
    if not is_threads:
        expect(int(words[4]), trace.runs, "runs")
        expect(sum(line.startswith("softirq ") for line in lines), trace.runs, "lines of runs")


def check_series(trace: Trace, lines: list[str], dropped: dict[int, int]) -> None:
    """Checks that there is a line for each row, with the counts of each device in the line of its last packet."""
    expect(len(lines), 1 + len(trace.rows), "lines")
    expect(lines[-1].split(",")[0], str(len(trace.rows)), "the last row")
    for device, row in trace.last.items():
        expect(lines[row].split(",")[5:7], [str(trace.arrived[device]), str(dropped.get(device, 0))], f"arrived and dropped of device {device}")


def tried(call: Callable[[], None]) -> Iterator[str]:
    """Yields the error of a check that has one."""
    try:
        call()
    except (ValueError, IndexError, KeyError, OSError, subprocess.TimeoutExpired) as error:
        yield str(error)[:300]


def try_trace(name: str, trace: Trace, dropped: dict[int, int] | None = None, programs: Sequence[Replay] = tuple(REPLAYS), pollers: int = 1,
              header: bytes = HEADER) -> Iterator[Judged]:
    """Tries the trace with each program and in each mode."""
    text = trace.text(header)
    for program, words in programs:
        is_threads = "threads" in words
        options = [*words, *(["--pollers", str(pollers)] if is_threads else [])]

        def check() -> None:
            lines = run(program, options, text)
            if program == "napi_series":
                check_series(trace, lines, dropped or {})
            else:
                check_report(trace, lines, is_threads, dropped or {})

        yield f"{name}, {' '.join([program, *words])}", tried(check)


def try_rings() -> Iterator[Judged]:
    """Rings of each size that just hold what arrives, polled by the device's own thread or from the list; and one more packet,
    which is dropped."""
    for number, places in enumerate(sizes(MOST_PLACES)):
        trace = Trace()
        trace.add(1, "open", places)
        if number % 2:
            trace.add(1, "threaded", 1)
        trace.add(1, "rx", 60, places)
        trace.add(1, "tx", 1500)
        trace.add(0, "softirq", 0)
        trace.add(1, "kthread", 0)
        yield from try_trace(f"a ring of {places} places", trace)
        if number % 4 == 0:
            trace.rows.pop()
            trace.rows.pop()
            trace.runs = 0
            trace.add(1, "rx", 60)
            yield from try_trace(f"a ring of {places} places and a packet more", trace, {1: 1}, programs=[REPLAYS[number // 4 % 2], REPLAYS[3]])


def rows_of(count: int, devices: int) -> Trace:
    """A trace of this many rows at this many devices: each is opened, gets packets and sends, and every hundredth row is a run."""
    trace = Trace()
    devices = min(devices, count)
    for device in range(1, devices + 1):
        trace.add(device, "open", MOST_PLACES)
    for row in range(devices, count):
        device = 1 + row % devices
        if row % 100 == 99:
            trace.add(0, "softirq", 0)
        elif row % 3:
            trace.add(device, "rx", 1 + row % 65535)
        else:
            trace.add(device, "tx", 1 + row % 65535)
    return trace


def try_rows() -> Iterator[Judged]:
    """Traces of each length, at one device and more, up to the maximum."""
    for number, count in enumerate(sizes(MOST_ROWS)):
        devices = MOST_DEVICES if count >= MOST_ROWS else 1 + number % MOST_DEVICES
        trace = rows_of(count, devices)
        expect(len(trace.rows), count, "rows")
        yield from try_trace(f"{count} rows at {devices} devices", trace, pollers=1 + number % MOST_POLLERS)
    trace = rows_of(MOST_ROWS, 1)
    if trace.arrived[1] <= MOST_PLACES:
        raise ValueError("this trace is to have more packets than a ring has places")
    yield from try_trace(f"{MOST_ROWS} rows at one device", trace, programs=REPLAYS[:2] + REPLAYS[3:])
    for count in (1, 1000, MOST_ROWS):
        yield from try_trace(f"{count} rows after a header in quotes", rows_of(count, MOST_DEVICES), header=QUOTED)


def try_threads() -> Iterator[Judged]:
    """Each number of devices with each number of pollers, half of the devices with their own threads, and finally all."""
    for devices in range(1, MOST_DEVICES + 1):
        for pollers in range(1, MOST_POLLERS + 1):
            trace = Trace()
            for device in range(1, devices + 1):
                trace.add(device, "open", 4)
                if (device + pollers) % 2 or devices == MOST_DEVICES and pollers == MOST_POLLERS:
                    trace.add(device, "threaded", 1)
                trace.add(device, "rx", 60, 4)
            yield from try_trace(f"{devices} devices and {pollers} pollers", trace, pollers=pollers, programs=REPLAYS[2:3])


def check_machine(count: int, devices: int, words: list[str]) -> None:
    """Checks the report of so many arrivals at so many devices."""
    of = Counter(1 + place % devices for place in range(count))
    rows = "".join(f"{1000 * place},{1 + place % devices},60\n" for place in range(count))
    lines = run("napi_machine", words, b"ns,device,bytes\n" + rows.encode())
    fields = [line.split() for line in lines if line.startswith("device ")]
    told = {int(words[1]): dict(zip(words[2::2], map(int, words[3::2]))) for words in fields}
    expect({device: each["arrived"] for device, each in told.items()}, dict(of), "arrived")
    total = dict(zip(lines[-1].split()[1::2], map(int, lines[-1].split()[2::2])))
    expect((total["devices"], total["arrived"]), (len(of), count), "devices and packets")
    expect(total["dropped"] + total["polled"], count, "dropped and polled")
    expect(total["refused"] + total["used"], total["polled"], "refused and used")


def try_machine() -> Iterator[Judged]:
    """Each number of arrivals, on one processor and more; and once each greatest number of devices, processors and queues."""
    cases: list[tuple[int, int, int, list[str]]] = [(count, 1 + number % 64, 1, []) for number, count in enumerate(sizes(MOST_ROWS))]
    cases += [(4096, 64 * processors, processors, []) for processors in (1, 2, 16, 63, 64)]
    cases += [(2000, 64, 1, ["--ring", str(places)]) for places in (1, 4096, 65535, 65536)]
    for count, devices, processors, words in cases:
        options = ["--processors", str(processors), *words]
        what = f"{count} arrivals at {devices} devices on {processors} processors {' '.join(words)}"
        yield what, tried(lambda: check_machine(count, devices, options))


def checks() -> Iterator[Judged]:
    for each in (try_rings(), try_rows(), try_threads(), try_machine()):
        yield from each
    print(", ".join(f"{name}: {seconds:.1f} s" for name, seconds in took.items()))


if __name__ == "__main__":
    sys.exit(judge(checks()))
