#!/usr/bin/env python3
"""Plays traces by napi_serial and by Linux's own functions, and compares the reports. A raised trace gets its runs from napi_series, and
there from net_rx_action, which raises the softirq again.

usage: compare.py PROGRAM SERIES KERNEL [--traces N] [--small ROWS] [--seed N] [--stop]

PROGRAM is napi_serial, SERIES napi_series, KERNEL what kernel.sh has built. It prints how many traces were compared, and how often each mapping of
profile and kernel made a difference; of reports that differ, the smallest trace that shows it. Status 1 where one differs. With
--stop it ends at the first one.
"""

from __future__ import annotations

import argparse
import csv
import io
import itertools
import multiprocessing
import pathlib
import random
import re
import signal
import subprocess
import sys
from collections.abc import Iterator, Sequence

TOP = pathlib.Path(__file__).resolve().parent.parent.parent
sys.path[:0] = [str(TOP / "bench"), str(TOP / "tests")]
import random_trace
import runs

Row = tuple[int, int, str, int]  # moment, device, event, value
LOOPS = "the kernel's side loops: no report after 5 s of processor time\n"
HEADER = "moment,device,event,value"
MAPPINGS = ["set threaded: the profile writes THREADED in any state", "repoll behind busy polling: the profile's goes to the list",
            "window: a poll takes one jiffy", "moments: whole numbers, not jiffies that wrap",
            "threaded off: the profile clears THREADED at once, a kernel that stops threads waits for the instance"]
SMALL = ["1,rx,1", "1,rx,2", "1,tx,5", "1,done,1", "0,softirq,0", "1,kthread,0", "1,disable,0", "1,enable,0", "1,threaded,1",
         "1,threaded,0", "1,busy,1", "2,rx,1", "2,disable,0"]
SETTINGS = [(300, 64, 1024), (1, 64, 1024), (64, 1, 1024), (7, 63, 2), (2, 2, 1), (65, 8, 5)]
FAR = [0, 2 ** 63, 2 ** 64 - 1400]  # where the moments of some traces lie


class Trace:
    """Rows as (moment, device, event, value), with the version and the settings (budget, weight, window). With `restarts`, each run that is
    followed by no other at the same time is made again at most so often while the softirq is raised."""

    def __init__(self, name: str, version: int, rows: list[Row], settings: Sequence[int], restarts: int = 0) -> None:
        self.name, self.version, self.rows, self.settings, self.restarts = name, version, rows, settings, restarts

    def text(self) -> str:
        lines = [HEADER + (",2" if self.version == 2 else "")] + ["%d,%d,%s,%d" % row for row in self.rows]
        return "\n".join(lines) + "\n"

    def words(self) -> list[str]:
        return ["--budget=%d" % self.settings[0], "--weight=%d" % self.settings[1], "--window=%d" % self.settings[2]]

    def for_kernel(self) -> str:
        head = "%d %d %d %d %d\n" % (self.version, *self.settings, len(self.rows))
        return head + "".join("%d %d %s %d\n" % (*row[:3], self.restarts if self.is_raised(at) else row[3]) for at, row in enumerate(self.rows))

    def is_raised(self, at: int) -> bool:
        """Whether the row at this index is a run that may be made again."""
        moment, _, event, _ = self.rows[at]
        return event == "softirq" and [(row[0], row[2]) for row in self.rows[at + 1:at + 2]] != [(moment, event)]

    def cut(self, rows: list[Row]) -> Trace:
        return Trace(self.name, self.version, rows, self.settings, self.restarts)


def trace_of(name: str, text: str, settings: Sequence[int]) -> Trace | None:
    """The trace of a text, up to its first record that isn't a row; None if its first record isn't a header."""
    records = [record for record in csv.reader(io.StringIO(text.lstrip("\ufeff"))) if record]
    if not records or ",".join(records[0]) not in (HEADER, HEADER + ",2"):
        return None
    rows = []
    for record in records[1:]:
        if len(record) != 4 or not all(re.fullmatch("[0-9]{1,20}", record[at]) for at in (0, 1, 3)):
            break
        rows.append((int(record[0]), int(record[1]), record[2], int(record[3])))
    return Trace(name, len(records[0]) - 3, rows, settings)


# ---- the traces

def random_traces(count: int, seed: int) -> Iterator[Trace]:
    for number in range(seed, seed + count):
        trace = trace_of("random trace %d" % number, random_trace.Trace(number, 1 + number % 2).text(), SETTINGS[number // 2 % 6])
        if trace:
            if number % 5 == 0:
                trace = trace.cut(far_moments(trace.rows, random.Random(number)))
            yield trace


def raised_traces(count: int, seed: int) -> Iterator[Trace]:
    """Random traces, and the examples, with added runs: until the list is empty, or a few."""
    for number, trace in enumerate(itertools.chain(worked_traces(), random_traces(count, seed + 10 ** 6))):
        yield Trace("raised " + trace.name, trace.version, trace.rows, trace.settings, (99999, 1, 99999, 3)[number % 4])


def far_moments(rows: list[Row], dice: random.Random) -> list[Row]:
    """The rows with times that are far apart: a tenth of them are moved, and those after them follow."""
    moved: list[Row] = []
    far = 0
    for moment, device, event, value in rows:
        if dice.random() < 0.1:
            far = dice.choice(FAR)
        moved.append((min(far + moment, 2 ** 64 - 1), device, event, value))
    return moved


def queue_traces(count: int, seed: int) -> Iterator[Trace]:
    """Sends and completions of one queue, whose ring holds some packets, at times near and far."""
    for number in range(seed, seed + count):
        dice = random.Random(number)
        rows, moment = [(0, 1, "open", dice.choice([8, 64]))], 0
        for _ in range(dice.choice([50, 400])):
            moment = max(0, moment + dice.choice([0, 1, 2, 300, 1100, -3]))
            rows.append((moment, 1, "tx", dice.choice([1, 60, 1500, 9000])) if dice.random() < 0.6 else (moment, 1, "done", dice.choice([0, 1, 1, 2, 3])))
        yield Trace("queue trace %d" % number, 1, far_moments(rows, dice) if number % 2 else rows, SETTINGS[0])


def small_traces(most: int) -> Iterator[Trace]:
    """All lists of up to this many of SMALL, after two opened devices of capacity two, with two settings."""
    opened = [(0, 1, "open", 2), (0, 2, "open", 2)]
    for length in range(1, most + 1):
        for chosen in itertools.product(SMALL, repeat=length):
            rows = [(1000 * (at + 1), int(device), event, int(value)) for at, (device, event, value) in enumerate(row.split(",") for row in chosen)]
            if comes_in_turn(rows):
                for settings in ((300, 64, 1024), (2, 1, 2)):
                    yield Trace("small trace", 2, opened + rows, settings)


def comes_in_turn(rows: list[Row]) -> bool:
    """Whether each disable is of an enabled device, and each enable of a disabled one."""
    off: set[int] = set()
    for _, device, event, _ in rows:
        if event in ("disable", "enable") and (device in off) != (event == "enable"):
            return False
        if event == "disable":
            off.add(device)
        elif event == "enable":
            off.discard(device)
    return True


def worked_traces() -> Iterator[Trace]:
    """The runs of runs.txt whose options are only a run's numbers, and the examples, with two settings."""
    for name, words, text in runs.runs():
        keys = re.findall(r"--(\w+)=", "=".join(words))
        if all(words) and len(keys) == len(set(keys)) and re.fullmatch(r"(=?--(budget|weight|window)=\d{1,5})*", "=".join(words)):
            given = dict(budget=300, weight=64, window=1024) | {key: int(value) for key, value in re.findall(r"--(\w+)=(\d+)", "=".join(words))}
            trace = trace_of(name, text.decode(errors="surrogateescape"), tuple(given.values()))
            if trace and 1 <= given["weight"] <= 64 and all(1 <= value <= 65535 for value in given.values()):
                yield trace
    for path in sorted((TOP / "examples").glob("*.csv")):
        for settings in ((300, 64, 1024), (16, 8, 2)):
            example = trace_of(path.name, path.read_text(), settings)
            assert example is not None
            yield example


# ---- both sides

class Sides:
    """The program, one process per trace, or two if it is raised, and the kernel's functions, one process for all."""

    def __init__(self, program: str, series: str, kernel: str) -> None:
        self.program, self.series, self.kernel = program, series, kernel
        self.server: subprocess.Popen[str] | None = None

    def ours(self, trace: Trace) -> tuple[int, str]:
        text = trace.text().encode()
        if trace.restarts:
            run = subprocess.run([self.series, "--raise=%d" % trace.restarts, "--rows"] + trace.words(), input=text, capture_output=True)
            if run.returncode != 0:
                return run.returncode, run.stderr.decode()
            text = run.stdout
        run = subprocess.run([self.program] + trace.words(), input=text, capture_output=True)
        return run.returncode, (run.stdout if run.returncode == 0 else run.stderr).decode()

    def kernels(self, trace: Trace) -> tuple[str, list[int]]:
        """The report, and how often each mapping made a difference; or the message with which it ended."""
        if self.server is None:
            self.server = subprocess.Popen([self.kernel], text=True, stdin=subprocess.PIPE, stdout=subprocess.PIPE, stderr=subprocess.STDOUT)
        assert self.server.stdin and self.server.stdout
        lines: list[str] = []
        try:
            self.server.stdin.write(trace.for_kernel())
            self.server.stdin.flush()
        except BrokenPipeError:
            pass
        for line in self.server.stdout:
            if line.startswith("end "):
                return "".join(lines), [int(word) for word in line.split()[1:]]
            lines.append(line)
        status, self.server = self.server.wait(), None
        if status == -signal.SIGVTALRM:
            return LOOPS, [0] * len(MAPPINGS)
        return "".join(lines) + "the kernel's side ended with status %d\n" % status, [0] * len(MAPPINGS)

    def compare(self, trace: Trace) -> tuple[Trace, str, str, list[int]]:
        """The trace up to its first invalid row, with both reports and the mappings."""
        status, ours = self.ours(trace)
        fault = re.fullmatch(r"trace fault (?!12 )\d+ \w+ row (\d+)\n", ours)
        if status == 2 and fault:
            trace = trace.cut(trace.rows[:int(fault[1]) - 1])
            status, ours = self.ours(trace)
        kernels, mapped = self.kernels(trace)
        return trace, ours, kernels, mapped

    def differs(self, trace: Trace) -> bool:
        _, ours, kernels, _ = self.compare(trace)
        return ours != kernels

    def smallest(self, trace: Trace) -> Trace:
        """The first rows that show the difference, without each row, or series of rows, that it doesn't need; with at most this
        many tries."""
        tries, low, high = 1500, 0, len(trace.rows)
        while low < high:
            middle = (low + high) // 2
            low, high = (low, middle) if self.differs(trace.cut(trace.rows[:middle])) else (middle + 1, high)
        trace = trace.cut(trace.rows[:high])
        size = len(trace.rows)
        while size and tries:
            at = 0
            while at < len(trace.rows) and tries:
                less, tries = trace.cut(trace.rows[:at] + trace.rows[at + size:]), tries - 1
                if self.differs(less):
                    trace = less
                else:
                    at += size
            size //= 2
        return trace


SIDES: Sides  # of this process, and of those that it forks


def shown(trace: Trace, sides: Sides) -> str:
    if sides.compare(trace)[2] == LOOPS:
        return "%s: %s" % (trace.name, LOOPS)
    trace, ours, kernels, _ = sides.compare(sides.smallest(trace))
    return "%s differs; its smallest trace, with %s:\n%s-- napi_serial:\n%s-- the kernel:\n%s" % (
        trace.name, " ".join(trace.words() + ["--raise=%d" % trace.restarts] * bool(trace.restarts)), trace.text(), ours, kernels)


def compare_some(traces: list[Trace]) -> tuple[int, int, list[int], str | None]:
    """How many traces, how many of their rows, the mappings, and the first difference."""
    rows, mapped, difference = 0, [0] * len(MAPPINGS), None
    for trace in traces:
        trace, ours, kernels, counts = SIDES.compare(trace)
        rows += len(trace.rows)
        mapped = [a + b for a, b in zip(mapped, counts)]
        if ours != kernels:
            difference = shown(trace, SIDES)
            break
    return len(traces), rows, mapped, difference


def batches(traces: Iterator[Trace], size: int) -> Iterator[list[Trace]]:
    while batch := list(itertools.islice(traces, size)):
        yield batch


def main() -> int:
    global SIDES
    words = argparse.ArgumentParser(usage=__doc__)
    for name in ("program", "series", "kernel"):
        words.add_argument(name)
    for name, usual in (("traces", 5000), ("small", 4), ("seed", 1)):
        words.add_argument(f"--{name}", type=int, default=usual)
    words.add_argument("--stop", action="store_true")
    given = words.parse_args()
    SIDES = Sides(given.program, given.series, given.kernel)
    kinds = [("worked traces and examples", worked_traces()), ("small traces", small_traces(given.small)),
             ("random traces", random_traces(given.traces, given.seed)),
             ("random traces of a queue", queue_traces(-(-given.traces // 10), given.seed)),
             ("raised traces", raised_traces(-(-given.traces // 5), given.seed))]
    differences, all_mapped = [], [0] * len(MAPPINGS)
    with multiprocessing.get_context("fork").Pool(4) as pool:
        for kind, traces in kinds:
            count, rows = 0, 0
            for some, some_rows, mapped, difference in pool.imap_unordered(compare_some, batches(traces, 40)):
                count, rows = count + some, rows + some_rows
                all_mapped = [a + b for a, b in zip(all_mapped, mapped)]
                if difference:
                    differences.append(difference)
                    if given.stop:
                        break
            print("%d %s of %d rows" % (count, kind, rows))
            if differences and given.stop:
                break
    for mapping, count in zip(MAPPINGS, all_mapped):
        print("mapped %d times: %s" % (count, mapping))
    if differences:
        print(min(differences, key=len), end="")
    return 1 if differences else 0


if __name__ == "__main__":
    sys.exit(main())
