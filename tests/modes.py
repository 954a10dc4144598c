#!/usr/bin/env python3
"""modes.py PROGRAM SERIAL WORKERS MODES: compares the three modes of the replay with one another, and measures the processor time of
runs that wait, WORKERS (benches) among them, and of one that is made to spin. The last line is `N passed, M failed`.

Serial mode is the reference for shared mode, on the runs of runs.txt, the examples, and, by MODES (mode_tests), small and random
traces; and for SERIAL, which has only serial mode, on the runs and on random traces. For a trace that is cut off anywhere, the rules
of docs/FORMATS.md, implemented here again, say whether it has an error, and which. And a trace is read in each way in which its
records may be written."""

from __future__ import annotations

import os
import pathlib
import re
import subprocess
import sys
import tempfile
import time
from collections.abc import Callable, Iterator
from typing import IO

from events import events_of
from judging import Judged, judge
from runs import runs

sys.path.append(os.path.join(os.path.dirname(os.path.abspath(__file__)), "../bench"))
from random_trace import Trace  # noqa: E402

PROGRAM, SERIAL, WORKERS, MODES = sys.argv[1:]
RANGES = events_of(1)
# Six devices, each event, both ways of polling, a disable that waits and one that doesn't.
SIX_DEVICES = "\n".join(
    ["moment,device,event,value"]
    + ["0,%d,open,%d" % (device, 64 * device) for device in range(1, 7)]
    + ["1,2,threaded,1", "1,1,rx,100", "1,2,rx,60", "2,3,rx,1500", "2,3,tx,1500", "3,0,softirq,0", "4,2,kthread,0"]
    + ["5,4,rx,65535", "6,4,disable,0", "7,0,softirq,0", "8,5,disable,0", "9,5,rx,1", "10,5,enable,0", "11,3,done,1"]
    + ["12,6,rx,%d" % size for size in (1, 2, 3)]
    + ["13,0,softirq,0", "14,4,enable,0", "15,4,rx,9", "16,0,softirq,0", ""]
)
ONE_PACKET = "moment,device,event,value\n0,1,open,4\n1,1,rx,100\n"
# The result for a trace that ends like this.
NAMED_CUTS = [
    (ONE_PACKET + "2,0,softi", "trace fault 2 BadFields row 3"),
    (ONE_PACKET + "2,0", "trace fault 2 BadFields row 3"),
    (ONE_PACKET + "2,0,softirq,", "trace fault 3 BadNumber row 3"),
    ("moment,dev", "trace fault 1 BadHeader row 0"),
    (ONE_PACKET + "2,0,softi,0\n", "trace fault 4 BadEvent row 3"),
]

# One trace, written in each way that docs/FORMATS.md allows.
WRITTEN = [
    b"moment,device,event,value\n0,1,open,4\n1,1,rx,100\n2,0,softirq,0\n",
    b"moment,device,event,value\n0,1,open,4\n1,1,rx,100\n2,0,softirq,0",
    b"moment,device,event,value\r0,1,open,4\r1,1,rx,100\r2,0,softirq,0\r",
    b"moment,device,event,value\r\n0,1,open,4\r\n1,1,rx,100\r\n2,0,softirq,0\r\n",
    b"\xef\xbb\xbfmoment,device,event,value\n0,1,open,4\n1,1,rx,100\n2,0,softirq,0\n",
    b"\n\nmoment,device,event,value\n\n\r\n0,1,open,4\n1,1,rx,100\n\n2,0,softirq,0\n\n",
    b'"moment",device,"event",value\n"0",1,open,004\n1,"01","rx",100\n2,0,softirq,"0"\n',
]
# Rows that aren't records, with their errors. A doubled quote, a comma and a line feed between quotes are part of the field; a quote
# that is never closed extends to the end; a second byte-order mark is part of the first field; an event has the letters of ASCII.
ODD_ROWS = [
    (b'0,1,"rx""",5\n', "4 BadEvent"), (b'0,1,"r,x",5\n', "4 BadEvent"), (b'0,1,"rx\n",5\n', "4 BadEvent"),
    (b'"""0",1,rx,5\n', "3 BadNumber"), (b'0,1,"open,4\n1,1,rx,5\n', "2 BadFields"), (b"\xef\xbb\xbf0,1,open,4\n", "3 BadNumber"),
    ("0,1,\uff4fpen,4\n".encode(), "4 BadEvent"), (b"0,1,\xff,4\n", "4 BadEvent"), (b"0,1,open,\xff\n", "3 BadNumber"),
]
NO_HEADERS = [
    b"\n\r\n", b"\xef\xbb\xbf", b"moment,device,event\n", b"moment,device,event,value,\n", b"Moment,device,event,value\n",
    b"moment,device,event,value \n", b"0,1,open,4\n", b"\xef\xbb\xbf\xef\xbb\xbfmoment,device,event,value\n",
]

# Counts the yields in the file COUNT, and makes them if YIELDS isn't empty.
COUNTED_YIELD = b"""
#define _GNU_SOURCE
#include <fcntl.h>
#include <stdint.h>
#include <stdlib.h>
#include <sys/mman.h>
#include <sys/syscall.h>
#include <unistd.h>
static uint64_t *count;
__attribute__((constructor)) static void begin(void) {
    int file = open(getenv("COUNT"), O_CREAT | O_TRUNC | O_RDWR, 0600);
    if (ftruncate(file, sizeof *count)) abort();
    count = mmap(NULL, sizeof *count, PROT_READ | PROT_WRITE, MAP_SHARED, file, 0);
}
int sched_yield(void) {
    __atomic_add_fetch(count, 1, __ATOMIC_RELAXED);
    return *getenv("YIELDS") ? (int)syscall(SYS_sched_yield) : 0;
}
"""


def check(name: str, holds: bool, why: str = "other than wanted") -> Judged:
    return name, [] if holds else [why]


def play(text: bytes, words: list[str], program: str = PROGRAM) -> tuple[int, bytes, bytes]:
    run = subprocess.run([program] + words, input=text, capture_output=True, timeout=3600)
    return run.returncode, run.stdout, run.stderr


def row_fault(fields: list[str], states: dict[int, bool]) -> tuple[int, str] | None:
    """The number and the name of a row's first error, or None. `states` says for each device whether it is enabled."""
    if len(fields) != 4:
        return 2, "BadFields"
    numbers = [fields[0], fields[1], fields[3]]
    if not all(re.fullmatch("[0-9]{1,20}", field) for field in numbers):
        return 3, "BadNumber"
    event = fields[2]
    if event not in RANGES:
        return 4, "BadEvent"
    moment, device, value = map(int, numbers)
    low, high, least, most = RANGES[event]
    if moment >= 2 ** 64 or not low <= device <= high or not least <= value <= most:
        return 5, "OutOfRange"
    if event not in ("open", "softirq") and device not in states:
        return 6, "UnknownDevice"
    if event == "open" and device in states:
        return 7, "OpenTwice"
    if event in ("disable", "enable") and states[device] != (event == "disable"):
        return 8, "WrongState"
    if event in ("open", "enable", "disable"):
        states[device] = event != "disable"
    return None


def first_fault(text: str) -> str | None:
    """The message of the first error of a version 1 trace without quotes, or None."""
    records = [line.split(",") for line in text.split("\n") if line]
    if not records or records[0] != ["moment", "device", "event", "value"]:
        return "trace fault 1 BadHeader row 0"
    states: dict[int, bool] = {}
    for number, fields in enumerate(records[1:], 1):
        fault = row_fault(fields, states)
        if fault:
            return "trace fault %d %s row %d" % (fault + (number,))
    return None


def cut_traces() -> Iterator[Judged]:
    """Each prefix of the trace of six devices, in each mode: its error, or a whole report, never parts of both."""
    for mode in ("serial", "shared", "threads"):
        wrong = []
        for end in range(len(SIX_DEVICES) + 1):
            text = SIX_DEVICES[:end]
            fault = first_fault(text)
            status, out, err = play(text.encode(), ["--mode", mode])
            if fault:
                fits = (status, out, err) == (2, b"", (fault + "\n").encode())
            else:
                fits = status == 0 and not err and out.endswith(b"\n") and out.split(b"\n")[-2].startswith(b"total devices ")
            if not fits:
                wrong.append(end)
        yield check("cut traces, %s mode" % mode, not wrong, "cut behind byte %s" % wrong[:8])
        for text, line in NAMED_CUTS:
            yield check("%r, %s mode" % (text[-12:], mode), play(text.encode(), ["--mode", mode]) == (2, b"", (line + "\n").encode()))


def ways_of_writing() -> Iterator[Judged]:
    """Each way of writing a trace has the report of the first; each odd row, and each text without a header, has its error."""
    report = play(WRITTEN[0], [])
    for text in WRITTEN[1:]:
        yield check("%r" % text, play(text, []) == report and report[0] == 0)
    for row, fault in ODD_ROWS:
        line = b"trace fault %s row 1\n" % fault.encode()
        yield check("%r" % row, play(b"moment,device,event,value\n" + row, []) == (2, b"", line))
    for text in NO_HEADERS:
        yield check("%r" % text, play(text, []) == (2, b"", b"trace fault 1 BadHeader row 0\n"))


def without_pollers(words: list[str]) -> list[str]:
    """The options without `--pollers N`, which a run has as two arguments."""
    if "--pollers" not in words:
        return words
    at = words.index("--pollers")
    return words[:at] + words[at + 2 :]


def worked_runs() -> Iterator[Judged]:
    """Each run without a mode of its own, and each example, also in shared mode; each with threads also with 1, 2 and 8 pollers;
    each that names no other mode also by the program of serial mode."""
    examples = [(path.name, list[str](), path.read_bytes()) for path in sorted(pathlib.Path(__file__).parent.parent.glob("examples/*.csv"))]
    for name, words, text in [*runs(), *examples]:
        if not {"shared", "threads", "--mode=shared", "--mode=threads"} & set(words):
            yield check("%s by serial mode's program" % name, play(text, words) == play(text, words, SERIAL))
        if not any(word.startswith("--mode") or word in ("--help", "--version") for word in words):
            yield check("%s in shared mode" % name, play(text, words) == play(text, words + ["--mode", "shared"]))
        if "threads" in words or "--mode=threads" in words:
            others = without_pollers(words)
            answers = [play(text, others + ["--pollers", pollers]) for pollers in ("1", "2", "8")]
            yield check("%s with 1, 2 and 8 pollers" % name, answers[0] == answers[1] == answers[2] == play(text, words))


def small_traces() -> Iterator[Judged]:
    """All traces of up to five rows, and 20000 random ones, in one process, which also finds its planted mistakes."""
    run = subprocess.run([MODES, "5", "20000"], capture_output=True, text=True)
    compared = run.stdout.splitlines()[5:7] == ["100000 traces of 5 rows are the same", "20000 random traces are the same"]
    yield check("small traces", run.returncode == 0 and compared, run.stdout + run.stderr)


def random_traces(count: int) -> Iterator[Judged]:
    """Random traces of both versions, with settings in turn: bytes, message and status of the program of serial mode."""
    settings: list[list[str]] = [[], ["--budget", "1"], ["--budget", "64", "--weight", "1"], ["--weight", "63", "--window", "2"], ["--window", "1"]]
    for version in (1, 2):
        for seed in range(1, count + 1):
            text, words = Trace(seed, version).text().encode(), settings[seed % len(settings)]
            yield check(f"random trace {seed} of version {version} {words}", play(text, words) == play(text, words, SERIAL))


def version_2() -> Iterator[Judged]:
    """A device that is disabled, receives, is enabled and busy polled; a disable of device 16 that waits; packets of the greatest
    size; a threaded setting that outlives a disable. By hand, from the rules."""
    header = "moment,device,event,value,2\n"
    for name, rows, wanted in [
        ("disabled, receives, enabled, busy polled",
         "0,1,open,4\n1,1,disable,0\n2,1,rx,100\n3,1,enable,0\n4,1,busy,1\n",
         "busy 5 device 1 polls 2 work 1\ndevice 1 on arrived 1 dropped 0 polled 1 bytes 100 left 0 polls 2\n"),
        ("the greatest packet",
         "0,1,open,4\n1,1,rx,65535\n2,0,softirq,0\n",
         "softirq 3 polls 1 work 1 squeezed 0\ndevice 1 on arrived 1 dropped 0 polled 1 bytes 65535 left 0 polls 1\n"),
        ("a disable of device 16 that waits",
         "0,16,open,4\n1,16,rx,9\n2,16,disable,0\n3,0,softirq,0\n4,16,rx,9\n5,16,enable,0\n",
         "softirq 4 polls 1 work 1 squeezed 0\ndevice 16 on arrived 2 dropped 0 polled 1 bytes 9 left 1 polls 1\n"),
        ("a threaded setting kept over disable and enable",
         "0,1,open,4\n1,1,threaded,1\n2,1,disable,0\n3,1,enable,0\n4,1,rx,7\n5,0,softirq,0\n6,1,kthread,0\n",
         "softirq 6 polls 0 work 0 squeezed 0\nkthread 7 device 1 polls 1 work 1\ndevice 1 on arrived 1 dropped 0 polled 1 bytes 7 left 0 polls 1\n"),
    ]:
        for mode in ("serial", "shared"):
            status, out, err = play((header + rows).encode(), ["--mode", mode])
            yield check("%s, %s mode" % (name, mode), status == 0 and out.decode().startswith(wanted), (out + err).decode())


def keep_one_processor() -> None:
    """Lets the process use one processor, by a policy under which a thread that is woken doesn't preempt the running one: so a thread
    that spins until another one has run takes a whole slice each time."""
    os.sched_setaffinity(0, {min(os.sched_getaffinity(0))})
    os.sched_setscheduler(0, os.SCHED_BATCH, os.sched_param(0))


def on_one_processor(program: str, words: list[str], feed: Callable[[IO[bytes]], None], **variables: str) -> tuple[int, float]:
    """The status of a run that has one processor, and what it takes of it, in seconds."""
    run = subprocess.Popen([program] + words, stdin=subprocess.PIPE, stdout=subprocess.DEVNULL, stderr=subprocess.DEVNULL,
                           preexec_fn=keep_one_processor, env={**os.environ, **variables})
    assert run.stdin
    with run.stdin as trace:
        feed(trace)
    _, status, usage = os.wait4(run.pid, 0)
    run.returncode = os.waitstatus_to_exitcode(status)
    return run.returncode, usage.ru_utime + usage.ru_stime


def waits_for_the_trace(trace: IO[bytes]) -> None:
    trace.write(SIX_DEVICES.encode())
    trace.flush()
    time.sleep(3)


def disables_often(trace: IO[bytes]) -> None:
    rows = "1,1,rx,100\n2,1,disable,0\n3,1,enable,0\n" * 3000
    trace.write(("moment,device,event,value\n0,1,open,65536\n" + rows).encode())


def yields(room: str, how: str) -> tuple[int, int]:
    """The status of a run whose disables wait, and how often it yields the processor, by a replacement of that call in `room`."""
    status, _ = on_one_processor(PROGRAM, ["--mode", "threads"], disables_often, LD_PRELOAD=f"{room}/yield.so", COUNT=f"{room}/count", YIELDS=how)
    with open(f"{room}/count", "rb") as count:
        return status, int.from_bytes(count.read(), sys.byteorder)


def spins() -> Iterator[Judged]:
    """Disables wait for another thread, and yield: with a yield that does nothing they try it hundreds of times as often. Their processor
    time wouldn't show it on a busy machine, which ends the slice of a spinning thread early."""
    with tempfile.TemporaryDirectory() as room:
        subprocess.run(["cc", "-shared", "-fPIC", "-x", "c", "-", "-o", room + "/yield.so"], input=COUNTED_YIELD, check=True)
        (status, without), (_, usual) = yields(room, ""), yields(room, "yes")
    yield check("disables without a yield", status == 0 and without > 20 * usual > 0, "status %d, %d tries, usually %d" % (status, without, usual))


def idle() -> Iterator[Judged]:
    """No run spins while it waits: it takes less than a second, which is a hundred times what it needs. The replays wait for a pipe that
    stays open for 3 seconds; the pollers of WORKERS for packets, while a gate holds a device for as long; and a disable for a poll by
    another thread, 3000 times."""
    modes = [["--mode", mode, "--pollers", "8"] for mode in ("serial", "shared", "threads")]
    waiting: list[tuple[str, list[str], Callable[[IO[bytes]], None]]] = [
        *((PROGRAM, mode, waits_for_the_trace) for mode in modes),
        (SERIAL, [], waits_for_the_trace),
        (WORKERS, ["threads", "16", "8", "2000", "3000"], IO.close),
        (PROGRAM, ["--mode", "threads"], disables_often),
    ]
    for program, words, feed in waiting:
        status, seconds = on_one_processor(program, words, feed)
        name = "%s, %s %s" % (feed.__name__.replace("_", " "), os.path.basename(program), " ".join(words))
        yield check(name, status == 0 and seconds < 1, "status %d, %.2f s" % (status, seconds))


def checks() -> Iterator[Judged]:
    for each in (cut_traces(), idle(), spins(), worked_runs(), small_traces(), version_2(), ways_of_writing(), random_traces(150)):
        yield from each


if __name__ == "__main__":
    sys.exit(judge(checks()))
