#!/usr/bin/env python3
"""ends.py FOLDER: the exit status of each program in FOLDER/NAME/out for success and for each kind of fault, with standard output and
standard error open, closed, full, and a pipe that no program reads. docs/FORMATS.md says which status it is: that of the fault, whether
or not its line could be written; a report that couldn't be written is a fault of its own (15). The last line is `N passed, M failed`."""

from __future__ import annotations

import os
import resource
import subprocess
import sys
import tempfile
from collections.abc import Iterator
from typing import IO, Any

from judging import Judged, difference, judge

TRACE = b"moment,device,event,value\n"
OPENED = TRACE + b"0,1,open,4\n"
ARRIVALS = b"ns,device,bytes\n"
ZEROS, FOLDER, CLOSED = object(), object(), object()  # what standard input is, in place of a text
UNWRITTEN = 4, b"output fault 15 OutputFailed\n"

# The examples of docs/FORMATS.md.
TWO_PACKETS = OPENED + b"1,1,rx,100\n1,1,rx,60\n2,0,softirq,0\n"
REPORT = b"""softirq 4 polls 2 work 2 squeezed 0
device 1 on arrived 2 dropped 0 polled 2 bytes 160 left 0 polls 2
napi 1 granted 1 missed 1 disabled 0 again 1 released 1 word 0
list
total devices 1 runs 1 polls 2 work 2 squeezed 0
"""
THREADS_REPORT = b"device 1 arrived 2 bytes 160\ntotal devices 1\n"

# A name, options, the input, the status and the message.
Case = tuple[str, list[Any], object, int, str]
WORDS: list[Case] = [
    ("an option that there isn't", ["--frobnicate"], TWO_PACKETS, 64, "usage fault 64"),
    ("an option that is no text", [b"--budget=\xff"], TWO_PACKETS, 64, "usage fault 64"),
]
INPUTS: list[Case] = [
    ("an input that is a folder", [], FOLDER, 2, "{} fault 10 ReadFailed"),
    ("an input that is closed", [], CLOSED, 2, "{} fault 10 ReadFailed"),
    ("an input without end", [], ZEROS, 4, "memory fault 11 OutOfMemory"),
    ("an empty input", [], b"", 2, "{} fault 1 BadHeader row 0"),
]
ROWS: list[Case] = [
    ("a row of three fields", [], OPENED + b"1,1,rx\n", 2, "trace fault 2 BadFields row 2"),
    ("a sign", [], OPENED + b"1,1,rx,-1\n", 2, "trace fault 3 BadNumber row 2"),
    ("an event that there isn't", [], OPENED + b"1,1,RX,1\n", 2, "trace fault 4 BadEvent row 2"),
    ("device 17", [], OPENED + b"1,17,rx,1\n", 2, "trace fault 5 OutOfRange row 2"),
    ("a device that wasn't opened", [], OPENED + b"1,2,rx,1\n", 2, "trace fault 6 UnknownDevice row 2"),
    ("a device that is opened twice", [], OPENED + b"1,1,open,4\n", 2, "trace fault 7 OpenTwice row 2"),
    ("an enable out of turn", [], OPENED + b"1,1,enable,0\n", 2, "trace fault 8 WrongState row 2"),
    ("100001 rows", [], OPENED + b"1,1,rx,1\n" * 100000, 2, "trace fault 9 TooManyRows row 100001"),
]
PENDING: list[Case] = [
    ("an enable while a disable is pending", [], OPENED + b"1,1,rx,10\n1,1,disable,0\n1,1,enable,0\n", 2, "trace fault 12 Pending row 4"),
]
THREADS: list[Case] = [
    ("a ring that is too small", [], OPENED + b"1,1,rx,10\n" * 5, 3, "ring fault 13 RingTooSmall device 1 needs 5"),
]
MACHINE: list[Case] = [
    ("a row of two fields", [], ARRIVALS + b"0,1\n", 2, "arrivals fault 2 BadFields row 1"),
    ("a sign", [], ARRIVALS + b"-1,1,60\n", 2, "arrivals fault 3 BadNumber row 1"),
    ("a packet of no bytes", [], ARRIVALS + b"0,1,0\n", 2, "arrivals fault 5 OutOfRange row 1"),
    ("a moment that falls", [], ARRIVALS + b"5,1,60\n4,1,60\n", 2, "arrivals fault 8 Falls row 2"),
]
MACHINE_ENDS = b"total devices 1 arrived 1 dropped 0 polled 1 refused 0 used 1\n"


def in_mode(mode: str, cases: list[Case]) -> list[Case]:
    """The same cases with the option for a mode in front."""
    return [(name, ["--mode", mode, *words], text, status, line) for name, words, text, status, line in cases]


def of_trace(cases: list[Case]) -> list[Case]:
    return [(name, words, text, status, line.format("trace")) for name, words, text, status, line in cases]


REPLAYED = of_trace(WORDS + INPUTS + ROWS + PENDING)
# Each program with the options of a run that succeeds, its input, and how its output begins and ends; and the cases of its
# errors.
PROGRAMS: list[tuple[str, list[str], bytes, bytes, bytes, list[Case]]] = [
    ("napi_serial", [], TWO_PACKETS, REPORT, REPORT, REPLAYED),
    ("napi_replay", ["--mode", "serial"], TWO_PACKETS, REPORT, REPORT, in_mode("serial", REPLAYED)),
    ("napi_replay", ["--mode", "shared"], TWO_PACKETS, REPORT, REPORT, in_mode("shared", REPLAYED)),
    ("napi_replay", ["--mode", "threads"], TWO_PACKETS, THREADS_REPORT, THREADS_REPORT,
     in_mode("threads", of_trace(WORDS + INPUTS + ROWS) + THREADS)),
    ("napi_series", [], TWO_PACKETS, b"row,moment,device,", b"\n", REPLAYED),
    ("napi_machine", [], ARRIVALS + b"0,1,60\n", b"device 1 arrived 1 ", MACHINE_ENDS,
     [(name, words, text, status, line.format("arrivals")) for name, words, text, status, line in WORDS + INPUTS + MACHINE]),
]

# The states of each of the two outputs.
OPEN, SHUT, FULL, UNREAD = "open", "closed", "full", "a pipe that no program reads"


def end_of(kind: str, taken: IO[bytes]) -> int:
    """The file for an output of this kind; what is written to it is in `taken`."""
    if kind == FULL:
        return os.open("/dev/full", os.O_WRONLY)
    if kind == UNREAD:
        read, written = os.pipe()
        os.close(read)
        return written
    return os.dup(taken.fileno())


def prepare(closes: list[int], is_bounded: bool) -> None:
    """Prepares the program's standard files before it starts. Its memory is limited if its input has no end."""
    if is_bounded:
        resource.setrlimit(resource.RLIMIT_AS, (32 << 20, 32 << 20))
    for handle in closes:
        os.close(handle)


def run(command: list[str | bytes], text: object, ends: tuple[str, str]) -> tuple[int, bytes, bytes]:
    """The status of a program, and what was written to its two outputs."""
    closes = [number for number, kind in enumerate([SHUT if text is CLOSED else OPEN, *ends]) if kind == SHUT]
    with tempfile.TemporaryFile() as out, tempfile.TemporaryFile() as errors, tempfile.TemporaryFile() as given:
        if isinstance(text, bytes):
            given.write(text)
            given.seek(0)
        source = {ZEROS: "/dev/zero", FOLDER: "/"}.get(text)
        handles = [os.open(source, os.O_RDONLY) if source else os.dup(given.fileno()), end_of(ends[0], out), end_of(ends[1], errors)]
        done = subprocess.run(command, stdin=handles[0], stdout=handles[1], stderr=handles[2], check=False, timeout=3600,
                              preexec_fn=lambda: prepare(closes, text is ZEROS))
        for handle in handles:
            os.close(handle)
        out.seek(0)
        errors.seek(0)
        return done.returncode, out.read(), errors.read()


ENDS = [(OPEN, OPEN), (OPEN, SHUT), (OPEN, FULL), (OPEN, UNREAD), (SHUT, OPEN), (FULL, OPEN), (UNREAD, OPEN), (SHUT, SHUT), (FULL, FULL)]


def faults(name: str, program: str, cases: list[Case]) -> Iterator[Judged]:
    """An error has its status with any outputs, its message if standard error accepts one, and nothing on standard output."""
    for case, words, text, status, line in cases:
        for ends in ENDS:
            wanted = status, b"", f"{line}\n".encode() if ends[1] == OPEN else b""
            what = f"{name}: {case}, standard output {ends[0]}, standard error {ends[1]}"
            yield what, difference(run([program, *words], text, ends), wanted)


def reports(name: str, program: str, words: list[str], text: bytes, begins: bytes, last: bytes) -> Iterator[Judged]:
    """A report has status 0 whatever standard error is, and is an error if standard output doesn't accept it."""
    for ends in ENDS:
        status, out, said = run([program, *words], text, ends)
        what = f"{name}: a report, standard output {ends[0]}, standard error {ends[1]}"
        if ends[0] == OPEN:
            yield what, difference((status, out[: len(begins)], out[-len(last) :], said), (0, begins, last, b""))
        else:
            yield what, difference((status, out, said), (UNWRITTEN[0], b"", UNWRITTEN[1] if ends[1] == OPEN else b""))


def checks(crates: str) -> Iterator[Judged]:
    for name, words, text, begins, last, cases in PROGRAMS:
        program = f"{crates}/{name}/out/{name}"
        if not os.path.exists(program):
            yield name, ["it isn't built"]
            continue
        title = " ".join([name, *words])
        yield from reports(title, program, words, text, begins, last)
        yield from faults(title, program, cases)


if __name__ == "__main__":
    sys.exit(judge(checks(sys.argv[1])))
