"""Traces of devices: docs/FORMATS.md, "The trace"."""

from __future__ import annotations

import csv
import io
from collections.abc import Iterable, Iterator, Sequence
from itertools import islice

from fintaqush_tools.errors import Refusal
from fintaqush_tools.files import write_all
from fintaqush_tools.options import Parser, Words, add_force, pair
from fintaqush_tools.processes import program, run_program
from fintaqush_tools.progress import tell
from fintaqush_tools.texts import lines_of, shown

Row = tuple[int, int, str, int]  # time, device, event, value
MOST_DEVICES = 16
MOST_ROWS = 100000
HEADERS = {1: "moment,device,event,value", 2: "moment,device,event,value,2"}  # by the version
TICKS = {"ms": 1000, "us": 1000000}  # time units per second


def add_words(parser: Parser) -> None:
    """Adds the options of what is written: a trace, or arrivals."""
    parser.number("--capacity", 1, 65536, 256, "packets that each ring holds (256)")
    parser.add_argument("--unit", choices=TICKS, default="ms", help="the unit of times in a trace (ms)")
    parser.flag("--arrivals", "write arrivals for napi_machine instead of a trace")


def add_delay(parser: Parser) -> None:
    """Adds the option for the runs of a trace that has only packets."""
    parser.number("--delay", 0, 10**9, 1, "time from the first waiting packet to the softirq row, in --unit (1)")


def add_files(parser: Parser, files: str) -> None:
    """Adds the options of a tool that writes these files, or some of their rows."""
    parser.add_argument("name", help="the name of the output files, without the extension")
    what = "only these rows, after rows that open the devices and add the packets that wait then"
    parser.add_argument("--rows", type=pair(":", "1:50000"), metavar="A:B", help=what)
    add_words(parser)
    add_force(parser, files)


def check_flows(words: Words) -> None:
    if words.flows and not words.arrivals:
        words.error("--flows goes with --arrivals")


def write_files(words: Words, told: str, notes: list[str], **texts: str | Iterable[str]) -> None:
    """Writes the files, each by its ending, and prints what is in them, with the first notes."""
    texts = {"notes": lines_of(map(shown, notes)), **texts}
    write_all({f"{words.name}.{end}": text for end, text in texts.items()}, words.force)
    count = f"{len(notes)} note{'s' * (len(notes) != 1)} in {words.name}.notes"
    end = ", which begins" * (len(notes) > 3) + ":" * bool(notes)
    tell(f"{words.name}.csv: {told}; {count}{end}", *(f"  {note}" for note in notes[:3]))


def records_of(text: bytes) -> list[Row]:
    """Returns the rows of a trace that a program of ours accepted."""
    records = [record for record in csv.reader(io.StringIO(text.decode("utf-8-sig"), newline="")) if record]
    return [(int(moment), int(device), event, int(value)) for moment, device, event, value in records[1:]]


def raise_option(restarts: int | str | None) -> str:
    """Returns the option of napi_series that adds runs."""
    return "--raise" if restarts is None else f"--raise={restarts}"


def raised(text: bytes, words: Sequence[str], restarts: int | None = None, named: str | None = None) -> bytes:
    """Returns a trace with the runs that the kernel would make with these options: one after each softirq row that leaves the list
    nonempty, until it is empty or `restarts` were added."""
    return run_program(program("napi_series", named), [raise_option(restarts), "--rows", *words], text).encode()


def with_runs(arrivals: Iterable[Row], delay: int) -> Iterator[Row]:
    """Yields rows of arrivals, in order, with a softirq row `delay` after the first waiting packet."""
    run = None
    for row in arrivals:
        if run is not None and run < row[0]:
            yield run, 0, "softirq", 0
            run = None
        yield row
        if row[2] == "rx" and run is None:
            run = row[0] + delay
    if run is not None:
        yield run, 0, "softirq", 0


def trace_text(rows: Iterable[Row], version: int = 1) -> str:
    """Returns the text of a trace with these rows; fails if it is too long."""
    rows = iter(rows)
    lines = [HEADERS[version], *(",".join(map(str, row)) for row in islice(rows, MOST_ROWS))]
    more = sum(1 for _ in rows)
    if more:
        less = "take some of them (from-pcap: --rows, -c), or a shorter time"
        raise Refusal(f"{MOST_ROWS + more} rows, and a trace has at most {MOST_ROWS}: {less}")
    return lines_of(lines)
