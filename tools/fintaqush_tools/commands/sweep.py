"""Replays each trace with each combination of settings, and writes a CSV row for each.

    fintaqush sweep examples --budget 64,300,1000 --weight 16,64 --raise --out sweep.csv

A row has the trace, the settings, the exit status, the trace's fault if it has one, and values of the report: polls and work of all
rows that poll, squeezed runs, packets dropped and left, and the greatest limit of any queue at the end. --raise adds the runs that the
kernel would make after a run that leaves devices on the poll list, so that a small budget drops no packet that Linux wouldn't drop.

Only a report, or a fault of the trace, becomes a row. A replay that fails otherwise is reported, and makes the exit status 1; --resume tries
it again, and replays changed traces again. Only one call may work on a file: each job of an array has its own.

The replays run on all processors of this machine. With --sshloginfile GNU parallel runs them on other machines that have this checkout,
built programs, and the traces, under the same paths, and tries a replay that fails three times.
"""

from __future__ import annotations

import functools
import io
import itertools
import re
from collections.abc import Iterable, Sequence
from pathlib import Path
from typing import Any

from fintaqush_tools.combinations import Combinations, Key, Row
from fintaqush_tools.combinations import add_words, check_words, choices, fault_of, sum_of, told_in
from fintaqush_tools.errors import Refusal
from fintaqush_tools.files import KINDS, ROWS, TRACE, kind_of, read_trace
from fintaqush_tools.options import Parser, Words, add_raise, number, words_of
from fintaqush_tools.processes import program, ran
from fintaqush_tools.progress import say
from fintaqush_tools.reports import SHAPES, objects_of
from fintaqush_tools.results import add_json, value_of, write_json
from fintaqush_tools.settings import MOST, USUAL
from fintaqush_tools.texts import shown
from fintaqush_tools.thresholds import add_fail_if, status_of
from fintaqush_tools.trace import raise_option, records_of

KEY = ["trace", "sum", "budget", "weight", "window", "raise"]
TOLD = ["polls", "work", "squeezed", "dropped", "left", "greatest_limit"]
# The values of each line of the report that are added.
SUMS = {shape[0]: [name for name in TOLD[:3] if name in shape] for shape in SHAPES if shape[1] == "ROW"} | {
    "device": TOLD[3:5]
}
# Faults of a trace; a failed read or allocation isn't one.
FAULT = re.compile(r"trace fault (?!10 )\d+ \w+ row \d+$")


def is_trace(path: Path) -> bool:
    """Returns whether a file of a folder should be replayed. Others are skipped; rows of a sweep without a line, because they may be its output."""
    if not path.is_file():
        say(f"{shown(path)}: skipped, because it isn't a regular file")
        return False
    with open(path, "rb") as file:
        what = kind_of(file.readline(1000))
    if what and what not in (KINDS[TRACE], KINDS[ROWS]):
        say(f"{shown(path)}: skipped, because it is {what}")
    return what in ("", KINDS[TRACE])


def traces_of(names: Iterable[str]) -> list[str]:
    """Returns the named traces, and those in the named folders."""
    traces = []
    for name in map(Path, names):
        if name.is_dir():
            found = [path for path in sorted(name.glob("*.csv")) if not path.name.startswith(".") and is_trace(path)]
            if not found:
                raise Refusal(f"{shown(name)}: this folder has no .csv trace")
            traces += found
        else:
            traces.append(name)
    for trace in traces:
        if not trace.is_file():
            raise Refusal(f"{shown(trace)}: no such trace, or not a regular file")
    return list(dict.fromkeys(map(str, traces)))


def told_of(report: str) -> dict[str, Any]:
    """Returns the values of a report that a row has."""
    told = dict.fromkeys(TOLD, 0)
    limits = []
    for line in objects_of(report):
        for name in SUMS.get(line["line"], []):
            told[name] += int(line[name])
        if line["line"] == "tx":
            limits.append(line["limit"])
    return {**told, "greatest_limit": max(limits, default="")}


@functools.cache
def series() -> str:
    """Returns the path of the program that adds runs."""
    return program("napi_series")


def outcome(made: str, settings: Sequence[str], text: bytes) -> tuple[dict[str, Any], bytes]:
    """Returns a program's status with the trace's fault, and its output. Fails on any other outcome."""
    status, out, said = ran([made, *settings], text)
    fault = fault_of(made, status, said, FAULT)
    return {"status": status, "fault": fault}, b"" if fault else out


def row_of(made: str, key: Key) -> Row:
    """Replays one trace with one combination."""
    trace, held, budget, weight, window, restarts = key
    settings = ["--budget", budget, "--weight", weight, "--window", window]
    text, row = read_trace(trace), Row(zip(KEY, key))
    if sum_of(io.BytesIO(text)) != held:
        raise Refusal("the trace has changed since the sweep began")
    if restarts != "no":
        option = raise_option(None if restarts == "all" else restarts)
        ended, whole = outcome(series(), [option, "--rows", *settings], text)
        if ended["status"] != 0:
            return {**row, **ended}
        row["raised"], text = len(records_of(whole)) - len(records_of(text)), whole
    ended, report = outcome(made, settings, text)
    return {**row, **ended, **(told_of(report.decode("ascii", "replace")) if ended["status"] == 0 else {})}


SWEEP = Combinations("sweep", KEY, ["status", "fault", "raised", *TOLD], row_of)


def keys_of(words: Words) -> list[Key]:
    """Returns the keys of the requested rows, in order."""
    restarts = "no" if not words.raised else "all" if words.restarts is None else str(words.restarts)
    traces = [(trace, sum_of(io.BytesIO(read_trace(trace)))) for trace in traces_of(words.traces)]
    every = itertools.product(traces, words.budget, words.weight, words.window, [restarts])
    return [(*trace, *settings) for trace, *settings in every]


def add_options(parser: Parser) -> None:
    parser.add_argument("traces", nargs="*", metavar="FOLDER|TRACE", help="traces, and folders of them")
    for name, example in (("budget", "64,300,1000"), ("weight", "16,64"), ("window", "128,1024")):
        usual, values = str(USUAL[name]), choices(number(1, MOST[name]))
        parser.add_argument(f"--{name}", type=values, default=[usual], help=f"as {example} ({usual})")
    add_raise(parser)
    what = "with --raise: add at most N runs after a row (until the list is empty)"
    parser.number("--restarts", 1, 99999, None, what)
    add_fail_if(parser, TOLD[:-1])
    add_json(parser, "the rows")
    add_words(parser, "napi_serial or napi_replay", {"default": "sweep.csv", "help": "the file of rows (sweep.csv)"})


def main(given: Sequence[str]) -> int:
    words = words_of(__doc__, add_options, given)
    series.cache_clear()
    if not words.play and not words.traces:
        words.error("no traces")
    if words.restarts and not words.raised:
        words.error("--restarts goes with --raise")
    if words.play:
        return SWEEP.play(words.binary, words.play)
    check_words("sweep", words)
    traces_of(words.traces)
    rows = SWEEP.make(program("napi_serial", words.binary), words, keys_of(words))
    texts = ("trace", "sum")  # which are no numbers
    objects = ({name: row[name] if name in texts else value_of(str(row[name])) for name in row} for row in rows)
    write_json(words.json, "sweep", objects)
    if rows and not words.part and not told_in(rows):
        raise Refusal(f"every row is refused: {shown(rows[0]['trace'])}: {rows[0]['fault']}")
    names = ("trace", "budget", "weight", "window")
    results = [(", ".join(f"{name} {row[name]}" for name in names), row) for row in told_in(rows)]
    return status_of(words.fail_if, results)
