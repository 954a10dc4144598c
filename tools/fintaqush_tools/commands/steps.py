"""Makes a page that steps through a trace, row by row and poll by poll, next to its replay: one HTML file with the trace in it, for any browser or
phone.

    fintaqush steps examples/two-packets.csv --out two-packets.html
    fintaqush steps TRACE --raise --budget 64 --beside '--budget 300' --row 120 --out two-settings.html

After each row the page shows the rings, the flags of each state word by name, the poll list, the queue limits, and what the row did, with
the kernel's function for it. A run expands into its polls: the device, the number of packets, how the poll ended, and the remaining budget;
a click on a poll shows the state after it. A timeline shows the waiting packets, the runs, and clickable marks for squeezed runs and drops.
The page replays by web/fintaqush.wasm; its sliders move the settings, and it also has the examples.

--beside shows a second replay with other options next to the first one. --raise adds the runs that the kernel would make after a run that
leaves devices on the poll list.
"""

from __future__ import annotations

import argparse
import os
import shlex
from collections.abc import Sequence

from fintaqush_tools.commands.from_ftrace import trace_of
from fintaqush_tools.errors import Refusal
from fintaqush_tools.files import check_target, read_trace, write_whole
from fintaqush_tools.options import Parser, Words, add_binary, add_raise, add_settings, as_options
from fintaqush_tools.options import given_settings, words_of
from fintaqush_tools.pages import page_with
from fintaqush_tools.processes import program, run_program
from fintaqush_tools.texts import shown
from fintaqush_tools.trace import MOST_ROWS, records_of


def beside(text: str) -> dict[str, int]:
    """Parses the settings of the second replay."""
    settings = Parser(add_help=False, allow_abbrev=False)
    settings.raises = True
    add_settings(settings)
    try:
        return given_settings(settings.parse_args(shlex.split(text), Words()))
    except (Refusal, ValueError):
        raise argparse.ArgumentTypeError(f"{shown(text)!r} isn't as '--budget 300 --weight 64 --window 1024'") from None


def add_page(parser: Parser) -> None:
    """Adds the options of a page with a trace."""
    parser.add_argument("trace", help="the trace, or a recording (.rec, .rec.gz); - for a trace on standard input")
    what = "a second replay with these options, in one argument"
    parser.add_argument("--beside", type=beside, metavar="OPTIONS", help=what)
    add_raise(parser)
    add_settings(parser)
    add_binary(parser, "napi_series")


def add_options(parser: Parser) -> None:
    parser.add_argument("--out", required=True, metavar="FILE.html", help="the page")
    parser.number("--row", 1, MOST_ROWS, None, "the row at which the page begins")
    add_page(parser)


def write_page(words: Words, out: str, replaces: bool, view: str, row: int = 1) -> None:
    """Writes the page with a trace, which the programs accept."""
    check_target(out, replaces)
    is_recording = words.trace.endswith((".rec", ".rec.gz"))
    text = trace_of(words.trace) if is_recording else read_trace(words.trace)
    sides = [given_settings(words), *([words.beside] if words.beside is not None else [])]
    for settings in sides:  # its first fault
        run_program(program("napi_series", words.binary), ["--raise"] * words.raised + as_options(settings), text)
    rows = len(records_of(text))
    if row > rows:
        raise Refusal(f"{shown(words.trace)} has no row {row}: it has {rows} rows")
    name = shown(os.path.basename(words.trace))
    write_whole(out, page_with(text, name=name, view=view, row=row, sides=sides, raised=words.raised), replaces)


def main(given: Sequence[str]) -> None:
    words = words_of(__doc__, add_options, given)
    write_page(words, words.out, True, "steps", words.row or 1)
