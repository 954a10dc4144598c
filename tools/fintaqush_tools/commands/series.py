"""Prints a CSV line for each row of a trace: the contents of the report after that row, computed by the proved program napi_series.

    fintaqush series examples/bursts.csv --every 10 > series.csv

The first line has the names of the columns, which docs/FORMATS.md and `man napi_series` explain. Printing begins after the whole trace
has been read and replayed. `fintaqush plot` draws a series.
"""

from __future__ import annotations

from collections.abc import Sequence

from fintaqush_tools.options import Parser, add_raise, add_settings, settings_of, words_of
from fintaqush_tools.processes import become, program
from fintaqush_tools.trace import raise_option


def add_options(parser: Parser) -> None:
    parser.add_argument("file", nargs="?", metavar="TRACE", help="the trace; - or none: standard input")
    parser.number("--every", 1, 99999, None, "only each Nth row, 1 to 99999 (1)")
    add_raise(parser)
    text = "with --raise: add at most N runs after a row (until the list is empty)"
    parser.number("--restarts", 0, 99999, None, text)
    parser.flag("--polls", "a line for each poll before the line of its softirq row")
    parser.flag("--rows", "print the rows of the trace, with the added runs, in place of the series")
    add_settings(parser)


def main(given: Sequence[str]) -> None:
    words = words_of(__doc__, add_options, given)
    if words.restarts is not None and not words.raised:
        words.error("--restarts goes with --raise")
    if words.rows and (words.polls or words.every):
        words.error("--rows prints no lines of the series: it goes with neither --every nor --polls")
    own = ["--every", str(words.every)] if words.every else []
    own += [raise_option(words.restarts)] if words.raised else []
    own += [*["--polls"] * words.polls, *["--rows"] * words.rows]
    become([program("napi_series"), *own, *settings_of(words)], words.file)
