"""Makes a page that shows what a replay did over time: the packets of each run, the packets that wait, drops, and a queue's limit with the bytes
in flight. It is one HTML file with the trace in it, for any browser or phone.

    fintaqush plot examples/linux-virtio-limits.csv --out limits.html
    fintaqush plot TRACE --budget 64 --beside '--budget 300' --raise --out squeeze.html
    fintaqush plot mine.rec

A squeezed run is red with a mark. The page zooms, its sliders move the settings, and it saves its picture as SVG or PNG and its curves as CSV;
*Steps* shows the same trace row by row. It replays by web/fintaqush.wasm.

--beside shows a second replay with other options below the first one. --raise adds the runs that the kernel would make after a run that leaves
devices on the poll list.
"""

from __future__ import annotations

from collections.abc import Sequence

from fintaqush_tools.commands.steps import add_page, write_page
from fintaqush_tools.options import Parser, add_force, words_of

PAGE = "plot.html"  # the name without --out


def add_options(parser: Parser) -> None:
    parser.add_argument("--out", metavar="FILE.html", help=f"the page ({PAGE})")
    add_force(parser, PAGE)
    add_page(parser)


def main(given: Sequence[str]) -> None:
    words = words_of(__doc__, add_options, given)
    write_page(words, words.out or PAGE, bool(words.out) or words.force, "replay")
