"""Replays a trace by the launcher `./replay`, which parses its options itself."""

from __future__ import annotations

import os
import re
import sys
from collections.abc import Sequence

from fintaqush_tools.errors import Signals
from fintaqush_tools.options import Parser
from fintaqush_tools.places import TOP, usage_text, with_pages
from fintaqush_tools.progress import Program
from fintaqush_tools.settings import MODES

HEAD = "Replays a trace of network devices by the polling rules of Linux, and prints the report."
PARTS = re.compile(r"usage: .*\n\n(.*?\n)\n(  --.*?\n)\n(.*)", re.S)
OPTION = re.compile(r"^  ((?:-\w, )?--[\w-]+)(?: ([A-Z]))? +(.*(?:\n {18}.*)*)", re.M)


def add_options(parser: Parser) -> None:
    """Adds the options in the usage text: only for the manual page and the completion."""
    found = PARTS.fullmatch(usage_text(Program.name))
    head, options, after = found.groups() if found else ("", "", "")
    parser.usage = "%(prog)s [OPTION ..] [TRACE | -]"
    parser.description = with_pages(f"{HEAD}\n\n{head}\n{after}")
    for names, value, what in OPTION.findall(options):
        text = " ".join(what.split()).replace("%", "%%")
        words = names.split(", ")
        if names == "--mode":
            parser.add_argument(*words, help=text, choices=MODES)
        elif value:
            parser.add_argument(*words, help=text, metavar=value)
        elif names != "--version":
            parser.add_argument(*words, help=text, action="store_true")
    parser.add_argument("trace", nargs="?", help="the trace (standard input)")


def main(given: Sequence[str]) -> None:
    os.environ["FINTAQUSH_NAME"] = Program.name
    own = f"{TOP}/scripts/start.py"
    launchers = {f"{TOP}/replay": [f"{TOP}/replay"], own: [sys.executable, "-EsSB", own, "replay"]}
    Signals.leave()
    for path, launcher in launchers.items():
        if os.path.exists(path):
            os.execv(launcher[0], [*launcher, *given])
    from fintaqush_tools import replay  # what pip installs has no launcher

    replay.start(given)
