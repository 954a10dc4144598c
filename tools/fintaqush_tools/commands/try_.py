"""Shows in a minute what the subcommands are for, on recordings that are included: a squeezed run, a what-if, and a page of steps.

    fintaqush try

Prints each command before its output, so that it can be repeated with other settings or on another recording. It downloads nothing, changes
no setting of this machine, and writes one file, the page.
"""

from __future__ import annotations

import contextlib
import io
import json
import os
import re
import shlex
import tempfile
from collections.abc import Sequence

from fintaqush_tools.cli import module_of
from fintaqush_tools.errors import Refusal
from fintaqush_tools.files import check_target
from fintaqush_tools.options import Parser, add_force, words_of
from fintaqush_tools.places import IS_CHECKOUT, TOP
from fintaqush_tools.progress import Program
from fintaqush_tools.texts import aligned, argument, shown

PAGE = "fintaqush-try.html"


def example(name: str) -> str:
    """Returns the path of an included file, as short as it can be typed here."""
    path = f"{TOP}/examples/{name}"
    return min(path, os.path.relpath(path), key=len)


def ask(name: str, *words: str) -> str:
    """Returns what a subcommand prints."""
    called = Program.name
    with contextlib.redirect_stdout(io.StringIO()) as printed:
        try:
            module_of(name).main(words)
        except Refusal as error:
            raise Refusal(f"{name} failed: {error}") from None
        finally:
            Program.name = called
    return printed.getvalue()


def command() -> str:
    """Returns the command as it can be typed here: in a checkout its path, otherwise its name, which is on PATH."""
    if not IS_CHECKOUT:
        return "fintaqush"
    path = os.path.relpath(f"{TOP}/fintaqush")
    return argument(path if "/" in path else f"./{path}")


def show_command(*words: str) -> None:
    print(f"    $ {command()} {shlex.join(words)}", flush=True)


def show(lines: Sequence[str]) -> None:
    print("".join(f"    {line}\n" for line in lines), flush=True)


def squeeze() -> None:
    """Compares two budgets for the same packets."""
    print(
        "1. A squeezed run. A run of the softirq stops when it has polled netdev_budget packets, and counts a squeeze (time_squeeze).\n"
        "   Bursts that were recorded on Linux 6.18, with a budget of 16 and with the usual 300:\n"
    )
    words = ["compare", example("linux-veth-bursts.csv"), "--raise", "--budget", "16", "--", "--budget", "300"]
    show_command(*words)
    table = ask(*words).splitlines()
    show([line for place, line in enumerate(table) if place == 0 or line.startswith("total")])
    values = {line.split()[1]: line.split()[2:4] for line in table if line.startswith("total")}
    (runs, others), (squeezed, fewer) = values["runs"], values["squeezed"]
    print(
        f"   With 16 there are {runs} runs, of which {squeezed} are squeezed; with 300 there are {others}, and {fewer} are squeezed.\n"
        f"   Next, with your own traffic: {command()} from-pcap CAPTURE NAME, then {command()} plot NAME.csv --raise\n"
    )


def what_if(folder: str) -> None:
    """Compares sizes of a backlog, for recorded arrivals and the costs estimated from them."""
    recording, arrivals = example("veth-backlog.rec"), os.path.join(folder, "mine")
    ask("from-ftrace", recording, arrivals, "--arrivals")
    with open(f"{arrivals}.notes", encoding="utf-8") as notes:
        dropped = re.findall(r"dropped: \S+, (\d+)", notes.read())[0]
    print(
        f"2. A what-if. On the machine of this recording a backlog of 6 packets (net.core.netdev_max_backlog) dropped {dropped} packets. Larger ones,\n"
        "   and a program on a processor of its own, are predicted with costs that fit the recording:\n"
    )
    show_command("from-ftrace", recording, "mine", "--arrivals")
    costs = ask("costs", recording, "--words").split()
    words = ["--backlog", "1", "--ring", "7,13,49", "--apart", "0,1"]
    told = f"what-if mine.csv {shlex.join(words)} $({command()} costs {shlex.quote(recording)} --words)"
    print(f"    $ {command()} {told}")
    told = ask("what-if", f"{arrivals}.csv", *words, *costs, "--band", "0", "--json")
    rows = list(map(json.loads, told.splitlines()))
    lines = [["netdev_max_backlog", "program apart", "dropped", "median wait us", "99th percentile us"]]
    for row in rows:
        waits = [f"{row[name] / 1000:.1f}" for name in ("used_p50", "used_p99")]
        lines.append([str(row["ring"] - 1), "yes" if row["apart"] else "no", str(row["dropped"]), *waits])
    show(aligned(lines))
    print(
        f"   (With 6 it predicts {rows[0]['dropped']} dropped, and {dropped} were: so few depend on single packets. The table has\n"
        "   some of its columns; waits are from a packet's arrival to the end of its use by the program, and waking a program\n"
        "   that is apart is taken as free, because this recording doesn't have it.)\n"
        f"   Next, as root on the machine that receives: {command()} record 5 --device eth0 --program server --out mine.rec,\n"
        f"   then {command()} advise mine.rec, which says what to set.\n"
    )


def steps(page: str) -> None:
    """Makes a page of a short trace."""
    what = "A page that shows rings, flags and the poll list after each row, with the kernel's functions"
    print(f"3. Step by step. {what}:\n")
    words = ["steps", example("busy-poll.csv"), "--out", page]
    show_command(*words)
    ask(*words)
    print(f"\n   Open {shown(page)} in a browser; the arrow keys step.")
    print(f"   Next: {command()} --help lists all subcommands.")


def add_options(parser: Parser) -> None:
    parser.add_argument("--out", metavar="FILE.html", help=f"the page ({PAGE})")
    add_force(parser, PAGE)


def main(given: Sequence[str]) -> None:
    words = words_of(__doc__, add_options, given)
    check_target(words.out or PAGE, replaces=bool(words.out) or words.force)
    with tempfile.TemporaryDirectory() as folder:
        squeeze()
        what_if(folder)
    steps(words.out or PAGE)
