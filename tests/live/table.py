"""Prints the table of predicted and measured values from the recording that the repository keeps, puts it into docs/TIMING.md, or draws it.

    table.py PROGRAM                prints the table
    table.py PROGRAM --check PAGE   whether the page has that table between its marks; the exit status is 1 if it hasn't
    table.py PROGRAM --into PAGE    puts it there
    table.py PROGRAM --draw FILE    draws it as .png, by matplotlib
"""

from __future__ import annotations

import sys
from collections.abc import Iterator
from pathlib import Path
from typing import Any

from live import GROUPS, HERE, TOP, Line, predicted_lines
from judging import read_kept

sys.path.append(str(TOP / "scripts"))
from parts import has_part  # noqa: E402

BEGIN, END = "<!-- predicted and measured: begin -->", "<!-- predicted and measured: end -->"
NAMES = {"dropped": "packets dropped", "polls": "polls", "runs": "runs", "squeezed": "squeezed runs",
         "used_p50": "median wait to the end of use, ms"}
PANELS = {"median wait to the end of use, ms": ("used_p50",), "packets dropped": ("dropped",),
          "polls, runs and squeezed runs": ("polls", "runs", "squeezed")}
BREAKS = {"threaded, ": "threaded,~", "instances, ": "instances,~", "deferral ": "deferral~", "backlog of": "backlog~of"}
WIDTHS = (0.36, 0.26, 0.38)
GREY, BLUE, TEXT = "#757575", "#0063a6", "#1d1d1d"
STYLE = {"font.size": 9, "axes.spines.top": False, "axes.spines.right": False, "axes.grid": True, "axes.grid.axis": "y", "axes.axisbelow": True}


def text_of(name: str, value: float) -> str:
    """A value for a reader: a count, or a wait in ms."""
    return f"{value / 10**6:.3g}" if name.startswith("used") else f"{value:.0f}"


def rows_of(program: str) -> Iterator[tuple[str, list[Line], list[Line]]]:
    """For each group: its base's name, the lines of the base, and the predicted lines."""
    for place, group in enumerate(GROUPS):
        yield group.base.name, *predicted_lines(program, group, read_kept(HERE / f"kept/{place + 1}"))


def table_of(program: str) -> list[str]:
    """The lines of the table as a page has it."""
    lines = ["| Setting | Value | Predicted | Measured, median of three | Difference |", "|---|---|---|---|---|"]
    for _, _, predicted in rows_of(program):
        lines += [f"| {line.setting} | {NAMES[line.name]} | {text_of(line.name, line.predicted)} | {text_of(line.name, line.median)} | "
                  f"{line.error:+.1f} % |" for line in predicted]
    return lines


def label_of(line: Line, is_named: bool) -> str:
    """What is below a pair of bars, in short lines."""
    text = line.setting
    for words, broken in BREAKS.items():
        text = text.replace(words, broken)
    return "\n".join([*text.split("~"), *([NAMES[line.name]] if is_named else [])])


def draw(program: str, path: str) -> None:
    """A picture: a panel for each kind of value, and for each setting what was measured, with its range, and predicted."""
    lines = [line for _, _, predicted in rows_of(program) for line in predicted]
    title = "Predicted and measured values on veth pairs; the range of three measurements"
    import matplotlib.figure

    with matplotlib.rc_context(STYLE):
        figure = matplotlib.figure.Figure(figsize=(9.6, 3.8), dpi=100, layout="constrained")
        for number, (axes, (name, names)) in enumerate(zip(figure.subplots(1, len(PANELS), gridspec_kw={"width_ratios": WIDTHS}), PANELS.items())):
            draw_panel(axes, name, [line for line in lines if line.name in names], len(names) > 1)
            if number == 0:
                axes.legend(loc="upper right", frameon=False, fontsize=8)
        figure.suptitle(title, fontsize=10)
        told = "; ".join(f"{line.setting}, {NAMES[line.name]}: measured {text_of(line.name, line.median)}, predicted {text_of(line.name, line.predicted)}"
                         for line in lines)
        figure.savefig(path, metadata={"Title": title, "Description": f"{title}. {told}."})


def draw_panel(axes: Any, title: str, lines: list[Line], is_named: bool) -> None:
    """Pairs of bars, side by side; those of predictions are hatched too."""
    scale = 10**6 if "ms" in title else 1
    places, middles = range(len(lines)), [line.median / scale for line in lines]
    ends = [[(line.median - min(line.measured)) / scale for line in lines], [(max(line.measured) - line.median) / scale for line in lines]]
    axes.bar([place - 0.2 for place in places], middles, 0.4, yerr=ends, capsize=3, color=GREY, ecolor=TEXT, label="measured")
    axes.bar([place + 0.2 for place in places], [line.predicted / scale for line in lines], 0.4, color=BLUE, hatch="//", label="predicted")
    axes.set_title(title, fontsize=9)
    axes.set_xticks(list(places), [label_of(line, is_named) for line in lines], fontsize=7)
    if scale > 1:
        axes.set_yscale("log")
        axes.set_ylim(0.01, 20)
        axes.yaxis.set_major_formatter("{x:g}")


def main(program: str, what: str = "", path: str = "") -> int:
    if what == "--draw":
        draw(program, path)
    elif what in ("--into", "--check"):
        return not has_part(Path(path), BEGIN, END, table_of(program), what == "--into")
    else:
        print(*table_of(program), sep="\n")
    return 0


if __name__ == "__main__":
    sys.exit(main(*sys.argv[1:]))
