#!/usr/bin/env python3
"""picture.py BOTTLENECK.TXT FILE.png: draws latency, drops and the application's time over the offered load, with a curve for each setting."""
import sys

import matplotlib
matplotlib.use("Agg")
from matplotlib.figure import Figure

# For each setting (a budget and napi_defer_hard_irqs): its name, its colour, its mark, and the width of its line, so that equal curves show
# through each other.
SETTINGS = {("0", "0"): ("interrupts without polling", "#757575", "o", 1.5), ("16", "0"): ("budget 16", "#4fb894", "s", 5),
            ("300", "0"): ("budget 300", "#b85000", "^", 1.5), ("300", "2"): ("budget 300, deferral by 100 \u00b5s", "#5b55a5", "D", 1.5)}
PANELS = (("latency, 99th percentile, ms", lambda row: float(row["p99_us"]) / 1000),
          ("dropped packets, %", lambda row: 100 * sum(int(row[name]) for name in ("disc_full", "ring_full", "socket_full")) / int(row["sent"])),
          ("the processor's time for the application, %", lambda row: float(row["use%"])))


def main(table: str, picture: str) -> None:
    with open(table, encoding="utf-8") as file:
        names = file.readline().split()
        rows = [dict(zip(names, line.split())) for line in file]
    figure = Figure(figsize=(5.4, 9), layout="constrained")
    for number, (axes, (title, value)) in enumerate(zip(figure.subplots(3, 1), PANELS)):
        for (budget, defer), (name, color, mark, width) in SETTINGS.items():
            points = [(int(row["load"]) / 1000, value(row)) for row in rows if (row["budget"], row["defer"]) == (budget, defer)]
            axes.plot(*zip(*points), color=color, marker=mark, markersize=4, linewidth=width, label=name)
        axes.set(title=title, xlim=(0, 400), xlabel="offered load, thousand packets a second")
        axes.grid(axis="y", color="#dddddd")
        axes.set_yscale("log") if number == 0 else axes.set_ylim(0, 100)
        if number == 1:
            axes.legend(loc="upper left", frameon=False, fontsize=9)
    figure.savefig(picture, dpi=100, metadata={"Title": "A bottleneck under load, by polling settings", "Software": None})


if __name__ == "__main__":
    main(*sys.argv[1:])
