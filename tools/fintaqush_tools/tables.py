"""Formats what-if's results for people: a table with units that has only the columns that differ, and lines with conclusions."""

from __future__ import annotations

from collections.abc import Iterable, Mapping, Sequence
from typing import Any

from fintaqush_tools.machine import IN_NS, VALUES, WAITS
from fintaqush_tools.texts import aligned

Row = Mapping[str, Any]

HEADINGS = {
    "used_per_second": "used k/s",
    **{name: name.replace("_", " ") + " µs" for name in WAITS},
    **{name: name.replace("_percent", " %") for name in VALUES if name.endswith("_percent")},
}
P99 = "used_p99"
QUIET = (
    "queues_of_a_processor",
    "late",
    "delivered_p90",
    "used_p90",
    "delivered_p999",
    "used_p999",
    "timers",
    "wakes",
)  # only in CSV or JSON


def digits(value: float) -> str:
    """Formats a number with at least three significant digits."""
    return f"{value:.0f}" if value >= 100 else f"{value:.1f}" if value >= 10 else f"{value:.2f}"


def cell(name: str, text: Any) -> str:
    """Formats a value with the unit of its column."""
    value = float(text)
    if name in WAITS or name.replace("_", "-") in IN_NS:
        return digits(value / 1000) if value else "0"
    if name == "used_per_second":
        return digits(value / 1000)
    return f"{value:.1f}" if name.endswith("_percent") else str(text)


def shown_cell(name: str, row: Row) -> str:
    """Formats a value, with the minimum and the maximum if there were several seeds."""
    middle = cell(name, row[name])
    ends = [cell(name, row[f"{name}_{end}"]) for end in ("least", "most")] if f"{name}_least" in row else []
    return f"{middle} ({ends[0]} to {ends[1]})" if ends and ends[0] != ends[1] else middle


def heading(name: str) -> str:
    return HEADINGS.get(name, f"{name} µs" if name.replace("_", "-") in IN_NS else name)


def table(rows: Sequence[Row], varied: Iterable[str]) -> list[str]:
    """Returns the table of these rows; below it what is the same in all of them."""
    columns, same = [("row", [str(place) for place in range(1, len(rows) + 1)])], []
    columns += [(heading(name), [cell(name, row[name]) for row in rows]) for name in varied]
    for name in VALUES:
        cells = [shown_cell(name, row) for row in rows]
        if name in QUIET:
            continue
        if len(rows) > 1 and len(set(cells)) == 1:
            same.append(f"{heading(name)} {cells[0]}")
        else:
            columns.append((heading(name), cells))
    lines = aligned(list(zip(*([first, *cells] for first, cells in columns))))
    return [*lines, f"the same in all rows: {', '.join(same)}"] if same else lines


# ---- conclusions


def lost(row: Row) -> int:
    return int(row["dropped"]) + int(row["refused"])


def lost_percent(row: Row) -> float:
    return 100 * lost(row) / max(1, int(row["arrived"]))


def listed(places: Sequence[int]) -> str:
    return f"row{'s' if len(places) > 1 else ''} {', '.join(map(str, places))}"


def in_order(rows: Sequence[Row]) -> list[int]:
    """Returns the indices of the rows by their 99th percentile of waits to the end of use, the lowest one first: of those at the highest load, and of
    these those that lose no packet."""
    top = max((float(row["load"]) for row in rows), default=0)
    whole = [place for place, row in enumerate(rows) if float(row["load"]) == top and not lost(row) and int(row[P99])]
    return sorted(whole, key=lambda place: int(rows[place][P99]))


def of_waits(rows: Sequence[Row]) -> list[str]:
    """Returns which row has the lowest 99th percentile of waits, and how far the others are from it."""
    waits, order = [int(row[P99]) for row in rows], in_order(rows)
    if len(rows) < 2:
        return []
    if len(set(waits)) == 1:
        return ["no setting here changes the 99th percentile of waits to the end of use"]
    if not order:
        return ["no row has the lowest 99th percentile of waits, because each loses packets at the highest load"]
    best, worst = waits[order[0]], max(waits)
    places = listed([place + 1 for place in sorted(order) if waits[place] == best])
    of = " without losses" * any(map(lost, rows)) + " at the highest load" * (len({row["load"] for row in rows}) > 1)
    least, most = f"{digits(best / 1000)} µs", f"{digits(worst / 1000)} µs, of row {waits.index(worst) + 1}"
    return [f"{places}: the lowest 99th percentile of waits to the end of use{of}, {least}; the highest is {most}"]


def of_seeds(rows: Sequence[Row]) -> list[str]:
    """Returns a warning if the order of the two best rows may be chance, because their ranges over the seeds overlap."""
    order = in_order(rows)
    if len(order) < 2 or f"{P99}_least" not in rows[0] or rows[order[0]][P99] == rows[order[1]][P99]:
        return []
    if int(rows[order[0]][f"{P99}_most"]) < int(rows[order[1]][f"{P99}_least"]):
        return []
    both = f"rows {order[0] + 1} and {order[1] + 1}"
    return [f"{both} overlap in their 99th percentiles over the seeds: which one is lower may be chance"]


def of_losses(rows: Sequence[Row]) -> list[str]:
    """Returns which rows lose packets."""
    places = [place for place, row in enumerate(rows, 1) if lost(row)]
    if not places:
        return ["no packet is lost in any row"] if len(rows) > 1 else ["no packet is lost"]
    return [f"{listed(places)}: packets are lost, up to {max(map(lost_percent, rows)):.1f} %"]


def of_budgets(rows: Sequence[Row]) -> list[str]:
    """Returns whether the budget ever ends a run."""
    runs = [row for row in rows if int(row["runs"]) and str(row["budget"]) != "0"]
    if runs and not any(int(row["squeezed"]) for row in runs):
        return ["the budget never binds: no run is squeezed"]
    return []


def what_follows(rows: Sequence[Row]) -> list[str]:
    """Returns the conclusions from these rows, in a few lines."""
    return [*of_waits(rows), *of_seeds(rows), *of_losses(rows), *of_budgets(rows)] if rows else []
