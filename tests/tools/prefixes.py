"""Computes the series of a trace from the reports of all its prefixes: the expected output of napi_series."""

from __future__ import annotations

import csv
import functools
import io
from collections.abc import Sequence
from typing import Any

from tooltest import REPLAY, process

from fintaqush_tools.reports import ROWS

COLUMNS = "row,moment,device,state,waiting,arrived,dropped,polled,in_flight,limit,avail,stopped,polls,work,squeezed,word,list,gave".split(",")


def report_of(rows: Sequence[str], words: Sequence[str], header: str) -> list[list[str]]:
    """Returns the report of a trace with these lines, each as its fields."""
    done = process(REPLAY, *words, text=header + "".join(f"{row}\n" for row in rows))
    if done.returncode != 0:
        raise ValueError(done.stderr)
    return [line.split() for line in done.stdout.splitlines()]


def polled_in(report: list[list[str]]) -> dict[str, tuple[int, int]]:
    """Returns for each device of a report its polls and the packets that they took."""
    return {line[1]: (int(line[14]), int(line[8])) for line in report if line[0] == "device"}


def values_of(number: int, row: str, report: list[list[str]], report_before: list[list[str]]) -> dict[str, Any]:
    """Returns the line of a series after that row."""
    moment, device, _, _ = row.split(",")
    told: dict[str, Any] = dict.fromkeys(COLUMNS, "")
    told.update(row=number, moment=int(moment), device=int(device))
    before = polled_in(report_before)
    told["gave"] = "".join(f" {each}:{gave - before[each][1]}" for each, (polls, gave) in polled_in(report).items() if each in before and polls > before[each][0])
    for line in report:
        if line[:2] == ["device", device]:
            names = dict(zip(line[3::2], line[4::2]))
            told.update(state=line[2], waiting=names["left"], **{name: names[name] for name in ("arrived", "dropped", "polled")})
        elif line[:2] == ["tx", device]:
            names = dict(zip(line[2::2], line[3::2]))
            told.update({name: names[name] for name in ("limit", "avail", "stopped")})
            told["in_flight"] = int(names["limit"]) - int(names["avail"])
        elif line[:2] == ["napi", device]:
            told["word"] = line[line.index("word") + 1]
        elif line[0] == "list":
            told["list"] = "".join(f" {each}" for each in line[1:])
        elif line[0] in ROWS and line[1] == str(number):
            names = dict(zip(line[2::2], line[3::2]))
            told.update({name: names[name] for name in ("polls", "work", "squeezed") if name in names})
    return told


def series_by_reports(rows: Sequence[str], words: Sequence[str], every: int, header: str) -> str:
    """Returns the text of the series, with a replay for each of its rows."""

    @functools.lru_cache(2)
    def report(count: int) -> list[list[str]]:
        return report_of(rows[:count], words, header)

    text = io.StringIO()
    writer = csv.DictWriter(text, COLUMNS, lineterminator="\n")
    writer.writeheader()
    for number in range(every, len(rows) + 1, every):
        before = report(number - 1)
        writer.writerow(values_of(number, rows[number - 1], report(number), before))
    return text.getvalue()
