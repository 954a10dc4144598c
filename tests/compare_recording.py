"""Compares the replay of a recording with what the kernel did there, row by row.

    python3 tests/compare_recording.py mine [--budget 300 ..]

NAME.csv and NAME.work are written by fintaqush from-ftrace; NAME.notes, if it exists, lists the rows for which the recording is incomplete.
Each row that polls must have the kernel's work. A row with other work is printed with its reason: a note on it, which explains at most as many
packets as it names, or an earlier noted row whose difference it takes back (packets that one run didn't take are left to later ones). The
last line counts the rows that agree and those that differ. The exit status is 0 only if all rows without a reason agree, so that the totals
differ by no more than the notes explain.
"""

from __future__ import annotations

import re
import sys
from collections.abc import Mapping, Sequence
from pathlib import Path

sys.path.insert(0, str(Path(__file__).resolve().parent.parent / "tools"))

from fintaqush_tools.errors import Refusal, why  # noqa: E402
from fintaqush_tools.processes import program, run_program  # noqa: E402
from fintaqush_tools.reports import ROWS, objects_of  # noqa: E402

MOST = 10  # lines of each kind that are printed


def work_of(text: str) -> list[int]:
    """Returns the kernel's work of each row that polls."""
    works = []
    for place, line in enumerate(text.splitlines(), 1):
        found = re.fullmatch(r"polls \d{1,9} work (\d{1,9})", line)
        if not found:
            raise Refusal(f".work: line {place} isn't of the form `polls P work W`")
        works.append(int(found[1]))
    return works


# How many packets more or fewer than the kernel the replay may poll in a row, by the notes on the row.
MORE = re.compile(r"packets that arrived while it was under way and stand before it: (\d{1,9});")
OTHERS = re.compile(r"polls in it of devices that are in no pair: (\d{1,9})(?:, of (\d{1,9}) packets)?")
FEWER = re.compile(r"packets that it polled and that were sent after it .*, by their events: (\d{1,9})")
WEIGHT = 64  # packets that a poll takes at most


def noted_in(text: str) -> dict[int, tuple[int, int]]:
    """Returns for each noted row how many packets more and how many fewer the replay may poll there than the kernel."""
    notes: dict[int, tuple[int, int]] = {}
    for row, note in re.findall(r"^row (\d{1,9}): (.*)", text, re.MULTILINE):
        more, fewer = notes.get(int(row), (0, 0))
        found, others = MORE.match(note), OTHERS.match(note)
        if found:
            more += int(found[1])
        elif others:  # which the budget of the run was for too
            more += int(others[2]) if others[2] else WEIGHT * int(others[1])
        else:
            found = FEWER.match(note)
            fewer += int(found[1]) if found else 0
        notes[int(row)] = more, fewer
    return notes


def differences(
    rows: Sequence[tuple[int, int]], kernel: Sequence[int], notes: Mapping[int, tuple[int, int]]
) -> tuple[list[str], list[str]]:
    """Returns two lists of lines about rows whose work differs: those with a reason, and those without. A note explains at most its packets, and
    a later row takes back at most what the explained ones before it left. At the end only packets that the last rows' notes have may be left.
    """
    explained, unexplained, carried, source, last = [], [], 0, None, 0
    for (row, work), theirs in zip(rows, kernel):
        more, fewer = notes.get(row, (0, 0))
        change, last = work - theirs, last + more if more else 0
        if not -fewer - max(0, carried) <= change <= more + max(0, -carried):
            at_most = f", and its notes explain at most {more} more and {fewer} fewer" if more or fewer else ""
            unexplained.append(f"row {row}: work {work}, the kernel {theirs}: OTHER THAN THE KERNEL{at_most}")
            continue
        source = row if more or fewer else source
        if change:
            why = "noted" if more or fewer else f"carries on the difference of row {source}, which is noted"
            explained.append(f"row {row}: work {work}, the kernel {theirs}: {why}")
        carried += change
    if carried > last:
        at_most = f"and the notes explain at most {last}"
        never = f"{carried} packets that the kernel never polled"
        unexplained.append(f"after row {source}: {never}: OTHER THAN THE KERNEL, {at_most}")
    return explained, unexplained


def compared(name: str, settings: Sequence[str]) -> tuple[list[str], bool]:
    """Returns what is printed, and whether the replay has other work than the kernel."""
    trace, kernel = Path(f"{name}.csv").read_bytes(), work_of(Path(f"{name}.work").read_text(encoding="utf-8"))
    noted = Path(f"{name}.notes")
    notes = noted_in(noted.read_text(encoding="utf-8", errors="replace")) if noted.exists() else {}
    report = objects_of(run_program(program("napi_serial"), settings, trace))
    if not any(line.get("arrived") for line in report):
        raise Refusal("it has no arrivals, so there is nothing to compare")
    rows = [(line["row"], line["work"]) for line in report if line["line"] in ROWS]
    explained, unexplained = differences(rows, kernel, notes)
    is_other = bool(unexplained) or len(rows) != len(kernel)
    differ = sum(line.startswith("row ") for line in unexplained)
    packets, agreed = sum(work for _, work in rows), min(len(rows), len(kernel)) - len(explained) - differ
    lines = [*unexplained[:MOST], *explained[:MOST]]
    if len(rows) != len(kernel):
        lines.append(f"{len(rows)} rows poll, and the kernel recorded {len(kernel)}: OTHER THAN THE KERNEL")
    return [
        *lines,
        f"{len(rows)} rows, {packets} packets; the kernel {sum(kernel)}; {agreed} rows agree, {differ} differ, {len(explained)} "
        f"others are accounted for by notes: " + ("other than the kernel" if is_other else "as the kernel"),
    ], is_other


def main(name: str, *settings: str) -> int:
    try:
        lines, is_other = compared(name.removesuffix(".csv"), settings)
    except (Refusal, OSError, UnicodeError) as error:
        print(f"compare_recording.py: {name}: {why(error)}", file=sys.stderr)
        return 1
    print(*lines, sep="\n")
    return int(is_other)


if __name__ == "__main__":
    sys.exit(main(*sys.argv[1:]))
