"""Judges what tests in Python find that aren't of unittest: pairs of a thing and what is wrong with it. Also keeps their recordings."""

from __future__ import annotations

import gzip
import json
from collections.abc import Iterable, Sequence
from pathlib import Path
from typing import Any

Judged = tuple[object, Iterable[str]]


class Skipped(list[str]):
    """What a test skips, which is printed at once."""

    def add(self, test: str, what: str) -> None:
        self.append(what)
        print(f"skipped: {test}: {what}", flush=True)


def read_kept(path: Path) -> dict[str, Any]:
    """Returns what was kept under this name: costs, measured values, and the arrivals, which are packed in a second file."""
    kept = json.loads(path.with_suffix(".json").read_text(encoding="utf-8"))
    return {**kept, "arrivals": gzip.decompress(path.with_suffix(".csv.gz").read_bytes()).decode("ascii")}


def write_kept(path: Path, kept: dict[str, Any]) -> None:
    path.parent.mkdir(exist_ok=True)
    path.with_suffix(".csv.gz").write_bytes(gzip.compress(kept["arrivals"].encode("ascii"), 9, mtime=0))
    others = {name: value for name, value in kept.items() if name != "arrivals"}
    path.with_suffix(".json").write_text(json.dumps(others, indent=1) + "\n", encoding="utf-8")


def difference(seen: object, wanted: object) -> list[str]:
    """Returns what is wrong with a value, which is nothing if it is the wanted one."""
    return [] if seen == wanted else [f"other than wanted\n    seen   {seen}\n    wanted {wanted}"]


def judge(pairs: Iterable[Judged], skipped: Sequence[str] = ()) -> bool:
    """Prints what is wrong, and the closing line `N passed, M failed, K skipped`. Returns whether anything is wrong."""
    passed = failed = 0
    for what, wrong in pairs:
        lines = list(wrong)
        passed, failed = passed + (not lines), failed + bool(lines)
        for line in lines:
            print(f"{what}: {line}", flush=True)
    print(f"{passed} passed, {failed} failed, {len(skipped)} skipped")
    return failed > 0
