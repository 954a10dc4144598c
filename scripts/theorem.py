"""The definitions that the theorem of docs/ASSURANCE.md cites: the files that define what the table of crates/napi_calls/claims.txt names or what
the types of its values use, and all files that these import, with their lines. Prints a file in each line, then the sum; then the sums of
what the contracts of the calls that make whole runs with threads cite.
"""

from __future__ import annotations

from collections.abc import Iterable, Iterator
import pathlib
import re

import reference

TOP = reference.TOP
WHOLE_RUNS = {"run_workers": "crates/poll_engine/src/run.rt", "replay_threads": "crates/replay/src/threads.rt"}


def imports(path: pathlib.Path, contract: str = "") -> Iterator[pathlib.Path]:
    """Yields the files of definitions in this repository that a file uses, or that a contract in it names."""
    for tree in re.findall(r"^(?:ghost )?use ([^;\n]*);?$", path.read_text(), re.M):
        for names in reference.paths_of(tree):
            file = TOP / "crates" / "/".join(names[1:4])
            is_named = not contract or names[-1] in re.findall(r"\w+", contract)
            if is_named and names[0] == "Rattle" and names[2:3] == ("specs",) and file.with_suffix(".antt").exists():
                yield file.with_suffix(".antt")


def roots() -> Iterator[pathlib.Path]:
    """Yields the files that define what the table names, and those that the types of its values use."""
    crate = TOP / "crates/napi_calls"
    table = re.findall(r"^\|.*$", (crate / "claims.txt").read_text(), re.M)
    named = set(re.findall(r"`(\w+)`", "\n".join(table)))
    for name, modules in reference.definitions("napi_calls").items():
        yield from (crate / f"specs/{module}.antt" for module in modules if name in named)
    yield from imports(crate / "src/types.rt")


def cited(first: Iterable[pathlib.Path]) -> dict[pathlib.Path, int]:
    """Returns the lines of each file that these files cite, and theirs, by the file."""
    found: dict[pathlib.Path, int] = {}
    more = list(first)
    while more:
        path = more.pop()
        if path not in found:
            found[path] = len(path.read_text().splitlines())
            more += imports(path)
    return dict(sorted(found.items()))


if __name__ == "__main__":
    counts = cited(roots())
    for file, lines in counts.items():
        print(f"{lines:5} {file.relative_to(TOP)}")
    print(f"{sum(counts.values()):5} in {len(counts)} files")
    for call, name in WHOLE_RUNS.items():
        contracts = re.findall(rf"^pub fn {call}\b.*?^\{{", (TOP / name).read_text(), re.M | re.S)
        print(f"{sum(cited(imports(TOP / name, contracts[0])).values()):5} of {call}")
