"""Where the sources return out of memory: each place passes on an allocation that failed, and PLACES lists them all.

A body can write `Err(AllocError)`, or the `TableBack` of a table that couldn't be made, without any allocation, and no clause rejects that.
So the places are counted in each file: a new place fails this test until it is listed, and a removed one until it is taken off the list.
Types, patterns, comparisons, texts and the test crates don't count. Each file is a test; the last line is `N passed, M failed`.
"""

from __future__ import annotations

import pathlib
import re
import subprocess
import sys
from collections.abc import Iterator

from judging import Judged, judge

TOP = pathlib.Path(__file__).resolve().parent.parent
# In how many places each file returns out of memory, and which allocations failed there.
PLACES = {
    "device_rows/src/fault.rt": (2, "`From<AllocError>`: the growth that `?` passes on; `ReadError::OutOfMemory` of the reader"),
    "device_rows/src/source.rt": (2, "`From<AllocError>`; a read with `ErrorKind::OutOfMemory`, of the reader's own buffer"),
    "device_rows/src/trace.rt": (2, "the next record: `NextRecord::OutOfMemory`"),
    "device_shared/src/shared_receive.rt": (2, "the ring, the instance"),
    "device_bench/src/transmit.rt": (1, "the transmit ring"),
    "files_c/src/machine_fault.rt": (1, "an error of the machine, and the report's bytes, which a `Vec` takes"),
    "files_c/src/machine_calls.rt": (2, "an error that `fault_status` names so; the message of a fault"),
    "machine/src/arrivals.rt": (2, "the next record: `NextRecord::OutOfMemory`"),
    "machine/src/fault.rt": (2, "`From<AllocError>`; `ReadError::OutOfMemory` of the reader"),
    "napi_c/src/driver.rt": (1, "the driver, or its box"),
    "napi_c/src/ends.rt": (1, "a box"),
    "napi_c/src/list.rt": (2, "a box, the list"),
    "napi_c/src/places.rt": (3, "the ring, two boxes"),
    "napi_c/src/ring.rt": (2, "a box, the ring"),
    "napi_c/src/shared.rt": (4, "boxes, the list of callers, the instance"),
    "napi_c/src/transmit.rt": (2, "the transmit ring, a box"),
    "napi_calls/src/instance.rt": (2, "the table, the callers"),
    "napi_word/src/making.rt": (3, "`TableBack`: the list of passes, that of slots, the table"),
    "poll_engine/src/setup/opening.rt": (2, "the ring, the instance"),
    "poll_engine/src/list_ends.rt": (1, "the queue or its ends"),
    "poll_engine/src/fault.rt": (1, "`From<AllocError>`"),
    "poll_engine/src/setup/pollers.rt": (1, "the shared list"),
    "poll_engine/src/run.rt": (1, "an out of memory of the run"),
    "files_c/src/replay_fault.rt": (1, "the trace's fault, and the report's bytes, which a `Vec` takes"),
    "text_io/src/fault.rt": (1, "`From<AllocError>`"),
    "text_io/src/program.rt": (2, "a word of the command line"),
    "replay/src/stations.rt": (1, "`WorkFault::OutOfMemory` of the workers"),
    "text_io/src/options.rt": (1, "what `clap` allocates"),
    "text_io/src/args.rt": (1, "`From<AllocError>`"),
    "rx_ring/src/pair.rt": (2, "the ring's box, its places"),
    "tx_ring/src/ring.rt": (1, "the ring's places"),
    "place_ring/src/pair.rt": (1, "the ring"),
}
NAME = re.compile(r"\b(?:\w+::)*(?:AllocError|TableBack|OutOfMemory|OUT_OF_MEMORY)\b")
TEXT = re.compile(r"""//[^\n]*|b?"(?:[^"\\]|\\.)*\"""")
# A clause, or another ghost item, up to where its brackets close, and an import.
GHOST = re.compile(r"^ *(?:(?:pub )?ghost\b|requires\b|ensures\b|(?:pub )?use\b)", re.M)


def code(text: str) -> str:
    """The text without comments, literals, ghost items, clauses and imports."""
    text = TEXT.sub("", text)
    found = GHOST.search(text)
    while found:
        at, depth = found.end(), 0
        while at < len(text) and not (depth == 0 and text[at] in ";\n" and "{" in text[found.start() : at] + (text[at] == ";") * "{"):
            depth += (text[at] in "({[") - (text[at] in ")}]")
            at += 1
        text = text[: found.start()] + text[at:]
        found = GHOST.search(text)
    return text


def is_value(text: str, found: re.Match[str]) -> bool:
    """Whether the name is a value that is returned: not a declaration, a type, a pattern or part of a comparison."""
    before, behind = text[: found.start()].rstrip(), text[found.end() :].lstrip()
    if "::" not in found[0] and found[0] == "OutOfMemory":
        return False  # the variant where it is declared
    if found[0] == "OUT_OF_MEMORY" and behind.startswith(":"):
        return False  # the constant
    if found[0].endswith(("AllocError", "TableBack")) and (behind.startswith(">") or re.search(r"[\w)]:$|->$|\b(for|struct)$", before)):
        return False
    behind = re.sub(r"^\{[^{}]*\}", "", behind)  # its fields
    return not re.match(r"\)*\s*(=>|\||if\b)", behind) and not before.endswith(("==", "!="))


def checks() -> Iterator[Judged]:
    counts = {}
    for name in subprocess.run(["git", "ls-files", "crates/*/src/*.rt"], cwd=TOP, capture_output=True, text=True, check=True).stdout.split():
        if not name.split("/")[1].endswith("_tests") and (TOP / name).exists():
            text = code((TOP / name).read_text())
            counts[name.removeprefix("crates/")] = sum(is_value(text, found) for found in NAME.finditer(text) if "ErrorKind" not in found[0])
    for name in sorted({*PLACES, *(it for it in counts if counts[it])}):
        wanted, found = PLACES.get(name, (0, ""))[0], counts.get(name, 0)
        why = f"{found} places return out of memory, and tests/out_of_memory.py lists {wanted}"
        yield f"crates/{name}", [why] * (wanted != found)


if __name__ == "__main__":
    sys.exit(judge(checks()))
