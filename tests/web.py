"""Compares the programs of web/fintaqush.wasm, in one process of node, with the native ones: status, output and messages. Inputs are the runs of
runs.txt, the examples, and COUNT random traces and arrivals for each kind of run.

    web.py PROGRAMS [COUNT]

PROGRAMS is the folder crates/ with the built programs. Prints each difference and, last, how many runs were the same.
"""

from __future__ import annotations

import base64
import json
import pathlib
import random
import subprocess
import sys
import tempfile
from collections.abc import Iterator

from machine import FLOWS, HEADER, random_options, random_rows, settings_of, text_of, written
from runs import runs

TOP = pathlib.Path(__file__).resolve().parent.parent
sys.path.insert(0, str(TOP / "bench"))
from random_trace import Trace  # noqa: E402

Job = tuple[str, list[str], bytes]
SERIES: list[list[str]] = [[], ["--polls"], ["--raise"], ["--raise", "--polls"], ["--raise", "--rows"], ["--raise=2", "--rows"], ["--every", "3"]]


def settings(dice: random.Random) -> list[str]:
    return [f"--{name}={dice.randint(1, most)}" for name, most in (("budget", 80), ("weight", 64), ("window", 9)) if dice.random() < 0.6]


def jobs(count: int) -> Iterator[Job]:
    """The runs to compare."""
    dice = random.Random(20261201)
    for _, words, text in runs():
        yield from ((name, words, text) for name in ("napi_serial", "napi_series", "napi_machine"))
    for path in sorted((TOP / "examples").glob("*.csv")):
        text = path.read_bytes()
        yield "napi_serial", settings(dice), text
        yield from (("napi_series", [*own, *settings(dice)], text) for own in SERIES)
    for seed in range(count):
        trace = Trace(seed, 1 + seed % 2).text().encode()
        yield "napi_serial", settings(dice), trace
        yield "napi_series", [*dice.choice(SERIES[:4]), *settings(dice)], trace
        yield "napi_series", [*dice.choice(SERIES[4:6]), *settings(dice)], trace
        chosen = random_options(dice)
        given = settings_of(chosen)
        rows = text_of(random_rows(dice, given), FLOWS if given["queues"] > 1 else HEADER)
        yield "napi_machine", written(dice, chosen), rows.encode()


def packed(text: bytes) -> str:
    return base64.b64encode(text).decode()


def main(programs: str, count: str = "400") -> int:
    every, same, faults, wrong = list(jobs(int(count))), 0, 0, 0
    with tempfile.NamedTemporaryFile("w", encoding="ascii") as file:
        for name, words, text in every:
            own = [packed(word.encode(errors="surrogateescape")) for word in words]
            file.write(json.dumps({"program": name, "words": own, "input": packed(text)}) + "\n")
        file.flush()
        command = ["node", str(TOP / "tests/web.cjs"), str(TOP / "web/fintaqush.wasm"), file.name]
        lines = subprocess.run(command, stdout=subprocess.PIPE, text=True, check=True).stdout.splitlines()
    for (name, words, text), line in zip(every, lines):
        native = subprocess.run([f"{programs}/{name}/out/{name}", *words], input=text, capture_output=True, check=False)
        seen = json.loads(line)
        wanted = {"status": native.returncode, "out": packed(native.stdout), "said": packed(native.stderr)}
        same, faults = same + (seen == wanted), faults + (native.returncode != 0)
        if seen != wanted:
            print(f"{name} {' '.join(words)} of {text[:300]!r}: {seen['status']} and not {wanted['status']}")
    for line in filter(None, lines[len(every) :]):
        print(line)
        wrong += 1
    print(f"{same} of {len(every)} runs are the same, {faults} of them faults")
    return int(same != len(every) or faults < 100 or wrong > 0)


if __name__ == "__main__":
    sys.exit(main(*sys.argv[1:]))
