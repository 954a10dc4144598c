"""The runs of runs.txt, for the scripts that execute them."""

from __future__ import annotations

import itertools
import os
from collections.abc import Iterator

TESTS = os.path.dirname(os.path.abspath(__file__))


def runs() -> Iterator[tuple[str, list[str], bytes]]:
    """The runs of runs.txt: name, options, input."""
    name: str | None = None
    words: list[str] = []
    text: list[str] = []
    for line in itertools.chain(open(os.path.join(TESTS, "runs.txt"), errors="surrogateescape"), ["run"]):
        kind, _, rest = line.rstrip("\n").partition(" ")
        if kind == "run":
            if name:
                yield name, words, "".join(text).encode(errors="surrogateescape")
            name, words, text = rest, [], []
        elif kind == "word":
            words.append(rest)
        elif kind == "in" or kind.startswith("in*"):
            text.append((rest + "\n") * int(kind[3:] or 1))
