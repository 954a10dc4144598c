"""The programs that pages show: each, and each part of one, is compiled somewhere."""

from __future__ import annotations

import pathlib
import re
import textwrap
from collections.abc import Iterator

import page_commands

TOP = pathlib.Path(__file__).resolve().parent.parent
# A shown block that begins like this is a program, or a part of one.
CODE = re.compile(r'(//|/\*|"""|#!?\[|#include|(pub|ghost|use|impl|fn|const|static|struct|enum|trait|let|mod|abbrev|int|limit) )')
ENDINGS = (".rt", ".antt", ".rs", ".c", ".cc", ".cpp", ".h", ".hpp", ".py")


def sources() -> list[str]:
    """The texts of all programs here."""
    return [(TOP / name).read_text() for name in page_commands.listed() if name.endswith(ENDINGS) and (TOP / name).is_file()]


def stands_in(block: list[str], text: str) -> bool:
    """Whether these lines occur consecutively in a text, all indented by the same amount or not at all."""
    lines = text.splitlines()
    starts = [place for place, line in enumerate(lines) if line.strip() == block[0]]
    return any(textwrap.dedent("\n".join(lines[place : place + len(block)])).splitlines() == block for place in starts)


def snippets(page: pathlib.Path) -> Iterator[str]:
    """What a page shows and nothing compiles: it has to occur word for word in a program here."""
    texts = sources()
    for shown in page_commands.blocks(page.read_text()):
        block = textwrap.dedent("\n".join(shown)).strip("\n").splitlines()
        if CODE.match(block[0]) and not any(stands_in(block, text) for text in texts):
            yield f"no program here has what it shows: {block[0]}"
