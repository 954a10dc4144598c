#!/usr/bin/env python3
"""scripts/abi.py [--check | --calls | --statuses]: writes what others have of include/fintaqush.h, the description of the C library's ABI: whole files,
and in others the lines between two lines that stay. With --check it writes nothing, and prints each file that isn't so; without clang,
which reads the header, it then only checks that the header is the one that was read. --calls prints the exported calls, --statuses
the name and the number of each status. Exit status: 0; 1 a file isn't so, or the header is wrong; 64 bad usage; 69 no clang.
"""

from __future__ import annotations

import hashlib
import json
import re
import shutil
import sys
from collections.abc import Iterable, Iterator, Mapping
from pathlib import Path
from typing import Any

import abi_python
import abi_rattle
import abi_rust
import header
from header import exports, faults, names_of, statuses
from parts import NoPart, TOP, filled, marked, put, with_part

MAP_HEAD = """\
# The calls of the shared library, by the version that brought each, as include/fintaqush.h says. A call never leaves its version: a
# program that was linked with it asks for it there. scripts/abi.py writes this file.
"""
ROW = 16  # calls in a row of the table of docs/C.md


def as_json(read: Mapping[str, Any]) -> str:
    """Returns what was read, with a line for each declaration."""
    groups = []
    for group in read["groups"]:
        blocks = []
        for block in group["blocks"]:
            items = ",\n".join(f"   {json.dumps(item)}" for item in block["items"])
            blocks.append(f'  {{"about": {json.dumps(block["about"])}, "items": [\n{items}\n  ]}}')
        fields = ", ".join(f"{json.dumps(key)}: {json.dumps(group[key])}" for key in ("name", "title", "about"))
        groups.append(f' {{{fields}, "blocks": [\n' + ",\n".join(blocks) + "\n ]}")
    fields = ", ".join(f"{json.dumps(key)}: {json.dumps(read[key])}" for key in ("version", "header"))
    return f'{{{fields}, "groups": [\n' + ",\n".join(groups) + "\n]}\n"


# ---- parts of the header, of the shared library's map, and of pages


def cases(names: Iterable[tuple[str, str]]) -> list[str]:
    """Returns the cases of a switch that returns the text of each number."""
    return filled((f'case {constant}: return "{text}";' for constant, text in names), "    ", header.WIDEST)


def exports_map(read: Mapping[str, Any]) -> str:
    """Returns the version script of the shared library: each version has the calls that came with it."""
    since: dict[tuple[int, ...], list[str]] = {}
    for item in exports(read):
        since.setdefault(tuple(int(number) for number in item["since"].split(".")), []).append(item["name"])
    text, before = MAP_HEAD, ""
    for version in sorted(since):
        name = "FINTAQUSH_" + ".".join(str(number) for number in version)
        calls = "".join(f"        {call};\n" for call in sorted(since[version]))
        text += f"{name} {{\n    global:\n{calls}" + ("" if before else "    local: *;\n") + f"}}{before};\n\n"
        before = f" {name}"
    return text.rstrip("\n") + "\n"


def table(read: Mapping[str, Any]) -> Iterator[str]:
    """Yields the table of the calls by kind; in parentheses is the kernel's function whose step a call makes."""
    yield from ("| What | Calls |", "|---|---|")
    for group in read["groups"]:
        calls = [call for block in group["blocks"] for call in calls_of_block(block)]
        for first in range(0, len(calls), ROW):
            yield f"| {'' if first else coded(group['title'])} | {', '.join(calls[first : first + ROW])} |"


def calls_of_block(block: Mapping[str, Any]) -> list[str]:
    """Returns the calls of a block, without those for bindings; only a comment of one call names the kernel's function of it, in its first
    sentence."""
    names = [
        item["name"] for item in block["items"] if item["kind"] == "function" and not item["name"].endswith("_sized")
    ]
    kernels = re.search(r"\(((?!fq_)\w*_\w+)\)", re.split(r"[.:;] ", block["about"])[0])
    return [f"`{name}`" + (f" (`{kernels[1]}`)" if kernels and len(names) == 1 else "") for name in names]


def coded(text: str) -> str:
    """Returns a text of a comment as Markdown."""
    return re.sub(r"((?:\w+/)?\w*_\w+(?:\.c\b)?)", r"`\1`", text)


# ---- all of it


def all_texts(read: dict[str, Any]) -> dict[Path, str]:
    """Returns the texts of all files that are made of the header, and sets the digest of the header with its own parts."""
    text = header.HEADER.read_text()
    for what, names in (
        ("statuses", [(name, name) for _, name, _ in statuses(read)]),
        ("faults", list(zip(names_of(read, "fq_fault"), (name for _, name in faults(read))))),
    ):
        text = with_part(text, *marked("    /* ", "abi.py", " */", what), cases(names))
    read["header"] = hashlib.sha256(text.encode()).hexdigest()
    fault, page = TOP / "bindings/rust/src/fault.rs", TOP / "docs/C.md"
    return {
        header.HEADER: text,
        header.ABI: as_json(read),
        TOP / "scripts/exports.map": exports_map(read),
        TOP / "bindings/rust/src/sys.rs": abi_rust.sys_rs(read),
        TOP / "bindings/rust/src/sys/functions.rs": abi_rust.functions_rs(read),
        TOP / "bindings/rust/src/calls.rs": abi_rust.calls_rs(read),
        fault: with_part(fault.read_text(), *marked("    // ", "abi.py", ""), abi_rust.faults_rs(read)),
        TOP / "bindings/python/fintaqush/_abi.py": abi_python.module(read),
        page: with_part(page.read_text(), *marked("<!-- ", "abi.py", " -->"), table(read)),
        **abi_rattle.texts(read),
    }


def main() -> int:
    """Writes, checks or prints, as the arguments say."""
    words = sys.argv[1:]
    if words == ["--help"]:
        print(__doc__, end="")
        return 0
    if words not in ([], ["--check"], ["--calls"], ["--statuses"]):
        print("usage: scripts/abi.py [--check | --calls | --statuses]", file=sys.stderr)
        return 64
    if words in (["--calls"], ["--statuses"]):
        rows = [f"{name} {number}" for number, name, _ in statuses(header.abi())]
        print(*(rows if words == ["--statuses"] else sorted(item["name"] for item in exports(header.abi()))), sep="\n")
        return 0
    is_check = bool(words)
    try:
        header.check_width()
        if shutil.which("clang"):
            read = header.read_header()
        elif not is_check:
            print("abi: there is no clang, which reads the header", file=sys.stderr)
            return 69
        else:
            read = header.abi()
            if read["header"] != header.digest():
                print("include/fintaqush.h isn't what was read into scripts/abi.json: run scripts/abi.py, with clang")
                return 1
        return 1 if put(all_texts(read), is_check, "abi.py") and is_check else 0
    except (header.WrongHeader, NoPart) as fault:
        print(f"abi: {fault}", file=sys.stderr)
        return 1


if __name__ == "__main__":
    sys.exit(main())
