#!/usr/bin/env python3
"""Extracts definitions from Linux's sources by name, and prints them in the order of the arguments.

usage: extract.py FOLDER FILE: NAME .. [FILE: NAME ..] ..

A name is a function's, a macro's, or that of the first constant of an enum. One that doesn't occur exactly once is an
error: its name is printed, with status 1, and nothing else.
"""

from __future__ import annotations

import pathlib
import re
import sys

FORMS = [r"^[a-z](?:[^\n;=]|,\n)*?\n?\b{}\([^;{{}}]*\)\n\{{\n.*?^\}}\n",  # a function
         r"^#define {}\b(?:[^\n]*\\\n)*[^\n]*\n", r"^enum (?:\w+ )?\{{\n\s*{}\b.*?^\}};\n"]


def definition(text: str, name: str) -> str | None:
    """The one definition with that name, or None."""
    found = [match[0] for form in FORMS for match in re.finditer(form.format(re.escape(name)), text, re.M | re.S)]
    return found[0] if len(found) == 1 else None


def main(words: list[str]) -> None:
    folder, text, file, parts = pathlib.Path(words[0]), "", "", []
    for word in words[1:]:
        if word.endswith(":"):
            file = word[:-1]
            text = (folder / file).read_text()
            continue
        part = definition(text, word)
        if part is None:
            sys.exit(f"{file} has no {word}, or more than one")
        parts.append(part)
    print("\n".join(parts), end="")


if len(sys.argv) < 4:
    sys.exit(__doc__)
main(sys.argv[1:])
