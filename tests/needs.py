"""What tests need (needs.txt), and how a test says that it skips something: a line `skipped: TEST: WHAT needs NEED (Debian: PACKAGES)`.
As a program it prints each need that a test or a driver names and needs.txt lacks, each row that nothing names, and a difference from
what scripts/test-packages.sh installs; the exit status is 1 if there is one.
"""

from __future__ import annotations

import functools
import pathlib
import re
import shutil
import subprocess
import sys
from collections.abc import Iterator

TOP = pathlib.Path(__file__).resolve().parent.parent
# Patterns by which scripts name what they need.
NAMED = {
    "*.sh": (r"\bskip (?:'[^']*'|\"[^\"]*\") ([\w/.+= -]+)", r"(?:if|!|\|\||&&) has ([\w.+-]+) ", r"(?:\|\||^ +) ?over ([\w/.+-]+)",
             r"this needs ([\w/.+-]+)", r"\bfor program in ([\w+ -]+); do\n +(?:command -v|has) \"\$program\"", r"^ *kernel=([\w/]+)$",
             r"^(?!#).*\bpass_over ([\w-]+)$", r"\bfor compiler in ([\w+ ]+); do\n +! has \"\$compiler\""),
    "*.py": (r"\bskip_without\(\"([^\"]+)\"\)", r"\bis_missing\(\"([^\"]+)\"", r"\bskipUnless\([^\n]*, \"([^\"]+)\"\)"),
    "commands.txt": (r"^    needs: (.*)$",),
}
MADE_UP = ("needs.py", "scripts.sh")  # their needs are none of a test


def rows() -> list[list[str]]:
    lines = [line.partition("#")[0].split() for line in (TOP / "tests/needs.txt").read_text().splitlines()]
    return [row for row in lines if row]


def packages() -> dict[str, list[str]]:
    """The Debian packages for each need; none if no package has it."""
    return {row[0]: [name for name in row[1:] if name != "-"] for row in rows()}


@functools.lru_cache(None)
def is_here(need: str) -> bool:
    """Whether a program is on PATH."""
    return shutil.which(need) is not None


def skipped(test: str, what: str, need: str) -> str:
    """The line for a part that is skipped because `need` is missing. A need that isn't in needs.txt raises KeyError."""
    names = packages()[need]
    return f"skipped: {test}: {what} needs {need}" + (f" (Debian: {' '.join(names)})" if names else "")


def named() -> dict[str, pathlib.Path]:
    """Each need that a script names, with the first file that does."""
    found: dict[str, pathlib.Path] = {}
    listed = subprocess.run(["git", "ls-files", "examples", "scripts", "tests"], cwd=TOP, capture_output=True, text=True, check=True)
    for path in map(pathlib.Path, listed.stdout.split()):
        for pattern in (it for end, patterns in NAMED.items() if path.match(end) and path.name not in MADE_UP for it in patterns):
            for words in re.findall(pattern, (TOP / path).read_text(), re.M):
                found.update({word: found.get(word, path) for word in words.split()})
    return found


def wrong() -> Iterator[str]:
    have, names = packages(), named()
    yield from (f"{path} names {need}, which tests/needs.txt lacks" for need, path in names.items() if need not in have)
    yield from (f"tests/needs.txt has {need}, which nothing names" for need in have if need not in names and need != "*")
    of_all = {name for row in rows() if not row[0].startswith("linux-") for name in row[1:] if name != "-"}
    installed = subprocess.run([TOP / "scripts/test-packages.sh", "--list"], capture_output=True, text=True, check=True).stdout.split()
    yield from (f"tests/needs.txt doesn't say what {line.split()[0]} gives" for line in (TOP / "tests/needs.txt").read_text().splitlines()
                if line and line[0] != "#" and " # " not in line and not line.endswith(" -"))
    if sorted(of_all) != installed:
        yield f"scripts/test-packages.sh installs other packages than tests/needs.txt has: {sorted(of_all ^ set(installed))}"


if __name__ == "__main__":
    found = list(wrong())
    print(*found, sep="\n")
    sys.exit(bool(found))
