"""What is claimed to be proved, compared with the sources: each function and clause that a claim names is there, and the function is public.

A claim is a bullet of a crate's claims.txt. Its last lines name the contracts that carry it, as
`` `Type::call`: `clause`, `clause`; `other` ``; a function without clauses after it has one contract without a name. A program's
functions are its own, and count as public.
"""

from __future__ import annotations

import pathlib
import re
from collections.abc import Iterable, Iterator

FUNCTION = re.compile(r'( *)(?:pub(?:\(crate\))? )?(?:const )?(?:unsafe )?(?:extern "C" )?fn (\w+)')
OWNER = re.compile(r"(?:unsafe )?impl(?:<.*?>)? (?:.* for )?(?:&'?\w* ?)?(\w+)|(?:pub )?trait (\w+)")


def clauses_of(path: pathlib.Path) -> Iterator[tuple[str, set[str]]]:
    """Pairs of a public function of a file, alone and with its type before it, and the names of its clauses."""
    owner: str | None = None
    names: set[str] | None = None
    indent, of_all = "", (path.parent / "main.rt").exists()
    for line in path.read_text().splitlines():
        if place := OWNER.match(line):
            owner, of_trait = place[1] or place[2], bool(re.match(r"pub trait|(?:unsafe )?impl(?:<.*?>)? .* for ", line))
        elif line == "}":
            owner = None
        if (start := FUNCTION.match(line)) and (of_all or re.match(r" *pub (?!\()", line) or owner and of_trait):
            indent, names = start[1], set()
            yield start[2], names
            if indent and owner:
                yield f"{owner}::{start[2]}", names
        if names is not None:
            if clause := re.match(r"\s*ensures (?:(\w+) )?\{", line):
                names.add(clause[1] or "")
            if line == indent + "{" or line.endswith(";"):
                names = None


def functions(crates: Iterable[str]) -> dict[str, set[str]]:
    """All functions of these crates by name, each with the clauses of all functions with that name."""
    found: dict[str, list[set[str]]] = {}
    others: list[tuple[str, str]] = []
    for crate in crates:
        for path in pathlib.Path("crates", crate, "src").rglob("*.rt"):
            for name, names in clauses_of(path):
                found.setdefault(name, []).append(names)
        # a facade can re-export a type under another name
        for path in pathlib.Path("crates", crate, "src").glob("lib.rt"):
            others += re.findall(r"\b(\w+) as (\w+)", " ".join(re.findall(r"^pub use ([^;]*);", path.read_text(), re.M)))
    for own, name in [(f"{own}::", f"{name}::") for own, name in others]:
        found.update({call.replace(own, name): names for call, names in found.items() if call.startswith(own)})
    return {name: {clause for names in sets for clause in names} for name, sets in found.items()}


def claims(text: str) -> Iterator[list[str]]:
    """The claims of a list, each its bullet's lines."""
    yield from (bullet.splitlines() for bullet in re.split(r"^- ", text, flags=re.M)[1:])


def judge(claimed: pathlib.Path, crates: Iterable[str]) -> Iterator[str]:
    """What is wrong with a list of claims over these crates."""
    known, count = functions(crates), 0
    for bullet in claims(claimed.read_text()):
        count += 1
        at = next((place for place, line in enumerate(bullet) if place and line.strip().startswith("`")), None)
        if at is None:
            yield f"no contract carries: {bullet[0]}"
            continue
        for part in " ".join(line.strip() for line in bullet[at:]).rstrip(".").split(";"):
            call, *clauses = re.findall(r"`([^`]+)`", part)
            if call not in known:
                yield f"there is no function {call}"
            elif not clauses and not known[call]:
                yield f"{call} has no contract that could carry a claim"
            else:
                yield from (f"{call} has no clause {clause}" for clause in clauses if clause not in known[call])
    if not count:
        yield "it has no claims"
