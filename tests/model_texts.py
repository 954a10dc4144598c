"""The functions that the models of models/ stand for, and all that these call: of this repository's crates down to napi_word and
poll_runs, and of the toolchain's parker, queue and atomics. Prints a line for each: a checksum of its code, and its place and name, with
`kit` before those of the toolchain; `nothing` where a model names a function that isn't there. Contracts, proofs and comments don't count.

usage: model_texts.py TOP KIT

A call is found by its name, among what its crate stands on, and by its type where the call names that: of several methods of one name
each counts.
"""

from __future__ import annotations

import hashlib
import pathlib
import re
import sys
from collections.abc import Iterator

CRATES = "napi_model napi_word napi_calls poll_runs poll_shared poll_engine driver_core".split()
OF_KIT = {"crossbeam_utils": "sync/parker", "crossbeam_queue": "array_queue", "atomic_table": ""}
HEAD = re.compile(r"^( *)(?:pub(?:\([a-z]+\))? )?(?:const |unsafe )*fn (\w+)")
CALL = re.compile(r"(\.|\b[A-Z]\w*(?:::<[^;()]*>)?::|)\b([a-z_]\w*)(?:::<[^;()]*?>)?\(")
CLAUSE = re.compile(r"^ *(requires|ensures|decreases|invariant|where|ghost|using)\b")


def code_of(lines: list[str]) -> str:
    """The code of a function: its lines without comments, attributes and contract; clauses are between its head and the line
    `{`."""
    head = HEAD.match(lines[0])
    assert head
    indent = head[1]
    ending = next((at for at, line in enumerate(lines) if line == indent + "{"), 0)
    clause = next((at for at, line in enumerate(lines[:ending]) if CLAUSE.match(line)), ending)
    kept = lines[:clause] + lines[ending:] if ending else lines
    return "\n".join(line.strip() for line in kept if line.strip() and not re.match(r" *(//|#\[|ghost )", line))


def last_line(lines: list[str], at: int, indent: str) -> int:
    """The last line of the function that begins at one: of its body, or of a trait's declaration, which has none."""
    has_body = False
    for to in range(at, len(lines)):
        has_body = has_body or lines[to] == indent + "{" or lines[to].endswith("{")
        if lines[to] in (indent + "}", indent + "{}") or not has_body and lines[to].endswith((";", "{}")):
            return to
    return len(lines) - 1


def functions_in(path: pathlib.Path) -> list[tuple[str, str, str]]:
    """Triples of the functions of a file: the type or trait that it is of, its name, and its code."""
    owner, lines, found = "", path.read_text().splitlines(), []
    at = 0
    while at < len(lines):
        if re.match(r"(pub )?(impl|trait)\b", lines[at]):
            line = re.sub(r"^(?:pub )?(?:impl|trait)(?:<[^{]*?>)? (?=\w)", "", lines[at])
            names = re.findall(r"[A-Z]\w*", line.partition(" for ")[2] or line)
            owner = names[0] if names else ""
        elif re.match(r"\}", lines[at]):
            owner = ""
        head = HEAD.match(lines[at])
        if head:
            last = last_line(lines, at, head[1])
            found.append((owner if head[1] else "", head[2], code_of(lines[at:last + 1])))
            at = last
        at += 1
    return found


def places(top: pathlib.Path, kit: pathlib.Path) -> Iterator[tuple[str, pathlib.Path]]:
    """Each file, as the models name it."""
    for crate in CRATES:
        for path in sorted((top / "crates" / crate / "src").rglob("*.rt")):
            yield f"{crate}/{path.relative_to(top / 'crates' / crate / 'src').with_suffix('')}", path
    for crate, part in OF_KIT.items():
        root = kit / "rattle" / crate / "src"
        for path in sorted(root.rglob("*.rt")):
            if str(path.relative_to(root)).startswith(part) and "test" not in path.name and "tests" not in path.parts:
                yield f"kit {crate}/{path.relative_to(root).with_suffix('')}", path


def named(top: pathlib.Path) -> set[tuple[str, str]]:
    """What the models name, as pairs of a file and a name."""
    texts = "".join(path.read_text() for path in sorted((top / "models").glob("*.pml")))
    return set(re.findall(r"/\* ((?:kit )?[a-z_]+(?:/[a-z_]+)+) ([a-z_]+) \*/", texts))


def fits(by: str, owner: str) -> bool:
    """Whether a call by a dot, by a type's name, or by neither can be of a function of this owner."""
    kind = by.split("::")[0]
    return bool(owner) if kind in (".", "Self") else kind == owner


def is_below(place: str, caller: str) -> bool:
    """Whether the crate of a file is below that of the caller; the crates are in that order, and the toolchain's are below all."""
    low, high = (CRATES.index(it.split("/")[0]) if not it.startswith("kit ") else -1 for it in (place, caller))
    return low <= high


def main(top: pathlib.Path, kit: pathlib.Path) -> None:
    code: dict[tuple[str, str], str] = {}
    by_name: dict[str, list[tuple[str, tuple[str, str]]]] = {}
    for place, path in places(top, kit):
        for owner, name, text in functions_in(path):
            code[place, name] = code.get((place, name), "") + f"{owner}\n{text}\n"
            by_name.setdefault(name, []).append((owner, (place, name)))
    waiting = sorted(named(top))
    known: set[tuple[str, str]] = set()
    while waiting:
        it = waiting.pop()
        if it in known:
            continue
        known.add(it)
        for by, name in CALL.findall(code.get(it, "")):
            waiting += [to for of, to in by_name.get(name, []) if fits(by, of) and is_below(to[0], it[0])]
    for place, name in sorted(known):
        whole = code.get((place, name))
        print(hashlib.sha256(whole.encode()).hexdigest()[:12] if whole else "nothing", place, name)


main(*map(pathlib.Path, sys.argv[1:]))
