"""The public items of a facade crate, from the sources: each item that it re-exports, its methods and the traits that it implements,
with `///`, signatures and clauses. scripts/surface.sh prints them; scripts/reference.py makes pages of them.
"""

from __future__ import annotations

from collections.abc import Collection, Iterable, Iterator, Sequence
import pathlib
import re
import sys

CRATES = pathlib.Path(__file__).resolve().parent.parent / "crates"
Item = tuple[pathlib.Path, list[str]]  # a file, and the lines of an item
ITEM = re.compile(r"pub (?:const |unsafe )*(fn|struct|enum|trait|type|const) (\w+)")


def passed_on(crate: str) -> list[tuple[str, list[str]]]:
    """Yields pairs of a crate and the names that this crate re-exports from it, in the order of its `pub use`; its own names count as one
    such pair."""
    text = (CRATES / crate / "src/lib.rt").read_text()
    found: dict[str, list[str]] = {}
    for place, names in re.findall(r"^pub use (?:crate::)?(\w+)::((?:\w|::|[{},\s])+);", text, re.M):
        of = place if (CRATES / place / "src").is_dir() else crate
        found[of] = [*found.get(of, []), *re.findall(r"\b\w+\b(?!::)", re.sub(r" as \w+", "", names))]
    return list(found.items())


def exported(crate: str) -> dict[str, str]:
    """Returns the name that this crate gives an item which it re-exports under another name, by the item's own name."""
    uses = re.findall(r"^pub use ([^;]*);", (CRATES / crate / "src/lib.rt").read_text(), re.M)
    return dict(re.findall(r"\b(\w+) as (\w+)", " ".join(uses)))


def parts(lines: Iterable[str]) -> Iterator[tuple[int, list[str], str]]:
    """Yields each line that isn't a `///` or an attribute, by its index, with the `///` above it."""
    doc: list[str] = []
    for at, line in enumerate(lines):
        if line.lstrip().startswith("///"):
            doc.append(line)
        elif not line.lstrip().startswith("#["):
            yield at, doc, line
            doc = []


def to_body(lines: Sequence[str], at: int) -> list[str]:
    """Returns a function's lines up to its body, or a constant's or an alias's to its end."""
    depth = " " * (len(lines[at]) - len(lines[at].lstrip(" ")))
    shown = []
    for line in lines[at:]:
        if line in (f"{depth}{{", f"{depth}{{}}"):
            break
        shown.append(re.sub(r" \{$", "", line))
        if re.match(rf"{depth}\S", line) and line.endswith((" {", ";")):
            break
    return shown


def to_brace(lines: Sequence[str], at: int) -> list[str]:
    """Returns the lines of a struct, an enum or a trait, without a struct's private fields and their comments."""
    shown: list[str] = []
    doc: list[str] = []
    is_private, is_struct = False, " struct " in lines[at]
    for line in lines[at:]:
        is_field = is_struct and re.match(r"    [a-z_]+: ", line)
        is_private = bool(is_field) or is_private and not re.match(r"    \S|\}", line)
        if line.lstrip().startswith("//"):
            doc.append(line)
            continue
        shown += [] if is_private else [*doc, line]
        doc = []
        if line.endswith(";") and line == lines[at] or line.startswith("}"):
            return shown
    return shown


def block(lines: Sequence[str], at: int) -> list[str]:
    """Returns the lines of an `impl` without what is private: its head, a trait's relations, and each public method."""
    first = next(n for n in range(at, len(lines)) if "{" in lines[n])
    head = re.sub(r" \{.*$", "", " ".join(it.strip() for it in lines[at : first + 1]))
    end = at if lines[at].endswith("{}") else next(n for n in range(at, len(lines)) if lines[n].startswith("}"))
    shown = [head, ""]
    is_trait = re.search(r" for ", re.sub(r"<[^<>]*>", "", head))
    for place, doc, line in parts(lines[:end]):
        if place <= at:
            continue
        if ITEM.match(line, 4) and line.startswith("    pub "):
            shown += [*doc, *to_body(lines, place), ""]
        elif is_trait and re.match(r"    ghost (?!use )\w+", line):
            last = next(n for n in range(place, end) if lines[n].endswith(";"))
            shown += [*lines[place : last + 1], ""]
    return shown if len(shown) > 2 or is_trait else []


def type_of(line: str) -> str:
    """Returns the type that an `impl` is for."""
    text = re.sub(r"^impl(<(?:[^<>]|<[^<>]*>)*>)? *", "", line)
    return str(re.findall(r"^\w*", text.rpartition(" for ")[2] if " for " in text else text)[0])


def items(crate: str, names: Collection[str]) -> Iterator[Item]:
    """Yields these items of a crate, and the `impl`s for these types: pairs of a file and the lines of an item."""
    for path in sorted((CRATES / crate / "src").glob("*.rt")):
        lines = path.read_text().splitlines()
        for at, doc, line in parts(lines):
            item = ITEM.match(line)
            if item and item[2] in names:
                shown = to_brace(lines, at) if item[1] in ("struct", "enum", "trait") else to_body(lines, at)
                yield path, [*doc, *shown, ""]
            elif line.startswith("impl") and type_of(line) in names:
                yield path, block(lines, at)


def aliased(crate: str, name: str) -> tuple[str, str] | None:
    """Returns the type that a name is an alias of, with the crate that has the type, if the name is an alias."""
    texts = {path: path.read_text() for path in sorted(CRATES.glob("*/src/*.rt"))}
    own = "\n".join(text for path, text in texts.items() if path.parts[-3] == crate)
    if alias := re.search(rf"^pub type {name}\b(?:<[^=]*>)? =\s+(\w+)", own, re.M):
        defines = re.compile(rf"^pub (struct|enum) {alias[1]}\b", re.M)
        homes = [path.parts[-3] for path, text in texts.items() if defines.search(text)]
        return next(((home, alias[1]) for home in sorted(homes, key=lambda it: it != crate)), None)
    return None


def surface(facade: str) -> Iterator[tuple[str, tuple[str, str] | None, Iterator[Item]]]:
    """Yields the parts of a facade: each is a crate, the alias under which the facade re-exports its one type (None if there is none), and
    its items, with the names that the facade gives them."""
    shown = {(crate, name) for crate, names in passed_on(facade) for name in names}
    other = exported(facade)

    def as_exported(found: Iterable[Item]) -> Iterator[Item]:
        for path, lines in found:
            yield path, [re.sub(r"\w+", renamed, line) for line in lines]

    def renamed(found: re.Match[str]) -> str:
        return other.get(found[0], found[0])

    for crate, names in passed_on(facade):
        yield crate, None, as_exported(items(crate, names))
        for name in names:
            if (of := aliased(crate, name)) and of not in shown:
                shown.add(of)
                yield of[0], (name, of[1]), as_exported(items(of[0], [of[1]]))


def show(facade: str) -> None:
    for crate, alias, found in surface(facade):
        print(f"// {crate}, whose {alias[1]} {alias[0]} is\n" if alias else f"// {crate}\n")
        print("\n".join(line for _, lines in found for line in lines))


if __name__ == "__main__":
    show(sys.argv[1])
