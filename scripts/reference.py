"""The reference of the Rattle crates as pages in Markdown, from the sources: for each facade its public items with `///`, signatures and
clauses (rattle/FACADE.md), for each crate its definitions (definitions/CRATE.md), and for each crates/CRATE/claims.txt the claims
(claims/CRATE.md). A name in a clause or in a definition links to where it is defined, a call that carries a claim to its contract.
scripts/site.sh begins it: reference.py FOLDER.
"""

from __future__ import annotations

from collections.abc import Iterable, Iterator, Sequence
import functools
import html
import pathlib
import re
import sys

import surface
from house import definitions_of

TOP = pathlib.Path(__file__).resolve().parent.parent
FACADES = sorted(page.parent.name for page in (TOP / "crates").glob("*/README.md"))  # only facades have a page
NAME = re.compile(r"[A-Za-z_][\w-]*")
Names = dict[str, tuple[str, str]]  # the page and the anchor of each definition


@functools.cache
def definitions(crate: str) -> dict[str, list[str]]:
    """Returns the module of each definition in a crate's specs/, by the definition's name; both modules if two definitions have one
    name."""
    found: dict[str, dict[str, bool]] = {}
    for path in sorted((TOP / "crates" / crate / "specs").glob("*.antt")):
        for name, _ in definitions_of(path):
            found.setdefault(name, {})[path.stem] = True
    return {name: list(modules) for name, modules in found.items()}


def paths_of(tree: str, before: tuple[str, ...] = ()) -> Iterator[tuple[str, ...]]:
    """Yields the whole paths that a `use` names, for example A.B.C for `A.{B.{C}, D}`."""
    depth, part = 0, ""
    parts: list[str] = []
    for letter in tree + ",":
        depth += (letter == "{") - (letter == "}")
        if letter == "," and not depth:
            parts, part = [*parts, part.strip()], ""
        else:
            part += letter
    for part in filter(None, parts):
        head, brace, rest = part.partition("{")
        names = tuple(filter(None, head.split(" as ")[0].strip().split(".")))
        yield from paths_of(rest.rpartition("}")[0], before + names) if brace else [before + names]


@functools.cache
def scope(path: pathlib.Path) -> Names:
    """Returns the page and anchor of each definition that a file uses or contains."""
    found: Names = {}
    text, crate = path.read_text(), path.parts[-3]
    for tree in re.findall(r"^ *(?:ghost )?use ([^;\n]*);?$", text, re.M):
        for names in paths_of(tree):
            if len(names) > 4 and names[0] == "Rattle" and names[2] == "specs" and names[3] != "declared":
                found[names[-1]] = (names[1], f"{names[3]}.{names[-1]}")
    if path.suffix == ".antt":
        own = [name for name, modules in definitions(crate).items() if path.stem in modules]
        found.update({name: (crate, f"{path.stem}.{name}") for name in own})
    known = {name: definitions(of).get(name, ()) for name, (of, _) in found.items()}
    return {name: to for name, to in found.items() if to[1].partition(".")[0] in known[name]}


def linked(line: str, names: Names, way: str, is_own: str | None = None) -> str:
    """Returns a line of code as HTML. Names link to their definitions; the name that the line itself defines is the anchor."""

    def one(found: re.Match[str]) -> str:
        name = found[0]
        if name == is_own:
            return f'<b id="{names[name][1]}">{name}</b>'
        return f'<a href="{way}{names[name][0]}.html#{names[name][1]}">{name}</a>' if name in names else name

    line = re.sub(r"\[(`[^`]*`)\]\([\w:]+\)", r"\1", line)  # a link in a `///`
    code, mark, remark = line.partition("--" if is_own is not None else "//")
    return NAME.sub(one, html.escape(code, quote=False)) + html.escape(mark + remark, quote=False)


def definition_page(crate: str) -> Iterator[str]:
    has_page = (TOP / "crates" / crate / "README.md").exists()
    name = f"[{crate}](../../crates/{crate}/README.md)" if has_page else crate
    yield from (f"# Definitions of {crate}", "")
    yield from (f"The definitions that contracts of {name} cite, module by module.", "")
    for path in sorted((TOP / "crates" / crate / "specs").glob("*.antt")):
        if path.stem == "Lib":
            continue
        yield from (f"## {path.stem}", "", f"`crates/{crate}/specs/{path.name}`", "")
        yield from ("<pre><code>" + "\n".join(definition_lines(path)) + "</code></pre>", "")


def definition_lines(path: pathlib.Path) -> Iterator[str]:
    names = scope(path)
    defined = {place: name for name, place in definitions_of(path)}
    shown: set[str] = set()
    for number, line in enumerate(path.read_text().splitlines(), 1):
        name = defined.get(f"{path}:{number}", "")
        own = name if name in names and names[name][1] == f"{path.stem}.{name}" and name not in shown else ""
        shown.add(own)
        if not line.startswith("use "):  # links take their place
            yield linked(line, names, "", own)


class Facade:
    """The page of a facade's items, each with its `impl`s. An item has the anchor NAME, a method of a type TYPE.NAME."""

    def __init__(self, facade: str) -> None:
        self.facade, self.anchors, self.lines = facade, set[str](), list[str]()
        self.contents: list[tuple[str, str]] = []
        for crate, alias, found in surface.surface(facade):
            self.lines += [f"## {crate}" + (f": {alias[1]}, re-exported as {alias[0]}" if alias else ""), ""]
            items = [(path, lines) for path, lines in found if lines]
            blocks = [(path, lines) for path, lines in items if lines[0].startswith("impl")]
            for path, lines in items:
                if not lines[0].startswith("impl"):
                    name = self.item(path, lines)
                    for other in [it for it in blocks if surface.type_of(it[1][0]) == name]:
                        self.block(*other)
                        blocks.remove(other)
            for other in blocks:
                self.block(*other)

    def anchor(self, name: str) -> str:
        at = next(at for at in (name, *(f"{name}-{n}" for n in range(2, 99))) if at not in self.anchors)
        self.anchors.add(at)
        return at

    def show(self, path: pathlib.Path, doc: Sequence[str], code: Sequence[str]) -> None:
        depth = len(code[0]) - len(code[0].lstrip())
        left = [line[depth:] if not line[:depth].strip() else line for line in code]
        shown = "\n".join(linked(line, scope(path), "../definitions/") for line in left)
        text = [re.sub(r"^ */// ?", "", line) for line in doc]
        self.lines += [*text, "", f"<pre><code>{shown}</code></pre>", ""]

    def item(self, path: pathlib.Path, lines: Sequence[str]) -> str:
        """Adds a function, type, trait or constant; returns its name."""
        first = next(at for at, line in enumerate(lines) if not line.startswith("///"))
        name = str(surface.ITEM.findall(lines[first])[0][1])
        at = self.anchor(name)
        self.contents.append((at, name))
        self.lines += [f'<h3 id="{at}">{name}</h3>', ""]
        self.show(path, lines[:first], lines[first:-1])
        return name

    def block(self, path: pathlib.Path, lines: Sequence[str]) -> None:
        """Adds an `impl` with its methods."""
        head, type_of = lines[0], surface.type_of(lines[0])
        self.lines += [f'<h4 id="{self.anchor("impl." + type_of)}"><code>{html.escape(head)}</code></h4>', ""]
        for doc, code in self.parts(lines[1:]):
            if name := re.search(r"\b(?:fn|type|const) (\w+)", " ".join(code)):
                self.lines += [f'<h5 id="{self.anchor(f"{type_of}.{name[1]}")}">{name[1]}</h5>', ""]
            self.show(path, doc, code)

    @staticmethod
    def parts(lines: Sequence[str]) -> Iterator[tuple[list[str], list[str]]]:
        """Yields pairs of a `///` and the lines of code below it, up to an empty line."""
        doc: list[str] = []
        code: list[str] = []
        for line in [*lines, ""]:
            if line.strip() and not (line.lstrip().startswith("///") and not code):
                code.append(line)
            elif line.strip():
                doc.append(line)
            elif code:
                yield doc, code
                doc, code = [], []

    def resolve(self, found: re.Match[str]) -> str:
        """Returns a link of a `///` to an item as a link to its place on this page, if it is there."""
        at = found[2].removeprefix("crate::").replace("::", ".")
        return f"[{found[1]}](#{at})" if at in self.anchors else found[1]

    def page(self) -> Iterator[str]:
        yield from (f"# {self.facade}: all public items", "")
        yield from (
            f"Each item that the facade [{self.facade}](../../crates/{self.facade}/README.md) exports, with its comment, signature "
            "and clauses; a name in a clause links to its definition. `requires` is what a caller has to prove, `ensures` what the "
            "call guarantees. The part below a crate's name comes from this crate.",
            "",
        )
        yield from (" · ".join(f"[{name}](#{at})" for at, name in self.contents), "")
        text = "\n".join(self.lines)
        yield re.sub(r"\[(`[^`\n]*`)\]\(([\w:]+)\)", self.resolve, text)


def claims_page(crate: str, anchors: set[str]) -> Iterator[str]:
    """Yields the claims of a crate. A call that carries one links to its contract, if the page of the facade's items has it."""

    def one(found: re.Match[str]) -> str:
        at = found[1].replace("::", ".")
        return f"[{found[0]}](../rattle/{crate}.md#{at})" if at in anchors else found[0]

    text = (TOP / "crates" / crate / "claims.txt").read_text()
    yield from (f"# Claims of {crate}", "")
    yield re.sub(r"^  `.*$", lambda line: re.sub(r"`([\w:]+)`", one, line[0]), text, flags=re.M)


def write(path: pathlib.Path, lines: Iterable[str]) -> None:
    path.parent.mkdir(parents=True, exist_ok=True)
    path.write_text("\n".join(lines) + "\n")


def main(folder: pathlib.Path) -> None:
    anchors: dict[str, set[str]] = {}
    for name in FACADES:
        facade = Facade(name)
        anchors[name] = facade.anchors
        write(folder / "rattle" / f"{name}.md", facade.page())
    for path in sorted((TOP / "crates").glob("*/claims.txt")):
        crate = path.parent.name
        write(folder / "claims" / f"{crate}.md", claims_page(crate, anchors.get(crate, set())))
    specs = [path for path in (TOP / "crates").glob("*/specs/*.antt") if path.stem != "Lib"]
    for crate in sorted({path.parent.parent.name for path in specs}):
        write(folder / "definitions" / f"{crate}.md", definition_page(crate))


if __name__ == "__main__":
    main(pathlib.Path(sys.argv[1]))
