"""The crates in numbers, and whether they keep to the limits.

Every line that isn't blank counts once: in a crate's `src` as code, contract (a clause, or another ghost item) or test, and
comments as none of them; in its `specs`, `proofs` and `must-fail` as they are. The length of a function is that of its body's
code.
"""

from __future__ import annotations

from collections.abc import Iterator, Sequence
from typing import Optional
import pathlib
import re
import sys

WIDEST_CLAUSE = 100
WIDEST_LINE = 140
LONGEST_FUNCTION = 40
LONGEST_FILE = 800
COLUMNS = ("code", "contracts", "tests", "specs", "proofs", "edits", "functions", "clause", "function")
FUNCTION = re.compile(r'(?:pub(?:\([\w:]+\))? )?(?:const )?(?:unsafe )?(?:extern "C" )?fn (\w+)')
CLAUSE = re.compile(r"(requires|ensures)\b\*? ?(\w+)?")
GHOST = re.compile(r"(?:pub(?:\([\w:]+\))? )?ghost\b")
PUBLIC = re.compile(r"pub(?:\([\w:]+\))? (?:struct|enum|union|trait|type) (\w+)")
WORDS = r"(?P<words>(?:(?:pub|abbrev|unfoldable|record|data) )*)"
DEFINITION = re.compile(WORDS + r"(?P<name>[^\s(){}:◌]+)(?P<end> :| \(| \{)")
# Names that two crates may have, each with the reason; there is none now. Operators, such as ◌>>=◌, don't count as names.
SHARED: dict[str, str] = {}
# String literals, characters and comments.
LITERAL = re.compile(r"""//.*|b?"(?:[^"\\]|\\.)*"|b?'(?:[^'\\]|\\.[^']*)'""")


class Crate:
    """The numbers of a crate, and the places that exceed a limit."""

    def __init__(self, name: str) -> None:
        self.name = name
        self.numbers = dict.fromkeys(COLUMNS, 0)
        self.over: list[str] = []
        self.types: dict[str, str] = {}  # of each public type, and of each definition, its place
        self.definitions: dict[str, str] = {}

    def count(self, column: str, number: int = 1) -> None:
        self.numbers[column] += number

    def reach(self, column: str, number: int) -> None:
        self.numbers[column] = max(self.numbers[column], number)

    def proofs_to_the_rest(self) -> float:
        rest = self.numbers["code"] + self.numbers["contracts"] + self.numbers["specs"]
        return self.numbers["proofs"] / rest if rest else 0


class Function:
    """A function that is being read: where it begins, its nesting depth, and its counts so far."""

    def __init__(self, name: str, place: int, depth: int) -> None:
        self.name, self.place, self.depth, self.has_body, self.lines = name, place, depth, False, 0
        self.clauses: dict[str, list[Optional[str]]] = {"requires": [], "ensures": []}


def lines_of(path: pathlib.Path) -> list[str]:
    return path.read_text(encoding="utf-8").splitlines()


def balance(line: str) -> int:
    return sum(line.count(c) for c in "({[") - sum(line.count(c) for c in ")}]")


class Source:
    """A file of a crate's `src`, read line by line."""

    def __init__(self, crate: Crate, path: pathlib.Path) -> None:
        self.crate, self.path, self.depth = crate, path, 0
        is_named = any(part.endswith("tests") for part in (crate.name, path.stem, path.parent.name))
        self.is_test = is_named or crate.name.startswith(("test_", "uses_"))
        self.functions: list[Function] = []
        self.ghost = 0  # how many brackets of a clause or of a ghost item are open
        self.in_clause = False

    def read(self) -> None:
        for number, line in enumerate(lines_of(self.path), 1):
            text = line.strip()
            if text and not text.startswith("//"):
                self.take(number, line, text)

    def take(self, number: int, line: str, text: str) -> None:
        code = LITERAL.sub("", text)
        clause = None if self.ghost else CLAUSE.match(text)
        if clause or self.ghost or GHOST.match(text):
            self.take_ghost(number, line, code, clause)
        else:
            self.take_code(number, text, code)

    def take_ghost(self, number: int, line: str, code: str, clause: re.Match[str] | None) -> None:
        self.crate.count("tests" if self.is_test else "contracts")
        if clause:
            self.in_clause = True
            # the clauses of a closure belong to the body
            if self.functions and not self.functions[-1].has_body:
                self.functions[-1].clauses[clause[1]].append(clause[2])
        if self.in_clause:
            self.crate.reach("clause", len(line))
            if len(line) > WIDEST_CLAUSE:
                self.tell(number, f"a clause has {len(line)} columns")
        self.ghost += balance(code)
        if self.ghost == 0:
            self.in_clause = False

    def take_code(self, number: int, text: str, code: str) -> None:
        if found := PUBLIC.match(text):
            self.crate.types.setdefault(found[1], f"{self.path}:{number}")
        if found := FUNCTION.match(text):
            self.functions.append(Function(found[1], number, self.depth))
        self.crate.count("tests" if self.is_test else "code")
        for function in self.functions:
            function.lines += function.has_body
        before = self.depth
        self.depth += balance(code)
        while self.functions and self.ends(self.functions[-1], before, code):
            self.close(self.functions.pop())

    def ends(self, function: Function, before: int, code: str) -> bool:
        function.has_body = function.has_body or "{" in code
        if function.has_body:
            return self.depth == function.depth and code.endswith(("}", "},", "});", "};"))
        return self.depth == function.depth and code.endswith(";") and before >= function.depth

    def close(self, function: Function) -> None:
        if self.is_test:
            return
        self.crate.count("functions")
        # the line that closes the body isn't counted
        function.lines = max(function.lines - 1, 0)
        self.crate.reach("function", function.lines)
        if function.lines >= LONGEST_FUNCTION:
            self.tell(function.place, f"{function.name} has {function.lines} lines")
        for kind, names in function.clauses.items():
            if len(names) > 1 and None in names:
                self.tell(function.place, f"{function.name} has several `{kind}`, and one without a name")

    def tell(self, number: int, what: str) -> None:
        self.crate.over.append(f"{self.path}:{number}: {what}")


def definitions_of(path: pathlib.Path) -> Iterator[tuple[str, str]]:
    """Returns the names that a file of `specs` defines, each with its place; fields of a record, constructors and equations don't count."""
    outer: list[tuple[int, bool]] = []  # the columns of the blocks that are open, and whether each is a module
    for number, line in enumerate(lines_of(path), 1):
        text = line.strip()
        if not text or text.startswith("--"):
            continue
        column = len(line) - len(line.lstrip())
        while outer and column <= outer[-1][0]:
            outer.pop()
        is_module = re.match(r"(?:pub )?module ", text) is not None
        found = DEFINITION.match(text)
        if found and not is_module and all(of for _, of in outer) and (found["words"] or found["end"] == " :"):
            yield found["name"], f"{path}:{number}"
        outer.append((column, is_module))


def crate_of(folder: pathlib.Path) -> Crate:
    crate = Crate(folder.name)
    for path in sorted(folder.rglob("*")):
        part = path.relative_to(folder).parts[0]
        if not path.is_file() or part in ("out", "data"):
            continue
        if part in ("src", "specs", "proofs") and len(lines_of(path)) > LONGEST_FILE:
            crate.over.append(f"{path}: it has {len(lines_of(path))} lines")
        if path.suffix == ".rt" and part == "src":
            Source(crate, path).read()
        elif path.suffix == ".antt":
            for name, place in definitions_of(path) if part == "specs" else ():
                crate.definitions.setdefault(name, place)
            crate.count(part, sum(1 for line in lines_of(path) if line.strip()))
            wide = [each for each in enumerate(lines_of(path), 1) if len(each[1]) > WIDEST_LINE]
            crate.over += [f"{path}:{number}: it has {len(line)} columns" for number, line in wide]
        elif path.suffix == ".edit":
            crate.count("edits")
    return crate


def crates() -> list[Crate]:
    listed = re.findall(r"^\w+", pathlib.Path("crates.txt").read_text(encoding="utf-8"), re.M)
    return [crate_of(pathlib.Path("crates") / name) for name in listed]


def find_shared(all_crates: Sequence[Crate]) -> None:
    """Finds names with two meanings: the name of a public type or of a definition that another crate has too."""
    for kind in ("types", "definitions"):
        first: dict[str, str] = {}
        for crate in all_crates:
            for name, place in getattr(crate, kind).items():
                if name in first and name not in SHARED:
                    crate.over.append(f"{place}: {name} is also a name of {first[name]}")
                first.setdefault(name, crate.name)


def show(all_crates: Sequence[Crate]) -> None:
    """Prints the table, and the ratio of the proofs to what they prove."""
    whole = Crate("all")
    for column in COLUMNS:
        numbers = [crate.numbers[column] for crate in all_crates]
        whole.numbers[column] = max(numbers) if column in ("clause", "function") else sum(numbers)
    print(f"{'':<18}" + "".join(f"{column:>10}" for column in COLUMNS) + "    proofs to the rest")
    for crate in [*all_crates, whole]:
        text = "".join(f"{crate.numbers[column]:>10}" for column in COLUMNS)
        print(f"{crate.name:<18}{text}    {crate.proofs_to_the_rest():.2f}")


def check(all_crates: Sequence[Crate]) -> int:
    """Checks the limits; each crate counts as a test."""
    find_shared(all_crates)
    print("".join(f"{line}\n" for crate in all_crates for line in crate.over), end="")
    failed = sum(1 for crate in all_crates if crate.over)
    print(f"{len(all_crates) - failed} passed, {failed} failed")
    return 1 if failed else 0


if __name__ == "__main__":
    if sys.argv[1:] == ["--check"]:
        sys.exit(check(crates()))
    show(crates())
