"""scripts/gate.py proofs ROOM [CRATE ..]: passes these crates with those below them, or all, by `rt ci` on a copy in the folder ROOM,
which hasn't their must-fail edits; what it built tools/fintaqush_tools/builds.py keeps.
scripts/gate.py edits [--again] [CRATE ..]: tries the edits of these crates, or of all, over the libraries that stand. After `proofs`
nothing is built again, even where `rt ci` has taken a proof from an earlier run. What a plain `rt ci` leaves in a checkout isn't used:
`rt check` writes to the same folders, and nothing there says of which sources a library was made. An edit that was refused on this
machine isn't tried again until it, its crate, a crate below, the kit or this script changes: `rt ci` keeps proofs by the same rule.
--again tries all.
scripts/gate.py uncompiled: tries what must not compile, the edits of each crate's must-not-compile/, over the same libraries: the check has
to stop at the error that the edit's line `error: NAME` names, before any proof.

A function is proved from the contracts of others, never from their bodies. So edits of the bodies of several functions are checked at
once, the other functions are stubs without a proof, and each edit is refused by what the prover says of its own function; `rt must-fail`
checks them one by one, which takes a gate half as long again. An edit of which nothing is said so, or which changes more than a body, is
tried alone, without stubs; an edit of a constant names a function that it breaks by a line `function: NAME`, so that not the whole crate is
proved for it. That the same words prove what is as it was is seen at another function, or at one of these without its edit. The last line
is `N passed, M failed`, the status 1 if any did.
"""

from __future__ import annotations

from collections.abc import Callable, Sequence
from typing import Any
import concurrent.futures
import contextlib
import functools
import json
import operator
import os
import re
import shutil
import subprocess
import sys
import tempfile

TOP = os.path.dirname(os.path.dirname(os.path.realpath(__file__)))
sys.path.insert(0, f"{TOP}/tools")
from fintaqush_tools.builds import CACHE, Crate, all_crates, build, child, kit, read, run, sum_of, sums  # noqa: E402

Texts = dict[str, str]  # of files, by path
Tried = tuple[str, bool, str]  # the name of an edit, whether it passed, and what to print

BOTH: dict[str, Any] = {"stdout": subprocess.PIPE, "stderr": subprocess.STDOUT}
NOT_ONCE = "its old text doesn't stand once in its file"
OPEN = "is not proved|found no proof"
GONE = "has no field|is not in scope|has no `|was not admitted"  # of what an edit takes away, and a proof names
HEAD = re.compile(r"^( *)(?:pub(?:\([a-z]+\))? )?(?:const |unsafe |extern \"C\" )*fn (\w+)", re.M)
# a function that no constant calls, up to its body
WHOLE = r"^( *)(?:pub(?:\([a-z]+\))? )?(?:unsafe |extern \"C\" )*fn \w(?:[^\n]* |(?:(?!\bfn |;\n[\n}]).)*?^\1(?:\)[^\n]* )?)\{\n"
TYPE = re.compile(r"^(?:pub(?:\([a-z]+\))? )?(?:struct|enum) (\w+)", re.M)
HOLE = """use Rattle.{}.proofs.{}.Statement as stated

pub {}_spec : {{M : Type 1}} → stated.statement M
{}_spec = ?
"""


def block_of(text: str) -> str:
    """Returns the prover's name for the `impl` in which this text ends: its type, its trait unless that is `Drop`, and their type arguments,
    if these aren't parameters."""
    generics, head = re.findall(r"^(?:impl|(?:pub )?trait)(<[^{]*?>)? (?=\w)([^{]*) \{$", text, re.M)[-1]
    known = [*re.findall(r"(?:<|, )([A-Z]\w*)", generics.replace("'", "")), "for"]
    trait, _, of = " ".join(head.split()).removeprefix("Drop for ").replace("&", "Ref ").rpartition(" for ")
    words = [[it for it in re.findall(r"(?<!')\b[A-Z]\w*", part) if it not in known] for part in (of, trait)]
    return "+".join(words[0]) + "".join(words[1])


class Function:
    """The function that contains a text: its lines, whether the text is in its body, and its name (with its type or its file)."""

    def __init__(self, path: str, text: str, at: int) -> None:
        head = [it for it in HEAD.finditer(text) if it.start() < at][-1]
        first = next(re.finditer(r"(?:^ *#\[.*\n)*\Z", text[: head.start()], re.M)).start()  # with its attributes
        opened = re.compile(rf"^{head[1]}(?:\S.* )?\{{\n", re.M)  # a clause that ends so is further in
        self.indent, self.begin = head[1], next(opened.finditer(text, head.start())).end()
        self.in_body = at >= self.begin
        self.end = text.index(f"\n{head[1]}}}\n", head.start()) + 1
        self.path, self.first, self.last = path, text.count("\n", 0, first) + 1, text.count("\n", 0, self.end) + 1
        self.place = path, self.first
        of = block_of(text[: head.start()]) if head[1] else path.rpartition("/")[2].removesuffix(".rt")
        self.name = head[2] if of in ("lib", "main") else f"{of}::{head[2]}"

    def refusal(self, said: str) -> str | None:
        """Returns the prover's first line that says that the function isn't proved: a line about the function or its proof that doesn't
        name something that the edit removed."""
        own = f"/{self.name.replace('::', '/')}/"
        for line, file, number in re.findall(r"^((?:note: )?(?:\./)?((?:src|proofs)/\S+?):(\d+):\d+: .*)", said, re.M):
            is_inside = file == self.path and self.first <= int(number) <= self.last
            is_own = is_inside or file.startswith("proofs/") and own in file.replace("/fn/", "/")  # its closures' too
            if is_own and (re.search(OPEN, line) or ": error: " in line and not re.search(GONE, line)):
                return str(line)
        return None


def function_of(path: str, text: str, part: str) -> Function | None:
    """Returns the function that contains this part of the file, if it contains all of it."""
    at = text.find(part)
    if text.count(part) != 1 or not HEAD.search(text, 0, at):
        return None
    function = Function(path, text, at)
    return function if at + len(part) <= function.end else None


class Edit:
    def __init__(self, crate: Crate, file: str) -> None:
        self.crate, self.file, self.name = crate, file, os.path.basename(file).removesuffix(".edit")
        self.pairs: list[tuple[str, str, str]] = []
        self.names: list[str] = []
        for line in read(file).splitlines():
            word, _, text = line.partition(": ")
            if word == "file":
                path = text.strip()
            elif word == "function":
                self.names.append(text.strip())
            elif word == "old":
                old = text
            elif word in ("new", "new:"):
                self.pairs.append((path, old, text))

    def apply(self, texts: Texts) -> Texts | None:
        """Returns the texts of the crate's files, by path, with this edit; None if one of its `old:` doesn't occur exactly once there."""
        texts = {**texts}
        for path, old, new in self.pairs:
            if texts.get(path, "").count(old) != 1:
                return None
            texts[path] = texts[path].replace(old, new)
        return texts

    def function(self, texts: Texts) -> Function | None:
        """Returns the function that the edit changes, if it changes nothing else."""
        found = [function_of(path, texts.get(path, ""), old) for path, old, _ in self.pairs]
        functions = [it for it in found if it]
        if len(functions) < len(found) or len({it.place for it in functions}) > 1:
            return None
        return min(functions, key=lambda it: it.in_body)

    def sum(self) -> str:
        """Returns a checksum of all that decides whether it is refused."""
        files = [self.file, f"{kit()}/KIT-ID", __file__, f"{TOP}/tools/fintaqush_tools/builds.py"]
        return sum_of([*map(read, files), *(it.sources for it in self.crate.all)])

    def alone(self, texts: Texts, over: str) -> tuple[bool, str]:
        """Tries the edit alone. Returns whether its function, or the crate if there is none, is rejected, and what to print."""
        changed, function = self.apply(texts), self.function(texts)
        names = self.names or ([function.name] if function else [])
        said, proved = check(self.crate, changed, names, over) if changed else (NOT_ONCE, None)
        lines = re.findall(r"^(?:note: .*|\S+:\d+:\d+: error.*)", said, re.M) or said.splitlines() or [""]
        if proved is None or any(re.match(r"(\./)?(src|specs)/", it) for it in lines):
            return False, f"BAD EDIT, which no contract was tried by: {lines[0]}"
        if proved:
            return False, f"NOT REFUSED: {'its function' if names else 'the crate'} is still proved"
        return True, f"refused: {lines[0]}"


class Kept(dict[str, list[str]]):
    """The edits that were refused on this machine, by crate and name: each with its checksum, and with what was printed."""

    def __init__(self, is_again: bool) -> None:
        super().__init__()
        self.path, self.sums = f"{CACHE}/fintaqush/edits", dict[str, str]()
        with contextlib.suppress(OSError, ValueError):
            self.update({} if is_again else json.loads(read(self.path)))

    def text(self, edit: Edit) -> str | None:
        """Returns what was printed of the edit, if nothing has changed that it was refused by."""
        name = f"{edit.crate.name}/{edit.name}"
        self.sums[name] = edit.sum()
        sum, text = self.get(name, ["", ""])
        return f"kept, {text}" if sum == self.sums[name] else None

    def keep(self, name: str, text: str) -> None:
        """Keeps that this edit was refused, if this call may write."""
        if name not in self.sums or text.startswith("kept, "):
            return
        self[name] = [self.sums[name], text]
        with contextlib.suppress(OSError):
            os.makedirs(os.path.dirname(self.path), exist_ok=True)
            with open(f"{self.path}.{os.getpid()}", "w", encoding="utf-8") as file:
                json.dump(self, file)
            os.replace(file.name, self.path)


class Round:
    """Edits that are tried together, each with its function, and the crate's texts with all of them."""

    def __init__(self, texts: Texts) -> None:
        self.texts = texts
        self.edits: list[tuple[Edit, Function]] = []

    def takes(self, edit: Edit, function: Function) -> bool:
        changed = edit.apply(self.texts)
        if changed is None or any(it.place == function.place for _, it in self.edits):
            return False
        self.texts, self.edits = changed, [*self.edits, (edit, function)]
        return True


def round_of(edits: Sequence[Edit], texts: Texts) -> tuple[Round, list[Edit]]:
    """Returns the round of these edits, one for each function, and the edits that have to be tried alone."""
    together, alone = Round(texts), list[Edit]()
    for edit in edits:
        function = edit.function(texts)
        if not function or not function.in_body or not together.takes(edit, function):
            alone.append(edit)
    return together, alone


def functions_of(texts: Texts) -> list[Function]:
    """Returns the functions of these files that no constant calls and whose bodies have lines of their own."""
    sources = [(path, text) for path, text in texts.items() if path.startswith("src/")]
    return [Function(path, text, it.end()) for path, text in sources for it in re.finditer(WHOLE, text, re.M | re.S)]


def stubbed(crate: Crate, texts: Texts, kept: Sequence[Function]) -> Texts:
    """Returns the crate's texts with stubs of all functions but these: an endless loop for the body, a hole for the proof. A function is
    proved from the contracts of others, never from their bodies, so the same is said of it. Lines keep their numbers. A function stays as
    it is if its proof is a file of its own, or if its `impl` has type arguments."""
    homes = {name: path for path, text in texts.items() if path.startswith("src/") for name in TYPE.findall(text)}
    made, gone, places = {**texts}, list[str](), {it.place for it in kept}
    for it in reversed(functions_of(texts)):
        of, _, name = it.name.rpartition("::")
        module = homes.get(of, it.path)[4:-3]
        module = "" if module in ("lib", "main") else module
        parts = [part for part in (module, of if it.indent else "", name) if part]
        at, closures = "/".join(parts), "/".join([*parts[: bool(module)], "fn", *parts[bool(module) :]])
        if it.place in places or "+" in of or f"proofs/{at}/Proof.antt" in texts:
            continue
        text, lines = made[it.path], texts[it.path].count("\n", it.begin, it.end)
        made[it.path] = f"{text[: it.begin]}{it.indent}    loop {{}}" + "\n" * lines + text[it.end :]
        made[f"proofs/{at}/Proof.antt"] = HOLE.format(crate.name, at.replace("/", "."), name, name)
        gone += [f"proofs/{at}/Answers.antt", f"proofs/{at}/Invariants.antt", f"proofs/{closures}/"]
    return {it: text for it, text in made.items() if not it.startswith(tuple(gone))}


def check(crate: Crate, texts: Texts, names: Sequence[str], over: str = "", *more: str) -> tuple[str, bool | None]:
    """Runs the prover, with more options, on these functions of the crate, or on all, with these texts. What it proves it keeps in the
    folder `over`, and what is kept there it doesn't prove again. Returns what it says, and whether it proves them, if it says so.
    """
    with tempfile.TemporaryDirectory(prefix="must-fail-") as room:
        for path, text in texts.items():
            os.makedirs(os.path.dirname(f"{room}/{path}"), exist_ok=True)
            with open(f"{room}/{path}", "w", encoding="utf-8") as file:
                file.write(text)
        words = [*crate.words("check", 1), *(word for name in names for word in ("--only", name))]
        words += [*(["--incremental", over] if over else []), *more]
        how: dict[str, Any] = {"stdin": subprocess.DEVNULL, "text": True, "errors": "replace", **BOTH}
        ran = subprocess.run(words, cwd=room, preexec_fn=child, check=False, **how)
    if ran.returncode == 2 and names:
        # the prover has some by other names: the edits of these are tried alone, then with all functions
        unknown = re.findall(r"has no function `([^`]+)`", ran.stdout)
        known = [it for it in names if it not in unknown] if {*unknown} & {*names} else []
        return check(crate, texts, known, over, *more)
    judged = re.match(r"logic=(not-)?proved|only=\d+ (proved|holes)=\d+", ran.stdout.rstrip("\n").rpartition("\n")[2])
    return ran.stdout, None if not judged or ran.returncode > 1 else ran.returncode == 0


def texts_of(crate: Crate) -> Texts:
    """Returns the texts of the crate's files, by path."""
    return {it: read(f"{crate.folder}/{it}") for it in crate.texts()}


def try_round(it: Round, crate: Crate, texts: Texts, over: str) -> list[Tried]:
    """Tries the edits of a round at once, over stubs of the other functions, and then alone those of which nothing is said. Another function,
    the shortest one, has to be proved by the same words, or one of these without its edit."""
    functions = [function for _, function in it.edits]
    places = {function.place for function in functions}
    others = [it for it in functions_of(texts) if it.place not in places] or functions
    # what calls a stub isn't said to be proved, so the other function is one that calls nothing, if there is one
    other = min(others, key=lambda it: ("(" in texts[it.path][it.begin : it.end], it.last - it.first))
    names = [it.name for it in (*functions, other)]
    said, proved = check(crate, stubbed(crate, it.texts, [*functions, other]), names, "", "--allow-holes")
    if proved is None:  # the compiler may want other bodies, as in a cycle of calls
        said, proved = check(crate, it.texts, names, over)
    lines = [(edit, function.refusal(said) if proved is False else None) for edit, function in it.edits]
    told = [(edit.name, True, f"refused: {line}") for edit, line in lines if line]
    if not re.search(r"^fn \S+: (proved\b|no holes$)", said, re.M):
        said, _ = check(crate, stubbed(crate, texts, functions[:1]), names[:1], "", "--allow-holes")
        found = re.search(rf"^fn (\S*::)?{re.escape(names[0])}: (no holes|depends on a hole)", said, re.M)
        text = "proved" if found else f"NOT PROVED by the same words: {said}"
        told.append(("a function as it is", found is not None, text))
    return told + [(edit.name, *edit.alone(texts, over)) for edit, line in lines if not line]


def try_crate(crate: Crate, kept: Kept) -> list[Tried]:
    """Tries the edits of the crate: a function is checked with those that it calls, and what one of the edits that are tried alone proves of
    these, the next ones take. Returns for each edit a name, whether it passed, and what to print."""
    texts, folder = texts_of(crate), f"{crate.folder}/must-fail"
    names, why = sorted(os.listdir(folder)), "BAD EDIT: its name doesn't end in .edit"
    tried = [(it, False, why) for it in names if not it.endswith((".edit", ".md"))]
    told = {it: kept.text(it) for it in (Edit(crate, f"{folder}/{name}") for name in names if name.endswith(".edit"))}
    tried += [(it.name, True, text) for it, text in told.items() if text]
    together, alone = round_of([it for it, text in told.items() if not text], texts)
    with tempfile.TemporaryDirectory(prefix="must-fail-") as room:
        tried += try_round(together, crate, texts, room) if together.edits else []
        tried += [(it.name, *it.alone(texts, room)) for it in alone]
    return [(f"{crate.name}/{name}", well, text) for name, well, text in tried]


def error_of(file: str) -> str:
    return str(re.findall("^error: (.*)$", read(file), re.M)[0])


def try_texts(crate: Crate, files: Sequence[str]) -> list[Tried]:
    """Tries these edits at once: each has to be rejected at its own line with the error that it names, before any proof. What isn't
    is tried alone."""
    changed, error, told = texts_of(crate), error_of(files[0]), list[Tried]()
    for file in files:
        changed = Edit(crate, file).apply(changed) or changed
    said, proved = check(crate, changed, [])
    for file in files:
        [(path, _, new)] = Edit(crate, file).pairs
        number = changed[path].partition(new)[0].count("\n") + 1
        line = re.search(rf"^\S*{path}:{number}:\d+: error\[{error}\].*", said, re.M) if new in changed[path] else None
        well = line is not None and proved is None
        if not well and len(files) > 1:
            told += try_texts(crate, [file])
        else:
            text = f"rejected: {line[0]}" if line else f"NOT REJECTED by error[{error}]: {said[:200]}"
            told.append((os.path.relpath(file, f"{TOP}/crates"), well, text))
    return told


def try_all(
    tries: Sequence[Callable[[], list[Tried]]], below: Sequence[Crate], what: str, kept: Kept
) -> tuple[int, int]:
    """Makes these calls, up to four at a time, over the libraries of these crates, and prints a line for each result. Returns how many
    passed, and how many failed."""
    build(list(dict.fromkeys(it.name for crate in below for it in crate.all[:-1])))
    tried: list[bool] = []
    with concurrent.futures.ThreadPoolExecutor(min(len(os.sched_getaffinity(0)), 4)) as pool:
        for begun in [pool.submit(call) for call in tries]:
            for name, well, text in begun.result():
                print(f"{what} {name}: {text[:200]}", flush=True)
                tried.append(well)
                if well:
                    kept.keep(name, text)
    return sum(tried), len(tried) - sum(tried)


def named(names: Sequence[str]) -> list[Crate]:
    """Returns the crates with these names, or all."""
    known = {it.name: it for it in all_crates()}
    return [known[name] for name in names or known]


def all_edits(words: Sequence[str]) -> tuple[int, int]:
    """Tries the edits of these crates, or of all; the crate that takes longest comes first."""
    kept = Kept("--again" in words)
    asked = [it for it in named([it for it in words if it != "--again"]) if os.path.isdir(f"{it.folder}/must-fail")]
    asked.sort(key=lambda it: -it.size * len(os.listdir(f"{it.folder}/must-fail")))
    return try_all([functools.partial(try_crate, it, kept) for it in asked], asked, "must-fail", kept)


def all_texts() -> tuple[int, int]:
    """Tries the edits that must not compile: those of a crate with the same error at once."""
    folders = [(it, f"{it.folder}/must-not-compile") for it in all_crates()]
    kinds: dict[tuple[Crate, str], list[str]] = {}
    for crate, at in folders:
        for name in sorted(os.listdir(at)) if os.path.isdir(at) else []:
            kinds.setdefault((crate, error_of(f"{at}/{name}")), []).append(f"{at}/{name}")
    calls = [functools.partial(try_texts, crate, files) for (crate, _), files in kinds.items()]
    return try_all(calls, [crate for crate, _ in kinds], "must-not-compile", Kept(True))


def keep(crate: Crate, out: str, times: dict[str, int]) -> None:
    """Keeps what was built of a crate in this folder, from sources of these times."""
    built = f"{out}/rlib/{crate.name}.rlib" if crate.is_library else f"{out}/{crate.name}"
    if os.path.exists(built):
        subprocess.run(["rm", "-rf", crate.made], check=True)
        os.makedirs(os.path.dirname(crate.made), exist_ok=True)
        shutil.move(built, crate.made)
        crate.stands(times)


def prove_all(room: str, names: Sequence[str]) -> tuple[int, int]:
    """Runs `rt ci` on a copy of these crates and those below them, or of all, and keeps the libraries that it builds."""
    asked = [*dict.fromkeys(below for crate in named(names) for below in crate.all)]
    listed = set(map(operator.attrgetter("name"), asked))
    times = {crate: (crate.sources, crate.times())[1] for crate in asked}

    def left_out(folder: str, files: list[str]) -> set[str]:
        """Returns the files and folders not to copy. Everything else is copied, because `rt ci` has to see links, and files that no crate
        reads."""
        others = {*files} - (listed if folder == f"{TOP}/crates" else {"crates", "crates.txt", "HANDLES"})
        is_other = bool(names) and folder in (TOP, f"{TOP}/crates")
        return {"out", "must-fail", *([".git"] if folder == TOP else []), *(others if is_other else [])}

    shutil.copytree(TOP, room, ignore=left_out, symlinks=True, dirs_exist_ok=True)
    if names:
        with open(f"{room}/crates.txt", "w", encoding="utf-8") as file:
            lines = read(f"{TOP}/crates.txt").splitlines(True)
            file.writelines(it for it in lines if re.findall(r"^\w*", it)[0] in listed)
    last = ""
    with subprocess.Popen(["rt", "ci"], cwd=room, preexec_fn=child, text=True, errors="replace", **BOTH) as ran:
        for last in ran.stdout or ():
            print(last, end="", flush=True)
    for crate in asked:
        keep(crate, f"{room}/crates/{crate.name}/out", times[crate])
    sums().keep()
    told = re.match(r"(\d+) passed, (\d+) failed", last)
    passed, failed = map(int, told.groups()) if told else (0, 1)
    return passed, failed or int(ran.returncode != 0)


def gate(words: Sequence[str]) -> int:
    if words[:1] in (["-h"], ["--help"]):
        print(__doc__, end="", flush=True)
        return 0
    if words[:1] not in (["proofs"], ["edits"], ["uncompiled"]) or words == ["proofs"]:
        what = "the first argument is proofs ROOM, edits or uncompiled; --help says more"
        print(f"scripts/gate.py: {what}", file=sys.stderr, flush=True)
        return 64
    if words[0] == "proofs":
        passed, failed = prove_all(words[1], words[2:])
    elif words[0] == "uncompiled":
        passed, failed = all_texts()
    else:
        os.nice(5)  # the tests that run at the same time mostly wait, and have their times
        passed, failed = all_edits(words[1:])
    print(f"{passed} passed, {failed} failed", flush=True)
    return 1 if failed else 0


if __name__ == "__main__":
    run(gate, sys.argv[1:])
