"""The pictures and their texts, the site of all pages with the references, and the manual pages."""

from __future__ import annotations

import json
import os
import pathlib
import re
import subprocess
import tempfile
import urllib.parse
from collections.abc import Iterable, Iterator
from typing import Any

from page_commands import is_missing

TOP = pathlib.Path(__file__).resolve().parent.parent
MANUALS = sorted((TOP / "docs/man").iterdir())
OTHERS = re.compile(r"/reference/(c|rust)/")


def run(*words: str | pathlib.Path, **others: Any) -> subprocess.CompletedProcess[str]:
    return subprocess.run(words, cwd=TOP, capture_output=True, text=True, stdin=subprocess.DEVNULL, timeout=3600, check=False, **others)


def marks() -> Iterator[str]:
    """Pictures that aren't drawn from their present texts, by the checksums that they contain."""
    ended = run("scripts/pictures.sh", "--check")
    if ended.returncode != 0:
        yield ended.stdout + ended.stderr


def site(script: pathlib.Path, pages: list[pathlib.Path]) -> Iterator[str]:
    """What is wrong with the site: pages that are missing or lost their text, and links in it that lead nowhere."""
    if is_missing("pandoc", "whether the site of all pages is whole"):
        return
    with tempfile.TemporaryDirectory() as room:
        made = pathlib.Path(room).resolve() / "made" / "site"
        ended = run(script, str(made))
        if ended.returncode != 0:
            yield f"status {ended.returncode}: {ended.stderr}"
            return
        # doxygen and cargo make their own pages
        texts = {path: path.read_text() for path in made.rglob("*.html") if not OTHERS.search(str(path))}
        missing = [name for name in MANUALS if made / "docs/man" / f"{name.name}.html" not in texts]
        yield from (f"there is no page of {name}" for name in missing)
        yield from references(made, texts)
        for page in pages:
            name = page.relative_to(TOP).with_suffix(".html")
            path = made / (name.with_name("index.html") if page.name == "README.md" else name)
            if len(re.sub(r"<[^>]*>", " ", texts.get(path, "")).split()) < len(page.read_text().split()) / 3:
                yield f"{path.relative_to(made)} isn't there, or has lost its text"
        for path, text in texts.items():
            for lead in re.findall(r"""(?:href|src)=["']([^"'#]+)""", text):
                if not re.match(r"[a-z]+:", lead) and not (path.parent / urllib.parse.unquote(lead)).exists():
                    yield f"{path.relative_to(made)} leads to {lead}, which isn't there"
        yield from anchors(made, texts)
        again = run(script, str(made))
        if again.returncode != 73 or "isn't empty" not in again.stderr:
            yield f"a folder that is filled is overwritten: status {again.returncode}"


def references_of_c(made: pathlib.Path, calls: set[str]) -> Iterator[str]:
    shown = "".join(path.read_text() for path in made.glob("group__*.html"))
    yield from (f"reference/c lacks {name}" for name in sorted(calls) if not re.search(rf'class="memtitle">.*{name}\(\)', shown))
    text = (TOP / "include/fintaqush.hpp").read_text()
    classes = [name for name in re.findall(r"^class (?:\[\[nodiscard\]\] )?(\w+)", text, re.M) if f"detail::{name}" not in text]
    yield from (f"reference/c lacks {name}" for name in classes if not list(made.glob(f"classfintaqush_1_1{name}*.html")))


def references(made: pathlib.Path, texts: dict[pathlib.Path, str]) -> Iterator[str]:
    """What the references of all calls lack: a call of the header, a class of fintaqush.hpp, a public type of the Rust crate, a facade, and a
    name that a clause cites, with its definition."""
    header = (TOP / "include/fintaqush.h").read_text()
    calls = set(re.findall(r"\b(fq_(?!private_)\w+)\(", header))
    if not is_missing("doxygen", "the reference of C and C++ in the site") and not (made / "reference/c").is_dir():
        yield "there is no reference/c"
    if not is_missing("cargo", "the reference of Rust in the site") and not (made / "reference/rust").is_dir():
        yield "there is no reference/rust"
    if (made / "reference/c").is_dir():
        yield from references_of_c(made / "reference/c", calls)
    if (made / "reference/rust").is_dir():
        exported = re.findall(r"\b[A-Z]\w+", " ".join(re.findall(r"^pub use ([^;]*);", (TOP / "bindings/rust/src/lib.rs").read_text(), re.M)))
        yield from (f"reference/rust lacks {name}" for name in exported if name not in (made / "reference/rust/fintaqush/index.html").read_text())
    groups = json.loads((TOP / "scripts/abi.json").read_text())["groups"]
    manuals = "".join(texts.get(made / "docs/man" / f"fintaqush_{group['name']}.3.html", "") for group in groups)
    yield from (f"no manual page of a group has {name}" for name in sorted(calls) if name not in manuals)
    facade = texts.get(made / "reference/rattle/dql_core.html", "")
    wanted = '<a href="../definitions/dql_core.html#Limit.after_queued">after_queued</a>'
    if wanted not in facade or 'id="Limit.after_queued"' not in texts.get(made / "reference/definitions/dql_core.html", ""):
        yield "after_queued in a clause of dql_core doesn't link to its definition"
    if 'href="../rattle/dql_core.html#Dql.completed"' not in texts.get(made / "reference/claims/dql_core.html", ""):
        yield "no claim of dql_core links to Dql::completed"


def anchors(made: pathlib.Path, texts: dict[pathlib.Path, str]) -> Iterator[str]:
    """Links of the Rattle reference to an anchor that isn't there."""
    for path, text in texts.items():
        if "/reference/" in str(path):
            for name, at in set(re.findall(r'href="([^"#:]*)#([^"]+)"', text)):
                there = (path.parent / name).resolve() if name else path
                if there in texts and f'id="{urllib.parse.unquote(at)}"' not in texts[there]:
                    yield f"{path.relative_to(made)} leads to {name}#{at}, which isn't there"


def manual_warnings(manual: pathlib.Path) -> Iterator[str]:
    """Warnings of man for a manual page."""
    if is_missing("man", f"whether {manual.name} has warnings") or is_missing("groff", f"whether {manual.name} has warnings"):
        return
    ended = run("man", "--warnings", "-l", str(manual), env={**os.environ, "MANWIDTH": "100", "LC_ALL": "C.UTF-8", "PAGER": "cat"})
    if ended.returncode != 0 or ended.stderr:
        yield f"status {ended.returncode}: {ended.stderr}"
    elif "NAME" not in ended.stdout or "SEE ALSO" not in ended.stdout:
        yield "it shows no NAME or no SEE ALSO"


def plain_manual(manual: pathlib.Path) -> str:
    """A manual page's text, without its requests."""
    text = re.sub(r"^\.\\\".*$", "", manual.read_text(), flags=re.M)
    text = re.sub(r"^\.[A-Z]+ ?", "", text, flags=re.M).replace("\\-", "-").replace("\\&", "").replace('"', "")
    return re.sub(r" ([,;.])", r"\1", " ".join(text.split()))


def whole_manual(manual: pathlib.Path) -> Iterator[str]:
    """What napi_replay(1) lacks of the usage text of ./replay: options, ranges, defaults, modes, statuses; and options that are
    in neither. Errors are those of docs/FORMATS.md."""
    usage = run("./replay", "--help").stdout
    words = plain_manual(manual)
    rows = re.findall(r"^  ((?:-h, )?--\w+)(?: N| M)?  +(.*)$", usage, re.M)
    if len(rows) < 10:
        yield f"the usage text has {len(rows)} words"
    for word, what in rows:
        if word not in words:
            yield f"it lacks {word}"
        if (limits := re.search(r"\d+\.\.=\d+ \(\d+\)", what)) and not re.search(rf"{word} N [^()]*{re.escape(limits[0])}", words):
            yield f"it lacks {limits[0]} of {word}"
    for word in set(re.findall(r"--[a-z]+", words)) - set(re.findall(r"--[a-z]+", usage)):
        yield f"the usage text lacks {word}"
    for mode in re.findall(r"(\w+): (?:the same report|each device's rows)|M {8}(\w+);", usage):
        name = "".join(mode)
        if not re.search(rf"MODES .*\b{name} (plays|gives)", words):
            yield f"it lacks the mode {name}"
    statuses = re.findall(r"^  (\d+(?:, \d+)*)  ", usage.split("exit status:")[1], re.M)
    for status in ", ".join(statuses).split(", "):
        if not re.search(rf"EXIT STATUS .*\b{status}\b", words):
            yield f"it lacks the status {status}"
    for line in re.findall(r"^\| \d+ \| `(\w+ fault \d+ \w+)", (TOP / "docs/FORMATS.md").read_text(), re.M):
        if line not in words:
            yield f"it lacks {line}"
    for event in re.findall(r"^\| `(\w+)` \| (?:1\.\.=16|0) \|", (TOP / "docs/FORMATS.md").read_text(), re.M):
        if not re.search(rf"TRACE .*\b{event}\b.*EXIT", words):
            yield f"it lacks the event {event}"


def checks(pages: list[pathlib.Path]) -> Iterator[tuple[pathlib.Path, Iterable[str]]]:
    """Pairs of a file and what is wrong with it."""
    yield TOP / "docs/pictures", marks()
    yield TOP / "scripts/site.sh", site(TOP / "scripts/site.sh", pages)
    for manual in MANUALS:
        yield manual, manual_warnings(manual)
    yield TOP / "docs/man/napi_replay.1", whole_manual(TOP / "docs/man/napi_replay.1")
