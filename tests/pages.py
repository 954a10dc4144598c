"""The repository's pages: links lead somewhere, files and names exist, claims name existing clauses (claims.py), programs that
they show are compiled (snippets.py), commands do what they say (page_commands.py), README.md keeps to its number of words,
the site and the manual pages are complete (site_pages.py).
"""

from __future__ import annotations

import functools
import json
import pathlib
import re
import subprocess
import sys
from collections.abc import Iterable, Iterator

import claims
import page_commands
import site_pages
import snippets
from finding import group_in
from judging import judge
from page_commands import SKIPPED, is_missing, listed

TOP = pathlib.Path(__file__).resolve().parent.parent
PageJudged = tuple[pathlib.Path, Iterable[str]]  # a file, and what is wrong with it
DOORS = "napi_model dql_core rx_ring tx_ring place_ring napi_word napi_calls poll_engine driver_core device_model replay machine".split()
README_WORDS = 700
# What is generated, or is in another folder than the repository's.
MADE = re.compile(r"(^|/)out(/|$)|include/linux/|crates/first|NAME|FOLDER|FILE|PROGRAM|TRACE|DOOR|\.\.\./|^\.\.?/\.\./|[*<>{}$]|^/")
# Crates that use the library's facades, apart from those named for tests.
USERS = ("benches", "example_", "uses_")
# Words in code that come from elsewhere: from the kernel, a file format, an instruction set; and names that stand for a file.
OUTSIDE = {"__do_softirq", "time_after", "softnet_stat", "virtio_net", "sysexits", "btr", "mb", "MACHINES", "enqueue_to_backlog",
           "rps_trigger_softirq", "nstat", "UdpRcvbufErrors", "no_std", "num_queued", "num_completed",
           "virtqueue_napi_complete", "mlx5e_trigger_napi_sched", "mlx5e_trigger_napi_icosq", "ethernet", "skb_flow_limit", "__qdisc_run",
           "napi_weight", "rx_weight", "MAX_SOFTIRQ_TIME", "handle_softirqs", "libfintaqush3"}
# The crates that may have unsafe code: those that export C functions.
EXPORTING = {"c_handles", "napi_c", "files_c"}
SENT = "unsafe impl<A> Send for Trail<A> {}"  # the one other line of unsafe code


def pages() -> list[pathlib.Path]:
    return [TOP / name for name in listed("*.md")]


def headings(page: pathlib.Path) -> list[str]:
    """The anchors of a page's headings, by their text."""
    found: list[str] = []
    for words in re.findall(r"^#+ (.*)$", page.read_text(), re.M):
        anchor = re.sub(r"[^\w\- ]", "", words.lower()).replace(" ", "-")
        count = sum(1 for name in found if re.fullmatch(re.escape(anchor) + r"(-\d+)?", name))
        found.append(f"{anchor}-{count}" if count else anchor)
    return found


def links(page: pathlib.Path) -> Iterator[str]:
    """Links of a page whose file or heading doesn't exist."""
    for name, anchor in re.findall(r"\]\(([^)#\s]*)(?:#([^)\s]*))?\)", page.read_text()):
        there = page.parent / name if name else page
        if not re.match(r"[a-z]+:", name) and not there.exists():
            yield f"there is no {name}"
        elif there.suffix == ".md" and there.is_file() and anchor and anchor not in headings(there):
            yield f"{name} has no heading #{anchor}"


def named_files(page: pathlib.Path) -> Iterator[str]:
    """Names in code that begin with a folder of the top: each has to be a file or a folder."""
    folders = "bench|bindings|crates|docs|examples|include|models|scripts|tests|tools"
    for code in re.findall(r"`([^`\n]+)`", page.read_text()):
        for name in re.findall(rf"(?:^|\s)(?:\./)?((?:{folders})/[\w./-]*)", code):
            name = name.rstrip(".")
            if not MADE.search(code) and not (page.parent / name).exists() and not (TOP / name).exists():
                yield f"there is no {name}"


@functools.cache
def source_words() -> set[str]:
    """All words of the sources, without pages, and of the files' names."""
    found = set(re.findall(r"\w+", "\n".join(listed())))
    for name in listed():
        if not name.endswith((".md", "claims.txt", ".png", ".gz")) and (TOP / name).is_file():
            found.update(re.findall(r"\w+", (TOP / name).read_text(errors="replace")))
    return found


def names(page: pathlib.Path) -> Iterator[str]:
    """Words in code that are neither in a source nor from the kernel or another program: a name that was changed there, or
    never existed."""
    # Those pages name the kernel's functions, rule by rule.
    known = source_words() | OUTSIDE
    for code in re.findall(r"`([^`\n]+)`", "" if page.name in ("RULES.md", "TIMING.md") else page.read_text()):
        for word in re.findall(r"[A-Za-z_]\w+", "" if re.match(r"(rt|git) ", code) else code):
            if word not in known and not (word.endswith("_") and any(name.startswith(word) for name in known)):
                yield f"no source has {word}"


def kits(page: pathlib.Path) -> Iterator[str]:
    """A page that names kits has to name the one that proves here."""
    named = re.findall(r"rattle-kit-\w+", page.read_text())
    if named and not is_missing("rt", "whether the pages name the kit that proves here"):
        if (kit := site_pages.run("rt", "version").stdout.split()[0]) not in named:
            yield f"it names {', '.join(named)}, and {kit} proves here"


def leftovers(page: pathlib.Path) -> Iterator[str]:
    yield from (f"a merge left {line}" for line in re.findall(r"^(?:<{7}|={7}|>{7})(?: .*)?$", page.read_text(), re.M))


def lengths(_page: pathlib.Path) -> Iterator[str]:
    """Words of README.md, without commands and tables: no other page has a limit."""
    first = len(re.sub(r"^(    |\|).*$", "", (TOP / "README.md").read_text(), flags=re.M).split())
    if first > README_WORDS:
        yield f"{first} words beside commands and tables, of at most {README_WORDS}"


def versions(page: pathlib.Path) -> Iterator[str]:
    """A page that states the version has to state the header's."""
    version = group_in(r'^#define FQ_VERSION "(.*)"$', (TOP / "include/fintaqush.h").read_text(), re.M)
    stated = re.findall(r"^(?:\| Version \||version:) (\S+)", page.read_text(), re.M)
    if stated != [version]:
        yield f"it states the version {', '.join(stated) or 'nowhere'}, and the header has {version}"


def times_in(page: pathlib.Path) -> Iterator[str]:
    """The times of calls in ns that a page states, as texts."""
    for numbers in re.findall(r"((?:\d+(?:\.\d+)?(?:, | and | to )?)+) ns\b", page.read_text()):
        yield from re.findall(r"\d+(?:\.\d+)?", numbers)


def speeds(page: pathlib.Path) -> Iterator[str]:
    """A time of a call on another page has to be one of SPEED.md, which says how it was measured."""
    known = set(times_in(TOP / "docs/SPEED.md"))
    yield from (f"{number} ns is in no row of SPEED.md" for number in times_in(page) if number not in known)


def durations(page: pathlib.Path) -> Iterator[str]:
    """Each page states the same durations of the first proof and of all tests: from the shortest to the longest that DECISIONS.md has."""
    measured = (TOP / "docs/DECISIONS.md").read_text()
    first = [int(seconds) / 60 for seconds in re.findall(r"(\d+) s\b", group_in(r"The first proved report took (.*?)\. ", measured))]
    whole = [int(minutes) for minutes in re.findall(r"`\./test` took (\d+) minutes", measured)]
    stated = re.findall(r"(\d+) to (\d+) minutes on 4 cores", page.read_text())
    wanted = [(str(int(min(first))), str(int(max(first)) + 1)), (str(min(whole)), str(max(whole)))]
    if stated != wanted:
        yield f"it states {stated} minutes for the first proof and for all tests, and DECISIONS.md has {wanted}"


def pictures_by(page: pathlib.Path) -> Iterator[str]:
    """What a page says that pictures need has to be in the table of what tests need."""
    names = (TOP / "tests/needs.txt").read_text()
    for name in re.findall(r"^(?:.*\. )?Pictures need (\w+)", page.read_text(), re.M):
        if not re.search(rf"^{name} ", names, re.M):
            yield f"pictures need {name}, which tests/needs.txt hasn't"


def needs_of_crates() -> dict[str, list[str]]:
    """The dependencies of each crate, by crates.txt."""
    return {row[1]: row[2].split() for row in re.finditer(r"^(\w+)(?: staticlib)?:(.*)", (TOP / "crates.txt").read_text(), re.M)}


@functools.cache
def door_of() -> dict[str, str]:
    """The facade of each internal crate, by its first line."""
    found = {}
    for name in needs_of_crates():
        first = TOP / "crates" / name / "src/lib.rt"
        if first.exists() and (door := re.match(r"//! Internal crate of the facade `(\w+)`", first.read_text())):
            found[name] = door[1]
    return found


def unprinted(crates: Iterable[str], names: Iterable[str], surface: str) -> Iterator[str]:
    """Traits with these names, and public calls of them or of types with these names, including aliases, that a surface lacks."""
    texts = [path.read_text() for crate in crates for path in sorted((TOP / "crates" / crate / "src").glob("*.rt"))]
    of = {*names, *(alias[2] for text in texts for alias in re.finditer(r"^pub type (\w+).*= (\w+)", text, re.M) if alias[1] in names)}
    for text in texts:
        traits = re.findall(r"^(pub trait (\w+).*?^\})", text, re.M | re.S)
        yield from (name for whole, name in traits if name in of and whole not in surface)
        for call in re.finditer(r"^( *)pub (?:const |unsafe )*fn (\w+).*?(?=\n\1\{\}?$| \{$)", text, re.M | re.S):
            head = re.findall(r"^impl(?:<.*>)? ?(?:\w+ for )?(\w+).*$", text[: call.start()], re.M)[-1:] if call[1] else [call[2]]
            if of & {*head} and call[0] not in surface:
                yield f"{head[0]}::{call[2]}" if call[1] else call[2]


def door_page(page: pathlib.Path) -> Iterator[str]:
    """A facade's page names each of its internal crates and leads to its claims, which these crates have; `scripts/surface.sh`
    prints all that it re-exports."""
    door = page.parent.name
    behind = [name for name, at in door_of().items() if at == door]
    programs = {"replay": ["napi_replay", "napi_serial", "napi_series"], "machine": ["napi_machine"]}.get(door, [])
    yield from (f"it doesn't describe {name}" for name in behind if f"`{name}`" not in page.read_text())
    passed_on = " ".join(re.findall(r"pub use ([^;]*);", (page.parent / "src/lib.rt").read_text()))
    known = {*behind, *(needs_of_crates().keys() & {*re.findall(r"(\w+)::", passed_on)})}
    yield from claims.judge(page.parent / "claims.txt", [door, *sorted(known), *programs])
    yield from () if "](claims.txt)" in page.read_text() else ("it doesn't lead to claims.txt",)
    surface = subprocess.run(["scripts/surface.sh", door], cwd=TOP, capture_output=True, text=True, check=True).stdout
    others = {name: own for own, name in re.findall(r"(\w+) as (\w+)", passed_on)}
    names = re.findall(r"\b\w+\b(?=[,}\s]|$)", re.sub(r"\w+ as |\w+::", "", passed_on))
    missing = [name for name in names if not re.search(rf"\b{name}\b", surface)]
    # an item that the facade re-exports under another name is printed with that name
    surface = re.sub(r"\w+", lambda it: others.get(it[0], it[0]), surface)
    names = [others.get(name, name) for name in names]
    yield from (f"scripts/surface.sh doesn't print {name}" for name in [*missing, *unprinted([door, *behind], names, surface)])


def door_rules(_page: pathlib.Path) -> Iterator[str]:
    """An internal crate has the prefix of its facade's name. Tests, examples, benches and users of facades name no internal crate. Each
    file of `uses_facades` uses one facade, except `names.rt` and `run_names.rt`."""
    needs, door = needs_of_crates(), door_of()
    yield from (f"{name} hasn't the prefix of {door[name]}" for name in door if name.split("_")[0] != door[name].split("_")[0])
    for name in needs:
        if name.startswith(USERS) or name.endswith("_tests"):
            yield from (f"{name} names {low}, an internal crate of {door[low]}" for low in needs[name] if low in door)
    for user in sorted((TOP / "crates/uses_facades/src").glob("[!l]*.rt")):
        text = user.read_text()
        named = {*re.findall(r"^(?:ghost )?use (?:Rattle\.)?(\w+)", text, re.M)} - {"std", "mathlib", "crate", "uses_facades"}
        if not user.name.endswith("names.rt") and re.findall(r"\A//! A program that uses only `(\w+)`:", text) != [*named]:
            yield f"{user.name} isn't of one facade: it names {', '.join(sorted(named))}"


def crate_picture(picture: pathlib.Path) -> Iterator[str]:
    """Each crate of the library and each program is in the picture, and each arrow is from a dependency of a crate or, for a
    facade, of one of its internal crates."""
    needs, door, text = needs_of_crates(), door_of(), picture.read_text()
    for name in needs:
        if not name.startswith(USERS) and not name.endswith("_tests") and not re.search(rf"\b{name}\b", text):
            yield f"{name} isn't in it"
    stands = {(door.get(low, low), door.get(high, high)) for high in needs for low in needs[high]}
    arrows = re.findall(r"(\w+) -> (\w+)", text)
    yield from (f"{high} doesn't stand on {low}" for low, high in arrows if (low, high) not in stands)
    if not arrows:
        yield "it has no arrow"


def of_theorem(page: pathlib.Path) -> Iterator[str]:
    """The first rows of the definitions to read are the files that the theorem cites, and the page has their number and their lines."""
    told = subprocess.run([sys.executable, "-B", "scripts/theorem.py"], cwd=TOP, capture_output=True, text=True, check=True).stdout
    wanted = {name: int(lines) for lines, name in re.findall(r"^ *(\d+) (crates/\S+)$", told, re.M)}
    rows, numbers = re.findall(r"^\| (`crates/[^|]*\.antt`) \|", page.read_text(), re.M), "one two three four five six seven eight nine ten".split()
    said = re.search(r"The first (\w+) rows are all that the theorem cites.*: (\d+) lines in (\d+) files", page.read_text())
    if not said or (int(said[2]), int(said[3])) != (sum(wanted.values()), len(wanted)):
        yield f"the theorem cites {sum(wanted.values())} lines in {len(wanted)} files, and the page says {said and said[0]}"
        return
    for lines, call in re.findall(r"^ *(\d+) of (\w+)$", told, re.M):
        if not any(abs(int(it) - int(lines)) * 10 <= int(lines) for it in re.findall(rf"`{call}` (\d+) lines", page.read_text())):
            yield f"the contract of {call} cites {lines} lines, which the page doesn't say"
    first = re.findall(r"`([^`]+)`", " ".join(rows[: numbers.index(said[1]) + 1]))
    yield from (f"only its first {said[1]} rows or only the theorem has {name}" for name in sorted(set(wanted) ^ set(first)))


def assurance(page: pathlib.Path) -> Iterator[str]:
    """What docs/ASSURANCE.md says about the sources: the numbers of lines of definitions to read and of edits, within a tenth; that there is
    no axiom, unsafe code only in what exports C functions, and no atomic operation but sequentially consistent ones."""
    rows = re.findall(r"^\| (`crates/[^|]*\.antt`) \| (\d+) \|", page.read_text(), re.M)
    for names_told, lines in rows:
        files = [TOP / name for name in re.findall(r"`([^`]+)`", names_told)]
        count = sum(len(path.read_text().splitlines()) for path in files if path.exists())
        if abs(count - int(lines)) * 10 > int(lines):
            yield f"{names_told} has {count} lines, and not {lines}"
    if len(rows) < 10:
        yield f"it lists {len(rows)} definitions with their lines"
    yield from of_theorem(page)
    edits = len(listed("crates/*/must-fail/*.edit"))
    for name in ("docs/ASSURANCE.md", "docs/DECISIONS.md"):
        for count in re.findall(r"\b[Ss]ome (\d+) edits", (TOP / name).read_text()) or ["0"]:
            if abs(edits - int(count)) * 10 > edits:
                yield f"{name} says that there are some {count} must-fail edits, and there are {edits}"
    yield from unproved()


def unproved() -> Iterator[str]:
    """The axioms, the unsafe code and the weaker atomic operations of the crates."""
    for name in listed("crates/*.antt", "crates/*.rt"):
        text = (TOP / name).read_text().replace(SENT, "", 1)
        if name.endswith(".antt") and re.search(r"^\s*axiom\b|\bPrim\.Axiom\b|\bpostulate\b", text, re.M):
            yield f"{name} has an axiom"
        if name.endswith(".rt") and name.split("/")[1] not in EXPORTING and re.search(r"^(?!\s*//).*\bunsafe\b", text, re.M):
            yield f"{name} has unsafe code"
        if name.endswith(".rt") and re.search(r"\bOrdering::(Relaxed|Acquire|Release|AcqRel)\b", text):
            yield f"{name} has an atomic operation that isn't sequentially consistent"


def scripts_told(_page: pathlib.Path) -> Iterator[str]:
    """Each script has to say at its head what it does."""
    for name in listed("bench/*.sh", "examples/*.sh", "scripts/*.sh", "tests/*.sh"):
        if not re.match(r"#( [A-Z./a-z]|!.*\n# )", (TOP / name).read_text()):
            yield f"{name} has no head"


def places(page: pathlib.Path) -> Iterator[str]:
    """A row of the table of places has to name files that exist; they have the word that finds the rest, and others have it
    too."""
    table = page.read_text().split("## Where things go")[1].split("\n## ")[0]
    for row in table.splitlines():
        named = [name for name in re.findall(r"`([\w./-]+/[\w./-]+)`", row) if "NAME" not in name and not name.endswith("/")]
        yield from (f"there is no {name}" for name in named if not (TOP / name).exists() and not MADE.search(name))
        if found := re.search(r"`(git grep [^`]+)`", row):
            ended = subprocess.run(["bash", "-c", found[1].replace("\\|", "|")], cwd=TOP, capture_output=True, text=True)
            have = ended.stdout.split()
            yield from (f"{found[1]} doesn't find {name}" for name in named if name not in have and "." in name)
            if len(have) <= len(named):
                yield f"{found[1]} finds nothing else"


def commands(all_pages: list[pathlib.Path]) -> Iterator[PageJudged]:
    """Checks of the commands of all pages, in order, in one copy of the repository; then of the list of them."""
    copy = page_commands.Copy()
    entries, wrong = page_commands.read_list()
    try:
        for page in all_pages:
            yield page, page_commands.judge_page(copy, entries, page)
        yield page_commands.LIST, page_commands.judge_list(entries, wrong)
        for check, name in ((page_commands.first_program, "crates/napi_model/README.md"), (page_commands.first_trace, "docs/NAPI.md"),
                            (page_commands.first_edit, "docs/WORKING.md")):
            yield TOP / name, check(copy, TOP / name)
    finally:
        copy.remove()


def made_of_options() -> list[str]:
    """The parts that scripts/options.py makes are those of the table of the machine's options."""
    return subprocess.run([TOP / "scripts/options.py", "--check"], capture_output=True, text=True).stdout.splitlines()


def options_of_linux() -> list[str]:
    """Each option in OPERATORS' table of Linux's settings exists; and each that sets what Linux sets is there: all but the sizes of the
    machine, what its driver does, the costs, and the window, which Linux doesn't have."""
    known = {f"--{option['name']}" for option in json.loads((TOP / "tools/fintaqush_tools/options.json").read_text())}
    own = {"--processors", "--socket", "--window", "--heedless", "--early", "--latched", "--app-wake", "--interrupt", "--poll", "--packet", "--use", "--wake",
           "--timer", "--timer-wake", "--poll-wake", "--arm"}
    table = (TOP / "docs/OPERATORS.md").read_text().partition("## Which setting does what")[2].partition("\n## ")[0]
    named = {option for row in table.splitlines() for option in re.findall(r"`(--[\w-]+)[ `]", row.rpartition(" | ")[2])}
    return [f"no option {option}" for option in sorted(named - known)] + [f"no row with {option}" for option in sorted(known - own - named)]


def checks() -> Iterator[PageJudged]:
    """Pairs of a page and what is wrong with it."""
    for claimed in listed("crates/*/claims.txt"):
        yield TOP / claimed, names(TOP / claimed)
    for page in pages():
        for check in (links, named_files, names, kits, leftovers, pictures_by, snippets.snippets):
            yield page, check(page)
    for name in ("README.md", "CITATION.cff"):
        yield TOP / name, versions(TOP / name)
    for name in ("README.md", "docs/LIMITS.md", "docs/COMPARISON.md", "docs/C.md", "docs/GUIDE.md"):
        yield TOP / name, speeds(TOP / name)
    yield TOP / "README.md", durations(TOP / "README.md")
    for door in DOORS:
        yield TOP / "crates" / door / "README.md", door_page(TOP / "crates" / door / "README.md")
    yield TOP / "crates/napi_c/claims.txt", claims.judge(TOP / "crates/napi_c/claims.txt", ["napi_c", "c_handles", "files_c"])
    for rule, name in ((lengths, "README.md"), (places, "docs/WORKING.md"), (scripts_told, "docs/WORKING.md"), (assurance, "docs/ASSURANCE.md"), (door_rules, "crates.txt"),
                        (crate_picture, "docs/pictures/crates.dot")):
        yield TOP / name, rule(TOP / name)
    yield TOP / "tools/fintaqush_tools/options.json", made_of_options()
    yield TOP / "docs/OPERATORS.md", options_of_linux()
    yield from site_pages.checks(pages())
    yield from () if "--static" in sys.argv else commands(pages() + site_pages.MANUALS)


def main() -> bool:
    return judge(((page.relative_to(TOP), wrong) for page, wrong in checks()), SKIPPED)


if __name__ == "__main__":
    sys.exit(main())
