"""Finds words that no reader outside this repository would understand, and prints what to write instead.

Each row of WORDS is a test: its pattern finds no line of a tracked source or page. It must also find the row's first
example, and not the second one, which is an ordinary use. Code is searched in comments and doc strings, pages everywhere. The last
line is `N passed, M failed`.
"""

from __future__ import annotations

import pathlib
import re
import subprocess
import sys
from collections.abc import Iterator

from judging import Judged, judge

TOP = pathlib.Path(__file__).resolve().parent.parent
# Files that are searched, apart from this one.
NAMES = re.compile(r"\.(rt|antt|rs|c|h|cc|hpp|cpp|py|sh|md)$|^(test|fintaqush|replay)$")
# A pattern, what to write instead, a line that it finds, and one that it leaves alone.
WORDS = (
    (r"\bbehind\b(?! (all )?others| (a|an|the) (reference|pointer|lock|firewall|proxy)\b)", "after, below, at the end of",
     "a poll behind the stop", "the value behind a reference"),
    (r"\bbeside (one another|the (plain|kernel's|same)|them)\b", "compared with, next to", "the times beside the kernel's", "besides its report"),
    (r"\bwant of\b|\bmemory (is|was) (refused|there)\b|\btakes? (no )?memory\b", "out of memory, allocates", "for want of memory", "out of memory"),
    (r"\bfor who\b|\bwhoever\b|\bsomebody\b", "for people who, the caller", "for who tunes budgets", "for people who tune budgets"),
    (r"\bnobody\b", "no caller, no thread", "nobody polls it", "the place Nobody"),
    (r"\b(tells?|told)\b(?! apart| \w+ (\w+ )?from| \w+ =|\[)(?!.*\btell\b.*\bfrom\b)", "prints, reports, returns", "it tells the status", "to tell one ring from another"),
    (r"\bdoors?\b", "facade, internal crate", "behind the door", "a doorbell"),
    (r"\banew\b", "again", "starts anew", "a new limit"),
    (r"\bbears\b", "has", "it bears a number", "a bearing"),
    (r"\b(gone|go|goes) on with\b", "continued, resumed", "files that are gone on with", "from then on with"),
    (r"\bwords? (after|of) the (program|tool)('s name)?\b|\bthe words (ask|name|are wrong|aren't|don't)\b|\bby its words\b",
     "options, arguments", "the words after the program's name", "the state word of the instance"),
    (r"\bless than nothing\b", "negative", "less than nothing is available", "less than a packet"),
    (r"\bin (one hand|(\w+ )?(its|their|his|whose|\w+'s) (\w+'s )?hands)\b", "owned by, owns", "in its poller's hands", "by hand"),
    (r"\bas (many|few) (times )?as (fast|slow)\b|\btimes as fast\b", "times faster, times slower", "1.2 times as fast", "as fast as the other"),
)


def prose(path: pathlib.Path, text: str) -> list[tuple[int, str]]:
    """The lines of a file, by number, without its code: comments and doc strings; of a page all."""
    lines = text.split("\n")
    if path.suffix == ".md":
        return list(enumerate(lines, 1))
    if path.suffix in (".py", ".sh", ""):
        found = [(n, line.partition("#")[2]) for n, line in enumerate(lines, 1) if re.match(r"\s*#|.*\s# ", line)]
        for block in re.finditer(r'(?m)^(?:#!.*\n)?\s*"""(?:[^"]|"(?!""))*"""', text) if path.suffix != ".sh" else ():
            first = text[: block.start()].count("\n") + 1
            found += enumerate(block[0].split("\n"), first)
        return found
    if path.suffix == ".antt":
        return [(n, line.partition("-- ")[2]) for n, line in enumerate(lines, 1)]
    found = [(n, line.partition("//")[2]) for n, line in enumerate(lines, 1)]
    for block in re.finditer(r"/\*(?:[^*]|\*(?!/))*\*/", text) if path.suffix not in (".rt", ".rs") else ():
        found += enumerate(block[0].split("\n"), text[: block.start()].count("\n") + 1)
    return found


def sources() -> Iterator[tuple[str, list[tuple[int, str]]]]:
    """Pairs of a tracked file's name and its prose."""
    for name in subprocess.run(["git", "ls-files"], cwd=TOP, capture_output=True, text=True, check=True).stdout.split("\n"):
        path = TOP / name
        if NAMES.search(name) and path.is_file() and path != pathlib.Path(__file__).resolve():
            yield name, prose(path, path.read_text(errors="replace"))


def checks() -> Iterator[Judged]:
    texts = list(sources())
    for pattern, better, wrong, ordinary in WORDS:
        found = [f"{name}:{n}: {line.strip()[:100]}" for name, lines in texts for n, line in lines if re.search(pattern, re.sub(r"`[^`]*`", "", line))]
        if not re.search(pattern, wrong) or re.search(pattern, ordinary):
            found.append("it finds the wrong example")
        yield pattern, [f"{line}\n    write: {better}" for line in found]


if __name__ == "__main__":
    sys.exit(judge(checks()))
