"""The commands of the pages: each is run in a copy of the repository, or commands.txt says which test runs it or why none does.

A command of a page is a line of a block that begins with a program's name, a line `$ COMMAND` with its output below it, or code
of at least two words, of which the first one is a program's name. Text after three spaces, or after `#`, is a remark. A synopsis,
such as `./fintaqush replay TRACE WORD ..`, is compared with the program's usage text. Commands that prove, measure or install are
run by hand: the command has to exist.
"""

from __future__ import annotations

import functools
import os
import pathlib
import re
import shutil
import subprocess
import sys
import tempfile
from collections.abc import Iterator

import needs

TOP = pathlib.Path(__file__).resolve().parent.parent
sys.path.append(str(TOP / "tools"))
from fintaqush_tools import cli  # noqa: E402
from fintaqush_tools.options import parser_of  # noqa: E402

LIST = TOP / "tests/commands.txt"
LONGEST = 3600  # seconds; nothing is judged by its time
PROGRAMS = set("""rt cc gcc g++ clang clang++ c++ make cmake ctest cargo rustc python3 bash sh awk sbatch trace-cmd apt apt-get git cp mv rm
    mkdir cd printf echo cat head pkg-config valgrind man ip ethtool taskset tcpdump parallel perf sudo export curl ns3 tar diff
    fintaqush napi_machine napi_replay napi_series napi_serial""".split())
FOLDERS = r"(?:\./|\.\./)*(?:bench|crates|bindings|examples|scripts|tests|tools)/[\w./-]+"
SETTINGS = re.compile(r"^([A-Z_]+=\S+ )+")
SYNOPSIS = re.compile(r"\[[A-Z-]| \.\.(?: |$)|\.\.\]| \| -|[A-Z]\|[A-Z]")
BY_HAND = re.compile(r"(rt|apt|perf|git grep|head) |bench/|scripts/surface")
KEYS = {"run", "first", "into", "needs", "prints", "in", "by", "not"}
OF_THE_MACHINE = {"PATH", "LANG", "LC_ALL", "TERM", "TMPDIR", "USER", "LOGNAME", "SHELL", "RUSTUP_HOME", "CARGO_HOME"}
# Begins the block that first_program runs.
FIRST = "git init ."


def listed(*names: str) -> list[str]:
    return subprocess.run(["git", "ls-files", *names], cwd=TOP, capture_output=True, text=True, check=True).stdout.split()


Entry = dict[str, str]  # what the list says about a command
SKIPPED: list[str] = []  # what was, a line each


@functools.cache
def is_missing(program: str, what: str) -> bool:
    """Whether a program or a library isn't installed; what needs it is skipped, and named once."""
    is_here = needs.is_here(program)
    if not is_here:
        SKIPPED.append(needs.skipped("pages", what, program))
        print(SKIPPED[-1])
    return not is_here


def begins_a_command(text: str) -> bool:
    """Whether the first word is a program's; variable settings may precede it."""
    words = SETTINGS.sub("", text).split()
    if not words:
        return False
    if words[0] == "fintaqush" and len(words) == 2 and words[1] in cli.MODULES:
        return False  # the name of a subcommand
    if words[0] in PROGRAMS or re.match(r"\./(replay|test|fintaqush)$", words[0]):
        return True
    return bool(re.fullmatch(FOLDERS, words[0])) and (len(words) > 1 or words[0].endswith(".sh")) and not words[0].endswith((".py", ".rt", ".md"))


def plain(line: str) -> str:
    """A command without the remark after it, with single spaces."""
    return " ".join(re.split(r" {3,}|\s+# ", line.strip())[0].split())


def listed_as(command: str) -> str:
    """A command as commands.txt has it: a subcommand is listed as it is called in a checkout, however a page calls it."""
    return f"./{command}" if command.startswith("fintaqush ") else command


def blocks(text: str) -> Iterator[list[str]]:
    """The blocks of a page, each the list of its lines: fenced ones, and those indented by four spaces."""
    block: list[str] = []
    fence, before = False, ""
    for line in text.splitlines() + [""]:
        if line.startswith("```"):
            if fence:
                yield block
            block, fence = [], not fence
        elif fence:
            block.append(line)
        elif line.startswith("    ") and (block or not before.strip()):
            block.append(line[4:])
        elif not line.strip() and block:
            block.append("")
        elif block:
            yield block
            block = []
        before = line
    if block:
        yield block


def joined(lines: list[str]) -> Iterator[str]:
    """The lines of a block as commands: one continues after a backslash, in quotes, and to the end of a text after `<<`."""
    held = ""
    for line in lines + [""]:
        held = f"{held}\n{line}" if held else line
        text = re.search(r"<<-?\s*'?(\w+)'?", held)
        is_open = held.count("'") % 2 or held.endswith("\\") or (text and held.rsplit("\n", 1)[-1].strip() != text[1])
        if not is_open:
            if held.strip() and not held.lstrip().startswith("#"):
                yield plain(held)
            held = ""


def commands_of_block(block: list[str]) -> Iterator[tuple[str, list[str] | None]]:
    """Pairs of a command as it is listed, and its output by the page; nothing if the page doesn't show it."""
    lines = "\n".join(line.rstrip() for line in block).rstrip("\n").splitlines()
    if any(line.startswith("$ ") for line in lines):
        for part in re.split(r"^\$ ", "\n".join(lines), flags=re.M)[1:]:
            yield plain(part.splitlines()[0]), part.splitlines()[1:]
    elif lines and lines[0] == FIRST:
        return
    elif lines and lines[0].startswith(("#!", "set -")):
        yield f"{lines[0]}; {lines[1]} ..", None
    elif lines and begins_a_command(lines[0]):
        yield from ((command, None) for command in joined(lines))


def commands_of_page(path: pathlib.Path) -> Iterator[tuple[str, list[str] | None]]:
    """The commands of a page, or of a manual page, in order."""
    text = path.read_text()
    if path.suffix != ".md":
        text = text.replace("\\-", "-").replace("\\(aq", "'").replace("\\e", "\\")
        for block in re.findall(r"^\.EX\n(.*?)^\.EE$", text, re.M | re.S):
            yield from commands_of_block(block.splitlines())
        yield from ((plain(line), None) for line in re.findall(r"^\.B (.*)$", text, re.M) if begins_a_command(line) and " " in line)
        return
    shown = set()
    for block in blocks(text):
        shown.update(block)
        yield from commands_of_block(block)
    for line in text.splitlines():
        if line[4:] not in shown or not line.startswith("    "):
            for code in re.findall(r"`([^`]+)`", line):
                code = plain(code.replace("\\|", "|"))
                if begins_a_command(code) and (" " in code or code == "./test"):
                    yield code, None


def read_list() -> tuple[dict[str, Entry], list[str]]:
    """What to do with each command of the list, by its keys; and what is wrong with the list itself."""
    entries: dict[str, Entry] = {}
    wrong: list[str] = []
    for line in LIST.read_text().splitlines():
        if not line.strip() or line.startswith("#") and not line.startswith("#!"):
            continue
        if not line.startswith(" "):
            line = listed_as(line)
            wrong += [f"{line} stands twice"] if line in entries else []
            entry = entries[line] = {"command": line}
            continue
        key, _, value = line.strip().partition(":")
        if key not in KEYS or key in entry:
            wrong.append(f"{entry['command']}: {key} is no key of an entry, or stands twice")
        entry[key] = value.strip()
    for command, entry in entries.items():
        if len({"run", "by", "not"} & set(entry)) > 1 or "" in entry.values():
            wrong.append(f"{command}: it is either run, or by another test, or not with a reason")
        name, _, word = entry.get("by", "").partition(" ")
        if name and (not (TOP / name).is_file() or not word or word not in (TOP / name).read_text()):
            wrong.append(f"{command}: {name} has no {word or 'word that is named'}")
    return entries, wrong


def synopsis(command: str) -> Iterator[str]:
    """What is wrong with a synopsis: each of its options has to be in the program's usage text; for a built one in the
    launcher's."""
    name, *words = re.sub(r"^(\./|\.\./)+", "", SETTINGS.sub("", command)).split()
    if name == "fintaqush" and words[0] in cli.MODULES:
        module = cli.module_of(words[0])
        text = parser_of(module.__doc__, module.add_options).format_help()
        yield from (f"{command}: {name} tells nothing of {option}" for option in re.findall(r"--[\w-]+", command) if option not in text)
        return
    path = TOP / ("tools/fintaqush_tools/replay.txt" if name == "replay" or name.startswith("napi_") else name)
    if name != "rt" and not path.is_file():
        yield f"{command}: there is no {name}"
    elif name != "rt":
        yield from (f"{command}: {name} tells nothing of {option}" for option in re.findall(r"--[\w-]+", command) if option not in path.read_text())


def by_hand(command: str) -> Iterator[str]:
    """What is wrong with a command that is run by hand: the kit has to have it, or the script has to exist."""
    program, word = (SETTINGS.sub("", command).split() + [""])[:2]
    if program == "rt" and shutil.which("rt"):
        told = subprocess.run(["rt", "help"], capture_output=True, text=True, check=False)
        if word not in told.stdout + told.stderr:
            yield f"{command}: rt has no {word}"
    elif "/" in program and not (TOP / program).is_file():
        yield f"{command}: there is no {program}"


class Copy:
    """A fresh clone (scripts/fresh_clone.sh) with an empty home folder, in which commands run and leave what they write. They
    have the environment of the machine, except variables that scripts of this repository read."""

    def __init__(self) -> None:
        self.room = pathlib.Path(tempfile.mkdtemp())
        self.top = self.room / "fintaqush"
        subprocess.run([TOP / "scripts/fresh_clone.sh", self.room], check=True)
        (self.room / "bin").mkdir()
        for name in ("napi_machine", "napi_replay", "napi_series", "napi_serial"):
            (self.room / "bin" / name).symlink_to(self.top / f"crates/{name}/out/{name}")
        (self.room / "bin/fintaqush").symlink_to(self.top / "fintaqush")

    def run(self, command: str, folder: str | pathlib.Path = "") -> subprocess.CompletedProcess[str]:
        """Runs a command at the top of the copy, or in a folder of it."""
        known = {key: value for key, value in os.environ.items() if key in OF_THE_MACHINE}
        known |= {"HOME": f"{self.room}/home", "PATH": f"{self.room}/bin:{known['PATH']}"}
        for key, folder_of in (("RUSTUP_HOME", ".rustup"), ("CARGO_HOME", ".cargo")):  # where this machine has its toolchain
            if (pathlib.Path.home() / folder_of).is_dir():
                known.setdefault(key, str(pathlib.Path.home() / folder_of))
        return subprocess.run(["bash", "-c", command], cwd=self.top / folder, env=known, capture_output=True, text=True,
                              stdin=subprocess.DEVNULL, timeout=LONGEST, errors="replace")

    def remove(self) -> None:
        shutil.rmtree(self.room)


def is_shown(wanted: list[str], printed: list[str]) -> bool:
    """Whether the output is what a page shows, which may have a remark after three spaces."""
    return len(wanted) == len(printed) and all(line == one or re.split(r" {3,}", line)[0] == one for line, one in zip(wanted, printed))


def play(copy: Copy, command: str, wanted: list[str] | None, entry: Entry) -> Iterator[str]:
    """What is wrong with a run: its status, its output if a page shows it, and what the list says about its output."""
    text = command
    for name, _, value in (one.partition("=") for one in entry.get("run", "").split()):
        if name not in text:
            yield f"{command} has no {name}"
        text = text.replace(name, value)
    text = f"set -e; {entry['first']}\n{text}" if "first" in entry else text
    text = f"{text} | {entry['into']}" if "into" in entry else text
    ended = copy.run(text, entry.get("in", ""))
    printed = [line.rstrip() for line in ended.stdout.splitlines()]
    if ended.returncode != 0:
        yield f"{command}: status {ended.returncode}: {ended.stderr.strip()[-2000:]}"
    elif wanted and not is_shown(wanted, printed):
        yield f"{command} prints {printed}"
    elif "prints" in entry and not re.search(entry["prints"], ended.stdout):
        yield f"{command} prints nothing like {entry['prints']}: {printed[-5:]}"


def judge_page(copy: Copy, entries: dict[str, Entry], path: pathlib.Path) -> Iterator[str]:
    """What is wrong with the commands of a page."""
    for command, wanted in commands_of_page(path):
        entry = entries.get(listed_as(command), {})
        entry["is_used"] = "yes"
        if "by" in entry or "not" in entry or any([is_missing(name, command) for name in entry.get("needs", "").split()]):
            continue
        if "command" in entry or wanted is not None:
            yield from play(copy, command, wanted, entry)
        elif BY_HAND.match(SETTINGS.sub("", command)):
            yield from by_hand(command)
        elif SYNOPSIS.search(command):
            yield from synopsis(command)
        else:
            yield f"{command} is neither run nor listed in tests/commands.txt"


def judge_list(entries: dict[str, Entry], wrong: list[str]) -> Iterator[str]:
    """What is wrong with the list, once all pages were judged."""
    yield from wrong
    yield from (f"no page has {command}" for command, entry in entries.items() if "is_used" not in entry)


def first_program(copy: Copy, path: pathlib.Path) -> Iterator[str]:
    """What is wrong with the first program: its shell lines, its text, and its output."""
    page = list(blocks(path.read_text()))
    place = next(at for at, block in enumerate(page) if block[0] == FIRST)
    shell, text, printed = page[place : place + 3]
    mine = copy.room / "mine"
    mine.mkdir()
    made = copy.run("set -e\n" + "\n".join(shell), mine)
    if made.returncode != 0:
        yield f"{shell}: {made.stderr.strip()}"
        return
    (mine / "crates/first/src/main.rt").write_text("\n".join(text).rstrip() + "\n")
    ended = None if is_missing("rt", "the first program") else copy.run("rt try", mine / "crates/first")
    if ended and (ended.returncode != 0 or ended.stdout.split() != " ".join(printed).split()):
        yield f"its first program prints {ended.stdout}, status {ended.returncode}: {ended.stderr.strip()[-2000:]}"


def first_trace(copy: Copy, path: pathlib.Path) -> Iterator[str]:
    """What is wrong with the first trace of docs/NAPI.md and its report: they are an example's."""
    shown = ["\n".join(block).strip() + "\n" for block in blocks(path.read_text())]
    place = next(at for at, block in enumerate(shown) if block.startswith("moment,"))
    trace, report = shown[place : place + 2]
    if trace != (TOP / "examples/two-packets.csv").read_text() or copy.run("./replay examples/two-packets.csv").stdout != report:
        yield "its first trace and report aren't those of examples/two-packets.csv"


def first_edit(_copy: Copy, path: pathlib.Path) -> Iterator[str]:
    """What is wrong with the edit that docs/WORKING.md shows: it is one of a crate."""
    shown = next("\n".join(block).strip() for block in blocks(path.read_text()) if block[0].startswith("file: "))
    if not any(edit.read_text().strip().startswith(shown) for edit in TOP.glob("crates/*/must-fail/*.edit")):
        yield "the edit that it shows is no crate's"
