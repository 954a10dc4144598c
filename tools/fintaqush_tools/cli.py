"""The command `fintaqush`: its subcommands, and how each is run. It imports nothing that is slow to import, and only the module of the
subcommand that is asked for."""

from __future__ import annotations

import os

from fintaqush_tools import errors
from fintaqush_tools.progress import Program, say

TYPE_CHECKING = False  # `typing` is slow to import
if TYPE_CHECKING:
    from collections.abc import Sequence
    from types import ModuleType

with open(f"{os.path.dirname(__file__)}/usage.txt", encoding="utf-8") as file:
    USAGE = file.read()
# By task: each subcommand, and what it does.
BLOCKS = [text.splitlines() for text in USAGE.split("\n\n") if ":\n  " in text]
GROUPS = [(title[:-1], [line.split(None, 1) for line in lines]) for title, *lines in BLOCKS]
# Each subcommand's module in commands/.
NAMES = ["series", *(name for _, group in GROUPS for name, _ in group)]  # the first help doesn't have series
MODULES = {name: name.replace("-", "_") + "_" * (name == "try") for name in NAMES}


def unknown(name: str) -> str:
    """Returns the message for a subcommand that doesn't exist, with the names that are nearest to it."""
    from fintaqush_tools.texts import nearest, quoted

    near = nearest(quoted(name)[1:-1], sorted(MODULES), 2, 3, 0.5)
    meant = f": is {' or '.join(near)} meant?" if near else ""
    return f"there is no subcommand {quoted(name)}{meant}; fintaqush --help lists them"


def module_of(name: str) -> ModuleType:
    from importlib import import_module

    Program.name = f"fintaqush {name}"
    errors.Signals.defer()
    try:
        return import_module(f"fintaqush_tools.commands.{MODULES[name]}")
    finally:
        errors.Signals.resume()


def page(name: str) -> str:
    """Returns the manual page of a subcommand, or without a name that of the command."""
    from fintaqush_tools import manual, options

    if not name:
        return "\n".join(manual.page_of_command(GROUPS))
    module = module_of(name)
    return "\n".join(manual.page_of(options.parser_of(module.__doc__, module.add_options)))


def write_pages(folder: str) -> None:
    """Writes all manual pages into a folder."""
    for name in ["", *MODULES]:
        with open(f"{folder}/fintaqush{'-' * bool(name)}{name}.1", "w", encoding="utf-8") as file:
            print(page(name), file=file)


def about(asked: str) -> int:
    """Prints what is asked about the command itself."""
    if asked in ("-h", "--help", "help"):
        print(USAGE, end="")
    elif asked == "--names":  # for scripts
        print(*sorted(MODULES), sep="\n")
    elif asked in ("--version", "version"):
        from fintaqush_tools.places import version

        print(f"Fintaqush {version()}")
    elif asked == "--manual":
        print(page(""))
    else:
        say(unknown(asked) if asked else "no subcommand; fintaqush --help lists them")
        return errors.BAD_USAGE
    return 0


def main(words: Sequence[str]) -> int:
    """Runs a subcommand, and returns its exit status."""
    name, *rest = words or [""]
    if name == "help" and rest:
        name, rest = rest[0], ["--help"]
    if name == "--manual" and rest:  # for scripts
        write_pages(rest[0])
        return 0
    if name not in MODULES:
        return about(name)
    if rest == ["--manual"]:
        print(page(name))
        return 0
    return int(module_of(name).main(rest) or 0)


def start(words: Sequence[str]) -> None:
    """Runs the command, and ends the process."""
    called = f"fintaqush {words[0]}" if words and words[0] in MODULES else "fintaqush"
    errors.run(called, main, words, is_short=not MODULES.keys() & set(words[:2]))


def entry() -> None:
    """The command of an installed package."""
    import sys

    start(sys.argv[1:])
