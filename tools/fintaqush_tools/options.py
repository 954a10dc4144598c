"""The options of the subcommands, by argparse: their types, and those that several have."""

from __future__ import annotations

import argparse
import contextlib
import re
import sys
from collections.abc import Callable, Sequence
from typing import IO, Any, NoReturn

from fintaqush_tools.errors import BAD_USAGE, Refusal
from fintaqush_tools.places import version, with_pages
from fintaqush_tools.progress import Program
from fintaqush_tools.settings import MOST, USUAL
from fintaqush_tools.texts import is_number, nearest, shown


class Words(argparse.Namespace):
    """The options and arguments of a call."""

    error: Callable[[str], NoReturn]  # rejects them


class Printed(argparse.Action):
    """An option that prints a line and ends. argparse's own ignores a failed write, as to a full disk."""

    def __call__(self, parser: argparse.ArgumentParser, *_: Any) -> None:
        print(self.const)
        parser.exit()


class Quiet(argparse.Action):
    """The option --quiet."""

    def __call__(self, *_: Any) -> None:
        Program.is_quiet = True


class Parser(argparse.ArgumentParser):
    """A parser of a subcommand's options, without abbreviations."""

    raises = False  # whether a wrong option is a Refusal

    def flag(self, name: str, what: str) -> None:
        """Adds an option without a value."""
        self.add_argument(name, action="store_true", help=what)

    def many(self, name: str, metavar: str, what: str, **others: Any) -> None:
        """Adds an option that may be given many times."""
        how: dict[str, Any] = {"action": "append", "default": [], **others}
        self.add_argument(name, metavar=metavar, help=what, **how)

    def number(self, name: str, low: int, high: int, usual: int | None, what: str) -> None:
        """Adds an option whose value is a whole number from `low` to `high`."""
        self.add_argument(name, type=number(low, high), default=usual, metavar="N", help=what)

    def print_help(self, file: IO[str] | None = None) -> None:
        (file or sys.stdout).write(self.format_help())

    def format_help(self) -> str:
        self.usage = self.usage or self.short_usage()
        return super().format_help()

    def format_usage(self) -> str:
        self.usage = self.usage or self.short_usage()
        return super().format_usage()

    def short_usage(self) -> str:
        """Returns the usage with only the options that are required; --help lists the others."""
        parts, ends = ["%(prog)s"], {"?": "[{}]", "*": "[{} ..]", "+": "{} .."}
        for action in self._actions:
            name = str(action.metavar or action.dest.upper())
            if not action.option_strings:
                parts.append(ends.get(str(action.nargs), "{}").format(name))
            elif action.required:
                parts.append(f"{action.option_strings[0]} {name}")
        return " ".join([*parts, "[OPTION ..]"])

    def error(self, message: str) -> NoReturn:
        unknown = re.match(r"unrecognized arguments: (-[^\s=]+)", message)
        near = nearest(unknown[1], sorted(self._option_string_actions), 4, 2, 0.7) if unknown else []
        message += f": is {' or '.join(near)} meant?" if near else ""
        if self.raises:
            raise Refusal(message)
        with contextlib.suppress(OSError):  # a standard error that takes nothing changes no status
            self.print_usage(sys.stderr)
            sys.stderr.write(f"{self.prog}: error: {shown(message)}\n")
        self.exit(BAD_USAGE)


def parser_of(text: str | None, add: Callable[[Parser], None]) -> Parser:
    """Returns a parser of the options that all subcommands have, and of those that `add` adds, which may replace them."""
    others: dict[str, Any] = {"formatter_class": argparse.RawDescriptionHelpFormatter, "conflict_handler": "resolve"}
    parser = Parser(Program.name, description=with_pages(text or ""), allow_abbrev=False, **others)
    told = f"{parser.prog} of Fintaqush {version()}"
    own: dict[str, Any] = {"nargs": 0, "dest": argparse.SUPPRESS}
    parser.add_argument("--version", action=Printed, const=told, help="print the version", **own)
    parser.add_argument("--quiet", action=Quiet, help="print no progress on standard error", **own)
    add(parser)
    return parser


def words_of(text: str | None, add: Callable[[Parser], None], given: Sequence[str], raises: bool = False) -> Words:
    """Parses the options of a call. `raises` makes wrong ones a Refusal."""
    parser = parser_of(text, add)
    parser.raises = raises
    return parser.parse_args(given, Words(error=parser.error))


def wrong(text: str, wanted: str) -> argparse.ArgumentTypeError:
    """Returns the error for a bad value of an option."""
    return argparse.ArgumentTypeError(f"{shown(text)[:40]!r} isn't {wanted}")


def number(low: int, high: int) -> Callable[[str], int]:
    """Returns a parser of a whole number from `low` to `high`."""

    def read(text: str) -> int:
        if not (is_number(text) and low <= int(text) <= high):
            raise wrong(text, f"a number from {low} to {high}")
        return int(text)

    return read


def pair(sign: str, example: str, low: int = 1) -> Callable[[str], tuple[int, int]]:
    """Returns a parser of two numbers, the first at most the second."""

    def read(text: str) -> tuple[int, int]:
        first, _, last = text.partition(sign)
        if not (is_number(first) and is_number(last) and low <= int(first) <= int(last) <= 10**9):
            raise wrong(text, f"as {example}")
        return int(first), int(last)

    return read


def add_settings(parser: Parser) -> None:
    """Adds the options of a run."""
    for name, most in MOST.items():
        parser.number(f"--{name}", 1, most, None, f"1 to {most} ({USUAL[name]})")


def given_settings(words: Words) -> dict[str, int]:
    """Returns the settings that were given, by name."""
    return {name: getattr(words, name) for name in MOST if getattr(words, name)}


def as_options(settings: dict[str, Any]) -> list[str]:
    """Returns settings as the options of a program."""
    return [word for name, value in settings.items() for word in (f"--{name}", str(value))]


def settings_of(words: Words) -> list[str]:
    """Returns the replay's options for the settings that were given."""
    return as_options(given_settings(words))


def add_binary(parser: argparse.ArgumentParser, what: str = "napi_serial or napi_replay") -> None:
    """Adds the option for another build of a program."""
    parser.add_argument("--binary", metavar="FILE", help=f"another build of {what} (built if needed)")


def add_out(parser: argparse.ArgumentParser, what: str) -> None:
    """Adds the option for the output file."""
    parser.add_argument("--out", metavar="FILE", help=f"the file for the {what} (standard output)")


def add_force(parser: Parser, names: str) -> None:
    """Adds the option that lets a tool replace files whose names it makes itself; one that --out names is replaced anyway."""
    parser.flag("--force", f"replace existing files: {names}")


def add_raise(parser: argparse.ArgumentParser, more: str = "") -> None:
    """Adds the option for the runs that the kernel would add."""
    text = f"add {more}the runs that the kernel would make after a run that leaves devices on the poll list"
    parser.add_argument("--raise", action="store_true", dest="raised", help=text)
