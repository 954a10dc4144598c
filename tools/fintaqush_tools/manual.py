"""Generates the manual pages, and the list of options for the completion, from the options that each subcommand declares."""

from __future__ import annotations

import argparse
import re
from collections.abc import Iterator, Sequence

from fintaqush_tools.options import Parser
from fintaqush_tools.places import version

STATUS = "0 success; 1 error, with a message;{} 64 bad usage; 130 or 143 interrupted."
FAILED = " 3 a condition of \\-\\-fail\\-if holds;"
Groups = Sequence[tuple[str, Sequence[Sequence[str]]]]


def plain(text: str) -> str:
    """Escapes a text for a manual page."""
    return re.sub(r"^([.'])", r"\\&\1", text.replace("\\", "\\e").replace("-", "\\-"), flags=re.M)


def paragraphs(text: str) -> Iterator[str]:
    """Formats paragraphs; lines indented by four spaces are kept as they are."""
    for block in text.strip("\n").split("\n\n"):
        if block.startswith("  "):
            yield from (".PP", ".nf", plain(block), ".fi")
        else:
            yield from (".PP", plain(block))


def shown_actions(parser: Parser) -> list[argparse.Action]:
    return [action for action in parser._actions if action.help != argparse.SUPPRESS]


def options(parser: Parser) -> Iterator[str]:
    """Yields each option with its description."""
    formatter = argparse.HelpFormatter(parser.prog)
    for action in shown_actions(parser):
        names = plain(formatter._format_action_invocation(action))
        yield from (".TP", f".B {names}", plain(formatter._expand_help(action)))


def head_of(name: str, what: str, *usage: str) -> list[str]:
    """Returns the lines of a manual page up to its description."""
    head = f'.TH {plain(name.upper())} 1 "" "Fintaqush {version()}"'
    return [head, ".SH NAME", f"{plain(name)} \\- {plain(what)}", ".SH SYNOPSIS", *usage, ".SH DESCRIPTION"]


def page_of(parser: Parser) -> list[str]:
    """Returns the lines of a subcommand's manual page."""
    head, _, text = (parser.description or "").partition("\n\n")
    name = parser.prog.replace(" ", "-")
    has_status = re.search("^exit status", text, re.M | re.I)
    failed = FAILED if any("--fail-if" in action.option_strings for action in shown_actions(parser)) else ""
    usage = plain(" ".join(parser.format_usage().removeprefix("usage: ").split()))
    lines = [*head_of(name, " ".join(head.split()).rstrip("."), usage), *list(paragraphs(text))[1:]]
    lines += [".SH OPTIONS", *options(parser)]
    lines += [] if has_status else [".SH EXIT STATUS", STATUS.format(failed)]
    return [*lines, ".SH SEE ALSO", ".BR fintaqush (1), napi_replay (1)"]


def described(parser: Parser) -> list[tuple[list[str], str, list[str], str]]:
    """Returns for each option its names, its value, its choices, and its description."""
    formatter, found = argparse.HelpFormatter(parser.prog), []
    for action in shown_actions(parser):
        if action.option_strings:
            value = str(action.metavar or action.dest.upper()) if action.nargs != 0 else ""
            choices, what = list(map(str, action.choices or [])), " ".join(formatter._expand_help(action).split())
            found.append((list(action.option_strings), value, choices, what))
    return found


def page_of_command(groups: Groups) -> list[str]:
    """Returns the lines of the manual page of `fintaqush`."""
    what = "how Linux polls received packets, and what other settings would change"
    lines = head_of("fintaqush", what, ".B fintaqush", '.RI SUBCOMMAND " [ARGUMENT ..]"')
    text = "Each subcommand has a manual page of its own, fintaqush-SUBCOMMAND(1), and prints its options by --help."
    lines.append(plain(text))
    for title, group in groups:
        lines += [f".SH {plain(title.upper())}"]
        for name, what in group:
            lines += [".TP", f".BR fintaqush\\-{plain(name)} (1)", plain(what)]
    more = ".BR napi_replay (1), napi_series (1), napi_machine (1), fintaqush (3)"
    return [*lines, ".SH EXIT STATUS", STATUS.format(FAILED), ".SH SEE ALSO", more]
