"""Prints the shell completion of `fintaqush`: its subcommands, their options, and the values of options.

    source <(fintaqush completion bash)
    source <(fintaqush completion zsh)
    fintaqush completion fish | source

An installed package has it already, in the folders of bash-completion, zsh and fish. It is generated from the options that each subcommand declares.
"""

from __future__ import annotations

from collections.abc import Sequence
from typing import NamedTuple

from fintaqush_tools.cli import GROUPS, MODULES, module_of
from fintaqush_tools.manual import described
from fintaqush_tools.options import Parser, parser_of, words_of
from fintaqush_tools.pages import filled
from fintaqush_tools.settings import MOST

# Subcommands that also take the options of a replay.
OF_REPLAY = ("plot",)


class Option(NamedTuple):
    names: list[str]
    value: str
    choices: list[str]
    what: str


def options_of(name: str) -> list[Option]:
    """Returns the options of a subcommand."""
    more = MOST if name in OF_REPLAY else {}
    module = module_of(name)
    own = [Option(*each) for each in described(parser_of(module.__doc__, module.add_options))]
    return own + [Option([f"--{each}"], "N", [], f"of the replay, 1 to {most}") for each, most in more.items()]


def quoted(text: str) -> str:
    """Quotes a text with single quotes, for each of the three shells."""
    return "'" + text.replace("\\", "").replace("'", "’") + "'"


def for_bash(options: dict[str, list[Option]]) -> str:
    """Returns the function that bash calls with the arguments typed so far."""
    words, values = [], []
    for name, told in options.items():
        words.append(f"        {name}) options='{' '.join(word for each in told for word in each.names)}' ;;")
        for each in told:
            values += [f"        {name}{each.names[-1]}) values='{' '.join(each.choices)}' ;;"] * bool(each.choices)
    texts = {"WORDS": "\n".join(words), "VALUES": "\n".join(values), "NAMES": " ".join(options)}
    return filled("completion.bash", **texts).rstrip()


def for_zsh(options: dict[str, list[Option]]) -> str:
    """Returns a function for _arguments. If it is sourced instead of autoloaded, it registers itself."""

    def spec(name: str, each: Option) -> str:
        text = each.what.translate({ord("["): "(", ord("]"): ")", ord(":"): ","})
        value = f":{each.value}:" + (f"({' '.join(each.choices)})" if each.choices else "_files") if each.value else ""
        return quoted(f"*{name}[{text}]{value}")

    names = [f"        {quoted(name + ':' + what.replace(':', ','))}" for _, group in GROUPS for name, what in group]
    lines = []
    for name, told in options.items():
        specs = [f"                {spec(word, each)} \\" for each in told for word in each.names]
        lines += [f"        {name})", "            _arguments \\", *specs, "                '*:file:_files' ;;"]
    return filled("completion.zsh", NAMES="\n".join(names), WORDS="\n".join(lines)).rstrip()


def for_fish(options: dict[str, list[Option]]) -> str:
    """Returns a line for each subcommand and each option."""
    lines = ["# Completion of fintaqush for fish, by `fintaqush completion fish`."]
    first = "complete -c fintaqush -f -n __fish_use_subcommand"
    lines += [f"{first} -a {name} -d {quoted(what)}" for _, group in GROUPS for name, what in group]
    lines += [f"{first} -l {name}" for name in ("help", "version")]
    for name, told in options.items():
        for each in told:
            words = " ".join(f"-l {word[2:]}" if word.startswith("--") else f"-s {word[1:]}" for word in each.names)
            value = f" -x -a {quoted(' '.join(each.choices))}" if each.choices else " -r" if each.value else ""
            seen = f"complete -c fintaqush -n '__fish_seen_subcommand_from {name}'"
            lines.append(f"{seen} {words}{value} -d {quoted(each.what)}")
    return "\n".join(lines)


SHELLS = {"bash": for_bash, "zsh": for_zsh, "fish": for_fish}


def add_options(parser: Parser) -> None:
    parser.add_argument("shell", choices=list(SHELLS), help="bash, zsh or fish")


def main(given: Sequence[str]) -> None:
    words = words_of(__doc__, add_options, given)
    print(SHELLS[words.shell]({name: options_of(name) for name in MODULES}))
