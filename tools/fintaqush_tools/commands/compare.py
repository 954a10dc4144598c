"""Compares two results, two recordings, or the replays of a trace with two settings, and prints what changed.

    fintaqush compare before.json after.json --fail-if 'p99>+10%'
    fintaqush compare monday.rec tuesday.rec -- wednesday.rec thursday.rec
    fintaqush compare examples/linux-veth-bursts.csv --raise --budget 16 --weight 8 -- --budget 300

Results are files that --json of what-if, machine, sweep, costs, advise or replay wrote, or CSV of what-if or sweep; several combinations are
matched by the options that vary. Recordings are files of fintaqush record: their waits, drops, squeezed runs, polls and costs are compared.
With several files on a side, which -- separates from the other side, their means are compared.

Two single recordings are compared by ten parts of each, and sides with several files by their files: a value has changed if the ranks of these
differ by more than chance does in one of 20 cases (Mann and Whitney), so one odd part neither makes a change nor hides one. The noise is half
of the 95 % interval of the change. Parts of a recording may differ less than recordings do. If there are too few files for ranks (three on each
side), and for costs and the seeds of what-if, a change has to exceed the noise: that of the means, of the fit, or half of the range. Replays
and predictions for the same arrivals have none; that of the kernel's counters is unknown.

With --fail-if 'p99>+10%' the exit status is 3 if a value changed by more than this and by more than its noise. p99 and p50 are of waits to the
end of use, or else to delivery. A limit without a sign is for the value after.

The options of a trace's replay before -- are those of the first replay, the options after it those of the second. With --raise both include
the runs that the kernel would add after a run that leaves devices on the poll list.
"""

from __future__ import annotations

from collections.abc import Mapping, Sequence
from typing import Any

from fintaqush_tools import comparing
from fintaqush_tools.comparing import Change, Values, found_name, numbers_of, values_of
from fintaqush_tools.files import check_target, read_trace, write_out
from fintaqush_tools.options import Parser, Words, add_binary, add_out, add_raise, add_settings
from fintaqush_tools.options import given_settings, settings_of, words_of
from fintaqush_tools.processes import program, run_program
from fintaqush_tools.reports import objects_of
from fintaqush_tools.results import add_json, is_printed, write_json
from fintaqush_tools.texts import aligned, lines_of
from fintaqush_tools.thresholds import add_fail_if_changed, status_of
from fintaqush_tools.trace import raised

Replayed = Mapping[str, Mapping[str, Any]]  # the values of each device


def table(first: Replayed, second: Replayed, headings: Sequence[str]) -> list[str]:
    """Returns the lines of the table, which has only the values that differ, and the devices without a difference."""
    lines, same = [["", "", *headings, "change"]], []
    for who in sorted(first, key=lambda who: (who == "total", who == "list", len(who), who)):
        old, new = first[who], second[who]
        changed = [(who, name, value, new[name]) for name, value in old.items() if new[name] != value]
        if not changed:
            same.append(who)
        for who_, name, before, after in changed:
            is_number = type(before) is int and name != "word"
            lines.append([who_, name, str(before), str(after), f"{after - before:+}" if is_number else ""])
    text = aligned(lines, 2) if len(lines) > 1 else []
    return text + ([f"the same: {', '.join(same)}"] if same else [])


def of_replays(words: Words, second: Words) -> tuple[list[str], Values, Values]:
    """Replays a trace with two settings. Returns the table, and the values of both."""
    settings = settings_of(words), settings_of(second)
    text = read_trace(words.files[0])
    made = program("napi_serial", words.binary)
    played = [raised(text, each) if words.raised else text for each in settings]
    before, after = (values_of(objects_of(run_program(made, each, trace))) for each, trace in zip(settings, played))
    headings = [" ".join(each).replace("--", "") or "default" for each in settings]
    return table(before, after, headings), numbers_of(before), numbers_of(after)


def of_files(words: Words, names: Sequence[Sequence[str]]) -> tuple[list[str], Values, Values]:
    """Compares two sides, each one or more files. Returns the table, and the values of both."""
    before, after = (comparing.values_in_files(each, words.device) for each in names)
    changes = comparing.changes_in(before, after)
    return [*comparing.lines_of(changes), *comparing.only_in(before, after)], before, after


def status_for(words: Words, changes: Sequence[Change]) -> int:
    """Returns the exit status by --fail-if. A change that may be chance exceeds no limit of a change."""
    conditions = [each._replace(name=found_name(each.name, changes)) for each in words.fail_if]
    status = 0
    for is_relative in (True, False):
        some = [each for each in changes if not (is_relative and each.is_noise)]
        names = [each.as_object()["name"] for each in some]
        own, named = [each for each in conditions if each.is_relative == is_relative], list(zip(names, some))
        after = [(each.row, {name: each.after.middle}) for name, each in named]
        status |= status_of(own, after, [{name: each.before.middle} for name, each in named])
    return status


USAGE = "%(prog)s BEFORE AFTER | BEFORE .. -- AFTER .. | TRACE [OPTION ..] -- [OPTION ..]"
ANYWHERE = ("device", "json", "out")  # options that may be on both sides of --, as --fail-if may


def add_both(parser: Parser) -> None:
    """Adds what may be on both sides of --."""
    parser.usage = USAGE
    what = "results, recordings, or a trace; - for standard input"
    parser.add_argument("files", nargs="*", metavar="FILE", help=what)
    parser.add_argument("--device", metavar="NAME", help="one of several recorded devices")
    add_fail_if_changed(parser)
    add_json(parser, "the changes")
    add_out(parser, "table")
    add_settings(parser)


def add_options(parser: Parser) -> None:
    add_both(parser)
    add_raise(parser, "to both replays ")
    add_binary(parser)


def sides_of(given: Sequence[str]) -> tuple[Words, Words, list[list[str]]]:
    """Parses the options before and after --. Returns also the files of each side, or none if a trace is replayed."""
    place = given.index("--") if "--" in given else len(given)
    words = words_of(__doc__, add_options, given[:place])
    after = words_of(__doc__, add_both, given[place + 1 :])
    words.fail_if += after.fail_if
    for name in ANYWHERE:
        setattr(words, name, getattr(words, name) or getattr(after, name))
    if place == len(given) and len(words.files) == 2:
        sides = [words.files[:1], words.files[1:]]
    elif after.files:
        sides = [words.files, after.files]
    else:
        sides = []
    if sides and not all(sides):
        words.error(f"no file before --, to compare {', '.join(after.files)} with")
    if sides and (words.raised or given_settings(words) or given_settings(after)):
        words.error("the options of a replay are for a trace, and two files are compared as they are")
    if not sides and (len(words.files) != 1 or place == len(given)):
        words.error("two files, or files before and after --, or a trace with options of the second replay after --")
    return words, after, sides


def main(given: Sequence[str]) -> int:
    words, second, sides = sides_of(given)
    if words.out:
        check_target(words.out)
    text, before, after = of_files(words, sides) if sides else of_replays(words, second)
    changes = comparing.changes_in(before, after)
    if not is_printed(words.json):
        write_out(words.out, lines_of(text))
    write_json(words.json, "compare", (each.as_object() for each in changes))
    return status_for(words, changes)
