"""Predicts waits, drops and processor shares for settings, costs and loads, by running napi_machine on arrivals.

    fintaqush from-pcap capture.pcap mine --arrivals
    fintaqush what-if mine.csv --gro-flush-timeout 0,20000,100000 --defer-hard-irqs 2 --load 0.5,1,2 --json mine.json
    fintaqush what-if mine.csv --ring 64,256 --until drops
    fintaqush what-if --traffic '--kind poisson --rate 100000' --seeds 5 --threaded 0,1

On a terminal it prints a table with units, which has only the columns that differ, and conclusions. Elsewhere, or with --csv, it prints a CSV row
for each combination, with the options that have several values and the results. --json FILE also writes an object per line with all options,
whose keys are identifiers; without FILE these are printed in place of the table. --out writes a CSV file with all options. At a load of 2 all
arrival times are halved. An option takes numbers separated by commas. Times and costs are in ns, except in the table. Results are only as good as the costs: --costs RECORDING
estimates them as fintaqush costs does, and costs that are given count instead. Options are named after Linux's settings; --help says where each is set.

Packets are dropped if the ring is full, and refused if the socket is. Waits last from a packet's arrival to the end of its delivery by a poll,
and to the end of its use: the 50th, 99th and 99.9th percentile, of the device or processor where it is the greatest. Shares are of all
processors' time, in %; with --apart 1 the application's share is that of its own processor.

Each combination is also run with all costs 20 % lower and 20 % higher (--band); fintaqush advise prints a percentage for those of a
recording. A line on standard error warns if the order of two combinations changes within this band, because the better one then depends on
the costs. --queues above 1 needs arrivals with a column `flow`.

--until searches the load at which a combination breaks, to 1 %: with drops, a packet is dropped; with p99=US, the 99th percentile of waits to
the end of use exceeds that many us. The search assumes that a setting which holds a load also holds any lower one.

--traffic makes arrivals by fintaqush traffic, with its options, for each of --seeds seeds. A row then has the median of each value, and its
minimum and maximum as NAME_least and NAME_most.

The page web/index.html draws waits and drops of a table (CSV, or the file of --json) that is dropped on it: over the load, or over the option
that has the most values, with a curve for each combination of the others. --resume, --part and the options for other machines work as in sweep.
"""

from __future__ import annotations

import csv
import functools
import itertools
import os
import re
import shlex
import sys
import tempfile
import threading
from array import array
from collections.abc import Callable, Iterable, Iterator, Mapping, Sequence
from fractions import Fraction
from typing import Any

from fintaqush_tools import breaking, tables
from fintaqush_tools.arrivals import check_header
from fintaqush_tools.bands import DOUBT, with_costs
from fintaqush_tools.combinations import Combinations, Key, Row
from fintaqush_tools.combinations import add_words, check_words, choices, fault_of, sum_of, told_in
from fintaqush_tools.commands import costs, traffic
from fintaqush_tools.errors import About, Refusal, unfinished, unlink
from fintaqush_tools.files import check_regular
from fintaqush_tools.flights import as_timer
from fintaqush_tools.machine import ARE, COSTS, OPTIONS, PERCENTILES, VALUES, WAITS
from fintaqush_tools.machine import default_of, help_of, identifier, misfit, option_words, values_of
from fintaqush_tools.options import Parser, Words, number, words_of, wrong
from fintaqush_tools.processes import program, ran
from fintaqush_tools.progress import Progress, say
from fintaqush_tools.results import add_json, is_printed, value_of, write_json
from fintaqush_tools.texts import is_number, last_line, shown
from fintaqush_tools.thresholds import Condition, add_fail_if, status_of

VARIED = ["load", *OPTIONS]
KEY = ["arrivals", "sum", *VARIED]
# Faults of arrivals; a failed read or a failed allocation isn't one.
FAULT = re.compile(r"arrivals fault (?!10 )\d+ \w+ row \d+$")
HEADER = b"ns,device,bytes"
BAD_USAGE = 64  # the program's exit status
SHORT = {name: f"used_{name}" for name in PERCENTILES}  # names for --fail-if
# A change of an order: a line, the index pairs of its keys, and what they are ordered by.
Change = tuple[str, list[tuple[int, int]], str]
# Options of traffic that are set here.
TAKEN = ("--arrivals", "--out", "--seed", "--help", "-h", "--version", "--manual")
MOST_LOADS = 12  # for which scaled arrivals are kept: searches at the same time try similar loads
making = threading.Lock()


@functools.lru_cache
def sum_at(path: str, _size: int, _changed: int) -> str:
    with open(path, "rb") as file:
        return sum_of(file)


def sum_in(path: str) -> str:
    """Returns the checksum that identifies the arrivals in a file."""
    state = os.stat(path)
    return sum_at(path, state.st_size, state.st_mtime_ns)


def has_flows(path: str) -> bool:
    """Returns whether arrivals have the column `flow`."""
    with open(path, "rb") as file:
        return file.readline(1000).strip().endswith(b",flow")


@functools.lru_cache(1)
def parsed(path: str, with_flows: bool) -> tuple[bytes, array[int], list[bytes]]:
    """Returns the first line of arrivals, their times, and the other columns, with or without flows; equal ones are one object."""
    drops_flow, times, others = has_flows(path) and not with_flows, array("Q"), []
    known: dict[bytes, bytes] = {}
    with open(path, "rb") as file:
        first = file.readline(1000)
        for place, line in enumerate(file, 1):
            time, comma, rest = line.partition(b",")
            if not (comma and time.isdigit() and (len(time) < 20 or is_number(time.decode()))):
                told = shown(line[:40].decode("latin-1").strip())
                raise Refusal(f"row {place}: only times that are plain numbers can be scaled, not {told!r}")
            if drops_flow and rest.count(b",") == 2:
                rest = rest[: rest.rindex(b",")] + b"\n"
            times.append(int(time))
            others.append(known.setdefault(rest, rest))
    return HEADER + b"\n" if drops_flow else first, times, others


class Scaled:
    """A temporary file with arrivals at `load` times their rate, which exists for as long as this object."""

    name = ""

    def __init__(self, path: str, load: str, with_flows: bool) -> None:
        first, times, others = parsed(path, with_flows)
        over, under = Fraction(load).denominator, Fraction(load).numerator
        handle, self.name = tempfile.mkstemp(suffix=".csv")
        unfinished.add(self.name)
        with open(handle, "wb") as file:
            file.write(first)
            file.writelines(b"%d,%s" % (time * over // under, rest) for time, rest in zip(times, others))

    def __del__(self) -> None:
        unlink(self.name)
        unfinished.discard(self.name)


scaled = functools.lru_cache(MOST_LOADS)(Scaled)


def outcome(made: str, path: str, load: str, settings: Mapping[str, str]) -> tuple[int, str, bytes]:
    """Runs the machine on arrivals at a load; returns its status, its report and its messages."""
    with_flows = int(settings["queues"]) > 1
    is_as_it_is = Fraction(load) == 1 and has_flows(path) == with_flows
    with making:
        own = None if is_as_it_is else scaled(path, load, with_flows)
    with open(own.name if own else path, "rb") as file:
        status, out, said = ran([made, *option_words(settings)], stdin=file)
    return status, out.decode("ascii", "replace"), said


def breaks_at(made: str, key: Key, load: str, until: str) -> bool:
    """Returns whether a combination breaks at a load."""
    settings = dict(zip(OPTIONS, key[3:]))
    if reason := misfit(settings):
        raise Refusal(reason)
    status, out, said = outcome(made, key[0], load, settings)
    if status:
        raise Refusal(f"{shown(key[0])}: {last_line(said, f'status {status}')[:200]}")
    return breaking.is_over(values_of(out), until)


def row_of(made: str, key: Key) -> Row:
    """Returns the machine's results for one combination."""
    path, held, load, *chosen = key
    if sum_in(path) != held:
        raise Refusal("the arrivals have changed since this began")
    settings = dict(zip(OPTIONS, chosen))
    if reason := misfit(settings):
        return {**dict(zip(KEY, key)), "status": BAD_USAGE, "fault": reason}
    status, out, said = outcome(made, path, load, settings)
    row: Row = {**dict(zip(KEY, key)), "status": status, "fault": fault_of(made, status, said, FAULT)}
    return {**row, **(values_of(out) if status == 0 else {})}


TABLE = Combinations("what-if", KEY, ["status", "fault", *VALUES], row_of)


# ---- the band of costs, and options without effect


def band_of(key: Key, percent: int) -> Key:
    """Returns the key of a combination with all costs scaled to `percent`."""
    return (*key[:3], *map(str, with_costs(dict(zip(OPTIONS, key[3:])), percent).values()))


ORDERS = {
    "the median wait to the end of use": lambda row: int(row["used_p50"]),
    "the 99th percentile of that wait": lambda row: int(row["used_p99"]),
    "drops": tables.lost,
}


def name_of(key: Key, names: Iterable[str]) -> str:
    """Names a combination by the options that distinguish it."""
    return ", ".join(f"{name} {value}" for name, value in zip(VARIED, key[2:]) if name in names)


def grouped(keys: Sequence[Key], chosen: set[str]) -> dict[Key, list[Key]]:
    """Groups the combinations that differ only in these options."""
    groups: dict[Key, list[Key]] = {}
    for key in keys:
        others = tuple(value for name, value in zip(VARIED, key[2:]) if name not in chosen)
        groups.setdefault(others, []).append(key)
    return groups


def orders_that_change(rows: Sequence[Row], keys: Sequence[Key], percent: int) -> Iterator[Change]:
    """Yields the combinations whose order changes within the band of costs."""
    by_key = {TABLE.key_of({**row, **{name: str(row[name]) for name in VARIED}}): row for row in told_in(rows)}
    varied = set(varied_in([dict(zip(VARIED, key[2:])) for key in keys]))
    groups = grouped(keys, varied - {"load", *COSTS})
    pairs = [pair for group in groups.values() for pair in itertools.combinations(group, 2)]
    every = [(one, other, side) for one, other in pairs for side in (-percent, percent)]
    for what, of in ORDERS.items():
        changed = [each for each in every if changes(by_key, *each, of)]
        if changed:
            one, other, side = changed[0]
            more = f", and so does that of {len(changed) - 1} more pairs" if len(changed) > 1 else ""
            costs = f"with costs {abs(side)} % {'lower' if side < 0 else 'higher'}"
            both = f"{name_of(one, varied)} and {name_of(other, varied)}"
            places = sorted({(keys.index(one) + 1, keys.index(other) + 1) for one, other, _ in changed})
            yield f"{costs} the order by {what} changes: {both}{more}", places, what


def changes(by_key: Mapping[Key, Row], one: Key, other: Key, side: int, of: Callable[[Row], int]) -> bool:
    """Returns whether, of two combinations, the other one is better with costs changed by that many percent."""
    keys = [[band_of(one, each), band_of(other, each)] for each in (100, 100 + side)]
    values = [[of(by_key[key]) for key in both if key in by_key] for both in keys]
    return all(len(each) == 2 for each in values) and (values[0][0] - values[0][1]) * (values[1][0] - values[1][1]) < 0


def of_budgets(rows: Sequence[Row]) -> Iterator[str]:
    """With one queue on a processor no budget changes a wait, because in the model, which has no ksoftirqd, the next run follows without a pause.
    Returns a line that says so, or none."""
    budgets, told = {str(row["budget"]) for row in rows} - {"0"}, told_in(rows)
    if len(budgets) > 1 and told and all(int(row["queues_of_a_processor"]) <= 1 for row in told):
        no = "net.core.netdev_budget changes no latency and no drops, only how many runs are squeezed"
        yield f"in the model, with one queue on each processor, {no}"


def status_for(rows: Sequence[Row], conditions: Sequence[Condition]) -> int:
    """Returns the exit status by --fail-if; rejected rows have no values."""
    named = []
    for row in told_in(rows):
        name = ", ".join(f"{name} {row[name]}" for name in varied_in(rows))
        named.append((name, {**row, **{short: row[name] for short, name in SHORT.items()}}))
    return status_of(conditions, named)


# ---- the table


def varied_in(rows: Sequence[Row]) -> dict[str, list[str]]:
    """Returns the options that have several values in these rows, with the values in order; not a cost that is always another one."""
    values = {name: list(dict.fromkeys(str(row[name]) for row in rows)) for name in VARIED}
    several = {name: each for name, each in values.items() if len(each) > 1}
    return {
        name: each
        for name, each in several.items()
        if name == "load" or any(int(row[name]) != default_of(name, row) for row in rows)
    }


def columns_of(rows: Sequence[Row]) -> list[str]:
    """Returns the columns of the results: with several seeds also the minimum and the maximum of each value."""
    return [each for name in VALUES for each in (name, f"{name}_least", f"{name}_most") if each in rows[0]]


def objects_of(rows: Sequence[Row]) -> Iterator[Row]:
    names = [name for name in (*KEY, "status", "fault", *columns_of(rows)) if name in rows[0]]
    texts = ("arrivals", "sum")
    for row in rows:
        yield {identifier(it): row[it] if it in texts else value_of(str(row[it])) for it in names}


def write_rows(columns: Sequence[str], rows: Sequence[Row]) -> None:
    table = csv.DictWriter(sys.stdout, columns, extrasaction="ignore", lineterminator="\n")
    table.writeheader()
    table.writerows(rows)


def print_rows(rows: Sequence[Row]) -> None:
    """Prints the rows as CSV."""
    faults = ["fault"] if any(row["fault"] for row in rows) else []
    write_rows([*varied_in(rows), *faults, *columns_of(rows)], rows)


def answer(rows: Sequence[Row], every: Sequence[Row], keys: Sequence[Key], words: Words) -> None:
    """Prints the rows with their conclusions and warnings: below a table, else on standard error."""
    orders = list(orders_that_change(every, keys, words.band)) if len(every) > len(rows) else []
    if words.form == "csv":
        print_rows(rows)
    write_json(words.json, "what-if", objects_of(rows))
    if words.form != "table":
        for line in [*of_budgets(rows), *(line for line, _, _ in orders)]:
            say(line)
        return
    told = told_in(rows)
    print(*tables.table(told, varied_in(rows)), *tables.what_follows(told), *of_budgets(told), sep="\n")
    for _, pairs, what in orders:
        named = ", ".join(f"{one} and {other}" for one, other in pairs[:3])
        more = f", and {len(pairs) - 3} more pairs" if len(pairs) > 3 else ""
        print(f"{named}{more} are equal within the costs' doubt of {words.band} %: their order by {what} changes")
    for row in rows:
        if row["fault"]:
            print(f"refused: {row['fault']}")


# ---- options


def load(text: str) -> str:
    if not re.fullmatch(r"[0-9]{1,6}(\.[0-9]{1,6})?", text) or Fraction(text) == 0:
        raise wrong(text, "a load, as 0.5")
    return text


def add_options(parser: Parser) -> None:
    columns = "".join(f"    {name}: {ARE[name]}\n" for name in VALUES)
    parser.description = f"{parser.description}\nColumns of the results:\n\n{columns}"
    what = "arrivals, made with --arrivals of from-pcap, from-ftrace or traffic"
    parser.add_argument("arrivals", nargs="?", help=what)
    what = "factors of the arrivals' rate, as 0.5,1,2 (1)"
    parser.add_argument("--load", type=choices(load), default=["1"], metavar="N,..", help=what)
    for name, (low, high, default) in OPTIONS.items():
        how: dict[str, Any] = {"type": choices(number(low, high)), "default": [str(default)], "metavar": "N,.."}
        parser.add_argument(f"--{name}", help=help_of(name), **how)
    what = "take the costs that aren't given from this recording, as fintaqush costs estimates them"
    parser.add_argument("--costs", metavar="RECORDING", help=what)
    what = f"warn if an order changes with costs N %% lower or higher ({DOUBT}; 0 with --out or --part); advise prints that of a recording"
    parser.number("--band", 0, 90, None, what)
    form = parser.add_mutually_exclusive_group()
    for name, what in (("table", "a table with units (on a terminal)"), ("csv", "CSV (elsewhere)")):
        form.add_argument(f"--{name}", dest="form", action="store_const", const=name, help=what)
    add_json(parser)
    what = "search for the load at which each combination breaks"
    parser.add_argument("--until", type=breaking.limit, metavar="drops|p99=US", help=what)
    what = "make arrivals by fintaqush traffic with these options, in one argument"
    parser.add_argument("--traffic", metavar="OPTIONS", help=what)
    parser.number("--seeds", 1, 1000, None, "with --traffic: repeat with the seeds 1 to N (5)")
    add_fail_if(parser, [*SHORT, *VALUES], [*SHORT, *WAITS])
    add_words(parser, "napi_machine", {"metavar": "FILE", "help": "a CSV file of rows with all options and results"})


def check_together(words: Words) -> None:
    """Rejects options that don't go together."""
    if not words.play and bool(words.arrivals) == bool(words.traffic):
        words.error("no arrivals" if not words.arrivals else "--traffic makes arrivals, so none are named")
    if words.seeds and not words.traffic:
        words.error("--seeds goes with --traffic")
    is_spread = words.out or words.part or words.sshloginfile
    for name, value in (("--traffic", words.traffic), ("--until", words.until)):
        if value and is_spread:
            words.error(f"{name} doesn't go with --out, --part and --sshloginfile")
    if words.until and any((words.traffic, words.fail_if, words.load != ["1"])):
        others = "--load, --traffic and --fail-if"
        words.error(f"--until searches the load, of one file, so it doesn't go with {others}")
    if words.resume and not words.out:
        words.error("--resume goes with --out")
    if words.part and words.band:
        words.error("--band compares all rows, so it doesn't go with --part")


def with_costs_of(words: Words, given: Sequence[str]) -> Words:
    """Parses the options with the costs of a recording as defaults, and says which costs keep their own."""
    with About(words.costs):
        told = costs.object_in(words.costs, [])["costs"]
    known = {name.replace("_", "-"): cost["value"] for name, cost in told.items()}
    if set(words.backlog) == {"1"} and not any(each.partition("=")[0] == "--rx-nsecs" for each in given):
        known = as_timer(known)
    elif "flight" in known:
        say(f"the flight of {known['flight']} ns counts only with --backlog 1, and without --rx-nsecs")
    own = {identifier(name): [str(value)] for name, value in known.items() if name in (*COSTS, "rx-nsecs")}
    usual = {name: str(OPTIONS[name][2]) for name in COSTS if identifier(name) not in own and OPTIONS[name][2]}
    lacks = [f"--{each} {usual[each]}" for each in usual if getattr(words, identifier(each)) == [usual[each]]]
    if lacks := [each for each in lacks if is_number(each.split()[1])]:
        say(f"{shown(words.costs)} doesn't have all costs, so these are as by default: {' '.join(lacks)}")

    def add(parser: Parser) -> None:
        add_options(parser)
        parser.set_defaults(**own)

    return words_of(__doc__, add, given)


def read_words(given: Sequence[str]) -> Words:
    words = words_of(__doc__, add_options, given)
    if words.costs:
        words = with_costs_of(words, given)
    if set(words.defer_hard_irqs) != {"0"} and set(words.gro_flush_timeout) == {"0"}:
        say("--defer-hard-irqs does nothing without --gro-flush-timeout, as in Linux")
    check_together(words)
    if words.band is None:
        words.band = 0 if words.out or words.part else DOUBT
    if is_printed(words.json) and (words.form or words.out):
        words.error("--json without a file prints only JSON; --json FILE goes with --table, --csv and --out")
    words.form = words.form or ("json" if is_printed(words.json) else "table" if sys.stdout.isatty() else "csv")
    return words


def resolved(key: Key) -> Key:
    """Returns the key with the value of the other option for each option that has its name."""
    settings = dict(zip(OPTIONS, key[3:]))
    return (*key[:3], *(settings.get(value, value) for value in key[3:]))


def keys_of(words: Words, arrivals: str) -> tuple[list[Key], list[Key]]:
    """Returns the requested combinations, and those of the band around them if several settings are compared."""
    values = [getattr(words, name.replace("-", "_")) for name in VARIED]
    keys = list(map(resolved, itertools.product([arrivals], [sum_in(arrivals)], *values)))
    is_compared = any(len(each) > 1 for name, each in zip(VARIED, values) if name != "load" and name not in COSTS)
    sides = (100 - words.band, 100 + words.band) if words.band and is_compared else ()
    return keys, [band_of(key, side) for side in sides for key in keys]


# ---- the load at which a setting breaks, and repeats


def print_breakings(found: breaking.Found, words: Words, rate: float, percents: Sequence[int]) -> None:
    """Prints where each combination breaks."""
    varied = list(varied_in([dict(zip(VARIED, key[2:])) for key in found]))
    rows, objects = [], []
    for key, ends in found.items():
        holds, broken = ends[100]
        line: Row = {"holds_at": breaking.text_of(holds), "breaks_at": breaking.text_of(broken)}
        line["packets_per_second"] = broken and round(rate * float(broken))
        line |= {f"breaks_at_costs_{percent}": breaking.text_of(ends[percent][1]) for percent in percents[1:]}
        rows.append({**dict(zip(OPTIONS, key[3:])), **line})
        told = {identifier(name): value if value is None else value_of(str(value)) for name, value in rows[-1].items()}
        objects.append({"arrivals": words.arrivals, "until": words.until, **told})
    if words.form == "table":
        for key, ends in found.items():
            named = name_of(key, varied)
            print(f"{named}: " * bool(named) + breaking.told(words.until, ends, rate, percents))
    elif words.form == "csv":
        write_rows([*varied, *line], rows)
    write_json(words.json, "what-if", objects)


def until_it_breaks(made: str, words: Words) -> None:
    """Searches the load at which each combination breaks."""
    keys, rate = keys_of(words, words.arrivals)[0], breaking.rate_of(words.arrivals)
    percents = (100, 100 - words.band, 100 + words.band) if words.band else (100,)
    shares: dict[tuple[Key, int], float] = {}
    searches = len(keys) * len(percents)

    def breaks(key: Key, percent: int, load: Fraction) -> bool:
        return breaks_at(made, band_of(key, percent), breaking.load_text(load), words.until)

    with Progress(f"searching {searches} load{'s' * (searches > 1)}", lambda: sum(list(shares.values())) / searches):
        found = breaking.breakings(keys, percents, breaks, words.jobs or os.cpu_count() or 1, shares)
    print_breakings(found, words, rate, percents)


def made_traffic(words: str, seeds: int) -> list[str]:
    """Returns the names of files with arrivals by these options of fintaqush traffic, for seeds from 1 on. They are removed when the tool ends."""
    try:
        options = shlex.split(words)
    except ValueError as error:
        raise Refusal(f"--traffic: {error}") from None
    if own := [word for word in options if word.partition("=")[0] in TAKEN]:
        raise Refusal(f"--traffic: {shown(own[0])} isn't for this: --arrivals, --seed and --out are set here")
    names = []
    for seed in range(1, seeds + 1):
        handle, name = tempfile.mkstemp(suffix=".csv")
        os.close(handle)
        unfinished.add(name)
        try:
            traffic.main([*options, "--arrivals", "--seed", str(seed), "--out", name], raises=True)
        except Refusal as error:
            raise Refusal(f"--traffic: {error}") from None
        names.append(name)
    return names


def spread(rows: Sequence[dict[str, Any]], settings: Iterable[str], values: Iterable[str]) -> dict[str, Any]:
    """Combines rows with the same settings into one: for each value the median (of an even number the lower one), the minimum and the maximum."""
    row = {name: rows[0][name] for name in settings}
    row["status"] = max(int(each["status"]) for each in rows)
    row["fault"] = next((each["fault"] for each in rows if each["fault"]), "")
    for name in values:
        of = sorted((each[name] for each in rows), key=lambda value: Fraction(str(value)))
        row.update({name: of[(len(of) - 1) // 2], f"{name}_least": of[0], f"{name}_most": of[-1]})
    return row


def all_rows(made: str, words: Words) -> tuple[list[Key], list[Row]]:
    """Returns the requested rows and those of the band, with their keys; for generated traffic the spread over the seeds."""
    if not words.traffic:
        keys, band = keys_of(words, words.arrivals)
        return keys, TABLE.make(made, words, list(dict.fromkeys([*keys, *band])))
    of = [keys_of(words, name) for name in made_traffic(words.traffic, words.seeds or 5)]
    every = [list(dict.fromkeys([*keys, *band])) for keys, band in of]
    rows = TABLE.make(made, words, [key for keys in every for key in keys])
    told, count = {"arrivals": f"traffic {words.traffic}", "sum": f"{len(of)} seeds"}, len(every[0])
    spreads = [{**spread(rows[place::count], VARIED, VALUES), **told} for place in range(count)]
    return [(told["arrivals"], told["sum"], *key[2:]) for key in of[0][0]], spreads


def check_arrivals(words: Words) -> None:
    reason = "arrivals are read several times, so they must be a regular file, without a newline in its name"
    check_regular(words.arrivals, reason)
    if "\n" in words.arrivals or "\r" in words.arrivals:
        raise Refusal(f"{shown(words.arrivals)}: {reason}")
    check_header(words.arrivals)
    if any(int(each) > 1 for each in words.queues) and not has_flows(words.arrivals):
        how = "ns,device,bytes,flow, as from-pcap, from-ftrace and traffic write it by --flows"
        raise Refusal(f"{shown(words.arrivals)}: there is no column flow, which --queues above 1 needs: {how}")


def main(given: Sequence[str]) -> int:
    words = read_words(given)
    parsed.cache_clear()
    scaled.cache_clear()
    if words.play:
        return TABLE.play(words.binary, words.play)
    check_words("what-if", words)
    if words.arrivals:
        check_arrivals(words)
    made = program("napi_machine", words.binary)
    if words.until:
        until_it_breaks(made, words)
        return 0
    keys, every = all_rows(made, words)
    rows = every[: len(every) if words.part else len(keys)]
    faults = [row["fault"] for row in rows if row["fault"]]
    if len(faults) == len(rows) > 0:
        raise Refusal(f"{shown(words.arrivals or words.traffic)}: {faults[0]}")
    answer(rows, every, keys, words)
    return status_for(rows, words.fail_if)
