"""Shows live, once a second, how this Linux receives packets, from the kernel's counters: without a trace, root or the kit.

    fintaqush top eth0
    fintaqush top eth0 --program server
    fintaqush top eth0 --once --json

It has a line for each processor: packets, runs of the NET_RX softirq, the device's interrupts, squeezed runs, packets dropped at the backlog, and
the shares of the time of softirqs, of ksoftirqd and of a hypervisor. The kernel doesn't count polls: each run polls the scheduled instances. Below
are the queues that ethtool -S counts, drops at the ring and at UDP sockets, NAPI's threads, and how long the program ran and waited for a processor.
What is abnormal has a mark, a word, and the section of docs/OPERATORS.md that is about it. A value that can't be read is a -, as in containers.

On a terminal the key r records the device for five seconds and advises (root), and q ends. Elsewhere a block is printed each second, until Ctrl-C.
For a device in a network namespace: ip netns exec NAME fintaqush top DEV.
"""

from __future__ import annotations

import contextlib
import os
import select
import sys
import time
from collections.abc import Callable, Iterator, Mapping, Sequence
from typing import Any, NamedTuple, Optional

from fintaqush_tools import counting, observed
from fintaqush_tools.counting import Place, Rates, Seen
from fintaqush_tools.errors import Refusal, why
from fintaqush_tools.options import Parser, Words, words_of
from fintaqush_tools.progress import say
from fintaqush_tools.results import add_json, is_printed, json_lines, write_json
from fintaqush_tools.texts import aligned, shown

SECOND = 1.0  # between two looks
FEWEST = 1000  # packets a second, below which interrupts for each packet don't matter
COLUMNS = {
    "processed": "packets",
    "runs": "runs",
    "interrupts": "irqs",
    "interrupts_per_packet": "irq/p",
    "squeezed": "squeez",
    "dropped": "backlog",
    "softirq_percent": "softirq",
    "ksoftirqd_percent": "ksoftd",
    "stolen_percent": "stolen",
}
CLEAR, RED, PLAIN = "\033[H\033[J", "\033[1;31m", "\033[0m"
SUFFERS = "2. Find what suffers"


class Rule(NamedTuple):
    """What is abnormal: a rate above `most`, its word, and the section of docs/OPERATORS.md."""

    name: str
    most: float
    word: str
    section: str


RULES = (
    Rule("squeezed", 0, "squeezed", "time_squeeze rises"),
    Rule("dropped", 0, "backlog full", SUFFERS),
    Rule("ring", 0, "ring full", SUFFERS),
    Rule("socket", 0, "socket full", SUFFERS),
    Rule("ksoftirqd_percent", 20, "ksoftirqd", SUFFERS),
    Rule("waited_percent", 10, "waits for a processor", SUFFERS),
    Rule("stolen_percent", 1, "stolen", SUFFERS),
    Rule("interrupts_per_packet", 0.8, "an interrupt for each packet", "Which setting does what"),
)


class Mark(NamedTuple):
    """Something abnormal, and where."""

    place: Place
    word: str
    value: float
    section: str


def marks_of(rates: Rates) -> list[Mark]:
    """Returns what is abnormal, in the order of the rules."""
    return [
        Mark(place, rule.word, own[rule.name], rule.section)
        for rule in RULES
        for place, own in rates.items()
        if own.get(rule.name, 0) > rule.most
        and not (rule.name == "interrupts_per_packet" and own.get("processed", 0) < FEWEST)
    ]


def told(name: str, value: Optional[float]) -> str:
    """Returns a rate in a cell."""
    if value is None:
        return "-"
    if name.endswith("_percent"):
        return f"{value:.1f}%" if value < 9.95 else f"{value:.0f}%"
    return (
        f"{value:.2f}"
        if name == "interrupts_per_packet"
        else f"{value:.0f}"
        if value < 10**7
        else f"{value / 10**6:.0f}M"
    )


def named(place: Place) -> str:
    return f"{place[0]} {shown(place[1])}".strip()


def of_kind(rates: Rates, kind: str) -> Iterator[tuple[Any, Mapping[str, float]]]:
    yield from sorted((number, own) for (each, number), own in rates.items() if each == kind)


def table_of(rates: Rates) -> list[str]:
    """Returns the table of the processors."""
    rows = [["cpu", *COLUMNS.values()]]
    rows += [[str(cpu), *(told(name, own.get(name)) for name in COLUMNS)] for cpu, own in of_kind(rates, "processor")]
    return aligned(rows, 0)


def others_of(rates: Rates) -> Iterator[str]:
    """Yields a line for each queue, and those for the device, the sockets and the program."""
    for queue, own in of_kind(rates, "queue"):
        yield f"queue {queue}: packets {told('', own.get('processed'))}, ring full {told('', own.get('ring'))}"
    for device, own in of_kind(rates, "device"):
        parts = [f"packets {told('', own.get('rx_packets'))}", f"ring full {told('', own.get('ring'))}"]
        parts += [f"dropped later {told('', own.get('rx_dropped'))}"]
        if "threads_percent" in own:
            parts.append(f"NAPI threads {told('_percent', own['threads_percent'])}")
        yield f"{shown(device)}: {', '.join(parts)}"
    for _, own in of_kind(rates, "sockets"):
        yield f"UDP sockets: full {told('', own.get('socket'))}"
    for program, own in of_kind(rates, "program"):
        ran, waited = (told("_percent", own.get(f"{name}_percent")) for name in ("ran", "waited"))
        yield f"{shown(program)}: ran {ran}, waited for a processor {waited}"


def block_of(rates: Rates, head: str, wide: int, is_coloured: bool) -> list[str]:
    """Returns the lines of one second, no wider than the terminal."""
    lines = [head, *table_of(rates), *others_of(rates)]
    places: dict[tuple[str, str], list[str]] = {}
    for mark in marks_of(rates):
        places.setdefault((mark.word, mark.section), []).append(named(mark.place))
    marks = [f"! {word}: {', '.join(each)}; OPERATORS: {section}" for (word, section), each in places.items()]
    front, end = (RED, PLAIN) if is_coloured else ("", "")
    return [line[:wide] for line in lines] + [f"{front}{mark[:wide]}{end}" for mark in marks]


def object_of(rates: Rates) -> dict[str, Any]:
    """Returns the same for a program."""

    def part(kind: str, key: str) -> list[dict[str, Any]]:
        return [
            {key: name, **{each: round(rate, 3) for each, rate in own.items()}} for name, own in of_kind(rates, kind)
        ]

    marks = [{"word": mark.word, "kind": mark.place[0], "name": mark.place[1], "value": round(mark.value, 3),
              "page": "docs/OPERATORS.md", "section": mark.section} for mark in marks_of(rates)]  # fmt: skip
    kinds = {"processors": ("processor", "processor"), "queues": ("queue", "queue"), "devices": ("device", "device")}
    told = {name: part(*each) for name, each in kinds.items()}
    return {**told, "sockets": part("sockets", "name"), "programs": part("program", "program"), "abnormal": marks}


@contextlib.contextmanager
def keys(is_on: bool) -> Iterator[Callable[[float], str]]:
    """A context manager for a terminal that passes on each key. Yields a function that waits so long for one, and returns it."""
    if not is_on:
        yield lambda seconds: time.sleep(seconds) or ""  # type: ignore[func-returns-value]
        return
    import termios
    import tty

    def key(seconds: float) -> str:
        if not select.select([0], [], [], seconds)[0]:
            return ""
        return os.read(0, 1).decode("latin-1") or "q"  # the terminal has gone

    before = termios.tcgetattr(0)
    try:
        tty.setcbreak(0)
        yield key
    finally:
        termios.tcsetattr(0, termios.TCSADRAIN, before)


def record_and_advise(words: Words) -> None:
    """Records the device for five seconds, and advises."""
    from fintaqush_tools.commands import advise, record

    path = time.strftime("fintaqush-top-%Y%m%d-%H%M%S.rec")
    try:
        record.main(
            ["5", "--device", words.device, "--out", path, *(["--program", words.program] if words.program else [])]
        )
        advise.main([path])
    except (Refusal, OSError) as error:
        say(why(error))


class View:
    """What is shown: on a terminal each second in place of the last, elsewhere below it."""

    def __init__(self, words: Words) -> None:
        self.words, self.is_live = words, sys.stdout.isatty() and os.environ.get("TERM") != "dumb" and not words.once
        self.has_keys = self.is_live and sys.stdin is not None and sys.stdin.isatty()
        self.is_coloured = self.is_live and not os.environ.get("NO_COLOR")
        self.wide = (os.get_terminal_size(1).columns or 80) if self.is_live else 80

    def show(self, rates: Rates) -> None:
        words = self.words
        write_json(words.json, "top", [object_of(rates)]) if not is_printed(words.json) else None
        if is_printed(words.json):
            print(*json_lines("top", [object_of(rates)]), end="", flush=True)
            return
        what = ("r records and advises, " * bool(words.device) + "q ends") * self.has_keys
        head = f"{time.strftime('%H:%M:%S')} {shown(words.device or 'all devices')}, per second  {what}".rstrip()
        lines = block_of(rates, head, self.wide, self.is_coloured)
        print((CLEAR if self.is_live else "") + "\n".join(lines), flush=True)

    def run(self) -> None:
        words = self.words
        while True:
            with keys(self.has_keys) as key:
                pressed = self.until_a_key(key)
            if pressed != "r":
                return
            record_and_advise(words)
            say("Enter shows the live view again")
            sys.stdin.readline()

    def until_a_key(self, key: Callable[[float], str]) -> str:
        """Shows each second until a key that means something is pressed, or once."""
        before = counting.look(self.words.device, self.words.program)
        while True:
            pressed = key(max(0.0, SECOND - (time.monotonic_ns() - before.time) / 10**9))
            if pressed == "q" or pressed == "r" and self.words.device:
                return pressed
            if not pressed:
                before = self.step(before)
                if self.words.once:
                    return ""

    def step(self, before: Seen) -> Seen:
        after = counting.look(self.words.device, self.words.program)
        self.show(counting.rates(before, after))
        return after


def add_options(parser: Parser) -> None:
    parser.add_argument(
        "device", nargs="?", default="", metavar="DEV", help="the device (without it, only processors and sockets)"
    )
    parser.add_argument("--program", default="", metavar="NAME|PID", help="also the program that reads the packets")
    parser.flag("--once", "show one second, and end")
    add_json(parser, "what is shown")


def main(given: Sequence[str]) -> None:
    words = words_of(__doc__, add_options, given)
    if words.device:
        observed.check_device(words.device, "DEV")
        if not counting.text_of(
            f"/sys/class/net/{words.device}/address"
        ) and f"{words.device}:" not in counting.text_of("/proc/net/dev"):
            raise Refusal(
                f"DEV {shown(words.device)}: there is no such device; one in a network namespace needs ip netns exec"
            )
    View(words).run()
