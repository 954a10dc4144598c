"""Generates a trace of traffic: packets at a constant rate, by a Poisson process, or in bursts, on several devices; with --arrivals
arrivals for napi_machine, with times in ns and any number of packets.

    fintaqush traffic --kind poisson --rate 2000 --devices 4 --seconds 2 --seed 7 > poisson.csv
    fintaqush traffic --kind bursts --rate 20000 --on 3 --off 20 --mix tx=5,done=4,disable=1,busy=1 --version 2 > mixed.csv
    fintaqush traffic --kind poisson --rate 100000 --seconds 100 --arrivals > arrivals.csv

A softirq row comes --delay after the first waiting packet. --mix adds other actions between the packets, each as often per 100
packets as its number says: tx, done, kthread, disable (with a later enable), threaded, busy (version 2). The same options with the
same seed give the same bytes. --flows N adds a column to arrivals, for several queues: the flow of each packet, one of N at random.
For a small budget or weight, option --raise of replay adds the runs that Linux would make.
"""

from __future__ import annotations

import heapq
import random
import re
from collections.abc import Callable, Iterator, Sequence
from typing import Any

from fintaqush_tools import arrivals
from fintaqush_tools.errors import Refusal
from fintaqush_tools.files import write_out
from fintaqush_tools.options import Parser, Words, add_out, number, pair, words_of, wrong
from fintaqush_tools.places import version
from fintaqush_tools.progress import Program, Progress
from fintaqush_tools.trace import MOST_DEVICES, MOST_ROWS, TICKS, Row, trace_text, with_runs
from fintaqush_tools.trace import add_delay, add_words, check_flows

FLOWS = 16  # per device, if their number isn't given
ACTIONS = ("tx", "done", "kthread", "disable", "threaded", "busy")


def arrivals_of(words: Words, chance: random.Random, device: int) -> Iterator[tuple[float, int]]:
    """Yields a device's packets: the time of each, in seconds, and its number."""
    time = chance.random() / words.rate  # the devices begin at different times
    period = words.on + words.off
    begun = chance.random() * period  # the age of its first burst, in seconds
    while time < words.seconds:
        burst = (time + begun + 1e-9) // period
        if words.kind == "bursts" and time + begun - burst * period >= words.on - 1e-9:
            time = max((burst + 1) * period - begun, time + 1e-9)
            continue
        words.now = time
        yield time, device
        time += chance.expovariate(words.rate) if words.kind == "poisson" else 1 / words.rate


class Mix:
    """The other actions, chosen so that the trace stays valid: enable follows disable, after the runs that end the instance's polling."""

    def __init__(self, words: Words, chance: random.Random) -> None:
        self.words, self.chance = words, chance
        self.off: dict[int, int] = {}  # for each device that was disabled: packets until it is enabled

    def rows(self, moment: int, device: int) -> Iterator[Row]:
        """Yields the rows after a packet of this device."""
        for name, count in self.words.mix.items():
            for _ in range(count // 100 + (self.chance.randrange(100) < count % 100)):
                if name != "disable" or device not in self.off:
                    yield self.row(moment, device, name)
        if device in self.off:
            self.off[device] -= 1
            if self.off[device] <= 0:
                yield from self.enable(moment, device)

    def row(self, moment: int, device: int, name: str) -> Row:
        value = {
            "tx": self.size(),
            "done": self.chance.randrange(1, 4),
            "threaded": self.chance.randrange(2),
            "busy": self.chance.randrange(1, 9),
        }.get(name, 0)
        if name == "disable":
            self.off[device] = self.chance.randrange(2, 12)
        return moment, device, name, value

    def size(self) -> int:
        return self.chance.randint(*self.words.bytes)

    def enable(self, moment: int, device: int) -> Iterator[Row]:
        """Ends a disable that may be pending. A run polls at least one device, and each device is on the list once; after a missed
        request the instance is scheduled once more, on the list or for its thread."""
        del self.off[device]
        for _ in range(3):
            yield moment, device, "kthread", 0
            for _ in range(self.words.devices):
                yield moment, 0, "softirq", 0
        yield moment, device, "enable", 0


def arrivals_rows(words: Words) -> Iterator[tuple[int, ...]]:
    """Returns the rows of arrivals; each device has its own random numbers."""
    of = [arrivals_of(words, random.Random(f"{words.seed} {device}"), device) for device in range(1, words.devices + 1)]
    chance, flows = random.Random(words.seed), random.Random(f"{words.seed} flows")
    rows = ((int(time * arrivals.SECOND), device, chance.randint(*words.bytes)) for time, device in heapq.merge(*of))
    return ((*row, flows.randrange(words.flows)) for row in rows) if words.flows else rows


def rows_of(words: Words) -> list[Row]:
    """Returns the rows of the trace."""
    chance = random.Random(words.seed)
    packets = sorted(packet for device in range(1, words.devices + 1) for packet in arrivals_of(words, chance, device))
    mix, ticks, rows = Mix(words, chance), TICKS[words.unit], []
    for time, device in packets:
        moment = int(time * ticks)
        rows.append((moment, device, "rx", mix.size()))
        rows += mix.rows(moment, device)
    opened = [(0, device, "open", words.capacity) for device in range(1, words.devices + 1)]
    return [*opened, *with_runs(rows, words.delay)]


def amount(low: float, high: float) -> Callable[[str], float]:
    """Returns a parser of a number that may have a fraction."""

    def read(text: str) -> float:
        if not re.fullmatch(r"[0-9]{1,9}(\.[0-9]{1,9})?", text) or not low < float(text) <= high:
            raise wrong(text, f"a number over {low}, up to {high}")
        return float(text)

    return read


def sizes(text: str) -> tuple[int, int]:
    """Parses the sizes of packets, as 60 or 60:1500."""
    low, high = pair(":", "60 or 60:1500")(text if ":" in text else f"{text}:{text}")
    if high > 65535:
        raise wrong(text, "as 60:1500, of 1 to 65535")
    return low, high


def mix_of(text: str) -> dict[str, int]:
    """Parses the other actions, as tx=5,done=4."""
    mix = {}
    for each in text.split(","):
        found = re.fullmatch(r"([a-z]+)=([0-9]{1,4})", each)
        if not found or found[1] not in ACTIONS or found[1] in mix:
            raise wrong(each, f"as tx=5, each once, of {', '.join(ACTIONS)}")
        mix[found[1]] = int(found[2])
    return mix


def add_options(parser: Parser) -> None:
    kinds = ("constant", "poisson", "bursts")
    parser.add_argument("--kind", choices=kinds, default="constant", help="kind of traffic (constant)")
    most = arrivals.MOST_DEVICES
    for name, kind, usual, what in (
        ("--rate", amount(0, 10_000_000), 1000.0, "packets per second and device, in bursts during a burst (1000)"),
        ("--on", amount(0, 1e6), 5.0, "length of a burst, in ms (5)"),
        ("--off", amount(0, 1e6), 45.0, "time between bursts, in ms (45)"),
        ("--devices", number(1, most), 1, f"number of devices, 1 to {MOST_DEVICES}, with --arrivals to {most} (1)"),
        ("--seconds", amount(0, 1e6), 1.0, "length of the traffic, in seconds (1)"),
    ):
        parser.add_argument(name, type=kind, default=usual, help=what)
    what = "smallest and largest packet, in bytes (60:1500)"
    parser.add_argument("--bytes", type=sizes, default=(60, 1500), metavar="A:B", help=what)
    add_output(parser)


def add_output(parser: Parser) -> None:
    """Adds the options of what is written."""
    add_words(parser)
    add_delay(parser)
    parser.add_argument("--mix", type=mix_of, default={}, metavar="ACTION=N,..", help="other actions per 100 packets")
    what = "version of the trace (1); without N: print the tool's own"
    parser.add_argument("--version", nargs="?", type=number(1, 2), default=1, const=0, metavar="N", help=what)
    parser.number("--seed", 0, 10**9, 0, "seed of the random numbers (0)")
    what = f"with --arrivals: add a column with each packet's flow, of N per device, for several queues ({FLOWS})"
    how: dict[str, Any] = {"nargs": "?", "type": number(1, 10**9), "const": FLOWS, "metavar": "N"}
    parser.add_argument("--flows", help=what, **how)
    add_out(parser, "trace")


def check_words(words: Words) -> None:
    """Rejects options that don't go together."""
    if "busy" in words.mix and words.version == 1:
        words.error("--mix: busy rows need --version 2")
    if words.devices > MOST_DEVICES and not words.arrivals:
        words.error(f"--devices: a trace has at most {MOST_DEVICES}")
    if words.mix and words.arrivals:
        words.error("--mix: arrivals have packets alone")
    check_flows(words)


def main(given: Sequence[str], raises: bool = False) -> None:
    """`raises` makes wrong options a Refusal."""
    words = words_of(__doc__, add_options, given, raises)
    if words.version == 0:
        print(f"{Program.name} of Fintaqush {version()}")
        return
    check_words(words)
    words.on, words.off = words.on / 1000, words.off / 1000
    if words.arrivals:
        words.now = 0
        with Progress("making arrivals", lambda: float(min(1, words.now / words.seconds))):
            write_out(words.out, arrivals.arrivals_text(arrivals_rows(words), with_flows=bool(words.flows)))
        return
    share = words.on / (words.on + words.off) if words.kind == "bursts" else 1
    if words.rate * words.seconds * words.devices * share > 2 * MOST_ROWS:
        raise Refusal(f"far more than {MOST_ROWS} packets: ask for a lower rate or a shorter time")
    write_out(words.out, trace_text(rows_of(words), words.version))
