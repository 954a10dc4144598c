"""Compares what the rules of cards predict with what real drivers did on QEMU's cards: the test of tests/cards.sh.

    cards.py kept PROGRAM        compares with the recordings that the repository keeps
    cards.py here PROGRAM        makes the recordings here, and compares with them
    cards.py keep NAME ..        makes the recordings of these guests here (tests/cards/tried.py), and keeps them
    cards.py sources FOLDER      compares the table of drivers with the sources of Linux in that folder
    cards.py files               prints the files of those sources
    cards.py page [--into]       whether docs/TIMING.md has the table of the recordings that are kept, or puts it there
    cards.py fetch               downloads what the recordings need
    cards.py memory              whether there is enough memory for them; the exit status is 1 if not

Costs and arrivals come from one recording of each card, and the costs of NAPI's timer from a second one, because the first has no timers. The
plain program of the machine predicts the settings from these, and its values are compared with the measured ones. PROGRAM, a build of
napi_machine, has to print the same bytes. The last line is `N passed, M failed, K skipped`.
"""

import functools
import re
import sys
import tempfile
from collections.abc import Callable, Iterator, Mapping, Sequence
from dataclasses import dataclass
from pathlib import Path
from typing import Any

HERE = Path(__file__).resolve().parent
TOP = HERE.parent.parent
sys.path[:0] = [str(TOP / "tools"), str(TOP / "tests"), str(TOP / "scripts"), str(HERE)]

import emulation  # noqa: E402
import machine  # noqa: E402
from emulation import Setting  # noqa: E402
from fintaqush_tools import drivers, predicting  # noqa: E402
from fintaqush_tools.choosing import settings_of  # noqa: E402
from fintaqush_tools.machine import values_of  # noqa: E402
from judging import Judged, Skipped, difference, judge, read_kept, write_kept  # noqa: E402
from parts import has_part  # noqa: E402
from seen import DEVICE, HEAD, Seen, frames_in  # noqa: E402
from tried import CARDS, NO_LIMIT, OTHERS, VIRTIO, Card  # noqa: E402

Options = dict[str, int]
Kept = dict[str, Any]  # head, costs, measured values by setting, arrivals
Predict = Callable[[Options, str], str]  # the machine's report for options and arrivals

KEPT = HERE / "kept"
PAGE = TOP / "docs/TIMING.md"
BEGIN, END = "<!-- emulated cards: begin -->", "<!-- emulated cards: end -->"
# The values that are compared: by how much each may differ, in %, from the range in which the measured one is known.
LIMITS = {"interrupts": 2, "polls": 2, "runs": 2, "squeezed": 2, "dropped": 2, "delivered_p50": 6, "used_p50": 6}
OF_SEVERAL = "interrupts", "polls", "runs", "squeezed"  # what is compared if there are several cards
OF_TIMERS = "timer", "timer-wake", "arm"  # the costs that only a recording with NAPI's timer has
# The columns of the table.
COLUMNS = {
    "interrupts": "Interrupts",
    "polls": "Polls",
    "delivered_p50": "Median wait to delivery",
    "used_p50": "Median wait to the end of use",
}
RULES = ("rx-gap", "latched", "gro-batch", "heedless", "app-wake", "early", "poll-wake", "arm")  # each with a value that is off without it


# ---- what is kept


def costs_of(card: Card, seen: Mapping[str, Seen]) -> Options:
    """Returns the costs of a card by its own recordings, or by those that are kept of another one."""
    if card.costs_of:
        return dict(read_kept(KEPT / card.costs_of)["costs"])
    costs = seen[card.base.name].costs()
    timers = seen[card.timers].costs() if card.timers else {}
    return costs | {name: cost for name, cost in timers.items() if name in OF_TIMERS}


def kept_of(card: Card, folder: Path) -> Kept:
    """Returns what is kept of a card's recordings."""
    frames = list(frames_in(folder / "card.pcap"))
    seen = {setting.name: Seen(folder, setting, frames, card.guest.cards) for setting in card.settings}
    own, costs = seen[card.base.name], costs_of(card, seen)
    irqs = [key for key in own.head if key.startswith(f"device.{DEVICE}.irq.") and key.endswith(".name")]
    return {
        "head": {key: own.head[key] for key in (*HEAD, *irqs) if key in own.head},
        "costs": costs,
        "measured": {name: each.measured(costs["packet"]) for name, each in seen.items()},
        "arrivals": own.arrivals(),
    }


def recorded(card: Card, folder: Path) -> Kept:
    """Makes the recordings of a card here, and returns what may be kept of them."""
    emulation.record(card.guest, card.settings, folder)
    return kept_of(card, folder)


# ---- predictions


def options_of(card: Card, setting: Setting, kept: Kept) -> Options:
    """Returns the machine's options for a setting: its own, those of the card and its driver, and the costs."""
    head = dict(kept["head"])
    if setting.usecs is not None:
        head[f"device.{DEVICE}.ethtool.coalesce.rx-usecs"] = str(setting.usecs)
    ring = setting.ring or int(head[f"device.{DEVICE}.ethtool.ring.rx"])
    options = {
        "ring": min(NO_LIMIT, ring - drivers.DRIVERS[card.guest.driver].spare + card.held),
        "socket": NO_LIMIT,
        "defer-hard-irqs": setting.deferral[0],
        "gro-flush-timeout": setting.deferral[1],
        "threaded": setting.threaded,
        "budget": setting.budget,
        **drivers.options_of(head, DEVICE),
    }
    options = settings_of(kept["costs"], options)
    options["rx-gap"] = max(card.least_gap, options["rx-gap"])
    return {name: value for name, value in options.items() if name != "take" or options["gro-batch"]}


def words_of(options: Options) -> list[str]:
    return [f"--{name}={value}" for name, value in options.items()]


@functools.lru_cache(None)
def modelled(words: tuple[str, ...], arrivals: str) -> str:
    return machine.ran(machine.plain(), words, arrivals)[0]


def by_model(options: Options, arrivals: str) -> str:
    return modelled(tuple(words_of(options)), arrivals)


@dataclass
class Line:
    """A value of a setting: measured, and predicted by the rules."""

    card: str
    setting: str
    name: str
    measured: float
    known: tuple[float, float]  # between these the measured value is, but for chance
    predicted: float
    sent: int
    limit: int
    reason: str

    def error_from(self, measured: float) -> float:
        return predicting.error_of(self.name, measured, self.predicted, self.sent)

    @property
    def beyond(self) -> float:
        """Returns the part of the error that chance doesn't explain."""
        return self.error_from(min(max(self.predicted, self.known[0]), self.known[1]))

    @property
    def is_good(self) -> bool:
        return abs(self.beyond) <= self.limit

    def cells(self) -> tuple[str, str, str]:
        """Returns the predicted and the measured value, and their difference."""
        is_time = self.name.endswith("_p50")
        values = (f"{each / 1000:.1f}" if is_time else str(each) for each in (self.predicted, self.measured))
        predicted, measured = values
        return predicted, measured, f"{self.error_from(self.measured):+.1f} %"

    def __str__(self) -> str:
        parts = [self.card, self.setting, self.name, *self.cells(), f"{self.beyond:+.1f} % beyond chance"]
        return " | ".join(parts + ([f"up to {self.limit} %: {self.reason}"] if self.reason else []))


def lines_of(card: Card, kept: Kept, predict: Predict) -> Iterator[Line]:
    """Yields a line for each value of each setting, predicted by the rules of `predict`."""
    for setting in card.settings:
        measured = kept["measured"][setting.name]
        report = values_of(predict(options_of(card, setting, kept), kept["arrivals"]))
        for name in OF_SEVERAL if card.guest.cards > 1 else COLUMNS:
            if name in measured and (measured[name] or name != "dropped"):
                most, reason = card.exceptions.get((setting.name, name), (LIMITS[name], ""))
                value = measured[name]
                known = measured.get(f"{name}_low", value), measured.get(f"{name}_high", value)
                yield Line(card.name, setting.name, name, value, known, report[name], measured["sent"], most, reason)


# ---- the comparison


def judged_lines(card: Card, kept: Kept) -> Iterator[Judged]:
    """Compares the model with what was measured."""
    for line in lines_of(card, kept, by_model):
        print(line, flush=True)
        yield f"{line.card}, {line.setting}", [] if line.is_good else [f"{line.name} may be {line.limit} % off"]


def judged_program(card: Card, kept: Kept, program: str) -> Iterator[Judged]:
    """Compares the program with the model."""
    for setting in card.settings:
        options = options_of(card, setting, kept)
        out, _, _ = machine.ran(program, words_of(options), kept["arrivals"])
        yield f"{card.name}, {setting.name}, by napi_machine", difference(out, by_model(options, kept["arrivals"]))


def without(rule: str) -> Predict:
    return lambda options, arrivals: by_model({**options, rule: 0}, arrivals)


def judged_rules() -> Iterator[Judged]:
    """The recordings need each rule: without it some value is off."""
    for rule in RULES:
        lines = [
            line for card in (*CARDS, *OTHERS) for line in lines_of(card, read_kept(KEPT / card.name), without(rule))
        ]
        off = sum(not line.is_good for line in lines)
        print(f"without {rule} {off} of {len(lines)} values are off")
        yield rule, [] if off else ["no value needs it"]


def judged_kept(program: str, _: Skipped) -> Iterator[Judged]:
    """Compares with the recordings that the repository keeps."""
    yield "docs/TIMING.md", [] if page(False) else ["another table; tests/cards/cards.py page --into puts it there"]
    yield from judged_rules()
    for card in (*CARDS, *OTHERS):
        yield from judged_lines(card, read_kept(KEPT / card.name))
        yield from judged_program(card, read_kept(KEPT / card.name), program)


def judged_here(program: str, skipped: Skipped) -> Iterator[Judged]:
    """Makes the recordings, and compares with them."""
    for card in CARDS:
        with tempfile.TemporaryDirectory() as folder:
            try:
                kept = recorded(card, Path(folder))
            except emulation.Late as error:
                skipped.add("cards", f"recordings of {card.name} needs a machine that does less: {error}")
                continue
            except emulation.Failed as error:
                yield card.name, [str(error)]
                continue
        yield from judged_lines(card, kept)
        yield from judged_program(card, kept, program)


def keep(names: Sequence[str]) -> None:
    """Makes the recordings of these guests, and keeps them."""
    for card in (*CARDS, *OTHERS):
        if card.name in names:
            with tempfile.TemporaryDirectory() as folder:
                write_kept(KEPT / card.name, recorded(card, Path(folder)))


# ---- the table of docs/TIMING.md


def table() -> list[str]:
    """Returns the rows of the table of the kept recordings: in each cell by how many percent the predicted value was off."""
    columns = " | ".join(COLUMNS.values())
    rows = [f"| Setting | {columns} |", "|" + "---|" * (1 + len(COLUMNS))]
    for card in (*CARDS, VIRTIO):
        cells: dict[str, dict[str, str]] = {setting.name: {} for setting in card.settings}
        for line in lines_of(card, read_kept(KEPT / card.name), by_model):
            cells[line.setting][line.name] = line.cells()[2].replace(" %", "")
        for setting, of in cells.items():
            told = " | ".join(of.get(name, "") for name in COLUMNS)
            rows.append(f"| {card.name}, {setting.replace(' us', ' µs')} | {told} |")
    return rows


def page(is_into: bool) -> bool:
    """Returns whether docs/TIMING.md has the table; if `is_into`, puts it there."""
    return has_part(PAGE, BEGIN, END, table(), is_into)


# ---- the table of drivers


def sources() -> list[tuple[str, str, str, str]]:
    """Returns the rows of sources.txt: the driver and the fact, the file of Linux, the line, and a part of it."""
    return re.findall(r"^(\w+: .+?): (\S+):(\d+): (.*)$", (HERE / "sources.txt").read_text(encoding="utf-8"), re.M)


def check_sources(folder: str) -> bool:
    """Compares each row with the sources of Linux. Returns whether one differs."""
    wrong = []
    for fact, path, number, text in sources():
        line = (Path(folder) / path).read_text(encoding="utf-8", errors="replace").splitlines()[int(number) - 1]
        if " ".join(text.split()) not in " ".join(line.split()):
            wrong.append(f"{fact}: {path}:{number} is {line.strip()!r}")
    print(*wrong, sep="\n")
    return bool(wrong)


def main(what: str, argument: str = "", *others: str) -> bool:
    """Returns whether it failed."""
    if what == "keep":
        keep([argument, *others])
        return False
    if what == "files":
        print(*sorted({path for _, path, _, _ in sources()}), sep="\n")
        return False
    asked = {"fetch": emulation.fetch, "fetched": emulation.is_fetched, "memory": emulation.has_memory}
    if what in asked:
        return not asked[what]()
    if what == "sources":
        return check_sources(argument)
    if what == "page":
        return not page(argument == "--into")
    skipped = Skipped()
    return judge((judged_kept if what == "kept" else judged_here)(argument, skipped), skipped)


if __name__ == "__main__":
    sys.exit(main(*sys.argv[1:]))
