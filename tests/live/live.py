"""Compares what napi_machine predicts with what Linux does: the test of tests/live.sh.

    live.py test PROGRAM          compares with the recording that the repository keeps, and then with recordings made here, if they can be
    live.py keep PROGRAM FOLDER [N ..]
                                  records here, all groups or those with these numbers, and keeps in that folder costs, arrivals and measured
                                  values of what is predicted well enough

Costs and arrivals come from one setting's recording, and other settings are predicted from them. Each line compares the median of three
recordings. The last line is `N passed, M failed, K skipped`.
"""

from __future__ import annotations

import signal
import statistics
import subprocess
import sys
import tempfile
import time
from collections.abc import Iterable, Iterator
from concurrent.futures import ProcessPoolExecutor
from dataclasses import dataclass
from pathlib import Path
from typing import Any

HERE = Path(__file__).resolve().parent
TOP = HERE.parent.parent
sys.path[:0] = [str(TOP / "tools"), str(TOP / "tests"), str(HERE)]

from fintaqush_tools import predicting  # noqa: E402
from fintaqush_tools.choosing import settings_of  # noqa: E402
from fintaqush_tools.commands import costs  # noqa: E402
from fintaqush_tools.errors import Refusal  # noqa: E402
import rig  # noqa: E402
from judging import Judged, Skipped, judge, read_kept, write_kept  # noqa: E402
from fintaqush_tools.options import Words  # noqa: E402
from fintaqush_tools.receiving import Receiving  # noqa: E402
from fintaqush_tools.recorded import Recording  # noqa: E402
from fintaqush_tools.recording import BACKLOG, check_lost, read  # noqa: E402
from rig import Setting, Traffic  # noqa: E402

TIMES = 3  # that each setting is recorded
TRIES = 8  # until a recording is one that nothing disturbed
MOST_SECONDS = 240  # for all recordings; what isn't recorded by then is skipped
MOST_RUNNING = 60  # for one of traffic that already runs
MOST_LATE = 2_000_000  # ns, of the sender's bursts
MOST_STOLEN = 1  # hundredths of a second, which a hypervisor took
QUIET = "needs a quiet machine"
NO_LIMIT = 65536  # packets of a socket's buffer, which holds all

OVERLOAD = Traffic("fixed", 15000, 1500, 8, pace=10400, gso=8, filter=3900)
STEADY = Traffic("poisson", 60, 1, 5000)
RUNNING = Traffic("poisson", 60, 1, 250_000)
BROADCAST = Traffic("mixed", 3000, 24, 150, gso=64)


@dataclass(frozen=True)
class Case:
    """A setting that is predicted, and by how much each value may differ, in %."""

    setting: Setting
    limits: dict[str, int]


@dataclass(frozen=True)
class Group:
    """The setting that is recorded for costs and arrivals, and those that are predicted from it."""

    base: Setting
    cases: tuple[Case, ...]

    @property
    def settings(self) -> list[Setting]:
        return [self.base, *(case.setting for case in self.cases)]


def backlog_of(packets: int) -> dict[str, int]:
    return {"net.core.netdev_max_backlog": packets}


GROUPS = (
    Group(Setting("backlog of 3000", "backlog", OVERLOAD, sysctls=backlog_of(3000)), (
        Case(Setting("backlog of 100", "backlog", OVERLOAD, sysctls=backlog_of(100)), {"dropped": 5, "used_p50": 15}),
        Case(Setting("threaded, ring of 256", "thread", OVERLOAD), {"dropped": 10, "used_p50": 15}))),
    Group(Setting("no deferral", "backlog", STEADY, sysctls=backlog_of(3000)), (
        Case(Setting("threaded, deferral 2 x 100 us", "thread", STEADY, defer_hard_irqs=2, gro_flush_timeout=100000), {"polls": 10, "used_p50": 15}),)),
    Group(Setting("8 instances, budget 300", "softirq", BROADCAST, devices=8), (
        Case(Setting("8 instances, budget 16", "softirq", BROADCAST, devices=8, sysctls={"net.core.netdev_budget": 16}), {"runs": 1, "squeezed": 1}),)),
)


def options_of(setting: Setting) -> dict[str, int]:
    """The machine's options for a setting."""
    options = {"ring": 256, "budget": setting.sysctls.get("net.core.netdev_budget", 300), "socket": NO_LIMIT}
    if setting.poller == "backlog":
        options.update(ring=setting.sysctls["net.core.netdev_max_backlog"] + 1, backlog=1)
    elif setting.poller == "thread":
        options.update({"threaded": 1, "defer-hard-irqs": setting.defer_hard_irqs, "gro-flush-timeout": setting.gro_flush_timeout})
    return options


# ---- recordings made here

def seen_in(setting: Setting, recorded: rig.Recorded) -> tuple[Receiving, dict[str, str]]:
    """What a recording shows, with its head."""
    lost: list[str] = []
    names = range(1, setting.devices + 1)
    seen = Receiving({BACKLOG} if setting.poller == "backlog" else {f"vb{number}" for number in names}, {f"va{number}" for number in names})
    head = read(str(recorded.path), lost, lambda _: [seen])
    check_lost(lost)
    return seen, head


def values_of(setting: Setting, recorded: rig.Recorded) -> dict[str, Any]:
    seen, head = seen_in(setting, recorded)
    if recorded.reads and max(recorded.reads)[0] >= len(seen.sent):
        raise rig.Failed(f"a recording by {setting.name} ended before the last packet")
    ends = [(seen.sent[number], read + rig.USE_NS) for number, read, _ in recorded.reads]
    return predicting.measured_of(seen, head, ends)


def costs_of(path: Path) -> dict[str, int]:
    """The costs of a recording."""
    found = costs.object_in(str(path), [])["costs"]
    return {name.replace("_", "-"): cost["value"] for name, cost in found.items()}


class Recordings:
    """The recordings of a group, made in turn, so that what slows the machine for some seconds doesn't meet one setting only."""

    def __init__(self, folder: Path, until: float) -> None:
        self.folder, self.until, self.count = folder, until, 0

    def once(self, setting: Setting) -> rig.Recorded:
        """One undisturbed recording: the sender kept to its times, and no hypervisor took the processors."""
        for _ in range(TRIES):
            if time.monotonic() > self.until:
                raise rig.Failed("it isn't quiet enough in time")
            self.count += 1
            recorded = rig.record(self.folder, setting, self.folder / f"{self.count}.rec")
            if recorded.late < MOST_LATE and recorded.stolen <= MOST_STOLEN:
                return recorded
            recorded.path.unlink()
        raise rig.Failed(f"{TRIES} recordings by {setting.name} were disturbed: the last one's sender was {recorded.late / 1000:.0f} us late, and a "
                         f"hypervisor took {recorded.stolen} hundredths of a second from its processors")

    def of(self, group: Group) -> dict[str, list[rig.Recorded]]:
        made: dict[str, list[rig.Recorded]] = {setting.name: [] for setting in group.settings}
        for _ in range(TIMES):
            for setting in group.settings:
                made[setting.name].append(self.once(setting))
        return made


def kept_of(group: Group, made: dict[str, list[rig.Recorded]]) -> dict[str, Any]:
    """What is kept of a group's recordings: all measured values, and costs and arrivals of the base's middle recording."""
    settings = {setting.name: setting for setting in group.settings}
    every = [(settings[name], recorded) for name, each in made.items() for recorded in each]
    with ProcessPoolExecutor() as pool:
        values = list(pool.map(values_of, *zip(*every)))
    measured = {name: [value for (setting, _), value in zip(every, values) if setting.name == name] for name in settings}
    own = measured[group.base.name]
    place = sorted(range(TIMES), key=lambda each: own[each].get("used_p50", 0))[TIMES // 2]
    middle = made[group.base.name][place]
    seen, head = seen_in(group.base, middle)
    numbers = {f"va{number}": number for number in range(1, group.base.devices + 1)}
    return {"kernel": head.get("kernel", ""), "costs": costs_of(middle.path), "measured": measured,
            "arrivals": predicting.arrivals_at(seen, numbers, visible=group.base.poller == "softirq")}


# ---- predicted and measured

@dataclass
class Line:
    """One value of one setting."""

    setting: str
    name: str
    measured: list[float]
    predicted: int
    limit: int  # 0 for a value of the base, which is the rig's own check
    sent: int

    @property
    def median(self) -> float:
        return statistics.median(self.measured)

    @property
    def error(self) -> float:
        return predicting.error_of(self.name, self.median, self.predicted, self.sent)

    @property
    def is_steady(self) -> bool:
        """Whether at least two of the recordings agree about it."""
        values = sorted(self.measured)
        return any(abs(predicting.error_of(self.name, high, low, self.sent)) <= max(self.limit, 5) for low, high in zip(values, values[1:]))

    @property
    def is_of_one_speed(self) -> bool:
        """Whether all recordings agree about a time, within 15 % or 5 us. If not, the machine was slower in some of them, and
        costs from one don't predict another."""
        return self.name != "used_p50" or max(self.measured) - min(self.measured) <= max(0.15 * self.median, 5000)

    def __str__(self) -> str:
        unit, by = predicting.MEASURED[self.name]
        low, middle, high, value = (f"{each / by:.4g}" if by > 1 else f"{each:.0f}" for each in
                                    (min(self.measured), self.median, max(self.measured), self.predicted))
        return f"{self.setting}: {self.name} {middle} [{low}, {high}] {unit}, predicted {value} ({self.error:+.1f} %)"


def lines_of(program: str, setting: Setting, limits: dict[str, int], kept: dict[str, Any]) -> list[Line]:
    """The lines of a setting, predicted from what was kept."""
    values = predicting.predicted(program, kept["arrivals"], settings_of(kept["costs"], options_of(setting)))
    measured = kept["measured"][setting.name]
    return [Line(setting.name, name, [each[name] for each in measured], values[name], limit, measured[0]["sent"]) for name, limit in limits.items()
            if all(name in each for each in measured)]


def own_check(group: Group) -> dict[str, int]:
    """The values by which the rig is judged at the recorded setting."""
    return dict.fromkeys(("runs", "squeezed") if group.base.devices > 1 else ("polls", "dropped", "used_p50"), 0)


def grade_of(lines: list[Line]) -> str:
    """How well the recorded setting itself is predicted: good, fair or poor."""
    return predicting.grade_of([(line.name, line.median, line.predicted, line.error) for line in lines])


def judged_lines(lines: list[Line], skipped: Skipped, is_good: bool = True) -> Iterator[Judged]:
    """Judges lines; one that differs too much fails if the recorded setting is predicted well, and two of the three recordings agree about
    the value."""
    for line in lines:
        print(line, flush=True)
        if abs(line.error) <= line.limit or is_good and line.is_steady:
            yield line.setting, [f"{line.name} may be {line.limit} % off"] * (abs(line.error) > line.limit)
        else:
            why = f"no two recordings agree about {line.name}" if is_good else "the recorded setting itself isn't predicted well"
            skipped.add("live", f"{line.setting}: {QUIET}: {why}")


def predicted_lines(program: str, group: Group, kept: dict[str, Any]) -> tuple[list[Line], list[Line]]:
    """The lines of the base, and those of the settings that are predicted from it."""
    return (lines_of(program, group.base, own_check(group), kept),
            [line for case in group.cases for line in lines_of(program, case.setting, case.limits, kept)])


def judged_kept(program: str, skipped: Skipped) -> Iterator[Judged]:
    """Judges the recording in the repository, and the table of docs/TIMING.md, which is that of this recording."""
    for place, group in enumerate(GROUPS):
        own, lines = predicted_lines(program, group, read_kept(HERE / f"kept/{place + 1}"))
        print(*own, sep="\n")
        yield from judged_lines(lines, skipped)
    done = subprocess.run([sys.executable, "-B", HERE / "table.py", program, "--check", TOP / "docs/TIMING.md"], check=False)
    yield "docs/TIMING.md", ["another table; tests/live/table.py PROGRAM --into docs/TIMING.md puts it there"] * (done.returncode != 0)


def recorded_group(program: str, group: Group, until: float) -> tuple[dict[str, Any], list[Line], list[Line]]:
    """What may be kept of a group, with its lines. What differs too much is recorded a second time, because anything may have
    slowed the machine."""
    with tempfile.TemporaryDirectory() as scratch:
        rig.build(Path(scratch))
        for _ in range(2):
            kept = kept_of(group, Recordings(Path(scratch), until).of(group))
            own, lines = predicted_lines(program, group, kept)
            if all(abs(line.error) <= line.limit for line in lines):
                break
    return kept, own, lines


def judged_here(program: str, folder: Path | None, numbers: Iterable[int], skipped: Skipped) -> Iterator[Judged]:
    """Records these groups on this machine, and keeps in a folder, if one is named, what is predicted well."""
    if lacks := rig.missing():
        skipped.add("live", f"recordings made here: needs {', '.join(lacks)}")
        return
    until = time.monotonic() + MOST_SECONDS
    for place in numbers:
        group = GROUPS[place]
        named = ", ".join(case.setting.name for case in group.cases)
        try:
            kept, own, lines = recorded_group(program, group, until)
        except (rig.Failed, Refusal, OSError) as error:
            skipped.add("live", f"{group.base.name}, and what is predicted from it: {QUIET}: {error}")
            continue
        print(*own, sep="\n", flush=True)
        grade = grade_of(own)
        if grade == "poor":
            skipped.add("live", f"{named}: {QUIET}: {group.base.name} itself isn't predicted well")
        elif not all(line.is_of_one_speed for line in own):
            skipped.add("live", f"{named}: {QUIET}: recordings of {group.base.name} differ by over 15 %")
        else:
            found = list(judged_lines(lines, skipped, grade == "good"))
            yield from found
            if folder and len(found) == len(lines) and not any(wrong for _, wrong in found):
                write_kept(folder / str(place + 1), kept)


def judged_running(skipped: Skipped) -> Iterator[Judged]:
    """Records traffic that already runs, and judges the waits by those that the program sees itself, from before each sending to its read."""
    setting = Setting("traffic that already runs", "backlog", RUNNING, sysctls=backlog_of(3000), is_running=True)
    if rig.missing():
        return
    with tempfile.TemporaryDirectory() as scratch:
        rig.build(Path(scratch))
        try:
            recorded = Recordings(Path(scratch), time.monotonic() + MOST_RUNNING).once(setting)
            seen = Recording(str(recorded.path), Words(device=None, capture=None)).read().seen
        except (rig.Failed, Refusal) as error:
            skipped.add("live", f"{setting.name}: {QUIET}: {error}")
            return
    delivered = sorted(seen.delivered())
    if not delivered:
        yield setting.name, ["packets and polls don't match"]
        return
    waits = sorted(end - sent for sent, end in delivered)
    reads = [read - sent for _, read, sent in recorded.reads if delivered[0][0] <= sent <= delivered[-1][0]]  # what is recorded is slower
    middle, whole = predicting.percentile(waits, 500), statistics.median(reads)
    print(f"{setting.name}: {len(waits)} packets, median wait to delivery {middle / 1000:.1f} us, to the program's read {whole / 1000:.1f} us", flush=True)
    yield setting.name, ["packets are delivered after they are read"] * (middle > whole)


def judged(what: str, program: str, *others: str, skipped: Skipped) -> Iterator[Judged]:
    if what == "test":
        yield from judged_kept(program, skipped)
        yield from judged_running(skipped)
    numbers = [int(number) - 1 for number in others[1:]] or range(len(GROUPS))
    yield from judged_here(program, Path(others[0]) if others else None, numbers, skipped)


def main(words: list[str]) -> bool:
    skipped = Skipped()
    return judge(judged(*words, skipped=skipped), skipped)


if __name__ == "__main__":
    signal.signal(signal.SIGTERM, lambda *_: sys.exit(128 + signal.SIGTERM))  # so that devices and settings are restored
    sys.exit(main(sys.argv[1:]))
