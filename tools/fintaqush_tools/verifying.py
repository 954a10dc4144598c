"""Records today's settings and advised ones in turn, and says whether the goal's value became lower: for advise
--verify."""

from __future__ import annotations

import os
import re
import tempfile
from collections.abc import Sequence
from dataclasses import asdict, dataclass
from statistics import median
from typing import Any

from fintaqush_tools import observed
from fintaqush_tools.advice import Change, Machine
from fintaqush_tools.bands import Interval
from fintaqush_tools.commands import record
from fintaqush_tools.errors import Refusal, unfinished, unlink, why
from fintaqush_tools.options import Words, words_of, wrong
from fintaqush_tools.predicting import TOLD, told_value
from fintaqush_tools.progress import say
from fintaqush_tools.recorded import Recording
from fintaqush_tools.recording import Head

TIMES = 3  # recordings of each setting
ADVISED = "the advised settings"
# What --set changes besides net.core: the kind of the change, and the setting's key in a head.
SETTINGS = {
    **{name: ("sysfs", name) for name in ("napi_defer_hard_irqs", "gro_flush_timeout", "threaded")},
    "rx-usecs": ("coalesce", "ethtool.coalesce.rx-usecs"),
    "ring": ("ring", "ethtool.ring.rx"),
}


def asked(text: str) -> tuple[str, int]:
    """Parses --set: the name of a setting, and its value."""
    found = re.fullmatch(rf"(net\.core\.[a-z_]+|{'|'.join(SETTINGS)})=([0-9]{{1,9}})", text)
    if not found:
        raise wrong(text, f"a setting of net.core, or {', '.join(SETTINGS)}, as net.core.netdev_budget=600")
    return found[1], int(found[2])


def asked_changes(machine: Machine, settings: Sequence[tuple[str, int]]) -> list[Change]:
    """Returns the changes that --set asks for, with the present values, which are restored. Fails if there is no such setting here."""
    present = dict([*observed.of_kernel(), *observed.settings_of_device(machine.device, machine.netns)])
    changes = []
    for name, value in settings:
        kind, own = SETTINGS.get(name, ("sysctl", ""))
        key = f"device.{machine.device}.{own}" if own else f"sysctl.{name}"
        if not present.get(key, "").isdigit():
            raise Refusal(f"--set {name}: there is no such setting here, or it isn't a number")
        changes.append(Change(kind, key.rpartition(".")[2], value, int(present[key])))
    return changes


def record_again(head: Head, words: Words) -> Recording:
    """Makes a recording with the present settings, in the same way as the one with that head."""
    handle, path = tempfile.mkstemp(suffix=".rec")
    os.close(handle)
    unfinished.add(path)
    given = [str(max(1, round(float(head.get("seconds") or 1)))), "--out", path]
    for key in ("netns", "program", "buffer"):
        given += [f"--{key}={head[key]}"] if head.get(key) else []
    for key in ("device", "sender"):
        given += [f"--{key}={name}" for name in head.get(key, "").split()]
    try:
        of_record = words_of(None, record.add_options, given, raises=True)
        record.recorded_by(of_record, lambda _: None)
        record.check_whole(of_record)
        return Recording(path, words).read()
    except (Refusal, OSError) as error:
        raise Refusal(f"recording again failed: {why(error)}") from None
    finally:
        unlink(path)
        unfinished.discard(path)


def record_in_turn(
    head: Head, words: Words, machine: Machine, changes: Sequence[Change], what: str
) -> tuple[list[Recording], list[Recording]]:
    """Returns recordings of today's settings, and as many with the changes, which `what` names, each after one of today's: what changes
    with time meets both."""
    if os.geteuid() != 0:
        raise Refusal("--verify needs root")
    today, changed = [], []
    for number in range(1, TIMES + 1):
        say(f"recording today's settings and {what} during traffic, {number} of {TIMES}")
        today.append(record_again(head, words))
        with machine.with_changes(changes):
            changed.append(record_again(head, words))
    return today, changed


@dataclass
class Verdict:
    """The goal's value: measured in each recording of today's settings, and of the advised ones or those of --set, if it could be; and
    predicted for one of the latter, with its band or the reason why the band isn't known."""

    name: str
    today: list[float]
    advised: list[float]
    predicted: float
    band: Interval | None
    why_no_band: str = ""
    what = ADVISED

    def judgement(self) -> str:
        """Returns better or worse if all recordings of one setting are below all of the other; alike if they overlap;
        else unknown."""
        if min(len(self.today), len(self.advised)) < TIMES:
            return "unknown"
        if max(self.advised) < min(self.today):
            return "better"
        return "worse" if min(self.advised) > max(self.today) else "alike"

    def failure(self) -> str:
        """Returns why the advised settings aren't known to be better, or nothing if they are."""
        judgement = self.judgement()
        if judgement == "unknown":
            few = f"{min(len(self.today), len(self.advised))} of {TIMES} recordings of a setting"
            return f"whether {self.what} are better isn't known, because only {few} measured it; today's are set again"
        return "" if judgement == "better" else f"{self.what} weren't better than today's, which are set again"

    def told(self, values: Sequence[float]) -> str:
        """Returns the median of values, and their range."""
        middle, low, high = (told_value(self.name, each) for each in (median(values), min(values), max(values)))
        return f"{middle} ({low} to {high})"

    def lines(self) -> list[str]:
        if not self.today or not self.advised:
            return [f"{self.what} aren't verified: {TOLD[self.name]} wasn't measured"]
        before, after = median(self.today), median(self.advised)
        change = f"{100 * (after - before) / before:+.0f} %" if before else told_value(self.name, after - before)
        what = {
            "better": "better in all recordings",
            "worse": "worse in all recordings",
            "alike": "which is within their noise",
            "unknown": f"measured in too few recordings, of {TIMES} each",
        }[self.judgement()]
        return [
            f"{TOLD[self.name]}: {self.told(self.today)} today, {self.told(self.advised)} with {self.what}: {change}, {what}",
            f"predicted for these packets: {told_value(self.name, self.predicted)}{self.told_band(after)}",
        ]

    def told_band(self, measured: float) -> str:
        """Returns the band, and whether it holds the measured median; or why it isn't known."""
        if not self.band:
            return f"; {self.why_no_band}"
        low, high = (told_value(self.name, end) for end in self.band)
        holds = "holds" if self.band[0] <= measured <= self.band[1] else "does not hold"
        return f", nine times of ten {low} to {high}, which {holds} the measured median"

    def object(self) -> dict[str, Any]:
        return {**asdict(self), "verdict": self.judgement()}
