"""Advises how to set Linux for lower latency, fewer drops or less processor time, from one recording of the running machine.

    fintaqush record 5 --device vb1 --netns receiver --program server --out mine.rec
    fintaqush advise mine.rec --goal p99
    sudo fintaqush advise mine.rec --goal p99 --verify --keep
    sudo fintaqush advise mine.rec --goal cpu --verify --set net.core.netdev_budget=600

It estimates the costs from the recording (fintaqush costs), replays the recorded settings in napi_machine and compares
the result with what was recorded, for each processor that polled. The fit is good, fair or poor; it is unknown if the
goal is a wait and no wait could be measured. If it is poor or unknown, there is no advice. Otherwise it tries other
settings: threaded NAPI, napi_defer_hard_irqs with gro_flush_timeout, interrupt coalescing, sizes of rings and backlogs,
and the program on an idle processor. Of settings that are equally good it advises the one with the fewest changes. It
prints three lines: what to set, what that brings with the band in which a recording is nine times of ten, and how far to
trust it; then the commands. With --explain it also prints the costs, how well the recorded setting is predicted, the best
settings, and what isn't modelled. If a hypervisor took over 1 % of a processor's time during the recording, the band
isn't known, and it says so.

Goals: the 99th or 50th percentile of the wait, the kernel's processor time, or drops. A wait lasts from a packet's arrival until the program
has used it; until its delivery with --wait delivery, if no program is recorded, or if several processors poll. Only settings with at most
--max-drops drops (as many as now) and with a 99th percentile below --p99-below are considered.

At a network card arrivals are inferred from polls. --capture names a capture that was made meanwhile: if the card stamped its packets
(tcpdump -j adapter), those to the device that came during the recording are the arrivals.

--verify needs root. It records today's settings and the advised ones on this machine, three times each in turn, during
traffic, and restores the old settings. It prints predicted and measured values, and by how much the goal's value became
lower. The exit status is 1 if it should have become lower and not all three recordings are below those of today's
settings. With --set it verifies your own change in the same way, whatever is advised. With --keep the change stays if
all three recordings are better; a file in /etc/sysctl.d or /etc/udev/rules.d sets it at each boot, and the command that
undoes it is printed.
"""

from __future__ import annotations

from collections import Counter
from collections.abc import Iterator, Mapping, Sequence
from typing import Any, Optional

from fintaqush_tools import blame, card_costs, drivers, keeping, predicting, stolen, verifying
from fintaqush_tools.advice import (
    COALESCING,
    MOVED,
    NOT_MODELLED,
    SPREAD,
    Change,
    Machine,
    candidates,
    has_deferral,
    interrupts_of,
    options_of,
    unmodelled_in,
)
from fintaqush_tools.bands import ALIKE, DOUBT, TIMERS, Doubt, with_costs
from fintaqush_tools.choosing import GOALS, Choice, Options, Predictions, Values, settings_of, timeout_of
from fintaqush_tools.commands import costs
from fintaqush_tools.errors import Refusal
from fintaqush_tools.files import check_regular
from fintaqush_tools.fits import Cost
from fintaqush_tools.instances import Place
from fintaqush_tools.machine import COSTS, identifier, option_words
from fintaqush_tools.options import Parser, Words, add_binary, number, words_of
from fintaqush_tools.parts import Waits, noises_of, parts_of, two_of
from fintaqush_tools.predicting import TOLD, Compared, check_lines, objects_in, told_value, us
from fintaqush_tools.processes import program
from fintaqush_tools.progress import say, tell
from fintaqush_tools.recorded import Recording, arrivals_in
from fintaqush_tools.recording import BACKLOG, uncollected
from fintaqush_tools.results import add_json, is_printed, write_json
from fintaqush_tools.texts import aligned, as_rows, shown
from fintaqush_tools.thresholds import add_fail_if, status_of
from fintaqush_tools.verifying import Verdict

FEWEST = 1000  # packets
SHOWN = 8  # settings in the table
RARE = 10  # a device with fewer packets than one in so many of the largest one doesn't count
VAGUE = 4  # ratio of a band's ends above which a value counts as unknown
LAYOUTS = {0: "queues as they are", MOVED: "interrupts moved", SPREAD: "hashes spread equally"}
NAMES = {
    "defer-hard-irqs": "napi_defer_hard_irqs",
    "gro-flush-timeout": "gro_flush_timeout",
    **dict.fromkeys(COALESCING, "rx-usecs"),
}
DEFERRAL = ("defer-hard-irqs", "gro-flush-timeout")
NO_TIMER = (
    "deferral isn't compared with none, because the recording has too few of NAPI's timers to know their cost: record "
    "again with napi_defer_hard_irqs 2 and a gro_flush_timeout of 100000"
)
UNUSED = (
    "the capture isn't used, because the recording has its times already: a veth pair's are the sender's, and a card's those at which polls took the packets, "
    "unless the card stamps them itself (tcpdump -j adapter, if ethtool -T shows hardware-receive)"
)
MORE = (
    "with the advised setting the card would interrupt more often than it did; if it keeps a least time between interrupts by itself, as QEMU's e1000 "
    "does (128 us), waits are longer than predicted: --verify shows it, or a recording with this setting and --capture"
)
MERGED = (
    "GRO merged {} packets that polls took into {}, so a packet counts as delivered when the stack gets it; with deferral GRO holds packets until a poll "
    "doesn't start NAPI's timer, or until a jiffy is over, which isn't predicted, so no other deferral is tried"
)
OWN = "those of --set"
UNKNOWN = "no wait was measured, because which packet was in which poll isn't known"
UNREAD = "which read had which packet isn't known"
ADVISED = ("good", "fair")  # grades


# ---- what is printed


def as_keys(options: Options) -> dict[str, int]:
    """Renames options to identifiers, for JSON."""
    return {identifier(name): value for name, value in options.items()}


def named(options: Options, varied: Sequence[str], machine: Machine) -> str:
    """Describes a setting of the machine by the kernel's names of the options that vary."""
    parts = []
    for name in varied:
        value = options.get(name, 0)
        if name == "ring" and options.get("backlog"):
            parts.append(f"netdev_max_backlog {value - 1}")
        elif name == "ring":
            parts.append(f"ring {value + machine.spare}")
        elif name == "layout":
            parts.append(LAYOUTS[value])
        elif name == "apart":
            parts.append(f"the program {'apart' if value else 'with the polls'}")
        else:
            parts.append(f"{NAMES.get(name, name)} {machine.usecs_in(options, name) if name in COALESCING else value}")
    return ", ".join(parts)


def several(settings: Sequence[Options], varied: Sequence[str], machine: Machine) -> str:
    """Describes the first of several settings with equal results, and how many others there are."""
    return named(settings[0], varied, machine) + (f"; {len(settings) - 1} more" if len(settings) > 1 else "")


def varied_in(tried: Sequence[Options]) -> list[str]:
    """Returns the options that have several values, except for a timer without deferral."""
    return [
        name
        for name in ("threaded", "defer-hard-irqs", "gro-flush-timeout", *COALESCING, "ring", "layout", "apart")
        if len({options.get(name, 0) for options in tried}) > 1
    ]


def columns_of(values: Values, end: str) -> list[str]:
    return [
        us(values[f"{end}_p50"]),
        us(values[f"{end}_p99"]),
        str(values["lost"]),
        f"{values['kernel_percent']:.1f}",
        f"{values['program_percent']:.1f}",
        str(values["interrupts"] + values["timers"]),
        str(values["polls"]),
    ]


HEADINGS = ["p50 us", "p99 us", "dropped", "kernel %", "program %", "interrupts", "polls"]


def table(rows: Sequence[list[str]], first: str) -> list[str]:
    """Formats a table; the first column is left-aligned."""
    return [f"  {line}" for line in aligned([[first, *HEADINGS], *rows], 1)]


class Advice:
    """The advice that follows from a recording."""

    notes: list[str]
    limits: list[str]  # of the advice, which are notes too
    choice: Optional[Choice]
    changes: list[Change]
    others: dict[int, dict[str, float]]
    others_apart: dict[str, float]
    blame: list[str]
    check: list[Compared]

    def __init__(self, words: Words) -> None:
        self.words, self.notes, self.limits = words, [], []
        self.recording = Recording(words.recording, words)
        recording, head = self.recording, self.recording.head
        has_one = recording.polled == BACKLOG or len(head["device"].split()) == 1
        times = costs.timeline_for(head, [] if has_one else [recording.device])
        recording.read(times, words.goal, words.wait == "delivery")
        self.told = costs.object_after(times, head)
        if recording.is_captured:
            self.take_interrupt()
        self.costs = self.settled({name.replace("_", "-"): cost["value"] for name, cost in self.told["costs"].items()})
        self.processors = recording.layout.processors
        self.options = options_of(head, recording.device, self.told["apart"], len(self.processors))
        self.end = self.chosen_end()
        whole, first = arrivals_in(recording, words)
        made, majors = program("napi_machine", words.binary), recording.layout.major()
        predictions = Predictions(made, self.costs, whole, majors)
        if len(self.processors) > 1:
            ratios = {each["processor"]: each["ratio"] for each in self.told["ratios"]}
            own = (ratios.get(each, 1.0) for each in self.processors)
            predictions.ratios = tuple(ratio if abs(ratio - 1) > costs.UNEVEN else 1.0 for ratio in own)
        self.judge(predictions)
        self.doubt = self.doubt_by(predictions)
        self.why_no_band = stolen.without_band({each["processor"]: each["share"] for each in self.told["stolen"]})
        self.machine = Machine(head, recording.device, recording.seen.processor, recording.seen.tasks.idle())
        self.note_tasks()
        self.note_recording()
        predictions.doubt = self.doubt
        self.predictions, self.choice = predictions.on_others(first, majors), None
        if self.grade in ADVISED:
            self.choose(len(first.splitlines()) - 1)

    def take_interrupt(self) -> None:
        """Takes the cost of an interrupt from a capture's arrivals, if softirqs poll: it begins before its handler."""
        seen = self.recording.seen
        cost = card_costs.arrival_interrupt_cost(seen.sent, seen.entries[seen.processor])
        if cost and not seen.is_by_thread:
            self.told["costs"]["interrupt"] = cost.as_object()
            self.told["costs"]["wake"] = Cost(0, 0, 0, cost.count, "a part of the interrupt").as_object()
            line = (
                f"interrupt {cost.interval()}: {cost.count} {cost.source}, from the arrival to the softirq, with waking"
            )
            self.told["text"] = [line, *(each for each in self.told["text"] if not each.startswith("interrupt"))]

    def chosen_end(self) -> str:
        """Returns where waits end, used or delivered. With several processors they end with the delivery, because the machine has a program on
        each of them, and the recorded one reads the packets of all. A goal that is a wait isn't judged by another one: if the use isn't known, nor
        is the fit."""
        self.measured = self.measured_in(self.recording)
        if not self.told["reads"] or self.words.wait == "delivery":
            return "delivered"
        is_known = self.costs["use"] and "used_p99" in self.measured
        if len(self.processors) == 1 and (is_known or self.is_wait(self.words.goal)):
            return "used"
        if self.costs["use"]:
            why = f"{len(self.processors)} processors poll" if len(self.processors) > 1 else UNREAD
            self.notes.append(f"{why}, so waits are those to delivery")
        self.costs["use"] = 0
        return "delivered"

    def measured_in(self, recording: Recording) -> dict[str, float]:
        """Returns what a recording measured."""
        return predicting.measured_of(
            recording.seen, recording.head, packet=self.costs["packet"], layout=recording.layout
        )

    def judge(self, predictions: Predictions) -> None:
        """Compares the recorded setting with its prediction, for each processor too, and grades the fit by the worst one."""
        recording = self.recording
        self.measured_on = predicting.measured_on(
            recording.seen, recording.head, self.costs["packet"], recording.layout
        )
        self.check = self.compared(self.measured, predictions.of(self.options))
        self.check_on: dict[int, list[Compared]] = {}
        if len(self.processors) > 1:
            for (processor, measured), values in zip(self.measured_on.items(), predictions.on(self.options)):
                self.check_on[processor] = self.compared(measured, values)
        self.judged, self.grade = self.judged_for(self.words.goal, self.end), self.grade_for(self.words.goal, self.end)

    def judged_for(self, goal: str, end: str) -> set[str]:
        return predicting.judged_for(goal, end, self.words.p99_below is not None)

    def grade_for(self, goal: str, end: str) -> str:
        """Returns the grade of the fit for a goal, of which the waits end there."""
        if self.is_wait(goal) and not any(name == f"{end}_p99" for name, *_ in self.check):
            return "unknown"
        many = (rows for processor, rows in self.check_on.items() if self.measured_on[processor]["sent"] >= FEWEST)
        grades = [predicting.grade_of(rows, self.judged_for(goal, end)) for rows in (self.check, *many)]
        return max(grades, key=("good", "fair", "poor").index)

    def is_wait(self, goal: str) -> bool:
        """Returns whether a goal is about a wait, or has a limit that is one."""
        return goal in ("p50", "p99") or self.words.p99_below is not None

    def goal_text(self) -> str:
        """Describes the goal; it says where waits end if the program's reads are recorded, and they don't count."""
        is_other = self.end == "delivered" and self.told["reads"] and self.words.goal in ("p50", "p99")
        return GOALS[self.words.goal] + " to delivery" * bool(is_other)

    def why_unknown(self) -> str:
        """Returns why the wait wasn't measured."""
        if "delivered_p99" not in self.measured:
            return UNKNOWN
        lines = (line.partition(": not known: ") for line in self.told["text"])
        return (
            f"no wait to the end of use was measured: {next((why for name, _, why in lines if name == 'use'), UNREAD)}"
        )

    def why_none(self) -> str:
        """Returns why there is no advice, with the goals for which there is, and what the waits are."""
        poor = f"the prediction of the recorded setting is poor ({self.worst()})"
        known = [f"--goal {goal}" for goal in GOALS if self.grade_for(goal, self.end) in ADVISED]
        if self.end == "used" and self.is_wait(self.words.goal):
            known += [f"--goal {self.words.goal} --wait delivery"] * (
                self.grade_for(self.words.goal, "delivered") in ADVISED
            )
        what = f"this goal, but there is with {' or '.join(known)}" if known else "any goal"
        why = self.why_unknown() if self.grade == "unknown" else poor
        return "; ".join([f"{why}, so there is no advice for {what}", *self.blame])

    def doubt_by(self, predictions: Predictions) -> Doubt:
        """Returns how far the costs are in doubt, and what else the recording leaves open."""
        known = (
            self.told["costs"]
            if self.told["is_separated"]
            else {name: cost for name, cost in self.told["costs"].items() if name not in ("poll", "packet")}
        )
        ends = {name.replace("_", "-"): (cost["low"], cost["high"]) for name, cost in known.items()}
        if self.told["apart"] and "app-wake" in ends:
            ends["app-wake-apart"] = ends.pop("app-wake")
        higher = predictions.of(self.options, with_costs(self.costs, 100 + DOUBT))
        known_ends = {name: end for name, end in ends.items() if self.costs.get(name)}
        own = [row for row in self.check if self.end == "used" or not row[0].startswith("used")]
        seen = self.recording.seen
        waits: Waits = {"delivered": seen.delivered(self.costs["packet"]), "used": seen.used()}
        noises = noises_of(parts_of(seen, waits), two_of(seen, waits))
        return Doubt(self.costs, own, higher, known_ends, self.arrivals_doubt(), self.told["apart"], noises)

    def arrivals_doubt(self) -> int:
        """Returns by how many ns an arrival may be off, if arrivals are inferred from polls."""
        return self.recording.seen.held.doubt if self.recording.by and not self.recording.is_captured else 0

    def note_tasks(self) -> None:
        """Finds the tasks that disturbed the processors that poll, and that on which the program reads."""
        recording = self.recording
        self.others = {processor: recording.disturbing(processor) for processor in recording.layout.processors}
        self.others_apart = {}
        self.blame = [*blame.lines_of_socket(recording.head), *blame.lines_of_traffic(recording.seen)]
        if not timeout_of(self.options):  # with deferral packets wait for the timer, whatever runs meanwhile
            self.blame += blame.lines_of(recording.seen, recording.layout, recording.program_pids(), recording.remedy())
        if self.told["apart"]:
            self.reads_on = max(self.told["reads_on"], key=lambda each: int(each["reads"]))["processor"]
            self.others_apart = recording.disturbing(self.reads_on) if self.reads_on not in self.others else {}

    def compared(self, measured: Mapping[str, float], values: Values) -> list[Compared]:
        """Returns the measured values with the predicted ones, without those of use if it is unknown."""
        rows = predicting.compared(measured, values)
        return [row for row in rows if self.costs["use"] or not row[0].startswith("used")]

    def note_recording(self) -> None:
        """Notes what the recording lacks."""
        recording = self.recording
        self.notes += [f"{each}, which isn't modelled" for each in unmodelled_in(recording.head, recording.device)]
        self.notes += drivers.notes_on(recording.head, recording.device)
        if recording.seen.gro.left:
            self.notes.append(MERGED.format(len(recording.seen.gro.left), recording.seen.gro.passed))
        self.notes += [UNUSED] if self.words.capture and not recording.is_captured else []
        self.notes += [] if self.told["stolen"] else [stolen.UNKNOWN]
        if recording.by and not recording.is_captured:
            self.notes.append(
                f"arrivals are when polls took the packets ({recording.by}), so waits in the card's ring before the interrupt aren't in these values; "
                "--capture takes those of a capture with the card's timestamps"
            )
        if doubt := self.arrivals_doubt():
            self.notes.append(
                "packets that waited for NAPI's timer, or for the end of the card's least time between interrupts, count as spread evenly over the time "
                f"since the poll before, so a wait may be off by {us(doubt)} us"
            )
        if moving := len(recording.layout.moving()):
            self.notes.append(
                f"{moving} instance{' was' if moving == 1 else 's were'} polled by several processors, each of which counts by itself: interrupts "
                "were moved, or senders of a veth pair"
            )
        if self.measured["sent"] < FEWEST:
            self.notes.append(
                f"{self.measured['sent']} packets are few for a 99th percentile, which needs {FEWEST}: record for longer"
            )

    def settled(self, costs: Mapping[str, int]) -> dict[str, int]:
        """Returns all costs; an unknown cost counts as 0, with a note."""
        for name, what in (("interrupt", "an interrupt"), ("wake", "a wake-up"), ("use", "a packet's use")):
            if name not in costs and not (name == "wake" and self.recording.layout.is_sent_here()):
                needs = (
                    ": record with --program, so that waits are those to the end of use"
                    if name == "use" and not self.told["reads"]
                    else ""
                )
                self.notes.append(f"the cost of {what} is unknown and counts as 0{needs}")
        known = {name: costs.get(name, 0) for name in COSTS}
        woken = costs.get("app-wake", known["wake"]) if self.told["apart"] else known["wake"]
        own = 0 if self.told["apart"] else known["app-wake"]  # on the processor that polls
        if self.recording.layout.is_sent_here():
            known["wake"] = 0  # these packets arrive when the softirq begins
        known = {name: cost for name, cost in known.items() if name not in TIMERS}
        others = {name: costs[name] for name in (*TIMERS, "flight") if name in costs}
        return {**known, **others, "app-wake": own, "app-wake-apart": woken}

    def choose(self, packets: int) -> None:
        """Tries all settings."""
        has_program = self.end == "used" and self.machine.other_processor() is not None
        recording, has_timer = self.recording, "timer" in self.costs
        head, device, is_sent_here = recording.head, recording.device, recording.layout.is_sent_here()
        tried = candidates(head, device, self.options, has_program, has_timer, is_sent_here)
        tried += self.layouts(packets)
        if recording.seen.gro.left:
            now = {name: self.options.get(name) for name in DEFERRAL}
            tried = [each for each in tried if not timeout_of(each) or now.items() <= each.items()]
        elif not has_timer and has_deferral(head, device, self.options):
            self.notes.append(NO_TIMER)
        self.varied, self.packets = varied_in(tried), packets
        self.choice = Choice(self.words, self.end, self.predictions, tried)
        if self.choice.best:
            self.best, self.values = self.choice.best
            self.sides = self.predictions.sides_of(self.best)
            today = self.predictions.sides_of(self.options)
            self.limits = [*self.choice.warnings(self.best, self.sides, today), *self.unknown()]
            self.notes += self.limits
            self.changes = self.machine.changes(self.best, self.options)
            self.notes += self.machine.notes_on(self.changes)
        else:
            self.changes = []

    def ends(self) -> tuple[Values, Values] | None:
        """Returns the lower and the upper ends of the bands of the advised setting, if they are known."""
        if self.why_no_band:
            return None
        bands = {name: self.predictions.band(name, self.best, self.values, self.sides) for name in self.values}
        places = {name: None if isinstance(value, int) else 2 for name, value in self.values.items()}
        lower, upper = ({name: round(band[end], places[name]) for name, band in bands.items()} for end in (0, 1))
        return lower, upper

    def layouts(self, packets: int) -> Iterator[Options]:
        """Yields settings that change which processor polls which packets, if shares are uneven, and prepares their
        predictions."""
        queues = {each.place: each.queue for each in self.recording.own_instances()}
        if self.end == "delivered" and all(place in queues for place in self.recording.layout.on):
            yield from self.moved(queues, packets)
            yield from self.spread(queues, packets)

    def moved(self, queues: Mapping[Place, int | None], packets: int) -> Iterator[Options]:
        """Yields the setting that moves interrupts to idle processors."""
        recording, layout = self.recording, self.recording.layout
        interrupts = interrupts_of(recording.head, recording.device)
        chosen = layout.moved(self.machine.idle_processors())
        if chosen and all(queues[place] in interrupts for place in chosen):
            numbers = layout.numbers_on(chosen)
            self.add_layout(MOVED, [numbers[device] for device in layout.devices], packets)
            moved = {place: cpu for place, cpu in chosen.items() if set(layout.on[place]) != {cpu}}
            self.machine.interrupts = {interrupts[queues[place] or 0]: cpu for place, cpu in moved.items()}
            yield {**self.options, "layout": MOVED, "processors": len(set(chosen.values()))}

    def spread(self, queues: Mapping[Place, int | None], packets: int) -> Iterator[Options]:
        """Yields the setting that spreads packets over all queues."""
        known = sorted((queue, place) for place, queue in queues.items() if queue is not None)
        if [queue for queue, _ in known] != list(range(len(queues))):
            return
        if devices := self.recording.layout.spread([place for _, place in known]):
            self.add_layout(SPREAD, devices, packets)
            self.machine.queues = len(known)
            yield {**self.options, "layout": SPREAD}

    def add_layout(self, number: int, devices: Sequence[int], packets: int) -> None:
        """Adds the arrivals of a layout, in which each packet has one of these devices. All waits count in it but those
        of rare devices."""
        arrivals = predicting.arrivals_of(self.recording.seen.sent, devices)
        counts = Counter(devices)
        rare = max(counts.values()) / RARE
        majors = {device for device, count in counts.items() if count >= rare}
        self.predictions.layouts[number] = predicting.first_of(arrivals, packets).encode(), majors
        self.predictions.ratios = ()  # which processor would be how fast isn't known

    def unknown(self) -> Iterator[str]:
        """Yields what the card and the band of the goal's value leave open."""
        is_open = drivers.is_least_open(self.recording.head, self.recording.device)
        if is_open and self.choice and self.values["interrupts"] > (1 + ALIKE) * self.choice.tried[0][1]["interrupts"]:
            yield MORE
        name = predicting.name_of(self.words.goal, self.end)
        if name not in self.values or name not in self.measured or self.why_no_band:
            return
        low, high = self.predictions.band(name, self.best, self.values, self.sides)
        before, *ends = (told_value(name, each) for each in (self.measured[name], low, high))
        if high > VAGUE * low:
            yield f"{TOLD[name]} isn't known within a factor of {VAGUE}: from {' to '.join(ends)}"
        if self.best != self.options and low <= self.measured[name] <= high:
            yield f"today's {TOLD[name]}, {before}, is in the band of the advised setting: only --verify shows whether that is better"

    # ---- text for people

    def verdict(self) -> Iterator[str]:
        """Yields what to set, what that brings, how far to trust it, and the commands."""
        choice, options = self.choice, self.options
        if not choice or not choice.best:
            what = "nothing: no setting keeps to the limits" if choice else "nothing: there is no advice"
        elif self.best == options:
            what = f"nothing, since no setting is notably better for {self.goal_text()}"
        else:
            changed = [name for name in self.varied if self.best.get(name, 0) != options.get(name, 0)]
            what = named(self.best, changed, self.machine)
        yield f"set:    {what}"
        yield f"brings: {self.brings()}"
        reasons = [self.grade + self.why_grade().get(self.grade, "")]
        reasons += [self.why_no_band] * bool(choice and self.why_no_band) + self.limits
        yield f"trust:  {'; '.join(reasons)}"
        if choice and self.changes:
            yield "to set it, as root:"
            yield from (f"  {self.machine.line_of(change)}" for change in self.changes)

    def brings(self) -> str:
        """Describes the goal's value as recorded, or as predicted for the recorded setting, and with the advised setting."""
        goal = self.words.goal
        name = {"cpu": "kernel_percent", "drops": "lost"}.get(goal, f"{self.end}_{goal}")

        def told(values: Mapping[str, float]) -> str:
            return (
                f"{values[name]:.1f}" if goal == "cpu" else str(values[name]) if goal == "drops" else us(values[name])
            )

        unit = {"cpu": " %", "drops": " packets"}.get(goal, " us")
        recorded = {**self.measured, "lost": self.measured["dropped"]}
        now = f"{told(recorded)}{unit} recorded" if name in recorded else "not measured"
        if not (self.choice and self.choice.best):
            return f"{self.goal_text()}: {now}"
        if name not in recorded:
            now = f"{told(self.choice.tried[0][1])}{unit} now"
        ends = " to ".join(map(told, self.ends() or ()))
        return (
            f"{self.goal_text()}: {now}; predicted {told(self.values)}{unit}"
            + f", nine times of ten {ends}{unit}" * bool(ends)
        )

    def why_grade(self) -> dict[str, str]:
        """Returns for each grade of the fit what follows from it."""
        return {
            "good": ": the recorded setting is predicted well",
            "fair": ": trust differences between settings more than values",
            "unknown": f": {self.why_unknown()}",
            "poor": f": {self.worst()}",
        }

    def lines(self) -> Iterator[str]:
        seen, head = self.recording.seen, self.recording.head
        by = "a NAPI thread" if seen.is_by_thread else "softirqs"
        yield (
            f"recorded: {len(seen.sent)} packets to {shown(self.recording.device)}, {seen.dropped} dropped; {len(seen.ended)} polls of "
            f"{shown(self.recording.polled)} by {by} on processor {', '.join(map(str, self.processors))}; Linux {shown(head.get('kernel', '?'))}"
        )
        yield "costs:"
        yield from (f"  {shown(line)}" for line in self.told["text"])
        yield f"{'the recorded setting':36} {'measured':>12} {'predicted':>12}"
        yield from check_lines(self.check, self.measured["sent"])
        if self.check_on:
            yield from self.processor_lines()
        why = self.why_grade()[self.grade] if self.grade != "good" else ""
        yield f"the fit for {self.goal_text()} is {self.grade}{why}"
        for processor, others in self.others.items():
            if others:
                yield self.disturbed(others, f"processor {processor}")
        yield from self.blame
        if self.others_apart:
            yield self.disturbed(self.others_apart, f"processor {self.reads_on}, on which the program reads,")
        if self.choice:
            yield from self.advice_lines(self.choice)
        yield from (f"note: {note}" for note in self.notes)
        yield f"not modelled: {'; '.join(NOT_MODELLED)}"
        if not self.options.get("threaded"):
            yield "net.core.netdev_budget isn't tried: in the model, with one queue on a processor, it changes no latency, only how many runs are squeezed"

    def worst(self) -> str:
        """Describes the value that is predicted worst."""
        rows = {
            f" on processor {processor}": rows
            for processor, rows in self.check_on.items()
            if self.measured_on[processor]["sent"] >= FEWEST
        }
        worst = [(where, predicting.worst_of(some, self.judged)) for where, some in {"": self.check, **rows}.items()]
        found = [(row, where) for where, row in worst if row]
        if not found:
            return "nothing was measured"
        row, where = max(found, key=lambda each: predicting.judged_error(each[0]))
        return f"{TOLD[row[0]]}{where}: {row[3]:+.0f} %"

    def processor_lines(self) -> Iterator[str]:
        """Yields a table of what was measured and predicted on each processor, and which one limits."""
        shares = self.recording.layout.shares()
        heading = ["processor", "packets", "polls", "predicted", "p50 us", "predicted", "p99 us", "predicted"]
        lines = [heading]
        for processor, rows in self.check_on.items():
            values = {name: (told_value(name, measured), told_value(name, value)) for name, measured, value, _ in rows}
            names = ("polls", "delivered_p50", "delivered_p99")
            cells = [each for name in names for each in values.get(name, ("-", "-"))]
            lines.append([str(processor), f"{100 * shares[processor]:.0f} %", *cells])
        yield from (f"  {line}" for line in aligned(lines, 0))
        waits = {
            each: values["delivered_p99"] for each, values in self.measured_on.items() if "delivered_p99" in values
        }
        if len(waits) > 1:
            most = max(waits, key=lambda each: waits[each])
            rest = max(wait for each, wait in waits.items() if each != most)
            yield (
                f"processor {most} limits: it has {100 * shares[most]:.0f} % of the packets and a 99th percentile of {us(waits[most])} us; "
                f"the others have up to {us(rest)} us"
            )
            if self.recording.layout.is_uneven(len(shares)):
                yield "more queues (ethtool -L) and RPS (rps_cpus) may make shares even too; what they change isn't predicted"

    @staticmethod
    def disturbed(others: Mapping[str, float], where: str) -> str:
        """Describes which other tasks ran on a processor."""
        tasks = ", ".join(f"{shown(name)} {100 * share:.0f} %" for name, share in list(others.items())[:4])
        return f"other tasks used {where} too ({tasks}): the prediction assumes a processor without other tasks, because packets may wait for these"

    def advice_lines(self, choice: Choice) -> Iterator[str]:
        if not self.why_no_band:
            yield f"costs may be {self.doubt.percent} % lower or higher (--band {self.doubt.percent} of what-if)"
        count = len(choice.tried)
        yield f"{count} setting{'s' * (count > 1)} on {self.packets} packets, the best for {self.goal_text()} first:"
        alike: dict[tuple[str, ...], list[Options]] = {}
        for options, values in choice.order:
            alike.setdefault(tuple(columns_of(values, self.end)), []).append(options)
        rows = [[several(each, self.varied, self.machine), *cells] for cells, each in list(alike.items())[:SHOWN]]
        yield from table(rows, "setting")
        if not choice.best:
            yield "no setting keeps to the limits"
            return
        if self.best == self.options:
            yield f"advice: change nothing, since no setting is notably better for {self.goal_text()}"
        else:
            yield f"advice: {named(self.best, self.varied, self.machine)}"
        rows = [["now", *columns_of(choice.tried[0][1], self.end)], ["advised", *columns_of(self.values, self.end)]]
        if found := self.ends():
            ends = zip(*(columns_of(values, self.end) for values in found))
            rows.append(["nine times of ten", *(low if low == high else f"{low} to {high}" for low, high in ends)])
        yield from table(rows, "")
        if self.why_no_band:
            yield self.why_no_band

    # ---- for a program

    def object(self) -> dict[str, Any]:
        seen = self.recording.seen
        options = settings_of(self.costs, self.options)
        told = {
            "recording": str(self.recording.path),
            "device": self.recording.device,
            "polled": self.recording.polled,
            "processor": seen.processor,
            "processors": [
                {
                    "processor": each,
                    "share": round(share, 5),
                    "check": objects_in(self.check_on.get(each, []), self.measured_on[each]["sent"]),
                }
                for each, share in self.recording.layout.shares().items()
            ],
            "threaded": int(seen.is_by_thread),
            "packets": len(seen.sent),
            "kernel": self.recording.head.get("kernel"),
            "costs": self.told["costs"],
            "options": as_keys(options),
            "words": " ".join(option_words(options)),
            "goal": self.words.goal,
            "wait": "use" if self.end == "used" else "delivery",
            "check": objects_in(self.check, self.measured["sent"]),
            "fit": self.grade,
            "costs_doubt_percent": None if self.why_no_band else self.doubt.percent,
            "stolen": self.told["stolen"],
            "other_tasks": as_rows("task", "share", self.others[seen.processor]),
            "blame": self.blame,
            "other_tasks_of_program": as_rows("task", "share", self.others_apart),
            "notes": self.notes,
            "not_modelled": list(NOT_MODELLED),
            "now": None,
            "advised": None,
            "set": [],
            "tried": [],
        }
        return {**told, **(self.object_of_choice(self.choice) if self.choice else {})}

    def object_of_choice(self, choice: Choice) -> dict[str, Any]:
        """Returns what was tried and advised."""
        tried = [{"options": as_keys(options), "values": values} for options, values in choice.order]
        told: dict[str, Any] = {"now": choice.tried[0][1], "tried": tried}
        if choice.best:
            low, high = self.ends() or (None, None)
            told["advised"] = {"options": as_keys(self.best), "values": self.values, "low": low, "high": high}
            told["set"] = [self.machine.line_of(change) for change in self.changes]
        return told


# ---- verify


def verified(advice: Advice) -> tuple[list[Compared], float, Verdict, list[dict[str, str]]]:
    """Records today's settings and the advised ones, or those of --set. Returns what one recording of the latter measured, with what is
    predicted for its packets, its number of packets, the verdict, and what is kept."""
    head, words, machine = advice.recording.head, advice.words, advice.machine
    what = OWN if words.set else verifying.ADVISED
    changes = verifying.asked_changes(machine, words.set) if words.set else advice.changes
    today, changed = verifying.record_in_turn(head, words, machine, changes, what)
    name = predicting.name_of(words.goal, advice.end)
    before, after = (
        [(measured, each) for each in some if name in (measured := advice.measured_in(each))]
        for some in (today, changed)
    )
    after.sort(key=lambda pair: pair[0][name])
    measured, middle = after[len(after) // 2] if after else (advice.measured_in(changed[0]), changed[0])
    predictions = advice.predictions.on_others(arrivals_in(middle, words)[0], middle.layout.major())
    processors = len(middle.layout.processors)
    own = options_of(middle.head, middle.device, advice.told["apart"]) if words.set else advice.best
    options = {**own, "processors": processors, "layout": 0}
    values = predictions.of(options)
    shares = (stolen.shares_in(each.head, Counter(each.seen.on)) for each in (*today, *changed))
    why_no_band = advice.why_no_band or stolen.without_band(stolen.most_in(shares))
    band = None if why_no_band else predictions.band(name, options, values, predictions.sides_of(options))
    of_goal = [[each[name] for each, _ in some] for some in (before, after)]
    verdict = Verdict(name, of_goal[0], of_goal[1], values[name], band, why_no_band)
    verdict.what = what
    kept = keeping.keep(machine, changes) if words.keep and verdict.judgement() == "better" else []
    return advice.compared(measured, values), measured["sent"], verdict, kept


def print_verified(advice: Advice) -> str:
    """Verifies the advice, if that is asked for, and prints the result; as JSON with the advice. Returns what failed if it
    should have made the goal's value lower, and didn't, else nothing. Within limits that the recorded setting exceeds, the
    value may have to rise."""
    choice, told = advice.choice, dict[str, Any](verified=None, verdict=None, kept=[])
    is_advised = bool(choice and choice.best and advice.changes)
    if not (advice.words.verify and (is_advised or advice.words.set)):
        if advice.words.verify and choice and choice.best:
            say("--verify recorded nothing, because the advice changes nothing")
        write_json(advice.words.json, "advise", [{**advice.object(), **told}])
        return ""
    rows, packets, verdict, kept = verified(advice)
    told = {"verified": objects_in(rows, packets), "verdict": verdict.object(), "kept": kept}
    write_json(advice.words.json, "advise", [{**advice.object(), **told}])
    if not is_printed(advice.words.json):
        heading = f"{verdict.what:36} {'measured':>12} {'predicted':>12}"
        tell(heading, *check_lines(rows, packets), *verdict.lines(), *keeping.lines_of(kept))
    is_promised = choice and choice.best and choice.value(choice.best[1]) < choice.value(choice.tried[0][1])
    return verdict.failure() if is_promised or advice.words.set else ""


# ---- words


def add_options(parser: Parser) -> None:
    parser.add_argument("recording", help="a file of fintaqush record")
    parser.add_argument("--goal", choices=list(GOALS), default="p99", help="what should be low (p99)")
    parser.number("--max-drops", 0, 10**9, None, "only settings with at most N drops (as many as now)")
    what = "only settings whose 99th percentile is at most this, in us"
    parser.add_argument("--p99-below", type=number(1, 10**9), metavar="US", help=what)
    parser.add_argument(
        "--wait", choices=("use", "delivery"), default="use", help="where a wait ends, if the program is recorded (use)"
    )
    parser.add_argument("--device", metavar="NAME", help="one of several recorded devices")
    what = "a capture that was made at the card during the recording, whose packets are the arrivals"
    parser.add_argument("--capture", metavar="FILE", help=what)
    parser.number("--packets", 100, 10**8, 30000, "try settings on at most this many packets (30000)")
    parser.flag("--verify", "set the advised setting, record again, compare and restore")
    parser.flag("--keep", "with --verify: leave what was better in all recordings, also after a reboot")
    what = (
        "with --verify, this change instead of the advised one, as net.core.netdev_budget=600; may be given many times"
    )
    parser.many("--set", "NAME=VALUE", what, type=verifying.asked)
    parser.flag("--explain", "print the costs, the fit, all settings and notes too")
    add_json(parser)
    times = [name for name, (unit, _) in predicting.MEASURED.items() if unit == "us"]
    add_fail_if(parser, ["p99", *predicting.PARTS, *predicting.MEASURED], ["p99", *predicting.PARTS, *times])
    add_binary(parser, "napi_machine")


def main(given: Sequence[str]) -> int:
    words = words_of(__doc__, add_options, given)
    check_regular(words.recording, "it is read more than once, so it has to be a regular file")
    if words.capture and words.verify:
        words.error("--verify records again, which a capture of before doesn't fit")
    if words.set and not words.verify:
        words.error("--set goes with --verify, which sets it, records and restores")
    if words.keep and not words.verify:
        words.error("--keep goes with --verify: it leaves what was better")
    try:
        with uncollected():
            advice = Advice(words)
    except Refusal as error:
        raise Refusal(f"{shown(words.recording)}: {error}") from None
    if not is_printed(words.json):
        more = (
            advice.lines()
            if words.explain
            else [*advice.blame, "--explain prints the costs, the fit, all settings and notes"]
        )
        tell(*advice.verdict(), *more)
    failure = print_verified(advice)
    if advice.grade not in ADVISED and not words.set:
        raise Refusal(f"{shown(words.recording)}: {advice.why_none()}")
    if failure:
        raise Refusal(failure)
    if not (words.set or advice.choice and advice.choice.best):
        return 1
    waits = {each: advice.measured.get(f"{advice.end}_{each}", 0) for each in predicting.PARTS}
    return status_of(words.fail_if, [("", {**advice.measured, **waits})])
