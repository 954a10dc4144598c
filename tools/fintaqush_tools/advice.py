"""The settings of a recorded machine, the alternatives, and the commands that apply them: for tools/advise."""

from __future__ import annotations

import contextlib
import itertools
import os
import re
from collections.abc import Iterator, Mapping, Sequence
from dataclasses import dataclass
from typing import Any

from fintaqush_tools import drivers, observed
from fintaqush_tools.choosing import timeout_of
from fintaqush_tools.errors import Refusal
from fintaqush_tools.machine import OPTIONS
from fintaqush_tools.processes import ran
from fintaqush_tools.recording import BACKLOG, Head, number_in
from fintaqush_tools.texts import argument, shown

VETH_RING = 256  # entries of veth's ring, which ethtool doesn't report
SOCKET = 65536  # packets: a recording doesn't have the socket buffer's size in packets, so this holds all
FLUSHES = (0, 20_000, 50_000, 100_000, 200_000, 500_000)  # ns
DEFERRALS = 2
COALESCED = (0, 10, 25, 50, 100)  # us
COALESCING = ("rx-nsecs", "rx-gap")  # the options that rx-usecs sets
LARGER = (1, 2, 4, 8, 16)
NOT_MODELLED = (
    "GRO's merging of packets",
    "the scheduler's choice among tasks, and hypervisors",
    "busy polling",
    "RPS after a device's own polls",
    "adaptive coalescing",
)
MOVED, SPREAD = 1, 2  # layouts: interrupts on other processors; an equal part of the hashes for each queue
IDLE = 0.8  # least share of the time in which a processor for the program was idle
COMM = 15  # characters of a task's name that the kernel keeps
WRITE = 'echo "$3" > "/sys/class/net/$1/$2"'  # device and value are arguments of the shell, never part of the command


def within_range(option: str, value: int) -> int:
    low, high, _ = OPTIONS[option]
    return max(low, min(high, value))


def usecs_of(time: int) -> int:
    """Returns the rx-usecs that set a time of the machine, in ns: some drivers set it only approximately."""
    return (time + 500) // 1000


def options_of(head: Head, device: str, is_apart: int, processors: int = 1) -> dict[str, int]:
    """Returns napi_machine's options for the recorded settings, with this number of processors that poll."""

    def of_core(name: str, default: int) -> int:
        return number_in(head, f"sysctl.net.core.{name}", default)

    def of_device(name: str, default: int) -> int:
        return number_in(head, f"device.{device}.{name}", default)

    options = {
        "budget": of_core("netdev_budget", 300),
        "time-limit": 1000 * of_core("netdev_budget_usecs", 8000),
        "socket": SOCKET,
        "apart": is_apart,
        "processors": processors,
    }
    if head.get("polled") == BACKLOG:
        options.update(
            backlog=1,
            ring=of_core("netdev_max_backlog", 1000) + 1,
            weight=of_core("dev_weight", 64) * of_core("dev_weight_rx_bias", 1),
        )
    else:
        options.update(
            {
                "ring": of_device("ethtool.ring.rx", VETH_RING) - drivers.spare_of(head, device),
                "defer-hard-irqs": of_device("napi_defer_hard_irqs", 0),
                "gro-flush-timeout": of_device("gro_flush_timeout", 0),
                "threaded": min(1, of_device("threaded", 0)),
            }
        )
        timer = {
            "rx-nsecs": 1000 * drivers.usecs_in(head, device),
            "rx-frames": of_device("ethtool.coalesce.rx-frames", 0),
        }
        own = {**timer, **drivers.options_of(head, device)}
        options.update({name: value for name, value in own.items() if name in OPTIONS})
    return {name: within_range(name, value) for name, value in options.items()}


def unmodelled_in(head: Head, device: str) -> Iterator[str]:
    """Yields the settings of the recorded machine that the model doesn't have."""
    if number_in(head, "sysctl.net.core.busy_read") or number_in(head, "sysctl.net.core.busy_poll"):
        yield "busy polling is on (net.core.busy_read, busy_poll)"
    if head.get(f"device.{device}.ethtool.coalesce.adaptive-rx") == "on":
        yield "adaptive coalescing is on (ethtool -C adaptive-rx)"
    own = drivers.options_of(head, device) if head.get("polled") != BACKLOG else {}
    if lacking := [f"--{name} {value}" for name, value in own.items() if value and name not in OPTIONS]:
        yield f"this napi_machine lacks {' '.join(lacking)} of {drivers.name_in(head, device)}"
    if head.get("polled", "").split() == [device] and re.search(
        "[1-9a-f]", head.get(f"device.{device}.rx-0.rps_cpus", "0")
    ):
        yield "RPS moves packets on after these polls (rps_cpus)"


def rings_of(head: Head, device: str, options: Mapping[str, int]) -> list[int]:
    """Returns the sizes of ring or backlog that can be set."""
    more = -1 if options.get("backlog") else drivers.spare_of(head, device)  # than packets, in the setting
    now = options["ring"] + more
    most = (
        OPTIONS["ring"][1] if options.get("backlog") else number_in(head, f"device.{device}.ethtool.ring.most.rx", now)
    )
    return sorted({within_range("ring", min(most, now * times) - more) for times in LARGER})


def candidates(
    head: Head, device: str, options: dict[str, int], has_program: bool, has_timer: bool, is_sent_here: bool = False
) -> list[dict[str, int]]:
    """Returns all settings to try, the recorded one first. Deferral is compared with none only if a timer's cost is known.
    `is_sent_here` is whether the processor that polls sends the packets."""
    places: list[dict[str, int]] = [{}, {"apart": 0}, {"apart": 1}] if has_program else [{}]
    rings: list[dict[str, int]] = [{}, *({"ring": ring} for ring in rings_of(head, device, options))]
    tried = [options]
    for changes in itertools.product(*of_interrupts(head, device, options, is_sent_here), places, rings):
        chosen = {**options, **{name: value for change in changes for name, value in change.items()}}
        is_both = chosen.get("gro-flush-timeout") and any(
            chosen.get(name) and chosen[name] != options.get(name) for name in COALESCING
        )
        is_known = has_timer or bool(timeout_of(chosen)) == bool(timeout_of(options))
        if chosen not in tried and not is_both and is_known:
            tried.append(chosen)
    return tried


def has_deferral(head: Head, device: str, options: Mapping[str, int]) -> bool:
    """Returns whether deferral can be set; a backlog has none."""
    attributes = {f"device.{device}.napi_defer_hard_irqs", f"device.{device}.gro_flush_timeout"}
    return not options.get("backlog") and attributes <= head.keys()


def of_interrupts(
    head: Head, device: str, options: Mapping[str, int], is_sent_here: bool
) -> list[list[dict[str, int]]]:
    """Returns the settings of deferral, of coalescing and of threads to try; a backlog has none."""
    deferrals: list[dict[str, int]] = [{}]
    coalescing: list[dict[str, int]] = [{}]
    threads: list[dict[str, int]] = [{}]
    if not options.get("backlog"):
        if has_deferral(head, device, options):
            deferrals += [
                {"defer-hard-irqs": DEFERRALS if flush else 0, "gro-flush-timeout": flush} for flush in FLUSHES
            ]
        if f"device.{device}.threaded" in head and options.get("processors", 1) == 1:
            # Without a thread a veth pair's sender polls, on its own processor; then what waking a thread takes isn't known.
            stays = is_sent_here or head.get("sender") and options["threaded"]
            threads += [] if stays else [{"threaded": 0}, {"threaded": 1}]
        if (
            f"device.{device}.ethtool.coalesce.rx-usecs" in head
            and head.get(f"device.{device}.ethtool.coalesce.adaptive-rx") != "on"
        ):
            coalescing += [
                each for each in drivers.coalescing_of(head, device, COALESCED) if each.keys() <= OPTIONS.keys()
            ]
    return [deferrals, coalescing, threads]


def interrupts_of(head: Head, device: str) -> dict[int, str]:
    """Returns the interrupt of each queue that receives, by their names, as eth0-TxRx-3, virtio0-input.3 or
    mlx5_comp3@pci:.."""
    found = {}
    for number, name in drivers.interrupts_in(head, device).items():
        if queue := re.search(r"(?:rx|input|comp)[^0-9]*([0-9]{1,9})", name, re.I):
            found[int(queue[1])] = number
    return found


# ---- how settings are applied


def pinned(name: str, end: str, option: str, processor: int | str) -> str:
    """Returns the shell command that pins tasks to a processor: the one of this number, or those whose name begins so, or with `$` is so."""
    if name.isdigit():
        return f"taskset {option} {processor} {name}"
    pattern = "^" + re.sub(r"[][\\.*^$+?(){}|]", r"\\\g<0>", name[:COMM]) + end
    return f"for task in $(pgrep {argument(pattern)}); do taskset {option} {processor} $task; done"


def pinning(head: Head, device: str, polls_on: int, processor: int) -> str:
    """Says how to keep a device's interrupts on the processor that polls, and the program on another one; nothing if the head has neither."""
    lines = [f"echo {polls_on} > /proc/irq/{irq}/smp_affinity_list" for irq in drivers.interrupts_in(head, device)]
    what = ["the interrupts"] * bool(lines)
    if head.get("program"):
        what.insert(0, "the program")
        lines.insert(0, pinned(head["program"], "$", "-apc", processor))
    return f"pin {' and '.join(what)} ({'; '.join(lines)})" if lines else ""


def thread_of(device: str) -> str:
    """Returns the prefix of the names of a device's NAPI threads."""
    return f"napi/{device}-"[:COMM]


@dataclass
class Change:
    """One change of a setting; `kind` is sysctl, sysfs, ring, coalesce, threads, table, irq or program."""

    kind: str
    name: str
    value: Any
    before: Any


class Machine:
    """The machine that was recorded, if it is this one."""

    def __init__(self, head: Head, device: str, processor: int | None, idle: Mapping[int, float] | None = None) -> None:
        """`idle` has the share of the recording in which each processor was idle."""
        self.head, self.device, self.netns, self.processor = head, device, head.get("netns", ""), processor
        self.idle, self.spare = dict(idle or {}), drivers.spare_of(head, device)
        self.pids = [int(each) for each in head.get("program.pids", "").split()]
        self.interrupts: dict[str, int] = {}  # the processor of each interrupt with layout MOVED
        self.queues = 0  # that have packets with layout SPREAD

    def usecs_in(self, options: Mapping[str, int], name: str) -> int:
        """Returns the rx-usecs of a setting, of which `name` is the time: the recorded one if that time is as recorded, because a mode sets it too."""
        is_recorded = drivers.options_of(self.head, self.device).get(name) == options.get(name, 0)
        return drivers.usecs_in(self.head, self.device) if is_recorded else usecs_of(options.get(name, 0))

    def idle_processors(self) -> list[int]:
        """Returns the processors that were nearly always idle, the one that was for longest first."""
        return [number for number, share in sorted(self.idle.items(), key=lambda pair: -pair[1]) if share >= IDLE]

    def other_processor(self) -> int | None:
        """Returns a processor for the program, other than the one that polls: the one that was idle for longest, if that is nearly always."""
        others = [(share, number) for number, share in self.idle.items() if number != self.processor and share >= IDLE]
        return max(others)[1] if others else None

    def changes(self, chosen: Mapping[str, int], now: Mapping[str, int]) -> list[Change]:
        """Returns the changes that lead to the chosen setting, in an order in which the kernel accepts them."""

        def is_new(name: str) -> bool:
            return chosen.get(name) != now.get(name)

        changes = []
        for name in ("napi_defer_hard_irqs", "gro_flush_timeout", "threaded"):
            option = name.removeprefix("napi_").replace("_", "-")
            if is_new(option):
                changes.append(Change("sysfs", name, chosen[option], now[option]))
        if is_new("threaded") and chosen["threaded"]:
            changes.append(Change("threads", self.device, self.processor, None))
        if is_new("ring") and chosen.get("backlog"):
            changes.append(Change("sysctl", "netdev_max_backlog", chosen["ring"] - 1, now["ring"] - 1))
        elif is_new("ring"):
            changes.append(Change("ring", "rx", chosen["ring"] + self.spare, now["ring"] + self.spare))
        for name in filter(is_new, COALESCING):
            usecs = drivers.usecs_in(self.head, self.device)
            changes.append(Change("coalesce", "rx-usecs", self.usecs_in(chosen, name), usecs))
        if chosen.get("layout") == SPREAD:
            changes.append(Change("table", "equal", self.queues, None))
        if chosen.get("layout") == MOVED:
            for irq, processor in self.interrupts.items():
                before = self.head.get(f"device.{self.device}.irq.{irq}.smp_affinity_list", "")
                changes.append(Change("irq", irq, processor, before))
        if is_new("apart"):
            changes.append(
                Change(
                    "program",
                    self.head.get("program", ""),
                    self.other_processor() if chosen["apart"] else self.processor,
                    None,
                )
            )
        return changes

    def notes_on(self, changes: Sequence[Change]) -> Iterator[str]:
        """Yields notes on what the commands don't show."""
        for change in changes:
            if change.kind == "irq" and change is changes[-1]:
                yield "irqbalance may move these interrupts back, if it runs"
            elif change.kind == "threads":
                yield f"the thread is pinned to processor {change.value}, which polls now; any other one that does nothing else is as good"
                yield "what waking the thread takes isn't in the recording, so waits may be some us longer than predicted"
            elif change.kind == "sysfs" and change.name == "threaded" and not change.value:
                yield "without a thread the processor polls that takes the interrupt, or on which a veth pair's sender runs"
            elif change.kind == "program" and change.value != self.processor:
                yield (
                    f"processor {change.value} was idle for {100 * self.idle.get(change.value, 0):.0f} % of the recording; what waking the program there takes "
                    "isn't in the recording unless it was apart"
                )

    def line_of(self, change: Change) -> str:
        """Returns the shell command for a change."""
        front = f"ip netns exec {argument(self.netns)} " if self.netns else ""
        device, value = argument(self.device), change.value
        written = f"echo {value} > {argument(f'/sys/class/net/{self.device}/{change.name}')}"
        return {
            "sysctl": f"sysctl -w net.core.{change.name}={value}",
            "sysfs": f"{front}sh -c {argument(written)}" if front else written,
            "threads": pinned(thread_of(self.device), "", "-pc", value),
            "table": f"{front}ethtool -X {device} {change.name} {value}",
            "irq": f"echo {value} > /proc/irq/{change.name}/smp_affinity_list",
            "ring": f"{front}ethtool -G {device} rx {value}",
            "coalesce": f"{front}ethtool -C {device} rx-usecs {value}",
            "program": pinned(change.name, "$", "-apc", value),
        }[change.kind]

    def apply(self, change: Change, value: object) -> None:
        """Applies a change on this machine."""
        within = observed.within(self.netns)
        if change.kind in ("sysctl", "irq"):
            path = f"sys/net/core/{change.name}" if change.kind == "sysctl" else f"irq/{change.name}/smp_affinity_list"
            with open(f"/proc/{path}", "w", encoding="ascii") as file:
                file.write(f"{value}\n")
        elif change.kind == "sysfs":
            self.run([*within, "sh", "-c", WRITE, "sh", self.device, change.name, str(value)])
        elif change.kind == "table":
            raise Refusal("--verify doesn't change the card's table of hashes, because it couldn't restore it")
        elif change.kind in ("ring", "coalesce"):
            self.run(
                [*within, "ethtool", "-G" if change.kind == "ring" else "-C", self.device, change.name, str(value)]
            )

    @staticmethod
    def run(command: Sequence[str]) -> None:
        status, _, said = ran(command)
        if status != 0:
            raise Refusal(f"{shown(' '.join(command))[:120]}: {shown(said.decode('utf-8', 'replace').strip())[:200]}")

    def move(self, change: Change, before: dict[int, set[int]]) -> None:
        """Pins tasks to a processor; `before` gets the processors that each task was allowed on."""
        if change.kind == "threads":
            tasks = [task for task, _ in observed.tasks_named(lambda name: name.startswith(thread_of(change.name)))]
        else:
            tasks = [
                int(task)
                for pid in self.pids
                if os.path.isdir(f"/proc/{pid}/task")
                for task in os.listdir(f"/proc/{pid}/task")
            ]
        for task in tasks:
            with contextlib.suppress(ProcessLookupError):
                before[task] = os.sched_getaffinity(task)
                os.sched_setaffinity(task, {change.value})

    @staticmethod
    def move_back(before: Mapping[int, set[int]]) -> None:
        for task, processors in before.items():
            with contextlib.suppress(OSError):
                os.sched_setaffinity(task, processors)

    def make(self, change: Change, undo: contextlib.ExitStack) -> dict[int, set[int]]:
        """Makes a change that `undo` takes back. Returns the processors that each task which it moved was allowed on."""
        before: dict[int, set[int]] = {}
        if change.kind in ("threads", "program"):
            undo.callback(self.move_back, before)
            self.move(change, before)
        else:
            undo.callback(self.apply, change, change.before)
            self.apply(change, change.value)
        return before

    @contextlib.contextmanager
    def with_changes(self, changes: Sequence[Change]) -> Iterator[None]:
        """Makes all changes, and restores the old values at the end, also after a failure or a signal."""
        with contextlib.ExitStack() as undo:
            for change in changes:
                self.make(change, undo)
            yield
