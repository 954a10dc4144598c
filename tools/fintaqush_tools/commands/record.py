"""Records how the running Linux receives packets, with all settings and counters, in one file that the other tools read. Needs root.

    fintaqush record 5 --device eth0 --out mine.rec
    fintaqush record 5 --device vb1 --netns receiver --program server --out mine.rec
    fintaqush record 60 --device eth0 --window 50ms/1s --out mine.rec
    fintaqush record 10 --device eth0 --probe --out mine.rec
    fintaqush costs mine.rec

It records polls, the NET_RX softirq, interrupts, task switches, NAPI's timers and sent packets, in an ftrace instance of its own; with
--program also the reads of a program, which runs unmodified. A sent packet is an arrival at the other end of a veth pair, which is found
automatically or named by --sender. For any other device it records the packets that polls take (napi_gro_receive_entry, netif_receive_skb). The
kernel has no event for their arrival at the card, so waits before the interrupt are unknown; a capture with the card's timestamps has them.

The head of FILE has a `key value` line for each setting, counter and NAPI instance; after a line `pages` follow the pages of the kernel's buffers
(docs/FORMATS.md). A buffer that is half full is emptied while it records, so a recording may have any length; the last line says how much
processor time that took. Buffers that hold the whole recording (--buffer) are emptied after it, so that nothing disturbs what is recorded. Ctrl-C
ends the recording early and keeps what came until then; so do SIGTERM and SIGHUP. If a buffer is nearly full, recording stops early too: the last
line says which --buffer holds the whole time, and the exit status is 1. If the kernel loses events, no file is written.

--window 50ms/1s records 50 ms of each second, for high rates and long times: counters count as if they had risen evenly.

--twice records for the time, waits as long, and records again. The bands of advise are then at least as wide as the two differ.

--probe sets napi_defer_hard_irqs 2 and gro_flush_timeout 100000 on the devices in the second half of the time. The recording is that of the first
half; from the second one costs and advise take what NAPI's timer costs, so that advise can compare deferral with none. What was set is restored,
also if the tool is killed.

All changes in the kernel are undone.
"""

from __future__ import annotations

import contextlib
import errno
import math
import os
import re
import subprocess
import time
from array import array
from collections import Counter
from collections.abc import Callable, Iterator, Mapping, Sequence
from typing import IO, Any

from fintaqush_tools import observed, stolen
from fintaqush_tools.advice import Change, Machine
from fintaqush_tools.arriving import BY_PAIR, BY_STACK, KINDS
from fintaqush_tools.errors import Interrupted, Refusal, Signals, unfinished, unlink
from fintaqush_tools.files import WholeFile, check_target
from fintaqush_tools.instances import Instances, Routes, described
from fintaqush_tools.options import Parser, Words, number, words_of, wrong
from fintaqush_tools.processes import ran
from fintaqush_tools.progress import Progress, say, tell
from fintaqush_tools.recording import BACKLOG, POLLED, PROBE, PROGRAM_NAME, SENT, Event, Look, Pages, Reader, fields_by
from fintaqush_tools.ring_buffer import INDEX, Layout, Page, stamp_of
from fintaqush_tools.texts import is_number, shown
from fintaqush_tools.tracing import MEGABYTE, Instance, Sources, mount_tracefs

HALF, FULL = 0.5, 0.8  # shares of a buffer above which it is emptied, and above which a recording ends
FASTEST = 100 * MEGABYTE  # bytes of events that a processor records in a second, at most
SOON = 0.02  # seconds at least between checks of buffers that aren't being emptied
FULL_DISK = {errno.ENOSPC, errno.EDQUOT, errno.EFBIG}
AT_ONCE = 64  # pages of a processor that are read at once
TAKEN = fields_by(r"dev=(\S+) (?:napi_id=0x([0-9a-f]{1,8}) queue_mapping=(\d{1,9}) )?")


def processors(text: str) -> set[int]:
    """Parses a list of processors, as 2,3 or 0-3."""
    chosen: set[int] = set()
    for part in text.split(","):
        found = re.fullmatch(r"(\d{1,4})(?:-(\d{1,4}))?", part)
        if not found or int(found[2] or found[1]) < int(found[1]):
            raise wrong(text, "a list of processors as 2,3 or 0-3")
        chosen.update(range(int(found[1]), int(found[2] or found[1]) + 1))
    return chosen


def window(text: str) -> tuple[float, float]:
    """Parses a part of each period, in seconds, as 50ms/1s."""
    found = re.fullmatch(r"(\d{1,6})(us|ms|s)/(\d{1,6})(us|ms|s)", text)
    units = {"us": 1e-6, "ms": 1e-3, "s": 1}
    part, period = (int(found[1]) * units[found[2]], int(found[3]) * units[found[4]]) if found else (0, 0)
    if not 0.001 <= part < period <= 60:
        raise wrong(text, "a part of at least 1ms of a period of at most 60s, as 50ms/1s")
    return part, period


def program_filter(named: str) -> tuple[str, list[int]]:
    """Returns the filter for the events of a program, and its process numbers."""
    if named.isdigit():
        if not os.path.isdir(f"/proc/{named}/task"):
            raise Refusal(f"--program {named}: there is no such process")
        threads = sorted(map(int, os.listdir(f"/proc/{named}/task")))
        if len(threads) <= 24:
            return " || ".join(f"common_pid == {thread}" for thread in threads), [int(named)]
        named = observed.text_in(f"/proc/{named}/comm")
    if not re.fullmatch(PROGRAM_NAME, named):
        what = "a name of printable ASCII characters without quotes, or a process's number"
        raise Refusal(f"--program {shown(named)}: {what}")
    return f'comm == "{named[:15]}"', [pid for pid, _ in sorted(observed.tasks_named(lambda name: name == named[:15]))]


def most_memory() -> int:
    """Returns how many MB each processor's buffer may have: together at most half of the free memory."""
    free = [int(line.split()[1]) for line in observed.lines_in_proc("meminfo") if line.startswith("MemAvailable:")]
    return sum(free) // 1024 // 2 // (os.cpu_count() or 1)


def check_memory(megabytes: int) -> None:
    if megabytes > most_memory():
        why = f"{os.cpu_count()} processors with so many MB each take more than half of the free memory"
        raise Refusal(f"--buffer {megabytes}: {why}; at most {most_memory()}")


def advice_on_buffer(words: Words, took: float, most: int) -> str:
    """Returns what to change so that a recording isn't ended by a full buffer; `most` is the largest --buffer that this machine allows."""
    # It ended before its buffer was full, which leaves some room.
    needed = math.ceil(words.buffer * words.seconds / took)
    if needed <= most:
        return f"record again with --buffer {needed}"
    fits = int(most * took / words.buffer)
    why = f"{words.seconds} s would need --buffer {needed}, and this machine has memory for {most}"
    what = f"record for {fits} s with --buffer {most}, or" if fits else "record"
    return f"{why}: {what} fewer processors (--processors), or less traffic"


class Buffers:
    """The pages of the processors' buffers, which are moved to a file, and their index."""

    def __init__(self, pipes: Mapping[int, int], layout: Layout, file: IO[bytes]) -> None:
        self.pipes, self.layout, self.file = pipes, layout, file
        self.stamps, self.places, self.bytes, self.size = array("Q"), array("Q"), 0, os.sysconf("SC_PAGESIZE")

    def is_drained(self) -> bool:
        """Moves some pages of each processor, and no signal loses one. Returns whether all buffers were empty then."""
        Signals.defer()
        try:
            return not any([self.moved(cpu, pipe) == AT_ONCE for cpu, pipe in self.pipes.items()])
        finally:
            Signals.resume()

    def moved(self, cpu: int, pipe: int) -> int:
        """Moves some pages of a processor, and returns how many."""
        for count in range(AT_ONCE):
            try:
                page = os.read(pipe, self.size)
            except BlockingIOError:
                page = b""
            if not page:
                return count
            used = page[: self.layout.used(page)]
            self.stamps.append(stamp_of(page))
            self.places.append(self.bytes)
            self.bytes += self.file.write(INDEX.pack(cpu, len(used)) + used)
        return AT_ONCE

    def in_order(self) -> Iterator[bytes]:
        """Yields the pages in the order of their times, each with what is before it in the file."""
        self.file.flush()
        ends = [*self.places[1:], self.bytes]
        for place in sorted(range(len(self.stamps)), key=self.stamps.__getitem__):
            begin = self.places[place]
            yield os.pread(self.file.fileno(), ends[place] - begin, begin)

    def pages(self) -> Iterator[Page]:
        for page in self.in_order():
            yield INDEX.unpack_from(page)[0], page[INDEX.size :]


def wait(instance: Instance, words: Words, until: float, drain: Callable[[], bool]) -> bool:
    """Waits for the end of the recording, or of its window. It sleeps as long as no buffer can become half full, because its work would delay what
    is recorded; then it empties them. Returns whether it ended early because one was nearly full nevertheless."""
    size = words.buffer * MEGABYTE
    while (now := time.monotonic()) < until:
        fullest = max(each for each, *_ in instance.statistics())
        if fullest > FULL * size:
            return True
        if fullest > HALF * size:
            look_again = min(until, now + (size - fullest) / FASTEST)
            while time.monotonic() < look_again and not drain():
                pass
        else:
            time.sleep(min(until - now, max(SOON, (HALF * size - fullest) / FASTEST)))
    return False


class Windows(list[tuple[int, int]]):
    """When events were recorded, in ns: in all of the time, or with --window in a part of each period. `tell` is called when the first one has begun."""

    def __init__(self, tell: Callable[[], None] = lambda: None) -> None:
        super().__init__()
        self.tell = tell

    def record(self, instance: Instance, words: Words, seconds: float, drain: Callable[[], bool]) -> bool:
        """Records for some seconds from the begin of the first window. Returns whether it ended early because a buffer was nearly full."""
        until, is_full = math.inf, False
        part, period = words.window or (seconds, seconds)
        while time.monotonic() < until and not is_full:
            with self.open(instance) as begin:
                until = min(until, begin + seconds)
                is_full = wait(instance, words, min(begin + part, until), drain)
            while words.window and not drain():
                pass
            if words.window and not is_full:
                time.sleep(max(0, min(begin + period, until) - time.monotonic()))
        return is_full

    @contextlib.contextmanager
    def open(self, instance: Instance) -> Iterator[float]:
        """A window, which also a signal ends. Returns when it began, in seconds."""
        instance.write("tracing_on", "1")
        begin = time.monotonic_ns()
        try:
            if not self:
                self.tell()
            yield begin / 1e9
        finally:
            self.append((begin, time.monotonic_ns()))
            instance.write("tracing_on", "0")

    def seconds(self) -> float:
        return sum(end - begin for begin, end in self) / 1e9


class Body(Reader):
    """What is in the events: `pairs` are the ends of veth pairs, each sender with its receiver."""

    def __init__(self, pairs: Sequence[tuple[str, str]]) -> None:
        self.instances, self.sent, self.received = Instances(pairs), Counter[str](), Counter[tuple[str, bool]]()
        self.napi, self.has_pairs = list(self.instances.found()), bool(pairs)
        # Tasks that poll or send, and names of those that weren't switched.
        self.tasks, self.unnamed = set[int](), dict[int, str]()

    def scan(self, head: dict[str, str], buffers: Buffers) -> None:
        """Looks at all events."""
        events = Pages([self], head)
        with Progress("reading the recording"):
            events.add(buffers.pages())
        self.napi = list(self.instances.found())
        self.unnamed = {pid: observed.text_in(f"/proc/{pid}/comm") for pid in self.tasks - events.names.keys() - {0}}

    def looks_at(self, name: str) -> list[Look]:
        """Returns what handles the events of this name."""
        looks: dict[str, Look] = {} if self.has_pairs else dict.fromkeys(KINDS, self.look_at_taken)
        looks |= {"napi_poll": self.look_at_poll, "net_dev_start_xmit": self.look_at_start, BY_PAIR: self.look_at_sent}
        return [looks[name]] if name in looks else []

    def look_at_poll(self, event: Event) -> None:
        napi, device, work, budget = event.parts(POLLED)
        self.instances.poll(event.cpu, napi, device, int(work), int(budget))
        self.tasks.add(event.pid)

    def look_at_start(self, event: Event) -> None:
        sender, queue, packet = event.parts(Routes.STARTED)
        self.instances.start(sender, int(queue), packet)

    def look_at_sent(self, event: Event) -> None:
        sender, _, code = event.parts(SENT)
        self.sent[sender] += 1
        self.tasks.add(event.pid)
        if self.instances.begun:
            self.instances.finish(event.parts(Routes.NAMED)[1], code == "0")

    def look_at_taken(self, event: Event) -> None:
        device, napi, mapping = event.parts(TAKEN)
        self.received[device, event.name == BY_STACK] += 1
        if napi:
            self.instances.receive(event.cpu, device, int(napi, 16), int(mapping))


def probe_lines(words: Words, settings: Mapping[str, str]) -> tuple[list[str], list[str]]:
    """Returns the shell's lines that set deferral on the devices, and those that restore what is set."""
    lines: tuple[list[str], list[str]] = [], []
    for device in words.device:
        machine = Machine({"netns": words.netns or ""}, device, None)
        before = {name: settings.get(f"device.{device}.{name}", "") for name in PROBE}
        if not all(map(is_number, before.values())):
            raise Refusal(f"--probe: {shown(device)} has no {' or '.join(PROBE)} here")
        if all(map(int, before.values())):
            raise Refusal(f"--probe: {shown(device)} has deferral already, so a recording without --probe has it")
        lines[0].extend(machine.line_of(Change("sysfs", name, value, None)) for name, value in PROBE.items())
        lines[1].extend(machine.line_of(Change("sysfs", name, int(value), None)) for name, value in before.items())
    return lines


@contextlib.contextmanager
def probe_of(lines: tuple[Sequence[str], Sequence[str]]) -> Iterator[None]:
    """Sets deferral, and restores what was set. Another process restores it, which no signal to this one ends: when this one closes their
    connection, or is killed."""
    change, undo = lines
    waits = ["trap '' INT TERM HUP", "read line", "status=0", *(f"{line} || status=1" for line in undo), "exit $status"]
    ends: dict[str, Any] = {"stdout": subprocess.DEVNULL, "stderr": subprocess.DEVNULL, "start_new_session": True}
    Signals.defer()
    keeper = subprocess.Popen(["sh", "-c", "\n".join(waits)], stdin=subprocess.PIPE, **ends)
    try:
        Signals.resume()
        if ran(["sh", "-ec", "\n".join(change)])[0]:
            raise Refusal(f"--probe: deferral couldn't be set: {'; '.join(change)}")
        yield
    finally:
        Signals.defer()
        if keeper.stdin:
            keeper.stdin.close()
        is_wrong = keeper.wait()
        Signals.resume()
        if is_wrong:
            raise Refusal(f"--probe: what was set couldn't be restored; as root: {'; '.join(undo)}")


def counts_now(words: Words) -> dict[str, int]:
    """Returns the kernel's counters."""
    taken = {f"stolen.{processor}": time for processor, time in observed.stolen().items()}
    return {**observed.counters(words.device, words.netns), **taken}


def counted(before: Mapping[str, int], after: Mapping[str, int], share: float) -> dict[str, str]:
    """Returns each counter before and after a recording: of a part of the time, as if it had risen evenly."""
    return {key: f"{value} {value + round((after.get(key, value) - value) * share)}" for key, value in before.items()}


class Recorded:
    """What is recorded: the head's values, and the pages."""

    def __init__(self, words: Words, instance: Instance, buffers: Buffers, tell: Callable[[str], None]) -> None:
        self.words, self.instance, self.buffers = words, instance, buffers
        self.windows = Windows(lambda: tell(f"recording for {words.seconds} s"))
        self.is_full, self.is_over, self.head = False, False, dict[str, Any]()

    def run(self) -> None:
        """Records, also a probe. A signal ends the recording, and what was recorded is kept."""
        words, spent, before, probed = self.words, time.process_time(), counts_now(self.words), Windows()
        self.head, start, seconds = observed.now(), time.monotonic(), words.seconds / (2 if words.probe else 1)
        with Progress("recording", lambda: min(1.0, (time.monotonic() - start) / float(words.seconds))):
            self.record(self.windows, seconds, contextlib.nullcontext())
            share, after = self.windows.seconds() / (time.monotonic() - start), counts_now(words)
            if words.probe and not self.is_over:
                self.head["probe"] = time.monotonic_ns()
                self.record(probed, seconds, probe_of(words.probe))
        spent = time.process_time() - spent
        while not self.buffers.is_drained():
            pass
        self.head |= {"seconds": f"{self.windows.seconds():.6f}", "recorder.seconds": f"{spent:.6f}"}
        if words.window:
            self.head["windows"] = " ".join(f"{begin}:{end}" for begin, end in [*self.windows, *probed])
        self.counts = counted(before, after, min(1.0, share) if words.window else 1)
        self.took = time.monotonic() - start

    def record(self, windows: Windows, seconds: float, during: contextlib.AbstractContextManager[None]) -> None:
        """Records for some seconds, or until a signal; another one ends the program."""
        try:
            with during:
                self.is_full = windows.record(self.instance, self.words, seconds, self.buffers.is_drained)
        except Interrupted:
            if not self.words.is_kept:
                raise
            Signals.forget()
            self.is_over = True
        self.is_over = self.is_over or self.is_full


def recorded(
    words: Words, sources: Sources, file: IO[bytes], tell: Callable[[str], None]
) -> tuple[dict[str, Any], Recorded]:
    """Records the pages in a file, and returns the head's values with what was recorded."""
    with Instance(mount_tracefs()) as instance:
        instance.set_buffers(words.buffer, words.processors)
        events, missing = instance.enable(sources)
        head: dict[str, Any] = {"clock": "mono", "events": " ".join(events), "missing": " ".join(missing)}
        head |= instance.formats(events)
        with instance.pipes() as pipes:
            made = Recorded(words, instance, Buffers(pipes, Layout.parsed(head["pages"]), file), tell)
            made.run()
        lost, count = (sum(each) for each in list(zip(*instance.statistics()))[1:])
        if lost:
            how = "record for a shorter time, or with a larger --buffer"
            raise Refusal(f"the kernel lost {lost} events, so the recording isn't written: {how}")
    words.took = made.took if made.is_full else None
    counts = {"lost": lost, "events.count": count, "pages.count": len(made.buffers.stamps)}
    return {**made.head, **head, **counts}, made


def polled_of(words: Words, body: Body) -> list[str]:
    """Returns the names of the devices in their polls: their own, or that of a processor's backlog."""
    polled = {each.device for each in body.napi if each.receives} or {each.device for each in body.napi}
    return [name for name in words.device if name in polled] or [BACKLOG] * (BACKLOG in polled)


Values = Mapping[str, Any]  # of a recording's head


def head_of(words: Words, head: Values, others: Values, body: Body, pids: Sequence[int]) -> bytes:
    """Returns the lines before the pages; `others` are the settings and the counts."""
    ends = zip(words.sender, words.device) if len(words.sender) == len(words.device) else ()
    told = {**head, "buffer": words.buffer, "device": " ".join(words.device)}
    told |= {"netns": words.netns or "", "sender": " ".join(words.sender), "pair": " ".join(map(":".join, ends))}
    told |= {"polled": " ".join(polled_of(words, body)), "program": words.program or ""}
    told["program.pids"] = " ".join(map(str, pids))
    told |= {f"instance.{place}": each.text() for place, each in enumerate(body.napi, 1)}
    told |= {f"task.{pid}": name for pid, name in body.unnamed.items()}
    told |= {f"sent.{device}": count for device, count in sorted(body.sent.items())}
    told |= {f"received.{device}": taken_of(body, device) for device in words.device if taken_of(body, device)}
    told |= {f"program.{pid}.{key}": value for pid in pids[:64] for key, value in observed.of_task(pid)}
    lines = [f"{key} {value}".rstrip() for key, value in {**told, **others}.items() if str(value)]
    return "\n".join(["fintaqush-recording 2", *lines, "pages", ""]).encode("utf-8", "replace")


def taken_of(body: Body, device: str) -> int:
    """Returns how many packets of a device polls took, or, if its driver has no GRO, the stack received."""
    return body.received[device, False] or body.received[device, True]


def find_senders(words: Words) -> list[str]:
    """Finds the other ends of the devices, if they aren't named."""
    if words.sender:
        if len(words.sender) != len(words.device):
            raise Refusal(f"{len(words.sender)} --sender for {len(words.device)} --device")
        return list(words.sender)
    found = [observed.peer_of(name, words.netns) for name in words.device]
    for name in filter(None, found):
        observed.check_device(name, "the other end of a veth pair,")
    return found if all(found) else []


def sources_of(words: Words, settings: Mapping[str, str], program: str) -> Sources:
    if not words.sender:
        return Sources(program, words.device)
    senders = [sender for sender, name in zip(words.sender, words.device) if f"device.{name}.rx-1.rps_cpus" in settings]
    return Sources(program, (), words.device, senders)


def told_end(words: Words, head: Mapping[str, Any], body: Body) -> str:
    """Returns the final line, which summarizes the recording."""
    own = polled_of(words, body)
    parts = [
        f"{float(head['seconds']):.1f} s",
        f"{head['events.count']} events, by {float(head['recorder.seconds']):.1f} s of processor time",
        *(described(name, body.napi) for name in own),
    ]
    named = ", ".join(words.device)
    if not own:
        parts.append(f"no poll of {named}")
    if words.sender:
        parts.append(f"{sum(body.sent[name] for name in words.sender)} packets of {', '.join(words.sender)}")
    else:
        parts.append(f"{sum(taken_of(body, name) for name in words.device)} packets that {named} received")
    return f"{shown(words.out)}: {'; '.join(parts)}"


def notes_on(words: Words, head: Mapping[str, Any], body: Body) -> Iterator[str]:
    """Yields what the user should know about the recording."""
    polled = polled_of(words, body)
    polls = sum((each.polls for each in body.napi if each.device in polled), Counter[int]())
    yield from stolen.warnings(stolen.shares_in(head, polls))
    if head["missing"]:
        yield f"this kernel has no event {head['missing']}"
    if not words.sender and any(taken_of(body, name) for name in words.device):
        why = "because no device that sends to it is known, as of a veth pair"
        waits = "waits in a card's ring before the interrupt aren't in it"
        yield f"its arrivals are when polls took the packets, {why}: {waits}"
    elif not words.sender:
        yield f"it has no arrivals: {', '.join(words.device)} received nothing: record while packets arrive"
    elif not any(body.sent[name] for name in words.sender):
        yield f"nothing was sent by {', '.join(words.sender)}: record while packets arrive"
    if words.probe and polled == [BACKLOG]:
        yield "the probe shows nothing, because a processor's backlog polls, which has no deferral"


def record(words: Words, tell: Callable[[str], None]) -> str:
    """Checks the options, records, and writes the file; `tell` takes what the user should know. Returns the line that sums it up."""
    if os.geteuid() != 0:
        raise Refusal("recording needs root: sudo fintaqush record ..")
    check_target(words.out)
    observed.check_namespace(words.netns)
    for name in words.device:
        observed.check_device(name)
    for name in words.sender:
        observed.check_device(name, "--sender")
    settings = dict(observed.of_kernel())
    for name in words.device:
        settings |= observed.settings_of_device(name, words.netns)
    words.sender = find_senders(words)
    words.probe = probe_lines(words, settings) if words.probe else None
    program, pids = program_filter(words.program) if words.program else ("", [])
    check_memory(words.buffer)
    for each in observed.lacking(words.netns):
        tell(each)
    if words.program and not pids:
        tell(f"no process is called {shown(words.program)}; its reads are recorded if it starts during the recording")
    with open(words.scratch, "w+b") as scratch:
        head, made = recorded(words, sources_of(words, settings, program), scratch, tell)
        body = Body(list(zip(words.sender, words.device)))
        body.scan({key: str(value) for key, value in head.items()}, made.buffers)
        pids = pids or (program_filter(words.program)[1] if words.program else [])
        with WholeFile(words.out) as new, open(new, "wb") as file:
            file.write(head_of(words, head, {**settings, **made.counts}, body, pids))
            file.writelines(made.buffers.in_order())
    for note in notes_on(words, {**head, **made.counts}, body):
        tell(note)
    return told_end(words, head, body)


def check_whole(words: Words) -> None:
    """Fails if the recording ended early."""
    if words.took:
        what = f"a buffer of {words.buffer} MB was nearly full after {words.took:.1f} of {words.seconds} s"
        how = advice_on_buffer(words, words.took, most_memory())
        raise Refusal(f"{what}, so the recording ended early: {how}")


def recorded_by(words: Words, tell: Callable[[str], None], is_kept: bool = False) -> str:
    """Records, and returns the line that sums it up. `is_kept` says whether a signal ends the recording only. Nothing else is left, however
    it ends."""
    words.took, words.is_kept = None, is_kept
    words.scratch = os.path.join(os.path.dirname(words.out), f".new-{os.getpid()}-{os.urandom(6).hex()}.body")
    unfinished.add(words.scratch)
    try:
        return record(words, tell)
    except OSError as error:
        if error.errno in FULL_DISK and error.filename is None:
            raise Refusal(f"{shown(words.out)}: {error.strerror}") from None
        raise
    finally:
        unlink(words.scratch)
        unfinished.discard(words.scratch)


def add_options(parser: Parser) -> None:
    how = number(1, 3600)
    parser.add_argument("seconds", nargs="?", type=how, default=5, metavar="SECONDS", help="how long, 1 to 3600 (5)")
    parser.many("--device", "NAME", "a device that receives; may be given many times", required=True)
    parser.add_argument("--out", required=True, metavar="FILE", help="the file for the recording")
    parser.add_argument("--netns", metavar="NAME", help="the network namespace of the devices")
    what = "the other end of the veth pair, one for each device (found automatically if possible)"
    parser.many("--sender", "NAME", what)
    parser.add_argument("--program", metavar="NAME|PID", help="the program that reads the packets")
    parser.add_argument("--processors", type=processors, metavar="LIST", help="record only these, as 2,3 or 0-3 (all)")
    what = "the buffer of each processor (32)"
    parser.add_argument("--buffer", type=number(1, 65536), default=32, metavar="MB", help=what)
    what = "record only a part of each period, as 50ms/1s"
    parser.add_argument("--window", type=window, metavar="PART/PERIOD", help=what)
    parser.flag("--twice", "record again after as long a pause, so that bands have what differs between two recordings")
    parser.flag("--probe", "for half of the time set napi_defer_hard_irqs 2 and gro_flush_timeout 100000")


def main(given: Sequence[str]) -> None:
    words = words_of(__doc__, add_options, given)
    if words.twice and (words.window or words.probe):
        words.error("--twice has the time of two whole recordings, so it goes neither with --window nor with --probe")
    if words.twice:
        words.window, words.seconds = (words.seconds, 2 * words.seconds), 3 * words.seconds
    tell(recorded_by(words, say, is_kept=True))
    check_whole(words)
