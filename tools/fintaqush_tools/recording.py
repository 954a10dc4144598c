"""Reads recordings: the text of ftrace, of `trace-cmd report` or of `perf script`, and the files of fintaqush record."""

from __future__ import annotations

import contextlib
import gc
import gzip
import io
import re
import zlib
from bisect import bisect_left
from collections.abc import Callable, Iterator, Mapping, Sequence
from dataclasses import dataclass
from typing import IO, Any, NamedTuple, Optional, TypeVar

from fintaqush_tools import files, ring_buffer
from fintaqush_tools.arrivals import seconds
from fintaqush_tools.errors import Refusal
from fintaqush_tools.files import check_input
from fintaqush_tools.progress import Progress, share_of
from fintaqush_tools.texts import is_number, shown

Head = dict[str, str]  # of a file of fintaqush record

MOST_LINE = 4096  # characters
NO_LINE = "no line of ftrace, `trace-cmd report` or `perf script`"
HEAD = "fintaqush-recording "
BODIES = {b"1": b"trace\n", b"2": b"pages\n"}  # by the version: the line that ends the head
CAPTURE = "this is a capture, which fintaqush from-pcap reads"
# Recognized by their first bytes.
OTHERS = {
    b"PERFILE2": "this is the file of `perf record`: take the text of `perf script --ns`",
    b"\xd4\xc3\xb2\xa1": CAPTURE,
    b"\x17\x08Dtraci": "this is the file of `trace-cmd record`: take the text of `trace-cmd report -t`",
    b"\xa1\xb2\xc3\xd4": CAPTURE,
    b"M<\xb2\xa1": CAPTURE,
    b"\n\r\r\n": CAPTURE,
    b"\x7fELF": "this is a program",
}
BACKLOG = "(no_device)"  # the name of a processor's backlog in napi_poll
PROBE = {"napi_defer_hard_irqs": 2, "gro_flush_timeout": 100_000}  # what fintaqush record --probe sets
NET_RX = 3  # the number of the softirq that polls (NET_RX_SOFTIRQ)

# ftrace and trace-cmd write `TASK-PID [CPU] FLAGS TIME: NAME:`, perf writes `TASK PID[/TID] [CPU] TIME: [COUNT] SYSTEM:NAME:`.
LINE = re.compile(
    r"\s*(?P<task>\S.*?)(?:-|\s+(?:\d{1,9}/)?)(?P<pid>\d{1,9})\s+(?:\([\s\d-]+\)\s+)?\[(?P<cpu>\d{1,6})\]\s+"
    r"(?:(?P<flags>\S+)\s+)?(?P<seconds>\d{1,10})\.(?P<fraction>\d{6,9}):\s+(?:\d+\s+)?"
    r"(?:(?:\w+:)?(?P<name>\w+):(?!\w)|sys_(?P<call>\w+)(?P<is_exit> ->|(?=\()))\s*(?P<said>.*)"
)
LOST = re.compile(r"\[LOST (\d+) EVENTS\]|\[(\d+) EVENTS DROPPED\]|PERF_RECORD_LOST lost (\d+)")
# The lines of a call chain, which perf writes after an event.
NO_EVENT = re.compile(r"\s*(#.*|cpus=\d+|version = .*|CPU:? ?\d+ is empty|[0-9a-f]{4,16} .* \(.*\))?$")

PIECE = 1 << 16  # characters that are read at once; what is made of more doesn't stay in a processor's cache
MOST_HEAD = 1 << 24  # bytes
LATEST = 1 << 62  # ns
PARTS, SAMPLE = 70, 10_000  # of which parts of a large recording costs are estimated, and from how many pages
MOST_KNOWN = 1 << 14  # texts of an event whose fields are kept, because most texts come again and again
EARLY = 50_000  # events after which a recording can be looked at before the rest is read

# What fintaqush record accepts as names, and so writes into a head. Linux allows more: `$(id)` is a device's name to it.
DEVICE_NAME = r"(?!-|(?:\.|\.\.|\(no_device\))(?![^ :]))[!-.0-9;-~]{1,15}"
NAMESPACE_NAME = r"(?!-|\.{1,2}$)[!-.0-~]{1,255}"
PROGRAM_NAME = r"[ !#-~]{1,255}"


def listed(form: str) -> str:
    """Returns the pattern of values with blanks between them."""
    return f"{form}(?: {form})*"


# The form of each value in a head that goes into a command or a calculation as it is.
FORMS = {
    **dict.fromkeys(("device", "sender"), listed(DEVICE_NAME)),
    "pair": listed(f"{DEVICE_NAME}:{DEVICE_NAME}"),
    "polled": rf"\(no_device\)|{listed(DEVICE_NAME)}",
    "netns": NAMESPACE_NAME,
    "program": PROGRAM_NAME,
    "program.pids": listed("[0-9]{1,9}"),
    "seconds": r"[0-9]{1,9}(?:\.[0-9]{1,9})?",
    "udp.RcvbufErrors": "[0-9]{1,18} [0-9]{1,18}",
}
Fields = Optional[tuple[str, ...]]
Parsed = TypeVar("Parsed")
Key = TypeVar("Key")


class Known(dict[Key, Parsed]):
    """What texts say, by `parse`, and kept, because most of them come again and again."""

    def __init__(self, parse: Callable[[Key], Parsed], pattern: str = "") -> None:
        super().__init__()
        self.parse, self.pattern = parse, pattern

    def __missing__(self, text: Key) -> Parsed:
        if len(self) >= MOST_KNOWN:
            self.clear()
        self[text] = parsed = self.parse(text)
        return parsed


def fields_by(pattern: str) -> Known[str, Fields]:
    """Returns the fields of texts by a pattern, or None for a text that it doesn't match."""
    match = re.compile(pattern).match

    def parse(text: str) -> Fields:
        found = match(text)
        return found.groups() if found else None

    return Known(parse, pattern)


SENT = fields_by(r"dev=(\S+) (?:\S+ )*?len=(\d{1,10}) rc=(\w+)")
POLLED = fields_by(r"napi poll on napi struct (\S+) for (?:network )?device (\S+) work (\d{1,9}) budget (\d{1,9})")


def is_net_rx(text: str) -> Optional[bool]:
    """Returns whether the event of a softirq is of the one that polls; None if it has an unknown form."""
    found = re.match(r"vec=(\d{1,9})", text)
    return int(found[1]) == NET_RX if found else None


IS_NET_RX = Known(is_net_rx)


@dataclass
class Event:
    """A line of the recording, with its time in nanoseconds. What handles it gets the same object for each line, which is faster, so what is to be
    kept has to be copied."""

    __slots__ = ("line", "task", "cpu", "flags", "time", "name", "said", "pid")
    line: int
    task: str
    cpu: int
    flags: str
    time: int
    name: str
    said: str
    pid: int

    def parts(self, texts: Known[str, Optional[Parsed]]) -> Parsed:
        """Returns what the event says, by the texts of its kind. Fails if its text has an unknown form."""
        parsed = texts[self.said]
        if parsed is not None:
            return parsed
        raise Refusal(f"line {self.line}: {self.name} says {shown(self.said[:80])!r}, an unknown format")


Look = Callable[[Event], None]


class Reader:
    """What handles the events of a recording. `span` is when the first and the last of all events were, known after the last one."""

    span = (0, 0)
    is_probed = False  # whether it also handles the events of a probe (fintaqush record --probe)
    is_sampled = False  # whether some parts of a large recording are enough for it
    share = 1.0  # of the pages that it has seen

    def looks_at(self, name: str) -> list[Look]:
        """Returns what handles the events of this name, in this order."""
        raise NotImplementedError

    def cut(self, time: int) -> None:
        """Handles the beginning of a window: what was recorded before ended some time ago (fintaqush record --window)."""


Task = tuple[str, int, int]  # its name, its number and its priority


@dataclass
class Switch:
    """What a task switch says: the task that leaves the processor, whether it sleeps, the next task, and which of them are NAPI threads."""

    __slots__ = ("last", "is_sleep", "next", "was_napi", "is_napi")
    last: Task
    is_sleep: bool
    next: Task
    was_napi: bool
    is_napi: bool


SWITCHED = re.compile(
    r"prev_comm=(.*) prev_pid=(\d{1,9}) prev_prio=(-?\d{1,9}) prev_state=(\S+) ==> next_comm=(.*) next_pid=(\d{1,9}) next_prio=(-?\d{1,9})"
)
SHORT = re.compile(r"(.*):(\d{1,9}) \[(-?\d{1,9})\] (\S+) ==> (.*):(\d{1,9}) \[(-?\d{1,9})\]")  # trace-cmd's form


def switch_in(text: str) -> Optional[Switch]:
    """Parses the text of a task switch; None if it has an unknown form."""
    found = SWITCHED.match(text) or SHORT.match(text)
    if not found:
        return None
    task, pid, priority, state, name, number, other = found.groups()
    is_sleep, following = not state.startswith("R"), (name, int(number), int(other))
    was_napi, is_napi = (each.startswith("napi/") for each in (task, name))
    return Switch((task, int(pid), int(priority)), is_sleep, following, was_napi, is_napi)


SWITCH = Known(switch_in)


FLAGS = [
    "..H" if each & 0x48 and each & 0x10 else "..h" if each & 0x48 else "..s" if each & 0x10 else "..."
    for each in range(256)
]


class InPage(Event):
    """An event of a page. Of the flags only the third one is known, where it is in ftrace's text: whether an interrupt or a softirq had the
    processor."""

    __slots__ = ("bits", "names")
    bits: int
    names: dict[int, str]  # of tasks

    @property
    def task(self) -> str:  # type: ignore[override]
        return self.names.get(self.pid, "<...>")

    @property
    def flags(self) -> str:  # type: ignore[override]
        return FLAGS[self.bits & 0xFF]


class Passing:
    """Passes the events of a recording to the readers that handle events of their names."""

    def __init__(self, readers: Sequence[Reader]) -> None:
        self.readers, self.count, self.span, self.names = readers, 0, (0, 0), dict[int, str]()
        self.looks = Known(self.looks_at)

    def looks_at(self, name: str) -> list[Look]:
        """Returns what handles the events of this name."""
        return [look for reader in self.readers for look in reader.looks_at(name)]

    def reach(self, time: int) -> None:
        """Handles the time of an event, if no other one has come since then."""
        self.span = self.span[0] or time, time

    def end(self) -> None:
        for reader in self.readers:
            reader.span = self.span


class Texts(Passing):
    """Passes the events of texts, one after the other and each of whole lines. Ftrace keeps only a few names of tasks, and writes `<...>` for the
    others: these are of the last switch to the task."""

    def __init__(self, readers: Sequence[Reader], lost: list[str], first: int = 1) -> None:
        """If the kernel lost events, a note is added to `lost`. `first` is the number of the first line."""
        super().__init__(readers)
        self.lost, self.line, self.has_head = lost, first, first > 1

    def add(self, text: str) -> None:
        """Passes the events of the next text on."""
        for self.line, line in enumerate(re.findall(r"[^\n]*\n|[^\n]+", text), self.line):
            found = LINE.match(line)
            if is_event(self.line, line, found is not None, self.lost, self.has_head) and found:
                self.count += 1
                self.take(self.event_of(found))
        self.line += 1

    def event_of(self, found: re.Match[str]) -> Event:
        """Returns the event of a line that the pattern of all forms matches."""
        task, pid, cpu, flags, whole, fraction, name, call, is_exit, said = found.groups()
        name, number = name or ("sys_exit_" if is_exit else "sys_enter_") + call, int(pid)
        named = self.names.get(number, task) if task == "<...>" else task
        return Event(self.line, named, int(cpu), flags or "", seconds(whole, fraction), name, said.rstrip(), number)

    def take(self, event: Event) -> None:
        self.reach(event.time)
        if event.name == "sched_switch" and (switched := SWITCH[event.said]):
            self.names[switched.next[1]] = switched.next[0]
        for handle in self.looks[event.name]:
            handle(event)


class Part(NamedTuple):
    """A window of a recording: its begin and its end, and how long nothing was recorded before it; whether it belongs to the probe."""

    begin: int
    end: int
    gap: int
    is_probe: bool


def parts_in(head: Head) -> list[Part]:
    """Returns the windows of a recording (fintaqush record --window); its probe begins another one."""
    text, probe = head.get("windows", ""), head.get("probe", "")
    if not re.fullmatch(r"(\d{1,18}:\d{1,18}( (?=\d)|$))*", text) or not re.fullmatch(r"\d{0,18}", probe):
        raise Refusal("its head has windows, or a probe, of an unknown format")
    since = int(probe or LATEST)
    if not text:
        return [Part(0, since, 0, False), *([Part(since, LATEST, 0, True)] if probe else [])]
    windows = [(int(begin), int(end)) for begin, _, end in (each.partition(":") for each in text.split(" "))]
    edges, gap, parts = [edge for window in windows for edge in window], 0, list[Part]()
    if edges != sorted(edges):
        raise Refusal("its head has windows that overlap")
    for begin, end in windows:
        gap += begin - parts[-1].end if parts else 0
        parts.append(Part(begin, end, gap, begin >= since))
    return parts


class Pages(Passing):
    """Passes the events of pages, by a head with their formats."""

    def __init__(self, readers: Sequence[Reader], head: Head) -> None:
        super().__init__(readers)
        self.layout, self.parts = ring_buffer.Layout.parsed(head.get("pages", "")), parts_in(head)
        self.names |= {int(key[5:]): name for key, name in head.items() if re.fullmatch("task\\.[0-9]{1,9}", key)}
        self.formats = {
            int(key[7:]): ring_buffer.Format(value)
            for key, value in head.items()
            if re.fullmatch("format\\.[0-9]{1,5}", key)
        }
        self.all_kinds = {number: self.kind(each) for number, each in self.formats.items() if self.looks[each.name]}
        self.kinds, self.pages = dict(self.all_kinds), number_in(head, "pages.count")
        self.taken, self.share = (
            0,
            1.0,
        )  # of a large recording, how much of its time and of its pages sampled readers get

    def kind(self, each: ring_buffer.Format) -> ring_buffer.Kind:
        """Returns how the events of a format are passed on."""
        looks, said = self.looks[each.name], each.said

        def made(data: bytes) -> tuple[list[Look], str, str]:
            text = said(data)
            if each.name == "sched_switch" and (found := SWITCH[text]):
                self.names |= {task[1]: task[0] for task in (found.last, found.next)}
            return looks, each.name, text

        return Known(made), each.low, each.high

    def add(self, pages: Iterator[ring_buffer.Page], look: Callable[[], None] | None = None) -> None:
        """Passes the events of all pages on, and calls `look` once after `EARLY` of them."""
        event = InPage.__new__(InPage)
        event.line, event.names = 0, self.names
        for events in self.parted(self.sampled(ring_buffer.events_in(pages, self.layout, self.kinds))):
            self.count += len(events)
            if events:
                self.reach(events[0][0])
                self.reach(events[-1][0])
            for event.time, event.cpu, event.bits, event.pid, (looks, event.name, event.said) in events:
                for handle in looks:
                    handle(event)
            if look and self.count > EARLY:
                look = look()

    def sampled(self, many: Iterator[list[ring_buffer.Seen]]) -> Iterator[list[ring_buffer.Seen]]:
        """Yields all events. Of a large recording readers that are sampled get those of some parts."""
        at_once = PARTS * ring_buffer.AT_ONCE
        step, part = (self.pages // at_once, SAMPLE // at_once) if self.pages > SAMPLE else (0, 0)
        is_on, since, last, seen = True, 0, 0, 0
        for number, events in enumerate(many, 1):
            yield events
            if is_on and events:
                since, last = since or events[0][0], events[-1][0]
            seen += is_on
            if step and number % step in (0, part):
                is_on, since, self.taken = number % step == 0, 0, self.taken + (last - since) * is_on
                self.pass_to([each for each in self.readers if is_on or not each.is_sampled])
                for reader in self.readers if is_on else ():
                    if reader.is_sampled:
                        reader.cut(last)
            self.share = seen / number
        self.taken += (last - since) * is_on

    def pass_to(self, readers: Sequence[Reader]) -> None:
        """Passes the events that follow to these readers only."""
        for name, looks in self.looks.items():
            looks[:] = [look for reader in readers for look in reader.looks_at(name)]
        read = {number: kind for number, kind in self.all_kinds.items() if self.looks[self.formats[number].name]}
        self.kinds.clear()
        self.kinds.update(read)

    def parted(self, many: Iterator[list[ring_buffer.Seen]]) -> Iterator[list[ring_buffer.Seen]]:
        """Yields the events of each window, by times at which a window follows the one before at once."""
        at = 0
        for events in many:
            while events and at < len(self.parts):
                begin, end, gap, is_probe = self.parts[at]
                some = bisect_left(events, (end,))
                own = events[bisect_left(events, (begin,)) : some]
                yield [(each[0] - gap, *each[1:]) for each in own] if gap else own
                if some < len(events):
                    at += 1
                    self.begin(self.parts[at - 1 : at + 1])
                events = events[some:]

    def end(self) -> None:
        super().end()
        for reader in self.readers if self.pages > SAMPLE else ():
            if reader.is_sampled:
                reader.span, reader.share = (0, self.taken), self.share

    def begin(self, parts: Sequence[Part]) -> None:
        """Begins a window, or the probe, whose events only some readers handle."""
        if parts[-1].is_probe and not parts[0].is_probe:
            self.end()
            self.readers = [reader for reader in self.readers if reader.is_probed]
            self.pass_to(self.readers)
        for reader in self.readers:
            reader.cut(parts[-1].begin - parts[-1].gap)


class Events(list[Event], Reader):
    """A reader that keeps all events."""

    def looks_at(self, _name: str) -> list[Look]:
        """Returns what handles the events of any name."""
        return [self.keep]

    def keep(self, event: Event) -> None:
        parts = event.line, event.task, event.cpu, event.flags, event.time, event.name, event.said, event.pid
        self.append(Event(*parts))


def is_event(number: int, line: str, is_found: bool, lost: list[str], has_head: bool) -> bool:
    """Returns whether a line is an event. Fails if it is cut, too long or of no known form."""
    if len(line) - line.endswith("\n") >= MOST_LINE:
        raise Refusal(f"line {number}: longer than any line of ftrace")
    if not line.endswith("\n") and (has_head or not is_found):
        raise Refusal(f"it is cut: line {number} isn't whole")
    if ("LOST" in line or "DROPPED" in line) and (loss := LOST.search(line)):
        lost.append(f"line {number} of the recording: the kernel lost {loss[1] or loss[2] or loss[3]} events")
        return False
    if not is_found and not NO_EVENT.match(line):
        raise Refusal(f"line {number}: {NO_LINE}: {line.strip()[:60]!r}")
    return is_found


def texts_of(file: IO[str]) -> Iterator[str]:
    """Yields an open text in pieces of whole lines."""
    rest = ""
    with Progress("reading", lambda: share_of(file)):
        while piece := file.read(PIECE):
            text = rest + piece
            end = text.rfind("\n") + 1
            if len(text) - end >= MOST_LINE:  # which `is_event` refuses
                end = len(text)
            rest = text[end:]
            if end:
                yield text[:end]
    if rest:
        yield rest


@contextlib.contextmanager
def opened(recording: str) -> Iterator[Any]:
    """Opens a file, also as .gz, or standard input for `-`. Fails if it is known to be something else than a recording."""
    check_input(recording)
    try:
        with files.opened(recording) as plain:
            is_packed = recording.endswith(".gz") or plain.peek(2)[:2] == b"\x1f\x8b"
            file: Any = gzip.GzipFile(fileobj=plain) if is_packed else plain
            begin = file.peek(8)[:8]
            if not begin:
                raise Refusal("it is empty")
            for magic, what in OTHERS.items():
                if begin.startswith(magic):
                    raise Refusal(what)
            yield file
    except (EOFError, zlib.error, gzip.BadGzipFile) as error:
        raise Refusal(f"it isn't whole: {error}") from None


def head_in(file: Any) -> Head:
    """Reads the head of fintaqush record's file, with its version; text of other tools has none."""
    if not file.peek(len(HEAD)).startswith(HEAD.encode()):
        return {}
    first = file.readline(100).rstrip()
    version, lines, size = first[len(HEAD) :], list[bytes](), 0
    if version not in BODIES:
        told = shown(first.decode("utf-8", "replace")[:60])
        raise Refusal(f"{told!r}: another version of fintaqush record wrote it; this one reads versions 1 and 2")
    while (line := file.readline(MOST_HEAD)) != BODIES[version]:
        size += len(line)
        if not line or size > MOST_HEAD:
            raise Refusal("it is cut: its head has no end")
        lines.append(line)
    pairs = (line.decode("utf-8", "replace").rstrip("\n").partition(" ") for line in lines)
    return checked({**{key: value for key, _, value in pairs}, "version": version.decode()})


def checked(head: Head) -> Head:
    """Returns the head of a file. Fails if a value has a form that fintaqush record never writes: a name could be a command."""
    for key, form in FORMS.items():
        if head.get(key) and not re.fullmatch(form, head[key]):
            raise Refusal(f"its head has {key} {shown(head[key])[:40]!r}, which fintaqush record never writes")
    return head


def number_in(head: Head, key: str, otherwise: int = 0) -> int:
    """Returns a number of the head, or the other one if it has none."""
    text = head.get(key, "")
    return int(text) if is_number(text, 10**15) else otherwise


def head_of(recording: str) -> Head:
    """Returns the head of fintaqush record's file, by its keys; text of other tools has none."""
    with opened(recording) as file:
        return head_in(file)


def rise_of(head: Mapping[str, str], key: str) -> int | None:
    """Returns by how much a counter of the kernel rose during a recording, if its head has it."""
    ends = head.get(key, "").split(" ")
    return int(ends[1]) - int(ends[0]) if len(ends) == 2 and all(map(is_number, ends)) else None


@contextlib.contextmanager
def uncollected() -> Iterator[None]:
    """Keeps Python from looking for cycles in what is read, again and again: there are none."""
    was_enabled = gc.isenabled()
    gc.disable()
    try:
        yield
    finally:
        if was_enabled:
            gc.enable()


def read(
    recording: str, lost: list[str], readers: Callable[[Head], Sequence[Reader]], look: Callable[[], None] | None = None
) -> Head:
    """Reads a file, also as .gz, or standard input for `-`, passes its events to the readers, which `readers` makes for its head, and returns the head.
    `look` is called once after `EARLY` events."""
    with opened(recording) as file, uncollected():
        head = head_in(file)
        if is_number(head.get("lost", "0")) and int(head.get("lost", "0")):
            lost.append(f"the kernel lost {head['lost']} events")
        made = readers(head)
        if head.get("version") == "2":
            pages = Pages(made, head)
            with Progress("reading", lambda: share_of(file)):
                pages.add(ring_buffer.pages_in(file), look)
            pages.end()
        else:
            passing = Texts(made, lost, len(head) + 2 if head else 1)
            with io.TextIOWrapper(file, encoding="utf-8", errors="replace") as text:
                read_texts(passing, text, look)
            if head and head.get("lines") != str(passing.count):
                many = shown(head.get("lines", "an unknown number of"))
                raise Refusal(f"it is cut: {passing.count} of {many} events are there")
            passing.end()
    return head


def read_texts(texts: Texts, file: IO[str], look: Callable[[], None] | None) -> None:
    for text in texts_of(file):
        texts.add(text)
        if look and texts.count > EARLY:
            look = look()


def check_lost(lost: list[str]) -> None:
    """Fails if the kernel lost events of a recording."""
    if lost:
        raise Refusal(
            f"{lost[0]}, so results would be wrong: record for a shorter time, or with a larger buffer (fintaqush record "
            "--buffer)"
        )


def is_by_thread(event: Event) -> bool:
    """Returns whether a NAPI thread makes the poll, and not a softirq that interrupted the thread."""
    return event.task.startswith("napi/") and event.flags[2:3] not in ("s", "h", "H")
