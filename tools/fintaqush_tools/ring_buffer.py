"""Decodes the pages of the kernel's ring buffer, which trace_pipe_raw has (kernel/trace/ring_buffer.c), by the formats that tracefs describes. A
recording has them as they are."""

from __future__ import annotations

import re
import struct
import sys
from bisect import bisect_left
from collections.abc import Callable, Iterable, Iterator, Mapping
from operator import itemgetter
from string import Formatter
from typing import IO, Any, NamedTuple, Optional

from fintaqush_tools.errors import Refusal
from fintaqush_tools.texts import shown

PADDING, EXTEND, STAMP = 29, 30, 31  # RINGBUF_TYPE_PADDING, _TIME_EXTEND and _TIME_STAMP
LOST = 3 << 30  # RB_MISSED_EVENTS and RB_MISSED_STORED in a page's commit
MOST_PAGE = 1 << 20  # bytes
COMMON = 8  # bytes of an event's type, flags, preemption count and task number
INDEX = struct.Struct("<II")  # before each page: its processor and its size
AT_ONCE = 64  # pages that are decoded at once
TIME = itemgetter(0)

SENT = "dev={name} skbaddr={skbaddr:x} len={len}"
TAKEN = "dev={name} napi_id={napi_id:#x} queue_mapping={queue_mapping} skbaddr={skbaddr:x} hash=0x{hash:x} len={len} "
SWITCHED = "prev_comm={prev_comm} prev_pid={prev_pid} prev_prio={prev_prio} prev_state={prev_state} ==> "
# What ftrace's text says of each event, as far as it is read. Only NAPI's timer is recorded.
TEXTS = {
    "napi_poll": "napi poll on napi struct {napi:x} for device {dev_name} work {work} budget {budget}",
    **dict.fromkeys(("softirq_entry", "softirq_exit"), "vec={vec}"),
    "net_dev_xmit": f"{SENT} rc={{rc}}",
    "netif_receive_skb": SENT,
    "net_dev_start_xmit": "dev={name} queue_mapping={queue_mapping} skbaddr={skbaddr:x} ",
    **dict.fromkeys(
        ("napi_gro_receive_entry", "napi_gro_frags_entry"),
        f"{TAKEN}mac_header_valid={{mac_header_valid}} mac_header={{mac_header}}",
    ),
    "irq_handler_entry": "irq={irq} name={name}",
    "irq_handler_exit": "irq={irq} ret={ret}",
    "sched_switch": f"{SWITCHED}next_comm={{next_comm}} next_pid={{next_pid}} next_prio={{next_prio}}",
    "hrtimer_start": "hrtimer={hrtimer:x} function=napi_watchdog expires={expires}",
    "hrtimer_expire_entry": "hrtimer={hrtimer:x} function=napi_watchdog now={now}",
}
# What a field's number means: whether the task sleeps (TASK_REPORT), and whether a handler's interrupt was its own.
MEANINGS: Mapping[str, Callable[[int], object]] = {
    "prev_state": lambda state: "S" if state & 0xFF else "R",
    "ret": lambda status: "handled" if status else "unhandled",
}


class Field(NamedTuple):
    """A field of an event. `kind` is u or s for a number without or with a sign, t for a text, l for the place and the length of a text."""

    name: str
    offset: int
    size: int
    kind: str


LINE = re.compile(r"\tfield:(.*?)(\w+)(\[\d*\])?;\toffset:(\d+);\tsize:(\d+);\tsigned:([01]);")
WORD = re.compile(r"(\w{1,40}):(\d{1,5}):(\d{1,3}):([ustl])")


def template_of(name: str) -> str:
    """Returns what ftrace's text says of an event, with its fields; nothing if nothing of it is read."""
    return "0x{ret:x}" if name.startswith("sys_exit_") else TEXTS.get(name, "")


def fields_in(text: str) -> list[Field]:
    """Parses the fields in a `format` or `header_page` file of tracefs."""
    fields = []
    for front, name, more, offset, size, is_signed in LINE.findall(text):
        kind = "l" if front.startswith("__data_loc") else "t" if more else "us"[is_signed == "1"]
        fields.append(Field(name, int(offset), int(size), kind))
    return fields


def told_format(name: str, text: str) -> str:
    """Returns an event's name and those of its fields that are read, from its `format` file, for a recording's head."""
    wanted = {each for _, each, *_ in Formatter().parse(template_of(name)) if each}
    return " ".join([name, *(":".join(map(str, each)) for each in fields_in(text) if each.name in wanted)])


class Format:
    """The format of an event, as a recording's head has it."""

    def __init__(self, text: str) -> None:
        self.name, *words = text.split(" ")
        found = [WORD.fullmatch(word) for word in words]
        self.fields = [Field(each[1], int(each[2]), int(each[3]), each[4]) for each in found if each]
        self.template = template_of(self.name)
        wanted = {each for _, each, *_ in Formatter().parse(self.template) if each}
        if (
            not all(found)
            or {each.name for each in self.fields} != wanted
            or any(each.offset < COMMON for each in self.fields)
        ):
            raise Refusal(f"its head says {shown(text[:80])!r}, an unknown format of an event")
        # The bytes of an event that its text depends on.
        self.low = min((each.offset for each in self.fields), default=0)
        self.end = max((each.offset + each.size for each in self.fields), default=0)
        self.high = 0 if any(each.kind == "l" for each in self.fields) else self.end

    def said(self, data: bytes) -> str:
        """Returns what an event says, from those bytes."""
        if len(data) < self.end - self.low:
            raise Refusal(f"an event {self.name} of it is cut")
        return self.template.format_map({each.name: self.value(each, data) for each in self.fields})

    def value(self, field: Field, data: bytes) -> object:
        own = data[field.offset - self.low :][: field.size]
        if field.kind == "t":
            return text_of(own)
        number = int.from_bytes(own, sys.byteorder, signed=field.kind == "s")
        if field.kind != "l":
            return MEANINGS[field.name](number) if field.name in MEANINGS and self.template[:2] != "0x" else number
        begin, size = (number & 0xFFFF) - self.low, number >> 16
        if begin < 0 or begin + size > len(data):
            raise Refusal(f"an event {self.name} of it has a text outside of it")
        return text_of(data[begin : begin + size])


def text_of(data: bytes) -> str:
    """Returns the text before the first zero, in which what isn't printable is escaped."""
    text = data.partition(b"\0")[0].decode("utf-8", "replace")
    return text if text.isprintable() else shown(text)


class Layout(NamedTuple):
    """Where a page has the size of its events, and where the first one begins."""

    commit: int
    commit_size: int
    data: int

    @classmethod
    def of(cls, header: str) -> Layout:
        """Parses the `header_page` file of tracefs."""
        fields = {each.name: each for each in fields_in(header)}
        return cls(fields["commit"].offset, fields["commit"].size, fields["data"].offset)

    @classmethod
    def parsed(cls, text: str) -> Layout:
        """Parses the line of a head."""
        found = re.fullmatch(r"(8) ([48]) (12|16)", text)
        if not found:
            raise Refusal(f"its head says pages {shown(text[:40])!r}, an unknown format")
        return cls(*map(int, found.groups()))

    def used(self, page: bytes) -> int:
        """Returns how many bytes of a page are used, with its header."""
        commit = int.from_bytes(page[self.commit :][: self.commit_size], sys.byteorder)
        return self.data + (commit & ~LOST & 0xFFFFFFFF)


def stamp_of(page: bytes) -> int:
    """Returns a page's time in ns, which no event in it precedes."""
    return int.from_bytes(page[:8], sys.byteorder)


Page = tuple[int, bytes]  # its processor, and its bytes
Seen = tuple[
    int, int, int, int, Any
]  # of an event: its time, its processor, its flags, its task, and what was made of its kind
Kind = tuple[Mapping[bytes, Any], int, int]  # what is made of an event by some of its bytes, and which


def pages_in(file: IO[bytes]) -> Iterator[Page]:
    """Yields the pages of a recording, in the order of their times."""
    while begin := file.read(INDEX.size):
        cpu, size = INDEX.unpack(begin) if len(begin) == INDEX.size else (0, 0)
        if size > MOST_PAGE or cpu >= 1 << 16:
            raise Refusal("it has a page of an unknown format")
        page = file.read(size)
        if not size or len(page) < size:
            raise Refusal("it is cut: its last page isn't whole")
        yield cpu, page


def decode(page: bytes, cpu: int, layout: Layout, kinds: Mapping[int, Kind], add: Callable[[Seen], None]) -> None:
    """Adds the events of a page that have one of these kinds, by their types."""
    end, time = layout.used(page), stamp_of(page)
    if end > len(page) or end % 4 or len(page) % 4:
        raise Refusal("its size is wrong")
    words, at, end = memoryview(page).cast("I"), layout.data // 4, end // 4 if kinds else 0
    while at < end:
        word = words[at]
        size = word & 31
        at += 1
        if 0 < size < PADDING:
            time += word >> 5
            start = at
            at += size
        elif size == 0:
            time += word >> 5
            start, at = at + 1, at + (words[at] + 3) // 4
        else:
            past, (time, at) = time, special(word, words, time, at, end)
            if time < past:
                raise Refusal("its times go back")
            continue
        first = words[start]
        kind = kinds.get(first & 0xFFFF)
        if kind is not None:
            known, low, high = kind
            data = page[start * 4 + low : start * 4 + high if high else at * 4]
            add((time, cpu, first >> 16, words[start + 1], known[data]))
    if at > end > 0 or time >> 62:
        raise Refusal("its last event isn't whole")


def special(word: int, words: memoryview, time: int, at: int, end: int) -> tuple[int, int]:
    """Returns the time and the place after what is no event: padding, or a time."""
    kind, delta = word & 31, word >> 5
    if kind == PADDING:  # without a delta it lasts to the end
        return time + delta, at + (words[at] + 3) // 4 if delta else end
    return words[at] << 27 | delta if kind == STAMP else time + (words[at] << 27 | delta), at + 1


def events_in(pages: Iterable[Page], layout: Layout, kinds: Mapping[int, Kind]) -> Iterator[list[Seen]]:
    """Yields the events of pages in the order of their times, many at once."""
    held: list[Seen] = []
    last, count = 0, 0
    for count, (cpu, page) in enumerate(pages, 1):
        stamp = stamp_of(page)
        try:
            if stamp < last:
                raise Refusal("it is earlier than the one before")
            if count % AT_ONCE == 0:
                held.sort(key=TIME)
                some = bisect_left(held, (stamp,))
                yield held[:some]
                del held[:some]
            decode(page, cpu, layout, kinds, held.append)
        except (Refusal, IndexError) as error:
            why: Optional[object] = error if isinstance(error, Refusal) else "its last event isn't whole"
            raise Refusal(f"page {count}: {why}") from None
        last = stamp
    held.sort(key=TIME)
    yield held
