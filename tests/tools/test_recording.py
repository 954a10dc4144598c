"""Tests of how recordings are read: texts of other tools and of older versions, and pages of the kernel's ring buffer."""

from __future__ import annotations

import gzip
import struct
import tempfile
import unittest
from unittest.mock import patch

from test_record import check_same
from tooltest import HERE, InFolder

from fintaqush_tools import recording, ring_buffer
from fintaqush_tools.errors import Refusal
from fintaqush_tools.recording import Event, Events, Pages, Texts

SWITCH = "sched_switch: prev_comm=a prev_pid=1 prev_prio=120 prev_state=S ==> next_comm=server [x] next_pid=25933 next_prio=120"


def order_of(event: Event) -> tuple[int, int]:
    return event.cpu, event.time


def events_of(text: str, lost: list[str]) -> Events:
    """Returns the events of a text."""
    events = Events()
    Texts([events], lost).add(text)
    return events


class Lines(unittest.TestCase):
    def events(self, *lines: str) -> list[Event]:
        return events_of("".join(f"{line}\n" for line in lines), [])

    def test_by_hand(self) -> None:
        """A name that ftrace doesn't know is that of the last switch to the thread; calls and their returns have names of their own."""
        lines = ["           <...>-25933   [001] ..... 5.000000001: napi_poll: x", f"               a-1       [001] d..2. 5.000000002: {SWITCH}",
                 "           <...>-25933   [001] ..... 5.000000003: sys_recvmsg(fd: 3, msg: 0x7f)", "           <...>-25933   [001] ..... 5.000000004: sys_recvmsg -> 0x64",
                 "        a-b c-25933   [001] ..... 5.000000005: sys_recvmsg(fd: 4)", "        a-b c-25933   [011] d.s.. 12.100000006: sys_recvmsg -> 0x1"]
        second = 10**9
        calls = [Event(5, "a-b c", 1, ".....", 5 * second + 5, "sys_enter_recvmsg", "(fd: 4)", 25933), Event(6, "a-b c", 11, "d.s..", 12_100_000_006, "sys_exit_recvmsg", "0x1", 25933)]
        events = self.events(*lines)
        self.assertEqual([(each.task, each.time) for each in events[:4]],
                         [("<...>", 5 * second + 1), ("a", 5 * second + 2), ("server [x]", 5 * second + 3), ("server [x]", 5 * second + 4)])
        self.assertEqual(events[4:], calls)

    def test_a_look_before_the_rest_is_read(self) -> None:
        """After a piece in which the number of events exceeds 1; there are three pieces of three events."""
        counts: list[int] = []
        events = Events()
        text = "".join(f"a-1 [000] ..... 1.{number:09}: softirq_entry: vec=3\n" for number in range(9))
        with tempfile.NamedTemporaryFile("w") as file, patch.multiple(recording, EARLY=1, PIECE=len(text) // 3):
            file.write(text)
            file.flush()
            recording.read(file.name, [], lambda _: [events], lambda: counts.append(len(events)))
        self.assertEqual((counts, len(events)), ([3], 9))

    def test_other_forms(self) -> None:
        """Stamps in microseconds, brackets in a name and other tools' forms; lost events are no events."""
        lines = ["a-1 [000] ..... 1.000001: softirq_entry: vec=3", "a [b]-1 [000] ..... 1.000000002: softirq_entry: vec=3", "a 1/1 [000] 1.000000003: irq:softirq_entry: vec=3"]
        lost: list[str] = []
        events = events_of("".join(f"{line}\n" for line in [*lines, "CPU:0 [LOST 7 EVENTS]"]), lost)
        self.assertEqual([(each.task, each.time, each.name, each.said) for each in events],
                         [("a", 1_000_001_000, "softirq_entry", "vec=3"), ("a [b]", 1_000_000_002, "softirq_entry", "vec=3"), ("a", 1_000_000_003, "softirq_entry", "vec=3")])
        self.assertEqual(lost, ["line 4 of the recording: the kernel lost 7 events"])
        for wrong in ("a-x [000] ..... 1.000000001: napi_poll: x\n", "a-1 [0x0] ..... 1.000000001: napi_poll: x\n"):
            with self.assertRaises(Refusal):
                events_of(f"{lines[1]}\n{wrong}", [])


class Faults(InFolder):
    def test_faults_of_texts(self) -> None:
        line = "a-1 [000] ..... 1.000000001: softirq_entry: vec=3\n"
        text, at, wrong = line * 3000, len(line) * 2000, "line 2001: no line of ftrace, .*: 'what'"
        for name, whole, why in (("bad", f"{text[:at]}what\n{text[at:]}", wrong), ("long", text[:at] + "a" * 9999, "line 2001: longer than any line of ftrace"),
                                 ("cut", text[:-9], "it is cut: line 3000 isn't whole")):
            with self.assertRaisesRegex(Refusal, why):
                recording.read(str(self.write(name, whole)), [], lambda _: [Events()])
        (self.folder / "packed.gz").write_bytes(gzip.compress(text.encode(), 0)[: len(line) * 1500])
        with self.assertRaisesRegex(Refusal, "it isn't whole: "):
            recording.read(str(self.folder / "packed.gz"), [], lambda _: [Events()])


# As Documentation/trace/ring-buffer-design.rst and `cat events/header_event` describe them: the low five bits of an event's first word have its length
# in words, or 0 if the next word has it in bytes, or 29, 30 and 31; the others have the time since the event before.
VEC, EXIT = 7, 8  # numbers of two formats
HEAD = {"pages": "8 8 16", f"format.{VEC}": "softirq_entry vec:8:4:u", f"format.{EXIT}": "softirq_exit vec:8:4:u", "format.9": "net_dev_xmit skbaddr:8:8:u len:16:4:u rc:20:4:s name:24:4:l"}


def event(data: bytes, delta: int, is_long: bool = False) -> bytes:
    size = len(data) // 4
    return struct.pack("<II", delta << 5, len(data) + 4) + data if is_long else struct.pack("<I", size | delta << 5) + data


def entry(vector: int, delta: int, kind: int = VEC, pid: int = 5, flags: int = 0x10, **others: bool) -> bytes:
    return event(struct.pack("<HBBiI", kind, flags, 1, pid, vector), delta, **others)


def page(stamp: int, *parts: bytes, lost: int = 0) -> bytes:
    data = b"".join(parts)
    return struct.pack("<QQ", stamp, len(data) | lost) + data


def pages_read(*pages: tuple[int, bytes], **others: str) -> Events:
    """Returns the events of pages, each with its processor."""
    events = Events()
    passing = Pages([events], {**HEAD, **others})
    passing.add(iter(pages))
    passing.end()
    return events


class PagesRead(InFolder):
    def test_pages_of_the_kernel(self) -> None:
        """Kept ones are what the same kernel printed of the same buffers."""
        events, text = Events(), Events()
        recording.read(str(HERE / "recorded-pages.rec.gz"), [], lambda _: [events])
        recording.read(str(HERE / "recorded-pages.txt.gz"), [], lambda _: [text])
        self.assertEqual(len(text), 2519)
        check_same(self, events, text)
        switches = [[recording.SWITCH[each.said] for each in some if each.name == "sched_switch"] for some in (sorted(events, key=order_of), sorted(text, key=order_of))]
        self.assertEqual(*switches)

    def test_times(self) -> None:
        """Of events, of a longer time between two (1 << 27 ns), of a time that is whole, and after padding, which ends a page if it has no time."""
        whole = page(1000, entry(1, 0), entry(2, 7), struct.pack("<II", 30 | 3 << 5, 2), entry(3, 1), struct.pack("<III", 29 | 4 << 5, 8, 0), entry(4, 1, is_long=True),
                     struct.pack("<II", 31 | 9 << 5, 1 << 20), entry(5, 1), struct.pack("<II", 29, 0), entry(6, 1))
        times = [1000, 1007, 1007 + (2 << 27) + 3 + 1, 1007 + (2 << 27) + 3 + 1 + 4 + 1, (1 << 47) + 9 + 1]
        self.assertEqual([(each.time, each.said) for each in pages_read((0, whole))], [(time, f"vec={place}") for place, time in enumerate(times, 1)])

    def test_events_of_several_processors(self) -> None:
        """In the order of their times, with the task and whether it is interrupted; what a page says of lost events before it doesn't count as its size."""
        one = page(100, *(entry(1, 10, pid=1, flags=flags) for flags in (0, 8, 0x10, 0x18, 0x40)))
        two = page(105, *(entry(2, 10, EXIT, pid=2) for _ in range(3)), lost=1 << 31)
        events = pages_read((0, one), (3, two), **{"task.1": "napi/eth0-1"})
        self.assertEqual([(each.time, each.cpu, each.name[8:], each.task, each.flags[2:]) for each in events],
                         [(110, 0, "entry", "napi/eth0-1", "."), (115, 3, "exit", "<...>", "s"), (120, 0, "entry", "napi/eth0-1", "h"), (125, 3, "exit", "<...>", "s"),
                          (130, 0, "entry", "napi/eth0-1", "s"), (135, 3, "exit", "<...>", "s"), (140, 0, "entry", "napi/eth0-1", "H"), (150, 0, "entry", "napi/eth0-1", "h")])

    def test_many_pages(self) -> None:
        """Of four processors, whose times overlap."""
        pages = [(place % 4, page(place * 10, *(entry(place, 7) for _ in range(9)))) for place in range(1000)]
        times = [each.time for each in pages_read(*pages)]
        self.assertEqual(times, sorted(place * 10 + 7 * each for place in range(1000) for each in range(1, 10)))

    def test_windows_and_a_probe(self) -> None:
        """A window follows the one before at once, and events between two don't count. The events of a probe are for the readers that want them."""
        pages = [(0, page(100 * place, *(entry(place, 20) for _ in range(4)))) for place in range(1, 6)]
        found = [(each.time, each.said) for each in pages_read(*pages, windows="120:150 340:460", probe="500")]
        self.assertEqual(found, [(120, "vec=1"), (140, "vec=1"), (150, "vec=3"), (170, "vec=3"), (190, "vec=3"), (230, "vec=4"), (250, "vec=4")])
        self.assertEqual({each.said for each in pages_read(*pages, probe="300")}, {"vec=1", "vec=2"})
        with patch.object(Events, "is_probed", True):
            self.assertEqual(len(pages_read(*pages, probe="300")), 20)

    def test_parts_of_a_large_recording(self) -> None:
        """Readers for which some parts are enough get two of eight pages in each of ten parts; the others get all."""
        pages = [(0, page(1000 * place, *(entry(1, 100) for _ in range(4)))) for place in range(80)]
        cuts, events, sampled = list[int](), Events(), Events()
        with patch.multiple(recording, PARTS=10, SAMPLE=20), patch.object(ring_buffer, "AT_ONCE", 1), patch.object(sampled, "is_sampled", True, create=True), \
                patch.object(sampled, "cut", cuts.append, create=True):
            passing = Pages([events, sampled], {**HEAD, "pages.count": "80"})
            passing.add(iter(pages))
            passing.end()
        self.assertEqual(len(events), 320)
        self.assertEqual([each.time // 1000 for each in sampled][::4], [place for place in range(80) if (place + 1) % 8 < 2])
        self.assertEqual(len(cuts), 10)
        self.assertEqual((round(sampled.share, 1), sampled.span[0]), (0.3, 0))

    def test_damaged_pages(self) -> None:
        packet = struct.pack("<HBBiQIiI", 9, 0, 0, 5, 1, 60, 0, 4 << 16 | 28)
        good = page(100, event(packet + b"va1\0", 1))
        self.assertEqual(pages_read((0, good))[0].said, "dev=va1 skbaddr=1 len=60 rc=0")
        cases = [((page(100, entry(1, 1)), page(99, entry(1, 1))), "page 2: it is earlier than the one before"), ((page(1 << 62, entry(1, 1)),), "page 1: its last event"),
                 ((page(100, entry(1, 1)) + b"12",), "page 1: its size is wrong"), ((page(100, entry(1, 1))[:-4],), "page 1: its size is wrong"),
                 ((page(100, entry(1, 1)[:8]),), "page 1: its last event isn't whole"), ((page(100, struct.pack("<II", 31, 0)),), "page 1: its times go back"),
                 ((page(100, event(packet[:20], 1)),), "page 1: an event net_dev_xmit of it is cut"), ((page(100, event(packet, 1)),), "page 1: an event net_dev_xmit of it has a text outside"),
                 ((page(100, event(packet[:-4] + struct.pack("<I", 4 << 16 | 2), 1)),), "page 1: an event net_dev_xmit of it has a text outside"), ((b"",), "page 1: its size is wrong")]
        for pages, why in cases:
            with self.assertRaisesRegex(Refusal, f"^{why}"):
                pages_read(*((0, each) for each in pages))
        for key, value in (("pages", "8 8"), ("pages", "8 8 9"), ("format.7", "softirq_entry vec:8:4"), ("format.7", "softirq_entry"), ("format.7", "softirq_entry vec:8:4:u vec:8:4:x"),
                           ("format.7", "softirq_entry vec:4:4:u"), ("windows", "5:4"), ("windows", "1:2 x"), ("probe", "x"), ("windows", "1:5 3:9")):
            with self.assertRaisesRegex(Refusal, "its head (says|has)"):
                pages_read(**{key: value})

    def test_files_that_are_cut(self) -> None:
        """A message names the file and the place; it does so too for a head without an end, and for another version."""
        whole = gzip.decompress((HERE / "recorded-pages.rec.gz").read_bytes())
        at = whole.index(b"\npages\n") + 7
        for end, why in ((at - 3, "it is cut: its head has no end"), (at + 5, "it is cut: its last page isn't whole"), (len(whole) - 1, "it is cut: its last page isn't whole")):
            (self.folder / "x.rec").write_bytes(whole[:end])
            self.fails(f"x.rec: {why}", "costs", "x.rec", folder=self.folder)
        (self.folder / "x.rec").write_bytes(whole[:at] + struct.pack("<II", 0, 1 << 30) + whole[at:])
        self.fails("x.rec: it has a page of an unknown format", "costs", "x.rec", folder=self.folder)
        (self.folder / "x.rec").write_bytes(whole.replace(b"recording 2", b"recording 3", 1))
        self.fails("another version of fintaqush record wrote it; this one reads versions 1 and 2", "costs", "x.rec", folder=self.folder)
