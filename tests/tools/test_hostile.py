"""Tests of hostile and of damaged files: names in them are no commands to a shell, a terminal or a spreadsheet, and whatever is in a file, a tool
ends with a message."""

from __future__ import annotations

import contextlib
import gzip
import json
import os
import random
import re
import resource
import shutil
import signal
import struct
import traceback
import unittest.mock
from collections.abc import Sequence
from importlib import import_module
from pathlib import Path
from typing import Any

from test_advise import deferred, file_of
from test_capture import capture_of, datagram, pcapng_of
from tooltest import ENTRY, EXIT, HAS_MACHINE, HERE, MOST_SECONDS, NO_WORDS, PROGRAMS, TOP, InFolder, captured, ftrace, polled, process, run, sent, skip_without, texts_of

from fintaqush_tools import cli, keeping, reports, results
from fintaqush_tools.advice import Change, Machine
from fintaqush_tools.commands import try_
from fintaqush_tools.errors import Refusal
from fintaqush_tools.recording import FORMS
from fintaqush_tools.texts import argument

SIGNS = "$`'\";|&()<>*\\~#?[]{}!^=%"
HOSTILE = ["$(id>P)", "`id>P`", "';id>P;'", '";id>P;"', "a&&id>P", "~root", "#", "*", *(f"v{sign}7" for sign in SIGNS)]
ESCAPE = "\x1b[8m"


class Commands(InFolder):
    """The lines that advise prints for a root shell."""

    # Notes its name and arguments; then it is as `ip netns exec`, or as a pgrep that finds a task.
    STUB = """printf '%s\\0' "${0##*/}" "$@" '' >> "$LOG"
[ "$1" != netns ] || { shift 3; exec "$@"; }
[ "${0##*/}" != pgrep ] || echo 77"""

    def setUp(self) -> None:
        super().setUp()
        for name in ("ip", "ethtool", "sysctl", "taskset", "pgrep"):
            (self.folder / "bin").mkdir(exist_ok=True)
            self.program(f"bin/{name}", self.STUB)
        (self.folder / "bin/sh").symlink_to("/bin/sh")

    def called(self, lines: Sequence[str]) -> list[list[str]]:
        """Gives lines to a shell that finds these programs only, and returns their calls. Files of the kernel are below the folder."""
        (self.folder / "empty").mkdir()
        log, script = self.folder / "log", "\n".join(lines)
        for place in ("/sys/class/net/", "/proc/irq/"):
            script = script.replace(place, f"{self.folder}{place}")
        done = process("/bin/bash", "-c", script, folder=self.folder / "empty", PATH=self.folder / "bin", LOG=log)
        self.assertEqual((done.stderr, done.stdout, list((self.folder / "empty").iterdir())), ("", "", []), lines)
        (self.folder / "empty").rmdir()
        calls = [call.split("\0") for call in log.read_text(errors="surrogateescape").split("\0\0")[:-1]] if log.exists() else []
        log.unlink(missing_ok=True)
        return calls

    def matched(self, pattern: str, names: Sequence[str]) -> list[str]:
        """Returns the names that a pattern of pgrep matches, which are those of grep -E."""
        return process("grep", "-E", "-e", pattern, text="".join(f"{name}\n" for name in names)).stdout.splitlines()

    def test_names_are_arguments(self) -> None:
        """For each kind of line, with and without a namespace, and names of at most 15 characters."""
        for name in HOSTILE:
            files = {self.folder / f"sys/class/net/{name}/gro_flush_timeout": "20000\n", self.folder / "proc/irq/40/smp_affinity_list": "3\n"}
            changes = [Change("sysfs", "gro_flush_timeout", 20000, 0), Change("irq", "40", 3, ""), Change("ring", "rx", 512, 256),
                       Change("coalesce", "rx-usecs", 10, 0), Change("table", "equal", 4, None), Change("sysctl", "netdev_max_backlog", 99, 9)]
            for netns in ("", name):
                for path in files:
                    path.parent.mkdir(parents=True, exist_ok=True)
                    path.unlink(missing_ok=True)
                machine = Machine({"netns": netns}, name, 3)
                calls = self.called([machine.line_of(change) for change in changes])
                own = [call for call in calls if call[0] != "ip"]
                self.assertEqual(own, [["ethtool", "-G", name, "rx", "512"], ["ethtool", "-C", name, "rx-usecs", "10"],
                                       ["ethtool", "-X", name, "equal", "4"], ["sysctl", "-w", "net.core.netdev_max_backlog=99"]])
                self.assertEqual([call[:4] for call in calls if call[0] == "ip"], [["ip", "netns", "exec", name]] * 4 * bool(netns))
                self.assertEqual({path: path.read_text() for path in files}, files)

    def test_what_stays_after_a_reboot(self) -> None:
        """A file for each change that a boot can make, which one command undoes; for others, and for a name that udev would read as a pattern, the reason
        why there is none. In each name the shell sees a name."""
        for place in ("sysctl.d", "udev/rules.d", "sys/class/net/eth0", "sys/class/net/v$(id>P)7"):
            (self.folder / place).mkdir(parents=True)
        changes = [Change("sysctl", "netdev_max_backlog", 4000, 1000), Change("sysfs", "gro_flush_timeout", 20000, 0), Change("coalesce", "rx-usecs", 20, 3),
                   Change("irq", "24", 2, "0-3"), Change("threads", "eth0", 3, None)]
        rule, wanted = 'ACTION=="add|move", SUBSYSTEM=="net", KERNEL=="eth0", ', [["sysctl", "-w", "net.core.netdev_max_backlog=1000"], ["ethtool", "-C", "eth0", "rx-usecs", "3"]]
        patches: dict[str, Any] = {"apply": lambda *_: None, "move": lambda _, change, before: before.update({77: {0, 2}})}
        with unittest.mock.patch.object(keeping, "ETC", str(self.folder)), unittest.mock.patch.multiple(Machine, **patches):
            kept = keeping.keep(Machine({}, "eth0", 3), changes)
            names = [Path(each["file"]).name for each in kept]
            self.assertEqual(names, ["90-fintaqush-netdev_max_backlog.conf", "90-fintaqush-eth0-gro_flush_timeout.rules", "90-fintaqush-eth0-rx-usecs.rules", "", ""])
            lines = [Path(each["file"]).read_text().splitlines() for each in kept if each["file"]]
            self.assertEqual([last for _, _, last in lines], ["net.core.netdev_max_backlog = 4000", rule + 'ATTR{gro_flush_timeout}="20000"',
                             rule + f'RUN+="{shutil.which("ethtool") or "/usr/sbin/ethtool"} -C eth0 rx-usecs 20"'])
            self.assertIn("the interrupts may have other numbers then", keeping.lines_of(kept)[6])
            (self.folder / "proc/irq/24").mkdir(parents=True)
            (self.folder / "bin/rm").symlink_to("/bin/rm")
            calls = self.called([each["undo"] for each in kept])
            self.assertEqual([call for call in calls if call[0] in ("sysctl", "ethtool")], wanted)
            self.assertEqual(calls[-1], ["taskset", "-pc", "0,2", "77"])
            self.assertEqual([(self.folder / name).read_text() for name in ("sys/class/net/eth0/gro_flush_timeout", "proc/irq/24/smp_affinity_list")], ["0\n", "0-3\n"])
            self.assertEqual([path for place in ("sysctl.d", "udev/rules.d") for path in (self.folder / place).iterdir()], [])
            hostile = keeping.keep(Machine({}, "v$(id>P)7", 3), changes[1:2])
            self.assertEqual((hostile[0]["file"], hostile[0]["why"]), ("", "its name has characters with a meaning for udev"))
            self.called([hostile[0]["undo"]])
            self.assertEqual(keeping.file_of(Machine({"netns": "x"}, "eth0", 3), changes[1]), ("", "its network namespace is gone then"))

    def test_what_cannot_stay(self) -> None:
        """If a change or its file fails, all are restored, and no file is left."""
        (self.folder / "sysctl.d").mkdir()
        made: list[tuple[str, object]] = []
        changes = [Change("sysctl", "netdev_max_backlog", 4000, 1000), Change("sysfs", "gro_flush_timeout", 20000, 0)]
        with unittest.mock.patch.object(keeping, "ETC", str(self.folder)), unittest.mock.patch.object(Machine, "apply", lambda _, change, value: made.append((change.name, value))):
            self.assertRaises(Refusal, keeping.keep, Machine({}, "eth0", 3), changes)  # there is no udev/rules.d
        self.assertEqual(made, [("netdev_max_backlog", 4000), ("gro_flush_timeout", 20000), ("gro_flush_timeout", 0), ("netdev_max_backlog", 1000)])
        self.assertEqual(list((self.folder / "sysctl.d").iterdir()), [])

    def test_names_are_no_patterns(self) -> None:
        """The tasks to pin are those of a name: of a program that has it, and of the device's threads, whose names begin so."""
        for name in [*HOSTILE, "c++app", "a.b", "-x", "a long name that Linux cuts"]:
            machine, comm, thread = Machine({}, name, 3), name[:15], f"napi/{name}-"[:15]
            others = [comm[:-1] + "z", f"{comm}x"[-15:], f"x{comm}"[:15], comm + comm, comm.replace(name[1:2], "z") if name[1:] else "z"]
            lines = [machine.line_of(Change("program", name, 2, None)), machine.line_of(Change("threads", name, 3, None))]
            (_, program), one, (_, threads), other = self.called(lines)
            self.assertEqual((one, other), (["taskset", "-apc", "2", "77"], ["taskset", "-pc", "3", "77"]))
            self.assertEqual(self.matched(program, [comm, *(each for each in others if each != comm)]), [comm], name)
            self.assertEqual(self.matched(threads, [f"{thread}1", thread, f"x{thread}", f"napi/z{name}-1"]), [f"{thread}1", thread], name)
        self.assertEqual(self.called([Machine({}, "eth0", 3).line_of(Change("program", "1234", 2, None))]), [["taskset", "-apc", "2", "1234"]])

    def test_commands_of_other_tools(self) -> None:
        """Commands in messages have quoted names: the launcher's for a packed trace, and the tool's own in a folder with any name."""
        for name in [*HOSTILE, "-x", "å", ESCAPE, "a\nb", "\udcff"]:
            with unittest.mock.patch.object(try_, "TOP", f"/none/{name}"):
                lines = [f"ip {argument(name)}", f"ip {try_.command()}"]
            self.assertTrue("".join(lines).isprintable())
            calls = self.called(lines)
            self.assertEqual(calls[0], ["ip", name])
            self.assertEqual(os.path.abspath(calls[1][1]), f"/none/{name}/fintaqush")

    @HAS_MACHINE
    def test_a_hostile_recording(self) -> None:
        """Its lines name what it names."""
        netns, device = "r;touch${IFS}P", "v$(id>P)b7"
        text = deferred().replace("vb1", device).replace("netns receiver", f"netns {netns}")
        lines = self.succeeds("advise", self.write("x.rec", text), "--goal", "cpu").partition("to set it, as root:\n")[2].splitlines()
        (self.folder / "sys/class/net" / device).mkdir(parents=True)
        calls = self.called([line for line in lines if line.startswith("  ")])
        self.assertEqual([call[:5] for call in calls], [["ip", "netns", "exec", netns, "sh"]] * 2)
        self.assertEqual((self.folder / "sys/class/net" / device / "gro_flush_timeout").read_text(), "500000\n")


class Heads(InFolder):
    def test_forms_that_record_never_writes(self) -> None:
        """Each tool that reads a recording refuses them, whichever it is, and shows them without their escape sequences."""
        calls: dict[str, list[object]] = {"advise": [], "costs": [], "from-ftrace": ["made"], "compare": [HERE / "recorded-apart.rec"]}
        wrong = {"device": ["a/b", "..", "-x", "(no_device)", "a .."], "polled": ["(no_device) vb1"], "netns": ["../x", "a b", "-n"], "program": ['a"b', "å"],
                 "program.pids": ["abc", "1 -2", "9" * 5000, "²"], "pair": ["va1", "va1:vb1:x"], "seconds": ["abc", "1e999", "nan"], "udp.RcvbufErrors": ["1", "1 x"]}
        for key in FORMS:
            for value in [ESCAPE, f"x{ESCAPE}", "v" * 300, *wrong.get(key, [])]:
                path = self.write("x.rec", file_of("", **{key: value}))
                for tool, words in calls.items():
                    said = self.fails(f"x.rec: its head has {key} '", tool, path, *words, folder=self.folder)
                    self.assertTrue(said[:-1].isprintable(), said)

    def test_values_that_count_as_none(self) -> None:
        """An empty time, and a digit that int doesn't take, are as if the head lacked them."""
        begin, *lines = (HERE / "recorded-apart.rec").read_text().splitlines(True)
        for key, value in (("seconds", ""), ("sysctl.net.core.gro_normal_batch", "²")):
            others = [line for line in lines if not line.startswith(f"{key} ")]
            path = self.write("x.rec", "".join([begin, f"{key} {value}\n", *others]))
            self.succeeds("costs", path)
            self.succeeds("compare", path, HERE / "recorded-apart.rec")


class Terminal(InFolder):
    def check(self, text: str, name: str) -> None:
        """Checks that a text has the name, without what a terminal would obey."""
        self.assertIn(name.replace("\x1b", "\\x1b"), text)
        self.assertTrue(text.replace("\n", "").isprintable(), text)

    def test_names_of_events(self) -> None:
        """Linux takes an escape sequence as the name of a device, and any program as its own."""
        name = f"v{ESCAPE}"
        events = [(1, ENTRY), (2, sent("va1")), (3, sent(name)), (4, polled("vb1", 1)), (5, polled(name, 1)),
                  (6, EXIT)]
        path = self.write("x.txt", ftrace(*events))
        for words in (NO_WORDS, ["--arrivals"]):
            self.check("".join([self.succeeds("from-ftrace", path, "made", *words, "--force", folder=self.folder), (self.folder / "made.notes").read_text()]), name)
        self.check(self.fails("", "from-ftrace", path, "made", "--pair", "x:y", "--force", folder=self.folder), name)

    def test_names_of_interfaces(self) -> None:
        name = f"e{ESCAPE}"
        path = self.write("x.txt", captured("100.000000", name=name))
        for words in (NO_WORDS, ["--arrivals"]):
            self.check("".join([self.succeeds("from-pcap", path, "made", *words, "--force", folder=self.folder), (self.folder / "made.notes").read_text()]), name)

    def test_names_of_files_and_options(self) -> None:
        for tool in ("costs", "from-ftrace", "from-pcap"):
            self.check(self.fails("", tool, ESCAPE, *["made"] * tool.startswith("from"), folder=self.folder), ESCAPE)
        for words in (["x", ESCAPE], ["x", "--fail-if", ESCAPE], ["x", "--json", f"{ESCAPE}/none"]):
            self.check(self.fails("", "costs", *words, status=64), ESCAPE)


def by_clock(resolution: int) -> bytes:
    """Returns a capture whose interface has this if_tsresol in place of 9."""
    whole = pcapng_of(101, [datagram(0, 1)] * 20)
    return whole.replace(struct.pack("<HHB", 9, 1, 9), struct.pack("<HHB", 9, 1, resolution))


class Damaged(InFolder):
    def test_a_recording_without_a_device(self) -> None:
        self.fails("x.rec: its head has no device, which fintaqush record always writes", "advise", self.write("x.rec", file_of("", device="")))

    def test_a_process_that_is_no_number(self) -> None:
        self.fails("x.rec: its head has program.pids 'abc', which", "advise", self.write("x.rec", file_of("", **{"program.pids": "abc"})))

    def test_a_capture_with_times_beyond_64_bits(self) -> None:
        """A tick of a second: the times in ns that the packets have are 10^9 times as long."""
        (self.folder / "x.pcap").write_bytes(by_clock(0))
        for words in (NO_WORDS, ["--arrivals"]):
            self.fails("x.pcap: a packet's time is 100000000000 s, by 1 ticks per second (if_tsresol)", "from-pcap", "x.pcap", "made", *words, folder=self.folder)


TOKENS = [b"", b"0", b"-1", b"-", b"18446744073709551616", b"9" * 5000, b"1e999", b"nan", b"\xff", b"\x00", b" ", b",", b"\n", b"\r", b'"', b"..", b"%s", b"\xc2\xb2",
          b"(no_device)", b":", b"=1+1", b"+5", b".5", b"eth0", b"$(id)", ESCAPE.encode(), b"\\u001b[8m", b"4294967295", b"[" * 2000]


class Damage:
    """A file's bytes, changed by chance in some places."""

    def __init__(self, chance: random.Random) -> None:
        self.chance = chance

    def of(self, text: bytes, is_binary: bool = False) -> bytes:
        for _ in range(self.chance.choice((1, 1, 1, 2, 3, 8))):
            text = self.in_bytes(text) if is_binary or self.chance.random() < 0.4 else self.in_lines(text)
        return text

    def in_bytes(self, text: bytes) -> bytes:
        """Returns a text with a few bytes removed, repeated or replaced, mostly among the first ones."""
        begin = self.chance.randrange(min(len(text), self.chance.choice((60, 60, len(text)))) + 1)
        end = min(len(text), begin + self.chance.choice((1, 1, 2, 4, 20, 200)))
        some = self.chance.choice((b"", bytes([self.chance.randrange(256)]), self.chance.choice(TOKENS), 50 * text[begin:end],
                                   struct.pack("<I", self.chance.choice((0, 1, 12, 65535, 2**31, 2**32 - 1)))))  # of a length, or of a time
        return text[:begin] + some + text[self.chance.choice((begin, end, end, begin + len(some))) :]

    def in_lines(self, text: bytes) -> bytes:
        """Returns a text with a line, a word or a number removed, repeated or replaced, mostly among the first lines."""
        lines = text.split(b"\n")
        place = self.chance.randrange(min(len(lines), self.chance.choice((40, 40, 90, len(lines)))))
        words = re.split(rb"([ ,:={}\"]+|(?<=\D)(?=\d)|(?<=\d)(?=\D))", lines[place])
        words[self.chance.randrange(len(words))] = self.chance.choice(TOKENS)
        changed: list[list[bytes]] = [[], [lines[place]] * 2, *([b"".join(words)] for _ in range(3))]
        lines[place : place + 1] = self.chance.choice(changed)
        return b"\n".join(lines)


class Fuzz(InFolder):
    """Each tool that reads files, with files that chance damaged, in a process of its own that may take 30 s of processor time and 3 GB. The
    seeds are always the same."""

    CASES = 150  # of each kind

    def setUp(self) -> None:
        super().setUp()
        self.chance = random.Random(self.id())
        self.damage = Damage(self.chance)
        for module in cli.MODULES.values():
            import_module(f"fintaqush_tools.commands.{module}")

    def child(self, words: Sequence[object]) -> None:
        """Calls the command in this process, which it ends."""
        signal.signal(signal.SIGALRM, signal.SIG_DFL)
        signal.alarm(MOST_SECONDS)
        for limit, most in ((resource.RLIMIT_CPU, 30), (resource.RLIMIT_AS, 3 << 30), (resource.RLIMIT_FSIZE, 1 << 28)):
            resource.setrlimit(limit, (most, most))
        os.chdir(self.folder)
        os.environ.update(PROGRAMS)
        for number, name, how in ((0, "in", os.O_RDONLY), (1, "out", os.O_WRONLY), (2, "err", os.O_WRONLY)):
            os.dup2(os.open(name, how | os.O_CREAT | os.O_TRUNC * bool(number)), number)
        cli.start(texts_of(words))

    def check(self, *words: object) -> None:
        """Checks that a call ends with a message, and prints nothing that a terminal obeys."""
        pid = os.fork()
        if not pid:
            try:
                self.child(words)
            finally:
                traceback.print_exc()
                os._exit(99)
        status = os.waitstatus_to_exitcode(os.waitpid(pid, 0)[1])
        out, said = ((self.folder / name).read_bytes() for name in ("out", "err"))
        case = words, status, said[-500:], {path.name: path.read_bytes()[:3000] for path in self.folder.glob("x*")}
        self.assertIn(status, (0, 1, 2, 3, 64), case)
        self.assertNotRegex(said, b"a mistake of its own|Traceback", case)
        self.assertNotIn(b"\x1b", out + said, case)
        self.assertTrue(said or status != 1, case)

    def one_of(self, *words: Sequence[object]) -> Sequence[object]:
        return self.chance.choice(words)

    def put(self, name: str, text: bytes) -> str:
        """Writes a file. One in twenty is packed, and the packed bytes are damaged."""
        if self.chance.random() < 0.05:
            text = self.damage.of(gzip.compress(text, 1), True)
        (self.folder / name).write_bytes(text)
        return name

    def some(self, *paths: str) -> bytes:
        """Returns one of these files, damaged. The head of a recording counts its lines again most of the time, so that it is read to its end."""
        whole = (TOP / self.chance.choice(paths)).read_bytes()
        text = self.damage.of(gzip.decompress(whole) if whole[:2] == b"\x1f\x8b" else whole)
        if b"\npages\n" in text[:20000] and self.chance.random() < 0.7:  # some of the pages too
            head, _, pages = text.partition(b"\npages\n")
            text = head + b"\npages\n" + self.damage.of(pages, True)
        count = text.partition(b"\ntrace\n")[2].count(b"\n")
        return re.sub(rb"(?m)^lines \d+$", b"lines %d" % count, text) if self.chance.random() < 0.8 else text

    RECORDINGS = ["examples/veth-backlog.rec", *(f"tests/tools/recorded-{name}" for name in ("apart.rec", "thread.rec", "card.rec.gz", "gap.rec.gz", "virtio.rec.gz", "pages.rec.gz", "pages.rec.gz"))]
    TEXTS = ["tests/tools/soft-tcp.txt", "tests/tools/soft-gso-23.txt"]
    TRACES = [f"examples/{name}.csv" for name in ("bursts", "busy-poll", "two-packets", "two-queues")]

    @HAS_MACHINE
    def test_advise(self) -> None:
        for _ in range(self.CASES):
            self.check("advise", self.put("x.rec", self.some(*self.RECORDINGS)), "--packets", "100", "--goal", self.chance.choice(("p99", "cpu", "drops")))

    def test_other_readers_of_recordings(self) -> None:
        for _ in range(self.CASES):
            path = self.put("x.txt", self.some(*self.RECORDINGS, *self.TEXTS))
            self.check("costs", path, *self.one_of([], ["--json"]))
            self.check("from-ftrace", path, "made", "--force", *self.one_of([], ["--arrivals"], ["--arrivals", "--flows"]))

    @skip_without("node")
    def test_recordings_on_the_page(self) -> None:
        """The code of web/index.html makes the bytes of from-ftrace of all kept recordings and texts, and of damaged ones, or fails with its message."""
        kept = [*sorted((TOP / "tests/tools").glob("recorded-*.rec*")), TOP / "examples/veth-backlog.rec", *(TOP / name for name in self.TEXTS)]
        texts = [gzip.decompress(path.read_bytes()) if path.suffix == ".gz" else path.read_bytes() for path in kept]
        texts += [self.some(*self.RECORDINGS, *self.TEXTS) for _ in range(2 * self.CASES)]
        paths = [self.folder / f"x{number}" for number in range(len(texts))]
        for path, text in zip(paths, texts):
            path.write_bytes(text)
        done = process("node", TOP / "tests/recordings.cjs", *paths)
        self.assertEqual((done.stderr, done.returncode, done.stdout.count("\n")), ("", 0, len(paths)))
        made = 0
        for path, line in zip(paths, done.stdout.splitlines()):
            for words, seen in zip((NO_WORDS, ["--arrivals"]), json.loads(line)):
                ended, case = run("from-ftrace", path, self.folder / "made", "--force", *words), (path.read_bytes()[:3000], words, seen.get("error"))
                self.assertLess(seen["seconds"], 30, case)
                if ended.returncode == 0:
                    self.assertEqual(seen.get("text"), (self.folder / "made.csv").read_text(), case)
                    made += 1
                    continue
                self.assertEqual(ended.returncode, 1, case)
                self.assertIn("error", seen, (*case, ended.stderr))
                self.assertTrue(seen["isOurs"], case)
                if not re.search("polls in it|size is wrong|earlier than", seen["error"]):  # which the page says otherwise, or in another order
                    self.assertEqual(seen["error"].replace("\\", ""), ended.stderr.partition(f"{path}: ")[2].rstrip().replace("\\", ""), case)
        self.assertGreater(made, 2 * len(kept) - 4)

    def test_captures(self) -> None:
        for seed in range(2 * self.CASES):
            whole = self.chance.choice((capture_of(seed, count=30), capture_of(seed, count=30, order=">"), by_clock(self.chance.choice((9, 6, 0, 0x80, 255)))))
            words = self.one_of([], ["--flows"], ["--to", "10.0.0.2"], ["-Q", "inout"])
            self.check("from-pcap", self.put("x.pcap", self.damage.of(whole, True)), "made", "--force", "--arrivals", *words)
            text = "".join(captured(f"100.{place:06}") for place in range(9)).encode()
            self.check("from-pcap", self.put("x.txt", self.damage.of(text)), "made", "--force")

    def test_traces(self) -> None:
        for _ in range(self.CASES):
            path = self.put("x.csv", self.some(*self.TRACES))
            self.check(*self.one_of(["plot", path, "--out", "x.html"], ["steps", path, "--out", "x.html"], ["compare", path, "--budget", "2", "--"]))

    def test_arrivals(self) -> None:
        for _ in range(self.CASES):
            arrivals = b"ns,device,bytes\n" + b"".join(b"%d,%d,60\n" % (700 * place, 1 + place % 2) for place in range(30))
            words = self.one_of([], ["--load", "0.5,2"], ["--until", "drops"], ["--queues", "2"])
            self.check("what-if", self.put("x.csv", self.damage.of(arrivals)), "--ring", "2,4", *words)

    def test_results(self) -> None:
        """Of our programs, and of the tools themselves."""
        row: dict[str, object] = {"ring": 2, "load": 1, "arrived": 10, "dropped": 1, "interrupts": 3, "polls": 3, "used_p50": 1000, "used_p99": 2000}
        texts = [",".join(row) + "\n" + ",".join(map(str, row.values())) + "\n", "".join(results.json_lines("what-if", [row]))]
        report = b"device 1 on arrived 2 dropped 0 polled 2 bytes 120 left 0 polls 1\nlist 1 2\ntotal devices 1 runs 0 polls 0 work 0 squeezed 0\n"
        rows = b"trace,sum,budget,weight,window,raise,status,fault,raised,polls,work,squeezed,dropped,left,greatest_limit\nt,0,2,64,1024,no,0,,,1,2,1,1,6,100\n"
        for _ in range(2 * self.CASES):
            self.check("compare", *(self.put(f"x{place}", self.damage.of(self.chance.choice(texts).encode())) for place in range(2)))
            with contextlib.suppress(Refusal, UnicodeError):
                reports.objects_of(self.damage.of(report).decode())
            self.check("sweep", TOP / "examples/two-packets.csv", "--out", self.put("x.rows", self.damage.of(rows)), "--resume", "--fail-if", "dropped>1")
