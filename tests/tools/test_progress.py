"""Tests of the progress of long work: its share and the time left, on a terminal's standard error only, and not with --quiet."""

from __future__ import annotations

import os
import re
import subprocess
import threading
import unittest.mock
from typing import Any

from tooltest import HAS_MACHINE, MACHINE, MOST_SECONDS, REPLAY, SERIES, START, TOP, InFolder, run, started

from fintaqush_tools import choosing, progress

BURSTS = TOP / "examples/bursts.csv"
# Programs wait until the progress was seen; with --quiet for longer than until it would be shown.
WAIT = f"for _ in $(seq {10 * MOST_SECONDS}); do [ ! -e seen ] || break; sleep 0.1; done"
LONG = 1.5
# The part that is read before it waits is half of 40 kB and more than one read.
HALF = f"head -c 20000 > /dev/null; {WAIT}; exit 1"


class Shown(InFolder):
    def seen(self, tool: str, *words: object, pattern: str = "", is_ended: bool = False, **variables: object) -> str:
        """Returns what a tool writes on a terminal that is its standard error. Once that has a pattern, the programs that wait go on, or the tool
        is ended; without a pattern they wait for a time."""
        ours, theirs = os.openpty()
        ends = {"stdout": subprocess.DEVNULL, "stderr": theirs}
        (self.folder / "seen").unlink(missing_ok=True)
        go_on = threading.Timer(LONG, (self.folder / "seen").touch)
        with started(*START, tool, *words, folder=self.folder, ends=ends, **variables) as child:
            os.close(theirs)
            text = b""
            if not pattern:
                go_on.start()
            try:
                while part := os.read(ours, 65536):
                    text += part
                    if pattern and re.search(pattern, text.decode()):
                        child.terminate() if is_ended else (self.folder / "seen").touch()
            except OSError:  # end of the terminal
                pass
            os.close(ours)
        return text.decode()

    def check(self, pattern: str, tool: str, *words: object, **variables: Any) -> None:
        """Checks that the progress is shown and its line cleared, and that --quiet hides it."""
        text = self.seen(tool, *words, pattern=pattern, **variables)
        self.assertRegex(text, rf"\r\x1b\[Kfintaqush {tool}: {pattern}")
        self.assertTrue(text.rpartition(f"fintaqush {tool}: {re.findall(pattern, text)[-1]}")[2].partition("\r\x1b[K")[1], "it isn't cleared")
        self.assertNotIn("\x1b[K", self.seen(tool, *words, "--quiet", **variables))

    def test_rows_of_a_sweep(self) -> None:
        slow = self.program("slow", f"[ \"$2\" = 1 ] || {WAIT}\nexec '{REPLAY}' \"$@\"")
        words = [BURSTS, "--budget", "1,2,3,4", "--jobs", "1"]
        pattern = r"\r\x1b\[Kfintaqush sweep: making 4 rows, 25 %, \d+ s left"
        self.assertRegex(self.seen("sweep", *words, "--out", "rows", pattern=pattern, PROGRAM=slow), pattern)
        self.assertNotIn("\x1b[K", self.seen("sweep", *words, "--out", "others", "--quiet", PROGRAM=slow))

    def test_a_row_of_what_if(self) -> None:
        """By the share of the arrivals that the program has read."""
        arrivals = self.write("arrivals", "ns,device,bytes\n" + "".join(f"{place:019},1,60\n" for place in range(1600)))
        wanted = "making 1 row, 50 %, "
        self.assertIn(wanted, self.seen("what-if", arrivals, pattern=wanted, MACHINE=self.program("half", HALF)))

    @HAS_MACHINE
    def test_a_search_of_what_if(self) -> None:
        """After each load; the fifth one waits until the progress was seen."""
        arrivals = self.write("arrivals", "ns,device,bytes\n" + "".join(f"{10000 * place},1,60\n" for place in range(300)))
        slow = self.program("slow", f"echo >> probes; [ $(wc -l < probes) != 5 ] || {{ {WAIT}; }}\nexec '{MACHINE}' \"$@\"")
        wanted = r"searching 1 load, [1-9]\d %, "
        words = [arrivals, "--ring", "1", "--until", "drops", "--band", "0", "--jobs", "1"]
        self.assertRegex(self.seen("what-if", *words, pattern=wanted, MACHINE=slow), wanted)

    def test_a_capture(self) -> None:
        """By the share of the capture that tcpdump has read."""
        capture = self.folder / "capture.pcap"
        capture.write_bytes(b"\xd4\xc3\xb2\xa1" + b"\0" * 39996)
        self.program("tcpdump", HALF)
        self.check(r"reading, 50 %, \d+ s left", "from-pcap", capture, "made", PATH=f"{self.folder}:{os.environ['PATH']}")

    @HAS_MACHINE
    def test_settings_of_advise(self) -> None:
        shown: list[str] = []

        def show(text: str, *_: object) -> None:
            shown.append(text)
            (self.folder / "seen").touch()

        slow = self.program("slow", f"cd {self.folder}; {WAIT}\nexec '{MACHINE}' \"$@\"")
        predictions = choosing.Predictions(str(slow), {"poll": 2000, "packet": 300}, "ns,device,bytes\n0,1,60\n", [1])
        with unittest.mock.patch.multiple(progress, show=show, can_be_shown=lambda: True):
            self.assertEqual([values["lost"] for values in predictions.of_all([{"budget": 64}, {"budget": 300}])], [0, 0])
        self.assertEqual(shown[0], "predicting 2 settings, 0 %")

    def test_what_is_made_and_what_is_read(self) -> None:
        """Enough of both for a faster machine; the tool is ended once its progress is seen."""
        made, read = (rf"fintaqush {what}, \d+ %, \d+ s left" for what in ("traffic: making arrivals", "from-ftrace: reading"))
        words = ["--arrivals", "--rate", "100000", "--seconds", "16", "--out", "made.csv"]
        self.assertRegex(self.seen("traffic", *words, pattern=made, is_ended=True), made)
        line = "   a-1  [000] b....  5.{:06}: net_dev_xmit: dev=va1 skbaddr=0 len=60 rc=0\n"
        recording = self.write("recording", "".join(map(line.format, range(500000))))
        self.assertRegex(self.seen("from-ftrace", recording, "trace", "--arrivals", pattern=read, is_ended=True), read)

    def test_elsewhere_nothing_is_shown(self) -> None:
        slow = self.program("slow", f"sleep {LONG}\nexec '{SERIES}' \"$@\"")
        done = run("steps", BURSTS, "--out", "x.html", folder=self.folder, SERIES=slow)
        self.assertEqual((done.stderr.count("\n"), "\r" in done.stderr, done.returncode), (0, False, 0))

    def test_a_line_that_is_written_when_its_block_ends(self) -> None:
        """It is cleared all the same."""
        lines: list[str] = []
        is_written, working = threading.Event(), progress.Progress("working")

        def slowly(text: str) -> None:
            if text not in ("", progress.CLEAR):
                is_written.set()
                assert working.over
                working.over.wait()
            lines.append(text)

        with unittest.mock.patch.multiple(progress, put=slowly, can_be_shown=lambda: True), \
                unittest.mock.patch.object(os, "get_terminal_size", lambda _: os.terminal_size((80, 24))):
            with working:
                is_written.wait()
        self.assertEqual(lines, [lines[0], progress.CLEAR])
