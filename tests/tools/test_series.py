"""Tests of napi_series: its lines equal the values in the reports of all prefixes, and its faults equal napi_replay's."""

from __future__ import annotations

import random
import unittest
from collections.abc import Sequence

from prefixes import report_of, series_by_reports, values_of
from tooltest import HEADER, NO_WORDS, REPLAY, SERIES, TOP, process

NAMES = "row,moment,device,state,waiting,arrived,dropped,polled,in_flight,limit,avail,stopped,polls,work,squeezed,word,list,gave\n"

# Every event, a full ring, a pending disable, a thread, a queue over its limit, a rejected completion.
MIXED = """0,1,open,3 0,2,open,2 1,1,rx,100 1,1,rx,200 1,2,rx,300 1,1,rx,50 1,1,rx,60 2,0,softirq,0 2,1,disable,0 3,0,softirq,0
3,1,rx,70 4,2,threaded,1 4,2,tx,500 4,2,tx,600 4,2,tx,700 5,2,done,1 6,2,done,9 6,2,rx,80 7,2,kthread,0 7,0,softirq,0
7,0,softirq,0 7,0,softirq,0 7,0,softirq,0 8,1,enable,0 8,1,tx,65535 2000,1,done,1 2001,2,done,0 2001,0,softirq,0
2001,2,disable,0 2002,1,threaded,0""".split()


class Series(unittest.TestCase):
    def check_prefixes(self, rows: Sequence[str], words: list[str], every: int = 1, header: str = HEADER) -> None:
        """Checks that the series equals the reports of the replays of all prefixes."""
        options = ["--every", str(every)] if every > 1 else []
        done = process(SERIES, *options, *words, text=header + "".join(f"{row}\n" for row in rows))
        self.assertEqual((done.stderr, done.returncode), ("", 0))
        self.assertEqual(done.stdout, series_by_reports(rows, words, every, header))

    def test_it_agrees_with_the_reports_of_prefixes(self) -> None:
        """Small traces of both versions, and pieces of recordings."""
        traces = {name: (TOP / f"examples/{name}.csv").read_text().split() for name in (
            "two-packets", "bursts", "queue-limit", "busy-poll", "linux-napi-disable", "linux-veth-threaded")}
        self.assertEqual(traces["busy-poll"][0], "moment,device,event,value,2")
        for name, (header, *rows) in {**traces, "mixed": [HEADER.strip(), *MIXED]}.items():
            if name.startswith("linux"):
                self.check_prefixes(rows[:600], ["--budget", "64"] if "disable" in name else [], 7)
                continue
            for words in (NO_WORDS, ["--budget", "2"], ["--weight=1", "--window", "1"])[: 2 if name == "busy-poll" else 3]:
                self.check_prefixes(rows, words, 1, f"{header}\n")
            self.check_prefixes(rows, [], 3, f"{header}\n")
            self.check_prefixes(rows, ["--budget", "1"], len(rows) + 1, f"{header}\n")

    def test_by_hand(self) -> None:
        """A packet arrives and is polled. The limit of 0 stops the queue at its first 100 bytes, so that the second packet is held back; their
        completion raises the limit by 100."""
        text = HEADER + "0,1,open,8\n3,1,rx,60\n4,0,softirq,0\n5,1,tx,100\n6,1,tx,100\n7,1,done,1\n"
        self.assertEqual(process(SERIES, text=text).stdout, NAMES + "1,0,1,on,0,0,0,0,,,,,,,,0,,\n2,3,1,on,1,1,0,0,,,,,,,,4294967297, 1,\n"
                         "3,4,0,,,,,,,,,,1,1,0,,, 1:1\n4,5,1,on,0,1,0,1,100,0,-100,1,,,,0,,\n5,6,1,on,0,1,0,1,100,0,-100,1,,,,0,,\n"
                         "6,7,1,on,0,1,0,1,0,100,100,0,,,,0,,\n")

    def test_polls_by_hand(self) -> None:
        """With a budget of 2 packets and a weight of 1 the run polls both devices once, of a whole weight, and requeues both. In the next
        run device 1 takes its second packet; device 2 has none left and no missed request, so it completes."""
        text = HEADER + "0,1,open,8\n0,2,open,8\n1,1,rx,60\n1,1,rx,60\n1,2,rx,60\n2,0,softirq,0\n3,0,softirq,0\n"
        lines = process(SERIES, "--polls", "--budget", "2", "--weight", "1", text=text).stdout.splitlines()
        self.assertEqual(lines[0], NAMES.strip() + ",ended")
        fields = [dict(zip(lines[0].split(","), line.split(","))) for line in lines[6:]]
        self.assertEqual([[one[name] for name in ("row", "device", "waiting", "polled", "polls", "work", "squeezed", "list", "gave", "ended")] for one in fields],
                         [["6.1", "1", "1", "1", "1", "1", "", " 2 1", " 1:1", "repoll"], ["6.2", "2", "0", "1", "1", "1", "", " 1 2", " 2:1", "repoll"],
                          ["6", "0", "", "", "2", "2", "1", " 1 2", " 1:1 2:1", ""],
                          ["7.1", "1", "0", "2", "1", "1", "", " 2 1", " 1:1", "repoll"], ["7.2", "2", "0", "1", "1", "0", "", " 1", " 2:0", "complete"],
                          ["7", "0", "", "", "2", "1", "0", " 1", " 1:1 2:0", ""]])

    def test_polls_are_those_of_shorter_runs(self) -> None:
        """The state after K polls of a first run is that of a run with a window of K: the poll list, and what the report has of the polled device."""
        tried = 0
        for number in range(12):
            dice = random.Random(number)
            devices = range(1, dice.choice([2, 4]) + 1)
            rows = [f"0,{device},open,{dice.choice([2, 8])}" for device in devices]
            rows += [f"1,{dice.choice(devices)},rx,60" for _ in range(dice.choice([3, 9]))] + ["2,0,softirq,0"]
            words = dice.choice([["--weight", "1"], ["--weight", "2", "--budget", "7"], ["--budget", "3"]])
            lines = process(SERIES, "--polls", *words, text=HEADER + "".join(f"{row}\n" for row in rows)).stdout.splitlines()
            names = lines[0].split(",")
            polls = [dict(zip(names, line.split(","))) for line in lines if "." in line.split(",")[0]]
            self.assertEqual(int(dict(zip(names, lines[-1].split(",")))["polls"]), len(polls))
            for place, poll in enumerate(polls, 1):
                report = report_of(rows, [*words, "--window", str(place)], HEADER)
                told = values_of(len(rows), f"2,{poll['device']},softirq,0", report, report)
                self.assertEqual([poll["row"], *(poll[name] for name in ("list", "state", "waiting", "arrived", "dropped", "polled", "word"))],
                                 [f"{len(rows)}.{place}", *(told[name] for name in ("list", "state", "waiting", "arrived", "dropped", "polled", "word"))], number)
                tried += 1
        self.assertGreater(tried, 20)

    def test_no_rows(self) -> None:
        self.assertEqual(process(SERIES, text=HEADER).stdout, NAMES)

    def test_faults_are_those_of_the_replay(self) -> None:
        for rows in ("x\n", "0,1\n", "x,1,open,4\n", "0,1,what,4\n", "0,17,open,4\n", "0,1,rx,4\n", "0,1,open,4\n0,1,open,4\n",
                     "0,1,open,4\n0,1,enable,0\n", "0,1,open,4\n1,1,rx,100\n2,1,disable,0\n3,1,enable,0\n",
                     "0,1,open,4\n" + "0,1,rx,1\n" * 100000):
            for words in (NO_WORDS, ["--every", "2"]):
                mine = process(SERIES, *words, text=HEADER + rows)
                theirs = process(REPLAY, text=HEADER + rows)
                self.assertNotEqual(theirs.returncode, 0)
                self.assertEqual((mine.stdout, mine.stderr, mine.returncode), ("", theirs.stderr, theirs.returncode))
        self.assertEqual(process(SERIES, text="").stderr, "trace fault 1 BadHeader row 0\n")

    def test_words(self) -> None:
        for words in (["--every"], ["--every", "0"], ["--every", "x"], ["--every", "100000"], ["--every", "-1"], ["--every", ""],
                      ["--every", "2", "--every", "2"], ["--budget", "2", "--every", "2"], ["--help"], ["-"], ["--budget", "0"],
                      ["--every", "2", "--mode", "threads"]):
            done = process(SERIES, *words, text=HEADER)
            self.assertEqual((done.stdout, done.stderr, done.returncode), ("", "usage fault 64\n", 64), words)
        for words in (["--every", "99999"], ["--every", "00001"], ["--every", "2", "--budget=5", "--mode", "serial"]):
            done = process(SERIES, *words, text=HEADER)
            self.assertEqual((done.stdout, done.stderr, done.returncode), (NAMES, "", 0), words)
        for words in (["--raise="], ["--raise=x"], ["--raise=100000"], ["--raise", "--raise"], ["--polls", "--polls"], ["--rows", "--rows"], ["--raised"],
                      ["--budget", "2", "--raise"], ["--rows", "--polls"], ["--every", "2", "--rows"]):
            self.assertEqual(process(SERIES, *words, text=HEADER).stderr, "usage fault 64\n", words)
        for words in (["--raise=99999", "--every", "2"], ["--every", "2", "--raise=0", "--budget=5"]):
            self.assertEqual(process(SERIES, *words, text=HEADER).stdout, NAMES, words)
        self.assertEqual(process(SERIES, "--polls", "--every", "2", "--raise", text=HEADER).stdout, NAMES.replace("\n", ",ended\n"))
        self.assertEqual([process(SERIES, *words, text=HEADER).stdout for words in (["--rows"], ["--rows", "--raise"], ["--raise=3", "--rows"])], [HEADER] * 3)
        done = process(SERIES, b"--every", b"\xff")
        self.assertEqual((done.stderr, done.returncode), ("usage fault 64\n", 64))
