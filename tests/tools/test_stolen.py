"""Tests of what a hypervisor took from the processors: how it is read, recorded, and reported by the tools that predict from a recording."""

from __future__ import annotations

import json
import unittest
import unittest.mock
from collections import Counter
from pathlib import Path
from typing import Any

from test_advise import deferred, file_of, quiet
from tooltest import HAS_MACHINE, InFolder, run

from fintaqush_tools import instances, observed, stolen, verifying
from fintaqush_tools.commands import record
from fintaqush_tools.options import Words

# As proc(5) describes it: after the name user, nice, system, idle, iowait, irq, softirq, steal, guest and guest_nice, in hundredths of a second.
STAT = """cpu  1 2 3 4 5 6 7 8 9 10
cpu0 11 12 13 14 15 16 17 18 19 20
cpu12 21 22 23 24 25 26 27 28 29 30
intr 41 42 43 44 45 46 47 48 49 50
"""
OLD = "cpu0 11 12 13 14\ncpu1 11 12 13 14 15 16 17\n"  # of kernels before 2.6.11
TAKEN = "a hypervisor took 20.0 % of processor 3's time"
AGAIN = f"record again when it takes at most {100 * stolen.MOST:.0f} %"
TOO_HIGH = f"{TAKEN}, so costs and waits may be much too high: {AGAIN}"
NO_BAND = f"the band isn't known, because {TAKEN}: {AGAIN}"
LARGE, LITTLE, UNKNOWN = "5000 5200", "5000 5010", ""  # ms before and after, of the second that the recordings below take


class Shares(unittest.TestCase):
    def test_what_the_kernel_counts(self) -> None:
        for text, taken in ((STAT, {0: 180, 12: 280}), (OLD, {}), ("", {})):
            with unittest.mock.patch.object(observed, "lines_in_proc", lambda name, text=text: text.splitlines() if name == "stat" else []):
                self.assertEqual(observed.stolen(), taken)

    def test_shares_of_a_recording(self) -> None:
        """Of processors with over 1 % of the polls or reads, if it is known: 0 is known."""
        head = {"seconds": "2.5", "stolen.0": "10 10", "stolen.2": "100 350", "stolen.3": "7", "stolen.5": "0 9"}
        self.assertEqual(stolen.shares_in(head, {0: 50, 2: 50, 3: 50, 4: 50}), {0: 0, 2: 0.1})
        self.assertEqual(stolen.shares_in(head, {2: 99, 0: 1}, {5: 7}), {2: 0.1, 5: 0.0036})
        self.assertEqual(stolen.shares_in({**head, "seconds": "0"}, {0: 1}), {})

    def test_which_are_large(self) -> None:
        """Those above 1 % when printed: a hundredth of a second of 0.999 s isn't."""
        self.assertEqual((stolen.told({1: 0.01 / 0.999, 2: 0}), stolen.told({1: 0.0106})), ("", "a hypervisor took 1.1 % of processor 1's time"))
        self.assertEqual(stolen.told({3: 0.2, 2: 0.0, 1: 0.061}), "a hypervisor took 6.1 % of processor 1's time and 20.0 % of processor 3's time")


class Reports(InFolder):
    def test_record(self) -> None:
        """It reports what was taken from the processors that polled: 3 polled vb1, 5 another device."""
        body = unittest.mock.Mock(sent=Counter(va1=9))
        body.napi = instances.instances_in({f"instance.{cpu}": f"device {name} napi {name} kind receive polls 1 packets 1 on {cpu}:1:1"
                                            for name, cpu in (("vb1", 3), ("vb2", 5))})
        head = {"missing": "", "seconds": "1.0", "stolen.5": "0 900"}
        words = Words(device=["vb1"], sender=["va1"], probe=None)
        self.assertEqual(list(record.notes_on(words, {**head, "stolen.3": LARGE}, body)), [TOO_HIGH])
        self.assertEqual(list(record.notes_on(words, head, body)), [])

    def recordings(self) -> list[Path]:
        return [self.write(f"{place}.rec", file_of(quiet(), **{"stolen.3": taken})) for place, taken in enumerate((LARGE, LITTLE, UNKNOWN))]

    def test_costs(self) -> None:
        """Options for another program go to standard output, so the warning goes to standard error."""
        large, little, none = self.recordings()
        self.assertIn(f"\n{TOO_HIGH}\n", self.succeeds("costs", large))
        self.assertEqual(self.ends_with(0, "costs", large, "--words").stderr, f"fintaqush costs: {TOO_HIGH}\n")
        for path, shares in ((large, [{"processor": 3, "share": 0.2}]), (little, [{"processor": 3, "share": 0.01}]), (none, [])):
            self.assertEqual(json.loads(run("costs", path, "--json").stdout)["stolen"], shares)
        self.assertNotIn("hypervisor", self.succeeds("costs", little) + self.succeeds("costs", none))

    def test_compare(self) -> None:
        """The largest share of a processor that polled is a value of the recording."""
        large, little, none = self.recordings()
        told = {each["name"]: (each["before"], each["after"]) for each in map(json.loads, self.succeeds("compare", little, large, "--json").splitlines())}
        self.assertEqual([round(each, 6) for each in told["stolen_percent"]], [1, 20])
        self.assertNotIn("stolen", self.succeeds("compare", none, large, "--json"))


@HAS_MACHINE
class Advice(InFolder):
    def told(self, taken: str) -> tuple[str, Any]:
        """Returns the advice for less processor time, as text and as JSON."""
        path, words = self.write("x.rec", deferred(stolen=taken)), ("--goal", "cpu")
        return self.succeeds("advise", path, *words, "--explain"), json.loads(self.succeeds("advise", path, *words, "--json"))

    def test_a_band_that_is_not_known(self) -> None:
        """The advice is the same, but without a band and without a doubt of the costs."""
        text, told = self.told(LITTLE)
        without, object_ = self.told(LARGE)
        self.assertEqual([line in text for line in ("nine times of ten", "costs may be", NO_BAND)], [True, True, False])
        self.assertEqual([line in without for line in ("nine times of ten ", "costs may be", f"\n{NO_BAND}\n")], [False, False, True])
        self.assertEqual([object_["advised"]["options"], object_["advised"]["values"], object_["stolen"]],
                         [told["advised"]["options"], told["advised"]["values"], [{"processor": 3, "share": 0.2}]])
        self.assertEqual([object_["advised"]["low"], object_["advised"]["high"], object_["costs_doubt_percent"]], [None, None, None])
        self.assertEqual([each is None for each in (told["advised"]["low"], told["costs_doubt_percent"])], [False, False])

    def test_recordings_without_it(self) -> None:
        """That of an earlier version doesn't say what was taken, which isn't nothing."""
        for taken, notes in ((UNKNOWN, [stolen.UNKNOWN]), (LITTLE, [])):
            self.assertEqual([note for note in self.told(taken)[1]["notes"] if "hypervisor" in note], notes)


class Verified(unittest.TestCase):
    def test_a_verdict_without_a_band(self) -> None:
        verdict = verifying.Verdict("polls", [5, 5, 5], [3, 3, 4], 4, None, NO_BAND)
        self.assertEqual(verdict.lines()[1], f"predicted for these packets: 4; {NO_BAND}")
        self.assertEqual((verdict.object()["band"], verdict.object()["verdict"]), (None, "better"))
