"""Tests of fintaqush steps and plot: the page that they write, and what they reject. tests/page.cjs tries what the page shows."""

from __future__ import annotations

import base64
import gzip
import json
import re
from typing import Any

from finding import group_in
from tooltest import HEADER, HERE, SERIES, TOP, InFolder, contrast, run


class Steps(InFolder):
    def own(self, trace: object, *words: object) -> Any:
        """Returns what a page shows first."""
        self.succeeds("steps", trace, "--out", "page.html", *words, folder=self.folder)
        return json.loads(group_in(r"^const OWN = (.*);$", (self.folder / "page.html").read_text(), re.M))

    def test_the_page_has_the_trace_and_the_settings(self) -> None:
        trace = TOP / "examples/two-queues.csv"
        own = self.own(trace, "--raise", "--budget", "2", "--beside", "--weight 3", "--row", "9")
        self.assertEqual(gzip.decompress(base64.b64decode(own.pop("trace"))), trace.read_bytes())
        self.assertEqual(own, {"name": "two-queues.csv", "view": "steps", "row": 9, "raised": True, "sides": [{"budget": 2}, {"weight": 3}]})
        page = (self.folder / "page.html").read_text()
        self.assertEqual([line for line in (TOP / "web/index.html").read_text().split("\n") if line not in page], ["const OWN = null;"])

    def test_each_side_is_replayed_once(self) -> None:
        counted = self.program("counted", f"echo \"$@\" >> '{self.folder}/calls'\nexec '{SERIES}' \"$@\"")
        done = run("steps", TOP / "examples/bursts.csv", "--out", self.folder / "page.html", "--raise", "--budget", "16", "--beside", "", SERIES=counted)
        self.assertEqual((done.stderr, done.returncode), ("", 0))
        self.assertEqual((self.folder / "calls").read_text().splitlines(), ["--raise --budget 16", "--raise"])

    def test_names_are_no_html(self) -> None:
        name = "<script>alert(1)<\u2028>@DATA@.csv"
        self.write(name, (TOP / "examples/two-packets.csv").read_text())
        self.assertIn("<script>alert(1)", self.own(name)["name"])
        self.assertNotIn("<script>alert(1)", (self.folder / "page.html").read_text())

    def test_texts_can_be_read(self) -> None:
        """In both modes text has a contrast of at least 4.5 to its background."""
        for block in re.findall(r":root \{(.*?)\}", (TOP / "web/page/page.css").read_text(), re.S):
            colors = dict(re.findall(r"--(\w+): #([0-9a-f]{6})", block))
            pairs = [("text", ground) for ground in ("page", "empty", "flag", "listed", "chosen")]
            for one, ground in pairs + [(name, "page") for name in ("quiet", "bad", "lost", "fill")]:
                self.assertGreaterEqual(contrast(colors[one], colors[ground]), 4.5, (one, ground, colors))

    def test_refusals(self) -> None:
        for text, why, row in ((HEADER + "0,1,open,8\n", "has no row 2: it has 1 rows", "2"), (HEADER, "has no row 1: it has 0 rows", "1"),
                               ("x\n", "trace fault 1 BadHeader row 0", "1")):
            self.fails(why, "steps", "-", "--out", "page.html", "--row", row, text=text, folder=self.folder)
            self.assertEqual(self.names(), [])
        self.assertEqual(run("steps", "-").returncode, 64)
        for wrong in ("--budget", "--budget x", "'", "3"):
            self.assertEqual(run("steps", "-", "--out", "x.html", "--beside", wrong, folder=self.folder).returncode, 64)


class Plot(InFolder):
    def own(self, *words: object) -> Any:
        """Returns what the page shows first, and its trace."""
        self.succeeds("plot", *words, folder=self.folder)
        own = json.loads(group_in(r"^const OWN = (.*);$", (self.folder / "plot.html").read_text(), re.M))
        return own, gzip.decompress(base64.b64decode(own.pop("trace"))).decode()

    def test_a_trace(self) -> None:
        trace = TOP / "examples/bursts.csv"
        own, text = self.own(trace, "--raise", "--budget", "64", "--beside", "--budget 300")
        self.assertEqual(own, {"name": "bursts.csv", "view": "replay", "row": 1, "raised": True, "sides": [{"budget": 64}, {"budget": 300}]})
        self.assertEqual(text, trace.read_text())

    def test_recordings(self) -> None:
        """Their traces are those that from-ftrace makes."""
        for name in ("recorded-thread.rec", "recorded-pages.rec.gz"):
            [made] = self.converted("from-ftrace", HERE / name, ends=["csv"])
            for tool in ("plot", "steps"):
                self.succeeds(tool, HERE / name, "--out", "page.html", folder=self.folder)
                own = json.loads(group_in(r"^const OWN = (.*);$", (self.folder / "page.html").read_text(), re.M))
                self.assertEqual(gzip.decompress(base64.b64decode(own["trace"])).decode(), made)
        self.fails("recorded-rps.rec.gz: only a processor's backlog polls in it", "plot", HERE / "recorded-rps.rec.gz", folder=self.folder)

    def test_a_page_that_is_there(self) -> None:
        """One that isn't named is replaced only with --force; this is checked before the replay, which would fail here."""
        old = self.write("plot.html", "old\n")
        self.fails("plot.html exists and isn't overwritten; --force replaces it\n", "plot", TOP / "examples/bursts.csv", folder=self.folder, SERIES="/bin/false")
        self.assertEqual(old.read_text(), "old\n")
        cases: list[list[object]] = [["--force"], ["--out", old]]
        for words in cases:
            self.fails("/bin/false ended with status 1", "plot", TOP / "examples/bursts.csv", *words, folder=self.folder, SERIES="/bin/false")
        self.fails("none: there is no such folder\n", "plot", TOP / "examples/bursts.csv", "--out", "none/x.html", folder=self.folder, SERIES="/bin/false")

    def test_what_is_no_trace(self) -> None:
        """A table of what-if, arrivals, a recording and results: each is named, with what reads it."""
        for text, what in (("ring,arrived,used_p99\n4,1,1\n", "a table of fintaqush what-if, which fintaqush compare reads and web/index.html draws"),
                           ("ns,device,bytes,flow\n", "arrivals, which fintaqush what-if reads"), ("fintaqush-recording 1\n", "a recording, which fintaqush advise, "),
                           ('{"version": 1, "tool": "plot"}\n', "results of --json, which fintaqush compare reads"),
                           ("row,moment,device,state\n", "a series of fintaqush series")):
            for tool, words in (("plot", ["--out", "x.html"]), ("steps", ["--out", "x.html"]), ("compare", ["--"])):
                self.fails(f"bad: not a trace, but {what}", tool, self.write("bad", text), *words, folder=self.folder)
