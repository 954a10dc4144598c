"""Tests of how fintaqush compare compares results and recordings, of the conditions of --fail-if, and of the form of all results as JSON.
Expected values are written by hand."""

from __future__ import annotations

import contextlib
import gzip
import io
import json
import unittest
from pathlib import Path
from typing import Any

from tooltest import HERE, NO_WORDS, TOP, InFolder, run

from fintaqush_tools import comparing, parts, results, thresholds
from fintaqush_tools.comparing import Value
from fintaqush_tools.options import Parser

RECORDED = HERE / "recorded-apart.rec"
ARRIVALS = "ns,device,bytes\n" + "".join(f"{1000 * place},1,60\n" for place in range(50))


class Noise(unittest.TestCase):
    def test_the_mean_of_several(self) -> None:
        """Of 1, 2 and 3 the standard deviation is 1, that of the mean 0.577, and Student's t with two degrees of freedom 4.30."""
        self.assertAlmostEqual(comparing.half_width([1, 2, 3]), 2.483, 3)
        self.assertAlmostEqual(comparing.half_width([1.0] * 12), 0)

    def test_a_change_within_its_noise(self) -> None:
        """3 and 4 together are 5, which a change has to exceed."""
        for after, verdict in ((105, "within the noise"), (106, "higher"), (95, "within the noise"), (94, "lower"), (100, "the same")):
            self.assertEqual(comparing.Change("", "x", Value(100, 3), Value(after, 4)).verdict(), verdict)
        self.assertEqual(comparing.Change("", "x", Value(100, None), Value(900, 4)).verdict(), "noise unknown")
        self.assertIsNone(comparing.Change("", "x", Value(0), Value(1)).percent)


class Ranks(InFolder):
    """What the parts of recordings show."""

    # The 99th percentiles of ten parts, in ns: one of those before is out of all proportion.
    LOW = (24_000, 35_000, 40_000, 51_000, 62_000, 75_000, 88_000, 120_000, 196_000, 13_800_000)
    HIGH = (558_000, 561_000, 563_000, 566_000, 569_000, 571_000, 573_000, 575_000, 578_000, 580_000)

    def test_critical_values(self) -> None:
        """For two samples of ten the published one at 5 % is 23 pairs in the other order; 2 of the 184756 orders put all of one sample above the other,
        and 2 of 70 with two samples of four. With ties: by Fisher's exact test 7 of 10 against none of 10 have 2 * 120 of 77520."""
        ten = tuple(range(10))
        self.assertLessEqual(comparing.chance_of(ten, (1.5, 1.6, 2.5, *range(10, 17))), 0.05)
        self.assertGreater(comparing.chance_of(ten, (1.5, 1.6, 1.7, *range(10, 17))), 0.05)
        self.assertAlmostEqual(comparing.chance_of(ten, tuple(range(10, 20))), 2 / 184756)
        self.assertAlmostEqual(comparing.chance_of((5, 6, 7, 8), (1, 2, 3, 4)), 2 / 70)
        self.assertAlmostEqual(comparing.chance_of(10 * (0,), 3 * (0,) + 7 * (1,)), 1 / 323)
        self.assertEqual(comparing.chance_of((1, 1), (1, 1, 1)), 1)

    def compared(self, before: Value, after: Value, condition: str) -> str:
        """Returns the verdict on a 99th percentile in two recordings, and the status with this condition."""
        sides = iter([{"": {"used_p99": each}} for each in (before, after)])
        names = [self.write(name, "") for name in ("a", "b")]
        with unittest.mock.patch.object(comparing, "values_in_file", lambda *_: next(sides)):
            done = run("compare", *names, "--fail-if", condition)
        return f"{done.stdout.splitlines()[1].split('%')[-1].split(maxsplit=0)[0].strip()}, {done.returncode}"

    def test_one_part_hides_no_change(self) -> None:
        """From 80 to 587 us, where a single part makes the interval of the mean 3885 % wide; and such a part alone is no change."""
        low, high = (Value(middle, comparing.half_width(parts), parts) for middle, parts in ((80_000, self.LOW), (587_000, self.HIGH)))
        self.assertGreater(comparing.half_width(self.LOW), 38 * 80_000)
        self.assertEqual(self.compared(low, high, "p99>+10%"), "higher, 3")
        self.assertEqual(self.compared(high, low, "p99<-10%"), "lower, 3")
        calm = (*self.LOW[:9], 80_000)
        self.assertEqual(self.compared(Value(80_000, 0, calm), Value(900_000, 0, self.LOW), "p99>+10%"), "within the noise, 0")
        self.assertEqual(self.compared(Value(900_000, 0, self.LOW), Value(587_000, 0, self.HIGH), "p99<-10%"), "within the noise, 0")

    def test_how_many_parts_it_needs(self) -> None:
        """With three files on each side the intervals decide, because 2 of 20 orders put all of one above the other; with four the ranks do. A
        recording's parts aren't compared with other files."""
        for count, is_of_files, is_ranked in ((3, True, False), (4, True, True), (4, False, False)):
            before, after = (Value(1, 2, tuple(values[:count]), is_it) for values, is_it in ((self.LOW, True), (self.HIGH, is_of_files)))
            self.assertEqual(comparing.Change("", "x", before, after).is_ranked, is_ranked)


class Conditions(unittest.TestCase):
    VALUES = {"dropped": 3, "p99": 250_000, "use_percent": 40.5}

    def conditions(self, *texts: str) -> list[thresholds.Condition]:
        parser = Parser()
        thresholds.add_fail_if(parser, list(self.VALUES), ["p99"])
        found: list[thresholds.Condition] = parser.parse_args([word for text in texts for word in ("--fail-if", text)]).fail_if
        return found

    def test_which_hold(self) -> None:
        """A time without a unit is in ns, a share in percent with and without its sign."""
        holds = ["dropped>2", "p99>200us", "p99 > 0.2ms", "p99>=250000", "p99>249999ns", "use_percent>40%", "use_percent>40", "use_percent<=40.5"]
        fails = ["dropped>3", "p99>250us", "p99>1s", "use_percent>41%", "use_percent>41"]
        self.assertEqual([it.holds(self.VALUES) for it in self.conditions(*holds, *fails)], [True] * len(holds) + [False] * len(fails))

    def test_units_that_a_value_has_not(self) -> None:
        for text in ("dropped>1%", "dropped>1us", "p99>1%", "use_percent>1us", "use%>1", "other>1", "p99>", "p99>-1"):
            with contextlib.redirect_stderr(io.StringIO()), self.assertRaises(SystemExit, msg=text) as end:
                self.conditions(text)
            self.assertEqual(end.exception.code, 64)


class Files(InFolder):
    def result(self, name: str, tool: str, *objects: dict[str, object]) -> Path:
        return self.write(name, "".join(results.json_lines(tool, objects)))

    def costs(self, name: str, value: float, half: float = 0) -> Path:
        return self.result(name, "costs", {"costs": {"poll": {"value": value, "low": value - half, "high": value + half}}})

    def test_limits_of_a_change(self) -> None:
        """The exit status is 3 only if the change exceeds both the limit and the noise; a limit without a sign is for the value after."""
        before, after = self.costs("a", 1000, 30), self.costs("b", 1100, 40)  # 100 ns, of which 50 may be noise
        noisy = self.costs("c", 1100, 120)
        for words, status in ((["poll>+9%"], 3), (["poll>+10%"], 0), (["poll>+99ns"], 3), (["poll>+0.1us"], 0), (["poll<-1%"], 0), (["poll>1us"], 3), (["poll>2us"], 0)):
            done = run("compare", before, after, *(word for each in words for word in ("--fail-if", each)))
            self.assertEqual(done.returncode, status, (words, done.stderr))
        self.assertEqual(run("compare", before, noisy, "--fail-if", "poll>+9%").returncode, 0)
        self.assertEqual(run("compare", after, before, "--fail-if", "poll<-9%").returncode, 3)
        self.assertIn("poll changed by +10.0 %", run("compare", before, after, "--fail-if", "poll>+9%").stderr)
        self.assertIn("there is no p99 on both sides; these are: poll", run("compare", before, after, "--fail-if", "p99>+1%").stderr)
        for wrong in ("poll>10%", "poll>+", "+1%"):
            self.assertEqual(run("compare", before, after, "--fail-if", wrong).returncode, 64, wrong)

    def test_several_files_on_a_side(self) -> None:
        """Means of 2000 and of 1010, 990 and 1000; the noise is that between the files."""
        names = [self.costs(f"f{value}", value) for value in (1990, 2010, 2000, 1010, 990, 1000)]
        done = self.succeeds("compare", *names[:3], "--", *names[3:], "--json")
        told = json.loads(done)
        self.assertEqual((told["name"], told["before"], told["after"], told["change_percent"], told["is_noise"]), ("poll", 2000, 1000, -50, False))
        self.assertAlmostEqual(told["noise"], 2**0.5 * 24.83, 1)

    def test_rows_are_matched_by_their_options(self) -> None:
        """By those that vary, whichever order they have; ranges over seeds are noise."""
        rows: list[dict[str, Any]] = [{"arrivals": "a", "ring": ring, "budget": 300, "used_p99": wait, "used_p99_least": wait - 2, "used_p99_most": wait + 2, "status": 0, "fault": None}
                for ring, wait in ((1, 100), (2, 200))]
        before = self.result("a", "what-if", *rows)
        twice: list[dict[str, Any]] = [{**row, "used_p99": 2 * row["used_p99"]} for row in reversed(rows)]
        after = self.result("b", "what-if", *twice)
        told = list(map(json.loads, self.succeeds("compare", before, after, "--json").splitlines()))
        self.assertEqual([(each["row"], each["before"], each["after"], round(each["noise"], 2)) for each in told], [("ring 1", 100, 200, 2.83), ("ring 2", 200, 400, 2.83)])
        self.assertEqual(run("compare", before, after, "--fail-if", "p99>+99%").returncode, 3)
        other = self.result("c", "what-if", rows[0], {**rows[1], "ring": 7})
        self.assertIn("only before: ring 2\nonly after: ring 7\n", self.succeeds("compare", before, other))

    def test_what_isnt_compared(self) -> None:
        trace, good = TOP / "examples/bursts.csv", self.costs("a", 1)
        self.fails("neither results", "compare", good, trace)
        self.fails("no value in common", "compare", good, self.result("b", "what-if", {"dropped": 1}))
        self.fails("results of top, which aren't compared", "compare", good, self.result("c", "top", {"title": "x"}))
        self.fails("not the results of one tool in version 1", "compare", good, self.write("d", '{"version": 2, "tool": "costs"}\n'))
        self.fails("not the results of --json", "compare", good, self.write("e", "{\n"))
        self.fails("no file before --, to compare b.csv with", "compare", "--", "b.csv", status=64)
        self.fails("a: not a trace, but results of --json, which fintaqush compare reads", "compare", good, "--")
        for words in (["a", "b", "c"], ["a", "b", "--raise"], ["a", "--budget", "1", "--", "b"], NO_WORDS):
            self.fails("fintaqush compare: error: ", "compare", *words, status=64)

    def test_damaged_files(self) -> None:
        """Each is refused by a line that names the file, and the line of it."""
        good, head, json_head = self.costs("good", 1), "ring,used_p99\n", '{"version": 1, "tool": "what-if", '
        for text, why in (
            (head, "bad: it names columns, and has no row"),
            (head + "3,abc\n", "bad: line 2: its 'used_p99' is 'abc', and not of type int or float"),
            (head + "3,1\n4," + 5000 * "1" + "\n", f"bad: line 3: '{40 * '1'}' isn't a number that a result has"),
            (head + "3,1\n4,5,6\n", "bad: line 3: it has 3 cells, and the first line names 2 columns"),
            (head + "3,1\n4\n", "bad: line 3: it has 1 cells, and the first line names 2 columns"),
            (head + "\n", "bad: line 2: it has 0 cells"),
            (head + "3,1\n4,5", "bad: line 3: it is cut: no newline ends it"),
            (head + '3,"1\n', "bad: line 2: not a line of CSV: unexpected end of data"),
            (head + "\udcff,1\n", "bad: line 2: it is no UTF-8"),
            ("used_p99,used_p99\n1,1\n", "bad: line 1: it has 2 cells, and the first line names 1 columns"),
            (json_head + '"used_p99": 1e999}\n', "bad: line 1: '1e999' isn't a number that a result has"),
            (json_head + '"used_p99": Infinity}\n', "bad: line 1: 'Infinity' isn't a number that a result has"),
            (json_head + '"used_p99": ' + 5000 * "1" + "}\n", f"bad: line 1: '{40 * '1'}' isn't a number that a result has"),
            (json_head + '"used_p99": true}\n', "bad: line 1: its 'used_p99' is 'True', and not of type int or float"),
            (json_head + '"x": ' + 200_000 * "[" + "\n", "bad: line 1: not the results of --json: it is nested too deep"),
            (json_head + '"x": "\udcff"}\n', "bad: line 1: not the results of --json: no UTF-8"),
            (json_head + '"used_p99": 1}\n\n', "bad: line 2: not the results of --json"),
            (json_head + '"used_p99": 1}\n[]\n', "bad: line 2: not the results of --json: no object"),
            ('{"version": 1, "tool": "costs"}\n', "bad: line 1: its 'costs' is 'None', and not of type dict"),
            ('{"version": 1, "tool": "costs", "costs": {"poll": {"value": 1}}}\n', "bad: line 1: its 'low' is 'None'"),
            ('{"version": 1, "tool": "replay"}\n', "bad: line 1: its 'line' is 'None', and not of type str"),
            ('{"version": 1, "tool": "replay", "line": "tx"}\n', "bad: line 1: its 'device' is 'None', and not of type int"),
            ('{"version": 1, "tool": "replay", "line": "list"}\n', "bad: line 1: its 'devices' is 'None', and not of type list"),
            ('{"version": 1, "tool": "advise", "costs": {}, "check": [3]}\n', "bad: line 1: its 'name' is 'None', and not of type str"),
        ):
            (self.folder / "bad").write_bytes(text.encode("utf-8", "surrogateescape"))
            self.assertTrue(self.fails(why, "compare", good, self.folder / "bad").count("\n") == 1, why)

    def test_a_file_that_grows(self) -> None:
        """Results that are longer than any are refused before all of them are in memory."""
        with gzip.open(self.folder / "bad.gz", "wb", compresslevel=1) as file:
            file.write(b"{" + bytes(1 << 20) * 65)
        self.fails("bad.gz: longer than any result, over 64 MiB", "compare", self.folder / "bad.gz", self.costs("a", 1))

    def test_names_of_rows_and_values(self) -> None:
        """What isn't printable in a name of a file is escaped."""
        files = [self.write(name, "trace,polls\na\x1b[8m,1\nb,2\n".replace("1", polls)) for name, polls in (("a", "1"), ("b", "3"))]
        self.assertIn("trace a\\x1b[8m  polls", self.succeeds("compare", *files))
        self.assertIn("with trace a\\x1b[8m", self.ends_with(3, "compare", *files, "--fail-if", "polls>+1").stderr)
        files = [self.result(name, "advise", {"costs": {}, "check": [{"name": "a\x1b[8m", "measured": measured}]}) for name, measured in (("a", 1), ("b", 3))]
        self.assertIn("  a\\x1b[8m       1      3 ", self.succeeds("compare", *files))

    def test_recordings(self) -> None:
        """Of the short recording 63 packets came in 6.6 ms; compared with itself nothing changes, and a wait's noise isn't known of so few."""
        told = [json.loads(line) for line in self.succeeds("compare", RECORDED, RECORDED, "--json").splitlines()]
        self.assertEqual({each["is_noise"] for each in told if each["noise"] is not None}, {True})
        values = {each["name"]: each for each in told}
        self.assertTrue({"used_p99", "delivered_p50", "dropped_percent", "packets_per_poll", "poll", "use"} <= values.keys())
        self.assertEqual(values["packets_per_poll"]["before"], 63 / 31)  # as its head has them
        self.assertIsNone(values["used_p99"]["noise"])
        self.assertIn("changed by more than the noise, ", self.succeeds("compare", RECORDED, RECORDED))

    def test_counters_of_the_kernel(self) -> None:
        """Squeezed runs and drops of the processor that polled, number 3, and datagrams that found a socket full: 33, 44 and 55 more in 6.6 ms. Those of
        another processor don't count. Costs of a recording are in us."""
        text, counters = RECORDED.read_text(), {"softnet.3.squeezed 9 ": 42, "softnet.3.dropped 255611 ": 255655, "udp.RcvbufErrors 0 ": 55, "softnet.2.squeezed 3682 ": 9999}
        for start, end in counters.items():
            self.assertIn(f"\n{start}{start.split()[1]}\n", text)
            text = text.replace(f"\n{start}{start.split()[1]}\n", f"\n{start}{end}\n")
        more = self.write("more.rec", text)
        told = {each["name"]: each for each in map(json.loads, self.succeeds("compare", RECORDED, more, "--json").splitlines())}
        per_second = told["packets_per_second"]["before"] / 63
        for name, count in (("squeezed", 33), ("backlog_drops", 44), ("socket_drops", 55)):
            each = told[f"{name}_per_second"]
            self.assertEqual((each["before"], round(each["after"] / per_second, 6), each["noise"]), (0, count, None))
        self.assertIn("squeezed per second  ", self.succeeds("compare", RECORDED, more))
        self.ends_with(3, "compare", RECORDED, more, "--fail-if", "squeezed>0")
        self.assertRegex(self.succeeds("compare", RECORDED, HERE / "recorded-thread.rec"), "app wake µs +16.8 +3.50 ")

    def test_the_parts_of_a_recording(self) -> None:
        """A recording of thousands of packets has the noise between its parts."""
        values = comparing.values_in_file(str(HERE / "recorded-virtio.rec.gz"), None)[""]
        packets = gzip.open(HERE / "recorded-virtio.rec.gz", "rt").read().count("napi_gro_receive_entry")
        is_known = packets >= parts.FEWEST
        self.assertEqual(values["packets_per_second"].noise is not None, is_known)


class Json(InFolder):
    def test_all_results_have_one_form(self) -> None:
        """Each object begins with the version and the tool; --json FILE writes the file and prints as without it."""
        calls: dict[str, list[object]] = {"costs": [RECORDED], "compare": [RECORDED, RECORDED]}
        for name, words in calls.items():
            plain = self.succeeds(name, *words)
            self.assertEqual(self.succeeds(name, *words, "--json", self.folder / "out.json"), plain)
            lines = (self.folder / "out.json").read_text().splitlines()
            self.assertTrue(lines and all(list(json.loads(line).items())[:2] == [("version", 1), ("tool", name)] for line in lines))
            self.assertEqual(self.succeeds(name, *words, "--json").splitlines(), lines)

    def test_no_other_file_is_replaced(self) -> None:
        """A file that isn't JSON may be an input that the option took for its own."""
        path = self.write("x.rec", "fintaqush-recording 1\n")
        self.fails("exists and isn't JSON, so it isn't replaced", "costs", "--json", path, RECORDED, status=64)
        self.assertEqual(path.read_text(), "fintaqush-recording 1\n")
