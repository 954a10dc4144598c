"""Tests of fintaqush what-if. Expected values are computed by hand, or by the plain program of the machine."""

from __future__ import annotations

import csv
import io
import itertools
import json
import os
import re
import tempfile
import unittest.mock
from fractions import Fraction
from typing import Any

import machine
from tooltest import HAS_MACHINE, HERE, MACHINE, NO_WORDS, START, TOP, InFolder, process, run

from fintaqush_tools.commands import what_if

HEADER = "ns,device,bytes\n"


def percent(lines: list[dict[str, int]], name: str) -> str:
    return f"{100 * sum(line[name] for line in lines) / sum(line['end'] for line in lines):.2f}"


@HAS_MACHINE
class WhatIf(InFolder):
    def setUp(self) -> None:
        super().setUp()
        # Three devices, each with bursts of five packets that come within 10 µs, every 40 µs.
        rows = sorted((40000 * burst + 2500 * place, device) for burst in range(20) for place in range(5) for device in (1, 2, 3))
        self.arrivals = self.write("arrivals.csv", HEADER + "".join(f"{moment},{device},60\n" for moment, device in rows))

    def rows_of(self, *words: object, **others: Any) -> list[dict[str, str]]:
        with unittest.mock.patch.object(tempfile, "tempdir", str(self.folder)):  # where no temporary file may be left
            return list(csv.DictReader(io.StringIO(self.ends_with(0, "what-if", *words, **others).stdout)))

    def rows(self, *words: object, **others: Any) -> list[dict[str, str]]:
        return self.rows_of(self.arrivals, *words, **others)

    def modelled(self, text: str, *words: str) -> dict[str, str]:
        """Returns the values of a row, by the plain program."""
        lines = [line.split() for line in machine.ran(machine.plain(), words, text)[0].splitlines()]
        of = {kind: [dict(zip(line[skip::2], map(int, line[skip + 1 :: 2]))) for line in lines if line[0] == kind]
              for kind, skip in (("device", 0), ("processor", 0), ("time", 0), ("application", 0), ("total", 1))}
        told: dict[str, int | str] = {name: of["total"][0][name] for name in ("arrived", "dropped", "refused", "used")}
        for end, kind in (("delivered", "device"), ("used", "processor")):
            told.update({f"{end}_{name}": max(line[wait] for line in of[kind]) for name, wait in (("p50", "wait50"), ("p90", "wait90"), ("p99", "wait99"), ("p999", "wait999"))})
        told.update({f"{name}_percent": percent(of["time"], name) for name in ("interrupt", "poll", "use", "idle")})
        if of["application"]:
            told["use_percent"] = percent(of["application"], "use")
        told.update({name: sum(line[name] for line in of["processor"]) for name in ("interrupts", "timers", "runs", "polls", "squeezed", "late")})
        queues = [(line["device"] - 1) % len(of["processor"]) for line in of["device"]]
        told["used_per_second"] = of["total"][0]["used"] * 10**9 // max(line["end"] for line in of["time"] + of["application"])
        return {**{name: str(value) for name, value in told.items()}, "wakes": str(sum(line["wakes"] for line in of["application"])),
                "queues_of_a_processor": str(max(map(queues.count, queues)))}

    def test_each_combination(self) -> None:
        rows = self.rows("--budget", "0,2,300", "--weight", "1,64", "--processors=2", "--ring=4")
        wanted = list(itertools.product(("0", "2", "300"), ("1", "64")))
        self.assertEqual([(row.pop("budget"), row.pop("weight")) for row in rows], wanted)
        for row, (budget, weight) in zip(rows, wanted):
            self.assertEqual(row, self.modelled(self.arrivals.read_text(), f"--budget={budget}", f"--weight={weight}", "--processors=2", "--ring=4"))
        self.assertGreater(int(rows[0]["dropped"]), 0)

    def test_values_that_exclude_each_other(self) -> None:
        """Each reason is of values that the plain program rejects, and it accepts the others; the rows are those without such values."""
        for name, value, other, values, told in (
            ("rx-gap", 7, "rx-nsecs", (0, 5), "--rx-gap 7 excludes --rx-nsecs 5: a card keeps a least time between interrupts, or waits for more packets"),
            ("rx-gap", 7, "rx-frames", (0, 2), "--rx-gap 7 excludes --rx-frames 2: "), ("take", 9, "packet", (9, 8), "--take 9 is above --packet 8, of which it is a part"),
            ("early", 3, "heedless", (0, 1), "--early 3 excludes --heedless 1: a driver asks for interrupts before napi_complete_done, or after it"),
        ):
            rows = self.rows(f"--{name}", value, f"--{other}", ",".join(map(str, values)))
            self.assertEqual((rows[0]["fault"], rows[0]["arrived"]), ("", "300"), told)
            self.assertIn(told, rows[1]["fault"])
            for each, status in zip(values, (0, 64)):
                self.assertEqual(machine.ran(machine.plain(), [f"--{name}={value}", f"--{other}={each}"], self.arrivals.read_text())[2], status, told)

    def test_by_hand(self) -> None:
        """One packet: its interrupt takes 10 ns, its poll 5 and 3, its use 2; of these 20 ns half are the interrupt's."""
        self.arrivals.write_text(HEADER + "0,1,60\n")
        row, = self.rows("--interrupt", "10", "--poll", "5", "--packet", "3", "--use", "2")
        self.assertEqual([row[name] for name in ("arrived", "used", "delivered_p50", "used_p999", "interrupt_percent", "poll_percent", "use_percent", "idle_percent", "runs",
                                                    "used_per_second")], ["1", "1", "18", "20", "50.00", "40.00", "10.00", "0.00", "1", "50000000"])

    def test_each_option(self) -> None:
        """Every option of the machine is a dimension; the rows are those of the plain program."""
        for words in (["--gro-flush-timeout", "30000", "--defer-hard-irqs", "3"], ["--threaded", "1", "--wake", "2000"], ["--backlog", "1", "--ring", "2"],
                      ["--rx-nsecs", "9000", "--rx-frames", "3"], ["--apart", "1", "--app-wake", "2500"], ["--time-limit", "5000"], ["--socket", "3"],
                      ["--window", "1"]):
            row, = self.rows(*words)
            self.assertEqual(row, self.modelled(self.arrivals.read_text(), *words), words)

    def test_queues(self) -> None:
        """With queues the fourth column is read, and without them ignored; arrivals without it have none."""
        self.assertIn("there is no column flow", run("what-if", self.arrivals, "--queues", "1,2").stderr)
        rows = self.arrivals.read_text().split()[1:]
        with_flows = "ns,device,bytes,flow\n" + "".join(f"{row},{place % 5}\n" for place, row in enumerate(rows))
        plain = self.arrivals.read_text()
        self.arrivals.write_text(with_flows)
        one, two = self.rows("--queues", "1,2")
        self.assertEqual((one.pop("queues"), two.pop("queues"), one["queues_of_a_processor"], two["queues_of_a_processor"]), ("1", "2", "3", "6"))
        self.assertEqual((one, two), (self.modelled(plain), self.modelled(with_flows, "--queues", "2")))

    def test_the_band_of_costs(self) -> None:
        """A packet at 0 and two at 9900 ns, an interrupt of 4000, a poll of 1000 and packets of 1000 ns, which are used when the polls have ended: they
        wait 6000, 7000 and 7000 ns. With deferral and a timer of 5000 ns, which fires at 11000, the polls end at 18000: 6000, 8100 and 8100. With
        costs 20 % lower 4800, 5600 and 5600; with the timer, which fires at 9800, 4800, 5500 and 5500. A timer of 10000 ns stays worse."""
        self.arrivals.write_text(HEADER + "0,1,60\n9900,1,60\n9900,1,60\n")
        words = ["--use", "0", "--defer-hard-irqs", "1", "--gro-flush-timeout"]
        self.assertEqual(self.said(*words, "0,10000"), "")
        self.assertEqual(self.said(*words, "0,5000"), "".join(
            f"fintaqush what-if: with costs 20 % lower the order by {what} changes: gro-flush-timeout 0 and gro-flush-timeout 5000\n"
            for what in ("the median wait to the end of use", "the 99th percentile of that wait")))
        for others in (["--band", "0"], ["--band", "5"], ["--part", "1/1"]):
            self.assertEqual(self.said(*words, "0,5000", *others), "")
        out = self.folder / "rows"
        self.said(*words, "0,5000", "--out", out)
        self.assertEqual(len(out.read_text().splitlines()), 3)
        self.assertIn("costs 20 % lower", self.said(*words, "0,5000", "--out", out, "--resume", "--band", "20"))
        self.assertEqual(len(out.read_text().splitlines()), 7)

    def said(self, *words: object) -> str:
        return self.ends_with(0, "what-if", self.arrivals, *words).stderr

    def test_a_budget_with_one_queue(self) -> None:
        """It changes only squeezes, and the tool says so; with three queues it doesn't."""
        self.assertEqual(self.said("--budget", "2,300", "--band", "0"), "")
        self.arrivals.write_text(HEADER + "".join(f"{1000 * place},1,60\n" for place in range(400)))
        told = self.said("--budget", "16,300", "--band", "0")
        self.assertEqual(told, "fintaqush what-if: in the model, with one queue on each processor, net.core.netdev_budget changes no latency and no drops, only how many runs are "
                         "squeezed\n")
        small, usual = self.rows("--budget", "16,300", "--band", "0")
        for name in ("squeezed", "budget"):
            self.assertNotEqual(small.pop(name), usual.pop(name))
        self.assertEqual(small, usual)

    def test_a_timer_costs_what_an_interrupt_does(self) -> None:
        """Unless its cost is given; a cost that is always that of an interrupt is no column."""
        deferral = ("--defer-hard-irqs", "2", "--gro-flush-timeout", "20000")
        usual, dear = self.rows("--interrupt", "4000,9000", *deferral)
        self.assertNotIn("timer", usual)
        one, other = self.rows("--timer", "4000,9000", *deferral)
        self.assertEqual((one.pop("timer"), usual.pop("interrupt"), one), ("4000", "4000", usual))
        self.assertLess(float(one["interrupt_percent"]), float(other["interrupt_percent"]))
        self.assertLess(float(other["interrupt_percent"]), float(dear["interrupt_percent"]))

    def test_a_load_moves_the_moments(self) -> None:
        """At half the load a time is doubled, at 1.5 it is two thirds, rounded down; no temporary file is left."""
        rows = {row.pop("load"): row for row in self.rows("--load", "0.5,1,1.5", "--use", "4000")}
        self.assertEqual(rows, {load: self.modelled(self.at_load(load), "--use", "4000") for load in ("0.5", "1", "1.5")})
        self.assertEqual(self.names(), ["arrivals.csv"])
        self.arrivals.write_text(HEADER + '0,1,60\n"7",1,60\n')
        self.fails("row 2: only times that are plain numbers can be scaled", "what-if", self.arrivals, "--load", "2")

    def test_json(self) -> None:
        done = run("what-if", self.arrivals, "--json", "--budget", "1,2", "--load", "0.5", "--band", "0")
        told = list(map(json.loads, done.stdout.splitlines()))
        self.assertEqual([(row["budget"], row["load"], row["weight"], row["fault"], row["arrivals"]) for row in told],
                         [(1, 0.5, 64, None, str(self.arrivals)), (2, 0.5, 64, None, str(self.arrivals))])
        self.assertEqual((told[0]["arrived"], isinstance(told[0]["use_percent"], float)), (300, True))

    def test_json_in_a_file(self) -> None:
        """With a file the results are printed too, as CSV or as a table; without it only JSON is."""
        words: list[object] = [self.arrivals, "--budget", "2,300", "--band", "0"]
        told, out = run("what-if", *words, "--json").stdout, self.folder / "q.json"
        for form in (NO_WORDS, ["--table"]):
            printed = self.ends_with(0, "what-if", *words, *form, "--json", out).stdout
            self.assertEqual((printed, out.read_text(), len(told.splitlines())), (run("what-if", *words, *form).stdout, told, 2))
        others: list[list[object]] = [["--csv"], ["--table"], ["--out", self.folder / "other"]]
        for more in others:
            self.ends_with(64, "what-if", *words, *more, "--json")
        self.ends_with(0, "what-if", self.arrivals, "--until", "drops", "--ring", "8", "--json", out)
        self.assertEqual(json.loads(out.read_text())["until"], "drops")

    def test_a_trace_is_named(self) -> None:
        self.fails("bursts.csv: a trace, which fintaqush replay reads; arrivals are made by --arrivals of", "what-if", TOP / "examples/bursts.csv")
        self.fails("veth-backlog.rec: a recording, which fintaqush advise, costs and from-ftrace read; arrivals are made by --arrivals of", "what-if", TOP / "examples/veth-backlog.rec")

    def test_json_keys_are_identifiers(self) -> None:
        """Also with generated traffic and a searched load; each object has the format's version."""
        calls: list[list[object]] = [[self.arrivals], [self.arrivals, "--until", "drops", "--ring", "8"], ["--traffic", "--rate 1000", "--seeds", "2"]]
        for words in calls:
            told = json.loads(self.ends_with(0, "what-if", *words, "--json").stdout)
            self.assertEqual((told["version"], [name for name in told if not name.isidentifier()]), (1, []))
            self.assertEqual((told["gro_flush_timeout"], told["app_wake"]), (0, 0))

    def test_columns_are_explained(self) -> None:
        """--help explains each column of a row."""
        text = run("what-if", "--help").stdout
        row, = self.rows()
        for name in row:
            self.assertIn(f"\n    {name}: ", text)

    def table(self, *words: object) -> list[str]:
        return run("what-if", self.arrivals, "--table", *words).stdout.splitlines()

    def test_the_table(self) -> None:
        """One packet, whose interrupt takes 10 or 20 us, its poll 5 and 3, its use 2: it is delivered after 18 or 28 us and used after 20 or 30, of which the
        interrupt has 50 or 66.7 %; 50,000 or 33,333 packets a second. What is the same isn't in the table."""
        self.arrivals.write_text(HEADER + "0,1,60\n")
        words = ["--interrupt", "10000,20000", "--poll", "5000", "--packet", "3000", "--use", "2000"]
        lines = [re.split(r"  +", line.strip()) for line in self.table(*words)]
        self.assertEqual(lines[0], ["row", "interrupt µs", "delivered p50 µs", "delivered p99 µs", "used p50 µs", "used p99 µs", "interrupt %", "poll %", "use %", "used k/s"])
        self.assertEqual(lines[1:3], [["1", "10.0", "18.0", "18.0", "20.0", "20.0", "50.0", "40.0", "10.0", "50.0"],
                                      ["2", "20.0", "28.0", "28.0", "30.0", "30.0", "66.7", "26.7", "6.7", "33.3"]])
        self.assertEqual([line[0] for line in lines[3:]], [
            "the same in all rows: arrived 1, dropped 0, refused 0, used 1, idle % 0.0, interrupts 1, runs 1, polls 1, squeezed 0",
            "row 1: the lowest 99th percentile of waits to the end of use, 20.0 µs; the highest is 30.0 µs, of row 2", "no packet is lost in any row",
            "the budget never binds: no run is squeezed"])

    def test_the_table_is_for_terminals(self) -> None:
        """Otherwise CSV is printed; --csv and --json work for both."""
        for words, begins in ((NO_WORDS, b"row  "), (["--csv"], b"budget,"), (["--json"], b'{"version": 1')):
            master, slave = os.openpty()
            with open(master, "rb", buffering=0) as end:
                done = process(*START, "what-if", self.arrivals, "--budget", "1,300", *words, out=slave)
                os.close(slave)
                self.assertEqual(done.returncode, 0, done.stderr)
                self.assertTrue(end.read(100).startswith(begins))
        self.assertTrue(run("what-if", self.arrivals, "--budget", "1,300").stdout.startswith("budget,"))
        self.ends_with(64, "what-if", self.arrivals, "--csv", "--table")

    def test_what_follows(self) -> None:
        """Rings of 1 and 256 of bursts of five packets; an order that depends on the costs (test_the_band_of_costs); budgets."""
        told = self.table("--ring", "1,256", "--band", "0")
        dropped = [int(row["dropped"]) for row in self.rows("--ring", "1,256", "--band", "0")]
        self.assertTrue(dropped[0] > 0 and dropped[1] == 0)
        self.assertIn(f"row 1: packets are lost, up to {100 * dropped[0] / 300:.1f} %", told)
        self.arrivals.write_text(HEADER + "0,1,60\n9900,1,60\n9900,1,60\n")
        told = self.table("--use", "0", "--defer-hard-irqs", "1", "--gro-flush-timeout", "0,5000")
        self.assertIn("1 and 2 are equal within the costs' doubt of 20 %: their order by the median wait to the end of use changes", told)
        self.arrivals.write_text(HEADER + "".join(f"{1000 * place},1,60\n" for place in range(400)))
        told = self.table("--budget", "16,300", "--band", "0")
        self.assertIn("in the model, with one queue on each processor, net.core.netdev_budget changes no latency and no drops, only how many runs are squeezed", told)
        self.assertIn("no setting here changes the 99th percentile of waits to the end of use", told)

    def at_load(self, load: str) -> str:
        """Returns the arrivals at so many times their rate."""
        rows = (line.split(",") for line in self.arrivals.read_text().split()[1:])
        return HEADER + "".join(f"{int(moment) // Fraction(load)},{device},{size}\n" for moment, device, size in rows)

    def lost_at(self, load: str, *words: str) -> tuple[int, int]:
        """Returns the drops in the plain program for these arrivals at a load, and its 99th percentile of waits."""
        told = self.modelled(self.at_load(load), *words)
        return int(told["dropped"]) + int(told["refused"]), int(told["used_p99"])

    def test_the_load_at_which_it_breaks(self) -> None:
        """A packet every 10 us, and a ring of one: in the plain program one load holds and the other breaks, and they are at most 1 % apart."""
        self.arrivals.write_text(HEADER + "".join(f"{10_000 * place},1,60\n" for place in range(300)))
        words = ["--ring", "1", "--interrupt", "1000", "--poll", "1000", "--packet", "1000", "--use", "0"]
        row, = self.rows(*words, "--until", "drops")
        self.assertTrue(1 < Fraction(row["breaks_at"]) / Fraction(row["holds_at"]) <= Fraction(101, 100))
        self.assertEqual((self.lost_at(row["holds_at"], *words)[0], self.lost_at(row["breaks_at"], *words)[0] > 0), (0, True))
        self.assertEqual(int(row["packets_per_second"]), round(100_000 * float(row["breaks_at"])))
        self.assertTrue(float(row["breaks_at_costs_120"]) < float(row["breaks_at"]) < float(row["breaks_at_costs_80"]))
        others = ["--interrupt", "1000", "--poll", "1000", "--use", "0", "--packet"]
        fast, slow = self.rows(*others, "1000,3000", "--until", "p99=8", "--band", "0")
        for each, cost in ((fast, "1000"), (slow, "3000")):
            self.assertEqual(each["packet"], cost)
            self.assertLessEqual(self.lost_at(each["holds_at"], *others, cost)[1], 8000)
            self.assertGreater(self.lost_at(each["breaks_at"], *others, cost)[1], 8000)
        told, = self.table(*words, "--until", "drops", "--band", "0")
        self.assertRegex(told, rf"^it breaks at {float(row['breaks_at']):.3g} times this load \({float(row['packets_per_second']) / 1000:.3g} k packets/s\): packets are lost$")

    def test_a_search_reads_the_arrivals_once(self) -> None:
        """And scales them once for a load that several settings try, as all do here, because the budget never ends a run."""
        probes = self.folder / "probes"
        counting = self.program("counting", f"echo >> {probes}\nexec '{MACHINE}' \"$@\"")
        self.rows("--ring", "8", "--budget", "300,400", "--until", "drops", "--band", "0", "--jobs", "1", MACHINE=counting)
        loads, count = what_if.scaled.cache_info(), len(probes.read_text())
        self.assertGreater(loads.misses, 3)
        self.assertEqual((what_if.parsed.cache_info().misses, loads.hits, count), (1, loads.misses, 2 * loads.misses + 2))  # a load of 1 is as it is

    def test_loads_that_never_and_always_break(self) -> None:
        self.arrivals.write_text(HEADER + "".join(f"{10_000 * place},1,60\n" for place in range(20)))
        self.assertEqual(self.table("--until", "drops", "--band", "0"), ["it holds up to 1.02e+03 times this load, the highest one tried"])
        row, = self.rows("--until", "drops", "--band", "0")
        self.assertEqual((row["holds_at"], row["breaks_at"], row["packets_per_second"]), ("1024", "", ""))
        row, = self.rows("--until", "p99=1", "--band", "0")  # an interrupt takes 4 us
        self.assertEqual((row["holds_at"], row["breaks_at"]), ("", "0.000977"))
        self.assertEqual(self.names(), ["arrivals.csv"])

    def test_costs_of_a_recording(self) -> None:
        """They are those that fintaqush costs prints; one that is given counts instead, and one that isn't known is named."""
        words, of = self.succeeds("costs", HERE / "recorded-apart.rec", "--words").split(), ["--costs", HERE / "recorded-apart.rec"]
        self.assertEqual(words[::2], ["--interrupt", "--poll", "--packet", "--wake", "--use", "--app-wake"])
        self.assertEqual(self.rows(*of), self.rows(*words))
        self.assertEqual(self.rows(*of, "--use", "7"), self.rows(*words, "--use", "7"))
        lacking = ["--costs", HERE / "recorded-rps.rec.gz", "--backlog", "1"]
        self.assertIn("recorded-rps.rec.gz doesn't have all costs, so these are as by default: --use 2000\n", self.said(*lacking))
        self.assertEqual(self.said(*lacking, "--use", "7"), "")
        self.assertIn("arrivals.csv: line 1: no line of ftrace", self.ends_with(1, "what-if", self.arrivals, "--costs", self.arrivals).stderr)

    def test_deferral_without_a_timeout(self) -> None:
        said = "fintaqush what-if: --defer-hard-irqs does nothing without --gro-flush-timeout, as in Linux\n"
        for words, wanted in ((["--defer-hard-irqs", "0,2"], said), (["--defer-hard-irqs", "2", "--gro-flush-timeout", "0,20000"], ""), (NO_WORDS, "")):
            self.assertEqual(self.said(*words, "--band", "0"), wanted)

    def test_the_best_row_loses_nothing(self) -> None:
        """A ring of one packet drops two of three, so those that stay wait least, and a ring of 8 has all used after 4 + 1 + 3 * 1 + 3 * 2 us: the table
        names the row that drops none, and of several loads the best one of the highest."""
        self.arrivals.write_text(HEADER + "".join(f"{100_000 * burst + place},1,60\n" for burst in range(50) for place in range(3)))
        costs = ["--interrupt", "4000", "--poll", "1000", "--use", "2000"]
        told = self.table("--ring", "1,8", "--band", "0", *costs, "--packet", "1000")
        self.assertIn("row 2: the lowest 99th percentile of waits to the end of use without losses, 14.0 µs; the highest is 14.0 µs, of row 2", told)
        self.assertIn("row 1: packets are lost, up to 66.7 %", told)
        for words, row in ((["--ring", "1,8"], 2), (["--ring", "8,9", "--load", "0.1,1", "--packet", "300,400"], 5)):
            told = self.table(*words, "--band", "0")
            self.assertRegex("\n".join(told), rf"(?m)^rows? {row}\b.*: the lowest 99th percentile")

    def test_made_traffic_over_seeds(self) -> None:
        """The median, the minimum and the maximum of the plain program's values for each seed's arrivals; one row per setting."""
        words = ["--kind", "poisson", "--rate", "100000", "--seconds", "0.01"]
        of = [run("traffic", "--arrivals", *words, "--seed", seed).stdout for seed in (1, 2, 3)]
        told = self.rows_of("--traffic", " ".join(words), "--seeds", "3", "--threaded", "0,1")
        self.assertEqual([row["threaded"] for row in told], ["0", "1"])
        for row in told:
            every = [self.modelled(text, "--threaded", row["threaded"]) for text in of]
            for name in ("used_p99", "poll_percent"):
                values = sorted(float(each[name]) for each in every)
                self.assertEqual([float(row[each]) for each in (f"{name}_least", name, f"{name}_most")], values)
        self.assertEqual(self.names(), ["arrivals.csv"])

    def test_made_traffic_in_a_table(self) -> None:
        done = run("what-if", "--table", "--traffic", "--kind poisson --rate 100000 --seconds 0.01", "--seeds", "3", "--interrupt", "4000,4050")
        self.assertRegex(done.stdout, r"\d+ \(\d+ to \d+\)")
        self.assertIn("overlap in their 99th percentiles over the seeds: which one is lower may be chance", done.stdout)
        for words, why in ((["--traffic", "--rate none"], "isn't a number over 0"), (["--traffic", "--seed 5"], "--seed isn't for this"), (["--traffic", "'"], "--traffic: ")):
            said = self.fails(why, "what-if", *words)
            self.assertEqual(said.count("\n"), 1)

    def test_a_file_of_rows_is_gone_on_with(self) -> None:
        """By parts, and then with other budgets; existing rows aren't made again."""
        out = self.folder / "rows"
        whole = self.rows("--budget", "1,2,3", "--out", out)
        lines = out.read_text().splitlines()
        self.assertEqual(len(lines), 4)
        out.write_text("\n".join(lines[:2]) + "\n")
        calls = self.folder / "calls"
        program = self.program("program", f"echo >> '{calls}'\nexec '{MACHINE}' \"$@\"")
        self.assertEqual(self.rows("--budget", "1,2,3", "--out", out, "--resume", "--binary", program), whole)
        self.assertEqual((out.read_text().splitlines(), calls.read_text()), (lines, "\n\n"))
        parts = [row for part in ("1/2", "2/2") for row in self.rows("--budget", "1,2,3,4", "--part", part)]
        self.assertEqual([row["budget"] for row in parts], ["1", "3", "2", "4"])
        self.assertIn("exists: --resume continues it", run("what-if", self.arrivals, "--out", out).stderr)

    def test_what_is_refused(self) -> None:
        for words in (["--budget", "65536"], ["--load", "0"], ["--load", "1e3"], ["--weight", "0"], ["--slice", "1"], ["--longest", "1"], ["--threaded", "2"], ["--band", "91"], ["--band", "20", "--part", "1/2"], ["--budget", "1,,2"], ["--resume"],
                      ["--until", "drop"], ["--until", "p99=x"], ["--until", "drops", "--load", "1,2"], ["--until", "drops", "--out", "x"], ["--seeds", "2"], ["--traffic", "--rate 1"]):
            self.ends_with(64, "what-if", self.arrivals, *words)
        self.ends_with(64, "what-if")
        self.fails("there is no such file", "what-if", self.folder / "none")
        self.fails("a regular file", "what-if", "-", text="")
        self.arrivals.write_text(HEADER + "1,1,60\n0,1,60\n")
        self.fails("arrivals.csv: arrivals fault 8 Falls row 2", "what-if", self.arrivals, "--budget", "1,2")

    def test_what_fails_is_no_row(self) -> None:
        for body in ("kill -9 $$", "exit 0", "echo hello", "echo 'arrivals fault 10 ReadFailed row 0' >&2; exit 2", "exit 64"):
            program = self.program("program", f"{body}")
            self.fails("1 rows are missing", "what-if", self.arrivals, "--binary", program)
