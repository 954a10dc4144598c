"""Tests of fintaqush sweep."""

from __future__ import annotations

import csv
import json
import os
import re
import shutil
import unittest
from collections.abc import Callable, Sequence
from typing import Any

from tooltest import HEADER, NO_WORDS, REPLAY, TOP, Done, InFolder, process, run, skip_without


def slurm_block() -> str:
    """Returns the job array of docs/TOOLS.md."""
    lines = (TOP / "docs/TOOLS.md").read_text().splitlines()
    first = lines.index("    #!/bin/bash")
    last = next(place for place in range(first, len(lines)) if not lines[place].startswith("    "))
    return "".join(f"{line[4:]}\n" for line in lines[first:last])


class Sweep(InFolder):
    FAULTY = HEADER + "0,1,rx,60\n"
    BURST = HEADER + "0,1,open,8\n" + "0,1,rx,60\n" * 9 + "1,0,softirq,0\n0,1,tx,100\n0,1,done,1\n"

    def setUp(self) -> None:
        super().setUp()
        self.write("burst.csv", self.BURST)
        self.write("faulty.csv", self.FAULTY)
        self.out = self.folder / "rows"

    def sweep(self, *words: object, status: int = 0, **variables: Any) -> Done:
        settings = ["--budget", "2,300", "--weight", "2,64", "--binary", REPLAY]
        return self.ends_with(status, "sweep", self.folder, *settings, "--out", self.out, *words, **variables)

    def rows(self) -> list[dict[str, str]]:
        with open(self.out, newline="", encoding="utf-8") as file:
            return list(csv.DictReader(file))

    def check_rows(self) -> None:
        """Nine packets meet eight places, so one is dropped. A budget of 2 squeezes the run after its first poll. A device whose poll was full is
        polled again in the next run; one whose poll wasn't is polled again because of missed requests. The queue's limit of 0 grows by the 100
        bytes that were completed while nothing else was queued."""
        rows = self.rows()
        self.assertEqual([(row["budget"], row["weight"]) for row in rows], [("2", "2"), ("2", "64"), ("300", "2"), ("300", "64")] * 2)
        names = ["status", "fault", "polls", "work", "squeezed", "dropped", "left", "greatest_limit"]
        self.assertEqual([[row[name] for name in names] for row in rows[:4]], [
            ["0", "", "1", "2", "1", "1", "6", "100"], ["0", "", "1", "8", "1", "1", "0", "100"],
            ["0", "", "1", "2", "0", "1", "6", "100"], ["0", "", "2", "8", "0", "1", "0", "100"]])
        for row in rows[4:]:
            self.assertEqual([row[name] for name in names], ["2", "trace fault 6 UnknownDevice row 1", "", "", "", "", "", ""])

    def test_every_trace_with_every_combination(self) -> None:
        said = self.sweep().stderr
        self.assertIn("8 rows in", said)
        self.check_rows()

    TURNS = """softirq 3 polls 1 work 10 squeezed 1
busy 5 device 1 polls 200 work 3000
kthread 7 device 2 polls 40000 work 500000
softirq 8 polls 6 work 70 squeezed 1
busy 9 device 2 polls 800 work 9000
"""
    DEVICE = """device {0} on arrived 0 dropped {1} polled 0 bytes 0 left {2} polls 0
napi {0} granted 0 missed 0 disabled 0 again 0 released 0 word 0 held 0
tx {0} sent 0 held 0 done 0 denied 0 limit {3} avail {3} stopped 0
"""
    DEVICES = DEVICE.format(1, 1, 70, 60) + DEVICE.format(2, 20, 800, 1500) + DEVICE.format(3, 300, 9000, 700)
    REPORT = f"{TURNS}{DEVICES}list\ntotal devices 3 runs 2 polls 7 work 80 squeezed 2\n"

    def test_each_value_is_of_all_rows_and_devices(self) -> None:
        """With a program that prints this report: rows of all three kinds poll, each number has a digit of its own, and the greatest limit is
        neither the first queue's nor the last one's."""
        program = self.program("program", f"cat > '{self.folder}/read'\ncat '{self.write('report', self.REPORT)}'")
        self.ends_with(0, "sweep", self.folder / "burst.csv", "--out", self.out, "--binary", program)
        names = ("polls", "work", "squeezed", "dropped", "left", "greatest_limit")
        self.assertEqual([[row[name] for name in names] for row in self.rows()],
                         [[str(1 + 200 + 40000 + 6 + 800), str(10 + 3000 + 500000 + 70 + 9000), "2", "321", "9870", "1500"]])

    def test_only_other_machines_need_parallel(self) -> None:
        self.assertNotIn("parallel", self.sweep(PATH=self.folder).stderr)
        self.check_rows()
        words = ["--resume", "--sshloginfile", self.write("machines", ":"), "--window", "7"]
        self.assertIn("needs GNU parallel", self.sweep(*words, PATH=self.folder, status=1).stderr)

    def test_it_goes_on_where_it_was(self) -> None:
        self.sweep()
        lines = self.out.read_text().splitlines(keepends=True)
        # Three rows and a part of one are there. What is there isn't made again: its polls distinguish it from a row that is made.
        kept = [lines[0], lines[1].replace(",1,2,1,", ",7,2,1,"), *lines[2:4], lines[4][:-5]]
        self.assertNotEqual(kept[1], lines[1])
        self.out.write_text("".join(kept))
        done = self.sweep("--resume")
        self.assertIn("8 rows, of which 3 are there", done.stderr)
        self.assertEqual(self.out.read_text().splitlines(keepends=True), [kept[0], kept[1], *lines[2:]])

    def test_a_damaged_file(self) -> None:
        """The message names the line; without it --resume has all rows again."""
        self.sweep()
        whole = self.out.read_text()
        damages: list[Callable[[str], str]] = [
            lambda line: line.replace(",", "", 3), *(lambda line, last=last: f"{line.rpartition(',')[0]},{last}\n" for last in ("abc", "9" * 5000, "1\r1", "x" * 200_000)),
            lambda line: re.sub(r",0,,,\d+,", ",0,,,,", line)]
        for damage in damages:
            lines = whole.splitlines(True)
            self.out.write_text("".join([*lines[:2], damage(lines[2]), *lines[3:]]))
            self.assertIn(": row 3 isn't a row of sweep: without this line --resume makes", self.sweep("--resume", status=1).stderr)
            self.out.write_text("".join([*lines[:2], *lines[3:]]))
            self.sweep("--resume")
            self.assertEqual(self.out.read_text(), whole)

    def test_limits(self) -> None:
        """With --fail-if, a result beyond a limit sets exit status 3; by hand, a budget of 2 squeezes, and 300 doesn't."""
        for condition, status in (("squeezed>0", 3), ("squeezed>1", 0), ("dropped >= 1", 3), ("left==6", 3), ("work<2", 0)):
            said = self.sweep("--resume", "--fail-if", condition, status=status).stderr
            self.assertEqual(said.count("fintaqush sweep: --fail-if"), status // 3, condition)
            if condition == "squeezed>0":
                self.assertIn("fintaqush sweep: --fail-if 'squeezed>0': squeezed is 1 with trace ", said)
        for condition in ("squeezed", "squeezed>0us", "nothing>0", "squeezed>", "squeezed>1e3"):
            self.sweep("--fail-if", condition, status=64)

    def test_a_trace_that_changed(self) -> None:
        """It is replayed again, and its old rows are removed."""
        self.sweep()
        self.write("burst.csv", self.BURST.replace("1,0,softirq,0\n", ""))
        self.assertIn("8 rows, of which 4 are there", self.sweep("--resume").stderr)
        self.assertEqual([row["polls"] for row in self.rows()], ["0"] * 4 + [""] * 4)

    def test_what_a_killed_call_left_of_a_row_goes(self) -> None:
        self.sweep()
        whole = self.out.read_text()
        self.out.write_text(whole[: whole.rindex("faulty") - 20])
        self.sweep("--resume", "--budget", "2")
        self.sweep("--resume")
        self.assertEqual(sorted(self.out.read_text().splitlines()), sorted(whole.splitlines()))

    def test_hidden_files_and_rows_are_no_traces(self) -> None:
        self.out = self.folder / "rows.csv"
        self.write(".hidden.csv", self.BURST)
        for words in (NO_WORDS, ["--resume"]):
            self.sweep(*words)
            self.check_rows()

    def test_rows_of_other_settings_stay(self) -> None:
        self.sweep()
        before = self.out.read_text()
        self.assertIn("8 others of", self.sweep("--resume", "--window", "7", "--budget", "5").stderr)
        self.assertTrue(self.out.read_text().startswith(before))
        self.assertEqual(len(self.rows()), 12)

    def test_what_fails_is_no_row_and_is_tried_again(self) -> None:
        """A program that a signal ends, one that isn't the replay, one that reads nothing, and one that fails twice."""
        for body in ("kill -9 $$", "exit 0", "echo hello", "echo 'memory fault 11 OutOfMemory' >&2; exit 4",
                     "echo 'trace fault 10 ReadFailed' >&2; exit 2", "exit 64"):
            program = self.program("program", f"{body}")
            self.assertIn("8 rows are missing: --resume tries them again", self.sweep("--resume", "--binary", program, status=1).stderr)
            self.assertEqual(self.rows(), [])
        self.sweep("--resume")
        self.check_rows()

    def test_runs_raised_anew(self) -> None:
        """With the recorded runs only, 5582 packets are dropped; Linux would have made more runs."""
        trace = TOP / "examples/linux-veth-bursts.csv"
        for words in (NO_WORDS, ["--raise"]):
            self.ends_with(0, "sweep", trace, "--budget", "16", "--weight", "8", "--out", self.out, "--resume", *words)
        names = ["raise", "work", "dropped"]
        self.assertEqual([[row[name] for name in names] for row in self.rows()],
                         [["no", "8441", "5582"], ["all", "15245", "0"]])

    def test_a_trace_of_version_2(self) -> None:
        """All nine packets of examples/busy-poll.csv are polled by a run, a thread or a busy poll, so none is left."""
        shutil.copy(TOP / "examples/busy-poll.csv", self.write("burst.csv", ""))
        self.sweep()
        row = self.rows()[3]
        self.assertEqual([row[name] for name in ("budget", "weight", "status", "fault", "dropped", "left")],
                         ["300", "64", "0", "", "0", "0"])

    def test_what_it_finds_in_a_folder(self) -> None:
        (self.folder / "folder.csv").mkdir()
        os.mkfifo(self.folder / "fifo.csv")
        said = self.sweep().stderr
        self.assertIn("folder.csv: skipped, because it isn't a regular file", said)
        self.assertIn("fifo.csv: skipped", said)
        self.check_rows()
        self.assertIn("or not a regular file", run("sweep", self.folder / "fifo.csv", "--out", self.out).stderr)

    def test_files_that_are_no_traces(self) -> None:
        """Arrivals that are named, and a faulty trace alone, fail; in a folder arrivals are skipped, and a faulty trace is a row."""
        arrivals, reads = self.write("arrivals.csv", "ns,device,bytes\n1,1,60\n"), "arrivals, which fintaqush what-if reads"
        self.fails(f"arrivals.csv: not a trace, but {reads}", "sweep", arrivals, "--out", self.out)
        self.assertIn(f"arrivals.csv: skipped, because it is {reads}", self.sweep().stderr)
        self.check_rows()
        self.out.unlink()
        self.assertRegex(self.ends_with(1, "sweep", self.folder / "faulty.csv", "--out", self.out).stderr, r"every row is refused: .*/faulty.csv: trace fault \d+ \w+ row \d+")

    def test_a_name_that_is_no_text(self) -> None:
        name = os.fsencode(self.folder) + b"/\xff;touch x,\x1b.csv"
        os.rename(self.folder / "burst.csv", name)
        os.unlink(self.folder / "faulty.csv")
        self.assertNotIn("\x1b", self.ends_with(0, "sweep", self.folder, "--out", self.out).stderr)
        self.assertIn(b"/\xff;touch x,\x1b.csv", self.out.read_bytes())

    def test_names_that_a_spreadsheet_computes(self) -> None:
        """They are quoted in the CSV, known again by it, and as they are in JSON."""
        names = ["\ta.csv", "'=y.csv", "'z.csv", "+1.csv", "-2.csv", "=cmd|' !A1.csv", "@x.csv", "b=.csv"]
        os.unlink(self.folder / "faulty.csv")
        for name in names:
            (self.folder / name).write_text(self.BURST)
        words = [".", "--out", "rows", "--binary", REPLAY]
        self.ends_with(0, "sweep", *words, folder=self.folder)
        self.assertEqual([row["trace"] for row in self.rows()], [*(f"'{name}" for name in names[:-1]), "b=.csv", "burst.csv"])
        done = self.ends_with(0, "sweep", *words, "--resume", "--json", folder=self.folder)
        self.assertIn("9 rows, of which 9 are there", done.stderr)
        self.assertEqual([json.loads(line)["trace"] for line in done.stdout.splitlines()], [*names, "burst.csv"])

    def test_a_name_with_a_newline(self) -> None:
        self.write("a\nb.csv", self.BURST)
        self.assertIn("a\\nb.csv: a name with a newline can't be in a row", self.sweep(status=1).stderr)

    # In place of ssh: it runs the command here instead of on a host, and a host called dead doesn't respond.
    SSH = """#!/bin/bash
while [[ $1 = -* ]]; do
    case $1 in -[olpiF]) shift ;; esac
    shift
done
echo "$1" >> "$HOSTS"
[ "$1" != dead ] || { echo 'ssh: connect to host dead port 22: Connection refused' >&2; exit 255; }
shift
[ "$1" != -- ] || shift
SHELL=/bin/bash exec bash -c "$*"  # as sshd does
"""

    def by_ssh(self, *hosts: str, words: Sequence[object] = (), status: int = 0) -> tuple[str, list[str]]:
        """Runs a sweep over these machines, and returns its messages and the hosts that were used."""
        (self.folder / "bin").mkdir(exist_ok=True)
        self.write("bin/ssh", self.SSH).chmod(0o755)
        asked = self.write("hosts", "")
        machines = self.write("machines", "".join(f"2/{host}\n" for host in hosts))
        path = f"{self.folder}/bin:{os.environ['PATH']}"
        done = self.sweep("--sshloginfile", machines, *words, PATH=path, HOSTS=asked, status=status)
        return done.stderr, asked.read_text().split()

    @skip_without("parallel")
    def test_two_machines(self) -> None:
        self.assertEqual(set(self.by_ssh("one", "two")[1]), {"one", "two"})
        self.check_rows()

    @skip_without("parallel")
    def test_a_machine_that_is_dead(self) -> None:
        """The other machine replays its rows, and no row is lost."""
        said, asked = self.by_ssh("dead", "two")
        self.assertEqual(set(asked), {"dead", "two"})
        self.assertIn("8 rows in", said)
        self.check_rows()

    @skip_without("parallel")
    def test_machines_that_are_all_dead(self) -> None:
        """No row, an exit status that says so, and the next call replays them."""
        said, asked = self.by_ssh("dead", status=1)
        self.assertEqual(self.rows(), [])
        self.assertIn("8 rows are missing: --resume tries them again", said)
        self.assertGreaterEqual(asked.count("dead"), 3 * 8)  # each row three times
        self.by_ssh("dead", "two", words=["--resume"])
        self.check_rows()

    def by_slurm(self, *words: str, **variables: Any) -> None:
        """Runs the block of docs/TOOLS.md unchanged with sbatch; its parts together are the rows of one sweep."""
        (self.folder / "traces").mkdir()
        for name in ("burst.csv", "faulty.csv"):
            os.rename(self.folder / name, self.folder / "traces" / name)
        os.symlink(TOP / "fintaqush", self.folder / "fintaqush")
        done = process("sbatch", *words, self.write("job.sh", slurm_block()), folder=self.folder, **variables)
        self.assertEqual(done.returncode, 0, (done.stderr, [log.read_text() for log in self.folder.glob("slurm-*.out")]))
        self.assertEqual(len(list(self.folder.glob("rows-*.csv"))), 16)
        together = "awk 'FNR > 1 || NR == 1' rows-*.csv"
        self.assertIn(f"`{together}` puts the parts together", (TOP / "docs/TOOLS.md").read_text())
        parts = process("bash", "-c", together, folder=self.folder).stdout.splitlines()
        settings = ["--budget", "64,300,1000", "--weight", "16,64", "--raise"]
        self.ends_with(0, "sweep", "traces", *settings, "--out", self.out, folder=self.folder)
        whole = self.out.read_text().splitlines()
        self.assertEqual((parts[0], sorted(parts[1:])), (whole[0], sorted(whole[1:])))
        self.assertEqual(len(whole), 13)

    @unittest.skipUnless(shutil.which("sbatch") and process("sinfo", "-h").returncode == 0, "slurmd")  # one accepts jobs
    def test_the_block_for_slurm(self) -> None:
        self.by_slurm("--wait")

    # In place of sbatch: it parses the options at the head of the file, and runs each job of the array after the other, with the variables
    # that Slurm sets for a job.
    SBATCH = """#!/usr/bin/env python3
import os, re, subprocess, sys
words = dict(re.findall(r"^#SBATCH --([a-z-]+)=(\\S+)$", open(sys.argv[1]).read(), re.M))
first, last = map(int, words.pop("array").split("-"))
told = {"SLURM_CPUS_PER_TASK": words.pop("cpus-per-task"), "SLURM_ARRAY_TASK_COUNT": str(last - first + 1)}
assert not words, words
assert open(sys.argv[1]).readline().startswith("#!/")
os.chmod(sys.argv[1], 0o755)
for job in range(first, last + 1):
    subprocess.run([os.path.abspath(sys.argv[1])], check=True, env={**os.environ, **told, "SLURM_ARRAY_TASK_ID": str(job)})
"""

    def test_the_block_for_slurm_by_a_stand_in(self) -> None:
        self.write("sbatch", self.SBATCH).chmod(0o755)
        self.by_slurm(PATH=f"{self.folder}:{os.environ['PATH']}")

    def test_a_file_is_not_overwritten(self) -> None:
        self.out.write_text("mine\n")
        self.assertIn("exists: --resume continues it", self.sweep(status=1).stderr)
        self.assertIn("not a file of sweep", self.sweep("--resume", status=1).stderr)
        self.assertEqual(self.out.read_text(), "mine\n")

    def test_words_that_it_refuses(self) -> None:
        for words in (["--budget", "64,x"], ["--part", "4/3"], NO_WORDS, ["--budget", "0"], ["--weight", "65"], ["--jobs", "0"],
                      ["--restarts", "3"], ["--window", "65536"]):
            self.ends_with(64, "sweep", *([self.folder] if words else []), *words, "--out", self.out)
            self.assertFalse(self.out.exists(), words)
        self.fails("no such trace", "sweep", self.folder / "none", "--binary", REPLAY)
        self.fails("not a program", "sweep", self.folder, "--binary", "/dev/null", "--out", self.out)
        self.fails("no such folder", "sweep", self.folder, "--out", self.folder / "none/rows")
