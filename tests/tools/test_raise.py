"""Tests of `napi_series --raise` and of `replay --raise`: expected numbers come from the kernel, from traces that are small enough to replay by hand, or
from replays of each prefix. tests/kernel.sh compares raised replays with the kernel's own functions. RAISED=10000 tries that many random traces."""

from __future__ import annotations

import hashlib
import os
import random
import re
import subprocess
from collections.abc import Sequence
from concurrent.futures import ThreadPoolExecutor

from prefixes import report_of
from random_trace import Trace
from tooltest import HEADER, HERE, NO_WORDS, SERIES, TOP, InFolder, run

from fintaqush_tools.trace import records_of

SETTINGS: list[list[str]] = [[], ["--budget=2"], ["--budget=1", "--weight=1"], ["--budget=16", "--weight=8"], ["--window=1"], ["--budget=64", "--weight=3", "--window=2"]]
LIMITS = ["--raise", "--raise=0", "--raise=1", "--raise=3"]
TRACES = int(os.environ.get("RAISED", "300"))


def form_of(text: str, dice: random.Random) -> str:
    """Returns a trace in another form: quotes, zeros in front of numbers, other ends of lines, empty lines, a byte-order mark, and no end of the last
    line. A reader has to reject some: a number may have 21 digits, and a field a quote or a space too many."""
    def field(part: str) -> str:
        if part.isdigit() and dice.random() < 0.2:
            part = part.zfill(dice.choice([2, 19, 20]) + (dice.random() < 0.01))
        return f'"{part}"' if dice.random() < 0.2 else part

    lines = [",".join(map(field, line.split(","))) for line in text.splitlines()]
    if dice.random() < 0.05:
        lines[-1] = dice.choice([lines[-1] + '"', '"' + lines[-1], lines[-1].replace(",", '",', 1), lines[-1].replace(",", '"0,', 1), lines[-1] + " "])
    ends = dice.choice([["\n"], ["\r\n"], ["\r"], ["\n", "\r\n", "\r", "\n\n", "\r\n\r\n", "\n\r"]])
    text = dice.choice(["", "", "\ufeff", "\n"]) + "".join(line + dice.choice(ends) for line in lines)
    return text.rstrip("\r\n") if dice.random() < 0.2 else text


def is_run(rows: Sequence[str], place: int) -> bool:
    """Returns whether a row is a softirq row without another one at the same time after it."""
    moment, _, event, _ = rows[place].split(",")
    return event == "softirq" and [row.split(",")[0::2] for row in rows[place + 1 : place + 2]] != [[moment, event]]


def series(words: Sequence[str], text: bytes) -> bytes:
    """Returns the output of napi_series, or its error."""
    done = subprocess.run([SERIES, *words], input=text, capture_output=True, check=False)
    return done.stdout or done.stderr


class Raise(InFolder):
    def raised(self, text: str, *words: object) -> list[str]:
        """Returns the rows of the resulting trace."""
        return self.whole(text, *words).splitlines()[1:]

    @staticmethod
    def whole(text: str, *words: object) -> str:
        """Returns what napi_series prints of the rows with the added runs, or its error."""
        given, option = list(map(str, words)), "--raise"
        if "--restarts" in given:
            place = given.index("--restarts")
            option, given = f"--raise={given[place + 1]}", [*given[:place], *given[place + 2 :]]
        return series([option, "--rows", *given], text.encode()).decode()

    def replay(self, text: str, *words: str) -> list[list[str]]:
        return report_of(text.splitlines()[1:], words, text[: text.index("\n") + 1])

    def test_recorded_bursts_lose_no_packet(self) -> None:
        """15245 packets reached the kernel's polls. With a small budget the recorded runs poll 8441 of them, and 5582 are dropped; with the runs
        that the kernel would add, all are polled."""
        words = ["--budget", "16", "--weight", "8"]
        path = TOP / "examples/linux-veth-bursts.csv"
        def sums(report: list[list[str]]) -> tuple[int, int, list[str]]:
            return (int(report[-1][8]), sum(int(line[6]) for line in report if line[0] == "device"), report[-2])
        self.assertEqual(sums(self.replay(path.read_text(), *words))[:2], (8441, 5582))
        text = self.whole(path.read_text(), *words)
        self.assertEqual(sums(self.replay(text, *words)), (15245, 0, ["list"]))
        # Only softirq rows are added, and a second call adds none.
        kept = iter(text.splitlines())
        self.assertTrue(all(row in kept for row in path.read_text().splitlines()))
        self.assertEqual(self.whole(text, *words), text)

    def test_what_the_pages_show_of_a_budget_is_true_to_the_kernel(self) -> None:
        """A command in a page with another budget or weight adds runs, or replays a recording with the recorded one, or uses arrivals, for which
        the machine makes all runs, or the page says what it drops."""
        pages = [TOP / "README.md", TOP / "examples/README.md", *sorted((TOP / "docs").glob("*.md")), TOP / "replay"]
        commands = [line for page in pages for line in page.read_text().splitlines()
                    if re.search(r"(^|[ `])(\./replay|tools/[a-z-]+|(\./)?fintaqush [a-z-]+) [^\[]*--(budget|weight) ", line)]
        true = (r"--raise\b|(tools/|fintaqush )what-if |compare_recording|linux-(veth-small-budget|napi-disable)\.csv --budget 64\b"
                r"|and \d+ packets dropped$")
        self.assertEqual([command for command in commands if not re.search(true, command)], [])
        self.assertGreater(len(commands), 8)

    BURST = HEADER + "0,1,open,8\n" + "1,1,rx,60\n" * 3 + "2,0,softirq,0\n3,0,softirq,0\n"

    def test_by_hand(self) -> None:
        """With one packet per run, three runs take a packet each. Each poll was full and a request was missed, so a fourth run polls without a
        packet. The row at 3 ms finds the list empty, and stays."""
        words = ["--budget", "1", "--weight", "1"]
        rows = self.BURST.splitlines()[1:]
        self.assertEqual(self.raised(self.BURST, *words), [*rows[:5], *["2,0,softirq,0"] * 3, rows[5]])
        self.assertEqual(self.raised(self.BURST, *words, "--restarts", "0"), rows)
        self.assertEqual(self.raised(self.BURST, *words, "--restarts", "1"), [*rows[:5], "2,0,softirq,0", rows[5], "3,0,softirq,0"])
        self.assertEqual(self.raised(self.BURST), rows)

    def test_a_run_that_is_not_squeezed(self) -> None:
        """With a weight of 1 each full poll asks for a repoll, and the run stops with the device on the list, but without a squeeze. The kernel
        starts another run after it too."""
        rows = self.BURST.splitlines()[1:]
        raised = self.raised(self.BURST, "--weight", "1")
        self.assertEqual(raised, [*rows[:5], *["2,0,softirq,0"] * 3, rows[5]])
        report = self.replay("\n".join([HEADER.strip(), *raised, ""]), "--weight", "1")
        self.assertEqual([line[-2:] for line in report if line[0] == "softirq"], [["squeezed", "0"]] * 5)

    def test_a_trace_of_version_2(self) -> None:
        """With a budget of 1 runs are added until all nine packets are polled; with the default budget none is added. Busy rows stay."""
        text = (TOP / "examples/busy-poll.csv").read_text()
        words = ["--budget", "1", "--weight", "1"]
        raised = "\n".join([text.splitlines()[0], *self.raised(text, *words), ""])
        self.assertEqual([line[8:12] for line in self.replay(raised, *words) if line[0] == "device"],
                         [["6", "bytes", "1560", "left"], ["3", "bytes", "3900", "left"]])
        self.assertEqual(raised.count(",busy,"), text.count(",busy,"))
        self.assertGreater(raised.count("softirq"), text.count("softirq"))
        self.assertEqual(self.raised(text), text.splitlines()[1:])

    def test_every_form_of_a_record(self) -> None:
        """The trace that is printed has numbers without zeros in front, no quotes, and a line for each row."""
        text = '\ufeff"moment","device",event,value\r\n\r\n"0",01,open,8\r1,1,rx,60\n\n"18446744073709551615",1,rx,60\n"2",0,"softirq","0'
        self.assertEqual(self.raised(text, "--weight", "1", "--budget", "1"),
                         ["0,1,open,8", "1,1,rx,60", "18446744073709551615,1,rx,60", "2,0,softirq,0", *["2,0,softirq,0"] * 2])

    def test_a_run_that_is_followed_by_one_at_the_same_time(self) -> None:
        """The trace already has the run that would be added, also if its time is written in another form. Of three runs the last is repeated
        until the list is empty, which takes four runs; of five runs none is repeated."""
        words = ["--budget", "1", "--weight", "1"]
        for own, wanted in ((3, 4), (5, 5)):
            text = HEADER + "0,1,open,8\n" + "1,1,rx,60\n" * 3 + "2,0,softirq,0\n02,0,softirq,00\n" + "2,0,softirq,0\n" * (own - 2)
            self.assertEqual(self.raised(text, *words)[4:], ["2,0,softirq,0"] * wanted)

    def test_random_traces(self) -> None:
        """The raised replay equals the replay of the raised trace, or both have the same fault; the program and the tools read the same rows."""
        def check(number: int) -> tuple[bool, bool]:
            dice = random.Random(number)
            plain = Trace(number, 1 + number % 2).text()
            text = (form_of(plain, dice) if number % 3 else plain).encode()
            words, limit, more = dice.choice(SETTINGS), dice.choice(LIMITS), dice.choice([NO_WORDS, ["--polls"], ["--every", "3"]])
            own, rows = series(["--rows", *words], text), series([limit, "--rows", *words], text)
            is_raised = rows.startswith(b"moment")
            self.assertEqual(series([*more, limit, *words], text), series([*more, *words], rows) if is_raised else rows, number)
            if own.startswith(b"moment"):
                self.assertEqual(records_of(text), records_of(own), number)
                self.assertTrue(limit != "--raise=0" or not is_raised or rows == own, number)
            return is_raised, is_raised and rows != own

        with ThreadPoolExecutor(4) as pool:
            raised, longer = map(sum, zip(*pool.map(check, range(TRACES))))
        self.assertGreater(raised, TRACES // 2)
        self.assertGreater(longer, TRACES // 10)

    def with_runs(self, header: str, own: Sequence[str], most: int, words: Sequence[str]) -> str:
        """Returns what the definition says: after each run, a replay of all rows so far shows whether it is made again."""
        rows: list[str] = []
        for place, row in enumerate(own):
            rows, added = [*rows, row], 0
            while is_run(own, place) and added < most and self.replay("\n".join([header, *rows, ""]), *words)[-2] != ["list"]:
                rows, added = [*rows, row], added + 1
        self.replay("\n".join([header, *rows, ""]), *words)  # which may have a fault
        return "\n".join([header, *rows, ""])

    def test_the_definition(self) -> None:
        """A softirq row is played again while the report of all rows so far has a device on the list, unless a run at the same time follows."""
        longer = 0
        for number in range(60):
            header, *own = Trace(number, 1).text().splitlines()
            own, words, most = own[:80], (["--budget=1", "--weight=1"], ["--window=1"], ["--weight=1"])[number % 3], (1, 3, 99999)[number // 3 % 3]
            try:
                wanted = self.with_runs(header, own, most, words)
            except ValueError as error:
                wanted = str(error)
            self.assertEqual(series([f"--raise={most}", "--rows", *words], "\n".join([header, *own, ""]).encode()).decode(), wanted, number)
            longer += wanted.count("\n") > len(own) + 1
        self.assertGreater(longer, 15)

    def test_shipped_traces_stay_as_they_were(self) -> None:
        """With several settings: the checksums of the traces that earlier releases made by repeated replays (raised.sums)."""
        for line in (HERE / "raised.sums").read_text().splitlines():
            name, most, *words, wanted = line.split()
            text = (TOP / f"examples/{name}.csv").read_bytes()
            done = series(["--raise" if most == "all" else f"--raise={most}", "--rows", *words], text)
            self.assertEqual(hashlib.sha256(done).hexdigest()[:16], wanted, line)

    def test_a_field_that_is_quoted_in_part(self) -> None:
        """The replay accepts `"so"ftirq` and `"3"0`: the text after a closing quote belongs to the field. So do all that add runs."""
        for old, new in (("2,0,softirq", '2,0,"so"ftirq'), ("3,0,", '"3"0,0,'), ("moment,", '"mo"ment,')):
            path = self.write("x.csv", self.BURST.replace(old, new, 1))
            plain = self.write("y.csv", self.BURST.replace(old, new.replace('"', ""), 1))
            other = run("compare", plain, "--raise", "--budget", "1", "--").stdout
            self.assertEqual(self.ends_with(0, "compare", path, "--raise", "--budget", "1", "--").stdout, other)

    def test_a_disable_that_waits_for_the_runs(self) -> None:
        """In the given rows the enable row meets a pending disable; with the added runs it doesn't."""
        two = HEADER + "0,1,open,8\n0,2,open,8\n0,1,rx,60\n0,2,rx,60\n1,2,disable,0\n2,0,softirq,0\n3,2,enable,0\n"
        self.assertGreater(self.raised(two, "--budget", "1", "--weight", "1")[5:-1].count("2,0,softirq,0"), 1)
        self.assertEqual(self.whole(two, "--budget", "1", "--weight", "1", "--restarts", "0"), "trace fault 12 Pending row 7\n")
        self.assertEqual(self.whole(two.replace("2,0,softirq,0\n", "")), "trace fault 12 Pending row 6\n")

    def test_as_many_rows_as_a_trace_has(self) -> None:
        """With one packet per run 49990 packets take 49991 runs, the last without a packet."""
        words = ["--budget", "1", "--weight", "1"]
        text = HEADER + "0,1,open,65536\n" + "0,1,rx,60\n" * 49990 + "1,0,softirq,0\n"
        self.assertEqual(len(self.raised(text, *words)), 49991 + 49991)
        full = HEADER + "0,1,open,65536\n" + "0,1,tx,60\n" * 99997 + "0,1,rx,60\n1,0,softirq,0\n"
        self.assertEqual(len(self.raised(full)), 100000)
        for more in (full.replace("tx", "rx"), text + "1,1,rx,60\n" * 20 + "2,0,softirq,0\n"):
            self.assertEqual(self.whole(more, *words), "trace fault 9 TooManyRows row 100001\n")

    def test_refusals(self) -> None:
        self.assertEqual(self.whole(HEADER + "0,1,rx,60\n"), "trace fault 6 UnknownDevice row 1\n")
        for words in (["--weight", "65"], ["--budget", "0"], ["--restarts", "-1"], ["--restarts", "x"]):
            self.assertEqual(self.whole(HEADER, *words).partition(" ")[0], "usage")
        self.assertEqual(self.whole(HEADER), HEADER)
