"""Used by sweep and what-if: a CSV file with a row per combination of settings. Each row is made by running a program. Several programs run
at once on all processors, or by GNU parallel on many machines. Existing rows aren't made again. Only one call may work on a file."""

from __future__ import annotations

import argparse
import csv
import hashlib
import io
import os
import re
import shutil
import subprocess
import tempfile
from collections.abc import Callable, Iterable, Iterator, Sequence
from typing import IO, Any

from fintaqush_tools.errors import Refusal, Signals, unfinished, why
from fintaqush_tools.files import check_target, write_whole
from fintaqush_tools.options import Parser, Words, add_binary, as_options, number, pair
from fintaqush_tools.places import TOP
from fintaqush_tools.processes import read_now
from fintaqush_tools.progress import Progress, say, share_of
from fintaqush_tools.results import NUMBER, cells_in
from fintaqush_tools.texts import last_line, shown
from fintaqush_tools.threads import in_threads

Key = tuple[str, ...]
Row = dict[str, Any]

TRIES = 3
# The first letter of a name that a spreadsheet would compute, or that is quoted.
FORMULA = re.compile("[=+@\t\r'-]")
MAY_LACK = {"raised", "greatest_limit"}  # numbers that a row with results may lack


def choices(read: Callable[[str], object]) -> Callable[[str], list[str]]:
    """Returns a parser of comma-separated values, as 64,300,1000, each parsed by `read`."""
    return lambda text: list(dict.fromkeys(str(read(each)) for each in text.split(",")))


def sum_of(file: IO[bytes]) -> str:
    """Returns the checksum that identifies an open file's contents."""
    digest = hashlib.sha256()
    while part := file.read(1 << 20):
        digest.update(part)
    return digest.hexdigest()[:16]


def add_words(parser: Parser, what: str, out: dict[str, Any]) -> None:
    """Adds the options of a tool that makes rows."""
    parser.add_argument("--out", **out)
    parser.flag("--resume", "continue an existing file")
    text = "only part K of N: every Nth row from the Kth on, for a job array"
    parser.add_argument("--part", type=pair("/", "3/16"), metavar="K/N", help=text)
    parser.add_argument("--jobs", type=number(1, 999999), help="programs to run at once (one per processor)")
    text = "GNU parallel's file of machines; without it all replays run on this machine"
    parser.add_argument("--sshloginfile", help=text)
    add_binary(parser, what)
    parser.add_argument("--play", nargs="+", help=argparse.SUPPRESS)


def check_words(tool: str, words: Words) -> None:
    """Fails if a named file can't exist. Without --out the rows go to a temporary file that is removed at the end."""
    if words.sshloginfile and not os.path.isfile(words.sshloginfile):
        raise Refusal(f"{shown(words.sshloginfile)}: there is no such file")
    if words.sshloginfile and not shutil.which("parallel"):
        raise Refusal("--sshloginfile needs GNU parallel, which isn't on PATH")
    words.is_passing = words.out is None
    if words.is_passing:
        words.out = f"{tempfile.gettempdir()}/{tool}-{os.getpid()}-{os.urandom(6).hex()}.csv"
        unfinished.add(words.out)
    check_target(words.out)


def fault_of(made: str, status: int, said: bytes, faults: re.Pattern[str]) -> str:
    """Returns the fault of the input of a program that ended so; nothing after a success. Fails on any other outcome."""
    if status == 0:
        return ""
    fault = last_line(said, "no line")
    if status != 2 or not faults.match(fault):
        raise Refusal(f"{shown(made)} ended with status {status}: {fault[:200]}")
    return fault


def told_in(rows: Sequence[Row]) -> list[Row]:
    """Returns the rows that have results."""
    return [row for row in rows if str(row["status"]) == "0"]


def how_far(count: int, all_rows: int) -> float:
    """Returns the share of the work that is done, by finished rows and by how far the running programs have read."""
    return min(1, (count + sum(share_of(file) or 0 for file in list(read_now))) / all_rows)


class Combinations:
    """The rows of a tool. The first value of a key is a file, the second identifies its contents, and the others are settings; after the key come
    the status, the fault and numbers. `row_of` makes the row of a program and a key, or fails."""

    def __init__(self, tool: str, key: list[str], told: list[str], row_of: Callable[[str, Key], Row]) -> None:
        self.tool, self.numbers = tool, told[2:]
        self.key, self.columns, self.row_of = key, [*key, *told], row_of
        self.head = ",".join(self.columns) + "\n"

    def try_row(self, made: str, key: Key) -> tuple[Row | None, str]:
        """Returns the row of a key, or the reason why there is none."""
        try:
            return self.row_of(made, key), ""
        except (Refusal, OSError, UnicodeError, MemoryError) as error:
            words = as_options(dict(zip(self.key[2:], key[2:])))
            return None, f"{' '.join([shown(key[0]), *words])}: {why(error)}"

    def line_of(self, row: Row) -> str:
        text, name = io.StringIO(), str(row[self.key[0]])
        quoted = {self.key[0]: f"'{name}" if FORMULA.match(name) else name}
        csv.DictWriter(text, self.columns, lineterminator="\n").writerow({**row, **quoted})
        return text.getvalue()

    def row_in(self, line: str) -> Row | None:
        """Returns the row of a line; None if that isn't whole, or lacks a number of a result."""
        try:
            cells = cells_in(line)
        except Refusal:
            return None
        row = dict(zip(self.columns, cells))
        lacks = {name for name in self.numbers if not NUMBER.fullmatch(row.get(name, ""))}
        may_lack = MAY_LACK if row.get("status") == "0" else lacks
        if len(cells) != len(self.columns) or not lacks <= may_lack or any(row[name] for name in lacks):
            return None
        return {**row, self.key[0]: re.sub(f"^'(?={FORMULA.pattern})", "", cells[0])}

    def play(self, made: str, keys: Sequence[str]) -> int:
        """Makes these rows and prints them: GNU parallel runs this, on this machine or another."""
        failed = 0
        for text in keys:
            *others, name = text.split(",", len(self.key) - 1)
            row, told = self.try_row(made, (name, *others))
            if row:
                print(self.line_of(row), end="", flush=True)
            else:
                say(told)
                failed = 1
        return failed

    def rows_by_parallel(self, made: str, keys: Sequence[Key], words: Words) -> Iterator[Row]:
        """Yields the rows that GNU parallel's processes print. Each process makes several rows, because starting one costs more than a replay. A
        process that fails is tried again, on another machine if there are several."""
        jobs = words.jobs or os.cpu_count() or 1
        some = max(1, min(32, len(keys) // (4 * jobs)))
        options = {"retries": TRIES, "jobs": words.jobs or "100%", "max-args": some, "workdir": os.getcwd()}
        options["sshloginfile"] = words.sshloginfile
        command = ["parallel", "--will-cite", "--line-buffer", "--quote", *as_options(options)]
        command += [f"{TOP}/fintaqush", self.tool, "--binary", made, "--play"]
        with tempfile.TemporaryFile() as lines:
            # a file, because a pipe that is full in both directions would deadlock
            lines.write(b"".join(os.fsencode(f"{','.join(key[1:])},{key[0]}\n") for key in keys))
            lines.seek(0)
            Signals.defer()
            with subprocess.Popen(command, stdin=lines, stdout=subprocess.PIPE) as process:
                try:
                    Signals.resume()
                    for raw in process.stdout or ():
                        row = self.row_in(raw.decode("utf-8", "surrogateescape"))
                        if row:
                            yield row
                finally:
                    process.terminate()

    def rows_here(self, made: str, keys: Sequence[Key], words: Words) -> Iterator[Row]:
        """Makes the rows on this machine, with a pool of threads that each run a program."""
        for row, told in in_threads(lambda key: self.try_row(made, key), keys, words.jobs):
            if row:
                yield row
            else:
                say(told)

    def key_of(self, row: Row) -> Key:
        return tuple(row[name] for name in self.key)

    def rows_in(self, path: str) -> dict[Key, Row]:
        """Returns the complete rows of a file by their keys. Only a row that was cut short at the end is skipped."""
        with open(path, encoding="utf-8", errors="surrogateescape", newline="\n") as file:
            lines = list(file)
        if lines and not lines[-1].endswith("\n"):
            lines.pop()
        if not lines or lines[0] != self.head:
            raise Refusal(f"{shown(path)}: not a file of {self.tool}")
        rows = {}
        for place, line in enumerate(lines[1:], 2):
            row = self.row_in(line)
            if not row:
                how = "without this line --resume makes the missing rows"
                raise Refusal(f"{shown(path)}: row {place} isn't a row of {self.tool}: {how}")
            rows[self.key_of(row)] = row
        return rows

    def make_missing(self, made: str, words: Words, missing: Sequence[Key]) -> Iterator[Row]:
        """Makes the missing rows, appends each to the file as it finishes, and yields it."""
        rows_by, there = self.rows_by_parallel if words.sshloginfile else self.rows_here, set[Key]()
        plural = "s" * (len(missing) > 1)
        with Progress(f"making {len(missing)} row{plural}", lambda: how_far(len(there), len(missing))):
            for row in rows_by(made, missing, words):
                if self.key_of(row) not in there:  # if GNU parallel runs a process again, its first rows come twice
                    there.add(self.key_of(row))
                    with open(words.out, "ab") as file:  # a row that a killed call cuts is skipped
                        file.write(self.line_of(row).encode("utf-8", "surrogateescape"))
                    yield row

    def tell(self, words: Words, text: str) -> None:
        """Prints a line on standard error, if the file is kept."""
        if not words.is_passing:
            say(text)

    def begin(self, words: Words, keys: Sequence[Key]) -> dict[Key, Row]:
        """Returns the rows that exist already, of a file that ends in a whole row."""
        is_there = os.path.lexists(words.out)
        if is_there and not words.resume:
            raise Refusal(f"{shown(words.out)} exists: --resume continues it")
        rows = self.rows_in(words.out) if is_there else {}
        self.write(words.out, rows.values())
        others = {(key[0], *key[2:]) for key in rows} - {(key[0], *key[2:]) for key in keys}
        stay = f"; {len(others)} others of {shown(words.out)} stay" if others else ""
        self.tell(words, f"{len(keys)} rows, of which {len(set(keys) & set(rows))} are there{stay}")
        return rows

    def write(self, path: str, rows: Iterable[Row]) -> None:
        write_whole(path, self.head + "".join(map(self.line_of, rows)))

    def make(self, made: str, words: Words, keys: Sequence[Key]) -> list[Row]:
        """Makes the missing rows of these keys, or of a part of them; at the end the rows are in the order of their keys, after the other rows of
        the file."""
        keys = keys[words.part[0] - 1 :: words.part[1]] if words.part else keys
        for path in {key[0] for key in keys}:
            if set(path) & set("\r\n"):
                raise Refusal(f"{shown(path)}: a name with a newline can't be in a row")
        rows = self.begin(words, keys)
        missing = [key for key in keys if key not in rows]
        if missing:
            rows |= {self.key_of(row): row for row in self.make_missing(made, words, missing)}
        asked, settings = set(keys), {(key[0], *key[2:]) for key in keys}
        others = [row for key, row in rows.items() if key not in asked and (key[0], *key[2:]) not in settings]
        self.write(words.out, [*others, *(rows[key] for key in keys if key in rows)])  # without those of changed files
        left = [key for key in keys if key not in rows]
        refused = sum(1 for key in keys if key in rows and str(rows[key]["status"]) != "0")
        self.tell(words, f"{len(keys) - len(left)} rows in {shown(words.out)}, of which {refused} are refused")
        if left:
            raise Refusal(f"{len(left)} rows are missing" + ": --resume tries them again" * (not words.is_passing))
        return [rows[key] for key in keys]
