"""The launcher, which ./replay starts: its options, the trace, the runs, and what it prints about them."""

from __future__ import annotations

import csv
import errno
import os
import re
import shutil
import subprocess
import threading
from collections.abc import Iterator, Sequence
from itertools import islice
from typing import IO, Any, Optional

from fintaqush_tools import builds, errors
from fintaqush_tools.builds import build, child, crates, elsewhere, in_module, kit, write
from fintaqush_tools.errors import Refusal
from fintaqush_tools.files import write_whole
from fintaqush_tools.places import IS_CHECKOUT, TEMPLATES, TOP, usage_text, version
from fintaqush_tools.progress import say, show
from fintaqush_tools.reports import DEVICES, TOTALS, lines_of, objects_of, sums_of
from fintaqush_tools.settings import MOST, RANGES, judge
from fintaqush_tools.texts import argument, is_number, quoted

Answer = tuple[int, Optional[bytes], str]  # status, output if it was kept, messages

CALLED = os.environ.get("FINTAQUSH_NAME", "./replay")  # as a subcommand of `fintaqush` was asked for it
MOST_KEPT = 8 << 20  # no trace is longer unless it is padded
UNREADABLE = {
    errno.ENOENT: "there is no such file",
    errno.ENXIO: "this is a socket, not a trace",
    errno.EBADF: "this is closed",
    errno.EISDIR: "this is a folder, not a trace",
    errno.EAGAIN: "a read of it failed",
}
HEADER = "moment,device,event,value"
PACKED = {  # by what the file begins with
    rb"\x1f\x8b": "packed by gzip: gunzip -c",
    rb"\x28\xb5\x2f\xfd": "packed by zstd: zstd -dc",
    rb"\xfd7zX": "packed by xz: xz -dc",
    rb"BZh": "packed by bzip2: bunzip2 -c",
    rb"\xff\xfe|m\x00": "in UTF-16: iconv -f UTF-16LE -t UTF-8",
    rb"\xfe\xff|\x00m": "in UTF-16: iconv -f UTF-16BE -t UTF-8",
}


def for_bash(name: str) -> str:
    """Returns the name itself if it is printable, otherwise quoted for bash, so that a terminal doesn't interpret it."""
    return name if name.isprintable() else argument(name)


def cause_of(fault: int, line: str, fields: int) -> str:
    """Returns the likely cause of a fault at a line with so many fields."""
    with open(f"{TEMPLATES}/causes.txt", encoding="utf-8") as file:
        known = [each.rstrip("\n").split(" => ") for each in file if not each.startswith("#")]
    some = (why for pattern, why in known if re.match(pattern, f"{fault} {line}"))
    why = next(some, "see the faults in docs/FORMATS.md")
    return why.format(fields=fields, others="semicolons" if ";" in line else "tabs")


def record_in(lines: Sequence[str], row: int) -> tuple[int, int, int, int] | None:
    """Returns of a row that isn't empty how many fields it has, how many empty ones are above it, and its first and its last line."""
    csv.field_size_limit(1 << 30)
    reader, empty, at = csv.reader(lines), 0, 0
    for record, fields in enumerate(reader):
        if fields and record - empty == row:
            return len(fields), empty, at, reader.line_num
        empty, at = empty + (not fields), reader.line_num
    return None


def about() -> str:
    """Returns what --version prints."""
    asked = (("git", "-C", TOP, "describe", "--always", "--dirty"), ("rt", "version"))
    done = (subprocess.run(["/usr/bin/env", *it], capture_output=True, text=True, check=False) for it in asked)
    sources, of_kit = (it.stdout.strip() for it in done)
    built = (crates()[name].is_built() for name in ("napi_serial", "napi_replay"))
    serial, every = ("proved and built" if it else "not built here yet" for it in built)
    what = "it replays traces of version 1 and 2 by the NAPI polling of Linux 6.6"
    lines = [f"replay of Fintaqush {version()}", what, f"sources: {sources or 'no git history here'}"]
    lines += [f"program of serial mode: {serial}", f"program of every mode: {every}"]
    return "\n".join([*lines, f"kit: {of_kit or 'no rt on PATH'}", ""])


class Run:
    """A program that runs on the trace of a call, with this many MiB of memory: its status, its output if that is kept, and its
    messages."""

    def __init__(self, call: Call, command: Sequence[str], memory: int = 0, is_kept: bool = True, **where: Any) -> None:
        self.call = call
        self.told: tuple[Optional[bytes], bytes] = (None, b"")
        where |= {"stdin": subprocess.PIPE, "stdout": subprocess.PIPE if is_kept else None, "stderr": subprocess.PIPE}
        where |= {"preexec_fn": lambda: child(memory=memory), "restore_signals": False}
        self.process: subprocess.Popen[bytes] = subprocess.Popen(command, **where)
        to, self.process.stdin = self.process.stdin, None
        threading.Thread(target=call.pass_on, args=(to, self.process), daemon=True).start()
        self.reader = threading.Thread(target=self.read, daemon=True)
        self.reader.start()

    def read(self) -> None:
        self.told = self.process.communicate()

    def is_over(self) -> bool:
        return not self.reader.is_alive()

    def result(self) -> Answer:
        self.reader.join()
        if self.call.failed:
            raise self.call.failed
        (output, said), status = self.told, self.process.returncode
        return 128 - status if status < 0 else status, output, said.decode(errors="replace")


class First:
    """The report of the module, or of an unproved run, which is printed once, as soon as it is complete, while the program is still being
    proved and built."""

    def __init__(self, call: Call) -> None:
        self.call, found = call, in_module(call.crate.name, is_same=True)
        self.what, self.end_run = found[1] if found else "an UNPROVED run", call.end if found else call.end_unproved
        how_long = "" if found else ", in up to a minute"
        say(f"the program is to be proved and built: meanwhile the answer of {self.what}{how_long}")
        self.run = call.run(found[0], True) if found else call.begin_unproved()
        self.answer: Answer | None = None

    def tell(self) -> None:
        """Waits for the report, unless it was printed."""
        if not self.answer:
            result = self.run.result()
            show("")
            more = "Ctrl-C leaves what is proved by then, and the next call goes on from there"
            self.answer = self.end_run(result, f"this was {self.what}; the proof goes on. {more}")

    def look(self) -> None:
        if self.run.is_over():
            self.tell()

    def end(self) -> Answer | None:
        """Ends the run, if it isn't over yet; returns what it printed."""
        if not self.answer:
            self.run.process.terminate()
        return self.answer


class Call:
    """A call of the launcher. An argument that is neither one of its own options nor a file is left to the program to reject."""

    rest: Iterator[bytes]

    def __init__(self, given: Sequence[str]) -> None:
        self.words, self.files, self.own, self.json, rest = list[str](), list[str](), set[str](), "", iter(given)
        self.limits: list[str] = []
        self.restarts: Optional[str] = None  # of --raise
        for word in rest:
            name, is_given, after = word.partition("=")
            if word in ("-h", "--help", "--version", "--unproved", "--build", "--json"):
                self.own.add(word)
            elif word.startswith("--json="):
                self.own.add("--json")
                self.json = after
            elif name == "--raise":
                self.restarts = after if is_given else "all"
            elif name == "--fail-if":
                self.limits.append(after if is_given else next(rest, ""))
            elif word == "-" or word and word[0] != "-":
                self.files.append(word)
            else:
                self.words += [word, *([value] if word in RANGES and (value := next(rest, None)) is not None else [])]
        is_every = re.search("--mode[= ](shared|threads)( |$)", " ".join(self.words))
        self.crate = crates()["napi_replay" if is_every else "napi_serial"]
        self.memory = os.environ.get("REPLAY_MEMORY", "2048")
        self.name = None if self.files in ([], ["-"]) else for_bash(self.files[0])
        self.which, self.kept = self.name or "standard input", bytearray()
        self.failed: Refusal | None = None

    def answer(self) -> int:
        if not re.fullmatch("[1-9][0-9]{0,6}|unlimited", self.memory):
            raise Refusal(f"REPLAY_MEMORY={for_bash(self.memory)}: it is a number of MiB, or unlimited", 64)
        if self.own & {"-h", "--help", "--version"}:
            if not write((about() if "--version" in self.own else usage_text(CALLED)).encode()):
                raise Refusal("the text couldn't be written", 4)
            return 0
        if "--build" in self.own:
            if self.own != {"--build"} or self.words or self.files:
                raise Refusal(f"--build replays nothing, and stands alone (see {CALLED} --help)", 64)
            return build(["napi_serial", "napi_replay"])
        self.check_own()
        is_unproved = "--unproved" in self.own
        is_ready = is_unproved or self.crate.is_built()
        other = None if is_ready or shutil.which("rt") else elsewhere(self.crate.name)
        self.check(self.open(), is_ready or bool(other))
        if is_unproved and not IS_CHECKOUT:
            why = "--unproved runs the sources of a checkout, and this is an installed program, which is proved"
            raise Refusal(why, 64)
        if self.restarts and (status := self.add_runs(self.restarts)):
            return status
        if is_unproved:
            say("an unproved run: the program is made anew each time and nothing is checked (up to a minute)")
            return self.limited(self.end_unproved(self.begin_unproved().result(), "this was an UNPROVED run"))
        if other:
            say(other[1])
            result = self.run(other[0], self.is_kept()).result()
            self.finish(*result)
            return self.limited(result)
        return self.limited(self.proved(self.built(is_ready)))

    def check_own(self) -> None:
        """Parses the conditions of --fail-if, and checks --raise."""
        if self.restarts and self.restarts != "all" and not is_number(self.restarts, 99999):
            raise Refusal(f"--raise={quoted(self.restarts)}: it is a number of runs, 0..=99999", 64)
        if self.restarts and "threads" in " ".join(self.words):
            raise Refusal("--raise adds softirq rows, which threads mode doesn't have", 64)
        if self.limits:
            from argparse import ArgumentTypeError

            from fintaqush_tools.thresholds import condition_of

            try:
                self.conditions = [condition_of(text, (*TOTALS, *DEVICES)) for text in self.limits]
            except ArgumentTypeError as error:
                raise Refusal(f"--fail-if: {error}", 64) from None

    def is_kept(self) -> bool:
        """Returns whether the report is read here, and not only passed on."""
        return "--json" in self.own or bool(self.limits)

    def add_runs(self, restarts: str) -> int:
        """Adds to the trace the runs that the kernel would make, by napi_series. Returns its status if it fails."""
        from fintaqush_tools.processes import program
        from fintaqush_tools.trace import raise_option

        words, settings = iter(self.words), list[str]()
        for word in words:
            each = [word] if "=" in word else [word, *islice(words, 1)]
            settings += each if word.partition("=")[0].removeprefix("--") in MOST else []
        option = raise_option(None if restarts == "all" else restarts)
        status, rows, said = Run(self, [program("napi_series"), option, "--rows", *settings]).result()
        if status:
            return self.finish(status, None, said)
        self.kept, self.rest = bytearray(), iter([rows or b""])
        return 0

    def limited(self, result: Answer) -> int:
        """Returns the exit status after a result: that of --fail-if, if a condition holds."""
        status, output, _ = result
        if status or not self.limits:
            return status
        from fintaqush_tools.thresholds import status_of

        return status_of(self.conditions, [("", sums_of(objects_of((output or b"").decode())))])

    def check(self, wrong: str, is_ready: bool) -> None:
        """Fails if the trace can't be read, or an option is invalid; the value of a mistyped option looks like a trace."""
        if (wrong or not is_ready) and (why := judge(self.words)):
            raise Refusal(f"{why} (see {CALLED} --help)", 64)
        if wrong:
            write(usage_text(CALLED).encode() if not self.files and os.isatty(0) else b"", 2)
            raise Refusal(wrong, 66)

    def built(self, is_ready: bool) -> Optional[Answer]:
        """Builds the program. On a terminal a first result is printed while it is still being proved, and returned."""
        if not is_ready and not IS_CHECKOUT:
            raise Refusal(f"{self.crate.made}: not a program; the variable PROGRAM names another one", 69)
        if is_ready or not os.isatty(1) or not kit() or any(len(self.kept) > MOST_KEPT for _ in self.parts()):
            build([self.crate.name])
            return None
        beside = First(self)
        try:
            build([self.crate.name], beside.look)
        except Refusal:
            beside.tell()
            raise
        return beside.end()

    def proved(self, first: Optional[Answer]) -> Answer:
        """Runs the program, and prints its report unless that is the first result. Returns its result."""
        last = self.run(self.crate.made, bool(first) or self.is_kept()).result()
        if first and first[:2] == last[:2] and last[2] in first[2]:
            say("the proved program gives the same bytes")
            return last
        if first:
            say("the proved program gives OTHER bytes, and these count:")
        self.finish(*last)
        return last

    def open(self) -> str:
        """Opens the trace, or returns the reason why it can't. The launcher passes it on to the program, because not every input can be
        read twice."""
        if len(self.files) > 1:
            return f"two traces are named, {self.name} and {for_bash(self.files[1])}: replay one at a time"
        if not self.files and os.isatty(0):
            return "no trace: name a file, or give one on standard input"
        try:
            # `/proc/kmsg` is a file too, but a read at its end would block
            no_wait = os.O_NONBLOCK if self.name and os.path.isfile(self.files[0]) else 0
            end = os.open(self.files[0], os.O_RDONLY | no_wait) if self.name else 0
            os.read(end, 0)  # a folder can be opened too
        except OSError as error:
            why = f"it can't be read: {(error.strerror or '').lower()}"
            return f"{self.which}: " + UNREADABLE.get(error.errno or 0, why)
        self.rest = iter(lambda: os.read(end, 1 << 16), b"")
        return ""

    def parts(self) -> Iterator[bytes]:
        """Yields the trace: the part that was kept, and then what is read, which is kept up to a limit."""
        yield bytes(self.kept)
        try:
            for text in self.rest:
                self.kept += text if len(self.kept) <= MOST_KEPT else b""
                yield text
        except OSError:
            raise Refusal(f"{self.which}: a read of it failed", 66) from None

    def pass_on(self, to: IO[bytes], process: subprocess.Popen[bytes]) -> None:
        """Passes the trace to a program. If a read fails, the program is ended, so that it doesn't accept a part of a trace as a whole
        one."""
        try:
            all(write(text, to.fileno()) for text in self.parts())
        except Refusal as stop:
            self.failed = stop
            process.kill()
        to.close()

    def run(self, made: str, is_kept: bool) -> Run:
        """Starts a program with the memory that it may have. The module limits its own, because node reserves more than it uses."""
        is_free = self.memory == "unlimited" or made.startswith(f"{TOP}/web/")
        return Run(self, [made, *self.words], 0 if is_free else int(self.memory), is_kept)

    def begin_unproved(self) -> Run:
        """Starts `rt try`, which runs the sources without their proofs and leaves no program."""
        command = [f"{kit()}/bin/rt", "try", "--steps", "4000000000", "--seconds", "600", "--", *self.words]
        return Run(self, command, cwd=f"{TOP}/crates/{self.crate.name}")

    def end_unproved(self, result: Answer, line: str) -> Answer:
        """Prints the output of such a run, without the toolchain's own lines about it."""
        status, output, said = result
        status = status if re.search("^run=ended ", said, re.M) else 70
        said = re.sub("^(checked: |races: |run=).*\n", "", said, flags=re.M)
        return self.end((status, output, said), line)

    def end(self, result: Answer, line: str) -> Answer:
        self.finish(*result)
        say(line)
        return result

    def finish(self, status: int, output: bytes | None, said: str) -> int:
        """Prints the output, if it was kept, and the messages; then one line that explains the error, if there is more to say."""
        is_json = "--json" in self.own and status == 0
        if output and is_json and self.json:
            self.put_json(output)
        elif output and not write(lines_of(output.decode()).encode() if is_json else output):
            raise Refusal(f"the report couldn't be written{' as JSON' * is_json}", 4)
        write(said.encode(), 2)
        fault = re.search(r"^trace fault (\d+) \w+ row (\d+)$", said, re.M)
        if status == 64:
            say(f"{judge(self.words) or 'the program knows no such words'} (see {CALLED} --help)")
        elif said == "memory fault 11 OutOfMemory\n" and self.memory != "unlimited":
            most = f"{self.memory} MiB (REPLAY_MEMORY sets that)"
            say(f"{self.which}: it takes more memory than the program may have, {most}")
        elif status not in (0, 141) and not said:  # (141: who read the report has enough)
            say(f"{self.crate.name} ended with status {status}, and no line of it is there")
        elif (
            fault
            and not self.restarts
            and len(self.kept) <= MOST_KEPT
            and (why := self.explain(int(fault[1]), int(fault[2])))
        ):
            say(f"{self.which}{why}")
        return status

    def put_json(self, output: bytes) -> None:
        """Writes the report as JSON to the file of --json=FILE, and prints it."""
        try:
            write_whole(self.json, lines_of(output.decode()))
        except (OSError, Refusal) as error:
            raise Refusal(f"the report couldn't be written as JSON: {errors.why(error)}", 4) from None
        if not write(output):
            raise Refusal("the report couldn't be written", 4)

    def explain(self, fault: int, row: int) -> str:
        """Prints the line of the trace that the error names, its text and the likely cause. Rows count records, so nothing is printed if
        the line isn't known for sure."""
        data = bytes(self.kept)
        packed = [packed for first, packed in PACKED.items() if fault == 1 and re.match(first, data)]
        if packed:
            return f": the file is {packed[0]}{' ' + argument(self.files[0]) if self.name else ''} | {CALLED}"
        text = data.decode("latin-1").removeprefix("\xef\xbb\xbf")
        by_cr = "\n" not in text and re.search("\r[^\r]", text)
        lines = [f"{it.rstrip(chr(13))}\n" for it in re.split("\r" if by_cr else "\n", text)]
        try:
            found = record_in(lines, row)
        except csv.Error:
            return ""  # a CR inside a line ends a record too, and what is a line of such a file is anybody's guess
        if not found:
            return f": there is no line with text in it: the first one has to be {HEADER}" if row == 0 else ""
        fields, empty, at, end = found
        line = lines[at].rstrip("\n")
        why = cause_of(fault, line, fields)
        if end == len(lines) and re.search(r'(^|,)"[^"]*\Z', "".join(lines[at:])):
            why = "a quote that it opens isn't closed, so all that follows is one field"
        why += "; the empty lines above it are no rows" if empty else ""
        why += "; its lines end by CR alone, and are counted so" if by_cr else ""
        return f" line {at + 1}, {quoted(line, 60)}: {why}"


def start(words: Sequence[str]) -> None:
    """Runs a call of the launcher, and ends the process."""
    builds.run(lambda given: Call(given).answer(), words)
