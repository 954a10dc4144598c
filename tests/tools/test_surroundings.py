"""Tests of tools/ in a broken or hostile environment: each fails with one line and an exit status, and never with a traceback."""

from __future__ import annotations

import contextlib
import io
import os
import signal
import subprocess
import sys
import time
import unittest.mock
from collections.abc import Callable
from pathlib import Path
from typing import Any

from tooltest import (HEADER, HERE, MACHINE, MOST_SECONDS, NO_WORDS, PROGRAMS, REPLAY, START, TOP, InFolder, call, captured, failing, limited,
                      process, process_to, run, run_to, started)

from fintaqush_tools import errors, files
from fintaqush_tools.cli import MODULES

TRACE = TOP / "examples/bursts.csv"
REPORT = "list\ntotal devices 0 runs 0 polls 0 work 0 squeezed 0\n"
# Each tool with options by which it writes to standard output, and its input.
WRITERS: dict[str, list[Any]] = {"traffic": [], "compare": [TRACE, "--budget", "1", "--"],
           "from-ftrace": [HERE / "soft-tcp.txt", "made", *(f"--pair=va{number}:vb{number}" for number in range(1, 7))],
           "from-pcap": ["captured", "made"], "costs": [HERE / "soft-gso-23.txt"], "what-if": ["arrivals"],
           "advise": [HERE / "recorded-apart.rec"], "completion": ["bash"]}
if not os.path.exists(MACHINE):
    del WRITERS["what-if"], WRITERS["advise"]
CAPTURED = captured("100.000000")
ALL = sorted(MODULES.keys() - {"replay", "series"})
# Each tool that reads a file, with the options that it needs besides.
READERS: dict[str, list[str]] = {
    "costs": [],
    **{tool: ["made"] for tool in ("from-ftrace", "from-pcap")},
    "compare": ["--"],
    "plot": ["--out", "page.html"],
}
# A failing output, and the message for it: nothing is read after a pipe's end is closed.
FAILING = {"full": "No space left on device", "unread": "", "closed": "standard output is closed"}
# A command's environment without a locale.
BARE = ["env", "-i", f"PATH={os.environ['PATH']}", "CI=true", *(f"{name}={path}" for name, path in PROGRAMS.items())]


def long_report() -> str:
    """Returns a report of more than 1 kB."""
    return process(REPLAY, text=(TOP / "examples/linux-veth-bursts.csv").read_text()).stdout


def session(number: int) -> int:
    """Returns the session that a process is in; 0 if it has ended."""
    try:
        return os.getsid(number)
    except OSError:
        return 0


class Surroundings(InFolder):
    def start(self, tool: str, *words: object, **variables: object) -> subprocess.Popen[str]:
        return started(*START, tool, *words, folder=self.folder, **variables)

    def check_line(self, tool: str, said: str) -> None:
        """Checks that the tool printed one line of its own."""
        self.assertEqual(said.count("\n"), 1, (tool, said))
        self.assertTrue(said.startswith(f"fintaqush {tool}: "), (tool, said))

    def test_an_output_that_fails(self) -> None:
        """Every way to write to standard output. Earlier outputs are removed, because no file is overwritten."""
        self.write("captured", CAPTURED)
        self.write("arrivals", "ns,device,bytes\n0,1,60\n")
        for tool, words in [*WRITERS.items(), *((tool, ["--help"]) for tool in ALL)]:
            for kind, why in FAILING.items():
                wanted = f"fintaqush {tool}: {why}\n" if why else ""
                seen = run_to(kind, tool, *words, text=REPORT, folder=self.folder)
                self.assertEqual(seen, (wanted, 1), (words, kind))
                self.forget("made")
        self.assertEqual(self.names(), ["arrivals", "captured"])

    def test_an_output_of_a_process_that_fails(self) -> None:
        """The end of a process, with the locale of a user and with none, for short and long texts and a line by argparse."""
        calls = [(tool, WRITERS[tool]) for tool in ("traffic", "costs", "completion")]
        for tool, words in [*calls, ("plot", ["--version"])]:
            for kind, why in FAILING.items():
                for front in (NO_WORDS, BARE):
                    wanted = f"fintaqush {tool}: {why}\n" if why else ""
                    seen = process_to(kind, *front, *START, tool, *words, text=REPORT)
                    self.assertEqual(seen, (wanted, 1), (front, tool, kind))

    def test_a_disk_that_fills_up_with_outputs_unbuffered(self) -> None:
        """A file limited to 1 kB takes part of the output, and Python, unbuffered, would take that for all."""
        for tool in ("traffic", "completion"):
            with open(self.folder / "out", "w", encoding="utf-8") as out:
                start = [START[0], "-u", *START[1:]]
                done = limited("-f 1", tool, *WRITERS[tool], start=start, text=long_report(), out=out)
            self.assertEqual((done.stderr, done.returncode), (f"fintaqush {tool}: File too large\n", 1))

    def test_numbers_of_5000_digits(self) -> None:
        """Python rejects numbers with so many digits: the error is that of any number that is too large."""
        digits = "9" * 5000
        event = f"   a-1  [000] b....  5.000000: net_dev_xmit: dev=va1 skbaddr=0 len={digits} rc=0\n"
        self.write("made.csv", HEADER)
        for tool, words, text, status in (
                ("from-ftrace", ["-", "other"], event, 1),
                ("from-ftrace", ["-", "other"], event.replace("-1  [000]", f"-{digits}  [000]"), 1),
                ("from-pcap", ["-", "other"], CAPTURED.replace("100.", f"{digits}."), 1),
                ("steps", ["-", "--budget", digits], HEADER, 64), ("sweep", ["--part", f"1/{digits}", "."], "", 64),
                ("traffic", ["--rate", digits], "", 64), ("traffic", ["--seed", digits], "", 64), ("from-pcap", ["-", "other", "-c", digits], CAPTURED, 64),
                ("compare", ["-", "--"], HEADER + f"0,1,open,{digits}\n", 1), ("steps", ["-", "--out", "x.html"], HEADER + f"0,1,open,{digits}\n", 1)):
            said = self.fails("", tool, *words, status=status, text=text, folder=self.folder)
            self.assertNotRegex(said, "Traceback|mistake of its own")
            self.check_line(tool, said.splitlines(True)[-1])
            self.assertLess(len(said), 3000)

    def test_want_of_memory_at_any_time(self) -> None:
        """With the least memory with which scripts/start.py begins, and more: one line, or it works as usual."""
        self.write("report", REPORT)
        calls: list[tuple[str, list[object]]] = [("costs", [HERE / "soft-gso-23.txt"]), ("traffic", ["--out", "out"]), ("sweep", ["--help"])]
        for tool, words in calls:
            statuses = set()
            for memory in range(33000, 60000, 2000):
                done = limited(f"-v {memory}", tool, *words, folder=self.folder)
                if done.returncode in (0, 1) and "start.py" not in done.stderr:
                    statuses.add(done.returncode)
                    self.assertNotRegex(done.stderr, f'  File "{TOP}|mistake of its own')
            self.assertIn(0, statuses)

    def ended(self, number: int, tool: str, *words: object, is_ready: Callable[[], bool] = lambda: True, **program: object) -> str:
        """Starts a tool, and sends a signal once the program that it runs waits: SIGINT to all processes, as a terminal does, others to
        the tool only, as a batch system does. Returns what it prints on standard error; the program must not be left running."""
        return self.ends(self.start(tool, *words, ends={"start_new_session": True}, **program), number, tool, is_ready)

    def ends(self, child: subprocess.Popen[str], number: int, tool: str, is_ready: Callable[[], bool] = lambda: True) -> str:
        begun, until, program = self.folder / "begun", time.monotonic() + MOST_SECONDS, ""
        while not (program.endswith("\n") and is_ready()):
            self.assertIsNone(child.poll(), tool)
            self.assertLess(time.monotonic(), until)
            time.sleep(0.02)
            program = begun.read_text() if begun.exists() else ""
        (os.killpg if number == signal.SIGINT else os.kill)(child.pid, number)
        said = child.communicate(timeout=MOST_SECONDS)[1]
        self.assertEqual((said.splitlines()[-1], child.returncode), (f"fintaqush {tool}: interrupted", 128 + number))
        self.assertFalse(os.path.exists(f"/proc/{program.strip()}"), tool)
        self.assertNotIn("Traceback", said)
        begun.unlink()
        return said

    def held(self, body: str = "") -> Path:
        """Returns a program that writes its number to `begun` when it begins, and then waits for ever. It starts no other one, which could be
        left after it."""
        return self.program("held", f"{body}\necho $$ > '{self.folder / 'begun'}'\nexec sleep 1000")

    def test_an_end_leaves_nothing(self) -> None:
        """In the middle of a run: the old file stays, and no temporary file and no running program is left."""
        old, held = self.write("old.svg", "old\n"), self.held()
        before = self.names()
        calls: list[tuple[str, list[object], str]] = [
            ("compare", [TRACE, "--out", old, "--"], "PROGRAM"),
            ("steps", [TRACE, "--out", "page.html"], "SERIES"), ("sweep", [TRACE, "--resume", "--out", "rows"], "PROGRAM")]
        calls += [("plot", [TRACE, "--out", old], "SERIES")]
        for number in (signal.SIGINT, signal.SIGTERM, signal.SIGHUP):
            for tool, words, program in calls:
                programs: dict[str, Any] = {program: held}
                said = self.ended(number, tool, *words, **programs)
                self.assertTrue(said.count("\n") == 1 or tool == "sweep", said)
                (self.folder / "rows").unlink(missing_ok=True)
                self.assertEqual((old.read_text(), self.names()), ("old\n", before), tool)

    def test_an_end_while_a_thread_is_started(self) -> None:
        """A pool waits for no thread that it was starting when a signal came: its program is ended all the same, and no other is begun."""
        tool = self.own("""
def one_after_another():
    while True:
        try:
            processes.ran(words)
        except errors.Interrupted:
            pass

threading.Thread(target=one_after_another, daemon=True).start()
time.sleep(1000)""", self.held())
        for number in (signal.SIGINT, signal.SIGTERM):
            child = started(*tool, folder=self.folder, ends={"start_new_session": True})
            self.ends(child, number, "own")
            self.assertEqual([number for number in os.listdir("/proc") if number.isdigit() and session(int(number)) == child.pid], [])

    def own(self, body: str, *words: object) -> list[object]:
        """Returns a command that is a tool with this body."""
        lines = body.replace("\n", "\n    ")
        code = f"""import os, signal, sys, threading, time
sys.path.insert(0, {str(TOP / "tools")!r})
from fintaqush_tools import errors, processes, tracing

def signalled(*_):
    os.kill(os.getpid(), signal.SIGTERM)

def main(words):
    {lines}

errors.run("fintaqush own", main, sys.argv[1:])
"""
        return [sys.executable, "-BESc", code, *words]

    def interrupted(self, body: str, *words: object, number: int = signal.SIGTERM, more: str = "") -> None:
        """Checks that a tool with this body, which sends itself a signal, ends by it."""
        done = process(*self.own(body, *words), folder=self.folder)
        self.assertEqual((done.stdout, done.stderr, done.returncode), ("", f"fintaqush own: interrupted{more}\n", 128 + number))

    def test_a_signal_after_that_to_its_program(self) -> None:
        """A terminal's signal may end the program before it comes to the tool, which then ends already."""
        self.interrupted("""
say = errors.say
errors.say = lambda text: signalled() or say(text)
processes.ran(["sh", "-c", "kill -INT $$"])""", number=signal.SIGINT)

    def test_a_signal_whose_exception_is_lost(self) -> None:
        """In a destructor, which can raise none, or by another exception of what it interrupted."""
        self.interrupted("""
class Lost:
    __del__ = signalled

Lost()
time.sleep(1000)""")
        self.interrupted("""
try:
    signalled()
finally:
    raise errors.Refusal("it isn't as before")""", more="; it isn't as before")

    def test_a_program_that_cleans_up(self) -> None:
        """It runs to its end after a signal, and after another one."""
        self.interrupted("""
try:
    signalled()
finally:
    processes.ran(["sh", "-c", "kill -TERM $PPID; echo > clean"])""")
        self.assertEqual(self.names(), ["clean"])

    def test_an_instance_of_ftrace(self) -> None:
        """It is removed, also if a signal comes while it is made or removed. The kernel removes such a folder with its files."""
        (self.folder / "instances").mkdir()
        for name, body in (("mkdir", "(made(path), signalled())"), ("rmdir", "(setattr(os, 'rmdir', removed), signalled())")):
            self.interrupted(f"""
made, removed = os.mkdir, lambda path: os.system(f"rm -rf {{path}}")
os.rmdir = removed
os.{name} = lambda path: {body}
with tracing.Instance("."):
    pass""")
            self.assertEqual(os.listdir(self.folder / "instances"), [])

    def test_a_signal_that_is_deferred(self) -> None:
        """One that comes while a program is being started ends the tool after that."""
        with unittest.mock.patch.multiple(errors.Signals, is_over=False, number=0, is_deferred=False):
            errors.Signals.defer()
            errors.Signals.take(signal.SIGTERM)
            self.assertRaises(errors.Interrupted, errors.Signals.resume)

    def test_more_interruptions_disturb_nothing(self) -> None:
        """One signal per millisecond, from when it reads a FIFO until it has ended: one line, and its exit status."""
        os.mkfifo(self.folder / "fifo.csv")
        for tool, words in READERS.items():
            child = self.start(tool, "fifo.csv", *words)
            end, until = self.opened(child, "fifo.csv"), time.monotonic() + MOST_SECONDS
            while child.poll() is None:
                self.assertLess(time.monotonic(), until)
                child.send_signal(signal.SIGINT)
                time.sleep(0.001)
            os.close(end)
            wanted = (f"fintaqush {tool}: interrupted\n", 130, ["fifo.csv"])
            self.assertEqual((child.communicate()[1], child.returncode, self.names()), wanted)

    def test_a_standard_error_that_takes_nothing(self) -> None:
        """The exit status is the same."""
        for tool in ALL:
            for words, status in ((["--no-such-word"], 64), (["--help"], 0)):
                with contextlib.redirect_stdout(io.StringIO()), failing("full") as full, contextlib.redirect_stderr(full):
                    self.assertEqual(call(tool, words), status, (tool, words))
        for words, status in ((["costs", "--no-such-word"], 64), (["costs", "none"], 1), (["plot", "--help"], 0)):
            done = process("sh", "-c", 'exec "$0" "$@" 2> /dev/full', *BARE, *START, *words)
            self.assertEqual(done.returncode, status, words)

    def test_an_interruption_of_a_sweep(self) -> None:
        """Finished rows are in the file, line by line, and the next call resumes with it."""
        held, out = self.held(f"[ \"$2\" = 300 ] || exec '{REPLAY}' \"$@\""), self.folder / "rows"
        words = [TRACE, "--budget", "64,300", "--jobs", "1", "--out", out]
        self.ended(signal.SIGINT, "sweep", *words, "--binary", held, is_ready=lambda: out.read_text().count("\n") == 2)
        self.assertEqual([line.split(",")[2:7] for line in out.read_text().splitlines()[1:]], [["64", "64", "1024", "no", "0"]])
        self.assertTrue(out.read_text().endswith("\n"))
        self.assertEqual(run("sweep", *words, "--resume").returncode, 0)
        self.assertEqual(len(out.read_text().splitlines()), 3)

    def test_an_interruption_before_it_has_begun(self) -> None:
        """During the imports, which are the same for all tools: the signal ends it, with the message that it was interrupted."""
        for module, tools in (("csv", ("sweep", "plot")), ("argparse", ("traffic", "record", "advise"))):
            self.write(f"{module}.py", "import os, signal\nos.kill(os.getpid(), signal.SIGINT)\n")
            for tool in tools:
                child = started(START[0], "-B", *START[2:], tool, "--help", PYTHONPATH=self.folder)
                wanted = ("", f"fintaqush {tool}: interrupted\n")
                self.assertEqual((child.communicate(timeout=MOST_SECONDS), child.returncode), (wanted, 130), tool)
            (self.folder / f"{module}.py").unlink()

    def test_an_interruption_while_a_file_is_written(self) -> None:
        old = self.write("old.csv", "old\n")
        with self.assertRaises(KeyboardInterrupt), files.WholeFile(str(old)) as new:
            Path(new).write_text("half of it")
            self.assertEqual(len(self.names()), 2)
            raise KeyboardInterrupt
        self.assertEqual((old.read_text(), self.names()), ("old\n", ["old.csv"]))

    def test_files_that_cannot_be_written_leave_the_old_ones(self) -> None:
        """A temporary file takes the text, so no file is truncated: here files are limited to 1 kB, and to nothing."""
        old, rows = self.write("old.svg", "old\n"), self.folder / "rows"
        self.assertEqual(run("sweep", TRACE, "--budget", "64", "--out", rows).returncode, 0)
        before = rows.read_text()
        self.write("captured", CAPTURED)
        names = self.names()
        long: dict[str, list[object]] = {"traffic": ["--out", old]}
        every: dict[str, list[object]] = {
            **long, "from-ftrace": WRITERS["from-ftrace"], "from-pcap": WRITERS["from-pcap"], "plot": [TRACE, "--out", old],
            "compare": [TRACE, "--out", old, "--budget", "1", "--"], "sweep": [TRACE, "--resume", "--out", rows]}
        for limit, calls in ((1, long), (0, every)):
            for tool, words in calls.items():
                done = limited(f"-f {limit}", tool, *words, text=long_report(), folder=self.folder)
                self.check_line(tool, done.stderr.splitlines(True)[-1])
                self.assertEqual((done.returncode, done.stdout), (1, ""), tool)
                self.assertEqual((old.read_text(), rows.read_text(), self.names()), ("old\n", before, names), tool)

    def test_places_that_take_no_file(self) -> None:
        (self.folder / "folder.csv").mkdir()
        os.mkfifo(self.folder / "fifo.csv")
        for out, why in (("none/x.csv", "there is no such folder"), ("folder.csv", "this is a folder"), ("fifo.csv", "not a regular file")):
            calls: list[tuple[str, list[object]]] = [("traffic", ["--out", out]), ("compare", [TRACE, "--out", out, "--"])]
            for tool, words in calls:
                self.fails(why, tool, *words, text=REPORT, folder=self.folder)
                self.assertEqual(self.names(), ["fifo.csv", "folder.csv"])

    def test_inputs_that_are_none(self) -> None:
        (self.folder / "folder.csv").mkdir()
        (self.folder / "bytes").write_bytes(b"\xff\xfe")
        calls: dict[str, list[str]] = {**READERS, "what-if": [], "advise": []}
        for tool, words in calls.items():
            for name in ("folder.csv", "none.csv", b"\xff.csv", "bytes", "/dev/zero"):
                self.check_line(tool, self.fails("", tool, name, *words, folder=self.folder))

    def test_a_fifo_is_read_once(self) -> None:
        os.mkfifo(self.folder / "fifo")
        for tool, words in (("compare", ["--"]), ("plot", ["--raise", "--out", "page.html"])):
            child = self.start(tool, "fifo", *words)
            (self.folder / "fifo").write_bytes(TRACE.read_bytes())
            child.communicate(timeout=MOST_SECONDS)
            self.assertEqual(child.returncode, 0)

    def test_a_program_that_is_killed(self) -> None:
        self.fails("ended with status -9", "compare", "-", "--", text=HEADER, PROGRAM=self.program("program", "kill -9 $$"))
