"""Shared code of the tests of tools/. PROGRAM, SERIES and MACHINE name other builds of napi_replay, napi_series and
napi_machine, also for the tools."""

from __future__ import annotations

import contextlib
import io
import os
import shutil
import signal
import subprocess
import sys
import tempfile
import time
import unittest
import unittest.mock
from collections.abc import Callable, Iterator, Sequence
from pathlib import Path
from typing import IO, Any, TypeVar

HERE = Path(__file__).resolve().parent
TOP = HERE.parent.parent
sys.path += [str(TOP / "tests"), str(TOP / "tools"), str(TOP / "bench")]
import machine  # noqa: E402
import needs  # noqa: E402

from fintaqush_tools import cli, errors  # noqa: E402
from fintaqush_tools.progress import Program  # noqa: E402

Done = subprocess.CompletedProcess[str]
Item = TypeVar("Item", bound=Callable[..., Any])

START = [sys.executable, "-BES", str(TOP / "scripts/start.py"), "fintaqush"]  # starts the command as a process
REPLAY = os.environ.get("PROGRAM") or str(TOP / "crates/napi_replay/out/napi_replay")
SERIES = os.environ.get("SERIES") or str(TOP / "crates/napi_series/out/napi_series")
MACHINE = os.environ.get("MACHINE") or str(TOP / "crates/napi_machine/out/napi_machine")
if not os.path.exists(MACHINE) and shutil.which("g++"):
    MACHINE = machine.plain()  # if napi_machine isn't built, the tools are tested with the bench's program in its place
PROGRAMS = {"PROGRAM": REPLAY, "SERIES": SERIES, "MACHINE": MACHINE}
HAS_MACHINE = unittest.skipUnless(os.path.exists(MACHINE), "g++")
HEADER = "moment,device,event,value\n"
ENTRY, EXIT = "softirq_entry: vec=3 [action=NET_RX]", "softirq_exit: vec=3 [action=NET_RX]"
NO_WORDS: list[str] = []  # among lists of words: mypy takes the type of [] for another one
MOST_SECONDS = 900  # for anything that a test waits for

if signal.getsignal(signal.SIGINT) == signal.SIG_IGN:  # as in the background of a shell: no process would end by it
    signal.signal(signal.SIGINT, signal.default_int_handler)


def skip_without(program: str) -> Callable[[Item], Item]:
    """Skips a test if this program or library, a name in tests/needs.txt, isn't installed."""
    return unittest.skipUnless(needs.is_here(program), program)


def texts_of(words: Sequence[object]) -> list[str]:
    return [os.fsdecode(word) if isinstance(word, bytes) else str(word) for word in words]


def with_programs(variables: dict[str, object]) -> dict[str, str]:
    """Returns the environment with our programs and these variables, whose names are in capitals."""
    if wrong := [name for name in variables if not name.isupper()]:
        raise TypeError(f"no variables of an environment: {wrong}")
    return {**os.environ, **PROGRAMS, **{name: str(value) for name, value in variables.items()}}


def process(*command: object, text: str = "", folder: Path | str | None = None, out: int | IO[str] = subprocess.PIPE,
            **variables: object) -> Done:
    """Runs a command as a process, with our programs."""
    return subprocess.run(texts_of(command), input=text, stdout=out, stderr=subprocess.PIPE, encoding="utf-8", errors="surrogateescape",
                          check=False, cwd=folder, env=with_programs(variables))


def limited(limit: str, *words: object, start: Sequence[str] = tuple(START), **others: Any) -> Done:
    """Runs a subcommand as a process within a limit of ulimit: on its files, or on its address space."""
    return process("bash", "-c", f'ulimit {limit}; trap "" XFSZ; exec "$0" "$@"', *start, *words, **others)


def started(*command: object, folder: Path | str | None = None, **others: Any) -> subprocess.Popen[str]:
    """Starts a process, with our programs, and with pipes for both outputs."""
    pipes = {"stdout": subprocess.PIPE, "stderr": subprocess.PIPE, "stdin": subprocess.DEVNULL}
    ends: dict[str, Any] = {**pipes, **others.pop("ends", {})}
    return subprocess.Popen(texts_of(command), text=True, cwd=folder, env=with_programs(others), **ends)


@contextlib.contextmanager
def failing(kind: str) -> Iterator[IO[str] | None]:
    """An output that is full or that no program reads; None for one that is closed."""
    if kind == "closed":
        yield None
        return
    handle = os.open("/dev/full", os.O_WRONLY)
    if kind == "unread":
        read, handle = os.pipe()
        os.close(read)
    file = open(handle, "w", encoding="utf-8")
    try:
        yield file
    finally:
        with contextlib.suppress(OSError):
            file.close()


def taken(text: str | None) -> io.TextIOWrapper:
    """Returns a file that is read as standard input."""
    file = tempfile.TemporaryFile()
    file.write((text or "").encode("utf-8", "surrogateescape"))
    file.seek(0)
    return io.TextIOWrapper(file, encoding="utf-8")


class Printed(io.TextIOWrapper):
    """A file that takes what is printed."""

    def __init__(self) -> None:
        self.bytes = io.BytesIO()
        super().__init__(self.bytes, encoding="utf-8", errors="surrogateescape", newline="", write_through=True)

    def text(self) -> str:
        return self.bytes.getvalue().decode("utf-8", "surrogateescape")


@contextlib.contextmanager
def surroundings(text: str | None, folder: Path | str | None, variables: dict[str, object]) -> Iterator[tuple[Printed, Printed]]:
    """The input, the working folder and the environment variables of a call. Yields the files that take its outputs."""
    here = os.getcwd()
    with contextlib.ExitStack() as undo, taken(text) as given, Printed() as out, Printed() as said:
        undo.enter_context(unittest.mock.patch.dict(os.environ, with_programs(variables)))
        undo.enter_context(unittest.mock.patch.object(sys, "stdin", given))
        undo.enter_context(contextlib.redirect_stdout(out))
        undo.enter_context(contextlib.redirect_stderr(said))
        undo.callback(os.chdir, here)
        os.chdir(folder or here)
        yield out, said


def call(name: str, words: Sequence[object]) -> int:
    """Calls a subcommand, in this process, and returns its exit status."""
    Program.name, Program.is_quiet = f"fintaqush {name}" if name in cli.MODULES else "fintaqush", False
    try:
        return errors.ended(cli.main, texts_of([name, *words]))
    finally:
        errors.clean_up()


def run(name: str, *words: object, text: str | None = "", folder: Path | str | None = None, **variables: object) -> Done:
    """Calls a subcommand, in this process, and returns its status and outputs. The variables are of its environment."""
    with surroundings(text, folder, variables) as (out, said):
        status = call(name, words)
        return subprocess.CompletedProcess([name], status, out.text(), said.text())


def run_to(kind: str, name: str, *words: object, text: str = "", folder: Path | None = None) -> tuple[str, int]:
    """Calls a subcommand, in this process, with a standard output that fails; returns its message and its status."""
    with surroundings(text, folder, {}) as (_, said), failing(kind) as out, contextlib.redirect_stdout(out):
        status = call(name, words)
        return said.text(), status


def process_to(kind: str, *command: object, **others: Any) -> tuple[str, int]:
    """Runs a command as a process with a standard output that fails; returns its message and its status."""
    with failing(kind) as out:
        words = command if out else ("sh", "-c", 'exec "$0" "$@" >&-', *command)
        done = process(*words, out=out or subprocess.PIPE, **others)
        return done.stderr, done.returncode


def sent(device: str, size: object = 60, code: int = 0) -> str:
    return f"net_dev_xmit: dev={device} skbaddr=0 len={size} rc={code}"


def polled(device: str, work: int) -> str:
    return f"napi_poll: napi poll on napi struct 0 for device {device} work {work} budget 64"


def ftrace(*events: tuple[int, str], task: str = "a-1", cpu: int = 0, flags: str = "..s1.") -> str:
    """Returns events of a task as ftrace prints them, each by its time, in us after 5 s."""
    return "".join(f"   {task}  [{cpu:03}] {flags}  5.{time:06}: {said}\n" for time, said in events)


def captured(time: str, size: int = 60, name: str = "eth0", way: str = "In", said: str = "UDP") -> str:
    """Returns a packet as `tcpdump -tt -n -e` prints it: its time, in s, its size, the interface, and whether it comes in."""
    return f"{time} {name}  {way:3} ifindex 2 02:00:00:00:00:01 ethertype IPv4 (0x0800), length {size}: {said}\n"


def keys_of(told: object) -> Iterator[str]:
    if isinstance(told, dict):
        yield from told
    for each in told.values() if isinstance(told, dict) else told if isinstance(told, list) else ():
        yield from keys_of(each)


def contrast(one: str, other: str) -> float:
    """Returns the contrast of two colours, as WCAG 2 defines it."""

    def light(color: str) -> float:
        parts = [int(color[place : place + 2], 16) / 255 for place in (0, 2, 4)]
        lights: list[float] = [part / 12.92 if part <= 0.04045 else ((part + 0.055) / 1.055) ** 2.4 for part in parts]
        red, green, blue = lights
        return 0.2126 * red + 0.7152 * green + 0.0722 * blue

    low, high = sorted((light(one), light(other)))
    return (high + 0.05) / (low + 0.05)


class InFolder(unittest.TestCase):
    """A test with a folder of its own."""

    def setUp(self) -> None:
        self.folder = Path(tempfile.mkdtemp())
        self.addCleanup(shutil.rmtree, self.folder)

    def write(self, name: str, text: str) -> Path:
        path = self.folder / name
        path.write_text(text, encoding="utf-8")
        return path

    def program(self, name: str, body: str) -> Path:
        """Writes a program in the shell's language."""
        path = self.write(name, f"#!/bin/sh\n{body}\n")
        path.chmod(0o755)
        return path

    def begun(self, *command: object, **others: Any) -> subprocess.Popen[str]:
        """Starts a process, with our programs, which ends with the test."""
        process = started(*command, folder=self.folder, **others)
        self.addCleanup(process.communicate)
        self.addCleanup(process.kill)
        return process

    def opened(self, process: subprocess.Popen[str], name: str) -> int:
        """Waits until a process reads a FIFO of the folder, and returns an end to write to it."""
        until = time.monotonic() + MOST_SECONDS
        while True:
            self.assertIsNone(process.poll())
            self.assertLess(time.monotonic(), until)
            with contextlib.suppress(OSError):
                return os.open(self.folder / name, os.O_WRONLY | os.O_NONBLOCK)
            time.sleep(0.02)

    def forget(self, name: str) -> None:
        """Removes what a tool made under this name."""
        for path in self.folder.glob(f"{name}.*"):
            path.unlink()

    def names(self) -> list[str]:
        return sorted(path.name for path in self.folder.iterdir())

    def ends_with(self, status: int, name: str, *words: object, **others: Any) -> Done:
        """Calls a subcommand that has to end with this status."""
        done = run(name, *words, **others)
        self.assertEqual(done.returncode, status, (words, done.stdout[-500:], done.stderr))
        return done

    def succeeds(self, name: str, *words: object, **others: Any) -> str:
        """Calls a subcommand that has to succeed without a message, and returns what it prints."""
        done = self.ends_with(0, name, *words, **others)
        self.assertEqual(done.stderr, "", words)
        return done.stdout

    def converted(self, tool: str, source: object, *words: object, ends: Sequence[str] = ("csv", "notes"), **others: Any) -> list[str]:
        """Calls a subcommand that makes files from a source, under the name `made`, and returns their texts."""
        self.forget("made")
        self.succeeds(tool, source, "made", *words, folder=self.folder, **others)
        return [(self.folder / f"made.{end}").read_text() for end in ends]

    def fails(self, why: str, name: str, *words: object, status: int = 1, **others: Any) -> str:
        """Calls a subcommand that has to fail with this part of a message and print nothing else; returns the message."""
        done = self.ends_with(status, name, *words, **others)
        self.assertEqual(done.stdout, "", words)
        self.assertIn(why, done.stderr, words)
        return done.stderr
