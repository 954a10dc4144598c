"""Programs that are run: ours, which are built if needed, and others."""

from __future__ import annotations

import contextlib
import functools
import os
import signal
import subprocess
import sys
import threading
from collections.abc import Generator, Iterator, Sequence
from typing import IO, Any, NoReturn

from fintaqush_tools.builds import elsewhere, not_built
from fintaqush_tools.errors import Interrupted, Refusal, Signals, running, starting
from fintaqush_tools.files import check_input
from fintaqush_tools.places import HOME, IS_CHECKOUT, TOP
from fintaqush_tools.progress import Program, Progress, say, share_of
from fintaqush_tools.settings import judge
from fintaqush_tools.texts import last_line, shown

# The variables that name another build.
NAMED = {"napi_serial": "PROGRAM", "napi_series": "SERIES", "napi_machine": "MACHINE"}
read_now: set[IO[bytes]] = set()  # the open files that our programs read


def program(name: str, named: str | None = None) -> str:
    """Returns the path of one of our programs: of the named one, or of the one in PROGRAM, SERIES or MACHINE, else of our own."""
    named = named or os.environ.get(NAMED[name])
    if named or not IS_CHECKOUT:
        made = os.path.abspath(named or f"{HOME}/bin/{name}")
        if not (os.path.isfile(made) and os.access(made, os.X_OK)):
            raise Refusal(f"{shown(named or made)}: not a program")
        return made
    return own_program(name)


@functools.cache
def own_program(name: str) -> str:
    """Returns the path of the program that was proved here, or of one from elsewhere; if there is none, it is proved and built."""
    if not_built([name]):
        if other := elsewhere(name):
            say(other[1])
            return other[0]
        environment = {**os.environ, "FINTAQUSH_NAME": Program.name}
        build = [f"{TOP}/scripts/build.sh", name]
        with at_work(build, stdin=subprocess.DEVNULL, env=environment) as process:
            process.wait()
        if process.returncode != 0:
            raise Refusal(f"{name} couldn't be built")
    return f"{TOP}/crates/{name}/out/{name}"


@contextlib.contextmanager
def at_work(command: Sequence[str], **ends: Any) -> Iterator[subprocess.Popen[bytes]]:
    """A context manager that runs a program, and kills it if the block fails. Ends this program as well, if that one was interrupted."""
    is_main = (
        threading.current_thread() is threading.main_thread()
    )  # which signals interrupt, and which may run programs to clean up
    if is_main:
        Signals.defer()
    try:
        with starting:
            process = subprocess.Popen(command, **ends)
            running.add(process)
    finally:
        if is_main:
            Signals.resume()
    with process:
        try:
            if Signals.is_over and not is_main:
                process.kill()
            yield process
        except BaseException:
            process.kill()
            raise
    running.discard(process)
    if process.returncode == -signal.SIGINT or Signals.is_over and not is_main:
        raise Interrupted(signal.SIGINT)


def ran(command: Sequence[str], text: bytes | None = None, stdin: IO[bytes] | None = None) -> tuple[int, bytes, bytes]:
    """Runs a program with this input. Returns its status and the bytes of its two outputs."""
    ends = {"stdin": stdin or subprocess.PIPE, "stdout": subprocess.PIPE, "stderr": subprocess.PIPE}
    with at_work(command, **ends) as process:
        try:
            if stdin:
                read_now.add(stdin)
            out, said = process.communicate(text)
        finally:
            if stdin:
                read_now.discard(stdin)
    return process.returncode, out, said


def lines_by(command: Sequence[str], stdin: IO[bytes], said: IO[bytes]) -> Generator[str, None, int]:
    """Yields the lines of a program's output as they come; its standard error goes to an open file. Returns its status."""
    program = at_work(command, stdin=stdin, stdout=subprocess.PIPE, stderr=said)
    with Progress("reading", lambda: share_of(stdin)), program as process:
        for line in process.stdout or ():
            yield line.decode("utf-8", "replace")
    return process.returncode


def why_refused(words: Sequence[str]) -> str:
    """Returns the launcher's message on options that the replay rejected, without the launcher's own options and those of napi_series."""
    own = ("--raise", "--polls", "--rows")
    return judge([word for word in words if word.partition("=")[0] not in own]).split(": they are --")[0]


def run_program(made: str, words: Sequence[str], text: bytes) -> str:
    """Returns the output of one of our programs with these options and this input; fails with its error."""
    status, out, said = ran([made, *words], text)
    if status != 0:
        why = why_refused(words) if status == 64 else ""
        end = f"{shown(made)} ended with status {status}"
        raise Refusal(last_line(said, end) + (shown(f": {why}") if why and said.strip() else ""))
    return out.decode("ascii")


def become(command: Sequence[str], path: str | None) -> NoReturn:
    """Executes a program that reads a file or standard input, in place of this process."""
    if path is not None and path != "-":
        check_input(path)
        with open(path, "rb") as file:
            os.dup2(file.fileno(), 0)
    elif sys.stdin is None:
        raise Refusal("standard input is closed")
    elif sys.stdin.isatty():
        raise Refusal("no file is named, and standard input is a terminal")
    signal.signal(signal.SIGPIPE, signal.SIG_DFL)
    Signals.leave()
    os.execv(command[0], list(command))
