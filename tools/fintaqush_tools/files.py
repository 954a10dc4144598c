"""Files that are read whole or line by line, and files that are replaced atomically. It imports nothing that is slow to import."""

from __future__ import annotations

import os
import sys

from fintaqush_tools.errors import Refusal, unfinished, unlink
from fintaqush_tools.progress import Progress, share_of
from fintaqush_tools.texts import shown

TYPE_CHECKING = False  # `typing` is slow to import
if TYPE_CHECKING:
    from collections.abc import Iterable, Iterator, Mapping
    from io import BufferedReader
    from typing import IO, AnyStr

TRACE, ROWS = b"moment,device,event", b"trace,sum,budget,"
# What a file that begins so is, and what reads it.
KINDS = {
    b"ns,device,bytes": "arrivals, which fintaqush what-if reads",
    TRACE: "a trace, which fintaqush replay reads",
    b"row,moment,device,state": "a series of fintaqush series",
    ROWS: "rows of fintaqush sweep, which fintaqush compare reads",
    b"fintaqush-recording ": "a recording, which fintaqush advise, costs and from-ftrace read",
    b'{"version": ': "results of --json, which fintaqush compare reads",
}
MOST_BYTES = 64 * 1024 * 1024  # of a trace or a report; the largest trace has 7 MB


def check_target(path: str, replaces: bool = True) -> None:
    """Fails if `WholeFile` couldn't write to this name. Tools that work for long check this first."""
    folder = os.path.dirname(path) or "."
    if os.path.isdir(path):
        raise Refusal(f"{shown(path)}: this is a folder")
    if not replaces and os.path.lexists(path):
        raise Refusal(f"{shown(path)} exists and isn't overwritten; --force replaces it")
    if not os.path.isdir(folder):
        raise Refusal(f"{shown(folder)}: there is no such folder")
    if os.path.exists(path) and not os.path.isfile(path):
        raise Refusal(f"{shown(path)}: not a regular file")


class WholeFile:
    """A context manager for the name of a new file next to `path`, which replaces it once it is complete. After a failure nothing has
    changed. With `replaces` false, an existing file is kept and the block fails. The new file has the mode of the one that it replaces;
    before it is in place only the user can read it, so that a private file is never readable by others."""

    def __init__(self, path: str, replaces: bool = True) -> None:
        check_target(path, replaces)
        folder, end = os.path.dirname(path), os.path.splitext(path)[1]
        self.path, self.replaces = path, replaces
        self.new = os.path.join(folder, f".new-{os.getpid()}-{os.urandom(6).hex()}{end}")

    def __enter__(self) -> str:
        unfinished.add(self.new)
        mode = 0o600 if os.path.exists(self.path) else 0o666
        os.close(os.open(self.new, os.O_WRONLY | os.O_CREAT | os.O_EXCL, mode))
        return self.new

    def __exit__(self, kind: type[BaseException] | None, *_: object) -> None:
        try:
            if kind is None:
                self.put()
        finally:
            unlink(self.new)
            unfinished.discard(self.new)

    def put(self) -> None:
        """Renames the new file to `path`. It is synced first, whichever program wrote it: after a crash the name has the old contents or
        all of the new ones."""
        file = os.open(self.new, os.O_RDONLY)
        try:
            if self.replaces and os.path.exists(self.path):
                os.fchmod(file, os.stat(self.path).st_mode & 0o7777)
            os.fsync(file)
        finally:
            os.close(file)
        if self.replaces:
            os.replace(self.new, self.path)
        else:
            os.link(self.new, self.path)  # fails if another program created it meanwhile


def write_whole(path: str, text: str | Iterable[str], replaces: bool = True) -> None:
    """Replaces a file by a text, or by lines, atomically."""
    with WholeFile(path, replaces) as new, Progress(f"writing {shown(path)}"):
        with open(new, "w", newline="", encoding="utf-8", errors="surrogateescape") as file:
            file.writelines([text] if isinstance(text, str) else text)


def write_all(texts: Mapping[str, str | Iterable[str]], replaces: bool = False) -> None:
    """Writes files, by name: all of them, or, unless they replace others, none."""
    made: list[str] = []
    try:
        for path, text in texts.items():
            write_whole(path, text, replaces)
            made += [] if replaces else [path]
    except BaseException:
        for path in made:
            unlink(path)
        raise


def write_out(path: str | None, text: str | Iterable[str]) -> None:
    """Writes a text, or lines, atomically to a file, or to standard output if no file is named."""
    if path:
        write_whole(path, text)
    else:
        with Progress("writing"):
            sys.stdout.writelines([text] if isinstance(text, str) else text)
            sys.stdout.flush()


def check_input(path: str) -> None:
    """Fails if the input file doesn't exist. `-` is standard input."""
    if path == "-" and sys.stdin is None:
        raise Refusal("standard input is closed")
    if path != "-" and os.path.isdir(path):
        raise Refusal(f"{shown(path)}: this is a folder, not a trace")
    if path != "-" and not os.path.exists(path):
        raise Refusal(f"{shown(path)}: there is no such file")


def check_regular(path: str, reason: str) -> None:
    """Fails if the input isn't a regular file, which is read more than once."""
    check_input(path)
    if not os.path.isfile(path):
        raise Refusal(f"{shown(path)}: {reason}")


def opened(path: str) -> BufferedReader:
    """Opens a file, or standard input for `-`."""
    return open(sys.stdin.fileno() if path == "-" else path, "rb", closefd=path != "-")


def kind_of(text: bytes) -> str:
    """Returns what a text is, and what reads it, by its first line; nothing if that isn't known."""
    first = text.partition(b"\n")[0]
    if b"used_p99" in first.split(b","):
        return "a table of fintaqush what-if, which fintaqush compare reads and web/index.html draws"
    return next((what for begin, what in KINDS.items() if first.startswith(begin)), "")


def read_trace(path: str) -> bytes:
    """Returns the contents of a file, which may be a trace. Fails if it is known to be something else."""
    text = read_bytes(path)
    what = kind_of(text[:1000])
    if what not in ("", KINDS[TRACE]):
        raise Refusal(f"{shown(path)}: not a trace, but {what}")
    return text


def bytes_in(file: IO[bytes]) -> bytes:
    """Returns the contents of an open file, read in pieces, because Python allocates what it is asked for. Fails if it is too large for a
    trace."""
    steps, size = [], 0
    for step in iter(lambda: file.read(1 << 20), b""):
        steps.append(step)
        size += len(step)
        if size > MOST_BYTES:
            raise Refusal(f"longer than any trace, over {MOST_BYTES >> 20} MiB")
    return b"".join(steps)


def read_bytes(path: str) -> bytes:
    """Returns the contents of a file, or of standard input for `-`."""
    check_input(path)
    try:
        with opened(path) as file:
            return bytes_in(file)
    except Refusal as error:
        raise Refusal(f"{shown(path)}: {error}") from None


def lines_in(file: IO[AnyStr], most: int, of: str) -> Iterator[AnyStr]:
    """Yields the lines of an open file; a line that is too long fails."""
    number = 0
    with Progress("reading", lambda: share_of(file)):
        while line := file.readline(most):
            number += 1
            if len(line) == most:
                raise Refusal(f"line {number}: longer than any line of {of}")
            yield line
