"""What a program prints for people: lines on standard output; lines on standard error that begin with its name, and the progress of long
work. Names in them may come from any file, so each is printed as `shown` has it. It imports nothing that is slow to import."""

from __future__ import annotations

import _thread
import os
import sys

from fintaqush_tools.texts import shown

TYPE_CHECKING = False  # `typing` is slow to import
if TYPE_CHECKING:
    import threading
    from collections.abc import Callable
    from typing import IO, Any, Optional

    Share = Callable[[], Optional[float]]

CLEAR = "\r\033[K"  # the beginning of a terminal's line, and what is in it is removed
writing = _thread.allocate_lock()  # is held while a line is written


class Program:
    """The name by which the running program was called, and what it prints about its progress."""

    name = "fintaqush"
    is_quiet = False  # by --quiet
    is_shown = False  # a line that is to be cleared
    is_busy = False  # of two nested progresses only the outer one is shown


def tell(*lines: str) -> None:
    """Prints lines on standard output."""
    print(*map(shown, lines), sep="\n", flush=True)


def say(text: str) -> None:
    """Prints a text of one or more lines, if it can be written."""
    with writing:
        put(f"{cleared()}{Program.name}: " + "".join(f"{shown(line)}\n" for line in text.split("\n")))


def put(text: str) -> None:
    try:
        if sys.stderr is not None:
            sys.stderr.write(text)
            sys.stderr.flush()
    except (OSError, ValueError):
        pass


def cleared() -> str:
    """Returns what clears the line, if one is shown."""
    was_shown, Program.is_shown = Program.is_shown, False
    return CLEAR if was_shown else ""


def can_be_shown() -> bool:
    return not Program.is_quiet and sys.stderr is not None and sys.stderr.isatty()


def show(text: str, is_over: Callable[[], bool] = lambda: False) -> None:
    """Writes the line over, on a terminal, and no wider than it; an empty text clears it. Writes nothing if its block is over."""
    with writing:
        if not text:
            put(cleared())
        elif not is_over():
            columns = os.get_terminal_size(2).columns or 80  # a terminal without a known width reports 0
            Program.is_shown = True
            put(f"{CLEAR}{f'{Program.name}: {shown(text)}'[: columns - 1]}")


class Progress:
    """Shows the progress and the time left of a block: on standard error of a terminal, after the first second, and not with --quiet.
    `how_far` returns a share from 0 to 1, or None if it is unknown; `more` returns a text."""

    def __init__(self, what: str, how_far: Share = lambda: None, more: Callable[[], str] = lambda: "") -> None:
        self.what, self.how_far, self.more = what, how_far, more
        self.over: threading.Event | None = None

    def __enter__(self) -> Progress:
        if can_be_shown() and not Program.is_busy:
            import threading

            Program.is_busy, self.over = True, threading.Event()
            try:
                threading.Thread(target=self.update, args=(self.over,), daemon=True).start()
            except RuntimeError:  # out of memory
                pass
        return self

    def __exit__(self, *_: object) -> None:
        if self.over:
            self.over.set()
            Program.is_busy = False
            show("")

    def update(self, over: threading.Event) -> None:
        """Updates the line five times a second until the block ends."""
        import time

        since, waits = time.monotonic(), 1.0
        while not over.wait(waits):
            waits, took, share = 0.2, time.monotonic() - since, self.how_far()
            parts = [self.what, f"{100 * share:.0f} %" if share is not None else f"{took:.0f} s", self.more()]
            if share and share < 1:
                parts.append(f"{took * (1 - share) / share:.0f} s left")
            show(", ".join(filter(None, parts)), over.is_set)


def share_of(file: IO[Any]) -> float | None:
    """Returns how much of an open file has been read, by any process, as a share from 0 to 1; None if that is unknown."""
    try:
        size = os.fstat(file.fileno()).st_size
        return min(1.0, os.lseek(file.fileno(), 0, os.SEEK_CUR) / size) if size else None
    except (OSError, ValueError):
        return None
