"""Errors with a message for the user, signals, and how a program ends: the subcommands, the launcher and the build. It imports nothing
that is slow to import."""

from __future__ import annotations

import _thread
import os
import sys

from fintaqush_tools.progress import Program, say
from fintaqush_tools.texts import shown

TYPE_CHECKING = False  # `typing` is slow to import
if TYPE_CHECKING:
    from collections.abc import Callable, Sequence
    from subprocess import Popen
    from types import FrameType
    from typing import Optional

    Main = Callable[[Sequence[str]], Optional[int]]

BAD_USAGE = 64  # the exit status for wrong options, as of the programs (EX_USAGE)

unfinished: set[str] = set()  # files that are being written, and folders of the kernel
running: set[Popen[bytes]] = set()  # our programs that are running
starting = _thread.allocate_lock()  # is held while one is started and put there


class Refusal(Exception):
    """An error with a message for the user, and the exit status that it leads to."""

    def __init__(self, message: str, status: int = 1) -> None:
        super().__init__(message)
        self.status = status


class About:
    """A context manager that begins the message of a refusal in its block with what it is about: a file, or a line of it."""

    def __init__(self, what: object) -> None:
        self.what = what

    def __enter__(self) -> None:
        pass

    def __exit__(self, _kind: type[BaseException] | None, error: BaseException | None, *_: object) -> None:
        if isinstance(error, Refusal):
            error.args = (f"{shown(self.what)}: {error}",)


class Interrupted(BaseException):
    """A signal, by its number, that ends the program; `more` is what the user should know besides."""

    def __init__(self, number: int, more: str = "") -> None:
        super().__init__(number)
        self.number, self.more = number, more


class Signals:
    """The first signal ends the program; later ones don't disturb its cleanup. Some are deferred: one that comes while a program is being
    started, until the program is known, so that it is terminated too; and one that comes during an import, which may lose an exception.
    """

    is_over, number, is_deferred = False, 0, False

    @classmethod
    def defer(cls) -> None:
        cls.is_deferred = True

    @classmethod
    def resume(cls) -> None:
        cls.is_deferred = False
        cls.look()

    @classmethod
    def look(cls, *_: object) -> None:
        """Takes a signal that came, if that isn't done."""
        if cls.number:
            cls.take(cls.number)

    @classmethod
    def take(cls, number: int, _frame: FrameType | None = None) -> None:
        cls.number = number
        if not (cls.is_deferred or cls.is_over):
            cls.is_over = True
            for process in list(running):
                process.kill()
            raise Interrupted(number)

    @classmethod
    def forget(cls) -> None:
        """Forgets the signal, so that the program goes on until the next one."""
        cls.is_over, cls.number = False, 0

    @classmethod
    def lost(cls, unraisable: sys.UnraisableHookArgs) -> None:
        """Handles an exception in a destructor, which can't be raised: a signal is taken again by the timer."""
        if isinstance(unraisable.exc_value, Interrupted):
            cls.is_over = False
        else:
            sys.__unraisablehook__(unraisable)

    @classmethod
    def handle(cls) -> None:
        """Handles the signals that end a program, but for those that its caller ignores. The scripts that start Python block SIGINT. A signal
        that comes in the last instructions before a read doesn't interrupt that read: a timer does, once a second.
        """
        import signal  # which is slow to import

        sys.unraisablehook = cls.lost
        for number in (signal.SIGINT, signal.SIGTERM, signal.SIGHUP):
            if signal.getsignal(number) in (signal.SIG_DFL, signal.default_int_handler):
                signal.signal(number, cls.take)
        if not any(signal.getitimer(signal.ITIMER_REAL)):  # its caller's alarm is kept
            signal.signal(signal.SIGALRM, cls.look)
            signal.setitimer(signal.ITIMER_REAL, 1, 1)
        signal.pthread_sigmask(signal.SIG_UNBLOCK, {signal.SIGINT})

    @classmethod
    def leave(cls) -> None:
        """Undoes that, for the program that takes this one's place."""
        import signal

        if callable(signal.getsignal(signal.SIGALRM)):
            signal.setitimer(signal.ITIMER_REAL, 0)
        for number in (signal.SIGINT, signal.SIGTERM, signal.SIGHUP):
            if callable(signal.getsignal(number)):
                signal.signal(number, signal.SIG_DFL)


def why(error: BaseException) -> str:
    """Returns an error as one line. An unexpected exception is included, with its place in the code."""
    if isinstance(error, Refusal):
        return str(error)
    is_of_memory = "failed to map" in str(error) or "new thread" in str(error)
    if isinstance(error, MemoryError) or isinstance(error, (ImportError, RuntimeError)) and is_of_memory:
        return "there isn't enough memory"
    if isinstance(error, UnicodeDecodeError):
        return "what it reads is no UTF-8"
    if isinstance(error, OSError):
        told = error.strerror or str(error)
        return told if error.filename is None else f"{shown(error.filename)}: {told}"
    place = error.__traceback__
    while place and place.tb_next:
        place = place.tb_next
    at = f"{os.path.basename(place.tb_frame.f_code.co_filename)}:{place.tb_lineno}" if place else "an unknown place"
    return f"a mistake of its own at {at}: {type(error).__name__}: {shown(error)[:200]}"


def ended(main: Main, words: Sequence[str]) -> int:
    """Calls `main`, flushes what it printed, and returns the exit status. An error, its own or the system's, becomes one line."""
    try:
        if sys.stdout is None:
            raise Refusal("standard output is closed")
        try:
            status = main(words) or 0
        except SystemExit as by_argparse:
            status = by_argparse.code if isinstance(by_argparse.code, int) else 0
        sys.stdout.flush()
        return status
    except BrokenPipeError:
        return 1
    except Exception as error:
        if Signals.number:
            raise Interrupted(Signals.number, f"; {why(error)}") from None
        say(why(error))
        return error.status if isinstance(error, Refusal) else 1


def end_programs() -> None:
    """Ends those that still run, after which none is started. A pool of threads doesn't wait for its last one if a signal comes while it
    is being started."""
    starting.acquire()
    for process in list(running):
        process.kill()
        process.wait()


def clean_up() -> None:
    """Removes the files that weren't finished, and a kernel's folder."""
    for name in list(unfinished):
        unlink(name)
    unfinished.clear()


def unlink(name: str) -> None:
    for remove in (os.unlink, os.rmdir):
        try:
            remove(name)
        except OSError:
            pass


def run(name: str, main: Main, words: Sequence[str], is_short: bool = False) -> None:
    """Runs a program under this name, and ends the process. A signal becomes one line and exit status 128 plus its number, and leaves no
    temporary files or child processes. A short one only prints a text, so it handles no signal."""
    Program.name, status = name, 1
    try:
        try:
            if not is_short:
                Signals.handle()
            if sys.stderr is not None:
                sys.stderr.reconfigure(errors="backslashreplace")  # type: ignore[attr-defined]
            if sys.stdout is not None:
                # Python, with PYTHONUNBUFFERED, takes a partial write for a complete one.
                sys.stdout = open(1, "w", encoding="utf-8", errors="surrogateescape", newline="", closefd=False)
            status = ended(main, words)
        finally:
            Signals.is_over = True
    except Interrupted as signalled:
        say(f"interrupted{signalled.more}")
        status = 128 + signalled.number
    end_programs()
    clean_up()
    os._exit(status)  # output that couldn't be written isn't tried again
