"""Starts the command, the launcher or the build, with a Python that is new enough. Any Python 3 can parse this file, so that one which is
too old can say so.

    start.py fintaqush|replay|build [ARGUMENT ..]
"""

import os
import sys

OLDEST = (3, 9)
TOP = os.path.dirname(os.path.dirname(os.path.realpath(__file__)))


def lacking() -> str:
    """Returns a message if this Python is too old."""
    now = tuple(sys.version_info[:2])
    return "" if now >= OLDEST else "it needs Python %d.%d or later, and python3 is %d.%d" % (OLDEST + now)


def end(status: int, line: str) -> None:
    """Ends with a message on standard error."""
    if sys.stderr is not None:
        sys.stderr.write(line + "\n")
    sys.exit(status)


def main(what: str, words: "list[str]") -> None:
    called = "fintaqush" if what == "fintaqush" else os.environ.get("FINTAQUSH_NAME", "replay")
    if lacking():
        end(1 if what == "fintaqush" else 69, "%s: %s" % (called, lacking()))
    sys.path.insert(0, os.path.join(TOP, "tools"))
    try:
        if what == "fintaqush":
            from fintaqush_tools.cli import start
        elif what == "replay":
            from fintaqush_tools.replay import start
        else:
            from fintaqush_tools.builds import start
    except (ImportError, MemoryError) as error:
        is_of_memory = isinstance(error, MemoryError) or "failed to map" in str(error)
        end(1, "%s: %s" % (called, "there isn't enough memory" if is_of_memory else error))
    start(words)


if __name__ == "__main__":
    main(sys.argv[1], sys.argv[2:])
