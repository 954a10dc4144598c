"""The whole replay of a trace on one thread, with its report as objects. docs/FORMATS.md describes traces, reports and errors."""
from __future__ import annotations

from typing import Any, Callable, NamedTuple

from . import _abi as abi
from . import _library as c
from ._abi import Status, Word
from ._faults import TraceFault


class Turn(NamedTuple):
    """What a row did that polls: its event says how. The device of a softirq is 0, and only a softirq can be squeezed."""
    event: str
    row: int
    polls: int
    work: int
    device: int = 0
    squeezed: bool = False


class Transmit(NamedTuple):
    """A device's transmit ring."""
    sent: int
    held: int
    done: int
    denied: int
    limit: int
    avail: int
    stopped: bool


class Device(NamedTuple):
    """A device, its instance, and its transmit ring if it has tx or done rows. `state` is on, off or pending."""
    number: int
    state: str
    arrived: int
    dropped: int
    polled: int
    bytes: int
    left: int
    polls: int
    granted: int
    missed: int
    disabled: int
    again: int
    released: int
    word: Word
    held: int = 0
    transmit: Transmit | None = None


class Report(NamedTuple):
    """A report: what each row did that polled, the devices by number, the poll list, the sums over the softirq runs, and the text."""
    turns: list[Turn]
    devices: dict[int, Device]
    listed: list[int]
    runs: int
    polls: int
    work: int
    squeezed: int
    text: str


def replay(trace: bytes, budget: int = 300, weight: int = 64, window: int = 1024, raised: bool = False) -> Report:
    """Replays the bytes of a trace (napi_replay --mode=serial). With `raised`, the runs that `raise_runs` adds are made too, and rows in
    the report count in that longer trace. TraceFault; BAD_WEIGHT, otherwise BAD_BUDGET."""
    if raised:
        trace = raise_runs(trace, budget, weight, window)
    return _report_of(_written(c.replay_sized, trace, _settings(trace, budget, weight, window)).decode())


def raise_runs(trace: bytes, budget: int = 300, weight: int = 64, window: int = 1024, restarts: int | None = None) -> bytes:
    """Adds to a trace the runs that the kernel would make with these settings (`fintaqush replay --raise`), at most `restarts` after a row, and
    returns its bytes. Errors are those of `replay`; a fault names a row of the longer trace, and is TooManyRows if that would have more
    than 100000."""
    most = abi.UNTIL_EMPTY if restarts is None else restarts
    return _written(c.raise_sized, trace, _settings(trace, budget, weight, window), most)


def _settings(trace: bytes, budget: int, weight: int, window: int) -> Any:
    if not isinstance(trace, bytes):
        raise TypeError("a trace is bytes")
    return c.sized(abi.Settings, budget=budget, weight=weight, window=window)


def _written(call: Callable[..., Any], trace: bytes, *settings: Any) -> bytes:
    """Returns what a call writes for a trace."""
    replayed = c.sized(abi.Replayed)
    said, out = c.grown(lambda out, room: call(*settings, trace, len(trace), out, room, replayed), 2 * len(trace) + 4096, replayed)
    if said is Status.BAD_TRACE:
        raise TraceFault(said, replayed.fault, replayed.row)
    c.checked(said)
    return out


def _report_of(text: str) -> Report:
    turns: list[Turn] = []
    devices: dict[int, dict[str, Any]] = {}
    listed: list[int] = []
    total: dict[str, Any] = {}
    for line in text.splitlines():
        kind, *words = line.split(" ")
        if kind == "list":
            listed = list(map(int, words))
        elif kind == "total":
            total = c.fields(words[2:])
        elif kind == "device":
            devices[int(words[0])] = {"number": int(words[0]), "state": words[1], **c.fields(words[2:])}
        elif kind == "napi":
            devices[int(words[0])].update(c.fields(words[1:], word=Word))
        elif kind == "tx":
            devices[int(words[0])]["transmit"] = Transmit(**c.fields(words[1:], stopped=bool))
        else:
            turns.append(Turn(kind, int(words[0]), **c.fields(words[1:], squeezed=bool)))
    return Report(turns, {number: Device(**device) for number, device in devices.items()}, listed, text=text, **total)
