"""A machine that receives packets over simulated time (napi_machine), with its report as objects. docs/FORMATS.md describes arrivals and
report."""
from __future__ import annotations

from typing import NamedTuple

from . import _abi as abi
from . import _library as c
from ._abi import Status
from ._faults import ArrivalsFault, SettingFault


class Waits(NamedTuple):
    """How long packets waited, in ns: the mean, percentiles (wait999 is the 99.9th), and the longest wait."""
    mean: int
    wait50: int
    wait90: int
    wait99: int
    wait999: int
    most: int


class Queue(NamedTuple):
    """A queue at which a packet arrived; with one queue per device, its number is the device's. `waits` are from arrival to delivery by a
    poll."""
    number: int
    arrived: int
    dropped: int
    polled: int
    interrupts: int
    polls: int
    waits: Waits


class Times(NamedTuple):
    """The time of a processor in ns up to the end of its last work, and how it was spent."""
    end: int
    interrupt: int
    poll: int
    use: int
    idle: int


class Application(NamedTuple):
    """The application on a processor of its own: times in ns, and how often it was woken."""
    end: int
    wakes: int
    use: int
    idle: int


class Processor(NamedTuple):
    """A processor. `waits` are from arrival to the end of the packet's use."""
    number: int
    interrupts: int
    timers: int
    runs: int
    polls: int
    work: int
    squeezed: int
    late: int
    refused: int
    used: int
    waits: Waits
    times: Times
    application: Application | None = None


class MachineReport(NamedTuple):
    """A report: the queues by number, the processors from 0, the sums, and the text."""
    queues: dict[int, Queue]
    processors: list[Processor]
    arrived: int
    dropped: int
    polled: int
    refused: int
    used: int
    text: str


def machine(arrivals: bytes, **settings: int) -> MachineReport:
    """Runs the machine on the bytes of arrivals. Settings are those of `struct fq_machine_settings`, by name, as `rx_nsecs=50000`;
    the others have the defaults of napi_machine. ArrivalsFault; SettingFault; TypeError for an unknown name."""
    if not isinstance(arrivals, bytes):
        raise TypeError("arrivals are bytes")
    asked = c.sized(abi.MachineSettings)
    c.machine_default_sized(asked)
    for name, value in settings.items():
        if name not in SETTINGS:
            raise TypeError(f"the machine has no setting {name!r}")
        setattr(asked, name, c.number(value, name))
    return _report_of(_text_of(arrivals, asked))


SETTINGS = [name for name, _ in abi.MachineSettings._fields_ if name != "size"]


def _text_of(arrivals: bytes, settings: abi.MachineSettings) -> str:
    ran = c.sized(abi.MachineRan)
    said, report = c.grown(lambda out, room: c.machine_sized(settings, arrivals, len(arrivals), out, room, ran), 65536, ran)
    if said is Status.BAD_ARRIVALS:
        raise ArrivalsFault(said, ran.fault, ran.row, ran.message.decode())
    if said is Status.BAD_SETTING:
        raise SettingFault(said, SETTINGS[ran.setting - 1])
    c.checked(said)
    return report.decode()


def _with_waits(words: list[str]) -> tuple[dict[str, int], Waits]:
    """Returns the numbers of a line by name, and the waits, which are its last numbers."""
    return c.fields(words[:-12]), Waits(**c.fields(words[-12:]))


def _report_of(text: str) -> MachineReport:
    queues: dict[int, Queue] = {}
    processors: list[Processor] = []
    total: dict[str, int] = {}
    counts: dict[str, int] = {}
    for line in text.splitlines():
        kind, number, *words = line.split(" ")
        if kind == "device":
            counts, waits = _with_waits(words)
            queues[int(number)] = Queue(number=int(number), waits=waits, **counts)
        elif kind == "processor":
            counts, waits = _with_waits(words)
        elif kind == "time":
            times = Times(**c.fields(words))
            processors.append(Processor(number=int(number), waits=waits, times=times, application=None, **counts))
        elif kind == "application":
            processors[-1] = processors[-1]._replace(application=Application(**c.fields(words)))
        else:
            total = c.fields(words[1:])
    return MachineReport(queues, processors, text=text, **total)
