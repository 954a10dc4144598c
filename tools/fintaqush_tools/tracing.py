"""A separate ftrace instance: the events that it records, and the contents of its buffers. Other recordings aren't affected."""

from __future__ import annotations

import contextlib
import errno
import os
import re
import time
from collections.abc import Collection, Iterable, Iterator
from dataclasses import dataclass
from typing import Any

from fintaqush_tools import ring_buffer
from fintaqush_tools.errors import Refusal, unfinished

PLACES = ("/sys/kernel/tracing", "/sys/kernel/debug/tracing")
NAME = "fintaqush-{}"
NEW_MOUNTS, RECURSIVE, PRIVATE = 0x20000, 0x4000, 0x40000  # CLONE_NEWNS, MS_REC, MS_PRIVATE
NET_RX = 3
POLLS = ("napi/napi_poll", "irq/softirq_entry", "irq/softirq_exit")  # without these no poll is known
TIMERS = ("timer/hrtimer_start", "timer/hrtimer_expire_entry")
FILTERS = dict.fromkeys(POLLS[1:], f"vec == {NET_RX}")
STACK, START = "net/netif_receive_skb", "net/net_dev_start_xmit"
RECEIVED = ("net/napi_gro_receive_entry", "net/napi_gro_frags_entry", STACK)
READS = ("recvfrom", "recvmsg", "recvmmsg", "read", "readv")
MEGABYTE = 1 << 20


def mount_tracefs() -> str:
    """Mounts tracefs for this process and its children only, if it isn't mounted. Returns its folder."""
    for place in PLACES:
        if os.path.isdir(f"{place}/instances"):
            return place
    if not os.path.isdir(PLACES[0]):
        raise Refusal("this kernel has no tracing: boot one with CONFIG_FTRACE, as Debian's linux-image-amd64 is")
    import ctypes

    libc = ctypes.CDLL(None, use_errno=True)
    calls: tuple[tuple[Any, ...], ...] = (
        ("unshare", NEW_MOUNTS),
        ("mount", None, b"/", None, RECURSIVE | PRIVATE, None),
        ("mount", b"nodev", PLACES[0].encode(), b"tracefs", 0, None),
    )
    for name, *words in calls:
        if getattr(libc, name)(*words) != 0:
            number = ctypes.get_errno()
            why = "a container needs CAP_SYS_ADMIN for it, and a kernel that is locked down has no tracing"
            if number == errno.EINVAL:  # its root is no place where something is mounted
                why = f"in a chroot `mount -t tracefs nodev {PLACES[0]}` does it"
            raise Refusal(f"tracefs can't be mounted: {os.strerror(number)}; {why}")
    return PLACES[0]


@dataclass(frozen=True)
class Sources:
    """What to record besides the events of all recordings."""

    program: str = ""  # the filter for the program whose reads are recorded
    receivers: Collection[str] = ()  # devices without a known sender, of which the received packets are recorded
    # devices whose packets a backlog may get: by RPS, without GRO, or if their sender has TSO
    moved: Collection[str] = ()
    senders: Collection[str] = ()  # devices that send to several queues


def of_devices(names: Collection[str]) -> str:
    """Returns the filter for events of these devices."""
    return " || ".join(f'name == "{each}"' for each in names)


def watchdog() -> str:
    """Returns the filter for NAPI's timer: by the address of its function, or by its name (Linux 6.2) if addresses are hidden (kptr_restrict)."""
    with contextlib.suppress(OSError), open("/proc/kallsyms", encoding="ascii", errors="replace") as symbols:
        address = next((line.split()[0] for line in symbols if line.endswith(" napi_watchdog\n")), "0")
        if int(address, 16):
            return f"function == 0x{address}"
    return "function.function == napi_watchdog"


def is_alive(pid: str) -> bool:
    return os.path.exists(f"/proc/{pid}")


class Instance:
    """The instance. It is removed with its settings when it closes, also after a failure or a signal."""

    processors: set[int] | None = None  # those that are recorded, if not all

    def __init__(self, folder: str) -> None:
        self.folder = folder
        self.path = f"{folder}/instances/{NAME.format(os.getpid())}"

    def __enter__(self) -> Instance:
        self.remove_abandoned()
        unfinished.add(self.path)
        try:
            os.mkdir(self.path)
        except OSError as error:
            raise Refusal(f"no ftrace instance can be made: {error.strerror}") from None
        return self

    def __exit__(self, *_: object) -> None:
        self.remove(self.path)
        unfinished.discard(self.path)

    def remove_abandoned(self) -> None:
        """Removes what a killed process left."""
        for name in os.listdir(f"{self.folder}/instances"):
            found = re.fullmatch(NAME.format(r"(\d+)"), name)
            if found and not is_alive(found[1]):
                self.remove(f"{self.folder}/instances/{name}")

    @staticmethod
    def remove(path: str) -> None:
        with contextlib.suppress(OSError):
            with open(f"{path}/tracing_on", "w", encoding="ascii") as file:
                file.write("0")
        for _ in range(500):  # the kernel, or who reads its files, may still use it
            try:
                return os.rmdir(path)
            except FileNotFoundError:
                return None
            except OSError as error:
                if error.errno != errno.EBUSY:
                    break
                time.sleep(0.02)
        raise Refusal(f"{path}: this ftrace instance couldn't be removed; rmdir removes it")

    def read(self, name: str) -> str:
        with open(f"{self.path}/{name}", encoding="utf-8", errors="replace") as file:
            return file.read()

    def write(self, name: str, text: str) -> None:
        with open(f"{self.path}/{name}", "w", encoding="utf-8") as file:
            file.write(text)

    def has(self, name: str) -> bool:
        return os.path.exists(f"{self.path}/{name}")

    def set_buffers(self, megabytes: int, processors: set[int] | None) -> None:
        """Sets the clock, the buffer size of each processor, and which processors are recorded."""
        self.write("tracing_on", "0")
        self.write("trace_clock", "mono")
        self.processors = processors
        try:
            self.write("buffer_size_kb", str(megabytes * 1024))
        except OSError as error:
            why = f"{error.strerror}; take less by --buffer"
            raise Refusal(f"no buffers of {megabytes} MB for each processor: {why}") from None
        if processors:
            mask = sum(1 << each for each in set(processors))
            groups = [f"{mask >> low & 0xffffffff:08x}" for low in range(0, max(processors) + 1, 32)]
            try:
                self.write("tracing_cpumask", ",".join(reversed(groups)))
            except OSError:
                raise Refusal("--processors has one that this machine doesn't have") from None

    def wanted(self, sources: Sources) -> dict[str, str | None]:
        """Returns the events to record, each with its filter if it has one."""
        vectors = f"{self.path}/events/irq_vectors"
        names = os.listdir(vectors) if os.path.isdir(vectors) else []
        interrupts = [f"irq_vectors/{name}" for name in sorted(names) if name.endswith(("_entry", "_exit"))]
        interrupts = interrupts or ["ipi/ipi_entry", "ipi/ipi_exit"]
        events = [*POLLS, "net/net_dev_xmit", "irq/irq_handler_entry", "irq/irq_handler_exit", *interrupts]
        events += ["sched/sched_switch", *TIMERS]
        chosen = {**dict.fromkeys(events), **FILTERS, **dict.fromkeys(TIMERS, watchdog())}
        chosen |= {name: of_devices(sources.receivers) for name in RECEIVED if sources.receivers}
        if sources.moved:
            chosen[STACK] = of_devices([*sources.receivers, *sources.moved])
        if sources.senders:
            chosen[START] = of_devices(sources.senders)
        for call in READS if sources.program else ():
            chosen[f"syscalls/sys_enter_{call}"] = sources.program
            chosen[f"syscalls/sys_exit_{call}"] = f"({sources.program}) && ret > 0"
        return chosen

    def enable(self, sources: Sources) -> tuple[list[str], list[str]]:
        """Enables the events. Returns those that are recorded, and those that the kernel lacks."""
        recorded, missing = [], []
        for name, only in self.wanted(sources).items():
            if not self.has(f"events/{name}"):
                missing.append(name)
                continue
            try:
                if only:
                    self.write(f"events/{name}/filter", only)
            except OSError:
                missing.append(name)  # without the filter it would have events of another kind
                continue
            self.write(f"events/{name}/enable", "1")
            recorded.append(name)
        if lacking := [name for name in POLLS if name in missing]:
            raise Refusal(f"this kernel has no event {', '.join(lacking)}, without which no poll is known")
        return recorded, missing

    def formats(self, events: Iterable[str]) -> Iterator[tuple[str, str]]:
        """Yields what a recording's head has on the pages: where a page has its events, and the format of each event by its number."""
        yield "pages", " ".join(map(str, ring_buffer.Layout.of(self.read("events/header_page"))))
        for name in events:
            text = self.read(f"events/{name}/format")
            number = text.partition("\nID: ")[2].partition("\n")[0]
            yield f"format.{number}", ring_buffer.told_format(name.rpartition("/")[2], text)

    @contextlib.contextmanager
    def pipes(self) -> Iterator[dict[int, int]]:
        """Opens the buffers of the recorded processors; what is read is removed from them."""
        with contextlib.ExitStack() as opened:
            pipes = {}
            for name in sorted(os.listdir(f"{self.path}/per_cpu"), key=lambda each: int(each[3:])):
                if not self.processors or int(name[3:]) in self.processors:
                    flags = os.O_RDONLY | os.O_NONBLOCK
                    pipes[int(name[3:])] = os.open(f"{self.path}/per_cpu/{name}/trace_pipe_raw", flags)
                    opened.callback(os.close, pipes[int(name[3:])])
            yield pipes

    def statistics(self) -> Iterator[tuple[int, int, int]]:
        """Yields for each processor the bytes in its buffer, its lost events, and those that were read."""
        for name in sorted(os.listdir(f"{self.path}/per_cpu")):
            lines = (line.partition(": ") for line in self.read(f"per_cpu/{name}/stats").splitlines())
            values = {key: int(value) for key, _, value in lines if value.isdigit()}
            lost = sum(values.get(each, 0) for each in ("overrun", "commit overrun", "dropped events"))
            yield values.get("bytes", 0), lost, values.get("read events", 0)
