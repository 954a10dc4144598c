"""The rig of tests/live.sh: veth pairs between two network namespaces, a sender and a receiver that run at SCHED_FIFO on
separate processors, and a recording by fintaqush record. It restores every setting that it changes.
"""

from __future__ import annotations

import contextlib
import os
import re
import shutil
import subprocess
import sys
import time
from dataclasses import dataclass, field
from pathlib import Path
from typing import Any

HERE = Path(__file__).resolve().parent
sys.path += [str(HERE.parent), str(HERE.parent.parent / "tools")]
from finding import group_in  # noqa: E402

from fintaqush_tools import observed  # noqa: E402

COMMAND = HERE.parent.parent / "fintaqush"
PORT = 9000
SENDS, RECEIVES = 2, 3  # the processors: of the sender, and of the receiver with what polls for it
QUIET_TRIES = 30
USE_NS = 2000  # what the receiver works on each packet
SYSCTLS = ("net.core.netdev_budget", "net.core.netdev_max_backlog")
NEEDS = {"ip": "iproute2", "ethtool": "ethtool", "chrt": "util-linux", "taskset": "util-linux", "cc": "gcc"}


class Failed(Exception):
    """Why a recording couldn't be made."""


@dataclass(frozen=True)
class Traffic:
    """What the sender sends."""

    kind: str
    period: int  # us
    burst: int
    count: int  # of bursts
    pace: int = 0  # ns from one packet of a burst to the next
    gso: int = 1
    filter: int = 0  # multiplications that the kernel makes for each packet


@dataclass(frozen=True)
class Setting:
    """The settings of one recording. With `poller` `backlog`, the receiving processor's backlog polls (RPS); with `softirq`,
    the veth device's NAPI instance on the sender's processor; with `thread`, the instance's thread on the receiving
    processor."""

    name: str
    poller: str
    traffic: Traffic
    devices: int = 1
    sysctls: dict[str, int] = field(default_factory=dict)
    defer_hard_irqs: int = 0
    gro_flush_timeout: int = 0
    is_running: bool = False  # the traffic begins before the recording, and ends after it

    @property
    def polls_on(self) -> int:
        return SENDS if self.poller == "softirq" else RECEIVES


@dataclass
class Recorded:
    """The result of a recording: the file of fintaqush record, when each packet was read, and how late the sender was."""

    path: Path
    reads: list[tuple[int, int, int]]  # (the packet's number, when it was read, and when it was sent, in ns), in this order
    late: int  # ns, of the latest burst
    stolen: int  # hundredths of a second that the hypervisor took from the two processors meanwhile


def missing() -> list[str]:
    """What this machine lacks, each in a few words; empty if nothing."""
    lacks = [f"{name} (Debian: {package})" for name, package in NEEDS.items() if not shutil.which(name)]
    if os.geteuid() != 0:
        return ["root", *lacks]
    if (os.cpu_count() or 1) < 4:
        lacks.append("4 processors")
    elif not lacks and subprocess.run(["chrt", "-f", "1", "true"], capture_output=True, check=False).returncode:
        lacks.append("leave to use SCHED_FIFO")
    if not Path("/sys/kernel/tracing").is_dir():
        lacks.append("a kernel with tracing")
    return lacks


def run(*command: object, **others: Any) -> str:
    """The output of a command, which must succeed."""
    done: subprocess.CompletedProcess[str] = subprocess.run(list(map(str, command)), capture_output=True, text=True, check=False, **others)
    if done.returncode:
        raise Failed(f"{' '.join(map(str, command))[:80]} ended with status {done.returncode}: {done.stderr.strip()}")
    return done.stdout


def build(folder: Path) -> None:
    """Compiles the sender and the receiver."""
    for name in ("sender", "receiver"):
        run("cc", "-O2", "-o", folder / name, HERE / f"{name}.c", "-lm")


def stolen() -> int:
    """What a hypervisor took from the two processors so far, in hundredths of a second."""
    taken = observed.stolen()
    return (taken[SENDS] + taken[RECEIVES]) // 10


def wait_for_quiet() -> None:
    """Waits until the hypervisor takes nothing from the two processors, for some seconds at most."""
    for _ in range(QUIET_TRIES):
        before = stolen()
        time.sleep(0.3)
        if stolen() == before:
            return


def to_front(process: int) -> None:
    """Puts a task to SCHED_FIFO, so that other work on the machine doesn't disturb it."""
    run("chrt", "-f", "-p", 1, process)


def tasks(pattern: str) -> list[int]:
    """The processes with such a name, as `ps` shows it."""
    found = (line.split(None, 1) for line in run("ps", "-eo", "pid,comm").splitlines()[1:])
    return [int(process) for process, name in found if re.fullmatch(pattern, name.strip())]


class Rig:
    """The devices and settings of one recording."""

    def __init__(self, folder: Path, setting: Setting) -> None:
        self.folder, self.setting, self.undo = folder, setting, contextlib.ExitStack()
        self.out, self.into = f"fqs{os.getpid()}", f"fqr{os.getpid()}"

    def __enter__(self) -> Rig:
        try:
            self.make_devices()
            self.set_all()
        except BaseException:
            self.undo.close()
            raise
        return self

    def __exit__(self, *_: object) -> None:
        self.undo.close()

    def ip(self, space: str, *words: object) -> str:
        return run("ip", "-n", space, *words)

    def within(self, space: str, *command: object) -> str:
        return run("ip", "netns", "exec", space, *command)

    def make_devices(self) -> None:
        for space in (self.out, self.into):
            run("ip", "netns", "add", space)
            self.undo.callback(run, "ip", "netns", "del", space)
            self.within(space, "sysctl", "-qw", "net.ipv6.conf.all.disable_ipv6=1", "net.ipv4.conf.all.rp_filter=0",
                        "net.ipv4.conf.default.rp_filter=0")
        several = self.setting.devices > 1
        if several:
            self.ip(self.out, "link", "add", "br0", "type", "bridge")
        for number in range(1, self.setting.devices + 1):
            self.make_pair(number, several)
        end = "br0" if several else "va1"
        self.ip(self.out, "addr", "add", "10.99.0.1/24", "broadcast", "10.99.0.255", "dev", end)
        self.ip(self.out, "link", "set", end, "up")
        if several:
            time.sleep(1.5)  # until the bridge forwards
        else:
            addresses = [group_in(r"link/ether (\S+)", self.ip(space, "-o", "link", "show", name)) for space, name in
                         ((self.out, "va1"), (self.into, "vb1"))]
            self.ip(self.into, "neigh", "replace", "10.99.0.1", "lladdr", addresses[0], "dev", "vb1")
            self.ip(self.out, "neigh", "replace", "10.99.0.2", "lladdr", addresses[1], "dev", "va1")

    def make_pair(self, number: int, several: bool) -> None:
        run("ip", "link", "add", f"va{number}", "netns", self.out, "type", "veth", "peer", "name", f"vb{number}", "netns", self.into)
        self.within(self.out, "ethtool", "-K", f"va{number}", "tso", "off", "tx-udp-segmentation", "off", "gro", "off")
        # Without GRO a veth device has no NAPI instance, and its packets go to a processor's backlog.
        self.within(self.into, "ethtool", "-K", f"vb{number}", "tso", "off", "gro", "off" if self.setting.poller == "backlog" else "on")
        if several:
            self.ip(self.out, "link", "set", f"va{number}", "master", "br0")
        self.ip(self.into, "addr", "add", f"10.99.0.{number + 1}/24", "broadcast", "10.99.0.255", "dev", f"vb{number}")
        self.ip(self.out, "link", "set", f"va{number}", "up")
        self.ip(self.into, "link", "set", f"vb{number}", "up")

    def set_all(self) -> None:
        setting = self.setting
        for name in SYSCTLS:
            self.undo.callback(run, "sysctl", "-qw", f"{name}={run('sysctl', '-n', name).strip()}")
        for name, value in setting.sysctls.items():
            run("sysctl", "-qw", f"{name}={value}")
        files: dict[str, int | str] = {"napi_defer_hard_irqs": setting.defer_hard_irqs, "gro_flush_timeout": setting.gro_flush_timeout}
        if setting.poller == "thread":
            files["threaded"] = 1
        if setting.poller == "backlog":
            files["queues/rx-0/rps_cpus"] = f"{1 << RECEIVES:x}"
        for number in range(1, setting.devices + 1):
            # In its own mount namespace, where /sys shows the devices of this network namespace.
            self.within(self.into, "sh", "-c", ";".join(f"echo {value} > /sys/class/net/vb{number}/{name}" for name, value in files.items()))
        if setting.poller == "thread":
            for process in tasks(r"napi/vb1-\d+"):
                run("taskset", "-pc", RECEIVES, process)
                to_front(process)
        for process in tasks(rf"ksoftirqd/{setting.polls_on}"):
            to_front(process)
            self.undo.callback(run, "chrt", "-o", "-p", 0, process)

    def receiver(self, read: Path) -> subprocess.Popen[bytes]:
        """The running receiver, which writes to that file when it ends."""
        process = subprocess.Popen(["ip", "netns", "exec", self.into, "chrt", "-f", "1", "taskset", "-c", str(RECEIVES), self.folder / "receiver",
                                    str(PORT), str(USE_NS), str(self.setting.traffic.filter), read], stdout=subprocess.PIPE)
        self.undo.callback(process.wait)
        self.undo.callback(process.kill)
        if not process.stdout or process.stdout.readline() != b"ready\n":
            raise Failed("the receiver didn't start")
        return process

    def sender(self) -> subprocess.Popen[str]:
        """The running sender."""
        traffic, address = self.setting.traffic, "10.99.0.255" if self.setting.devices > 1 else "10.99.0.2"
        words = traffic.period, traffic.burst, traffic.count, traffic.pace, traffic.gso, traffic.kind
        process = subprocess.Popen(["ip", "netns", "exec", self.out, "chrt", "-f", "1", "taskset", "-c", str(SENDS), self.folder / "sender", address, str(PORT),
                                    *map(str, words)], stdout=subprocess.PIPE, text=True)
        self.undo.callback(process.wait)
        self.undo.callback(process.kill)
        return process

    def recorder(self, path: Path) -> subprocess.Popen[str]:
        """The running fintaqush record, called as a user would."""
        names = range(1, self.setting.devices + 1)
        process = subprocess.Popen([COMMAND, "record", "1", "--netns", self.into, "--processors", f"{SENDS},{RECEIVES}", "--program", "receiver", "--out", path,
                                    *(word for name in names for word in ("--device", f"vb{name}", "--sender", f"va{name}"))],
                                   stdout=subprocess.DEVNULL, stderr=subprocess.PIPE, text=True)
        self.undo.callback(process.wait)
        self.undo.callback(process.kill)
        assert process.stderr
        said = [""]
        while not said[-1].startswith("fintaqush record: recording"):
            said.append(process.stderr.readline())
            if not said[-1]:
                raise Failed(f"fintaqush record doesn't record: {said[-2].strip()[:200]}")
        return process

    def record(self, path: Path) -> Recorded:
        read = self.folder / "read"
        receiver = self.receiver(read) if self.setting.devices == 1 else None
        sender = self.sender() if self.setting.is_running else None
        recorder = self.recorder(path)
        before = stolen()
        sender = sender or self.sender()
        if self.setting.is_running and (recorder.wait() or sender.poll() is not None):
            raise Failed("the traffic ended before its recording")
        said, _ = sender.communicate()
        taken = stolen() - before
        if receiver and receiver.wait():
            raise Failed("the receiver failed")
        said_by_record = recorder.stderr.read() if recorder.stderr else ""
        if recorder.wait():
            raise Failed(f"fintaqush record failed: {said_by_record.strip()[:200]}")
        late = int(group_in(r"^sent \d+ failed \d+ latest (\d+)", said))
        rows = (line.split(",") for line in read.read_text(encoding="ascii").splitlines()) if receiver else ()
        return Recorded(path, [(int(number), int(read), int(sent)) for number, read, sent in rows], late, taken)


def record(folder: Path, setting: Setting, path: Path) -> Recorded:
    wait_for_quiet()
    with Rig(folder, setting) as rig:
        return rig.record(path)
