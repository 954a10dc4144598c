"""The settings and counters of a running machine's network devices, as `key value` lines of a recording's head."""

from __future__ import annotations

import contextlib
import glob
import gzip
import json
import os
import re
import shutil
import time
from collections.abc import Callable, Iterator, Sequence
from typing import Any

from fintaqush_tools.errors import Refusal
from fintaqush_tools.processes import ran
from fintaqush_tools.recording import DEVICE_NAME, NAMESPACE_NAME
from fintaqush_tools.texts import shown

COUNTED = {"processed": 0, "dropped": 1, "squeezed": 2, "rps": 9, "flow_limit": 10}  # columns of /proc/net/softnet_stat
PROCESSOR = 12  # the column of the processor's number, which kernels before 5.10 don't have
SECRET = {"netdev_rss_key"}
STOLEN = re.compile(
    r"cpu(\d+)(?: \d+){7} (\d+)"
)  # a processor's line of /proc/stat, with the time that a hypervisor took
# The shell script that reads a device's settings; the device's name is an argument, never part of the script.
DEVICE = """cd "/sys/class/net/$1" 2> /dev/null || exit 3
grep -s "" address mtu tx_queue_len threaded napi_defer_hard_irqs gro_flush_timeout ifindex iflink operstate queues/*/rps_cpus queues/*/rps_flow_cnt \
    queues/*/xps_cpus statistics/rx_dropped statistics/rx_packets statistics/rx_missed_errors
exit 0"""
ETHTOOL = {"ring": "-g", "coalesce": "-c", "channels": "-l", "feature": "-k"}
FEATURES = set(
    "generic-receive-offload large-receive-offload rx-gro-hw rx-gro-list rx-udp-gro-forwarding receive-hashing "
    "tcp-segmentation-offload generic-segmentation-offload tx-udp-segmentation ntuple-filters".split()
)
READINGS = 16  # of both clocks, of which the fastest counts
PACKAGES = {"ip": "iproute2", "ethtool": "ethtool"}
os.environ[
    "PATH"
] = f"{os.environ.get('PATH', os.defpath)}:/usr/sbin:/sbin"  # where these commands are, which a user's PATH may lack


def text_in(path: str) -> str:
    """Returns the contents of one of the kernel's files, in one line; an empty text if it can't be read."""
    with contextlib.suppress(OSError, ValueError), open(path, encoding="utf-8", errors="replace") as file:
        return " ".join(file.read().split())
    return ""


def within(netns: str | None) -> list[str]:
    """Returns the command prefix that runs a command in that network namespace."""
    return ["ip", "netns", "exec", netns] if netns else []


def output_of(command: Sequence[str]) -> str:
    """Returns what a command prints; an empty text if it fails or isn't installed."""
    if not shutil.which(command[0]):
        return ""
    status, out, _ = ran(command)
    return out.decode("utf-8", "replace") if status == 0 else ""


def check_device(name: str, option: str = "--device") -> None:
    if not re.fullmatch(DEVICE_NAME, name):
        what = "at most 15 printable ASCII characters without blanks, / and :"
        raise Refusal(f"{option} {shown(name)}: not a device name, which has {what}")


def check_namespace(netns: str | None) -> None:
    if not netns:
        return
    if not shutil.which("ip"):
        raise Refusal("--netns needs ip, which isn't installed (Debian: apt install iproute2)")
    if not re.fullmatch(NAMESPACE_NAME, netns) or not os.path.exists(f"/run/netns/{netns}"):
        raise Refusal(f"--netns {shown(netns)}: there is no such network namespace; `ip netns` lists them")


def of_device(name: str, netns: str | None) -> dict[str, str]:
    """Returns a device's settings in sysfs."""
    status, out, _ = ran([*within(netns), "sh", "-c", DEVICE, "sh", name])
    if status != 0:
        where = f" in {shown(netns)}" if netns else "; one in a network namespace needs --netns"
        raise Refusal(f"--device {shown(name)}: there is no such device{where}")
    lines = [line.partition(":") for line in out.decode("utf-8", "replace").splitlines()]
    return {path.replace("queues/", "").replace("/", "."): value for path, _, value in lines}


def by_ethtool(name: str, netns: str | None) -> Iterator[tuple[str, str]]:
    """Yields what ethtool prints of a device: the rings, interrupt coalescing, the channels, the offloads."""
    for part, option in ETHTOOL.items():
        front = ""
        for line in output_of([*within(netns), "ethtool", option, name]).splitlines():
            if re.match("(Pre-set maximums|Current hardware settings)", line):
                front = "most." if line.startswith("Pre-set") else ""
            found = re.findall(r"([A-Za-z][\w -]*?):\s*([^\s:\[]+)", line)
            for key, value in found:
                if value != "n/a" and (part != "feature" or key in FEATURES):
                    yield f"ethtool.{part}.{front}{'-'.join(key.lower().split())}", value


def driver_of(name: str, netns: str | None) -> Iterator[tuple[str, str]]:
    """Yields the driver of a device and its version, which for most drivers is the kernel's."""
    said = output_of([*within(netns), "ethtool", "-i", name])
    found = dict(re.findall(r"^(driver|version): (\S+)$", said, re.M))
    if "driver" in found:
        yield "driver", " ".join(found[each] for each in ("driver", "version") if each in found)


def ticks() -> Iterator[tuple[str, str]]:
    """Yields the kernel's HZ, if its configuration can be read; netdev_budget_usecs is rounded to ticks."""
    release = os.uname().release
    for path in ("/proc/config.gz", f"/boot/config-{release}", f"/lib/modules/{release}/config"):
        with contextlib.suppress(OSError, EOFError), open(path, "rb") as file:
            text = gzip.decompress(file.read()) if path.endswith(".gz") else file.read()
            if found := re.search(rb"^CONFIG_HZ=(\d+)$", text, re.M):
                yield "hz", found[1].decode()
                return


def interrupts_of(name: str) -> Iterator[tuple[str, str]]:
    """Yields the processors of a device's interrupts, by interrupt number."""
    real = os.path.realpath(f"/sys/class/net/{name}/device")
    names = {line.split(":")[0].strip(): line.split()[-1] for line in lines_in_proc("interrupts") if ":" in line}
    for folder in (real, os.path.dirname(real)):
        for irq in sorted(glob.glob(f"{glob.escape(folder)}/msi_irqs/*"), key=lambda path: int(os.path.basename(path))):
            number = os.path.basename(irq)
            yield f"irq.{number}.name", names.get(number, "")
            for end in ("smp_affinity_list", "effective_affinity_list"):
                yield f"irq.{number}.{end}", text_in(f"/proc/irq/{number}/{end}")


def lines_in_proc(name: str) -> list[str]:
    try:
        with open(f"/proc/{name}", encoding="utf-8", errors="replace") as file:
            return file.read().splitlines()
    except OSError:
        return []


def tasks_named(matches: Callable[[str], bool]) -> Iterator[tuple[int, str]]:
    """Yields the number of each process whose name matches."""
    for path in glob.glob("/proc/[0-9]*/comm"):
        with contextlib.suppress(OSError), open(path, encoding="utf-8", errors="replace") as file:
            name = file.read().rstrip("\n")
            if matches(name):
                yield int(path.split("/")[2]), name


def of_task(pid: int) -> Iterator[tuple[str, str]]:
    """Yields the processors that a task may run on, and its scheduling policy."""
    for line in lines_in_proc(f"{pid}/status"):
        if line.startswith("Cpus_allowed_list:"):
            yield "processors", line.split()[1]
    with contextlib.suppress(OSError):
        policy = {getattr(os, f"SCHED_{name.upper()}"): name for name in ("other", "fifo", "rr", "batch", "idle")}
        yield "policy", policy.get(os.sched_getscheduler(pid) & 0xFF, "unknown")
        yield "priority", str(os.sched_getparam(pid).sched_priority)


def threads_of(name: str) -> Iterator[tuple[str, str]]:
    for pid, thread in sorted(tasks_named(lambda each: each.startswith(f"napi/{name}-"))):
        for key, value in of_task(pid):
            yield f"thread.{thread.rpartition('-')[2]}.{key}", value


def pairs_in(netns: str | None) -> list[dict[str, Any]]:
    """Returns the ends of veth pairs in a network namespace, as `ip` describes them. If the kernel has no veth devices, because the module isn't
    loaded, `ip` prints an empty object for each device of any kind."""
    with contextlib.suppress(ValueError):
        command = ["ip", *(["-n", netns] if netns else []), "-j", "link", "show", "type", "veth"]
        links = json.loads(output_of(command) or "[]")
        return [link for link in links if "ifname" in link and "ifindex" in link]
    return []


def peer_of(name: str, netns: str | None) -> str:
    """Returns the other end of a veth pair, if exactly one device matches: each end has the number of the other, and of its namespace."""
    own: dict[str, Any] = next((link for link in pairs_in(netns) if link["ifname"] == name), {})
    if "link" in own or "link_index" not in own:
        return str(own.get("link", ""))
    listed = output_of(["ip", *(["-n", netns] if netns else []), "netns", "list-id"])
    named = dict(re.findall(r"nsid (\d+) .*netns name: ([^)\s]+)", listed))
    others, numbers = pairs_in(named.get(str(own.get("link_netnsid")), "")), (own["link_index"], own["ifindex"])
    found = [link["ifname"] for link in others if (link["ifindex"], link.get("link_index")) == numbers]
    return str(found[0]) if len(found) == 1 else ""


def of_kernel() -> Iterator[tuple[str, str]]:
    """Yields the kernel's version, the processors, and the settings in net.core, except secrets."""
    system = os.uname()
    yield "kernel", system.release
    yield from ticks()
    yield "machine", system.machine
    yield "online", text_in("/sys/devices/system/cpu/online")
    yield "clocksource", text_in("/sys/devices/system/clocksource/clocksource0/current_clocksource")
    for name in sorted(os.listdir("/proc/sys/net/core")):
        if name not in SECRET and (value := text_in(f"/proc/sys/net/core/{name}")):
            yield f"sysctl.net.core.{name}", value


def settings_of_device(name: str, netns: str | None) -> Iterator[tuple[str, str]]:
    of = of_device(name, netns)
    counts = ("statistics.", "ifindex", "iflink")
    for key, value in of.items():
        if not key.startswith(counts) and value:
            yield f"device.{name}.{key}", value
    more = [driver_of(name, netns), by_ethtool(name, netns), threads_of(name)]
    for key, value in (pair for each in (more if netns else [*more, interrupts_of(name)]) for pair in each):
        if value:
            yield f"device.{name}.{key}", value


def counters(devices: Sequence[str], netns: str | None) -> dict[str, int]:
    """Returns the kernel's counters: softnet_stat of each processor, UDP's errors, and the drops of the devices."""
    counted = {}
    for place, line in enumerate(lines_in_proc("net/softnet_stat")):
        columns = line.split()
        processor = int(columns[PROCESSOR], 16) if len(columns) > PROCESSOR else place
        for name, column in COUNTED.items():
            if column < len(columns):
                counted[f"softnet.{processor}.{name}"] = int(columns[column], 16)
    lines = output_of([*within(netns), "cat", "/proc/net/snmp"]).splitlines()
    told = [line.split() for line in lines if line.startswith("Udp: ")]
    if len(told) >= 2:
        counted |= {f"udp.{name}": int(value) for name, value in zip(*told[:2]) if value.isdigit()}
    for device in devices:
        values = {key: value for key, value in of_device(device, netns).items() if key.startswith("statistics.")}
        counted |= {f"device.{device}.{key}": int(value) for key, value in values.items()}
    return counted


def stolen() -> dict[int, int]:
    """Returns for each processor how many ms a hypervisor took from it so far, as the kernel knows it."""
    found = filter(None, map(STOLEN.match, lines_in_proc("stat")))
    return {int(each[1]): int(each[2]) * 1000 // os.sysconf("SC_CLK_TCK") for each in found}


def lacking(netns: str | None) -> list[str]:
    """Returns which programs aren't installed, and how to install them."""
    without = {
        "ethtool": "rings, coalescing and offloads aren't recorded",
        "ip": "the other end of a veth pair isn't found: name it by --sender",
    }
    lacks = [name for name in without if not shutil.which(name) and not (name == "ip" and netns)]
    return [f"{it} isn't installed (Debian: apt install {PACKAGES[it]}), so {without[it]}" for it in lacks]


def now() -> dict[str, Any]:
    """Returns the present time: the date in UTC, and ns of CLOCK_REALTIME and of CLOCK_MONOTONIC, which a capture and a trace have."""
    tries = [(time.monotonic_ns(), time.time_ns(), time.monotonic_ns()) for _ in range(READINGS)]
    before, real, after = min(tries, key=lambda each: each[2] - each[0])
    date = time.strftime("%Y-%m-%dT%H:%M:%SZ", time.gmtime(real // 10**9))
    return {"began": date, "began.realtime": real, "began.monotonic": (before + after) // 2}
