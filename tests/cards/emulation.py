"""The emulated machine of tests/cards.sh: boots Debian's Linux under QEMU's interpreter with -icount, records settings of an emulated card
with its real driver, and captures its packets at the card.

The guest's time is its number of instructions, so a busy host changes hardly anything: only how long the guest waits for the disk while it
boots. Two virtio cards of the same guest send over a hub of QEMU, each by a timer of its own and without the processor.
"""

import os
import shutil
import subprocess
from collections.abc import Sequence
from dataclasses import dataclass
from pathlib import Path
from typing import Optional

import image

HERE = Path(__file__).resolve().parent
FOLDER = Path.home() / ".cache/fintaqush/cards"
MOST_SECONDS = 1650  # for a boot with its recordings, which takes up to 110 s of processor time
MEMORY = 2 << 30  # bytes that have to be free
DISK = 256 << 20  # bytes, for what the guest leaves
# By version of Linux: Debian's release that has it.
SUITES = {"6.1": "bookworm", "7.3": "trixie-backports"}
MAC = "52:54:00:00:00:01"
PROCESSOR = "max,-erms,-fsrm"
KERNEL = "console=ttyS0 net.ifnames=0 card={} cards={} tsc_early_khz=1000000 pmtmr=0 tsc=reliable mitigations=off nokaslr norandmaps audit=0 quiet"
SENDER = "virtio-net-pci,netdev=h{0},mac=52:54:00:00:00:1{0},tx=timer,romfile=,x-txtimer={1},x-txburst={2}"


class Failed(Exception):
    """Why nothing could be recorded."""


class Late(Failed):
    """The machine was too busy to record in time."""


@dataclass(frozen=True)
class Setting:
    """What is set in the guest before a recording."""

    name: str
    usecs: Optional[int] = None  # ethtool -C rx-usecs
    ring: Optional[int] = None  # ethtool -G rx
    deferral: tuple[int, int] = (0, 0)  # napi_defer_hard_irqs, gro_flush_timeout in ns
    threaded: int = 0
    budget: int = 300  # net.core.netdev_budget
    weight: int = 64  # net.core.dev_weight
    burst: int = 40  # packets of a burst in the mean
    every: int = 10_000  # us between bursts
    share: int = 150  # of 1000 frames, that are packets to the card

    @property
    def file(self) -> str:
        return self.name.replace(" ", "-").replace(",", "")

    def line(self) -> str:
        """Returns the line of the job that sets and records it."""
        defer, flush = self.deferral
        values = {"USECS": self.usecs, "RING": self.ring, "DEFER": defer, "FLUSH": flush, "THREADED": self.threaded}
        values |= {"BUDGET": self.budget, "WEIGHT": self.weight, "BURST": self.burst, "EACH": self.every, "SHARE": self.share}
        given = [f"{name}={value}" for name, value in values.items() if value is not None]
        return " ".join(["setting", self.file, *given])


@dataclass(frozen=True)
class Guest:
    """What is booted."""

    driver: str
    model: str  # QEMU's name of the card
    cards: int = 1  # if several, each gets the bursts, and no card the packets one by one
    period: int = 26_000  # ns: eth1 sends a frame of its ring each so often
    later: int = 5_000_000  # ns after the first frame of its ring, at which eth2 sends all of it
    linux: str = ""  # a version of SUITES; without it the kernel is of the same release as QEMU


def is_fetched() -> bool:
    """Returns whether the packages are there."""
    return (FOLDER / "root").is_dir()


def fetch() -> bool:
    """Downloads the packages unless they are kept. Returns whether they are there."""
    return is_fetched() or subprocess.run([HERE / "fetch.sh", FOLDER], stdout=subprocess.DEVNULL, check=False).returncode == 0


def folder_of(linux: str) -> Path:
    """Returns the folder with a kernel, which is downloaded if it isn't the one that `fetch` has downloaded."""
    folder = FOLDER / (f"linux-{linux}" if linux else "root")
    if linux and not folder.is_dir():
        command = [str(HERE / "fetch.sh"), str(folder), "--kernel"]
        subprocess.run(command, env={**os.environ, "SUITE": SUITES[linux]}, stdout=subprocess.DEVNULL, check=True)
    return folder


def has_memory() -> bool:
    lines = Path("/proc/meminfo").read_text(encoding="ascii").splitlines()
    return next(int(line.split()[1]) << 10 for line in lines if line.startswith("MemAvailable:")) >= MEMORY


def programs_in(folder: Path) -> list[Path]:
    """Compiles the guest's programs."""
    made = []
    for source in sorted((HERE / "guest").glob("*.c")):
        made.append(folder / source.stem)
        subprocess.run(["cc", "-O2", "-static", "-o", made[-1], source], check=True)
    return made


def command_of(root: image.Root, guest: Guest, folder: Path) -> list[str]:
    """Returns QEMU's command line."""
    data = root.folder / "usr/share"
    words = root.command("qemu-system-x86_64") + f"-L {data}/qemu -L {data}/seabios".split()
    words += "-nodefaults -no-user-config -display none -no-reboot -monitor none -M q35,hpet=off -m 512 -smp 1".split()
    words += "-accel tcg,thread=single -icount shift=1,sleep=off -seed 1 -rtc base=2026-01-01,clock=vm".split()
    words += ["-cpu", PROCESSOR, "-serial", f"file:{folder}/console"]
    words += ["-kernel", str(root.kernel), "-initrd", f"{folder}/initrd", "-append", KERNEL.format(guest.driver, guest.cards)]
    words += ["-netdev", "hubport,id=h0,hubid=0", "-device", f"{guest.model},netdev=h0,mac={MAC}"]
    for number in range(1, guest.cards):
        card = f"{guest.model},netdev=c{number},mac={MAC[:-2]}2{number},romfile="
        words += ["-netdev", f"hubport,id=c{number},hubid=0", "-device", card]
    words += ["-object", f"filter-dump,id=d0,netdev=h0,queue=tx,file={folder}/card.pcap,maxlen=96"]
    for number, time, burst in ((1, guest.period, 1), (2, guest.later, 256)):
        sender = SENDER.format(number, time, burst)
        words += ["-netdev", f"hubport,id=h{number},hubid=0", "-device", sender]
    words += ["-drive", f"file={folder}/disk,format=raw,if=none,id=disk", "-device", "virtio-blk-pci,drive=disk"]
    return words


def make_image(root: image.Root, settings: Sequence[Setting], folder: Path) -> None:
    """Writes the guest's memory image, and an empty disk."""
    job = "\n".join(["start", *(setting.line() for setting in settings), ""])
    with open(folder / "initrd", "wb") as file:
        with open(image.system_kept(root), "rb") as system:
            shutil.copyfileobj(system, file)
        file.write(image.own_of(root, programs_in(folder), job))
    with open(folder / "disk", "wb") as disk:
        disk.truncate(DISK)


def record(guest: Guest, settings: Sequence[Setting], folder: Path) -> None:
    """Boots a guest, and records these settings into the folder: for each NAME.rec, NAME.read and NAME.stamps, and for all of
    them card.pcap."""
    root = image.Root(FOLDER / "root", folder_of(guest.linux))
    make_image(root, settings, folder)
    command = ["nice", "-n", os.environ.get("NICE", "10"), *command_of(root, guest, folder)]
    try:
        done = subprocess.run(command, stdin=subprocess.DEVNULL, capture_output=True, text=True, timeout=MOST_SECONDS, check=False)
    except subprocess.TimeoutExpired:
        raise Late(f"the guest took more than {MOST_SECONDS} s") from None
    unpack = ["tar", "-x", "-C", str(folder), "--strip-components=1", "-f", str(folder / "disk")]
    if done.returncode or subprocess.run(unpack, capture_output=True, check=False).returncode:
        raise Failed(f"the guest ended with status {done.returncode}: {done.stderr.strip()[-300:]}")
    said = (folder / "log").read_text(encoding="utf-8", errors="replace")
    if "FAILED" in said:
        raise Failed(next(line for line in said.splitlines() if "FAILED" in line))
