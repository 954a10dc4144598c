"""What the drivers of network cards do that decides when a card interrupts: a row for each known driver. A driver without a row is unknown.
tests/cards/sources.txt has the line of Linux for each fact.
"""

from __future__ import annotations

import re
from collections.abc import Iterator, Sequence
from dataclasses import dataclass
from typing import Optional

from fintaqush_tools.recording import Head, number_in

GAP, TIMER, NONE, UNKNOWN = "gap", "timer", "none", "unknown"
LEAST = "interrupts.least_ns"  # of a device in a head: the least time between interrupts that a capture shows
MOST_BATCH = 64  # packets, which the machine's --gro-batch takes
HANDLER = 1500  # ns that the handler of an early interrupt takes, if none was recorded


@dataclass(frozen=True)
class Driver:
    """What a driver and its card do."""

    # What rx-usecs sets: the least time between two interrupts (GAP), the time from a packet to its interrupt (TIMER), nothing (NONE), or
    # UNKNOWN if the driver's source doesn't show it.
    coalescing: str = NONE
    takes: tuple[int, ...] = ()  # the least and the greatest rx-usecs that it accepts besides 0 and the modes
    takes_zero: bool = True
    modes: tuple[int, ...] = ()  # values of rx-usecs by which the driver chooses the time itself
    by_rate: bool = False  # it keeps the time as interrupts per second, and writes it in units of 256 ns
    # Whether a cause outlives its packet: 0 no, 1 until the card interrupts, 2 until the handler reads the causes; None unknown.
    latched: Optional[int] = None
    latched_msix: Optional[int] = None  # the same with MSI-X
    gro: bool = True  # it calls napi_gro_receive or napi_gro_frags
    gro_unless: str = ""  # the feature with which it doesn't
    heedless: bool = False  # it unmasks whatever napi_complete_done returns
    early: bool = False  # it asks for interrupts before napi_complete_done
    spare: int = 0  # so many packets less than its entries a ring holds

    def accepts(self, usecs: int) -> bool:
        """Returns whether `ethtool -C rx-usecs` accepts this value, and the driver then keeps to it."""
        if usecs == 0:
            return self.takes_zero
        return bool(self.takes) and self.takes[0] <= usecs <= self.takes[1] and usecs not in self.modes

    def gap_of(self, usecs: int) -> int:
        """Returns the least time between interrupts that this rx-usecs sets, in ns."""
        if self.coalescing != GAP or usecs in (0, *self.modes):
            return 0
        return 10**9 // (10**6 // usecs * 256) * 256 if self.by_rate else 1000 * usecs


DRIVERS = {
    "e1000": Driver(GAP, (10, 10000), modes=(1, 3, 4), by_rate=True, latched=2, spare=1),
    "e1000e": Driver(GAP, (10, 10000), modes=(1, 3, 4), by_rate=True, latched=2, latched_msix=1, spare=1),
    "igb": Driver(GAP, (10, 10000), modes=(1, 3), latched_msix=1, spare=1),
    "igc": Driver(GAP, (10, 10000), modes=(1, 3), latched_msix=1, spare=1),
    "ixgbe": Driver(GAP, (2, 1022), modes=(1,), latched_msix=1, spare=1),
    # `latched` is what QEMU's card does: a cause stays set after a poll took its packet. The driver's source doesn't show it. A ring
    # holds two packets less, because the entry of a packet is refilled only after its delivery.
    "vmxnet3": Driver(
        UNKNOWN, (10, 10000), latched=1, latched_msix=1, gro_unless="large-receive-offload", heedless=True, spare=2
    ),
    # Without the feature VIRTIO_NET_F_NOTF_COAL it takes only 0, and a recording doesn't have that feature.
    "virtio_net": Driver(TIMER, latched=0, latched_msix=0, early=True),
    "veth": Driver(latched=0),
    "tg3": Driver(UNKNOWN, (1, 1023), takes_zero=False, heedless=True),
    "be2net": Driver(UNKNOWN, (1, 128), heedless=True),
    "mana": Driver(heedless=True),
}
# These heedless drivers also ask for interrupts before napi_complete_done (mana_cq_handler), which napi_machine can't predict.
HEEDLESS_EARLY = ("mana",)
# Of these drivers only that is known: they unmask whatever napi_complete_done returns.
HEEDLESS = ("atlantic", "bcmgenet", "bnx2", "cxgb4", "fec", "forcedeth", "fsl_enetc", "mvneta", "qede")


def name_in(head: Head, device: str) -> str:
    """Returns the name of a recorded device's driver; an empty text if the recording doesn't have it. A version may follow the name."""
    return head.get(f"device.{device}.driver", "").partition(" ")[0]


def driver_in(head: Head, device: str) -> Optional[Driver]:
    """Returns the row of a recorded device's driver, or None if the driver is unknown."""
    return DRIVERS.get(name_in(head, device))


def usecs_in(head: Head, device: str) -> int:
    return number_in(head, f"device.{device}.ethtool.coalesce.rx-usecs")


def interrupts_in(head: Head, device: str) -> dict[str, str]:
    """Returns the names of the recorded device's interrupts, by their numbers."""
    keys = (
        (re.fullmatch(rf"device\.{re.escape(device)}\.irq\.([0-9]{{1,9}})\.name", key), name)
        for key, name in head.items()
    )
    return {found[1]: name for found, name in keys if found and name}


def of_queues(head: Head, device: str) -> set[str]:
    """Returns the names of the interrupts of the recorded device's receive queues; none without MSI-X."""
    names = interrupts_in(head, device).values()
    return {name for name in names if re.search("rx|input|comp", name.lower().replace(device.lower(), ""))}


def latched_in(head: Head, device: str) -> Optional[int]:
    """Returns whether a cause of the recorded device outlives its packet, as the machine's --latched; None if that is unknown."""
    driver = driver_in(head, device)
    if not driver:
        return None
    return driver.latched_msix if of_queues(head, device) else driver.latched


def least_in(head: Head, device: str) -> int:
    """Returns the least time between interrupts that the recorded device's card kept beyond that of rx-usecs, in ns; 0 if none is known."""
    driver = driver_in(head, device)
    return number_in(head, f"device.{device}.{LEAST}") if driver and driver.coalescing == GAP else 0


def least_of(head: Head, device: str) -> int:
    """Returns the least time between interrupts that the card keeps whatever rx-usecs is; 0 if none is known, as in a mode, whose driver chooses it."""
    driver = driver_in(head, device)
    return 0 if driver and usecs_in(head, device) in driver.modes else least_in(head, device)


def is_least_open(head: Head, device: str) -> bool:
    """Returns whether the recorded device's card may keep a longer time between interrupts than rx-usecs sets."""
    driver = driver_in(head, device)
    return driver is not None and driver.coalescing == GAP and not least_of(head, device)


def options_of(head: Head, device: str) -> dict[str, int]:
    """Returns the machine's options for what the recorded device's driver and card do; only what is known of an unknown driver. What
    isn't known of a known driver is 0, and `notes_on` says so."""
    driver, usecs = driver_in(head, device), usecs_in(head, device)
    if not driver:
        return {"heedless": 1} if name_in(head, device) in HEEDLESS else {}
    calls_gro = driver.gro and head.get(f"device.{device}.ethtool.feature.{driver.gro_unless}") != "on"
    batch = number_in(head, "sysctl.net.core.gro_normal_batch", 8) if calls_gro else 0
    is_timer = driver.coalescing == TIMER and usecs not in driver.modes
    return {
        "rx-gap": max(least_in(head, device), driver.gap_of(usecs)),
        "rx-nsecs": 1000 * usecs if is_timer else 0,
        "rx-frames": number_in(head, f"device.{device}.ethtool.coalesce.rx-frames") if is_timer else 0,
        "latched": latched_in(head, device) or 0,
        "gro-batch": min(MOST_BATCH, batch),
        "heedless": int(driver.heedless),
        "early": HANDLER * driver.early,
    }


def spare_of(head: Head, device: str) -> int:
    """Returns how many packets less than its entries the recorded device's ring holds."""
    driver = driver_in(head, device)
    return driver.spare if driver else 0


def coalescing_of(head: Head, device: str, choices: Sequence[int]) -> list[dict[str, int]]:
    """Returns the machine's option for each of these rx-usecs, without those that the recorded device's driver doesn't take, or
    whose effect isn't known. What an unknown driver takes isn't known, so they are all a card's timer."""
    driver = driver_in(head, device)
    if not driver:
        return [{"rx-nsecs": 1000 * usecs} for usecs in choices]
    taken = [usecs for usecs in choices if driver.accepts(usecs)]
    if driver.coalescing == GAP:
        return [{"rx-gap": max(least_of(head, device), driver.gap_of(usecs))} for usecs in taken]
    return [{"rx-nsecs": 1000 * usecs} for usecs in taken] if driver.coalescing == TIMER else []


def notes_on(head: Head, device: str) -> Iterator[str]:
    """Yields what isn't known of a recorded device's driver, and which of its settings aren't modelled."""
    name, driver, usecs = name_in(head, device), driver_in(head, device), usecs_in(head, device)
    if not driver:
        if name:
            yield f"the driver {name} is unknown: when its card interrupts, and which rx-usecs it takes"
        if name in HEEDLESS:
            yield f"{name} unmasks whatever napi_complete_done returns, so deferral saves no interrupt"
        return
    if usecs in driver.modes:
        yield f"rx-usecs {usecs} of {name} is a mode, in which the driver chooses the time between interrupts itself"
    elif usecs and driver.coalescing == UNKNOWN:
        yield f"what rx-usecs of {name} sets isn't known"
    if least := least_of(head, device):
        yield f"the card keeps at least {least / 1000:.1f} us between interrupts, so a lower rx-usecs changes nothing"
    if latched_in(head, device) is None:
        yield f"whether a cause of {name}'s card outlives its packet isn't known"
