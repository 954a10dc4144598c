"""Tests of the table of drivers. What each driver accepts is tested as its `ethtool -C` tests it in Linux."""

import re
import unittest
from typing import Optional
from unittest import mock

import tooltest

from fintaqush_tools import advice, drivers, observed
from fintaqush_tools.commands.advise import named
from fintaqush_tools.drivers import DRIVERS, GAP
from fintaqush_tools.recording import Head

LAST_MODE = {"e1000": 4, "e1000e": 4, "igb": 3, "igc": 3}
USECS = (*range(20), 250, 1022, 1023, 1024, 9999, 10000, 10001)


def head_of(driver: str, usecs: int = 0, more: Optional[dict[str, str]] = None) -> Head:
    own = {"driver": driver, "ethtool.coalesce.rx-usecs": str(usecs), "ethtool.coalesce.rx-frames": "7", **(more or {})}
    return {"sysctl.net.core.gro_normal_batch": "8", **{f"device.eth0.{key}": value for key, value in own.items()}}


def is_taken_by_linux(driver: str, usecs: int) -> bool:
    """The conditions of igb_set_coalesce, e1000_set_coalesce and so on, with their bounds."""
    if driver in LAST_MODE:
        return not (usecs > 10000 or LAST_MODE[driver] < usecs < 10 or usecs == 2)
    if driver == "ixgbe":
        return usecs <= 0xFF8 >> 2
    if driver == "vmxnet3":
        return usecs == 0 or 100 <= 1000000 // usecs <= 100000
    return 1 <= usecs <= 0x3FF if driver == "tg3" else usecs == 0


class Drivers(unittest.TestCase):
    def options(self, head: Head, *names: str) -> tuple[int, ...]:
        options = drivers.options_of(head, "eth0")
        return tuple(options[name] for name in names)

    def test_what_a_driver_accepts_is_what_linux_accepts_without_the_modes(self) -> None:
        for name, driver in DRIVERS.items():
            for usecs in USECS if name != "be2net" else ():  # it accepts any value, and takes the nearest in its range
                with self.subTest(driver=name, usecs=usecs):
                    is_kept = is_taken_by_linux(name, usecs) and usecs not in driver.modes
                    self.assertEqual(driver.accepts(usecs), is_kept)

    def test_a_gap_is_what_the_driver_writes(self) -> None:
        """e1000 writes 1000000000 / (1000000 / usecs * 256) in units of 256 ns, igb the microseconds."""
        gaps = {("e1000", 250): 976 * 256, ("e1000", 500): 1953 * 256, ("e1000e", 10): 39 * 256, ("e1000", 0): 0}
        gaps |= {("igb", 25): 25000, ("ixgbe", 1022): 1022000, ("igb", 3): 0, ("e1000", 4): 0, ("virtio_net", 50): 0}
        for (name, usecs), gap in gaps.items():
            self.assertEqual(DRIVERS[name].gap_of(usecs), gap, (name, usecs))

    def test_each_row_has_its_sources(self) -> None:
        rows = (tooltest.TOP / "tests/cards/sources.txt").read_text()
        for name, driver in DRIVERS.items():
            facts = set(re.findall(rf"^{name}: (.+?): \S+:\d+: .", rows, re.M))
            wanted = {"gro", "heedless"} | ({"rx-usecs"} if driver.coalescing == GAP else set())
            wanted |= {"modes"} if driver.modes else set()
            wanted |= {"takes"} if driver.takes else set()
            wanted |= {"spare"} if driver.spare else set()
            wanted |= {"early"} if driver.early else set()
            if name != "vmxnet3":  # whose card decides it
                wanted |= {"latched"} if driver.latched is not None else set()
                wanted |= {"latched, MSI-X"} if driver.latched_msix not in (None, driver.latched) else set()
            self.assertLessEqual(wanted - ({"heedless"} if name == "veth" else set()), facts, name)
        self.assertEqual({*re.findall(r"^(\w+): heedless: .*: napi_complete_done", rows, re.M)},
                         {*drivers.HEEDLESS, *(name for name, driver in DRIVERS.items() if driver.heedless)})  # fmt: skip

    def test_options_of_a_card(self) -> None:
        names = ("rx-gap", "rx-nsecs", "rx-frames", "latched", "gro-batch", "heedless", "early")
        self.assertEqual(self.options(head_of("e1000", 250), *names), (249856, 0, 0, 2, 8, 0, 0))
        self.assertEqual(self.options(head_of("igb", 50, {"irq.26.name": "eth0-TxRx-0"}), *names), (50000, 0, 0, 1, 8, 0, 0))
        self.assertEqual(self.options(head_of("virtio_net", 50), *names), (0, 50000, 7, 0, 8, 0, 1500))
        with_lro = {"ethtool.feature.large-receive-offload": "on", "irq.26.name": "eth0-rxtx-0"}
        self.assertEqual(self.options(head_of("vmxnet3", 0, with_lro), *names), (0, 0, 0, 1, 0, 1, 0))
        self.assertEqual(self.options(head_of("e1000e", 3), "rx-gap", "rx-nsecs"), (0, 0))

    def test_a_card_that_keeps_a_longer_time(self) -> None:
        """QEMU's e1000 keeps 128 us between interrupts. A driver whose rx-usecs is no such time has none. With 3 the driver chooses the time."""
        mode = head_of("e1000", 3, {drivers.LEAST: "128000"})
        self.assertEqual((self.options(mode, "rx-gap"), drivers.coalescing_of(mode, "eth0", (0,))), ((128_000,), [{"rx-gap": 0}]))
        self.assertTrue(drivers.is_least_open(mode, "eth0"))
        for usecs, gap in ((0, 128_000), (100, 128_000), (250, 249_856)):
            head = head_of("e1000", usecs, {drivers.LEAST: "128000"})
            self.assertEqual(self.options(head, "rx-gap"), (gap,))
        gaps = [each["rx-gap"] for each in drivers.coalescing_of(head, "eth0", (0, 100, 250))]
        self.assertEqual(gaps, [128_000, 128_000, 249_856])
        self.assertEqual([*drivers.notes_on(head, "eth0")], ["the card keeps at least 128.0 us between interrupts, so a lower rx-usecs changes nothing"])
        self.assertEqual((drivers.is_least_open(head, "eth0"), drivers.is_least_open(head_of("e1000"), "eth0")), (False, True))
        other = head_of("virtio_net", 50, {drivers.LEAST: "128000"})
        self.assertEqual((self.options(other, "rx-gap"), drivers.is_least_open(other, "eth0")), ((0,), False))

    def test_a_mode_is_called_by_its_rx_usecs(self) -> None:
        """With rx-usecs 3 the driver chose 128 us; what 250 sets is called so."""
        machine = advice.Machine(head_of("e1000", 3, {drivers.LEAST: "128000"}), "eth0", 0)
        self.assertEqual([machine.usecs_in({"rx-gap": gap}, "rx-gap") for gap in (128_000, 0, 249_856)], [3, 0, 250])

    def test_an_interrupt_for_each_queue_is_msix(self) -> None:
        self.assertEqual(self.options(head_of("e1000e", 0, {"irq.26.name": "eth0-rx-0"}), "latched"), (1,))
        self.assertEqual(self.options(head_of("e1000e", 0, {"irq.26.name": "eth0"}), "latched"), (2,))

    def test_the_batch_is_that_of_the_recorded_machine(self) -> None:
        for batch, wanted in (("1", 1), ("64", 64), ("200", 64), ("", 8)):
            head = {**head_of("e1000"), "sysctl.net.core.gro_normal_batch": batch}
            self.assertEqual(self.options(head, "gro-batch"), (wanted,))

    def test_a_ring_holds_fewer_packets_than_entries(self) -> None:
        """ethtool counts entries; igb keeps one of them free, a driver that isn't known none."""
        sizes = {"ethtool.ring.rx": "256", "ethtool.ring.most.rx": "600"}
        for driver, spare in (("igb", 1), ("qlcnic", 0)):
            head = head_of(driver, 0, sizes)
            now = advice.options_of(head, "eth0", 0)
            self.assertEqual(advice.rings_of(head, "eth0", now), [256 - spare, 512 - spare, 600 - spare])
            machine = advice.Machine(head, "eth0", 0)
            changes = machine.changes({**now, "ring": 512 - spare}, now)
            self.assertEqual([machine.line_of(each) for each in changes], ["ethtool -G eth0 rx 512"])
            self.assertIn("ring 512", named({"ring": 512 - spare}, ["ring"], machine))

    def test_an_unknown_driver_has_no_options_but_that_it_is_heedless(self) -> None:
        wanted: dict[str, dict[str, int]] = {"qlcnic": {}, "cxgb4": {"heedless": 1}}
        for name, own in wanted.items():
            self.assertEqual(drivers.options_of(head_of(name, 20), "eth0"), own)
            options = dict(advice.options_of(head_of(name, 20), "eth0", 0))
            self.assertLessEqual({"rx-nsecs": 20_000, **own}.items(), options.items())
        self.assertEqual(drivers.options_of({}, "eth0"), {})

    def test_what_is_not_known_is_said(self) -> None:
        for driver, usecs, said in (
            ("qlcnic", 0, "the driver qlcnic is unknown: when its card interrupts, and which rx-usecs it takes"),
            ("cxgb4", 0, "cxgb4 unmasks whatever napi_complete_done returns, so deferral saves no interrupt"),
            ("e1000e", 3, "rx-usecs 3 of e1000e is a mode, in which the driver chooses the time between interrupts itself"),
            ("vmxnet3", 20, "what rx-usecs of vmxnet3 sets isn't known"),
            ("mana", 0, "whether a cause of mana's card outlives its packet isn't known"),
            ("igb", 50, "whether a cause of igb's card outlives its packet isn't known"),  # without MSI-X
        ):
            self.assertIn(said, list(drivers.notes_on(head_of(driver, usecs), "eth0")))
        for head in (head_of("veth"), head_of("e1000", 20), head_of("igb", 0, {"irq.26.name": "eth0-TxRx-0"})):
            self.assertEqual(list(drivers.notes_on(head, "eth0")), [])
        self.assertEqual(list(drivers.notes_on({}, "eth0")), [])

    def test_the_driver_is_recorded(self) -> None:
        told = "driver: e1000e\nversion: 6.12.117\nfirmware-version: 3.2-0\n"
        with mock.patch.object(observed, "output_of", lambda command: told if "-i" in command else ""):
            head = {f"device.eth0.{key}": value for key, value in observed.driver_of("eth0", "")}
        self.assertEqual(drivers.name_in(head, "eth0"), "e1000e")

    def test_a_version_may_follow_the_name(self) -> None:
        self.assertEqual(drivers.driver_in({"device.eth0.driver": "igb 6.12.117-amd64"}, "eth0"), DRIVERS["igb"])
