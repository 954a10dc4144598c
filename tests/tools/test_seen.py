"""Tests of what tests/cards.sh reads from a recording of an emulated card: events and arrivals with known times."""

import sys

from tooltest import TOP, InFolder

sys.path.append(str(TOP / "tests/cards"))
import emulation  # noqa: E402
import seen  # noqa: E402

AHEAD = 5_000_000  # ns by which the card's clock is ahead of the recording's
SOFTIRQ, READ, READS = "softirq_{}: vec=3 [action=NET_RX]", "sys_recvfrom -> 0x64", "sys_recvfrom(fd: 3, ubuf: 0, size: 200)"
IRQ, POLL = "irq_handler_entry: irq=26 name=eth0", "napi_poll: napi poll on napi struct 0 for device eth0 work {} budget 64"
# A poll of one packet that arrives at 1000 us, and one of two that arrive at 2000 and 2002 us, with their reads.
EVENTS = (
    (1001, IRQ), (1002, "irq_handler_exit: irq=26 ret=handled"), (1003, SOFTIRQ.format("entry")), (1010, POLL.format(1)), (1011, SOFTIRQ.format("exit")),
    (1015, READ), (1018, READS),
    (2001, IRQ), (2002, "irq_handler_exit: irq=26 ret=handled"), (2003, SOFTIRQ.format("entry")), (2023, POLL.format(2)), (2024, SOFTIRQ.format("exit")),
    (2030, READ), (2033, READS), (2034, READ), (2040, READS),
)


class Seen(InFolder):
    def read(self, *arrivals: tuple[int, int], cards: int = 1, events: tuple[tuple[int, str], ...] = EVENTS) -> seen.Seen:
        """Reads a recording with these packets, each with its time in us and its number; packets 1 to 3 were read."""
        self.write("base.rec", f"fintaqush-recording 1\nlines {len(events)}\ntrace\n" + "".join(
            f"receiver-60 [000] ..s1. {time // 10**6}.{time % 10**6:06}000: {said}\n" for time, said in events))
        self.write("base.read", "1,1015000\n2,2030000\n3,2034000\n")
        self.write("base.stamps", "".join(f"{AHEAD + at},{at + 10},{AHEAD + at + 20}\n" for at in (0, 100, 200, 9_000_000, 9_000_100, 9_000_200)))
        frames = [(AHEAD + 1000 * time, number) for time, number in arrivals]
        return seen.Seen(self.folder, emulation.Setting("base"), frames, cards)

    def test_what_is_measured(self) -> None:
        """The packets wait 10, 19 and 21 us to their delivery, because a packet takes 4 us, and 18, 33 and 38 us to the end of their use; a
        fourth isn't read, because the ring is full."""
        measured = self.read((1000, 1), (2000, 2), (2002, 3), (2003, 4)).measured(4000)
        wanted = {"sent": 4, "dropped": 1, "polls": 2, "runs": 2, "interrupts": 2, "delivered_p50": 19_000, "delivered_p99": 21_000}
        wanted |= {"used_p50": 33_000, "used_p99": 38_000}
        self.assertEqual({name: measured.get(name) for name in wanted}, wanted)

    def test_packets_of_another_setting(self) -> None:
        """What came before the first stamp or after the last one belongs to other recordings."""
        measured = self.read((-1000, 9), (1000, 1), (2000, 2), (2002, 3), (9001, 9)).measured(4000)
        self.assertEqual((measured["sent"], measured["dropped"]), (3, 0))

    def test_several_cards(self) -> None:
        """Each card gets each packet, and the polls of all count; of their waits nothing is known."""
        another = tuple((time, said.replace("eth0", "eth1")) for time, said in EVENTS if said.startswith("napi_poll"))
        found = self.read((1000, 1), (2000, 2), (2002, 3), cards=2, events=tuple(sorted(EVENTS + another)))
        self.assertEqual(found.measured(4000), {"sent": 6, "polls": 4, "runs": 2, "squeezed": 0, "timers": 0, "interrupts": 2})
        rows = [row.split(",")[:2] for row in found.arrivals().splitlines()[1:]]
        self.assertEqual(rows, [[time, device] for time in ("0", "1000000", "1002000") for device in ("1", "2")])

    def test_an_interrupt_of_another_card_on_the_line(self) -> None:
        """The handlers of all cards on a line are called; that of a card without a cause says so."""
        shared = (900, IRQ), (901, "irq_handler_exit: irq=26 ret=unhandled")
        self.assertEqual(self.read((1000, 1), (2000, 2), (2002, 3), events=shared + EVENTS).interrupts, 2)

    def test_what_chance_leaves_open(self) -> None:
        """Of 100 waits the rank of the median has a deviation of 5, so it is 9.8 to each side: from the 41st wait to the 60th."""
        self.assertEqual(seen.known_median(range(100)), (40, 59))
        self.assertEqual([seen.known_median(each) for each in ([7], [1, 5])], [(7, 7), (1, 5)])
