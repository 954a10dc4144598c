"""The guests of tests/cards.sh, with the settings that are tried in each."""

from collections.abc import Mapping, Sequence
from dataclasses import dataclass, field, replace
from typing import Any

from emulation import Guest, Setting

NO_LIMIT = 65536  # packets of a ring or a socket's buffer, which holds all
# For a setting and a value: by how much it may differ, in %, and the reason.
Exceptions = Mapping[tuple[str, str], tuple[int, str]]


def because(reason: str, limits: Mapping[str, Mapping[str, int]]) -> dict[tuple[str, str], tuple[int, str]]:
    """Returns exceptions that have one reason, by setting and value."""
    return {(setting, name): (most, reason) for setting, of in limits.items() for name, most in of.items()}


@dataclass(frozen=True)
class Card:
    """A guest, the setting that is recorded for costs and arrivals, and those that are predicted from it."""

    name: str
    guest: Guest
    base: Setting
    cases: tuple[Setting, ...]
    timers: str = ""  # the setting whose recording has the costs of timers
    costs_of: str = ""  # the card whose recordings have all costs, if these haven't
    least_gap: int = 0  # ns that QEMU's card keeps between interrupts
    held: int = 0  # so many packets QEMU's card holds back if its ring is full
    exceptions: Exceptions = field(default_factory=dict)

    @property
    def settings(self) -> tuple[Setting, ...]:
        return self.base, *self.cases

    def setting(self, name: str) -> Setting:
        return next(each for each in self.settings if each.name == name)


def name_of(changes: Mapping[str, Any]) -> str:
    """Returns the name of a setting by what it changes."""
    names = {"usecs": "gap {} us", "ring": "ring of {}", "threaded": "threaded", "budget": "budget {}", "weight": "dev_weight {}"}
    return ", ".join(f"deferral {value[0]} x {value[1] // 1000} us" if name == "deferral" else names[name].format(value)
                     for name, value in changes.items())


def cases_of(base: Setting, *changes: Mapping[str, Any]) -> tuple[Setting, ...]:
    """Returns settings that differ from a base by these changes."""
    return tuple(replace(base, name=name_of(each), **each) for each in changes)


CLOSE = "a few µs decide whether a packet or the second timer of 100 µs is first"
LATER = "a delivery is measured when its poll starts the timer, up to 1 µs later"
DELAYED = "the timer's polls delay nearly half of the packets, so the median is where the waits jump"
SLOW = "the time in which virtio_net's interrupts are early is known to 1 µs, and hundreds of interrupts depend on it"
THREAD = "waking NAPI's thread takes 4.1 µs, which is no cost of the machine"
LAZY, LAZIER, LASTING = {"deferral": (2, 100_000)}, {"deferral": (2, 500_000)}, {"deferral": (10, 50_000)}
THREADED = {"threaded": 1}
TIMERS = name_of(LAZIER)  # whose recording has the costs of timers
LEAST = 500 * 256  # ns between interrupts of QEMU's e1000
# While its ring is full it holds packets back. When the driver has filled 16 entries again, it takes as many as fit, and drops the others.
HELD = 15
E1000, VMXNET3 = Guest("e1000", "e1000-82545em"), Guest("vmxnet3", "vmxnet3")
GAP, RING, BASE = Setting("base", usecs=0), Setting("base", ring=512), Setting("base")
CARDS = (
    Card("e1000", E1000, GAP, cases_of(GAP, {"usecs": 250}, {"usecs": 500}, LAZY, LAZIER, {"usecs": 250, **LAZY}, THREADED), TIMERS,
         least_gap=LEAST, held=HELD,
         exceptions=because(CLOSE, {name: {"interrupts": 8, "polls": 4} for name in ("deferral 2 x 100 us", "gap 250 us, deferral 2 x 100 us")})),
    Card("vmxnet3", VMXNET3, RING, cases_of(RING, {"ring": 32}, LAZY, LAZIER, {"ring": 64}, LASTING, THREADED), TIMERS,
         exceptions=because(THREAD, {"threaded": {"delivered_p50": 30, "used_p50": 34}}) | because(LATER, {
             "deferral 2 x 100 us": {"delivered_p50": 10}, "deferral 2 x 500 us": {"delivered_p50": 10}}) | because(DELAYED, {
                 "deferral 2 x 100 us": {"used_p50": 16}, "deferral 2 x 500 us": {"used_p50": 10},
                 "deferral 10 x 50 us": {"polls": 3, "delivered_p50": 22, "used_p50": 10}})),
)

EDGE = "half of the packets that the ring holds come one by one, so the median is where the waits jump"
AGAIN = "a packet that was held back comes during the poll, so the card interrupts once more"
OLD = "up to Linux 6.4 ksoftirqd runs a softirq that is raised while the program waits for the processor"
UNEXPLAINED = "not explained: up to 2.3 % more interrupts than any rule here gives"
# Several cards on one processor, which polls them under a budget; bursts of more packets than a ring holds; other versions of Linux.
SPARSE = Setting("base", every=20_000)
OF_SIX = cases_of(SPARSE, *({"budget": budget} for budget in (200, 100, 64, 20)), {"weight": 16})
FULL = Setting("base", burst=118, ring=512, share=50)
BURSTS = Card("vmxnet3-bursts", VMXNET3, FULL, cases_of(FULL, *({"ring": ring} for ring in (32, 64, 128, 256)), {"budget": 20}),
              costs_of="vmxnet3", exceptions=because(EDGE, {"ring of 32": {"used_p50": 25}}))
LESS = replace(FULL, ring=256)
OF_E1000 = "gap 250 us", "deferral 2 x 100 us", "deferral 2 x 500 us", "threaded"
OF_VMXNET3 = "ring of 32", "deferral 2 x 100 us", "deferral 2 x 500 us", "threaded"


def on_linux(linux: str, card: Card, names: Sequence[str], exceptions: Exceptions) -> Card:
    """Returns a card on another version of Linux, with some of its settings and more exceptions."""
    version = linux.replace(".", "-")
    return replace(card, name=f"{card.name}-{version}", guest=replace(card.guest, linux=linux), cases=tuple(map(card.setting, names)),
                   costs_of=card.costs_of and f"{card.costs_of}-{version}", exceptions={**card.exceptions, **exceptions})


OF_OLD = because(OLD, {"base": {"used_p50": 90}, "budget 20": {"used_p50": 90}})
MORE = because(UNEXPLAINED, {name: {"interrupts": 4, "polls": 4} for name in ("base", "threaded")})
WATCH = "every 2 s e1000_watchdog raises an interrupt of each card, which finds no packet"
OF_WATCH = because(WATCH, {setting.name: {"interrupts": 8, "polls": 7, "runs": 24} for setting in (SPARSE, *OF_SIX)})
VIRTIO = Card("virtio", Guest("virtio_net", "virtio-net-pci"), BASE, cases_of(BASE, LAZY, LAZIER, LASTING, THREADED), TIMERS,
              held=NO_LIMIT, exceptions=because(THREAD, {"threaded": {"interrupts": 4, "delivered_p50": 26, "used_p50": 20}}) | because(SLOW, {
                  "deferral 2 x 100 us": {"interrupts": 12, "polls": 4},
                  "deferral 2 x 500 us": {"interrupts": 15},
                  "deferral 10 x 50 us": {"interrupts": 12, "polls": 4}}))
OTHERS = (
    Card("six-vmxnet3", replace(VMXNET3, cards=6), SPARSE, OF_SIX, costs_of="vmxnet3"),
    Card("six-e1000", replace(E1000, cards=6), SPARSE, OF_SIX, costs_of="e1000", least_gap=LEAST, held=HELD, exceptions=OF_WATCH),
    BURSTS,
    Card("e1000-bursts", E1000, LESS, cases_of(LESS, *({"ring": ring} for ring in (80, 128, 96, 160))), costs_of="e1000", least_gap=LEAST,
         held=HELD, exceptions=because(AGAIN, {f"ring of {ring}": {"interrupts": 3, "polls": 3} for ring in (80, 128, 96, 160)})),
    on_linux("6.1", CARDS[0], OF_E1000, MORE),
    on_linux("6.1", CARDS[1], OF_VMXNET3, {}),
    on_linux("6.1", BURSTS, ["budget 20"], OF_OLD),
    on_linux("7.3", CARDS[1], OF_VMXNET3, {}),
    on_linux("7.3", CARDS[0], OF_E1000, MORE),
    on_linux("7.3", BURSTS, ["budget 20"], {}),
    VIRTIO,
)
