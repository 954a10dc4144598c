"""Tests of the band in which a measured value is nine times of ten, on the recordings that tests/live and tests/cards keep; and of which setting is
chosen, and which processor polls which packets in it."""

from __future__ import annotations

import sys
import unittest
import unittest.mock
from array import array
from collections import Counter, defaultdict
from collections.abc import Callable, Iterator, Mapping, Sequence
from typing import Any

from tooltest import HAS_MACHINE, MACHINE, TOP

sys.path += [str(TOP / "tests/live"), str(TOP / "tests/cards")]
import cards
import judging
import live
import rig
import tried

from fintaqush_tools import advice, bands, choosing, parts, predicting
from fintaqush_tools.bands import Doubt
from fintaqush_tools.choosing import numeric, settings_of
from fintaqush_tools.layout import Layout
from fintaqush_tools.machine import OPTIONS, values_of
from fintaqush_tools.options import Words
from fintaqush_tools.receiving import Receiving

Values = Mapping[str, Any]
Predict = Callable[[Mapping[str, int], Any], Values]  # with these costs, for that setting
Case = tuple[Mapping[str, int], Predict, Any, Values, Any, list[Values]]  # costs, .., recorded setting, what it measured, another one, its values


def middle_wait(values: Values) -> float:
    return float(values.get("used_p50", 0))


def of_veth() -> Iterator[Case]:
    """Yields the settings on veth pairs. Each is predicted from the recording of its group that has the middle wait. The waits to delivery that
    are kept end with the poll, not with the packet's delivery in it, so they aren't compared."""
    for place, group in enumerate(live.GROUPS):
        kept = judging.read_kept(live.HERE / f"kept/{place + 1}")
        for values in (each for some in kept["measured"].values() for each in some):
            for name in [name for name in values if name.startswith("delivered")]:
                del values[name]

        def predict(costs: Mapping[str, int], setting: Any, arrivals: str = kept["arrivals"]) -> Values:
            return predicting.predicted(MACHINE, arrivals, settings_of(costs, live.options_of(setting)))

        own = sorted(kept["measured"][group.base.name], key=middle_wait)[1]
        for case in group.cases:
            yield kept["costs"], predict, group.base, own, case.setting, kept["measured"][case.setting.name]


def of_cards() -> Iterator[Case]:
    """Yields the settings on emulated cards. The costs of timers are from another recording, so they aren't used."""
    for card in tried.CARDS:
        kept = judging.read_kept(cards.KEPT / card.name)
        costs = {name: cost for name, cost in kept["costs"].items() if not name.startswith("timer")}

        def predict(costs: Mapping[str, int], setting: Any, card: Any = card, kept: Any = kept) -> Values:
            timer = bands.timer_of(costs)
            options = cards.options_of(card, setting, {**kept, "costs": {**costs, "timer": timer}})
            return {name: numeric(value) for name, value in values_of(cards.by_model(options, kept["arrivals"])).items()}

        for setting in card.cases:
            yield costs, predict, card.base, kept["measured"][card.base.name], setting, [kept["measured"][setting.name]]


def timeout_of(setting: Any) -> int:
    return int(setting.gro_flush_timeout if isinstance(setting, rig.Setting) else setting.deferral[1])


def within(case: Case, is_fixed: bool = False) -> Iterator[bool]:
    """Yields for each measured value whether it is in its band, or between the predictions with costs 20 % lower and higher."""
    costs, predict, base, own, setting, measured = case
    higher = predict(bands.with_costs(costs, 120), base)
    doubt = Doubt(costs, predicting.compared(own, predict(costs, base)), higher)
    sides = [bands.with_costs(costs, percent) for percent in (80, 120)] if is_fixed else [side for _, side in doubt.sides]
    values, others = predict(costs, setting), [predict(side, setting) for side in sides]
    for each in measured:
        for name, value, *_ in predicting.compared(each, values):
            known = [values[name], *(other[name] for other in others)]
            low, high = (min(known), max(known)) if is_fixed else doubt.band(name, known[0], known[1:], timeout_of(setting))
            yield low <= value <= high


class Bands(unittest.TestCase):
    def share(self, cases: Iterator[Case], least: int, is_fixed: bool = False) -> float:
        found = [each for case in cases for each in within(case, is_fixed)]
        self.assertGreaterEqual(len(found), least)
        return sum(found) / len(found)

    @HAS_MACHINE
    def test_the_share_of_measured_values(self) -> None:
        """Nine of ten are within, predicted from one recording; between costs 20 % lower and higher there are fewer, so the check can fail."""
        self.assertGreaterEqual(self.share(of_veth(), 50), 0.9)
        self.assertLess(self.share(of_veth(), 50, is_fixed=True), 0.9)
        self.assertGreaterEqual(self.share(of_cards(), 80), 0.9)

    def test_the_doubt_of_costs(self) -> None:
        """Twice the change of costs that the error of a median takes, of the one that is missed most, within 15 and 50 %. If costs 20 % higher add
        4 %, as to a wait for a timer, an error of 3 % takes 15 %."""
        def doubt(*errors: float, more: float = 20) -> int:
            names = [f"{end}_p50" for end, _ in zip(("used", "delivered"), errors)]
            rows = [(name, 1000 + 10 * error, 1000, 0) for name, error in zip(names, errors)]
            return bands.doubt_of(rows, dict.fromkeys(names, 1000 + 10 * more))

        self.assertEqual([doubt(13), doubt(-13), doubt(2, -13), doubt(1), doubt(80), doubt()], [26, 26, 26, 15, 50, 20])
        self.assertEqual([doubt(3, more=4), doubt(-13, more=0), doubt(-13, more=-2)], [30, 26, 26])

    def test_other_costs(self) -> None:
        """A cost's interval counts if it is wider; a timer that wasn't recorded may cost more than an interrupt by 5 us."""
        doubt = Doubt({"interrupt": 1000, "poll": 2000, "packet": 500}, [], {}, {"poll": (100, 2100), "packet": (450, 900)})
        self.assertEqual(doubt.sides, [("costs 20 % lower", {"interrupt": 800, "poll": 100, "packet": 400}),
                                       ("costs 20 % higher", {"interrupt": 1200, "poll": 2400, "packet": 900, "timer": 6000})])
        known = Doubt({"interrupt": 1000, "timer": 3000}, [], {})
        self.assertEqual([side["timer"] for _, side in known.sides], [2400, 3600])

    def test_polls_of_one_packet(self) -> None:
        """Only what a poll and a packet cost together is known, each with the half of it: all of it may be the poll's, or the packet's."""
        sides = Doubt({"poll": 2000, "packet": 2000}, [], {}, {}).sides
        self.assertEqual(sides[2:], [("packets that cost nothing", {"poll": 4000, "packet": 0}), ("polls that cost nothing", {"poll": 0, "packet": 4000})])

    def test_what_the_recorded_setting_was_missed_by(self) -> None:
        """Times by twice the difference, counts by twice the ratio, few packets by the difference; 3 % at both ends, 23 % of the polls' share."""
        doubt = Doubt({}, [("used_p99", 58_000, 15_000, 0), ("polls", 480, 500, 0), ("dropped", 7, 2, 0), ("poll_percent", 6, 5, 0)], {})
        for name, value, moved in (("used_p99", 113_000, 199_000), ("polls", 1000, 920), ("lost", 1, 11), ("runs", 9, 9), ("kernel_percent", 10, 14)):
            self.assertAlmostEqual(doubt.moved(name, value), moved)
        self.assertEqual([round(end, 6) for end in doubt.band("polls", 1000, [990, 1010])], [892.4, 1040.3])
        self.assertEqual(doubt.band("dropped", 0, [0, 0]), (0, 10.3))
        for name in ("poll_percent", "kernel_percent"):
            self.assertEqual([round(end, 6) for end in doubt.band(name, 10, [10])], [7.7, 17.22])

    def test_what_varies_between_the_parts(self) -> None:
        """Ten parts of 9 and 11 by turns have a mean of 10 and a deviation of 1.054: one more part is within 1.83 * sqrt(1.1) of these, which is 20.2 %. Both
        ends of a band are further by that instead of 3 %, but at most by half."""
        noises = parts.noises_of([{"used_p50": each, "packets_per_poll": 5, "dropped_percent": 0} for each in (9, 11) * 5])
        self.assertEqual({name: round(noise, 3) for name, noise in noises.items()},
                         {"used_p50": 0.202, "packets_per_poll": 0, "dropped_percent": 0, "polls": 0, "runs": 0, "interrupts": 0, "dropped": 0})
        self.assertEqual(parts.noises_of([]), {})
        # Two recordings of 9 and 12 differ by 3, of which their mean is 10.5; of 10 and 11 by less than the parts do.
        for two, noise in (((9, 12), 0.286), ((10, 11), 0.202)):
            found = parts.noises_of([{"used_p50": each} for each in (9, 11) * 5], [{"used_p50": each} for each in two])
            self.assertEqual(round(found["used_p50"], 3), noise)
        seen = Receiving({"vb1"}, {"va1"})
        for time, has_come in ((0, 1), (10, 0), (20, 1), (30, 1), (40, 1)):
            seen.append_packet(time, bool(has_come), 0, "va1", None)
        self.assertEqual(parts.two_of(seen, {}), [])
        seen.cut(20)
        self.assertEqual([each["dropped_percent"] for each in parts.two_of(seen, {})], [50, 0])
        for noise, ends in ((0.2, (80, 120)), (0.01, (97, 103)), (7, (50, 150))):
            doubt = Doubt({"timer": 1}, [], {}, noises={"used_p50": noise, "poll_percent": noise})
            self.assertEqual([round(end, 6) for end in doubt.band("used_p50", 100, [])], [ends[0], ends[1]])
            self.assertEqual([round(end, 6) for end in doubt.band("kernel_percent", 100, [])], [ends[0] - 20, ends[1] + 20])
            self.assertEqual([round(end, 6) for end in doubt.band("polls", 100, [])], [97, 103])

    def test_a_timer_that_was_not_recorded(self) -> None:
        """A packet that waits for it may be delivered 30 us later, and polls every 60 us may come every 90 us; and 3 % more."""
        doubt, known = Doubt({"poll": 1}, [], {}), Doubt({"timer": 1}, [], {})
        for of, timeout, waits, polls in ((known, 60_000, 113.3, 87.3), (doubt, 0, 113.3, 87.3), (doubt, 60_000, 144.2, 58.2)):
            self.assertAlmostEqual(of.band("used_p50", 100_000, [90_000, 110_000], timeout)[1], 1000 * waits)
            self.assertAlmostEqual(of.band("polls", 100, [90, 110], timeout)[0], polls)
        self.assertEqual(doubt.band("dropped", 100, [100], 60_000), (97, 103))

    def test_what_a_recording_cannot_show(self) -> None:
        """An arrival may be off; one in a hundred packets may be 30 us later; another processor for the program may double the costs."""
        doubt = Doubt({"packet": 1000, "timer": 1}, [], {}, arrivals=50_000, apart=0)
        for name, low, high in (("delivered_p50", 48_500, 154_500), ("used_p99", 48_500, 185_400), ("polls", 97_000, 103_000)):
            self.assertEqual([round(end) for end in doubt.band(name, 100_000, [])], [low, high])
        self.assertEqual([[costs["packet"] for costs in doubt.sides_of({"apart": apart})] for apart in (0, 1)], [[800, 1200], [800, 1200, 2000]])


class Layouts(unittest.TestCase):
    """Which processor polls which packets, of two instances."""

    A, B = ("eth0", "a0"), ("eth0", "a1")

    def layout(self, flows: Sequence[int], more: int = 10) -> Layout:
        """Returns a layout in which processor 1 polls 90 packets of the first instance, and processor 3 some of the second."""
        layout = Layout.__new__(Layout)
        layout.processors, layout.numbers = [1, 3], {(self.A, 1): 1, (self.B, 3): 2}
        layout.devices = [1] * 90 + [2] * more
        layout.packets = Counter(layout.devices)
        layout.on = defaultdict(Counter, {self.A: Counter({1: 90}), self.B: Counter({3: more})})
        layout.seen = Receiving({"eth0"}, set(), {"eth0"})
        layout.seen.flows = array("L", flows)
        return layout

    def test_hashes_spread_equally(self) -> None:
        """The low 7 bits of the hash choose one of 128 entries, which name the queues in turn."""
        spread = self.layout(range(1, 101)).spread([self.A, self.B])
        self.assertEqual((spread[:4], Counter(spread)), ([2, 1, 2, 1], {1: 50, 2: 50}))
        self.assertEqual(self.layout([131] * 50 + [2] * 50).spread([self.A, self.B]), [2] * 50 + [1] * 50)

    def test_what_spreads_nothing(self) -> None:
        """One flow; a packet without a hash; shares that are even."""
        for layout in (self.layout([4] * 100), self.layout([0, *range(2, 101)]), self.layout([]), self.layout(range(1, 181), more=90)):
            self.assertEqual(layout.spread([self.A, self.B]), [])

    def test_instances_on_other_processors(self) -> None:
        """An idle processor helps only if there are more instances than processors that poll."""
        self.assertEqual(self.layout([]).moved([7]), {})
        both = self.layout([], more=90)
        both.processors, both.numbers = [1], {(self.A, 1): 1, (self.B, 1): 2}
        both.on[self.B] = Counter({1: 90})
        self.assertEqual((both.moved([7]), both.moved([])), ({self.A: 1, self.B: 7}, {}))
        self.assertEqual(both.numbers_on({self.A: 1, self.B: 7}), {1: 1, 2: 2})
        self.assertEqual(both.numbers_on({self.A: 7, self.B: 7}), {1: 1, 2: 2})


class MadeUp(choosing.Predictions):
    """Predictions that are given: of each setting its values, by its name, and these with other costs."""

    names: dict[tuple[int, ...], str]

    def __init__(self, goal: str, *settings: tuple[Any, ...]) -> None:
        self.settings = {name: values for name, values, *_ in settings}
        self.others = {name: more[0] if more else (values, values) for name, values, *more in settings}
        self.goal = goal

    def values(self, value: float) -> choosing.Values:
        zero = {"kernel_percent": 1, "used_p99": 1000, "used_p50": 1000, "lost": 0}
        return {**zero, {"p99": "used_p99", "p50": "used_p50", "cpu": "kernel_percent", "drops": "lost"}[self.goal]: value}

    def of_all(self, tried: Sequence[choosing.Options]) -> list[choosing.Values]:
        return [self.values(self.settings[self.name(options)]) for options in tried]

    def sides_of(self, options: choosing.Options) -> list[choosing.Values]:
        return [self.values(value) for value in self.others[self.name(options)]]

    def name(self, options: choosing.Options) -> str:
        return self.names[tuple(options.values())]


class Costs(unittest.TestCase):
    """What napi_machine gets, with the costs that it has."""

    MEASURED = {"interrupt": 300, "poll": 1, "packet": 20, "wake": 7, "timer": 4000, "timer-wake": 900, "take": 30, "app-wake": 5, "app-wake-apart": 60}
    DEFERRAL = {"defer-hard-irqs": 2, "gro-flush-timeout": 20000}

    def settings(self, has: Sequence[str], options: choosing.Options) -> choosing.Options:
        with unittest.mock.patch.object(choosing, "COSTS", has):
            return choosing.settings_of(self.MEASURED, options)

    def test_a_machine_with_one_cost_for_interrupts_and_timers(self) -> None:
        """With deferral it is that of a timer, if that is known."""
        has = ("interrupt", "poll", "packet", "wake")
        self.assertEqual(self.settings(has, self.DEFERRAL), {"interrupt": 4000, "poll": 1, "packet": 20, "wake": 900, **self.DEFERRAL})
        self.assertEqual(self.settings(has, {"ring": 9}), {"interrupt": 300, "poll": 1, "packet": 20, "wake": 7, "ring": 9})
        self.assertEqual(choosing.settings_of({"interrupt": 300}, self.DEFERRAL)["interrupt"], 300)

    def test_a_machine_with_both(self) -> None:
        """Taking a packet is a part of its cost."""
        has = ("interrupt", "packet", "wake", "take", "timer", "timer-wake")
        wanted = {"interrupt": 300, "packet": 20, "wake": 7, "take": 20, "timer": 4000, "timer-wake": 900}
        self.assertEqual(self.settings(has, self.DEFERRAL), {**wanted, **self.DEFERRAL})

    def test_the_program_is_woken_on_either_processor(self) -> None:
        for options, woken in (({"apart": 0}, 5), ({"apart": 1}, 60)):
            self.assertEqual(self.settings(("app-wake",), options), {"app-wake": woken, **options})


class Coalescing(unittest.TestCase):
    """Which rx-usecs are tried, and how they are set."""

    def tried(self, driver: str, usecs: int, has: Sequence[str] = ("rx-gap", "rx-nsecs")) -> list[tuple[int, int]]:
        """Returns rx-gap and rx-nsecs of each setting, the recorded one first."""
        head = {"device.eth0.driver": driver, "device.eth0.ethtool.coalesce.rx-usecs": str(usecs), "polled": "eth0"}
        options = {**OPTIONS, **dict.fromkeys(has, (0, 10**9, 0))}
        with unittest.mock.patch.object(advice, "OPTIONS", {name: each for name, each in options.items() if name in has or not name.startswith("rx-")}):
            now = advice.options_of(head, "eth0", 0)
            tried = advice.candidates(head, "eth0", now, False, True)
            self.changes = advice.Machine(head, "eth0", 0).changes(tried[-1], now)
        return list(dict.fromkeys((each.get("rx-gap", 0), each.get("rx-nsecs", 0)) for each in tried))

    def test_a_driver_is_offered_what_it_takes(self) -> None:
        """e1000 sets the least time between interrupts in units of 256 ns. ixgbe takes 10, 25, 50 and 100, virtio only 0, and tg3 not even that."""
        self.assertEqual(self.tried("e1000", 0), [(0, 0), (9984, 0), (24832, 0), (49920, 0), (99840, 0)])
        self.assertEqual([(each.kind, each.name, each.value, each.before) for each in self.changes if each.kind == "coalesce"], [("coalesce", "rx-usecs", 100, 0)])
        self.assertEqual(self.tried("ixgbe", 30), [(30000, 0), (0, 0), (10000, 0), (25000, 0), (50000, 0), (100000, 0)])
        self.assertEqual(self.tried("virtio_net", 20), [(0, 20000), (0, 0)])
        self.assertEqual(self.tried("tg3", 20), [(0, 0)])

    def test_a_driver_that_is_unknown(self) -> None:
        self.assertEqual(self.tried("qlcnic", 20), [(0, 20000), (0, 0), (0, 10000), (0, 25000), (0, 50000), (0, 100000)])

    def test_a_mode_is_set_again(self) -> None:
        """At rx-usecs 3 igb chooses the time itself."""
        self.tried("igb", 3)
        self.assertEqual([(each.value, each.before) for each in self.changes if each.kind == "coalesce"], [(100, 3)])

    def test_a_machine_without_the_option(self) -> None:
        """A note says that napi_machine lacks the option for the least time between interrupts; no other value is tried."""
        self.assertEqual(self.tried("e1000", 250, ("rx-nsecs",)), [(0, 0)])
        head = {"device.eth0.driver": "e1000", "device.eth0.ethtool.coalesce.rx-usecs": "250", "polled": "eth0"}
        with unittest.mock.patch.object(advice, "OPTIONS", {"latched": (0, 2, 0), "gro-batch": (0, 64, 0)}):
            self.assertEqual(list(advice.unmodelled_in(head, "eth0")), ["this napi_machine lacks --rx-gap 249856 of e1000"])


class Ratios(unittest.TestCase):
    """Processors on which polls take longer."""

    @HAS_MACHINE
    def test_each_has_its_own_times(self) -> None:
        """A packet for each waits 1000 ns for the interrupt and 2500 in its poll, and on the second processor twice these. Each is used in 100 ns."""
        costs = {"interrupt": 1000, "poll": 2000, "packet": 500, "use": 100, "wake": 0}
        predictions = choosing.Predictions(MACHINE, costs, "ns,device,bytes\n0,1,60\n0,2,60\n", {1, 2})
        predictions.doubt = Doubt(costs, [], {})
        for ratios, waits in (((), [3500, 3500]), ((1.0, 2.0), [3500, 6000]), ((2.0, 1.0), [6000, 3500])):
            predictions.ratios = ratios
            found = [each["delivered_p50"] for each in predictions.on({"processors": 2})]
            self.assertTrue(all(abs(one - other) < 8 for one, other in zip(found, waits)), (ratios, found))
            values = predictions.of({"processors": 2})
            self.assertEqual([values[name] for name in ("arrived", "lost", "used", "polls", "runs")], [2, 0, 2, 2, 2])
        self.assertEqual(predictions.on_others("ns,device,bytes\n", set()).ratios, (2.0, 1.0))
        self.assertEqual(predictions.of({"processors": 1})["delivered_p50"], predicting.predicted(MACHINE, predictions.layouts[0][0], costs)["delivered_p50"])


class Choices(unittest.TestCase):
    """Which of several settings is advised. A setting's name has a letter for each change; with an A it moves the program."""

    def chosen(self, goal: str, *settings: tuple[Any, ...], measured: float = 0) -> str:
        predictions = MadeUp(goal, *settings)
        predictions.doubt = Doubt({}, [("used_p99", measured, 0, 0)], {})
        tried = [{"apart": int("A" in name), **{letter: int(letter in name) for letter in "xyz"}} for name, *_ in settings]
        predictions.names = {tuple(options.values()): name for options, (name, *_) in zip(tried, settings)}
        words = Words(goal=goal, max_drops=None, p99_below=None)
        best = choosing.Choice(words, "used", predictions, tried).best
        assert best
        return predictions.name(best[0])

    def test_the_fewest_changes(self) -> None:
        """Of settings within 3 %, today's before others; one that moves the program only if no other is as good."""
        self.assertEqual(self.chosen("p99", ("-", 50), ("xA", 27.0), ("x", 27.6), ("xy", 27.1)), "x")
        self.assertEqual(self.chosen("p99", ("-", 50), ("A", 27.0), ("xyz", 27.6)), "xyz")
        self.assertEqual(self.chosen("p99", ("-", 50), ("xA", 27.0), ("x", 29.0)), "xA")
        self.assertEqual(self.chosen("p99", ("-", 27.5), ("x", 27.0)), "-")
        self.assertEqual(self.chosen("cpu", ("-", 4), ("x", 2.5), ("xA", 2.5), ("y", 2.4)), "y")
        choice = choosing.Choice.__new__(choosing.Choice)
        choice.now = {"defer-hard-irqs": 2, "gro-flush-timeout": 100_000, "ring": 64}
        for defer, flush, ring, count in ((2, 20_000, 64, 1), (0, 0, 64, 1), (0, 0, 256, 2)):  # both of deferral are one change
            self.assertEqual(choice.changes_of({"defer-hard-irqs": defer, "gro-flush-timeout": flush, "ring": ring}), (False, count))

    def test_a_percentile_that_is_missed(self) -> None:
        """A 99th percentile was missed by 10 us: less than that is no reason for a change, and no miss of more than 30 us counts. Other goals don't ask."""
        settings = ("-", 29_000), ("x", 20_000)
        self.assertEqual([self.chosen("p99", *settings, measured=10_000), self.chosen("p99", *settings, measured=8000), self.chosen("p50", *settings, measured=10_000)], ["-", "x", "x"])
        self.assertEqual(self.chosen("p99", ("-", 60_000), ("x", 20_000), measured=90_000), "x")

    def test_what_the_costs_leave_open(self) -> None:
        """With costs 20 % lower x is as good as xy; z is never."""
        self.assertEqual(self.chosen("p50", ("-", 90), ("xy", 50, (40, 60)), ("x", 55, (40, 70)), ("z", 54, (43, 65))), "x")

    def test_drops(self) -> None:
        """Settings without drops are alike whatever their waits."""
        self.assertEqual(self.chosen("drops", ("-", 900), ("xA", 0), ("xy", 0), ("x", 0)), "x")
        self.assertEqual(self.chosen("drops", ("-", 0), ("x", 0)), "-")

    def test_drops_that_the_costs_leave_open(self) -> None:
        """With higher costs x loses packets, and xy and xyz lose none."""
        self.assertEqual(self.chosen("drops", ("-", 0, (0, 200)), ("x", 0, (0, 0))), "-")  # which gains nothing
        self.assertEqual(self.chosen("drops", ("-", 900, (800, 950)), ("x", 0, (0, 200)), ("xy", 0, (0, 0)), ("xyz", 0, (0, 0))), "xy")
