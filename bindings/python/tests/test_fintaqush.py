"""Tests of the package fintaqush. Expected values are from include/fintaqush.h, docs/FORMATS.md, examples/ and the outputs of
examples/c."""
import copy
import inspect
import pathlib
import pickle
import re
import sys
import threading
import unittest

import fintaqush
from fintaqush import (ArrivalsFault, DeviceState, Driver, Fault, Kind, Dql, List, SerialNapi, Next, Packet, Ring, SettingFault, Status, TraceFault,
                       Transmit, Turn, TxRing, TxState, What, Word, machine, place_ring, raise_runs, replay, shared)

TOP = pathlib.Path(__file__).resolve().parents[3]
sys.path += [str(TOP / "tools"), str(TOP / "bindings/python/examples")]
from fintaqush_tools import reports  # noqa: E402
import simulation  # noqa: E402


def together(*calls):
    """Makes these calls at the same time, each in a thread."""
    threads = [threading.Thread(target=call, daemon=True) for call in calls]
    for thread in threads:
        thread.start()
    for thread in threads:
        thread.join(600)


class Refusals(unittest.TestCase):
    def raised(self, kind, call, *values, **more):
        """Returns the exception of this kind that a call raises."""
        with self.assertRaises(kind) as raised:
            call(*values, **more)
        return raised.exception

    def refused(self, status, call, *values, **more):
        fault = self.raised(ValueError, call, *values, **more)
        self.assertEqual((str(fault), fault.status), (f"FQ_{status.name}", status))


class TestLimit(Refusals):
    def test_it_grows(self):
        limit, lines = Dql(), []
        for now in (6, 12, 18):
            frames = 0
            while limit.avail >= 0 and frames < 10:
                limit.queued(1500)
                frames += 1
            in_flight = limit.in_flight
            limit.completed(in_flight, now)
            lines.append(f"{frames} frames, {in_flight} bytes in flight, then a limit of {limit.limit}\n")
        self.assertEqual("".join(lines), (TOP / "examples/c/limit.stdout").read_text())
        limit.queued(1)
        limit.reset(20)
        self.assertEqual((limit.in_flight, limit.limit), (0, 0))

    def test_what_is_refused(self):
        self.refused(Status.BAD_BOUNDS, Dql, 2, 1)
        self.refused(Status.BAD_BOUNDS, Dql, max=1879048193)
        limit = Dql(max=100)
        self.refused(Status.TOO_LARGE, limit.queued, 268435456)
        self.refused(Status.MORE_THAN_QUEUED, limit.completed, 1, 0)
        self.assertEqual(limit.in_flight, 0)

    def test_numbers_that_c_has_not(self):
        limit = Dql()
        for call, values, line in ((Dql, (-1,), "min is 0 to 4294967295, not -1"), (Dql, (0, 2**32), "max is 0 to 4294967295"),
                                   (limit.completed, (0, 2**64), "now_ms is 0 to 18446744073709551615"), (Ring, (-1,), "capacity"),
                                   (Ring(1).put, (-1, 60), "number"), (Ring(1).put, (1, -60), "bytes"), (Ring(1).poll, (-1,), "weight"),
                                   (List().push, (2**32,), "id"), (List().remove, (-1,), "id"), (SerialNapi, (-1,), "controller"), (SerialNapi().schedule, (2**32,), "who"),
                                   (replay, (b"", 2**32 + 300), "budget")):
            with self.assertRaisesRegex(ValueError, line):
                call(*values)
        for call, values in ((Dql, (1.5,)), (limit.queued, ("1",)), (replay, ("moment,device,event,value\n",)), (replay, (None,)),
                             (Driver(1).done, (5,)), (Driver(1).done, (None, 1)), (Driver(1).step, ("x",))):
            self.raised(TypeError, call, *values)

    def test_nothing_is_copied(self):
        for one in Dql(), SerialNapi(), Ring(1), List(), TxRing(1), Driver(1), *place_ring(1), *shared(1)[:2], *shared(1)[2]:
            for copied in copy.copy, copy.deepcopy, pickle.dumps:
                with self.assertRaisesRegex(TypeError, "isn't copied"):
                    copied(one)


class TestNapi(Refusals):
    """The state words are those of the table in docs/FORMATS.md."""

    def test_a_turn(self):
        napi = SerialNapi(controller=1)
        self.assertEqual((napi.word, napi.schedule(), napi.word), (9, Status.MISSED, 11))
        napi = SerialNapi(controller=1)
        self.refused(Status.NOT_ALLOWED, napi.enable, who=2)
        napi.enable(who=1)
        self.assertEqual((napi.word, napi.schedule(2), napi.word), (0, Status.GRANTED, Word.SCHED))
        self.refused(Status.NOT_ALLOWED, napi.hand, 3)
        self.refused(Status.BAD_KIND, napi.hand, 2, 2)
        napi.hand(2)
        self.assertEqual((napi.word, napi.schedule(2), napi.word), (4294967297, Status.MISSED, 4294967299))
        self.assertEqual((napi.take(4, Kind.THREAD), napi.take(4), napi.word), (False, True, 3))
        self.refused(Status.NOT_ALLOWED, napi.complete, 2)
        self.assertEqual(napi.complete(4), Status.AGAIN)
        napi.hand(4)
        self.assertEqual((napi.take(4), napi.complete(4), napi.word), (True, Status.RELEASED, 0))

    def test_a_thread_and_busy_polling(self):
        napi = SerialNapi()
        napi.enable(threaded=True)
        self.assertEqual((napi.word, napi.schedule()), (256, Status.GRANTED))
        napi.hand(kind=Kind.THREAD)
        self.assertEqual((napi.word, napi.take(kind=Kind.THREAD), napi.word), (8589935361, True, 769))
        napi.complete()
        napi.set_threaded(False)
        self.assertEqual((napi.busy_take(), napi.busy_take(5), napi.word), (True, False, Word.SCHED | Word.IN_BUSY_POLL))
        self.assertEqual(napi.complete(), Status.HELD)
        napi.busy_stop()
        self.assertEqual(napi.complete(), Status.RELEASED)

    def test_a_disable(self):
        napi = SerialNapi()
        napi.enable()
        napi.schedule()
        napi.hand()
        napi.mark_disable()
        self.assertEqual((napi.schedule(), napi.take_disable(), napi.take()), (Status.DISABLED, False, True))
        self.assertEqual((napi.complete(), napi.word), (Status.RELEASED, 4))
        self.assertEqual((napi.take_disable(), napi.word), (True, 13))
        napi.unmark()
        self.assertEqual(napi.word, 9)

    def test_a_full_poll_under_a_disable(self):
        napi = SerialNapi()
        self.refused(Status.NOT_ALLOWED, napi.end, True)
        napi.enable()
        self.assertEqual(napi.schedule(), Status.GRANTED)
        napi.hand()
        self.assertEqual((napi.take(), napi.end(True), napi.take()), (True, Next.REPOLL, True))
        napi.mark_disable()
        self.assertEqual((napi.take_disable(), napi.end(True), napi.take_disable()), (False, Next.GONE, True))

    def test_an_end_goes_by_the_word(self):
        napi = SerialNapi()
        napi.enable(threaded=True)
        self.assertEqual(napi.schedule(), Status.GRANTED)
        napi.hand(kind=Kind.THREAD)
        self.assertEqual((napi.take(kind=Kind.THREAD), napi.end(True), napi.schedule()), (True, None, Status.MISSED))
        self.assertEqual((napi.end(False), napi.take(kind=Kind.THREAD), napi.end(False)), (Next.AGAIN_THREAD, True, Next.GONE))

    def test_a_fault_says_what_it_means(self):
        self.assertEqual(self.raised(Fault, SerialNapi().end, True).message, "the state of the object does not allow this call")


class TestRing(Refusals):
    def test_order_and_room(self):
        ring = Ring(3)
        self.assertEqual([ring.put(number, 60) for number in (5, 2**64 - 1, 7, 8)], [True, True, True, False])
        self.assertEqual([ring.poll(2), ring.poll(), ring.poll()], [[Packet(5, 60), Packet(2**64 - 1, 60)], [Packet(7, 60)], []])
        self.assertEqual(ring.counts[1:], (3, 180))

    def test_what_is_refused(self):
        for capacity in 0, 65537:
            self.refused(Status.BAD_CAPACITY, Ring, capacity)
        ring = Ring(65536)
        ring.put(1, 1)
        for weight in 0, 65:
            self.refused(Status.BAD_WEIGHT, ring.poll, weight)
        self.assertEqual(len(ring.poll(64)), 1)

    def test_threads_may_share_it(self):
        ring, polled = Ring(65536), []

        def poll():
            while len(polled) < 30000:
                polled.extend(ring.poll())

        together(poll, *(lambda first=first: [ring.put(first + i, 1) for i in range(10000)] for first in (0, 10000, 20000)))
        self.assertEqual(sorted(packet.number for packet in polled), list(range(30000)))
        self.assertEqual(ring.counts.packets, 30000)


class TestPlaces(Refusals):
    def test_packets_stay_where_they_are(self):
        (first, second), packets = place_ring(5), [None] * 5
        self.assertEqual((first.claim(0, 3), second.peek(0, 64)), (range(0, 3), range(0)))
        packets[0:3] = "abc"
        self.assertEqual(first.claim(3, 64), range(3, 5))
        self.assertEqual([packets[i] for i in second.peek(0, 64)], ["a", "b", "c"])
        self.assertEqual((second.peek(2, 0), first.claim(2, 64), second.peek(0, 64)), (range(2, 2), range(0, 2), range(2, 5)))

    def test_what_is_refused(self):
        for capacity in 0, 65537:
            self.refused(Status.BAD_CAPACITY, place_ring, capacity)
        first, second = place_ring(2)
        self.refused(Status.NOT_ALLOWED, first.claim, 1, 1)
        self.refused(Status.NOT_ALLOWED, second.peek, 1, 1)
        self.assertEqual(first.claim(0, 1), range(0, 1))


class TestTx(Refusals):
    def test_it_is_stopped_and_started(self):
        ring = TxRing(2, 1000, 1000)
        self.assertEqual((ring.send(600), ring.state), (Status.OK, TxState(600, 0, 1000, 400, False)))
        self.assertEqual((ring.send(600), ring.send(1)), (Status.OK, Status.STOPPED))
        self.refused(Status.MORE_THAN_SENT, ring.done, 3, 1)
        self.assertEqual(ring.state, TxState(1200, 0, 1000, -200, True))
        ring.done(1, 1)
        self.assertEqual((ring.send(100), ring.send(100)), (Status.OK, Status.FULL))

    def test_it_is_watched(self):
        ring = TxRing(1, 0, 1)
        self.assertEqual((ring.watch(0, 0), ring.send(60)), (False, Status.OK))
        self.assertEqual([ring.watch(500, now) for now in (10, 509, 510, 5)], [False, False, True, False])
        ring.done(1, 1000)
        self.assertFalse(ring.watch(0, 2000))

    def test_what_is_refused(self):
        self.refused(Status.BAD_BOUNDS, TxRing, 2, 2, 1)
        self.refused(Status.BAD_CAPACITY, TxRing, 0)
        self.refused(Status.TOO_LARGE, TxRing(2).send, 268435456)


class TestShared(Refusals):
    def test_an_open_asks_once(self):
        for threaded, again in (False, Next.AGAIN), (True, Next.AGAIN_THREAD):
            _, control, (interrupts, poller) = shared(4)
            self.assertEqual(interrupts.request(), (Status.MISSED, Next.GONE))
            masks = []
            self.assertEqual(control.open(poller, threaded, lambda: masks.append(1)), (Status.GRANTED, again))
            self.assertEqual(masks, [1])
            self.refused(Status.NOT_ALLOWED, control.enable)
            for wanted in again, Next.GONE:  # once more, for the request that was missed
                self.assertTrue(poller.take(Kind.THREAD if threaded else Kind.LIST))
                self.assertEqual(poller.end(False), wanted)

    def test_ends_of_polls(self):
        input, control, (interrupts, poller) = shared(8)
        control.enable()
        self.assertEqual([input.put(number, 60) for number in range(9)], [True] * 8 + [False])
        self.assertEqual((input.count, interrupts.request()), (8, (Status.GRANTED, Next.AGAIN)))
        self.refused(Status.NOT_ALLOWED, poller.poll)
        self.assertEqual((poller.take(), [one.number for one in poller.poll(4)]), (True, [0, 1, 2, 3]))
        self.assertEqual((poller.end(True), poller.take(), len(poller.poll())), (Next.REPOLL, True, 4))
        self.assertEqual((poller.counts.polls, poller.counts.packets), (2, 8))
        interrupts.set_threaded(True)
        self.assertEqual((interrupts.request()[0], poller.end(False)), (Status.MISSED, Next.AGAIN_THREAD))
        self.assertEqual((poller.take(), poller.take(Kind.THREAD)), (False, True))
        self.assertEqual(poller.end(True), None)
        control.mark()
        self.assertEqual((control.try_take(), poller.end(True), control.try_take()), (False, Next.GONE, True))
        self.assertEqual(interrupts.answers[:3], (1, 1, 0))
        control.enable()
        self.assertEqual((poller.busy_take(), poller.end(False), poller.busy_stop(), poller.end(False)), (True, None, None, Next.GONE))

    def test_completions(self):
        _, control, (interrupts, poller) = shared(4)
        control.enable()
        self.assertEqual(interrupts.schedule(), Status.GRANTED)
        interrupts.hand()
        self.assertEqual((poller.take(), interrupts.schedule(), poller.complete()), (True, Status.MISSED, Status.AGAIN))
        poller.hand()
        self.refused(Status.NOT_ALLOWED, interrupts.complete)
        self.refused(Status.NOT_ALLOWED, interrupts.end, True)
        self.assertEqual((poller.take(), poller.complete()), (True, Status.RELEASED))
        self.assertEqual((poller.busy_take(), poller.complete(), poller.end(True)), (True, Status.HELD, None))
        self.assertEqual(poller.answers[3:6], (1, 1, 2))

    def test_what_is_refused(self):
        for count in 1, 9:
            self.refused(Status.BAD_COUNT, shared, 4, count)
        self.refused(Status.BAD_CAPACITY, shared, 0)

    def test_threads(self):
        """Each packet is polled once and in order: one thread has the input and the caller of an interrupt handler, another one polls."""
        input, control, (interrupts, poller) = shared(64)
        polled, due, packets = [], threading.Semaphore(0), 2000

        def arrive():
            for number in range(packets):
                while not input.put(number, 60):
                    pass
                if interrupts.request()[0] == Status.GRANTED:
                    due.release()

        def poll():
            while len(polled) < packets:
                due.acquire()
                while True:
                    poller.take()
                    given = poller.poll(16)
                    polled.extend(one.number for one in given)
                    if poller.end(len(given) == 16) == Next.GONE:
                        break

        control.enable()
        together(arrive, poll)
        self.assertEqual(polled, list(range(packets)))


class TestRuns(Refusals):
    def test_four_devices(self):
        """The same as examples/c/run.c."""
        left, lines, polls, softirq = [150, 3, 64, 0], [], [], List()
        for device in range(4):
            softirq.push(device)

        def poll(device, weight):
            work = min(left[device], weight)
            left[device] -= work
            polls.append(f"{device}({work}) ")
            return work, Next.REPOLL if work == weight else Next.GONE

        report = None
        while report is None or report.polls:
            polls.clear()
            report = softirq.run(poll, 100)
            lines.append(f"run: {''.join(polls)}- {report.polls} polls, {report.work} packets{', squeezed' * report.squeezed}\n")
        self.assertEqual("".join(lines), (TOP / "examples/c/run.stdout").read_text())
        self.assertEqual(len(softirq), 0)

    def test_what_is_refused(self):
        softirq = List()
        for status, settings in ((Status.BAD_BUDGET, (0,)), (Status.BAD_BUDGET, (65536,)), (Status.BAD_BUDGET, (300, 64, 0)),
                                 (Status.BAD_WEIGHT, (300, 65))):
            self.refused(status, softirq.run, lambda device, weight: (0, Next.GONE), *settings)
        self.assertEqual([softirq.push(device) for device in range(65)], [True] * 64 + [False])
        self.refused(Status.IN_USE, softirq.push, 5)
        self.assertEqual(len(softirq), 64)

    def test_a_device_leaves_the_list(self):
        softirq = List()
        for device in range(1, 6):
            softirq.push(device)
        self.assertEqual([softirq.remove(2), softirq.remove(2), len(softirq)], [Status.OK, Status.NOT_THERE, 4])

        def poll(device, weight):
            self.assertEqual([softirq.remove(device), softirq.remove(3)], [Status.BUSY] * 2)
            softirq.push(6)
            self.assertEqual(softirq.remove(6), Status.OK)
            return 0, Next.GONE

        self.assertEqual(softirq.run(poll, window=1).polls, 1)
        self.assertEqual([softirq.remove(4), softirq.remove(3), softirq.remove(5), len(softirq)], [Status.OK] * 3 + [0])

    def wrecked(self, fault, poll):
        """Checks that after a run in which the poll of device 2 of three fails, the list has the others, and can be run again."""
        softirq = List()
        for device in 1, 2, 3:
            softirq.push(device)
        found, polled = self.raised(fault, softirq.run, lambda device, weight: poll(softirq) if device == 2 else (64, Next.REPOLL)), []
        report = softirq.run(lambda device, weight: (polled.append(device) or 0, Next.GONE))
        self.assertEqual((sorted(polled), report), ([1, 3], (2, 0, False)))
        return found

    def test_a_poll_that_raises(self):
        def poll(_):
            raise KeyError("mine")

        self.assertEqual(self.wrecked(KeyError, poll).args, ("mine",))
        self.wrecked(KeyboardInterrupt, lambda _: (_ for _ in ()).throw(KeyboardInterrupt))

    def test_a_poll_whose_answer_is_refused(self):
        for status, answer in ((Status.BAD_WORK, (65, Next.GONE)), (Status.BAD_NEXT, (1, 7))):
            self.assertEqual(self.wrecked(Fault, lambda _, answer=answer: answer).status, status)
        for answer in (None, (1,), ("1", Next.GONE)):
            self.wrecked((TypeError, ValueError), lambda _, answer=answer: answer)

    def test_a_run_in_a_run(self):
        fault = self.wrecked(Fault, lambda softirq: softirq.run(lambda device, weight: (0, Next.GONE)))
        self.assertEqual(fault.status, Status.NOT_ALLOWED)

    def test_a_poll_pushes(self):
        softirq, polled = List(), []
        softirq.push(1)

        def poll(device, weight):
            polled.append((device, weight))
            if device < 5:
                softirq.push(device + 1)
            return 1, Next.GONE

        self.assertEqual(softirq.run(poll, weight=7), (5, 5, False))
        self.assertEqual(polled, [(device, 7) for device in range(1, 6)])


class Card:
    """A card with edge-triggered interrupts: packets that arrive while it is masked raise none."""

    def __init__(self):
        self.masked, self.waiting, self.taken = True, 0, 0

    def mask(self, _):
        self.masked = True

    def unmask(self, _):
        self.masked = False

    def look(self, _):
        return self.waiting > 0

    def fetch(self, _, most):
        count = min(most, self.waiting)
        self.waiting -= count
        self.taken += count
        return count


def acted(driver, card):
    """Acts until there is nothing to do, and returns the actions."""
    return list(iter(lambda: driver.act(card), What.SLEEP))


class TestDriver(Refusals):
    def test_a_card(self):
        driver, card = Driver(2), Card()
        self.assertEqual((driver.act(card), driver.shown(1)), (What.SLEEP, (DeviceState.CLOSED, True, False, 0, 0)))
        card.waiting = 100
        self.assertEqual((driver.open(1), driver.open(1)), (True, False))
        self.assertEqual([one for one in acted(driver, card) if one is not What.ENDED],
                         [What.UNMASK, What.LOOK, What.MASK, What.FETCH, What.FETCH, What.UNMASK, What.LOOK])
        self.assertEqual((card.masked, card.taken, driver.shown(1)), (False, 100, (DeviceState.OPEN, False, False, 2, 100)))
        self.assertEqual([driver.interrupt(1), driver.interrupt(1)], [Status.GRANTED, Status.MISSED])
        self.assertEqual((driver.stop(1), driver.stop(1), driver.shown(1).state), (True, False, DeviceState.STOPPING))
        self.assertEqual(driver.interrupt(1), Status.DISABLED)
        acted(driver, card)
        self.assertEqual((card.masked, driver.shown(1).state), (True, DeviceState.CLOSED))

    def test_a_fetch_that_rearms(self):
        class RearmCard(Card):
            def rearm(self, _):
                self.masked = False
                return self.waiting > 0

        driver, card = Driver(1), RearmCard()
        driver.open(0)
        acted(driver, card)
        card.waiting = 1
        self.assertEqual(driver.interrupt(0), Status.GRANTED)
        self.assertEqual([driver.act(card) for _ in range(2)], [What.MASK, What.FETCH])
        self.assertEqual((driver.next().what, driver.next().run), (What.SLEEP, (0, 0, False)))
        self.assertEqual((card.masked, card.waiting), (False, 0))
        todo = driver.next()
        self.assertEqual(todo.rearm, fintaqush.Rearm.NO)
        todo.rearm = fintaqush.Rearm.MORE
        self.assertEqual(todo.rearm, fintaqush.Rearm.MORE)

    def test_steps(self):
        driver, card, todo = Driver(1, weight=8), Card(), fintaqush.Todo()
        self.assertEqual((driver.step(todo), todo.what, todo.packets), (What.SLEEP, What.SLEEP, 0))
        card.waiting = 100
        driver.open(0)
        while (what := driver.step(todo)) is not What.SLEEP:
            self.assertEqual((todo.what, todo.packets), (what, int(what is What.LOOK)))
            if what is What.MASK:
                card.mask(0)
            elif what is What.UNMASK:
                card.unmask(0)
            elif what is What.LOOK:
                todo.packets = card.look(0)
            elif what is What.FETCH:
                todo.packets = 9
                self.refused(Status.BAD_WORK, driver.step, todo)
                self.assertEqual((todo.what, todo.status), (What.FAILED, Status.BAD_WORK))
                self.refused(Status.NOT_REPORTED, driver.step, todo)
                todo = driver.next()
                todo.packets = card.fetch(0, todo.most)
        self.assertEqual((card.masked, card.taken, driver.shown(0).polls, driver.shown(0).packets), (False, 100, 13, 100))
        driver.stop(0)
        mask = driver.next()
        self.assertTrue(driver.done(mask))
        self.assertEqual((driver.step(mask), mask.what, mask.status), (What.SLEEP, What.SLEEP, Status.NOT_DUE))  # it was reported already
        with self.assertRaises(ValueError):
            todo.packets = -1

    def turns(self, driver, todo, cards, interrupts):
        """Does what the driver says after each turn, until it sleeps; the fetches unmask and look. Returns how many masked first."""
        masks = 0
        while (what := driver.turn(interrupts, todo)) is not What.SLEEP:
            interrupts, card = 0, cards[todo.device]
            masks += todo.mask
            if todo.mask or what is What.MASK:
                card.mask(0)
            if what is What.UNMASK:
                card.unmask(0)
            elif what is What.LOOK:
                todo.packets = card.look(0)
            elif what is What.FETCH:
                self.assertTrue(card.masked)
                todo.packets = card.fetch(0, todo.most)
                if todo.packets < todo.most:
                    card.unmask(0)
                    todo.rearm = fintaqush.Rearm.MORE if card.look(0) else fintaqush.Rearm.EMPTY
        return masks

    def test_turns(self):
        driver, cards, todo = Driver(2, weight=8), (Card(), Card()), fintaqush.Todo()
        for device, card in enumerate(cards):
            card.waiting = 100
            driver.open(device)
        self.turns(driver, todo, cards, 0)
        self.assertEqual([(card.masked, card.taken) for card in cards], [(False, 100), (False, 100)])
        cards[1].waiting = 1
        self.assertEqual((self.turns(driver, todo, cards, 1 << 1), todo.run), (1, (1, 1, False)))
        self.assertEqual((cards[1].masked, cards[1].taken, todo.packets, todo.most), (False, 101, 0, 0))
        self.refused(Status.BAD_DEVICE, driver.turn, 1 << 2, todo)
        todo, none = fintaqush.Todo(), fintaqush.Todo()
        self.assertEqual((driver.turn(1 << 0, todo), todo.mask, todo.most, todo.run), (What.FETCH, True, 8, (0, 0, False)))
        self.refused(Status.NOT_REPORTED, driver.turn, 0, none)
        self.assertEqual((none.what, none.status), (What.FAILED, Status.NOT_REPORTED))
        todo.packets = 9
        self.refused(Status.BAD_WORK, driver.turn, 0, todo)
        todo = driver.next()
        self.assertEqual((todo.what, todo.mask, driver.turn(0, todo)), (What.FETCH, True, What.UNMASK))
        driver.stop(0)
        self.assertEqual((driver.turn(0, todo), todo.status), (What.MASK, Status.NOT_DUE))
        for wrong in -1, 1 << 64:
            self.raised(ValueError, driver.turn, wrong, todo)

    def test_settings(self):
        driver, card, timers = Driver(1), Card(), []
        card.waiting = 9
        card.timer = lambda device, nanoseconds: timers.append((device, nanoseconds))
        self.refused(Status.BAD_WEIGHT, driver.set, 0, 65)
        self.refused(Status.BAD_DEVICE, driver.set, 1)
        self.refused(Status.BAD_SETTING, driver.set, 0, 8, 1)
        driver.set(0, weight=8, defer_hard_irqs=1, gro_flush_timeout=5000)
        self.assertFalse(driver.timer(0))
        driver.open(0)
        self.refused(Status.NOT_ALLOWED, driver.set, 0, 8)
        acted(driver, card)
        self.assertEqual(timers, [(0, 5000)])
        self.assertTrue(driver.timer(0))
        self.assertEqual((driver.act(card), driver.act(card)), (What.FETCH, What.UNMASK))

    def test_reports(self):
        driver, card = Driver(1, weight=8), Card()
        driver.open(0)
        first = driver.next()
        self.assertEqual((first.what, first.device, first.most, first.run), (What.UNMASK, 0, 0, (0, 0, False)))
        self.assertTrue(driver.done(first))
        self.assertFalse(driver.done(first))
        self.assertTrue(driver.done(fintaqush.Todo()))  # nothing to report
        self.assertTrue(driver.done(driver.next()))  # a look that isn't answered leads to a poll
        self.assertTrue(driver.done(driver.next()))
        fetch = driver.next()
        self.assertFalse(Driver(1).done(fetch, 8))  # another driver's action
        self.assertEqual((fetch.what, fetch.most), (What.FETCH, 8))
        self.refused(Status.BAD_WORK, driver.done, fetch, 9)
        self.assertTrue(driver.end_run())
        self.assertTrue(driver.done(driver.next(), 8))
        self.assertEqual((driver.next().run, driver.end_run()), ((1, 8, True), False))
        card.fetch = lambda device, most: most + 1
        self.refused(Status.BAD_WORK, driver.act, card)
        card.fetch = lambda device, most: [][0]
        self.raised(IndexError, acted, driver, card)
        card.fetch = lambda device, most: 0
        acted(driver, card)
        self.assertEqual((driver.shown(0).packets, driver.shown(0).state), (8, DeviceState.OPEN))

    def test_what_is_refused(self):
        for status, values in ((Status.BAD_COUNT, (0,)), (Status.BAD_COUNT, (65,)), (Status.BAD_BUDGET, (1, 0)), (Status.BAD_WEIGHT, (1, 300, 65)),
                               (Status.BAD_BUDGET, (1, 300, 64, 65536))):
            self.refused(status, Driver, *values)
        driver = Driver(2)
        for call in driver.open, driver.stop, driver.interrupt, driver.shown:
            self.refused(Status.BAD_DEVICE, call, 2)


class TestMachine(Refusals):
    ARRIVALS = (TOP / "crates/napi_machine/stdin").read_bytes()

    def test_the_report_of_the_program(self):
        report = machine(self.ARRIVALS, defer_hard_irqs=2, gro_flush_timeout=20000)
        self.assertEqual(report.text, (TOP / "crates/napi_machine/stdout").read_text())
        self.assertEqual({number: queue.arrived for number, queue in report.queues.items()}, {1: 3, 2: 1})
        self.assertEqual((report.queues[1].polls, report.queues[1].waits), (3, (8000, 10000, 10992, 10992, 10992, 11000)))
        processor, = report.processors
        self.assertEqual((processor.timers, processor.used, processor.waits.most, processor.application), (4, 4, 21500, None))
        self.assertEqual(processor.times, (71000, 24000, 10000, 8000, 29000))
        self.assertEqual((report.arrived, report.dropped, report.polled, report.refused, report.used), (4, 0, 4, 0, 4))

    def test_what_a_setting_changes(self):
        apart = machine(self.ARRIVALS, apart=True, app_wake=3000, processors=2).processors
        self.assertEqual([one.number for one in apart], [0, 1])
        self.assertEqual([one.application.wakes for one in apart], [2, 1])
        shorter = [machine(self.ARRIVALS, defer_hard_irqs=2, gro_flush_timeout=20000, **costs).processors[0].times[1]
                   for costs in ({}, {"timer": 3000}, {"interrupt": 3000})]
        self.assertEqual(shorter, [24000, 20000, 21000])
        rows = "".join(f"{30000 * i},1,60\n" for i in range(2000))
        arrivals = f"ns,device,bytes\n{rows}".encode()
        one_by_one, together = machine(arrivals), machine(arrivals, rx_nsecs=50000)
        self.assertGreater(one_by_one.processors[0].interrupts, together.processors[0].interrupts)

    def test_faults(self):
        for arrivals, number, row, line in ((b"", 1, 0, "arrivals fault 1 BadHeader row 0"),
                                            (b"ns,device,bytes\n5,1,60\n4,1,60\n", 8, 2, "arrivals fault 8 Falls row 2")):
            fault = self.raised(ArrivalsFault, machine, arrivals)
            self.assertEqual((fault.status, fault.number, fault.row, str(fault)), (Status.BAD_ARRIVALS, number, row, line))
            self.assertEqual(str(pickle.loads(pickle.dumps(fault))), line)
        for settings in ({"weight": 65}, {"backlog": 2}, {"wake": 10**9 + 1}, {"timer": 10**9 + 1}, {"processors": 0},
                         {"rx_gap": 20000, "rx_frames": 2}, {"take": 501, "packet": 500}, {"early": 1500, "heedless": 1}):
            fault = self.raised(SettingFault, machine, self.ARRIVALS, **settings)
            self.assertEqual(str(fault), f"FQ_BAD_SETTING: {next(iter(settings))}")
        for arrivals, settings in ((self.ARRIVALS.decode(), {}), (self.ARRIVALS, {"size": 96}), (self.ARRIVALS, {"use": 1})):
            self.raised(TypeError, machine, arrivals, **settings)


class TestRaising(Refusals):
    def test_recorded_bursts_lose_no_packet(self):
        """As in tests/tools/test_raise.py: with the runs that the kernel would make, all packets are polled."""
        trace = (TOP / "examples/linux-veth-bursts.csv").read_bytes()
        plain, raised = replay(trace, 16, 8), replay(trace, 16, 8, raised=True)
        self.assertEqual((plain.work, sum(device.dropped for device in plain.devices.values())), (8441, 5582))
        self.assertEqual((raised.work, sum(device.dropped for device in raised.devices.values()), raised.listed), (15245, 0, []))
        self.assertEqual(raise_runs(trace), trace)

    def test_a_trace_that_gets_too_long(self):
        trace = b"moment,device,event,value\n0,1,open,65536\n" + b"0,1,rx,60\n" * 60000 + b"1,0,softirq,0\n"
        self.assertEqual(str(self.raised(TraceFault, raise_runs, trace, 1, 1)), "trace fault 9 TooManyRows row 100001")
        self.assertEqual(len(raise_runs(trace, 1, 1, restarts=100)), len(trace) + 100 * len(b"1,0,softirq,0\n"))

    def test_by_hand(self):
        head = "moment,device,event,value\n0,1,open,8\n" + "1,1,rx,60\n" * 3
        trace = f"{head}2,0,softirq,0\n3,0,softirq,0\n".encode()
        for restarts, rows in ((None, "2,0,softirq,0\n" * 4 + "3,0,softirq,0\n"), (0, "2,0,softirq,0\n3,0,softirq,0\n"),
                               (1, "2,0,softirq,0\n" * 2 + "3,0,softirq,0\n" * 2)):
            self.assertEqual(raise_runs(trace, 1, 1, restarts=restarts).decode(), head + rows)

    def test_faults(self):
        pending = b"moment,device,event,value\n0,1,open,4\n1,1,rx,10\n1,1,disable,0\n1,1,enable,0\n"
        for trace, line in ((b"", "trace fault 1 BadHeader row 0"), (pending, "trace fault 12 Pending row 4")):
            self.assertEqual(str(self.raised(TraceFault, raise_runs, trace)), line)
        self.refused(Status.BAD_WEIGHT, raise_runs, pending, weight=0)
        for restarts in (-1, 2**32):
            self.raised(ValueError, raise_runs, pending, restarts=restarts)
        self.raised(TypeError, raise_runs, "moment")


class TestReplay(Refusals):
    def test_two_packets(self):
        """The report that docs/NAPI.md shows."""
        report = replay((TOP / "examples/two-packets.csv").read_bytes())
        shown = re.search(r"prints what the kernel would count:\n\n(.*?)\n\n", (TOP / "docs/NAPI.md").read_text(), re.S)[1]
        self.assertEqual(report.text, re.sub(r"^    ", "", shown, flags=re.M) + "\n")
        self.assertEqual(report.turns, [Turn("softirq", 4, polls=2, work=2)])
        device = report.devices[1]
        self.assertEqual((type(report.turns[0].squeezed), type(device.word)), (bool, Word))
        self.assertEqual((device.state, device.bytes, device.missed, device.word, device.transmit), ("on", 160, 1, Word(0), None))
        self.assertEqual((report.listed, report.runs, report.polls, report.work, report.squeezed), ([], 1, 2, 2, 0))

    def test_settings(self):
        """The recording of README.md: the kernel counted 55 squeezed runs at a budget of 64."""
        trace = (TOP / "examples/linux-veth-small-budget.csv").read_bytes()
        report = replay(trace, budget=64)
        self.assertEqual((len(report.devices), report.runs, report.polls, report.work, report.squeezed), (12, 544, 961, 15647, 55))
        self.assertEqual(sum(turn.squeezed for turn in report.turns), 55)
        self.refused(Status.BAD_WEIGHT, replay, trace, weight=65)
        self.refused(Status.BAD_BUDGET, replay, trace, window=0)

    def test_all_examples(self):
        """The objects are equal to what the tools read from the text."""
        traces = sorted((TOP / "examples").glob("*.csv"))
        self.assertGreater(len(traces), 5)
        for trace in traces:
            report = replay(trace.read_bytes())
            turns, listed = [], []
            for told in reports.objects_of(report.text):
                line = told.pop("line")
                told.pop("flags", None)
                device = report.devices.get(told.get("device"))
                if line == "list":
                    listed = told["devices"]
                elif line == "total":
                    self.assertEqual(told.pop("devices"), len(report.devices))
                    self.assertEqual({name: getattr(report, name) for name in told}, told)
                elif line in ("device", "napi"):
                    self.assertEqual(told.pop("device"), device.number)
                    self.assertEqual({name: getattr(device, name) for name in told}, told)
                elif line == "tx":
                    told.pop("device")
                    self.assertEqual(device.transmit, Transmit(**told))
                    self.assertIsInstance(device.transmit.stopped, bool)
                else:
                    turns.append({"event": line, "device": 0, "squeezed": False, **told})
            self.assertEqual(([turn._asdict() for turn in report.turns], report.listed), (turns, listed))

    def test_a_long_report(self):
        """The report is longer than the buffer that is tried first."""
        rows = "0,1,open,1\n" + "".join(f"0,{device},open,1\n" for device in range(2, 17)) + "0,0,softirq,0\n" * 99000
        report = replay(("moment,device,event,value\n" + rows).encode())
        self.assertEqual((len(report.turns), report.runs, len(report.devices)), (99000, 99000, 16))

    def test_faults(self):
        head = "moment,device,event,value\n"
        for trace, number, name, row in (("", 1, "BadHeader", 0), (head + "1,2\n", 2, "BadFields", 1), (head + "x,1,rx,1\n", 3, "BadNumber", 1),
                                         (head + "1,1,open,4\n1,1,xr,1\n", 4, "BadEvent", 2), (head + "1,17,open,4\n", 5, "OutOfRange", 1),
                                         (head + "1,1,rx,1\n", 6, "UnknownDevice", 1)):
            fault = self.raised(TraceFault, replay, trace.encode())
            self.assertEqual((fault.status, fault.number, fault.name, fault.row), (Status.BAD_TRACE, number, name, row))
            self.assertEqual(str(fault), f"trace fault {number} {name} row {row}")
            self.assertEqual(str(pickle.loads(pickle.dumps(fault))), str(fault))


class TestSimulation(unittest.TestCase):
    def test_it_loses_what_the_replay_of_the_same_trace_drops(self):
        rows = ["moment,device,event,value"] + [f"0,{device},open,64" for device in range(1, 5)]
        for moment in range(1000):
            rows += [f"{moment},{device},rx,1500" for device in range(1, 5) for _ in range(8)] + [f"{moment},0,softirq,0"]
        trace = ("\n".join(rows) + "\n").encode()
        lost = {}
        for budget in 8, 16, 24, 32:
            report = replay(trace, budget=budget, weight=16)
            lost[budget] = simulation.simulate(budget)
            self.assertEqual(lost[budget], sum(device.dropped for device in report.devices.values()))
        self.assertGreater(lost[8], 10000)
        self.assertEqual(lost[32], 0)


class TestPackage(unittest.TestCase):
    def test_every_name_has_its_types(self):
        self.assertTrue((pathlib.Path(fintaqush.__file__).parent / "py.typed").exists())
        for name in fintaqush.__all__:
            for what, value in vars(getattr(fintaqush, name)).items():
                if inspect.isfunction(value) and value.__module__.startswith("fintaqush"):
                    signature = inspect.signature(value)
                    untyped = [one for one in signature.parameters.values() if one.name != "self" and one.annotation is one.empty]
                    self.assertEqual((untyped, signature.return_annotation is signature.empty), ([], False), f"{name}.{what}")


if __name__ == "__main__":
    unittest.main()
