"""Queue limits, instances of one thread, receive rings, poll lists."""
from __future__ import annotations

import contextlib
import ctypes
from typing import Any, Callable, NamedTuple, NoReturn

from . import _abi as abi
from . import _library as c
from ._abi import Kind, Next, Status, Word
from ._faults import Fault


class Packet(NamedTuple):
    """A packet: a number that the user chooses, and its size in bytes."""
    number: int
    bytes: int


class Counts(NamedTuple):
    """The counts of a ring's polls."""
    polls: int
    packets: int
    bytes: int


class TxState(NamedTuple):
    """The state of a transmit ring: all bytes sent and all completed, modulo 2^32, the limit, what may still be sent, and whether
    the limit has stopped the queue."""
    queued: int
    completed: int
    limit: int
    avail: int
    stopped: bool


class RunReport(NamedTuple):
    """The report of a run: its polls, their packets, and whether the budget or the window was used up."""
    polls: int
    work: int
    squeezed: bool


class _One:
    """An object that exists once in the library, so it is neither copied nor pickled."""

    def __reduce__(self) -> NoReturn:
        raise TypeError(f"a {type(self).__name__} isn't copied")


class Dql(_One):
    """A byte queue limit between min and max, with the hold time hold_ms (`dql_init`). Times are milliseconds of a clock that you choose.
    Raises BAD_BOUNDS if min is above max, or max is above 1879048192."""

    def __init__(self, min: int = 0, max: int = 1879048192, hold_ms: int = 1000, now_ms: int = 0) -> None:
        self._dql = abi.Dql()
        c.dql_init(self._dql, min, max, hold_ms, now_ms)

    def queued(self, count: int) -> None:
        """Adds count bytes that were sent to the device (`dql_queued`). TOO_LARGE, TOO_MUCH_IN_FLIGHT."""
        c.dql_queued(self._dql, count)

    def completed(self, count: int, now_ms: int) -> None:
        """Completes count bytes, and adapts the limit (`dql_completed`). MORE_THAN_QUEUED."""
        c.dql_completed(self._dql, count, now_ms)

    def reset(self, now_ms: int) -> None:
        """Resets the limit: nothing is in flight (`dql_reset`)."""
        c.dql_reset(self._dql, now_ms)

    @property
    def limit(self) -> int:
        """The limit in bytes."""
        return int(c.dql_limit(self._dql))

    @property
    def avail(self) -> int:
        """The bytes that may still be sent to the device (`dql_avail`); if negative, the queue has to be stopped."""
        return int(c.dql_avail(self._dql))

    @property
    def in_flight(self) -> int:
        """The bytes that were queued and aren't completed."""
        return int(c.dql_in_flight(self._dql))


class SerialNapi(_One):
    """An instance of one thread (`struct napi_struct`), disabled at first. A caller is a number, 0 by default; the controller's number is
    an argument here. A call that isn't allowed in the state raises NOT_ALLOWED, and changes nothing."""

    def __init__(self, controller: int = 0) -> None:
        self._state = c.napi_new(controller)

    def schedule(self, who: int = 0) -> Status:
        """Requests a poll (`napi_schedule_prep`): returns GRANTED, and the caller has to queue the instance; MISSED; or DISABLED."""
        return Status(c.napi_schedule(self._state, who))

    def hand(self, who: int = 0, kind: Kind = Kind.LIST) -> None:
        """Queues a granted instance (`____napi_schedule`), or puts a polled one on the list again. BAD_KIND, NOT_ALLOWED."""
        c.napi_hand(self._state, who, kind)

    def take(self, who: int = 0, kind: Kind = Kind.LIST) -> bool:
        """Takes the instance from the list or as its thread; returns False if it isn't there. BAD_KIND."""
        return bool(c.napi_take(self._state, who, kind) == Status.TAKEN)

    def complete(self, who: int = 0) -> Status:
        """Ends a poll (`napi_complete_done`): returns RELEASED; AGAIN, and the caller has to queue the instance again; HELD for a busy
        poller. NOT_ALLOWED."""
        return Status(c.napi_complete(self._state, who))

    def end(self, full: bool, who: int = 0) -> Next | None:
        """Ends a poll as the kernel does (`__napi_poll`), and returns what to pass to the run. After a full poll, one that returned the
        whole weight, the instance is on the list again, or stays with its thread (None: poll again), unless a disable is pending. Any other
        poll is completed, and queued again if a request was missed; after AGAIN_THREAD its thread has to poll. Returns None for a busy
        poller too. NOT_ALLOWED."""
        next = abi.u32()
        return None if c.napi_end(self._state, who, full, next) == Status.HELD else Next(next.value)

    def busy_take(self, who: int = 0) -> bool:
        """Takes an idle instance to busy poll it (`napi_busy_loop`); returns False if it isn't idle."""
        return bool(c.napi_busy_take(self._state, who) == Status.TAKEN)

    def busy_stop(self, who: int = 0) -> None:
        """Stops busy polling (`busy_poll_stop`): one poll has to follow. NOT_ALLOWED."""
        c.napi_busy_stop(self._state, who)

    def set_threaded(self, threaded: bool, who: int = 0) -> None:
        """Sets whether the instance is scheduled on its own thread (`dev_set_threaded`)."""
        c.napi_set_threaded(self._state, who, threaded)

    def enable(self, threaded: bool = False, who: int = 0) -> None:
        """For the controller: enables the instance (`napi_enable`). Call schedule once after it, because an earlier request isn't polled.
        NOT_ALLOWED."""
        c.napi_enable(self._state, who, threaded)

    def mark_disable(self, who: int = 0) -> None:
        """For the controller, the first step of `napi_disable`: marks a disable as pending. NOT_ALLOWED."""
        c.napi_mark_disable(self._state, who)

    def take_disable(self, who: int = 0) -> bool:
        """For the controller, the second step of `napi_disable`, to be repeated until it returns True; False if a caller owns the instance.
        NOT_ALLOWED."""
        return bool(c.napi_take_disable(self._state, who) == Status.TAKEN)

    def unmark(self, who: int = 0) -> None:
        """For the controller, the third step of `napi_disable`: clears the mark. NOT_ALLOWED."""
        c.napi_unmark(self._state, who)

    @property
    def word(self) -> Word:
        """The state word."""
        return Word(c.napi_word(self._state))


class _Owned(_One):
    """An object on the library's heap, which is freed together with this object."""

    def __init__(self, at: Any, make: Callable[..., Any], *values: int) -> None:
        self._at = at
        make(at, *values)

    def __del__(self, abandon: Callable[..., Any] = c.abandon) -> None:
        if self._at.handle.private_set:
            abandon(self._at.handle)


class _Part(_Owned):
    """A part of an object, which the library has made."""

    def __init__(self, at: Any) -> None:
        self._at = at


class Ring(_Owned):
    """A receive ring of capacity 1 to 65536. BAD_CAPACITY."""

    def __init__(self, capacity: int) -> None:
        super().__init__(abi.Ring(), c.ring_new, capacity)

    def put(self, number: int, bytes: int) -> bool:
        """Puts a packet at the end of the ring; returns False if the ring is full."""
        return bool(c.ring_put(self._at, number, bytes) == Status.OK)

    def poll(self, weight: int = 64) -> list[Packet]:
        """Takes the first packets out, at most weight, which is 1 to 64. BAD_WEIGHT."""
        out, count = (abi.Packet * 64)(), abi.size()
        c.ring_poll(self._at, weight, out, 64, count)
        return [Packet(one.number, one.bytes) for one in out[: count.value]]

    @property
    def counts(self) -> Counts:
        """The counts of the ring's polls so far."""
        return c.shown(Counts, abi.Counts, c.count_sized, self._at.handle)


class PlaceIn(_Part):
    """The input end of a ring of places, which publishes packets."""

    def claim(self, publish: int, want: int) -> range:
        """Publishes the packets in the first elements that were claimed last, this many, and claims up to `want` elements, at most 64:
        returns their indices. They are fewer at the end of the list, or if the ring is full. NOT_ALLOWED if fewer were claimed."""
        return _places(c.ring_claim, self._at, publish, want)


class PlaceOut(_Part):
    """The output end of a ring of places, which takes packets."""

    def peek(self, release: int, want: int) -> range:
        """Releases the first elements that were peeked at last, this many, and peeks at up to `want` published packets, at most 64, the
        oldest ones: returns their indices. They are fewer at the end of the list, or if no more were published. NOT_ALLOWED if fewer
        were peeked at."""
        return _places(c.ring_peek, self._at, release, want)


def _places(call: Callable[..., Any], at: Any, done: int, want: int) -> range:
    first, count = abi.size(), abi.size()
    call(at, done, want, first, count)
    return range(first.value, first.value + count.value)


def place_ring(capacity: int) -> tuple[PlaceIn, PlaceOut]:
    """Makes a ring of places, 1 to 65536, and returns its ends. The packets are in a list of yours with as many elements, of which an end
    uses only those that it claimed, or peeked at. BAD_CAPACITY."""
    first, second = abi.Ring(), abi.Ring()
    c.ring_places(first, second, capacity)
    return PlaceIn(first), PlaceOut(second)


class TxRing(_Owned):
    """A transmit ring of 1 to 65536 packets under a byte queue limit between min and max: it keeps the sizes of the packets that were
    sent and aren't completed. Times are milliseconds of your own clock. BAD_BOUNDS, BAD_CAPACITY."""

    def __init__(self, capacity: int, min: int = 0, max: int = 1879048192, hold_ms: int = 1000, now_ms: int = 0) -> None:
        super().__init__(abi.Tx(), c.tx_new, capacity, min, max, hold_ms, now_ms)
        self._watchdog = abi.TxWatchdog()

    def send(self, bytes: int) -> Status:
        """Sends a packet to the device (`netdev_tx_sent_queue`): returns OK; or, if nothing is sent, STOPPED by the limit, or FULL.
        TOO_LARGE, TOO_MUCH_IN_FLIGHT."""
        return Status(c.tx_send(self._at, bytes))

    def done(self, count: int, now_ms: int) -> None:
        """Completes the oldest packets (`netdev_tx_completed_queue`). MORE_THAN_SENT, and completes none, if the device holds fewer."""
        c.tx_done(self._at, count, now_ms)

    def watch(self, limit_ms: int, now_ms: int) -> bool:
        """Returns whether it has been stopped, with no byte completed, for limit_ms since the first call that found it so
        (`dev_watchdog`): call it at each tick of a timer."""
        stuck = abi.boolean()
        c.tx_watch(self._at, self._watchdog, limit_ms, now_ms, stuck)
        return stuck.value

    @property
    def state(self) -> TxState:
        """The state of the ring."""
        return c.shown(TxState, abi.TxShown, c.tx_state_sized, self._at)


class List(_Owned):
    """A poll list: the numbers of devices, which runs poll in order."""

    def __init__(self) -> None:
        super().__init__(abi.List(), c.list_new)

    def push(self, id: int) -> bool:
        """Appends a number to the list; returns False if the list and its run hold 64. IN_USE if it is in the list already."""
        return bool(c.list_push(self._at, id) == Status.OK)

    def remove(self, id: int) -> Status:
        """Removes a number from the list; the others keep their order. Returns OK; BUSY, and nothing changes, if
        only the run over the list has it; NOT_THERE if neither of them has it."""
        return Status(c.list_remove(self._at, id))

    def __len__(self) -> int:
        """How many numbers the list and its run hold."""
        count = abi.u32()
        c.list_len(self._at, count)
        return count.value

    def run(self, poll: Callable[[int, int], tuple[int, Next]], budget: int = 300, weight: int = 64,
            window: int = 1024) -> RunReport:
        """Makes a run (`net_rx_action`): calls poll(id, weight) for the listed devices, until none is listed, or budget or
        window is used up. poll returns the packets that it processed and how it ended, and may push and remove others. BAD_BUDGET,
        BAD_WEIGHT; NOT_ALLOWED in a run of this list; BAD_WORK, more packets than the weight; IN_USE, if it asks to be
        listed twice.

        If poll raises, or its result is invalid, the run ends; that device isn't listed any more, all others are."""
        c.run_begin(self._at, budget, weight, window)
        id, report = abi.u32(), c.sized(abi.RunReport)
        try:
            while c.run_next(self._at, ctypes.byref(id)) == Status.OK:
                work, next = poll(id.value, weight)
                c.run_polled(self._at, work, next)
        finally:
            with contextlib.suppress(Fault):  # fails if no poll is open, as after a run without an exception
                c.run_polled(self._at, 0, Next.ABSENT)
            c.run_end_sized(self._at, report)
        return RunReport(report.polls, report.work, report.squeezed)
