"""Instances that threads share: the ring's input, the controller, and the callers."""
from __future__ import annotations

from typing import Any, Callable, NamedTuple

from . import _abi as abi
from . import _library as c
from ._abi import Kind, Next, Status, Word
from ._faults import Fault
from ._objects import Counts, Packet, _Part


class Answers(NamedTuple):
    """How often the calls of a caller returned each result."""
    granted: int
    missed: int
    disabled: int
    released: int
    again: int
    held: int
    changed: int


def _decided(call: Callable[..., Any], *values: Any) -> Status:
    """Repeats a call while it returns CHANGED, because another thread changed the instance, and returns its result."""
    while (said := Status(call(*values))) is Status.CHANGED:
        pass
    return said


class Input(_Part):
    """The input of the instance's ring."""

    def put(self, number: int, bytes: int) -> bool:
        """Puts a packet into the ring, after all others; returns False if the ring is full."""
        return bool(c.ring_put(self._at, number, bytes) == Status.OK)

    @property
    def count(self) -> int:
        """The number of packets that were put so far."""
        return c.shown(lambda put, capacity: int(put), abi.RingShown, c.ring_show_sized, self._at)


class Caller(_Part):
    """A caller of a shared instance. A call that isn't allowed in its state raises NOT_ALLOWED, and changes nothing."""

    def schedule(self) -> Status:
        """Requests a poll (`napi_schedule_prep`): returns GRANTED, and the caller has to queue the instance; MISSED; or DISABLED."""
        return Status(c.caller_schedule_prep(self._at))

    def hand(self, kind: Kind = Kind.LIST) -> None:
        """Queues a granted instance (`____napi_schedule`)."""
        c.caller_hand(self._at, kind)

    def request(self, mask: Callable[[], object] = lambda: None) -> tuple[Status, Next]:
        """Requests a poll (`napi_schedule`). If the request is granted, masks the card and queues the instance as the state word says;
        after AGAIN its number has to be listed, after AGAIN_THREAD its thread has to poll. If it is MISSED or DISABLED, the second result
        is GONE."""
        said = self.schedule()
        if said is not Status.GRANTED:
            return said, Next.GONE
        mask()
        next = abi.u32()
        c.caller_hand_again(self._at, next)
        return said, Next(next.value)

    def take(self, kind: Kind = Kind.LIST) -> bool:
        """Takes the instance from the list or as its thread; returns False if it isn't there."""
        return bool(c.caller_take(self._at, kind) == Status.TAKEN)

    def poll(self, weight: int = 64) -> list[Packet]:
        """Takes the ring's next packets out, at most weight, which is 1 to 64. BAD_WEIGHT."""
        out, count = (abi.Packet * 64)(), abi.size()
        c.caller_poll(self._at, weight, out, 64, count)
        return [Packet(one.number, one.bytes) for one in out[: count.value]]

    def requeue(self) -> None:
        """Puts the instance on the list again."""
        c.caller_requeue(self._at)

    def complete(self) -> Status:
        """Ends a poll (`napi_complete_done`): returns RELEASED; AGAIN, and the caller has to queue the instance again; HELD for a busy
        poller."""
        return Status(c.caller_complete_done(self._at))

    def end(self, full: bool) -> Next | None:
        """Ends a poll as the kernel does (`__napi_poll`), like `fq_caller_end`: returns what to pass to the run, or None if the caller keeps
        polling."""
        next = abi.u32()
        return None if c.caller_end(self._at, full, next) == Status.HELD else Next(next.value)

    def busy_take(self) -> bool:
        """Takes an idle instance to busy poll it (`napi_busy_loop`); returns False if it isn't idle."""
        return _decided(c.caller_busy_take, self._at) is Status.TAKEN

    def busy_stop(self) -> None:
        """Stops busy polling (`busy_poll_stop`): one poll has to follow."""
        _decided(c.caller_busy_stop, self._at)

    def set_threaded(self, threaded: bool) -> None:
        """Sets whether the instance is scheduled on its own thread (`dev_set_threaded`)."""
        c.caller_set_threaded(self._at, threaded)

    @property
    def word(self) -> Word:
        """The state word."""
        word = abi.u64()
        c.caller_look(self._at, word)
        return Word(word.value)

    @property
    def counts(self) -> Counts:
        """The counts of the ring's polls so far, for a caller that polls."""
        return c.shown(Counts, abi.Counts, c.count_sized, self._at.handle)

    @property
    def answers(self) -> Answers:
        """How often its calls returned each result."""
        return c.shown(Answers, abi.Answers, c.caller_count_sized, self._at)


class Control(_Part):
    """The controller of an instance, which is disabled at first. A call that isn't allowed in its state raises NOT_ALLOWED."""

    def enable(self, threaded: bool = False) -> None:
        """Enables the instance (`napi_enable`). Request a poll once after it (`Caller.request`), or enable by `open`: an earlier request
        isn't polled, and a masked card would wait forever."""
        c.control_step(self._at, True, threaded)

    def open(self, caller: Caller, threaded: bool = False, mask: Callable[[], object] = lambda: None) -> tuple[Status, Next]:
        """Opens a driver's instance: enables it, and requests a poll once by a caller that owns nothing. Returns what `Caller.request`
        returns. BAD_HANDLE, and nothing is done, if the caller is another instance's."""
        c.control_has(self._at, caller._at)
        self.enable(threaded)
        return caller.request(mask)

    def mark(self) -> None:
        """Marks a disable as pending (the first step of `napi_disable`)."""
        c.control_mark(self._at)

    def try_take(self) -> bool:
        """The second step, to be repeated between polls until it returns True: then the instance is disabled; False if a caller owns it."""
        return _decided(c.control_try_take, self._at) is Status.TAKEN


def shared(capacity: int, callers: int = 2) -> tuple[Input, Control, list[Caller]]:
    """Makes a disabled instance over a ring of capacity 1 to 65536; returns the ring's input, the controller and 2 to 8 callers.
    BAD_CAPACITY, BAD_COUNT."""
    if not 2 <= callers <= 8:
        raise Fault(Status.BAD_COUNT)
    ring, control, made = abi.Ring(), abi.Control(), (abi.Caller * callers)()
    c.ring_new(ring, capacity)
    owned = Input(ring)
    c.shared_new(ring, control, made, callers)
    return owned, Control(control), [Caller(made[i]) for i in range(callers)]
