"""The driver of up to 64 devices on one thread."""
from __future__ import annotations

import itertools
from typing import Any, NamedTuple, Protocol

from . import _abi as abi
from . import _library as c
from ._abi import DeviceState, Rearm, Status, What
from ._objects import RunReport, _Owned


_made = itertools.count()


class Todo:
    """An action: mask or unmask the card of `device`, look whether it has packets, fetch at most `most` of them, or set its timer to
    `nanoseconds`. Before a fetch, mask the card if `mask` is true. `run` is the report of a run that ended, with ENDED and SLEEP.
    `packets` are those that a look found or a fetch took, set for the report; before, 1 for a look. `rearm` says whether a fetch also
    unmasked the card and looked at it. `status` is NOT_DUE if the driver didn't wait for the last report any more, an error with FAILED,
    otherwise OK. A new one is no action."""

    def __init__(self) -> None:
        self._raw = abi.Todo()

    @property
    def what(self) -> What:
        return What(self._raw.what)

    @property
    def device(self) -> int:
        return int(self._raw.device)

    @property
    def most(self) -> int:
        return int(self._raw.most) if self.what is What.FETCH else 0

    @property
    def mask(self) -> bool:
        return bool(self._raw.mask)

    @property
    def status(self) -> Status:
        return Status(self._raw.status)

    @property
    def nanoseconds(self) -> int:
        return int(self._raw.nanoseconds)

    @property
    def packets(self) -> int:
        return 0 if self._ends_a_run else int(self._raw.packets)

    @packets.setter
    def packets(self, packets: int) -> None:
        self._raw.packets = c.number(packets, "packets")

    @property
    def rearm(self) -> Rearm:
        return Rearm(self._raw.rearm)

    @rearm.setter
    def rearm(self, rearm: Rearm) -> None:
        self._raw.rearm = rearm

    @property
    def run(self) -> RunReport:
        return RunReport(self._raw.most, self._raw.packets, self._raw.squeezed) if self._ends_a_run else RunReport(0, 0, False)

    @property
    def _ends_a_run(self) -> bool:
        return self.what in (What.ENDED, What.SLEEP)


def _raw_of(todo: Todo) -> Any:
    """Returns the struct of an action."""
    if not isinstance(todo, Todo):
        raise TypeError(f"an action is a Todo, not a {type(todo).__name__}")
    return todo._raw


class Cards(Protocol):
    """The cards of a driver, by the numbers of their devices. `look` returns whether a card has packets; `fetch` takes packets from it, at
    most this many, delivers them, and returns how many. If they also have `rearm(device)`, which unmasks a card and then returns whether it
    has packets, a fetch of fewer packets calls it, which saves two actions; leave it out for devices with deferral or busy polling. With
    deferral they also have `timer(device, nanoseconds)`, which sets a timer."""

    def mask(self, device: int) -> object: ...
    def unmask(self, device: int) -> object: ...
    def look(self, device: int) -> bool: ...
    def fetch(self, device: int, most: int) -> int: ...


class DeviceShown(NamedTuple):
    """The state of a device: whether a poll is requested, and whether an interrupt came meanwhile; its polls, and the packets of these."""
    state: DeviceState
    scheduled: bool
    missed: bool
    polls: int
    packets: int


class Driver(_Owned):
    """The driver of 1 to 64 devices, all closed at first: their instances, the poll list and the runs over it. Calls may come in any order:
    one that isn't due returns False and changes nothing. BAD_COUNT, BAD_WEIGHT, BAD_BUDGET."""

    def __init__(self, devices: int, budget: int = 300, weight: int = 64, window: int = 1024) -> None:
        super().__init__(abi.Driver(), c.driver_new_salted, devices, budget, weight, window, next(_made) % 2**16)

    def open(self, device: int) -> bool:
        """Opens a closed device (`napi_enable`); returns False if it isn't closed. BAD_DEVICE."""
        return bool(c.driver_open(self._at, device) == Status.OK)

    def stop(self, device: int) -> bool:
        """Stops an open device (`napi_disable`): polls that were requested are made, its card is masked, and then it is closed. Returns
        False if it isn't open. BAD_DEVICE."""
        return bool(c.driver_stop(self._at, device) == Status.OK)

    def turn(self, interrupts: int, todo: Todo) -> What:
        """Reports that the action in `todo` was done, with `todo.packets`, then the interrupts of the devices whose bits are set, and sets
        `todo` to what has to be done now, which it returns. A loop needs only this call, and keeps its Todo; a new one reports nothing.
        After an error `todo` is FAILED: BAD_DEVICE for a bit without a device, and nothing has changed; NOT_REPORTED if the driver waits
        for the report of another action, which `next` returns again; BAD_WORK if a fetch took more than `most`."""
        c.driver_turn(self._at, interrupts, _raw_of(todo))
        return todo.what

    def interrupt(self, device: int) -> Status:
        """Reports an interrupt of a card (`napi_schedule`), at any time: GRANTED, MISSED or DISABLED. BAD_DEVICE. Report those that came before
        each step or act: a device that always has packets keeps the driver from sleeping."""
        return Status(c.driver_interrupt(self._at, device))

    def timer(self, device: int) -> bool:
        """Reports that the timer of a device expired (`napi_watchdog`), at any time; returns whether that requested a poll. BAD_DEVICE."""
        return bool(c.driver_timer(self._at, device) == Status.GRANTED)

    def set(self, device: int, weight: int = 64, defer_hard_irqs: int = 0, gro_flush_timeout: int = 0, empty_polls: int = 0) -> None:
        """Sets the weight of a closed device, the deferral of its interrupt, for `gro_flush_timeout` nanoseconds (`napi_defer_hard_irqs`), and
        busy polling until `empty_polls` empty polls in a row. BAD_DEVICE, BAD_WEIGHT; BAD_SETTING for `defer_hard_irqs` without
        `gro_flush_timeout`; NOT_ALLOWED if it isn't closed."""
        settings = c.sized(abi.DeviceSettings, weight=weight, defer_hard_irqs=defer_hard_irqs, gro_flush_timeout=gro_flush_timeout,
                           empty_polls=empty_polls)
        c.driver_set_sized(self._at, device, settings)

    def end_run(self) -> bool:
        """Ends the run in progress, by a clock of the caller (`netdev_budget_usecs`): a fetch that is due already is still made, and then the
        run has ended and is squeezed. Returns False if no run is in progress."""
        return bool(c.driver_end_run(self._at) == Status.OK)

    def next(self) -> Todo:
        """Returns what has to be done now. An action that isn't reported is returned again."""
        todo = Todo()
        c.driver_next(self._at, todo._raw)
        return todo

    def done(self, todo: Todo, packets: int | None = None) -> bool:
        """Reports that an action was done, with the packets of a look or a fetch, if they aren't set in `todo`. Returns False if the driver
        doesn't wait for this report any more. BAD_WORK if a fetch took more than `most`."""
        raw = _raw_of(todo)
        if packets is not None:
            todo.packets = packets
        return bool(c.driver_done(self._at, raw) == Status.OK)

    def step(self, todo: Todo) -> What:
        """Like `turn`, without interrupts; to mask a card is always an action of its own."""
        c.driver_step(self._at, _raw_of(todo))
        return todo.what

    def act(self, cards: Cards) -> What:
        """Does one action at a card, reports it, and returns it; SLEEP if there is nothing to do, ENDED if a run ended. If a call raises,
        nothing is reported, and the same action is due again. BAD_WORK if a fetch took more than `most`."""
        todo, packets = self.next(), 0
        what = todo.what
        if todo.mask or what is What.MASK:
            cards.mask(todo.device)
        if what is What.UNMASK:
            cards.unmask(todo.device)
        elif what is What.LOOK:
            packets = int(bool(cards.look(todo.device)))
        elif what is What.TIMER:
            getattr(cards, "timer")(todo.device, todo.nanoseconds)
        elif what is What.FETCH:
            packets = cards.fetch(todo.device, todo.most)
            rearm = getattr(cards, "rearm", None)
            if rearm and packets < todo.most:
                todo.rearm = Rearm.MORE if rearm(todo.device) else Rearm.EMPTY
        elif what is not What.MASK:
            return what
        self.done(todo, packets)
        return what

    def shown(self, device: int) -> DeviceShown:
        """Returns the state of a device, and the counts of its polls. BAD_DEVICE."""
        return c.shown(lambda state, *others: DeviceShown(DeviceState(state), *others), abi.DeviceShown, c.driver_show_sized, self._at, device)
