"""Which tasks had the processors of a recording, and for how long. Times are in ns."""

from __future__ import annotations

import re
from array import array
from collections import Counter, defaultdict
from collections.abc import Collection

from fintaqush_tools.recording import SWITCH, Event, Switch, Task

# Tasks that poll, or that take negligible time.
KERNEL_TASKS = re.compile(r"swapper|ksoftirqd/|napi/|migration/|rcu|cpuhp/|idle_inject/")
REAL_TIME = 100  # a lower priority is that of a real-time task, which no other task disturbs


class Tasks:
    """The tasks of each processor. `end` has to be called before shares are asked for."""

    times: defaultdict[int, Counter[Task]]
    history: defaultdict[int, tuple[array[int], list[Switch]]]

    def __init__(self) -> None:
        self.times, self.first, self.last = defaultdict(Counter), 0, 0
        self.history = defaultdict(lambda: (array("Q"), []))  # by processor, the time of each switch, and the switch

    def switch(self, event: Event) -> Switch:
        """Handles a switch, and returns it."""
        found = event.parts(SWITCH)
        times, switches = self.history[event.cpu]
        times.append(event.time)
        switches.append(found)
        return found

    def end(self, first: int, last: int) -> None:
        """Ends the recording, which lasted from `first` to `last`."""
        self.first, self.last = first, last
        for processor, (times, switches) in self.history.items():
            since, taken = first, self.times[processor]
            for time, found in zip(times, switches):
                taken[found.last] += time - since
                since = time
            taken[switches[-1].next] += max(0, last - since)

    def idle(self) -> dict[int, float]:
        """Returns the share of the time in which each processor was idle, of those on which a task was switched."""
        whole = max(1, self.last - self.first)
        return {
            processor: sum(time for (_, number, _), time in times.items() if not number) / whole
            for processor, times in self.times.items()
        }

    def others(self, processor: int, known: Collection[int], names: Collection[str]) -> dict[str, float]:
        """Returns the shares of a processor's time that other tasks had, which can disturb: tasks that don't poll and that aren't in `known`
        (process numbers) or `names`. Only other real-time tasks can disturb a real-time task."""
        own = []
        others: Counter[tuple[str, int]] = Counter()
        for (name, process, priority), time in self.times.get(processor, Counter()).items():
            if process in known or re.match("ksoftirqd/|napi/", name):
                own.append(priority)
            elif process and name not in names and not KERNEL_TASKS.match(name):
                others[name, priority] += time
        most = REAL_TIME if own and max(own) < REAL_TIME else REAL_TIME * 2
        times: Counter[str] = Counter()
        for (name, priority), time in others.items():
            times[name] += time if priority < most else 0
        whole = max(1, self.last - self.first)
        return {name: time / whole for name, time in times.most_common() if time}
