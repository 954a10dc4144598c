"""Which part of the packets' waits passed while another task had the processor, and what a full socket dropped: for advise. It explains a recording
and predicts nothing."""

from __future__ import annotations

import bisect
from collections import Counter
from collections.abc import Collection, Iterable, Iterator, Sequence
from itertools import chain, islice

from fintaqush_tools.errors import Refusal
from fintaqush_tools.layout import Layout
from fintaqush_tools.predicting import LATE, percentile, us
from fintaqush_tools.receiving import Deliveries, Receiving
from fintaqush_tools.recording import Head, rise_of
from fintaqush_tools.tasks import KERNEL_TASKS, Tasks
from fintaqush_tools.texts import shown

Span = tuple[int, int, int]  # a processor, and when a wait there begins and ends

FEWEST = 1000  # waits, of which a percentile is known
NOTABLE = 0.1  # least share that is worth a line
SLOWEST = 100  # one in so many waits
MOST = 20_000  # waits that are looked at
FLIGHT = 50_000  # ns, the longest time from a packet to the end of its interrupt
NAMED = 3  # tasks
MOVE = "give these tasks other processors or priorities"


def spans_of(seen: Receiving, deliveries: Deliveries) -> list[tuple[int, Span]]:
    """Returns for each delivered packet its wait, from its arrival to the end of its poll, and the part of it in which a task could keep the poll from
    beginning: from the end of the interrupt that asked for the poll, or from the arrival if no interrupt soon followed, to the softirq or the thread.
    """
    count, spans = sum(map(len, deliveries.values())), []
    for packet, poll, _ in islice(chain.from_iterable(deliveries.values()), 0, None, count // MOST + 1):
        cpu, came, run = seen.on[poll], seen.sent[packet], seen.run[poll]
        end = seen.entries[cpu][run - 1] if run else seen.begun[poll] or seen.ended[poll]
        asked = seen.asked[cpu]
        at = bisect.bisect_left(asked, came)
        begin = asked[at] if at < len(asked) and asked[at] <= min(end, came + FLIGHT) else came
        spans.append((max(0, seen.ended[poll] - came), (cpu, begin, max(begin, end))))
    return spans


def others_in(tasks: Tasks, spans: Iterable[Span], known: Collection[int]) -> Counter[str]:
    """Returns how long tasks had the processors in these spans, other than idle tasks, those that poll, and those with known numbers."""
    taken: Counter[str] = Counter()
    for processor, begin, end in spans:
        times, switches = tasks.history[processor]
        place = max(0, bisect.bisect_right(times, begin) - 1)
        while place < len(times) and times[place] < end:
            until = times[place + 1] if place + 1 < len(times) else end
            name, number, _ = switches[place].next
            if number and number not in known and not KERNEL_TASKS.match(name):
                taken[name] += max(0, min(end, until) - max(begin, times[place]))
            place += 1
    return taken


def told(waits: Sequence[tuple[int, Span]], tasks: Tasks, known: Collection[int]) -> tuple[float, str]:
    """Returns the share of these waits that passed while other tasks had the processor, and the tasks."""
    whole = max(1, sum(wait for wait, _ in waits))
    taken = others_in(tasks, (span for _, span in waits), known)
    names = ", ".join(f"{shown(name)} {100 * time / whole:.0f} %" for name, time in taken.most_common(NAMED))
    return sum(taken.values()) / whole, names


def check_waits(seen: Receiving, goal: str, known: Collection[int], remedy: str = MOVE) -> None:
    """Fails if other tasks doubled a wait by which the predictions for a goal are judged, because no prediction fits then. `seen` may be of a
    part of the recording; `remedy` says what to do."""
    waits = spans_of(seen, seen.deliveries())
    whole = sorted(wait for wait, _ in waits)
    own = sorted(wait - sum(others_in(seen.tasks, [span], known).values()) for wait, span in waits)
    for each in {"p50", goal} if len(waits) >= FEWEST else ():
        most, least = (percentile(some, 10 * int(each[1:])) for some in (whole, own))
        if most > 2 * least and most - least > LATE * (each == "p99"):
            share, names = told(waits, seen.tasks, known)
            raise Refusal(
                f"of the waits to delivery of its first {len(seen.sent)} packets {100 * share:.0f} % passed while another task had the processor ({names}), so "
                f"their {each} is {us(most)} us instead of {us(least)}, and no prediction of waits fits: {remedy}, then record again; --goal cpu and --goal drops "
                "need no wait"
            )


def lines_of_socket(head: Head) -> Iterator[str]:
    """Yields a line about packets that were delivered and then dropped, because the socket's buffer was full."""
    if dropped := rise_of(head, "udp.RcvbufErrors") or 0:
        yield (
            f"{dropped} datagrams were delivered and then dropped at a full socket: the program reads too slowly, or the buffer is too small "
            "(SO_RCVBUF, net.core.rmem_max), and no setting that is tried here changes that"
        )


def lines_of_traffic(seen: Receiving) -> Iterator[str]:
    """Yields a line about polls with packets of other devices too, and one about packets that are sent within the thread that polls, if they are many."""
    if seen.shared >= NOTABLE * max(1, len(seen.ended)):
        yield (
            f"{seen.shared} of {len(seen.ended)} polls took packets of other devices too, as the replies that a program here sends over a veth pair or lo: "
            "these aren't arrivals of the prediction, and a packet waits for them, or is polled with them"
        )
    if seen.by_threads >= NOTABLE * max(1, len(seen.sent)):
        yield (
            f"{100 * seen.by_threads / len(seen.sent):.0f} % of the packets were sent by softirqs that interrupted the thread which polls, as a sender on this "
            "machine does when it gets an acknowledgement: the thread polls only afterwards, the ring may be full by then, and neither is predicted: record "
            "without threads, or traffic of another machine"
        )


def lines_of(seen: Receiving, layout: Layout, known: Collection[int], remedy: str = MOVE) -> Iterator[str]:
    """Yields a line about all waits and the slowest of them, if other tasks have a notable share."""
    waits = sorted(spans_of(seen, layout.deliveries), key=lambda each: each[0])
    slowest = waits[-max(1, len(waits) // SLOWEST) :]
    (share, names), (slow_share, slow_names) = (told(each, seen.tasks, known) for each in (waits, slowest))
    if max(share, slow_share) >= NOTABLE:
        named, slow_named = (f" ({each})" if each else "" for each in (names, slow_names))
        all_of = f"of the waits to delivery {100 * share:.0f} % passed while another task had the processor{named}"
        slow = f"of the slowest one in {SLOWEST} {100 * slow_share:.0f} %{slow_named}"
        what = f"no setting that is tried here changes that: {remedy}, then record again"
        yield f"{all_of}, and {slow}: {what}"
