"""Calls in several threads, each of which mostly waits for a program."""

from __future__ import annotations

import os
from collections.abc import Callable, Collection, Iterator
from concurrent.futures import Future, ThreadPoolExecutor
from queue import SimpleQueue
from typing import TypeVar

Item = TypeVar("Item")
Result = TypeVar("Result")


def in_threads(call: Callable[[Item], Result], items: Collection[Item], jobs: int | None = None) -> Iterator[Result]:
    """Calls a function for each item in so many threads, one per processor by default. Yields the results as they come. The queue's methods
    are atomic for signals, which those of futures aren't."""
    pool, done = ThreadPoolExecutor(jobs or os.cpu_count()), SimpleQueue[Future[Result]]()
    try:
        for item in items:
            pool.submit(call, item).add_done_callback(done.put)
        for _ in items:
            yield done.get().result()
    finally:
        pool.shutdown(cancel_futures=True)
