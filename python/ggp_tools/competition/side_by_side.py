"""Calls a function for many matches. Several processes share the calls."""

import itertools
import os
import signal
import threading
import typing
from collections.abc import Callable, Iterator, Sequence

from ggp_tools.referee import Unchecked

PROCESSORS = min(8, len(os.sched_getaffinity(0)))
# With at least this many calls, several worker processes share them. Each process takes this many calls at a time.
MANY, CHUNK = 100, 16
# The function, and the arguments of each call. A worker process inherits both.
WORK: list[typing.Any] = []


def begin(function: Callable[..., object], calls: Sequence[tuple]) -> None:
    """Prepares a worker process, which ignores interrupts, because its parent handles them."""
    signal.signal(signal.SIGINT, signal.SIG_IGN)
    WORK[:] = function, calls


def called(at: int) -> object:
    function, calls = WORK
    return function(*calls[at])


def made_side_by_side(function: Callable[..., object], calls: Sequence[tuple]) -> Iterator[typing.Any]:
    """Calls a function with each of these arguments, and yields its results in order. If there are many calls, several processes share them, unless
    this process has other threads, because then it can't fork safely."""
    if len(calls) < MANY or PROCESSORS == 1 or threading.active_count() > 1:
        yield from itertools.starmap(function, calls)
        return
    import concurrent.futures.process
    import multiprocessing

    with concurrent.futures.ProcessPoolExecutor(PROCESSORS, multiprocessing.get_context("fork"), begin, (function, calls)) as pool:
        try:
            yield from pool.map(called, range(len(calls)), chunksize=CHUNK)
        except concurrent.futures.process.BrokenProcessPool:
            raise Unchecked("matches can't be checked, or pages can't be made: a process was killed, for example because it was out of memory") from None
