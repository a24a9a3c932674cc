"""Limits the processor time of a block of code."""

import contextlib
import signal
from collections.abc import Iterator


class Late(Exception):
    """The limit of processor time has been reached."""


def late(signal_number: int, frame: object) -> None:
    raise Late


@contextlib.contextmanager
def limited(seconds: float) -> Iterator[None]:
    """Raises `Late` if the block uses more than `seconds` of processor time."""
    signal.signal(signal.SIGPROF, late)
    try:
        signal.setitimer(signal.ITIMER_PROF, seconds)
        yield
    finally:
        # The timer may still fire during this call.
        signal.setitimer(signal.ITIMER_PROF, 0)
