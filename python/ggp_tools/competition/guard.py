"""Ends the programs that `play` runs when `play` has ended, even if `play` was killed. The guard needs only Python's standard library.

Each program that `play` runs has a mark in its environment, and passes this mark on to the programs that it starts. The standard input of the guard
ends once `play` has ended and the programs that it was starting at that moment have begun."""

import contextlib
import os
import pathlib
import selectors
import signal
import sys
import time

MARK = "GGP_COMPETITION_PLAY"
# A killed process may need this many seconds to end.
END_SECONDS = 15


def marked(value: str) -> list[int]:
    """Returns the processes whose mark is `value`."""
    mark, processes = os.fsencode(f"{MARK}={value}"), []
    for file in pathlib.Path("/proc").glob("[0-9]*/environ"):
        # The environments of the processes of other users can't be read.
        with contextlib.suppress(OSError):
            if mark in file.read_bytes().split(b"\0"):
                processes.append(int(file.parent.name))
    return processes


def end(process: int, seconds: float) -> None:
    """Kills a process, and waits at most this many seconds until it has ended."""
    descriptor = os.pidfd_open(process)
    try:
        signal.pidfd_send_signal(descriptor, signal.SIGKILL)
        with selectors.DefaultSelector() as ended:
            ended.register(descriptor, selectors.EVENT_READ)
            ended.select(seconds)
    finally:
        os.close(descriptor)


def end_marked(value: str) -> None:
    """Kills the processes whose mark is `value`, and all processes that these processes start in the meantime."""
    until = time.monotonic() + END_SECONDS
    while (processes := marked(value)) and (left := until - time.monotonic()) > 0:
        for process in processes:
            with contextlib.suppress(ProcessLookupError):
                end(process, left)


def main() -> None:
    for number in (signal.SIGINT, signal.SIGTERM, signal.SIGHUP):
        signal.signal(number, signal.SIG_IGN)
    while os.read(0, 1 << 16):
        pass
    end_marked(sys.argv[1])


if __name__ == "__main__":
    main()
