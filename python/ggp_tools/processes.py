"""Runs other programs and waits until they end. Describes how they ended."""

import contextlib
import contextvars
import os
import pathlib
import signal
import subprocess
import sys
from collections.abc import Iterator, Sequence

from ggp_tools.competition import guard

# These arguments, followed by the id of this process and a command, run the command, and kill it when this process ends. If this process
# has already ended, the command does not run.
WITH_PARENT = ("setpriv", "--pdeathsig", "KILL", "--", "sh", "-c", 'test "$PPID" = "$0" && exec "$@"')
# The environment of the programs that end with this process, with their mark, or None.
APART: contextvars.ContextVar[dict[str, str] | None] = contextvars.ContextVar("APART", default=None)


@contextlib.contextmanager
def apart(mark: str) -> Iterator[None]:
    """While the block runs, the programs that this process starts get this mark. Ctrl-C at the terminal does not reach them, because this process
    finishes its work first. They end when this process ends, even if it is killed. Before the block runs, ends the programs that an earlier process
    with this mark left running."""
    guard.end_marked(mark)
    words = [sys.executable, "-I", str(pathlib.Path(guard.__file__).absolute()), mark]
    with subprocess.Popen(words, stdin=subprocess.PIPE, stdout=subprocess.DEVNULL, stderr=subprocess.DEVNULL, start_new_session=True):
        token = APART.set({**os.environ, guard.MARK: mark})
        try:
            yield
        finally:
            APART.reset(token)


def run_whole(words: Sequence[str], **more: object) -> subprocess.CompletedProcess:
    """Runs a program to its end, and returns its output."""
    environment = {**(APART.get() or os.environ), **more.pop("env", {})}
    return subprocess.run(words, capture_output=True, start_new_session=APART.get() is not None, env=environment, **more)


def ended_words(status: int) -> str:
    """Describes how a process ended. A negative status is the number of the signal that ended it."""
    name = next((f" ({known.name})" for known in signal.Signals if known == -status), "")
    return f"it was killed by signal {-status}{name}" if status < 0 else f"it ended with status {status}"
