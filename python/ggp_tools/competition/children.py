"""Manages the processes that play and check matches, and sends ABORT. The processes always end when this process ends."""

import asyncio
import concurrent.futures
import contextlib
import errno
import json
import os
import shutil
import signal
import time
from collections.abc import AsyncIterator, Callable
from dataclasses import dataclass

from ggp_tools.printable import message_lines
from ggp_tools.processes import APART, WITH_PARENT, ended_words
from ggp_tools.referee import Referee

MOST_AT_ONCE = 1 << 16
# ABORT is sent to at most this many players at the same time.
MOST_ABORTS = 1_024
# A process is killed this many seconds after its time limit, because this process may notice late that the other one has ended.
SOON = 0.1
# Python ignores these signals, and other programs must not.
NOT_IGNORED = signal.SIGPIPE, signal.SIGXFSZ


class Watched(asyncio.subprocess.SubprocessStreamProtocol):
    """Sets an event when the started process has ended, even if another process still has the pipes open."""

    def __init__(self) -> None:
        super().__init__(MOST_AT_ONCE, asyncio.get_running_loop())
        self.ended = asyncio.Event()

    def process_exited(self) -> None:
        self.ended.set()
        super().process_exited()

    def pipe_connection_lost(self, fd: int, why: Exception | None) -> None:
        """Ignores that a process has closed its input. Python would report this as an error."""
        super().pipe_connection_lost(fd, why if fd else None)


@contextlib.asynccontextmanager
async def started(words: list[str], ends_itself: bool = False) -> AsyncIterator[tuple[asyncio.subprocess.Process, asyncio.Event]]:
    """Starts a process, and yields it with an event that is set when the process has ended. On exit, kills the process and its group. The process is
    also killed when this process ends, unless `ends_itself` is set: then it ends by itself. Ctrl-C at the terminal does not reach it."""
    loop, before = asyncio.get_running_loop(), () if ends_itself else (*WITH_PARENT, str(os.getpid()))
    if not shutil.which(words[0]):
        raise FileNotFoundError(errno.ENOENT, os.strerror(errno.ENOENT), words[0])
    starting = asyncio.create_task(loop.subprocess_exec(Watched, *before, *words, start_new_session=True))
    try:
        # Without the shield, a cancellation would kill the started process but not its children, and asyncio would wait for these children.
        transport, watched = await asyncio.shield(starting)
        yield asyncio.subprocess.Process(transport, watched, loop), watched.ended
    finally:
        transport, watched = await starting
        if not watched.ended.is_set():
            with contextlib.suppress(ProcessLookupError):
                os.killpg(transport.get_pid(), signal.SIGKILL)
            await watched.ended.wait()
        transport.close()


@dataclass
class Done:
    """A process that has ended, with its standard output and its standard error. If the process ran out of time, the status is None."""

    status: int | None
    output: bytes
    errors: bytes
    seconds: float

    def verdict(self) -> dict:
        """Returns the JSON object that the process printed, or an empty object if it printed nothing."""
        return json.loads(self.output or b"{}")

    def message(self) -> str:
        """Returns the last line of standard error or, if there is none, how the process ended."""
        return (message_lines(self.errors) or [f"{ended_words(self.status)}, without a message"])[-1]


def spawned(words: list[str], *outputs: int) -> int:
    """Starts a program without input, in a new session, and returns its process id. `outputs` are the descriptors of its standard output and its
    standard error."""
    streams = [(os.POSIX_SPAWN_OPEN, 0, os.devnull, os.O_RDONLY, 0), *((os.POSIX_SPAWN_DUP2, file, at) for at, file in enumerate(outputs, 1))]
    return os.posix_spawnp(words[0], words, APART.get() or os.environ, file_actions=streams, setsid=True, setsigdef=NOT_IGNORED)


async def status_of(process: int, seconds: float | None) -> int | None:
    """Waits until a process has ended, and returns its exit status. If its time runs out, kills the process with its group and returns None. If the
    caller is cancelled, kills them as well."""
    loop, has_ended, descriptor = asyncio.get_running_loop(), asyncio.Event(), -1
    try:
        descriptor = os.pidfd_open(process)
        loop.add_reader(descriptor, has_ended.set)
        with contextlib.suppress(TimeoutError):
            async with asyncio.timeout(seconds):
                await has_ended.wait()
    finally:
        ended, status = os.waitpid(process, os.WNOHANG)
        if not ended:
            os.killpg(process, signal.SIGKILL)
            await asyncio.to_thread(os.waitpid, process, 0)
        if descriptor >= 0:
            loop.remove_reader(descriptor)
            os.close(descriptor)
    return os.waitstatus_to_exitcode(status) if ended else None


async def run(words: list[str], seconds: float | None = None) -> Done:
    """Runs a program to its end. Kills the program after `seconds`, or if the caller is cancelled."""
    began = time.monotonic()
    with contextlib.ExitStack() as stack:
        # A file in memory is cheaper than a pipe, and contains all output as soon as the program has ended.
        output, errors = (stack.enter_context(open(os.memfd_create(name), "r+b", buffering=0)) for name in ("output", "errors"))
        status = await status_of(spawned(words, output.fileno(), errors.fileno()), None if seconds is None else seconds + SOON)
        for file in (output, errors):
            file.seek(0)
        return Done(status, output.read(), errors.read(), time.monotonic() - began)


async def in_thread(threads: concurrent.futures.Executor | None, call: Callable[[], object]) -> None:
    """Makes the call in one of `threads`, or in a thread of the event loop. Waits until the call ends, even if the caller is cancelled."""
    calling = asyncio.get_running_loop().run_in_executor(threads, call)
    try:
        await asyncio.shield(calling)
    finally:
        await asyncio.wait([calling])


async def is_answered(referee: Referee, match: str, place: str, slots: asyncio.Semaphore) -> bool:
    """Sends ABORT to a player. Returns whether the player answered. If the command cannot be run, the player counts as silent."""
    async with slots:
        try:
            return (await run(referee.abort_words(match, place))).status == 0
        except OSError:
            return False


async def send_aborts(referee: Referee, places: dict[str, list[str]], seconds: float | None = None) -> dict[str, list[str]]:
    """Sends ABORT, to many players at the same time, for matches that no referee is playing. `places` gives the addresses of the players by match id.
    Returns the players that did not answer within `seconds` (10 if None), also by match id."""
    slots = asyncio.Semaphore(MOST_ABORTS)
    sent = {(match, place): asyncio.create_task(is_answered(referee, match, place, slots)) for match in places for place in places[match]}
    if sent:
        _, late = await asyncio.wait(sent.values(), timeout=seconds)
        for task in late:
            task.cancel()
        await asyncio.gather(*late, return_exceptions=True)
    silent: dict[str, list[str]] = {}
    for match, place in sorted(sent):
        if sent[match, place].cancelled() or not sent[match, place].result():
            silent.setdefault(match, []).append(place)
    return silent
