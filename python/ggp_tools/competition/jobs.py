"""Runs jobs. A job runs a match on another computer, or a player on this or another computer."""

import asyncio
import json
import pathlib
import re
import sys
from collections.abc import Awaitable, Callable, Sequence

from ggp_tools.competition.children import MOST_AT_ONCE, started
from ggp_tools.competition.competition_file import QUEUE_SECONDS, is_address
from ggp_tools.competition.job import BEAT, OURS
from ggp_tools.match_log import LONGEST_LINE
from ggp_tools.printable import printable

SILENT, LONG = "it sent nothing for {:.0f} s", "it sent a line of more than {:,} bytes"
NOT_RUN = "its launcher did not run it within {:,} s; it may need more `queue_seconds`"
NO_PLAYER = "it sent {!r} instead of the player's process and address"
# After a job has ended, its output is read only for this many seconds, because a process that the job left behind may keep the pipe open.
MOST_UNREAD = 2
# A job has END_SECONDS to end its processes. If it sends nothing for LOST_SECONDS, it counts as lost.
END_SECONDS, LOST_SECONDS = 3, 10
# If this program sends nothing for this many seconds, a job ends its processes, so that the match can be started elsewhere. A job on this
# computer notices at once when this program ends, so this program may be silent, for example while it is stopped by Ctrl-Z.
SILENCE, HERE_SILENCE = 20, 10**9
# The maximum length of the name of a node, and that of a process with its address.
MOST_OF_NAME = 300
PROCESS = re.compile("[0-9]{1,10}")
JOB = pathlib.Path(__file__).with_name("job.py").absolute()


class Lost(Exception):
    """The reason why a job was given up."""


def is_player(text: str) -> bool:
    """Returns whether a text has the form of a player's process id and address."""
    process, _, address = text.partition(" ")
    return bool(PROCESS.fullmatch(process)) and is_address(address)


class Job:
    """A run of `job.py`, by a launcher on another computer, or without a launcher on this one. `take_output` receives the standard output of
    the job. `take_lines` receives the lines that the job passes on to standard error, several at a time. A launcher must run the job within
    `queue_seconds`. The computer that runs the job may be hostile."""

    def __init__(
        self, take_output: Callable[[bytes], Awaitable[None]], take_lines: Callable[[bytes], Awaitable[None]],
        queue_seconds: float = QUEUE_SECONDS, end_seconds: float = END_SECONDS,
    ) -> None:
        self.take_output, self.take_lines, self.queue_seconds, self.end_seconds = take_output, take_lines, queue_seconds, end_seconds
        self.runs, self.has_player, self.process, self.is_remote = asyncio.Event(), asyncio.Event(), None, False
        # Reported by the job: the node, the process and the address of a player, and the exit status. The last attribute is the reason why the job
        # was given up.
        self.node, self.player, self.status, self.why = "", "", None, ""
        # Whether the job has its task, and whether the task may continue after the local process of the job has ended.
        self.has_begun, self.goes_on = False, False

    def start(self, launcher: Sequence[str], task: dict[str, object] | None = None) -> None:
        """Starts the job. When it ends, the task `running` ends."""
        self.running = asyncio.create_task(self.run(launcher, task))

    def begin(self, task: dict[str, object]) -> None:
        """Sends the job its task through standard input, so that no launcher needs to quote it."""
        self.has_begun = True
        self.process.stdin.write(json.dumps(task).encode() + b"\n")

    async def reports(self, event: asyncio.Event, seconds: float | None = None) -> bool:
        """Waits until the job has set an event, which is `runs` or `has_player`, or has ended, but at most this many seconds. Returns whether the
        event is set and the job has not ended."""
        reporting = asyncio.create_task(event.wait())
        await asyncio.wait([self.running, reporting], timeout=seconds, return_when=asyncio.FIRST_COMPLETED)
        reporting.cancel()
        return event.is_set() and not self.running.done()

    async def run(self, launcher: Sequence[str], task: dict[str, object] | None) -> None:
        self.is_remote = bool(launcher)
        words = [*launcher, "python3" if launcher else sys.executable, "-I", str(JOB), str(SILENCE if launcher else HERE_SILENCE)]
        # A job on this computer ends its processes before it ends.
        async with started(words, not launcher) as (self.process, has_ended):
            ending, beating, reading = map(asyncio.create_task, (has_ended.wait(), self.beat(), self.read()))
            if task:
                self.begin(task)
            try:
                await asyncio.wait([ending, reading], return_when=asyncio.FIRST_COMPLETED)
            finally:
                beating.cancel()
                # The job gets time to end its processes on the node, because they might continue if the job were killed.
                self.process.stdin.close()
                await asyncio.wait([ending], timeout=self.end_seconds)
                self.goes_on = self.has_begun and not has_ended.is_set()
                # Processes that the job left behind may keep the pipes open.
                await asyncio.wait([reading], timeout=MOST_UNREAD if has_ended.is_set() else 0)
                ending.cancel()
                if not reading.cancel():
                    reading.result()

    async def read(self) -> None:
        """Reads both outputs of the job, until it is given up."""
        try:
            async with asyncio.TaskGroup() as group:
                group.create_task(self.read_output())
                await self.read_lines()
        except* Lost as whys:
            self.why = str(whys.exceptions[0])

    async def read_output(self) -> None:
        while data := await self.process.stdout.read(MOST_AT_ONCE):
            await self.take_output(data)

    async def read_lines(self) -> None:
        """Reads standard error. A job may be silent while it waits in a queue, but not while it runs."""
        rest = b""
        try:
            async with asyncio.timeout(self.queue_seconds if self.is_remote else None) as silence:
                while data := await self.process.stderr.read(MOST_AT_ONCE):
                    *lines, rest = (rest + data).split(b"\n")
                    await self.take(lines)
                    if len(rest) > LONGEST_LINE:
                        raise Lost(LONG.format(LONGEST_LINE))
                    if self.is_remote and self.runs.is_set():
                        silence.reschedule(asyncio.get_running_loop().time() + LOST_SECONDS)
        except TimeoutError:
            raise Lost(SILENT.format(LOST_SECONDS) if self.runs.is_set() else NOT_RUN.format(self.queue_seconds)) from None
        if rest:
            await self.take([rest])

    async def take(self, lines: list[bytes]) -> None:
        """Handles lines of standard error: first the lines of the job itself, then all other lines together, because there may be very
        many."""
        for line in lines:
            if line.startswith(OURS):
                self.take_own(line)
        if others := [line + b"\n" for line in lines if not line.startswith(OURS)]:
            await self.take_lines(b"".join(others))

    def take_own(self, line: bytes) -> None:
        """Handles a line of the job itself. The first line is the node, and the last line is the status."""
        word, _, rest = line.removeprefix(OURS).decode("ascii", "replace").partition(" ")
        if word == "player" and not is_player(rest):
            raise Lost(NO_PLAYER.format(printable(rest, MOST_OF_NAME)))
        self.runs.set()
        if word in ("node", "player") and not getattr(self, word):
            setattr(self, word, printable(rest)[:MOST_OF_NAME])
        elif word == "status" and re.fullmatch("-?[0-9]{1,3}", rest):
            self.status = int(rest)
        if self.player:
            self.has_player.set()

    async def beat(self) -> None:
        """Sends the job a byte every few seconds, once the job runs."""
        await self.runs.wait()
        while not self.process.stdin.is_closing():
            self.process.stdin.write(b"\n")
            await asyncio.sleep(BEAT)

    async def end(self) -> None:
        self.running.cancel()
        await asyncio.wait([self.running])
