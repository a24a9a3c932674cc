"""Manages the players that the competition starts and ends, on this computer or through launchers. Each has a port, limits and a log."""

import asyncio
import contextlib
import itertools
import os
import pathlib
import shutil
import time
from collections.abc import Callable, Iterator

from ggp_tools.competition.addresses import are_same
from ggp_tools.competition.children import run
from ggp_tools.competition.competition_file import EACH_MATCH, NEVER, Command, Competition, Mistake, Player
from ggp_tools.competition.files import Folder, file_bytes, new_file
from ggp_tools.competition.jobs import Job
from ggp_tools.moments import moment
from ggp_tools.printable import MOST_READ, message_lines
from ggp_tools.processes import ended_words
from ggp_tools.referee import Referee
from ggp_tools.reporting import Reporter

# The address of a player that is not running. No program listens on this port.
HERE, NOWHERE = "127.0.0.1", "127.0.0.1:1"
# A player must end within this many seconds.
END_SECONDS = 15
# The first pause between two INFO messages to a player that is starting. Each further pause is twice as long as the previous one, up to a
# second.
FIRST_PAUSE, LONGEST_PAUSE = 0.05, 1.0
# A log that is larger than this is renamed. It replaces the log that was renamed before.
MOST_BYTES = 1 << 20
# If this many bytes come at once, the next bytes are read after a pause, so that no player slows down matches. At most twice as many bytes
# come at once.
CHUNK, CHUNK_PAUSE = 1 << 15, 0.02
# If a player does not start, at most this many of its last lines are reported.
LAST_LINES = 5


class PlayerLog:
    """The file NAME.log, which contains the output of a player."""

    def __init__(self, path: pathlib.Path) -> None:
        self.path, self.size = path, path.stat().st_size if path.exists() else 0
        # The position where the output since the last start begins.
        self.begin = self.size

    def mark(self, text: str) -> None:
        """Writes a line that separates the output after an earlier start from the output after the next one."""
        if self.size:
            self.write(f"---- {moment()} {text}\n".encode())
        self.begin = self.size

    async def take(self, data: bytes) -> None:
        self.write(data)
        if len(data) >= CHUNK:
            await asyncio.sleep(CHUNK_PAUSE)

    def write(self, data: bytes) -> None:
        """Appends output. If the output cannot be written, it is lost, because a full disk must not end the player."""
        with contextlib.suppress(OSError):
            if self.size > MOST_BYTES:
                os.replace(self.path, f"{self.path}.1")
                self.begin = 0
            # Only the owner can read the log, just like the directory of open matches.
            with open(self.path, "ab", buffering=0) if self.path.exists() else new_file(self.path) as file:
                file.write(data)
                self.size = file.tell()

    def last_lines(self) -> list[str]:
        """Returns the last lines that the player has written since its last start. If the file is missing, returns no lines."""
        try:
            return message_lines(file_bytes(self.path)[self.begin :][-MOST_READ:])[-LAST_LINES:]
        except OSError:
            return []


class StartedPlayer:
    """A player with a command. `matches` are the matches that it is playing."""

    def __init__(self, folder: Folder, player: Player, first_processor: int, referee: Referee, reporter: Reporter) -> None:
        self.folder, self.name, self.command, self.first_processor = folder, player.name, player.command, first_processor
        self.referee, self.reporter, self.log = referee, reporter, PlayerLog(folder.players / f"{player.name}.log")
        self.job, self.address, self.port, self.was_started, self.has_answered = None, NOWHERE, 0, False, False
        self.lock, self.matches, self.reported_lines = asyncio.Lock(), set(), []
        self.watching: asyncio.Task | None = None
        # If the player is not running and will not be started again, the reason.
        self.over = ""
        # The addresses of other players that a launcher must not report, by name. One player at a time compares its address with them.
        self.known: Callable[[], dict[str, str]] = dict
        self.comparing = asyncio.Lock()

    def place(self) -> str:
        return f"{self.name}@{self.address}"

    def is_running(self) -> bool:
        return self.job is not None and not self.job.running.done()

    async def ready(self, match: str) -> None:
        """If the player is not running, starts it for a match. If it does not start, reports this. The player is then silent in the match."""
        async with self.lock:
            if self.command.restart == EACH_MATCH:
                await self.end()
            if self.over:
                self.reporter.line(f"down {match} {self.name}: {self.over}")
            elif not self.is_running():
                await self.end()
                await self.start(match)
            self.matches.add(match)

    async def start(self, match: str) -> None:
        """Starts the player, and waits until it answers INFO."""
        is_again, self.was_started = self.was_started, True
        self.log.mark(f"start for {match}")
        try:
            why = await self.came_up()
        except OSError as error:
            why = f"it can't be started: {error.filename or ''}: {error.strerror}"
        if why:
            await self.end()
            self.report_down(match, why)
            return
        note = self.reporter.line if is_again and self.command.restart != EACH_MATCH else self.reporter.note
        process, place = self.job.player.split()[0], f" on {self.job.node}" if self.command.launcher else ""
        note(f"{'restart' if is_again else 'start'} {match} {self.name}: process {process}, port {self.port}{place}")
        self.watching = asyncio.create_task(self.watch(self.job))

    def report_down(self, match: str, why: str) -> None:
        """Reports that the player did not start, with the last lines of its log, unless these lines were already reported."""
        last, before = self.log.last_lines(), self.reported_lines
        self.reported_lines = last
        path = self.log.path
        end = f"it wrote nothing to {path}" if not last else f"the end of {path}:" if last != before else f"the end of {path} is the same as before"
        self.reporter.line(f"down {match} {self.name}: {self.with_restart(why)}; {end}")
        for line in last if last != before else ():
            self.reporter.line(f"down {match} {self.name}: | {line}")

    async def came_up(self) -> str:
        """Starts the process, and waits until it answers INFO. Returns an empty string, or the reason why it does not answer."""
        command, launcher = self.command, launcher_of(self.folder, self.name, self.command)
        job = self.job = Job(self.log.take, self.log.take, command.queue_seconds, END_SECONDS)
        job.start(launcher, {"words": [program_of(self.folder, self.command.words[0]), *command.words[1:]], "player": {
            "host": None if launcher else HERE, "port": self.port, "environment": dict(command.environment),
            "directory": str(self.folder.path.absolute() / command.directory), "memory": command.memory, "processors": command.processors,
            "first_processor": self.first_processor,
        }})
        if await job.reports(job.runs) and (why := await self.answers(job)) is not None:
            return why
        if job.running.done():
            job.running.result()
            return words_of_end(job)
        what, more = "answer INFO" if job.player else "report its address", " or more `memory`" if command.memory else ""
        return f"it did not {what} within {command.start_seconds} s; it may need more `start_seconds`{more}"

    async def answers(self, job: Job) -> str | None:
        """Waits until the player answers INFO, and returns an empty string. If the address that it reports is that of another player, returns an
        error. If the player ends or its time runs out, returns None."""
        until, pause = time.monotonic() + self.command.start_seconds, FIRST_PAUSE
        if not await job.reports(job.has_player, self.command.start_seconds):
            return None
        self.address = job.player.split()[-1]
        self.port = int(self.address.rpartition(":")[2])
        if other := await self.other_there():
            return other
        while not job.running.done() and (left := until - time.monotonic()) > 0:
            if (await run(self.referee.info_words(self.place()), seconds=left)).status == 0 and job.status is None and not job.running.done():
                # Another player may have started at this address in the meantime.
                async with self.comparing:
                    other = await self.other_there()
                    self.has_answered = not other
                return other
            await asyncio.wait([job.running], timeout=min(pause, left))
            pause = min(2 * pause, LONGEST_PAUSE)
        return None

    async def other_there(self) -> str:
        """Returns an error if the address that a launcher reported is known to be that of another player, or an empty string. The launcher's computer
        may be hostile, and must not direct messages to another player."""
        known = self.known() if self.command.launcher else {}
        names = await asyncio.to_thread(lambda: [name for name, address in known.items() if are_same(self.address, address)]) if known else []
        return f"it reported the address of {names[0]}, {self.address}" if names else ""

    async def watch(self, job: Job) -> None:
        """Waits until the player ends by itself. Reports this for each match that it is playing. If there is none, reports it once."""
        await asyncio.wait([job.running])
        words, last = self.with_restart(words_of_end(job)), "".join(f": {line}" for line in self.log.last_lines()[-1:])
        for match in [f"{match} " for match in sorted(self.matches)] or [""]:
            self.reporter.line(f"died {match}{self.name}: {words}{last}")

    def with_restart(self, why: str) -> str:
        """Returns the reason why the player is not running. If the player is never restarted, the reason says this, too, and `over` is set."""
        if self.command.restart == NEVER:
            why = self.over = f"{why}, and it is not started again because of `restart = \"never\"`"
        return why

    async def end(self) -> None:
        """Ends the player, with all processes that it has started."""
        if self.watching:
            self.watching.cancel()
        if self.job:
            await self.job.end()
        self.job, self.address, self.has_answered = None, NOWHERE, False


def spelled_place(place: str) -> str:
    """Returns a player with its address, for messages. If the player is not running, returns its name without an address."""
    return f"{place.removesuffix(f'@{NOWHERE}')} (not reachable)" if place.endswith(f"@{NOWHERE}") else place


def words_of_end(job: Job) -> str:
    return job.why or ("it can't be started" if job.status is None else ended_words(job.status))


class StartedPlayers:
    """The players of a competition that have a command. Each player is started before its first match, and ended when `play` ends."""

    def __init__(self, folder: Folder, competition: Competition, referee: Referee, reporter: Reporter) -> None:
        self.competition = competition
        # The addresses of the other players. They are looked up once, and stay the same in all matches.
        self.addresses: dict[str, str] = {}
        players = [player for player in competition.players if player.command]
        firsts = itertools.accumulate((player.command.processors for player in players), initial=0)
        self.players = {player.name: StartedPlayer(folder, player, first, referee, reporter) for player, first in zip(players, firsts)}
        comparing = asyncio.Lock()
        for player in self.players.values():
            player.known, player.comparing = self.known, comparing

    def of(self, names: tuple[str, ...]) -> list[StartedPlayer]:
        return [self.players[name] for name in names if name in self.players]

    def place(self, name: str) -> str:
        if name in self.players:
            return self.players[name].place()
        return self.addresses.get(name) or self.competition.player(name).place()

    def known(self) -> dict[str, str]:
        """Returns the known addresses of the players, by name. A player with a launcher has a known address once it has answered there."""
        running = [player for player in self.players.values() if player.is_running()]
        started = {player.name: player.address for player in running if player.has_answered or not player.command.launcher}
        return {player.name: player.address for player in self.competition.players if not player.command} | started

    async def ready(self, match: str, names: tuple[str, ...]) -> None:
        async with asyncio.TaskGroup() as group:
            for player in self.of(names):
                group.create_task(player.ready(match))

    def is_over(self, name: str) -> bool:
        return name in self.players and bool(self.players[name].over)

    def leave(self, match: str, names: tuple[str, ...]) -> None:
        for player in self.of(names):
            player.matches.discard(match)

    async def end(self) -> None:
        await asyncio.gather(*(player.end() for player in self.players.values()))


def program_of(folder: Folder, word: str) -> str:
    """Returns the path of a program. A path is relative to the directory of the competition. A name is searched for in PATH."""
    return str((folder.path / word).absolute()) if "/" in word else word


def launcher_of(folder: Folder, name: str, command: Command) -> list[str]:
    words = [word.replace("{player}", name) for word in command.launcher]
    return [program_of(folder, word) for word in words[:1]] + words[1:]


def mistakes_of_programs(folder: Folder, competition: Competition) -> Iterator[Mistake]:
    """Yields a mistake for each player whose program, launcher or directory does not exist, or whose limits exceed what this computer
    has."""
    most, memory = len(os.sched_getaffinity(0)), os.sysconf("SC_PHYS_PAGES") * os.sysconf("SC_PAGE_SIZE")
    for player in competition.players:
        if not player.command:
            continue
        launcher, directory = launcher_of(folder, player.name, player.command), folder.path / player.command.directory
        program = launcher[0] if launcher else program_of(folder, player.command.words[0])
        if not shutil.which(program):
            yield Mistake(player.line, f"players.{'launcher' if launcher else 'command'}", f"{program} is not a program that can be run")
        if not os.path.isdir(directory):
            yield Mistake(player.line, "players.directory", f"{directory} is not a directory")
        if not launcher and player.command.processors > most:
            words = f"{player.command.processors} are more than the {most} that `play` may use on this computer"
            yield Mistake(player.line, "players.processors", words)
        if not launcher and player.command.memory > memory:
            words = f"{player.command.memory:,} bytes are more than the {memory:,} bytes of this computer"
            yield Mistake(player.line, "players.memory", words)
