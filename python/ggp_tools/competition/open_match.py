"""Plays one match, from INFO to the files of the match."""

import asyncio
import contextlib
import pathlib
import shutil
import tempfile
import time
from typing import TYPE_CHECKING

from ggp_tools.competition.children import Done, in_thread, run, send_aborts
from ggp_tools.competition.files import ASKING, CHECKING, PLAYERS, PLAYING, new_file, write_whole
from ggp_tools.competition.jobs import SILENCE, Job, Lost
from ggp_tools.competition.schedule import Match
from ggp_tools.match_log import Event, Host, Other, line_of
from ggp_tools.printable import MOST_READ, message_lines
from ggp_tools.records.lengths import LONGEST_ACCOUNT, MOST_TURNS, longest_record

if TYPE_CHECKING:
    from ggp_tools.competition.playing import Playing

# The referee ends INFO by itself after WHOLE seconds. If it ran out of a resource, it reports this within SOON more seconds.
WHOLE, SOON = 10, 1
FREE = ("available", "ready", "unknown")
# The maximum number of bytes that a launcher may send before a match, and the maximum number of bytes that a message takes in the log in
# addition to its texts.
MOST_BEFORE, MOST_OF_MESSAGE = 1 << 20, 1 << 10
TOO_MUCH = "it sent more than {:,} bytes, which is more than any match needs"
# If a match is lost with its node, its players must answer ABORT within this many seconds.
ABORT_SECONDS = 5
EVENT = b'{"event":'


def leave_players(directory: pathlib.Path) -> None:
    """Deletes all files in the directory of an open match except the one with its players, so that the match no longer appears to be open."""
    with contextlib.suppress(OSError):
        for file in directory.iterdir():
            if file.name != PLAYERS:
                file.unlink()


def reason_of(done: Done, player: str) -> str:
    """Returns, in parentheses, the reason that the referee reported for a player that did not answer INFO, for example that the HTTP status is not
    200. If there is no such reason, returns an empty string."""
    start = f"ggp_manager: {player}: "
    return next((f" ({line.removeprefix(start)})" for line in message_lines(done.errors) if line.startswith(start)), "")


class OpenMatch:
    """An open match. At its end, it has a result or the reason why it has no result. If it has neither, it will be played later."""

    def __init__(self, playing: "Playing", match: Match) -> None:
        self.playing, self.match = playing, match
        self.plan, self.slots, self.reporter, self.players = playing.plan, playing.slots, playing.reporter, playing.players
        self.referee = self.plan.referee_of(playing.referee, match.game)
        self.directory, self.log = self.plan.folder.open / match.id, self.plan.folder.open_log(match.id)
        self.places: list[str] = []
        self.stage, self.seconds = ASKING, 0.0
        # When the match took the slots of its players. If a player that was asked for several matches at the same time does not answer,
        # that counts as one try.
        self.taken_at, self.has_slots = time.monotonic(), True
        self.result, self.why = None, None
        # Whether its players must be sent ABORT; whether a referee may still be playing it on a node; whether the rules of its game are wrong.
        self.is_broken, self.goes_on, self.stops_game = False, False, False

    async def go(self) -> None:
        """Plays the match. If the match is interrupted, sets `is_broken`."""
        try:
            await in_thread(self.playing.disk, self.make_directory)
            if played := await (self.play_elsewhere() if self.playing.launcher else self.play_here()):
                self.release_players()
                self.stage = CHECKING
                await in_thread(self.playing.disk, (self.directory / CHECKING).touch)
                self.result, self.why, self.stops_game = await self.playing.checking.check(self.match, played, self.log)
        except BaseException:
            self.is_broken = self.stage == PLAYING
            raise
        finally:
            self.close()

    def make_directory(self) -> None:
        self.directory.mkdir(0o700, parents=True, exist_ok=True)
        (self.directory / ASKING).touch()
        new_file(self.log).close()

    def name_players(self) -> None:
        """Writes a file with the players of a match that begins. If the referee ends before the match, these players must be sent ABORT."""
        write_whole(self.directory / PLAYERS, "".join(f"{place}\n" for place in self.places).encode())
        (self.directory / PLAYING).touch()

    def release_players(self) -> None:
        if self.has_slots:
            self.has_slots = False
            self.slots.give_back(self.match)
            self.players.leave(self.match.id, self.match.players)
            self.playing.news.set()

    def close(self) -> None:
        """Removes the directory, unless the match has a result, or its players must still be sent ABORT because it was interrupted now or during an
        earlier `play`."""
        if self.stage == ASKING and (self.directory / PLAYERS).exists():
            leave_players(self.directory)
        elif not self.is_broken and not self.result:
            shutil.rmtree(self.directory, ignore_errors=True)

    async def can_be_played(self) -> bool:
        """Returns whether the match has begun. If it has not, and its players are free, begins it."""
        if self.stage == ASKING and await self.ask() and self.playing.may_begin(self.match):
            self.stage = PLAYING
            await in_thread(self.playing.disk, self.name_players)
        return self.stage == PLAYING

    async def ask(self) -> bool:
        """Asks each player whether it is free. Returns whether the match can begin."""
        players = self.match.players
        await self.players.ready(self.match.id, players)
        self.places = list(map(self.players.place, players))
        async with asyncio.TaskGroup() as group:
            asked = [group.create_task(self.info(player, place)) for player, place in zip(players, self.places)]
        # An error of this computer does not count against a player.
        return not self.why and self.can_begin({player: task.result() for player, task in zip(players, asked)})

    async def info(self, player: str, place: str) -> str:
        """Returns a player's answer to INFO, or `silent`."""
        seconds = self.plan.competition.info
        done = await run(self.referee.info_words(place), seconds=seconds if seconds < WHOLE else WHOLE + SOON)
        verdict = done.verdict()
        answer, is_unknown = verdict.get("verdict", ""), verdict.get("lacks") == "resolver"
        is_silent = done.status is None or answer == "no_answer" or is_unknown
        if is_silent:
            # A refused or lost connection, and a player that did not answer in time, can be distinguished only by the elapsed time.
            is_refused = done.status is not None and done.seconds < WHOLE
            answer = "its host name is unknown" if is_unknown else f"refused{reason_of(done, player)}" if is_refused else "silent"
        elif done.status or not answer:
            answer = done.message()
            self.why = self.why or f"{player} could not be asked: {answer}"
        self.reporter.note(f"info {self.match.id} {player}: {answer}, {done.seconds:.1f} s")
        return "silent" if is_silent else answer

    def can_begin(self, answers: dict[str, str]) -> bool:
        """Returns whether the match can begin after these answers. If it cannot, it either waits, or gets the reason why it is not
        played."""
        missed = {player: answer for player, answer in answers.items() if answer not in FREE}
        for player in answers.keys() - missed.keys():
            self.slots.count_answer(player)
        again = [name for name in missed if not self.players.is_over(name) and self.slots.count_failure(name, self.taken_at)]
        played_without = [name for name, answer in missed.items() if answer == "silent" and self.plan.competition.absent == "play"]
        given_up = [name for name in missed if name not in again and name not in played_without]
        reason = ", ".join(f"{name} is {missed[name]}" for name in given_up or again)
        if given_up:
            self.why = reason
        elif again:
            self.reporter.line(f"back {self.match.id}: {reason}")
        else:
            for name in missed:
                self.reporter.line(f"silent {self.match.id}: {name} did not answer INFO; the match is played anyway")
        return not given_up and not again

    def run_words(self, log: pathlib.Path | str) -> list[str]:
        """Returns the command line of the referee. Its paths are absolute, because the referee may run in another directory."""
        folder, game = self.plan.folder, self.match.game
        player_rules = None if self.plan.rules[game].player_rules is None else folder.player_rules_of(game).absolute()
        return self.referee.run_words(folder.rules_of(game).absolute(), player_rules, self.match, self.plan.competition.strikes, self.places, log)

    def add_event(self, event: Event) -> None:
        with open(self.log, "ab") as file:
            file.write(line_of(event))

    async def play_here(self) -> bytes | None:
        """Plays the match on this computer, and returns the output of the referee. If the match is interrupted or does not begin, returns None."""
        if not await self.can_be_played():
            return None
        self.reporter.begins(self.match)
        return self.outcome_of(await run(self.run_words(self.log.absolute())))

    def outcome_of(self, done: Done) -> bytes | None:
        """Returns the output of the referee, or None if the exit status shows that it has not played the match."""
        self.seconds = done.seconds
        if done.status:
            self.why, self.is_broken = done.message(), True
            # A started player may run as the same user, so it may have killed the referee.
            if done.status < 0 and (started := [player.name for player in self.players.of(self.match.players)]):
                self.why += f"; these started players were running: {', '.join(started)}"
        return None if done.status else done.output

    async def play_elsewhere(self) -> bytes | None:
        """Plays the match as a job of the launcher. If the job is lost, starts another one."""
        for tries_left in reversed(range(self.plan.competition.tries)):
            job = MatchJob(self)
            if not (done := await job.play()):
                return None
            if not job.why and job.status is not None:
                return self.outcome_of(done)
            why = ": ".join([job.why, *message_lines(done.errors)[-1:]]) if job.why else done.message()
            self.add_event(Other("lost", {"match": self.match.id, "time": int(time.time() * 1_000), "reason": why}))
            self.reporter.line(f"lost {self.match.id} on {job.node or 'no node'}: {why}")
            if job.has_begun:
                # The referee may still run on a node that can no longer be reached.
                await asyncio.sleep(SILENCE)
                await self.abort()
            elif tries_left:
                await asyncio.sleep(self.plan.competition.wait)
        self.why, self.is_broken = f"its jobs were lost: {why}", self.stage == PLAYING
        return None

    async def abort(self) -> None:
        """Sends ABORT to the players, because the job that played the match is lost."""
        silent = await send_aborts(self.referee, {self.match.id: self.places}, ABORT_SECONDS)
        for player, place in zip(self.match.players, self.places):
            self.reporter.note(f"abort {self.match.id} {player}: {'no answer' if place in silent.get(self.match.id, ()) else 'answered'}")


class MatchJob(Job):
    """A job that plays a match on a node. The job must not send more than a referee can write about the match."""

    def __init__(self, open_match: OpenMatch) -> None:
        super().__init__(self.take_output, self.take_lines, open_match.playing.launcher.queue_seconds)
        self.match = open_match
        record, roles = longest_record(open_match.plan.rules[open_match.match.game].text), len(open_match.match.players)
        # Each player is sent all moves, and a byte of an answer may take six bytes in the log.
        self.most = self.left = MOST_BEFORE + LONGEST_ACCOUNT + record + roles * (MOST_OF_MESSAGE * (MOST_TURNS + 2) + 6 * record)
        self.output, self.errors = tempfile.SpooledTemporaryFile(MOST_BEFORE, dir=open_match.directory), b""

    def count(self, size: int) -> None:
        self.left -= size
        if self.left < 0:
            raise Lost(TOO_MUCH.format(self.most))

    async def take_output(self, data: bytes) -> None:
        self.count(len(data))
        self.output.write(data)

    async def take_lines(self, data: bytes) -> None:
        for line in data.split(b"\n")[:-1]:
            self.take_line(line)

    def take_line(self, line: bytes) -> None:
        """Handles a line of standard error: an event of the log, or a message of the launcher or the referee."""
        self.count(len(line) + 1)
        if line.startswith(EVENT):
            with open(self.match.log, "ab") as log:
                log.write(line + b"\n")
        else:
            self.errors = (self.errors + line + b"\n")[-MOST_READ:]

    async def play(self) -> Done | None:
        """Has the launcher run the job. As soon as the job runs, asks the players. If they are free, the job plays the match. Otherwise, returns
        None."""
        match, began = self.match, time.monotonic()
        self.start([word.replace("{match}", match.match.id) for word in match.playing.launcher.command])
        try:
            if await self.reports(self.runs):
                if not await match.can_be_played():
                    return None
                match.add_event(Host(match.match.id, self.node))
                match.reporter.begins(match.match, self.node)
                self.begin({"words": match.run_words("-")})
                began = time.monotonic()
            await self.running
            status = self.process.returncode if self.status is None else self.status
            self.output.seek(0)
            return Done(status, self.output.read(), self.errors, time.monotonic() - began)
        finally:
            await self.end()
            match.goes_on = self.goes_on
