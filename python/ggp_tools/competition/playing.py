"""Plays the matches of a competition that have no lawful record yet. Plays many matches at the same time, and begins each one when its players
are free."""

import asyncio
import concurrent.futures
import contextlib
import errno
import math
import os
import pathlib
import shutil
import signal
import sys
import time
from collections import Counter, deque
from collections.abc import Callable, Container, Iterable, Mapping

from ggp_tools.competition.checking import Checking
from ggp_tools.competition.children import send_aborts
from ggp_tools.competition.competition_file import is_place
from ggp_tools.competition.files import ASKING, PLAYERS, PLAYING, Refused, allow_files, file_bytes
from ggp_tools.competition.match_files import check_records, set_aside, unplanned_records
from ggp_tools.competition.open_match import OpenMatch, leave_players
from ggp_tools.competition.plan import Plan, plan_next_round, refuse_addresses, refuse_lost_results, round_words
from ggp_tools.competition.schedule import Match
from ggp_tools.competition.slots import Slots
from ggp_tools.competition.started_players import StartedPlayers, spelled_place
from ggp_tools.printable import counted
from ggp_tools.processes import apart
from ggp_tools.referee import Referee
from ggp_tools.reporting import NOT_BEGUN, REDRAWN, Reporter

# The time limit, in seconds, for ABORT to the players of matches that `play` ends.
ABORT_SECONDS = 3
# The number of threads that wait for the disk before a match begins.
DISK_THREADS = 8
ENDED = "broken off"
# For each signal, the number of interrupts that it counts as. After the first interrupt no more matches begin. The second one ends the open
# matches.
INTERRUPTS = {signal.SIGINT: 1, signal.SIGTERM: 2, signal.SIGHUP: 2}
# An upper bound for the bytes of the names and addresses of a match's players.
MOST_OF_PLACES = 1 << 20


class Playing:
    """The waiting matches, the open matches, and the outcomes of all others. If `watch` is set, it is called from time to time with the
    results."""

    def __init__(self, plan: Plan, referee: Referee, reporter: Reporter, at_once: int) -> None:
        self.plan, self.referee, self.reporter = plan, referee, reporter
        self.slots, self.launcher = Slots(plan.competition), plan.competition.launcher
        self.at_once = self.launcher.slots if self.launcher else at_once
        # `news` is set after an interrupt, and whenever further matches may be able to begin. `ends` is set when there is another
        # result.
        self.news, self.ends = asyncio.Event(), asyncio.Event()
        self.players, self.checking = StartedPlayers(plan.folder, plan.competition, referee, reporter), Checking(plan, referee)
        # By match id: the results, and the reasons why other matches have none. By game: why no more of its matches begin.
        self.results, self.left, self.stopped = {}, {}, {}
        # By game: for each finished match, the seconds from its INFO to its end.
        self.took: dict[str, list[float]] = {}
        self.open: dict[OpenMatch, asyncio.Task] = {}
        self.waiting: deque[Match] = deque()
        # `searched_at` is the time of the last search for matches that can begin.
        self.interrupts, self.is_full, self.searched_at = 0, False, 0.0
        # The threads that wait for the disk before a match. Checks of matches may take long, so they run in other threads.
        self.disk: concurrent.futures.Executor | None = None
        self.group: asyncio.TaskGroup | None = None
        self.watch: Callable[[dict], str | None] | None = None

    def count_over(self) -> int:
        """Returns how many matches have a result and count, as the table does."""
        return sum(match.id in self.results and match.counts() for match in self.plan.matches)

    def may_begin(self, match: Match | None = None) -> bool:
        """Returns whether more matches may begin or, if a match is given, whether it may begin. The players of this match must be free."""
        return not self.interrupts and not self.is_full and not (match and match.game in self.stopped)

    def begin(self) -> None:
        """Opens matches until the maximum number is open, or until no further match can begin."""
        self.searched_at, playing = time.monotonic(), sum(open_match.has_slots for open_match in self.open)
        while self.may_begin() and playing < self.at_once and (match := self.slots.next_match(self.waiting, self.searched_at)):
            open_match = OpenMatch(self, match)
            self.open[open_match] = self.group.create_task(self.run_match(open_match))
            playing += 1

    async def run_match(self, open_match: OpenMatch) -> None:
        try:
            try:
                await open_match.go()
            except* OSError as why:
                while isinstance(why, BaseExceptionGroup):
                    why = why.exceptions[0]
                open_match.why, self.is_full = f"{why.filename or 'its files'}: {os.strerror(why.errno or errno.EIO)}", True
            if open_match.is_broken:
                await self.abort({open_match.match.id: open_match.places})
            self.settle(open_match)
        finally:
            open_match.release_players()
            del self.open[open_match]
            self.news.set()

    def settle(self, open_match: OpenMatch) -> None:
        match = open_match.match
        if open_match.result:
            self.results[match.id] = open_match.result
            self.took.setdefault(match.game, []).append(time.monotonic() - open_match.taken_at)
            self.reporter.ends(open_match.result, open_match.seconds)
            self.ends.set()
        elif open_match.why:
            # The referee may be the first to notice that the disk is full.
            self.is_full |= open_match.why.endswith("write fault")
            self.left[match.id] = open_match.why
            self.reporter.line(f"no record {match.id}: {open_match.why}")
            if open_match.stops_game and match.game not in self.stopped:
                self.stop_game(match)
        elif match.game in self.stopped:
            self.left[match.id] = self.stopped[match.game]
        else:
            self.waiting.append(match)

    def stop_game(self, match: Match) -> None:
        """Begins no more matches of a game, because its rules are wrong. Open matches are played to their ends."""
        self.stopped[match.game] = f"{match.game} is not played any more, because {match.id} does not follow its description"
        others = [waiting for waiting in self.waiting if waiting.game == match.game]
        self.left.update((other.id, self.stopped[match.game]) for other in others)
        self.waiting = deque(waiting for waiting in self.waiting if waiting.game != match.game)
        waiting = f"{counted(len(others), 'waiting match')} of this game will not begin"
        self.reporter.line(f"stopped {match.game}, because {match.id} does not follow its description; {waiting}")

    async def go(self) -> None:
        """Plays until no match is open, and no waiting match may begin."""
        async with asyncio.TaskGroup() as self.group:
            shown = [self.group.create_task(self.show_progress()), self.group.create_task(self.show_results())]
            while self.is_going_on():
                self.begin()
                await self.wait_for_news()
            for task in shown:
                task.cancel()
        self.reporter.clear()

    def is_going_on(self) -> bool:
        """Returns whether a match is open, or a waiting match may begin. If the output is no longer read, or the journal can't be written, lets no
        more matches begin."""
        if self.reporter.fault and not self.interrupts:
            self.interrupts = 1
        if (fault := self.reporter.journal.fault) and not self.is_full:
            self.is_full = True
            self.reporter.line(f"{fault.filename} can't be written: {fault.strerror}; no more matches begin")
        # Matches whose players are being asked can no longer begin. They are cancelled, because their launcher may take long.
        for open_match, task in self.open.items() if not self.may_begin() else ():
            if open_match.stage == ASKING and not task.cancelling():
                self.waiting.append(open_match.match)
                task.cancel()
        return bool(self.open or self.waiting and self.may_begin())

    async def wait_for_news(self) -> None:
        """Waits until `news` is set, or until a player has rested."""
        idle_until = self.slots.idle_until
        until = idle_until if self.waiting and self.may_begin() and self.searched_at < idle_until < math.inf else None
        with contextlib.suppress(TimeoutError):
            async with asyncio.timeout_at(until):
                await self.news.wait()
        self.news.clear()

    async def show_progress(self) -> None:
        """Shows the progress and the time left on a terminal."""
        concurrent = {player.name: player.concurrent for player in self.plan.competition.players}
        while self.reporter.is_shown:
            open_matches = [(open_match.match, time.monotonic() - open_match.taken_at) for open_match in self.open]
            left = seconds_left(self.waiting, open_matches, self.took, concurrent, self.at_once)
            self.reporter.progress(self.count_over(), len(self.open), len(self.waiting), left)
            await asyncio.sleep(REDRAWN)

    async def show_results(self) -> None:
        """Calls `watch` when there are new results. The call runs in a thread, so that matches can continue in the meantime."""
        while self.watch:
            await self.ends.wait()
            self.ends.clear()
            if why := await asyncio.to_thread(self.watch, dict(self.results)):
                self.reporter.line(why)

    def interrupt(self, count: int) -> None:
        """Stops further matches from beginning. The second interrupt ends the open matches."""
        before, self.interrupts = self.interrupts, self.interrupts + count
        self.news.set()
        if self.interrupts == 1:
            playing = sum(open_match.stage == PLAYING for open_match in self.open)
            ends = counted(playing, "match", "is played to its end", "are played to their ends")
            self.reporter.line(f"no more matches begin; {ends}, unless you press Ctrl-C again")
        elif before < 2 and self.open:
            self.group.create_task(self.end_open_matches())

    async def end_open_matches(self) -> None:
        """Ends the matches whose players are being asked, and the matches that are being played. Sends ABORT to the players of the latter.
        Matches that are being checked continue."""
        ended = {open_match: task for open_match, task in self.open.items() if open_match.stage in (ASKING, PLAYING)}
        broken = [open_match for open_match in ended if open_match.stage == PLAYING]
        for task in ended.values():
            task.cancel()
        await asyncio.gather(*ended.values(), return_exceptions=True)
        for open_match in broken:
            self.left.setdefault(open_match.match.id, open_match.why or ENDED)
        going_on = {open_match.match.id for open_match in broken if open_match.goes_on}
        places = {open_match.match.id: open_match.places for open_match in broken}
        await self.abort(places, ABORT_SECONDS, going_on)

    async def abort(self, places: dict[str, list[str]], seconds: float | None = None, going_on: Container[str] = ()) -> None:
        """Sends ABORT to the players of these matches. If `seconds` is given, they must answer within this time. If a player does not
        answer, or a node may still be playing a match, the directory of the match stays, so that the next `play` sends ABORT again."""
        folder = self.plan.folder
        for match in places:
            leave_players(folder.open / match)
        silent = await send_aborts(self.referee, places, seconds)
        for match, players in places.items():
            self.reporter.line(f"abort {match}: {', '.join(map(spelled_place, players))}")
            if match in silent:
                self.reporter.line(f"no answer to abort {match}: {', '.join(map(spelled_place, silent[match]))}")
            elif match not in going_on:
                shutil.rmtree(folder.open / match, ignore_errors=True)

    async def play_rounds(self) -> None:
        """Plays the waiting matches, and then one round after another as long as no match is missing. If the competition pauses, plays only
        one round."""
        for number, count in INTERRUPTS.items():
            # If a hang-up is ignored, for example under nohup, it stays ignored.
            if number != signal.SIGHUP or signal.getsignal(number) != signal.SIG_IGN:
                asyncio.get_running_loop().add_signal_handler(number, self.interrupt, count)
        may_pair = not self.plan.competition.pause or not self.waiting
        self.disk = concurrent.futures.ThreadPoolExecutor(DISK_THREADS)
        try:
            await self.go()
            while may_pair and self.may_begin() and not self.reporter.fault and (matches := plan_next_round(self.plan, self.results)):
                may_pair = not self.plan.competition.pause
                self.reporter.line(round_words(self.plan))
                self.waiting.extend(matches)
                self.slots.idle_until = 0.0
                await self.go()
        finally:
            self.disk.shutdown()
            await self.players.end()


def seconds_left(
    waiting: Iterable[Match], open_matches: Iterable[tuple[Match, float]], took: Mapping[str, list[float]], concurrent: Mapping[str, int], at_once: int
) -> float | None:
    """Estimates how many seconds the remaining matches take. Returns None until the first match has ended. The estimate is the maximum of
    three times: for the longest open match, for the player with the most left to play, and for all matches if as many as allowed are played
    at the same time. `open_matches` gives the time since each open match began. If a game has no finished matches, the mean of the other games is
    used."""
    times = [seconds for game in took.values() for seconds in game]
    if not times:
        return None
    lengths = {game: sum(of_game) / len(of_game) for game, of_game in took.items()}
    mean = sum(times) / len(times)
    rest = [(match.players, max(lengths.get(match.game, mean) - seconds, 0.0), 1) for match, seconds in open_matches]
    longest = max((seconds for _, seconds, _ in rest), default=0.0)
    counts = Counter((match.game, match.players) for match in waiting)
    rest += [(players, lengths.get(game, mean), count) for (game, players), count in counts.items()]
    loads: Counter[str] = Counter()
    for players, seconds, count in rest:
        for player in players:
            loads[player] += seconds * count / concurrent[player]
    whole = sum(seconds * count for _, seconds, count in rest)
    return max(whole / at_once, longest, *loads.values(), 0.0)


# ---- before the first match


def open_directories(plan: Plan) -> dict[pathlib.Path, list[str]]:
    """Returns the directories of matches that were open when an earlier `play` was killed, each with the players that it names. The matches
    may belong to an earlier plan."""
    ids, directories = {match.id for match in plan.matches}, {}
    for directory in sorted(plan.folder.open.iterdir()):
        if directory.is_symlink() or not directory.is_dir():
            continue
        places = []
        with contextlib.suppress(OSError, ValueError):
            places = file_bytes(directory / PLAYERS, MOST_OF_PLACES).decode("ascii").split()
        places = places if all(map(is_place, places)) else []
        if places or directory.name in ids:
            directories[directory] = places
    return directories


def abort_open_matches(playing: Playing, directories: dict[pathlib.Path, list[str]]) -> None:
    """Sends ABORT to the players of matches that were open when an earlier `play` was killed. Players that the earlier `play` had started are left
    out, because they have ended by now."""
    left = {}
    for directory, places in directories.items():
        others = [place for place in places if place.partition("@")[0] not in playing.players.players]
        if directory.name in playing.results or not others:
            shutil.rmtree(directory)
        else:
            left[directory.name] = others
    if left:
        with apart(playing.plan.folder.mark()):
            asyncio.run(playing.abort(left))


def set_all_aside(playing: Playing, faults: dict[str, str]) -> None:
    """Renames the files of matches that do not count, because their record is missing or has an error in `faults`. Reports what happens to each
    match. A match that was replaced by another one is not played again."""
    for match in playing.plan.matches:
        if match.id not in playing.results and set_aside(playing.plan, match.id):
            fault = faults.get(match.id)
            what = f"refused {match.id}: {fault}; its files" if fault else f"aside {match.id}: it has no record; its other files"
            then = f"{match.again} still replaces it" if match.again else match.withdrawn or ("it is played again" if fault else "it is played")
            playing.reporter.line(f"{what} are renamed, and {then}")


def prepare(playing: Playing) -> None:
    """Checks the existing files, sends ABORT for matches that were open, and queues the matches that are not played yet."""
    plan, folder, reporter = playing.plan, playing.plan.folder, playing.reporter
    folder.must_be_text()
    playing.players.addresses = refuse_addresses(folder, plan.competition)
    try:
        folder.make(folder.records, folder.accounts, folder.logs, folder.open, *([folder.players] if playing.players.players else []))
        folder.drop_unfinished()
    except OSError as why:
        raise Refused(f"{folder.path} can't be written: {why.filename}: {os.strerror(why.errno)}") from None
    if others := unplanned_records(plan):
        more = f", and {len(others) - 1} more" if others[1:] else ""
        advice = f"move the files that belong to no match out of {folder.records}, and play again"
        raise Refused(f"{folder.records / others[0]} belongs to no match of the schedule{more}", advice)
    directories = open_directories(plan)
    if count := sum(bool(places) and not folder.record(directory.name).exists() for directory, places in directories.items()):
        # This is reported first, because checking the records takes a while, and waiting for silent players takes even longer.
        reporter.line(f"open {counted(count, 'match')} of an earlier `play`; {'its' if count == 1 else 'their'} players are sent ABORT")
    reporter.draw("checking the records")
    playing.results, faults, misfits = check_records(plan, playing.referee)
    refuse_lost_results(plan, playing.results)
    for match, why in misfits.items():
        raise Refused(f"{folder.record(match)} is lawful, but belongs to another match: {why}")
    set_all_aside(playing, faults)
    abort_open_matches(playing, directories)
    playing.waiting.extend(match for match in plan.matches if match.id not in playing.results and match.counts())
    if playing.waiting:
        reporter.note(f"play {counted(len(playing.waiting), 'match')}")


def play(playing: Playing) -> dict[str, str]:
    """Plays all matches. The caller must have locked the directory. Returns the reason for each match without a lawful record, by match id."""
    # The usual limit on open files is too low for many open matches.
    allow_files()
    if sys.version_info < (3, 12):
        # The default child watcher would start a thread for each process.
        asyncio.set_child_watcher(asyncio.PidfdChildWatcher())
    prepare(playing)
    with apart(playing.plan.folder.mark()):
        asyncio.run(playing.play_rounds())
    matches = [match for match in playing.plan.matches if not match.withdrawn]
    missing = {match.id: match.again and f"its record does not count, and {match.again} still replaces it" for match in matches}
    return {match: playing.left.get(match) or why or NOT_BEGUN for match, why in missing.items() if match not in playing.results}
