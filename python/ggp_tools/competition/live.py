"""Reads the state of the matches from the directory of a competition: which are open, whose answers they wait for, and which are over. It writes
nothing, and starts only the referee's desk.

The players of an open match can read the pages too. So the pages show only the facts that follow from finished rounds and from this computer's clock,
with one exception: in the second half of the clock of an open round, they also name players that have not answered. A round is START, a turn, or the
end. It is finished once all of its roles have answered or were replaced."""

import contextlib
import errno
import functools
import io
import os
import pathlib
import re
import time
from collections import Counter, deque
from collections.abc import Callable, Collection, Container, Iterable, Iterator
from dataclasses import dataclass, field, replace
from typing import NamedTuple, TypeVar

from ggp_tools.competition.competition_file import EACH_MATCH
from ggp_tools.competition.files import ASKING, STAGES, Folder, lock_place, opened_file
from ggp_tools.competition.live_board import Answers, LiveBoard, last_states
from ggp_tools.competition.pages import MOST_OF_LOG, Ended, ended_match
from ggp_tools.competition.plan import Plan
from ggp_tools.competition.replaced import Replaced, newest, replaced_moves
from ggp_tools.competition.results import Result, counted_result, fault_of_record
from ggp_tools.competition.schedule import Match
from ggp_tools.competition.tail import Extent, Tail, extent_of
from ggp_tools.match_log import ENDS, SHORTAGE, START, Event, Host, Message, Open, Other, Runs, event_of, last_run
from ggp_tools.moments import MOMENT
from ggp_tools.records.match_logs import logged
from ggp_tools.records.show import NoRecord, read_record
from ggp_tools.referee import Referee
from ggp_tools.reporting import NOT_BEGUN

# Listing all records takes at most a tenth of the time, and one update reads records for at most READING seconds. The record of a match that was open
# is read at once.
SHARE, READING = 10, 1.0
# The system lists the locks in pieces, and may omit one while others are released. So a lock counts as released only if it is missing from this many
# lists.
LISTS = 5
# The board of a match stays for this many seconds after its end.
STAYS = 60
FAULT = "these pages may show wrong data for this match because of an error in ggp_competition: {!r}"
# The rows of `play.log` about a player that was restarted, a match that was given up, a game whose waiting matches were given up, and a run that
# began.
RESTARTED = re.compile(rf"{MOMENT} restart (\S+) (\S+): .*\n")
GIVEN_UP = re.compile(rf"{MOMENT} (?:no record|missing) (\S+): (?!{NOT_BEGUN}\n)(.*)\n")
STOPPED = re.compile(rf"{MOMENT} stopped (\S+), because (\S+) does not follow its description; .*\n")
BEGUN = re.compile(rf"{MOMENT} play [0-9,]+ match(es)?\n")
# With a delay, about this many snapshots of the directory are kept.
MOST_SNAPSHOTS = 600
# Asking the referee takes at most a quarter of the time.
REFEREE_SHARE = 3
# Errors of this process, which say nothing about a file.
OUT_OF_FILES = errno.EMFILE, errno.ENFILE
# The directories in an absolute path of a file.
WHOLE_PATH = re.compile(r"(?<![\w./-])/(?:[^\s/]+/)*(?=[^\s/])")
Value = TypeVar("Value")


# The inode number, the size and the time of a file. The identity changes if the file is replaced or written again.
Identity = tuple[int, int, int]
# The identity of a missing file.
NOWHERE: Identity = (0, 0, 0)


def clock() -> float:
    """Returns the seconds of a clock that never jumps."""
    return time.monotonic()


class OpenFiles(NamedTuple):
    """The stage and the log of an open match, from the files in its directory."""

    stage: str
    log: Extent


class Snapshot(NamedTuple):
    """The directory at one moment: the open matches, the journal, and whether `play` was running."""

    moment: float
    matches: dict[str, OpenFiles]
    journal: Extent
    is_running: bool


class Delay:
    """Remembers the directory, and returns it as it was this many seconds ago. This depends on this computer's clock, because the times of files may
    be wrong."""

    def __init__(self, seconds: float = 0.0) -> None:
        self.seconds = seconds
        self.snapshots: deque[Snapshot] = deque()
        # Other values, each with the time of its last change.
        self.values: dict[str, tuple[object, float]] = {}
        self.is_new = True
        # The matches of plans that are not shown yet. Their files are remembered from now on.
        self.coming: dict[str, Match] = {}

    def now(self) -> float:
        """Returns the time of day that the pages show."""
        return time.time() - self.seconds

    def snapshot(self, matches: dict[str, OpenFiles], journal: Extent, is_running: bool) -> Snapshot:
        """Stores the present state of the directory. Returns its state at the moment that is shown, which is empty before the first update."""
        now = clock()
        if not self.snapshots or now - self.snapshots[-1].moment >= self.seconds / MOST_SNAPSHOTS:
            self.snapshots.append(Snapshot(now, matches, journal, is_running))
        while len(self.snapshots) > 1 and self.snapshots[1].moment <= now - self.seconds:
            self.snapshots.popleft()
        first = self.snapshots[0]
        return first if first.moment <= now - self.seconds else Snapshot(now, {}, Extent(0), first.is_running)

    def has_passed(self, name: str, value: object, age: float = 0.0) -> bool:
        """Returns whether a value is the same as at the moment that is shown. A value that is seen for the first time counts as this many seconds
        old."""
        if self.seconds and self.values.get(name, (None,))[0] != value:
            self.values[name] = value, clock() - age
        return not self.seconds or clock() - self.values[name][1] >= self.seconds


@dataclass
class LiveMatch:
    """An open match. The pages use only the finished rounds, and a timer that starts when `serve` notices that the last of these has finished. If the
    state says whose turn it is, that role is shown as awaited. After half of the open round's time, all awaited roles are shown, and nothing else of
    that round. `version` counts the changes of the part that is shown."""

    match: Match
    roles: tuple[str, ...]
    tail: Tail[Event]
    board: LiveBoard
    stage: str = ""
    # The versions differ if a match is open for the second time.
    version: int = field(default_factory=time.time_ns)
    # The time of day of the last update.
    now: float = 0.0
    # When the open round began: the time of day, and the clock.
    since: float = 0.0
    began: float = 0.0
    is_late: bool = False
    # When the referee was last asked.
    asked: float = 0.0
    shown: tuple = ()
    # An error of these pages with this match.
    trouble: str = ""

    def __post_init__(self) -> None:
        self.runs = Runs()
        # The messages of a run whose beginning is missing from the log, until the START of the run is finished.
        self.coming: list[Message] | None = None
        self.forget()

    def forget(self) -> None:
        """Forgets everything, because the match begins again, for example on another computer."""
        self.board.begin()
        # The answers to STOP or ABORT, and the last answers of finished rounds.
        self.ends: Answers = {}
        self.last: Answers = {}
        self.missed: Counter[int] = Counter()
        # The kind and the milliseconds of each message of finished rounds, by role and number.
        self.times: dict[tuple[int, int], tuple[str, int]] = {}
        # The time of the last answer of each turn.
        self.moments: dict[int, float] = {}
        self.replaced: list[Replaced] = []
        # Restarts the clock.
        self.shown = ()

    def turn(self) -> int:
        """Returns the open turn; 0 is START."""
        return self.board.position.round()

    def open_round(self) -> int | None:
        """Returns the round that was open when the log was last read, or None if not everything has been read."""
        return None if self.tail.is_behind or self.board.is_known_further() else self.turn()

    def is_over(self) -> bool:
        """Returns whether all roles have answered STOP or ABORT."""
        return len(self.ends) == len(self.match.players)

    def is_ending(self) -> bool:
        """Returns whether STOP or ABORT has been sent."""
        return self.is_over() or self.board.position.is_ending()

    def awaited(self) -> list[int]:
        """Returns the roles that have not answered in the open round, or only the role whose turn it is, if it is among them."""
        position = self.board.position
        if self.is_ending():
            return [role for role in range(len(self.match.players)) if role not in self.ends]
        roles = sorted(position.owing - self.board.answers.get(position.round(), {}).keys())
        return [position.mover()] if position.mover() in roles else roles

    def named(self) -> list[int] | None:
        """Returns the awaited roles that are shown: in the first half of the clock, at most the role whose turn it is, which follows from the
        state. If the log is not read to its end, answers may be missing, so no others are shown."""
        if self.is_late and not self.tail.is_behind:
            return self.awaited()
        mover = None if self.is_ending() else self.board.position.mover()
        return None if mover is None else [mover]

    def take_event(self, event: Event) -> None:
        """Takes an event of the match. Messages to other players are ignored."""
        if isinstance(event, Message) and (event.kind is None or self.match.players[event.role : event.role + 1] != (event.player,)):
            return
        if self.runs.is_next(event):
            self.coming = []
        if self.coming is None:
            if isinstance(event, Message):
                self.take(event)
            return
        if isinstance(event, Message):
            self.coming.append(event)
        if isinstance(event, Open | Host) or len({message.role for message in self.coming if message.kind == START}) == len(self.match.players):
            coming, self.coming = self.coming, None
            self.forget()
            for message in coming:
                self.take(message)

    def take(self, message: Message) -> None:
        if message.kind in ENDS:
            self.ends[message.role] = message
            if self.is_over():
                self.show_round(self.ends)
        else:
            self.board.take(message)

    def advance(self, referee: Referee) -> None:
        """Asks the referee for the moves of the finished rounds."""
        for turn, answers in self.board.advance(referee).items():
            self.show_round(answers)
            self.moments[turn] = max(message.moment() or self.now for message in answers.values())
        self.asked = clock()
        position = self.board.position
        self.replaced = replaced_moves(self.match, zip(position.moves, position.errors), self.moments, self.now)
        self.count_change()

    def show_round(self, answers: Answers) -> None:
        """Shows the answers of a finished round."""
        self.last = {**self.last, **answers, **(self.ends if self.is_over() else {})}
        self.missed.update(role for role, message in answers.items() if message.error and message.error != SHORTAGE)
        self.times |= {(role, message.number): (message.kind.lower(), message.ms) for role, message in answers.items()}

    def messages(self) -> list[list[tuple[str, int]]]:
        """Returns the messages of each role in finished rounds, each as its kind and its milliseconds."""
        return [[self.times[at] for at in sorted(self.times) if at[0] == role] for role in range(len(self.match.players))]

    def update(self, files: OpenFiles, now: float) -> None:
        """Reads new lines of the log."""
        self.stage, self.now, self.trouble = files.stage, now, ""
        events, is_other = self.tail.added(files.log)
        if is_other:
            self.runs, self.coming = Runs(), None
            self.forget()
        for event in events:
            if not isinstance(event, Other) and event.match == self.match.id:
                self.take_event(event)
        self.count_change()

    def count_change(self) -> None:
        """Counts a change to the contents of the pages. Restarts the clock if a round was finished."""
        since = self.stage, self.turn(), self.is_ending(), self.is_over()
        if self.shown[:1] != (since,):
            self.since, self.began = self.now, clock()
        self.is_late = clock() - self.began > (self.match.play if self.turn() else self.match.start) / 2
        shown = since, self.board.version, self.named()
        self.version += shown != self.shown
        self.shown = shown


@dataclass
class News:
    """What a row of the journal says about players, until it may be shown. `rounds` lists the players' matches that were open when the row was read,
    each with its open round, or with None until the round is known."""

    show: Callable[[], None]
    rounds: dict[str, int | None]


def extent_at(path: pathlib.Path, is_delayed: bool) -> Extent:
    """Returns the extent of a growing file, or only its size if there is no delay. A missing file has the size 0."""
    try:
        if not is_delayed:
            return Extent(os.stat(path).st_size)
        with opened_file(path) as file:
            return extent_of(file)
    except OSError as why:
        if why.errno in OUT_OF_FILES:
            raise
        return Extent(0)


def identity_of(path: pathlib.Path) -> Identity:
    try:
        status = os.stat(path)
    except OSError:
        return NOWHERE
    return status.st_ino, status.st_size, status.st_mtime_ns


def for_visitors(folder: Folder, words: str) -> str:
    """Returns a message without directories of this computer. Files of the competition are named relative to its directory."""
    for place in (folder.path, folder.path.absolute()):
        words = re.sub(rf"(?<![\w./-]){re.escape(str(place))}/", "", words)
    return WHOLE_PATH.sub("", words)


def locks() -> list[str]:
    """Returns the lines of the locks of this computer."""
    return pathlib.Path("/proc/locks").read_text("ascii").splitlines()


def is_locked(folder: pathlib.Path) -> bool:
    """Returns whether a run has locked the directory, without trying to lock it."""
    try:
        place = lock_place(folder)
        return any(f" {place} " in line and "FLOCK" in line and " WRITE " in line for _ in range(LISTS) for line in locks())
    except (OSError, UnicodeDecodeError):
        return False


def of_names(values: dict[str, Value], names: Iterable[str]) -> dict[str, Value]:
    return {name: values[name] for name in names if name in values}


class Reader:
    """The matches as the directory of a competition shows them now or, with a delay, as it showed them that many seconds ago. `version` counts the
    changes to open matches, and `results_version` counts the changes to results."""

    def __init__(self, plan: Plan, referee: Referee, delay: Delay | None = None, before: "Reader | None" = None) -> None:
        self.plan, self.referee, self.delay = plan, referee, delay or Delay()
        # These matches, and those that are open, are in the schedule's order.
        self.known = {match.id: match for match in plan.matches}
        self.open: dict[str, LiveMatch] = {}
        # The open matches that are not in the plan.
        self.unknown: set[str] = set()
        self.results: dict[str, Result] = {}
        # The data that the pages show about the matches with results. An entry stays when its result is removed, because a page may still list the
        # match.
        self.over: dict[str, Ended] = {}
        # The matches that were open and have no result yet. Then the matches whose result has just arrived, with the clock's time and the last
        # states.
        self.ending: set[str] = set()
        self.ended: dict[str, tuple[float, list[list[str]]]] = {}
        self.faults: dict[str, str] = {}
        # The files of each match when its record was read, and the records that are still to be read.
        self.identities: dict[str, tuple[Identity, Identity] | None] = {}
        self.unread: deque[str] = deque()
        # The reasons why directories can't be read, and the open matches when their directory was last read.
        self.unlisted: dict[str, str] = {}
        self.open_files: dict[str, OpenFiles] = {}
        # The last replaced moves of matches that are over.
        self.replaced: list[Replaced] = []
        self.version, self.results_version, self.is_running = 0, 0, False
        self.next_listing, self.next_advance = 0.0, 0.0
        # The matches that `play` has given up, with the reasons. The second set includes matches that are not shown yet.
        self.journal, self.given_up = Tail(str(plan.folder.journal), functools.partial(str, encoding="ascii", errors="replace")), {}
        self.left: set[str] = set()
        commands = {player.name: player.command for player in plan.competition.players}
        self.restarting = {name for name, command in commands.items() if command and command.restart != EACH_MATCH}
        self.news: list[News] = []
        # How often each player was restarted, and the match of the last restart.
        self.restarted: dict[str, tuple[int, str]] = {}
        if before:
            self.keep(before)

    def keep(self, before: "Reader") -> None:
        """Takes the results of the matches that are the same in an earlier plan, so that their records are not read again."""
        plans = before.plan, self.plan
        if len({(plan.competition.strikes, plan.competition.forfeit, plan.competition.faults) for plan in plans}) > 1:
            return
        games = {game for game, rules in self.plan.rules.items() if rules == before.plan.rules.get(game)}
        names = [match.id for match in self.plan.matches if match.game in games and match == before.known.get(match.id)]
        self.results = {name: replace(before.results[name], match=self.known[name]) for name in names if name in before.results}
        self.over, self.ended = of_names(before.over, names), of_names(before.ended, names)
        # The last match of a round may have ended since the earlier plan was read.
        self.ending = {*before.open, *before.ending}.intersection(names)
        self.faults, self.identities = of_names(before.faults, names), of_names(before.identities, names)
        self.replaced = [move for move in before.replaced if move.match.id in self.results]

    def update(self) -> Iterator[None]:
        """Reads what has changed since the last update. Yields after each of many records, so that a page can be made then."""
        # The size of the journal is read first, then the sizes of the logs. So everything that this part of the journal reports happened before the
        # logs had these sizes.
        journal = extent_at(self.plan.folder.journal, self.delay.seconds > 0)
        shown = self.delay.snapshot(self.read_open_files(), journal, is_locked(self.plan.folder.path))
        self.unknown = shown.matches.keys() - self.known.keys()
        gone = self.update_open({name: files for name, files in shown.matches.items() if name in self.known})
        while rows := self.journal.added(shown.journal)[0]:
            for row in rows:
                self.take_row(row)
            yield
        for name in gone:
            self.update_record(name)
        self.list_records()
        # The first pages do not wait long for the standings.
        ends = time.monotonic() + (READING if self.identities else READING / 5)
        while self.unread and time.monotonic() < ends:
            self.update_record(self.unread.popleft())
            # The pages show how many remain to be read.
            self.version += 1
            yield
        ended = {name: board for name, board in self.ended.items() if name in self.results and clock() - board[0] < STAYS}
        self.version += (ended, shown.is_running) != (self.ended, self.is_running)
        self.ended, self.is_running = ended, shown.is_running

    def listed(self, folder: pathlib.Path) -> set[str] | None:
        """Returns the names in a directory, or None if it can't be read now."""
        self.unlisted.pop(folder.name, None)
        try:
            return set(os.listdir(folder))
        except FileNotFoundError:
            return set()
        except OSError as why:
            self.unlisted[folder.name] = why.strerror
            return None

    def remembered(self) -> dict[str, Match]:
        """Returns the matches whose files are read: those that the pages show, and those that they will show after the delay."""
        return {**self.known, **self.delay.coming} if self.delay.coming else self.known

    def players_of(self, name: str) -> Collection[str]:
        """Returns the players of a match, or all players if the match is in no plan, because the new plan can't be read."""
        match = self.known.get(name) or self.delay.coming.get(name)
        return match.players if match else [player.name for player in self.plan.competition.players]

    def read_open_files(self) -> dict[str, OpenFiles]:
        """Returns the open matches, including unknown ones. If their directory can't be read now, returns those of the last update."""
        names, known = self.listed(self.plan.folder.open), self.remembered()
        if names is not None:
            matches = {name: files for name in (*known, *(names - known.keys())) if name in names and (files := self.open_files_of(name))}
            # A match that still sends INFO is not shown: it would reveal that a player is silent, perhaps even in an open turn of another match.
            playing = {player for name, files in matches.items() if files.stage != ASKING for player in self.players_of(name)}
            matches = {name: files for name, files in matches.items() if files.stage != ASKING or playing.isdisjoint(self.players_of(name))}
            # Snapshots share unchanged parts.
            matches = {name: self.open_files[name] if self.open_files.get(name) == files else files for name, files in matches.items()}
            self.open_files = matches if matches != self.open_files else self.open_files
        return self.open_files

    def open_files_of(self, name: str) -> OpenFiles | None:
        """Returns an open match, or None if it is not open. If its directory can't be read now, returns the match as it was."""
        try:
            names = os.listdir(self.plan.folder.open / name)
            # If a run was ended, the directory has only the names of players, to whom ABORT must still be sent.
            stage = next((stage for stage in reversed(STAGES) if stage in names), None)
            return stage and OpenFiles(stage, extent_at(self.plan.folder.open_log(name), self.delay.seconds > 0))
        except (FileNotFoundError, NotADirectoryError):
            return None
        except OSError:
            return self.open_files.get(name)

    def trouble(self) -> str:
        """Returns a message about directories that can't be read."""
        return " ".join(f"The directory {name} can't be read ({why}), so these pages may be behind." for name, why in self.unlisted.items())

    def update_open(self, matches: dict[str, OpenFiles]) -> list[str]:
        """Reads the logs of the open matches. Returns those that are no longer open."""
        before = self.open
        self.open = {name: before.get(name) or self.begun(self.known[name]) for name in matches if name not in self.results}
        gone = [name for name in before if name not in self.open]
        self.ending.update(gone)
        self.version += len(gone)
        for name, live_match in self.open.items():
            with self.noting_changes(live_match):
                live_match.update(matches[name], self.delay.now())
        return gone

    def begun(self, match: Match) -> LiveMatch:
        folder = self.plan.folder
        self.faults.pop(match.id, None)
        board = LiveBoard(match, self.plan.competition.strikes, folder.rules_of(match.game))
        return LiveMatch(match, self.plan.roles(match.game), Tail(str(folder.open_log(match.id)), event_of, str(folder.log(match.id))), board)

    @contextlib.contextmanager
    def noting_changes(self, live_match: LiveMatch) -> Iterator[None]:
        """Notes whether a match changes. An error of these pages is shown, and does not stop other matches."""
        before = live_match.version, live_match.trouble
        try:
            yield
        except Exception as why:
            live_match.trouble = FAULT.format(why)
        self.version += (live_match.version, live_match.trouble) != before

    def take_row(self, row: str) -> None:
        """Takes a row of the journal: which matches were given up, and why, and which players were restarted. A new run again plays the matches that
        earlier runs gave up."""
        restarted, given_up, stopped = RESTARTED.fullmatch(row), GIVEN_UP.fullmatch(row), STOPPED.fullmatch(row)
        if BEGUN.fullmatch(row):
            self.given_up.clear()
            self.left.clear()
            self.restarted.clear()
            self.news.clear()
            self.version += 1
        elif restarted and restarted[2] in self.restarting and restarted[1] in self.known:
            # If the match is unknown, because the plan can't be read, the player may have died in an open turn of another unknown match.
            self.show_later([restarted[2]], functools.partial(self.count_restart, restarted[2], restarted[1]))
        elif given_up and (match := self.known.get(given_up[1])):
            reason = for_visitors(self.plan.folder, given_up[2])
            self.left.add(match.id)
            self.show_later(match.players, functools.partial(self.given_up.__setitem__, match.id, reason))
        elif stopped:
            reason = f"{stopped[1]} is not played any more, because {stopped[2]} does not follow its description"
            waiting = [match.id for match in self.waiting() if match.game == stopped[1] and not self.plan.folder.record(match.id).exists()]
            self.given_up |= dict.fromkeys(waiting, reason)
            self.left.update(waiting)
            self.version += 1

    def count_restart(self, player: str, match: str) -> None:
        self.restarted[player] = self.restarted.get(player, (0,))[0] + 1, match

    def show_later(self, players: Iterable[str], show: Callable[[], None]) -> None:
        """Stores what the journal says about players. `show_news` shows it when the matches that are open now permit that."""
        names = (name for name in (*self.open, *self.unknown) if not set(players).isdisjoint(self.players_of(name)))
        self.news.append(News(show, dict.fromkeys(names)))

    def show_news(self) -> None:
        """Shows what the journal says about players once the rounds that were open at that time are finished, because a dead or silent player did not
        answer in these rounds."""
        for news in self.news:
            news.rounds = {name: self.round_of(name, at) for name, at in news.rounds.items() if self.is_open(name, at)}
            if not news.rounds:
                news.show()
                self.version += 1
        self.news = [news for news in self.news if news.rounds]

    def is_open(self, name: str, at: int | None) -> bool:
        """Returns whether a round of a match may be open. The round of a match that was interrupted counts as open until the match has progressed, is
        over, or was given up."""
        match = self.open.get(name)
        if match:
            return at is None or match.turn() <= at
        if name not in self.known:
            return name in self.unknown
        return not any(name in ended for ended in (self.results, self.faults, self.left))

    def round_of(self, name: str, at: int | None) -> int | None:
        return self.open[name].open_round() if at is None and name in self.open else at

    def advance(self, until: float, first: Container[str] = ()) -> None:
        """Asks the referee about the answers of open matches until this time, beginning with these matches. Then shows news."""
        began = time.monotonic()
        due = [live_match for live_match in self.open.values() if live_match.board.is_due()] if began >= self.next_advance else []
        for live_match in sorted(due, key=lambda live_match: (live_match.match.id not in first, live_match.asked)):
            if time.monotonic() >= until:
                break
            with self.noting_changes(live_match):
                live_match.advance(self.plan.referee_of(self.referee, live_match.match.game))
        if due:
            ended = time.monotonic()
            self.next_advance = ended + REFEREE_SHARE * (ended - began)
        self.show_news()

    def troubles_of_matches(self) -> list[str]:
        return [f"{name}: {live_match.trouble}" for name, live_match in self.open.items() if live_match.trouble]

    def list_records(self) -> None:
        """Lists the records that are new or replaced, and forgets those that are gone."""
        began = time.monotonic()
        if began < self.next_listing:
            return
        names = self.listed(self.plan.folder.records)
        if names is None:
            return
        there = {name.removesuffix(".json") for name in names if name.endswith(".json")}
        for name in (self.results.keys() | self.faults.keys()) - there:
            if self.delay.has_passed(name, NOWHERE):
                self.forget(name)
        self.unread = deque(name for name in self.remembered() if name in there and self.is_news(name) and name in self.known)
        self.delay.is_new = False
        ended = time.monotonic()
        self.next_listing = ended + SHARE * (ended - began)

    def is_news(self, name: str) -> bool:
        """Returns whether a record must be read, because it is new or was replaced."""
        files = self.files_of(name)
        # The times of files count only in the first update. They are in the future if the clock was set back.
        age = max(0.0, time.time() - files[0][2] / 1e9) if self.delay.is_new else 0.0
        return self.delay.has_passed(name, files, age) and self.identities.get(name) != files

    def files_of(self, name: str) -> tuple[Identity, Identity]:
        """Returns the identities of the record and, with a delay, of the log of a match."""
        folder = self.plan.folder
        return identity_of(folder.record(name)), identity_of(folder.log(name)) if self.delay.seconds else NOWHERE

    def must_be_shown(self, name: str) -> None:
        """Raises `NoRecord` if other files have replaced the files of the result that is shown. The delay applies to replaced files as well as to new
        ones."""
        if self.delay.seconds and self.files_of(name) != self.identities.get(name):
            raise NoRecord("it was replaced")

    def record_of(self, match: Match) -> dict:
        """Returns the record of a match that is shown as over."""
        record = read_record(self.plan.read_record(match))
        self.must_be_shown(match.id)
        return record

    def forget(self, name: str) -> None:
        """Removes the result of a match, and the reason why its record does not count."""
        self.identities.pop(name, None)
        self.faults.pop(name, None)
        if self.results.pop(name, None):
            self.results_version += 1

    def update_record(self, name: str) -> None:
        """Reads the record of a match, if there is one. An error of these pages is shown, and does not stop other matches."""
        files = self.files_of(name)
        if not self.delay.has_passed(name, files):
            return
        try:
            self.take_record(self.known[name], files)
        except FileNotFoundError:
            return
        except OSError as why:
            if why.errno in OUT_OF_FILES:
                # The next update tries again.
                self.unlisted[self.plan.folder.records.name] = why.strerror
            else:
                self.refuse(name, f"it can't be read: {why.strerror}", files)
        except NoRecord as why:
            self.refuse(name, str(why), files)
        except Exception as why:
            self.refuse(name, FAULT.format(why))

    def refuse(self, name: str, why: str, files: tuple[Identity, Identity] | None = None) -> None:
        """Notes why a record does not count. The record is read again unless the match still has these files."""
        self.forget(name)
        self.faults[name], self.identities[name] = why, files

    def take_record(self, match: Match, files: tuple[Identity, Identity]) -> None:
        """Takes the record of a match from its files. Raises `NoRecord` if it does not count."""
        data, (run, is_cut) = self.plan.read_record(match), self.run_of(match.id)
        if self.delay.seconds and self.files_of(match.id) != files:
            return
        record = read_record(data)
        if fault := fault_of_record(record, match, self.plan.competition.strikes):
            raise NoRecord(fault)
        result = counted_result(record, data, match, self.plan.competition, self.plan.rules[match.game])
        self.over[match.id] = ended_match(result, record, run, is_cut)
        self.note_replaced(match, record, run, files[0][2] / 1e9)
        self.forget(match.id)
        # If the record was replaced in the meantime, the next update reads it again.
        self.results[match.id], self.identities[match.id] = result, files
        self.results_version += 1
        # The directory of the open match may still be there for a moment.
        if self.open.pop(match.id, None) or match.id in self.ending:
            self.ending.discard(match.id)
            self.ended[match.id] = clock(), last_states(record["states"])

    def run_of(self, name: str) -> tuple[list[Event], bool]:
        """Returns the last run in the log of a match, or in its last part, and whether there is more. There are no events if the log can't be
        read."""
        try:
            log, is_cut = self.plan.folder.part_of_log(name, MOST_OF_LOG)
        except OSError as why:
            if why.errno in OUT_OF_FILES:
                raise
            return [], False
        return last_run(io.BytesIO(log), name), is_cut

    def note_replaced(self, match: Match, record: dict, run: list[Event], written: float) -> None:
        """Keeps the last replaced moves of a match that is over."""
        known = logged(run)
        moments = {turn: came / 1_000 for turn, came in known.turns.items()}
        moves = replaced_moves(match, zip(record["moves"], record["errors"]), moments, known.ended / 1_000 or written)
        self.replaced = newest([*(move for move in self.replaced if move.match.id != match.id), *moves])

    def last_replaced(self) -> list[tuple[Replaced, int]]:
        """Returns the last replaced moves, the newest first. The oldest listed move of each match gives the number of earlier replaced moves of this
        match that are left out; the other moves give 0."""
        over = (move for move in self.replaced if move.match.id in self.results)
        moves = newest([*over, *(move for live_match in self.open.values() for move in live_match.replaced)])[::-1]
        oldest = {move.match.id: move for move in moves}
        return [(move, move.before if oldest[move.match.id] is move else 0) for move in moves]

    def waiting(self) -> list[Match]:
        """Returns the matches that are neither open nor over, in the schedule's order, including those that were given up."""
        return [match for match in self.plan.matches if match.id not in self.results and match.id not in self.open and match.counts()]
