"""Reads matches from logs: the hash and the duration of each message, and why an answer was broken. Logs may be large, so nothing else of
them is stored."""

import itertools
import pathlib
import re
from array import array
from collections.abc import Iterable, Iterator
from dataclasses import dataclass, field
from typing import BinaryIO

from ggp_tools.match_log import BROKEN, ENDS, KINDS, PLAY, SHORTAGE, START, End, Event, Host, Message, Open, Other, Runs
from ggp_tools.match_log import event_of, whole_lines
from ggp_tools.moments import moment_at
from ggp_tools.streams import opened

# Matches the names of logs that do not count in a competition.
SET_ASIDE = re.compile(r".*\.(refused|unchecked|differs)(\.\d+)?")
# An id with this many different beginnings is not unique.
SEVERAL = 2


def files_of(path: str) -> list[pathlib.Path]:
    """If the path is a file, returns it. If it is a directory, returns all files in it, except those that were set aside."""
    given_path = pathlib.Path(path)
    if not given_path.is_dir():
        return [given_path]
    return sorted(file for file in given_path.iterdir() if file.is_file() and not SET_ASIDE.fullmatch(file.name))


def lines_of_logs(paths: Iterable[str]) -> Iterator[bytes]:
    """Yields the whole lines of log files, and of directories of logs."""
    for file in itertools.chain.from_iterable(map(files_of, paths)):
        with opened(file) as log:
            yield from whole_lines(log)


def message_sum(player: str, kind: str, message: str) -> int:
    """Returns a hash of a message and its player. The content of START is not hashed, because records do not have it."""
    return hash((player, START if kind == START else message))


@dataclass
class Beginning:
    """One run of a match in a log. Each message is stored as five numbers in one array."""

    host: str | None = None
    began: int | None = None
    ended: int = 0
    numbers: array = field(default_factory=lambda: array("q"))
    broken: dict[tuple[int, int], str | None] = field(default_factory=dict)
    # When the last answer of each turn arrived.
    turns: dict[int, int] = field(default_factory=dict, compare=False)
    # The time of the last message to each role, and whether the clock was ever set back.
    sent: dict[int, int] = field(default_factory=dict, compare=False)
    is_set_back: bool = field(default=False, compare=False)
    is_short: bool = field(default=False, compare=False)
    has_end: bool = field(default=False, compare=False)

    def take(self, event: Event) -> None:
        if isinstance(event, Host):
            self.host = event.host
        elif isinstance(event, Open):
            self.began = event.time
        elif isinstance(event, End):
            self.ended = max(self.ended, event.time or 0)
        elif isinstance(event, Message) and event.kind:
            self.take_message(event)

    def take_message(self, message: Message) -> None:
        known = message_sum(message.player, message.kind, message.message)
        self.numbers.extend((message.role, message.number, KINDS.index(message.kind), message.ms, known))
        self.is_short = self.is_short or message.error == SHORTAGE
        self.has_end = self.has_end or message.kind in ENDS
        if message.error == BROKEN:
            self.broken[message.role, message.number] = message.reason
        if message.time is None:
            return
        self.is_set_back = self.is_set_back or message.time < self.sent.get(message.role, 0)
        self.sent[message.role] = message.time
        if message.kind in ENDS:
            self.ended = max(self.ended, message.time + message.ms)
        elif message.kind == PLAY:
            self.turns[message.turn()] = max(message.time + message.ms, self.turns.get(message.turn(), 0))

    def is_over(self) -> bool:
        """Returns whether the match may have a record. If the referee ran out of a resource, the match has no record."""
        return self.has_end and not self.is_short

    def messages(self) -> Iterator[tuple[int, ...]]:
        """Yields the role, number, kind, milliseconds and hash of each message."""
        values = iter(self.numbers)
        return zip(values, values, values, values, values)

    def by_role(self, roles: int) -> list[list[list]]:
        """Returns the kind and the milliseconds of each message by role."""
        messages: list[list[list]] = [[] for _ in range(roles)]
        for role, _, kind, milliseconds, _ in self.messages():
            if role < roles:
                messages[role].append([KINDS[kind].lower(), milliseconds])
        return messages

    def times(self) -> tuple[str | None, str | None, str | None]:
        """Returns when the run began and ended, and its host."""
        began = None if self.began is None else moment_at(self.began / 1_000)
        return began, moment_at(self.ended / 1_000) if self.ended else None, self.host


def beginnings(events: Iterable[Event]) -> Iterator[tuple[str, Beginning]]:
    """Yields the matches of a log with their ids. If a match begins again before it is over, the earlier run is dropped."""
    open_matches: dict[str, tuple[Runs, Beginning]] = {}
    for event in events:
        if isinstance(event, Other):
            continue
        if event.match not in open_matches:
            open_matches[event.match] = Runs(), Beginning()
        runs, beginning = open_matches[event.match]
        if runs.is_next(event):
            if beginning.is_over():
                yield event.match, beginning
            beginning = Beginning()
            open_matches[event.match] = runs, beginning
        beginning.take(event)
    yield from ((match_id, beginning) for match_id, (_, beginning) in open_matches.items())


def logged(run: Iterable[Event]) -> Beginning:
    """Returns the last run of a match."""
    return next((beginning for _, beginning in beginnings(run)), Beginning())


class MatchLogs:
    """The matches of some logs. A match that is not over counts only if no other match with its id is over. `others` counts lines that are not
    events."""

    def __init__(self, paths: Iterable[str]) -> None:
        self.found: dict[str, tuple[list[Beginning], list[Beginning]]] = {}
        self.others = 0
        for file in itertools.chain.from_iterable(map(files_of, paths)):
            with opened(file) as log:
                for match_id, beginning in beginnings(self.events(log)):
                    known = self.found.setdefault(match_id, ([], []))[beginning.is_over()]
                    if len(known) < SEVERAL and beginning not in known:
                        known.append(beginning)

    def events(self, log: BinaryIO) -> Iterator[Event]:
        for line in whole_lines(log):
            if event := event_of(line):
                yield event
            else:
                self.others += 1

    def of(self, match_id: str) -> list[Beginning]:
        """Returns the match with this id. If several matches could be meant, returns all of these matches."""
        unfinished, over = self.found.get(match_id, ([], []))
        return over or unfinished
