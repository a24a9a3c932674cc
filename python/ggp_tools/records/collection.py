"""Reads record files, finds the game of each record by its roles and its first state, and has the referee check the record. Lines of call logs are
skipped."""

import collections
import concurrent.futures
import contextlib
import hashlib
import os
import pathlib
import re
from collections.abc import Iterable, Iterator
from dataclasses import dataclass

from ggp_tools.holding.game import Game
from ggp_tools.holding.match import texts_of
from ggp_tools.kif import Refused, grouped, has_variables, spelled, told
from ggp_tools.records.record import ACCOUNT_LINE, LONGEST_RECORD, TOO_LONG, NoRecord, checked_record, numbered_lines, parsed
from ggp_tools.referee import LAWFUL, BadRules, Referee
from ggp_tools.streams import opened

# The referee checks records in batches of about this many bytes.
BATCH = 4 << 20
# The maximum number of batches that wait while others are being checked.
WAITING = 2
SURROGATE = re.compile("[\ud800-\udfff]")
NO_GAME, NO_RECORD = "no game has its roles", "no record: "


@dataclass(frozen=True, eq=False)
class KnownGame:
    """A game in the directory of rules. `name` is the name of the file, `rules` has the rules for the interpreter, and `first` is the first
    state."""

    name: str
    path: str
    rules_sum: str
    rules: Game
    roles: tuple[str, ...]
    first: tuple[str, ...]


@dataclass(frozen=True, eq=False)
class Line:
    """A line of a record file, with its number, counted from 1. If the line is not a JSON object, `said` is the error."""

    file: str
    number: int
    data: bytes
    record: dict | None
    said: str = ""

    @property
    def is_too_long(self) -> bool:
        return self.said == TOO_LONG

    @property
    def shaped(self) -> dict | None:
        """Returns the record, or None if the line does not have the shape of a record."""
        with contextlib.suppress(NoRecord):
            return checked_record(dict(self.record or {}))
        return None

    @property
    def match_id(self) -> str:
        match_id = self.record.get("matchId") if self.record else None
        return match_id if isinstance(match_id, str) else ""


@dataclass(frozen=True, eq=False)
class Judged:
    """A line with its game and its verdict: `lawful`, `not lawful: FAULT`, or the reason for having no verdict."""

    line: Line
    game: KnownGame | None
    verdict: str

    @property
    def is_lawful(self) -> bool:
        return self.verdict == LAWFUL


def game_of(path: pathlib.Path) -> KnownGame:
    """Reads a file of ground rules. Refuses rules that have variables, or that have no role."""
    if SURROGATE.search(str(path)):
        raise Refused("its name is not UTF-8")
    data = path.read_bytes()
    text = data.decode("latin-1")
    if has_variables(text):
        raise Refused("it has variables: `ggp-instantiate` makes ground rules from it")
    try:
        game = Game(text)
    except Refused as why:
        raise Refused(told(text, why)) from None
    if not game.roles:
        raise Refused("it has no role")
    return KnownGame(path.stem, str(path), hashlib.sha256(data).hexdigest(), game, tuple(map(spelled, game.roles)), tuple(texts_of(game.initial)))


def known_games(folder: str, referee: Referee) -> tuple[list[KnownGame], list[str]]:
    """Returns the games of a directory, and error messages about its other files."""
    games, refused = [], []
    for name in sorted(os.listdir(folder)):
        path = pathlib.Path(folder, name)
        if path.suffix != ".kif":
            continue
        try:
            game = game_of(path)
            referee.check_rules(game.path)
            games.append(game)
        except (Refused, BadRules) as why:
            refused.append(f"{path}: {why}")
    return games, refused


def candidates(record: dict, games: list[KnownGame]) -> list[KnownGame]:
    """Returns the games with a record's roles, ordered by how much their first states differ from the record's."""
    roles, states = record.get("roles"), record.get("states")
    fitting = [game for game in games if list(game.roles) == roles]
    first = states[0] if isinstance(states, list) and states and isinstance(states[0], list) else []
    terms = {term for term in first if isinstance(term, str)}
    return sorted(fitting, key=lambda game: len(terms.symmetric_difference(game.first)))


def line_of(file: str, number: int, data: bytes) -> Line:
    if len(data) > LONGEST_RECORD:
        return Line(file, number, b"", None, TOO_LONG)
    try:
        record = parsed(data)
    except NoRecord as why:
        return Line(file, number, data, None, str(why))
    return Line(file, number, data, *((record, "") if isinstance(record, dict) else (None, "it is JSON, but not an object")))


class Pile:
    """The lines of some record files. Skipped lines are counted."""

    def __init__(self, files: Iterable[str]) -> None:
        self.files, self.skipped = list(files), 0

    def batches(self) -> Iterator[list[Line]]:
        """Yields the lines of all files in order, some megabytes at a time."""
        batch, size = [], 0
        for file in self.files:
            with opened(file) as lines:
                for number, data in numbered_lines(lines):
                    if ACCOUNT_LINE.fullmatch(data):
                        self.skipped += 1
                        continue
                    batch.append(line_of(file, number, data))
                    size += len(data)
                    if size >= BATCH:
                        yield batch
                        batch, size = [], 0
        if batch:
            yield batch


def judged_batch(referee: Referee, games: list[KnownGame], batch: list[Line]) -> list[Judged]:
    """Returns the verdict on each line. A record that may belong to several games is lawful if it is lawful for one of them."""
    tries = [[] if line.record is None else candidates(line.record, games) for line in batch]
    judged = [Judged(line, None, NO_RECORD + line.said if line.record is None else NO_GAME) for line in batch]
    for turn in range(max(map(len, tries), default=0)):
        open_lines = (index for index, games_of_line in enumerate(tries) if len(games_of_line) > turn and not judged[index].is_lawful)
        for game, indices in grouped(open_lines, lambda index: tries[index][turn]).items():
            verdicts = referee.verdicts(game.path, [batch[index].data + b"\n" for index in indices])
            for index, verdict in zip(indices, verdicts):
                if turn == 0 or verdict == LAWFUL:
                    judged[index] = Judged(batch[index], game, verdict)
    return judged


def judged_lines(referee: Referee, games: list[KnownGame], pile: Pile, jobs: int) -> Iterator[Judged]:
    """Yields each line with its verdict, in order. At most `jobs` processes of the referee run at a time."""
    running: collections.deque[concurrent.futures.Future[list[Judged]]] = collections.deque()
    with concurrent.futures.ThreadPoolExecutor(jobs) as pool:
        for batch in pile.batches():
            running.append(pool.submit(judged_batch, referee, games, batch))
            if len(running) >= jobs + WAITING:
                yield from running.popleft().result()
        while running:
            yield from running.popleft().result()
