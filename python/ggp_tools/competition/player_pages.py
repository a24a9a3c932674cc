"""Makes the page of a player: its rank and rating, its goals by game and role and over time, its response times, its errors and its matches."""

import itertools
from collections import Counter
from collections.abc import Iterator, Sequence
from dataclasses import dataclass

from ggp_tools.competition.page_parts import PageParts, Part, part
from ggp_tools.competition.plots import BARS, bar_of, goals_plot, times_plot
from ggp_tools.competition.results import Result, again_words
from ggp_tools.competition.table import Table
from ggp_tools.competition.table_text import rating_text
from ggp_tools.kif import grouped
from ggp_tools.match_log import PLAY, SHORTAGE, START, Event, Message, messages, shown
from ggp_tools.printable import counted
from ggp_tools.records.show import why_of

# A page shows only the newest errors of a player: at most this many in total, and at most this many of one match.
MOST_ERRORS, MOST_OF_MATCH = 100, 10
LAST_ERRORS = f"The last {MOST_ERRORS}, at most {MOST_OF_MATCH} of each match."


@dataclass(frozen=True)
class MoveError:
    """A replaced move: its turn, counted from 1; the error; the move that was played; and, if the log contains them, the message and the answer."""

    turn: int
    error: str
    move: str
    message: str = ""
    answer: str = ""


@dataclass(frozen=True)
class Appearance:
    """A player in a match: how many of its response times fall into each bar of a plot, how long its START and its longest PLAY took, and its last
    errors."""

    result: Result
    role: int
    role_name: str
    ended: str
    times: tuple[int, ...]
    start: int | None
    longest: int | None
    errors: tuple[MoveError, ...]

    def goal(self) -> int | None:
        """Returns the goal that counts, or None if the match has no goals."""
        return self.result.counted()[self.role]


def times_of_role(asked: list[Message]) -> tuple[tuple[int, ...], int | None, int | None]:
    """Returns how many response times of a role fall into each bar, how long START took, and how long the longest PLAY took."""
    starts, plays = ([message.ms for message in asked if message.kind == kind] for kind in (START, PLAY))
    counts = Counter(map(bar_of, plays))
    return tuple(counts[bar] for bar in range(BARS)), starts[-1] if starts else None, max(plays, default=None)


def errors_of_role(record: dict, role: int, asked: list[Message]) -> tuple[MoveError, ...]:
    """Returns the last errors of a role in a match."""
    turns = [turn for turn, errors in enumerate(record["errors"], 1) if errors[role]][-MOST_OF_MATCH:]
    plays = {message.turn(): message for message in asked}
    errors = []
    for turn in turns:
        message = plays.get(turn)
        error, move = record["errors"][turn - 1][role], record["moves"][turn - 1][role]
        # A retired role was not asked.
        texts = (shown(message.message), shown(message.came())) if message and error != "RT" else ()
        errors.append(MoveError(turn, error, move, *texts))
    return tuple(errors)


def appearances_of(result: Result, record: dict, run: Sequence[Event], ended: str | None) -> list[Appearance]:
    """Returns the appearance of each player in a match, by role, from the last run in the log of the match."""
    by_role = [[message for message in messages(run) if message.role == role] for role in range(len(result.match.players))]
    return [
        Appearance(result, role, record["roles"][role], ended or "", *times_of_role(asked), errors_of_role(record, role, asked))
        for role, asked in enumerate(by_role)
    ]


# ---- the page


def page_name(player: str) -> str:
    """Returns the path of a player's page. The file name needs a prefix, because a player's name may begin with a period."""
    return f"players/player-{player}.html"


def standing_texts(table: Table) -> dict[str, str]:
    """Returns, for each player that has played, a sentence with its rank, its mean goal and its rating."""
    texts, lines = {}, table.standings()
    for rank, line in zip(table.ranks(), lines):
        mean = "none" if line.mean() is None else f"{line.mean():.2f}"
        counts = f"{line.won} won, {line.drawn} drawn, {line.lost} lost; {line.replaced} of {line.moves} moves replaced"
        rating = f"; rating {rating_text(table, line)}" if table.is_of_pairs() else ""
        texts[line.player] = f"Place {rank} of {len(lines)} in all games: {counted(line.matches, 'match')}, mean goal {mean}, {counts}{rating}."
    return texts


def role_rows(appearances: list[Appearance]) -> Iterator[tuple[str, str, list[str]]]:
    """Yields a row for each game and role of the player, with the goals and times."""
    by_role = grouped(appearances, lambda appearance: (appearance.result.match.game, appearance.role, appearance.role_name))
    for (game, role, name), own in sorted(by_role.items()):
        goals = [goal for appearance in own if (goal := appearance.goal()) is not None]
        mean = f"{sum(goals) / len(goals):.2f}" if goals else "none"
        replaced, moves = sum(appearance.result.replaced(role) for appearance in own), sum(appearance.result.turns for appearance in own)
        longest = [longest_text([appearance.start for appearance in own]), longest_text([appearance.longest for appearance in own])]
        yield game, name, [str(len(own)), mean, f"{replaced} of {moves}", *longest]


def longest_text(times: list[int | None]) -> str:
    return f"{max(known):,} ms" if (known := [time for time in times if time is not None]) else ""


def reason_of(error: str) -> str:
    """Explains an error. In a log, a reason may follow the error."""
    kind = error.partition(" ")[0]
    if kind == SHORTAGE:
        return "the referee lacked a resource"
    return why_of(error if kind == "IL" else kind)


def errors_part(appearances: list[Appearance]) -> Part:
    """Returns the newest errors, each with the message that caused it."""
    newest = ((appearance.result.match.id, error) for appearance in reversed(appearances) for error in reversed(appearance.errors))
    rows = [(match, error, reason_of(error.error)) for match, error in itertools.islice(newest, MOST_ERRORS)]
    return part("errors", intro=LAST_ERRORS, rows=rows, count=sum(appearance.result.replaced(appearance.role) for appearance in appearances))


def player_parts(competition: str, player: str, standing: str, appearances: list[Appearance]) -> PageParts:
    """Returns the parts of a player's page before the list of its matches; `standing` is a sentence. Matches that were replaced by others
    do not count."""
    ordered = sorted((appearance for appearance in appearances if appearance.result.match.counts()), key=lambda appearance: appearance.ended)
    left_out = [again_words(appearance.result.match) for appearance in appearances if not appearance.result.match.counts()]
    goals = goals_plot([goal for appearance in ordered if (goal := appearance.goal()) is not None])
    times = times_plot([sum(counts) for counts in zip(*(appearance.times for appearance in ordered))] or [0] * BARS)
    return [
        part("player", name=competition, title=player, standing=standing, left_out=left_out),
        part("seats", ordered, rows=list(role_rows(ordered))),
        part("goals", goals, plot=goals),
        part("times", times, plot=times),
        errors_part(ordered),
    ]
