"""Computes the table of a competition: the results of each player in each game and in all games, the crosstable, and the ratings. "The
table" in docs/COMPETITION.md describes how the table follows from the records."""

import itertools
from collections import Counter
from collections.abc import Callable, Iterable, Mapping, Sequence
from dataclasses import dataclass, field

from ggp_tools.competition.competition_file import BY_POINTS, KNOCKOUT, SWISS, VOID, Competition
from ggp_tools.competition.known import Known, sum_of_parts
from ggp_tools.competition.results import DRAWN, LOST, WON, Result
from ggp_tools.competition.rounds import Round, is_by_rounds, rounds_won, scores_and_seeds, swiss_rounds, withdrawn_by, withdrawn_words
from ggp_tools.competition.schedule import Match
from ggp_tools.templating import end_without

ALL = "all games"
# The order of a Swiss competition with a knockout at its end.
FINAL = "final"


@dataclass(frozen=True)
class Rating:
    """A player's rating, half the length of its 95% interval, and the group within which ratings can be compared. A player without a group has no
    rating. The players of a group have no ratings if floating-point numbers are too imprecise to compute them."""

    rating: float | None
    half: float | None
    group: int | None


@dataclass
class Line:
    """The results of a player."""

    player: str
    matches: int = 0
    scored: int = 0
    goals: int = 0
    won: int = 0
    drawn: int = 0
    lost: int = 0
    won_by_forfeit: int = 0
    lost_by_forfeit: int = 0
    moves: int = 0
    replaced: int = 0
    absent: int = 0
    retired: int = 0
    rating: Rating | None = None
    # The following fields have values only in the table of all games, and only if the competition is played in rounds.
    byes: int = 0
    round_points: float | None = None
    buchholz: float | None = None
    rounds_won: int | None = None

    def mean(self) -> float | None:
        return round(self.goals / self.scored, 2) if self.scored else None

    def points(self) -> float:
        """Returns a point for each win and half a point for each draw. A Swiss competition adds the points of byes."""
        return self.won + self.drawn / 2 if self.round_points is None else self.round_points

    def order(self, by: str) -> tuple[float, ...]:
        """Returns a sort key for lines: points if the order is by points, then the printed mean goal (0 without goals), wins, and fewer
        losses. A knockout is ordered by rounds won; a Swiss competition by points and Buchholz score, or, if it has a final, first by the
        rounds won in the final."""
        if by in (SWISS, FINAL):
            final = -1 if self.rounds_won is None else self.rounds_won
            return *((-final,) if by == FINAL else ()), -self.points(), -(self.buchholz or 0)
        if by == KNOCKOUT:
            return (-(self.rounds_won or 0),)
        goals = -(self.mean() or 0), -self.won, self.lost
        return (-self.points(), *goals) if by == BY_POINTS else goals


@dataclass
class Table:
    """The table of a game, or of all games: the lines by player, the order of the lines, and the matches that rematches replace. For each pair of
    players, it gives the points of the first against the second, and how many times they met. The table of all games also lists the rounds, and
    remarks about withdrawn players."""

    game: str
    lines: dict[str, Line]
    points: Counter[tuple[str, str]] = field(default_factory=Counter)
    met: Counter[tuple[str, str]] = field(default_factory=Counter)
    matches: int = 0
    by: str = ""
    again: list[Match] = field(default_factory=list)
    rounds: Sequence[Round] = ()
    withdrawn: Sequence[str] = ()

    def standings(self) -> list[Line]:
        """Returns the lines of the players that have played, in order. Equal lines are in the order of competition.toml."""
        return sorted((line for line in self.lines.values() if line.matches or line.byes), key=lambda line: line.order(self.by))

    def ranks(self) -> list[int]:
        """Returns the ranks of the standings. Equal lines share a rank, and the next ranks are skipped."""
        orders, first = [line.order(self.by) for line in self.standings()], {}
        for at, order in enumerate(orders, 1):
            first.setdefault(order, at)
        return [first[order] for order in orders]

    def is_of_pairs(self) -> bool:
        return bool(self.met)

    def has_forfeits(self) -> bool:
        return any(line.won_by_forfeit or line.lost_by_forfeit for line in self.lines.values())


def count_player(line: Line, result: Result, role: int) -> None:
    line.matches += 1
    line.moves += result.turns
    line.replaced += result.replaced(role)
    line.absent += result.is_absent(role)
    line.retired += result.retirements[role] is not None
    counted, outcome = result.counted()[role], result.outcome(role)
    if counted is not None:
        line.scored += 1
        line.goals += counted
    line.won += outcome == WON
    line.drawn += outcome == DRAWN
    line.lost += outcome == LOST
    line.won_by_forfeit += outcome == WON and bool(result.forfeits())
    line.lost_by_forfeit += outcome == LOST and role in result.forfeits()


def count_pairs(table: Table, result: Result) -> None:
    """Counts a meeting for each pair of players in a match, unless both have forfeited. The player with the higher goal wins. If the goals are
    equal, each player gets half a win."""
    worths = result.worths() or ()
    for (player, worth), (other, beside) in itertools.permutations(zip(result.match.players, worths), 2):
        if worth != beside or worth >= 0:
            table.points[player, other] += (1 + (worth > beside) - (worth < beside)) / 2
            table.met[player, other] += 1


def count_rounds(table: Table, competition: Competition, results: Iterable[Result]) -> None:
    """Adds the byes, points, Buchholz scores and won rounds to the table of all games."""
    counted, swiss = [result for result in results if result.match.counts()], swiss_rounds(competition)
    scores, seeds = scores_and_seeds(competition, table.rounds, counted)
    won = rounds_won(competition, table.rounds, counted, seeds)
    for player, line in table.lines.items():
        line.byes = sum(player in planned.byes for planned in table.rounds) if not swiss else scores.byes[player]
        if swiss:
            line.round_points, line.buchholz = scores.points[player], scores.buchholz(player)
        line.rounds_won = won.get(player, None if swiss else 0)


def loaded_ratings() -> Callable[..., dict[str, Rating]]:
    """Returns the function that rates players. Ends the command if numpy is missing."""
    try:
        from ggp_tools.competition.ratings import rated
    except ImportError as why:
        end_without(why)
    return rated


def ratings_of(table: Table, anchor: Mapping[str, int], known: Known | None) -> dict[str, Rating]:
    """Returns the ratings of the players of a table. If they are cached, does not load numpy, which would take long."""
    names = [line.player for line in table.lines.values() if line.matches]
    key = sum_of_parts(repr((names, sorted(table.points.items()), sorted(anchor.items()))).encode()) if known else ""
    ratings = known.get("ratings", key) if known else None
    if ratings is None:
        ratings = loaded_ratings()(names, table.points, anchor)
        if known:
            known.put("ratings", key, ratings)
    return ratings


def tables_of(
    competition: Competition, results: Sequence[Result], rounds: Sequence[Round] = (), is_rated: bool = True, known: Known | None = None
) -> list[Table]:
    """Returns the tables: first the table of all games, then the table of each game."""
    names = [entrant.name for entrant in competition.players]
    kind = competition.form.kind if is_by_rounds(competition) else ""
    order, order_of_game = FINAL if competition.form.final else kind or competition.order, BY_POINTS if kind else competition.order
    whole, *of_games = [
        Table(game, {name: Line(name) for name in names}, by=by)
        for game, by in [(ALL, order), *((game.name, order_of_game) for game in competition.games)]
    ]
    whole.rounds, counts = rounds, "do not count" if competition.withdrawn_results == VOID else "count"
    withdrawn = withdrawn_by(competition, rounds).items()
    whole.withdrawn = [f"{withdrawn_words(name, why)}; the matches that it has played {counts}" for name, why in withdrawn]
    by_game = {table.game: table for table in of_games}
    for result in results:
        for table in (whole, by_game[result.match.game]):
            count_result(table, result)
    if kind:
        count_rounds(whole, competition, results)
    for table in [whole, *of_games] if is_rated else ():
        for player, rating in ratings_of(table, competition.anchor, known).items():
            table.lines[player].rating = rating
    return [whole, *of_games]


def count_result(table: Table, result: Result) -> None:
    if not result.match.counts():
        table.again += [result.match] * bool(result.match.again)
        return
    table.matches += 1
    for role, player in enumerate(result.match.players):
        count_player(table.lines[player], result, role)
    count_pairs(table, result)
