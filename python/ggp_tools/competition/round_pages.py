"""Makes the parts of pages about the rounds of a Swiss competition or a knockout: their number, their pairings, and the results."""

from collections.abc import Iterator

from ggp_tools.competition.competition_file import Competition
from ggp_tools.competition.page_parts import Part, part
from ggp_tools.competition.plan import Plan
from ggp_tools.competition.results import Result
from ggp_tools.competition.rounds import (
    Meeting, Round, Scores, bracket, by_meeting, matches_to_come, rounds_of, scores_and_seeds, scores_of, swiss_rounds, winner, withdrawn_by,
)
from ggp_tools.competition.schedule import Match
from ggp_tools.competition.table_text import count_of_planned, points_text

# A round, a pair of players (the second may be missing), and their points, goals and matches.
Row = tuple[int, tuple[str, str], list[str]]
# A place in a bracket: the name of its player, the player's points, and whether the player advances. The name is empty until it is known.
Place = tuple[str, str, bool]
# A bracket shows only rounds with at most this many pairs. If a player has no opponent, it shows BYE instead of the opponent.
MOST_PAIRS, BYE = 32, "(bye)"


def count_of_all(plan: Plan) -> int:
    """Returns how many matches count if all are played, including the matches of rounds that are not planned yet."""
    return count_of_planned(plan) + (matches_to_come(plan.competition, plan.rounds) if plan.rounds else 0)


def rounds_words(plan: Plan) -> str:
    """Says how many rounds are planned, and how many matches the later rounds have. If there are no rounds, returns an empty string."""
    if not plan.rounds:
        return ""
    left = matches_to_come(plan.competition, plan.rounds)
    later = f"; {left:,} matches of later rounds are not planned yet" if left else ""
    return f" Round {len(plan.rounds)} of {rounds_of(plan.competition)}{later}."


def round_text(competition: Competition, match: Match) -> str:
    """Names the round of a match. If the match has no round, returns an empty string."""
    return f"Round {match.round} of {rounds_of(competition)}." if match.round else ""


def rounds_part(plan: Plan, results: list[Result], most: int) -> Part:
    """Returns the pairings of each planned round with their results, the last round first. `most` limits the number of rows."""
    of_meeting = by_meeting(result for result in results if result.match.counts())
    rows = [row for planned in reversed(plan.rounds) for row in rows_of(plan.competition, planned, of_meeting)]
    return part("rounds", rows, rows=rows[:most], count=len(rows))


def rows_of(competition: Competition, planned: Round, of_meeting: dict[Meeting, list[Result]]) -> list[Row]:
    """Returns the rows of a round: its pairs, and then its byes."""
    rows = []
    for pair in planned.pairs:
        over = of_meeting[planned.number, frozenset(pair)]
        scores = scores_of(competition, (), over)
        points, goals = (" : ".join(points_text(counts[player]) for player in pair) for counts in (scores.points, scores.goals))
        rows.append((planned.number, pair, [points, goals, f"{len(over)} of {scores.meeting}"]))
    return rows + [(planned.number, (player, ""), [""] * 3) for player in planned.byes]


def bracket_part(plan: Plan, results: list[Result]) -> Part:
    """Returns the bracket of a knockout. The knockout may be the final of a Swiss competition."""
    if not plan.rounds[swiss_rounds(plan.competition) :]:
        return Part("bracket", "")
    rounds = [pairs for pairs in bracket_rounds(plan, [result for result in results if result.match.counts()]) if len(pairs) <= MOST_PAIRS]
    return part("bracket", rounds=rounds, first=rounds_of(plan.competition) - len(rounds) + 1, bye=BYE)


def bracket_rounds(plan: Plan, results: list[Result]) -> Iterator[list[tuple[Place, Place]]]:
    """Yields the pairs of each round in the order of the bracket, including rounds that are not planned yet."""
    competition, swiss, of_meeting = plan.competition, swiss_rounds(plan.competition), by_meeting(results)
    _, names = scores_and_seeds(competition, plan.rounds, results)
    seeds, withdrawn = [name for name in names if not swiss or name in plan.rounds[swiss].players()], withdrawn_by(competition, plan.rounds)
    places = [seeds[seed] if seed < len(seeds) else BYE for seed in bracket(competition.form.final or len(competition.players))]
    for number in range(swiss + 1, rounds_of(competition) + 1):
        through, pairs = plan.rounds[number].players() if number < len(plan.rounds) else set(), []
        for pair in zip(places[::2], places[1::2]):
            over = of_meeting[number, frozenset(pair)]
            scores = scores_of(competition, (), over)
            if number == len(plan.rounds) and BYE in pair:
                through |= {*pair} - {BYE}
            elif number == len(plan.rounds) and (len(over) == scores.meeting or withdrawn.keys() & pair):
                through.add(winner(pair, over, Scores(competition), withdrawn, seeds))
            pairs.append([(name, points_text(scores.points[name]) if over else "", name in through) for name in pair])
        yield pairs
        nobody = BYE if number < len(plan.rounds) else ""
        places = [next((name for name, _, is_through in pair if is_through), nobody) for pair in pairs]
