"""Finds the replaced moves of open and finished matches."""

from collections.abc import Iterable, Mapping, Sequence
from dataclasses import dataclass

from ggp_tools.competition.schedule import Match
from ggp_tools.match_log import SHORTAGE

Texts = Sequence[str]
# The maximum number of replaced moves that are listed, in total and for one match.
MOST_REPLACED, MOST_OF_MATCH = 20, 3


@dataclass(frozen=True)
class Replaced:
    """A replaced move: the error, the move that was played instead, the time of the last answer in its turn, and how many moves of the match were
    replaced before it."""

    match: Match
    player: str
    turn: int
    error: str
    move: str
    moment: float
    before: int


def newest(moves: Iterable[Replaced]) -> list[Replaced]:
    """Returns the last replaced moves, the newest at the end."""
    return sorted(moves, key=lambda move: (move.moment, move.turn))[-MOST_REPLACED:]


def replaced_moves(match: Match, turns: Iterable[tuple[Texts, Texts]], moments: Mapping[int, float], otherwise: float) -> list[Replaced]:
    """Returns the last replaced moves of a match, from the moves and the errors of its turns. A move that was replaced because the referee lacked a
    resource, for example memory, does not count. If the time of a turn is unknown, `otherwise` is used."""
    replaced: list[Replaced] = []
    for turn, (moves, errors) in enumerate(turns, 1):
        for role, error in enumerate(errors):
            if error and error != SHORTAGE:
                replaced.append(Replaced(match, match.players[role], turn, error, moves[role], moments.get(turn, otherwise), len(replaced)))
    return replaced[-MOST_OF_MATCH:]
