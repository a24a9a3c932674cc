"""Compares ratings with closed forms, with slow computations by other methods, and with players of known strengths. Also tests cases
without ratings."""

import math
import random
import unittest

import hypothesis
import numpy
from hypothesis import strategies

from ggp_tools.competition.ratings import groups, rated

# 400 points are odds of 10 to 1; 1.96 standard deviations contain 95%.
SCALE, SPREAD = 173.71779276, 1.959964


@strategies.composite
def drawn_points(draw):
    """Returns players, and the points of some pairs."""
    players = draw(strategies.permutations("abcdef"))[: draw(strategies.integers(2, 6))]
    got = strategies.sampled_from((0, 0, 0.5, 1, 2.5, 40))
    pairs = [(player, opponent) for player in players for opponent in players if player < opponent]
    return players, {way: draw(got) for pair in pairs if draw(strategies.booleans()) for way in (pair, pair[::-1])}


def expected(player, points, logs):
    """Computes the expected points of a player against the opponents in its group. `logs` contains the logarithms of the strengths."""
    met = {other: points[player, other] + points[other, player] for other in logs if (player, other) in points}
    return sum(count / (1 + math.exp(logs[other] - logs[player])) for other, count in met.items())


def reached(players, points):
    """Returns, for each player, the players that a chain of points leads to."""
    found = {player: {player} for player in players}
    for _ in players:
        for (player, opponent), got in points.items():
            for some in found.values():
                some |= {opponent} if got and player in some else set()
    return found


def iterated(players, points):
    """Returns the logarithms of the strengths of a group by the iteration of Hunter ("MM algorithms for generalized Bradley-Terry models", The Annals
    of Statistics 32, 2004), or None if the iteration is too slow."""
    found = dict.fromkeys(players, 0.0)
    won = {player: sum(points.get((player, other), 0) for other in players) for player in players}
    for _ in range(5_000):
        new = {player: found[player] + math.log(won[player] / expected(player, points, found)) for player in players}
        mean = sum(new.values()) / len(new)
        new = {player: log - mean for player, log in new.items()}
        if max(abs(new[player] - found[player]) for player in players) < 1e-12:
            return new
        found = new
    return None


def solved(matrix, right):
    """Solves linear equations by Gauss's elimination."""
    rows = [[*row, value] for row, value in zip(matrix, right)]
    for at in range(len(rows)):
        pivot = max(range(at, len(rows)), key=lambda row: abs(rows[row][at]))
        rows[at], rows[pivot] = rows[pivot], rows[at]
        for other in range(len(rows)):
            if other != at:
                factor = rows[other][at] / rows[at][at]
                rows[other] = [entry - factor * above for entry, above in zip(rows[other], rows[at])]
    return [row[-1] / row[at] for at, row in enumerate(rows)]


def halves(players, points, logs):
    """Returns half of the interval of each rating, in terms of all players but the last, whose logarithm is minus the sum of the others."""
    count = len(players)

    def information(row, column):
        total = 0
        for low in range(count):
            for high in range(low):
                met = points.get((players[low], players[high]), 0) + points.get((players[high], players[low]), 0)
                by = [(place == low) - (place == high) - (low == count - 1) + (high == count - 1) for place in (row, column)]
                chance = 1 / (1 + math.exp(logs[players[high]] - logs[players[low]]))
                total += met * chance * (1 - chance) * by[0] * by[1]
        return total

    matrix = [[information(row, column) for column in range(count - 1)] for row in range(count - 1)]
    columns = [solved(matrix, [float(at == column) for at in range(count - 1)]) for column in range(count - 1)]
    found = [columns[at][at] for at in range(count - 1)]
    return [SCALE * SPREAD * math.sqrt(variance) for variance in (*found, sum(map(sum, columns)))]


def played(chance, strengths, matches):
    """Returns the points of players of these strengths. Each pair plays this many matches."""
    points = {}
    for player, strength in strengths.items():
        for opponent, against in strengths.items():
            if player < opponent:
                won = sum(chance.random() < strength / (strength + against) for _ in range(matches))
                points[player, opponent], points[opponent, player] = won, matches - won
    return points


class Ratings(unittest.TestCase):
    def test_two_players_have_a_closed_form(self):
        for won, lost in ((30, 10), (1, 1), (2.5, 0.5), (1, 99_999)):
            found = rated(["a", "b"], {("a", "b"): won, ("b", "a"): lost})
            self.assertAlmostEqual(found["a"].rating - found["b"].rating, 400 * math.log10(won / lost), 5)
            self.assertAlmostEqual(found["a"].rating, -found["b"].rating, 5)
            # The difference has the variance 1 / (n p (1 - p)), each rating a quarter of that.
            wanted = SCALE * SPREAD * math.sqrt((won + lost) / (won * lost)) / 2
            self.assertAlmostEqual(found["a"].half, wanted, 3)
            self.assertAlmostEqual(found["b"].half, wanted, 3)

    def test_a_circle_of_equals_is_level(self):
        players = list("abcd")
        found = rated(players, {(player, opponent): 3 for player in players for opponent in players if player != opponent})
        for rating in found.values():
            self.assertAlmostEqual(rating.rating, 0, 6)
        # With n matches of each of k pairs the information is n k / 4 of the identity, less its part along (1, .., 1).
        self.assertAlmostEqual(found["a"].half, SCALE * SPREAD * math.sqrt(4 / (6 * 4) * 3 / 4), 3)

    @hypothesis.given(drawn_points())
    @hypothesis.settings(max_examples=100, deadline=None)
    def test_ratings_are_those_of_a_slow_iteration(self, drawn):
        players, points = drawn
        found, chains = rated(players, points), reached(players, points)
        wanted = [[other for other in players if other in chains[player] and player in chains[other]] for player in players]
        wanted = [group for player, group in zip(players, wanted) if group[0] == player and group[1:]]
        self.assertEqual([[player for player in players if found[player].group == number] for number in range(1, len(wanted) + 1)], wanted)
        for player in {*players} - {player for group in wanted for player in group}:
            self.assertEqual((found[player].rating, found[player].half, found[player].group), (None, None, None))
        for group in wanted:
            logs = {player: found[player].rating / SCALE for player in group}
            own = {pair: got for pair, got in points.items() if {*pair} <= {*group}}
            self.assertAlmostEqual(sum(logs.values()), 0, 9)
            # At the maximum of the likelihood each player has its expected points.
            for player in group:
                self.assertAlmostEqual(expected(player, own, logs), sum(got for (winner, _), got in own.items() if winner == player), 6)
            for player, half in zip(group, halves(group, own, logs)):
                self.assertAlmostEqual(found[player].half, half, delta=half * 1e-5)
            for player, log in (iterated(group, own) or {}).items():
                self.assertAlmostEqual(found[player].rating, SCALE * log, 4)

    def test_known_strengths_lie_in_the_intervals(self):
        chance, inside, total, nearest = random.Random(48), 0, 0, []
        strengths = {name: math.exp(number / 3) for number, name in enumerate("abcdefgh")}
        mean = sum(map(math.log, strengths.values())) / len(strengths)
        for _ in range(100):
            found = rated(list(strengths), played(chance, strengths, 20))
            for name, strength in strengths.items():
                if found[name].rating is not None:
                    away = abs(found[name].rating - SCALE * (math.log(strength) - mean))
                    inside, total = inside + (away <= found[name].half), total + 1
                    nearest.append(away)
        self.assertEqual(total, 800)
        # About 760 of 800 intervals of 95% contain the strength. The number varies, because a group's ratings are not independent.
        self.assertGreater(inside, 736)
        self.assertLess(inside, 784)
        self.assertLess(sum(nearest) / total, 45)

    def test_groups_that_never_beat_each_other_are_rated_apart(self):
        found = rated(list("abcdef"), {("a", "b"): 1, ("b", "a"): 3, ("c", "d"): 1, ("d", "c"): 1, ("a", "c"): 5, ("e", "a"): 2, ("a", "e"): 0})
        self.assertEqual([found[name].group for name in "abcdef"], [1, 1, 2, 2, None, None])

    def test_a_long_chain_is_one_group(self):
        self.assertEqual(groups(numpy.roll(numpy.eye(3_000, dtype=bool), 1, axis=1)), [list(range(3_000))])

    def test_a_chain_of_lopsided_results_is_rated(self):
        # The strengths of the first and of the last differ by a factor of 9 to the power of 99.
        names = [f"p{number}" for number in range(100)]
        points = {way: got for pair in zip(names, names[1:]) for way, got in ((pair, 9), (pair[::-1], 1))}
        found = rated(names, points)
        for first, second in zip(names, names[1:]):
            self.assertAlmostEqual(found[first].rating - found[second].rating, 400 * math.log10(9), 5)

    def test_strengths_that_the_results_hardly_limit_are_not_shown(self):
        # Two chains. The first player of each chain has beaten the last player of the other, which says little about how the chains compare.
        points = {}
        for chain in ("abcdefghijklmno", "ABCDEFGHIJKLMNO"):
            points |= {way: got for pair in zip(chain, chain[1:]) for way, got in ((pair, 999), (pair[::-1], 1))}
            points |= {(chain[0], chain[-1].swapcase()): 999}
        found = rated(sorted({player for pair in points for player in pair}), points)
        self.assertEqual({(rating.rating, rating.half, rating.group) for rating in found.values()}, {(None, None, 1)})
