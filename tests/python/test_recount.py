"""Compares the package with a simple independent computation (plain_competition.py), for hundreds of small competitions with random
records."""

import pathlib
import random
import unittest
from collections import Counter
from itertools import permutations

from ggp_tools.competition.competition_file import read_competition
from ggp_tools.competition.growth import Again, History, grown, refuse_changes
from ggp_tools.competition.results import result_of
from ggp_tools.competition.table import tables_of
import plain_competition as plain
from planning import nothing_known, planned
from support import toml

ROLES = {"solo": 1, "duel": 2, "pair": 2, "three": 3, "four": 4}
# The number of competitions of each kind.
MANY = 120


def tables(*words):
    """Returns the tables without ratings, which have separate tests."""
    return tables_of(*words, is_rated=False)


def competition(count, games, form, head=""):
    players = [(f"p{at}", f"h:{at + 1}") for at in range(count)]
    return read_competition(toml(players, [(game, "f") for game in games], form, head).encode())


def record_of(chance, match, strikes):
    """Returns a random record of a match."""
    seats, turns = len(match.players), chance.randrange(1, 7)
    kinds = [chance.choice(((0,), (0, 0, 0, 1), (0, 1), (1,))) if chance.random() < 0.4 else (0,) for _ in range(seats)]
    errors = [[chance.choice(("TO", "CE", "IL x")) if chance.choice(kinds[seat]) else "" for seat in range(seats)] for _ in range(turns)]
    goals = [] if chance.random() < 0.1 else [chance.choice((0, 0, 33, 50, 100)) for _ in range(seats)]
    return {
        "matchId": match.id, "game": match.game, "players": list(match.players), "strikes": strikes, "errors": errors, "moves": [["m"] * seats] * turns,
        "goalValues": goals, "phase": "finished" if goals else "aborted", "cause": None if goals else "nogoal",
    }


class Standings(unittest.TestCase):
    def assert_table(self, table, rows, cross):
        found = [
            (place, of.player, of.matches, of.mean(), of.won, of.drawn, of.lost, of.moves, of.replaced, of.absent, of.retired, of.won_by_forfeit, of.lost_by_forfeit, of.points())
            for place, of in zip(table.ranks(), table.standings())
        ]
        keys = "place", "player", "matches", "mean", "W", "D", "L", "moves", "replaced", "absent", "retired", "won_by", "lost_by", "points"
        self.assertEqual(found, [tuple(row[key] for key in keys) for row in rows])
        self.assertEqual({pair: (points, table.met[pair]) for pair, points in table.points.items()}, cross)

    def test_standings_and_crosstables(self):
        chance, forfeits, retired = random.Random(11), 0, 0
        for _ in range(MANY):
            games = chance.sample(sorted(ROLES), chance.randrange(1, 4))
            strikes, forfeit, order = chance.choice((0, 1, 2, 3)), chance.choice((False, True)), chance.choice(("goals", "points"))
            head = f'strikes = {strikes}\nforfeit = {str(forfeit).lower()}\norder = "{order}"'
            found = competition(chance.randrange(max(4, max(map(ROLES.get, games))), 7), games, 'kind = "round_robin"', head)
            matches = planned(found, ROLES)
            records = [record_of(chance, match, strikes) for match in matches if chance.random() < 0.9]
            by_id = {match.id: match for match in matches}
            results = [result_of(record, by_id[record["matchId"]], forfeit) for record in records]
            names = [player.name for player in found.players]
            for table in tables(found, results):
                only = None if table.game == "all games" else {table.game}
                self.assert_table(table, plain.standings(records, names, forfeit, order, only), plain.crosstable(records, forfeit, only))
            forfeits += sum(bool(result.forfeits()) for result in results)
            retired += sum(any(result.retirements) for result in results)
        self.assertGreater(min(forfeits, retired - forfeits), 200)


class Schedules(unittest.TestCase):
    def test_what_grows_keeps_what_was_planned(self):
        chance = random.Random(13)
        for _ in range(MANY):
            count, rounds, games = chance.randrange(2, 5), 1, ["duel"]
            version, history, before = None, History(), []
            for _ in range(chance.randrange(1, 5)):
                after = competition(count, games, f'kind = "round_robin"\nrounds = {rounds}')
                if version:
                    refuse_changes(version, after)
                    history = History((*history.earlier, (len(before), version)), history.again)
                version, matches = after, grown(history, after, ROLES, nothing_known).matches
                self.assertEqual([match.line() for match in matches[: len(before)]], [match.line() for match in before])
                wanted = [(game, seats) for game in games for seats in permutations([f"p{at}" for at in range(count)], ROLES[game])] * rounds
                again = [match for match in matches if match.again]
                self.assertEqual(Counter((match.game, match.players) for match in matches if not match.again), Counter(wanted))
                if (open_matches := [match for match in matches if not match.again]) and chance.random() < 0.5:
                    old = chance.choice(open_matches)
                    history = History(history.earlier, (*history.again, Again(f"cup-{len(matches) + 1:03}", old.id, "why")))
                    matches = grown(history, after, ROLES, nothing_known).matches
                    self.assertEqual((matches[-1].players, matches[-1].instead_of, len([match for match in matches if match.again])), (old.players, old.id, len(again) + 1))
                before = matches
                count, rounds = count + chance.randrange(3), rounds + chance.randrange(2)
                games = games + chance.sample(["solo"], chance.randrange(2)) if len(games) == 1 else games


class Rounds(unittest.TestCase):
    def played(self, chance, found, strikes, forfeit):
        """Plays a competition in rounds. Returns the schedule, the records of each round, and all results."""
        records, results, by_round = {}, {}, []
        while True:
            growing = grown(History(), found, ROLES, lambda match: results.get(match.id))
            new = [match for match in growing.matches if match.id not in results]
            if not new:
                return growing, by_round, list(results.values())
            self.check_round(found, growing, by_round, forfeit)
            for match in new:
                records[match.id] = record_of(chance, match, strikes)
                results[match.id] = result_of(records[match.id], match, forfeit)
            by_round.append([records[match.id] for match in new])

    def check_round(self, found, growing, by_round, forfeit):
        """Compares the last planned round with the simple computation."""
        names, games, last = [player.name for player in found.players], [game.name for game in found.games], growing.rounds.found[-1]
        if found.form.kind == "swiss":
            before = [(round_before.pairs, (round_before.byes or (None,))[0]) for round_before in growing.rounds.found[:-1]]
            pairs, bye = plain.swiss_pairs(names, len(games), before, sum(by_round, []), forfeit)
            byes = [bye] if bye else []
        else:
            pairs, byes = plain.knockout_round(names, by_round, forfeit)
        self.assertEqual((list(last.pairs), list(last.byes), last.number), (pairs, byes, len(by_round) + 1))
        new = [(match.game, match.players) for match in growing.matches if match.round == last.number]
        self.assertEqual(Counter(new), Counter((game, seats) for game in games for pair in pairs for seats in (pair, pair[::-1])))

    def test_swiss_rounds_and_standings(self):
        chance, again = random.Random(14), 0
        for _ in range(MANY):
            count, rounds, games = chance.randrange(2, 12), chance.randrange(1, 6), chance.sample(["duel", "pair"], chance.randrange(1, 3))
            strikes, forfeit = chance.choice((0, 1, 2)), chance.choice((False, True))
            head = f"strikes = {strikes}\nforfeit = {str(forfeit).lower()}"
            found = competition(count, games, f'kind = "swiss"\nrounds = {rounds}', head)
            growing, by_round, results = self.played(chance, found, strikes, forfeit)
            self.assertEqual(len(by_round), rounds)
            names, said = [player.name for player in found.players], [(paired.pairs, (paired.byes or (None,))[0]) for paired in growing.rounds.found]
            order, total, buchholz = plain.swiss_standings(names, len(games), said, sum(by_round, []), forfeit)
            table = tables(found, results, growing.rounds.found)[0]
            self.assertEqual([(of.player, of.points(), of.buchholz) for of in table.standings()], [(name, total[name], buchholz[name]) for name in order])
            self.assertEqual(table.ranks(), [1 + sum((total[other], buchholz[other]) > (total[name], buchholz[name]) for other in order) for name in order])
            meetings = Counter(frozenset(pair) for pairs, _ in said for pair in pairs)
            # If there are enough players, no pairing is repeated.
            again += sum(times > 1 for times in meetings.values()) if count >= 2 * rounds + 2 else 0
            byes = Counter(bye for _, bye in said if bye)
            self.assertEqual(sum(byes.values()), rounds * (count % 2))
            self.assertLessEqual(max(byes.values(), default=0) - (min(byes[name] for name in names) if byes else 0), 1)
        self.assertEqual(again, 0)

    def test_knockouts(self):
        chance = random.Random(15)
        for _ in range(MANY):
            count, games = chance.randrange(2, 18), chance.sample(["duel", "pair"], chance.randrange(1, 3))
            strikes, forfeit = chance.choice((0, 1, 2)), chance.choice((False, True))
            found = competition(count, games, 'kind = "knockout"', f"strikes = {strikes}\nforfeit = {str(forfeit).lower()}")
            growing, by_round, results = self.played(chance, found, strikes, forfeit)
            names, left = [player.name for player in found.players], [player.name for player in found.players]
            lost_in = {}
            for number, paired in enumerate(growing.rounds.found):
                self.assertEqual(sorted((*(name for pair in paired.pairs for name in pair), *paired.byes)), sorted(left))
                self.assertTrue(number == 0 or not paired.byes)
                for pair in paired.pairs:
                    loser = (set(pair) - {plain.knockout_winner(pair, by_round[number], names, forfeit)}).pop()
                    lost_in[loser] = number
                    left.remove(loser)
            self.assertEqual(len(left), 1)
            won = {**lost_in, left[0]: len(by_round)}
            table = tables(found, results, growing.rounds.found)[0]
            self.assertEqual([(of.player, of.rounds_won) for of in table.standings()], sorted(won.items(), key=lambda place: (-place[1], names.index(place[0]))))
            self.assertEqual(table.ranks(), [1 + sum(other > rounds for other in won.values()) for _, rounds in sorted(won.items(), key=lambda place: (-place[1], names.index(place[0])))])
            self.assertEqual(len(growing.rounds.found), (count - 1).bit_length())

    def test_the_best_seeds_meet_last(self):
        for count in (4, 8, 16, 32):
            places = plain.knockout_places(list(range(1, count + 1)))
            first = [set(places[at : at + 2]) for at in range(0, count, 2)]
            self.assertEqual({sum(pair) for pair in first}, {count + 1})
            self.assertEqual({1, 2} & set(places[: count // 2]), {1})
            self.assertEqual(sorted({1, 2, 3, 4} & set(places[: count // 2])), [1, 4])


class Plain(unittest.TestCase):
    def test_the_plain_computation_shares_nothing_with_the_package(self):
        lines = pathlib.Path(plain.__file__).read_text(encoding="utf-8").splitlines()
        self.assertEqual([line for line in lines if "import" in line.split()], ["from fractions import Fraction"])
