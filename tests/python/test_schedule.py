"""Pairings: each pair meets as often as requested, each player plays each role equally often, and the result is the same for the same competition."""

import itertools
import math
import types
import unittest
from collections import Counter

from ggp_tools.competition.command import counts_of_game
from ggp_tools.competition.competition_file import Mistaken, read_competition
from ggp_tools.competition.schedule import MOST_MATCHES, circle_steps, id_in, id_of, matches_in, refuse_too_many, schedule_text
from planning import planned
from support import raised, toml


def matches(count, roles, form='kind = "round_robin"', games=1):
    players = [(f"p{number}", f"h:{number + 1}") for number in range(count)]
    text = toml(players, [(f"g{number}", "f") for number in range(games)], form)
    return planned(read_competition(text.encode()), {f"g{number}": roles for number in range(games)})


def seats(found):
    return Counter((seat, player) for match in found for seat, player in enumerate(match.players))


def meetings(found):
    return Counter(frozenset((player, opponent)) for match in found for player in match.players for opponent in match.players if player < opponent)


def plain_steps(count, roles, rounds):
    """Returns the blocks of a round robin of three or more roles, with all counts computed anew for each role."""
    found = []
    for _ in range(math.ceil((count - 1) / math.comb(roles, 2)) * rounds):
        found.append([0])
        while len(found[-1]) < roles:
            distances = [(step - second) % count for steps in found for step, second in itertools.permutations(steps, 2)]
            others = [step for step in range(count) if step not in found[-1]]
            often = {step: sum(distances.count((step - other) % count) for other in found[-1]) for step in others}
            found[-1].append(min(step for step in others if often[step] == min(often.values())))
    return [tuple(steps) for steps in found]


class Schedule(unittest.TestCase):
    def test_each_seat_takes_who_was_met_least(self):
        for roles in range(3, 7):
            for count in range(roles, 12):
                for rounds in (1, 2, 3):
                    self.assertEqual(list(circle_steps(count, roles, rounds)), plain_steps(count, roles, rounds), (count, roles, rounds))

    def test_each_player_in_each_seat_equally_often(self):
        for roles in range(1, 17):
            for count in range(roles, 25):
                for rounds in (1, 2):
                    found = matches(count, roles, f'kind = "round_robin"\nrounds = {rounds}')
                    self.assertTrue(all(len(set(match.players)) == roles for match in found))
                    by_seat = seats(found)
                    self.assertEqual(len(by_seat), count * roles)
                    self.assertEqual(len(set(by_seat.values())), 1, (roles, count))
                    if roles > 1:
                        self.assertEqual(len(meetings(found)), count * (count - 1) // 2, (roles, count))
                    if roles < 3:
                        pairings = [*itertools.permutations([f"p{number}" for number in range(count)], roles)] * rounds
                        self.assertEqual(Counter(match.players for match in found), Counter(pairings))

    def test_meetings_are_as_even_as_the_number_of_matches_lets_them_be(self):
        for roles in range(3, 9):
            for count in range(roles, 17):
                for rounds in (1, 2):
                    found = matches(count, roles, f'kind = "round_robin"\nrounds = {rounds}')
                    # How many blocks of matches would be needed if every two players met once. This assumes that the matches can be
                    # distributed evenly.
                    blocks = math.ceil(2 * (count - 1) / (roles * (roles - 1)))
                    self.assertEqual(len(found), count * blocks * rounds, (roles, count))
                    met = meetings(found)
                    self.assertLessEqual(max(met.values()) - min(met.values()), 3, (roles, count))

    def test_where_all_can_meet_equally_often_they_do(self):
        # The numbers of players and roles, and how often every two players meet: the pairs in all matches, divided by all pairs of players.
        for count, roles, wanted in ((7, 3, 2), (9, 4, 3), (5, 2, 2)):
            self.assertEqual(set(meetings(matches(count, roles)).values()), {wanted})

    def test_two_players_meet_in_whatever_seats_they_sit(self):
        plan = types.SimpleNamespace(competition=read_competition(toml([(f"p{at}", f"h:{at + 1}") for at in range(3)], [("g0", "f")]).encode()), roles=lambda _: ("a", "b"))
        self.assertEqual(counts_of_game(plan, matches(3, 2)), "6 matches, roles a b; each player in each role: 2; each pair of players: 2")

    def test_the_limit_of_matches(self):
        self.assertEqual(len(matches(1_000, 1, 'kind = "round_robin"\nrounds = 100')), MOST_MATCHES)
        why = raised(Mistaken, matches, 317, 2)
        self.assertEqual([(mistake.line, mistake.key, mistake.words) for mistake in why.mistakes], [(2, "form", "there are more than 100,000 matches")])

    def test_just_as_many_matches_as_the_limit_are_taken(self):
        found = read_competition(toml([("ann", "h:1"), ("bob", "h:2")], [("game", "f")]).encode())
        refuse_too_many(found, 100_000)
        with self.assertRaises(Mistaken):
            refuse_too_many(found, 100_001)

    def test_gauntlet(self):
        for roles in range(2, 6):
            for count in range(roles, 10):
                found = matches(count, roles, 'kind = "gauntlet"\none = "p1"\nrounds = 2')
                self.assertTrue(all("p1" in match.players and len(set(match.players)) == roles for match in found))
                by_seat = seats(found)
                self.assertEqual({by_seat[seat, "p1"] for seat in range(roles)}, {2 * (count - 1)})
                others = {by_seat[seat, f"p{number}"] for seat in range(roles) for number in range(count) if number != 1}
                self.assertEqual(others, {2 * (roles - 1)})

    def test_lines(self):
        found = matches(3, 2, 'kind = "schedule"\nlines = ["g0 p2 p0", "g0 p2 p0", "g1 p0 p1"]', 2)
        self.assertEqual([(match.id, match.game, match.players) for match in found],
                         [("cup-001", "g0", ("p2", "p0")), ("cup-002", "g0", ("p2", "p0")), ("cup-003", "g1", ("p0", "p1"))])
        self.assertEqual({(match.round, match.again, match.reason, match.instead_of) for match in found}, {(0, "", "", "")})

    def test_a_schedule_stays_what_it_was(self):
        # This version must plan a schedule exactly as an earlier version did.
        def seated(*words):
            return [" ".join(match.players) for match in matches(*words)]

        self.assertEqual(seated(3, 1, 'kind = "round_robin"\nrounds = 2'), ["p0", "p1", "p2"] * 2)
        self.assertEqual(seated(3, 1, 'kind = "gauntlet"\none = "p1"\nrounds = 2'), ["p0", "p1", "p2"] * 2)
        one_round = ["p1 p0", "p1 p2", "p0 p1", "p2 p1"]
        self.assertEqual(seated(3, 2, 'kind = "gauntlet"\none = "p1"\nrounds = 2'), one_round * 2)
        self.assertEqual(seated(4, 2), ["p0 p1", "p1 p2", "p2 p3", "p3 p0", "p0 p2", "p1 p3", "p2 p0", "p3 p1", "p0 p3", "p1 p0", "p2 p1", "p3 p2"])
        self.assertEqual(seated(5, 3), [
            "p0 p1 p3", "p1 p2 p4", "p2 p3 p0", "p3 p4 p1", "p4 p0 p2", "p0 p1 p2", "p1 p2 p3", "p2 p3 p4", "p3 p4 p0", "p4 p0 p1",
        ])
        self.assertEqual(seated(4, 3, 'kind = "gauntlet"\none = "p1"'), [
            "p1 p0 p2", "p1 p2 p3", "p1 p3 p0", "p0 p1 p2", "p2 p1 p3", "p3 p1 p0", "p0 p2 p1", "p2 p3 p1", "p3 p0 p1",
        ])

    def test_a_match_has_the_clocks_of_its_game(self):
        text = toml([("ann", "h:1"), ("bob", "h:2")], [("fast", "f", "start = 3", "play = 2"), ("slow", "f", "start = 30", "play = 20")])
        found = planned(read_competition(text.encode()), {"fast": 2, "slow": 2})
        self.assertEqual([(match.game, match.start, match.play) for match in found], [("fast", 3, 2)] * 2 + [("slow", 30, 20)] * 2)
        self.assertEqual(schedule_text(found[1:3]), b"id\tgame\tstart\tplay\tplayers\ncup-002\tfast\t3\t2\tbob ann\ncup-003\tslow\t30\t20\tann bob\n")

    def test_the_same_again(self):
        self.assertEqual(schedule_text(matches(9, 3)), schedule_text(matches(9, 3)))
        self.assertEqual(len({match.id for match in matches(40, 2)}), 1560)

    def test_ids_have_as_many_digits_as_the_last_one_needs_and_three_at_least(self):
        for count, first, last in ((2, "cup-001", "cup-002"), (999, "cup-001", "cup-999"), (1_000, "cup-0001", "cup-1000")):
            found = matches(count, 1)
            self.assertEqual((found[0].id, found[-1].id, len(found)), (first, last, count))

    def test_which_rows_of_a_schedule_are_matches(self):
        competition = read_competition(toml([("p0", "h:1"), ("p1", "h:2")], [("g0", "f", "start = 3")]).encode())
        # The first 12 letters in base 32 of `printf %s cup-001 | openssl dgst -sha256 -hmac KEY -binary`.
        self.assertEqual(id_of(competition, 1, 3, b"KEY"), "cup-001-e4vhcg25rtia")
        found = planned(competition, {"g0": 2})
        text = schedule_text(found) + b"cup-003\tg1\t3\t10\tp0 p1\ncup-004\tg0\t3\t10\tp0 p2\ncup-005\tg0\t3\tp0 p1\n\x1b\n"
        self.assertEqual(matches_in(text.splitlines(keepends=True), competition), found)
        self.assertEqual(list(map(id_in, text.splitlines())), [None, *(f"cup-00{at}" for at in range(1, 5)), None, None])

    def test_numbers_that_do_not_fit(self):
        self.assertEqual([(mistake.key, mistake.words) for mistake in raised(Mistaken, matches, 2, 3, games=2).mistakes],
                         [("games.file", "g0 has 3 roles, but the competition has 2 players"), ("games.file", "g1 has 3 roles, but the competition has 2 players")])
        why = raised(Mistaken, matches, 3, 2, 'kind = "schedule"\nlines = ["g0 p1 p2",\n"g0 p1"]')
        self.assertEqual([(mistake.line, mistake.words) for mistake in why.mistakes], [(5, "g0 has 2 roles, but the line names 1 player")])
        # A game that no line names may have more roles than there are players.
        competition = read_competition(toml([("p0", "h:1"), ("p1", "h:2")], [("g0", "f"), ("g1", "f")], 'kind = "schedule"\nlines = ["g0 p1 p0"]').encode())
        self.assertEqual([match.players for match in planned(competition, {"g0": 2, "g1": 3})], [("p1", "p0")])
        with self.assertRaises(Mistaken):
            matches(1000, 2)
        for kind in ("swiss\"\nrounds = 1", "knockout\""):
            for roles in (1, 3):
                why = raised(Mistaken, matches, 4, roles, f'kind = "{kind}')
                words = f"the kind {kind.partition(chr(34))[0]} is for games of two roles, but g0 has {roles}"
                self.assertEqual([(mistake.key, mistake.words) for mistake in why.mistakes], [("games.file", words)])
