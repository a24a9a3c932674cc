"""Which matches may begin, if players do not answer in several matches at once, and if no match of a long queue can begin."""

import math
import unittest
from unittest import mock

from ggp_tools.competition.competition_file import read_competition
from ggp_tools.competition.schedule import Match
from ggp_tools.competition.slots import Slots
from planning import planned
from support import toml


class Queue(unittest.TestCase):
    def setUp(self):
        players = [(f"p{number}", f"h:{number + 1}", "concurrent = 2") for number in range(4)]
        self.competition = read_competition(toml(players, [("one", "f")], head="tries = 3\nwait = 5").encode())
        self.slots = Slots(self.competition)
        self.waiting = planned(self.competition, {"one": 2})

    def begins(self, now):
        """Returns whether a match can begin, and the number of matches that were considered."""
        looked, has_free = [], type(self.slots).has_free

        def counted(match, now):
            looked.append(match)
            return has_free(self.slots, match, now)

        self.slots.has_free = counted
        return self.slots.next_match(self.waiting, now), len(looked)

    def test_a_queue_is_looked_through_once_where_none_can_begin(self):
        while (found := self.begins(1.0))[0]:
            last = found[0]
        self.assertEqual(found, (None, 0))
        # Two free players that have no waiting match in common.
        self.slots.free = dict.fromkeys(self.slots.free, 0) | {"p0": 1, "p1": 1}
        self.waiting = [match for match in planned(self.competition, {"one": 2}) if set(match.players) != {"p0", "p1"}]
        self.assertEqual(self.begins(1.0), (None, 0))
        self.slots.idle_until = 0
        self.assertEqual([self.begins(moment) for moment in (1.0, 1.0, 1e9)], [(None, len(self.waiting)), (None, 0), (None, 0)])
        self.slots.give_back(last)
        self.assertTrue(self.begins(1.0)[0])

    def test_the_queue_is_looked_through_again_when_there_are_other_matches(self):
        later, self.waiting = self.waiting, []
        self.assertEqual(self.begins(1.0), (None, 0))
        self.waiting = later
        self.assertEqual(self.begins(1.0), (None, 0))
        self.slots.idle_until = 0.0
        self.assertTrue(self.begins(1.0)[0])


class Moments(unittest.TestCase):
    """Tests with given times: a player that does not answer at 100 s rests for 5 s."""

    def setUp(self):
        players = [(name, f"h:{at + 1}", "concurrent = 2") for at, name in enumerate(("ann", "bob", "cid"))]
        self.slots = Slots(read_competition(toml(players, [("one", "f")], head="tries = 3\nwait = 5").encode()))

    def missed(self, player, seated, now):
        with mock.patch("ggp_tools.competition.slots.time.monotonic", lambda: now):
            return self.slots.count_failure(player, seated)

    def matches(self, *pairs):
        return [Match(f"m{at}", "one", 1, 1, tuple(pair.split())) for at, pair in enumerate(pairs)]

    def test_who_was_asked_in_vain_rests(self):
        match, = self.matches("ann bob")
        self.assertTrue(self.slots.has_free(match, 0.0))
        self.assertTrue(self.missed("ann", 99.0, 100.0))
        self.assertEqual([self.slots.has_free(match, now) for now in (100.0, 104.9, 105.0, 106.0)], [False, False, True, True])

    def test_tries_in_a_row(self):
        tries = [self.missed("ann", seated, now) for seated, now in ((99, 100), (100, 101), (50, 101), (101, 102), (102, 103), (103, 104))]
        # If a match took its slots before the player's last failed try ended, or at that moment, its failure counts as part of that try.
        self.assertEqual(tries, [True, True, True, True, True, False])
        self.assertEqual((self.slots.failed["ann"], self.slots.rests_until["ann"]), (3, 104))
        self.slots.count_answer("ann")
        self.assertEqual((self.missed("ann", 110, 111), self.slots.failed["ann"], self.slots.rests_until["ann"]), (True, 1, 116))

    def test_a_player_sits_in_as_many_matches_as_it_may(self):
        waiting = self.matches("ann bob", "bob ann", "ann cid", "cid bob", "bob cid")
        begun = [self.slots.next_match(waiting, 1.0) for _ in range(4)]
        self.assertEqual([match and match.id for match in begun], ["m0", "m1", None, None])
        self.assertEqual(([match.id for match in waiting], self.slots.free), (["m2", "m3", "m4"], {"ann": 0, "bob": 0, "cid": 2}))
        self.slots.give_back(begun[0])
        self.assertEqual(self.slots.free, {"ann": 1, "bob": 1, "cid": 2})
        begun = [self.slots.next_match(waiting, 1.0) for _ in range(3)]
        self.assertEqual(([match and match.id for match in begun], [match.id for match in waiting]), (["m2", "m3", None], ["m4"]))

    def test_the_next_look_is_when_the_first_player_is_rested(self):
        waiting = self.matches("ann bob")
        self.missed("ann", 99, 100)
        self.missed("bob", 99, 102)
        self.assertEqual((self.slots.next_match(waiting, 103.0), self.slots.idle_until), (None, 105))
        self.assertEqual((self.slots.next_match(waiting, 105.0), self.slots.idle_until), (None, 107))
        self.assertEqual(self.slots.next_match(waiting, 107.0).id, "m0")

    def test_a_try_in_vain_gives_another_time_for_the_next_look(self):
        waiting = self.matches("ann bob")
        self.assertEqual((self.slots.next_match([], 1.0), self.slots.idle_until), (None, math.inf))
        self.missed("ann", 99, 100)
        self.assertIsNone(self.slots.next_match(waiting, 104.0))
        self.assertEqual(self.slots.next_match(waiting, 105.0).id, "m0")

    def test_the_clock_may_have_begun_just_now(self):
        waiting = self.matches("ann bob", "bob cid")
        match = self.slots.next_match(waiting, 0.5)
        self.assertIsNone(self.slots.next_match([], 0.5))
        self.slots.give_back(match)
        self.assertTrue(self.missed("ann", 0.4, 0.6))
        self.assertEqual((self.slots.failed["ann"], self.slots.next_match(waiting, 0.7).id), (1, "m1"))

    def test_where_nobody_rests_it_is_when_a_seat_is_left(self):
        waiting = self.matches("ann bob", "ann bob", "ann bob")
        match, _ = self.slots.next_match(waiting, 1.0), self.slots.next_match(waiting, 1.0)
        self.assertEqual((self.slots.next_match(waiting, 1.0), self.slots.idle_until), (None, math.inf))
        self.slots.give_back(match)
        self.assertEqual((self.slots.next_match(waiting, 1.0).id, waiting), ("m2", []))
