"""Matches of a ground GDL game, and their phases. The game is so small that the test lists all of its states."""

import unittest

from ggp_tools.holding.game import Game
from ggp_tools.holding.match import MOST_TURNS, Match, texts_of
from support import raised

# Each role shows a side once. In state 2, red can still move, but blue has no move.
SHOW = """
(role red) (role blue)
(init 1) (init (side none))
(<= (legal red head) (true 1)) (<= (legal red tail) (true 1)) (<= (legal blue tail) (true 1)) (<= (legal blue head) (true 1))
(<= (legal red wait) (true 2))
(<= same (does red head) (does blue head)) (<= same (does red tail) (does blue tail))
(<= (next 3) same)
(<= (next (side head)) (does red head))
(<= (next 2) (not same) (true 1) (or (does red head) (does red none)))
(<= (next 4) (true 1) (not same) (does red tail))
(<= terminal (true 3)) (<= terminal (true 4) (distinct a b)) (<= terminal (true 2) (distinct a a))
(<= (goal red 100) (true 3)) (<= (goal red 0) (true 2)) (<= (goal red 50) (true 4)) (<= (goal red 60) (true 4))
(<= (goal blue 0) (true 3)) (goal blue 7)
(<= (goal blue 7) (true 4))
"""


def game():
    return Game(SHOW)


class Rules(unittest.TestCase):
    def position(self, *terms, moves=()):
        found = game()
        return found, found.position(frozenset(terms), moves)

    def test_roles_and_the_first_state(self):
        self.assertEqual((game().roles, game().initial), (["red", "blue"], {"1", ("side", "none")}))
        self.assertEqual(texts_of(game().initial), ["(side none)", "1"])

    def test_moves_are_legal_in_the_order_of_the_description(self):
        for term, moves in (("1", [["head", "tail"], ["tail", "head"], []]), ("2", [["wait"], [], []])):
            found, position = self.position(term)
            self.assertEqual([found.moves(position, role) for role in ("red", "blue", "green")], moves)
        # The place of a move is that of the first sentence that can derive the move, even if another sentence derives it in this state.
        found = Game("(role r) (<= (legal r b) (true t)) (legal r a) (<= (legal r b) (true s)) (<= (legal r c) (true s)) (init s)")
        self.assertEqual(found.moves(found.position(found.initial), "r"), ["b", "a", "c"])

    def test_the_next_state_follows_from_the_state_and_the_moves(self):
        for moves, state in ((("head", "head"), {"3", ("side", "head")}), (("head", "tail"), {"2", ("side", "head")}), (("tail", "head"), {"4"}), (("tail", "tail"), {"3"})):
            found, position = self.position("1", ("side", "none"), moves=moves)
            self.assertEqual(set(found.following(position)), state)

    def test_the_end_and_the_goals(self):
        for term, is_over, goals in (("1", False, ([], [7])), ("2", False, ([0], [7])), ("3", True, ([100], [0, 7])), ("4", True, ([50, 60], [7]))):
            found, position = self.position(term)
            self.assertEqual((found.is_over(position), (found.goals(position, "red"), found.goals(position, "blue"))), (is_over, goals), term)

    def test_a_body_asks_for_what_the_game_asks_too(self):
        found = Game("(role r) (init s) (<= (legal r a) (true s)) (<= (legal r b) (not (legal r c)) (legal r a)) (<= (goal r 1) (role r) (not (goal r 2))) (<= terminal (not (not terminal_too))) (<= terminal_too terminal_three) terminal_three")
        position = found.position(found.initial)
        self.assertEqual((found.moves(position, "r"), found.goals(position, "r"), found.is_over(position)), (["a", "b"], [1], True))


class Matches(unittest.TestCase):
    def setUp(self):
        self.match = Match(game(), "m", 10, 5, ["ann", "bob"])

    def start(self):
        self.match.marks["start"] = {0: "", 1: "TO"}

    def play(self, *moves, errors=("", "")):
        self.match.turn(list(zip(moves, errors)))

    def end(self, *roles):
        self.match.marks["end"].update(dict.fromkeys(roles, ""))

    def test_a_match_wants_a_player_for_each_role(self):
        for players in ([], ["ann"], ["ann", "bob", "cid"]):
            self.assertEqual(str(raised(ValueError, Match, game(), "m", 1, 1, players)), f"{len(players)} players for 2 roles")

    def test_phases_of_a_match_that_is_played_to_its_end(self):
        self.assertEqual(self.match.phase(), ("starting", None))
        self.match.marks["start"][1] = ""
        self.assertEqual(self.match.phase(), ("starting", None))
        self.start()
        self.assertEqual(self.match.phase(), ("playing", None))

    def test_without_a_goal_the_match_is_given_up_once_all_know(self):
        self.start()
        self.play("head", "head")
        self.assertEqual(self.match.phase(), ("aborting", "nogoal 1"))
        self.end(0)
        self.assertEqual(self.match.phase(), ("aborting", "nogoal 1"))
        self.end(1)
        self.assertEqual(self.match.phase(), ("aborted", "nogoal 1"))
        self.assertEqual(self.match.record()["goalValues"], [])

    def test_without_a_legal_move_too(self):
        self.start()
        self.play("head", "tail")
        self.assertEqual(self.match.phase(), ("aborting", "nolegal 1"))

    def test_and_after_the_most_turns(self):
        self.assertEqual(MOST_TURNS, 10_000)
        rules = "(role red) (init 1) (<= (next 1) (true 1)) (legal red on)"
        match = Match(Game(rules), "m", 1, 1, ["ann"])
        match.marks["start"][0] = ""
        for count in range(1, 10_001):
            match.turn([("on", "")])
            if count >= 9_999:
                self.assertEqual(match.phase(), ("playing", None) if count < 10_000 else ("aborting", "toolong"))

    def test_the_record_of_a_match_that_is_over(self):
        rules = SHOW.replace("(<= (goal blue 0) (true 3))", "")
        self.match = Match(Game(rules), "m", 10, 5, ["ann", "bob"])
        self.start()
        self.play("head", "head", errors=("", "IL ?"))
        self.assertEqual((self.match.phase(), self.match.record()["goalValues"], self.match.record()["endMarks"]), (("stopping", None), [100, 7], [None, None]))
        self.end(0, 1)
        self.assertEqual(self.match.record(), {
            "cause": None, "endMarks": ["", ""], "errors": [["", "IL ?"]], "goalValues": [100, 7], "matchId": "m", "moves": [["head", "head"]],
            "phase": "finished", "playClock": 5, "players": ["ann", "bob"], "roles": ["red", "blue"], "startClock": 10, "startMarks": ["", "TO"],
            "states": [["(side none)", "1"], ["(side head)", "3"]], "strikes": 0, "version": 2,
        })
