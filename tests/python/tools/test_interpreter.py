"""The interpreter of `tests/oracle`: the true sentences of rules with variables, including recursive rules."""
import time
import unittest

from interpreter import Game, read

# Paths over edges that do not depend on the state, from place to place.
WAYS = "(edge 1 2) (edge 2 3) (edge 3 1) (edge 4 4) (<= (way ?x ?y) (edge ?x ?y)) (<= (way ?x ?z) (way ?x ?y) (edge ?y ?z))"
# A cycle that is first queried while another one is being derived.
WITHIN = """
    (role r) (edge 1 2) (edge 2 3) (e2 1 2) (e2 2 3) (b0 1)
    (<= (b ?x) (b0 ?x))
    (<= (b ?x) (b ?y) (e2 ?y ?x))
    (<= (reach ?x ?y) (edge ?x ?y))
    (<= (reach ?x ?y) (reach ?x ?z) (edge ?z ?y) (b ?z))
    (<= (legal r (go ?x ?y)) (reach ?x ?y))
"""


def legal(game, state=()):
    """Returns the legal moves of the first role in a state."""
    return game.view(frozenset(state))[0][0]


class Interpreter(unittest.TestCase):
    def test_a_text_is_read_without_capitals_and_comments(self):
        self.assertEqual(read("(Role R) ; (role s)\np (a (b) ())"), [("role", "r"), "p", ("a", ("b",), ())])

    def test_a_rule_goes_round(self):
        game = Game(f"(role r) {WAYS} (<= (legal r (go ?x ?y)) (way ?x ?y))")
        self.assertEqual(legal(game), {("go", start, end) for start in "123" for end in "123"} | {("go", "4", "4")})

    def test_what_goes_round_by_a_state_is_derived_anew(self):
        game = Game("(role r) (<= (w ?x) (true (e ?y ?x)) (w ?y)) (<= (w 1) (true s)) (<= (legal r ?x) (w ?x))")
        for edges, wanted in (("12", "23"), "123"), (("12", "31"), "12"), (("21", "32"), "1"):
            self.assertEqual(legal(game, ["s", *(("e", *edge) for edge in edges)]), set(wanted))
        self.assertEqual(legal(game, [("e", "1", "2")]), set())

    def test_a_circle_within_another_one_is_whole(self):
        game = Game(WITHIN)
        for _ in range(2):
            self.assertEqual(legal(game), {("go", "1", "2"), ("go", "2", "3"), ("go", "1", "3")})

    def test_a_question_that_would_grow_without_an_end(self):
        game = Game("(role r) (d 1) (d 2) (d 3) (<= (p ?x) (p (g ?x))) (<= (p ?x) (true ?x)) (<= (legal r ?x) (d ?x) (p ?x))")
        self.assertEqual(legal(game, [("g", ("g", "1")), "2"]), {"1", "2"})

    def test_relations_of_one_name_differ_by_their_places(self):
        game = Game("(role r) (d 1) (d 2) (<= (p ?x) (p ?x) (d ?x)) (<= (p ?x) (d ?x) (not (p ?x ?x))) (<= (p ?x ?x) (true ?x)) (<= (legal r ?x) (p ?x))")
        self.assertEqual(legal(game, ["2"]), {"1"})

    def test_a_denial_of_a_denial_goes_round(self):
        game = Game("(role r) (<= p (not (not q))) (<= q p) (<= q (true s)) (<= (legal r a) q)")
        self.assertEqual([legal(game, state) for state in (["s"], [])], [{"a"}, set()])

    def test_a_denial_waits_for_its_variables(self):
        game = Game("(role r) (p 1) (p 2) (<= (legal r ?x) (not (true ?x)) (distinct ?x 3) (p ?x)) (p 3)")
        self.assertEqual(legal(game, ["2"]), {"1"})

    def test_which_relations_go_round_and_which_no_state_changes(self):
        game = Game("(role r) (<= a b (true s)) (<= b c) (<= c (or d b)) (<= d f) (<= e e f) (<= g (not h) e) (<= h g) (<= i (does r m))")
        names = [{name for name, _ in group} for group in (game.timeless, *sorted(set(game.circles.values()), key=len))]
        self.assertEqual(names, [set("bcdegh"), {"e"}, {"b", "c"}])

    def test_a_chain_of_as_many_relations_as_a_game_may_have(self):
        began = time.process_time()
        game = Game("(role r) " + " ".join(f"(<= p{number} p{number + 1})" for number in range(8_190)) + " (<= p8190 (true s))")
        self.assertEqual((game.roles, game.timeless, game.circles), (["r"], set(), {}))
        self.assertLess(time.process_time() - began, 10)
