"""The interpreter of descriptions: parsing of rules, query plans, compilation, and reports."""

import re
import sys
import unittest
from unittest import mock

from ggp_tools.gdl import all_rules
from ggp_tools.holding import compiling
from ggp_tools.holding.game import Game
from ggp_tools.holding.planning import Sizes, is_known, is_test
from ggp_tools.holding.positions import Position, Whole, functor_of, index_of
from ggp_tools.holding.reading import Asked, Either, NotFollowed, Rule, Same, is_built, low, rules_of, term_of, tests_of, variables_of
from ggp_tools.holding.relations import Relations
from ggp_tools.kif import KifFault, Refused, expressions, grouped
from support import raised


def rules(text):
    return all_rules(expressions(text), rules_of)


def asked(name, *arguments, positive=True):
    return Asked(positive, (name, len(arguments) or None), arguments)


class Terms(unittest.TestCase):
    def test_terms_and_variables(self):
        self.assertEqual((term_of("(Mark 1 (a b))"), term_of("x")), (("mark", "1", ("a", "b")), "x"))
        self.assertEqual(list(variables_of(Either(((asked("p", "?a"),), (Same(False, ("?b", "?a")),))))), ["?a", "?b"])

    def test_a_text_is_one_term(self):
        for text in ("", "a b", "(a) b", " ; a"):
            self.assertEqual(str(raised(NotFollowed, term_of, text)), "it is not a record: a text of it is not one term")

    def test_a_rule_may_have_no_condition(self):
        self.assertEqual(rules("(<= (p a)) (<= q) (<= (terminal) (p))"), [Rule(0, ("p", 1), ("a",), ()), Rule(1, ("q", None), (), ()), Rule(2, ("terminal", None), (), (Asked(True, ("p", 0), ()),))])


def nested(levels):
    """Returns a term with this many nested lists."""
    term = "a"
    for _ in range(levels):
        term = ("f", term)
    return term


class Levels(unittest.TestCase):
    """64 nested lists are accepted, as in the referee, and 65 are refused."""

    def test_lists_in_one_another_in_a_text(self):
        self.assertEqual(term_of("(f " * 64 + "a" + ")" * 64), nested(64))
        self.assertEqual(str(raised(KifFault, term_of, "(f " * 65 + "a" + ")" * 65)), "lists are nested more than 64 deep")
        self.assertEqual(expressions("(f " * 65 + "a" + ")" * 65, 65), [nested(65)])

    def test_lists_in_one_another_in_a_term_that_rules_make(self):
        for term in ("a", nested(1), nested(64), ("f", "a", nested(63), "b")):
            self.assertIs(low(term), term)
        for term in (nested(65), ("f", nested(64), "a"), ("f", "a", nested(64)), nested(200)):
            self.assertEqual(str(raised(NotFollowed, low, term)), "a term is nested more than 64 lists deep")

    def test_a_list_that_has_variables_is_built(self):
        self.assertEqual([is_built(term) for term in ("?x", "a", ("f", "a"), ("f", ("g", "?x")))], [False, False, False, True])


class Conditions(unittest.TestCase):
    def test_tests_of_literals(self):
        p, q = asked("p"), asked("q")
        no_p, no_q = p._replace(positive=False), q._replace(positive=False)
        for literal, wanted in (
            ("p", [p]), (("not", "p"), [no_p]), (("not", ("not", "p")), [p]), (("and", "p", "q"), [p, q]), (("or", "p", "q"), [Either(((p,), (q,)))]),
            (("not", ("and", "p", "q")), [Either(((no_p,), (no_q,)))]), (("not", ("or", "p", "q")), [no_p, no_q]), (("or", "p", ("and", "q", ("or", "p", "q"))), [Either(((p,), (q, Either(((p,), (q,))))))]),
            (("distinct", "a", "?x"), [Same(False, ("a", "?x"))]), (("not", ("distinct", "a", "?x")), [Same(True, ("a", "?x"))]),
        ):
            self.assertEqual(tests_of(literal), wanted, literal)

    def test_an_or_stays_where_each_of_its_variables_is_bound_beside_it(self):
        found, = rules("(<= (h ?x) (p ?x) (or (q ?x) (not (r ?x))))")
        self.assertEqual(found, Rule(0, ("h", 1), ("?x",), (asked("p", "?x"), Either(((asked("q", "?x"),), (asked("r", "?x", positive=False),))))))
        found = rules("(<= (h ?x) (or (p ?x) (q ?x)))")
        self.assertEqual([rule.body for rule in found], [(asked("p", "?x"),), (asked("q", "?x"),)])
        # In this case an `or` may have any number of alternatives.
        ors = " ".join("(or (q ?x) (r ?x))" for _ in range(40))
        self.assertEqual(len(rules(f"(<= (h ?x) (p ?x) {ors})")), 1)
        # A negation or an equality binds nothing.
        for body, count in (("(not (p ?x)) (or (q ?x) (r ?x))", 2), ("(p ?x) (or (q ?x ?y) (s ?x ?y)) (not (t ?x))", 2), ("(distinct ?x a) (or (q ?x) (r ?x))", 2)):
            self.assertEqual(len(rules(f"(<= (h ?x) {body})")), count, body)
        raised(Refused, rules, "(<= h (not (p ?x)) (or (not (q ?x)) (not (r ?x))))")


class Tied(unittest.TestCase):
    def test_what_depends_on_the_state_or_on_itself(self):
        found = Relations(rules("(e a b) (<= (t ?x) (true ?x)) (<= (u ?x) (t ?x) (e ?x ?y)) (<= (w ?x ?y) (e ?x ?y)) (<= (w ?x ?z) (w ?x ?y) (or (e ?y ?z) (w ?y ?z))) (<= n (not n)) (<= m (does r x))"))
        self.assertEqual(found.timely, {("true", 1), ("does", 2), ("t", 1), ("u", 1), ("m", None)})
        self.assertEqual((set(found.circles), found.denying), ({("w", 2)}, {("n", None)}))
        self.assertEqual(found.facts, {("e", 2): {("a", "b"): None}})
        # No `or` uses a relation of its own cycle any more.
        self.assertFalse([condition for rule in found.rules["w", 2] for condition in rule.body if isinstance(condition, Either)])

    def test_an_or_is_left_where_it_asks_for_nothing_of_its_circle(self):
        found = Relations(rules("(<= (v ?x) (n ?x) (or (s ?x) (v a)) (or (v b) (v c)) (or (s ?x) (k ?x)) (m ?x)) (<= (u ?x) (n ?x) (or (true ?x) (s ?x)))"))
        n, s, k, m, *v = (Asked(True, (name, 1), (term,)) for name, term in (("n", "?x"), ("s", "?x"), ("k", "?x"), ("m", "?x"), ("v", "a"), ("v", "b"), ("v", "c")))
        wanted = [(n, m, first, second, Either(((s,), (k,)))) for first in (s, v[0]) for second in v[1:]]
        self.assertEqual([rule.body for rule in found.rules["v", 1]], wanted)
        self.assertEqual((found.circles, found.timely), ({("v", 1): (("v", 1),)}, {("true", 1), ("does", 2), ("u", 1)}))
        self.assertEqual(set(found.asks["v", 1]), {("n", 1), ("s", 1), ("v", 1), ("k", 1), ("m", 1)})


class Positions(unittest.TestCase):
    def test_rows_by_what_they_have_at_some_places(self):
        rows = [("a", "b", "c"), ("a", "d", "c"), ("e", "b", "c")]
        self.assertEqual(index_of(rows, (0,)), {"a": rows[:2], "e": rows[2:]})
        self.assertEqual(index_of(rows, (1, 2)), {("b", "c"): [rows[0], rows[2]], ("d", "c"): [rows[1]]})

    def test_a_position_has_its_terms_by_their_functors(self):
        rows = grouped({"s", ("at", "a"), ("at", "b"), ("at", "a", "b")}, functor_of)
        self.assertEqual({key: sorted(terms) for key, terms in rows.items()}, {("s", 0): ["s"], ("at", 2): [("at", "a"), ("at", "b")], ("at", 3): [("at", "a", "b")]})
        found = Position(frozenset(), [("r", "m")], rows, None, {})
        self.assertEqual((found.index(0, ("at", 2), (1,))("b"), found.index(0, ("at", 2), (1,))("b"), found.index(1, ("no", 2), (1,))("b", ()), found.does), ([("at", "b")], [("at", "b")], (), {"r": "m"}))

    def test_all_that_is_true_of_a_circle_grows_and_each_row_is_there_once(self):
        whole = Whole(1)
        edges = {"a": "b", "b": "c", "c": "a"}
        whole.add(0, ("a", "b"))
        index = whole.index(0, (0,))
        self.assertEqual(index("a"), [("a", "b")])
        whole.close([[lambda found, row: found.add(0, (row[0], edges[row[1]]))]])
        self.assertEqual((whole.sets, sorted(whole.lists[0]), whole.queue), ([{("a", "b"), ("a", "c"), ("a", "a")}], [("a", "a"), ("a", "b"), ("a", "c")], []))
        self.assertEqual(sorted(index("a")), [("a", "a"), ("a", "b"), ("a", "c")])


class Estimates(unittest.TestCase):
    """The estimated number of answers of a condition."""

    def setUp(self):
        text = "(e a b) (e a c) (e b c) (f a) (<= (d ?x) (e ?x ?y)) (<= (w ?x ?y) (e ?x ?y)) (<= (w ?x ?z) (w ?x ?y) (e ?y ?z)) (<= (big ?x ?y) (f ?x) (f ?y)) (big x y)"
        text += "(<= (way up ?x ?y) (e ?x ?y)) (<= (way down ?y ?x) (e ?x ?y)) (<= (way (k ?x) ?x ?y) (e ?x ?y)) (big x x) (big x z)"
        self.sizes = Sizes(Relations(rules(text)), 3, grouped(["s", ("at", "a", "x"), ("at", "b", "x"), ("at", "b", "y"), ("on", "z")], functor_of))

    def answers(self, text, *bound, sizes=None):
        (name, *arguments) = term_of(text)
        return (sizes or self.sizes).answers(Asked(True, (name, len(arguments)), tuple(arguments)), set(bound))

    def test_facts_are_counted_and_narrowed_by_what_is_known(self):
        self.assertEqual([self.answers("(e ?x ?y)"), self.answers("(e ?x ?y)", "?x"), self.answers("(e ?x ?y)", "?y"), self.answers("(e a c)"), self.answers("(none ?x)")], [3, 1.5, 1.5, 0.75, 0])

    def test_terms_are_counted_in_a_state(self):
        self.assertEqual([self.answers("(true (at ?x ?y))"), self.answers("(true (at ?x ?y))", "?x"), self.answers("(true (at b y))"), self.answers("(true ?t)"), self.answers("(true s)")], [3, 1.5, 0.75, 5, 1])

    def test_a_term_that_no_state_had_has_fewer_answers_the_more_is_known(self):
        known = [(), ("?x",), ("?x", "?y"), ("?x", "?y", "?p")]
        self.assertEqual([self.answers("(true (cell ?x ?y ?p))", *bound) for bound in known], [27, 9, 3, 1])

    def test_a_role_makes_one_move(self):
        self.assertEqual([self.answers("(does r ?m)"), self.answers("(does ?r ?m)"), self.answers("(does ?r ?m)", "?r")], [1, 3, 1])

    def test_rules_have_the_answers_and_the_values_of_their_bodies(self):
        self.assertEqual((self.answers("(d ?x)"), self.answers("(d ?x)", "?x")), (3, 1.5))
        self.assertEqual((self.answers("(big ?x ?y)"), self.answers("(big ?x ?y)", "?x"), self.answers("(big ?x ?y)", "?y")), (4, 4, 4 / 3))
        self.assertEqual((self.answers("(way ?d ?x ?y)"), self.answers("(way ?d ?x ?y)", "?x"), self.answers("(way up ?x ?y)"), self.answers("(way up ?x ?y)", "?x")), (9, 4.5, 4.5, 2.25))

    def test_estimates_of_circles_and_of_nothing(self):
        # There are three edges. For each edge, the estimate assumes three rows of w that end at its beginning.
        self.assertEqual(self.answers("(w ?x ?y)"), 3 + 3 * 3)
        few = Sizes(Relations(rules("(<= p (q a))")), 0, {})
        self.assertEqual([self.answers("(true ?t)", sizes=few), self.answers("(does ?r ?m)", sizes=few), few.answers(Asked(True, ("p", None), ()), set())], [3, 1, 1])

    def test_a_body_is_joined_from_what_has_the_fewest_answers(self):
        e, f = Asked(True, ("e", 2), ("?x", "?y")), Asked(True, ("f", 1), ("?x",))
        beside = [Asked(False, ("e", 2), ("?x", "?x")), Same(False, ("?x", "?y")), Either(((f,), (e,)))]
        self.assertEqual([self.sizes.joined(body) for body in ([e, f], [*beside, e, f], beside, [])], [(1.5, {"?x": 1, "?y": 2})] * 2 + [(1, {})] * 2)

    def test_the_plan_is_for_the_largest_states_so_far(self):
        state = {term: [(term, str(at)) for at in range(count)] for term, count in (("on", 8), ("at", 12), ("new", 8))}
        rows = {(name, 2): terms for name, terms in state.items()}
        self.assertIsNone(self.sizes.after(rows | {("at", 2): state["at"][:8]}))
        self.assertIsNone(self.sizes.after({}))
        after = self.sizes.after(rows)
        self.assertEqual([self.answers(text, sizes=after) for text in ("(true (on ?x))", "(true (at ?x))", "(true (at ?x ?y))", "(true (new ?x))", "(does ?r ?m)")], [8, 12, 3, 8, 3])
        self.assertIsNone(after.after(rows))

    def test_what_is_known_and_what_is_a_test(self):
        self.assertEqual([is_known(("f", "?x", "a"), {"?x"}), is_known("?y", {"?x"}), is_known("a", set())], [True, False, True])
        self.assertEqual([is_test(Same(True, ("?x", "?y")), {"?x"}), is_test(Same(True, ("?x", "a")), {"?x"})], [False, True])


class Games(unittest.TestCase):
    """Tests of queries about a game, and of the sentences that derive the answers."""

    TEXT = """(role a) (role b) (init s) (n 1) (n 2) (legal a go) (<= (legal a stay) (true s)) (<= (legal a go) (true s)) (<= (legal b (m ?x)) (n ?x))
    (<= (next (did ?r ?m)) (does ?r ?m)) (<= terminal (true t)) (goal a 100) (goal a 5) (goal a 101) (goal a x) (goal a (f 1)) (goal a 05) (<= (goal b 7) (true s))"""
    MOVES = "go", ("m", "1")

    def setUp(self):
        self.game = Game(self.TEXT)

    def test_the_sentences_that_give_something(self):
        s, other = frozenset({"s"}), frozenset({"other"})
        for relation, arguments, state, moves, wanted in (
            (("legal", 2), ("a", "go"), s, (), [5, 7]), (("legal", 2), ("a", "go"), other, (), [5]), (("legal", 2), ("a", "stay"), s, (), [6]),
            (("legal", 2), ("a", "stay"), other, (), []), (("legal", 2), ("b", ("m", "2")), other, (), [8]), (("next", 1), (("did", "a", "go"),), s, self.MOVES, [9]),
            (("next", 1), (("did", "a", "go"),), s, ("stay", ("m", "1")), []), (("goal", 2), ("b", "7"), s, (), [17]), (("terminal", None), (), s, (), []), (("init", 1), ("s",), other, (), [2]),
        ):
            for _ in range(2):
                self.assertEqual(self.game.sources(relation, arguments, state, moves), wanted, (relation, arguments, state))
        self.assertEqual({number: len(found) for number, found in self.game.by_sentence(("legal", 2)).items()}, {5: 1, 6: 1, 7: 1, 8: 1})

    def test_a_state_that_is_asked_about_again_is_not_looked_through_again(self):
        words = ("legal", 2), ("a", "go"), frozenset({"s"})
        self.game.sources(*words)
        with mock.patch.object(self.game, "position", wraps=self.game.position) as made:
            self.assertEqual([self.game.sources(*words) for _ in range(3)], [[5, 7]] * 3)
        self.assertLessEqual(made.call_count, 1)

    def test_the_plan_is_for_the_first_state_and_the_roles_until_a_state_has_many_more_terms(self):
        asked = Asked(True, ("true", 1), ("?t",)), Asked(True, ("does", 2), ("?r", "?m"))
        answers = lambda: [self.game.program.sizes.answers(condition, set()) for condition in asked]
        self.assertEqual(answers(), [1, 2])
        before = self.game.position(frozenset({"s"}))
        self.game.position(frozenset(("p", str(at)) for at in range(9)))
        self.assertEqual(answers(), [10, 2])
        # Queries about an earlier position give the same answers as before.
        self.assertEqual((self.game.moves(before, "a"), self.game.is_over(before)), (["go", "stay"], False))

    def test_ground_rules_give_moves_in_their_order(self):
        game = Game("(role r) (q r b) (legal r c) (legal r b)")
        self.assertEqual(game.moves(game.position(game.initial), "r"), ["c", "b"])

    def test_what_follows_the_moves(self):
        self.assertEqual(set(self.game.following(self.game.position(frozenset({"s"}), self.MOVES))), {("did", "a", "go"), ("did", "b", ("m", "1"))})


class Compiled(unittest.TestCase):
    """The code of a rule, and which results are kept from one state to the next."""

    def sources(self, text):
        """Returns the sources that are compiled for all queries in two states of a game."""
        written = []
        with mock.patch.object(compiling, "compile", lambda source, *more: written.append(source) or compile(source, *more), create=True):
            game = Game(text)
            for state in ("s", "t"):
                position = game.position(frozenset(state))
                game.moves(position, "r")
        return "".join(written)

    def test_what_compares_stands_before_what_looks_up(self):
        text = "(role r) (q a) (q b) (f a) (<= (g ?x) (q ?x) (true s)) (<= (legal r ?x) (q ?x) (g ?x) (or (f ?x) (g ?x)) (f ?x) (distinct ?x b))"
        lines = [re.sub(r"\b([fkpv])\d+", r"\1", line.strip()) for line in self.sources(text).splitlines()]
        at = lines.index("if not v != 'b': continue")
        self.assertEqual(lines[at + 1 : at + 4], ["if not ((v,) in k): continue", "if not ((((v,) in k)) or (f(D, v))): continue", "if not f(D, v): continue"])

    def moves(self, text):
        game = Game(f"(role r) (init s) {text}")
        first, second = (sorted(game.moves(game.position(game.initial), "r")) for _ in range(2))
        self.assertEqual(first, second)
        return first

    def test_lists_are_told_apart_by_all_their_members(self):
        facts = "(p (f a)) (p (g b)) (p (f c d)) (p e) (h (f a c)) (h (f b d)) (h (g a e))"
        self.assertEqual(self.moves(f"{facts} (<= (legal r ?x) (p (f ?x)))"), ["a"])
        self.assertEqual(self.moves(f"{facts} (<= (legal r ?y) (h (f a ?y)))"), ["c"])
        self.assertEqual(self.moves(f"{facts} (<= (legal r ?y) (h (f ?x ?y)))"), ["c", "d"])
        self.assertEqual(self.moves(f"{facts} (<= (q ?x) (p ?x) (true s)) (<= (legal r ?x) (q (f ?x)))"), ["a"])

    def test_moves_that_depend_on_others(self):
        self.assertEqual(self.moves("(e a b) (e b c) (e d f) (legal r x) (<= (legal r a) (true s)) (<= (legal r ?x) (legal r ?y) (e ?y ?x))"), ["a", "b", "c", "x"])
        # In ground GDL, each sentence of `legal` is also a relation that conditions can ask for.
        self.assertEqual(self.moves("(legal r a) (<= (legal r b) (legal r a)) (<= (legal r c) (not (legal r a)))"), ["a", "b"])
        self.assertEqual(self.moves("(q a) (<= p (q a)) (<= (legal r a) p) (<= (legal r b) (not p))"), ["a"])

    def test_who_makes_no_move_has_done_nothing(self):
        game = Game("(role r) (init s) (legal r m) (<= (next (did ?m)) (does nobody ?m)) (<= (next (done ?m)) (does r ?m))")
        self.assertEqual(list(game.following(game.position(game.initial, ("m",)))), [("done", "m")])

    def test_roles_may_be_lists(self):
        game = Game("(role (o 1)) (role (o 2)) (role x) (init s) (<= (legal ?r m) (role ?r)) (<= (next (did ?n ?m)) (does (o ?n) ?m))")
        self.assertEqual(sorted(game.following(game.position(game.initial, ("m", "n", "m")))), [("did", "1", "m"), ("did", "2", "n")])

    def test_what_has_the_fewest_answers_is_looped_over(self):
        lines = [line.strip() for line in self.sources("(role r) (few a) (init a) (init b) (init c) (<= (legal r ?x) (true ?x) (few ?x))").splitlines()]
        self.assertFalse([line for line in lines if line.endswith(" in D.state:")])
        self.assertTrue([line for line in lines if line.endswith(" in D.state): continue")])

    def test_what_only_has_to_be_possible_is_asked_apart(self):
        lines = self.sources("(role r) (q a) (e a b) (e a c) (<= (legal r ?x) (q ?x) (e ?x ?y))").splitlines()
        self.assertEqual(len([line for line in lines if line.startswith("def h")]), 1)

    def test_so_many_loops_stand_in_one_another(self):
        links = " ".join(f"(e ?v{at} ?v{at + 1})" for at in range(15))
        lines = self.sources(f"(role r) (e a a) (<= (legal r ?v15) {links})").splitlines()
        self.assertEqual(max((len(line) - len(line.lstrip())) // 4 for line in lines if line.lstrip().startswith("for")), 13)
        # Only the last bound variable is passed.
        self.assertEqual({line.count(",") for line in lines if line.startswith("def h")}, {2})

    def test_what_depends_on_no_state_is_found_once(self):
        facts = "(role r) (e a b) (e b c) (<= (far ?x ?y) (e ?x ?y)) (<= (far ?x ?z) (far ?x ?y) (e ?y ?z))"
        moving = "(<= (near ?x ?y) (true (e ?x ?y))) (<= (near ?x ?z) (near ?x ?y) (true (e ?y ?z)))"
        game = Game(f"{facts} {moving} (<= (legal r ?x) (far a ?x)) (<= (legal r ?x) (near a ?x)) (init s)")
        for state, found in (([], ["b", "c"]), ([("e", "a", "d"), ("e", "d", "f")], ["b", "c", "d", "f"]), ([("e", "a", "g")], ["b", "c", "g"])):
            self.assertEqual(sorted(game.moves(game.position(frozenset(state)), "r")), found)
        first, second = (game.position(frozenset()) for _ in range(2))
        for position in (first, second):
            game.moves(position, "r")
        kept = [table for number, table in first.tables.items() if table is second.tables[number] and any(isinstance(value, compiling.positions.Whole) for value in table.values())]
        self.assertEqual(len(kept), 1)
        # The result is kept even if the rule is planned again.
        third = game.position(frozenset(("e", str(at), "b") for at in range(9)))
        game.moves(third, "r")
        self.assertTrue(any(table is kept[0] for table in third.tables.values()))


class Steps(unittest.TestCase):
    """The number of lines of compiled rules that run, which is the same on any machine."""

    def steps(self, game, state, *moves):
        """Returns the legal moves, the next state, and the number of lines that ran."""
        count = 0

        def trace(frame, event, argument):
            nonlocal count
            count += event == "line" and frame.f_code.co_filename == "<rules>"
            return trace

        position = game.position(state, moves)
        before = sys.gettrace()
        sys.settrace(trace)
        try:
            found = game.is_over(position), set(game.moves(position, game.roles[0])), set(game.following(position)) if moves else set()
        finally:
            sys.settrace(before)
        return found, count

    def test_five_in_a_row_on_a_board_that_begins_empty(self):
        size = 15
        succ = " ".join(f"(index {at}) (succ {at} {at + 1})" for at in range(size))
        cells, steps = (" ".join(text.replace("N", f"{at}").replace("M", f"{at + 1}") for at in range(count)) for text, count in (("(true (cell ?xN ?yN ?r))", 5), ("(step ?d ?xN ?yN ?xM ?yM)", 4)))
        game = Game(f"""(role r) (init s) {succ} (<= (step a ?x ?y ?u ?y) (succ ?x ?u) (index ?y)) (<= (step b ?x ?y ?x ?v) (succ ?y ?v) (index ?x))
            (<= (step c ?x ?y ?u ?v) (succ ?x ?u) (succ ?y ?v)) (<= (step d ?x ?v ?u ?y) (succ ?x ?u) (succ ?y ?v)) (<= terminal (line ?r)) (<= (line ?r) {cells} {steps})
            (<= (taken ?x ?y) (true (cell ?x ?y ?r))) (<= (legal r (mark ?x ?y)) (index ?x) (index ?y) (not (taken ?x ?y)))
            (<= (next (cell ?x ?y r)) (does r (mark ?x ?y))) (<= (next (cell ?x ?y ?r)) (true (cell ?x ?y ?r)))""")
        state, most = game.initial, 0
        # No five of these lie in a row.
        for x, y in [(x, y) for x in range(size) for y in range(size) if (x + 2 * y) % 5][:150]:
            (is_over, moves, state), steps = self.steps(game, frozenset(state), ("mark", str(x), str(y)))
            most = max(most, steps)
            self.assertFalse(is_over)
        self.assertEqual((len(state), len(moves)), (150, 15 * 15 - 149))
        self.assertLess(most, 20_000)

    def test_conditions_without_a_variable_in_common_are_met_once(self):
        ring = " ".join(f"(n {at}) (e {at} {(at + 1) % 60})" for at in range(60)) + " (few 1) (few 2) (few 3) " + " ".join(f"(some {at})" for at in range(20))
        for body, wanted in (
            ("?x) (n ?x) (e ?a ?b) (e ?b ?c) (e ?c ?a)", 0), ("?x) (n ?x) (e ?a ?b) (e ?b ?c) (e ?c ?d) (few ?c)", 60),
            ("(p ?x ?y)) (some ?x) (e ?y ?b) (e ?b ?c) (e ?c ?d) (few ?d)", 60), ("(p ?x ?y)) (few ?x) (e ?a ?b) (e ?b ?c) (e ?c ?a) (few ?y)", 0),
        ):
            game = Game(f"(role r) (init s) {ring} (<= (legal r {body})")
            (_, moves, _), steps = self.steps(game, game.initial)
            self.assertEqual(len(moves), wanted, body)
            self.assertLess(steps, 600, body)
