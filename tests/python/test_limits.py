"""Refused ground rules, the limits, and descriptions with infinitely many ground rules."""

import itertools
import shutil
import unittest
from collections import Counter
from unittest import mock

from ggp_tools.instantiating import gringo, limits
from ggp_tools.instantiating.limits import atoms_of, costs_of, dearest, is_endless, is_high, refuse_faults, without_high_goals
from ggp_tools.instantiating.making import NEVER, Making
from ggp_tools.gdl import Literal, Rule, all_rules
from ggp_tools.kif import Refused, expressions, fits, put, told, variables
from support import raised
from test_grounding import rules


class Goals(unittest.TestCase):
    def test_goals_past_100_are_left_out(self):
        values = "0", "7", "99", "100", "101", "999", "1000", "099", "0101", "1x1", "x", "-101"
        self.assertEqual([value for value in values if is_high(("goal", "r", value))], ["101", "999", "1000"])
        for atom in (("goal", "r"), ("legal", "r", "101"), ("goal", "r", ("f", "101")), "goal", ("goals", "r", "101"), ("goal", "r", "101", "x")):
            self.assertFalse(is_high(atom), atom)

    def test_rules_without_those_of_high_goals_and_how_many_goals_these_are(self):
        found = rules("(role r) (goal r 50) (<= (goal r 150) p) (<= (goal r 150) q) (goal s 150) (<= (goal r 100) p)")
        self.assertEqual(without_high_goals(found), ([found[0], found[1], found[5]], 2))
        self.assertEqual(without_high_goals(found[:2]), (found[:2], 0))

    def test_a_rule_that_asks_for_a_high_goal_is_refused(self):
        for body in ("(goal r 101)", "(not (goal r 101))", "p (goal r 101)"):
            why = raised(Refused, without_high_goals, rules(f"(goal r 1) (<= terminal {body})"))
            self.assertEqual(str(why), "terminal uses (goal r 101), but a goal is a number from 0 to 100")


class Faults(unittest.TestCase):
    def refused(self, text):
        sentences = expressions(text)
        try:
            refuse_faults(all_rules(sentences))
        except Refused as why:
            return told(text, why)
        return None

    def test_what_the_program_takes(self):
        self.assertIsNone(self.refused("(role r) (goal r 0) (goal r 9) (goal r 10) (goal r 100) (<= p (goal r 99))"))

    def test_goals_that_are_none(self):
        for goal in ("101", "00", "01", "1a", "x", "(f 1)", "1000"):
            said = f"line 1, column 10: (goal r {goal}) can be derived, but its goal is not a number from 0 to 100: "
            self.assertEqual(self.refused(f"(role r) (goal r {goal})"), f"{said}(goal r {goal})")
            self.assertEqual(self.refused(f"(role r) (<= p (not (goal r {goal})))"), f"{said}(<= p (not (goal r {goal})))")

    def test_roles_that_are_none(self):
        self.assertEqual(self.refused("(goal r 1) (roles r)"), "there is no role; write (role NAME) for each role")
        self.assertEqual(self.refused(""), "there is no role; write (role NAME) for each role")
        self.assertEqual(self.refused("(role r) (<= (role s) p)"), "line 1, column 10: (role s) is not known before the game: (<= (role s) p); make it a fact")
        secret = "the role `random` belongs to GDL-II, for games with chance or hidden information; here each role sees every move"
        why = raised(Refused, refuse_faults, [Rule(0, ("role", "random"), (Literal(True, "p"),))])
        self.assertEqual((str(why), why.sentence), (secret, 0))


class Figures(unittest.TestCase):
    def test_the_limits_are_those_of_the_program(self):
        self.assertEqual(limits.MOST, {"sentences": 1 << 13, "atomic sentences": 1 << 14, "roles": 16, "moves": 1 << 12, "bytes": 1 << 20, "levels": 64})
        self.assertEqual(limits.MOST_IN_A_WORD, 128 * 1024 - 1)

    def test_atomic_sentences_of_a_sentence(self):
        for text, wanted in (
            ("p", ["p"]), ("(p a)", ["(p a)"]), ("(<= p q)", ["p", "q"]), ("(<= (next x) (not (true y)) (or p (not (or q (r a)))))", ["(next x)", "(true y)", "p", "q", "(r a)"]),
            ("(orc a)", ["(orc a)"]), ("(distinct a b)", ["(distinct a b)"]),
        ):
            sentence, = expressions(text)
            self.assertEqual(list(atoms_of(sentence)), [expressions(text)[0] for text in wanted])

    def test_what_is_counted(self):
        sentences = expressions("(role r) (role (s t)) (legal r a) (<= (legal r a) p) (<= (legal r b) (not p) (or p q)) (<= (legal (s t) a) p) (legal x y z) (role) terminal")
        found = list(limits.figures(list(enumerate(sentences)), 7))
        self.assertEqual(found, [
            ("sentences", 9, 8_192), ("atomic sentences", 10, 16_384), ("roles", 2, 16), ("moves of r", 2, 4_096), ("moves of (s t)", 1, 4_096), ("bytes", 7, 1_048_576),
            ("nested lists", 3, 64),
        ])
        self.assertEqual(list(limits.figures([], 0)), [("sentences", 0, 8_192), ("atomic sentences", 0, 16_384), ("roles", 0, 16), ("bytes", 0, 1_048_576), ("nested lists", 0, 64)])

    def test_what_sentences_cost(self):
        written = [(3, ("p", "a")), (1, "q"), (3, ("p", "bc"))]
        self.assertEqual((costs_of(written, False), costs_of(written, True)), (Counter({3: 2, 1: 1}), Counter({3: 6 + 7, 1: 2})))

    def test_the_three_that_cost_most(self):
        sentences = expressions("a (b c) d e")
        costs = Counter({0: 5, 1: 12_345.6, 2: 7, 3: 6})
        self.assertEqual(dearest(costs, sentences, [1, 2, 3, 4], True), ["sentence 1, line 2: (b c): 12,346 bytes", "sentence 2, line 3: d: 7 bytes", "sentence 3, line 4: e: 6 bytes"])
        self.assertEqual(dearest(Counter({0: 1}), sentences, (), False), ["sentence 0, a: 1 ground sentence"])


class Endless(unittest.TestCase):
    def number(self, text):
        rule = next(filter(is_endless, rules(text)), None)
        return rule and rule.sentence

    def test_a_rule_that_makes_a_larger_one_of_each_instance(self):
        for text in (
            "(<= (n (s ?x)) (n ?x))", "(<= (n (s ?x) ?y) (n ?x ?y))", "(<= (next (p (s ?x))) (true (p ?x)))", "(<= (init (p (s ?x))) (true (p ?x)))",
            "(<= (legal r (m (s ?x))) (does r (m ?x)))", "(<= (n (s ?x)) (n ?x) (not (p ?x)))", "(<= (n (t ?x ?y)) (n ?x) (n ?y))", "(<= (n (f (g a ?x))) (n ?x))",
        ):
            self.assertEqual(self.number(f"(role r) {text}"), 1, text)

    def test_a_rule_that_something_bounds(self):
        for text in (
            "(n (s a))", "(<= (n (s ?x)) (m ?x))", "(<= (n (s ?x)) (n ?x) (m ?x))", "(<= (n ?x) (n ?x))", "(<= (n (s ?x)) (n (s ?x)))", "(<= (n (s ?x)) (n ?x) (distinct ?x a))",
            "(<= (n (s a) ?x) (n b ?x))", "(<= (next (p (s ?x))) (next2 (p ?x)))", "(<= (n (s ?x) (s ?x)) (n ?x b))", "(<= (n a) (not (m b)))", "(<= (true2 (s ?x)) (true ?x))",
            "(<= (n (s ?x) ?x) (n ?x ?x))", "(<= (n (s ?x)) (n ?x ?x))", "(<= (n ?y ?x) (n ?x ?y))",
            "(<= (n (s a)) (n ?x))", "(<= (n (s ?y) a) (n ?x ?y))",
        ):
            self.assertIsNone(self.number(text), text)

    def test_the_first_of_several(self):
        self.assertEqual(self.number("(n a) (<= (n ?x) (n ?x)) (<= (n (s ?x)) (n ?x)) (<= (m (s ?x)) (m ?x))"), 2)

    def test_what_is_made_is_no_larger_one_of_another_function(self):
        self.assertIsNone(self.number("(<= (n (g (s ?x))) (n (f ?x)))"))
        self.assertIsNone(self.number("(<= (next (p (g (s ?x)))) (true (p (f ?x))))"))
        self.assertEqual(self.number("(<= (n (f (s ?x))) (n (f ?x)))"), 0)

    def test_a_pattern_is_the_term_for_some_values(self):
        def parts(term):
            yield term
            for member in term[1:] if isinstance(term, tuple) else ():
                yield from parts(member)

        small = ["a", "b", ("f", "a"), ("g", "a"), ("f", "a", "b")]
        terms = [*small, *(("f", term) for term in small), *(("f", term, second) for term, second in itertools.product(small, repeat=2)), ("g", ("f", "a"))]
        self.assertFalse(fits(("f", "a"), "fa", {}))
        for pattern in expressions("?x a (f ?x) (f ?x ?y) (f ?x ?x) (f a) (f (f ?x)) (g ?y) (f (g ?x) a) (f ?y (f ?y))"):
            for term in terms:
                names = list(variables(pattern))
                ways = [dict(zip(names, values)) for values in itertools.product(parts(term), repeat=len(names))]
                wanted = [way for way in ways if put(pattern, way) == term]
                values = {}
                self.assertEqual(fits(pattern, term, values), bool(wanted), (pattern, term))
                if wanted:
                    self.assertEqual(values, wanted[0])

    @unittest.skipUnless(shutil.which("gringo"), "gringo is not installed")
    def test_no_sentence_is_blamed_for_instances_that_end(self):
        text = "(role r) (init s) (goal r 1) (n (f (s (s (s (s (s a))))))) {} (<= terminal (n (g ?x)) (true s)) (d 1) (d 2) (d 3) (<= (legal r (k ?a ?b)) (d ?a) (d ?b))"
        for rule, is_endless in (("(<= (n (g (s ?x))) (n (f ?x)))", False), ("(<= (n (g (s (s ?x)))) (n (g ?x)))", False), ("(<= (n (f (s ?x))) (n (f ?x)))", True)):
            with mock.patch.object(gringo, "MOST_INSTANCES", 11), self.assertRaises(Refused) as why:
                Making(text.format(rule), 60, NEVER, False).run()
            self.assertEqual(str(why.exception).startswith("there are infinitely many ground rules: "), is_endless, why.exception)
