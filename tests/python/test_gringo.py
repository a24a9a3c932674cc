"""The grounder's input and output. The grounder is fake."""

import math
import os
import random
import resource
import unittest
from unittest import mock

from ggp_tools.instantiating import gringo
from ggp_tools.instantiating.gringo import Grounder, LogicProgram, TooMany, TooSlow, limit_process, term_list, term_text
from ggp_tools.gdl import Relations, all_rules
from ggp_tools.kif import Refused, expressions
from support import InFolder, raised, script


def program_of(text):
    rules = all_rules(expressions(text))
    return LogicProgram(rules, Relations(rules).unsettled())


def made(dice, depth=4):
    if depth and dice.random() < 0.5:
        return tuple([dice.choice("fg"), *(made(dice, depth - 1) for _ in range(dice.randrange(3)))])
    return dice.choice(("a", "b1", 'q"', "back\\slash", "a(b", "x)y", "'", ",", "\\", '\\"'))


class Terms(unittest.TestCase):
    def test_a_term_is_read_as_it_is_written(self):
        dice = random.Random(6)
        for _ in range(500):
            terms = [made(dice) for _ in range(dice.randrange(1, 4))]
            self.assertEqual(term_list(",".join(term_text(term, {}) for term in terms)), terms)

    def test_how_terms_are_written(self):
        for term, text in (("a", '"a"'), ('q"', '"q\\""'), ("b\\", '"b\\\\"'), (("f", "a"), '("f","a")'), (("f",), '("f",)'), ("?x", "V3"), (("f", ("g", "?x")), '("f",("g",V3))')):
            self.assertEqual(term_text(term, {"?x": "V3"}), text)
        self.assertEqual(term_list(""), [])


class Programs(unittest.TestCase):
    def test_a_settled_relation_is_derived_as_it_stands(self):
        found = program_of('(role r) (d a) (d (f b)) (<= (e ?x) (d ?x) (not (d (f ?x))) (distinct ?x a))')
        self.assertEqual(found.text.splitlines(), [
            'i0.', 'p0("r") :- i0.', 'p1("a").', 'p1(("f","b")).', 'p2(V0) :- p1(V0), not p1(("f",V0)), V0 != "a".',
            "p3(T) :- p4(T).", "p3(T) :- p5(T).", "p6(R,M) :- p0(R), p7(R,M).",
        ])
        self.assertEqual((found.sources, len(found.kept)), ({"i0": 0, "p1": 1, "p2": 3}, 1))

    def test_of_what_is_not_settled_only_what_can_be_true_is_derived(self):
        found = program_of("(d a) (<= (t ?x) (true (c ?x)) (not (true (e ?x))) (d ?x) (not (d b))) (<= (next (c ?x)) (t ?x) (does r ?y)) (init (c b))")
        self.assertEqual(found.text.splitlines(), [
            'p0("a").', 'i0(V0) :- p1(("c",V0)), p0(V0), not p0("b").', "p2(V0) :- i0(V0).", 'i1(V0,V1) :- p2(V0), p3("r",V1).', 'p4(("c",V0)) :- i1(V0,V1).',
            'i2.', 'p5(("c","b")) :- i2.', "p1(T) :- p5(T).", "p1(T) :- p4(T).", "p3(R,M) :- p6(R), p7(R,M).",
        ])
        rule, needed = found.kept[0]
        self.assertEqual((rule.sentence, rule.head, [(literal.positive, literal.atom) for literal in rule.body], list(needed)),
                         (1, ("t", "?x"), [(True, ("true", ("c", "?x"))), (False, ("true", ("e", "?x")))], ["?x"]))

    def test_ways_that_differ_in_what_is_settled_have_their_instances_together(self):
        found = program_of("(<= (legal r ?x) (true ?x) (or (d ?x) (e ?x)))")
        self.assertEqual(found.text.splitlines()[:3], ["i0(V0) :- p0(V0), p1(V0).", 'p2("r",V0) :- i0(V0).', "i0(V0) :- p0(V0), p3(V0)."])
        self.assertEqual((len(found.kept), found.sources), (1, {"i0": 0}))

    def test_the_sentence_to_look_at_is_the_first_that_asks_for_something(self):
        self.assertEqual(program_of("(n a) (n b) (<= (n ?x) (m ?x)) (<= (n ?x) (k ?x)) (m c) (m d)").sources, {"p0": 2, "p1": 4})

    def test_two_terms_that_are_the_same(self):
        self.assertIn('p1(V0) :- p0(V0), V0 = "a".', program_of("(<= (n ?x) (m ?x) (not (distinct ?x a)))").text)
        self.assertIn('p1(V0) :- p0(V0), "true" != V0.', program_of("(<= (n ?x) (m ?x) (distinct true ?x))").text)


class Read(unittest.TestCase):
    def setUp(self):
        self.grounder = Grounder(program_of("(n a) (<= (n ?x) (m ?x)) (m c) (<= (legal r ?x) (n ?x)) (<= (next ?x) (true ?x))"), 3)

    def test_instances_and_what_is_counted(self):
        lines = ['p0(("f",("g","c"))).\n', 'p0("a").\n', 'p1("c").\n', 'i0("a").\n', "i1.\n", 'i0("a",("f","b")).\n']
        self.assertEqual(list(self.grounder.read(lines)), [(0, ["a"]), (1, []), (0, ["a", ("f", "b")])])
        self.assertEqual(self.grounder.counts, {"p0": 2, "p1": 1, "i0": 2, "i1": 1})
        self.assertEqual(self.grounder.lists, {"p0": 3, "p1": 1, "i0": 2, "i1": 0})
        rules = all_rules(expressions("(n a) (m a) (other a)"))
        self.assertEqual([self.grounder.lists_in(rule) for rule in rules], [3, 1, 0])

    def test_so_many_instances_are_taken(self):
        lines = ["i0.\n"] * 3
        self.assertEqual(len(list(self.grounder.read(lines))), 3)
        why = raised(TooMany, lambda: list(self.grounder.read(["p0.\n", *lines, "i0.\n"])))
        self.assertEqual((str(why), gringo.MOST_INSTANCES), ("there are more than 3 ground rules", 1_000_000))

    def test_a_line_that_was_not_ended_is_no_instance(self):
        self.assertEqual(list(self.grounder.read(["i0.\n", 'i0("a"'])), [(0, [])])

    def test_terms_of_64_lists_are_taken_and_none_of_65(self):
        def line(count, name="p0"):
            return f"{name}({'(' * count}{')' * count}).\n"

        self.assertEqual(list(self.grounder.read([line(64), line(64, "i0"), 'p0("' + "(" * 99 + '").\n', "p0(" + "()," * 99 + "()).\n"]))[0][0], 0)
        for name in ("p0", "i0"):
            self.assertEqual(str(raised(Refused, list, self.grounder.read([line(65, name)]))), "a term is nested more than 64 lists deep")

    def test_the_sentence_that_makes_the_most(self):
        self.assertIsNone(self.grounder.largest())
        list(self.grounder.read(["p9.\n"] * 9 + ['p1("c").\n'] * 2 + ["i0.\n"] * 3))
        self.assertEqual(self.grounder.largest(), (3, 3))
        list(self.grounder.read(['p0("c").\n'] * 4))
        self.assertEqual(self.grounder.largest(), (1, 4))


class Runs(InFolder):
    def instances(self, text):
        """Returns the ground rules that a fake grounder, this shell script, finds."""
        script(self.folder / "gringo", f"#!/bin/sh\n{text}\n")
        with mock.patch.dict(os.environ, {"PATH": f"{self.folder}:{os.environ['PATH']}"}):
            return Grounder(program_of("(role r) (d a)")).instances()

    def test_what_the_grounder_gets_and_gives(self):
        self.assertEqual(self.instances(f'echo "$@" > {self.folder}/words; cat > {self.folder}/given; echo "i0."'), [(0, [])])
        self.assertEqual(((self.folder / "words").read_text(), (self.folder / "given").read_text()), ("--text --warn=none\n", program_of("(role r) (d a)").text))

    def test_one_that_reads_nothing(self):
        self.assertEqual(self.instances('exec < /dev/null; echo "i0."'), [(0, [])])

    def test_one_that_fails(self):
        for text, words in (
            ("cat > /dev/null; echo 'a  b' >&2; echo c >&2; exit 65", "gringo refuses it: a b c"), ("cat > /dev/null; echo std::bad_alloc >&2; exit 33", "gringo ran out of memory: its limit is 2 GiB"),
            ("kill -9 $$", "gringo ran out of memory: its limit is 2 GiB"), (f"cat > /dev/null; echo {'x' * 400} >&2; exit 1", f"gringo refuses it: {'x' * 300}"), ("cat > /dev/null; echo bad_alloc >&2", "gringo ran out of memory: its limit is 2 GiB"),
        ):
            self.assertEqual(str(raised(Refused, self.instances, text)), words)

    def test_one_that_is_not_there(self):
        with mock.patch.dict(os.environ, {"PATH": str(self.folder)}):
            self.assertEqual(str(raised(Refused, Grounder(program_of("(d a)")).instances)), "gringo is not installed")

    def test_it_may_take_so_much_memory_and_so_many_seconds(self):
        for seconds, others in ((math.inf, []), (0.5, [(resource.RLIMIT_CPU, (1, 2))]), (60, [(resource.RLIMIT_CPU, (60, 61))])):
            with mock.patch.object(resource, "setrlimit") as limited:
                limit_process(seconds)
            self.assertEqual([call.args for call in limited.call_args_list], [(resource.RLIMIT_AS, (2 << 30, 2 << 30)), *others])

    def test_one_that_has_used_its_seconds(self):
        raised(TooSlow, self.instances, "kill -XCPU $$")
