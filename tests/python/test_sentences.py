"""Parsing of sentences: the ways to satisfy them, and refusals with the sentence and the reason."""

import unittest

from ggp_tools.gdl import Literal, Rule, all_rules, as_read, cited, each_of, lines_of, ways_of
from ggp_tools.kif import Refused, expressions
from support import raised


def rules(text):
    """Returns the rules of a text, each as its head and its body."""
    return [(rule.head, rule.body) for rule in all_rules(expressions(text))]


def true(atom):
    return Literal(True, atom)


class Ways(unittest.TestCase):
    def test_each_way_of_one_goes_with_each_of_the_others(self):
        self.assertEqual(each_of([[("a",), ("b",)], [("c", "d")], [("e",), ("f",)]]), [("a", "c", "d", "e"), ("a", "c", "d", "f"), ("b", "c", "d", "e"), ("b", "c", "d", "f")])
        self.assertEqual((each_of([]), each_of([[("a",)], []])), ([()], []))

    def test_ten_thousand_ways_are_taken_and_no_more(self):
        # Four lists of ten give ten thousand ways.
        ten = [(str(at),) for at in range(10)]
        self.assertEqual(len(each_of([ten] * 4)), 10_000)
        for many in ([ten, ten, ten, [("x",)] * 11], [[("x",)] * 73, [("x",)] * 137]):
            self.assertEqual(str(raised(Refused, each_of, many)), "its `or`s can be satisfied in more than 10,000 ways")

    def test_a_denial_turns_and_and_or(self):
        one, other = ("true", "a"), ("true", "b")
        both, either = ("and", one, other), ("or", one, other)
        self.assertEqual(ways_of(both), [(true(one), true(other))])
        self.assertEqual(ways_of(either), [(true(one),), (true(other),)])
        self.assertEqual(ways_of(("not", both)), [(Literal(False, one),), (Literal(False, other),)])
        self.assertEqual(ways_of(("not", either)), [(Literal(False, one), Literal(False, other))])
        self.assertEqual(ways_of(("not", ("not", one))), [(true(one),)])

    def test_terms_that_are_distinct_are_not_the_same(self):
        self.assertEqual(ways_of(("distinct", "?x", "a")), [(Literal(False, ("?x", "a"), True),)])
        self.assertEqual(ways_of(("not", ("distinct", "?x", "a"))), [(Literal(True, ("?x", "a"), True),)])

    def test_up_to_a_hundred_ways_are_rules_and_of_more_each_or_is_a_relation(self):
        def sentence(*counts):
            return f"(<= h {' '.join('(or ' + ' '.join(f'(true ({name} {at}))' for at in range(count)) + ')' for name, count in zip('abc', counts))})"

        few = rules(sentence(10, 10))
        self.assertEqual((len(few), {head for head, _ in few}, {len(body) for _, body in few}), (100, {"h"}, {2}))
        many = rules(sentence(10, 11))
        self.assertEqual([sum(head == wanted for head, _ in many) for wanted in ("h", "either1", "either2")], [1, 10, 11])
        self.assertEqual([body for head, body in many if head == "h"], [(true("either1"), true("either2"))])
        self.assertEqual([body for head, body in rules(sentence(51, 2)) if head == "h"], [(true("either1"), true("either2"))])
        # An `or` with only one way is not moved.
        self.assertEqual([body for head, body in rules(sentence(101, 1)) if head == "h"], [(true("either1"), true(("true", ("b", "0"))))])

    def test_such_a_relation_has_the_variables_that_each_way_binds(self):
        part = " ".join(f"(p {at} ?x)" for at in range(51))
        found = rules(f"(<= (h ?x) (or {part}) (or (q ?x) (r a)))")
        self.assertEqual({head for head, _ in found}, {("either1", "?x"), ("h", "?x")})
        # One way of the other `or` does not bind the variable, so this `or` is written out.
        self.assertEqual([body for head, body in found if head[0] == "h"], [(true(("either1", "?x")), true(("q", "?x"))), (true(("either1", "?x")), true(("r", "a")))])

    def test_a_variable_of_one_way_alone_stays_that_of_the_sentence(self):
        part = " ".join(f"(p {at} ?x)" for at in range(51))
        for ways, heads in (
            (["(q ?x)", "(r ?x ?y)"], {("h", "?x"), ("either1", "?x")}), (["(r ?x ?y)", "(q ?x)"], {("h", "?x"), ("either1", "?x")}),
            (["(r ?y ?x)", "(r ?x ?y)"], {("h", "?x"), ("either1", "?x"), ("either2", "?y", "?x")}),
        ):
            found = rules(f"(<= (h ?x) (or {part}) (or {' '.join(ways)}) (s ?y))")
            self.assertEqual({head for head, _ in found}, heads)
            own = [[true(("either2", "?y", "?x"))]] if len(heads) == 3 else [[true(way)] for way in expressions(" ".join(ways))]
            self.assertEqual([body for head, body in found if head[0] == "h"], [(true(("either1", "?x")), *way, true(("s", "?y"))) for way in own])

    def test_their_names_are_none_that_the_description_has(self):
        many = " ".join(f"(true {at})" for at in range(101))
        self.assertEqual({head for head, _ in rules(f"(<= h (or {many})) (either7 a)")}, {"either-1", "h", ("either7", "a")})


class Reading(unittest.TestCase):
    def test_terminal_in_a_list_is_the_atom(self):
        self.assertEqual(as_read(("<=", ("terminal",), ("not", ("terminal",)), ("or", ("and", ("terminal",), "p"), "q"))),
                         ("<=", "terminal", ("not", "terminal"), ("or", ("and", "terminal", "p"), "q")))
        self.assertEqual([as_read(sentence) for sentence in ("p", ("terminal",), ("next", ("terminal",)), ("distinct", ("terminal",), "a"))],
                         ["p", "terminal", ("next", ("terminal",)), ("distinct", ("terminal",), "a")])

    def test_each_sentence_has_its_number(self):
        self.assertEqual(all_rules(expressions("(role r) (<= h (or p q))")), [Rule(0, ("role", "r"), ()), Rule(1, "h", (true("p"),)), Rule(1, "h", (true("q"),))])

    def test_the_line_in_which_each_begins(self):
        self.assertEqual(lines_of("(a)\n\n(b\n c) (d)\n; x\ne"), [1, 3, 4, 6])
        self.assertEqual((lines_of("\n(a)\nb"), lines_of("")), ([2, 3], []))

    def test_a_sentence_is_cited_up_to_160_characters(self):
        short, long = ("p", "a" * 156), ("p", "a" * 157)
        self.assertEqual(cited(1, ["x", short]), f"sentence 1, (p {'a' * 156})")
        self.assertEqual(cited(0, [long], [7]), f"sentence 0, line 7: (p {'a' * 157}..")


class Refusals(unittest.TestCase):
    def assert_refused(self, text, words):
        why = raised(Refused, all_rules, expressions(f"(role r) {text}"))
        self.assertEqual((str(why), why.sentence), (words, 1))
        return why.advice

    def test_what_is_no_sentence(self):
        for text, words in (
            ("?x", "?x is not a sentence"), ("()", "() is not a term"), ("((p) a)", "((p) a) is not a term"), ("(?p a)", "(?p a) is not a term"), ("(p ())", "() is not a term"),
            ("(p (f (?g)))", "(?g) is not a term"), ("(or p q)", "(or p q) is not a sentence"), ("role", "role is not a sentence"), ("(legal r)", "(legal r) is not a sentence"),
            ("(goal r)", "(goal r) is not a sentence"), ("(<=)", "a rule without a head"), ("(<= p (or))", "(or) is not a sentence"),
            ("(<= p (distinct () b))", "() is not a term"), ("(<= p (distinct a ()))", "() is not a term"), ("(<= p (or q (not ())))", "() is not a term"),
            ("(<= p (or (next a) q))", "(next a) can't be in a body"), ("(<= p (and () q))", "() is not a term"),
            ("(<= p (init a))", "(init a) can't be in a body"), ("(<= p (not (next a)))", "(next a) can't be in a body"), ("(<= p ?x)", "?x is not a sentence"),
        ):
            self.assert_refused(text, words)

    def test_what_to_do(self):
        for text, words, advice in (
            ("(role a b)", "(role a b) is not a sentence", "write (role _)"), ("(terminal a)", "(terminal a) is not a sentence", "write terminal"),
            ("(<= p (distinct a))", "(distinct a) is not a sentence", "write (distinct _ _)"), ("(<= p (not))", "(not) is not a sentence", "write (not _)"),
            ("(true p)", "(true p) can't be a head", "`next` and `init` say what is true in a state"), ("(does r m)", "(does r m) can't be a head", "`legal` says which moves there are"),
            ("(<= p (next a))", "(next a) can't be in a body", "use `true` for what is true in the state"), ("(p ())", "() is not a term", ""),
            ("(p ?x)", "?x is unsafe: no positive sentence of the body contains it", "add a condition with ?x that is not negated"),
        ):
            self.assertEqual(self.assert_refused(text, words), advice)

    def test_what_may_stand_where_it_does(self):
        rules("(<= (next p) (true q) (does r m) (legal r m) (role r) (goal r 1) terminal (sees r a)) (init (p a)) (sees a) (sees a b c d) (<= p (role random))")
        self.assertEqual(rules("(<= p)"), [("p", ())])

    def test_a_game_of_chance_or_of_what_some_can_not_see(self):
        secret = "belongs to GDL-II, for games with chance or hidden information; here each role sees every move"
        self.assert_refused("(role random)", f"the role `random` {secret}")
        for text in ("(sees r a)", "(sees r a b)", "(<= (sees r a) p)"):
            self.assert_refused(text, f"`sees` {secret}")

    def test_a_variable_that_nothing_binds(self):
        unsafe = "is unsafe: no positive sentence of the body contains it"
        self.assert_refused("(p ?x)", f"?x {unsafe}")
        self.assert_refused("(<= p (not (q ?x)))", f"?x {unsafe}")
        self.assert_refused("(<= p (not (distinct ?x a)))", f"?x {unsafe}")
        self.assert_refused("(<= (p ?y) (or (q ?y) (r ?x)))", f"?y {unsafe}")
        rules("(<= (p ?x) (q ?x) (not (r ?x)) (distinct ?x a))")
