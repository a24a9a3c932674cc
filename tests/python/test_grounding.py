"""Ground rules from instances, dependencies, texts for players, and the splitting of rules."""

import itertools
import random
import unittest
from unittest import mock

from ggp_tools.instantiating import rounds
from ggp_tools.instantiating.grounding import ground, in_order, needed, possible, sentence_of, shortened
from ggp_tools.gdl import Literal, Relations, Rule, all_rules, reached
from ggp_tools.holding.game import Game
from ggp_tools.holding.reading import rules_of as interpreted
from ggp_tools.instantiating.splitting import FEW_VARIABLES, MOST_LITERALS, split
from ggp_tools.instantiating.for_players import text_for_players
from ggp_tools.kif import Refused, expressions, grouped, put, spelled, variables
from support import raised


def rules(text):
    return all_rules(expressions(text))


def texts(found):
    """Returns rules as texts."""
    return [spelled(sentence_of(rule)) for rule in found]


class Grounding(unittest.TestCase):
    def test_instances_have_values_for_variables_and_no_denials_of_what_is_never_true(self):
        rule, = rules("(<= (p ?x) (q ?x ?y) (not (r ?y)) (not (s ?x)))")
        fact = Rule(3, ("s", "b"), ())
        found = ground({0: (rule, ["?x", "?y"]), 1: (fact, [])}, [(0, ("a", "c")), (0, ("b", ("f", "c"))), (1, ())])
        self.assertEqual(texts(found), ["(<= (p a) (q a c))", "(<= (p b) (q b (f c)) (not (s b)))", "(s b)"])
        self.assertEqual([rule.sentence for rule in found], [0, 0, 3])

    def test_what_can_be_true_in_some_state_and_with_some_moves(self):
        found = possible(rules("(role r) (init a) (<= (next b) p) (legal r m) (legal s n) (<= p (true a)) (role q)"))
        self.assertEqual(found - {("role", "r"), ("init", "a"), ("next", "b"), ("legal", "r", "m"), ("legal", "s", "n"), "p", ("role", "q")},
                         {("true", "a"), ("true", "b"), ("does", "r", "m")})

    def test_a_literal_stands_once(self):
        one, no = Literal(True, "p"), Literal(False, "q")
        self.assertEqual(shortened((one, no, one, no), {"q"}), (one, no))
        self.assertEqual(shortened((one, no), {"p"}), (one,))

    def test_what_the_game_does_not_ask_for_is_left_out(self):
        found = needed(rules("(role r) (<= terminal p) (<= p (not q)) q (<= x y) y (<= (next a) z) (<= (base a) x) (<= q w)"))
        self.assertEqual(texts(found), ["(role r)", "(<= terminal p)", "(<= p (not q))", "q", "(<= (next a) z)", "(<= q w)"])

    def test_rules_stand_in_the_order_of_their_sentences_and_of_what_they_say_each_once(self):
        p, no_p, q = Literal(True, ("p", "2")), Literal(False, ("p", "2")), Literal(True, ("p", "10"))
        wanted = [Rule(0, ("h", "9"), ()), Rule(1, ("h", "2"), (no_p,)), Rule(1, ("h", "2"), (p,)), Rule(1, ("h", "2"), (q,)), Rule(1, ("h", "10"), ())]
        for order in itertools.islice(itertools.permutations(wanted), 0, 120, 7):
            self.assertEqual(in_order([*order, Rule(2, ("h", "2"), (p,))]), wanted)

    def test_a_rule_as_a_sentence(self):
        self.assertEqual(texts([Rule(0, "p", ()), Rule(0, "p", (Literal(True, "q"), Literal(False, ("r", "a"))))]), ["p", "(<= p q (not (r a)))"])


class Dependence(unittest.TestCase):
    def test_what_depends_on_what(self):
        found = Relations(rules("(<= p q (not (r a))) (<= q (s a b)) (<= (t ?x) (u ?x) (distinct ?x a))"))
        self.assertEqual(found.asks, {("p", None): {("q", None), ("r", 1)}, ("q", None): {("s", 2)}, ("t", 1): {("u", 1)}})
        self.assertEqual((reached(found.asks, [("p", None)]), reached(found.asks, [("s", 2)])), ({("q", None), ("r", 1), ("s", 2)}, set()))
        self.assertEqual(found.circular, set())
        self.assertEqual(Relations(rules("(<= p q) (<= q p) (<= r (not r)) (<= s p)")).circular, {("p", None), ("q", None), ("r", None)})

    def test_the_work_grows_with_the_text_only(self):
        # If the cost were quadratic, each of these descriptions would take hours, or too much memory.
        chain = "".join(f"(<= (p{number} ?x) (p{number + 1} ?x))" for number in range(100_000))
        self.assertEqual(len(Relations(rules(chain + "(<= (p100000 ?x) (true ?x))")).unsettled()), 100_003)
        names = [f"?x{number}" for number in range(50_000)]
        wide = f"(<= (p {' '.join(names)}) {' '.join(f'(q {name})' for name in names)})"
        self.assertEqual([len(rule.body) for rule in rules(wide)], [50_000])
        literals = " ".join(f"(not (q {number}))" for number in range(50_000))
        self.assertEqual([len(rule.body) for rule in all_rules(expressions(f"(<= p {literals})"), of_one=interpreted)], [50_000])

    def test_what_the_grounder_can_not_settle(self):
        found = Relations(rules("(<= p (true a)) (<= q p) (<= m (does r x)) (<= n (not o)) (<= o n) (<= w v) (<= k (not l)) l (<= z (not n))"))
        self.assertEqual(found.unsettled(), {("true", 1), ("does", 2), ("p", None), ("q", None), ("m", None), ("n", None), ("o", None), ("z", None)})

    def test_what_bears_on_the_game(self):
        found = Relations(rules("(<= terminal p) (<= p (not (q a))) (<= (base a) x) (<= (legal r m) (true a))")).bearing()
        self.assertEqual(found, {("role", 1), ("init", 1), ("next", 1), ("legal", 2), ("goal", 2), ("terminal", None), ("true", 1), ("does", 2), ("p", None), ("q", 1)})

    def test_what_the_program_refuses(self):
        heads = {"legal": "(legal r m)", "goal": "(goal r 1)", "terminal": "terminal", "init": "(init a)", "role": "(role r)", "next": "(next a)", "p": "p"}
        asked = {"true": "(true a)", "does": "(does r m)"}
        wrong = {("legal", "does"), ("goal", "does"), ("terminal", "does"), ("init", "does"), ("init", "true"), ("role", "does"), ("role", "true")}
        for (name, head), (other, body) in itertools.product(heads.items(), asked.items()):
            for text, by, sentence in (
                (f"(<= {head} {body})", "", 0), (f"(<= x {body}) (<= {head} (not y)) (<= y x)", ", through y, x", 0),
                (f"(<= {head} y) (<= x w) (<= x w {body}) (<= y z (not x) z) (<= z y)", ", through y, x", 2),
            ):
                # The grounder and the interpreter refuse the same descriptions.
                for ask in (lambda: Relations(rules(text)).refuse_dependence(), lambda: Game(text)):
                    if (name, other) in wrong:
                        why = raised(Refused, ask)
                        self.assertEqual((str(why), why.sentence), (f"{name} depends on {other}{by}", sentence))
                    else:
                        ask()


class Circles(unittest.TestCase):
    """Cycles of sentences, and the number of rounds until everything is derived."""

    def rules_for(self, text):
        return grouped(rules(text), lambda rule: rule.head)

    def test_components_are_what_can_be_reached_from_each_other_those_below_first(self):
        dice = random.Random(2)
        for _ in range(200):
            graph = {node: dict.fromkeys(dice.choices("abcdefgx", k=dice.randrange(4))) for node in dice.sample("abcdefg", 7)}
            reached = {node: {node} for node in graph}
            for _ in graph:
                reached = {node: {node}.union(*(reached[other] for other in graph[node] if other in graph)) for node in graph}
            found, wanted = rounds.components(graph), {tuple(sorted(other for other in reached[node] if node in reached[other])) for node in graph}
            self.assertEqual(sorted(map(tuple, map(sorted, found))), sorted(wanted))
            below = set()
            for component in found:
                below |= set(component)
                self.assertLessEqual(set().union(*(reached[node] for node in component)), below)

    def test_circles_are_of_several_or_of_one_that_asks_for_itself(self):
        text = "(<= p q) (<= q r) (<= r q) (<= s s) (<= t (true t)) (<= u (does r u)) (<= v (not v)) (<= w (x y)) (<= (x y) p)"
        self.assertEqual(rounds.circles(rules(text)), [["q", "r"], ["s"], ["v"]])

    def test_a_denial_of_itself_is_refused(self):
        why = raised(Refused, rounds.unrolled, rules("(<= (p a) q) (<= q (p a) (not (p a)))"))
        self.assertEqual(str(why), "a cycle: q depends on itself through the negation of (p a)")
        self.assertEqual(rounds.unrolled(rules("(<= p q (not r)) (<= q p)"))[1], [("p", 2, 1)])
        for count, more in ((8, ""), (9, " and 1 more")):
            why = raised(Refused, rounds.unrolled, rules("(<= p0 (not p1))" + "".join(f"(<= p{at} p{(at + 1) % count})" for at in range(count))))
            words = f"a cycle: p0 depends on itself through the negation of p1, with p2, p3, p4, p5, p6, p7{more}"
            self.assertEqual((str(why), why.sentence, why.advice), (words, 0, "use `true` to ask for one of these in the previous state"))

    def last(self, text):
        rules_for = self.rules_for(text)
        circle, = rounds.circles(rules(text))
        return rounds.is_halved(circle, rules_for), rounds.last_round(circle, rules_for)

    def closure(self, names, more=()):
        """Returns rules for the paths between all of these names: a path is one step, or two paths that connect."""
        found = [f"(<= (w {start} {end}) (true (e {start} {end})))" for start, end in itertools.product(names, repeat=2)]
        for start, middle, end in itertools.product(names, repeat=3):
            found.append(f"(<= (w {start} {end}) {' '.join(dict.fromkeys([f'(w {start} {middle})', f'(w {middle} {end})']))})")
        return " ".join([*found, *more])

    def both(self, names):
        """Returns rules for the paths of a first relation. Each path consists of another path of this relation and a path of a second
        relation."""
        first, then = names
        return " ".join(f"(<= ({first} {start} {end}) ({first} {start} {middle}) ({then} {middle} {end}))" for start, middle, end in itertools.product("ab", repeat=3))

    def test_halves_and_cliques(self):
        ways = ("w", "a", "b"), ("w", "b", "c")
        self.assertTrue(rounds.halves(("w", "a", "c"), *ways) and rounds.halves(("w", "a", "c"), *ways[::-1]))
        for whole, first, second in (("ac", "ab", "dc"), ("ac", "ab", "bd"), ("ac", "db", "bc"), ("ca", "ab", "bc")):
            self.assertFalse(rounds.halves(*(("w", *way) for way in (whole, first, second))))
        self.assertEqual(rounds.cliques(list("acd"), {"a": {"d"}, "d": {"c", "a"}, "c": {"a"}}), [["a", "d"], ["c"]])
        self.assertEqual(rounds.cliques(list("adc"), {"a": {"d", "c"}, "d": {"c"}, "c": {"a", "d"}}), [["a", "c"], ["d"]])

    def test_a_closure_is_halved(self):
        for names, last in (("ab", 1), ("abc", 2), ("abcd", 2), ("abcde", 3)):
            self.assertEqual(self.last(self.closure(names)), (True, last), names)
        text = self.closure("abc")
        for other in (
            text.replace("(w a b) (w b c)", "(w a b) (w b c) (f x)"), text.replace("(<= (w a c) (w a b) (w b c))", ""),
            text + "(<= (w a b) (w b c))", text + "(<= (w a b) (w a c) (w b c))", text + "(<= (w a b) (w b c) (w a c))", text + "(<= (w a b) (w c a) (w b c))",
            text + "(<= (w a b) (w c b) (not (f x)))", f"{self.closure('ab')} {self.closure('ab').replace('(w ', '(x ')} {self.both('wx')} {self.both('xw')}", text.replace("(w ", "(w z "), text + "(<= v (w a b)) (<= (w a b) v)", text + "(<= (w a b) (v a b)) (<= (v a b) (w a b) (w b b))",
        ):
            self.assertEqual(self.last(other)[0], False, other[-60:])

    def test_ways_of_one_step_need_fewer_rounds_where_all_lead_to_all(self):
        # Each of three sentences can be derived from the other two. A path uses at most two of them.
        text = " ".join(f"(<= {head} {other} (true {head}))" for head, other in itertools.permutations("abc", 2))
        self.assertEqual(self.last(f"{text} (<= a (true s))"), (False, 1))
        self.assertEqual(self.last(f"{text} (<= d a) (<= a d (true a))"), (False, 2))
        self.assertEqual(self.last(f"{text} (<= a b c)"), (False, 2))
        self.assertEqual(self.last(f"{text} (<= a b (true t))"), (False, 2))
        self.assertEqual(self.last("(<= a b) (<= b c) (<= c a)"), (False, 2))
        self.assertEqual(self.last("(<= a b) (<= b a) (<= a a (true x))"), (False, 1))

    def test_what_can_be_derived_in_each_round(self):
        text = "(<= a b) (<= b c) (<= c a) (<= c (true s)) (<= d e) (<= e d) (<= a d)"
        rules_for = self.rules_for(text)
        self.assertEqual(rounds.alive(["a", "b", "c"], rules_for, 1), [{"a", "c"}, {"a", "b", "c"}])
        text = "(<= a b) (<= b c) (<= c a) (<= c (true s))"
        self.assertEqual(rounds.alive(["a", "b", "c"], self.rules_for(text), 2), [{"c"}, {"c", "b"}, {"a", "b", "c"}])
        self.assertEqual(rounds.alive(["a", "b", "c"], self.rules_for(text), 4), [{"c"}, {"c", "b"}, *[{"a", "b", "c"}] * 3])

    def test_the_rules_of_all_rounds(self):
        found, told = rounds.unrolled(rules("(<= a b) (<= b c) (<= c a) (<= c (true s)) (<= round1 a) (<= a (true t) b) (<= (next a) a)"))
        self.assertEqual(told, [("a", 3, 2)])
        self.assertEqual(texts(found), [
            "(<= round1 a)", "(<= (next a) a)", "(<= a (round 1 b))", "(<= a (true t) (round 1 b))", "(<= b (round 1 c))", "(<= c (true s))",
            "(<= (round 1 b) (round 0 c))", "(<= (round 1 c) (true s))", "(<= (round 0 c) (true s))",
        ])
        # Only the first rule of each head keeps the place of the original rule. For c, this rule is dropped.
        self.assertEqual([rule.sentence for rule in found], [4, 6, 0, 5, 1, 2, 1, 3, 3])

    def test_rounds_that_are_too_many_are_refused(self):
        found = rules("(<= a b) (<= b c) (<= c a) (<= c (true s)) (<= d a)")
        with mock.patch.object(rounds, "MOST_RULES", 9):
            rounds.unrolled(found)
        with mock.patch.object(rounds, "MOST_RULES", 8):
            self.assertEqual(str(raised(Refused, rounds.unrolled, found)), "a cycle of 3 sentences, such as a: its 3 rounds have more than 8 rules")
        self.assertEqual(rounds.MOST_RULES, 2_000_000)


class Told(unittest.TestCase):
    GROUND = "(role x) (role o) (init a) (<= (next b) p) (next b) (legal x m) (legal o (n 1)) (legal x m)"

    def told(self, text, ground=GROUND):
        return text_for_players(expressions(text), [rule.head for rule in rules(ground)]).splitlines()

    def test_roles_stand_first_as_facts_and_facts_of_base_and_input_last(self):
        self.assertEqual(self.told("(<= (role ?x) (player ?x)) (init a) (role z)"), [
            "(role x)", "(role o)", "(init a)", "(base a)", "(base b)", "(input x m)", "(input o (n 1))",
        ])

    def test_where_a_sentence_speaks_of_them_no_facts_are_added(self):
        self.assertEqual(self.told("(base c)"), ["(role x)", "(role o)", "(base c)", "(input x m)", "(input o (n 1))"])
        self.assertEqual(self.told("(<= p (or q (not (input x m))))"), ["(role x)", "(role o)", "(<= p (or q (not (input x m))))", "(base a)", "(base b)"])
        self.assertEqual(self.told("(<= p (and (base a) (input x m)))"), ["(role x)", "(role o)", "(<= p (base a) (input x m))"])
        self.assertEqual(len(self.told("(base a b) (input x)")), 2 + 2 + 4)

    def test_and_is_no_word_of_gdl(self):
        for text, wanted in (
            ("(<= p (and q (and r s)) t)", ["(<= p q r s t)"]), ("(<= p (or q r) t)", ["(<= p (or q r) t)"]),
            ("(<= p (and q (or r s)))", ["(<= p q (or r s))"]), ("(e (and a))", ["(e (and a))"]),
            ("(<= p (or (and q r) s) t)", ["(<= p q r t)", "(<= p s t)"]), ("(<= p (not (and q (distinct ?x a))))", ["(<= p (not q))", "(<= p (not (distinct ?x a)))"]),
            ("(<= p (or (and q (distinct a b)) r) (or s t))", ["(<= p q (distinct a b) (or s t))", "(<= p r (or s t))"]),
            ("(<= p (not (or q (and r s))))", ["(<= p (not q) (not r))", "(<= p (not q) (not s))"]), ("(<= p (and (e (and)) q))", ["(<= p (e (and)) q)"]),
        ):
            self.assertEqual(self.told(f"(base a) (input a b) {text}")[4:], wanted, text)


class Splitting(unittest.TestCase):
    """Splitting does not change what rules derive, and gives no rule more variables."""

    FACTS = {("e", start, end) for start, end in zip("abcdeabc", "bcdeabda")}

    def heads(self, found):
        """Returns the heads that rules derive. Tries all values of the variables, bottom-up."""
        true = set(self.FACTS)
        while True:
            new = set()
            for rule in found:
                names = variables(rule.atoms())
                for values in itertools.product("abcde", repeat=len(names)):
                    by = dict(zip(names, values))
                    if all(self.is_so(literal, by, true) for literal in rule.body):
                        new.add(put(rule.head, by))
            if new <= true:
                return true
            true |= new

    def width(self, found):
        return max(len(variables(rule.atoms())) for rule in found)

    def is_so(self, literal, by, true):
        atom = put(literal.atom, by)
        return ((atom[0] == atom[1]) if literal.same else atom in true) == literal.positive

    def test_a_chain_is_split_where_it_says_the_same_with_fewer_variables(self):
        for text in "(<= (p ?a ?d) (e ?a ?b) (e ?b ?c) (e ?c ?d))", "(<= (p ?d ?a) (e ?d ?c) (e ?c ?b) (e ?b ?a))":
            before = rules(text)
            after = split(before)
            self.assertEqual(self.width(after), 3)
            self.assertEqual({head for head in self.heads(after) if head[0] in "pe"}, self.heads(before))

    def test_parts_that_say_the_same_have_one_relation(self):
        after = split(rules("(<= (p ?a) (e ?a ?b) (e ?b ?c)) (<= (q ?x) (e ?x ?y) (e ?y ?z)) (<= (r ?z) (e ?x ?y) (e ?y ?z))"))
        names = {head[0] for head in (rule.head for rule in after)}
        # The part of the third rule shares another variable.
        self.assertEqual(names, {"p", "q", "r", "split1", "split2"})
        self.assertEqual(len(after), 5)

    def test_a_part_that_shares_nothing_is_an_atom(self):
        after = split(rules("(<= (p ?a) (e ?a a) (e ?b ?c))"))
        self.assertEqual([rule.head for rule in after], ["split1", ("p", "?a")])

    def test_of_all_parts_the_one_that_leaves_the_fewest_variables_is_split(self):
        after = split(rules("(<= (p ?a) (e ?a ?b) (e ?c ?d) (e ?a ?c))"))
        self.assertEqual(texts(after), ["(<= (split1 ?0) (e ?0 ?1))", "(<= (p ?a) (e ?a ?c) (split1 ?a) (split1 ?c))"])

    def test_what_stays_as_it_is(self):
        self.assertEqual((FEW_VARIABLES, MOST_LITERALS), (3, 13))
        for text in (
            "(<= (p ?a ?b) (e ?a ?b) (e ?b a))", "(<= (p ?a ?b ?c) (e ?a ?b) (e ?b ?c) (e ?a ?c))", "(<= (p ?a ?c) (e ?a ?b) (p ?b ?d) (e ?d ?c))",
            "(<= (p ?a) (e ?a ?b) (not (e ?b ?c)) (e ?a ?c))", "(<= (p ?a ?d) (e ?a ?b) (not (e ?b ?c)) (e ?c ?d))", "(<= (p ?a) (e ?a a) (e ?b b))", "(<= (p ?a) (e ?a ?b) (e ?b ?c) (e ?a ?c))", "(p a b)",
        ):
            self.assertEqual(split(rules(text)), rules(text), text)

    def test_bodies_of_up_to_13_literals_are_split(self):
        for count, is_split in ((13, True), (14, False)):
            chain = " ".join(f"(e ?x{at} ?x{at + 1})" for at in range(count))
            found = rules(f"(<= (p ?x0) {chain})")
            self.assertEqual(split(found) != found, is_split)

    def test_names_that_the_description_has_are_not_taken(self):
        after = split(rules("(<= (p ?a) (e ?a a) (e ?b ?c)) (split1 a) (<= (q ?a) (split-2 ?a))"))
        self.assertEqual(after[0].head, "split--1")

    def test_rules_by_dice(self):
        dice = random.Random(3)
        splits = 0
        for _ in range(60):
            body = [f"(e {dice.choice(('?a', '?b', '?c', '?d', 'a'))} {dice.choice(('?a', '?b', '?c', '?d'))})" for _ in range(dice.randrange(2, 5))]
            bound = variables(expressions(" ".join(body)))
            head = " ".join(dice.sample(bound, dice.randrange(min(3, len(bound) + 1))))
            more = f"(not (e {dice.choice(bound)} {dice.choice(bound)}))" if dice.random() < 0.5 else f"(distinct {dice.choice(bound)} {dice.choice(bound)})"
            before = rules(f"(<= (p {head}) {' '.join(body)} {more})")
            after = split(before)
            splits += after != before
            self.assertLessEqual(self.width(after), self.width(before))
            self.assertEqual({head for head in self.heads(after) if head[0] in "pe"}, self.heads(before), before)
        self.assertGreater(splits, 5)
