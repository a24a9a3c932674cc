"""The steps of `ggp-instantiate` other than gringo. The games are small and random, and each result is compared with an exhaustive computation."""

import contextlib
import hashlib
import io
import itertools
import random
import signal
import unittest
import unittest.mock

from ggp_tools.instantiating import folding, gringo, limits, making, rounds
from ggp_tools.instantiating.grounding import sentence_of
from ggp_tools.gdl import GAME, Literal, Rule, all_rules
from ggp_tools.kif import Refused, expressions, head_of, relation, spelled
from support import GAMES, outside, raised

ground_games = outside("ground_games")

STATE = ["a", "b", "c", "d"]
MOVES = {"r": ["m1", "m2", "m3", "m4"], "s": ["n1", "n2"]}


def holds(sentences, state, joint):
    """Returns the true ground sentences according to the oracle."""
    game = ground_games.Game(sentences)
    return set(filter(game.question(set(state), {role: move for _, role, move in joint}), game.rules))


def dice_game(dice):
    """Returns a random game without variables: roles and moves, some relations, and the next state. Bodies use earlier sentences."""
    rules = [Rule(0, ("role", role), ()) for role in MOVES]
    rules += [Rule(1 + dice.randrange(3), ("legal", role, move), ()) for role, moves in MOVES.items() for move in moves]
    states = [("true", term) for term in STATE]
    moves = [("does", role, move) for role, those in MOVES.items() for move in those]
    before = []
    heads = [f"p{k}" for k in range(5)] + [("next", term) for term in STATE]
    for number, head in enumerate(heads, 10):
        for _ in range(dice.randrange(1, 12)):
            asked = dice.sample(states + moves + before, dice.randrange(1, 5))
            rules.append(Rule(number, head, tuple(Literal(dice.random() < 0.7, literal) for literal in asked)))
        if isinstance(head, str):
            before.append(head)
    rules += [Rule(30, ("legal", "r", "m2"), (Literal(True, ("true", "a")),))]
    return sorted(rules, key=lambda rule: rule.sentence)


def folded(rules, most_sentences, most_bytes):
    """Returns a game, factored for these limits."""
    game = folding.begun(rules)
    game.fold(folding.Target(most_sentences, most_bytes))
    return game


def own(heads):
    return {head for head in heads if relation(head)[0] in GAME}


class Folding(unittest.TestCase):
    def test_folded_games_are_the_same(self):
        for seed in range(30):
            rules = dice_game(random.Random(seed))
            plain = [sentence_of(rule) for rule in rules]
            for most in 10_000, 0:
                found = [sentence for _, sentence in folded(rules, most, most).written()]
                self.compare(plain, found, seed)
                self.assertEqual(legal_heads(plain), legal_heads(found), seed)

    def test_it_is_folded_to_the_first_target_that_it_can_be_within(self):
        rules = dice_game(random.Random(0))
        small, large = folding.Target(20, 1 << 20), folding.Target(10_000, 1 << 20)
        self.assertEqual([folding.folded(rules, targets).sentences() for targets in ([small], [large], [small, large])], [20, 42, 20])
        # If a target is impossible, or takes too much work, the next target is tried.
        too_short = small._replace(bytes=folding.begun(rules).bytes() // 2 - 1, work=1_000_000)
        late = small._replace(work=folding.folded(rules, [small]).formulas.work - 1)
        folding.begun(rules).must_have_room(late)
        for target in (too_short, small._replace(work=1), late, folding.Target(3, 10)):
            self.assertEqual(folding.folded(rules, [target, large]).sentences(), 42, target)
        why = raised(folding.Hopeless, folding.folded, rules, [folding.Target(3, 10), small._replace(work=1)])
        self.assertEqual(str(why), "factoring takes more than 1 steps")
        game, size = folding.folded(rules, [small]), folding.folded(rules, [small]).bytes()
        self.assertEqual([game.is_within(folding.Target(*most)) for most in ((20, size), (19, size), (20, size - 1))], [True, False, False])
        # After the last target, the result is returned even if it exceeds the target.
        self.assertEqual(folding.folded(rules, [folding.Target(20, 100)]).sentences(), 20)

    def test_what_is_refused_early_has_its_figures(self):
        # The rule of `never` is left out, so it counts in no figure.
        text = "(<= (next s) (does r a)) (<= (next never) (true a) (not (true a))) " + " ".join(f"(<= (next {t}) p{k} p{k + 1})" for k, t in enumerate("abcdefgh"))
        text += " ".join(f"(<= p{k} (true a) (true b{k})) (<= p{k} (not (true c)) (true d{k}) (true e{k}))" for k in range(9))
        rules = all_rules(expressions(text))
        by_dice = dice_game(random.Random(0))
        folding.begun(by_dice).must_have_room(folding.Target(folded(by_dice, 10_000, 1 << 20).sentences(), 1 << 20))
        game = folding.begun(rules)
        for most, most_bytes, words in (
            (8, 500, "at least 9 sentences, but at most 8 are allowed"),
            (9, 1_121, "9 of 18 sentences must be inlined, which gives at least 1,122 bytes, but at most 1,121 are allowed"),
            (12, 500, "6 of 18 sentences must be inlined, which gives at least 828 bytes, but at most 500 are allowed"),
            (17, 0, "1 of 18 sentences must be inlined, which gives at least 434 bytes, but at most 0 are allowed"),
        ):
            self.assertEqual(str(raised(folding.Hopeless, game.must_have_room, folding.Target(most, most_bytes))), words)
        for most, most_bytes in ((9, 1_122), (18, 0)):
            game.must_have_room(folding.Target(most, most_bytes))
        with unittest.mock.patch.object(folding, "MOST_DEEP", 6):
            why = raised(folding.Hopeless, folding.begun(rules).must_have_room, folding.Target(12, 1 << 20))
        self.assertEqual(str(why), "at least 18 sentences, but at most 12 are allowed")

    def test_what_games_by_dice_come_to(self):
        # The number of sentences, the bytes, and the beginning of the checksum. These numbers reveal any change of factoring.
        for seed, most, most_bytes, *figures in (
            (0, 10_000, 1 << 20, 42, 1_441, "0978b570"), (0, 20, 1 << 20, 20, 1_471, "d823b622"), (0, 0, 0, 12, 8_518, "0193cc32"), (0, 14, 1 << 20, 14, 2_405, "67a8290d"),
            (1, 10_000, 1 << 20, 44, 1_510, "dc99034a"), (1, 20, 1 << 20, 20, 1_575, "f6e8ec2f"), (1, 0, 0, 12, 7_326, "75f1bb39"),
            (2, 10_000, 1 << 20, 28, 985, "9d19918f"), (2, 20, 1 << 20, 20, 1_026, "16d8ccef"), (2, 0, 0, 11, 3_911, "6c23f4a4"),
            (3, 10_000, 1 << 20, 42, 1_395, "410003ec"), (3, 20, 1 << 20, 20, 1_465, "1868759f"), (3, 0, 0, 12, 4_639, "010299d4"),
        ):
            game = folded(dice_game(random.Random(seed)), most, most_bytes)
            text = "\n".join(f"{number} {spelled(sentence)}" for number, sentence in game.written())
            self.assertEqual([game.sentences(), game.bytes(), hashlib.sha256(text.encode()).hexdigest()[:8]], figures, (seed, most))
        for deep, figures in ((5, (30, 1_066)), (6, (27, 1_099)), (10, (22, 1_035)), (13, (18, 1_146)), (14, (13, 1_170)), (24, (12, 1_292)), (25, (11, 3_911))):
            with unittest.mock.patch.object(folding, "MOST_DEEP", deep):
                game = folded(dice_game(random.Random(2)), 0, 0)
                self.assertEqual((game.sentences(), game.bytes()), figures, deep)

    def written(self, text, most=10_000, most_bytes=1 << 20):
        """Returns the output for a game after the sentences of its role and its moves."""
        moves = [f"(legal r m{k})" for k in range(8)]
        game = folded(all_rules(expressions(f"(role r) {' '.join(moves)} {text}")), most, most_bytes)
        return [f"{number} {spelled(sentence)}" for number, sentence in game.written()][9:]

    def test_bodies_and_formulas_become_parts_where_that_is_shorter(self):
        body, longer = (f"(true a) (true {'b' * count})" for count in (15, 16))
        self.assertEqual(self.written(f"(<= (next s) {body}) (<= (next t) {body})"), [f"9 (<= (next s) {body})", f"10 (<= (next t) {body})"])
        self.assertEqual(self.written(f"(<= (next s) {longer}) (<= (next t) {longer})"), ["9 (<= (next s) part1)", "10 (<= (next t) part1)", f"9 (<= part1 {longer})"])
        self.assertEqual(len(self.written(f"(<= (next s) {longer}) (<= (next t) {longer})", 11)), 2)
        alone = [f"(<= (next s{k}) (true {'a' * 50}))" for k in range(5)]
        self.assertEqual(self.written(" ".join(alone)), [f"{number} {sentence}" for number, sentence in enumerate(alone, 9)])
        either, longer = (f"(or (true a) (true {'b' * count}))" for count in (10, 11))
        self.assertEqual(self.written(f"(<= (next s) {either} (true c)) (<= (next t) {either} (true d))")[0], f"9 (<= (next s) (true c) {either})")
        self.assertEqual(self.written(f"(<= (next s) {longer} (true c)) (<= (next t) {longer} (true d))"), [
            "9 (<= (next s) (true c) part1)", "10 (<= (next t) (true d) part1)", f"9 (<= part1 {longer})",
        ])

    def test_where_there_is_room_for_one_part_it_is_the_one_that_gains_most(self):
        one, two = f"(or (true {'a' * 24}) (true b))", f"(or (true {'c' * 32}) (true d))"
        text = f"(<= (next s) {one} (true e)) (<= (next t) {one} (true f)) (<= (next u) {two} (true g)) (<= (next v) {two} (true h))"
        self.assertEqual(self.written(text, 14), [
            f"9 (<= (next s) (true e) {one})", f"10 (<= (next t) (true f) {one})", "11 (<= (next u) (true g) part1)", "12 (<= (next v) (true h) part1)", f"11 (<= part1 {two})",
        ])

    def test_parts_stand_in_parts(self):
        long = [f"(true {letter * 30})" for letter in "acd"]
        inner = f"(or {long[0]} (true b))"
        first, second = (f"(or (not {inner}) {atom})" for atom in long[1:])
        self.assertEqual(self.written(f"(<= (next s) (not {first}) (true e)) (<= (next t) {first} (true f)) (<= (next u) {second} (true g)) (<= (next v) {second} (true h))"), [
            f"9 (<= (next s) (not {long[1]}) (true e) part1)", "10 (<= (next t) (true f) part2)", f"10 (<= (next t) {long[1]} (true f))", "11 (<= (next u) (true g) part2)",
            f"11 (<= (next u) (true g) {long[2]})", "12 (<= (next v) (true h) part2)", f"12 (<= (next v) {long[2]} (true h))", f"9 (<= part1 {inner})", "10 (<= part2 (not part1))",
        ])

    def test_no_more_is_placed_than_has_to_be(self):
        asked = " ".join(f"(<= p{k} (true a{k}) (true b{k})) (<= (next s{k}) p{k} (true c)) (<= (next t{k}) p{k} (true d))" for k in range(3))
        for most, left in ((18, 3), (17, 2), (16, 1), (15, 0)):
            found = self.written(asked, most)
            self.assertEqual((len(found), len([line for line in found if "(<= p" in line])), (most - 9, left))

    def test_denials_are_one(self):
        self.assertEqual(self.written("(<= (next s) (not (does r m0)) (not (does r m1)) (not (true s)))"), ["9 (<= (next s) (not (or (does r m0) (does r m1) (true s))))"])

    def test_long_names_become_short_where_bytes_are_too_many(self):
        name, body = "(a-long-name-of-a-relation x)", " ".join(f"(true {letter * 9})" for letter in "abcdefg")
        text = f"(<= {name} {body}) (<= (next s) {name} (true t)) (<= (next t) (not {name}))"
        self.assertEqual(self.written(text, 10_000, 0), [f"9 (<= part1 {body})", "10 (<= (next s) (true t) part1)", "11 (<= (next t) (not part1))"])
        self.assertIn(name, self.written(text)[0])

    def test_what_bodies_share_stands_once_up_to_a_depth(self):
        bodies = [[*(("true", str(k)) for k in range(count)), ("true", f"z{count}")] for count in range(1, 11)]
        game = folding.Folded([Rule(0, "p", tuple(Literal(True, atom) for atom in body)) for body in bodies])
        (bodies,) = game.bodies.values()
        text = spelled(game.formulas.expression(game.factored(bodies)))
        self.assertEqual([text.count(f"(true {k})") for k in range(10)], [1, 1, 1, 1, 1, 1, 1, 3, 2, 1])

    def test_the_sentences_that_cost_most(self):
        # A frame rule of many moves becomes one short sentence, and the rule that sets the cell stays long.
        moves = "".join(f"(legal r (m {k}))" for k in range(9))
        frame = "".join(f"(<= (next c) (true c) (does r (m {k})))" for k in range(8))
        sets = "".join(f"(<= (next c) (true {k}{t}) (true {t}{k}) (does r (m 8)))" for k, t in enumerate("stuv"))
        rules = [rule._replace(sentence=number) for number, text in enumerate(["(role r)", moves, frame, sets]) for rule in all_rules(expressions(text))]
        costs = folded(rules, 10_000, 1 << 20).costs(True)
        self.assertGreater(costs[3], costs[2])

    def test_what_is_put_into_others_costs_whose_it_is(self):
        # The long relation is used once, so it is inlined in that rule, where its cost counts.
        long = " ".join(f"(true (a-long-name {k}))" for k in range(20))
        text = f"(role r) (legal r m) (<= (next s) w (true s)) (<= w {long})"
        game = folded(all_rules(expressions(text)), 3, 1 << 20)
        self.assertEqual(game.sentences(), 3)
        costs = game.costs(True)
        self.assertEqual({sentence: round(cost) for sentence, cost in costs.items()}, {0: 9, 1: 12, 2: 25, 3: 468})
        self.assertEqual((round(costs.total()), game.costs(False).total()), (game.bytes(), 3))

    def test_parts_cost_those_who_ask_for_them(self):
        # Two rules have the same head. Only the second one has the body that becomes a part, because all other rules share it.
        long = " ".join(f"(true (a-long-name {k}))" for k in range(9))
        rules = [Rule(2, ("next", "c0"), (Literal(True, ("true", "s")),))]
        rules += [Rule(3, ("next", f"c{k}"), tuple(Literal(True, atom) for atom in expressions(long))) for k in range(5)]
        game = folded([*all_rules(expressions("(role r) (legal r m)")), *rules], 10_000, 1 << 20)
        self.assertEqual(game.part_count, 1)
        costs = game.costs(True)
        self.assertGreater(costs[3], 5 * costs[2])
        self.assertEqual(round(costs.total()), game.bytes())

    def compare(self, plain, found, seed):
        for count in range(len(STATE) + 1):
            for state in itertools.combinations(STATE, count):
                for move, answer in itertools.product(MOVES["r"], MOVES["s"]):
                    joint = [("does", "r", move), ("does", "s", answer)]
                    self.assertEqual(own(holds(plain, state, joint)), own(holds(found, state, joint)), seed)


def legal_heads(sentences):
    return list(dict.fromkeys(head for head in map(head_of, sentences) if head[0] == "legal"))


class Rounds(unittest.TestCase):
    def ways(self, dice, is_closure):
        """Returns paths over edges that are in the state, from a start or between any two places."""
        places = [str(k) for k in range(5)]
        rules = []
        for start, end in itertools.product(places, repeat=2):
            edge = Literal(True, ("true", (start, end)))
            if is_closure:
                rules.append(Rule(1, ("w", start, end), (edge,)))
                halves = [[("w", start, middle), ("w", middle, end)] for middle in places]
                rules += [Rule(2, ("w", start, end), tuple(Literal(True, half) for half in dict.fromkeys(both))) for both in halves]
            elif start != end:
                rules.append(Rule(1, ("w", start), (edge, Literal(True, ("w", end)))))
        if not is_closure:
            rules.append(Rule(0, ("w", "0"), ()))
        dice.shuffle(rules)
        return rules

    def test_ways_are_found_in_rounds(self):
        for is_closure in True, False:
            dice = random.Random(3)
            rules = self.ways(dice, is_closure)
            found = self.unrolled(rules, 3 if is_closure else 4)
            for _ in range(40):
                edges = [pair for pair in itertools.product("01234", repeat=2) if dice.random() < 0.3]
                self.compare(rules, found, edges)

    def test_ways_that_grow_by_one_edge_are_not_halved(self):
        # Two paths make a longer one only if the second is an edge of the game. So a round adds one edge, and does not double the length of
        # the path.
        places = range(6)
        rules = [Rule(1, ("w", str(a), str(b)), (Literal(True, ("true", (str(a), str(b)))),)) for a, b in itertools.product(places, repeat=2)]
        for start, middle, end in itertools.product(places, repeat=3):
            if abs(middle - end) == 1:
                halves = dict.fromkeys([("w", str(start), str(middle)), ("w", str(middle), str(end))])
                rules.append(Rule(2, ("w", str(start), str(end)), tuple(Literal(True, half) for half in halves)))
        found, dice = self.unrolled(rules, 35), random.Random(7)
        self.compare(rules, found, [(str(k), str(k + 1)) for k in range(5)])
        for _ in range(20):
            self.compare(rules, found, [(str(a), str(b)) for a, b in itertools.product(places, repeat=2) if dice.random() < 0.2])

    def test_ways_that_go_over_others_outside_are_not_halved(self):
        # Any two paths make a longer one, but not every path consists of two halves. The path from 0 to 0 over 4, 1 and 2 does not.
        ends = ["00", "02", "04", "10", "11", "12", "14", "20", "24", "40", "41", "44"]
        rules = [Rule(1, ("w", *way), (Literal(True, ("true", way)),)) for way in ends]
        for way, onward in itertools.product(ends, repeat=2):
            if way[1] == onward[0]:
                both = dict.fromkeys([("w", *way), ("w", *onward)])
                rules.append(Rule(2, ("w", way[0], onward[1]), tuple(Literal(True, half) for half in both)))
        self.compare(rules, self.unrolled(rules, 11), ["04", "41", "12", "20"])

    def test_stones_need_fewer_rounds(self):
        # 4×4 cells with six neighbours each, and the stones that are joined to the first row.
        cells = list(itertools.product(range(4), repeat=2))
        sides = (1, 0), (0, 1), (1, -1), (-1, 0), (0, -1), (-1, 1)
        named = {cell: f"{cell[0]}{cell[1]}" for cell in cells}
        rules = []
        for x, y in cells:
            stone, joined = Literal(True, ("true", named[x, y])), ("w", named[x, y])
            rules += [Rule(1, joined, (stone,))] if y == 0 else []
            beside = [named[x + a, y + b] for a, b in sides if (x + a, y + b) in named]
            rules += [Rule(2, joined, (stone, Literal(True, ("w", other)))) for other in beside]
        found, dice = self.unrolled(rules, 11), random.Random(5)
        for _ in range(200):
            self.compare(rules, found, [name for name in named.values() if dice.random() < 0.6])

    def test_what_goes_one_way_alone_saves_no_round(self):
        # 1 can be derived from 2, 3 and 4; 2 from 3 and 4; 3 from 4; and 4 from 1. Starting with 1, it takes two rounds to derive 2 and 3.
        steps = {"1": "234", "2": "34", "3": "4", "4": "1"}
        for order in itertools.permutations(steps):
            rules = [Rule(1, ("w", start), (Literal(True, ("true", start)),)) for start in order]
            rules += [Rule(2, ("w", start), (Literal(True, ("w", end)),)) for start in order for end in steps[start]]
            found = self.unrolled(rules, 3)
            for state in (["1"], ["2"], ["3"], ["4"], []):
                self.compare(rules, found, state)

    def unrolled(self, rules, most):
        found, circles = rounds.unrolled(rules)
        self.assertEqual(rounds.circles(found), [])
        self.assertLessEqual(max(last for _, _, last in circles), most)
        return found

    def compare(self, rules, found, state):
        after = holds([sentence_of(rule) for rule in found], state, [])
        self.assertEqual({head for head in after if head[0] == "w"}, least(rules, state))


def least(rules, state):
    """Returns everything that rules without negations derive."""
    true, count = {("true", term) for term in state}, -1
    while len(true) > count:
        count = len(true)
        true |= {rule.head for rule in rules if all(literal.atom in true for literal in rule.body)}
    return {head for head in true if head[0] == "w"}


class Texts(unittest.TestCase):
    def test_refusals_say_which_sentence_makes_the_most(self):
        text = "(role r) (d 1) (d 2) (d 3) (<= (legal r (m ?a ?b)) (d ?a) (d ?b)) (init s)"
        with unittest.mock.patch.object(gringo, "MOST_INSTANCES", 5):
            self.assertRegex(str(raised(Refused, making.Making(text, 60, making.NEVER).run)), "^there are more than 5 ground rules; the most ground rules, ")
        for module, name, work in ((making, "all_rules", "reading it"), (limits, "without_high_goals", "putting them in order"), (rounds, "unrolled", "unrolling its cycles")):
            with unittest.mock.patch.object(module, name, lambda *_: signal.raise_signal(signal.SIGPROF)):
                self.assertRegex(str(raised(Refused, making.Making(text, 60, making.NEVER).run)), f"^stopped after 60 s, {work}(;|$)")
        with unittest.mock.patch.object(gringo.Grounder, "instances", side_effect=gringo.TooSlow("")):
            self.assertEqual(str(raised(Refused, making.Making(text, 60, making.NEVER).run)), "stopped after 60 s, finding the ground rules")

    def test_rounds_that_are_too_many_are_said(self):
        few = {"sentences": 100}
        with unittest.mock.patch.dict(limits.MOST, few), unittest.mock.patch.dict(limits.LARGE, few), contextlib.redirect_stderr(io.StringIO()):
            said = str(raised(Refused, making.Making((GAMES / "general/hex.kif").read_text(), 60, making.WHERE_NEEDED).run))
        self.assertTrue(said.startswith("nothing is written, because this exceeds the limit however it is factored: at least "), said)
        self.assertIn(" ground sentences, because 2 cycles of sentences are unrolled, the largest, of 25 sentences with (joined ", said)
        # There are more unrolled sentences than any sentence has ground rules.
        self.assertNotIn("the most ground rules", said)

    def test_few_instances_are_tried_first(self):
        text = "(role r) (d 1) (d 2) (d 3) (<= (legal r (m ?a ?b ?c)) (d ?a) (d ?b) (d ?c) (true s)) (init s)"
        text += "(<= (next s) (does r (m ?a ?b ?c)) (does r (m ?d ?b ?e)) (does r (m ?f ?g ?e)))"
        with contextlib.redirect_stderr(io.StringIO()):
            self.assertNotIn("split", making.Making(text, 60, making.WHERE_NEEDED).run())
        with contextlib.redirect_stderr(io.StringIO()), unittest.mock.patch.object(making, "FEW_INSTANCES", 20):
            self.assertTrue(making.Making(text, 60, making.WHERE_NEEDED).run().startswith("; split: "))
            self.assertNotIn("split", making.Making(text, 60, making.NEVER).run())
        # If the first form is far past a limit, no other form is tried.
        for most, is_split in ((6, False), (7, True)):
            with unittest.mock.patch.dict(limits.MOST, {"moves": most}), contextlib.redirect_stderr(io.StringIO()) as said:
                raised(Refused, making.Making(text, 60, making.WHERE_NEEDED).run)
            self.assertEqual("  split: " in said.getvalue(), is_split, most)
        # After a form that cannot be factored, a form with less than half as many ground rules is tried.
        few, hopeless = {"sentences": 500}, unittest.mock.Mock(side_effect=folding.Hopeless(""))
        with unittest.mock.patch.dict(limits.MOST, few), unittest.mock.patch.dict(limits.LARGE, few), unittest.mock.patch.object(folding, "folded", hopeless):
            self.assertTrue(making.Making(text, 60, making.WHERE_NEEDED).run().startswith("; split: "))
