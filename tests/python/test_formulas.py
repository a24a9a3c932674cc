"""Formulas over ground sentences are equivalent to the expressions that they are made from, in each state and for all moves. The size of a formula
is the length of its text."""

import itertools
import unittest

from ggp_tools.instantiating.formulas import FALSE, TRUE, Formulas
from ggp_tools.kif import levels, spelled
from hypothesis import assume, given, strategies as st

STATE = [("true", term) for term in ("a", "b", ("c", "d"))]
MOVES = {role: [("does", role, f"{role}{number}") for number in range(count)] for role, count in (("r", 4), ("s", 2), ("t", 1))}
# All combinations of a state and a joint move.
WORLDS = [
    frozenset(itertools.compress(STATE, chosen)) | frozenset(joint)
    for chosen in itertools.product((0, 1), repeat=len(STATE)) for joint in itertools.product(*MOVES.values())
]

# A formula as a tree: the number of an atom, or a node with subtrees.
TREES = st.recursive(st.integers(0, 9), lambda inner: st.tuples(st.sampled_from(("any", "all", "no")), st.lists(inner, min_size=1, max_size=4)), max_leaves=12)
SOME = st.lists(TREES, min_size=1, max_size=3)


def holds(expression, world):
    match expression:
        case ("true",) | ("not", ("false",)):
            return True
        case ("false",):
            return False
        case ("not", inner):
            return not holds(inner, world)
        case ("or", *inners):
            return any(holds(inner, world) for inner in inners)
    return expression in world


class OfFormulas(unittest.TestCase):
    def setUp(self):
        self.formulas = Formulas()
        self.formulas.set_moves(MOVES)
        self.atoms = [self.formulas.atom(atom) for atom in (*STATE, *itertools.chain(*MOVES.values()))]

    def worlds(self, number):
        """Returns the numbers of the worlds that make a formula true."""
        if number in (TRUE, FALSE):
            return frozenset(range(len(WORLDS))) if number == TRUE else frozenset()
        expression = self.formulas.expression(number)
        return frozenset(at for at, world in enumerate(WORLDS) if holds(expression, world))

    def made(self, tree):
        """Returns the formula of a tree."""
        if isinstance(tree, int):
            return self.atoms[tree]
        numbers = [self.made(inner) for inner in tree[1]]
        return self.formulas.no(numbers[0]) if tree[0] == "no" else getattr(self.formulas, tree[0])(numbers)

    @given(SOME)
    def test_any_all_and_none(self, trees):
        numbers = [self.made(tree) for tree in trees]
        ways = [self.worlds(number) for number in numbers]
        self.assertEqual(self.worlds(self.formulas.any(numbers)), frozenset().union(*ways))
        self.assertEqual(self.worlds(self.formulas.all(numbers)), ways[0].intersection(*ways))
        self.assertEqual(self.worlds(self.formulas.no(numbers[0])), frozenset(range(len(WORLDS))) - ways[0])

    def test_of_nothing(self):
        self.assertEqual((self.formulas.any([]), self.formulas.all([])), (FALSE, TRUE))
        self.assertEqual((self.formulas.no(TRUE), self.formulas.no(FALSE)), (FALSE, TRUE))
        one = self.atoms[0]
        self.assertEqual((self.formulas.any([one, TRUE]), self.formulas.any([FALSE, one]), self.formulas.any([one, self.formulas.no(one)])), (TRUE, one, TRUE))
        self.assertEqual((self.formulas.all([one, FALSE]), self.formulas.all([TRUE, one]), self.formulas.all([one, self.formulas.no(one)])), (FALSE, one, FALSE))

    @given(SOME)
    def test_each_formula_is_there_once_and_its_size_is_that_of_its_text(self, trees):
        self.formulas.any([self.made(tree) for tree in trees])
        texts = {}
        for number in range(2, len(self.formulas.nodes)):
            expression = self.formulas.expression(number)
            self.assertEqual((self.formulas.sizes[number], self.formulas.depths[number]), (len(spelled(expression)), levels(expression)), expression)
            self.assertNotIn(expression, texts)
            texts[expression] = number

    def test_formulas_that_stand_in_one_another(self):
        a, b, c = self.atoms[:3]
        any_of, no, expression = self.formulas.any, self.formulas.no, self.formulas.expression
        self.assertEqual((self.formulas.sizes[: FALSE + 1], self.formulas.depths[: FALSE + 1]), ([0, 0], [0, 0]))
        self.assertEqual(expression(any_of([any_of([a, b]), c])), ("or", *STATE))
        self.assertEqual([self.formulas.parts(number) for number in (no(any_of([a, b])), any_of([a, b]), no(a), a)], [[no(a), no(b)], [any_of([a, b])], [no(a)], [a]])
        self.assertEqual(self.formulas.body([no(any_of([a, b]))]), {no(a), no(b)})
        # Two expressions for the same move become one.
        *three, fourth = (self.formulas.atom(move) for move in MOVES["r"])
        twice = self.formulas.listed({fourth, no(any_of(three))})
        self.assertEqual((expression(twice)[0], self.formulas.shortest(twice)), ("or", fourth))

    def test_all_moves_of_a_role_together_are_true(self):
        for role, moves in MOVES.items():
            numbers = [self.formulas.atom(move) for move in moves]
            self.assertEqual((self.formulas.any(numbers), self.formulas.any([*numbers, self.atoms[0]])), (TRUE, TRUE), role)
            if len(moves) > 1:
                self.assertNotEqual(self.formulas.any(numbers[1:]), TRUE)
        mixed = [self.formulas.atom(moves[0]) for moves in (MOVES["r"], MOVES["s"])]
        self.assertEqual(self.formulas.expression(self.formulas.any(mixed)), ("or", MOVES["r"][0], MOVES["s"][0]))

    def test_what_speaks_of_one_role_s_moves_alone_allows_some(self):
        first, second, third, fourth = (self.formulas.atom(move) for move in MOVES["r"])
        other = self.formulas.atom(MOVES["s"][0])
        allowed, no, any_of = self.formulas.allowed, self.formulas.no, self.formulas.any
        self.assertEqual(allowed(first), ("r", {first}))
        self.assertEqual(allowed(any_of([first, third])), ("r", {first, third}))
        self.assertEqual(allowed(no(any_of([first, third]))), ("r", {second, fourth}))
        self.assertEqual([allowed(number) for number in (self.atoms[0], no(self.atoms[0]), any_of([first, other]), any_of([first, self.atoms[0]]))], [None] * 4)

    @given(SOME)
    def test_a_body_says_the_same_as_its_parts_together(self, trees):
        numbers = [self.made(tree) for tree in trees]
        ways = [self.worlds(number) for number in numbers]
        body = self.formulas.body(numbers)
        if body is None:
            self.assertEqual(ways[0].intersection(*ways), frozenset())
            return
        self.assertNotIn(TRUE, body)
        self.assertEqual(frozenset(range(len(WORLDS))).intersection(*map(self.worlds, body)), ways[0].intersection(*ways))
        roles = [allowed[0] for allowed in map(self.formulas.allowed, body) if allowed]
        self.assertEqual(len(roles), len(set(roles)), "of one role's moves there is one")

    def test_what_two_parts_leave_of_a_role_s_moves(self):
        first, second, third, fourth = (self.formulas.atom(move) for move in MOVES["r"])
        self.assertEqual(self.formulas.body([self.formulas.any([first, second]), self.formulas.any([second, third])]), {second})
        self.assertIsNone(self.formulas.body([first, second]))
        self.assertEqual(self.formulas.body([self.formulas.no(first), self.formulas.no(second)]), {self.formulas.any([third, fourth])})
        self.assertEqual(self.formulas.body([TRUE, self.formulas.atom(MOVES["t"][0])]), frozenset())
        self.assertIsNone(self.formulas.body([self.atoms[0], self.formulas.no(self.atoms[0])]))
        self.assertIsNone(self.formulas.body([FALSE, first]))

    @given(TREES)
    def test_the_shortest_says_the_same(self, tree):
        number = self.made(tree)
        assume(number not in (TRUE, FALSE))
        self.assertEqual(self.worlds(self.formulas.shortest(number)), self.worlds(number))

    def test_most_of_a_role_s_moves_are_told_by_the_few_others(self):
        first, second, third, _ = (self.formulas.atom(move) for move in MOVES["r"])
        most = self.formulas.any([first, second, third])
        self.assertEqual(self.formulas.expression(self.formulas.shortest(most)), ("not", MOVES["r"][3]))
        self.assertEqual(self.formulas.expression(self.formulas.shortest(self.formulas.no(most))), MOVES["r"][3])
        # If two of four alternatives are given, the unchanged formula is shorter.
        half = self.formulas.any([first, second])
        self.assertEqual(self.formulas.expression(self.formulas.shortest(half)), ("or", *MOVES["r"][:2]))
        beside = self.formulas.any([most, self.atoms[0]])
        self.assertEqual(self.formulas.expression(self.formulas.shortest(beside)), ("or", STATE[0], ("not", MOVES["r"][3])))
        self.assertEqual(self.formulas.shortest(self.atoms[0]), self.atoms[0])

    @given(TREES)
    def test_others_in_the_place_of_atoms(self, tree):
        number = self.made(tree)
        assume(number not in (TRUE, FALSE))
        by = {self.atoms[0]: self.formulas.all(self.atoms[1:3]), self.atoms[1]: FALSE, self.formulas.atom(MOVES["r"][0]): TRUE}

        def with_others(expression, world):
            places = {STATE[0]: holds(STATE[1], world) and holds(STATE[2], world), STATE[1]: False, MOVES["r"][0]: True}
            match expression:
                case ("not", inner):
                    return not with_others(inner, world)
                case ("or", *inners):
                    return any(with_others(inner, world) for inner in inners)
            return places.get(expression, expression in world)

        wanted = {at for at, world in enumerate(WORLDS) if with_others(self.formulas.expression(number), world)}
        self.assertEqual(self.worlds(self.formulas.replaced(number, by, True)), wanted)
        self.assertEqual(by[number], self.formulas.replaced(number, by, True))

    def test_a_renamed_formula_stands_as_it_does(self):
        one, other, third = self.atoms[:3]
        formula = self.formulas.no(self.formulas.any([one, self.formulas.no(self.formulas.any([other, third]))]))
        known = {one: third, other: self.atoms[3]}
        first, second = STATE[2], MOVES["r"][0]
        self.assertEqual(self.formulas.expression(self.formulas.replaced(formula, known, False)), ("not", ("or", first, ("not", ("or", second, first)))))
        self.assertEqual(self.formulas.replaced(third, known, False), third)
        # If two alternatives become one, the `or` disappears.
        self.assertEqual(self.formulas.replaced(self.formulas.any([one, other]), {one: third, other: third}, False), third)
