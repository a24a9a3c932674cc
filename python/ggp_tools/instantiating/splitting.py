"""Splits rules that join independent parts before they are grounded.

The number of ground rules of a rule may be as large as the product of the numbers of values of all its variables. A part of the body that
shares only a few variables with the rest and the head becomes an auxiliary relation over these variables (`split1`, `split2` ..). Then the
product becomes a sum of smaller products. The meaning is the same, because the other variables of the part occur nowhere else. Relations
that depend on themselves are not split."""

import itertools
from operator import attrgetter
from typing import NamedTuple

from ggp_tools.kif import DIGITS, applied, atoms, fresh, put, relation, variables
from ggp_tools.gdl import Literal, Relations, Rule

# Bodies with more literals have too many parts to try all of them. Rules with fewer variables have no parts to split off.
MOST_LITERALS, FEW_VARIABLES = 13, 3


class Part(NamedTuple):
    """A split of a body: the indices of the literals that move to a new relation, the indices of the others, and the variables that both
    share."""

    cost: tuple
    inside: tuple
    outside: tuple
    shared: frozenset


def split(rules: list[Rule]) -> list[Rule]:
    """Splits off all parts that reduce the number of variables of a rule. Returns the resulting rules."""
    circular = Relations(rules).circular
    word = fresh("split", {name for rule in rules for name in atoms(rule.atoms())}, DIGITS)
    splitting = Splitting(word)
    for rule in rules:
        if relation(rule.head) in circular:
            splitting.rules.append(rule)
        else:
            splitting.add(rule)
    return splitting.rules


class Splitting:
    """The rules so far, and the relation of each part."""

    def __init__(self, word: str) -> None:
        self.word, self.rules, self.relations = word, [], {}

    def add(self, rule: Rule) -> None:
        part = best_part(rule)
        if not part:
            self.rules.append(rule)
            return
        literal = self.relation_of(rule.sentence, [rule.body[at] for at in part.inside], part.shared)
        self.add(Rule(rule.sentence, rule.head, (*(rule.body[at] for at in part.outside), literal)))

    def relation_of(self, sentence: int, body: list[Literal], shared: frozenset[str]) -> Literal:
        """Returns the literal that replaces a part. Parts that differ only in the names of variables share one relation."""
        names = dict.fromkeys(name for literal in body for name in variables(literal.atom))
        canonical = {name: f"?{count}" for count, name in enumerate(names)}
        key = tuple(literal._replace(atom=put(literal.atom, canonical)) for literal in body), tuple(canonical[name] for name in names if name in shared)
        if key not in self.relations:
            self.relations[key] = f"{self.word}{len(self.relations) + 1}"
            self.add(Rule(sentence, applied(self.relations[key], key[1]), key[0]))
        return Literal(True, applied(self.relations[key], [name for name in names if name in shared]))


def best_part(rule: Rule) -> Part | None:
    """Returns the part whose split leaves the fewest variables in the larger of the two rules, or None if no split reduces their number."""
    named = [frozenset(variables(literal.atom)) for literal in rule.body]
    binding = [them if literal.positive and not literal.same else frozenset() for literal, them in zip(rule.body, named)]
    head, count = frozenset(variables(rule.head)), len(rule.body)
    every = head.union(*named)
    if count > MOST_LITERALS or len(every) < FEW_VARIABLES:
        return None
    sides = itertools.chain.from_iterable(itertools.combinations(range(count), size) for size in range(1, count))
    parts = (part_of(inside, head, named, binding) for inside in sides)
    return min((part for part in parts if part and part.cost[0] < len(every)), key=attrgetter("cost"), default=None)


def part_of(inside: tuple[int, ...], head: frozenset[str], named: list[frozenset[str]], binding: list[frozenset[str]]) -> Part | None:
    """Returns the part with these literals, or None if a variable would be unbound in the part, or if the split gains nothing. No variable of
    the rest is unbound, because the rest and the part share the variables that occur in both."""
    outside = tuple(at for at in range(len(named)) if at not in inside)
    inner, outer = frozenset().union(*(named[at] for at in inside)), head.union(*(named[at] for at in outside))
    shared = inner & outer
    if shared == inner or not inner <= frozenset().union(*(binding[at] for at in inside)):
        return None
    return Part((max(len(inner), len(outer)), len(inner) + len(outer), len(shared)), inside, outside, shared)
