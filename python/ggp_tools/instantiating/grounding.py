"""Computes the ground rules of a game from the grounder's instances."""

from collections.abc import Iterable, Sequence
from operator import attrgetter

from ggp_tools.kif import Expression, grouped, place, put, relation
from ggp_tools.gdl import GAME, Body, Literal, Rule, reached

# The rules to ground. Each has the list of its variables, whose values are the terms of an instance.
Kept = Sequence[tuple[Rule, Sequence[str]]]
# The number of a rule, and the terms of the instance.
Instance = tuple[int, Sequence[Expression]]


def ground(kept: Kept, instances: Iterable[Instance]) -> list[Rule]:
    """Returns the instances of the rules, without negations of sentences that are never true."""
    rules, literals = [], {}
    for number, terms in instances:
        rule, names = kept[number]
        values = dict(zip(names, terms))
        body = []
        for condition in rule.body:
            literal = Literal(condition.positive, put(condition.atom, values))
            body.append(literals.setdefault(literal, literal))
        rules.append(Rule(rule.sentence, put(rule.head, values), tuple(body)))
    can_be = possible(rules)
    return [Rule(rule.sentence, rule.head, shortened(rule.body, can_be)) for rule in rules]


def possible(rules: list[Rule]) -> set[Expression]:
    """Returns the sentences that can be true in some state with some moves."""
    sentences = {rule.head for rule in rules}
    for head in list(sentences):
        match head:
            case ("init", term) | ("next", term):
                sentences.add(("true", term))
            case ("legal", role, move) if ("role", role) in sentences:
                sentences.add(("does", role, move))
    return sentences


def shortened(body: Body, can_be: set[Expression]) -> Body | None:
    return tuple(dict.fromkeys(literal for literal in body if literal.positive or literal.atom in can_be))


def needed(rules: list[Rule]) -> list[Rule]:
    """Returns the rules of the game's own relations, and the rules that these depend on."""
    asks = {head: [literal.atom for rule in of_head for literal in rule.body] for head, of_head in grouped(rules, attrgetter("head")).items()}
    own = [head for head in asks if relation(head)[0] in GAME]
    heads = {*own, *reached(asks, own)}
    return [rule for rule in rules if rule.head in heads]


def in_order(rules: list[Rule]) -> list[Rule]:
    """Returns the rules in the order of the output, without duplicates."""
    atoms = {atom for rule in rules for atom in rule.atoms()}
    ranks = {atom: rank for rank, atom in enumerate(sorted(atoms, key=place))}
    rules = sorted(rules, key=lambda rule: (rule.sentence, ranks[rule.head], [(ranks[literal.atom], literal.positive) for literal in rule.body]))
    unique = {}
    for rule in rules:
        unique.setdefault((rule.head, rule.body), rule)
    return list(unique.values())


def sentence_of(rule: Rule) -> Expression:
    if not rule.body:
        return rule.head
    return ("<=", rule.head, *(literal.atom if literal.positive else ("not", literal.atom) for literal in rule.body))
