"""Parses the rules of a description for the interpreter.

The classes below are the conditions of rules. Only `Asked` and `Same` can be negated. If an `or` stays a condition, other conditions of the
rule bind all of its variables. In ground GDL, each atomic sentence becomes a relation."""

from collections.abc import Iterator
from functools import lru_cache
from typing import NamedTuple

from ggp_tools import gdl
from ggp_tools.kif import MOST_LEVELS, Expression, Refused, arguments_of, expressions, levels, relation, variables

Term = Expression
TRUE, DOES, INIT, NEXT = ("true", 1), ("does", 2), ("init", 1), ("next", 1)
LEGAL, GOAL, ROLE, TERMINAL = ("legal", 2), ("goal", 2), ("role", 1), ("terminal", None)
OWN = (INIT, NEXT, LEGAL, GOAL, ROLE, TERMINAL)


class NotFollowed(Refused):
    """The reason why a record could not be checked. It shows nothing about the game."""


class Asked(NamedTuple):
    """The condition that a sentence of a relation is true, or that it is not true."""

    positive: bool
    relation: tuple
    arguments: tuple


class Same(NamedTuple):
    """The condition that two terms are equal, or that they are not equal."""

    positive: bool
    arguments: tuple


class Either(NamedTuple):
    """The condition that at least one of several lists of conditions holds."""

    ways: tuple


Condition = Asked | Same | Either


class Rule(NamedTuple):
    """A rule: if all conditions of the body hold, the sentence of the relation with these arguments is true."""

    sentence: int
    relation: tuple
    arguments: tuple
    body: tuple


def term_of(text: str) -> Term:
    """Parses a move or a term of a state."""
    parsed = expressions(text)
    if len(parsed) != 1:
        raise NotFollowed("it is not a record: a text of it is not one term")
    return parsed[0]


def low(term: Term) -> Term:
    """Returns the term. Refuses a term that is nested more deeply than the referee allows, for example because a rule has infinitely many
    instances."""
    if levels(term) > MOST_LEVELS:
        raise NotFollowed(f"a term is nested more than {MOST_LEVELS} lists deep")
    return term


def is_built(term: Term) -> bool:
    """Returns whether a term is a list that contains variables."""
    return not isinstance(term, str) and bool(variables(term))


@lru_cache
def variables_of(condition: Condition) -> dict[str, None]:
    """Returns the variables of a condition."""
    if isinstance(condition, Either):
        return {name: None for way in condition.ways for inner in way for name in variables_of(inner)}
    return dict.fromkeys(variables(condition.arguments))


def condition_of(literal: gdl.Literal) -> Condition:
    if literal.same:
        return Same(literal.positive, literal.atom)
    return Asked(literal.positive, relation(literal.atom), arguments_of(literal.atom))


def tests_of(literal: Expression, positive: bool = True) -> list[Condition]:
    """Returns conditions that together are equivalent to a literal, or to the negation of the literal. An `or` stays one condition."""
    match literal:
        case ("not", inner):
            return tests_of(inner, not positive)
        case ("or" | "and", *inners):
            ways = [tuple(tests_of(inner, positive)) for inner in inners]
            return [condition for way in ways for condition in way] if (literal[0] == "and") == positive else [Either(tuple(ways))]
    return [condition_of(literal) for literal in gdl.ways_of(literal, positive)[0]]


def rules_of(number: int, sentence: Expression, names: Iterator[str]) -> list[Rule]:
    """Returns the rules of a sentence. An `or` whose variables are bound by other conditions becomes one condition. Any other `or` becomes one rule
    for each of its alternatives."""
    head, body = gdl.parted(sentence)
    bound = {name for literal in body if literal[0] not in gdl.NO_RELATIONS for name in variables(literal)}
    tested = {literal: None for literal in body if literal[0] in ("or", "and", "not") and bound.issuperset(variables(literal))}
    others = [literal for literal in body if literal not in tested]
    tests = [condition for literal in tested for condition in tests_of(literal)]
    expanded = gdl.rules_of(number, ("<=", head, *others), names)
    extra = [tests if rule.head == head else [] for rule in expanded]
    return [
        Rule(number, relation(rule.head), arguments_of(rule.head), (*map(condition_of, rule.body), *more)) for rule, more in zip(expanded, extra)
    ]


def one_by_one(rules: list[Rule]) -> list[Rule]:
    """Turns each atomic sentence in the conditions of ground GDL into a relation."""
    return [rule._replace(body=tuple(map(alone, rule.body))) for rule in rules]


def with_relations(rules: list[Rule]) -> list[Rule]:
    """Returns the rules of the game's own relations, and the rules of the atomic sentences that became relations."""
    asked, made = {condition.relation for rule in rules for condition in all_asked(rule.body)}, []
    for rule in rules:
        separate = alone(Asked(True, rule.relation, rule.arguments)).relation
        if rule.relation in OWN:
            made.append(rule)
        if separate in asked and separate not in OWN:
            made.append(rule._replace(relation=separate, arguments=()))
    return made


def alone(condition: Condition) -> Condition:
    """Turns each atomic sentence of a condition into a relation without arguments."""
    if isinstance(condition, Either):
        return Either(tuple(tuple(map(alone, way)) for way in condition.ways))
    if isinstance(condition, Same) or condition.relation in (TRUE, DOES) or not condition.arguments:
        return condition
    return Asked(condition.positive, ((condition.relation[0], *condition.arguments), None), ())


def all_asked(conditions: tuple[Condition, ...]) -> Iterator[Asked]:
    """Yields the sentences in conditions."""
    for condition in conditions:
        if isinstance(condition, Asked):
            yield condition
        elif isinstance(condition, Either):
            for way in condition.ways:
                yield from all_asked(way)
