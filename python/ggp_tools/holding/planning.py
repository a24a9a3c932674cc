"""Orders the conditions of a rule: tests first, then the conditions with the fewest answers."""

import math
from collections.abc import Collection, Container, Iterable, Mapping, Sequence
from typing import NamedTuple

from ggp_tools.kif import Relation, is_variable, variables

from .positions import functor_of
from .reading import DOES, TRUE, Asked, Condition, Rule, Term, variables_of
from .relations import Relations

# The assumed number of values of an argument whose relation has no rows yet, and the maximum of an estimate.
FEW, MOST = 3.0, 1e6
# If a state has more than GROWTH times as many terms as the plan assumes, the rules are planned again.
GROWTH, LEAST = 4, 2


class Table(NamedTuple):
    """The number of rows of a relation, and the number of values of each argument."""

    rows: float
    values: Sequence[float]

    def answers(self, arguments: Sequence[Term], bound: Container[str]) -> float:
        """Returns the average number of rows that match the arguments if the variables in `bound` are bound."""
        rows = self.rows
        for argument, values in zip(arguments, self.values):
            if is_known(argument, bound):
                rows /= max(1.0, values)
        return rows


def counted(rows: Collection[Sequence[Term]]) -> Table:
    return Table(float(len(rows)), [float(len(set(column))) for column in zip(*rows)])


def unknown(arguments: int) -> Table:
    return Table(FEW ** arguments, [FEW] * arguments)


class Sizes:
    """Estimates the number of answers of conditions. The estimate uses the facts, and the numbers of terms with each functor in the states
    so far."""

    def __init__(self, relations: Relations, roles: int, terms: Mapping[Relation, Collection[Term]]) -> None:
        self.relations, self.terms, self.tables = relations, terms, {}
        self.moves = Table(max(1.0, roles), [max(1.0, roles), FEW])
        self.all_terms = float(sum(map(len, terms.values())) or FEW)

    def after(self, terms: Mapping[Relation, Collection[Term]]) -> "Sizes | None":
        """If a state has many more terms with some functor than earlier states, returns sizes that include this state. Otherwise returns
        None."""
        if all(len(rows) <= GROWTH * max(LEAST, len(self.terms.get(functor, ()))) for functor, rows in terms.items()):
            return None
        larger = {functor: rows for functor, rows in terms.items() if len(rows) > len(self.terms.get(functor, ()))}
        return Sizes(self.relations, int(self.moves.rows), {**self.terms, **larger})

    def answers(self, condition: Asked, bound: Container[str]) -> float:
        """Returns how many answers a condition has if the variables in `bound` are bound."""
        arguments, table = self.table(condition)
        return table.answers(arguments, bound)

    def table(self, condition: Asked) -> tuple[Sequence[Term], Table]:
        """Returns the arguments of a condition, and the table for them. If the relation is `true`, returns the arguments of the term in the
        condition."""
        relation, arguments = condition.relation, condition.arguments
        if relation == DOES:
            return arguments, self.moves
        if relation != TRUE:
            if relation not in self.tables:
                self.tables[relation] = self.derived(relation)
            return arguments, self.tables[relation]
        pattern = arguments[0]
        if is_variable(pattern):
            return arguments, Table(self.all_terms, [self.all_terms])
        functor = functor_of(pattern)
        if (TRUE, functor) not in self.tables:
            rows, count = self.terms.get(functor, ()), max(0, functor[1] - 1)
            self.tables[TRUE, functor] = counted([row[1:] for row in rows]) if rows and count else unknown(count)
        return pattern[1:] if functor[1] else (), self.tables[TRUE, functor]

    def derived(self, relation: Relation) -> Table:
        """Estimates the table of a relation from its facts and rules."""
        facts = counted(self.relations.facts.get(relation, ()))
        rules = self.relations.rules.get(relation, ())
        if not rules:
            return facts
        # The assumption for a relation that depends on itself.
        self.tables[relation] = unknown(relation[1] or 0)
        joined = [(rule, *self.joined(rule.body)) for rule in rules]
        rows = max(1.0, min(MOST, facts.rows + sum(count for _, count, _ in joined)))
        columns = facts.values or [0.0] * (relation[1] or 0)
        return Table(rows, [min(rows, max(column, values_at(place, joined))) for place, column in enumerate(columns)])

    def joined(self, body: Iterable[Condition]) -> tuple[float, dict[str, float]]:
        """Estimates how many ways there are to satisfy all conditions, and how many values each variable has."""
        count, values, left = 1.0, {}, [condition for condition in body if isinstance(condition, Asked) and condition.positive]
        while left:
            best = min(left, key=lambda condition: self.answers(condition, values))
            left.remove(best)
            arguments, table = self.table(best)
            count = min(MOST, count * max(0.5, table.answers(arguments, values)))
            for argument, number in zip(arguments, table.values):
                for name in variables(argument):
                    values[name] = min(number, values.get(name, number))
        return count, values


def values_at(place: int, joined: Iterable[tuple[Rule, float, Mapping[str, float]]]) -> float:
    """Estimates from the rules of a relation how many values an argument has: the maximum over the rules with variables in this argument,
    or the number of different arguments without variables, if that is greater."""
    most, constants = 1.0, set()
    for rule, _, values in joined:
        argument = rule.arguments[place]
        if names := variables(argument):
            most = max(most, math.prod(values[name] for name in names))
        else:
            constants.add(argument)
    return max(most, float(len(constants)))


def is_known(term: Term, bound: Container[str]) -> bool:
    if isinstance(term, str):
        return term in bound or not term.startswith("?")
    return all(is_known(part, bound) for part in term)


def is_test(condition: Condition, bound: Container[str]) -> bool:
    return all(name in bound for name in variables_of(condition))
