"""Classifies relations: finds their facts and rules, and which of them depend on the state, on moves, or on themselves."""

from collections.abc import Iterator

from ggp_tools import gdl
from ggp_tools.kif import Relation

from .reading import DOES, TRUE, Either, Rule, all_asked


class Relations:
    """The relations of a description. Facts are the arguments of sentences without conditions."""

    def __init__(self, rules: list[Rule]) -> None:
        self.facts, self.rules = {}, {}
        for rule in rules:
            if rule.body:
                self.rules.setdefault(rule.relation, []).append(rule)
            else:
                self.facts.setdefault(rule.relation, {})[rule.arguments] = None
        self.asks = {relation: dict.fromkeys(asked.relation for rule in rules for asked in all_asked(rule.body)) for relation, rules in self.rules.items()}
        gdl.refuse_dependence(self.asks, self.source)
        self.circles, self.denying = {}, set()
        self.timely = {TRUE, DOES}
        # The number of the cache of each function, and the caches of the results that do not depend on the state.
        self.tables, self.fixed = {}, {}
        for group in gdl.components(self.asks):
            self.take(set(group))

    def source(self, head: Relation, asked: Relation) -> int:
        """Returns the first sentence where one relation uses another."""
        return next(rule.sentence for rule in self.rules[head] if any(condition.relation == asked for condition in all_asked(rule.body)))

    def take(self, group: set[Relation]) -> None:
        """Classifies relations that depend on each other. All other relations that these relations use have already been classified."""
        if any(asked in self.timely for relation in group for asked in self.asks[relation]):
            self.timely |= group
        if not group & self.asks[next(iter(group))].keys():
            return
        denied = {asked.relation for relation in group for rule in self.rules[relation] for asked in all_asked(rule.body) if not asked.positive}
        if denied & group:
            self.denying |= group
            return
        self.circles.update(dict.fromkeys(group, tuple(sorted(group, key=repr))))
        for relation in group:
            self.rules[relation] = [plain for rule in self.rules[relation] for plain in without_or(rule, group)]


def without_or(rule: Rule, group: set[Relation]) -> Iterator[Rule]:
    """Yields equivalent rules without an `or` that uses a relation of `group`."""
    for index, condition in enumerate(rule.body):
        if isinstance(condition, Either) and any(asked.relation in group for asked in all_asked((condition,))):
            for way in condition.ways:
                yield from without_or(rule._replace(body=(*rule.body[:index], *way, *rule.body[index + 1 :])), group)
            return
    yield rule
