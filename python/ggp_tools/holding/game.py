"""Interprets a game description: computes its first state and, for each state, the legal moves, the next state, the end and the goals."""

import re
from collections.abc import Sequence
from operator import attrgetter

from ggp_tools import gdl
from ggp_tools.kif import Relation, expressions, grouped, has_variables

from .compiling import Program
from .planning import Sizes
from .positions import Position, State, functor_of
from .reading import GOAL, INIT, LEGAL, NEXT, ROLE, TERMINAL, Rule, Term, one_by_one, rules_of, with_relations
from .relations import Relations

GOAL_NUMBER = re.compile(r"0|[1-9][0-9]?|100")
# The interpreter evaluates nested rules with nested calls, up to this depth.
MOST_CALLS = 20_000


class Game:
    """Interprets a description. A state is a set of terms. For ground GDL, legal moves are in the order of its rules."""

    def __init__(self, text: str, takes_bytes: bool = False) -> None:
        self.text, self.is_ground = text, not has_variables(text)
        self.sentences = [gdl.as_read(sentence) for sentence in expressions(text, takes_bytes=takes_bytes)]
        self.rules = gdl.all_rules(self.sentences, rules_of)
        if self.is_ground:
            self.rules = one_by_one(self.rules)
        relations = Relations(with_relations(self.rules) if self.is_ground else self.rules)
        self.program, self.roles, self.kept, self.lines = Program(relations, Sizes(relations, 0, {})), (), (None, None), []
        empty = self.position(frozenset())
        self.initial, self.roles = frozenset(empty.ask(INIT, (False,))(empty)), empty.ask(ROLE, (False,))(empty)
        self.has_fixed_order = ROLE not in relations.rules
        self.program = Program(relations, Sizes(relations, len(self.roles), grouped(self.initial, functor_of)))
        heads = [rule.arguments for rule in self.rules if rule.relation == LEGAL] if self.is_ground else []
        self.ranks = {head: rank for rank, head in enumerate(dict.fromkeys(heads))}

    def position(self, state: State, moves: Sequence[Term] = ()) -> Position:
        """Returns the position of a state, with a move of each role if `moves` are given. If a state has many more terms than earlier
        states, the rules are planned again."""
        rows = grouped(state, functor_of)
        if not self.is_ground and (sizes := self.program.sizes.after(rows)):
            self.program = Program(self.program.relations, sizes)
        return self.program.position(state, list(zip(self.roles, moves)), rows)

    def compile(self) -> None:
        """Compiles the functions that each turn uses before the first turn, so that the first turn does not take longer than the others."""
        for relation, known in ((TERMINAL, ()), (LEGAL, (True, True)), (NEXT, (False,))):
            self.program.function(relation, known)

    def following(self, position: Position) -> list[Term]:
        """Returns the terms of the next state, after the moves of a position."""
        return position.ask(NEXT, (False,))(position)

    def is_legal(self, position: Position, role: Term, move: Term) -> bool:
        return position.ask(LEGAL, (True, True))(position, role, move)

    def moves(self, position: Position, role: Term) -> list[Term]:
        moves = position.ask(LEGAL, (True, False))(position, role)
        return sorted(moves, key=lambda move: self.ranks[role, move]) if self.ranks else moves

    def is_over(self, position: Position) -> bool:
        return position.ask(TERMINAL, ())(position)

    def goals(self, position: Position, role: Term) -> list[int]:
        """Returns the goals of a role that are numbers from 0 to 100."""
        return sorted({int(goal) for goal in self.goal_terms(position, role) if isinstance(goal, str) and GOAL_NUMBER.fullmatch(goal)})

    def goal(self, position: Position, role: Term) -> int | None:
        """Returns the goal of a role, or None if it does not have exactly one."""
        values = self.goals(position, role)
        return values[0] if len(values) == 1 else None

    def goal_terms(self, position: Position, role: Term) -> list[Term]:
        """Returns all goals of a role, including invalid ones."""
        return position.ask(GOAL, (True, False))(position, role)

    def sources(self, relation: Relation, arguments: Sequence[Term], state: State, moves: Sequence[Term] = ()) -> list[int]:
        """Returns the numbers of the sentences that derive an atomic sentence in a state."""
        relations_by_sentence = {number: self.set_apart(relation, number, rules) for number, rules in self.by_sentence(relation).items()}
        if self.kept[0] != (state, moves):
            self.kept = (state, moves), self.position(state, moves)
        position, known = self.kept[1], (True,) * len(arguments)
        return [number for number, apart in relations_by_sentence.items() if position.ask(apart, known)(position, *arguments)]

    def by_sentence(self, relation: Relation) -> dict[int, list[Rule]]:
        """Returns the rules of a relation by their sentences."""
        return grouped((rule for rule in self.rules if rule.relation == relation), attrgetter("sentence"))

    def set_apart(self, relation: Relation, number: int, rules: list[Rule]) -> Relation:
        """Returns a relation that has only the rules of one sentence."""
        separate, relations = (f"{relation[0]} by sentence {number}", relation[1]), self.program.relations
        if separate not in relations.facts:
            relations.facts[separate] = {rule.arguments: None for rule in rules if not rule.body}
            if any(rule.body for rule in rules):
                relations.rules[separate] = [rule for rule in rules if rule.body]
                relations.timely.add(separate)
        return separate

    def cited(self, number: int) -> str:
        self.lines = self.lines or gdl.lines_of(self.text)
        return gdl.cited(number, self.sentences, self.lines)
