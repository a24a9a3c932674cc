"""Replays a record according to the published description, and checks the roles, states, moves, errors, end and goals of the record."""

import functools
from collections.abc import Callable, Sequence

from ggp_tools.kif import Relation, fits, place, quoted, spelled
from ggp_tools.records.record import ABORTED, COMPLETED, ERRORS, NoRecord, checked_record, parsed

from .game import Game
from .positions import Position, State
from .reading import GOAL, INIT, LEGAL, NEXT, TERMINAL, NotFollowed, Term, term_of

# At most this many differences of each kind are reported.
MOST_TOLD = 5
ILLEGAL = "IL "


class Differs(Exception):
    """The record differs from the description. The message has a line for each difference."""


def read_record(line: bytes | str) -> dict:
    """Parses a record. Refuses a text that is not a record."""
    record = checked_record(parsed(line))
    phase, cause, goals, marks = record["phase"], record["cause"], record["goalValues"], record["startMarks"]
    if not all(error in ERRORS or error.startswith(ILLEGAL) for turn in record["errors"] for error in turn):
        raise NoRecord("errors has a text that is not an error")
    if (phase in ABORTED) != (cause is not None):
        raise NoRecord("its cause does not fit its phase")
    if None in marks and (record["moves"] or phase != "starting" and cause != "asked") or phase == "starting" and None not in marks:
        raise NoRecord("startMarks do not fit its phase")
    if len(goals) != (len(record["roles"]) if phase in COMPLETED else 0):
        raise NoRecord("goalValues do not fit its phase")
    return record


def canonical_term(text: str) -> Term:
    """Parses a term, which must be in canonical form."""
    term = term_of(text)
    if spelled(term) != text:
        raise NotFollowed(f"it is not a record: `{quoted(text)}` is not canonical text")
    return term


class Following:
    """The game, with caches of terms and their texts. For each role and move, `seen` has the number of the first sentence that has derived
    the move so far."""

    def __init__(self, game: Game) -> None:
        self.game, self.seen, self.in_order = game, {}, list(game.roles)
        self.text, self.term = functools.cache(spelled), functools.cache(canonical_term)

    def follow(self, record: dict) -> int:
        """Checks a whole record, and returns its number of turns."""
        self.look_at_roles(record["roles"])
        state = self.game.initial
        self.look_at_state("the first state", state, record["states"][0], lambda term: self.cited(INIT, (term,), frozenset()))
        self.game.compile()
        for turn, (moves, errors) in enumerate(zip(record["moves"], record["errors"])):
            state = self.turn(f"turn {turn + 1}", state, moves, errors, record["states"][turn + 1])
        self.look_at_end(record, state)
        return len(record["moves"])

    # ---- Roles and states ------------------------------------------------------------------------

    def look_at_roles(self, roles: list[str]) -> None:
        own = list(map(self.text, self.game.roles))
        # Roles that a rule derives have no order in the description.
        if own != roles and (self.game.has_fixed_order or sorted(own) != sorted(roles)):
            raise Differs(f"the roles are {' '.join(map(quoted, own))} in the description, but {' '.join(map(quoted, roles))} in the record")
        self.in_order = list(map(self.term, roles))

    def look_at_state(self, when: str, state: State, texts: list[str], cited: Callable) -> None:
        """Checks that `texts`, a state of the record, has exactly the terms of `state`."""
        own = {self.text(term): term for term in state}
        if own.keys() == set(texts) and len(texts) == len(own):
            return
        lines = [f"{when} lacks {quoted(text)}, which {cited(own[text])}" for text in sorted(own.keys() - set(texts))[:MOST_TOLD]]
        more = sorted(set(texts) - own.keys())[:MOST_TOLD]
        lines += [f"{when} has {quoted(text)}, which no sentence of the description gives" for text in more]
        raise Differs("\n".join(lines or [f"{when} contains a term twice"]))

    def cited(self, relation: Relation, arguments: Sequence[Term], state: State, moves: Sequence[Term] = ()) -> str:
        """Returns the beginning of a clause that cites the sentences that derive an atomic sentence in a state, such as `sentence 3
        gives`."""
        numbers = self.game.sources(relation, arguments, state, self.own_order(moves))
        return " and ".join(f"{self.game.cited(number)} gives" for number in numbers[:MOST_TOLD]) or "the description gives"

    def own_order(self, moves: Sequence[Term]) -> Sequence[Term]:
        """Returns the moves in the order of the game's roles."""
        by_role = dict(zip(self.in_order, moves))
        return tuple(by_role[role] for role in self.game.roles) if moves else ()

    # ---- Turns -----------------------------------------------------------------------------------

    def turn(self, when: str, state: State, texts: list[str], errors: list[str], following: list[str]) -> State:
        """Checks one turn. Returns the state after it."""
        moves = list(map(self.term, texts))
        position = self.game.position(state, self.own_order(moves))
        if self.game.is_over(position):
            raise Differs(f"{when} was played, but the match had ended before it: {self.cited(TERMINAL, (), state)} `terminal`")
        for role, move, error in zip(self.in_order, moves, errors):
            self.look_at_move(f"{when}, {quoted(role)}", position, role, move, error)
        after = frozenset(self.game.following(position))
        self.look_at_state(f"after {when} the record", after, following, lambda term: self.cited(NEXT, (term,), state, moves))
        return after

    def look_at_move(self, when: str, position: Position, role: str, move: Term, error: str) -> None:
        """Checks that a move is legal. If it replaces an illegal answer, the answer must be illegal according to the description. If it
        replaces any answer, it must be the first legal move."""
        if not self.game.is_legal(position, role, move):
            raise Differs(f"{when}: the record plays {quoted(move)}, which is not legal according to the description")
        if error.startswith(ILLEGAL):
            # The `?` of an answer that is not one expression is never legal.
            answer = self.term(error.removeprefix(ILLEGAL))
            if self.game.is_legal(position, role, answer):
                sources = self.cited(LEGAL, (role, answer), position.state)
                raise Differs(f"{when}: the answer {quoted(answer)} was counted as illegal, but {sources} it")
        if error:
            self.look_at_first(when, position, role, move)

    def look_at_first(self, when: str, position: Position, role: str, first: Term) -> None:
        """Checks that a move that replaces an answer can be the first legal one. Moves are ordered by the sentence that derives them, then
        by head. If several sentences derive a move, its place in this order may be unknown."""
        least = self.least_place(role, first)
        for move in self.game.moves(position, role):
            greatest = self.greatest_place(position, role, move)
            if greatest < least:
                words = f"the record plays {quoted(first)} instead of an answer, but {quoted(move)} comes before it"
                raise Differs(f"{when}: {words}, by {self.game.cited(greatest[0])}")

    def least_place(self, role: str, move: Term) -> tuple[int, tuple]:
        """Returns the earliest possible place of a move: the place of the first sentence that could derive the move in some state."""
        by_sentence = self.game.by_sentence(LEGAL).items()
        return next(number for number, rules in by_sentence if any(fits(rule.arguments, (role, move), {}) for rule in rules)), place(move)

    def greatest_place(self, position: Position, role: str, move: Term) -> tuple[int, tuple]:
        """Returns the latest possible place of a move: the place of the first sentence that has derived the move so far."""
        numbers = self.game.sources(LEGAL, (role, move), position.state)
        first = min([*numbers, self.seen.get((role, move), numbers[0])])
        self.seen[role, move] = first
        return first, place(move)

    # ---- The end ---------------------------------------------------------------------------------

    def look_at_end(self, record: dict, state: State) -> None:
        if None in record.get("startMarks", ()):
            return
        position, (kind, *at) = self.game.position(state), (record.get("cause") or "none").split()
        is_at_end = record["phase"] in COMPLETED or kind == "nogoal"
        is_over = self.game.is_over(position)
        if is_at_end and not is_over:
            raise Differs("the match ends by the rules in the record, but not in the description: no sentence gives `terminal`")
        if not is_at_end and is_over:
            raise Differs(f"the match goes on in the record, but has ended in the description: {self.cited(TERMINAL, (), state)} `terminal`")
        if kind == "nogoal":
            self.look_at_missing_goal(position, int(at[0]))
        elif is_at_end:
            for role, value in zip(self.in_order, record["goalValues"]):
                self.look_at_goal(position, role, value)
        elif kind != "toolong":
            self.look_at_legal(position, int(at[0]) if kind == "nolegal" else None)

    def look_at_goal(self, position: Position, role: str, value: int) -> None:
        goals = self.game.goals(position, role)
        if goals != [value]:
            reasons = [f"{self.cited(GOAL, (role, str(goal)), position.state)} {goal}" for goal in goals]
            raise Differs(f"{quoted(role)} has the goal value {value} in the record, but according to the description {'; '.join(reasons) or 'none'}")

    def look_at_missing_goal(self, position: Position, at: int) -> None:
        """If the goals of a role ended the match, checks that this role is the first one without exactly one goal."""
        counts = [len(self.game.goals(position, role)) for role in self.in_order]
        without = next((place for place, count in enumerate(counts) if count != 1), None)
        if without != at:
            words = "there is no such role" if without is None else f"{quoted(self.in_order[without])} is the first such role"
            why = f"the match was given up because {quoted(self.in_order[at])} does not have exactly one goal"
            raise Differs(f"{why}, but according to the description {words}")

    def look_at_legal(self, position: Position, at: int | None) -> None:
        """Checks which role had no legal move in the turn that ended the match. `at` is the number of the role in the record, or None."""
        without = next((place for place, role in enumerate(self.in_order) if not self.game.moves(position, role)), None)
        if without != at:
            stuck, recorded = ("none" if place is None else quoted(self.in_order[place]) for place in (without, at))
            raise Differs(f"the role without a legal move after the last turn is {recorded} in the record, but {stuck} in the description")
