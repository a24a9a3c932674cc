"""Reports the goal values of a role in a state, and the sentences that derive them."""

from collections.abc import Sequence

from ggp_tools.holding.game import GOAL_NUMBER, Game
from ggp_tools.holding.reading import GOAL, term_of
from ggp_tools.kif import Refused, quoted, spelled

MOST_NAMED = 3


def goals_said(text: str, role: str, terms: Sequence[str]) -> str:
    """Describes the goal values of a role in a state, and the sentences that derive each value. If the description cannot be interpreted,
    the text is empty."""
    try:
        game = Game(text)
        state, name = frozenset(map(term_of, terms)), term_of(role)
        position = game.position(state)
        values = sorted(game.goal_terms(position, name), key=spelled)
        goals = [f"{quoted(value)}{past(value)}, by {named(game, game.sources(GOAL, (name, value), state))}" for value in values]
    except (Refused, RecursionError):
        return ""
    if len(goals) > 1:
        return f"{quoted(role)} has {len(goals):,} goal values in this state: {'; '.join(goals[:MOST_NAMED])}"
    if goals:
        return f"{quoted(role)} has the goal value {goals[0]}"
    numbers = list(game.by_sentence(GOAL))
    return f"no sentence gives {quoted(role)} a goal value in this state; {f'the sentences about goals are {named(game, numbers)}' if numbers else 'no sentence is about goals'}"


def past(value: object) -> str:
    return "" if isinstance(value, str) and GOAL_NUMBER.fullmatch(value) else " (not a number from 0 to 100)"


def named(game: Game, numbers: Sequence[int]) -> str:
    """Cites the sentences with these numbers, each with its line in the text."""
    more = f" and {len(numbers) - MOST_NAMED:,} more" if len(numbers) > MOST_NAMED else ""
    return " and ".join(game.cited(number) for number in numbers[:MOST_NAMED]) + more
