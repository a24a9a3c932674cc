"""Compares the interpreter of published descriptions with the interpreter of `tests/oracle`. The two share no code. The descriptions are
random, and have relations that depend on the state, on moves and on themselves, and nested negations and `or`s."""

import random
from unittest import mock

import pytest
from ggp_tools.holding import compiling
from ggp_tools.holding.game import Game
from random_descriptions import described
from support import outside

interpreter = outside("interpreter")
STATES = 5


def compare(seed: int) -> None:
    """Compares the results of both interpreters for some states. Each state comes either from a random turn or from random terms of the
    states so far, in alternation."""
    text, dice = described(seed), random.Random(seed)
    game, plain = Game(text), interpreter.Game(text)
    assert (game.roles, game.initial) == (plain.roles, plain.initial())
    state, terms = game.initial, set(game.initial)
    for number in range(STATES):
        legal, goals, is_over = plain.view(state)
        position = game.position(state)
        assert (game.is_over(position), [set(game.goal_terms(position, role)) for role in game.roles]) == (is_over, goals)
        assert [sorted(game.moves(position, role), key=repr) for role in game.roles] == [sorted(moves, key=repr) for moves in legal]
        every = set().union(*legal)
        assert [{move for move in every if game.is_legal(position, role, move)} for role in game.roles] == legal
        joint = tuple(dice.choice(sorted(moves or every or {"noop"}, key=repr)) for moves in legal)
        following = list(game.following(game.position(state, joint)))
        wanted = plain.next(state, joint)
        assert (set(following), len(following)) == (wanted, len(wanted))
        terms |= wanted
        state = frozenset(dice.sample(sorted(terms, key=repr), len(terms) // 2)) if number % 2 else frozenset(following)


@pytest.mark.parametrize("seed", range(24))
def test_a_random_description(seed: int) -> None:
    compare(seed)


@pytest.mark.parametrize("seed", range(4))
def test_conditions_that_are_met_in_functions_of_their_own(seed: int) -> None:
    with mock.patch.object(compiling, "MOST_DEPTH", 1):
        compare(seed)
