"""An error in ground rules shows only in a match that reaches it. No earlier step does.

Ten games of different kinds get an error each: a missing rule, two swapped moves, a goal that is off by one, or a rule without its last
literal. In the game with a cycle, the cycle is unrolled in half of its rounds. The place of the error is random. Matches are played under
the wrong rules until one of them reaches the error: under the right rules, its answers give a different record. No random match needs that
many rounds of a cycle, so in that game the test chooses the moves: red's stones wind from side to side. The referee plays and checks under
the same wrong rules, so it cannot notice the error. `ggp-hold-against` must find the error, and must find no error in the record under the
right rules."""

import functools
import json
import random
import shutil
from collections.abc import Callable
from unittest import mock

import pytest

from ggp_tools.holding.command import DIFFERENT, SAME, Holding
from ggp_tools.instantiating import making, rounds
from ggp_tools.kif import head_of, relation
from ggp_tools.printable import counted
from ground_matches import Record, Sentences, begun, description, ended, instantiated, played, played_again

PLANTED_IN = "tictactoe", "nim", "connectfour", "auction", "minority", "hanoi", "river", "prisoners", "foxandhounds", "hex"
WITH_A_CYCLE = "hex"
TRIES = 60
pytestmark = pytest.mark.skipif(not shutil.which("gringo"), reason="gringo is not installed")
# The last of these stones is ten steps from the side, and no path is shorter. Blue's stones are in cells that red does not use.
WINDING = "11 21 22 23 24 25 35 44 43 42 51".split()
Plant = Callable[[str, random.Random], Sentences]


@functools.cache
def right_rules(name: str) -> Sentences:
    # The same cycle in fewer sentences, which the referee reads faster.
    return instantiated(description(name), making.ALWAYS if name == WITH_A_CYCLE else making.WHERE_NEEDED)


@functools.cache
def holding(name: str) -> Holding:
    return Holding(description(name))


def places(sentences: Sentences, names: tuple[str, ...]) -> list[int]:
    """Returns the indices of rules with heads of these relations."""
    return [at for at, sentence in enumerate(sentences) if sentence[0] == "<=" and relation(head_of(sentence))[0] in names]


def dropped(name: str, dice: random.Random) -> Sentences:
    """Returns the rules without one `legal` or `next` rule."""
    sentences = right_rules(name)
    at = dice.choice(places(sentences, ("legal", "next")))
    return sentences[:at] + sentences[at + 1 :]


def swapped(name: str, dice: random.Random) -> Sentences:
    """Returns the rules with two legal moves of a role swapped."""
    sentences = right_rules(name)
    heads = list(dict.fromkeys(head_of(sentence) for sentence in sentences if relation(head_of(sentence)) == ("legal", 2)))
    role = dice.choice(heads)[1]
    one, other = dice.sample([head for head in heads if head[1] == role], 2)
    instead = {one: other, other: one}
    found, seen = [], set()
    for sentence in sentences:
        head = head_of(sentence)
        if head not in instead:
            found.append(sentence)
        elif head not in seen:
            found += [sentence for sentence in sentences if head_of(sentence) == instead[head]]
        seen.add(head)
    return found


def goal_off(name: str, dice: random.Random) -> Sentences:
    """Returns the rules with a goal that is off by one."""
    sentences = right_rules(name)
    at = dice.choice(places(sentences, ("goal",)))
    _, role, value = head_of(sentences[at])
    head = ("goal", role, str(int(value) + (1 if value == "0" else -1)))
    return [*sentences[:at], ("<=", head, *sentences[at][2:]), *sentences[at + 1 :]]


def without_last_literal(name: str, dice: random.Random) -> Sentences:
    """Returns the rules with one of them shortened by its last literal."""
    sentences = right_rules(name)
    at = dice.choice([at for at, sentence in enumerate(sentences) if sentence[0] == "<=" and len(sentence) > 3])
    return [*sentences[:at], sentences[at][:-1], *sentences[at + 1 :]]


def in_half_the_rounds(name: str) -> Sentences:
    """Returns the rules with the cycle unrolled in half of the rounds that it needs."""
    last = rounds.last_round
    with mock.patch.object(rounds, "last_round", lambda circle, rules_for: last(circle, rules_for) // 2):
        return instantiated(description(name), making.ALWAYS)


def wound(sentences: Sentences) -> Record:
    """Returns the record of the match where red's stones wind from side to side."""
    match = begun(sentences)
    cells = [("place", x, y) for x, y in WINDING]
    others = sorted({head[2] for head in match.game.rules if relation(head) == ("legal", 2) and head[1] == "blue" and head[2] not in (*cells, "noop")})
    for cell, other in zip(cells, [*others, None]):
        for turn in ((cell, "noop"), ("noop", other)):
            if match.phase()[0] == "playing":
                match.turn([(move, "") for move in turn])
    return ended(match)


def reached(name: str, plant: Plant) -> tuple[Record, Record]:
    """Returns the records of a match that reaches the error: one under the wrong rules, and one under the right rules."""
    for number in range(TRIES):
        record = played(plant(name, random.Random(f"{name} {number}")), number)
        right = played_again(right_rules(name), record)
        if record != right:
            return record, right
    raise AssertionError(f"{name}: no match reaches what {plant.__name__} plants")


def assert_found(name: str, record: Record, right: Record) -> None:
    """Checks that the error is found in the wrong record, and that no error is found in the right one."""
    status, words = holding(name).held(json.dumps(record))
    assert (status, words.partition(":")[0]) == (DIFFERENT, "differs"), (name, words)
    assert holding(name).held(json.dumps(right)) == (SAME, f"the same: {counted(len(right['moves']), 'turn')}"), name


@pytest.mark.parametrize("plant", [dropped, swapped, goal_off, without_last_literal])
def test_an_error_in_a_rule(plant: Plant) -> None:
    for name in PLANTED_IN:
        if (plant, name) != (without_last_literal, WITH_A_CYCLE):
            assert_found(name, *reached(name, plant))


def test_half_the_rounds_of_a_cycle() -> None:
    record, right = wound(in_half_the_rounds(WITH_A_CYCLE)), wound(right_rules(WITH_A_CYCLE))
    assert (record["phase"], right["phase"], right["goalValues"]) == ("playing", "finished", [100, 0])
    assert_found(WITH_A_CYCLE, record, right)
