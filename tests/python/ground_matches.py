"""Plays matches under ground rules, with some late and some illegal answers, and checks their records against a description."""

import contextlib
import io
import json
import random
from collections.abc import Sequence

from ggp_tools.holding.following import Differs, Following
from ggp_tools.instantiating import making
from ggp_tools.kif import Expression, expressions, relation, spelled
from support import GAMES, outside

ground_games = outside("ground_games")

MOST_TURNS = 60
Sentences = list[Expression]
Record = dict[str, object]


def description(name: str) -> str:
    return (GAMES / f"general/{name}.kif").read_text("latin-1")


def instantiated(text: str, how: str = making.WHERE_NEEDED, is_split: bool = False) -> Sentences:
    """Returns the ground sentences of a GDL text with variables."""
    with contextlib.redirect_stderr(io.StringIO()):
        return expressions(making.Making(text, 60, how, is_split).run())


def begun(sentences: Sentences) -> ground_games.Match:
    """Returns a match under ground rules, ready for its first turn."""
    game = ground_games.Game(sentences)
    match = ground_games.Match(game, ["m", "1", "1", *(f"p{at}" for at in range(len(game.roles)))])
    match.marks["start"] = dict.fromkeys(range(len(game.roles)), "")
    return match


def ended(match: ground_games.Match) -> Record:
    """Sends the last message to all roles, and returns the record of the match."""
    match.marks["end"] = dict(match.marks["start"])
    return match.record()


def played(sentences: Sentences, seed: int, most: int = MOST_TURNS) -> Record:
    """Returns the record of a random match of at most this many turns."""
    match = begun(sentences)
    game = match.game
    every = {role: sorted((head[2] for head in game.rules if relation(head) == ("legal", 2) and head[1] == role), key=repr) for role in game.roles}
    while len(match.moves) < most and match.phase()[0] == "playing":
        dice = [random.Random(f"{seed} {len(match.moves)} {role}") for role in game.roles]
        legal = [game.legal(match.states[-1], role) for role in game.roles]
        match.turn([judged(die, found, every[role]) for die, found, role in zip(dice, legal, game.roles)])
    return ended(match)


def played_again(sentences: Sentences, record: Record) -> Record:
    """Returns the record of the match that the same answers give under other ground rules."""
    match = begun(sentences)
    for moves, errors in zip(record["moves"], record["errors"]):
        if match.phase()[0] != "playing":
            break
        turn = []
        for role, move, error in zip(match.game.roles, moves, errors):
            legal = match.game.legal(match.states[-1], role)
            answer = expressions(error.removeprefix("IL ") if error.startswith("IL ") else move)[0]
            is_late = error == "TO"
            turn.append((answer, "") if answer in legal and not is_late else (legal[0], "TO" if is_late else f"IL {spelled(answer)}"))
        match.turn(turn)
    return ended(match)


def judged(dice: random.Random, legal: Sequence[Expression], every: Sequence[Expression]) -> tuple[Expression, str]:
    """Returns the move that is played for a random answer, and the error of the answer."""
    kind = dice.random()
    if kind < 0.2:
        return legal[0], "TO"
    answer = dice.choice(every if kind < 0.4 else sorted(legal, key=repr))
    return (answer, "") if answer in legal else (legal[0], f"IL {spelled(answer)}")


def differs(following: Following, record: Record) -> str | None:
    """Returns how a record differs from the description, or None."""
    try:
        following.follow(json.loads(json.dumps(record)))
    except Differs as why:
        return str(why)
    return None
