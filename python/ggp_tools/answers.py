"""Explains why an answer is not a legal move."""

import functools
import sys
from collections.abc import Callable, Sequence

from ggp_tools.holding.game import MOST_CALLS, Game
from ggp_tools.holding.positions import Position
from ggp_tools.kif import KifFault, Refused, expressions, spelled, starts
from ggp_tools.match_log import SHOWN
from ggp_tools.printable import MORE

# The maximum length of a list of legal moves in bytes.
MOST_BYTES = 400
# The maximum number of games in the cache.
MOST_GAMES = 4
# Because the interpreter is slow, a page lists the legal moves for at most MOST_TOLD illegal moves, and only if the rules have at most
# MOST_RULES bytes.
MOST_TOLD, MOST_RULES = 20, 1 << 20


def no_expression(answer: str) -> str:
    """Returns why an answer is not one expression, if the answer's text in a log shows the reason. Logs show `?` for each byte that is not
    visible."""
    if len(answer) == SHOWN + len(MORE) and answer.endswith(MORE):
        return "the log has only the beginning of such a long answer"
    try:
        parsed = expressions(answer)
        if not parsed:
            return "it contains no expression" if answer else "it is empty"
        if len(parsed) > 1:
            return f"a second expression begins at column {starts(answer)[1] + 1}"
    except KifFault as fault:
        return f"{fault} at column {fault.index + 1}"
    mark = answer.find("?")
    return f"the log shows `?` for the byte at column {mark + 1}" if mark >= 0 else ""


def listed(moves: list[str]) -> str:
    """Describes the legal moves of a role: their number, and as many of the moves as the limit of bytes allows."""
    bytes_left, shown = MOST_BYTES, []
    for move in moves:
        bytes_left -= len(move) + 2
        if bytes_left < 0 and shown:
            break
        shown.append(move)
    omitted = len(moves) - len(shown)
    head = "the only legal move was" if len(moves) == 1 else f"the {len(moves)} legal moves were"
    return f"{head} {', '.join(shown)}" + (f", and {omitted} more" if omitted else "")


@functools.lru_cache(MOST_GAMES)
def game_of(rules: bytes) -> Game:
    """Parses ground rules for the interpreter, which shares no code with the referee. Caches the most recent games."""
    return Game(rules.decode("latin-1"))


class Illegal:
    """Explains the illegal moves of a match."""

    def __init__(self, states: Sequence[Sequence[str]], roles: Sequence[str], game: Callable[[], Game]) -> None:
        sys.setrecursionlimit(MOST_CALLS)
        self.states, self.roles, self.game = states, roles, game
        self.kept: tuple[int, Position] | None = None

    def position(self, turn: int) -> Position:
        """Returns the position before a turn. Caches the most recent one."""
        if self.kept is None or self.kept[0] != turn:
            self.kept = turn, self.game().position(frozenset(expressions("\n".join(self.states[turn]))))
        return self.kept[1]

    def legal(self, role: int, turn: int) -> list[str]:
        """Returns the legal moves of a role in a turn, or an empty list if the interpreter cannot compute them."""
        try:
            return [spelled(move) for move in self.game().moves(self.position(turn), expressions(self.roles[role])[0])]
        except (Refused, LookupError, RecursionError, TypeError, ValueError):
            return []

    def moves(self, role: int, turn: int, error: str) -> str:
        """For an illegal move, describes the legal moves of its turn, and names the roles, or the turn, where the move would be legal.
        For other errors, or if the interpreter cannot compute the legal moves, the text is empty."""
        legal = self.legal(role, turn) if error.startswith("IL ") and error != "IL ?" else []
        if not legal:
            return ""
        move = error.removeprefix("IL ")
        if others := [name for other, name in enumerate(self.roles) if other != role and move in self.legal(other, turn)]:
            return f"{listed(legal)}; it is legal for {', '.join(others)}"
        return listed(legal) + ("; it was legal in the turn before" if turn and move in self.legal(role, turn - 1) else "")


class Whys:
    """The texts that a page adds to replaced moves: the legal moves, or why the answer is not an expression. `answers` has each answer
    that is not an expression, by its role and turn. Without a game, the texts do not mention legal moves."""

    def __init__(self, record: dict, game: Callable[[], Game] | None, answers: dict[tuple[int, int], str]) -> None:
        self.illegal, self.left = game and Illegal(record["states"], record["roles"], game), MOST_TOLD
        self.answers = answers

    def more(self, role: int, turn: int, error: str) -> str:
        """Returns the text that is appended to an error. Turns are counted from 0."""
        if error == "IL ?":
            why = no_expression(self.answers[role, turn]) if (role, turn) in self.answers else ""
            return f": {why}" if why else ""
        if not self.illegal or not self.left or not error.startswith("IL "):
            return ""
        self.left -= 1
        moves = self.illegal.moves(role, turn, error)
        return f"; {moves}" if moves else ""
