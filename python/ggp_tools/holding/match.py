"""Plays a match of a game turn by turn, and makes its record."""

from ggp_tools.kif import spelled

from .game import Game
from .positions import State
from .reading import Term

MOST_TURNS = 10_000


def texts_of(state: State) -> list[str]:
    """Returns the terms of a state in the form and order of a record."""
    return sorted(map(spelled, state))


class Match:
    """A match: the turns so far, and, by role number, the marks of START and the marks of the end."""

    # How the record represents a state.
    recorded = staticmethod(texts_of)

    def __init__(self, game: Game, name: str, start: int, play: int, players: list[str]) -> None:
        if len(players) != len(game.roles):
            raise ValueError(f"{len(players)} players for {len(game.roles)} roles")
        self.game, self.name, self.start, self.play, self.players = game, name, start, play, players
        self.states, self.moves, self.errors = [game.initial], [], []
        self.position = game.position(game.initial)
        self.marks: dict[str, dict[int, str]] = {"start": {}, "end": {}}

    def legal(self, role: Term) -> list[Term]:
        return self.game.moves(self.position, role)

    def phase(self) -> tuple[str, str | None]:
        """Returns the phase, and the cause if the game aborts the match."""
        if len(self.marks["start"]) < len(self.players):
            return "starting", None
        has_ended = len(self.marks["end"]) == len(self.players)
        if self.game.is_over(self.position):
            cause = next((f"nogoal {number}" for number, goal in enumerate(self.goals()) if goal is None), None)
            if not cause:
                return "finished" if has_ended else "stopping", None
        else:
            stuck = (f"nolegal {number}" for number, role in enumerate(self.game.roles) if not self.legal(role))
            cause = "toolong" if len(self.moves) == MOST_TURNS else next(stuck, None)
            if not cause:
                return "playing", None
        return "aborted" if has_ended else "aborting", cause

    def goals(self) -> list[int | None]:
        return [self.game.goal(self.position, role) for role in self.game.roles]

    def turn(self, judged: list[tuple[Term, str]]) -> None:
        """Adds a turn: each role's move, and the error if the move replaces an answer."""
        self.moves.append([move for move, _ in judged])
        self.errors.append([error for _, error in judged])
        self.position.move(list(zip(self.game.roles, self.moves[-1])))
        self.states.append(frozenset(self.game.following(self.position)))
        self.position = self.game.position(self.states[-1])

    def record(self) -> dict:
        """Returns the record of the match, for JSON."""
        phase, cause = self.phase()
        roles = range(len(self.players))
        return {
            "cause": cause,
            "endMarks": [self.marks["end"].get(role) for role in roles],
            "errors": self.errors,
            "goalValues": self.goals() if phase in ("stopping", "finished") else [],
            "matchId": self.name,
            "moves": [list(map(spelled, turn)) for turn in self.moves],
            "phase": phase,
            "playClock": self.play,
            "players": self.players,
            "roles": list(map(spelled, self.game.roles)),
            "startClock": self.start,
            "startMarks": [self.marks["start"].get(role) for role in roles],
            "states": list(map(self.recorded, self.states)),
            "strikes": 0,
            "version": 2,
        }
