"""Computes the parts of a game that the page shows: the state, and the places that a move names."""

from ggp_tools.holding.game import Game
from ggp_tools.holding.match import texts_of
from ggp_tools.holding.positions import State
from ggp_tools.kif import spelled
from ggp_tools.records.show import Board, Group, Named, Place, last_state, places_of, words_of
from ggp_tools.templating import macros

# The row of a move that names only a column.
ANY_ROW = 0


class Shown:
    """The states of a match so far."""

    def __init__(self, game: Game, is_hex: bool = False) -> None:
        self.game, self.states, self.named = game, [texts_of(game.initial)], Named(game.sentences, is_hex)
        self.roles = list(map(spelled, game.roles))
        self.state: State = game.initial
        # `known` contains the moves that were legal so far, by relation. `made` contains the last move of each role that had a choice. `choosing`
        # contains the roles that have a choice now.
        self.known: dict[Group, set[str]] = {}
        self.made: dict[object, str] = {}
        self.choosing = self.roles_with_choice()

    def advance(self, moves: tuple) -> None:
        """Applies a joint move, in role order."""
        self.state = frozenset(self.game.following(self.game.position(self.state, moves)))
        self.states.append(texts_of(self.state))
        self.made |= {role: spelled(move) for role, move in zip(self.game.roles, moves) if role in self.choosing}
        self.choosing = self.roles_with_choice()

    def roles_with_choice(self) -> set[object]:
        return {role for role in self.game.roles if len(self.legal(role)) > 1}

    def legal(self, role: object) -> list[str]:
        return sorted(spelled(move) for move in self.game.moves(self.game.position(self.state), role))

    def goals(self) -> dict[str, int | None]:
        position = self.game.position(self.state)
        return {spelled(role): self.game.goal(position, role) for role in self.game.roles}

    def picture(self, legal: list[str]) -> dict:
        """Returns the state as HTML, and the legal moves with the places that they name on each board. Also returns, for each role, whether it has
        several moves, and its last move."""
        drawing = last_state(self.states, self.roles, self.named, is_played=True)
        for move in filter(words_of, legal):
            self.known.setdefault((words_of(move)[0], len(words_of(move))), set()).add(move)
        placed = list(map(self.placed, drawing["drawn"]))
        return {
            "state": macros("boards").state(drawing),
            "legal": [{"text": move, "places": [places.get(move, []) for places in placed]} for move in legal],
            "players": [{"role": spelled(role), "made": self.made.get(role, ""), "can": role in self.choosing} for role in self.game.roles],
        }

    def placed(self, board: Board) -> dict[str, list[Place]]:
        """Returns, by move, the places of a board that the move names. Either all moves of a relation name places, or none of them does: (push 1 2)
        does not name a place if there is a (push 0 0). A move with one argument names a column if these arguments are exactly the columns."""
        named_places: dict[str, list[Place]] = {}
        for group, known in self.known.items():
            places = {move: places_of(move, board) for move in known}
            if group[1] == 2 and {words_of(move)[1] for move in known} == set(board.across):
                places = {move: [(board.across.index(words_of(move)[1]) + 1, ANY_ROW)] for move in known}
            named_places |= places if all(places.values()) else {}
        return named_places
