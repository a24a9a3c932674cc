"""The numbers of moves in chess with all rules except the one on repetition, compared with published numbers (chessprogramming.org, "Perft
Results")."""

import pytest
from ggp_tools.holding.game import Game
from ggp_tools.kif import Expression
from support import GAMES

KINDS = {"p": "pawn", "n": "knight", "b": "bishop", "r": "rook", "q": "queen", "k": "king"}
COUNTS = [
    ("rnbqkbnr/pppppppp/8/8/8/8/PPPPPPPP/RNBQKBNR w KQkq", [20, 400]),
    ("r3k2r/p1ppqpb1/bn2pnp1/3PN3/1p2P3/2N2Q1p/PPPBBPPP/R3K2R w KQkq", [48, 2039]),
    ("8/2p5/3p4/KP5r/1R3p1k/8/4P1P1/8 w -", [14, 191, 2812]),
    ("r3k2r/Pppp1ppp/1b3nbN/nP6/BBP1P3/q4N2/Pp1P2PP/R2Q1RK1 w kq", [6, 264]),
    ("rnbq1k1r/pp1Pbppp/2p5/8/2B5/8/PPP1NnPP/RNBQK2R w KQ", [44, 1486]),
]


def side(letter: str) -> str:
    return "white" if letter.isupper() else "black"


def state_of(position: str) -> frozenset[Expression]:
    """Returns the state of a position in Forsyth-Edwards notation."""
    board, _, castling = position.split()
    terms = {("control", "white"), ("quiet", "0")}
    for y, row in zip(range(8, 0, -1), board.split("/")):
        x = 1
        for letter in row:
            if letter.isdigit():
                x += int(letter)
            else:
                terms.add(("cell", str(x), str(y), side(letter), KINDS[letter.lower()]))
                x += 1
    for letter in castling.replace("-", ""):
        terms |= {("unmoved", side(letter), "5"), ("unmoved", side(letter), "8" if letter.lower() == "k" else "1")}
    return frozenset(terms)


def count(game: Game, state: frozenset[Expression], turns: int) -> int:
    """Returns the number of sequences of this many turns from a state."""
    position = game.position(state)
    player = next(term[1] for term in state if term[0] == "control")
    moves = list(game.moves(position, player))
    if turns == 1:
        return len(moves)
    joints = [tuple(move if role == player else "noop" for role in game.roles) for move in moves]
    return sum(count(game, frozenset(game.following(game.position(state, joint))), turns - 1) for joint in joints)


@pytest.mark.parametrize(("position", "counts"), COUNTS)
def test_moves_are_counted(position: str, counts: list[int]) -> None:
    game = Game((GAMES / "general/large/fullchess.kif").read_text("ascii"))
    assert [count(game, state_of(position), turns) for turns in range(1, len(counts) + 1)] == counts
