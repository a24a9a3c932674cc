#!/usr/bin/env python3
"""An example player that plays random legal moves over HTTP, even for GDL files with variables.

    interpreting.py PORT [SEED | first]

This player is like player.py, but uses the interpreter of `tests/oracle` for the rules in START. On standard error, it prints the number of
sentences, and the number of sentences with variables. With `first` instead of a seed, it plays the first of its legal moves in alphabetical
order."""

import pathlib
import random
import sys

sys.dont_write_bytecode = True
sys.path.insert(0, str(pathlib.Path(__file__).resolve().parents[2] / "tests/oracle"))
import interpreter
from player import Player, arguments, say, seed, serve, show


class Game(interpreter.Game):
    """The interpreter's game with the methods that a player needs."""

    def legal(self, state, role):
        answers = self.asked(state, (), lambda look: look.answers(("legal", role, "?move")))
        return sorted((move for _, _, move in answers), key=show)


def count_text(sentences):
    """Returns a line with the number of sentences, and the number of sentences with variables."""
    return f"rules of {len(sentences):,} sentences, {sum(not interpreter.is_ground(sentence) for sentence in sentences):,} with variables"


def make_game(sentences):
    """Returns the game of a START message, and prints the number of sentences."""
    say(count_text(sentences))
    return Game(sentences)


def first(moves: list) -> object:
    return moves[0]


def seed_or_first(word: str) -> int | str:
    return word if word == "first" else seed(word)


def main() -> None:
    asked = arguments(__doc__, seed_or_first)
    choose = first if asked.seed == "first" else random.Random(asked.seed).choice
    serve(asked.port, Player(choose, make_game))


if __name__ == "__main__":
    main()
