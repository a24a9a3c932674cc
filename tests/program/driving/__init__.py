"""Shared by the tests of the parent directory: running the program, players, and reports."""
import pathlib

TOP = pathlib.Path(__file__).resolve().parents[3]
EXAMPLES = TOP / "examples"
GAMES = EXAMPLES / "games"
