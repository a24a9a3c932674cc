"""Writes a first competition.toml with comments, from options or from answers to questions."""

import argparse
import os
import pathlib
import sys

from ggp_tools.competition.competition_file import Mistaken, mistake_lines, read_competition
from ggp_tools.competition.files import Folder, Refused, write_whole

# This directory exists in the repository and in an archive of the program.
PARENTS = pathlib.Path(__file__).resolve().parents
EXAMPLES = next((place for parent in PARENTS if (place := parent / "examples/games").is_dir()), pathlib.Path("examples/games"))
# The options for the forms of a competition. Each is listed with the name of its argument and its help text.
FORMS = {
    "round-robin": ("ROUNDS", "each pair of players meets ROUNDS times, each time in both orders of the roles"),
    "swiss": ("ROUNDS", "a Swiss competition of this many rounds"),
    "gauntlet": ("PLAYER", "PLAYER plays against all others"),
    "knockout": (None, "a knockout"),
}
TEMPLATE = """# docs/COMPETITION.md explains all keys.
name = "{name}"
start = {start}        # seconds for START, in which a player reads the rules
play = {play}          # seconds for each PLAY, STOP and ABORT
strikes = 3       # a player is retired in a match after this many replaced moves in a row
forfeit = true    # a player that was retired in a match has lost it
absent = "play"   # matches with silent players are played, too; "leave": they are not
{more}
[faults]
replaced = 3      # a player with this many replaced moves in a match has lost it; turns with one legal move do not count

[form]
kind = "{kind}"
{form}"""
BY_ROUNDS = """pause = false     # true: `play` ends after each round
absent_rounds = 0 # a player is withdrawn after this many rounds in which all its moves were replaced; 0: never
"""
GAME = """
[[games]]
name = "{}"
file = "{}"
"""
PLAYER = """
[[players]]
name = "{}"
address = "{}"
# withdrawn = "the reason"   # it plays no further match
"""
NO_PLAYER = """
# Each player has an entry like this one:
# [[players]]
# name = "ann"
# address = "192.0.2.7:9147"
"""


def add_init(command: argparse.ArgumentParser) -> None:
    command.add_argument("folder", metavar="DIRECTORY", help="the directory of the competition, which is created if it does not exist")
    command.add_argument("--name", metavar="NAME", help="the name of the competition (default: that of the directory)")
    command.add_argument("--games", metavar="A,B,..", help="the games: names of games in examples/games, or paths of descriptions")
    forms = command.add_mutually_exclusive_group()
    for form, (word, text) in FORMS.items():
        value = {"metavar": word, "type": lambda more, form=form: (form, more)} if word else {"action": "store_const", "const": (form, "")}
        forms.add_argument(f"--{form}", dest="form", help=text, **value)
    command.add_argument("--final", metavar="N", help="after a Swiss competition the best N players play a knockout")
    command.add_argument("--players", metavar="NAME=HOST:PORT,..", help="the players (default: none; add them to the file later)")
    command.add_argument("--start", metavar="S", default="10", help="seconds for START (default: 10)")
    command.add_argument("--play", metavar="S", default="5", help="seconds for each other message (default: 5)")


def ask_for_the_rest(asked: argparse.Namespace) -> None:
    asked.games = input("Games, such as tictactoe,connectfour: ")
    form, _, more = input("Form: round-robin ROUNDS, swiss ROUNDS, gauntlet PLAYER or knockout: ").strip().partition(" ")
    if form not in FORMS:
        raise Refused(f"{form!r} is not one of {', '.join(FORMS)}")
    asked.form = form, more or True
    asked.players = asked.players or input("Players, such as ann=192.0.2.7:9147,bob=192.0.2.8:9147 (empty: add them to the file later): ")


def game_entry(word: str, folder: pathlib.Path) -> str:
    """Returns the entry of a game. The path of its file is relative to the competition's directory."""
    candidates = [pathlib.Path(word), EXAMPLES / f"{word}.kif", EXAMPLES / f"general/{word}.kif"]
    path = next((candidate for candidate in candidates if candidate.is_file()), None)
    if path is None:
        raise Refused(f"--games: {word!r} is neither a file nor a game in {EXAMPLES}")
    return GAME.format(path.stem, os.path.relpath(path, folder))


def text_of(asked: argparse.Namespace, folder: pathlib.Path) -> str:
    form, more = asked.form
    keys = {"gauntlet": f'one = "{more}"\n', "knockout": ""}.get(form, f"rounds = {more}\n")
    keys += f"final = {asked.final}\n" if asked.final else ""
    names = {"name": asked.name or folder.resolve().name, "start": asked.start, "play": asked.play, "kind": form.replace("-", "_")}
    players = [PLAYER.format(*player.partition("=")[::2]) for player in words(asked.players)]
    games = [game_entry(word, folder) for word in words(asked.games)]
    head = TEMPLATE.format(**names, form=keys, more=BY_ROUNDS if form in ("swiss", "knockout") else "")
    return "".join([head, *games, *(players or [NO_PLAYER])])


def words(text: str | None) -> list[str]:
    return [word.strip() for word in (text or "").split(",") if word.strip()]


def write_first_file(asked: argparse.Namespace) -> pathlib.Path:
    """Writes the file, and returns its path. Refuses a file that `plan` would refuse, except that the file need not list any players."""
    folder = Folder(asked.folder)
    if folder.competition.exists():
        raise Refused(f"{folder.competition} already exists")
    if not asked.games and not asked.form and sys.stdin.isatty():
        ask_for_the_rest(asked)
    if not asked.games or not asked.form:
        raise Refused(f"expected --games, and one of {', '.join(f'--{form}' for form in FORMS)}")
    text = text_of(asked, folder.path)
    try:
        read_competition(text.encode())
    except Mistaken as why:
        if wrong := [mistake for mistake in why.mistakes if asked.players or mistake.key not in ("players", "form.one", "form.final")]:
            raise Refused("the options make an invalid file:\n" + mistake_lines(folder.competition, wrong)) from None
    folder.make()
    write_whole(folder.competition, text.encode())
    return folder.competition
