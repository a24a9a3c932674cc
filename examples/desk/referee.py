#!/usr/bin/env python3
"""An example of a referee: plays matches between players in this process, on a desk of `ggp_manager`, and prints the records of the matches.

    referee.py RULES [MATCHES]

RULES is a ground GDL file. The players are those of examples/players/player.py. The desk judges each move, computes the states and
writes the records.
"""

import argparse
import pathlib
import random
import sys

sys.dont_write_bytecode = True
TOP = pathlib.Path(__file__).resolve().parents[2]
sys.path[:0] = [f"{TOP}/python", f"{TOP}/examples/players"]
from ggp_tools.desk import Desk, Hold, Over, Owe
from player import Game, Player, read

START, PLAY = 10, 5


def message(owed: Owe, match_id: str, role: object, rules: list) -> tuple:
    """Returns the message for the player of a role."""
    match owed.message:
        case "start":
            return ("start", match_id, role, rules, START, PLAY)
        case "abort":
            return ("abort", match_id)
    return (owed.message, match_id, read(owed.joint_move)[0])


def play_match(desk: Desk, match_id: str, rules: list, players: list[Player]) -> None:
    """Asks each player for the answers that the desk says are due, until the match is over."""
    roles = Game(rules).roles
    desk.open(match_id, [f"player{role}" for role in range(len(roles))], start=START, play=PLAY)
    dues = [Hold(0)]
    while any(due != Over() for due in dues):
        dues = [desk.next(match_id, role) for role in range(len(roles))]
        for role, due in enumerate(dues):
            if isinstance(due, Owe):
                desk.submit(match_id, role, due.round, players[role].answer(message(due, match_id, roles[role], rules)))


def main() -> None:
    words = argparse.ArgumentParser(description=__doc__, formatter_class=argparse.RawDescriptionHelpFormatter)
    words.add_argument("rules", metavar="RULES", type=pathlib.Path)
    words.add_argument("matches", metavar="MATCHES", type=int, nargs="?", default=1)
    words.add_argument("--program", metavar="FILE", help="the program ggp_manager")
    asked = words.parse_args()
    rules = read(asked.rules.read_text(encoding="ascii"))
    players = [Player(random.Random(seed).choice) for seed, _ in enumerate(Game(rules).roles)]
    with Desk(f"--rules-file={asked.rules}", program=asked.program) as desk:
        for number in range(1, asked.matches + 1):
            play_match(desk, f"m{number}", rules, players)
    print(*desk.records, sep="\n")


if __name__ == "__main__":
    main()
