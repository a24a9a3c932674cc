#!/usr/bin/env python3
"""An example of a referee that shares its desk with other programs: plays matches between players in this process over four connections to
`ggp_manager desk --listen`, and prints how each match ended.

    connections.py ADDRESS RULES [MATCHES]

ADDRESS is the address of the desk, for example 127.0.0.1:9000. RULES is a ground GDL file with the rules of its game. The players are
those of examples/players/player.py. Each connection has one match at a time."""

import argparse
import pathlib
import random
import sys
from concurrent.futures import ThreadPoolExecutor

sys.dont_write_bytecode = True
TOP = pathlib.Path(__file__).resolve().parents[2]
sys.path[:0] = [f"{TOP}/python", f"{TOP}/examples/players"]
from ggp_tools.desk import Desk, Status
from player import Game, Player, read
from referee import play_match

CONNECTIONS = 4


def play_matches(address: str, ids: list[str], rules: list) -> dict[str, Status]:
    """Plays matches one after another over one connection. Returns the status of each match at its end."""
    players = [Player(random.Random(seed).choice) for seed, _ in enumerate(Game(rules).roles)]
    with Desk.connect(address) as desk:
        for match_id in ids:
            play_match(desk, match_id, rules, players)
        return {match_id: desk.query(match_id) for match_id in ids}


def main() -> None:
    words = argparse.ArgumentParser(description=__doc__, formatter_class=argparse.RawDescriptionHelpFormatter)
    words.add_argument("address", metavar="ADDRESS")
    words.add_argument("rules", metavar="RULES", type=pathlib.Path)
    words.add_argument("matches", metavar="MATCHES", type=int, nargs="?", default=CONNECTIONS)
    asked = words.parse_args()
    rules = read(asked.rules.read_text(encoding="ascii"))
    ids = [f"m{number}" for number in range(1, asked.matches + 1)]
    with ThreadPoolExecutor(CONNECTIONS) as pool:
        parts = pool.map(lambda first: play_matches(asked.address, ids[first::CONNECTIONS], rules), range(CONNECTIONS))
    ends = {match_id: status for part in parts for match_id, status in part.items()}
    for match_id in ids:
        print(f"{match_id}: {ends[match_id].phase} after {ends[match_id].turns} turns")


if __name__ == "__main__":
    main()
