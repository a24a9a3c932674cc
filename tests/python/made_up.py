"""A competition of many finished matches. One match is played. All other matches have the same moves, and other ids.

    PYTHONPATH=python python3 tests/python/made_up.py DIRECTORY COUNT"""

import pathlib
import re
import subprocess
import sys

from ggp_tools.referee import Referee
from ggp_tools.competition.schedule import Match
from live_support import BEGAN
from players import TestPlayer
from support import GAMES, program, run, toml

FIRST = "a-match"
RULES = GAMES / "tictactoe.kif"


def played() -> tuple[str, str, str]:
    """Returns the record, the call log and the log of a match of quick players."""
    players = [TestPlayer(f"p{number}", seed=number) for number in range(2)]
    match = Match(FIRST, "tictactoe", 10, 10, ("p0", "p1"))
    words = Referee(program()).run_words(RULES, None, match, 0, [f"{player.name}@{player.place()}" for player in players])
    done = subprocess.run(words, capture_output=True, text=True, check=True)
    record, _, account = done.stdout.partition("\n")
    return f"{record}\n", account, done.stderr


def make_up(folder: pathlib.Path, count: int) -> None:
    """Plans `count` matches in a directory, and writes the files of all these matches."""
    lines = ", ".join(['"tictactoe p0 p1"'] * count)
    text = toml([("p0", "h:1"), ("p1", "h:2")], [("tictactoe", RULES)], f'kind = "schedule"\nlines = [{lines}]')
    (folder / "competition.toml").write_text(text)
    status, out, said = run(folder, "plan")
    assert (status, said) == (0, ""), f"{out}{said}"
    texts = dict(zip(("records", "accounts", "logs"), played()))
    texts["logs"] = re.sub('"ms":[0-9]+', '"ms":1000', re.sub('"time":[0-9]+', f'"time":{BEGAN}', texts["logs"]))
    endings = {"records": "json", "accounts": "txt", "logs": "jsonl"}
    for kind, text in texts.items():
        (folder / kind).mkdir()
        for line in (folder / "schedule.tsv").read_text().splitlines()[1:]:
            match = line.partition("\t")[0]
            (folder / kind / f"{match}.{endings[kind]}").write_text(text.replace(FIRST, match))


if __name__ == "__main__":
    made = pathlib.Path(sys.argv[1])
    made.mkdir()
    make_up(made, int(sys.argv[2]))
