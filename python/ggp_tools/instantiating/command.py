"""The command `ggp-instantiate`. examples/games/general/README.md says how it works."""

import argparse
import sys

from ggp_tools.descriptions.suspicious import suspicions
from ggp_tools.instantiating.for_players import text_for_players
from ggp_tools.instantiating.limits import MOST
from ggp_tools.instantiating.making import ALWAYS, NEVER, WHERE_NEEDED, Making
from ggp_tools.kif import KifFault, Refused, told
from ggp_tools.streams import MOST_SECONDS, STANDARD_INPUT, Ended, opened, report, say, seconds, status_of

COMMAND = "ggp-instantiate"
SECONDS = 60
# The time limit of the search for suspicious sentences, and the maximum number of lines that are printed.
SECONDS_OF_SEARCH, MOST_SUSPICIONS = 5, 20
HELP = (
    "Reads a GDL file with variables, and writes a ground GDL file of the same game, for --rules-file of ggp_manager. "
    "It reports its steps on standard error. It needs the grounder gringo."
)


def write_player_rules(made: Making, file: str) -> None:
    """Writes the GDL file with variables for players, and reports its length."""
    text = text_for_players(made.sentences, [rule.head for rule in made.ground_rules])
    if len(text) > MOST["bytes"]:
        raise Refused(f"nothing is written, because the text for players exceeds the limit: {len(text):,} bytes, but at most {MOST['bytes']:,} are allowed")
    with open(file, "w", encoding="ascii") as stream:
        stream.write(text)
    report(f"  text for players: {len(text):,} bytes with variables, in {file}")


def arguments() -> argparse.Namespace:
    words = argparse.ArgumentParser(COMMAND, description=HELP, epilog="examples/games/general/README.md has details.")
    text = f"the limit of processor time in seconds, above 0 and up to {MOST_SECONDS:,} (default: {SECONDS})"
    words.add_argument("--seconds", type=seconds, default=SECONDS, metavar="N", help=text)
    words.add_argument("--large", action="store_true", help="use the limits of ggp_manager --large from the start")
    how = words.add_mutually_exclusive_group()
    text = "factor the description into fewer and shorter sentences for the same game (default: if it exceeds the limits of ggp_manager)"
    how.add_argument("--folded", dest="folding", action="store_const", const=ALWAYS, default=WHERE_NEEDED, help=text)
    how.add_argument("--unfolded", dest="folding", action="store_const", const=NEVER, help="do not factor it")
    text = "split rules into parts with auxiliary relations (default: if there are many ground rules)"
    words.add_argument("--split", action="store_true", help=text)
    words.add_argument("--player-rules", metavar="FILE", help="write a GDL file with variables to this FILE, for players")
    words.add_argument("file", nargs="?", default="-", metavar="FILE", help="the GDL file with variables (default: standard input, also as `-`)")
    return words.parse_args()


def say_suspicions(text: bytes) -> None:
    """Reports possible mistakes in the description."""
    for line in suspicions(text, None, SECONDS_OF_SEARCH).lines[:MOST_SUSPICIONS]:
        report(f"  suspicious: {line}")


def perform(asked: argparse.Namespace) -> int:
    """Writes the ground GDL file, or reports why it cannot be made."""
    with opened(asked.file) as file:
        data = file.read()
    made = Making(data.decode("latin-1"), asked.seconds, asked.folding, asked.split, asked.large)
    try:
        text = made.run()
        if asked.player_rules:
            write_player_rules(made, asked.player_rules)
        say(text, end="")
        say_suspicions(data)
    except Refused as why:
        say_suspicions(data)
        name = STANDARD_INPUT if asked.file == "-" else asked.file
        has_place = why.sentence is not None or isinstance(why, KifFault)
        raise Ended(f"{name}: {told(made.text, why)}" if has_place else told(made.text, why), 1) from None
    return 0


def main() -> int:
    asked = arguments()
    return status_of(COMMAND, lambda: perform(asked), 1)


if __name__ == "__main__":
    sys.exit(main())
