"""The command `ggp-hold-against`."""

import argparse
import resource
import sys
from collections.abc import Iterable, Iterator

from ggp_tools.kif import Refused, told
from ggp_tools.printable import counted, shown
from ggp_tools.records.record import NoRecord
from ggp_tools.streams import MOST_SECONDS, opened, say, seconds, status_of
from ggp_tools.timed import Late, limited

from .following import Differs, Following, read_record
from .game import Game

USAGE = "ggp-hold-against [--seconds N] DESCRIPTION [RECORD ..]"
ABOUT = """Checks records of matches against the published description of the game, which may have variables: whether the roles, states, moves, errors,
end and goals follow from that description. It shares the parser with the grounder, and no code with the referee."""
STATUS = """RECORD is a file with a record on each line, by default standard input. The command prints a line for each record. status 0: all records
match the description. 1: a record differs; its line says where. 2: usage error, or a file cannot be read. 3: no record is known to differ, but at
least one could not be checked, because it took too long or the description is not supported."""
SECONDS = 60.0
# The interpreter evaluates nested rules with nested calls.
MOST_CALLS = 100_000
# The limit of memory. It is the same as for the grounder of `ggp-instantiate`.
MEMORY = 2 << 30
SAME, DIFFERENT, NOT_FOLLOWED = 0, 1, 3


def arguments() -> argparse.Namespace:
    words = argparse.ArgumentParser("ggp-hold-against", usage=USAGE, description=ABOUT, epilog=STATUS)
    text = f"the limit of processor time for each record in seconds, above 0 and up to {MOST_SECONDS:,} (default: {SECONDS:g})"
    words.add_argument("--seconds", type=seconds, default=SECONDS, metavar="N", help=text)
    words.add_argument("description", metavar="DESCRIPTION", help="the published description")
    words.add_argument("records", metavar="RECORD", nargs="*", help="a file with a record on each line (default: standard input, also as `-`)")
    return words.parse_intermixed_args()


class Holding:
    """Checks records against one description. `following` is None until the description has been parsed. All records share its caches. An
    interrupted check may leave the caches incomplete, so they are dropped."""

    def __init__(self, text: str, name: str = "the description") -> None:
        self.text, self.name, self.following = text, name, None

    def held(self, line: str) -> tuple[int, str]:
        """Checks one record. Returns an exit status and a message."""
        following, self.following = self.following, None
        try:
            following = following or Following(self.game())
            turns = following.follow(read_record(line))
        except Differs as why:
            self.following = following
            return DIFFERENT, f"differs: {'; '.join(str(why).splitlines())}"
        except Late:
            raise
        except NoRecord as why:
            return NOT_FOLLOWED, f"not followed: it is not a record: {why}"
        except Refused as why:
            return NOT_FOLLOWED, f"not followed: {why}"
        except MemoryError:
            return NOT_FOLLOWED, "not followed: out of memory"
        except Exception as why:
            # A bug of this command says nothing about the game.
            return NOT_FOLLOWED, f"not followed: a bug in ggp-hold-against, please report it: {type(why).__name__} in {place_of(why)}: {why}"
        self.following = following
        return SAME, f"the same: {counted(turns, 'turn')}"

    def game(self) -> Game:
        """Parses the game. If the description is invalid, the error includes the place."""
        try:
            return Game(self.text)
        except Refused as why:
            raise Refused(f"{self.name}: {told(self.text, why)}") from None


def place_of(why: BaseException) -> str:
    """Returns the function and line where an exception was raised."""
    place = why.__traceback__
    while place.tb_next:
        place = place.tb_next
    return f"{place.tb_frame.f_code.co_name}, line {place.tb_lineno}"


def hold(holding: Holding, lines: Iterable[str], limit: float) -> Iterator[tuple[int, str]]:
    """Yields an exit status and a message for each record. The time limit applies to each record separately."""
    for line in lines:
        try:
            with limited(limit):
                result = holding.held(line)
        except Late:
            result = NOT_FOLLOWED, f"not followed: out of time after {limit:g} s"
        yield result


def limit_memory(kind: int = resource.RLIMIT_AS) -> None:
    """Limits the memory of this process, unless there is already a lower limit."""
    soft, hard = resource.getrlimit(kind)
    most = min([MEMORY, *(limit for limit in (soft, hard) if limit != resource.RLIM_INFINITY)])
    resource.setrlimit(kind, (most, hard))


def records_in(files: Iterable[str]) -> Iterator[bytes]:
    """Yields the lines of files, except empty ones."""
    for name in files:
        with opened(name) as file:
            yield from (line for line in file if line.strip())


def perform(asked: argparse.Namespace) -> int:
    """Checks the records. Returns the exit status."""
    statuses = set()
    with opened(asked.description) as file:
        holding = Holding(file.read().decode("latin-1"), asked.description)
    for status, words in hold(holding, records_in(asked.records or ["-"]), asked.seconds):
        statuses.add(status)
        say(shown(words))
    return DIFFERENT if DIFFERENT in statuses else NOT_FOLLOWED if NOT_FOLLOWED in statuses else SAME


def main() -> int:
    sys.setrecursionlimit(MOST_CALLS)
    asked = arguments()
    limit_memory()
    return status_of("ggp-hold-against", lambda: perform(asked), 2)


if __name__ == "__main__":
    sys.exit(main())
