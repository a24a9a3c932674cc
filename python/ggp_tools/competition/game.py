"""Checks the description of a game: whether the referee accepts it, which sentences are suspicious, and how random matches of it end."""

import argparse
import pathlib
import re
import shutil
import sys
from collections import Counter
from collections.abc import Sequence
from typing import Any

from ggp_tools.competition.competition_file import INSTANTIATING
from ggp_tools.descriptions.loading import MOST_BYTES, NoDescription, Rules, Stopped, has_variables, load_description, sentence_starts
from ggp_tools.competition.files import Refused
from ggp_tools.kif import quoted
from ggp_tools.printable import counted, shown
from ggp_tools.referee import Referee, Unchecked
from ggp_tools.reporting import Reporter
from ggp_tools.streams import MOST_SECONDS, whole

HELP = "reports whether the referee accepts the description of a game, which sentences are suspicious, and how random matches of it end"
STATUS = """exit status 0: the description has no errors, but sentences may be suspicious. 1: the referee refuses the description, a random match is
aborted, no random match ends in time, or a record differs from the expected one. 2: the command is wrong, or the file can't be read. 3: there
is no verdict, for example because the referee or the grounder was killed or is out of memory, or no temporary file can be written.
"""
MOST_MATCHES, MOST_SEED = 10_000, 10**18
# The maximum number of seeds in a list, and the maximum number of bytes of a state in a message.
LISTED, MOST_STATE = 10, 500
# `plan` plays random matches until one of them ends, but at most this many, and begins no turn after this many seconds.
TRY_MATCHES, TRY_SECONDS = 5, 10
# The last line of `ggp-instantiate` if it failed for a reason other than an error in the description.
NO_VERDICT = re.compile(
    r"ggp-instantiate ended with status .*|ggp-instantiate: (error: |gringo is not installed|gringo took |gringo ran ).*|.*: can't open file .*"
    r"|([a-z_]+\.)*[A-Z]\w*(Error|Exception|Interrupt)\b.*"
)


def add_game(commands: Any) -> argparse.ArgumentParser:
    """Adds the command `game` to the commands of the command line, and returns the new command."""
    command = commands.add_parser("game", help=HELP, description=f"{HELP[0].upper()}{HELP[1:]}.", epilog=STATUS)
    command.add_argument("file", metavar="FILE", help="the description, with or without variables")
    command.add_argument("--large", action="store_true", help="use the limits for large games from the beginning")
    seconds = whole(1, MOST_SECONDS)
    command.add_argument("--matches", type=whole(0, MOST_MATCHES), default=20, metavar="N", help="play N random matches (default: 20)")
    text = "the seed of the first match (default: 1); each later match uses the next number"
    command.add_argument("--seed", type=whole(0, MOST_SEED), default=1, metavar="S", help=text)
    text = "the limit of processor time for grounding a GDL file with variables, in seconds (default: 60)"
    command.add_argument("--instantiate", type=seconds, default=INSTANTIATING, metavar="T", help=text)
    text = "search for suspicious sentences for at most T seconds, and begin no turn after T seconds of matches (default: 60)"
    command.add_argument("--seconds", type=seconds, default=60, metavar="T", help=text)
    return command


def read_description(path: pathlib.Path) -> bytes:
    try:
        if path.exists() and not path.is_file():
            raise Refused(f"{path} is not a regular file")
        with open(path, "rb") as file:
            return file.read(MOST_BYTES + 1)
    except OSError as why:
        raise Refused(f"{path} can't be read: {why.strerror}") from None


def run_game(asked: argparse.Namespace, referee: Referee) -> int:
    path, reporter, referee = pathlib.Path(asked.file), Reporter(), referee.taking(asked.large)
    text, why = read_description(path), None
    try:
        status = int(report_game(reporter, asked, referee, path, text))
    except Unchecked as unchecked:
        status, why = 3, unchecked
    except OSError as error:
        status, why = 3, f"{error.filename or 'a temporary file'}: {error.strerror}"
    finally:
        reporter.clear()
    if why:
        print(f"ggp_competition: {why}", file=sys.stderr)
    if reporter.fault:
        raise reporter.fault
    return status


def load(path: pathlib.Path, text: bytes, referee: Referee, limit: int) -> Rules:
    """Returns the rules of a description. Raises `Unchecked` if grounding failed for a reason other than an error in the description."""
    if len(text) <= MOST_BYTES and has_variables(text) and not shutil.which("gringo"):
        raise Unchecked(f"{path} can't be grounded: the grounder gringo is not installed")
    try:
        return load_description(path, referee, False, limit)
    except Stopped as why:
        raise Unchecked(f"{path}: {'; '.join(str(why).splitlines())}; `--instantiate T` gives it more time") from None
    except NoDescription as why:
        *more, last = str(why).splitlines()
        if NO_VERDICT.fullmatch(last):
            # The message is the same if the grounder was killed.
            last = f"{last}, or it was killed" if "gringo ran out of memory" in last else last
            raise Unchecked(f"ggp-instantiate gave no verdict for {path}: {'; '.join([last, *more])}") from None
        raise


def report_game(reporter: Reporter, asked: argparse.Namespace, referee: Referee, path: pathlib.Path, text: bytes) -> bool:
    """Reports on a description. Returns whether the description is refused, or whether the random matches show an error."""
    from ggp_tools.descriptions.refused import why_refused

    reporter.draw("the description")
    try:
        rules = load(path, text, referee, asked.instantiate)
    except NoDescription as why:
        for line in str(why).splitlines():
            reporter.line(f"{path} is not accepted: {line}")
        is_ground = len(text) <= MOST_BYTES and not has_variables(text)
        for line in why_refused(text) if is_ground else ():
            reporter.line(line)
        report_suspicions(reporter, asked, text, None)
        return True
    reporter.line(f"{path} is accepted: {counts_of_rules(text, rules)}")
    for note in rules.notes:
        reporter.line(f"its ground rules: {note}")
    report_suspicions(reporter, asked, text, rules.text)
    return bool(asked.matches) and report_matches(reporter, asked, referee, text, rules)


def counts_of_rules(text: bytes, rules: Rules) -> str:
    count, ground = len(sentence_starts(text)), len(sentence_starts(rules.text))
    became = f", which became {counted(ground, 'ground one')}" if has_variables(text) else ""
    return f"{counted(count, 'sentence')}{became}; roles {' '.join(map(quoted, rules.roles))}"


def report_suspicions(reporter: Reporter, asked: argparse.Namespace, text: bytes, ground: bytes | None) -> None:
    from ggp_tools.descriptions.suspicious import NOT_ALL, Suspicions, suspicions

    reporter.draw("what is suspicious")
    suspicious = suspicions(text, ground, asked.seconds) if len(text) <= MOST_BYTES else Suspicions([], NOT_ALL)
    for line in suspicious.lines:
        reporter.line(f"suspicious: {line}")
    if suspicious.cut:
        reporter.line(suspicious.cut)
    elif not suspicious.lines:
        reporter.line("nothing else is suspicious" if ground is None else "nothing is suspicious")


# ---- Matches -------------------------------------------------------------------------------------


def report_matches(reporter: Reporter, asked: argparse.Namespace, referee: Referee, text: bytes, rules: Rules) -> bool:
    """Plays random matches, and reports how they ended. Returns whether a match showed an error, or whether no match ended."""
    from ggp_tools.descriptions.goals import goals_said
    from ggp_tools.descriptions.random_matches import RandomMatches

    played = RandomMatches(rules.text, referee.taking(rules.is_large), asked.file, reporter, asked.seconds)
    played.run(asked.seed, asked.matches)
    ended, aborted = played.ended, Counter(match.cause for match in played.ended if match.cause)
    for note in played.notes:
        reporter.line(note)
    if ended:
        seeds = f"seeds {ended[0].seed} to {ended[-1].seed}" if len(ended) > 1 else f"seed {ended[0].seed}"
        reporter.line(f"random matches, {seeds}: {len(ended) - aborted.total():,} finished, {aborted.total():,} aborted")
        for cause in aborted:
            matches = [match for match in ended if match.cause == cause]
            reporter.line(aborted_line(cause, matches))
            kind, _, role = cause.partition(" ")
            if kind == "nogoal" and (goals := goals_said(text.decode("latin-1"), role, matches[0].state)):
                reporter.line(goals)
        report_figures(reporter, rules.roles, ended)
    if played.uncompared:
        reporter.line(f"the program had not played {played.uncompared:,} of them after {asked.seconds:,} s, so their records were not compared")
    if played.too_long:
        have = "has" if played.too_long == 1 else "have"
        reporter.line(f"{played.too_long:,} of them {have} a move that no player can make, so their records were not compared")
    for number, keys in played.differing:
        words = f"the program's record differs from that of the interpreter of ggp_competition in {' and '.join(keys)}"
        reporter.line(f"seed {number}: {words}: please report it")
    return bool(aborted or played.differing or not (ended or played.is_too_deep))


def aborted_line(cause: str, ended: list) -> str:
    """Describes the matches that were aborted with this cause."""
    first = ended[0]
    seeds = ", ".join(str(match.seed) for match in ended[:LISTED]) + (", .." if len(ended) > LISTED else "")
    state = shown(" ".join(first.state), MOST_STATE) or "empty"
    count = f"aborted with `{quoted(cause)}`: {len(ended):,}, {'seeds' if len(ended) > 1 else 'seed'} {seeds}"
    return f"{count}; after turn {first.turns:,} of seed {first.seed} the state is {state}"


def spread(numbers: Sequence[int]) -> str:
    """Returns the smallest number, the largest one and the mean as text."""
    if min(numbers) == max(numbers):
        return f"always {numbers[0]:,}"
    return f"{min(numbers):,} to {max(numbers):,}, on average {sum(numbers) / len(numbers):,.1f}"


def report_figures(reporter: Reporter, roles: Sequence[str], ended: list) -> None:
    reporter.line(f"turns of a match: {spread([match.turns for match in ended])}")
    for role, name in enumerate(roles):
        goals = [match.goals[role] for match in ended if match.goals]
        most = max(match.choices[role] for match in ended)
        reporter.line(f"{quoted(name)}: goals {spread(goals) if goals else 'none'}; most legal moves at once: {most:,}")


def try_rules(rules: bytes, referee: Referee, name: str) -> tuple[str | None, str | None]:
    """Plays random matches of a game before it is planned. If none of them ends, the description is most likely wrong. Returns the error,
    and a note if there is no verdict. Both are None if a match ends."""
    from ggp_tools.descriptions.random_matches import RandomMatches, TimeIsOver

    reporter = Reporter()
    try:
        played = RandomMatches(rules, referee, name, reporter, TRY_SECONDS)
        for seed in range(1, TRY_MATCHES + 1):
            played.play(seed, f"{name}: random match {seed}")
            if not played.ended[-1].cause:
                return None, None
    except TimeIsOver:
        return None, f"none of its random matches ended within {TRY_SECONDS} s; `ggp_competition game` tries for longer"
    except RecursionError:
        return None, "it was not tested: its rules depend on one another too deeply"
    finally:
        reporter.clear()
    causes = ", ".join(dict.fromkeys(match.cause for match in played.ended))
    if all(match.turns == 0 for match in played.ended):
        return f"none of its matches can begin: each is aborted at the start with `{causes}`", None
    return f"all of {TRY_MATCHES} random matches were aborted, with `{causes}`", None
