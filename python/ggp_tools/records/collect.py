"""Reads files with records of several games, finds the game of each record, and checks each record. Writes the records as tables, pages,
facts, matches of ggp-base, or text similar to PGN.

    ggp-records --rules RULES check [--explain] RECORDS ..
    ggp-records --rules RULES sqlite FILE RECORDS ..
    ggp-records --rules RULES csv DIR RECORDS ..
    ggp-records --rules RULES pages DIR RECORDS ..
    ggp-records --rules RULES ggp-base [--log LOG ..] [--games URL] DIR RECORDS ..
    ggp-records --rules RULES pgn [--log LOG ..] FILE RECORDS ..
    ggp-records --rules RULES facts [--log LOG ..] [--descriptions DIR] [--refereed-by TEXT] FILE RECORDS ..
    ggp-records log LOG ..

RECORDS is a file with a record on each line, as `season` and `run` write it, or `-` for standard input. The file may be compressed with gzip.
Lines of call logs are skipped. Options may come anywhere. RULES is a directory with the ground rules of the games, each in a file NAME.kif.
A record belongs to the game that has its roles and its first state. --large allows large rules.

`check` prints a line for each record: the file, the number of the line, the match, the game and the verdict, separated by tabs. With
--explain, the lines below an unlawful record give the expected and the found values.

`sqlite` and `csv` write tables of all records. `lawful` is 1 or 0, and `copy_of` has the number of an earlier record with the same bytes.
The views `counted_players` and `counted_moves` of the database have each lawful record once, and no other records.

`ggp-base`, `pgn` and `facts` write only lawful records, and report all other records. `ggp-base` writes a file for each match, in the format of
ggp-base; URL/NAME/ is the address of the game NAME. `pgn` writes the headers and the moves of each match, with an empty line between two
matches. `facts` writes a line of JSON for each record, with facts that are not in the record. LOG is a log file, or a directory of logs
such as `logs` of a competition; the times of messages come from it. --descriptions names the directory with the descriptions that were
grounded; the files have the same names as those in RULES. TEXT names the program that refereed the matches.

`log` prints logs as text, an event on each line, with at most 200 bytes of each message and each answer.

The output, FILE or DIR, must not exist yet. docs/RECORDS.md explains the verdicts. examples/records/README.md describes the formats of
`ggp-base`, `pgn` and `facts`.

The exit status is 0 if all records are lawful, 1 if a record is not lawful, 2 for a usage error, and 3 if there is no verdict."""

import argparse
import collections
import os
import pathlib
import sqlite3
import sys
from collections.abc import Iterable, Iterator

from ggp_tools.match_log import event_of, text_of
from ggp_tools.printable import counted, shown
from ggp_tools.records.collection import Judged, Pile, judged_lines, known_games
from ggp_tools.records.explain import explanation
from ggp_tools.records.exports import write_matches, write_pages, write_pgn
from ggp_tools.records.facts import Facts, description_sums, version_beside, write_facts
from ggp_tools.records.match_logs import MatchLogs, lines_of_logs
from ggp_tools.records.record import MOST_OF_VALUE, json_lines
from ggp_tools.records.tables import write_csv, write_sqlite
from ggp_tools.records.verify_many import MOST_JOBS
from ggp_tools.referee import LAWFUL, NoReferee, Referee, Unchecked, find_program
from ggp_tools.streams import report, say, status_of, whole

COMMAND = "ggp-records"
# The name of the output of each action, and the options that only some actions have.
OUTPUTS = {"check": None, "sqlite": "FILE", "csv": "DIR", "pages": "DIR", "ggp-base": "DIR", "pgn": "FILE", "facts": "FILE", "log": None}
OWN = {"explain": ["check"], "log": ["ggp-base", "pgn", "facts"], "games": ["ggp-base"], "descriptions": ["facts"], "refereed_by": ["facts"]}
NOT_LAWFUL = "not lawful: "


def counting(lines: Iterable[Judged], counts: collections.Counter[str]) -> Iterator[Judged]:
    """Yields the lines, and counts them by verdict. Does not distinguish the errors of unlawful records."""
    for judged in lines:
        counts[judged.verdict.partition(":")[0]] += 1
        yield judged


def count_words(counts: collections.Counter[str], skipped: int) -> str:
    parts = [f"{count:,} {verdict}" for verdict, count in counts.most_common()]
    parts += [f"{counted(skipped, 'call log line')} skipped"] * bool(skipped)
    return ", ".join(parts) or "no records"


def row_of(judged: Judged) -> str:
    line, game = judged.line, judged.game.name if judged.game else "-"
    return "\t".join(map(shown, [line.file, str(line.number), shown(line.match_id, MOST_OF_VALUE) or "-", game, judged.verdict]))


def explained(judged: Judged) -> list[str]:
    """Explains why a line is not a lawful record, if the reason is known."""
    if judged.game and judged.verdict.startswith(NOT_LAWFUL):
        return explanation(judged.verdict.removeprefix(NOT_LAWFUL), judged.game.rules, judged.line.data)
    return json_lines(judged.line.data)[1:] if judged.line.record is None and judged.line.data else []


def print_check(lines: Iterable[Judged], explains: bool) -> None:
    """Prints a line for each record. If `explains` is set, also explains why records are not lawful."""
    for judged in lines:
        say("\n\t".join([row_of(judged), *map(shown, explained(judged) if explains else ())]))


def lawful_ones(lines: Iterable[Judged]) -> Iterator[tuple[int, Judged]]:
    """Yields the lawful records with their numbers, and reports all other lines."""
    for number, judged in enumerate(lines, 1):
        if judged.is_lawful:
            yield number, judged
        else:
            report(f"{COMMAND}: not written: {judged.line.file}, line {judged.line.number}: {judged.verdict}")


def arguments(words: list[str]) -> argparse.Namespace:
    reader = argparse.ArgumentParser(COMMAND, description=__doc__, formatter_class=argparse.RawDescriptionHelpFormatter)
    reader.add_argument("--program", metavar="FILE", help="the path of ggp_manager, if it is neither next to this program nor in PATH")
    reader.add_argument("--rules", metavar="RULES", help="the directory with the ground rules of the games, in files NAME.kif")
    reader.add_argument("--large", action="store_true", help="allow large rules")
    reader.add_argument("--jobs", type=whole(1, MOST_JOBS), default=len(os.sched_getaffinity(0)), metavar="N", help="at most N processes at a time")
    reader.add_argument("--explain", action="store_true", help="`check`: explain why a record is not lawful")
    reader.add_argument("--log", action="append", metavar="LOG", help="`ggp-base`, `pgn`, `facts`: a log of matches, or a directory of logs; may be given several times")
    reader.add_argument("--games", metavar="URL", help="`ggp-base`: the address of the published games; the game NAME is at URL/NAME/")
    reader.add_argument("--descriptions", metavar="DIR", help="`facts`: the directory of the descriptions that were grounded; the files have the same names as those in RULES")
    text = "`facts`: the program that refereed the matches (default: the text of the file VERSION next to RULES)"
    reader.add_argument("--refereed-by", metavar="TEXT", help=text)
    reader.add_argument("action", choices=OUTPUTS, help="the action")
    reader.add_argument("files", metavar="FILE", nargs="*", help="first the output, unless the action is `check` or `log`; then the files with records or, for `log`, the logs")
    parsed = reader.parse_intermixed_args(words)
    for option, actions in OWN.items():
        if getattr(parsed, option) and parsed.action not in actions:
            reader.error(f"`{parsed.action}` has no option --{option.replace('_', '-')}")
    output = OUTPUTS[parsed.action]
    parsed.output = pathlib.Path(parsed.files.pop(0)) if output and parsed.files else None
    missing = ["--rules"] * (parsed.rules is None and parsed.action != "log") + [output] * (output is not None and not parsed.output)
    missing += [] if parsed.files else ["LOG" if parsed.action == "log" else "RECORDS"]
    if missing:
        reader.error(f"the following arguments are required: {', '.join(missing)}")
    if parsed.output and os.path.lexists(parsed.output):
        reader.error(f"{parsed.output} exists already")
    return parsed


def report_others(count: int) -> None:
    """Reports how many lines of logs are not events."""
    if count:
        report(f"{COMMAND}: skipped {counted(count, 'line')} that {'is not an event' if count == 1 else 'are not events'} of a log")


def print_log(paths: list[str]) -> int:
    """Prints logs as text. Returns 1 if a line is not an event, otherwise 0."""
    others = 0
    for line in lines_of_logs(paths):
        event = event_of(line)
        others += event is None
        if event:
            say(text_of(event))
    report_others(others)
    return int(others > 0)


def perform(given: argparse.Namespace) -> int:
    """Performs the action. Returns the exit status."""
    if given.action == "log":
        return print_log(given.files)
    referee, pile, counts = Referee(find_program(given.program), given.large), Pile(given.files), collections.Counter()
    logs = MatchLogs(given.log or ())
    report_others(logs.others)
    if given.action == "facts":
        refereed_by = given.refereed_by or version_beside(given.rules)
        facts = Facts(referee.version(), refereed_by, description_sums(given.rules, given.descriptions), logs)
    games, refused = known_games(given.rules, referee)
    for error in refused:
        report(f"{COMMAND}: skipped: {error}")
    if not games:
        report(f"{COMMAND}: {given.rules} has no file NAME.kif with the ground rules of a game")
        return 3
    lines = counting(judged_lines(referee, games, pile, given.jobs), counts)
    match given.action:
        case "check":
            print_check(lines, given.explain)
        case "sqlite":
            write_sqlite(given.output, lines)
        case "csv":
            write_csv(given.output, lines)
        case "pages":
            write_pages(given.output, lines)
        case "ggp-base":
            write_matches(given.output, lawful_ones(lines), logs, given.games)
        case "pgn":
            write_pgn(given.output, lawful_ones(lines), logs)
        case "facts":
            write_facts(given.output, lawful_ones(lines), facts)
            for match_id, why in facts.faults.items():
                report(f"{COMMAND}: no facts from a log are written for {match_id}: {why}")
    report(f"{COMMAND}: {count_words(counts, pile.skipped)}")
    return 0 if counts.keys() <= {LAWFUL} else 1


def main() -> int:
    options = arguments(sys.argv[1:])
    return status_of(COMMAND, lambda: perform(options), 3, (NoReferee, Unchecked, sqlite3.Error))
