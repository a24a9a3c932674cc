"""The command line of `ggp_competition`. Loading modules takes long, so a command loads only the modules that it needs."""

import argparse
import os
import pathlib
import sys
from collections import Counter
from collections.abc import Callable, Iterable, Iterator

from ggp_tools import VERSION
from ggp_tools.competition.files import Refused, file_bytes, locked, write_whole
from ggp_tools.competition.game import add_game, run_game
from ggp_tools.competition.init_file import add_init, write_first_file
from ggp_tools.competition.known import Known
from ggp_tools.competition.call_logs import faults_of_logs
from ggp_tools.competition.match_files import check_records
from ggp_tools.competition.match_lines import matches_text
from ggp_tools.competition.plan import WRITES, Plan, Unplanned, faults_of_descriptions, make_plan, next_plan, order_again, read_plan, round_words, rounds_left
from ggp_tools.competition.results import Result
from ggp_tools.competition.schedule import Match
from ggp_tools.referee import NoReferee, Referee, Unchecked, find_program
from ggp_tools.competition.serving import add_serve, run_serve
from ggp_tools.competition.table import tables_of
from ggp_tools.competition.table_text import count_of_planned, in_order, joined, table_files, table_text, without_record
from ggp_tools.printable import counted, printable
from ggp_tools.reporting import NOT_BEGUN, Journal, Reporter
from ggp_tools.streams import PACKED, ready_streams, say, whole

MOST_AT_ONCE = 1_024
DIRECTORY = "the directory of the competition, with competition.toml (default: the current directory)"
# If more matches than this are missing for the same reason, one line reports them all.
MOST_LINES = 10
HELP = "Runs a competition between game players. The file competition.toml, in the directory of the competition, describes it."
STATUS = """exit status 0: success; with `play`, each match has a lawful record. 1: failure. 2: the command or competition.toml is wrong. 3: the referee
could not check the files, for example because it was out of memory; no file of a match was changed.
"""


def add_program(parser: argparse.ArgumentParser, **more: object) -> None:
    text = "the referee, ggp_manager (default: the one next to this program, in bin of the repository, or on the PATH of the shell)"
    parser.add_argument("--program", metavar="FILE", help=text, **more)


def add_options(command: argparse.ArgumentParser, name: str) -> None:
    add = command.add_argument
    if name == "check":
        add("archives", nargs="+", metavar="ARCHIVE", help="the file of an archive")
    elif name == "init":
        add_init(command)
    elif name == "try":
        add("folder", metavar="DIRECTORY", help="the directory of the competition, or its competition.toml")
        add("player", metavar="PLAYER", help="the name of the player")
        add("--game", metavar="NAME", help="the name of the game (default: the first game)")
    elif name == "why":
        add("folder", metavar="DIRECTORY", help="the directory of the competition, or of an archive that was unpacked")
        add("match", metavar="MATCH", help="the id of the match")
        add("player", nargs="?", metavar="PLAYER", help="the name of a player (default: all players of the match)")
    elif name == "table":
        add("folder", nargs="*", default=["."], metavar="DIRECTORY", help=f"{DIRECTORY}; several directories give one table")
        add("--to", metavar="DIRECTORY", help="the directory for the files of a table of several competitions")
    else:
        add("folder", nargs="?", default=".", metavar="DIRECTORY", help=DIRECTORY)
    if name == "again":
        add("match", metavar="MATCH", help="the id of a match that has a lawful record")
        add("--reason", required=True, metavar="TEXT", help="the reason, which the table, the pages and the archive show")
    if name == "plan":
        add("--preview", action="store_true", help="print the matches that it would add, or those of the next round, and write nothing")
    if name == "play":
        add("--at-once", type=whole(1, MOST_AT_ONCE), default=4, metavar="N", help="play at most N matches at once (default: 4)")
        add("--watch", action="store_true", help="write the pages again as matches end")
    if name == "serve":
        add_serve(command)
    if name == "publish":
        add("--to", metavar="FILE", help="the file of the archive (default: NAME.tar.gz in the directory)")
        add("--gaps", action="store_true", help="publish even if matches have no record; the archive lists them")


def arguments(words: list[str]) -> argparse.Namespace:
    parser = argparse.ArgumentParser("ggp_competition", description=HELP, epilog=STATUS)
    parser.add_argument("--version", action="version", version=f"%(prog)s {VERSION}")
    add_program(parser)
    commands = parser.add_subparsers(required=True, metavar="COMMAND", title="commands")
    for name, (text, run) in COMMANDS.items():
        command = commands.add_parser(name, help=text, description=f"{text[0].upper()}{text[1:]}.")
        add_program(command, default=argparse.SUPPRESS)
        add_options(command, name)
        command.set_defaults(run=run)
    game = add_game(commands)
    add_program(game, default=argparse.SUPPRESS)
    game.set_defaults(run=run_game)
    return parser.parse_args(words)


def write_matches(plan: Plan, results: list[Result], known: Known | None = None) -> None:
    """Writes matches.jsonl. Reports the matches that have no log, and therefore no times."""
    lacking = [result.match.id for result in results if not plan.folder.has_log(result.match.id)]
    if lacking[1:]:
        span = f"{len(lacking):,} matches from {lacking[0]} to {lacking[-1]}"
        print(f"ggp_competition: {span} count, but without times, because their logs are missing", file=sys.stderr)
    elif lacking:
        print(f"ggp_competition: {lacking[0]} counts, but without times, because its log is missing", file=sys.stderr)
    write_whole(plan.folder.matches, matches_text(plan, results, known))


def known_results(plan: Plan, referee: Referee, known: Known | None) -> tuple[list[Result], bool]:
    """Returns the results that count, in the order of the schedule, and whether there are records that do not count. Reports why each of these
    does not count."""
    results, faults, misfits = check_records(plan, referee, known)
    for match, why in {**faults, **misfits}.items():
        print(f"ggp_competition: {match} does not count: {why}", file=sys.stderr)
    return in_order(plan, results), bool(faults or misfits)


def spread(counts: Iterable[int]) -> str:
    """Returns the smallest and the largest number as text."""
    return " to ".join(str(number) for number in sorted({min(counts), max(counts)})) if counts else "0"


def counts_of_game(plan: Plan, matches: list[Match]) -> str:
    """Returns how many matches of a game there are, how often a player has each role, and how often two players meet."""
    if not matches:
        return "no match"
    names = [player.name for player in plan.competition.players]
    played = Counter((role, player) for match in matches for role, player in enumerate(match.players))
    met = Counter((player, other) for match in matches for player in match.players for other in match.players if player < other)
    roles = plan.roles(matches[0].game)
    in_roles = spread([played[role, name] for role in range(len(roles)) for name in names])
    pairs = spread([met[player, other] for player in names for other in names if player < other])
    counts = f"{counted(len(matches), 'match')}, roles {' '.join(roles)}; each player in each role: {in_roles}"
    return f"{counts}; each pair of players: {pairs}" if len(roles) > 1 else counts


def preview(path: str, referee: Referee) -> int:
    """Prints the matches that `plan` would add, or the matches of the next round, and writes no file."""
    plan = make_plan(path, referee, is_preview=True)
    missing = 0
    if plan.rounds and plan.known is not None:
        results, _ = known_results(plan, referee, None)
        missing, plan = len(without_record(plan, results)), next_plan(plan, {result.match.id: result for result in results}) or plan
    if plan.rounds:
        say(f"round {len(plan.rounds)} is not over: {counted(missing, 'match', 'has', 'have')} no record" if missing else round_words(plan))
    for match in plan.new_matches():
        say(f"{match.id} {match.game} {' '.join(match.players)}")
    return 0


def run_plan(asked: argparse.Namespace, referee: Referee) -> int:
    if asked.preview:
        return preview(asked.folder, referee)
    print_plan(make_plan(asked.folder, referee))
    return 0


def print_plan(plan: Plan) -> None:
    for game in plan.competition.games:
        say(f"{game.name}: {counts_of_game(plan, [match for match in plan.matches if match.game == game.name and match.counts()])}")
        for note in plan.rules[game.name].notes:
            say(f"{game.name}: {note}")
    if plan.competition.forfeit and not plan.competition.strikes:
        say("forfeit: without `strikes` no player is retired, so `forfeit` has no effect")
    if same_user := [player.name for player in plan.competition.players if player.command and not player.command.launcher]:
        say(f"players that run as your user, and can read and change everything that you can: {', '.join(same_user)}")
    if plan.rounds:
        say(round_words(plan))
    say(f"{plan.folder.schedule}: {counted(len(plan.matches), 'match')} of {counted(len(plan.competition.players), 'player')}{growth(plan)}{not_played(plan)}")


def not_played(plan: Plan) -> str:
    """Returns how many matches are not played because a player has withdrawn."""
    count = sum(bool(match.withdrawn) and not plan.folder.record(match.id).exists() for match in plan.matches)
    return f"; {count} {'is' if count == 1 else 'are'} not played, because a player has withdrawn" if count else ""


def not_counted(plan: Plan) -> str:
    """Returns how many matches have a record, but do not count."""
    count = sum(not match.counts() and plan.folder.record(match.id).exists() for match in plan.matches)
    return f"; {counted(count, 'match', 'does', 'do')} not count" if count else ""


def growth(plan: Plan) -> str:
    """Describes the matches that a plan has added since matches were played."""
    if plan.known is None:
        return ""
    new = plan.new_matches()
    return f"; added: {len(new)}, {new[0].id} to {new[-1].id}" if new else "; nothing added"


def run_init(asked: argparse.Namespace, referee: Referee) -> int:
    say(f"{write_first_file(asked)}: now run `ggp_competition plan {asked.folder}`")
    return 0


def run_again(asked: argparse.Namespace, referee: Referee) -> int:
    match = order_again(asked.folder, referee, asked.match, asked.reason)
    say(f"{match.id} {match.game} {' '.join(match.players)} replaces {match.instead_of}")
    return 0


def error_of_pages(write: Callable[..., object], *arguments: object) -> str | None:
    """Writes the pages. Returns errors instead of raising them, so that the matches can continue."""
    try:
        write(*arguments)
        return None
    except OSError as why:
        return f"pages are not written: {why.filename or 'a file'}: {why.strerror}"


def missing_rows(missing: dict[str, str]) -> Iterator[tuple[str, list[str]]]:
    """Yields rows about the missing matches and their reasons. With each row, yields the rows for the journal. Many matches with the same
    reason share a row. In the journal, each match that was given up has its own row, because the live pages read the reason from this
    row."""
    by_reason: dict[str, list[str]] = {}
    for match, why in missing.items():
        by_reason.setdefault(why, []).append(match)
    for why, matches in by_reason.items():
        rows = [f"missing {match}: {why}" for match in matches]
        if len(rows) <= MOST_LINES:
            yield from ((row, [row]) for row in rows)
        else:
            shared = f"missing {len(matches):,} matches between {matches[0]} and {matches[-1]}: {why}"
            yield shared, [shared] if why == NOT_BEGUN else rows


def run_play(asked: argparse.Namespace, referee: Referee) -> int:
    """Plays a competition, and plans it first if competition.toml is new or has changed. No other run changes the plan while matches are played."""
    with locked(asked.folder):
        try:
            plan = read_plan(asked.folder, referee)
        except Unplanned:
            plan = None
        if plan:
            return play_planned(plan, asked, referee)
    print_plan(make_plan(asked.folder, referee))
    with locked(asked.folder):
        return play_planned(read_plan(asked.folder, referee), asked, referee)


def play_planned(plan: Plan, asked: argparse.Namespace, referee: Referee) -> int:
    from ggp_tools.competition.playing import Playing, play

    reporter = Reporter(Journal(plan.folder.journal))
    playing = Playing(plan, referee, reporter, asked.at_once)
    if asked.watch:
        from ggp_tools.competition.pages import Pages

        pages = Pages(plan)
        playing.watch = lambda results: error_of_pages(pages.write_now_and_then, lambda: in_order(plan, results))
    missing = play(playing)
    write_matches(plan, in_order(plan, playing.results))
    lacks_pages = error_of_pages(pages.write, in_order(plan, playing.results)) if asked.watch else None
    if lacks_pages:
        reporter.line(lacks_pages)
    for row, in_journal in missing_rows(missing):
        reporter.sum_up(row, *in_journal)
    left = rounds_left(plan)
    if plan.competition.pause and (following := next_plan(plan, playing.results)):
        reporter.sum_up(f"pause: the next `ggp_competition play` plays {round_words(following)}")
        left = 0
    elif left:
        reporter.sum_up(f"rounds that are not planned yet: {left} of {left + len(plan.rounds)}")
    reporter.sum_up(f"{playing.count_over()} of {count_of_planned(plan)} matches have a lawful record{not_played(plan)}{not_counted(plan)}")
    if reporter.fault:
        raise reporter.fault
    return bool(missing or lacks_pages or left)


def run_table(asked: argparse.Namespace, referee: Referee) -> int:
    """Prints the table of a competition, or one table of several competitions, and writes it to files."""
    if asked.to and len(asked.folder) == 1:
        raise Refused("--to: only a table of several directories can be written elsewhere")
    plans = [read_plan(folder, referee) for folder in asked.folder]
    plan, known = joined(plans), [Known(plan.folder.path) for plan in plans]
    checked = [known_results(plan, referee, facts) for plan, facts in zip(plans, known)]
    results = [result for results, _ in checked for result in results]
    tables = tables_of(plan.competition, results, plan.rounds, known=known[0])
    # The table is printed even if it can't be written.
    say(table_text(plan, tables), end="")
    if len(plans) == 1:
        write_matches(plan, results, known[0])
    directory = plan.folder.path if len(plans) == 1 else asked.to and pathlib.Path(asked.to)
    for name, data in table_files(plan, tables).items() if directory else ():
        write_whole(directory / name, data)
    for facts in known:
        facts.write()
    return any(is_faulty for _, is_faulty in checked)


def run_pages(asked: argparse.Namespace, referee: Referee) -> int:
    from ggp_tools.competition.pages import Pages

    plan = read_plan(asked.folder, referee)
    known = Known(plan.folder.path)
    results, is_faulty = known_results(plan, referee, known)
    pages = Pages(plan, known=known)
    pages.write(results)
    known.write()
    say(pages.folder / "index.html")
    return is_faulty


def archive_path(plan: Plan, to: str | None) -> pathlib.Path:
    """Returns the path of the archive. Refuses a path whose directory does not exist, a file that is not an archive, and a file in a
    directory of the competition."""
    path = pathlib.Path(to or plan.folder.path / f"{plan.competition.name}.tar.gz")
    if path.exists() and not path.is_file():
        raise Refused(f"{path} is not a regular file: `--to` must name the file of the archive")
    if not path.parent.is_dir():
        raise Refused(f"{path} can't be written: {path.parent} is not a directory")
    top, parent = os.path.realpath(plan.folder.path), os.path.realpath(path.parent)
    if parent.startswith(os.path.join(top, "")):
        place = f"directly in {plan.folder.path}, or outside it"
        raise Refused(f"{path} is among the files of the competition: `--to` must name a file {place}")
    if path.exists() and file_bytes(path, len(PACKED)) != PACKED:
        raise Refused(f"{path} exists and is not an archive: `--to` must name the file of the archive")
    return path


def run_publish(asked: argparse.Namespace, referee: Referee) -> int:
    from ggp_tools.competition.archive import publish
    from ggp_tools.competition.packing import TooLarge

    # The lock keeps other runs from changing the plan until the archive is written.
    with locked(asked.folder):
        plan = read_plan(asked.folder, referee)
        path, known = archive_path(plan, asked.to), Known(plan.folder.path)
        results, is_faulty = known_results(plan, referee, known)
        missing, left = len(without_record(plan, results)), rounds_left(plan)
        faults = []
        if missing and (is_faulty or not asked.gaps):
            # A wrong record is not a gap. It must be corrected, or the match must be played again.
            faults = [f"{counted(missing, 'match', 'has', 'have')} no lawful record{'' if is_faulty else '; `--gaps` publishes the others'}"]
        elif left and not asked.gaps:
            faults = [f"{left} of {left + len(plan.rounds)} rounds are not planned yet; `--gaps` publishes without them"]
        faults = faults or list(faults_of_descriptions(plan, plan.folder.description, f", and {WRITES}"))
        faults = faults or [f"{fault}; the match also counts without its log" for fault in faults_of_logs(plan, results, is_published=False)]
        if not faults:
            write_matches(plan, results, known)
            try:
                say(f"{publish(plan, referee, results, path, known)}  {path.name}")
                known.write()
            except TooLarge as why:
                faults = [str(why)]
        for fault in faults:
            print(f"ggp_competition: nothing was published: {fault}", file=sys.stderr)
        return bool(faults)


def run_try(asked: argparse.Namespace, referee: Referee) -> int:
    from ggp_tools.competition import trying

    return trying.run_try(asked, referee)


def run_why(asked: argparse.Namespace, referee: Referee) -> int:
    from ggp_tools.competition.why import explanation

    for line in explanation(read_plan(asked.folder, referee), asked.match, asked.player):
        # The directory may come from an archive. In this case, its journal and logs may contain any bytes.
        say(printable(line))
    return 0


def run_check(asked: argparse.Namespace, referee: Referee) -> int:
    if missing := [archive for archive in asked.archives if not os.path.exists(archive)]:
        raise Refused(f"{missing[0]} does not exist")
    return max([check_one(archive, referee) for archive in asked.archives])


def check_one(archive: str, referee: Referee) -> bool:
    """Checks an archive, and returns whether it has errors."""
    from ggp_tools.competition.archive import check_archive

    faults, summary = check_archive(pathlib.Path(archive), referee)
    for fault in faults:
        print(f"ggp_competition: {archive}: {fault}", file=sys.stderr)
    if not faults:
        say(summary)
    return bool(faults)


COMMANDS = {
    "init": ("writes a first competition.toml with comments, from options or answers", run_init),
    "plan": ("writes the rules and schedule.tsv, as competition.toml says", run_plan),
    "again": ("orders a rematch: only the new match counts, and the files of both are kept", run_again),
    "play": ("plays the matches that have no lawful record yet; plans them first if competition.toml is new or has changed", run_play),
    "table": ("prints the table, and writes it as table.txt, table.csv, crosstable.csv and table.json", run_table),
    "pages": ("writes the pages for a browser to the directory `pages`", run_pages),
    "publish": ("writes an archive of the whole competition, with checksums", run_publish),
    "serve": ("serves live pages of the matches, the standings and the players to browsers, which can't change anything", run_serve),
    "why": ("explains what happened to the players of a match, turn by turn, with the times", run_why),
    "try": ("starts one player that has a command, and plays a match with it in each role", run_try),
    "check": ("checks archives that `publish` has written, and reads nothing else", run_check),
}


def main() -> int:
    ready_streams()
    asked = arguments(sys.argv[1:])
    # An archive that can't be read, or whose check is interrupted, has not failed the check.
    interrupted = 3 if asked.run is run_check else 1
    try:
        referee = Referee(find_program(asked.program))
        return int(asked.run(asked, referee))
    except (Refused, NoReferee) as why:
        print(f"ggp_competition: {why}" if "\n" not in str(why) else why, file=sys.stderr)
        return 2
    except Unchecked as why:
        print(f"ggp_competition: {why}; nothing was changed", file=sys.stderr)
        return 3
    except KeyboardInterrupt:
        print("ggp_competition: interrupted", file=sys.stderr)
        return interrupted
    except OSError as why:
        print(f"ggp_competition: {why.filename or 'a file'}: {why.strerror}", file=sys.stderr)
        return interrupted
    except UnicodeEncodeError as why:
        print(f"ggp_competition: {why.object!r} can't be the name of a file in this locale, whose encoding is {why.encoding}", file=sys.stderr)
        return 2
