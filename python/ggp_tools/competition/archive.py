"""Defines the contents of a competition's archive, writes the archive for `publish`, and checks it for `check`."""

import concurrent.futures
import errno
import functools
import os
import pathlib
import tempfile
from collections.abc import Callable, Iterable, Iterator, Sequence

from ggp_tools.competition.call_logs import faults_of_logs
from ggp_tools.competition.described import DIFFERS, IS_SAME, comparisons
from ggp_tools.competition.files import Refused, file_bytes, written_whole
from ggp_tools.competition.known import Known, sum_of_file
from ggp_tools.competition.match_files import check_records, unplanned_records
from ggp_tools.competition.match_lines import matches_text
from ggp_tools.competition.packing import Spoilt, pack, unpack
from ggp_tools.competition.pages import Pages
from ggp_tools.competition.plan import Plan, faults_of_descriptions, files_of_origin, read_plan, read_sums, rounds_left, sums_text
from ggp_tools.competition.results import Result
from ggp_tools.competition.schedule import schedule_text
from ggp_tools.competition.side_by_side import PROCESSORS
from ggp_tools.competition.table import tables_of
from ggp_tools.competition.table_text import in_order, table_files, without_record
from ggp_tools.descriptions.loading import has_variables, sum_of
from ggp_tools.printable import counted, message_of
from ggp_tools.referee import VERSION_LINE, Referee, Unchecked, has_events

SUMS, VERSION, HOW, GAPS = "SHA256SUMS", "VERSION", "CHECK.txt", "GAPS.tsv"
# The maximum length of VERSION, and the maximum number of errors that are reported for an archive.
MOST_OF_VERSION, MOST_FAULTS = 100, 100
# Errors of this computer. They say nothing about an archive.
SHORTAGES = errno.ENOSPC, errno.EDQUOT, errno.EIO, errno.EMFILE, errno.ENFILE, errno.ENOMEM
HOW_TO = """How to check this competition.

    ggp_competition check {name}.tar.gz

makes all of these checks. To make them by hand, run these commands in this directory:

    sha256sum --check SHA256SUMS                                          each file is the one that was published
    ggp_manager verify --rules-file rules/GAME.kif < records/ID.json      the match follows the rules
    ggp_manager replay --rules-file rules/GAME.kif < accounts/ID.txt      each call gets the same reply again, and the calls give this record
    ggp-hold-against games/GAME.kif records/ID.json                       if the description has variables: the match follows it, too
    ggp_competition table                                                 the schedule follows from competition.toml, and the table from the records

rules/GAME.kif has the ground rules that the referee played. games/GAME.kif has the description that they were made from. `plan` wrote the
SHA-256 checksums of the descriptions to rules/DESCRIPTIONS.sha256. planned.toml is the competition.toml that `plan` read last. VERSION has
the version of the program that published this archive. These files are only in some archives:

    rules/GAME.players    the rules that the players of this game received, instead of rules/GAME.kif
    GAPS.tsv              the matches of the schedule that have no record
    again.tsv             the matches that were played again, with the reasons. Their earlier records do not count
    earlier/N.toml        competition.toml as it was when the first N matches were planned
    ids.key               the key that the random ids of the matches follow from
    seeds.csv             the table of another competition, which gives the order of the players

No check shows that these players sent these answers, or when. Keep the checksum of the archive that its publisher announced.
"""


# A file of an archive: its name, and its contents as bytes, as the path of a file, or as a function that returns them.
Data = bytes | pathlib.Path | Callable[[], bytes]
Content = tuple[str, Data]


def files_below(folder: pathlib.Path) -> dict[str, pathlib.Path]:
    """Returns the files below a directory, in order, by their paths relative to the directory."""
    return {str(file.relative_to(folder)): file for file in sorted(folder.rglob("*")) if file.is_file()}


def contents(plan: Plan, referee: Referee, results: list[Result], pages: Iterable[str], known: Known | None = None) -> Iterator[Content]:
    """Yields the name and the contents of each file to publish, including the files of `pages`."""
    folder = plan.folder
    yield "competition.toml", plan.text
    yield "schedule.tsv", folder.schedule
    for file in files_of_origin(plan):
        yield str(file.relative_to(folder.path)), file
    for file in (folder.rule_sums, folder.description_sums):
        yield f"rules/{file.name}", file
    for game in plan.competition.games:
        for file in folder.rule_files(game):
            yield f"rules/{file.name}", file
        yield f"games/{game.name}.kif", folder.description(game)
    for match in (result.match.id for result in results):
        yield f"records/{match}.json", folder.record(match)
        yield f"accounts/{match}.txt", folder.account(match)
        yield f"logs/{match}.jsonl", functools.partial(folder.read_log, match)
    yield "matches.jsonl", matches_text(plan, results, known)
    if folder.journal.is_file():
        yield folder.journal.name, folder.journal
    if (missing := without_record(plan, results)) or rounds_left(plan):
        yield GAPS, schedule_text(missing)
    yield from table_files(plan, tables_of(plan.competition, results, plan.rounds, known=known)).items()
    yield from ((f"pages/{name}", folder.pages / name) for name in sorted(pages))
    yield VERSION, f"{referee.version()}\n".encode("ascii")
    yield HOW, HOW_TO.format(name=plan.competition.name).encode("ascii")


def publish(plan: Plan, referee: Referee, results: list[Result], path: pathlib.Path, known: Known) -> str:
    """Writes the archive, and returns its checksum. Publishing the same files again produces the same archive. Match pages that are up to date are
    left as they are."""
    pages = Pages(plan, True, known).write(results)
    with written_whole(path) as file:
        files = with_sums(contents(plan, referee, results, pages, known))
        pack(file, ((f"{plan.competition.name}/{name}", data) for name, data in files))
    return sum_of_file(path)


def bytes_of(data: Data) -> bytes:
    if isinstance(data, bytes):
        return data
    return data.read_bytes() if isinstance(data, pathlib.Path) else data()


def with_sums(contents: Iterable[Content]) -> Iterator[tuple[str, bytes]]:
    """Yields the name and the bytes of each published file, and finally the name and the bytes of the file with the checksums."""
    sums = {}
    for name, data in contents:
        data = bytes_of(data)
        sums[name] = sum_of(data)
        yield name, data
    yield SUMS, sums_text(sums)


def faults_of_sums(folder: pathlib.Path) -> Iterator[str]:
    """Yields an error for each file that is missing, has no checksum, or does not match its checksum."""
    files = files_below(folder)
    if SUMS not in files:
        yield f"{SUMS} is missing"
        return
    sums = read_sums(files.pop(SUMS).read_bytes())
    if sums is None:
        yield f"{SUMS} names a file twice, or has a line that is not a checksum"
        return
    for name in sorted(sums.keys() - files.keys()):
        yield f"{name} is missing"
    for name in sorted(files.keys() - sums.keys()):
        yield f"{name} has no checksum"
    for name in sorted(files.keys() & sums.keys()):
        if sum_of_file(files[name]) != sums[name]:
            yield f"{name} does not match its checksum"


def has_bytes(file: pathlib.Path, data: bytes) -> bool:
    """Returns whether the contents of the file are `data`. A file of another size is not read, because it may be huge."""
    return file.stat().st_size == len(data) and file.read_bytes() == data


def faults_of_files(plan: Plan, referee: Referee, results: list[Result]) -> Iterator[str]:
    """Yields an error for each file that is missing, that `publish` would write with different contents, or that it would not write at all."""
    folder = plan.folder
    files = {name: file for name, file in files_below(folder.path).items() if not name.startswith("pages/")}
    # The pages are made again for comparison, so those of the archive are moved to a directory whose name no archive contains.
    archived = folder.path.parent / "pages of the archive"
    os.rename(folder.pages, archived) if folder.pages.is_dir() else archived.mkdir()
    files |= {f"pages/{name}": file for name, file in files_below(archived).items()}
    pages = Pages(plan, True).write(results)
    for name, data in contents(plan, referee, results, pages):
        file, is_page = files.pop(name, None), name.startswith("pages/")
        if file is None:
            yield f"{name} is missing"
        elif name != VERSION and (is_page or isinstance(data, bytes)) and not has_bytes(file, bytes_of(data)):
            yield f"{name} does not follow from the records"
    yield from (f"{name} is not part of this competition" for name in files if name != SUMS)


def faults_of_matches(plan: Plan, referee: Referee) -> tuple[list[Result], list[str]]:
    """Returns the results of the matches, and the errors in their records, call logs and match logs."""
    results, faults, misfits = check_records(plan, referee)
    checked = results | faults | misfits
    # GAPS.tsv is compared later.
    gaps = [] if (plan.folder.path / GAPS).is_file() else [match for match in plan.matches if match.id not in checked and not match.withdrawn]
    without_log = [match for match in plan.matches if (match.id in checked or match in gaps) and not plan.folder.has_log(match.id)]
    return in_order(plan, results), [
        *(f"{match}: {why}" for match, why in (faults | misfits).items()),
        *(f"{match.id}: it has no record" for match in gaps),
        *(f"{match.id}: its log is missing" for match in without_log),
        *(f"records/{name}: it belongs to no match of the schedule" for name in unplanned_records(plan)),
        *faults_of_logs(plan, in_order(plan, results), is_published=True),
    ]


def version_of(folder: pathlib.Path) -> str:
    """Returns the version of the program that published an archive. Refuses an archive whose logs only an earlier version can read."""
    version = file_bytes(folder / VERSION, MOST_OF_VERSION) if (folder / VERSION).is_file() else b""
    if not VERSION_LINE.fullmatch(version):
        raise Spoilt(f"{VERSION} is not one line of the form `ggp_manager N.N.N`" if version else f"{VERSION} is missing")
    made_by = version.decode("ascii").strip()
    if not has_events(version):
        raise Spoilt(f"it was published with {made_by}: check it with that version, since its logs are not JSON")
    return made_by


def check_archive(path: pathlib.Path, referee: Referee) -> tuple[list[str], str]:
    """Checks an archive. Returns its errors as lines of printable ASCII of limited length. If there are no errors, also returns a sentence that sums
    up the checks."""
    try:
        with tempfile.TemporaryDirectory() as empty:
            try:
                return [], what_is_right(path, pathlib.Path(empty), referee)
            except Refused as why:
                lines = why.words.replace(f"{empty}/", "").split("\n")
                more = [f"there {'is' if len(lines) == MOST_FAULTS + 1 else 'are'} {counted(len(lines) - MOST_FAULTS, 'more error')}"] if len(lines) > MOST_FAULTS else []
                return [*map(message_of, lines[:MOST_FAULTS]), *more], ""
            except Unchecked as why:
                raise Unchecked(str(why).replace(f"{empty}/", "")) from None
    except MemoryError:
        raise Unchecked("the archive can't be checked: out of memory") from None
    except OSError as why:
        if why.errno not in SHORTAGES:
            raise
        raise Unchecked(f"the archive can't be checked in {tempfile.gettempdir()}: {why.strerror}") from None


def compared_side_by_side(file: pathlib.Path, records: Sequence[bytes]) -> list[str]:
    """Compares records with a description, in several processes. Returns the result for each record."""
    size = -(-len(records) // PROCESSORS)
    parts = [records[at : at + size] for at in range(0, len(records), size)]
    with concurrent.futures.ThreadPoolExecutor(PROCESSORS) as pool:
        return [line for lines in pool.map(lambda part: comparisons(file, part), parts) for line in lines]


def compared_matches(plan: Plan, results: list[Result], folder: pathlib.Path) -> tuple[str, list[str]]:
    """Compares the matches of each game with the game's description, if the description has variables. Returns a remark about the
    comparison, and the differences."""
    count, not_followed, faults = 0, [], []
    for game in plan.competition.games:
        file, matches = folder / f"games/{game.name}.kif", [result.match for result in results if result.match.game == game.name]
        if not matches or not has_variables(file.read_bytes()):
            continue
        for match, line in zip(matches, compared_side_by_side(file, [plan.folder.record(match.id).read_bytes() for match in matches])):
            count += line.startswith(IS_SAME)
            if line.startswith(DIFFERS):
                faults.append(f"{match.id}: compared with games/{game.name}.kif, it {line}")
            elif not line.startswith(IS_SAME):
                not_followed.append(f"{match.id} {line}")
    remark = f"; {counted(count, 'match', 'agrees', 'agree')} with descriptions that have variables" if count or not_followed else ""
    return f"{remark}, and {len(not_followed)} could not be followed: {', '.join(not_followed)}" if not_followed else remark, faults


def refuse(faults: Iterable[str]) -> None:
    if lines := [fault.replace("\n", "?") for fault in faults]:
        raise Spoilt("\n".join(lines))


def what_is_right(path: pathlib.Path, empty: pathlib.Path, referee: Referee) -> str:
    """Unpacks an archive into an empty directory, and checks it. Returns a sentence that sums up the checks, or raises `Refused` with the
    errors."""
    folder = unpack(path, empty)
    made_by = version_of(folder)
    refuse(faults_of_sums(folder))
    plan = read_plan(folder, referee)
    if folder.name != plan.competition.name:
        raise Spoilt(f"its directory is named {folder.name}, but the competition is named {plan.competition.name}")
    results, faults = faults_of_matches(plan, referee)
    faults += [fault.replace(f"{folder}/", "") for fault in faults_of_descriptions(plan, lambda game: folder / f"games/{game.name}.kif")]
    refuse(faults)
    compared, faults = compared_matches(plan, results, folder)
    refuse(faults)
    refuse(faults_of_files(plan, referee, results))
    missing, left = len(without_record(plan, results)), rounds_left(plan)
    gaps = f"; {missing} of {len(plan.matches)} matches have no record; {GAPS} lists them" if missing else ""
    gaps += f"; {left} of {left + len(plan.rounds)} rounds were not planned" if left else ""
    right = f"the checksums, the schedule, {counted(len(results), 'record')} and call log{'s' * (len(results) != 1)}, the table and the pages are right{gaps}"
    return f"{right}{compared}; published with {made_by}, checked by {referee.version()}"
