"""Plans a competition: writes its rules and its schedule, extends them later, and reads them."""

import functools
import itertools
import os
import re
import secrets
from collections.abc import Callable, Iterator, Mapping
from dataclasses import dataclass, field, replace
from pathlib import Path

from ggp_tools.competition.addresses import mistakes_of_addresses, places_now, written
from ggp_tools.competition.competition_file import MOST_OF_COMPETITION, RANDOM_IDS, REASON, Competition, Game, Mistake, Mistaken, mistake_lines
from ggp_tools.competition.files import MOST_OF_PLANNED, UNFINISHED, Folder, Refused, file_bytes, locked, opened_file, write_whole
from ggp_tools.competition.game import try_rules
from ggp_tools.competition.growth import Again, Growing, History, Misfit, grown, refuse_changes, refuse_unchanged, shape
from ggp_tools.competition.history import again_text, competition_of_file, earlier_files, history_files, read_history, read_key, seeded
from ggp_tools.competition.match_files import check_records, checks, record_bytes, unverified_result
from ggp_tools.competition.results import Result
from ggp_tools.competition.rounds import Round, is_by_rounds, rounds_of
from ggp_tools.competition.schedule import MOST_MATCHES, MOST_OF_ROW, Match, id_of, matches_in, schedule_rows, schedule_text
from ggp_tools.descriptions.loading import NoDescription, Rules, Stopped, has_variables, load_described, load_description, rules_of, sum_of
from ggp_tools.referee import Referee, Unchecked

SUM_LINE = re.compile(rb"([0-9a-f]{64})  ([^\n]+)\n")
ONLY_SUMS = re.compile(rb"(?:[0-9a-f]{64}  [^\n]+\n)*")
# The file of another competition's table, which gives the seeds.
TABLE = "table.csv"
WRITES = "`ggp_competition plan` writes it"
PUT_BACK = "undo the change: once matches have been played, the plan can only grow"


@dataclass
class Plan:
    """A competition with its rules by game, its matches in the order of the schedule, the bytes of competition.toml, its history, and its
    rounds. If the plan has grown, `known` is the number of matches that were planned before, otherwise None."""

    folder: Folder
    competition: Competition
    rules: dict[str, Rules]
    matches: list[Match]
    text: bytes = b""
    history: History = History()
    rounds: list[Round] = field(default_factory=list)
    known: int | None = None

    def next_id(self) -> str:
        width = len(self.matches[0].id.removeprefix(f"{self.competition.name}-").partition("-")[0])
        return id_of(self.competition, len(self.matches) + 1, width, self.history.key)

    def new_matches(self) -> list[Match]:
        return self.matches[self.known or 0 :]

    def roles(self, game: str) -> tuple[str, ...]:
        return self.rules[game].roles

    def referee_of(self, referee: Referee, game: str) -> Referee:
        """Returns the referee with the limits that apply to a game: the usual ones, or those for large games."""
        return referee.taking(self.rules[game].is_large)

    def read_record(self, match: Match) -> bytes:
        """Returns the record of a match. If the file is longer than a record of the game may be, returns just enough bytes to show this."""
        return record_bytes(self.folder, match.id, self.rules[match.game].text)


class Unplanned(Refused):
    """There is no plan, or the plan does not agree with competition.toml."""


# ---- files of a plan


def read_file(path: Path, most: int = MOST_OF_PLANNED + 1) -> bytes:
    """Returns the bytes of a file, or only the first `most` bytes."""
    try:
        return file_bytes(path, most)
    except OSError as why:
        raise Refused(f"{path} can't be read: {why.strerror}") from None


def read_toml_file(path: Path) -> bytes:
    """Returns the bytes of a competition.toml. If the file is too long, returns one byte more than the limit."""
    return read_file(path, MOST_OF_COMPETITION + 1)


def read_planned(path: Path) -> bytes:
    if not path.exists():
        raise Unplanned(f"{path} does not exist", WRITES)
    data = read_file(path)
    if len(data) > MOST_OF_PLANNED:
        raise not_planned(path)
    return data


def rows_of(path: Path) -> Iterator[bytes]:
    """Yields the rows of a schedule one by one. Refuses more or longer rows than `plan` writes."""
    try:
        with opened_file(path) as file:
            for number, row in enumerate(iter(lambda: file.readline(MOST_OF_ROW), b""), 1):
                if number > MOST_MATCHES + 1 or len(row) == MOST_OF_ROW:
                    raise Refused(f"{path}:{number}: expected at most {MOST_MATCHES:,} matches, each in a row of less than {MOST_OF_ROW:,} bytes")
                yield row
    except OSError as why:
        raise Refused(f"{path} can't be read: {why.strerror}") from None


def not_planned(path: Path) -> Refused:
    """Returns the error for a file that was changed after `plan` wrote it."""
    return Refused(f"{path} is not what `ggp_competition plan` wrote", f"delete it, and {WRITES} again")


def sums_text(sums: Mapping[str, str]) -> bytes:
    """Formats checksums, which are given by file name, as `sha256sum` does."""
    return "".join(f"{digest}  {name}\n" for name, digest in sorted(sums.items())).encode("utf-8")


def read_sums(data: bytes) -> dict[str, str] | None:
    """Returns the checksums in a file by file name, or None if a name occurs twice, or if a line is not a checksum."""
    sums = {name.decode(errors="replace"): digest.decode() for digest, name in SUM_LINE.findall(data)}
    return sums if ONLY_SUMS.fullmatch(data) and len(sums) == data.count(b"\n") else None


def sums_of(path: Path) -> dict[str, str]:
    sums = read_sums(read_planned(path))
    if sums is None:
        raise not_planned(path)
    return sums


def is_played(folder: Folder) -> bool:
    """Returns whether a match has a record. Unfinished files of a killed `play` do not count."""
    return folder.records.is_dir() and any(not file.name.startswith(UNFINISHED) for file in folder.records.glob("*.json"))


def is_begun(folder: Folder) -> bool:
    """Returns whether matches have been played. A plan has a history only after matches have been played, so the history shows this even if the
    records are gone."""
    return is_played(folder) or bool(history_files(folder))


def count_of_matches(folder: Folder) -> int | None:
    """Returns the number of matches in schedule.tsv, or None if schedule.tsv does not exist."""
    return sum(row.endswith(b"\n") for row in rows_of(folder.schedule)) - 1 if folder.schedule.exists() else None


def files_of_origin(plan: Plan) -> list[Path]:
    """Returns the files, other than competition.toml, that the schedule depends on."""
    folder = plan.folder
    return [folder.planned, *history_files(folder), *([folder.key] if plan.history.key else []), *([folder.seeds] if plan.competition.seeds else [])]


def refused_plan(folder: Folder, path: Path) -> Unplanned:
    """Returns the error for a file that `plan` has written for another competition.toml."""
    advice = "matches have already been played, so undo the change, or only add to the file and plan again" if is_played(folder) else f"{WRITES} anew"
    return Unplanned(f"{path} does not agree with {folder.competition}", advice)


# ---- making a plan


def schedule_of(folder: Folder, competition: Competition, rules: Mapping[str, Rules], history: History, most: int | None = None) -> Growing:
    """Returns the schedule that follows from a competition, its history and its records. After `most` matches, no further round is
    planned."""
    roles = {name: len(ground.roles) for name, ground in rules.items()}
    try:
        return grown(history, competition, roles, functools.partial(unverified_result, folder, competition, rules), most)
    except Mistaken as why:
        raise Refused(mistake_lines(folder.competition, why.mistakes)) from None
    except Misfit as why:
        raise Refused(why.at(folder.competition), PUT_BACK) from None


def loaded_games(folder: Folder, competition: Competition, referee: Referee) -> dict[str, Rules]:
    """Returns the rules of each game, by name. If descriptions are invalid, raises one error that lists them all."""
    rules_by_name, mistakes = {}, []
    for game in competition.games:
        path, program = folder.path / game.file, referee.taking(game.large)
        # `Path.resolve` would fail for links in a circle.
        places = {os.path.dirname(os.path.realpath(file)): file for file in (folder.description(game), path)}
        if inside := places.get(os.path.realpath(folder.rules)):
            mistakes.append(Mistake(game.line, "games.file", f"{inside}: a description must not be in {folder.rules}, where `plan` writes the rules"))
            continue
        try:
            if game.described:
                rules = load_described(path, folder.description(game), program, game.tells_variables())
            else:
                rules = load_description(path, program, game.tells_variables(), game.instantiate)
            rules_by_name[game.name] = rules
        except Stopped as why:
            raise Unchecked(f"{path}: {why}; `instantiate` of the game gives it more time") from None
        except NoDescription as why:
            mistakes += [Mistake(game.line, "games.file", f"{path}: {line}") for line in str(why).splitlines()]
            continue
        if game.tells_variables() and rules.player_rules is None:
            mistakes.append(Mistake(game.player_rules_line, "games.player_rules", f'{path} has no variables: use "ground"'))
        if not game.aborts:
            why, note = try_rules(rules.text, program.taking(rules.is_large), game.name)
            mistakes += [Mistake(game.line, "games.file", f"{path}: {why}; with `aborts = true` it is planned anyway")] if why else []
            rules_by_name[game.name] = replace(rules, notes=(*rules.notes, *([note] if note else [])))
    if mistakes:
        raise Refused(mistake_lines(folder.competition, mistakes))
    return rules_by_name


def refuse_addresses(folder: Folder, competition: Competition) -> dict[str, str]:
    """Refuses players that can't be reached or started, and several players at one address. Returns the current address of each player that has
    one, because a host name may lead to another player later."""
    from ggp_tools.competition.started_players import mistakes_of_programs

    places = places_now(competition)
    if mistakes := [*mistakes_of_addresses(competition, places), *mistakes_of_programs(folder, competition)]:
        raise Refused(mistake_lines(folder.competition, mistakes))
    return {name: written(name, own) for name, own in places.items() if own}


def seeds_of(folder: Folder, competition: Competition) -> Path | None:
    """Returns the table of another competition that gives the seeds, or None. Once matches have been played, this is the copy that `plan` has
    made."""
    if not competition.seeds or is_begun(folder) and folder.seeds.exists():
        return folder.seeds if competition.seeds else None
    path = folder.path / competition.seeds
    return path / TABLE if path.is_dir() else path


def make_plan(path: str, referee: Referee, is_preview: bool = False) -> Plan:
    """Writes the rules and the schedule of the competition in a directory, and returns the plan. Writes nothing if this is a preview, if
    there is an error, if matches are being played, or if matches have been played and the changes would do more than extend the
    schedule."""
    folder = Folder(path)
    text = read_toml_file(folder.competition)
    competition = competition_of_file(folder.competition, text)
    if seeds := seeds_of(folder, competition):
        competition = seeded(competition, seeds)
    refuse_addresses(folder, competition)
    rules = loaded_games(folder, competition, referee)
    files = {folder.rules_of(name): ground.text for name, ground in rules.items()}
    files |= {folder.player_rules_of(name): ground.player_rules for name, ground in rules.items() if ground.player_rules is not None}
    with locked(folder.path):
        has_begun = is_begun(folder)
        known = count_of_matches(folder) if has_begun else None
        needs_key = competition.ids == RANDOM_IDS and not (has_begun or folder.key.exists())
        new_key = {folder.key: secrets.token_hex(16).encode("ascii") + b"\n"} if needs_key else {}
        if has_begun:
            history, earlier = history_of(folder, competition, rules)
        else:
            history, earlier = History(key=new_key.get(folder.key) or read_key(folder, competition)), {}
        schedule = schedule_of(folder, competition, rules, history, known)
        if not is_preview:
            write_plan(folder, has_begun, {
                **earlier,
                **new_key,
                **({folder.seeds: read_file(seeds)} if seeds else {}),
                **files,
                folder.description_sums: sums_text({f"{name}.kif": ground.description_sum for name, ground in rules.items()}),
                # Without these checksums, the other files do not count, so an interrupted `plan` must run again.
                folder.rule_sums: sums_text({file.name: sum_of(data) for file, data in files.items()}),
                folder.planned: text,
                folder.schedule: schedule_text(schedule.matches),
            })
    return Plan(folder, competition, rules, schedule.matches, text, history, schedule.rounds.found, known)


def history_of(folder: Folder, competition: Competition, rules: Mapping[str, Rules]) -> tuple[History, dict[Path, bytes]]:
    """Returns the history of a competition whose matches have been played. If competition.toml now requests other matches than the version that
    `plan` read last, the history ends with that version. Also returns the files that `plan` must write to store that version."""
    before, history = planned_before(folder, competition), read_history(folder, competition)
    if before is None or shape(before) == shape(competition):
        return history, {}
    until = len(schedule_of(folder, before, rules, history, count_of_matches(folder)).matches)
    if history.earlier and history.earlier[-1][0] == until:
        return history, {}
    text = read_file(folder.planned)
    earlier_files(folder, len(text))
    return replace(history, earlier=(*history.earlier, (until, before))), {folder.earlier / f"{until}.toml": text}


def planned_before(folder: Folder, competition: Competition) -> Competition | None:
    """Returns the version of the competition that `plan` read last, or None. Refuses changes to values that must not change once matches have
    been played."""
    if not folder.planned.exists():
        return None
    before = competition_of_file(folder.planned, read_toml_file(folder.planned), folder.seeds)
    try:
        refuse_changes(before, competition)
    except Misfit as why:
        raise Refused(why.at(folder.competition), PUT_BACK) from None
    return before


def grows(folder: Folder, file: Path, new: bytes) -> bool:
    """Returns whether a file of a plan may be replaced although matches have been played. All files except planned.toml may only grow."""
    if file in (folder.rule_sums, folder.description_sums):
        return (read_sums(read_file(file)) or {"": ""}).items() <= (read_sums(new) or {}).items()
    if file == folder.schedule:
        # A round may be planned again as long as none of its matches has a record.
        pairs = itertools.zip_longest(rows_of(file), new.splitlines(keepends=True), fillvalue=b"")
        changes = ((old, row) for old, row in pairs if not row.startswith(old))
        return not any(row or folder.record(old.partition(b"\t")[0].decode("ascii", "replace")).exists() for old, row in changes)
    return file == folder.planned or read_file(file) == new


def write_plan(folder: Folder, is_begun: bool, files: dict[Path, bytes]) -> None:
    """Writes the files of a plan. After matches have been played, the files may only grow. Missing files are written again."""
    for file, data in files.items():
        if is_begun and file.exists() and not grows(folder, file, data):
            raise Refused(f"{file} would change, but matches have already been played", "undo the change, or use another directory")
    try:
        folder.make(folder.rules, *([folder.earlier] if any(file.parent == folder.earlier for file in files) else []))
        # The schedule is last, so that it never exists without its rules.
        for file in sorted(files, key=lambda path: path == folder.schedule):
            write_whole(file, files[file], is_private=file == folder.key)
    except OSError as why:
        raise Refused(f"{folder.path} can't be written: {why.filename}: {os.strerror(why.errno)}") from None


# ---- reading a plan


def faults_of_descriptions(plan: Plan, path_of: Callable[[Game], Path], advice: str = "") -> Iterator[str]:
    """Yields an error for each description that is not the one that the rules were made from. `path_of` returns the path of a game's description.
    If the file with the checksums is missing, the error includes the advice."""
    path = plan.folder.description_sums
    if not path.is_file():
        yield f"{path} is missing: it has the checksums of the descriptions{advice}"
        return
    sums = sums_of(path)
    for game in plan.competition.games:
        file = path_of(game)
        if not file.is_file():
            yield f"{file} is missing: it is the description of {game.name}, and the archive needs a copy of it"
        elif sum_of(text := file.read_bytes()) != sums.get(f"{game.name}.kif"):
            yield f"{file} is not the description that the rules of {game.name} were made from"
        elif not has_variables(text) and text != plan.rules[game.name].text:
            yield f"{file} differs from the rules of {game.name}; a ground GDL file must be equal to the rules"
    for name in sorted(sums.keys() - {f"{game.name}.kif" for game in plan.competition.games}):
        yield f"{path} has a checksum of {name}, which is not a game of {plan.folder.competition}"


def read_rules(folder: Folder, competition: Competition, referee: Referee) -> dict[str, Rules]:
    """Returns the rules of each game, by name, as `plan` wrote them."""
    sums, rules = sums_of(folder.rule_sums), {}
    if sums.keys() != {file.name for game in competition.games for file in folder.rule_files(game)}:
        raise refused_plan(folder, folder.rule_sums)
    for game in competition.games:
        files = folder.rule_files(game)
        texts = list(map(read_planned, files))
        if changed := [file for file, data in zip(files, texts) if sum_of(data) != sums[file.name]]:
            raise not_planned(changed[0])
        try:
            rules[game.name] = rules_of(texts[0], files[0], referee.taking(game.large), *texts[1:])
        except NoDescription as why:
            raise Refused(f"the referee refuses {files[0]}: {why}") from None
    return rules


def read_plan(path: str, referee: Referee, checks_records: bool = True) -> Plan:
    """Reads the plan in a directory. Refuses rules and schedules that differ from what `plan` writes for this competition.toml. If the schedule
    differs, checks all records for a more precise reason, unless `checks_records` is false, because this may take long."""
    folder = Folder(path)
    folder.refuse_old_logs()
    text = read_toml_file(folder.competition)
    competition = competition_of_file(folder.competition, text, folder.seeds)
    if (count := count_of_matches(folder)) is None:
        raise Unplanned(f"{folder.schedule} does not exist", WRITES)
    rules, history = read_rules(folder, competition, referee), read_history(folder, competition)
    try:
        growing = schedule_of(folder, competition, rules, history, count)
        pairs = itertools.zip_longest(rows_of(folder.schedule), schedule_rows(growing.matches))
        if different := next((pair for pair in pairs if pair[0] != pair[1]), None):
            if different[1] is None:
                refuse_lost_record(folder, growing)
            raise refused_plan(folder, folder.schedule)
    except Refused:
        # The schedule may differ because rounds were paired by records that do not count.
        if checks_records and is_by_rounds(competition):
            _, faults, misfits = check_records(Plan(folder, competition, rules, matches_in(rows_of(folder.schedule), competition)), referee)
            if wrong := [f"{folder.record(match)}: {why}" for match, why in {**faults, **misfits}.items()]:
                raise Refused("\n".join(wrong)) from None
        raise
    try:
        refuse_unchanged(history, competition)
    except Misfit as why:
        raise Refused(f"{folder.path}: {why}") from None
    # If the bytes are the same, the competition is the same, and comparing many matches would take long.
    if is_begun(folder) and not (folder.planned.exists() and read_toml_file(folder.planned) == text):
        planned_before(folder, competition)
    return Plan(folder, competition, rules, growing.matches, text, history, growing.rounds.found)


def refuse_lost_record(folder: Folder, growing: Growing) -> None:
    """Refuses a schedule with a round that can't be planned again, because a match of the round before it has no record that counts."""
    number = len(growing.rounds.found)
    lost = [match.id for match in growing.of_round(number) if match.counts() and growing.result_of(match) is None]
    if lost:
        what = "does not count" if folder.record(lost[0]).exists() else "is missing"
        fault = f"{folder.schedule} has round {number + 1}, which was paired by the result of {lost[0]}, but the record of {lost[0]} {what}"
        raise Refused(fault, f"put the record back; if no match of a later round has a record, {WRITES} without these rounds")


def refuse_lost_results(plan: Plan, results: Mapping[str, Result]) -> None:
    """Refuses a schedule where a later round was paired by the result of a match whose record does not count."""
    last = len(plan.rounds)
    lost = [match.id for match in plan.matches if match.round < last and match.counts() and match.id not in results]
    if last and lost:
        fault = f"a later round was paired by the result of {lost[0]}, which no longer has a record that counts"
        raise Refused(fault, "put its record, call log and match log back")


# ---- rounds, and matches that are played again


def rounds_left(plan: Plan) -> int:
    """Returns how many rounds are not planned yet."""
    return rounds_of(plan.competition) - len(plan.rounds)


def next_plan(plan: Plan, results: Mapping[str, Result]) -> Plan | None:
    """Returns the plan extended by the next round, and writes nothing. If the last round is not over, or there are no more rounds, returns
    None."""
    if not rounds_left(plan) or any(match.id not in results and match.counts() for match in plan.matches):
        return None
    roles = {name: len(ground.roles) for name, ground in plan.rules.items()}
    # No match of the next round has a result, so there is no further round.
    growing = grown(plan.history, plan.competition, roles, lambda match: results.get(match.id))
    return replace(plan, matches=growing.matches, rounds=growing.rounds.found, known=len(plan.matches))


def plan_next_round(plan: Plan, results: Mapping[str, Result]) -> list[Match]:
    """If the last planned round is over, plans the next round, writes the schedule, and returns the new matches. Otherwise, or if there are no
    more rounds, returns no matches."""
    if not (following := next_plan(plan, results)):
        return []
    write_whole(plan.folder.schedule, schedule_text(following.matches))
    plan.matches, plan.rounds = following.matches, following.rounds
    return following.new_matches()


def round_words(plan: Plan) -> str:
    """Describes the last round of a plan."""
    last = plan.rounds[-1]
    matches = [match for match in plan.matches if match.round == last.number]
    span = f"{matches[0].id} to {matches[-1].id}" if matches else "no match"
    return f"round {last.number} of {rounds_of(plan.competition)}: {span}{last.byes_words()}{last.absent_words()}"


def replaceable_match(plan: Plan, referee: Referee, match_id: str) -> Match:
    """Returns the match with this id. Refuses a match that does not count, or whose result was used to pair a later round."""
    match = next((planned for planned in plan.matches if planned.id == match_id), None)
    if match is None:
        raise Refused(f"{plan.folder.schedule} has no match {match_id}")
    if match.again:
        raise Refused(f"{match_id} was already replaced by {match.again}: {match.reason}")
    if match.withdrawn:
        raise Refused(f"{match_id} does not count: {match.withdrawn}")
    if match.round < len(plan.rounds):
        raise Refused(f"{match_id} can't be played again: it is in round {match.round}, and the next round was paired by the results of that round")
    if not plan.folder.record(match_id).exists():
        raise Refused(f"{match_id} has no record, so `ggp_competition play` plays it")
    (check,) = checks(plan, referee, match.game, [match])
    if why := check.fault or check.misfit:
        raise Refused(f"{match_id} does not count, so `ggp_competition play` plays it again: {why}")
    return match


def order_again(path: str, referee: Referee, match_id: str, reason: str) -> Match:
    """Plans a rematch that replaces the match with this id, stores the reason, and returns the new match."""
    if not REASON.fullmatch(reason):
        raise Refused("--reason: expected 1 to 200 printable ASCII characters, without a space at either end")
    with locked(path):
        plan = read_plan(path, referee)
        match = replaceable_match(plan, referee, match_id)
        history = replace(plan.history, again=(*plan.history.again, Again(plan.next_id(), match.id, reason)))
        schedule = schedule_of(plan.folder, plan.competition, plan.rules, history, len(plan.matches) + 1)
        # The schedule is written last. If this command is interrupted before, `plan` writes it.
        write_whole(plan.folder.again, again_text(history.again))
        write_whole(plan.folder.schedule, schedule_text(schedule.matches))
    return schedule.matches[-1]
