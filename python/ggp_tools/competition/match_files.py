"""Checks the files of matches. A match counts if it has a lawful record, and a call log that reproduces this record."""

import contextlib
import itertools
import json
import os
import pathlib
import threading
from collections.abc import Callable, Iterable, Iterator, Mapping, Sequence
from dataclasses import replace
from typing import TYPE_CHECKING, NamedTuple

from ggp_tools.competition.call_logs import fault_of_account
from ggp_tools.competition.competition_file import Competition
from ggp_tools.competition.files import Folder, file_bytes, write_whole
from ggp_tools.competition.known import Known, sum_of_file, sum_of_parts
from ggp_tools.competition.results import Result, counted_result, fault_of_record, read_record
from ggp_tools.competition.schedule import Match
from ggp_tools.competition.side_by_side import PROCESSORS
from ggp_tools.records.lengths import LONGEST_ACCOUNT, USUAL_RECORD, longest_record, without_states
from ggp_tools.records.record import is_list, is_text, record_sum
from ggp_tools.referee import Referee, Unchecked

if TYPE_CHECKING:
    from ggp_tools.competition.plan import Plan
    from ggp_tools.descriptions.loading import Rules

# The maximum number of matches that are checked together. Their files are in memory at the same time, so together they have at most this many
# bytes, unless a single match has more.
TOGETHER, BYTES_TOGETHER = 250, 1 << 25
# Only one batch at a time may have more bytes than this.
LARGE = threading.Lock()


class Check(NamedTuple):
    """The check of a match's files: the result of the match, or why the match does not count. `fault` is an error in the files, and `misfit` says how
    valid files differ from the match."""

    match: Match
    fault: str | None = None
    misfit: str | None = None
    result: Result | None = None


def size_of(*files: pathlib.Path) -> int:
    size = 0
    for file in files:
        with contextlib.suppress(OSError):
            size += os.stat(file).st_size
    return size


def batches(matches: Iterable[Match], size_of_match: Callable[[Match], int]) -> Iterator[list[Match]]:
    """Yields the matches in order, in batches that are checked together."""
    batch, size = [], 0
    for match in matches:
        more = size_of_match(match)
        if batch and (len(batch) == TOGETHER or size + more > BYTES_TOGETHER):
            yield batch
            batch, size = [], 0
        batch.append(match)
        size += more
    if batch:
        yield batch


def most_of_record(rules: bytes, size: int) -> int:
    """Returns how many bytes a record of a game with these rules may have. The limit is computed only if the record exceeds the usual
    limit."""
    return USUAL_RECORD if size <= USUAL_RECORD else longest_record(rules)


def record_bytes(folder: Folder, match: str, rules: bytes) -> bytes:
    """Returns the record of a match. If the file is longer than a record of the game may be, returns just enough bytes to show this."""
    file = folder.record(match)
    return file_bytes(file, most_of_record(rules, size_of(file)) + 2)


def account_bytes(folder: Folder, match: str) -> bytes | None:
    """Returns the call log of a match, or None if the file is missing. If the call log is too long, returns one byte more than the
    limit."""
    try:
        return file_bytes(folder.account(match), LONGEST_ACCOUNT + 1)
    except FileNotFoundError:
        return None


def fault_of_files(record: bytes, account: bytes | None, rules: bytes) -> str | None:
    """Returns the reason why the files of a match cannot be passed to the referee, or None. Such a reason is any input that makes the referee stop
    reading, or that the referee skips."""
    if account is None:
        return "its call log is missing"
    if len(account) > LONGEST_ACCOUNT:
        return f"its call log has more than {LONGEST_ACCOUNT:,} bytes"
    if not account.endswith(b"\n"):
        return "its call log is cut off"
    if len(record) - 1 > (most := most_of_record(rules, len(record) - 1)):
        return f"its record has more than {most:,} bytes, the most that a match of its game can have"
    if record.count(b"\n") != 1 or not record.endswith(b"\n"):
        return "its record is not one line"
    if not record.startswith(b"{"):
        return "its record does not begin with `{`"
    return fault_of_account(account)


def has_shape(record: object, roles: int) -> bool:
    """Returns whether a JSON value contains all the parts of a record that determine its result."""
    if not isinstance(record, dict):
        return False
    goals, errors = record.get("goalValues"), record.get("errors")
    if not isinstance(goals, list) or not isinstance(errors, list) or not isinstance(record.get("moves"), list):
        return False
    if len(goals) not in (0, roles) or not all(type(goal) is int for goal in goals):
        return False
    return all(is_list(turn, is_text, [roles]) for turn in errors)


def unverified_result(folder: Folder, competition: Competition, rules: Mapping[str, "Rules"], match: Match) -> Result | None:
    """Returns the result of a match from its record, which has not been checked yet. If there is no readable record of the match, returns None."""
    try:
        data = record_bytes(folder, match.id, rules[match.game].text)
        record = json.loads(without_states(data))
    except (FileNotFoundError, ValueError, RecursionError):
        return None
    if not has_shape(record, len(match.players)) or "phase" not in record or fault_of_record(record, match, competition.strikes):
        return None
    return counted_result({"cause": None, **record}, data, match, competition, rules[match.game])


def referee_faults(plan: "Plan", referee: Referee, game: str, records: Sequence[bytes], accounts: Sequence[bytes]) -> list[str | None]:
    """Returns, for each record with its call log, the error that the referee finds in the record or the call log, or None."""
    rules, referee = plan.folder.rules_of(game), plan.referee_of(referee, game)
    verdicts = referee.verdicts(rules, records)
    lawful = [at for at, verdict in enumerate(verdicts) if verdict == "lawful"]
    replays = dict(zip(lawful, referee.replays(rules, [accounts[at] for at in lawful], [records[at] for at in lawful])))
    wrong = "its call log does not reproduce its record"
    return [None if replays.get(at) else wrong if at in replays else verdict for at, verdict in enumerate(verdicts)]


def check_of(plan: "Plan", match: Match, data: bytes, fault: str | None) -> Check:
    """Returns the check of a match. `fault` is the error that the referee has reported, or None if it has accepted the files."""
    if fault:
        return Check(match, fault)
    record = read_record(data)
    if misfit := fault_of_record(record, match, plan.competition.strikes):
        return Check(match, misfit=misfit)
    return Check(match, result=counted_result(record, data, match, plan.competition, plan.rules[match.game]))


def sum_of_rule(plan: "Plan", referee: Referee, game: str) -> bytes | None:
    """Returns a checksum of everything that the check of a game's match depends on, except the files of the match: the program, the rules, and
    two numbers of competition.toml. If a file cannot be read, returns None."""
    competition = plan.competition
    try:
        sums = sum_of_file(referee.path), sum_of_file(plan.folder.rules_of(game))
    except OSError:
        return None
    return sum_of_parts(*(str(part).encode() for part in (*sums, competition.strikes, competition.faults.replaced))).encode()


def key_of_files(rule: bytes, match: Match, record: bytes, account: bytes | None) -> str:
    """Returns the key under which the result of a match is cached."""
    return sum_of_parts(rule, repr(match).encode(), record, account or b"")


def known_checks(plan: "Plan", referee: Referee, game: str, matches: Sequence[Match], known: Known) -> dict[str, Check]:
    """Returns, by match id, the checks of those matches of a game whose results are cached."""
    rule, rules, by_id = sum_of_rule(plan, referee, game), plan.rules[game].text, {}
    for match in matches if rule else ():
        record = record_bytes(plan.folder, match.id, rules)
        key = key_of_files(rule, match, record, account_bytes(plan.folder, match.id))
        if result := known.get("results", key):
            is_same = result.has_forfeits == plan.competition.forfeit
            by_id[match.id] = Check(match, result=result if is_same else replace(result, has_forfeits=plan.competition.forfeit))
            known.checked[match.id] = key, record_sum(record)
    return by_id


def checks(plan: "Plan", referee: Referee, game: str, matches: Sequence[Match], known: Known | None = None) -> list[Check]:
    """Checks matches of a game that have records. Raises `Unchecked` if the referee gives no verdict."""
    rules, done, left = plan.rules[game].text, {}, []
    rule = sum_of_rule(plan, referee, game) if known else None
    for match in matches:
        record, account = record_bytes(plan.folder, match.id, rules), account_bytes(plan.folder, match.id)
        if fault := fault_of_files(record, account, rules):
            done[match.id] = Check(match, fault)
        else:
            left.append((match, record, account))
    faults = referee_faults(plan, referee, game, [record for _, record, _ in left], [account for _, _, account in left]) if left else ()
    # If the program or the rules have changed in the meantime, the referee may have used either version.
    is_same = rule and rule == sum_of_rule(plan, referee, game)
    for (match, record, account), fault in zip(left, faults):
        check = done[match.id] = check_of(plan, match, record, fault)
        if is_same and check.result:
            known.checked[match.id] = key, _ = key_of_files(rule, match, record, account), record_sum(record)
            known.put("results", key, check.result)
    return [done[match.id] for match in matches]


def in_threads(call: Callable[..., list[Check]], parts: Sequence[tuple]) -> Iterator[list[Check]]:
    """Makes a call for each part, in several threads. Most of the time is spent in the referee, which runs in separate processes for each call."""
    if parts:
        # Loading this takes long, and it is usually not needed, because all results are cached.
        from concurrent.futures import ThreadPoolExecutor

        with ThreadPoolExecutor(PROCESSORS) as pool:
            yield from pool.map(call, parts)


def check_records(plan: "Plan", referee: Referee, known: Known | None = None) -> tuple[dict[str, Result], dict[str, str], dict[str, str]]:
    """Returns, by match id, the results of the matches that count, and the `fault` or `misfit` of each other match that has a record."""
    by_game: dict[str, list[Match]] = {}
    names = {file.name for file in os.scandir(plan.folder.records)} if plan.folder.records.is_dir() else ()
    for match in plan.matches:
        if plan.folder.record(match.id).name in names:
            by_game.setdefault(match.game, []).append(match)

    def size_of_match(match: Match) -> int:
        return size_of(*files_of(plan.folder, match.id)[1:])

    def check_batch(part: tuple[str, list[Match]]) -> list[Check]:
        with LARGE if sum(map(size_of_match, part[1])) > BYTES_TOGETHER else contextlib.nullcontext():
            return checks(plan, referee, *part, known)

    done, parts = [], []
    try:
        for game, matches in by_game.items():
            from_cache = known_checks(plan, referee, game, matches, known) if known and known.facts("results") else {}
            done += from_cache.values()
            parts += [(game, batch) for batch in batches((match for match in matches if match.id not in from_cache), size_of_match)]
        done += itertools.chain.from_iterable(in_threads(check_batch, parts))
    except MemoryError:
        raise Unchecked("records and call logs can't be checked: out of memory") from None
    results = {check.match.id: check.result for check in done if check.result}
    return results, {check.match.id: check.fault for check in done if check.fault}, {check.match.id: check.misfit for check in done if check.misfit}


def unplanned_records(plan: "Plan") -> list[str]:
    """Returns the record files that belong to no match of the schedule."""
    planned = {plan.folder.record(match.id).name for match in plan.matches}
    return sorted({file.name for file in plan.folder.records.glob("*.json")} - planned)


def free_ending(files: tuple[pathlib.Path, ...], word: str) -> str:
    """Returns the first of the endings `.word`, `.word.2`, `.word.3` and so on that none of the existing files has."""
    endings = itertools.chain([f".{word}"], (f".{word}.{count}" for count in itertools.count(2)))
    return next(ending for ending in endings if not any(file.with_name(file.name + ending).exists() for file in files))


def files_of(folder: Folder, match: str) -> tuple[pathlib.Path, ...]:
    """Returns the files of a match in the order of writing: the record last."""
    return folder.log(match), folder.account(match), folder.record(match)


def set_aside(plan: "Plan", match: str) -> bool:
    """Renames the files of a match that does not count, without replacing files that were renamed before. Returns whether there were any
    files."""
    files = files_of(plan.folder, match)
    existing = [file for file in files if file.exists()]
    ending = free_ending(files, "refused") if existing else ""
    for file in existing:
        os.replace(file, file.with_name(file.name + ending))
    return bool(existing)


def keep(folder: Folder, match: str, record: bytes, account: bytes, log: bytes, word: str | None = None) -> pathlib.Path:
    """Writes the files of a match. The record is written last, so a match that has a record also has the other files. If `word` is given,
    the names of the files end with this word, and the match does not count. Returns the path of the record. If a file cannot be written,
    deletes the files that were written before it."""
    files = files_of(folder, match)
    ending = free_ending(files, word) if word else ""
    named = [file.with_name(file.name + ending) for file in files]
    try:
        for file, data in zip(named, (log, account, record)):
            write_whole(file, data)
    except OSError:
        # As soon as the record has its final name, the match counts.
        with contextlib.suppress(OSError):
            for file in named if not named[-1].exists() else ():
                file.unlink(missing_ok=True)
        raise
    return named[-1]
