"""Checks the matches that `play` has played, and writes the files of the matches that count."""

import asyncio
import collections
import pathlib
import shutil
import tempfile
from collections.abc import Sequence
from typing import NamedTuple

from ggp_tools.competition.described import DIFFERS, IS_NOT_FOLLOWED, IS_SAME, comparisons, description_of, write_report
from ggp_tools.competition.files import file_bytes
from ggp_tools.competition.match_files import batches, check_of, fault_of_files, keep, referee_faults
from ggp_tools.competition.plan import Plan
from ggp_tools.competition.results import Result
from ggp_tools.competition.schedule import Match
from ggp_tools.match_log import Other, line_of
from ggp_tools.printable import printable
from ggp_tools.referee import Referee, Unchecked


class Checked(NamedTuple):
    """The result of a match, or the reason why the match does not count, and whether the rules of the game are wrong."""

    result: Result | None = None
    why: str | None = None
    stops_game: bool = False


class Checking:
    """Has the referee check the files of matches. While it checks matches of a game, other matches of the game may end. The referee then
    checks all of these together, which takes about as long as checking one."""

    def __init__(self, plan: Plan, referee: Referee) -> None:
        self.plan, self.referee = plan, referee
        # For each match: first its record and its call log, and then the error in them.
        self.waiting: dict[Match, tuple[bytes, bytes]] = {}
        self.faults: dict[Match, str | Unchecked | None] = {}
        self.locks: dict[str, asyncio.Lock] = collections.defaultdict(asyncio.Lock)

    async def check(self, match: Match, output: bytes, log: pathlib.Path) -> Checked:
        """Has the referee verify the record and replay the call log in the output of a match, compares the match with the description of its
        game, and then writes the files of the match."""
        line, end, account = output.partition(b"\n")
        files = line + end, account
        fault = await self.fault_of(match, files)
        # This waits for the disk, so it runs in a thread.
        return await asyncio.to_thread(keep_if_right, self.plan, match, files, log, fault)

    async def fault_of(self, match: Match, files: tuple[bytes, bytes]) -> str | Unchecked | None:
        """Returns the error in the files of a match, or the reason why the referee has no verdict, or None if there is no error."""
        self.waiting[match] = files
        try:
            async with self.locks[match.game]:
                if match in self.waiting:
                    others = (other for other in self.waiting if other.game == match.game and other != match)
                    batch = next(batches((match, *others), lambda one: sum(map(len, self.waiting[one]))))
                    faults = await asyncio.to_thread(faults_of, self.plan, self.referee, match.game, [self.waiting[one] for one in batch])
                    for one, fault in zip(batch, faults):
                        self.faults[one] = fault
                        self.waiting.pop(one, None)
            return self.faults.pop(match)
        finally:
            self.waiting.pop(match, None)


def faults_of(plan: Plan, referee: Referee, game: str, files: Sequence[tuple[bytes, bytes]]) -> list[str | Unchecked | None]:
    """Returns, for each match of a game, the error in its files, or the reason why the referee has no verdict, or None if there is no error."""
    faults: list[str | Unchecked | None] = [fault_of_files(*each, plan.rules[game].text) for each in files]
    sound = [at for at, fault in enumerate(faults) if not fault]
    try:
        verdicts = referee_faults(plan, referee, game, *zip(*(files[at] for at in sound))) if sound else []
    except Unchecked as why:
        # Perhaps only one of the matches is the reason, so each is checked separately.
        verdicts = [why] if len(sound) == 1 else [faults_of(plan, referee, game, [files[at]])[0] for at in sound]
    for at, verdict in zip(sound, verdicts):
        faults[at] = verdict
    return faults


def keep_if_right(plan: Plan, match: Match, files: tuple[bytes, bytes], open_log: pathlib.Path, fault: str | Unchecked | None) -> Checked:
    """Writes the files of a match, unless they have an error. If the referee has no verdict, the names of the files end with `.unchecked`. If the
    match differs from the description of its game, they end with `.differs`."""
    (record, account), log = files, file_bytes(open_log)
    if isinstance(fault, Unchecked):
        file = keep(plan.folder, match.id, *files, log, "unchecked")
        return Checked(why=f"it was played, but not checked, and is kept as {file}: {fault}")
    check = check_of(plan, match, record, fault)
    if not check.result:
        return Checked(why=check.fault or check.misfit)
    description, comparison = compare(plan, match, record)
    if comparison and comparison.startswith(DIFFERS):
        file = keep(plan.folder, match.id, *files, log, "differs")
        words = f"{comparison}\n".encode("ascii", "replace")
        report = write_report(plan, match, {"description.kif": description, "record.json": record, "account.txt": account, "words.txt": words})
        why = f"compared with the description of {match.game}, it {comparison}; it is kept as {file}; please report this, and include {report}"
        return Checked(None, why, True)
    if comparison:
        why_not = None if comparison.startswith(IS_SAME) else printable(comparison.removeprefix(IS_NOT_FOLLOWED))
        log += line_of(Other("held", {"match": match.id, "reason": why_not}))
    keep(plan.folder, match.id, *files, log)
    shutil.rmtree(plan.folder.open / match.id, ignore_errors=True)
    return Checked(check.result)


def compare(plan: Plan, match: Match, record: bytes) -> tuple[bytes | None, str | None]:
    """Compares a record with the description of its game. Returns the description, and the outcome or the reason why there is none. If the
    game was given as ground rules, both are None."""
    game = next(game for game in plan.competition.games if game.name == match.game)
    description, why_not = description_of(plan, game)
    if description is None:
        return None, why_not
    # The comparison uses a copy of the file, because the file may change.
    with tempfile.NamedTemporaryFile(dir=plan.folder.open / match.id) as copy:
        copy.write(description)
        copy.flush()
        try:
            return description, comparisons(pathlib.Path(copy.name), [record])[0]
        except Unchecked as why:
            return description, str(why)
