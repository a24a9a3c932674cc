"""Writes facts about each match that its record does not contain, as a line of JSON: the checksums of the record and of the rules, and the
referee. If there is a log, the facts include the time of the match, the duration of each message, and why an answer was broken.
examples/records/README.md describes the keys. The keys have the same meaning as in `matches.jsonl` of a competition."""

import errno
import json
import pathlib
from collections.abc import Iterable

from ggp_tools.competition.known import sum_of_file
from ggp_tools.competition.plan import read_sums
from ggp_tools.match_log import BROKEN, KINDS
from ggp_tools.records.collection import Judged
from ggp_tools.records.exchanges import Exchanges, broken_answers
from ggp_tools.records.match_logs import Beginning, MatchLogs
from ggp_tools.records.record import record_sum
from ggp_tools.records.tables import made_whole
from ggp_tools.referee import VERSION_LINE

DESCRIPTIONS, VERSION = "DESCRIPTIONS.sha256", "VERSION"
TWO_RECORDS, TWO_LOGS = "several matches have this id", "several matches of the logs have this id"


def description_sums(rules: str, descriptions: str | None) -> dict[str, str]:
    """Returns, for each game, the checksum of the description that its rules were made from. If `descriptions` names a directory, the
    checksums are computed from the files in it. Otherwise they are read from the checksum file in the directory `rules`."""
    if descriptions is not None:
        return {file.stem: sum_of_file(file) for file in sorted(pathlib.Path(descriptions).iterdir()) if file.suffix == ".kif" and file.is_file()}
    path = pathlib.Path(rules, DESCRIPTIONS)
    sums = read_sums(path.read_bytes()) if path.is_file() else {}
    if sums is None:
        raise OSError(errno.EINVAL, "it names a file twice, or has a line that is not a checksum", str(path))
    return {name.removesuffix(".kif"): digest for name, digest in sums.items()}


def version_beside(rules: str) -> str | None:
    """Returns the version of the referee from the file VERSION next to a directory of rules, or None. The archive of a competition has that file."""
    path = pathlib.Path(rules).absolute().parent / VERSION
    data = path.read_bytes() if path.is_file() else b""
    return data.decode("ascii").strip() if VERSION_LINE.fullmatch(data) else None


def messages_of(exchanges: Exchanges, logged: Beginning) -> list[list[list | None]] | str:
    """Returns the messages of each role, each as its kind and its milliseconds, or as None if the log lacks its line. If the log does not
    belong to the record, returns the reason instead."""
    messages: list[list[list | None]] = [[None] * exchanges.last(role) for role in range(len(exchanges.players))]
    for role, number, kind, milliseconds, known in logged.messages():
        if not exchanges.has(role, number, KINDS[kind], known):
            return f"its log belongs to another match: role {role}, message {number}"
        messages[role][number - 1] = [KINDS[kind].lower(), milliseconds]
    for role, number in exchanges.broken():
        if number and messages[role][number - 1] and (role, number) not in logged.broken:
            return f"its log has an answer where the record has {BROKEN}: role {role}, message {number}"
    return messages


class Facts:
    """Makes the lines of JSON, and collects the reasons why logs were ignored."""

    def __init__(self, checked_by: str, refereed_by: str | None, descriptions: dict[str, str], logs: MatchLogs) -> None:
        self.checked_by, self.refereed_by, self.descriptions, self.logs = checked_by, refereed_by, descriptions, logs
        # The checksum of the first record with each id.
        self.sums: dict[str, str] = {}
        self.faults: dict[str, str] = {}

    def of_log(self, match_id: str, exchanges: Exchanges) -> tuple[Beginning, list[list[list | None]] | None]:
        """Returns the match in the logs that belongs to a record, and its messages. If there is none, returns an empty match without messages."""
        beginnings = self.logs.of(match_id)
        if len(beginnings) > 1:
            self.faults[match_id] = TWO_LOGS
        if len(beginnings) == 1:
            messages = messages_of(exchanges, beginnings[0])
            if not isinstance(messages, str):
                return beginnings[0], messages
            self.faults.setdefault(match_id, messages)
        return Beginning(), None

    def of(self, judged: Judged) -> dict[str, object]:
        """Returns the facts of a lawful record."""
        line, game, exchanges = judged.line, judged.game, Exchanges(judged.line.record)
        checksum = record_sum(line.data)
        if self.sums.setdefault(line.match_id, checksum) != checksum:
            self.faults[line.match_id] = TWO_RECORDS
        logged, messages = self.of_log(line.match_id, exchanges)
        begin, end, host = logged.times()
        return {
            "id": line.match_id,
            "record": checksum,
            "game": game.name,
            "rules": game.rules_sum,
            "description": self.descriptions.get(game.name),
            "program": self.refereed_by,
            "checkedBy": self.checked_by,
            "players": exchanges.players,
            "begin": begin,
            "end": end,
            "host": host,
            "messages": messages,
            "broken": broken_answers(exchanges, logged.broken),
        }

    def without_log(self, data: bytes) -> bytes:
        """Returns the JSON line about a record. If several matches have the id of the record, the values from logs are removed."""
        values = json.loads(data)
        if self.faults.get(values["id"]) != TWO_RECORDS:
            return data
        broken = [{**answer, "why": None} for answer in values["broken"]]
        return line_of(values | {"begin": None, "end": None, "host": None, "messages": None, "broken": broken})


def line_of(values: dict[str, object]) -> bytes:
    return (json.dumps(values, separators=(",", ":")) + "\n").encode("ascii")


def write_facts(path: pathlib.Path, lawful: Iterable[tuple[int, Judged]], facts: Facts) -> None:
    """Writes a line for each record. The file appears only at the end, because duplicate ids are not known before."""
    with made_whole(path) as made:
        first = made.with_name("first")
        with open(first, "wb") as file:
            file.writelines(line_of(facts.of(judged)) for _, judged in lawful)
        if TWO_RECORDS not in facts.faults.values():
            first.rename(made)
            return
        with open(first, "rb") as lines_of_all, open(made, "wb") as file:
            file.writelines(map(facts.without_log, lines_of_all))
