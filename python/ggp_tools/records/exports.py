"""Writes records in three formats: pages with an index; matches of ggp-base, each as a JSON object in a separate file; and text similar to
PGN, with headers for each match and a line for each turn. Times come from logs. examples/records/README.md describes the formats."""

import hashlib
import json
import pathlib
import re
from collections.abc import Iterable

from ggp_tools.moments import moment_at
from ggp_tools.printable import counted
from ggp_tools.records.collection import Judged
from ggp_tools.records.match_logs import Beginning, MatchLogs
from ggp_tools.records.record import ABORTED, COMPLETED, record_sum
from ggp_tools.records.show import page_of, winner_words
from ggp_tools.records.tables import made_whole
from ggp_tools.templating import page

# Characters that are replaced: in the name of a file, and in the name of a header.
OTHERS, NOT_IN_HEADERS = re.compile(r"[^A-Za-z0-9._-]"), re.compile("[^A-Za-z0-9_]")
LONGEST_ID = 64


def file_name(number: int, match_id: str, ending: str) -> str:
    """Returns a unique name for the file of a match."""
    return f"{number:06}-{OTHERS.sub('_', match_id)[:LONGEST_ID] or 'match'}.{ending}"


def index_row(judged: Judged, record: dict | None, name: str) -> dict[str, object]:
    """Returns the index's row for a line. If the line has the shape of a record, the row links to the page with this name."""
    row = {"name": judged.line.match_id or f"line {judged.line.number}", "game": judged.game.name if judged.game else "", "page": ""}
    row |= {"phase": "", "turns": "", "verdict": judged.verdict, "is_lawful": judged.is_lawful}
    if record:
        goals = record["goalValues"] or [None] * len(record["players"])
        row |= {"page": name, "players": [*zip(record["players"], goals)]}
        row |= {"winner": winner_words(record["players"], record["goalValues"]).rstrip("."), "phase": record["phase"], "turns": len(record["moves"])}
    return row


def write_pages(folder: pathlib.Path, lines: Iterable[Judged]) -> None:
    """Writes a page for each line that has the shape of a record, and then the index."""
    folder.mkdir(parents=True, exist_ok=True)
    rows = []
    for number, judged in enumerate(lines, 1):
        name = file_name(number, judged.line.match_id, "html")
        if record := judged.line.shaped:
            game = judged.game.rules if judged.game else None
            (folder / name).write_bytes(page_of(record, game and (lambda: game)))
        rows.append(index_row(judged, record, name))
    (folder / "index.html").write_bytes(page("records", title=counted(len(rows), "record"), rows=rows))


# ---- ggp-base

# In ggp-base's format, the value for a match without a preview, and the number that replaces an unknown start time.
NO_PREVIEW, UNKNOWN = -1, 0


def times_of(matches: list[Beginning], turns: int) -> tuple[int, list[int]]:
    """Returns when a match began and when each state was reached, in milliseconds since 1970. If several matches in the logs have this id,
    or the logs lack some of the times, the times are unknown."""
    if len(matches) != 1:
        return UNKNOWN, []
    times = [matches[0].began or UNKNOWN, *(matches[0].turns.get(turn, UNKNOWN) for turn in range(1, turns + 1))]
    return times[0], times if all(times) else []


def spaced(text: str) -> str:
    """Returns an expression as ggp-base writes it, with spaces inside parentheses."""
    return text.replace("(", "( ").replace(")", " )")


def match_of(judged: Judged, logged: list[Beginning], games_address: str | None) -> dict[str, object]:
    """Returns a lawful record as a match of ggp-base, without keys that have no value."""
    record, line = judged.line.record, judged.line
    began, state_times = times_of(logged, len(record["moves"]))
    match = {
        "matchId": record["matchId"],
        "randomToken": hashlib.sha256(line.data).hexdigest()[:32],
        "startTime": began,
        "gameMetaURL": games_address and f"{games_address.rstrip('/')}/{judged.game.name}/",
        "isCompleted": record["phase"] in COMPLETED,
        "isAborted": record["phase"] in ABORTED,
        "states": [" ".join(["(", *map(spaced, terms), ")"]) for terms in record["states"]],
        "moves": [list(map(spaced, moves)) for moves in record["moves"]],
        "stateTimes": state_times,
        "errors": [list(map(spaced, errors)) for errors in record["errors"]] or None,
        "goalValues": record["goalValues"] or None,
        "previewClock": NO_PREVIEW,
        "startClock": record["startClock"],
        "playClock": record["playClock"],
        "playerNamesFromHost": record["players"],
    }
    return {key: value for key, value in match.items() if value is not None}


def write_matches(folder: pathlib.Path, lawful: Iterable[tuple[int, Judged]], logs: MatchLogs, games_address: str | None) -> None:
    """Writes a file for each record. The name of the file begins with the number of the record."""
    folder.mkdir(parents=True, exist_ok=True)
    for number, judged in lawful:
        match = match_of(judged, logs.of(judged.line.match_id), games_address)
        (folder / file_name(number, judged.line.match_id, "json")).write_text(json.dumps(match) + "\n", encoding="ascii")


# ---- PGN


def text_of(judged: Judged, logged: list[Beginning]) -> str:
    """Returns a lawful record as text. Roles and moves are in lower case and have no `;`, so they cannot be confused with headers and errors."""
    record, (began, _) = judged.line.record, times_of(logged, 0)
    headers = [("Match", record["matchId"]), ("Game", judged.game.name)]
    headers += [(NOT_IN_HEADERS.sub("_", role), player) for role, player in zip(record["roles"], record["players"])]
    headers += [("Result", "-".join(map(str, record["goalValues"])) or "*"), ("Phase", record["phase"])]
    headers += [("Cause", record["cause"])] if record["cause"] else []
    headers += [("Clocks", f"{record['startClock']} {record['playClock']}"), ("Record", record_sum(judged.line.data))]
    headers += [("Date", moment_at(began / 1_000))] if began else []
    rows = [f"[{name} {json.dumps(value)}]" for name, value in headers]
    for number, (moves, errors) in enumerate(zip(record["moves"], record["errors"]), 1):
        notes = "; ".join(f"{role}: {error}" for role, error in zip(record["roles"], errors) if error)
        rows.append(f"{number}. {' '.join(moves)}{f' ; {notes}' if notes else ''}")
    return "".join(f"{row}\n" for row in rows)


def write_pgn(path: pathlib.Path, lawful: Iterable[tuple[int, Judged]], logs: MatchLogs) -> None:
    """Writes all records, separated by empty lines."""
    with made_whole(path) as made, open(made, "w", encoding="ascii", newline="\n") as file:
        for _, judged in lawful:
            file.write("\n" * (file.tell() > 0) + text_of(judged, logs.of(judged.line.match_id)))
