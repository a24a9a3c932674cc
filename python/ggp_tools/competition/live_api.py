"""The data that `serve` sends to other programs: the matches as JSON, events about changes, and numbers for Prometheus. It says no more about an open
match than the pages do: the facts that follow from finished rounds and, in the second half of a clock, which players have not answered.
docs/SERVING.md lists the keys."""

import json
import re

from ggp_tools.competition.files import PLAYING
from ggp_tools.competition.live import LiveMatch, Reader
from ggp_tools.competition.live_pages import status_of
from ggp_tools.competition.results import result_keys
from ggp_tools.competition.schedule import Match
from ggp_tools.competition.table import Table
from ggp_tools.records.match_logs import logged

# The paths of the events and of the metrics, and the pattern of all other paths.
FEED, METRICS = "/api/events", "/metrics"
API = re.compile(r"/api/(?:(table)|matches(?:\?page=([1-9][0-9]{0,5}))?|matches/([A-Za-z0-9_.-]+))")
# A page of the list and an event each have at most this many matches.
MOST_LISTED = 500
TABLE = ""
Keys = dict[str, object]


def stage_of(live_match: LiveMatch) -> str:
    if live_match.stage != PLAYING:
        return live_match.stage
    return "stopping" if live_match.is_ending() else "playing" if live_match.turn() else "starting"


def state_keys(reader: Reader, match: Match) -> Keys:
    """Returns the keys about the state of a match."""
    if result := reader.results.get(match.id):
        outcomes, replaced = zip(*((result.outcome(role), result.replaced(role)) for role in range(len(match.players))))
        return {"state": "over", **result_keys(result), "outcomes": outcomes, "replaced": replaced}
    if live_match := reader.open.get(match.id):
        status, turns = status_of(live_match), len(live_match.board.position.moves)
        return {"state": "open", "stage": stage_of(live_match), "turns": turns, "since": status.since, "awaited": status.players}
    if not match.counts():
        return {"state": "not played", "why": match.why_not()}
    why = reader.faults.get(match.id) or reader.given_up.get(match.id)
    return {"state": "given up", "why": why} if why else {"state": "waiting"}


def match_keys(reader: Reader, match: Match) -> Keys:
    """Returns the entry of a match in the list."""
    return {"id": match.id, "game": match.game, "players": match.players, **state_keys(reader, match)}


def list_keys(reader: Reader, number: int) -> Keys | None:
    """Returns a page of the list of all matches, in the schedule's order, or None if the list has no such page."""
    matches, first = reader.plan.matches, (number - 1) * MOST_LISTED
    if number > 1 and first >= len(matches):
        return None
    shown = [match_keys(reader, match) for match in matches[first : first + MOST_LISTED]]
    return {"name": reader.plan.competition.name, "page": number, "pages": -(-len(matches) // MOST_LISTED), "matches": shown}


def numbered(states: list[list[str]], turns: int) -> list[Keys]:
    """Returns the first state and the last ones, each with the number of the turn that it follows."""
    return [{"turn": at and turns - len(states) + 1 + at, "terms": terms} for at, terms in enumerate(states)]


def own_keys(reader: Reader, match: Match) -> Keys:
    """Returns all keys of a match except those that `record_keys` returns."""
    keys = {**match_keys(reader, match), "roles": reader.plan.roles(match.game), "start": match.start, "play": match.play}
    if (live_match := reader.open.get(match.id)) and match.id not in reader.results:
        position = live_match.board.position
        keys |= {"states": numbered(position.states, len(position.moves)), "moves": position.moves, "errors": position.errors}
        keys |= {"messages": live_match.messages(), "trouble": live_match.board.trouble}
    return keys


def record_keys(reader: Reader, match: Match) -> Keys:
    """Returns the keys that a match that is over gets from its record and its log."""
    messages, record = logged(reader.run_of(match.id)[0]).by_role(len(match.players)), reader.record_of(match)
    states = numbered(record["states"], len(record["states"]) - 1)
    return {"states": states, "moves": record["moves"], "errors": record["errors"], "messages": messages}


# ---- events


def snapshot(reader: Reader, table: object) -> Keys:
    """Returns the data of the event stream: the keys or results of the matches that are not waiting, and the table's version under an empty name."""
    names = [*reader.open, *reader.given_up, *reader.faults]
    return {TABLE: table, **{name: match_keys(reader, reader.known[name]) for name in names}, **reader.results}


def news(reader: Reader, old: Keys, new: Keys) -> Keys | None:
    """Returns the changes from one snapshot to the next."""
    names = [name for name in old.keys() | new.keys() if old.get(name) is not new.get(name) and old.get(name) != new.get(name)]
    if len(names) > MOST_LISTED:
        return {"reload": True}
    matches = [match_keys(reader, reader.known[name]) for name in sorted(names) if name]
    return {"matches": matches, "table": TABLE in names} if names else None


# ---- numbers


def metrics(reader: Reader, table: Table) -> bytes:
    waiting = {match.id for match in reader.waiting()}
    counts = {"open": len(reader.open), "over": len(reader.results), "given up": len(waiting & (reader.given_up.keys() | reader.faults.keys()))}
    counts["waiting"] = len(waiting) - counts["given up"]
    counts["not played"] = len(reader.known) - sum(counts.values())
    numbers = {"play_running": {"": int(reader.is_running)}, "records_unread": {"": len(reader.unread)}}
    numbers["matches"] = {f'{{state="{state}"}}': count for state, count in counts.items()}
    for name in ("matches", "moves", "replaced"):
        numbers[f"player_{name}"] = {f'{{player="{line.player}"}}': getattr(line, name) for line in table.lines.values()}
    return metrics_text(numbers)


def metrics_text(numbers: dict[str, dict[str, int]]) -> bytes:
    """Returns numbers in Prometheus's text format. The numbers are given by name and label."""
    rows = (f"ggp_{name}{label} {value}\n" for name, values in numbers.items() for label, value in values.items())
    return "".join(rows).encode("ascii")


def json_bytes(value: object) -> bytes:
    return (json.dumps(value) + "\n").encode("ascii")
