"""Computes the result of a match from its record and from the forfeit rules of the competition, and the row of the match in matches.jsonl."""

import json
import threading
from collections import Counter
from collections.abc import Iterator, Mapping
from dataclasses import dataclass
from typing import TYPE_CHECKING

from ggp_tools.competition.competition_file import Competition
from ggp_tools.competition.schedule import Match
from ggp_tools.records.lengths import MOST_TURNS, states_in, without_states
from ggp_tools.records.match_logs import Beginning
from ggp_tools.records.record import winner_words as winner_of_worths

if TYPE_CHECKING:
    from ggp_tools.descriptions.loading import Rules

WON, DRAWN, LOST = "won", "drawn", "lost"
# If a player forfeits, a single opponent gets this goal. Several opponents share it if the match was aborted.
FULL_GOAL = 100
# The maximum length of a wrong value in a message.
MOST_CITED = 200
# A game caches its results for a state, so only one thread at a time may use it.
GAMES = threading.Lock()


@dataclass(frozen=True)
class Retirement:
    """The reason why a role was retired or has forfeited its match: the kinds of its errors, the last turn with such an error, and, if these turns
    are not consecutive, the first one."""

    errors: tuple[str, ...]
    turn: int
    first: int = 0

    def words(self) -> str:
        kinds, count = ", ".join(dict.fromkeys(self.errors)), len(self.errors)
        first = self.first or self.turn - count + 1
        several = f"turns {first} to {self.turn}" if count == self.turn - first + 1 else f"{count} of turns {first} to {self.turn}"
        return f"{kinds} in {f'turn {self.turn}' if first == self.turn else several}"


@dataclass(frozen=True)
class Result:
    """The result in a record: for each role, the goal (if the match has goals), the number of errors of each kind, and why the role was retired.
    `has_forfeits` says whether retired players forfeit. `lapses` says, for each role, why it forfeits because of too many replaced moves."""

    match: Match
    goals: tuple[int, ...]
    turns: int
    errors: tuple[Counter, ...]
    retirements: tuple[Retirement | None, ...]
    phase: str
    cause: str | None
    has_forfeits: bool = False
    lapses: tuple[Retirement | None, ...] = ()

    def replaced(self, role: int) -> int:
        return sum(self.errors[role].values())

    def is_absent(self, role: int) -> bool:
        """Returns whether all moves of the role were replaced."""
        return 0 < self.turns == self.replaced(role)

    def forfeits(self) -> dict[int, Retirement]:
        """Returns the roles whose players have forfeited the match, with the reasons."""
        retired = self.retirements if self.has_forfeits else ()
        return {role: why for reasons in (self.lapses, retired) for role, why in enumerate(reasons) if why}

    def counted(self) -> tuple[int | None, ...]:
        """Returns the goals that count, by role. If the match has no goals and no forfeits, each goal is None. A player that forfeits gets 0. A
        single opponent gets the full goal, because its own goal depends on moves that no player chose. Several opponents keep their goals, or
        share the full goal if the match has no goals."""
        lost, roles = self.forfeits(), range(len(self.retirements))
        if not lost:
            return self.goals or (None,) * len(roles)
        shared = FULL_GOAL // max(1, len(roles) - len(lost))
        kept = self.goals if self.goals and len(roles) > 2 else (shared,) * len(roles)
        return tuple(0 if role in lost else kept[role] for role in roles)

    def worths(self) -> tuple[int, ...] | None:
        """Returns numbers that order the players of the match, by role: the goal that counts, or -1 for a forfeit. If there are no goals,
        returns None."""
        lost, goals = self.forfeits(), self.counted()
        return None if None in goals else tuple(-1 if role in lost else goal for role, goal in enumerate(goals))

    def outcome(self, role: int) -> str | None:
        """Returns the outcome for a role: WON, DRAWN or LOST. If the match has only one role, or no goals that count, returns None."""
        worth = self.worths() or ()
        others = worth[:role] + worth[role + 1 :]
        if not others:
            return None
        if worth[role] < max(others) or worth[role] < 0:
            return LOST
        return WON if worth[role] > max(others) else DRAWN


def forfeit_words(result: Result) -> str:
    """Says who has forfeited a match, why, and which goals count. If there is no forfeit, returns an empty string."""
    lost, players = result.forfeits(), result.match.players
    if not lost:
        return ""
    counts = ", ".join(f"{player} {goal}" for player, goal in zip(players, result.counted()))
    return f"forfeit: {', '.join(f'{players[role]} ({why.words()})' for role, why in lost.items())}, counts as {counts}"


def winner_words(result: Result) -> str:
    """Says who won a match, or who drew. If the match has only one role, or no goals that count, returns an empty string."""
    return winner_of_worths(result.match.players, result.worths() or ())


def again_words(match: Match) -> str:
    """Says why a match no longer counts."""
    return f"{match.id} does not count: {match.why_not()}"


def remarks(result: Result) -> Iterator[str]:
    """Yields remarks about a match: forfeits, and whether it counts."""
    if result.forfeits():
        yield forfeit_words(result)
    if not result.match.counts():
        yield again_words(result.match)
    if result.match.instead_of:
        yield f"{result.match.id} replaces {result.match.instead_of}"


def fault_of_record(record: dict, match: Match, strikes: int) -> str | None:
    """Returns how a lawful record differs from what its match requires, or None."""
    expected = {
        "matchId": match.id,
        "players": list(match.players),
        "startClock": match.start,
        "playClock": match.play,
        "strikes": strikes,
    }
    for key, value in expected.items():
        if record.get(key) != value:
            source = "competition.toml" if key == "strikes" else "the schedule"
            actual = repr(record.get(key))
            return f"its {key} is {actual[:MOST_CITED]}{'..' * (len(actual) > MOST_CITED)}, but {source} has {value!r}"
    if len(record["moves"]) > MOST_TURNS:
        return f"it has {len(record['moves']):,} turns, but a match can have at most {MOST_TURNS:,}"
    if not all(0 <= goal <= FULL_GOAL for goal in record["goalValues"]):
        return f"one of its goals is not from 0 to {FULL_GOAL}"
    return None if record["phase"] in ("finished", "aborted") else f"its match is not over: {record['phase']}"


def kind_of(error: str) -> str:
    """Returns the kind of an error, without the player's answer."""
    return "IL" if error.startswith("IL ") else error


def retirement_of(record: dict, role: int) -> Retirement | None:
    """Returns the reason why a role was retired, or None if it was not. A role is retired when its moves were replaced in `strikes` turns in a
    row."""
    row: list[str] = []
    for number, turn in enumerate(record["errors"] if record["strikes"] else (), 1):
        if not turn[role]:
            row.clear()
            continue
        row.append(kind_of(turn[role]))
        if len(row) == record["strikes"]:
            return Retirement(tuple(row), number)
    return None


def result_of(record: dict, match: Match, has_forfeits: bool = False, lapses: tuple[Retirement | None, ...] = ()) -> Result:
    """Returns the result of a match from its record. The class `Result` explains `has_forfeits` and `lapses`."""
    roles = range(len(match.players))
    errors = tuple(Counter(kind_of(turn[role]) for turn in record["errors"] if turn[role]) for role in roles)
    retirements = tuple(retirement_of(record, role) for role in roles)
    end = record["phase"], record["cause"]
    return Result(match, tuple(record["goalValues"]), len(record["moves"]), errors, retirements, *end, has_forfeits, lapses)


def lapse_of(record: dict, data: bytes, rules: "Rules", role: int, most: int) -> Retirement | None:
    """Returns the reason why a role has lost a match because of `most` replaced moves, or None if it has not. A turn does not count if the role
    had only one legal move."""
    errors, lapses = [turn[role] for turn in record["errors"]], []
    if len(errors) - errors.count("") < most:
        return None
    from ggp_tools.answers import Illegal, game_of

    with GAMES:
        for turn, (error, state) in enumerate(zip(errors, states_in(data))):
            if error and len(Illegal({turn: state}, rules.roles, lambda: game_of(rules.text)).legal(role, turn)) != 1:
                lapses.append((kind_of(error), turn + 1))
                if len(lapses) == most:
                    kinds, turns = zip(*lapses)
                    return Retirement(kinds, turns[-1], turns[0])
    return None


def counted_result(record: dict, data: bytes, match: Match, competition: Competition, rules: "Rules") -> Result:
    """Returns the result of a match under the rules of its competition. `record` was parsed from the bytes `data`."""
    most, roles = competition.faults.replaced, range(len(match.players))
    lapses = tuple(lapse_of(record, data, rules, role, most) for role in roles) if most else ()
    return result_of(record, match, competition.forfeit, lapses)


def read_record(data: bytes) -> dict:
    """Parses a lawful record, without its states."""
    return json.loads(without_states(data))


def result_keys(result: Result) -> dict[str, object]:
    """Returns the keys about the end of a match. If players forfeit, keys say which players, why, and which goals count. Further keys describe the
    round, rematches, and players that have withdrawn, if there are any."""
    match, keys = result.match, {"goals": result.goals}
    if lost := result.forfeits():
        keys["forfeit"] = [{"player": match.players[role], "errors": why.errors, "turn": why.turn} for role, why in lost.items()]
        keys["counted"] = result.counted()
    more = {"round": match.round, "again": match.again, "reason": match.reason, "insteadOf": match.instead_of, "withdrawn": match.withdrawn}
    keys |= {key: value for key, value in more.items() if value}
    return keys | {"turns": result.turns, "phase": result.phase, "cause": result.cause}


def match_line(result: Result, sums: Mapping[str, str | None], logged: Beginning, broken: list[dict[str, object]]) -> bytes:
    """Returns a match as one line of JSON. `sums` gives the checksums of the record, of the rules, and of the description that the rules were made
    from. `broken` lists the broken answers with their reasons."""
    match = result.match
    values = {
        "id": match.id,
        "record": sums["record"],
        "game": match.game,
        "rules": sums["rules"],
        "description": sums["description"],
        "players": match.players,
        **result_keys(result),
        "errors": [dict(sorted(errors.items())) for errors in result.errors],
        **dict(zip(("begin", "end", "host"), logged.times())),
        "messages": logged.by_role(len(match.players)),
        "broken": broken,
    }
    return (json.dumps(values, separators=(",", ":")) + "\n").encode("ascii")
