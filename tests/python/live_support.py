"""Shared by the tests of live pages: a competition in a directory, with the files that `play` writes during matches."""

import json
import pathlib

from ggp_tools.competition.competition_file import read_competition
from ggp_tools.competition.files import Folder
from ggp_tools.competition.live import Reader
from ggp_tools.competition.plan import Plan
from ggp_tools.descriptions.loading import Rules
from ggp_tools.match_log import End, Message, Open, line_of
from planning import planned
from support import toml

# Two roles take turns, and take one or two from a heap of three. The role that takes the last one wins.
RULES = b"""
(role red) (role blue)
(init (heap 3)) (init (turn red)) (init (cell 1 1 white man)) (init (cell 2 2 black king))
(<= (legal red (take 1)) (true (turn red))) (<= (legal red (take 2)) (true (turn red)) (not (true (heap 1)))) (<= (legal red noop) (true (turn blue)))
(<= (legal blue (take 1)) (true (turn blue))) (<= (legal blue (take 2)) (true (turn blue)) (not (true (heap 1)))) (<= (legal blue noop) (true (turn red)))
(<= one (does red (take 1))) (<= one (does blue (take 1))) (<= two (does red (take 2))) (<= two (does blue (take 2)))
(<= (next (heap 2)) (true (heap 3)) one) (<= (next (heap 1)) (true (heap 3)) two) (<= (next (heap 1)) (true (heap 2)) one)
(<= (next (heap 0)) (true (heap 2)) two) (<= (next (heap 0)) (true (heap 1)) one)
(<= (next (turn blue)) (true (turn red))) (<= (next (turn red)) (true (turn blue)))
(next (cell 1 1 white man)) (<= (next (cell 2 2 black king)) one) (<= (next (cell 1 2 black king)) two)
(<= terminal (true (heap 0)))
(<= (goal red 100) (true (turn blue))) (<= (goal red 0) (true (turn red))) (<= (goal blue 100) (true (turn red))) (<= (goal blue 0) (true (turn blue)))
"""
# 2026-01-02T03:04:05Z and 2.5 seconds later, in milliseconds.
BEGAN, ENDED = 1_767_323_045_000, 1_767_323_047_500


class Missed(str):
    """The text that a log contains instead of an answer: the error, and the reason in parentheses."""


SILENT = Missed("TO (no answer in time: nothing received)")


def look(reader: Reader) -> None:
    """Makes a reader read the directory."""
    for _ in reader.update():
        pass


def plan_in(room: str, names: list[str], rounds: int = 1, head: str = "", rules: bytes = RULES, roles: tuple[str, ...] = ("red", "blue")) -> Plan:
    """Plans a round robin of these players. In the directory, makes only the subdirectories and the rules, and none of the other files of a
    plan."""
    folder = Folder(pathlib.Path(room))
    folder.make(folder.records, folder.logs, folder.open, folder.rules)
    folder.rules_of("heap").write_bytes(rules)
    players = [(name, f"h:{count + 1}") for count, name in enumerate(names)]
    competition = read_competition(toml(players, [("heap", "f")], f'kind = "round_robin"\nrounds = {rounds}', head).encode())
    plan = Plan(folder, competition, {"heap": Rules(rules, "0" * 64, roles, None)}, [])
    plan.matches = planned(competition, {"heap": len(roles)})
    return plan


def line(match: object, role: int, number: int, message: str, answer: str | Missed, milliseconds: int = 5, time: int | None = None) -> str:
    """Returns the log line of a message. The text of the message determines its kind."""
    error, _, reason = answer.removesuffix(")").partition(" (") if isinstance(answer, Missed) else (None, "", None)
    kind = message.partition(" ")[0].strip("()")
    turns = number - 2 if kind == "PLAY" else None
    answer = None if error else answer
    event = Message(match.id, role, match.players[role], number, kind, turns, time, milliseconds, message, answer, error, reason or None)
    return line_of(event).decode("ascii")


def opened(match: object, time: int | None = None) -> str:
    """Returns the line for the beginning of a match."""
    return line_of(Open(match.id, time)).decode("ascii")


def begin(plan: Plan, match: object, log: str = "") -> pathlib.Path:
    """Begins a match. Returns the log file of the match."""
    room = plan.folder.open / match.id
    room.mkdir(parents=True, exist_ok=True)
    for name in ("asking", "players", "playing"):
        (room / name).touch()
    plan.folder.open_log(match.id).write_text(log)
    return plan.folder.open_log(match.id)


def started(match: object, time: int | None = None) -> str:
    """Returns the log of a match after both players answered START."""
    texts = [f"(START {match.id} {name} ... {match.start} {match.play})" for name in ("red", "blue")]
    return opened(match, time) + "".join(line(match, role, 1, text, "ready", 20, time) for role, text in enumerate(texts))


def record_of(match: object, moves: list, errors: list, goals: list[int]) -> dict:
    states = [["(heap 3)"], *([f"(heap {count})"] for count in range(len(moves)))]
    return {
        "cause": None, "endMarks": ["", ""], "errors": errors, "goalValues": goals, "matchId": match.id, "moves": moves, "phase": "finished",
        "playClock": match.play, "players": list(match.players), "roles": ["red", "blue"], "startClock": match.start, "startMarks": ["", ""],
        "states": states, "strikes": 0, "version": 2,
    }


def end(plan: Plan, match: object, record: dict, log: str = "") -> None:
    """Ends the match `match`, and writes `record` and `log` as its record and its log."""
    ended = line_of(End(match.id, ENDED, "STOP")).decode("ascii")
    plan.folder.log(match.id).write_text((log or opened(match, BEGAN)) + ended)
    plan.folder.record(match.id).write_text(json.dumps(record) + "\n")
    room = plan.folder.open / match.id
    for file in room.iterdir() if room.is_dir() else ():
        file.unlink()
    if room.is_dir():
        room.rmdir()
