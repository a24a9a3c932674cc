"""Explains what happened to the players of a match, turn by turn, from its record, its log, and the journal of `play`."""

import contextlib
import functools
import io
import itertools
import re
from collections.abc import Iterator
from dataclasses import dataclass

from ggp_tools.answers import Illegal, game_of, no_expression
from ggp_tools.competition.files import Refused, file_bytes, opened_file
from ggp_tools.competition.plan import Plan
from ggp_tools.competition.results import Result, counted_result, forfeit_words
from ggp_tools.competition.schedule import Match
from ggp_tools.match_log import PLAY, START, Message, messages, runs_of
from ggp_tools.moments import MOMENT, moment_at
from ggp_tools.printable import counted, message_of
from ggp_tools.records.show import read_record

TIMED = re.compile(rf"({MOMENT}) (.*)")
# How the journal's rows about a match and about its round begin. Players, games and matches may have the same names.
ROWS = (
    "(?:begin|end|no record|back|silent|info|abort|no answer to abort|lost|refused|aside|missing|start|restart|died|down) {match}[ :]"
    r"|stopped \S+, because {match} |round {round} of "
)
# The first words of rows that are about one player.
OF_PLAYER = "info", "abort", "start", "restart", "died", "down"
SET_BACK = "the clock was set back: it was {before} before"
MARKS = {
    "TO": "no complete answer within {seconds} s",
    "CE": "no connection, or no complete reply",
    "RT": "not asked, since it is retired",
    "IL ?": "the answer is not one expression, or too long",
}


@dataclass
class Entry:
    """An event with its time, which is empty if unknown, and its role, which is None if the event concerns all roles. The journal and the
    log may come from two computers whose clocks differ."""

    time: str
    role: int | None
    text: str
    is_note: bool = False


def marked(entries: list[Entry]) -> list[Entry]:
    """Returns the entries. Inserts a remark before each entry that was written after the clock had been set back."""
    remarked, before = [], {}
    for entry in entries:
        if entry.time and entry.time < before.get(entry.is_note, ""):
            remarked.append(Entry(entry.time, None, SET_BACK.format(before=before[entry.is_note])))
            before.clear()
        remarked.append(entry)
        before.update({entry.is_note: entry.time} if entry.time else {})
    return remarked


def parts_at(notes: list[Entry], beginning: str) -> list[list[Entry]]:
    """Splits a list of notes before each note whose text begins with `beginning`."""
    starts = [at for at, note in enumerate(notes) if note.text.startswith(beginning)]
    return [notes[start:end] for start, end in itertools.pairwise([0, *starts, len(notes)])]


def merged(*parts: list[Entry]) -> list[Entry]:
    """Merges entries of the log and of the journal by their times. If a clock was set back or a time is unknown, returns one part after the
    other instead."""
    is_known = all(entry.time for part in parts for entry in part) and all(marked(part) == part for part in parts)
    return sorted(itertools.chain(*parts), key=lambda entry: entry.time) if is_known else list(itertools.chain(*parts))


def in_order(notes: list[Entry], runs: list[list[Entry]], match_id: str) -> list[Entry]:
    """Merges the journal's notes and the log's runs about one role. A run comes between the notes about its beginning and its end. Notes about the
    player are placed by their times. The first runs may be missing from the log."""
    before, *begun = parts_at(notes, f"begin {match_id} ")
    if not begun:
        return [*notes, *sum(runs, [])]
    lacking = len(begun) - len(runs)
    runs = [[] for _ in range(lacking)] + runs if lacking >= 0 else [sum(runs[: 1 - lacking], []), *runs[1 - lacking :]]
    for part, run in zip(begun, runs):
        end = next((at for at, note in enumerate(part) if at and note.role is None), len(part))
        before += [part[0], *merged(run, part[1:end]), *part[end:]]
    return before


class Explanation:
    """Explains one match."""

    def __init__(self, plan: Plan, match: Match) -> None:
        self.plan, self.match, self.folder = plan, match, plan.folder
        file = self.folder.record(match.id)
        data = file_bytes(file) if file.is_file() else b""
        self.record = read_record(data) if data else None
        self.roles = plan.roles(match.game)
        self.result: Result | None = self.record and counted_result(self.record, data, match, plan.competition, plan.rules[match.game])

    def notes(self) -> Iterator[Entry]:
        """Yields the journal's rows about the match."""
        if not self.folder.journal.is_file():
            return
        of_match = re.compile(ROWS.format(match=re.escape(self.match.id), round=self.match.round))
        with open(self.folder.journal, encoding="ascii", errors="replace") as file:
            for line in file:
                row = TIMED.fullmatch(line.rstrip("\n"))
                if row and of_match.match(row[2]):
                    yield Entry(row[1], self.role_of(row[2]), row[2], True)

    def role_of(self, row: str) -> int | None:
        """Returns the role of the player that a row is about, or None if it is about the whole match."""
        kind, _, rest = row.partition(f" {self.match.id} ")
        player, players = rest.partition(": ")[0], self.match.players
        return players.index(player) if kind in OF_PLAYER and player in players else None

    def runs(self) -> list[list[Entry]]:
        """Returns the messages of each run of the match, from the log of the match. The log may still be growing."""
        open_log = self.folder.open_log(self.match.id)
        file = open_log if not self.record and open_log.is_file() else self.folder.log(self.match.id)
        with opened_file(file) if file.is_file() else contextlib.nullcontext(io.BytesIO()) as log:
            runs = [[message for message in messages(run) if message.role < len(self.roles)] for run in runs_of(log, self.match.id)]
        runs = runs if runs[0] else runs[1:]
        # Only the last run is in the record.
        return [[self.entry_of(message, run is runs[-1]) for message in run] for run in runs]

    def entry_of(self, message: Message, counts: bool) -> Entry:
        """Explains a message to a role, and the answer. If `counts` is set and there is a record, also says which move was played."""
        head = f"turn {message.turn()}: {PLAY}" if message.kind == PLAY else str(message.kind)
        came = message_of(message.came())
        text = f"{head} failed with {came} after {message.ms} ms" if message.error else f"{head} was answered `{came}` after {message.ms} ms"
        mark = self.mark_of(message) if counts else None
        if self.record and counts and message.kind == PLAY:
            text += f"; {self.turn_text(message.role, message.round, message.answer or '')}"
        elif mark:
            text += f"; {self.mark_text(mark, message.kind)}"
        moment = message.moment()
        time = "" if moment is None else moment_at(moment)
        return Entry(time, message.role, f"{text}. Message {message.number}: {message_of(message.message)}")

    def mark_of(self, message: Message) -> str | None:
        """Returns the error that the record has for START or for the last message, or an empty string if there is no error. Returns None for other
        messages, or if there is no record."""
        if not self.record or message.kind == PLAY or message.kind is None:
            return None
        return self.record["startMarks" if message.kind == START else "endMarks"][message.role]

    def mark_text(self, mark: str, kind: str) -> str:
        """Explains an error in a record."""
        seconds = self.match.start if kind == START else self.match.play
        return f"{mark}: {MARKS[mark].format(seconds=seconds)}" if mark in MARKS else f"{mark}: not a legal move of its role in that state"

    @functools.cached_property
    def illegal(self) -> Illegal:
        return Illegal(self.record["states"], self.roles, lambda: game_of(self.plan.rules[self.match.game].text))

    def illegal_text(self, role: int, turn: int, error: str, answer: str) -> str:
        """Explains why an answer is not an expression, or, if it is an illegal move, which moves were legal."""
        if error == "IL ?":
            why = no_expression(answer)
            return f": {why}" if why else ""
        moves = self.illegal.moves(role, turn, error)
        return f"; {moves}" if moves else ""

    def turn_text(self, role: int, turn: int, answer: str) -> str:
        """Says which move was played for a role in a turn, and why."""
        if turn >= len(self.record["moves"]):
            return "the match was given up before that turn was played"
        move, error = self.record["moves"][turn][role], self.record["errors"][turn][role]
        if not error:
            return f"it is legal, and was played: {move}"
        row = next(count for count in range(1, turn + 2) if count > turn or not self.record["errors"][turn - count][role])
        again = f", turn {row} in a row without a move of its own" if row > 1 else ""
        retired = ", so it is retired" if self.record["strikes"] and row == self.record["strikes"] else ""
        why = f"{self.mark_text(error, 'PLAY')}{self.illegal_text(role, turn, error, answer)}"
        return f"{why}; its first legal move was played: {move}{again}{retired}"

    def outcome(self, role: int) -> list[str]:
        """Says how the match ended for a role."""
        record = self.record
        if not record:
            return [f"the match is not played: {self.match.withdrawn}" if self.match.withdrawn else "the match has no record that counts"]
        errors = [turn[role] for turn in record["errors"]]
        not_asked = [turn for turn, error in enumerate(errors, 1) if error == "RT"]
        retired = [f"turns {not_asked[0]} to {not_asked[-1]}: {self.mark_text('RT', 'PLAY')}; its first legal moves were played"] if not_asked else []
        replaced = sum(bool(error) for error in errors)
        goal = f"goal {record['goalValues'][role]}" if record["goalValues"] else f"no goal, since the match was given up: {record['cause']}"
        forfeit = [forfeit_words(self.result)] if role in self.result.forfeits() else []
        return [*retired, f"{goal}; {replaced} of {len(errors)} moves replaced", *forfeit]

    def lines(self, players: list[str]) -> Iterator[str]:
        """Yields the lines of the explanation: everything that is known about these players in the match."""
        match = self.match
        who = ", ".join(f"{player} is {role}" for player, role in zip(match.players, self.roles))
        strikes, most = self.plan.competition.strikes, self.plan.competition.faults.replaced
        more = f", retired after {counted(strikes, 'turn')} in a row without a move of its own" if strikes else ""
        more += f", lost after {most} replaced moves in turns in which the player had a choice" if most else ""
        yield f"{match.id}, {match.game}: {who}; {match.start} s for START, {match.play} s for each other message{more}"
        notes, runs = list(self.notes()), self.runs()
        for player in players:
            role = match.players.index(player)
            yield from ("", f"{player}, {self.roles[role]}:")
            # The rows of several roles are not in the order of their times, because the players of a turn answer in any order.
            of_role, *of_runs = ([entry for entry in entries if entry.role in (None, role)] for entries in (notes, *runs))
            yield from (f"{entry.time or '(no time)'} {entry.text}" for entry in marked(in_order(of_role, of_runs, match.id)))
            yield from self.outcome(role)


def explanation(plan: Plan, match_id: str, player: str | None) -> Iterator[str]:
    """Yields the lines that explain a match, for one player or for all of its players."""
    match = next((planned for planned in plan.matches if planned.id == match_id), None)
    if match is None:
        raise Refused(f"{match_id} is not a match of {plan.folder.schedule}")
    if player and player not in match.players:
        raise Refused(f"{player} is not a player of {match_id}: {', '.join(match.players)}")
    yield from Explanation(plan, match).lines([player] if player else list(match.players))
