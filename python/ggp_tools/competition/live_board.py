"""Follows an open match: sends the answers in its log to the referee's desk, which reports the moves that were played or replaced, and the roles that
must answer."""

import itertools
import re
from collections.abc import Iterator
from dataclasses import dataclass, field
from pathlib import Path

from ggp_tools.competition.schedule import Match
from ggp_tools.match_log import ERRORS, NO_TIME, SHORTAGE, START, Message
from ggp_tools.records.show import mover_of
from ggp_tools.referee import MOST_OF_MOVE, MOST_OF_SCRIPT, Referee, Unchecked

# Boards are drawn from at most this many of the last states, and at most this many of the last turns are listed.
MOST_STATES, MOST_TURNS = 30, 50
ENDING = "stopping", "aborting", "finished", "aborted"
NO_LINE = "the log lacks a line, so the state is not known from here on"
TOO_LONG = "the answers are too long for a script of the referee, so the state is not known from here on"
NO_VERDICT = "the referee gave no verdict, so this may be an earlier state"
COMMENT = re.compile(rb";[^\n]*")
# Sent to the desk instead of an answer that is too long to be a move.
NO_MOVE = b")"
# The answers of the roles in a round.
Answers = dict[int, Message]


@dataclass(frozen=True)
class Turn:
    """A turn, counted from 1: each role's move and error, and the role whose turn it was, if the state names it."""

    number: int
    moves: tuple[str, ...]
    errors: tuple[str, ...]
    mover: int | None


def last_states(states: list[list[str]]) -> list[list[str]]:
    return [*states[:1], *states[1:][-MOST_STATES:]]


def round_of(phase: str, moves: list) -> int:
    """Returns the round that is open: 0 for START, else the number of the turn."""
    return 0 if phase == "starting" else len(moves) + 1


@dataclass(frozen=True)
class Position:
    """How far a match has got: the phase, the roles that owe an answer in the open round, and the recorded states, moves and errors. It keeps only
    the first and the last states, but `movers` lists the role whose turn it is for every state."""

    phase: str = "starting"
    owing: frozenset[int] = frozenset()
    states: list[list[str]] = field(default_factory=list)
    moves: list[list[str]] = field(default_factory=list)
    errors: list[list[str]] = field(default_factory=list)
    movers: list[int | None] = field(default_factory=list)

    def mover(self) -> int | None:
        """Returns the role whose turn it is in the open round, if the state names it."""
        mover = self.movers[-1] if self.movers else None
        return mover if mover in self.owing and self.phase == "playing" else None

    def round(self) -> int:
        return round_of(self.phase, self.moves)

    def is_ending(self) -> bool:
        return self.phase in ENDING


def text_in_line(answer: str) -> bytes:
    """Returns an answer for one row of a script: the same expressions, without comments and line ends."""
    data = answer.encode("latin-1")
    return COMMENT.sub(b"", data).replace(b"\n", b" ") if len(data) <= MOST_OF_MOVE else NO_MOVE


class LiveBoard:
    """The turns of a match up to the last whole round in its log. Answers in an open round are only stored: the referee gets only finished rounds, so
    the position follows only from these. `version` counts the changes of the position and the trouble."""

    def __init__(self, match: Match, strikes: int, rules: Path) -> None:
        self.match, self.strikes, self.rules = match, strikes, rules
        self.version = 0
        self.begin()

    def begin(self) -> None:
        """Sets the board to the first state, both at creation and whenever the match is restarted on another host."""
        self.position, self.trouble, self.is_stuck = Position(owing=frozenset(range(len(self.match.players)))), "", False
        # The answers that are not recorded yet, by round and role, and the reasons why players did not answer, by turn and role.
        self.answers: dict[int, Answers] = {}
        self.reasons: dict[tuple[int, int], str] = {}
        self.version += 1

    def take(self, message: Message) -> None:
        self.answers.setdefault(message.turn(), {})[message.role] = message

    def is_finished(self, at: int) -> bool:
        """Returns whether all roles that currently owe an answer have given one in a round."""
        return at in self.answers and self.position.owing <= self.answers[at].keys()

    def lacks_line(self) -> bool:
        """Returns whether lines of the log are lost: a round is finished although an earlier one is open here."""
        now = self.position.round()
        return not self.is_finished(now) and any(at > now and self.is_finished(at) for at in self.answers)

    def is_known_further(self) -> bool:
        """Returns whether the referee would report anything new."""
        return not self.is_stuck and (not self.position.states or self.is_finished(self.position.round()))

    def is_due(self) -> bool:
        """Returns whether `advance` would change something."""
        return self.is_known_further() or not self.trouble and self.lacks_line()

    def advance(self, referee: Referee) -> dict[int, Answers]:
        """Asks the referee for the moves of the finished rounds. Returns the answers in these rounds."""
        done, before = {}, (self.position, self.trouble)
        # Recording a round may show that roles are retired, and therefore that later rounds are finished.
        while self.is_known_further() and (recorded := self.ask(referee)) is not None:
            done |= recorded
        if self.lacks_line():
            self.trouble = NO_LINE
        self.version += (self.position, self.trouble) != before
        return done

    def ask(self, referee: Referee) -> dict[int, Answers] | None:
        """Asks the referee for the moves of the rounds that are known to be finished. Returns those that are recorded now, or None if there is no
        verdict."""
        now = self.position.round()
        script, ends, rounds = bytearray(self.begun()), self.ends(), {}
        for at in itertools.takewhile(self.is_finished, itertools.count(now)):
            rows = self.rows_of(at)
            if rounds and len(script) + len(rows) + len(ends) > MOST_OF_SCRIPT:
                break
            rounds[at] = self.answers[at]
            script += rows
        script += ends
        if len(script) > MOST_OF_SCRIPT:
            self.trouble, self.is_stuck = TOO_LONG, True
            return None
        try:
            self.take_verdict(*referee.desk(self.rules, bytes(script)))
        except Unchecked:
            self.trouble = NO_VERDICT
            return None
        self.is_stuck = bool(rounds) and self.position.round() == now
        return {at: answers for at, answers in rounds.items() if at < self.position.round()}

    def take_verdict(self, replies: list[str], record: dict) -> None:
        """Takes the desk's replies to a script, and the record of the match so far."""
        roles, known = len(self.match.players), self.position.errors
        calls, due = replies[:-roles], replies[-roles:]
        self.trouble = "" if set(calls) <= {"opened", "taken"} else NO_LINE
        for turn, recorded in enumerate(record["errors"][len(known) :], len(known) + 1):
            answers = self.answers.get(turn, {})
            self.reasons |= {(turn, role): message.came() for role, message in answers.items() if message.error}
            # If the referee lacked a resource, for example memory, the record reports a broken connection instead.
            known = [*known, [SHORTAGE if role in answers and answers[role].error == SHORTAGE else error for role, error in enumerate(recorded)]]
        now = round_of(record["phase"], record["moves"])
        self.answers = {at: answers for at, answers in self.answers.items() if at >= now}
        owing = frozenset(role for role, reply in enumerate(due) if reply.startswith("owe "))
        movers = [*self.position.movers, *(mover_of(state, record["roles"]) for state in record["states"][len(self.position.movers) :])]
        self.position = Position(record["phase"], owing, last_states(record["states"]), record["moves"], known, movers)

    def begun(self) -> bytes:
        """Returns the calls up to the end of the recorded turns. They contain the moves that were played, and a missing answer for each replaced
        move."""
        match, position = self.match, self.position
        rows = [f"strict {match.id} 0 {match.start} {match.play} {self.strikes} {' '.join(match.players)}\n".encode()]
        if position.round():
            rows += [b"submit %b %d 0\n" % (match.id.encode(), role) for role in range(len(match.players))]
        for turn, (moves, errors) in enumerate(zip(position.moves, position.errors), 1):
            rows += [self.call(role, turn, None if error else move, "silent") for role, (move, error) in enumerate(zip(moves, errors)) if error != "RT"]
        return b"".join(rows)

    def rows_of(self, at: int) -> bytes:
        """Returns the calls of a round that is finished and not recorded yet."""
        rows = []
        for role, message in self.answers[at].items():
            text = "" if message.kind == START else message.answer
            rows.append(self.call(role, at, None if message.error else text, "silent" if message.error == NO_TIME else "broken"))
        return b"".join(rows)

    def ends(self) -> bytes:
        """Returns the calls that ask what each role must answer."""
        return "".join(f"next {self.match.id} {role}\n" for role in range(len(self.match.players))).encode()

    def call(self, role: int, at: int, answer: str | None, missed: str) -> bytes:
        """Returns the row of a script that makes a role answer in a round, or miss its answer."""
        where = f"{self.match.id} {role} {at} ".encode()
        return b"miss " + where + missed.encode() + b"\n" if answer is None else b"submit " + where + text_in_line(answer) + b"\n"

    def turns(self) -> list[Turn]:
        """Returns the last turns, with the log's reasons for missed answers."""
        recorded = list(enumerate(zip(self.position.moves, self.position.errors, self.position.movers), 1))[-MOST_TURNS:]
        return [Turn(turn, tuple(moves), tuple(self.said_errors(turn, errors)), mover) for turn, (moves, errors, mover) in recorded]

    def said_errors(self, turn: int, errors: list[str]) -> Iterator[str]:
        for role, error in enumerate(errors):
            yield self.reasons.get((turn, role), error) if error in ERRORS else error
