"""Plays random matches of a game with an interpreter, and checks that the referee's `desk` makes the same records."""

import hashlib
import random
import subprocess
import sys
import time
from collections.abc import Iterator
from dataclasses import dataclass

from ggp_tools.descriptions.suspicious import TimeIsOver, is_too_long
from ggp_tools.holding.game import MOST_CALLS, Game
from ggp_tools.holding.match import Match, texts_of
from ggp_tools.holding.positions import State
from ggp_tools.kif import Expression, spelled
from ggp_tools.printable import counted
from ggp_tools.records.record import is_list, is_text, list_of
from ggp_tools.referee import Referee, read_objects, rules_file, unchecked
from ggp_tools.reporting import REDRAWN, Reporter

# The maximum bytes of a script, and the maximum number of matches, for one run of `desk`. The limits of `desk` itself are higher.
MOST_BYTES, MOST_MATCHES = 1_000_000, 1_000
# The bytes of a script that are reserved for rows that do not belong to a turn.
BESIDE_TURNS = 10_000


def sum_of(texts: list[str]) -> bytes:
    return hashlib.sha256("\n".join(texts).encode()).digest()


def sum_of_state(state: State | bytes) -> bytes:
    """Returns the checksum of a state. If the state is already a checksum, returns it."""
    return state if isinstance(state, bytes) else sum_of(texts_of(state))


class Played(Match):
    """A match that stores its last state, but only checksums of the earlier states. The record of the match has checksums instead of
    states."""

    recorded = staticmethod(sum_of_state)

    def __init__(self, game: Game, name: str, players: list[str]) -> None:
        super().__init__(game, name, 1, 1, players)
        # How many bytes are left in a script; how many turns fit into the script; and the state after these turns.
        self.room, self.held = MOST_BYTES - BESIDE_TURNS, (0, self.states[0])

    def turn(self, judged: list[tuple]) -> None:
        super().turn(judged)
        self.states[-2] = sum_of_state(self.states[-2])
        self.room -= sum(len(line) + 1 for line in turn_lines(self, len(self.moves)))
        if self.room >= 0:
            self.held = len(self.moves), self.states[-1]

    def shorten(self) -> None:
        """Drops the turns that do not fit into one script."""
        turns, state = self.held
        self.moves, self.errors, self.states = self.moves[:turns], self.errors[:turns], [*self.states[:turns], state]
        self.marks["end"] = {}


@dataclass
class Ended:
    """A finished match: its seed, its number of turns, its goals, and the maximum number of legal moves of each role. For an aborted match,
    `cause` is the cause with the role's name; the first match with each cause also has its last state."""

    seed: int
    turns: int
    goals: list
    cause: str | None
    state: list
    choices: list


def named(cause: str | None, roles: list[Expression]) -> str | None:
    """Replaces the number of the role in a cause with the role's name."""
    word, _, number = (cause or "").partition(" ")
    return f"{word} {spelled(roles[int(number)])}" if number else cause


class RandomMatches:
    """Random matches of one game, each with its own seed."""

    def __init__(self, rules: bytes, referee: Referee, name: str, reporter: Reporter, seconds: float) -> None:
        self.game, self.rules, self.referee, self.name = Game(rules.decode("latin-1")), rules, referee, name
        self.reporter, self.seconds, self.until = reporter, seconds, time.monotonic() + seconds
        self.causes, self.ended, self.differing, self.uncompared, self.too_long, self.notes = {None}, [], [], 0, 0, []
        self.waiting, self.size, self.drawn, self.turns, self.is_too_deep = [], 0, 0.0, 0, False
        sys.setrecursionlimit(MOST_CALLS)

    def run(self, seed: int, count: int) -> None:
        """Plays `count` matches. The seeds of the matches are consecutive numbers that begin with `seed`. Reports problems as notes."""
        try:
            for number in range(count):
                self.play(seed + number, f"match {number + 1} of {count}")
        except TimeIsOver:
            ended = f"{len(self.ended):,} of {count:,} matches and {counted(self.turns, 'turn')} of the next one"
            self.notes.append(f"out of time: {ended} were played in {self.seconds:,} s")
        except RecursionError:
            self.is_too_deep = True
            self.notes.append("the interpreter cannot play it: its rules are nested too deeply")
        self.ask_desk()

    def play(self, seed: int, said: str) -> None:
        """Plays a match to its end with random legal moves, and queues it for `desk`."""
        roles, dice = self.game.roles, random.Random(seed)
        match = Played(self.game, f"seed-{seed}", [f"p{number}" for number in range(len(roles))])
        match.marks["start"], choices = dict.fromkeys(range(len(roles)), ""), [0] * len(roles)
        while match.phase()[0] == "playing":
            self.turns = len(match.moves)
            self.look_at_clock(said)
            legal = list(map(match.legal, roles))
            choices = [max(most, len(moves)) for most, moves in zip(choices, legal)]
            match.turn([(dice.choice(moves), "") for moves in legal])
        match.marks["end"] = dict.fromkeys(range(len(roles)), "")
        record = match.record()
        cause = named(record["cause"], roles)
        state = texts_of(match.states[-1]) if cause not in self.causes else []
        self.causes.add(cause)
        self.ended.append(Ended(seed, len(match.moves), record["goalValues"], cause, state, choices))
        self.hand_in(seed, match, record)

    def look_at_clock(self, said: str) -> None:
        now = time.monotonic()
        if now > self.until:
            raise TimeIsOver
        if now - self.drawn > REDRAWN:
            self.drawn = now
            self.reporter.draw(f"{said}, {counted(self.turns, 'turn')}")

    def hand_in(self, seed: int, match: Played, record: dict) -> None:
        if any(is_too_long(move) for moves in match.moves for move in moves):
            # The desk does not accept an answer of this length.
            self.too_long += 1
            return
        lines = list(lines_of(match))
        if sum(len(line) + 1 for line in lines) > MOST_BYTES:
            # Only the turns that fit are compared.
            match.shorten()
            lines, record = list(lines_of(match)), match.record()
        size = sum(len(line) + 1 for line in lines)
        if self.size + size > MOST_BYTES or len(self.waiting) == MOST_MATCHES:
            self.ask_desk()
        self.waiting.append((seed, lines, record))
        self.size += size

    def ask_desk(self) -> None:
        """Runs `desk` on the queued matches, and compares the records."""
        waiting, self.waiting, self.size = self.waiting, [], 0
        if not waiting:
            return
        self.reporter.draw("the program's desk")
        script = "".join(f"{line}\n" for _, lines, _ in waiting for line in lines)
        with rules_file(self.rules) as path:
            try:
                run = subprocess.run(self.referee.desk_words(path), input=script.encode(), capture_output=True, timeout=self.seconds)
            except subprocess.TimeoutExpired:
                self.uncompared += len(waiting)
                return
        records = read_objects(run)
        if run.returncode or records is None or len(records) != len(waiting):
            raise unchecked(run, self.name)
        for (seed, _, expected), actual in zip(waiting, records):
            if is_list(actual.get("states"), list_of(is_text)):
                actual["states"] = list(map(sum_of, actual["states"]))
            keys = [key for key in expected if expected[key] != actual.get(key)]
            self.differing += [(seed, keys)] if keys else []


def turn_lines(match: Played, number: int) -> Iterator[str]:
    """Yields the lines of a turn. Turns are counted from 1."""
    for role, move in enumerate(match.moves[number - 1]):
        yield f"submit {match.name} {role} {number} {spelled(move)}"


def lines_of(match: Played) -> Iterator[str]:
    """Yields the script of a whole match for `desk`."""
    roles = range(len(match.game.roles))
    yield f"open {match.name} 0 {match.start} {match.play} {' '.join(match.players)}"
    yield from (f"submit {match.name} {role} 0 READY" for role in roles)
    for number in range(1, len(match.moves) + 1):
        yield from turn_lines(match, number)
    yield from (f"submit {match.name} {role} {len(match.moves) + 1} DONE" for role in roles if match.marks["end"])
