"""Explains why a record is not lawful: prints the expected and the found values."""

import argparse
import contextlib
import functools
import itertools
import json
import subprocess
import sys
from collections.abc import Callable, Iterator, Sequence

from ggp_tools.holding.game import MOST_CALLS, Game
from ggp_tools.holding.match import Match, texts_of
from ggp_tools.instantiating.limits import LARGE, MOST
from ggp_tools.kif import quoted, spelled
from ggp_tools.printable import counted, shown
from ggp_tools.records.collection import Pile
from ggp_tools.records.countdown import countdown
from ggp_tools.records.record import COMPLETED, LONGEST_RECORD, MOST_OF_VALUE, json_lines, shape_lines
from ggp_tools.referee import JSON, Referee, read_objects, rules_file
from ggp_tools.streams import STANDARD_INPUT, Ended, opened, report, say, status_of, whole

COMMAND = "ggp-explain-record"
ABOUT = (
    "Explains why a record is not lawful: what was expected, and what was found. If the record is lawful, it prints `lawful`. Otherwise it prints "
    "the error in the referee's words, and an explanation below it. Turns are counted from 1, and roles are given by name. An interpreter that "
    "shares no code with the referee computes what was expected. If the interpreter finds a different error first, the command reports this. With "
    "--lines, each line is a record. The command prints those that are not lawful, with the number of the line and an explanation, and skips the lines "
    "of call logs."
)
STATUS = "status 0: all records are lawful. 1: at least one is not. 2: usage error. 3: there is no verdict."
MOST_LISTED, MOST_OF_TEXT = 20, 400


def short(text: str) -> str:
    return shown(text, MOST_OF_TEXT)


def listed(texts: Sequence[str]) -> str:
    more = len(texts) - MOST_LISTED
    return (", ".join(map(short, texts[:MOST_LISTED])) or "none") + (f", and {more:,} more" if more > 0 else "")


def end_words(phase: str, cause: str | None, names: Sequence[str]) -> str:
    """Describes a phase with its cause. If the cause contains the number of a role, the name of the role is added."""
    number = (cause or "").partition(" ")[2]
    return f"phase {phase}, cause {cause or 'null'}" + (f" (the role {names[int(number)]})" if number else "")


# ---- the match

WHY = {
    None: "the state is terminal",
    "nogoal": "the state is terminal, and the role {} does not have exactly one goal",
    "nolegal": "the role {} has no legal move",
    "toolong": "10,000 turns were played",
    "allretired": "all roles are retired",
}


# An error in the words of `verify`, and the lines that explain it.
Found = tuple[str, ...]


class Replay(Match):
    """Replays a record in the interpreter. The record must have the right shape."""

    def __init__(self, game: Game, record: dict, names: Sequence[str]) -> None:
        super().__init__(game, record["matchId"], record["startClock"], record["playClock"], record["players"])
        self.given, self.names, self.all = record, names, range(len(names))
        self.strikes = record["strikes"] if record.get("version") == 2 else 0
        self.runs, self.most = [0 for _ in names], [0 for _ in names]
        self.marks["start"] = dict.fromkeys(self.all, "")

    def is_retired(self, role: int) -> bool:
        return 0 < self.strikes <= self.most[role]

    def phase(self) -> tuple[str, str | None]:
        phase, cause = super().phase()
        if phase == "playing" and all(map(self.is_retired, self.all)):
            return self.aborted(), "allretired"
        return phase, cause

    def aborted(self) -> str:
        return "aborted" if len(self.marks["end"]) == len(self.names) else "aborting"

    def why(self, cause: str | None) -> str:
        word, _, number = cause.partition(" ") if cause else (None, "", "")
        return WHY[word].format(number and self.names[int(number)])

    def first_fault(self) -> Found | None:
        for terms, moves, errors in itertools.zip_longest(*(self.given[key] for key in ("states", "moves", "errors"))):
            fault = self.state_fault(terms) or moves and self.turn_fault(moves, errors)
            if fault:
                return fault
            if moves:
                self.advance(moves, errors)
        return self.goals_fault() or self.end_fault()

    def advance(self, moves: list[str], errors: list[str]) -> None:
        self.turn([(legal[move], error) for legal, move, error in zip(self.legal_moves, moves, errors)])
        self.runs = [run + 1 if error else 0 for run, error in zip(self.runs, errors)]
        self.most = list(map(max, self.most, self.runs))

    def state_fault(self, terms: list[str]) -> Found | None:
        turn, wanted = len(self.moves), texts_of(self.states[-1])
        if terms == wanted:
            return None
        recorded, expected = set(terms), set(wanted)
        sides = ("missing", [term for term in wanted if term not in recorded]), ("too many", [term for term in terms if term not in expected])
        lines = [f"{label}: {listed(listed_terms)}" for label, listed_terms in sides if listed_terms]
        lines = lines or ["Its terms are right, but they are not in byte order, or some occur more than once."]
        where = f"after turn {turn} is not the one that follows from the rules and the moves" if turn else "before turn 1 is not the first state of the rules"
        return (f"state {turn}", f"The state {where}.", *lines)

    def turn_fault(self, moves: list[str], errors: list[str]) -> Found | None:
        turn, (phase, cause) = len(self.moves), self.phase()
        if phase != "playing":
            turns = [counted(count, "turn") for count in (turn, len(self.given["moves"]))]
            return ("end", f"The record goes on after the end: before turn {turn + 1} {self.why(cause)}.", f"expected: {turns[0]}", f"found: {turns[1]}")
        self.legal_moves = [{spelled(move): move for move in self.legal(role)} for role in self.game.roles]
        return next(filter(None, map(self.role_fault, self.all, moves, errors)), None)

    def role_fault(self, role: int, move: str, error: str) -> Found | None:
        legal = self.legal_moves[role]
        indices, who = f"{len(self.moves)} {role}", f"Turn {len(self.moves) + 1}, role {self.names[role]}"
        if move not in legal:
            wanted = f"expected{f' one of {len(legal):,}' if len(legal) > 1 else ''}: {listed([*legal])}"
            return (f"illegal {indices}", f"{who}: the move is not legal.", wanted, f"found: {short(move)}")
        if error and move != (first := next(iter(legal))):
            why = f"with the error {short(error)} the move must be the first legal one"
            return (f"notfirst {indices}", f"{who}: {why}.", f"expected: {short(first)}", f"found: {short(move)}")
        if error.startswith("IL ") and error[3:] in legal:
            why = f"the error says that {short(error[3:])} is not legal, but it is"
            return (f"notfirst {indices}", f"{who}: {why}.", "expected: no error", f"found: the error {short(error)}")
        if (error == "RT") != self.is_retired(role):
            reason = f"it had errors in up to {counted(self.most[role], 'turn')} in a row, and `strikes` is {self.strikes}"
            kind, wanted = ("not retired", "another error, or none") if error == "RT" else ("retired", "the error RT")
            return (f"retired {indices}", f"{who}: the role is {kind}: {reason}.", f"expected: {wanted}", f"found: {short(error) or 'no error'}")
        return None

    def goals_fault(self) -> Found | None:
        phase, recorded = self.given["phase"], self.given["goalValues"]
        has_goals = phase in COMPLETED
        wanted = self.goals() if has_goals else []
        if recorded == wanted:
            return None
        sides = [", ".join(f"{name} {'without exactly one goal' if goal is None else goal}" for name, goal in zip(self.names, goals)) or "none" for goals in (wanted, recorded)]
        why = "has the goals of the last state" if has_goals else "has no goals"
        return ("goals", f"A record of the phase {phase} {why}.", f"expected: {sides[0]}", f"found: {sides[1]}")

    def end_fault(self) -> Found | None:
        """Compares the phase and the cause with those that follow from the marks and the last state, according to the table in docs/RECORDS.md."""
        for kind in self.marks:
            self.marks[kind] = {role: mark for role, mark in enumerate(self.given[f"{kind}Marks"]) if mark is not None}
        count, (phase, cause), recorded = len(self.marks["end"]), self.phase(), (self.given["phase"], self.given["cause"])
        ends = [(phase, cause)]
        if phase in ("starting", "playing"):
            ends = [*ends * (not count), (self.aborted(), "asked")] if phase == "playing" or not self.moves else []
        if recorded in ends:
            return None
        known = {"starting": f"a START mark is missing after {counted(len(self.moves), 'turn')}", "playing": "the match can go on"}.get(phase) or self.why(cause)
        lines = [", or ".join(end_words(*end, self.names) for end in group) or "other marks or turns: no phase allows these" for group in (ends, [recorded])]
        sentence = f"At the end {known}, and {count} of {counted(len(self.names), 'role')} {'has' if count == 1 else 'have'} an end mark."
        return ("end", sentence, f"expected: {lines[0]}", f"found: {lines[1]}")


# ---- the program


def explanation(word: str, game: Game, data: bytes) -> list[str]:
    """Returns the lines that explain the error that the referee reports."""
    if word == "json":
        first, *more = json_lines(data)
        return [f"The text is not JSON: {first}.", *more]
    try:
        record = json.loads(data, parse_int=lambda digits: -0.0 if digits == "-0" else int(digits))
        names = list(map(quoted, game.roles))
        if word.startswith("shape "):
            return shape_lines(word.split()[1], record, names)
        sys.setrecursionlimit(MOST_CALLS)
        fault = Replay(game, record, names).first_fault()
    except RecursionError:
        return ["There is no explanation: the rules are nested too deeply for the interpreter."]
    except (AttributeError, IndexError, KeyError, TypeError, ValueError):
        fault = ("that the record has a different shape",)
    if fault and fault[0] == word:
        return fault[1:]
    return [f"The interpreter finds {': '.join(fault[:2]) if fault else 'no error'}", "One of the two is wrong: please report this, with the record and the rules."]


def judged(program: str, words: list[str], data: bytes, count: int = 1) -> list[str | None]:
    """Returns, for each record, the error that the referee reports, or None if the record is lawful. The data must not contain call
    logs."""
    try:
        run = subprocess.run([program, "verify", JSON, *words], input=data, capture_output=True)
    except (OSError, ValueError) as why:
        raise Ended(f"cannot run {program}: {getattr(why, 'strerror', None) or 'its name has a NUL byte'}", 3) from None
    faults = [verdict.get("fault") for verdict in read_objects(run) or ()]
    if len(faults) != count or run.returncode != int(any(faults)):
        raise Ended(run.stderr.decode("ascii", "replace").strip() or f"{program} gave no verdict: it ended with status {run.returncode}", 3)
    return faults


def read(name: str, most: int) -> bytes:
    """Reads a file, but no more than one byte above the referee's limit."""
    with opened(name) as file:
        return file.read(most + 1)


@contextlib.contextmanager
def rules_of(asked_for: argparse.Namespace) -> Iterator[tuple[list[str], Callable[[], Game]]]:
    """Yields the option that names the game to the referee, and a function that makes the game; it is called after the referee has accepted
    the rules."""
    if asked_for.countdown is not None:
        yield [f"--countdown={asked_for.countdown}"], functools.cache(lambda: Game(countdown(asked_for.countdown)))
        return
    rules = read(asked_for.rules_file, (LARGE if asked_for.large else MOST)["bytes"])
    with rules_file(rules) as path:
        yield Referee(asked_for.program, asked_for.large).rules_words(path), functools.cache(lambda: Game(rules.decode("latin-1")))


def explain_one(asked_for: argparse.Namespace) -> int:
    """Explains a record. Returns the exit status."""
    data = read(asked_for.record, LONGEST_RECORD)
    with rules_of(asked_for) as (words, game):
        word, = judged(asked_for.program, words, data)
    say("\n".join(map(shown, [f"not lawful: {word}", *explanation(word, game(), data)] if word else ["lawful"])))
    return int(bool(word))


def explain_lines(asked_for: argparse.Namespace) -> int:
    """Explains each record of a file that is not lawful. The game is parsed once."""
    counts, pile = [0, 0], Pile([asked_for.record])
    batches = pile.batches()
    with rules_of(asked_for) as (words, game):
        # Even if there are no records, the referee reports errors in the rules.
        for batch in itertools.chain([next(batches, [])], batches):
            fitting = [line for line in batch if not line.is_too_long]
            verdicts = judged(asked_for.program, ["--lines", *words], b"".join(line.data + b"\n" for line in fitting), len(fitting))
            faults = dict(zip((line.number for line in fitting), verdicts))
            for line in batch:
                word = faults.get(line.number, line.said)
                counts[bool(word)] += 1
                if word:
                    match = f", match {shown(line.match_id, MOST_OF_VALUE)}" if line.match_id else ""
                    lines = [] if line.is_too_long else map(shown, explanation(word, game(), line.data))
                    say("\n\t".join([f"line {line.number}{match}: {'no record: ' if line.is_too_long else 'not lawful: '}{word}", *lines]))
    skipped = f", {counted(pile.skipped, 'call log line')} skipped" if pile.skipped else ""
    report(f"{COMMAND}: {counts[0]:,} lawful, {counts[1]:,} not lawful{skipped}")
    return int(counts[1] > 0)


def parser() -> argparse.ArgumentParser:
    reader = argparse.ArgumentParser(COMMAND, description=ABOUT, epilog=STATUS)
    reader.add_argument("program", metavar="PROGRAM", help="the referee, ggp_manager, whose `verify` checks the record")
    text = f"a file with one record, or with --lines one on each line (default: {STANDARD_INPUT}, also as `-`)"
    reader.add_argument("record", metavar="RECORD", nargs="?", default="-", help=text)
    reader.add_argument("--lines", action="store_true", help="each line is a record")
    reader.add_argument("--large", action="store_true", help="allow a large description")
    game = reader.add_mutually_exclusive_group(required=True)
    game.add_argument("--rules-file", metavar="FILE", help="the ground GDL file of the game")
    game.add_argument("--countdown", metavar="N", type=whole(1, 100), help="the game is Countdown, from a heap of N (1 to 100)")
    return reader


def main() -> int:
    asked_for = parser().parse_intermixed_args()
    return status_of(COMMAND, lambda: (explain_lines if asked_for.lines else explain_one)(asked_for), 3)
