#!/usr/bin/env python3
"""Writes NAME.out, the expected output of a desk for NAME.kif and NAME.script: the replies, and the match's record.

ground_games.py NAME ..   writes NAME.out in the current directory
ground_games.py --check   exits with status 1 if a file of examples/games differs from the expected output

This script is an oracle: it shares no code with the program or with `python`. It evaluates rules top-down, by recursion, while the
program evaluates each rule once, in the order of ranks. The scripts must have only one match, no abort, and no row that the desk refuses."""

import argparse
import json
import pathlib
import sys
from functools import lru_cache

from interpreter import read as expressions

GAMES = pathlib.Path(__file__).resolve().parents[2] / "examples/games"


def text_of(expression):
    if isinstance(expression, str):
        return expression
    return "(" + " ".join(map(text_of, expression)) + ")"


class Game:
    """The game of a description. A state is the set of its terms. A joint move is a dict by role."""

    def __init__(self, sentences):
        self.rules = {}
        for sentence in sentences:
            is_rule = sentence[0] == "<="
            head, body = (sentence[1], sentence[2:]) if is_rule else (sentence, ())
            self.rules.setdefault(head, []).append(body)
        self.roles = [head[1] for head in self.rules if head[0] == "role"]

    def question(self, state, joint):
        """Returns a function that evaluates literals in a state with a joint move."""

        def holds(literal):
            match literal:
                case ("true", term):
                    return term in state
                case ("does", role, move):
                    return role in joint and joint[role] == move
                case ("not", inner):
                    return not holds(inner)
                case ("or", *inner):
                    return any(map(holds, inner))
                case ("distinct", first, second):
                    return first != second
                case _:
                    return is_derived(literal)

        @lru_cache(maxsize=None)
        def is_derived(atom):
            return any(all(map(holds, body)) for body in self.rules.get(atom, []))

        return is_derived

    def terms(self, relation, state, joint):
        asked = self.question(state, joint)
        return frozenset(head[1] for head in self.rules if head[0] == relation and asked(head))

    def initial(self):
        return self.terms("init", frozenset(), {})

    def next(self, state, joint):
        return self.terms("next", state, joint)

    def legal(self, state, role):
        asked = self.question(state, {})
        heads = [head for head in self.rules if head[:2] == ("legal", role)]
        return [head[2] for head in heads if asked(head)]

    def terminal(self, state):
        return self.question(state, {})("terminal")

    def goal(self, state, role):
        asked = self.question(state, {})
        values = [int(head[2]) for head in self.rules if head[:2] == ("goal", role) and asked(head)]
        return values[0] if len(values) == 1 else None


class Match:
    """A match on the desk. It begins with the row `open` of the script."""

    def __init__(self, game, words):
        name, start, play, *players = words
        assert len(players) == len(game.roles)
        self.game, self.name, self.players = game, name, players
        self.start, self.play = int(start), int(play)
        self.states, self.moves, self.errors = [game.initial()], [], []
        self.marks = {"start": {}, "end": {}}
        self.open = {}

    def phase(self):
        """Returns the phase, and the cause if the game aborts the match."""
        count, state = len(self.game.roles), self.states[-1]
        ended = len(self.marks["end"]) == count
        if len(self.marks["start"]) < count:
            return "starting", None
        if self.game.terminal(state):
            for number, role in enumerate(self.game.roles):
                if self.game.goal(state, role) is None:
                    return "aborted" if ended else "aborting", f"nogoal {number}"
            return "finished" if ended else "stopping", None
        if len(self.moves) == 10000:
            return "aborted" if ended else "aborting", "toolong"
        for number, role in enumerate(self.game.roles):
            if not self.game.legal(state, role):
                return "aborted" if ended else "aborting", f"nolegal {number}"
        return "playing", None

    def round(self):
        return 0 if self.phase()[0] == "starting" else len(self.moves) + 1

    def due(self, role):
        phase, _ = self.phase()
        if phase in ("finished", "aborted"):
            return "over"
        answered = {"starting": self.marks["start"], "playing": self.open}.get(phase, self.marks["end"])
        if role in answered:
            return f"hold {self.round()}"
        last = text_of(tuple(self.moves[-1])) if self.moves else "NIL"
        kind = {"starting": "start", "playing": f"play {last}", "stopping": f"stop {last}", "aborting": "abort"}
        return f"owe {self.round()} {kind[phase]}"

    def judgement(self, role, answer, miss):
        legal = self.game.legal(self.states[-1], self.game.roles[role])
        if miss:
            return legal[0], miss
        read = expressions(answer)
        if len(read) == 1 and read[0] in legal:
            return read[0], ""
        return legal[0], f"IL {text_of(read[0])}" if len(read) == 1 else "IL ?"

    def answer(self, role, round, answer, miss):
        phase, _ = self.phase()
        assert role < len(self.game.roles) and round == self.round() and phase not in ("finished", "aborted")
        if phase == "playing":
            assert role not in self.open
            self.open[role] = self.judgement(role, answer, miss)
            if len(self.open) == len(self.game.roles):
                self.turn([self.open[role] for role in range(len(self.game.roles))])
        else:
            marks = self.marks["start" if phase == "starting" else "end"]
            assert role not in marks
            marks[role] = miss
        return "taken"

    def turn(self, judged):
        self.moves.append([move for move, _ in judged])
        self.errors.append([error for _, error in judged])
        self.states.append(self.game.next(self.states[-1], dict(zip(self.game.roles, self.moves[-1]))))
        self.open = {}

    def status(self):
        substitutions = sum(error != "" for errors in self.errors for error in errors)
        phase, _ = self.phase()
        return f"status {phase} round {self.round()} turns {len(self.moves)} substitutions {substitutions}"

    def record(self):
        phase, cause = self.phase()
        roles = range(len(self.game.roles))
        goals = [self.game.goal(self.states[-1], role) for role in self.game.roles]
        return {
            "cause": cause,
            "endMarks": [self.marks["end"].get(role) for role in roles],
            "errors": self.errors,
            "goalValues": goals if phase in ("stopping", "finished") else [],
            "matchId": self.name,
            "moves": [[text_of(move) for move in turn] for turn in self.moves],
            "phase": phase,
            "playClock": self.play,
            "players": self.players,
            "roles": [text_of(role) for role in self.game.roles],
            "startClock": self.start,
            "startMarks": [self.marks["start"].get(role) for role in roles],
            "states": [sorted(map(text_of, state)) for state in self.states],
            "strikes": 0,
            "version": 2,
        }


def run(game, script):
    """Returns the reply lines, and the match."""
    match, replies = None, []
    for line in script.splitlines():
        word, _, rest = line.partition(" ")
        if word == "open":
            name, number, words = rest.split(" ", 2)
            assert match is None and number == "0"
            match = Match(game, [name, *words.split(" ")])
            replies.append("opened")
            continue
        name, _, rest = rest.partition(" ")
        assert name == match.name
        if word == "next":
            replies.append(match.due(int(rest)))
        elif word == "submit":
            role, round, answer = rest.split(" ", 2)
            replies.append(match.answer(int(role), int(round), answer, ""))
        elif word == "miss":
            role, round, how = rest.split(" ")
            replies.append(match.answer(int(role), int(round), "", {"silent": "TO", "broken": "CE"}[how]))
        else:
            assert word == "query"
            replies.append(match.status())
    return replies, match


def output(rules, script):
    """Returns the expected output of a desk for a description and a script."""
    replies, match = run(Game(expressions(rules)), script)
    record = json.dumps(match.record(), separators=(",", ":"), sort_keys=True)
    return "".join(f"{line}\n" for line in (*replies, record))


def check():
    """Exits with status 1 if an expected output differs, or if the directory has no expected output."""
    files = sorted(GAMES.glob("*.kif"))
    for rules in files:
        if rules.with_suffix(".out").read_text() != output(rules.read_text(), rules.with_suffix(".script").read_text()):
            sys.exit(f"{rules.stem}.out is out of date: run ../../tests/oracle/ground_games.py {rules.stem} in examples/games")
    if not files:
        sys.exit("there is no game")


def main():
    words = argparse.ArgumentParser(description=__doc__, formatter_class=argparse.RawDescriptionHelpFormatter)
    words.add_argument("--check", action="store_true")
    words.add_argument("names", metavar="NAME", nargs="*")
    given = words.parse_args()
    if not given.check and not given.names:
        words.error("a NAME or --check is missing")
    if given.check:
        check()
        return
    for name in given.names:
        with open(f"{name}.kif") as rules, open(f"{name}.script") as script:
            text = output(rules.read(), script.read())
        with open(f"{name}.out", "w") as out:
            out.write(text)


if __name__ == "__main__":
    main()
