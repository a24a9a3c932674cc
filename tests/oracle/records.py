#!/usr/bin/env python3
"""Writes the expected output of `verify` for records of Countdown. This script is an oracle: it shares no code with the program or with
`python`. The oracle replays each record according to docs/RECORDS.md.

records.py                    writes NAME.word for each NAME.record of examples/records
records.py --check            exits with status 1 if one of these files differs from the expected output
records.py --random SEED MATCHES CHANGES
                              prints records of random matches, each followed by CHANGES copies with one change
records.py --program PROGRAM  checks with the program these records, random matches, and copies of each with one change, and exits with
                              status 1 if a verdict differs"""

import argparse
import copy
import json
import pathlib
import random
import re
import subprocess
import sys

TOP = pathlib.Path(__file__).resolve().parents[2]
RECORDS = TOP / "examples/records"
ROLES = ["red", "blue"]
KEYS = (
    "cause endMarks errors goalValues matchId moves phase playClock players roles startClock startMarks states strikes version"
).split()
PHASES = "starting playing stopping finished aborting aborted".split()
MOST_TURNS = 10000
MOST_LISTS = 64


class Countdown:
    """In each turn, a player takes one or two from a heap. If it is a player's turn and the heap is empty, this player loses."""

    def __init__(self, heap, turn=0):
        self.heap, self.turn = heap, turn

    def texts(self):
        return [f"(heap {self.heap})", f"(turn {ROLES[self.turn]})"]

    def legal(self, role):
        if role != self.turn:
            return ["noop"]
        return [f"(take {count})" for count in (1, 2) if count <= self.heap]

    def terminal(self):
        return self.heap == 0

    def goals(self):
        return [0 if role == self.turn else 100 for role in range(2)]

    def next(self, moves):
        taken = int(moves[self.turn][len("(take ") : -1])
        return Countdown(self.heap - taken, 1 - self.turn)


def is_retired(strikes, turns, role):
    """Returns whether the role's errors are non-empty in `strikes` consecutive turns."""
    struck = "".join("x" if errors[role] else "." for errors in turns)
    return strikes > 0 and "x" * strikes in struck


# ---- shapes


def is_whole(value, low, high):
    return type(value) is int and low <= value <= high


def is_name(value):
    return isinstance(value, str) and re.fullmatch(r"[A-Za-z0-9._-]{1,64}", value) is not None


def is_expression(text):
    """Returns whether the text is the canonical text of one expression without upper-case letters, nested at most 64 lists deep."""
    level = 0
    for place, token in enumerate(re.findall(r"[()]|[^() ]+|.", text)):
        if place > 0 and level == 0:
            return False
        level += (token == "(") - (token == ")")
        if not 0 <= level <= MOST_LISTS:
            return False
    spaced = re.fullmatch(r"(?!.*(^ | $|  |\( | \)|[^ (]\(|\)[^ )]))[!-:<-@\[-~ ]+", text)
    return level == 0 and spaced is not None


def is_error(value):
    if not isinstance(value, str):
        return False
    if value in ("", "TO", "CE", "IL ?", "RT"):
        return True
    return value.startswith("IL ") and len(value) <= 3 + 8192 and is_expression(value[3:])


def is_list(value, is_member, lengths=None):
    return isinstance(value, list) and all(map(is_member, value)) and (lengths is None or len(value) in lengths)


def is_pair(is_member):
    return lambda value: is_list(value, is_member, [2])


def is_mark(value):
    return value in (None, "", "TO", "CE") and not isinstance(value, (int, list))


def is_text(value):
    return isinstance(value, str)


SHAPES = {
    "cause": lambda value: value is None
    or is_text(value)
    and re.fullmatch(r"asked|toolong|allretired|(nolegal|nogoal) [01]", value) is not None,
    "endMarks": is_pair(is_mark),
    "errors": lambda value: is_list(value, is_pair(is_error)),
    "goalValues": lambda value: is_list(value, lambda goal: is_whole(goal, 0, 100), [0, 2]),
    "matchId": is_name,
    "moves": lambda value: is_list(value, is_pair(is_text)) and len(value) <= MOST_TURNS,
    "phase": lambda value: is_text(value) and value in PHASES,
    "playClock": lambda value: is_whole(value, 1, 86400),
    "players": is_pair(is_name),
    "roles": lambda value: value == ROLES,
    "startClock": lambda value: is_whole(value, 1, 86400),
    "startMarks": is_pair(is_mark),
    "states": lambda value: is_list(value, lambda state: is_list(state, is_text)),
    "strikes": lambda value: is_whole(value, 0, 255),
    "version": lambda value: type(value) is int and value in (1, 2),
}


def misshapen(record):
    """Returns the first key that is missing or has a wrong value. A record without a version has version 1."""
    record = record if isinstance(record, dict) else {}
    for key in KEYS:
        if key == "strikes" and record.get("version", 1) != 2:
            continue
        if key == "version" and key not in record:
            continue
        if key not in record or not SHAPES[key](record[key]):
            return key
    if len(record["errors"]) != len(record["moves"]):
        return "errors"
    if len(record["states"]) != len(record["moves"]) + 1:
        return "states"
    return None


# ---- the check


def fault_of_turn(state, strikes, turns, turn, moves, errors):
    """Returns the error in the moves and errors of a turn, or None."""
    retired = [is_retired(strikes, turns, role) for role in range(2)]
    if state.terminal() or all(retired):
        return "end"
    for role in range(2):
        legal, move, error = state.legal(role), moves[role], errors[role]
        if move not in legal:
            return f"illegal {turn} {role}"
        if error and (move != legal[0] or error.startswith("IL ") and error[3:] in legal):
            return f"notfirst {turn} {role}"
        if (error == "RT") != retired[role]:
            return f"retired {turn} {role}"
    return None


def is_end(record, state, strikes):
    """Returns whether the phase, the cause, the marks and the last state agree with a row of the table in docs/RECORDS.md."""
    started = None not in record["startMarks"]
    ended = None not in record["endMarks"]
    unended = record["endMarks"] == [None, None]
    phase, cause, turns = record["phase"], record["cause"], len(record["moves"])
    all_retired = all(is_retired(strikes, record["errors"], role) for role in range(2))
    over, long = state.terminal(), turns >= MOST_TURNS
    live = not over and not long and not all_retired
    if phase == "starting":
        return cause is None and not started and turns == 0 and unended
    if phase == "playing":
        return cause is None and started and unended and live
    if phase in ("stopping", "finished"):
        return cause is None and started and (phase == "finished") == ended and over
    if (phase == "aborted") != ended:
        return False
    if cause == "asked":
        return live if started else turns == 0
    if cause == "allretired":
        return started and not over and not long and all_retired
    if cause == "toolong":
        return started and not over and turns == MOST_TURNS
    return False


def word(heap, text):
    """Returns the expected output of `verify` for a record of Countdown from this heap."""
    try:
        record = json.loads(text)
    except ValueError:
        return "json"
    key = misshapen(record)
    if key:
        return f"shape {key}"
    strikes = record["strikes"] if record.get("version", 1) == 2 else 0
    state = Countdown(heap)
    for turn, shown in enumerate(record["states"]):
        if shown != state.texts():
            return f"state {turn}"
        if turn == len(record["moves"]):
            break
        moves, errors = record["moves"][turn], record["errors"][turn]
        fault = fault_of_turn(state, strikes, record["errors"][:turn], turn, moves, errors)
        if fault:
            return fault
        state = state.next(moves)
    stops = record["phase"] in ("stopping", "finished")
    if stops and not state.terminal() or record["goalValues"] != (state.goals() if stops else []):
        return "goals"
    return "lawful" if is_end(record, state, strikes) else "end"


# ---- random matches


def random_record(chance):
    """Returns the heap and the record of a match with strikes, which may be unfinished."""
    heap, strikes, rounds = chance.randint(1, 12), chance.randint(0, 3), chance.choice([3, 20, 20, 20])
    state, moves, errors = Countdown(heap), [], []
    states = [state.texts()]
    while len(moves) < rounds and not state.terminal():
        retired = [is_retired(strikes, errors, role) for role in range(2)]
        if all(retired):
            break
        parts = [part(chance, state.legal(role), retired[role]) for role in range(2)]
        moves.append([move for move, _ in parts])
        errors.append([error for _, error in parts])
        state = state.next(moves[-1])
        states.append(state.texts())
    asked = chance.random() < 0.2
    out = all(is_retired(strikes, errors, role) for role in range(2))
    phase, cause = "playing", None
    ends = [chance.choice([None, "", "TO", "CE"]) for _ in range(2)]
    if state.terminal():
        phase = "stopping" if None in ends else "finished"
    elif out or asked:
        phase, cause = "aborting" if None in ends else "aborted", "allretired" if out else "asked"
    return heap, {
        "cause": cause,
        "endMarks": [None, None] if phase == "playing" else ends,
        "errors": errors,
        "goalValues": state.goals() if state.terminal() else [],
        "matchId": "m",
        "moves": moves,
        "phase": phase,
        "playClock": 5,
        "players": ["ann", "bob"],
        "roles": ROLES,
        "startClock": 10,
        "startMarks": [chance.choice(["", "TO"]) for _ in range(2)],
        "states": states,
        "strikes": strikes,
        "version": 2,
    }


def part(chance, legal, retired):
    """Returns the move of a role in a turn, and the error of this move."""
    if retired:
        return legal[0], "RT"
    if chance.random() < 0.5:
        return legal[0], chance.choice(["TO", "CE", "IL ?", "IL (take 9)"])
    return chance.choice(legal), ""


def changed(chance, record):
    """Returns the record with one change."""
    record = copy.deepcopy(record)
    key = chance.choice("errors errors errors moves states strikes strikes version cause phase marks goalValues".split())
    if key in ("errors", "moves") and record[key]:
        turn, role = chance.randrange(len(record[key])), chance.randrange(2)
        values = {"errors": ["", "TO", "CE", "RT", "RT", "IL noop", "IL (take 1)", "il"], "moves": ["noop", "(take 1)", "(take 2)", "x"]}
        record[key][turn][role] = chance.choice(values[key])
    elif key == "states":
        chance.choice(record[key])[0] = f"(heap {chance.randint(0, 12)})"
    elif key in ("strikes", "version"):
        value = chance.choice({"strikes": [0, 1, 2, 3, 255, 256, None], "version": [1, 3, 0, "2", None, ""]}[key])
        if value is None:
            del record[key]
        else:
            record[key] = value
    elif key == "cause":
        record[key] = chance.choice([None, "asked", "allretired", "toolong", "nolegal 0", "nogoal 1", "nolegal 2"])
    elif key == "phase":
        record[key] = chance.choice(PHASES)
    elif key == "marks":
        record[chance.choice(["startMarks", "endMarks"])][chance.randrange(2)] = chance.choice([None, "", "TO"])
    else:
        record["goalValues"] = chance.choice([[], [0, 100], [100, 0]])
    return record


def compact(record):
    return json.dumps(record, separators=(",", ":"))


def random_records(seed, matches, changes):
    chance = random.Random(seed)
    for _ in range(matches):
        heap, record = random_record(chance)
        yield heap, compact(record)
        for _ in range(changes):
            yield heap, compact(changed(chance, record))


# ---- files


def example_records():
    """Yields each record of examples/records: its path, the heap, and its text."""
    for path in sorted(RECORDS.glob("*.record")):
        yield path, int(path.stem.split("-")[1]), path.read_text().removesuffix("\n")


def compare(program):
    records = [*((heap, text) for _, heap, text in example_records()), *random_records(2, 16, 7)]
    for heap, text in records:
        asked = subprocess.run([program, "verify", "--countdown", str(heap)], input=text, capture_output=True, text=True)
        said = (asked.stdout + asked.stderr.removeprefix("ggp_manager: not lawful: ")).strip()
        if said != word(heap, text):
            sys.exit(f"the program says {said!r} and not {word(heap, text)!r} of {text}")
    print(f"the verdicts of the program on {len(records)} records are as expected")


def main():
    words = argparse.ArgumentParser(description=__doc__, formatter_class=argparse.RawDescriptionHelpFormatter)
    words.add_argument("--check", action="store_true")
    words.add_argument("--random", metavar=("SEED", "MATCHES", "CHANGES"), nargs=3, type=int)
    words.add_argument("--program", metavar="PROGRAM")
    given = words.parse_args()
    if given.random:
        return print(*(text for _, text in random_records(*given.random)), sep="\n")
    if given.program:
        return compare(given.program)
    for path, heap, text in example_records():
        written, said = path.with_suffix(".word"), word(heap, text) + "\n"
        if not given.check:
            written.write_text(said)
        elif not written.exists() or written.read_text() != said:
            sys.exit(f"{written.name} is out of date: run tests/oracle/records.py")


if __name__ == "__main__":
    main()
