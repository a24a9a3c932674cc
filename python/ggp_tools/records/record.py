"""Parses match records, checks that each key has the shape that docs/RECORDS.md defines, and explains why a text is not a record."""

import hashlib
import json
import re
import sys
from collections.abc import Callable, Iterator, Sequence
from typing import BinaryIO

from ggp_tools.kif import KifFault, Refused, expressions, spelled
from ggp_tools.printable import counted, shown
from ggp_tools.records.lengths import USUAL_RECORD, states_in, without_states
from ggp_tools.streams import limited_lines

LONGEST_RECORD = USUAL_RECORD
TOO_LONG = "it is longer than 16 MiB"
COMPLETED, ABORTED = ("stopping", "finished"), ("aborting", "aborted")
PHASES = ("starting", "playing", *COMPLETED, *ABORTED)
ERRORS = ("", "TO", "CE", "RT", "IL ?")
CAUSE = re.compile(r"(asked|toolong|allretired)|(nolegal|nogoal) (0|[1-9][0-9]?)")
# A line of a call log, in the form that the referee writes and reads. A line that was cut off and has a record appended to it does not
# match, because no reply ends like a record.
ACCOUNT_LINE = re.compile(rb"[0-9]+\t(?:open|strict|next|submit|miss|query|abort)(?: [^\t]*)?\t[^\t]*[0-9A-Za-z)]")
LONGEST_EXPRESSION, MOST_OF_VALUE, MOST_OF_ROLES = 8_192, 80, 1_000
# The JSON parser is recursive, and more than ROOM calls overflow its stack. Records are nested three lists deep. The recursion limit
# applies to all threads, so it is lowered only if a command has raised it above ROOM. Such a command has no other threads.
ROOM, MOST_CALLS = 20_000, 1_000

# ---- JSON

# A record may be followed by another one, or by a line of its call log.
FOLLOWS = re.compile(r"\{|[0-9]+\t[^\t\n]+\t")
# The beginning of each record, and the last characters of a record that was cut off within a word or a number.
BEGIN = b'{"cause":'
CUT_WORD = re.compile(r"-|t(ru?)?|f(a(ls?)?)?|n(ul?)?")
# The messages of Python's JSON parser, and our messages for them.
JSON_WORDS = {
    "Expecting value": "a value is missing", "Extra data": "more text follows the value", "Unterminated string starting at": "a text has no end",
    "Expecting property name enclosed in double quotes": "a key is missing", "Expecting ':' delimiter": "`:` is missing",
    "Expecting ',' delimiter": "`,` is missing", "Invalid control character at": "a control character is in a text",
}


class NoRecord(Refused):
    """The reason why a text is not a record."""


def parsed(data: bytes | str) -> object:
    most = sys.getrecursionlimit()
    try:
        sys.setrecursionlimit(MOST_CALLS if most > ROOM else most)
        return json.loads(data if isinstance(data, str) else data.decode("utf-8"), parse_constant=json_constant)
    except (ValueError, RecursionError):
        raise NoRecord(f"it is not JSON: {json_lines(data if isinstance(data, bytes) else data.encode())[0]}") from None
    finally:
        sys.setrecursionlimit(most)


def json_constant(word: str) -> None:
    raise ValueError(f"{word} is not a number")


def json_lines(data: bytes) -> list[str]:
    """Explains where and why a text is not JSON."""
    if not data.strip():
        return ["it is empty"]
    try:
        json.loads(data.decode("utf-8"), parse_int=float)
    except json.JSONDecodeError as why:
        lines = [f"line {why.lineno}, column {why.colno}: {JSON_WORDS.get(why.msg, 'an escape sequence is not valid JSON')}"]
        if why.msg == "Extra data" and FOLLOWS.match(why.doc, why.pos):
            return [*lines, "More text follows the first record. Pass one record, without its call log, or use --lines if each line is a record."]
        return lines + cut_lines(why.doc, why)
    except UnicodeDecodeError as why:
        line, column = data.count(b"\n", 0, why.start) + 1, why.start - data.rfind(b"\n", 0, why.start)
        return [f"line {line}, byte {column}: it is not UTF-8"]
    except RecursionError:
        pass
    return ["a value is nested more than 127 deep, a number is invalid or outside the range of binary64, or a surrogate pair is incomplete"]


def cut_lines(doc: str, why: json.JSONDecodeError) -> list[str]:
    """Explains which part of a record is missing."""
    text, again = doc.rstrip(), doc.find(BEGIN.decode(), 1)
    if doc.startswith("{") and again > 0:
        return [f"Another record begins at byte {again + 1}: the record before it was cut off, for example because a record was appended to an unfinished line."]
    is_cut = why.pos >= len(text) or why.msg.startswith("Unterminated string") or CUT_WORD.fullmatch(text, why.pos)
    if text.startswith("{") and is_cut:
        return ["The text ends within the record: its end was cut off, or it is on several lines although each line must be a record."]
    if text.endswith("}") and not text.startswith(("{", "[")) and '"' in text:
        return ["The text begins within a record: its beginning was cut off."]
    return []


# ---- the keys of a record

# The type of a function that checks the type of a value.
Kind = Callable[[object], bool]


def is_text(value: object) -> bool:
    return isinstance(value, str)


def is_whole(value: object) -> bool:
    return isinstance(value, int) and not isinstance(value, bool) and value >= 0


def is_text_or_null(value: object) -> bool:
    return value is None or is_text(value)


def is_list(value: object, is_member: Kind, lengths: list[int] | None = None) -> bool:
    """Returns whether a value is a list of members that `is_member` accepts. If `lengths` is given, the list must have one of these
    lengths."""
    return isinstance(value, list) and all(map(is_member, value)) and (lengths is None or len(value) in lengths)


def list_of(is_one: Kind) -> Kind:
    return lambda value: is_list(value, is_one)


def is_expression(text: str) -> bool:
    """Returns whether a text is the canonical text of one expression in lower case."""
    try:
        return list(map(spelled, expressions(text))) == [text]
    except KifFault:
        return False


def is_error(value: object) -> bool:
    """Returns whether a value is a valid error of a turn."""
    if not isinstance(value, str) or value in ERRORS:
        return isinstance(value, str)
    return value.startswith("IL ") and len(value) <= len("IL ") + LONGEST_EXPRESSION and is_expression(value.removeprefix("IL "))


MARKS, CLOCK = 'for each role a mark: null, "", "TO" or "CE"', "a whole number of seconds from 1 to 86,400"
NAME = "1 to 64 letters, digits, `-`, `_` and `.`"
# For each key of a record: a check of the value's type, as strict as a page needs, and a description of the value.
KEYS: dict[str, tuple[Kind, str]] = {
    "cause": (is_text_or_null, 'null, "asked", "toolong", "allretired", "nolegal R" or "nogoal R", where R is the number of a role, counted from 0'),
    "endMarks": (list_of(is_text_or_null), MARKS),
    "errors": (
        list_of(list_of(is_text)), 'for each turn of moves a list with one text for each role: "", "TO", "CE", "RT", "IL ?", or "IL " and an '
        "expression in canonical text and lower case, of at most 8,192 bytes",
    ),
    "goalValues": (list_of(is_whole), "an empty list, or for each role a whole number from 0 to 100"),
    "matchId": (is_text, NAME),
    "moves": (list_of(list_of(is_text)), "for each turn, at most 10,000 of them, a list with one text for each role"),
    "phase": (PHASES.__contains__, f"one of the texts {', '.join(PHASES)}"),
    "playClock": (is_whole, CLOCK),
    "players": (list_of(is_text), f"for each role a name of {NAME}"),
    "roles": (lambda value: is_list(value, is_text) and bool(value), "the names of the game's roles, in their order"),
    "startClock": (is_whole, CLOCK),
    "startMarks": (list_of(is_text_or_null), MARKS),
    "states": (list_of(list_of(is_text)), "a list of states, one more than turns in moves, each a list of texts"),
    "strikes": (is_whole, "a whole number from 0 to 255, because the record has version 2"),
    "version": (lambda value: is_whole(value) and value in (1, 2), "1 or 2"),
}
# In lists by turn, only the first wrong member is reported.
IS_ONE = {"errors": is_error, "moves": is_text, "states": is_text}


def shape_lines(key: str, record: object, roles: Sequence[str]) -> list[str]:
    """Returns the expected and the actual value of a key."""
    expected = KEYS[key][1]
    lines = [f"expected in {key}: {expected}", *[f"the roles are: {shown(', '.join(roles), MOST_OF_ROLES)}"] * bool(roles and "role" in expected)]
    if not isinstance(record, dict):
        return [*lines, f"found: not a JSON object, but {shown(json.dumps(record), MOST_OF_VALUE)}"]
    if key not in record:
        return [*lines, "found: no such key"]
    value, lengths, where = record[key], None if key == "states" else [len(roles)], ""
    if key in IS_ONE and isinstance(value, list):
        bad = [at for at, member in enumerate(value) if not is_list(member, IS_ONE[key], lengths)]
        where = f" as member {bad[0] + 1} of {len(value):,}" if bad else f" {counted(len(value), 'member')}"
        moves = record.get("moves")
        where += f", with {counted(len(moves), 'turn')} in moves" if not bad and isinstance(moves, list) else ""
        value = value[bad[0]] if bad else value
    return [*lines, f"found{where}: {shown(json.dumps(value), MOST_OF_VALUE)}"]


def refuse_key(key: str, record: dict) -> None:
    roles = record.get("roles")
    raise NoRecord("; ".join(shape_lines(key, record, roles if is_list(roles, is_text) else [])))


def check_lengths(record: dict, is_cut: bool) -> None:
    """Checks that lists by role have one member for each role, and that there is one more state than there are turns. A truncated record may have
    fewer states."""
    roles, turns = len(record["roles"]), len(record["moves"])
    lengths = {"players": [roles], "startMarks": [roles], "endMarks": [roles], "goalValues": [0, roles], "errors": [turns], "states": [turns + 1]}
    if is_cut:
        lengths["states"] = range(1, turns + 2)
    for key, allowed in lengths.items():
        if len(record[key]) not in allowed:
            refuse_key(key, record)
    for key in ("moves", "errors"):
        if any(len(texts) != roles for texts in record[key]):
            refuse_key(key, record)


def checked_record(record: object, is_cut: bool = False) -> dict:
    """Checks whether a record has the shape that a page needs. If the record has no version, sets the version to 1. A truncated record
    lacks its last states."""
    if not isinstance(record, dict):
        raise NoRecord("it is JSON, but not an object")
    record.setdefault("version", 1)
    for key, (is_of_kind, _) in KEYS.items():
        if (key != "strikes" or record["version"] == 2) and not (key in record and is_of_kind(record[key])):
            refuse_key(key, record)
    check_lengths(record, is_cut)
    why = CAUSE.fullmatch(record["cause"] or "asked")
    if not why or int(why[3] or 0) >= len(record["roles"]):
        refuse_key("cause", record)
    return record


# ---- reading


def read_record(data: bytes) -> dict:
    """Parses a record. If the record is longer than 16 MiB, `states` has only the first states that fit into 16 MiB."""
    # The newline at the end is not part of the record.
    if len(data) - data.endswith(b"\n") <= LONGEST_RECORD:
        return checked_record(parsed(data))
    rest = without_states(data)
    if len(rest) > LONGEST_RECORD:
        raise NoRecord(TOO_LONG)
    record = parsed(rest)
    if isinstance(record, dict):
        record["states"] = list(states_in(data, LONGEST_RECORD))
    return checked_record(record, is_cut=True)


def record_sum(data: bytes) -> str:
    """Returns the checksum of a record's text line, with one LF at the end of the line."""
    return hashlib.sha256(data.rstrip(b"\r\n") + b"\n").hexdigest()


def numbered_lines(lines: BinaryIO) -> Iterator[tuple[int, bytes]]:
    """Yields the lines of a file with their numbers. If a line is too long, yields only its beginning, which is just longer
    than the limit."""
    return ((number, data.rstrip(b"\r\n")) for number, (data, _) in enumerate(limited_lines(lines, LONGEST_RECORD + 3), 1))


def winner_words(players: Sequence[str], worths: Sequence[int]) -> str:
    """Returns a text that says who won a match, or who drew, given the result of each player. If there is only one player, or no result is
    at least 0, the text is empty."""
    best = max(worths, default=-1)
    names = [player for player, worth in zip(players, worths) if worth == best >= 0]
    return f"{' and '.join(names)} {'won' if len(names) == 1 else 'drew'}." if names and len(players) > 1 else ""
