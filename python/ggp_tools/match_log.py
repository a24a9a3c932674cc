"""Reads and writes the JSON log of matches, even while a log grows. docs/COMMANDS.md describes the format. docs/COMPETITION.md describes
the events that `play` adds. Each character of a text represents one byte."""

import dataclasses
import io
import itertools
import json
import re
from collections import deque
from collections.abc import Iterable, Iterator
from dataclasses import dataclass
from typing import BinaryIO, get_args

from ggp_tools.moments import moment_at
from ggp_tools.printable import printable
from ggp_tools.streams import limited_lines

# An answer has at most 65,536 bytes, each written as at most six characters. A line that is too long for such an answer is not an event,
# and is not kept in memory.
LONGEST_LINE = 1 << 23
START, PLAY, STOP, ABORT = KINDS = "START", "PLAY", "STOP", "ABORT"
ENDS = STOP, ABORT
NO_TIME, BROKEN, SHORTAGE = ERRORS = "TO", "CE", "lost"
# The largest number is two days before Python's latest time. No answer takes much longer than a day.
MOST_NUMBER, MOST_MS = 253_402_128_000_000, 86_400_000 + 1_000_000
WORD = re.compile(r"[A-Za-z0-9_.-]{1,64}")
ESCAPED = re.compile(r'[^ !#-\[\]-~]')
# A line for a terminal shows at most this many bytes of a text.
SHOWN = 200


class Event:
    """A line of a log."""

    def moment(self) -> float | None:
        """Returns the time of the event in seconds since 1970, or None if the line has no time."""
        time = getattr(self, "time", None)
        return None if time is None else time / 1_000

    def is_sound(self) -> bool:
        """Returns whether values that have the right types are also consistent."""
        return True


@dataclass(frozen=True, slots=True)
class Message(Event):
    """A message to a role's player, with its answer or the error that replaces the answer. `number` counts from 1. `time` is when the
    message was sent, and `ms` is how long the answer took. In START, `...` replaces the description."""

    match: str
    role: int
    player: str
    number: int
    kind: str | None
    round: int | None
    time: int | None
    ms: int
    message: str
    answer: str | None
    error: str | None
    reason: str | None

    def moment(self) -> float | None:
        return None if self.time is None else (self.time + self.ms) / 1_000

    def is_sound(self) -> bool:
        if self.kind not in (*KINDS, None) or (self.kind == PLAY) != (self.round is not None) or self.number < 1:
            return False
        return self.error is None if self.answer is not None else self.error in ERRORS

    def turn(self) -> int:
        """Returns the turn of a PLAY, counted from 1, or 0 for START."""
        return 0 if self.round is None else self.round + 1

    def came(self) -> str:
        if self.answer is not None:
            return self.answer
        return f"{self.error} ({self.reason})" if self.reason else self.error


@dataclass(frozen=True, slots=True)
class Open(Event):
    """A match begins. The first START of the match follows."""

    match: str
    time: int | None


@dataclass(frozen=True, slots=True)
class End(Event):
    """The first role of a match has answered STOP or ABORT, or the time for its answer is over."""

    match: str
    time: int | None
    kind: str

    def is_sound(self) -> bool:
        return self.kind in ENDS


@dataclass(frozen=True, slots=True)
class Host(Event):
    """`play` starts the match on a host."""

    match: str
    host: str


@dataclass(frozen=True, slots=True)
class Other(Event):
    """An event that the tools only print."""

    name: str
    values: dict[str, str | int | None]


NAMES = {Message: "message", Open: "open", End: "end", Host: "host"}
# The class of each event, and the types of the values of its keys, by the name of the event.
TYPES = {name: (kind, {field.name: get_args(field.type) or (field.type,) for field in dataclasses.fields(kind)}) for kind, name in NAMES.items()}
TYPES_OF_OTHER = str, int, type(None)


def is_value(key: str, value: object, kinds: tuple[type, ...]) -> bool:
    """Returns whether this JSON value is allowed for the key."""
    kind = type(value)
    if kind not in kinds:
        return False
    if kind is int:
        return 0 <= value <= (MOST_MS if key == "ms" else MOST_NUMBER)
    if kind is str:
        return bool(WORD.fullmatch(value)) if key in ("match", "player") else value.isascii() or max(value) <= "\xff"
    return True


def event_of(line: bytes) -> Event | None:
    """Returns the event in a line, or None if the line is not an event."""
    try:
        values = json.loads(line)
    except (ValueError, RecursionError):
        return None
    name = values.pop("event", None) if isinstance(values, dict) else None
    if not isinstance(name, str):
        return None
    kind, types = TYPES.get(name) or (None, dict.fromkeys(values, TYPES_OF_OTHER))
    # An event about a refused match may have any id.
    keys = types if kind else itertools.repeat("")
    if values.keys() != types.keys() or not all(map(is_value, keys, map(values.get, types), types.values())):
        return None
    event = kind(**values) if kind else Other(name, values)
    return event if event.is_sound() else None


def values_of(event: Event) -> tuple[str, dict[str, str | int | None]]:
    """Returns the name of an event, and its values by key."""
    if isinstance(event, Other):
        return event.name, event.values
    name = NAMES[type(event)]
    return name, {key: getattr(event, key) for key in TYPES[name][1]}


def text_of_value(value: str | int | None) -> str:
    """Returns a value as JSON."""
    if value is None:
        return "null"
    if isinstance(value, int):
        return str(value)
    return '"%s"' % ESCAPED.sub(lambda match: f"\\{match[0]}" if match[0] in '"\\' else f"\\u{ord(match[0]):04x}", value)


def line_of(event: Event) -> bytes:
    """Returns the canonical line of an event."""
    name, values = values_of(event)
    return ("{" + ",".join(f'"{key}":{text_of_value(value)}' for key, value in {"event": name, **values}.items()) + "}\n").encode("ascii")


def whole_lines(file: BinaryIO) -> Iterator[bytes]:
    """Yields the lines of a file from its current position. Skips lines that are too long, and an unfinished last line."""
    return (line for line, _ in limited_lines(file, LONGEST_LINE) if line.endswith(b"\n"))


def events(file: BinaryIO) -> Iterator[Event]:
    """Yields the events of a log."""
    return (event for line in whole_lines(file) if (event := event_of(line)))


class Runs:
    """Separates the runs of a match. Each run numbers its messages from 1. The event `open` may come after the first START."""

    def __init__(self) -> None:
        self.is_open, self.last = False, {}

    def is_next(self, event: Event) -> bool:
        """Processes the next event of the match. Returns whether it begins a new run."""
        if isinstance(event, Message):
            begins = event.number <= self.last.get(event.role, 0)
        else:
            begins = isinstance(event, Host) or isinstance(event, Open) and self.is_open
        if begins:
            self.is_open, self.last = False, {}
        if isinstance(event, Message):
            self.last[event.role] = event.number
        self.is_open = self.is_open or isinstance(event, Open)
        return begins


def runs_of(log: BinaryIO, match: str) -> Iterator[list[Event]]:
    """Yields the events of each run of a match in a log. Yields at least one run, which may be empty."""
    run: list[Event] = []
    runs = Runs()
    for event in events(log):
        if isinstance(event, Other) or event.match != match:
            continue
        if runs.is_next(event):
            yield run
            run = []
        run.append(event)
    yield run


def last_run(log: BinaryIO, match: str) -> list[Event]:
    """Returns the events of the last run of a match in a log."""
    return deque(runs_of(log, match), 1).pop()


def published(log: bytes, match: str) -> bytes:
    """Returns the part of a match's log that is published in an archive."""
    return b"".join(map(line_of, last_run(io.BytesIO(log), match)))


def messages(run: Iterable[Event]) -> list[Message]:
    return [event for event in run if isinstance(event, Message)]


def shown(text: str) -> str:
    return printable(text, SHOWN)


def text_of(event: Event) -> str:
    """Formats an event as one line of limited length for a terminal."""
    if isinstance(event, Message):
        head = f"{event.match} role {event.role} {event.player} message {event.number}"
        return f"{head} {shown(event.message)}: {shown(event.came())}, {event.ms} ms"
    name, values = values_of(event)
    match, seconds = values.get("match"), event.moment()
    rest = (str(value) for key, value in values.items() if value is not None and key not in ("match", "time"))
    return shown(" ".join(filter(None, (match and str(match), name.replace("_", " "), *rest, seconds and moment_at(seconds)))))
