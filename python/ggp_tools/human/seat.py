"""Plays one match at a time for a person: answers the referee's messages with the person's moves."""

import contextlib
import itertools
import re
import sys
import threading
import time
from collections.abc import Callable, Iterable
from typing import TypeVar

from ggp_tools.holding.game import Game
from ggp_tools.human.game import Shown
from ggp_tools.instantiating.limits import LARGE
from ggp_tools.kif import Refused, blanked, expressions, spelled, starts, tokens

Value = TypeVar("Value")

# The keyword of a message, and the id of its match.
HEAD = re.compile(r"\s*\(\s*([A-Za-z]+)\s+([^\s()]+)", re.ASCII)
# Answers are sent this many seconds before the referee's clock runs out.
SPARE = 0.5
# A referee that is this many seconds late with its next message is considered lost. Then a START from another referee is accepted.
PATIENCE = 10.0
NO_MOVES = ("nil", ())
OUT_OF_MEMORY = "they need too much memory"
# The sender of one of these messages becomes the referee.
INTRODUCES = "info", "start"
NO_MATCH = "No match yet: the referee has not sent START."
# All messages except START have at most 16 moves of 4,096 bytes.
MOST_MESSAGE = 131_072
CLOCK = re.compile("[0-9]{1,5}")
# The exceptions that invalid rules can cause.
BAD_RULES = (Refused, RecursionError, MemoryError, IndexError, KeyError, TypeError, ValueError)


class Unread(Exception):
    """The reason why a text is not a message."""


def head_of(text: str) -> tuple[str, str]:
    """Returns a message's keyword and its match, without parsing the rest, which may be long."""
    if text.strip().lower() in ("info", "(info)"):
        return "info", ""
    head = HEAD.match(text)
    if not head or head[1].lower() == "info":
        raise Unread("it is not one list with a keyword and a match")
    return head[1].lower(), head[2]


def members_of(text: str) -> list[str]:
    """Returns the texts of the members of a message after its keyword and its match."""
    text = blanked(text).rstrip()
    head = HEAD.match(text)
    rest = text[head.end() :].removesuffix(")") if head else ")"
    try:
        # Only the rules in a START may be nested more deeply than this, and they are parsed later.
        begins = starts(rest, MOST_MESSAGE - 1, takes_bytes=True)
    except Refused as why:
        raise Unread(str(why)) from None
    if not text.endswith(")"):
        raise Unread("a list that is not closed")
    return [rest[begin:end].rstrip(" \t\r\n") for begin, end in itertools.pairwise([*begins, len(rest)])]


def game_of(rules: str) -> Game:
    """Parses the rules in a START. Refuses rules that are longer than a referee can send, because they could exhaust memory."""
    if not rules.startswith("("):
        raise Refused("they are not a list")
    # A file of rules needs no space before or after a list, so these spaces do not count.
    size = len(rules) - rules.count(" (") - rules.count(") ") + rules.count(") (")
    sentences = (index for token, index, around in tokens(rules, takes_bytes=True) if around == 1 and token != ")")
    if size > LARGE["bytes"] + len("()") or next(itertools.islice(sentences, LARGE["sentences"], None), None):
        raise Refused("they are longer than the rules of any game")
    return Game(rules[1:-1], takes_bytes=True)


def clock_of(text: str) -> int:
    """Parses the seconds of a clock."""
    if not CLOCK.fullmatch(text):
        raise Unread("a clock is not a number of seconds")
    return int(text)


def joint_move(text: str, count: int) -> tuple:
    """Parses the moves in a message. For `NIL`, returns an empty tuple."""
    (moves,) = expressions(text, MOST_MESSAGE, takes_bytes=True)
    if moves in NO_MOVES:
        return ()
    if not isinstance(moves, tuple) or len(moves) != count:
        raise Unread("it does not have one move for each role")
    return moves


class Seat:
    """The state of the match that the page shows, and the person's pending move. Each change increases `version` and wakes the waiting threads."""

    def __init__(self, referees: Iterable[str] = (), is_hex: bool = False) -> None:
        self.changed = threading.Condition()
        # Held while a START is read or rules are evaluated. One START is read at a time, because its rules may be long.
        self.reading = threading.Lock()
        self.version, self.pages, self.is_hex = 0, 0, is_hex
        self.match, self.receiver = "", ""
        # The addresses that may send messages: the given ones, or else the one that sent the first INFO or START.
        self.given = frozenset(referees)
        self.referees = set(self.given)
        # The matches that the person has left, each with the address of a referee.
        self.left: set[tuple[str, str]] = set()
        # The number of the current message, counted over all matches. Threads that wait for an earlier one give up.
        self.asked = 0
        # When the next message of the match must arrive.
        self.expected = 0.0
        # `shown` is set whenever `match` is set.
        self.shown: Shown | None = None
        self.view: dict = {"phase": "waiting", "note": NO_MATCH}
        self.role: object = None
        self.legal: list[str] = []
        self.sent: str | None = None
        self.deadline = 0.0
        self.play_clock = 0

    # ---- the referee's messages

    def answer(self, text: str, receiver: str = "", sender: str = "", is_taken: Callable[[], None] = lambda: None) -> str | None:
        """Answers a message to a receiver. Returns None if the person made no move in time, or if a later message came. Calls `is_taken` before it
        waits for the person, so that the next message can be taken."""
        keyword, match = head_of(text)
        if (match, sender) in self.left or not self.is_referee(sender, keyword):
            return "busy"
        if keyword == "info":
            return "available" if self.is_free() and self.is_person_there() else "busy"
        if keyword == "start" and self.may_start(match, receiver):
            return self.start(match, receiver, text, is_taken)
        if not self.is_own(match, receiver) or len(text) > MOST_MESSAGE:
            return "busy"
        match keyword, members_of(text):
            case "play", [moves]:
                return self.play(moves, is_taken)
            case "stop", [moves]:
                return self.stop(moves)
            case "abort", []:
                self.end(self.next_message(), "aborted", "The referee has given the match up.")
                return "aborted"
        return "busy"

    def may_be_referee(self, sender: str) -> bool:
        """Returns whether messages from this address are read: the address is a referee's, or there is no referee yet."""
        return not self.referees or sender in self.referees

    def is_referee(self, sender: str, keyword: str) -> bool:
        """Returns whether messages from this address are answered. If there is no referee yet, the sender of INFO or START becomes the referee."""
        with self.changed:
            is_first = not self.referees and keyword in INTRODUCES
            if is_first:
                self.referees = {sender}
                self.say(**self.view)
        if is_first:
            words = f"it accepts matches only from {sender}, which sent the first INFO or START"
            # Standard error may no longer have a reader.
            with contextlib.suppress(OSError):
                print(f"ggp-human: {words}; if this is not your referee, restart it with --referee ADDRESS", file=sys.stderr, flush=True)
        return sender in self.referees

    def is_own(self, match: str, receiver: str) -> bool:
        return match == self.match and receiver == self.receiver

    def may_start(self, match: str, receiver: str) -> bool:
        """Returns whether a START may begin a match: no match is being played, or the START repeats that of the match that is being played."""
        return self.is_own(match, receiver) or self.is_free()

    def is_free(self) -> bool:
        """Returns whether another match may begin, because there is no match, or its referee is lost."""
        return not self.match or time.monotonic() > self.expected

    def is_person_there(self) -> bool:
        """Returns whether a page is open. If none is open, the player makes no move for the person."""
        return bool(self.pages)

    def next_message(self, seconds: int = 0) -> int:
        """Records that a message of a match has arrived, with a clock of this many seconds. Returns its number. Cancels a pending move."""
        with self.changed:
            self.asked += 1
            self.expected = time.monotonic() + seconds + PATIENCE
            self.legal = []
            self.changed.notify_all()
            return self.asked

    def start(self, match: str, receiver: str, text: str, is_taken: Callable[[], None]) -> str:
        """Begins a match, and waits until a page is open. While another START is being read, answers `busy`."""
        began, reading = time.monotonic(), self.reading
        if not reading.acquire(blocking=False):
            return "busy"
        try:
            members = members_of(text)
            # Another START may have been read since the caller checked this.
            asked = self.begin(match, receiver, *members) if len(members) == 4 and self.may_start(match, receiver) else None
        finally:
            reading.release()
        is_taken()
        if asked is None:
            return "busy"
        left = began + clock_of(members[2]) - SPARE - time.monotonic()
        with self.changed:
            self.changed.wait_for(lambda: self.is_person_there() or self.asked != asked, max(0.0, left))
        return "ready"

    def begin(self, match: str, receiver: str, role: str, rules: str, start: str, play: str) -> int | None:
        """Begins a match. Returns the number of its START, or None if the match is refused."""
        play_clock, asked = clock_of(play), self.next_message(clock_of(start))
        try:
            shown, (role,) = Shown(game_of(rules), self.is_hex), expressions(role, takes_bytes=True)
            own = spelled(role)
            if own not in shown.roles:
                raise Refused(f"they have no role {own}")
            with self.changed:
                if self.asked != asked:
                    return None
                self.shown, self.role, self.play_clock, self.sent = shown, role, play_clock, None
                self.match, self.receiver = match, receiver
                self.show("ready", [], f"Match {match}: you are {own}.")
        except BAD_RULES as why:
            self.refuse(asked, f"A match was refused, since its rules can't be followed: {str(why) or OUT_OF_MEMORY}")
            return None
        return asked

    def refuse(self, asked: int, note: str) -> None:
        """Shows why a START was refused. If this was a repeated START, ends its match."""
        with self.changed:
            if self.asked == asked:
                self.match = ""
                self.say(phase="waiting", note=note)

    def follow(self, seconds: int, moves: tuple, compute: Callable[[Shown], Value]) -> tuple[int, str, Value]:
        """Applies the joint move of a message with a clock of this many seconds. Returns the number of the message, a note, and the result of `compute`
        for the new state. The person can leave the match even while the rules are evaluated, which may take forever."""
        with self.changed:
            asked, shown, sent, reading = self.next_message(seconds), self.shown, self.sent, self.reading
        is_free = reading.acquire(timeout=seconds + PATIENCE)
        try:
            if not is_free:
                raise Refused("they take too long")
            return asked, self.advance(shown, moves, sent), compute(shown)
        except BAD_RULES as why:
            self.refuse(asked, f"The match can't be followed any more, because of its rules: {str(why) or OUT_OF_MEMORY}")
            raise Unread("the rules of its match can't be followed") from None
        finally:
            if is_free:
                reading.release()

    def play(self, text: str, is_taken: Callable[[], None]) -> str | None:
        """Shows the state and waits for the person's move. While a page is open, a single legal move is made without asking."""
        deadline, made = time.monotonic() + self.play_clock - SPARE, joint_move(text, len(self.shown.roles))
        asked, note, legal = self.follow(self.play_clock, made, lambda shown: shown.legal(self.role))
        with self.changed:
            is_taken()
            if self.asked != asked or not self.match:
                return None
            self.sent, self.legal, self.deadline = None, legal, deadline
            self.show("moving", legal, note)
            self.changed.wait_for(lambda: self.has_move() or self.asked != asked, max(0.0, deadline - time.monotonic()))
            if self.asked != asked:
                return None
            if self.sent is None and self.has_move():
                self.sent = legal[0]
                self.show("sent", [], note)
            self.legal = []
            if self.sent is None:
                self.show("late", [], "Your time is up: the referee plays your first legal move.")
                # If the connection closed before the clock ran out, the referee would report a connection error.
                self.changed.wait_for(lambda: self.asked != asked, 2 * SPARE)
            return self.sent

    def has_move(self) -> bool:
        """Returns whether the person has chosen a move, or has only one."""
        return self.sent is not None or len(self.legal) == 1 and self.is_person_there()

    def stop(self, text: str) -> str:
        asked, note, goals = self.follow(0, joint_move(text, len(self.shown.roles)), lambda shown: shown.goals())
        said = ", ".join(f"{role} {'no goal' if goal is None else goal}" for role, goal in goals.items())
        self.end(asked, "over", f"{note} The match is over: {said}.".strip())
        return "done"

    def advance(self, shown: Shown, moves: tuple, sent: str | None) -> str:
        """Applies the joint move of a message. Returns a note about it."""
        if not moves:
            return ""
        shown.advance(moves)
        own = spelled(moves[shown.roles.index(spelled(self.role))])
        return f"Your move was replaced by {own}." if own != sent else ""

    # ---- the page

    def show(self, phase: str, legal: list[str], note: str) -> None:
        """Shows the current state."""
        named = {"match": self.match, "role": spelled(self.role), "name": self.receiver, "clock": self.play_clock, "sent": self.sent}
        self.say(phase=phase, note=note, asked=self.asked, turn=len(self.shown.states), **named, **self.shown.picture(legal))

    def say(self, **view: object) -> None:
        with self.changed:
            self.view, self.version = view, self.version + 1
            self.changed.notify_all()

    def end(self, asked: int, phase: str, note: str) -> None:
        with self.changed:
            if self.asked == asked:
                self.show(phase, [], note)
                self.match, self.receiver = "", ""

    def leave(self, match: object) -> str | None:
        """Leaves a match, if there is one, and accepts another referee. Returns an error, or None. This does not wait for a START whose rules take
        long to read."""
        with self.changed:
            if match != self.match:
                return "that match is over"
            self.next_message()
            self.left |= {(self.match, sender) for sender in self.referees if self.match}
            self.match, self.receiver, self.referees, self.reading = "", "", set(self.given), threading.Lock()
            self.say(phase="waiting", note=f"You have left match {match}: its referee plays your first legal moves." if match else NO_MATCH)
        return None

    def move(self, text: str, asked: int) -> str | None:
        """Takes the person's move, chosen at message number `asked`. Returns an error, or None."""
        with self.changed:
            if not self.legal or self.sent is not None:
                return "no move is expected now"
            if asked != self.asked:
                return "that move was chosen for an earlier turn"
            if text not in self.legal:
                return "that move is not legal"
            self.sent, self.legal = text, []
            self.say(**{**self.view, "phase": "sent", "legal": [], "sent": text, "note": f"You play {text}."})
        return None

    def page_opens(self, count: int) -> None:
        """Counts open pages: 1 for an opened one, -1 for a closed one."""
        with self.changed:
            self.pages += count
            self.changed.notify_all()

    def next_view(self, version: int, seconds: float) -> tuple[int, dict]:
        """Waits until the view has another version, or for at most this many seconds. Returns the version, and the view with the person's time left."""
        with self.changed:
            self.changed.wait_for(lambda: self.version != version, seconds)
            left = max(0.0, self.deadline - time.monotonic()) if self.view["phase"] in ("moving", "sent") else None
            return self.version, {**self.view, "left": left, "playing": self.match, "referee": ", ".join(self.referees - self.given)}
