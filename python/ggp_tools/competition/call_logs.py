"""Checks call logs ("accounts") and match logs. A call log may contain only the calls that the referee of one match makes. `replay` does
not check this, because it also accepts other calls that change nothing. The match log must contain the same messages and answers as the call log.
Only the match log contains times, hosts and reasons."""

import io
import itertools
import re
from collections.abc import Iterator, Sequence
from typing import TYPE_CHECKING, NamedTuple

from ggp_tools.competition.files import file_bytes
from ggp_tools.competition.side_by_side import made_side_by_side
from ggp_tools.match_log import BROKEN, NO_TIME, PLAY, End, Event, Message, last_run, line_of
from ggp_tools.printable import message_of
from ggp_tools.records.lengths import LONGEST_ACCOUNT

if TYPE_CHECKING:
    from ggp_tools.competition.plan import Plan
    from ggp_tools.competition.results import Result
    from ggp_tools.competition.schedule import Match

# The first call of a log, and the calls for a role: the call that asks for the role's next message, and the call with the role's answer.
OPENING = re.compile(rb"0\t(?:open|(strict)) ([^ \t]+) \d+ (\d{1,5}) (\d{1,5})([^\t]*)\topened")
NEXT = re.compile(rb"(\d+)\tnext ([^ \t]+) (\d+)\t(?:owe (\d+) ([^ \t]+) ?([^\t]*)|(hold \d+|over))")
ANSWER = re.compile(rb"(\d+)\t(submit|miss) ([^ \t]+) (\d+) (\d+)(?: ([^\t]*))?\ttaken")
# While a role waits in a round, its worker asks every two seconds, more often at first, and up to twice more each time another role wakes
# it. So the number of `hold` replies is less than the seconds of the clock, plus twice the number of roles, plus this number, even if the
# computer delays the referee by ten minutes.
MOST_HOLDS = 300
# The history of the referee's desk contains at most this many calls.
MOST_CALLS = 1_000_000
# Matches any call. The group is the id of the call's match.
MATCH = re.compile(rb"\d+\t[a-z]+ ([^ \t]+)[ \t]")
ESCAPED = re.compile(r"\\x([0-9a-f]{2})")
# The parts of the reasons that the referee reports for an error (docs/ERRORS.md), with N in place of each number. After a failed read, one
# more word names the kind of failure.
REASONS = {
    *("the host has no address", "no connection", "no answer in time", "the answers of the match are too long", "a write failed", "a read failed"),
    *("the head is not valid HTTP", "the status is not N", "the status is N, not N", "the status is N, which only announces an answer"),
    *("the body length is invalid", "the head or the body is too long", "the stream ended too early", "too many reads or writes"),
    *("out of memory", "no connection was made", "the request was not fully written", "nothing received", "N of the head's bytes received"),
    *("N of the body's N bytes received", "N of the body's bytes received, and no Content-Length", "N of the reply's bytes received"),
    *("the Transfer-Encoding is not supported", "the Content-Length is not a number", "the Content-Length is above N", "two Content-Length fields differ"),
    *("it does not begin with HTTP/N.N or HTTP/N.N and a space", "its status is not three digits, or a control byte follows it"),
    *("its method is not POST, or its target is not text", "a field does not begin with a name directly followed by a colon"),
    *("a field's value has a control byte", "a line ends with neither CR LF nor LF", "it has more than N fields"),
}
NUMBER, KIND = re.compile("[0-9]+"), re.compile("[A-Z][A-Za-z]+")
ERRORS = {"silent": NO_TIME, "broken": BROKEN}


def lines_of(account: bytes) -> Iterator[bytes]:
    """Yields the lines of a call log one by one, because there may be many."""
    return (line.removesuffix(b"\n") for line in io.BytesIO(account))


# ---- the calls


class Asked:
    """The state of a match after the calls so far: for each role, the round whose answer is due, how often the role got `hold` in its current round,
    and whether the role is done with the match."""

    def __init__(self, opening: re.Match[bytes]) -> None:
        is_strict, self.match, start, play, players = opening.groups()
        self.clocks, self.roles = (int(start), int(play)), len(players.split()) - bool(is_strict)
        self.rounds: dict[bytes, bytes] = {}
        self.holds: dict[bytes, tuple[bytes, int]] = {}
        self.over: set[bytes] = set()

    def is_of_role(self, line: bytes, match: bytes, role: bytes) -> bool:
        """Returns whether a call comes from the role's line of the desk, before the role is done with the match."""
        return match == self.match and int(line) == int(role) + 1 and role not in self.over

    def may_hold(self, role: bytes, hold: bytes) -> bool:
        """Counts a `hold` reply, which makes a role wait. Returns whether a referee could ask for the role this often in one round."""
        before, count = self.holds.get(role, (hold, 0))
        self.holds[role] = hold, count + 1 if before == hold else 1
        return self.holds[role][1] <= MOST_HOLDS + self.clocks[hold != b"hold 0"] + 2 * self.roles

    def is_next(self, text: bytes) -> bool:
        """Returns whether `text`, a row of the call log, is a call that the referee would make next for the role that the row names."""
        if call := NEXT.fullmatch(text):
            role = call[3]
            if not self.is_of_role(call[1], call[2], role) or role in self.rounds:
                return False
            if call[4]:
                self.rounds[role] = call[4]
            elif call[7] == b"over":
                self.over.add(role)
            else:
                return self.may_hold(role, call[7])
            return True
        answer = ANSWER.fullmatch(text)
        return bool(answer) and self.is_of_role(*answer.group(1, 3, 4)) and self.rounds.pop(answer[4], None) == answer[5]


def shown(text: bytes) -> str:
    return message_of(text.decode("ascii", "replace").replace("\t", " "))


def fault_of_account(account: bytes) -> str | None:
    """Returns an error about the first row of a call log that is not a call by the referee of the match, or an error if the call log ends too
    early. Otherwise returns None."""
    lines = lines_of(account)
    first = next(lines, b"")
    opening = OPENING.fullmatch(first)
    if not opening:
        return f"line 1 of its call log does not open a match: {shown(first)}"
    asked, number = Asked(opening), 1
    for number, text in enumerate(lines, 2):
        if number > MOST_CALLS or not asked.is_next(text):
            named = MATCH.match(text)
            why = "belongs to another match" if named and named[1] != opening[2] else "is not a call that a referee would make at this point"
            return f"line {number} of its call log {why}: {shown(text)}"
    return None if len(asked.over) == asked.roles else f"its call log ends after line {number}, before each role's part is over"


# ---- the match log


class Exchange(NamedTuple):
    """A message with its answer or its error, according to a call log. The call log does not contain the description that START carries."""

    kind: str
    round: int | None
    message: str
    answer: str | None
    error: str | None


def unescaped(text: bytes | None) -> str:
    """Decodes a text of a call log. Each character of the result is one byte of the text."""
    return ESCAPED.sub(lambda escape: chr(int(escape[1], 16)), (text or b"").decode("ascii", "replace"))


def message_text(match: "Match", role: str, kind: str, joint: str) -> str:
    """Returns the message of this kind that was sent to the role. `joint` is the joint move in the message."""
    if kind == "START":
        return f"(START {match.id} {role} ... {match.start} {match.play})"
    return f"({kind} {match.id}{' ' * bool(joint)}{joint})"


def exchanges(match: "Match", roles: Sequence[str], account: bytes) -> list[list[Exchange]]:
    """Returns the messages and answers of each role, in order. The call log must contain only the calls of the match."""
    exchanges_of: list[list[Exchange]] = [[] for _ in roles]
    owed = [("", 0, "")] * len(roles)
    for line in lines_of(account):
        if (call := NEXT.fullmatch(line)) and call[4]:
            role, kind = int(call[3]), call[5].decode("ascii", "replace").upper()
            owed[role] = kind, int(call[4]) - 1, message_text(match, roles[role], kind, unescaped(call[6]))
        elif answer := ANSWER.fullmatch(line):
            role, text = int(answer[4]), unescaped(answer[6])
            kind, number, message = owed[role]
            outcome = (text, None) if answer[2] == b"submit" else (None, ERRORS[text])
            exchanges_of[role].append(Exchange(kind, number if kind == PLAY else None, message, *outcome))
    return exchanges_of


def unpublished(log: bytes, run: Sequence[Event]) -> str | None:
    """Returns an error about the first line of a match log that `publish` would leave out or change, or None if there is no such line."""
    lines = itertools.zip_longest(io.BytesIO(log), map(line_of, run), fillvalue=b"")
    number, line = next(((number, given) for number, (given, kept) in enumerate(lines, 1) if given != kept), (0, b""))
    text = message_of(line.decode("ascii", "replace").rstrip())
    return f"`publish` would leave out line {number} of its log, or write it differently: {text}" if number else None


def has_sound_reason(message: Message) -> bool:
    """Returns whether a message has no reason, or has an error with a reason that the referee can report."""
    parts = NUMBER.sub("N", message.reason).split(": ") if message.reason is not None else []
    return not parts or message.error is not None and all(part in REASONS or KIND.fullmatch(part) for part in parts)


def is_confirmed(match: "Match", event: Event, asked: list[list[Exchange]]) -> bool:
    """Returns whether an event of a run agrees with the exchanges of the call log, which are given by role."""
    if not isinstance(event, Message):
        return not isinstance(event, End) or event.kind in {exchange.kind for of_role in asked for exchange in of_role}
    role = event.role
    if role >= len(asked) or event.player != match.players[role] or event.number > len(asked[role]):
        return False
    logged = event.kind, event.round, event.message, event.answer, event.error
    return asked[role][event.number - 1] == logged and has_sound_reason(event)


def fault_of_run(match: "Match", roles: Sequence[str], run: Sequence[Event], account: bytes) -> str | None:
    """Returns an error about the first line of a match log that does not agree with the call log, or None if there is no such line."""
    asked, has_end = exchanges(match, roles, account), False
    for number, event in enumerate(run, 1):
        is_second = has_end and isinstance(event, End)
        if is_second or not is_confirmed(match, event, asked):
            return f"line {number} of its log does not agree with its call log"
        has_end = has_end or isinstance(event, End)
    return None


def fault_of_log(plan: "Plan", match: "Match", is_published: bool) -> str | None:
    """Compares a match log with the call log of the match. Returns an error, or None. A published log may contain only lines that `publish`
    writes."""
    log = plan.folder.whole_log(match.id)
    run = last_run(io.BytesIO(log), match.id)
    if is_published and (fault := unpublished(log, run)):
        return fault
    return fault_of_run(match, plan.roles(match.game), run, file_bytes(plan.folder.account(match.id), LONGEST_ACCOUNT))


def faults_of_logs(plan: "Plan", results: Sequence["Result"], is_published: bool) -> list[str]:
    faults = made_side_by_side(fault_of_log, [(plan, result.match, is_published) for result in results])
    return [f"{result.match.id}: {fault}" for result, fault in zip(results, faults) if fault]
