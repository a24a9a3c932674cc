"""Derives the messages of a match from its record."""

from collections.abc import Iterator

from ggp_tools.match_log import BROKEN
from ggp_tools.records.match_logs import message_sum
from ggp_tools.records.record import ABORTED, COMPLETED


class Exchanges:
    """The part of a match's messages that follows from its record: the texts, and which answers were broken."""

    def __init__(self, record: dict) -> None:
        self.record, self.players = record, record["players"]
        joints = ["NIL", *(f"({' '.join(moves)})" for moves in record["moves"])]
        self.plays = [self.text("PLAY", joint) for joint in joints]
        completed, aborted = {"STOP": self.text("STOP", joints[-1])}, {"ABORT": self.text("ABORT")}
        # By its kind, the text of the last message. If the match is not over, there is none.
        self.ends = completed if record["phase"] in COMPLETED else aborted if record["phase"] in ABORTED else {}
        errors = [[turn[role] for turn in record["errors"]] for role in range(len(self.players))]
        # The number of turns when each role was asked for a move. A retired role stays retired.
        self.asked = [turns.index("RT") if "RT" in turns else len(turns) for turns in errors]

    def text(self, kind: str, joint: str = "") -> str:
        return f"({kind} {self.record['matchId']}{' ' * bool(joint)}{joint})"

    def last(self, role: int) -> int:
        """Returns the number of the last message to a role. A role gets START, each PLAY, and STOP or ABORT."""
        return 1 + self.asked[role] + len(self.ends)

    def has(self, role: int, number: int, kind: str, known: int) -> bool:
        """Returns whether the match has this message. The text is compared by its hash."""
        if role >= len(self.players) or not 1 <= number <= self.last(role):
            return False
        if (kind == "START") != (number == 1) or (kind in self.ends) != (number == self.asked[role] + 2):
            return False
        text = self.ends[kind] if kind in self.ends else self.plays[number - 2]
        return known == message_sum(self.players[role], kind, text)

    def broken(self) -> Iterator[tuple[int, int | None]]:
        """Yields the role and the number of each message whose answer was broken. If somebody asked for an abort, the number of its ABORT is not
        known, because a PLAY of the open turn may have been sent before it."""
        for role in range(len(self.players)):
            marks = [self.record["startMarks"][role], *(turn[role] for turn in self.record["errors"][: self.asked[role]])]
            yield from ((role, number) for number, mark in enumerate(marks, 1) if mark == BROKEN)
            if self.record["endMarks"][role] == BROKEN:
                yield role, None if self.record["cause"] == "asked" else self.last(role)


def broken_answers(exchanges: Exchanges, whys: dict[tuple[int, int], str | None]) -> list[dict[str, object]]:
    """Returns the broken answers, each with its reason, or with None if no log has the reason."""
    return [{"role": role, "message": number, "why": whys.get((role, number)) or None} for role, number in exchanges.broken()]
