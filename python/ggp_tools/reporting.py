"""Reports the progress of matches: a line when a match begins and when it ends, and on a terminal also the progress of all matches."""

import errno
import os
import pathlib
import sys

from ggp_tools.competition.files import PRIVATE
from ggp_tools.competition.results import Result, forfeit_words
from ggp_tools.competition.schedule import Match
from ggp_tools.moments import moment
from ggp_tools.printable import printable
from ggp_tools.streams import lead_nowhere, say

REDRAWN = 0.5
# The reason that is reported for a match that `play` has not begun.
NOT_BEGUN = "not begun"


def spell(seconds: float) -> str:
    """Formats a time as hours, minutes and seconds."""
    minutes, rest = divmod(round(seconds), 60)
    return f"{minutes // 60}:{minutes % 60:02}:{rest:02}"


class Journal:
    """A file of timestamped lines. `Journal` appends to it. The file is opened when the first line is written. If the file ends with an
    incomplete line, a line break is added first."""

    def __init__(self, path: pathlib.Path) -> None:
        self.path, self.file = path, -1
        self.fault: OSError | None = None

    def is_open(self) -> bool:
        return self.file >= 0

    def open(self) -> None:
        self.file = os.open(self.path, os.O_RDWR | os.O_APPEND | os.O_CREAT | os.O_CLOEXEC, PRIVATE)
        size = os.fstat(self.file).st_size
        if size and os.pread(self.file, 1, size - 1) != b"\n":
            os.write(self.file, b"\n")

    def write(self, text: str) -> None:
        """Appends a line. If this fails, stores the error in `fault`, which `play` checks, and writes nothing more."""
        if self.fault:
            return
        line = f"{moment()} {printable(text)}\n".encode("ascii")
        try:
            if not self.is_open():
                self.open()
            if os.write(self.file, line) < len(line):
                raise OSError(errno.ENOSPC, os.strerror(errno.ENOSPC))
        except OSError as why:
            self.fault = OSError(why.errno, why.strerror, str(self.path))


class Reporter:
    """Writes lines to standard output. If standard error is a terminal, also rewrites one line of progress there. Stores the first
    error of standard output in `fault` and does not raise it, because open matches must continue. Ignores errors of the terminal, because
    the line of progress only repeats information that is reported elsewhere."""

    def __init__(self, journal: Journal | None = None) -> None:
        self.fault, self.journal = None, journal
        self.is_shown = sys.stderr.isatty()

    def draw(self, text: str) -> None:
        """Rewrites the line on the terminal."""
        if not self.is_shown:
            return
        try:
            print(f"\r\x1b[K{text}", end="", file=sys.stderr, flush=True)
        except OSError:
            self.is_shown = False
            lead_nowhere(sys.stderr)

    def clear(self) -> None:
        self.draw("")

    def note(self, text: str) -> None:
        """Writes a line to the journal only."""
        if self.journal:
            self.journal.write(text)

    def line(self, text: str) -> None:
        """Writes a line to standard output and to the journal."""
        self.note(text)
        self.say(text)

    def sum_up(self, text: str, *in_journal: str) -> None:
        """Writes a summary to standard output. If the journal has been opened, also writes the summary, or the lines `in_journal` instead,
        to the journal."""
        if self.journal and self.journal.is_open():
            for line in in_journal or [text]:
                self.note(line)
        self.say(text)

    def say(self, text: str) -> None:
        self.clear()
        try:
            # The text may quote a host or another program.
            say(printable(text))
        except OSError as why:
            self.fault = why

    def begins(self, match: Match, host: object = None) -> None:
        on_host = f" on {host}" if host else ""
        self.line(f"begin {match.id} {match.game} {' '.join(match.players)}{on_host}")

    def ends(self, result: Result, seconds: float) -> None:
        """Reports the goal of each player, how many of its moves were replaced, and any forfeits with the reasons."""
        match = result.match
        goals = result.goals or ["none"] * len(match.players)
        parts = [", ".join(f"{player} {goal}" for player, goal in zip(match.players, goals))]
        replaced = [
            f"{player} {result.replaced(role)} of {result.turns}" for role, player in enumerate(match.players) if result.replaced(role)
        ]
        parts += [f"replaced {', '.join(replaced)}"] if replaced else []
        parts += [forfeit_words(result)] if result.forfeits() else []
        self.line(f"end {match.id} {match.game} {', '.join(parts)}, {seconds:.1f} s")

    def progress(self, over: int, open_count: int, to_come: int, left: float | None) -> None:
        """Shows how many matches are finished, open and still to come, and the time left."""
        self.draw(f"finished {over}, open {open_count}, to come {to_come}, time left {'unknown' if left is None else spell(left)}")
