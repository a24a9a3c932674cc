"""The format of times, and the journal."""

import pathlib
import re
import unittest

from ggp_tools.moments import MOMENT
from ggp_tools.reporting import Journal, spell


class Times(unittest.TestCase):
    def test_hours_minutes_and_seconds(self):
        for seconds, words in (
            (0, "0:00:00"), (0.4, "0:00:00"), (59.4, "0:00:59"), (59.6, "0:01:00"), (61, "0:01:01"), (3_599, "0:59:59"), (3_600, "1:00:00"),
            (4_500, "1:15:00"), (7_325, "2:02:05"), (90_061, "25:01:01"),
        ):
            self.assertEqual(spell(seconds), words)


def test_a_journal_has_lines_with_their_times(tmp_path):
    path = tmp_path / "play.log"
    assert not (Journal(path).is_open() or path.exists())
    Journal(path).write("one")
    with open(path, "ab") as file:
        file.write(b"cut")
    Journal(path).write("two \x1b[1m\u00e4")
    assert re.fullmatch(rf"{MOMENT} one\ncut\n{MOMENT} two \?\[1m\?\n", path.read_text())


def test_the_first_error_of_a_journal_is_kept():
    journal = Journal(pathlib.Path("/dev/full"))
    for word in ("one", "two"):
        journal.write(word)
    assert (journal.fault.filename, journal.fault.strerror) == ("/dev/full", "No space left on device")
