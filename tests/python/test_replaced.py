"""Replaced moves: the latest ones and their times. Also how a growing file is read."""

import os
import pathlib
import random
import sys
import tempfile
import unittest
from typing import NamedTuple
from unittest import mock

from ggp_tools.competition import tail
from ggp_tools.competition.replaced import MOST_OF_MATCH, MOST_REPLACED, Replaced, newest, replaced_moves
from ggp_tools.competition.schedule import Match
from ggp_tools.competition.tail import Extent, Tail

MATCH = Match("cup-001", "nim", 10, 5, ("ann", "bob"))


class Moments(unittest.TestCase):
    def test_the_newest_are_last_and_of_one_moment_those_of_the_later_turn(self):
        dice = random.Random(3)
        found = [Replaced(MATCH, "ann", turn, "TO", "m", dice.choice((1.0, 2.0, 3.0)), turn) for turn in range(60)]
        wanted = [move for moment in (1.0, 2.0, 3.0) for move in found if move.moment == moment][-MOST_REPLACED:]
        shuffled = list(found)
        dice.shuffle(shuffled)
        self.assertEqual((newest(shuffled), MOST_REPLACED, newest(found[:1]), newest([]), MOST_OF_MATCH), (wanted, 20, found[:1], [], 3))

    def test_each_error_is_a_replaced_move(self):
        turns = [(("a", "b"), ("", "TO")), (("c", "d"), ("lost", "")), (("e", "f"), ("IL x", "RT"))]
        moves = [("bob", 1, "TO", "b", 5.0, 0), ("ann", 3, "IL x", "e", 9.0, 1), ("bob", 3, "RT", "f", 9.0, 2)]
        self.assertEqual(replaced_moves(MATCH, turns, {1: 5.0}, 9.0), [Replaced(MATCH, *move) for move in moves])
        # Only the last replaced moves are returned. The number in the first of these counts the earlier ones.
        self.assertEqual([(move.turn, move.before) for move in replaced_moves(MATCH, turns * 2, {}, 9.0)], [(4, 3), (6, 4), (6, 5)])


class Text(NamedTuple):
    """A line that may begin with a time in seconds."""

    text: str

    def moment(self) -> float | None:
        return float(self.text.partition(" ")[0]) if self.text[:1].isdecimal() else None


def parsed(data: bytes) -> Text | None:
    return None if data == b"none\n" else Text(data.decode("latin-1").rstrip("\n"))


class Growing(unittest.TestCase):
    def setUp(self):
        self.file = pathlib.Path(self.enterContext(tempfile.TemporaryDirectory())) / "log"
        self.tail = Tail(str(self.file), parsed)

    def added(self, found: Tail | None = None, until: int = sys.maxsize) -> tuple[list[str], bool]:
        texts, is_other = (found or self.tail).added(Extent(until))
        return [text.text for text in texts], is_other

    def test_lines_as_they_come(self):
        self.assertEqual(self.added(), ([], False))
        for text, lines in (("", []), ("one\ntw", ["one"]), ("", []), ("o\n", ["two"]), ("\nnone\nthree\nfour\n", ["", "three", "four"])):
            with open(self.file, "a") as file:
                file.write(text)
            self.assertEqual(self.added(), (lines, False))

    def test_a_file_that_was_cut_or_replaced_is_read_from_its_beginning(self):
        self.file.write_text("one\ntwo\nhal")
        self.added()
        self.file.write_text("new\n")
        self.assertEqual((self.added(), self.added()), ((["new"], True), ([], False)))
        other = self.file.with_name("other")
        other.write_text("new\n")
        os.replace(other, self.file)
        self.assertEqual(self.added(), (["new"], True))
        self.file.unlink()
        self.assertEqual(self.added(), ([], False))

    def test_a_file_that_was_cut_and_has_grown_past_its_place_is_known_by_its_beginning(self):
        self.file.write_text("1 one\n")
        self.added()
        self.file.write_text("1 one\ntwo\n")
        self.assertEqual(self.added(), (["two"], False))
        self.file.write_text("2 one\ntwo\nthree\n")
        self.assertEqual(self.added(), (["2 one", "two", "three"], True))

    def test_so_much_is_read_at_a_time(self):
        self.assertEqual(tail.MOST_READ, 1 << 20)
        with mock.patch.object(tail, "MOST_READ", 4):
            self.file.write_text("ab\ncdefghijk\nlm\n")
            self.assertEqual([self.added()[0] for _ in range(3)], [["ab", "cdefghijk"], ["lm"], []])

    def test_a_line_that_is_too_long_is_left_out_in_parts(self):
        with mock.patch.object(tail, "MOST_READ", 4), mock.patch.object(tail, "LONGEST_LINE", 4):
            self.file.write_text("ab\ncdefghijk\nlm\ncut off")
            self.assertEqual([self.added()[0] for _ in range(5)], [["ab"], [], ["lm"], [], []])
            self.assertEqual((self.tail.place, self.tail.is_behind), (20, False))
            # Another file begins with a line that is read.
            self.file.write_text("new\n")
            self.assertEqual(self.added(), (["new"], True))

    def test_what_is_no_file_has_no_lines(self):
        self.assertEqual(self.added(Tail(str(self.file.parent), parsed)), ([], False))
        os.mkfifo(self.file)
        self.assertEqual((self.added(), self.tail.place), (([], False), 0))

    def test_nothing_comes_from_another_file_than_is_expected(self):
        self.file.write_text("100 one\n")
        tail, number = Tail(str(self.file), parsed, "later"), self.file.stat().st_ino
        for at, head, found in ((number + 1, b"100", []), (number, b"101", []), (number, b"100", ["100 one"])):
            self.assertEqual([text.text for text in tail.added(Extent(8, at, head))[0]], found)
            self.assertEqual(tail.is_behind, not found)

    def test_lines_past_the_given_bytes_come_later_also_from_a_later_file(self):
        later = self.file.with_name("later")
        tail = Tail(str(self.file), parsed, str(later))
        self.file.write_text("100 one\ntwo\n")
        self.assertEqual([self.added(tail, until) for until in (7, 8, 8, 12)], [([], False), (["100 one"], False), ([], False), (["two"], False)])
        self.file.rename(later)
        with open(later, "a") as file:
            file.write("101 three\n200 four\n")
        self.assertEqual([self.added(tail, until) for until in (22, 31)], [(["101 three"], False), (["200 four"], False)])
