"""The explanations of answers that are not legal moves."""

import json
import unittest

from ggp_tools.answers import Illegal, Whys, game_of, listed, no_expression
from ggp_tools.records.show import page_of
from html_pages import parsed
from support import GAMES

STATES = [["(heap 2)", "(turn red)"], ["(heap 1)", "(turn blue)"]]
LATER = ["(heap 1)", "(turn red)"]
RECORD = {"states": [*STATES, LATER], "roles": ["red", "blue"]}


def game():
    return game_of((GAMES / "countdown.kif").read_bytes())


class Answers(unittest.TestCase):
    def test_why_a_text_is_not_one_expression(self):
        for answer, words in (
            ("", "it is empty"),
            ("  ; stay", "it contains no expression"),
            ("stay stay..", "a second expression begins at column 6"),
            ("(take 1) noop", "a second expression begins at column 10"),
            ("(take 1", "a list that is not closed at column 1"),
            ("take 1)", "a `)` with no open list at column 7"),
            ("(" * 65 + ")" * 65, "lists are nested more than 64 deep at column 65"),
            ("st?y", "the log shows `?` for the byte at column 3"),
            ("x" * 200 + "..", "the log has only the beginning of such a long answer"),
            *((answer, "") for answer in ("stay", "x" * 202)),
        ):
            with self.subTest(answer):
                self.assertEqual(no_expression(answer), words)

    def test_moves_are_listed_as_far_as_there_is_room(self):
        self.assertEqual(listed([]), "the 0 legal moves were ")
        self.assertEqual(listed(["noop"]), "the only legal move was noop")
        self.assertEqual(listed(["a", "b"]), "the 2 legal moves were a, b")
        self.assertEqual(listed(["x" * 500, "b"]), f"the 2 legal moves were {'x' * 500}, and 1 more")
        self.assertEqual(listed(["x" * 198] * 5), f"the 5 legal moves were {', '.join(['x' * 198] * 2)}, and 3 more")
        self.assertEqual(listed(["x" * 198, "x" * 199]), f"the 2 legal moves were {'x' * 198}, and 1 more")

    def test_what_is_legal_in_the_place_of_a_move(self):
        illegal = Illegal(STATES, ["red", "blue"], game)
        self.assertEqual(illegal.moves(0, 0, "IL noop"), "the 2 legal moves were (take 1), (take 2); it is legal for blue")
        self.assertEqual(illegal.moves(0, 1, "IL (take 2)"), "the only legal move was noop; it was legal in the turn before")
        self.assertEqual([illegal.moves(0, 0, error) for error in ("IL ?", "TO", "CE", "RT")], [""] * 4)
        self.assertEqual(Illegal([["(heap"]], ["red"], game).moves(0, 0, "IL noop"), "")
        self.assertEqual(Illegal([*STATES, LATER], ["red", "blue"], game).moves(0, 2, "IL (take 3)"), "the only legal move was (take 1)")
        later = Illegal([STATES[0], STATES[0], LATER], ["red", "blue"], game)
        self.assertEqual(later.moves(0, 2, "IL (take 2)"), "the only legal move was (take 1); it was legal in the turn before")

    def test_a_page_tells_of_the_first_illegal_moves(self):
        whys = Whys(RECORD, game, {(1, 0): "a b"})
        self.assertEqual(whys.more(1, 0, "IL ?"), ": a second expression begins at column 3")
        self.assertEqual([whys.more(0, 0, error) for error in ("IL ?", "TO")], [""] * 2)
        found = [whys.more(0, 2, "IL x") for _ in range(21)]
        self.assertEqual(found, ["; the only legal move was (take 1)"] * 20 + [""])
        self.assertEqual(Whys(RECORD, None, {}).more(0, 0, "IL x"), "")

    def test_a_page_has_them_as_titles(self):
        record = json.loads((GAMES / "countdown.out").read_text().splitlines()[-1])
        record |= {"phase": "playing", "goalValues": [], "errors": [["IL <b>", "IL ?"]], "moves": [["(take 1)", "noop"]], "states": STATES}
        hostile = (GAMES / "countdown.kif").read_bytes().replace(b"take", b'"><i>')
        titles = [cell["title"] for cell in parsed(page_of(record, lambda: game_of(hostile), {(1, 0): "(<i>"})).select("td.substituted")]
        told = ['the answer was not a legal move; the 2 legal moves were ("><i> 1), ("><i> 2)', "the answer was not one expression: a list that is not closed at column 1"]
        self.assertEqual(titles, told)
        self.assertEqual([cell["title"] for cell in parsed(page_of(record)).select("td.substituted")], [title.partition(";")[0].partition(":")[0] for title in told])
