"""The facts about a player in a match: its goal, its times and its errors, taken from the record and the log."""

import unittest
from dataclasses import replace
from unittest import mock

from ggp_tools.competition.player_pages import MoveError, appearances_of, errors_part, longest_text, player_parts, reason_of, standing_texts
from ggp_tools.competition.plots import BARS, bar_of, goals_plot, times_plot
from ggp_tools.competition.results import result_of
from ggp_tools.competition.schedule import Match
from ggp_tools.competition.table import Line, Table
from ggp_tools.match_log import Event, Open, event_of
from live_support import Missed, line

MATCH = Match("cup-001", "nim", 10, 5, ("ann", "bob"))


def record(*errors: list[str]) -> dict:
    """Returns the record of a match with these errors. Each turn has different moves."""
    moves = [[f"a{turn}", f"b{turn}"] for turn in range(1, len(errors) + 1)]
    return {"roles": ["x", "o"], "goalValues": [100, 0], "moves": moves, "errors": list(errors), "strikes": 2, "phase": "finished", "cause": None}


def lines(*messages: tuple) -> list[Event]:
    """Returns log lines for these messages: role, number, text, answer and milliseconds."""
    return [event_of(line(MATCH, *message).encode()) for message in messages]


LOG = lines(
    (0, 1, "(START cup-001 x ... 10 5)", "ready", 40), (1, 1, "(START cup-001 o ... 10 5)", "ready", 50),
    (0, 2, "(PLAY cup-001 NIL)", "a1", 7), (1, 2, "(PLAY cup-001 NIL)", Missed("TO (no answer in time)"), 5_001),
    (0, 3, "(PLAY cup-001 (a1 b1))", "wrong", 300), (1, 3, "(PLAY cup-001 (a1 b1))", Missed("CE (no connection)"), 2),
    (0, 4, "(PLAY cup-001 (a2 b2))", "a3", 9), (0, 5, "(STOP cup-001 (a3 b3))", "done", 9_999),
)
RECORD = record(["", "TO"], ["IL wrong", "CE"], ["", "RT"])


class Appearances(unittest.TestCase):
    def appearances(self, said=RECORD, log=LOG, ended="2026-01-01T00:00:09.000Z"):
        return appearances_of(result_of(said, MATCH), said, log, ended)

    def test_each_role_has_its_own(self):
        ann, bob = self.appearances()
        self.assertEqual([(appearance.role, appearance.role_name, appearance.ended, appearance.goal()) for appearance in (ann, bob)],
                         [(0, "x", "2026-01-01T00:00:09.000Z", 100), (1, "o", "2026-01-01T00:00:09.000Z", 0)])

    def test_times_are_those_of_play_and_of_start_alone(self):
        ann, bob = self.appearances()
        self.assertEqual([(appearance.start, appearance.longest, sum(appearance.times)) for appearance in (ann, bob)], [(40, 300, 3), (50, 5_001, 2)])
        wanted = [0] * BARS
        for milliseconds in (7, 300, 9):
            wanted[bar_of(milliseconds)] += 1
        self.assertEqual(ann.times, tuple(wanted))

    def test_an_error_has_its_message_and_the_answer_where_the_player_was_asked(self):
        ann, bob = self.appearances()
        self.assertEqual(ann.errors, (MoveError(2, "IL wrong", "a2", "(PLAY cup-001 (a1 b1))", "wrong"),))
        self.assertEqual(bob.errors, (
            MoveError(1, "TO", "b1", "(PLAY cup-001 NIL)", "TO (no answer in time)"), MoveError(2, "CE", "b2", "(PLAY cup-001 (a1 b1))", "CE (no connection)"), MoveError(3, "RT", "b3"),
        ))

    def test_a_retired_role_was_asked_for_nothing_whatever_a_log_says(self):
        log = LOG + lines((1, 4, "(PLAY cup-001 (a2 b2))", "b3", 1))
        self.assertEqual(self.appearances(log=log)[1].errors[-1], MoveError(3, "RT", "b3"))

    def test_without_lines_there_are_no_times(self):
        ann, bob = self.appearances(log=[], ended=None)
        self.assertEqual((ann.start, ann.longest, ann.times, ann.ended), (None, None, (0,) * BARS, ""))
        self.assertEqual(bob.errors[0], MoveError(1, "TO", "b1"))

    def test_lines_of_no_role_are_left_out(self):
        three = replace(MATCH, players=("ann", "bob", "eve"))
        log = [*LOG, event_of(line(three, 2, 2, "(PLAY cup-001 NIL)", "x", 1).encode()), Open("cup-001", 1)]
        self.assertEqual(self.appearances(log=log), self.appearances())

    def test_the_parts_of_a_page_are_about_the_matches_that_count_in_the_order_of_their_ends(self):
        found = []
        for name, end in (("cup-001", "3"), ("cup-002", "2"), ("cup-003", "1")):
            said = record(*[[f"IL {name}", ""]] * 12)
            match = replace(MATCH, id=name, again="cup-009" * (name == "cup-002"), reason="late")
            found.append(self.appearances(said, [event_of(line(MATCH, 0, 2, "(PLAY cup-001 NIL)", "x", int(end)).encode())], end)[0])
            found[-1] = replace(found[-1], result=result_of(said, match), start=10 * int(end))
        with mock.patch("ggp_tools.competition.player_pages.part") as made:
            player_parts("cup", "ann", "first", found)
        parts = {call.args[0]: call.kwargs for call in made.call_args_list}
        self.assertEqual(parts["player"]["left_out"], ["cup-002 does not count: cup-009 replaces it: late"])
        self.assertEqual(parts["seats"]["rows"], [("nim", "x", ["2", "100.00", "24 of 24", "30 ms", "3 ms"])])
        self.assertEqual([(match, error.turn) for match, error, _ in parts["errors"]["rows"]], [(name, turn) for name in ("cup-001", "cup-003") for turn in range(12, 2, -1)])
        self.assertEqual(parts["errors"]["count"], 24)
        self.assertEqual(parts["goals"]["plot"], goals_plot([100, 100]))
        self.assertEqual(parts["times"]["plot"], times_plot([[bar_of(1), bar_of(3)].count(bar) for bar in range(BARS)]))
        with mock.patch("ggp_tools.competition.player_pages.part") as made:
            errors_part(found[:1] * 11)
        self.assertEqual(len(made.call_args.kwargs["rows"]), 100)

    def test_what_an_error_means(self):
        wanted = "the referee lacked a resource", "no answer came in time", "the answer was not a legal move"
        self.assertEqual(tuple(map(reason_of, ("lost (out of memory)", "TO", "IL"))), wanted)

    def test_the_longest_of_the_known_times(self):
        self.assertEqual([longest_text(times) for times in ([7, None, 1_234], [None], [])], ["1,234 ms", "", ""])

    def test_the_standing_of_a_player(self):
        lines = {"ann": Line("ann", matches=2, moves=5, replaced=2, lost=2), "bob": Line("bob", matches=1, moves=4, won=1, scored=1, goals=100)}
        self.assertEqual(standing_texts(Table("all games", lines)), {
            "bob": "Place 1 of 2 in all games: 1 match, mean goal 100.00, 1 won, 0 drawn, 0 lost; 0 of 4 moves replaced.",
            "ann": "Place 2 of 2 in all games: 2 matches, mean goal none, 0 won, 0 drawn, 2 lost; 2 of 5 moves replaced.",
        })
