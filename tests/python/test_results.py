"""The result of a match from its record. `test_recount.py` compares who has won, and which goals count, with a simple recount."""

import json
import unittest
from dataclasses import replace

from ggp_tools.competition.results import fault_of_record, forfeit_words, lapse_of, match_line, remarks, result_of, retirement_of, winner_words
from ggp_tools.competition.schedule import Match
from ggp_tools.descriptions.loading import Rules
from ggp_tools.match_log import event_of
from ggp_tools.records.match_logs import Beginning, logged
from live_support import RULES, line

MATCH = Match("cup-001", "nim", 10, 5, ("ann", "bob"))
RECORD = {
    "matchId": "cup-001", "players": ["ann", "bob"], "startClock": 10, "playClock": 5, "strikes": 2, "phase": "finished", "cause": None,
    "goalValues": [100, 0], "moves": [["a", "n"], ["n", "b"], ["a", "n"]], "errors": [["", "TO"], ["CE", ""], ["IL (x y)", "IL ?"]],
}
SUMS = {"record": "first", "rules": "sum", "description": None}
BROKEN = [{"role": 0, "message": 3, "why": "no connection"}]


def record(**changed):
    return {**RECORD, **changed}


class Faults(unittest.TestCase):
    def test_the_record_of_the_match_has_no_fault(self):
        self.assertIsNone(fault_of_record(RECORD, MATCH, 2))
        self.assertIsNone(fault_of_record(record(phase="aborted"), MATCH, 2))

    def test_each_key_is_compared_and_its_source_named(self):
        for key, value, source in (
            ("matchId", "cup-002", "the schedule"), ("players", ["bob", "ann"], "the schedule"), ("startClock", 11, "the schedule"),
            ("playClock", 4, "the schedule"), ("strikes", 0, "competition.toml"),
        ):
            said = fault_of_record(record(**{key: value}), MATCH, 2)
            self.assertEqual(said, f"its {key} is {value!r}, but {source} has {RECORD[key]!r}")

    def test_a_match_that_is_not_over_is_a_fault(self):
        for phase in ("starting", "playing", "stopping", "aborting"):
            self.assertEqual(fault_of_record(record(phase=phase), MATCH, 2), f"its match is not over: {phase}")

    def test_how_many_turns_and_which_goals_a_match_may_have(self):
        goals = "one of its goals is not from 0 to 100"
        for changed, said in (
            ({"moves": [["a", "n"]] * 10_000}, None), ({"moves": [["a", "n"]] * 10_001}, "it has 10,001 turns, but a match can have at most 10,000"),
            ({"goalValues": [0, 100]}, None), ({"goalValues": []}, None), ({"goalValues": [0, 101]}, goals), ({"goalValues": [-1, 0]}, goals),
        ):
            self.assertEqual(fault_of_record(record(**changed), MATCH, 2), said)


class Results(unittest.TestCase):
    def test_errors_are_counted_by_role_and_kind(self):
        found = result_of(RECORD, MATCH)
        self.assertEqual([dict(errors) for errors in found.errors], [{"CE": 1, "IL": 1}, {"TO": 1, "IL": 1}])
        self.assertEqual((found.goals, found.turns, found.phase, found.cause), ((100, 0), 3, "finished", None))
        self.assertEqual([found.replaced(role) for role in (0, 1)], [2, 2])

    def test_strikes_count_in_a_row(self):
        def retired(strikes, *errors):
            found = retirement_of(record(strikes=strikes, errors=[[error] for error in errors]), 0)
            return found and found.words()

        self.assertEqual(retired(2, "TO", "TO", "RT"), "TO in turns 1 to 2")
        self.assertEqual(retired(3, "", "TO", "IL (a b)", "TO", "RT"), "TO, IL in turns 2 to 4")
        self.assertEqual(retired(2, "", "TO", "CE", ""), "TO, CE in turns 2 to 3")
        self.assertEqual(retired(1, "", "", "IL ?"), "IL in turn 3")
        for strikes, *errors in ((2, "TO", "", "TO"), (3, "TO", "TO", "", "TO"), (1, "", ""), (0, "TO", "TO"), (255, *["TO"] * 254)):
            self.assertIsNone(retired(strikes, *errors))
        self.assertEqual(retired(255, *["TO"] * 256), "TO in turns 1 to 255")

    def test_a_role_is_absent_if_it_had_turns_and_no_move_of_its_own(self):
        for errors, absent in (([["TO", ""]] * 2, [True, False]), ([["TO", ""], ["", "TO"]], [False, False]), ([], [False, False])):
            found = result_of(record(errors=errors, moves=[["a", "n"]] * len(errors)), MATCH)
            self.assertEqual([found.is_absent(role) for role in (0, 1)], absent)


LOGGED = logged([event_of(line(MATCH, role, 1, "(START cup-001 o ... 10 5)", "ready", 3 + role).encode()) for role in (0, 1)])


class Lines(unittest.TestCase):
    def test_the_line_of_a_match_says_all_of_it(self):
        line = match_line(result_of(RECORD, MATCH), SUMS, LOGGED, BROKEN)
        self.assertEqual(line[-1:], b"\n")
        said = json.loads(line)
        self.assertEqual(said["errors"], [{"CE": 1, "IL": 1}, {"IL": 1, "TO": 1}])
        self.assertEqual((said["id"], said["game"], said["players"], said["goals"]), ("cup-001", "nim", ["ann", "bob"], [100, 0]))
        self.assertEqual([said[key] for key in ("record", "rules", "description", "broken")], ["first", "sum", None, BROKEN])
        self.assertEqual([*said["errors"][1]], ["IL", "TO"])
        self.assertEqual(said["messages"][1], [["start", 4]])
        self.assertNotIn("forfeit", said)
        self.assertNotIn("counted", said)


class Lapses(unittest.TestCase):
    def lapse(self, most, *turns):
        """Returns why red has lost a match. Each turn has an error, and the role that has a choice."""
        errors = [["", error] for error, _ in turns]
        states = [["(heap 3)", f"(turn {role})"] for _, role in (*turns, ("", "red"))]
        data = json.dumps({"states": states, "strikes": 0}, separators=(",", ":")).encode()
        found = lapse_of({"errors": errors}, data, Rules(RULES, "", ("blue", "red")), 1, most)
        return found and found.words()

    def test_only_turns_with_a_choice_count(self):
        forced, slow, wrong, good = ("TO", "blue"), ("TO", "red"), ("IL (x y)", "red"), ("", "red")
        for most, turns, words in (
            (1, [good, slow], "TO in turn 2"), (2, [slow, wrong], "TO, IL in turns 1 to 2"), (2, [good, slow, good, good, wrong, slow], "TO, IL in 2 of turns 2 to 5"),
            (2, [forced, slow, forced, forced, wrong], "TO, IL in 2 of turns 2 to 5"), (3, [slow, slow, slow], "TO in turns 1 to 3"),
            (1, [forced, forced], None), (2, [forced, slow, good], None), (3, [slow, wrong, good], None), (1, [good], None),
        ):
            self.assertEqual(self.lapse(most, *turns), words, turns)


class Forfeits(unittest.TestCase):
    def test_a_forfeit_says_who_why_and_what_counts(self):
        found = result_of(RECORD, MATCH, True)
        self.assertEqual(forfeit_words(found), "forfeit: ann (CE, IL in turns 2 to 3), counts as ann 0, bob 100")
        said = json.loads(match_line(found, SUMS, Beginning(), []))
        self.assertEqual((said["goals"], said["counted"]), ([100, 0], [0, 100]))
        self.assertEqual(said["forfeit"], [{"player": "ann", "errors": ["CE", "IL"], "turn": 3}])
        self.assertEqual((forfeit_words(result_of(RECORD, MATCH)), result_of(RECORD, MATCH).counted()), ("", (100, 0)))


class Winners(unittest.TestCase):
    def result(self, goals, lost=()):
        """Returns the result of a match where the players of these roles forfeited."""
        roles = len(goals) or 2
        errors = [["TO" if role in lost else "" for role in range(roles)]]
        match = Match("m", "game", 1, 1, tuple(f"p{role}" for role in range(roles)))
        return result_of(record(strikes=1, moves=[["x"] * roles], errors=errors, goalValues=goals), match, True)

    def test_who_won_is_said(self):
        for goals, said in (([100, 0], "p0 won."), ([70, 70, 0], "p0 and p1 drew."), ([50, 50], "p0 and p1 drew."), ([100], ""), ([], "")):
            self.assertEqual(winner_words(self.result(goals)), said)
        self.assertEqual(winner_words(self.result([100, 0], [0])), "p1 won.")


class Remarks(unittest.TestCase):
    def test_what_there_is_to_say_beside_the_goals(self):
        plain, forfeited = result_of(RECORD, MATCH), result_of(RECORD, MATCH, True)
        words = "forfeit: ann (CE, IL in turns 2 to 3), counts as ann 0, bob 100"
        self.assertEqual((list(remarks(plain)), list(remarks(forfeited))), ([], [words]))
        again = replace(plain, match=replace(MATCH, again="cup-009", reason="late"))
        self.assertEqual(list(remarks(again)), ["cup-001 does not count: cup-009 replaces it: late"])
        other = replace(forfeited, match=replace(MATCH, instead_of="cup-000", again="cup-009", reason="late"))
        self.assertEqual(list(remarks(other)), [words, "cup-001 does not count: cup-009 replaces it: late", "cup-001 replaces cup-000"])

    def test_the_line_of_a_match_says_its_round_and_its_orders(self):
        match = replace(MATCH, round=2, again="cup-009", reason="late", instead_of="cup-000")
        said = json.loads(match_line(result_of(RECORD, match), SUMS, Beginning(), []))
        self.assertEqual([said[key] for key in ("round", "again", "reason", "insteadOf")], [2, "cup-009", "late", "cup-000"])
        said = json.loads(match_line(result_of(RECORD, MATCH), SUMS, Beginning(), []))
        self.assertFalse({"round", "again", "reason", "insteadOf"} & said.keys())
        self.assertEqual([said[key] for key in ("begin", "end", "host")], [None] * 3)
