"""Random matches of a game: the seed determines each match, each move is legal, and the desk of the referee makes the same records."""

import json
import random
import subprocess
import types
import unittest
from unittest import mock

from ggp_tools.descriptions import random_matches
from ggp_tools.descriptions.random_matches import Played, RandomMatches, lines_of, named, sum_of, turn_lines
from ggp_tools.holding.game import Game
from ggp_tools.holding.match import Match, texts_of
from ggp_tools.kif import expressions, spelled
from ggp_tools.referee import Referee, Unchecked
from live_support import RULES
from support import program, raised

RUN = subprocess.run

ENDLESS = b"(role ann) (role bob) (init (step 1)) (legal ann go) (legal ann stay) (legal bob wait) (next (step 1))"
STUCK = b"(role ann) (role bob) (init (step 1)) (<= (legal ann go) (true (step 1))) (legal bob wait) (<= (next (step 2)) (true (step 1)))"
NO_GOAL = b"(role ann) (init (step 1)) (legal ann go) (<= (next (step 2)) (true (step 1))) (<= terminal (true (step 2))) (goal ann 1) (goal ann 2)"


def desk_of(kept, changes=(), **answer):
    """Returns a function that runs the desk of the program. It stores the scripts, changes some records by id, and replaces the values in
    `answer`."""

    def desk(words, input, **more):
        kept.append((words, input.decode(), more))
        done = RUN([program(), *words[1:]], input=input, capture_output=True)
        records = (json.loads(line) for line in done.stdout.splitlines() if line.startswith(b"{"))
        out = "".join(json.dumps(record | dict(changes).get(record["matchId"], {})) + "\n" for record in records)
        return subprocess.CompletedProcess(words, **{"returncode": done.returncode, "stdout": out.encode(), "stderr": b"", **answer})

    return desk


class WithDesk(unittest.TestCase):
    def setUp(self):
        self.kept, self.drawn, self.now = [], [], 0.0
        self.reporter = types.SimpleNamespace(draw=self.drawn.append)
        self.enterContext(mock.patch.object(random_matches.time, "monotonic", lambda: self.now))
        self.enterContext(mock.patch.object(random_matches.sys, "setrecursionlimit"))

    def play(self, rules, seed=1, count=1, seconds=60, changes=(), **answer):
        with mock.patch.object(random_matches.subprocess, "run", desk_of(self.kept, changes, **answer)):
            found = RandomMatches(rules, Referee("program"), "game.kif", self.reporter, seconds)
            found.run(seed, count)
        return found


class Matches(WithDesk):
    def test_matches_are_played_to_their_ends_and_are_those_of_the_desk(self):
        found = self.play(RULES, 4, 30)
        self.assertEqual([match.seed for match in found.ended], list(range(4, 34)))
        self.assertEqual((found.differing, found.notes, found.uncompared, found.too_long, found.is_too_deep, found.causes), ([], [], 0, 0, False, {None}))
        self.assertEqual({match.cause for match in found.ended}, {None})
        for match in found.ended:
            self.assertIn((match.turns, match.goals), ((2, [0, 100]), (3, [100, 0])))
            self.assertEqual((match.choices, match.state), ([2, 2] if match.turns == 3 or match.choices[1] == 2 else [2, 1], []))
        (words, script, more), = self.kept
        self.assertEqual((words[:2], words[2].partition("=")[0], more["timeout"]), (["program", "desk"], "--rules-file", 60))
        self.assertEqual([line for line in script.splitlines() if line.startswith("open")], [f"open seed-{seed} 0 1 1 p0 p1" for seed in range(4, 34)])

    def test_a_match_is_that_of_its_seed(self):
        whole = self.play(RULES, 1, 12).ended
        self.assertEqual([self.play(RULES, seed).ended[0] for seed in range(1, 13)], whole)
        self.assertEqual({match.turns for match in whole}, {2, 3})
        dice, game = random.Random(5), Game(RULES.decode())
        match = Match(game, "m", 1, 1, ["a", "b"])
        match.marks["start"] = {0: "", 1: ""}
        while match.phase()[0] == "playing":
            match.turn([(dice.choice(match.legal(role)), "") for role in game.roles])
        moves = [spelled(move) for turn in match.moves for move in turn]
        self.play(RULES, 5)
        script = self.kept[-1][1].splitlines()
        self.assertEqual([line.split(" ", 4)[4] for line in script if not line.startswith("open") and not line.endswith(("READY", "DONE"))], moves)

    def test_why_matches_are_aborted(self):
        found = self.play(STUCK, 7, 3)
        self.assertEqual([(match.cause, match.turns, match.goals, match.state, match.choices) for match in found.ended], [("nolegal ann", 1, [], ["(step 2)"], [1, 1]), *[("nolegal ann", 1, [], [], [1, 1])] * 2])
        self.assertEqual((found.causes, found.differing), ({None, "nolegal ann"}, []))
        found = self.play(NO_GOAL)
        self.assertEqual([(match.cause, match.turns, match.state) for match in found.ended], [("nogoal ann", 1, ["(step 2)"])])
        roles = expressions("ann (f b)")
        self.assertEqual([named(cause, roles) for cause in ("nolegal 1", "nogoal 0", "toolong", None)], ["nolegal (f b)", "nogoal ann", "toolong", None])

    def test_a_desk_that_makes_other_records(self):
        found = self.play(RULES, 1, 3, changes={"seed-2": {"goalValues": [1, 2], "phase": "x"}, "seed-3": {"states": [["(x)"]]}})
        self.assertEqual(found.differing, [(2, ["goalValues", "phase"]), (3, ["states"])])
        for states in (1, [1], [["a", 1]], None):
            self.assertEqual(self.play(RULES, changes={"seed-1": {"states": states}}).differing, [(1, ["states"])], states)

    def test_a_desk_that_says_nothing_of_it(self):
        line = json.dumps({}).encode() + b"\n"
        for answer in ({"returncode": 3}, {"stdout": b""}, {"stdout": line * 2}, {"stdout": b"{x\n"}):
            self.assertIn("`ggp_manager desk` gave no verdict for game.kif: it printed nothing", str(raised(Unchecked, self.play, RULES, **answer)))

    def test_a_desk_that_takes_too_long(self):
        with mock.patch.object(random_matches.subprocess, "run", side_effect=subprocess.TimeoutExpired("x", 1)):
            found = RandomMatches(RULES, Referee("program"), "game.kif", self.reporter, 60)
            found.run(1, 3)
        self.assertEqual((found.uncompared, found.differing, len(found.ended)), (3, [], 3))

    def test_without_matches_the_desk_is_not_asked(self):
        self.assertEqual((self.play(RULES, count=0).ended, self.kept, self.drawn), ([], [], []))

    def test_so_many_matches_and_bytes_are_handed_over_at_a_time(self):
        with mock.patch.object(random_matches, "MOST_MATCHES", 2):
            self.assertEqual(self.play(RULES, 1, 5).differing, [])
        self.assertEqual([script.count("open") for _, script, _ in self.kept], [2, 2, 1])
        self.kept.clear()
        self.play(STUCK, 1, 5)
        size = len(self.kept.pop()[1]) // 5
        for most, counts in ((2 * size, [2, 2, 1]), (2 * size - 1, [1] * 5), (3 * size - 1, [2, 2, 1])):
            self.kept.clear()
            with mock.patch.object(random_matches, "MOST_BYTES", most), mock.patch.object(random_matches, "BESIDE_TURNS", 0):
                self.play(STUCK, 1, 5)
            self.assertEqual([script.count("open") for _, script, _ in self.kept], counts)

    def test_a_move_that_no_player_can_make_is_not_handed_over(self):
        found = self.play(RULES.replace(b"noop", b"(noop " + b"x" * 9_000 + b")"), 1, 2)
        self.assertEqual((found.too_long, found.differing, len(found.ended), self.kept), (2, [], 2, []))

    def test_the_time_is_looked_at(self):
        def later(said):
            self.drawn.append(said)
            self.now += 20

        self.reporter.draw, self.now = later, 1.0
        found = self.play(RULES, 1, 9, seconds=50)
        self.assertEqual(found.notes, [f"out of time: {len(found.ended)} of 9 matches and {random_matches.counted(found.turns, 'turn')} of the next one were played in 50 s"])
        self.assertEqual((self.drawn[:2], len(found.ended) > 0, self.kept[0][1].count("open")), (["match 1 of 9, 0 turns", "match 1 of 9, 1 turn"], True, 1))
        self.assertEqual(self.drawn[-1], "the program's desk")
        # The command continues until the second is over, and does not draw the line in its first half.
        self.now, self.drawn = 0.0, []
        self.reporter.draw = self.drawn.append
        found = RandomMatches(RULES, None, "game.kif", self.reporter, 50)
        for now, count in ((0.4, 0), (0.5, 0), (0.6, 1), (1.0, 1), (1.2, 2), (50.0, 3)):
            self.now = now
            found.look_at_clock("it")
            self.assertEqual(len(self.drawn), count, now)
        self.now = 50.1
        raised(random_matches.TimeIsOver, found.look_at_clock, "it")

    def test_rules_that_are_too_deep(self):
        with mock.patch.object(RandomMatches, "play", side_effect=RecursionError):
            found = self.play(RULES)
        self.assertEqual((found.is_too_deep, found.notes), (True, ["the interpreter cannot play it: its rules are nested too deeply"]))


class Scripts(WithDesk):
    def played(self, turns):
        match = Played(Game(ENDLESS.decode()), "m", ["p0", "p1"])
        match.marks["start"] = {0: "", 1: ""}
        for _ in range(turns):
            match.turn([("go", ""), ("wait", "")])
        return match

    def test_the_lines_of_a_match(self):
        match = self.played(2)
        self.assertEqual(list(turn_lines(match, 2)), ["submit m 0 2 go", "submit m 1 2 wait"])
        lines = ["open m 0 1 1 p0 p1", "submit m 0 0 READY", "submit m 1 0 READY", "submit m 0 1 go", "submit m 1 1 wait", "submit m 0 2 go", "submit m 1 2 wait"]
        self.assertEqual(list(lines_of(match)), lines)
        match.marks["end"] = {0: "", 1: ""}
        self.assertEqual(list(lines_of(match)), [*lines, "submit m 0 3 DONE", "submit m 1 3 DONE"])

    def test_of_most_states_sums_are_kept(self):
        match = self.played(2)
        state = texts_of(match.game.initial)
        self.assertEqual(match.states, [sum_of(state), sum_of(state), match.game.initial])
        record = match.record()
        self.assertEqual((record["states"], record["moves"], match.states), ([sum_of(state)] * 3, [["go", "wait"]] * 2, [sum_of(state), sum_of(state), match.game.initial]))
        self.assertNotEqual(sum_of(["a", "b"]), sum_of(["ab"]))

    def test_a_match_is_cut_to_the_turns_that_a_script_holds(self):
        # The lines of a turn have 34 bytes.
        self.assertEqual(sum(len(line) + 1 for line in turn_lines(self.played(1), 1)), 34)
        for most, turns in ((102, 3), (101, 2), (33, 0), (1_000, 5)):
            with mock.patch.object(random_matches, "MOST_BYTES", most + 10_000):
                match = self.played(5)
            match.marks["end"] = {0: "", 1: ""}
            match.shorten()
            self.assertEqual((len(match.moves), len(match.errors), len(match.states), match.states[-1], match.marks["end"]), (turns, turns, turns + 1, match.game.initial, {}), most)

    def test_a_match_that_one_script_does_not_hold_is_compared_as_far_as_it_does(self):
        with mock.patch.object(random_matches, "MOST_BYTES", 10_500), mock.patch("ggp_tools.holding.match.MOST_TURNS", 400):
            found = self.play(ENDLESS, 3)
            self.assertEqual((found.ended[0].turns, found.ended[0].cause, found.differing), (400, "toolong", []))
            script = self.kept[0][1]
            self.assertLessEqual(len(script), 10_500)
            self.assertEqual((script.count("DONE"), script.count("submit") > 20), (0, True))
            self.assertEqual(self.play(ENDLESS, 3, changes={"seed-3": {"phase": "x"}}).differing, [(3, ["phase"])])
