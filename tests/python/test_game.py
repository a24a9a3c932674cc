"""The command `game`: suspicious sentences, and random matches."""

import os
import resource
import shutil
import subprocess
import sys
import time
import unittest
from unittest.mock import Mock

import pytest

from ggp_tools.competition.game import aborted_line, report_figures
from ggp_tools.descriptions.goals import goals_said
from ggp_tools.descriptions.refused import why_refused
from ggp_tools.descriptions.suspicious import suspicions
from support import COMMAND, GAMES, InFolder, program, program_but, run, run_into_full

# A game of two turns without suspicious sentences.
SOUND = """(role ann) (role bob)
(init (step 1))
(<= (legal ann go) (true (step 1)))
(<= (legal ann stay) (not (true (step 1))))
(legal bob wait)
(<= (next (step 2)) (true (step 1)) (does ann go))
(<= (next (step 3)) (true (step 2)))
(<= over (true (step 3)))
(<= terminal over)
(<= (goal ann 100) over) (<= (goal bob 0) over)
"""
# Changes of the description (replacements, or additions at its end), each with the suspicious sentences that `game` then reports.
CHANGES = [
    ("(init", "(initial", [
        "line 2, column 1: `initial` is not a GDL keyword, and the game does not use it; did you mean `init`?: (initial (step 1))",
        "line 3, column 20: no `init` and no `next` gives the term (step 1): (true (step 1)) (and 2 more like this)",
    ]),
    ("(<= terminal", "(=> terminal", [
        "line 9, column 1: `=>` is not a GDL keyword, and the game does not use it; did you mean `<=`?: (=> terminal over)",
        "no sentence gives `terminal`, so no match can finish",
    ]),
    ("(true (step 3)", "(treu (step 3)", [
        "line 7, column 5: no condition uses the term (step 3): (next (step 3))",
        "line 8, column 10: `(treu _)` has no rule and no fact; did you mean `true`?: (treu (step 3))",
    ]),
    ("terminal over", "terminal ovre", ["line 9, column 14: `ovre` has no rule and no fact; did you mean `over`?: ovre"]),
    ("terminal over", "terminal (over)", ["line 9, column 14: `(over)` has no rule and no fact, only `over`: (over)"]),
    ("legal bob", "legal bbo", [
        "line 1, column 12: no sentence gives the role bob a `legal`: (role bob)",
        "line 5, column 1: bbo is not a role: (legal bbo wait)",
    ]),
    ("goal ann", "goal anne", [
        "line 1, column 1: no sentence gives the role ann a `goal`: (role ann)",
        "line 10, column 5: anne is not a role: (goal anne 100)",
    ]),
    ("does ann", "does eve", ["line 6, column 37: eve is not a role: (does eve go)"]),
    ("does ann go", "does ann gone", ["line 6, column 37: no `legal` gives this move: (does ann gone)"]),
    ("(not (true (step 1)))", "(or (true x) (not (true (y 1))))", [
        "line 4, column 26: no `init` and no `next` gives the term x: (true x)",
        "line 4, column 40: no `init` and no `next` gives the term (y 1): (true (y 1))",
    ]),
    (None, "(<= (next (step 1)) (does ann gone) (does bob gone))", [
        "line 11, column 21: no `legal` gives this move: (does ann gone)", "line 11, column 37: no `legal` gives this move: (does bob gone)",
    ]),
    ("(not (true (step 1)))", "(~ (true (step 1)))", ["line 4, column 22: `(~ _)` has no rule and no fact; did you mean `not`?: (~ (true (step 1)))"]),
    (None, "(init (mark 1)) (init (mark 2))", [
        "line 11, column 1: no condition uses the term (mark 1): (init (mark 1)) (and 1 more like this)",
    ]),
    (None, "(line 1) (<= (base (step 1)) (n 1)) (n 1)", ["line 11, column 1: the game does not use `(line _)`: (line 1)"]),
    (None, "(over 1)", ["line 11, column 1: the game does not use `(over _)`, only for `over`: (over 1)"]),
    (None, "(n 1) (<= terminal (n 2))", ["line 11, column 20: no rule and no fact gives this: (n 2)"]),
    (None, "(n 1) (<= (line 1) (n 2))", [
        "line 11, column 1: the game does not use `(n _)`: (n 1)", "line 11, column 11: the game does not use `(line _)`: (line 1)",
        "line 11, column 20: no rule and no fact gives this: (n 2)",
    ]),
    (None, "(sees ann bob)", [
        "line 11, column 1: `sees` belongs to GDL-II, for games with chance or hidden information; here each role sees every move:"
        " (sees ann bob)",
    ]),
]
# Additions that may be intended, and therefore are not suspicious.
OPEN = """(player ann) (player bob) (<= (role ?r) (player ?r))
(init (cell 1)) (succ 1 2) (succ 2 3)
(<= (legal ?r (go ?n)) (player ?r) (true (cell ?n)))
(<= (next (cell ?n)) (does ?r (go ?m)) (succ ?m ?n)) (<= (next ?t) (true ?t) (does ann ?any))
(<= (terminal) (true (cell 3)))
(<= (goal ?r 100) (role ?r)) (<= (base (cell ?n)) (number ?n)) (<= (input ?r (go ?n)) (role ?r) (number ?n))
(<= (number ?n) (succ ?n ?m)) (<= (number ?m) (succ ?n ?m))
"""
# Sentences of this repository's games that nothing else in the game uses.
KNOWN = {"checkers": "`(kind _)`", "farmers": "`(ten _)`", "foxandhounds": "`(line _)`"}
ENDLESS = "(role ann) (init (step 1)) (legal ann go) (<= (next (step 1)) (true (step 1))) (<= terminal (true (step 2))) (goal ann 1)"


def lines_of(text, ground=None):
    return suspicions(text, ground).lines


class Suspicious(unittest.TestCase):
    def test_a_sound_game(self):
        for ground in (None, SOUND.encode()):
            self.assertEqual(lines_of(SOUND.encode(), ground), [])
            self.assertEqual(lines_of(OPEN.encode(), None), [])

    def test_changes(self):
        for old, new, words in CHANGES:
            with self.subTest(new):
                text = (SOUND + new if old is None else SOUND.replace(old, new, 1)).encode()
                self.assertEqual(lines_of(text, text), words)

    def test_ground_rules_say_more(self):
        ground = b"(role ann) (role bob) (legal ann x) (goal ann 1) terminal"
        said = [f"line 1, column 31: no sentence gives the role bob a `{name}`: (role ?r)" for name in ("legal", "goal")]
        self.assertEqual(lines_of(OPEN.encode(), ground), said)

    def test_an_instance_of_what_is_no_role(self):
        ground = b"(role ann) (role bob) (legal ann x) (legal bob x) (goal ann 1) (goal bob 1) terminal "
        text, eve = OPEN.replace("(go ?n)) (player", "?m) (player", 1), b"(legal eve x) (legal eve y)"
        said = "eve is not a role, but a fact of the ground rules has it"
        self.assertEqual(lines_of(text.encode(), ground + eve), [f"line 3, column 5: {said}: (legal eve x) (and 1 more like this)"])
        self.assertEqual(lines_of(text.encode() + b"(<= (legal ?any x) (role ?any))", ground + eve[:14]), [f"{said}: (legal eve x)"])
        others = b"(<= (legal ?any x) (role ?any)) (<= (legal ?any z) (role ?any))"
        self.assertEqual(lines_of(text.encode() + others, ground + eve[14:]), [f"line 3, column 5: {said}: (legal eve y)"])
        # A sentence whose rule could hold in some state may be false in all states that are reached.
        self.assertEqual(lines_of(text.encode(), ground + b"(<= (legal eve x) (true (cell 1)))"), [])
        self.assertEqual(lines_of(f"{OPEN}(goal eve 1)".encode(), ground), ["line 8, column 1: eve is not a role: (goal eve 1)"])
        self.assertEqual(lines_of(SOUND.encode(), SOUND.encode() + eve), [])

    def test_a_move_that_no_player_can_make(self):
        said = "line 5, column 1: no player can make this move: its text is longer than 4,096 bytes: (legal bob (wait "
        for length, is_found in ((4_096, False), (4_097, True)):
            move = f"(wait {'x' * (length - 7)})"
            texts = [(SOUND.replace("bob wait", f"bob {move}"), None), (SOUND.replace("bob wait", "bob ?m"), f"{SOUND} (legal bob {move})")]
            for text, ground in texts:
                found = lines_of(text.encode(), ground and ground.encode())
                self.assertEqual([line.startswith(said) for line in found], [True] * is_found, found)

    def test_an_empty_list(self):
        for text in (b"(role a) ()", b"(role a) (<= ())", b"(<= (sees a b) ())", b"(<= p ())", b"(<= p (not ()))", b"(p ())", b"((a) b)"):
            self.assertEqual(lines_of(text), [])

    def test_of_what_has_not_its_form_only_misspelt_heads_are_told(self):
        said = "line 1, column 1: `=>` is not a GDL keyword, and the game does not use it; did you mean `<=`?: (=> (legal ?r x) y)"
        self.assertEqual(lines_of(b"(=> (legal ?r x) y) (<= (next) p) (<=) (<= q) (line 1)"), [said])
        self.assertEqual(lines_of(b"(" * 70 + b"a" + b")" * 70), [])

    def test_what_is_not_looked_at(self):
        for text in (b"(role a", b"", b"(role a) ()", b"(<= (next) p)", b"(" * 70 + b"a" + b")" * 70, b"(role \xff)"):
            self.assertEqual(suspicions(text).cut, "the rest was not checked")
        self.assertEqual(suspicions(SOUND.encode()), ([], ""))
        said = "the search for suspicious sentences was stopped after -1 s: the rest was not checked"
        self.assertEqual(suspicions(SOUND.encode(), None, -1), ([], said))

    def test_many_sentences_take_no_long_time(self):
        numbers = range(9_000)
        cases = {
            "no rule and no fact gives this: ": [*(f"(p {number} x)" for number in numbers), *(f"(<= terminal (p ?x {number}x))" for number in numbers)],
            "no `init` and no `next` gives the term ": [
                *(f"(init (c {number} {number}))" for number in numbers), *(f"(<= terminal (true (c ?x (f {number}))))" for number in numbers),
            ],
            "no sentence gives the role r0 a `goal`": [f"(role r{number}) (legal q{number} m)" for number in numbers],
            "`z99` has no rule and no fact": ["(<= terminal (or", *(f"z{number}" for number in numbers), "))"],
        }
        for words, text in cases.items():
            began = time.process_time()
            found = lines_of(" ".join(text).encode())
            self.assertLess(time.process_time() - began, 15)
            self.assertTrue(any(words in line for line in found), found)

    def test_of_sentences_that_conflict_eight_are_listed(self):
        for count, end in ((8, "(role a)"), (9, "; and 1 more")):
            said = why_refused(b"(role a) " * count)[0]
            self.assertEqual((said.count("(role a)"), said.endswith(end)), (8, True), said)
        self.assertEqual(why_refused(b"(role a) (n 1) (n 1)"), [])

    def test_where_a_condition_stands(self):
        text = SOUND + "(<= terminal (or (not (a1)) b2)\n  (or (and c3 (not (not d4))) (distinct x y) over) (true (e5 x y)))"
        found = [line.split(": ")[0] for line in lines_of(text.encode())]
        self.assertEqual(found, [f"line {place}" for place in ("11, column 23", "11, column 29", "12, column 12", "12, column 25", "12, column 52")])

    def test_names_that_are_long(self):
        name, arguments = "n" * 200, " x" * 200
        found = lines_of(f"{SOUND} ({name}) (p{arguments}) (<= terminal ({name} 1 (a{arguments})))".encode())
        self.assertEqual(len(found), 3)
        self.assertLess(max(map(len, found)), 330)
        self.assertIn(f"`({'n' * 79}..`", found[0])

    def test_the_games_of_this_repository(self):
        files = [*GAMES.glob("*.kif"), *GAMES.glob("general/*.kif")]
        self.assertGreater(len(files), 30)
        for file in files:
            found = lines_of(file.read_bytes())
            self.assertEqual(len(found), file.stem in KNOWN, found)
            for line in found:
                self.assertIn(f"the game does not use {KNOWN[file.stem]}", line)


class Game(InFolder):
    def look(self, text, *words):
        """Runs the command with this description. Returns the exit status and the output lines."""
        (self.folder / "game.kif").write_text(text)
        status, out, said = run(self.folder, "game", "game.kif", *words)
        self.assertEqual(said, "")
        return status, out.splitlines()

    def test_a_sound_game(self):
        status, lines = self.look(SOUND)
        self.assertEqual((status, lines), (0, [
            "game.kif is accepted: 12 sentences; roles ann bob",
            "nothing is suspicious",
            "random matches, seeds 1 to 20: 20 finished, 0 aborted",
            "turns of a match: always 2",
            "ann: goals always 100; most legal moves at once: 1",
            "bob: goals always 0; most legal moves at once: 1",
        ]))

    def test_suspicions_alone_are_no_fault(self):
        status, lines = self.look(SOUND + "(line 1)", "--matches", "0")
        self.assertEqual((status, lines[1:]), (0, ["suspicious: line 11, column 1: the game does not use `(line _)`: (line 1)"]))

    def test_a_description_that_is_not_accepted(self):
        status, lines = self.look("(role a)\n(=> (legal a x) p)\n(<= (next x) (init x))")
        self.assertEqual((status, lines), (1, [
            "game.kif is not accepted: line 3, column 1: true or does as a head, init or next as a condition, or a role with conditions: (<= (next x) (init x))",
            "line 3, column 1: (init x) can't be in a body: (<= (next x) (init x)); use `true` for what is true in the state",
            "suspicious: line 2, column 1: `=>` is not a GDL keyword, and the game does not use it; did you mean `<=`?: (=> (legal a x) p)",
            "the rest was not checked",
        ]))
        for text, words in [("", "line 1, column 1: there is no sentence"), ("(role a", "line 1, column 1: a list that is not closed; add a `)`")]:
            self.assertEqual(self.look(text), (1, [f"game.kif is not accepted: {words}", "the rest was not checked"]))
        self.assertEqual(self.look("(" * 70 + "a" + ")" * 70)[1][-1], "the rest was not checked")
        said = ["game.kif is not accepted: it has 16,777,217 bytes; at most 1,048,576 are accepted, or 16,777,216 with --large", "the rest was not checked"]
        self.assertEqual(self.look(" x" * (1 << 23) + "x"), (1, said))
        # A description above the usual limit of bytes gets the limits for large games.
        status, lines = self.look(SOUND + ";" * (1 << 20), "--matches", "0")
        self.assertEqual((status, lines[0].startswith("game.kif is accepted: ")), (0, True), lines)
        status, lines = self.look(SOUND + "(goal ann 200)")
        words = "line 11, column 1: (goal ann 200) can be derived, but its goal is not a number from 0 to 100: (goal ann 200)"
        self.assertEqual((status, lines[1:]), (1, [words, "nothing else is suspicious"]), lines)

    def test_what_is_wrong_with_sentences_together(self):
        for text, words in [
            ("(role a)\n(<= p q)\n(<= q (not p))\n(<= r r)\n(<= p x)", [
                "these depend on each other: line 2, column 1: (<= p q); line 3, column 1: (<= q (not p))",
                "these depend on each other: line 4, column 1: (<= r r)",
            ]),
            ("(role a)\n(role b)\n(role A)", ["these name the same role: line 1, column 1: (role a); line 3, column 1: (role a)"]),
            ("(role a)\n(<= terminal p)\n(<= p (does a b))", ["line 3, column 1: terminal depends on does, through p: (<= p (does a b)); let `next` record what the moves did, and read that with `true`"]),
            ("(role a)\n(goal a 101)", ["line 2, column 1: (goal a 101) can be derived, but its goal is not a number from 0 to 100: (goal a 101)"]),
            ("(role a)\n(role a b)", ["line 2, column 1: (role a b) is not a sentence: (role a b); write (role _)"]),
            ("(role a)\n" + "".join(f"(<= p{number} p{(number + 1) % 10})\n" for number in range(10)), [
                "these depend on each other: " + "; ".join(f"line {at + 2}, column 1: (<= p{at} p{at + 1})" for at in range(8)) + "; and 2 more"
            ]),
        ]:
            status, lines = self.look(text)
            self.assertEqual((status, lines[1 : len(words) + 1]), (1, words))
            self.assertRegex(lines[0], r"^game\.kif is not accepted: line \d+, column 1: ")

    def test_aborted_matches(self):
        status, lines = self.look(SOUND.replace("(not (true (step 1)))", "(true (step 3))"), "--matches", "3", "--seed", "7")
        self.assertEqual(status, 1)
        self.assertEqual(lines[2:5], [
            "random matches, seeds 7 to 9: 0 finished, 3 aborted",
            "aborted with `nolegal ann`: 3, seeds 7, 8, 9; after turn 1 of seed 7 the state is (step 2)",
            "turns of a match: always 1",
        ])
        status, lines = self.look(SOUND.replace("bob 0", "ann 0"), "--matches", "1")
        self.assertEqual(status, 1)
        first, second = "sentence 10, line 10: (<= (goal ann 100) over)", "sentence 11, line 10: (<= (goal ann 0) over)"
        self.assertEqual(lines[3:5], [
            "aborted with `nogoal ann`: 1, seed 1; after turn 2 of seed 1 the state is (step 3)", f"ann has 2 goal values in this state: 0, by {second}; 100, by {first}",
        ])
        self.assertEqual(lines[6], "ann: goals none; most legal moves at once: 1")

    def test_the_first_seeds_of_aborted_matches_are_listed(self):
        for count, seeds in ((1, "seed 1"), (10, "seeds 1, 2, 3, 4, 5, 6, 7, 8, 9, 10"), (11, "seeds 1, 2, 3, 4, 5, 6, 7, 8, 9, 10, ..")):
            ended = [Mock(seed=seed, turns=0, state=[]) for seed in range(1, count + 1)]
            self.assertEqual(aborted_line("nogoal ann", ended), f"aborted with `nogoal ann`: {count}, {seeds}; after turn 0 of seed 1 the state is empty")

    def test_each_role_has_its_figures(self):
        kinds, lines = ((2, [100, 0], [1, 3]), (4, [50, 50], [2, 1]), (3, [], [1, 1])), []
        report_figures(Mock(line=lines.append), ("ann", "bob"), [Mock(turns=turns, goals=goals, choices=choices) for turns, goals, choices in kinds])
        self.assertEqual(lines, ["turns of a match: 2 to 4, on average 3.0", *(
            f"{role}: goals {goals}; most legal moves at once: {most}" for role, goals, most in (("ann", "50 to 100, on average 75.0", 2), ("bob", "0 to 50, on average 25.0", 3))
        )])

    def test_the_goals_of_a_state(self):
        goals = "(<= (goal ann ?x) (true (won ?x)))\n(goal bob 5) (goal (o 1) 5)"
        rule, fact = "sentence 0, line 1: (<= (goal ann ?x) (true (won ?x)))", "sentence 1, line 2: (goal bob 5)"
        for role, state, words in (
            ("ann", [], f"no sentence gives ann a goal value in this state; the sentences about goals are {rule} and {fact} and sentence 2, line 2: (goal (o 1) 5)"),
            ("ann", ["(won 150)"], f"ann has the goal value 150 (not a number from 0 to 100), by {rule}"), ("bob", ["(won 1)"], f"bob has the goal value 5, by {fact}"),
            ("ann", ["(won 9)", "(won (a))", "(won 7)", "(won 8)"], f"ann has 4 goal values in this state: (a) (not a number from 0 to 100), by {rule}; 7, by {rule}; 8, by {rule}"),
            ("ann", ["(won 9)", "(won 7)"], f"ann has 2 goal values in this state: 7, by {rule}; 9, by {rule}"),
            ("(o 1)", [], "(o 1) has the goal value 5, by sentence 2, line 2: (goal (o 1) 5)"),
        ):
            self.assertEqual(goals_said(goals, role, state), words)
        self.assertTrue(goals_said("(role ann)" + "".join(f"(goal bob {at})" for at in range(5)), "ann", []).endswith("(goal bob 2) and 2 more"))
        self.assertEqual(goals_said("(role", "ann", []), "")
        self.assertEqual(goals_said("(role ann)", "ann", []), "no sentence gives ann a goal value in this state; no sentence is about goals")

    def test_a_game_that_does_not_end(self):
        status, lines = self.look(ENDLESS, "--matches", "1")
        self.assertEqual((status, lines[3]), (1, "aborted with `toolong`: 1, seed 1; after turn 10,000 of seed 1 the state is (step 1)"))
        status, lines = self.look(ENDLESS, "--matches", "10000", "--seconds", "1")
        self.assertEqual(status, 1)
        self.assertRegex(lines[2], r"^out of time: \d+ of 10,000 matches and [\d,]+ turns of the next one were played in 1 s$")

    def test_a_move_that_no_player_can_make(self):
        status, lines = self.look(SOUND.replace("bob wait", f"bob (wait {'x' * 5_000})"), "--matches", "2")
        self.assertEqual((status, lines[2]), (0, "random matches, seeds 1 to 2: 2 finished, 0 aborted"))
        self.assertEqual(lines[-1], "2 of them have a move that no player can make, so their records were not compared")
        self.assertRegex(lines[1], r"^suspicious: line 5, column 1: no player can make this move: ")

    @pytest.mark.gate
    def test_rules_that_are_too_deep_for_the_interpreter(self):
        # Each level needs a nested call. Up to 20,000 nested calls are allowed, which is more than rules within the program's usual limits
        # need.
        chain = "".join(f"(<= p{number} (or (or (or p{number + 1}))))\n" for number in range(21_000))
        status, lines = self.look(SOUND + chain + "p21000 (<= terminal (not p0))")
        self.assertEqual((status, lines[-1]), (0, "the interpreter cannot play it: its rules are nested too deeply"))

    def test_rules_that_are_deep(self):
        chain = "".join(f"(<= p{number} (or q p{number + 1}))\n" for number in range(2_000))
        status, lines = self.look(SOUND + chain + "p2000 (<= q (true (step 7))) (<= terminal (not p0))", "--matches", "1")
        self.assertEqual((status, lines[3]), (0, "turns of a match: always 2"))

    def test_a_program_that_plays_otherwise(self):
        (self.folder / "game.kif").write_text(SOUND)
        other = 'input=$(cat); if [[ "$input" = *seed-* ]]; then {}; fi; ' + program() + ' "$@" <<< "$input"; exit $?'
        cases = {
            program() + ''' "$@" <<< "$input" | sed 's/"(step 2)"/"(step 4)"/'; exit 0''': (
                1, "seed 1: the program's record differs from that of the interpreter of ggp_competition in states: please report it\n", "",
            ),
            "exec sleep 600": (0, "the program had not played 1 of them after 5 s, so their records were not compared\n", ""),
            "echo 'ggp_manager: want of memory' >&2; exit 3": (
                3, "",
                "ggp_competition: `ggp_manager desk` gave no verdict for game.kif: want of memory; it ended with status 3\n",
            ),
        }
        for done, (wanted, printed, told) in cases.items():
            path = program_but(self.folder / "other", '"$1" = desk', other.format(done))
            # Only a program that never answers must be ended early.
            seconds = "5" if "sleep" in done else "600"
            status, out, said = run(self.folder, "game", "game.kif", "--matches", "1", "--seconds", seconds, "--program", path)
            self.assertEqual((status, said), (wanted, told), out)
            self.assertIn(printed, out)

    def test_a_grounder_that_comes_to_no_verdict(self):
        (self.folder / "game.kif").write_text(OPEN)
        (self.folder / "gringo").write_text("#!/bin/bash\nkill -9 $PPID\nsleep 9\n")
        (self.folder / "gringo").chmod(0o755)
        said = "ggp-instantiate gave no verdict for game.kif: ggp-instantiate ended with status -9"
        path = f"{self.folder}:{os.environ['PATH']}"
        self.assertEqual(run(self.folder, "game", "game.kif", env={**os.environ, "PATH": path}), (3, "", f"ggp_competition: {said}\n"))
        (self.folder / "gringo").write_text("#!/bin/bash\nkill -9 $$\n")
        status, out, said = run(self.folder, "game", "game.kif", env={**os.environ, "PATH": path})
        self.assertEqual((status, out), (3, ""))
        self.assertRegex(said, "^ggp_competition: ggp-instantiate gave no verdict for game.kif: .*gringo ran out of memory: .*, or it was killed\n$")
        self.assertEqual(run(self.folder, "game", "game.kif", env={**os.environ, "PATH": "/nowhere"}), (
            3, "", "ggp_competition: game.kif can't be grounded: the grounder gringo is not installed\n",
        ))

    @unittest.skipUnless(shutil.which("gringo"), "gringo is not installed")
    def test_games_with_variables(self):
        status, out, said = run(self.folder, "game", GAMES / "general/nim.kif", "--matches", "2")
        self.assertEqual((status, said), (0, ""))
        self.assertIn("nim.kif is accepted: 28 sentences, which became 284 ground ones; roles first second\nnothing is suspicious\n", out)
        status, lines = self.look(OPEN + "(<= (goal ?r 200) (true (cell ?n)) (role ?r))", "--matches", "1")
        self.assertEqual(status, 0)
        self.assertRegex(lines[1], "^its ground rules: .*goals above 100 are left out")
        status, lines = self.look("(role a)\n(<= (legal ?r x) (not (role ?r)))")
        self.assertEqual(status, 1)
        self.assertRegex(lines[0], r"^game.kif is not accepted: line 2, column 1: \?r is unsafe")

    @unittest.skipUnless(shutil.which("gringo"), "gringo is not installed")
    def test_a_file_whose_name_begins_with_a_hyphen(self):
        for name in ("-nim.kif", "-"):
            shutil.copy(GAMES / "general/nim.kif", self.folder / name)
            status, out, said = run(self.folder, "game", f"./{name}", "--matches", "1")
            self.assertEqual((status, said, out.splitlines()[0].split(":")[0]), (0, "", f"{name} is accepted"))

    def test_what_is_wrong_before_it(self):
        for word, said in [("none", "none can't be read: No such file or directory"), (".", ". is not a regular file")]:
            self.assertEqual(run(self.folder, "game", word), (2, "", f"ggp_competition: {said}\n"))
        for words in (["--matches", "x"], ["--matches", "10001"], ["--seed", "-1"], ["--seconds", "0"], ["--seconds", "1.5"], ["--matches", "\n"]):
            done = subprocess.run([sys.executable, COMMAND, "game", GAMES / "buttons.kif", *words], capture_output=True, text=True)
            self.assertEqual((done.returncode, done.stderr.endswith(f", found {words[1]!r}\n")), (2, True), done.stderr)
        for word, shown in [("", "''"), ("9" * 5_000, f"'{'9' * 20}..'")]:
            done = subprocess.run([sys.executable, COMMAND, "game", "none", "--seed", word], capture_output=True, text=True)
            self.assertTrue(done.stderr.endswith(f"argument --seed: expected a number from 0 to 1,000,000,000,000,000,000, found {shown}\n"), done.stderr)

    def test_a_full_disk(self):
        (self.folder / "game.kif").write_text(SOUND)
        few = {"preexec_fn": lambda: resource.setrlimit(resource.RLIMIT_FSIZE, (100, 100)), "env": {**os.environ, "TMPDIR": str(self.folder)}}
        status, _, said = run(self.folder, "game", "game.kif", **few)
        self.assertEqual(status, 3)
        self.assertRegex(said, rf"^ggp_competition: {self.folder}/\w+: File too large\n$")
        self.assertEqual(run_into_full(self.folder, "game", "game.kif"), (1, "ggp_competition: standard output: No space left on device\n"))
