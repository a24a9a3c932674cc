"""Grounding a game: the output, the reports and the limits."""

import math
import signal
import unittest
from unittest import mock

from ggp_tools.instantiating import folding, limits, making
from ggp_tools.instantiating.making import ALWAYS, NEVER, WHERE_NEEDED, Making, Written, text_of
from ggp_tools.kif import Refused, told

GAME = """(role r) (role s) (init (c 1)) (succ 1 2) (succ 2 3)
(<= (legal ?p (m ?x)) (role ?p) (succ ?x ?y)) (<= (next (c ?y)) (true (c ?x)) (succ ?x ?y) (does r (m ?x)))
(<= terminal (true (c 3))) (<= (goal ?p 50) (role ?p)) (<= (goal ?p 101) (role ?p) (true (c 3)))
(<= (unasked ?x) (succ ?x ?y))"""
MANY_TERMS = "(role r) (legal r m) (goal r 1) (<= terminal (true b1))" + "".join(f"(init b{k}) (<= (next b1) (true b{k}))" for k in range(10))


def made(text, wanted=WHERE_NEEDED, seconds=60, is_split=False, is_large=False):
    """Returns the output (or the reason for a refusal) and the reports."""
    lines = []
    # On a busy computer, a run might otherwise report intermediate results.
    with mock.patch.object(making, "report", lines.append), mock.patch.object(making, "SOON", math.inf):
        try:
            found = Making(text, seconds, wanted, is_split, is_large).run()
        except Refused as why:
            found = why
    return found, "".join(f"{line}\n" for line in lines)


class Figures(unittest.TestCase):
    def written(self, *figures):
        return Written([], "", [("some", count, most) for count, most in figures], [])

    def test_what_is_past_its_limit_and_what_is_far_past_it(self):
        self.assertEqual(self.written((10, 10), (11, 10), (0, 0)).past(), [("some", 11, 10)])
        self.assertEqual([self.written(figure).is_far_past() for figure in ((10, 10), (11, 10), (40, 10), (41, 10))], [False, False, False, True])

    def test_notes_stand_before_the_sentences(self):
        self.assertEqual(text_of([(0, ("role", "r")), (3, "terminal")], ["one", "two"]), "; one\n; two\n(role r)\nterminal\n")

    def test_the_same_within_the_limits_of_large_games(self):
        large = Written([], "(role r)", list(limits.figures([(0, ("role", "r"))], 9)), ["a"]).as_large()
        figures = [("sentences", 1, 262_144), ("atomic sentences", 1, 262_144), ("roles", 1, 16), ("moves of r", 0, 4_096), ("bytes", 100, 16_777_216), ("nested lists", 1, 64)]
        self.assertEqual((large.figures, large.text, large.notes), (figures, f"; {limits.LARGE_NOTE}\n(role r)", [limits.LARGE_NOTE, "a"]))


class Made(unittest.TestCase):
    def test_what_is_written_and_said(self):
        found, said = made(GAME)
        self.assertEqual(found.splitlines(), [
            "; goals above 100 are left out (2, the first from sentence 9, line 3: (<= (goal ?p 101) (role ?p) (true (c 3)))): if a role would have such a goal value at the end, it gets its other goal value; if it has no other, the match has no goal values",
            "(role r)", "(role s)", "(init (c 1))", "(legal r (m 1))", "(legal r (m 2))", "(legal s (m 1))", "(legal s (m 2))",
            "(<= (next (c 2)) (true (c 1)) (does r (m 1)))", "(<= (next (c 3)) (true (c 2)) (does r (m 2)))", "(<= terminal (true (c 3)))", "(goal r 50)", "(goal s 50)",
        ])
        self.assertRegex(said, r"^ggp-instantiate: 11 sentences became 12 ground sentences in \d\d?\.\d\d s\n  goals above 100 are left out")
        self.assertIn("\n  sentences               12 of     8,192\n", said)
        self.assertNotIn("ABOVE", said)

    def test_it_is_folded_where_that_is_wanted_or_needed(self):
        for wanted, limit, is_folded in ((ALWAYS, 8_192, True), (WHERE_NEEDED, 8_192, False), (WHERE_NEEDED, 12, False), (NEVER, 8_192, False)):
            with mock.patch.dict(limits.MOST, {"sentences": limit}):
                found, _ = made(GAME, wanted)
            self.assertEqual("; factored: 12 ground sentences" in str(found), is_folded, (wanted, limit))
        with mock.patch.dict(limits.MOST, {"sentences": 11}), mock.patch.dict(limits.LARGE, {"sentences": 11}):
            found, _ = made(GAME)
        self.assertTrue(str(found).startswith("nothing is written, because this exceeds the limit however it is factored: at least "), found)

    def test_what_is_past_the_usual_limits_says_that_it_is_large(self):
        # The game cannot be factored to fit the limits, or factoring takes too much work, or factoring was not requested.
        for most, work, options in ((8, 400_000, {}), (11, 1, {}), (11, 400_000, {"is_large": True}), (11, 400_000, {"wanted": NEVER})):
            with mock.patch.dict(limits.MOST, {"sentences": most}), mock.patch.object(making, "MOST_WORK", work):
                found, said = made(GAME, **options)
            self.assertEqual(found, f"; {limits.LARGE_NOTE}\n{made(GAME)[0]}", options)
            self.assertIn(f"\n  {limits.LARGE_NOTE}\n", said)
            self.assertIn("\n  sentences               12 of   262,144\n", said)

    def test_what_is_past_the_limits_for_large_games_as_it_stands_is_folded_to_within_them(self):
        with mock.patch.dict(limits.MOST, {"sentences": 10}), mock.patch.dict(limits.LARGE, {"sentences": 20}):
            found, _ = made(MANY_TERMS)
        self.assertRegex(str(found), rf"^; {limits.LARGE_NOTE}\n; factored: 24 ground sentences of 406 bytes became 15\n")

    def test_a_long_game_is_factored_if_possible(self):
        for most, options, is_factored in ((24, {}, False), (23, {}, True), (15, {"is_large": True}, True), (23, {"wanted": NEVER}, False), (3, {}, False)):
            with mock.patch.dict(limits.MOST, {"sentences": 3}), mock.patch.dict(making.LONG, {"sentences": most}):
                found, _ = made(MANY_TERMS, **options)
            self.assertEqual("; factored: 24 ground sentences" in str(found), is_factored, (most, options))
            self.assertTrue(str(found).startswith(f"; {limits.LARGE_NOTE}\n"), found)

    def test_the_seconds_may_be_over_while_it_is_folded(self):
        plain = made(GAME)[0]
        with mock.patch.dict(limits.MOST, {"sentences": 11}), mock.patch.object(folding, "folded", lambda *_: signal.raise_signal(signal.SIGPROF)):
            self.assertEqual(made(GAME)[0], f"; {limits.LARGE_NOTE}\n{plain}")

    def test_what_is_past_a_limit_is_not_written(self):
        with mock.patch.dict(limits.MOST, {"roles": 1, "moves": 2}):
            found, said = made(GAME, NEVER)
        self.assertIsInstance(found, Refused)
        self.assertTrue(str(found).startswith("nothing is written, because this exceeds the limit: 2 roles, but at most 1 are allowed"), found)
        self.assertIn("2 of         1: ABOVE THE LIMIT\n", said)
        self.assertEqual(said.count("  largest: sentence "), 3)

    def test_what_costs_most_is_named_first(self):
        with mock.patch.dict(limits.MOST, {"sentences": 3}), mock.patch.dict(limits.LARGE, {"sentences": 3}):
            found, said = made(GAME, NEVER)
        self.assertEqual(str(found), "nothing is written, because this exceeds the limit: 12 sentences, but at most 3 are allowed")
        largest = [line for line in said.splitlines() if line.startswith("  largest: ")]
        self.assertEqual(largest[0], "  largest: sentence 5, line 2: (<= (legal ?p (m ?x)) (role ?p) (succ ?x ?y)): 4 ground sentences")
        with mock.patch.dict(limits.MOST, {"bytes": 3}), mock.patch.dict(limits.LARGE, {"bytes": 3}):
            found, said = made(GAME, NEVER)
        self.assertRegex(str(found), r"^nothing is written, because this exceeds the limit: \d+ bytes, but at most 3 are allowed$")
        self.assertRegex(said, r"  largest: sentence 6, line 2: .*: 92 bytes\n")

    def test_one_word_of_a_command_line(self):
        for most, is_said in ((10, True), (100_000, False)):
            with mock.patch.object(limits, "MOST_IN_A_WORD", most):
                self.assertEqual(f"one argument of a command on Linux, which has at most {most:,} bytes" in made(GAME)[1], is_said)

    def test_cycles_are_unrolled_and_told(self):
        steps = "(step a b) (step b a) (step b c) (step c b)"
        game = f"(role r) {steps} (init (at a)) (init (at b)) (<= (reach ?x) (true (at ?x))) (<= (reach ?y) (reach ?x) (step ?x ?y) (true (on ?y))) (<= (legal r ?x) (reach ?x)) (<= (next (at ?x)) (does r ?x)) (<= (next (on ?x)) (does r ?x)) (goal r 1)"
        found, said = made(game)
        self.assertRegex(found, r"^; 1 cycle of sentences is unrolled, the largest, of 2 sentences with \(reach a\), in 2 rounds\n")
        self.assertIn("1 cycle of sentences is unrolled", said)

    def test_the_cycle_of_most_sentences_is_named(self):
        making_of = Making("", 60, NEVER)
        making_of.note_circles([("z", 2, 1), ("a", 3, 2), ("b", 2, 1)])
        self.assertEqual(making_of.notes, ["3 cycles of sentences are unrolled, the largest, of 3 sentences with a, in 3 rounds"])

    def test_refusals_have_the_sentence(self):
        for text, words in (
            ("(role r)\n(<= (goal r ?x) (n ?x)) (n big)", "line 2, column 1: (goal r big) can be derived, but its goal is not a number from 0 to 100: (<= (goal r ?x) (n ?x))"),
            ("(role r) (init a)\n(<= p (not q) (true a))\n(<= q o) (<= o p) (<= terminal p)", "line 2, column 1: a cycle: p depends on itself through the negation of q, with o: (<= p (not q) (true a))"),
        ):
            self.assertEqual(told(text, made(text)[0]).partition(";")[0], words)


def test_without_standard_error_nothing_is_said_elsewhere(monkeypatch, capsys):
    monkeypatch.setattr("sys.stderr", None)
    making.report("x")
    assert capsys.readouterr().out == ""
