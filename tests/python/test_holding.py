"""Checks of records against the published description. Each difference is found, and reported with the sentence that shows it."""

import contextlib
import json
import subprocess
import sys
import tempfile
import unittest
from unittest import mock

from ggp_tools.holding.command import MOST_CALLS, Holding, Late
from ggp_tools.holding.following import Following, read_record
from ggp_tools.holding.game import Game
from ggp_tools.holding.positions import Whole
from ggp_tools.holding.reading import NotFollowed
from ggp_tools.kif import Refused, expressions, told
from ggp_tools.records.record import NoRecord, parsed
from ground_matches import differs, played
from support import GAMES, TOP, raised

COMMAND = TOP / "python/ggp-hold-against"
# A game of one turn. Reachability is recursive, and does not depend on the state.
ONE_TURN = """(role ann) (init s) (legal ann go) (<= terminal (true t)) (goal ann 50) (<= (next t) (does ann go) (far a c))
(near a b) (near b c) (<= (far ?x ?y) (near ?x ?y)) (<= (far ?x ?z) (far ?x ?y) (near ?y ?z))
"""
ONE_TURN_GROUND = ONE_TURN.splitlines()[0].replace("(far a c)", "")


class Followed(unittest.TestCase):
    """Small games of one or two roles, each with a fake record."""

    RULES = "(role ann) (role bob) (init s) (legal ann go) (legal bob wait)"

    def words(self, text, moves=(), errors=None, states=None, phase="playing", cause=None, goals=(), roles=("ann", "bob"), **more):
        record = {
            "roles": roles, "moves": moves, "errors": errors or [[""] * len(roles) for _ in moves], "states": states or [["s"]] * (len(moves) + 1),
            "goalValues": goals, "phase": phase, "cause": cause, **more,
        }
        return differs(Following(Game(text)), record)

    def test_of_each_kind_five_are_told(self):
        terms = [f"t{at}" for at in (3, 1, 6, 2, 7, 5, 4)]
        inits = " ".join(f"(init {term})" for term in terms)
        self.assertEqual(self.words(f"{self.RULES} {inits}", states=[["s"]]).splitlines(), [
            f"the first state lacks t{at}, which sentence {5 + terms.index(f't{at}')}, line 1: (init t{at}) gives" for at in (1, 2, 3, 4, 5)
        ])
        self.assertEqual(self.words(self.RULES, states=[["s", *terms]]).splitlines(), [
            f"the first state has t{at}, which no sentence of the description gives" for at in (1, 2, 3, 4, 5)
        ])
        said = self.words(f"{self.RULES} {' (init s)' * 6}", states=[["x"]])
        self.assertEqual(said.splitlines()[0].count("(init s) gives"), 5)
        self.assertEqual(self.words(self.RULES, states=[["s", "s"]]), "the first state contains a term twice")

    def test_roles_that_are_others(self):
        for roles in (("ann", "eve"), ("bob", "ann")):
            self.assertEqual(self.words(self.RULES, roles=roles), f"the roles are ann bob in the description, but {' '.join(roles)} in the record")
        ruled = "(player bob) (player ann) (<= (role ?x) (player ?x)) (init s) (legal ann go) (legal bob wait)"
        self.assertIsNone(self.words(ruled))
        self.assertIsNone(self.words(ruled, roles=("bob", "ann")))
        for roles in (("ann", "eve"), ("bob", "ann", "ann")):
            self.assertEqual(self.words(ruled, roles=roles), f"the roles are bob ann in the description, but {' '.join(roles)} in the record")

    def test_a_text_that_is_not_canonical_is_told_in_part(self):
        why = raised(NotFollowed, self.words, self.RULES, moves=[("X" * 161, "wait")])
        self.assertEqual(str(why), f"it is not a record: `{'X' * 160}..` is not canonical text")

    def test_a_turn_behind_the_end(self):
        text = f"{self.RULES}\n(<= terminal (true s))"
        said = "turn 1 was played, but the match had ended before it: sentence 5, line 2: (<= terminal (true s)) gives `terminal`"
        self.assertEqual(self.words(text, moves=[("go", "wait")]), said)

    def test_what_follows_is_cited_by_the_moves(self):
        text = f"{self.RULES} (<= (next t) (does ann go)) (<= (next t) (does bob go)) (<= (next u) (true s)) (<= (next t) (true s) (does bob wait))"
        said = "after turn 1 the record lacks t, which sentence 5, line 1: (<= (next t) (does ann go)) gives and sentence 8, line 1: (<= (next t) (true s) (does bob wait)) gives"
        self.assertEqual(self.words(text, moves=[("go", "wait")], states=[["s"], ["u"]]), said)
        self.assertIsNone(self.words(text, moves=[("go", "wait")], states=[["s"], ["t", "u"]]))
        ruled = "(player ann) (player bob) (<= (role ?x) (player ?x)) (init s) (legal ann go) (legal bob wait) (<= (next t) (does ann go))"
        said = "after turn 1 the record lacks t, which sentence 6, line 1: (<= (next t) (does ann go)) gives"
        self.assertEqual(self.words(ruled, moves=[("wait", "go")], states=[["s"], []], roles=("bob", "ann")), said)

    def test_answers_that_were_not_taken(self):
        text = f"{self.RULES} (legal ann stay) (<= (next s) (true s))"
        said = "turn 1, ann: the answer stay was counted as illegal, but sentence 5, line 1: (legal ann stay) gives it"
        self.assertEqual(self.words(text, [("go", "wait")], [["IL stay", ""]]), said)
        self.assertEqual(self.words(text, [("run", "wait")]), "turn 1, ann: the record plays run, which is not legal according to the description")
        for error in ("IL wait", "IL ?", "TO", "CE", "RT"):
            self.assertIsNone(self.words(text, [("go", "wait")], [[error, ""]]), error)
            said = "turn 1, ann: the record plays stay instead of an answer, but go comes before it, by sentence 3, line 1: (legal ann go)"
            self.assertEqual(self.words(text, [("stay", "wait")], [[error, ""]]), said)

    def test_each_record_has_its_own_order_of_roles(self):
        rules = "(player a) (player b) (<= (role ?x) (player ?x)) (legal a go) (legal b stay) (init s) (<= (next (did ?r ?m)) (does ?r ?m))"
        holding = Holding(f"{rules} (<= terminal (true (did a go))) (goal a 70) (goal b 30)")

        def held(holding, roles, moves, goals, **more):
            record = {**played(expressions(ONE_TURN_GROUND), 1), "roles": roles, "players": roles, "startMarks": ["", ""], "endMarks": ["", ""]}
            record |= {"states": [["s"], ["(did a go)", "(did b stay)"]], "moves": [moves], "errors": [["", ""]], "goalValues": goals}
            return holding.held(json.dumps(record | more))[1]

        one, other, none = (["a", "b"], ["go", "stay"], [70, 30]), (["b", "a"], ["stay", "go"], [30, 70]), (["a", "c"], ["go", "stay"], [70, 30])
        for played_so in (one, other, one, other, none, one, none, other):
            words = "differs: the roles are a b in the description, but a c in the record" if played_so is none else "the same: 1 turn"
            self.assertEqual(held(holding, *played_so), words)
        # After this turn, b has no legal move.
        holding = Holding(f"{rules.replace('(legal b stay)', '(<= (legal b stay) (true s))')} (<= terminal (true t)) (goal a 70)")
        for (roles, moves, _), stuck in ((one, 1), (other, 0)):
            words = [held(holding, roles, moves, [], phase="aborted", cause=f"nolegal {at}") for at in (stuck, 1 - stuck)]
            said = "differs: the role without a legal move after the last turn is a in the record, but b in the description"
            self.assertEqual(words, ["the same: 1 turn", said])

    def test_of_the_moves_of_one_sentence_the_least_number_is_the_first(self):
        text = "(role r) (n 2) (n 10) (<= (legal r (go ?x)) (n ?x)) (init s) (<= (next s) (true s)) (<= terminal (true t))"
        self.assertIsNone(self.words(text, moves=[("(go 2)",)], errors=[["TO"]], roles=("r",)))
        self.assertIn("(go 2) comes before it", self.words(text, moves=[("(go 10)",)], errors=[["TO"]], roles=("r",)))

    def test_a_move_of_another_role_has_a_place_of_its_own(self):
        text = "(role ann) (role bob) (init s) (<= (next s) (true s)) (legal ann wait) (legal bob go) (legal bob wait)"
        self.assertIsNone(self.words(text, moves=[("wait", "go")], errors=[["TO", "TO"]]))

    def test_a_move_that_several_sentences_give_stands_by_the_first_that_was_seen_to(self):
        rules = "(role ann) (init s) (<= (legal ann go) (true t)) (legal ann stay) (<= (legal ann go) (true s)) (<= (next t) (true s)) (<= (next s) (true t))"
        turns = {"moves": [("go",)] * 3, "states": [["s"], ["t"], ["s"], ["t"]], "roles": ("ann",)}
        # The first sentence for `go` may not derive it in this state. Then the place of `go` is unknown.
        self.assertIsNone(self.words(rules, **turns, errors=[["TO"], [""], ["TO"]]))
        turns["moves"] = [("stay",), ("go",), ("stay",)]
        self.assertIsNone(self.words(rules, **turns, errors=[["TO"], [""], [""]]))
        turns = {"moves": [("go",), ("stay",)], "states": [["s"], ["t"], ["s"]], "roles": ("ann",)}
        said = "turn 2, ann: the record plays stay instead of an answer, but go comes before it, by sentence 2, line 1: (<= (legal ann go) (true t))"
        self.assertEqual(self.words(rules, **turns, errors=[[""], ["TO"]]), said)
        # If a sentence derives a move in one state, the move has the place of that sentence in all states.
        turns = {"moves": [("stay",), ("stay",), ("stay",)], "states": [["s"], ["t"], ["s"], ["t"]], "roles": ("ann",)}
        following = Following(Game(rules))
        following.seen["ann", "go"] = 2
        self.assertIn("turn 1, ann: the record plays stay", self.words_of(following, turns, [["TO"], [""], [""]]))
        following = Following(Game(rules))
        self.assertIsNone(self.words_of(following, {**turns, "moves": [("stay",)], "states": [["s"], ["t"]]}, [["TO"]]))
        self.assertEqual(following.seen, {("ann", "go"): 4, ("ann", "stay"): 3})

    def words_of(self, following, turns, errors):
        return differs(following, {"goalValues": [], "phase": "playing", **turns, "errors": errors})

    def test_ends_without_goals(self):
        over = f"{self.RULES} (<= terminal (true s)) (goal ann 5)"
        given_up = {"phase": "aborted", "states": [["s"]]}
        self.assertIsNone(self.words(over, **given_up, cause="nogoal 1"))
        said = "the match was given up because ann does not have exactly one goal, but according to the description bob is the first such role"
        self.assertEqual(self.words(over, **given_up, cause="nogoal 0"), said)
        self.assertIsNone(self.words(f"{over} (goal ann 6)", **given_up, cause="nogoal 0"))
        said = "the match was given up because bob does not have exactly one goal, but according to the description ann is the first such role"
        self.assertEqual(self.words(f"{over} (goal ann 6)", **given_up, cause="nogoal 1"), said)
        said = "the match was given up because bob does not have exactly one goal, but according to the description there is no such role"
        self.assertEqual(self.words(f"{over} (goal bob 6)", **given_up, cause="nogoal 1"), said)
        self.assertIn("but not in the description", self.words(f"{self.RULES} (goal ann 5)", **given_up, cause="nogoal 1"))
        for cause in ("asked", "toolong", "allretired", "nolegal 0"):
            self.assertIn("the match goes on in the record, but has ended", self.words(over, **given_up, cause=cause))

    def test_a_match_that_has_not_begun_may_be_given_up_anywhere(self):
        over = f"{self.RULES} (<= terminal (true s))"
        self.assertIsNone(self.words(over, phase="aborted", cause="asked", startMarks=["", None]))
        self.assertIn("the match goes on in the record", self.words(over, phase="aborted", cause="asked", startMarks=["", "TO"]))

    def test_ends_without_legal_moves(self):
        given_up = {"phase": "aborted", "states": [["s"]]}
        for text, causes in ((self.RULES, ("asked", "toolong", "allretired")), (self.RULES.replace("(legal bob wait)", ""), ("nolegal 1", "toolong"))):
            for cause in ("asked", "toolong", "allretired", "nolegal 0", "nolegal 1"):
                self.assertEqual(self.words(text, **given_up, cause=cause) is None, cause in causes, cause)
        for text, cause, recorded, stuck in (
            (self.RULES.replace("(legal bob wait)", ""), "nolegal 0", "ann", "bob"), (self.RULES.replace("(legal bob wait)", ""), "asked", "none", "bob"),
            (self.RULES, "nolegal 1", "bob", "none"),
        ):
            said = f"the role without a legal move after the last turn is {recorded} in the record, but {stuck} in the description"
            self.assertEqual(self.words(text, **given_up, cause=cause), said)

    def test_goals_at_the_end(self):
        over = {"phase": "finished", "states": [["s"]]}
        text = f"{self.RULES} (<= terminal (true s)) (goal ann 5) (goal bob 6)"
        self.assertIsNone(self.words(text, **over, goals=(5, 6)))
        self.assertEqual(self.words(text.replace("(goal bob 6)", ""), **over, goals=(5, 6)), "bob has the goal value 6 in the record, but according to the description none")
        said = "bob has the goal value 6 in the record, but according to the description sentence 7, line 1: (goal bob 6) gives 6; sentence 8, line 1: (goal bob 7) gives 7"
        self.assertEqual(self.words(f"{text} (goal bob 7)", **over, goals=(5, 6)), said)
        self.assertIn("but not in the description", self.words(f"{self.RULES} (goal ann 5) (goal bob 6)", **over, goals=(5, 6)))


class Records(unittest.TestCase):
    """A text that is not a record, or lacks a part of a record, is not accepted, and is not reported as a bug of the command."""

    def setUp(self):
        self.record, self.holding = played(expressions(ONE_TURN_GROUND), 1), Holding(ONE_TURN)

    def words(self, **changes):
        return self.holding.held(json.dumps({**self.record, **changes}))[1]

    def test_what_is_no_record(self):
        self.assertEqual(self.words(), "the same: 1 turn")
        one = {"moves": [["go"]], "errors": [[""]]}
        for changes, words in [
            ({"states": ["s"]}, "expected in states: "), ({"errors": [["no"]]}, "errors has a text that is not an error"), ({"moves": [["go"], "go"]}, "expected in moves: "),
            ({"cause": "asked"}, "its cause does not fit its phase"), ({**one, "phase": "aborted"}, "its cause does not fit its phase"),
            *(({**one, "phase": "aborted", "cause": cause}, "expected in cause: ") for cause in (5, "nogoal", "nogoal 1", "nolegal x", "nogoal 00")),
            ({"startMarks": [None]}, "startMarks do not fit its phase"), ({"phase": "starting", "goalValues": []}, "startMarks do not fit its phase"),
            ({"goalValues": []}, "goalValues do not fit its phase"), ({"phase": "playing"}, "goalValues do not fit its phase"),
            *(({"goalValues": goals}, "expected in goalValues: ") for goals in ([50, 50], ["50"], [50.0], [True])),
            *(({"moves": [[move]]}, "a text of it is not one term") for move in ("", "go go", ";")), ({"moves": [["GO"]]}, "`GO` is not canonical text"),
        ]:
            with self.subTest(changes):
                self.assertTrue(self.words(**changes).startswith(f"not followed: it is not a record: {words}"), self.words(**changes))
        self.assertEqual(self.words(moves=[["(go"]]), "not followed: a list that is not closed")
        for line, words in (("[" * 200_000, "it is not JSON: "), ('{"roles":' * 90_000, "it is not JSON: "), ("", "it is not JSON: it is empty"), ("[1", "it is not JSON: line 1, column 3: `,` is missing"), ("5", "it is JSON, but not an object")):
            self.assertTrue(self.holding.held(line)[1].startswith(f"not followed: it is not a record: {words}"))
        self.assertEqual(self.words(), "the same: 1 turn")

    def test_marks_causes_and_goals_that_fit_the_phase(self):
        none = {"moves": [], "errors": [], "states": self.record["states"][:1], "goalValues": []}
        whole, marks = {**self.record, "goalValues": []}, "startMarks do not fit its phase"
        for changes, words in [
            ({**none, "phase": "starting", "startMarks": [None]}, None), ({**none, "phase": "aborted", "cause": "asked", "startMarks": [None]}, None),
            ({**none, "phase": "playing", "startMarks": [None]}, marks), ({**none, "phase": "aborting", "cause": "toolong", "startMarks": [None]}, marks),
            ({**whole, "phase": "starting", "startMarks": [None]}, marks), ({**whole, "phase": "aborted", "cause": "asked", "startMarks": [None]}, marks),
            ({**none, "phase": "starting", "startMarks": [""]}, marks), ({**none, "phase": "playing", "startMarks": ["TO"]}, None),
            *(({**whole, "phase": "aborted", "cause": cause}, None) for cause in ("asked", "toolong", "allretired", "nogoal 0", "nolegal 0")),
            ({"goalValues": [50, "50"], "roles": ["ann", "bob"], "moves": [["go"] * 2], "errors": [[""] * 2]}, "expected in goalValues: "),
            ({"errors": [["TO"]]}, None), ({"errors": [["IL x"]]}, None),
        ]:
            with self.subTest(changes):
                try:
                    read_record(json.dumps({**self.record, **changes}))
                    self.assertIsNone(words)
                except NoRecord as why:
                    self.assertTrue(words and str(why).startswith(words), why)

    def test_turns_compile_nothing(self):
        turn = Following.turn

        def checked(following, *arguments):
            count = following.game.program.count
            after = turn(following, *arguments)
            self.assertEqual(following.game.program.count, count)
            return after

        with mock.patch.object(Following, "turn", checked):
            self.assertEqual(self.words(errors=[[""]]), "the same: 1 turn")

    def test_lists_in_one_another_have_little_room(self):
        self.addCleanup(sys.setrecursionlimit, sys.getrecursionlimit())
        for limit, wanted in ((20_001, 1_000), (20_000, 20_000), (900, 900)):
            sys.setrecursionlimit(limit)
            with mock.patch("json.loads", lambda *_, **__: sys.getrecursionlimit()):
                self.assertEqual((parsed("1"), sys.getrecursionlimit()), (wanted, limit))

    def test_what_was_broken_off_is_looked_up_anew(self):
        for fault in (Late, MemoryError):
            holding = Holding(ONE_TURN)
            with mock.patch.object(Whole, "close", side_effect=fault), contextlib.suppress(Late):
                self.assertEqual(holding.held(json.dumps(self.record))[1], "not followed: out of memory")
            self.assertEqual(holding.held(json.dumps(self.record))[1], "the same: 1 turn")

    def test_terms_that_grow(self):
        rules = "(p a) (<= (p (g ?x)) (p ?x)) (<= terminal (true s) (p s))"
        self.assertEqual(Holding(f"{ONE_TURN} {rules}").held(json.dumps(self.record))[1], "not followed: a term is nested more than 64 lists deep")


class Described(unittest.TestCase):
    """Tests of valid and invalid descriptions."""

    def test_what_is_no_description(self):
        for text, words in (
            ("(role a)\n(<= (legal a ?m) (does a ?m))", "line 2, column 1: legal depends on does: (<= (legal a ?m) (does a ?m)); let `next` record what the moves did, and read that with `true`"),
            ("(role a)\n(init \xe9)", "line 2, column 7: a byte that is not a character of KIF: '\xe9'; write it in ASCII, or in a comment"),
            ("(role a)\n" + "(" * 70_000, "line 2, column 65: lists are nested more than 64 deep"),
            ("(role a)\n(<= p " + "(not " * 70_000 + "q" + ")" * 70_001, "line 2, column 322: lists are nested more than 64 deep"),
        ):
            self.assertEqual(told(text, raised(Refused, Game, text)), words)

    def test_goals_are_numbers_up_to_100(self):
        numbers = ["0", "7", "99", "100", "101", "007", "x", "(f 1)", "-1", "1000"]
        game = Game("(role a) (role b) (goal b 3) " + " ".join(f"(goal a {number})" for number in numbers))
        position = game.position(game.initial)
        self.assertEqual((game.goals(position, "a"), game.goals(position, "b"), game.goals(position, "c")), ([0, 7, 99, 100], [3], []))

    def test_many_ways(self):
        # No two `or`s share variables, and all alternatives of an `or` bind the same ones, so each `or` becomes a relation.
        ors = " ".join(f"(or (p ?v{at}) (q ?v{at}))" for at in range(30))
        game = Game(f"(role a) (init s) (p 1) (q 2) (<= (legal a (m ?v0 ?v1)) (or (true s) (true t)) {ors})")
        self.assertEqual(set(game.moves(game.position(game.initial), "a")), {("m", first, second) for first in "12" for second in "12"})

    def test_a_relation_that_denies_itself(self):
        text = "(role a) (next 1 2) (after 1 2) (after 2 3) (after 3 4) (init s) (<= (won ?m) (after ?m ?n) (not (won ?n))) (<= (legal a ?m) (won ?m) (true s))"
        game = Game(text.replace("(next 1 2) ", ""))
        self.assertEqual(set(game.moves(game.position(game.initial), "a")), {"3", "1"})
        game = Game("(role a) (init s) (<= (p ?x) (q ?x) (not (p ?x))) (q 1) (<= terminal (p 1) (true s))")
        raised(NotFollowed, game.is_over, game.position(game.initial))

    def test_a_long_body_and_a_long_chain(self):
        self.addCleanup(sys.setrecursionlimit, sys.getrecursionlimit())
        sys.setrecursionlimit(MOST_CALLS)
        names = [f"?v{at}" for at in range(40)]
        links = " ".join(f"(after {before} {after})" for before, after in zip(names, names[1:]))
        facts = " ".join(f"(after {at} {at + 1})" for at in range(45))
        game = Game(f"(role a) {facts} (init (c 0)) (<= (legal a (go ?v39)) (true (c ?v0)) {links})")
        self.assertEqual(game.moves(game.position(game.initial), "a"), [("go", "39")])
        chain = " ".join(f"(<= p{at} p{at + 1})" for at in range(900))
        game = Game(f"(role a) (init s) {chain} (<= p900 (true s)) (<= terminal p0)")
        self.assertTrue(game.is_over(game.position(game.initial)))


class Command(unittest.TestCase):
    def run_it(self, *words, data=b""):
        done = subprocess.run([sys.executable, COMMAND, *map(str, words)], input=data, capture_output=True)
        return done.returncode, done.stdout.decode().splitlines(), done.stderr.decode()

    def test_statuses(self):
        nim = GAMES / "general/nim.kif"
        begun = {"matchId": "m", "players": ["p", "q"], "startClock": 1, "playClock": 1, "startMarks": ["", ""], "endMarks": [None, None], "version": 1}
        state = sorted(["(control first)", *(f"(heap {name} {count})" for name, count in zip("abcd", (1, 3, 5, 7)))])
        record = json.dumps({**begun, "roles": ["first", "second"], "states": [state], "moves": [], "errors": [], "goalValues": [], "phase": "playing", "cause": None}).encode()
        self.assertEqual(self.run_it(nim, data=record), (0, ["the same: 0 turns"], ""))
        wrong = record.replace(b"(heap a 1)", b"(heap a 2)")
        status, said, _ = self.run_it(nim, data=wrong + b"\n" + record)
        self.assertEqual((status, said[-1], said[0][:40]), (1, "the same: 0 turns", "differs: the first state lacks (heap a 1"))
        self.assertEqual([self.run_it(nim, data=data)[0] for data in (b"{}", b"{}\n" + record, b"{}\n" + wrong + b"\n{}", b"")], [3, 3, 1, 0])
        # The timer fires at a tick of the clock. Even on a busy computer, this description takes many ticks.
        chain = "".join(f"(after {at} {at + 1})" for at in range(700))
        text = f"(role first) (role second) {chain} (<= (far ?x ?y) (after ?x ?y)) (<= (far ?x ?z) (far ?x ?y) (after ?y ?z)) (<= (init ?x) (far ?x ?x))"
        with tempfile.NamedTemporaryFile("w") as slow:
            slow.write(text)
            slow.flush()
            self.assertEqual(self.run_it("--seconds", "0.000001", slow.name, data=record)[0], 3)
        self.assertEqual(self.run_it(nim.with_name("none.kif"), data=record)[0], 2)
        self.assertEqual(self.run_it("--seconds", "0", nim, data=record)[0], 2)
        self.assertEqual(self.run_it(TOP / "README.md", data=record)[0], 3)

    def test_streams_that_fail(self):
        words = f"{sys.executable} {COMMAND} {GAMES / 'general/nim.kif'}"
        for shell, said in ((f"echo 5 | {words} > /dev/full", "standard output: No space left on device"), (f"{words} <&-", "standard input: it is closed")):
            done = subprocess.run(["sh", "-c", shell], capture_output=True, text=True)
            self.assertEqual((done.returncode, done.stderr.splitlines()[-1]), (2, f"ggp-hold-against: {said}"))
