"""The explanations of unlawful records: with the interpreter only, and with a fake referee."""

import argparse
import contextlib
import io
import json
import pathlib
import subprocess
import sys
import tempfile
import unittest
from unittest import mock

from ggp_tools.holding.game import Game
from ggp_tools.records import explain
from ggp_tools.records.countdown import countdown
from ggp_tools.records.explain import explain_lines, explanation, judged, read, short
from ggp_tools.records.record import json_lines
from ggp_tools.streams import Ended
from support import TOP, outside, program, raised, script, verdict_rows
from test_referee import WithStandIn

EXPLAIN = TOP / "python/ggp-explain-record"
RECORD = TOP / "examples/records/countdown-3-second_version.record"
REPORT = "One of the two is wrong: please report this, with the record and the rules."
ERRORS = 'for each turn of moves a list with one text for each role: "", "TO", "CE", "RT", "IL ?", or "IL " and an expression in canonical text and lower case, of at most 8,192 bytes'
# Changes to a lawful record of Countdown from 3. Each comes with the explanation of the error that it causes. A place in the record is
# given by a path of keys and indices.
FAULTS = [
    ({("moves", 0, 0): "(take 3)"}, "illegal 0 0", "Turn 1, role red: the move is not legal.", "expected one of 2: (take 1), (take 2)", "found: (take 3)"),
    ({("moves", 0, 1): "(Take\n1)"}, "illegal 0 1", "Turn 1, role blue: the move is not legal.", "expected: noop", "found: (Take\\u{a}1)"),
    ({("moves", 0, 0): "(take 2)", ("errors", 0, 0): "TO"}, "notfirst 0 0", "Turn 1, role red: with the error TO the move must be the first legal one.", "expected: (take 1)", "found: (take 2)"),
    ({("errors", 0, 1): "IL noop"}, "notfirst 0 1", "Turn 1, role blue: the error says that noop is not legal, but it is.", "expected: no error", "found: the error IL noop"),
    ({("states", 0): []}, "state 0", "The state before turn 1 is not the first state of the rules.", "missing: (heap 3), (turn red)"),
    ({("states", 1): ["(heap 1)", "(turn blue)", "x"]}, "state 1", "The state after turn 1 is not the one that follows from the rules and the moves.", "missing: (heap 2)", "too many: (heap 1), x"),
    ({("states", 1): ["(turn blue)", "(heap 2)"]}, "state 1", "The state after turn 1 is not the one that follows from the rules and the moves.", "Its terms are right, but they are not in byte order, or some occur more than once."),
    ({("errors", 0, 1): "RT"}, "retired 0 1", "Turn 1, role blue: the role is not retired: it had errors in up to 0 turns in a row, and `strikes` is 0.", "expected: another error, or none", "found: RT"),
    ({("errors", 0, 1): "CE", ("strikes",): 1}, "retired 1 1", "Turn 2, role blue: the role is retired: it had errors in up to 1 turn in a row, and `strikes` is 1.", "expected: the error RT", "found: no error"),
    ({("goalValues",): [100, 0]}, "goals", "A record of the phase finished has the goals of the last state.", "expected: red 0, blue 100", "found: red 100, blue 0"),
    ({("phase",): "playing"}, "goals", "A record of the phase playing has no goals.", "expected: none", "found: red 0, blue 100"),
    ({("phase",): "stopping"}, "end", "At the end the state is terminal, and 2 of 2 roles have an end mark.", "expected: phase finished, cause null", "found: phase stopping, cause null"),
    ({("cause",): "nolegal 1"}, "end", "At the end the state is terminal, and 2 of 2 roles have an end mark.", "expected: phase finished, cause null", "found: phase finished, cause nolegal 1 (the role blue)"),
    ({("endMarks", 1): None}, "end", "At the end the state is terminal, and 1 of 2 roles has an end mark.", "expected: phase stopping, cause null", "found: phase finished, cause null"),
    ({("startMarks", 1): None}, "end", "At the end a START mark is missing after 2 turns, and 2 of 2 roles have an end mark.", "expected: other marks or turns: no phase allows these", "found: phase finished, cause null"),
    ({("strikes",): 256}, "shape strikes", "expected in strikes: a whole number from 0 to 255, because the record has version 2", "found: 256"),
    ({("playClock",): "x" * 99}, "shape playClock", "expected in playClock: a whole number of seconds from 1 to 86,400", f'found: "{"x" * 79}..'),
    ({("endMarks",): "gone"}, "shape endMarks", 'expected in endMarks: for each role a mark: null, "", "TO" or "CE"', "the roles are: red, blue", "found: no such key"),
    ({("moves", 1): ["noop"]}, "shape moves", "expected in moves: for each turn, at most 10,000 of them, a list with one text for each role", "the roles are: red, blue", 'found as member 2 of 2: ["noop"]'),
    ({("errors", 1): ["", 0], ("moves",): "gone"}, "shape errors", f"expected in errors: {ERRORS}", "the roles are: red, blue", 'found as member 2 of 2: ["", 0]'),
    ({("errors", 0): [""], ("moves",): 0}, "shape errors", f"expected in errors: {ERRORS}", "the roles are: red, blue", 'found as member 1 of 2: [""]'),
    ({("errors", 0, 1): f"IL {'(' * 65}{')' * 65}"}, "shape errors", f"expected in errors: {ERRORS}", "the roles are: red, blue", f'found as member 1 of 2: ["", "IL {"(" * 65}{")" * 6}..'),
    ({("states",): [[]]}, "shape states", "expected in states: a list of states, one more than turns in moves, each a list of texts", "found 1 member, with 2 turns in moves: [[]]"),
]


def changed(record, places):
    record = json.loads(json.dumps(record))
    for (*keys, last), value in places.items():
        part = record
        for key in keys:
            part = part[key]
        part[last] = value
    return {key: held for key, held in record.items() if held != "gone"}


def said_of(word: str, places: dict, rules: Game | None = None) -> list[str]:
    """Returns the explanation of the error in a record with these changes."""
    return list(explanation(word, rules or Game(countdown(3)), json.dumps(changed(json.loads(RECORD.read_text()), places)).encode()))


class Faults(unittest.TestCase):
    def test_each_fault_has_its_lines(self):
        for places, word, *lines in FAULTS:
            self.assertEqual(said_of(word, places), lines, places)

    def test_each_state_is_looked_at_up_to_the_last(self):
        count = len(json.loads(RECORD.read_text())["states"])
        said = [said_of(f"state {at}", {("states", at): []})[0] for at in range(count)]
        self.assertEqual(said, ["The state before turn 1 is not the first state of the rules.", *(
            f"The state after turn {at} is not the one that follows from the rules and the moves." for at in range(1, count)
        )])

    def test_another_fault_than_the_interpreter_finds(self):
        self.assertEqual(said_of("goals", {}), ["The interpreter finds no error", REPORT])
        self.assertEqual(said_of("goals", {("states", 0): []}), ["The interpreter finds state 0: The state before turn 1 is not the first state of the rules.", REPORT])
        for places in ({("moves",): "gone"}, {("startMarks",): 1}, {("states",): [1, 2, 3]}, {("matchId",): "gone"}):
            self.assertEqual(said_of("goals", places), ["The interpreter finds that the record has a different shape", REPORT], places)

    def test_strikes_count_in_a_row_and_from_then_on(self):
        # Five turns of a game without an end. Red errs in turns 1, 3 and 4, so with two strikes it is retired from turn 5.
        rules = Game("(role red) (role blue) (init s) (next s) (legal red m) (legal blue n)")
        errors = [["TO", ""], ["", "CE"], ["IL ?", ""], ["CE", ""], ["RT", ""]]
        record = {
            "roles": ["red", "blue"], "moves": [["m", "n"]] * 5, "errors": errors, "states": [["s"]] * 6, "goalValues": [], "phase": "playing", "cause": None,
            "endMarks": [None, None], "strikes": 2,
        }
        places = {(key,): value for key, value in record.items()}
        self.assertEqual(said_of("x", places, rules)[0], "The interpreter finds no error")
        wrong = {**places, ("errors",): [*errors[:4], ["TO", ""]]}
        self.assertEqual(said_of("retired 4 0", wrong, rules), [
            "Turn 5, role red: the role is retired: it had errors in up to 2 turns in a row, and `strikes` is 2.", "expected: the error RT", "found: TO",
        ])
        early = {**places, ("errors",): [*errors[:3], ["RT", ""], ["RT", ""]]}
        self.assertEqual(said_of("retired 3 0", early, rules)[0], "Turn 4, role red: the role is not retired: it had errors in up to 1 turn in a row, and `strikes` is 2.")
        since = {**places, ("strikes",): 3, ("errors",): [["TO", ""], ["CE", ""], ["", ""], ["TO", ""], ["RT", ""]]}
        self.assertEqual(said_of("retired 4 0", since, rules)[0], "Turn 5, role red: the role is not retired: it had errors in up to 2 turns in a row, and `strikes` is 3.")
        both = {**places, ("errors",): [["TO", "TO"], ["CE", "CE"], *errors[2:]]}
        self.assertEqual(said_of("end", both, rules), ["The record goes on after the end: before turn 3 all roles are retired.", "expected: 2 turns", "found: 5 turns"])

    def test_what_phase_and_cause_a_match_can_have(self):
        marks, cut = {("startMarks",): [None, ""]}, {("moves",): [], ("errors",): [], ("goalValues",): []}
        first = {**cut, ("states",): [["(heap 3)", "(turn red)"]]}
        found = ("The interpreter finds no error", REPORT)
        for places, phase, cause, end_marks, lines in (
            (marks, "starting", None, [None, None], found), (marks, "aborting", "asked", [None, None], found), (marks, "aborting", "asked", [None, ""], found),
            (marks, "aborted", "asked", ["", ""], found), ({}, "playing", None, [None, None], found), ({}, "aborting", "asked", ["", None], found), ({}, "aborted", "asked", ["", "TO"], found),
            ({}, "playing", None, ["", None], ("At the end the match can go on, and 1 of 2 roles has an end mark.", "expected: phase aborting, cause asked", "found: phase playing, cause null")),
            ({}, "starting", None, [None, None], ("At the end the match can go on, and 0 of 2 roles have an end mark.", "expected: phase playing, cause null, or phase aborting, cause asked", "found: phase starting, cause null")),
            (marks, "playing", None, [None, None], ("At the end a START mark is missing after 0 turns, and 0 of 2 roles have an end mark.", "expected: phase starting, cause null, or phase aborting, cause asked", "found: phase playing, cause null")),
            ({}, "aborted", "asked", ["", None], ("At the end the match can go on, and 1 of 2 roles has an end mark.", "expected: phase aborting, cause asked", "found: phase aborted, cause asked")),
        ):
            more = {("phase",): phase, ("cause",): cause, ("endMarks",): end_marks}
            self.assertEqual(tuple(said_of("end", {**first, **places, **more})), lines, (places, phase, cause))

    def test_rules_that_ask_for_one_another_too_deeply(self):
        with mock.patch("ggp_tools.records.explain.Replay", side_effect=RecursionError):
            self.assertEqual(said_of("goals", {}), ["There is no explanation: the rules are nested too deeply for the interpreter."])

    def test_one_legal_move_of_several(self):
        moves = [f"m{number:02}" for number in range(23)]
        rules = Game(f"(role red) (role blue) (init s) (next s) (legal blue n) {' '.join(f'(legal red {move})' for move in moves)}")
        places = {("moves",): [["x", "n"]], ("errors",): [["", ""]], ("states",): [["s"], ["s"]]}
        self.assertEqual(said_of("illegal 0 0", places, rules), ["Turn 1, role red: the move is not legal.", f"expected one of 23: {', '.join(moves[:20])}, and 3 more", "found: x"])
        for error, said in (("", None), ("TO", "with the error TO the move must be the first legal one"), ("IL m07", "with the error IL m07 the move must be the first legal one")):
            found = said_of("notfirst 0 0", {**places, ("moves", 0, 0): "m05", ("errors", 0, 0): error, ("phase",): "playing", ("goalValues",): [], ("endMarks",): [None, None]}, rules)
            self.assertEqual(found[0], f"Turn 1, role red: {said}." if said else "The interpreter finds no error")

    def test_a_role_without_a_move_or_a_goal(self):
        for text, cause, said in (
            ("(init s) (legal red m)", "nolegal 1", "the role blue has no legal move"),
            ("(init s) (<= terminal (true s)) (goal red 1)", "nogoal 1", "the state is terminal, and the role blue does not have exactly one goal"),
        ):
            rules = Game(f"(role red) (role blue) {text}")
            ended = {("moves",): [], ("errors",): [], ("states",): [["s"]], ("goalValues",): [], ("phase",): "aborted", ("cause",): cause}
            self.assertEqual(said_of("end", ended, rules)[0], "The interpreter finds no error")
            self.assertEqual(said_of("end", {**ended, ("cause",): "asked"}, rules), [
                f"At the end {said}, and 2 of 2 roles have an end mark.", f"expected: phase aborted, cause {cause} (the role blue)", "found: phase aborted, cause asked",
            ])
            goals = {**ended, ("phase",): "finished", ("cause",): None, ("goalValues",): [1, 0]}
            if "goal" in text:
                self.assertEqual(said_of("goals", goals, rules)[1:], ["expected: red 1, blue without exactly one goal", "found: red 1, blue 0"])

    def test_no_object_and_a_list_of_texts(self):
        self.assertEqual(list(explanation("shape cause", Game(countdown(3)), b"[7]"))[-1], "found: not a JSON object, but [7]")
        self.assertEqual(said_of("shape roles", {("roles",): ["red"]})[-1], 'found: ["red"]')
        self.assertEqual(said_of("shape states", {("states",): [[]], ("moves",): 0})[-1], "found 1 member: [[]]")

    def test_records_of_the_first_version_have_no_strikes(self):
        self.assertEqual(said_of("x", {("version",): 1, ("strikes",): "gone", ("errors", 0, 1): "CE"})[0], "The interpreter finds no error")

    def test_places_where_a_text_is_no_json(self):
        none = "The text is not JSON: a value is nested more than 127 deep, a number is invalid or outside the range of binary64, or a surrogate pair is incomplete."
        more = "More text follows the first record. Pass one record, without its call log, or use --lines if each line is a record."
        for text, *lines in (
            (b'{\n"\xff"', "The text is not JSON: line 2, byte 2: it is not UTF-8."), (b'\xff', "The text is not JSON: line 1, byte 1: it is not UTF-8."),
            (b"\n\xff", "The text is not JSON: line 2, byte 1: it is not UTF-8."), (b"{} x", "The text is not JSON: line 1, column 4: more text follows the value."),
            (b"{}\n{}", "The text is not JSON: line 2, column 1: more text follows the value.", more), (b"{}\n0\topen m 0\topened\n", "The text is not JSON: line 2, column 1: more text follows the value.", more),
            (b"[" * 99_999, none), (b"[]", none), (b'x{"cause":1', "The text is not JSON: line 1, column 1: a value is missing."),
            (b'{"cause":{"cause":1}', "The text is not JSON: line 1, column 21: `,` is missing.", "Another record begins at byte 10: the record before it was cut off, for example because a record was appended to an unfinished line."),
            (b"1} ", "The text is not JSON: line 1, column 2: more text follows the value."),
        ):
            self.assertEqual(list(explanation("json", Game(countdown(3)), text)), lines, text)

    def test_a_negative_nought_is_no_whole_number(self):
        data = RECORD.read_bytes().replace(b'"strikes":0', b'"strikes":-0')
        self.assertEqual(list(explanation("shape strikes", Game(countdown(3)), data))[-1], "found: -0.0")


class Words(unittest.TestCase):
    def test_a_text_is_shown_in_visible_characters_up_to_a_length(self):
        self.assertEqual((short("x" * 400), short("x" * 401), short("\n\x7f")), ("x" * 400, "x" * 400 + "..", "\\u{a}\\u{7f}"))

    def test_of_a_list_the_first_twenty(self):
        words = [f"w{at}" for at in range(1_300)]
        self.assertEqual((explain.listed([]), explain.listed(words[:2])), ("none", "w0, w1"))
        self.assertEqual((explain.listed(words[:20]), explain.listed(words[:21])), (", ".join(words[:20]), f"{', '.join(words[:20])}, and 1 more"))
        self.assertTrue(explain.listed(words).endswith(", w19, and 1,280 more"))


class Verdicts(WithStandIn):
    """Tests of how the referee's output is read."""

    def no_verdict(self, ask, *answer) -> tuple[str, int]:
        self.begin_anew()
        self.answers(*answer)
        why = raised(Ended, ask)
        return str(why), why.status

    def test_of_one_record(self):
        path = self.referee.path
        self.answers(verdict_rows(None))
        self.assertEqual(judged(path, ["--countdown=3"], b"{}"), [None])
        self.assertEqual(self.asked(), (["verify", "--json", "--countdown=3"], b"{}"))
        self.answers(verdict_rows("state 1"), b"more\nggp_manager: not lawful: state 1\n", 1)
        self.assertEqual(judged(path, [], b"{}"), ["state 1"])

    def test_without_a_verdict(self):
        def ask():
            judged(self.referee.path, [], b"{}")

        path = self.referee.path
        self.assertEqual(self.no_verdict(ask, verdict_rows(None), b"", 1), (f"{path} gave no verdict: it ended with status 1", 3))
        self.assertEqual(self.no_verdict(ask, verdict_rows(None)[:-3], b"", 0), (f"{path} gave no verdict: it ended with status 0", 3))
        self.assertEqual(self.no_verdict(ask, verdict_rows("state 1"), b"ggp_manager: not lawful: state 1\n", 2), ("ggp_manager: not lawful: state 1", 3))
        self.assertEqual(self.no_verdict(ask, b"", b"a\nggp_manager: wrong use\n", 2), ("a\nggp_manager: wrong use", 3))

    def test_a_program_that_can_not_be_run(self):
        for path, words in (("/none", "No such file or directory"), ("a\0b", "its name has a NUL byte")):
            why = raised(Ended, judged, path, [], b"")
            self.assertEqual((str(why), why.status), (f"cannot run {path}: {words}", 3))

    def test_of_lines(self):
        path = self.referee.path
        self.answers(verdict_rows(None, "goals"), b"ggp_manager: records not lawful 1\n", 1)
        self.assertEqual(judged(path, ["--lines", "--countdown=3"], b"{}\n7\tx\n", 2), [None, "goals"])
        self.assertEqual(self.asked(), (["verify", "--json", "--lines", "--countdown=3"], b"{}\n7\tx\n"))
        wrong = "gave no verdict: it ended with status"
        lawful, wrongly = verdict_rows(None), verdict_rows("goals")
        for answer, status in (((lawful * 2, b"", 0), 0), ((lawful, b"", 1), 1), ((wrongly, b"", 0), 0), ((wrongly, b"", 2), 2), ((lawful[:-3], b"", 0), 0), ((b"", b"", 0), 0)):
            said = self.no_verdict(lambda: judged(path, ["--lines"], b"{}\n"), *answer)
            self.assertEqual(said, (f"{path} {wrong} {status}", 3), answer)

    def lines_of(self, data: bytes) -> tuple[str, list[str]]:
        """Returns how many records are lawful, and the explanations of all other records."""
        file, out, said = self.folder / "records", io.StringIO(), io.StringIO()
        file.write_bytes(data)
        with contextlib.redirect_stdout(out), contextlib.redirect_stderr(said):
            explain_lines(argparse.Namespace(program=self.referee.path, countdown=3, rules_file=None, record=str(file)))
        return said.getvalue().removeprefix("ggp-explain-record: ").strip(), out.getvalue().splitlines()

    def test_only_what_is_not_lawful_is_named(self):
        record, account = RECORD.read_bytes(), b"0\tnext m 0\tover\n"
        self.answers(verdict_rows(None, "goals", "json", "shape cause"), b"", 1)
        count, said = self.lines_of(account + record + record.replace(b"[0,100]", b"[100,0]") + b"{\n" + account + b'{"matchId":7}\n')
        self.assertEqual([line for line in said if not line.startswith("\t")], ["line 3, match m1: not lawful: goals", "line 4: not lawful: json", "line 6: not lawful: shape cause"])
        self.assertEqual(said[1], "\tA record of the phase finished has the goals of the last state.")
        self.assertEqual(count, "1 lawful, 3 not lawful, 2 call log lines skipped")
        self.assertEqual(self.asked()[1].count(b"\n"), 4)

    def test_lines_behind_one_that_is_too_long_have_their_own_verdicts(self):
        self.answers(verdict_rows(None, "json", None), b"", 1)
        with mock.patch("ggp_tools.records.collection.LONGEST_RECORD", 4):
            count, said = self.lines_of(b"{}\n{   }\n[]\n{   }\n{ }\n")
        named = ["line 2: no record: it is longer than 16 MiB", "line 3: not lawful: json", "line 4: no record: it is longer than 16 MiB"]
        self.assertEqual([line for line in said if not line.startswith("\t")], named)
        self.assertEqual((count, self.asked()[1]), ("2 lawful, 3 not lawful", b"{}\n[]\n{ }\n"))

    def test_lines_are_handed_over_some_megabytes_at_a_time(self):
        self.answers(verdict_rows(*[None] * 2))
        self.answers(verdict_rows(*[None] * 3))
        with mock.patch("ggp_tools.records.collection.BATCH", 7):
            count, said = self.lines_of(b"{}\n{ }  \n[]\n[  ]\n{}\n")
        self.assertEqual((said, count, self.asked(0)[1], self.asked(1)[1]), ([], "5 lawful, 0 not lawful", b"{}\n{ }  \n", b"[]\n[  ]\n{}\n"))

    def test_without_lines_the_words_are_looked_at(self):
        self.answers()
        self.assertEqual((self.lines_of(b"")[1], self.asked()), ([], (["verify", "--json", "--lines", "--countdown=3"], b"")))

    def test_a_line_may_have_no_name(self):
        lines = (b'{"matchId":"a\\u0001"}', b"[]", b"{}", b"[" * 99_999, b"x", b'{"matchId":["m"]}')
        self.answers(verdict_rows(*["goals"] * len(lines)), b"", 1)
        said = [line.partition(": ")[0] for line in self.lines_of(b"\n".join(lines))[1] if not line.startswith("\t")]
        self.assertEqual(said, ["line 1, match a\\u{1}", *(f"line {at}" for at in range(2, 7))])

    def test_a_file_is_read_up_to_one_more_than_the_most(self):
        file = self.folder / "file"
        file.write_bytes(b"x" * 20)
        self.assertEqual((len(read(str(file), 19)), len(read(str(file), 10)), len(read(str(file), 30))), (20, 11, 20))
        for path, words in ((str(self.folder), "Is a directory"), ("/none", "No such file or directory")):
            why = raised(OSError, read, path, 10)
            self.assertEqual((why.filename, why.strerror), (path, words))


class Commands(WithStandIn):
    def test_which_limits_and_words_are_those_of_the_game(self):
        read_up_to = []
        with mock.patch.object(explain, "read", lambda file, most: read_up_to.append((file, most)) or b"(role red)"):
            for large, options in ((False, []), (True, ["--large"])):
                with explain.rules_of(argparse.Namespace(program="p", countdown=None, rules_file="f", large=large)) as (words, game):
                    self.assertEqual((words[0].partition("=")[0], words[1:], game().roles, game() is game()), ("--rules-file", options, ["red"], True))
            with explain.rules_of(argparse.Namespace(program="p", countdown=1, rules_file=None)) as (words, game):
                self.assertEqual((words, len(game().roles)), (["--countdown=1"], 2))
        self.assertEqual(read_up_to, [("f", 1 << 20), ("f", 16 << 20)])

    def run_main(self, *words: str, answer=(verdict_rows(None),)) -> tuple[int, str, str]:
        """Returns the exit status, the output and the messages of a run in this process."""
        self.begin_anew()
        self.answers(*answer)
        output, said = io.StringIO(), io.StringIO()
        with mock.patch("sys.argv", ["x", self.referee.path, *words]), contextlib.redirect_stdout(output), contextlib.redirect_stderr(said):
            return explain.main(), output.getvalue().removesuffix("\n"), said.getvalue()

    def test_one_record_or_lines(self):
        wrong = (verdict_rows("version"), b"ggp_manager: not lawful: version\n", 1)
        self.assertEqual(self.run_main(str(RECORD), "--countdown=3"), (0, "lawful", ""))
        status, out, said = self.run_main(str(RECORD), "--countdown=3", answer=wrong)
        self.assertEqual((status, out.splitlines(), said), (1, ["not lawful: version", "The interpreter finds no error", REPORT], ""))
        self.assertEqual(self.run_main(str(RECORD), "--lines", "--countdown=3"), (0, "", "ggp-explain-record: 1 lawful, 0 not lawful\n"))
        status, out, said = self.run_main(str(RECORD), "--lines", "--countdown=3", answer=(verdict_rows("goals"), b"", 1))
        self.assertEqual((status, out.splitlines()[0], said), (1, "line 1, match m1: not lawful: goals", "ggp-explain-record: 0 lawful, 1 not lawful\n"))


class Whole(unittest.TestCase):
    """The command with the real referee."""

    def explained(self, text, *words, referee=None):
        done = subprocess.run([sys.executable, EXPLAIN, referee or program(), *(words or ("--countdown", "3"))], input=text, capture_output=True)
        self.assertNotIn(b"Traceback", done.stderr)
        return done.returncode, done.stdout.decode().splitlines(), done.stderr.decode()

    def test_turns_after_the_end(self):
        record = json.loads(RECORD.read_text())
        more = {("moves",): [*record["moves"], ["noop", "noop"]], ("errors",): [["", ""]] * 3, ("states",): [*record["states"], []]}
        retired = (RECORD.parent / "countdown-10-turn_after_all_retired.record").read_bytes()
        for heap, text, *words in ((3, json.dumps(changed(record, more)).encode(), "3 the state is terminal", 2, 3), (10, retired, "2 all roles are retired", 1, 5)):
            why, wanted, found = words
            lines = [f"The record goes on after the end: before turn {why}.", f"expected: {wanted} turn{'s' * (wanted > 1)}", f"found: {found} turns"]
            self.assertEqual(self.explained(text, f"--countdown={heap}"), (1, ["not lawful: end", *lines], ""))

    def test_random_records(self):
        for heap, text in outside("records").random_records(3, 8, 7):
            word, = explain.judged(program(), [f"--countdown={heap}"], text.encode())
            if word:
                self.assertNotIn("One of the two is wrong", explain.explanation(word, Game(countdown(heap)), text.encode())[-1], text)

    def test_a_record_that_was_cut(self):
        whole = RECORD.read_text().strip()
        end, begin = "The text ends within the record: its end was cut off, or it is on several lines although each line must be a record.", "The text begins within a record: its beginning was cut off."
        for length in range(1, len(whole)):
            with self.subTest(length):
                self.assertEqual(json_lines(whole[:length].encode())[1:], [end])
        for at in range(1, len(whole) - 1):
            said = json_lines(whole[at:].encode())
            with self.subTest(at):
                self.assertTrue(said[1:] == [begin] or whole[at:].startswith("[") or '"' not in whole[at:] or "more follows" in said[0], said)
        again = json_lines(f"{whole[:50]}{whole}".encode())
        self.assertIn("Another record begins at byte 51: the record before it was cut off", again[1])
        for text in (b'{"a":\n x}', b"", b"no record", b'{"a" 1, "b": {'):
            self.assertEqual(json_lines(text)[1:], [], text)

    def test_records_one_a_line_by_one_run_of_the_program(self):
        record = json.loads(RECORD.read_text())
        faulty = [(json.dumps(changed(record, places)), word, lines) for places, word, *lines in FAULTS]
        whole = json.dumps(record)
        text = "\n".join([*(line for line, _, _ in faulty), whole, "0\tnext m1 0\tover", f"7\t{whole}", "", whole[:40], "12"])
        with tempfile.TemporaryDirectory() as room:
            counting = script(pathlib.Path(room, "counting"), f'#!/bin/sh\necho >> {room}/runs\nexec {program()} "$@"\n')
            status, out, said = self.explained(text.encode(), "--lines", "--countdown=3", referee=counting)
            self.assertEqual(pathlib.Path(room, "runs").read_text(), "\n")
        wanted = []
        for number, (line, word, lines) in enumerate(faulty, 1):
            wanted += [f"line {number}, match m1: not lawful: {word}", *(f"\t{line}" for line in lines)]
        self.assertEqual((status, out[: len(wanted)]), (1, wanted))
        rest = [line for line in out[len(wanted) :] if not line.startswith("\t")]
        at = len(faulty) + 3
        self.assertEqual(rest, [f"line {at}: not lawful: json", f"line {at + 1}: not lawful: json", f"line {at + 2}: not lawful: json", f"line {at + 3}: not lawful: shape cause"])
        self.assertEqual(said, f"ggp-explain-record: 1 lawful, {len(faulty) + 4} not lawful, 1 call log line skipped\n")

    def test_without_a_verdict(self):
        for words, status, said in (
            (("--countdown", "101"), 2, "ggp-explain-record: error: argument --countdown: expected a number from 1 to 100, found '101'"),
            (("--countdown", "x"), 2, "ggp-explain-record: error: argument --countdown: expected a number from 1 to 100, found 'x'"),
            (("--rules-file", "none"), 3, "ggp-explain-record: none: No such file or directory"),
            (("--rules-file", str(RECORD)), 3, "ggp_manager: bad description"),
            (("--countdown", "3", "none"), 3, "ggp-explain-record: none: No such file or directory"),
            (("--lines", "--countdown", "3", "none"), 3, "ggp-explain-record: none: No such file or directory"),
            (("--lines", "--rules-file", str(RECORD)), 3, "ggp_manager: bad description"),
        ):
            found, out, told = self.explained(b"", *words)
            self.assertEqual((found, out, told.splitlines()[-1]), (status, [], said), words)
        for words in (("--countdown",), ("--cont", "3"), ("a", "b", "--countdown", "3"), ("--countdown", "3", "--rules-file", "x"), ("a",)):
            found, out, told = self.explained(b"", *words)
            self.assertEqual((found, out, told.partition(" [")[0]), (2, [], "usage: ggp-explain-record"), words)
