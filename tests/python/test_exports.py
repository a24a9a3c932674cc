"""Records in the format of ggp-base, parsed as ggp-base's own `Match` (`org.ggp.base.util.match`) parses them."""

import json
import re
import types
import unittest

from ggp_tools.kif import expressions, spelled
from ggp_tools.records.collection import Judged, line_of
from ggp_tools.records.exports import index_row, text_of, times_of, write_pages
from test_collection import FAULTY as NOT_LAWFUL, LAWFUL, WithPile, record
from test_facts import LOG, SIX, read

WHOLE, FAULTY = record(LAWFUL[1]), record(NOT_LAWFUL)
BEGAN = SIX + 900


def terms_of(state: str) -> list:
    """Returns the terms of a state, which is a list of terms."""
    (terms,) = expressions(state)
    return list(terms)


def read_match(text: str) -> dict[str, object]:
    """Parses a match as ggp-base does for a known game: some keys are required, and the others are optional."""
    found = json.loads(text)
    match = {key: found[key] for key in ("matchId", "randomToken", "startClock", "playClock", "startTime", "isCompleted", "moves", "states", "stateTimes")}
    assert all(isinstance(match[key], int) for key in ("startTime", "startClock", "playClock")) and isinstance(match["isCompleted"], bool)
    match["states"] = list(map(terms_of, match["states"]))
    match["moves"] = [[expressions(move)[0] for move in turn] for turn in match["moves"]]
    assert all(isinstance(time, int) for time in match["stateTimes"])
    for key, otherwise in {"previewClock": -1, "isAborted": False, "errors": [], "goalValues": [], "playerNamesFromHost": None}.items():
        match[key] = found.get(key, otherwise)
    return match


class TimesOfLogs(unittest.TestCase):
    def times(self, turns: int, *logs: str) -> tuple[int, list[int]]:
        return times_of([found for log in logs for _, found in read(log)], turns)

    def test_a_match_begins_and_a_turn_ends_with_its_last_answer(self):
        self.assertEqual(self.times(2, LOG), (BEGAN, [BEGAN, SIX + 2_500, SIX + 4_000]))
        self.assertEqual(self.times(3, LOG), (BEGAN, []))

    def test_what_is_not_known(self):
        self.assertEqual(self.times(0, re.sub('"time":[0-9]+', '"time":null', LOG) + "\x00\n"), (0, []))
        self.assertEqual((self.times(0), self.times(0, LOG, LOG)), ((0, []),) * 2)


class Files(WithPile):
    def files(self) -> list[str]:
        return sorted(path.name for path in self.out.iterdir())

    def test_a_record_is_read_as_the_match_that_it_is(self):
        said = self.converted(WHOLE, "ggp-base")
        self.assertEqual((said.returncode, self.files()), (0, ["000001-m1.json"]), said.stderr)
        text = (self.out / "000001-m1.json").read_text(encoding="ascii")
        match, given = read_match(text), json.loads(WHOLE)
        self.assertEqual(match["states"], [[expressions(term)[0] for term in state] for state in given["states"]])
        self.assertEqual(match["moves"], [[("take", "1"), "noop"], ["noop", ("take", "2")]])
        self.assertIn('[["( take 1 )", "noop"], ["noop", "( take 2 )"]]', text)
        self.assertEqual((match["startTime"], match["stateTimes"], match["previewClock"]), (0, [], -1))
        same = {"matchId": "m1", "goalValues": [0, 100], "playerNamesFromHost": ["ann", "bob"], "errors": given["errors"]}
        same |= {"isCompleted": True, "isAborted": False, "startClock": given["startClock"], "playClock": given["playClock"]}
        self.assertEqual({key: match[key] for key in same}, same)
        self.assertNotIn("gameMetaURL", text)

    def test_times_and_the_address_of_the_game_are_those_that_are_named(self):
        (self.folder / "logs").mkdir()
        (self.folder / "logs/m1.jsonl").write_text(LOG, encoding="ascii")
        self.assertEqual(self.converted(WHOLE, "ggp-base", "--log", self.folder / "logs", "--games", "http://games/base/").returncode, 0)
        found = json.loads((self.out / "000001-m1.json").read_text(encoding="ascii"))
        self.assertEqual((found["startTime"], found["stateTimes"]), (BEGAN, [BEGAN, SIX + 2_500, SIX + 4_000]))
        self.assertEqual(found["gameMetaURL"], "http://games/base/countdown/")

    def test_nothing_is_written_for_a_record_that_is_not_lawful(self):
        said = self.converted(FAULTY + "no record\n" + WHOLE, "ggp-base")
        self.assertEqual((said.returncode, self.files()), (1, ["000003-m1.json"]))
        lines = said.stderr.splitlines()
        self.assertEqual(lines[0], f"ggp-records: not written: {self.pile}, line 1: not lawful: state 1")
        self.assertIn("line 2: no record: ", lines[1])
        self.assertEqual(lines[2], "ggp-records: 1 not lawful, 1 no record, 1 lawful")

    def test_a_match_that_was_given_up_has_no_goals(self):
        aborted = json.loads(WHOLE)
        aborted |= {"states": aborted["states"][:1], "moves": [], "errors": [], "goalValues": [], "phase": "aborted", "cause": "asked"}
        self.assertEqual(self.converted(json.dumps(aborted) + "\n", "ggp-base").returncode, 0)
        text = (self.out / "000001-m1.json").read_text(encoding="ascii")
        found = json.loads(text)
        self.assertEqual((found["isCompleted"], found["isAborted"], found["moves"]), (False, True, []))
        self.assertFalse({"goalValues", "errors"} & set(found))
        read_match(text)
        # A record of an unknown game has a page too.
        replaced = json.loads(WHOLE) | {"errors": [["", ""], ["IL (take 9)", ""]]}
        write_pages(self.folder / "pages", [Judged(line_of("pile", 1, json.dumps(replaced).encode()), None, "no game has its roles")])
        self.assertIn(b"(take 9)", (self.folder / "pages/000001-m1.html").read_bytes())
        judged = types.SimpleNamespace(line=types.SimpleNamespace(match_id="m1"), game=None, verdict="lawful", is_lawful=True)
        self.assertEqual(index_row(judged, aborted, "page")["players"], [("ann", None), ("bob", None)])

    def test_a_text_gives_back_the_moves_and_errors(self):
        """The text of a match is a paragraph: headers, and a row for each turn. A `;` precedes the error of a replaced move."""
        (self.folder / "m1.jsonl").write_text(LOG, encoding="ascii")
        replaced = json.dumps(json.loads(WHOLE) | {"errors": [["", "CE"], ["IL (take 9)", ""]]}) + "\n"
        said = self.converted(WHOLE + FAULTY + replaced, "pgn", "--log", self.folder / "m1.jsonl")
        self.assertEqual((said.returncode, said.stderr.count("not written: ")), (1, 1), said.stderr)
        texts = self.out.read_text(encoding="ascii").split("\n\n")
        headers = dict(re.findall('^\\[(.*) "(.*)"\\]$', texts[0], re.MULTILINE))
        names = {"Match": "m1", "Game": "countdown", "red": "ann", "blue": "bob", "Result": "0-100", "Date": "2026-11-28T06:00:00.900Z"}
        self.assertEqual({name: headers[name] for name in names}, names)
        self.assertTrue(texts[0].endswith("\n1. (take 1) noop\n2. noop (take 2)"), texts[0])
        for text, found in zip(texts, map(json.loads, (WHOLE, replaced)), strict=True):
            turns = [row.partition(". ")[2].partition(" ; ") for row in text.splitlines() if row[0] != "["]
            self.assertEqual([list(map(spelled, expressions(moves))) for moves, _, _ in turns], found["moves"])
            errors = [dict(error.split(": ") for error in said.split("; ") if error) for _, _, said in turns]
            self.assertEqual([[said.get(role, "") for role in found["roles"]] for said in errors], found["errors"])

    def test_a_header_has_the_name_of_a_role_without_other_characters(self):
        roles = ["[\"><img", "<img"]
        judged = types.SimpleNamespace(game=types.SimpleNamespace(name="g\xf6"), line=types.SimpleNamespace(record=json.loads(WHOLE) | {"roles": roles}, data=b""))
        rows = text_of(judged, []).splitlines()
        self.assertEqual(rows[1:4], ['[Game "g\\u00f6"]', '[____img "ann"]', '[_img "bob"]'])
        self.assertEqual([row for row in rows if row[0] == "[" and not re.fullmatch(r'\[[A-Za-z0-9_]+ "[^"]*"\]', row)], [])
