"""Rematches: which matches may be played again, and which files this changes."""

import argparse
import contextlib
import dataclasses
import io
import pathlib
import tempfile
import types
import unittest
from unittest import mock

from ggp_tools.competition import command, playing
from ggp_tools.competition.competition_file import read_competition
from ggp_tools.competition.files import Folder, Refused, locked
from ggp_tools.competition.growth import Again, History
from ggp_tools.competition.plan import Plan, order_again, replaceable_match, schedule_of
from ggp_tools.descriptions.loading import Rules
from support import raised, toml

RULES = {"nim": types.SimpleNamespace(text=b"(role first) (role second)", roles=("first", "second"), is_large=False)}
ACCOUNT = b"0\topen cup-001 0 10 10\topened\n"
RECORD = (
    b'{"matchId":"cup-001","players":["ann","bob"],"startClock":10,"playClock":5,"strikes":0,"phase":"finished","cause":null,'
    b'"goalValues":[100,0],"moves":[],"errors":[]}\n'
)


class Lawful:
    """A fake referee that accepts each record, and reproduces the record from the call log."""

    path = "none"

    def taking(self, _):
        return self

    def verdicts(self, _, records):
        return ["lawful"] * len(records)

    def replays(self, _, accounts, records):
        return [True] * len(records)


class OrderedAgain(unittest.TestCase):
    def setUp(self):
        self.folder = Folder(pathlib.Path(self.enterContext(tempfile.TemporaryDirectory())))
        self.folder.make(self.folder.records, self.folder.accounts)
        competition = read_competition(toml([("ann", "h:1"), ("bob", "h:2")], [("nim", "f", "start = 10", "play = 5")]).encode())
        matches = schedule_of(self.folder, competition, RULES, History()).matches
        self.plan = Plan(self.folder, competition, RULES, list(matches))
        self.folder.record("cup-001").write_bytes(RECORD)
        self.folder.account("cup-001").write_bytes(ACCOUNT)

    def order(self, match, reason="the network was down"):
        referee = Lawful()
        with mock.patch("ggp_tools.competition.plan.read_plan", return_value=self.plan) as read:
            found = order_again(str(self.folder.path), referee, match, reason)
        read.assert_called_once_with(str(self.folder.path), referee)
        return found

    def assert_refused(self, words, match):
        self.assertEqual(str(raised(Refused, replaceable_match, self.plan, Lawful(), match)), words)

    def test_a_match_that_counts_gets_another_in_its_place(self):
        match = self.order("cup-001")
        self.assertEqual((match.id, match.players, match.instead_of), ("cup-003", ("ann", "bob"), "cup-001"))
        self.assertEqual(self.folder.again.read_text(), "match\tinstead of\treason\ncup-003\tcup-001\tthe network was down\n")
        self.assertEqual(self.folder.schedule.read_text(), "id\tgame\tstart\tplay\tplayers\ncup-001\tnim\t10\t5\tann bob\ncup-002\tnim\t10\t5\tbob ann\ncup-003\tnim\t10\t5\tann bob\n")

    def said(self, call, **asked):
        said = io.StringIO()
        with contextlib.redirect_stdout(said), contextlib.redirect_stderr(io.StringIO()):
            self.assertEqual(call(argparse.Namespace(**asked)), 0)
        return said.getvalue().splitlines()

    def test_play_counts_the_same_matches_as_the_table(self):
        """The match that was replaced has a record, too."""
        rules = {"nim": Rules(RULES["nim"].text, "0" * 64, RULES["nim"].roles)}
        order = Again("cup-003", "cup-001", "the network was down")
        matches = schedule_of(self.folder, self.plan.competition, RULES, History((), (order,))).matches
        self.plan = dataclasses.replace(self.plan, rules=rules, matches=matches)
        for match in matches:
            names = '","'.join(match.players).encode()
            self.folder.record(match.id).write_bytes(RECORD.replace(b"cup-001", match.id.encode()).replace(b'ann","bob', names))
            self.folder.account(match.id).write_bytes(ACCOUNT.replace(b"cup-001", match.id.encode()))
        self.enterContext(mock.patch.object(playing, "refuse_addresses", return_value={}))
        with mock.patch.object(command, "read_plan", return_value=self.plan), mock.patch.object(command, "write_matches"):
            played = self.said(lambda asked: command.play_planned(self.plan, asked, Lawful()), at_once=1, watch=False)
            table = self.said(lambda asked: command.run_table(asked, Lawful()), folder=["."], to=None)
        self.assertEqual((played, table[0]), (["2 of 2 matches have a lawful record; 1 match does not count"], "cup: 2 of 2 matches"))

    def test_orders_before_it_stay(self):
        order = Again("cup-003", "cup-002", "first")
        matches = schedule_of(self.folder, self.plan.competition, RULES, History((), (order,))).matches
        self.plan = dataclasses.replace(self.plan, matches=list(matches), history=History((), (order,)))
        self.assertEqual(self.order("cup-001").id, "cup-004")
        self.assertEqual(self.folder.again.read_text().splitlines()[1:], ["cup-003\tcup-002\tfirst", "cup-004\tcup-001\tthe network was down"])

    def test_the_schedule_is_written_last(self):
        written = []
        with mock.patch("ggp_tools.competition.plan.write_whole", lambda file, _: written.append(file)):
            self.order("cup-001")
        self.assertEqual(written, [self.folder.again, self.folder.schedule])

    def test_no_other_run_changes_the_plan_once_it_is_read(self):
        def read(path, _):
            with self.assertRaises(Refused), locked(path):
                pass
            return self.plan

        with mock.patch("ggp_tools.competition.plan.read_plan", read):
            self.assertEqual(order_again(str(self.folder.path), Lawful(), "cup-001", "late").id, "cup-003")

    def test_a_reason_is_printable_and_of_some_length(self):
        for reason in ("", " x", "x ", "x" * 201, "a\tb", "a\nb", "\xe4"):
            why = raised(Refused, self.order, "cup-001", reason)
            self.assertEqual(str(why), "--reason: expected 1 to 200 printable ASCII characters, without a space at either end")
        self.assertFalse(self.folder.again.exists() or self.folder.schedule.exists())
        for reason in ("x", "a b", "x" * 200, "!~"):
            self.assertEqual(self.order("cup-001", reason).id, "cup-003")

    def test_what_can_not_be_ordered_again(self):
        self.assertEqual(replaceable_match(self.plan, Lawful(), "cup-001").id, "cup-001")
        self.assert_refused(f"{self.folder.schedule} has no match cup-009", "cup-009")
        self.assert_refused("cup-002 has no record, so `ggp_competition play` plays it", "cup-002")
        self.folder.account("cup-001").unlink()
        self.assert_refused("cup-001 does not count, so `ggp_competition play` plays it again: its call log is missing", "cup-001")
        self.folder.account("cup-001").write_bytes(ACCOUNT)
        self.folder.record("cup-001").write_bytes(RECORD.replace(b'"playClock":5', b'"playClock":6'))
        self.assert_refused("cup-001 does not count, so `ggp_competition play` plays it again: its playClock is 6, but the schedule has 5", "cup-001")
        self.folder.record("cup-001").write_bytes(RECORD)
        self.plan.matches[0], self.plan.rounds = dataclasses.replace(self.plan.matches[0], round=1), [object(), object()]
        self.assert_refused("cup-001 can't be played again: it is in round 1, and the next round was paired by the results of that round", "cup-001")
        self.plan.rounds.pop()
        self.assertEqual(replaceable_match(self.plan, Lawful(), "cup-001").id, "cup-001")
        self.plan.matches[0] = dataclasses.replace(self.plan.matches[0], again="cup-003", reason="late")
        self.assert_refused("cup-001 was already replaced by cup-003: late", "cup-001")
