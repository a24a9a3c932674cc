"""Checks that a call log contains exactly the calls that the referee of one match makes, and that a match log contains the same messages and
answers."""

import dataclasses
import io
import pathlib
import re
import tempfile
import types
import unittest
from unittest import mock

from ggp_tools.competition import call_logs
from ggp_tools.competition.call_logs import MOST_HOLDS, REASONS, fault_of_account, fault_of_run, faults_of_logs, unpublished
from ggp_tools.competition.files import Folder
from ggp_tools.competition.schedule import Match
from ggp_tools.match_log import End, Host, Open, Other, last_run, line_of, published
from live_support import Missed, line
from support import TOP

MATCH, ROLES = Match("cup-001", "game", 5, 6, ("ann", "bob")), ("first", "(second 2)")
LONG = "x" * 300
ACCOUNT = rf"""0	strict cup-001 0 5 6 2 ann bob	opened
1	next cup-001 0	owe 0 start
2	next cup-001 1	owe 0 start
1	submit cup-001 0 0 ready	taken
1	next cup-001 0	hold 0
2	miss cup-001 1 0 broken	taken
1	next cup-001 0	owe 1 play NIL
2	next cup-001 1	owe 1 play NIL
1	submit cup-001 0 1 a\x5cb\x09"c	taken
2	submit cup-001 1 1 {LONG}\xff	taken
1	next cup-001 0	owe 2 play ((do {LONG}) noop)
1	miss cup-001 0 2 silent	taken
1	next cup-001 0	owe 9 stop (noop noop)
2	next cup-001 1	owe 9 stop (noop noop)
1	submit cup-001 0 9 	taken
1	next cup-001 0	over
2	submit cup-001 1 9 TO	taken
""".encode()


def end(kind: str = "STOP", match: str = "cup-001") -> str:
    return line_of(End(match, 2_000, kind)).decode()


LINES = [
    line_of(Open("cup-001", 1_000)).decode(),
    line(MATCH, 0, 1, "(START cup-001 first ... 5 6)", "ready"),
    line(MATCH, 1, 1, "(START cup-001 (second 2) ... 5 6)", Missed("CE (no connection)")),
    line(MATCH, 0, 2, "(PLAY cup-001 NIL)", 'a\\b\t"c'),
    line(MATCH, 1, 2, "(PLAY cup-001 NIL)", f"{LONG}\xff"),
    line(MATCH, 0, 3, f"(PLAY cup-001 ((do {LONG}) noop))", Missed("TO (no answer in time)"), 5_000, 1_000),
    line(MATCH, 0, 4, "(STOP cup-001 (noop noop))", ""),
    end(),
    line(MATCH, 1, 3, "(STOP cup-001 (noop noop))", "TO"),
]
LOG = "".join(LINES)


class LogFaults(unittest.TestCase):
    def fault(self, log: str) -> str | None:
        run = last_run(io.BytesIO(log.encode()), MATCH.id)
        return unpublished(log.encode(), run) or fault_of_run(MATCH, ROLES, run, ACCOUNT)

    def assert_foreign(self, log: str, number: int) -> None:
        self.assertRegex(self.fault(log) or "", f"^`publish` would leave out line {number} of its log, or write it differently: ")

    def test_what_the_referee_has_written(self):
        self.assertIsNone(self.fault(LOG))
        self.assertIsNone(self.fault(""))
        for at in range(len(LINES)):
            self.assertIsNone(self.fault("".join(LINES[:at] + LINES[at + 1 :])))

    def test_times_hosts_and_reasons_are_not_in_the_account(self):
        self.assertIsNone(self.fault("".join([LINES[2], *LINES[:2], *LINES[3:]])))
        log = LOG.replace('"ms":5000', '"ms":77').replace('"time":1000', '"time":2').replace('"no connection"', "null").replace('"time":2000', '"time":null')
        self.assertIsNone(self.fault(line_of(Host("cup-001", "me@there:22")).decode() + log))

    def test_a_match_that_began_again(self):
        before = LOG.replace("ready", "wrong")
        self.assertEqual(self.fault(before), "line 2 of its log does not agree with its call log")
        self.assert_foreign(LOG + LOG, 10)
        # Only the events since the match began again are published.
        self.assert_foreign("".join([*LINES[:3], LINES[0], *LINES[3:]]), 2)
        lost = line_of(Other("lost", {"match": "cup-001", "time": 5, "reason": "gone"})).decode()
        self.assertEqual(published(f"Welcome\x1b[1m\n{before}{lost}{LOG}".encode(), "cup-001"), LOG.encode())

    def test_a_match_that_was_given_up(self):
        log = LOG.replace("(STOP cup-001 (noop noop))", "(ABORT cup-001)").replace("STOP", "ABORT")
        self.assertIsNone(fault_of_run(MATCH, ROLES, last_run(io.BytesIO(log.encode()), MATCH.id), ACCOUNT.replace(b"stop (noop noop)", b"abort")))

    def test_a_line_that_no_account_says_is_not_published(self):
        events = (
            Other("absent", {"match": "cup-001", "role": 0, "player": "ann"}), Other("left_out", {"count": 3}), Host("cup-001", "h"), Open("cup-002", 1),
            Other("lost", {"match": "cup-001", "time": 5, "reason": "bob was seen cheating"}), Other("held", {"match": "cup-001", "reason": None}),
        )
        for text in ("ggp_manager: bob was seen cheating\n", "\n", "{}\n", *(line_of(event).decode() for event in events)):
            # The event about a host begins another run of the match.
            self.assert_foreign(LOG + text, 1 if "host" in text else 10)
            if "host" not in text:
                self.assertEqual(published(f"{LOG}{text}".encode(), "cup-001"), LOG.encode())

    def test_a_line_is_written_in_one_way(self):
        for old, new in (
            ('"match":"cup-001"', '"match": "cup-001"'), ('{"event":"open",', '{"event":"open","more":1,'), ("ready", "\\u0072eady"), ('"ms":5,', '"ms":5.0,'),
            ("\\u00ff", "\\u00FF"), ("\\u0009", "\\t"), ("\n", "\r\n"), ("\n", " \n"), ('"role":0', '"role":-0'), ('{"event":"open","match":"cup-001"', '{"match":"cup-001","event":"open"'),
        ):
            with self.subTest(new):
                log = LOG.replace(old, new, 1)
                number = next(at for at, (given, made) in enumerate(zip(LOG.split("\n"), log.split("\n")), 1) if given != made)
                self.assert_foreign(log, number)
        self.assert_foreign(LOG[:-1], 9)

    def test_a_line_of_another_match_is_not_published(self):
        self.assert_foreign(LOG.replace('"match":"cup-001","role":0', '"match":"cup-002","role":0', 1), 2)

    def test_no_line_is_there_twice(self):
        for at, text in enumerate(LINES):
            doubled = self.fault("".join([*LINES[: at + 1], *LINES[at:]]))
            self.assertRegex(doubled or "", "^(`publish` would leave out )?line [0-9]+ of its log,? (does not|or write it differently)", text)
        self.assertEqual(self.fault(LOG + end()), "line 10 of its log does not agree with its call log")

    def test_what_is_not_so(self):
        for old, new, number in (
            ("(START cup-001 first", "(START cup-002 first", 2),
            ("first ... 5 6", "first ... 6 5", 2),
            ("first ... 5 6", "first (role x) 5 6", 2),
            ('"player":"ann"', '"player":"bob"', 2),
            ('"role":1,"player":"bob","number":1', '"role":2,"player":"bob","number":1', 3),
            ('"answer":"ready"', '"answer":"busy"', 2),
            ('"CE"', '"TO"', 3),
            ('"CE"', '"lost"', 3),
            ('(PLAY cup-001 NIL)","answer":"a', '(PLAY cup-001 (noop noop))","answer":"a', 4),
            ('"round":0', '"round":1', 4),
            ("a\\\\b", "a?b", 4),
            ("x\\u00ff", "x", 5),
            ("xxx) noop", "xx) noop", 6),
            ('"answer":null,"error":"TO"', '"answer":"(do it)","error":null', 6),
            ('"kind":"STOP","round":null,"time":null,"ms":5,"message":"(STOP cup-001 (noop noop))"', '"kind":"ABORT","round":null,"time":null,"ms":5,"message":"(ABORT cup-001)"', 7),
            ('"number":4', '"number":5', 7),
            ('"kind":"STOP"}', '"kind":"ABORT"}', 8),
            ('"answer":"TO","error":null', '"answer":null,"error":"TO"', 9),
        ):
            with self.subTest(new):
                self.assertIn(old, LOG)
                self.assertEqual(self.fault(LOG.replace(old, new, 1)), f"line {number} of its log does not agree with its call log")


    def test_only_an_error_has_a_reason_and_only_one_of_the_referee(self):
        for reason, is_sound in (
            (None, True), ("no connection", True), ("no answer in time: 17 of the head's bytes received", True), ("a read failed: ConnectionReset: nothing received", True),
            ("the status is 404, not 200: 91 of the reply's bytes received", True), ("no answer in time: ann was seen cheating", False), ("a read failed: Interrupted by ann", False), ("", False), ("it cheated", False),
        ):
            text = line(MATCH, 1, 1, "(START cup-001 (second 2) ... 5 6)", Missed(f"CE ({reason})")) if reason else LINES[2].replace('"no connection"', '""' if reason == "" else "null")
            self.assertEqual(self.fault("".join([*LINES[:2], text, *LINES[3:]])), None if is_sound else "line 3 of its log does not agree with its call log", reason)
        answered = LINES[1].replace('"reason":null', '"reason":"no connection"')
        self.assertEqual(self.fault("".join([LINES[0], answered, *LINES[2:]])), "line 2 of its log does not agree with its call log")

    def test_the_reasons_are_those_of_the_referee(self):
        files = "http_exchange/src/wire_fault.rt", "http_exchange/src/received.rt", "http_exchange/src/head.rt", "network_players/src/contacting.rt"
        code = re.sub("//.*", "", "".join((TOP / "crates" / file).read_text() for file in files))
        texts = [text.partition("{")[0].strip(" :,") for text in re.findall(r'"([a-z][^"\n]*)"', code)]
        self.assertGreater(len(texts), 30)
        known = " | ".join(REASONS)
        self.assertEqual([text for text in texts if re.sub("[0-9]+", "N", text) not in known], [])


class OfCompetition(unittest.TestCase):
    def test_each_match_that_counts_is_checked(self):
        folder = Folder(pathlib.Path(self.enterContext(tempfile.TemporaryDirectory())))
        folder.make(folder.logs, folder.accounts)
        results = []
        for name, log in (("cup-001", LOG), ("cup-002", LOG.replace("ready", "busy")), ("cup-003", LOG)):
            match = dataclasses.replace(MATCH, id=name)
            folder.log(name).write_bytes(log.replace("cup-001", name).encode())
            folder.account(name).write_bytes(ACCOUNT.replace(b"cup-001", name.encode()))
            results.append(types.SimpleNamespace(match=match))
        plan = types.SimpleNamespace(folder=folder, roles=lambda game: ROLES)
        wrong = "cup-002: line 2 of its log does not agree with its call log"
        self.assertEqual(faults_of_logs(plan, results, is_published=True), [wrong])
        with open(folder.log("cup-003"), "a") as file:
            file.write("Welcome\n")
        self.assertEqual(faults_of_logs(plan, results, is_published=False), [wrong])
        more = "cup-003: `publish` would leave out line 10 of its log, or write it differently: Welcome"
        self.assertEqual(faults_of_logs(plan, results, is_published=True), [wrong, more])


CALLS = b"""0\tstrict cup-001 0 5 5 2 ann bob\topened
1\tnext cup-001 0\towe 0 start
2\tnext cup-001 1\towe 0 start
1\tsubmit cup-001 0 0 ready\ttaken
1\tnext cup-001 0\thold 0
1\tnext cup-001 0\thold 0
2\tmiss cup-001 1 0 broken\ttaken
1\tnext cup-001 0\towe 1 play NIL
2\tnext cup-001 1\towe 1 play NIL
2\tsubmit cup-001 1 1 \ttaken
1\tmiss cup-001 0 1 silent\ttaken
2\tnext cup-001 1\towe 2 stop (a b)
1\tnext cup-001 0\towe 2 stop (a b)
1\tsubmit cup-001 0 2 1 submit\ttaken
2\tsubmit cup-001 1 2 x\ttaken
1\tnext cup-001 0\tover
2\tnext cup-001 1\tover
"""
CALL_LINES = CALLS.splitlines(keepends=True)


class Accounts(unittest.TestCase):
    def fault(self, *lines):
        return fault_of_account(b"".join(lines))

    def test_what_a_referee_calls(self):
        self.assertIsNone(fault_of_account(CALLS))
        self.assertIsNone(fault_of_account(CALLS.replace(b"strict cup-001 0 5 5 2", b"open cup-001 0 5 5")))
        self.assertRegex(self.fault(CALL_LINES[0]), "its call log ends after line 1")

    def test_a_call_that_no_referee_makes_is_named_wherever_it_is(self):
        calls = (
            b"1\tsubmit cup-001 0 99 (i am sorry i cheated)\trefused over\n", b"1\tsubmit cup-001 0 0 x\trefused stale 1\n", b"1\tsubmit cup-001 0 7 x\ttaken\n",
            b"1\tquery cup-001\tplaying round 1 turns 0 substitutions 0\n", b"0\tabort cup-001\taborting\n", b"0\tnext cup-001 0\towe 0 start\n", b"2\tnext cup-001 0\thold 0\n",
            b"3\tnext cup-001 2\trefused norole\n", b"1\tmiss cup-001 0 0 silent\trefused twice\n", CALL_LINES[0], b"\n", b"{\n", b"x\n", b" 1\tnext cup-001 0\tover\n",
        )
        for call in calls:
            for at in range(1, len(CALL_LINES) + 1):
                shown = call.decode().strip("\n").replace("\t", " ")
                words = f"line {at + 1} of its call log is not a call that a referee would make at this point: {shown}"
                self.assertEqual(self.fault(*CALL_LINES[:at], call, *CALL_LINES[at:]), words)

    def test_each_line_is_needed_where_another_follows_from_it(self):
        for at in (1, 2, 3, 6, 7, 8, 9, 10, 11, 12):
            self.assertRegex(self.fault(*CALL_LINES[:at], *CALL_LINES[at + 1 :]), r"line \d+ of its call log is not a call that a referee would make at this point: ")

    def test_a_role_that_waits_asks_as_often_as_its_clock_allows(self):
        head, most = CALL_LINES[0].replace(b"0 5 5", b"0 7 6"), MOST_HOLDS + 2 * 2
        for at, hold, clock in ((4, b"1\tnext cup-001 0\thold 0\n", 7), (10, b"2\tnext cup-001 1\thold 1\n", 6)):
            before, after = (head, *CALL_LINES[1:at]), [line for line in CALL_LINES[at:] if line != hold]
            self.assertIsNone(self.fault(*before, *[hold] * (most + clock), *after))
            fault = self.fault(*before, *[hold] * (most + clock + 1), *after)
            self.assertRegex(fault, f"line {at + most + clock + 1} of its call log is not a call that a referee would make at this point: . next cup-001 . hold")

        # A single role is not woken by other roles, so fewer `hold` replies are allowed.
        alone = [b"0\topen cup-001 0 7 6 ann\topened\n", b"1\tnext cup-001 0\towe 0 start\n", b"1\tsubmit cup-001 0 0 ready\ttaken\n"]
        found = [self.fault(*alone, *[b"1\tnext cup-001 0\thold 0\n"] * (MOST_HOLDS + 7 + count), b"1\tnext cup-001 0\tover\n") for count in (2, 3)]
        self.assertEqual([fault is None for fault in found], [True, False])
        # A role may get the maximum number of `hold` replies in each round.
        rounds = (CALL_LINES[1:4], [b"1\tnext cup-001 0\thold 0\n"] * (most + 7), CALL_LINES[6:11], [b"1\tnext cup-001 0\thold 1\n"] * (most + 6), CALL_LINES[11:])
        self.assertIsNone(self.fault(head, *sum(rounds, [])))

    def test_a_history_has_a_greatest_length(self):
        with mock.patch.object(call_logs, "MOST_CALLS", len(CALL_LINES)):
            self.assertIsNone(fault_of_account(CALLS))
        with mock.patch.object(call_logs, "MOST_CALLS", len(CALL_LINES) - 1):
            self.assertRegex(fault_of_account(CALLS), "line 17 of its call log is not a call")
        self.assertEqual(call_logs.MOST_CALLS, 1_000_000)

    def test_the_part_of_each_role_comes_to_its_end(self):
        self.assertEqual(self.fault(*CALL_LINES[:-1]), "its call log ends after line 16, before each role's part is over")

    def test_nothing_is_called_once_a_role_s_part_is_over(self):
        self.assertRegex(self.fault(*CALL_LINES, CALL_LINES[-1]), "line 18 of its call log is not a call")

    def test_a_call_on_another_match(self):
        other = CALL_LINES[4].replace(b"cup-001", b"cup-002")
        self.assertEqual(self.fault(*CALL_LINES[:5], other, *CALL_LINES[5:]), "line 6 of its call log belongs to another match: 1 next cup-002 0 hold 0")

    def test_the_first_line_opens_the_match(self):
        for lines, shown in ((CALL_LINES[1:], "1 next cup-001 0 owe 0 start"), ([CALL_LINES[0].replace(b"opened", b"refused deskfull")], "0 strict cup-001 0 5 5 2 ann bob refused deskfull"), ([], "")):
            self.assertEqual(self.fault(*lines), f"line 1 of its call log does not open a match: {shown}")
