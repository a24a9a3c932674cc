"""Facts that are not in records: checksums, and data from the logs of the matches."""

import hashlib
import io
import json
import os
import pathlib
import re
import subprocess
import sys
import tempfile
import threading
import unittest

from ggp_tools.competition.schedule import Match
from ggp_tools.match_log import End, Host, Open, events, line_of
from ggp_tools.records.collection import Judged, KnownGame, Line
from ggp_tools.records.facts import TWO_LOGS, TWO_RECORDS, Facts, description_sums, record_sum, version_beside
from ggp_tools.records.match_logs import Beginning, MatchLogs, beginnings, files_of, logged
from live_support import Missed, line
from players import TestPlayer
from support import GAMES, TOP, InFolder, program, run
from test_collection import WithPile

RECORD_BYTES = (TOP / "examples/records/countdown-3-second_version.record").read_bytes().rstrip()
RECORD = json.loads(RECORD_BYTES)
FAULTY = (TOP / "examples/records/countdown-3-another_state.record").read_bytes()
# In this log, the referee had no connection to blue for START and for the first PLAY.
BROKEN = {**RECORD, "startMarks": ["", "CE"], "errors": [["", "CE"], ["", ""]]}
M1 = Match("m1", "countdown", 10, 10, ("ann", "bob"))
# 2026-11-28T06:00:00Z
SIX = 1_795_845_600_000


def message(role: int, number: int, text: str, answer: str, ms: int, time: int) -> str:
    """Returns the line of a message that was answered this many milliseconds after six o'clock."""
    return line(M1, role, number, text, answer, ms, SIX + time - ms)


OPEN, END = line_of(Open("m1", SIX + 900)).decode(), line_of(End("m1", SIX + 5_000, "STOP")).decode()
MIDDLE = [
    message(0, 1, "(START m1 red ... 10 10)", "ready", 200, 1_250),
    message(1, 1, "(START m1 blue ... 10 10)", Missed("CE (no connection)"), 300, 1_300),
    message(1, 2, "(PLAY m1 NIL)", Missed("CE (no host)"), 5, 2_000),
    message(0, 2, "(PLAY m1 NIL)", "(take 1)", 505, 2_500),
    message(0, 3, "(PLAY m1 ((take 1) noop))", "noop", 9, 3_000),
    message(1, 3, "(PLAY m1 ((take 1) noop))", "(take 2)", 8, 4_000),
    message(1, 4, "(STOP m1 (noop (take 2)))", "done", 3, 5_000),
]
LAST = message(0, 4, "(STOP m1 (noop (take 2)))", "done", 4, 5_001)
LINES = [OPEN, *MIDDLE, END, LAST]
LOG = "".join(LINES)
MESSAGES = [
    [["start", 200], ["play", 505], ["play", 9], ["stop", 4]],
    [["start", 300], ["play", 5], ["play", 8], ["stop", 3]],
]
WHY = [{"role": 1, "message": 1, "why": "no connection"}, {"role": 1, "message": 2, "why": "no host"}]
BEGUN = "".join(LINES[:4])


def read(log: str) -> list[tuple[str, Beginning]]:
    return list(beginnings(events(io.BytesIO(log.encode()))))


def logs_of(*logs: str) -> MatchLogs:
    """Returns the matches of these logs, each in a file."""
    with tempfile.TemporaryDirectory() as folder:
        for at, log in enumerate(logs):
            pathlib.Path(folder, f"{at}").write_text(log)
        return MatchLogs([folder])


def said(text: dict) -> bytes:
    """Returns a record as a line of a file of records."""
    return json.dumps(text, separators=(",", ":")).encode("ascii") + b"\n"


class Logs(unittest.TestCase):
    def times(self, log: str) -> list[tuple]:
        return [found.times() for _, found in read(log)]

    def test_a_log_has_times_and_may_have_a_host(self):
        times = "2026-11-28T06:00:00.900Z", "2026-11-28T06:00:05.001Z"
        self.assertEqual(self.times(LOG), [(*times, None)])
        self.assertEqual(self.times(line_of(Host("m1", "me@there")).decode() + LOG), [(*times, "me@there")])
        self.assertEqual(self.times("".join(LINES[:-1])), [(times[0], "2026-11-28T06:00:05.000Z", None)])

    def test_a_match_ends_with_the_latest_of_its_last_answers(self):
        without_time = line_of(End("m1", None, "STOP")).decode()
        for lines in ([*MIDDLE, LAST, END], [*MIDDLE, LAST, without_time], [*MIDDLE[:-1], LAST, MIDDLE[-1]]):
            self.assertEqual(self.times("".join(lines)), [(None, "2026-11-28T06:00:05.001Z", None)])

    def test_lines_of_another_form_are_counted(self):
        self.assertEqual([logs_of(text).others for text in (LOG, "", f"{LOG}ggp_manager: m1 started\n{{}}\n", "12:00 (START m1)\n")], [0, 0, 2, 1])

    def test_a_log_without_times_has_none(self):
        self.assertEqual(self.times(re.sub('"time":[0-9]+', '"time":null', LOG)), [(None, None, None)])

    def test_several_matches_have_their_own_times(self):
        other = LOG.replace('"m1"', '"m2"').replace(str(SIX)[:6], str(SIX + 10_000_000)[:6])
        mixed = "".join(text for pair in zip(LINES, other.splitlines(keepends=True)) for text in pair)
        for log in (LOG + other, mixed):
            self.assertEqual([begin[11:13] for begin, _, _ in self.times(log)], ["06", "08"])

    def test_a_turn_ends_with_the_latest_of_its_answers(self):
        lines = [line(M1, role, 2, "(PLAY m1 NIL)", "x", 9, time) for role, time in ((0, 7), (1, 5))]
        self.assertEqual(logged(events(io.BytesIO("".join(lines).encode()))).turns, {1: 16})

    def test_a_clock_was_set_back_if_a_message_was_sent_before_the_one_before(self):
        def was_set_back(*sent: tuple[int, int | None]) -> bool:
            lines = [line(M1, role, number, "(PLAY m1 NIL)", "x", 9, time) for number, (role, time) in enumerate(sent, 2)]
            return logged(found for found in events(io.BytesIO("".join(lines).encode()))).is_set_back

        for sent in ((), ((0, 5), (0, 6)), ((0, 5), (1, 4)), ((0, 6), (1, 5), (0, 6), (1, 6)), ((0, 5), (0, None), (0, 5))):
            self.assertFalse(was_set_back(*sent), sent)
        for sent in (((0, 5), (0, 4)), ((0, 5), (0, 4), (0, 6)), ((0, 5), (1, 5), (1, 6), (0, 4)), ((0, 5), (0, None), (0, 4))):
            self.assertTrue(was_set_back(*sent), sent)

    def test_the_messages_of_each_role(self):
        ((_, found),) = read(LOG)
        self.assertEqual((found.by_role(2), found.by_role(1)), (MESSAGES, MESSAGES[:1]))
        self.assertEqual((logged([]).times(), logged([]).by_role(1)), ((None, None, None), [[]]))

    def test_a_match_that_begins_again_is_the_later_one(self):
        for early in (BEGUN, OPEN, "".join(LINES[:2])):
            (found,) = logs_of(early.replace(str(SIX)[:6], "100000") + LOG).of("m1")
            self.assertEqual((found.times()[0], len(list(found.messages()))), ("2026-11-28T06:00:00.900Z", 8))

    def test_what_is_not_over_gives_way_to_what_is(self):
        for logs in ((LOG, BEGUN), (BEGUN, LOG), (LOG + BEGUN,)):
            (found,) = logs_of(*logs).of("m1")
            self.assertEqual(len(list(found.messages())), 8)
        self.assertEqual(len(logs_of(BEGUN, "".join(LINES[:3])).of("m1")), 2)

    def test_a_match_in_which_the_referee_was_short_of_something_has_no_record(self):
        short = "".join([*LINES[:5], message(0, 3, "(PLAY m1 ((take 1) noop))", Missed("lost (out of ports)"), 10, 3_000), *LINES[6:]])
        (found,) = logs_of(short + LOG, short).of("m1")
        self.assertFalse(found.is_short)

    def test_a_match_is_over_for_all_once_it_is_for_one_role(self):
        ((_, found),) = read(BEGUN + message(0, 2, "(ABORT m1)", "done", 4, 2_400) + MIDDLE[5])
        self.assertTrue(found.is_over())

    def test_two_that_are_over_are_several_and_a_copy_is_not(self):
        other = LOG.replace('"ms":505', '"ms":506')
        for logs in ((LOG, other), (LOG + other,), (LOG, other, LOG.replace('"ms":505', '"ms":507'))):
            self.assertEqual(len(logs_of(*logs).of("m1")), 2)
        self.assertEqual(len(logs_of(LOG, LOG).of("m1")), 1)
        self.assertEqual(logs_of(LOG).of("m2"), [])

    def test_of_a_folder_no_log_is_read_that_was_set_aside(self):
        with tempfile.TemporaryDirectory() as folder:
            names = ("cup-001.jsonl", "cup-001.jsonl.2", "refused", "x.differs.txt")
            for name in (*names, "cup-001.jsonl.refused", "cup-001.jsonl.refused.12", "cup-002.jsonl.unchecked", "cup-003.jsonl.differs.2"):
                pathlib.Path(folder, name).touch()
            pathlib.Path(folder, "link").symlink_to("nowhere")
            self.assertEqual([file.name for file in files_of(folder)], list(names))
            self.assertEqual([file.name for file in files_of(f"{folder}/cup-001.jsonl.refused")], ["cup-001.jsonl.refused"])

    def test_a_line_that_was_cut_and_the_one_behind_it_say_nothing(self):
        for cut in (12, 40, len(LINES[5]) - 14, len(LINES[5]) - 1):
            ((_, found),) = read("".join([*LINES[:5], LINES[5][:cut] + LINES[6], *LINES[7:]]))
            self.assertEqual([(role, number) for role, number, *_ in found.messages() if number > 2 or role], [(1, 1), (1, 2), (1, 4), (0, 4)])


class Lines(unittest.TestCase):
    """Tests of the facts about lawful records."""

    def facts(self, *logs: str, descriptions: dict[str, str] | None = None) -> Facts:
        return Facts("ggp_manager 1.2.3", "ggp_manager 1.0.0", descriptions or {}, logs_of(*logs))

    def judged(self, record: dict) -> Judged:
        game = KnownGame("countdown", "", "5" * 64, None, tuple(record["roles"]), ())
        return Judged(Line("pile", 1, said(record)[:-1], record), game, "lawful")

    def of(self, record: dict, *logs: str) -> dict:
        """Returns the facts of the record."""
        self.made = self.facts(*logs)
        found = self.made.of(self.judged(record))
        self.assertEqual(json.loads(json.dumps(found)), found)
        return found

    def assert_unknown(self, fault: str, record: dict, *logs: str) -> None:
        found = self.of(record, *logs)
        self.assertEqual([found[key] for key in ("begin", "end", "host", "messages")], [None] * 4)
        self.assertEqual({answer["why"] for answer in found["broken"]} - {None}, set())
        self.assertIn(fault, self.made.faults["m1"])

    def test_all_that_is_known_of_a_match(self):
        self.assertEqual(self.of(BROKEN, LOG), {
            "id": "m1", "record": hashlib.sha256(said(BROKEN)).hexdigest(), "game": "countdown", "rules": "5" * 64, "description": None,
            "program": "ggp_manager 1.0.0", "checkedBy": "ggp_manager 1.2.3", "players": ["ann", "bob"], "begin": "2026-11-28T06:00:00.900Z", "end": "2026-11-28T06:00:05.001Z",
            "host": None, "messages": MESSAGES, "broken": WHY,
        })
        self.assertEqual(self.made.faults, {})

    def test_without_a_log_what_it_would_say_is_null(self):
        for logs in ((), (LOG.replace('"m1"', '"m2"'),)):
            found = self.of(BROKEN, *logs)
            self.assertEqual([found[key] for key in ("begin", "end", "host", "messages")], [None] * 4)
            self.assertEqual(found["broken"], [{**answer, "why": None} for answer in WHY])
            self.assertEqual(self.made.faults, {})

    def test_a_line_that_is_missing_leaves_its_message_null(self):
        for at, (role, number) in {2: (1, 0), 5: (0, 2), 9: (0, 3)}.items():
            found = self.of(BROKEN, "".join(LINES[:at] + LINES[at + 1 :]))
            wanted = [[None if (row, place) == (role, number) else message for place, message in enumerate(messages)] for row, messages in enumerate(MESSAGES)]
            self.assertEqual(found["messages"], wanted)
            self.assertEqual(found["broken"][0]["why"], None if at == 2 else "no connection")

    def test_a_log_of_another_match_is_not_taken(self):
        others = (
            ("bob", "cid"), ('"role":1', '"role":2'), ("(take 1) noop", "(take 2) noop"), ("(STOP m1 (noop (take 2)))", "(ABORT m1)"),
            ('"number":4', '"number":999999999'), ('"number":4,"kind":"STOP","round":null', '"number":4,"kind":"PLAY","round":2'), ("PLAY m1 NIL", "PLAY m2 NIL"),
            ('"number":2,"kind":"PLAY","round":0', '"number":2,"kind":"START","round":null'),
        )
        for old, new in others:
            self.assertIn(old, LOG)
            self.assert_unknown("its log belongs to another match: role ", BROKEN, LOG.replace(old, new))
        answered = LOG.replace('"answer":null,"error":"CE","reason":"no host"', '"answer":"noop","error":null,"reason":null')
        self.assert_unknown("has an answer where the record has CE: role 1, message 2", BROKEN, answered)

    def test_reasons_of_silence_where_the_record_has_an_answer_are_left_out(self):
        found = self.of(RECORD, LOG)
        self.assertEqual((found["messages"], found["broken"]), (MESSAGES, []))

    def test_words_are_kept_as_they_are_and_none_are_null(self):
        for reason, why in ((r'"a\u0009b \u001b[2J\") (x"', 'a\tb \x1b[2J") (x'), ('""', None), ("null", None)):
            self.assertEqual(self.of(BROKEN, LOG.replace('"no host"', reason))["broken"][1]["why"], why)

    def test_several_matches_of_one_id_have_nothing_of_a_log(self):
        self.assert_unknown(TWO_LOGS, BROKEN, LOG.replace('"ms":505', '"ms":506'), LOG)
        facts, other = self.facts(LOG), {**BROKEN, "playClock": 6}
        data = [json.dumps(facts.of(self.judged(record))).encode() for record in (BROKEN, BROKEN, other, {**other, "players": ["ann", "eve"]})]
        self.assertEqual(facts.faults, {"m1": TWO_RECORDS})
        for fact in map(json.loads, map(facts.without_log, data)):
            self.assertEqual((fact["begin"], fact["end"], fact["host"], fact["messages"]), (None,) * 4)
            self.assertEqual(fact["broken"], [{**known, "why": None} for known in WHY])
        same = self.facts(LOG)
        self.assertEqual([same.of(self.judged(BROKEN))["messages"] for _ in range(2)], [MESSAGES] * 2)
        self.assertEqual(same.faults, {})
        self.assertEqual(same.without_log(data[0]), data[0])

    def test_a_role_that_is_retired_is_asked_no_more(self):
        record = {**BROKEN, "strikes": 1, "errors": [["", "CE"], ["", "RT"]]}
        dropped = [*LINES[:6], LINES[7].replace('"number":4', '"number":3'), *LINES[8:]]
        self.assertEqual(self.of(record, "".join(dropped))["messages"], [MESSAGES[0], [["start", 300], ["play", 5], ["stop", 3]]])

    def test_an_end_without_a_turn_carries_no_moves(self):
        record = {**RECORD, "moves": [], "errors": [], "states": RECORD["states"][:1], "endMarks": ["", "CE"]}
        found = self.of(record, "".join([*LINES[:3], message(1, 2, "(STOP m1 NIL)", Missed("CE (gone)"), 3, 2_000)]))
        self.assertEqual(found["messages"], [[["start", 200], None], [["start", 300], ["stop", 3]]])
        self.assertEqual(found["broken"], [{"role": 1, "message": 2, "why": "gone"}])

    def test_the_number_of_an_asked_abort_is_not_known(self):
        record = {**RECORD, "endMarks": ["CE", None], "startMarks": ["", None], "phase": "aborted", "cause": "asked", "goalValues": []}
        self.assertEqual(self.of(record)["broken"], [{"role": 0, "message": None, "why": None}])
        self.assertIsNotNone(self.of({**record, "endMarks": ["CE", ""], "startMarks": ["", ""]}, "".join(LINES[:3]))["messages"])

    def test_a_match_that_is_not_over_has_no_end(self):
        record = {**RECORD, "phase": "playing", "moves": [["(take 1)", "noop"]], "errors": [["", ""]], "endMarks": [None, None], "goalValues": []}
        self.assertEqual(self.of(record, "".join(LINES[:5]))["messages"], [messages[:2] for messages in MESSAGES])
        self.assert_unknown("role 0, message 3", record, LOG)

    def test_long_moves_are_compared_whole(self):
        long = "a" * 300
        record = {**RECORD, "moves": [[long, "noop"], ["noop", "(take 2)"]]}
        self.assertEqual(self.of(record, LOG.replace("((take 1) noop)", f"({long} noop)"))["messages"], MESSAGES)
        self.assert_unknown("its log belongs to another match", record, LOG.replace("((take 1) noop)", f"({long}a noop)"))


class Files(WithPile):
    def setUp(self):
        super().setUp()
        self.rules = self.folder / "rules/countdown.kif"
        (self.folder / "log").write_text(LOG, encoding="ascii")

    def run_facts(self, pile: bytes, *words: object) -> subprocess.CompletedProcess:
        return self.converted(pile.decode(), "facts", *words)

    def lines(self) -> list[dict]:
        return [json.loads(line) for line in self.out.read_text(encoding="ascii").splitlines()]

    def test_a_pile_with_a_log_and_lines_that_are_not_lawful(self):
        done = self.run_facts(FAULTY + said(BROKEN) + b"no record\n" + said({**RECORD, "matchId": "m2"}), "--log", self.folder / "log")
        self.assertEqual(done.returncode, 1, done.stderr)
        said_lines = done.stderr.splitlines()
        self.assertEqual(said_lines[0], f"ggp-records: not written: {self.folder}/pile, line 1: not lawful: state 1")
        self.assertIn("line 3: no record: ", said_lines[1])
        self.assertEqual(len(said_lines), 3)
        first, second = self.lines()
        self.assertEqual((first["id"], first["messages"], first["broken"], second["id"], second["messages"]), ("m1", MESSAGES, WHY, "m2", None))
        sums = first["rules"], first["record"], first["game"]
        self.assertEqual(sums, (hashlib.sha256(self.rules.read_bytes()).hexdigest(), hashlib.sha256(said(BROKEN)).hexdigest(), "countdown"))
        said_by = subprocess.run([program(), "--version"], capture_output=True, text=True).stdout
        self.assertEqual((first["checkedBy"], first["program"]), (said_by.strip(), None))
        self.assertEqual(sorted(path.name for path in self.folder.iterdir()), ["log", "out", "pile", "rules"])

    def test_several_matches_of_one_id_are_named(self):
        done = self.run_facts(said(BROKEN) + said({**BROKEN, "playClock": 6}), "--log", self.folder / "log")
        self.assertEqual(done.returncode, 0)
        self.assertEqual(done.stderr, "ggp-records: no facts from a log are written for m1: several matches have this id\nggp-records: 2 lawful\n")
        self.assertEqual([(line["messages"], line["broken"][0]["why"]) for line in self.lines()], [(None, None)] * 2)

    def test_a_log_may_be_a_pipe(self):
        os.mkfifo(self.folder / "pipe")
        writer = threading.Thread(target=(self.folder / "pipe").write_text, args=(LOG,), daemon=True)
        writer.start()
        self.assertEqual(self.run_facts(said(BROKEN), "--log", self.folder / "pipe").returncode, 0)
        writer.join()
        self.assertEqual(self.lines()[0]["messages"], MESSAGES)

    def test_what_can_not_be_read_is_told_before_anything_is_written(self):
        self.assertEqual(self.run_facts(said(BROKEN), "--log", self.folder / "none").returncode, 3)
        self.assertEqual(self.run_facts(said(BROKEN), "--descriptions", self.folder / "none").returncode, 3)
        self.assertFalse(self.out.exists())
        self.out.write_text("mine", encoding="ascii")
        self.assertEqual((self.run_facts(said(BROKEN)).returncode, self.out.read_text(encoding="ascii")), (2, "mine"))

    def test_the_sum_of_the_description_stands_beside_the_rules_or_is_that_of_a_file(self):
        rules = str(self.folder / "rules")
        self.assertEqual(description_sums(rules, None), {})
        sums = self.folder / "rules/DESCRIPTIONS.sha256"
        sums.write_text(f"{'a' * 64}  countdown.kif\n", encoding="ascii")
        self.assertEqual(description_sums(rules, None), {"countdown": "a" * 64})
        (self.folder / "with").mkdir()
        (self.folder / "with/countdown.kif").write_bytes(b"x")
        os.mkfifo(self.folder / "with/pipe.kif")
        self.assertEqual(description_sums(rules, str(self.folder / "with")), {"countdown": hashlib.sha256(b"x").hexdigest()})
        sums.write_text("no sum\n", encoding="ascii")
        with self.assertRaisesRegex(OSError, "not a checksum"):
            description_sums(rules, None)

    def test_which_program_refereed_stands_beside_the_rules_or_is_told(self):
        rules = str(self.folder / "rules")
        for said_by, wanted in ((b"ggp_manager 0.2.0\n", "ggp_manager 0.2.0"), (b"ggp_manager 0.2.0", None), (b"me\n", None)):
            (self.folder / "VERSION").write_bytes(said_by)
            self.assertEqual(version_beside(rules), wanted)
        (self.folder / "VERSION").unlink()
        self.assertEqual(version_beside(rules), None)
        self.run_facts(said(BROKEN), "--refereed-by", "mine 1")
        self.assertEqual(self.lines()[0]["program"], "mine 1")

    def test_the_sum_of_a_record_is_that_of_its_line(self):
        sums = {record_sum(RECORD_BYTES + end) for end in (b"", b"\n", b"\r\n")}
        self.assertEqual(sums, {hashlib.sha256(RECORD_BYTES + b"\n").hexdigest()})


class Competitions(InFolder):
    def test_what_matches_jsonl_has_too_is_the_same(self):
        players = [TestPlayer(f"p{at}", kind, at) for at, kind in enumerate(("good", "closing"))]
        head = "start = 20\nplay = 20\nstrikes = 1\nwait = 1\n"
        self.plan([(player.name, player.place()) for player in players], [("countdown", GAMES / "countdown.kif")], head=head)
        status, _, told = run(self.folder, "play")
        self.assertEqual((status, told), (0, ""))
        records, out = sorted((self.folder / "records").iterdir()), self.folder / "facts.jsonl"
        words = ["--program", program(), "--rules", self.folder / "rules", "facts", "--log", self.folder / "logs", out, *records]
        done = subprocess.run([sys.executable, TOP / "python/ggp-records", *words], capture_output=True, text=True)
        self.assertEqual((done.returncode, done.stderr), (0, "ggp-records: 2 lawful\n"))
        facts = [json.loads(line) for line in out.read_text(encoding="ascii").splitlines()]
        matches = [json.loads(line) for line in (self.folder / "matches.jsonl").read_text(encoding="ascii").splitlines()]
        shared = {"id", "record", "game", "rules", "description", "players", "begin", "end", "host", "messages", "broken"}
        self.assertEqual(facts[0].keys() & matches[0].keys(), shared)
        self.assertEqual(*([{key: line[key] for key in shared} for line in found] for found in (facts, matches)))
        self.assertEqual([fact["record"] for fact in facts], [hashlib.sha256(record.read_bytes()).hexdigest() for record in records])
        self.assertEqual(facts[0]["description"], hashlib.sha256((GAMES / "countdown.kif").read_bytes()).hexdigest())
        for fact in facts:
            self.assertEqual({(fact["players"][answer["role"]], answer["message"]) for answer in fact["broken"]}, {("p1", 2)})
            self.assertTrue(all(answer["why"] for answer in fact["broken"]), fact)
