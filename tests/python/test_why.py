"""The report of `why` about a match, from the record, the log and the journal of `play`, and the times in these files."""

import re
import shutil
import time
import types
from dataclasses import replace

from ggp_tools.competition.why import Explanation
from ggp_tools.match_log import last_run, messages
from ggp_tools.moments import MOMENT
from live_support import BEGAN, SILENT, Missed, end, line, opened, plan_in, record_of
from players import TestPlayer
from support import GAMES, InFolder, run

HEAD = "start = 5\nplay = 5\nstrikes = 2\nwait = 0\ninfo = 5\ntries = 2\n"


class Why(InFolder):
    def planned(self, *kinds, head=HEAD):
        self.players = [TestPlayer(f"p{at}", kind, at) for at, kind in enumerate(kinds)]
        form = 'kind = "schedule"\nlines = ["countdown p0 p1"]'
        self.plan([(player.name, player.place()) for player in self.players], [("countdown", GAMES / "countdown.kif")], form, head)

    def why(self, *words):
        status, out, said = run(self.folder, "why", ".", *words)
        self.assertEqual((status, said), (0, ""), out)
        return out

    def journal(self):
        return (self.folder / "play.log").read_text().splitlines()

    def explained(self, record=None, names=("ann", "bob"), **match):
        """Returns the explanation of the first match of these players, with this record."""
        plan = plan_in(str(self.folder), list(names))
        explained = Explanation(plan, replace(plan.matches[0], **match))
        explained.record = record
        return explained

    def test_turn_by_turn_with_the_times(self):
        self.planned("good", "lying")
        self.assertEqual(run(self.folder, "play")[0], 0)
        record = self.records()["cup-001"]
        said = self.why("cup-001", "p1")
        self.assertTrue(said.startswith("cup-001, countdown: p0 is red, p1 is blue; 5 s for START, 5 s for each other message, retired after 2 turns"))
        self.assertRegex(said, rf"(?m)^{MOMENT} info cup-001 p1: available, \d\.\d s$")
        self.assertRegex(said, rf"(?m)^{MOMENT} begin cup-001 countdown p0 p1$")
        self.assertRegex(said, rf"(?m)^{MOMENT} START was answered `ready` after \d+ ms\. Message 1: \(START cup-001 blue ")
        wrong = r"IL \(no such move\): not a legal move of its role in that state; the (?:only legal move was|\d legal moves were) [^;]+; its first legal move was played: "
        first, second = (re.escape(turn[1]) for turn in record["moves"][:2])
        self.assertIn(f"in that state; the only legal move was {record['moves'][0][1]}; its first", said)
        self.assertRegex(said, rf"(?m)^{MOMENT} turn 1: PLAY was answered `\(no such move\)` after \d+ ms; {wrong}{first}\. Message 2: \(PLAY cup-001 NIL\)$")
        self.assertRegex(said, rf"(?m)^{MOMENT} turn 2: PLAY .*; {wrong}{second}, turn 2 in a row without a move of its own, so it is retired\. ")
        self.assertNotIn("p0: available", said)
        self.assertEqual(said.splitlines()[-1], f"goal {record['goalValues'][1]}; {len(record['moves'])} of {len(record['moves'])} moves replaced")
        both = self.why("cup-001")
        self.assertIn("it is legal, and was played: ", both)
        of_player = said.partition("\n\np1, blue:\n")[2]
        self.assertEqual((len(of_player) > 200, both.count("\n\np0, red:\n"), both.count("\n\np1, blue:\n")), (True, 1, 1), both)
        self.assertIn(of_player.strip(), both)
        self.assertNotIn("?", both.replace("IL ?", ""))

    def answers_after_its_lines(self, player):
        """Lets a player answer each message of the match a few milliseconds after the previous line was written."""
        answer, log, answered = player.answer, self.folder / "open/cup-001/log.jsonl", []

        def lines():
            try:
                return log.read_text().count(f'"player":"{player.name}"')
            except FileNotFoundError:
                return 0

        def later(message):
            while lines() < len(answered):
                time.sleep(0.01)
            time.sleep(0.01)
            answered.extend([message] * (message[0] != "info"))
            return answer(message)

        player.answer = later

    def test_each_message_has_a_time_of_its_own(self):
        self.planned("good", "good", head=HEAD.replace("start = 5\nplay = 5", "start = 60\nplay = 60"))
        self.answers_after_its_lines(self.players[1])
        self.assertEqual(run(self.folder, "play")[0], 0)
        with open(self.folder / "logs/cup-001.jsonl", "rb") as log:
            logged = last_run(log, "cup-001")
        times = [message.moment() for message in messages(logged) if message.role == 1]
        self.assertEqual((len(times), times), (len(self.records()["cup-001"]["moves"]) + 2, sorted(set(times))))
        self.assertTrue(all(logged[0].moment() <= time for time in times), logged)

    def test_nothing_that_a_terminal_obeys_is_printed(self):
        self.planned("good", "good")
        self.assertEqual(run(self.folder, "play")[0], 0)
        journal, log = self.folder / "play.log", self.folder / "logs/cup-001.jsonl"
        journal.write_bytes(journal.read_bytes().replace(b"countdown p0 p1", b"countdown p0 p1\x1b[2J"))
        log.write_bytes(log.read_bytes().replace(b"(PLAY cup-001", b"(PLAY\\u001b[2J cup-001"))
        said = self.why("cup-001")
        self.assertEqual(("\x1b" in said, "(PLAY?[2J cup-001" in said), (False, True))

    def test_a_match_that_was_not_played(self):
        self.planned("good", "good", head=HEAD.replace("info = 5", "info = 4"))
        self.players[0].status = "busy"
        self.players[1].leave()
        self.assertEqual(run(self.folder, "play")[0], 1)
        said = self.why("cup-001")
        self.assertEqual(len(re.findall(rf"(?m)^{MOMENT} info cup-001 p0: busy, \d\.\d s$", said)), 2)
        self.assertEqual(len(re.findall(rf"(?m)^{MOMENT} info cup-001 p1: refused \(no connection\), \d\.\d s$", said)), 2)
        self.assertRegex(said, rf"(?m)^{MOMENT} back cup-001: p0 is busy, p1 is silent$")
        self.assertRegex(said, rf"(?m)^{MOMENT} no record cup-001: p0 is busy, p1 is silent$")
        self.assertEqual(said.splitlines()[-1], "the match has no record that counts")
        self.assertRegex("\n".join(self.journal()), rf"^{MOMENT} play 1 match\n(.*\n)*{MOMENT} missing cup-001: .*\n{MOMENT} 0 of 1 matches have a lawful record$")

    def test_a_player_that_lets_the_seconds_pass_is_silent(self):
        self.planned("good", "good", head=HEAD.replace("info = 5", "info = 1"))
        self.players[1].serve = lambda connection: time.sleep(3_600)
        self.assertEqual(run(self.folder, "play")[0], 1)
        self.assertRegex(self.why("cup-001", "p1"), r"info cup-001 p1: silent, [1-9]\d*\.\d s\n")

    def test_a_play_with_nothing_to_do_adds_nothing_to_the_journal(self):
        self.planned("good", "good")
        self.assertEqual(run(self.folder, "play")[0], 0)
        before = self.journal()
        self.assertEqual(run(self.folder, "play")[0], 0)
        self.assertEqual(self.journal(), before)
        self.assertTrue(all(re.match(rf"{MOMENT} ", line) for line in before))

    def test_an_archive_with_and_without_times(self):
        self.planned("good", "good")
        self.assertEqual(run(self.folder, "play")[0], 0)
        self.assertEqual([run(self.folder, *words)[0] for words in (("publish",), ("check", "cup.tar.gz"))], [0, 0])
        shutil.unpack_archive(self.folder / "cup.tar.gz", self.folder / "there")
        told = self.why("cup-001")
        self.assertEqual(run(self.folder, "why", "there/cup", "cup-001"), (0, told, ""))
        # A log without times, because the referee could not read the clock, and a directory without a journal.
        (self.folder / "play.log").unlink()
        log = self.folder / "logs/cup-001.jsonl"
        log.write_text(re.sub('"time":[0-9]+', '"time":null', log.read_text()))
        self.assertEqual([run(self.folder, *words)[0] for words in (("publish",), ("check", "cup.tar.gz"))], [0, 0])
        self.assertRegex(self.why("cup-001"), r"(?m)^\(no time\) turn 1: PLAY was answered ")

    def test_what_is_no_match_and_who_is_no_player(self):
        self.planned("good", "good")
        self.assertEqual(run(self.folder, "why", ".", "cup-9")[::2], (2, "ggp_competition: cup-9 is not a match of schedule.tsv\n"))
        self.assertEqual(run(self.folder, "why", ".", "cup-001", "p9")[::2], (2, "ggp_competition: p9 is not a player of cup-001: p0, p1\n"))

    def test_moves_with_the_names_of_errors(self):
        plan = plan_in(str(self.folder), ["ann", "bob"], head="start = 20\nplay = 30\n")
        match = plan.matches[0]
        answers = [("TO", "noop"), ("lost", "CE"), (SILENT, Missed("CE (no connection)")), ("IL", str(SILENT))]
        log = "".join(line(match, role, number, f"(PLAY {match.id} NIL)", answer) for number, pair in enumerate(answers, 2) for role, answer in enumerate(pair))
        # A role that the game does not have is left out.
        log += line(replace(match, players=(*match.players, "eve")), 2, 1, f"(START {match.id})", "ready")
        log = line(match, 0, 1, f"(START {match.id})", SILENT) + log + line(match, 1, 6, f"(STOP {match.id} NIL)", SILENT)
        errors = [["", ""], ["", ""], ["TO", "CE"], ["", "IL ?"]]
        record = record_of(match, [["to", "noop"], ["lost", "ce"], ["noop", "noop"], ["il", "noop"]], errors, [0, 100])
        before = line(match, 0, 1, f"(START {match.id})", "ready") + line(match, 0, 2, f"(PLAY {match.id} NIL)", "before")
        end(plan, match, record | {"startMarks": ["TO", ""], "endMarks": ["", "TO"]}, before + log)
        # Because there is a record, a log that an interrupted `play` has left does not count.
        left = plan.folder.open_log(match.id)
        left.parent.mkdir(parents=True)
        left.write_text(log.replace("lost", "left"))
        said = "\n".join(Explanation(plan, match).lines(["ann", "bob"]))
        self.assertIn("; 20 s for START, 30 s for each other message\n", said)
        # The moves that were played follow from the last run.
        self.assertIn("turn 1: PLAY was answered `before` after 5 ms. Message 2: (PLAY", said)
        for words in ("turn 1: PLAY was answered `TO` after", "turn 2: PLAY was answered `lost` after", "turn 2: PLAY was answered `CE` after"):
            self.assertIn(words, said)
        for message, seconds in (("START", 20), ("turn 3: PLAY", 30), ("STOP", 30)):
            self.assertIn(f"{message} failed with {SILENT} after 5 ms; TO: no complete answer within {seconds} s", said)
        self.assertIn("turn 3: PLAY failed with CE (no connection) after", said)
        # If a player sends exactly this text, it counts as an answer.
        text = "IL ?: the answer is not one expression, or too long: a second expression begins at column 4; its first legal move was played"
        self.assertIn(f"turn 4: PLAY was answered `{SILENT}` after 5 ms; {text}", said)

    def test_where_a_move_would_be_legal(self):
        explained = self.explained({"states": [["(heap 2)", "(turn red)"], ["(heap 1)", "(turn blue)"]]})
        self.assertEqual([explained.roles, explained.illegal.legal(0, 0), explained.illegal.legal(1, 0)], [("red", "blue"), ["(take 1)", "(take 2)"], ["noop"]])
        self.assertEqual(explained.illegal_text(0, 0, "IL noop", "noop"), "; the 2 legal moves were (take 1), (take 2); it is legal for blue")
        self.assertEqual(explained.illegal_text(0, 1, "IL (take 2)", "(take 2)"), "; the only legal move was noop; it was legal in the turn before")
        self.assertEqual(explained.illegal_text(0, 0, "IL (take 3)", "(take 3)"), "; the 2 legal moves were (take 1), (take 2)")
        self.assertEqual([explained.illegal_text(0, 0, error, "") for error in ("TO", "CE", "RT")], ["", "", ""])
        for states in ([], [["(heap 2"]], [[]]):
            self.assertEqual(self.explained({"states": states}).illegal_text(0, 0, "IL noop", "noop"), "")

    def test_turns_in_a_row_without_a_move_of_its_own(self):
        errors = [["TO", ""], ["", ""], ["TO", ""], ["TO", ""], ["RT", ""], ["RT", ""]]
        explained = self.explained({"states": [["(heap 3)"]] * 7, "moves": [["noop", "noop"]] * 6, "errors": errors, "strikes": 2, "goalValues": [], "cause": "asked"})
        said = [re.findall(r"turn \d in a row|so it is retired", explained.turn_text(0, turn, "")) for turn in range(5)]
        self.assertEqual(said, [[], [], [], ["turn 2 in a row", "so it is retired"], ["turn 3 in a row"]])
        explained.result = types.SimpleNamespace(forfeits=dict)
        retired = "turns 5 to 6: RT: not asked, since it is retired; its first legal moves were played"
        self.assertEqual(explained.outcome(0), [retired, "no goal, since the match was given up: asked; 5 of 6 moves replaced"])
        self.assertEqual(explained.turn_text(0, 6, "noop"), "the match was given up before that turn was played")
        self.assertEqual(self.explained(withdrawn="bob has withdrawn").outcome(0), ["the match is not played: bob has withdrawn"])

    def test_a_player_with_the_name_of_a_match(self):
        lines = [
            "info cup-001 cup-001: available, 0.0 s", "info cup-002 cup-001: available, 0.0 s", "begin cup-002 heap bob cup-001",
            "begin cup-001 heap cup-001 bob", "end cup-002 heap bob 100, cup-001 0, 3.1 s", "no answer to abort cup-001: h:1",
            "stopped heap, because cup-001 does not follow its description; 3 waiting matches of this game will not begin",
            "round 1 of 2: cup-001 to cup-002", "missing 20 matches between cup-001 and cup-020: broken off",
            # In a competition that has grown, the id of a match may begin with the id of another one.
            "begin cup-0010 heap cup-001 bob", "stopped heap, because cup-0010 does not follow its description", "round 10 of 12: cup-001 to cup-002",
        ]
        (self.folder / "play.log").write_text("".join(f"2026-01-01T00:00:00.000Z {line}\n" for line in lines))
        notes = list(self.explained(names=("cup-001", "bob")).notes())
        self.assertEqual([note.text for note in notes], [lines[at] for at in (0, 3, 5, 6)])
        self.assertEqual([note.role for note in notes], [0, None, None, None])
        self.assertEqual([note.text for note in self.explained(names=("cup-001", "bob"), round=1).notes()], [lines[at] for at in (0, 3, 5, 6, 7)])

    def said_of(self, notes: str, log: str, *players: str) -> str:
        """Returns the report about players from a journal and a log. In `notes`, `MATCH` stands for the id of the match."""
        plan = plan_in(str(self.folder), ["ann", "bob"])
        match = plan.matches[0]
        plan.folder.journal.write_text(notes.replace("MATCH", match.id))
        plan.folder.log(match.id).write_text(log)
        return "\n".join(Explanation(plan, match).lines(players or ["ann"]))

    def message(self, number: int, answer: str, time: int | None) -> str:
        """Returns the line of a message that was sent this many seconds after the match began."""
        match = plan_in(str(self.folder), ["ann", "bob"]).matches[0]
        return line(match, 0, number, f"({'START' if number == 1 else 'PLAY'} {match.id} NIL)", answer, 0, None if time is None else BEGAN + 1_000 * time)

    def test_a_clock_that_is_set_back(self):
        log = "".join(self.message(number, "noop", time) for number, time in ((1, 1), (2, 2), (3, -3_600), (4, -3_599)))
        for begun in (1, 2):
            with self.subTest(begun):
                notes = ["03:04:05.001Z begin", *["03:04:05.001Z begin"] * (begun - 1), "02:05:06.000Z end"]
                said = self.said_of("".join(f"2026-01-02T{time} {kind} MATCH heap\n" for time, kind in (note.split() for note in notes)), log)
                found = re.findall(r"begin|START was|turn \d|the clock was set back|end ", said)
                self.assertEqual(found, [*["begin"] * begun, "START was", "turn 1", "the clock was set back", "turn 2", "turn 3", "end "])

    def test_a_clock_that_is_set_back_while_no_line_has_a_time(self):
        said = self.said_of("2026-01-02T10:00:00.000Z begin MATCH heap\n2026-01-02T09:00:05.000Z end MATCH heap\n", self.message(1, "ready", None))
        words = "begin ", "(no time) START was", "the clock was set back: it was 2026-01-02T10:00:00.000Z before", "end "
        self.assertEqual(re.findall("|".join(map(re.escape, words)), said), list(words))

    def test_each_beginning_in_the_log_is_told_however_many_were_noted(self):
        match, began = plan_in(str(self.folder), ["ann", "bob"]).matches[0], "2026-01-02T03:04:05.000Z"
        log = "".join(opened(match, BEGAN) + self.message(1, answer, at) for at, answer in enumerate(("one", "two", "three")))
        for count, wanted in enumerate((
            "one two three", "begin one two three", "begin one two begin three", "begin one begin two begin three", "begin begin one begin two begin three",
        )):
            said = self.said_of("".join(f"{began} {word} MATCH heap\n" for word in ("info", *["begin"] * count, "end")), log)
            self.assertEqual(re.findall(r"info|begin|(?<=answered `)\w+|end ", said), ["info", *wanted.split(), "end "] if count else ["info", "end ", *wanted.split()], count)

    def test_rows_are_in_the_order_of_their_times(self):
        match = plan_in(str(self.folder), ["ann", "bob"]).matches[0]
        # In turn 1 bob answers before ann, and ann dies between turns 1 and 2. The clock of the match's node differs from that of `play`.
        rows = ((0, 1, "START", 0), (1, 1, "START", 0), (0, 2, "PLAY", 2), (1, 2, "PLAY", 1), (0, 3, "PLAY", 5))
        log = "".join(line(match, role, number, f"({kind} {match.id} NIL)", "noop", 0, BEGAN + 1_000 * time) for role, number, kind, time in rows)
        notes = "".join(f"2026-01-02T03:04:{second:02}.500Z {row}\n" for second, row in ((5, "begin MATCH heap"), (8, "died MATCH ann: it ended"), (9, "end MATCH heap")))
        said = self.said_of(notes, log, "ann", "bob")
        found = re.findall(r"begin|START was|turn \d|the clock was set back|died|end ", said)
        self.assertEqual(found, ["begin", "START was", "turn 1", "died", "turn 2", "end ", "begin", "START was", "turn 1", "end "])

    def test_an_answer_is_told_whole_but_not_without_end(self):
        log = self.message(1, "x" * 900, 1) + self.message(2, "y" * 60_000, 2)
        self.assertEqual([len(found) for found in re.findall("(?<=answered `)[xy.]+", self.said_of("", log))], [900, 1_002])
