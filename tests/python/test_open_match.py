"""A match from INFO to its files. The processes are fake, and nothing waits."""

import asyncio
import dataclasses
import json
import os
import pathlib
import tempfile
import types
import unittest
from unittest import mock

from ggp_tools.competition import checking, open_match
from ggp_tools.competition.children import Done
from ggp_tools.competition.competition_file import Launcher
from ggp_tools.competition.files import Folder
from ggp_tools.competition.jobs import Lost
from ggp_tools.competition.open_match import OpenMatch, leave_players
from ggp_tools.competition.slots import Slots
from ggp_tools.competition.started_players import StartedPlayers
from ggp_tools.referee import Referee, Unchecked
from live_support import plan_in, record_of
from support import Reports


def info_of(verdict, status=0, text="", **more):
    """Returns the result of an `info` process that prints this verdict."""
    return status, json.dumps({"player": "x", "verdict": verdict} | more).encode() + b"\n", text


NO_ANSWER = info_of("no_answer", 1, "ggp_manager: no answer")
READY = info_of("available")
OPENED = '{"event":"open","match":"cup-001","time":1}\n'


class Judge(Referee):
    """A fake referee whose verdicts the test sets: a text, whether the record was reproduced, or an error."""

    verdict, is_replayed = "lawful", True

    def verdicts(self, rules, records):
        if isinstance(self.verdict, Exception):
            raise self.verdict
        self.verified = rules, list(records)
        return [self.verdict]

    def replays(self, rules, accounts, records):
        if isinstance(self.is_replayed, Exception):
            raise self.is_replayed
        self.replayed = rules, list(accounts), list(records)
        return [self.is_replayed] * len(accounts)


class WithMatch(unittest.TestCase):
    HEAD = "strikes = 0\ntries = 2\nwait = 7\n"

    def setUp(self):
        self.folder = pathlib.Path(self.enterContext(tempfile.TemporaryDirectory()))
        # The result of each process: exit status, output, message and, optionally, the seconds that the process takes.
        self.laid_down = {"ann@h:1": READY, "bob@h:2": READY}
        self.meanwhile = lambda name: None
        self.enterContext(mock.patch.object(open_match, "run", self.run_process))
        self.description, self.held, self.described = (None, None), "the same: 2 turns", []
        self.enterContext(mock.patch.object(checking, "description_of", lambda plan, game: self.described.append((plan, game.name)) or self.description))
        self.enterContext(mock.patch.object(checking, "comparisons", self.hold))
        self.begin(self.HEAD)

    async def run_process(self, words, seconds=None):
        name = "played" if words[1] == "run" else words[-1]
        self.begun.append((name, words, seconds))
        status, output, text, *more = self.laid_down[name]
        for log in [word.removeprefix("--log=") for word in words if word.startswith("--log=/")]:
            pathlib.Path(log).write_text("".join(line for line in text.splitlines(keepends=True) if line.startswith("{")))
        self.meanwhile(name)
        await asyncio.sleep(0)
        if isinstance(status, type):
            raise status
        return Done(status, output, text.encode(), more[0] if more else 0.0)

    def hold(self, path, records):
        if isinstance(self.held, Exception):
            raise self.held
        self.held_with = path.read_bytes(), records
        return [self.held]

    def begin(self, head):
        self.plan = plan_in(str(self.folder), ["ann", "bob"], head=head)
        folder, competition = self.plan.folder, self.plan.competition
        folder.make(folder.accounts, folder.rules)
        self.match, self.reporter, self.slots, self.referee = self.plan.matches[0], Reports(), Slots(competition), Judge("program")
        self.may_begin, self.left, self.begun = True, [], []
        players, news = StartedPlayers(folder, competition, None, self.reporter), types.SimpleNamespace(set=lambda: self.left.append(self.open.stage))
        playing = types.SimpleNamespace(
            plan=self.plan, referee=self.referee, slots=self.slots, reporter=self.reporter, launcher=None, players=players, may_begin=lambda match: self.may_begin, news=news,
            checking=checking.Checking(self.plan, self.referee), disk=None,
        )
        self.slots.take(self.match)
        self.open = OpenMatch(playing, self.match)
        self.record = json.dumps(record_of(self.match, [["(take 2)", "noop"], ["noop", "(take 1)"]], [["", ""], ["", ""]], [0, 100])).encode() + b"\n"
        self.account = f"0\topen {self.match.id} 0 10 10\topened\n".encode()
        self.laid_down["played"] = (0, self.record + self.account, OPENED)

    def go(self):
        """Runs the match until it is over, and releases its resources as `play` does."""
        try:
            asyncio.run(self.open.go())
        finally:
            self.open.release_players()

    def names(self):
        return [name for name, _, _ in self.begun]

    def files(self):
        folder = self.plan.folder
        return sorted(str(file.relative_to(folder.path)) for kind in (folder.records, folder.accounts, folder.logs) for file in kind.iterdir())

    def words_of(self, name):
        return next(words for found, words, _ in self.begun if found == name)


class Whole(WithMatch):
    def test_from_info_to_its_files(self):
        self.plan.folder.open.rmdir()
        seen = {}
        self.meanwhile = lambda name: seen.update({name: (self.open.stage, sorted(file.name for file in self.open.directory.iterdir()), self.slots.free["ann"])})
        self.go()
        asking, playing = ("asking", ["asking", "log.jsonl"], 0), ("playing", ["asking", "log.jsonl", "players", "playing"], 0)
        self.assertEqual(seen, {"ann@h:1": asking, "bob@h:2": asking, "played": playing})
        self.assertEqual(self.words_of("bob@h:2"), ["program", "info", "--json", "--", "bob@h:2"])
        rules = self.plan.folder.rules_of("heap")
        self.assertEqual(self.words_of("played"), [
            "program", "run", f"--rules-file={rules.absolute()}", f"--id={self.match.id}", "--start=10", "--play=10", "--strikes=0", "--history", f"--log={self.open.directory.absolute()}/log.jsonl", "--", "ann@h:1", "bob@h:2",
        ])
        self.assertEqual((self.referee.verified, self.referee.replayed), ((rules, [self.record]), (rules, [self.account], [self.record])))
        folder = self.plan.folder
        self.assertEqual([folder.record(self.match.id).read_bytes(), folder.account(self.match.id).read_bytes(), folder.log(self.match.id).read_bytes()], [
            self.record, self.account, OPENED.encode(),
        ])
        self.assertEqual((self.open.result.goals, self.open.why, self.open.is_broken, self.open.stops_game, self.open.directory.exists()), ((0, 100), None, False, False, False))
        self.assertEqual((self.slots.free, self.left, self.reporter.begun, self.reporter.lines), ({"ann": 1, "bob": 1}, ["playing"], [(self.match.id, None)], []))
        self.assertEqual(self.reporter.notes, [f"info {self.match.id} ann: available, 0.0 s", f"info {self.match.id} bob: available, 0.0 s"])

    def test_the_seconds_of_a_match_are_those_of_its_play(self):
        self.laid_down["played"] = (*self.laid_down["played"], 6)
        self.go()
        self.assertEqual(self.open.seconds, 6)

    def test_players_get_their_rules(self):
        self.plan.rules["heap"] = dataclasses.replace(self.plan.rules["heap"], player_rules=b"(role a)")
        self.go()
        self.assertIn(f"--player-rules={self.plan.folder.player_rules_of('heap').absolute()}", self.words_of("played"))
        # On a host, the file is read from another directory.
        self.begin(self.HEAD)
        self.plan.rules["heap"] = dataclasses.replace(self.plan.rules["heap"], player_rules=b"(role a)")
        self.plan.folder = Folder(os.path.relpath(self.folder))
        self.go()
        self.assertEqual([word[:16] for word in self.words_of("played") if word.startswith("--player-rules=")], ["--player-rules=/"])

    def test_a_match_that_the_referee_did_not_end(self):
        self.laid_down["played"] = (3, b"", "a line\nggp_manager: want of memory\n")
        self.go()
        self.assertEqual((self.open.result, self.open.why, self.open.is_broken), (None, "ggp_manager: want of memory", True))
        self.assertEqual((self.files(), self.slots.free, self.names()[-1]), ([], {"ann": 1, "bob": 1}, "played"))
        # The match's directory stays, because the players have not been freed yet.
        self.assertTrue((self.open.directory / "players").exists())

    def test_if_the_referee_was_killed_the_started_players_are_named(self):
        for status, started, why in ((-9, ["bob"], "it was killed by signal 9 (SIGKILL), without a message; these started players were running: bob"), (-9, [], "it was killed by signal 9 (SIGKILL), without a message"), (3, ["bob"], "it ended with status 3, without a message")):
            self.begin(self.HEAD)
            self.laid_down["played"] = (status, b"", "")
            with mock.patch.object(self.open.players, "of", lambda names: [types.SimpleNamespace(name=name, matches=set()) for name in started]), mock.patch.object(self.open.players, "ready", mock.AsyncMock()):
                self.go()
            self.assertEqual(self.open.why, why)

    def test_a_match_that_is_ended_is_broken_if_it_is_at_play(self):
        for name, is_broken in (("ann@h:1", False), ("played", True), ("checked", False)):
            for error in (asyncio.CancelledError, OSError):
                self.begin(self.HEAD)
                self.laid_down |= {"ann@h:1": READY, **({} if name == "checked" else {name: (error, b"", "")})}
                with mock.patch.object(checking, "keep_if_right", side_effect=error), self.assertRaises(BaseException) as raised:
                    self.go()
                errors = getattr(raised.exception, "exceptions", [raised.exception])
                self.assertEqual(([type(found) for found in errors], self.open.is_broken, self.open.directory.exists(), self.slots.free), ([error], is_broken, is_broken, {"ann": 1, "bob": 1}))

    def test_a_match_that_may_not_begin_any_more(self):
        self.may_begin = False
        self.go()
        self.assertEqual((self.open.result, self.open.why, self.names(), self.slots.free, self.open.directory.exists()), (None, None, ["ann@h:1", "bob@h:2"], {"ann": 1, "bob": 1}, False))

    def test_a_directory_that_names_players_of_a_play_before_is_kept_until_it_begins_again(self):
        self.open.directory.mkdir(parents=True)
        (self.open.directory / "players").write_text("ann@h:1\n")
        (self.open.directory / "more").touch()
        self.may_begin = False
        self.go()
        self.assertEqual([file.name for file in self.open.directory.iterdir()], ["players"])

    def test_of_a_directory_only_the_players_are_left(self):
        room = self.folder / "room"
        leave_players(room)
        room.mkdir()
        for name in ("players", "playing", "log.jsonl"):
            (room / name).touch()
        leave_players(room)
        self.assertEqual([file.name for file in room.iterdir()], ["players"])


class Asking(WithMatch):
    def asked(self, *answers, head=None):
        """Plays a match where both players give these answers. Returns whether it was played, the reason if it was not, and the
        reports."""
        if head:
            self.begin(head)
        self.laid_down |= dict(zip(("ann@h:1", "bob@h:2"), answers))
        self.go()
        return "played" in self.names(), self.open.why, self.reporter.lines

    def test_who_is_there(self):
        for said in ("available", "ready", "unknown"):
            self.begin(self.HEAD)
            self.assertEqual(self.asked(info_of(said), READY), (True, None, []))

    def test_who_is_busy_is_asked_again_and_then_no_more(self):
        self.assertEqual(self.asked(info_of("busy"), READY), (False, None, [f"back {self.match.id}: ann is busy"]))
        self.assertEqual((self.slots.failed, self.slots.rests_until["ann"] > 0, self.open.result), ({"ann": 1, "bob": 0}, True, None))
        self.assertEqual(self.asked(info_of("busy"), NO_ANSWER, head="tries = 1\n"), (False, "ann is busy, bob is silent", []))
        self.begin("tries = 3\n")
        self.slots.failed["ann"] = 2
        self.assertEqual(self.asked(info_of("busy"), NO_ANSWER), (False, "ann is busy", []))
        self.begin("tries = 3\n")
        self.assertEqual(self.asked(NO_ANSWER, info_of("busy")), (False, None, [f"back {self.match.id}: ann is silent, bob is busy"]))

    def test_a_player_that_is_not_started_again_is_not_asked_again(self):
        self.players_over("bob")
        self.assertEqual(self.asked(READY, NO_ANSWER), (False, "bob is silent", []))
        self.assertEqual(self.slots.failed, {"ann": 0, "bob": 0})
        self.begin(f'{self.HEAD}absent = "play"\n')
        self.players_over("bob")
        self.assertEqual(self.asked(READY, NO_ANSWER), (True, None, [f"silent {self.match.id}: bob did not answer INFO; the match is played anyway"]))

    def players_over(self, *names):
        self.open.players.is_over = lambda name: name in names

    def test_who_is_there_begins_anew(self):
        self.slots.failed.update(ann=1, bob=1)
        self.asked(READY, NO_ANSWER)
        self.assertEqual((self.slots.failed, self.open.why), ({"ann": 0, "bob": 2}, "bob is silent"))
        # The same happens if no player is missing, and if the match is played without the missing players.
        for bob, failed in ((READY, 0), (NO_ANSWER, 2)):
            self.begin('tries = 2\nabsent = "play"\n')
            self.slots.failed.update(ann=1, bob=1)
            self.assertEqual(self.asked(READY, bob)[0], True)
            self.assertEqual(self.slots.failed, {"ann": 0, "bob": failed})

    def test_without_who_is_absent_it_is_played_where_that_is_wanted(self):
        head = 'tries = 1\nabsent = "play"\n'
        self.assertEqual(self.asked(READY, NO_ANSWER, head=head), (True, None, [f"silent {self.match.id}: bob did not answer INFO; the match is played anyway"]))
        # A busy player is not missing.
        self.assertEqual(self.asked(info_of("busy"), NO_ANSWER, head=head), (False, "ann is busy", []))
        self.assertEqual(self.asked(READY, NO_ANSWER, head='tries = 2\nabsent = "play"\n'), (False, None, [f"back {self.match.id}: bob is silent"]))

    def test_a_fault_of_this_computer_is_none_of_a_player(self):
        self.assertEqual(self.asked((3, b"", "x\nggp_manager: want of memory"), NO_ANSWER), (False, "ann could not be asked: ggp_manager: want of memory", []))
        self.assertEqual(self.slots.failed, {"ann": 0, "bob": 0})
        self.begin(self.HEAD)
        self.assertEqual(self.asked(NO_ANSWER, (2, b"", "ggp_manager: other")), (False, "bob could not be asked: ggp_manager: other", []))

    def test_how_long_an_answer_is_waited_for(self):
        # The referee ends INFO by itself, and has one more second to report this.
        for info, seconds in ((4, 4), (9, 9), (10, 11)):
            self.assertEqual(self.asked((None, b"", "", seconds), READY, head=f"info = {info}\ntries = 1\n"), (False, "ann is silent", []))
            self.assertEqual({given for _, _, given in self.begun}, {seconds})
            self.assertEqual(sorted(self.reporter.notes), [f"info {self.match.id} ann: silent, {seconds}.0 s", f"info {self.match.id} bob: available, 0.0 s"])

    def test_what_came_of_an_info(self):
        no_name, no_network = info_of("not_sent", 2, lacks="resolver"), info_of("not_sent", 2, "a\nb", lacks="network")
        forbidden = info_of("no_answer", 1, "ggp_manager: ann: the status is 403, not 200\nggp_manager: no answer")
        for answer, seconds, words in (
            (NO_ANSWER, 0, "refused, 0.0 s"), (NO_ANSWER, 9.96, "refused, 10.0 s"), (NO_ANSWER, 10, "silent, 10.0 s"), (NO_ANSWER, 11, "silent, 11.0 s"),
            (READY, 1, "available, 1.0 s"), (no_network, 1.25, "b, 1.2 s"), ((None, b"", ""), 3, "silent, 3.0 s"), (no_name, 0, "its host name is unknown, 0.0 s"),
            (forbidden, 0, "refused (the status is 403, not 200), 0.0 s"),
        ):
            self.begin(self.HEAD)
            self.asked((*answer, seconds), READY)
            self.assertEqual(self.reporter.notes[0], f"info {self.match.id} ann: {words}")


class Checking(WithMatch):
    def checked(self, played=b"", **verdicts):
        """Plays a match with these verdicts. Returns the reason why it does not count, and its files."""
        if played:
            self.laid_down["played"] = (0, played, OPENED)
        for name, verdict in verdicts.items():
            setattr(self.referee, name, verdict)
        self.go()
        self.assertEqual(self.open.result is None, self.open.why is not None)
        self.assertFalse(self.open.is_broken or self.open.directory.exists())
        return self.open.why, self.files()

    def assert_whole(self):
        """Checks the contents of each file."""
        for name in self.files():
            data = (self.plan.folder.path / name).read_bytes()
            self.assertEqual(data, {"r": self.record, "a": self.account, "l": OPENED.encode()}[name[0]], name)

    def kept(self, ending=""):
        return [f"accounts/cup-001.txt{ending}", f"logs/cup-001.jsonl{ending}", f"records/cup-001.json{ending}"]

    def test_what_does_not_count(self):
        self.assertEqual(self.checked(verdict="not lawful: goals"), ("not lawful: goals", []))
        self.begin(self.HEAD)
        self.assertEqual(self.checked(is_replayed=False), ("its call log does not reproduce its record", []))

    def test_where_there_is_no_verdict_the_files_are_kept_aside(self):
        short = Unchecked("`ggp_manager verify` gave no verdict: want of memory")
        for number, name in enumerate(("verdict", "is_replayed"), 1):
            self.begin(self.HEAD)
            ending = ".unchecked" + f".{number}" * (number > 1)
            why, files = self.checked(**{name: short})
            self.assertEqual(why, f"it was played, but not checked, and is kept as {self.plan.folder.records}/cup-001.json{ending}: {short}")
            self.assertTrue(set(self.kept(ending)) <= set(files))
            self.assert_whole()

    def test_files_that_are_not_of_this_match(self):
        other = self.record.replace(b'"matchId": "cup-001"', b'"matchId": "cup-009"')
        self.assertEqual(self.checked(other + self.account), ("its matchId is 'cup-009', but the schedule has 'cup-001'", []))
        self.begin(self.HEAD)
        other = self.account.replace(b"cup-001", b"cup-002")
        self.assertEqual(self.checked(self.record + self.account + other), ("line 2 of its call log belongs to another match: 0 open cup-002 0 10 10 opened", []))

    def log(self):
        return self.plan.folder.log("cup-001").read_text().removeprefix(OPENED)

    def test_held_against_its_description(self):
        self.description = b"(p ?x)", None
        games = self.plan.competition.games
        self.plan.competition = dataclasses.replace(self.plan.competition, games=(dataclasses.replace(games[0], name="other"), *games))
        self.checked()
        self.assertEqual(self.log(), '{"event":"held","match":"cup-001","reason":null}\n')
        self.assertEqual((self.held_with, self.described), ((b"(p ?x)", [self.record]), [(self.plan, "heap")]))
        for held, words in (("not followed: its time was over", "its time was over"), (Unchecked("it ended with status -9"), "it ended with status -9")):
            self.begin(self.HEAD)
            self.held = held
            self.checked()
            self.assertEqual(self.log(), f'{{"event":"held","match":"cup-001","reason":"{words}"}}\n')
            self.assertIsNotNone(self.open.result)

    def test_without_a_description_the_log_says_why(self):
        self.description = None, "f\u0100 can't be read: x"
        self.checked()
        self.assertEqual(self.log(), '{"event":"held","match":"cup-001","reason":"f? can\'t be read: x"}\n')
        self.description = None, None
        self.begin(self.HEAD)
        self.checked()
        self.assertEqual(self.log(), "")

    def test_one_that_is_none_of_its_description_stops_the_game(self):
        self.description, self.held = (b"(p ?x)", None), "differs: turn 1"
        reports = []

        def report(plan, match, files):
            reports.append((match.id, files))
            return "report-cup-001.tar.gz"

        with mock.patch.object(checking, "write_report", report):
            why, files = self.checked()
        self.assertEqual(why, f"compared with the description of heap, it differs: turn 1; it is kept as {self.plan.folder.records}/cup-001.json.differs; please report this, and include report-cup-001.tar.gz")
        self.assertEqual((files, self.open.stops_game), (self.kept(".differs"), True))
        self.assert_whole()
        self.assertEqual(reports, [("cup-001", {"description.kif": b"(p ?x)", "record.json": self.record, "account.txt": self.account, "words.txt": b"differs: turn 1\n"})])
        # An unlawful record may break any rules, so it does not show that the ground rules are wrong.
        self.begin(self.HEAD)
        self.checked(verdict="not lawful: goals")
        self.assertFalse(self.open.stops_game)


class Jobs(WithMatch):
    """Reports of a match from a job on a node."""

    def setUp(self):
        super().setUp()
        self.open.directory.mkdir(parents=True)
        self.open.playing.launcher = Launcher(("x",), 1)
        self.job = open_match.MatchJob(self.open)

    def test_events_go_to_the_log_and_other_lines_do_not(self):
        for line in (b"motd", OPENED.strip().encode(), b"srun: error: x"):
            self.job.take_line(line)
        self.assertEqual((self.open.log.read_text(), self.job.errors), (OPENED, b"motd\nsrun: error: x\n"))

    def test_a_job_that_sends_more_than_a_referee_can_write_is_given_up(self):
        self.job.left = 5
        asyncio.run(self.job.take_output(b"1234"))
        self.job.take_line(b"")
        words = r"^it sent more than [0-9,]{11,} bytes, which is more than any match needs$"
        with self.assertRaisesRegex(Lost, words):
            asyncio.run(self.job.take_output(b"5"))
        with self.assertRaisesRegex(Lost, words):
            self.job.take_line(b"")
        self.job.output.seek(0)
        self.assertEqual(self.job.output.read(), b"1234")
