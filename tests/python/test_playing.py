"""How `play` handles many matches: which matches begin, what happens when they end, and the files before and after. The matches are fake,
and follow the instructions of the test."""

import asyncio
import collections
import dataclasses
import errno
import pathlib
import random
import resource
import signal
import tempfile
import threading
import unittest
from unittest import mock

from ggp_tools.competition import playing
from ggp_tools.competition.command import missing_rows
from ggp_tools.competition.competition_file import Launcher, read_competition
from ggp_tools.competition.files import Refused
from ggp_tools.competition.playing import Playing, open_directories, seconds_left
from ggp_tools.competition.slots import Slots
from live_support import plan_in
from planning import planned
from support import Reports, raised, toml


class Standing:
    """A fake match. It follows the test's steps for its id: each step is a stage or a call. There is one list of steps, or one for each run of the
    match."""

    laid_down: dict = {}
    begun: list = []

    def __init__(self, playing, match):
        self.playing, self.match = playing, match
        self.stage, self.places, self.seconds, self.taken_at = "asking", [f"{player}@h" for player in match.players], 1.5, 0.0
        self.result, self.why = None, None
        self.is_broken, self.stops_game, self.has_slots, self.goes_on, self.is_ended = False, False, True, False, False
        Standing.begun.append(self)

    async def go(self):
        try:
            for step in Standing.laid_down.get(self.match.id, [won]):
                step(self) if callable(step) else setattr(self, "stage", step)
                await asyncio.sleep(0)
        except BaseException:
            self.is_broken, self.is_ended = self.stage == "playing", True
            raise

    def release_players(self):
        if self.has_slots:
            self.has_slots = False
            self.playing.slots.give_back(self.match)
            self.playing.news.set()


def over(**more):
    """Returns a step that ends a match with these attributes."""

    def step(match):
        for name, value in more.items():
            setattr(match, name, value)

    return step


def won(match):
    match.result = f"result of {match.match.id}"


class WithMatches(unittest.TestCase):
    NAMES = ["ann", "bob", "cid", "dan"]

    def setUp(self):
        self.folder = pathlib.Path(self.enterContext(tempfile.TemporaryDirectory()))
        Standing.laid_down, Standing.begun = {}, []
        self.enterContext(mock.patch.object(playing, "OpenMatch", Standing))
        self.aborted, self.silent = [], {}
        self.enterContext(mock.patch.object(playing, "send_aborts", self.send_aborts))
        self.begin()

    async def send_aborts(self, referee, places, seconds=None):
        self.aborted.append((dict(places), seconds))
        return {match: self.silent[match] for match in places if match in self.silent}

    def begin(self, head="", launcher=None, at_once=99):
        self.plan = plan_in(str(self.folder), self.NAMES, head=head)
        self.plan.competition = dataclasses.replace(self.plan.competition, launcher=launcher)
        self.reporter = Reports()
        self.playing = Playing(self.plan, "referee", self.reporter, at_once)

    def go(self, **laid_down):
        """Plays all matches, each according to the instructions for its id."""
        Standing.laid_down |= {match.replace("_", "-"): steps for match, steps in laid_down.items()}
        self.playing.waiting.extend(self.plan.matches)
        asyncio.run(self.playing.go())

    def begun(self):
        return [match.match.id for match in Standing.begun]

    def interrupt(self, count):
        return lambda match: self.playing.interrupt(count)


class Going(WithMatches):
    def test_each_match_is_played_once_and_never_two_of_a_player_at_a_time(self):
        most, ids = [], {match.id for match in self.plan.matches}

        def look(match):
            most.append(max(collections.Counter(player for standing in Standing.begun if standing.has_slots for player in standing.match.players).values()))

        Standing.laid_down = {match: [look, "playing", look, won] for match in ids}
        self.go()
        self.assertEqual((collections.Counter(self.begun()), set(self.playing.results), max(most)), (collections.Counter(ids), ids, 1))
        self.assertEqual((self.playing.results["cup-001"], self.playing.open, list(self.playing.waiting), self.playing.left), ("result of cup-001", {}, [], {}))
        self.assertEqual(sorted(self.reporter.ended), sorted((f"result of {match}", 1.5) for match in ids))
        self.assertEqual((self.reporter.shown[0], self.reporter.drawn[-1], self.aborted), ((0, 2, 10, None), "", []))

    def test_only_so_many_are_at_play_at_a_time_and_those_that_are_checked_hold_nobody_up(self):
        self.begin(at_once=1)
        counts, checked = [], []

        def look(match):
            counts.append(sum(standing.has_slots for standing in Standing.begun))
            checked.append(len(self.playing.open))

        def check(match):
            match.stage = "checking"
            match.release_players()

        Standing.laid_down = {match.id: [look, "playing", look, check, *["checking"] * 9, won] for match in self.plan.matches}
        self.go()
        self.assertEqual((max(counts), max(checked) > 1, len(self.playing.results)), (1, True, 12))

    def test_the_results_are_passed_on_in_a_thread_and_its_error_is_reported(self):
        watched, again = [], threading.Event()

        def watch(results):
            watched.append((len(results), threading.current_thread() is threading.main_thread()))
            again.set()
            return "pages are not written" if len(watched) == 1 else None

        self.begin(at_once=1)
        self.playing.watch = watch
        # The last match ends after the results of the other matches have been passed on.
        self.go(cup_012=["playing", lambda match: again.wait(600), won])
        self.assertEqual((watched[0][0] > 0, {is_main for _, is_main in watched}, self.reporter.lines), (True, {False}, ["pages are not written"]))

    def test_a_match_without_a_result_is_left_with_the_reason_or_waits_again(self):
        again = iter([over(), won])
        self.go(cup_001=[over(why="ann is silent")], cup_002=[lambda match: next(again)(match)])
        self.assertEqual((self.playing.left, self.begun().count("cup-002"), self.begun().count("cup-001")), ({"cup-001": "ann is silent"}, 2, 1))
        self.assertEqual((self.reporter.lines, len(self.playing.results)), (["no record cup-001: ann is silent"], 11))

    def test_a_player_that_rests_is_waited_for(self):
        self.begin("wait = 1\n")
        again = iter([lambda match: self.playing.slots.count_failure("ann", match.taken_at), won])
        self.plan.matches = self.plan.matches[:1]
        self.playing.slots.failed_at = dict.fromkeys(self.NAMES, -1.0)
        self.go(cup_001=[lambda match: next(again)(match)])
        self.assertEqual((self.begun(), list(self.playing.results)), (["cup-001"] * 2, ["cup-001"]))

    def test_the_players_of_a_match_that_broke_off_are_free_once_they_were_sent_abort(self):
        room = self.plan.folder.open / "cup-001"
        room.mkdir(parents=True)
        (room / "players").touch()
        (room / "played").touch()
        free, send = [], self.send_aborts

        async def send_aborts(*words):
            free.append(self.playing.slots.free["ann"])
            return await send(*words)

        with mock.patch.object(playing, "send_aborts", send_aborts):
            self.go(cup_001=["playing", over(why="ggp_manager: want of memory", is_broken=True)])
        self.assertEqual((self.aborted, room.exists(), free), ([({"cup-001": ["ann@h", "bob@h"]}, None)], False, [0]))
        self.assertEqual(self.reporter.lines, ["abort cup-001: ann@h, bob@h", "no record cup-001: ggp_manager: want of memory"])

    def test_a_game_whose_rules_are_wrong_is_not_played_on(self):
        why = "heap is not played any more, because cup-001 does not follow its description"
        # The second match was already open. In the first case, it also differs, and the message about the game is not repeated. In the
        # second case, it has asked its players, but does not begin.
        for end, left, lines in ((over(why="differs too", stops_game=True), "differs too", ["no record cup-003: differs too"]), (over(), why, [])):
            self.begin()
            games, once = self.plan.competition.games, iter([end])
            self.plan.competition = dataclasses.replace(self.plan.competition, games=(*games, dataclasses.replace(games[0], name="other")))
            self.plan.matches[6:] = [dataclasses.replace(match, game="other") for match in self.plan.matches[6:]]
            self.playing = Playing(self.plan, "referee", self.reporter, 2)
            self.go(cup_001=[over(why="differs", stops_game=True)], cup_003=["playing", "playing", lambda match: next(once)(match)])
            lost = {match.id: why for match in self.plan.matches[:6]} | {"cup-001": "differs", "cup-003": left}
            self.assertEqual((self.playing.left, self.playing.stopped), (lost, {"heap": why}))
            self.assertEqual((set(self.playing.results), self.playing.may_begin(self.plan.matches[0])), ({match.id for match in self.plan.matches[6:]}, False))
            stopped = "stopped heap, because cup-001 does not follow its description; 4 waiting matches of this game will not begin"
            self.assertEqual(self.reporter.lines, ["no record cup-001: differs", stopped, *lines])

    def test_if_a_file_can_not_be_written_no_more_matches_begin(self):
        full = OSError(errno.ENOSPC, "x", "f")
        for error, words in ((full, "f: No space left on device"), (OSError("odd"), "its files: Input/output error"), (ExceptionGroup("x", [ExceptionGroup("y", [full])]), "f: No space left on device")):
            for stage, aborted in (("asking", []), ("playing", [({"cup-001": ["ann@h", "bob@h"]}, None)]), ("checking", [])):
                self.begin(at_once=1)
                Standing.begun, self.aborted = [], []

                def fail(match):
                    raise error

                self.go(cup_001=[stage, fail])
                self.assertEqual((self.playing.left, self.playing.is_full, self.playing.may_begin(), self.begun(), self.aborted), ({"cup-001": words}, True, False, ["cup-001"], aborted))
                self.assertEqual(self.playing.slots.free, dict.fromkeys(self.NAMES, 1))

    def test_another_error_is_not_taken_for_one_of_the_disk(self):
        def fail(match):
            raise ValueError

        with self.assertRaises(ExceptionGroup):
            self.go(cup_001=[fail])

    def test_a_full_disk_that_the_referee_reports_lets_no_more_begin(self):
        self.begin(at_once=1)
        self.go(cup_001=[over(why="ggp_manager: write fault")])
        self.assertEqual((self.begun(), self.playing.is_full), (["cup-001"], True))

    def test_after_one_interrupt_open_matches_are_played_to_their_ends(self):
        self.begin(at_once=3)
        may_begin = []
        self.go(cup_001=["playing", self.interrupt(1), "playing", won], cup_003=["playing", "playing", lambda match: may_begin.append(self.playing.may_begin(match.match)), won])
        self.assertEqual((sorted(self.begun()), sorted(self.playing.results), may_begin), (["cup-001", "cup-003"], ["cup-001", "cup-003"], [False]))
        self.assertEqual(self.reporter.lines, ["no more matches begin; 2 matches are played to their ends, unless you press Ctrl-C again"])

    def test_a_match_whose_players_were_asked_when_it_came_waits_again(self):
        self.begin(at_once=1)
        self.go(cup_001=[self.interrupt(1), over()])
        self.assertEqual((self.begun(), len(self.playing.waiting), self.playing.left), (["cup-001"], 12, {}))

    def test_a_second_interrupt_ends_those_that_the_first_one_let_go_on(self):
        for counts in ((1, 1), (2, 0)):
            self.begin(at_once=2)
            Standing.begun, self.aborted = [], []
            for match in ("cup-001", "cup-003"):
                (self.plan.folder.open / match).mkdir(parents=True, exist_ok=True)
            self.go(cup_001=["playing", self.interrupt(counts[0]), "playing", self.interrupt(counts[1]), *["playing"] * 9, won], cup_003=[*["asking"] * 9, won])
            self.assertEqual((self.begun(), self.playing.results, [standing.is_ended for standing in Standing.begun]), (["cup-001", "cup-003"], {}, [True, True]))
            self.assertEqual((self.playing.left, self.aborted), ({"cup-001": "broken off"}, [({"cup-001": ["ann@h", "bob@h"]}, 3)]))
            self.assertEqual(self.playing.slots.free, dict.fromkeys(self.NAMES, 1))

    def test_those_that_are_checked_go_on(self):
        self.begin(at_once=2)
        self.go(cup_001=["playing", self.interrupt(2), *["playing"] * 9, won], cup_003=["checking", *["checking"] * 9, self.interrupt(1), won])
        self.assertEqual(([standing.is_ended for standing in Standing.begun], list(self.playing.results), list(self.playing.left)), ([True, False], ["cup-003"], ["cup-001"]))

    def test_the_directory_of_a_match_that_may_go_on_on_a_node_is_kept(self):
        room = self.plan.folder.open / "cup-001"
        room.mkdir(parents=True)
        (room / "players").touch()
        self.go(cup_001=["playing", over(goes_on=True), self.interrupt(2), *["playing"] * 9])
        self.assertEqual(([file.name for file in room.iterdir()], self.aborted), (["players"], [({"cup-001": ["ann@h", "bob@h"]}, 3)]))

    def test_an_interrupt_during_an_abort_sends_it_once_more_within_some_seconds(self):
        async def send_aborts(referee, places, seconds=None):
            self.aborted.append((dict(places), seconds))
            if seconds is None:
                self.playing.interrupt(2)
                await asyncio.sleep(600)
            return {}

        with mock.patch.object(playing, "send_aborts", send_aborts):
            self.go(cup_001=["playing", over(why="want of memory", is_broken=True)])
        self.assertEqual(([seconds for _, seconds in self.aborted], self.playing.left["cup-001"]), ([None, 3], "want of memory"))

    def test_without_a_reader_of_its_lines_no_more_begin(self):
        self.begin(at_once=1)
        self.go(cup_001=["playing", lambda match: setattr(self.reporter, "fault", OSError()), won])
        self.assertEqual((self.begun(), self.playing.interrupts, list(self.playing.results)), (["cup-001"], 1, ["cup-001"]))

    def test_without_a_journal_no_more_begin(self):
        self.begin(at_once=1)
        self.go(cup_001=[lambda match: setattr(self.reporter.journal, "fault", OSError(errno.ENOSPC, "full", "play.log")), won])
        self.assertEqual((self.begun(), self.reporter.lines, self.playing.is_full), (["cup-001"], ["play.log can't be written: full; no more matches begin"], True))

    def test_with_a_launcher_as_many_begin_as_it_has_slots(self):
        self.begin(launcher=Launcher(("x",), 1))
        most = []
        Standing.laid_down = {match.id: [lambda match: most.append(sum(standing.has_slots for standing in Standing.begun)), won] for match in self.plan.matches}
        self.go()
        self.assertEqual((max(most), len(self.playing.results)), (1, 12))
        self.assertIsNotNone(self.reporter.shown[0])


class Before(WithMatches):
    """Files that exist when `play` begins."""

    def setUp(self):
        super().setUp()
        self.looked = ({}, {}, {})
        self.enterContext(mock.patch.object(playing, "check_records", lambda plan, referee: self.looked))

    def room(self, name, players="ann@h:1\nbob@h:2\n"):
        room = self.plan.folder.open / name
        room.mkdir(parents=True)
        if players is not None:
            (room / "players").write_text(players)
        return room

    def test_all_that_have_no_result_wait(self):
        self.plan.matches[1] = dataclasses.replace(self.plan.matches[1], again="cup-013")
        self.looked = ({"cup-003": "its result"}, {}, {})
        playing.prepare(self.playing)
        self.assertEqual([match.id for match in self.playing.waiting], [match.id for match in self.plan.matches if match.id not in ("cup-002", "cup-003")])
        said = self.reporter.lines, self.reporter.notes, self.reporter.drawn
        self.assertEqual((self.playing.results, *said), ({"cup-003": "its result"}, [], [f"play {len(self.playing.waiting)} matches"], ["checking the records"]))

    def test_files_that_do_not_count_are_set_aside(self):
        folder = self.plan.folder
        folder.make(folder.accounts)
        folder.record("cup-001").write_text("{}")
        folder.account("cup-002").write_text("x")
        folder.log("cup-003").write_text("x")
        self.looked = ({"cup-003": "its result"}, {"cup-001": "not lawful: goals"}, {})
        playing.prepare(self.playing)
        self.assertEqual(self.reporter.lines, [
            "refused cup-001: not lawful: goals; its files are renamed, and it is played again",
            "aside cup-002: it has no record; its other files are renamed, and it is played",
        ])
        self.assertEqual(sorted(file.name for kind in (folder.records, folder.accounts, folder.logs) for file in kind.iterdir()), ["cup-001.json.refused", "cup-002.txt.refused", "cup-003.jsonl"])

    def test_what_another_was_ordered_for_is_not_played_again(self):
        folder = self.plan.folder
        folder.make(folder.accounts)
        self.plan.matches[:] = [dataclasses.replace(match, again=f"cup-02{at}") for at, match in enumerate(self.plan.matches)]
        folder.record("cup-001").write_text("{}")
        folder.account("cup-002").write_text("x")
        results = {match.id: "its result" for match in self.plan.matches[2:]}
        self.looked = (results, {"cup-001": "not lawful: goals"}, {})
        self.assertEqual(playing.play(self.playing), {f"cup-00{at + 1}": f"its record does not count, and cup-02{at} still replaces it" for at in range(2)})
        self.assertEqual(self.reporter.lines, [
            "refused cup-001: not lawful: goals; its files are renamed, and cup-020 still replaces it",
            "aside cup-002: it has no record; its other files are renamed, and cup-021 still replaces it",
        ])
        self.assertEqual((Standing.begun, self.playing.results), ([], results))

    def test_records_that_are_not_of_this_plan_end_it(self):
        records = self.plan.folder.records
        for name, more in (("x.json", ""), ("y.json", ", and 1 more")):
            (records / name).touch()
            why = raised(Refused, playing.prepare, self.playing)
            self.assertEqual(str(why), f"{records}/x.json belongs to no match of the schedule{more}: move the files that belong to no match out of {records}, and play again")
        for file in records.iterdir():
            file.unlink()
        self.looked = ({}, {"cup-002": "not lawful: goals"}, {"cup-001": "its matchId is 'x'"})
        self.plan.folder.record("cup-002").touch()
        why = raised(Refused, playing.prepare, self.playing)
        self.assertEqual(str(why), f"{records}/cup-001.json is lawful, but belongs to another match: its matchId is 'x'")
        # Until you move the record to the right place, no file is renamed.
        self.assertEqual([file.name for file in records.iterdir()], ["cup-002.json"])

    def test_a_record_by_which_a_later_round_was_paired_ends_it(self):
        folder = self.plan.folder
        folder.make(folder.accounts)
        folder.record("cup-001").write_text("{}")
        folder.account("cup-002").write_text("x")
        room = self.room("cup-003")
        self.plan.matches[0] = dataclasses.replace(self.plan.matches[0], round=1)
        self.plan.rounds = ["the first", "the second"]
        self.looked = ({match.id: "its result" for match in self.plan.matches[3:]}, {"cup-001": "not lawful: goals"}, {})
        self.assertIn("a later round was paired by the result of cup-001, which no longer has a record that counts", str(raised(Refused, playing.prepare, self.playing)))
        # Until the record is corrected, no file is renamed, no message is sent, and no match waits.
        self.assertEqual([file.name for kind in (folder.records, folder.accounts) for file in kind.iterdir()], ["cup-001.json", "cup-002.txt"])
        self.assertEqual((room.exists(), self.aborted, list(self.playing.waiting)), (True, [], []))

    def test_a_folder_that_can_not_be_written(self):
        with mock.patch.object(self.plan.folder, "make", side_effect=OSError(errno.EROFS, "x", "f")), self.assertRaises(Refused) as why:
            playing.prepare(self.playing)
        self.assertEqual(str(why.exception), f"{self.plan.folder.path} can't be written: f: Read-only file system")

    def test_players_of_matches_that_were_open_are_freed(self):
        first, over_one, other, plain = self.room("cup-001"), self.room("cup-002"), self.room("old-007"), self.room("notes", None)
        empty, wrong = self.room("cup-004", None), self.room("else", "no place\n")
        (self.plan.folder.open / "link").symlink_to(plain)
        (self.plan.folder.open / "file").touch()
        self.looked = ({"cup-002": "its result"}, {}, {})
        self.plan.folder.record("cup-002").touch()
        playing.prepare(self.playing)
        places = ["ann@h:1", "bob@h:2"]
        self.assertEqual(self.aborted, [({"cup-001": places, "old-007": places}, None)])
        self.assertEqual([room.exists() for room in (first, over_one, other, plain, empty, wrong)], [False, False, False, True, False, True])
        self.assertEqual(self.reporter.lines[0], "open 2 matches of an earlier `play`; their players are sent ABORT")

    def test_rooms_and_the_places_that_they_name(self):
        self.room("cup-001", None)
        self.room("b", "ann@h:1")
        self.room("a", "ann@h:1 bob@h:2\n")
        self.room("c", "ann\n")
        for name, data in (("d", b"\xff@h:1"), ("e", b"ann@h"), ("f", b"ann@h:65536"), ("g", b"ann@h:1 and more")):
            (self.room(name) / "players").write_bytes(data)
        found = {room.name: places for room, places in open_directories(self.plan).items()}
        self.assertEqual(found, {"a": ["ann@h:1", "bob@h:2"], "b": ["ann@h:1"], "cup-001": []})

    def test_a_room_is_kept_where_a_player_does_not_answer_abort(self):
        first, second, third = [self.room(f"cup-00{at}") for at in (1, 2, 3)]
        for room in (first, second, third):
            (room / "played").touch()
        self.silent = {"cup-002": ["bob@h:2"]}
        places = {"cup-001": ["ann@h:1"], "cup-002": ["ann@h:1", "bob@h:2"], "cup-003": ["cid@h:3"]}
        asyncio.run(self.playing.abort(places, 4, {"cup-003"}))
        self.assertEqual((self.aborted[0][1], first.exists(), *([file.name for file in room.iterdir()] for room in (second, third))), (4, False, ["players"], ["players"]))
        lines = ["abort cup-001: ann@h:1", "abort cup-002: ann@h:1, bob@h:2", "no answer to abort cup-002: bob@h:2", "abort cup-003: cid@h:3"]
        self.assertEqual(self.reporter.lines, lines)

    def test_rounds_are_played_one_after_the_other(self):
        matches, rest = self.plan.matches, [self.plan.matches[2:4], self.plan.matches[4:5], []]
        self.plan.matches = matches[:2]

        def next_round(plan, results):
            found = rest.pop(0)
            plan.matches = [*plan.matches, *found]
            return found

        Standing.laid_down = {"cup-004": [over(why="ann is silent")]}
        with mock.patch.object(playing, "plan_next_round", next_round), mock.patch.object(playing, "round_words", lambda plan: f"round of {plan.matches[-1].id}"):
            self.assertEqual(playing.play(self.playing), {"cup-004": "ann is silent"})
        self.assertEqual(([line for line in self.reporter.lines if line.startswith("round")], rest), (["round of cup-004", "round of cup-005"], []))
        self.assertEqual(sorted(self.begun()), [f"cup-00{at}" for at in range(1, 6)])

    def test_what_was_not_begun_is_missing(self):
        def interrupt(match):
            match.stage = "playing"
            self.playing.interrupt(1)
            won(match)

        self.begin(at_once=1)
        Standing.laid_down = {"cup-001": [interrupt]}
        with mock.patch.object(playing, "plan_next_round", side_effect=AssertionError):
            missing = playing.play(self.playing)
        self.assertEqual(missing, {match.id: "not begun" for match in self.plan.matches[1:]})


class Words(unittest.TestCase):
    def test_missing_matches_are_reported_by_reasons(self):
        ten, eleven = ([f"m{at}" for at in range(count)] for count in (10, 11))
        rows = [f"missing {match}: why" for match in eleven]
        self.assertEqual([*missing_rows(dict.fromkeys(ten, "why"))], [(row, [row]) for row in rows[:10]])
        shared, other = "missing 11 matches between m0 and m10: why", "missing x: else"
        self.assertEqual([*missing_rows({**dict.fromkeys(eleven, "why"), "x": "else"})], [(shared, rows), (other, [other])])

    def test_matches_that_have_not_begun_share_a_row_of_the_journal(self):
        shared = "missing 1,200 matches between m0 and m1199: not begun"
        self.assertEqual([*missing_rows({f"m{at}": "not begun" for at in range(1_200)})], [(shared, [shared])])


class Signals(WithMatches):
    def counted(self, number):
        """Sends a signal while a match is open, and returns the number of interrupts."""
        async def play():
            await self.playing.play_rounds()

        def send(match):
            signal.raise_signal(number)

        # The event loop handles a signal a little later.
        Standing.laid_down = {"cup-001": ["playing", send, *["playing"] * 1_000, won]}
        self.playing.waiting.extend(self.plan.matches[:1])
        with mock.patch.object(playing, "plan_next_round", lambda plan, results: []):
            asyncio.run(play())
        return self.playing.interrupts

    def test_signals_are_counted(self):
        self.addCleanup(signal.signal, signal.SIGHUP, signal.getsignal(signal.SIGHUP))
        for number, count in ((signal.SIGINT, 1), (signal.SIGTERM, 2), (signal.SIGHUP, 2)):
            # A hang-up is ignored under nohup.
            signal.signal(signal.SIGHUP, signal.SIG_DFL)
            self.begin()
            self.assertEqual(self.counted(number), count)
        self.assertEqual([signal.getsignal(number) for number in (signal.SIGINT, signal.SIGTERM, signal.SIGHUP)], [signal.default_int_handler, signal.SIG_DFL, signal.SIG_DFL])

    def test_a_hang_up_that_is_ignored_stays_so(self):
        self.addCleanup(signal.signal, signal.SIGHUP, signal.getsignal(signal.SIGHUP))
        signal.signal(signal.SIGHUP, signal.SIG_IGN)
        self.assertEqual((self.counted(signal.SIGHUP), signal.getsignal(signal.SIGHUP)), (0, signal.SIG_IGN))

    def test_so_many_files_may_be_open(self):
        endless = resource.RLIM_INFINITY
        for limits, wanted in (((1_024, 20_000), 16_384), ((1_024, 2_000), 2_000), ((17_000, 20_000), 17_000), ((endless, 20_000), 16_384)):
            with mock.patch("resource.getrlimit", lambda _, limits=limits: limits), mock.patch("resource.setrlimit") as changed, mock.patch.object(playing, "prepare"):
                self.begin()
                self.plan.matches = []
                playing.play(self.playing)
            self.assertEqual([call.args for call in changed.call_args_list], [(resource.RLIMIT_NOFILE, (wanted, limits[1]))], limits)


# ---- the time left, compared with the actual time by a fake clock

ROUND_ROBIN = 'kind = "round_robin"\nrounds = {}'
# The players, the form, the number of matches at a time for a player and in total, and for each game the minimum and maximum seconds of a
# match.
SHAPES = {
    "one match at a time": (8, ROUND_ROBIN.format(5), 1, 4, {"one": (20, 40)}),
    "two at once": (8, ROUND_ROBIN.format(5), 1, 2, {"one": (20, 40)}),
    "games of different lengths": (10, ROUND_ROBIN.format(3), 1, 32, {"one": (20, 40), "two": (60, 200)}),
    "three games, one after the other": (20, ROUND_ROBIN.format(2), 1, 10, {"one": (5, 10), "two": (60, 200), "three": (20, 30)}),
    "all wait for one player": (10, 'kind = "gauntlet"\none = "p0"\nrounds = 5', 1, 8, {"one": (20, 40)}),
    "an odd number of players": (9, ROUND_ROBIN.format(5), 1, 4, {"one": (20, 40)}),
    "players with several slots": (4, ROUND_ROBIN.format(20), 4, 32, {"one": (20, 40)}),
}


def estimated_and_true(players, form, concurrent, at_once, lengths):
    """Plays a competition with a fake clock. Whenever a match ends, yields the part that is finished, the estimated time left, and the
    actual time left."""
    who = [(f"p{number}", f"h:{number + 1}", f"concurrent = {concurrent}") for number in range(players)]
    competition = read_competition(toml(who, [(game, "f") for game in lengths], form).encode())
    matches, chance = planned(competition, dict.fromkeys(lengths, 2)), random.Random(1)
    slots, waiting, now, open_matches, estimates, took = Slots(competition), collections.deque(matches), 1.0, [], [], collections.defaultdict(list)
    concurrent = {player.name: player.concurrent for player in competition.players}
    while open_matches or waiting:
        while len(open_matches) < at_once and (match := slots.next_match(waiting, now)):
            open_matches.append((now + chance.uniform(*lengths[match.game]), now, match))
        now, began, match = open_matches.pop(open_matches.index(min(open_matches, key=lambda found: found[0])))
        slots.give_back(match)
        took[match.game].append(now - began)
        estimates.append((now, seconds_left(waiting, [(other, now - since) for _, since, other in open_matches], took, concurrent, at_once)))
    return [(number / len(matches), seconds, now - when) for number, (when, seconds) in enumerate(estimates, 1)]


class Left(unittest.TestCase):
    def test_it_is_right_within_a_third(self):
        for shape, words in SHAPES.items():
            with self.subTest(shape):
                found = [(estimate, true) for part, estimate, true in estimated_and_true(*words) if 0.1 <= part <= 0.9]
                self.assertEqual([(estimate, true) for estimate, true in found if not true * 2 / 3 <= estimate <= true * 4 / 3], [])

    def test_few_matches(self):
        competition = read_competition(toml([("a", "h:1"), ("b", "h:2")], [("one", "f")]).encode())
        matches, concurrent = planned(competition, {"one": 2}), {"a": 1, "b": 1}
        self.assertIsNone(seconds_left(matches, [], {}, concurrent, 4))
        self.assertIsNone(seconds_left([], [(matches[0], 1.0)], {}, concurrent, 4))
        found = [seconds_left(matches[1:], [], {"one": [8.0]}, concurrent, 4), seconds_left(matches[1:], [(matches[0], 5.0)], {"one": [8.0]}, concurrent, 4)]
        self.assertEqual((found, seconds_left([], [], {"one": [8.0]}, concurrent, 4)), ([8.0, 11.0], 0.0))
        # A match that takes longer than the others counts as about to end.
        self.assertEqual(seconds_left([], [(matches[1], 20.0)], {"one": [8.0]}, concurrent, 1), 0.0)
