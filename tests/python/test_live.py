"""How open matches are read: logs from the last position, and the referee's replies to the answers."""

import errno
import html
import json
import os
import re
import tempfile
import time
import unittest
from unittest.mock import patch

from ggp_tools.competition import live, live_board
from ggp_tools.competition.files import Folder, locked
from ggp_tools.competition.live import Delay, Reader
from ggp_tools.competition.live_board import NO_LINE, NO_VERDICT, TOO_LONG, LiveBoard
from ggp_tools.competition.live_pages import now_part, open_row, replaced_part, state_html, turn_row
from ggp_tools.competition.open_match import leave_players
from ggp_tools.competition.schedule import Match
from ggp_tools.competition.tail import Extent
from ggp_tools.kif import expressions
from ggp_tools.match_log import Message, event_of
from ggp_tools.records import show
from ggp_tools.records.show import Named, boards_of, named_in
from ggp_tools.referee import Referee
from html_pages import parsed, text_of
from live_support import RULES, SILENT, Missed, begin, end, line, look, opened, plan_in, record_of, started
from support import GAMES, program

NEVER = float("inf")
ROLES = "red", "blue"


def shown(seen):
    """Returns the players that the row of an open match shows as awaited."""
    return text_of(parsed(open_row(seen)[1])("td")[4])


def setUpModule():
    """On a busy computer, the referee and the reading of the records may take a long time. These tests do not wait for that."""
    unittest.enterModuleContext(patch.object(live, "READING", 1e9))
    for share in ("SHARE", "REFEREE_SHARE"):
        unittest.enterModuleContext(patch.object(live, share, 0))


def drawn(board):
    """Returns the last state of a match, as pages show it."""
    return state_html(board.position.states, ROLES, named_in(board.rules.read_bytes(), False), [board.trouble])


class InRoom(unittest.TestCase):
    def setUp(self):
        self.plan = plan_in(self.enterContext(tempfile.TemporaryDirectory()), ["ann", "bob", "cid"])
        self.match = self.plan.matches[0]

    def say(self, file, text):
        with open(file, "a") as log:
            log.write(text)

    def reader(self, plan=None):
        return Reader(plan or self.plan, Referee(program()))

    def look(self, reader):
        """Lets a reader read the directory, and ask the referee."""
        look(reader)
        reader.advance(NEVER)

    def play(self, number, moves, answers, roles=(0, 1)):
        """Returns the lines of a turn. The PLAY messages of the turn contain the moves of the previous turn."""
        return "".join(line(self.match, role, number, f"(PLAY {self.match.id} {moves})", answers[role]) for role in roles)


class Lines(InRoom):
    def test_whether_a_run_holds_the_folder(self):
        folder = self.plan.folder.path
        self.assertFalse(live.is_locked(folder))
        with locked(folder):
            self.assertTrue(live.is_locked(folder))
            # The list of locks may miss a lock if others disappear while it is read.
            for missed, is_held in ((4, True), (5, False)):
                with patch.object(live, "locks", side_effect=[*[[]] * missed, live.locks()]):
                    self.assertEqual(live.is_locked(folder), is_held)
            # A directory on another disk may have the same inode number.
            with patch.object(live, "lock_place", lambda found: f"ff:fff:{os.stat(found).st_ino}"):
                self.assertFalse(live.is_locked(folder))

    def test_what_is_no_file_holds_up_nothing(self):
        pipe, long, other = self.plan.matches[1:4]
        log, reader = begin(self.plan, self.match), self.reader()
        log.unlink()
        os.mkfifo(log)
        os.mkfifo(self.plan.folder.record(pipe.id))
        with open(self.plan.folder.record(long.id), "wb") as file:
            file.truncate(1 << 40)
        end(self.plan, other, record_of(other, [["(take 1)", "noop"]], [["", ""]], [0, 100]))
        look(reader)
        self.assertEqual((list(reader.open), list(reader.results)), ([self.match.id], [other.id]))
        self.assertEqual(reader.faults, {pipe.id: "it can't be read: it is not a regular file", long.id: "it is longer than 16 MiB"})

    def test_a_delay_keeps_only_once_what_does_not_change(self):
        reader, other = Reader(self.plan, Referee(program()), Delay(3_600)), self.plan.matches[1]
        log = begin(self.plan, self.match)
        begin(self.plan, other)
        before = reader.read_open_files()
        self.say(log, "x")
        after = reader.read_open_files()
        self.assertNotEqual(before[self.match.id], after[self.match.id])
        self.assertIs(before[other.id], after[other.id])
        self.assertIs(reader.read_open_files(), after)

    def test_a_long_delay_keeps_few_snapshots(self):
        delay = Delay(3_600)
        for moment in range(10_000):
            with patch.object(live, "clock", lambda: float(moment)):
                shown = delay.snapshot({}, Extent(moment), True)
                self.assertLess(len(delay.snapshots), 603)
            if moment > 3_600:
                self.assertIn(moment - shown.journal.size, range(3_600, 3_607))

    def test_whom_a_match_waits_for(self):
        log, reader = begin(self.plan, self.match), self.reader()
        self.look(reader)
        seen = reader.open[self.match.id]
        self.assertEqual((seen.stage, seen.turn(), seen.awaited()), ("playing", 0, [0, 1]))
        self.assertEqual(shown(seen), "the answers to START")
        self.say(log, started(self.match))
        self.look(reader)
        # The state names the role whose turn it is. The pages show this role until the turn is over.
        self.assertEqual((seen.turn(), seen.awaited(), shown(seen)), (1, [0], f"red to move: {self.match.players[0]}"))
        before = reader.version, seen.since
        self.say(log, self.play(2, "NIL", ["(take 1)"], [0]))
        os.utime(log, (1_000.0, 1_000.0))
        self.look(reader)
        # The reader knows that one player has answered, but no page changes.
        self.assertEqual((seen.turn(), seen.awaited(), reader.version, seen.since), (1, [1], *before))
        self.assertEqual(shown(seen), f"red to move: {self.match.players[0]}")
        with patch.object(seen, "is_late", True):
            self.assertEqual(shown(seen), f"{self.match.players[1]}: turn 1")
            with patch.object(seen.tail, "is_behind", True):
                self.assertEqual(seen.named(), [0])
        # The time of day in the log may be wrong.
        self.say(log, line(self.match, 1, 2, f"(PLAY {self.match.id} NIL)", SILENT, 5_000, 1_195_000))
        with patch.object(time, "time", lambda: 1_300.0):
            self.look(reader)
        self.assertEqual(seen.since, 1_300.0)
        self.assertEqual((seen.turn(), seen.awaited(), seen.missed), (2, [1], {1: 1}))
        self.assertEqual([(entry.player, entry.turn, entry.error, entry.move) for entry, _ in reader.last_replaced()], [(self.match.players[1], 1, "TO", "noop")])
        self.assertEqual(shown(seen), f"blue to move: {self.match.players[1]}")

    def seen_after(self, *texts, strikes=0, start=None):
        """Returns what the pages show of the first match after these lines."""
        plan = plan_in(self.plan.folder.path, ["ann", "bob"], head=f"strikes = {strikes}\n" if strikes else "")
        begin(plan, self.match, (started(self.match) if start is None else start) + "".join(texts))
        reader = self.reader(plan)
        self.look(reader)
        return reader.open[self.match.id]

    def test_a_match_whose_players_are_all_retired(self):
        seen = self.seen_after(self.play(2, "NIL", [SILENT, "a b"]), strikes=1)
        self.assertEqual((seen.awaited(), seen.is_ending()), ([0, 1], True))
        seen = self.seen_after(self.play(2, "NIL", [SILENT, "a b"]), line(self.match, 1, 3, f"(ABORT {self.match.id})", "ready"), strikes=1)
        self.assertEqual((seen.awaited(), seen.is_ending()), ([0], True))

    def test_a_shortage_of_the_referee_counts_as_a_broken_connection_and_against_nobody(self):
        log = self.play(2, "NIL", ["(take 1)", Missed("lost (out of ports)")])
        seen = self.seen_after(log)
        self.assertEqual((seen.turn(), seen.board.position.moves, seen.missed, seen.replaced), (2, [["(take 1)", "noop"]], {}, []))
        self.assertEqual(seen.board.turns()[0].errors, ("", "lost (out of ports)"))
        self.assertIn("the referee lacked a resource", turn_row(seen.board.turns()[0])[1])
        # The match continues, even if this error retires the player.
        seen = self.seen_after(log, self.play(3, "((take 1) noop)", ["noop"], [0]), strikes=1)
        self.assertEqual((seen.turn(), seen.awaited()), (3, [0]))
        # A player may also answer with exactly this text.
        seen = self.seen_after(self.play(2, "NIL", ["(take 1)", "lost (out of ports)"]), strikes=1)
        self.assertEqual([(move.turn, move.error, move.move) for move in seen.replaced], [(1, "IL ?", "noop")])

    def test_the_open_round_of_a_match_that_is_aborted_is_never_shown(self):
        aborts = [line(self.match, role, 3, f"(ABORT {self.match.id})", "done") for role in (0, 1)]
        one = self.play(2, "NIL", ["(take 1)"], [0])
        seen = self.seen_after(one, aborts[0])
        self.assertEqual((seen.turn(), seen.is_ending(), seen.last[0].kind), (1, False, "START"))
        seen = self.seen_after(one, *aborts)
        self.assertEqual((seen.awaited(), seen.is_ending(), seen.board.position.moves), ([], True, []))
        self.assertEqual([message.kind for message in seen.last.values()], ["ABORT", "ABORT"])

    def test_players_that_begin_again_in_another_order(self):
        start, first, second = started(self.match).splitlines(keepends=True)
        self.assertEqual(self.seen_after(start=start + first).awaited(), [1])
        self.assertEqual(self.seen_after(start=start + first + second + start + second).awaited(), [0])
        seen = self.seen_after(self.play(2, "NIL", ["noop", "noop"]), start + second)
        self.assertEqual((seen.turn(), seen.awaited(), seen.board.position.moves), (0, [0], []))

    def test_a_match_that_begins_again_has_its_own_clock(self):
        log, reader = begin(self.plan, self.match, started(self.match).splitlines(keepends=True)[0]), self.reader()
        moment = live.clock()
        for said in ("", started(self.match).splitlines(keepends=True)[0]):
            with patch.object(live, "clock", lambda: moment):
                self.say(log, said)
                self.look(reader)
                self.assertFalse(reader.open[self.match.id].is_late)
            moment += 6
            with patch.object(live, "clock", lambda: moment):
                self.look(reader)
                self.assertTrue(reader.open[self.match.id].is_late)

    def test_a_run_that_no_line_announces_is_shown_once_its_start_is_finished(self):
        again = started(self.match).splitlines(keepends=True)[1:]
        turn = self.play(2, "NIL", ["(take 1)", "noop"])
        self.assertEqual(self.seen_after(turn, again[0]).turn(), 2)
        self.assertEqual(self.seen_after(turn, *again).turn(), 1)

    def test_lines_of_other_matches_and_players(self):
        other, stranger = self.plan.matches[1], Match(self.match.id, "heap", 10, 5, ("bob", "ann", "cid"))
        log = line(other, 0, 2, f"(PLAY {other.id} NIL)", "noop") + opened(other)
        log += "".join(line(stranger, role, 2, f"(PLAY {self.match.id} NIL)", "noop") for role in (0, 2))
        seen = self.seen_after(log)
        self.assertEqual((seen.turn(), seen.awaited(), seen.last[0].kind), (1, [0], "START"))

    def test_how_many_moves_were_replaced_is_said(self):
        log = self.play(2, "NIL", [SILENT, SILENT]) + self.play(3, "((take 1) noop)", [SILENT, SILENT])
        # The answers of the first match arrive long after those of the second.
        os.utime(begin(self.plan, self.match, started(self.match) + log), (2e9, 2e9))
        over = self.plan.matches[1]
        moves = [["(take 1)", "noop"]] * 5
        end(self.plan, over, record_of(over, moves, [["IL x", ""]] * 5, [0, 100]))
        reader = self.reader()
        self.look(reader)
        found = [(entry.match.id, entry.player, entry.turn, before) for entry, before in reader.last_replaced()]
        first, second = self.match.players
        wanted = [(self.match.id, second, 2, 0), (self.match.id, first, 2, 0), (self.match.id, second, 1, 1)]
        self.assertEqual(found, [*wanted, *((over.id, over.players[0], turn, before) for turn, before in ((5, 0), (4, 0), (3, 2)))])
        shown = str(replaced_part(reader.last_replaced()).text)
        self.assertEqual((shown.count("earlier"), "and 2 earlier" in shown), (2, True))

    def test_the_end(self):
        begin(self.plan, self.match, started(self.match))
        reader = self.reader()
        look(reader)
        moves, errors = [["(take 1)", "noop"], ["noop", "(take 2)"]], [["", ""], ["IL x", ""]]
        end(self.plan, self.match, record_of(self.match, moves, errors, [0, 100]))
        look(reader)
        self.assertEqual((reader.open, list(reader.results)), ({}, [self.match.id]))
        self.assertEqual([(entry.turn, entry.error, entry.move) for entry, _ in reader.last_replaced()], [(2, "IL x", "noop")])
        self.assertEqual(len(reader.waiting()), 5)
        self.plan.folder.record(self.match.id).unlink()
        look(reader)
        self.assertEqual(reader.results, {})

    def test_a_match_with_a_result_is_not_open(self):
        room, reader = begin(self.plan, self.match, started(self.match)).parent, self.reader()
        look(reader)
        end(self.plan, self.match, record_of(self.match, [["(take 1)", "noop"]], [["", ""]], [0, 100]))
        # `play` removes the directory only after it has written the record.
        room.mkdir()
        (room / "checking").touch()
        look(reader)
        self.assertEqual((list(reader.open), list(reader.results), list(reader.ended), len(reader.waiting())), ([], [self.match.id], [self.match.id], 5))

    def test_what_comes_into_a_folder_without_changing_its_time_is_seen(self):
        first, second = self.plan.matches[:2]
        room, moment = self.plan.folder.open / self.plan.matches[2].id, time.time()
        room.mkdir()
        reader, found = self.reader(), []
        for name in ("asking", "playing", "checking"):
            (room / name).touch()
            os.utime(room, (moment, moment))
            look(reader)
            found.append(reader.open[room.name].stage)
        for match in (first, second):
            end(self.plan, match, record_of(match, [], [], [50, 50]))
            os.utime(self.plan.folder.records, (moment, moment))
            look(reader)
            found.append(len(reader.results))
        self.assertEqual(found, ["asking", "playing", "checking", 1, 2])

    def test_a_record_that_was_replaced_between_two_looks(self):
        first, second = self.plan.matches[:2]
        turns = [["(take 2)", "noop"], ["noop", "(take 1)"]], [["", ""], ["", ""]]
        end(self.plan, first, record_of(first, *turns, [0, 100]))
        end(self.plan, second, record_of(second, *turns, [0, 100]))
        reader = self.reader()
        look(reader)
        file = self.plan.folder.record(first.id)
        file.rename(f"{file}.refused")
        end(self.plan, first, record_of(first, *turns, [100, 0]))
        # The file is overwritten in place, so the directory does not change.
        self.plan.folder.record(second.id).write_text("no record")
        look(reader)
        look(reader)
        self.assertEqual((reader.results[first.id].goals, list(reader.results), list(reader.faults)), ((100, 0), [first.id], [second.id]))

    def test_a_match_of_a_run_that_was_ended_waits(self):
        log, reader = begin(self.plan, self.match, started(self.match)), self.reader()
        look(reader)
        self.assertEqual(list(reader.open), [self.match.id])
        leave_players(log.parent)
        look(reader)
        self.assertEqual((reader.open, len(reader.waiting()), os.listdir(log.parent)), ({}, 6, ["players"]))
        # The match sends INFO to its players again.
        (log.parent / "asking").touch()
        look(reader)
        self.assertEqual(reader.open[self.match.id].stage, "asking")

    def test_what_is_replaced_in_an_open_match(self):
        # Red is retired after turn 2.
        plan = plan_in(self.plan.folder.path, ["ann", "bob"], head="strikes = 2\n")
        log, reader = begin(plan, self.match, started(self.match)), self.reader(plan)
        self.look(reader)
        self.assertIn("No move was replaced so far.", str(replaced_part([]).text))
        self.say(log, self.play(2, "NIL", ["(take 9)"], [0]))
        self.look(reader)
        self.assertEqual(reader.last_replaced(), [])
        self.say(log, self.play(2, "NIL", ["", "lost (no memory)"], [1]) + self.play(3, "((take 1) noop)", ["a b", "(take 1)"]))
        self.say(log, self.play(4, "(noop (take 1))", ["", "noop"], [1]))
        self.say(log, "".join(line(self.match, role, 5, f"(STOP {self.match.id} ((take 1) noop))", "done") for role in (0, 1)))
        self.look(reader)
        found = [(move.player, move.turn, move.error, move.move, before) for move, before in reader.last_replaced()]
        self.assertEqual(found, [("ann", 3, "RT", "(take 1)", 0), ("ann", 2, "IL ?", "noop", 0), ("bob", 1, "IL ?", "noop", 1)])

    def test_replaced_moves_are_listed_by_their_times(self):
        for minute, match in enumerate(reversed(self.plan.matches)):
            self.plan.folder.record(match.id).write_text(json.dumps(record_of(match, [["noop", "noop"]], [["CE", ""]], [0, 100])))
            times = [minute * 60_000, (59 - minute if minute % 2 == 0 else 59) * 60_000]
            # In every second match, the log contains the turn. The other logs contain only the end.
            said = line(match, 0, 2, f"(PLAY {match.id} NIL)", Missed("CE (no connection)"), 0, times[0]) if minute % 2 else ""
            stop = line(match, 0, 3, f"(STOP {match.id} NIL)", "done", 0, times[1])
            self.plan.folder.log(match.id).write_text(opened(match, times[0]) + said + stop)
        reader = self.reader()
        look(reader)
        self.assertEqual([move.match.id[-1] for move, _ in reader.last_replaced()], list("642135"))

    def test_without_a_log_replaced_moves_have_the_time_of_the_record(self):
        for seconds, match in zip((3_000, 1_000, 2_000), self.plan.matches):
            end(self.plan, match, record_of(match, [["noop", "noop"]], [["CE", ""]], [0, 100]))
            self.plan.folder.log(match.id).write_text(opened(match, 0) + line(match, 0, 3, f"(STOP {match.id} NIL)", "done", 0, seconds * 1_000))
        lacks = self.plan.matches[2]
        self.plan.folder.log(lacks.id).unlink()
        os.utime(self.plan.folder.record(lacks.id), (2_000, 2_000))
        reader = self.reader()
        # A log that can't be opened for now is read later.
        with patch.object(Folder, "part_of_log", side_effect=OSError(errno.EMFILE, "")):
            look(reader)
        self.assertEqual(reader.results, {})
        look(reader)
        self.assertEqual([move.match.id[-1] for move, _ in reader.last_replaced()], list("132"))

    def test_the_referee_is_asked_for_a_part_of_the_time(self):
        begin(self.plan, self.match, started(self.match))
        begin(self.plan, self.plan.matches[1], started(self.plan.matches[1]))
        reader, asked = self.reader(), []
        look(reader)
        with patch.object(live.LiveMatch, "advance", lambda seen, _: asked.append(seen.match.id)), patch.object(live, "REFEREE_SHARE", 1e9):
            reader.advance(time.monotonic() - 1)
            self.assertEqual(asked, [])
            reader.next_advance = 0
            reader.advance(NEVER, {self.plan.matches[1].id})
            self.assertEqual(asked, [self.plan.matches[1].id, self.match.id])
            reader.advance(NEVER)
            self.assertEqual(len(asked), 2)

    def test_a_fault_in_a_look_at_a_match_stops_no_other(self):
        begin(self.plan, self.match, started(self.match))
        begin(self.plan, self.plan.matches[1], started(self.plan.matches[1]))
        end(self.plan, self.plan.matches[2], record_of(self.plan.matches[2], [["noop", "noop"]], [["", ""]], [0, 100]))
        reader, take = self.reader(), live.LiveMatch.take

        def faulty(seen, *more):
            return take(seen, *more) if seen.match.id != self.match.id else 1 / 0

        with patch.object(live.LiveMatch, "take", faulty), patch.object(live, "counted_result", side_effect=KeyError("goal")):
            self.look(reader)
        self.assertEqual(reader.open[self.plan.matches[1].id].turn(), 1)
        said = now_part(reader, 0, 0).text
        self.assertEqual((said.count("an error in ggp_competition"), "ZeroDivisionError" in said, "KeyError" in said), (2, True, True))

    def test_what_is_no_record_of_the_match_does_not_count(self):
        first, second = self.plan.matches[:2]
        end(self.plan, first, record_of(second, [], [], [0, 100]))
        self.plan.folder.record(second.id).write_bytes(b"[" * 100_000)
        (self.plan.folder.records / "stranger.json").write_text("{}")
        (self.plan.folder.open / "stranger").mkdir()
        reader = self.reader()
        look(reader)
        self.assertEqual((reader.results, sorted(reader.faults), reader.open), ({}, [first.id, second.id], {}))
        for match in (first, second):
            self.plan.folder.record(match.id).unlink()
        self.plan.folder.record(second.id).symlink_to(second.id + ".json")
        look(reader)
        self.assertEqual(reader.faults, {second.id: "it can't be read: Too many levels of symbolic links"})
        version = reader.version
        look(reader)
        self.assertEqual(reader.version, version)


class States(InRoom):
    def board(self, log="", strikes=0, rules=RULES, match=None):
        """Returns the board of a match after these messages, as computed by the referee."""
        file = self.plan.folder.path / "own-rules"
        file.write_bytes(rules)
        board = LiveBoard(match or self.match, strikes, file)
        return self.follow(board, started(self.match) + log)

    def follow(self, board, log):
        for event in filter(None, map(event_of, log.encode().splitlines())):
            if isinstance(event, Message) and event.kind in ("START", "PLAY"):
                board.take(event)
        if board.is_due():
            board.advance(Referee(program()))
        return board

    def heap(self, board):
        return next(term for term in board.position.states[-1] if term.startswith("(heap"))

    def test_a_log_that_lacks_a_line(self):
        log = self.play(2, "NIL", ["(take 1)", "noop"]) + self.play(3, "((take 1) noop)", ["noop"], [0]) + self.play(4, "(noop (take 1))", ["noop"], [0])
        board = self.board(log)
        # The answer may still come, and the pages do not show who has answered the next turn.
        self.assertEqual((len(board.position.moves), board.trouble), (1, ""))
        self.follow(board, self.play(4, "(noop (take 1))", ["", "(take 1)"], [1]))
        self.assertEqual((len(board.position.moves), board.trouble), (1, NO_LINE))
        self.assertIn(html.escape(NO_LINE), str(drawn(board)))
        self.assertFalse(board.is_due())
        # The board continues when the line arrives.
        self.follow(board, self.play(3, "((take 1) noop)", ["", "(take 1)"], [1]) + self.play(5, "(noop (take 1))", ["noop"], [0]))
        self.assertEqual((len(board.position.moves), board.trouble), (3, ""))

    def test_what_the_referee_does_not_tell(self):
        board = self.board()
        board.rules = self.plan.folder.path / "nowhere"
        self.follow(board, self.play(2, "NIL", ["(take 1)", "noop"]))
        self.assertEqual((board.trouble, board.is_due(), self.heap(board)), (NO_VERDICT, True, "(heap 3)"))
        board.rules = self.plan.folder.path / "own-rules"
        self.follow(board, "")
        self.assertEqual((board.trouble, board.is_due(), self.heap(board)), ("", False, "(heap 2)"))

    def test_answers_that_no_script_has_room_for(self):
        board = self.board()
        with patch.object(live_board, "MOST_OF_SCRIPT", 200):
            self.follow(board, self.play(2, "NIL", ["(take 1)", "x" * 4_000]))
        self.assertEqual((board.trouble, board.is_due(), self.heap(board)), (TOO_LONG, False, "(heap 3)"))

    def test_the_rows_of_each_finished_round_are_made_once(self):
        board = self.board()
        for number in range(2, 1_002):
            for event in map(event_of, self.play(number, "NIL", ["(take 1)", "(take 1)"]).encode().splitlines()):
                board.take(event)
        with patch.object(live_board, "MOST_OF_SCRIPT", 1_000), patch.object(board, "call", side_effect=board.call) as called:
            self.assertEqual(sorted(board.ask(Referee(program()))), [1, 2, 3])
        self.assertLessEqual(called.call_count, 2 * 1_000)

    def test_recorded_turns_are_passed_on_shortly(self):
        board = self.board(strikes=3)
        for number, moves, answers in ((2, "NIL", ["x" * 4_000, "; " * 1_500]), (3, "((take 1) noop)", ["y" * 4_000, "(take 1)"])):
            self.follow(board, self.play(number, moves, answers))
        self.assertLess(len(board.begun()), 400)
        self.follow(board, self.play(4, "(noop (take 1))", ["z", SILENT]))
        self.assertEqual(board.position.errors, [[f"IL {'x' * 4_000}", "IL ?"], [f"IL {'y' * 4_000}", ""], ["IL z", "TO"]])
        self.assertEqual((self.heap(board), board.position.phase), ("(heap 0)", "stopping"))

    def test_a_label_looks_the_same_in_each_state(self):
        # In the first state, all cells have the same label, and nothing shows yet what it means.
        board = self.board(rules=(GAMES / "tictactoe.kif").read_bytes())
        self.assertEqual(re.findall("<i class=\"ground\"[^>]*>(.*?)</i>", drawn(board)), ["\u00b7"] * 9)

    def test_a_state_that_is_too_large_to_be_drawn_is_listed(self):
        def states(relations, size, count):
            return [[f"({name} {x} {y} {(x + y + at) % 5} w)" for name in relations for x in range(1, size + 1) for y in range(1, size + 1)] for at in range(count)]

        rules = expressions(" ".join(f"(next (cell {x} {y} {label} w))" for x in range(1, 33) for y in range(1, 33) for label in range(17)))
        # The number of terms that are read, of places that are drawn, and of terms that are listed.
        cases = (
            (states(["cell"], 32, 31), Named(), 16 * 1_024, 1_024, 0), (states(["cell"], 32, 2), Named(rules), 2 * 1_024, 1_024, 0),
            (states(["cell"], 127, 3), Named(), 16_129, 0, 60), (states(["cell"], 129, 3), Named(), 0, 0, 60),
            (states([f"c{at}" for at in range(15)], 32, 1), Named(), 15_360, 0, 60), (states([f"c{at}" for at in range(600)], 2, 1), Named(is_hex=True), 2_400, 0, 60),
            ([], Named(), 0, 0, 0),
        )
        for found, named, count, places, terms in cases:
            read = []
            with patch.object(show, "boards_of", lambda found, named: read.extend(found) or boards_of(found, named)):
                text = state_html(found, ("red", "blue"), named, [])
            drawn = parsed(text)
            self.assertEqual((sum(map(len, read)), len(drawn.select(".board i")), len(drawn.select("li:not(.gone)"))), (count, places, terms))
