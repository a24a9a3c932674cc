"""The live pages over HTTP: their contents during matches, refused requests, and notifications of changes."""

import asyncio
import contextlib
import dataclasses
import errno
import gc
import http.client
import inspect
import io
import itertools
import json
import os
import queue
import re
import resource
import shutil
import signal
import socket
import sys
import tempfile
import threading
import time
import unittest
import urllib.request
from unittest.mock import Mock, patch

from ggp_tools.competition import files, http_server, live, live_site, pages
from ggp_tools.competition.competition_file import EACH_MATCH, WHEN_DEAD
from ggp_tools.competition.live_site import LiveSite
from ggp_tools.competition.page_parts import changes
from ggp_tools.competition.page_parts import Items, Part
from ggp_tools.competition.rounds import Round
from ggp_tools.referee import NoReferee, Referee
from html_pages import links_of, parsed, rows_of, text_of
from live_support import SILENT, Missed, begin, end, line, plan_in, record_of, started
from support import GAMES, InFolder, program, run, start

HOSTILE = ["<script>alert(1)</script>", "\"'><img src=x onerror=alert(1)>", "</tbody></table><b>", "&lt;&#65;", "<!--"]


class Served(unittest.TestCase):
    """A server of a competition in a directory. Only the tests read the directory."""

    MOST = 40
    STRIKES = BASE = ""
    NAMES = ORIGINS = ()

    def setUp(self):
        # On a busy computer, reading the records and asking the referee may take long. The tests neither wait for this nor fail because of
        # it.
        self.enterContext(patch.object(live, "clock", lambda: 1_000.0))
        for name, value in (("SHARE", 0), ("REFEREE_SHARE", 0), ("READING", 1e9)):
            self.enterContext(patch.object(live, name, value))
        for name, value in (("SHARE", 0), ("FOLLOW", 1e9)):
            self.enterContext(patch.object(live_site, name, value))
        self.plan = plan_in(self.enterContext(tempfile.TemporaryDirectory()), ["ann", "bob", "cid"], head=self.STRIKES)
        self.site = LiveSite(self.plan, Referee(program()), lambda: self.plan)
        self.site.update()
        begun = queue.Queue()
        thread = threading.Thread(target=lambda: asyncio.run(self.serve(begun)), daemon=True)
        thread.start()
        self.loop, stopped, self.port = begun.get()
        self.visitors = self.server.visitors
        self.addCleanup(thread.join)
        self.addCleanup(self.in_loop, stopped.set)

    async def serve(self, begun):
        self.server, stopped = http_server.Server(self.site, self.MOST, self.BASE, self.NAMES, self.ORIGINS), asyncio.Event()
        begun.put((asyncio.get_running_loop(), stopped, (await self.server.begin("127.0.0.1", 0))[1]))
        await stopped.wait()
        self.server.end()

    def in_loop(self, function, *values):
        """Calls a function in the event loop of the server. Returns its result or, if that is a coroutine, the coroutine's result."""

        async def called():
            found = function(*values)
            return await found if inspect.isawaitable(found) else found

        return asyncio.run_coroutine_threadsafe(called(), self.loop).result()

    def look(self):
        self.in_loop(self.server.update)

    def ask(self, path, method="GET", **headers):
        """Sends a request. Returns the status and the text of the answer."""
        asking = http.client.HTTPConnection("127.0.0.1", self.port, timeout=60)
        with contextlib.closing(asking):
            asking.request(method, path, headers=headers)
            answer = asking.getresponse()
            return answer.status, answer.read().decode()

    def page(self, path):
        status, text = self.ask(path)
        self.assertEqual(status, 200, path)
        return text

    def opened(self, path, method="GET", **headers):
        """Returns an answer whose body has not been read."""
        asking = http.client.HTTPConnection("127.0.0.1", self.port, timeout=60)
        self.addCleanup(asking.close)
        asking.request(method, path, headers=headers)
        return asking.getresponse()

    def events(self, page):
        """Opens the events of a page, and returns the answer."""
        return self.opened(f"""/{re.search('data-events="([^"]*)"', page)[1].replace('../', '')}""")

    def next_event(self, answer):
        """Returns the data of the next event. Keep-alive lines are skipped."""
        while not (said := answer.readline()).startswith(b"data: "):
            self.assertNotEqual(said, b"")
        return json.loads(said.removeprefix(b"data: "))

    def play(self, match, number, moves, answers, time=None):
        return "".join(line(match, role, number, f"(PLAY {match.id} {moves})", answer, 5, time) for role, answer in enumerate(answers))

    def say(self, log, text):
        with open(log, "a") as file:
            file.write(text)
        self.look()


    def write_journal(self, lines):
        self.plan.folder.journal.write_text("".join(f"2026-01-02T03:04:05.000Z {text}\n" for text in lines))


class Pages(Served):
    def test_what_stands_there_as_a_match_goes(self):
        match = self.plan.matches[0]
        self.assertIn("0 matches are open, 6 are waiting. <code>play</code> is not running now", self.page("/"))
        self.assertIn("It has not begun.", self.page(f"/matches/{match.id}.html"))
        log = begin(self.plan, match, started(match))
        self.look()
        self.assertIn("1 match is open, 5 are waiting.", self.page("/index.html"))
        self.say(log, self.play(match, 2, "NIL", ["(take 2)", "noop"]))
        first, own = self.page("/index.html"), self.page(f"/matches/{match.id}.html")
        self.assertIn("after turn 1", first)
        self.assertIn('title="1 2: black king"', first)
        self.assertEqual(rows_of(parsed(first).find(id="open"))[0][3:5], ["2", f"blue to move: {match.players[1]}"])
        self.assertIn("After turn 1: blue to move", own)
        # The other role had only one legal move.
        turn = parsed(own).find(id="turn-1")
        self.assertEqual((rows_of(parsed(own).find(id="turns")), text_of(turn.select_one(".idle"))), ([["1", "(take 2)", "noop"]], "noop"))
        self.say(log, self.play(match, 3, "((take 2) noop)", [SILENT]))
        self.assertNotIn("no answer came in time", self.page("/"))
        # In the second half of the clock, the page names the players that are awaited.
        self.site.reader.open[match.id].began -= 1_000
        self.look()
        now = parsed(self.page(f"/matches/{match.id}.html")).find(id="now")
        self.assertRegex(text_of(now), r"blue to move: bob \(")
        self.assertEqual(links_of(now), ["../players/player-bob.html"])
        self.say(log, self.play(match, 3, "((take 2) noop)", [SILENT, "(take 1)"]).splitlines(keepends=True)[1])
        self.assertIn("no answer came in time", self.page("/"))
        moves, errors = [["(take 2)", "noop"], ["noop", "(take 1)"]], [["", ""], ["TO", ""]]
        text = started(match) + self.play(match, 2, "NIL", ["(take 2)", "noop"]) + self.play(match, 3, "((take 2) noop)", [SILENT, "(take 1)"])
        end(self.plan, match, record_of(match, moves, errors, [0, 100]), text)
        self.look()
        self.assertIn("1 of 6 matches are over.", self.page("/"))
        over = self.page(f"/matches/{match.id}.html")
        self.assertIn('id="turn=2"', over)
        self.assertEqual([text_of(said) for said in parsed(over).select("strong, #turn\\=2 h2")], ["bob won.", "After turn 2: bob won."])
        self.assertEqual([text_of(winner) for winner in parsed(self.page("/")).select("#matches strong")], [f"{match.players[1]} 100"])
        player = self.page("/players/player-ann.html")
        for text in ("no answer came in time", f"(PLAY {match.id} ((take 2) noop))", "<code>TO</code>", f"<code>{SILENT}</code>", "5 ms", "<svg"):
            self.assertIn(text, player)
        self.assertIn(f"matches/{match.id}.html", self.page("/games/heap.html"))
        self.assertIn(f"matches/{match.id}.html", self.page("/matches.html"))

    def test_a_board_that_is_followed_late_shows_the_last_turn_that_is_over(self):
        match = self.plan.matches[0]
        self.page("/")
        log = begin(self.plan, match, started(match))
        self.look()
        self.assertIn("before turn 1", self.page("/index.html"))
        # The log gets the last answer of a turn and the first answer of the next turn at once.
        self.say(log, self.play(match, 2, "NIL", ["(take 2)", "noop"]) + self.play(match, 3, "((take 2) noop)", ["noop"]))
        self.assertIn(f"after turn 1; blue to move: {match.players[1]} (", text_of(parsed(self.page("/index.html"))))
        self.assertIn("After turn 1: blue to move", self.page(f"/matches/{match.id}.html"))

    def test_the_board_of_a_match_stays_for_a_minute_once_it_is_over(self):
        match, other = self.plan.matches[:2]
        begin(self.plan, match, started(match))
        self.look()
        self.page("/")
        moves, errors = [["(take 2)", "noop"], ["noop", "(take 1)"]], [["", ""], ["", ""]]
        for over in (match, other):
            end(self.plan, over, record_of(over, moves, errors, [0, 100]))
        found = []
        for moment in (1_000.0, 1_059.0, 1_060.0):
            with patch.object(live, "clock", lambda: moment):
                self.look()
                found.append([text_of(board.select_one(".dim")) for board in parsed(self.page("/")).select("#boards > div")])
        self.assertEqual(found, [[f"after turn 2: {match.players[1]} won."]] * 2 + [[]])

    def test_each_open_match_has_its_board(self):
        moves = dict(zip(self.plan.matches, (["(take 1)", "2 2: black king"], ["(take 2)", "1 2: black king"])))
        for match, (move, _) in moves.items():
            begin(self.plan, match, started(match) + self.play(match, 2, "NIL", [move, "noop"]))
        self.page("/")
        self.look()
        first = parsed(self.page("/"))
        for match, (_, title) in moves.items():
            self.assertEqual([cell["title"] for cell in first.select(f"#board-{match.id} i[title]")], ["1 1: white man", title])

    def test_each_link_leads_to_a_page(self):
        begin(self.plan, self.plan.matches[0], started(self.plan.matches[0]))
        end(self.plan, self.plan.matches[1], record_of(self.plan.matches[1], [["(take 2)", "noop"]], [["", "TO"]], [50, 50]))
        self.look()
        known, todo = set(), ["/index.html"]
        while todo:
            path = todo.pop()
            known.add(path)
            links = [link.partition("#")[0] for link in links_of(parsed(self.page(path)))]
            found = [os.path.normpath(os.path.join(os.path.dirname(path), link)) for link in links if link]
            todo += [path for path in dict.fromkeys(found) if path not in known and path not in todo]
        self.assertEqual(len(known), len({"index", "all matches", "game"}) + 3 + 2)

    def test_a_list_of_many_matches_comes_in_pages(self):
        with patch.object(pages, "MOST_LISTED", 2):
            for match in self.plan.matches[:3]:
                end(self.plan, match, record_of(match, [], [], [50, 50]))
            self.look()
            self.assertEqual([len(parsed(self.page(f"/matches{more}.html")).select("#matches tr")) for more in ("", "-2")], [2, 1])
            self.assertEqual([self.ask(f"/matches-{more}.html")[0] for more in ("3", "0", "1", "x")], [404] * 4)

    def test_a_record_is_read_once_and_a_page_made_once(self):
        match = self.plan.matches[0]
        end(self.plan, match, record_of(match, [], [], [50, 50]))
        self.look()
        self.page("/")
        made = self.site.pages["/index.html"].parts
        self.plan.folder.log(match.id).write_bytes(b"")
        self.look()
        self.page("/")
        self.assertIs(self.site.pages["/index.html"].parts, made)

    def test_a_record_that_can_not_be_one_is_named_and_stops_nothing(self):
        match, other = self.plan.matches[:2]
        turns = [["(take 2)", "noop"]], [["", ""]]
        good = record_of(match, *turns, [0, 100])
        end(self.plan, other, record_of(other, *turns, [0, 100]))
        bad = (
            ({"goalValues": [0, 10**400]}, "one of its goals is not from 0 to 100"),
            ({"goalValues": [101, 0]}, "one of its goals is not from 0 to 100"),
            ({"moves": [["noop", "noop"]] * 10_001, "errors": [["", ""]] * 10_001, "states": [[]] * 10_002}, "it has 10,001 turns, but a match can have at most 10,000"),
            ({"matchId": "x" * 10**6}, "..,"), ({"startClock": 10**400}, "..,"), ({"errors": [["", 1]]}, "expected in errors: for each turn of moves a list with one text for each role"),
        )
        for wrong, said in bad:
            with self.subTest(said=said):
                end(self.plan, match, good | wrong)
                # `serve` also starts if the record is already there.
                self.site = self.server.site = LiveSite(self.plan, Referee(program()), lambda: self.plan)
                self.site.update()
                first = self.page("/")
                self.assertIn("1 of 6 matches are over.", first)
                self.assertRegex(first, f"{match.id} does not count: .*{re.escape(said)}")
                self.assertLess(len(first), 100_000)
                self.assertIn("does not count", self.page(f"/matches/{match.id}.html"))
        end(self.plan, match, good)
        self.site = self.server.site = LiveSite(self.plan, Referee(program()), lambda: self.plan)
        self.look()
        self.assertIn("2 of 6 matches are over.", self.page("/"))

    def test_records_are_read_bit_by_bit(self):
        for match in self.plan.matches:
            end(self.plan, match, record_of(match, [], [], [50, 50]))
        with patch.object(live, "READING", -1):
            self.look()
            self.assertIn("6 records are not read yet, so the standings do not include them", self.page("/"))
            self.assertIn("0 of 6 matches are over.", self.page("/"))
            self.site.reader.update_record(self.site.reader.unread.popleft())
            self.site.next_tables = 0.0
            self.look()
            # `serve` does not show ratings before all records are read.
            self.assertEqual([row[-1] for row in rows_of(parsed(self.page("/")).find(id="standings"))[1:]], ["none"] * 2)
        self.site.next_tables = 0.0
        self.look()
        self.assertEqual({row[-1][0] for row in rows_of(parsed(self.page("/")).find(id="standings"))[1:]}, {"0"})
        self.assertNotIn("not read yet", self.page("/"))
        self.assertIn("6 of 6 matches are over.", self.page("/"))

    def test_a_page_changes_although_the_matches_on_it_stay_the_same(self):
        own, other = self.plan.matches[:2]
        end(self.plan, own, record_of(own, [], [], [50, 50]))
        self.look()
        self.assertIn("Place 1 of 2 in all games", self.page("/players/player-ann.html"))
        end(self.plan, other, record_of(other, [], [], [50, 50]))
        self.look()
        self.assertIn("Place 1 of 3 in all games", self.page("/players/player-ann.html"))

    def test_ratings_are_shown_once_all_records_are_read_even_if_the_last_does_not_count(self):
        good, bad = self.plan.matches[:2]
        end(self.plan, good, record_of(good, [], [], [50, 50]))
        end(self.plan, bad, record_of(bad, [], [], [101, 0]))
        with patch.object(live, "READING", -1):
            self.look()
            self.site.reader.update_record(good.id)
            self.look()
            found = [self.page("/games/heap.html")]
        self.look()
        found.append(self.page("/games/heap.html"))
        ratings = [{row[-1][0] for row in rows_of(parsed(page).find(id="standings"))[1:]} for page in found]
        self.assertEqual(ratings, [{"n"}, {"0"}])

    def test_pages_of_results_are_made_without_their_files(self):
        for match in self.plan.matches[:2]:
            end(self.plan, match, record_of(match, [["(take 2)", "noop"]], [["", "TO"]], [50, 50]))
        self.look()
        with patch.object(files, "opened_file", side_effect=AssertionError):
            for path in self.site.made:
                self.assertIn(self.plan.matches[0].game, self.page(f"/{path}"))

    def test_pages_are_made_while_records_are_read(self):
        for match in self.plan.matches:
            end(self.plan, match, record_of(match, [], [], [50, 50]))
        steps = self.site.steps()
        next(steps)
        self.assertIn("5 records are not read yet", self.page("/"))

    def test_a_page_waits_for_at_most_one_page_of_results(self):
        asked, made = [(name, f"/players/player-{name}.html") for name in ("ann", "bob", "cid")] + [("eve", live_site.FIRST)], []

        async def ask():
            await asyncio.gather(*(self.server.for_client(client, made.append, path) for client, path in asked))

        self.in_loop(ask)
        self.assertEqual(made, [path for _, path in (asked[0], asked[3], *asked[1:3])])

    def test_no_page_waits_for_that_of_a_match_that_is_over(self):
        match, begun, ends = self.plan.matches[0], threading.Event(), threading.Event()
        end(self.plan, match, record_of(match, [["(take 2)", "noop"]], [["IL x", ""]], [0, 100]))
        self.look()
        self.addCleanup(ends.set)
        with patch.object(live_site, "page_of", lambda *_: begun.set() or ends.wait(60) and b"made"):
            asking = [self.asked_apart(f"/matches/{match.id}.html", "192.0.2.1")]
            begun.wait(60)
            asking.append(self.asked_apart("/", "192.0.2.2"))
            self.assertIn("1 of 6 matches are over.", asking[1].getresponse().read().decode())
            ends.set()
            self.assertEqual(asking[0].getresponse().read(), b"made")

    def asked_apart(self, path, client):
        """Sends the request of a client. Returns the connection."""
        asking = http.client.HTTPConnection("127.0.0.1", self.port, timeout=60)
        self.addCleanup(asking.close)
        asking.request("GET", path, headers={"X-Forwarded-For": client})
        return asking

    def test_a_plan_that_changes(self):
        events = self.events(self.page("/"))
        self.plan.folder.schedule.write_text("another")
        self.look()
        self.assertTrue(self.next_event(events)["reload"])
        self.assertTrue(self.next_event(self.events(self.page("/").replace("?after=", "?after=old")))["reload"])

    def change_plan(self, matches):
        """Replaces the plan with one of these matches."""
        plan = dataclasses.replace(self.plan, matches=matches)
        self.site.read_plan = lambda: plan
        self.plan.folder.schedule.write_text("another")

    def assert_first(self, *words):
        """Checks that the first page contains these words and shows ratings."""
        first = self.page("/")
        for word in words:
            self.assertIn(word, first)
        self.assertNotIn("not read yet", first)
        self.assertNotIn("none", [row[-1] for row in rows_of(parsed(first).find(id="standings"))[1:]])
        return first

    def test_no_record_is_read_again_after_a_plan_that_only_grows(self):
        *begun, new = self.plan.matches
        self.site = self.server.site = LiveSite(dataclasses.replace(self.plan, matches=begun), Referee(program()), lambda: self.plan)
        for match in begun:
            end(self.plan, match, record_of(match, [["(take 2)", "noop"]], [["TO", ""]], [50, 50]))
        self.look()
        replaced = parsed(self.assert_first("5 of 5 matches are over.")).find(id="replaced")
        with patch.object(live.Reader, "take_record", side_effect=AssertionError):
            self.change_plan([*begun, new])
            self.look()
            first = self.assert_first("5 of 6 matches are over.", "Leader", "0 matches are open, 1 is waiting")
            self.assertEqual(rows_of(parsed(first).find(id="replaced")), rows_of(replaced))
        end(self.plan, begun[0], record_of(begun[0], [], [], [100, 0]))
        self.look()
        self.assert_first("5 of 6 matches are over.", f"{begun[0].players[0]} won")

    def test_the_last_board_of_a_match_stays_after_a_plan_that_follows_from_its_result(self):
        first, *others = self.plan.matches
        log = begin(self.plan, first, started(first))
        self.look()
        end(self.plan, first, record_of(first, [["(take 2)", "noop"]], [["", ""]], [50, 50]), log.read_text())
        self.change_plan([first, *others[1:]])
        self.look()
        self.assertIsNotNone(parsed(self.page("/")).find(id=f"board-{first.id}"))

    def test_the_old_plan_is_shown_until_the_records_of_the_new_one_are_read(self):
        for match in self.plan.matches:
            end(self.plan, match, record_of(match, [], [], [50, 50]))
        self.look()
        paths = ["/", "/matches.html", "/players/player-cid.html", "/api/matches", "/api/table", "/metrics"]
        before, events = self.pages(paths), self.events(self.page("/"))
        self.change_plan([dataclasses.replace(match, withdrawn="cid has withdrawn") if "cid" in match.players else match for match in self.plan.matches])
        with patch.object(live, "READING", -1):
            for left in (4, 3, 2, 1):
                self.look()
                self.assertEqual(self.pages(paths), before)
                self.assertEqual(len(self.site.newest.unread), left)
                self.site.newest.update_record(self.site.newest.unread.popleft())
            self.assert_first("6 of 6 matches are over.")
            self.look()
        self.assert_first("2 of 2 matches are over.")
        self.assertTrue(self.next_event(events)["reload"])

    def test_a_new_plan_is_shown_although_the_open_matches_can_not_be_listed(self):
        *begun, new = self.plan.matches
        self.site = self.server.site = LiveSite(dataclasses.replace(self.plan, matches=begun), Referee(program()), lambda: self.plan)
        listed = os.listdir

        def refuse(path):
            if path == self.plan.folder.open:
                raise PermissionError(errno.EACCES, os.strerror(errno.EACCES))
            return listed(path)

        with patch.object(live.os, "listdir", refuse):
            self.look()
            self.change_plan([*begun, new])
            end(self.plan, begun[0], record_of(begun[0], [], [], [50, 50]))
            self.look()
            self.assertIn("1 of 6 matches", self.page("/"))
            self.assertIn("The directory open can't be read", self.page("/").replace("&#39;", "'"))

    def pages(self, paths):
        """Returns the contents at these paths, except the time of day, the versions and the visitors."""
        return [re.sub('data-(now|events)="[^"]*"|"now": [0-9.]*|ggp_serve_.*', "", self.page(path)) for path in paths]

    def test_a_match_that_has_begun_is_not_shown_as_that_of_the_old_plan(self):
        first, *others = self.plan.matches
        for match in others:
            end(self.plan, match, record_of(match, [], [], [50, 50]))
        self.look()
        new, path = dataclasses.replace(first, players=first.players[::-1]), f"/api/matches/{first.id}"
        self.change_plan([new, *(dataclasses.replace(match, withdrawn="x has withdrawn") for match in others)])
        with patch.object(live, "READING", -1):
            self.look()
            self.assertEqual(json.loads(self.page(path))["players"], [*first.players])
            begin(self.plan, new)
            self.look()
        self.assertEqual([json.loads(self.page(path))[key] for key in ("players", "state")], [[*new.players], "open"])

    def test_a_plan_that_can_not_be_read(self):
        match, other, path = *self.plan.matches[:2], self.plan.folder.path
        end(self.plan, other, record_of(other, [["(take 1)", "noop"]], [["", ""]], [0, 100]))
        self.look()
        faults = (
            (files.Refused(f"{path}/schedule.tsv is not what {path}/competition.toml says"), "schedule.tsv is not what competition.toml says"),
            (files.Refused(f"{path}/schedule.tsv: /opt/games/heap.kif is there"), "schedule.tsv: heap.kif is there"),
            (OSError(5, "Input/output error", f"{path}/rules/heap.kif"), "rules/heap.kif: Input/output error"),
            (NoReferee(f"{path}/ggp_manager is not an executable program"), "the referee program can&#39;t be run"),
        )
        places = ["/", "/matches.html", "/games/heap.html", f"/matches/{match.id}.html", f"/matches/{other.id}.html", "/players/player-ann.html"]
        for number, (fault, said) in enumerate(faults):
            self.site.read_plan = Mock(side_effect=fault)
            self.plan.folder.schedule.write_text("x" * number)
            with patch.object(sys, "stderr", io.StringIO()) as told:
                self.look()
            self.assertIn(str(fault), told.getvalue())
            for place in places:
                text = self.page(place)
                self.assertIn(f"these pages show the previous plan: {said}", text, place)
                self.assertFalse(str(path) in text or "/opt" in text, place)

    def test_a_plan_that_can_not_be_read_is_read_again(self):
        plan, fault = dataclasses.replace(self.plan), NoReferee("ggp_manager is not an executable program")
        self.site.read_plan = Mock(side_effect=[fault, fault, plan])
        self.plan.folder.schedule.write_text("another")
        with patch.object(sys, "stderr", io.StringIO()) as told:
            with patch.object(live_site, "RETRY", 1e9):
                self.look()
                self.look()
            self.assertEqual(self.site.read_plan.call_count, 1)
            self.site.next_reading = 0.0
            with patch.object(live_site, "RETRY", 0):
                self.look()
                self.assertIn("these pages show the previous plan", self.page("/"))
                self.look()
        self.assertEqual(told.getvalue().count(str(fault)), 1)
        self.assertIs(self.site.plan, plan)
        self.assertNotIn("these pages show the previous plan", self.page("/"))
        self.look()
        self.assertEqual(self.site.read_plan.call_count, 3)

    def test_a_plan_that_changes_while_it_is_read(self):
        read = []

        def read_plan():
            read.append(self.plan)
            self.plan.folder.schedule.write_text("a round more" * len(read))
            return self.plan

        self.site.read_plan = read_plan
        self.plan.folder.schedule.write_text("another")
        self.look()
        self.look()
        self.assertEqual(len(read), 2)


    def test_a_match_that_was_given_up_says_why(self):
        lost, other, again = self.plan.matches[:3]
        lines = ["play 6 matches", f"no record {again.id}: ann is silent", f"missing {again.id}: ann is silent", "play 6 matches"]
        lines += [f"info {lost.id} ann: refused, 0.0 s", f"no record {lost.id}: its files: {self.plan.folder.path}/x"]
        lines += [f"missing {other.id}: not begun", "no record none: x", f"no record {other.id}"]
        self.write_journal(lines)
        # `serve` may begin during the second run.
        self.site = self.server.site = LiveSite(self.plan, Referee(program()), lambda: self.plan)
        self.look()
        first = self.page("/")
        self.assertIn("5 are waiting, 1 was given up", first)
        self.assertEqual([(row[0], row[-1]) for row in rows_of(parsed(first).find(id="given-up"))[1:]], [(lost.id, "its files: x")])
        self.assertIn("It was given up: its files: x.", self.page(f"/matches/{lost.id}.html"))
        self.assertIn("It has not begun.", self.page(f"/matches/{again.id}.html"))
        # The waiting matches of a game with wrong rules will not begin.
        lines.append(f"stopped {lost.game}, because {lost.id} does not follow its description; 5 waiting matches of this game will not begin")
        self.write_journal(lines)
        self.look()
        self.assertIn("0 matches are open, 0 are waiting, 6 were given up", self.page("/"))
        self.assertIn(f"because {lost.id} does not follow its description.", self.page(f"/matches/{again.id}.html"))
        # The next run plays the match that was given up.
        self.write_journal([*lines, "play 1,000 matches"])
        self.look()
        self.assertIn("0 matches are open, 6 are waiting.", self.page("/"))

    def test_players_that_were_restarted_are_named_once_that_says_nothing_of_a_turn(self):
        """The other players of the turn must not learn that a player is dead."""
        commands = (Mock(restart=WHEN_DEAD), Mock(restart=EACH_MATCH), None)
        players = tuple(dataclasses.replace(player, command=command) for player, command in zip(self.plan.competition.players, commands))
        self.plan.competition = dataclasses.replace(self.plan.competition, players=players)
        match = self.plan.matches[0]
        log = begin(self.plan, match, started(match) + self.play(match, 2, "NIL", ["(take 1)", "noop"]))
        self.write_journal([f"restart {other.id} {name}: process 7, port 8" for other, name in zip(self.plan.matches[1:], ("ann", "ann", "bob"))])
        # The page does not show the restart either if `serve` starts during the turn, or if the same update reads the end of the previous turn.
        moment = itertools.count()
        self.enterContext(patch.object(live, "clock", lambda: next(moment) / 1_000))
        self.site = self.server.site = LiveSite(self.plan, Referee(program()), lambda: self.plan)
        for _ in range(2):
            self.look()
            self.assertNotIn("was restarted", self.page("/"))
        self.say(log, self.play(match, 3, "((take 1) noop)", ["noop", "(take 1)"]))
        self.look()
        self.assertIn(f"ann was restarted 2 times, the last time, for {self.plan.matches[2].id}<", self.page("/"))
        self.assertNotIn("bob was restarted", self.page("/"))

    def test_a_new_run_forgets_who_was_restarted_in_the_earlier_one(self):
        players = tuple(dataclasses.replace(player, command=Mock(restart=WHEN_DEAD)) for player in self.plan.competition.players)
        self.plan.competition = dataclasses.replace(self.plan.competition, players=players)
        match, other = self.plan.matches[:2]
        log = begin(self.plan, match, started(match))
        self.site = self.server.site = LiveSite(self.plan, Referee(program()), lambda: self.plan)
        # Ann plays, so her restart is not shown yet.
        rows = [f"restart {other.id} {name}: process 7, port 8" for name in ("cid", "ann")]
        self.write_journal(rows)
        self.look()
        self.assertIn(f"cid was restarted once, for {other.id}<", self.page("/"))
        self.write_journal([*rows, "play 5 matches"])
        self.look()
        self.say(log, self.play(match, 2, "NIL", ["(take 1)", "noop"]))
        self.look()
        self.assertNotIn("was restarted", self.page("/"))

    def test_a_restart_for_a_match_of_a_plan_that_is_not_known_is_not_shown(self):
        """The player may have died in an open turn of another match of this plan."""
        players = tuple(dataclasses.replace(player, command=Mock(restart=WHEN_DEAD)) for player in self.plan.competition.players)
        self.plan.competition = dataclasses.replace(self.plan.competition, players=players)
        self.write_journal(["restart cup-099 ann: process 7, port 8", f"restart {self.plan.matches[0].id} bob: process 7, port 8"])
        self.site = self.server.site = LiveSite(self.plan, Referee(program()), lambda: self.plan)
        self.look()
        self.assertIn("bob was restarted once", self.page("/"))
        self.assertNotIn("ann was restarted", self.page("/"))

    def test_an_open_match_that_no_plan_has_may_be_that_of_any_player(self):
        """While a new plan cannot be read, the pages do not show facts that a silent or dead player in an open turn of its matches would explain."""
        players = tuple(dataclasses.replace(player, command=Mock(restart=WHEN_DEAD)) for player in self.plan.competition.players)
        self.plan.competition = dataclasses.replace(self.plan.competition, players=players)
        unknown, asking, given_up, other = self.plan.matches[:4]
        self.plan.matches = self.plan.matches[1:]
        self.site = self.server.site = LiveSite(self.plan, Referee(program()), lambda: self.plan)
        log = begin(self.plan, unknown)
        (self.plan.folder.open / asking.id).mkdir()
        (self.plan.folder.open / asking.id / "asking").touch()
        self.write_journal([f"no record {given_up.id}: ann is silent", f"restart {other.id} bob: process 7, port 8"])
        shown = []
        for _ in range(2):
            self.look()
            first = self.page("/")
            shown.append([text in first for text in ("1 match is open", "ann is silent", "bob was restarted")])
            shutil.rmtree(log.parent, ignore_errors=True)
        self.assertEqual(shown, [[False] * 3, [True] * 3])

    def test_a_turn_that_was_broken_off_counts_as_open(self):
        """The match may begin again, and then the players do not know yet who was dead."""
        match, other = self.plan.matches[:2]
        players = tuple(dataclasses.replace(player, command=Mock(restart=WHEN_DEAD)) for player in self.plan.competition.players)
        self.plan.competition = dataclasses.replace(self.plan.competition, players=players)
        self.site = self.server.site = LiveSite(self.plan, Referee(program()), lambda: self.plan)
        turn, restart, left = self.play(match, 2, "NIL", ["(take 1)", "noop"]), f"restart {other.id} ann: process 7, port 8", f"no record {match.id}: x"
        # The match is open, is interrupted, begins again, is interrupted again, and is given up.
        for rows, log in (([], turn), ([restart], turn), ([restart], None), ([restart], ""), ([restart], None), ([restart, left], None)):
            shutil.rmtree(self.plan.folder.open / match.id, ignore_errors=True)
            if log is not None:
                begin(self.plan, match, started(match) + log)
            self.write_journal(rows)
            self.look()
            self.assertEqual("ann was restarted" in self.page("/"), left in rows)

    def test_a_silent_player_is_named_once_that_says_nothing_of_a_turn(self):
        """A player that may play several matches at once may be silent in an open turn, and also not answer the INFO of another match."""
        match, other = [match for match in self.plan.matches if "ann" in match.players][:2]
        log = begin(self.plan, match, started(match) + self.play(match, 2, "NIL", ["(take 1)", "noop"]))
        (self.plan.folder.open / other.id).mkdir()
        (self.plan.folder.open / other.id / "asking").touch()
        self.look()
        self.assertIn("1 match is open", self.page("/"))
        self.write_journal([f"no record {other.id}: ann is silent"])
        for _ in range(2):
            self.look()
            self.assertNotIn("ann is silent", self.page("/"))
        self.say(log, self.play(match, 3, "((take 1) noop)", ["noop", "(take 1)"]))
        self.look()
        self.assertIn("ann is silent", self.page("/"))


class Delayed(Served):
    """Pages with a delay of a few seconds. The tests control the clock and the time of day."""

    def setUp(self):
        super().setUp()
        self.moment = time.time()
        self.enterContext(patch.object(time, "time", lambda: self.moment))
        self.enterContext(patch.object(live, "clock", lambda: self.moment))
        self.begin_late()

    def begin_late(self):
        """Serves another directory."""
        plan = self.plan = plan_in(self.enterContext(tempfile.TemporaryDirectory()), ["ann", "bob", "cid"])
        self.site = self.server.site = LiveSite(plan, Referee(program()), lambda: plan, delay=60)
        self.look()

    def look_at(self, seconds):
        """Reads the directory this many seconds later. Returns the numbers of open and of finished matches on the first page."""
        self.moment += seconds
        self.look()
        first = self.page("/")
        return re.search("[0-9]+ match(es are| is) open", first)[0], re.search("[0-9]+ of 6", first)[0]

    def assert_shown_late(self, is_shown):
        """Checks that something is shown only after the delay."""
        for seconds, expected in ((1, False), (58, False), (62, True)):
            self.look_at(seconds)
            self.look()
            self.assertEqual(is_shown(), expected, seconds)

    def test_everything_is_shown_late(self):
        # The log and the record may have a wrong time of day, or none.
        for time_of_day in (None, 0, 10**12, 10**14):
            with self.subTest(time_of_day):
                self.begin_late()
                self.look_at_a_match(time_of_day)

    def test_a_match_that_begins_again_is_shown_late_too(self):
        match = self.plan.matches[0]
        log = begin(self.plan, match, started(match) + self.play(match, 2, "NIL", ["(bad)", "noop"]) + self.play(match, 3, "x", ["(bad)" * 99, "noop"]))
        self.look_at(1)
        self.look_at(61)
        other = log.with_name("other")
        other.write_text(started(match) + self.play(match, 2, "NIL", ["(take 2)", "noop"]))
        other.replace(log)
        self.assert_shown_late(lambda: "(take 2)" in self.page(f"/api/matches/{match.id}"))

    def look_at_a_match(self, time_of_day):
        match = self.plan.matches[0]
        log = begin(self.plan, match, started(match, time_of_day) + self.play(match, 2, "NIL", ["(take 2)", "noop"], time_of_day))
        self.assertEqual(self.look_at(1), ("0 matches are open", "0 of 6"))
        self.assertEqual(self.look_at(58), ("0 matches are open", "0 of 6"))
        # The match is over before the pages show any part of it.
        lines = self.play(match, 3, "((take 2) noop)", ["noop", "(take 1)"], time_of_day)
        end(self.plan, match, record_of(match, [["(take 2)", "noop"], ["noop", "(take 1)"]], [["", ""]] * 2, [0, 100]), log.read_text() + lines)
        moment = self.moment if time_of_day is None else time_of_day / 1_000
        os.utime(self.plan.folder.record(match.id), (moment, moment))
        self.assertEqual(self.look_at(3), ("1 match is open", "0 of 6"))
        page = self.page(f"/matches/{match.id}.html")
        self.look()
        page = self.page(f"/matches/{match.id}.html")
        self.assertIn("After turn 1", page)
        self.assertNotIn("(take 1)", page)
        self.assertIn(f'data-now="{self.moment - 60:.1f}"', page)
        self.assertEqual(self.look_at(50), ("1 match is open", "0 of 6"))
        self.assertEqual(self.look_at(10), ("0 matches are open", "1 of 6"))
        self.assertIn('id="turn=2"', self.page(f"/matches/{match.id}.html"))

    def test_a_record_that_is_replaced_is_shown_late_too(self):
        match, other = self.plan.matches[:2]
        turns = [["(take 2)", "noop"], ["noop", "(take 1)"]], [["", ""]] * 2
        for over in (match, other):
            end(self.plan, over, record_of(over, *turns, [0, 100]))
        self.look_at(1)
        self.assertEqual(self.look_at(61)[1], "2 of 6")
        # The page of the match has not been requested so far.
        places = f"/matches/{match.id}.html", f"/api/matches/{match.id}", "/", "/players/player-ann.html", "/matches.html", "/api/table"
        end(self.plan, match, record_of(match, [["(take 1)", "noop"]], [["IL (zq)", ""]], [100, 0]))
        self.plan.folder.record(other.id).unlink()
        shown = []
        for seconds in (0, 1, 58, 62):
            self.look_at(seconds)
            texts = [self.ask(path)[1] for path in places]
            shown.append((any(word in text for word in ("zq", f"{match.players[0]} won") for text in texts), "1 of 6" in texts[2]))
        self.assertEqual(shown, [(False, False)] * 3 + [(True, True)])

    def test_a_journal_that_is_replaced_is_shown_late_too(self):
        match, words = self.plan.matches[0], "2026-01-02T03:04:05.000Z no record {}: {}\n"
        self.plan.folder.journal.write_text(words.format(self.plan.matches[1].id, "ann is silent" * 5))
        self.look_at(1)
        self.look_at(61)
        other = self.plan.folder.journal.with_name("other")
        other.write_text(words.format(match.id, "bob is silent"))
        other.replace(self.plan.folder.journal)
        self.assert_shown_late(lambda: "bob is silent" in self.page("/"))

    def test_a_plan_is_shown_late(self):
        plans = []
        for at in range(5):
            self.moment += 30
            plans.append(dataclasses.replace(self.plan))
            self.site.read_plan = lambda: plans[-1]
            self.plan.folder.schedule.write_text("x" * at)
            # The modification time of the file does not matter.
            os.utime(self.plan.folder.schedule, (at, at))
            self.site.update()
            self.assertIs(self.site.plan, self.plan if at < 2 else plans[at - 2])

    def test_the_matches_of_a_later_plan_are_shown_no_later_than_others(self):
        opened, over = self.plan.matches[4:]
        first = dataclasses.replace(self.plan, matches=self.plan.matches[:4])
        self.site = self.server.site = LiveSite(first, Referee(program()), lambda: self.plan, delay=60)
        self.look()
        self.moment += 1
        self.plan.folder.schedule.write_text("another")
        begin(self.plan, opened, started(opened))
        end(self.plan, over, record_of(over, [["(take 1)", "noop"]], [["", ""]], [0, 100]))
        os.utime(self.plan.folder.record(over.id), (self.moment, self.moment))
        for seconds, expected in ((0, []), (59, []), (1, ["open", "over"])):
            self.moment += seconds
            self.look()
            self.look()
            states = {row["id"]: row["state"] for row in json.loads(self.page("/api/matches"))["matches"]}
            self.assertEqual([states[match.id] for match in (opened, over) if match.id in states], expected)

    def test_few_plans_wait_until_they_are_shown(self):
        last = dataclasses.replace(self.plan, matches=self.plan.matches[:-1])
        for at in range(40):
            self.moment += 1
            self.plan.folder.schedule.write_text("x" * at)
            self.site.read_plan = lambda at=at: last if at == 39 else self.plan
            self.site.update_plan()
            self.assertLessEqual(len(self.site.plans), 16)
        self.moment += 60
        self.site.update()
        self.assertEqual((self.site.plan, self.site.plans), (last, []))

    def test_an_open_match_that_a_later_plan_lacks(self):
        begin(self.plan, self.plan.matches[-1])
        self.look_at(1)
        self.assertEqual(self.look_at(60)[0], "1 match is open")
        self.site.read_plan = lambda: dataclasses.replace(self.plan, matches=self.plan.matches[:-1])
        self.plan.folder.schedule.write_text("another")
        self.look()
        self.moment += 60
        self.look()
        self.look()
        first = self.page("/")
        self.assertIn("0 matches are open", first)
        self.assertNotIn("KeyError", first)

    def test_a_record_from_the_future_is_not_shown_later_than_others(self):
        match = self.plan.matches[0]
        end(self.plan, match, record_of(match, [["(take 1)", "noop"]], [["", ""]], [0, 100]))
        os.utime(self.plan.folder.record(match.id), (self.moment + 10_000, self.moment + 10_000))
        self.site = self.server.site = LiveSite(self.plan, Referee(program()), lambda: self.plan, delay=60)
        self.look()
        self.assertEqual([self.look_at(seconds)[1] for seconds in (59, 1)], ["0 of 6", "1 of 6"])

    def test_a_round_that_was_paired_a_moment_ago_waits_also_for_a_server_that_begins_then(self):
        matches = [dataclasses.replace(match, round=1 + at // 2) for at, match in enumerate(self.plan.matches)]
        plan = dataclasses.replace(self.plan, matches=matches, rounds=[Round(number, (), ()) for number in (1, 2, 3)])
        for match, age in zip(matches, (100, 90, 80, 10)):
            plan.folder.record(match.id).touch()
            os.utime(plan.folder.record(match.id), (self.moment - age, self.moment - age))
        site = LiveSite(plan, Referee(program()), lambda: plan, delay=60)
        self.assertEqual((site.plan.matches, len(site.plan.rounds)), (matches[:4], 2))
        self.moment += 59
        site.update_plan()
        self.assertEqual(site.plan.matches, matches[:4])
        self.moment += 1
        site.update_plan()
        self.assertIs(site.plan, plan)


class Refused(Served):
    def test_other_paths(self):
        self.plan.folder.competition.write_text("secret")
        places = (
            "/competition.toml", "/../competition.toml", "/matches/../competition.toml", "/matches/%2e%2e/competition.toml", "/matches/none.html",
            "/games/..html", "/players/ann.html", "/players/player-zoe.html", "/records/", "//etc/passwd", "//[", "/index.html/", "/events/", "/events/x",
            "/matches/..%2f..%2fcompetition.html", "/index", "/%00", "/matches/\\..\\x.html", "*", "/?x", "/index.html?x",
        )
        for path in places:
            status, text = self.ask(path)
            self.assertIn(status, (200,) if path.endswith("?x") else (400, 404), path)
            self.assertNotIn("secret", text)
        self.assertEqual(self.ask("/events/matches/none.html?after=0")[0], 404)

    def test_other_methods(self):
        for method in ("POST", "PUT", "DELETE", "OPTIONS", "PATCH"):
            self.assertEqual(self.ask("/", method)[0], 405, method)
            self.assertEqual(self.opened("/", method).getheader("Allow"), "GET, HEAD")
        self.assertEqual(self.ask("/", "BREW")[0], 400)

    def test_addresses_that_cannot_be_read_are_not_logged(self):
        for line in (b"GET http://[", b"CONNECT /\xff"):
            with self.subTest(line=line), self.assertNoLogs("asyncio"):
                with socket.create_connection(("127.0.0.1", self.port), timeout=60) as asking:
                    asking.sendall(line + b" HTTP/1.1\r\n\r\n")
                    with contextlib.suppress(ConnectionError):
                        self.assertEqual(asking.recv(100), b"")
                # asyncio logs a failed task when the task is garbage-collected.
                self.in_loop(gc.collect)

    def test_head_is_answered_like_get_without_a_body(self):
        for path, host in (("/", ""), ("/metrics", ""), ("/api/matches/none", ""), ("/none.html", ""), ("/", "evil.example"), ("/api/events", "")):
            heads = []
            for method in ("GET", "HEAD"):
                with contextlib.closing(socket.create_connection(("127.0.0.1", self.port), timeout=60)) as asking:
                    asking.sendall(f"{method} {path} HTTP/1.1\r\nHost: {host or 'localhost'}\r\n\r\n".encode())
                    parts = iter(lambda: asking.recv(65_536), b"")
                    # A stream of events has no end.
                    whole = b"".join(parts) if method == "HEAD" or path != "/api/events" else next(parts)
                head, _, body = whole.partition(b"\r\n\r\n")
                heads.append([line for line in head.split(b"\r\n") if not line.startswith(b"Date: ")])
            self.assertEqual((heads[0], body), (heads[1], b""), path)

    def test_other_names(self):
        # Only this computer can reach the server. A site whose name resolves to this address must not get the pages.
        self.assertEqual(self.ask("/", Host="evil.example")[0], 403)
        for host in ("localhost:80", "127.0.0.1", "[::1]:80"):
            self.assertEqual(self.ask("/", Host=host)[0], 200, host)

    def test_a_loopback_address_in_whatever_form(self):
        for address, is_open in (("127.0.0.1", False), ("::1", False), ("::ffff:127.0.0.1", False), ("192.0.2.1", True)):
            self.server.address = address
            self.assertEqual(self.server.is_open_to("evil.example"), is_open, address)

    def test_nothing_is_written(self):
        match = self.plan.matches[0]
        begin(self.plan, match, started(match))
        before = {str(path): path.stat().st_mtime_ns for path in self.plan.folder.path.rglob("*")}
        self.look()
        self.page("/")
        self.page(f"/matches/{match.id}.html")
        self.assertEqual({str(path): path.stat().st_mtime_ns for path in self.plan.folder.path.rglob("*")}, before)


class Events(Served):
    def test_a_page_is_told_of_what_changes(self):
        match, other = self.plan.matches[0], self.plan.matches[5]
        log = begin(self.plan, match, started(match))
        self.look()
        events = self.events(self.page("/"))
        self.say(log, self.play(match, 2, "NIL", ["(take 1)", "noop"]))
        told = self.next_event(events)
        self.assertIn(f"open-{match.id}", [name for name, _ in told["set"]])
        begin(self.plan, other, started(other))
        self.look()
        told = self.next_event(events)
        self.assertEqual([added[:2] for added in told["add"] if added[0] == "open"], [["open", None]])
        end(self.plan, match, record_of(match, [["(take 1)", "noop"]], [["", ""]], [0, 100]))
        self.look()
        told = self.next_event(events)
        self.assertTrue(told.get("reload") or f"open-{match.id}" in told["drop"])

    def test_a_fault_in_a_look_is_said_and_the_next_look_goes_on(self):
        page = self.site.opened("/index.html")
        page.viewers += 1
        with patch.object(self.site.reader, "update", side_effect=KeyError("a fault")), patch.object(sys, "stderr", io.StringIO()) as told:
            self.look()
            self.look()
        self.assertEqual(told.getvalue(), "ggp_competition: can't update the pages: KeyError('a fault')\n")
        self.assertIn("an error in ggp_competition", "".join(part.html() for part in page.parts))
        begin(self.plan, self.plan.matches[0])
        self.look()
        said = "".join(part.html() for part in page.parts)
        self.assertEqual(("error in" in said, "1 match is open" in said), (False, True))

    def test_updates_go_on_although_nobody_reads_the_errors(self):
        broken = Mock(write=Mock(side_effect=BrokenPipeError))
        with patch.object(sys, "stderr", broken), patch.object(self.site.reader, "update", side_effect=KeyError):
            self.look()
        self.site.read_plan = Mock(side_effect=OSError(5, "x"))
        self.plan.folder.schedule.write_text("another")
        begin(self.plan, self.plan.matches[0])
        with patch.object(sys, "stderr", broken):
            self.look()
        self.assertIn("1 match is open", self.page("/"))
        with patch.object(sys, "stderr", broken), patch.object(self.site, "page", side_effect=KeyError):
            self.assertEqual(self.ask("/")[0], 500)

    def test_a_match_that_ends_gets_its_other_page(self):
        match = self.plan.matches[0]
        begin(self.plan, match, started(match))
        self.look()
        events = self.events(self.page(f"/matches/{match.id}.html"))
        end(self.plan, match, record_of(match, [], [], [0, 100]))
        self.look()
        self.assertTrue(self.next_event(events)["reload"])
        self.assertEqual(events.read().strip(), b"")

    def test_a_page_that_is_dropped_as_somebody_begins_to_watch_it_is_loaded_again(self):
        opened = self.site.opened

        def opened_and_dropped(path):
            page = opened(path)
            with patch.object(live_site, "MOST_PAGES", 0):
                self.site.drop_idle_pages()
            return page

        first = self.page("/")
        with patch.object(self.site, "opened", opened_and_dropped):
            self.assertTrue(self.next_event(self.events(first))["reload"])

    def test_who_is_gone_is_no_viewer_any_more(self):
        path = re.search('data-events="([^"]*)"', self.page("/"))[1]
        with socket.create_connection(("127.0.0.1", self.port), timeout=60) as visitor:
            visitor.sendall(f"GET /{path} HTTP/1.1\r\nHost: localhost\r\n\r\n".encode())
            self.assertTrue(visitor.recv(100).startswith(b"HTTP/1.1 200 "))
            self.assertEqual(len(self.visitors.viewers), 1)
        while self.visitors.viewers:
            self.look()
        self.assertEqual(self.site.pages["/index.html"].viewers, 0)

    def test_a_page_that_nobody_looks_at_is_not_made(self):
        match = self.plan.matches[0]
        log = begin(self.plan, match, started(match))
        self.page("/")
        made = self.site.pages["/index.html"].parts
        self.say(log, self.play(match, 2, "NIL", ["(take 1)", "noop"]))
        self.assertIs(self.site.pages["/index.html"].parts, made)
        self.site.pages["/index.html"].touched -= 100
        self.look()
        self.assertEqual(dict(self.site.pages), {})


class Hostile(Served):
    def test_what_players_say_is_text(self):
        match, other = self.plan.matches[:2]
        log = started(match)
        # After three turns the match is over.
        for number, text in enumerate((HOSTILE[4], HOSTILE[2], HOSTILE[0]), 2):
            log += line(match, 0, number, f"(PLAY m {text})", text) + line(match, 1, number, f"(PLAY m {text})", Missed(f"CE ({text})"))
        begin(self.plan, match, log + "".join(f"{text}\n" for text in HOSTILE))
        moves, errors = [[text, "noop"] for text in HOSTILE], [[f"IL {text}", text] for text in HOSTILE]
        record = record_of(other, moves, errors, [0, 100]) | {"roles": HOSTILE[:2]}
        end(self.plan, other, record, "".join(line(other, 0, number, f"(PLAY m {text})", text) for number, text in enumerate(HOSTILE, 2)))
        self.look()
        self.page(f"/matches/{match.id}.html")
        self.look()
        places = ["/", "/matches.html", "/games/heap.html", f"/matches/{match.id}.html", f"/matches/{other.id}.html"]
        for path in [*places, *(f"/players/player-{name}.html" for name in ("ann", "bob", "cid"))]:
            text = self.page(path)
            found = parsed(text)
            self.assertEqual(found.select("img, plaintext, td b, body > b"), [], path)
            self.assertLessEqual(len(found("script")), 1, path)
            self.assertEqual([word for word in HOSTILE if word in text], [], path)
        own = self.page(f"/matches/{match.id}.html")
        self.assertEqual((len(parsed(own).select("#turns tr")), own.count("IL &lt;!--"), own.count("CE (&lt;!--")), (3, 1, 1))
        self.assertIn("&lt;script&gt;alert(1)&lt;/script&gt;", self.page(f"/players/player-{other.players[0]}.html"))


class Command(InFolder):
    def test_it_is_served_until_it_is_interrupted(self):
        self.plan([("ann", "127.0.0.1:9"), ("bob", "127.0.0.1:10")], [("tictactoe", GAMES / "tictactoe.kif")])
        for number in (signal.SIGINT, signal.SIGTERM):
            with self.subTest(number):
                self.look_at_a_server_until(number)

    def look_at_a_server_until(self, number: int) -> None:
        """Starts a server as a shell does in the background, where interrupts are ignored, and ends it by this signal."""
        ignoring = {"preexec_fn": lambda: signal.signal(signal.SIGINT, signal.SIG_IGN)}
        with start(self.folder, "serve", "--port", "0", **ignoring) as serving_it:
            address = serving_it.stdout.readline().strip()
            self.assertRegex(address, r"http://127\.0\.0\.1:[0-9]+/")
            port = address.rpartition(":")[2].strip("/")
            self.assertIn(f"can't listen on 127.0.0.1 port {port}: Address already in use", run(self.folder, "serve", "--port", port)[2])
            with urllib.request.urlopen(address, timeout=60) as answer:
                self.assertIn(b"0 of 2 matches are over.", answer.read())
            serving_it.send_signal(number)
            self.assertEqual((serving_it.communicate(timeout=60), serving_it.returncode), (("", ""), 0))

    def test_connections_that_the_limit_of_open_files_cannot_take(self):
        few = {"preexec_fn": lambda: resource.setrlimit(resource.RLIMIT_NOFILE, (256, 256))}
        self.assertIn("--connections 256 needs 320 open files, but the system allows only 256", run(self.folder, "serve", "--port", "0", **few)[2])

    def test_what_is_asked_wrong(self):
        for words in (("--port", "65536"), ("--port", "x"), ("--bind", "localhost"), ("--connections", "0"), ("--delay", "3601")):
            status, _, said = run(self.folder, "serve", *words)
            self.assertEqual((status, said.endswith(f", found {words[1]!r}\n")), (2, True), words)
        self.assertEqual(run(self.folder, "serve")[0], 2)


class Changes(unittest.TestCase):
    def items(self, *names):
        return Items("list", "<ul id=list>", tuple((name, f"<li id={name[0]}>{name}</li>") if len(name) > 1 else (name, f"<li id={name}>") for name in names), "</ul>")

    def applied(self, told, names):
        """Returns the items in a browser after these changes."""
        names = [name for name in names if name not in told["drop"]]
        for _, before, text in told["add"]:
            names.insert(names.index(before) if before else len(names), re.search("id=([a-z])", text)[1])
        return names

    def test_items_that_come_go_and_move(self):
        for old, new in (("abc", "abc"), ("abc", "bcd"), ("", "abc"), ("abc", ""), ("abcd", "dabc"), ("abc", "axbyc"), ("ac", "xabcz")):
            told = changes([self.items(*old)], [self.items(*new)])
            self.assertEqual(self.applied(told, list(old)) if told else list(old), list(new), (old, new))

    def test_parts(self):
        one, other = Part("a", "x"), Part("a", "y")
        self.assertIsNone(changes([one], [one]))
        self.assertEqual(changes([one], [other])["set"], [["a", '<section id="a">y</section>']])
        self.assertEqual(changes([one], [one, Part("b", "")]), {"reload": True})
