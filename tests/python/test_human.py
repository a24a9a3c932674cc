"""`ggp-human`: its answers to the referee, and the data of its page."""

import contextlib
import functools
import http.client
import io
import itertools
import json
import pathlib
import re
import select
import signal
import socket
import subprocess
import sys
import threading
import time
import unittest
import urllib.request
from unittest import mock

from ggp_tools.holding.game import Game
from ggp_tools.human import seat, server
from ggp_tools.human.game import Shown
from ggp_tools.human.seat import MOST_MESSAGE, Seat, Unread, head_of, members_of
from ggp_tools.human.server import MOST_CONNECTIONS, Server
from ggp_tools.kif import Refused
from ggp_tools.records.show import boards_of, places_of
from html_pages import parsed, text_of
from support import GAMES, TOP

RULES = (GAMES / "tictactoe.kif").read_text(encoding="ascii")
# Rules with variables: each role says a number.
OPEN = """
(role a) (role b) (number 1) (number 2) (init new) (<= (legal ?r (say ?n)) (role ?r) (number ?n) (true new))
(<= (next (said ?r ?n)) (does ?r (say ?n))) (<= terminal (true (said a ?n))) (<= (goal a 100) (true (said a 1))) (<= (goal a 0) (true (said a 2)))
(<= (goal b 50) (role b))
"""
# The maximum time, in seconds, that a thread waits for a person's action on a busy computer.
SECONDS = 60


class Messages(unittest.TestCase):
    def test_an_id_is_kept_as_it_is_written(self):
        start = "(START Ab.c Red ((role red)) 5 7)"
        self.assertEqual((head_of(start), members_of(start)), (("start", "Ab.c"), ["Red", "((role red))", "5", "7"]))
        self.assertEqual(head_of("info"), ("info", ""))

    def test_a_start_that_is_nested_too_deeply_is_not_read_to_its_end(self):
        with self.assertRaisesRegex(Unread, "lists are nested more than"):
            members_of("(START a " + "(" * MOST_MESSAGE)

    def test_longer_rules_than_the_referee_can_send_are_refused(self):
        with mock.patch.dict(seat.LARGE, {"sentences": 3, "bytes": len("(role a)(init(b c))(f)")}):
            for rules in ("((role a) (init (b c)) (f))", "((role a) b c)"):
                self.assertEqual(seat.game_of(rules).roles, ["a"])
            for rules in ("((role a) (init (b cd)) (f))", "((role a) b c d)", "((role a) b c (d))", "role"):
                self.assertRaises(Refused, seat.game_of, rules)

    def test_what_is_no_message_is_refused(self):
        for text in ("(START ;", "(PLAY a ;)", "", "(", "x", "(PLAY)", "(PLAY a) (PLAY b)", "(info x)", "(PLAY a (b)", "(PLAY a b))"):
            self.assertRaises(Unread, lambda: (head_of(text), members_of(text)))


class Boards(unittest.TestCase):
    def test_a_move_names_places_of_a_board(self):
        (board,) = boards_of([["(cell a 1 w)", "(cell b 2 b)", "(cell c 3 w)"]])
        self.assertEqual(places_of("(move w a 1 c 3)", board), [(1, 1), (3, 3)])
        self.assertEqual(places_of("noop", board), [])

    def test_a_board_has_the_places_of_the_rules_and_only_some_moves_name_places(self):
        moves = ("(put 1 1)", "(put 3 2)", "(push 1 1)", "(push 0 1)", "(drop 1)", "(drop 2)", "(drop 3)", "pass")
        shown = Shown(Game(f"(role a) (init begin) (<= (next (cell 1 1 stone)) (does a pass)) (<= (next (cell 3 2 stone)) (does a pass)) {''.join(f'(legal a {move})' for move in moves)}"))
        for stones in ([], ["1 1: stone", "3 2: stone"]):
            picture = shown.picture(shown.legal("a"))
            board, found = parsed(picture["state"]), {move["text"]: move["places"][0] for move in picture["legal"]}
            titles = [button["title"] for button in board.select(".board button")]
            self.assertEqual((sorted(title[:3] for title in titles), [title for title in titles if "nothing" not in title]), (["1 1", "1 2", "2 1", "2 2", "3 1", "3 2"], stones))
            # (push 0 1) names no place, so (push 1 1) does not either. (drop 1) to (drop 3) name columns.
            wanted = {"(put 3 2)": [(3, 2)], "(push 1 1)": [], "(push 0 1)": [], "(drop 2)": [(2, 0)], "pass": []}
            self.assertEqual({move: found[move] for move in wanted}, wanted)
            shown.advance(("pass",))
        changed = [button["title"] for button in board.select(".new")]
        self.assertEqual((changed, picture["players"]), (stones, [{"role": "a", "made": "pass", "can": True}]))

    def test_terms_that_no_board_shows_stand_beside_it(self):
        picture = Shown(Game(RULES + "(init (round 1))")).picture(["(mark 1 3)"])
        self.assertEqual([text_of(term) for term in parsed(picture["state"]).select("li")], ["(round 1)"])
        self.assertEqual(picture["legal"], [{"text": "(mark 1 3)", "places": [[(1, 3)]]}])


class Seats(unittest.TestCase):
    def setUp(self):
        self.seat, self.answers = Seat(), []
        self.seat.page_opens(1)

    def ask(self, text):
        """Lets the seat answer a message in another thread, as the server does with messages from the referee."""
        thread = threading.Thread(target=lambda: self.answers.append(self.seat.answer(text)))
        thread.start()
        return thread

    def ask_for_move(self):
        """Lets the seat answer a PLAY, and waits until the page asks for a move."""
        thread = self.ask("(PLAY M NIL)")
        with self.seat.changed:
            self.assertTrue(self.seat.changed.wait_for(lambda: self.seat.view["phase"] == "moving", SECONDS))
        return thread

    def begin(self, role="xplayer", rules=RULES):
        self.assertEqual(self.seat.answer(f"(START M {role} ({rules}) 60 60)"), "ready")

    def test_the_person_moves(self):
        self.begin()
        asked = self.ask_for_move()
        self.assertEqual(self.seat.move("(mark 4 4)", self.seat.asked), "that move is not legal")
        self.assertIsNone(self.seat.move("(mark 2 2)", self.seat.asked))
        asked.join(SECONDS)
        self.assertEqual(self.answers, ["(mark 2 2)"])
        self.assertEqual(self.seat.move("(mark 2 2)", self.seat.asked), "no move is expected now")

    def test_a_single_legal_move_is_made_without_asking(self):
        self.begin("oplayer")
        self.assertEqual(self.seat.answer("(PLAY M NIL)"), "noop")

    def test_what_was_replaced_is_said(self):
        self.begin()
        asked = self.ask_for_move()
        self.seat.move("(mark 2 2)", self.seat.asked)
        asked.join(SECONDS)
        self.seat.answer("(PLAY M ((mark 1 1) noop))")
        self.assertIn("Your move was replaced by (mark 1 1).", self.seat.view["note"])

    def test_one_start_is_read_at_a_time(self):
        with self.seat.reading:
            self.assertEqual(self.seat.answer(f"(START M xplayer ({RULES}) 60 60)"), "busy")
        self.begin()

    def test_of_two_starts_at_the_same_time_one_begins_a_match(self):
        is_free, others = self.seat.is_free, iter([f"(START N xplayer ({RULES}) 60 60)"])

        def followed():
            """Another START comes right after the check."""
            found = is_free()
            self.answers += [self.seat.answer(other) for other in others]
            return found

        with mock.patch.object(self.seat, "is_free", followed):
            self.answers.append(self.seat.answer(f"(START M xplayer ({RULES}) 60 60)"))
        self.assertEqual((self.answers, self.seat.match), (["ready", "busy"], "N"))

    def test_only_start_may_be_long(self):
        self.begin()
        self.assertEqual(self.seat.answer(f"(PLAY M NIL{' ' * MOST_MESSAGE})"), "busy")

    def test_what_is_no_message_of_a_match_leaves_it_open(self):
        self.begin()
        for message in ("(PLAY M)", "(PLAY M NIL NIL)", "(STOP M)", "(ABORT M NIL)", "(FINISH M NIL)"):
            self.assertEqual((self.seat.answer(message), self.seat.match), ("busy", "M"), message)

    def test_time_that_is_over_is_no_answer(self):
        self.begin()
        self.seat.play_clock, began = 1, time.monotonic()
        self.assertIsNone(self.seat.answer("(PLAY M NIL)"))
        self.assertEqual(self.seat.view["phase"], "late")
        self.assertGreater(time.monotonic(), began + 1)

    def test_a_move_that_comes_late_is_not_taken(self):
        self.begin()
        self.seat.play_clock = 0
        self.seat.answer("(PLAY M NIL)")
        self.assertEqual(self.seat.move("(mark 2 2)", self.seat.asked), "no move is expected now")
        self.assertEqual(self.seat.view["phase"], "late")

    def test_a_click_on_the_turn_before_makes_no_move(self):
        self.begin()
        asked = self.ask_for_move()
        self.assertEqual(self.seat.move("(mark 2 2)", self.seat.asked - 1), "that move was chosen for an earlier turn")
        self.assertIsNone(self.seat.move("(mark 2 2)", self.seat.asked))
        asked.join(SECONDS)

    def test_what_ends_a_match_ends_the_wait_for_a_move(self):
        self.begin()
        asked = self.ask_for_move()
        self.assertEqual(self.seat.answer("(ABORT M)"), "aborted")
        asked.join(SECONDS)
        self.assertEqual((self.answers, self.seat.view["phase"]), ([None], "aborted"))

    def test_the_person_leaves_a_match(self):
        self.begin()
        asked = self.ask_for_move()
        self.assertEqual(self.seat.leave("N"), "that match is over")
        self.assertIsNone(self.seat.leave("M"))
        asked.join(SECONDS)
        self.assertEqual((self.answers, self.seat.view["phase"], self.seat.view["note"]), ([None], "waiting", "You have left match M: its referee plays your first legal moves."))
        for message in ("(PLAY M NIL)", "(STOP M NIL)", "(ABORT M)", f"(START M xplayer ({RULES}) 60 60)"):
            self.assertEqual(self.seat.answer(message), "busy", message)
        self.assertEqual(self.seat.answer(f"(START N oplayer ({RULES}) 60 60)"), "ready")
        self.assertEqual(self.seat.answer("(PLAY M NIL)"), "busy")
        self.assertEqual(self.seat.answer("(PLAY N NIL)"), "noop")

    def test_rules_that_take_forever_do_not_keep_the_seat(self):
        is_read, is_over = threading.Event(), threading.Event()
        self.addCleanup(is_over.set)

        def game_of(rules):
            is_read.set()
            is_over.wait(SECONDS)
            return Game(RULES)

        with mock.patch.object(seat, "game_of", game_of):
            endless = self.ask("(START N xplayer () 60 86400)")
            self.assertTrue(is_read.wait(SECONDS))
        self.assertEqual(self.seat.answer(f"(START M xplayer ({RULES}) 60 60)"), "busy")
        self.assertIsNone(self.seat.leave(""))
        self.begin("oplayer")
        is_over.set()
        endless.join(SECONDS)
        self.assertEqual((self.answers, self.seat.answer("(PLAY M NIL)")), (["busy"], "noop"))

    def late(self, name):
        """Makes a call of this match's game wait. Returns two events: the call has begun, and the call may end."""
        is_begun, may_end, call = threading.Event(), threading.Event(), getattr(self.seat.shown, name)
        self.addCleanup(may_end.set)

        def late_call(*arguments):
            is_begun.set()
            self.assertTrue(may_end.wait(SECONDS))
            return call(*arguments)

        setattr(self.seat.shown, name, late_call)
        return is_begun, may_end

    def test_moves_that_take_forever_to_evaluate_do_not_keep_the_seat(self):
        self.begin()
        is_begun, may_end = self.late("advance")
        endless = self.ask("(PLAY M ((mark 1 1) noop))")
        self.assertTrue(is_begun.wait(SECONDS))
        self.assertIsNone(self.seat.leave("M"))
        self.assertEqual(self.seat.answer(f"(START N oplayer ({RULES}) 60 60)"), "ready")
        may_end.set()
        endless.join(SECONDS)
        self.assertEqual((self.answers, self.seat.view["phase"], self.seat.answer("(PLAY N NIL)")), ([None], "ready", "noop"))

    def test_a_message_waits_for_an_earlier_one_only_as_long_as_its_clock(self):
        self.begin()
        with mock.patch.object(seat, "PATIENCE", 0), self.seat.reading:
            self.assertRaises(Unread, self.seat.answer, "(STOP M NIL)")
        self.assertIn("they take too long", self.seat.view["note"])
        self.begin()

    def test_rules_that_need_too_much_memory_end_the_match(self):
        text = f"(START M xplayer ({RULES}) 60 60)"
        for place, name in ((seat, "game_of"), (Shown, "picture")):
            with mock.patch.object(place, name, side_effect=MemoryError):
                self.assertEqual((self.seat.answer(text), self.seat.match), ("busy", ""))
            self.assertIn("they need too much memory", self.seat.view["note"])
        self.begin()
        with mock.patch.object(self.seat.shown, "advance", side_effect=MemoryError):
            self.assertRaises(Unread, self.seat.answer, "(PLAY M ((mark 1 1) noop))")
        self.assertIn("they need too much memory", self.seat.view["note"])
        self.assertEqual((self.seat.answer("(PLAY M NIL)"), self.seat.answer(text)), ("busy", "ready"))

    def test_what_ends_late_does_not_end_another_match(self):
        self.begin()
        is_asked, is_over = self.late("goals")
        stop = self.ask("(STOP M NIL)")
        self.assertTrue(is_asked.wait(SECONDS))
        self.seat.leave("M")
        self.assertEqual(self.seat.answer(f"(START N oplayer ({RULES}) 60 60)"), "ready")
        is_over.set()
        stop.join(SECONDS)
        self.assertEqual((self.answers, self.seat.match, self.seat.view["phase"]), (["done"], "N", "ready"))

    def test_another_match_begins_only_once_the_referee_is_lost(self):
        self.begin()
        asked = self.ask_for_move()
        other = f"(START N oplayer ({RULES}) 60 60)"
        self.assertEqual(self.seat.answer(other), "busy")
        self.assertIsNone(self.seat.move("(mark 2 2)", self.seat.asked))
        asked.join(SECONDS)
        self.assertEqual(self.answers, ["(mark 2 2)"])
        self.assertEqual(self.seat.answer("(INFO)"), "busy")
        self.seat.expected = 0.0
        self.assertEqual(self.seat.answer("(INFO)"), "available")
        self.assertEqual(self.seat.answer(other), "ready")

    def test_messages_of_another_receiver_are_not_this_roles(self):
        self.assertEqual(self.seat.answer(f"(START M xplayer ({RULES}) 60 60)", "ann"), "ready")
        self.assertEqual(self.seat.answer(f"(START M oplayer ({RULES}) 60 60)", "bob"), "busy")
        for message in ("(PLAY M NIL)", "(STOP M NIL)", "(ABORT M)"):
            self.assertEqual(self.seat.answer(message, "bob"), "busy", message)
        self.assertEqual((self.seat.view["role"], self.seat.view["phase"]), ("xplayer", "ready"))

    def test_a_message_that_does_not_fit_the_match_changes_nothing(self):
        self.assertEqual(self.seat.answer(f"(START M nobody ({RULES}) 60 60)"), "busy")
        self.assertIn("no role nobody", self.seat.view["note"])
        for clock in ("x", "-1", "1:75:00", "9" * 400, "(1)"):
            self.assertRaises(Unread, self.seat.answer, f"(START M xplayer ({RULES}) 60 {clock})")
        self.begin()
        for moves in ("foo", "(a)", "((mark 1 1))", "(a b c)"):
            self.assertRaises(Unread, self.seat.answer, f"(PLAY M {moves})")
        self.assertEqual((len(self.seat.shown.states), self.seat.view["phase"]), (1, "ready"))

    def test_rules_that_are_none_are_refused(self):
        for rules in ("foo", "()", "(())", "((<= ()))", "(" * 3000 + ")" * 3000, "((role ?x))"):
            self.assertEqual(self.seat.answer(f"(START M a {rules} 60 60)"), "busy", rules[:20])
        self.assertEqual(self.seat.answer("(INFO)"), "available")

    def test_a_seat_is_busy_in_a_match_and_free_behind_it(self):
        self.begin()
        self.assertEqual(self.seat.answer("(INFO)"), "busy")
        for message in ("(PLAY N NIL)", "(STOP m NIL)", "(ABORT m)"):
            self.assertEqual(self.seat.answer(message), "busy", message)
        self.assertEqual(self.seat.answer("(ABORT M)"), "aborted")
        self.assertEqual(self.seat.answer("(INFO)"), "available")

    def test_rules_may_have_variables(self):
        self.begin("a", OPEN)
        self.seat.legal = []
        asked = self.ask_for_move()
        self.assertEqual(self.seat.legal, ["(say 1)", "(say 2)"])
        self.seat.move("(say 1)", self.seat.asked)
        asked.join(SECONDS)
        self.assertEqual(self.seat.answer("(STOP M ((say 1) (say 2)))"), "done")
        self.assertIn("a 100, b 50", self.seat.view["note"])

    def test_nothing_is_answered_for_a_person_that_is_not_there(self):
        self.seat.page_opens(-1)
        self.assertEqual(self.seat.answer("(INFO)"), "busy")
        with mock.patch.object(self.seat.changed, "wait_for") as waiting:
            self.assertEqual(self.seat.answer(f"(START N oplayer ({RULES}) 60 86400)"), "ready")
        self.assertLess(waiting.call_args.args[1], 60)
        self.seat.leave("N")
        self.seat.page_opens(1)
        self.assertEqual(self.seat.answer("(INFO)"), "available")
        self.begin("oplayer")
        self.assertEqual(self.seat.answer("(PLAY M NIL)"), "noop")
        self.seat.page_opens(-1)
        self.seat.play_clock = 0
        self.assertIsNone(self.seat.answer("(PLAY M NIL)"))
        # The move is made once the page is open again.
        self.seat.play_clock = 60
        asked = self.ask_for_move()
        self.seat.page_opens(1)
        asked.join(SECONDS)
        self.assertEqual(self.answers, ["noop"])


class Pages(unittest.TestCase):
    def setUp(self):
        self.serve()

    def serve(self, *referees):
        self.seat = Seat(referees)
        self.server = Server(("127.0.0.1", 0), self.seat)
        threading.Thread(target=self.server.serve_forever, args=(0.01,), daemon=True).start()
        self.addCleanup(self.server.server_close)
        self.addCleanup(self.server.shutdown)

    def request(self, method, path, body=None, headers=None, source="127.0.0.1"):
        line = http.client.HTTPConnection(*self.server.server_address[:2], timeout=SECONDS, source_address=(source, 0))
        self.addCleanup(line.close)
        line.request(method, path, body, headers or {})
        return line.getresponse()

    def post(self, message, source="127.0.0.1"):
        """Returns the answer to a message from a referee."""
        return self.request("POST", "/", message, source=source).read()

    def of_page(self, name=""):
        return f"{self.server.page}{name}"

    def test_only_the_page_is_served_and_it_loads_nothing(self):
        page = self.request("GET", self.of_page())
        self.assertEqual(page.status, 200)
        self.assertIn("default-src 'none'", page.getheader("Content-Security-Policy"))
        self.assertEqual([self.request("GET", self.of_page(name)).status for name in ("style.css", "human.js")], [200, 200])
        for path in ("/x", "/../etc/passwd", "/index.html", self.of_page("x"), self.server.page.rstrip("/")):
            self.assertEqual(self.request("GET", path).status, 404)

    def test_other_methods(self):
        for path in (self.of_page(), self.of_page("events"), "/none"):
            answers = [self.request(method, path) for method in ("GET", "HEAD")]
            self.assertEqual(*([(answer.status, answer.getheader("Content-Type"), answer.getheader("Content-Length")) for answer in answers]))
            self.assertEqual(answers[1].read(), b"")
        for method in ("PUT", "DELETE", "OPTIONS", "PATCH"):
            answer = self.request(method, self.of_page())
            self.assertEqual((answer.status, answer.getheader("Allow")), (405, "GET, HEAD, POST"))

    def test_start_waits_for_a_page_and_the_page_is_told_of_each_change(self):
        answered = []
        body = f"(START M xplayer ({RULES}) 60 60)"
        asked = threading.Thread(target=lambda: answered.append(self.post(body)))
        asked.start()
        events = self.request("GET", self.of_page("events"))
        asked.join(SECONDS)
        self.assertEqual(answered, [b"ready"])
        told = []
        while not told or told[-1].get("match") != "M":
            line = events.fp.readline()
            if line.startswith(b"data: "):
                told.append(json.loads(line.removeprefix(b"data: ")))
        self.assertEqual(told[-1]["role"], "xplayer")
        events.close()

    def test_a_page_whose_computer_is_gone_without_a_word_does_not_stay_open(self):
        self.request("GET", self.of_page("events"))
        (asked,) = self.server.requests.values()
        # After that time the kernel ends the connection, so that sending the next line fails.
        self.assertEqual(asked.connection.getsockopt(socket.IPPROTO_TCP, socket.TCP_USER_TIMEOUT), server.PATIENCE * 1_000)

    def test_nothing_is_answered_without_the_token(self):
        here = f"127.0.0.1:{self.server.server_address[1]}"
        browser = {"Origin": f"http://{here}", "Sec-Fetch-Site": "same-origin"}
        other = self.of_page()[:-2] + ("x/" if self.of_page()[-2] != "x" else "y/")
        for headers in ({}, browser, {"X-Player": "human"}, {"Host": "localhost"}):
            for path in ("/", "/events", f"{other}events", "//events", f"/events?{self.of_page()}"):
                self.assertEqual(self.request("GET", path, headers=headers).status, 404, (path, headers))
            self.assertEqual(self.request("POST", "/move", '{"move": "noop"}', headers).status, 404)
        self.assertEqual(self.request("POST", self.of_page("move"), '{"move": "noop"}').status, 409)
        self.assertEqual(self.request("POST", self.of_page("move"), "[").status, 409)
        self.assertEqual(self.request("POST", "/", "(").status, 400)

    def test_a_name_that_another_site_has_given_to_this_address(self):
        # A browser sends only these headers with a page's request to the page's own server.
        named = {"Host": "example.org:1"}
        for path in (self.of_page(), self.of_page("events")):
            self.assertEqual(self.request("GET", path, headers=named).status, 403)
        self.assertEqual(self.request("POST", self.of_page("move"), "{}", named).status, 403)
        self.assertEqual(self.request("POST", "/", "(INFO)", named).status, 403)

    def test_a_page_can_not_speak_for_the_referee(self):
        for other in ({"Origin": "http://example.org"}, {"Origin": "null"}, {"Sec-Fetch-Site": "cross-site"}, {"Sec-Fetch-Site": "same-origin"}):
            self.assertEqual(self.request("POST", "/", "(INFO)", other).status, 403)

    def test_only_the_referee_takes_the_seat(self):
        start = f"(START N xplayer ({RULES}) 60 86400)"
        for referees in ((), ("127.0.0.3", "127.0.0.1")):
            self.serve(*referees)
            self.seat.page_opens(1)
            if referees:
                self.assertEqual(self.post(start, "127.0.0.2"), b"busy")
            self.assertEqual(self.post("(INFO)"), b"available")
            for message in (start, "(INFO)", "(ABORT M)"):
                self.assertEqual(self.post(message, "127.0.0.2"), b"busy")
            self.assertEqual(self.post(f"(START M oplayer ({RULES}) 60 60)"), b"ready")
            for message in (start, "(PLAY M NIL)", "(STOP M NIL)", "(ABORT M)"):
                self.assertEqual(self.post(message, "127.0.0.2"), b"busy")
            self.assertEqual(self.post(start), b"busy")
            self.assertEqual(self.post("(PLAY M NIL)"), b"noop")

    def leave(self, match):
        return self.request("POST", self.of_page("move"), json.dumps({"leave": match})).status

    def view(self):
        """Returns the contents of a page that is opened now."""
        events = self.request("GET", self.of_page("events"))
        self.addCleanup(events.close)
        return json.loads(events.fp.readline().removeprefix(b"data: "))

    def test_who_took_the_seat_is_shown_and_loses_it(self):
        self.seat.page_opens(1)
        self.assertEqual((self.view()["referee"], self.view()["playing"]), ("", ""))
        with contextlib.redirect_stderr(io.StringIO()) as said:
            self.assertEqual(self.post(f"(START N xplayer ({RULES}) 86400 86400)", "127.0.0.2"), b"ready")
        self.assertRegex(said.getvalue(), "^ggp-human: .* only from 127.0.0.2, .* restart it with --referee ADDRESS\n$")
        self.assertEqual((self.view()["referee"], self.view()["playing"]), ("127.0.0.2", "N"))
        start = f"(START M oplayer ({RULES}) 60 60)"
        self.assertEqual(self.post(start), b"busy")
        for path in ("/move", "/leave"):
            self.assertEqual(self.request("POST", path, '{"leave": "N"}').status, 404)
        self.assertEqual([self.leave(match) for match in ("M", "", ["N"], "N", "N")], [409, 409, 409, 200, 409])
        for message in ("(PLAY N NIL)", f"(START N xplayer ({RULES}) 60 60)"):
            self.assertEqual(self.post(message, "127.0.0.2"), b"busy")
        self.assertEqual((self.view()["referee"], self.view()["playing"]), ("", ""))
        self.assertEqual(self.post(start), b"ready")
        self.assertEqual(self.post("(PLAY M NIL)"), b"noop")
        self.assertEqual(self.post("(INFO)", "127.0.0.2"), b"busy")
        self.assertEqual((self.view()["referee"], self.view()["playing"]), ("127.0.0.1", "M"))

    def test_another_referee_is_accepted_before_a_match(self):
        self.seat.page_opens(1)
        self.request("POST", "/", "(INFO)", source="127.0.0.2")
        self.assertEqual(self.post("(INFO)"), b"busy")
        self.assertEqual(self.leave(""), 200)
        self.assertEqual(self.post("(INFO)"), b"available")

    def test_a_match_of_a_given_referee_is_left(self):
        self.serve("127.0.0.1", "127.0.0.3")
        self.seat.page_opens(1)
        for match in ("M", "N"):
            start = f"(START {match} oplayer ({RULES}) 60 60)"
            self.assertEqual(self.post(start), b"ready")
            self.assertEqual((self.view()["referee"], self.view()["playing"]), ("", match))
            self.assertEqual(self.leave(match), 200)
            for source in ("127.0.0.1", "127.0.0.2", "127.0.0.3"):
                self.assertEqual(self.post(start, source), b"busy")

    def test_a_long_message_of_a_stranger_is_not_read(self):
        self.serve("127.0.0.3")
        line = http.client.HTTPConnection(*self.server.server_address[:2], timeout=SECONDS, source_address=("127.0.0.2", 0))
        self.addCleanup(line.close)
        # Only the head of the request is sent; the answer comes at once.
        line.putrequest("POST", "/")
        line.putheader("Content-Length", "16777216")
        line.endheaders()
        self.assertEqual(line.getresponse().read(), b"busy")

    def test_an_address_with_many_connections_keeps_nobody_out(self):
        many = [socket.create_connection(self.server.server_address[:2], SECONDS, ("127.0.0.2", 0)) for _ in range(200)]
        for line in many:
            self.addCleanup(line.close)
        # The connections above the limit are closed.
        self.assertEqual(many[-1].recv(1), b"")
        self.seat.page_opens(1)
        self.assertEqual(self.post("(INFO)"), b"available")
        for line in many:
            line.close()
        answered = None
        while answered != 200:
            with contextlib.suppress(OSError, http.client.HTTPException):
                answered = self.request("GET", self.of_page(), source="127.0.0.2").status

    def knock(self, source, said):
        """Opens a connection and sends these bytes. The server may refuse them."""
        line = socket.create_connection(self.server.server_address[:2], SECONDS, (source, 0))
        self.addCleanup(line.close)
        with contextlib.suppress(OSError):
            line.sendall(said)

    def test_strangers_have_a_share_of_the_connections_that_begin(self):
        self.serve("127.0.0.1")
        self.seat.page_opens(1)
        self.enterContext(mock.patch.object(server, "client_of", str))
        self.enterContext(mock.patch.object(server, "PERIOD", 100 * SECONDS))
        process = self.enterContext(mock.patch.object(self.server, "process_request", side_effect=self.server.process_request))
        for said, sources, most in ((b"GET / ", ["127.0.0.2"], 16), (b"GET / HTTP/1.0\r\n\r\n", ["127.0.0.3"], 16), (b"GET / ", [f"127.0.1.{at}" for at in range(20)], 128)):
            # A new period begins.
            self.server.ends = 0.0
            process.reset_mock()
            for source, _ in zip(itertools.cycle(sources), range(150)):
                self.knock(source, said)
            self.assertEqual(self.post("(INFO)"), b"available")
            begun = [call.args[1][0] for call in process.call_args_list]
            self.assertEqual((len(begun), begun[-1]), (most + 1, "127.0.0.1"))
        # This limit does not apply to the referee.
        self.assertEqual({self.post("(INFO)") for _ in range(200)}, {b"available"})

    def half(self, source, count, size=60_000):
        """Opens connections, each with the beginning of a message."""
        for _ in range(count):
            line = socket.create_connection(self.server.server_address[:2], SECONDS, (source, 0))
            self.addCleanup(line.close)
            line.sendall(b"POST / HTTP/1.0\r\nContent-Length: %d\r\n\r\n(" % size)
        return line

    def test_half_requests_give_way(self):
        self.seat.page_opens(1)
        for sources in (["127.0.0.1"], [f"127.0.0.{at}" for at in range(2, 60)]):
            for source in sources:
                self.half(source, -(-200 // len(sources)))
            self.assertEqual(self.post("(INFO)"), b"available")
            # A connection that was closed for a newer one counts until its thread has ended.
            while len(self.server.requests) > MOST_CONNECTIONS:
                time.sleep(0.01)

    def test_long_bodies_that_trickle_in_keep_no_long_start_out(self):
        self.seat.page_opens(1)
        start = f"(START M xplayer ({RULES} {' ' * MOST_MESSAGE}) 60 60)".encode()
        with mock.patch.object(server, "REQUEST_SECONDS", 10 * SECONDS):
            trickling = [self.half(f"127.0.0.{address}", 1, server.MOST_BYTES) for address in range(2, 14)]
            self.await_ended(trickling, 4)
            # A long START arrives in two parts, over a slow link.
            honest = self.half("127.0.0.1", 1, len(start))
            honest.sendall(start[1:100_000])
            while not any(reader.received > 100_000 for reader in list(self.server.readers)):
                time.sleep(0.01)
            trickling += [self.half(f"127.0.0.{address}", 1, server.MOST_BYTES) for address in range(14, 18)]
            self.await_ended(trickling, 9)
            honest.sendall(start[100_000:])
            self.assertTrue(honest.makefile("rb").read().endswith(b"\r\n\r\nready"))

    def await_ended(self, lines, count):
        """Waits until the server has ended this many of the connections."""
        while len(select.select(lines, [], [], 0.01)[0]) < count:
            pass

    def test_the_slowest_body_of_the_client_with_most_gives_way(self):
        def reader(client, rate):
            return mock.Mock(client=client, rate=lambda: rate)

        readers = [reader("a", 1), reader("b", 9), reader("b", 8), *(reader(at, 7) for at in range(server.MOST_LONG - 3))]
        with contextlib.ExitStack() as entered:
            for one in readers:
                entered.enter_context(self.server.reading(one))
            # The second connection of client 4 replaces its first one.
            for new, gone in ((reader("c", 6), readers[2]), (reader(4, 6), readers[7]), (reader("d", 0), readers[0])):
                entered.enter_context(self.server.reading(new))
                gone.end.assert_called_once()
                self.assertNotIn(gone, self.server.readers)
            self.assertEqual(len(self.server.readers), server.MOST_LONG)
        self.assertFalse(self.server.readers)

    def test_a_body_may_take_a_second_more_for_each_mib(self):
        with mock.patch.object(server, "REQUEST_SECONDS", 10 * SECONDS):
            for address, size in ((2, 60_000), (3, 3 << 20)):
                self.half(f"127.0.0.{address}", 1, size)
            while sum(asked.most != server.LONGEST_HEAD for asked in list(self.server.requests.values())) < 2:
                time.sleep(0.01)
            seconds = sorted(round(asked.ends - asked.began) for asked in self.server.requests.values())
        self.assertEqual(seconds, [10 * SECONDS, 10 * SECONDS + 3])

    def test_a_request_that_is_not_finished_is_ended(self):
        with mock.patch.object(server, "REQUEST_SECONDS", 0):
            self.assertEqual(self.half("127.0.0.1", 1).recv(100), b"")

    def test_a_head_has_a_limit(self):
        self.assertEqual(self.request("GET", self.of_page(), headers={"Cookie": "x" * 15_000}).status, 200)
        line = socket.create_connection(self.server.server_address[:2], SECONDS)
        self.addCleanup(line.close)
        answer = b""
        with contextlib.suppress(ConnectionError):
            line.sendall(b"GET %b HTTP/1.0\r\n%b\r\n" % (self.of_page().encode(), (b"a:" * 30_000 + b"\r\n") * 90))
            answer = line.recv(100)
        self.assertEqual(answer, b"")

    def test_a_message_may_have_24_mib_and_128_kib(self):
        self.seat.page_opens(1)
        self.assertEqual(self.post("(INFO)".ljust(25_296_896)), b"available")
        self.assertEqual(self.request("POST", "/", headers={"Content-Length": "25296897"}).status, 400)

    def test_messages_that_waited_to_be_accepted_are_taken_in_their_order(self):
        self.post("INFO")
        self.server.shutdown()
        taken, read, body = [], threading.Semaphore(0), server.Handler.body

        def read_late(handler, most):
            """The server reads the first message after all other messages."""
            data = body(handler, most)
            if data == b"0":
                for _ in range(3):
                    read.acquire(timeout=SECONDS)
                time.sleep(0.2)
            read.release()
            return data

        self.seat.answer = lambda text, *_: taken.append(text) or text
        lines = [socket.create_connection(self.server.server_address[:2], SECONDS) for _ in range(4)]
        for number, line in enumerate(lines):
            self.addCleanup(line.close)
            line.sendall(b"POST / HTTP/1.0\r\nContent-Length: 1\r\n\r\n%d" % number)
        with mock.patch.object(server.Handler, "body", read_late), mock.patch.object(server, "REQUEST_SECONDS", SECONDS):
            threading.Thread(target=self.server.serve_forever, args=(0.01,), daemon=True).start()
            self.assertEqual([b"".join(iter(functools.partial(line.recv, 1_000), b""))[-1:] for line in lines], [b"0", b"1", b"2", b"3"])
        self.assertEqual(taken, ["0", "1", "2", "3"])

    def test_a_connection_that_has_sent_nothing_delays_no_message(self):
        self.post("INFO")
        waits = mock.patch.object(server.Request, "wait_for_turn", autospec=True)
        with mock.patch.object(server, "REQUEST_SECONDS", SECONDS), socket.create_connection(self.server.server_address[:2]), waits as waited:
            self.post("INFO")
            (idle,) = [asked for asked in list(self.server.requests.values()) if asked.is_idle]
        (call,) = waited.mock_calls
        self.assertIsNot(call.args[0].before, idle.is_taken)

    def test_bytes_beyond_ascii_come_back_as_they_came(self):
        self.seat.page_opens(1)
        self.assertEqual(self.request("POST", "/", b"(START \xff a ((role b)) x y)").status, 400)
        # In UTF-8, the bytes of a letter may be a blank or a capital letter of Latin-1.
        name = b"\xff" + "Åà".encode()
        self.assertEqual(self.post(b"(START M%s %s ((role %s) (legal %s X%s)) 60 60)" % ((name,) * 5)), b"ready")
        self.assertEqual(self.post(b"(PLAY M%s NIL)" % name), b"x" + name)


class Command(unittest.TestCase):
    def test_it_serves_until_it_is_interrupted(self):
        words = [sys.executable, TOP / "python/ggp-human", "--port"]
        # The tests themselves may run in the background, where interrupts are ignored.
        interruptible = {"preexec_fn": lambda: signal.signal(signal.SIGINT, signal.SIG_DFL)}
        served = subprocess.Popen([*words, "0"], stderr=subprocess.PIPE, text=True, **interruptible)
        for end in (served.stderr.close, served.wait, served.kill):
            self.addCleanup(end)
        address, port = re.fullmatch(r"open (http://127\.0\.0\.1:([0-9]+)/\S*)\n", served.stderr.readline()).groups()
        with urllib.request.urlopen(address) as page:
            self.assertIn(b"<html", page.read())
        self.assertRegex(pathlib.Path(f"/proc/{served.pid}/limits").read_text(), "Max data size +2147483648 ")
        other = subprocess.run([*words, port], capture_output=True, text=True)
        self.assertEqual((other.returncode, other.stderr), (1, f"ggp-human: 127.0.0.1:{port}: Address already in use\n"))
        served.send_signal(signal.SIGINT)
        self.assertEqual((served.communicate()[1], served.returncode), ("", 130))
