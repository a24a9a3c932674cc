"""The players in the tests of seasons, and how these tests check record files."""
import os
import pathlib
import tempfile
import unittest
import unittest.mock

from driving.players import Hall, Player, Seat
from driving.seasons import CUT_OFF, cut_off, errors_of, records_in, schedule, whole_lines

TOP = os.path.dirname(os.path.dirname(os.path.dirname(os.path.dirname(os.path.realpath(__file__)))))


class Players(unittest.TestCase):
    def test_a_seat_takes_in_its_turn_what_is_there(self):
        seat = Seat("blue", 3)
        self.assertEqual(seat.move("(PLAY m NIL)", 2), "noop")
        self.assertEqual(seat.move("(PLAY m ((take 2) noop))", 2), "(take 1)")
        self.assertEqual(seat.sent, ["noop", "(take 1)"])

    def test_a_strict_player_sits_in_one_match_until_it_is_over(self):
        for last in ("(STOP m ((take 1) noop))", "(ABORT m)", "(abort m)"):
            player = Player("ann", 1, is_strict=True)
            self.assertEqual(player.answer("(INFO)"), "available")
            self.assertEqual(player.answer("(START m red ((role red) (role blue)) 1 1)"), "ready")
            self.assertEqual(player.answer("(START n red ((role red) (role blue)) 1 1)"), "busy")
            self.assertEqual(player.answer("(PLAY n NIL)"), "busy")
            self.assertEqual(player.answer("(PLAY m NIL)"), "(take 1)")
            self.assertEqual(player.answer("(ABORT n)"), "done")
            self.assertEqual(player.answer("(INFO)"), "busy")
            player.answer(last)
            self.assertEqual(player.answer("(INFO)"), "available")
            self.assertEqual((player.begun, player.over["m"].sent), (["m"], ["(take 1)"]))

    def test_another_player_sits_in_many(self):
        player = Player("ann", 3)
        for match in ("m", "n"):
            self.assertEqual(player.answer(f"(START {match} red ((role red)) 1 1)"), "ready")
        self.assertEqual(sorted(player.seats), ["m", "n"])


class Halls(unittest.TestCase):
    def test_each_player_has_its_port(self):
        players = [Player("ann", 3), Player("bob", 3)]
        Hall(players)
        self.assertEqual(len({player.port for player in players} - {None}), 2)

    def test_a_server_that_cannot_be_started_is_told(self):
        told = []
        with unittest.mock.patch("asyncio.start_server", side_effect=OSError), unittest.mock.patch("threading.excepthook", told.append):
            with self.assertRaises(RuntimeError):
                Hall([Player("ann", 3)])
        self.assertEqual(told[0].exc_type, OSError)


class Records(unittest.TestCase):
    def test_a_line_without_a_feed_was_cut(self):
        self.assertEqual(whole_lines(b""), ([], b""))
        self.assertEqual(whole_lines(b"{}\n{"), ([b"{}\n"], b"{"))
        self.assertEqual(whole_lines(b"{}\n{}\n"), ([b"{}\n", b"{}\n"], b""))
        self.assertEqual(whole_lines(b"{"), ([], b"{"))

    def test_a_cut_line_is_taken_away(self):
        for text, left in ((b"", b""), (b"{}\n{", b"{}\n"), (b"{}\n", b"{}\n"), (b"{", b"")):
            with tempfile.TemporaryDirectory() as folder:
                records = pathlib.Path(folder) / "records"
                records.write_bytes(text)
                cut_off(folder)
                self.assertEqual(records.read_bytes(), left)
        self.assertIn(CUT_OFF, pathlib.Path(TOP, "examples/season/README.md").read_text(encoding="utf-8"))

    def test_lines_of_accounts_are_no_records(self):
        self.assertEqual(records_in([b'{"matchId":"m"}\n', b"0\topen m 0 1 1 a b\topened\n"]), [{"matchId": "m"}])

    def test_errors_of_moves_and_of_other_answers(self):
        record = {"errors": [["", "TO"], ["", ""]], "startMarks": ["CE", ""], "endMarks": [None, None]}
        self.assertEqual(errors_of(record), ["TO", "CE"])

    def test_a_schedule_has_a_line_for_each_match(self):
        ann, bob = Player("ann", 3), Player("bob", 3)
        ann.port, bob.port = 1, 2
        lines = "m0 5 1 ann@127.0.0.1:1 bob@127.0.0.1:2\nm1 5 1 bob@127.0.0.1:2 ann@127.0.0.1:1\n"
        self.assertEqual(schedule([(ann, bob), (bob, ann)], "5 1"), (lines, ["m0", "m1"]))
