"""The files that record how a competition grew."""

import os
import pathlib
import tempfile
import unittest
from unittest import mock

from ggp_tools.competition.files import Folder, Refused
from ggp_tools.competition.growth import Again
from ggp_tools.competition.competition_file import read_competition
from ggp_tools.competition.history import again_text, earlier_files, history_files, read_again, read_history, read_key, seeded
from support import raised, toml

TOML = toml([("ann", "h:1"), ("bob", "h:2")], [("nim", "f")])
COMPETITION = read_competition(TOML.encode())


class Histories(unittest.TestCase):
    def setUp(self):
        self.folder = Folder(pathlib.Path(self.enterContext(tempfile.TemporaryDirectory())))

    def add_earlier(self, *names):
        self.folder.earlier.mkdir(exist_ok=True)
        for name in names:
            (self.folder.earlier / name).write_text(TOML.replace('"cup"', f'"cup{name.partition(".")[0]}"'))

    def test_a_competition_that_has_not_grown_has_none(self):
        found = read_history(self.folder, COMPETITION)
        self.assertEqual((found.earlier, found.again, history_files(self.folder)), ((), (), []))

    def test_the_key_of_ids_that_are_not_guessed(self):
        counted, random = (read_competition(toml([("ann", "h:1")], [("nim", "f")], head=f'ids = "{ids}"').encode()) for ids in ("counted", "random"))
        self.assertEqual(str(raised(Refused, read_key, self.folder, random)), f"{self.folder.key} is missing: put it back: the ids of the matches follow from it")
        self.folder.key.write_bytes(b"0123456789abcdef" * 2 + b"\n")
        self.assertEqual((read_key(self.folder, counted), read_key(self.folder, random)), (b"", b"0123456789abcdef" * 2 + b"\n"))
        for wrong in (b"", b"0" * 31 + b"\n", b"0" * 32, b"0" * 33 + b"\n", b"G" * 32 + b"\n"):
            self.folder.key.write_bytes(wrong)
            self.assertEqual(str(raised(Refused, read_key, self.folder, random)), f"{self.folder.key} is damaged: restore it from a backup: the ids of the matches follow from it")

    def test_the_seeds_are_the_order_of_a_table(self):
        competition, table = read_competition(toml([(name, f"{name}:1") for name in ("ann", "bob", "cid", "dan")], [("nim", "f")]).encode()), self.folder.seeds
        table.write_text("game,player,goals\nall games,cid,9\n\nall games,eve,8\nall games,bob,7\nnim,dan,9\n")
        self.assertEqual([player.name for player in seeded(competition, table).players], ["cid", "bob", "ann", "dan"])
        table.write_text("game,player\n")
        with mock.patch("ggp_tools.competition.history.MOST_OF_PLANNED", 12):
            self.assertEqual(seeded(competition, table), competition)
        for wrong in (b"", b"the players of last year\n", b"game\nall games\n", b"player\nann\n", b"game,player\nall games\n", "game,player\nall games,ännchen\n".encode()):
            table.write_bytes(wrong)
            self.assertEqual(str(raised(Refused, seeded, competition, table)), f"{table} is not a table.csv that `ggp_competition table` writes")
        table.unlink()
        said = f"{table} can't be read: No such file or directory; `seeds` needs the table.csv that `ggp_competition table` writes"
        self.assertEqual(str(raised(Refused, seeded, competition, table)), said)

    def test_files_by_which_it_was_planned_stand_in_the_order_of_their_numbers(self):
        self.add_earlier("10.toml", "9.toml", "100000.toml", "999999.toml")
        self.assertEqual([(count, competition.name) for count, competition in read_history(self.folder, COMPETITION).earlier],
                         [(9, "cup9"), (10, "cup10"), (100_000, "cup100000"), (999_999, "cup999999")])
        self.assertEqual([file.name for file in earlier_files(self.folder)], ["9.toml", "10.toml", "100000.toml", "999999.toml"])

    def test_other_files_are_refused_but_for_unfinished_ones(self):
        self.add_earlier("6.toml")
        (self.folder.earlier / ".unfinished-7-6.toml").touch()
        self.assertEqual([count for count, _ in read_history(self.folder, COMPETITION).earlier], [6])
        for name in ("0.toml", "06.toml", "1000000.toml", "x6.toml", "6.tomlx", "6", "-6.toml", "unfinished-7-6.toml"):
            (self.folder.earlier / name).write_text(TOML)
            why = raised(Refused, read_history, self.folder, COMPETITION)
            self.assertEqual(str(why), f"{self.folder.earlier / name} is not one of the earlier files of the competition")
            (self.folder.earlier / name).unlink()

    def test_the_earlier_files_have_a_limit_together(self):
        self.folder.earlier.mkdir()
        for count, size in ((1_000, 1), (16, 4 << 20)):
            files = [self.folder.earlier / f"{at}.toml" for at in range(1, count + 1)]
            for file in files:
                file.touch()
                os.truncate(file, size)
            self.assertEqual(earlier_files(self.folder), files)
            (self.folder.earlier / "9999.toml").write_bytes(b"x" * 1_600_000)
            why = raised(Refused, read_history, self.folder, COMPETITION)
            words = f"{self.folder.earlier}: expected at most 1,000 files with 67,108,864 bytes in total, found {count + 1:,} with {count * size + 1_600_000:,}"
            self.assertEqual(str(why), f"{words}: the schedule can't grow any more; begin another competition")
            for file in self.folder.earlier.iterdir():
                file.unlink()

    def test_an_earlier_file_that_says_no_competition_is_named_with_its_line(self):
        self.add_earlier("6.toml")
        (self.folder.earlier / "6.toml").write_text("x = 1\n")
        self.assertIn(f"{self.folder.earlier / '6.toml'}:1: name: the key is missing", str(raised(Refused, read_history, self.folder, COMPETITION)))

    def test_an_earlier_file_has_as_many_bytes_as_a_competition_may_have(self):
        self.add_earlier("6.toml")
        for size, refused in ((4 << 20, False), ((4 << 20) + 1, True)):
            (self.folder.earlier / "6.toml").write_text(TOML.ljust(size))
            if refused:
                self.assertIn("6.toml:1: the file has more than 4,194,304 bytes", str(raised(Refused, read_history, self.folder, COMPETITION)))
            else:
                self.assertEqual(len(read_history(self.folder, COMPETITION).earlier), 1)

    def test_orders_are_read_as_they_are_written(self):
        orders = Again("cup-5", "cup-1", "a  reason"), Again("c" * 60, "cup-5", "x" * 200), Again("c_.-9", "C" * 60, "~")
        text = again_text(orders)
        self.assertEqual(text.splitlines()[:2], [b"match\tinstead of\treason", b"cup-5\tcup-1\ta  reason"])
        self.folder.again.write_bytes(text)
        self.assertEqual((read_again(self.folder), read_history(self.folder, COMPETITION).again), (orders, orders))
        with mock.patch("ggp_tools.competition.history.MOST_OF_PLANNED", len(text)):
            self.assertEqual(read_again(self.folder), orders)
        self.assertEqual(history_files(self.folder), [self.folder.again])
        self.add_earlier("6.toml")
        self.assertEqual(history_files(self.folder), [self.folder.earlier / "6.toml", self.folder.again])

    def test_what_is_no_file_of_orders(self):
        text = again_text((Again("cup-5", "cup-1", 'a "reason"'), Again("cup-6", "cup-5", "x")))
        texts = [b"", text[:-1], text + b"\n", text + text.splitlines(True)[1], text.replace(b"\tx\n", b"\t\n"), text.replace(b"x", b"\xc3\xa9"), *text.split(b"\n", 1)]
        for orders in (
            (), (Again("a", "b", "c"), Again("a", "d", "e")), (Again("c" * 61, "b", "x"),), (Again("a", "c" * 61, "x"),), (Again("a", "b", "x" * 201),), (Again("a", "b", ""),),
            (Again("a b", "c", "x"),), (Again("", "c", "x"),),
        ):
            texts.append(again_text(orders))
        for wrong in texts:
            self.folder.again.write_bytes(wrong)
            self.assertEqual(str(raised(Refused, read_again, self.folder)), f"{self.folder.again} is not what `ggp_competition again` writes", wrong)
