"""`ggp-records`: finds the game of each record, checks the records, and writes them as tables and pages."""

import contextlib
import csv
import gzip
import hashlib
import io
import json
import os
import pathlib
import shutil
import sqlite3
import subprocess
import sys
import unittest
from unittest import mock

from ggp_tools.records.collection import Pile, candidates, judged_batch, judged_lines, known_games, line_of
from ggp_tools.records.record import ACCOUNT_LINE, LONGEST_RECORD, numbered_lines
from ggp_tools.records.tables import made_whole
from ggp_tools.referee import BadRules
from support import GAMES, TOP, InFolder, program

RECORDS = TOP / "examples/records"
# The names of example records, by their verdict in the game with a heap of 3.
LAWFUL = ("countdown-3-first_version", "countdown-3-second_version")
FAULTY = "countdown-3-another_state"


NO_PLACE = "a value is nested more than 127 deep, a number is invalid or outside the range of binary64, or a surrogate pair is incomplete"


def record(name: str) -> str:
    return (RECORDS / f"{name}.record").read_text(encoding="ascii")


class Sorting(unittest.TestCase):
    def test_only_lines_of_an_account_by_their_form_are_skipped(self):
        for line in (b"0\topen m 0 1 1 a b\topened", b"12\tnext m 0\tover", b'1\tnext m 0\towe 2 play ({"cause":} })', b"1\tsubmit m} 0 1 }\trefused stale 2", b"1\tquery\tstatus"):
            self.assertTrue(ACCOUNT_LINE.fullmatch(line), line)
        for line in (b"1 {}", b"1\t{}", b"7", b"3\tnext m 0", b"3\tplay m\tx", b"1764273600 next m 0\tover", b'3\tnext m 0\to{"cause":null}', b"3\tnext m 0\t{} ", b"3\tnext m\tover\t", b"3\tnextm 0\tover", b"3\tnext m\t"):
            self.assertFalse(ACCOUNT_LINE.fullmatch(line), line)


class Says:
    """A fake referee that accepts a record only with the rules that the record's key `by` names, and refuses descriptions with certain names."""

    def __init__(self, *refused):
        self.refused, self.asked = refused, []

    def check_rules(self, path):
        if pathlib.Path(path).stem in self.refused:
            raise BadRules("bad")

    def verdicts(self, path, records):
        name = pathlib.Path(path).stem
        self.asked.append((name, records))
        return ["lawful" if json.loads(line).get("by") == name else f"not lawful: {name}" for line in records]


class Piles(InFolder):
    def write(self, name, text):
        (self.folder / name).write_bytes(text)
        return str(self.folder / name)

    def games(self, *firsts, refused=()):
        """Returns the known games of a directory. Each has the role a, and these terms in its first state."""
        (self.folder / "rules").mkdir(exist_ok=True)
        for at, first in enumerate(firsts):
            self.write(f"rules/g{at}.kif", b"(role a)" + "".join(f"(init {term})" for term in first).encode())
        return known_games(str(self.folder / "rules"), Says(*refused))

    def test_lines_have_numbers_and_no_ends(self):
        lines = list(numbered_lines(io.BytesIO(b"a\n\nb\r\n\r\nc\r\r\nlast")))
        self.assertEqual(lines, [(1, b"a"), (2, b""), (3, b"b"), (4, b""), (5, b"c"), (6, b"last")])
        self.assertEqual(list(numbered_lines(io.BytesIO(b""))), [])

    def test_of_a_line_that_is_too_long_so_much_is_read_as_shows_it(self):
        with mock.patch("ggp_tools.records.record.LONGEST_RECORD", 4):
            for data, wanted in ((b"1234\n5\n", [4, 1]), (b"1234\r\n5", [4, 1]), (b"12345\r\n5", [5, 1]), (b"12345\n5", [5, 1]), (b"x" * 7 + b"\n5", [7, 1]), (b"x" * 50 + b"\n5\n", [7, 1]), (b"x" * 50, [7])):
                found = list(numbered_lines(io.BytesIO(data)))
                self.assertEqual(([number for number, _ in found], [len(line) for _, line in found]), (list(range(1, len(wanted) + 1)), wanted), data)

    def test_what_a_line_is(self):
        for data, record, said in (
            (b'{"matchId":"m"}', {"matchId": "m"}, ""), (b"[]", None, "it is JSON, but not an object"), (b"7", None, "it is JSON, but not an object"),
            (b"[" * 99_999, None, f"it is not JSON: {NO_PLACE}"), (b"{", None, "it is not JSON: line 1, column 2: a key is missing"), (b"", None, "it is not JSON: it is empty"),
            (b" ", None, "it is not JSON: it is empty"), (b"{} {}", None, "it is not JSON: line 1, column 4: more text follows the value"), (b'{"a":NaN}', None, f"it is not JSON: {NO_PLACE}"),
        ):
            found = line_of("f", 3, data)
            self.assertEqual((found.file, found.number, found.data, found.record, found.said), ("f", 3, data, record, said))
        self.assertEqual([line_of("f", 1, data).match_id for data in (b'{"matchId":"m"}', b'{"matchId":7}', b"{}", b"7")], ["m", "", "", ""])
        with mock.patch("ggp_tools.records.collection.LONGEST_RECORD", 4):
            found = [line_of("f", 1, data) for data in (b"{  }", b"{   }")]
        self.assertEqual([(line.number, line.data, line.said) for line in found], [(1, b"{  }", ""), (1, b"", "it is longer than 16 MiB")])
        self.assertEqual(LONGEST_RECORD, 16 * 1024 * 1024)

    def test_lines_of_accounts_are_counted_and_the_others_come_some_megabytes_at_a_time(self):
        one, other = self.write("one", b"{}\n0\tnext m 0\tover\n{ }\n"), self.write("other", b"{  }\n1\tnext m 0\tover\n[]")
        with mock.patch("ggp_tools.records.collection.BATCH", 5):
            pile = Pile([one, other])
            found = [[(line.file, line.number, line.data) for line in batch] for batch in pile.batches()]
        self.assertEqual(found, [[(one, 1, b"{}"), (one, 3, b"{ }")], [(other, 1, b"{  }"), (other, 3, b"[]")]])
        self.assertEqual(pile.skipped, 2)
        self.assertEqual((list(Pile([self.write("none", b"")]).batches()), list(Pile([]).batches())), ([], []))

    def test_games_of_a_folder(self):
        for name, text in (("h0", b"(role ?x)"), ("h1", b"(init a)"), ("h2", b"(role a)"), ("h3", b")"), ("h4", b"(role)")):
            (self.folder / "rules").mkdir(exist_ok=True)
            self.write(f"rules/{name}.kif", text)
        self.write("rules/none.txt", b")")
        games, refused = self.games("ab", refused=["h2"])
        rules = self.folder / "rules"
        self.assertEqual([(game.name, game.roles, game.first, game.path) for game in games], [("g0", ("a",), ("a", "b"), str(rules / "g0.kif"))])
        self.assertEqual(refused, [
            f"{rules}/h0.kif: it has variables: `ggp-instantiate` makes ground rules from it", f"{rules}/h1.kif: it has no role", f"{rules}/h2.kif: bad",
            f"{rules}/h3.kif: line 1, column 1: a `)` with no open list; an earlier sentence may have one `)` too many",
            f"{rules}/h4.kif: line 1, column 1: (role) is not a sentence: (role); write (role _)",
        ])

    def test_the_game_whose_first_state_is_most_like_it_comes_first(self):
        games, _ = self.games("abc", "ab", "", "abd")
        for first, wanted in ((["a", "b"], "g1 g0 g3 g2"), (["a", "b", "d"], "g3 g1 g0 g2"), (["x"], "g2 g1 g0 g3"), (["b", "a"], "g1 g0 g3 g2")):
            self.assertEqual(" ".join(game.name for game in candidates({"roles": ["a"], "states": [first]}, games)), wanted, first)
        for record in ({"roles": ["a"]}, {"roles": ["a"], "states": []}, {"roles": ["a"], "states": [7]}, {"roles": ["a"], "states": [[1, ["x"]]]}, {"roles": ["a"], "states": 7}):
            self.assertEqual([game.name for game in candidates(record, games)], ["g2", "g1", "g0", "g3"])
        self.assertEqual(candidates({"roles": ["b"], "states": [["a"]]}, games) + candidates({}, games), [])

    def judged(self, *records):
        games, _ = self.games("a", "ab", "x")
        referee = Says()
        batch = [line_of("f", at, json.dumps(record).encode()) for at, record in enumerate(records)]
        return [(judged.game and judged.game.name, judged.verdict) for judged in judged_batch(referee, games, batch)], referee

    def test_a_record_is_lawful_if_it_is_so_by_one_of_the_games(self):
        one = {"roles": ["a"], "states": [["a"]]}
        found, referee = self.judged({**one, "by": "g1"}, {**one, "by": "g0"}, 7, {"roles": ["b"]}, {**one, "by": "none"})
        self.assertEqual(found, [("g1", "lawful"), ("g0", "lawful"), (None, "no record: it is JSON, but not an object"), (None, "no game has its roles"), ("g0", "not lawful: g0")])
        self.assertEqual([(name, len(records)) for name, records in referee.asked], [("g0", 3), ("g1", 2), ("g2", 1)])
        self.assertTrue(all(line.endswith(b"}\n") for _, records in referee.asked for line in records))

    def test_batches_are_judged_side_by_side_and_come_in_order(self):
        games, _ = self.games("a")
        file = self.write("pile", b"".join(json.dumps({"roles": ["a"], "states": [["a"]], "by": f"g{at % 2}"}).encode() + b"\n" for at in range(40)))
        with mock.patch("ggp_tools.records.collection.BATCH", 1):
            for jobs in (1, 3):
                found = list(judged_lines(Says(), games, Pile([file]), jobs))
                self.assertEqual([(judged.line.number, judged.is_lawful) for judged in found], [(at + 1, at % 2 == 0) for at in range(40)])

    def test_an_output_is_made_in_its_own_directory(self):
        # A file cannot be renamed to another file system, and the directory for temporary files may be on one.
        with made_whole(self.folder / "output") as made:
            self.assertEqual(made.parent.parent, self.folder)
            made.write_bytes(b"made")
        # In the meantime, another process may have written the file.
        with self.assertRaises(FileExistsError), made_whole(self.folder / "output") as made:
            made.write_bytes(b"made again")
        self.assertEqual([(path.name, path.read_bytes()) for path in self.folder.iterdir()], [("output", b"made")])


class WithPile(InFolder):
    """Runs `ggp-records` over a file of records, with the rules of two games."""

    def setUp(self):
        super().setUp()
        (self.folder / "rules").mkdir()
        for name in ("countdown", "tictactoe"):
            shutil.copy(GAMES / f"{name}.kif", self.folder / "rules")
        self.pile, self.out = self.folder / "pile", self.folder / "out"

    def run_records(self, *words: object, input: bytes = b"") -> subprocess.CompletedProcess:
        call = [sys.executable, TOP / "python/ggp-records", "--program", program(), "--rules", self.folder / "rules", *words]
        said = subprocess.run(list(map(str, call)), capture_output=True, input=input)
        return subprocess.CompletedProcess(said.args, said.returncode, said.stdout.decode(), said.stderr.decode())

    def converted(self, text: str, action: str, *words: object) -> subprocess.CompletedProcess:
        """Converts the records in this text."""
        self.pile.write_text(text, encoding="ascii")
        return self.run_records(action, *words, self.out, self.pile)


class Commands(WithPile):
    def setUp(self):
        super().setUp()
        lines = [record(LAWFUL[0]), "0\tnext m 0\tover\n", record(FAULTY), record(LAWFUL[1]), "no record\n", '{"roles":["x"]}\n']
        self.pile.write_text("".join(lines), encoding="ascii")

    def test_each_record_gets_a_line(self):
        said = self.run_records("check", self.pile)
        rows = [line.split("\t")[1:] for line in said.stdout.splitlines()]
        verdicts = ["lawful", "not lawful: state 1", "lawful"]
        self.assertEqual([row[3] for row in rows[:3]], verdicts)
        self.assertEqual([row[:2] for row in rows], [["1", "m1"], ["3", "m1"], ["4", "m1"], ["5", "-"], ["6", "-"]])
        self.assertEqual([row[2] for row in rows], ["countdown"] * 3 + ["-"] * 2)
        self.assertEqual(said.returncode, 1)
        self.assertEqual(said.stderr, "ggp-records: 2 lawful, 1 not lawful, 1 no record, 1 no game has its roles, 1 call log line skipped\n")

    def test_why_is_said_below_a_record_that_is_not_lawful(self):
        for words in (["--explain", "check", self.pile], ["check", self.pile, "--explain"], ["check", "--explain", self.pile]):
            said = self.run_records(*words)
            self.assertIn("\tmissing: (heap 2)\n\ttoo many: (heap 1)\n", said.stdout, words)

    def test_options_that_an_action_has_not_and_what_is_missing(self):
        for words, said in (
            (["sqlite", "--explain", "o", self.pile], "`sqlite` has no option --explain"), (["check", "--games", "x", self.pile], "`check` has no option --games"),
            (["csv", "--refereed-by", "x", "o", self.pile], "`csv` has no option --refereed-by"), (["check"], "the following arguments are required: RECORDS"),
            (["pages"], "the following arguments are required: DIR, RECORDS"), (["facts", "o"], "the following arguments are required: RECORDS"), (["log"], "the following arguments are required: LOG"),
            (["--jobs", "0", "check", self.pile], "argument --jobs: expected a number from 1 to 1,024, found '0'"),
        ):
            found = self.run_records(*words)
            self.assertEqual((found.returncode, found.stderr.splitlines()[-1]), (2, f"ggp-records: error: {said}"))

    def test_packed_files_and_standard_input(self):
        packed, data = self.folder / "pile.gz", self.pile.read_bytes()
        packed.write_bytes(gzip.compress(data))
        wanted = [line.split("\t")[1:] for line in self.run_records("check", self.pile).stdout.splitlines()]
        for name, given in ((packed, b""), ("-", data), ("-", gzip.compress(data))):
            said = self.run_records("check", name, input=given)
            self.assertEqual([line.split("\t")[1:] for line in said.stdout.splitlines()], wanted, name)
        packed.write_bytes(gzip.compress(data)[:-9])
        said = self.run_records("check", packed)
        self.assertEqual((said.returncode, said.stderr), (3, f"ggp-records: {packed}: the gzip data is cut off or damaged\n"))

    def test_records_on_several_lines_are_named_in_our_own_words(self):
        self.pile.write_text(json.dumps(json.loads(record(LAWFUL[1])), indent=1) + "\n\n", encoding="ascii")
        rows = [line.split("\t")[-1] for line in self.run_records("check", self.pile).stdout.splitlines()]
        self.assertEqual(rows[0], "no record: it is not JSON: line 1, column 2: a key is missing")
        self.assertEqual(rows[-1], "no record: it is not JSON: it is empty")
        said = self.run_records("check", self.pile, "--explain").stdout.splitlines()
        self.assertEqual(said[1], "\tThe text ends within the record: its end was cut off, or it is on several lines although each line must be a record.")

    def test_a_database_has_matches_players_and_moves(self):
        output, text = self.folder / "o.db", self.pile.read_text()
        self.pile.write_text(text.replace('"startMarks":["",""]', '"startMarks":["TO",""]', 1).replace('"endMarks":["",""]', '"endMarks":["","CE"]', 1))
        self.assertEqual(self.run_records("sqlite", output, self.pile).returncode, 1)
        with sqlite3.connect(output) as database:
            rows = database.execute("SELECT line, verdict, turns FROM matches ORDER BY number").fetchall()
            self.assertEqual(rows[:3], [(1, "lawful", 2), (3, "not lawful: state 1", 2), (4, "lawful", 2)])
            players = database.execute("SELECT role, player, goal, substitutions, start_mark, end_mark FROM players WHERE match_number = 1").fetchall()
            self.assertEqual(players, [("red", "ann", 0, 0, "TO", "answered"), ("blue", "bob", 100, 0, "answered", "CE")])
            moves = database.execute("SELECT turn, role_number, move, error FROM moves WHERE match_number = 3").fetchall()
            self.assertEqual(moves, [(1, 0, "(take 1)", ""), (1, 1, "noop", ""), (2, 0, "noop", ""), (2, 1, "(take 2)", "")])
        database.close()
        self.assertEqual(self.run_records("sqlite", output, self.pile).returncode, 2)

    def test_rows_that_do_not_count_are_marked(self):
        self.pile.write_text("".join(record(name) for name in (LAWFUL[1], FAULTY, LAWFUL[1], LAWFUL[0], FAULTY)), encoding="ascii")
        self.run_records("sqlite", self.folder / "o.db", self.pile)
        self.run_records("csv", self.folder / "tables", self.pile)
        marks = [(1, None), (0, None), (1, 1), (1, None), (0, 2)]
        with contextlib.closing(sqlite3.connect(self.folder / "o.db")) as database:
            def rows(query):
                return database.execute(query).fetchall()

            self.assertEqual(rows("SELECT lawful, copy_of FROM matches ORDER BY number"), marks)
            for table in ("players", "moves"):
                self.assertEqual(rows(f"SELECT DISTINCT lawful, copy_of FROM {table} ORDER BY match_number"), list(dict.fromkeys(marks)))
                self.assertEqual(rows(f"SELECT DISTINCT match_number FROM counted_{table} ORDER BY 1"), [(1,), (4,)])
            self.assertEqual(rows("SELECT checksum FROM matches"), [(hashlib.sha256(line.encode()).hexdigest(),) for line in self.pile.read_text().splitlines(True)])
        with open(self.folder / "tables/players.csv", encoding="utf-8", newline="") as file:
            self.assertEqual([(row["match_number"], row["lawful"], row["copy_of"]) for row in csv.DictReader(file)][:6], [("1", "1", "")] * 2 + [("2", "0", "")] * 2 + [("3", "1", "1")] * 2)

    def test_pages_link_each_match_and_show_no_markup_of_it(self):
        hostile = json.loads(record(LAWFUL[1]))
        hostile["players"][0] = "<script>x</script>"
        hostile["matchId"] = "../<b>"
        self.pile.write_text(record(LAWFUL[1]) + json.dumps(hostile) + "\n", encoding="ascii")
        self.run_records("pages", self.folder / "pages", self.pile)
        names = sorted(path.name for path in (self.folder / "pages").iterdir())
        self.assertEqual(names, ["000001-m1.html", "000002-.._b_.html".replace("_b_", "__b_"), "index.html"])
        for name in names:
            page = (self.folder / "pages" / name).read_text(encoding="ascii")
            self.assertNotIn("<script>x", page)
            self.assertNotIn("<b>:", page)

    def test_what_is_wide_scrolls_by_itself_and_not_the_page(self):
        self.run_records("pages", self.folder / "pages", self.pile)
        for path in (self.folder / "pages").iterdir():
            page = path.read_text(encoding="ascii")
            inside = page.count('<div class="wide"><table') + page.count('<div class="turns"><table')
            self.assertEqual((page.count("<table"), page.count('class="board"')), (inside, page.count('<div class="wide"><div class="board"')))

    def test_tables_take_what_is_no_lawful_record(self):
        odd, whole = [{"matchId": "\ud800"}, {"matchId": "a\0b"}, {"version": [1]}, {"players": ["=x", "a\"b\n,c\r"]}], json.loads(record(LAWFUL[1]))
        odd += [{"strikes": number} for number in ((1 << 63) - 1, 1 << 63, 10**30)]
        self.pile.write_text("".join(json.dumps({**whole, **keys}) + "\n" for keys in odd), encoding="ascii")
        for action in ("sqlite", "csv", "pages"):
            said = self.run_records(action, self.folder / action, self.pile)
            self.assertEqual((said.returncode, said.stderr), (1, "ggp-records: 7 not lawful\n"), action)
        with contextlib.closing(sqlite3.connect(self.folder / "sqlite")) as database:
            rows = database.execute("SELECT strikes, match_id FROM matches ORDER BY number").fetchall()
        self.assertEqual((rows[0][1], [strikes for strikes, _ in rows[4:]]), ("\\ud800", [(1 << 63) - 1, float(1 << 63), 1e30]))

    def test_a_database_takes_no_file_that_is_there(self):
        beside = self.folder / "o.db.new"
        beside.write_text("mine", encoding="ascii")
        self.run_records("sqlite", self.folder / "o.db", self.pile)
        self.assertEqual(beside.read_text(encoding="ascii"), "mine")
        (self.folder / "link").symlink_to("nowhere")
        self.assertEqual(self.run_records("sqlite", self.folder / "link", self.pile).returncode, 2)
        self.assertEqual(self.run_records("sqlite", self.folder / "none/o.db", self.pile).returncode, 3)
        self.assertEqual(sorted(path.name for path in self.folder.iterdir()), ["link", "o.db", "o.db.new", "pile", "rules"])

    def test_files_that_are_no_rules_are_told_and_skipped(self):
        odd = {"v": "(role red)(role blue)(<= (init x) (true y))", "w": "()", "x": "(((", "y": "", "z\tz": "(role red)(role blue)(<= a (not a))"}
        for name, text in odd.items():
            (self.folder / f"rules/{name}.kif").write_text(text, encoding="ascii")
        (self.folder / "rules" / os.fsdecode(b"\xff.kif")).write_text("(role red)(role blue)", encoding="ascii")
        self.pile.write_text(record(LAWFUL[1]), encoding="ascii")
        said = self.run_records("check", self.pile)
        self.assertEqual(said.returncode, 0, said.stderr)
        self.assertEqual(said.stderr.count("ggp-records: skipped: "), len(odd) + 1)

    def test_without_rules_there_is_no_verdict(self):
        for path in (self.folder / "rules").iterdir():
            path.unlink()
        self.assertEqual(self.run_records("check", self.pile).returncode, 3)
        (self.folder / "rules").rmdir()
        self.assertEqual(self.run_records("check", self.pile).returncode, 3)
