"""Tests the rules of a competition one by one, from the first command to an archive. `check` accepts the archive, and refuses a corrupted
copy with matching checksums."""

import json
import re
from unittest import mock

from ggp_tools.competition.command import arguments
from ggp_tools.competition.competition_file import read_competition
from ggp_tools.competition.files import Refused
from ggp_tools.competition.init_file import write_first_file
from players import TestPlayer
from support import GAMES, assert_spoilt, raised, run, toml
from test_archive import changed, files_of, without
from test_grown import InArchive

HEAD = "start = 5\nplay = 5\n"
COUNTDOWN = [("countdown", GAMES / "countdown.kif")]


def turns(*goals):
    """Returns a game where each role in turn has two moves while the others wait. It ends after two turns of each. The goals are known."""
    roles, last = [f"r{at}" for at in range(len(goals))], 2 * len(goals)
    lines = [f"(role {role}) (goal {role} {goal})" for role, goal in zip(roles, goals)] + ["(init (step 0))", f"(<= terminal (true (step {last})))"]
    for step in range(last):
        lines.append(f"(<= (next (step {step + 1})) (true (step {step})))")
        for at, role in enumerate(roles):
            moves = ("left", "right") if step % len(roles) == at else ("wait",)
            lines += [f"(<= (legal {role} {move}) (true (step {step})))" for move in moves]
    return "\n".join(lines)


class Rules(InArchive):
    def write(self, players, games, **more):
        """Writes competition.toml with these players, further keys for their entries, and these games."""
        (self.folder / "competition.toml").write_text(toml([(player.name, player.place(), *words) for player, *words in players], games, **more))

    def test_too_many_replaced_moves_and_a_forfeit_among_three(self):
        players = [(TestPlayer("ann"),), (TestPlayer("bob"),), (TestPlayer("cid", "lying at a choice"),)]
        self.new_folder()
        (self.folder / "two.kif").write_text(turns(0, 100))
        (self.folder / "three.kif").write_text(turns(100, 60, 20))
        self.write(players, [("two", "two.kif"), ("three", "three.kif")], head=f"{HEAD}strikes = 2\nforfeit = true\nfaults = {{replaced = 2}}\n")
        self.ran("plan")
        ends = [line for line in self.ran("play") if line.startswith("end")]
        # This player never has a choice in two consecutive turns, so it is never retired.
        self.assertTrue(any("two" in line and "cid (IL in 2 of turns 2 to 4), counts as " in line for line in ends), ends)
        self.assertIn("forfeit: cid (IL in 2 of turns 2 to 4), counts as bob 100, cid 0", self.ran("why", ".", "cup-002", "cid"))
        table = json.loads((self.ran("table") and (self.folder / "table.json").read_text()))
        lines = {line["player"]: line for line in table["tables"][0]["lines"]}
        self.assertEqual((table["replaced"], lines["cid"]["goals"], lines["cid"]["lost_by_forfeit"], lines["cid"]["retired"]), (2, 0, 7, 0))
        found = [json.loads(line) for line in (self.folder / "matches.jsonl").read_text().splitlines()]
        self.assertTrue(all(match["counted"] == [goal * (player != "cid") for goal, player in zip(match["goals"], match["players"])] for match in found if match["game"] == "three"))
        self.ran("publish")
        self.ran("check", "cup.tar.gz")
        assert_spoilt(self, files_of(self.folder / "cup.tar.gz"), {
            "the rule is another": (changed("cup/competition.toml", lambda text: text.replace(b"replaced = 2", b"replaced = 3")), "faults.replaced was 2 and is now 3"),
            "the reason is another": (changed("cup/matches.jsonl", lambda text: text.replace(b'"errors":["IL","IL"]', b'"errors":["IL","TO"]')), "matches.jsonl does not follow"),
        })
        text = (self.folder / "competition.toml").read_text()
        (self.folder / "competition.toml").write_text(text.replace("replaced = 2", "replaced = 1"))
        self.assertIn("faults.replaced was 2 and is now 1: undo the change", self.refused("plan"))

    def table(self):
        """Returns the lines of the table of all games by their players, and its notes."""
        self.ran("table")
        found = json.loads((self.folder / "table.json").read_text())["tables"][0]
        return {line["player"]: line for line in found["lines"]}, found["notes"]

    def test_a_player_withdraws_from_a_round_robin(self):
        ann, bob, cid = players = [(TestPlayer(name),) for name in ("ann", "bob", "cid")]
        self.new_folder()
        for rounds in (1, 2):
            self.write(players, COUNTDOWN, form=f'kind = "round_robin"\nrounds = {rounds}', head=HEAD)
            self.ran("plan")
            _ = self.ran("play") if rounds == 1 else None
        self.write([ann, bob, (*cid, 'withdrawn = "its disk is full"')], COUNTDOWN, form='kind = "round_robin"\nrounds = 2', head=HEAD)
        self.assertEqual(self.ran("plan")[-1], "schedule.tsv: 12 matches of 3 players; nothing added; 4 are not played, because a player has withdrawn")
        self.assertEqual(self.ran("play")[-1], "8 of 8 matches have a lawful record; 4 are not played, because a player has withdrawn")
        lines, notes = self.table()
        self.assertEqual(([lines[name]["matches"] for name in ("ann", "bob", "cid")], notes[0]), ([6, 6, 4], "cid has withdrawn: its disk is full; the matches that it has played count"))
        self.ran("publish")
        self.assertIn("8 records and call logs", self.ran("check", "cup.tar.gz")[0])
        # The matches that are not played are not gaps.
        self.assertNotIn("cup/GAPS.tsv", files_of(self.folder / "cup.tar.gz"))
        void = changed("cup/competition.toml", lambda text: b'withdrawn_results = "void"\n' + text)
        assert_spoilt(self, files_of(self.folder / "cup.tar.gz"), {
            "it has not withdrawn": (changed("cup/competition.toml", lambda text: text.replace(b"withdrawn = ", b"# ")), "earlier/12.toml asks for the same matches"),
            "its matches do not count": (void, "withdrawn_results was 'keep' and is now 'void'"),
            "a match of another one is missing": (without("cup/records/cup-007.json"), "cup-007: it has no record"),
        })
        self.write(players, COUNTDOWN, form='kind = "round_robin"\nrounds = 2', head=HEAD)
        self.assertIn("the player cid has withdrawn, and can't come back", self.refused("plan"))

    def test_players_withdraw_from_a_swiss_competition(self):
        names = ("ann", "eve", "bob", "dan", "cid")
        players = [(TestPlayer(name, "lying" if name == "eve" else "good"),) for name in names]
        self.new_folder()
        self.write(players, COUNTDOWN, form='kind = "swiss"\nrounds = 1', head=HEAD)
        for word in ("plan", "play"):
            self.ran(word)
        players[3] = (*players[3], "withdrawn = true")
        self.write(players, COUNTDOWN, form='kind = "swiss"\nrounds = 3', head=f'{HEAD}withdrawn_results = "void"\nabsent_rounds = 1\n')
        self.ran("plan")
        self.ran("play")
        schedule = [line.split("\t")[4].split() for line in (self.folder / "schedule.tsv").read_text().splitlines()[1:]]
        self.assertEqual((len(schedule), {name for pair in schedule[4:] for name in pair}), (8, {"ann", "bob", "cid"}))
        void = next(at for at, pair in enumerate(schedule, 1) if "dan" in pair)
        self.assertIn(f"cup-{void:03} does not count: ", self.refused("again", ".", f"cup-{void:03}", "--reason", "x"))
        lines, notes = self.table()
        # The matches against eve and dan give points like byes, and add nothing to the Buchholz score.
        self.assertEqual(sorted(line["byes"] for line in lines.values()), [1, 2, 2])
        self.assertEqual(sum(line["points"] for line in lines.values()), 2 * 5 + 4)
        absent = "eve has withdrawn: absent in 1 whole round; the matches that it has played do not count"
        self.assertEqual(notes[:2], [absent, "dan has withdrawn; the matches that it has played do not count"])
        self.ran("publish")
        self.assertIn("8 records and call logs", self.ran("check", "cup.tar.gz")[0])
        assert_spoilt(self, files_of(self.folder / "cup.tar.gz"), {
            "they count": (changed("cup/competition.toml", lambda text: text.replace(b'"void"', b'"keep"')), "schedule.tsv does not agree with"),
            "one is not withdrawn": (changed("cup/competition.toml", lambda text: text.replace(b"withdrawn = true", b"")), "schedule.tsv does not agree with"),
            "who is absent stays": (changed("cup/competition.toml", lambda text: text.replace(b"absent_rounds = 1", b"")), "schedule.tsv does not agree with"),
        })

    def test_a_pause_a_final_seeds_and_one_table_of_two_competitions(self):
        players = [(TestPlayer(name),) for name in ("ann", "bob", "cid", "dan")]
        self.new_folder()
        first, form = self.folder, 'kind = "swiss"\nrounds = 1\nfinal = 2'
        self.write(players, COUNTDOWN, form=form, head=f"{HEAD}pause = true\nanchor = {{ann = 1500}}\n")
        self.assertEqual((self.ran("plan", "--preview")[:2], (first / "schedule.tsv").exists()), (["round 1 of 2: cup-001 to cup-004", "cup-001 countdown ann bob"], False))
        self.ran("plan")
        paused = "pause: the next `ggp_competition play` plays round 2 of 2: cup-005 to cup-006"
        self.assertEqual(self.ran("play")[-2:], [paused, "4 of 4 matches have a lawful record"])
        heads, *rows = self.ran("plan", "--preview")
        self.assertEqual((heads, len(rows), self.ran("play")[-1]), ("round 2 of 2: cup-005 to cup-006", 2, "6 of 6 matches have a lawful record"))
        lines, _ = self.table()
        order = list(lines)
        self.assertEqual([lines[name]["rounds_won"] for name in order], [1, 0, None, None])
        self.assertEqual({name for row in rows for name in row.split()[2:]}, set(order[:2]))
        self.assertTrue(lines["ann"]["rating"] in (1500, None))
        self.ran("publish")
        self.assertIn("6 records and call logs", self.ran("check", "cup.tar.gz")[0])
        self.assertIn("<h2>Bracket</h2>", (first / "pages/index.html").read_text())
        assert_spoilt(self, files_of(self.folder / "cup.tar.gz"), {
            "there is no final": (changed("cup/competition.toml", lambda text: text.replace(b"final = 2", b"")), "schedule.tsv does not agree with"),
            "an anchor is another": (changed("cup/competition.toml", lambda text: text.replace(b"1500", b"1600")), "anchor was {'ann': 1500} and is now {'ann': 1600}"),
        })
        self.new_folder()
        text = toml([(player.name, player.place()) for player, in players], COUNTDOWN, 'kind = "knockout"', f'{HEAD}seeds = "{first}"\n')
        (self.folder / "competition.toml").write_text(text.replace('"cup"', '"last"'))
        for words in (["plan"], ["play"], ["publish"], ["check", "last.tar.gz"]):
            self.ran(*words)
        pair = (self.folder / "schedule.tsv").read_text().splitlines()[1].split("\t")[4]
        self.assertEqual(pair, f"{order[0]} {order[3]}")
        (self.folder / "cup.tar.gz").write_bytes((self.folder / "last.tar.gz").read_bytes())
        assert_spoilt(self, files_of(self.folder / "cup.tar.gz"), {"the seeds are others": (changed("last/seeds.csv", lambda text: text.replace(order[0].encode(), b"x")), "schedule.tsv does not agree with")})
        self.assertEqual(self.ran("table", first, ".")[0], "cup + last: 12 of 12 matches")
        self.assertIn("two of the directories have a competition named cup; a joint table needs different names", self.refused("table", first, first))
        (self.folder / "other").mkdir()
        (self.folder / "other/game.kif").write_text(turns(0, 100))
        (self.folder / "other/competition.toml").write_text(toml([("ann", "h:1"), ("bob", "h:2")], [("countdown", "game.kif")]).replace('"cup"', '"other"'))
        self.ran("plan", "other")
        self.assertIn("the rules of countdown in other differ from those in an earlier directory", self.refused("table", first, "other"))
        self.assertIn("--to: only a table of several directories can be written elsewhere", self.refused("table", ".", "--to", first))
        before, joint = (first / "table.json").read_bytes(), self.folder / "joint"
        self.assertEqual(run(self.folder, "table", first, ".", "--to", joint)[::2], (1, f"ggp_competition: {joint}/table.txt: No such file or directory\n"))
        joint.mkdir()
        text = "\n".join(self.ran("table", first, ".", "--to", joint)) + "\n"
        self.assertEqual(((joint / "table.txt").read_text(), sorted(file.name for file in joint.iterdir())), (text, ["crosstable.csv", "table.csv", "table.json", "table.txt"]))
        self.assertEqual(((first / "table.json").read_bytes(), (self.folder / "table.json").exists()), (before, False))

    def test_a_first_file_by_options_and_by_questions(self):
        self.new_folder()
        ann, bob = (f"{player.name}={player.place()}" for player in (TestPlayer("ann"), TestPlayer("bob")))
        words = "init", "cup", "--games", "countdown", "--swiss", "1", "--final", "2", "--players", f"{ann},{bob}"
        self.assertEqual(self.ran(*words), ["cup/competition.toml: now run `ggp_competition plan cup`"])
        first = (self.folder / "cup/competition.toml").read_text()
        self.assertEqual(read_competition(first.encode()).absent, "play")
        self.assertIn("cup/competition.toml already exists", self.refused(*words))
        for more, refused in (
            (["--games", "nogame"], "'nogame' is neither a file nor a game"), (["--knockout"], "not allowed with argument --swiss"), (["--swiss", "x"], "rounds: this is not TOML"),
            (["--final", "3"], "form.final: the competition has 2 players"), (["--name", "a cup"], "name: expected a name of 1 to 40 letters"), (["--players", "ann=9147"], "players.address: expected HOST:PORT"),
        ):
            self.assertIn(refused, self.refused("init", "other", *words[2:], *more))
        for more in ([], ["--games", "countdown"], ["--knockout"]):
            self.assertIn("expected --games, and one of --round-robin, --swiss, --gauntlet, --knockout", self.refused("init", "other", *more))
        self.assertFalse((self.folder / "other").exists())
        self.folder /= "cup"
        for command in (["plan"], ["play"], ["publish"], ["check", "cup.tar.gz"]):
            self.ran(*command)
        assert_spoilt(self, files_of(self.folder / "cup.tar.gz"), {"there is no final": (changed("cup/competition.toml", lambda text: text.replace(b"final = 2", b"")), "schedule.tsv does not agree with")})
        asked = arguments(["init", str(self.folder / "asked/cup")])
        with mock.patch("builtins.input", side_effect=["countdown", "league 1"]), mock.patch("sys.stdin.isatty", return_value=True):
            self.assertIn("'league' is not one of round-robin, swiss, ", str(raised(Refused, write_first_file, asked)))
        asked = arguments(["init", str(self.folder / "asked/cup")])
        with mock.patch("builtins.input", side_effect=["countdown", "swiss 1", f"{ann},{bob}"]), mock.patch("sys.stdin.isatty", return_value=True):
            write_first_file(asked)
        texts = (self.folder / "asked/cup/competition.toml").read_text(), first.replace("final = 2\n", "")
        self.assertEqual(*(re.sub(r"(\.\./)+", "", text) for text in texts))

    def test_what_the_options_write(self):
        players = ["--players", "ann=h:1, bob=h:2"]
        for words, players, wanted in (
            (["--gauntlet", "ann", "--start", "7", "--play", "3"], players, ("gauntlet", 1, "ann", 0, 7, 3)), (["--round-robin", "2"], players, ("round_robin", 2, "", 0, 10, 5)),
            (["--swiss", "3", "--final", "2"], players, ("swiss", 3, "", 2, 10, 5)), (["--knockout", "--name", "cup"], players, ("knockout", 1, "", 0, 10, 5)),
            # If you give no players, you add them to the file later.
            (["--gauntlet", "ann"], [], None), (["--swiss", "3", "--final", "2"], [], None), (["--gauntlet", "eve"], players, "form.one: there is no player 'eve'"),
        ):
            self.new_folder()
            asked = arguments(["init", str(self.folder), "--games", f"tictactoe,{GAMES / 'countdown.kif'},hex", *words, *players])
            if isinstance(wanted, str):
                self.assertIn(wanted, str(raised(Refused, write_first_file, asked)))
                continue
            text = write_first_file(asked).read_bytes()
            if wanted:
                found = read_competition(text)
                self.assertEqual((found.form.kind, found.form.rounds, found.form.one, found.form.final, found.start, found.play), wanted)
                self.assertEqual((found.name, b"absent_rounds" in text), ("cup" if "--name" in words else self.folder.name, found.form.kind in ("swiss", "knockout")))
                self.assertTrue(all(game.file.startswith("../") for game in found.games))
                self.assertEqual([(self.folder / game.file).resolve() for game in found.games], [GAMES / f"{name}.kif" for name in ("tictactoe", "countdown", "general/hex")])
