"""Bad input: each command reports the place of the error, and writes nothing."""

import contextlib
import io
import os
import shutil
import subprocess
import sys
import unittest
from unittest import mock

from ggp_tools.competition.command import COMMANDS
from ggp_tools.descriptions.loading import NoDescription, instantiated
from ggp_tools.descriptions.random_matches import TimeIsOver
from ggp_tools.competition.files import Refused, write_whole
from ggp_tools.competition.game import try_rules
from ggp_tools.competition.plan import faults_of_descriptions, make_plan, read_plan
from ggp_tools.referee import NoReferee, find_program
from support import COMMAND, GAMES, ODD, TOP, InFolder, call, program, program_but, raised, run, run_into_full, stand_in, toml

PLAYERS = [("ann", "127.0.0.1:9147"), ("bob", "127.0.0.1:9148")]
FACTS = "(role a)\n(role b)\n"
# A description, and the expected message about it.
DESCRIPTIONS = [
    ("", "line 1, column 1: there is no sentence"),
    (FACTS + "(init (x 1)", "line 3, column 1: a list that is not closed"),
    (FACTS + "  (init (x 1)))", "line 3, column 15: a `)` with no open list"),
    (FACTS + "(init caf\N{LATIN SMALL LETTER E WITH ACUTE})", "line 3, column 10: a byte that is not a character of KIF"),
    (FACTS + "; a comment (\n(<= (next (x 1)) (init (x 1)))", "line 4, column 1: true or does as a head, init or next as a condition, or a role with conditions: (<= (next (x 1)) (init (x 1)))"),
    (FACTS + "(<= (legal a ?m) (not (move ?m)))", "line 3, column 1: ?m is unsafe"),
    (FACTS + "(<= p q)\n(<= q p)\n(<= terminal p)", "line 4, column 1: an atom that depends on itself: (<= q p)"),
    ("(init x)", "no (role NAME), but a game needs at least one"),
    (FACTS + "(role a)", "line 3, column 1: a role that is named twice: (role a)"),
    (FACTS + "(legal a go) (init s)\n(goal a 101)", "line 4, column 1: neither a fact nor a rule: (goal a 101)"),
    (FACTS + "(" * 70 + "a" + ")" * 70, "line 3, column 65: a list nested more than 64 deep"),
    ("".join(f"(role r{number})" for number in range(17)), "line 1, column 151: more than 262144 sentences, 262144 different atomic sentences, 16 roles or 4096 moves of one role: (role r16)"),
]


class BadInput(InFolder):
    def write(self, *words, **more):
        (self.folder / "competition.toml").write_text(toml(*words, **more))

    def assert_refused(self, words, *command):
        before = sorted(self.folder.rglob("*"))
        status, out, said = run(self.folder, *command or ("plan",))
        self.assertEqual((status, out), (2, ""))
        for line in words if isinstance(words, list) else [words]:
            self.assertIn(line, said)
        self.assertEqual(sorted(self.folder.rglob("*")), before)

    def test_a_forfeit_without_strikes_is_told(self):
        for head, told in (("forfeit = true", 1), ("forfeit = true\nstrikes = 1", 0), ("strikes = 0", 0)):
            self.write(PLAYERS, [("countdown", GAMES / "countdown.kif")], head=head)
            status, out, said = run(self.folder, "plan")
            self.assertEqual((status, said, out.count("forfeit: without `strikes` no player is retired, so `forfeit` has no effect\n")), (0, "", told))

    def test_a_name_that_the_locale_lacks(self):
        self.write(PLAYERS, [("game", "\N{GREEK SMALL LETTER BETA}.kif")])
        environment = {**os.environ, "LC_ALL": "C", "PYTHONUTF8": "0", "PYTHONCOERCECLOCALE": "0"}
        status, out, said = run(self.folder, "plan", env=environment)
        self.assertEqual((status, out), (2, ""))
        self.assertRegex(said, r"^ggp_competition: '\\u03b2\.kif' can't be the name of a file in this locale, whose encoding is \S+\n$")

    def test_a_plan_is_changed_only_before_a_record(self):
        (self.folder / "game.kif").write_bytes((GAMES / "countdown.kif").read_bytes())
        (self.folder / "records").mkdir()
        for name, play in (("none", 2), (".unfinished-7-cup-1.json", 3)):
            (self.folder / "records" / name).touch()
            self.write(PLAYERS, [("game", "game.kif")], head=f"play = {play}\n")
            self.assertEqual(run(self.folder, "plan")[0], 0, name)
        (self.folder / "records/cup-1.json").touch()
        self.write(PLAYERS, [("game", "game.kif")], head="play = 4\n")
        self.assert_refused("competition.toml:5: the clocks of game were 10 and 3, and are now 10 and 4: undo the change", "plan")

    def test_a_plan_that_is_broken_off_is_none(self):
        game, written = self.folder / "game.kif", []
        referee = stand_in(roles=lambda *_: ("a", "b"))
        self.write(PLAYERS, [("game", "game.kif", "aborts = true")])
        for stop in range(5):
            game.write_text(FACTS)
            make_plan(self.folder, referee)
            game.write_text(f"{FACTS}; other ones\n")

            def write(path, data, **more):
                written.append(path)
                if len(written) > stop:
                    raise KeyboardInterrupt
                write_whole(path, data, **more)

            written.clear()
            with mock.patch("ggp_tools.competition.plan.write_whole", write), contextlib.suppress(KeyboardInterrupt):
                make_plan(self.folder, referee)
            try:
                plan = read_plan(self.folder, referee)
            except Refused:
                self.assertIn(stop, (1, 2))
                continue
            # The rules on disk are either the old ones or those of the new description.
            wrong = list(faults_of_descriptions(plan, plan.folder.description))
            self.assertEqual((plan.rules["game"].text == game.read_bytes(), bool(wrong)), (stop > 0, stop == 0), written)

    def test_a_game_that_can_not_be_played_is_planned_only_if_that_is_said(self):
        game, referee = self.folder / "game.kif", stand_in(roles=lambda *_: ("robot",))
        buttons = (GAMES / "buttons.kif").read_text()
        for text, words in (
            ("(role robot)", "none of its matches can begin: each is aborted at the start with `nolegal robot`"),
            ("(role robot) (<= terminal (role robot))", "none of its matches can begin: each is aborted at the start with `nogoal robot`"),
            (buttons.replace("(<= terminal solved", "(=> terminal solved").replace("robot 0", "robto 0"), "all of 5 random matches were aborted, with `nogoal robot`"),
            (buttons, ""),
        ):
            game.write_text(text)
            self.write(PLAYERS, [("game", "game.kif")])
            if words:
                said = f"{self.folder}/competition.toml:4: games.file: {game}: {words}; with `aborts = true` it is planned anyway"
                self.assertEqual(str(raised(Refused, make_plan, self.folder, referee)), said)
                self.assertFalse((self.folder / "schedule.tsv").exists())
                self.write(PLAYERS, [("game", "game.kif", "aborts = true")])
            self.assertEqual(len(make_plan(self.folder, referee).matches), 2)
            (self.folder / "schedule.tsv").unlink()

    def test_a_game_whose_matches_are_long_is_planned_and_told(self):
        for fault, words in ((TimeIsOver(), "none of its random matches ended within 10 s"), (RecursionError(), "it was not tested: its rules depend on one another too deeply")):
            with mock.patch("ggp_tools.descriptions.random_matches.RandomMatches.play", side_effect=fault):
                why, note = try_rules(b"(role a)", None, "game")
            self.assertIsNone(why)
            self.assertIn(words, note)

    def test_the_progress_of_a_plan_is_written_only_to_a_terminal(self):
        for is_terminal in (False, True):
            with contextlib.redirect_stdout(io.StringIO()) as out, contextlib.redirect_stderr(io.StringIO()) as said:
                said.isatty = lambda: is_terminal
                self.assertEqual(try_rules((GAMES / "countdown.kif").read_bytes(), None, "game"), (None, None))
            self.assertEqual((out.getvalue(), said.getvalue() != "", "game: random match 1" in said.getvalue()), ("", is_terminal, is_terminal))

    def played(self):
        """Plans a competition, and writes a fake record of a match. Returns the files of the plan with their contents."""
        (self.folder / "game.kif").write_bytes((GAMES / "countdown.kif").read_bytes())
        self.plan(PLAYERS, [("game", "game.kif")], head="start = 2\n")
        (self.folder / "records").mkdir()
        (self.folder / "records/cup-001.json").touch()
        return {path: path.read_bytes() for path in [*(self.folder / "rules").iterdir(), self.folder / "schedule.tsv"]}

    def test_what_was_lost_of_a_plan_is_written_again(self):
        before, games = self.played(), self.folder / "game.kif"
        sums = [self.folder / f"rules/{name}" for name in ("SHA256SUMS", "DESCRIPTIONS.sha256")]
        for lost in (*([path] for path in before), [path for path in before if path.parent.name == "rules"], sums, list(before)):
            with self.subTest(lost):
                for path in lost:
                    path.unlink()
                if lost != sums[1:]:
                    self.assert_refused("does not exist: `ggp_competition plan` writes it\n", "table")
                self.assertEqual(run(self.folder, "plan")[::2], (0, ""))
                self.assertEqual({path: path.read_bytes() for path in before}, before)
        text = games.read_text()
        (self.folder / "planned.toml").unlink()
        for path in before:
            games.write_text(text.replace("100", "99"))
            path.unlink()
            self.assert_refused("would change, but matches have already been played: undo the change, or use another directory\n", "plan")
            games.write_text(text)
            self.assertEqual(run(self.folder, "plan")[::2], (0, ""))

    def test_what_helps_where_a_plan_was_changed(self):
        self.played()
        file, rules = self.folder / "competition.toml", self.folder / "rules/game.kif"
        text = file.read_text()
        file.write_text(text.replace("start = 2", "start = 3"))
        self.assert_refused("the clocks of game were 2 and 10, and are now 3 and 10: undo the change", "play")
        for command in ("table", "pages", "publish"):
            self.assert_refused("schedule.tsv does not agree with competition.toml: matches have already been played, so undo the change, or only add to the file and plan again\n", command)
        file.write_text(text.replace('name = "game"', 'name = "other"'))
        self.assert_refused("rules/SHA256SUMS does not agree with competition.toml: matches have already been played, so undo the change, or only add to the file and plan again\n", "table")
        file.write_text(text)
        rules.write_text("(role a)")
        self.assert_refused("rules/game.kif is not what `ggp_competition plan` wrote: delete it, and `ggp_competition plan` writes it again\n", "play")
        (self.folder / "records/cup-001.json").unlink()
        file.write_text(text.replace("start = 2", "start = 3"))
        self.assertEqual(run(self.folder, "plan")[::2], (0, ""))
        file.write_text(text)
        self.assert_refused("schedule.tsv does not agree with competition.toml: `ggp_competition plan` writes it anew\n", "table")
        self.assertEqual(run(self.folder, "plan")[::2], (0, ""))
        schedule = self.folder / "schedule.tsv"
        schedule.write_text(schedule.read_text().replace("ann bob", "bob ann"))
        self.assert_refused("schedule.tsv does not agree with competition.toml", "table")

    def test_a_schedule_that_is_too_long_is_refused_at_its_first_row_too_many(self):
        self.plan([("ann", "h:1"), ("bob", "h:2")], [("countdown", GAMES / "countdown.kif")])
        schedule = self.folder / "schedule.tsv"
        rows = schedule.read_bytes()
        for more, number in ((b"x\n" * 200_000, 100_002), (b"x" * 200_000, rows.count(b"\n") + 1)):
            schedule.write_bytes(rows + more)
            words = "expected at most 100,000 matches, each in a row of less than 131,072 bytes\n"
            self.assert_refused(f"schedule.tsv:{number}: {words}", "table")
        # A row that is too long is not read to its end.
        os.truncate(schedule, 1 << 40)
        self.assert_refused(words, "table")

    def test_the_mistakes_of_all_descriptions_are_reported_together(self):
        for number, (text, _) in enumerate(DESCRIPTIONS):
            (self.folder / f"{number}.kif").write_text(text)
        self.write(PLAYERS, [("none", "none.kif"), ("directory", "."), *((f"g{number}", f"{number}.kif") for number in range(len(DESCRIPTIONS)))])
        self.assert_refused([
            "competition.toml:4: games.file: none.kif: it can't be read: No such file", "competition.toml:7: games.file: .: it can't be read: Is a directory",
            *(f"competition.toml:{10 + 3 * number}: games.file: {number}.kif: {words}" for number, (_, words) in enumerate(DESCRIPTIONS)),
        ])

    @unittest.skipUnless(shutil.which("gringo"), "gringo is not installed")
    def test_a_description_past_the_limits(self):
        numbers = " ".join(f"(n {number})" for number in range(65))
        rule = "(<= (legal a (m ?x ?y)) (n ?x) (n ?y))"
        (self.folder / "game.kif").write_text(f"(role a) (<= terminal (true t)) (<= (goal a 0) (true t))\n{numbers}\n{rule}\n")
        self.write(PLAYERS, [("game", "game.kif")])
        place = "competition.toml:4: games.file: game.kif:"
        self.assert_refused([
            f"{place} largest: sentence 68, line 3: {rule}: 4,225 ground sentences\n{place} largest: sentence 0, line 1: ",
            f"\n{place} ggp-instantiate: nothing is written, because this exceeds the limit: 4,225 moves of a, but at most 4,096 are allowed\n",
        ])

    @unittest.skipUnless(shutil.which("gringo"), "gringo is not installed")
    def test_what_instantiate_says_of_rules_is_told(self):
        (self.folder / "coins.kif").write_text("(role a) (init (s 101)) (<= (goal a ?x) (true (s ?x))) (goal a 7)")
        # The first line is a comment by the author, not by `ggp-instantiate`.
        (self.folder / "one.kif").write_text("; a comment\n" + (GAMES / "buttons.kif").read_text())
        self.write(PLAYERS, [("coins", "coins.kif", "aborts = true"), ("one", "one.kif")])
        status, out, said = run(self.folder, "plan")
        self.assertEqual((status, said, [line.split(":")[0] for line in out.splitlines()]), (0, "", ["coins", "coins", "one", "schedule.tsv"]))
        self.assertEqual(out.splitlines()[1], (
            "coins: goals above 100 are left out (1, the first from sentence 2, line 1: (<= (goal a ?x) (true (s ?x)))): if a role would have such a goal value at the end, it gets its other goal value; "
            "if it has no other, the match has no goal values"
        ))

    def test_an_instantiation_that_is_ended(self):
        (self.folder / "game.kif").write_text("(role a) (<= (legal a ?x) (n ?x)) (n 1)")
        killed = self.folder / "killed"
        killed.write_text("import os\nos.kill(os.getpid(), 9)\n")
        ended = subprocess.run([sys.executable, killed], capture_output=True)
        with mock.patch("ggp_tools.descriptions.loading.run_module", lambda *_: ended):
            self.assertEqual(str(raised(NoDescription, instantiated, self.folder / "game.kif", b"", False, 60)), "ggp-instantiate ended with status -9")

    def test_a_description_behind_links_in_a_circle(self):
        (self.folder / "loop").symlink_to("loop")
        self.write(PLAYERS, [("one", "loop"), ("two", "loop/x")])
        self.assert_refused([f"games.file: {name}: it can't be read: Too many levels of symbolic links" for name in ("loop", "loop/x")])

    def test_a_referee_that_can_not_read_a_description(self):
        self.write(PLAYERS, [("tictactoe", GAMES / "tictactoe.kif")])
        short = program_but(self.folder / "short", '"$1" = verify', "echo 'ggp_manager: want of memory' >&2; exit 3")
        status, out, said = run(self.folder, "plan", "--program", short)
        self.assertEqual((status, out), (3, ""))
        self.assertEqual(said, f"ggp_competition: `ggp_manager verify` gave no verdict for {GAMES}/tictactoe.kif: want of memory; it ended with status 3; nothing was changed\n")
        self.assertEqual(sorted(file.name for file in self.folder.iterdir()), ["competition.toml", "short"])

    def test_a_description_where_the_rules_are_written(self):
        (self.folder / "rules").mkdir()
        (self.folder / "rules/nim.kif").write_text((GAMES / "general/nim.kif").read_text())
        self.write(PLAYERS, [("nim", "rules/nim.kif")])
        self.assert_refused("competition.toml:4: games.file: rules/nim.kif: a description must not be in rules, where `plan` writes the rules")

    def test_rules_with_variables_of_a_game_that_has_none(self):
        (self.folder / "one.kif").write_text("(role ?a")
        games = [("one", "one.kif", 'player_rules = "variables"'), ("two", "two.kif"), ("three", GAMES / "countdown.kif", "", 'player_rules = "variables"')]
        self.write(PLAYERS, games)
        self.assert_refused([
            "competition.toml:4: games.file: one.kif: line 1, column 1: a list",
            "competition.toml:8: games.file: two.kif: it can't be read",
            f'competition.toml:15: games.player_rules: {GAMES}/countdown.kif has no variables: use "ground"',
        ])

    def test_games_whose_roles_do_not_fit(self):
        (self.folder / "three.kif").write_text(ODD)
        self.write(PLAYERS[:2], [("three", "three.kif")])
        self.assert_refused("competition.toml:4: games.file: three has 3 roles, but the competition has 2 players")
        self.write(PLAYERS, [("three", "three.kif")], form='kind = "knockout"')
        self.assert_refused("competition.toml:4: games.file: the kind knockout is for games of two roles, but three has 3")

    def test_mistakes_have_line_and_key(self):
        self.write([*PLAYERS, ("ann", "nowhere")], [("tictactoe", GAMES / "tictactoe.kif")])
        self.assert_refused(["competition.toml:14: players.name: line 8 already has 'ann'", "competition.toml:15: players.address: expected HOST:PORT, with a port from 1 to 65,535, found 'nowhere'"])

    def test_what_is_missing(self):
        self.assert_refused("competition.toml can't be read: No such file")
        self.write(PLAYERS, [("tictactoe", GAMES / "tictactoe.kif")])
        for command in ("table", "pages", "publish"):
            self.assert_refused("schedule.tsv does not exist: `ggp_competition plan` writes it", command)

    def test_wrong_use(self):
        for words in ([], ["plan", "one", "two"], ["play", "--at-once", "0"], ["check"], ["look"]):
            self.assertEqual(subprocess.run([sys.executable, COMMAND, *words], capture_output=True).returncode, 2, words)
        said = subprocess.run([sys.executable, COMMAND, "plan", "--program", "/none"], capture_output=True, text=True)
        self.assertEqual((said.returncode, said.stderr), (2, "ggp_competition: /none is not an executable program\n"))

    def test_help_and_version(self):
        def said(*words):
            done = subprocess.run([sys.executable, COMMAND, *words], capture_output=True, text=True, check=True, env={**os.environ, "COLUMNS": "200"})
            self.assertEqual(done.stderr, "")
            return done.stdout

        self.assertEqual(said("--version"), call("--version").decode().replace("ggp_manager", "ggp_competition"))
        whole = said("--help")
        for name, (told, _) in COMMANDS.items():
            self.assertRegex(whole, rf"\n +{name} +{told}\n")
            of_command = said(name, "--help")
            self.assertIn(f"\n{told[0].upper()}{told[1:]}.\n", of_command)
            self.assertRegex(of_command, r"\n +(DIRECTORY +the directory of the competition|ARCHIVE +the file of an archive|FILE +competition.toml)")
            self.assertRegex(of_command, r"\n +--program FILE +the referee, ggp_manager \(")

    def test_no_referee_is_found(self):
        said = f"ggp_manager is not in /none/bin, {TOP}/bin, nor on the PATH of the shell; name it with `--program FILE`"
        with mock.patch("sys.argv", ["/none/bin/ggp_competition"]), mock.patch("os.access", return_value=False):
            self.assertEqual(str(raised(NoReferee, find_program, None)), said)

    def test_a_folder_with_a_name_that_the_output_can_not_say(self):
        self.write(PLAYERS, [("countdown", GAMES / "countdown.kif")])
        for name, encoding, said in (("caf\N{LATIN SMALL LETTER E WITH ACUTE}", "ascii", "caf\\xe9"), (os.fsdecode(b"caf\xff"), "utf-8", "caf\\udcff")):
            cup = self.folder / name
            cup.mkdir()
            shutil.copy(self.folder / "competition.toml", cup)
            status, out, _ = run(self.folder, "plan", name, env={**os.environ, "PYTHONIOENCODING": encoding})
            self.assertEqual((status, out.splitlines()[-1]), (0, f"{said}/schedule.tsv: 2 matches of 2 players"))
            self.assertEqual(run(self.folder, "play", f"{name}/none", env={**os.environ, "PYTHONIOENCODING": encoding})[0], 2)

    def test_a_full_output(self):
        self.write(PLAYERS, [("tictactoe", GAMES / "tictactoe.kif")])
        self.assertEqual(run_into_full(self.folder, "plan"), (1, "ggp_competition: standard output: No space left on device\n"))
        self.assertEqual(run(self.folder, "table")[0], 0)

    def test_a_path_with_a_control_character(self):
        self.write(PLAYERS, [("one", "a\\u0000b"), ("two", "\\u001b[2J"), ("three", "")])
        self.assert_refused([
            "competition.toml:6: games.file: expected the path of a file, found 'a\\x00b'",
            "competition.toml:9: games.file: expected the path of a file, found '\\x1b[2J'",
            "competition.toml:12: games.file: expected the path of a file, found ''",
        ])

    def test_a_folder_that_is_a_file(self):
        self.write(PLAYERS, [("tictactoe", GAMES / "tictactoe.kif")])
        (self.folder / "rules").write_text("")
        self.assert_refused(". can't be written: rules: File exists")

    @unittest.skipIf(not os.geteuid() and not shutil.which("setpriv"), "root may write anywhere, and setpriv is not installed")
    def test_an_unwritable_folder(self):
        self.write(PLAYERS, [("tictactoe", GAMES / "tictactoe.kif")])
        self.folder.chmod(0o555)
        # Without this capability, file permissions also apply to root.
        before = [] if os.geteuid() else ["setpriv", "--bounding-set=-dac_override"]
        words = [*before, sys.executable, COMMAND, "plan", "--program", program()]
        said = subprocess.run(words, cwd=self.folder, capture_output=True, text=True)
        self.assertEqual((said.returncode, said.stderr), (2, "ggp_competition: . can't be written: rules: Permission denied\n"))
