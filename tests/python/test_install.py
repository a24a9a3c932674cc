"""The commands that `make install` installs next to the referee work without the repository."""

import os
import pathlib
import shutil
import subprocess
import tempfile
import unittest

from support import GAMES, TOP, program, toml

COMMANDS = "ggp_manager", *(path.name for path in (TOP / "python").glob("ggp*") if path.is_file())
RECORD = TOP / "examples/records/countdown-3-second_version.record"


class Install(unittest.TestCase):
    def setUp(self):
        room = tempfile.TemporaryDirectory()
        self.addCleanup(room.cleanup)
        self.room = pathlib.Path(room.name)
        self.prefix = self.room / "prefix"
        shutil.copy(program(), self.room / "ggp_manager")
        (self.room / "ggp_manager.proved").write_text("what proved it\n")
        self.said = self.install("--program", self.room / "ggp_manager", self.prefix)

    def install(self, *words):
        return subprocess.run([TOP / "tools/install", *words], check=True, capture_output=True, text=True).stdout

    def files(self):
        return [path.relative_to(self.prefix) for path in self.prefix.rglob("*")]

    def run_there(self, *words, **more):
        """Runs an installed command that the shell finds in PATH."""
        environment = {**os.environ, "PATH": f"{self.prefix}/bin:{os.environ['PATH']}"}
        return subprocess.run(words, env=environment, capture_output=True, **more)

    def test_it_says_what_it_has_installed(self):
        self.assertEqual(sorted(self.said.splitlines()), sorted(f"{self.prefix}/bin/{name}" for name in COMMANDS))
        self.assertEqual(sorted(path.name for path in (self.prefix / "bin").iterdir()), sorted(COMMANDS))

    def test_each_command_has_its_page_and_its_completions(self):
        for name in COMMANDS:
            for path in (f"share/man/man1/{name}.1", f"share/bash-completion/completions/{name}", f"share/zsh/site-functions/_{name}"):
                self.assertTrue((self.prefix / path).is_file(), path)

    def test_nothing_is_left_where_it_is_removed(self):
        self.install("--remove", self.prefix)
        self.assertFalse(self.prefix.exists(), self.files())

    def test_what_was_there_before_is_left(self):
        self.install("--remove", self.prefix)
        others = self.prefix / "bin/other", self.prefix / "share/man/man1/other.1"
        for other in others:
            other.parent.mkdir(parents=True)
            other.touch()
        self.install(self.prefix)
        self.install(self.prefix)
        self.install("--remove", self.prefix)
        self.assertEqual(sorted(path for path in self.prefix.rglob("*") if path.is_file()), sorted(others))
        self.assertFalse((self.prefix / "lib").exists(), self.files())

    def test_what_an_earlier_version_installed_is_replaced_and_removed(self):
        (self.prefix / "lib/ggp_manager/installed").unlink()
        self.install(self.prefix)
        (self.prefix / "lib/ggp_manager/installed").unlink()
        self.install("--remove", self.prefix)
        self.assertFalse(self.prefix.exists(), self.files())

    def test_what_others_have_put_there_is_neither_replaced_nor_removed(self):
        for place in ("bin/ggp_manager", "bin/ggp-records", "share/man/man1/ggp-records.1", "lib/ggp_manager/data"):
            prefix = self.room / place.replace("/", "-")
            other = prefix / place
            other.parent.mkdir(parents=True)
            other.write_text("theirs\n")
            for words in (["--program", self.room / "ggp_manager", prefix], ["--remove", prefix]):
                done = subprocess.run([TOP / "tools/install", *words], capture_output=True, text=True)
                self.assertEqual((done.returncode, done.stdout), (1, ""), words)
            self.assertEqual((other.read_text(), len([path for path in prefix.rglob("*") if path.is_file()])), ("theirs\n", 1))

    def test_nothing_is_written_through_a_link_of_others(self):
        for place in ("bin/ggp_manager", "lib/ggp_manager"):
            prefix = self.room / place.replace("/", "-")
            (prefix / place).parent.mkdir(parents=True)
            (prefix / place).symlink_to(self.room / "elsewhere")
            done = subprocess.run([TOP / "tools/install", "--program", self.room / "ggp_manager", prefix], capture_output=True, text=True)
            self.assertEqual((done.returncode, (self.room / "elsewhere").exists()), (1, False))

    def test_a_program_that_is_not_proved(self):
        (self.room / "ggp_manager.proved").unlink()
        done = subprocess.run([TOP / "tools/install", "--program", self.room / "ggp_manager", self.room / "other"], capture_output=True, text=True)
        said = f"install: {self.room}/ggp_manager.proved: No such file or directory\n"
        self.assertEqual((done.returncode, done.stdout, done.stderr, (self.room / "other").exists()), (1, "", said, False))

    def test_it_plans_where_it_was_put(self):
        cup = self.room / "cup"
        cup.mkdir()
        nim = [("nim", GAMES / "general/nim.kif", 'player_rules = "variables"')] if shutil.which("gringo") else []
        games = [("countdown", GAMES / "countdown.kif"), *nim]
        (cup / "competition.toml").write_text(toml([("ann", "h:1"), ("bob", "h:2")], games))
        done = self.run_there("ggp_competition", "plan", cwd=cup, text=True)
        self.assertEqual((done.returncode, done.stderr), (0, ""))
        self.assertIn(f"schedule.tsv: {2 * len(games)} matches of 2 players", done.stdout)
        self.assertEqual(self.run_there("ggp_competition", "pages", cwd=cup).returncode, 0)
        self.assertTrue((cup / "pages/index.html").exists())

    def test_it_looks_at_a_game_where_it_was_put(self):
        done = self.run_there("ggp_competition", "game", GAMES / "countdown.kif", text=True)
        self.assertEqual((done.returncode, done.stderr), (0, ""))
        self.assertIn("random matches, seeds 1 to 20: 20 finished, 0 aborted\n", done.stdout)

    def test_it_checks_records_where_it_was_put(self):
        records = RECORD.read_bytes() * 3 + b"none\n"
        done = self.run_there("ggp-verify-records", "--piece", "600", "ggp_manager", "--", "--countdown", "3", input=records)
        said = done.returncode, done.stdout, done.stderr
        self.assertEqual(said, (1, b"lawful\n" * 3 + b"not lawful: json\n", b"ggp_manager: records not lawful 1\n"))

    def test_it_explains_records_where_it_was_put(self):
        changed = RECORD.read_bytes().replace(b"(take 1)", b"(take 3)")
        done = self.run_there("ggp-explain-record", "ggp_manager", "--countdown", "3", input=changed)
        said = done.stdout.decode().splitlines()
        self.assertEqual((done.returncode, done.stderr, said[0].split()[:3]), (1, b"", ["not", "lawful:", "illegal"]))
        self.assertIn("found: (take 3)", said)
        described = self.run_there("ggp-explain-record", "ggp_manager", "--rules-file", GAMES / "countdown.kif", RECORD)
        self.assertEqual((described.returncode, described.stdout, described.stderr), (0, b"lawful\n", b""))
