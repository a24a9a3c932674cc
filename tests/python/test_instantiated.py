"""Grounding for a competition: its time limit, its cache, and ground rules with their description next to them."""

import os
import re
import shutil
import subprocess
import unittest
from unittest import mock

from ggp_tools.competition.files import UNFINISHED
from ggp_tools.descriptions import kept
from ggp_tools.descriptions.loading import sum_of
from support import GAMES, TOP, InFolder, run, toml

NIM = GAMES / "general/nim.kif"
PLAYERS = [("ann", "127.0.0.1:9"), ("bob", "127.0.0.1:10")]
# This game has 810,000 instances. Splitting cannot reduce their number, and grounding takes a few seconds.
LONG = "(role a) (init s) " + " ".join(f"(n {at})" for at in range(30)) + "(<= (legal a (m ?a ?b ?c ?d)) (n ?a) (n ?b) (n ?c) (n ?d) (true s))"
LONG += "(<= terminal (true t)) (goal a 1)"


class Kept(InFolder):
    def setUp(self):
        super().setUp()
        self.enterContext(mock.patch.dict(os.environ, {"XDG_CACHE_HOME": str(self.folder)}))

    def test_what_is_kept(self):
        key, other = kept.sum_of_work(b"(role a)", []), kept.sum_of_work(b"(role a)", ["--player-rules"])
        self.assertNotEqual(key, other)
        self.assertNotEqual(key, kept.sum_of_work(b"(role b)", []))
        self.assertIsNone(kept.kept(key))
        kept.keep(key, b"rules\n", b"told")
        self.assertEqual(kept.kept(key), (b"rules\n", b"told"))
        self.assertIsNone(kept.kept(other))

    def test_the_sum_is_over_all_code_that_a_result_comes_from(self):
        found = kept.sources()
        asked = {name for file in found for name in re.findall(r"from ggp_tools\.(\w+) import", file.read_text())}
        # These modules only read, report and limit the time, so they do not change the result.
        self.assertEqual({f"{name}.py" for name in asked} - {file.name for file in found}, {"streams.py", "timed.py"})

    def test_a_file_that_is_cut_off_is_none(self):
        kept.keep("key", b"rules\n", b"")
        (self.folder / "ggp_manager/instantiated/key").write_bytes(b"6\nrul")
        self.assertIsNone(kept.kept("key"))
        (self.folder / "ggp_manager/instantiated/key").write_bytes(b"")
        self.assertIsNone(kept.kept("key"))

    def test_what_another_user_can_have_placed_is_not_read(self):
        kept.keep("key", b"rules\n", b"")
        kept.keep("other", b"others\n", b"")
        folder = self.folder / "ggp_manager/instantiated"
        own, other = folder / "key", folder / "other"
        self.assertEqual((own.stat().st_mode & 0o777, kept.kept("key")), (0o600, (b"rules\n", b"")))
        own.chmod(0o602)
        self.assertIsNone(kept.kept("key"))
        own.write_bytes(other.read_bytes())
        own.chmod(0o600)
        self.assertIsNone(kept.kept("key"))
        kept.keep("key", b"rules\n", b"")
        own.rename(self.folder / "elsewhere")
        own.symlink_to(self.folder / "elsewhere")
        self.assertIsNone(kept.kept("key"))
        # Writing a file does not follow a link, either.
        unfinished = folder / f"{UNFINISHED}{os.getpid()}-new"
        unfinished.symlink_to(self.folder / "elsewhere")
        before = (self.folder / "elsewhere").read_bytes()
        kept.keep("new", b"new\n", b"")
        self.assertEqual(((self.folder / "elsewhere").read_bytes(), kept.kept("new")), (before, (b"new\n", b"")))
        if os.geteuid() == 0:
            os.chown(folder / "new", 1, -1)
            self.assertIsNone(kept.kept("new"))

    def test_what_can_not_be_kept_is_no_fault(self):
        (self.folder / "ggp_manager").write_bytes(b"")
        kept.keep("key", b"rules", b"")
        self.assertIsNone(kept.kept("key"))

    def test_old_ones_go(self):
        with mock.patch.object(kept, "MOST_KEPT", 2):
            for key in "abc":
                kept.keep(key, b"rules", b"")
        self.assertEqual(len(list((self.folder / "ggp_manager/instantiated").iterdir())), 2)


@unittest.skipUnless(shutil.which("gringo"), "gringo is not installed")
class Seconds(InFolder):
    def test_a_game_that_is_stopped_has_no_verdict(self):
        (self.folder / "long.kif").write_text(LONG)
        status, out, said = run(self.folder, "game", "--instantiate", "1", "long.kif")
        self.assertEqual((status, out), (3, ""))
        self.assertIn("stopped after 1 s", said)
        self.assertIn("`--instantiate T` gives it more time", said)

    def test_a_plan_that_is_stopped_changes_nothing(self):
        (self.folder / "long.kif").write_text(LONG)
        (self.folder / "competition.toml").write_text(toml(PLAYERS[:1], [("long", "long.kif", "instantiate = 1")]))
        status, out, said = run(self.folder, "plan")
        self.assertEqual((status, out), (3, ""))
        self.assertIn("long.kif: ggp-instantiate: stopped after 1 s", said)
        self.assertIn("; `instantiate` of the game gives it more time; nothing was changed\n", said)
        self.assertFalse((self.folder / "rules").exists())


@unittest.skipUnless(shutil.which("gringo"), "gringo is not installed")
class Described(InFolder):
    """Ground rules with the GDL file with variables next to them."""

    def setUp(self):
        super().setUp()
        ground = subprocess.run([TOP / "python/ggp-instantiate", NIM], check=True, capture_output=True).stdout
        (self.folder / "ground.kif").write_bytes(b"; made by hand\n" + ground)
        (self.folder / "nim.kif").write_bytes(NIM.read_bytes())

    def planned(self, *more):
        (self.folder / "competition.toml").write_text(toml(PLAYERS, [("nim", "ground.kif", *more)]))
        return run(self.folder, "plan")

    def test_the_plan(self):
        status, out, said = self.planned('described = "nim.kif"', 'player_rules = "variables"')
        self.assertEqual((status, said), (0, ""), out)
        self.assertEqual((self.folder / "rules/nim.kif").read_bytes(), (self.folder / "ground.kif").read_bytes())
        told = subprocess.run([TOP / "python/ggp-instantiate", "--player-rules", "told", NIM], cwd=self.folder, check=True, capture_output=True)
        self.assertEqual((self.folder / "rules/nim.players").read_bytes(), (self.folder / "told").read_bytes(), told.stderr)
        sums = f"{sum_of(NIM.read_bytes())}  nim.kif\n"
        self.assertEqual((self.folder / "rules/DESCRIPTIONS.sha256").read_text(), sums)

    def test_what_is_suspicious_is_printed_even_if_the_description_is_refused(self):
        for more, status in ((b"", 0), (b"(goal first x)", 1)):
            done = subprocess.run([TOP / "python/ggp-instantiate"], input=NIM.read_bytes() + b"(line 1)" + more, capture_output=True)
            self.assertEqual(done.returncode, status, done.stderr)
            self.assertIn(b"\n  suspicious: line 25, column 1: the game does not use `(line _)`: (line 1)\n", b"\n" + done.stderr)

    def test_what_does_not_fit(self):
        for option, words in (
            ('player_rules = "variables"', 'ground.kif has no variables: use "ground"'), ('described = "ground.kif"', "ground.kif: its description ground.kif has no variables"),
            ('described = "other.kif"', "ground.kif: its description other.kif: it can't be read: No such file or directory"),
        ):
            status, _, said = self.planned(option)
            self.assertEqual(status, 2)
            self.assertIn(words, said)
