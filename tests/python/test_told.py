"""Players that get rules with variables: the plan, the contents of START, and the published archive."""

import shutil
import tarfile
import unittest

from ggp_tools.descriptions.loading import sum_of
from ggp_tools.match_log import Other, line_of
from players import TestPlayer, example, has_variables
from support import GAMES, InFolder, assert_spoilt, run, toml
from test_archive import changed, files_of, packed, without

TOLD = 'player_rules = "variables"'
GAMES_WITH_PLAYER_RULES = [("nim", GAMES / "general/nim.kif", TOLD), ("countdown", GAMES / "countdown.kif"), ("nim.players", GAMES / "general/nim.kif")]
HEAD = "start = 10\nplay = 10\n"
OTHERWISE = changed("cup/competition.toml", lambda text: text.replace(b'"variables"', b'"ground"'))
OTHER_RULES = changed("cup/rules/nim.players", lambda text: text.replace(b"100", b"90"))
OTHER_PAGE = changed("cup/pages/games/nim.html", lambda text: text.replace(b"?", b"!", 1))


def another_game(files):
    """Corrupts an archive so that its descriptions and its matches are of different games, with matching checksums."""
    before = files["cup/games/nim.kif"]
    files["cup/games/nim.kif"] = before.replace(b" 100)", b" 99)")
    sums = sum_of(before).encode(), sum_of(files["cup/games/nim.kif"]).encode()
    lines = files["cup/rules/DESCRIPTIONS.sha256"].split(b"\n")
    files["cup/rules/DESCRIPTIONS.sha256"] = b"\n".join(line.replace(*sums) if line.endswith(b"  nim.kif") else line for line in lines)
    return packed(files)


SPOILINGS = {
    "players are told other rules": (OTHER_RULES, "rules/nim.players is not what"),
    "what players are told is missing": (without("cup/rules/nim.players"), "rules/nim.players does not exist"),
    "players are told ground rules": (OTHERWISE, "rules/SHA256SUMS does not agree with"),
    "a description is another": (changed("cup/games/nim.kif", lambda text: text + b"; more\n"), "games/nim.kif is not the description that the rules of nim were made from"),
    "the matches are of another game": (another_game, "compared with games/nim.kif, it differs: "),
    "a page has other rules for players": (OTHER_PAGE, "pages/games/nim.html does not follow"),
}


@unittest.skipUnless(shutil.which("gringo"), "gringo is not installed")
class Told(InFolder):
    def setUp(self):
        super().setUp()
        self.players = [TestPlayer(name, "good", at) for at, name in enumerate(("ann", "bob"))]
        self.schedule = self.plan([(player.name, player.place()) for player in self.players], GAMES_WITH_PLAYER_RULES, head=HEAD)

    def rules(self, name):
        return (self.folder / f"rules/{name}").read_bytes()

    def read(self, name):
        """Returns the sentences of a file of rules."""
        return tuple(example.read(self.rules(name).decode("ascii")))

    def tell_otherwise(self):
        """Changes competition.toml so that the players get ground rules."""
        file = self.folder / "competition.toml"
        file.write_text(file.read_text().replace(TOLD, 'player_rules = "ground"'))

    def assert_refused(self, words, command):
        status, out, said = run(self.folder, command)
        self.assertEqual((status, out), (2, ""))
        self.assertIn(words, said)

    def test_the_plan(self):
        names = "countdown.kif", "nim.kif", "nim.players", "nim.players.kif"
        self.assertEqual(sorted(file.name for file in (self.folder / "rules").iterdir()), ["DESCRIPTIONS.sha256", "SHA256SUMS", *names])
        self.assertEqual(self.rules("SHA256SUMS").decode(), "".join(f"{sum_of(self.rules(name))}  {name}\n" for name in names))
        described = [(name, sum_of((GAMES / file).read_bytes())) for name, file in zip(("countdown", "nim", "nim.players"), ("countdown.kif", "general/nim.kif", "general/nim.kif"))]
        self.assertEqual(self.rules("DESCRIPTIONS.sha256").decode(), "".join(f"{digest}  {name}.kif\n" for name, digest in described))
        self.assertEqual([has_variables(self.read(name)) for name in names], [False, False, True, False])
        self.assertLess({"base", "input"}, {sentence[0] for sentence in self.read("nim.players")})
        self.assertEqual(self.rules("nim.kif"), self.rules("nim.players.kif"))

    def test_what_was_not_planned(self):
        text = self.rules("nim.players")
        (self.folder / "rules/nim.players").write_bytes(text.replace(b"100", b"90"))
        self.assert_refused("rules/nim.players is not what `ggp_competition plan` wrote", "play")
        (self.folder / "rules/nim.players").write_bytes(text)
        self.tell_otherwise()
        self.assert_refused("rules/SHA256SUMS does not agree with competition.toml: `ggp_competition plan` writes it anew", "table")
        self.assertEqual(run(self.folder, "plan")[0], 0)
        self.assertEqual(run(self.folder, "table")[0], 0)

    def test_played_and_published(self):
        (self.folder / "schedule.tsv").unlink()
        status, out, said = run(self.folder, "play")
        self.assertEqual((status, said), (0, ""), out)
        self.assertIn(f"schedule.tsv: {len(self.schedule)} matches of", out)
        self.assert_sound(self.schedule)
        told = {"nim": self.read("nim.players"), "countdown": self.read("countdown.kif"), "nim.players": self.read("nim.kif")}
        for match, game, *_ in self.schedule:
            self.assertEqual([player.told[match] for player in self.players], [told[game]] * 2, match)
        self.assertEqual({error for record in self.records().values() for turn in record["errors"] for error in turn}, {""})
        self.tell_otherwise()
        self.assert_refused("player_rules of nim was 'variables' and is now 'ground': undo the change", "plan")
        (self.folder / "competition.toml").write_text(toml([(player.name, player.place()) for player in self.players], GAMES_WITH_PLAYER_RULES, head=HEAD))
        self.assertEqual(run(self.folder, "publish")[0], 0)
        self.look_at_pages()
        self.look_at_archive()

    def look_at_pages(self):
        pages = {name: (self.folder / f"pages/games/{name}.html").read_text() for name in ("nim", "countdown", "nim.players")}
        for name, page in pages.items():
            is_told = name == "nim"
            self.assertEqual(("Players get these rules, with variables" in page, "?" in page), (is_told, is_told), name)
            self.assertIn(sum_of(self.rules(f"{name}.kif")), page)
        self.assertIn(sum_of(self.rules("nim.players")), pages["nim"])

    def test_rules_that_are_not_those_of_the_description(self):
        file, sums = self.folder / "rules/nim.kif", self.folder / "rules/SHA256SUMS"
        wrong = self.rules("nim.kif").replace(b" 100)", b" 99)")
        sums.write_bytes(sums.read_bytes().replace(sum_of(self.rules("nim.kif")).encode() + b"  nim.kif", sum_of(wrong).encode() + b"  nim.kif"))
        file.write_bytes(wrong)
        status, out, said = run(self.folder, "play", "--at-once", "1")
        self.assertEqual((status, said), (1, ""), out)
        wrongly = [planned[0] for planned in self.schedule if planned[1] == "nim"]
        # The next match may have begun while the first one was being checked.
        stopped = next(line for line in out.splitlines() if line.startswith("stopped nim, because "))
        first = next(match for match in wrongly if match in stopped)
        words = f"no record {first}: compared with the description of nim, it differs: "
        self.assertIn(words, out)
        self.assertIn("gives 100; it is kept as ", out)
        report = self.folder / f"report-{first}.tar.gz"
        self.assertIn(f"please report this, and include {report.name}", out.replace(f"{self.folder}/", "").replace("./", ""))
        names = "account.txt", "description.kif", "record.json", "rules.kif", "words.txt"
        with tarfile.open(report) as archive:
            self.assertEqual(sorted(archive.getnames()), [f"{first}/{name}" for name in names])
        self.assertEqual(sorted(self.records()), sorted(planned[0] for planned in self.schedule if planned[1] != "nim"))
        self.assertTrue(all(b'"held"' not in file.read_bytes() for file in (self.folder / "logs").glob("countdown*.jsonl")))

    def look_at_archive(self):
        status, out, said = run(self.folder, "check", "cup.tar.gz")
        self.assertEqual((status, said), (0, ""), out)
        self.assertIn("; 4 matches agree with descriptions that have variables; ", out)
        files = files_of(self.folder / "cup.tar.gz")
        logs = {match: (self.folder / f"logs/{match}.jsonl").read_bytes() for match, *_ in self.schedule}
        held = [match for match, log in logs.items() if log.endswith(line_of(Other("held", {"match": match, "reason": None})))]
        self.assertEqual(held, [match for match, game, *_ in self.schedule if game != "countdown"])
        # No call confirms that line, so `publish` leaves it out, and `check` again compares the matches with their descriptions.
        self.assertEqual([name for name, data in files.items() if name.startswith("cup/logs/") and b'"held"' in data], [])
        self.assertEqual(files["cup/rules/nim.players"], self.rules("nim.players"))
        assert_spoilt(self, files, SPOILINGS)
