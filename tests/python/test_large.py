"""A game beyond the usual limits is checked, planned, played, published and checked with the large limits."""

import pytest

from ggp_tools.instantiating.limits import LARGE_NOTE
from ggp_tools.kif import expressions
from players import TestPlayer
from support import GAMES, InFolder, call, run

# The maximum number of sentences within the usual limits, in addition to those of the game.
BESIDE = 8_192


@pytest.mark.gate
class Large(InFolder):
    def setUp(self):
        super().setUp()
        self.file = self.folder / "big.kif"
        self.file.write_text((GAMES / "countdown.kif").read_text() + "".join(f"(beside {number})\n" for number in range(BESIDE)))

    def test_it_is_accepted_without_asking_for_large_games(self):
        for words, is_told in (((), True), (("--large",), False)):
            status, out, said = run(self.folder, "game", str(self.file), "--matches", "2", *words)
            self.assertEqual((status, said, f"its ground rules: {LARGE_NOTE}\n" in out), (0, "", is_told), out)
            self.assertIn("random matches, seeds 1 to 2: 2 finished, 0 aborted", out)

    def test_it_is_played_published_and_checked(self):
        players = [TestPlayer(name, "good", at) for at, name in enumerate(("ann", "bob"))]
        schedule = self.plan([(player.name, player.place()) for player in players], [("big", "big.kif")])
        status, out, said = run(self.folder, "play")
        self.assertEqual((status, said), (0, ""), out)
        self.assertEqual([len(player.told[schedule[0][0]]) for player in players], [len(expressions(self.file.read_text()))] * 2)
        rules, record = self.folder / "rules/big.kif", (self.folder / f"records/{schedule[0][0]}.json").read_bytes()
        self.assertEqual(call("verify", "--rules-file", rules, data=record), b"")
        self.assertEqual(call("verify", "--large", "--rules-file", rules, data=record), b"lawful\n")
        self.assertEqual(run(self.folder, "publish")[0], 0)
        status, out, said = run(self.folder, "check", "cup.tar.gz")
        self.assertEqual((status, said), (0, ""), out)
        self.assertIn(f"{len(schedule)} records and call logs", out)
