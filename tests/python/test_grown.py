"""Archives of competitions that grew, with a match that was played again, and of competitions by rounds. `check` accepts these archives. It
refuses each corrupted copy, even if the checksums match. test_archive.py has the corruptions that apply to any archive."""

import json
import pathlib
import re
import tempfile
import unittest

from players import TestPlayer
from support import GAMES, assert_spoilt, run, toml
from test_archive import changed, files_of, packed, without

COUNTDOWN = [("countdown", GAMES / "countdown.kif")]
REASON = b"the power of ann's machine was out"


def without_round_2(files):
    """Removes the last round, and keeps the results that follow from the records."""
    files = dict(files)
    files["cup/schedule.tsv"] = b"".join(files["cup/schedule.tsv"].splitlines(keepends=True)[:3])
    return without(*(f"cup/{kind}" for match in ("cup-003", "cup-004") for kind in (f"records/{match}.json", f"accounts/{match}.txt", f"logs/{match}.jsonl")))(files)


GROWN = {
    "a reason is another": (changed("cup/again.tsv", lambda text: text.replace(b"power", b"cable")), "table.txt does not follow"),
    "a reason is another in the line of the match": (changed("cup/matches.jsonl", lambda text: text.replace(b"power", b"cable")), "matches.jsonl does not follow"),
    "a match was not ordered again": (without("cup/again.tsv"), "earlier/3.toml was replaced after 2 planned matches, not after 3 as its name says"),
    "another match was ordered again": (changed("cup/again.tsv", lambda text: text.replace(b"\tcup-001\t", b"\tcup-002\t")), "schedule.tsv does not agree with"),
    "a match was ordered again twice": (changed("cup/again.tsv", lambda text: text + text.splitlines(keepends=True)[1]), "again.tsv is not what"),
    "a record that does not count is missing": (without("cup/records/cup-001.json"), "cup-001: it has no record"),
    "a record that does not count is another": (changed("cup/records/cup-001.json", lambda text: text.replace(b'"ann"', b'"eve"')), "cup-001: "),
    "the file before is missing": (without("cup/earlier/3.toml"), "is not the next match of the schedule"),
    "the file before has another player": (changed("cup/earlier/3.toml", lambda text: text.replace(b'"bob"', b'"bab"')), "the player bab is missing"),
    "the file before is another in the order of its players": (
        changed("cup/earlier/3.toml", lambda text: text.replace(b'"ann"', b'"x"').replace(b'"bob"', b'"ann"').replace(b'"x"', b'"bob"')), "schedule.tsv does not agree with",
    ),
    "there is one more file before": (lambda files: changed("cup/competition.toml", lambda text: b"# \n" + text)({**files, "cup/earlier/9.toml": b""}), "earlier/9.toml:1: name: the key is missing"),
    "there is one more file before, and nothing has replaced it": (
        lambda files: packed({**files, "cup/earlier/7.toml": files["cup/competition.toml"]}), "earlier/7.toml asks for the same matches as the file after it",
    ),
    "there are more files before than `plan` writes": (
        lambda files: packed({**files, **{f"cup/earlier/{at}.toml": b"" for at in range(9, 1_009)}}), "cup/earlier: expected at most 1,000 files with 67,108,864 bytes in total, found 1,001 with",
    ),
    "a forfeit is taken away": (changed("cup/table.json", lambda text: text.replace(b'"lost_by_forfeit": 4', b'"lost_by_forfeit": 0')), "table.json does not follow"),
}
SWISS = {
    "a pairing is another": (changed("cup/schedule.tsv", lambda text: re.sub(rb"(cup-003.*\t)(\w+) (\w+)\n", rb"\1\3 \2\n", text)), "records/cup-003.json: its players is ['cid', 'ann'], but the schedule has ['ann', 'cid']"),
    "the last round is taken away": (without_round_2, "GAPS.tsv is missing"),
    "there is another number of rounds": (changed("cup/competition.toml", lambda text: text.replace(b"rounds = 2", b"rounds = 3")), "GAPS.tsv is missing"),
    "there are fewer rounds": (changed("cup/competition.toml", lambda text: text.replace(b"rounds = 2", b"rounds = 1")), "schedule.tsv does not agree with"),
    "a record of the first round is missing": (without("cup/records/cup-001.json"), "has round 2, which was paired by the result of cup-001"),
    "a bye is another's": (changed("cup/table.txt", lambda text: text.replace(b"round 1; bye: cid", b"round 1; bye: bob")), "table.txt does not follow"),
    "a bye is another's on the first page": (changed("cup/pages/index.html", lambda text: text.replace(b"round 1; bye: cid", b"round 1; bye: bob")), "pages/index.html does not follow"),
    "the round of a match is another": (changed("cup/matches.jsonl", lambda text: text.replace(b'"round":2', b'"round":1', 1)), "matches.jsonl does not follow"),
    "the seeds are others": (
        changed("cup/competition.toml", lambda text: text.replace(b'"ann"', b'"x"').replace(b'"cid"', b'"ann"').replace(b'"x"', b'"cid"')), "schedule.tsv does not agree with",
    ),
}


class InArchive(unittest.TestCase):
    """A test that publishes an archive at its end."""

    def new_folder(self):
        self.folder = pathlib.Path(self.enterContext(tempfile.TemporaryDirectory()))

    def refused(self, *words):
        status, out, said = run(self.folder, *words)
        self.assertEqual((status, out), (2, ""), said)
        return said

    def ran(self, *words, status=0):
        found, out, said = run(self.folder, *words)
        self.assertEqual((found, said), (status, ""), out)
        return out.splitlines()


class Spoilt(InArchive):
    def folder_of(self, players, **more):
        """Begins a competition among these players in a new directory."""
        self.new_folder()
        self.write(players, **more)

    def write(self, players, **more):
        (self.folder / "competition.toml").write_text(toml([(player.name, player.place()) for player in players], COUNTDOWN, **more))

    def test_a_competition_that_grew(self):
        ann, bob, _ = players = [TestPlayer("ann"), TestPlayer("bob"), TestPlayer("cid", "lying")]
        head = "start = 5\nplay = 5\nstrikes = 1\nforfeit = true\n"
        self.folder_of([ann, bob], head=head)
        for words in (["plan"], ["play"]):
            self.ran(*words)
        said = "cup-003 countdown ann bob replaces cup-001"
        self.assertEqual(self.ran("again", "cup-001", "--reason", REASON.decode()), [said])
        self.write(players, head=head)
        self.assertEqual(self.ran("plan")[-1], "schedule.tsv: 7 matches of 3 players; added: 4, cup-004 to cup-007")
        out = self.ran("play")
        begun = sorted(line.split()[1] for line in out if line.startswith("begin"))
        self.assertEqual(out[-1], "6 of 6 matches have a lawful record; 1 match does not count")
        self.assertEqual(begun, ["cup-003", "cup-004", "cup-005", "cup-006", "cup-007"])
        self.ran("publish")
        self.assertIn("7 records and call logs", self.ran("check", "cup.tar.gz")[0])
        files = files_of(self.folder / "cup.tar.gz")
        self.assertEqual(files["cup/again.tsv"].splitlines()[1], b"cup-003\tcup-001\t" + REASON)
        first, _, third, *_ = map(json.loads, files["cup/matches.jsonl"].splitlines())
        self.assertEqual((first["again"], first["reason"], third["insteadOf"]), ("cup-003", REASON.decode(), "cup-001"))
        table = json.loads(files["cup/table.json"])
        self.assertEqual((table["matches"], table["planned"]), (6, 6))
        lines = {line["player"]: line for line in table["tables"][0]["lines"]}
        self.assertEqual([(lines[name]["won_by_forfeit"], lines[name]["lost_by_forfeit"]) for name in ("ann", "bob", "cid")], [(2, 0), (2, 0), (0, 4)])
        self.assertEqual([lines["cid"]["goals"], lines["ann"]["goals"] + lines["bob"]["goals"]], [0, 150])
        self.assertIn(b"cup-001 does not count: cup-003 replaces it: the power of ann", files["cup/pages/index.html"])
        assert_spoilt(self, files, GROWN)

    def test_a_swiss_competition(self):
        self.folder_of([TestPlayer(name) for name in ("ann", "bob", "cid")], form='kind = "swiss"\nrounds = 2', head="start = 5\nplay = 5\n")
        self.assertEqual(self.ran("plan")[1:], ["round 1 of 2: cup-001 to cup-002; bye: cid", "schedule.tsv: 2 matches of 3 players"])
        out = self.ran("play")
        self.assertEqual([line.partition(";")[0] for line in out if line.startswith("round")], ["round 2 of 2: cup-003 to cup-004"])
        self.assertEqual(out[-1], "4 of 4 matches have a lawful record")
        self.ran("publish")
        self.assertIn("4 records and call logs, the table and the pages are right; published", self.ran("check", "cup.tar.gz")[0])
        files = files_of(self.folder / "cup.tar.gz")
        assert_spoilt(self, files, SWISS)
        # Simulates a `play` that was stopped after the first round.
        text = files["cup/schedule.tsv"]
        (self.folder / "schedule.tsv").write_bytes(b"".join(text.splitlines(keepends=True)[:3]))
        kept = {file: file.read_bytes() for match in ("cup-003", "cup-004") for file in self.folder.glob(f"*/{match}.*")}
        for file in kept:
            file.unlink()
        self.assertEqual(run(self.folder, "publish")[2], "ggp_competition: nothing was published: 1 of 2 rounds are not planned yet; `--gaps` publishes without them\n")
        self.ran("publish", "--gaps")
        self.assertIn("2 records and call logs, the table and the pages are right; 1 of 2 rounds were not planned; published", self.ran("check", "cup.tar.gz")[0])
        self.assertEqual(files_of(self.folder / "cup.tar.gz")["cup/GAPS.tsv"], text.splitlines(keepends=True)[0])
        for file, data in kept.items():
            file.write_bytes(data)
        self.assertEqual(run(self.folder, "play")[0], 2)
        for file in kept:
            file.unlink()
        self.assertEqual(self.ran("play")[-1], "4 of 4 matches have a lawful record")
        self.assertEqual((self.folder / "schedule.tsv").read_bytes(), text)

    def test_a_knockout(self):
        self.folder_of([TestPlayer(name) for name in ("ann", "bob", "cid")], form='kind = "knockout"', head="start = 5\nplay = 5\n")
        self.assertEqual(self.ran("plan")[1], "round 1 of 2: cup-001 to cup-002; bye: ann")
        self.assertEqual(self.ran("play")[-1], "4 of 4 matches have a lawful record")
        self.ran("publish")
        self.ran("check", "cup.tar.gz")
        self.ran("table")
        lines = json.loads((self.folder / "table.json").read_text())["tables"][0]["lines"]
        self.assertEqual([line["rounds_won"] for line in lines], [2, 1, 0])
        self.assertEqual(sorted(line["player"] for line in lines), ["ann", "bob", "cid"])
