"""A competition of 12 players, five of them bad, over three games with 6 matches at once. `play` is killed twice, interrupted once, and
resumed. At the end, each match has one lawful record and one call log that reproduces it. No player was asked during a match. The table
agrees with a simple recount of the records."""

import json
import signal
import subprocess
import time

import pytest
from players import TestPlayer
from support import GAMES, ODD, InFolder, program, run, slowness, start

BAD = {2: "slow", 4: "closing", 6: "dripping", 8: "lying", 10: "dying"}
HEAD = """start = {start}
play = {play}
strikes = 1
tries = 8
wait = 1
info = 5
forfeit = true
"""


def recount(records):
    """Returns, for each player, the matches, goals, matches with goals, wins, draws, losses, moves, replaced moves and retirements."""
    found = {}
    for record in records:
        out = [any(turn[role] for turn in record["errors"]) for role in range(len(record["players"]))]
        worth = [-1 if gone else goal for gone, goal in zip(out, record["goalValues"] or [0] * len(out))]
        counted = record["goalValues"] or [0] * len(out)
        if any(out):
            left = record["goalValues"] if len(out) > 2 and record["goalValues"] else [100 // (out.count(False) or 1)] * len(out)
            worth = [-1 if gone else goal for gone, goal in zip(out, left)]
            counted = [max(0, goal) for goal in worth]
        has_goals = bool(record["goalValues"]) or any(out)
        for role, player in enumerate(record["players"]):
            line = found.setdefault(player, [0] * 9)
            others = [of_role for at, of_role in enumerate(worth) if at != role]
            wrong = sum(bool(turn[role]) for turn in record["errors"])
            is_counted = bool(others) and has_goals
            won = is_counted and all(worth[role] > of_other for of_other in others)
            lost = is_counted and (worth[role] < max(others) or out[role])
            drawn = is_counted and not won and not lost
            added = (1, counted[role], has_goals, won, drawn, lost, len(record["moves"]), wrong, out[role])
            found[player] = [count + int(more) for count, more in zip(line, added)]
    return found


def told(table):
    """Returns the same numbers from the output of `ggp_competition table`."""
    keys = "matches", "won", "drawn", "lost", "moves", "replaced", "retired"
    return {line["player"]: (line["goals"], *(line[key] for key in keys)) for line in table["lines"]}


@pytest.mark.gate
class Whole(InFolder):
    def setUp(self):
        super().setUp()
        self.players = [TestPlayer(f"p{number}", BAD.get(number, "good"), number) for number in range(12)]
        (self.folder / "odd.kif").write_text(ODD)
        games = [("countdown", GAMES / "countdown.kif"), ("odd", "odd.kif"), ("buttons", GAMES / "buttons.kif")]
        head = HEAD.format(start=2 * slowness(), play=min(2, slowness()))
        self.schedule = self.plan([(player.name, player.place()) for player in self.players], games, head=head)

    def until(self, count, playing):
        """Waits until this many matches have records, and some are open."""
        while len(list((self.folder / "records").glob("*.json"))) < count or not list((self.folder / "open").glob("*/players")):
            self.assertIsNone(playing.poll(), "it ended too early")
            time.sleep(0.1)

    def test_each_match_once(self):
        self.assertEqual(len(self.schedule), 132 + 48 + 12)
        began, clashed = time.monotonic(), []
        for count, number in ((30, signal.SIGKILL), (70, signal.SIGKILL), (110, signal.SIGINT), (None, None)):
            playing = start(self.folder, "play", "--at-once", "6")
            if count:
                self.until(count, playing)
                playing.send_signal(number)
            out, said = playing.communicate()
            status = playing.returncode
            self.assertEqual(said, "")
            clashed += [line for line in out.splitlines() if line.startswith(("no record", "refused"))]
            self.assertEqual(status, {signal.SIGKILL: -9, signal.SIGINT: 1, None: 0}[number], out[-2000:])
            if number == signal.SIGINT:
                self.assertIn("no more matches begin", out)
                self.assertIn(": not begun", out)
        seconds = time.monotonic() - began
        self.assertEqual(clashed, [])
        self.assertIn("192 of 192 matches have a lawful record", out)
        self.look()
        print(f"192 matches, killed twice and interrupted once, in {seconds:.0f} s", flush=True)

    def look(self):
        self.assert_sound(self.schedule)
        records = self.records()
        errors = [error for record in records.values() for turn in record["errors"] for error in turn]
        self.assertNotIn("IL busy", errors)
        self.assertEqual([candidate.clashes for candidate in self.players], [[]] * 12)
        self.assertEqual(set(errors), {"", "CE", "TO", "RT", "IL (no such move)"})
        good = {candidate.name for candidate in self.players if candidate.kind in ("good", "slow")}
        for record in records.values():
            for role, player in enumerate(record["players"]):
                if player in good:
                    self.assertEqual({turn[role] for turn in record["errors"]}, {""}, record["matchId"])
        status, _, said = run(self.folder, "table")
        self.assertEqual((status, said), (0, ""))
        tables = json.loads((self.folder / "table.json").read_text())["tables"]
        games = {planned[0]: planned[1] for planned in self.schedule}
        for table in tables:
            counted = recount([record for match, record in records.items() if table["game"] in ("all games", games[match])])
            plain = {who: (round(goals / of, 2), n, *rest) for who, (n, goals, of, *rest) in counted.items()}
            self.assertEqual(told(table), plain, table["game"])


def test_a_round_begins_for_all_players_at_once():
    """Ann answers so late that bob's thread already checks for the next message only every 0.8 s. If ann's next message does not wake this thread,
    bob's message comes about 0.7 s after ann's. On a busy computer, one of the first rounds may be late."""
    ann, bob = (TestPlayer(name, "good", at) for at, name in enumerate(("ann", "bob")))
    answers, came, gaps = ann.answer, [], []

    def note(message):
        came.append(time.monotonic())
        return bob_answers(message)

    def late(message):
        if message[0] == "play":
            began = time.monotonic()
            while len(came) < len(gaps) + 2:
                time.sleep(0.002)
            gaps.append(came[-1] - began)
            time.sleep(0.8 * (min(gaps[1:], default=1) > 0.3))
        return answers(message)

    bob_answers, bob.answer, ann.answer = bob.answer, note, late
    words = ["run", "--rules-file", GAMES / "tictactoe.kif", "--id", "m", "--start=60", "--play=60", *(f"{player.name}@{player.place()}" for player in (ann, bob))]
    subprocess.run([program(), *words], check=True, capture_output=True)
    assert min(gaps[1:]) < 0.3, gaps
