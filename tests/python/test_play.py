"""How matches are played: busy and silent players, players in several matches, Ctrl-C, a full disk, and two runs in one directory."""

import contextlib
import json
import os
import pathlib
import pty
import resource
import shutil
import signal
import subprocess
import tempfile
import unittest

import pytest

from ggp_tools.competition.files import locked
from ggp_tools.competition.command import MOST_LINES
from players import TestPlayer
from support import GAMES, InFolder, command_of, program, program_but, run, run_into_full, start, wait_until

COUNTDOWN = [("countdown", GAMES / "countdown.kif")]
HEAD = "start = 5\nplay = 5\nstrikes = 1\nwait = 1\ninfo = 5\ntries = 2\n"


def lines(out, word):
    return [line for line in out.splitlines() if line.startswith(word)]


def read_to_close(terminal):
    """Returns all output of a terminal until the other end of the terminal is closed."""
    said = b""
    with contextlib.suppress(OSError):
        while piece := os.read(terminal, 4096):
            said += piece
    os.close(terminal)
    return said.decode()


class Play(InFolder):
    def planned(self, kinds, head=HEAD, more=(), most=1, **rest):
        """Plans a competition among players of these kinds."""
        self.players = [TestPlayer(f"p{at}", kind, at, most) for at, kind in enumerate(kinds)]
        self.schedule = self.plan([(player.name, player.place(), *more) for player in self.players], COUNTDOWN, head=head, **rest)

    def test_a_line_as_each_begins_and_ends(self):
        self.planned(["good", "lying", "good"])
        status, out, said = run(self.folder, "play")
        self.assertEqual((status, said), (0, ""))
        self.assertEqual(sorted(line.split()[1] for line in lines(out, "begin")), [planned[0] for planned in self.schedule])
        ends = lines(out, "end")
        self.assertEqual(len(ends), 6)
        self.assertRegex(ends[0], r"^end cup-\d{3} countdown p\d \d+, p\d \d+(, replaced p1 \d of \d)?, \d+\.\d s$")
        self.assertEqual(sum("replaced p1" in end for end in ends), 4)
        self.assertEqual(out.splitlines()[-1], "6 of 6 matches have a lawful record")
        self.assert_sound(self.schedule)
        status, out, _ = run(self.folder, "play")
        self.assertEqual((status, out), (0, "6 of 6 matches have a lawful record\n"))

    def test_who_has_lost_by_forfeit_is_told(self):
        for head, said in (("forfeit = true\n", True), ("", False)):
            self.planned(["good", "lying"], head=HEAD + head)
            out = run(self.folder, "play")[1]
            self.assertEqual([", forfeit: p1 (IL in turn 1), counts as " in line for line in lines(out, "end")], [said] * 2, out)
            self.assertEqual(["p0 100" in line.partition("counts as")[2] for line in lines(out, "end")], [said] * 2, out)
            run(self.folder, "pages")
            pages = [self.folder / "pages" / name for name in ("index.html", "games/countdown.html", "matches/cup-001.html")]
            self.assertEqual(["forfeit: p1 (IL in turn 1)" in page.read_text() for page in pages], [said] * 3)
            shutil.rmtree(self.folder / "records")

    def test_times_stand_in_matches_jsonl(self):
        self.planned(["good", "slow"])
        run(self.folder, "play")
        found = [json.loads(line) for line in (self.folder / "matches.jsonl").read_text().splitlines()]
        records = self.records()
        self.assertEqual([match["id"] for match in found], ["cup-001", "cup-002"])
        for match in found:
            record, slow = records[match["id"]], match["players"].index("p1")
            self.assertEqual((match["goals"], match["turns"], match["errors"]), (record["goalValues"], len(record["moves"]), [{}, {}]))
            self.assertEqual([len(role) for role in match["messages"]], [match["turns"] + 2] * 2)
            self.assertTrue(all(ms >= 120 for _, ms in match["messages"][slow]), match)
            self.assertLess(match["begin"], match["end"])
            self.assertEqual([kind for kind, _ in match["messages"][0]], ["start", *["play"] * match["turns"], "stop"])

    def test_a_busy_player_is_asked_again_and_told(self):
        self.planned(["good", "good", "good"])
        self.players[0].status = "busy"
        status, out, _ = run(self.folder, "play")
        self.assertEqual(status, 1)
        self.assertEqual(len(lines(out, "end")), 2)
        self.assertEqual(len(lines(out, "back")), 1)
        self.assertEqual(len(lines(out, "no record")), 4)
        self.assertEqual({line.split(": ")[1] for line in lines(out, "missing")}, {"p0 is busy"})
        self.players[0].status = None
        status, out, _ = run(self.folder, "play")
        self.assertEqual((status, len(lines(out, "end"))), (0, 4))
        self.assert_sound(self.schedule)

    def test_a_silent_player_is_left_or_played(self):
        self.planned(["good", "good"], head=HEAD + 'absent = "play"\n')
        self.players[1].leave()
        status, out, _ = run(self.folder, "play")
        self.assertEqual(status, 0, out)
        self.assertEqual(len(lines(out, "silent")), 2)
        self.assertEqual({tuple(sorted(set(map(str, turn)))) for record in self.records().values() for turn in record["errors"]}, {("", "CE"), ("", "RT")})
        toml = self.folder / "competition.toml"
        toml.write_text(toml.read_text().replace('"play"', '"leave"'))
        shutil.rmtree(self.folder / "records")
        status, out, _ = run(self.folder, "play")
        self.assertEqual((status, lines(out, "begin")), (1, []))
        self.assertEqual({line.split(": ")[1] for line in lines(out, "missing")}, {"p1 is silent"})

    def test_a_referee_that_ends_without_a_word(self):
        self.planned(["good", "good"])
        for done, words, count in (("kill -9 $$", "it was killed by signal 9 (SIGKILL), without a message", 2), ("exit 1", "it ended with status 1, without a message", 2), ("echo 'ggp_manager: write fault' >&2; exit 1", "ggp_manager: write fault", 1)):
            faulty = program_but(self.folder / "faulty", '"$1" = run', f"for word; do case $word in --log=*) echo cut >> ${{word#--log=}};; esac; done; {done}")
            status, out, _ = run(self.folder, "play", "--at-once", "1", "--program", faulty)
            self.assertEqual((status, lines(out, "no record")), (1, [f"no record {planned[0]}: {words}" for planned in self.schedule[:count]]), out)

    def test_a_folder_whose_name_is_no_text(self):
        self.planned(["good", "good"])
        cup = self.folder / os.fsdecode(b"\xff")
        cup.mkdir()
        for name in ("competition.toml", "schedule.tsv", "rules"):
            shutil.move(self.folder / name, cup)
        said = f"ggp_competition: {self.folder}/\\udcff: the path of a competition must be UTF-8, because the referee accepts no other\n"
        self.assertEqual(run(cup, "play"), (2, "", said))
        self.assertEqual(([run(cup, command)[0] for command in ("plan", "table")], list(cup.glob("open"))), ([0, 0], []))

    def test_a_player_that_stays_busy_is_made_silent(self):
        self.planned(["good", "good", "good"], head=f"{HEAD}forfeit = true\n")
        self.players[2].status = "busy"
        status, out, _ = run(self.folder, "play")
        self.assertEqual((status, len(lines(out, "end"))), (1, 2))
        self.assertIn("nothing was published: 4 matches have no lawful record", run(self.folder, "publish")[2])
        file, nobody = self.folder / "competition.toml", TestPlayer("nobody")
        nobody.leave()
        text = file.read_text().replace(self.players[2].place(), nobody.place())
        for old, new in (("strikes", 'absent = "play"\nstrikes'), ("tries = 2", "tries = 1"), ("wait = 1", "wait = 0"), ("info = 5", "info = 9")):
            text = text.replace(old, new)
        file.write_text(f"{text}concurrent = 2\n")
        status, out, _ = run(self.folder, "play")
        self.assertEqual((status, len(lines(out, "silent")), len(lines(out, "end"))), (0, 4, 4), out)
        self.assertEqual([run(self.folder, command)[0] for command in ("plan", "table", "publish")], [0, 0, 0])
        self.assertEqual(run(self.folder, "check", "cup.tar.gz")[0], 0)
        self.assert_sound(self.schedule)

    def test_a_player_plays_as_many_matches_at_once_as_it_can(self):
        for more, most, least in (((), 1, 1), (("concurrent = 3",), 3, 2)):
            self.planned(["slow"] * 3, more=more, most=most)
            status, _, _ = run(self.folder, "play", "--at-once", "6")
            self.assertEqual((status, [player.clashes for player in self.players]), (0, [[]] * 3))
            self.assertIn(max(player.sat for player in self.players), range(least, most + 1))
            shutil.rmtree(self.folder / "records")

    def test_more_matches_than_a_shell_lets_files_be_open(self):
        self.planned(["good"] * 4, more=("concurrent = 12",), most=12)
        (self.folder / "begun").mkdir()
        together = f"mkdir {self.folder}/begun/$$; until [ $(ls {self.folder}/begun | wc -l) -ge 12 ]; do sleep 0.1; done"
        few = {"preexec_fn": lambda: resource.setrlimit(resource.RLIMIT_NOFILE, (24, resource.getrlimit(resource.RLIMIT_NOFILE)[1]))}
        words = "play", "--at-once", "12", "--program", program_but(self.folder / "waiting", '"$1" = run', together)
        self.assertEqual(run(self.folder, *words, **few)[::2], (0, ""))
        self.assert_sound(self.schedule)

    def open_matches(self):
        """Returns the matches that are being played, by the files that name their players."""
        return list((self.folder / "open").glob("*/players"))

    def killed(self):
        """Kills `play` while a match of slow players is open."""
        self.let_think(1)
        playing = start(self.folder, "play")
        wait_until(lambda: self.players[0].matches)
        playing.kill()
        playing.communicate()
        self.let_think(0)

    def let_think(self, seconds):
        """Lets the players think this long before each move. Each player has at least two moves in a match."""
        for player in self.players:
            player.thinks = seconds

    def interrupted(self, *signals):
        """Plays a competition of slow players, and sends these signals while the first matches are open."""
        self.planned(["slow"] * 4, head="start = 5\nplay = 5\n")
        self.let_think(1)
        # The tests themselves may run under nohup.
        playing = start(self.folder, "play", preexec_fn=lambda: signal.signal(signal.SIGHUP, signal.SIG_DFL))
        wait_until(lambda: len(self.open_matches()) >= 2)
        out = ""
        for number in signals[:-1]:
            playing.send_signal(number)
            # If two signals come at the same time, the system may pass on only one.
            while not out.endswith("unless you press Ctrl-C again\n"):
                out += playing.stdout.readline()
        playing.send_signal(signals[-1])
        rest, said = playing.communicate(timeout=600)
        self.assertEqual((playing.returncode, said), (1, ""))
        self.let_think(0)
        return out + rest

    def test_one_interrupt_waits_for_open_matches(self):
        out = self.interrupted(signal.SIGINT)
        self.assertEqual(len(lines(out, "begin")), len(lines(out, "end")))
        missing = 12 - len(lines(out, "end"))
        self.assertEqual(len(lines(out, "missing")), missing if missing <= MOST_LINES else 1)
        self.assertEqual([player.aborted for player in self.players], [[]] * 4)

    def test_a_run_after_a_killed_one_tells_at_once_for_whom_it_waits(self):
        self.planned(["slow", "slow"])
        self.killed()
        # The error comes before `abort` reads input or sends a message.
        waiting = program_but(self.folder / "waiting", '"$1" = abort', "sleep 60")
        playing = start(self.folder, "play", "--program", waiting)
        self.assertEqual(playing.stdout.readline(), "open 1 match of an earlier `play`; its players are sent ABORT\n")
        self.assertEqual([player.aborted for player in self.players], [[], []])
        playing.kill()
        playing.communicate()
        self.assertEqual(run(self.folder, "play")[0], 0)

    def checking(self):
        """Plays a match, and returns while it is being checked. Returns `play`, which has a separate process group, and the file that lets
        the check continue."""
        self.planned(["good", "good"], form='kind = "schedule"\nlines = ["countdown p0 p1"]')
        number, go = self.folder / "number", self.folder / "go"
        waiting = program_but(self.folder / "waiting", '"$1" = replay', f"echo $$ > {number}.new; mv {number}.new {number}; until [ -e {go} ]; do sleep 0.1; done")
        playing = start(self.folder, "play", "--program", waiting, start_new_session=True)
        wait_until(number.exists)
        return playing, int(number.read_text()), go

    def test_ctrl_c_at_the_terminal_does_not_end_a_check(self):
        playing, _, go = self.checking()
        os.killpg(playing.pid, signal.SIGINT)
        next(line for line in playing.stdout if line.endswith("unless you press Ctrl-C again\n"))
        go.touch()
        out, said = playing.communicate(timeout=600)
        self.assertEqual((playing.returncode, said, out.splitlines()[-1]), (0, "", "1 of 1 matches have a lawful record"), out)

    def test_a_check_ends_with_play(self):
        playing, number, _ = self.checking()
        playing.kill()
        playing.communicate()
        wait_until(lambda: not command_of(number))

    def hung_up(self, *outputs):
        """Plays with these outputs on a terminal that closes while the first match is open. `play` ignores the hang-up. Returns the exit status and
        the other outputs."""
        self.planned(["slow"] * 3)
        ours, theirs = pty.openpty()
        ignored = {"preexec_fn": lambda: signal.signal(signal.SIGHUP, signal.SIG_IGN)}
        playing = start(self.folder, "play", **dict.fromkeys(outputs, theirs), **ignored)
        os.close(theirs)
        wait_until(self.open_matches)
        os.close(ours)
        playing.send_signal(signal.SIGHUP)
        out, _ = playing.communicate(timeout=600)
        self.assertEqual([(player.matches, player.aborted) for player in self.players], [({}, [])] * 3)
        self.assertEqual(list((self.folder / "open").iterdir()), [])
        return playing.returncode, out

    def test_a_terminal_that_is_gone_ends_no_open_match(self):
        status, out = self.hung_up("stderr")
        self.assertEqual((status, out.splitlines()[-1]), (0, "6 of 6 matches have a lawful record"))

    def test_nor_does_one_that_has_all_the_output(self):
        status, out = self.hung_up("stdout", "stderr")
        self.assertEqual((status, out), (1, None))
        self.assertIn(len(self.records()), range(1, 6))

    def assert_ended(self, *signals):
        """Checks that these signals end the open matches, and that their players are free."""
        out = self.interrupted(*signals)
        ended = [line.split()[1].rstrip(":") for line in lines(out, "abort")]
        self.assertGreaterEqual(len(ended), 2)
        self.assertEqual(sorted(match for player in self.players for match in player.aborted), sorted(2 * ended))
        self.assertEqual([player.matches for player in self.players], [{}] * 4)
        for match in ended:
            self.assertIn(f"missing {match}: broken off", out)
        self.assertEqual(list((self.folder / "open").iterdir()), [])
        self.assertEqual(run(self.folder, "play")[0], 0)
        self.assertEqual([player.clashes for player in self.players], [[]] * 4)
        self.assert_sound(self.schedule)

    def test_a_second_interrupt_ends_open_matches(self):
        self.assert_ended(signal.SIGINT, signal.SIGINT)

    def test_a_termination_ends_open_matches(self):
        self.assert_ended(signal.SIGTERM)

    def test_a_hang_up_ends_open_matches(self):
        self.assert_ended(signal.SIGHUP)

    def at_play(self):
        """Returns how many processes play matches of this directory."""
        commands = []
        for file in pathlib.Path("/proc").glob("[0-9]*/cmdline"):
            try:
                commands.append(file.read_bytes())
            except OSError:
                continue
        return sum(b"\0run\0" in command and os.fsencode(self.folder) in command for command in commands)

    def test_a_killed_run_leaves_no_match_at_play(self):
        self.planned(["slow"] * 4, head="start = 600\nplay = 600\n")
        self.let_think(600)
        playing = start(self.folder, "play")
        wait_until(self.at_play)
        playing.kill()
        playing.communicate()
        # A match takes longer than a test may take.
        wait_until(lambda: not self.at_play())

    def test_an_abort_without_an_answer_is_due_until_it_is_answered(self):
        self.planned(["slow", "slow"], head=HEAD.replace("tries = 2", "tries = 1"), form='kind = "schedule"\nlines = ["countdown p0 p1"]')
        away, players = self.players[0], self.folder / "open/cup-001/players"
        self.killed()
        away.go_away()
        unanswered = [f"no answer to abort cup-001: p0@{away.place()}"]
        status, out, _ = run(self.folder, "play")
        self.assertEqual((status, lines(out, "no answer"), players.exists()), (1, unanswered, True), out)
        for number in (signal.SIGTERM, signal.SIGINT):
            playing = start(self.folder, "play", "--program", program_but(self.folder / "slow", '"$1" = info', "sleep 60"))
            wait_until(lambda: (self.folder / "open/cup-001/asking").exists() and playing.stdout.readline() == f"{unanswered[0]}\n")
            playing.send_signal(number)
            out, _ = playing.communicate(timeout=600)
            self.assertEqual((playing.returncode, players.exists()), (1, True), out)
        away.come_back()
        self.assertEqual((len(away.matches), away.aborted), (1, []))
        status, out, _ = run(self.folder, "play")
        self.assertEqual((status, away.aborted, lines(out, "no answer"), len(lines(out, "end"))), (0, ["cup-001"], [], 1), out)
        self.assertFalse(players.exists())

    def test_a_journal_that_can_not_be_written_ends_no_open_match(self):
        self.planned(["good"] * 3)
        (self.folder / "play.log").symlink_to("/dev/full")
        status, out, _ = run(self.folder, "play", "--at-once", "1")
        told = ["play.log can't be written: No space left on device; no more matches begin"]
        self.assertEqual((status, lines(out, "play.log"), [player.matches for player in self.players]), (1, told, [{}] * 3), out)
        (self.folder / "play.log").unlink()
        self.assertEqual(run(self.folder, "play")[0], 0)
        self.assert_sound(self.schedule)

    def test_while_matches_are_played_no_other_run_plays_or_plans(self):
        self.planned(["slow", "slow"])
        # The match continues when the file `go` exists.
        waiting = program_but(self.folder / "waiting", '"$1" = run', f"until [ -e {self.folder}/go ]; do sleep 0.05; done")
        playing = start(self.folder, "play", "--program", waiting)
        wait_until(self.open_matches)
        file, before = self.folder / "competition.toml", (self.folder / "schedule.tsv").read_bytes()
        text = file.read_text()
        file.write_text(text.replace("play = 5", "play = 6"))
        for command in ("play", "plan"):
            self.assertEqual(run(self.folder, command), (2, "", "ggp_competition: .: another command is planning, playing or publishing this competition\n"))
        file.write_text(text)
        (self.folder / "go").touch()
        playing.communicate(timeout=600)
        self.assertEqual((playing.returncode, (self.folder / "schedule.tsv").read_bytes()), (0, before))
        self.assertEqual(run(self.folder, "play"), (0, "2 of 2 matches have a lawful record\n", ""))

    def test_a_folder_whose_name_begins_with_a_hyphen(self):
        self.planned(["good", "good"])
        cup = self.folder / "-cup"
        cup.mkdir()
        shutil.move(self.folder / "competition.toml", cup)
        shutil.copy(GAMES / "countdown.kif", cup / "-countdown.kif")
        file = cup / "competition.toml"
        file.write_text(file.read_text().replace(str(GAMES / "countdown.kif"), "-countdown.kif"))
        for words in (("plan", "./-cup"), ("play", "./-cup"), ("play", "--program", program(), "--", "-cup"), ("table", "./-cup"), ("publish", "./-cup"), ("check", "./-cup/cup.tar.gz")):
            status, out, said = run(self.folder, *words)
            self.assertEqual((status, said), (0, ""), out)
        self.folder = cup
        self.assert_sound(self.schedule)

    def test_a_folder_that_is_not_there(self):
        self.assertEqual(run(self.folder, "play", "none"), (2, "", "ggp_competition: none can't be read: No such file or directory\n"))

    def test_what_is_not_lawful_is_played_again(self):
        self.planned(["good", "good", "good"])
        run(self.folder, "play")
        changes = [
            ("records/cup-001.json", lambda text: text.replace(b"(take 1)", b"(take 2)", 1), "not lawful"),
            ("records/cup-002.json", lambda text: text[:-20], "not one line"),
            ("accounts/cup-003.txt", lambda text: text.replace(b"taken", b"over", 1), "is not a call that a referee would make at this point"),
            ("accounts/cup-004.txt", None, "its call log is missing"),
            ("records/cup-005.json", lambda _: (self.folder / "records/cup-006.json").read_bytes(), "does not reproduce its record"),
        ]
        for name, change, _ in changes:
            file = self.folder / name
            file.write_bytes(change(file.read_bytes())) if change else file.unlink()
        status, out, _ = run(self.folder, "play")
        self.assertEqual((status, len(lines(out, "refused")), len(lines(out, "end"))), (0, 5, 5), out)
        for (_, _, words), line in zip(changes, lines(out, "refused")):
            self.assertIn(words, line)
        self.assert_sound(self.schedule)
        self.assertTrue((self.folder / "records/cup-001.json.refused").exists())

    def files(self):
        """Returns the files of the matches by name."""
        return {str(file.relative_to(self.folder)): file.read_bytes() for kind in ("records", "accounts", "logs") for file in (self.folder / kind).iterdir()}

    def test_what_can_not_be_checked_is_not_touched(self):
        self.planned(["good", "good", "good"])
        run(self.folder, "play")
        before = self.files()
        short = "echo 'ggp_manager: want of memory' >&2; exit 3"
        shortages = [
            ('"$1 $2" = "verify --lines"', short, "`ggp_manager verify` gave no verdict for rules/countdown.kif: want of memory; it ended with status 3"),
            ('"$1" = verify', "kill -9 $$", "`ggp_manager verify` gave no verdict for rules/countdown.kif: it printed nothing; it was killed by signal 9 (SIGKILL)"),
            ('"$1" = verify', "echo lawful; exit 0", "`ggp_manager verify` gave no verdict for rules/countdown.kif: it printed nothing; it ended with status 0"),
            ('"$1" = verify', "cat > /dev/null; echo 'ggp_manager: input too long' >&2; exit 1", "input too long; it ended with status 1"),
            ('"$1" = verify', f"{program()} \"$@\"; echo 'ggp_manager: read fault' >&2; exit 1", "read fault; it ended with status 1"),
            ('"$1" = replay', "kill -9 $$", "`ggp_manager replay` gave no verdict for rules/countdown.kif: it printed nothing; it was killed by signal 9 (SIGKILL)"),
            ('"$1" = replay', short, "want of memory; it ended with status 3"),
        ]
        for at, (asked, done, words) in enumerate(shortages):
            short_one = program_but(self.folder / "short", asked, done)
            for command in ("play", "table", "pages", "publish") if at == 0 else ("play",):
                with self.subTest(f"{command}: {asked}: {done}"):
                    status, out, said = run(self.folder, command, "--program", short_one)
                    self.assertEqual((status, out), (3, ""), said)
                    self.assertRegex(said, r"^ggp_competition: `ggp_manager (verify|replay)` gave no verdict [^\n]*; nothing was changed\n$")
                    self.assertIn(words, said)
                    self.assertEqual(self.files(), before)
        self.assertEqual(run(self.folder, "play")[:2], (0, "6 of 6 matches have a lawful record\n"))

    @pytest.mark.gate
    def test_a_damaged_record_costs_no_other(self):
        self.planned(["good", "good", "good"])
        run(self.folder, "play")
        record, before = self.folder / "records/cup-001.json", self.files()
        damages = [
            (b"5\n", "its record does not begin with `{`"),
            (b"\n", "its record does not begin with `{`"),
            (before["records/cup-001.json"][:-1] + b" " * (16 << 20) + b"\n", "its call log does not reproduce its record"),
        ]
        for (data, words), ending in zip(damages, ("refused", "refused.2", "refused.3")):
            with self.subTest(words):
                record.write_bytes(data)
                self.assertIn(f"ggp_competition: cup-001 does not count: {words}\n", run(self.folder, "table")[2])
                status, out, _ = run(self.folder, "play")
                self.assertEqual((status, lines(out, "refused")), (0, [f"refused cup-001: {words}; its files are renamed, and it is played again"]))
                after = self.files()
                self.assertEqual([name for name in before if "cup-001" not in name and after[name] != before[name]], [])
                self.assertEqual(after[f"records/cup-001.json.{ending}"], data)

    def test_a_match_that_was_played_and_not_checked_is_kept_aside(self):
        self.planned(["good", "good"])
        short = "echo 'ggp_manager: want of memory' >&2; exit 3"
        played = ("records/cup-001.json", "accounts/cup-001.txt", "logs/cup-001.jsonl")
        # The condition excludes runs with an empty input. In such runs, the plan only asks whether the rules are accepted.
        record = '"$1" = verify && -n $(head -c 1)'
        shortages = [(record, short, "want of memory"), (record, "kill -9 $$", "signal 9"), ('"$1" = replay', short, "want of memory")]
        for (asked, done, words), ending in zip(shortages, ("unchecked", "unchecked.2", "unchecked.3")):
            before = self.files() if (self.folder / "records").exists() else {}
            status, out, _ = run(self.folder, "play", "--program", program_but(self.folder / "short", asked, done))
            told = lines(out, "no record cup-001")
            self.assertEqual((status, len(told), self.records()), (1, 1, {}), out)
            self.assertIn(f"it was played, but not checked, and is kept as records/cup-001.json.{ending}: ", told[0])
            self.assertIn(words, told[0])
            after = self.files()
            self.assertEqual({name: after[name] for name in before}, before)
            self.assertLess({f"{match}.{ending}" for match in played}, set(after) - set(before))
        for match in played:
            os.rename(self.folder / f"{match}.unchecked", self.folder / match)
        kept = (self.folder / played[0]).read_bytes()
        status, out, _ = run(self.folder, "play")
        self.assertEqual((status, len(lines(out, "end")), (self.folder / played[0]).read_bytes()), (0, 1, kept), out)
        self.assertTrue((self.folder / "records/cup-001.json.unchecked.2").exists())
        self.assert_sound(self.schedule)

    @unittest.skipIf(os.geteuid(), "only root can mount a small disk")
    def test_a_full_disk_costs_the_open_matches_alone(self):
        self.planned(["good"] * 4)
        room = tempfile.mkdtemp()
        if subprocess.run(["mount", "-t", "tmpfs", "-o", "size=120k", "none", room], capture_output=True).returncode:
            self.skipTest("a small disk can't be mounted here")
        try:
            small = pathlib.Path(room) / "cup"
            shutil.copytree(self.folder, small)
            status, out, _ = run(small, "play", "--at-once", "2")
            kept = [file for file in (small / "records").glob("*.json") if not file.name.startswith(".")]
            self.assertEqual(status, 1, out)
            self.assertRegex(out, "No space left on device|write fault|the disk is full")
            # The other open match may have asked its players already.
            self.assertLessEqual(out.partition("no record")[2].count("begin "), 1)
            self.assertEqual([player.matches for player in self.players], [{}] * 4)
            shutil.rmtree(self.folder)
            shutil.copytree(small, self.folder)
        finally:
            subprocess.run(["umount", room], check=True)
            os.rmdir(room)
        status, out, _ = run(self.folder, "play")
        self.assertEqual((status, lines(out, "refused"), len(lines(out, "end"))), (0, [], 12 - len(kept)))
        self.assert_sound(self.schedule)

    def test_a_full_output_ends_no_open_match(self):
        self.planned(["slow"] * 4)
        said = "ggp_competition: standard output: No space left on device\n"
        self.assertEqual(run_into_full(self.folder, "play", "--at-once", "2"), (1, said))
        kept = len(self.records())
        self.assertIn(kept, (1, 2))
        self.assertEqual([player.matches for player in self.players], [{}] * 4)
        self.assertEqual(([player.aborted for player in self.players], list((self.folder / "open").iterdir())), ([[]] * 4, []))
        self.assertEqual(run_into_full(self.folder, "table"), (1, said))
        status, out, _ = run(self.folder, "play")
        self.assertEqual((status, len(lines(out, "end"))), (0, 12 - kept))
        self.assertEqual(run_into_full(self.folder, "publish"), (1, said))
        self.assert_sound(self.schedule)

    def test_a_reader_that_wants_no_more_ends_no_open_match(self):
        self.planned(["slow"] * 4)
        self.let_think(1)
        playing = start(self.folder, "play", "--at-once", "2")
        self.assertIn("begin", playing.stdout.readline())
        self.assertIn("begin", playing.stdout.readline())
        playing.stdout.close()
        said = playing.stderr.read()
        playing.stderr.close()
        self.assertEqual((playing.wait(60), said), (1, "ggp_competition: standard output: Broken pipe\n"))
        # A match that begins while the first one is being checked is also played to its end.
        self.assertIn(len(self.records()), (2, 3, 4))
        self.assertEqual(list((self.folder / "open").iterdir()), [])
        self.assertEqual([(player.matches, player.aborted) for player in self.players], [({}, [])] * 4)

    def test_a_table_that_can_not_be_written_is_printed(self):
        self.planned(["good", "good"])
        run(self.folder, "play")
        for name in ("table.json", "matches.jsonl"):
            shutil.rmtree(self.folder / name) if (self.folder / name).is_dir() else (self.folder / name).unlink(missing_ok=True)
            (self.folder / name).mkdir()
            status, out, said = run(self.folder, "table")
            self.assertEqual((status, said), (1, f"ggp_competition: {name}: Is a directory\n"))
            self.assertTrue(out.startswith("cup: 2 of 2 matches\n"), out)

    def test_a_match_without_its_log_counts(self):
        self.planned(["good", "good"])
        run(self.folder, "play")
        before = self.files()
        (self.folder / "logs/cup-001.jsonl").unlink()
        said = "ggp_competition: cup-001 counts, but without times, because its log is missing\n"
        self.assertEqual(run(self.folder, "play"), (0, "2 of 2 matches have a lawful record\n", said))
        found = json.loads((self.folder / "matches.jsonl").read_text().splitlines()[0])
        self.assertEqual((found["begin"], found["messages"]), (None, [[], []]))
        self.assertEqual(run(self.folder, "table")[::2], (0, said))
        self.assertEqual(run(self.folder, "pages")[::2], (0, ""))
        self.assertEqual(run(self.folder, "publish")[::2], (0, said))
        self.assertEqual(run(self.folder, "check", "cup.tar.gz")[::2], (0, ""))
        self.assertEqual(self.files(), {name: data for name, data in before.items() if name != "logs/cup-001.jsonl"})
        (self.folder / "logs/cup-002.jsonl").unlink()
        said = "ggp_competition: 2 matches from cup-001 to cup-002 count, but without times, because their logs are missing\n"
        self.assertEqual(run(self.folder, "table")[::2], (0, said))

    def test_streams_that_are_closed(self):
        self.planned(["good", "good"])
        self.assertEqual((run(self.folder, "play", preexec_fn=lambda: os.close(2))[0], len(self.records())), (0, 2))
        shutil.rmtree(self.folder / "records")
        self.assertEqual(run(self.folder, "play", preexec_fn=lambda: os.closerange(0, 3)), (0, "", ""))
        self.assert_sound(self.schedule)
        with locked(self.folder):
            self.assertEqual(run(self.folder, "play", preexec_fn=lambda: os.close(2)), (2, "", ""))
            self.assertEqual(run(self.folder, "play", preexec_fn=lambda: os.close(1))[:2], (2, ""))

    def test_progress_on_a_terminal(self):
        self.planned(["slow", "slow"])
        ours, theirs = pty.openpty()
        playing = start(self.folder, "play", stdout=subprocess.DEVNULL, stderr=theirs)
        os.close(theirs)
        said = read_to_close(ours)
        self.assertEqual(playing.wait(), 0)
        self.assertRegex(said, r"finished 0, open 1, to come 1, time left unknown")
        self.assertRegex(said, r"finished 1, open [01], to come [01], time left 0:00:\d\d")

    def test_watch_writes_the_pages(self):
        self.planned(["slow"] * 4)
        playing = start(self.folder, "play", "--watch", "--at-once", "1")
        first = self.folder / "pages/index.html"
        wait_until(lambda: playing.poll() is not None or first.exists() and self.open_matches())
        self.assertRegex(first.read_text(), r"\b([1-9]|1[01]) of 12 matches are over")
        out, said = playing.communicate(timeout=600)
        self.assertEqual((playing.returncode, said, lines(out, "pages")), (0, "", []))
        self.assertIn("12 of 12 matches are over", first.read_text())
        self.assertEqual(len(list((self.folder / "pages/matches").iterdir())), 12)

    def test_pages_that_can_not_be_written_end_no_open_match(self):
        self.planned(["slow"] * 4)
        (self.folder / "pages").touch()
        status, out, said = run(self.folder, "play", "--watch", "--at-once", "2")
        self.assertEqual((status, said, len(lines(out, "end"))), (1, "", 12), out)
        self.assertEqual({*lines(out, "pages")}, {"pages are not written: pages/matches: Not a directory"})
        self.assertEqual(out.splitlines()[-1], "12 of 12 matches have a lawful record")
        self.assertEqual([player.aborted for player in self.players], [[]] * 4)
