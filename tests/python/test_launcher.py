"""Matches that a launcher plays elsewhere. In these tests, a launcher is a script that runs the job on this computer."""

import collections
import json
import os
import signal
import socket
import subprocess
import sys

import pytest
from ggp_tools.competition.jobs import JOB
from players import TestPlayer
from support import GAMES, TOP, InFolder, command_of, program, program_but, run, script, start, wait_until

HEAD = "start = 60\nplay = 60\nstrikes = 1\nwait = 0\ninfo = 10\ntries = 2\n"
# The command with other time limits: after these times a job is lost, or its match has certainly ended.
OTHER = f"import sys; sys.path.insert(0, {str(TOP / 'python')!r})\nfrom ggp_tools.competition import command, jobs, open_match\n%s\nsys.exit(command.main())"
NODE = socket.gethostname()


def lines(out, word):
    return [line for line in out.splitlines() if line.startswith(f"{word} ")]


# ---- a job

def started(silence=600, **more):
    return subprocess.Popen([sys.executable, "-I", JOB, str(silence)], stdin=subprocess.PIPE, stdout=subprocess.PIPE, stderr=subprocess.PIPE, text=True, **more)


def begin(job, *words):
    """Sends a job its command, between empty lines."""
    job.stdin.write(f"\n\n{json.dumps({'words': words})}\n\n")
    job.stdin.flush()


def referee_of(job):
    """Has a job run a process that does not end, and returns the number of the process."""
    begin(job, "sh", "-c", "echo $$ >&2; exec sleep 600")
    return [job.stderr.readline() for _ in range(2)][1].strip()


def test_a_job_reports_its_node_and_the_status_from_inside():
    for status in (0, 1, 3, -9):
        script = f"echo \"it's\"; echo why >&2; {f'kill {status} $$' if status < 0 else f'exit {status}'}"
        with started(env={**os.environ, "SLURMD_NODENAME": "n7"}) as job:
            begin(job, "sh", "-c", script)
            # The standard input of the job is open until the job has ended.
            out, said = job.stdout.read(), job.stderr.read()
            assert (job.wait(), out) == (status % 256, "it's\n")
        assert [line for line in said.splitlines() if line != "ggp_competition: beat"] == ["ggp_competition: node n7", "why", f"ggp_competition: status {status}"]


def test_a_job_says_something_every_two_seconds_but_not_within_a_line():
    with started() as job:
        assert [job.stderr.readline() for _ in range(3)] == [f"ggp_competition: node {NODE}\n", "ggp_competition: beat\n", "ggp_competition: beat\n"]
        begin(job, "sh", "-c", "printf half >&2; sleep 5; echo whole >&2")
        said = [line for line in job.stderr.read().splitlines() if line != "ggp_competition: beat"]
        assert said == ["halfwhole", "ggp_competition: status 0"]


def test_a_program_that_is_not_there():
    with started() as job:
        begin(job, "/none/of these")
        assert (job.stderr.read().splitlines()[-1], job.wait()) == ("/none/of these: No such file or directory", 254)


@pytest.mark.parametrize("hangs_up", [True, False])
def test_a_job_ends_its_referee_if_it_hears_nothing(hangs_up):
    with started(600 if hangs_up else 1) as job:
        referee = referee_of(job)
        if hangs_up:
            job.stdin.close()
        assert job.wait() == 254
        assert not command_of(referee)
        job.stdin = None


def test_a_referee_ends_with_its_job():
    with started() as job:
        referee = referee_of(job)
        job.kill()
        job.wait()
        wait_until(lambda: not command_of(referee))


# ---- competitions

class Launched(InFolder):
    def planned(self, launcher, count=1, slots=2, kind="good", head=HEAD, more=""):
        self.players = [TestPlayer(f"p{at}", kind, at, most=count) for at in range(2)]
        form = f'kind = "schedule"\nlines = {json.dumps(["countdown p0 p1"] * count)}'
        players = [(player.name, player.place(), f"concurrent = {count}") for player in self.players]
        # In these tests, a launcher is a script. Its arguments are the id of the match and then the command of the job.
        path = script(self.folder / "launch", f"#!/bin/bash\nmatch=$1 folder={self.folder}\nshift\n{launcher}\n")
        head = f'{head}launcher = {{command = ["{path}", "{{match}}"], slots = {slots}{more}}}\n'
        self.schedule = self.plan(players, [("countdown", GAMES / "countdown.kif")], form, head)

    def started_with(self, more, path):
        words = [sys.executable, "-c", OTHER % more, "play", "--program", path]
        return subprocess.Popen(words, cwd=self.folder, text=True, stdout=subprocess.PIPE, stderr=subprocess.PIPE)

    def test_each_match_is_a_job(self):
        self.planned('echo $match >> $folder/jobs; exec "$@"', 6)
        status, out, said = run(self.folder, "play")
        self.assertEqual((status, said, lines(out, "lost"), lines(out, "back")), (0, "", [], []), out)
        self.assertEqual(collections.Counter((self.folder / "jobs").read_text().split()), collections.Counter(planned[0] for planned in self.schedule))
        self.assertEqual({line.rpartition(" ")[2] for line in lines(out, "begin")}, {NODE})
        self.assertEqual({json.loads(line)["host"] for line in (self.folder / "matches.jsonl").read_text().splitlines()}, {NODE})
        self.assert_sound(self.schedule)
        self.assertEqual([run(self.folder, *words)[0] for words in (("publish",), ("check", "cup.tar.gz"))], [0, 0])

    def test_no_more_jobs_are_there_at_a_time_than_slots(self):
        self.planned('touch $folder/$match.open; ls $folder/*.open | wc -l >> $folder/most; "$@"; status=$?; rm $folder/$match.open; exit $status', 8, 3)
        status, out, _ = run(self.folder, "play", "--at-once", "8")
        self.assertEqual((status, max(map(int, (self.folder / "most").read_text().split())) <= 3), (0, True), out)

    def test_a_job_that_waits_in_a_queue_asks_no_player(self):
        self.planned('echo queued > $folder/queue; read line < $folder/go; exec "$@"')
        os.mkfifo(self.folder / "go")
        os.mkfifo(self.folder / "queue")
        playing = start(self.folder, "play")
        self.assertEqual((self.folder / "queue").read_text(), "queued\n")
        journal = self.folder / "play.log"
        self.assertFalse(journal.exists() and " info " in journal.read_text())
        (self.folder / "go").write_text("go\n")
        out, _ = playing.communicate(timeout=600)
        self.assertEqual((playing.returncode, len(lines(out, "end"))), (0, 1), out)

    def test_players_that_are_busy_when_a_job_runs(self):
        self.planned('exec "$@"')
        self.players[0].status = "busy"
        status, out, _ = run(self.folder, "play")
        self.assertEqual((status, lines(out, "back"), lines(out, "no")), (1, ["back cup-001: p0 is busy"], ["no record cup-001: p0 is busy"]), out)

    def test_a_launcher_that_fails_is_tried_again_and_then_reported(self):
        self.planned("printf 'noise\\n\\033]0;title\\007srun: no such partition\\n' >&2; exit 1")
        status, out, _ = run(self.folder, "play")
        words = "?]0;title?srun: no such partition"
        self.assertEqual((status, lines(out, "lost"), lines(out, "no")), (1, [f"lost cup-001 on no node: {words}"] * 2, [f"no record cup-001: its jobs were lost: {words}"]), out)
        self.assertEqual([player.begun for player in self.players], [[], []])
        self.assertEqual(list((self.folder / "open").iterdir()), [])

    def test_a_launcher_that_never_runs_its_job_is_given_up(self):
        self.planned("echo queued >&2; exec sleep 6000", more=", queue_seconds = 1")
        status, out, _ = run(self.folder, "play")
        words = "its launcher did not run it within 1 s; it may need more `queue_seconds`: queued"
        self.assertEqual((status, lines(out, "lost"), lines(out, "no")), (1, [f"lost cup-001 on no node: {words}"] * 2, [f"no record cup-001: its jobs were lost: {words}"]), out)
        self.assertEqual([player.begun for player in self.players], [[], []])

    def test_a_job_that_is_lost_with_its_node_is_begun_again(self):
        # The shell's own messages about the killed job go to a file.
        lost = (
            '[ -e $folder/lost ] && exec "$@"; touch $folder/lost; "$@" <&0 & job=$!; read line < $folder/cut;'
            ' { kill -9 $job; wait $job; } 2> $folder/killed; echo "srun: error: Node failure" >&2'
        )
        self.planned(lost, kind="slow")
        os.mkfifo(self.folder / "cut")
        for player in self.players:
            player.thinks = 1
        playing = self.started_with("open_match.SILENCE = 0.5", program())
        wait_until(lambda: all(player.matches for player in self.players))
        (self.folder / "cut").write_text("cut\n")
        for player in self.players:
            player.thinks = 0
        out, said = playing.communicate(timeout=600)
        self.assertEqual((playing.returncode, said, len(lines(out, "end"))), (0, "", 1), out)
        # The exit status of the job is 0.
        self.assertEqual(lines(out, "lost"), [f"lost cup-001 on {NODE}: srun: error: Node failure"])
        self.assertEqual([(player.begun, player.aborted, player.clashes) for player in self.players], [(["cup-001"] * 2, ["cup-001"], [])] * 2)
        self.assertEqual(next((self.folder / "logs").iterdir()).read_text().count('"event":"host"'), 2)
        self.assert_sound(self.schedule)

    def test_a_job_that_runs_and_says_nothing_more_is_lost(self):
        self.planned('[ -e $folder/lost ] && exec "$@"; touch $folder/lost; echo "ggp_competition: node n1" >&2; exec sleep 6000')
        playing = self.started_with("open_match.SILENCE = 0.5; jobs.LOST_SECONDS = 20", program())
        out, said = playing.communicate(timeout=800)
        self.assertEqual((playing.returncode, said, lines(out, "lost")), (0, "", ["lost cup-001 on n1: it sent nothing for 20 s"]), out)
        self.assert_sound(self.schedule)

    def test_a_referee_that_fails_costs_its_match(self):
        self.planned('exec "$@"', 3, 1)
        once = program_but(self.folder / "killed", f'"$1" = run && ! -e {self.folder}/once', f"touch {self.folder}/once; kill -9 $$")
        status, out, _ = run(self.folder, "play", "--program", once)
        self.assertEqual((status, len(lines(out, "no")), len(lines(out, "abort")), len(lines(out, "end")), lines(out, "lost")), (1, 1, 1, 2, []), out)
        self.assertEqual(run(self.folder, "play")[0], 0)

    def test_play_leaves_no_job(self):
        for number in (signal.SIGTERM, signal.SIGKILL):
            self.planned('exec "$@"')
            path = program_but(self.folder / "told", '"$1" = run', f"echo $$ > {self.folder}/process; exec sleep 600")
            playing = start(self.folder, "play", "--program", path)
            self.assertEqual(playing.stdout.readline(), f"begin cup-001 countdown p0 p1 on {NODE}\n")
            process = self.folder / "process"
            wait_until(lambda: process.exists() and process.read_text().strip())
            playing.send_signal(number)
            out, _ = playing.communicate(timeout=600)
            wait_until(lambda: not command_of(process.read_text().strip()))
            process.unlink()
            if number == signal.SIGTERM:
                self.assertIn("missing cup-001: broken off", out)
