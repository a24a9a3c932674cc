"""Players that the competition starts: their arguments, how they end, and whether all of their processes end."""

import asyncio
import json
import os
import re
import shutil
import signal
import socket
import subprocess
import sys
import types
import unittest

import pytest
from ggp_tools.competition import children, job, jobs, started_players, trying
from ggp_tools.competition.competition_file import Command, Player
from ggp_tools.competition.files import Folder
from ggp_tools.competition.started_players import PlayerLog, StartedPlayer, StartedPlayers, mistakes_of_programs
from ggp_tools.moments import MOMENT
from support import GAMES, TOP, InFolder, Reports, command_of, program, program_but, run, script, start, toml, wait_until

# Whether a player answers INFO: always, never, or only after it has printed something.
ANSWERS, SILENT, PRINTED = ["true"], ["false"], ["printed"]


def command(script, **more):
    return Command(**{
        "words": ("sh", "-c", script), "launcher": (), "directory": "", "environment": (), "memory": 0, "processors": 0, "restart": "when_dead", "start_seconds": 600, **more,
    })


def player(room, script, info=ANSWERS, **more):
    """Returns a player that runs a script, with a fake `info` command that reports whether the player answers."""
    folder = Folder(room)
    folder.make(folder.players)
    words = ["test", "-s", str(folder.players / "ann.log")] if info is PRINTED else info
    referee = types.SimpleNamespace(info_words=lambda place: words)
    return StartedPlayer(folder, Player("ann", "", 1, 1, command(script, **more)), 0, referee, Reports())


def is_alive(process):
    return bool(command_of(process))


def process_of(started):
    """Returns the process of a player, or None if it is not running."""
    return int(started.job.player.split()[0]) if started.is_running() else None


def run_for(*players_and_matches):
    """Gets a player ready for each of these matches, and then ends the player. Returns its processes."""
    async def play():
        started, *matches = players_and_matches
        found = []
        for match in matches:
            await started.ready(match)
            found.append(process_of(started))
            started.matches.clear()
        await started.end()
        return found

    return asyncio.run(play())


def test_a_player_gets_its_port_its_directory_and_its_environment(tmp_path):
    (tmp_path / "inside").mkdir()
    ann = player(tmp_path, "echo {port} $X $(pwd) >&2; exec sleep 600", PRINTED, environment=(("X", "at {port}"),), directory="inside")
    process, = run_for(ann, "cup-001")
    said = (tmp_path / "players/ann.log").read_text()
    assert said == f"{ann.port} at {ann.port} {tmp_path}/inside\n"
    assert (ann.reporter.notes, ann.reporter.lines) == ([f"start cup-001 ann: process {process}, port {ann.port}"], [])
    assert [(tmp_path / name).stat().st_mode & 0o777 for name in ("players", "players/ann.log")] == [0o700, 0o600]


def test_it_is_limited(tmp_path):
    script = "import os, resource; print(resource.getrlimit(resource.RLIMIT_DATA), len(os.sched_getaffinity(0)), flush=True); os.execvp('sleep', ['sleep', '600'])"
    ann = player(tmp_path, "", PRINTED, words=(sys.executable, "-c", script), memory=1 << 30, processors=1)
    run_for(ann, "cup-001")
    assert (tmp_path / "players/ann.log").read_text() == f"({1 << 30}, {1 << 30}) 1\n"


def test_it_has_a_limited_number_of_open_files(tmp_path):
    ann = player(tmp_path, "echo $(ulimit -n) $(ulimit -Hn); exec sleep 600", PRINTED)
    run_for(ann, "cup-001")
    assert ann.log.path.read_text() == "1024 1024\n"


def test_different_players_get_different_processors(monkeypatch):
    there = sorted(os.sched_getaffinity(0))
    found = []
    monkeypatch.setattr(os, "sched_setaffinity", lambda process, processors: found.append(processors))
    for first in range(len(there) + 1):
        job.limit(0, 1, first)
    job.limit(0, 4_096, 0)
    job.limit(0, 0, 0)
    assert found == [*([processor] for processor in (*there, there[0])), there]


def test_players_with_different_numbers_of_processors_share_none(tmp_path):
    players = [Player(name, "", 1, 1, command("", processors=count)) for name, count in (("ann", 4), ("bob", 0), ("cid", 1), ("dan", 2))]
    started = StartedPlayers(Folder(tmp_path), types.SimpleNamespace(players=players), None, Reports())
    assert [started.players[player.name].first_processor for player in players] == [0, 4, 4, 5]


@pytest.mark.parametrize(("restart", "is_new"), [("when_dead", False), ("never", False), ("each_match", True)])
def test_a_player_that_lives_is_started_again_for_each_match_only_if_it_says_so(tmp_path, restart, is_new):
    processes = run_for(player(tmp_path, "exec sleep 600", restart=restart), "cup-001", "cup-002")
    assert (processes[0] != processes[1]) == is_new
    assert not any(map(is_alive, processes))


@pytest.mark.parametrize("restart", ["when_dead", "each_match"])
def test_a_player_that_dies_is_reported_with_its_last_words(tmp_path, restart):
    ann = player(tmp_path, "read line < wait; echo oh no; exit 3", restart=restart)
    os.mkfifo(tmp_path / "wait")

    async def play():
        await ann.ready("cup-001")
        first = process_of(ann)
        (tmp_path / "wait").write_text("go\n")
        await ann.watching
        ann.matches.clear()
        await ann.ready("cup-002")
        assert ann.is_running()
        await ann.end()
        return first

    first = asyncio.run(play())
    assert ann.reporter.lines[0] == "died cup-001 ann: it ended with status 3: oh no"
    said = ann.reporter.lines[1:] + ann.reporter.notes[1:]
    assert [line.rpartition(",")[0].rpartition(" ")[0] for line in said] == ["restart cup-002 ann: process"]
    assert (ann.reporter.lines[1:] == said) == (restart != "each_match")
    assert not is_alive(first)


def test_a_player_that_dies_between_matches_is_reported_once_and_if_it_is_not_started_again(tmp_path):
    ann = player(tmp_path, "read line < wait; kill -9 $$", restart="never")
    players = StartedPlayers(Folder(tmp_path), types.SimpleNamespace(players=()), None, ann.reporter)
    players.players["ann"] = ann
    os.mkfifo(tmp_path / "wait")

    async def play():
        await ann.ready("cup-001")
        ann.matches.clear()
        assert not players.is_over("ann")
        (tmp_path / "wait").write_text("go\n")
        await ann.watching
        await ann.ready("cup-002")
        await ann.end()

    asyncio.run(play())
    why = 'it was killed by signal 9 (SIGKILL), and it is not started again because of `restart = "never"`'
    assert (ann.reporter.lines, players.is_over("ann"), players.is_over("bob")) == ([f"died ann: {why}", f"down cup-002 ann: {why}"], True, False)


def test_only_what_a_player_has_written_since_its_last_start_is_reported(tmp_path):
    ann = player(tmp_path, "test -e again && exit 1; touch again; echo first; exit 1", SILENT, memory=1 << 30)
    run_for(ann, "cup-001", "cup-002")
    assert ann.reporter.lines[2:] == [f"down cup-002 ann: it ended with status 1; it wrote nothing to {ann.log.path}"]
    assert re.fullmatch(rf"first\n---- {MOMENT} start for cup-002\n", ann.log.path.read_text())


def test_a_player_that_does_not_come_up_is_reported_with_the_end_of_its_log(tmp_path):
    ann = player(tmp_path, "for i in 1 2 3 4 5 6 7; do echo line $i; done; exit 7", SILENT)
    run_for(ann, "cup-001", "cup-002")
    assert ann.reporter.lines == [
        f"down cup-001 ann: it ended with status 7; the end of {ann.log.path}:", *(f"down cup-001 ann: | line {number}" for number in range(3, 8)),
        f"down cup-002 ann: it ended with status 7; the end of {ann.log.path} is the same as before",
    ]
    ann = player(tmp_path / "other", "exec sleep 600", SILENT, start_seconds=1)
    process, = run_for(ann, "cup-001")
    assert (ann.reporter.lines, process) == ([f"down cup-001 ann: it did not answer INFO within 1 s; it may need more `start_seconds`; it wrote nothing to {ann.log.path}"], None)


def test_a_program_that_can_not_be_started(tmp_path):
    ann = player(tmp_path, "", words=("./none", "{port}"))
    assert run_for(ann, "cup-001") == [None]
    assert ann.reporter.lines == [
        f"down cup-001 ann: it can't be started; the end of {ann.log.path}:", f"down cup-001 ann: | {tmp_path}/none: No such file or directory",
    ]


def test_an_answer_of_another_program_at_its_port_is_not_its_own(tmp_path, monkeypatch):
    ann = player(tmp_path, "exit 1")

    async def answered_later(words, seconds):
        await asyncio.wait([ann.job.running])
        return children.Done(0, b"", b"", 0.0)

    monkeypatch.setattr(started_players, "run", answered_later)
    run_for(ann, "cup-001")
    assert ann.reporter.lines == [f"down cup-001 ann: it ended with status 1; it wrote nothing to {ann.log.path}"]


def test_a_port_that_is_taken_is_left_for_another(tmp_path):
    ann = player(tmp_path, "exec sleep 600")
    with socket.create_server(("127.0.0.1", 0)) as taken:
        ann.port = taken.getsockname()[1]
        run_for(ann, "cup-001")
        assert ann.port != taken.getsockname()[1]
    assert job.free_port(ann.port) == ann.port


def test_all_that_a_player_has_started_is_ended(tmp_path):
    # One process is in another session, one has another environment, and one ignores SIGTERM.
    script = "setsid sleep 600 & echo $!; env -i sleep 600 & echo $!; (trap '' TERM; echo $(exec sh -c 'echo $PPID'); while :; do sleep 600; done) & touch up; wait"
    ann = player(tmp_path, script)
    ann.referee.info_words = lambda place: ["test", "-e", str(tmp_path / "up")]

    async def play():
        await ann.ready("cup-001")
        while not ann.log.path.exists() or len(ann.log.path.read_text().split()) < 3:
            await asyncio.sleep(0.01)
        first = process_of(ann)
        await ann.end()
        return first

    first = asyncio.run(play())
    processes = [first, *map(int, ann.log.path.read_text().split())]
    assert [process for process in processes if is_alive(process)] == []


def test_only_players_with_a_command_are_started(tmp_path):
    folder = Folder(tmp_path)
    folder.make(folder.players)
    competition = types.SimpleNamespace(players=[Player("ann", "", 1, 1, command("exec sleep 600")), Player("bob", "h:1", 1, 1)])
    competition.player = lambda name: next(player for player in competition.players if player.name == name)
    reporter = Reports()

    async def play():
        players = StartedPlayers(folder, competition, types.SimpleNamespace(info_words=lambda place: ANSWERS), reporter)
        await players.ready("cup-001", ("bob", "ann"))
        places = [players.place(name) for name in ("ann", "bob")]
        # The first lookup of a host's name in this run counts for all matches.
        players.addresses["bob"] = "bob@10.0.0.1:1"
        assert players.place("bob") == "bob@10.0.0.1:1"
        assert players.players["ann"].matches == {"cup-001"}
        players.leave("cup-001", ("bob", "ann"))
        assert not players.players["ann"].matches
        await players.end()
        return places, players.players["ann"].port

    places, port = asyncio.run(play())
    assert (places, len(reporter.notes)) == ([f"ann@127.0.0.1:{port}", "bob@h:1"], 1)


# This script starts a player with several processes, prints the player's number, and waits.
PLAYING = """
import asyncio, sys
sys.path.insert(0, sys.argv[1])
from ggp_tools.competition.jobs import Job

async def take(data):
    print(data.decode(), end="", flush=True)

async def play():
    job = Job(take, take)
    limits = {"memory": 0, "processors": 0, "first_processor": 0}
    words = ["sh", "-c", "setsid sleep 600 & echo $!; (setsid env -i sleep 600 & echo $!); echo $$; exec sleep 600"]
    job.start([], {"words": words, "player": {"host": "", "port": 0, "environment": {}, "directory": "/", **limits}})
    await job.running

asyncio.run(play())
"""


def test_a_player_ends_with_play_with_all_that_it_has_started():
    with subprocess.Popen([sys.executable, "-c", PLAYING, TOP / "python"], stdout=subprocess.PIPE, text=True) as playing:
        processes = [int(playing.stdout.readline()) for _ in range(3)]
        playing.kill()
    wait_until(lambda: not any(map(is_alive, processes)))


def test_a_player_that_forks_without_end_is_ended(tmp_path):
    ann = player(tmp_path, "while :; do sleep 6543 & setsid sleep 6543 & sleep 0.05; done")
    ann.referee.info_words = lambda place: ["sh", "-c", "until pgrep -cf '^sleep 6543$' > /dev/null; do :; done"]
    run_for(ann, "cup-001")
    assert subprocess.run(["pgrep", "-f", "^sleep 6543$"]).returncode == 1


# ---- launchers

def launched(room, words, launcher, program=None, info=ANSWERS, **more):
    """Returns a player with a launcher, which is a script on this computer."""
    path = script(room / "launch", f"#!/bin/bash\n{launcher}\n")
    return player(room, words, info, launcher=(program or str(path), "{player}"), **more)


def test_a_launcher_runs_the_player_and_reports_where(tmp_path, monkeypatch):
    monkeypatch.setenv("SLURMD_NODENAME", "n7")
    ann = launched(tmp_path, "echo {port} $X >&2; exec sleep 600", 'echo for $1 > launched; shift; exec "$@"', info=PRINTED)
    monkeypatch.chdir(tmp_path)

    async def play():
        await ann.ready("cup-001")
        found = process_of(ann), ann.place()
        await ann.end()
        return found

    process, place = asyncio.run(play())
    assert (place, (tmp_path / "launched").read_text()) == (f"ann@{socket.gethostname()}:{ann.port}", "for ann\n")
    assert ann.reporter.notes == [f"start cup-001 ann: process {process}, port {ann.port} on n7"]
    assert ((tmp_path / "players/ann.log").read_text(), is_alive(process)) == (f"{ann.port}\n", False)


def test_a_launcher_with_a_slash_is_in_the_directory_of_the_competition(tmp_path, monkeypatch):
    (tmp_path / "bin-ann").mkdir()
    ann = launched(tmp_path / "bin-ann", "exec sleep 600", 'shift; exec "$@"', "bin-{player}/launch")
    ann.folder = Folder(tmp_path)
    competition = types.SimpleNamespace(players=[Player("ann", "", 1, 1, ann.command)])
    monkeypatch.chdir("/")
    assert list(mistakes_of_programs(ann.folder, competition)) == []
    assert run_for(ann, "cup-001") != [None], ann.reporter.lines
    monkeypatch.chdir(tmp_path / "bin-ann")
    (tmp_path / "bin-ann").rename(tmp_path / "bin")
    assert [mistake.key for mistake in mistakes_of_programs(ann.folder, competition)] == ["players.launcher"]


def test_a_launcher_that_fails_is_reported(tmp_path):
    ann = launched(tmp_path, "exec sleep 600", "echo 'srun: no such partition' >&2; exit 1")
    assert run_for(ann, "cup-001") == [None]
    assert ann.reporter.lines == [f"down cup-001 ann: it can't be started; the end of {ann.log.path}:", "down cup-001 ann: | srun: no such partition"]


@pytest.mark.parametrize("words", ["", "1", "1 here", "1 here:", "1 here:0", "1 here:99999", "one here:1", "1 two words:1", "1 -:\\x:1"])
def test_a_launcher_that_reports_a_wrong_address_is_reported(tmp_path, words):
    ann = launched(tmp_path, "exec sleep 600", f"echo 'ggp_competition: player {words}' >&2; exec cat")
    assert run_for(ann, "cup-001") == [None]
    assert ann.reporter.lines == [f"down cup-001 ann: it sent {words!r} instead of the player's process and address; it wrote nothing to {ann.log.path}"]


def test_a_launcher_may_not_report_the_address_of_another_player(tmp_path):
    """The launcher may report neither the address of a player with an address, nor that of a player that runs here."""
    address = "localhost:9150"
    ann = launched(tmp_path, "exec sleep 600", "echo 'ggp_competition: player 1 127.0.0.1:9150' >&2; exec cat")
    players = [Player("bob", address, 1, 1, None), Player("cid", "", 1, 1, command("")), Player("ann", "", 1, 1, ann.command)]
    started = StartedPlayers(ann.folder, types.SimpleNamespace(players=players), ann.referee, ann.reporter)
    assert run_for(started.players["ann"], "cup-001") == [None]
    assert ann.reporter.lines[0].startswith("down cup-001 ann: it reported the address of bob, 127.0.0.1:9150; ")
    started.players["cid"].job, started.players["cid"].address = types.SimpleNamespace(running=asyncio.Future(loop=asyncio.new_event_loop())), "127.0.0.1:9150"
    assert started.known() == {"bob": address, "cid": "127.0.0.1:9150"}


@pytest.mark.parametrize(("launcher", "key", "why"), [
    ("echo queued >&2; exec sleep 600", "queue_seconds", "its launcher did not run it"),
    ("echo queued >&2; echo 'ggp_competition: node n1' >&2; exec cat > /dev/null", "start_seconds", "it did not report its address"),
])
def test_a_launcher_that_never_reports_the_player_is_given_up(tmp_path, launcher, key, why):
    ann = launched(tmp_path, "exec sleep 600", launcher, **{key: 1})
    assert run_for(ann, "cup-001") == [None]
    assert ann.reporter.lines == [f"down cup-001 ann: {why} within 1 s; it may need more `{key}`; the end of {ann.log.path}:", "down cup-001 ann: | queued"]


def launched_at_one_address(room, info=ANSWERS):
    """Returns two players whose launchers report the same address."""
    ann = launched(room, "exec sleep 600", "echo 'ggp_competition: player 1 127.0.0.1:9150' >&2; exec cat", info=info)
    players = [Player(name, "", 1, 1, ann.command) for name in ("ann", "bob")]
    return StartedPlayers(ann.folder, types.SimpleNamespace(players=players), ann.referee, ann.reporter)


@pytest.mark.parametrize("at_once", [True, False])
def test_only_one_of_two_launched_players_at_one_address_is_used(tmp_path, at_once):
    both = launched_at_one_address(tmp_path)

    async def play():
        for names in (("ann", "bob"),) if at_once else (("ann",), ("bob",)):
            await both.ready("cup-001", names)
        running = [name for name, player in both.players.items() if player.is_running()]
        await both.end()
        return running

    one, = asyncio.run(play())
    other = "bob" if one == "ann" else "ann"
    assert both.players[one].reporter.lines[0].startswith(f"down cup-001 {other}: it reported the address of {one}, 127.0.0.1:9150; ")
    assert at_once or one == "ann"
    assert both.known() == {}


def test_a_launched_player_that_does_not_answer_keeps_its_address_from_no_other(tmp_path):
    both = launched_at_one_address(tmp_path, SILENT)

    async def play():
        silent = asyncio.create_task(both.ready("cup-001", ("ann",)))
        while both.players["ann"].address != "127.0.0.1:9150":
            await asyncio.sleep(0.01)
        both.players["bob"].referee = types.SimpleNamespace(info_words=lambda place: ANSWERS)
        await both.ready("cup-001", ("bob",))
        silent.cancel()
        running = both.players["bob"].is_running()
        await both.end()
        return running

    assert asyncio.run(play())


def test_a_launched_player_whose_node_is_lost_is_reported(tmp_path, monkeypatch):
    monkeypatch.setattr(jobs, "LOST_SECONDS", 1)
    ann = launched(tmp_path, "exec sleep 600", 'shift; exec 3<&0; "$@" <&3 2> >(head -n 2 >&2; exec sleep 600)')

    async def play():
        await ann.ready("cup-001")
        await ann.watching

    asyncio.run(play())
    assert ann.reporter.lines == ["died cup-001 ann: it sent nothing for 1 s"]


# ---- memory

def test_the_memory_of_all_processes_is_bounded_where_systemd_takes_it(tmp_path, monkeypatch):
    text = f'#!/bin/bash\necho "$*" >> {tmp_path}/asked\nuntil [ "$1" = -- ]; do shift; done\nshift\nexec "$@"\n'
    systemd = script(tmp_path / "systemd-run", text)
    monkeypatch.setenv("PATH", f"{tmp_path}:{os.environ['PATH']}")
    asked, started = tmp_path / "asked", player(tmp_path, "echo up; exec sleep 600", memory=1 << 30)

    async def play():
        await started.ready("cup-001")
        while len(asked.read_text().splitlines()) < 2:
            await asyncio.sleep(0.01)
        await started.end()

    asyncio.run(play())
    user = "" if os.geteuid() == 0 else "--user "
    words = f"{user}--scope --quiet --property=MemoryMax={1 << 30} --property=MemorySwapMax=0 --"
    assert asked.read_text().splitlines() == [f"{words} true", f"{words} sh -c echo up; exec sleep 600"]
    # If systemd-run does not work, for example because there is no systemd, it is not used.
    systemd.write_text("#!/bin/sh\nexit 1\n")
    assert (job.bounded(1 << 30), job.bounded(0)) == ([], [])


# ---- logs

class Dying(StartedPlayer):
    """A player that dies while it is checked."""

    async def ready(self, match):
        self.job, self.address = types.SimpleNamespace(running=asyncio.Future()), "127.0.0.1:4711"
        self.reporter.line(f"died {match} ann: it ended with status 1: no memory")

    async def end(self):
        self.address = started_players.NOWHERE


def test_try_reports_a_player_that_dies_after_the_table_and_not_in_it(tmp_path, capfd):
    referee = types.SimpleNamespace(path="echo", rules_words=lambda _: [])
    remarks, game = trying.Remarks(), types.SimpleNamespace(name="nim", start=1, play=1)
    dying = Dying(Folder(tmp_path), Player("ann", "", 1, 1), 0, referee, remarks)
    assert asyncio.run(trying.checked(dying, remarks, referee, game, types.SimpleNamespace(text=b"", player_rules=None))) == 0
    said = capfd.readouterr()
    assert said == ("check --start=1 --play=1 -- ann@127.0.0.1:4711\n", "ggp_competition: ann (127.0.0.1:4711) died: it ended with status 1: no memory\n")


def test_a_player_that_is_not_running_has_no_address_in_messages():
    assert [*map(started_players.spelled_place, ("ann@127.0.0.1:1", "bob@127.0.0.1:11"))] == ["ann (not reachable)", "bob@127.0.0.1:11"]


def test_a_log_is_rotated(tmp_path, monkeypatch):
    monkeypatch.setattr(started_players, "MOST_BYTES", 100)
    log = PlayerLog(tmp_path / "ann.log")
    for number in range(10):
        log.write(f"{number}".encode() * 60)
    assert sorted(file.name for file in tmp_path.iterdir()) == ["ann.log", "ann.log.1"]
    assert ((tmp_path / "ann.log.1").read_text(), (tmp_path / "ann.log").read_text()) == ("6" * 60 + "7" * 60, "8" * 60 + "9" * 60)
    # Another run appends to the same file.
    PlayerLog(tmp_path / "ann.log").write(b"x")
    assert (tmp_path / "ann.log").read_text() == "x"


def test_the_last_lines_are_those_since_the_last_start_even_if_the_log_was_rotated(tmp_path, monkeypatch):
    monkeypatch.setattr(started_players, "MOST_BYTES", 100)
    log = PlayerLog(tmp_path / "ann.log")
    log.write(b"old\n" * 20)
    log.mark("start for cup-002")
    assert log.last_lines() == []
    log.write(b"new\n" * 20)
    assert (log.last_lines(), (tmp_path / "ann.log.1").exists()) == (["new"] * 5, True)


def test_a_player_that_floods_its_output_holds_nothing_up(tmp_path, monkeypatch):
    monkeypatch.setattr(started_players, "MOST_BYTES", 100_000)

    async def play():
        ann = player(tmp_path, "exec yes")
        await ann.ready("cup-001")
        while not (tmp_path / "players/ann.log.1").exists():
            await asyncio.sleep(0.01)
        await ann.end()

    asyncio.run(play())
    assert sum(file.stat().st_size for file in (tmp_path / "players").iterdir()) < 500_000


def test_a_full_disk_ends_no_player(tmp_path):
    ann = player(tmp_path, "echo one; exec sleep 600")
    ann.log.path.symlink_to("/dev/full")
    process, = run_for(ann, "cup-001")
    assert process and ann.reporter.lines == []


# ---- competitions

# A player that tries to read and write files of the competition, and to kill the referee. It prints which attempts succeeded.
THIEF = """#!/usr/bin/python3
import contextlib, http.server, os, pathlib, signal, sys
cup = pathlib.Path(sys.argv[2])

class Thief(http.server.BaseHTTPRequestHandler):
    def do_POST(self):
        message = self.rfile.read(int(self.headers["Content-Length"]))
        if message.startswith(b"(PLAY"):
            self.steal()
        reply = b"available" if message.startswith(b"INFO") else b"ready"
        self.send_response(200)
        self.send_header("Content-Length", str(len(reply)))
        self.end_headers()
        self.wfile.write(reply)

    def steal(self):
        attempts = {
            "listed": lambda: os.listdir(cup / "open"), "read": lambda: open(cup / "open" / "cup-001" / "log.jsonl"), "key": lambda: open(cup / "ids.key").read(),
            "wrote": lambda: (cup / "records" / "cup-009.json").touch(), "killed": self.kill,
        }
        for name, attempt in attempts.items():
            try:
                attempt()
                print(name, flush=True)
            except OSError as why:
                print("not", name, why.strerror, flush=True)

    def kill(self):
        for file in pathlib.Path("/proc").glob("[0-9]*/cmdline"):
            with contextlib.suppress(FileNotFoundError, ProcessLookupError):
                command = file.read_bytes().split(b"\\0")
                if command[1:2] == [b"run"] and str(cup).encode() in b" ".join(command):
                    os.kill(int(file.parent.name), signal.SIGKILL)

    def log_message(self, *words):
        pass

print("user", os.getuid(), flush=True)
http.server.ThreadingHTTPServer(("", int(sys.argv[1])), Thief).serve_forever()
"""


class Started(InFolder):
    HEAD = "start = 60\nplay = 60\nwait = 0\ninfo = 10\ntries = 2\n"

    def planned(self, *more, lines=("countdown ann bob",) * 2):
        players = "".join(f'\n[[players]]\nname = "{name}"\ncommand = ["{TOP}/examples/players/player.py", "{{port}}", "1"]\nstart_seconds = 600\n' for name in ("ann", "bob"))
        games = [(name, GAMES / f"{name}.kif") for name in dict.fromkeys(line.split()[0] for line in lines)]
        text = toml([("ann", "h:1")], games, f'kind = "schedule"\nlines = {json.dumps(list(lines))}', self.HEAD)
        text = text.replace(text[text.index("[[players]]"):], players + "\n".join(more))
        (self.folder / "competition.toml").write_text(text)
        status, out, said = run(self.folder, "plan")
        self.assertEqual((status, said), (0, ""), out)
        return [line.split("\t") for line in (self.folder / "schedule.tsv").read_text().splitlines()[1:]]

    def launch(self, launcher, *keys):
        """Gives the first player a launcher, and plans again."""
        path, file = script(self.folder / "launch", f"#!/bin/bash\n{launcher}\n"), self.folder / "competition.toml"
        file.write_text(file.read_text().replace("start_seconds = 600\n", "\n".join([f'launcher = ["{path}"]', *keys, ""]), 1))
        self.assertEqual(run(self.folder, "plan")[0], 0)

    def processes(self):
        """Returns the players that were started so far."""
        journal = (self.folder / "play.log").read_text().splitlines()
        return [int(line.partition("process ")[2].partition(",")[0]) for line in journal if " start " in line or " restart " in line]

    def test_a_competition_of_started_players(self):
        schedule = self.planned()
        status, out, said = run(self.folder, "play")
        self.assertEqual((status, said, out.splitlines()[-1]), (0, "", "2 of 2 matches have a lawful record"), out)
        self.assert_sound(schedule)
        self.assertEqual((len(self.processes()), [process for process in self.processes() if is_alive(process)]), (2, []))
        self.assertEqual(sorted(file.name for file in (self.folder / "players").iterdir()), ["ann.log", "bob.log"])
        told = run(self.folder, "why", ".", "cup-001", "ann")[1]
        self.assertRegex(told, r"Z start cup-001 ann: process \d+, port \d+\n")
        self.assertNotIn(" bob: process", told)
        for words in (("publish",), ("check", "cup.tar.gz")):
            self.assertEqual(run(self.folder, *words)[::2], (0, ""))

    def ended(self, number):
        """Starts `play`, waits until an endless match has begun, and sends a signal. Returns the output and the players of `play`."""
        waiting = program_but(self.folder / "waiting", '"$1" = run', "exec sleep 3600")
        playing = start(self.folder, "play", "--program", waiting)
        self.assertEqual(playing.stdout.readline(), "begin cup-001 countdown ann bob\n")
        playing.send_signal(number)
        out, _ = playing.communicate(timeout=600)
        return out, self.processes()

    def test_they_are_ended_with_play(self):
        self.planned()
        out, processes = self.ended(signal.SIGTERM)
        self.assertEqual((len(processes), [process for process in processes if is_alive(process)]), (2, []), out)
        self.assertNotIn("no answer", out)

    def test_after_a_kill_they_end_too(self):
        schedule = self.planned()
        _, processes = self.ended(signal.SIGKILL)
        wait_until(lambda: not any(map(is_alive, processes)))
        status, out, _ = run(self.folder, "play")
        self.assertEqual((status, [line for line in out.splitlines() if "abort" in line]), (0, []), out)
        self.assertEqual([process for process in (*processes, *self.processes()) if is_alive(process)], [])
        self.assert_sound(schedule)

    def test_a_player_that_does_not_come_up_is_silent(self):
        self.planned()
        file = self.folder / "competition.toml"
        file.write_text(file.read_text().replace('"{port}", "1"]', '"{port}", "no seed"]', 1))
        status, out, _ = run(self.folder, "play")
        self.assertEqual(status, 1, out)
        self.assertRegex(out, r"down cup-001 ann: it ended with status 2; the end of players/ann.log:\ndown cup-001 ann: \| usage: ")
        self.assertIn("missing cup-001: ann is silent\n", out)

    def test_a_launcher_that_hangs_holds_up_no_other_match(self):
        self.planned(lines=["buttons ann", "buttons bob"])
        self.launch("echo queued >&2; exec sleep 3600", "queue_seconds = 1")
        status, out, said = run(self.folder, "play")
        self.assertEqual((status, said), (1, ""))
        self.assertIn("down cup-001 ann: its launcher did not run it within 1 s; it may need more `queue_seconds`; the end of players/ann.log", out)
        self.assertEqual(out.splitlines()[-2:], ["missing cup-001: ann is silent", "1 of 2 matches have a lawful record"])

    def test_an_interrupt_does_not_wait_for_a_launcher(self):
        self.planned(lines=["buttons ann"])
        os.mkfifo(self.folder / "asked")
        self.launch(f"echo asked > {self.folder}/asked; exec sleep 3600")
        playing = start(self.folder, "play")
        self.assertEqual((self.folder / "asked").read_text(), "asked\n")
        playing.send_signal(signal.SIGINT)
        out, said = playing.communicate(timeout=600)
        self.assertEqual((playing.returncode, said, out.splitlines()[-2:]), (1, "", ["missing cup-001: not begun", "0 of 1 matches have a lawful record"]))

    def test_try(self):
        self.planned()
        status, out, said = run(self.folder, "try", ".", "ann")
        self.assertEqual((status, said), (0, ""), out)
        self.assertIn("START", out)
        for words, why in ((("cid",), "competition.toml has no player cid"), (("ann", "--game", "go"), "competition.toml has no game go")):
            self.assertEqual(run(self.folder, "try", "competition.toml", *words), (2, "", f"ggp_competition: {why}\n"))
        file = self.folder / "competition.toml"
        file.write_text(file.read_text().replace('"{port}", "1"]', '"{port}", "no seed"]', 1))
        status, out, said = run(self.folder, "try", "competition.toml", "ann")
        self.assertEqual((status, out, said.partition(";")[0]), (1, "", "ggp_competition: ann is not reachable: it ended with status 2"))

    @unittest.skipUnless(shutil.which("gringo"), "gringo is not installed")
    def test_try_sends_the_rules_and_the_clocks_of_the_game(self):
        # START fits into a line of the output.
        rules = "(role a) (n 1) (n 2) (<= (legal a ?n) (n ?n)) (<= (next on) (does a ?n)) (<= terminal (true on)) (goal a 9)"
        (self.folder / "say.kif").write_text(rules)
        text = toml([("ann", "h:1"), ("bob", "h:2")], [("say", "say.kif", 'player_rules = "variables"', "start = 61", "play = 59")])
        command = f'command = ["{TOP}/examples/players/interpreting.py", "{{port}}"]\nstart_seconds = 600'
        (self.folder / "competition.toml").write_text(text.replace('address = "h:1"', command))
        status, out, said = run(self.folder, "try", ".", "ann")
        self.assertEqual((status, said), (0, ""), out)
        self.assertRegex(out, r"\(START check-0 a \(\(role a\) .*\?.* 61 59\)\tready\t")
        why = "competition.toml: bob has no `command`; `ggp_manager check` tests a running player"
        self.assertEqual(run(self.folder, "try", ".", "bob"), (2, "", f"ggp_competition: {why}\n"))

    def test_plan_names_the_players_that_run_as_the_same_user(self):
        self.planned()
        words = "players that run as your user, and can read and change everything that you can: "
        self.assertIn(f"{words}ann, bob\n", run(self.folder, "plan")[1])
        file = self.folder / "competition.toml"
        file.write_text(file.read_text().replace("start_seconds = 600", 'launcher = ["env"]', 1))
        self.assertIn(f"{words}bob\n", run(self.folder, "plan")[1])
        file.write_text(file.read_text().replace("start_seconds = 600", 'launcher = ["env"]'))
        self.assertNotIn(words, run(self.folder, "plan")[1])

    @unittest.skipUnless(os.geteuid() == 0, "only root can run a player as another user")
    def test_a_player_of_another_user_reads_and_ends_nothing(self):
        thief, python = script(self.folder / "thief.py", THIEF), self.folder / "python"
        # The other user can read this directory, but neither the directory of the repository nor that of open matches.
        self.folder.chmod(0o755)
        shutil.copytree(TOP / "python", python, ignore=shutil.ignore_patterns("__pycache__"))
        schedule = self.planned('launcher = ["setpriv", "--reuid=65534", "--regid=65534", "--clear-groups"]\nrestart = "each_match"')
        file = self.folder / "competition.toml"
        first, bob = f"{TOP}/examples/players/player.py", file.read_text().rindex("[[players]]")
        text = file.read_text()[:bob] + file.read_text()[bob:].replace(f'"{first}", "{{port}}", "1"', f'"{thief}", "{{port}}", "{self.folder}"')
        file.write_text(f'ids = "random"\n{text}')
        # The other user may not run the Python that runs this test.
        words = {"capture_output": True, "text": True, "cwd": self.folder, "env": {**os.environ, "PATH": "/usr/sbin:/usr/bin:/sbin:/bin"}}
        for command_line in ("plan", "play"):
            done = subprocess.run([sys.executable, python / "ggp_competition", command_line, "--program", program()], **words)
            self.assertEqual((done.returncode, done.stderr), (0, ""), done.stdout)
        self.assertIn("2 of 2 matches have a lawful record", done.stdout)
        log = (self.folder / "players/bob.log").read_text().splitlines()
        self.assertEqual((log.count("user 65534"), len(log) > 10), (2, True), log)
        denied = {f"not {name} Permission denied" for name in ("listed", "read", "key", "wrote")} | {"not killed Operation not permitted"}
        self.assertEqual({line for line in log if not line.startswith(("user", "---- "))}, denied)
        self.assertEqual((len(schedule), [process for process in self.processes() if is_alive(process)]), (2, []))

    def test_a_program_or_a_directory_that_is_not_there_is_refused(self):
        self.planned()
        file = self.folder / "competition.toml"
        file.write_text(file.read_text().replace(f"{TOP}/examples/players/player.py", "./none", 1) + 'directory = "nowhere"\n')
        for command_line in ("plan", "play"):
            status, out, said = run(self.folder, command_line)
            self.assertEqual((status, out), (2, ""))
            self.assertRegex(said, r"competition.toml:\d+: players.command: .*none is not a program that can be run\n.*competition.toml:\d+: players.directory: nowhere is not a directory\n")

    def test_limits_above_those_of_the_computer_are_refused(self):
        self.planned()
        file = self.folder / "competition.toml"
        file.write_text(f'{file.read_text()}processors = 1024\nmemory = "1000T"\n')
        status, out, said = run(self.folder, "plan")
        words = r"competition.toml:(\d+): players.%s: [\d,]+ %sare more than the [\d,]+ %s\n"
        self.assertEqual((status, out), (2, ""))
        self.assertRegex(said, words % ("processors", "", "that `play` may use on this computer") + ".*" + words % ("memory", "bytes ", "bytes of this computer"))

    def test_the_demonstration(self):
        # The Python that runs this test runs its commands too.
        path = f"{os.path.dirname(sys.executable)}:{os.environ['PATH']}"
        done = subprocess.run([TOP / "examples/hold-a-competition", program(), self.folder / "demo"], env={**os.environ, "PATH": path}, capture_output=True, text=True)
        self.assertEqual((done.returncode, done.stderr), (0, ""), done.stdout)
        for words in ("12 of 12 matches have a lawful record\n", "demo: 12 of 12 matches\n", "http://127.0.0.1:", "12 records and call logs, the table and the pages are right"):
            self.assertIn(words, done.stdout)
        self.assertEqual(sorted(file.name for file in (self.folder / "demo/players").iterdir()), ["ann.log", "bob.log", "cid.log"])
