"""Matches through Slurm: a controller and three nodes on this computer. One node is killed, and one is cut off."""

import json
import os
import pathlib
import re
import shutil
import signal
import socket
import subprocess
import tempfile
import time

import pytest
from players import TestPlayer
from support import GAMES, TOP, InFolder, run, start, toml

NODES, MATCHES = ("n1", "n2", "n3"), 60
CONF = """
ClusterName=test
SlurmctldHost={host}(127.0.0.1)
SlurmctldPort={ports[0]}
SlurmUser=root
SlurmdUser=root
AuthType=auth/munge
CryptoType=crypto/munge
AuthInfo=socket={room}/munge.socket
ProctrackType=proctrack/pgid
TaskPlugin=task/none
SelectType=select/cons_tres
SelectTypeParameters=CR_Core
StateSaveLocation={room}/state
SlurmdSpoolDir={room}/spool-%n
SlurmdPidFile={room}/slurmd-%n.pid
SlurmctldPidFile={room}/slurmctld.pid
SlurmctldLogFile={room}/slurmctld.log
SlurmdLogFile={room}/slurmd-%n.log
MpiDefault=none
ReturnToService=2
SlurmdTimeout=10
KillWait=2
{nodes}
PartitionName=all Nodes=n[1-3] Default=YES MaxTime=INFINITE State=UP OverSubscribe=FORCE:64
"""
HEAD = "start = 60\nplay = 60\nstrikes = 0\nwait = 1\ninfo = 10\ntries = 20\n"
# The path of the command is not needed: a Debian package installs it.
TOOLS = ("munged", "slurmctld", "slurmd", "srun", "sbatch", "sinfo")


def why_not():
    """Returns why a cluster cannot be started here, or None."""
    if os.geteuid():
        return "only root can start the nodes of a cluster"
    missing = [tool for tool in TOOLS if not shutil.which(tool)]
    return f"{', '.join(missing)} not installed: apt-get install slurm-wlm munge" if missing else None


def free_ports(count):
    sockets = [socket.create_server(("127.0.0.1", 0)) for _ in range(count)]
    ports = [found.getsockname()[1] for found in sockets]
    for found in sockets:
        found.close()
    return ports


class Cluster:
    """A controller and three nodes. All of their processes are children of this process, or have the cluster's configuration in their environment."""

    def __init__(self, room):
        self.room, self.environment = room, {**os.environ, "SLURM_CONF": f"{room}/slurm.conf"}
        room.chmod(0o755)
        for name in ("state", *(f"spool-{node}" for node in NODES)):
            (room / name).mkdir()
        (room / "munge.key").write_bytes(os.urandom(1024))
        (room / "munge.key").chmod(0o400)
        host, (first, *ports) = socket.gethostname(), free_ports(4)
        nodes = "\n".join(f"NodeName={node} NodeHostname={host} NodeAddr=127.0.0.1 Port={port} CPUs=4 State=UNKNOWN" for node, port in zip(NODES, ports))
        (room / "slurm.conf").write_text(CONF.format(host=host, room=room, ports=[first, *ports], nodes=nodes))
        munge = [f"--{name}={room}/{file}" for name, file in (("key-file", "munge.key"), ("socket", "munge.socket"), ("pid-file", "munged.pid"), ("log-file", "munged.log"), ("seed-file", "seed"))]
        subprocess.run(["munged", "--force", *munge], check=True)
        self.started = [self.daemon("slurmctld", "-D"), *(self.daemon("slurmd", "-D", "-N", node) for node in NODES)]
        # The controller answers once all nodes have registered.
        while self.call("sinfo", "-h", "-t", "idle", "-o", "%D").stdout.strip() != "3":
            assert self.started[0].poll() is None, (room / "slurmctld.log").read_text()

    def daemon(self, *words):
        return subprocess.Popen(words, env=self.environment, stdin=subprocess.DEVNULL, stdout=subprocess.DEVNULL, stderr=subprocess.DEVNULL)

    def call(self, *words):
        return subprocess.run(words, env=self.environment, capture_output=True, text=True)

    def processes(self, node=None):
        """Returns the processes of a node, or of all: its daemon, the jobs, and the processes that pass on the output of jobs."""
        found, ours = [], [f"SLURM_CONF={self.room}/slurm.conf".encode(), *([f"SLURMD_NODENAME={node}".encode()] if node else [])]
        for place in pathlib.Path("/proc").glob("[0-9]*"):
            try:
                environment = (place / "environ").read_bytes().split(b"\0")
                if all(word in environment for word in ours):
                    found.append((int(place.name), int((place / "stat").read_text().rpartition(")")[2].split()[1])))
            except OSError:
                continue
        return found

    def kill(self, node):
        """Kills all processes of a node."""
        self.started[1 + NODES.index(node)].kill()
        jobs = self.processes(node)
        for process in {parent for _, parent in jobs} | {process for process, _ in jobs}:
            self.send(process, signal.SIGKILL)

    def cut_off(self, node):
        """Blocks all messages to and from a node. Its processes continue."""
        self.started[1 + NODES.index(node)].send_signal(signal.SIGSTOP)
        jobs = self.processes(node)
        for process in {parent for _, parent in jobs} - {process for process, _ in jobs}:
            self.send(process, signal.SIGSTOP)

    def send(self, process, number):
        name = pathlib.Path(f"/proc/{process}/comm")
        try:
            # The daemon of another node is not a child of this one.
            if name.read_text().strip() != "slurmd":
                os.kill(process, number)
        except OSError:
            pass  # it has ended

    def end(self):
        for daemon in self.started[:0:-1] + self.started[:1]:
            daemon.kill()
            daemon.wait()
        for process, parent in self.processes():
            for number in (process, parent) if parent != os.getpid() and parent != 1 else (process,):
                if pathlib.Path(f"/proc/{number}/comm").exists() and number != os.getpid():
                    self.send(number, signal.SIGKILL)
        os.kill(int((self.room / "munged.pid").read_text()), signal.SIGKILL)


@pytest.mark.gate
class Slurm(InFolder):
    def setUp(self):
        if why := why_not():
            self.skipTest(why)
        super().setUp()
        self.cluster = Cluster(pathlib.Path(self.enterContext(tempfile.TemporaryDirectory())))
        self.addCleanup(self.cluster.end)

    def test_sixty_matches_on_three_nodes_of_which_one_dies_and_one_is_cut_off(self):
        players = [TestPlayer(f"p{at}", "slow", at, most=12) for at in range(2)]
        form = f'kind = "schedule"\nlines = {json.dumps(["countdown p0 p1"] * MATCHES)}'
        launcher = 'launcher = {command = ["srun", "--nodes=1", "--ntasks=1", "--quiet", "--job-name={match}"], slots = 12}\n'
        schedule = self.plan([(player.name, player.place(), "concurrent = 12") for player in players], [("countdown", GAMES / "countdown.kif")], form, HEAD + launcher)
        playing = start(self.folder, "play", env=self.cluster.environment)
        out, ended = "", 0
        while line := playing.stdout.readline():
            out, ended = out + line, ended + line.startswith("end ")
            if line.startswith("end ") and ended == 10:
                self.cluster.kill("n1")
            if line.startswith("end ") and ended == 20:
                self.cluster.cut_off("n2")
        self.assertEqual((playing.wait(), playing.stderr.read()), (0, ""), out)
        playing.stdout.close()
        playing.stderr.close()
        self.assertIn(" on n3\n", out)
        self.assertEqual(sum(line.startswith("end ") for line in out.splitlines()), MATCHES)
        self.assertEqual([player.clashes for player in players], [[], []])
        self.assert_sound(schedule)
        self.assertEqual([run(self.folder, *words)[0] for words in (("publish",), ("check", "cup.tar.gz"))], [0, 0])
        print("\n".join(line for line in out.splitlines() if line.startswith("lost ")), time.monotonic())

    def test_players_that_are_jobs_of_which_one_loses_its_node(self):
        # An example player that listens on all addresses of its node.
        example = self.folder / "player.py"
        example.write_text((TOP / "examples/players/player.py").read_text().replace('("127.0.0.1", port)', '("", port)'))
        example.chmod(0o755)
        launcher = 'launcher = ["srun", "--nodes=1", "--ntasks=1", "--quiet", "--job-name={player}"]\nstart_seconds = 600'
        players = "".join(f'\n[[players]]\nname = "{name}"\ncommand = ["./player.py", "{{port}}", "1"]\n{launcher}\n' for name in ("ann", "bob"))
        form = f'kind = "schedule"\nlines = {json.dumps(["countdown ann bob"] * 6)}'
        text = toml([], [("countdown", GAMES / "countdown.kif")], form, HEAD)
        (self.folder / "competition.toml").write_text(text + players)
        self.assertEqual(run(self.folder, "plan", env=self.cluster.environment)[::2], (0, ""))
        playing = start(self.folder, "play", env=self.cluster.environment)
        out = ""
        while line := playing.stdout.readline():
            out += line
            if out.count("\nend ") == 1 and line.startswith("end "):
                self.cluster.kill(re.search(r" start cup-001 ann: process \d+, port \d+ on (n[123])", (self.folder / "play.log").read_text())[1])
        said = playing.stderr.read()
        playing.stdout.close()
        playing.stderr.close()
        self.assertEqual((playing.wait(), said, out.splitlines()[-1]), (0, "", "6 of 6 matches have a lawful record"), out)
        self.assertRegex(out, r"restart cup-00\d ann: process \d+, port \d+ on n[123]")
        self.assertRegex(run(self.folder, "why", ".", "cup-001", "bob")[1], r"Z start cup-001 bob: process \d+, port \d+ on n[123]\n")
        self.assertEqual(subprocess.run(["pgrep", "-f", f"{example}"]).returncode, 1)
