"""Runs a referee or a player on the computer where a launcher has started this program. It needs only Python's standard library.

It first writes the name of its node to standard error, and then a line every two seconds. It reads its task, a line of JSON, from standard
input. It runs the task, passes on the task's output, and finally reports the task's exit status. The argument is a number of seconds. If
standard input is closed, or silent for this time, the program ends the task. If the task is a player, the program gives it a free port and sets its
limits. It ends the player together with all processes that the player has started."""

import contextlib
import ctypes
import json
import os
import pathlib
import resource
import select
import selectors
import signal
import socket
import subprocess
import sys
import time

OURS, PORT = b"ggp_competition: ", "{port}"
BEAT, ENDED = 2, 254
MOST = 1 << 16
END_WITH_PARENT, ADOPT_ORPHANS = 1, 36
# A player may have at most this many open files, so that it cannot use up the ports of this computer.
MOST_FILES = 1_024
# A player must end within this many seconds after SIGTERM.
END_SECONDS = 2
LIBRARY = ctypes.CDLL(None)


def free_port(before: int) -> int:
    """Returns a free port, if possible the one that was used before."""
    for port in (before, 0):
        with contextlib.suppress(OSError), socket.socket() as probe:
            probe.setsockopt(socket.SOL_SOCKET, socket.SO_REUSEADDR, 1)
            probe.bind(("", port))
            return probe.getsockname()[1]
    raise OSError("no port is free")


def bounded(memory: int) -> list[str]:
    """Returns the beginning of a command line that limits the memory of all processes of a player together. If systemd does not support
    this, the list is empty."""
    user = ["--user"] if os.geteuid() else []
    words = ["systemd-run", *user, "--scope", "--quiet", f"--property=MemoryMax={memory}", "--property=MemorySwapMax=0", "--"]
    with contextlib.suppress(OSError):
        null = subprocess.DEVNULL
        if memory and not subprocess.run([*words, "true"], stdin=null, stdout=null, stderr=null).returncode:
            return words
    return []


def limit(memory: int, processors: int, first: int) -> None:
    """Limits this process and the processes that it starts: the memory of each one, and the processors of all together. `first` is the number of
    processors that other players get before this one, so different players get different processors if there are enough."""
    if memory:
        resource.setrlimit(resource.RLIMIT_DATA, (memory, memory))
    allowed = sorted(os.sched_getaffinity(0))
    if count := min(processors, len(allowed)):
        os.sched_setaffinity(0, [allowed[(first + at) % len(allowed)] for at in range(count)])


def children() -> list[int]:
    """Returns the processes whose parent is this process."""
    numbers = []
    for file in pathlib.Path("/proc").glob("[0-9]*/stat"):
        with contextlib.suppress(OSError):
            if file.read_text("ascii", "replace").rpartition(")")[2].split()[1] == str(os.getpid()):
                numbers.append(int(file.parent.name))
    return numbers


class Job:
    """Runs a referee or a player, and passes on its output. Writes lines about the job only between lines of the referee."""

    def __init__(self, silence: float) -> None:
        self.silence, self.given = silence, b""
        self.heard = self.said = time.monotonic()
        self.process: subprocess.Popen | None = None
        self.pipe, self.exit = None, -1
        self.selector, self.is_at_line, self.is_player = selectors.DefaultSelector(), True, False

    def say(self, text: str) -> None:
        os.write(2, OURS + f"{text}\n".encode("ascii", "replace"))
        self.said = time.monotonic()

    def hear(self) -> bool:
        """Reads standard input, and returns whether it is still open."""
        data, self.heard = os.read(0, MOST), time.monotonic()
        self.given += data
        *lines, self.given = self.given.split(b"\n")
        for line in filter(None, lines):
            if not self.process:
                self.start(**json.loads(line))
        return bool(data)

    def start(self, words: list[str], player: dict | None = None) -> None:
        parent, limits, more = os.getpid(), (0, 0, 0), {"stderr": subprocess.PIPE}
        if player:
            LIBRARY.prctl(ADOPT_ORPHANS, 1)
            self.is_player, port = True, str(free_port(player["port"]))
            environment = {name: value.replace(PORT, port) for name, value in player["environment"].items()}
            limits = player["memory"], player["processors"], player["first_processor"]
            words = [*bounded(player["memory"]), *(word.replace(PORT, port) for word in words)]
            more = {"stdout": subprocess.PIPE, "stderr": subprocess.STDOUT, "cwd": player["directory"], "env": {**os.environ, **environment}}

        def ready() -> None:
            LIBRARY.prctl(END_WITH_PARENT, signal.SIGKILL)
            limit(*limits)
            if player:
                files = min(MOST_FILES, resource.getrlimit(resource.RLIMIT_NOFILE)[1])
                resource.setrlimit(resource.RLIMIT_NOFILE, (files, files))
            if os.getppid() != parent:
                os.kill(os.getpid(), signal.SIGKILL)

        self.process = subprocess.Popen(words, stdin=subprocess.DEVNULL, bufsize=0, start_new_session=self.is_player, preexec_fn=ready, **more)
        self.pipe, self.exit = self.process.stdout or self.process.stderr, os.pidfd_open(self.process.pid)
        for descriptor in (self.pipe, self.exit):
            self.selector.register(descriptor, selectors.EVENT_READ)
        if player:
            self.say(f"player {self.process.pid} {player['host'] or socket.gethostname()}:{port}")

    def pass_on(self) -> None:
        data = left = os.read(self.pipe.fileno(), MOST)
        while left:
            left = left[os.write(1 if self.is_player else 2, left) :]
        if not data:
            self.selector.unregister(self.pipe)
        if not self.is_player:
            self.is_at_line, self.said = not data or data.endswith(b"\n"), time.monotonic()

    def status(self) -> int:
        """Passes on the rest of the output of a process that has ended, and returns its exit status. One read returns everything that is
        left in a pipe. The process is not reaped yet, so that no other process gets its id."""
        os.set_blocking(self.pipe.fileno(), False)
        with contextlib.suppress(BlockingIOError, KeyError):
            self.pass_on()
        end = os.waitid(os.P_PID, self.process.pid, os.WEXITED | os.WNOWAIT)
        return end.si_status if end.si_code == os.CLD_EXITED else -end.si_status

    def run(self) -> int | None:
        """Runs the process, and returns its exit status. If `play` ends or is silent for too long, returns None."""
        self.say(f"node {os.environ.get('SLURMD_NODENAME') or socket.gethostname()}")
        self.selector.register(0, selectors.EVENT_READ)
        while time.monotonic() < self.heard + self.silence:
            for key, _ in self.selector.select(max(0, min(self.said + BEAT, self.heard + self.silence) - time.monotonic())):
                if key.fd == 0 and not self.hear():
                    return None
                if key.fileobj is self.pipe:
                    self.pass_on()
                if key.fd == self.exit:
                    return self.status()
            if self.is_at_line and time.monotonic() >= self.said + BEAT:
                self.say("beat")
        return None

    def end(self) -> None:
        """Ends the process. For a player, also ends all processes that it has started, which are or become children of this process."""
        for number in (signal.SIGTERM, signal.SIGKILL) if self.is_player else (signal.SIGKILL,):
            with contextlib.suppress(ProcessLookupError):
                (os.killpg if self.is_player else os.kill)(self.process.pid, number)
            select.select([self.exit], [], [], END_SECONDS)
        with contextlib.suppress(ChildProcessError):
            while True:
                for child in children():
                    with contextlib.suppress(ProcessLookupError):
                        os.kill(child, signal.SIGKILL)
                os.waitpid(-1, 0)
                while os.waitpid(-1, os.WNOHANG)[0]:
                    pass


def main() -> int:
    job, status = Job(float(sys.argv[1])), None
    signal.signal(signal.SIGTERM, lambda *_: sys.exit(ENDED))
    try:
        status = job.run()
        if status is not None:
            job.say(f"status {status}")
    except OSError as why:
        # The program can't be run, or the output is no longer read.
        if not job.process:
            os.write(2, f"{why.filename}: {why.strerror or why}\n".encode("ascii", "replace"))
    finally:
        if job.process:
            job.end()
    return ENDED if status is None else status % 256


if __name__ == "__main__":
    sys.exit(main())
