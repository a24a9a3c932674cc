"""Network namespaces that act as separate computers, and matches of one player in them. They need root and `ip`."""
import contextlib
import ctypes
import itertools
import json
import os
import pathlib
import signal
import socket
import subprocess
import threading
import time
from collections.abc import Callable, Iterator
from typing import NamedTuple

from driving.asking import body_of

# A game of two turns, where the only role has one move.
RULES = "(role ann) (init a) (legal ann go) (<= (next b) (true a)) (<= (next c) (true b)) (<= terminal (true c)) (goal ann 100)"
PATIENCE = 300
# A firewall's rule for a port applies to IPv4 and to IPv6, so no two players have the same port.
PORTS = itertools.count(20001)


def inside(namespace: str, call: str, is_needed: bool = True) -> None:
    """Runs a command in a namespace."""
    subprocess.run(["ip", "netns", "exec", namespace, *call.split()], check=is_needed, stderr=None if is_needed else subprocess.DEVNULL)


@contextlib.contextmanager
def entered(namespace: str) -> Iterator[None]:
    """Makes this thread create its sockets in a namespace."""
    libc = ctypes.CDLL(None, use_errno=True)
    with open("/proc/thread-self/ns/net", "rb") as before, open(f"/run/netns/{namespace}", "rb") as there:
        if libc.setns(there.fileno(), 0):
            raise OSError(ctypes.get_errno(), "setns")
        try:
            yield
        finally:
            libc.setns(before.fileno(), 0)


@contextlib.contextmanager
def namespaces(*names: str) -> Iterator[None]:
    """Creates namespaces with these names, each with its loopback interface, and deletes them at the end."""
    try:
        for name in names:
            subprocess.run(["ip", "netns", "add", name], check=True)
            inside(name, "ip link set lo up")
        yield
    finally:
        for name in names:
            subprocess.run(["ip", "netns", "del", name], check=False)


def has_stopped(pid: int) -> bool:
    """Checks whether all threads of a process are stopped."""
    return all(stat.read_text().rpartition(")")[2].split()[0] == "T" for stat in pathlib.Path(f"/proc/{pid}/task").glob("*/stat"))


@contextlib.contextmanager
def stopped(namespace: str, seconds: float) -> Iterator[None]:
    """Stops the programs in a namespace. The programs continue this many seconds after the block."""
    inode = os.stat(f"/run/netns/{namespace}").st_ino
    pids = []
    for entry in pathlib.Path("/proc").glob("[0-9]*"):
        with contextlib.suppress(OSError):
            if (entry / "ns/net").stat().st_ino == inode:
                pids.append(int(entry.name))
    for pid in pids:
        os.kill(pid, signal.SIGSTOP)
    # On a busy computer the threads of a program do not stop at once.
    while not all(has_stopped(pid) for pid in pids):
        time.sleep(0.001)
    yield
    time.sleep(seconds)
    for pid in pids:
        os.kill(pid, signal.SIGCONT)


class Ann(threading.Thread):
    """A player in a namespace. Before the player answers the first PLAY, it calls a function with the player's port."""

    def __init__(self, namespace: str, host: str, before: Callable[[int], object] = lambda _: None) -> None:
        super().__init__(daemon=True)
        self.before, self.port = before, next(PORTS)
        with entered(namespace):
            self.listener = socket.create_server((host, self.port), family=socket.AF_INET6 if ":" in host else socket.AF_INET, backlog=64)
        self.start()

    def run(self) -> None:
        while True:
            connection, _ = self.listener.accept()
            with connection, contextlib.suppress(OSError):
                if body_of(connection).startswith("(PLAY m NIL"):
                    self.before(self.port)
                connection.sendall(b"HTTP/1.0 200 OK\r\nContent-Length: 2\r\n\r\ngo")


class Ended(NamedTuple):
    """The end of a match: the exit status, the record, and the messages."""

    status: int
    output: str
    errors: str

    def marks(self) -> list[str]:
        """Returns the errors of the answers to START, each PLAY and STOP. If there is no record, the list is empty."""
        if not self.output:
            return []
        record = json.loads(self.output)
        return [*record["startMarks"], *(turn[0] for turn in record["errors"]), *record["endMarks"]]


def played(namespace: str, program: str, address: str, seconds: int, rules: str = RULES) -> Ended:
    """Plays a match in a namespace against the player at this address, with START and PLAY clocks of this many seconds."""
    words = ["run", "--why", "--rules", rules, "--id", "m", "--start", f"{seconds}", "--play", f"{seconds}", address]
    ran = subprocess.run(["ip", "netns", "exec", namespace, program, *words], capture_output=True, text=True, timeout=PATIENCE)
    return Ended(ran.returncode, ran.stdout, ran.stderr)


def blamed(case: str, ended: Ended, marks: list[str]) -> Iterator[str]:
    """Checks that there is a record, and that the record gives the errors `marks` for the player. Yields the differences."""
    if (ended.status, ended.marks()) != (0, marks):
        yield f"{case}: expected a record with {marks}, got status {ended.status}, {ended.marks()}, {ended.errors!r}"


def spared(case: str, ended: Ended) -> Iterator[str]:
    """Checks that there is no record, because the cause is on this computer. Yields the differences."""
    if (ended.status, ended.output) != (2, "") or "no network" not in ended.errors:
        yield f"{case}: expected no record and a report of no network, got status {ended.status}, {ended.marks()}, {ended.errors!r}"
