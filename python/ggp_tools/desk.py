"""Makes calls on a desk of matches, and returns each reply. The desk is `ggp_manager desk --interactive`, which this module starts, or
`ggp_manager desk --listen` at an address. `docs/DESK.md` has examples."""

import asyncio
import contextlib
import re
import socket
import subprocess
import threading
from collections.abc import Callable, Sequence
from dataclasses import dataclass
from typing import Self

from ggp_tools.referee import PROGRAM, find_program

MOST_NUMBER = 1_000_000_000
# The characters allowed in one word of a call, and in the last argument of `submit`, which may contain spaces.
WORD, TEXT = re.compile(r"[^ \r\n]+"), re.compile(r"[^\r\n]*")


@dataclass(frozen=True)
class Owe:
    """The role owes an answer to `start`, `play`, `stop` or `abort`. For `play` and `stop`, the message contains the last joint move, which is NIL
    before the first turn."""

    round: int
    message: str
    joint_move: str | None = None


@dataclass(frozen=True)
class Hold:
    """The role has answered this round, and waits for other roles."""

    round: int


@dataclass(frozen=True)
class Over:
    """The role owes no further answer in this match."""


@dataclass(frozen=True)
class Status:
    phase: str
    round: int
    turns: int
    substitutions: int


class Refused(Exception):
    """The desk has refused a call and changed nothing. `reason` is a word such as `nomatch`; if it is `stale`, `round` is the current
    round."""

    def __init__(self, call: str, reason: str, round_: int | None) -> None:
        super().__init__(f"the desk refuses `{call}`: {reason}{'' if round_ is None else f' {round_}'}")
        self.reason, self.round = reason, round_


class DeskEnded(Exception):
    """The desk ended without a reply, or with an error. Its program printed the reason on standard error."""


def word(value: str | int) -> str:
    """Formats a value as one word of a call. Raises an exception if that is impossible."""
    if isinstance(value, int) and not 0 <= value <= MOST_NUMBER:
        raise ValueError(f"expected a number from 0 to {MOST_NUMBER}, found {value}")
    if not WORD.fullmatch(str(value)):
        raise ValueError(f"expected a word without spaces and line breaks, found {value!r}")
    return str(value)


class Pipe:
    """A desk that this process starts and ends."""

    def __init__(self, words: list[str]) -> None:
        self.process = subprocess.Popen(words, stdin=subprocess.PIPE, stdout=subprocess.PIPE)
        self.replies, self.cut = self.process.stdout, self.process.kill

    def send(self, row: bytes) -> None:
        self.process.stdin.write(row)
        self.process.stdin.flush()

    def end(self) -> tuple[list[str], int]:
        """Returns the records and the exit status."""
        output, _ = self.process.communicate()
        return [record.decode() for record in output.splitlines()], self.process.returncode


class Connection:
    """A connection to a desk that listens at an address. The desk outlives the connection, and keeps the records."""

    def __init__(self, address: str) -> None:
        if address.startswith("unix:"):
            self.socket = socket.socket(socket.AF_UNIX)
            self.socket.connect(address.removeprefix("unix:"))
        else:
            host, _, port = address.rpartition(":")
            self.socket = socket.create_connection((host.strip("[]"), int(port)))
        self.replies, self.send = self.socket.makefile("rb"), self.socket.sendall

    def cut(self) -> None:
        with contextlib.suppress(OSError):
            self.socket.shutdown(socket.SHUT_RDWR)

    def end(self) -> tuple[list[str], int]:
        self.replies.close()
        self.socket.close()
        return [], 0


class Desk:
    """A desk for one game. `with` starts the program of the desk, and ends it. `options` are those of the command `desk`, for example
    `--countdown=3`. At the end of `with`, `records` has the record of each match, in the order of opening.
    `Desk.connect` returns a desk that many clients share.

    The methods block, and threads may share a desk. In asyncio, use `async with` and call `await asyncio.to_thread(desk.next, "m1", 0)`."""

    def __init__(self, *options: str, program: str | None = None) -> None:
        self.start: Callable[[], Pipe | Connection] = lambda: Pipe([find_program(program), "desk", "--interactive", *options])
        self.lock, self.records = threading.Lock(), list[str]()

    @classmethod
    def connect(cls, address: str) -> Self:
        """Returns the desk that listens at `HOST:PORT` or `unix:PATH`. `with` opens and closes a connection; `records` stays empty."""
        desk = cls()
        desk.start = lambda: Connection(address)
        return desk

    def __enter__(self) -> Self:
        self.transport = self.start()
        return self

    def __exit__(self, *why: object) -> None:
        with self.lock:
            self.records, status = self.transport.end()
        if status and why[0] is None:
            raise DeskEnded(f"`{PROGRAM} desk` ended with status {status}")

    async def __aenter__(self) -> Self:
        return await asyncio.to_thread(self.__enter__)

    async def __aexit__(self, *why: object) -> None:
        await asyncio.to_thread(self.__exit__, *why)

    def reply(self, call: str) -> str:
        """Sends a call, which is one row of a script, and returns the row with the reply. If an exception interrupts this method, the method
        ends the desk, or closes the connection to it."""
        if not TEXT.fullmatch(call):
            raise ValueError(f"expected a call without line breaks, found {call!r}")
        with self.lock:
            try:
                self.transport.send(call.encode("utf-8", "surrogateescape") + b"\n")
                reply = self.transport.replies.readline().decode("utf-8", "surrogateescape")
            except BaseException as why:
                self.transport.cut()
                if not isinstance(why, ConnectionError):
                    raise
                reply = ""
        if not reply.endswith("\n"):
            raise DeskEnded(f"the desk ended before it replied to `{call}`")
        match reply.split():
            case ["badline"]:
                raise ValueError(f"`{call}` is not a call")
            case ["full" | "memory" | "toolong"]:
                raise DeskEnded(f"the desk closes the connection instead of replying to `{call}`: {reply.rstrip()}")
            case ["refused", reason, *round_]:
                raise Refused(call, reason, int(round_[0]) if round_ else None)
        return reply.rstrip("\n")

    def make(self, *words: str | int) -> str:
        return self.reply(" ".join(map(word, words)))

    def open(self, id_: str, players: Sequence[str], *, game: int = 0, start: int = 10, play: int = 10, strikes: int = 0) -> None:
        """Opens a match of these players, one for each role. The desk only stores the clocks, in seconds, in the record: the caller measures
        the time."""
        self.make("strict", id_, game, start, play, strikes, *players)

    def next(self, id_: str, role: int) -> Owe | Hold | Over:
        """Returns what the role must do next."""
        match self.make("next", id_, role).split(" ", 3):
            case ["owe", round_, message, *joint_move]:
                return Owe(int(round_), message, *joint_move)
            case ["hold", round_]:
                return Hold(int(round_))
        return Over()

    def submit(self, id_: str, role: int, round_: int, answer: str) -> None:
        """Submits the answer of a role in a round. The desk checks the answer."""
        self.reply(f"submit {word(id_)} {word(role)} {word(round_)} {answer}")

    def miss(self, id_: str, role: int, round_: int, *, is_broken: bool = False) -> None:
        """Reports that a role did not answer a round in time, or that the role's connection broke."""
        self.make("miss", id_, role, round_, "broken" if is_broken else "silent")

    def query(self, id_: str) -> Status:
        _, phase, _, round_, _, turns, _, substitutions = self.make("query", id_).split()
        return Status(phase, int(round_), int(turns), int(substitutions))

    def abort(self, id_: str) -> None:
        self.make("abort", id_)
