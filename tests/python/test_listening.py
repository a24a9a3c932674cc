"""`desk --listen`: its connections, its files and its end. `ggp_tools.desk` as its client, and the examples that use it."""

import asyncio
import contextlib
import importlib
import pathlib
import random
import re
import socket
import subprocess
import sys
import time
import urllib.request
from collections.abc import Iterator, Sequence
from concurrent.futures import ThreadPoolExecutor
from urllib.parse import urlencode

import pytest
from ggp_tools.desk import Connection, Desk, DeskEnded, Hold, Refused
from support import GAMES, TOP, program
from test_desk import COUNTDOWN, assert_an_interrupt_ends, play_countdown

EXAMPLES = TOP / "examples/desk"
TICTACTOE = GAMES / "tictactoe.kif"
MOST_ROW = 1_048_576
CUT = "ggp_manager: the service ended, and cut connections that were still open after 5 seconds\n"


class Service:
    """A desk that listens. `end` closes its standard input. After that, `history`, `records` and `errors` have its output."""

    def __init__(self, folder: pathlib.Path, options: Sequence[str], game: str, address: str, before: Sequence[str], files: Sequence[str]) -> None:
        self.files, self.game, pipe = [folder / name for name in files], game, subprocess.PIPE
        named = [f"--{file.name}={file}" for file in self.files]
        words = [*before, program(), "desk", f"--listen={address}", *named, game, *options]
        self.process = subprocess.Popen(words, stdin=pipe, stdout=pipe, stderr=pipe)
        self.address = self.process.stdout.readline().decode().removeprefix("listening on ").rstrip("\n")

    def end(self) -> int:
        """Returns the exit status."""
        self.errors = self.process.communicate()[1].decode()
        made = {file.name: file.read_bytes() for file in self.files}
        self.history, self.records = made["history"], made.get("records", b"")
        return self.process.returncode

    def connect(self) -> socket.socket:
        return Connection(self.address).socket

    def ask(self, rows: bytes) -> bytes:
        """Sends these bytes over a connection, and returns what the desk sends until it closes the connection."""
        with self.connect() as client, ThreadPoolExecutor(1) as pool:
            sent = pool.submit(lambda: (client.sendall(rows), client.shutdown(socket.SHUT_WR)))
            replies = b"".join(iter(lambda: client.recv(65536), b""))
            sent.result()
        return replies

    def calls(self) -> list[list[bytes]]:
        """Returns the fields of each row of the history, after `replay` has accepted it and made the records from it."""
        replayed = subprocess.run([program(), "replay", self.game], input=self.history, capture_output=True)
        assert (replayed.returncode, replayed.stdout.partition(b"\n")[2]) == (0, self.records)
        return [row.split(b"\t") for row in self.history.splitlines()]


@contextlib.contextmanager
def serving(
    folder: pathlib.Path,
    *options: str,
    game: str = COUNTDOWN,
    address: str = "127.0.0.1:0",
    errors: str = "",
    before: Sequence[str] = (),
    files: Sequence[str] = ("history", "records"),
) -> Iterator[Service]:
    """Yields a desk that listens, and ends it. Its standard error must match the pattern `errors`. On a busy computer, the desk may not
    notice within 5 seconds that a client is gone."""
    service = Service(folder, options, game, address, before, files)
    try:
        yield service
        if service.process.returncode is None:
            assert service.end() == 0
            assert re.fullmatch(f"{errors}({CUT})?", service.errors)
    finally:
        service.process.kill()
        service.process.wait()


def one_line_each(calls: list[list[bytes]]) -> bool:
    """Returns whether all calls about a match were made over the same line, for each match."""
    lines = {(call.split()[1], line) for line, call, _ in calls}
    return len(lines) == len({match_id for match_id, _ in lines})


@pytest.mark.parametrize("script", sorted(GAMES.glob("*.script")), ids=lambda path: path.stem)
def test_a_connection_gets_the_replies_of_desk(tmp_path: pathlib.Path, script: pathlib.Path) -> None:
    with serving(tmp_path, game=f"--rules-file={script.with_suffix('.kif')}") as service:
        replies = service.ask(script.read_bytes())
    assert replies + service.records == script.with_suffix(".out").read_bytes()
    assert len(service.calls()) == replies.count(b"\n") - replies.count(b"badline\n")


@pytest.mark.parametrize("address", ["127.0.0.1:0", "[::1]:0", "unix:{}/desk"])
def test_clients_share_a_desk(tmp_path: pathlib.Path, address: str) -> None:
    with serving(tmp_path, address=address.format(tmp_path)) as service:
        with Desk.connect(service.address) as first, Desk.connect(service.address) as second:
            first.open("m1", ["ann", "bob"])
            second.submit("m1", 1, 0, "ready")
            with pytest.raises(Refused, match="idused"):
                second.open("m1", ["ann", "bob"])
            assert (first.next("m1", 1), first.records) == (Hold(0), [])
            first.abort("m1")
        with Desk.connect(service.address) as third:
            assert third.query("m1").phase == "aborting"
        assert third.transport.socket.fileno() == -1
    lines = [line for line, _, _ in service.calls()]
    assert lines[0] == lines[3] == lines[4] != lines[1] == lines[2]


def test_matches_over_several_connections_in_asyncio(tmp_path: pathlib.Path) -> None:
    async def play(address: str, match_id: str) -> None:
        async with Desk.connect(address) as desk:
            await asyncio.to_thread(play_countdown, desk, match_id)

    async def play_all(address: str) -> None:
        await asyncio.gather(*(play(address, f"m{number}") for number in range(5)))

    with serving(tmp_path) as service:
        asyncio.run(play_all(service.address))
    assert service.records.count(b'"phase":"finished"') == 5
    assert one_line_each(service.calls())


def test_the_history_of_several_games(tmp_path: pathlib.Path) -> None:
    """Another desk with the same games gives the same replies to the calls of the history, and makes the same records."""
    games, again = [f"--rules-file={GAMES}/{game}.kif" for game in ("buttons", "tictactoe")], tmp_path / "again"
    again.mkdir()
    with serving(tmp_path, games[1], game=games[0]) as service, Desk.connect(service.address) as desk:
        desk.open("one", ["ann"], game=0)
        desk.open("two", ["ann", "bob"], game=1)
        with pytest.raises(Refused, match="nogame"):
            desk.open("three", ["ann"], game=2)
        for match_id in ("one", "two"):
            desk.abort(match_id)
    _, calls, replies = zip(*(row.split(b"\t") for row in service.history.splitlines()))
    with serving(again, games[1], game=games[0]) as second:
        assert second.ask(b"".join(call + b"\n" for call in calls)).splitlines() == [*replies]
    assert second.records == service.records


def test_a_connection_waits_for_a_line(tmp_path: pathlib.Path) -> None:
    with serving(tmp_path, "--lines=1") as service, contextlib.ExitStack() as first_connection:
        first = first_connection.enter_context(Desk.connect(service.address))
        with Desk.connect(service.address) as second, ThreadPoolExecutor(1) as pool:
            first.open("m1", ["ann", "bob"])
            waiting = pool.submit(second.query, "m1")
            first.abort("m1")
            assert not waiting.done()
            first_connection.close()
            assert waiting.result().phase == "aborting"
    assert [call.split()[0] for _, call, _ in service.calls()] == [b"open", b"abort", b"query"]


def test_a_call_that_is_interrupted_ends_its_connection(tmp_path: pathlib.Path) -> None:
    with serving(tmp_path) as service:
        with Desk.connect(service.address) as desk:
            assert_an_interrupt_ends(desk)
        with Desk.connect(service.address) as desk, pytest.raises(Refused):
            desk.query("m3")
    assert [call for _, call, _ in service.calls()] == [b"query m3"]


def test_a_row_without_an_end_is_not_a_call(tmp_path: pathlib.Path) -> None:
    with serving(tmp_path) as service:
        assert service.ask(b"query m1\r\nquery m2") == b"refused nomatch\n"
    assert [call for _, call, _ in service.calls()] == [b"query m1"]


def test_a_row_that_is_too_long(tmp_path: pathlib.Path) -> None:
    longest = "submit m1 0 0 ".ljust(MOST_ROW, "a")
    errors = "ggp_manager: a client was disconnected: a row has more than 1048576 bytes\n"
    with serving(tmp_path, errors=errors) as service, Desk.connect(service.address) as other:
        other.open("m1", ["ann", "bob"])
        with Desk.connect(service.address) as client:
            assert client.reply(longest) == "taken"
            with pytest.raises(DeskEnded, match="toolong"):
                client.reply(f"{longest}a")
            with pytest.raises(DeskEnded):
                client.query("m1")
        assert other.next("m1", 0) == Hold(0)
    assert [call.split()[0] for _, call, _ in service.calls()] == [b"open", b"submit", b"next"]


def test_a_refused_client_that_stays_connected_loses_its_line(tmp_path: pathlib.Path) -> None:
    errors = "ggp_manager: a client was disconnected: a row has more than 1048576 bytes\n"
    with serving(tmp_path, "--lines=1", errors=errors) as service, service.connect() as refused, service.connect() as next_client:
        refused.sendall(b"a" * (MOST_ROW + 1))
        next_client.sendall(b"query m1\n")
        assert next_client.recv(100) == b"refused nomatch\n"
        assert refused.recv(100) == b"toolong\n"
        assert refused.recv(100) == b""


def test_a_flood_of_bytes(tmp_path: pathlib.Path) -> None:
    flood = random.Random(1).randbytes(300_000) + b"\n"
    with serving(tmp_path) as service, Desk.connect(service.address) as other, ThreadPoolExecutor(1) as pool:
        flooding = pool.submit(service.ask, flood)
        play_countdown(other, "m1")
        assert flooding.result() == b"badline\n" * flood.count(b"\n")
    assert {call.split()[1] for _, call, _ in service.calls()} == {b"m1"}


def test_a_client_that_does_not_read(tmp_path: pathlib.Path) -> None:
    with serving(tmp_path, address=f"unix:{tmp_path}/desk") as service:
        with service.connect() as silent, Desk.connect(service.address) as other, ThreadPoolExecutor(1) as pool:
            other.open("m1", ["ann", "bob"])
            sending = pool.submit(silent.sendall, b"query m1\n" * 100_000)
            play_countdown(other, "m2")
            assert not sending.done()
            began = time.monotonic()
            assert (service.end(), service.errors) == (0, CUT)
            assert time.monotonic() - began >= 5
            assert isinstance(sending.exception(), ConnectionError)
    assert 0 < [call for _, call, _ in service.calls()].count(b"query m1") < 100_000


def test_the_end_of_standard_input(tmp_path: pathlib.Path) -> None:
    with serving(tmp_path) as service, service.connect() as idle, service.connect() as busy:
        idle.sendall(b"query m1\n")
        assert idle.recv(100) == b"refused nomatch\n"
        busy.sendall(b"query m2\n")
        assert busy.recv(100) == b"refused nomatch\n"
        busy.sendall(b"query m2\n" * 100)
        assert service.end() == 0
        assert idle.recv(100) == b""
        replies = b""
        with contextlib.suppress(ConnectionResetError):
            while piece := busy.recv(65536):
                replies += piece
    # A busy computer may not answer all calls within 5 seconds.
    assert replies == b"refused nomatch\n" * 100 or service.errors == CUT
    assert len(service.calls()) >= 2 + replies.count(b"\n")


@pytest.mark.parametrize("linger", [None, bytes([1, 0, 0, 0, 0, 0, 0, 0])], ids=["closed", "reset"])
def test_a_connection_that_breaks(tmp_path: pathlib.Path, linger: bytes | None) -> None:
    with serving(tmp_path, "--lines=1") as service:
        with service.connect() as client:
            if linger:
                client.setsockopt(socket.SOL_SOCKET, socket.SO_LINGER, linger)
            client.sendall(b"query m1\n" * 20 + b"query")
            client.recv(1)
        assert service.ask(b"query m2\n") == b"refused nomatch\n"
    calls = [call for _, call, _ in service.calls()]
    assert calls == [b"query m1"] * (len(calls) - 1) + [b"query m2"] and 2 <= len(calls) <= 21


def test_a_desk_that_is_killed(tmp_path: pathlib.Path) -> None:
    with serving(tmp_path) as service, Desk.connect(service.address) as desk:
        with pytest.raises(Refused):
            desk.query("m1")
        service.process.kill()
        for _ in range(2):
            with pytest.raises(DeskEnded, match="`query m1`"):
                desk.query("m1")
        service.process.communicate()


@pytest.mark.parametrize(
    ("option", "error"),
    [
        ("--listen={used}", "{used}: Address already in use (os error 98)\nggp_manager: can't listen"),
        ("--listen=unix:{folder}/file", "unix:{folder}/file: Address already in use (os error 98)\nggp_manager: can't listen"),
        ("--listen=unix:{folder}/gone/socket", "unix:{folder}/gone/socket: No such file or directory (os error 2)\nggp_manager: can't listen"),
        ("--listen=unix:", "unix:: invalid input parameter\nggp_manager: can't listen"),
        ("--listen=192.0.2.1:1", "192.0.2.1:1: Cannot assign requested address (os error 99)\nggp_manager: can't listen"),
        ("--listen=127.0.0.1", "127.0.0.1: invalid socket address\nggp_manager: can't listen"),
        ("--history={folder}/file", "bad file of calls: the file exists"),
        ("--history={folder}/gone/file", "bad file of calls: the file can't be opened"),
        ("--records={folder}", "bad file of records: it is not a regular file"),
    ],
)
def test_addresses_and_files_that_are_refused(tmp_path: pathlib.Path, option: str, error: str) -> None:
    """A desk that is refused makes no file, so the same command can be given again."""
    (tmp_path / "file").write_bytes(b"old")
    with serving(tmp_path) as service:
        given, wanted = (text.format(used=service.address, folder=tmp_path) for text in (option, error))
        more = [f"--{name}={value}" for name, value in (("listen", "127.0.0.1:0"), ("history", tmp_path / "new")) if name not in option]
        words = [program(), "desk", COUNTDOWN, *more, given]
        said = subprocess.run(words, stdin=subprocess.DEVNULL, capture_output=True, text=True)
        assert (said.returncode, said.stdout) == (1, "")
        assert said.stderr.endswith(f"ggp_manager: {wanted}\n")
        assert service.ask(b"query m1\n") == b"refused nomatch\n"
    assert (tmp_path / "file").read_bytes() == b"old"
    assert not (tmp_path / "new").exists()


@pytest.mark.parametrize(("name", "error"), [("gone", "bad description: no such file"), ("file", "bad description")])
def test_a_file_of_rules_that_is_refused_is_named(tmp_path: pathlib.Path, name: str, error: str) -> None:
    (tmp_path / "file").write_text("(role", encoding="ascii")
    words = [program(), "desk", "--listen=127.0.0.1:0", f"--rules-file={TICTACTOE}", f"--rules-file={tmp_path}/{name}"]
    said = subprocess.run(words, stdin=subprocess.DEVNULL, capture_output=True, text=True)
    assert (said.returncode, said.stdout) == (1, "")
    assert said.stderr.startswith(f"ggp_manager: {tmp_path}/{name}: {error}\n")
    assert said.stderr.endswith(f"ggp_manager: {error}\n")


def test_large_applies_to_each_game(tmp_path: pathlib.Path) -> None:
    (tmp_path / "large.kif").write_text(TICTACTOE.read_text(encoding="ascii") + "\n" * 1_048_576, encoding="ascii")
    with serving(tmp_path, "--large", f"--rules-file={tmp_path}/large.kif", game=f"--rules-file={TICTACTOE}") as service:
        assert service.ask(b"query m1\n") == b"refused nomatch\n"


TWO_USES = {
    "records": "bad file of records: another file or stream of this command is the same file",
    "history": "bad file of calls: another file or stream of this command is the same file",
}


@pytest.mark.parametrize("option", TWO_USES)
def test_a_file_with_two_uses_is_refused(tmp_path: pathlib.Path, option: str) -> None:
    file = tmp_path / "file"
    with file.open("wb") as output:
        words = [program(), "desk", "--listen=127.0.0.1:0", COUNTDOWN, f"--{option}={file}"]
        said = subprocess.run(words, stdin=subprocess.DEVNULL, stdout=output, stderr=subprocess.PIPE, text=True)
    assert (said.returncode, file.read_bytes()) == (1, b"")
    assert f"{file} is the file of --{option} and standard output" in said.stderr
    assert said.stderr.endswith(f"ggp_manager: {TWO_USES[option]}\n")


@pytest.mark.parametrize("files", [["history"], ["history", "records"]], ids=" and ".join)
def test_a_history_that_cannot_be_written(tmp_path: pathlib.Path, files: list[str]) -> None:
    with serving(tmp_path, before=["prlimit", "--fsize=0"], files=files) as service:
        service.ask(b"query m1\n")
        assert (service.end(), service.history) == (1, b"")
        wanted = f"ggp_manager: {tmp_path}/history can't be used: the file can't be written\nggp_manager: bad file of calls: the file can't be written\n"
        assert service.errors == wanted


@pytest.mark.parametrize(
    ("options", "error"),
    [
        *(([f"--{option}=1"], "the following required arguments were not provided") for option in ("lines", "history", "records")),
        *((["--listen=127.0.0.1:0", f"--lines={value}"], f"invalid value '{value}' for '--lines'") for value in ("0", "65", "x", "")),
        *((["--listen=127.0.0.1:0", word], "cannot be used with") for word in ("--interactive", "script")),
        (["--listen=127.0.0.1:0", "--listen=127.0.0.1:0"], "cannot be used multiple times"),
        (["--listen=127.0.0.1:0", "--rules-file=game"], "exactly one of --countdown, --rules and --rules-file is needed"),
    ],
    ids=lambda value: " ".join(value) if isinstance(value, list) else "",
)
def test_usage_errors(options: list[str], error: str) -> None:
    said = subprocess.run([program(), "desk", "--why", COUNTDOWN, *options], stdin=subprocess.DEVNULL, capture_output=True, text=True)
    assert (said.returncode, said.stdout) == (2, "")
    assert error in said.stderr


def test_the_referee_over_four_connections(tmp_path: pathlib.Path) -> None:
    with serving(tmp_path, game=f"--rules-file={TICTACTOE}") as service:
        words = [sys.executable, EXAMPLES / "connections.py", service.address, TICTACTOE, "6"]
        played = subprocess.run(words, capture_output=True, text=True, check=True)
    assert [row.split()[:3] for row in played.stdout.splitlines()] == [[f"m{number}:", "finished", "after"] for number in range(1, 7)]
    assert one_line_each(service.calls())


def test_the_page_of_two_players(tmp_path: pathlib.Path, monkeypatch: pytest.MonkeyPatch) -> None:
    monkeypatch.syspath_prepend(EXAMPLES)
    page = importlib.import_module("page")

    def post(path: str, **fields: str) -> str:
        return urllib.request.urlopen(f"http://127.0.0.1:{server.server_port}{path}", urlencode(fields).encode()).read().decode()

    with serving(tmp_path, game=f"--rules-file={TICTACTOE}") as service, Desk.connect(service.address) as page.Handler.desk:
        with page.ThreadingHTTPServer(("127.0.0.1", 0), page.Handler) as server, ThreadPoolExecutor(1) as pool:
            pool.submit(server.serve_forever)
            links = page.re.findall("href=(/[^>]+)", post("/"))
            # The second player marks a cell that is not free, and the desk plays another cell instead.
            moves = [(0, "2 2"), (1, "1 1"), (1, "1 1"), (0, "3 3"), (1, "3 3"), (0, "1 3"), (1, "2 3"), (0, "3 1")]
            shown = [post(links[player], cell=cell) for player, cell in moves]
            server.shutdown()
    assert "Please wait." in shown[0] and "The match is over: x wins." in shown[-1]
    assert service.records.count(b'"phase":"finished"') == 1
    assert service.records.count(b"IL (mark 3 3)") == 1
