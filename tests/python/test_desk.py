"""`desk --interactive`, its client `ggp_tools.desk`, and examples/desk/referee.py."""

import asyncio
import json
import pathlib
import subprocess
import sys

import pytest
from ggp_tools.desk import Desk, DeskEnded, Hold, Over, Owe, Refused, Status
from support import GAMES, TOP, program

REFEREE = TOP / "examples/desk/referee.py"
COUNTDOWN = "--countdown=3"


def countdown_desk(*options: str) -> Desk:
    return Desk(COUNTDOWN, *options, program=program())


def play_countdown(desk: Desk, match_id: str) -> list[object]:
    """Plays a match where each player takes one. Returns the messages that were due to role 0."""
    desk.open(match_id, ["ann", "bob"])
    dues = []
    while dues[-1:] != [Over()]:
        dues.append(desk.next(match_id, 0))
        for role in (0, 1):
            due = desk.next(match_id, role)
            if isinstance(due, Owe):
                desk.submit(match_id, role, due.round, "(take 1)" if due.round % 2 != role else "noop")
    return dues


class Interrupted(str):
    """A call that is interrupted, for example by Ctrl-C."""

    def encode(self, *_: str) -> bytes:
        raise KeyboardInterrupt


def assert_an_interrupt_ends(desk: Desk) -> None:
    """Interrupts a call. The next call must not get the reply to the interrupted one."""
    with pytest.raises(KeyboardInterrupt):
        desk.reply(Interrupted("query m1"))
    with pytest.raises(DeskEnded, match="`query m2`"):
        desk.query("m2")


@pytest.mark.parametrize("script", sorted(GAMES.glob("*.script")), ids=lambda path: path.stem)
def test_each_reply_comes_before_the_next_call(script: pathlib.Path) -> None:
    words = [program(), "desk", "--interactive", f"--rules-file={script.with_suffix('.kif')}"]
    output = b""
    with subprocess.Popen(words, stdin=subprocess.PIPE, stdout=subprocess.PIPE) as desk:
        for row in script.read_bytes().splitlines(True):
            desk.stdin.write(row)
            desk.stdin.flush()
            output += desk.stdout.readline()
        output += desk.communicate()[0]
    assert (output, desk.returncode) == (script.with_suffix(".out").read_bytes(), 0)


@pytest.mark.parametrize("script", [b"", b"query m1", b"\n\nquery m1\r\n", b"open m1 0 1 1 a b\nabort m1\nno call"])
def test_the_output_is_that_of_desk(script: bytes) -> None:
    plain, interactive = (
        subprocess.run([program(), "desk", COUNTDOWN, *option], input=script, capture_output=True) for option in ([], ["--interactive"])
    )
    assert (interactive.stdout, interactive.returncode) == (plain.stdout, plain.returncode)
    assert interactive.stderr.splitlines()[-1:] == plain.stderr.splitlines()[-1:]


def test_a_match() -> None:
    with countdown_desk() as desk:
        dues = play_countdown(desk, "m1")
        plays = [Owe(round_, "play", joint) for round_, joint in enumerate(("NIL", "((take 1) noop)", "(noop (take 1))"), 1)]
        assert dues == [Owe(0, "start"), *plays, Owe(4, "stop", "((take 1) noop)"), Over()]
        assert desk.query("m1") == Status("finished", 4, 3, 0)
    assert [record.count('"goalValues":[100,0]') for record in desk.records] == [1]


def test_the_clocks_of_a_match() -> None:
    with countdown_desk() as desk:
        desk.open("m1", ["ann", "bob"])
        desk.open("m2", ["ann", "bob"], start=3, play=4, strikes=5)
    assert [[json.loads(record)[key] for key in ("startClock", "playClock", "strikes")] for record in desk.records] == [[10, 10, 0], [3, 4, 5]]


def test_calls_that_are_refused() -> None:
    with countdown_desk() as desk:
        desk.open("m1", ["ann", "bob"], strikes=1)
        for call, reason, round_ in (
            (lambda: desk.open("m1", ["ann", "bob"]), "idused", None),
            (lambda: desk.open("m2", ["ann"]), "wrongplayers", None),
            (lambda: desk.next("m2", 0), "nomatch", None),
            (lambda: desk.submit("m1", 0, 1, "noop"), "stale", 0),
            (lambda: desk.miss("m1", 2, 0), "norole", None),
            (lambda: desk.miss("m1", 1_000_000_000, 0), "norole", None),
        ):
            with pytest.raises(Refused, match=f"`: {reason}$" if round_ is None else f"`: {reason} {round_}$") as refused:
                call()
            assert (refused.value.reason, refused.value.round) == (reason, round_)
        desk.miss("m1", 0, 0, is_broken=True)
        assert desk.next("m1", 0) == Hold(0)
        desk.abort("m1")
        assert desk.next("m1", 0) == Owe(1, "abort")
    assert ['"startMarks":["CE",' in record for record in desk.records] == [True]


def test_values_that_are_not_words() -> None:
    # The desk also refuses the last row below, so it ends with exit status 1.
    with pytest.raises(DeskEnded, match="status 1"), countdown_desk() as desk:
        desk.open("m1", ["ann", "bob"])
        for call in (
            lambda: desk.query("m1 0"),
            lambda: desk.query(""),
            lambda: desk.next("m1", -1),
            lambda: desk.next("m1", 1_000_000_001),
            lambda: desk.submit("m1", 0, 0, "ready\nabort m1"),
            lambda: desk.reply("no call"),
        ):
            with pytest.raises(ValueError, match="expected a|is not a call"):
                call()
        desk.submit("m1", 0, 0, "")


def test_a_desk_of_no_game(capfd: pytest.CaptureFixture[str]) -> None:
    with pytest.raises(DeskEnded, match="`query m1`"), Desk("--rules=(role", program=program()) as desk:
        desk.query("m1")
    assert capfd.readouterr().err.endswith("ggp_manager: bad description\n")


def test_matches_at_once_in_asyncio() -> None:
    async def play() -> list[str]:
        async with countdown_desk() as desk:
            dues = await asyncio.gather(*(asyncio.to_thread(play_countdown, desk, f"m{number}") for number in range(5)))
        assert all(due == dues[0] for due in dues)
        return desk.records

    records = asyncio.run(play())
    assert len(records) == 5 and all('"phase":"finished"' in record for record in records)


def test_a_call_that_is_interrupted_ends_the_desk() -> None:
    with pytest.raises(DeskEnded, match="status -9"), countdown_desk() as desk:
        assert_an_interrupt_ends(desk)


@pytest.mark.parametrize("game", ["tictactoe", "roshambo"])
def test_the_referee(game: str) -> None:
    rules = GAMES / f"{game}.kif"
    played = subprocess.run([sys.executable, REFEREE, rules, "2", "--program", program()], capture_output=True, check=True)
    assert played.stderr == b""
    verified = subprocess.run([program(), "verify", "--lines", f"--rules-file={rules}"], input=played.stdout, capture_output=True)
    assert verified.stdout == b"lawful\nlawful\n"
