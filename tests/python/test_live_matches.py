"""Compares the live pages of an open match with its record, after each line of the log, for players with arbitrary answers."""

import json
import math
import random
import socket
import subprocess
import threading

import pytest

from ggp_tools.competition.live import LiveMatch, OpenFiles
from ggp_tools.competition.live_board import LiveBoard
from ggp_tools.competition.schedule import Match
from ggp_tools.competition.tail import Extent, Tail
from ggp_tools.match_log import ENDS, Message, event_of
from ggp_tools.referee import Referee
from players import message_of
from support import InFolder, program

# Seven turns, and moves named like errors.
STEPS = "".join(f"(<= (next (step {step + 1})) (true (step {step})))" for step in range(1, 8))
RULES = f"(role a) (role b) (init (step 1)) {STEPS} (<= terminal (true (step 8))) (goal a 100) (goal b 0)"
RULES += "".join(f"(legal {role} {move}) (<= (next (did {role} {move})) (does {role} {move}))" for role, move in (
    ("a", "to"), ("a", "lost"), ("a", "noop"), ("b", "noop"), ("b", "to"),
))
# None means that the connection is closed without an answer.
LEGAL = b"noop", b"NOOP\n", b" to ", b"noop\r\n", b"TO", b"to\t", b"; mine\nto", b"; a\n;b\r\nnoop ; c\n", b" " * 250 + b"to", b"to ;" + b"x" * 250
LEGAL += b";" + b"\xff" * 4_000 + b"\nto", b"\n" * 4_094 + b"to"
ILLEGAL = b"bad", b"(noop)", b"noop noop", b"", b"bad\n", None, b"no\xe9op", b"ce", b"CE", b"to\n; more\n(to", b"noop;\n;" + b"x" * 4_096, b"x" * 65_536
MISLEADING = b"to\xc2\xa0", b"noop\0", b"to\f", b"?to", b"; to", b"; a?to", b"to ?", b"x" * 250, b" " * 250 + b"bad", b"lost (out of memory)", b'"to\\'


class Saying(threading.Thread):
    """A player with given answers."""

    def __init__(self, answers: list[bytes | None]) -> None:
        super().__init__(daemon=True)
        self.answers, self.socket = iter(answers), socket.create_server(("127.0.0.1", 0))
        self.place = "127.0.0.1:%d" % self.socket.getsockname()[1]
        self.start()

    def run(self) -> None:
        while True:
            try:
                connection, _ = self.socket.accept()
            except OSError:
                return
            with connection:
                answer = next(self.answers) if message_of(connection).startswith("(PLAY") else b"ready"
                if answer is not None:
                    connection.sendall(b"HTTP/1.0 200 OK\r\nContent-Length: %d\r\n\r\n%s" % (len(answer), answer))


class Counting(Referee):
    """The referee, and how often somebody asked the desk of this referee."""

    asked = 0

    def desk(self, *words: object) -> tuple[list[str], dict]:
        self.asked += 1
        return super().desk(*words)


def round_of(message: Message) -> float:
    return math.inf if message.kind in ENDS else message.turn()


class Matches(InFolder):
    def setUp(self) -> None:
        super().setUp()
        (self.folder / "rules").write_text(RULES)
        self.match = Match("m", "g", 20, 20, ("ann", "bob"))

    def played(self, seed: int) -> tuple[list[bytes], dict]:
        """Returns the lines of a match's log, and its record."""
        choice = random.Random(seed)
        badness = choice.choice((0.2, 0.5, 0.8))
        answers = [[choice.choice(ILLEGAL + MISLEADING if choice.random() < badness else LEGAL) for _ in range(9)] for _ in range(2)]
        players, log = [Saying(said) for said in answers], self.folder / f"{seed}.jsonl"
        places = [f"{name}@{player.place}" for name, player in zip(self.match.players, players)]
        words = Referee(program()).run_words(self.folder / "rules", None, self.match, seed % 4, places, log)
        done = subprocess.run(words, capture_output=True, check=True)
        for player in players:
            player.socket.shutdown(socket.SHUT_RDWR)
            player.join()
            player.socket.close()
        return log.read_bytes().splitlines(keepends=True), json.loads(done.stdout.partition(b"\n")[0])

    def compare(self, seeds: range) -> None:
        retired = 0
        for seed in seeds:
            lines, record = self.played(seed)
            with self.subTest(seed=seed):
                self.follow(lines, record)
            retired += any("RT" in turn for turn in record["errors"])
        self.assertGreater(retired, 2)

    def follow(self, lines: list[bytes], record: dict) -> None:
        log, referee, count = self.folder / "log", Counting(program()), 0
        log.write_bytes(b"")
        board = LiveBoard(self.match, record["strikes"], self.folder / "rules")
        seen = LiveMatch(self.match, ("a", "b"), Tail(str(log), event_of), board)
        messages = [event for event in map(event_of, lines) if isinstance(event, Message)]
        for line in lines:
            with open(log, "ab") as file:
                file.write(line)
            seen.update(OpenFiles("playing", Extent(log.stat().st_size)), 0.0)
            count += isinstance(event_of(line), Message)
            if board.is_due():
                seen.advance(referee)
            self.assertFalse(board.is_due())
            self.assert_shown(seen, messages[:count], messages[count:], record)
        self.assertEqual((board.position.moves, board.position.errors, board.position.states), (record["moves"], record["errors"], record["states"]))
        total = sum(bool(error) for errors in record["errors"] for error in errors)
        self.assertEqual([move.before for move in seen.replaced], list(range(max(0, total - 3), total)))
        # The first state, START and each turn.
        self.assertEqual(referee.asked, 2 + len(record["moves"]))

    def assert_shown(self, seen: LiveMatch, before: list[Message], after: list[Message], record: dict) -> None:
        """Checks the page after some answers. The expected page is computed with the help of the later messages."""
        position, left = seen.board.position, set(map(round_of, after))
        turns = [turn for turn in range(1, len(record["moves"]) + 1) if turn not in left and 0 not in left]
        self.assertEqual(seen.board.trouble, "")
        self.assertEqual(position.moves, record["moves"][: len(turns)])
        self.assertEqual(position.errors, record["errors"][: len(turns)])
        self.assertEqual(position.states, record["states"][: len(turns) + 1])
        self.assertTrue(all(round_of(message) not in left for message in seen.last.values()))
        if after:
            now = min(left)
            self.assertEqual(seen.awaited(), sorted({message.role for message in after if round_of(message) == now}))
            self.assertEqual((seen.is_ending(), seen.turn()), (math.isinf(now), len(turns) + 1 if math.isinf(now) else now))
        missed = [message for message in before if message.error and round_of(message) not in left]
        self.assertEqual(sum(seen.missed.values()), len(missed))

    def test_at_each_line_a_match_is_as_its_record_has_it(self):
        self.compare(range(20))

    @pytest.mark.gate
    def test_at_each_line_many_matches_are_as_their_records_have_them(self):
        self.compare(range(20, 220))
