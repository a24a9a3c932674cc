#!/usr/bin/env python3
"""An example player that plays random legal moves over HTTP, for ground GDL.

    player.py PORT [SEED]

It listens on 127.0.0.1, answers INFO, START, PLAY, STOP and ABORT, and plays one match at a time: the match of the last START. If its port
receives messages for several names, it plays one match for each name. SEED is a whole number; the same SEED gives the same moves. The
player needs only Python's standard library."""

import argparse
import queue
import random
import re
import select
import sys
import threading
import time
import traceback
from collections.abc import Callable
from concurrent.futures import Future
from dataclasses import dataclass
from http.server import BaseHTTPRequestHandler, ThreadingHTTPServer

# The maximum length and nesting of messages. START is the longest message: the rules of a large game have at most 16,777,216 bytes, and
# printing them may add a space for each atom and each list.
MOST_BYTES, MOST_LISTS = 33_554_432, 66
# The longest answer that is a move.
MOST_ANSWER = 4_096
# A pipe that is ready for writing accepts at least this many bytes at once.
MOST_SAID = 4_000
# If a referee is this many seconds late with its next message, the player counts as available again.
PATIENCE = 10
# Rules are evaluated by recursion. Each of 262,144 sentences may use the next one, inside some lists. This exceeds Python's default limit.
DEEPEST = 4_000_000


def tokens(text):
    return re.findall(r"[()]|[^\s()]+", re.sub(r";[^\n]*", "", text))


def read(text):
    """Parses KIF. An atom becomes a string, and a list becomes a tuple. Upper-case letters become lower case."""
    stack = [[]]
    for token in tokens(text.lower()):
        if token == "(":
            if len(stack) > MOST_LISTS:
                raise ValueError("lists are nested too deeply")
            stack.append([])
        elif token == ")":
            done = tuple(stack.pop())
            stack[-1].append(done)
        else:
            stack[-1].append(token)
    return stack[0]


def read_message(text):
    """Parses a message. Upper-case letters are kept only in the id of the match, which follows the keyword."""
    message = read(text)[0]
    return (message[0], tokens(text)[2], *message[2:]) if isinstance(message, tuple) and len(message) > 1 else message


def show(expression):
    """Returns the canonical text of an expression."""
    if isinstance(expression, str):
        return expression
    return "(" + " ".join(map(show, expression)) + ")"


class Game:
    """The game that ground GDL rules define."""

    def __init__(self, sentences):
        self.bodies = {}
        for sentence in sentences:
            is_rule = sentence[0] == "<=" and isinstance(sentence, tuple)
            head, body = (sentence[1], sentence[2:]) if is_rule else (sentence, ())
            self.bodies.setdefault(head, []).append(body)
        self.roles = [head[1] for head in self.heads("role")]

    def heads(self, relation):
        return [head for head in self.bodies if isinstance(head, tuple) and head[0] == relation]

    def true_heads(self, relation, state, joint=()):
        known = {}
        return [head for head in self.heads(relation) if self.holds(head, state, joint, known)]

    def holds(self, literal, state, joint, known):
        """Returns whether a literal is true in a state, if the `does` sentences of `joint` hold."""
        match literal:
            case ("not", inner):
                return not self.holds(inner, state, joint, known)
            case ("or", *inner):
                for alternative in inner:
                    if self.holds(alternative, state, joint, known):
                        return True
                return False
            case ("distinct", left, right):
                return left != right
            case ("true", term):
                return term in state
            case ("does", _, _):
                return literal in joint
        if literal not in known:
            known[literal] = self.is_derived(literal, state, joint, known)
        return known[literal]

    def is_derived(self, head, state, joint, known):
        """Returns whether all literals of some rule for this head are true."""
        # These are loops, because `any` and `all` would use more of the stack for each rule.
        for body in self.bodies.get(head, []):
            for literal in body:
                if not self.holds(literal, state, joint, known):
                    break
            else:
                return True
        return False

    def initial(self):
        return {head[1] for head in self.true_heads("init", set())}

    def next(self, state, moves):
        joint = {("does", role, move) for role, move in zip(self.roles, moves)}
        return {head[1] for head in self.true_heads("next", state, joint)}

    def legal(self, state, role):
        return [head[2] for head in self.true_heads("legal", state) if head[1] == role]


@dataclass
class Seat:
    """A role that the player plays in a match."""

    match_id: str
    role: object
    game: Game
    state: set
    # The longer of the two clocks, and the deadline for the next message.
    clock: int
    expected: float = 0.0

    def expect(self):
        self.expected = time.monotonic() + self.clock + PATIENCE


class Player:
    """For each value of the header `Receiver`, the player has a separate match, and answers its messages. Two roles of a match, or two
    players of different matches, may have the same address under different names. A message for one name changes nothing for the others."""

    def __init__(self, choose, game=Game):
        self.choose, self.make_game = choose, game
        self.seats = {}

    def answer(self, message, receiver=""):
        match message:
            case "info" | ("info",):
                seat = self.seats.get(receiver)
                return "busy" if seat and time.monotonic() < seat.expected else "available"
            case ("start", match_id, role, rules, start, play):
                game = self.make_game(rules)
                # This ends the receiver's earlier match, but only after the rules have been read successfully.
                self.seats[receiver] = seat = Seat(match_id, role, game, game.initial(), max(int(start), int(play)))
                seat.expect()
                return "ready"
            case ("play", match_id, moves) if (seat := self.seats.get(receiver)) and seat.match_id == match_id:
                if moves not in ("nil", ()):
                    seat.state = seat.game.next(seat.state, moves)
                seat.expect()
                moves = [show(move) for move in seat.game.legal(seat.state, seat.role)]
                return self.choose([move for move in moves if len(move) <= MOST_ANSWER] or moves)
            case ("stop", match_id, _) | ("abort", match_id):
                # There may be no such match.
                if (seat := self.seats.get(receiver)) and seat.match_id == match_id:
                    del self.seats[receiver]
                return "done"
        return "busy"


def is_waiting(stream):
    """Returns whether a stream is not ready for writing, for example because it is a full pipe without a reader."""
    try:
        return not select.select([], [stream], [], 0)[1]
    except (OSError, ValueError):
        return False


def say(text):
    """Prints a line on standard error at once, because other players may print there too. Anyone can send a message, so only visible
    characters are printed. If the output has no reader, drops the line."""
    seen = "".join(character if " " <= character <= "~" or character == "\n" else "?" for character in text[-MOST_SAID:])
    try:
        if sys.stderr and not is_waiting(sys.stderr):
            print(f"{seen}\n", end="", file=sys.stderr)
    except OSError:
        pass


class Handler(BaseHTTPRequestHandler):
    # A connection that sends nothing for this many seconds is closed.
    timeout = 10

    def do_POST(self):
        size = self.headers["Content-Length"] or ""
        if not re.fullmatch("[0-9]{1,8}", size) or int(size) > MOST_BYTES:
            self.send_error(400)
            return
        body = self.rfile.read(int(size)).decode("ascii")
        answer = self.server.answer(read_message(body), self.headers["Receiver"])
        self.send_response(200)
        self.send_header("Content-Type", "text/acl")
        self.send_header("Content-Length", str(len(answer)))
        self.end_headers()
        self.wfile.write(answer.encode("ascii"))
        say(f"{self.headers['Receiver']}: {body[:60]} -> {answer}")

    def log_message(self, format, *arguments):
        pass


class Server(ThreadingHTTPServer):
    """Reads each message in a separate thread, so that a slow connection does not block others. One thread answers all messages in the
    order of their arrival. The next message may come before a late answer is ready."""

    # The maximum number of waiting connections.
    request_queue_size = 128

    def __init__(self, address, player):
        super().__init__(address, Handler)
        self.player, self.asked = player, queue.SimpleQueue()
        sys.setrecursionlimit(DEEPEST)
        threading.Thread(target=self.work, daemon=True).start()

    def work(self):
        for message, receiver, answered in iter(self.asked.get, None):
            try:
                answered.set_result(self.player.answer(message, receiver))
            except Exception as why:
                answered.set_exception(why)

    def answer(self, message, receiver):
        answered = Future()
        self.asked.put((message, receiver, answered))
        return answered.result()

    def handle_error(self, request, client_address):
        """Prints an error. The server continues with the next message."""
        say(traceback.format_exc())


def serve(port, player):
    try:
        server = Server(("127.0.0.1", port), player)
    except OSError as why:
        sys.exit(f"port {port}: {why.strerror}")
    try:
        server.serve_forever()
    except KeyboardInterrupt:
        pass


def port(word: str) -> int:
    if not re.fullmatch("[0-9]{1,5}", word) or not 1 <= int(word) <= 65535:
        raise argparse.ArgumentTypeError(f"expected a port from 1 to 65535, found {word!r}")
    return int(word)


def seed(word: str) -> int:
    if not re.fullmatch("-?[0-9]{1,18}", word):
        raise argparse.ArgumentTypeError(f"expected a whole number of at most 18 digits, found {word!r}")
    return int(word)


def arguments(about: str, seed_of: Callable[[str], int | str] = seed) -> argparse.Namespace:
    """Parses the port of a player and its optional seed."""
    words = argparse.ArgumentParser(description=about, formatter_class=argparse.RawDescriptionHelpFormatter)
    words.add_argument("port", metavar="PORT", type=port)
    words.add_argument("seed", metavar="SEED", nargs="?", type=seed_of)
    return words.parse_args()


def main() -> None:
    asked = arguments(__doc__)
    serve(asked.port, Player(random.Random(asked.seed).choice))


if __name__ == "__main__":
    main()
