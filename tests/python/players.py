"""Good and bad players for tests. The players run in threads of the test, so they keep running when a run is killed."""

import random
import socket
import threading
import time

from driving.asking import body_of as message_of
from support import outside

# START and the rules are parsed by the code of the example players, not by the package.
example, interpreting = outside("player"), outside("interpreting")

SLOW, DRIP, AWAY = 0.12, 0.3, 1.0
# A player that dies does so whenever it receives the PLAY message with this number.
LIFE = 7
# Sockets that accept no connection. Each reserves the port of a player that is away or gone.
HELD = []


def held_port(at):
    """Returns a port of an address. While the tests run, no other program listens on this port."""
    HELD.append(socket.socket())
    HELD[-1].setsockopt(socket.SOL_SOCKET, socket.SO_REUSEADDR, 1)
    HELD[-1].bind((at, 0))
    return HELD[-1].getsockname()[1]


class TestPlayer(threading.Thread):
    """A strict player: while it plays its maximum number of matches, it answers INFO accordingly, and refuses START. It remembers the
    matches that it accepted, and the rules of each. It can play under ground rules and under rules with variables."""

    __test__ = False

    def __init__(self, name, kind="good", seed=0, most=1, at="127.0.0.1"):
        super().__init__(daemon=True)
        self.name, self.kind, self.random = name, kind, random.Random(seed)
        # The player's role, game and state in each match that it plays.
        self.matches, self.most, self.plays = {}, most, 0
        # The maximum number of matches that it has played at the same time.
        self.sat = 0
        # The ids of the matches that began, of the matches that were aborted, and of the matches that were offered during another match.
        self.begun, self.aborted, self.clashes = [], [], []
        # The kind and the match of each message of a match, in order.
        self.heard = []
        self.told = {}
        self.status, self.is_gone = None, False
        # For each kind of message, how many seconds it thinks before it answers.
        self.thinks, self.thinks_at = 0.0, ("play",)
        self.at, self.port = at, held_port(at)
        self.come_back()
        self.start()

    def place(self):
        return f"{self.at}:{self.port}"

    def go_away(self):
        """Stops listening, but keeps the player's state."""
        self.socket.shutdown(socket.SHUT_RDWR)
        self.socket.close()

    def come_back(self):
        """Listens again."""
        self.socket = socket.create_server((self.at, self.port), backlog=64)

    def leave(self):
        """Stops listening for good."""
        self.is_gone = True
        self.socket.shutdown(socket.SHUT_RDWR)
        self.join()
        self.socket.close()

    def run(self):
        while not self.is_gone:
            try:
                connection, _ = self.socket.accept()
            except OSError:
                time.sleep(0.01)
                continue
            with connection:
                try:
                    self.serve(connection)
                except OSError:
                    pass  # the referee has closed the connection

    def serve(self, connection):
        body = message_of(connection)
        message = example.read(body)[0]
        is_play = message[0] == "play"
        self.plays += is_play
        if self.kind == "dying" and is_play and self.plays % LIFE == 0:
            self.die(connection)
            return
        answer = self.answer(message)
        time.sleep(SLOW * (self.kind == "slow") + self.thinks * (message[0] in self.thinks_at))
        if self.kind == "closing" and is_play:
            return
        reply = f"HTTP/1.0 200 OK\r\nContent-Length: {len(answer)}\r\n\r\n{answer}".encode()
        if self.kind == "dripping" and is_play:
            for byte in reply:
                connection.sendall(bytes([byte]))
                time.sleep(DRIP)
        else:
            connection.sendall(reply)

    def die(self, connection):
        """Stops listening for a while, and discards the player's state."""
        connection.close()
        self.socket.close()
        time.sleep(AWAY)
        self.matches.clear()
        self.come_back()

    def last_heard(self):
        """Returns the kind of the last message of each match."""
        return {match: kind for kind, match in self.heard}

    def answer(self, message):
        self.heard += [message[:2]] * (len(message) > 1)
        match message:
            case ("info",):
                return self.status or ("busy" if len(self.matches) >= self.most else "available")
            case ("start", match, role, rules, _, _):
                if match in self.matches or len(self.matches) >= self.most:
                    self.clashes.append(match)
                    return "busy"
                game = interpreting.Game(rules) if has_variables(rules) else example.Game(rules)
                self.matches[match] = role, game, game.initial()
                self.sat = max(self.sat, len(self.matches))
                self.begun.append(match)
                self.told[match] = rules
                return "ready"
            case ("play", match, moves) if match in self.matches:
                return self.move(match, moves)
            case ("play", _, _):
                return "busy" if self.matches else "lost"
            case ("stop", match, _) | ("abort", match):
                self.aborted += [match] * (message[0] == "abort")
                self.matches.pop(match, None)
        return "done"

    def move(self, match, moves):
        role, game, state = self.matches[match]
        if moves not in ("nil", ()):
            state = game.next(state, moves)
            self.matches[match] = role, game, state
        legal = game.legal(state, role)
        lies = self.kind == "lying" or self.kind == "lying at a choice" and len(legal) > 1
        return "(no such move)" if lies else example.show(self.random.choice(legal))


def has_variables(expression):
    return expression.startswith("?") if isinstance(expression, str) else any(map(has_variables, expression))
