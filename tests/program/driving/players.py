"""Players of Countdown inside a test. One thread serves all players, each on a separate port. If a program that plays with the players is
killed, the players continue to run, and remember their messages."""
import asyncio
import random
import re
import threading

ROLES = ("red", "blue")


class Seat:
    """A match of Countdown as one player sees it, and the moves that this player sent."""

    def __init__(self, role, heap):
        self.role, self.heap, self.sent = role, heap, []

    def move(self, message, most):
        """Returns a legal move; the role whose turn it is takes at most this many. Red begins."""
        self.heap -= sum(map(int, re.findall(r"\(take (\d+)\)", message)))
        turn = ROLES[len(self.sent) % 2]
        self.sent.append(f"(take {min(self.heap, most)})" if turn == self.role else "noop")
        return self.sent[-1]


class Player:
    """A player that thinks for a given time before each answer. It plays any number of matches at a time. A strict player plays only one, and answers
    START with `busy` until this match is over. `padding` is the number of spaces that it adds to each answer."""

    def __init__(self, name, heap, think=0.0, is_strict=False, padding=0):
        self.name, self.heap, self.think, self.is_strict, self.padding = name, heap, think, is_strict, padding
        self.chance = random.Random(name)
        # Its roles in open matches, its last role in each finished match, and the ids of all matches that began.
        self.seats, self.over, self.begun = {}, {}, []
        # The number of complete messages that it has received, and of open connections.
        self.messages = self.serving = 0
        # The bytes that its connections received before or after a request.
        self.strays = []
        self.port = None

    def address(self):
        return f"{self.name}@127.0.0.1:{self.port}"

    def answer(self, message):
        word, match, rest = re.match(r"\(?(\w+) *([^ )]*) *(.*)", message, re.DOTALL).groups()
        word = word.upper()
        if word == "INFO":
            return "busy" if self.seats else "available"
        if word == "PLAY":
            return self.seats[match].move(rest, self.chance.randint(1, 2)) if match in self.seats else "busy"
        if word == "START":
            if self.is_strict and self.seats:
                return "busy"
            self.begun.append(match)
            self.seats[match] = Seat(rest.split()[0], self.heap)
            return "ready"
        if match in self.seats:
            self.over[match] = self.seats.pop(match)
        return "done"

    async def serve(self, reader, writer):
        self.serving += 1
        try:
            head = await reader.readuntil(b"\r\n\r\n")
            self.strays += [stray for stray in [head.partition(b"POST ")[0]] if stray]
            body = await reader.readexactly(int(re.search(rb"Content-Length: (\d+)", head)[1]))
            self.messages += 1
            answer = self.answer(body.decode()) + self.padding * " "
            await asyncio.sleep(self.think)
            writer.write(f"HTTP/1.0 200 OK\r\nContent-Length: {len(answer)}\r\n\r\n{answer}".encode())
            await writer.drain()
            self.strays += [stray for stray in [await reader.read()] if stray]
        except (OSError, asyncio.IncompleteReadError):
            pass  # the program has closed the connection, or was killed
        finally:
            self.serving -= 1
            writer.close()


class Hall(threading.Thread):
    """The thread that serves players. Each player has a port as soon as it is created."""

    def __init__(self, players):
        super().__init__(daemon=True)
        self.players, self.is_ready = players, threading.Event()
        self.start()
        self.is_ready.wait()
        if any(player.port is None for player in players):
            raise RuntimeError("a player can't be served; the thread that serves them says why")

    def run(self):
        try:
            asyncio.run(self.serve_all())
        finally:
            self.is_ready.set()

    async def serve_all(self):
        self.loop = asyncio.get_running_loop()
        servers = [await asyncio.start_server(player.serve, "127.0.0.1", 0, backlog=4096) for player in self.players]
        for player, server in zip(self.players, servers):
            player.port = server.sockets[0].getsockname()[1]
        self.is_ready.set()
        await asyncio.gather(*(server.serve_forever() for server in servers))

    def messages(self):
        """Returns the number of messages that the players received."""
        return sum(player.messages for player in self.players)

    def settle(self):
        """Waits until the players have read and answered all messages of a program that has ended."""
        asyncio.run_coroutine_threadsafe(self.settled(), self.loop).result()

    async def settled(self):
        # A waiting connection is accepted in the first of these pauses, and served in the second one.
        for _ in range(5):
            await asyncio.sleep(0.005)
        while any(player.serving for player in self.players):
            await asyncio.sleep(0.005)
