"""A server that answers the calls of `bench/service`, written with asyncio and Python objects. The server in service.rs answers
the calls in the same way. The server prints its address."""

import asyncio

HEAP = 100


class Match:
    """A match of Countdown."""

    def __init__(self) -> None:
        self.round, self.heap, self.substitutions, self.is_over = 0, HEAP, 0, False
        self.answers, self.turns = list[str | None]([None, None]), list[list[str]]()

    def phase(self) -> str:
        return "starting" if self.round == 0 else "playing" if self.heap else "finished" if self.is_over else "stopping"

    def next(self, role: int) -> str:
        if self.is_over:
            return "over"
        if self.answers[role] is not None:
            return f"hold {self.round}"
        if self.round == 0:
            return "owe 0 start"
        joint = f"({' '.join(self.turns[-1])})" if self.turns else "NIL"
        return f"owe {self.round} {'play' if self.heap else 'stop'} {joint}"

    def submit(self, role: int, round_: int, answer: str) -> str:
        if self.is_over:
            return "refused over"
        if round_ != self.round:
            return f"refused stale {self.round}"
        if self.answers[role] is not None:
            return "refused twice"
        self.answers[role] = answer
        if None not in self.answers:
            self.advance()
            self.answers = [None, None]
        return "taken"

    def advance(self) -> None:
        if self.round and not self.heap:
            self.is_over = True
            return
        if self.round:
            legal = [("noop",) if self.round % 2 == role else ("(take 1)", "(take 2)")[: self.heap] for role in (0, 1)]
            turn = [answer if answer in moves else moves[0] for answer, moves in zip(self.answers, legal)]
            self.substitutions += turn[0] != self.answers[0] or turn[1] != self.answers[1]
            self.heap -= 2 if "(take 2)" in turn else 1
            self.turns.append(turn)
        self.round += 1


class Desk:
    def __init__(self) -> None:
        self.matches, self.history = dict[str, Match](), list[tuple[str, str]]()

    def reply(self, row: str) -> str:
        match row.split(" ", 4):
            case ["open", id_, *_]:
                is_new = id_ not in self.matches
                self.matches.setdefault(id_, Match())
                return "opened" if is_new else "refused idused"
            case [_, id_, *_] if id_ not in self.matches:
                return "refused nomatch"
            case ["next", id_, role]:
                return self.matches[id_].next(int(role))
            case ["submit", id_, role, round_, answer]:
                return self.matches[id_].submit(int(role), int(round_), answer)
            case ["query", id_]:
                match = self.matches[id_]
                return f"status {match.phase()} round {match.round} turns {len(match.turns)} substitutions {match.substitutions}"
        return "badline"

    def call(self, row: str) -> str:
        reply = self.reply(row)
        self.history.append((row, reply))
        return reply


class Connection(asyncio.Protocol):
    def __init__(self, desk: Desk) -> None:
        self.desk, self.rest = desk, b""

    def connection_made(self, transport: asyncio.Transport) -> None:
        self.transport = transport

    def data_received(self, data: bytes) -> None:
        *rows, self.rest = (self.rest + data).split(b"\n")
        self.transport.write("".join(f"{self.desk.call(row.decode())}\n" for row in rows).encode())


async def main() -> None:
    desk = Desk()
    server = await asyncio.get_running_loop().create_server(lambda: Connection(desk), "127.0.0.1", 0)
    print(f"listening on 127.0.0.1:{server.sockets[0].getsockname()[1]}", flush=True)
    await server.serve_forever()


if __name__ == "__main__":
    asyncio.run(main())
